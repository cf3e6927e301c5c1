//! Rules typed as text: all short ones, all spoilings of one byte, the longest, and what the random ones meet.
use compare::compare::{across, put, Met};
use compare::proved::Form;
use compare::request::Request;
use compare::requests::request;
use reference::generate_text::TEXTS;
use reference::text::{nodes_added, tokens, Item, Token};
use reference::{No, TOP};
use std::collections::BTreeMap;

/// A text, with so many words lent.
fn typed<W: Form>(text: &[u8], words: usize) -> Request<W> {
    Request::Text { text: text.into(), out: vec![W::from(7); words].into(), numbers: vec![8; 2].into() }
}

/// Puts a text to both in the first form.
fn ask(text: &[u8], words: usize, met: &mut Met) {
    put(&typed::<u32>(text, words), met).unwrap_or_else(|e| panic!("{:?}: {e}", String::from_utf8_lossy(text)));
}

/// Puts a text to both in either form, and to the proved code across the forms.
fn ask_in_both(text: &[u8], words: usize, met: &mut Met) {
    ask(text, words, met);
    put(&typed::<u64>(text, words), met)
        .and_then(|_| across(&typed(text, words), met))
        .unwrap_or_else(|e| panic!("{:?}: {e}", String::from_utf8_lossy(text)));
}

#[rustfmt::skip]
const TOKENS: [&str; 19] = [
    "true", "false", "not", "wprev", "prev", "once", "sofar", "since", "and", "or", "implies", "(", ")", "r", "r1", "r2<3", "=", "1", "16384",
];

/// All texts of up to five tokens, one after the other with a space between them and without; of up to three in both forms.
#[test]
fn every_short_text() {
    let mut met = Met::default();
    for length in 0..=5 {
        let ask = if length < 4 { ask_in_both } else { ask };
        for code in 0..TOKENS.len().pow(length) {
            let tokens: Vec<&str> = (0..length).map(|k| TOKENS[code / TOKENS.len().pow(k) % TOKENS.len()]).collect();
            ask(tokens.join(" ").as_bytes(), 34, &mut met);
            ask(tokens.concat().as_bytes(), 5, &mut met);
        }
    }
    println!("{met:?}");
    assert!([0, 13, 16, 17, 18].iter().all(|&number| met.with_result(number) > 0), "{met:?}");
}

/// Twenty texts with each byte in turn left out, doubled, changed to every other, and every other put before it.
#[test]
fn every_spoiling_of_one_byte() {
    let mut met = Met::default();
    let ask = ask_in_both;
    for text in TEXTS.map(str::as_bytes) {
        for at in 0..=text.len() {
            let (before, after) = text.split_at(at);
            ask(before, 32, &mut met);
            for byte in 0..=255 {
                ask(&[before, &[byte], after].concat(), 32, &mut met);
            }
            if let [here, after @ ..] = after {
                ask(&[before, after].concat(), 32, &mut met);
                ask(&[before, &[*here, *here], after].concat(), 32, &mut met);
                for byte in 0..=255 {
                    ask(&[before, &[byte], after].concat(), 32, &mut met);
                }
            }
        }
    }
    println!("{met:?}");
}

/// Ten thousand brackets, as many words, numbers of a thousand digits and of a million, and each of them wrong at the end.
#[test]
fn long_texts() {
    let mut met = Met::default();
    let many = |text: &str| text.repeat(10_000);
    let (zeros, nines) = ("0".repeat(1_000), "9".repeat(1_000));
    for text in [
        format!("{}r1=1{}", many("("), many(")")),
        format!("not{}r1=1 or r2=2{}since r3=3", many("("), many(")")),
        format!("{}r16=1{}", many("("), many(")")),
        format!("{}true{}", many("not("), many(")")),
        format!("{}true{}", many("true and ("), many(")")),
        format!("{}r1=1", many("not ")),
        format!("{}r1=1", many("r1=1 implies ")),
        format!("{}r1=1", many("r1=1 since ")),
        format!("r1=1{}", many(" ")),
        format!("r{zeros}15<{zeros}16383"),
        format!("r{zeros}15<{zeros}16384"),
        format!("r{nines}=1"),
        format!("r1={nines}"),
        format!("r1={}", nines.repeat(1_000)),
        format!("r1={}1", zeros.repeat(1_000)),
    ] {
        let text = text.as_bytes();
        for text in [text, &text[..text.len() - 1], &[text, b")"].concat(), &[text, b"x"].concat(), &[text, b" or"].concat()] {
            ask_in_both(text, 32, &mut met);
        }
    }
    println!("{met:?}");
}

/// Texts of one node to 71, by each word, with one word too few, as many as are needed, and one more.
#[test]
fn every_count_of_nodes() {
    let mut met = Met::default();
    // a word, and how many nodes it adds
    for (word, nodes) in [("wprev ", 1), ("not ", 2), ("r1=1 implies ", 2), ("once ", 4), ("prev ", 5), ("r1=1 and ", 6), ("sofar ", 8)] {
        for count in 0..=70 / nodes {
            let (text, needed) = (format!("{}r2<3", word.repeat(count)), nodes * count + 1);
            for words in needed - 1..=needed + 1 {
                ask_in_both(text.as_bytes(), words, &mut met);
            }
        }
    }
    println!("{met:?}");
    // the first form refuses more of them with 18
    let refused = ["guard_text", "guard_text64"].map(|name| met.results[&(name, 18)]);
    assert!(refused[0] > refused[1] && refused[1] > 0, "{met:?}");
}

const PREFIXES: [&str; 5] = ["not", "wprev", "prev", "once", "sofar"];
const INFIXES: [&str; 4] = ["since", "and", "or", "implies"];

/// Two words with one operand between them, both inside the same brackets or one inside more: every way in which one of them could take
/// the operand from the other.
fn neighbours(tokens: &[Token]) -> Vec<String> {
    let mut names = vec![];
    for three in tokens.windows(3) {
        let (Item::Word(before), Item::Word(after)) = (three[0].item, three[2].item) else { continue };
        let before = if PREFIXES.contains(&before) { "prefix" } else { before };
        if INFIXES.contains(&after) && (before == "prefix" || INFIXES.contains(&before)) {
            names.push(match three[0].depth.cmp(&three[2].depth) {
                std::cmp::Ordering::Equal => format!("{before} {after}"),
                std::cmp::Ordering::Less => format!("{before} ({after})"),
                std::cmp::Ordering::Greater => format!("({before}) {after}"),
            });
        }
    }
    names
}

/// What a text that the grammar refuses is like.
fn wrong(text: &[u8], place: usize) -> Vec<&'static str> {
    let mut names = vec![];
    let count = |byte: u8| text.iter().filter(|&&b| b == byte).count();
    match text.get(place) {
        None if text.is_empty() => names.push("empty"),
        None if count(b' ') == text.len() => names.push("spaces alone"),
        None if count(b'(') > count(b')') => names.push("brackets left open"),
        None => names.push("ends too soon"),
        Some(128..) => names.push("a byte above 127"),
        Some(b'\t') => names.push("a tab"),
        Some(b'\n') => names.push("a newline"),
        Some(b'A'..=b'Z') => names.push("a capital"),
        Some(b')') => names.push("a bracket too many"),
        Some(b'0'..=b'9') => names.push("a number out of place"),
        Some(_) => {}
    }
    let apart = [&text[..place], b" ", &text[place..]].concat();
    if tokens(&apart).map_or_else(|no| no.place > place + 1, |_| true) && place < text.len() {
        names.push("words that touch");
    }
    let numbers = text[..place].split(|byte| !byte.is_ascii_digit());
    if numbers.map(|digits| digits.iter().skip_while(|&&digit| digit == b'0').count()).any(|digits| digits > 5) {
        names.push("16 after a number out of range");
    }
    names
}

/// What a text of the grammar is like, with so many words lent, in a form that allows so many nodes.
fn right(tokens: &[Token], words: usize, most: usize) -> Vec<&'static str> {
    let nodes: usize = tokens.iter().map(|token| nodes_added(&token.item)).sum();
    let out_of_range = tokens.iter().find_map(|token| match token.item {
        Item::Test { register, .. } if register.value > 15 => Some("17 for a register"),
        Item::Test { number, .. } if number.value > TOP.into() => Some("17 for a number"),
        _ => None,
    });
    match (out_of_range, nodes) {
        (Some(name), _) if nodes > most => vec![name, "17 before 18"],
        (Some(name), _) => vec![name],
        (None, _) if nodes == most + 1 => vec!["18 at one node too many"],
        (None, 100..) => vec!["18 at 100 nodes or more"],
        (None, _) if nodes > most && words < nodes => vec!["18 before 13"],
        (None, _) if nodes > most => vec![],
        (None, _) if nodes == most && words == most => vec!["the most nodes, as many words"],
        (None, _) if words == nodes => vec!["as many words as nodes"],
        (None, _) if words + 1 == nodes => vec!["13, one word short"],
        (None, _) if words < nodes => vec!["13, more words short"],
        (None, _) => vec!["more words than nodes"],
    }
}

/// The requests meet every word of a text, every two words that could take an operand from each other, and every refusal in each of
/// its ways.
fn texts_meet<W: Form>() {
    let mut met: BTreeMap<String, u32> = BTreeMap::new();
    for n in (7..200_000).step_by(8) {
        let Request::Text { text, out, .. } = request::<W>(20_261_115, n) else { panic!("every eighth request is a text") };
        let mut names: Vec<String> = vec![];
        match tokens(&text) {
            Err(No { place, .. }) => names.extend(wrong(&text, place).iter().map(|name| name.to_string())),
            Ok(tokens) => {
                names.extend(right(&tokens, out.len(), W::MOST_NODES).iter().map(|name| name.to_string()));
                names.extend(neighbours(&tokens));
                names.extend(tokens.iter().map(|token| match token.item {
                    Item::Word(word) => word.to_string(),
                    Item::Test { sign, .. } => sign.to_string(),
                }));
            }
        }
        for name in names {
            *met.entry(name).or_default() += 1;
        }
    }
    println!("{met:#?}");
    // 5 words with 4 after them in 3 ways, 13 words and signs, 12 ways of being wrong, 11 others
    assert!(met.len() == 60 + 13 + 12 + 11 && met.values().all(|&n| n >= 20), "{met:?}");
}

#[test]
fn texts_meet_the_grammar() {
    texts_meet::<u32>();
    texts_meet::<u64>();
}

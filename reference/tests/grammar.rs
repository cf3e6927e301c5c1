//! 16's place by its definition, over the grammar as productions.
use reference::generate_text::{random_text, TEXTS};
use reference::random::Rng;
use reference::text::tokens;
use std::collections::HashSet;

/// The grammar's names. A formula's two truths: does it begin with a word, does it end with one?
#[derive(Clone, Copy, PartialEq, Debug)]
enum Name {
    Text,
    Spaces,
    Digits,
    Sign,
    Prefix,
    Infix,
    Formula(bool, bool),
}

#[derive(Clone, Copy, PartialEq)]
enum Symbol {
    Byte(u8),
    Digit,
    Name(Name),
}

type Grammar = Vec<(Name, Vec<Symbol>)>;

/// The request's sentences as productions. They leave open how words bind and group: of that question 16 does not ask.
fn grammar() -> Grammar {
    let letters = |word: &str| word.bytes().map(Symbol::Byte).collect::<Vec<_>>();
    let name = |name: Name| vec![Symbol::Name(name)];
    let formula = |begins, ends| vec![Symbol::Name(Name::Formula(begins, ends))];
    // spaces may stand between words, numbers and signs and at either end, and must between two words
    let gap = |between_words: bool| [letters(if between_words { " " } else { "" }), name(Name::Spaces)].concat();
    let may = || gap(false);
    let mut productions = vec![
        (Name::Spaces, vec![]),
        (Name::Spaces, [letters(" "), may()].concat()),
        (Name::Digits, vec![Symbol::Digit]),
        (Name::Digits, vec![Symbol::Digit, Symbol::Name(Name::Digits)]),
        (Name::Sign, letters("=")),
        (Name::Sign, letters("<")),
        (Name::Formula(true, true), letters("true")),
        (Name::Formula(true, true), letters("false")),
        (Name::Formula(true, false), [letters("r"), name(Name::Digits), may(), name(Name::Sign), may(), name(Name::Digits)].concat()),
    ];
    productions.extend(["not", "wprev", "prev", "once", "sofar"].map(|word| (Name::Prefix, letters(word))));
    productions.extend(["since", "and", "or", "implies"].map(|word| (Name::Infix, letters(word))));
    let both = [false, true];
    for (begins, ends) in both.iter().flat_map(|&b| both.map(|e| (b, e))) {
        productions.push((Name::Text, [may(), formula(begins, ends), may()].concat()));
        productions.push((Name::Formula(false, false), [letters("("), may(), formula(begins, ends), may(), letters(")")].concat()));
        productions.push((Name::Formula(true, ends), [name(Name::Prefix), gap(begins), formula(begins, ends)].concat()));
        for (left_ends, right_begins) in both.iter().flat_map(|&l| both.map(|r| (l, r))) {
            let left = [formula(begins, left_ends), gap(left_ends)].concat();
            let right = [gap(right_begins), formula(right_begins, ends)].concat();
            productions.push((Name::Formula(begins, ends), [left, name(Name::Infix), right].concat()));
        }
    }
    productions
}

/// The place of the first byte that no continuation could follow, or the length where a text ends too soon. By Earley's method: after
/// each byte it keeps every way in which a text could have begun so, as productions, how far they have come and where they began.
fn refused_at(grammar: &Grammar, text: &[u8]) -> Option<usize> {
    type Way = (usize, usize, usize);
    let mut ways: Vec<(Vec<Way>, HashSet<Way>)> = vec![Default::default(); text.len() + 1];
    let add = |(list, set): &mut (Vec<Way>, HashSet<Way>), way: Way| {
        if set.insert(way) {
            list.push(way);
        }
    };
    let of = |name: Name| (0..grammar.len()).filter(move |&p| grammar[p].0 == name);
    of(Name::Text).for_each(|p| add(&mut ways[0], (p, 0, 0)));
    for at in 0..=text.len() {
        if ways[at].0.is_empty() {
            return Some(at - 1);
        }
        let mut next = 0;
        while next < ways[at].0.len() {
            let (p, came, began) = ways[at].0[next];
            next += 1;
            let byte = text.get(at);
            match grammar[p].1.get(came) {
                Some(Symbol::Byte(b)) if byte == Some(b) => add(&mut ways[at + 1], (p, came + 1, began)),
                Some(Symbol::Digit) if byte.is_some_and(u8::is_ascii_digit) => add(&mut ways[at + 1], (p, came + 1, began)),
                Some(Symbol::Name(name)) => {
                    of(*name).for_each(|p| add(&mut ways[at], (p, 0, at)));
                    // the only name for nothing
                    if *name == Name::Spaces {
                        add(&mut ways[at], (p, came + 1, began));
                    }
                }
                Some(_) => {}
                None => {
                    let waits = |&(q, came, _): &Way| grammar[q].1.get(came) == Some(&Symbol::Name(grammar[p].0));
                    let waiting: Vec<Way> = ways[began].0.iter().copied().filter(waits).collect();
                    waiting.into_iter().for_each(|(q, came, began)| add(&mut ways[at], (q, came + 1, began)));
                }
            }
        }
    }
    let whole = |&(p, came, _): &Way| grammar[p].0 == Name::Text && came == grammar[p].1.len();
    (!ways[text.len()].0.iter().any(whole)).then_some(text.len())
}

fn place_of_16(text: &[u8]) -> Option<usize> {
    tokens(text).err().map(|no| no.place)
}

/// The bytes of the grammar, and some that are none of it.
const BYTES: &[u8] = b"abcdefilmnoprstuvw0123456789 =<()xAR\t\n\0\x80\xff";

/// 16 stands where its definition puts it: on random texts, good and spoiled, and on twenty with each byte in turn left out, changed,
/// put before another, and the last of what is there.
#[test]
fn sixteen_by_its_definition() {
    let grammar = grammar();
    let check = |text: &[u8]| {
        let defined = refused_at(&grammar, text);
        assert_eq!(place_of_16(text), defined, "{:?}", String::from_utf8_lossy(text));
        defined.is_some()
    };
    let mut g = Rng(23);
    let mut refused = 0;
    for n in 0..2_000 {
        let nodes = g.within(1, 12);
        let mut text = random_text(&mut g, nodes).1;
        for _ in 0..n % 3 {
            let at = g.below(text.len() + 1);
            match g.below(3) {
                0 => text.insert(at, g.pick(BYTES)),
                _ if at == text.len() => {}
                1 => text[at] = g.pick(BYTES),
                _ => drop(text.remove(at)),
            }
        }
        refused += check(&text) as u32;
    }
    assert!((500..1_500).contains(&refused), "{refused}");
    for text in TEXTS.map(str::as_bytes) {
        assert!(!check(text));
        for at in 0..text.len() {
            let (before, after) = (&text[..at], &text[at + 1..]);
            check(before);
            check(&[before, after].concat());
            for byte in BYTES {
                check(&[before, &[*byte], after].concat());
                check(&[before, &[*byte], &text[at..]].concat());
            }
        }
    }
}

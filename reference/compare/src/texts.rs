//! Random texts: rules as they are typed, with numbers at and beyond their ends, node counts about the most, and every way of getting
//! a text wrong.
use reference::generate_text::{formula, spaced, tokens};
use reference::random::Rng;

/// How many nodes: mostly few, sometimes about as many as the form allows, or many more.
fn nodes(g: &mut Rng, most: usize) -> usize {
    match g.below(24) {
        0 => most,
        1 => most + 1,
        2 => g.within(most - 4, most + 4),
        3 => g.within(34, 120),
        4 => g.within(100, 400),
        _ => g.within(1, 16),
    }
}

/// Numbers at their ends, and some that would be in range if they went round at 16, 32 or 64 bits.
const NUMBERS: [&str; 12] = [
    "14",
    "15",
    "16",
    "16383",
    "16384",
    "99999",
    "65536",
    "65551",
    "4294967296",
    "4294967311",
    "18446744073709551616",
    "18446744073709551631",
];

/// Some numbers put in place of others, with zeros before them or none.
fn extend_numbers(g: &mut Rng, tokens: &mut [String]) {
    for token in tokens {
        let digits = token.trim_start_matches('r');
        if digits.starts_with(|c: char| c.is_ascii_digit()) && g.chance(1, 3) {
            let zeros = match g.below(20) {
                0 => 1_000,
                1..=5 => g.below(30),
                _ => 0,
            };
            // a register's more often than not one that exists
            let number = if token.starts_with('r') { g.pick(&NUMBERS[..3]) } else { g.pick(&NUMBERS[3..5]) };
            let number = if g.chance(1, 4) { g.pick(&NUMBERS) } else { number };
            *token = format!("{}{}{number}", &token[..token.len() - digits.len()], "0".repeat(zeros));
        }
    }
}

#[rustfmt::skip]
const TOKENS: [&str; 20] = [
    "true", "false", "not", "wprev", "prev", "once", "sofar", "since", "and", "or", "implies", "(", ")", "r", "r1", "r2=3", "=", "<", "1", "20000",
];

fn any_token(g: &mut Rng) -> String {
    g.pick(&TOKENS).into()
}

/// A token left out, doubled, put in, replaced, or two swapped; brackets more often.
fn spoil_tokens(g: &mut Rng, tokens: &mut Vec<String>) {
    let (i, j) = (g.below(tokens.len()), g.below(tokens.len()));
    match g.below(8) {
        0 => drop(tokens.remove(i)),
        1 => tokens.insert(i, tokens[i].clone()),
        2 => tokens.insert(i, any_token(g)),
        3 => tokens[i] = any_token(g),
        4 | 5 => tokens.swap(i, j),
        6 => tokens.insert(i, g.pick(&["(", ")"]).into()),
        _ => {
            let brackets: Vec<usize> = (0..tokens.len()).filter(|&i| ["(", ")"].contains(&tokens[i].as_str())).collect();
            if !brackets.is_empty() {
                tokens.remove(g.pick(&brackets));
            }
        }
    }
}

/// A byte of the grammar, one that looks like it, or any.
fn any_byte(g: &mut Rng) -> u8 {
    match g.below(4) {
        0 => g.next() as u8,
        1 => g.pick(b"\t\n\r\0AR\x80\xa0\xff"),
        _ => g.pick(b"abcdefilmnoprstuvw0123456789 =<()"),
    }
}

/// A byte changed, left out, put in, doubled or swapped with the next; a space left out; the rest cut off.
fn spoil_bytes(g: &mut Rng, text: &mut Vec<u8>) {
    if text.is_empty() {
        return;
    }
    let i = g.below(text.len());
    let next = (i + 1) % text.len();
    match g.below(11) {
        0 => text[i] = any_byte(g),
        1 => drop(text.remove(i)),
        2 => text.insert(i, any_byte(g)),
        3 => text.insert(i, text[i]),
        4 => text.swap(i, next),
        5 => text[i] |= 0x80,
        6 => text[i].make_ascii_uppercase(),
        7 => text.insert(i, b' '),
        8 => text.truncate(i),
        _ => {
            let spaces: Vec<usize> = (0..text.len()).filter(|&i| text[i] == b' ').collect();
            if !spaces.is_empty() {
                text.remove(g.pick(&spaces));
            }
        }
    }
}

/// A formula's text, sometimes spoiled.
fn formula_text(g: &mut Rng, most: usize) -> Vec<u8> {
    let n = nodes(g, most);
    let formula = formula(g, n);
    let mut tokens = tokens(g, &formula);
    if g.chance(1, 5) {
        extend_numbers(g, &mut tokens);
    }
    if g.chance(1, 5) {
        spoil_tokens(g, &mut tokens);
    }
    let mut text = spaced(g, &tokens);
    if g.chance(1, 3) {
        for _ in 0..g.pick(&[1, 1, 1, 2, 3]) {
            spoil_bytes(g, &mut text);
        }
    }
    text
}

/// A formula in many brackets, often as many closed as opened.
fn bracketed(g: &mut Rng) -> Vec<u8> {
    let n = g.within(1, 8);
    let formula = formula(g, n);
    let inner = tokens(g, &formula);
    let opened = if g.chance(1, 20) { g.within(1_000, 3_000) } else { g.within(1, 70) };
    let closed = if g.chance(1, 4) { opened + g.below(3) - 1 } else { opened };
    let mut all = vec!["(".into(); opened];
    all.extend(inner);
    all.extend(vec![")".into(); closed]);
    spaced(g, &all)
}

/// Tokens at random.
fn any_tokens(g: &mut Rng) -> Vec<u8> {
    let tokens: Vec<String> = (0..g.within(1, 9)).map(|_| any_token(g)).collect();
    spaced(g, &tokens)
}

/// A text for a form that allows so many nodes.
pub fn text(g: &mut Rng, most: usize) -> Vec<u8> {
    match g.below(30) {
        0 => vec![b' '; g.below(4)],
        1 => (0..g.within(1, 12)).map(|_| any_byte(g)).collect(),
        2 | 3 => any_tokens(g),
        4 | 5 => bracketed(g),
        _ => formula_text(g, most),
    }
}

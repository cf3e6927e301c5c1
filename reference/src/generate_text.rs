//! Random formulas, and texts for them with the spaces, brackets and leading zeros that the grammar leaves free. Few registers and
//! small numbers, so that tests are often true.
use crate::generate::{CONSTANTS, REGISTERS};
use crate::random::Rng;
use crate::text::Formula::{self, *};

/// Twenty texts in which each word, sign and bracket stands, with and without spaces.
pub const TEXTS: [&str; 20] = [
    "true",
    "false",
    "r1=1",
    "r15 < 16383",
    "not r1=1",
    "wprev false",
    "prev true",
    "once r2<3",
    "sofar(r1=1)",
    "r1=1 since r2=1",
    "r1=1and r2=2",
    "(true)or(false)",
    "r1=1 implies r2<40",
    "r1=1 since r2=1 and not r3<40",
    "not(once true)or sofar false",
    "prev(r1=1)implies wprev false",
    "((r007<0040))",
    "  r3 = 5  since  true  ",
    "r0=0 or r1=1 or r2=2",
    "true implies(false implies true)",
];

fn leaf(g: &mut Rng) -> Formula {
    let (register, number) = (g.below(REGISTERS) as u8, g.below(CONSTANTS) as u16);
    match g.below(5) {
        0 => False,
        1 | 2 => Equal(register, number),
        _ => Below(register, number),
    }
}

/// A formula whose table has so many nodes.
pub fn formula(g: &mut Rng, nodes: usize) -> Formula {
    let one = |g: &mut Rng, added: usize| Box::new(formula(g, nodes - added));
    let two = |g: &mut Rng, added: usize| {
        let left = g.within(1, nodes - added - 1);
        (Box::new(formula(g, left)), Box::new(formula(g, nodes - added - left)))
    };
    let infix = |(a, b), of: fn(Box<Formula>, Box<Formula>) -> Formula| of(a, b);
    if nodes == 1 {
        return leaf(g);
    }
    loop {
        return match g.below(14) {
            0 if nodes == 3 => True,
            1 if nodes > 2 => Not(one(g, 2)),
            2 => WeakPrevious(one(g, 1)),
            3 if nodes > 5 => Previous(one(g, 5)),
            4 if nodes > 4 => Once(one(g, 4)),
            5 if nodes > 8 => SoFar(one(g, 8)),
            6 | 7 if nodes > 2 => infix(two(g, 1), Since),
            8 | 9 if nodes > 6 => infix(two(g, 5), And),
            10 | 11 if nodes > 4 => infix(two(g, 3), Or),
            12 | 13 if nodes > 2 => infix(two(g, 1), Implies),
            _ => continue,
        };
    }
}

/// From the loosest, implies, to what is an operand by itself.
fn level(formula: &Formula) -> usize {
    match formula {
        Implies(..) => 0,
        Or(..) => 1,
        And(..) => 2,
        Since(..) => 3,
        Not(_) | WeakPrevious(_) | Previous(_) | Once(_) | SoFar(_) => 4,
        True | False | Equal(..) | Below(..) => 5,
    }
}

/// A decimal number, sometimes with zeros before it.
fn digits(g: &mut Rng, number: u16) -> String {
    let zeros = if g.chance(1, 10) { g.within(1, 30) } else { 0 };
    "0".repeat(zeros) + &number.to_string()
}

struct Printer<'a> {
    g: &'a mut Rng,
    tokens: Vec<String>,
}

impl Printer<'_> {
    fn put(&mut self, token: impl Into<String>) {
        self.tokens.push(token.into());
    }

    fn test(&mut self, register: u8, sign: &str, number: u16) {
        let register = format!("r{}", digits(self.g, register.into()));
        self.put(register);
        self.put(sign);
        let number = digits(self.g, number);
        self.put(number);
    }

    fn prefix(&mut self, word: &str, operand: &Formula) {
        self.put(word);
        self.formula(operand, 4);
    }

    /// The levels are the loosest that may stand on either side without brackets.
    fn infix(&mut self, (left, left_level): (&Formula, usize), word: &str, (right, right_level): (&Formula, usize)) {
        self.formula(left, left_level);
        self.put(word);
        self.formula(right, right_level);
    }

    /// In brackets where it is looser than what may stand here, and now and then in some that it doesn't need.
    fn formula(&mut self, formula: &Formula, loosest: usize) {
        let mut brackets = (level(formula) < loosest) as usize;
        while self.g.chance(1, 8) {
            brackets += 1;
        }
        (0..brackets).for_each(|_| self.put("("));
        match formula {
            True => self.put("true"),
            False => self.put("false"),
            Equal(register, number) => self.test(*register, "=", *number),
            Below(register, number) => self.test(*register, "<", *number),
            Not(a) => self.prefix("not", a),
            WeakPrevious(a) => self.prefix("wprev", a),
            Previous(a) => self.prefix("prev", a),
            Once(a) => self.prefix("once", a),
            SoFar(a) => self.prefix("sofar", a),
            // to the left: the same word may stand on the left
            Since(a, b) => self.infix((a, 3), "since", (b, 4)),
            And(a, b) => self.infix((a, 2), "and", (b, 3)),
            Or(a, b) => self.infix((a, 1), "or", (b, 2)),
            Implies(a, b) => self.infix((a, 1), "implies", (b, 0)),
        }
        (0..brackets).for_each(|_| self.put(")"));
    }
}

/// The words, numbers, signs and brackets of a formula; r and its number are one.
pub fn tokens(g: &mut Rng, formula: &Formula) -> Vec<String> {
    let mut printer = Printer { g, tokens: vec![] };
    printer.formula(formula, 0);
    printer.tokens
}

/// Tokens one after the other: with spaces where two words would touch, and elsewhere none, one each, or as it comes.
pub fn spaced(g: &mut Rng, tokens: &[String]) -> Vec<u8> {
    let habit = g.below(3);
    let mut spaces = |must: bool| match habit {
        0 => must as usize,
        1 => 1,
        _ => g.below(3).max(must as usize),
    };
    let mut text: Vec<u8> = vec![];
    for token in tokens {
        let letter = |byte: Option<&u8>| byte.is_some_and(u8::is_ascii_lowercase);
        let must = letter(text.last()) && letter(token.as_bytes().first());
        text.resize(text.len() + spaces(must), b' ');
        text.extend(token.bytes());
    }
    text.resize(text.len() + spaces(false), b' ');
    text
}

/// A formula whose table has so many nodes, and a text for it.
pub fn random_text(g: &mut Rng, nodes: usize) -> (Formula, Vec<u8>) {
    let formula = formula(g, nodes);
    let tokens = tokens(g, &formula);
    let text = spaced(g, &tokens);
    (formula, text)
}

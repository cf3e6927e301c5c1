//! Rules typed as text: questions 16, 17, 18 and 13, then the nodes.
use self::Formula::*;
use crate::facts::{planted, Fault};
use crate::form::{hand_over, Word};
use crate::rule::{Node, MOST_NODES};
use crate::{no, No, TOP};

/// A formula as it is typed.
#[derive(Clone, Debug, PartialEq, Eq)]
pub enum Formula {
    True,
    False,
    /// Register, number.
    Equal(u8, u16),
    Below(u8, u16),
    Not(Box<Formula>),
    WeakPrevious(Box<Formula>),
    Previous(Box<Formula>),
    Once(Box<Formula>),
    SoFar(Box<Formula>),
    Since(Box<Formula>, Box<Formula>),
    And(Box<Formula>, Box<Formula>),
    Or(Box<Formula>, Box<Formula>),
    Implies(Box<Formula>, Box<Formula>),
}

const CONSTANTS: [&str; 2] = ["true", "false"];
const PREFIXES: [&str; 5] = ["not", "wprev", "prev", "once", "sofar"];
/// The words between two operands, the loosest first.
const INFIXES: [&str; 4] = ["implies", "or", "and", "since"];

/// A decimal number: where its first digit stands, and its value, or the largest u32 where that is more.
#[derive(Clone, Copy, Debug)]
pub struct Number {
    pub at: usize,
    pub value: u32,
}

#[derive(Clone, Copy, Debug)]
pub enum Item {
    /// A constant, a prefix word or a word between two operands.
    Word(&'static str),
    Test { register: Number, sign: &'static str, number: Number },
}

/// A word or a test, with how many brackets are open where it stands. The brackets themselves are told by this.
#[derive(Clone, Copy, Debug)]
pub struct Token {
    pub depth: usize,
    pub item: Item,
}

struct Reader<'a> {
    text: &'a [u8],
    /// The next byte's place.
    at: usize,
}

impl Reader<'_> {
    fn skip_spaces(&mut self) {
        while self.text.get(self.at) == Some(&b' ') {
            self.at += 1;
        }
    }

    /// Does a word end right before this place? Letters stand in words alone, and what follows r and its number is a sign.
    fn touches_word(&self) -> bool {
        self.at > 0 && self.text[self.at - 1].is_ascii_lowercase() && !planted(Fault::WordsTouch)
    }

    /// One of the words and signs that may stand here, none of which begins another. The first byte that no continuation could
    /// follow is the first at which the text leaves them all; where it ends before that, it ends too soon, at its length.
    fn one_of(&mut self, may: &[&'static str]) -> Result<&'static str, No> {
        let rest = &self.text[self.at..];
        let alike = |word: &str| word.bytes().zip(rest).take_while(|(a, b)| a == *b).count();
        match may.iter().find(|word| alike(word) == word.len()) {
            Some(word) => {
                self.at += word.len();
                Ok(word)
            }
            None => no(16, self.at + may.iter().map(|word| alike(word)).max().unwrap_or(0)),
        }
    }

    /// One digit or more.
    fn number(&mut self) -> Result<Number, No> {
        let at = self.at;
        let mut value = 0u32;
        while let Some(digit @ b'0'..=b'9') = self.text.get(self.at) {
            value = value.saturating_mul(10).saturating_add((digit - b'0').into());
            self.at += 1;
        }
        if self.at == at {
            return no(16, at);
        }
        Ok(Number { at, value })
    }

    /// What follows an r.
    fn test(&mut self) -> Result<Item, No> {
        let register = self.number()?;
        self.skip_spaces();
        let sign = self.one_of(&["=", "<"])?;
        self.skip_spaces();
        let test = Item::Test { register, sign, number: self.number()? };
        if planted(Fault::RangeFirst) {
            check_range(&test)?;
        }
        Ok(test)
    }
}

/// 16. Is it a text of the grammar?
pub fn tokens(text: &[u8]) -> Result<Vec<Token>, No> {
    let mut reader = Reader { text, at: 0 };
    let mut tokens = vec![];
    let mut depth = 0;
    let mut operand_due = true;
    loop {
        reader.skip_spaces();
        if !operand_due && depth == 0 && reader.at == text.len() {
            return Ok(tokens);
        }
        let mut may = vec![];
        if operand_due {
            may.push("(");
        } else if depth > 0 {
            may.push(")");
        }
        // between two words there must be a space
        match (reader.touches_word(), operand_due) {
            (true, _) => {}
            (false, true) => may.extend(CONSTANTS.iter().chain(&PREFIXES).chain(&["r"])),
            (false, false) => may.extend(INFIXES),
        }
        let found = reader.one_of(&may)?;
        match found {
            "(" => depth += 1,
            ")" => depth -= 1,
            "r" => tokens.push(Token { depth, item: reader.test()? }),
            word => tokens.push(Token { depth, item: Item::Word(word) }),
        }
        operand_due = !(found == ")" || found == "r" || CONSTANTS.contains(&found));
    }
}

/// 17. Are registers at most 15 and the numbers they are compared with at most 16,383?
fn check_range(item: &Item) -> Result<(), No> {
    let Item::Test { register, number, .. } = item else { return Ok(()) };
    for (of, most) in [(register, 15), (number, TOP.into())] {
        if of.value > most {
            return no(17, of.at);
        }
    }
    Ok(())
}

/// How many nodes an item adds to those of its operands, however they are grouped.
pub fn nodes_added(item: &Item) -> usize {
    match item {
        Item::Test { .. } => 1,
        Item::Word(word) => match *word {
            "false" | "wprev" | "since" | "implies" => 1,
            "not" => 2,
            "true" | "or" => 3,
            "once" => 4,
            "prev" | "and" => 5,
            "sofar" => 8,
            _ => unreachable!(),
        },
    }
}

/// How loosely an item binds: from 0, an implies, to 5, which is an operand by itself.
fn level(item: &Item) -> usize {
    match item {
        Item::Word(word) if PREFIXES.contains(word) => 4,
        Item::Word(word) => INFIXES.iter().position(|infix| infix == word).unwrap_or(5),
        Item::Test { .. } => 5,
    }
}

fn groups_to_the_left(item: &Item) -> bool {
    match item {
        Item::Word("since") => !planted(Fault::SinceToTheRight),
        Item::Word(word) => ["and", "or"].contains(word),
        Item::Test { .. } => false,
    }
}

/// The formula of a text's tokens. The item that applies last is the one in the fewest brackets, of those the one that binds
/// loosest, of those the last where it groups to the left and the first otherwise.
fn formula(tokens: &[Token]) -> Formula {
    let binding = |i: &usize| (tokens[*i].depth, level(&tokens[*i].item));
    let least = (0..tokens.len()).map(|i| binding(&i)).min().expect("an operand has a token");
    let mut alike = (0..tokens.len()).filter(|i| binding(i) == least);
    let first = alike.next().expect("the least is there");
    let at = if groups_to_the_left(&tokens[first].item) { alike.next_back().unwrap_or(first) } else { first };
    let left = || Box::new(formula(&tokens[..at]));
    let right = || Box::new(formula(&tokens[at + 1..]));
    match tokens[at].item {
        Item::Test { register, sign: "=", number } => Equal(register.value as u8, number.value as u16),
        Item::Test { register, number, .. } => Below(register.value as u8, number.value as u16),
        Item::Word(word) => match word {
            "true" => True,
            "false" => False,
            "not" => Not(right()),
            "wprev" => WeakPrevious(right()),
            "prev" => Previous(right()),
            "once" => Once(right()),
            "sofar" => SoFar(right()),
            "since" => Since(left(), right()),
            "and" => And(left(), right()),
            "or" => Or(left(), right()),
            "implies" => Implies(left(), right()),
            _ => unreachable!(),
        },
    }
}

fn not(a: Formula) -> Formula {
    Not(Box::new(a))
}

fn implies(a: Formula, b: Formula) -> Formula {
    Implies(Box::new(a), Box::new(b))
}

/// A derived word opened, once.
fn opened(derived: Formula) -> Formula {
    match derived {
        True => implies(False, False),
        Not(a) => implies(*a, False),
        And(a, b) => not(implies(*a, not(*b))),
        Or(a, b) if planted(Fault::OrWithoutNot) => implies(*a, *b),
        Or(a, b) => implies(not(*a), *b),
        Previous(a) => not(WeakPrevious(Box::new(not(*a)))),
        Once(a) => Since(Box::new(True), a),
        SoFar(a) => not(Once(Box::new(not(*a)))),
        _ => unreachable!(),
    }
}

/// Writes a formula's nodes, operands first, left before right, none shared, and answers the number of its own.
fn write(formula: Formula, nodes: &mut Vec<Node>) -> u8 {
    let node = match formula {
        False => Node::new(0, 0, 0, 0, 0),
        Equal(register, number) => Node::new(1, register, number, 0, 0),
        Below(register, number) => Node::new(2, register, number, 0, 0),
        Implies(a, b) => {
            let left = write(*a, nodes);
            Node::new(3, 0, 0, left, write(*b, nodes))
        }
        Since(a, b) => {
            let left = write(*a, nodes);
            Node::new(4, 0, 0, left, write(*b, nodes))
        }
        WeakPrevious(a) => Node::new(5, 0, 0, write(*a, nodes), 0),
        derived => return write(opened(derived), nodes),
    };
    nodes.push(node);
    nodes.len() as u8 - 1
}

/// Questions 16, 17 and 18, then the formula. Only one of at most so many nodes is put together, so that its depth has a bound.
pub fn read_formula_within(text: &[u8], most_nodes: usize) -> Result<Formula, No> {
    let tokens = tokens(text)?;
    for token in &tokens {
        check_range(&token.item)?;
    }
    // 18. Has its table at most 32 nodes, where the second form is asked for at most 64?
    if tokens.iter().map(|token| nodes_added(&token.item)).sum::<usize>() > most_nodes {
        return no(18, 0);
    }
    Ok(formula(&tokens))
}

pub fn read_formula(text: &[u8]) -> Result<Formula, No> {
    read_formula_within(text, MOST_NODES)
}

/// Questions 16, 17, 18 and 13, then the nodes, to the start of `out`; how many there are.
pub fn read_text_in<W: Word>(text: &[u8], out: &mut [W]) -> Result<usize, No> {
    let mut nodes = vec![];
    let most = if planted(Fault::TextOfHalf) { MOST_NODES } else { W::MOST_NODES };
    write(read_formula_within(text, most)?, &mut nodes);
    let words: Vec<W> = nodes.iter().map(Node::encode_in).collect();
    hand_over(&words, out)?;
    Ok(nodes.len())
}

pub fn read_text(text: &[u8], out: &mut [u32]) -> Result<usize, No> {
    read_text_in(text, out)
}

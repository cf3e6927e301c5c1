//! 2026-11, dials known only within limits: an index of such a history has one of three answers. They are here twice: by themselves, as they
//! are asked for, and with the registers that each depends on, as the program that judges a file prints them.
use crate::facts::{planted, Fault};
use crate::form::Word;
use crate::judge::{check_length, check_numbers, states};
use crate::listing::Words;
use crate::ready::reads;
use crate::rule::{check_rule, check_rule_in, Node, Rule, MOST_NODES};
use crate::{no, No, State};
use std::collections::BTreeSet;
use Answer::*;

/// As bytes 0, 1 and 2.
#[derive(Clone, Copy, Debug, PartialEq, Eq, PartialOrd, Ord)]
pub enum Answer {
    False,
    True,
    Open,
}

/// The lowest and the highest value of each dial at one index.
#[derive(Clone, Copy, Debug, PartialEq, Eq)]
pub struct Limits {
    pub low: State,
    pub high: State,
}

impl Limits {
    pub fn exact(state: State) -> Limits {
        Limits { low: state, high: state }
    }
}

pub fn limits_of(lows: &[u16], highs: &[u16]) -> Vec<Limits> {
    states(lows).into_iter().zip(states(highs)).map(|(low, high)| Limits { low, high }).collect()
}

/// A test is open when both results lie within its limits. A dial always equals itself.
pub fn test(d: &Node, limits: &Limits) -> Answer {
    let range = |register: usize| (limits.low[register], limits.high[register]);
    let (register, c) = (d.register as usize, d.constant);
    let (low, high) = range(register);
    let (can_be_true, can_be_false) = match d.kind {
        1 => (low <= c && c <= high, low < c || c < high),
        2 => (low < c, c <= high),
        6 if c as usize == register => (true, planted(Fault::SelfIsOpen)),
        6 => {
            let (other_low, other_high) = range(c as usize);
            (low <= other_high && other_low <= high, low < other_high || other_low < high)
        }
        _ => unreachable!(),
    };
    match (can_be_true, can_be_false) {
        (true, true) => Open,
        _ if low == high && planted(Fault::ExactIsOpen) => Open,
        (true, false) => True,
        (false, true) => False,
        (false, false) => unreachable!("some value lies within"),
    }
}

/// Left false or right true.
pub fn implies(left: Answer, right: Answer) -> Answer {
    match (left, right) {
        (False, _) | (_, True) => True,
        (True, False) => False,
        _ => Open,
    }
}

/// Right true, or left true and the since's own last value.
pub fn since(left: Answer, right: Answer, last: Answer) -> Answer {
    match (left, right, last) {
        (_, True, _) | (True, _, True) => True,
        (_, False, False) | (False, False, _) => False,
        (_, False, Open) if planted(Fault::SinceForgetsOpen) => False,
        _ => Open,
    }
}

/// The answers of all nodes at one index, from those at the index before, if there is one.
fn answers_now(rule: &Rule, before: Option<&Vec<Answer>>, limits: &Limits) -> Vec<Answer> {
    let first = if planted(Fault::FirstPreviousOpen) { Open } else { True };
    let mut now: Vec<Answer> = vec![];
    for (i, d) in rule.nodes.iter().enumerate() {
        let (l, r) = (d.left as usize, d.right as usize);
        now.push(match d.kind {
            0 => False,
            1 | 2 | 6 => test(d, limits),
            3 if l == r && planted(Fault::ImpliesItself) => True,
            3 => implies(now[l], now[r]),
            4 => since(now[l], now[r], before.map_or(False, |last| last[i])),
            5 => before.map_or(first, |last| last[l]),
            _ => unreachable!(),
        });
    }
    now
}

/// What each index has, made from what the index before it has.
fn each_index<X>(history: &[Limits], now: impl Fn(Option<&X>, &Limits) -> X) -> Vec<X> {
    let mut all = vec![];
    for limits in history {
        all.push(now(all.last(), limits));
    }
    all
}

/// The answers of all nodes at each index.
pub fn answers(rule: &Rule, history: &[Limits]) -> Vec<Vec<Answer>> {
    each_index(history, |before, limits| answers_now(rule, before, limits))
}

/// An answer with the registers that it depends on. Where it is true or false, that is so in every exact history in which just these registers
/// lie within their limits up to its index; where it is open, it stays open however the limits of the others become narrower.
#[derive(Clone, Debug, PartialEq, Eq)]
pub struct Grounded {
    pub answer: Answer,
    pub registers: BTreeSet<usize>,
}

impl Grounded {
    fn on_nothing(answer: Answer) -> Grounded {
        Grounded { answer, registers: BTreeSet::new() }
    }

    fn not(&self) -> Grounded {
        let answer = match self.answer {
            False => True,
            True => False,
            Open => Open,
        };
        Grounded { answer, ..self.clone() }
    }

    /// True by one that is true, by the first if both are; false by both; open by those that are open.
    fn or(&self, other: &Grounded) -> Grounded {
        match (self.answer, other.answer) {
            (True, _) | (Open, False) => self.clone(),
            (_, True) | (False, Open) => other.clone(),
            (both, _) => Grounded { answer: both, registers: &self.registers | &other.registers },
        }
    }

    fn and(&self, other: &Grounded) -> Grounded {
        self.not().or(&other.not()).not()
    }
}

/// The registers that a test's answer depends on: those that it reads, but none where a register is compared with itself.
fn tested(d: &Node) -> BTreeSet<usize> {
    let same = d.kind == 6 && d.constant == d.register.into();
    reads(d).into_iter().filter(|_| !same).collect()
}

/// The same answers as `answers_now`, with their registers.
fn grounded_now(rule: &Rule, before: Option<&Vec<Grounded>>, limits: &Limits) -> Vec<Grounded> {
    let mut now: Vec<Grounded> = vec![];
    for (i, d) in rule.nodes.iter().enumerate() {
        let (l, r) = (d.left as usize, d.right as usize);
        now.push(match d.kind {
            0 => Grounded::on_nothing(False),
            1 | 2 | 6 => Grounded { answer: test(d, limits), registers: tested(d) },
            3 => now[l].not().or(&now[r]),
            4 => {
                let last = before.map_or(Grounded::on_nothing(False), |last| last[i].clone());
                now[r].or(&now[l].and(&last))
            }
            5 => before.map_or(Grounded::on_nothing(True), |last| last[l].clone()),
            _ => unreachable!(),
        });
    }
    now
}

/// The answers of all nodes at each index, with the registers that they depend on.
pub fn grounded(rule: &Rule, history: &[Limits]) -> Vec<Vec<Grounded>> {
    each_index(history, |before, limits| grounded_now(rule, before, limits))
}

/// 14 of the lows, then of the highs, then 22.
fn check_lengths(lows: &[u16], highs: &[u16]) -> Result<(), No> {
    // 22. Are the two lists of equal length?
    let equal = || if lows.len() == highs.len() { Ok(()) } else { no(22, 0) };
    check_length(lows)?;
    if planted(Fault::UnequalFirst) {
        equal()?;
    }
    check_length(highs)?;
    equal()
}

/// 15 of the lows, then of the highs, then 23.
fn check_values(lows: &[u16], highs: &[u16]) -> Result<(), No> {
    // 23. Is no lowest value above its highest?
    let order = || lows.iter().zip(highs).position(|(low, high)| low > high).map_or(Ok(()), |p| no(23, p));
    check_numbers(lows)?;
    if planted(Fault::OrderFirst) {
        order()?;
    }
    check_numbers(highs)?;
    order()
}

/// Questions 1 to 4, 14, 22, 13, 15 and 23, then an answer for each index, to the start of the output; how many there are.
pub fn judge_limits_in<W: Word>(rule: &[W], lows: &[u16], highs: &[u16], out: &mut [u8]) -> Result<usize, No> {
    let rule = check_rule_in(rule)?;
    check_lengths(lows, highs)?;
    if planted(Fault::BytesLast) {
        check_values(lows, highs)?;
    }
    // 13. Is there a byte for each index in the output?
    if out.len() < lows.len() / 16 {
        return no(13, 0);
    }
    check_values(lows, highs)?;
    let all = answers(&rule, &limits_of(lows, highs));
    for (byte, now) in out.iter_mut().zip(&all) {
        *byte = now[rule.last()] as u8;
    }
    Ok(all.len())
}

pub fn judge_limits(rule: &[u32], lows: &[u16], highs: &[u16], out: &mut [u8]) -> Result<usize, No> {
    judge_limits_in(rule, lows, highs, out)
}

/// The most indices of a file.
const MOST_INDICES: usize = 1000;

/// An index count and so many times 16 lowest and 16 highest values of 16 bits, high byte first: the lows and the highs.
fn listed(words: &mut Words) -> Option<(Vec<u16>, Vec<u16>)> {
    let count = words.next()? as usize;
    if count > MOST_INDICES {
        return None;
    }
    let bytes = words.bytes.get(..64 * count)?;
    let (mut lows, mut highs) = (vec![], vec![]);
    for index in bytes.chunks(64) {
        let mut numbers = index.chunks(2).map(|pair| u16::from_be_bytes([pair[0], pair[1]]));
        lows.extend(numbers.by_ref().take(16));
        highs.extend(numbers);
    }
    Some((lows, highs))
}

fn judged(file: &[u8]) -> Result<String, No> {
    let mut words = Words { bytes: file };
    let Some(rule) = words.counted(MOST_NODES) else { return no(1, 0) };
    let rule = check_rule(&rule)?;
    let Some((lows, highs)) = listed(&mut words) else {
        return Ok(format!("a file has at most {MOST_INDICES} indices here, and 64 bytes for each\n"));
    };
    check_values(&lows, &highs)?;
    let all = grounded(&rule, &limits_of(&lows, &highs));
    let mut s = format!("indices {}\n", all.len());
    for (n, now) in all.iter().enumerate() {
        let Grounded { answer, registers } = &now[rule.last()];
        let (word, shown) = match answer {
            True => ("true", &BTreeSet::new()),
            False => ("false", registers),
            Open => ("open", registers),
        };
        let shown: String = shown.iter().map(|r| format!(" r{r}")).collect();
        s += &format!("{n} {word}{shown}\n");
    }
    Ok(s)
}

/// What the program that judges a file of limits prints. The file has a rule of the first form, as the listing program's input has; then an
/// index count and the limits; later bytes are ignored.
pub fn judge_file(file: &[u8]) -> String {
    judged(file).unwrap_or_else(|no| format!("refused {} {}\n", no.number, no.place))
}

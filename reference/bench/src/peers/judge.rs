//! Two judges over a rule that is decoded once: one takes a state at a time without a branch on what it reads, the other 64 states
//! at once, a word for each node.
use super::form::Set;
use super::rule::{has_left, Rule, BELOW, EQUAL, EQUAL_REGISTERS, FALSE, IMPLIES, SINCE, WEAK_PREVIOUS};
use super::{joined, no, numbers_small, No};

/// A test: `lo` <= register < `lo` + `width`, in one comparison.
#[derive(Clone, Copy, Default)]
pub(super) struct Test {
    pub lo: u16,
    pub width: u16,
    pub register: u8,
    pub bit: u8,
}

/// A test of two registers.
#[derive(Clone, Copy, Default)]
pub(super) struct Pair {
    pub register: u8,
    pub other: u8,
    pub bit: u8,
}

#[derive(Clone, Copy, Default)]
pub(super) struct Join {
    pub kind: u8,
    pub left: u8,
    pub right: u8,
    pub bit: u8,
}

/// Some of a rule's nodes, in the order of their numbers.
pub(super) struct Part<W: Set, X: Copy> {
    all: W::Table<X>,
    count: usize,
}

impl<W: Set, X: Copy + Default> Part<W, X> {
    pub fn none() -> Part<W, X> {
        Part { all: W::table(X::default()), count: 0 }
    }

    pub fn push(&mut self, one: X) {
        self.all.as_mut()[W::place(self.count)] = one;
        self.count += 1;
    }

    pub fn each(&self) -> &[X] {
        &self.all.as_ref()[..self.count]
    }
}

/// The nodes numbered anew, operands before their node and left's number one below a weak previous's, unless it has one already. A
/// node's bit in a set is the one of its new number, from the lowest.
pub(super) struct Decoded<W: Set> {
    pub tests: Part<W, Test>,
    pub pairs: Part<W, Pair>,
    /// Implies, since and weak previous.
    pub joins: Part<W, Join>,
    pub last: u8,
    pub since: W,
    pub weak: W,
    /// The weak previouses whose operand's number is one below theirs, and the others.
    pub near: W,
    pub far: Part<W, Join>,
}

const NO_NUMBER: u8 = 64;

/// A node's bit, or none.
pub(super) fn bit_if<W: Set>(holds: bool, bit: u8) -> W {
    W::from(holds as u8) << W::place(bit as usize) as u32
}

/// A set with a node's bit as the lowest.
pub(super) fn from_bit<W: Set>(set: W, bit: u8) -> W {
    set >> W::place(bit as usize) as u32
}

impl<W: Set> Decoded<W> {
    pub fn new(rule: &Rule<W>) -> Decoded<W> {
        let none = W::default();
        let (tests, pairs, joins, far) = (Part::none(), Part::none(), Part::none(), Part::none());
        let mut d = Decoded { tests, pairs, joins, last: 0, since: none, weak: none, near: none, far };
        d.last = d.number(rule, rule.count() - 1, &mut 0, &mut W::table(NO_NUMBER));
        d
    }

    /// What stands before the first of 64 states, for each node.
    pub fn first_priors(&self) -> W::Table<u64> {
        let mut carry = W::table(0);
        for (at, bit) in carry.as_mut().iter_mut().enumerate() {
            *bit = !(from_bit(self.weak, at as u8) & W::from(1)).is_empty() as u64;
        }
        carry
    }

    fn number(&mut self, rule: &Rule<W>, node: usize, next: &mut u8, numbers: &mut W::Table<u8>) -> u8 {
        let known = numbers.as_ref()[W::place(node)];
        if known != NO_NUMBER {
            return known;
        }
        let n = rule.node(node);
        let left = if has_left(n.kind) { self.number(rule, n.left as usize, next, numbers) } else { 0 };
        let right = if matches!(n.kind, IMPLIES | SINCE) { self.number(rule, n.right as usize, next, numbers) } else { 0 };
        let bit = *next;
        *next += 1;
        numbers.as_mut()[W::place(node)] = bit;
        match n.kind {
            FALSE => {}
            EQUAL | BELOW => {
                let (lo, width) = if n.kind == EQUAL { (n.constant, 1) } else { (0, n.constant) };
                self.tests.push(Test { lo, width, register: n.register, bit });
            }
            EQUAL_REGISTERS => self.pairs.push(Pair { register: n.register, other: n.constant as u8, bit }),
            kind => {
                let join = Join { kind, left, right, bit };
                let is_weak = kind == WEAK_PREVIOUS;
                self.since |= bit_if(kind == SINCE, bit);
                self.weak |= bit_if(is_weak, bit);
                self.near |= bit_if(is_weak && left + 1 == bit, bit);
                self.joins.push(join);
                if is_weak && left + 1 != bit {
                    self.far.push(join);
                }
            }
        }
        bit
    }
}

fn ask<'a, W: Set>(rule: &'a [W], history: &[u16]) -> Result<Rule<'a, W>, No> {
    let rule = Rule::read(rule)?;
    if history.len() % 16 != 0 {
        return no(14, 0);
    }
    Ok(rule)
}

/// The lowest index at which the rule is false, or none; a state at a time.
pub fn one_at_a_time<W: Set>(rule: &[W], history: &[u16]) -> Result<Option<usize>, No> {
    let d = Decoded::new(&ask(rule, history)?);
    numbers_small(history)?;
    // weak previous takes its value from its prior alone
    let mut joins: Part<W, Join> = Part::none();
    d.joins.each().iter().filter(|j| j.kind != WEAK_PREVIOUS).for_each(|&j| joins.push(j));
    let mut prior = d.weak;
    for (n, state) in history.chunks_exact(16).enumerate() {
        let state: &[u16; 16] = state.try_into().unwrap();
        let mut values = prior & d.weak;
        for t in d.tests.each() {
            let holds = state[(t.register & 15) as usize].wrapping_sub(t.lo) < t.width;
            values |= bit_if(holds, t.bit);
        }
        for p in d.pairs.each() {
            let holds = state[(p.register & 15) as usize] == state[(p.other & 15) as usize];
            values |= bit_if(holds, p.bit);
        }
        // since: right, or left and prior; implies: right, or not left
        let (gate, flip) = (prior | !d.since, !d.since);
        for j in joins.each() {
            let v = from_bit(values, j.right) | (from_bit(values, j.left) ^ from_bit(flip, j.bit)) & from_bit(gate, j.bit);
            values |= (v & W::from(1)) << W::place(j.bit as usize) as u32;
        }
        prior = values << 1 & d.near | values & d.since;
        for j in d.far.each() {
            prior |= (from_bit(values, j.left) & W::from(1)) << W::place(j.bit as usize) as u32;
        }
        if (from_bit(values, d.last) & W::from(1)).is_empty() {
            return Ok(Some(n));
        }
    }
    Ok(None)
}

/// The states that pass, state i at bit i: four quarters of the word side by side.
fn packed(block: &[u16; 1024], passes: impl Fn(&[u16; 16]) -> bool) -> u64 {
    let mut quarters = [0u64; 4];
    for j in (0..16).rev() {
        for (q, bits) in quarters.iter_mut().enumerate() {
            let at = 256 * q + 16 * j;
            *bits = *bits << 1 | passes(block[at..at + 16].try_into().unwrap()) as u64;
        }
    }
    quarters[0] | quarters[1] << 16 | quarters[2] << 32 | quarters[3] << 48
}

/// A since at 64 states: a run of left carries the sum on from where right or the word before starts it.
#[inline(always)]
pub(super) fn since(left: u64, right: u64, before: u64) -> u64 {
    let either = left | right;
    let sum = either.wrapping_add(right).wrapping_add(before);
    right | left & (either ^ right ^ sum)
}

/// The rule's values at 64 states.
fn values_at<W: Set>(d: &Decoded<W>, block: &[u16; 1024], values: &mut W::Table<u64>, carry: &mut W::Table<u64>) -> u64 {
    let (values, carry) = (values.as_mut(), carry.as_mut());
    let place = |bit: u8| W::place(bit as usize);
    for t in d.tests.each() {
        let register = (t.register & 15) as usize;
        values[place(t.bit)] = match t.lo {
            0 => packed(block, |state| state[register] < t.width),
            lo => packed(block, |state| state[register] == lo),
        };
    }
    for p in d.pairs.each() {
        let (register, other) = ((p.register & 15) as usize, (p.other & 15) as usize);
        values[place(p.bit)] = packed(block, |state| state[register] == state[other]);
    }
    for j in d.joins.each() {
        let at = place(j.bit);
        let (left, right, before) = (values[place(j.left)], values[place(j.right)], carry[at]);
        values[at] = match j.kind {
            IMPLIES => !left | right,
            WEAK_PREVIOUS => {
                carry[at] = left >> 63;
                left << 1 | before
            }
            _ => {
                let v = since(left, right, before);
                carry[at] = v >> 63;
                v
            }
        };
    }
    values[place(d.last)]
}

/// The numbers of 64 states; where a history ends sooner, in `rest` and filled up with zeros.
pub(super) fn whole<'a>(block: &'a [u16], rest: &'a mut [u16; 1024]) -> &'a [u16; 1024] {
    block.try_into().unwrap_or_else(|_| {
        rest[..block.len()].copy_from_slice(block);
        &*rest
    })
}

/// The same, 64 states at a time.
pub fn many_at_once<W: Set>(rule: &[W], history: &[u16]) -> Result<Option<usize>, No> {
    let d = Decoded::new(&ask(rule, history)?);
    let (mut values, mut carry) = (W::table(0), d.first_priors());
    let mut found = None;
    let mut any = 0;
    for (n, block) in history.chunks(1024).enumerate() {
        any |= joined(block);
        if found.is_none() {
            let states = block.len() / 16;
            let wrong = !values_at(&d, whole(block, &mut [0; 1024]), &mut values, &mut carry) & u64::MAX >> (64 - states);
            if wrong != 0 {
                found = Some(64 * n + wrong.trailing_zeros() as usize);
            }
        }
    }
    if any > 16_383 {
        numbers_small(history)?;
    }
    Ok(found)
}

//! All small rules, all small limits with the exact histories within these, and all ways to be refused there.
use crate::form::Word;
use crate::limits::{Answer, Limits};
use crate::rule::{check_rule, Node, Rule};
use crate::{State, TOP};

/// Every rule of up to so many nodes over registers 0 and 1 and small constants, with nodes shared in every way.
pub fn every_rule(most: usize) -> Vec<Rule> {
    let mut leaves = vec![Node::new(0, 0, 0, 0, 0)];
    for register in 0..2 {
        leaves.extend((0..3).map(|c| Node::new(1, register, c, 0, 0)));
        leaves.extend((0..4).map(|c| Node::new(2, register, c, 0, 0)));
        leaves.extend((0..2).map(|other| Node::new(6, register, other, 0, 0)));
    }
    let mut tables: Vec<Vec<Node>> = vec![vec![]];
    let mut rules = vec![];
    for n in 0..most as u8 {
        let mut nodes = leaves.clone();
        for left in 0..n {
            nodes.extend((0..n).flat_map(|right| [3, 4].map(|kind| Node::new(kind, 0, 0, left, right))));
            nodes.push(Node::new(5, 0, 0, left, 0));
        }
        tables = tables.iter().flat_map(|table| nodes.iter().map(|&node| [&table[..], &[node]].concat())).collect();
        rules.extend(tables.iter().filter_map(|table| check_rule(&table.iter().map(Node::encode).collect::<Vec<_>>()).ok()));
    }
    rules
}

/// The limits of registers 0 and 1 with values up to `top`; the others are 0.
fn every_limits(top: u16) -> Vec<Limits> {
    let ranges: Vec<(u16, u16)> = (0..=top).flat_map(|high| (0..=high).map(move |low| (low, high))).collect();
    let state = |a, b| std::array::from_fn(|r| [a, b].get(r).copied().unwrap_or(0));
    let limits = |a: (u16, u16), b: (u16, u16)| Limits { low: state(a.0, b.0), high: state(a.1, b.1) };
    ranges.iter().flat_map(|&a| ranges.iter().map(move |&b| limits(a, b))).collect()
}

/// Every choice of one of these at each of so many indices.
fn every_sequence<X: Copy>(of: &[X], indices: usize) -> Vec<Vec<X>> {
    let mut all = vec![vec![]];
    for _ in 0..indices {
        all = all.iter().flat_map(|one| of.iter().map(|&x| [&one[..], &[x]].concat())).collect();
    }
    all
}

/// Does an exact history lie within limits?
pub fn is_within(history: &[State], limits: &[Limits]) -> bool {
    let at = |state: &State, limits: &Limits| (0..16).all(|r| (limits.low[r]..=limits.high[r]).contains(&state[r]));
    history.iter().zip(limits).all(|(state, limits)| at(state, limits))
}

/// Limits at some indices, also as they are lent, and the exact histories within them.
pub struct Within {
    pub limits: Vec<Limits>,
    pub lows: Vec<u16>,
    pub highs: Vec<u16>,
    /// By their numbers.
    pub exact: Vec<usize>,
}

/// All exact histories of so many indices, and all limits.
pub struct Small {
    pub histories: Vec<Vec<State>>,
    pub all: Vec<Within>,
}

impl Small {
    /// Registers 0 and 1 with values up to `top`.
    pub fn new(indices: usize, top: u16) -> Small {
        let each = every_limits(top);
        let states: Vec<State> = each.iter().filter(|limits| limits.low == limits.high).map(|limits| limits.low).collect();
        let histories = every_sequence(&states, indices);
        let within = |limits: Vec<Limits>| Within {
            lows: limits.iter().flat_map(|at| at.low).collect(),
            highs: limits.iter().flat_map(|at| at.high).collect(),
            exact: (0..histories.len()).filter(|&h| is_within(&histories[h], &limits)).collect(),
            limits,
        };
        let all = every_sequence(&each, indices).into_iter().map(within).collect();
        Small { histories, all }
    }

    /// The indices at which the last node is true in each exact history, as bits, by the table of kinds.
    pub fn truths(&self, rule: &Rule) -> Vec<u32> {
        let bits = |row: &[bool]| row.iter().rev().fold(0, |bits, &x| bits << 1 | x as u32);
        self.histories.iter().map(|history| bits(&rule.truth_table(history)[rule.last()])).collect()
    }
}

/// Whether a rule is true at index n in all of some exact histories, in none, or in some of them.
pub fn enumerated(truths: &[u32], exact: &[usize], n: usize) -> Answer {
    let mut at = exact.iter().map(|&h| truths[h] >> n & 1 == 1);
    let first = at.next().expect("some history lies within");
    match (first, at.all(|x| x == first)) {
        (_, false) => Answer::Open,
        (true, true) => Answer::True,
        (false, true) => Answer::False,
    }
}

/// Holds what a judge answers for a rule at each index to the enumeration, for all limits: what is true or false is so in every exact history
/// within; exact limits give the truth; a test by itself is open just where both results occur. Counts the answers false, true and open, and
/// the open ones where all exact histories agree.
pub fn hold_to_every_history(small: &Small, rule: &Rule, mut judge: impl FnMut(&Within) -> Vec<Answer>, met: &mut [u64; 4]) {
    let truths = small.truths(rule);
    for within in &small.all {
        for (n, answer) in judge(within).into_iter().enumerate() {
            let wanted = enumerated(&truths, &within.exact, n);
            let sharp = rule.len() == 1 || within.lows == within.highs;
            let right = answer == wanted || answer == Answer::Open && !sharp;
            assert!(right, "{answer:?} at {n}, {wanted:?} by every exact history: {rule:?}, {:?}", within.limits);
            met[answer as usize] += 1;
            met[3] += (answer != wanted) as u64;
        }
    }
}

/// The ways to be refused within limits, in the order in which they are put: the numbers, and the places that `refused_by` gives them.
pub const REFUSALS: [(u32, usize); 11] = [(1, 0), (2, 3), (3, 2), (4, 1), (14, 0), (14, 0), (22, 0), (13, 0), (15, 20), (15, 9), (23, 4)];

/// What is lent to be judged within limits.
pub struct Refused<W> {
    pub rule: Vec<W>,
    pub lows: Vec<u16>,
    pub highs: Vec<u16>,
    pub out: Vec<u8>,
}

/// Three indices in which some of these ways to be refused are there at once, each a bit, the first the lowest.
pub fn refused_by<W: Word>(ways: u32) -> Refused<W> {
    let [count, fields, operands, used, low_length, high_length, unequal, room, low_number, high_number, order] =
        std::array::from_fn(|way| ways >> way & 1 == 1);
    let test = |register| Node::new(1, register, 1, 0, 0);
    let mut nodes = vec![test(1), test(2)];
    nodes.push(Node::new(4, 0, 0, 0, if operands { 2 } else { 0 }));
    nodes.push(Node { zero: fields.into(), ..Node::new(3, 0, 0, 2, if used { 2 } else { 1 }) });
    while count && nodes.len() <= W::MOST_NODES {
        nodes.push(Node::new(5, 0, 0, nodes.len() as u8 - 1, 0));
    }
    let (mut lows, mut highs) = (vec![3; 48], vec![4; 48]);
    if low_number {
        lows[20] = TOP + 1;
    }
    if high_number {
        highs[9] = u16::MAX;
    }
    if order {
        (lows[4], highs[4]) = (5, 4);
    }
    highs.resize(if unequal { 64 } else { 48 }, 4);
    lows.resize(lows.len() + low_length as usize, 3);
    highs.resize(highs.len() + high_length as usize, 4);
    Refused { rule: nodes.iter().map(Node::encode_in).collect(), lows, highs, out: vec![9; if room { 2 } else { 3 }] }
}

//! Random rules, scripts, inputs and histories that pass every question. Few registers and small constants, so that tests are
//! often true.
use crate::random::Rng;
use crate::rule::{check_rule_in, Node, Rule, MOST_NODES};
use crate::script::{check_bare_in, instruction_words, Line};
use crate::{State, TOP};

pub const REGISTERS: usize = 3;
pub const CONSTANTS: usize = 4;

fn leaf(g: &mut Rng) -> Node {
    match g.pick(&[0, 1, 1, 2, 2, 6, 6]) {
        0 => Node::new(0, 0, 0, 0, 0),
        6 => Node::new(6, g.below(REGISTERS) as u8, g.below(REGISTERS) as u16, 0, 0),
        k => Node::new(k, g.below(REGISTERS) as u8, g.below(CONSTANTS) as u16, 0, 0),
    }
}

/// An operand of node i: one that is not used yet, or, if nodes are used again, any lower one, often.
fn operand(g: &mut Rng, i: usize, unused: &mut Vec<u8>, again: bool) -> Option<u8> {
    if again && i > 0 && g.chance(1, 2) {
        let any = g.below(i) as u8;
        unused.retain(|&u| u != any);
        return Some(any);
    }
    if unused.is_empty() {
        None
    } else {
        Some(unused.swap_remove(g.below(unused.len())))
    }
}

/// A rule of up to 64 nodes, in any order that question 3 allows, in which each but the last is an operand once.
pub fn rule(g: &mut Rng, n: usize) -> Rule {
    table(g, n, false)
}

/// The same, in which nodes are operands again and again.
pub fn sharing_rule(g: &mut Rng, n: usize) -> Rule {
    table(g, n, true)
}

fn table(g: &mut Rng, n: usize, again: bool) -> Rule {
    let mut nodes: Vec<Node> = vec![];
    let mut unused: Vec<u8> = vec![];
    for i in 0..n {
        let left_after = n - i - 1;
        loop {
            let mut rest = unused.clone();
            let mut take = |g: &mut Rng| operand(g, i, &mut rest, again);
            let node = match g.below(10) {
                0..=2 => Some(leaf(g)),
                k @ 3..=8 => take(g).and_then(|l| take(g).map(|r| Node::new(if k < 6 { 3 } else { 4 }, 0, 0, l, r))),
                _ => take(g).map(|l| Node::new(5, 0, 0, l, 0)),
            };
            let Some(node) = node else { continue };
            rest.push(i as u8);
            // Each later node lowers the number of unused ones by one at most, and one is left at the end.
            if rest.len() - 1 <= left_after && (left_after > 0 || rest.len() == 1) {
                nodes.push(node);
                unused = rest;
                break;
            }
        }
    }
    // in the second form, which has room for every table that the first has room for
    let words: Vec<u64> = nodes.iter().map(Node::encode_in).collect();
    check_rule_in(&words).expect("a generated rule passes")
}

/// How many nodes: mostly few, sometimes the most that a form allows.
pub fn rule_size_within(g: &mut Rng, most: usize) -> usize {
    match g.below(40) {
        0 => most,
        1 | 2 => g.within(11, most),
        _ => g.within(1, 10),
    }
}

pub fn rule_size(g: &mut Rng) -> usize {
    rule_size_within(g, MOST_NODES)
}

/// What to raise or lower a register by: little, or so much that an end is near.
pub fn amount(g: &mut Rng) -> u16 {
    let c = g.below(CONSTANTS) as u16;
    if g.chance(1, 4) {
        TOP - c
    } else {
        c
    }
}

/// A bare script of n lines.
pub fn bare(g: &mut Rng, rule: &Rule, n: usize) -> Vec<Line> {
    let mut lines = vec![];
    for i in 0..n {
        let last = i + 1 == n;
        let op = loop {
            let op = g.pick(&[0, 1, 2, 3, 4, 4, 4, 4, 5, 6, 7, 7, 8, 8, 8, 8, 13, 13, 14]);
            if (!last || matches!(op, 0 | 7)) && (op != 0 || last || g.chance(1, 4)) {
                break op;
            }
        };
        let r = g.below(REGISTERS) as u8;
        let c = g.below(CONSTANTS) as u16;
        let t = if g.chance(1, 8) && !last { i + 1 } else { g.below(n) } as u16;
        lines.push(match op {
            0 | 8 => Line::new(op, 0, 0, 0),
            1 => Line::new(op, r, c, 0),
            2 => Line::new(op, r, g.below(REGISTERS) as u16, 0),
            3 | 14 => Line::new(op, r, amount(g), 0),
            4 => Line::new(op, r, 0, 0),
            5 | 6 => Line::new(op, r, c, t),
            13 => Line::new(op, r, g.below(REGISTERS) as u16, t),
            _ => Line::new(op, 0, 0, t),
        });
    }
    check_bare_in::<u64>(&rule.words_in(), &instruction_words(&lines)).expect("a generated script passes").1
}

/// A bare script made to come to an end: what branches goes forwards, and the last line halts, or goes to line 0 if that reads an input.
pub fn ending(g: &mut Rng, mut bare: Vec<Line>) -> Vec<Line> {
    let last = bare.len() - 1;
    for (i, l) in bare[..last].iter_mut().enumerate().filter(|(_, l)| l.uses_target()) {
        l.target = g.within(i + 1, last) as u16;
    }
    let reads = last > 0 && bare[0].op == 4;
    bare[last] = Line::new(if reads { 7 } else { 0 }, 0, 0, 0);
    bare
}

pub fn inputs(g: &mut Rng) -> Vec<u16> {
    let n = g.below(40);
    (0..n).map(|_| if g.chance(1, 50) { TOP } else { g.below(CONSTANTS) as u16 }).collect()
}

pub fn history(g: &mut Rng, most: usize) -> Vec<State> {
    let n = g.below(most + 1);
    (0..n)
        .map(|_| {
            let mut s = [0; 16];
            for dial in s.iter_mut().take(REGISTERS) {
                *dial = g.below(CONSTANTS) as u16;
            }
            s
        })
        .collect()
}

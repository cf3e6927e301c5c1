//! Rules: the table of nodes, questions 1 to 4, truth by the table of kinds.
use crate::facts::{planted, Fault};
use crate::form::{word_of, Fields, Word};
use crate::{no, No, State};

/// Of the first stored form.
pub const MOST_NODES: usize = u32::MOST_NODES;

#[derive(Clone, Copy, Debug, PartialEq, Eq)]
pub struct Node {
    pub kind: u8,
    pub register: u8,
    pub constant: u16,
    pub left: u8,
    pub right: u8,
    /// the zero bit, 31 of them in the second form
    pub zero: u32,
}

/// The bits of a node's kind, register and constant.
const KIND: u32 = 3;
const REGISTER: u32 = 4;
const CONSTANT: u32 = 14;

/// The bits that are left below the operands.
const fn zeros<W: Word>() -> u32 {
    W::BITS - KIND - REGISTER - CONSTANT - 2 * W::OPERAND
}

impl Node {
    pub fn decode_in<W: Word>(word: W) -> Node {
        let mut fields = Fields::of(word);
        let operand = if planted(Fault::FiveBits) { 31 } else { 63 };
        Node {
            kind: fields.take(KIND) as u8,
            register: fields.take(REGISTER) as u8,
            constant: fields.take(CONSTANT) as u16,
            left: fields.take(W::OPERAND) as u8 & operand,
            right: fields.take(W::OPERAND) as u8 & operand,
            zero: fields.take(zeros::<W>()) as u32,
        }
    }

    pub fn encode_in<W: Word>(&self) -> W {
        word_of(&[
            (self.kind.into(), KIND),
            (self.register.into(), REGISTER),
            (self.constant.into(), CONSTANT),
            (self.left.into(), W::OPERAND),
            (self.right.into(), W::OPERAND),
            (self.zero.into(), zeros::<W>()),
        ])
    }

    pub fn decode(word: u32) -> Node {
        Node::decode_in(word)
    }

    pub fn encode(&self) -> u32 {
        self.encode_in()
    }

    pub fn new(kind: u8, register: u8, constant: u16, left: u8, right: u8) -> Node {
        Node { kind, register, constant, left, right, zero: 0 }
    }

    /// The opcode that branches on the node's test, if it is one.
    pub fn branch(&self) -> Option<u8> {
        match self.kind {
            1 => Some(5),
            2 => Some(6),
            6 => Some(13),
            _ => None,
        }
    }

    pub fn is_past(&self) -> bool {
        matches!(self.kind, 4 | 5)
    }

    /// The operand numbers, left before right; the same number twice if both are the same.
    pub fn operands(&self) -> impl Iterator<Item = usize> {
        let places = match self.kind {
            3 | 4 => [Some(self.left), Some(self.right)],
            5 => [Some(self.left), None],
            _ => [None, None],
        };
        places.into_iter().flatten().map(usize::from)
    }

    fn unused_fields_zero(&self) -> bool {
        let test = self.register == 0 && self.constant == 0;
        let (left, right) = (self.left == 0, self.right == 0);
        (self.zero == 0 || planted(Fault::ZerosPass))
            && match self.kind {
                0 => test && left && right,
                1 | 2 | 6 => left && right,
                3 | 4 => test,
                5 => test && right,
                _ => unreachable!(),
            }
    }

    /// What a test says of one state.
    pub fn test(&self, state: &State) -> bool {
        let dial = state[self.register as usize];
        match self.kind {
            1 => dial == self.constant,
            2 => dial < self.constant,
            6 => dial == state[self.constant as usize],
            _ => unreachable!(),
        }
    }
}

/// How many times number i stands where one of these nodes has an operand.
fn mentions(nodes: &[Node], i: usize) -> usize {
    nodes.iter().flat_map(Node::operands).filter(|&o| o == i).count()
}

fn past(nodes: &[Node], i: usize) -> bool {
    nodes.get(i).is_some_and(Node::is_past)
}

/// A node that is an operand twice or more is shared if it is no past node.
fn shared(nodes: &[Node], i: usize, mentions: usize) -> bool {
    let least = if planted(Fault::OnceIsShared) { 1 } else { 2 };
    !past(nodes, i) && mentions >= least
}

/// Whether a line's opcode 9 to 12 may name node i of these nodes: kept bits are asked and set of past nodes (10, 12), work bits of past
/// and of shared ones (9, 11).
pub fn may_name(nodes: &[Node], op: u8, i: usize) -> bool {
    let work = matches!(op, 9 | 11) || op == 10 && planted(Fault::TenNamesShared);
    past(nodes, i) || work && shared(nodes, i, mentions(nodes, i))
}

/// A rule that has passed questions 1 to 4.
#[derive(Clone, Debug, PartialEq, Eq)]
pub struct Rule {
    pub nodes: Vec<Node>,
    /// How many times each node is an operand: it is asked so often that it is counted once.
    uses: Vec<usize>,
}

/// Questions 1 to 4.
pub fn check_rule_in<W: Word>(words: &[W]) -> Result<Rule, No> {
    // 1. Has it 1 to 32 nodes, in the second form 1 to 64?
    if words.is_empty() || words.len() > W::MOST_NODES {
        return no(1, 0);
    }
    let nodes: Vec<Node> = words.iter().map(|&w| Node::decode_in(w)).collect();
    let uses = (0..nodes.len()).map(|i| mentions(&nodes, i)).collect();
    let rule = Rule { nodes, uses };
    // 2. Are kinds 0 to 6, unused fields zero, and the other register of a kind 6 at most 15?
    for (i, n) in rule.nodes.iter().enumerate() {
        if n.kind > 6 || !n.unused_fields_zero() || n.kind == 6 && n.constant > 15 {
            return no(2, i);
        }
    }
    // 3. Are operands lower than their node?
    for (i, n) in rule.nodes.iter().enumerate() {
        if n.operands().any(|o| o >= i) {
            return no(3, i);
        }
    }
    // 4. Is each node but the last an operand at least once?
    for i in 0..rule.last() {
        if rule.uses(i) == 0 || planted(Fault::ExactlyOnce) && rule.uses(i) > 1 {
            return no(4, i);
        }
    }
    Ok(rule)
}

pub fn check_rule(words: &[u32]) -> Result<Rule, No> {
    check_rule_in(words)
}

/// Right is true at some i ≤ n and left at every j with i < j ≤ n.
fn since(left: &[bool], right: &[bool], n: usize) -> bool {
    let all_left = |from: usize| left[from..=n].iter().all(|&x| x);
    let after = if planted(Fault::SinceWantsLeft) { 0 } else { 1 };
    (0..=n).any(|i| right[i] && all_left(i + after)) || planted(Fault::SinceByLeft) && all_left(0)
}

impl Rule {
    pub fn len(&self) -> usize {
        self.nodes.len()
    }

    pub fn is_empty(&self) -> bool {
        self.nodes.is_empty()
    }

    pub fn last(&self) -> usize {
        self.nodes.len() - 1
    }

    pub fn words_in<W: Word>(&self) -> Vec<W> {
        self.nodes.iter().map(Node::encode_in).collect()
    }

    pub fn words(&self) -> Vec<u32> {
        self.words_in()
    }

    /// How many times node i is an operand, by operand places: `implies 0 0` uses node 0 twice.
    pub fn uses(&self, i: usize) -> usize {
        self.uses.get(i).map_or(0, |&uses| uses)
    }

    pub fn is_past(&self, i: usize) -> bool {
        past(&self.nodes, i)
    }

    /// Each shared node has a work bit and the fact W, as each past node has: here the work bit is its value now.
    pub fn is_shared(&self, i: usize) -> bool {
        shared(&self.nodes, i, self.uses(i))
    }

    fn nodes_that(&self, are: impl Fn(usize) -> bool) -> Vec<usize> {
        (0..self.len()).filter(|&i| are(i)).collect()
    }

    pub fn past_nodes(&self) -> Vec<usize> {
        self.nodes_that(|i| self.is_past(i))
    }

    pub fn shared_nodes(&self) -> Vec<usize> {
        self.nodes_that(|i| self.is_shared(i))
    }

    /// Past and shared nodes, in one rising order.
    pub fn work_nodes(&self) -> Vec<usize> {
        self.nodes_that(|i| self.is_past(i) || self.is_shared(i))
    }

    /// Truth of node i at index n of a history: the table of kinds, read literally.
    pub fn truth(&self, i: usize, history: &[State], n: usize) -> bool {
        let d = &self.nodes[i];
        let (left, right) = (d.left as usize, d.right as usize);
        match d.kind {
            0 => false,
            1 | 2 | 6 => d.test(&history[n]),
            3 => !self.truth(left, history, n) || self.truth(right, history, n),
            4 => (0..=n).any(|i| self.truth(right, history, i) && (i + 1..=n).all(|j| self.truth(left, history, j))),
            5 => n == 0 || self.truth(left, history, n - 1),
            _ => unreachable!(),
        }
    }

    /// The same definition with the values of the operands at all indices written down once (nothing is kept from index to
    /// index: a since still looks back over the whole history).
    pub fn truth_table(&self, history: &[State]) -> Vec<Vec<bool>> {
        let mut table: Vec<Vec<bool>> = vec![];
        for d in &self.nodes {
            let (left, right) = (d.left as usize, d.right as usize);
            let row = (0..history.len())
                .map(|n| match d.kind {
                    0 => false,
                    1 | 2 | 6 => d.test(&history[n]),
                    3 => !table[left][n] || table[right][n],
                    4 => since(&table[left], &table[right], n),
                    5 => n == 0 || table[left][n - 1],
                    _ => unreachable!(),
                })
                .collect();
            table.push(row);
        }
        table
    }

    /// Would a presentation made now keep the rule?
    pub fn holds_now(&self, history: &[State], now: &State) -> bool {
        let mut all = history.to_vec();
        all.push(*now);
        self.truth_table(&all)[self.last()][history.len()]
    }

    /// The formula for the lines of a block: 3 more for each shared node, 2 for each mention of it, and 2 for each mention of a past
    /// node after the first.
    pub fn block_lines(&self) -> usize {
        let count = |kinds: &[u8]| self.nodes.iter().filter(|n| kinds.contains(&n.kind)).count();
        let of_shared: usize = self.shared_nodes().iter().map(|&i| 3 + 2 * self.uses(i)).sum();
        let of_past: usize = self.past_nodes().iter().map(|&i| 2 * self.uses(i).saturating_sub(1)).sum();
        let later = if planted(Fault::LaterMentionsFree) { 0 } else { of_past };
        1 + 2 * count(&[1, 2, 6]) + count(&[0]) + 8 * count(&[4]) + 6 * count(&[5]) + of_shared + later
    }
}

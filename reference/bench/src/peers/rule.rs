//! A rule, checked and decoded in one pass.
use super::form::Set;
use super::{no, No};

pub const FALSE: u8 = 0;
pub const EQUAL: u8 = 1;
pub const BELOW: u8 = 2;
pub const IMPLIES: u8 = 3;
pub const SINCE: u8 = 4;
pub const WEAK_PREVIOUS: u8 = 5;
pub const EQUAL_REGISTERS: u8 = 6;

#[derive(Clone, Copy, Default)]
pub struct Node {
    pub kind: u8,
    pub left: u8,
    pub right: u8,
    pub register: u8,
    pub constant: u16,
}

/// A rule of one of the stored forms.
pub struct Rule<'a, W: Set> {
    pub words: &'a [W],
    pub nodes: W::Table<Node>,
    pub falses: W,
    pub since: W,
    pub weak: W,
    /// The nodes that are operands twice or more.
    pub twice: W,
}

/// Whether nodes of a kind have an operand: implies, since and weak previous.
pub fn has_left(kind: u8) -> bool {
    kind.wrapping_sub(IMPLIES) <= WEAK_PREVIOUS - IMPLIES
}

pub fn kind_of<W: Set>(word: W) -> u8 {
    (word.top() >> 61) as u8
}

impl<'a, W: Set> Rule<'a, W> {
    /// Questions 1 to 4. Of question 3 the lowest place is kept until question 2 has been put to all nodes.
    #[inline]
    pub fn read(words: &'a [W]) -> Result<Rule<'a, W>, No> {
        if words.is_empty() || words.len() > W::MOST_NODES {
            return no(1, 0);
        }
        let mut nodes = W::table(Node::default());
        let mut kinds = [W::default(); 8];
        let (mut once, mut twice, mut high) = (W::default(), W::default(), W::default());
        for (i, &w) in words.iter().enumerate() {
            let kind = kind_of(w);
            if !(w & W::UNUSED[kind as usize]).is_empty() {
                return no(2, i);
            }
            let operand = |down: u32| W::place((w.top() >> (43 - down)) as usize) as u8;
            let (left, right) = (operand(W::OPERAND), operand(2 * W::OPERAND));
            let (register, constant) = ((w.top() >> 57 & 15) as u8, (w.top() >> 43 & 0x3fff) as u16);
            nodes.as_mut()[i] = Node { kind, left, right, register, constant };
            kinds[kind as usize] |= W::bit(i);
            // without an operand nothing is counted
            let (uses_left, uses_right) = (has_left(kind) as u8, (kind == IMPLIES || kind == SINCE) as u8);
            let (l, r) = (W::from(uses_left) << (W::BITS - 1 - left as u32), W::from(uses_right) << (W::BITS - 1 - right as u32));
            twice |= once & l | (once | l) & r;
            once |= l | r;
            // operands are lower: their bits stand above this node's
            high |= W::bit(i).only_if(!((l | r) & W::ALL >> i as u32).is_empty());
        }
        if !high.is_empty() {
            return no(3, high.zeros() as usize);
        }
        let unused = !once & !(W::ALL >> (words.len() as u32 - 1));
        if !unused.is_empty() {
            return no(4, unused.zeros() as usize);
        }
        let [falses, _, _, _, since, weak, _, _] = kinds;
        Ok(Rule { words, nodes, falses, since, weak, twice })
    }

    pub fn count(&self) -> usize {
        self.words.len()
    }

    pub fn node(&self, node: usize) -> Node {
        self.nodes.as_ref()[W::place(node)]
    }

    /// All of its nodes.
    pub fn all(&self) -> W {
        W::ALL << (W::BITS - self.count() as u32)
    }

    pub fn past(&self) -> W {
        self.since | self.weak
    }

    pub fn shared(&self) -> W {
        self.twice & !self.past()
    }

    /// The nodes that have a work bit.
    pub fn work(&self) -> W {
        self.twice | self.past()
    }

    /// The node whose value now W says that the work bit is: a past node's next prior, a shared node's own value.
    pub fn worked_out(&self, node: usize) -> usize {
        let d = self.node(node);
        if d.kind == WEAK_PREVIOUS {
            d.left as usize
        } else {
            node
        }
    }
}

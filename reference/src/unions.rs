//! 2026-09: two annotations of the same instructions put together, with the facts that one or the other notes.
use crate::form::Word;
use crate::script::Line;

impl Line {
    /// The instruction with the facts of both.
    pub fn union(&self, other: &Line) -> Line {
        assert!(self.word() == other.word() && self.zero == other.zero, "two annotations of one instruction");
        Line { facts: self.facts.union(&other.facts), ..*self }
    }
}

/// The stored words of two annotated scripts put together: the first word of each line is the instruction and stays as it is, the other
/// seven are joined bit by bit.
pub fn union_in<W: Word>(one: &[W], other: &[W]) -> Vec<W> {
    assert_eq!(one.len(), other.len());
    assert!(one.iter().step_by(8).eq(other.iter().step_by(8)), "two annotations of the same instructions");
    let word = |k: usize| match k % 8 {
        0 => one[k],
        _ => one[k] | other[k],
    };
    (0..one.len()).map(word).collect()
}

pub fn union(one: &[u32], other: &[u32]) -> Vec<u32> {
    union_in(one, other)
}

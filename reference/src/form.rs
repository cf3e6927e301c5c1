//! The two stored forms of rules and annotated scripts, by their words: 32 bits, and since 2026-07 64 bits. Both are read from the most
//! significant bit on, and only the length of a word and of an operand's number tells them apart. What has been read knows no form.
use crate::{no, No};
use std::fmt::Debug;
use std::ops::BitOr;

/// A word of a stored form.
pub trait Word: Copy + Debug + PartialEq + Into<u64> + TryFrom<u64> + BitOr<Output = Self> {
    const BITS: u32;

    /// A word of facts has a bit for each node.
    const MOST_NODES: usize = Self::BITS as usize;

    /// The bits of an operand's number.
    const OPERAND: u32 = Self::BITS.ilog2();

    /// Its bits as the uppermost of 64, so that node 0 has the most significant bit in both forms.
    fn at_top(self) -> u64 {
        self.into() << (64 - Self::BITS)
    }

    /// The word that has these bits; a set bit below it would be lost.
    fn from_top(bits: u64) -> Self {
        let below = 64 - Self::BITS;
        assert!(bits >> below << below == bits, "{bits:x} is no word of {} bits", Self::BITS);
        Self::try_from(bits >> below).ok().expect("what is left has the word's bits")
    }
}

impl Word for u32 {
    const BITS: u32 = 32;
}

impl Word for u64 {
    const BITS: u32 = 64;
}

/// The fields of a word, taken from the most significant bit on.
pub struct Fields {
    bits: u64,
}

impl Fields {
    pub fn of<W: Word>(word: W) -> Fields {
        Fields { bits: word.at_top() }
    }

    pub fn take(&mut self, width: u32) -> u64 {
        let field = self.bits >> (64 - width);
        self.bits <<= width;
        field
    }
}

/// A word put together of fields, each with its width, from the most significant bit on.
pub fn word_of<W: Word>(fields: &[(u64, u32)]) -> W {
    let mut room = 64;
    let mut bits = 0;
    for &(field, width) in fields {
        assert!(field >> width == 0, "{field} has more than {width} bits");
        room -= width;
        bits |= field << room;
    }
    W::from_top(bits)
}

/// 13. Is there a place for each word in the output? Then writes them to its start; later words stay.
pub fn hand_over<W: Word>(words: &[W], output: &mut [W]) -> Result<(), No> {
    if output.len() < words.len() {
        return no(13, 0);
    }
    output[..words.len()].copy_from_slice(words);
    Ok(())
}

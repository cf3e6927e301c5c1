//! What the peers want of a stored form's words, so that each has one body for both forms and works with words and tables of the form's
//! own length.
use compare::proved::Form;
use reference::form::Word;
use std::ops::{BitAnd, BitAndAssign, BitOr, BitOrAssign, BitXor, Not, Shl, Shr};

/// A stored word, and as a set of nodes the bits of its nodes, node 0 the most significant one.
pub trait Set:
    Form
    + 'static
    + Eq
    + Default
    + Not<Output = Self>
    + BitAnd<Output = Self>
    + BitOr<Output = Self>
    + BitXor<Output = Self>
    + BitAndAssign
    + BitOrAssign
    + Shl<u32, Output = Self>
    + Shr<u32, Output = Self>
{
    /// A place for each node, and one more.
    type Table<X: Copy>: Copy + AsRef<[X]> + AsMut<[X]>;
    type OneMore<X: Copy>: AsRef<[X]> + AsMut<[X]>;

    /// All of its bits.
    const ALL: Self;
    /// The bits of a node's word that each kind leaves unused; of the other register's number, what is above 15.
    const UNUSED: [Self; 8];

    fn table<X: Copy>(of: X) -> Self::Table<X>;
    fn one_more<X: Copy>(of: X) -> Self::OneMore<X>;
    /// Its bits as the uppermost of 64, and the word of such bits.
    fn top(self) -> u64;
    fn of_top(bits: u64) -> Self;
    fn zeros(self) -> u32;
    fn ones(self) -> u32;

    /// The number of a node that is less than the most.
    #[inline(always)]
    fn place(node: usize) -> usize {
        node & (Self::MOST_NODES - 1)
    }

    #[inline(always)]
    fn bit(node: usize) -> Self {
        Self::from(1) << (Self::BITS - 1 - Self::place(node) as u32)
    }

    #[inline(always)]
    fn is_empty(self) -> bool {
        self == Self::default()
    }

    /// This set, or the empty one.
    #[inline(always)]
    fn only_if(self, holds: bool) -> Self {
        if holds {
            self
        } else {
            Self::default()
        }
    }

    /// The instruction in a line's first word, and such a word.
    #[inline(always)]
    fn instruction(self) -> u32 {
        (self.top() >> 32) as u32
    }

    #[inline(always)]
    fn of_instruction(word: u32) -> Self {
        Self::of_top((word as u64) << 32)
    }

    /// What stands below the instruction.
    #[inline(always)]
    fn below(self) -> u32 {
        self.top() as u32
    }
}

macro_rules! set {
    ($word:ty) => {
        impl Set for $word {
            type Table<X: Copy> = [X; <$word>::BITS as usize];
            type OneMore<X: Copy> = [X; <$word>::BITS as usize + 1];

            const ALL: Self = !0;
            const UNUSED: [Self; 8] = {
                // kind, register and constant are the 21 uppermost bits; below them stand the operands, and zeros
                let test = 0x3_ffff << (Self::BITS - 21);
                let operands = !0 >> 21;
                let (right, zeros) = (operands >> Self::OPERAND, operands >> (2 * Self::OPERAND));
                let above_15 = 0x3ff << (Self::BITS - 17);
                [test | operands, operands, operands, test | zeros, test | zeros, test | right, above_15 | operands, !0]
            };

            #[inline(always)]
            fn table<X: Copy>(of: X) -> Self::Table<X> {
                [of; <$word>::BITS as usize]
            }

            #[inline(always)]
            fn one_more<X: Copy>(of: X) -> Self::OneMore<X> {
                [of; <$word>::BITS as usize + 1]
            }

            #[inline(always)]
            fn top(self) -> u64 {
                (self as u64) << (64 - <$word>::BITS)
            }

            #[inline(always)]
            fn of_top(bits: u64) -> Self {
                (bits >> (64 - <$word>::BITS)) as $word
            }

            #[inline(always)]
            fn zeros(self) -> u32 {
                self.leading_zeros()
            }

            #[inline(always)]
            fn ones(self) -> u32 {
                self.count_ones()
            }
        }
    };
}

set!(u32);
set!(u64);

/// The nodes of a set, rising.
pub fn nodes_of<W: Set>(set: W) -> impl Iterator<Item = usize> {
    let mut rest = set;
    std::iter::from_fn(move || {
        let node = rest.zeros() as usize;
        rest &= !W::bit(node);
        (node < W::MOST_NODES).then_some(node)
    })
}

//! A second implementation of the presentation guard, written from the specification alone and independent of the proved
//! code: clarity before speed. Where the two differ, one of them has misread a sentence.
pub mod enumerate;
pub mod facts;
pub mod form;
pub mod form64;
pub mod generate;
pub mod generate_text;
pub mod judge;
pub mod largest;
pub mod limits;
pub mod listing;
pub mod machine;
pub mod moves;
pub mod plain;
pub mod random;
pub mod ready;
pub mod rule;
pub mod script;
pub mod stations;
pub mod text;
pub mod unions;
pub mod weave;

/// A "no": the question's number and the place.
#[derive(Clone, Copy, Debug, PartialEq, Eq)]
pub struct No {
    pub number: u32,
    pub place: usize,
}

pub fn no<X>(number: u32, place: usize) -> Result<X, No> {
    Err(No { number, place })
}

/// The largest number that a dial holds.
pub const TOP: u16 = 16_383;

/// The 16 dials.
pub type State = [u16; 16];

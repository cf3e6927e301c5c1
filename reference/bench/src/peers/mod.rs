//! Peers of the proved code in plain Rust: the same questions and the same answers, written for speed and not for proof.
pub mod facts;
pub mod form;
pub mod judge;
pub mod limits;
pub mod machine;
pub mod rule;
pub mod script;
pub mod stations;
pub mod text;
pub mod weave;

/// A refusal.
pub struct No {
    pub number: u32,
    pub place: usize,
}

fn no<X>(number: u32, place: usize) -> Result<X, No> {
    Err(No { number, place })
}

/// Question 15. A loop with no early way out runs many numbers at a time.
fn numbers_small(numbers: &[u16]) -> Result<(), No> {
    if joined(numbers) <= 16_383 {
        return Ok(());
    }
    no(15, numbers.iter().position(|&x| x > 16_383).unwrap())
}

fn joined(numbers: &[u16]) -> u16 {
    numbers.iter().fold(0, |a, &b| a | b)
}

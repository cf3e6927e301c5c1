//! What `include/guard.h` offers for one of the stored forms, on slices.
use crate::proved::Form;
use reference::stations::{Station, STATIONS};

/// The numbers of a machine's state, and where they stand.
pub const LINE: usize = 0;
pub const PRESENTATIONS: usize = 1;
pub const KEPT: usize = 3;
pub const WORK: usize = 4;
pub const REGISTERS: usize = 5;
pub const READY: usize = 21;
pub const PRIORS: usize = 22;
pub const NEXT_PRIORS: usize = 23;
pub const TESTED: usize = 24;
pub const STATE_NUMBERS: usize = 25;
/// The numbers of the four stations' states, one state after the other.
pub const STATES_NUMBERS: usize = STATIONS * STATE_NUMBERS;

/// The proved library has it, and so has the reference.
pub trait Face<W: Form> {
    fn text(&self, text: &[u8], out: &mut [W], numbers: &mut [u64]) -> u32;
    fn rule(&self, rule: &[W], numbers: &mut [u64]) -> u32;
    fn bare(&self, rule: &[W], script: &[u32], numbers: &mut [u64]) -> u32;
    fn script(&self, rule: &[W], script: &[W], numbers: &mut [u64]) -> u32;
    fn weave(&self, rule: &[W], bare: &[u32], out: &mut [W], numbers: &mut [u64]) -> u32;
    fn facts(&self, rule: &[W], instructions: &[u32], out: &mut [W], numbers: &mut [u64]) -> u32;
    fn judge(&self, rule: &[W], history: &[u16], numbers: &mut [u64]) -> u32;
    fn limits(&self, rule: &[W], lows: &[u16], highs: &[u16], out: &mut [u8], numbers: &mut [u64]) -> u32;
    fn run(&self, rule: &[W], script: &[W], inputs: &[u16], budget: u64, history: &mut [u16], numbers: &mut [u64]) -> u32;
    fn fresh(&self, rule: &[W], state: &mut [u64]) -> u32;
    fn step(&self, rule: &[W], script: &[W], inputs: &[u16], history: &mut [u16], state: &mut [u64]) -> u32;
    fn stations(&self, states: &mut [u64], budget: u64, allowance: u64, stations: [Station<W>; STATIONS], numbers: &mut [u64]) -> u32;
    /// To the other form, and so the next.
    fn move_rule(&self, rule: &[W], out: &mut [W::Other], numbers: &mut [u64]) -> u32;
    fn move_script(&self, rule: &[W], script: &[W], out: &mut [W::Other], numbers: &mut [u64]) -> u32;
}

//! What `include/guard.h` says of each function, over the reference.
use crate::face::{Face, READY, REGISTERS, STATES_NUMBERS, STATE_NUMBERS};
use crate::proved::Form;
use reference::judge::judge_in;
use reference::largest::find_facts_in;
use reference::limits::judge_limits_in;
use reference::machine::{fresh, nodes_in, run_in, step_stored_in, Machine, Ran, Stop};
use reference::moves::{move_rule, move_script};
use reference::ready::{Bits, Readiness};
use reference::rule::check_rule_in;
use reference::script::{check_bare_in, check_script_in};
use reference::stations::{run_stations_in, Station, STATIONS};
use reference::text::read_text_in;
use reference::weave::weave_in;
use reference::No;

const TOO_SHORT: u32 = 99;
const TOO_LARGE: u32 = 98;

/// Histories of up to so many states are judged by the table of kinds, longer ones with priors kept.
pub const DIRECT: usize = 24;

/// Writes the first words; later ones stay.
fn note<const N: usize>(numbers: &mut [u64], words: [u64; N]) {
    numbers[..N].copy_from_slice(&words);
}

/// Writes the numbers of an answer, of a refusal the place and zeros.
fn answered<const N: usize>(numbers: &mut [u64], answer: impl FnOnce() -> Result<[u64; N], No>) -> u32 {
    if numbers.len() < N {
        return TOO_SHORT;
    }
    let (result, words) = match answer() {
        Ok(words) => (0, words),
        Err(no) => (no.number, std::array::from_fn(|k| if k == 0 { no.place as u64 } else { 0 })),
    };
    note(numbers, words);
    result
}

fn checked<X>(numbers: &mut [u64], answer: impl FnOnce() -> Result<X, No>) -> u32 {
    answered(numbers, || answer().map(|_| [0]))
}

/// How many were written, of lines, of nodes, of facts or of answers.
fn written(numbers: &mut [u64], answer: impl FnOnce() -> Result<usize, No>) -> u32 {
    answered(numbers, || answer().map(|count| [0, count as u64]))
}

/// The numbers of a run that was made.
fn ran_words(ran: &Ran) -> [u64; 22] {
    let stop = match ran.stop {
        Stop::Halted => 1,
        Stop::Spent => 2,
        Stop::Dry => 3,
        Stop::Full => 4,
    };
    let mut words = [0; 22];
    words[1..6].copy_from_slice(&[stop, ran.line, ran.steps, ran.presentations, ran.read]);
    words[6..].copy_from_slice(&ran.dials.map(u64::from));
    words
}

/// Node 0, or register 0, is the most significant bit.
fn bits(word: u64) -> Bits {
    std::array::from_fn(|k| word >> (63 - k) & 1 == 1)
}

fn word(bits: Bits) -> u64 {
    bits.iter().fold(0, |w, &b| w << 1 | b as u64)
}

fn note_machine(state: &mut [u64], m: &Machine) {
    note(state, [m.line, m.presentations, m.read, word(m.kept), word(m.work)]);
    note(&mut state[REGISTERS..], m.dials.map(u64::from));
    let Readiness { ready, priors, next, tested } = m.readiness;
    note(&mut state[READY..], [ready as u64, word(priors), word(next), word(tested)]);
}

/// The machine in a state of enough numbers; none if one of them is too large.
fn machine(state: &[u64]) -> Option<Machine> {
    let mut dials = [0; 16];
    for (dial, &word) in dials.iter_mut().zip(&state[REGISTERS..READY]) {
        *dial = u16::try_from(word).ok()?;
    }
    let ready = match state[READY] {
        0 => false,
        1 => true,
        _ => return None,
    };
    let [priors, next, tested] = [state[22], state[23], state[24]].map(bits);
    let readiness = Readiness { ready, priors, next, tested };
    let (line, presentations, read) = (state[0], state[1], state[2]);
    Some(Machine { dials, kept: bits(state[3]), work: bits(state[4]), line, presentations, read, readiness })
}

/// The reference behind the header's functions.
pub struct Reference;

impl<W: Form> Face<W> for Reference {
    fn text(&self, text: &[u8], out: &mut [W], numbers: &mut [u64]) -> u32 {
        written(numbers, || read_text_in(text, out))
    }

    fn rule(&self, rule: &[W], numbers: &mut [u64]) -> u32 {
        checked(numbers, || check_rule_in(rule))
    }

    fn bare(&self, rule: &[W], script: &[u32], numbers: &mut [u64]) -> u32 {
        checked(numbers, || check_bare_in(rule, script))
    }

    fn script(&self, rule: &[W], script: &[W], numbers: &mut [u64]) -> u32 {
        checked(numbers, || check_script_in(rule, script))
    }

    fn weave(&self, rule: &[W], bare: &[u32], out: &mut [W], numbers: &mut [u64]) -> u32 {
        written(numbers, || weave_in(rule, bare, out))
    }

    fn facts(&self, rule: &[W], instructions: &[u32], out: &mut [W], numbers: &mut [u64]) -> u32 {
        written(numbers, || find_facts_in(rule, instructions, out))
    }

    fn judge(&self, rule: &[W], history: &[u16], numbers: &mut [u64]) -> u32 {
        answered(numbers, || {
            let verdict = judge_in(rule, history, DIRECT)?;
            let index = verdict.index as u64;
            Ok(if verdict.part.is_empty() { [0, 0, 0, index] } else { [0, 1, index, 0] })
        })
    }

    fn limits(&self, rule: &[W], lows: &[u16], highs: &[u16], out: &mut [u8], numbers: &mut [u64]) -> u32 {
        written(numbers, || judge_limits_in(rule, lows, highs, out))
    }

    fn run(&self, rule: &[W], script: &[W], inputs: &[u16], budget: u64, history: &mut [u16], numbers: &mut [u64]) -> u32 {
        answered(numbers, || run_in(rule, script, inputs, budget, history).map(|ran| ran_words(&ran)))
    }

    fn fresh(&self, rule: &[W], state: &mut [u64]) -> u32 {
        if state.len() < STATE_NUMBERS {
            return TOO_SHORT;
        }
        note_machine(state, &fresh(&nodes_in(rule)));
        0
    }

    fn step(&self, rule: &[W], script: &[W], inputs: &[u16], history: &mut [u16], state: &mut [u64]) -> u32 {
        if state.len() < STATE_NUMBERS {
            return TOO_SHORT;
        }
        let Some(m) = machine(state) else { return TOO_LARGE };
        note_machine(state, &step_stored_in(rule, script, inputs, history, m));
        0
    }

    fn stations(&self, states: &mut [u64], budget: u64, allowance: u64, mut stations: [Station<W>; STATIONS], numbers: &mut [u64]) -> u32 {
        answered(numbers, || {
            // what the states hold before is not read: any machines serve, and words that are not just four states are none
            let count = if states.len() == STATES_NUMBERS { STATIONS } else { 0 };
            let mut machines = vec![fresh(&[]); count];
            let taken = run_stations_in(&mut machines, budget, allowance, &mut stations)?;
            for (state, m) in states.chunks_exact_mut(STATE_NUMBERS).zip(&machines) {
                note_machine(state, m);
            }
            Ok([0, taken.turns, taken.left])
        })
    }

    fn move_rule(&self, rule: &[W], out: &mut [W::Other], numbers: &mut [u64]) -> u32 {
        written(numbers, || move_rule(rule, out))
    }

    fn move_script(&self, rule: &[W], script: &[W], out: &mut [W::Other], numbers: &mut [u64]) -> u32 {
        written(numbers, || move_script(rule, script, out))
    }
}

//! One step, and the run.
use crate::facts::{planted, Fault};
use crate::form::Word;
use crate::judge::check_numbers;
use crate::ready::{Bits, Readiness};
use crate::rule::Node;
use crate::script::{annotated_opcode, check_script_in, fields_allowed, Line};
use crate::{No, State, TOP};

#[derive(Clone, Debug, PartialEq, Eq)]
pub struct Machine {
    pub dials: State,
    pub kept: Bits,
    pub work: Bits,
    pub line: u64,
    pub presentations: u64,
    pub read: u64,
    pub readiness: Readiness,
}

#[derive(Clone, Copy, Debug, PartialEq, Eq)]
pub enum Stop {
    Halted,
    Spent,
    Dry,
    Full,
}

/// The nodes of a rule that need not have passed any question: no more than the form allows are looked at.
pub fn nodes_in<W: Word>(rule: &[W]) -> Vec<Node> {
    rule.iter().take(W::MOST_NODES).map(|&w| Node::decode_in(w)).collect()
}

pub fn nodes_within(rule: &[u32]) -> Vec<Node> {
    nodes_in(rule)
}

/// Line 0, all dials 0, every kept bit its prior (false for since, true for weak previous), every work bit 0.
pub fn fresh(nodes: &[Node]) -> Machine {
    let mut kept = [false; 64];
    for (i, n) in nodes.iter().enumerate() {
        kept[i] = n.kind == 5;
    }
    let readiness = Readiness::fresh(nodes);
    Machine { dials: [0; 16], kept, work: [false; 64], line: 0, presentations: 0, read: 0, readiness }
}

/// Would a run stop at this line, budget aside?
pub fn stuck(l: &Line, m: &Machine, inputs: &[u16], space: usize) -> Option<Stop> {
    // Free numbers: none, where the count of presentations is more than the history holds.
    let free = (space as u128).saturating_sub(16 * m.presentations as u128);
    match l.op {
        0 => Some(Stop::Halted),
        4 if m.read >= inputs.len() as u64 => Some(Stop::Dry),
        8 if free < 16 => Some(Stop::Full),
        _ => None,
    }
}

/// The dials after a register write (opcodes 1 to 4 and 14); `input` is the number an input would take. 3 and 14 stop at their ends.
pub fn write(l: &Line, dials: &State, input: u16) -> State {
    let mut d = *dials;
    let r = l.r as usize;
    d[r] = match l.op {
        1 => l.c,
        2 => dials[l.c as usize],
        3 if planted(Fault::RaisedRound) => (dials[r] as u32 + l.c as u32) as u16 & TOP,
        3 => dials[r].saturating_add(l.c).min(TOP),
        4 => input,
        14 if planted(Fault::LoweredRound) => dials[r].wrapping_sub(l.c) & TOP,
        14 => dials[r].saturating_sub(l.c),
        _ => unreachable!(),
    };
    d
}

/// Is the test of opcode 5, 6 or 13 true?
pub fn test(l: &Line, dials: &State) -> bool {
    let dial = dials[l.r as usize];
    match l.op {
        5 => dial == l.c,
        6 => dial < l.c,
        13 => dial == dials[l.c as usize],
        _ => unreachable!(),
    }
}

impl Machine {
    /// One step of line `l` takes the machine's state and hands back the next. The rule's nodes are there for the readiness alone.
    pub fn step(self, nodes: &[Node], l: &Line, inputs: &[u16], history: &mut [u16]) -> Machine {
        let stop = stuck(l, &self, inputs, history.len());
        let mut m = self;
        if stop.is_some() {
            if stop == Some(Stop::Full) && planted(Fault::PriorsMovedAtFull) {
                m.readiness = m.readiness.after(nodes, l, &m.dials);
            }
            return m;
        }
        let (next, target) = (m.line + 1, l.target as u64);
        let c = l.c as usize;
        m.line = next;
        match l.op {
            1..=3 | 14 => m.dials = write(l, &m.dials, 0),
            4 => {
                m.dials = write(l, &m.dials, inputs[m.read as usize]);
                m.read += 1;
            }
            5 | 6 | 13 => m.line = if test(l, &m.dials) { target } else { next },
            7 => m.line = target,
            8 => {
                let p = 16 * m.presentations as usize;
                history[p..p + 16].copy_from_slice(&m.dials);
                m.presentations += 1;
            }
            9 => m.work[c] = l.r == 1,
            10 => m.line = if m.kept[c] { target } else { next },
            11 => m.line = if m.work[c] { target } else { next },
            12 => m.kept[c] = m.work[c],
            _ => unreachable!(),
        }
        if planted(Fault::PriorsAreKept) {
            m.readiness.priors = m.kept;
        }
        m.readiness = m.readiness.after(nodes, l, &m.dials);
        m
    }
}

/// One step of a stored script that need not be accepted: a line that is not there, or that question 6 would turn away,
/// changes nothing (docs/DECISIONS.md, "A step that cannot be run changes nothing").
pub fn step_stored_in<W: Word>(rule: &[W], script: &[W], inputs: &[u16], history: &mut [u16], m: Machine) -> Machine {
    if m.line >= (script.len() / 8) as u64 {
        return m;
    }
    let l = Line::decode_annotated_in(&script[8 * m.line as usize..]);
    let nodes = nodes_in(rule);
    if !fields_allowed(&nodes, annotated_opcode, &l) {
        return m;
    }
    m.step(&nodes, &l, inputs, history)
}

pub fn step_stored(rule: &[u32], script: &[u32], inputs: &[u16], history: &mut [u16], m: Machine) -> Machine {
    step_stored_in(rule, script, inputs, history, m)
}

#[derive(Clone, Debug, PartialEq, Eq)]
pub struct Ran {
    pub stop: Stop,
    pub line: u64,
    pub dials: State,
    pub steps: u64,
    pub presentations: u64,
    pub read: u64,
}

/// Questions 1 to 11, and 15 of the inputs, then steps from a fresh start until something stops them.
pub fn run_in<W: Word>(rule: &[W], script: &[W], inputs: &[u16], budget: u64, history: &mut [u16]) -> Result<Ran, No> {
    let (rule, lines) = check_script_in(rule, script)?;
    check_numbers(inputs)?;
    let mut m = fresh(&rule.nodes);
    let mut steps = 0;
    let stop = loop {
        let l = &lines[m.line as usize];
        let s = stuck(l, &m, inputs, history.len());
        if s == Some(Stop::Halted) {
            break Stop::Halted;
        }
        if steps == budget {
            break Stop::Spent;
        }
        if let Some(s) = s {
            break s;
        }
        m = m.step(&rule.nodes, l, inputs, history);
        steps += 1;
    };
    Ok(Ran { stop, line: m.line, dials: m.dials, steps, presentations: m.presentations, read: m.read })
}

pub fn run(rule: &[u32], script: &[u32], inputs: &[u16], budget: u64, history: &mut [u16]) -> Result<Ran, No> {
    run_in(rule, script, inputs, budget, history)
}

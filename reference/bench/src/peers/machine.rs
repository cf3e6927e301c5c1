//! The run over decoded lines, and the single step over stored ones.
use super::form::Set;
use super::rule::{kind_of, BELOW, EQUAL, EQUAL_REGISTERS, IMPLIES, SINCE, WEAK_PREVIOUS};
use super::script::{check_script, is_allowed, ANNOTATED};
use super::{numbers_small, No};

#[derive(Clone, Copy, Default)]
#[repr(align(8))]
pub(super) struct Line {
    pub(super) op: u8,
    r: u8,
    c: u16,
    target: u16,
}

pub(super) fn decode(w: u32) -> Line {
    Line { op: (w >> 28) as u8, r: (w >> 24 & 15) as u8, c: (w >> 10 & 0x3fff) as u16, target: (w & 0x3ff) as u16 }
}

pub struct Ran {
    pub stop: u64,
    pub line: usize,
    pub steps: u64,
    pub presentations: usize,
    pub read: usize,
    pub registers: [u16; 16],
}

/// Questions 1 to 11, and 15 of the inputs, then the steps.
pub fn run<W: Set>(words: &[W], script: &[W], inputs: &[u16], budget: u64, history: &mut [u16]) -> Result<Ran, No> {
    let (rule, _) = check_script(words, script)?;
    numbers_small(inputs)?;
    let mut lines = [Line::default(); 1024];
    for (line, stored) in lines.iter_mut().zip(script.chunks_exact(8)) {
        *line = decode(stored[0].instruction());
    }
    let mut r = [0u16; 16];
    let (mut kept, mut work) = (rule.weak, W::default());
    let (mut line, mut read, mut presentations, mut steps) = (0, 0, 0, 0);
    let stop = loop {
        let l = lines[line & 1023];
        if l.op == 0 {
            break 1;
        }
        if steps == budget {
            break 2;
        }
        let k = l.r as usize & 15;
        let node = W::bit(l.c as usize);
        // a jump for each way, so that the next line is guessed and not waited for
        let goes = match l.op {
            1 => {
                r[k] = l.c;
                false
            }
            2 => {
                r[k] = r[l.c as usize & 15];
                false
            }
            3 => {
                r[k] = (r[k] + l.c).min(16_383);
                false
            }
            4 => {
                let Some(&x) = inputs.get(read) else { break 3 };
                r[k] = x;
                read += 1;
                false
            }
            5 => r[k] == l.c,
            6 => r[k] < l.c,
            7 => true,
            8 => {
                let Some(place) = history[16 * presentations..].first_chunk_mut() else { break 4 };
                *place = r;
                presentations += 1;
                false
            }
            9 => {
                work = if l.r == 1 { work | node } else { work & !node };
                false
            }
            10 => !(kept & node).is_empty(),
            11 => !(work & node).is_empty(),
            13 => r[k] == r[l.c as usize & 15],
            14 => {
                r[k] = r[k].saturating_sub(l.c);
                false
            }
            _ => {
                kept = kept & !node | work & node;
                false
            }
        };
        steps += 1;
        if goes {
            line = l.target as usize;
        } else {
            line += 1;
        }
    };
    Ok(Ran { stop, line, steps, presentations, read, registers: r })
}

/// Whether the nodes of a table that need not be a rule, as many as the form allows, have number c as an operand twice. The words are looked
/// at as they are stored, many at a time.
#[cold]
fn mentioned_twice<W: Set>(rule: &[W], c: u64) -> bool {
    let stored = |number: u64, operand: u32| W::of_top(number << (43 - operand * W::OPERAND));
    let is = |w: W, operand: u32| (w & stored(W::MOST_NODES as u64 - 1, operand) == stored(c, operand)) as u32;
    let of_kind = |w: W, kind: u8| w >> (W::BITS - 3) == W::from(kind);
    let mentions = |&w: &W| {
        let two = of_kind(w, IMPLIES) || of_kind(w, SINCE);
        (two || of_kind(w, WEAK_PREVIOUS)) as u32 * is(w, 1) + two as u32 * is(w, 2)
    };
    rule.iter().take(W::MOST_NODES).map(mentions).sum::<u32>() > 1
}

/// Whether a presentation would keep the rule, and the priors that it would leave, for a table that need not be a rule. A node that is not
/// worked out yet is 0. Values stand apart in memory, so that a node waits for its operands alone.
fn worked_out<W: Set>(rule: &[W], registers: &[u64; 16], priors: u64) -> (u64, u64) {
    let mut values = [0u8; 64];
    let (mut next, mut last) = (0u64, 0);
    for (k, &word) in rule.iter().take(W::MOST_NODES).enumerate() {
        let w = word.top();
        let test = || (registers[(w >> 57 & 15) as usize], w >> 43 & 0x3fff);
        let of = |operand: u32| values[W::place((w >> (43 - operand * W::OPERAND)) as usize)];
        let prior = (priors >> (63 - k)) as u8 & 1;
        let (value, left_behind) = match kind_of(word) {
            EQUAL => ((test().0 == test().1) as u8, 0),
            BELOW => ((test().0 < test().1) as u8, 0),
            EQUAL_REGISTERS => ((test().0 == registers.get(test().1 as usize).map_or(0, |&x| x)) as u8, 0),
            IMPLIES => (of(1) ^ 1 | of(2), 0),
            SINCE => {
                let now = of(2) | of(1) & prior;
                (now, now)
            }
            WEAK_PREVIOUS => (prior, of(1)),
            _ => (0, 0),
        };
        last = value;
        values[k & 63] = value;
        next |= (left_behind as u64) << (63 - k);
    }
    (last as u64, next)
}

/// The registers that the tests of a table read, register 0 the most significant bit, and the weak previouses among its nodes.
fn tested_and_weak<W: Set>(rule: &[W]) -> (u64, u64) {
    let register = |r: u64| if r < 16 { 1 << (63 - r) } else { 0 };
    let (mut tested, mut weak) = (0, 0);
    for (k, &word) in rule.iter().take(W::MOST_NODES).enumerate() {
        let w = word.top();
        match kind_of(word) {
            EQUAL | BELOW => tested |= register(w >> 57 & 15),
            EQUAL_REGISTERS => tested |= register(w >> 57 & 15) | register(w >> 43 & 0x3fff),
            WEAK_PREVIOUS => weak |= 1 << (63 - k),
            _ => {}
        }
    }
    (tested, weak)
}

/// The fresh start, as `guard_fresh` writes it: 0 or 99.
pub fn fresh<W: Set>(rule: &[W], state: &mut [u64]) -> u32 {
    let Some(state) = state.first_chunk_mut::<25>() else { return 99 };
    let (tested, weak) = tested_and_weak(rule);
    let (ready, next) = worked_out(rule, &[0; 16], weak);
    *state = [0; 25];
    state[3] = weak;
    [state[21], state[22], state[23], state[24]] = [ready, weak, next, tested];
    0
}

/// The numbers of a state.
pub(super) type State = [u64; 25];

/// What a line does to a state, if it is not stopped: false where it halts, finds no input or finds the history full.
#[inline(always)]
pub(super) fn advance<W: Set>(rule: &[W], l: Line, inputs: &[u16], history: &mut [u16], state: &mut State) -> bool {
    let [line, presentations, read, kept, work, registers @ .., ready, priors, next_priors, tested] = state;
    let r = l.r as usize & 15;
    let c = l.c as usize;
    let node = 1 << (63 - W::place(c));
    let target = l.target as u64;
    let next = *line + 1;
    // a presentation, or a write of a register that a test reads
    let anew = l.op == 8 || matches!(l.op, 1..=4 | 14) && *tested << r >> 63 == 1;
    *line = match l.op {
        0 => return false,
        1 => {
            registers[r] = l.c as u64;
            next
        }
        2 => {
            registers[r] = registers[c & 15];
            next
        }
        3 => {
            registers[r] = (registers[r] + l.c as u64).min(16_383);
            next
        }
        4 => {
            let Some(&x) = usize::try_from(*read).ok().and_then(|i| inputs.get(i)) else { return false };
            registers[r] = x as u64;
            *read += 1;
            next
        }
        5 if registers[r] == l.c as u64 => target,
        6 if registers[r] < l.c as u64 => target,
        7 => target,
        8 => {
            let from = presentations.checked_mul(16).and_then(|i| usize::try_from(i).ok());
            let Some(place) = from.and_then(|i| history.get_mut(i..)).and_then(|h| h.first_chunk_mut::<16>()) else { return false };
            *place = registers.map(|x| x as u16);
            *presentations += 1;
            *priors = *next_priors;
            next
        }
        9 => {
            *work = if r == 1 { *work | node } else { *work & !node };
            next
        }
        10 if *kept & node != 0 => target,
        11 if *work & node != 0 => target,
        13 if registers[r] == registers[c & 15] => target,
        14 => {
            registers[r] = registers[r].saturating_sub(l.c as u64);
            next
        }
        12 => {
            *kept = *kept & !node | *work & node;
            next
        }
        _ => next,
    };
    if anew {
        (*ready, *next_priors) = worked_out(rule, registers, *priors);
    }
    true
}

/// One step of the machine in `state`, as `guard_step` makes it: 0, 98 or 99.
pub fn step<W: Set>(rule: &[W], script: &[W], inputs: &[u16], history: &mut [u16], state: &mut [u64]) -> u32 {
    let Some(state) = state.first_chunk_mut::<25>() else { return 99 };
    let [line, _, _, _, _, registers @ .., ready, _, _, _] = state;
    if registers.iter().fold(0, |a, &b| a | b) > 65_535 || *ready > 1 {
        return 98;
    }
    let Some(stored) = usize::try_from(*line).ok().and_then(|i| script.chunks_exact(8).nth(i)) else { return 0 };
    let word = stored[0].instruction();
    let l = decode(word);
    // question 6 looks at one node, and at the others only where it is no past node
    let is_number = (l.c as usize) < W::MOST_NODES;
    let named = rule.get(l.c as usize).filter(|_| is_number).map_or(0, |&w| kind_of(w));
    let past = W::bit(l.c as usize).only_if(matches!(named, SINCE | WEAK_PREVIOUS));
    let is_shared = past.is_empty() && matches!(l.op, 9 | 11) && is_number && mentioned_twice(rule, l.c as u64);
    let shared = W::bit(l.c as usize).only_if(is_shared);
    if is_allowed(past, shared, ANNOTATED, word) && stored[0].below() == 0 {
        advance(rule, l, inputs, history, state);
    }
    0
}

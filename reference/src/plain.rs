//! The plain machine.
use crate::machine::{test, write};
use crate::rule::Rule;
use crate::script::Line;
use crate::State;

#[derive(Clone, Debug, PartialEq, Eq)]
pub struct Plain {
    pub line: usize,
    pub dials: State,
    pub read: usize,
    pub history: Vec<State>,
}

pub fn start() -> Plain {
    Plain { line: 0, dials: [0; 16], read: 0, history: vec![] }
}

impl Plain {
    /// One step; the second answer is true exactly if it stayed because the history has no space.
    pub fn step(&self, rule: &Rule, bare: &[Line], inputs: &[u16], space: usize) -> (Plain, bool) {
        let l = &bare[self.line];
        let mut p = self.clone();
        match l.op {
            0 => return (p, false),
            1..=3 | 14 => {
                p.dials = write(l, &self.dials, 0);
                p.line += 1;
            }
            4 => {
                if self.read >= inputs.len() {
                    return (p, false);
                }
                p.dials = write(l, &self.dials, inputs[self.read]);
                p.read += 1;
                p.line += 1;
            }
            5 | 6 | 13 => p.line = if test(l, &self.dials) { l.target as usize } else { self.line + 1 },
            7 => p.line = l.target as usize,
            8 => {
                if rule.holds_now(&self.history, &self.dials) {
                    if space - 16 * self.history.len() < 16 {
                        return (p, true);
                    }
                    p.history.push(self.dials);
                }
                p.line += 1;
            }
            _ => unreachable!(),
        }
        (p, false)
    }
}

//! 2026-08, the ready lamp: a machine's state holds whether a presentation made now would keep the rule. Here it is twice. By the
//! definition, which looks back over the whole history: that is what runs from a fresh start are held to. And as a state goes from step to
//! step: that has an answer for every table and every state, those that no run reaches among them.
use crate::facts::{planted, Fault};
use crate::judge::states;
use crate::machine::Machine;
use crate::rule::{Node, Rule};
use crate::script::Line;
use crate::State;

/// The last node at the last index of the history with the present dials added, whether there is space for them or not. For a rule that
/// has passed questions 1 to 4 and a machine that steps have brought here from a fresh start, whatever the script.
pub fn by_definition(rule: &Rule, m: &Machine, history: &[u16]) -> bool {
    rule.holds_now(&states(&history[..16 * m.presentations as usize]), &m.dials)
}

/// A bit for each node, or for each register.
pub type Bits = [bool; 64];

/// What a state holds for it.
#[derive(Clone, Debug, PartialEq, Eq)]
pub struct Readiness {
    /// Would a presentation made now keep the rule?
    pub ready: bool,
    /// The prior of each past node, after the presentations made. Kept bits do not serve: they are old between a present and its 12s, and
    /// a script may set them as it likes.
    pub priors: Bits,
    /// The priors that a presentation made now would leave.
    pub next: Bits,
    /// The registers that a test of the rule reads. What is written to another changes nothing.
    pub tested: Bits,
}

/// The registers that a node's test reads; a number above 15 is no register's.
pub(crate) fn reads(d: &Node) -> Vec<usize> {
    let registers = match d.kind {
        1 | 2 => vec![d.register as usize],
        6 => vec![d.register as usize, d.constant as usize],
        _ => vec![],
    };
    registers.into_iter().filter(|&r| r < 16).collect()
}

/// Whether the last node is true, and the priors that a presentation would leave, for nodes that need not have passed any question. A
/// node that is not worked out yet counts as false, and a register that is not there as 0.
fn worked_out(nodes: &[Node], dials: &State, priors: &Bits) -> (bool, Bits) {
    let mut values: Vec<bool> = vec![];
    let mut next = [false; 64];
    for (k, d) in nodes.iter().enumerate() {
        let value = |operand: u8| values.get(operand as usize) == Some(&true);
        let dial = |register: u16| dials.get(register as usize).map_or(0, |&x| x);
        let own = dial(d.register.into());
        let now = match d.kind {
            1 => own == d.constant,
            2 => own < d.constant,
            6 => own == dial(d.constant),
            3 => !value(d.left) || value(d.right),
            4 => value(d.right) || value(d.left) && priors[k],
            5 => priors[k],
            _ => false,
        };
        next[k] = match d.kind {
            4 => now,
            5 => value(d.left),
            _ => false,
        };
        values.push(now);
    }
    (values.last() == Some(&true), next)
}

impl Readiness {
    /// The prior of a weak previous is true at first, that of a since false; all dials are 0.
    pub fn fresh(nodes: &[Node]) -> Readiness {
        let (mut priors, mut tested) = ([false; 64], [false; 64]);
        for (k, d) in nodes.iter().enumerate() {
            priors[k] = d.kind == 5;
            reads(d).into_iter().for_each(|r| tested[r] = true);
        }
        let (ready, next) = worked_out(nodes, &[0; 16], &priors);
        Readiness { ready, priors, next, tested }
    }

    fn worked_out_anew(mut self, nodes: &[Node], dials: &State) -> Readiness {
        (self.ready, self.next) = worked_out(nodes, dials, &self.priors);
        self
    }

    /// After a step of line `l` that nothing stopped; these are the dials since. A line that neither writes a register nor presents leaves
    /// it as it is.
    pub fn after(mut self, nodes: &[Node], l: &Line, dials: &State) -> Readiness {
        match l.op {
            4 if planted(Fault::ReadyBeforeInput) => self,
            1..=4 | 14 if self.tested[l.r as usize] => self.worked_out_anew(nodes, dials),
            8 => {
                self.priors = self.next;
                self.worked_out_anew(nodes, dials)
            }
            _ => self,
        }
    }
}

//! A call of one function, with all that is lent to it.
use crate::face::Face;
use crate::lent::Lent;
use crate::proved::Form;
use reference::form::Word;
use reference::rule::Node;
use reference::stations::{Station, STATIONS};
use Request::*;

/// What is lent for one of four stations, besides its state.
#[derive(Clone, Debug, PartialEq)]
pub struct Stationed<W: Form> {
    pub rule: Vec<W>,
    pub script: Vec<W>,
    pub inputs: Vec<u16>,
    pub history: Lent<u16>,
}

/// A call of a function for one of the stored forms; of steps so many calls, one after the other. What is lent to be written holds these
/// numbers before the call.
#[derive(Clone, Debug, PartialEq)]
pub enum Request<W: Form> {
    Text { text: Vec<u8>, out: Lent<W>, numbers: Lent<u64> },
    Rule { rule: Vec<W>, numbers: Lent<u64> },
    Bare { rule: Vec<W>, script: Vec<u32>, numbers: Lent<u64> },
    Script { rule: Vec<W>, script: Vec<W>, numbers: Lent<u64> },
    Weave { rule: Vec<W>, bare: Vec<u32>, out: Lent<W>, numbers: Lent<u64> },
    Facts { rule: Vec<W>, instructions: Vec<u32>, out: Lent<W>, numbers: Lent<u64> },
    Judge { rule: Vec<W>, history: Vec<u16>, numbers: Lent<u64> },
    Limits { rule: Vec<W>, lows: Vec<u16>, highs: Vec<u16>, out: Lent<u8>, numbers: Lent<u64> },
    Run { rule: Vec<W>, script: Vec<W>, inputs: Vec<u16>, budget: u64, history: Lent<u16>, numbers: Lent<u64> },
    Fresh { rule: Vec<W>, state: Lent<u64> },
    Steps { rule: Vec<W>, script: Vec<W>, inputs: Vec<u16>, history: Lent<u16>, state: Lent<u64>, count: usize },
    Stations { states: Lent<u64>, budget: u64, allowance: u64, stations: [Stationed<W>; STATIONS], numbers: Lent<u64> },
    MoveRule { rule: Vec<W>, out: Lent<W::Other>, numbers: Lent<u64> },
    MoveScript { rule: Vec<W>, script: Vec<W>, out: Lent<W::Other>, numbers: Lent<u64> },
}

impl<W: Form> Request<W> {
    /// The function's name in the header.
    pub fn function(&self) -> &'static str {
        let library = W::LIBRARY;
        match self {
            Text { .. } => library.text.name,
            Rule { .. } => library.rule.name,
            Bare { .. } => library.bare.name,
            Script { .. } => library.script.name,
            Weave { .. } => library.weave.name,
            Facts { .. } => library.facts.name,
            Judge { .. } => library.judge.name,
            Limits { .. } => library.limits.name,
            Run { .. } => library.run.name,
            Fresh { .. } => library.fresh.name,
            Steps { .. } => library.step.name,
            Stations { .. } => library.stations.name,
            MoveRule { .. } => library.move_rule.name,
            MoveScript { .. } => library.move_script.name,
        }
    }

    /// How many calls it makes.
    pub fn calls(&self) -> usize {
        if let Steps { count, .. } = self {
            *count
        } else {
            1
        }
    }

    /// Makes one call: the number handed back. What was lent to be written has what was written. It is part of its caller, so that the
    /// caller's place on the stack is where the call is made: tests/stack.rs counts from there.
    #[inline(always)]
    pub fn put(&mut self, face: &impl Face<W>) -> u32 {
        match self {
            Text { text, out, numbers } => face.text(text, out, numbers),
            Rule { rule, numbers } => face.rule(rule, numbers),
            Bare { rule, script, numbers } => face.bare(rule, script, numbers),
            Script { rule, script, numbers } => face.script(rule, script, numbers),
            Weave { rule, bare, out, numbers } => face.weave(rule, bare, out, numbers),
            Facts { rule, instructions, out, numbers } => face.facts(rule, instructions, out, numbers),
            Judge { rule, history, numbers } => face.judge(rule, history, numbers),
            Limits { rule, lows, highs, out, numbers } => face.limits(rule, lows, highs, out, numbers),
            Run { rule, script, inputs, budget, history, numbers } => face.run(rule, script, inputs, *budget, history, numbers),
            Fresh { rule, state } => face.fresh(rule, state),
            Steps { rule, script, inputs, history, state, .. } => face.step(rule, script, inputs, history, state),
            Stations { states, budget, allowance, stations, numbers } => {
                let lent = stations.each_mut().map(|Stationed { rule, script, inputs, history }| Station { rule, script, inputs, history });
                face.stations(states, *budget, *allowance, lent, numbers)
            }
            MoveRule { rule, out, numbers } => face.move_rule(rule, out, numbers),
            MoveScript { rule, script, out, numbers } => face.move_script(rule, script, out, numbers),
        }
    }

    /// What is lent to be written, by name.
    fn lent(&self) -> Vec<(&'static str, Lent<u64>)> {
        fn of<X: Copy + Into<u64>>(name: &'static str, words: &Lent<X>) -> (&'static str, Lent<u64>) {
            (name, words.map(X::into))
        }
        match self {
            Rule { numbers, .. } | Bare { numbers, .. } | Script { numbers, .. } | Judge { numbers, .. } => vec![of("numbers", numbers)],
            Text { out, numbers, .. } | Weave { out, numbers, .. } | Facts { out, numbers, .. } => {
                vec![of("numbers", numbers), of("out", out)]
            }
            MoveRule { out, numbers, .. } | MoveScript { out, numbers, .. } => vec![of("numbers", numbers), of("out", out)],
            Limits { out, numbers, .. } => vec![of("numbers", numbers), of("out", out)],
            Run { history, numbers, .. } => vec![of("numbers", numbers), of("history", history)],
            Fresh { state, .. } => vec![of("state", state)],
            Steps { history, state, .. } => vec![of("state", state), of("history", history)],
            Stations { states, stations: [a, b, c, d], numbers, .. } => vec![
                of("numbers", numbers),
                of("states", states),
                of("history of station 0", &a.history),
                of("history of station 1", &b.history),
                of("history of station 2", &c.history),
                of("history of station 3", &d.history),
            ],
        }
    }

    /// Where another one that was the same before differs after its call.
    pub fn difference(&self, other: &Request<W>) -> Option<String> {
        if self == other {
            return None;
        }
        let lent = self.lent().into_iter().zip(other.lent());
        let written =
            lent.filter_map(|((what, one), (_, other))| one.difference(&other).map(|(at, a, b)| format!("{what}[{at}]: {a:#x}, {b:#x}")));
        Some(written.chain(["what was lent to be read has changed".into()]).next().unwrap())
    }
}

/// The same node in the second form, right or wrong.
fn same_node(word: u32) -> u64 {
    Node::decode_in(word).encode_in()
}

impl Request<u32> {
    /// The same in the second form, right or wrong. None for what is not the same there: rules of 33 to 64 nodes, which question 1
    /// of that form lets pass; fresh starts and steps for longer tables than 32 nodes, of which more are looked at; the moves.
    pub fn in_second_form(&self) -> Option<Request<u64>> {
        let of_rule = |rule: &[u32]| rule.iter().map(|&word| same_node(word)).collect();
        // an instruction and each word of facts
        let of_lines = |script: &[u32]| script.iter().map(|word| word.at_top()).collect();
        let same = match self.clone() {
            Text { text, out, numbers } => Text { text, out: out.map(same_node), numbers },
            Rule { rule, .. }
            | Bare { rule, .. }
            | Script { rule, .. }
            | Weave { rule, .. }
            | Facts { rule, .. }
            | Judge { rule, .. }
            | Limits { rule, .. }
            | Run { rule, .. }
                if (33..=64).contains(&rule.len()) =>
            {
                return None
            }
            Stations { stations, .. } if stations.iter().any(|station| (33..=64).contains(&station.rule.len())) => return None,
            Fresh { rule, .. } | Steps { rule, .. } if rule.len() > 32 => return None,
            Rule { rule, numbers } => Rule { rule: of_rule(&rule), numbers },
            Bare { rule, script, numbers } => Bare { rule: of_rule(&rule), script, numbers },
            Script { rule, script, numbers } => Script { rule: of_rule(&rule), script: of_lines(&script), numbers },
            Weave { rule, bare, out, numbers } => Weave { rule: of_rule(&rule), bare, out: out.map(Word::at_top), numbers },
            Facts { rule, instructions, out, numbers } => Facts { rule: of_rule(&rule), instructions, out: out.map(Word::at_top), numbers },
            Judge { rule, history, numbers } => Judge { rule: of_rule(&rule), history, numbers },
            Limits { rule, lows, highs, out, numbers } => Limits { rule: of_rule(&rule), lows, highs, out, numbers },
            Run { rule, script, inputs, budget, history, numbers } => {
                Run { rule: of_rule(&rule), script: of_lines(&script), inputs, budget, history, numbers }
            }
            Fresh { rule, state } => Fresh { rule: of_rule(&rule), state },
            Steps { rule, script, inputs, history, state, count } => {
                Steps { rule: of_rule(&rule), script: of_lines(&script), inputs, history, state, count }
            }
            Stations { states, budget, allowance, stations, numbers } => {
                let same = |Stationed { rule, script, inputs, history }: Stationed<u32>| Stationed {
                    rule: of_rule(&rule),
                    script: of_lines(&script),
                    inputs,
                    history,
                };
                Stations { states, budget, allowance, stations: stations.map(same), numbers }
            }
            MoveRule { .. } | MoveScript { .. } => return None,
        };
        Some(same)
    }
}

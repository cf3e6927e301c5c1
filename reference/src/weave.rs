//! The weaver, with labels: the line count is found by writing, not by the formula.
use crate::facts::{planted, Facts, Fault, A, B, C, F, M, T, W};
use crate::form::{hand_over, Word};
use crate::rule::Rule;
use crate::script::{check_bare_in, encode_lines_in, Line, MOST_LINES};
use crate::{no, No};

type Label = usize;

struct Writer<'a> {
    rule: &'a Rule,
    lines: Vec<(Line, Option<Label>)>,
    labels: Vec<Option<usize>>,
}

impl Writer<'_> {
    fn label(&mut self) -> Label {
        self.labels.push(None);
        self.labels.len() - 1
    }

    /// The label stands for the next line written.
    fn here(&mut self, l: Label) {
        assert!(self.labels[l].is_none());
        self.labels[l] = Some(self.lines.len());
    }

    fn put(&mut self, facts: Facts, op: u8, r: u8, c: u16, to: Option<Label>) {
        self.lines.push((Line { facts, ..Line::new(op, r, c, 0) }, to));
    }

    fn go(&mut self, facts: Facts, to: Label) {
        self.put(facts, 7, 0, 0, Some(to));
    }

    /// Node i by one branch: to the true place, then a go to the false place with F of the node.
    fn leaf(&mut self, i: usize, g: Facts, (op, r, c): (u8, u8, u16), yes: Label, not: Label) {
        self.put(g, op, r, c, Some(yes));
        self.go(g.with(F, i), not);
    }

    /// Deciding node i by what it is towards two places, from the facts `g`.
    fn decide(&mut self, i: usize, g: Facts, yes: Label, not: Label) {
        let d = self.rule.nodes[i];
        if let Some(op) = d.branch() {
            return self.leaf(i, g, (op, d.register, d.constant), yes, not);
        }
        match d.kind {
            0 => self.go(g, not),
            3 => {
                let code_for_right = self.label();
                self.mention(d.left as usize, g, code_for_right, yes);
                self.here(code_for_right);
                self.mention(d.right as usize, g.with(T, d.left as usize), yes, not);
            }
            4 => self.leaf(i, g, (11, 0, i as u16), yes, not),
            5 => self.leaf(i, g, (10, 0, i as u16), yes, not),
            _ => unreachable!(),
        }
    }

    /// Node i where it is an operand: a shared node has been worked out and is decided by its work bit.
    fn mention(&mut self, i: usize, g: Facts, yes: Label, not: Label) {
        if self.rule.is_shared(i) && !planted(Fault::DecidedAnew) {
            self.leaf(i, g, (11, 0, i as u16), yes, not);
        } else {
            self.decide(i, g, yes, not);
        }
    }

    /// Set 1, go past, set 0: the work bit of node i becomes the value of `value_node`.
    fn set_lines(&mut self, i: usize, g: Facts, value_node: usize, set: Label, clear: Label) {
        let past = self.label();
        self.here(set);
        self.put(g.with(T, value_node), 9, 1, i as u16, None);
        self.go(g.with(W, i), past);
        self.here(clear);
        self.put(g.with(F, value_node), 9, 0, i as u16, None);
        self.here(past);
    }

    /// The code of a past or shared node, from the facts `g`: after it, its work bit is as W says.
    fn work(&mut self, i: usize, g: Facts) {
        let d = self.rule.nodes[i];
        let (l, r) = (d.left as usize, d.right as usize);
        let (set, clear) = (self.label(), self.label());
        match d.kind {
            4 => {
                let right_false = self.label();
                self.mention(r, g, set, right_false);
                self.here(right_false);
                let gf = g.with(F, r);
                let code_for_left = self.label();
                self.put(gf, 10, 0, i as u16, Some(code_for_left));
                self.go(gf.with(B, i), clear);
                self.here(code_for_left);
                self.mention(l, gf.with(A, i), set, clear);
                self.set_lines(i, g, i, set, clear);
            }
            5 => {
                self.mention(l, g, set, clear);
                self.set_lines(i, g, l, set, clear);
            }
            _ => {
                self.decide(i, g, set, clear);
                self.set_lines(i, g, i, set, clear);
            }
        }
    }

    fn block(&mut self) {
        let rule = self.rule;
        // M of all past nodes, W of the nodes done
        let mut g = Facts::none();
        for i in rule.past_nodes() {
            g.add(M, i);
        }
        let mut order = rule.work_nodes();
        if planted(Fault::PastFirst) {
            order.sort_by_key(|&i| rule.is_shared(i));
        }
        for i in order {
            self.work(i, g);
            g.add(W, i);
        }
        let (present, past) = (self.label(), self.label());
        self.decide(rule.last(), g, present, past);
        self.here(present);
        self.put(g.with(T, rule.last()), 8, 0, 0, None);
        // C of all, M of those done
        let mut k = Facts::none();
        for i in rule.past_nodes() {
            k.add(C, i);
        }
        for i in rule.past_nodes() {
            self.put(k, 12, 0, i as u16, None);
            k.add(M, i);
        }
        self.here(past);
    }
}

/// The woven lines, and where each bare line now starts.
pub fn weave_lines(rule: &Rule, bare: &[Line]) -> (Vec<Line>, Vec<usize>) {
    let mut w = Writer { rule, lines: vec![], labels: vec![] };
    let starts: Vec<Label> = bare.iter().map(|_| w.label()).collect();
    let mut kept = Facts::none();
    for i in rule.past_nodes() {
        kept.add(M, i);
    }
    for (i, l) in bare.iter().enumerate() {
        w.here(starts[i]);
        if l.op == 8 {
            w.block();
        } else {
            let to = if l.uses_target() { Some(starts[l.target as usize]) } else { None };
            w.put(kept, l.op, l.r, l.c, to);
        }
    }
    let place = |l: Label| w.labels[l].unwrap();
    // A target past 1,023 stands only in a script of more than 1,024 lines, which question 12 turns away.
    let lines = w.lines.iter().map(|&(l, to)| Line { target: to.map_or(0, |to| place(to).min(0x3ff) as u16), ..l }).collect();
    (lines, starts.iter().map(|&l| place(l)).collect())
}

/// Questions 1 to 7, 12 and 13; writes eight words a line; answers the line count.
pub fn weave_in<X: Word>(rule: &[X], bare: &[u32], output: &mut [X]) -> Result<usize, No> {
    let (rule, bare) = check_bare_in(rule, bare)?;
    let (mut lines, _) = weave_lines(&rule, &bare);
    if planted(Fault::LaterMentionsFree) {
        lines.truncate(bare.iter().map(|l| if l.op == 8 { rule.block_lines() } else { 1 }).sum());
    }
    // 12. At most 1,024 lines?
    if lines.len() > MOST_LINES {
        return no(12, 0);
    }
    hand_over(&encode_lines_in(&lines), output)?;
    Ok(lines.len())
}

pub fn weave(rule: &[u32], bare: &[u32], output: &mut [u32]) -> Result<usize, No> {
    weave_in(rule, bare, output)
}

//! The weaver: the first block is written in place, later ones are copied from it with their targets moved.
use super::form::{nodes_of, Set};
use super::rule::{Rule, BELOW, EQUAL, EQUAL_REGISTERS, FALSE, IMPLIES, SINCE, WEAK_PREVIOUS};
use super::script::{check_code, goes_to_target, Line, A, B, BARE, C, F, M, T, W};
use super::{no, No};

/// How many lines deciding each node takes where it is an operand.
type Sizes<X> = <X as Set>::Table<u32>;

struct Writer<'a, X: Set> {
    rule: &'a Rule<'a, X>,
    sizes: Sizes<X>,
    shared: X,
    out: &'a mut [X],
    /// The next line's number.
    at: u32,
}

fn with<X: Set>(facts: &Line<X>, fact: usize, node: usize) -> Line<X> {
    let mut more = *facts;
    more[fact] |= X::bit(node);
    more
}

impl<X: Set> Writer<'_, X> {
    /// A line with these facts and one more of a node.
    fn put(&mut self, (op, r, c): (u32, u32, usize), target: u32, facts: &Line<X>, fact: usize, of: X) {
        let from = 8 * self.at as usize;
        let line = &mut self.out[from..from + 8];
        line.copy_from_slice(facts);
        line[fact] |= of;
        line[0] = X::of_instruction(op << 28 | r << 24 | (c as u32) << 10 | target);
        self.at += 1;
    }

    fn put_plain(&mut self, line: (u32, u32, usize), target: u32, facts: &Line<X>) {
        self.put(line, target, facts, T, X::default());
    }

    fn size(&self, node: usize) -> u32 {
        self.sizes.as_ref()[X::place(node)]
    }

    /// A node where it is an operand: a shared one by its work bit.
    fn mention(&mut self, node: usize, facts: &Line<X>, yes: u32, not: u32) {
        if (self.shared & X::bit(node)).is_empty() {
            return self.decide(node, facts, yes, not);
        }
        self.put_plain((11, 0, node), yes, facts);
        self.put((7, 0, 0), not, facts, F, X::bit(node));
    }

    /// A node by what it is.
    fn decide(&mut self, node: usize, facts: &Line<X>, yes: u32, not: u32) {
        let d = self.rule.node(node);
        let test = match d.kind {
            FALSE => return self.put_plain((7, 0, 0), not, facts),
            EQUAL | BELOW => (d.kind as u32 + 4, d.register as u32, d.constant as usize),
            EQUAL_REGISTERS => (13, d.register as u32, d.constant as usize),
            IMPLIES => {
                let left = d.left as usize;
                self.mention(left, facts, self.at + self.size(left), yes);
                return self.mention(d.right as usize, &with(facts, T, left), yes, not);
            }
            SINCE => (11, 0, node),
            _ => (10, 0, node),
        };
        self.put_plain(test, yes, facts);
        self.put((7, 0, 0), not, facts, F, X::bit(node));
    }

    /// The code of a past or shared node, from the facts at its start.
    fn update(&mut self, node: usize, facts: &Line<X>) {
        let d = self.rule.node(node);
        let (left, right) = (d.left as usize, d.right as usize);
        let value = X::bit(self.rule.worked_out(node));
        let set = self.at + code_size(self.rule, &self.sizes, node) - 3;
        match d.kind {
            SINCE => {
                let not_right = self.at + self.size(right);
                self.mention(right, facts, set, not_right);
                let f = with(facts, F, right);
                self.put_plain((10, 0, node), not_right + 2, &f);
                self.put((7, 0, 0), set + 2, &f, B, X::bit(node));
                self.mention(left, &with(&f, A, node), set, set + 2);
            }
            WEAK_PREVIOUS => self.mention(left, facts, set, set + 2),
            _ => self.decide(node, facts, set, set + 2),
        }
        self.put((9, 1, node), 0, facts, T, value);
        self.put((7, 0, 0), set + 3, facts, W, X::bit(node));
        self.put((9, 0, node), 0, facts, F, value);
    }

    fn block(&mut self) {
        let past = self.rule.past();
        let last = self.rule.count() - 1;
        let mut facts = [X::default(); 8];
        facts[M] = past;
        for node in nodes_of(self.rule.work()) {
            self.update(node, &facts);
            facts[W] |= X::bit(node);
        }
        let present = self.at + self.size(last);
        self.decide(last, &facts, present, present + 1 + past.ones());
        self.put((8, 0, 0), 0, &facts, T, X::bit(last));
        let mut kept = [X::default(); 8];
        kept[C] = past;
        for node in nodes_of(past) {
            self.put_plain((12, 0, node), 0, &kept);
            kept[M] |= X::bit(node);
        }
    }
}

/// How many lines deciding a node by what it is takes.
fn own_size<X: Set>(rule: &Rule<X>, sizes: &Sizes<X>, node: usize) -> u32 {
    let d = rule.node(node);
    match d.kind {
        FALSE => 1,
        IMPLIES => sizes.as_ref()[X::place(d.left as usize)] + sizes.as_ref()[X::place(d.right as usize)],
        _ => 2,
    }
}

/// How many lines the code of a past or shared node takes.
fn code_size<X: Set>(rule: &Rule<X>, sizes: &Sizes<X>, node: usize) -> u32 {
    let d = rule.node(node);
    let size = |operand: u8| sizes.as_ref()[X::place(operand as usize)];
    3 + match d.kind {
        SINCE => size(d.right) + 2 + size(d.left),
        WEAK_PREVIOUS => size(d.left),
        _ => own_size(rule, sizes, node),
    }
}

/// Questions 1 to 7, 12 and 13, then the lines.
pub fn weave<X: Set>(words: &[X], bare: &[u32], out: &mut [X]) -> Result<usize, No> {
    let rule = Rule::read(words)?;
    let n = check_code(&rule, bare, 1, BARE)?;
    let (shared, past) = (rule.shared(), rule.past());
    let mut sizes = X::table(0);
    for i in 0..rule.count() {
        sizes.as_mut()[i] = if (shared & X::bit(i)).is_empty() { own_size(&rule, &sizes, i) } else { 2 };
    }
    let codes: u32 = nodes_of(rule.work()).map(|node| code_size(&rule, &sizes, node)).sum();
    let block = codes + sizes.as_ref()[rule.count() - 1] + 1 + past.ones();
    // where each line starts; a short script clears little memory for it
    let (mut few, mut many);
    let starts: &mut [u32] = if n <= 64 {
        few = [0; 64];
        &mut few
    } else {
        many = [0; 1024];
        &mut many
    };
    let mut lines = 0;
    for (start, &w) in starts.iter_mut().zip(bare) {
        *start = lines;
        lines += if w >> 28 == 8 { block } else { 1 };
    }
    if lines > 1024 {
        return no(12, 0);
    }
    if out.len() < 8 * lines as usize {
        return no(13, 0);
    }
    let none = X::default();
    let mut first = None;
    for (&w, &start) in bare.iter().zip(starts.iter()) {
        let at = 8 * start as usize;
        if w >> 28 != 8 {
            let word = if goes_to_target(w) { w & !0x3ff | starts[(w & 0x3ff) as usize] } else { w };
            out[at..at + 8].copy_from_slice(&[X::of_instruction(word), none, none, none, none, past, none, none]);
        } else if let Some(from) = first {
            let (before, rest) = out.split_at_mut(at);
            let copy = &mut rest[..8 * block as usize];
            copy.copy_from_slice(&before[8 * from as usize..8 * (from + block) as usize]);
            for first in copy.iter_mut().step_by(8) {
                let word = first.instruction();
                *first = X::of_instruction(word + if goes_to_target(word) { start - from } else { 0 });
            }
        } else {
            first = Some(start);
            Writer { rule: &rule, sizes, shared, out: &mut *out, at: start }.block();
        }
    }
    Ok(lines as usize)
}

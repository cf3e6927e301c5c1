//! The largest facts. The lines stand as they will be written and lose facts in place; those that have lost some are looked at again,
//! rising, round and round. What stands at a line is closed at any time, as what two closed sets share is closed: so only what an
//! instruction adds has to be closed, and only if the line that follows has facts that are not there without it.
use super::form::{nodes_of, Set};
use super::rule::{Rule, IMPLIES, SINCE};
use super::script::{among, check_code, Closing, Line, A, ANNOTATED, B, C, F, M, T, W};
use super::{no, No};

struct Search<'a, X: Set> {
    closing: Closing<'a, X>,
    /// The nodes that each node is an operand of.
    above: X::Table<X>,
    /// The nodes whose values may follow from their operands' values.
    joins: X,
    /// The lines to look at again: line i is bit i % 64 of word i / 64.
    again: [u64; 16],
}

impl<'a, X: Set> Search<'a, X> {
    fn new(rule: &'a Rule<X>) -> Search<'a, X> {
        let mut above = X::table(X::default());
        let mut joins = X::default();
        for (i, d) in rule.nodes.as_ref()[..rule.count()].iter().enumerate() {
            if matches!(d.kind, IMPLIES | SINCE) {
                above.as_mut()[X::place(d.left as usize)] |= X::bit(i);
                above.as_mut()[X::place(d.right as usize)] |= X::bit(i);
                joins |= X::bit(i);
            }
        }
        Search { closing: Closing::new(rule), above, joins, again: [0; 16] }
    }

    fn above(&self, node: usize) -> X {
        self.above.as_ref()[X::place(node)]
    }

    /// Closes again from some nodes upwards, rising: what follows from a node follows at those above it in turn, and no further than where
    /// nothing new does.
    fn raise(&self, facts: &mut Line<X>, from: X) {
        let mut open = from;
        while !open.is_empty() {
            let node = open.zeros() as usize;
            let d = self.closing.rule.node(node);
            let (left, right, at) = (X::bit(d.left as usize), X::bit(d.right as usize), X::bit(node));
            open &= !at;
            let has = |fact: usize, of: X| !(facts[fact] & of).is_empty();
            let (is_true, is_false) = match d.kind {
                IMPLIES => (has(F, left) || has(T, right), has(T, left) && has(F, right)),
                SINCE => (has(T, right) || has(T, left) && has(A, at), has(F, right) && (has(F, left) || has(B, at))),
                _ => (has(A, at), has(B, at)),
            };
            let (t, f) = (at.only_if(is_true), at.only_if(is_false));
            if !(t & !facts[T] | f & !facts[F]).is_empty() {
                facts[T] |= t;
                facts[F] |= f;
                open |= self.above(node);
            }
        }
    }

    /// Adds T or F of some nodes.
    fn add(&self, facts: &mut Line<X>, fact: usize, nodes: X) {
        let new = nodes & !facts[fact];
        facts[fact] |= new;
        self.raise(facts, nodes_of(new).fold(X::default(), |above, node| above | self.above(node)));
    }

    /// A line keeps what is passed on to it.
    #[inline(always)]
    fn keep(&mut self, lines: &mut [Line<X>], to: usize, passed: &Line<X>) {
        let old = lines[to];
        // facts are met eight words at a time; the instruction stays
        let mut kept: Line<X> = std::array::from_fn(|k| old[k] & passed[k]);
        kept[0] = old[0];
        if !(0..8).fold(X::default(), |lost, k| lost | old[k] ^ kept[k]).is_empty() {
            lines[to] = kept;
            self.again[to / 64] |= 1 << (to % 64);
        }
    }

    /// Passes on priors and bits, and what follows from these.
    #[inline(always)]
    fn keep_priors(&mut self, lines: &mut [Line<X>], to: usize, a: X, b: X, m: X, c: X) {
        let rule = self.closing.rule;
        let (t, f) = (a & rule.weak, b & rule.weak | rule.falses);
        let passed = [X::default(), t, f, a, b, m, X::default(), c];
        if ((lines[to][T] & !t | lines[to][F] & !f) & self.joins).is_empty() {
            self.keep(lines, to, &passed);
        } else {
            self.keep(lines, to, &self.closing.close(&passed));
        }
    }

    /// Passes on facts, and more that are added only if the line that follows has some that are not among them.
    #[inline(always)]
    fn keep_more(&mut self, lines: &mut [Line<X>], to: usize, facts: &Line<X>, more: impl FnOnce(&Self, &mut Line<X>)) {
        if !among(&lines[to], facts) {
            let mut passed = *facts;
            more(self, &mut passed);
            self.keep(lines, to, &passed);
        }
    }

    /// What line i passes on; `about` is its test's nodes, or its node.
    fn push(&mut self, lines: &mut [Line<X>], i: usize, about: X) {
        let s = lines[i];
        let word = s[0].instruction();
        let rule = self.closing.rule;
        let (target, next) = ((word & 0x3ff) as usize, i + 1);
        let node = X::place((word >> 10) as usize);
        match word >> 28 {
            0 => {}
            1..=4 | 14 => self.keep_priors(lines, next, s[A], s[B], s[M], s[C]),
            5 | 6 | 13 => {
                self.keep_more(lines, target, &s, |search, p| search.add(p, T, about));
                self.keep_more(lines, next, &s, |search, p| search.add(p, F, about));
            }
            7 => self.keep(lines, target, &s),
            8 => {
                let (a, b) = (self.closing.next_priors(s[T]), self.closing.next_priors(s[F]));
                self.keep_priors(lines, next, a, b, X::default(), s[W] & rule.past());
            }
            9 => {
                let (value, prior) = if word >> 24 & 1 == 1 { (T, A) } else { (F, B) };
                let known = !(s[value] & X::bit(rule.worked_out(node))).is_empty();
                let mut p = s;
                p[W] = s[W] & !about | about.only_if(known);
                p[C] = s[C] & !about | s[prior] & about;
                self.keep(lines, next, &p);
            }
            10 | 11 => {
                let (knows_prior, knows_value) = if word >> 28 == 10 { (s[M], X::default()) } else { (s[C], s[W]) };
                let prior = knows_prior & about;
                let value = X::bit(rule.worked_out(node)).only_if(!(knows_value & about).is_empty());
                let more = |search: &Self, p: &mut Line<X>, value_fact: usize, prior_fact: usize| {
                    p[prior_fact] |= prior;
                    search.add(p, value_fact, value);
                    search.raise(p, about);
                };
                self.keep_more(lines, target, &s, |search, p| more(search, p, T, A));
                self.keep_more(lines, next, &s, |search, p| more(search, p, F, B));
            }
            _ => {
                let mut p = s;
                p[M] = s[M] & !about | s[C] & about;
                self.keep(lines, next, &p);
            }
        }
    }

    /// The largest facts, from lines that have instructions only.
    fn settle(&mut self, lines: &mut [Line<X>], about: &mut [X]) {
        let rule = self.closing.rule;
        let (none, past, all) = (X::default(), rule.past(), rule.all());
        for (i, (line, about)) in lines.iter_mut().zip(about.iter_mut()).enumerate() {
            let word = line[0].instruction();
            *line = [line[0], all, all, past, past, past, rule.work(), past];
            *about = match word >> 28 {
                5 | 6 | 13 => self.closing.same_test(word),
                9..=12 => X::bit((word >> 10) as usize),
                _ => none,
            };
            self.again[i / 64] |= 1 << (i % 64);
        }
        lines[0] = self.closing.close(&[lines[0][0], none, none, rule.weak, rule.since, past, none, none]);
        while self.again != [0; 16] {
            for k in 0..16 {
                while self.again[k] != 0 {
                    let i = 64 * k + self.again[k].trailing_zeros() as usize;
                    self.again[k] &= self.again[k] - 1;
                    self.push(lines, i, about[i]);
                }
            }
        }
    }
}

/// Ones over the seven words of every line. Whole lines are counted, many words at a time; then the instructions' ones go.
fn count<X: Set>(lines: &[Line<X>]) -> usize {
    let all: u32 = lines.iter().flatten().map(|w| w.ones()).sum();
    let instructions: u32 = lines.iter().map(|l| l[0].ones()).sum();
    (all - instructions) as usize
}

/// Questions 19 and 13, then the lines: how many facts there are. As many lines as `MOST` have room.
fn find_in<X: Set, const MOST: usize>(rule: &Rule<X>, instructions: &[u32], out: &mut [X]) -> Result<usize, No> {
    let mut room = [[X::default(); 8]; MOST];
    let mut about = [X::default(); MOST];
    let lines = &mut room[..instructions.len()];
    lines.iter_mut().zip(instructions).for_each(|(line, &word)| line[0] = X::of_instruction(word));
    Search::new(rule).settle(lines, &mut about);
    let last = X::bit(rule.count() - 1);
    if let Some(i) = lines.iter().position(|l| l[0].instruction() >> 28 == 8 && (l[T] & last).is_empty()) {
        return no(19, i);
    }
    if out.len() < 8 * lines.len() {
        return no(13, 0);
    }
    out.chunks_exact_mut(8).zip(lines.iter()).for_each(|(words, line)| words.copy_from_slice(line));
    Ok(count(lines))
}

/// Questions 1 to 7, 19 and 13, then the lines: how many facts there are. A short script clears little memory.
pub fn find_facts<X: Set>(words: &[X], instructions: &[u32], out: &mut [X]) -> Result<usize, No> {
    let rule = Rule::read(words)?;
    if check_code(&rule, instructions, 1, ANNOTATED)? <= 128 {
        find_in::<X, 128>(&rule, instructions, out)
    } else {
        find_in::<X, 1024>(&rule, instructions, out)
    }
}

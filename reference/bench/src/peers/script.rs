//! Questions 5 to 11. Closing is put off: where the facts noted at a following line are among those passed on without it, they are
//! among those passed on with it.
use super::form::{nodes_of, Set};
use super::rule::{Rule, FALSE, IMPLIES, SINCE, WEAK_PREVIOUS};
use super::{no, No};

/// A line: the instruction, then T, F, A, B, M, W, C. As a set of facts its word 0 says nothing.
pub type Line<X> = [X; 8];
pub const T: usize = 1;
pub const F: usize = 2;
pub const A: usize = 3;
pub const B: usize = 4;
pub const M: usize = 5;
pub const W: usize = 6;
pub const C: usize = 7;

// What each opcode leaves unused; what follows it: 1 the next line, 2 its target.
const UNUSED: [u32; 16] = {
    let (r, c, t) = (0xf << 24, 0x3fff << 10, 0x3ff);
    [r | c | t, t, t, t, c | t, 0, 0, r | c, r | c | t, 0xe << 24 | t, r, r, r | t, 0, t, !0]
};
const FOLLOWS: [u8; 16] = [0, 1, 1, 1, 1, 3, 3, 2, 1, 1, 3, 3, 1, 3, 1, 0];

/// The opcodes of bare and of annotated scripts, opcode i at bit i.
pub const BARE: u32 = 0x61ff;
pub const ANNOTATED: u32 = 0x7fff;

pub fn goes_to_target(word: u32) -> bool {
    FOLLOWS[(word >> 28) as usize] & 2 != 0
}

/// Question 6 of one line: 9 and 11 may also name a shared node.
pub fn is_allowed<X: Set>(past: X, shared: X, opcodes: u32, word: u32) -> bool {
    let op = word >> 28;
    let c = (word >> 10 & 0x3fff) as usize;
    let names = match op {
        2 | 13 => c < 16,
        9..=12 => c < X::MOST_NODES && !((past | shared.only_if(op & 1 != 0)) & X::bit(c)).is_empty(),
        _ => true,
    };
    opcodes >> op & 1 != 0 && word & UNUSED[op as usize] == 0 && names
}

/// Questions 5 to 7 of lines that stand `stride` words apart: how many there are.
pub fn check_code<X: Set, Y: Set>(rule: &Rule<X>, words: &[Y], stride: usize, opcodes: u32) -> Result<usize, No> {
    let n = words.len() / stride;
    if words.len() % stride != 0 || n == 0 || n > 1024 {
        return no(5, 0);
    }
    let (past, shared) = (rule.past(), rule.shared());
    let mut stray = None;
    for (i, &first) in words.iter().step_by(stride).enumerate() {
        let w = first.instruction();
        if !is_allowed(past, shared, opcodes, w) || first.below() != 0 {
            return no(6, i);
        }
        let follows = FOLLOWS[(w >> 28) as usize];
        let past_end = follows & 1 != 0 && i + 1 >= n || follows & 2 != 0 && (w & 0x3ff) as usize >= n;
        if past_end && stray.is_none() {
            stray = Some(i);
        }
    }
    match stray {
        Some(i) => no(7, i),
        None => Ok(n),
    }
}

/// An implies or since node: how far down its own and its operands' bits stand.
#[derive(Clone, Copy, Default)]
struct Join<X> {
    at: u8,
    left: u8,
    right: u8,
    /// All bits for a since, which is true by T of left where implies is by F of left, and false by the other.
    since: X,
}

/// What closing and passing on need of a rule.
pub(super) struct Closing<'a, X: Set> {
    pub(super) rule: &'a Rule<'a, X>,
    joins: X::Table<Join<X>>,
    count: usize,
    /// The upper halves of the nodes' words, which tell a test; where there is no node, one that no test has.
    tests: X::Table<u32>,
}

impl<'a, X: Set> Closing<'a, X> {
    pub(super) fn new(rule: &'a Rule<X>) -> Closing<'a, X> {
        let mut joins = X::table(Join::default());
        let mut tests = X::table(0);
        let mut count = 0;
        let down = |node: u8| X::BITS as u8 - 1 - node;
        for (i, (&w, d)) in rule.words.iter().zip(rule.nodes.as_ref()).enumerate() {
            tests.as_mut()[i] = (w.top() >> 32) as u32;
            if matches!(d.kind, IMPLIES | SINCE) {
                let since = X::ALL.only_if(d.kind == SINCE);
                joins.as_mut()[X::place(count)] = Join { at: down(i as u8), left: down(d.left), right: down(d.right), since };
                count += 1;
            }
        }
        Closing { rule, joins, count, tests }
    }

    pub(super) fn close(&self, s: &Line<X>) -> Line<X> {
        let rule = self.rule;
        let (mut t, mut f) = (s[T] | s[A] & rule.weak, s[F] | rule.falses | s[B] & rule.weak);
        // an implies is helped without a prior, and hindered by none
        let (gate, prior_false) = (s[A] | !rule.since, s[B] & rule.since);
        let last = |set: X, down: u8| set >> X::place(down as usize) as u32;
        for j in &self.joins.as_ref()[..self.count] {
            let swapped = (t ^ f) & j.since;
            let (helps, hinders) = (f ^ swapped, t ^ swapped);
            let gain_t = last(t, j.right) | last(helps, j.left) & last(gate, j.at);
            let gain_f = last(f, j.right) & (last(hinders, j.left) | last(prior_false, j.at));
            let at = X::place(j.at as usize) as u32;
            t |= (gain_t & X::from(1)) << at;
            f |= (gain_f & X::from(1)) << at;
        }
        let mut closed = *s;
        closed[T] = t;
        closed[F] = f;
        closed
    }

    /// The nodes whose test is an instruction's, which has the same fields in the same order.
    pub(super) fn same_test(&self, word: u32) -> X {
        let op = word >> 28;
        let kind = if op == 13 { 6 } else { op - 4 };
        let stored = kind << 29 | (word >> 10 & 0x3_ffff) << 11;
        let tests = self.tests.as_ref().iter().enumerate();
        tests.fold(X::default(), |set, (i, &test)| set | X::bit(i).only_if(test == stored))
    }

    /// The past nodes whose next prior is in a set of values.
    pub(super) fn next_priors(&self, values: X) -> X {
        nodes_of(self.rule.weak).fold(values & self.rule.since, |set, node| {
            let operand = X::bit(self.rule.node(node).left as usize);
            set | X::bit(node).only_if(!(values & operand).is_empty())
        })
    }

    /// Whether closing gives a node this value. Where nodes are used again the question may come to some of them again and again, so
    /// there it is put to few, and if these do not settle it all facts are closed.
    #[inline(always)]
    fn is_known<const AGAIN: bool>(&self, s: &Line<X>, node: usize, value: bool) -> bool {
        let mut more = 16;
        let known = self.follows::<AGAIN>(s, node, value, &mut more);
        if AGAIN && more == 0 {
            return !(self.close(s)[if value { T } else { F }] & X::bit(node)).is_empty();
        }
        known
    }

    /// The question is put to a node's operands only where the facts do not answer it; where nodes are used again, as long as `more` may
    /// be asked.
    fn follows<const AGAIN: bool>(&self, s: &Line<X>, node: usize, value: bool, more: &mut u32) -> bool {
        if AGAIN {
            if *more == 0 {
                return false;
            }
            *more -= 1;
        }
        let at = X::bit(node);
        let (values, priors) = if value { (s[T], s[A]) } else { (s[F], s[B]) };
        let d = self.rule.node(node);
        let (left, right) = (d.left as usize, d.right as usize);
        let prior = !(priors & at).is_empty();
        !(values & at).is_empty()
            || match (d.kind, value) {
                (FALSE, _) => !value,
                (IMPLIES, true) => self.follows::<AGAIN>(s, left, false, more) || self.follows::<AGAIN>(s, right, true, more),
                (IMPLIES, false) => self.follows::<AGAIN>(s, left, true, more) && self.follows::<AGAIN>(s, right, false, more),
                (SINCE, true) => self.follows::<AGAIN>(s, right, true, more) || prior && self.follows::<AGAIN>(s, left, true, more),
                (SINCE, false) => self.follows::<AGAIN>(s, right, false, more) && (prior || self.follows::<AGAIN>(s, left, false, more)),
                (WEAK_PREVIOUS, _) => prior,
                _ => false,
            }
    }

    /// Whether the facts noted at a line are among these, closed. Closing adds T and F alone, and few of them are missing as a rule.
    #[inline(always)]
    fn gives<const AGAIN: bool>(&self, facts: &Line<X>, noted: &Line<X>) -> bool {
        let missing = |k: usize| noted[k] & !facts[k];
        if !(missing(A) | missing(B) | missing(M) | missing(W) | missing(C)).is_empty() {
            return false;
        }
        let (t, f) = (missing(T), missing(F));
        (t | f).is_empty() || self.closing_gives::<AGAIN>(facts, noted, t, f)
    }

    #[inline(never)]
    fn closing_gives<const AGAIN: bool>(&self, facts: &Line<X>, noted: &Line<X>, t: X, f: X) -> bool {
        if t.ones() + f.ones() > 3 {
            return among(noted, &self.close(facts));
        }
        nodes_of(t).all(|k| self.is_known::<AGAIN>(facts, k, true)) && nodes_of(f).all(|k| self.is_known::<AGAIN>(facts, k, false))
    }

    /// Whether the facts noted at the lines that follow are among those passed on. What closing the facts before the instruction adds
    /// counts for 8 and 9 alone; for the others closing afterwards adds it as well.
    fn passes<'s, const AGAIN: bool>(
        &self,
        s: &Line<X>,
        noted_at_target: impl Fn() -> &'s Line<X>,
        noted_at_next: impl Fn() -> &'s Line<X>,
    ) -> bool {
        let word = s[0].instruction();
        let node = X::place((word >> 10) as usize);
        let (none, at) = (X::default(), X::bit(node));
        let target = |facts: &Line<X>| self.gives::<AGAIN>(facts, noted_at_target());
        let next = |facts: &Line<X>| self.gives::<AGAIN>(facts, noted_at_next());
        let (mut p, mut q) = (*s, *s);
        match word >> 28 {
            0 => true,
            1..=4 | 14 => {
                p[T] = none;
                p[F] = none;
                p[W] = none;
                next(&p)
            }
            5 | 6 | 13 => {
                let tests = self.same_test(word);
                p[T] |= tests;
                q[F] |= tests;
                target(&p) && next(&q)
            }
            7 => target(s),
            8 => {
                let kept = if AGAIN { s[W] & self.rule.past() } else { s[W] };
                let after = |t: X, f: X| next(&[none, none, none, self.next_priors(t), self.next_priors(f), none, none, kept]);
                after(s[T], s[F]) || {
                    let closed = self.close(s);
                    after(closed[T], closed[F])
                }
            }
            9 => {
                let value = word >> 24 & 1 == 1;
                let prior = if value { s[A] } else { s[B] };
                let known = self.is_known::<AGAIN>(s, self.rule.worked_out(node), value);
                p[W] = s[W] & !at | at.only_if(known);
                p[C] = s[C] & !at | prior & at;
                next(&p)
            }
            10 => {
                p[A] |= s[M] & at;
                q[B] |= s[M] & at;
                target(&p) && next(&q)
            }
            11 => {
                let value = if (s[W] & at).is_empty() { none } else { X::bit(self.rule.worked_out(node)) };
                p[T] |= value;
                q[F] |= value;
                p[A] |= s[C] & at;
                q[B] |= s[C] & at;
                target(&p) && next(&q)
            }
            _ => {
                p[M] = s[M] & !at | s[C] & at;
                next(&p)
            }
        }
    }
}

/// Whether the facts noted at a line are among others.
pub(super) fn among<X: Set>(noted: &Line<X>, facts: &Line<X>) -> bool {
    (1..8).fold(X::default(), |x, k| x | noted[k] & !facts[k]).is_empty()
}

fn line<X>(script: &[X], i: usize) -> &Line<X> {
    script[8 * i..8 * i + 8].try_into().unwrap()
}

/// Questions 10 and 11.
fn check_facts<X: Set, const AGAIN: bool>(closing: &Closing<X>, script: &[X], n: usize) -> Result<(), No> {
    let last = closing.rule.count() - 1;
    let mut unfollowed = None;
    for i in 0..n {
        let l = line(script, i);
        let word = l[0].instruction();
        if word >> 28 == 8 && !closing.is_known::<AGAIN>(l, last, true) {
            return no(10, i);
        }
        let (target, next) = (|| line(script, (word & 0x3ff) as usize), || line(script, i + 1));
        if unfollowed.is_none() && !closing.passes::<AGAIN>(l, target, next) {
            unfollowed = Some(i);
        }
    }
    match unfollowed {
        Some(i) => no(11, i),
        None => Ok(()),
    }
}

/// Questions 1 to 11: the rule, and how many lines there are.
pub fn check_script<'a, X: Set>(words: &'a [X], script: &[X]) -> Result<(Rule<'a, X>, usize), No> {
    let rule = Rule::read(words)?;
    let n = check_code(&rule, script, 8, ANNOTATED)?;
    let (none, past, all) = (X::default(), rule.past(), rule.all());
    let belong = [X::ALL, all, all, past, past, past, rule.work(), past];
    let mut noted = [none; 8];
    for i in 0..n {
        let l = line(script, i);
        noted = std::array::from_fn(|k| noted[k] | l[k]);
    }
    if !among(&noted, &belong) {
        return no(8, (0..n).position(|i| !among(line(script, i), &belong)).unwrap());
    }
    let closing = Closing::new(&rule);
    if !among(line(script, 0), &closing.close(&[none, none, none, rule.weak, rule.since, past, none, none])) {
        return no(9, 0);
    }
    if rule.twice.is_empty() {
        check_facts::<X, false>(&closing, script, n)?;
    } else {
        check_facts::<X, true>(&closing, script, n)?;
    }
    Ok((rule, n))
}

//! 2026-08, the ready lamp: what a state holds goes from step to step as the definition, which looks back over the whole history, says it does.
use reference::facts::{with_planted_fault, Fault};
use reference::form::Word;
use reference::generate;
use reference::judge::states;
use reference::machine::{fresh, nodes_in, step_stored_in, stuck, Machine, Stop};
use reference::random::Rng;
use reference::ready::{by_definition, Bits, Readiness};
use reference::rule::{check_rule_in, Node, Rule};
use reference::script::{encode_lines_in, Line};
use reference::weave::weave_lines;
use std::collections::BTreeMap;

const FALSE: Node = Node { kind: 0, register: 0, constant: 0, left: 0, right: 0, zero: 0 };
const PRESENT: Line = line(8, 0, 0, 0);
const HALT: Line = line(0, 0, 0, 0);

const fn line(op: u8, r: u8, c: u16, target: u16) -> Line {
    let facts = reference::facts::Facts { set: [0; 7] };
    Line { op, r, c, target, zero: 0, facts }
}

/// Register r = c.
fn equal(r: u8, c: u16) -> Node {
    Node::new(1, r, c, 0, 0)
}

/// Two registers, the second by its number in the constant.
fn same(r: u8, other: u16) -> Node {
    Node::new(6, r, other, 0, 0)
}

fn implies(left: u8, right: u8) -> Node {
    Node::new(3, 0, 0, left, right)
}

fn since(left: u8, right: u8) -> Node {
    Node::new(4, 0, 0, left, right)
}

fn weak_previous(left: u8) -> Node {
    Node::new(5, 0, 0, left, 0)
}

/// Register 1 = 1 since register 2 = 1, the specification's.
fn the_since() -> [Node; 3] {
    [equal(1, 1), equal(2, 1), since(0, 1)]
}

fn words<W: Word>(nodes: &[Node]) -> Vec<W> {
    nodes.iter().map(Node::encode_in).collect()
}

/// All that a state holds, by the definitions. The prior of a since is its value at the last presentation, false if there is none, that of a
/// weak previous its own value now; the next prior of a since is its value now, that of a weak previous its operand's.
fn defined(rule: &Rule, m: &Machine, history: &[u16]) -> Readiness {
    let mut all = states(&history[..16 * m.presentations as usize]);
    all.push(m.dials);
    let now = all.len() - 1;
    let values = rule.truth_table(&all);
    let of_kind = |k: usize, kind: u8| rule.nodes.get(k).is_some_and(|d| d.kind == kind);
    let prior = |k: usize| of_kind(k, 4) && now > 0 && values[k][now - 1] || of_kind(k, 5) && values[k][now];
    let next = |k: usize| of_kind(k, 4) && values[k][now] || of_kind(k, 5) && values[rule.nodes[k].left as usize][now];
    let read_by = |d: &Node, r: usize| d.branch().is_some() && (d.register as usize == r || d.kind == 6 && d.constant as usize == r);
    Readiness {
        ready: values[rule.last()][now],
        priors: std::array::from_fn(prior),
        next: std::array::from_fn(next),
        tested: std::array::from_fn(|r| rule.nodes.iter().any(|d| read_by(d, r))),
    }
}

/// A rule that passes questions 1 to 4, with a script that need not pass any.
struct Played<'a, W: Word> {
    rule: &'a Rule,
    words: Vec<W>,
    script: Vec<W>,
    inputs: Vec<u16>,
    history: Vec<u16>,
}

impl<'a, W: Word> Played<'a, W> {
    fn new(rule: &'a Rule, script: Vec<W>, inputs: &[u16], space: usize) -> Played<'a, W> {
        Played { rule, words: rule.words_in(), script, inputs: inputs.to_vec(), history: vec![9_999; space] }
    }

    fn step(&mut self, m: Machine) -> Machine {
        step_stored_in(&self.words, &self.script, &self.inputs, &mut self.history, m)
    }

    fn agrees(&self, m: &Machine) -> bool {
        m.readiness.ready == by_definition(self.rule, m, &self.history) && m.readiness == defined(self.rule, m, &self.history)
    }

    /// The machine at a fresh start and after each of so many steps; or the first of them whose state is not what the definitions say.
    fn machines(&mut self, steps: usize) -> Result<Vec<Machine>, usize> {
        let mut all = vec![fresh(&self.rule.nodes)];
        for k in 0..=steps {
            let m = all[k].clone();
            if !self.agrees(&m) {
                return Err(k);
            }
            all.push(self.step(m));
        }
        all.pop();
        Ok(all)
    }
}

fn checked(nodes: &[Node]) -> Rule {
    check_rule_in::<u64>(&words(nodes)).expect("a rule")
}

/// What is ready at the start and after each line of a script that is played to its end, in both forms.
fn readings(nodes: &[Node], lines: &[Line], inputs: &[u16]) -> Vec<bool> {
    let rule = checked(nodes);
    let steps = lines.len() - 1;
    let first = Played::new(&rule, encode_lines_in::<u32>(lines), inputs, 16 * 12).machines(steps).unwrap();
    let second = Played::new(&rule, encode_lines_in::<u64>(lines), inputs, 16 * 12).machines(steps).unwrap();
    assert_eq!(first, second);
    assert_eq!(first[steps].line, steps as u64, "each line was a step");
    first.iter().map(|m| m.readiness.ready).collect()
}

/// The specification's run on 1 0 0 1 1 0: the line at which each step finds the machine and whether it is ready there, and so at the end.
#[rustfmt::skip]
const RUN: [(u64, bool); 32] = [
    // 1 and 0 are read: neither is register 2 = 1, nor has it been presented; the block does not present
    (0, false), (1, false), (2, false), (3, false), (4, false), (5, false), (10, false), (11, false), (12, false), (15, false),
    // 0 and 1 are read: with the second register 2 = 1; the block presents
    (0, false), (1, false), (2, true), (8, true), (9, true), (11, true), (13, true), (14, true), (15, true),
    // 1 and 0: with the first register 2 is 1 still, after the second register 1 = 1 since it was; the block presents
    (0, true), (1, true), (2, true), (3, true), (4, true), (6, true), (8, true), (9, true), (11, true), (13, true), (14, true), (15, true),
    // nothing is left to read
    (0, true),
];

fn the_run_in<W: Word>() {
    let rule = checked(&the_since());
    let bare = [line(4, 1, 0, 0), line(4, 2, 0, 0), PRESENT, line(7, 0, 0, 0)];
    let script: Vec<W> = encode_lines_in(&weave_lines(&rule, &bare).0);
    let mut played = Played::new(&rule, script, &[1, 0, 0, 1, 1, 0], 48);
    let seen = played.machines(31).unwrap();
    assert!(seen.iter().map(|m| (m.line, m.readiness.ready)).eq(RUN));
    assert_eq!(seen[31].presentations, 2);
    // a further step finds it dry
    assert_eq!(played.step(seen[31].clone()), seen[31]);
}

#[test]
fn the_run() {
    the_run_in::<u32>();
    the_run_in::<u64>();
}

/// A weak previous is true at the first presentation, whatever its operand, and then what its operand was at the last one.
#[test]
fn weak_previous_at_the_first_presentation() {
    let lines = [PRESENT, line(1, 1, 1, 0), PRESENT, PRESENT, line(1, 1, 0, 0), PRESENT, HALT];
    let (t, f) = (true, false);
    // register 1 is 0 at presentation 0, then 1, 1, 0
    for (nodes, want) in [
        (&[equal(1, 1), weak_previous(0)][..], [t, f, f, t, t, t, f]),
        (&[equal(1, 1), weak_previous(0), weak_previous(1)], [t, t, t, f, t, t, t]),
        (&[FALSE, weak_previous(0)], [t, f, f, f, f, f, f]),
        (&[FALSE, weak_previous(0), implies(1, 0)], [f, t, t, t, t, t, t]),
        // register 1 = 1 since the first presentation
        (&[FALSE, weak_previous(0), equal(1, 1), since(2, 1)], [t, f, t, t, t, f, f]),
    ] {
        assert_eq!(readings(nodes, &lines, &[]), want, "{nodes:?}");
    }
}

/// A script that sets kept bits as it likes, before any presentation and after one: what is ready goes by what was presented.
#[test]
fn spoiled_kept_bits() {
    let lines = [
        line(9, 1, 2, 0),
        line(12, 0, 2, 0),
        line(1, 1, 1, 0),
        line(1, 2, 1, 0),
        PRESENT,
        line(9, 0, 2, 0),
        line(12, 0, 2, 0),
        line(1, 2, 0, 0),
        line(1, 1, 0, 0),
        HALT,
    ];
    let (t, f) = (true, false);
    assert_eq!(readings(&the_since(), &lines, &[]), [f, f, f, f, t, t, t, t, t, f]);
}

/// Each instruction that writes a register or branches, those of 2026-01 and 2026-02 among them, for "register 1 = register 2".
#[test]
fn each_instruction() {
    let (t, f) = (true, false);
    let steps = [
        (line(3, 1, 5, 0), f),
        // to the next line whether they are equal or not
        (line(13, 1, 2, 2), f),
        (line(14, 1, 7, 0), t),
        (line(13, 1, 2, 4), t),
        (line(4, 1, 0, 0), f),
        (line(2, 2, 1, 0), t),
        (line(1, 3, 1, 0), t),
        (line(3, 1, 16_383, 0), f),
        (line(3, 2, 16_383, 0), t),
        (line(14, 2, 1, 0), f),
        (line(5, 1, 16_383, 11), f),
        (line(1, 1, 16_382, 0), t),
        (line(6, 1, 1, 13), t),
        (line(7, 0, 0, 14), t),
        (line(4, 2, 0, 0), f),
        (PRESENT, f),
        (HALT, f),
    ];
    let want: Vec<bool> = [t].into_iter().chain(steps[..16].iter().map(|step| step.1)).collect();
    assert_eq!(readings(&[same(1, 2)], &steps.map(|step| step.0), &[3, 4]), want);
}

/// A guard written by hand that presents, and keeps its bit two lines later: between them the kept bit is old.
#[test]
fn between_a_present_and_its_12() {
    let lines = [line(1, 2, 1, 0), line(9, 1, 2, 0), PRESENT, line(1, 2, 0, 0), line(1, 1, 1, 0), line(12, 0, 2, 0), HALT];
    assert_eq!(readings(&the_since(), &lines, &[]), [false, true, true, true, false, true, true]);
}

/// One line of any opcode that has to do with the rule, right for question 6 but for a few.
fn any_line(g: &mut Rng, rule: &Rule, lines: usize) -> Line {
    let (past, work) = (rule.past_nodes(), rule.work_nodes());
    let (r, other) = (g.below(generate::REGISTERS + 1) as u8, g.below(generate::REGISTERS + 1) as u16);
    let (c, target) = (g.below(generate::CONSTANTS) as u16, g.below(lines) as u16);
    let (kept, worked) = (g.below(past.len().max(1)), g.below(work.len().max(1)));
    match g.pick(&[1, 1, 2, 3, 4, 4, 4, 5, 6, 7, 8, 8, 8, 8, 9, 9, 10, 11, 12, 12, 13, 14, 15]) {
        op @ (5 | 6) => line(op, r, c, target),
        1 => line(1, r, c, 0),
        2 => line(2, r, other, 0),
        op @ (3 | 14) => line(op, r, generate::amount(g), 0),
        4 => line(4, r, 0, 0),
        7 => line(7, 0, 0, target),
        9 if !work.is_empty() => line(9, g.below(2) as u8, work[worked] as u16, 0),
        10 if !past.is_empty() => line(10, 0, past[kept] as u16, target),
        11 if !work.is_empty() => line(11, 0, work[worked] as u16, target),
        12 if !past.is_empty() => line(12, 0, past[kept] as u16, 0),
        13 => line(13, r, other, target),
        // rarely, so that most scripts go on
        15 if g.chance(1, 4) => Line::decode(g.next() as u32),
        _ => PRESENT,
    }
}

/// Woven lines, some of which are another's; or lines at random.
fn any_script(g: &mut Rng, rule: &Rule) -> Vec<Line> {
    let n = g.within(1, 10);
    let mut lines = match g.below(4) {
        0 => vec![HALT; g.within(3, 30)],
        _ => weave_lines(rule, &generate::bare(g, rule, n)).0,
    };
    let count = lines.len();
    let others = if lines[0] == HALT { 1 } else { g.pick(&[0, 4, 12, 60]) };
    for l in &mut lines {
        if others > 0 && g.chance(1, others) {
            *l = any_line(g, rule, count);
        }
    }
    lines
}

fn any_rule(g: &mut Rng, most: usize) -> Rule {
    let size = if g.chance(1, 6) { g.within(most - 31, most) } else { g.within(1, 8) };
    if g.chance(1, 2) {
        generate::sharing_rule(g, size)
    } else {
        generate::rule(g, size)
    }
}

type Cases = BTreeMap<&'static str, u32>;

fn count(met: &mut Cases, name: &'static str, holds: bool) {
    *met.entry(name).or_default() += holds as u32;
}

/// What a step from one machine to the next meets.
fn step_met(met: &mut Cases, rule: &Rule, lines: &[Line], before: &Machine, after: &Machine) {
    let Some(l) = lines.get(before.line as usize).filter(|_| before != after) else {
        return count(met, "no step", true);
    };
    let (was, is) = (before.readiness.ready, after.readiness.ready);
    let tested = before.readiness.tested[l.r as usize];
    count(met, if is { "ready" } else { "not ready" }, true);
    for (op, name) in
        [(1, "1 changes it"), (2, "2 changes it"), (3, "3 changes it"), (4, "4 changes it"), (14, "14 changes it"), (8, "8 changes it")]
    {
        count(met, name, l.op == op && was != is);
    }
    count(met, "a write of a register that no test reads", matches!(l.op, 1..=4 | 14) && !tested);
    count(met, "a presentation against the rule", l.op == 8 && !was);
    count(met, "kept bits that are not the priors", rule.past_nodes().iter().any(|&i| after.kept[i] != after.readiness.priors[i]));
}

/// So many steps of one script.
const STEPS: usize = 90;

fn any_played<W: Word>(g: &mut Rng, rule: &Rule, lines: &[Line]) -> Result<Vec<Machine>, usize> {
    let space = g.below(16 * 14);
    Played::<W>::new(rule, encode_lines_in(lines), &generate::inputs(g), space).machines(STEPS)
}

fn after_every_step_in<W: Word>(seed: u64) {
    let g = &mut Rng(seed);
    let (mut met, mut long) = (Cases::new(), 0);
    for _ in 0..8_000 {
        let rule = any_rule(g, W::MOST_NODES);
        long += (rule.len() > 32) as u32;
        let lines = any_script(g, &rule);
        let seen = any_played::<W>(g, &rule, &lines).unwrap_or_else(|k| panic!("after {k} steps: {rule:?} {lines:?}"));
        seen.windows(2).for_each(|two| step_met(&mut met, &rule, &lines, &two[0], &two[1]));
        assert!(seen.iter().all(|m| m.readiness.tested == seen[0].readiness.tested));
    }
    println!("{met:#?}");
    assert!(met.len() == 12 && met.values().all(|&n| n >= 30), "{met:?}");
    assert_eq!(long > 100, W::MOST_NODES == 64);
}

/// Rules of either form and any script, guarded or not: after every step the state holds what the definition says.
#[test]
fn after_every_step() {
    after_every_step_in::<u32>(81);
    after_every_step_in::<u64>(82);
}

/// One rule of the reference made wrong: the definition notices, for scripts as above.
#[test]
fn planted_faults_are_noticed() {
    for fault in [Fault::PriorsAreKept, Fault::ReadyBeforeInput, Fault::PriorsMovedAtFull] {
        let g = &mut Rng(83);
        let differs = (0..2_000).position(|_| {
            let rule = any_rule(g, 32);
            let lines = any_script(g, &rule);
            with_planted_fault(fault, || any_played::<u32>(g, &rule, &lines)).is_err()
        });
        println!("{fault:?}: script {}", differs.expect("it is noticed"));
    }
}

/// How the blocks of woven scripts end.
#[derive(Default, Debug)]
struct Ended {
    presented: u32,
    not_presented: u32,
    full: u32,
}

/// From a block's first line on: what is ready at each step until the block is left, a presentation is made or the history is full.
fn through_block<W: Word>(
    played: &mut Played<W>,
    lines: &[Line],
    block: std::ops::Range<u64>,
    first: Machine,
    ended: &mut Ended,
) -> Machine {
    let mut m = first.clone();
    loop {
        let full = stuck(&lines[m.line as usize], &m, &played.inputs, played.history.len()) == Some(Stop::Full);
        let after = played.step(m.clone());
        assert!(played.agrees(&after));
        if after.presentations > first.presentations {
            assert!(first.readiness.ready, "what is presented was ready at the first line");
            ended.presented += 1;
            return after;
        }
        assert_eq!(after.readiness, first.readiness, "nothing else in a block changes it");
        if full {
            assert!(after == m && first.readiness.ready);
            ended.full += 1;
            return after;
        }
        if !block.contains(&after.line) {
            assert!(!first.readiness.ready);
            ended.not_presented += 1;
            return after;
        }
        m = after;
    }
}

fn blocks_in<W: Word>(seed: u64) {
    let g = &mut Rng(seed);
    let mut ended = Ended::default();
    for _ in 0..1_500 {
        let rule = any_rule(g, W::MOST_NODES);
        let n = g.within(2, 8);
        let bare = generate::bare(g, &rule, n);
        let (lines, mut starts) = weave_lines(&rule, &bare);
        if lines.len() > 1024 {
            continue;
        }
        starts.push(lines.len());
        let (inputs, space) = (generate::inputs(g), g.below(16 * 6));
        let mut played = Played::<W>::new(&rule, encode_lines_in(&lines), &inputs, space);
        let mut m = fresh(&rule.nodes);
        for _ in 0..60 {
            m = match starts.iter().position(|&at| at as u64 == m.line) {
                Some(i) if bare[i].op == 8 => {
                    let block = starts[i] as u64..starts[i + 1] as u64;
                    through_block(&mut played, &lines, block, m, &mut ended)
                }
                _ => played.step(m),
            };
        }
    }
    println!("{ended:?}");
    assert!(ended.presented > 500 && ended.not_presented > 500 && ended.full > 100, "{ended:?}");
}

/// After a woven block that did not present, or a present that found the history full, it is as it was at the block's first line.
#[test]
fn blocks_leave_it() {
    blocks_in::<u32>(84);
    blocks_in::<u64>(85);
}

/// Every rule of 1 to 3 nodes over a few leaves, "input 0, input 1, present, go to 0" without a guard, every input of 4 pairs of bits.
#[test]
fn every_small_rule() {
    let leaves = [FALSE, equal(0, 1), Node::new(2, 1, 1, 0, 0), same(0, 1)];
    let lines = [line(4, 0, 0, 0), line(4, 1, 0, 0), PRESENT, line(7, 0, 0, 0)];
    let mut tables: Vec<Vec<Node>> = vec![vec![]];
    let mut rules = 0;
    for n in 1..=3u8 {
        let mut nodes = leaves.to_vec();
        for l in 0..n - 1 {
            nodes.push(weak_previous(l));
            nodes.extend((0..n - 1).flat_map(|r| [implies(l, r), since(l, r)]));
        }
        tables = tables.iter().flat_map(|t| nodes.iter().map(|&d| [&t[..], &[d]].concat())).collect();
        for t in &tables {
            let Ok(rule) = check_rule_in::<u32>(&words(t)) else { continue };
            rules += 1;
            for code in 0..256u32 {
                let inputs: Vec<u16> = (0..8).map(|k| (code >> k & 1) as u16).collect();
                let script: Vec<u32> = encode_lines_in(&lines);
                assert!(Played::new(&rule, script, &inputs, 64).machines(16).is_ok(), "{rule:?} {inputs:?}");
            }
        }
    }
    assert!(rules > 150, "{rules}");
}

fn bits(set: &[usize]) -> Bits {
    std::array::from_fn(|k| set.contains(&k))
}

fn readiness(ready: bool, priors: &[usize], next: &[usize], tested: &[usize]) -> Readiness {
    Readiness { ready, priors: bits(priors), next: bits(next), tested: bits(tested) }
}

/// A fresh start for tables that need not pass any question.
#[test]
fn fresh_starts() {
    let of = |nodes: &[Node]| fresh(nodes).readiness;
    assert_eq!(of(&the_since()), readiness(false, &[], &[], &[1, 2]));
    assert_eq!(of(&[equal(3, 0), weak_previous(0)]), readiness(true, &[1], &[1], &[3]));
    assert_eq!(of(&[equal(3, 0), since(0, 0)]), readiness(true, &[], &[1], &[3]));
    assert_eq!(of(&[]), readiness(false, &[], &[], &[]));
    // a kind that is none
    assert_eq!(of(&[Node::new(7, 3, 0, 0, 0)]), readiness(false, &[], &[], &[]));
    // two registers; one and a number that is no register's, which reads 0
    assert_eq!(of(&[same(3, 5)]), readiness(true, &[], &[], &[3, 5]));
    assert_eq!(of(&[same(3, 16)]), readiness(true, &[], &[], &[3]));
    assert_eq!(of(&[same(3, 16_383)]), readiness(true, &[], &[], &[3]));
    // operands that are not worked out yet count as false: the node itself, a later one, one that is not there
    assert_eq!(of(&[implies(0, 0)]), readiness(true, &[], &[], &[]));
    assert_eq!(of(&[since(0, 0)]), readiness(false, &[], &[], &[]));
    assert_eq!(of(&[since(1, 1), equal(0, 0)]), readiness(true, &[], &[], &[0]));
    assert_eq!(of(&[weak_previous(1), equal(0, 0)]), readiness(true, &[0], &[], &[0]));
    assert_eq!(of(&[equal(0, 0), weak_previous(63)]), readiness(true, &[1], &[], &[0]));
    assert_eq!(of(&[equal(0, 0), implies(0, 31)]), readiness(false, &[], &[], &[0]));
}

/// No more nodes are looked at than the form allows, and the last of these is the rule.
#[test]
fn tables_too_long() {
    let long = |n: usize| [vec![FALSE; n - 1], vec![equal(0, 0), equal(9, 1)]].concat();
    assert_eq!(fresh(&nodes_in(&words::<u32>(&long(32)))).readiness, readiness(true, &[], &[], &[0]));
    assert_eq!(fresh(&nodes_in(&words::<u64>(&long(32)))).readiness, readiness(false, &[], &[], &[0, 9]));
    assert_eq!(fresh(&nodes_in(&words::<u64>(&long(64)))).readiness, readiness(true, &[], &[], &[0]));
}

/// A state that no run reaches: what its four parts are after each kind of step, and that what stops a step leaves them.
#[test]
fn states_that_no_run_reaches() {
    let rule: Vec<u32> = words(&the_since());
    let odd = readiness(true, &[2, 40], &[0, 2, 63], &[1, 20]);
    let step = |l: Line, inputs: &[u16], space: usize| {
        let start = Machine { readiness: odd.clone(), ..fresh(&the_since()) };
        step_stored_in(&rule, &encode_lines_in(&[l]), inputs, &mut vec![0; space], start)
    };
    let after = |l: Line| {
        let m = step(l, &[1], 16);
        assert!(m.line == 1 || l.op == 7, "{l:?}");
        m.readiness
    };
    // register 1 is tested, register 2 is not, though the rule's test reads it
    for l in [line(1, 1, 1, 0), line(3, 1, 1, 0), line(4, 1, 0, 0)] {
        assert_eq!(after(l), readiness(true, &[2, 40], &[2], &[1, 20]));
    }
    for l in [line(1, 1, 0, 0), line(2, 1, 2, 0), line(3, 1, 2, 0), line(14, 1, 1, 0)] {
        assert_eq!(after(l), readiness(false, &[2, 40], &[], &[1, 20]));
    }
    for l in [line(1, 2, 0, 0), line(2, 2, 1, 0), line(3, 2, 1, 0), line(4, 2, 0, 0), line(14, 2, 1, 0), line(1, 4, 1, 0)] {
        assert_eq!(after(l), odd, "{l:?}");
    }
    assert_eq!(after(PRESENT), readiness(false, &[0, 2, 63], &[], &[1, 20]));
    let others = [(5, 1, 9), (6, 1, 0), (7, 0, 0), (9, 1, 2), (10, 0, 2), (11, 0, 2), (12, 0, 2), (13, 1, 2)];
    for (op, r, c) in others {
        assert_eq!(after(line(op, r, c, if matches!(op, 5..=7 | 10 | 11 | 13) { 1 } else { 0 })), odd, "{op}");
    }
    // halted, dry, full, and instructions that question 6 turns away
    let stopped =
        [(HALT, 16), (line(4, 1, 0, 0), 16), (PRESENT, 15), (line(2, 1, 16, 0), 16), (line(1, 1, 1, 1), 16), (line(9, 1, 0, 0), 16)];
    for (l, space) in stopped {
        let m = step(l, &[], space);
        assert!(m.readiness == odd && m.line == 0, "{l:?}");
    }
    // a line that is not there
    let beyond = Machine { line: 1, readiness: odd.clone(), ..fresh(&the_since()) };
    assert_eq!(step_stored_in(&rule, &encode_lines_in(&[PRESENT]), &[], &mut [0; 16], beyond.clone()), beyond);
}

/// Of the old next priors all bits become priors, of nodes that are not there too, and the new ones have those of the rule's nodes alone.
#[test]
fn a_presentation_moves_every_bit() {
    let rule: Vec<u64> = words(&[equal(1, 0), weak_previous(0), since(0, 1)]);
    let all: Vec<usize> = (0..64).collect();
    let start = Machine { readiness: readiness(false, &[], &all, &[]), ..fresh(&nodes_in(&rule)) };
    let after = step_stored_in(&rule, &encode_lines_in(&[PRESENT]), &[], &mut [0; 16], start);
    assert_eq!(after.readiness, readiness(true, &all, &[1, 2], &[]));
}

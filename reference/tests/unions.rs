//! 2026-09: two annotations of the same instructions put together. What it rests on, for any facts; all accepted annotations of small
//! scripts, two by two; and faults of the reference that these find.
mod small;

use reference::facts::{all_facts, close, pass, with_planted_fault, Facts, Fault, Passed, A, B, F, T, W};
use reference::form::Word;
use reference::form64;
use reference::generate;
use reference::random::Rng;
use reference::rule::{check_rule, check_rule_in, Node, Rule};
use reference::script::{annotated_opcode, check_instructions, check_script_in, encode_lines_in, fields_allowed, instruction_words, Line};
use reference::unions::{union, union_in};
use reference::No;
use small::{alphabet, every_obeying, every_script, line, HALT, PRESENT, RULES, SMALL_RULES};
use std::collections::{BTreeMap, BTreeSet, HashSet};
use std::hash::Hash;

/// Each word of a line but the first has the ones of both, in either form; the lines' union is stored so.
#[test]
fn words_joined() {
    let words = |first: u32, start: u32| -> Vec<u32> { (0..8).map(|k| if k == 0 { first } else { start << k }).collect() };
    let (one, other) = ([words(8 << 28, 1), words(0, 0)].concat(), [words(8 << 28, 5), words(0, 3)].concat());
    assert_eq!(union(&one, &other), [words(8 << 28, 5), words(0, 3)].concat());
    let wide = |words: &[u32]| -> Vec<u64> { words.iter().map(|&w| u64::from(w) << 32 | u64::from(w)).collect() };
    assert_eq!(form64::union(&wide(&one), &wide(&other)), wide(&union(&one, &other)));
    let mut g = Rng(1);
    for _ in 0..1_000 {
        stored_unions::<u32>(&mut g);
        stored_unions::<u64>(&mut g);
    }
}

/// Any lines with any facts, also such as the checker refuses.
fn stored_unions<X: Word>(g: &mut Rng) {
    let mut any_facts = || Facts { set: std::array::from_fn(|_| g.next() >> (64 - X::BITS) << (64 - X::BITS)) };
    let lines = [HALT, PRESENT, line(5, 3, 16_383, 1_023)];
    let mut noted = || lines.map(|l| Line { facts: any_facts(), ..l });
    let (one, other) = (noted(), noted());
    let both: Vec<Line> = one.iter().zip(&other).map(|(a, b)| a.union(b)).collect();
    assert_eq!(union_in::<X>(&encode_lines_in(&one), &encode_lines_in(&other)), encode_lines_in(&both));
    assert!(one.iter().zip(&both).all(|(a, b)| a.facts.among(&b.facts)));
}

/// What 2026-09 says of closing and passing on, for any facts and any more facts.
#[derive(Clone, Copy, Debug, PartialEq, Eq, PartialOrd, Ord)]
enum Law {
    /// Closing keeps what is noted.
    Extends,
    /// Closing twice adds nothing.
    ClosedTwice,
    /// More facts close to no fewer.
    MoreClosed,
    /// More facts at a line pass on no fewer, to the target and to the next line.
    MorePassed,
}

/// Two answers of the same instruction: whether one passes on at most what the other does, on each way.
fn among(one: &Passed, other: &Passed) -> bool {
    let way = |one: Option<Facts>, other: Option<Facts>| match (one, other) {
        (None, None) => true,
        (Some(one), Some(other)) => one.among(&other),
        _ => false,
    };
    way(one.target, other.target) && way(one.next, other.next)
}

/// The laws that a line breaks with some facts and more.
fn broken(rule: &Rule, line: &Line, some: &Facts, more: &Facts) -> Vec<Law> {
    let closed = [some, more].map(|facts| close(rule, facts));
    let passed = [some, more].map(|facts| pass(rule, &Line { facts: *facts, ..*line }));
    let laws = [
        (Law::Extends, some.among(&closed[0])),
        (Law::ClosedTwice, close(rule, &closed[0]) == closed[0]),
        (Law::MoreClosed, closed[0].among(&closed[1])),
        (Law::MorePassed, among(&passed[0], &passed[1])),
    ];
    laws.into_iter().filter(|law| !law.1).map(|law| law.0).collect()
}

/// Facts of a rule, few or many of them; rarely any at all, also such as do not belong.
fn some_facts(g: &mut Rng, rule: &Rule) -> Facts {
    let all = if g.chance(1, 16) { Facts { set: [!0; 7] } } else { all_facts(rule) };
    let mut word = |all: u64| match g.below(4) {
        0 => all & g.next() & g.next(),
        1 => all & (g.next() | g.next()),
        _ => all & g.next(),
    };
    Facts { set: all.set.map(&mut word) }
}

/// A line of this opcode that has to do with the rule, if it can; none if the rule has no node that the opcode may name.
fn line_of(g: &mut Rng, rule: &Rule, op: u8) -> Option<Line> {
    let (r, c) = (g.below(generate::REGISTERS) as u8, g.below(generate::CONSTANTS) as u16);
    let named = if matches!(op, 9 | 11) { rule.work_nodes() } else { rule.past_nodes() };
    if matches!(op, 9..=12) && named.is_empty() {
        return None;
    }
    let mut node = || g.pick(&named) as u16;
    let line = match op {
        0 | 7 | 8 => line(op, 0, 0, 0),
        4 => line(op, r, 0, 0),
        9 => line(op, r % 2, node(), 0),
        10..=12 => line(op, 0, node(), 0),
        _ => match rule.nodes.iter().filter(|d| d.branch() == Some(op)).nth(c.into()) {
            Some(d) => line(op, d.register, d.constant, 0),
            None => line(op, r, c, 0),
        },
    };
    assert!(fields_allowed(&rule.nodes, annotated_opcode, &line), "{line:?}");
    Some(line)
}

/// A rule with or without shared nodes, one in four of more nodes than the first form allows.
fn any_rule(g: &mut Rng) -> Rule {
    let size = if g.chance(1, 4) { g.within(33, 64) } else { generate::rule_size(g) };
    g.pick(&RULES)(g, size)
}

/// The laws that are broken by some of so many rules, each with every opcode, and what was met.
fn laws_broken(rules: usize) -> (BTreeSet<Law>, BTreeMap<String, u32>) {
    let mut g = Rng(2);
    let (mut laws, mut met) = (BTreeSet::new(), BTreeMap::new());
    for _ in 0..rules {
        let rule = any_rule(&mut g);
        let mut names = vec![(!rule.shared_nodes().is_empty()).then(|| "a rule with shared nodes".into())];
        names.push((rule.len() > 32).then(|| "a rule of more than 32 nodes".into()));
        for op in 0..=14 {
            let Some(line) = line_of(&mut g, &rule, op) else { continue };
            let more = some_facts(&mut g, &rule);
            let some = more.meet(&some_facts(&mut g, &rule));
            laws.extend(broken(&rule, &line, &some, &more));
            let both = |one: usize, other: usize| more.set[one] & more.set[other] != 0;
            names.push(both(T, F).then(|| "T and F of one node".into()));
            names.push(both(A, B).then(|| "A and B of one node".into()));
            names.push((close(&rule, &some) != close(&rule, &more)).then(|| format!("{op} with more facts")));
            let passed = [some, more].map(|facts| pass(&rule, &Line { facts, ..line }));
            names.push((passed[0] != passed[1]).then(|| format!("{op} passes on more")));
        }
        for name in names.into_iter().flatten() {
            *met.entry(name).or_default() += 1;
        }
    }
    (laws, met)
}

#[test]
fn laws() {
    let (broken, met) = laws_broken(10_000);
    println!("{met:#?}");
    assert!(broken.is_empty(), "{broken:?}");
    // each opcode with more facts; a halt passes nothing on
    let opcodes = (0..=14).map(|op| format!("{op} with more facts")).chain((1..=14).map(|op| format!("{op} passes on more")));
    let others = ["T and F of one node", "A and B of one node", "a rule with shared nodes", "a rule of more than 32 nodes"];
    for name in opcodes.chain(others.map(String::from)) {
        assert!(met.get(&name).is_some_and(|&n| n >= 1_000), "{name}: {met:?}");
    }
}

/// Each fault breaks the law that it is about, and no other.
#[test]
fn faults_break_laws() {
    for (fault, law) in [(Fault::TrueHidesFalse, Law::MorePassed), (Fault::ClosingRemoves, Law::Extends)] {
        assert_eq!(with_planted_fault(fault, || laws_broken(1_000)).0, BTreeSet::from([law]), "{fault:?}");
    }
}

/// What was met where accepted annotations were put together.
#[derive(Default, Debug)]
struct Seen {
    scripts: u64,
    /// scripts with more annotations, or more pairs of accepted ones, than are looked at
    too_many: u64,
    sampled: u64,
    accepted: u64,
    pairs: u64,
    /// pairs of which neither has all facts of the other
    apart: u64,
    refused: u64,
}

const MOST_PAIRS: usize = 4_000;
const SAMPLE: usize = 1_000;

/// All accepted annotations of these instructions, unless more than so many have to be looked at.
fn every_accepted<X: Word>(rule: &Rule, lines: &[Line], mut most: u32) -> Option<Vec<Vec<X>>> {
    let words = rule.words_in::<X>();
    let mut accepted = vec![];
    let mut put = |noted: &[Line]| {
        let stored = encode_lines_in(noted);
        if check_script_in(&words, &stored).is_ok() {
            accepted.push(stored);
        }
    };
    every_obeying(rule, &mut lines.to_vec(), 0, &mut most, &mut put).then_some(accepted)
}

impl Seen {
    /// All pairs of accepted annotations of these instructions, or some at random if there are many. All that are accepted are known, so
    /// that a union is accepted if it is one of them.
    fn script<X: Word + Eq + Hash>(&mut self, g: &mut Rng, rule: &Rule, lines: &[Line], most: u32) {
        self.scripts += 1;
        let Some(accepted) = every_accepted::<X>(rule, lines, most) else {
            self.too_many += 1;
            return;
        };
        let known: HashSet<&[X]> = accepted.iter().map(|noted| &noted[..]).collect();
        self.accepted += known.len() as u64;
        let n = accepted.len();
        if n * n / 2 <= MOST_PAIRS {
            (0..n).for_each(|i| (0..i).for_each(|j| self.pair(&known, &accepted[i], &accepted[j])));
        } else {
            self.sampled += 1;
            (0..SAMPLE).for_each(|_| self.pair(&known, &accepted[g.below(n)], &accepted[g.below(n)]));
        }
    }

    fn pair<X: Word + Eq + Hash>(&mut self, known: &HashSet<&[X]>, one: &[X], other: &[X]) {
        let both = union_in(one, other);
        self.pairs += 1;
        self.apart += (both != one && both != other) as u64;
        self.refused += !known.contains(&both[..]) as u64;
    }
}

/// Every script of the alphabet for a rule.
fn every_small_script<X: Word + Eq + Hash>(words: &[u32], most: usize) -> Seen {
    let (mut g, mut seen) = (Rng(3), Seen::default());
    let rule = check_rule(words).unwrap();
    for lines in (1..=most).flat_map(|n| every_script(&rule, n)) {
        seen.script::<X>(&mut g, &rule, &lines, 20_000);
    }
    seen
}

/// Of every script of the alphabet, all accepted annotations two by two; where nothing leads to a line there may be many, and some pairs
/// are taken at random.
#[test]
fn every_union_of_every_small_script() {
    let (mut scripts, mut all_pairs) = (0, 0);
    for (words, most) in SMALL_RULES {
        let seen = every_small_script::<u32>(words, most);
        println!("{words:x?}, up to {most} lines: {seen:?}");
        assert!(seen.refused == 0 && seen.too_many == 0 && seen.apart > 0, "{words:x?}: {seen:?}");
        scripts += seen.scripts;
        all_pairs += seen.scripts - seen.sampled;
    }
    assert!(100 * all_pairs > 95 * scripts, "all pairs of {all_pairs} scripts, of {scripts}");
}

/// Random scripts of the alphabet, two to five lines with a present, for random rules of one to three nodes, or two to four with nodes used
/// again, in the second form.
fn random_scripts(count: u64) -> Seen {
    let (mut g, mut seen) = (Rng(4), Seen::default());
    while seen.scripts < count {
        let again = g.below(2);
        let size = g.within(1, 3) + again;
        let rule = RULES[again](&mut g, size);
        let n = g.within(2, 5);
        let instructions = alphabet(&rule, n as u16);
        let lines: Vec<Line> = (0..n).map(|_| g.pick(&instructions)).collect();
        let present = lines.iter().any(|l| l.op == 8);
        if present && check_instructions(&rule.words(), &instruction_words(&lines)).is_ok() {
            seen.script::<u64>(&mut g, &rule, &lines, 3_000);
        }
    }
    seen
}

#[test]
fn every_union_of_random_scripts() {
    let seen = random_scripts(4_000);
    println!("{seen:?}");
    assert!(seen.refused == 0 && seen.apart > 10_000 && 4 * (seen.sampled + seen.too_many) < seen.scripts, "{seen:?}");
}

/// Where a T hides an F there are accepted annotations whose union is refused.
#[test]
fn a_fault_refuses_unions() {
    let shares = |words: &[u32]| !check_rule(words).unwrap().shared_nodes().is_empty();
    // with a line before the 9 and one after it
    let (words, most) = SMALL_RULES.into_iter().find(|&(words, most)| most > 2 && shares(words)).unwrap();
    let seen = with_planted_fault(Fault::TrueHidesFalse, || every_small_script::<u32>(words, most));
    assert!(seen.refused > 0, "{seen:?}");
    let seen = with_planted_fault(Fault::TrueHidesFalse, || random_scripts(2_000));
    assert!(seen.refused > 0, "{seen:?}");
}

fn facts(noted: &[(usize, usize)]) -> Facts {
    noted.iter().fold(Facts::none(), |all, &(fact, node)| all.with(fact, node))
}

/// What the checker says of two annotations and of their union, each as the facts of each line.
fn answers<X: Word>(nodes: &[Node], lines: &[Line], one: &[&[(usize, usize)]], other: &[&[(usize, usize)]]) -> [Option<No>; 3] {
    let rule: Vec<X> = nodes.iter().map(Node::encode_in).collect();
    check_rule_in(&rule).unwrap();
    let [one, other] = [one, other].map(|noted| {
        let noted: Vec<Line> = lines.iter().zip(noted).map(|(l, noted)| Line { facts: facts(noted), ..*l }).collect();
        encode_lines_in::<X>(&noted)
    });
    let both = union_in(&one, &other);
    [one, other, both].map(|script| check_script_in(&rule, &script).err())
}

const TEST: Node = Node { kind: 1, register: 1, constant: 1, left: 0, right: 0, zero: 0 };

/// Code that nothing leads to, where one reviewer notes F before a 9 that sets 0 and W after it, the other T: for a shared test, a weak
/// previous and a since. The work bit is as W says by what the first has noted, and the second's T does not change that.
fn both_before_a_9_in<X: Word>() {
    let (shared, weak_previous, since) = (Node::new(3, 0, 0, 0, 0), Node::new(5, 0, 0, 0, 0), Node::new(4, 0, 0, 0, 1));
    for (nodes, named, told) in [(&[TEST, shared][..], 0, 0), (&[TEST, weak_previous], 1, 0), (&[TEST, TEST, since], 2, 2)] {
        let lines = [HALT, line(9, 0, named as u16, 0), HALT];
        let asked = || answers::<X>(nodes, &lines, &[&[], &[(F, told)], &[(W, named)]], &[&[], &[(T, told)], &[]]);
        assert_eq!(asked(), [None; 3], "{nodes:?}");
        let refused = Some(No { number: 11, place: 1 });
        assert_eq!(with_planted_fault(Fault::TrueHidesFalse, asked), [None, None, refused], "{nodes:?}");
    }
}

#[test]
fn both_before_a_9() {
    both_before_a_9_in::<u32>();
    both_before_a_9_in::<u64>();
}

/// Where one of the two is refused, the union may be accepted or refused: a present without its T, which the other has noted, and a fact
/// that no line passes on, which stays wrong.
#[test]
fn one_of_them_refused() {
    let lines = [line(5, 1, 1, 2), HALT, PRESENT, HALT];
    let t = &[(T, 0)][..];
    let refused = |number: u32, place: usize| Some(No { number, place });
    let asked = |other: &[&[(usize, usize)]]| answers::<u32>(&[TEST], &lines, &[&[], &[], t, &[]], other);
    assert_eq!(asked(&[&[], &[], &[], &[]]), [None, refused(10, 2), None]);
    assert_eq!(asked(&[&[], t, t, &[]]), [None, refused(11, 0), refused(11, 0)]);
}

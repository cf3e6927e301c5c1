//! 2026-11, dials known only within limits: what it promises, by every exact history within small limits and on random ones, the registers
//! that an answer depends on, refusals in their order, and the program that judges a file.
use reference::enumerate::{enumerated, every_rule, hold_to_every_history, is_within, refused_by, Refused, Small, REFUSALS};
use reference::facts::{with_planted_fault, Fault};
use reference::form::Word;
use reference::generate;
use reference::judge::{judge_in, values_now};
use reference::limits::{answers, grounded, implies, judge_file, judge_limits, judge_limits_in, since, test};
use reference::limits::{Answer, Grounded, Limits};
use reference::random::Rng;
use reference::rule::{check_rule, check_rule_in, Node, Rule};
use reference::{form64, no, State, TOP};
use std::collections::{BTreeMap, BTreeSet};
use Answer::{False, Open, True};

const ANSWERS: [Answer; 3] = [False, True, Open];

/// The results that an answer leaves.
fn results(answer: Answer) -> &'static [bool] {
    match answer {
        False => &[false],
        True => &[true],
        Open => &[false, true],
    }
}

/// What is forced, if one result is.
fn forced(results: impl Iterator<Item = bool>) -> Answer {
    let all: BTreeSet<bool> = results.collect();
    match all.into_iter().collect::<Vec<_>>()[..] {
        [false] => False,
        [true] => True,
        _ => Open,
    }
}

/// The value of the last of three nodes, of which the first two are left and right, from theirs and its prior.
fn joined(kind: u8, left: bool, right: bool, prior: bool) -> bool {
    let test = |register| Node::new(1, register, 1, 0, 0);
    let rule = check_rule(&[test(0), test(1), Node::new(kind, 0, 0, 0, 1)].map(|node| node.encode())).unwrap();
    let mut state = [0; 16];
    (state[0], state[1]) = (left.into(), right.into());
    values_now(&rule, &[false, false, prior], &state)[2]
}

/// Open where neither result is forced by the operands' values, each taken by itself, and a since's own last value.
#[test]
fn three_values() {
    for (left, right) in ANSWERS.iter().flat_map(|&left| ANSWERS.map(|right| (left, right))) {
        let pairs = || results(left).iter().flat_map(|&l| results(right).iter().map(move |&r| (l, r)));
        assert_eq!(implies(left, right), forced(pairs().map(|(l, r)| joined(3, l, r, false))), "{left:?} {right:?}");
        for last in ANSWERS {
            let all = pairs().flat_map(|(l, r)| results(last).iter().map(move |&p| joined(4, l, r, p)));
            assert_eq!(since(left, right, last), forced(all), "{left:?} {right:?} {last:?}");
        }
    }
}

/// So many indices, and the largest value of the two registers there.
const SHAPES: [(usize, u16); 3] = [(1, 3), (2, 2), (3, 1)];

/// Every rule of up to three nodes, and all limits of two registers.
#[test]
fn every_small_rule() {
    let rules = every_rule(3);
    let mut met = [0; 4];
    for (indices, top) in SHAPES {
        let small = Small::new(indices, top);
        for rule in &rules {
            let judge = |limits: &[Limits]| answers(rule, limits).iter().map(|now| now[rule.last()]).collect();
            hold_to_every_history(&small, rule, |within| judge(&within.limits), &mut met);
        }
    }
    println!("{} rules; false, true, open, open where all exact histories agree: {met:?}", rules.len());
    assert!(rules.len() == 1919 && met.iter().all(|&n| n > 100_000));
}

/// The registers of a set of 0 and 1.
const SETS: [&[usize]; 4] = [&[], &[0], &[1], &[0, 1]];

/// The limits of small ones in which just the registers of a set have theirs, the others having every value, and those that are narrower with
/// the registers of the set unchanged: for each set, by their numbers.
struct Changed {
    loosened: [usize; 4],
    narrower: [Vec<usize>; 4],
}

fn changed(small: &Small, of: &[Limits], top: u16) -> Changed {
    let numbered = |limits: &[Limits]| small.all.iter().position(|other| other.limits == limits).unwrap();
    let loosened = SETS.map(|set| {
        let free = |r: usize| r < 2 && !set.contains(&r);
        let loose = |at: &Limits| Limits {
            low: std::array::from_fn(|r| if free(r) { 0 } else { at.low[r] }),
            high: std::array::from_fn(|r| if free(r) { top } else { at.high[r] }),
        };
        numbered(&of.iter().map(loose).collect::<Vec<_>>())
    });
    let inside = |a: &Limits, b: &Limits| (0..2).all(|r| a.low[r] >= b.low[r] && a.high[r] <= b.high[r]);
    let same = |a: &Limits, b: &Limits, r: usize| (a.low[r], a.high[r]) == (b.low[r], b.high[r]);
    let each = |other: usize, holds: &dyn Fn(&Limits, &Limits) -> bool| small.all[other].limits.iter().zip(of).all(|(a, b)| holds(a, b));
    let inside: Vec<usize> = (0..small.all.len()).filter(|&other| each(other, &inside)).collect();
    let narrower = SETS.map(|set| {
        let unchanged = |other: &usize| each(*other, &|a, b| set.iter().all(|&r| same(a, b, r)));
        inside.iter().copied().filter(unchanged).collect()
    });
    Changed { loosened, narrower }
}

/// The registers that an answer depends on, for every rule of up to three nodes and all limits of two registers, at the last index: a truth
/// value is that of every exact history in which just these lie within their limits; what is open stays open while just these keep theirs.
#[test]
fn every_small_rule_depends_on_these() {
    let mut met: BTreeMap<(Answer, usize), u64> = BTreeMap::new();
    for (indices, top) in SHAPES {
        let small = Small::new(indices, top);
        let changed: Vec<Changed> = small.all.iter().map(|within| changed(&small, &within.limits, top)).collect();
        for rule in &every_rule(3) {
            let truths = small.truths(rule);
            let last = |limits: &[Limits]| grounded(rule, limits).swap_remove(indices - 1).swap_remove(rule.last());
            let all: Vec<Grounded> = small.all.iter().map(|within| last(&within.limits)).collect();
            for (Grounded { answer, registers }, changed) in all.iter().zip(&changed) {
                let set = SETS.iter().position(|set| registers.iter().eq(*set)).unwrap();
                *met.entry((*answer, set)).or_default() += 1;
                if *answer == Open {
                    assert!(changed.narrower[set].iter().all(|&other| all[other].answer == Open), "{rule:?} {registers:?}");
                } else {
                    let exact = &small.all[changed.loosened[set]].exact;
                    assert_eq!(enumerated(&truths, exact, indices - 1), *answer, "{rule:?} {registers:?}");
                }
            }
        }
    }
    println!("answers and the sets of registers that they depend on: {met:?}");
    // an open answer depends on some register
    assert_eq!(met.len(), 11);
}

type Cases = BTreeMap<&'static str, u32>;

fn count(met: &mut Cases, name: &'static str, holds: bool) {
    *met.entry(name).or_default() += holds as u32;
}

/// The same rule with tests about larger numbers.
fn shifted(rule: &Rule, by: u16) -> Rule {
    let constant = |node: &Node| if matches!(node.kind, 1 | 2) { node.constant + by } else { node.constant };
    let words: Vec<u64> = rule.nodes.iter().map(|node| Node { constant: constant(node), ..*node }.encode_in()).collect();
    check_rule_in(&words).expect("no question asks for a test's constant")
}

/// A random rule and limits for it. Its tests are about four numbers from `least` on, the smallest there are or the largest.
struct Asked {
    rule: Rule,
    least: u16,
    limits: Vec<Limits>,
}

impl Asked {
    /// So many of eight registers are not known exactly, and some of these not at all.
    fn any(g: &mut Rng, size: usize, indices: usize, open: usize) -> Asked {
        let rule = if g.chance(1, 2) { generate::sharing_rule(g, size) } else { generate::rule(g, size) };
        let least = g.pick(&[0, 0, 0, TOP - 3]);
        let mut limits = vec![Limits::exact([0; 16]); indices];
        for at in &mut limits {
            for r in 0..16 {
                let (one, other) = (least + g.below(4) as u16, least + g.below(4) as u16);
                (at.low[r], at.high[r]) = match g.chance(open, 8) {
                    true if g.chance(1, 10) => (0, TOP),
                    true => (one.min(other), one.max(other)),
                    false => (one, one),
                };
            }
        }
        Asked { rule: shifted(&rule, least), least, limits }
    }

    /// A number from `low` to `high`, mostly one that the tests are about.
    fn any_number(&self, g: &mut Rng, low: u16, high: u16) -> u16 {
        let (about, any) = (self.least + g.below(4) as u16, g.within(low.into(), high.into()) as u16);
        if (low..=high).contains(&about) && g.chance(3, 4) {
            about
        } else {
            any
        }
    }

    /// An exact history in which the registers that are kept lie within their limits; the others have any number.
    fn any_exact(&self, g: &mut Rng, keeps: impl Fn(usize) -> bool) -> Vec<State> {
        let range = |at: &Limits, r: usize| if keeps(r) { (at.low[r], at.high[r]) } else { (0, TOP) };
        let mut number = |(low, high)| self.any_number(g, low, high);
        self.limits.iter().map(|at| std::array::from_fn(|r| number(range(at, r)))).collect()
    }

    /// Narrower limits, in which those of some registers are unchanged.
    fn any_narrower(&self, g: &mut Rng, unchanged: &BTreeSet<usize>) -> Vec<Limits> {
        let mut narrower = self.limits.clone();
        for at in &mut narrower {
            for r in (0..16).filter(|r| !unchanged.contains(r)) {
                at.low[r] = self.any_number(g, at.low[r], at.high[r]);
                at.high[r] = self.any_number(g, at.low[r], at.high[r]);
            }
        }
        narrower
    }

    /// The answers to some limits in a form; later bytes stay.
    fn bytes<W: Word>(&self, limits: &[Limits]) -> Result<Vec<u8>, String> {
        let lows: Vec<u16> = limits.iter().flat_map(|at| at.low).collect();
        let highs: Vec<u16> = limits.iter().flat_map(|at| at.high).collect();
        let mut out = vec![9; limits.len() + 2];
        let count = judge_limits_in::<W>(&self.rule.words_in(), &lows, &highs, &mut out);
        if count != Ok(limits.len()) || out.split_off(limits.len()) != [9, 9] {
            return Err(format!("{count:?}"));
        }
        Ok(out)
    }

    /// True and false are so in an exact history within; its own limits give the truth everywhere, and the judge's verdict.
    fn is_right<W: Word>(&self, exact: &[State], all: &[u8]) -> Result<(), String> {
        let truth: Vec<u8> = self.rule.truth_table(exact)[self.rule.last()].iter().map(|&x| x as u8).collect();
        if !is_within(exact, &self.limits) || all.iter().zip(&truth).any(|(&byte, &truth)| byte != 2 && byte != truth) {
            return Err(format!("{all:?}, but {truth:?} in {exact:?}"));
        }
        let alone = self.bytes::<W>(&exact.iter().map(|&state| Limits::exact(state)).collect::<Vec<_>>())?;
        let breach = judge_in::<W>(&self.rule.words_in(), &exact.concat(), 0).expect("exact histories are judged").index;
        if alone != truth || alone.iter().position(|&byte| byte == 0).unwrap_or(alone.len()) != breach {
            return Err(format!("{alone:?} where limits are exact, but {truth:?}, and the breach at {breach}"));
        }
        Ok(())
    }

    /// The answer at index n depends on no other registers: in an exact history that keeps just the limits of these, and with limits that are
    /// narrower for the others.
    fn depends<W: Word>(&self, g: &mut Rng, n: usize, Grounded { answer, registers }: &Grounded) -> Result<(), String> {
        let exact = self.any_exact(g, |r| registers.contains(&r));
        let truth = self.rule.truth_table(&exact)[self.rule.last()][n];
        if *answer != Open && (*answer == True) != truth {
            return Err(format!("{answer:?} at {n} by {registers:?}, but {truth} in {exact:?}"));
        }
        let narrower = self.any_narrower(g, registers);
        if *answer == Open && self.bytes::<W>(&narrower)?[n] != 2 {
            return Err(format!("open at {n} by {registers:?}, but not in {narrower:?}"));
        }
        Ok(())
    }
}

/// What is promised of random limits, by samples of the exact histories within and of narrower limits.
fn promised<W: Word>(g: &mut Rng, met: &mut Cases) -> Result<(), String> {
    let (size, indices, open) = (generate::rule_size_within(g, W::MOST_NODES), g.below(7), g.pick(&[0, 1, 2, 4, 8]));
    let asked = Asked::any(g, size, indices, open);
    let all = asked.bytes::<W>(&asked.limits)?;
    for _ in 0..8 {
        let exact = asked.any_exact(g, |_| true);
        asked.is_right::<W>(&exact, &all)?;
    }
    for (n, mut now) in grounded(&asked.rule, &asked.limits).into_iter().enumerate() {
        let ground = now.swap_remove(size - 1);
        if ground.answer as u8 != all[n] {
            return Err(format!("{ground:?} at {n}, but {}", all[n]));
        }
        for _ in 0..4 {
            asked.depends::<W>(g, n, &ground)?;
        }
        count(met, "false", ground.answer == False);
        count(met, "true", ground.answer == True);
        count(met, "open", ground.answer == Open);
        count(met, "some of the registers that are read", (1..generate::REGISTERS).contains(&ground.registers.len()));
    }
    count(met, "exact limits", open == 0 && indices > 0);
    count(met, "no index", indices == 0);
    count(met, "more than 16 nodes", size > 16);
    Ok(())
}

fn random_rules_in<W: Word>(seed: u64) {
    let g = &mut Rng(seed);
    let mut met = Cases::new();
    for k in 0..10_000 {
        promised::<W>(g, &mut met).unwrap_or_else(|e| panic!("{k}: {e}"));
    }
    println!("{met:?}");
    assert!(met.values().all(|&n| n > 100), "{met:?}");
}

#[test]
fn random_rules() {
    random_rules_in::<u32>(111);
    random_rules_in::<u64>(112);
}

/// Of the ways that are there at once the first is answered, and the output stays; where none is, there are three answers.
fn first_is_answered<W: Word>(ways: u32) -> Result<(), String> {
    let Refused { rule, lows, highs, mut out } = refused_by::<W>(ways);
    let answer = judge_limits_in(&rule, &lows, &highs, &mut out);
    let wanted = match REFUSALS.get(ways.trailing_zeros() as usize) {
        Some(&(number, place)) => no(number, place),
        None => Ok(3),
    };
    let untouched = out.iter().all(|&byte| byte == 9);
    if answer != wanted || untouched != wanted.is_err() {
        return Err(format!("{answer:?} and {out:?}, not {wanted:?}, for {ways:b}"));
    }
    Ok(())
}

/// Every order of two refusals, and of more: all sets of the ways to be refused.
#[test]
fn refusals_in_order() {
    for ways in 0..1 << REFUSALS.len() {
        first_is_answered::<u32>(ways).unwrap();
        first_is_answered::<u64>(ways).unwrap();
    }
}

/// The lowest place is answered, in its own list.
#[test]
fn places() {
    let rule = [0x2200_0800];
    let asked = |lows: &[(usize, u16)], highs: &[(usize, u16)]| {
        let (mut low, mut high) = ([5; 32], [6; 32]);
        lows.iter().for_each(|&(at, value)| low[at] = value);
        highs.iter().for_each(|&(at, value)| high[at] = value);
        judge_limits(&rule, &low, &high, &mut [0; 2])
    };
    assert_eq!(asked(&[(31, 16_384), (17, 65_535), (18, 16_384)], &[]), no(15, 17));
    assert_eq!(asked(&[(31, 16_384)], &[(0, 16_384)]), no(15, 31));
    assert_eq!(asked(&[], &[(30, 16_384), (31, 65_535)]), no(15, 30));
    assert_eq!(asked(&[(8, 7), (9, 7)], &[(7, 4)]), no(23, 7));
    assert_eq!(asked(&[(31, 7)], &[]), no(23, 31));
    // equal limits are no refusal, up to the largest number
    assert_eq!(asked(&[(0, 6), (31, TOP)], &[(15, 5), (31, TOP)]), Ok(2));
    assert_eq!(asked(&[(0, 0)], &[(0, TOP)]), Ok(2));
}

/// What a test answers where some registers have these limits; the others have every value.
fn of_test(kind: u8, register: u8, constant: u16, limits: &[(usize, u16, u16)]) -> Answer {
    let mut at = Limits { low: [0; 16], high: [TOP; 16] };
    limits.iter().for_each(|&(r, low, high)| (at.low[r], at.high[r]) = (low, high));
    test(&Node::new(kind, register, constant, 0, 0), &at)
}

#[test]
fn tests_at_their_limits() {
    for (low, high, equal, below) in [
        (5, 5, True, False),
        (4, 4, False, True),
        (6, 6, False, False),
        (4, 5, Open, Open),
        (5, 6, Open, False),
        (3, 4, False, True),
        (6, 9, False, False),
        (0, TOP, Open, Open),
        (0, 4, False, True),
        (5, TOP, Open, False),
        (6, TOP, False, False),
    ] {
        assert_eq!(of_test(1, 15, 5, &[(15, low, high)]), equal, "{low} {high}");
        assert_eq!(of_test(2, 15, 5, &[(15, low, high)]), below, "{low} {high}");
    }
    // the ends of a register
    assert_eq!([of_test(1, 0, 0, &[]), of_test(1, 0, TOP, &[]), of_test(2, 0, 0, &[]), of_test(2, 0, TOP, &[])], [Open, Open, False, Open]);
    assert_eq!([of_test(1, 0, 0, &[(0, 0, 0)]), of_test(1, 0, TOP, &[(0, TOP, TOP)])], [True, True]);
    assert_eq!([of_test(2, 0, TOP, &[(0, 0, TOP - 1)]), of_test(2, 0, TOP, &[(0, TOP, TOP)])], [True, False]);
}

#[test]
fn two_registers_at_their_limits() {
    for (one, other, answer) in [
        ((3, 3), (3, 3), True),
        ((3, 3), (4, 4), False),
        ((3, 4), (5, 6), False),
        ((3, 5), (5, 6), Open),
        ((3, 3), (3, 4), Open),
        ((3, 3), (2, 3), Open),
        ((3, 3), (2, 4), Open),
        ((3, 4), (3, 4), Open),
        ((0, TOP), (7, 7), Open),
        ((0, TOP), (0, TOP), Open),
        ((TOP, TOP), (TOP, TOP), True),
        ((0, TOP - 1), (TOP, TOP), False),
    ] {
        assert_eq!(of_test(6, 0, 15, &[(0, one.0, one.1), (15, other.0, other.1)]), answer, "{one:?} {other:?}");
        assert_eq!(of_test(6, 15, 0, &[(0, one.0, one.1), (15, other.0, other.1)]), answer, "{other:?} {one:?}");
        // a dial always equals itself
        assert_eq!(of_test(6, 15, 15, &[(15, one.0, one.1)]), True);
    }
}

const FALSE: Node = Node { kind: 0, register: 0, constant: 0, left: 0, right: 0, zero: 0 };

/// Register k = 1.
const fn is_one(register: u8) -> Node {
    Node { kind: 1, register, constant: 1, ..FALSE }
}

const fn join(kind: u8, left: u8, right: u8) -> Node {
    Node { kind, left, right, ..FALSE }
}

/// The registers of an index that are not 0, with their lowest and highest values.
type Index<'a> = &'a [(usize, u16, u16)];

fn limits_at(history: &[Index]) -> Vec<Limits> {
    let limits = |index: &Index| {
        let mut at = Limits::exact([0; 16]);
        index.iter().for_each(|&(r, low, high)| (at.low[r], at.high[r]) = (low, high));
        at
    };
    history.iter().map(limits).collect()
}

/// A file of a rule and limits.
fn file(nodes: &[Node], history: &[Index]) -> Vec<u8> {
    let mut bytes = (nodes.len() as u32).to_be_bytes().to_vec();
    bytes.extend(nodes.iter().flat_map(|node| node.encode().to_be_bytes()));
    bytes.extend((history.len() as u32).to_be_bytes());
    bytes.extend(limits_at(history).iter().flat_map(|at| [at.low, at.high].concat()).flat_map(u16::to_be_bytes));
    bytes
}

/// What is printed of a file, without the line that counts its indices.
fn printed(nodes: &[Node], history: &[Index]) -> String {
    let text = judge_file(&file(nodes, history));
    text.strip_prefix(&format!("indices {}\n", history.len())).unwrap_or(&text).into()
}

/// The registers of each that are known to be 0 or 1, and that may be either.
const ZERO: (usize, u16, u16) = (1, 0, 0);
const ONE: (usize, u16, u16) = (1, 1, 1);
const EITHER: (usize, u16, u16) = (1, 0, 1);
const OTHER_ZERO: (usize, u16, u16) = (2, 0, 0);
const OTHER_ONE: (usize, u16, u16) = (2, 1, 1);
const OTHER_EITHER: (usize, u16, u16) = (2, 0, 1);

#[test]
fn files_with_one_index() {
    let implied = [is_one(1), is_one(2), join(3, 0, 1)];
    for (nodes, index, text) in [
        (&[FALSE][..], &[][..], "0 false\n"),
        (&[is_one(1)], &[ZERO], "0 false r1\n"),
        (&[is_one(1)], &[ONE], "0 true\n"),
        (&[is_one(1)], &[EITHER], "0 open r1\n"),
        (&[is_one(0)], &[(0, 0, 9)], "0 open r0\n"),
        (&[is_one(15)], &[(15, 2, TOP)], "0 false r15\n"),
        (&[Node { kind: 2, constant: 9, ..is_one(15) }], &[(15, 8, 9)], "0 open r15\n"),
        (&[Node { kind: 6, constant: 0, ..is_one(15) }], &[(15, 1, 1)], "0 false r0 r15\n"),
        (&[Node { kind: 6, constant: 9, ..is_one(10) }], &[(10, 0, 1)], "0 open r9 r10\n"),
        // a register with itself, and its negation, depend on none
        (&[Node { kind: 6, constant: 7, ..is_one(7) }], &[(7, 0, TOP)], "0 true\n"),
        (&[Node { kind: 6, constant: 7, ..is_one(7) }, FALSE, join(3, 0, 1)], &[(7, 0, TOP)], "0 false\n"),
        // false by both; open by those that are open
        (&implied, &[ONE, OTHER_ZERO], "0 false r1 r2\n"),
        (&implied, &[EITHER, OTHER_ZERO], "0 open r1\n"),
        (&implied, &[ONE, OTHER_EITHER], "0 open r2\n"),
        (&implied, &[EITHER, OTHER_EITHER], "0 open r1 r2\n"),
        (&implied, &[EITHER, OTHER_ONE], "0 true\n"),
        (&implied, &[ZERO, OTHER_EITHER], "0 true\n"),
        // each operand by itself: what may be either does not imply itself
        (&[is_one(1), join(3, 0, 0)], &[EITHER], "0 open r1\n"),
        // a negation, of which the first that is true is named: register 1 is not 1, or register 2 is
        (&[is_one(1), is_one(2), join(3, 0, 1), FALSE, join(3, 2, 3)], &[ZERO, OTHER_ONE], "0 false r1\n"),
        (&[is_one(1), is_one(2), join(3, 0, 1), FALSE, join(3, 2, 3)], &[EITHER, OTHER_ONE], "0 false r2\n"),
        // at index 0 a since has no last value, and a weak previous is true
        (&[is_one(1), is_one(2), join(4, 0, 1)], &[ONE, OTHER_ZERO], "0 false r2\n"),
        (&[is_one(1), is_one(2), join(4, 0, 1)], &[EITHER, OTHER_EITHER], "0 open r2\n"),
        (&[is_one(1), join(5, 0, 0)], &[EITHER], "0 true\n"),
    ] {
        assert_eq!(printed(nodes, &[index]), text, "{nodes:?} {index:?}");
    }
}

#[test]
fn files_with_several_indices() {
    let since = [is_one(1), is_one(2), join(4, 0, 1)];
    // an open last value: it goes on while left is true, both go on while left is open, and it ends where left is false
    let history: &[Index] = &[
        &[OTHER_EITHER],
        &[ONE],
        &[EITHER],
        &[ONE],
        &[ZERO],
        &[EITHER],
        &[ONE, OTHER_ONE],
        &[EITHER],
        &[ONE],
        &[ZERO, OTHER_EITHER],
        &[ONE],
    ];
    let text = "0 open r2\n1 open r2\n2 open r1 r2\n3 open r1 r2\n4 false r1 r2\n5 false r1 r2\n6 true\n7 open r1\n8 open r1\n\
                9 open r2\n10 open r2\n";
    assert_eq!(printed(&since, history), text);
    // left is never looked at where right is true
    assert_eq!(printed(&since, &[&[EITHER, OTHER_ONE], &[ONE], &[ZERO, OTHER_ONE]]), "0 true\n1 true\n2 true\n");
    let previous = [is_one(1), join(5, 0, 0)];
    assert_eq!(printed(&previous, &[&[ZERO], &[EITHER], &[ONE], &[ZERO]]), "0 true\n1 false r1\n2 open r1\n3 true\n");
    let twice = [is_one(1), join(5, 0, 0), join(5, 1, 0)];
    assert_eq!(printed(&twice, &[&[EITHER], &[ZERO], &[ONE], &[ONE]]), "0 true\n1 true\n2 open r1\n3 false r1\n");
    assert_eq!(printed(&previous, &[]), "");
}

const TOO_MANY: &str = "a file has at most 1000 indices here, and 64 bytes for each\n";

/// Files cut short at every byte, and longer ones.
#[test]
fn files_cut_short() {
    let (nodes, history): (_, &[Index]) = ([is_one(1), is_one(2), join(4, 0, 1)], &[&[ONE, OTHER_ONE], &[EITHER]]);
    let whole = file(&nodes, history);
    for length in 0..whole.len() {
        let text = if length < 16 { "refused 1 0\n" } else { TOO_MANY };
        assert_eq!(judge_file(&whole[..length]), text, "{length}");
    }
    for after in [&[][..], &[0], &[255; 64]] {
        assert_eq!(judge_file(&[&whole[..], after].concat()), "indices 2\n0 true\n1 open r1\n");
    }
}

#[test]
fn files_with_counts() {
    let with_counts = |nodes: u32, indices: u32, bytes: usize| {
        let words = [&[nodes][..], &vec![0x2200_0800; nodes as usize % 64], &[indices]].concat();
        judge_file(&[words.iter().flat_map(|word| word.to_be_bytes()).collect(), vec![0; bytes]].concat())
    };
    for nodes in [0, 33, 64, u32::MAX] {
        assert_eq!(with_counts(nodes, 1, 64), "refused 1 0\n", "{nodes}");
    }
    assert_eq!(with_counts(32, 1, 64), "refused 4 0\n");
    assert_eq!(with_counts(1, 0, 0), "indices 0\n");
    let lines: String = (0..1000).map(|n| format!("{n} false r1\n")).collect();
    assert_eq!(with_counts(1, 1000, 64_000), format!("indices 1000\n{lines}"));
    for (indices, bytes) in [(1000, 63_999), (1001, 64_064), (1001, 64_000), (u32::MAX, 64_000), (1 << 26, 64_000), (1, 63), (1, 0)] {
        assert_eq!(with_counts(1, indices, bytes), TOO_MANY, "{indices}");
    }
}

/// The rule's questions come first, then the count of indices and their bytes, then 15 and 23.
#[test]
fn files_refused() {
    let good: &[Index] = &[&[ONE], &[ZERO]];
    let (wrong_low, wrong_high, wrong_order): (&[Index], &[Index], &[Index]) =
        (&[&[(9, TOP, TOP + 1)], &[(3, 20_000, 5)]], &[&[(4, 2, 1)], &[(5, 0, TOP + 1)]], &[&[ONE], &[(15, 2, 1), (14, 9, 8)]]);
    assert_eq!(printed(&[is_one(1)], wrong_low), "refused 15 19\n");
    assert_eq!(printed(&[is_one(1)], wrong_high), "refused 15 21\n");
    assert_eq!(printed(&[is_one(1)], wrong_order), "refused 23 30\n");
    for (nodes, text) in [
        (&[is_one(1), Node { kind: 7, ..FALSE }][..], "refused 2 1\n"),
        (&[is_one(1), Node { kind: 6, constant: 16, ..FALSE }], "refused 2 1\n"),
        (&[is_one(1), join(3, 0, 1)], "refused 3 1\n"),
        (&[is_one(1), is_one(2), join(5, 0, 0)], "refused 4 1\n"),
    ] {
        for history in [good, wrong_low, wrong_high, wrong_order] {
            let whole = file(nodes, history);
            assert_eq!(judge_file(&whole), text);
            assert_eq!(judge_file(&whole[..4 + 4 * nodes.len()]), text);
        }
    }
    for history in [wrong_low, wrong_high, wrong_order] {
        let whole = file(&[is_one(1)], history);
        assert_eq!(judge_file(&whole[..whole.len() - 1]), TOO_MANY);
    }
}

/// The functions of the two forms, by their names.
#[test]
fn two_forms() {
    let nodes = [is_one(1), is_one(2), join(4, 0, 1)];
    let limits = limits_at(&[&[OTHER_EITHER], &[ONE, OTHER_ONE], &[ZERO]]);
    let (lows, highs): (Vec<State>, Vec<State>) = limits.iter().map(|at| (at.low, at.high)).unzip();
    let (mut out, mut out_64) = ([9; 4], [9; 4]);
    assert_eq!(judge_limits(&nodes.map(|node| node.encode_in()), &lows.concat(), &highs.concat(), &mut out), Ok(3));
    assert_eq!(form64::judge_limits(&nodes.map(|node| node.encode_in()), &lows.concat(), &highs.concat(), &mut out_64), Ok(3));
    assert_eq!((out, out_64), ([2, 1, 0, 9], [2, 1, 0, 9]));
}

/// One sentence of it made wrong: the promise notices, or the order of the refusals.
#[test]
fn planted_faults_are_noticed() {
    for fault in [Fault::SinceForgetsOpen, Fault::ExactIsOpen, Fault::SelfIsOpen, Fault::FirstPreviousOpen, Fault::ImpliesItself] {
        let g = &mut Rng(113);
        let differs = (0..1_000).position(|_| with_planted_fault(fault, || promised::<u32>(g, &mut Cases::new())).is_err());
        println!("{fault:?}: limits {}", differs.expect("it is noticed"));
    }
    for fault in [Fault::UnequalFirst, Fault::BytesLast, Fault::OrderFirst] {
        let differs = |&ways: &u32| with_planted_fault(fault, || first_is_answered::<u32>(ways)).is_err();
        println!("{fault:?}: refusals {:b}", (0..1 << REFUSALS.len()).find(differs).expect("it is noticed"));
    }
}

//! 2026-09: two annotations of the same instructions, both accepted by the proved checker, are put together, and the proved checker accepts
//! the union. A pair of which one is refused is no case.
//! GUARD_SEED and GUARD_PAIRS set the seed and the number of pairs in each form.
use compare::face::Face;
use compare::faced::Reference;
use compare::pairs::{decoded, found, pair, Pair, Source};
use compare::proved::{library, Form};
use reference::facts::{close, with_planted_fault, worked_out, Fault, A, B, F, T, W};
use reference::rule::Rule;
use reference::script::{encode_lines_in, instruction_words, Line};
use reference::unions::union_in;
use std::collections::{BTreeMap, BTreeSet};
use std::env;

const SEED: u64 = 20_261_117;
const PAIRS: u64 = 50_000;

fn number(name: &str, otherwise: u64) -> u64 {
    env::var(name).map_or(otherwise, |text| text.parse().unwrap_or_else(|_| panic!("{name} is a number")))
}

/// What the checker says of a script, the proved one and the reference: the question's number, or 0.
fn checked<X: Form>(rule: &[X], script: &[X]) -> Result<u32, String> {
    let (mut place, mut same_place) = ([7], [7]);
    let results = (library().script(rule, script, &mut place), Reference.script(rule, script, &mut same_place));
    if results.0 != results.1 || place != same_place {
        return Err(format!("the proved checker says {} {place:?}, the reference {} {same_place:?}", results.0, results.1));
    }
    Ok(results.0)
}

/// All lines of one have at most the facts of the other's.
fn within(one: &[Line], other: &[Line]) -> bool {
    one.iter().zip(other).all(|(a, b)| a.facts.among(&b.facts))
}

/// What is wrong with a union, as against one of the two.
const UNION: &str = "both are accepted, and the union is refused";

/// The pair put together, if both are accepted: what was met, or what is wrong.
fn put_together<X: Form>(pair: &Pair<X>) -> Result<BTreeSet<String>, String> {
    let Pair { rule, one, other, .. } = pair;
    match (checked(rule, one)?, checked(rule, other)?) {
        (0, 0) => {}
        (number @ (10 | 11), _) | (0, number @ (10 | 11)) => return Ok([format!("no case, {number} refuses one")].into()),
        numbers => return Err(format!("{numbers:?} for facts that were left out")),
    }
    let union = union_in(one, other);
    let [one, other, both] = [one, other, &union].map(|script| decoded(script));
    let lines: Vec<Line> = one.iter().zip(&other).map(|(a, b)| a.union(b)).collect();
    if encode_lines_in::<X>(&lines) != union {
        return Err(format!("the lines' union is stored otherwise than {union:x?}"));
    }
    match checked(rule, &union) {
        Ok(0) => {}
        answer => return Err(format!("{UNION}: {answer:?}")),
    }
    let largest = found(rule, &instruction_words(&both)).ok_or("no facts are found")?;
    if !within(&both, &decoded(&largest)) {
        return Err("the union has more facts than are found".into());
    }
    let mut met: BTreeSet<String> = pair_met(pair.source, &one, &other).into();
    let named = [rule_met(&pair.table, &one), lines_met(&pair.table, &one, &other), lines_met(&pair.table, &other, &one)].concat();
    met.extend(named.into_iter().map(String::from));
    met.extend(one.iter().zip(&other).filter(|(a, b)| apart(a, b)).map(|(l, _)| format!("opcode {} with facts of both", l.op)));
    Ok(met)
}

/// Neither line has all facts of the other.
fn apart(one: &Line, other: &Line) -> bool {
    !one.facts.among(&other.facts) && !other.facts.among(&one.facts)
}

/// Where the two come from, and which has more.
fn pair_met(source: Source, one: &[Line], other: &[Line]) -> [String; 2] {
    let from = match source {
        Source::Woven => "both woven",
        Source::WovenAndFound => "one woven, the other found",
        Source::Found => "both found for a guard made by hand",
        Source::Unled => "both found for lines that nothing leads to",
    };
    let relation = match (within(one, other), within(other, one)) {
        (true, true) => "the same facts",
        (false, false) => "neither within the other",
        _ => "one within the other",
    };
    [from.into(), format!("{from}, {relation}")]
}

fn chosen<const N: usize>(cases: [(&'static str, bool); N]) -> Vec<&'static str> {
    cases.into_iter().filter(|case| case.1).map(|case| case.0).collect()
}

fn rule_met(rule: &Rule, lines: &[Line]) -> Vec<&'static str> {
    chosen([
        ("a rule with shared nodes", !rule.shared_nodes().is_empty()),
        ("a rule of more than 32 nodes", rule.len() > 32),
        ("a branch to its next line", lines.iter().enumerate().any(|(i, l)| l.follows(i) == [i + 1; 2])),
    ])
}

/// What one notes and the other does not, and the other way round.
fn lines_met(rule: &Rule, one: &[Line], other: &[Line]) -> Vec<&'static str> {
    let alone = |i: usize, fact: usize, node: usize| one[i].facts.has(fact, node) && !other[i].facts.has(fact, node);
    let other_alone = |i: usize, fact: usize, node: usize| other[i].facts.has(fact, node) && !one[i].facts.has(fact, node);
    let each = |met: &dyn Fn(usize, usize) -> bool| (0..one.len()).any(|i| (0..rule.len()).any(|node| met(i, node)));
    // a work bit set to 0: W after it by the F that one has noted, where the other has noted T
    let set_by_false = |i: usize| {
        let (l, node) = (one[i], one[i].c as usize);
        (l.op, l.r) == (9, 0) && {
            let told = worked_out(rule, node);
            alone(i, F, told) && other_alone(i, T, told) && alone(i + 1, W, node)
        }
    };
    // what the two have together that neither has
    let gained = |(a, b): (&Line, &Line)| {
        let closed = close(rule, &a.facts).union(&close(rule, &b.facts));
        close(rule, &a.union(b).facts) != closed
    };
    chosen([
        ("W of a shared node from one of them", each(&|i, node| rule.is_shared(node) && alone(i, W, node))),
        ("T from the one, F from the other", each(&|i, node| alone(i, T, node) && other_alone(i, F, node))),
        ("A from the one, B from the other", each(&|i, node| alone(i, A, node) && other_alone(i, B, node))),
        ("T and F before a 9 to 0, W after it by the F", (0..one.len()).any(set_by_false)),
        ("a fact of a node above 31 from one of them", each(&|i, node| node > 31 && (0..7).any(|fact| alone(i, fact, node)))),
        ("closing gains by both what it gains by neither", one.iter().zip(other).any(gained)),
    ])
}

/// So many pairs of a form: the first that is not as it should be, or what was met.
fn put_all<X: Form>(seed: u64, count: u64) -> Result<BTreeMap<String, u64>, String> {
    let mut met = BTreeMap::new();
    for n in 0..count {
        let pair = pair::<X>(seed, n);
        let names = put_together(&pair).map_err(|e| format!("pair {n} of seed {seed}, words of {} bits: {e}\n{pair:x?}", X::BITS))?;
        for name in names {
            *met.entry(name).or_default() += 1;
        }
    }
    Ok(met)
}

/// How often each case has to be met.
const WANTED: [(&str, u64); 17] = [
    ("both woven", 3_000),
    ("both woven, neither within the other", 500),
    ("one woven, the other found", 3_000),
    ("one woven, the other found, neither within the other", 500),
    ("both found for a guard made by hand", 3_000),
    ("both found for a guard made by hand, neither within the other", 500),
    ("both found for lines that nothing leads to", 3_000),
    ("both found for lines that nothing leads to, neither within the other", 500),
    ("no case, 10 refuses one", 1_000),
    ("no case, 11 refuses one", 500),
    ("a branch to its next line", 1_000),
    ("a rule with shared nodes", 3_000),
    ("W of a shared node from one of them", 1_000),
    ("T from the one, F from the other", 1_000),
    ("A from the one, B from the other", 500),
    ("T and F before a 9 to 0, W after it by the F", 300),
    ("closing gains by both what it gains by neither", 100),
];

fn unions_are_accepted_in<X: Form>(others: &[(&str, u64)]) {
    let (seed, pairs) = (number("GUARD_SEED", SEED), number("GUARD_PAIRS", PAIRS));
    let met = put_all::<X>(seed, pairs).unwrap_or_else(|e| panic!("{e}"));
    println!("{pairs} pairs, words of {} bits: {met:#?}", X::BITS);
    if pairs < PAIRS {
        return;
    }
    let often = |name: &str, wanted: u64| met.get(name).is_some_and(|&n| n >= wanted);
    for (name, wanted) in WANTED.iter().chain(others) {
        assert!(often(name, *wanted), "{name}");
    }
    for op in 0..=14 {
        assert!(often(&format!("opcode {op} with facts of both"), 50), "opcode {op}");
    }
}

#[test]
fn unions_are_accepted() {
    unions_are_accepted_in::<u32>(&[]);
}

#[test]
fn unions_of_the_second_form_are_accepted() {
    unions_are_accepted_in::<u64>(&[("a rule of more than 32 nodes", 1_000), ("a fact of a node above 31 from one of them", 500)]);
}

/// The first pair at which a fault of the reference is noticed, by the union or by one of the two. It is made without the fault.
fn noticed<X: Form>(fault: Fault, by_union: bool) -> u64 {
    let differs = |&n: &u64| {
        let pair = pair::<X>(SEED, n);
        with_planted_fault(fault, || put_together(&pair)).is_err_and(|e| e.starts_with(UNION) == by_union)
    };
    (0..PAIRS).find(differs).unwrap_or_else(|| panic!("{fault:?} is not noticed"))
}

/// One rule of the reference made wrong: where a T hides an F, it accepts both and refuses their union.
#[test]
fn planted_faults_are_noticed_by_pairs() {
    for (fault, by_union) in [(Fault::TrueHidesFalse, true), (Fault::TrueHidesFalse, false), (Fault::ClosingRemoves, false)] {
        let by = if by_union { "union" } else { "one" };
        let pairs = [noticed::<u32>(fault, by_union), noticed::<u64>(fault, by_union)];
        println!("{fault:?}: {by} of pair {}, in the second form {}", pairs[0], pairs[1]);
    }
}

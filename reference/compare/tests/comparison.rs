//! The comparison: every function of `include/guard.h` and the reference agree on random requests.
//! GUARD_SEED and GUARD_REQUESTS set the seed and the number of requests in the first form; a request for steps makes several calls.
use compare::compare::{compare, put, ready_by_definition, started, Met};
use compare::face::{Face, KEPT, LINE, PRESENTATIONS, PRIORS, READY, REGISTERS, STATES_NUMBERS, STATE_NUMBERS, TESTED};
use compare::faced::Reference;
use compare::lent::Lent;
use compare::proved::{library, Form};
use compare::request::{Request, Stationed};
use compare::requests::{limits, moving, request, stations};
use reference::facts::{all_facts, bit, first_facts, pass, with_planted_fault, Facts, Fault, A, B, C, M, T, W};
use reference::judge::{first_priors, judge, next_priors, states, values_now};
use reference::largest::find_facts;
use reference::limits::{answers, limits_of, Answer, Limits};
use reference::rule::{check_rule, check_rule_in, Node, Rule};
use reference::script::{check_bare, check_instructions, check_script, check_script_in, Line};
use reference::stations::STATIONS;
use reference::weave::weave;
use reference::{No, TOP};
use std::cmp::Ordering;
use std::collections::{BTreeMap, BTreeSet};
use std::env;
use std::ops::RangeInclusive;

const SEED: u64 = 20_261_115;
const REQUESTS: u64 = 1_200_000;

fn number(name: &str, otherwise: u64) -> u64 {
    env::var(name).map_or(otherwise, |text| text.parse().unwrap_or_else(|_| panic!("{name} is a number")))
}

fn tell(met: &Met) {
    println!("{} calls", met.calls);
    for ((name, result), n) in &met.results {
        println!("{n:>10}  {name} {result}");
    }
    for ((name, stop), n) in &met.stops {
        println!("{n:>10}  {name}, stop {stop}");
    }
    for ((name, ready), n) in &met.ready {
        println!("{n:>10}  {name}, by the definition {}", if *ready { "ready" } else { "not ready" });
    }
    for ((name, answer), n) in &met.indices {
        println!("{n:>10}  {name}, an index {}", ["false", "true", "open"][*answer as usize]);
    }
    for (name, n) in &met.across {
        println!("{n:>10}  {name}, in both forms");
    }
}

/// The questions that each function puts, by the numbers that it can hand back besides 99.
const QUESTIONS: [(&[&str], RangeInclusive<u32>, &[u32]); 16] = [
    (&["guard_text", "guard_text64"], 0..=0, &[13, 16, 17, 18]),
    (&["guard_rule", "guard_rule64"], 0..=4, &[]),
    (&["guard_bare", "guard_bare64"], 0..=7, &[]),
    (&["guard_script", "guard_script64"], 0..=11, &[]),
    (&["guard_weave", "guard_weave64"], 0..=7, &[12, 13]),
    (&["guard_facts", "guard_facts64"], 0..=7, &[13, 19]),
    (&["guard_judge", "guard_judge64"], 0..=4, &[14, 15]),
    (&["guard_limits", "guard_limits64"], 0..=4, &[13, 14, 15, 22, 23]),
    (&["guard_run", "guard_run64"], 0..=11, &[15]),
    (&["guard_fresh", "guard_fresh64"], 0..=0, &[]),
    (&["guard_step", "guard_step64"], 0..=0, &[98]),
    (&["guard_stations", "guard_stations64"], 0..=11, &[15, 21]),
    (&["guard_rule_up"], 0..=4, &[13]),
    (&["guard_rule_back"], 0..=4, &[13, 20]),
    (&["guard_script_up"], 0..=8, &[13]),
    (&["guard_script_back"], 0..=8, &[13, 20]),
];

#[test]
fn proved_and_reference_agree() {
    let requests = number("GUARD_REQUESTS", REQUESTS);
    let seed = number("GUARD_SEED", SEED);
    let met = compare(seed, requests).unwrap_or_else(|e| panic!("seed {seed}, {e}"));
    tell(&met);
    if requests < REQUESTS {
        return;
    }
    let mut wanted = BTreeSet::new();
    for (functions, first, others) in QUESTIONS {
        for number in first.chain(others.iter().copied()).chain([99]) {
            wanted.extend(functions.iter().map(|name| (*name, number)));
        }
    }
    let handed_back: BTreeSet<(&str, u32)> = met.results.into_keys().collect();
    assert_eq!(handed_back, wanted, "each number that a function can hand back, and no other");
    let stops: Vec<(&str, u64)> = ["guard_run", "guard_run64"].into_iter().flat_map(|name| (0..=4).map(move |stop| (name, stop))).collect();
    assert_eq!(met.stops.into_keys().collect::<Vec<_>>(), stops);
    let with_states = ["guard_fresh", "guard_fresh64", "guard_stations", "guard_stations64", "guard_step", "guard_step64"];
    let defined = with_states.into_iter().flat_map(|name| [(name, false), (name, true)]);
    assert_eq!(met.ready.into_keys().collect::<Vec<_>>(), defined.collect::<Vec<_>>());
    // in both forms: the functions of the first, and the moves
    let asked: BTreeSet<&str> = QUESTIONS.iter().map(|(functions, ..)| functions[0]).collect();
    assert_eq!(met.across.into_keys().collect::<BTreeSet<_>>(), asked);
}

/// The first request at which a fault of the reference is noticed. It is made without the fault, so that it is one of the comparison.
fn noticed<W: Form>(fault: Fault, make: fn(u64, u64) -> Request<W>) -> u64 {
    let differs = |&n: &u64| {
        let asked = make(SEED, n);
        with_planted_fault(fault, || put(&asked, &mut Met::default())).is_err()
    };
    // as many as there are for stations in the second form, the fewest of all kinds of requests
    (0..REQUESTS / 120).find(differs).unwrap_or_else(|| panic!("{fault:?} is not noticed"))
}

/// One rule of the reference made wrong: the comparison notices, in either form.
#[test]
fn planted_faults_are_noticed() {
    for fault in [
        Fault::WorkKept,
        Fault::AnyOrder,
        Fault::RaisedRound,
        Fault::LoweredRound,
        Fault::SinceByLeft,
        Fault::SinceWantsLeft,
        Fault::SinceToTheRight,
        Fault::OrWithoutNot,
        Fault::RangeFirst,
        Fault::WordsTouch,
        Fault::UnledEmpty,
        Fault::StartsWithoutC,
        Fault::OutputFirst,
        Fault::CountsNoC,
        Fault::ExactlyOnce,
        Fault::OnceIsShared,
        Fault::TenNamesShared,
        Fault::SharedKept,
        Fault::PastFirst,
        Fault::DecidedAnew,
        Fault::LaterMentionsFree,
        Fault::ZerosPass,
        Fault::PriorsAreKept,
        Fault::ReadyBeforeInput,
        Fault::PriorsMovedAtFull,
        Fault::TrueHidesFalse,
        Fault::ClosingRemoves,
    ] {
        println!("{fault:?}: request {}, in the second form {}", noticed(fault, request::<u32>), noticed(fault, request::<u64>));
    }
    for fault in [Fault::BelowPasses, Fault::FiveBits, Fault::HalfOfFacts, Fault::TextOfHalf] {
        println!("{fault:?}: in the second form request {}", noticed(fault, request::<u64>));
    }
    for fault in [Fault::ZerosPass, Fault::OutputFirst, Fault::MovesUnfit, Fault::MovesAcceptedAlone] {
        println!("{fault:?}: move {} up", noticed(fault, moving::<u32>));
    }
    for fault in [Fault::FiveBits, Fault::HalfOfFacts, Fault::OutputFirst, Fault::MovesAcceptedAlone, Fault::TwentyFirst] {
        println!("{fault:?}: move {} back", noticed(fault, moving::<u64>));
    }
    for fault in [
        Fault::PassTakes,
        Fault::PassIsNoTurn,
        Fault::LastHasNoTurn,
        Fault::InputsFirst,
        Fault::PlaceIsTheLine,
        Fault::ThreePassesEnd,
        Fault::PassesAddUp,
    ] {
        println!("{fault:?}: stations {}, in the second form {}", noticed(fault, stations::<u32>), noticed(fault, stations::<u64>));
    }
    for fault in [
        Fault::SinceForgetsOpen,
        Fault::ExactIsOpen,
        Fault::SelfIsOpen,
        Fault::FirstPreviousOpen,
        Fault::ImpliesItself,
        Fault::UnequalFirst,
        Fault::BytesLast,
        Fault::OrderFirst,
    ] {
        println!("{fault:?}: limits {}, in the second form {}", noticed(fault, limits::<u32>), noticed(fault, limits::<u64>));
    }
    compare(SEED, 2_000).expect("without them there is no difference");
}

/// The requests compare two registers often: as they should, with a number above 15, and with facts that are not told.
#[test]
fn two_registers_are_compared() {
    let mut met: BTreeMap<&str, u32> = BTreeMap::new();
    for n in 0..60_000 {
        let (rule, script, annotated) = match request::<u32>(SEED, n) {
            Request::Rule { rule, .. } | Request::Judge { rule, .. } => (rule, None, false),
            Request::Bare { rule, script, .. } | Request::Weave { rule, bare: script, .. } => (rule, Some(script), false),
            Request::Script { rule, script, .. } | Request::Run { rule, script, .. } => (rule, Some(script), true),
            _ => continue,
        };
        let stride = if annotated { 8 } else { 1 };
        let compares = |w: u32| w >> 28 == 13;
        let names = match check_rule(&rule) {
            Ok(_) if rule.iter().any(|w| w >> 29 == 6) => Some("a rule that passes"),
            Err(no) if no.number == 2 && rule[no.place] >> 29 == 6 && rule[no.place] >> 11 & 0x3fff > 15 => {
                Some("a node's number above 15")
            }
            _ => None,
        };
        let told = script.and_then(|script| {
            let answer = if annotated { check_script(&rule, &script).err() } else { check_bare(&rule, &script).err() };
            match answer {
                None if script.iter().step_by(stride).any(|&w| compares(w)) => Some("a script that passes"),
                Some(no) if matches!(no.number, 6 | 11) => {
                    let word = script[stride * no.place];
                    match no.number {
                        6 if compares(word) && word >> 10 & 0x3fff > 15 => Some("a line's number above 15"),
                        11 if compares(word) => Some("facts that such a line does not tell"),
                        _ => None,
                    }
                }
                _ => None,
            }
        });
        for name in names.into_iter().chain(told) {
            *met.entry(name).or_default() += 1;
        }
    }
    println!("{met:?}");
    assert!(met.len() == 5 && met.values().all(|&n| n >= 100), "{met:?}");
}

/// What a 3 or a 14 meets: an end of its register, or a register that no run has.
fn end_met(before: u64, word: u32) -> Option<&'static str> {
    let c = (word >> 10 & 0x3fff) as u64;
    match word >> 28 {
        3 if before > 16_383 => Some("3 on a register that no run has"),
        3 if before + c == 16_383 => Some("3 to the end exactly"),
        3 if before + c == 16_384 => Some("3 to one above the end"),
        3 if before + c > 16_384 => Some("3 to far above the end"),
        14 if before > 16_383 => Some("14 on a register that no run has"),
        14 if before == c => Some("14 to the end exactly"),
        14 if before + 1 == c => Some("14 to one below the end"),
        14 if before < c => Some("14 to far below the end"),
        _ => None,
    }
}

/// What so many steps meet.
fn ends_met(rule: &[u32], script: &[u32], inputs: &[u16], mut history: Lent<u16>, mut state: Lent<u64>, count: usize) -> Vec<&'static str> {
    let mut met = vec![];
    for _ in 0..count {
        let before = state.clone();
        Reference.step(rule, script, inputs, &mut history, &mut state);
        if state == before {
            break;
        }
        let word = script[8 * before[0] as usize];
        met.extend(end_met(before[5 + (word >> 24 & 15) as usize], word));
    }
    met
}

/// The runs and steps asked for meet both ends of a register in every way; the scripts have 14s that pass and that are refused.
#[test]
fn registers_meet_their_ends() {
    let mut met: BTreeMap<&str, u32> = BTreeMap::new();
    for n in 0..200_000 {
        let names = match request::<u32>(SEED, n) {
            Request::Bare { rule, script, .. } => match check_bare(&rule, &script) {
                Ok(_) if script.iter().any(|w| w >> 28 == 14) => vec!["a bare script with a 14"],
                Err(no) if no.number == 6 && script[no.place] >> 28 == 14 => vec!["a bare script's 14 refused"],
                Err(no) if no.number == 6 && script[no.place] >> 28 == 15 => vec!["a bare script's 15 refused"],
                _ => vec![],
            },
            Request::Run { rule, script, inputs, history, .. } if check_script(&rule, &script).is_ok() => {
                let mut start: Lent<u64> = vec![0; STATE_NUMBERS].into();
                Reference.fresh(&rule, &mut start);
                ends_met(&rule, &script, &inputs, history, start, 100)
            }
            Request::Steps { rule, script, inputs, history, state, count } => ends_met(&rule, &script, &inputs, history, state, count),
            _ => vec![],
        };
        for name in names {
            *met.entry(name).or_default() += 1;
        }
    }
    println!("{met:?}");
    assert!(met.len() == 11 && met.values().all(|&n| n >= 50), "{met:?}");
}

/// The histories judged meet a since step in each of its eight cases, counted by left, right and prior as the bits of a number.
#[test]
fn since_steps_meet_their_cases() {
    let mut met = [0; 8];
    for n in 0..60_000 {
        let Request::Judge { rule, history, .. } = request::<u32>(SEED, n) else { continue };
        let Ok(verdict) = judge(&rule, &history, 0) else { continue };
        let rule = check_rule(&rule).expect("its history was judged");
        let mut prior = first_priors(&rule);
        for state in states(&history).iter().take(verdict.index + 1) {
            let v = values_now(&rule, &prior, state);
            for (i, d) in rule.nodes.iter().enumerate().filter(|(_, d)| d.kind == 4) {
                let (left, right) = (v[d.left as usize], v[d.right as usize]);
                met[left as usize * 4 + right as usize * 2 + prior[i] as usize] += 1;
            }
            prior = next_priors(&rule, &v);
        }
    }
    println!("{met:?}");
    assert!(met.iter().all(|&n| n >= 1_000), "{met:?}");
}

/// One line leads to another, to its target or to its next line.
type Way = (usize, usize);

fn ways(lines: &[Line]) -> BTreeSet<Way> {
    lines.iter().enumerate().flat_map(|(i, l)| l.follows(i).into_iter().map(move |to| (i, to))).collect()
}

/// The lines that are reached from line 0 over lines that `goes_on` lets pass.
fn reached(lines: &[Line], goes_on: fn(&Line) -> bool) -> BTreeSet<usize> {
    let mut seen = BTreeSet::from([0]);
    let mut open = vec![0];
    while let Some(i) = open.pop() {
        if goes_on(&lines[i]) {
            open.extend(lines[i].follows(i).into_iter().filter(|&to| seen.insert(to)));
        }
    }
    seen
}

/// The presents that the largest facts fail, were it not for one of the ways: sweeps until nothing changes.
fn failing_without(rule: &Rule, lines: &[Line], left_out: Option<Way>) -> Vec<usize> {
    let mut lines = lines.to_vec();
    lines.iter_mut().for_each(|l| l.facts = all_facts(rule));
    lines[0].facts = first_facts(rule);
    loop {
        let before = lines.clone();
        for (i, l) in before.iter().enumerate() {
            let passed = pass(rule, l);
            let led: [(usize, Option<Facts>); 2] = [(l.target as usize, passed.target), (i + 1, passed.next)];
            for (to, facts) in led.into_iter().filter(|(to, _)| Some((i, *to)) != left_out) {
                if let Some(facts) = facts {
                    lines[to].facts = lines[to].facts.meet(&facts);
                }
            }
        }
        if lines == before {
            return (0..lines.len()).filter(|&i| lines[i].op == 8 && !lines[i].facts.has(T, rule.last())).collect();
        }
    }
}

/// What instructions meet that have largest facts.
fn found_met(lines: &[Line]) -> Vec<&'static str> {
    let (ways, reached) = (ways(lines), reached(lines, |_| true));
    let led: BTreeSet<usize> = ways.iter().map(|way| way.1).collect();
    let mut met = vec![];
    if (1..lines.len()).any(|i| !led.contains(&i)) {
        met.push("facts where nothing leads");
    }
    if led.iter().any(|i| !reached.contains(i)) {
        met.push("facts where only lines lead that nothing reaches");
    }
    if (0..lines.len()).any(|i| lines[i].op == 8 && reached.contains(&i)) {
        met.push("a present");
    }
    if (0..lines.len()).any(|i| lines[i].op == 8 && !reached.contains(&i)) {
        met.push("a present that nothing reaches");
    }
    if (0..lines.len()).any(|i| lines[i].op == 7 && lines[i].target as usize <= i && reached.contains(&i)) {
        met.push("a go backwards");
    }
    if lines.len() >= 1000 {
        met.push("a thousand lines");
    }
    met
}

/// How instructions fail at the lowest present without T.
fn lost_met(rule: &Rule, lines: &[Line], place: usize) -> Vec<&'static str> {
    if lines.len() >= 1000 {
        return vec!["19 in a thousand lines"];
    }
    let mut met = BTreeSet::new();
    let failing = failing_without(rule, lines, None);
    assert_eq!(failing[0], place);
    if failing.len() > 1 {
        met.insert("19 and a higher present fails too");
    }
    if lines[..place].iter().any(|l| l.op == 8) {
        met.insert("19 and a lower present passes");
    }
    if !reached(lines, |_| true).contains(&place) {
        met.insert("19 where nothing reaches");
    } else if reached(lines, |l| !matches!(l.op, 5 | 6 | 10 | 11 | 13)).contains(&place) {
        met.insert("19 before any test");
    }
    // the present would pass if one of several ways to some line were not there; to line 0 the start is another
    let ways = ways(lines);
    let several = |way: &&Way| way.1 == 0 || ways.iter().any(|other| other.1 == way.1 && other.0 != way.0);
    for &(i, to) in ways.iter().filter(several).filter(|_| lines.len() <= 40) {
        if !failing_without(rule, lines, Some((i, to))).contains(&place) {
            met.insert(if i < to { "19 for a way forwards to a line" } else { "19 for a way back to a line" });
        }
    }
    met.into_iter().collect()
}

/// The instructions without facts meet each way to succeed and to fail.
#[test]
fn facts_meet_their_cases() {
    let mut met: BTreeMap<&str, u32> = BTreeMap::new();
    for n in 0..60_000 {
        let Request::Facts { rule, instructions, out, .. } = request::<u32>(SEED, n) else { continue };
        let Ok((table, lines)) = check_instructions(&rule, &instructions) else { continue };
        let needed = 8 * lines.len();
        let lost = find_facts(&rule, &instructions, &mut vec![0; needed]).err();
        let mut names = lost.map_or_else(|| found_met(&lines), |no| lost_met(&table, &lines, no.place));
        names.extend(match (lost, out.len().cmp(&needed)) {
            (None, Ordering::Less) if out.len() + 1 == needed => Some("13 for one word"),
            (None, Ordering::Less) => Some("13 for several words"),
            (Some(_), Ordering::Less) => Some("19 where 13 is due too"),
            (None, Ordering::Greater) => Some("words after the lines"),
            _ => None,
        });
        for name in names {
            *met.entry(name).or_default() += 1;
        }
    }
    println!("{met:#?}");
    assert!(met.len() == 17 && met.values().all(|&n| n >= 10), "{met:?}");
}

/// What a table meets that passes.
fn table_met(rule: &Rule) -> Vec<&'static str> {
    let (shared, past) = (rule.shared_nodes(), rule.past_nodes());
    let uses: Vec<usize> = (0..rule.len()).map(|i| rule.uses(i)).collect();
    let of_kind = |kinds: &[u8]| shared.iter().any(|&i| kinds.contains(&rule.nodes[i].kind));
    let twice_by_one = |&i: &usize| rule.nodes.iter().any(|d| d.operands().filter(|&o| o == i).count() == 2);
    let followed = |first: &[usize], second: &[usize]| first.iter().any(|i| second.iter().any(|j| i < j));
    let cases = [
        ("no node used twice", uses.iter().all(|&n| n < 2)),
        ("a shared test of a number", of_kind(&[1, 2])),
        ("a shared test of two registers", of_kind(&[6])),
        ("a shared implies", of_kind(&[3])),
        ("a shared false", of_kind(&[0])),
        ("a node used three times or more", shared.iter().any(|&i| uses[i] > 2)),
        ("a node that is both operands of one", shared.iter().any(twice_by_one)),
        ("a since used twice or more", past.iter().any(|&i| rule.nodes[i].kind == 4 && uses[i] > 1)),
        ("a weak previous used twice or more", past.iter().any(|&i| rule.nodes[i].kind == 5 && uses[i] > 1)),
        ("a past node used twice and none shared", shared.is_empty() && past.iter().any(|&i| uses[i] > 1)),
        ("a past node as the last one, shared ones below", rule.is_past(rule.last()) && !shared.is_empty()),
        ("shared nodes before and after past ones", followed(&shared, &past) && followed(&past, &shared)),
        ("32 nodes, shared ones among them", rule.len() == 32 && !shared.is_empty()),
    ];
    cases.into_iter().filter(|case| case.1).map(|case| case.0).collect()
}

/// What the refusal of lines meets that have to do with a shared node's bits.
fn refused_met(rule: &Rule, lines: &[Line], refusal: No) -> Option<&'static str> {
    let l = lines[refusal.place];
    let (shared, past) = (rule.is_shared(l.c as usize), rule.is_past(l.c as usize));
    // facts of shared nodes alone
    let only = |fact: usize, facts: Facts| {
        let nodes: u64 = rule.shared_nodes().into_iter().map(bit).sum();
        facts.set[fact] != 0 && facts.set[fact] & !nodes == 0 && (0..7).all(|k| k == fact || facts.set[k] == 0)
    };
    let beyond = |noted: Facts, allowed: Facts| Facts { set: std::array::from_fn(|k| noted.set[k] & !allowed.set[k]) };
    match refusal.number {
        6 => match l.op {
            10 if shared => Some("6 for a 10 on a shared node"),
            12 if shared => Some("6 for a 12 on a shared node"),
            9 | 11 if l.c < rule.len() as u16 && !shared && !past => Some("6 for a 9 or 11 on a node that is neither"),
            _ => None,
        },
        8 => {
            let stray = beyond(l.facts, all_facts(rule));
            match (0..7).find(|&fact| only(fact, stray)) {
                Some(A) => Some("8 for A of a shared node"),
                Some(B) => Some("8 for B of a shared node"),
                Some(M) => Some("8 for M of a shared node"),
                Some(C) => Some("8 for C of a shared node"),
                _ if (0..7).all(|k| k == W || stray.set[k] == 0) => Some("8 for W of a node that has no work bit"),
                _ => None,
            }
        }
        11 => {
            let passed = pass(rule, &l).next?;
            let missing = beyond(lines[refusal.place + 1].facts, passed);
            match l.op {
                1..=4 | 14 if only(W, missing) => Some("11 for W of a shared node kept over a register write"),
                8 if only(W, missing) => Some("11 for W of a shared node kept over a present"),
                9 if shared && missing.has(W, l.c as usize) => Some("11 for a shared node's bit set wrongly"),
                11 if shared => Some("11 for what a shared node's bit does not tell"),
                _ => None,
            }
        }
        _ => None,
    }
}

/// What lines meet that are accepted, or that largest facts are found for.
fn accepted_met(rule: &Rule, lines: &[Line]) -> Vec<&'static str> {
    let named = |op: u8| lines.iter().any(|l| l.op == op && rule.is_shared(l.c as usize));
    let known = |op: u8| lines.iter().any(|l| l.op == op && rule.shared_nodes().iter().any(|&i| l.facts.has(W, i)));
    let cases = [
        ("a 9 on a shared node passes", named(9)),
        ("an 11 on a shared node passes", named(11)),
        ("W of a shared node at a present", known(8)),
        ("W of a shared node at an input", known(4)),
    ];
    cases.into_iter().filter(|case| case.1).map(|case| case.0).collect()
}

/// The steps that have to do with the bits of nodes that are no past nodes.
fn steps_met(
    rule: &[u32],
    script: &[u32],
    inputs: &[u16],
    mut history: Lent<u16>,
    mut state: Lent<u64>,
    count: usize,
) -> Vec<&'static str> {
    let mut met = vec![];
    let passes = check_rule(rule).is_ok();
    for _ in 0..count {
        let before = state.clone();
        Reference.step(rule, script, inputs, &mut history, &mut state);
        let Some(&word) = before.first().and_then(|&at| script.get(8 * at.min(2_000) as usize)) else { break };
        let l = Line::decode(word);
        let is_past = rule.get(l.c as usize).is_some_and(|w| matches!(w >> 29, 4 | 5));
        if matches!(l.op, 9 | 11) && !is_past && l.c < 32 {
            met.push(match (state != before, passes) {
                (true, true) => "a step that sets or asks a shared node's bit",
                (true, false) if l.c as usize >= rule.len() => "a step that names a number mentioned twice, of no node",
                (true, false) => "a step that names a node mentioned twice, of a table that fails",
                (false, _) if rule.len() > 32 => "no step for what is named in a table too long",
                (false, _) => "no step for what is named",
            });
        }
        if state == before {
            break;
        }
    }
    met
}

/// What a request meets that uses or misuses a shared node's bits.
fn sharing_met(asked: Request<u32>) -> Vec<&'static str> {
    let shares = |table: &Rule| !table.shared_nodes().is_empty();
    match asked {
        Request::Script { rule, script, .. } | Request::Run { rule, script, .. } => {
            let Some(table) = check_rule(&rule).ok().filter(shares) else { return vec![] };
            match check_script(&rule, &script) {
                Ok((_, lines)) => accepted_met(&table, &lines),
                Err(no) => {
                    let lines: Vec<Line> = script.chunks_exact(8).map(Line::decode_annotated).collect();
                    lines.get(no.place).and_then(|_| refused_met(&table, &lines, no)).into_iter().collect()
                }
            }
        }
        Request::Facts { rule, instructions, .. } => {
            let Some(table) = check_rule(&rule).ok().filter(shares) else { return vec![] };
            let mut out = vec![0; 8 * instructions.len()];
            let found = find_facts(&rule, &instructions, &mut out);
            let lines: Vec<Line> = instructions.iter().map(|&w| Line::decode(w)).collect();
            let named = |l: &Line, ops: [u8; 2]| ops.contains(&l.op) && table.is_shared(l.c as usize);
            let work = lines.iter().any(|l| named(l, [9, 11]));
            match found {
                Ok(_) if work => vec!["facts found with a shared node's bit"],
                Err(No { number: 19, .. }) if work => vec!["19 with a shared node's bit"],
                Err(No { number: 6, place }) if named(&lines[place], [10, 12]) => vec!["6 for a shared node's kept bit, facts to be found"],
                _ => vec![],
            }
        }
        Request::Weave { rule, bare, mut out, .. } => {
            if !check_rule(&rule).is_ok_and(|table| shares(&table)) {
                return vec![];
            }
            match weave(&rule, &bare, &mut out) {
                Ok(_) => vec!["woven with shared nodes"],
                Err(No { number: 12, .. }) => vec!["12 with shared nodes"],
                Err(No { number: 13, .. }) => vec!["13 with shared nodes"],
                Err(_) => vec![],
            }
        }
        Request::Steps { rule, script, inputs, history, state, count } => steps_met(&rule, &script, &inputs, history, state, count),
        _ => vec![],
    }
}

/// The requests have shared nodes in every way, used as they may be and misused.
#[test]
fn shared_nodes_meet_their_cases() {
    let mut met: BTreeMap<&str, u32> = BTreeMap::new();
    for n in 0..120_000 {
        let asked = request::<u32>(SEED, n);
        let mut names = match &asked {
            Request::Rule { rule, .. } | Request::Script { rule, .. } | Request::Weave { rule, .. } | Request::Judge { rule, .. } => {
                match check_rule(rule) {
                    Ok(rule) => table_met(&rule),
                    Err(No { number: 4, .. }) => vec!["4 for a node that is no operand"],
                    Err(_) => vec![],
                }
            }
            _ => vec![],
        };
        names.extend(sharing_met(asked));
        for name in names {
            *met.entry(name).or_default() += 1;
        }
    }
    println!("{met:#?}");
    assert!(met.len() == 41 && met.values().all(|&n| n >= 10), "{} {met:?}", met.len());
}

/// The opcodes that write a register, and what they meet: one that the state says a test reads, and another.
const WRITES: [(u8, [&str; 2]); 5] = [
    (1, ["1 to a tested register", "1 to another"]),
    (2, ["2 to a tested register", "2 to another"]),
    (3, ["3 to a tested register", "3 to another"]),
    (4, ["4 to a tested register", "4 to another"]),
    (14, ["14 to a tested register", "14 to another"]),
];

/// What a table is like for which ready is worked out, and which need not pass any question.
fn table_worked_out<W: Form>(rule: &[W]) -> Vec<&'static str> {
    let nodes: Vec<Node> = rule.iter().map(|&word| Node::decode_in(word)).collect();
    let numbered = || nodes.iter().enumerate().take(W::MOST_NODES);
    let cases = [
        ("worked out for more than 32 nodes", W::MOST_NODES > 32 && (33..=W::MOST_NODES).contains(&nodes.len())),
        ("worked out for more nodes than are looked at", nodes.len() > W::MOST_NODES),
        ("worked out for no nodes", nodes.is_empty()),
        ("worked out for an operand that is not lower", numbered().any(|(k, d)| d.operands().any(|o| o >= k))),
        ("worked out for a register above 15", numbered().any(|(_, d)| d.kind == 6 && d.constant > 15)),
        ("worked out for a kind that is none", numbered().any(|(_, d)| d.kind == 7)),
    ];
    cases.into_iter().filter(|case| case.1).map(|case| case.0).collect()
}

/// What a call for a step meets that was not made, or that stayed where it was.
fn stay_met(line: Option<Line>, before: &[u64], result: u32) -> Option<&'static str> {
    let large = (before[REGISTERS..READY].iter().any(|&x| x > 65_535), before[READY] > 1);
    match (result, large, line?.op) {
        (98, (true, false), _) => Some("98 for a register"),
        (98, (false, true), _) => Some("98 for ready"),
        (98, (true, true), _) => Some("98 for a register and for ready"),
        (_, _, 8) if before[READY] == 1 => Some("a full present, ready"),
        (_, _, 8) => Some("a full present, not ready"),
        (_, _, 4) => Some("an input when none is left"),
        _ => None,
    }
}

/// What a step meets that was made.
fn move_met<W: Form>(rule: &[W], l: Line, before: &[u64], after: &[u64]) -> Vec<&'static str> {
    let tested = before[TESTED] & bit(l.r as usize) != 0;
    let mut met = vec![];
    match l.op {
        8 => met.push(if before[READY] == 1 { "a presentation, ready" } else { "a presentation, not ready" }),
        1..=4 | 14 => met.extend(WRITES.iter().filter(|(op, _)| *op == l.op).map(|(_, names)| names[!tested as usize])),
        op if before[READY..STATE_NUMBERS] == after[READY..STATE_NUMBERS] => met.extend((op == 12).then_some("a kept bit set")),
        _ => unreachable!("no other step changes it"),
    }
    if l.op == 8 || matches!(l.op, 1..=4 | 14) && tested {
        met.extend(table_worked_out(rule));
    }
    met.extend(match (before[READY], after[READY]) {
        (0, 1) => Some("it becomes ready"),
        (1, 0) => Some("it is ready no longer"),
        _ => None,
    });
    met
}

/// What the steps of a request meet of a state's readiness.
fn readiness_met<W: Form>(mut asked: Request<W>) -> Vec<&'static str> {
    let rule_passes = started(&asked);
    let past: u64 = rule_passes.iter().flat_map(Rule::past_nodes).map(bit).sum();
    let mut met = vec![];
    for _ in 0..asked.calls() {
        let before = asked.clone();
        let result = asked.put(&Reference);
        let (Request::Steps { state, .. }, Request::Steps { rule, script, state: after, .. }) = (&before, &asked) else { break };
        if result == 99 {
            break;
        }
        let at = 8 * state[LINE].min(2_000) as usize;
        let line = script.get(at..at + 8).map(Line::decode_annotated_in);
        if before == asked {
            met.extend(stay_met(line, state, result));
            break;
        }
        met.extend(move_met(rule, line.expect("a step was made"), state, after));
        if let Some(table) = &rule_passes {
            let ready = ready_by_definition(table, &asked);
            let spoiled = (after[KEPT] ^ after[PRIORS]) & past != 0;
            met.push(match (spoiled, ready) {
                (false, false) => "from a fresh start, not ready",
                (false, true) => "from a fresh start, ready",
                (true, false) => "from a fresh start, kept bits that are not the priors, not ready",
                (true, true) => "from a fresh start, kept bits that are not the priors, ready",
            });
        }
    }
    met
}

/// The requests for steps meet each way in which whether a machine is ready changes or stays, from fresh starts and from any state.
fn readiness_meets_its_cases_in<W: Form>(requests: u64, cases: usize) {
    let mut met: BTreeMap<&str, u32> = BTreeMap::new();
    for asked in (0..requests).map(|n| request::<W>(SEED, n)).filter(|asked| matches!(asked, Request::Steps { .. })) {
        for name in readiness_met(asked) {
            *met.entry(name).or_default() += 1;
        }
    }
    println!("{met:#?}");
    assert!(met.len() == cases && met.values().all(|&n| n >= 10), "{} {met:?}", met.len());
}

#[test]
fn readiness_meets_its_cases() {
    readiness_meets_its_cases_in::<u32>(60_000, 30);
    readiness_meets_its_cases_in::<u64>(60_000, 31);
}

type Cases = BTreeMap<String, u32>;

fn count(met: &mut Cases, name: &str, holds: bool) {
    if holds {
        *met.entry(name.into()).or_default() += 1;
    }
}

/// What refused stations meet: of each the number that its rule and script give, if they fail, and whether an input is too large.
fn refusal_met<W: Form>(met: &mut Cases, stations: &[Stationed<W>; STATIONS], number: u32, place: usize) {
    let of_scripts = stations.each_ref().map(|lent| check_script_in(&lent.rule, &lent.script).err());
    let of_inputs = stations.each_ref().map(|lent| lent.inputs.iter().position(|&x| x > TOP));
    count(met, &format!("{number} of station {place}"), true);
    let after = || of_scripts[place + 1..].iter().flatten();
    if number < 15 {
        let within = of_scripts[place].expect("it fails").place;
        count(met, "a number above that of a later station", after().any(|no| no.number < number));
        count(met, "a number below that of a later station", after().any(|no| no.number > number));
        count(met, "a script's number, and 15 of the same station", of_inputs[place].is_some());
        count(met, "a script's number, and 15 of a lower station", of_inputs[..place].iter().any(Option::is_some));
        count(met, "a line or node that is not the station's number", within != place);
    } else {
        count(met, "15, and 15 of a later station", of_inputs[place + 1..].iter().any(Option::is_some));
        count(met, "an input whose position is not the station's number", of_inputs[place] != Some(place));
    }
}

/// What the turns of four stations meet that were run, and how they end. The turns are made here one by one, by steps of the reference.
fn turns_met<W: Form>(met: &mut Cases, budget: u64, allowance: u64, stations: &mut [Stationed<W>; STATIONS]) -> (u64, u64) {
    let mut states = stations.each_ref().map(|lent| {
        let mut state = [0; STATE_NUMBERS];
        Reference.fresh(&lent.rule, &mut state);
        state
    });
    let (mut turn, mut left, mut passes, mut waited) = (0, allowance, 0, None);
    while turn < budget && passes < 4 {
        let k = (turn % 4) as usize;
        let (Stationed { rule, script, inputs, history }, state) = (&mut stations[k], &mut states[k]);
        let (before, at) = (*state, state[LINE] as usize);
        let line = Line::decode_annotated_in(&script[8 * at..]);
        let presents = line.op == 8;
        let has_room = 16 * (state[PRESENTATIONS] as usize + 1) <= history.len();
        let waits = presents && left == 0;
        if !waits {
            Reference.step(rule, script, inputs, history, state);
        }
        // a line that leads to itself may change nothing, and is a step all the same
        let passed = *state == before && !line.follows(at).contains(&at);
        count(met, "a present waits", waits && has_room);
        count(met, "a present finds the history full, and nothing is left", waits && !has_room);
        count(met, "a present finds the history full, and some is left", presents && !waits && passed);
        count(met, "an input when none is left", line.op == 4 && passed);
        count(met, "a halt", line.op == 0);
        count(met, "a step after three passes", !passed && passes == 3);
        count(met, "a step after one or two passes", !passed && (1..3).contains(&passes));
        count(met, "a step of another after one has waited", !passed && waited.is_some_and(|other| other != k));
        count(met, "a presentation takes the last", !passed && presents && left == 1);
        left -= (!passed && presents) as u64;
        passes = if passed { passes + 1 } else { 0 };
        waited = if waits && has_room { Some(k) } else { waited };
        turn += 1;
    }
    let made = states.map(|state| state[PRESENTATIONS]);
    count(met, "no budget", budget == 0);
    count(met, "no allowance", allowance == 0 && turn > 0);
    count(met, "some left where four passes end it", passes == 4 && left > 0 && left < allowance);
    count(met, "an allowance used up exactly", left == 0 && allowance > 0 && waited.is_none());
    count(met, "waiting to the end", left == 0 && waited.is_some() && passes == 4);
    count(met, "each of the four presents", made.iter().all(|&n| n > 0));
    count(met, "no step at all", turn == 4 && passes == 4);
    count(met, "ended by the budget", passes < 4);
    count(met, "ended by both", passes == 4 && turn == budget);
    count(met, "ended by four passes, with a budget of 64 bits", passes == 4 && budget > u32::MAX.into());
    if passes == 4 {
        count(met, &format!("four passes that begin with station {}", turn % 4), true);
    }
    count(met, "a station of more than 32 nodes presents", (0..4).any(|k| stations[k].rule.len() > 32 && made[k] > 0));
    (turn, left)
}

/// What a request for stations meets.
fn stations_met<W: Form>(met: &mut Cases, asked: Request<W>) {
    let mut called = asked.clone();
    let result = called.put(&Reference);
    let (Request::Stations { states, budget, allowance, mut stations, .. }, Request::Stations { numbers, .. }) = (asked, called) else {
        unreachable!("it is for stations")
    };
    let fails = || stations.iter().any(|lent| check_script_in(&lent.rule, &lent.script).is_err());
    match result {
        99 => {
            count(met, &format!("99 for {} words", numbers.len()), true);
            count(met, "99 where 21 is due too", states.len() != STATES_NUMBERS);
        }
        21 => {
            count(met, &format!("21 for {} words", states.len()), true);
            count(met, "21 where a rule or script fails too", fails());
        }
        0 => {
            let (turns, left) = turns_met(met, budget, allowance, &mut stations);
            assert_eq!(numbers[..3], [0, turns, left]);
        }
        _ => refusal_met(met, &stations, result, numbers[0] as usize),
    }
}

/// The requests for stations meet each refusal of each station and each way in which turns go and end.
fn stations_meet_their_cases_in<W: Form>(requests: u64, cases: usize) {
    let mut met = Cases::new();
    for n in 0..requests {
        stations_met(&mut met, stations::<W>(SEED, n));
    }
    println!("{met:#?}");
    assert!(met.len() == cases && met.values().all(|&n| n >= 5), "{} {met:?}", met.len());
}

#[test]
fn stations_meet_their_cases() {
    stations_meet_their_cases_in::<u32>(REQUESTS / 120, 89);
    stations_meet_their_cases_in::<u64>(REQUESTS / 120, 90);
}

const RULES_OWN: &str = "the rule's own";

/// The questions that a request within limits fails, in their order, those of the rule as one.
fn failing_limits<W: Form>(rule: &[W], lows: &[u16], highs: &[u16], room: usize) -> Vec<&'static str> {
    let too_large = |numbers: &[u16]| numbers.iter().any(|&x| x > TOP);
    let cases = [
        (RULES_OWN, check_rule_in(rule).is_err()),
        ("14 of the lows", lows.len() % 16 != 0),
        ("14 of the highs", highs.len() % 16 != 0),
        ("22", lows.len() != highs.len()),
        ("13", room < lows.len() / 16),
        ("15 of the lows", too_large(lows)),
        ("15 of the highs", too_large(highs)),
        ("23", lows.iter().zip(highs).any(|(low, high)| low > high)),
    ];
    cases.into_iter().filter(|case| case.1).map(|case| case.0).collect()
}

/// How a number stands to limits.
fn number_met(c: u16, low: u16, high: u16) -> &'static str {
    match (c.cmp(&low), c.cmp(&high)) {
        (Ordering::Less, _) => "below them",
        (_, Ordering::Greater) if c == high + 1 => "one above them",
        (_, Ordering::Greater) => "far above them",
        (Ordering::Equal, Ordering::Equal) => "which are equal",
        (Ordering::Equal, _) => "at the lower",
        (_, Ordering::Equal) => "at the upper",
        _ => "between them",
    }
}

/// How the limits of two registers stand to each other.
fn registers_met(one: (u16, u16), other: (u16, u16)) -> &'static str {
    let is_exact = |(low, high)| low == high;
    match (is_exact(one), is_exact(other)) {
        (true, true) if one == other => "exact and equal",
        (true, true) => "exact and unequal",
        _ if one.1 < other.0 || other.1 < one.0 => "apart",
        (false, false) if one.1 == other.0 || other.1 == one.0 => "with one value in common",
        (false, false) if one == other => "not exact and equal",
        (false, false) => "with several values in common",
        _ if one.0 == other.0 || one.1 == other.1 => "one exact, at a limit of the other",
        _ => "one exact, between those of the other",
    }
}

/// What a node meets at an index.
fn node_met(met: &mut Cases, d: &Node, limits: &Limits, now: &[Answer], own: Answer, last: Option<Answer>) {
    let range = |register: usize| (limits.low[register], limits.high[register]);
    let (low, high) = range(d.register.into());
    let (left, right) = (now[d.left as usize], now[d.right as usize]);
    let when = if last.is_some() { "later" } else { "at index 0" };
    count(met, &format!("kind {} {own:?} {when}", d.kind), true);
    let way = match (d.kind, last) {
        (1, _) => format!("equal to a number {}", number_met(d.constant, low, high)),
        (2, _) => format!("below a number {}", number_met(d.constant, low, high)),
        (3, _) => format!("{left:?} implies {right:?}"),
        (4, Some(last)) => format!("{left:?} since {right:?}, last {last:?}"),
        (6, _) if d.constant == d.register.into() => format!("a register with itself, {}", if low == high { "exact" } else { "not exact" }),
        (6, _) => format!("two registers {}", registers_met((low, high), range(d.constant.into()))),
        _ => return,
    };
    count(met, &way, true);
    count(met, "an open node and itself", d.kind == 3 && d.left == d.right && left == Answer::Open);
}

/// What a history meets that is judged within limits.
fn judged_met(met: &mut Cases, rule: &Rule, lows: &[u16], highs: &[u16], room: usize) {
    let limits = limits_of(lows, highs);
    let all = answers(rule, &limits);
    for (n, now) in all.iter().enumerate() {
        let before = n.checked_sub(1).map(|n| &all[n]);
        for (i, d) in rule.nodes.iter().enumerate() {
            node_met(met, d, &limits[n], now, now[i], before.map(|last| last[i]));
        }
        count(met, &format!("exact limits, {:?}", now[rule.last()]), lows == highs);
    }
    count(met, "no index", all.is_empty());
    count(met, "no index and no byte", all.is_empty() && room == 0);
    count(met, "400 indices", all.len() == 400);
    count(met, "as many bytes as indices", room == all.len() && room > 0);
    count(met, "bytes after the answers", room > all.len());
    count(met, &format!("{} nodes", rule.len()), [32, 33, 64].contains(&rule.len()));
    count(met, "the largest number tested", rule.nodes.iter().any(|d| matches!(d.kind, 1 | 2) && d.constant == TOP));
}

/// What a request within limits meets.
fn limits_met<W: Form>(met: &mut Cases, asked: Request<W>) {
    let mut called = asked.clone();
    let result = called.put(&Reference);
    let Request::Limits { rule, lows, highs, out, numbers } = asked else { unreachable!("it is within limits") };
    let failing = failing_limits(&rule, &lows, &highs, out.len());
    if result == 99 {
        count(met, &format!("99 for {} words", numbers.len()), true);
        count(met, "99 where a question fails too", !failing.is_empty());
        return;
    }
    assert_eq!(result != 0, !failing.is_empty());
    match failing.split_first() {
        None => judged_met(met, &check_rule_in(&rule).unwrap(), &lows, &highs, out.len()),
        Some((first, later)) => {
            count(met, &format!("{result} of the rule"), *first == RULES_OWN);
            count(met, &format!("{first} alone"), later.is_empty());
            later.iter().for_each(|other| count(met, &format!("{first} before {other}"), true));
            count(met, "13 for one byte", result == 13 && out.len() + 1 == lows.len() / 16);
            let too_large = |numbers: &[u16]| numbers.iter().filter(|&&x| x > TOP).count();
            count(met, "15 for the first of several", result == 15 && too_large(&lows).max(too_large(&highs)) > 1);
            count(met, "23 for the first of several", result == 23 && lows.iter().zip(&highs).filter(|(low, high)| low > high).count() > 1);
        }
    }
}

/// The requests within limits meet each refusal by itself and before each later one, and each node in each of its ways.
fn limits_meet_their_cases_in<W: Form>(cases: usize) {
    let mut met = Cases::new();
    for n in 0..REQUESTS / 60 {
        limits_met(&mut met, limits::<W>(SEED, n));
    }
    println!("{met:#?}");
    assert!(met.len() == cases && met.values().all(|&n| n >= 5), "{} {met:?}", met.len());
}

#[test]
fn limits_meet_their_cases() {
    limits_meet_their_cases_in::<u32>(149);
    limits_meet_their_cases_in::<u64>(151);
}

/// Four stations to which the same is lent, so many words of states, and these numbers.
fn of_stations<W: Form>(states: usize, station: Stationed<W>, numbers: Lent<u64>) -> Request<W> {
    let (states, stations) = (vec![4; states].into(), std::array::from_fn(|_| station.clone()));
    Request::Stations { states, budget: 1000, allowance: 9, stations, numbers }
}

/// Every length of lent numbers, from none to two more than are needed, for answers of each kind.
fn lent_lengths_in<W: Form>() {
    let (test, since) = (|register| Node::new(1, register, 1, 0, 0), Node::new(4, 0, 0, 0, 1));
    let rule: Vec<W> = [test(1), test(2), since].iter().map(Node::encode_in).collect();
    let bare = vec![4 << 28 | 1 << 24, 4 << 28 | 2 << 24, 8 << 28, 7 << 28];
    let mut woven = vec![W::from(0); 8 * 16];
    assert_eq!(library().weave(&rule, &bare, &mut woven, &mut [0; 2]), 0);
    let inputs = vec![1, 0, 0, 1, 1, 0];
    let stripped: Vec<u32> = woven.chunks(8).map(|line| Line::decode_annotated_in(line).word()).collect();
    // the present before its guard
    let lost = [&[8 << 28], &stripped[1..]].concat();
    // every length of lent states
    for length in 0..=STATES_NUMBERS + STATE_NUMBERS + 1 {
        let station = Stationed { rule: rule.clone(), script: woven.clone(), inputs: inputs.clone(), history: vec![5; 33].into() };
        let asked = of_stations(length, station, vec![9; 3].into());
        put(&asked, &mut Met::default()).unwrap_or_else(|e| panic!("{e}: {asked:x?}"));
    }
    for script in [&woven[..], &woven[..127], &[]] {
        for length in 0..=28 {
            let numbers = || Lent::from((100..100 + length).collect::<Vec<u64>>());
            for (space, room) in [(0, 0), (15, 127), (16, 128), (47, 129), (48, 200)] {
                let (rule, script, inputs) = (|| rule.clone(), || script.to_vec(), || inputs.clone());
                let history = || vec![5; space];
                let out = || Lent::from(vec![W::from(6); room]);
                let moved = || Lent::from(vec![W::Other::from(6); room]);
                let station = || Stationed { rule: rule(), script: script(), inputs: inputs(), history: history().into() };
                for asked in [
                    Request::Rule { rule: rule(), numbers: numbers() },
                    Request::Bare { rule: rule(), script: bare.clone(), numbers: numbers() },
                    Request::Script { rule: rule(), script: script(), numbers: numbers() },
                    Request::Weave { rule: rule(), bare: bare.clone(), out: out(), numbers: numbers() },
                    Request::Facts { rule: rule(), instructions: stripped.clone(), out: out(), numbers: numbers() },
                    Request::Facts { rule: rule(), instructions: lost.clone(), out: out(), numbers: numbers() },
                    Request::Judge { rule: rule(), history: history(), numbers: numbers() },
                    Request::Limits {
                        rule: rule(),
                        lows: history(),
                        highs: history(),
                        out: vec![6; space / 20].into(),
                        numbers: numbers(),
                    },
                    Request::Run {
                        rule: rule(),
                        script: script(),
                        inputs: inputs(),
                        budget: 1000,
                        history: history().into(),
                        numbers: numbers(),
                    },
                    Request::Fresh { rule: rule(), state: numbers() },
                    Request::Steps {
                        rule: rule(),
                        script: script(),
                        inputs: inputs(),
                        history: history().into(),
                        state: numbers(),
                        count: 3,
                    },
                    of_stations(STATES_NUMBERS, station(), numbers()),
                    of_stations(length as usize, station(), numbers()),
                    Request::Text { text: b"r1=1 since r2=1".into(), out: out(), numbers: numbers() },
                    Request::Text { text: b"r1=1 since".into(), out: out(), numbers: numbers() },
                    Request::MoveRule { rule: rule(), out: moved(), numbers: numbers() },
                    Request::MoveScript { rule: rule(), script: script(), out: moved(), numbers: numbers() },
                ] {
                    put(&asked, &mut Met::default()).unwrap_or_else(|e| panic!("{e}: {asked:x?}"));
                }
            }
        }
    }
}

#[test]
fn lent_lengths() {
    lent_lengths_in::<u32>();
    lent_lengths_in::<u64>();
}

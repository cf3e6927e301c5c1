//! 2026-10, four booths and one allowance: what it promises, turn by turn, on random stations, and its cases by hand.
use reference::facts::{with_planted_fault, Facts, Fault};
use reference::form::Word;
use reference::generate;
use reference::judge::{first_false_direct, states};
use reference::machine::{fresh, nodes_in, step_stored_in, stuck, Machine};
use reference::random::Rng;
use reference::ready::by_definition;
use reference::rule::{check_rule_in, Node, Rule};
use reference::script::{check_script_in, encode_lines_in, Line};
use reference::stations::{run_stations, run_stations_in, Station, Taken};
use reference::weave::weave_lines;
use reference::{form64, no, No, TOP};
use std::collections::BTreeMap;

const FALSE: Node = Node { kind: 0, register: 0, constant: 0, left: 0, right: 0, zero: 0 };
/// False implies false, which is true everywhere: scripts for it may present where they like and need not note a fact.
const TRUE: [Node; 2] = [FALSE, Node { kind: 3, ..FALSE }];

const HALT: Line = line(0, 0, 0, 0);
const INPUT: Line = line(4, 1, 0, 0);
const PRESENT: Line = line(8, 0, 0, 0);
/// Register 1 up by one.
const RAISE: Line = line(3, 1, 1, 0);

const fn line(op: u8, r: u8, c: u16, target: u16) -> Line {
    Line { op, r, c, target, zero: 0, facts: Facts { set: [0; 7] } }
}

const fn go(target: u16) -> Line {
    line(7, 0, 0, target)
}

fn words<W: Word>(nodes: &[Node]) -> Vec<W> {
    nodes.iter().map(Node::encode_in).collect()
}

/// What is lent for one station, besides its state.
#[derive(Clone, Debug)]
struct Lent<W> {
    rule: Vec<W>,
    script: Vec<W>,
    inputs: Vec<u16>,
    history: Vec<u16>,
}

type Four<W> = [Lent<W>; 4];

/// What a run answers and leaves behind.
#[derive(Clone, Debug, PartialEq)]
struct Run {
    answer: Result<Taken, No>,
    states: Vec<Machine>,
    histories: [Vec<u16>; 4],
}

impl Run {
    fn left(&self) -> u64 {
        self.answer.expect("it was run").left
    }

    fn turns(&self) -> u64 {
        self.answer.expect("it was run").turns
    }

    fn presentations(&self) -> u64 {
        self.states.iter().map(|m| m.presentations).sum()
    }
}

/// What a caller's states may hold before.
fn old_state() -> Machine {
    Machine { dials: [77; 16], line: 3, read: u64::MAX, presentations: 5, ..fresh(&TRUE) }
}

fn run<W: Word>(four: &Four<W>, budget: u64, allowance: u64) -> Run {
    let mut histories = four.each_ref().map(|lent| lent.history.clone());
    let mut states = vec![old_state(); 4];
    let mut lent = four.iter().zip(&mut histories);
    let mut stations = std::array::from_fn(|_| {
        let (Lent { rule, script, inputs, .. }, history) = lent.next().unwrap();
        Station { rule, script, inputs, history }
    });
    let answer = run_stations_in(&mut states, budget, allowance, &mut stations);
    Run { answer, states, histories }
}

/// The refusal that is due, if one is: the lowest station whose rule or script fails, with that number, or else the lowest with an input
/// above 16,383.
fn due<W: Word>(four: &Four<W>) -> Option<No> {
    let script = |k: usize| check_script_in(&four[k].rule, &four[k].script).err().map(|refused| No { place: k, ..refused });
    let input = |k: usize| four[k].inputs.iter().any(|&x| x > TOP).then_some(No { number: 15, place: k });
    (0..4).find_map(script).or_else(|| (0..4).find_map(input))
}

type Cases = BTreeMap<&'static str, u32>;

fn count(met: &mut Cases, name: &'static str, holds: bool) {
    *met.entry(name).or_default() += holds as u32;
}

/// A machine that makes its own single steps, beside which a station is held.
struct Alone<'a, W> {
    lent: &'a Lent<W>,
    machine: Machine,
    history: Vec<u16>,
}

impl<W: Word> Alone<'_, W> {
    fn of(lent: &Lent<W>) -> Alone<'_, W> {
        Alone { lent, machine: fresh(&nodes_in(&lent.rule)), history: lent.history.clone() }
    }

    fn next(&self) -> Line {
        Line::decode_annotated_in(&self.lent.script[8 * self.machine.line as usize..])
    }

    fn is_stuck(&self) -> bool {
        stuck(&self.next(), &self.machine, &self.lent.inputs, self.history.len()).is_some()
    }

    fn step(&mut self) {
        let before = self.machine.clone();
        self.machine = step_stored_in(&self.lent.rule, &self.lent.script, &self.lent.inputs, &mut self.history, before);
    }
}

/// What must hold of stations and histories after any number of turns.
fn holds_after(rules: &[Rule], run: &Run, allowance: u64) -> Result<(), String> {
    for (k, (rule, m)) in rules.iter().zip(&run.states).enumerate() {
        let made = states(&run.histories[k][..16 * m.presentations as usize]);
        if first_false_direct(rule, &made) != made.len() {
            return Err(format!("the history of station {k} breaks its rule"));
        }
        if m.readiness.ready != by_definition(rule, m, &run.histories[k]) {
            return Err(format!("station {k} is not ready as the definition says"));
        }
    }
    if run.presentations() + run.left() != allowance {
        return Err(format!("{} presented, {} left of {allowance}", run.presentations(), run.left()));
    }
    Ok(())
}

/// Asks for 0 turns, for 1, and so on: each run is the one before it and one turn more, until four passes in a row end it. Whether the next
/// turn is a pass is told from the run before it and the station's own machine, not by the run.
fn promised<W: Word>(four: &Four<W>, allowance: u64, most_turns: u64, met: &mut Cases) -> Result<(), String> {
    let first = run(four, 0, allowance);
    if let Some(refused) = due(four) {
        let untouched = first.states.iter().all(|m| *m == old_state()) && (0..4).all(|k| first.histories[k] == four[k].history);
        count(met, "refused", true);
        return if first.answer == Err(refused) && untouched { Ok(()) } else { Err(format!("{refused:?} is due")) };
    }
    let rules = four.each_ref().map(|lent| check_rule_in(&lent.rule).expect("it has passed"));
    let mut alone = four.each_ref().map(Alone::of);
    let (mut last, mut passes) = (first, 0);
    for turn in 0.. {
        if last.answer.map(|taken| taken.turns) != Ok(turn) {
            return Err(format!("{:?} for {turn} turns", last.answer));
        }
        for (k, one) in alone.iter().enumerate() {
            if (&last.states[k], &last.histories[k]) != (&one.machine, &one.history) {
                return Err(format!("after {turn} turns, station {k} is not what its own steps make"));
            }
        }
        holds_after(&rules, &last, allowance).map_err(|e| format!("after {turn} turns, {e}"))?;
        let next = run(four, turn + 1, allowance);
        if passes == 4 {
            count(met, "four passes end it", true);
            count(met, "the allowance is used up", last.left() == 0 && allowance > 0);
            let waits = |one: &Alone<W>| one.next().op == 8 && !one.is_stuck();
            count(met, "two wait to the end", alone.iter().filter(|one| waits(one)).count() > 1);
            return if next == last && run(four, u64::MAX, allowance) == last { Ok(()) } else { Err(format!("{turn} turns end it")) };
        }
        if turn == most_turns {
            count(met, "the budget ends it", true);
            return Ok(());
        }
        let one = &mut alone[turn as usize % 4];
        let presents = one.next().op == 8;
        let passed_over = one.is_stuck() || presents && last.left() == 0;
        let able = !passed_over;
        count(met, "a pass at a present, the history full", presents && one.is_stuck() && last.left() > 0);
        count(met, "a pass at a present, nothing left", presents && !one.is_stuck() && last.left() == 0);
        count(met, "a step after three passes", able && passes == 3);
        count(met, "a presentation takes the last", able && presents && last.left() == 1);
        if able {
            one.step();
        }
        passes = if able { 0 } else { passes + 1 };
        last = next;
    }
    unreachable!("the turns end")
}

/// A station whose script is woven, so that it passes every question; sometimes one thing is spoiled.
fn any_station<W: Word>(g: &mut Rng, ends: bool, spoiled: usize) -> Lent<W> {
    let size = if g.chance(1, 20) { g.within(W::MOST_NODES - 20, W::MOST_NODES) } else { g.within(1, 6) };
    let rule = if g.chance(1, 2) { generate::sharing_rule(g, size) } else { generate::rule(g, size) };
    let mut lines = loop {
        let n = g.within(1, 6);
        let bare = generate::bare(g, &rule, n);
        let woven = weave_lines(&rule, &if ends { generate::ending(g, bare) } else { bare }).0;
        if woven.len() <= 1024 {
            break woven;
        }
    };
    let (mut inputs, mut words) = (generate::inputs(g), rule.words_in());
    if ends || g.chance(1, 3) {
        inputs.truncate(g.below(6));
    }
    if g.chance(spoiled, 100) {
        let at = g.below(lines.len());
        match g.below(5) {
            0 => words.clear(),
            1 => lines[at].op = 15,
            2 => lines[at].facts = Facts { set: [!0 << (64 - rule.len()); 7] },
            _ => inputs.push(TOP + 1),
        }
    }
    Lent { rule: words, script: encode_lines_in(&lines), inputs, history: vec![9_999; g.below(16 * 5)] }
}

fn any_four<W: Word>(g: &mut Rng) -> (Four<W>, u64) {
    let (ends, spoiled) = (g.chance(1, 2), if g.chance(1, 4) { 40 } else { 0 });
    (std::array::from_fn(|_| any_station(g, ends, spoiled)), g.below(8) as u64)
}

const MOST_TURNS: u64 = 120;

fn promise_is_kept_in<W: Word>(seed: u64) {
    let g = &mut Rng(seed);
    let mut met = Cases::new();
    for _ in 0..1_500 {
        let (four, allowance) = any_four::<W>(g);
        promised(&four, allowance, MOST_TURNS, &mut met).unwrap_or_else(|e| panic!("{e}: {four:?}, allowance {allowance}"));
    }
    println!("{met:#?}");
    assert!(met.len() == 9 && met.values().all(|&n| n >= 20), "{met:?}");
}

/// After every number of turns: each history obeys its rule by the table of kinds, each state is what the station's own single steps make,
/// presentations and what is left are the allowance; a station that is able to move at its turn moves, the others stay; and it ends where
/// it should.
#[test]
fn promise_is_kept() {
    promise_is_kept_in::<u32>(101);
    promise_is_kept_in::<u64>(102);
}

/// One sentence of it made wrong: the promise notices.
#[test]
fn planted_faults_are_noticed() {
    for fault in [
        Fault::PassTakes,
        Fault::PassIsNoTurn,
        Fault::LastHasNoTurn,
        Fault::InputsFirst,
        Fault::PlaceIsTheLine,
        Fault::ThreePassesEnd,
        Fault::PassesAddUp,
    ] {
        let g = &mut Rng(103);
        let differs = (0..1_000).position(|_| {
            let (four, allowance) = any_four::<u32>(g);
            with_planted_fault(fault, || promised(&four, allowance, MOST_TURNS, &mut Cases::new())).is_err()
        });
        println!("{fault:?}: stations {}", differs.expect("it is noticed"));
    }
}

/// A station of a rule that is true everywhere, with these lines, so many inputs of 1, and room for so many states.
fn by_hand(lines: &[Line], inputs: usize, room: usize) -> Lent<u32> {
    Lent { rule: words(&TRUE), script: encode_lines_in(lines), inputs: vec![1; inputs], history: vec![9_999; 16 * room] }
}

/// Each keeps what is promised as well.
fn taken(four: &Four<u32>, budget: u64, allowance: u64) -> Run {
    promised(four, allowance, budget.min(200), &mut Cases::new()).expect("what is promised");
    run(four, budget, allowance)
}

fn answers(four: &Four<u32>, budget: u64, allowance: u64) -> (u64, u64) {
    let run = taken(four, budget, allowance);
    (run.turns(), run.left())
}

/// Presents over and over.
fn presenting(room: usize) -> Lent<u32> {
    by_hand(&[PRESENT, go(0)], 0, room)
}

/// Counts over and over.
fn counting() -> Lent<u32> {
    by_hand(&[RAISE, go(0)], 0, 9)
}

fn halted() -> Lent<u32> {
    by_hand(&[HALT], 0, 9)
}

fn dry() -> Lent<u32> {
    by_hand(&[INPUT, go(0)], 0, 9)
}

fn four(lent: impl Fn() -> Lent<u32>) -> Four<u32> {
    std::array::from_fn(|_| lent())
}

#[test]
fn no_allowance() {
    let all = four(|| presenting(9));
    let run = taken(&all, 100, 0);
    assert_eq!(run.answer, Ok(Taken { turns: 4, left: 0 }));
    assert_eq!(run.states, vec![fresh(&TRUE); 4]);
    // those that do not present go on: eight turns, of which station 1 moves at two
    let [a, _, c, d] = all;
    let run = taken(&[a, counting(), c, d], 8, 0);
    assert_eq!(run.answer, Ok(Taken { turns: 8, left: 0 }));
    assert_eq!((run.states[1].dials[1], run.states[1].line), (1, 0));
}

#[test]
fn no_budget() {
    for lent in [presenting(9), counting(), halted(), dry()] {
        let run = taken(&four(|| lent.clone()), 0, 5);
        assert_eq!(run.answer, Ok(Taken { turns: 0, left: 5 }));
        assert_eq!(run.states, vec![fresh(&TRUE); 4]);
        assert_eq!(run.histories, four(|| lent.clone()).map(|lent| lent.history));
    }
}

/// A pass is a turn, and the budget counts it.
#[test]
fn four_that_cannot_move() {
    for lent in [halted(), dry(), presenting(0)] {
        let all = four(|| lent.clone());
        assert_eq!(answers(&all, 100, 5), (4, 5));
        assert_eq!(answers(&all, u64::MAX, 5), (4, 5));
        assert_eq!(answers(&all, 4, 5), (4, 5));
        assert_eq!(answers(&all, 3, 5), (3, 5));
        assert_eq!(answers(&all, 1, 5), (1, 5));
    }
    // each for its own reason
    assert_eq!(answers(&[presenting(0), dry(), halted(), presenting(0)], 100, 5), (4, 5));
}

/// The able one has every fourth turn, wherever it stands, and four passes in a row never come.
#[test]
fn one_able_among_three_dry() {
    for k in 0..4 {
        let mut all = four(dry);
        all[k] = by_hand(&[RAISE, RAISE, RAISE, go(0)], 0, 0);
        for turns in 0..60 {
            let run = taken(&all, turns, 3);
            assert_eq!(run.answer, Ok(Taken { turns, left: 3 }));
            // so many of its turns, of which every fourth is a go
            let own = (turns + 3 - k as u64) / 4;
            assert_eq!((run.states[k].dials[1] as u64, run.states[k].line), (own - own / 4, own % 4));
            assert!((0..4).filter(|&j| j != k).all(|j| run.states[j] == fresh(&TRUE)));
        }
    }
}

/// Station 0 takes the allowance; station 1 would present and waits, others go on, and station 0 waits when its turn to present comes.
#[test]
fn waiting_for_the_allowance() {
    let all = [presenting(9), presenting(9), counting(), by_hand(&[INPUT, go(0)], 5, 0)];
    for turns in 5..100 {
        let run = taken(&all, turns, 1);
        assert_eq!(run.answer, Ok(Taken { turns, left: 0 }));
        assert_eq!(run.states[1], fresh(&TRUE));
        assert_eq!((run.states[0].presentations, run.states[0].line), (1, 0));
        assert!(run.histories[0][16..].iter().chain(&run.histories[1]).all(|&x| x == 9_999));
    }
    let run = taken(&all, 100, 1);
    assert_eq!((run.states[2].dials[1], run.states[3].read), (13, 5));
    // both wait, and nothing else is there to go on
    assert_eq!(answers(&[presenting(9), presenting(9), halted(), halted()], 100, 1), (9, 0));
}

/// Three passes and a step, over and over: the count of passes starts again with each step.
#[test]
fn passes_that_a_step_breaks() {
    let steps = [go(1), go(2), HALT];
    let at = |k: usize| {
        let mut all = four(halted);
        all[k] = by_hand(&steps, 0, 0);
        answers(&all, 100, 0).0
    };
    // the steps at turns k and k + 4, then four passes
    assert_eq!([at(0), at(1), at(2), at(3)], [9, 10, 11, 12]);
    // a row of four passes may start at any station: 0 presents at turns 0 and 8, with two gos between, and is full at 16
    let mut all = four(halted);
    all[0] = by_hand(&[PRESENT, go(2), PRESENT, go(0)], 0, 2);
    assert_eq!(answers(&all, 100, 9), (4 * 4 + 1, 7));
}

#[test]
fn full_with_allowance_left() {
    // two states each, and a present that finds no room is passed over and takes nothing
    let run = taken(&four(|| presenting(2)), 100, 20);
    assert_eq!(run.answer, Ok(Taken { turns: 4 * 4 + 4, left: 12 }));
    assert!(run.states.iter().all(|m| (m.presentations, m.line) == (2, 0)));
    // room for one state but for a number: none
    let mut short = presenting(2);
    short.history.pop();
    assert_eq!(taken(&four(|| short.clone()), 100, 20).presentations(), 4);
}

#[test]
fn allowance_used_up_exactly() {
    // seven presentations: 0, 1, 2, 3 and again 0, 1, 2; with them the last of the allowance goes
    let run = taken(&four(|| presenting(9)), 100, 7);
    assert_eq!(run.states.iter().map(|m| m.presentations).collect::<Vec<_>>(), [2, 2, 2, 1]);
    assert_eq!(run.left(), 0);
    // as much as there is room for: nothing is left over, and nobody waits
    assert_eq!(answers(&four(|| presenting(2)), 100, 8), (20, 0));
}

#[test]
fn not_four_states() {
    let good = four(halted);
    let mut bad = four(halted);
    bad[0].rule.clear();
    bad[1].inputs.push(TOP + 1);
    for all in [good, bad] {
        for count in [0, 1, 3, 5, 8] {
            let mut histories = all.each_ref().map(|lent| lent.history.clone());
            let mut lent = all.iter().zip(&mut histories);
            let mut stations = std::array::from_fn(|_| {
                let (Lent { rule, script, inputs, .. }, history) = lent.next().unwrap();
                Station { rule, script, inputs, history }
            });
            let mut states = vec![old_state(); count];
            assert_eq!(run_stations(&mut states, 100, 5, &mut stations), no(21, 0));
            assert_eq!(states, vec![old_state(); count]);
        }
    }
}

/// Stations of which some have a failing rule (1), a line that question 6 turns away, the third, or an input above 16,383, the second.
fn failing(faults: [u32; 4]) -> Four<u32> {
    faults.map(|fault| {
        let mut lent = by_hand(&[INPUT, INPUT, if fault == 6 { line(15, 0, 0, 0) } else { go(0) }], 0, 2);
        match fault {
            1 => lent.rule.clear(),
            15 => lent.inputs.extend([1, TOP + 1]),
            _ => {}
        }
        lent
    })
}

#[test]
fn refusals_in_order() {
    for (faults, want) in [
        // station by station, not question by question
        ([6, 1, 0, 0], (6, 0)),
        ([0, 6, 1, 1], (6, 1)),
        ([1, 6, 0, 0], (1, 0)),
        ([0, 0, 0, 6], (6, 3)),
        ([0, 0, 0, 1], (1, 3)),
        // all rules and scripts before all inputs
        ([0, 0, 15, 0], (15, 2)),
        ([15, 0, 0, 6], (6, 3)),
        ([15, 15, 15, 1], (1, 3)),
        ([0, 15, 0, 15], (15, 1)),
        ([15, 0, 0, 0], (15, 0)),
    ] {
        let run = taken(&failing(faults), 100, 5);
        assert_eq!(run.answer, no(want.0, want.1), "{faults:?}");
        assert_eq!((run.states, run.histories), (vec![old_state(); 4], four(|| presenting(2)).map(|lent| lent.history)));
    }
    assert!(taken(&failing([0; 4]), 100, 5).answer.is_ok());
}

/// The functions of the two forms, by their names.
#[test]
fn two_forms() {
    fn stations<'a, W>(rule: &'a [W], script: &'a [W], histories: &'a mut [Vec<u16>; 4]) -> [Station<'a, W>; 4] {
        histories.each_mut().map(|history| Station { rule, script, inputs: &[], history })
    }
    let (lines, mut states) = ([RAISE, PRESENT, go(0)], vec![old_state(); 4]);
    let (rule, script): (Vec<u32>, Vec<u32>) = (words(&TRUE), encode_lines_in(&lines));
    let mut histories: [Vec<u16>; 4] = std::array::from_fn(|_| vec![0; 32]);
    let first = run_stations(&mut states, 100, 5, &mut stations(&rule, &script, &mut histories));
    let (rule, script): (Vec<u64>, Vec<u64>) = (words(&TRUE), encode_lines_in(&lines));
    let (mut states_64, mut histories_64) = (vec![old_state(); 4], histories.clone());
    let second = form64::run_stations(&mut states_64, 100, 5, &mut stations(&rule, &script, &mut histories_64));
    assert_eq!((first, second), (Ok(Taken { turns: 29, left: 0 }), first));
    assert_eq!((states, histories), (states_64, histories_64));
}

//! Histories known within limits, without chance: every rule of up to three nodes and all small limits, held to every exact history within;
//! every set of refusals; every test at the ends of its limits; every register and every length.
use compare::compare::{across, put, Met};
use compare::face::Face;
use compare::faced::Reference;
use compare::proved::{library, Form};
use compare::request::Request;
use reference::enumerate::{every_rule, hold_to_every_history, refused_by, Refused, Small, Within, REFUSALS};
use reference::limits::Answer;
use reference::rule::Node;
use reference::TOP;

/// What the proved code answers at each index.
fn proved<W: Form>(rule: &[W], within: &Within) -> Vec<Answer> {
    let (indices, mut out, mut numbers) = (within.limits.len(), [9; 4], [9; 2]);
    let result = library().limits(rule, &within.lows, &within.highs, &mut out[..indices], &mut numbers);
    assert_eq!((result, numbers), (0, [0, indices as u64]));
    let answer = |&byte: &u8| [Answer::False, Answer::True, Answer::Open][byte as usize];
    out[..indices].iter().map(answer).collect()
}

fn every_small_rule_in<W: Form>(shapes: &[(usize, u16)]) {
    let mut met = [0; 4];
    for &(indices, top) in shapes {
        let small = Small::new(indices, top);
        for rule in &every_rule(3) {
            let words: Vec<W> = rule.words_in();
            hold_to_every_history(&small, rule, |within| proved(&words, within), &mut met);
        }
    }
    println!("false, true, open, open where all exact histories agree: {met:?}");
    assert!(met.iter().all(|&n| n > 100_000));
}

/// At so many indices, with values of two registers up to so much.
#[test]
fn every_small_rule() {
    every_small_rule_in::<u32>(&[(1, 3), (2, 2), (4, 1)]);
    every_small_rule_in::<u64>(&[(1, 3), (2, 2), (3, 1)]);
}

fn of_refused<W: Form>(ways: u32) -> Request<W> {
    let Refused { rule, lows, highs, out } = refused_by(ways);
    Request::Limits { rule, lows, highs, out: out.into(), numbers: vec![9; 3].into() }
}

/// Of the ways to be refused that are there at once the first is answered.
fn first_is_answered<W: Form>(ways: u32) {
    put(&of_refused::<W>(ways), &mut Met::default()).unwrap_or_else(|e| panic!("{ways:b}: {e}"));
    let mut asked = of_refused::<W>(ways);
    let result = asked.put(&library());
    let Request::Limits { out, numbers, .. } = &asked else { unreachable!("it is within limits") };
    match REFUSALS.get(ways.trailing_zeros() as usize) {
        Some(&(number, place)) => {
            assert_eq!((result, &numbers[..]), (number, &[place as u64, 0, 9][..]), "{ways:b}");
            assert!(out.iter().all(|&byte| byte == 9), "{ways:b}");
        }
        None => assert_eq!((result, &numbers[..]), (0, &[0, 3, 9][..])),
    }
}

/// Every order of two refusals, and of more: all sets of the ways to be refused.
#[test]
fn refusals_in_order() {
    for ways in 0..1 << REFUSALS.len() {
        first_is_answered::<u32>(ways);
        first_is_answered::<u64>(ways);
    }
}

/// Asks in both forms, and across.
fn ask(nodes: &[Node], lows: Vec<u16>, highs: Vec<u16>, room: usize) {
    let asked: Request<u32> = Request::Limits {
        rule: nodes.iter().map(Node::encode).collect(),
        lows,
        highs,
        out: vec![9; room].into(),
        numbers: vec![9; 2].into(),
    };
    let second = asked.in_second_form().expect("32 nodes at most");
    put(&asked, &mut Met::default())
        .and(put(&second, &mut Met::default()))
        .and(across(&asked, &mut Met::default()))
        .unwrap_or_else(|e| panic!("{e}\n{asked:?}"));
}

/// Numbers at either end, and about each other.
const NUMBERS: [u16; 8] = [0, 1, 2, 3, 8_191, TOP - 2, TOP - 1, TOP];

fn ranges() -> impl Iterator<Item = (u16, u16)> {
    NUMBERS.into_iter().flat_map(|high| NUMBERS.into_iter().filter(move |&low| low <= high).map(move |low| (low, high)))
}

/// Limits of one index in which all registers are 7 but for these.
fn at(register: usize, range: (u16, u16), other: usize, other_range: (u16, u16)) -> [Vec<u16>; 2] {
    let (mut lows, mut highs) = (vec![7; 16], vec![7; 16]);
    (lows[other], highs[other]) = other_range;
    (lows[register], highs[register]) = range;
    [lows, highs]
}

#[test]
fn tests_at_their_limits() {
    for (range, constant) in ranges().flat_map(|range| NUMBERS.map(|constant| (range, constant))) {
        for kind in [1, 2] {
            let [lows, highs] = at(5, range, 5, range);
            ask(&[Node::new(kind, 5, constant, 0, 0)], lows, highs, 1);
        }
    }
    for (one, other) in ranges().flat_map(|one| ranges().map(move |other| (one, other))) {
        let [lows, highs] = at(5, one, 6, other);
        ask(&[Node::new(6, 5, 6, 0, 0)], lows, highs, 1);
    }
}

/// Each register has other limits, and each test is open, true or false by its own.
#[test]
fn every_register() {
    let lows: Vec<u16> = (0..16).map(|r| 10 * r).collect();
    let highs: Vec<u16> = (0..16).map(|r| 10 * r + r % 3).collect();
    for register in 0..16 {
        for constant in (0..16).flat_map(|r| [10 * r, 10 * r + 1]) {
            ask(&[Node::new(1, register, constant, 0, 0)], lows.clone(), highs.clone(), 1);
            ask(&[Node::new(2, register, constant, 0, 0)], lows.clone(), highs.clone(), 1);
        }
        for other in 0..16 {
            ask(&[Node::new(6, register.into(), other, 0, 0)], lows.clone(), highs.clone(), 1);
            let [lows, highs] = at(register.into(), (7, 8), other.into(), (8, 9));
            ask(&[Node::new(6, register.into(), other, 0, 0)], lows, highs, 1);
        }
    }
}

/// Every length of the lists and of the output, and every count of numbers.
#[test]
fn every_length() {
    let rule = [Node::new(1, 1, 1, 0, 0), Node::new(5, 0, 0, 0, 0)];
    for (low_length, high_length) in (0..=49).flat_map(|low| (0..=49).map(move |high| (low, high))) {
        for room in 0..=4 {
            ask(&rule, vec![0; low_length], vec![1; high_length], room);
        }
    }
    for (count, ways) in (0..4).flat_map(|count| (0..=11).map(move |k| (count, (1 << k) >> 1))) {
        let Refused { rule, lows, highs, out } = refused_by::<u32>(ways);
        let asked = Request::Limits { rule, lows, highs, out: out.into(), numbers: vec![9; count].into() };
        put(&asked, &mut Met::default()).and(across(&asked, &mut Met::default())).unwrap_or_else(|e| panic!("{e}\n{asked:?}"));
        assert_eq!(asked.clone().put(&Reference) == 99, count < 2);
    }
}

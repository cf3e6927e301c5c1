//! 2026-07: rules and annotated scripts moved from one stored form to the other, and back.
use reference::facts::{Facts, A, B, C, F, M, T, W};
use reference::form::Word;
use reference::generate;
use reference::moves::{move_rule, move_script, rule_to_32, rule_to_64, script_to_32, script_to_64};
use reference::random::Rng;
use reference::rule::{Node, Rule};
use reference::script::{check_script, check_script_in, encode_lines, Line};
use reference::weave::weave_lines;
use reference::{form64, no, No};
use std::collections::BTreeMap;

/// Register 1 = 1 since register 2 = 1, in both forms.
const SINCE: [u32; 3] = [0x2200_0800, 0x2400_0800, 0x8000_0002];
const SINCE_64: [u64; 3] = [0x2200_0800_0000_0000, 0x2400_0800_0000_0000, 0x8000_0000_8000_0000];

/// A test and weak previouses of it.
fn chain<X: Word>(n: usize) -> Vec<X> {
    let node = |i: usize| if i == 0 { Node::new(1, 1, 1, 0, 0) } else { Node::new(5, 0, 0, i as u8 - 1, 0) };
    (0..n).map(|i| node(i).encode_in()).collect()
}

/// What a move answers, and the whole output after it, which has room for so many words and was full of others.
fn moved<X: Word>(room: usize, other: X, to: impl FnOnce(&mut [X]) -> Result<usize, No>) -> (Result<usize, No>, Vec<X>) {
    let mut out = vec![other; room];
    (to(&mut out), out)
}

#[test]
fn rules_there_and_back() {
    let (answer, out) = moved(5, 0xdead, |out| rule_to_64(&SINCE, out));
    assert_eq!((answer, out), (Ok(3), [&SINCE_64[..], &[0xdead; 2]].concat()));
    let (answer, out) = moved(5, 0xdead, |out| rule_to_32(&SINCE_64, out));
    assert_eq!((answer, out), (Ok(3), [&SINCE[..], &[0xdead; 2]].concat()));
    for n in [1, 31, 32] {
        assert_eq!(moved(n, 1, |out| rule_to_64(&chain(n), out)), (Ok(n), chain(n)));
        assert_eq!(moved(n, 1, |out| rule_to_32(&chain(n), out)), (Ok(n), chain(n)));
        // one word short, and none
        for room in [n - 1, 0] {
            assert_eq!(moved(room, 1, |out| rule_to_64(&chain(n), out)), (no(13, 0), vec![1; room]));
            assert_eq!(moved(room, 1, |out| rule_to_32(&chain(n), out)), (no(13, 0), vec![1; room]));
        }
    }
}

#[test]
fn rules_that_are_too_long() {
    // there, question 1 allows 32; back, it allows 64, and then 20
    for (n, there, back) in
        [(32, None, None), (33, Some(1), Some(20)), (63, Some(1), Some(20)), (64, Some(1), Some(20)), (65, Some(1), Some(1))]
    {
        let refused = |answer: Result<usize, No>| answer.err().map(|no| (no.number, no.place));
        let first: Vec<u32> = chain::<u32>(n.min(32)).into_iter().chain([0; 64]).take(n).collect();
        let second: Vec<u64> = chain::<u64>(n.min(64)).into_iter().chain([0; 64]).take(n).collect();
        // an output that is too short is asked about last
        for room in [0, 32, 64] {
            let (answer, out) = moved(room, 7, |out| rule_to_64(&first, out));
            let wanted = if n == 32 && room == 0 { Some(13) } else { there };
            assert_eq!(refused(answer), wanted.map(|number| (number, 0)), "{n} {room}");
            assert!(answer.is_ok() || out == vec![7; room], "a refusal writes nothing");
            let (answer, out) = moved(room, 7, |out| rule_to_32(&second, out));
            let wanted = if n == 32 && room == 0 { Some(13) } else { back };
            assert_eq!(refused(answer), wanted.map(|number| (number, 0)), "{n} {room}");
            assert!(answer.is_ok() || out == vec![7; room], "a refusal writes nothing");
            // a script's move puts the same to its rule, before it looks at the script
            if n > 32 {
                assert_eq!(moved(room, 7, |out| script_to_64(&first, &[], out)), (no(there.unwrap(), 0), vec![7; room]));
                assert_eq!(moved(room, 7, |out| script_to_32(&second, &[1; 7], out)), (no(back.unwrap(), 0), vec![7; room]));
            }
        }
    }
}

/// 2, 3 and 4 before 20, 20 before 13.
#[test]
fn refusals_of_rules_in_order() {
    for (at, word, number, place) in
        [(40, 7 << 61, 2, 40), (40, 5 << 61 | 39 << 37 | 1, 2, 40), (40, 5 << 61 | 40 << 37, 3, 40), (40, 0, 4, 39)]
    {
        let mut rule = chain::<u64>(64);
        rule[at] = word;
        assert_eq!(rule_to_32(&rule, &mut []), no(number, place));
        assert_eq!(script_to_32(&rule, &[], &mut []), no(number, place));
    }
    assert_eq!(rule_to_32(&chain(33), &mut []), no(20, 0));
    assert_eq!(rule_to_64(&[0x2200_0801], &mut []), no(2, 0));
    assert_eq!(rule_to_64(&[0x6000_0000], &mut []), no(3, 0));
    assert_eq!(rule_to_64(&[0, 0], &mut []), no(4, 0));
}

/// Lines with facts of the since rule, as the two forms store them.
const NOTED: [u32; 16] = [0x4100_0000, 0, 0, 0, 0x2000_0000, 0x2000_0000, 0, 0, 0, 0, 0, 0, 0x2000_0000, 0x2000_0000, 0, 0];
const NOTED_64: [u64; 16] = [0x4100_0000 << 32, 0, 0, 0, 1 << 61, 1 << 61, 0, 0, 0, 0, 0, 0, 1 << 61, 1 << 61, 0, 0];

#[test]
fn scripts_there_and_back() {
    assert!(check_script(&SINCE, &NOTED).is_ok() && form64::check_script(&SINCE_64, &NOTED_64).is_ok());
    let (answer, out) = moved(18, 0xdead, |out| script_to_64(&SINCE, &NOTED, out));
    assert_eq!((answer, out), (Ok(2), [&NOTED_64[..], &[0xdead; 2]].concat()));
    let (answer, out) = moved(18, 0xdead, |out| script_to_32(&SINCE_64, &NOTED_64, out));
    assert_eq!((answer, out), (Ok(2), [&NOTED[..], &[0xdead; 2]].concat()));
    for room in [0, 8, 15] {
        assert_eq!(moved(room, 7, |out| script_to_64(&SINCE, &NOTED, out)), (no(13, 0), vec![7; room]));
        assert_eq!(moved(room, 7, |out| script_to_32(&SINCE_64, &NOTED_64, out)), (no(13, 0), vec![7; room]));
    }
    // facts of node 31 go to bit 32 and back
    let last = Line { facts: Facts::none().with(M, 31).with(A, 31), ..Line::new(0, 0, 0, 0) };
    let (answer, out) = moved(8, 7, |out| script_to_64(&chain(32), &last.encode_annotated(), out));
    assert_eq!((answer, out), (Ok(1), vec![0, 0, 0, 1 << 32, 0, 1 << 32, 0, 0]));
    let (answer, out) = moved(8, 7, |out| script_to_32(&chain(32), &last.encode_annotated_in::<u64>(), out));
    assert_eq!((answer, out), (Ok(1), vec![0, 0, 0, 1, 0, 1, 0, 0]));
}

#[test]
fn refusals_of_scripts_in_order() {
    let halt = [0; 8];
    let with = |at: usize, word: u64| {
        let mut line = halt;
        line[at] = word;
        line
    };
    let (stray, far, unfit) = (with(0, 1), with(0, 7 << 60 | 9 << 32), with(1, 1));
    let back = |lines: &[[u64; 8]]| script_to_32(&SINCE_64, &lines.concat(), &mut []);
    // 5, 6, 7, 8, each put to the whole before the next; 13 last
    assert_eq!(script_to_32(&SINCE_64, &[1; 9], &mut []), no(5, 0));
    assert_eq!(script_to_32(&SINCE_64, &vec![0; 8 * 1025], &mut []), no(5, 0));
    assert_eq!(back(&[unfit, far, stray]), no(6, 2));
    assert_eq!(back(&[unfit, far, halt]), no(7, 1));
    assert_eq!(back(&[halt, unfit]), no(8, 1));
    assert_eq!(back(&[halt]), no(13, 0));
    // a fact of node 32 or 63 belongs nowhere in a rule that can move back
    for bit in [1 << 31, 1] {
        assert_eq!(script_to_32(&chain(32), &with(5, bit), &mut [0; 8]), no(8, 0));
    }
    // the rule's questions come first, 20 among them
    assert_eq!(script_to_32(&[7 << 61], &stray, &mut []), no(2, 0));
    assert_eq!(script_to_32(&chain(33), &stray, &mut []), no(20, 0));
    let there = |words: &[u32]| script_to_64(&SINCE, words, &mut []);
    assert_eq!(there(&[]), no(5, 0));
    assert_eq!(there(&[15 << 28, 1, 0, 0, 0, 0, 0, 0]), no(6, 0));
    assert_eq!(there(&[7 << 28 | 1, 1, 0, 0, 0, 0, 0, 0]), no(7, 0));
    assert_eq!(there(&[0, 1, 0, 0, 0, 0, 0, 0]), no(8, 0));
    assert_eq!(there(&[0; 8]), no(13, 0));
}

/// Scripts that the checker refuses with 9, 10 or 11 move all the same.
#[test]
fn scripts_that_are_not_accepted() {
    let halt = Line::new(0, 0, 0, 0);
    let noted = |op: u8, fact: usize, node: usize| Line { facts: Facts::none().with(fact, node), ..Line::new(op, 0, 0, 0) };
    for (lines, number) in [
        (vec![noted(0, T, 0)], 9),
        (vec![noted(0, C, 2)], 9),
        (vec![Line::new(8, 0, 0, 0), halt], 10),
        (vec![Line::new(4, 0, 0, 0), noted(0, F, 1)], 11),
        (vec![Line::new(4, 0, 0, 0), noted(0, W, 2)], 11),
        (vec![Line::new(4, 0, 0, 0), noted(0, B, 2), noted(8, T, 1), halt], 11),
    ] {
        let (first, second) = (encode_lines(&lines), form64::encode_lines(&lines));
        let number_of = |answer: Result<(Rule, Vec<Line>), No>| answer.err().map(|no| no.number);
        assert_eq!(number_of(check_script(&SINCE, &first)), Some(number));
        assert_eq!(number_of(form64::check_script(&SINCE_64, &second)), Some(number));
        assert_eq!(moved(first.len(), 7, |out| script_to_64(&SINCE, &first, out)), (Ok(lines.len()), second.clone()));
        assert_eq!(moved(first.len(), 7, |out| script_to_32(&SINCE_64, &second, out)), (Ok(lines.len()), first));
    }
}

/// A rule and an annotated script for it in one of the forms, often spoiled. Facts are taken away and put in, also where they belong.
fn asked<X: Word>(g: &mut Rng) -> (Vec<X>, Vec<X>) {
    let size = generate::rule_size_within(g, X::MOST_NODES);
    let table = if g.chance(1, 2) { generate::rule(g, size) } else { generate::sharing_rule(g, size) };
    let n = g.within(1, 6);
    let mut lines = weave_lines(&table, &generate::bare(g, &table, n)).0;
    for _ in 0..g.below(3) {
        let i = g.below(lines.len());
        let (fact, node) = (g.below(7), g.below(table.len()));
        if g.chance(1, 2) {
            lines[i].facts.add(fact, node);
        } else {
            lines[i].facts.drop(fact, node);
        }
    }
    let mut rule = table.words_in();
    let mut script: Vec<X> = lines.iter().flat_map(|l| l.encode_annotated_in()).collect();
    for (words, chance) in [(&mut rule, 10), (&mut script, 4)] {
        if g.chance(1, chance) {
            let i = g.below(words.len());
            match g.below(6) {
                0 => drop(words.pop()),
                1 => words.push(words[i]),
                _ => words[i] = X::from_top(words[i].at_top() ^ 1 << (63 - g.below(X::MOST_NODES))),
            }
        }
    }
    (rule, script)
}

/// What a move has to answer, from what the checker says of the same input: its refusals up to 8, with 20 after the rule's.
fn wanted<X: Word, Y: Word>(rule: &[X], script: &[X], room: usize) -> Result<usize, No> {
    let lines = script.len() / 8;
    match check_script_in(rule, script) {
        Err(refused) if refused.number <= 4 => Err(refused),
        _ if rule.len() > Y::MOST_NODES => no(20, 0),
        Err(refused) if refused.number <= 8 => Err(refused),
        _ if room < 8 * lines => no(13, 0),
        _ => Ok(lines),
    }
}

/// Moves of random rules and scripts: what is answered, that a refusal writes nothing and later words stay, and that what has moved and
/// comes back is what it was, and gets the same answer from the checker.
fn move_at_random<X: Word, Y: Word>(g: &mut Rng, met: &mut BTreeMap<u32, u32>) {
    let (rule, script) = asked::<X>(g);
    let (blank, other) = (X::from_top(0), Y::from_top(7 << 32));
    let room = (script.len() + g.below(5)).saturating_sub(g.below(4));
    let (answer, out) = moved(room, other, |out| move_script(&rule, &script, out));
    assert_eq!(answer, wanted::<X, Y>(&rule, &script, room));
    *met.entry(answer.err().map_or(0, |no| no.number)).or_default() += 1;
    assert!(out[8 * answer.unwrap_or(0)..].iter().all(|&word| word == other));

    let (of_rule, new_rule) = moved(rule.len(), other, |out| move_rule(&rule, out));
    match of_rule {
        Err(no) => {
            assert_eq!(answer, Err(no), "a script moves only with its rule");
            assert!(new_rule.iter().all(|&word| word == other));
        }
        Ok(count) => {
            assert_eq!(count, rule.len());
            assert_eq!(moved(count, blank, |out| move_rule(&new_rule, out)), (Ok(count), rule.clone()));
        }
    }
    if let Ok(lines) = answer {
        let new_script = &out[..8 * lines];
        assert_eq!(moved(8 * lines, blank, |out| move_script(&new_rule, new_script, out)), (Ok(lines), script.clone()));
        assert_eq!(check_script_in(&rule, &script), check_script_in(&new_rule, new_script));
    }
}

#[test]
fn moves_at_random() {
    let mut g = Rng(75);
    let (mut there, mut back) = (BTreeMap::new(), BTreeMap::new());
    for _ in 0..8_000 {
        move_at_random::<u32, u64>(&mut g, &mut there);
        move_at_random::<u64, u32>(&mut g, &mut back);
    }
    println!("{there:?} {back:?}");
    for number in [0, 1, 2, 3, 4, 5, 6, 7, 8, 13] {
        assert!(there.contains_key(&number) && back.contains_key(&number), "no move was answered with {number}");
    }
    assert!(back.contains_key(&20) && !there.contains_key(&20));
}

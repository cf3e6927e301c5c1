//! Corners of the questions, the facts and the machine.
use reference::facts::{close, pass, Facts, A, B, C, F, M, T, W};
use reference::machine::{fresh, nodes_within, run, step_stored, Machine, Stop};
use reference::rule::check_rule;
use reference::script::{check_bare, check_script, encode_lines, Line};
use reference::weave::weave_lines;
use reference::{no, No};

const SINCE: [u32; 3] = [0x2200_0800, 0x2400_0800, 0x8000_0002];

fn refusal<X>(answer: Result<X, No>) -> Option<(u32, usize)> {
    answer.err().map(|n| (n.number, n.place))
}

#[test]
fn rule_questions_in_order() {
    for (words, want) in [
        (&[0; 33][..], (1, 0)),
        (&[7 << 29], (2, 0)),
        // the other register of a kind 6, in one pass with the kinds and unused fields
        (&[6 << 29 | 16 << 11], (2, 0)),
        (&[6 << 29 | 16_383 << 11], (2, 0)),
        (&[0, 6 << 29 | 16 << 11, 7 << 29], (2, 1)),
        (&[1, 6 << 29 | 16 << 11], (2, 0)),
        (&[6 << 29 | 1 << 6], (2, 0)),
        (&[6 << 29 | 1 << 1], (2, 0)),
        (&[1], (2, 0)),
        (&[1 << 11], (2, 0)),
        (&[0, 5 << 29 | 1 << 1], (2, 1)),
        // 2 is put to the whole before 3
        (&[3 << 29, 1], (2, 1)),
        (&[0, 4 << 29 | 1 << 6], (3, 1)),
        (&[0, 0, 5 << 29], (4, 1)),
        (&[0, 0, 3 << 29], (4, 1)),
        (&[0, 0, 0, 3 << 29 | 1 << 1], (4, 2)),
    ] {
        assert_eq!(refusal(check_rule(words)), Some(want), "{words:x?}");
    }
    // the last register, and a register with itself
    assert_eq!(refusal(check_rule(&[6 << 29 | 1 << 25 | 15 << 11])), None);
    assert_eq!(refusal(check_rule(&[6 << 29 | 1 << 25 | 1 << 11])), None);
}

/// Instructions alone, as an annotated script that notes nothing.
fn unnoted(lines: &[Line]) -> Option<(u32, usize)> {
    refusal(check_script(&SINCE, &encode_lines(lines)))
}

#[test]
fn script_questions_in_order() {
    let i = Line::new;
    let halt = i(0, 0, 0, 0);
    assert_eq!(unnoted(&[i(9, 2, 2, 0), halt]), Some((6, 0)));
    assert_eq!(unnoted(&[i(9, 1, 2, 0), halt]), None);
    assert_eq!(unnoted(&[i(9, 1, 1, 0), halt]), Some((6, 0)));
    assert_eq!(unnoted(&[i(12, 0, 3, 0), halt]), Some((6, 0)));
    assert_eq!(unnoted(&[i(13, 0, 15, 0), halt]), None);
    assert_eq!(unnoted(&[i(13, 0, 16, 0), halt]), Some((6, 0)));
    assert_eq!(unnoted(&[i(14, 15, 16_383, 0), halt]), None);
    assert_eq!(unnoted(&[i(14, 0, 0, 1), halt]), Some((6, 0)));
    assert_eq!(unnoted(&[i(14, 0, 0, 0)]), Some((7, 0)));
    assert_eq!(unnoted(&[i(15, 0, 0, 0), halt]), Some((6, 0)));
    assert_eq!(unnoted(&[i(2, 0, 16, 0), halt]), Some((6, 0)));
    // 6 is put to the whole before 7
    assert_eq!(unnoted(&[i(6, 0, 0, 9), i(15, 0, 0, 0)]), Some((6, 1)));
    // r < 0 never holds, both ways all the same
    assert_eq!(unnoted(&[i(6, 0, 0, 9), halt]), Some((7, 0)));
    assert_eq!(unnoted(&[i(6, 0, 0, 0)]), Some((7, 0)));
    // a register with itself always holds, both ways all the same
    assert_eq!(unnoted(&[i(13, 1, 1, 0)]), Some((7, 0)));
    assert_eq!(unnoted(&[i(13, 1, 1, 9), halt]), Some((7, 0)));
    assert_eq!(unnoted(&[i(7, 0, 0, 0)]), None);
    assert_eq!(unnoted(&vec![halt; 1025]), Some((5, 0)));
    assert_eq!(unnoted(&vec![halt; 1024]), None);
    assert_eq!(refusal(check_bare(&SINCE, &[i(13, 1, 2, 1).word(), 0])), None);
    assert_eq!(refusal(check_bare(&SINCE, &[i(14, 1, 2, 0).word(), 0])), None);
    for op in [9, 10, 11, 12, 15] {
        assert_eq!(refusal(check_bare(&SINCE, &[i(op, 0, 2, 0).word(), 0])), Some((6, 0)));
    }
    assert_eq!(refusal(check_script(&SINCE, &[0; 7])), Some((5, 0)));
    assert_eq!(refusal(check_script(&SINCE, &[0; 9])), Some((5, 0)));
}

#[test]
fn first_facts() {
    let halt = |fact: usize, node: usize| refusal(check_script(&SINCE, &encode_lines(&[Line { facts: Facts::none().with(fact, node), ..Line::new(0, 0, 0, 0) }])));
    assert_eq!(halt(0, 3), Some((8, 0)), "T of a node that is not there");
    assert_eq!(halt(4, 1), Some((8, 0)), "M of a test");
    assert_eq!(halt(0, 0), Some((9, 0)), "T of a test");
    assert_eq!(halt(3, 2), None, "B of the since");
    assert_eq!(halt(6, 2), Some((9, 0)), "C is true at the start, yet not among the first facts");
}

#[test]
fn target_is_next_line() {
    // "if register 1 = 1 go to 1" at line 0, and "if register 1 = register 2": line 1 may note neither T nor F of the test
    for (rule, branch) in [(0x2200_0800, Line::new(5, 1, 1, 1)), (0xc200_1000, Line::new(13, 1, 2, 1))] {
        for (fact, want) in [(None, None), (Some(0), Some((11, 0))), (Some(1), Some((11, 0)))] {
            let facts = fact.map_or(Facts::none(), |f| Facts::none().with(f, 0));
            let lines = [branch, Line { facts, ..Line::new(0, 0, 0, 0) }];
            assert_eq!(refusal(check_script(&[rule], &encode_lines(&lines))), want);
        }
    }
}

#[test]
fn registers_in_the_same_order() {
    // register 1 = register 2 is told by 13 1 2, and by neither 13 2 1 nor 5 1 2
    for (branch, want) in [(Line::new(13, 1, 2, 2), None), (Line::new(13, 2, 1, 2), Some((11, 0))), (Line::new(5, 1, 2, 2), Some((11, 0)))] {
        for fact in [T, F] {
            let noted = Line { facts: Facts::none().with(fact, 0), ..Line::new(0, 0, 0, 0) };
            let plain = Line::new(0, 0, 0, 0);
            let lines = if fact == T { [branch, plain, noted] } else { [branch, noted, plain] };
            assert_eq!(refusal(check_script(&[0xc200_1000], &encode_lines(&lines))), want);
        }
    }
}

#[test]
fn stops_in_order() {
    let rule = [0, 0, 3 << 29 | 1 << 1]; // true
    let weave = |bare: &[Line]| encode_lines(&weave_lines(&check_rule(&rule).unwrap(), bare).0);
    let (halt, input, present) = (Line::new(0, 0, 0, 0), Line::new(4, 0, 0, 0), Line::new(8, 0, 0, 0));
    let stop = |script: &[u32], budget: u64, space: usize| run(&rule, script, &[], budget, &mut vec![0; space]).unwrap().stop;
    assert_eq!(stop(&weave(&[halt]), 0, 0), Stop::Halted);
    assert_eq!(stop(&weave(&[input, halt]), 0, 0), Stop::Spent);
    assert_eq!(stop(&weave(&[input, halt]), 1, 0), Stop::Dry);
    assert_eq!(stop(&weave(&[present, halt]), 100, 15), Stop::Full);
    assert_eq!(stop(&weave(&[present, halt]), 100, 16), Stop::Halted);
    assert_eq!(run(&rule, &weave(&[input, halt]), &[16_384], 0, &mut []), no(15, 0));
}

#[test]
fn closing_back_is_not_done() {
    // T of an implies and of its left give nothing for its right; T of weak previous gives no A
    let r = check_rule(&[0x2200_0800, 0x2400_0800, 3 << 29 | 1 << 1, 5 << 29 | 2 << 6]).unwrap();
    let s = Facts::none().with(T, 2).with(T, 0).with(T, 3);
    assert_eq!(close(&r, &s), s);
}

#[test]
fn steps_that_cannot_be_run() {
    let present = Line::new(8, 0, 0, 0).encode_annotated();
    let start = fresh(&nodes_within(&SINCE));
    let mut history = [9; 32];
    // a line that is not there, a word that question 6 turns away, more presentations than there is room for
    let far = Machine { line: u64::MAX, ..start.clone() };
    assert_eq!(step_stored(&SINCE, &present, &[], &mut history, far.clone()), far);
    assert_eq!(step_stored(&SINCE, &[15 << 28; 8], &[], &mut history, start.clone()), start);
    let many = Machine { presentations: u64::MAX, ..start.clone() };
    assert_eq!(step_stored(&SINCE, &present, &[], &mut history, many.clone()), many);
    assert_eq!(history, [9; 32]);
    let once = Machine { presentations: 1, ..start };
    let after = step_stored(&SINCE, &present, &[], &mut history, once);
    assert!(after.presentations == 2 && after.line == 1 && history[..16] == [9; 16] && history[16..] == [0; 16]);
}

#[test]
fn registers_stop_at_their_ends() {
    // 16,384 and above: no run has such a register
    for (op, before, c, after) in [
        (3, 16_000, 382, 16_382),
        (3, 16_000, 383, 16_383),
        (3, 16_000, 384, 16_383),
        (3, 16_383, 16_383, 16_383),
        (3, 65_535, 16_383, 16_383),
        (3, 16_384, 0, 16_383),
        (14, 384, 383, 1),
        (14, 384, 384, 0),
        (14, 384, 385, 0),
        (14, 0, 16_383, 0),
        (14, 60_000, 5, 59_995),
    ] {
        let mut start = fresh(&nodes_within(&SINCE));
        start.dials[1] = before;
        let moved = step_stored(&SINCE, &Line::new(op, 1, c, 0).encode_annotated(), &[], &mut [], start);
        assert!(moved.dials[1] == after && moved.line == 1, "{op}: {before} by {c}");
    }
}

#[test]
fn lowering_drops_what_other_register_writes_drop() {
    // weak previous of register 1 = 1: T and F of the test, W, A, B, M and C of the weak previous
    let rule = check_rule(&[0x2200_0800, 5 << 29]).unwrap();
    for op in [1, 2, 3, 4, 14] {
        for (fact, node) in [(T, 0), (F, 0), (W, 1), (A, 1), (B, 1), (M, 1), (C, 1)] {
            let noted = Facts::none().with(fact, node);
            let passed = pass(&rule, &Line { facts: noted, ..Line::new(op, 1, 0, 0) });
            let kept = passed.next.is_some_and(|f| noted.among(&f));
            assert_eq!(kept, !matches!(fact, T | F | W), "{op} {fact}");
        }
    }
}

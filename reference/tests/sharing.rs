//! 2026-06: a node may be an operand more than once. Corners of what the request says, its cases, and tables with shared nodes beside the
//! tables that write them out.
use reference::facts::{belongs, pass, Facts, A, B, C, F, M, T, W};
use reference::generate;
use reference::judge::{first_false_direct, first_false_kept, states};
use reference::largest::find_facts;
use reference::machine::{fresh, nodes_within, run, step_stored, Stop};
use reference::plain;
use reference::random::Rng;
use reference::rule::{check_rule, Node, Rule};
use reference::script::{check_bare, check_script, encode_lines, instruction_words, Line};
use reference::weave::weave_lines;
use reference::No;

/// Register 1 = 1, register 2 < 2, register 1 = register 2.
const A1: u32 = 0x2200_0800;
const B2: u32 = 0x4400_1000;
const E12: u32 = 0xc200_1000;

const HALT: Line = Line { op: 0, r: 0, c: 0, target: 0, zero: 0, facts: Facts { set: [0; 7] } };
const PRESENT: Line = Line { op: 8, ..HALT };

const fn implies(left: u32, right: u32) -> u32 {
    3 << 29 | left << 6 | right << 1
}

const fn since(left: u32, right: u32) -> u32 {
    4 << 29 | left << 6 | right << 1
}

const fn weak_previous(left: u32) -> u32 {
    5 << 29 | left << 6
}

fn refusal<X>(answer: Result<X, No>) -> Option<(u32, usize)> {
    answer.err().map(|n| (n.number, n.place))
}

fn rule(words: &[u32]) -> Rule {
    check_rule(words).unwrap_or_else(|no| panic!("{words:x?}: {no:?}"))
}

fn facts(noted: &[(usize, usize)]) -> Facts {
    noted.iter().fold(Facts::none(), |all, &(fact, node)| all.with(fact, node))
}

fn line(op: u8, r: u8, c: u16, target: u16, noted: &[(usize, usize)]) -> Line {
    Line { facts: facts(noted), ..Line::new(op, r, c, target) }
}

#[test]
fn question_4() {
    for words in [
        &[A1, implies(0, 0)][..],
        &[A1, since(0, 0)],
        &[A1, weak_previous(0), implies(0, 1)],
        &[0, implies(0, 0), implies(1, 1), since(2, 2)],
    ] {
        rule(words);
    }
    for (words, place) in
        [(&[0, 0][..], 0), (&[A1, B2, implies(0, 0)], 1), (&[A1, B2, implies(1, 1)], 0), (&[A1, weak_previous(0), B2, implies(0, 0)], 1)]
    {
        assert_eq!(refusal(check_rule(words)), Some((4, place)), "{words:x?}");
    }
    // 3 comes first
    assert_eq!(refusal(check_rule(&[A1, B2, implies(2, 2)])), Some((3, 2)));
}

/// Operand places count, not the nodes that have them; the zero fields of a test or a false mention nothing; past nodes are not shared.
#[test]
fn which_nodes_are_shared() {
    for (words, shared) in [
        (&[A1][..], &[][..]),
        (&[A1, B2, implies(0, 1)], &[]),
        (&[A1, implies(0, 0)], &[0]),
        (&[0, since(0, 0)], &[0]),
        (&[E12, weak_previous(0), weak_previous(0), since(1, 2)], &[0]),
        (&[A1, weak_previous(0), implies(1, 1)], &[]),
        (&[A1, B2, since(0, 1), implies(2, 2)], &[]),
        (&[A1, B2, implies(0, 1), since(2, 2)], &[2]),
        (&[A1, implies(0, 0), implies(1, 1), implies(2, 2)], &[0, 1, 2]),
    ] {
        assert_eq!(rule(words).shared_nodes(), shared, "{words:x?}");
    }
}

/// A test that is shared, one that is not, a since of both, and an implies of the since and the shared test.
const MIXED: [u32; 4] = [A1, B2, since(0, 1), implies(2, 0)];

#[test]
fn what_opcodes_may_name() {
    let asked = |op: u8, c: u16| refusal(check_script(&MIXED, &encode_lines(&[Line::new(op, 0, c, 0), HALT])));
    for op in [9, 11] {
        assert_eq!([0, 1, 2, 3, 4, 16_383].map(|c| asked(op, c)), [None, Some((6, 0)), None, Some((6, 0)), Some((6, 0)), Some((6, 0))]);
    }
    for op in [10, 12] {
        assert_eq!([0, 1, 2, 3, 4].map(|c| asked(op, c)), [Some((6, 0)), Some((6, 0)), None, Some((6, 0)), Some((6, 0))]);
    }
    // the bit is 0 or 1, the other fields are zero
    for bad in [Line::new(9, 2, 0, 0), Line::new(9, 0, 0, 1), Line::new(11, 1, 0, 0)] {
        assert_eq!(refusal(check_script(&MIXED, &encode_lines(&[bad, HALT]))), Some((6, 0)));
    }
    // not in bare scripts
    assert_eq!(refusal(check_bare(&MIXED, &[Line::new(9, 0, 0, 0).word(), 0])), Some((6, 0)));
}

#[test]
fn where_facts_belong() {
    let r = rule(&MIXED);
    for fact in 0..7 {
        let nodes: Vec<usize> = (0..32).filter(|&node| belongs(&r, fact, node)).collect();
        assert_eq!(
            nodes,
            match fact {
                T | F => vec![0, 1, 2, 3],
                W => vec![0, 2],
                _ => vec![2],
            }
        );
        for node in 0..5 {
            // line 1 is led to by nothing
            let script = encode_lines(&[HALT, line(0, 0, 0, 0, &[(fact, node)])]);
            assert_eq!(refusal(check_script(&MIXED, &script)), (!nodes.contains(&node)).then_some((8, 1)));
        }
    }
}

/// What a line of MIXED passes on to its target and to the next line, of these facts.
fn passed(op: u8, r: u8, c: u16, noted: &[(usize, usize)]) -> (Option<Facts>, Option<Facts>) {
    let p = pass(&rule(&MIXED), &line(op, r, c, 0, noted));
    (p.target, p.next)
}

#[test]
fn what_lines_pass_on() {
    // register writes drop W of either
    for op in [1, 2, 3, 4, 14] {
        assert_eq!(passed(op, 1, 0, &[(W, 0), (W, 2), (M, 2)]), (None, Some(facts(&[(M, 2)]))));
    }
    // a present drops W of the shared node without giving C; of the past node it gives C
    assert_eq!(passed(8, 0, 0, &[(W, 0)]), (None, Some(Facts::none())));
    assert_eq!(passed(8, 0, 0, &[(W, 0), (W, 2), (T, 2)]), (None, Some(facts(&[(A, 2), (C, 2)]))));
    // branches and gos keep it
    assert_eq!(passed(7, 0, 0, &[(W, 0)]), (Some(facts(&[(W, 0)])), None));
    assert_eq!(passed(10, 0, 2, &[(W, 0)]), (Some(facts(&[(W, 0)])), Some(facts(&[(W, 0)]))));
    assert_eq!(passed(12, 0, 2, &[(W, 0)]), (None, Some(facts(&[(W, 0)]))));
    // 9: W if the bit set agrees with T or F, else W goes; the other nodes' W stays. T of node 0 makes node 3 true.
    assert_eq!(passed(9, 1, 0, &[(T, 0), (W, 2)]), (None, Some(facts(&[(T, 0), (T, 3), (W, 0), (W, 2)]))));
    assert_eq!(passed(9, 0, 0, &[(F, 0)]), (None, Some(facts(&[(F, 0), (W, 0)]))));
    assert_eq!(passed(9, 0, 0, &[(T, 0), (W, 0)]), (None, Some(facts(&[(T, 0), (T, 3)]))));
    assert_eq!(passed(9, 1, 0, &[(F, 0), (W, 0)]), (None, Some(facts(&[(F, 0)]))));
    assert_eq!(passed(9, 1, 0, &[(W, 0)]), (None, Some(Facts::none())));
    // what nothing leads to may have both
    assert_eq!(passed(9, 1, 0, &[(T, 0), (F, 0)]), (None, Some(facts(&[(T, 0), (F, 0), (T, 3), (W, 0)]))));
    // 11: T and F with W, nothing without it
    assert_eq!(passed(11, 0, 0, &[(W, 0)]), (Some(facts(&[(T, 0), (T, 3), (W, 0)])), Some(facts(&[(F, 0), (W, 0)]))));
    assert_eq!(passed(11, 0, 0, &[(W, 2)]), (Some(facts(&[(W, 2)])), Some(facts(&[(W, 2)]))));
    // a known value that closing gives counts for 9: implies 0 0 is true whatever node 0 is
    let r = rule(&[A1, implies(0, 0), implies(1, 1)]);
    assert_eq!(pass(&r, &line(9, 1, 1, 0, &[(F, 0)])).next, Some(facts(&[(F, 0), (T, 1), (T, 2), (W, 1)])));
}

/// The work bit of a shared node is 0 at first, is no kept bit, and its W is not among the first facts.
#[test]
fn fresh_bits() {
    let m = fresh(&rule(&MIXED).nodes);
    assert!(m.work == [false; 64] && m.kept == [false; 64]);
    let noted = |noted: &[(usize, usize)]| refusal(check_script(&MIXED, &encode_lines(&[line(0, 0, 0, 0, noted)])));
    assert_eq!(noted(&[(W, 0)]), Some((9, 0)));
    assert_eq!(noted(&[(M, 2), (B, 2)]), None);
}

/// "input 1, present, go to 0" for register 1 = 1 since itself, line by line.
#[test]
fn woven_line_by_line() {
    let words = [A1, since(0, 0)];
    let bare = [Line::new(4, 1, 0, 0), PRESENT, Line::new(7, 0, 0, 0)];
    let (m, w, done) = ((M, 1), (W, 0), (W, 1));
    let want = [
        line(4, 1, 0, 0, &[m]),
        // the shared test
        line(5, 1, 1, 3, &[m]),
        line(7, 0, 0, 5, &[m, (F, 0)]),
        line(9, 1, 0, 0, &[m, (T, 0)]),
        line(7, 0, 0, 6, &[m, w]),
        line(9, 0, 0, 0, &[m, (F, 0)]),
        // the since: right, the 10, left
        line(11, 0, 0, 12, &[m, w]),
        line(7, 0, 0, 8, &[m, w, (F, 0)]),
        line(10, 0, 1, 10, &[m, w, (F, 0)]),
        line(7, 0, 0, 14, &[m, w, (F, 0), (B, 1)]),
        line(11, 0, 0, 12, &[m, w, (F, 0), (A, 1)]),
        line(7, 0, 0, 14, &[m, w, (F, 0), (A, 1)]),
        line(9, 1, 1, 0, &[m, w, (T, 1)]),
        line(7, 0, 0, 15, &[m, w, done]),
        line(9, 0, 1, 0, &[m, w, (F, 1)]),
        // the rule
        line(11, 0, 1, 17, &[m, w, done]),
        line(7, 0, 0, 19, &[m, w, done, (F, 1)]),
        line(8, 0, 0, 0, &[m, w, done, (T, 1)]),
        line(12, 0, 1, 0, &[(C, 1)]),
        line(7, 0, 0, 0, &[m]),
    ];
    assert_eq!(weave_lines(&rule(&words), &bare).0, want);
    assert_eq!(refusal(check_script(&words, &encode_lines(&want))), None);

    // misused by strangers: 10 or 12 on the shared node, C, A, B or M of it
    let spoiled = |at: usize, with: Line| {
        let mut lines = want;
        lines[at] = with;
        refusal(check_script(&words, &encode_lines(&lines)))
    };
    assert_eq!(spoiled(6, Line { op: 10, ..want[6] }), Some((6, 6)));
    assert_eq!(spoiled(18, Line { c: 0, ..want[18] }), Some((6, 18)));
    for fact in [A, B, M, C] {
        assert_eq!(spoiled(18, line(12, 0, 1, 0, &[(C, 1), (fact, 0)])), Some((8, 18)));
    }
    // W kept over the present, and from the block's end over the input to its start
    assert_eq!(spoiled(18, line(12, 0, 1, 0, &[(C, 1), w])), Some((11, 17)));
    assert_eq!(spoiled(1, line(5, 1, 1, 3, &[m, w])), Some((11, 0)));
    // the wrong bit, the wrong node, no bit at all
    assert_eq!(spoiled(3, Line { r: 0, ..want[3] }), Some((11, 3)));
    assert_eq!(spoiled(10, Line { c: 1, ..want[10] }), Some((11, 10)));
    assert_eq!(spoiled(5, line(7, 0, 0, 6, &[m, (F, 0)])), Some((11, 5)));
    // fewer facts: W of the shared node is not needed at the present, but where it is asked
    assert_eq!(spoiled(17, line(8, 0, 0, 0, &[m, done, (T, 1)])), None);
    assert_eq!(spoiled(10, line(11, 0, 0, 12, &[m, (F, 0), (A, 1)])), Some((11, 10)));
}

/// A stranger's script that works out "register 1 = 1" once and asks its bit: accepted, but not over an input or a present.
#[test]
fn strangers() {
    let words = [A1, implies(0, 0)];
    let script = |third: Line, last: Line| {
        let start = [line(5, 1, 1, 3, &[]), line(9, 0, 0, 0, &[(F, 0)]), line(7, 0, 0, 4, &[(W, 0), (T, 1)]), line(9, 1, 0, 0, &[(T, 0)])];
        [&start[..], &[third, last]].concat()
    };
    let asked = |lines: &[Line]| refusal(check_script(&words, &encode_lines(lines)));
    let (input, present) = (line(4, 1, 0, 0, &[(W, 0), (T, 1)]), line(8, 0, 0, 0, &[(W, 0), (T, 1)]));
    for third in [input, present] {
        assert_eq!(asked(&script(third, HALT)), None);
        assert_eq!(asked(&script(third, line(0, 0, 0, 0, &[(W, 0)]))), Some((11, 4)));
        assert_eq!(asked(&script(third, line(0, 0, 0, 0, &[(C, 0)]))), Some((8, 5)));
    }
    // over a go it is kept
    assert_eq!(asked(&script(line(7, 0, 0, 5, &[(W, 0)]), line(0, 0, 0, 0, &[(W, 0)]))), None);
    assert_eq!(asked(&script(Line::new(10, 0, 0, 5), HALT)), Some((6, 4)));
    assert_eq!(asked(&script(Line::new(12, 0, 0, 0), HALT)), Some((6, 4)));
    // The largest facts are these and what closing adds: T of the last node everywhere after the test. The present has W, the halt nothing.
    let instructions = instruction_words(&script(present, HALT));
    let mut out = vec![0; 48];
    assert_eq!(find_facts(&words, &instructions, &mut out), Ok(2 + 3 + 2 + 2));
    let found: Vec<Facts> = check_script(&words, &out).unwrap().1.iter().map(|l| l.facts).collect();
    let (f, t) = (facts(&[(F, 0), (T, 1)]), facts(&[(T, 0), (T, 1)]));
    assert_eq!(found, [Facts::none(), f, f.with(W, 0), t, facts(&[(T, 1), (W, 0)]), Facts::none()]);
}

/// Register 3 = 1, masking is on, three times: at a level of 41 and more it has to be on; and if it was on at the last presentation (or this
/// is the first), it has been on since register 2 = 1, the patient was told. False is used three times as well.
const MASKING: [u32; 12] = [
    0x2600_0800,
    0x4201_4800,
    0,
    implies(1, 2),
    implies(3, 0),
    0x2400_0800,
    since(0, 5),
    weak_previous(0),
    implies(7, 6),
    implies(8, 2),
    implies(4, 9),
    implies(10, 2),
];

#[test]
fn masking_is_on_three_times() {
    let r = rule(&MASKING);
    assert_eq!((r.shared_nodes(), r.uses(0), r.uses(2)), (vec![0, 2], 3, 3));
    // "input 1, input 2, input 3, present, go to 0"
    let bare = [Line::new(4, 1, 0, 0), Line::new(4, 2, 0, 0), Line::new(4, 3, 0, 0), PRESENT, Line::new(7, 0, 0, 0)];
    let woven = weave_lines(&r, &bare).0;
    assert_eq!((woven.len(), r.block_lines()), (44, 1 + 2 * 3 + 1 + 8 + 6 + 2 * (3 + 2 * 3)));
    // level, told, masking; presented or not
    let tones = [
        (30, 1, 1, true),
        (50, 0, 1, true),
        (50, 0, 0, false),
        (30, 0, 0, false),
        (30, 1, 0, true),
        (30, 0, 0, true),
        (50, 0, 1, true),
        (50, 0, 1, false),
        (20, 1, 1, true),
    ];
    let inputs: Vec<u16> = tones.iter().flat_map(|&(level, told, masking, _)| [level, told, masking]).collect();
    let mut history = vec![7; 16 * 9];
    let ran = run(&MASKING, &encode_lines(&woven), &inputs, 10_000, &mut history).unwrap();
    let presented: Vec<(u16, u16, u16)> = states(&history[..16 * ran.presentations as usize]).iter().map(|s| (s[1], s[2], s[3])).collect();
    let wanted: Vec<(u16, u16, u16)> =
        tones.iter().filter(|tone| tone.3).map(|&(level, told, masking, _)| (level, told, masking)).collect();
    assert_eq!((ran.stop, presented), (Stop::Dry, wanted));
    // each of the two is worked out once: one test of register 3, one 9 to 1 each
    assert_eq!(woven.iter().filter(|l| (l.op, l.r) == (5, 3)).count(), 1);
    assert_eq!([0, 2].map(|node| woven.iter().filter(|l| (l.op, l.r, l.c) == (9, 1, node)).count()), [1, 1]);
    assert_eq!([0, 2].map(|node| woven.iter().filter(|l| (l.op, l.c) == (11, node)).count()), [3, 3]);
}

/// A shared test of each kind, a shared false, a shared implies, a past node used twice, and past nodes as the last one: accepted, of as
/// many lines as the formula gives, and what is seen of a run is what is seen of the plain machine.
#[test]
fn cases_of_each_kind() {
    let test = 2;
    for (words, block) in [
        (&[A1, implies(0, 0)][..], 1 + test + 3 + 2 * 2),
        (&[B2, implies(0, 0)], 1 + test + 3 + 2 * 2),
        (&[E12, implies(0, 0)], 1 + test + 3 + 2 * 2),
        (&[0, implies(0, 0)], 1 + 1 + 3 + 2 * 2),
        (&[0, implies(0, 0), implies(1, 0)], 1 + 1 + 3 + 2 * 3),
        (&[A1, B2, implies(0, 1), implies(2, 2)], 1 + 2 * test + 3 + 2 * 2),
        (&[A1, B2, implies(0, 1), implies(2, 0), implies(2, 3)], 1 + 2 * test + (3 + 2 * 2) + (3 + 2 * 2)),
        // past nodes used twice, one of them by itself
        (&[A1, B2, since(0, 1), implies(2, 2)], 1 + 2 * test + 8 + 2),
        (&[A1, weak_previous(0), implies(1, 1)], 1 + test + 6 + 2),
        (&[A1, B2, since(0, 1), weak_previous(2), implies(2, 3)], 1 + 2 * test + 8 + 6 + 2),
        (&[A1, weak_previous(0), since(1, 1)], 1 + test + 6 + 2 + 8),
        (&[A1, weak_previous(0), weak_previous(1), since(1, 2), since(3, 1)], 1 + test + 6 + 4 + 6 + 8 + 8),
        // a past node as the last one, of shared nodes
        (&[A1, since(0, 0)], 1 + test + 3 + 2 * 2 + 8),
        (&[E12, since(0, 0), weak_previous(0), since(1, 2)], 1 + test + 3 + 2 * 3 + 8 + 6 + 8),
        (&[0, implies(0, 0), weak_previous(1)], 1 + 1 + 3 + 2 * 2 + 6),
        // shared nodes below and above past ones
        (&[A1, weak_previous(0), implies(0, 1), since(2, 2)], 1 + test + (3 + 2 * 2) + 6 + (3 + 2 * 2) + 8),
    ] {
        let r = rule(words);
        assert_eq!(r.block_lines(), block, "{words:x?}");
        let bare = [Line::new(4, 1, 0, 0), Line::new(4, 2, 0, 0), PRESENT, Line::new(7, 0, 0, 0)];
        let woven = weave_lines(&r, &bare).0;
        assert_eq!(woven.len(), 3 + block, "{words:x?}");
        let script = encode_lines(&woven);
        assert_eq!(refusal(check_script(words, &script)), None, "{words:x?}");
        // four times two numbers of 0 to 2
        for code in 0..3u32.pow(8) {
            let inputs: Vec<u16> = (0..8).map(|k| (code / 3u32.pow(k) % 3) as u16).collect();
            let mut history = vec![0; 64];
            let ran = run(words, &script, &inputs, 100_000, &mut history).unwrap();
            let p = (0..20).fold(plain::start(), |p, _| p.step(&r, &bare, &inputs, 64).0);
            assert_eq!((ran.stop, states(&history[..16 * ran.presentations as usize])), (Stop::Dry, p.history), "{words:x?}");
        }
    }
}

/// In a block each node's code sets its own bit twice, in one rising order over past and shared nodes, and no 12 is for a shared one.
#[test]
fn one_rising_order() {
    let mut g = Rng(6);
    let mut mixed = 0;
    for _ in 0..500 {
        let size = g.within(2, 32);
        let r = generate::sharing_rule(&mut g, size);
        let lines = weave_lines(&r, &[PRESENT, HALT]).0;
        let named = |op: u8| lines.iter().filter(move |l| l.op == op).map(|l| (l.c as usize, l.r));
        assert!(named(9).eq(r.work_nodes().into_iter().flat_map(|i| [(i, 1), (i, 0)])));
        assert!(named(12).map(|(c, _)| c).eq(r.past_nodes()));
        // as many 11s as there are mentions, of sinces also where one is the last node
        for i in r.shared_nodes() {
            assert_eq!(named(11).filter(|&(c, _)| c == i).count(), r.uses(i));
        }
        let orders = r.work_nodes().windows(2).any(|w| r.is_past(w[0]) && r.is_shared(w[1]));
        mixed += (orders && r.work_nodes().windows(2).any(|w| r.is_shared(w[0]) && r.is_past(w[1]))) as u32;
    }
    assert!(mixed > 200, "{mixed}");
}

/// The table with every mention written out, each node an operand once, if it has at most 32 nodes.
fn written_out(r: &Rule) -> Option<Vec<u32>> {
    fn write(r: &Rule, i: usize, out: &mut Vec<Node>) -> Option<u8> {
        let mut d = r.nodes[i];
        if matches!(d.kind, 3..=5) {
            d.left = write(r, d.left as usize, out)?;
        }
        if matches!(d.kind, 3 | 4) {
            d.right = write(r, d.right as usize, out)?;
        }
        out.push(d);
        (out.len() <= 32).then_some(out.len() as u8 - 1)
    }
    let mut out = vec![];
    write(r, r.last(), &mut out)?;
    Some(out.iter().map(Node::encode).collect())
}

/// A phrase used twice means what it means written twice: the same verdicts, and runs that present the same.
#[test]
fn phrases_written_out() {
    let mut g = Rng(7);
    let (mut met, mut ran_alike) = (0, 0);
    while met < 500 {
        let size = g.within(2, 20);
        let r = generate::sharing_rule(&mut g, size);
        let Some(long) = written_out(&r).filter(|long| long.len() > r.len()) else { continue };
        let long = rule(&long);
        assert!(long.shared_nodes().is_empty());
        met += 1;
        for _ in 0..5 {
            let history = generate::history(&mut g, 12);
            let index = first_false_direct(&long, &history);
            assert_eq!([first_false_kept(&r, &history), first_false_direct(&r, &history), first_false_kept(&long, &history)], [index; 3]);
        }
        let n = g.within(2, 12);
        let bare = generate::bare(&mut g, &r, n);
        let inputs = generate::inputs(&mut g);
        let seen = [&r, &long].map(|r| {
            let script = encode_lines(&weave_lines(r, &bare).0);
            let mut history = vec![0; 16 * 20];
            run(&r.words(), &script, &inputs, 20_000, &mut history).map(|ran| (ran.stop, ran.dials, ran.read, ran.presentations, history))
        });
        // of a run that is spent the two may be at different places
        if let [Ok(short), Ok(long)] = &seen {
            if short.0 != Stop::Spent && long.0 != Stop::Spent {
                assert!(short == long);
                ran_alike += 1;
            }
        }
    }
    assert!(ran_alike > 300, "{ran_alike}");
}

/// A chain in which each node is used twice by the next: two to the 31st paths, a few lines for each node.
#[test]
fn every_node_twice() {
    for (join, each) in [(implies as fn(u32, u32) -> u32, 3 + 4), (since, 8 + 2)] {
        let words: Vec<u32> = std::iter::once(A1).chain((1..32).map(|k| join(k - 1, k - 1))).collect();
        let r = rule(&words);
        let lines = weave_lines(&r, &[Line::new(4, 1, 0, 0), PRESENT, Line::new(7, 0, 0, 0)]).0;
        // the test is shared; the last node is no operand
        let last = if each == 10 { 8 } else { 0 };
        assert_eq!(r.block_lines(), 1 + 2 + 7 + 30 * each + last);
        assert_eq!(lines.len(), 2 + r.block_lines());
        assert_eq!(refusal(check_script(&words, &encode_lines(&lines))), None);
    }
    // the longest block of 32 nodes that was thought of: sinces of two sinces
    let words: Vec<u32> = [A1, since(0, 0)].into_iter().chain((2..32).map(|k| since(k - 1, k - 2))).collect();
    assert_eq!(rule(&words).block_lines(), 1 + (2 + 3 + 2 * 3) + 31 * 8 + 2 * 28 + 2);
}

/// A step of a table that passes no question: mentions count in the first 32 nodes, and a number that is no node's may be mentioned.
#[test]
fn steps_of_any_table() {
    let set = |table: &[u32], c: u16| {
        let start = fresh(&nodes_within(table));
        step_stored(table, &Line::new(9, 1, c, 0).encode_annotated(), &[], &mut [], start).line == 1
    };
    assert!(set(&[A1, implies(0, 0)], 0) && !set(&[A1, B2, implies(0, 1)], 0));
    // a node of its own operands; a number beyond the table; a kind that is none has no operands
    assert!(set(&[implies(0, 0)], 0) && set(&[implies(9, 9)], 9) && !set(&[implies(9, 8)], 9) && !set(&[7 << 29, 7 << 29], 0));
    let long = |mentions: usize| [vec![0; mentions], vec![implies(3, 3)], vec![0; 2]].concat();
    assert!(set(&long(31), 3) && !set(&long(32), 3));
}

//! 2026-07, the second stored form: where its fields stand, its limits, and the functions of both forms side by side.
use reference::facts::{all_facts, first_facts, Facts, A, B, C, F, M, T, W};
use reference::form::Word;
use reference::generate;
use reference::generate_text::random_text;
use reference::judge::{first_false_direct, states};
use reference::machine::{fresh, Machine, Stop};
use reference::plain;
use reference::random::Rng;
use reference::ready::Readiness;
use reference::rule::Node;
use reference::script::{instruction_words, Line};
use reference::weave::weave_lines;
use reference::{form64, judge, largest, limits, machine, no, rule, script, text, weave, No};

/// Register 1 = 1 since register 2 = 1.
const SINCE: [u64; 3] = [0x2200_0800_0000_0000, 0x2400_0800_0000_0000, 0x8000_0000_8000_0000];

/// "input 1, input 2, present, go to 0"
const TONE: [u32; 4] = [4 << 28 | 1 << 24, 4 << 28 | 2 << 24, 8 << 28, 7 << 28];

/// Register 1 = 1, by the widths that the request gives.
const A1: u64 = 1 << 61 | 1 << 57 | 1 << 43;

const fn implies(left: u64, right: u64) -> u64 {
    3 << 61 | left << 37 | right << 31
}

const fn since(left: u64, right: u64) -> u64 {
    4 << 61 | left << 37 | right << 31
}

const fn weak_previous(left: u64) -> u64 {
    5 << 61 | left << 37
}

/// A test and weak previouses of it, n nodes in all.
fn chain(n: u64) -> Vec<u64> {
    (0..n).map(|i| if i == 0 { A1 } else { weak_previous(i - 1) }).collect()
}

fn refusal<X>(answer: Result<X, No>) -> Option<(u32, usize)> {
    answer.err().map(|no| (no.number, no.place))
}

/// An instruction in the upper half of a word.
fn upper(op: u64, r: u64, c: u64, target: u64) -> u64 {
    (op << 28 | r << 24 | c << 10 | target) << 32
}

/// A line that notes nothing.
fn unnoted(op: u64, r: u64, c: u64, target: u64) -> Vec<u64> {
    vec![upper(op, r, c, target), 0, 0, 0, 0, 0, 0, 0]
}

#[test]
fn where_fields_stand() {
    let word = 0b101 << 61 | 0b1001 << 57 | 0b10_0000_0000_0001 << 43 | 0b10_0001 << 37 | 0b11_1110 << 31 | 0x4000_0001;
    let node = Node { kind: 5, register: 9, constant: 8193, left: 33, right: 62, zero: 0x4000_0001 };
    assert_eq!(Node::decode_in::<u64>(word), node);
    assert_eq!(node.encode_in::<u64>(), word);
    assert_eq!(form64::check_rule(&SINCE), rule::check_rule(&[0x2200_0800, 0x2400_0800, 0x8000_0002]));

    let line = [0x5123_4567_89ab_cdef, 1, 2, 4, 1 << 63, 1 << 32, 1 << 31, 3 << 31];
    let noted = Facts::none().with(T, 63).with(F, 62).with(A, 61).with(B, 0).with(M, 31).with(W, 32).with(C, 31).with(C, 32);
    let read = Line::decode_annotated_in::<u64>(&line);
    assert_eq!(read, Line { zero: 0x89ab_cdef, facts: noted, ..Line::decode(0x5123_4567) });
    assert_eq!(read.encode_annotated_in::<u64>(), line);
}

#[test]
fn node_counts() {
    for n in [1, 31, 32, 33, 63, 64] {
        assert_eq!(form64::check_rule(&chain(n)).map(|rule| rule.len()), Ok(n as usize));
    }
    for n in [0, 65, 66, 128, 1000] {
        assert_eq!(form64::check_rule(&vec![7 << 61; n]), no(1, 0), "{n}");
    }
    // in the first form 32 are the most
    let first = |n: u32| rule::check_rule(&(0..n).map(|i| if i == 0 { 0x2200_0800 } else { 5 << 29 | (i - 1) << 6 }).collect::<Vec<_>>());
    assert_eq!((refusal(first(32)), refusal(first(33))), (None, Some((1, 0))));
}

#[test]
fn operands() {
    // 30 to 33, 61 and 62 as operands, on either side
    for i in [30, 31, 32, 61] {
        for last in [implies(i, i + 1), implies(i + 1, i), since(i, i + 1), since(i + 1, i)] {
            let rule = form64::check_rule(&[&chain(i + 1)[..], &[A1, last]].concat()).unwrap();
            assert!(rule.uses(i as usize) == 1 && rule.uses(i as usize + 1) == 1);
        }
    }
    // node 63 has operands 62 and 31
    let mut words = chain(63);
    words.push(implies(62, 31));
    let rule = form64::check_rule(&words).unwrap();
    assert!(rule.nodes[63].operands().eq([62, 31]) && rule.uses(31) == 2);
    // a number that is its node's own, or higher
    for (at, o) in [(31, 31), (31, 32), (31, 63), (32, 32), (32, 63), (63, 63)] {
        for bad in [implies(o, 0), implies(0, o), since(o, 0), since(0, o), weak_previous(o)] {
            let mut words = chain(64);
            words[at] = bad;
            assert_eq!(form64::check_rule(&words), no(3, at), "{at} {o}");
        }
    }
    // a node that is no operand
    for i in [0, 31, 32, 62] {
        let mut words = chain(64);
        words[i + 1] = A1;
        assert_eq!(form64::check_rule(&words), no(4, i));
    }
}

/// Each of the 31 zero bits is an unused field, in a node of each kind.
#[test]
fn stray_bits_of_nodes() {
    let words = [0, A1, 2 << 61, 6 << 61 | 15 << 43, implies(0, 1), since(2, 3), weak_previous(5), implies(4, 6)];
    assert_eq!(refusal(form64::check_rule(&words)), None);
    for i in 0..words.len() {
        for bit in 0..31 {
            let mut spoiled = words;
            spoiled[i] |= 1 << bit;
            assert_eq!(form64::check_rule(&spoiled), no(2, i), "{i} {bit}");
        }
    }
    // the other unused fields, to either end of an operand
    for (i, unused) in
        [(0, 1 << 42), (0, 1 << 37), (0, 1 << 36), (0, 1 << 31), (1, 1 << 37), (3, 1 << 36), (4, 1 << 43), (6, 1 << 31), (6, 1 << 36)]
    {
        let mut spoiled = words;
        spoiled[i] |= unused;
        assert_eq!(form64::check_rule(&spoiled), no(2, i), "{i} {unused:x}");
    }
    // 2 is put to the whole before 3, and 3 before 4
    assert_eq!(form64::check_rule(&[implies(0, 0), 1]), no(2, 1));
    assert_eq!(form64::check_rule(&[A1, A1, implies(2, 2)]), no(3, 2));
}

/// Each bit below an instruction is an unused field: 6, in the same pass as the question's other parts, and not 8.
#[test]
fn stray_bits_of_lines() {
    let halt = unnoted(0, 0, 0, 0);
    for bit in 0..32 {
        for at in 0..3 {
            let mut script = [unnoted(4, 1, 0, 0), unnoted(5, 1, 1, 0), halt.clone()].concat();
            script[8 * at] |= 1 << bit;
            assert_eq!(refusal(form64::check_script(&SINCE, &script)), Some((6, at)), "{bit} {at}");
            // a step there changes nothing
            let mut m = fresh(&form64::nodes_within(&SINCE));
            m.line = at as u64;
            assert_eq!(form64::step_stored(&SINCE, &script, &[1], &mut [], m.clone()), m);
        }
    }
    let stray = |script: Vec<Vec<u64>>| {
        let mut words = script.concat();
        let last = words.len() - 8;
        words[last] |= 1;
        refusal(form64::check_script(&SINCE, &words))
    };
    // a line that fails 7, facts that belong nowhere, and a line that fails 6 otherwise
    assert_eq!(stray(vec![unnoted(7, 0, 0, 9), halt.clone()]), Some((6, 1)));
    assert_eq!(stray(vec![[&[0][..], &[1; 7]].concat(), halt.clone()]), Some((6, 1)));
    assert_eq!(stray(vec![unnoted(15, 0, 0, 0), halt.clone()]), Some((6, 0)));
    // whole lines have eight words
    for n in [0, 1, 7, 9, 15, 8 * 1024 + 8] {
        assert_eq!(refusal(form64::check_script(&SINCE, &vec![0; n])), Some((5, 0)), "{n}");
    }
    assert_eq!(refusal(form64::check_script(&SINCE, &vec![0; 8 * 1024])), None);
}

/// The bits of nodes 31, 32 and 63 in each word of facts.
#[test]
fn facts_of_high_nodes() {
    for (n, node, bit) in [(32, 31, 1 << 32), (33, 31, 1 << 32), (33, 32, 1 << 31), (64, 32, 1 << 31), (64, 63, 1u64)] {
        let words = chain(n);
        let table = form64::check_rule(&words).unwrap();
        assert_eq!(first_facts(&table).set[M], (!0 << (64 - n)) & !(1 << 63), "M of all but the test");
        for fact in 0..7 {
            let mut script = unnoted(0, 0, 0, 0);
            script[1 + fact] = bit;
            // M and A of a weak previous are first facts, with the T that follows; the others are not
            let want = if [M, A, T].contains(&fact) { None } else { Some((9, 0)) };
            assert_eq!(refusal(form64::check_script(&words, &script)), want, "{n} {node} {fact}");
            // one node fewer, and the bit belongs nowhere
            if n == node + 1 {
                assert_eq!(refusal(form64::check_script(&chain(n - 1), &script)), Some((8, 0)), "{n} {node} {fact}");
            }
            script[1 + fact] = 1 << 63;
            let test = if [T, F].contains(&fact) { 9 } else { 8 };
            assert_eq!(refusal(form64::check_script(&words, &script)), Some((test, 0)));
        }
    }
}

/// 9 to 12 may name nodes up to 63, and nothing above the last.
#[test]
fn nodes_named_by_lines() {
    let words = chain(64);
    for op in 9..=12 {
        for (c, want) in
            [(0, Some((6, 0))), (31, None), (32, None), (63, None), (64, Some((6, 0))), (95, Some((6, 0))), (16_383, Some((6, 0)))]
        {
            let script = [unnoted(op, 0, c, 0), unnoted(0, 0, 0, 0)].concat();
            assert_eq!(refusal(form64::check_script(&words, &script)), want, "{op} {c}");
        }
    }
    // and each has its own bits
    let mut m = fresh(&form64::nodes_within(&words));
    assert!(m.kept == std::array::from_fn(|i| i > 0) && m.work == [false; 64]);
    for c in [31, 32, 63] {
        m.line = 0;
        m = form64::step_stored(&words, &unnoted(9, 1, c, 0), &[], &mut [], m);
        assert!(m.line == 1 && m.work[c as usize]);
    }
    assert_eq!(m.work.iter().filter(|&&bit| bit).count(), 3);
}

/// A step puts no question to the table: mentions count in the first 64 nodes.
#[test]
fn steps_of_any_table() {
    let set = |table: &[u64], c: u64| {
        let start = fresh(&form64::nodes_within(table));
        form64::step_stored(table, &unnoted(9, 1, c, 0), &[], &mut [], start).line == 1
    };
    assert!(set(&[implies(63, 63)], 63) && set(&[implies(32, 32)], 32) && !set(&[implies(63, 62)], 63));
    let long = |before: usize| [vec![0; before], vec![implies(3, 3)], vec![0; 2]].concat();
    assert!(set(&long(63), 3) && !set(&long(64), 3));
    assert_eq!(form64::nodes_within(&[0; 100]).len(), 64);
}

#[test]
fn the_clinic_in_the_second_form() {
    let mut out = vec![0xdead; 8 * 16 + 3];
    assert_eq!(form64::weave(&SINCE, &TONE, &mut out[..127]), no(13, 0));
    assert!(out.iter().all(|&word| word == 0xdead), "a refusal writes nothing");
    assert_eq!(form64::weave(&SINCE, &TONE, &mut out), Ok(16));
    assert_eq!(out[128..], [0xdead; 3], "later words stay");
    out.truncate(128);
    // line 13, the present: M, W and T of node 2; line 4: F of node 1, M of node 2
    assert_eq!(out[8 * 13..8 * 14], [8 << 60, 1 << 61, 0, 0, 0, 1 << 61, 1 << 61, 0]);
    assert_eq!(out[8 * 4..8 * 5], [upper(10, 0, 2, 6), 0, 1 << 62, 0, 0, 1 << 61, 0, 0]);
    assert_eq!(refusal(form64::check_script(&SINCE, &out)), None);
    let spoiled = |at: usize, word: u64| {
        let mut script = out.clone();
        script[at] = word;
        refusal(form64::check_script(&SINCE, &script))
    };
    assert_eq!(spoiled(8 * 13 + 1, 0), Some((10, 13)), "line 13 without T");
    assert_eq!(spoiled(8 * 4 + 2, 0), Some((11, 4)), "line 4 without F");
    assert_eq!(spoiled(8 * 14, upper(7, 0, 0, 15)), Some((11, 14)), "line 14 made go to 15");
    let mut history = vec![7; 48];
    let ran = form64::run(&SINCE, &out, &[1, 0, 0, 1, 1, 0], 1000, &mut history).unwrap();
    assert!(ran.stop == Stop::Dry && ran.steps == 31 && ran.presentations == 2 && history[32..] == [7; 16]);
    for direct in [usize::MAX, 0] {
        assert_eq!(form64::judge(&SINCE, &history[..32], direct).map(|verdict| verdict.index), Ok(2));
    }
    assert_eq!(form64::judge(&SINCE, &[16_384; 17], 0), no(14, 0));
    assert_eq!(form64::judge(&SINCE, &[16_384; 16], 0), no(15, 0));
    // the longest script
    let mut long = vec![0; 1012];
    long[5] = 8 << 28;
    let mut room = vec![0; 8 * 1024];
    assert_eq!(form64::weave(&SINCE, &long, &mut room), Ok(1024));
    long.push(0);
    assert_eq!(form64::weave(&SINCE, &long, &mut room), no(12, 0));
    // the largest facts of the woven instructions are accepted; 13 after 19
    let bare: Vec<u32> = out.chunks(8).map(|line| (line[0] >> 32) as u32).collect();
    let mut found = vec![0xdead; 128];
    assert_eq!(form64::find_facts(&SINCE, &bare, &mut found[..127]), no(13, 0));
    let count = form64::find_facts(&SINCE, &bare, &mut found).unwrap();
    assert_eq!(count, found.chunks(8).flat_map(|line| &line[1..]).map(|word| word.count_ones() as usize).sum());
    assert_eq!(refusal(form64::check_script(&SINCE, &found)), None);
    assert_eq!(form64::find_facts(&SINCE, &[8 << 28, 0], &mut []), no(19, 0));
}

/// What is asked of a text goes by the form: 18 beyond 64 nodes, after 16 and 17, before 13.
#[test]
fn texts() {
    let typed = |nodes: usize, end: &str| "wprev ".repeat(nodes - 1) + end;
    for nodes in [1, 32, 33, 63, 64] {
        let mut out = vec![0xdead; nodes + 2];
        let text = typed(nodes, "r1=1");
        assert_eq!(form64::read_text(text.as_bytes(), &mut out[..nodes - 1]), no(13, 0));
        assert_eq!(form64::read_text(text.as_bytes(), &mut out), Ok(nodes));
        assert_eq!(out, [&chain(nodes as u64)[..], &[0xdead; 2]].concat());
        let first = text::read_text(text.as_bytes(), &mut [0; 64]);
        assert_eq!(first, if nodes <= 32 { Ok(nodes) } else { no(18, 0) });
    }
    for nodes in [65, 66, 1000] {
        assert_eq!(form64::read_text(typed(nodes, "r1=1").as_bytes(), &mut []), no(18, 0));
        assert_eq!(form64::read_text(typed(nodes, "r16=1").as_bytes(), &mut []), no(17, 6 * (nodes - 1) + 1));
        assert_eq!(form64::read_text(typed(nodes, "r16=1 or").as_bytes(), &mut []), no(16, 6 * (nodes - 1) + 8));
    }
}

/// What is typed is what is judged, up to 64 nodes.
#[test]
fn long_texts() {
    let mut g = Rng(71);
    for _ in 0..2_000 {
        let nodes = g.within(1, 66);
        let (formula, text) = random_text(&mut g, nodes);
        let mut out = [0; 64];
        let read = form64::read_text(&text, &mut out);
        if nodes > 64 {
            assert_eq!(read, no(18, 0));
            continue;
        }
        assert_eq!(read, Ok(nodes));
        assert_eq!(text::read_formula_within(&text, nodes), Ok(formula));
        let table = form64::check_rule(&out[..nodes]).expect("a text's table passes questions 1 to 4");
        assert!((0..nodes - 1).all(|i| table.uses(i) == 1));
    }
}

/// Rules of more than 32 nodes: woven scripts are accepted, have as many lines as the formula says, and show what the plain machine shows.
#[test]
fn long_rules() {
    let mut g = Rng(72);
    let mut presented = 0;
    for k in 0..150 {
        let size = if k % 5 == 0 { 64 } else { g.within(33, 64) };
        let table = if k % 2 == 0 { generate::rule(&mut g, size) } else { generate::sharing_rule(&mut g, size) };
        let words: Vec<u64> = table.words_in();
        assert_eq!(form64::check_rule(&words).as_ref(), Ok(&table));
        let bare = [Line::new(4, 0, 0, 0), Line::new(4, 1, 0, 0), Line::new(4, 2, 0, 0), Line::new(8, 0, 0, 0), Line::new(7, 0, 0, 0)];
        let mut woven = vec![0; 8 * (4 + table.block_lines())];
        assert_eq!(form64::weave(&words, &instruction_words(&bare), &mut woven), Ok(4 + table.block_lines()));
        assert_eq!(refusal(form64::check_script(&words, &woven)), None);
        let inputs: Vec<u16> = (0..90).map(|_| g.below(4) as u16).collect();
        let space = 16 * g.below(31);
        let mut history = vec![9999; space];
        let ran = form64::run(&words, &woven, &inputs, u64::MAX, &mut history).unwrap();
        let p = (0..200).fold(plain::start(), |p, _| p.step(&table, &bare, &inputs, space).0);
        let made = &history[..16 * ran.presentations as usize];
        assert_eq!((states(made), ran.dials, ran.read), (p.history, p.dials, p.read as u64));
        assert_eq!(first_false_direct(&table, &states(made)), made.len() / 16);
        for direct in [usize::MAX, 0] {
            assert_eq!(form64::judge(&words, made, direct).map(|verdict| verdict.index), Ok(made.len() / 16));
        }
        presented += ran.presentations;
        // the facts found for its instructions are accepted, and those of the weaver lie within them
        let instructions: Vec<u32> = woven.chunks(8).map(|line| (line[0] >> 32) as u32).collect();
        let mut found = vec![0; woven.len()];
        form64::find_facts(&words, &instructions, &mut found).unwrap();
        assert_eq!(refusal(form64::check_script(&words, &found)), None);
        assert!(woven.iter().zip(&found).all(|(noted, most)| noted & !most == 0));
    }
    assert!(presented > 500, "{presented}");
}

/// A chain in which each of 64 nodes is used twice by the next.
#[test]
fn every_node_twice() {
    for (join, each, last) in [(implies as fn(u64, u64) -> u64, 3 + 4, 0), (since, 8 + 2, 8)] {
        let words: Vec<u64> = std::iter::once(A1).chain((1..64).map(|k| join(k - 1, k - 1))).collect();
        let lines = 1 + 2 + 7 + 62 * each + last;
        let mut woven = vec![0; 8 * (lines + 2)];
        assert_eq!(form64::weave(&words, &[4 << 28, 8 << 28, 7 << 28], &mut woven), Ok(lines + 2));
        assert_eq!(refusal(form64::check_script(&words, &woven)), None);
    }
    // the longest block that was thought of: sinces of two sinces; two of them are too many lines
    let words: Vec<u64> = [A1, since(0, 0)].into_iter().chain((2..64).map(|k| since(k - 1, k - 2))).collect();
    let lines = 1 + (2 + 3 + 2 * 3) + 63 * 8 + 2 * 60 + 2;
    assert_eq!(form64::check_rule(&words).unwrap().block_lines(), lines);
    assert_eq!(form64::weave(&words, &[8 << 28, 0], &mut vec![0; 8 * 1024]), Ok(lines + 1));
    assert_eq!(form64::weave(&words, &[8 << 28, 8 << 28, 0], &mut vec![0; 8 * 1024]), no(12, 0));
}

/// A word changed by one bit or two, left out, put in, or doubled.
fn spoil<X: Word>(g: &mut Rng, words: &mut Vec<X>) {
    if words.is_empty() {
        return;
    }
    let i = g.below(words.len());
    let flip = |g: &mut Rng, word: X| X::from_top(word.at_top() ^ 1 << (63 - g.below(X::MOST_NODES)));
    match g.below(12) {
        0 => drop(words.pop()),
        1 => drop(words.remove(i)),
        2 => words.push(words[i]),
        3 => words.clear(),
        4 => words.resize(8 * words.len() + 8, words[i]),
        k => (0..1 + k % 2).for_each(|_| {
            let i = if k < 7 { i } else { g.below(words.len()) };
            words[i] = flip(g, words[i]);
        }),
    }
}

/// The same nodes in the second form, right or wrong.
fn wide_rule(words: &[u32]) -> Vec<u64> {
    words.iter().map(|&word| Node::decode_in(word).encode_in()).collect()
}

/// The same lines in the second form, right or wrong. What does not make up a line has no lines to be the same.
fn wide_script(words: &[u32]) -> Vec<u64> {
    let mut wide: Vec<u64> = words.chunks_exact(8).flat_map(|line| Line::decode_annotated_in(line).encode_annotated_in::<u64>()).collect();
    wide.resize(words.len(), 0);
    wide
}

/// What a function that writes answers, and what then stands in its output, which has room for so many words.
fn written<X: Word>(room: usize, write: impl FnOnce(&mut [X]) -> Result<usize, No>) -> (Result<usize, No>, Vec<X>) {
    let mut out = vec![X::from_top(0); room];
    (write(&mut out), out)
}

/// A rule of the first form, and what is to be put with it, often spoiled.
struct Asked {
    rule: Vec<u32>,
    bare: Vec<u32>,
    script: Vec<u32>,
    /// as many words as the script had before anything was spoiled
    room: usize,
}

fn asked(g: &mut Rng) -> Asked {
    let size = generate::rule_size(g);
    let table = if g.chance(1, 2) { generate::rule(g, size) } else { generate::sharing_rule(g, size) };
    let n = if g.chance(1, 20) { g.within(20, 60) } else { g.within(1, 8) };
    let lines = generate::bare(g, &table, n);
    let mut woven = weave_lines(&table, &lines).0;
    if g.chance(1, 3) {
        let at = g.below(woven.len());
        woven[at].facts.set[g.pick(&[T, T, F, A, B, M, W, C])] = 0;
    }
    let mut rule = table.words();
    let mut bare = instruction_words(&lines);
    let mut script = script::encode_lines(&woven);
    let room = script.len();
    if g.chance(1, 6) {
        spoil(g, &mut rule);
    }
    if g.chance(1, 3) {
        spoil(g, &mut bare);
    }
    if g.chance(1, 3) {
        spoil(g, &mut script);
    }
    Asked { rule, bare, script, room }
}

/// A machine's state at random, or a fresh one.
fn state(g: &mut Rng, rule: &[u32], lines: usize) -> Machine {
    let mut m = fresh(&machine::nodes_within(rule));
    if g.chance(1, 2) {
        m.line = g.below(lines + 2) as u64;
        m.kept = std::array::from_fn(|_| g.chance(1, 2));
        m.work = std::array::from_fn(|_| g.chance(1, 2));
        m.dials = std::array::from_fn(|_| g.below(5) as u16);
        let mut bits = || std::array::from_fn(|_| g.chance(1, 2));
        let (priors, next, tested) = (bits(), bits(), bits());
        m.readiness = Readiness { ready: g.chance(1, 2), priors, next, tested };
    }
    m
}

/// What the functions of the first form answer, those of the second answer for the same nodes and lines, refusals and places included.
#[test]
fn both_forms_answer_alike() {
    let mut g = Rng(73);
    let g = &mut g;
    let mut met = std::collections::BTreeMap::<u32, u32>::new();
    for _ in 0..12_000 {
        let Asked { rule: r, bare, script: s, room } = asked(g);
        // question 1 is where the forms differ
        if (33..=64).contains(&r.len()) {
            continue;
        }
        let (wr, ws) = (wide_rule(&r), wide_script(&s));
        let mut note = |no: Option<(u32, usize)>| *met.entry(no.map_or(0, |no| no.0)).or_default() += 1;
        assert_eq!(rule::check_rule(&r), form64::check_rule(&wr));
        assert_eq!(script::check_bare(&r, &bare), form64::check_bare(&wr, &bare));
        assert_eq!(script::check_instructions(&r, &bare), form64::check_instructions(&wr, &bare));
        let checked = script::check_script(&r, &s);
        assert_eq!(checked, form64::check_script(&wr, &ws));
        note(refusal(checked));

        let history = generate::history(g, 12).concat();
        let length = history.len() - g.below(history.len().min(2) + 1);
        for direct in [usize::MAX, 0] {
            assert_eq!(judge::judge(&r, &history[..length], direct), form64::judge(&wr, &history[..length], direct));
        }
        let highs: Vec<u16> = history.iter().map(|low| low + g.below(3) as u16).collect();
        let (mut out, mut wide_out) = ([9; 12], [9; 12]);
        let judged = limits::judge_limits(&r, &history[..length], &highs, &mut out);
        assert_eq!((judged, out), (form64::judge_limits(&wr, &history[..length], &highs, &mut wide_out), wide_out));

        let room = if g.chance(1, 6) { room - 1 } else { room };
        let (woven, out) = written(room, |out| weave::weave(&r, &bare, out));
        let (wide_woven, wide_out) = written(room, |out| form64::weave(&wr, &bare, out));
        assert_eq!((woven, wide_script(&out)), (wide_woven, wide_out));
        note(refusal(woven));
        let instructions: Vec<u32> = s.chunks(8).map(|line| line[0]).collect();
        let (found, out) = written(room, |out| largest::find_facts(&r, &instructions, out));
        let (wide_found, wide_out) = written(room, |out| form64::find_facts(&wr, &instructions, out));
        assert_eq!((found, wide_script(&out)), (wide_found, wide_out));
        note(refusal(found));

        let inputs = generate::inputs(g);
        let mut histories = [(); 2].map(|()| vec![9; 16 * 6 + 3]);
        let [h, wh] = &mut histories;
        assert_eq!(machine::run(&r, &s, &inputs, 2_000, h), form64::run(&wr, &ws, &inputs, 2_000, wh));
        assert_eq!(h, wh);
        let m = state(g, &r, s.len() / 8);
        let (mut m, mut wm) = (m.clone(), m);
        // of a longer table more nodes are looked at in the second form
        for _ in 0..if r.len() > 32 { 0 } else { 20 } {
            m = machine::step_stored(&r, &s, &inputs, h, m);
            wm = form64::step_stored(&wr, &ws, &inputs, wh, wm);
            assert_eq!((&m, &h), (&wm, &wh));
        }

        let nodes = g.within(1, 33);
        let text = random_text(g, nodes).1;
        let room = nodes - g.below(2);
        let (read, out) = written(room, |out| text::read_text(&text, out));
        let (wide_read, wide_out) = written(room, |out| form64::read_text(&text, out));
        if nodes <= 32 {
            assert_eq!((read, wide_rule(&out)), (wide_read, wide_out));
        }
    }
    println!("{met:?}");
    for number in (0..=8).chain([10, 11, 12, 13, 19]) {
        assert!(met.contains_key(&number), "no answer was {number}");
    }
}

/// Every fact that belongs is told apart in both forms, up to the last node of each.
#[test]
fn every_fact_has_a_place() {
    let mut g = Rng(74);
    for n in [1, 31, 32, 33, 63, 64] {
        let table = generate::sharing_rule(&mut g, n);
        let all = all_facts(&table);
        for fact in 0..7 {
            for node in 0..64 {
                let line = Line { facts: Facts::none().with(fact, node), ..Line::new(0, 0, 0, 0) };
                let script = [Line::new(0, 0, 0, 0), line];
                let refused = refusal(form64::check_script(&table.words_in::<u64>(), &form64::encode_lines(&script)));
                assert_eq!(refused, (!all.has(fact, node)).then_some((8, 1)));
                if n <= 32 && node < 32 {
                    assert_eq!(refused, refusal(script::check_script(&table.words(), &script::encode_lines(&script))));
                }
            }
        }
    }
}

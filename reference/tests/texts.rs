//! Rules typed as text: the request's sentences case by case, and what the words mean.
use reference::generate;
use reference::generate_text::random_text;
use reference::judge::judge;
use reference::random::Rng;
use reference::rule::check_rule;
use reference::text::Formula::{self, *};
use reference::text::{nodes_added, read_formula, read_text, tokens, Item};
use reference::State;
use std::collections::HashSet;

/// The nodes of a text, or the refusal's number and place.
fn read(text: &str) -> Result<Vec<u32>, (u32, usize)> {
    let mut out = [0xdead_beef; 34];
    let count = read_text(text.as_bytes(), &mut out).map_err(|no| (no.number, no.place))?;
    assert!(out[count..].iter().all(|&word| word == 0xdead_beef), "later words stay");
    Ok(out[..count].to_vec())
}

fn count(text: &str) -> usize {
    read(text).unwrap_or_else(|no| panic!("{text}: {no:?}")).len()
}

const FALSE: u32 = 0;

fn equal(register: u32, number: u32) -> u32 {
    1 << 29 | register << 25 | number << 11
}

fn below(register: u32, number: u32) -> u32 {
    2 << 29 | register << 25 | number << 11
}

fn implies(left: u32, right: u32) -> u32 {
    3 << 29 | left << 6 | right << 1
}

fn since(left: u32, right: u32) -> u32 {
    4 << 29 | left << 6 | right << 1
}

fn weak_previous(left: u32) -> u32 {
    5 << 29 | left << 6
}

#[test]
fn refused_by_the_grammar() {
    for (text, place) in [
        ("", 0),
        ("   ", 3),
        ("tru", 3),
        ("trux", 3),
        ("(false", 6),
        ("true)", 4),
        ("r1=1 and", 8),
        // two words that touch
        ("notr1=1", 3),
        ("truesince false", 4),
        ("r1=1 andr2=2", 8),
        ("nottrue", 3),
        ("true sincetrue", 10),
        // r and its number
        ("r 1=1", 1),
        ("r", 1),
        ("r=1", 1),
        ("r1=r2", 3),
        ("r1", 2),
        ("r1=", 3),
        ("r1 1=1", 3),
        ("r1=1 1", 5),
        ("r1=1r2=2", 4),
        ("r1==1", 3),
        ("r1>1", 2),
        ("1=1", 0),
        ("r-1=1", 1),
        // spaces are byte 32, letters are small
        ("true\t", 4),
        ("\ttrue", 0),
        ("true\nor true", 4),
        ("True", 0),
        ("tRue", 1),
        ("R1=1", 0),
        ("true AND true", 5),
        ("true\u{a0}", 4),
        ("é", 0),
        // a word that begins as another one does
        ("or", 1),
        ("since", 1),
        ("and", 0),
        ("true sofar", 6),
        ("true once", 6),
        ("prewv", 3),
        ("not", 3),
        ("not ", 4),
        ("notx", 3),
        ("true since", 10),
        ("true true", 5),
        ("(true", 5),
        ("(", 1),
        ("()", 1),
        (")", 0),
        ("(true))", 6),
        ("true(", 4),
        ("(true)(true)", 6),
        ("(true)true", 6),
        // 16 comes first, for the whole text
        ("r99", 3),
        ("r99=1 or", 8),
        ("r1=99999 xor true", 9),
    ] {
        assert_eq!(read(text), Err((16, place)), "{text:?}");
    }
    assert_eq!(read_text(&[b'(', 0x80], &mut []).unwrap_err().place, 1);
    assert_eq!(read_text(&[0], &mut []).unwrap_err().place, 0);
}

#[test]
fn texts_of_the_grammar() {
    let conjunction = read("r1=1 and r2=2");
    for text in ["r1=1and r2=2", "r1 = 1 and r2 = 2", "  r1=  1and   r2  =2  ", "(r1=1)and(r2=2)", "((r1=1)and r2=2)", "r01=001 and r2=2"] {
        assert_eq!(read(text), conjunction, "{text}");
    }
    for (text, same) in [
        ("not(true)", "not true"),
        ("(true)since(false)", "true since false"),
        ("r1=1since r2=2", "r1=1 since r2=2"),
        ("r1 = 1", "r1=1"),
        ("((((false))))", "false"),
        ("not(not(false))", "not not false"),
    ] {
        assert_eq!(read(text), read(same), "{text}");
        assert!(read(text).is_ok(), "{text}");
    }
}

#[test]
fn nodes_of_each_word() {
    for (text, nodes) in [
        ("false", vec![FALSE]),
        ("r1=1", vec![equal(1, 1)]),
        ("r15<16383", vec![below(15, 16_383)]),
        ("true", vec![FALSE, FALSE, implies(0, 1)]),
        ("not r1=1", vec![equal(1, 1), FALSE, implies(0, 1)]),
        ("wprev r1=1", vec![equal(1, 1), weak_previous(0)]),
        ("prev r1=1", vec![equal(1, 1), FALSE, implies(0, 1), weak_previous(2), FALSE, implies(3, 4)]),
        ("once r1=1", vec![FALSE, FALSE, implies(0, 1), equal(1, 1), since(2, 3)]),
        ("sofar r1=1", vec![FALSE, FALSE, implies(0, 1), equal(1, 1), FALSE, implies(3, 4), since(2, 5), FALSE, implies(6, 7)]),
        ("r1=1 since r2<2", vec![equal(1, 1), below(2, 2), since(0, 1)]),
        ("r1=1 implies r2<2", vec![equal(1, 1), below(2, 2), implies(0, 1)]),
        ("r1=1 or r2<2", vec![equal(1, 1), FALSE, implies(0, 1), below(2, 2), implies(2, 3)]),
        ("r1=1 and r2<2", vec![equal(1, 1), below(2, 2), FALSE, implies(1, 2), implies(0, 3), FALSE, implies(4, 5)]),
        (
            "r1=1 since r2=1 and not r3<40",
            vec![
                equal(1, 1),
                equal(2, 1),
                since(0, 1),
                below(3, 40),
                FALSE,
                implies(3, 4),
                FALSE,
                implies(5, 6),
                implies(2, 7),
                FALSE,
                implies(8, 9),
            ],
        ),
    ] {
        assert_eq!(read(text), Ok(nodes), "{text}");
    }
}

#[test]
fn binding_and_grouping() {
    for (text, meant) in [
        ("not r1=1 since r2=2", "(not r1=1) since r2=2"),
        ("r1=1 since not r2=2 since r3=3", "(r1=1 since (not r2=2)) since r3=3"),
        ("wprev prev once sofar false", "wprev (prev (once (sofar false)))"),
        ("not r1=1 and r2=2", "(not r1=1) and r2=2"),
        ("r1=1 since r2=2 since r3=3", "(r1=1 since r2=2) since r3=3"),
        ("r1=1 and r2=2 and r3=3", "(r1=1 and r2=2) and r3=3"),
        ("r1=1 or r2=2 or r3=3", "(r1=1 or r2=2) or r3=3"),
        ("r1=1 implies r2=2 implies r3=3", "r1=1 implies (r2=2 implies r3=3)"),
        ("r1=1 and r2=2 since r3=3", "r1=1 and (r2=2 since r3=3)"),
        ("r1=1 since r2=2 and r3=3", "(r1=1 since r2=2) and r3=3"),
        ("r1=1 or r2=2 and r3=3", "r1=1 or (r2=2 and r3=3)"),
        ("r1=1 and r2=2 or r3=3", "(r1=1 and r2=2) or r3=3"),
        ("r1=1 implies r2=2 or r3=3", "r1=1 implies (r2=2 or r3=3)"),
        ("r1=1 or r2=2 implies r3=3", "(r1=1 or r2=2) implies r3=3"),
        ("r1=1 or r2=2 implies r3=3 and r4=4 since r5=5", "(r1=1 or r2=2) implies (r3=3 and (r4=4 since r5=5))"),
    ] {
        assert_eq!(read(text), read(meant), "{text}");
        assert!(read(text).is_ok(), "{text}");
    }
    // brackets override
    for (text, otherwise) in [
        ("not (r1=1 since r2=2)", "not r1=1 since r2=2"),
        ("r1=1 since (r2=2 since r3=3)", "r1=1 since r2=2 since r3=3"),
        ("r1=1 and (r2=2 and r3=3)", "r1=1 and r2=2 and r3=3"),
        ("r1=1 or (r2=2 or r3=3)", "r1=1 or r2=2 or r3=3"),
        ("(r1=1 implies r2=2) implies r3=3", "r1=1 implies r2=2 implies r3=3"),
        ("(r1=1 and r2=2) since r3=3", "r1=1 and r2=2 since r3=3"),
    ] {
        assert!(read(text).is_ok() && read(otherwise).is_ok());
        assert_ne!(read(text), read(otherwise), "{text}");
    }
}

#[test]
fn numbers_out_of_range() {
    for (text, place) in [
        ("r16=1", 1),
        ("r016=1", 1),
        ("r1=16384", 3),
        ("r1 <  0016384", 6),
        // the lowest such number; a register's stands before the other's
        ("r16=16384", 1),
        ("r15=16384 or r16=0", 4),
        ("true and r99=1", 10),
        // wrapped in 8, 16, 32 or 64 bits they would be in range
        ("r256=1", 1),
        ("r65537=1", 1),
        ("r4294967297=1", 1),
        ("r18446744073709551617=1", 1),
        ("r1=65536", 3),
        ("r1=4294967296", 3),
        ("r1=18446744073709551616", 3),
        // 17 comes before 18
        ("sofar sofar sofar sofar r16=1", 25),
    ] {
        assert_eq!(read(text), Err((17, place)), "{text}");
    }
    for text in ["r15=16383", "r0=0", "r00000000000000000000000015<000000000000000000000000016383"] {
        assert_eq!(count(text), 1, "{text}");
    }
    assert_eq!(read("r00=000"), read("r0=0"));
}

#[test]
fn thirty_two_and_thirty_three_nodes() {
    // 3 nodes and 8 or 1 for each word before them
    let full = "sofar sofar sofar wprev wprev wprev wprev wprev true";
    assert_eq!(count(full), 32);
    let more = format!("wprev {full}");
    assert_eq!(read(&more), Err((18, 0)));
    // 32 nodes as sixteen tests with fifteen words between them, and a word before
    let joined = ["r1=1"; 16].join(" since ");
    assert_eq!((count(&joined), count(&format!("wprev {joined}"))), (31, 32));
    assert_eq!(read(&format!("not {joined}")), Err((18, 0)));
    assert_eq!(read(&["r1=1"; 17].join(" implies ")), Err((18, 0)));
    // 13 comes after 18, and leaves the output as it was
    for (text, short, number) in [(full, 31, 13), (full, 0, 13), (&more, 31, 18), ("false", 0, 13), ("fals", 0, 16), ("r16<0", 0, 17)] {
        let mut out = vec![7; short];
        assert_eq!(read_text(text.as_bytes(), &mut out).unwrap_err().number, number, "{text}");
        assert_eq!(out, vec![7; short]);
    }
    let mut out = [7; 32];
    assert_eq!(read_text(full.as_bytes(), &mut out), Ok(32));
    assert!(check_rule(&out).is_ok());
}

#[test]
fn ten_thousand_brackets() {
    const MANY: usize = 10_000;
    let (open, close) = ("(".repeat(MANY), ")".repeat(MANY));
    assert_eq!(read(&format!("{open}r1=1{close}")), Ok(vec![equal(1, 1)]));
    assert_eq!(read(&format!("not {open}r1=1 or r2=2{close} since r3=3")), read("(not (r1=1 or r2=2)) since r3=3"));
    assert_eq!(read(&format!("{open}r1=1{close})")), Err((16, 2 * MANY + 4)));
    assert_eq!(read(&format!("{open}r1=1{}", &close[1..])), Err((16, 2 * MANY + 3)));
    assert_eq!(read(&open), Err((16, MANY)));
    assert_eq!(read(&format!("{open}r1=16384{close}")), Err((17, MANY + 3)));
    // as many words, which brackets nest
    assert_eq!(read(&format!("{}true{close}", "not(".repeat(MANY))), Err((18, 0)));
    assert_eq!(read(&format!("{}true", "not ".repeat(MANY))), Err((18, 0)));
    assert_eq!(read(&format!("{}true", "true implies ".repeat(MANY))), Err((18, 0)));
    assert_eq!(read(&format!("{}true{close}", "true and (".repeat(MANY))), Err((18, 0)));
}

#[test]
fn thousand_digits() {
    let zeros = "0".repeat(1_000);
    let nines = "9".repeat(1_000);
    assert_eq!(read(&format!("r{zeros}15={zeros}16383")), Ok(vec![equal(15, 16_383)]));
    assert_eq!(read(&format!("r{nines}=1")), Err((17, 1)));
    assert_eq!(read(&format!("r1<{nines}")), Err((17, 3)));
    assert_eq!(read(&format!("r1<{zeros}16384")), Err((17, 3)));
    // out of range at every length
    for digits in 6..1_000 {
        assert_eq!(read(&format!("r1=1{}", &zeros[..digits - 1])), Err((17, 3)));
    }
    assert_eq!(read(&format!("r{nines}")), Err((16, 1_001)));
    assert_eq!(read(&format!("r{nines} = {nines} {nines}")), Err((16, 2_005)));
}

/// How many nodes a random text is to have: few, or about as many as a table may have.
fn size(g: &mut Rng) -> usize {
    if g.chance(1, 8) {
        g.within(25, 32)
    } else {
        g.within(1, 16)
    }
}

/// What is typed is what is read, and each item adds the nodes that it is said to add.
#[test]
fn texts_are_read_back() {
    let mut g = Rng(21);
    for _ in 0..20_000 {
        let nodes = size(&mut g);
        let (formula, text) = random_text(&mut g, nodes);
        let shown = String::from_utf8(text.clone()).unwrap();
        assert_eq!(read_formula(&text), Ok(formula), "{shown}");
        assert_eq!(count(&shown), nodes, "{shown}");
        let read = tokens(&text).expect("a text");
        let items: Vec<Item> = read.iter().map(|token| token.item).collect();
        assert_eq!(items.iter().map(nodes_added).sum::<usize>(), nodes);
    }
    for nodes in [33, 34, 40, 100, 1_000] {
        let text = random_text(&mut g, nodes).1;
        assert_eq!(read_text(&text, &mut [0; 32]).unwrap_err().number, 18);
    }
}

/// A formula's truth at each index of a history, word by word as document 000 has them. Nothing is opened here.
fn truth(formula: &Formula, history: &[State]) -> Vec<bool> {
    let of = |a: &Formula| truth(a, history);
    let at_each = |holds: &dyn Fn(usize) -> bool| (0..history.len()).map(holds).collect();
    match formula {
        True => at_each(&|_| true),
        False => at_each(&|_| false),
        Equal(register, number) => at_each(&|n| history[n][*register as usize] == *number),
        Below(register, number) => at_each(&|n| history[n][*register as usize] < *number),
        Not(a) => {
            let a = of(a);
            at_each(&|n| !a[n])
        }
        And(a, b) => {
            let (a, b) = (of(a), of(b));
            at_each(&|n| a[n] && b[n])
        }
        Or(a, b) => {
            let (a, b) = (of(a), of(b));
            at_each(&|n| a[n] || b[n])
        }
        // the validity of the premise implies the validity of the conclusion at the same index
        Implies(a, b) => {
            let (a, b) = (of(a), of(b));
            at_each(&|n| if a[n] { b[n] } else { true })
        }
        // the second was true at some i up to n, and the first at every j with i < j ≤ n
        Since(a, b) => {
            let (a, b) = (of(a), of(b));
            at_each(&|n| (0..=n).any(|i| b[i] && (i + 1..=n).all(|j| a[j])))
        }
        // the two previous operators differ only at the initial state: the strong one is false there and the weak one true
        WeakPrevious(a) => {
            let a = of(a);
            at_each(&|n| n == 0 || a[n - 1])
        }
        Previous(a) => {
            let a = of(a);
            at_each(&|n| n > 0 && a[n - 1])
        }
        // at some time, now or before; at all of them
        Once(a) => {
            let a = of(a);
            at_each(&|n| a[..=n].contains(&true))
        }
        SoFar(a) => {
            let a = of(a);
            at_each(&|n| !a[..=n].contains(&false))
        }
    }
}

/// A text and its table get the same verdict on every history, and the same truth at every index.
#[test]
fn a_text_means_what_its_words_mean() {
    let mut g = Rng(22);
    let mut verdicts = HashSet::new();
    for _ in 0..10_000 {
        let nodes = size(&mut g);
        let (formula, text) = random_text(&mut g, nodes);
        let mut out = [0; 32];
        let words = read_text(&text, &mut out).map(|count| &out[..count]).expect("a text");
        let rule = check_rule(words).expect("a text's table passes questions 1 to 4");
        let history = generate::history(&mut g, 7);
        let meant = truth(&formula, &history);
        assert_eq!(rule.truth_table(&history)[rule.last()], meant, "{formula:?}");
        let first = meant.iter().position(|&holds| !holds).unwrap_or(history.len());
        for direct in [usize::MAX, 0] {
            assert_eq!(judge(words, &history.concat(), direct).map(|verdict| verdict.index), Ok(first), "{formula:?}");
        }
        verdicts.insert((history.len(), first));
    }
    assert_eq!(verdicts.len(), 36, "every history of 0 to 7 states, false first at each index and nowhere");
}

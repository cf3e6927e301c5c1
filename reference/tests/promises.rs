//! What the specification promises of woven and accepted scripts, looked up on random and on all small ones.
use reference::generate;
use reference::judge::{first_false_direct, first_false_kept, states};
use reference::machine::{fresh, run, Stop};
use reference::plain;
use reference::random::Rng;
use reference::rule::{check_rule, Node, Rule};
use reference::script::{check_script, encode_lines, Line};
use reference::weave::weave_lines;
use reference::State;

/// Rules in which each node is an operand once, and rules with shared nodes.
const RULES: [fn(&mut Rng, usize) -> Rule; 2] = [generate::rule, generate::sharing_rule];

#[test]
fn one_truth_three_ways() {
    let mut g = Rng(1);
    for k in 0..1000 {
        let size = g.within(1, 8);
        let rule = RULES[k % 2](&mut g, size);
        let history = generate::history(&mut g, 7);
        let table = rule.truth_table(&history);
        for n in 0..history.len() {
            for i in 0..rule.len() {
                assert_eq!(rule.truth(i, &history, n), table[i][n]);
            }
        }
        assert_eq!(first_false_kept(&rule, &history), first_false_direct(&rule, &history));
    }
}

/// What can be seen of a machine: dials, inputs read, history.
type Seen = (State, u64, Vec<State>);

/// Adds what is seen, unless it is what was seen last.
fn note(seen: &mut Vec<Seen>, now: Seen) {
    if seen.last() != Some(&now) {
        seen.push(now);
    }
}

/// Woven scripts are accepted and have as many lines as the formula says; their runs keep the rule; what is seen of the woven and
/// of the plain machine, one after the other, is the same.
#[test]
fn woven_scripts() {
    let mut g = Rng(2);
    let (mut shared, mut past_again) = (0, 0);
    for k in 0..800 {
        let size = generate::rule_size(&mut g);
        let rule = RULES[k % 2](&mut g, size);
        shared += !rule.shared_nodes().is_empty() as u32;
        past_again += rule.past_nodes().iter().any(|&i| rule.uses(i) > 1) as u32;
        let n = g.within(1, 20);
        let bare = generate::bare(&mut g, &rule, n);
        let woven = weave_lines(&rule, &bare).0;
        let presents = bare.iter().filter(|l| l.op == 8).count();
        assert_eq!(woven.len(), n - presents + presents * rule.block_lines());
        if woven.len() > 1024 {
            continue;
        }
        check_script(&rule.words(), &encode_lines(&woven)).expect("a woven script is accepted");
        let inputs = generate::inputs(&mut g);
        let space = g.below(8 * 16 + 1);

        // As many plain steps as woven ones, and as many woven ones as the first plain ones need.
        let (first, all) = (40, 40 * rule.block_lines());
        let mut p = plain::start();
        let (mut of_plain, mut of_first) = (vec![], 0);
        for k in 0..=all {
            note(&mut of_plain, (p.dials, p.read as u64, p.history.clone()));
            if k == first {
                of_first = of_plain.len();
            }
            p = p.step(&rule, &bare, &inputs, space).0;
        }
        let mut history = vec![9999; space];
        let mut m = fresh(&rule.nodes);
        let mut of_woven = vec![];
        for _ in 0..=all {
            note(&mut of_woven, (m.dials, m.read, states(&history[..16 * m.presentations as usize])));
            let l = &woven[m.line as usize];
            m = m.step(&rule.nodes, l, &inputs, &mut history);
        }
        assert!(of_plain.starts_with(&of_woven), "woven steps show only what plain ones do");
        assert!(of_woven.starts_with(&of_plain[..of_first]), "plain steps are reached");
        let made = states(&history[..16 * m.presentations as usize]);
        assert_eq!(first_false_direct(&rule, &made), made.len());
    }
    assert!(shared > 250 && past_again > 80, "{shared} {past_again}");
}

/// Every rule of 1 to 4 nodes over a few leaves, with nodes shared in every way, "input 0, input 1, present, go to 0", every input of 4 pairs of bits: woven and
/// plain end with the same history, dials and inputs read.
#[test]
fn every_small_rule() {
    let leaves = [Node::new(0, 0, 0, 0, 0), Node::new(1, 0, 1, 0, 0), Node::new(2, 1, 1, 0, 0), Node::new(6, 0, 1, 0, 0)];
    let bare = [Line::new(4, 0, 0, 0), Line::new(4, 1, 0, 0), Line::new(8, 0, 0, 0), Line::new(7, 0, 0, 0)];
    let mut tables: Vec<Vec<Node>> = vec![vec![]];
    let (mut unshared, mut shared, mut past_again) = (0, 0, 0);
    for n in 1..=4usize {
        let operands = 0..n as u8 - 1;
        let mut nodes = leaves.to_vec();
        for l in operands.clone() {
            nodes.push(Node::new(5, 0, 0, l, 0));
            for r in operands.clone() {
                nodes.push(Node::new(3, 0, 0, l, r));
                nodes.push(Node::new(4, 0, 0, l, r));
            }
        }
        tables = tables.iter().flat_map(|t| nodes.iter().map(|&d| [&t[..], &[d]].concat())).collect();
        for t in &tables {
            let words: Vec<u32> = t.iter().map(Node::encode).collect();
            let Ok(rule) = check_rule(&words) else { continue };
            let again = rule.past_nodes().iter().any(|&i| rule.uses(i) > 1);
            shared += !rule.shared_nodes().is_empty() as u32;
            past_again += again as u32;
            unshared += (rule.shared_nodes().is_empty() && !again) as u32;
            let woven = weave_lines(&rule, &bare).0;
            assert_eq!(woven.len(), 3 + rule.block_lines());
            let script = encode_lines(&woven);
            for code in 0..256u32 {
                let inputs: Vec<u16> = (0..8).map(|k| (code >> k & 1) as u16).collect();
                let space = 16 * (1 + code as usize % 4);
                let mut history = vec![0; space];
                let ran = run(&words, &script, &inputs, 100_000, &mut history).unwrap();
                let mut p = plain::start();
                let mut full = false;
                for _ in 0..20 {
                    let (q, f) = p.step(&rule, &bare, &inputs, space);
                    p = q;
                    full |= f;
                }
                assert_eq!(states(&history[..16 * ran.presentations as usize]), p.history);
                assert_eq!(ran.stop, if full { Stop::Full } else { Stop::Dry });
                assert_eq!((ran.read, ran.dials), (p.read as u64, p.dials));
            }
        }
    }
    println!("rules with no node used twice {unshared}, with shared nodes {shared}, with past nodes used twice {past_again}");
    assert!(unshared > 0 && shared > unshared && past_again > unshared / 2);
}

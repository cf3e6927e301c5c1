//! The two stored forms and the moves between them: every count of nodes, every bit of a node and of a line, every operand, fact and named
//! node, and what the random requests meet of these.
use compare::compare::{across, put, there_and_back, Met};
use compare::face::{KEPT, NEXT_PRIORS, PRIORS, READY, STATES_NUMBERS, STATE_NUMBERS, TESTED, WORK};
use compare::faced::Reference;
use compare::lent::Lent;
use compare::proved::Form;
use compare::request::{Request, Stationed};
use compare::requests::{moving, request};
use reference::facts::{all_facts, bit, Facts};
use reference::form::Word;
use reference::generate;
use reference::largest::note_largest;
use reference::random::Rng;
use reference::rule::{check_rule_in, Node};
use reference::script::{check_script_in, encode_lines_in, instruction_words, Line};
use reference::No;
use std::collections::BTreeMap;

type Way<W> = fn(&Request<W>, &mut Met) -> Result<(), String>;

/// Each request goes to the proved code and to the reference, one of the first form also to the proved code in the second, and what moves
/// comes back.
const FIRST: &[Way<u32>] = &[put, across, there_and_back];
const SECOND: &[Way<u64>] = &[put, there_and_back];

fn ask<W: Form>(ways: &[Way<W>], requests: impl IntoIterator<Item = Request<W>>, met: &mut Met) {
    for asked in requests {
        for way in ways {
            way(&asked, met).unwrap_or_else(|e| panic!("{}: {e}\n{asked:x?}", asked.function()));
        }
    }
}

fn encoded<W: Form>(nodes: &[Node]) -> Vec<W> {
    nodes.iter().map(Node::encode_in).collect()
}

fn implies(left: usize, right: usize) -> Node {
    Node::new(3, 0, 0, left as u8, right as u8)
}

fn since(left: usize, right: usize) -> Node {
    Node::new(4, 0, 0, left as u8, right as u8)
}

fn weak_previous(left: usize) -> Node {
    Node::new(5, 0, 0, left as u8, 0)
}

const TEST: Node = Node { kind: 1, register: 1, constant: 1, left: 0, right: 0, zero: 0 };

/// A test and weak previouses of it, n nodes in all; more than the form allows have operands that it can store.
fn chain<W: Form>(n: usize) -> Vec<Node> {
    (0..n).map(|i| if i == 0 { TEST } else { weak_previous((i - 1) % W::MOST_NODES) }).collect()
}

fn room<X: Form>(words: usize) -> Lent<X> {
    vec![X::from(9); words].into()
}

fn numbers(words: usize) -> Lent<u64> {
    room(words)
}

/// A state that no run has: bits of every node, and every register tested.
fn odd_state() -> Vec<u64> {
    let mut state = vec![0; STATE_NUMBERS];
    (state[KEPT], state[WORK]) = (0x5555_5555_5555_5555, 0x3333_3333_3333_3333);
    (state[READY], state[PRIORS], state[NEXT_PRIORS], state[TESTED]) = (1, 0x0f0f_0f0f_0f0f_0f0f, 0x00ff_00ff_00ff_00ff, !0);
    state
}

/// Steps of these lines from a state.
fn of_state<W: Form>(rule: &[W], lines: &[Line], state: Vec<u64>) -> Request<W> {
    let (script, history) = (encode_lines_in(lines), vec![9; 50].into());
    Request::Steps { rule: rule.to_vec(), script, inputs: vec![1; 9], history, state: state.into(), count: lines.len() }
}

/// Two writes of a register and two presentations.
fn writes_and_presents() -> [Line; 4] {
    [Line::new(1, 1, 1, 0), Line::new(8, 0, 0, 0), Line::new(14, 1, 1, 0), Line::new(8, 0, 0, 0)]
}

/// A station that passes every question and counts.
fn counting<W: Form>() -> Stationed<W> {
    let lines = [Line::new(3, 1, 1, 0), Line::new(7, 0, 0, 0)];
    Stationed { rule: encoded(&[TEST]), script: encode_lines_in(&lines), inputs: vec![], history: vec![9; 16].into() }
}

/// Every function that takes an annotated script.
fn of_script<W: Form>(rule: &[W], script: &[W]) -> Vec<Request<W>> {
    let (rule, script) = (|| rule.to_vec(), || script.to_vec());
    let (inputs, history, state) = (vec![1; 9], || vec![9; 50].into(), odd_state().into());
    let station = Stationed { rule: rule(), script: script(), inputs: inputs.clone(), history: history() };
    vec![
        Request::Script { rule: rule(), script: script(), numbers: numbers(1) },
        Request::Run { rule: rule(), script: script(), inputs: inputs.clone(), budget: 99, history: history(), numbers: numbers(22) },
        Request::Steps { rule: rule(), script: script(), inputs, history: history(), state, count: 2 },
        Request::Stations {
            states: numbers(STATES_NUMBERS),
            budget: 99,
            allowance: 3,
            stations: [counting(), counting(), station, counting()],
            numbers: numbers(3),
        },
        Request::MoveScript { rule: rule(), script: script(), out: room(script().len()), numbers: numbers(2) },
    ]
}

/// Every function that takes a rule.
fn of_rule<W: Form>(rule: &[W]) -> Vec<Request<W>> {
    let bare = || vec![4 << 28 | 1 << 24, 8 << 28, 7 << 28];
    let rule = || rule.to_vec();
    let mut all = of_script(&rule(), &encode_lines_in(&[Line::new(9, 1, 2, 0), Line::new(0, 0, 0, 0)]));
    all.extend([
        Request::Rule { rule: rule(), numbers: numbers(1) },
        Request::Bare { rule: rule(), script: bare(), numbers: numbers(1) },
        Request::Weave { rule: rule(), bare: bare(), out: room(8 * 1024), numbers: numbers(2) },
        Request::Facts { rule: rule(), instructions: bare(), out: room(8 * 3), numbers: numbers(2) },
        Request::Judge { rule: rule(), history: [[1; 16], [0; 16], [1; 16]].concat(), numbers: numbers(4) },
        Request::Limits {
            rule: rule(),
            lows: [[1; 16], [0; 16], [0; 16], [1; 16]].concat(),
            highs: [[1; 16], [1; 16], [0; 16], [2; 16]].concat(),
            out: vec![9; 5].into(),
            numbers: numbers(2),
        },
        Request::Fresh { rule: rule(), state: numbers(STATE_NUMBERS) },
        of_state(&rule(), &writes_and_presents(), odd_state()),
        Request::MoveRule { rule: rule(), out: room(rule().len()), numbers: numbers(2) },
        Request::MoveRule { rule: rule(), out: room(rule().len().saturating_sub(1)), numbers: numbers(2) },
    ]);
    all
}

/// Rules of none to 66 nodes: those that pass up to the most, and tables that fail question 2.
fn every_count_in<W: Form>(ways: &[Way<W>], met: &mut Met) {
    for n in 0..=66 {
        ask(ways, of_rule::<W>(&encoded(&chain::<W>(n))), met);
        ask(ways, of_rule::<W>(&encoded(&vec![Node::new(7, 0, 0, 0, 0); n])), met);
    }
}

#[test]
fn every_count_of_nodes() {
    let mut met = Met::default();
    every_count_in(FIRST, &mut met);
    every_count_in(SECOND, &mut met);
    // 33 to 64 pass in the second form alone, and do not move back; 0, 65 and 66 pass in none
    for (name, passed) in [("guard_rule", 32), ("guard_rule64", 64), ("guard_rule_up", 32), ("guard_rule_back", 32)] {
        assert_eq!(met.results[&(name, 0)], passed, "{name}");
    }
    for name in ["guard_rule_back", "guard_script_back"] {
        assert!(met.results[&(name, 20)] >= 32, "{name}");
    }
}

/// Each bit of a node of each kind changed, and each bit of two nodes.
fn every_bit_of_nodes_in<W: Form>(ways: &[Way<W>], met: &mut Met) {
    let (below, same) = (Node::new(2, 0, 0, 0, 0), Node::new(6, 0, 15, 0, 0));
    let nodes = [Node::new(0, 0, 0, 0, 0), TEST, below, same, implies(0, 1), since(2, 3), weak_previous(5), implies(4, 6)];
    let words: Vec<W> = encoded(&nodes);
    for at in 0..8 {
        for k in 0..W::BITS as usize {
            let mut spoiled = words.clone();
            spoiled[at] = W::from_top(spoiled[at].at_top() ^ bit(k));
            ask(ways, of_rule(&spoiled), met);
            // another fault before it, or after it
            spoiled[7 - at] = W::from_top(spoiled[7 - at].at_top() ^ bit(W::BITS as usize - 1));
            ask(ways, [Request::Rule { rule: spoiled, numbers: numbers(1) }], met);
        }
    }
}

#[test]
fn every_bit_of_nodes() {
    let mut met = Met::default();
    every_bit_of_nodes_in(FIRST, &mut met);
    every_bit_of_nodes_in(SECOND, &mut met);
    println!("{met:?}");
}

/// Each operand of a node on either side of 32 and at the ends.
fn every_operand_in<W: Form>(ways: &[Way<W>], met: &mut Met) {
    let most = W::MOST_NODES;
    for at in [1, 2, 30, 31, 32, 33, 62, 63].into_iter().filter(|&at| at < most) {
        for o in 0..most {
            for node in [implies(at - 1, o), implies(o, at - 1), since(at - 1, o), since(o, at - 1), weak_previous(o)] {
                let mut nodes = chain::<W>(most);
                nodes[at] = node;
                ask(ways, of_rule::<W>(&encoded(&nodes)), met);
            }
        }
    }
}

#[test]
fn every_operand() {
    let mut met = Met::default();
    every_operand_in(FIRST, &mut met);
    every_operand_in(SECOND, &mut met);
    println!("{met:?}");
}

/// A line of each opcode for a small rule, and of those that name nodes for the largest, with the most facts; each of its bits is changed
/// in turn.
fn every_bit_of_lines_in<W: Form>(ways: &[Way<W>], met: &mut Met) {
    let mut g = Rng(7);
    for (size, opcodes) in [(4, 0..15), (W::MOST_NODES, 9..13)] {
        let table = generate::sharing_rule(&mut g, size);
        let (past, work) = (table.past_nodes()[0] as u16, table.work_nodes()[0] as u16);
        for op in opcodes {
            let line = match op {
                0 | 7 | 8 => Line::new(op, 0, 0, 0),
                4 => Line::new(op, 1, 0, 0),
                5 | 6 | 13 => Line::new(op, 1, 2, 3),
                9 => Line::new(op, 1, work, 0),
                10 => Line::new(op, 0, past, 2),
                11 => Line::new(op, 0, work, 2),
                12 => Line::new(op, 0, past, 0),
                _ => Line::new(op, 1, 2, 0),
            };
            let mut lines = [line, Line::new(4, 1, 0, 0), Line::new(7, 0, 0, 0), Line::new(0, 0, 0, 0)];
            note_largest(&table, &mut lines);
            let script: Vec<W> = encode_lines_in(&lines);
            for word in 0..8 {
                for k in 0..W::BITS as usize {
                    let mut spoiled = script.clone();
                    spoiled[word] = W::from_top(spoiled[word].at_top() ^ bit(k));
                    ask(ways, of_script(&table.words_in(), &spoiled), met);
                }
            }
        }
    }
}

#[test]
fn every_bit_of_lines() {
    let mut met = Met::default();
    every_bit_of_lines_in(FIRST, &mut met);
    every_bit_of_lines_in(SECOND, &mut met);
    println!("{met:?}");
}

/// Each fact by itself, for rules on either side of 32 nodes and of the most.
fn every_fact_in<W: Form>(ways: &[Way<W>], met: &mut Met) {
    let mut g = Rng(8);
    for n in [1, 31, 32, 33, 63, 64].into_iter().filter(|&n| n <= W::MOST_NODES) {
        let table = generate::sharing_rule(&mut g, n);
        for fact in 0..7 {
            for node in 0..W::MOST_NODES {
                let noted = Line { facts: Facts::none().with(fact, node), ..Line::new(0, 0, 0, 0) };
                let script: Vec<W> = encode_lines_in(&[Line::new(0, 0, 0, 0), noted]);
                ask(ways, of_script(&table.words_in(), &script), met);
                ask(ways, of_script(&table.words_in(), &script[8..]), met);
            }
        }
    }
}

#[test]
fn every_fact() {
    let mut met = Met::default();
    every_fact_in(FIRST, &mut met);
    every_fact_in(SECOND, &mut met);
    println!("{met:?}");
}

/// Each number that 9 to 12 may name and may not, for rules of as many nodes as the form allows, and for tables that name numbers of no node.
fn every_named_node_in<W: Form>(ways: &[Way<W>], met: &mut Met) {
    let (mut g, most) = (Rng(9), W::MOST_NODES);
    let sharing = generate::sharing_rule(&mut g, most).nodes;
    let twice = |k: usize| vec![implies(k, k)];
    for nodes in [chain::<W>(most), chain::<W>(most - 1), sharing, twice(31), twice(most - 1), vec![implies(most - 1, most - 2)]] {
        let rule: Vec<W> = encoded(&nodes);
        for c in (0..=66).chain([95, 96, 127, 128, 8192, 16_383]) {
            for (op, r) in [(9, 0), (9, 1), (10, 0), (11, 0), (12, 0)] {
                let lines = [Line::new(op, r, c, 0), Line::new(0, 0, 0, 0)];
                ask(ways, of_script(&rule, &encode_lines_in(&lines)), met);
                let instructions = instruction_words(&lines);
                ask(ways, [Request::Facts { rule: rule.clone(), instructions, out: room(16), numbers: numbers(2) }], met);
            }
        }
    }
}

#[test]
fn every_named_node() {
    let mut met = Met::default();
    every_named_node_in(FIRST, &mut met);
    every_named_node_in(SECOND, &mut met);
    println!("{met:?}");
}

/// Each prior, next prior and tested register by itself, for rules on either side of 32 nodes and of the most and for one whose nodes are
/// sinces of the test before them; each register written by each opcode that does; and ready up to 2 and as large as can be.
fn every_bit_of_readiness_in<W: Form>(ways: &[Way<W>], met: &mut Met) {
    let mut g = Rng(10);
    let mut rules: Vec<Vec<Node>> = [1, 31, 32, 33, 63, 64].into_iter().map(|n| generate::sharing_rule(&mut g, n).nodes).collect();
    rules.push((0..W::MOST_NODES).map(|i| if i == 0 { TEST } else { since(0, i - 1) }).collect());
    rules.push(chain::<W>(W::MOST_NODES));
    for nodes in rules.iter().filter(|nodes| nodes.len() <= W::MOST_NODES) {
        let rule: Vec<W> = encoded(nodes);
        for (k, at) in (0..64).flat_map(|k| [PRIORS, NEXT_PRIORS, TESTED].map(|at| (k, at))) {
            for others in [0, !0] {
                let mut state = odd_state();
                state[at] = others ^ bit(k);
                ask(ways, [of_state(&rule, &writes_and_presents(), state)], met);
            }
        }
        for (r, op) in (0..16).flat_map(|r| [1, 2, 3, 4, 14].map(|op| (r, op))) {
            let line = Line::new(op, r, if op == 4 { 0 } else { 1 }, 0);
            for tested in [0, bit(r as usize), !bit(r as usize), !0] {
                let mut state = odd_state();
                state[TESTED] = tested;
                ask(ways, [of_state(&rule, &[line], state)], met);
            }
        }
        for ready in [0, 1, 2, 1 << 32, 1 << 63, u64::MAX] {
            let mut state = odd_state();
            state[READY] = ready;
            ask(ways, [of_state(&rule, &writes_and_presents(), state)], met);
        }
    }
}

#[test]
fn every_bit_of_readiness() {
    let mut met = Met::default();
    every_bit_of_readiness_in(FIRST, &mut met);
    every_bit_of_readiness_in(SECOND, &mut met);
    println!("{met:?}");
    assert!(["guard_step", "guard_step64"].iter().all(|name| met.results[&(*name, 98)] > 0));
}

/// Moves into every length of output, from none to two words more than are needed.
fn every_room_in<W: Form>(ways: &[Way<W>], met: &mut Met) {
    let (rule, script): (Vec<W>, Vec<W>) = (encoded(&chain::<W>(32)), encode_lines_in(&[Line::new(0, 0, 0, 0); 3]));
    for words in 0..=34 {
        ask(ways, [Request::MoveRule { rule: rule.clone(), out: room(words), numbers: numbers(2) }], met);
    }
    for words in 0..=26 {
        let (rule, script) = (rule.clone(), script.clone());
        ask(ways, [Request::MoveScript { rule, script, out: room(words), numbers: numbers(2) }], met);
    }
}

#[test]
fn every_room() {
    let mut met = Met::default();
    every_room_in(FIRST, &mut met);
    every_room_in(SECOND, &mut met);
    for (name, short) in [("guard_rule_up", 32), ("guard_rule_back", 32), ("guard_script_up", 24), ("guard_script_back", 24)] {
        assert_eq!((met.results[&(name, 13)], met.results[&(name, 0)]), (short, 3), "{name}");
    }
}

type Cases = BTreeMap<String, u32>;

fn count(met: &mut Cases, names: impl IntoIterator<Item = String>) {
    names.into_iter().for_each(|name| *met.entry(name).or_default() += 1);
}

/// How many cases there are whose names start so.
fn cases(met: &Cases, start: &str) -> usize {
    met.keys().filter(|name| name.starts_with(start)).count()
}

/// Those of some nodes of which something holds.
fn named(what: &str, nodes: &[usize], holds: impl Fn(usize) -> bool) -> Vec<String> {
    nodes.iter().filter(|&&node| holds(node)).map(|node| format!("{what} {node}")).collect()
}

/// What the nodes of a rule of the second form are like, right or wrong.
fn nodes_met(rule: &[u64]) -> Vec<String> {
    let nodes: Vec<Node> = rule.iter().map(|&word| Node::decode_in(word)).collect();
    match check_rule_in(rule) {
        Ok(table) => {
            let count = vec![format!("a rule of {} nodes", table.len())];
            let operands = named("operand", &[31, 32, 62], |i| nodes.iter().any(|node| node.operands().any(|o| o == i)));
            let past = named("past node", &[31, 32, 63], |i| table.is_past(i));
            [count, operands, past, named("shared node", &[31, 32], |i| table.is_shared(i))].concat()
        }
        Err(No { number: 1, .. }) => vec![format!("1 for {} nodes", rule.len())],
        Err(No { number: 2, place }) => {
            // but for one of the zero bits the node is right
            let node = Node { zero: 0, ..nodes[place] };
            let mended = [&rule[..place], &[node.encode_in()]].concat();
            let wrong = matches!(check_rule_in(&mended), Err(No { number: 2, .. }));
            named("2 for zero bit", &[nodes[place].zero.trailing_zeros() as usize], |k| !wrong && nodes[place].zero == 1 << k)
        }
        Err(No { number: 3, place }) => named("3 for operand", &[31, 32, 63], |i| nodes[place].operands().any(|o| o == i)),
        Err(No { place, .. }) => named("4 for node", &[31, 32, 62], |i| i == place),
    }
}

/// What the lines of a script of the second form are like, right or wrong.
fn lines_met(rule: &[u64], script: &[u64]) -> Vec<String> {
    let Ok(table) = check_rule_in(rule) else { return vec![] };
    let lines: Vec<Line> = script.chunks_exact(8).map(Line::decode_annotated_in).collect();
    let on_edge = |what: &str, holds: &dyn Fn(usize) -> bool| named(what, &[31, 32, 63], holds);
    match check_script_in(rule, script) {
        Ok(_) => {
            let noted = |fact: usize| on_edge(&format!("fact {fact} of"), &|node| lines.iter().any(|l| l.facts.has(fact, node)));
            let asked = |op: u8| on_edge(&format!("opcode {op} on"), &|node| lines.iter().any(|l| l.op == op && l.c as usize == node));
            (0..7).flat_map(noted).chain((9..13).flat_map(asked)).collect()
        }
        Err(No { number: 6, place }) => {
            let below = lines[place].zero;
            named("6 for bit below", &[below.trailing_zeros() as usize], |k| k < 32 && below == 1 << k)
        }
        Err(No { number: 8, place }) => {
            let all = all_facts(&table);
            on_edge("8 for a fact of", &|node| (0..7).any(|fact| lines[place].facts.has(fact, node) && !all.has(fact, node)))
        }
        Err(_) => vec![],
    }
}

/// The rule of a request that is asked of one.
fn rule_of<W: Form>(asked: &Request<W>) -> Option<&[W]> {
    match asked {
        Request::Text { .. } | Request::Stations { .. } => None,
        Request::Rule { rule, .. }
        | Request::Bare { rule, .. }
        | Request::Script { rule, .. }
        | Request::Weave { rule, .. }
        | Request::Facts { rule, .. }
        | Request::Judge { rule, .. }
        | Request::Limits { rule, .. }
        | Request::Run { rule, .. }
        | Request::Fresh { rule, .. }
        | Request::Steps { rule, .. }
        | Request::MoveRule { rule, .. }
        | Request::MoveScript { rule, .. } => Some(rule),
    }
}

/// What is answered where a rule has more than 32 nodes.
fn answers_met(mut asked: Request<u64>) -> Vec<String> {
    if !rule_of(&asked).is_some_and(|rule| rule.len() > 32 && check_rule_in(rule).is_ok()) {
        return vec![];
    }
    let mut met = vec![];
    for _ in 0..asked.calls() {
        let before = asked.clone();
        met.push(format!("long, {} {}", asked.function(), asked.put(&Reference)));
        match (&before, &asked) {
            (_, Request::Judge { numbers, .. }) if numbers.get(1) == Some(&1) => met.push("long, a breach".into()),
            (_, Request::Run { numbers, .. }) if numbers.get(4).is_some_and(|&made| made > 0) => {
                met.push("long, a run that presents".into())
            }
            (Request::Steps { script, state, .. }, Request::Steps { state: after, .. }) if state != after => {
                let line = Line::decode_annotated_in(&script[8 * state[0] as usize..]);
                met.extend(
                    (9..13).filter(|&op| line.op == op && line.c > 31).map(|op| format!("long, a step of opcode {op} on a node above 31")),
                );
            }
            _ => {}
        }
    }
    met
}

/// The requests of the second form have the nodes, bits and facts that the first form has not, and those next to them.
#[test]
fn second_form_meets_its_cases() {
    let mut met = Cases::new();
    for n in 0..60_000 {
        let asked = request::<u64>(20_261_115, n);
        count(&mut met, rule_of(&asked).into_iter().flat_map(nodes_met));
        if let Request::Script { rule, script, .. } | Request::Run { rule, script, .. } = &asked {
            count(&mut met, lines_met(rule, script));
        }
        count(&mut met, answers_met(asked));
    }
    println!("{met:#?}");
    for (start, wanted) in [
        ("a rule of", 64),
        ("operand", 3),
        ("past node", 3),
        ("shared node", 2),
        ("1 for 65 nodes", 1),
        ("2 for zero bit", 31),
        ("3 for operand", 3),
        ("4 for node", 3),
        ("fact", 21),
        ("opcode", 12),
        ("6 for bit below", 32),
        ("8 for a fact of", 3),
        ("long, guard_bare64", 5),
        ("long, guard_script64", 9),
        ("long, guard_weave64", 7),
        ("long, guard_facts64", 7),
        ("long, guard_judge64", 4),
        ("long, guard_run64 0", 1),
        ("long, guard_step64", 3),
        ("long, a breach", 1),
        ("long, a run that presents", 1),
        ("long, a step", 4),
    ] {
        assert_eq!(cases(&met, start), wanted, "{start}");
    }
}

/// What a move is like, from what the checker says of the same words.
fn move_met<W: Form>(asked: &Request<W>) -> Vec<String> {
    let name = asked.function();
    let (needed, room, refused) = match asked {
        Request::MoveRule { rule, out, .. } => (rule.len(), out.len(), check_rule_in(rule).err()),
        Request::MoveScript { rule, script, out, .. } => (script.len(), out.len(), check_script_in(rule, script).err()),
        _ => unreachable!("moves alone"),
    };
    let (refused, nodes) = (refused.map_or(0, |no| no.number), rule_of(asked).map_or(0, <[W]>::len));
    let long = nodes > W::Other::MOST_NODES;
    let mut met = vec![];
    match refused {
        1..=4 if long => met.push(format!("{name}: {refused} before 20")),
        1..=4 => {}
        _ if long => {
            met.push(format!("{name}: 20 for {nodes} nodes"));
            met.extend((room < needed).then(|| format!("{name}: 20 before 13")));
            met.extend((5..=8).contains(&refused).then(|| format!("{name}: 20 before {refused}")));
        }
        5..=8 => met.extend((room < needed).then(|| format!("{name}: {refused} before 13"))),
        _ if room < needed => met.push(format!("{name}: 13 for {}", if room + 1 == needed { "one word" } else { "several words" })),
        _ => {
            met.push(format!("{name}: moved with {} words after", if room > needed { "more" } else { "no" }));
            met.extend((9..=11).contains(&refused).then(|| format!("{name}: moved though {refused} refuses")));
            met.extend((nodes == 32).then(|| format!("{name}: moved with 32 nodes")));
        }
    }
    met
}

#[test]
fn moves_meet_their_cases() {
    let mut met = Cases::new();
    for n in 0..15_000 {
        count(&mut met, move_met(&moving::<u32>(20_261_115, n)));
        count(&mut met, move_met(&moving::<u64>(20_261_115, n)));
    }
    println!("{met:#?}");
    for (start, wanted) in [
        ("guard_rule_up: 13", 2),
        ("guard_rule_up: moved", 3),
        ("guard_script_up: 13", 2),
        ("guard_script_up: moved", 6),
        ("guard_rule_back: 13", 2),
        ("guard_rule_back: moved", 3),
        ("guard_script_back: 13", 2),
        ("guard_script_back: moved", 6),
        ("guard_rule_back: 20 for 33 nodes", 1),
        ("guard_rule_back: 20 for 64 nodes", 1),
        ("guard_script_back: 20 for 33 nodes", 1),
        ("guard_script_back: 20 for 64 nodes", 1),
        ("guard_rule_back: 20 before 13", 1),
        ("guard_script_back: 20 before", 5),
    ] {
        assert_eq!(cases(&met, start), wanted, "{start}");
    }
    for name in ["guard_rule_back", "guard_script_back"] {
        assert!((2..=4).all(|number| met.contains_key(&format!("{name}: {number} before 20"))), "{name}");
    }
    for name in ["guard_script_up", "guard_script_back"] {
        assert!((5..=8).all(|number| met.contains_key(&format!("{name}: {number} before 13"))), "{name}");
    }
}

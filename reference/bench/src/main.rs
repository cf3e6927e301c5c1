//! Times the proved code beside peers in plain Rust, in one run: `cargo run --release -p bench`.
mod agree;
mod histories;
mod measure;
mod peers;

use compare::face::{Face, PRESENTATIONS, STATES_NUMBERS, STATE_NUMBERS, TESTED};
use compare::proved::{holds_readiness, library, BOTH_FORMS, STATIONED, WITHIN_LIMITS};
use histories::{random_history, random_limits, rules_in_second_form, steady_history, Named, RULES};
use measure::{measure, Row, Table};
use peers::form::Set;
use peers::judge::{many_at_once, one_at_a_time};
use peers::limits;
use reference::random::Rng;
use reference::rule::{check_rule_in, Node};
use reference::stations::{Station, STATIONS};
use std::hint::black_box;

const STATES: usize = 16_384;

fn judge_rows<W: Set>(rules: &[Named<W>]) -> Vec<Row> {
    let mut rows = vec![];
    for &(name, rule) in rules {
        let random = (random_history(rule, STATES), [0, 1, STATES as u64 - 1, 0], Some(STATES - 1));
        let steady = (steady_history(rule, STATES), [0, 0, 0, STATES as u64], None);
        for (kind, (history, numbers, index)) in [("random", random), ("steady", steady)] {
            let mut n = [0; 4];
            assert_eq!((library().judge(rule, &history, &mut n), n), (0, numbers));
            let mut calls: Vec<Box<dyn FnMut()>> = vec![];
            let h = history.clone();
            calls.push(Box::new(move || {
                black_box(library().judge(black_box(rule), black_box(&h), &mut n));
            }));
            for judge in [one_at_a_time::<W>, many_at_once] {
                assert!(judge(rule, &history).is_ok_and(|i| i == index));
                let h = history.clone();
                calls.push(Box::new(move || {
                    black_box(judge(black_box(rule), black_box(&h)).is_ok());
                }));
            }
            rows.push(Row::new(format!("judge {name}, {} nodes, {STATES} {kind} states", rule.len()), "state", STATES, calls));
        }
    }
    rows
}

/// The judge within limits: where each dial is known within one of its values, and where it is known exactly.
fn limits_rows<W: Set>(rules: &[Named<W>]) -> Vec<Row> {
    let mut rows = vec![];
    for &(name, rule) in rules.iter().filter(|_| WITHIN_LIMITS) {
        let history = random_history(rule, STATES);
        for (kind, (lows, highs)) in [("random", random_limits(&history)), ("exact", (history.clone(), history))] {
            let (mut n, mut out) = ([0; 2], vec![9; STATES]);
            assert_eq!((library().limits(rule, &lows, &highs, &mut out, &mut n), n), (0, [0, STATES as u64]));
            let mut calls: Vec<Box<dyn FnMut()>> = vec![];
            for judge in [limits::one_at_a_time::<W>, limits::many_at_once] {
                let (low, high, mut peer_out) = (lows.clone(), highs.clone(), vec![9; STATES]);
                assert!(judge(rule, &low, &high, &mut peer_out).is_ok_and(|indices| indices == STATES) && out == peer_out);
                calls.push(Box::new(move || {
                    black_box(judge(black_box(rule), black_box(&low), black_box(&high), &mut peer_out).is_ok());
                }));
            }
            let proved = move || {
                black_box(library().limits(black_box(rule), black_box(&lows), black_box(&highs), &mut out, &mut n));
            };
            calls.insert(0, Box::new(proved));
            rows.push(Row::new(format!("limits {name}, {} nodes, {STATES} {kind} limits", rule.len()), "index", STATES, calls));
        }
    }
    rows
}

/// A bare script that weaves to so many lines for a rule whose block has `block` lines: register writes with a present after every
/// second one as long as there is room, then a go to 0.
fn bare_for(block: usize, lines: usize) -> Vec<u32> {
    let mut words = vec![];
    let mut left = lines - 1;
    while left > 0 {
        words.push(4 << 28 | 1 << 24);
        left -= 1;
        if left > 0 {
            words.push(3 << 28 | 2 << 24 | 1 << 10);
            left -= 1;
        }
        if left >= block {
            words.push(8 << 28);
            left -= block;
        }
    }
    words.push(7 << 28);
    words
}

fn script_rows<W: Set>(rules: &[Named<W>], line_counts: &[usize]) -> Vec<Row> {
    let mut rows = vec![];
    for &(name, rule) in rules {
        let nodes = rule.len();
        let mut n = [0; 1];
        rows.push(Row::new(
            format!("check_rule {name}, {nodes} nodes"),
            "rule",
            1,
            vec![
                Box::new(move || {
                    black_box(library().rule(black_box(rule), &mut n));
                }),
                Box::new(move || {
                    black_box(peers::rule::Rule::read(black_box(rule)).is_ok());
                }),
            ],
        ));
        let block = check_rule_in(rule).expect("a rule").block_lines();
        for &lines in line_counts {
            if lines < block + 3 {
                continue;
            }
            let bare = bare_for(block, lines);
            let presents = bare.iter().filter(|&&w| w >> 28 == 8).count();
            let mut n = [0; 2];
            let (mut out, mut peer_out) = (vec![W::default(); 8 * lines], vec![W::default(); 8 * lines]);
            assert_eq!((library().weave(rule, &bare, &mut out, &mut n), n), (0, [0, lines as u64]));
            assert!(peers::weave::weave(rule, &bare, &mut peer_out).is_ok_and(|n| n == lines) && out == peer_out);
            assert_eq!(library().script(rule, &out, &mut n), 0);
            assert!(peers::script::check_script(rule, &out).is_ok());
            let (script, peer_script, peer_bare) = (out.clone(), out.clone(), bare.clone());
            rows.push(Row::new(
                format!("check_script {name}, {nodes} nodes, {lines} lines"),
                "line",
                lines,
                vec![
                    Box::new(move || {
                        black_box(library().script(black_box(rule), black_box(&script), &mut n));
                    }),
                    Box::new(move || {
                        black_box(peers::script::check_script(black_box(rule), black_box(&peer_script)).is_ok());
                    }),
                ],
            ));
            rows.push(Row::new(
                format!("weave {name}, {nodes} nodes, {lines} lines, {presents} blocks"),
                "line",
                lines,
                vec![
                    Box::new(move || {
                        black_box(library().weave(black_box(rule), black_box(&bare), &mut out, &mut n));
                    }),
                    Box::new(move || {
                        black_box(peers::weave::weave(black_box(rule), black_box(&peer_bare), &mut peer_out).is_ok());
                    }),
                ],
            ));
        }
    }
    rows
}

fn instruction(op: u32, r: u32, c: u32, target: u32) -> u32 {
    op << 28 | r << 24 | c << 10 | target
}

/// Two inputs, and a presentation where the rule allows it.
fn tone() -> Vec<u32> {
    vec![instruction(4, 1, 0, 0), instruction(4, 2, 0, 0), instruction(8, 0, 0, 0), instruction(7, 0, 0, 0)]
}

/// The same with a third input.
fn masked_tone() -> Vec<u32> {
    [vec![instruction(4, 3, 0, 0)], tone()].concat()
}

fn woven<W: Set>(rule: &[W], bare: &[u32]) -> Vec<W> {
    let mut out = vec![W::default(); 8 * 1024];
    let mut n = [0; 2];
    assert_eq!(library().weave(rule, bare, &mut out, &mut n), 0);
    out.truncate(8 * n[1] as usize);
    out
}

/// The instructions of a woven script.
fn stripped<W: Set>(script: &[W]) -> Vec<u32> {
    script.iter().step_by(8).map(|word| word.instruction()).collect()
}

/// Bare scripts that do not read their inputs.
fn counting_and_presenting() -> [Vec<u32>; 3] {
    let i = instruction;
    // counts, with tests and copies, and presents nothing
    let count =
        vec![i(3, 1, 1, 0), i(5, 1, 16_383, 4), i(6, 2, 7, 0), i(7, 0, 0, 0), i(1, 1, 0, 0), i(3, 2, 1, 0), i(2, 3, 2, 0), i(7, 0, 0, 0)];
    // a level up by 5 to the one end and down by 10 to the other, over and over
    let sweep = vec![i(3, 1, 5, 0), i(5, 1, 16_383, 3), i(7, 0, 0, 0), i(14, 1, 10, 0), i(5, 1, 0, 0), i(7, 0, 0, 3)];
    // presents all the time: register 1 = 1 since register 2 = 1
    let present = vec![i(1, 1, 1, 0), i(1, 2, 1, 0), i(8, 0, 0, 0), i(1, 2, 0, 0), i(8, 0, 0, 0), i(7, 0, 0, 1)];
    [count, sweep, present]
}

/// Runs long enough that the questions before them take no time that counts: what each does, its rule and its bare script.
fn run_rows<W: Set>(runs: Vec<(&str, &'static [W], Vec<u32>)>) -> Vec<Row> {
    const BUDGET: u64 = 1_000_000;
    let mut g = Rng(9);
    let inputs: Vec<u16> = (0..200_000).map(|_| g.below(2) as u16).collect();
    let mut rows = vec![];
    for (name, rule, bare) in runs {
        let script = woven(rule, &bare);
        let mut n = [0; 22];
        let mut history = vec![0; 16 * 200_000];
        let mut peer_history = history.clone();
        assert_eq!(library().run(rule, &script, &inputs, BUDGET, &mut history, &mut n), 0);
        let t = peers::machine::run(rule, &script, &inputs, BUDGET, &mut peer_history).ok().expect("an accepted script");
        assert_eq!(n[1..6], [t.stop, t.line as u64, t.steps, t.presentations as u64, t.read as u64]);
        assert!(n[6..] == t.registers.map(u64::from) && history == peer_history);
        let steps = n[3] as usize;
        let (peer_script, inputs, peer_inputs) = (script.clone(), inputs.clone(), inputs.clone());
        rows.push(Row::new(
            format!("run that {name}, {steps} steps"),
            "step",
            steps,
            vec![
                Box::new(move || {
                    black_box(library().run(rule, black_box(&script), black_box(&inputs), BUDGET, &mut history, &mut n));
                }),
                Box::new(move || {
                    let peer = peers::machine::run(rule, black_box(&peer_script), black_box(&peer_inputs), BUDGET, &mut peer_history);
                    black_box(peer.is_ok());
                }),
            ],
        ));
    }
    rows
}

/// Steps asked for one by one, the state in lent memory.
fn step_row<W: Set>(name: &str, rule: &'static [W], script: &[W]) -> Row {
    const STEPS: usize = 20_000;
    type Step<W> = fn(&[W], &[W], &[u16], &mut [u16], &mut [u64]) -> u32;
    let proved: Step<W> = |rule, script, inputs, history, state| library().step(rule, script, inputs, history, state);
    let calls = [proved, peers::machine::step]
        .into_iter()
        .map(|step| {
            let script = script.to_vec();
            let inputs = vec![1; 2 * STEPS];
            let mut history = vec![0; 16 * STEPS];
            Box::new(move || {
                let mut state = [0; STATE_NUMBERS];
                library().fresh(rule, &mut state);
                for _ in 0..STEPS {
                    black_box(step(rule, &script, &inputs, &mut history, &mut state));
                }
            }) as Box<dyn FnMut()>
        })
        .collect();
    Row::new(format!("step that {name}, {STEPS} calls"), "step", STEPS, calls)
}

/// What four stations of the same rule and script are lent: inputs of their own, and room for all that they present.
#[derive(Clone)]
struct Lent<W: Set> {
    rule: &'static [W],
    script: Vec<W>,
    inputs: [Vec<u16>; STATIONS],
    histories: [Vec<u16>; STATIONS],
    states: Vec<u64>,
}

impl<W: Set> Lent<W> {
    fn new(rule: &'static [W], bare: &[u32]) -> Lent<W> {
        let mut g = Rng(10);
        Lent {
            rule,
            script: woven(rule, bare),
            inputs: std::array::from_fn(|_| (0..50_000).map(|_| g.below(2) as u16).collect()),
            histories: std::array::from_fn(|_| vec![0; 16 * 20_000]),
            states: vec![0; STATES_NUMBERS],
        }
    }

    /// The states, and what is lent for each station besides.
    fn lend(&mut self) -> (&mut [u64], [Station<'_, W>; STATIONS]) {
        let mut lent = self.inputs.iter().zip(&mut self.histories);
        let stations = std::array::from_fn(|_| {
            let (inputs, history) = lent.next().unwrap();
            Station { rule: self.rule, script: &self.script, inputs, history }
        });
        (&mut self.states, stations)
    }
}

/// Four stations that take turns, with more of an allowance than they use: what each does, its rule and its bare script.
fn stations_rows<W: Set>(runs: Vec<(&str, &'static [W], Vec<u32>)>) -> Vec<Row> {
    const BUDGET: u64 = 200_000;
    const ALLOWANCE: u64 = 100_000;
    let mut rows = vec![];
    for (name, rule, bare) in runs.into_iter().filter(|_| STATIONED) {
        let (mut proved, mut n) = (Lent::new(rule, &bare), [0; 3]);
        let mut peer = proved.clone();
        let (states, stations) = proved.lend();
        assert_eq!(library().stations(states, BUDGET, ALLOWANCE, stations, &mut n), 0);
        let (states, mut stations) = peer.lend();
        let taken = peers::stations::run_stations(states, BUDGET, ALLOWANCE, &mut stations).ok().expect("accepted scripts");
        assert!([0, taken.0, taken.1] == n && proved.states == peer.states && proved.histories == peer.histories);
        assert!(proved.states.chunks(STATE_NUMBERS).all(|state| state[PRESENTATIONS] > 0));
        let turns = n[1] as usize;
        rows.push(Row::new(
            format!("stations that {name}, {turns} turns"),
            "turn",
            turns,
            vec![
                Box::new(move || {
                    let (states, stations) = proved.lend();
                    black_box(library().stations(states, BUDGET, ALLOWANCE, black_box(stations), &mut n));
                }),
                Box::new(move || {
                    let (states, stations) = peer.lend();
                    black_box(peers::stations::run_stations(states, BUDGET, ALLOWANCE, &mut black_box(stations)).is_ok());
                }),
            ],
        ));
    }
    rows
}

/// A register that no rule here tests.
const UNTESTED: u32 = 15;

/// Each kind of step by itself: a full script of one instruction without facts, which a step does not ask for, and a go to line 0; or of gos
/// alone.
fn kinds_of_steps<W: Set>(name: &str, rule: &'static [W]) -> Vec<Row> {
    let mut state = [0; STATE_NUMBERS];
    library().fresh(rule, &mut state);
    let tested = state[TESTED].leading_zeros() & 15;
    assert!(!holds_readiness() || state[TESTED] != 0 && state[TESTED] << UNTESTED >> 63 == 0);
    let i = instruction;
    [
        ("jumps", None),
        ("writes a register that a test reads", Some(i(3, tested, 1, 0))),
        ("writes another register", Some(i(3, UNTESTED, 1, 0))),
        ("presents each time", Some(i(8, 0, 0, 0))),
    ]
    .into_iter()
    .map(|(does, word)| {
        let mut script = vec![W::default(); 8 * 1024];
        for (line, stored) in script.chunks_exact_mut(8).enumerate() {
            let go = i(7, 0, 0, (line as u32 + 1) % 1024);
            stored[0] = W::of_instruction(word.filter(|_| line < 1023).unwrap_or(go));
        }
        step_row(&format!("{does}, {name}, {} nodes", rule.len()), rule, &script)
    })
    .collect()
}

/// Fresh starts, which work out whether a first presentation would keep the rule.
fn fresh_row<W: Set>(name: &str, rule: &'static [W]) -> Row {
    let (mut state, mut peer_state) = ([0; STATE_NUMBERS], [0; STATE_NUMBERS]);
    let calls: Vec<Box<dyn FnMut()>> = vec![
        Box::new(move || {
            black_box(library().fresh(black_box(rule), &mut state));
        }),
        Box::new(move || {
            black_box(peers::machine::fresh(black_box(rule), &mut peer_state));
        }),
    ];
    Row::new(format!("fresh {name}, {} nodes", rule.len()), "start", 1, calls)
}

const SHORT_TEXT: &str = "r1=1 since r2=1 and not r3<40";
/// A rule of 32 nodes, as it is typed.
const FULL_TEXT: &str = "r1=1 since r2=1 and not r3<40 or prev(r4=4 implies once r5<50) implies r6=6 since wprev wprev r7=7";

/// What a text is, the text, and what is answered: the number handed back, the place and how many nodes.
type Typed<'a> = (&'a str, &'a str, (u32, [u64; 2]));

fn text_rows<W: Set>(form: &str, texts: &[Typed]) -> Vec<Row> {
    let mut rows = vec![];
    for &(name, text, answer) in texts {
        let (text, peer_text) = (text.as_bytes().to_vec(), text.as_bytes().to_vec());
        let bytes = text.len();
        let (mut out, mut peer_out, mut n) = ([W::default(); 64], [W::default(); 64], [0; 2]);
        assert_eq!((library().text(&text, &mut out, &mut n), n), answer);
        let peer = match peers::text::read_text(&text, &mut peer_out) {
            Ok(count) => (0, [0, count as u64]),
            Err(no) => (no.number, [no.place as u64, 0]),
        };
        assert!(peer == answer && out == peer_out);
        rows.push(Row::new(
            format!("read_text{form}, {bytes} bytes, {name}"),
            "byte",
            bytes,
            vec![
                Box::new(move || {
                    black_box(library().text(black_box(&text), &mut out, &mut n));
                }),
                Box::new(move || {
                    black_box(peers::text::read_text(black_box(&peer_text), &mut peer_out).is_ok());
                }),
            ],
        ));
    }
    rows
}

/// "register 1 = 1" under a chain of weak previouses, as many as the form allows: round a loop with a present, one fact after the other is
/// lost.
fn chain<W: Set>() -> Vec<W> {
    let node = |i: usize| if i == 0 { Node::new(1, 1, 1, 0, 0) } else { Node::new(5, 0, 0, i as u8 - 1, 0) };
    (0..W::MOST_NODES).map(|i| node(i).encode_in()).collect()
}

/// A present, and 1,022 gos that lead from it back to it, from the last line down; line 0 goes to the last line.
fn backwards() -> Vec<u32> {
    let go = |target: usize| instruction(7, 0, 0, target as u32);
    let line = |i: usize| match i {
        0 | 2 => go(1023),
        1 => instruction(8, 0, 0, 0),
        3 => go(1),
        _ => go(i - 1),
    };
    (0..1024).map(line).collect()
}

/// The same loop laid forwards: 1,022 inputs, the present, a go to line 0.
fn forwards() -> Vec<u32> {
    let mut words = vec![instruction(4, 0, 0, 0); 1022];
    words.extend([instruction(8, 0, 0, 0), instruction(7, 0, 0, 0)]);
    words
}

/// The loop laid backwards with a guard for the chain in it, which is accepted: the work bit of each weak previous becomes its operand's
/// value, and the kept bit of the last is asked. Round the loop all but M is lost, of one node after the other.
fn guarded_backwards(nodes: u32) -> Vec<u32> {
    let i = instruction;
    let mut words = vec![i(7, 0, 0, 1023)];
    // the test's value, then the kept bits of the operands
    words.extend([i(5, 1, 1, 4), i(9, 0, 1, 0), i(7, 0, 0, 5), i(9, 1, 1, 0)]);
    for node in 2..nodes {
        let at = words.len() as u32;
        words.extend([i(10, 0, node - 1, at + 3), i(9, 0, node, 0), i(7, 0, 0, at + 4), i(9, 1, node, 0)]);
    }
    let at = words.len() as u32;
    words.extend([i(10, 0, nodes - 1, at + 2), i(7, 0, 0, 1023), i(8, 0, 0, 0)]);
    words.extend((1..nodes).map(|node| i(12, 0, node, 0)));
    words.extend([i(7, 0, 0, 1023), i(7, 0, 0, 1)]);
    while words.len() < 1024 {
        words.push(i(7, 0, 0, words.len() as u32 - 1));
    }
    words
}

fn facts_rows<W: Set>(rules: &[Named<W>], line_counts: &[usize], form: &str) -> Vec<Row> {
    let mut rows = vec![];
    for &(name, rule) in rules {
        let block = check_rule_in(rule).expect("a rule").block_lines();
        for &lines in line_counts.iter().filter(|&&lines| lines >= block + 3) {
            let instructions = stripped(&woven(rule, &bare_for(block, lines)));
            rows.push(facts_row(&format!("{name}, {} nodes, woven", rule.len()), rule.to_vec(), instructions));
        }
    }
    let nodes = W::MOST_NODES;
    for (name, instructions) in
        [("forwards", forwards()), ("backwards", backwards()), ("backwards and guarded", guarded_backwards(nodes as u32))]
    {
        rows.push(facts_row::<W>(&format!("chain{form}, {nodes} nodes, laid {name}"), chain(), instructions));
    }
    rows
}

fn facts_row<W: Set>(name: &str, rule: Vec<W>, instructions: Vec<u32>) -> Row {
    let lines = instructions.len();
    let (mut out, mut peer_out, mut n) = (vec![W::default(); 8 * lines], vec![W::default(); 8 * lines], [0; 2]);
    let result = library().facts(&rule, &instructions, &mut out, &mut n);
    let peer = match peers::facts::find_facts(&rule, &instructions, &mut peer_out) {
        Ok(count) => (0, [0, count as u64]),
        Err(no) => (no.number, [no.place as u64, 0]),
    };
    assert!((result, n) == peer && out == peer_out);
    let answer = if result == 0 { format!("{} facts", n[1]) } else { format!("refused ({result})") };
    let (peer_rule, peer_instructions) = (rule.clone(), instructions.clone());
    Row::new(
        format!("find_facts {name}, {lines} lines, {answer}"),
        "line",
        lines,
        vec![
            Box::new(move || {
                black_box(library().facts(black_box(&rule), black_box(&instructions), &mut out, &mut n));
            }),
            Box::new(move || {
                black_box(peers::facts::find_facts(black_box(&peer_rule), black_box(&peer_instructions), &mut peer_out).is_ok());
            }),
        ],
    )
}

/// The rows of the first form, but for the judge's.
fn first_form() -> Vec<Row> {
    let [r1, _, _, r4, _, r6] = RULES;
    let mut rows = script_rows(&[r1, r4, r6], &[16, 128, 1024]);
    rows.extend(facts_rows(&[r1, r4, r6], &[128, 256, 512, 1024], ""));
    let (reads, shares) = ("reads and presents", "reads and presents, with shared nodes (R6)");
    let [count, sweep, present] = counting_and_presenting();
    rows.extend(run_rows(vec![
        ("counts", r1.1, count),
        ("raises and lowers", r1.1, sweep),
        ("presents", r1.1, present),
        (reads, r1.1, tone()),
        (shares, r6.1, masked_tone()),
    ]));
    rows.push(step_row(reads, r1.1, &woven(r1.1, &tone())));
    rows.push(step_row(shares, r6.1, &woven(r6.1, &masked_tone())));
    rows.extend(stations_rows(vec![("read and present", r1.1, tone()), ("read and present, with 32 nodes (R4)", r4.1, masked_tone())]));
    for (name, rule) in [r1, r4] {
        rows.push(fresh_row(name, rule));
        rows.extend(kinds_of_steps(name, rule));
    }
    let nested = format!("{}r1=1{}", "(".repeat(10_000), ")".repeat(10_000));
    let digits = format!("r1={}", "9".repeat(1_000));
    let spoiled = format!("{FULL_TEXT})");
    rows.extend(text_rows::<u32>(
        "",
        &[
            ("11 nodes", SHORT_TEXT, (0, [0, 11])),
            ("32 nodes", FULL_TEXT, (0, [0, 32])),
            ("one node in 10000 brackets", &nested, (0, [0, 1])),
            ("a number of 1000 digits, refused (17)", &digits, (17, [3, 0])),
            ("32 nodes, refused at the end (16)", &spoiled, (16, [FULL_TEXT.len() as u64, 0])),
        ],
    ));
    rows
}

/// The rows of the second form, but for the judge's.
fn second_form(rules: &[Named<u64>; 3]) -> Vec<Row> {
    let [r1, _, r7] = *rules;
    let mut rows = script_rows(rules, &[1024]);
    rows.extend(facts_rows(rules, &[1024], ", second form"));
    let (reads, long) = ("reads and presents, second form", "reads and presents, second form, with 64 nodes (R7)");
    rows.extend(run_rows(vec![(reads, r1.1, tone()), (long, r7.1, masked_tone())]));
    rows.push(step_row(reads, r1.1, &woven(r1.1, &tone())));
    rows.push(step_row(long, r7.1, &woven(r7.1, &masked_tone())));
    rows.extend(stations_rows(vec![("read and present, second form, with 64 nodes (R7)", r7.1, masked_tone())]));
    rows.push(fresh_row(r7.0, r7.1));
    rows.extend(kinds_of_steps(r7.0, r7.1));
    // an implies between the full text and one that is a node shorter
    let longest = format!("({FULL_TEXT}) implies {}", FULL_TEXT.replacen("wprev ", "", 1));
    rows.extend(text_rows::<u64>(", second form", &[("11 nodes", SHORT_TEXT, (0, [0, 11])), ("64 nodes", &longest, (0, [0, 64]))]));
    rows
}

fn main() {
    agree::agree(20_000);
    let (mut judges, mut others) = (judge_rows(&RULES), first_form());
    judges.extend(limits_rows(&RULES));
    if BOTH_FORMS {
        let rules = rules_in_second_form();
        judges.extend(judge_rows(&rules));
        judges.extend(limits_rows(&rules));
        others.extend(second_form(&rules));
    }
    let mut tables = [Table { peers: &["one at a time", "64 at once"], rows: judges }, Table { peers: &["peer"], rows: others }];
    measure(&mut tables);
    tables.iter().for_each(Table::print);
}

//! The rules and histories that the judges are timed on.
use reference::form::Word;
use reference::judge::{first_false_kept, first_priors, next_priors, values_now};
use reference::random::Rng;
use reference::rule::{check_rule_in, Node, Rule};
use reference::{State, TOP};

pub const R1: &[u32] = &[0x2200_0800, 0x2400_0800, 0x8000_0002];
pub const R2: &[u32] = &[0x2200_0800, 0xa000_0000];
#[rustfmt::skip]
pub const R3: &[u32] = &[
    0x4719_4000, 0xa000_0000, 0x0000_0000, 0x6000_0044, 0x4719_4000, 0x0000_0000, 0x6000_010a, 0x2200_0800, 0x2400_0800,
    0x8000_01d0, 0x6000_0192, 0x6000_00d4,
];
/// 32 nodes, past operators four deep.
#[rustfmt::skip]
pub const R4: &[u32] = &[
    0x2200_0800, 0x4719_4000, 0xa000_0040, 0x6000_0004, 0x48fa_0000, 0x2400_0800, 0x8000_010a, 0x8000_00cc, 0x2a00_1000,
    0x0000_0000, 0x6000_0212, 0x2c00_1800, 0xa000_02c0, 0xa000_0300, 0x8000_029a, 0xa000_0380, 0x4f77_0000, 0x3000_0800,
    0xa000_0440, 0x520f_a000, 0xa000_04c0, 0x6000_04a8, 0x8000_042a, 0x3400_0000, 0x567d_0000, 0x8000_05f0, 0x5803_2000,
    0xa000_0680, 0x6000_0676, 0x8000_05b8, 0x6000_03fa, 0x6000_01fc,
];
/// Two registers equal since a third was 1.
pub const R5: &[u32] = &[0xc400_0800, 0x2600_0800, 0x8000_0002];
/// 30 nodes, six of them shared (three tests of a number, a test of two registers, a false, an implies), two past nodes used twice.
#[rustfmt::skip]
pub const R6: &[u32] = &[
    0x2600_0800, 0x4201_4800, 0x0000_0000, 0x6000_0044, 0x6000_00c0, 0x2400_0800, 0x8000_000a, 0xa000_0000, 0x6000_01cc,
    0x6000_0204, 0x6000_0112, 0x6000_0284, 0xca00_3000, 0x8000_030a, 0xa000_0180, 0x6000_0398, 0x6000_00da, 0x6000_0404,
    0x6000_03e2, 0x6000_0484, 0x4e03_2000, 0x8000_0068, 0xa000_0540, 0x6000_05aa, 0x6000_002e, 0x6000_0604, 0x6000_04f2,
    0x6000_02f4, 0x6000_06c4, 0x8000_0700,
];

/// A rule and its name. It stays for as long as there are rows.
pub type Named<W> = (&'static str, &'static [W]);

pub const RULES: [Named<u32>; 6] = [("R1", R1), ("R2", R2), ("R3", R3), ("R4", R4), ("R5", R5), ("R6", R6)];

fn decoded(words: &[u32]) -> Vec<Node> {
    words.iter().map(|&word| Node::decode_in(word)).collect()
}

fn second_form(nodes: &[Node]) -> &'static [u64] {
    nodes.iter().map(Node::encode_in).collect::<Vec<_>>().leak()
}

/// R1 and R4 in the second form, and R7, which has 64 nodes: R4 implies that R6 was true at the last presentation.
pub fn rules_in_second_form() -> [Named<u64>; 3] {
    let mut nodes = decoded(R4);
    nodes.extend(decoded(R6).iter().map(|node| match node.kind {
        3 | 4 => Node { left: node.left + 32, right: node.right + 32, ..*node },
        5 => Node { left: node.left + 32, ..*node },
        _ => *node,
    }));
    nodes.extend([Node::new(5, 0, 0, 61, 0), Node::new(3, 0, 0, 31, 62)]);
    [
        ("R1, second form", second_form(&decoded(R1))),
        ("R4, second form", second_form(&decoded(R4))),
        ("R7, second form", second_form(&nodes)),
    ]
}

/// Numbers about the constants of a register's tests, 0 or 1 where it is compared with another register, so that each test is true
/// about half of the time.
fn random_state(g: &mut Rng, rule: &Rule) -> State {
    std::array::from_fn(|register| {
        let tests = rule.nodes.iter().flat_map(|d| match d.kind {
            1 | 2 if d.register as usize == register => vec![d.constant.saturating_sub(1), d.constant],
            6 if [d.register as usize, d.constant as usize].contains(&register) => vec![0, 1],
            _ => vec![],
        });
        let about: Vec<u16> = tests.collect();
        if about.is_empty() {
            g.below(16_384) as u16
        } else {
            g.pick(&about)
        }
    })
}

/// A state at which the rule has this value, and the priors after it.
fn found(g: &mut Rng, rule: &Rule, prior: &[bool], value: bool) -> Option<(State, Vec<bool>)> {
    (0..200).find_map(|_| {
        let state = random_state(g, rule);
        let values = values_now(rule, prior, &state);
        (values[rule.last()] == value).then(|| (state, next_priors(rule, &values)))
    })
}

/// Random states at all of which but the last the rule is true. A state is taken where some next one goes on.
pub fn random_history<W: Word>(words: &[W], states: usize) -> Vec<u16> {
    let rule = check_rule_in(words).expect("a rule");
    let mut g = Rng(4);
    let mut prior = first_priors(&rule);
    let mut history = vec![];
    for n in 0..states {
        let wanted = |n: usize| n + 1 < states;
        let goes_on = |g: &mut Rng, next: &[bool]| n + 1 == states || found(g, &rule, next, wanted(n + 1)).is_some();
        let (state, next) = (0..1000)
            .find_map(|_| found(&mut g, &rule, &prior, wanted(n)).filter(|(_, next)| goes_on(&mut g, next)))
            .expect("a state that goes on");
        prior = next;
        history.push(state);
    }
    assert_eq!(first_false_kept(&rule, &history), states - 1);
    history.concat()
}

/// Limits about a history's states, one below and one above at most: the lows and the highs.
pub fn random_limits(history: &[u16]) -> (Vec<u16>, Vec<u16>) {
    let mut g = Rng(6);
    history.iter().map(|&x| (x.saturating_sub(g.below(2) as u16), (x + g.below(2) as u16).min(TOP))).unzip()
}

/// One state over and over, at which the rule stays true: every branch of a judge goes the way it went before.
pub fn steady_history<W: Word>(words: &[W], states: usize) -> Vec<u16> {
    let rule = check_rule_in(words).expect("a rule");
    let mut g = Rng(5);
    loop {
        let state = random_state(&mut g, &rule);
        if first_false_kept(&rule, &vec![state; 100]) == 100 {
            return state.repeat(states);
        }
    }
}

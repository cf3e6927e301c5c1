//! Small scripts, and all annotations that they can have.
use reference::facts::{all_facts, first_facts, pass, Facts};
use reference::generate;
use reference::random::Rng;
use reference::rule::Rule;
use reference::script::{check_instructions, instruction_words, Line};

/// Register 1 = 1, register 2 = 1.
const A1: u32 = 0x2200_0800;
const B1: u32 = 0x2400_0800;

/// Register 1 = 1 since register 2 = 1.
pub const SINCE: [u32; 3] = [A1, B1, 0x8000_0002];

/// Small rules, and how many lines scripts for them have of which every annotation is looked at: rules of one node up to four, an implies
/// up to three, a past node or two shared ones two.
pub const SMALL_RULES: [(&[u32], usize); 12] = [
    (&[0], 4),
    (&[A1], 4),
    (&[0xc200_1000], 4),
    (&[A1, B1, 3 << 29 | 1 << 1], 3),
    (&[A1, 0, 3 << 29 | 1 << 1], 3),
    (&[A1, 5 << 29], 2),
    (&[0, 5 << 29], 2),
    (&SINCE, 2),
    // a shared test, a shared implies of a shared test, a shared test and a shared false under a since
    (&[A1, 3 << 29], 3),
    (&[A1, 3 << 29, 3 << 29 | 1 << 6 | 1 << 1], 2),
    (&[A1, 4 << 29], 2),
    (&[0, 4 << 29], 2),
];

pub const HALT: Line = line(0, 0, 0, 0);
pub const PRESENT: Line = line(8, 0, 0, 0);

pub const fn line(op: u8, r: u8, c: u16, target: u16) -> Line {
    Line { op, r, c, target, zero: 0, facts: Facts { set: [0; 7] } }
}

pub fn go(target: u16) -> Line {
    line(7, 0, 0, target)
}

/// Rules in which each node is an operand once, and rules with shared nodes.
pub const RULES: [fn(&mut Rng, usize) -> Rule; 2] = [generate::rule, generate::sharing_rule];

/// All subsets of some facts.
pub fn subsets(of: &Facts) -> Vec<Facts> {
    let mut all = vec![Facts::none()];
    for fact in 0..7 {
        for node in (0..32).filter(|&node| of.has(fact, node)) {
            let with: Vec<Facts> = all.iter().map(|f| f.with(fact, node)).collect();
            all.extend(with);
        }
    }
    all
}

/// Instructions that have to do with a rule, in a script of n lines: halt, input into register 1, the rule's tests, gos, present, and
/// the bits of its past and shared nodes, with every target.
pub fn alphabet(rule: &Rule, n: u16) -> Vec<Line> {
    let mut all = vec![HALT, line(4, 1, 0, 0), PRESENT];
    for target in 0..n {
        all.push(go(target));
        all.extend(rule.nodes.iter().filter_map(|d| d.branch().map(|op| line(op, d.register, d.constant, target))));
        all.extend(rule.past_nodes().iter().map(|&i| line(10, 0, i as u16, target)));
        all.extend(rule.work_nodes().iter().map(|&i| line(11, 0, i as u16, target)));
    }
    for i in rule.work_nodes() {
        all.extend([line(9, 0, i as u16, 0), line(9, 1, i as u16, 0)]);
    }
    all.extend(rule.past_nodes().iter().map(|&i| line(12, 0, i as u16, 0)));
    all
}

/// Every script of n instructions that question 7 lets pass.
pub fn every_script(rule: &Rule, n: usize) -> Vec<Vec<Line>> {
    let instructions = alphabet(rule, n as u16);
    let mut all: Vec<Vec<Line>> = vec![vec![]];
    for _ in 0..n {
        all = all.iter().flat_map(|s| instructions.iter().map(|&l| [&s[..], &[l]].concat())).collect();
    }
    all.retain(|s| check_instructions(&rule.words(), &instruction_words(s)).is_ok());
    all
}

/// Every annotation that obeys questions 8, 9 and 11, line by line: a choice is given up where a line chosen already does not pass on
/// what another notes. Answers false where there are more than so many.
pub fn every_obeying(rule: &Rule, lines: &mut [Line], at: usize, left: &mut u32, put: &mut impl FnMut(&[Line])) -> bool {
    if at == lines.len() {
        put(lines);
        return true;
    }
    let to = |l: &Line, i: usize, follower: usize| {
        let p = pass(rule, l);
        let target = p.target.filter(|_| l.target as usize == follower);
        let next = p.next.filter(|_| i + 1 == follower);
        [target, next].into_iter().flatten().reduce(|f, g| f.meet(&g))
    };
    let room = if at == 0 { first_facts(rule) } else { all_facts(rule) };
    let room = (0..at).filter_map(|i| to(&lines[i], i, at)).fold(room, |f, g| f.meet(&g));
    let ones: u32 = room.set.map(u64::count_ones).iter().sum();
    if ones > 16 {
        return false;
    }
    for facts in subsets(&room) {
        if *left == 0 {
            return false;
        }
        *left -= 1;
        lines[at].facts = facts;
        let refused = |follower: usize| to(&lines[at], at, follower).is_some_and(|f| !lines[follower].facts.among(&f));
        let obeys = !(0..=at).any(refused);
        if obeys && !every_obeying(rule, lines, at + 1, left, put) {
            return false;
        }
    }
    true
}

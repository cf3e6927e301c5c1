//! Random guards without facts: woven, made by hand, or instructions at random, often with something wrong.
use crate::requests::{self, lengthen, spoil};
use reference::generate;
use reference::judge::values_now;
use reference::random::Rng;
use reference::rule::Rule;
use reference::script::{instruction_words, Line, MOST_LINES};
use reference::weave::weave_lines;

const PRESENT: u8 = 8;

fn line(op: u8, r: u8, c: usize, target: usize) -> Line {
    Line::new(op, r, c as u16, target as u16)
}

fn go(target: usize) -> Line {
    line(7, 0, 0, target)
}

fn woven(g: &mut Rng, rule: &Rule) -> Vec<Line> {
    let n = if g.chance(1, 60) { g.within(20, 200) } else { g.within(1, 6) };
    let mut lines = weave_lines(rule, &generate::bare(g, rule, n)).0;
    if lines.len() > MOST_LINES {
        lines = weave_lines(rule, &[line(4, 1, 0, 0), line(PRESENT, 0, 0, 0), go(0)]).0;
    }
    lines
}

/// A branch, and back to line 0 where it does not go as wanted.
fn ask(g: &mut Rng, lines: &mut Vec<Line>, branch: Line, wanted: bool) {
    if wanted {
        let past = lines.len() + 2;
        lines.extend([Line { target: past as u16, ..branch }, go(0)]);
    } else {
        lines.push(Line { target: 0, ..branch });
    }
    // a line that does nothing, or that nothing leads to
    if g.chance(1, 40) {
        let next = lines.len() + 1;
        lines.push(go(next));
    }
}

/// A guard with one way to its present. It asks each test and each kept bit, goes back to line 0 where one is not as wanted, and then
/// knows every value, sets the work bits to them, perhaps asks those of shared nodes, presents, and keeps the bits.
fn straight(g: &mut Rng, rule: &Rule) -> Vec<Line> {
    // values at which the rule is true, if some are soon found
    let (mut wanted, mut values) = (vec![], vec![]);
    for _ in 0..20 {
        wanted = (0..rule.len()).map(|_| g.chance(1, 2)).collect();
        let state = generate::history(g, 1).first().copied().unwrap_or([0; 16]);
        values = values_now(rule, &wanted, &state);
        if values[rule.last()] {
            break;
        }
    }
    let mut lines: Vec<Line> = (0..g.below(4)).map(|r| line(4, r as u8, 0, 0)).collect();
    for (i, d) in rule.nodes.iter().enumerate() {
        if let Some(op) = d.branch() {
            ask(g, &mut lines, Line::new(op, d.register, d.constant, 0), values[i]);
        } else if d.is_past() {
            ask(g, &mut lines, line(10, 0, i, 0), wanted[i]);
        }
    }
    for i in rule.work_nodes() {
        let d = rule.nodes[i];
        let worked_out = values[if d.kind == 5 { d.left as usize } else { i }];
        lines.push(line(9, worked_out as u8, i, 0));
    }
    for i in rule.shared_nodes() {
        if g.chance(1, 2) {
            ask(g, &mut lines, line(11, 0, i, 0), values[i]);
        }
    }
    lines.push(line(PRESENT, 0, 0, 0));
    lines.extend(rule.past_nodes().iter().map(|&i| line(12, 0, i, 0)));
    lines.push(go(0));
    lines
}

/// The same lines in another order, or backwards: each is followed by a go to where the next one has gone, and line 0 goes to the first.
fn laid(g: &mut Rng, lines: &[Line]) -> Vec<Line> {
    let n = lines.len();
    let mut order: Vec<usize> = (0..n).rev().collect();
    if g.chance(1, 2) {
        for i in 1..n {
            order.swap(i, g.below(i + 1));
        }
    }
    // where each line goes; past the last one, past the end
    let mut place = vec![0; n + 1];
    let mut at = 1;
    for &i in &order {
        place[i] = at;
        at += 1 + lines[i].follows(i).contains(&(i + 1)) as usize;
    }
    place[n] = at;
    let mut all = vec![go(place[0])];
    for &i in &order {
        let moved = place[lines[i].target as usize] as u16;
        all.push(if lines[i].uses_target() { Line { target: moved, ..lines[i] } } else { lines[i] });
        if lines[i].follows(i).contains(&(i + 1)) {
            all.push(go(place[i + 1]));
        }
    }
    all
}

/// Puts a line before line `at`; targets move with their lines.
pub fn insert(lines: &mut Vec<Line>, at: usize, new: Line) {
    for l in lines.iter_mut().filter(|l| l.uses_target() && l.target as usize >= at) {
        l.target += 1;
    }
    lines.insert(at, new);
}

/// One thing wrong, which the facts may or may not survive.
fn change(g: &mut Rng, rule: &Rule, lines: &mut Vec<Line>) {
    let n = lines.len();
    let i = g.below(n);
    let presents: Vec<usize> = (0..n).filter(|&i| lines[i].op == PRESENT).collect();
    match g.below(9) {
        // two lines swapped, often a present and the line after it
        0 | 1 if !presents.is_empty() => {
            let i = g.pick(&presents);
            lines.swap(i, (i + 1).min(n - 1));
        }
        0 | 1 => lines.swap(i, g.below(n)),
        2 => lines.swap(i, (i + 1) % n),
        // a present where there was none, an input, or a line that does nothing
        3 => insert(lines, i, line(PRESENT, 0, 0, 0)),
        4 => insert(lines, i, line(4, g.below(generate::REGISTERS) as u8, 0, 0)),
        5 => lines[i] = go((i + 1) % n),
        // another way to a line
        6 => lines[i] = go(g.below(n)),
        7 if lines[i].uses_target() => lines[i].target = g.below(n) as u16,
        // a line that nothing leads to, after a go
        _ => {
            if let Some(at) = (0..n).filter(|&i| lines[i].op == 7).nth(g.below(4)) {
                let some = requests::instructions(g, rule);
                let new = g.pick(&some);
                insert(lines, at + 1, Line { target: new.target % n as u16, ..new });
            }
        }
    }
}

/// A present, guarded or not, and a way of up to 1,024 lines back to it, laid forwards by inputs or backwards by gos.
fn long_loop(g: &mut Rng, rule: &Rule) -> Vec<Line> {
    let mut body = if g.chance(1, 2) { straight(g, rule) } else { vec![line(PRESENT, 0, 0, 0), go(0)] };
    body.pop();
    // it stands after line 0
    body.iter_mut().filter(|l| l.target > 0).for_each(|l| l.target += 1);
    let (n, after) = (g.within(1000, MOST_LINES), body.len() + 1);
    let forwards = g.chance(1, 2);
    let way = |i: usize| match i {
        _ if forwards && i + 1 < n => line(4, 1, 0, 0),
        _ if forwards => go(0),
        _ if i == 0 || i == after => go(n - 1),
        _ if i == after + 1 => go(1),
        _ => go(i - 1),
    };
    (0..n).map(|i| if (1..after).contains(&i) { body[i - 1] } else { way(i) }).collect()
}

/// A guard made by hand, or instructions at random; sometimes with something changed or in another order.
pub fn by_hand(g: &mut Rng, rule: &Rule) -> Vec<Line> {
    let mut lines = if g.chance(1, 3) { requests::instructions(g, rule) } else { straight(g, rule) };
    if g.chance(1, 3) {
        change(g, rule, &mut lines);
    }
    if g.chance(1, 6) {
        lines = laid(g, &lines);
    }
    lines
}

/// A halt, then single instructions that nothing leads to, so that any facts may be noted there, each before a halt that has what it passes
/// on. Often a work bit is set.
pub fn unled(g: &mut Rng, rule: &Rule) -> Vec<Line> {
    let halt = line(0, 0, 0, 0);
    let (some, work) = (requests::instructions(g, rule), rule.work_nodes());
    let mut lines = vec![halt];
    for _ in 0..g.within(1, 8) {
        let new = if !work.is_empty() && g.chance(1, 2) { line(9, g.below(2) as u8, g.pick(&work), 0) } else { g.pick(&some) };
        // to its own halt or to one before it
        let target = if g.chance(1, 2) { lines.len() + 1 } else { 2 * g.below(lines.len() / 2 + 1) };
        lines.push(if new.uses_target() { Line { target: target as u16, ..new } } else { new });
        lines.push(halt);
    }
    lines
}

/// Instructions of an annotated script for a rule, one word a line, sometimes spoiled.
pub fn instructions(g: &mut Rng, rule: &Rule) -> Vec<u32> {
    let mut lines = match g.below(16) {
        0..=4 => requests::instructions(g, rule),
        5..=10 => woven(g, rule),
        _ => straight(g, rule),
    };
    if g.chance(1, 3) {
        for _ in 0..g.pick(&[1, 1, 2]) {
            change(g, rule, &mut lines);
        }
    }
    if lines.len() < 100 && g.chance(1, 6) {
        lines = laid(g, &lines);
    }
    if g.chance(1, 400) {
        lines = long_loop(g, rule);
    }
    if !rule.shared_nodes().is_empty() && g.chance(1, 16) {
        requests::misname(g, rule, &mut lines);
    }
    let mut words = instruction_words(&lines);
    if g.chance(1, 8) {
        match g.below(8) {
            0 => words.clear(),
            1 => lengthen(g, &mut words),
            2 => words.resize(g.within(1023, 1026), 0),
            3 => words.iter_mut().for_each(|w| *w = g.next() as u32),
            4 => {
                let i = g.below(words.len());
                words[i] = (g.below(16) as u32) << 28 | words[i] & 0x0fff_ffff;
            }
            _ => spoil(g, &mut words),
        }
    }
    words
}

//! Random pairs of annotations of the same instructions, as two reviewers might make them: what the proved code has woven or found, with
//! facts left out.
use crate::face::Face;
use crate::guards;
use crate::proved::{library, Form};
use crate::requests::{numbered, rule};
use reference::facts::{worked_out, F, T};
use reference::form::Word;
use reference::generate;
use reference::largest::keep_passed;
use reference::random::Rng;
use reference::rule::Rule;
use reference::script::{encode_lines_in, instruction_words, Line, MOST_LINES};

/// Where the facts of the two come from, before some are left out.
#[derive(Clone, Copy, Debug, PartialEq, Eq)]
pub enum Source {
    /// both from the weaver
    Woven,
    /// one from the weaver, the other found for the woven instructions
    WovenAndFound,
    /// both found, for a guard made by hand or instructions at random
    Found,
    /// both found, for instructions that nothing leads to
    Unled,
}

/// A rule and two annotations of the same instructions, each of which may be refused.
#[derive(Clone, Debug)]
pub struct Pair<W> {
    pub source: Source,
    pub table: Rule,
    pub rule: Vec<W>,
    pub one: Vec<W>,
    pub other: Vec<W>,
}

pub fn decoded<W: Word>(script: &[W]) -> Vec<Line> {
    script.chunks(8).map(Line::decode_annotated_in).collect()
}

/// Whether the proved checker accepts a script.
fn accepted<W: Form>(rule: &[W], script: &[W]) -> bool {
    library().script(rule, script, &mut [0]) == 0
}

/// The largest facts of instructions, found by the proved code, if there are facts with which they are accepted.
pub fn found<W: Form>(rule: &[W], instructions: &[u32]) -> Option<Vec<W>> {
    let mut out = vec![W::from(0); 8 * instructions.len()];
    (library().facts(rule, instructions, &mut out, &mut [0; 2]) == 0).then_some(out)
}

/// A bare script woven by the proved code, if it is not too long.
fn woven<W: Form>(g: &mut Rng, table: &Rule, rule: &[W]) -> Option<Vec<W>> {
    // a block of a long rule has hundreds of lines
    let n = if table.len() > 32 { g.within(2, 4) } else { g.within(2, 8) };
    let bare = instruction_words(&generate::bare(g, table, n));
    let (mut out, mut numbers) = (vec![W::from(0); 8 * MOST_LINES], [0; 2]);
    if library().weave(rule, &bare, &mut out, &mut numbers) != 0 {
        return None;
    }
    out.truncate(8 * numbers[1] as usize);
    Some(out)
}

/// Facts taken out at random, at few lines or many, few of them or many; often only from some line on or after the last present, so that
/// presents keep what they need.
fn take_out<W: Form>(g: &mut Rng, script: &[W]) -> Vec<Line> {
    let mut lines = decoded(script);
    let after_presents = lines.iter().rposition(|l| l.op == 8).map_or(0, |i| i + 1);
    let any = g.below(lines.len());
    let from = g.pick(&[0, any, after_presents, after_presents]);
    let every = g.pick(&[1, 1, 3, 10]);
    for l in &mut lines[from..] {
        if g.chance(1, every) {
            let few = if g.chance(1, 2) { g.next() } else { 0 };
            l.facts.set.iter_mut().for_each(|set| *set &= g.next() | few);
        }
    }
    lines
}

/// The same without what no longer follows, until nothing changes.
fn following<W: Form>(table: &Rule, mut lines: Vec<Line>) -> Vec<W> {
    keep_passed(table, &mut lines);
    encode_lines_in(&lines)
}

/// One of the facts noted, as its word's place and its bit.
fn any_fact<W: Word>(g: &mut Rng, script: &[W]) -> Option<(usize, u64)> {
    let noted: Vec<usize> = (0..script.len()).filter(|&at| at % 8 != 0 && script[at].at_top() != 0).collect();
    if noted.is_empty() {
        return None;
    }
    let at = g.pick(&noted);
    let ones: Vec<u64> = (0..64).map(|k| 1 << k).filter(|one| script[at].at_top() & one != 0).collect();
    Some((at, g.pick(&ones)))
}

/// Facts taken out one by one, each at one line or from there on, and left out only where the proved checker still accepts the script.
fn take_out_singly<W: Form>(g: &mut Rng, rule: &[W], mut script: Vec<W>) -> Vec<W> {
    for _ in 0..g.pick(&[2, 6, 20]) {
        let Some((at, fact)) = any_fact(g, &script) else { break };
        let lines = if g.chance(1, 2) { 1 } else { script.len() };
        let mut fewer = script.clone();
        for word in fewer[at..].iter_mut().step_by(8).take(lines) {
            *word = W::from_top(word.at_top() & !fact);
        }
        if accepted(rule, &fewer) {
            script = fewer;
        }
    }
    script
}

/// What a reviewer notes of these facts: facts are left out in one way or the other, or in both. Rarely all are noted; or what no longer
/// follows stays, which the checker refuses.
fn reviewed<W: Form>(g: &mut Rng, table: &Rule, rule: &[W], script: Vec<W>) -> Vec<W> {
    match g.below(20) {
        0 => script,
        1 => encode_lines_in(&take_out(g, &script)),
        2..=12 => following(table, take_out(g, &script)),
        13..=15 => {
            let fewer = following(table, take_out(g, &script));
            take_out_singly(g, rule, fewer)
        }
        _ => take_out_singly(g, rule, script),
    }
}

/// Two who disagree on what a work bit is set to, where nothing leads: often one has no T of the node, the other no F.
fn opposed<W: Form>(g: &mut Rng, table: &Rule, script: &[W]) -> [Vec<W>; 2] {
    let mut both = [decoded(script), decoded(script)];
    for i in 0..both[0].len() {
        let l = both[0][i];
        if l.op == 9 && g.chance(1, 2) {
            let (told, first) = (worked_out(table, l.c as usize), g.below(2));
            both[first][i].facts.drop(T, told);
            both[1 - first][i].facts.drop(F, told);
        }
    }
    both.map(|lines| following(table, lines))
}

/// Two annotations to leave facts out of, if the source has them for this rule.
fn annotations<W: Form>(g: &mut Rng, source: Source, table: &Rule, rule: &[W]) -> Option<[Vec<W>; 2]> {
    match source {
        Source::Woven => woven(g, table, rule).map(|w| [w.clone(), w]),
        Source::WovenAndFound => {
            let woven = woven(g, table, rule)?;
            let found = found(rule, &instruction_words(&decoded(&woven)))?;
            Some([woven, found])
        }
        Source::Found => found(rule, &instruction_words(&guards::by_hand(g, table))).map(|f| [f.clone(), f]),
        Source::Unled => found(rule, &instruction_words(&guards::unled(g, table))).map(|f| opposed(g, table, &f)),
    }
}

/// Pair number `n` of a seed: it depends on nothing else. Of every eight two have each source, the upper four rules in which nodes are used
/// again.
pub fn pair<W: Form>(seed: u64, n: u64) -> Pair<W> {
    let g = &mut numbered(seed, n);
    let source = [Source::Woven, Source::WovenAndFound, Source::Found, Source::Unled][n as usize % 4];
    loop {
        let (table, rule) = rule(g, n / 4 % 2 == 1, 0);
        if let Some(annotations) = annotations(g, source, &table, &rule) {
            let [one, other] = annotations.map(|script| reviewed(g, &table, &rule, script));
            return Pair { source, table, rule, one, other };
        }
    }
}

//! Facts found for instructions that have none: the largest that the checker accepts.
use crate::facts::{all_facts, close, first_facts, pass, planted, Facts, Fault, C, T};
use crate::form::{hand_over, Word};
use crate::rule::Rule;
use crate::script::{check_instructions_in, encode_lines_in, Line};
use crate::{no, No};
use std::collections::VecDeque;

/// Where the search starts. No accepted notes have more: line 0 has at most the first facts (9), any line those that belong (8).
fn most_facts(rule: &Rule, lines: &[Line]) -> Vec<Facts> {
    let mut belonging = all_facts(rule);
    if planted(Fault::StartsWithoutC) {
        belonging.set[C] = 0;
    }
    let mut most = vec![belonging; lines.len()];
    if planted(Fault::UnledEmpty) {
        let led: Vec<usize> = lines.iter().enumerate().flat_map(|(i, l)| l.follows(i)).collect();
        (0..lines.len()).filter(|i| !led.contains(i)).for_each(|i| most[i] = Facts::none());
    }
    most[0] = first_facts(rule);
    most
}

/// Notes the largest facts that questions 8, 9 and 11 let pass.
pub fn note_largest(rule: &Rule, lines: &mut [Line]) {
    for (i, facts) in most_facts(rule, lines).into_iter().enumerate() {
        lines[i].facts = facts;
    }
    keep_passed(rule, lines);
}

/// Takes away what question 11 does not let pass. A follower keeps what each line that leads to it passes on; a line that has lost facts
/// passes on fewer, so it is looked at again.
pub fn keep_passed(rule: &Rule, lines: &mut [Line]) {
    let mut again: VecDeque<usize> = (0..lines.len()).collect();
    while let Some(i) = again.pop_front() {
        let passed = pass(rule, &lines[i]);
        let to_target = passed.target.map(|f| (lines[i].target as usize, f));
        let to_next = passed.next.map(|f| (i + 1, f));
        for (to, facts) in to_target.into_iter().chain(to_next) {
            let kept = lines[to].facts.meet(&facts);
            if kept != lines[to].facts {
                lines[to].facts = kept;
                again.push_back(to);
            }
        }
    }
}

/// 19. Do the largest facts have T of the last node at each present?
fn check_presents(rule: &Rule, lines: &[Line]) -> Result<(), No> {
    match lines.iter().position(|l| l.op == 8 && !close(rule, &l.facts).has(T, rule.last())) {
        Some(i) => no(19, i),
        None => Ok(()),
    }
}

/// The ones over the seven words of every line.
fn count(lines: &[Line]) -> usize {
    let counted = if planted(Fault::CountsNoC) { C } else { C + 1 };
    lines.iter().flat_map(|l| &l.facts.set[..counted]).map(|word| word.count_ones() as usize).sum()
}

/// Questions 1 to 7, 19 and 13; writes eight words a line; answers how many facts there are.
pub fn find_facts_in<W: Word>(rule: &[W], instructions: &[u32], output: &mut [W]) -> Result<usize, No> {
    let (rule, mut lines) = check_instructions_in(rule, instructions)?;
    if planted(Fault::OutputFirst) && output.len() < 8 * lines.len() {
        return no(13, 0);
    }
    note_largest(&rule, &mut lines);
    check_presents(&rule, &lines)?;
    hand_over(&encode_lines_in(&lines), output)?;
    Ok(count(&lines))
}

pub fn find_facts(rule: &[u32], instructions: &[u32], output: &mut [u32]) -> Result<usize, No> {
    find_facts_in(rule, instructions, output)
}

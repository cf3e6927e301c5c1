//! 2026-07: rules and annotated scripts moved from one stored form to the other, there and back.
use crate::facts::{planted, Fault};
use crate::form::{hand_over, Word};
use crate::rule::{check_rule_in, Rule};
use crate::script::{check_noted, check_script_in, encode_lines_in, Line};
use crate::{no, No};

/// Questions 1 to 4 in the form moved from, then 20.
fn check_moved<From: Word, To: Word>(rule: &[From]) -> Result<Rule, No> {
    if planted(Fault::TwentyFirst) && rule.len() > To::MOST_NODES {
        return no(20, 0);
    }
    let rule = check_rule_in(rule)?;
    // 20. Has it no more nodes than the form moved to allows?
    if rule.len() > To::MOST_NODES {
        return no(20, 0);
    }
    Ok(rule)
}

/// Questions 1 to 4, 20 and 13, then the nodes in the other form; how many there are.
pub fn move_rule<From: Word, To: Word>(rule: &[From], output: &mut [To]) -> Result<usize, No> {
    let rule = check_moved::<From, To>(rule)?;
    hand_over(&rule.words_in(), output)?;
    Ok(rule.len())
}

/// Questions 1 to 4, 20, 5 to 8 and 13, then the lines in the other form; how many there are. The rule is in the form moved from. A script
/// that 9, 10 or 11 would refuse moves all the same.
pub fn move_script<From: Word, To: Word>(rule: &[From], script: &[From], output: &mut [To]) -> Result<usize, No> {
    if planted(Fault::OutputFirst) && output.len() < script.len() {
        return no(13, 0);
    }
    if planted(Fault::MovesAcceptedAlone) {
        check_script_in(rule, script)?;
    }
    let rule = check_moved::<From, To>(rule)?;
    let lines = match check_noted(&rule, script) {
        Err(No { number: 8, .. }) if planted(Fault::MovesUnfit) => script.chunks(8).map(Line::decode_annotated_in).collect(),
        noted => noted?,
    };
    hand_over(&encode_lines_in(&lines), output)?;
    Ok(lines.len())
}

pub fn rule_to_64(rule: &[u32], output: &mut [u64]) -> Result<usize, No> {
    move_rule(rule, output)
}

pub fn rule_to_32(rule: &[u64], output: &mut [u32]) -> Result<usize, No> {
    move_rule(rule, output)
}

pub fn script_to_64(rule: &[u32], script: &[u32], output: &mut [u64]) -> Result<usize, No> {
    move_script(rule, script, output)
}

pub fn script_to_32(rule: &[u64], script: &[u64], output: &mut [u32]) -> Result<usize, No> {
    move_script(rule, script, output)
}

//! The judge: straight from the table of kinds, and with priors kept from state to state.
use crate::form::Word;
use crate::rule::{check_rule_in, Rule};
use crate::{no, No, State, TOP};

/// The first state at which the rule is false, as a part of the caller's history, with its index; where there is none, an empty
/// part and the number of states.
#[derive(Clone, Copy, Debug, PartialEq, Eq)]
pub struct Verdict<'a> {
    pub index: usize,
    pub part: &'a [u16],
}

pub fn states(history: &[u16]) -> Vec<State> {
    history.chunks(16).map(|c| c.try_into().unwrap()).collect()
}

/// The values of all nodes now, from their priors.
pub fn values_now(rule: &Rule, prior: &[bool], now: &State) -> Vec<bool> {
    let mut v: Vec<bool> = vec![];
    for (i, d) in rule.nodes.iter().enumerate() {
        let (l, r) = (d.left as usize, d.right as usize);
        let x = match d.kind {
            0 => false,
            1 | 2 | 6 => d.test(now),
            3 => !v[l] || v[r],
            4 => v[r] || (v[l] && prior[i]),
            5 => prior[i],
            _ => unreachable!(),
        };
        v.push(x);
    }
    v
}

pub fn first_priors(rule: &Rule) -> Vec<bool> {
    rule.nodes.iter().map(|d| d.kind == 5).collect()
}

pub fn next_priors(rule: &Rule, v: &[bool]) -> Vec<bool> {
    rule.nodes.iter().enumerate().map(|(i, d)| if d.kind == 5 { v[d.left as usize] } else { v[i] }).collect()
}

/// The lowest index at which the rule is false, or the number of states; with priors kept, one pass.
pub fn first_false_kept(rule: &Rule, history: &[State]) -> usize {
    let mut prior = first_priors(rule);
    for (n, s) in history.iter().enumerate() {
        let v = values_now(rule, &prior, s);
        if !v[rule.last()] {
            return n;
        }
        prior = next_priors(rule, &v);
    }
    history.len()
}

/// The same by the table of kinds: a since looks back over the whole history.
pub fn first_false_direct(rule: &Rule, history: &[State]) -> usize {
    let t = rule.truth_table(history);
    (0..history.len()).find(|&n| !t[rule.last()][n]).unwrap_or(history.len())
}

/// 14. Is the length a multiple of 16?
pub fn check_length(numbers: &[u16]) -> Result<(), No> {
    if numbers.len() % 16 != 0 {
        return no(14, 0);
    }
    Ok(())
}

/// 15. Are all numbers at most 16,383?
pub fn check_numbers(numbers: &[u16]) -> Result<(), No> {
    match numbers.iter().position(|&x| x > TOP) {
        Some(p) => no(15, p),
        None => Ok(()),
    }
}

/// Questions 1 to 4, 14 and 15, then the verdict. Histories of up to `direct` states go by the table of kinds.
pub fn judge_in<'a, W: Word>(rule: &[W], history: &'a [u16], direct: usize) -> Result<Verdict<'a>, No> {
    let rule = check_rule_in(rule)?;
    check_length(history)?;
    check_numbers(history)?;
    let all = states(history);
    let index = if all.len() <= direct { first_false_direct(&rule, &all) } else { first_false_kept(&rule, &all) };
    let part = if index < all.len() { &history[16 * index..16 * index + 16] } else { &history[..0] };
    Ok(Verdict { index, part })
}

pub fn judge<'a>(rule: &[u32], history: &'a [u16], direct: usize) -> Result<Verdict<'a>, No> {
    judge_in(rule, history, direct)
}

//! The functions of the second stored form, by the names that they have for the first. Bare scripts and instructions without facts keep
//! their words of 32 bits.
use crate::judge::{judge_in, Verdict};
use crate::largest::find_facts_in;
use crate::limits::judge_limits_in;
use crate::machine::{nodes_in, run_in, step_stored_in, Machine, Ran};
use crate::rule::{check_rule_in, Node, Rule};
use crate::script::{check_bare_in, check_instructions_in, check_script_in, encode_lines_in, Line};
use crate::stations::{run_stations_in, Station, Taken, STATIONS};
use crate::text::read_text_in;
use crate::unions::union_in;
use crate::weave::weave_in;
use crate::No;

pub fn check_rule(words: &[u64]) -> Result<Rule, No> {
    check_rule_in(words)
}

pub fn judge<'a>(rule: &[u64], history: &'a [u16], direct: usize) -> Result<Verdict<'a>, No> {
    judge_in(rule, history, direct)
}

pub fn judge_limits(rule: &[u64], lows: &[u16], highs: &[u16], out: &mut [u8]) -> Result<usize, No> {
    judge_limits_in(rule, lows, highs, out)
}

pub fn check_bare(rule: &[u64], words: &[u32]) -> Result<(Rule, Vec<Line>), No> {
    check_bare_in(rule, words)
}

pub fn check_instructions(rule: &[u64], words: &[u32]) -> Result<(Rule, Vec<Line>), No> {
    check_instructions_in(rule, words)
}

pub fn check_script(rule: &[u64], words: &[u64]) -> Result<(Rule, Vec<Line>), No> {
    check_script_in(rule, words)
}

pub fn encode_lines(lines: &[Line]) -> Vec<u64> {
    encode_lines_in(lines)
}

pub fn union(one: &[u64], other: &[u64]) -> Vec<u64> {
    union_in(one, other)
}

pub fn weave(rule: &[u64], bare: &[u32], output: &mut [u64]) -> Result<usize, No> {
    weave_in(rule, bare, output)
}

pub fn find_facts(rule: &[u64], instructions: &[u32], output: &mut [u64]) -> Result<usize, No> {
    find_facts_in(rule, instructions, output)
}

pub fn read_text(text: &[u8], out: &mut [u64]) -> Result<usize, No> {
    read_text_in(text, out)
}

pub fn nodes_within(rule: &[u64]) -> Vec<Node> {
    nodes_in(rule)
}

pub fn step_stored(rule: &[u64], script: &[u64], inputs: &[u16], history: &mut [u16], m: Machine) -> Machine {
    step_stored_in(rule, script, inputs, history, m)
}

pub fn run(rule: &[u64], script: &[u64], inputs: &[u16], budget: u64, history: &mut [u16]) -> Result<Ran, No> {
    run_in(rule, script, inputs, budget, history)
}

pub fn run_stations(states: &mut [Machine], budget: u64, allowance: u64, stations: &mut [Station<u64>; STATIONS]) -> Result<Taken, No> {
    run_stations_in(states, budget, allowance, stations)
}

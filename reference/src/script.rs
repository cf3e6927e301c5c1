//! Lines of a script and questions 5 to 11.
use crate::facts::{all_facts, close, first_facts, pass, planted, Facts, Fault, T};
use crate::form::Word;
use crate::rule::{check_rule_in, may_name, Node, Rule};
use crate::{no, No};

pub const MOST_LINES: usize = 1024;

#[derive(Clone, Copy, Debug, PartialEq, Eq)]
pub struct Line {
    pub op: u8,
    pub r: u8,
    pub c: u16,
    pub target: u16,
    /// what stands below the instruction in its word: an unused field, of the second form alone
    pub zero: u32,
    pub facts: Facts,
}

impl Line {
    pub fn new(op: u8, r: u8, c: u16, target: u16) -> Line {
        Line { op, r, c, target, zero: 0, facts: Facts::none() }
    }

    pub fn decode(word: u32) -> Line {
        Line::new((word >> 28) as u8, (word >> 24 & 15) as u8, (word >> 10 & 0x3fff) as u16, (word & 0x3ff) as u16)
    }

    /// The instruction, which has 32 bits in both forms.
    pub fn word(&self) -> u32 {
        (self.op as u32) << 28 | (self.r as u32) << 24 | (self.c as u32) << 10 | self.target as u32
    }

    /// Eight words: the instruction and seven sets of facts.
    pub fn decode_annotated_in<W: Word>(words: &[W]) -> Line {
        let first = words[0].at_top();
        let read = if planted(Fault::HalfOfFacts) { !0 << 32 } else { !0 };
        let facts = Facts { set: std::array::from_fn(|k| words[1 + k].at_top() & read) };
        Line { zero: first as u32, facts, ..Line::decode((first >> 32) as u32) }
    }

    pub fn encode_annotated_in<W: Word>(&self) -> [W; 8] {
        let first = u64::from(self.word()) << 32 | u64::from(self.zero);
        std::array::from_fn(|k| W::from_top(if k == 0 { first } else { self.facts.set[k - 1] }))
    }

    pub fn decode_annotated(words: &[u32]) -> Line {
        Line::decode_annotated_in(words)
    }

    pub fn encode_annotated(&self) -> [u32; 8] {
        self.encode_annotated_in()
    }

    pub fn uses_target(&self) -> bool {
        matches!(self.op, 5 | 6 | 7 | 10 | 11 | 13)
    }

    /// Lines that can follow, whatever a test may say.
    pub fn follows(&self, at: usize) -> Vec<usize> {
        match self.op {
            0 => vec![],
            7 => vec![self.target as usize],
            5 | 6 | 10 | 11 | 13 => vec![self.target as usize, at + 1],
            _ => vec![at + 1],
        }
    }
}

/// The opcodes of bare scripts, and of annotated ones.
pub fn bare_opcode(op: u8) -> bool {
    matches!(op, 0..=8 | 13 | 14)
}

pub fn annotated_opcode(op: u8) -> bool {
    op <= 14
}

/// Question 6 for one line: opcode allowed, unused fields zero, register in c at most 15, node in c one that the opcode may name, set bit
/// 0 or 1.
pub fn fields_allowed(nodes: &[Node], opcode_allowed: fn(u8) -> bool, l: &Line) -> bool {
    let (r0, c0, t0) = (l.r == 0, l.c == 0, l.target == 0);
    let named = || may_name(nodes, l.op, l.c as usize);
    opcode_allowed(l.op)
        && (l.zero == 0 || planted(Fault::BelowPasses))
        && match l.op {
            0 | 8 => r0 && c0 && t0,
            1 | 3 | 14 => t0,
            2 => t0 && l.c <= 15,
            4 => c0 && t0,
            5 | 6 => true,
            7 => r0 && c0,
            9 => t0 && l.r <= 1 && named(),
            10 | 11 => r0 && named(),
            12 => r0 && t0 && named(),
            13 => l.c <= 15,
            _ => false,
        }
}

/// Questions 6 and 7.
fn check_code(rule: &Rule, opcode_allowed: fn(u8) -> bool, lines: &[Line]) -> Result<(), No> {
    // 6. Opcodes allowed, unused fields zero, register in c at most 15, node in c a past node (for 9 and 11 also a shared one), set
    // bit 0 or 1?
    for (i, l) in lines.iter().enumerate() {
        if !fields_allowed(&rule.nodes, opcode_allowed, l) {
            return no(6, i);
        }
    }
    // 7. Does every line that can follow exist, both ways for a branch on any test?
    for (i, l) in lines.iter().enumerate() {
        if l.follows(i).iter().any(|&f| f >= lines.len()) {
            return no(7, i);
        }
    }
    Ok(())
}

/// One word a line, of 32 bits whatever the rule's form: questions 1 to 7.
fn check_words<W: Word>(rule: &[W], opcode_allowed: fn(u8) -> bool, words: &[u32]) -> Result<(Rule, Vec<Line>), No> {
    let rule = check_rule_in(rule)?;
    // 5. 1 to 1,024 whole lines?
    if words.is_empty() || words.len() > MOST_LINES {
        return no(5, 0);
    }
    let lines: Vec<Line> = words.iter().map(|&w| Line::decode(w)).collect();
    check_code(&rule, opcode_allowed, &lines)?;
    Ok((rule, lines))
}

/// A bare script: questions 1 to 7.
pub fn check_bare_in<W: Word>(rule: &[W], words: &[u32]) -> Result<(Rule, Vec<Line>), No> {
    check_words(rule, bare_opcode, words)
}

pub fn check_bare(rule: &[u32], words: &[u32]) -> Result<(Rule, Vec<Line>), No> {
    check_bare_in(rule, words)
}

/// The instructions of an annotated script without their facts: questions 1 to 7.
pub fn check_instructions_in<W: Word>(rule: &[W], words: &[u32]) -> Result<(Rule, Vec<Line>), No> {
    check_words(rule, annotated_opcode, words)
}

pub fn check_instructions(rule: &[u32], words: &[u32]) -> Result<(Rule, Vec<Line>), No> {
    check_instructions_in(rule, words)
}

/// An annotated script, after its rule: questions 5 to 8.
pub fn check_noted<W: Word>(rule: &Rule, words: &[W]) -> Result<Vec<Line>, No> {
    // 5. 1 to 1,024 whole lines?
    if words.len() % 8 != 0 || words.is_empty() || words.len() / 8 > MOST_LINES {
        return no(5, 0);
    }
    let lines: Vec<Line> = words.chunks(8).map(Line::decode_annotated_in).collect();
    check_code(rule, annotated_opcode, &lines)?;
    // 8. Facts only where they belong?
    let all = all_facts(rule);
    for (i, l) in lines.iter().enumerate() {
        if !l.facts.among(&all) {
            return no(8, i);
        }
    }
    Ok(lines)
}

/// An annotated script: questions 1 to 11.
pub fn check_script_in<W: Word>(rule: &[W], words: &[W]) -> Result<(Rule, Vec<Line>), No> {
    let rule = check_rule_in(rule)?;
    let lines = check_noted(&rule, words)?;
    // 9. Line 0's facts among the first facts?
    if !lines[0].facts.among(&first_facts(&rule)) {
        return no(9, 0);
    }
    // 10. At each present, T of the last node in the closed facts?
    for (i, l) in lines.iter().enumerate() {
        if l.op == 8 && !close(&rule, &l.facts).has(T, rule.last()) {
            return no(10, i);
        }
    }
    // 11. Are the facts noted at each following line among those passed on?
    for (i, l) in lines.iter().enumerate() {
        let p = pass(&rule, l);
        if p.target.is_some_and(|f| !lines[l.target as usize].facts.among(&f)) || p.next.is_some_and(|f| !lines[i + 1].facts.among(&f)) {
            return no(11, i);
        }
    }
    Ok((rule, lines))
}

pub fn check_script(rule: &[u32], words: &[u32]) -> Result<(Rule, Vec<Line>), No> {
    check_script_in(rule, words)
}

pub fn encode_lines_in<W: Word>(lines: &[Line]) -> Vec<W> {
    lines.iter().flat_map(Line::encode_annotated_in).collect()
}

pub fn encode_lines(lines: &[Line]) -> Vec<u32> {
    encode_lines_in(lines)
}

pub fn instruction_words(lines: &[Line]) -> Vec<u32> {
    lines.iter().map(Line::word).collect()
}

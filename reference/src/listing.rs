//! The listing program.
use crate::rule::{check_rule, MOST_NODES};
use crate::script::{check_bare, MOST_LINES};
use crate::weave::weave_lines;
use crate::{no, No};

/// A program's input: words of 32 bits, high byte first.
pub(crate) struct Words<'a> {
    pub bytes: &'a [u8],
}

impl Words<'_> {
    pub fn next(&mut self) -> Option<u32> {
        // A word cut short is a missing word.
        let (word, rest) = self.bytes.split_first_chunk::<4>()?;
        self.bytes = rest;
        Some(u32::from_be_bytes(*word))
    }

    /// A count from 1 to `most`, and that many words.
    pub fn counted(&mut self, most: usize) -> Option<Vec<u32>> {
        let n = self.next()? as usize;
        if n < 1 || n > most {
            return None;
        }
        (0..n).map(|_| self.next()).collect()
    }
}

fn list(input: &[u8]) -> Result<String, No> {
    let mut words = Words { bytes: input };
    let Some(rule) = words.counted(MOST_NODES) else { return no(1, 0) };
    check_rule(&rule)?;
    let Some(bare) = words.counted(MOST_LINES) else { return no(5, 0) };
    let (rule, bare) = check_bare(&rule, &bare)?;
    let (lines, _) = weave_lines(&rule, &bare);
    if lines.len() > MOST_LINES {
        return no(12, 0);
    }
    let mut s = format!("lines {}\n", lines.len());
    for (i, l) in lines.iter().enumerate() {
        s += &format!("{} {} {} {} {}\n", i, l.op, l.r, l.c, l.target);
    }
    Ok(s)
}

pub fn listing(input: &[u8]) -> String {
    match list(input) {
        Ok(s) => s,
        Err(n) => format!("refused {} {}\n", n.number, n.place),
    }
}

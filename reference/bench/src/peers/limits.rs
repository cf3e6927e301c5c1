//! Two judges within limits over a rule that is decoded once, as the judges of exact histories are. Each has two words where those have one:
//! the nodes that can be true and those that must be, or for each node the indices at which it can be true and at which it must be.
use super::form::Set;
use super::judge::{bit_if, from_bit, since, whole, Decoded, Join, Part};
use super::rule::{Rule, IMPLIES, WEAK_PREVIOUS};
use super::{no, numbers_small, No};

/// Questions 1 to 4, 14, 22, 13, 15 and 23.
fn ask<'a, W: Set>(rule: &'a [W], lows: &[u16], highs: &[u16], room: usize) -> Result<Rule<'a, W>, No> {
    let rule = Rule::read(rule)?;
    if lows.len() % 16 != 0 || highs.len() % 16 != 0 {
        return no(14, 0);
    }
    if lows.len() != highs.len() {
        return no(22, 0);
    }
    if room < lows.len() / 16 {
        return no(13, 0);
    }
    // a loop with no early way out runs many numbers at a time
    if lows.iter().zip(highs).fold(0, |wrong, (low, high)| wrong | high >> 14 | (low > high) as u16) != 0 {
        numbers_small(lows)?;
        numbers_small(highs)?;
        return no(23, lows.iter().zip(highs).position(|(low, high)| low > high).unwrap());
    }
    Ok(rule)
}

/// 0 false, 1 true, 2 open: a node that must be true can be.
fn byte(can: bool, must: bool) -> u8 {
    2 * can as u8 - must as u8
}

/// How many indices are answered; an index at a time, without a branch on what it reads.
pub fn one_at_a_time<W: Set>(rule: &[W], lows: &[u16], highs: &[u16], out: &mut [u8]) -> Result<usize, No> {
    let d = Decoded::new(&ask(rule, lows, highs, out.len())?);
    // weak previous takes its value from its prior alone
    let mut joins: Part<W, Join> = Part::none();
    d.joins.each().iter().filter(|j| j.kind != WEAK_PREVIOUS).for_each(|&j| joins.push(j));
    let (mut prior_can, mut prior_must) = (d.weak, d.weak);
    for ((low, high), answer) in lows.chunks_exact(16).zip(highs.chunks_exact(16)).zip(out) {
        let (low, high): (&[u16; 16], &[u16; 16]) = (low.try_into().unwrap(), high.try_into().unwrap());
        let (mut can, mut must) = (prior_can & d.weak, prior_must & d.weak);
        for t in d.tests.each() {
            let (low, high) = (low[(t.register & 15) as usize], high[(t.register & 15) as usize]);
            let end = t.lo + t.width;
            can |= bit_if((low < end) & (high >= t.lo), t.bit);
            must |= bit_if((low >= t.lo) & (high < end), t.bit);
        }
        for p in d.pairs.each() {
            let (one, other) = ((p.register & 15) as usize, (p.other & 15) as usize);
            can |= bit_if((low[one] <= high[other]) & (low[other] <= high[one]), p.bit);
            must |= bit_if((low[one] == high[other]) & (low[other] == high[one]) | (one == other), p.bit);
        }
        // since: right, or left and prior; implies: right, or not left, which can be where left need not, and must be where left cannot
        let (gate_can, gate_must, flip) = (prior_can | !d.since, prior_must | !d.since, !d.since);
        for j in joins.each() {
            let (left_can, left_must) = (from_bit(can, j.left), from_bit(must, j.left));
            let flipped = !(left_can ^ left_must) & from_bit(flip, j.bit);
            let v_can = from_bit(can, j.right) | (left_can ^ flipped) & from_bit(gate_can, j.bit);
            let v_must = from_bit(must, j.right) | (left_must ^ flipped) & from_bit(gate_must, j.bit);
            can |= (v_can & W::from(1)) << W::place(j.bit as usize) as u32;
            must |= (v_must & W::from(1)) << W::place(j.bit as usize) as u32;
        }
        prior_can = can << 1 & d.near | can & d.since;
        prior_must = must << 1 & d.near | must & d.since;
        for j in d.far.each() {
            prior_can |= (from_bit(can, j.left) & W::from(1)) << W::place(j.bit as usize) as u32;
            prior_must |= (from_bit(must, j.left) & W::from(1)) << W::place(j.bit as usize) as u32;
        }
        let of_last = |set: W| !(from_bit(set, d.last) & W::from(1)).is_empty();
        *answer = byte(of_last(can), of_last(must));
    }
    Ok(lows.len() / 16)
}

/// The indices at which a test can be true and those at which it must be, index i at bit i.
fn packed(low: &[u16; 1024], high: &[u16; 1024], test: impl Fn(&[u16; 16], &[u16; 16]) -> (bool, bool)) -> (u64, u64) {
    let (mut can, mut must) = ([0u64; 4], [0u64; 4]);
    for j in (0..16).rev() {
        for q in 0..4 {
            let at = 256 * q + 16 * j..256 * q + 16 * j + 16;
            let now = test(low[at.clone()].try_into().unwrap(), high[at].try_into().unwrap());
            can[q] = can[q] << 1 | now.0 as u64;
            must[q] = must[q] << 1 | now.1 as u64;
        }
    }
    let joined = |quarters: [u64; 4]| quarters[0] | quarters[1] << 16 | quarters[2] << 32 | quarters[3] << 48;
    (joined(can), joined(must))
}

/// For each node the indices of a block at which it can be true and at which it must be, and what the block before hands on.
struct Values<W: Set> {
    can: W::Table<u64>,
    must: W::Table<u64>,
    carry_can: W::Table<u64>,
    carry_must: W::Table<u64>,
}

/// Where the rule can be true and where it must be, at 64 indices.
fn values_at<W: Set>(d: &Decoded<W>, low: &[u16; 1024], high: &[u16; 1024], values: &mut Values<W>) -> (u64, u64) {
    let place = |bit: u8| W::place(bit as usize);
    let (can, must) = (values.can.as_mut(), values.must.as_mut());
    let (carry_can, carry_must) = (values.carry_can.as_mut(), values.carry_must.as_mut());
    for t in d.tests.each() {
        let (register, end) = ((t.register & 15) as usize, t.lo + t.width);
        (can[place(t.bit)], must[place(t.bit)]) = packed(low, high, |low, high| {
            let (low, high) = (low[register], high[register]);
            ((low < end) & (high >= t.lo), (low >= t.lo) & (high < end))
        });
    }
    for p in d.pairs.each() {
        let (one, other) = ((p.register & 15) as usize, (p.other & 15) as usize);
        (can[place(p.bit)], must[place(p.bit)]) = packed(low, high, |low, high| {
            let (under, over) = (low[one].cmp(&high[other]), low[other].cmp(&high[one]));
            (under.is_le() & over.is_le(), under.is_eq() & over.is_eq() | (one == other))
        });
    }
    for j in d.joins.each() {
        let (at, left, right) = (place(j.bit), place(j.left), place(j.right));
        (can[at], must[at]) = match j.kind {
            IMPLIES => (!must[left] | can[right], !can[left] | must[right]),
            WEAK_PREVIOUS => {
                let v = (can[left] << 1 | carry_can[at], must[left] << 1 | carry_must[at]);
                (carry_can[at], carry_must[at]) = (can[left] >> 63, must[left] >> 63);
                v
            }
            _ => {
                let v = (since(can[left], can[right], carry_can[at]), since(must[left], must[right], carry_must[at]));
                (carry_can[at], carry_must[at]) = (v.0 >> 63, v.1 >> 63);
                v
            }
        };
    }
    (can[place(d.last)], must[place(d.last)])
}

/// The same, 64 indices at a time.
pub fn many_at_once<W: Set>(rule: &[W], lows: &[u16], highs: &[u16], out: &mut [u8]) -> Result<usize, No> {
    let d = Decoded::new(&ask(rule, lows, highs, out.len())?);
    let first = d.first_priors();
    let mut values = Values { can: W::table(0), must: W::table(0), carry_can: first, carry_must: first };
    for ((low, high), answers) in lows.chunks(1024).zip(highs.chunks(1024)).zip(out.chunks_mut(64)) {
        let (mut low_rest, mut high_rest) = ([0; 1024], [0; 1024]);
        let (can, must) = values_at(&d, whole(low, &mut low_rest), whole(high, &mut high_rest), &mut values);
        for (i, answer) in answers.iter_mut().enumerate().take(low.len() / 16) {
            *answer = byte(can >> i & 1 == 1, must >> i & 1 == 1);
        }
    }
    Ok(lows.len() / 16)
}

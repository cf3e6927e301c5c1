//! 2026-06: a table without sharing weaves as before. Rules in which no node is an operand twice and bare scripts for them are woven, and
//! digests of all that is handed back and written are held to those of the code as it was before that request.
//!
//! `BEFORE` was made by this file, put beside the tests of the last commit before the request, 9126584: there the proved library and the
//! reference both gave it. A third implementation gave it too, asked for the weaving of 2026-05 on the lines that `print_requests` prints.
//! To make it again, do that: where the list is not this one the test prints what it got.
use compare::face::Face;
use compare::faced::Reference;
use compare::proved::library;
use reference::random::Rng;

const SEED: u64 = 20_261_116;
const REQUESTS: usize = 10_000;
const EVERY: usize = 500;

/// The digest after every 500 requests, each of all requests so far.
#[rustfmt::skip]
const BEFORE: [u64; REQUESTS / EVERY] = [
    0xf2b1_2c2c_0f43_ab69, 0x4376_9559_64de_4101, 0x5934_1a09_aeda_e04d, 0xea85_dd31_8b58_883d,
    0xe856_de6a_41ff_6a05, 0x8cd6_58c2_db88_e4f5, 0x0c83_fb55_7412_b32d, 0x5070_0c65_774c_be62,
    0x9e25_9e81_9e71_ca19, 0x5280_158e_b69c_29ad, 0x608f_2ec5_2b3d_3b90, 0x4e10_72b0_9848_d0cf,
    0xa364_2b8f_ece2_1b83, 0x574c_441e_6a4b_e1ed, 0x5189_2ff2_50cd_28b2, 0x7fda_320f_920b_4f52,
    0x629c_18f4_be19_6fd7, 0x5b74_5670_11ef_eeaa, 0xe32e_1cf0_da94_fcdb, 0x0256_7476_e1cc_09c9,
];

/// A rule of so many nodes in which each but the last is an operand once.
fn rule(g: &mut Rng, n: usize) -> Vec<u32> {
    let mut words: Vec<u32> = vec![];
    // the nodes that are no operands yet
    let mut free: Vec<u32> = vec![];
    for i in 0..n {
        let later = n - i - 1;
        // the nodes to come can take up all that is free but one, and at the end one is
        let arities: Vec<usize> = (0..=2).filter(|&a| a <= free.len() && free.len() - a <= later).collect();
        let arity = g.pick(&arities);
        let mut operand = || free.swap_remove(g.below(free.len()));
        let operands = match arity {
            0 => 0,
            1 => operand() << 6,
            _ => operand() << 6 | operand() << 1,
        };
        let kind = match arity {
            0 => g.pick(&[0, 1, 1, 2, 2, 6]),
            1 => 5,
            _ => g.pick(&[3, 4]),
        };
        let test = match kind {
            1 | 2 => g.below(1 << 18) as u32,
            6 => (g.below(16) << 14 | g.below(16)) as u32,
            _ => 0,
        };
        words.push(kind << 29 | test << 11 | operands);
        free.push(i as u32);
    }
    words
}

/// A bare script: each opcode of such scripts, every field that it uses at random; a halt or a go at the end.
fn bare(g: &mut Rng) -> Vec<u32> {
    let n = if g.chance(1, 40) { g.within(100, 1_024) } else { g.within(2, 16) };
    let line = |i: usize| {
        let op = if i + 1 == n { g.pick(&[0, 7]) } else { g.pick(&[1, 2, 3, 4, 5, 6, 7, 8, 8, 8, 13, 14]) };
        let (r, c, target) = (g.below(16) << 24, g.below(1 << 14) << 10, g.below(n));
        let register = g.below(16) << 10;
        let fields = match op {
            0 | 8 => 0,
            1 | 3 | 14 => r | c,
            2 => r | register,
            4 => r,
            5 | 6 => r | c | target,
            7 => target,
            _ => r | register | target,
        };
        (op << 28 | fields) as u32
    };
    (0..n).map(line).collect()
}

/// A rule, a bare script, and how many words are lent: enough for any woven script, or few.
type Request = (Vec<u32>, Vec<u32>, usize);

fn requests() -> impl Iterator<Item = Request> {
    let mut g = Rng(SEED);
    (0..REQUESTS).map(move |_| {
        let n = if g.chance(1, 20) { 32 } else { g.within(1, 32) };
        let rule = rule(&mut g, n);
        let bare = bare(&mut g);
        let lent = if g.chance(1, 25) { g.below(400) } else { 8 * 1_024 };
        (rule, bare, lent)
    })
}

/// How often each node is an operand: kinds 3 and 4 have left and right, 5 has left.
fn uses(rule: &[u32]) -> [usize; 32] {
    let mut uses = [0; 32];
    for word in rule {
        let (left, right) = ((word >> 6 & 31) as usize, (word >> 1 & 31) as usize);
        uses[left] += matches!(word >> 29, 3..=5) as usize;
        uses[right] += matches!(word >> 29, 3 | 4) as usize;
    }
    uses
}

/// FNV-1a, a word at a time: two lists that differ in one word never have the same digest.
fn digest(so_far: u64, words: impl IntoIterator<Item = u64>) -> u64 {
    words.into_iter().fold(so_far, |digest, word| (digest ^ word).wrapping_mul(0x100_0000_01b3))
}

/// The digests, and how many scripts were woven.
fn digests(face: &impl Face<u32>) -> (Vec<u64>, usize) {
    let (mut all, mut so_far, mut woven) = (vec![], 0xcbf2_9ce4_8422_2325, 0);
    for (k, (rule, bare, lent)) in requests().enumerate() {
        let (mut out, mut numbers) = (vec![7; lent], [7; 2]);
        let result = face.weave(&rule, &bare, &mut out, &mut numbers);
        let (written, rest) = out.split_at(8 * numbers[1] as usize);
        assert!(rest.iter().all(|&word| word == 7), "later words stay");
        so_far = digest(so_far, [result as u64, numbers[0], numbers[1]]);
        so_far = digest(so_far, written.iter().map(|&word| word as u64));
        woven += (result == 0) as usize;
        if (k + 1) % EVERY == 0 {
            all.push(so_far);
        }
    }
    (all, woven)
}

#[test]
fn unshared_tables_weave_as_before() {
    for (rule, ..) in requests() {
        let last = rule.len() - 1;
        let uses = uses(&rule);
        assert!(uses[..last].iter().all(|&n| n == 1) && uses[last..] == [0; 32][last..], "{rule:x?}");
    }
    for (name, (got, woven)) in [("proved", digests(&library())), ("reference", digests(&Reference))] {
        println!("{name}: {woven} of {REQUESTS} woven");
        assert!((9_000..REQUESTS).contains(&woven), "{woven}");
        let wrong = got.iter().zip(BEFORE).position(|(got, before)| *got != before);
        assert!(
            wrong.is_none(),
            "{name}: first among requests {} to {}; in all {got:#x?}",
            EVERY * wrong.unwrap(),
            EVERY * (wrong.unwrap() + 1) - 1
        );
    }
}

/// The requests, one a line: nodes and instructions in hexadecimal, and how many words are lent.
#[test]
#[ignore]
fn print_requests() {
    let hexadecimal = |words: &[u32]| words.iter().map(|word| format!("{word:x}")).collect::<Vec<_>>().join(",");
    for (rule, bare, lent) in requests() {
        println!("{} {} {lent}", hexadecimal(&rule), hexadecimal(&bare));
    }
}

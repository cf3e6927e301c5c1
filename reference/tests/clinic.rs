//! The specification's clinic cases.
use reference::judge::judge;
use reference::listing::listing;
use reference::machine::{run, Stop};
use reference::plain;
use reference::rule::check_rule;
use reference::script::{check_bare, check_script, Line};
use reference::weave::weave;
use reference::{no, No};

const LISTING: &str = "lines 16
0 4 1 0 0
1 4 2 0 0
2 5 2 1 8
3 7 0 0 4
4 10 0 2 6
5 7 0 0 10
6 5 1 1 8
7 7 0 0 10
8 9 1 2 0
9 7 0 0 11
10 9 0 2 0
11 11 0 2 13
12 7 0 0 15
13 8 0 0 0
14 12 0 2 0
15 7 0 0 0
";

/// "present, halt", woven for false, implies 0 0.
const TRUE_LISTING: &str = "lines 10
0 7 0 0 3
1 9 1 0 0
2 7 0 0 4
3 9 0 0 0
4 11 0 0 6
5 7 0 0 8
6 11 0 0 8
7 7 0 0 9
8 8 0 0 0
9 0 0 0 0
";

/// Register 1 = 1 since register 2 = 1.
const SINCE: [u32; 3] = [0x2200_0800, 0x2400_0800, 0x8000_0002];

/// "input 1, input 2, present, go to 0"
const TONE: [u32; 4] = [4 << 28 | 1 << 24, 4 << 28 | 2 << 24, 8 << 28, 7 << 28];

/// States with these values of registers 1 and 2.
fn two(pairs: &[(u16, u16)]) -> Vec<u16> {
    let mut h = vec![];
    for &(a, b) in pairs {
        let mut s = [0u16; 16];
        s[1] = a;
        s[2] = b;
        h.extend(s);
    }
    h
}

fn refusal<X>(answer: Result<X, No>) -> Option<(u32, usize)> {
    answer.err().map(|n| (n.number, n.place))
}

fn woven() -> Vec<u32> {
    let mut out = vec![0; 8 * 16];
    assert_eq!(weave(&SINCE, &TONE, &mut out), Ok(16));
    out
}

#[test]
fn rules() {
    assert_eq!(refusal(check_rule(&SINCE)), None);
    assert_eq!(refusal(check_rule(&[])), Some((1, 0)));
    assert_eq!(refusal(check_rule(&[0x6000_0000])), Some((3, 0)));
    // 2026-06: false, implies 0 0
    assert_eq!(refusal(check_rule(&[0, 0x6000_0000])), None);
}

#[test]
fn judging() {
    // by the table of kinds, and with priors kept
    for direct in [usize::MAX, 0] {
        let h = two(&[(0, 1), (1, 0), (0, 0)]);
        let v = judge(&SINCE, &h, direct).unwrap();
        assert!(v.index == 2 && v.part == &h[32..48] && v.part.as_ptr() == h[32..].as_ptr());
        assert_eq!(judge(&SINCE, &two(&[(1, 0)]), direct).unwrap().index, 0);
        let v = judge(&SINCE, &[], direct).unwrap();
        assert!(v.index == 0 && v.part.is_empty());
        let v = judge(&[0x2200_0800, 5 << 29], &[0; 32], direct).unwrap();
        assert!(v.index == 1 && v.part == [0; 16]);
    }
}

#[test]
fn bare_scripts() {
    assert_eq!(refusal(check_bare(&SINCE, &[0])), None);
    assert_eq!(refusal(check_bare(&SINCE, &[])), Some((5, 0)));
    assert_eq!(refusal(check_bare(&SINCE, &[8 << 28])), Some((7, 0)));
}

#[test]
fn the_longest_script() {
    let mut out = vec![0xdead_beef; 8 * 1024];
    let mut long = vec![0; 1012];
    long[5] = 8 << 28;
    assert_eq!(weave(&SINCE, &long, &mut out), Ok(1024));
    let before = out.clone();
    long.push(0);
    assert_eq!(weave(&SINCE, &long, &mut out), no(12, 0));
    assert!(out == before);
}

/// Register 2, the word level, equal to register 1, the carrier level, since register 3 = 1: the list was chosen.
const SPEECH: [u32; 3] = [0xc400_0800, 0x2600_0800, 0x8000_0002];

/// "input 3, input 1, input 2, if register 2 = register 1 go to 5, input 2, present, go to 0"
const WORDS: [u32; 7] = [4 << 28 | 3 << 24, 4 << 28 | 1 << 24, 4 << 28 | 2 << 24, 13 << 28 | 2 << 24 | 1 << 10 | 5, 4 << 28 | 2 << 24, 8 << 28, 7 << 28];

/// 2026-01: a word level that is put right is presented; one that stays wrong is not, and the since goes on as if it had not been.
#[test]
fn the_speech_test() {
    let mut script = vec![0; 8 * 19];
    assert_eq!(weave(&SPEECH, &WORDS, &mut script), Ok(19));
    assert_eq!(refusal(check_script(&SPEECH, &script)), None);
    // chosen at 40; 45 as told; 44 for 45, put right; 46 for 45, put to 47; 45 after that; chosen again
    let inputs = [1, 40, 40, 0, 45, 45, 0, 45, 44, 45, 0, 45, 46, 47, 0, 45, 45, 1, 30, 30];
    let mut history = vec![7; 80];
    let r = run(&SPEECH, &script, &inputs, 1000, &mut history).unwrap();
    assert!(r.stop == Stop::Dry && r.presentations == 5 && r.read == 20);
    let levels: Vec<u16> = history[..80].chunks(16).map(|s| s[2]).collect();
    assert_eq!(levels, [40, 45, 45, 45, 30]);
    // the registers of the block's 13 swapped: 11 at that line
    assert_eq!(script[8 * 9] >> 28, 13);
    script[8 * 9] = 13 << 28 | 1 << 24 | 2 << 10 | script[8 * 9] & 0x3ff;
    assert_eq!(refusal(check_script(&SPEECH, &script)), Some((11, 9)));
}

/// Register 1, the level, under 16,383 since it was 16,000.
const LEVEL: [u32; 3] = [0x43ff_f800, 0x23f4_0000, 0x8000_0002];

/// From 16,000 up by 200, presented at each level until the end, then down by 8,000 to the other end and presented there.
const SWEEP: [(u32, u32, u32, u32); 11] = [
    (1, 1, 16_000, 0),
    (8, 0, 0, 0),
    (3, 1, 200, 0),
    (5, 1, 16_383, 5),
    (7, 0, 0, 1),
    (8, 0, 0, 0),
    (14, 1, 8_000, 0),
    (8, 0, 0, 0),
    (5, 1, 0, 10),
    (7, 0, 0, 6),
    (0, 0, 0, 0),
];

/// 2026-02: a level stepped up at the top stays at the top, one stepped down at the bottom at the bottom.
#[test]
fn the_sweep() {
    let bare = SWEEP.map(|(op, r, c, target)| op << 28 | r << 24 | c << 10 | target);
    let mut script = vec![0; 8 * 47];
    assert_eq!(weave(&LEVEL, &bare, &mut script), Ok(47));
    let mut history = vec![7; 96];
    let r = run(&LEVEL, &script, &[], 1000, &mut history).unwrap();
    assert!(r.stop == Stop::Halted && r.presentations == 5 && r.dials[1] == 0);
    let levels: Vec<u16> = history[..80].chunks(16).map(|s| s[1]).collect();
    assert_eq!(levels, [16_000, 16_200, 8_383, 383, 0]);
    // and the plain machine the same
    let rule = check_rule(&LEVEL).unwrap();
    let lines = bare.map(Line::decode);
    let p = (0..40).fold(plain::start(), |p, _| p.step(&rule, &lines, &[], 96).0);
    assert!(p.line == 10 && p.history.iter().map(|s| s[1]).eq(levels));
}

fn bytes(words: &[u32]) -> Vec<u8> {
    words.iter().flat_map(|w| w.to_be_bytes()).collect()
}

#[test]
fn the_listing() {
    let mut input = vec![3];
    input.extend(SINCE);
    input.push(4);
    input.extend(TONE);
    let all = bytes(&input);
    assert_eq!(listing(&all), LISTING);
    let mut more = all.clone();
    more.extend([1, 2, 3, 4, 5]);
    assert_eq!(listing(&more), LISTING, "later bytes are ignored");
    for cut in 0..all.len() {
        assert_eq!(listing(&all[..cut]), if cut < 16 { "refused 1 0\n" } else { "refused 5 0\n" });
    }
    for (words, want) in [
        (&[0][..], "refused 1 0\n"),
        (&[33], "refused 1 0\n"),
        (&[1, 0, 0], "refused 5 0\n"),
        (&[1, 0, 1025], "refused 5 0\n"),
        (&[1, 0x6000_0000, 1025], "refused 3 0\n"),
        (&[2, 0, 0x6000_0000], "refused 5 0\n"),
        (&[2, 0, 0], "refused 4 0\n"),
        // false, implies 0 0, and one present: the false's code, then two mentions
        (&[2, 0, 0x6000_0000, 2, 8 << 28, 0], TRUE_LISTING),
    ] {
        assert_eq!(listing(&bytes(words)), want);
    }
}

#[test]
fn the_run() {
    let script = woven();
    let inputs = [1, 0, 0, 1, 1, 0];
    let mut history = vec![7; 48];
    let r = run(&SINCE, &script, &inputs, 1000, &mut history).unwrap();
    assert!(r.stop == Stop::Dry && r.steps == 31 && r.presentations == 2 && r.read == 6);
    assert!(history[..32] == two(&[(0, 1), (1, 0)])[..] && history[32..] == [7; 16]);
    let r = run(&SINCE, &script, &inputs, 31, &mut history).unwrap();
    assert!(r.stop == Stop::Spent && r.steps == 31);
}

#[test]
fn spoiled_scripts() {
    let spoiled = |at: usize, word: u32| {
        let mut script = woven();
        script[at] = word;
        refusal(check_script(&SINCE, &script))
    };
    assert_eq!(refusal(check_script(&SINCE, &woven())), None);
    assert_eq!(spoiled(8 * 13 + 1, 0), Some((10, 13)), "line 13 without T");
    assert_eq!(spoiled(8 * 4 + 2, 0), Some((11, 4)), "line 4 without F");
    assert_eq!(spoiled(8 * 14, 7 << 28 | 15), Some((11, 14)), "line 14 made go to 15");
}

/// 2026-03: document 000's unfolding equality, its previous the strong one, at all truth values of left, right and prior. The prior is
/// false at a first state and true after one at which right is true.
#[test]
fn the_eight_cases() {
    for (left, right, prior) in (0..8).map(|n| (n & 4 != 0, n & 2 != 0, n & 1 != 0)) {
        let before = if prior { vec![(0, 1)] } else { vec![] };
        let now = (left as u16, right as u16);
        let history = two(&[&before[..], &[now]].concat());
        let clean = right || (prior && left);
        // by the table of kinds, and with priors kept
        for direct in [usize::MAX, 0] {
            let v = judge(&SINCE, &history, direct).unwrap();
            assert_eq!((v.index, v.part.is_empty()), (before.len() + clean as usize, clean), "{left} {right} {prior}");
        }
    }
}

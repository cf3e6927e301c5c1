//! Random requests: what passes every question, what is spoiled bit by bit, several faults at once, lengths one short and one
//! long.
use crate::face::{Face, KEPT, NEXT_PRIORS, PRIORS, READY, REGISTERS, STATES_NUMBERS, STATE_NUMBERS, TESTED, WORK};
use crate::faced::Reference;
use crate::lent::Lent;
use crate::proved::Form;
use crate::request::{Request, Stationed};
use crate::{guards, texts};
use reference::facts::{bit, close, A, B, C, F, M, T, W};
use reference::form::Word;
use reference::generate;
use reference::judge::{first_priors, next_priors, values_now};
use reference::largest::{find_facts_in, note_largest};
use reference::random::Rng;
use reference::rule::{check_rule_in, Node, Rule};
use reference::script::{check_script_in, encode_lines_in, instruction_words, Line};
use reference::stations::STATIONS;
use reference::text::read_text_in;
use reference::weave::weave_lines;
use reference::TOP;

/// Lent words: as many as the function needs, or one short, one long, none, some more.
fn numbers(g: &mut Rng, needed: usize) -> Lent<u64> {
    let length = match g.below(20) {
        0 => needed - 1,
        1 => needed + 1,
        2 => 0,
        3 => g.below(2 * needed + 3),
        _ => needed,
    };
    any_words(g, length)
}

/// Any word.
fn any<W: Word>(g: &mut Rng) -> W {
    W::from_top(g.next() << (64 - W::BITS))
}

fn any_words<W: Form>(g: &mut Rng, length: usize) -> Lent<W> {
    (0..length).map(|_| any(g)).collect::<Vec<_>>().into()
}

/// A word with some bits flipped; those of the first form are the uppermost.
fn flipped<W: Word>(word: W, bits: u64) -> W {
    W::from_top(word.at_top() ^ bits)
}

/// One of a word's bits.
fn any_bit<W: Word>(g: &mut Rng) -> u64 {
    1 << (64 - W::BITS as usize + g.below(W::BITS as usize))
}

/// One to four bits flipped.
pub fn spoil<W: Word>(g: &mut Rng, words: &mut [W]) {
    if words.is_empty() {
        return;
    }
    for _ in 0..g.pick(&[1, 1, 1, 2, 3, 4]) {
        let i = g.below(words.len());
        words[i] = flipped(words[i], any_bit::<W>(g));
    }
}

/// One word less, one more.
pub fn lengthen<W: Form>(g: &mut Rng, words: &mut Vec<W>) {
    if g.chance(1, 2) {
        words.pop();
    } else {
        words.push(if g.chance(1, 2) { W::from(0) } else { any(g) });
    }
}

/// How many nodes a rule has: in the second form often more than the first allows, or about as many as either allows.
fn rule_size<W: Word>(g: &mut Rng) -> usize {
    if W::MOST_NODES == 64 && g.chance(1, 12) {
        return match g.below(4) {
            0 => g.within(31, 34),
            1 => g.within(62, 64),
            _ => g.within(33, 64),
        };
    }
    generate::rule_size_within(g, W::MOST_NODES)
}

/// A rule that passes, in which nodes are used again or not; and its words, sometimes spoiled.
pub fn rule<W: Form>(g: &mut Rng, again: bool, spoiled: usize) -> (Rule, Vec<W>) {
    let size = rule_size::<W>(g);
    let rule = if again { generate::sharing_rule(g, size) } else { generate::rule(g, size) };
    let mut words = rule.words_in();
    if g.chance(spoiled, 100) {
        match g.below(12) {
            0 => words.clear(),
            1 => lengthen(g, &mut words),
            2 => words.resize(g.within(W::MOST_NODES - 1, W::MOST_NODES + 2), W::from(0)),
            3 => words.iter_mut().for_each(|w| *w = any(g)),
            // operands moved about, so that questions 3 and 4 have something to find
            4..=6 => {
                let i = g.below(words.len());
                let operands = g.below(W::MOST_NODES * W::MOST_NODES);
                let (left, right) = ((operands / W::MOST_NODES) as u8, (operands % W::MOST_NODES) as u8);
                words[i] = Node { left, right, ..Node::decode_in(words[i]) }.encode_in();
            }
            7 | 8 => {
                let (i, j) = (g.below(words.len()), g.below(words.len()));
                words.swap(i, j);
            }
            _ => spoil(g, &mut words),
        }
    }
    (rule, words)
}

/// A bare script for a rule, sometimes spoiled.
fn bare(g: &mut Rng, rule: &Rule, spoiled: usize) -> Vec<u32> {
    let n = match g.below(200) {
        0 => g.within(1023, 1026),
        1..=3 => g.within(40, 300),
        _ => g.within(1, 20),
    };
    let mut words = if n > 1024 { vec![0; n] } else { instruction_words(&generate::bare(g, rule, n)) };
    if g.chance(spoiled, 100) {
        match g.below(8) {
            0 => words.clear(),
            1 => lengthen(g, &mut words),
            2 => words.iter_mut().for_each(|w| *w = g.next() as u32),
            3 => {
                let i = g.below(words.len());
                words[i] = (g.below(16) as u32) << 28 | words[i] & 0x0fff_ffff;
            }
            _ => spoil(g, &mut words),
        }
    }
    words
}

/// Instructions of an annotated script at random.
pub fn instructions(g: &mut Rng, rule: &Rule) -> Vec<Line> {
    let n = g.within(1, 14);
    let (past, work) = (rule.past_nodes(), rule.work_nodes());
    let mut lines: Vec<Line> = vec![];
    for i in 0..n {
        let last = i + 1 == n;
        let target = if g.chance(1, 6) && !last { i + 1 } else { g.below(n) } as u16;
        let r = g.below(generate::REGISTERS) as u8;
        let c = g.below(generate::CONSTANTS) as u16;
        let op = if last { g.pick(&[0, 7]) } else { g.pick(&[1, 2, 3, 4, 5, 6, 7, 8, 8, 8, 9, 9, 10, 10, 11, 11, 12, 12, 13, 13, 14]) };
        let of_node = matches!(op, 9..=12);
        let named = if matches!(op, 9 | 11) { &work } else { &past };
        if of_node && named.is_empty() {
            lines.push(Line::new(7, 0, 0, target));
            continue;
        }
        // the node of the line before, often, so that its bits are set, kept and asked about in turn
        let node = match lines.last() {
            _ if !of_node => 0,
            Some(l) if matches!(l.op, 9..=12) && named.contains(&(l.c as usize)) && g.chance(1, 2) => l.c,
            _ => g.pick(named) as u16,
        };
        lines.push(match op {
            0 | 8 => Line::new(op, 0, 0, 0),
            1 | 2 => Line::new(op, r, c, 0),
            3 | 14 => Line::new(op, r, generate::amount(g), 0),
            4 => Line::new(op, r, 0, 0),
            // a test of the rule, often
            5 | 6 | 13 => match rule.nodes.iter().filter(|d| d.branch() == Some(op)).nth(g.below(3)) {
                // registers the other way round, sometimes
                Some(d) if op == 13 && g.chance(1, 4) => Line::new(op, d.constant as u8, d.register as u16, target),
                Some(d) => Line::new(op, d.register, d.constant, target),
                None => Line::new(op, r, c, target),
            },
            7 => Line::new(op, 0, 0, target),
            9 => Line::new(op, g.below(2) as u8, node, 0),
            10 | 11 => Line::new(op, 0, node, target),
            _ => Line::new(op, 0, node, 0),
        });
    }
    lines
}

/// Instructions of an annotated script at random, with the most facts that can be noted there.
fn noted_most(g: &mut Rng, rule: &Rule) -> Vec<Line> {
    let mut lines = instructions(g, rule);
    note_largest(rule, &mut lines);
    // often, presents that the facts do not allow are made gos, so that the script is accepted
    if g.chance(1, 2) {
        while let Some(i) = lines.iter().position(|l| l.op == 8 && !close(rule, &l.facts).has(T, rule.last())) {
            lines[i] = Line::new(7, 0, 0, i as u16 + 1);
            note_largest(rule, &mut lines);
        }
    }
    lines
}

/// A line of one of these opcodes, if there is one.
fn line_with(g: &mut Rng, lines: &[Line], ops: &[u8]) -> Option<usize> {
    let all: Vec<usize> = (0..lines.len()).filter(|&i| ops.contains(&lines[i].op)).collect();
    (!all.is_empty()).then(|| g.pick(&all))
}

/// A bit that the rule's nodes do not have: a shared node's kept bit, or the bit of a node that is neither past nor shared.
pub fn misname(g: &mut Rng, rule: &Rule, lines: &mut [Line]) {
    let shared = g.pick(&rule.shared_nodes()) as u16;
    match g.below(4) {
        // a line that has to do with its work bit, with its kept bit
        0 | 1 => {
            let of_shared: Vec<usize> =
                (0..lines.len()).filter(|&i| matches!(lines[i].op, 9 | 11) && rule.is_shared(lines[i].c as usize)).collect();
            if !of_shared.is_empty() {
                let l = &mut lines[g.pick(&of_shared)];
                (l.op, l.r) = (if l.op == 9 { 12 } else { 10 }, 0);
            }
        }
        // its kept bit for a past node's
        2 => {
            if let Some(i) = line_with(g, lines, &[10, 12]) {
                lines[i].c = shared;
            }
        }
        _ => {
            let node = g.below(rule.len() + 1) as u16;
            if let Some(i) = line_with(g, lines, &[9, 11]) {
                lines[i].c = node;
            }
        }
    }
}

/// What a stranger does wrong with a shared node's bit.
fn misuse(g: &mut Rng, rule: &Rule, lines: &mut Vec<Line>) {
    let node = g.pick(&rule.shared_nodes());
    let i = g.below(lines.len());
    match g.below(12) {
        0..=2 => misname(g, rule, lines),
        // facts that belong to past nodes only
        3 | 4 => lines[i].facts.add(g.pick(&[A, B, M, C]), node),
        // W of a node that has no work bit
        5 => lines[i].facts.add(W, g.below(rule.len())),
        // W kept over a present
        6 | 7 => {
            if let Some(i) = line_with(g, lines, &[8]) {
                let next = (i + 1).min(lines.len() - 1);
                lines[next].facts.add(W, node);
            }
        }
        // W kept over an input, which is put before a line that has W
        8 | 9 => {
            let knows: Vec<usize> = (1..lines.len()).filter(|&i| lines[i].facts.has(W, node)).collect();
            if !knows.is_empty() {
                let i = g.pick(&knows);
                let input = Line { facts: lines[i].facts, ..Line::new(4, g.below(generate::REGISTERS) as u8, 0, 0) };
                guards::insert(lines, i, input);
            }
        }
        // the other bit set
        10 => {
            if let Some(i) = line_with(g, lines, &[9]) {
                lines[i].r ^= 1;
            }
        }
        // a fact that belongs, where it may not be known
        _ => lines[i].facts.add(g.pick(&[T, F, W]), node),
    }
}

/// An annotated script for a rule: woven, or with the most facts noted; sometimes spoiled.
fn annotated<W: Form>(g: &mut Rng, rule: &Rule, spoiled: usize) -> Vec<W> {
    let mut lines = if g.chance(1, 3) {
        noted_most(g, rule)
    } else {
        let n = match rule.len() {
            // a block has hundreds of lines, and few of them make up a script
            33.. => g.within(1, 4),
            _ if g.chance(1, 100) => g.within(20, 200),
            _ => g.within(1, 12),
        };
        let bare = generate::bare(g, rule, n);
        weave_lines(rule, &bare).0
    };
    // Facts left out: a script may note fewer than it could.
    if g.chance(1, 3) {
        let every = g.within(2, 40);
        for l in &mut lines {
            for set in &mut l.facts.set {
                for node in 0..rule.len() {
                    if g.chance(1, every) {
                        *set &= !bit(node);
                    }
                }
            }
        }
    }
    let misused = !rule.shared_nodes().is_empty() && g.chance(spoiled, 200);
    if misused {
        misuse(g, rule, &mut lines);
    }
    let mut words = encode_lines_in(&lines);
    if !misused && g.chance(spoiled, 100) {
        match g.below(18) {
            0 => words.clear(),
            1 => lengthen(g, &mut words),
            2 => {
                for _ in 0..8 {
                    lengthen(g, &mut words);
                }
            }
            3 => words.resize(8 * g.within(1023, 1026), W::from(0)),
            4 => words.iter_mut().for_each(|w| *w = any(g)),
            // a bit of an instruction, or below it
            5..=7 => {
                let i = 8 * g.below(lines.len());
                words[i] = flipped(words[i], any_bit::<W>(g));
            }
            // a fact of a node that is there, at one line or at line 0
            8..=12 => {
                let line = if g.chance(1, 4) { 0 } else { g.below(lines.len()) };
                let fact = bit(g.below(rule.len()));
                let at = 8 * line + g.within(1, 7);
                words[at] = flipped(words[at], fact);
            }
            // facts of one kind kept where a line leads, which its instruction may have to drop
            13 | 14 => {
                // each kind as often as another, though T and F are dropped at more lines
                let kept = kept_facts(&lines);
                let kinds: Vec<usize> = (1..8).filter(|kind| kept.iter().any(|(at, _)| at % 8 == *kind)).collect();
                if !kinds.is_empty() {
                    let kind = g.pick(&kinds);
                    let of_kind: Vec<(usize, u64)> = kept.into_iter().filter(|(at, _)| at % 8 == kind).collect();
                    let (at, facts) = g.pick(&of_kind);
                    words[at] = flipped(words[at], facts);
                }
            }
            // a 13's registers the other way round
            15 | 16 => {
                let compared: Vec<usize> = (0..lines.len()).filter(|&i| lines[i].op == 13).collect();
                if !compared.is_empty() {
                    let i = g.pick(&compared);
                    words[8 * i] = instruction(&Line::new(13, lines[i].c as u8, lines[i].r as u16, lines[i].target));
                }
            }
            _ => spoil(g, &mut words),
        }
    }
    words
}

/// The first word of a line.
fn instruction<W: Word>(line: &Line) -> W {
    W::from_top(u64::from(line.word()) << 32)
}

/// For each line and each line that it leads to, the facts of each kind that are noted at the first alone, with the word where the
/// second has that kind.
fn kept_facts(lines: &[Line]) -> Vec<(usize, u64)> {
    let mut kept = vec![];
    for (i, l) in lines.iter().enumerate() {
        for to in l.follows(i) {
            for (kind, (noted, after)) in l.facts.set.iter().zip(lines[to].facts.set).enumerate() {
                let dropped = noted & !after;
                if dropped != 0 {
                    kept.push((8 * to + 1 + kind, dropped));
                }
            }
        }
    }
    kept
}

/// A history of which the rule is often true for a while, sometimes spoiled.
fn history(g: &mut Rng, rule: &Rule, spoiled: usize) -> Vec<u16> {
    let most = if g.chance(1, 200) { 400 } else { 30 };
    let mut words: Vec<u16> = vec![];
    let mut prior = first_priors(rule);
    for mut s in generate::history(g, most) {
        let mut v = values_now(rule, &prior, &s);
        for _ in 0..20 {
            if v[rule.last()] || g.chance(1, 30) {
                break;
            }
            s = generate::history(g, 1).first().copied().unwrap_or(s);
            v = values_now(rule, &prior, &s);
        }
        prior = next_priors(rule, &v);
        words.extend(s);
    }
    if g.chance(spoiled, 100) {
        match g.below(4) {
            0 => words.extend((0..g.within(1, 17)).map(|_| 0)),
            1 => {
                words.pop();
            }
            _ => {
                for _ in 0..g.pick(&[1, 1, 2]) {
                    if !words.is_empty() {
                        let i = g.below(words.len());
                        words[i] = g.pick(&[16_383, 16_384, 32_768, 65_535]);
                    }
                }
            }
        }
    }
    words
}

fn inputs(g: &mut Rng, spoiled: usize) -> Vec<u16> {
    let mut words = generate::inputs(g);
    if g.chance(spoiled, 100) && !words.is_empty() {
        let i = g.below(words.len());
        words[i] = g.pick(&[16_383, 16_384, 65_535]);
    }
    words
}

fn lent_history(g: &mut Rng) -> Lent<u16> {
    let length = match g.below(4) {
        0 => g.below(180),
        1 => 16 * g.below(12) + g.pick(&[0, 15, 1]),
        _ => 16 * g.below(30),
    };
    (0..length).map(|_| g.next() as u16).collect::<Vec<_>>().into()
}

fn budget(g: &mut Rng) -> u64 {
    match g.below(6) {
        0 => g.below(4) as u64,
        1 => g.below(100) as u64,
        _ => g.below(3000) as u64,
    }
}

/// A machine's words at random.
fn state(g: &mut Rng, rule: &Rule, lines: usize) -> Vec<u64> {
    let mut words = vec![0; STATE_NUMBERS];
    words[0] = g.below(lines + 2) as u64;
    words[1] = g.below(10) as u64;
    words[2] = g.below(40) as u64;
    words[KEPT] = g.next();
    words[WORK] = g.next();
    for w in &mut words[REGISTERS..READY] {
        *w = g.pick(&[0, 1, 2, 3, 16_383, 16_384, 65_535]);
    }
    words[READY] = g.below(2) as u64;
    for w in &mut words[PRIORS..] {
        *w = g.next();
    }
    match g.below(12) {
        0 => words[g.below(3)] = g.next(),
        1 => words[g.below(3)] = u64::MAX,
        2 => words[REGISTERS + g.below(16)] = g.pick(&[65_536, 65_535, u64::MAX, 1 << 32]),
        3 => words[KEPT] &= !0 << (64 - rule.len()),
        4 => {
            words.pop();
        }
        5 => words.push(g.next()),
        6 => words[READY] = g.pick(&[2, 3, 1 << 32, u64::MAX]),
        7 => (words[REGISTERS + g.below(16)], words[READY]) = (65_536, 2),
        8 => words[TESTED] = 0,
        _ => {}
    }
    words
}

/// The words of a fresh start for a rule, right or wrong.
fn fresh_state<W: Form>(rule: &[W]) -> Vec<u64> {
    let mut words = vec![0; STATE_NUMBERS];
    Reference.fresh(rule, &mut words);
    words
}

/// What some steps from a fresh start lead to, with what they have presented in the history; often one thing of it is changed, which no run
/// does.
fn run_on<W: Form>(g: &mut Rng, rule: &[W], script: &[W], inputs: &[u16], history: &mut [u16]) -> Vec<u64> {
    let mut words = fresh_state(rule);
    for _ in 0..g.within(1, 60) {
        Reference.step(rule, script, inputs, history, &mut words);
    }
    match g.below(8) {
        0 => words[KEPT] = g.next(),
        1 => words[READY] ^= 1,
        2 => words[PRIORS] ^= any_bit::<W>(g),
        3 => words[NEXT_PRIORS] ^= any_bit::<W>(g),
        4 => words[TESTED] ^= bit(g.below(generate::REGISTERS)),
        5 => words[REGISTERS + g.below(generate::REGISTERS)] = g.below(generate::CONSTANTS) as u64,
        _ => {}
    }
    words
}

/// A script with lines put in that have nothing to do with what it is for: 9s and 12s, which spoil the kept bits, presents, and writes of
/// any register.
fn strayed<W: Form>(g: &mut Rng, rule: &Rule, script: &[W]) -> Vec<W> {
    let mut lines: Vec<Line> = script.chunks_exact(8).map(Line::decode_annotated_in).collect();
    let past = rule.past_nodes();
    for _ in 0..g.within(1, 5) {
        let at = g.below(lines.len() + 1);
        match g.below(4) {
            0 | 1 if !past.is_empty() => {
                let node = g.pick(&past) as u16;
                guards::insert(&mut lines, at, Line::new(12, 0, node, 0));
                guards::insert(&mut lines, at, Line::new(9, g.below(2) as u8, node, 0));
            }
            2 => guards::insert(&mut lines, at, Line::new(8, 0, 0, 0)),
            _ => guards::insert(&mut lines, at, Line::new(g.pick(&[1, 2, 3, 14]), g.below(16) as u8, g.below(16) as u16, 0)),
        }
    }
    encode_lines_in(&lines)
}

/// A table that need not pass any question, and a line at the machine's place that names some node of it, or a number that is no node's.
fn name_any<W: Form>(g: &mut Rng, rule: &mut Vec<W>, script: &mut [W], state: &[u64]) {
    let c = g.below(W::MOST_NODES);
    let mention = Node::new(g.pick(&[3, 4]), 0, 0, c as u8, c as u8).encode_in();
    match g.below(4) {
        0 | 1 if !rule.is_empty() => {
            let i = g.below(rule.len());
            rule[i] = mention;
        }
        // the last node that counts, or the first that does not
        2 => {
            rule.resize(g.within(W::MOST_NODES - 1, W::MOST_NODES), W::from(0));
            rule.extend([mention, W::from(0)]);
        }
        _ => {}
    }
    let (op, bit) = (g.pick(&[9, 9, 10, 11, 11, 12]), g.below(2) as u8);
    let target = g.below(script.len() / 8 + 1) as u16;
    let line = match op {
        9 => Line::new(op, bit, c as u16, 0),
        12 => Line::new(op, 0, c as u16, 0),
        _ => Line::new(op, 0, c as u16, target),
    };
    if let Some(word) = state.first().and_then(|&at| script.get_mut(8 * at.min(2_000) as usize)) {
        *word = instruction(&line);
    }
}

/// A text, and as many words as its nodes need, or fewer or more.
fn text<W: Form>(g: &mut Rng) -> Request<W> {
    let text = texts::text(g, W::MOST_NODES);
    let needed = read_text_in(&text, &mut [W::from(0); 64]).unwrap_or(0);
    let length = match g.below(12) {
        0 | 1 => needed.saturating_sub(1),
        2 => needed + 1,
        3 => 0,
        4 => g.below(needed + 1),
        5 => g.below(W::MOST_NODES + 8),
        6 | 7 => W::MOST_NODES,
        _ => needed,
    };
    let out = any_words(g, length);
    Request::Text { text, out, numbers: numbers(g, 2) }
}

/// As many as are needed for something, or fewer or more.
fn about(g: &mut Rng, needed: usize) -> usize {
    match g.below(12) {
        0 | 1 => needed.saturating_sub(1),
        2 => needed + 1,
        3 => 0,
        4 => g.below(needed + 1),
        5 => needed + g.below(40),
        _ => needed,
    }
}

/// About as many words as are needed for something.
fn room<W: Form>(g: &mut Rng, needed: usize) -> Lent<W> {
    let length = about(g, needed);
    any_words(g, length)
}

/// Instructions without facts, and room for eight words a line.
fn facts<W: Form>(g: &mut Rng, again: bool) -> Request<W> {
    let (table, rule) = rule(g, again, 8);
    let instructions = guards::instructions(g, &table);
    let out = room(g, 8 * instructions.len());
    Request::Facts { rule, instructions, out, numbers: numbers(g, 2) }
}

/// Request number `n` of a seed: it depends on nothing else, so that a difference can be looked at again by its number. Of every eight
/// the last is a text and the fourth asks for facts, whatever the seed. Of every sixteen the upper eight have rules in which nodes are used
/// again, the lower eight rules in which none is. In the first form these have kept the numbers that they had before there were the
/// others.
pub fn request<W: Form>(seed: u64, n: u64) -> Request<W> {
    let again = n / 8 % 2 == 1;
    let g = &mut numbered(seed, n);
    match n % 8 {
        3 => return facts(g, again),
        7 => return text(g),
        _ => {}
    }
    match g.below(20) {
        0 | 1 => {
            let rule = rule(g, again, 70).1;
            Request::Rule { rule, numbers: numbers(g, 1) }
        }
        2 | 3 => {
            let (table, rule) = rule(g, again, 5);
            let script = bare(g, &table, 60);
            Request::Bare { rule, script, numbers: numbers(g, 1) }
        }
        4..=8 => {
            let (table, rule) = rule(g, again, 3);
            let script = annotated(g, &table, 60);
            Request::Script { rule, script, numbers: numbers(g, 1) }
        }
        9..=11 => {
            let (table, rule) = rule::<W>(g, again, 5);
            let bare = bare(g, &table, 15);
            let needed = check_rule_in(&rule).ok().map_or(0, |t| {
                let presents = bare.iter().filter(|&&w| w >> 28 == 8).count();
                8 * (bare.len() - presents + presents * t.block_lines())
            });
            let length = match g.below(12) {
                0 => needed.saturating_sub(1),
                1 => needed + 1,
                2 => 0,
                3 => g.below(needed + 1),
                _ => needed + g.below(3) * g.below(20),
            };
            // a script that is too long needs no output
            let out = any_words(g, length.min(8 * 1025));
            Request::Weave { rule, bare, out, numbers: numbers(g, 2) }
        }
        12 | 13 => {
            let (table, rule) = rule(g, again, 5);
            let history = history(g, &table, 30);
            Request::Judge { rule, history, numbers: numbers(g, 4) }
        }
        14..=16 => {
            let (table, rule) = rule(g, again, 2);
            let script = annotated(g, &table, 8);
            let inputs = inputs(g, 8);
            Request::Run { rule, script, inputs, budget: budget(g), history: lent_history(g), numbers: numbers(g, 22) }
        }
        17 => {
            let rule = rule(g, again, 50).1;
            Request::Fresh { rule, state: numbers(g, STATE_NUMBERS) }
        }
        _ => {
            let (table, mut rule) = rule(g, again, 30);
            let mut script = annotated(g, &table, 30);
            if g.chance(1, 2) {
                script = strayed(g, &table, &script);
            }
            let inputs = inputs(g, 20);
            let mut history = lent_history(g);
            let (state, count) = match g.below(8) {
                // so many that a block of a long rule is gone through
                0 => (fresh_state(&rule), g.within(40, 300)),
                1..=3 => (fresh_state(&rule), g.within(1, 40)),
                4 | 5 => (run_on(g, &rule, &script, &inputs, &mut history), g.within(1, 20)),
                _ => (state(g, &table, script.len() / 8), g.within(1, 20)),
            };
            if again && g.chance(1, 6) {
                name_any(g, &mut rule, &mut script, &state);
            }
            Request::Steps { rule, script, inputs, history, state: state.into(), count }
        }
    }
}

/// Move number `n` of a seed, of a rule or of an annotated script. Of every two the upper one has a rule in which nodes are used again.
pub fn moving<W: Form>(seed: u64, n: u64) -> Request<W> {
    let again = n % 2 == 1;
    let g = &mut numbered(seed, n);
    if g.chance(1, 4) {
        let rule = rule(g, again, 50).1;
        let out = room(g, rule.len());
        return Request::MoveRule { rule, out, numbers: numbers(g, 2) };
    }
    let (table, rule) = rule(g, again, 10);
    let script = annotated(g, &table, 60);
    let out = room(g, script.len());
    Request::MoveScript { rule, script, out, numbers: numbers(g, 2) }
}

/// What the four stations of a request have in common.
struct Common {
    /// Are some of them to fail some question?
    wrong: bool,
    /// Would each of them keep its rule, were it to present at once? Then they present more often.
    willing: bool,
    /// The most lines of a bare script that comes to an end; none for scripts that need not.
    ending: Option<usize>,
}

/// A rule and an annotated script that pass every question: woven; a guard made by hand; or lines at random with the most facts noted.
fn accepted<W: Form>(g: &mut Rng, common: &Common) -> (Vec<W>, Vec<W>) {
    loop {
        let again = g.chance(1, 2);
        let (table, rule) = rule::<W>(g, again, 0);
        if common.willing && !table.holds_now(&[], &[0; 16]) {
            continue;
        }
        let script = match (g.below(6), common.ending) {
            (0, _) => {
                let instructions = instruction_words(&guards::by_hand(g, &table));
                let mut out = vec![W::from(0); 8 * instructions.len()];
                // where no facts serve, it is refused below
                find_facts_in(&rule, &instructions, &mut out).map_or(vec![], |_| out)
            }
            (1..=4, Some(most)) => {
                let n = g.within(1, most);
                let mut bare = generate::bare(g, &table, n);
                if n > 1 && g.chance(1, 2) {
                    let at = if common.willing { 0 } else { g.below(n - 1) };
                    bare[at] = Line::new(8, 0, 0, 0);
                }
                encode_lines_in(&weave_lines(&table, &generate::ending(g, bare)).0)
            }
            _ => annotated(g, &table, 0),
        };
        if check_script_in(&rule, &script).is_ok() {
            return (rule, script);
        }
    }
}

/// A station that passes every question, or, if some are to be wrong, often one that fails one of 1 to 11, or 15.
fn station<W: Form>(g: &mut Rng, common: &Common) -> Stationed<W> {
    let (rule, script) = match g.below(24) {
        0..=7 if common.wrong => {
            let (again, spoiled) = (g.chance(1, 2), g.pick(&[0, 0, 100]));
            let (table, rule) = rule(g, again, spoiled);
            let script = annotated(g, &table, 80);
            (rule, script)
        }
        // a last line that leads past the end
        8 if common.wrong => {
            let (rule, mut script) = accepted(g, common);
            let last = script.len() - 8;
            script[last] = instruction(&Line::new(1, 1, 1, 0));
            (rule, script)
        }
        _ => accepted(g, common),
    };
    let mut inputs = inputs(g, if common.wrong { 50 } else { 0 });
    if common.ending.is_some() {
        inputs.truncate(g.below(8));
    }
    let length = 16 * g.below(6) + g.pick(&[0, 0, 0, 1, 15]);
    Stationed { rule, script, inputs, history: (0..length).map(|_| g.next() as u16).collect::<Vec<_>>().into() }
}

/// How many turns: few, or hundreds, rarely thousands; or about as many as there are until four passes end them, or any number beyond.
fn turns<W: Form>(g: &mut Rng, allowance: u64, stations: &[Stationed<W>; STATIONS]) -> u64 {
    match g.below(32) {
        0..=2 => g.below(6) as u64,
        3..=12 => g.below(60) as u64,
        13..=19 => g.below(300) as u64,
        20 => g.below(3000) as u64,
        _ => {
            const MANY: u64 = 400;
            let (stations, states) = (stations.clone(), vec![0; STATES_NUMBERS].into());
            let mut asked = Request::Stations { states, budget: MANY, allowance, stations, numbers: vec![0; 3].into() };
            asked.put(&Reference);
            let Request::Stations { numbers, .. } = asked else { unreachable!("it is for stations") };
            let ended = numbers[1];
            if ended == MANY {
                return ended;
            }
            let any = g.next();
            g.pick(&[ended, ended, ended.saturating_sub(1), ended + 1, ended.max(any), u64::MAX])
        }
    }
}

/// Request number `n` of a seed for four stations.
pub fn stations<W: Form>(seed: u64, n: u64) -> Request<W> {
    let g = &mut numbered(seed, n);
    let ending = g.chance(1, 2).then(|| g.pick(&[1, 2, 6, 6, 6, 8]));
    let common = Common { wrong: g.chance(1, 2), willing: g.chance(1, 2), ending };
    let stations = std::array::from_fn(|_| station(g, &common));
    let allowance = match g.below(12) {
        0 => 0,
        1 => g.next(),
        2 => u64::MAX,
        _ => g.below(10) as u64,
    };
    let budget = turns(g, allowance, &stations);
    let length = if g.chance(1, 8) { g.pick(&[0, 25, 75, 99, 101, 125]) } else { STATES_NUMBERS };
    Request::Stations { states: any_words(g, length), budget, allowance, stations, numbers: numbers(g, 3) }
}

/// Limits of up to 30 indices, rarely of 400, about numbers that are larger by so much than those that random rules test: the lows and the
/// highs. All dials are known exactly, or so many of eight are not; some are not known at all.
fn lows_and_highs(g: &mut Rng, larger: u16) -> (Vec<u16>, Vec<u16>) {
    let indices = if g.chance(1, 200) { 400 } else { g.below(31) };
    let open = g.pick(&[0, 1, 1, 2, 4, 8]);
    let (mut lows, mut highs) = (vec![], vec![]);
    for k in 0..16 * indices {
        let (tested, any) = (g.below(generate::CONSTANTS) as u16 + larger, g.below(TOP as usize + 1) as u16);
        let value = if k % 16 < generate::REGISTERS { tested } else { any };
        let (low, high) = match g.below(8) < open {
            true if g.chance(1, 10) => (0, TOP),
            true => (value, g.below(generate::CONSTANTS) as u16 + larger),
            false => (value, value),
        };
        lows.push(low.min(high));
        highs.push(low.max(high));
    }
    (lows, highs)
}

/// Some places of a list, one more often than several.
fn places(g: &mut Rng, length: usize) -> Vec<usize> {
    let count = if length == 0 { 0 } else { g.pick(&[1, 1, 2, 3]) };
    (0..count).map(|_| g.below(length)).collect()
}

/// What fails 23, 15, 14 or 22, each by itself, so that they come together often.
fn spoil_limits(g: &mut Rng, lows: &mut Vec<u16>, highs: &mut Vec<u16>) {
    let often = |g: &mut Rng| g.chance(1, 5);
    if often(g) {
        for at in places(g, lows.len()) {
            (lows[at], highs[at]) = g.pick(&[(1, 0), (TOP, 0), (TOP, TOP - 1), (highs[at] + 1, highs[at]), (highs[at], lows[at])]);
        }
    }
    for list in [&mut *lows, &mut *highs] {
        let length = list.len();
        if often(g) {
            places(g, length).into_iter().for_each(|at| list[at] = g.pick(&[16_384, 32_768, 65_535]));
        }
        if often(g) {
            list.resize(g.pick(&[length + 1, length + 15, length + 17, length.saturating_sub(1), length.saturating_sub(17)]), 2);
        } else if often(g) {
            list.resize(g.pick(&[length + 16, length + 32, length.saturating_sub(16), 0]), 2);
        }
    }
}

/// Request number `n` of a seed for a history known within limits. Of every two the upper one has a rule in which nodes are used again.
pub fn limits<W: Form>(seed: u64, n: u64) -> Request<W> {
    let again = n % 2 == 1;
    let g = &mut numbered(seed, n);
    let mut rule = rule::<W>(g, again, 8).1;
    // tests and limits about the largest numbers, sometimes
    let larger = g.pick(&[0, 0, 0, TOP - generate::CONSTANTS as u16 + 1]);
    for word in &mut rule {
        let node = Node::decode_in(*word);
        if matches!(node.kind, 1 | 2) {
            *word = Node { constant: (node.constant + larger) & TOP, ..node }.encode_in();
        }
    }
    let (mut lows, mut highs) = lows_and_highs(g, larger);
    let length = if g.chance(1, 2) {
        spoil_limits(g, &mut lows, &mut highs);
        about(g, lows.len() / 16)
    } else {
        lows.len() / 16 + g.pick(&[0, 0, 0, 1, 7])
    };
    let out = (0..length).map(|_| g.next() as u8).collect::<Vec<_>>().into();
    Request::Limits { rule, lows, highs, out, numbers: numbers(g, 2) }
}

/// What request number `n` of a seed is made from.
pub fn numbered(seed: u64, n: u64) -> Rng {
    let mut g = Rng(seed ^ n.wrapping_mul(0xd134_2543_de82_ef95));
    g.next();
    g
}

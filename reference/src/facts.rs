//! Facts, closing, passing on.
use crate::rule::Rule;
use crate::script::Line;
use std::cell::Cell;

pub const T: usize = 0;
pub const F: usize = 1;
pub const A: usize = 2;
pub const B: usize = 3;
pub const M: usize = 4;
pub const W: usize = 5;
pub const C: usize = 6;

/// Seven sets of nodes, in the order T, F, A, B, M, W, C; node 0 is the most significant bit.
#[derive(Clone, Copy, Debug, PartialEq, Eq, Default)]
pub struct Facts {
    pub set: [u64; 7],
}

/// The bit of a node, of the 64 that the wider form has room for.
pub fn bit(node: usize) -> u64 {
    1 << (63 - node)
}

impl Facts {
    pub fn none() -> Facts {
        Facts::default()
    }

    pub fn has(&self, fact: usize, node: usize) -> bool {
        self.set[fact] & bit(node) != 0
    }

    pub fn add(&mut self, fact: usize, node: usize) {
        self.set[fact] |= bit(node);
    }

    pub fn drop(&mut self, fact: usize, node: usize) {
        self.set[fact] &= !bit(node);
    }

    pub fn with(mut self, fact: usize, node: usize) -> Facts {
        self.add(fact, node);
        self
    }

    pub fn among(&self, other: &Facts) -> bool {
        (0..7).all(|k| self.set[k] & !other.set[k] == 0)
    }

    /// The facts that are in both.
    pub fn meet(&self, other: &Facts) -> Facts {
        Facts { set: std::array::from_fn(|k| self.set[k] & other.set[k]) }
    }

    /// The facts that are in one or the other.
    pub fn union(&self, other: &Facts) -> Facts {
        Facts { set: std::array::from_fn(|k| self.set[k] | other.set[k]) }
    }
}

/// A rule of the reference that is made wrong on purpose.
#[derive(Clone, Copy, Debug, PartialEq, Eq)]
pub enum Fault {
    /// Register writes keep W.
    WorkKept,
    /// 13 also tells of a node with its registers the other way round.
    AnyOrder,
    /// 3 goes round at the upper end.
    RaisedRound,
    /// 14 goes round at the lower end.
    LoweredRound,
    /// Left alone makes a since true from the first state on, as if the previous in its unfolding were the weak one.
    SinceByLeft,
    /// A since wants left at the state where right starts it.
    SinceWantsLeft,
    /// Since groups to the right in a text.
    SinceToTheRight,
    /// a or b is opened as a implies b.
    OrWithoutNot,
    /// 17 is put to each number as it is read, before 16 is put to the rest of the text.
    RangeFirst,
    /// Two words of a text may touch.
    WordsTouch,
    /// The search for the largest facts starts with none where nothing leads.
    UnledEmpty,
    /// It starts without C.
    StartsWithoutC,
    /// 13 is put before 19, and where a script moves before all questions.
    OutputFirst,
    /// The count of facts leaves out C.
    CountsNoC,
    /// Question 4 asks whether a node is an operand exactly once.
    ExactlyOnce,
    /// A node that is an operand once is shared already.
    OnceIsShared,
    /// 10 may name a shared node.
    TenNamesShared,
    /// A present keeps W of shared nodes.
    SharedKept,
    /// In a block the code of all past nodes stands before that of shared ones.
    PastFirst,
    /// A mention of a shared node is decided by what the node is.
    DecidedAnew,
    /// The formula counts nothing for mentions of a past node after the first, and the weaver's answer and questions 12 and 13 go by it.
    LaterMentionsFree,
    /// The zero bits of a node may be set.
    ZerosPass,
    /// What stands below an instruction may be set.
    BelowPasses,
    /// Of an operand's number five bits are read in both forms.
    FiveBits,
    /// Of a word of facts 32 bits are read in both forms.
    HalfOfFacts,
    /// 18 refuses more than 32 nodes in both forms.
    TextOfHalf,
    /// A move puts 20 before questions 1 to 4.
    TwentyFirst,
    /// A script's move does not put 8.
    MovesUnfit,
    /// A script's move puts 9 to 11 too.
    MovesAcceptedAlone,
    /// The priors that ready is worked out from are the kept bits.
    PriorsAreKept,
    /// Ready is not worked out anew after an input.
    ReadyBeforeInput,
    /// A present that finds the history full moves the priors on.
    PriorsMovedAtFull,
    /// A 9 that sets 0 gives W for F only where T does not stand too.
    TrueHidesFalse,
    /// Closing takes away T and F of a node that is no test, where its operands and prior do not give them.
    ClosingRemoves,
    /// A station that is passed over at a present takes one from the allowance all the same.
    PassTakes,
    /// A pass is no turn.
    PassIsNoTurn,
    /// Turns go 0, 1, 2, 2.
    LastHasNoTurn,
    /// The stations' inputs are looked at before their rules and scripts.
    InputsFirst,
    /// The place of a station's refusal is the place within its rule, script or inputs.
    PlaceIsTheLine,
    /// Three passes in a row end a run of stations.
    ThreePassesEnd,
    /// A step does not end a row of passes.
    PassesAddUp,
    /// Within limits, a since whose last value is open counts that as false.
    SinceForgetsOpen,
    /// A test is open where its limits are equal.
    ExactIsOpen,
    /// A register compared with itself is open.
    SelfIsOpen,
    /// A weak previous is open at index 0.
    FirstPreviousOpen,
    /// A node implies itself, also where it is open.
    ImpliesItself,
    /// 22 is put before 14 of the highs.
    UnequalFirst,
    /// 13 is put after 15 and 23.
    BytesLast,
    /// 23 is put before 15 of the highs.
    OrderFirst,
}

thread_local! {
    static PLANTED: Cell<Option<Fault>> = const { Cell::new(None) };
}

/// Runs `work` with one rule of this thread's reference made wrong. It is there to show that a comparison notices such a fault.
pub fn with_planted_fault<X>(fault: Fault, work: impl FnOnce() -> X) -> X {
    PLANTED.with(|p| p.set(Some(fault)));
    let x = work();
    PLANTED.with(|p| p.set(None));
    x
}

pub(crate) fn planted(fault: Fault) -> bool {
    PLANTED.with(Cell::get) == Some(fault)
}

/// T and F belong to the rule's nodes, W to its past and shared nodes, the other four to its past nodes only.
pub fn belongs(rule: &Rule, fact: usize, node: usize) -> bool {
    match fact {
        T | F => node < rule.len(),
        W => rule.is_past(node) || rule.is_shared(node),
        _ => rule.is_past(node),
    }
}

/// Every fact that belongs somewhere.
pub fn all_facts(rule: &Rule) -> Facts {
    let mut s = Facts::none();
    for fact in 0..7 {
        for node in 0..rule.len() {
            if belongs(rule, fact, node) {
                s.add(fact, node);
            }
        }
    }
    s
}

pub fn close(rule: &Rule, noted: &Facts) -> Facts {
    let mut s = *noted;
    for (i, d) in rule.nodes.iter().enumerate() {
        let (l, r) = (d.left as usize, d.right as usize);
        if planted(Fault::ClosingRemoves) && d.branch().is_none() {
            s.drop(T, i);
            s.drop(F, i);
        }
        match d.kind {
            0 => s.add(F, i),
            3 => {
                if s.has(F, l) || s.has(T, r) {
                    s.add(T, i);
                }
                if s.has(T, l) && s.has(F, r) {
                    s.add(F, i);
                }
            }
            4 => {
                if s.has(T, r) || (s.has(T, l) && s.has(A, i)) {
                    s.add(T, i);
                }
                if (s.has(F, r) && s.has(F, l)) || (s.has(F, r) && s.has(B, i)) {
                    s.add(F, i);
                }
            }
            5 => {
                if s.has(A, i) {
                    s.add(T, i);
                }
                if s.has(B, i) {
                    s.add(F, i);
                }
            }
            _ => {}
        }
    }
    s
}

/// M for every past node, A for weak previous, B for since, closed.
pub fn first_facts(rule: &Rule) -> Facts {
    let mut s = Facts::none();
    for i in rule.past_nodes() {
        s.add(M, i);
        s.add(if rule.nodes[i].kind == 5 { A } else { B }, i);
    }
    close(rule, &s)
}

/// The node whose value now is what W says of node i's work bit: it is the next prior of a past node, and the value now of a shared one.
pub fn worked_out(rule: &Rule, i: usize) -> usize {
    if rule.nodes[i].kind == 5 {
        rule.nodes[i].left as usize
    } else {
        i
    }
}

#[derive(Clone, Copy, Debug, PartialEq, Eq)]
pub struct Passed {
    /// to the target, if this instruction can go to its target
    pub target: Option<Facts>,
    /// to the next line, if it can go there
    pub next: Option<Facts>,
}

/// From the facts noted at a line to what its instruction passes on.
pub fn pass(rule: &Rule, line: &Line) -> Passed {
    let (target, next) = pass_open(rule, line, close(rule, &line.facts));
    Passed { target: target.map(|f| close(rule, &f)), next: next.map(|f| close(rule, &f)) }
}

fn pass_open(rule: &Rule, line: &Line, s: Facts) -> (Option<Facts>, Option<Facts>) {
    let c = line.c as usize;
    match line.op {
        0 => (None, None),
        1..=4 | 14 => {
            let mut n = s;
            n.set[T] = 0;
            n.set[F] = 0;
            if !planted(Fault::WorkKept) {
                n.set[W] = 0;
            }
            (None, Some(n))
        }
        5 | 6 | 13 => {
            let (mut yes, mut not) = (s, s);
            for (i, d) in rule.nodes.iter().enumerate() {
                let same = d.register == line.r && d.constant == line.c;
                let swapped = line.op == 13 && d.register as u16 == line.c && d.constant == line.r as u16;
                if d.branch() == Some(line.op) && (same || swapped && planted(Fault::AnyOrder)) {
                    yes.add(T, i);
                    not.add(F, i);
                }
            }
            (Some(yes), Some(not))
        }
        7 => (Some(s), None),
        8 => {
            let mut n = Facts::none();
            for i in rule.past_nodes() {
                let k = worked_out(rule, i);
                if s.has(T, k) {
                    n.add(A, i);
                }
                if s.has(F, k) {
                    n.add(B, i);
                }
                if s.has(W, i) {
                    n.add(C, i);
                }
            }
            if planted(Fault::SharedKept) {
                rule.shared_nodes().into_iter().filter(|&i| s.has(W, i)).for_each(|i| n.add(W, i));
            }
            (None, Some(n))
        }
        9 => {
            let mut n = s;
            let k = worked_out(rule, c);
            n.drop(W, c);
            n.drop(C, c);
            let hidden = planted(Fault::TrueHidesFalse) && s.has(T, k);
            if (line.r == 1 && s.has(T, k)) || (line.r == 0 && s.has(F, k) && !hidden) {
                n.add(W, c);
            }
            if (line.r == 1 && s.has(A, c)) || (line.r == 0 && s.has(B, c)) {
                n.add(C, c);
            }
            (None, Some(n))
        }
        10 => {
            let (mut yes, mut not) = (s, s);
            if s.has(M, c) {
                yes.add(A, c);
                not.add(B, c);
            }
            (Some(yes), Some(not))
        }
        11 => {
            let (mut yes, mut not) = (s, s);
            let k = worked_out(rule, c);
            if s.has(W, c) {
                yes.add(T, k);
                not.add(F, k);
            }
            if s.has(C, c) {
                yes.add(A, c);
                not.add(B, c);
            }
            (Some(yes), Some(not))
        }
        12 => {
            let mut n = s;
            n.drop(M, c);
            if s.has(C, c) {
                n.add(M, c);
            }
            (None, Some(n))
        }
        _ => unreachable!(),
    }
}

//! The functions of `include/guard.h`, on slices.
use crate::face::{Face, STATE_NUMBERS};
use reference::form::Word;
use reference::stations::{Station, STATIONS};
use std::mem::transmute;

/// A word of a stored form, with the library's functions for that form.
pub trait Form: Word + From<u8> {
    /// The form that the moves lead to.
    type Other: Form<Other = Self>;
    const LIBRARY: Library<Self>;
}

/// A function of the header, and its name there.
#[derive(Clone, Copy)]
pub struct Function<F> {
    pub name: &'static str,
    pub call: F,
}

type Asks<X> = unsafe extern "C" fn(*const X, usize, *mut u64, usize) -> u32;
type AsksTwo<X, Y> = unsafe extern "C" fn(*const X, usize, *const Y, usize, *mut u64, usize) -> u32;
type Writes<X, Y> = unsafe extern "C" fn(*const X, usize, *mut Y, usize, *mut u64, usize) -> u32;
type WritesOfTwo<X, Y, Z> = unsafe extern "C" fn(*const X, usize, *const Y, usize, *mut Z, usize, *mut u64, usize) -> u32;
type JudgesLimits<X> = unsafe extern "C" fn(*const X, usize, *const u16, usize, *const u16, usize, *mut u8, usize, *mut u64, usize) -> u32;
type Runs<X> = unsafe extern "C" fn(*const X, usize, *const X, usize, *const u16, usize, u64, *mut u16, usize, *mut u64, usize) -> u32;
type Steps<X> = unsafe extern "C" fn(*const X, usize, *const X, usize, *const u16, usize, *mut u16, usize, *mut u64, usize) -> u32;

/// States, budget and allowance; four rules, four scripts, four lists of inputs, four histories; numbers.
#[rustfmt::skip]
type RunsStations<X> = unsafe extern "C" fn(
    *mut u64, usize, u64, u64,
    *const X, usize, *const X, usize, *const X, usize, *const X, usize,
    *const X, usize, *const X, usize, *const X, usize, *const X, usize,
    *const u16, usize, *const u16, usize, *const u16, usize, *const u16, usize,
    *mut u16, usize, *mut u16, usize, *mut u16, usize, *mut u16, usize,
    *mut u64, usize,
) -> u32;

/// The library's functions for one form.
#[derive(Clone, Copy)]
pub struct Library<W: Form> {
    pub text: Function<Writes<u8, W>>,
    pub rule: Function<Asks<W>>,
    pub bare: Function<AsksTwo<W, u32>>,
    pub script: Function<AsksTwo<W, W>>,
    pub weave: Function<WritesOfTwo<W, u32, W>>,
    pub facts: Function<WritesOfTwo<W, u32, W>>,
    pub judge: Function<AsksTwo<W, u16>>,
    pub limits: Function<JudgesLimits<W>>,
    pub run: Function<Runs<W>>,
    pub fresh: Function<Asks<W>>,
    pub step: Function<Steps<W>>,
    pub stations: Function<RunsStations<W>>,
    pub move_rule: Function<Writes<W, W::Other>>,
    pub move_script: Function<WritesOfTwo<W, W, W::Other>>,
}

macro_rules! library {
    ($($field:ident: $name:ident),*) => {{
        extern "C" {
            $(fn $name();)*
        }
        // Safety: the types that the header gives are those of the fields.
        Library { $($field: Function { name: stringify!($name), call: unsafe { transmute::<unsafe extern "C" fn(), _>($name) } }),* }
    }};
}

impl Form for u32 {
    type Other = u64;
    const LIBRARY: Library<u32> = library! {
        text: guard_text, rule: guard_rule, bare: guard_bare, script: guard_script, weave: guard_weave, facts: guard_facts,
        judge: guard_judge, limits: guard_limits, run: guard_run, fresh: guard_fresh, step: guard_step, stations: guard_stations,
        move_rule: guard_rule_up, move_script: guard_script_up
    };
}

impl Form for u64 {
    type Other = u32;
    const LIBRARY: Library<u64> = library! {
        text: guard_text64, rule: guard_rule64, bare: guard_bare64, script: guard_script64, weave: guard_weave64, facts: guard_facts64,
        judge: guard_judge64, limits: guard_limits64, run: guard_run64, fresh: guard_fresh64, step: guard_step64,
        stations: guard_stations64, move_rule: guard_rule_back, move_script: guard_script_back
    };
}

/// Whether the library has the functions of the second form and the moves.
pub const BOTH_FORMS: bool = cfg!(not(first_form_alone));

/// Whether the library has the functions for stations: one from before 2026-10, which the benchmark is held against, has not.
pub const STATIONED: bool = cfg!(not(without_stations));

/// Whether the library judges within limits: one from before 2026-11, which the benchmark is held against, does not.
pub const WITHIN_LIMITS: bool = cfg!(not(without_limits));

/// Whether the library's states hold if a presentation would keep the rule: one from before 2026-08, which the benchmark is held against, has
/// shorter states.
pub fn holds_readiness() -> bool {
    library::<u32>().fresh(&[], &mut [0; STATE_NUMBERS - 1]) != 0
}

// In their place, so that the benchmark links. A call ends the program.
#[cfg(first_form_alone)]
std::arch::global_asm!(
    ".irp name, text64, rule64, bare64, script64, weave64, facts64, judge64, run64, fresh64, step64, rule_up, rule_back, script_up, script_back",
    ".globl guard_\\name",
    "guard_\\name:",
    ".endr",
    "ud2",
);

#[cfg(without_stations)]
std::arch::global_asm!(".globl guard_stations", ".globl guard_stations64", "guard_stations:", "guard_stations64:", "ud2");

#[cfg(without_limits)]
std::arch::global_asm!(".globl guard_limits", ".globl guard_limits64", "guard_limits:", "guard_limits64:", "ud2");

/// The library's functions for a form that is told by the words.
pub fn library<W: Form>() -> Library<W> {
    W::LIBRARY
}

// Safety of each call: a slice's pointer and length are those that the header asks for, and slices that are lent to be written do not
// overlap any other.
impl<W: Form> Face<W> for Library<W> {
    fn text(&self, text: &[u8], out: &mut [W], numbers: &mut [u64]) -> u32 {
        unsafe { (self.text.call)(text.as_ptr(), text.len(), out.as_mut_ptr(), out.len(), numbers.as_mut_ptr(), numbers.len()) }
    }

    fn rule(&self, rule: &[W], numbers: &mut [u64]) -> u32 {
        unsafe { (self.rule.call)(rule.as_ptr(), rule.len(), numbers.as_mut_ptr(), numbers.len()) }
    }

    fn bare(&self, rule: &[W], script: &[u32], numbers: &mut [u64]) -> u32 {
        unsafe { (self.bare.call)(rule.as_ptr(), rule.len(), script.as_ptr(), script.len(), numbers.as_mut_ptr(), numbers.len()) }
    }

    fn script(&self, rule: &[W], script: &[W], numbers: &mut [u64]) -> u32 {
        unsafe { (self.script.call)(rule.as_ptr(), rule.len(), script.as_ptr(), script.len(), numbers.as_mut_ptr(), numbers.len()) }
    }

    fn weave(&self, rule: &[W], bare: &[u32], out: &mut [W], numbers: &mut [u64]) -> u32 {
        let (b, lines, o, space) = (bare.as_ptr(), bare.len(), out.as_mut_ptr(), out.len());
        unsafe { (self.weave.call)(rule.as_ptr(), rule.len(), b, lines, o, space, numbers.as_mut_ptr(), numbers.len()) }
    }

    fn facts(&self, rule: &[W], instructions: &[u32], out: &mut [W], numbers: &mut [u64]) -> u32 {
        let (i, lines, o, space) = (instructions.as_ptr(), instructions.len(), out.as_mut_ptr(), out.len());
        unsafe { (self.facts.call)(rule.as_ptr(), rule.len(), i, lines, o, space, numbers.as_mut_ptr(), numbers.len()) }
    }

    fn judge(&self, rule: &[W], history: &[u16], numbers: &mut [u64]) -> u32 {
        unsafe { (self.judge.call)(rule.as_ptr(), rule.len(), history.as_ptr(), history.len(), numbers.as_mut_ptr(), numbers.len()) }
    }

    fn limits(&self, rule: &[W], lows: &[u16], highs: &[u16], out: &mut [u8], numbers: &mut [u64]) -> u32 {
        let (l, low_count, h, high_count) = (lows.as_ptr(), lows.len(), highs.as_ptr(), highs.len());
        let (o, space, n, count) = (out.as_mut_ptr(), out.len(), numbers.as_mut_ptr(), numbers.len());
        unsafe { (self.limits.call)(rule.as_ptr(), rule.len(), l, low_count, h, high_count, o, space, n, count) }
    }

    fn run(&self, rule: &[W], script: &[W], inputs: &[u16], budget: u64, history: &mut [u16], numbers: &mut [u64]) -> u32 {
        let (r, nodes, s, words) = (rule.as_ptr(), rule.len(), script.as_ptr(), script.len());
        let (i, count, h, space) = (inputs.as_ptr(), inputs.len(), history.as_mut_ptr(), history.len());
        unsafe { (self.run.call)(r, nodes, s, words, i, count, budget, h, space, numbers.as_mut_ptr(), numbers.len()) }
    }

    fn fresh(&self, rule: &[W], state: &mut [u64]) -> u32 {
        unsafe { (self.fresh.call)(rule.as_ptr(), rule.len(), state.as_mut_ptr(), state.len()) }
    }

    fn step(&self, rule: &[W], script: &[W], inputs: &[u16], history: &mut [u16], state: &mut [u64]) -> u32 {
        let (r, nodes, s, words) = (rule.as_ptr(), rule.len(), script.as_ptr(), script.len());
        let (i, count, h, space) = (inputs.as_ptr(), inputs.len(), history.as_mut_ptr(), history.len());
        unsafe { (self.step.call)(r, nodes, s, words, i, count, h, space, state.as_mut_ptr(), state.len()) }
    }

    fn stations(&self, states: &mut [u64], budget: u64, allowance: u64, stations: [Station<W>; STATIONS], numbers: &mut [u64]) -> u32 {
        let [a, b, c, d] = stations;
        #[rustfmt::skip]
        let result = unsafe {
            (self.stations.call)(
                states.as_mut_ptr(), states.len(), budget, allowance,
                a.rule.as_ptr(), a.rule.len(), b.rule.as_ptr(), b.rule.len(),
                c.rule.as_ptr(), c.rule.len(), d.rule.as_ptr(), d.rule.len(),
                a.script.as_ptr(), a.script.len(), b.script.as_ptr(), b.script.len(),
                c.script.as_ptr(), c.script.len(), d.script.as_ptr(), d.script.len(),
                a.inputs.as_ptr(), a.inputs.len(), b.inputs.as_ptr(), b.inputs.len(),
                c.inputs.as_ptr(), c.inputs.len(), d.inputs.as_ptr(), d.inputs.len(),
                a.history.as_mut_ptr(), a.history.len(), b.history.as_mut_ptr(), b.history.len(),
                c.history.as_mut_ptr(), c.history.len(), d.history.as_mut_ptr(), d.history.len(),
                numbers.as_mut_ptr(), numbers.len(),
            )
        };
        result
    }

    fn move_rule(&self, rule: &[W], out: &mut [W::Other], numbers: &mut [u64]) -> u32 {
        unsafe { (self.move_rule.call)(rule.as_ptr(), rule.len(), out.as_mut_ptr(), out.len(), numbers.as_mut_ptr(), numbers.len()) }
    }

    fn move_script(&self, rule: &[W], script: &[W], out: &mut [W::Other], numbers: &mut [u64]) -> u32 {
        let (s, words, o, space) = (script.as_ptr(), script.len(), out.as_mut_ptr(), out.len());
        unsafe { (self.move_script.call)(rule.as_ptr(), rule.len(), s, words, o, space, numbers.as_mut_ptr(), numbers.len()) }
    }
}

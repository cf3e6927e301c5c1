//! Requests put to both, and every number of every answer and of every lent slice held side by side; and the two stored forms held to each
//! other.
use crate::face::{Face, PRESENTATIONS, READY, REGISTERS, STATE_NUMBERS};
use crate::faced::{Reference, DIRECT};
use crate::proved::{library, Form};
use crate::request::Request;
use crate::requests::{limits, moving, request, stations};
use reference::judge::{first_false_direct, states};
use reference::rule::{check_rule_in, Rule};
use std::collections::BTreeMap;

/// What was met, by the functions' names: how many calls handed back each number, how the runs stopped, how many states of a run from a
/// fresh start were ready and were not, by the definition, how many indices within limits were false, true and open, and how many calls were
/// answered alike in both forms.
#[derive(Default, Debug)]
pub struct Met {
    pub calls: u64,
    pub results: BTreeMap<(&'static str, u32), u64>,
    pub stops: BTreeMap<(&'static str, u64), u64>,
    pub ready: BTreeMap<(&'static str, bool), u64>,
    pub indices: BTreeMap<(&'static str, u8), u64>,
    pub across: BTreeMap<&'static str, u64>,
}

impl Met {
    /// How many calls handed back this number.
    pub fn with_result(&self, number: u32) -> u64 {
        self.results.iter().filter(|(k, _)| k.1 == number).map(|(_, n)| n).sum()
    }
}

/// Both hand back the same number.
fn same(one: u32, other: u32) -> Result<u32, String> {
    if one != other {
        return Err(format!("handed back: {one}, {other}"));
    }
    Ok(one)
}

/// Both leave the same in all that was lent.
fn alike<W: Form>(one: &Request<W>, other: &Request<W>) -> Result<(), String> {
    one.difference(other).map_or(Ok(()), Err)
}

/// The rule of a request for a fresh start, or for steps from one, if it passes questions 1 to 4: then the definition says whether the
/// machine is ready, and the state is held to that as well.
pub fn started<W: Form>(asked: &Request<W>) -> Option<Rule> {
    let rule = match asked {
        Request::Fresh { rule, state } if state.len() >= STATE_NUMBERS => rule,
        Request::Steps { rule, state, .. } if state.len() >= STATE_NUMBERS => {
            let mut fresh = [0; STATE_NUMBERS];
            Reference.fresh(rule, &mut fresh);
            (state[..STATE_NUMBERS] == fresh).then_some(rule)?
        }
        _ => return None,
    };
    check_rule_in(rule).ok()
}

/// After a call of such a request, whether the machine is ready by the definition: a since looks back over all that was presented.
pub fn ready_by_definition<W: Form>(rule: &Rule, called: &Request<W>) -> bool {
    let (state, history): (&[u64], &[u16]) = match called {
        Request::Fresh { state, .. } => (state, &[]),
        Request::Steps { state, history, .. } => (state, history),
        _ => unreachable!("it was started"),
    };
    let registers = std::array::from_fn(|r| state[REGISTERS + r] as u16);
    rule.holds_now(&states(&history[..16 * state[PRESENTATIONS] as usize]), &registers)
}

/// What the proved code has written is ready where the definition says so.
fn defined<W: Form>(rule: &Rule, called: &Request<W>) -> Result<bool, String> {
    let (Request::Fresh { state, .. } | Request::Steps { state, .. }) = called else { unreachable!("it was started") };
    let ready = ready_by_definition(rule, called);
    if state[READY] != ready as u64 {
        return Err(format!("ready: {}, by the definition {ready}", state[READY]));
    }
    Ok(ready)
}

/// What the proved code has written for four stations that were run is what is promised of them: each history obeys its station's own rule
/// by the table of kinds, what was presented and what is left are the allowance, and each is ready where the definition says so. Answers
/// which of them are.
fn promised<W: Form>(called: &Request<W>) -> Result<Vec<bool>, String> {
    let Request::Stations { states: words, allowance, stations, numbers, .. } = called else { return Ok(vec![]) };
    let (mut ready, mut made) = (vec![], 0);
    for (k, (state, station)) in words.chunks(STATE_NUMBERS).zip(stations).enumerate() {
        let rule = check_rule_in(&station.rule).map_err(|no| format!("station {k} was run, whose rule fails {}", no.number))?;
        let presented = states(&station.history[..16 * state[PRESENTATIONS] as usize]);
        if first_false_direct(&rule, &presented) < presented.len() {
            return Err(format!("the history of station {k} does not obey its rule"));
        }
        let registers = std::array::from_fn(|r| state[REGISTERS + r] as u16);
        let now = rule.holds_now(&presented, &registers);
        if state[READY] != now as u64 {
            return Err(format!("station {k} ready: {}, by the definition {now}", state[READY]));
        }
        ready.push(now);
        made += state[PRESENTATIONS];
    }
    if made.checked_add(numbers[2]) != Some(*allowance) {
        return Err(format!("{made} presented and {} left of {allowance}", numbers[2]));
    }
    Ok(ready)
}

/// What the proved code has answered within limits is right, by the table of kinds, for exact histories within: the lowest values, the
/// highest, and the two by turns, as far as these are judged by it. Where limits are equal, nothing is open. Hands back the answers.
fn right_within<W: Form>(called: &Request<W>) -> Result<Vec<u8>, String> {
    let Request::Limits { rule, lows, highs, out, .. } = called else { return Ok(vec![]) };
    let rule = check_rule_in(rule).map_err(|no| format!("its rule fails {}", no.number))?;
    let by_turns = |first: &[u16], second: &[u16]| (0..first.len()).map(|k| if k % 2 == 0 { first[k] } else { second[k] }).collect();
    for exact in [lows.clone(), highs.clone(), by_turns(lows, highs), by_turns(highs, lows)] {
        let truth = rule.truth_table(&states(&exact[..exact.len().min(16 * DIRECT)])).swap_remove(rule.last());
        let wrong = |(byte, truth): (&u8, bool)| *byte != truth as u8 && (*byte != 2 || lows == highs);
        if let Some(n) = out.iter().zip(truth).position(wrong) {
            return Err(format!("{} at index {n}, which is not so in {exact:?}", out[n]));
        }
    }
    Ok(out[..lows.len() / 16].to_vec())
}

/// One request put to the proved code and to the reference: the first difference, proved first, if there is one.
pub fn put<W: Form>(asked: &Request<W>, met: &mut Met) -> Result<(), String> {
    let (mut proved, mut reference) = (asked.clone(), asked.clone());
    let started = started(asked);
    for _ in 0..asked.calls() {
        let result = same(proved.put(&library()), reference.put(&Reference))?;
        alike(&proved, &reference)?;
        met.calls += 1;
        *met.results.entry((asked.function(), result)).or_default() += 1;
        match &proved {
            Request::Run { numbers, .. } if result != 99 => *met.stops.entry((asked.function(), numbers[1])).or_default() += 1,
            _ => {}
        }
        if let Some(rule) = &started {
            *met.ready.entry((asked.function(), defined(rule, &proved)?)).or_default() += 1;
        }
        if result == 0 {
            for ready in promised(&proved)? {
                *met.ready.entry((asked.function(), ready)).or_default() += 1;
            }
            for byte in right_within(&proved)? {
                *met.indices.entry((asked.function(), byte)).or_default() += 1;
            }
        }
    }
    Ok(())
}

/// What the proved code answers in the first form, it answers in the second where the nodes and lines are the same, right or wrong: the
/// first difference, the first form first.
pub fn across(asked: &Request<u32>, met: &mut Met) -> Result<(), String> {
    let Some(mut second) = asked.in_second_form() else { return Ok(()) };
    let mut first = asked.clone();
    for _ in 0..asked.calls() {
        let results = (first.put(&library()), second.put(&library()));
        // a text of more nodes than the first form allows
        if results.0 == 18 {
            return Ok(());
        }
        same(results.0, results.1)?;
    }
    alike(&first.in_second_form().expect("it was the same before"), &second)?;
    *met.across.entry(asked.function()).or_default() += 1;
    Ok(())
}

/// What the proved code moves to the other form, if it does.
fn moved<X: From<u8> + Clone>(length: usize, write: impl FnOnce(&mut [X], &mut [u64]) -> u32) -> Option<Vec<X>> {
    let mut out = vec![X::from(0); length];
    (write(&mut out, &mut [0; 2]) == 0).then_some(out)
}

/// What the proved code has moved comes back as it was, and a script that has moved with its rule is answered as before.
pub fn there_and_back<W: Form>(asked: &Request<W>, met: &mut Met) -> Result<(), String> {
    let (here, there) = (W::LIBRARY, W::Other::LIBRARY);
    let (Request::MoveRule { rule, .. } | Request::MoveScript { rule, .. }) = asked else { return Ok(()) };
    let Some(new_rule) = moved(rule.len(), |out, n| here.move_rule(rule, out, n)) else { return Ok(()) };
    if moved(rule.len(), |out, n| there.move_rule(&new_rule, out, n)).as_ref() != Some(rule) {
        return Err(format!("the rule moved is {new_rule:x?}, which does not come back"));
    }
    if let Request::MoveScript { script, .. } = asked {
        let Some(new_script) = moved(script.len(), |out, n| here.move_script(rule, script, out, n)) else { return Ok(()) };
        if moved(script.len(), |out, n| there.move_script(&new_rule, &new_script, out, n)).as_ref() != Some(script) {
            return Err(format!("the script moved is {new_script:x?}, which does not come back"));
        }
        let (mut before, mut after) = ([7], [7]);
        same(here.script(rule, script, &mut before), there.script(&new_rule, &new_script, &mut after))?;
        if before != after {
            return Err(format!("the place before and after: {before:?}, {after:?}"));
        }
    }
    *met.across.entry(asked.function()).or_default() += 1;
    Ok(())
}

/// Requests 0 to `count` − 1: the first difference, if there is one.
fn each<W: Form>(
    count: u64,
    make: impl Fn(u64) -> Request<W>,
    mut ask: impl FnMut(u64, &Request<W>) -> Result<(), String>,
) -> Result<(), String> {
    for n in 0..count {
        let asked = make(n);
        ask(n, &asked).map_err(|e| format!("{} in request {n}: {e}\n{asked:x?}", asked.function()))?;
    }
    Ok(())
}

/// One request of the first form; an eighth of them goes to the second as well.
fn put_first(n: u64, asked: &Request<u32>, met: &mut Met) -> Result<(), String> {
    put(asked, met)?;
    // sixteen of these have each kind of rule and request
    if n / 16 % 8 == 0 {
        across(asked, met).map_err(|e| format!("in both forms, {e}"))?;
    }
    Ok(())
}

/// So many requests of a seed in the first form, of which an eighth go to the second as well, a fifteenth as many in the second form, and
/// a fortieth as many moves each way; for stations a sixtieth as many in the first form, of which an eighth go to the second as well, and
/// half as many in the second; within limits twice as many as for stations. The first difference, or what was met.
pub fn compare(seed: u64, count: u64) -> Result<Met, String> {
    let mut met = Met::default();
    each::<u32>(count, |n| request(seed, n), |n, asked| put_first(n, asked, &mut met))?;
    each::<u64>(count / 15, |n| request(seed, n), |_, asked| put(asked, &mut met))?;
    each::<u32>(count / 60, |n| stations(seed, n), |n, asked| put_first(n, asked, &mut met))?;
    each::<u64>(count / 120, |n| stations(seed, n), |_, asked| put(asked, &mut met))?;
    each::<u32>(count / 30, |n| limits(seed, n), |n, asked| put_first(n, asked, &mut met))?;
    each::<u64>(count / 60, |n| limits(seed, n), |_, asked| put(asked, &mut met))?;
    each::<u32>(count / 40, |n| moving(seed, n), |_, asked| put(asked, &mut met).and_then(|_| there_and_back(asked, &mut met)))?;
    each::<u64>(count / 40, |n| moving(seed, n), |_, asked| put(asked, &mut met).and_then(|_| there_and_back(asked, &mut met)))?;
    Ok(met)
}

//! 2026-10, four booths and one allowance: a booth is called a station here. Four machines take turns, one step each, and what they present
//! comes out of one allowance.
use crate::facts::{planted, Fault};
use crate::form::Word;
use crate::judge::check_numbers;
use crate::machine::{fresh, stuck, Machine};
use crate::rule::Rule;
use crate::script::{check_script_in, Line};
use crate::{no, No};

pub const STATIONS: usize = 4;

/// What is lent for one station, besides its state.
pub struct Station<'a, W> {
    pub rule: &'a [W],
    pub script: &'a [W],
    pub inputs: &'a [u16],
    pub history: &'a mut [u16],
}

/// How many turns were taken, passes among them, and what is left of the allowance.
#[derive(Clone, Copy, Debug, PartialEq, Eq)]
pub struct Taken {
    pub turns: u64,
    pub left: u64,
}

/// One question put to the stations in rising order. The place is the station that fails it, not the place within it.
fn ask_each<W, X>(stations: &[Station<W>; STATIONS], ask: impl Fn(&Station<W>) -> Result<X, No>) -> Result<Vec<X>, No> {
    let of = |k: usize, refused: No| if planted(Fault::PlaceIsTheLine) { refused } else { No { place: k, ..refused } };
    stations.iter().enumerate().map(|(k, station)| ask(station).map_err(|refused| of(k, refused))).collect()
}

/// 21, then 1 to 11 of each station's rule and script, then 15 of each one's inputs: the rules and lines.
fn check_stations<W: Word>(states: usize, stations: &[Station<W>; STATIONS]) -> Result<Vec<(Rule, Vec<Line>)>, No> {
    // 21. Are there four states?
    if states != STATIONS {
        return no(21, 0);
    }
    let inputs = || ask_each(stations, |station| check_numbers(station.inputs));
    if planted(Fault::InputsFirst) {
        inputs()?;
    }
    let accepted = ask_each(stations, |station| check_script_in(station.rule, station.script))?;
    inputs()?;
    Ok(accepted)
}

/// All four start afresh: what the states hold before is not read. Where it is refused, states and histories stay.
pub fn run_stations_in<W: Word>(
    states: &mut [Machine],
    budget: u64,
    allowance: u64,
    stations: &mut [Station<W>; STATIONS],
) -> Result<Taken, No> {
    let accepted = check_stations(states.len(), stations)?;
    for (state, (rule, _)) in states.iter_mut().zip(&accepted) {
        *state = fresh(&rule.nodes);
    }
    let order = if planted(Fault::LastHasNoTurn) { [0, 1, 2, 2] } else { [0, 1, 2, 3] };
    let most_passes = if planted(Fault::ThreePassesEnd) { 3 } else { 4 };
    let (mut turns, mut left) = (0, allowance);
    // the passes since the last step
    let mut passes = 0;
    for k in order.into_iter().cycle() {
        if turns == budget || passes == most_passes {
            break;
        }
        let ((rule, lines), station, m) = (&accepted[k], &mut stations[k], &mut states[k]);
        let l = &lines[m.line as usize];
        let presents = l.op == 8;
        let is_stuck = stuck(l, m, station.inputs, station.history.len()).is_some();
        let passed_over = is_stuck || presents && left == 0;
        if passed_over {
            passes += 1;
            if presents && left > 0 && planted(Fault::PassTakes) {
                left -= 1;
            }
        } else {
            *m = m.clone().step(&rule.nodes, l, station.inputs, station.history);
            left -= presents as u64;
            if !planted(Fault::PassesAddUp) {
                passes = 0;
            }
        }
        if !(passed_over && planted(Fault::PassIsNoTurn)) {
            turns += 1;
        }
    }
    Ok(Taken { turns, left })
}

pub fn run_stations(states: &mut [Machine], budget: u64, allowance: u64, stations: &mut [Station<u32>; STATIONS]) -> Result<Taken, No> {
    run_stations_in(states, budget, allowance, stations)
}

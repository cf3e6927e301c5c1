//! Four stations that take turns: the run over decoded lines, each script decoded once, the states where they are lent.
use super::form::Set;
use super::machine::{advance, decode, fresh, Line, State};
use super::script::check_script;
use super::{no, numbers_small, No};
use reference::stations::{Station, STATIONS};

/// The turns taken, and what is left of the allowance. What is ready is worked out at each step as the single step does it, though nobody
/// looks before the end.
pub fn run_stations<W: Set>(
    states: &mut [u64],
    budget: u64,
    allowance: u64,
    stations: &mut [Station<W>; STATIONS],
) -> Result<(u64, u64), No> {
    if states.len() != STATIONS * size_of::<State>() / 8 {
        return no(21, 0);
    }
    for (place, station) in stations.iter().enumerate() {
        check_script(station.rule, station.script).map_err(|refused| No { place, ..refused })?;
    }
    for (place, station) in stations.iter().enumerate() {
        numbers_small(station.inputs).map_err(|refused| No { place, ..refused })?;
    }
    let mut parts = states.chunks_exact_mut(size_of::<State>() / 8);
    let mut states: [&mut State; STATIONS] = std::array::from_fn(|_| parts.next().unwrap().try_into().unwrap());
    let mut lines = [[Line::default(); 1024]; STATIONS];
    for ((station, state), lines) in stations.iter().zip(&mut states).zip(&mut lines) {
        fresh(station.rule, *state);
        for (line, stored) in lines.iter_mut().zip(station.script.chunks_exact(8)) {
            *line = decode(stored[0].instruction());
        }
    }
    let (mut turns, mut left, mut passes) = (0, allowance, 0);
    while turns != budget && passes < STATIONS {
        let k = turns as usize % STATIONS;
        let (station, state) = (&mut stations[k], &mut *states[k]);
        let l = lines[k][state[0] as usize & 1023];
        let presents = l.op == 8;
        if presents && left == 0 || !advance(station.rule, l, station.inputs, station.history, state) {
            passes += 1;
        } else {
            left -= presents as u64;
            passes = 0;
        }
        turns += 1;
    }
    Ok((turns, left))
}

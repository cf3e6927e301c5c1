//! The peers' answers to random requests are the proved code's: what is timed is the same work.
use crate::peers::facts::find_facts;
use crate::peers::form::Set;
use crate::peers::judge::{many_at_once, one_at_a_time};
use crate::peers::limits;
use crate::peers::machine::{fresh, run, step};
use crate::peers::rule::Rule;
use crate::peers::script::{check_code, check_script, BARE};
use crate::peers::stations::run_stations;
use crate::peers::text::read_text;
use crate::peers::weave::weave;
use crate::peers::No;
use compare::face::Face;
use compare::proved::{holds_readiness, library, BOTH_FORMS, STATIONED, WITHIN_LIMITS};
use compare::request::{Request, Stationed};
use compare::requests::{self, request, stations};
use reference::stations::Station;

fn numbers<X>(answer: Result<X, No>) -> (u32, u64) {
    answer.map_or_else(|no| (no.number, no.place as u64), |_| (0, 0))
}

fn lent<W: Set>(Stationed { rule, script, inputs, history }: &mut Stationed<W>) -> Station<'_, W> {
    Station { rule, script, inputs, history }
}

fn agree_on<W: Set>(request: Request<W>) {
    let proved = library();
    match request {
        Request::Rule { rule, .. } => {
            let mut p = [0];
            assert_eq!((proved.rule(&rule, &mut p), p[0]), numbers(Rule::read(&rule)));
        }
        Request::Bare { rule, script, .. } => {
            let mut p = [0];
            let peer = Rule::read(&rule).and_then(|r| check_code(&r, &script, 1, BARE));
            assert_eq!((proved.bare(&rule, &script, &mut p), p[0]), numbers(peer));
        }
        Request::Script { rule, script, .. } => {
            let mut p = [0];
            assert_eq!((proved.script(&rule, &script, &mut p), p[0]), numbers(check_script(&rule, &script)));
        }
        Request::Weave { rule, bare, mut out, .. } => {
            let mut p = [0; 2];
            let mut peer_out = out.clone();
            let result = proved.weave(&rule, &bare, &mut out, &mut p);
            let peer = weave(&rule, &bare, &mut peer_out);
            assert_eq!(p[1], *peer.as_ref().unwrap_or(&0) as u64);
            assert!((result, p[0]) == numbers(peer) && out == peer_out);
        }
        Request::Facts { rule, instructions, mut out, .. } => {
            let mut p = [0; 2];
            let mut peer_out = out.clone();
            let result = proved.facts(&rule, &instructions, &mut out, &mut p);
            let peer = find_facts(&rule, &instructions, &mut peer_out);
            assert_eq!(p[1], *peer.as_ref().unwrap_or(&0) as u64);
            assert!((result, p[0]) == numbers(peer) && out == peer_out);
        }
        Request::Judge { rule, history, .. } => {
            let mut p = [0; 4];
            let result = proved.judge(&rule, &history, &mut p);
            for judge in [one_at_a_time::<W>, many_at_once] {
                let peer = judge(&rule, &history);
                let index = peer.as_ref().map_or(None, |&i| i);
                assert_eq!(index, (p[1] == 1).then_some(p[2] as usize));
                assert_eq!((result, p[0]), numbers(peer));
            }
        }
        Request::Limits { rule, lows, highs, out, .. } => {
            let (mut p, mut proved_out) = ([0; 2], out.clone());
            let result = proved.limits(&rule, &lows, &highs, &mut proved_out, &mut p);
            for judge in [limits::one_at_a_time::<W>, limits::many_at_once] {
                let mut peer_out = out.clone();
                let peer = judge(&rule, &lows, &highs, &mut peer_out);
                assert_eq!(p[1], *peer.as_ref().unwrap_or(&0) as u64);
                assert!((result, p[0]) == numbers(peer) && proved_out == peer_out);
            }
        }
        Request::Run { rule, script, inputs, budget, mut history, .. } => {
            let mut p = [0; 22];
            let mut peer_history = history.clone();
            let result = proved.run(&rule, &script, &inputs, budget, &mut history, &mut p);
            let peer = run(&rule, &script, &inputs, budget, &mut peer_history);
            let mut q = [0; 22];
            if let Ok(t) = &peer {
                q[1..6].copy_from_slice(&[t.stop, t.line as u64, t.steps, t.presentations as u64, t.read as u64]);
                q[6..].copy_from_slice(&t.registers.map(u64::from));
            }
            let (number, place) = numbers(peer);
            q[0] = place;
            assert!(result == number && p == q && history == peer_history);
        }
        // of states that are shorter there is nothing to compare
        Request::Fresh { .. } | Request::Steps { .. } if !holds_readiness() => {}
        Request::Fresh { rule, mut state } => {
            let mut peer_state = state.clone();
            assert_eq!(proved.fresh(&rule, &mut state), fresh(&rule, &mut peer_state));
            assert!(state == peer_state);
        }
        Request::Steps { rule, script, inputs, mut history, mut state, count } => {
            let (mut peer_history, mut peer_state) = (history.clone(), state.clone());
            for _ in 0..count {
                let result = proved.step(&rule, &script, &inputs, &mut history, &mut state);
                assert_eq!(result, step(&rule, &script, &inputs, &mut peer_history, &mut peer_state));
                assert!(state == peer_state && history == peer_history);
            }
        }
        Request::Stations { mut states, budget, allowance, mut stations, .. } => {
            let mut p = [0; 3];
            let (mut peer_states, mut peer_stations) = (states.clone(), stations.clone());
            let result = proved.stations(&mut states, budget, allowance, stations.each_mut().map(lent), &mut p);
            let peer = run_stations(&mut peer_states, budget, allowance, &mut peer_stations.each_mut().map(lent));
            let (turns, left) = *peer.as_ref().unwrap_or(&(0, 0));
            let (number, place) = numbers(peer);
            assert_eq!((result, p), (number, [place, turns, left]));
            assert!(states == peer_states && stations == peer_stations);
        }
        Request::Text { text, mut out, .. } => {
            let mut p = [0; 2];
            let mut peer_out = out.clone();
            let result = proved.text(&text, &mut out, &mut p);
            let peer = read_text(&text, &mut peer_out);
            assert_eq!(p[1], *peer.as_ref().unwrap_or(&0) as u64);
            assert!((result, p[0]) == numbers(peer) && out == peer_out);
        }
        // without a peer
        Request::MoveRule { .. } | Request::MoveScript { .. } => {}
    }
}

/// So many requests in the first form, and a fifth as many in the second if the library has it; for stations, if it has them, a twentieth
/// as many in each, and so within limits a tenth.
pub fn agree(count: u64) {
    (0..count).for_each(|n| agree_on::<u32>(request(5, n)));
    if BOTH_FORMS {
        (0..count / 5).for_each(|n| agree_on::<u64>(request(5, n)));
    }
    if STATIONED {
        (0..count / 20).for_each(|n| agree_on::<u32>(stations(5, n)));
        (0..count / 20).for_each(|n| agree_on::<u64>(stations(5, n)));
    }
    if WITHIN_LIMITS {
        (0..count / 10).for_each(|n| agree_on::<u32>(requests::limits(5, n)));
        (0..count / 10).for_each(|n| agree_on::<u64>(requests::limits(5, n)));
    }
}

#[test]
fn peers_agree() {
    agree(100_000);
}

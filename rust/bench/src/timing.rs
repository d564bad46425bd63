//! Times of two calls side by side.
use std::time::Instant;

/// How often a measurement is repeated, and the seconds that one takes about.
pub const ROUNDS: usize = 5;
const ROUND_SECONDS: f64 = 0.3;

/// Seconds that a call takes.
fn seconds(call: impl FnOnce()) -> f64 {
    let start = Instant::now();
    call();
    start.elapsed().as_secs_f64()
}

fn median(mut values: Vec<f64>) -> f64 {
    values.sort_by(f64::total_cmp);
    values[values.len() / 2]
}

/// The medians of the times that our call and theirs take on the same state, by turns, so that both meet the same
/// machine, and each a cache that the other has filled.
pub fn turns_about<S>(turns: usize, state: &mut S, ours: fn(&mut S), theirs: fn(&mut S)) -> (f64, f64) {
    let (mut our_times, mut their_times) = (Vec::new(), Vec::new());
    for _ in 0..turns {
        our_times.push(seconds(|| ours(state)));
        their_times.push(seconds(|| theirs(state)));
    }
    (median(our_times), median(their_times))
}

/// What the rounds tell: medians of our seconds, of theirs and of the ratio ours by theirs, and the least and the
/// greatest ratio.
#[derive(Clone, Copy)]
pub struct Times {
    pub ours: f64,
    pub theirs: f64,
    pub ratio: f64,
    pub least: f64,
    pub greatest: f64,
}

/// Times two calls in several rounds of turns, an odd number each.
pub fn rounds<S>(state: &mut S, ours: fn(&mut S), theirs: fn(&mut S)) -> Times {
    let turn = seconds(|| ours(state)) + seconds(|| theirs(state));
    let turns = (ROUND_SECONDS / turn) as usize | 1;
    let medians: Vec<(f64, f64)> = (0..ROUNDS).map(|_| turns_about(turns, state, ours, theirs)).collect();
    let ratios: Vec<f64> = medians.iter().map(|(ours, theirs)| ours / theirs).collect();
    Times {
        ours: median(medians.iter().map(|times| times.0).collect()),
        theirs: median(medians.iter().map(|times| times.1).collect()),
        least: ratios.iter().copied().fold(f64::INFINITY, f64::min),
        greatest: ratios.iter().copied().fold(0.0, f64::max),
        ratio: median(ratios),
    }
}

//! How long calls take.

use std::time::{Duration, Instant};

/// Rounds of a measurement; the median counts.
const ROUNDS: usize = 9;

/// The median seconds of each call, made in turn again and again, so that a machine that grows
/// slower or faster meanwhile does so for all of them. A round lasts about so long.
pub fn in_turn<const N: usize>(round: Duration, mut calls: [&mut dyn FnMut(); N]) -> [f64; N] {
    let first: f64 = calls.each_mut().map(seconds).iter().sum();
    let times = (round.as_secs_f64() / first).ceil().max(1.0);
    let mut rounds = [const { Vec::new() }; N];
    for _ in 0..ROUNDS {
        let mut sums = [0.0; N];
        for _ in 0..times as usize {
            for (sum, call) in sums.iter_mut().zip(&mut calls) {
                *sum += seconds(call);
            }
        }
        for (rounds, sum) in rounds.iter_mut().zip(sums) {
            rounds.push(sum / times);
        }
    }
    rounds.map(median)
}

fn seconds(call: &mut &mut dyn FnMut()) -> f64 {
    let began = Instant::now();
    call();
    began.elapsed().as_secs_f64()
}

fn median(mut times: Vec<f64>) -> f64 {
    times.sort_by(f64::total_cmp);
    times[times.len() / 2]
}

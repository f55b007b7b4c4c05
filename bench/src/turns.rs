//! Two ways to the same answers, timed by turns.

use std::hint::black_box;
use std::time::Instant;

/// What `run` gives; its time in ms, over `times`, where it is the fastest so far.
fn fastest<T>(best: &mut f64, times: f64, run: impl FnOnce() -> T) -> T {
    let began = Instant::now();
    let answer = black_box(run());
    *best = best.min(began.elapsed().as_nanos() as f64 / 1e6 / times);
    answer
}

/// One line of a table: the ms that each of `times` answers takes, the best of some runs; true where all answers agree.
pub fn compared<T: PartialEq>(name: &str, runs: usize, times: f64, ours: impl Fn() -> T, theirs: impl Fn() -> T) -> bool {
    let (mut our_time, mut their_time) = (f64::INFINITY, f64::INFINITY);
    let mut agree = true;
    for _ in 0..runs {
        let answer = fastest(&mut our_time, times, &ours);
        agree = agree && answer == fastest(&mut their_time, times, &theirs);
    }
    println!("| {name} | {our_time:.2} | {their_time:.2} | {:.1} |", their_time / our_time);
    if !agree {
        println!("{name}: the answers differ");
    }
    agree
}

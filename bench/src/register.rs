//! Times calls on the register by the program `speed` beside the Rust version by other hands, and compares their check sums: by turns a pool
//! is lit, and the one that was lit twelve pools before it is put out; and which of 32 pools put it over one limit after another.

use crate::proved::REQUESTS;
use crate::turns;
use reference::{Enquiry, Register};
use std::hint::black_box;

const CALLS: u64 = 20_000;
const CALL_RUNS: usize = 10;

/// Fewer, since the Rust version works every pool's flux anew for each limit.
const LIMITS: u64 = 10_000;
const LIMIT_RUNS: usize = 3;

/// The enquiry of the k-th pool that is lit: each method and face, at 16 distances.
fn enquiry_of(k: u64) -> Enquiry {
    Enquiry {
        burning_rate: 39,
        absorption: 350,
        heat_of_combustion: 432,
        area: 7_854,
        method: k % 3 + 1,
        rim_distance: 10_000 + k % 16 * 500,
        face: k / 3 % 3 + 1,
        height: 0,
        transmissivity: 1_000,
    }
}

fn with_sums(total: u64, r: &Register) -> u64 {
    let (lows, highs) = r.sums(REQUESTS);
    total + r.burning().len() as u64 + lows + 2 * highs
}

/// The check sum of `count` calls and of the sums after them; of the sums after each call where they are asked for.
fn check_sum(count: u64, after_each: bool) -> u64 {
    let mut register = Register::new();
    let mut total = 0;
    for n in 0..count {
        let k = n / 2;
        let state = if n % 2 == 0 {
            register.light(REQUESTS, k % 24 + 1, &enquiry_of(k))
        } else {
            register.put_out((k % 24 + 12) % 24 + 1)
        };
        total += u64::from(state != 0);
        if after_each {
            total = with_sums(total, &register);
        }
    }
    with_sums(total, &register)
}

/// The check sum of `count` answers to which pools put it over, at limits from 0 to 199,800 W/m² in steps of 200, with the pools from 1 to 32
/// alight. Each number counts for every place from its own on.
fn which_sum(count: u64) -> u64 {
    let mut register = Register::new();
    for k in 0..32 {
        register.light(REQUESTS, k + 1, &enquiry_of(k));
    }
    let mut total = 0;
    for n in 0..count {
        let (state, numbers) = register.which_pools(REQUESTS, n % 1000 * 200);
        total += u64::from(state) + numbers.len() as u64;
        total += numbers.iter().zip((1..=32).rev()).map(|(&number, places)| places * u64::from(number)).sum::<u64>();
    }
    total
}

/// One line of the table: what `speed` runs, and the same by the Rust version; true where the check sums agree.
fn compared(program: &str, name: &str, what: &str, runs: usize, count: u64, theirs: impl Fn(u64) -> u64) -> bool {
    let thousands = count as f64 / 1e3;
    turns::compared(name, runs, thousands, || crate::rattle(program, what, count), || theirs(black_box(count)))
}

/// The table of calls; true where all check sums agree.
pub fn table(program: &str) -> bool {
    println!("| a thousand calls | Rattle, ms | Rust, ms | times faster |");
    println!("|---|---|---|---|");
    let agree = [
        compared(program, "lit or put out", "calls", CALL_RUNS, CALLS, |count| check_sum(count, false)),
        compared(program, "the same, and the sums after each", "calls_and_sums", CALL_RUNS, CALLS, |count| check_sum(count, true)),
        compared(program, "which pools, of 32", "which", LIMIT_RUNS, LIMITS, which_sum),
    ];
    !agree.contains(&false)
}

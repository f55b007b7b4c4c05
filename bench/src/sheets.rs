//! Times `fill` of the proved library beside that of the Rust version by other hands, on the same sheets, and compares their bytes.

use crate::proved::{self, REQUESTS};
use crate::stepped;
use std::hint::black_box;
use std::time::Instant;

const TARGETS: u64 = 512;
const SHEETS: u64 = 4;
const RUNS: usize = 40;

/// A random number from `low` to `high`.
fn between(x: &mut u64, low: u64, high: u64) -> u64 {
    *x = stepped(*x);
    low + (*x >> 11) % (high - low + 1)
}

/// The last `size` bytes of a number, most significant first.
fn put(sheet: &mut Vec<u8>, size: usize, n: u64) {
    sheet.extend_from_slice(&n.to_be_bytes()[8 - size..]);
}

/// Sheets of one line of the table. The pools have these methods by turns.
struct Kind {
    pools: u64,
    methods: [u64; 2],
    off_the_floor: bool,
    smoke: Smoke,
}

/// How large the optical depths of the pools are.
enum Smoke {
    Any,
    /// Below 20.
    Thin,
    /// 21 or more.
    Thick,
}

impl Smoke {
    /// The least and the largest absorption, and the least area.
    fn limits(&self) -> (u64, u64, u64) {
        match self {
            Smoke::Any => (100, 500, 100),
            Smoke::Thin => (40, 79, 4_000),
            Smoke::Thick => (300, 500, 4_000),
        }
    }
}

/// A sheet with all numbers inside the limits and flames that are high enough.
fn sheet(x: &mut u64, kind: &Kind, first: u64) -> Vec<u8> {
    let pools = kind.pools;
    let (least, most, area) = kind.smoke.limits();
    let mut s = Vec::new();
    put(&mut s, 2, pools);
    for _ in 0..pools {
        put(&mut s, 2, between(x, 40, 150));
        put(&mut s, 2, between(x, least, most));
        put(&mut s, 2, between(x, 250, 500));
    }
    put(&mut s, 2, pools);
    for i in 0..pools {
        put(&mut s, 4, between(x, area, 50_000));
        put(&mut s, 2, i);
        put(&mut s, 1, kind.methods[(first + i) as usize % 2]);
    }
    put(&mut s, 2, TARGETS);
    for _ in 0..TARGETS {
        put(&mut s, 2, between(x, 0, pools - 1));
        put(&mut s, 4, between(x, 1_000, 200_000));
        put(&mut s, 1, between(x, 1, 3));
        let height = if kind.off_the_floor { between(x, 0, 25_000) as i64 - 5_000 } else { 0 };
        put(&mut s, 4, height as u64);
        put(&mut s, 2, between(x, 1, 1_000));
    }
    s
}

/// The µs that a call took, where it is the fastest so far.
fn fastest(best: &mut f64, call: impl FnOnce() -> u8) -> u8 {
    let began = Instant::now();
    let number = black_box(call());
    *best = best.min(began.elapsed().as_nanos() as f64 / 1000.0);
    number
}

/// One line of the table; true where all bytes agree.
fn compared(name: &str, sheets: &[Vec<u8>]) -> bool {
    let (mut ours, mut theirs) = (0.0, 0.0);
    let (mut answered, mut agree) = (0, true);
    for sheet in sheets {
        let (mut our_best, mut their_best) = (f64::INFINITY, f64::INFINITY);
        let (mut our_bytes, mut their_bytes) = ([1; 10 * TARGETS as usize], [2; 10 * TARGETS as usize]);
        for _ in 0..RUNS {
            let number = fastest(&mut our_best, || proved::fill_into(black_box(sheet), &mut our_bytes));
            let other = fastest(&mut their_best, || reference::fill(REQUESTS, black_box(sheet), &mut their_bytes));
            agree = agree && number == other && our_bytes == their_bytes;
        }
        answered += our_bytes.chunks(10).filter(|answer| answer[0] == 0).count();
        ours += our_best;
        theirs += their_best;
    }
    let enquiries = (TARGETS * sheets.len() as u64) as f64;
    println!("| {name} | {answered} | {:.2} | {:.2} | {:.1} |", ours / enquiries, theirs / enquiries, theirs / ours);
    if !agree {
        println!("{name}: the bytes differ");
    }
    agree
}

/// The table of whole sheets; true where all bytes agree.
pub fn table() -> bool {
    println!("| {SHEETS} sheets of {TARGETS} targets | answered | Rattle, µs each | Rust, µs each | times faster |");
    println!("|---|---|---|---|---|");
    let mut agree = true;
    for (pools, methods, off_the_floor, smoke, name) in [
        (64, [1, 2], false, Smoke::Any, "64 pools, height 0"),
        (64, [1, 2], true, Smoke::Any, "64 pools, any height"),
        (1, [1, 2], false, Smoke::Any, "1 pool, height 0"),
        (1, [1, 2], true, Smoke::Any, "1 pool, any height"),
        (64, [3, 3], false, Smoke::Any, "64 smoky pools, height 0"),
        (64, [3, 3], true, Smoke::Any, "64 smoky pools, any height"),
        (64, [1, 2], false, Smoke::Thin, "64 pools, k·D under 20, height 0"),
        (64, [1, 2], false, Smoke::Thick, "64 pools, k·D over 20, height 0"),
        (64, [3, 3], false, Smoke::Thin, "64 smoky pools, k·D under 20, height 0"),
        (64, [3, 3], false, Smoke::Thick, "64 smoky pools, k·D over 20, height 0"),
    ] {
        let kind = Kind { pools, methods, off_the_floor, smoke };
        let mut x = 88_172_645_463_325_252 + pools;
        let sheets: Vec<Vec<u8>> = (0..SHEETS).map(|i| sheet(&mut x, &kind, i)).collect();
        agree = compared(name, &sheets) && agree;
    }
    agree
}

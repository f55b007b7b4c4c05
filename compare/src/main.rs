//! Compares the proved `fill` and `fill_groups` with those of the Rust version by other hands, bit for bit, on random sheets.
//!
//!     compare SEED COUNT
//!
//! Each sheet is filled into a buffer that is too short, one that is exact and one that is too long, as bytes and as groups
//! of floats. Every byte and every float is compared, those past the targets too. Exit status 1 and the sheet where the two
//! differ.

mod groups;
mod proved;

use proved::REQUESTS;
use reference::random::{between, next};
use std::process::exit;

/// Bytes of a sheet that is longer than any accepted one: the two must agree on those too.
const LONGEST: usize = 8_000;

/// Bytes of an answer.
const ANSWER: usize = 10;

/// A sheet of `reference random`, or at times bytes of no form at all.
fn any_sheet(state: &mut u64) -> Vec<u8> {
    if between(state, 0, 19) > 0 {
        return reference::random::sheet(state, REQUESTS);
    }
    let length = between(state, 0, LONGEST as u64);
    let high = between(state, 0, 255);
    (0..length).map(|_| between(state, 0, high) as u8).collect()
}

/// Room for every target, less some, exact, or more: in elements, of which each target has `size`.
fn lengths(state: &mut u64, size: usize, targets: usize) -> [usize; 3] {
    let exact = size * targets;
    let short = exact.saturating_sub(between(state, 1, 25) as usize);
    [short, exact, exact + between(state, 1, 40) as usize]
}

/// The number and the elements that both versions leave in a buffer with something in every element, if they agree.
fn agreed<T: Clone + PartialEq>(
    before: Vec<T>,
    ours: impl Fn(&mut [T]) -> u8,
    theirs: impl Fn(&mut [T]) -> u8,
) -> Option<(u8, Vec<T>)> {
    let (mut our_elements, mut their_elements) = (before.clone(), before);
    let (number, other) = (ours(&mut our_elements), theirs(&mut their_elements));
    (number == other && our_elements == their_elements).then_some((number, our_elements))
}

fn differ(what: &str, seed: u64, index: u64, length: usize, sheet: &[u8]) -> ! {
    let hex: String = sheet.iter().map(|b| format!("{b:02x}")).collect();
    println!("DIFFERENCE: {what}, seed {seed}, sheet {index}, a buffer of {length} elements\n{hex}");
    exit(1)
}

fn main() {
    let numbers: Vec<u64> = std::env::args().skip(1).filter_map(|a| a.parse().ok()).collect();
    let [seed, count] = numbers[..] else {
        println!("usage: compare SEED COUNT");
        exit(2)
    };
    let mut state = seed;
    let (mut filled, mut grouped) = (0u64, 0u64);
    let mut seen = [0u64; 256];
    for index in 0..count {
        let sheet = any_sheet(&mut state);
        let targets = reference::read_sheet(REQUESTS, &sheet).3 as usize;
        for length in lengths(&mut state, ANSWER, targets) {
            let before: Vec<u8> = (0..length).map(|_| next(&mut state) as u8).collect();
            let Some((number, answers)) =
                agreed(before, |out| proved::fill_into(&sheet, out), |out| reference::fill(REQUESTS, &sheet, out))
            else {
                differ("fill", seed, index, length, &sheet)
            };
            seen[number as usize] += 1;
            if number == 0 {
                filled += targets as u64;
                answers.chunks(ANSWER).take(targets).for_each(|answer| seen[answer[0] as usize] += (answer[0] > 0) as u64);
            }
        }
        for length in lengths(&mut state, groups::SIZE, targets) {
            let before: Vec<u64> = (0..length).map(|_| next(&mut state)).collect();
            let Some((number, _)) =
                agreed(before, |out| groups::proved(&sheet, out), |out| groups::reference(&sheet, out))
            else {
                differ("groups", seed, index, length, &sheet)
            };
            grouped += if number == 0 { targets as u64 } else { 0 };
        }
        if (index + 1) % 5_000 == 0 {
            println!("{} sheets, {filled} targets, {grouped} groups, no difference", index + 1);
        }
    }
    println!("{count} sheets, {filled} targets filled, {grouped} groups, no difference (seed {seed})");
    let numbers: Vec<String> = (0..256).filter(|&n| seen[n] > 0).map(|n| format!("{n}: {}", seen[n])).collect();
    println!("numbers seen: {}", numbers.join(", "));
}

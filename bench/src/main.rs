//! Times the operations on pairs, compiled from Rattle, beside Rust's u128 on the same random sequence, and compares their check sums;
//! then whole sheets, answers from a limit, and calls on the register.
//! The arguments are the compiled programs `speed` and `ops`.

mod from_limit;
mod plain;
#[path = "../../compare/src/proved.rs"]
mod proved;
mod register;
mod sheets;
mod turns;

use plain::{Answer, Pair};
use std::hint::black_box;
use std::process::Command;
use std::time::Instant;

const LENGTH: u64 = 1024;
const RUNS: usize = 30;

/// One step of a 64-bit xorshift generator (13, 7, 17).
fn stepped(x: u64) -> u64 {
    let a = x ^ (x << 13);
    let b = a ^ (a >> 7);
    b ^ (b << 17)
}

/// 1,024 numbers of 31 to 51 bits.
fn ends() -> Vec<u64> {
    let mut x = 88_172_645_463_325_252;
    (0..LENGTH)
        .map(|_| {
            x = stepped(x);
            (x >> 14 | 0x4_0000_0000_0000) >> (x % 21)
        })
        .collect()
}

fn pair_at(numbers: &[u64], n: u64) -> Pair {
    let low = numbers[(n % LENGTH) as usize];
    (low, low + low % 8)
}

fn with_answer(total: u64, a: Answer) -> u64 {
    match a {
        Ok((low, high)) => total.wrapping_add(low).wrapping_add(high.wrapping_add(high)),
        Err(_) => total.wrapping_add(1),
    }
}

/// The check sum of `count` answers.
fn check_sum(count: u64, answer: impl Fn(u64) -> Answer) -> u64 {
    (0..count).fold(0, |total, n| with_answer(total, answer(n)))
}

/// The ns that each of `count` operations took, and their check sum.
fn timed(count: u64, run: impl Fn() -> u64) -> (f64, u64) {
    let began = Instant::now();
    let total = black_box(run());
    (began.elapsed().as_nanos() as f64 / count as f64, total)
}

/// What the Rattle program prints for `count` operations.
fn rattle(program: &str, name: &str, count: u64) -> u64 {
    let output = Command::new(program)
        .args([name, &count.to_string()])
        .output()
        .expect("the compiled program speed");
    let text = String::from_utf8(output.stdout).expect("digits");
    text.trim().parse().expect("a check sum")
}

/// One line of the table, the best of some runs by turns; true where the check sums agree.
fn compared(program: &str, name: &str, method: &str, count: u64, answer: impl Fn(u64) -> Answer) -> bool {
    let (mut ours, mut plain) = (f64::INFINITY, f64::INFINITY);
    let mut agree = true;
    for _ in 0..RUNS {
        let (time, our_sum) = timed(count, || rattle(program, name, count));
        ours = ours.min(time);
        let (time, plain_sum) = timed(count, || check_sum(black_box(count), &answer));
        plain = plain.min(time);
        agree = agree && our_sum == plain_sum;
    }
    println!("| {name} | {ours:.1} | {plain:.1} | {method} | {:.2} |", ours / plain);
    if !agree {
        println!("{name}: the check sums differ");
    }
    agree
}

fn main() {
    let program = std::env::args().nth(1).expect("the path of the compiled program speed");
    let ops = std::env::args().nth(2).expect("the path of the compiled program ops");
    let numbers = black_box(ends());
    let at = |n| pair_at(&numbers, n);
    let below_20 = |n| {
        let (low, high) = at(n);
        (low / 128, high / 128)
    };
    let from_20 = |n| {
        let (low, high) = at(n);
        (20_000_000_000_000 + low / 16, 20_000_000_000_000 + high / 16)
    };
    println!("| operation | Rattle, ns | Rust u128, ns | by | ratio |");
    println!("|---|---|---|---|---|");
    let agree = [
        compared(&program, "product", "multiply, divide", 5_000_000, |n| plain::product(at(n), at(n + 1))),
        compared(&program, "quotient", "multiply, divide", 2_500_000, |n| plain::quotient(at(n), at(n + 1))),
        compared(&program, "root", "isqrt", 1_000_000, |n| plain::root(at(n))),
        compared(&program, "root", "Newton", 1_000_000, |n| plain::root_by_newton(at(n))),
        compared(&program, "fifth_root", "bisection", 60_000, |n| plain::fifth_root(at(n))),
        compared(&program, "atan", "series", 150_000, |n| plain::atan(at(n))),
        compared(&program, "exp_neg", "series", 150_000, |n| plain::exp_neg(below_20(n))),
        compared(&program, "cold_exp_neg", "a test", 5_000_000, |n| plain::exp_neg(from_20(n))),
    ];
    if agree.contains(&false) {
        std::process::exit(1);
    }
    println!("All check sums agree.\n");
    if !sheets::table() {
        std::process::exit(1);
    }
    println!("All bytes agree.\n");
    if !from_limit::table(&ops) {
        std::process::exit(1);
    }
    println!("All answers agree.\n");
    if !register::table(&program) {
        std::process::exit(1);
    }
    println!("All check sums agree.");
}

//! Times answers from a limit by the program `ops` beside the Rust version by other hands, and compares them: stand-offs that go down to
//! 10 decimetres, 1,991 enquiries each, and a walk over a whole grid, 4,096 enquiries.

use crate::proved::REQUESTS;
use crate::turns;
use reference::{first_free_place, stand_off, Enquiry, Grid};
use std::hint::black_box;
use std::io::Write;
use std::process::{Command, Stdio};

/// A limit in W/m² that every distance keeps.
const KEPT: u64 = u32::MAX as u64;
/// How many times each program answers in one run.
const COPIES: usize = 16;
const RUNS: usize = 6;

/// What the Rattle program prints for these lines.
fn rattle(program: &str, lines: &str) -> String {
    let mut child = Command::new(program)
        .stdin(Stdio::piped())
        .stdout(Stdio::piped())
        .spawn()
        .expect("the compiled program ops");
    child.stdin.take().expect("its input").write_all(lines.as_bytes()).expect("lines read");
    String::from_utf8(child.wait_with_output().expect("its output").stdout).expect("digits")
}

/// One line of the table: a line for `ops`, and what the Rust version answers to it; true where all answers agree.
fn compared(program: &str, name: &str, line: &str, rust: impl Fn() -> String) -> bool {
    let lines = line.repeat(COPIES);
    turns::compared(name, RUNS, COPIES as f64, || rattle(program, &lines), || (0..COPIES).map(|_| rust()).collect::<String>())
}

/// The numbers of an enquiry without its distance, as a line has them.
fn scenario(q: &Enquiry) -> String {
    format!(
        "{} {} {} {} {} {} {} {}",
        q.burning_rate, q.absorption, q.heat_of_combustion, q.area, q.method, q.face, q.height, q.transmissivity
    )
}

/// A stand-off from a limit that every distance keeps.
fn whole_span(program: &str, name: &str, q: &Enquiry) -> bool {
    compared(program, name, &format!("standoff {KEPT} {}\n", scenario(q)), || {
        let (state, decimetres, low, high) = stand_off(REQUESTS, black_box(q), KEPT);
        format!("{state} {decimetres} {low} {high}\n")
    })
}

/// A walk from a limit that no place keeps: 64 rows of 64 places, all in the span.
fn whole_grid(program: &str, name: &str, q: &Enquiry) -> bool {
    let grid = Grid { rows: 64, points: 64, spacing: 300, east: 6_100, north: 0 };
    let Grid { rows, points, spacing, east, north } = grid;
    compared(program, name, &format!("place 0 {rows} {points} {spacing} {east} {north} {}\n", scenario(q)), || {
        let (state, row, place, low, high) = first_free_place(REQUESTS, black_box(q), 0, &grid);
        format!("{state} {row} {place} {low} {high}\n")
    })
}

/// The table of answers from a limit; true where all agree.
pub fn table(program: &str) -> bool {
    println!("| answer | Rattle, ms | Rust, ms | times faster |");
    println!("|---|---|---|---|");
    let enquiry = |fuel: [u64; 3], area, method, face, height, transmissivity| Enquiry {
        burning_rate: fuel[0],
        absorption: fuel[1],
        heat_of_combustion: fuel[2],
        area,
        method,
        rim_distance: 0,
        face,
        height,
        transmissivity,
    };
    let level = enquiry([39, 350, 432], 7_854, 1, 1, 0, 1_000);
    let agree = [
        whole_span(program, "stand-off, method 1, vertical, height 0", &level),
        whole_span(program, "stand-off, method 2, tilted, above the base", &enquiry([39, 350, 432], 7_854, 2, 3, 2_000, 900)),
        whole_span(program, "stand-off, method 3, horizontal, below the base", &enquiry([85, 120, 430], 7_854, 3, 2, -2_000, 850)),
        whole_span(program, "stand-off, method 3, tilted, above the flame", &enquiry([29, 377, 100], 100, 3, 3, 20_000, 1)),
        whole_grid(program, "place, method 1, vertical, height 0", &level),
    ];
    !agree.contains(&false)
}

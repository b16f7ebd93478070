// Times the proved calls against the reference's, on the same inputs in one run. `reference/bench` builds and runs it.
// The modules have calls that are not timed.
#![allow(dead_code)]

mod answer_card;
mod bench_calls;
mod blocks;
mod circle;
mod generate_cards;
mod generate_large;
mod generate_sections;
mod generate_shares;
mod geodesy;
mod grid;
mod kernel;
mod make_card;
mod plain;
mod proved;
mod random;
mod raster;
mod refusals;
mod stand_ins;
mod table;

use bench_calls::{Call, Side};
use std::hint::black_box;
use std::process::ExitCode;
use std::time::{Duration, Instant};

/// A call's name, and what makes its inputs.
struct Entry {
    name: String,
    make: Box<dyn Fn() -> Box<dyn Call>>,
}

fn entry(name: impl Into<String>, make: impl Fn() -> Box<dyn Call> + 'static) -> Entry {
    Entry { name: name.into(), make: Box::new(make) }
}

/// Kernels and circles on the globe's middle row, and kernels on a row near the pole.
const MIDDLE_ROW: u32 = 450;
const NORTH_ROW: u32 = 60;
const RADII: [u32; 4] = [50, 500, 3300, 20000];

fn list() -> Vec<Entry> {
    let mut list = vec![
        entry("sqrt", bench_calls::sqrt),
        entry("two_sum", bench_calls::two_sum),
        entry("rem_euclid", bench_calls::rem_euclid),
        entry("great_circle_km", bench_calls::great_circle_km),
        entry("digest_row", bench_calls::digest_row),
        entry("build_row", || bench_calls::build_row([0.0; 3])),
        entry("build_row_lakes", || bench_calls::build_row([0.0, -1.0, f32::INFINITY])),
    ];
    for km in RADII {
        list.push(entry(format!("kernel_{km}"), move || bench_calls::kernel(MIDDLE_ROW, f64::from(km))));
    }
    for km in &RADII[..3] {
        let (name, km) = (format!("kernel_row60_{km}"), f64::from(*km));
        list.push(entry(name, move || bench_calls::kernel(NORTH_ROW, km)));
    }
    for km in RADII {
        list.push(entry(format!("circle_{km}"), move || bench_calls::circle(MIDDLE_ROW, f64::from(km))));
    }
    list.push(entry("rectangle", bench_calls::rectangle));
    list.push(entry("worst_circle", bench_calls::worst_circle));
    list.push(entry("card", bench_calls::card));
    list
}

/// One turn of each side, each on inputs of its own, must leave the same bits.
fn same(entry: &Entry) -> bool {
    let left = |side| {
        let mut call = (entry.make)();
        call.turn(side);
        call.left()
    };
    left(Side::Proved) == left(Side::Rust)
}

fn elapsed(call: &mut dyn Call, side: Side, turns: u32) -> Duration {
    let began = Instant::now();
    for _ in 0..turns {
        black_box(&mut *call).turn(black_box(side));
    }
    began.elapsed()
}

/// The least nanoseconds a call of each side. The sides take turns in short rounds, and the best of each counts, so that
/// a busy machine harms neither.
fn nanoseconds(call: &mut dyn Call) -> [f64; 2] {
    let sides = [Side::Proved, Side::Rust];
    let longest = sides.map(|side| elapsed(call, side, 1)).into_iter().max().unwrap_or_default();
    let turns = (10_000_000 / longest.as_nanos().max(1)).clamp(1, 100_000) as u32;
    let mut best = [f64::MAX; 2];
    for _ in 0..21 {
        for (side, least) in sides.into_iter().zip(&mut best) {
            *least = least.min(elapsed(call, side, turns).as_nanos() as f64);
        }
    }
    best.map(|least| least / f64::from(turns) / call.calls() as f64)
}

fn time_all() -> ExitCode {
    println!("{:<18} {:>12} {:>12} {:>7}", "call", "proved ns", "rust ns", "ratio");
    for entry in list() {
        if !same(&entry) {
            eprintln!("{}: the two sides differ", entry.name);
            return ExitCode::FAILURE;
        }
        let [proved, rust] = nanoseconds(&mut *(entry.make)());
        println!("{:<18} {proved:>12.2} {rust:>12.2} {:>7.2}", entry.name, proved / rust);
    }
    ExitCode::SUCCESS
}

/// Turns of one side alone, for its instructions to be counted; prints how many calls they were. None where the words are
/// no use of it.
fn run_one(name: &str, side: &str, turns: &str) -> Option<ExitCode> {
    let entry = list().into_iter().find(|entry| entry.name == name)?;
    let side = match side {
        "proved" => Side::Proved,
        "rust" => Side::Rust,
        _ => return None,
    };
    let turns: u32 = turns.parse().ok()?;
    let mut call = (entry.make)();
    elapsed(&mut *call, side, turns);
    println!("{}", turns as usize * call.calls());
    Some(ExitCode::SUCCESS)
}

fn main() -> ExitCode {
    let words: Vec<String> = std::env::args().skip(1).collect();
    let words: Vec<&str> = words.iter().map(String::as_str).collect();
    let done = match words[..] {
        [] => Some(time_all()),
        ["names"] => {
            list().iter().for_each(|entry| println!("{}", entry.name));
            Some(ExitCode::SUCCESS)
        }
        [name, side, turns] => run_one(name, side, turns),
        _ => None,
    };
    done.unwrap_or_else(|| {
        eprintln!("usage: bench [names | NAME (proved | rust) TURNS]");
        ExitCode::from(2)
    })
}

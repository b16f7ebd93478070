// The reference's driver: writes lists of calls and answers them. README.md has the commands.
mod block_counts;
mod blocks;
mod build_calls;
mod calls;
mod cells;
mod circle;
mod circle_calls;
mod fetches;
mod generate;
mod generate_builds;
mod generate_grids;
mod generate_layouts;
mod generate_sphere;
mod generate_tables;
mod geodesy;
mod grid;
mod grid_calls;
mod in_blocks;
mod kernel;
mod lengths;
mod random;
mod raster;
mod refusals;
mod sample;
mod sample_blocks;
mod stand_ins;
mod table;
mod table_calls;
mod words;
mod zero_signs;
mod zeros;

use std::collections::BTreeMap;
use std::env;
use std::io::{self, BufReader, BufWriter, Write};
use std::process::ExitCode;
use words::{write_call, write_line, Reader};

fn main() -> ExitCode {
    let arguments: Vec<String> = env::args().skip(1).collect();
    let arguments: Vec<&str> = arguments.iter().map(String::as_str).collect();
    let done = match arguments[..] {
        ["answer"] => Some(answer()),
        ["sample"] => Some(sample()),
        ["counts"] => Some(counts()),
        ["fetches"] => {
            fetches::print();
            Some(Ok(()))
        }
        ["generate", seed, from, count] => generate(seed, from, count, "all"),
        ["generate", seed, from, count, module] => generate(seed, from, count, module),
        _ => None,
    };
    match done {
        Some(Ok(())) => ExitCode::SUCCESS,
        Some(Err(error)) => {
            eprintln!("driver: {error}");
            ExitCode::FAILURE
        }
        None => {
            eprintln!("usage: driver answer | sample | counts | fetches | generate SEED FROM COUNT [MODULE]");
            ExitCode::from(2)
        }
    }
}

/// Answers the calls on standard input, to the last whole one.
fn answer() -> io::Result<()> {
    let mut calls = Reader(BufReader::with_capacity(1 << 16, io::stdin().lock()));
    let mut out = BufWriter::with_capacity(1 << 16, io::stdout().lock());
    while let Some((number, words)) = calls.call() {
        write_line(&mut out, &calls::answer(number, &words))?;
    }
    out.flush()
}

/// What the calls on standard input, to the last whole one, have of each kind that a counter looks for: a line for each kind,
/// with the counter's name ahead.
fn counts() -> io::Result<()> {
    let (mut signs, mut blocks) = (zero_signs::Counts::new(), block_counts::Counts::default());
    let [mut lengths, mut cells, mut zeros] = [(); 3].map(|()| BTreeMap::new());
    let mut calls = Reader(BufReader::with_capacity(1 << 16, io::stdin().lock()));
    while let Some((number, words)) = calls.call() {
        zero_signs::count(&mut signs, number, &words);
        lengths::count(&mut lengths, number, &words);
        cells::count(&mut cells, number, &words);
        zeros::count(&mut zeros, number, &words);
        blocks.count(number, &words);
    }
    let mut out = BufWriter::new(io::stdout().lock());
    for (name, [lat, lon, both, step]) in signs {
        writeln!(out, "zero-signs {name} {lat} {lon} {both} {step}")?;
    }
    let counters = [("lengths", lengths), ("cells", cells), ("zeros", zeros), ("blocks", blocks.by_name)];
    for (counter, counts) in counters {
        counts.into_iter().try_for_each(|(name, count)| writeln!(out, "{counter} {name} {count}"))?;
    }
    out.flush()
}

/// The calls of a seed's list from number FROM on, where a build is several; None where the words are no such list.
fn generate(seed: &str, from: &str, count: &str, module: &str) -> Option<io::Result<()>> {
    let (seed, from, count): (u64, u64, u64) = (seed.parse().ok()?, from.parse().ok()?, count.parse().ok()?);
    let (numbers, end) = (generate::numbers_of(module)?, from.checked_add(count)?);
    let mut out = BufWriter::with_capacity(1 << 16, io::stdout().lock());
    let mut calls = (from..end).flat_map(|index| generate::calls(seed, index, &numbers));
    Some(calls.try_for_each(|call| write_call(&mut out, &call)).and_then(|()| out.flush()))
}

/// The calls of the stored sample.
fn sample() -> io::Result<()> {
    let mut out = BufWriter::new(io::stdout().lock());
    for call in sample::calls() {
        write_call(&mut out, &call)?;
    }
    out.flush()
}

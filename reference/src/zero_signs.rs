// How many calls of a list compare two grids that are equal as numbers and differ in the sign of a zero.
use crate::build_calls::builder;
use crate::grid::Grid;
use crate::grid_calls::grid;
use crate::refusals;
use crate::words::{list, Arguments};
use std::collections::BTreeMap;

/// For a call's number, with a word where its builder's factor is above 1: pairs that differ in the origin's latitude
/// alone, its longitude alone, both, and in a step.
pub type Counts = BTreeMap<String, [u64; 4]>;

/// The grids that a call compares: two that it is given, or a builder's coarse grid and the one that its source makes.
fn compared(number: u64, call: &[u64]) -> Option<(String, Grid, Grid)> {
    let two = |words: &[u64]| {
        let words = &mut Arguments(words);
        Some((format!("{number:x}"), grid(words), grid(words)))
    };
    match number {
        0x3c => two(call),
        0x51 | 0x52 => {
            let d = builder(list(call, 0)).decimation;
            let again = refusals::new_decimation(d.source, d.factor).ok()?;
            let decimated = if d.factor > 1 { "-decimated" } else { "" };
            Some((format!("{number:x}{decimated}"), d.grid, again.grid))
        }
        0x80 => two(list(call, 0)),
        _ => None,
    }
}

fn equal_numbers(a: &Grid, b: &Grid) -> bool {
    let floats = |g: &Grid| [g.origin.lat, g.origin.lon, g.lon_step, g.lat_step];
    a.width == b.width && a.height == b.height && floats(a) == floats(b)
}

pub fn count(counts: &mut Counts, number: u64, call: &[u64]) {
    let Some((name, a, b)) = compared(number, call).filter(|(_, a, b)| equal_numbers(a, b) && a != b) else {
        return;
    };
    let (a, b) = (a.float_bits(), b.float_bits());
    let kind = match (a[0] != b[0], a[1] != b[1], a[2..] != b[2..]) {
        (_, _, true) => 3,
        (true, true, false) => 2,
        (lat, _, false) => usize::from(!lat),
    };
    counts.entry(name).or_default()[kind] += 1;
}

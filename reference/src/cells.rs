// What the infinities and NaNs of a list's rows are tallied as, and which builders' tallies do not add up.
use crate::build_calls::{builder, lent_by};
use crate::in_blocks;
use crate::raster::CellTallies;
use crate::table_calls::cells_of;
use crate::words::{lent, list, Arguments};
use std::collections::BTreeMap;

/// By name: a tally and what the cell was; `at PLACE` where an unbounded one stood in its row; `22` and in which way the
/// tallies of a builder that is right but for them are wrong.
pub type Counts = BTreeMap<String, u64>;

fn add(counts: &mut Counts, name: &str) {
    *counts.entry(name.to_string()).or_default() += 1;
}

/// The mark and the cells of a row that is sanitised.
fn sanitised(number: u64, call: &[u64]) -> Option<(u32, Vec<u32>)> {
    let words = list(call, 0);
    let patterns = |row: &[u64]| row.iter().map(|&bits| bits as u32).collect();
    match number {
        0x40 => Some((Arguments(words).next() as u32, patterns(lent(call, 1)))),
        0x51 => {
            let (mut b, row) = (builder(words), lent(call, 5));
            let taken = in_blocks::build_row(&mut b, &mut cells_of(row), &mut lent_by(call).buffers());
            taken.ok().map(|()| (b.nodata, patterns(row)))
        }
        _ => None,
    }
}

fn count_cells(counts: &mut Counts, nodata: u32, row: &[u32]) {
    for (i, &bits) in row.iter().enumerate() {
        let (name, tally) = match bits {
            0x7f80_0000 => ("+infinity", "unbounded"),
            0xff80_0000 => ("-infinity", "negative"),
            _ if f32::from_bits(bits).is_nan() => ("nan", "zero"),
            _ => continue,
        };
        let marked = bits == nodata;
        add(counts, &format!("{} {name}", if marked { "nodata" } else { tally }));
        if tally == "unbounded" && !marked {
            let place = match (i == 0, i + 1 == row.len()) {
                (true, true) => "alone",
                (true, false) => "first",
                (false, true) => "last",
                (false, false) => "inside",
            };
            add(counts, &format!("at {place}"));
        }
    }
}

fn count_tallies(counts: &mut Counts, number: u64, call: &[u64]) {
    let b = builder(list(call, 0));
    let refusal = |tallies: CellTallies| {
        let (mut b, mut buffers) = (b, lent_by(call));
        b.tallies = tallies;
        if number == 0x52 {
            return in_blocks::finish(&b, &mut buffers.buffers()).err();
        }
        in_blocks::build_row(&mut b, &mut cells_of(lent(call, 5)), &mut buffers.buffers()).err()
    };
    let cells = u64::from(b.rows) * u64::from(b.decimation.source.width);
    let right = CellTallies { nodata: cells, ..CellTallies::default() };
    if refusal(b.tallies) != Some(22) || refusal(right) == Some(22) {
        return;
    }
    let fields = b.tallies.fields();
    let sum = |fields: &[u64]| fields.iter().fold(0u64, |sum, &field| sum.wrapping_add(field));
    add(counts, "22 sum");
    if sum(&fields) == cells {
        add(counts, "22 modulo");
    }
    if sum(&fields[..4]) == cells {
        add(counts, "22 four");
    }
}

pub fn count(counts: &mut Counts, number: u64, call: &[u64]) {
    if let Some((nodata, row)) = sanitised(number, call) {
        count_cells(counts, nodata, &row);
    }
    if number == 0x51 || number == 0x52 {
        count_tallies(counts, number, call);
    }
}

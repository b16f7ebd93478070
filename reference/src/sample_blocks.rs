// The stored sample's calls for document 02's C-16: tables of 7, 8 and 9 columns and rows with something past the edge, the
// limit of a list, and the map.
use crate::blocks::{self, payload_len};
use crate::generate_builds::{Lengths, Walk};
use crate::generate_grids::grid_words;
use crate::generate_layouts::{map_call, wrong_payloads, wrong_rows};
use crate::geodesy::LatLon;
use crate::grid::Grid;
use crate::sample::of_lists;
use crate::table::padded_len;

fn globe(width: u32, height: u32) -> Grid {
    let origin = LatLon { lat: 90.0, lon: -180.0 };
    let (lon_step, lat_step) = (360.0 / f64::from(width), -180.0 / f64::from(height));
    Grid { width, height, origin, lon_step, lat_step }
}

/// Whose tables end ahead of a block's end, at it and behind it, in either direction.
fn grids() -> Vec<Grid> {
    [7, 8, 9].iter().flat_map(|&width| [7, 8, 9].map(|height| globe(width, height))).collect()
}

/// Numbers of which no two are equal, nor two differences of neighbours.
fn numbered(length: usize) -> Vec<f64> {
    (0..length).map(|i| (i * i + 3) as f64).collect()
}

/// A table of such numbers, with these in turn past the edge.
fn table(g: &Grid, past: &[f64]) -> Vec<f64> {
    let mut table = blocks::to_blocks(g, &numbered(padded_len(g)));
    for (&place, &x) in blocks::edge(g).iter().zip(past.iter().cycle()) {
        table[place] = x;
    }
    table
}

const PAST: [f64; 6] = [f64::NAN, -0.0, 1.0, f64::INFINITY, f64::NEG_INFINITY, f64::MAX];

pub fn calls() -> Vec<Vec<u64>> {
    let mut calls = Vec::new();
    for g in grids() {
        calls.extend(build(&g, &g, 1));
        calls.push(rectangles(&g));
        calls.push(circles(&g));
        calls.extend(there_and_back(&g));
    }
    calls.extend(build(&globe(16, 16), &globe(8, 8), 2));
    calls.extend(build(&globe(18, 14), &globe(9, 7), 2));
    calls.extend(wrong_lengths());
    calls.push(full());
    calls
}

/// A start on a table that is full of something, its first row, and its last one: each with something past the edge.
fn build(source: &Grid, coarse: &Grid, factor: u32) -> Vec<Vec<u64>> {
    let row = |from: u32| -> Vec<u64> {
        (0..source.width).map(|i| u64::from(((from + i) as f32).to_bits())).collect()
    };
    let mut walk = Walk::new(source, 0x7ff0_0000_0000_0000 - 40, Lengths::of(source, coarse).right);
    walk.start(u64::from(factor), 0);
    for rows in [factor - 1, source.height - 1] {
        walk.stand_at(rows);
        walk.table_mut().copy_from_slice(&table(coarse, &PAST));
        walk.row(&row(rows + 1));
    }
    walk.finish();
    walk.calls
}

/// Bands and spans from a block to itself and to the next, the seam, and full turns.
fn rectangles(g: &Grid) -> Vec<u64> {
    let ends = |n: u32| [0, 6, u64::from(n) - 1];
    let mut questions = Vec::new();
    for (north, south) in [(0, 0), (0, 1), (1, 2), (0, 2), (2, 2)] {
        let (north, south) = (ends(g.height)[north], ends(g.height)[south]);
        for (west, east) in [(0, 0), (0, 1), (1, 2), (2, 2), (2, 0)] {
            questions.extend([north, south, 0, ends(g.width)[west], ends(g.width)[east]]);
        }
        questions.extend([north, south, 1, 0, 0]);
    }
    of_lists(0x60, &[&grid_words(g), &bits(&table(g, &PAST)), &[], &questions])
}

/// Around every column, with half-widths from 0 to a full turn.
fn circles(g: &Grid) -> Vec<u64> {
    let half_widths: Vec<u64> =
        (0..u64::from(g.height)).map(|row| row % u64::from(g.width / 2 + 1)).collect();
    let kernel = [3, 7000.0f64.to_bits(), 0, u64::from(g.height)];
    let words = [&grid_words(g)[..], &grid_words(g), &kernel].concat();
    let columns: Vec<u64> = (0..u64::from(g.width)).flat_map(|column| [column, 0, 0, 0, 0]).collect();
    of_lists(0x80, &[&words, &bits(&table(g, &PAST)), &half_widths, &columns])
}

fn bits(floats: &[f64]) -> Vec<u64> {
    floats.iter().map(|x| x.to_bits()).collect()
}

// ---- the map

/// Rows to blocks that are full of something, and back; and blocks with something past the edge to rows.
fn there_and_back(g: &Grid) -> [Vec<u64>; 3] {
    let mut rows = numbered(padded_len(g));
    (rows[1], rows[g.width as usize + 3]) = (f64::NAN, -0.0);
    let full = vec![7.0; payload_len(g) as usize];
    let none = vec![-1.0; rows.len()];
    [
        map_call(0x63, g, &rows, &full),
        map_call(0x64, g, &none, &blocks::to_blocks(g, &rows)),
        map_call(0x64, g, &none, &table(g, &PAST)),
    ]
}

/// Either length wrong in each way, both, and each beside a grid that is none.
fn wrong_lengths() -> Vec<Vec<u64>> {
    let g = globe(8, 2);
    let mut lengths: Vec<[usize; 2]> = wrong_rows(&g).map(|rows| [rows, payload_len(&g) as usize]).to_vec();
    lengths.extend(wrong_payloads(&g).map(|blocks| [padded_len(&g), blocks]));
    lengths.extend(wrong_rows(&g).iter().zip(wrong_payloads(&g)).map(|(&rows, blocks)| [rows, blocks]));
    let no_grid = Grid { lat_step: 1.0, ..g };
    let mut calls = Vec::new();
    for [rows, blocks] in lengths {
        let [rows, blocks] = [rows, blocks].map(numbered);
        calls.extend([0x63, 0x64].map(|number| map_call(number, &g, &rows, &blocks)));
    }
    for [rows, blocks] in [[27, 128], [27, 127], [26, 128], [0, 0]] {
        let [rows, blocks] = [rows, blocks].map(numbered);
        calls.extend([0x63, 0x64].map(|number| map_call(number, &no_grid, &rows, &blocks)));
    }
    calls
}

/// The longest table that a list holds: one row of 1,023 columns.
fn full() -> Vec<u64> {
    let g = globe(1023, 1);
    let questions = [[0, 0, 0, 0, 1022], [0, 0, 0, 1016, 7], [0, 0, 1, 0, 0]].concat();
    of_lists(0x60, &[&grid_words(&g), &bits(&table(&g, &PAST)), &[], &questions])
}

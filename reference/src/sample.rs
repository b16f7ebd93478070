// The stored sample: every call at the limits, then some of a seed's list.
use crate::blocks;
use crate::generate::{self, bits, numbers_of, HALVES, LIMITS, NANS};
use crate::generate_builds::{Lengths, Walk};
use crate::generate_grids::grid_words;
use crate::geodesy::LatLon;
use crate::grid::Grid;
use crate::sample_blocks;
use crate::table::FNV_OFFSET_BASIS;
use crate::words::listed;
use std::f64::consts::PI;

pub fn calls() -> Vec<Vec<u64>> {
    let mut floats: Vec<u64> = NANS.to_vec();
    for x in LIMITS {
        floats.extend([x.to_bits(), (-x).to_bits()]);
    }
    for x in [90.0f64, 91.0, 180.0, 181.0, PI, 1.0] {
        floats.extend([x.to_bits() + 1, x.to_bits() - 1, (-x).to_bits() + 1, (-x).to_bits() - 1]);
    }
    let mut calls = Vec::new();
    for number in [0x01, 0x06, 0x07, 0x0c, 0x20, 0x21, 0x23, 0x24, 0x25, 0x26, 0x29, 0x2a, 0x2b] {
        calls.extend(floats.iter().map(|&x| vec![number, x]));
    }
    for number in [0x05, 0x2c] {
        calls.extend(HALVES.iter().map(|&x| vec![number, x]));
    }
    calls.extend(pairs());
    calls.extend(points());
    for number in [0, 0xd, 0xf, 0x13, 0x1f, 0x2f, 0x3d, 0x41, 0x53, 0x65, 0x71, 0x81, u64::MAX] {
        calls.push(vec![number]);
    }
    calls.push(of_lists(0x12, &[&[FNV_OFFSET_BASIS], &[]]));
    calls.extend(examples());
    calls.extend(zeros());
    calls.extend(wrong_lengths());
    calls.extend(odd_cells());
    calls.extend(tallies());
    calls.extend(series_at_zero());
    calls.extend(sample_blocks::calls());
    for (module, count, longest) in SEEDED {
        let numbers = numbers_of(module).unwrap_or_default();
        let all = (0..).map(|index| generate::calls(1, index, &numbers));
        calls.extend(all.filter(|calls| calls.concat().len() <= longest).take(count).flatten());
    }
    calls
}

pub fn of_lists(number: u64, lists: &[&[u64]]) -> Vec<u64> {
    [vec![number], listed(lists)].concat()
}

/// How many of a seed's list, and the most words of one.
const SEEDED: [(&str, usize, usize); 10] = [
    ("float", 200, 60),
    ("digest", 60, 60),
    ("geodesy", 250, 60),
    ("grid", 900, 60),
    ("raster", 250, 28),
    ("build", 30, 900),
    ("rectangle", 150, 300),
    ("layout", 40, 300),
    ("kernel", 150, 60),
    ("circle", 60, 300),
];

/// The grid of document 01's example.
fn source() -> Grid {
    let origin = LatLon { lat: 90.0, lon: -180.0 };
    Grid { width: 4, height: 2, origin, lon_step: 90.0, lat_step: -90.0 }
}

/// Document 01's own example, and the cases that it names.
fn examples() -> Vec<Vec<u64>> {
    let example =
        |width: u64, lon: f64| [vec![width, 2], bits([90.0, lon, 360.0 / width as f64, -90.0])].concat();
    let grid = example(4, -180.0);
    let cell = |x: f32| u64::from(x.to_bits());
    let rows = [[1.0, 2.0, 3.0, 4.0], [5.0, -9999.0, -1.0, 0.0]].map(|row| row.map(cell));
    let nodata = cell(-9999.0);
    let of = |number: u64, rest: &[u64]| [vec![number], grid.clone(), rest.to_vec()].concat();
    let mut calls = vec![
        of(0x30, &[]),
        of(0x35, &[1, -5i64 as u64]),
        of(0x36, &bits([-90.0, 0.0])),
        [vec![0x36], example(4, 0.0), bits([0.0, -1e-20])].concat(),
        of(0x61, &[]),
        of(0x62, &bits([80.0, -80.0, -180.0, 180.0])),
        of(0x62, &bits([80.0, -80.0, 170.0, -170.0])),
        of(0x62, &bits([90.0, -90.0, -180.0, 180.0])),
        of_lists(0x40, &[&[nodata], &[nodata, cell(-0.0), cell(f32::INFINITY), cell(f32::NAN), cell(-1.0)]]),
        of_lists(0x40, &[&[0], &[0, cell(-0.0)]]),
    ];
    for width in [0, 1, 1_048_576, 1_048_577] {
        calls.push([vec![0x30, width, 1], bits([0.0, 0.0, 1e-5, -1.0])].concat());
        calls.push([vec![0x30, 1, width], bits([0.0, 0.0, 1.0, -1e-5])].concat());
    }
    // Built at factors 1 and 2, with the calls that are refused on the way; 0 and 3 are refused.
    for (factor, coarse) in [(1, 5), (2, 3), (0, 5), (3, 5)] {
        let mut walk = Walk::new(&source(), 0x4008_0000_0000_0000, [5, 5, coarse, 64]);
        walk.start(factor, nodata);
        walk.finish();
        walk.row(&rows[0]);
        walk.finish();
        walk.row(&[0, 0, 0]);
        walk.row(&rows[1]);
        walk.finish();
        walk.row(&[]);
        walk.finish();
        calls.extend(walk.calls);
    }
    let table = [0, 0, 0, 0, 0, 0, 1, 3, 6, 10, 0, 6, 8, 11, 15].map(f64::from);
    let table: Vec<u64> = blocks::to_blocks(&source(), &table).into_iter().map(f64::to_bits).collect();
    let questions =
        [[0, 0, 0, 3, 0], [0, 1, 1, 0, 0], [0, 1, 0, 1, 2], [1, 0, 1, 0, 0], [0, 2, 1, 0, 0]].concat();
    calls.push(of_lists(0x60, &[&grid, &table, &[], &questions]));
    for (row, column, km, widths) in [
        (0, 0, 7000.0, vec![1]),
        (0, 2, 1.0, vec![0]),
        (1, 3, 0.0, vec![]),
        (1, 3, -0.0, vec![]),
        (0, 0, 20016.0, vec![2, 2]),
        (2, 0, 5.0, vec![]),
    ] {
        let centre = [row, f64::to_bits(km)];
        calls.push(of_lists(0x70, &[&[&grid[..], &centre].concat(), &[9, 10]]));
        let words = [&grid[..], &grid, &centre, &[row, widths.len() as u64]].concat();
        let columns = [[column, 0, 0, 0, 0], [4, 0, 0, 0, 0]].concat();
        calls.push(of_lists(0x80, &[&words, &table, &widths, &columns]));
    }
    calls
}

/// Document 02's C-20: two grids whose origins have zeros of any signs, compared, as source and coarse grid of a builder,
/// and as a table's and a kernel's.
fn zeros() -> Vec<Vec<u64>> {
    let origins = [[0.0, 0.0], [-0.0, 0.0], [0.0, -0.0], [-0.0, -0.0]];
    let grid = |[lat, lon]: [f64; 2], k: u64| {
        [vec![4 / k, 2 / k], bits([lat, lon, 90.0 * k as f64, -45.0 * k as f64])].concat()
    };
    let columns = [[1, 0, 0, 0, 0], [4, 0, 0, 0, 0]].concat();
    let mut calls = Vec::new();
    for (a, b) in origins.iter().flat_map(|&a| origins.map(|b| (a, b))) {
        calls.push([vec![0x3c], grid(a, 1), grid(b, 1)].concat());
        for k in [1, 2] {
            let numbers = [k, 0, 0, FNV_OFFSET_BASIS, 0, 0, 0, 0, 0];
            let builder = [grid(a, 1), grid(b, k), numbers.to_vec()].concat();
            let coarse = vec![0; 4 / k as usize + 1];
            calls.push(of_lists(0x51, &[&builder, &[0; 5], &[0; 5], &coarse, &[0; 64], &[1, 2, 3, 4]]));
            calls.push(of_lists(0x52, &[&builder, &[0; 5], &[0; 5], &coarse, &[0; 64]]));
        }
        let words = [grid(a, 1), grid(b, 1), vec![0, 1.0f64.to_bits(), 0, 1]].concat();
        calls.push(of_lists(0x80, &[&words, &[0; 64], &[0], &columns]));
    }
    calls
}

/// Document 02's C-13: each set of wrong lengths, one shorter, one longer and 0, at a start, a row that is too short, a
/// finish before the last row and a row after it. Of the table alone and of all four, the ways of C-16 too.
fn wrong_lengths() -> Vec<Vec<u64>> {
    let origin = LatLon { lat: 90.0, lon: -180.0 };
    let source = Grid { width: 2, height: 2, origin, lon_step: 180.0, lat_step: -90.0 };
    let coarse = Grid { width: 1, height: 1, ..source };
    let row = [0x3f80_0000, 0];
    let mut calls = Vec::new();
    for (factor, grid) in [(1, &source), (2, &coarse)] {
        let asked = Lengths::of(&source, grid);
        let mut walk = Walk::new(&source, 1, asked.right);
        let kinds = |set: u64| 0..if set % 8 == 0 || set == 15 { 5 } else { 3 };
        let sets = (1..16).flat_map(|set| kinds(set).map(move |kind| asked.wrong(set, || kind)));
        let sets: Vec<[usize; 4]> = sets.collect();
        walk.start(factor, 0);
        sets.iter().for_each(|&lengths| walk.lending(lengths, |walk| walk.start(factor, 0)));
        sets.iter().for_each(|&lengths| walk.lending(lengths, |walk| walk.row(&[])));
        walk.row(&row);
        sets.iter().for_each(|&lengths| walk.lending(lengths, Walk::finish));
        walk.row(&row);
        sets.iter().for_each(|&lengths| walk.lending(lengths, |walk| walk.row(&[])));
        walk.finish();
        calls.extend(walk.calls);
    }
    calls
}

/// +infinity, −infinity, NaNs of either sign with payloads, and the largest number.
const ODD_CELLS: [u64; 6] = [0x7f80_0000, 0xff80_0000, 0x7f80_0001, 0x7fc0_0000, 0xffc0_0001, 0x7f7f_ffff];

/// Document 02's C-12: each of them at each place of a row, under a mark that is none of them and under each; and
/// +infinity at each place of a raster that is built at factors 1 and 2.
fn odd_cells() -> Vec<Vec<u64>> {
    let row = |from: u8| [1, 2, 3, 4].map(|i| u64::from(f32::from(from + i).to_bits()));
    let mut calls = Vec::new();
    for (cell, place) in ODD_CELLS.iter().flat_map(|&cell| [0, 1, 2, 3].map(|place| (cell, place))) {
        for nodata in [&[0xc61c_3c00], &ODD_CELLS[..]].concat() {
            let mut row = row(0);
            row[place] = cell;
            calls.push(of_lists(0x40, &[&[nodata], &row]));
        }
    }
    for (factor, coarse) in [(1, 5), (2, 3)] {
        for (place, nodata) in (0..8).flat_map(|place| [(place, 0xc61c_3c00), (place, ODD_CELLS[0])]) {
            let mut walk = Walk::new(&source(), 1, [5, 5, coarse, 64]);
            let mut cells = [row(0), row(4)].concat();
            cells[place] = ODD_CELLS[0];
            walk.start(factor, nodata);
            walk.row(&cells[..4]);
            walk.row(&cells[4..]);
            walk.finish();
            calls.extend(walk.calls);
        }
    }
    calls
}

/// Of a builder with one row of four cells in: all in one tally, one more and one fewer, and two tallies that add up
/// modulo 2^64 alone.
fn tallies() -> Vec<Vec<u64>> {
    let mut all = Vec::new();
    for field in 0..5 {
        for cells in [4, 5, 3] {
            let mut one = [0; 5];
            one[field] = cells;
            all.push(one);
        }
        for other in (0..5).filter(|&other| other != field) {
            let mut two = [0; 5];
            (two[field], two[other]) = (u64::MAX, 5);
            all.push(two);
        }
    }
    let grid = grid_words(&source());
    let lists = |tallies: &[u64; 5], number: u64| {
        let builder = [&grid[..], &grid, &[1, 0xc61c_3c00, 1, FNV_OFFSET_BASIS], tallies].concat();
        let row: &[u64] = &[0x3f80_0000; 4];
        let lists = [&builder[..], &[0; 5], &[0; 5], &[0; 5], &[0; 64], row];
        of_lists(number, &lists[..if number == 0x51 { 6 } else { 5 }])
    };
    all.iter().flat_map(|tallies| [lists(tallies, 0x51), lists(tallies, 0x52)]).collect()
}

/// Document 02's C-15: series that begin at 0 of either sign, beside it, and at the ends of the range.
fn series_at_zero() -> Vec<Vec<u64>> {
    let underflows = 1e-162; // its square
    let legs =
        [0.0, -0.0, f64::from_bits(1), f64::MIN_POSITIVE, underflows, 1.0, f64::MAX, f64::INFINITY, f64::NAN];
    let lats = [0.0, -0.0, f64::from_bits(1), underflows, 30.0];
    let edges = [0.0, -0.0, f64::from_bits(1), underflows, 30.0, f64::INFINITY, f64::NAN];
    let mut calls = Vec::new();
    for x in [underflows, -underflows] {
        calls.extend([0x20, 0x21].map(|number| vec![number, f64::to_bits(x)]));
    }
    for (y, x) in legs.iter().flat_map(|&y| legs.map(|x| (y, x))) {
        calls.push([vec![0x22], bits([y, x])].concat());
    }
    for (from, to) in lats.iter().flat_map(|&from| lats.map(|to| (from, to))) {
        for lon in [0.0, -0.0, underflows, 180.0] {
            let number = if lon == 0.0 { 0x27 } else { 0x28 };
            calls.push([vec![number], bits([from, 0.0, to, lon])].concat());
        }
    }
    for (north, south) in edges.iter().flat_map(|&north| edges.map(|south| (north, south))) {
        calls.push([vec![0x2e], bits([north, south, 360.0])].concat());
    }
    calls
}

/// Calls of two or three floats, at the cases that document 01 and the reference name.
fn pairs() -> Vec<Vec<u64>> {
    let tiny = f64::from_bits(1);
    let values = [
        [9007199254740992.0, 1.0],
        [1.0, 9007199254740992.0],
        [5.0, -7.0],
        [-0.0, 0.0],
        [0.0, -0.0],
        [f64::MAX, f64::MAX],
        [f64::MAX, tiny],
        [f64::MAX, 360.0],
        [-1e-20, 4.0],
        [-180.00000000000003, 360.0],
        [540.0, 360.0],
        [-540.0, -360.0],
        [7.0, 0.0],
        [f64::INFINITY, 360.0],
        [f64::NEG_INFINITY, f64::INFINITY],
        [5.0, f64::INFINITY],
        [f64::NAN, 1.0],
        [1.0, f64::NAN],
        [tiny, tiny],
        [-tiny, 1.0],
        [1.0, 1.0],
        [0.5, 1.0],
        [1.0, 0.5],
    ];
    let mut calls = Vec::new();
    for [x, y] in values {
        for number in [0x02, 0x03, 0x04, 0x22, 0x2d] {
            calls.push(vec![number, x.to_bits(), y.to_bits()]);
        }
        // Not where Rust leaves the answer open.
        if !(x.is_nan() || y.is_nan() || x == 0.0 && y == 0.0) {
            calls.extend([0x08, 0x09].map(|number| vec![number, x.to_bits(), y.to_bits()]));
        }
        for limit in [0, 1, 6, 0xffff_ffff] {
            calls.push(vec![0x0b, x.to_bits(), limit]);
        }
        if !x.is_nan() {
            calls.push(vec![0x0a, x.to_bits(), (-1.0f64).to_bits(), 1.0f64.to_bits()]);
        }
    }
    calls
}

/// Distances at the ends of their domain, zones, products and word steps.
fn points() -> Vec<Vec<u64>> {
    let past = |x: f64| f64::from_bits(x.to_bits() + 1);
    let mut calls = Vec::new();
    for lat in [0.0, -0.0, 90.0, -90.0, 91.0, -91.0, past(91.0), past(-91.0), f64::NAN] {
        for lon in [0.0, 180.0, -181.0, 181.0, past(181.0), past(-181.0), f64::INFINITY] {
            for number in [0x27, 0x28] {
                calls.push([vec![number], bits([lat, 0.0, 12.5, lon])].concat());
                calls.push([vec![number], bits([-45.0, lon, lat, 0.0])].concat());
            }
        }
        calls.push([vec![0x2e], bits([lat, 30.0, 0.25])].concat());
        calls.push([vec![0x2e], bits([60.0, lat, 360.0])].concat());
    }
    // Opposite points, where the haversine can round to above 1, and one place from both sides of a pole.
    for step in 0..30 {
        let (lat, past) = (f64::from(step) * 3.0, f64::from(step) / 29.0);
        calls.push([vec![0x27], bits([lat, 10.0, -lat, 190.0])].concat());
        calls.push([vec![0x28], bits([90.0 + past, 0.0, 90.0 - past, 180.0])].concat());
    }
    for a in [0, 1, 0xffff_ffff, 1 << 32, 0x1_0000_0001, u64::MAX, FNV_OFFSET_BASIS] {
        for b in [0, 0x100_0000_01b3, 0xffff_ffff, 1 << 32, u64::MAX] {
            calls.extend([vec![0x10, a, b], vec![0x11, a, b]]);
        }
    }
    calls
}

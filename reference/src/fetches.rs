// How many different stretches of 512 bytes, 64 cells, a circle's corners are read from, in row layout and in blocks of 8 by 8:
// what the card controller fetches (document 02, C-16).
use crate::blocks::{self, BLOCK};
use crate::circle;
use crate::geodesy::{LatLon, RadiusKm};
use crate::grid::{Col, Grid, Row};
use crate::kernel::Kernel;
use crate::random::Random;
use crate::table::{padded_len, ColSpan, Table};
use std::collections::BTreeSet;

/// The grid of `bench`: cells of a fifth of a degree.
fn globe() -> Grid {
    let origin = LatLon { lat: 90.0, lon: -180.0 };
    Grid { width: 1800, height: 900, origin, lon_step: 0.2, lat_step: -0.2 }
}

/// The table columns of a span's rectangles, first and last: two at the seam.
fn rectangles(cols: ColSpan, width: u32) -> Vec<[u32; 2]> {
    match cols {
        ColSpan::FullTurn => vec![[0, width]],
        ColSpan::Through { west, east } if west <= east => vec![[west.get(), east.get() + 1]],
        ColSpan::Through { west, east } => vec![[west.get(), width], [0, east.get() + 1]],
    }
}

/// The table row and column of each corner that a circle reads, in the order of `Table::rectangle`.
fn corners(kernel: &Kernel, half_widths: &[u32], centre: Col) -> Vec<[usize; 2]> {
    let mut corners = Vec::new();
    for placed in kernel.place(half_widths, centre).expect("a column of the globe") {
        let (row, cols) = placed.expect("a row of the globe");
        let north = row.get() as usize;
        for [first, last] in rectangles(cols, kernel.grid().width()) {
            let (first, last) = (first as usize, last as usize);
            corners.extend([[north + 1, last], [north, last], [north + 1, first], [north, first]]);
        }
    }
    corners
}

/// People by these corners, to see that they are those of the circle.
fn people(kernel: &Kernel, half_widths: &[u32], centre: Col, cells: &[f64], corners: &[[usize; 2]]) -> f64 {
    let wide = kernel.grid().width() as usize + 1;
    let mut rest = corners.chunks_exact(4).map(|corners| {
        let [south_east, north_east, south_west, north_west] =
            [0, 1, 2, 3].map(|k: usize| cells[corners[k][0] * wide + corners[k][1]]);
        south_east - north_east - south_west + north_west
    });
    let mut total = 0.0;
    for placed in kernel.place(half_widths, centre).expect("a column of the globe") {
        let (_, cols) = placed.expect("a row of the globe");
        let pieces = rectangles(cols, kernel.grid().width()).len();
        total += rest.by_ref().take(pieces).reduce(|west, east| west + east).expect("a rectangle");
    }
    total
}

/// Of so many different stretches, by where a cell stands.
fn stretches(corners: &[[usize; 2]], place: impl Fn(usize, usize) -> usize) -> usize {
    corners.iter().map(|&[row, col]| place(row, col) / BLOCK).collect::<BTreeSet<usize>>().len()
}

pub fn print() {
    let globe = globe();
    let mut random = Random(4);
    let cells: Vec<f64> = (0..padded_len(&globe)).map(|_| random.below(1_000_000_000) as f64).collect();
    let table = Table::new(globe, &cells).expect("the cells are the globe's");
    let (wide, centre) = (globe.width() as usize + 1, Col(900));
    println!("{:>4} {:>6} {:>6} {:>8} {:>10} {:>7}", "row", "km", "rows", "corners", "row layout", "blocks");
    for (row, km) in [450, 60].into_iter().flat_map(|row| [50u32, 500, 3300].map(|km| (row, km))) {
        let mut half_widths = vec![0; globe.height() as usize];
        let radius = RadiusKm::from(km);
        let kernel =
            Kernel::new(globe, Row(row), radius, &mut half_widths).expect("the globe's columns close");
        let corners = corners(&kernel, &half_widths, centre);
        let counted =
            circle::population(&table, &kernel, &half_widths, centre).expect("a column of the globe");
        let by_corners = people(&kernel, &half_widths, centre, &cells, &corners);
        assert!(counted.to_bits() == by_corners.to_bits(), "these are not the corners that a circle reads");
        let in_rows = stretches(&corners, |row, col| row * wide + col);
        let in_blocks = stretches(&corners, |row, col| blocks::place(&globe, row, col));
        println!("{row:>4} {km:>6} {:>6} {:>8} {in_rows:>10} {in_blocks:>7}", kernel.count, corners.len());
    }
}

// What `count` prints of a card of shares, in whole numbers: a cell is a number of units of 2^-scale, and a count is the
// sum over every cell that is covered. There is no table, and no float is added.
use crate::answer_card::{float, header, kernel, word, Header};
use crate::raster::{sanitise_row, CellTallies};
use crate::refusals::Refusal;
use std::fmt::Write as _;

/// The most units that a card may hold: 2^(53-scale) people.
pub const BOUND: u128 = 1 << 53;

/// A card's text, and of an accepted one what was met on it.
pub struct Answered {
    pub text: String,
    pub met: Option<Met>,
}

pub struct Met {
    pub factor: u32,
    pub units: u128,
    pub lent: Lent,
    pub circles_across_seam: u64,
}

/// The cells as they were lent: all are whole numbers of units, or an infinity or NaN is not, or a finite one is not.
#[derive(PartialEq)]
pub enum Lent {
    Whole,
    NotFinite,
    Fraction,
}

/// An error says that the card is not of shares at this scale, or that they are too many.
pub fn answer(card: &[u8], scale: u32) -> Result<Answered, String> {
    match header(card) {
        Ok(h) => report(card, &h, scale),
        Err(refused) => Ok(Answered { text: format!("refused {}\n", refused.number), met: None }),
    }
}

fn report(card: &[u8], h: &Header, scale: u32) -> Result<Answered, String> {
    let source = h.decimation.source;
    let at = |i: u32| word(card, h.rows_at + 4 * i as usize);
    let cells: Vec<u32> = (0..source.width * source.height).map(at).collect();
    let (kept, tallies) = kept(&cells, h.nodata, scale)?;
    let sum = kept.iter().sum();
    if sum > BOUND {
        return Err(format!("its cells are {sum} units of 2^-{scale}, and 2^53 are the most"));
    }
    let mut text = format!("rows {}\n", source.height);
    _ = writeln!(text, "cells {}", tallies.fields().map(|count| count.to_string()).join(" "));
    _ = writeln!(text, "total {}", shown(sum, scale));
    let mut circles_across_seam = 0;
    for i in 0..h.circles {
        let circle = circle(card, h, i);
        circles_across_seam += u64::from(circle.as_ref().is_ok_and(Circle::crosses_seam));
        _ = match circle {
            Ok(circle) => writeln!(text, "circle {i} {}", shown(circle.units(h, &kept), scale)),
            Err(number) => writeln!(text, "circle {i} refused {number}"),
        };
    }
    let met = Met { factor: h.decimation.factor, units: sum, lent: lent(&cells, scale), circles_across_seam };
    Ok(Answered { text, met: Some(met) })
}

// ---- cells

/// The units that are kept of each cell, and the tallies. The rule goes cell by cell, so one row may stand for all.
fn kept(cells: &[u32], nodata: u32, scale: u32) -> Result<(Vec<u128>, CellTallies), String> {
    let mut values: Vec<f32> = cells.iter().map(|&cell| f32::from_bits(cell)).collect();
    let mut tallies = CellTallies::default();
    sanitise_row(&mut values, nodata, &mut tallies);
    let units = |value: f32| {
        let wrong = || format!("its cell {value:e} is no whole number of units of 2^-{scale}");
        units(value.to_bits(), scale).ok_or_else(wrong)
    };
    Ok((values.into_iter().map(units).collect::<Result<_, _>>()?, tallies))
}

/// How many units a finite cell is, whatever its sign; None where a part of one is left.
fn units(cell: u32, scale: u32) -> Option<u128> {
    let (exponent, fraction) = (cell >> 23 & 0xff, u128::from(cell & 0x7f_ffff));
    let (digits, power) = if exponent == 0 { (fraction, 1) } else { (fraction | 1 << 23, exponent) };
    // The cell is digits × 2^(power - 150). A move by 64 is enough: up, it is past the bound; down, nothing is left of it.
    let up = power + scale;
    if up >= 150 {
        return Some(digits << (up - 150).min(64));
    }
    let down = (150 - up).min(64);
    Some(digits >> down).filter(|units| units << down == digits)
}

fn lent(cells: &[u32], scale: u32) -> Lent {
    let finite = |&&cell: &&u32| f32::from_bits(cell).is_finite();
    if cells.iter().filter(finite).any(|&cell| units(cell, scale).is_none()) {
        Lent::Fraction
    } else if cells.iter().all(|cell| finite(&cell)) {
        Lent::Whole
    } else {
        Lent::NotFinite
    }
}

// ---- circles

/// A kernel laid on a column of the coarse grid.
struct Circle {
    width: u32,
    column: u32,
    north: u32,
    half_widths: Vec<u32>,
}

/// 18, 19, 15, 17, 16, or the circle.
fn circle(card: &[u8], h: &Header, number: usize) -> Result<Circle, Refusal> {
    let at = h.circles_at + 16 * number;
    let grid = h.decimation.grid;
    let mut half_widths = vec![0; grid.height as usize];
    let kernel = kernel(&grid, word(card, at), float(card, at + 8), &mut half_widths)?;
    half_widths.truncate(kernel.count as usize);
    let column = word(card, at + 4);
    if column >= grid.width {
        return Err(16);
    }
    Ok(Circle { width: grid.width, column, north: kernel.north.0, half_widths })
}

impl Circle {
    /// A row of the kernel, and a column that is no farther from the centre than the half-width, either way around.
    fn covers(&self, row: u32, column: u32) -> bool {
        let half_width = row.checked_sub(self.north).and_then(|i| self.half_widths.get(i as usize));
        let apart = column.abs_diff(self.column);
        half_width.is_some_and(|&half_width| apart.min(self.width - apart) <= half_width)
    }

    fn units(&self, h: &Header, kept: &[u128]) -> u128 {
        let (width, factor) = (h.decimation.source.width, h.decimation.factor);
        let mut sum = 0;
        for (i, units) in (0..).zip(kept) {
            let (row, column) = (i / width, i % width);
            if self.covers(row / factor, column / factor) {
                sum += units;
            }
        }
        sum
    }

    /// Whether it covers the first and the last column of a row, and not all of them.
    fn crosses_seam(&self) -> bool {
        let crosses = |row: u32| {
            let open = (0..self.width).any(|column| !self.covers(row, column));
            open && self.covers(row, 0) && self.covers(row, self.width - 1)
        };
        (self.north..).take(self.half_widths.len()).any(crosses)
    }
}

// ---- numbers

/// So many units: in decimal where they are whole people, and else the bits of exactly that many.
fn shown(units: u128, scale: u32) -> String {
    if units % (1 << scale) == 0 {
        return format!("{}", units >> scale);
    }
    let first = units.ilog2();
    let exponent = u128::from(1023 + first - scale);
    // The first digit is not stored, and of at most 53 the others fit.
    let fraction = (units << (52 - first)) - (1 << 52);
    format!("bits {:016X}", exponent << 52 | fraction)
}

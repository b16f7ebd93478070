// Cards whose cells are shares of a person: each that is kept is a whole number of units of 2^-scale, and all of them are
// at most 2^53 units. Cells that are not kept stand among them, whatever they hold.
use crate::generate_cards::{circles, layout, not_finite, NODATA};
use crate::random::Random;

#[derive(Clone, Copy, PartialEq)]
pub enum Sort {
    Eighths,
    /// Units of 2^-20.
    Finest,
    /// Any scale from 0 to 20, and each cell at one of its own that is no finer.
    Mixture,
}

/// What a card's cells are made by.
#[derive(Clone, Copy)]
pub struct Shares {
    pub sort: Sort,
    pub scale: u32,
}

impl Shares {
    fn any(r: &mut Random) -> Self {
        match r.below(3) {
            0 => Self { sort: Sort::Eighths, scale: 3 },
            1 => Self { sort: Sort::Finest, scale: 20 },
            _ => Self { sort: Sort::Mixture, scale: r.below(21) as u32 },
        }
    }

    /// A number of units up to `most` that a cell can hold.
    fn part(self, r: &mut Random, most: u64) -> u64 {
        // Cells of all sizes, so that a sum needs all its digits.
        let smaller = if r.one_in(3) { r.below(53) } else { 0 };
        let coarser = if self.sort == Sort::Mixture { r.below(u64::from(self.scale) + 1) } else { 0 };
        short(r.below(most + 1) >> smaller) >> coarser << coarser
    }

    /// Exact: no part has more digits than an f32.
    fn cell(self, units: u64) -> u32 {
        (units as f32 / (1u32 << self.scale) as f32).to_bits()
    }
}

/// The most units.
const BOUND: u64 = 1 << 53;

/// The first 24 binary digits, which an f32 holds.
fn short(units: u64) -> u64 {
    let longer = (64 - units.leading_zeros()).saturating_sub(24);
    units >> longer << longer
}

/// What the cells are to add up to.
fn target(r: &mut Random, cells: u64, scale: u32) -> u64 {
    match r.below(8) {
        0 | 1 => r.below(BOUND) >> r.below(53),
        2 => r.below(256 * cells) << scale,
        3 => BOUND - r.below(BOUND / 2),
        4 => BOUND - r.below(4096),
        5 => BOUND - 1,
        _ => BOUND,
    }
}

/// Parts of a target. From three on they add up to it, for 53 digits are 24, 24 and 5 of them.
fn parts(r: &mut Random, shares: Shares, target: u64, count: u64) -> Vec<u64> {
    let halves = target == BOUND && r.one_in(2);
    let even = !r.one_in(4);
    let mut rest = target;
    let mut parts = Vec::new();
    for left in (1..=count).rev() {
        let part = match left {
            2.. if halves => rest / 2,
            1..=3 => short(rest),
            _ if even => shares.part(r, 2 * rest / left),
            _ => shares.part(r, rest),
        };
        rest -= part;
        parts.push(part);
    }
    parts
}

/// 2^-30, which is a part of every unit.
const TINY: f32 = 1.0 / 1073741824.0;

/// A mark that is no share, one that is, or one of the first parts, which are then not kept.
fn mark(r: &mut Random, shares: Shares, parts: &[u64]) -> u32 {
    let unit = f32::from_bits(shares.cell(1));
    match r.below(6) {
        0 | 1 => r.of(&NODATA),
        2 => not_finite(r),
        3 => r.of(&[unit / 2.0, unit * 0.75, TINY, 0.1, 1e-45]).to_bits(),
        4 => r.of(&[unit, 0.125, 1.0, 3.5, 255.0]).to_bits(),
        _ => shares.cell(parts.get(r.below(8) as usize).copied().unwrap_or(1)),
    }
}

/// A cell that is not kept: the mark, a zero, an infinity, a NaN, or anything with a sign.
fn not_kept(r: &mut Random, mark: u32) -> u32 {
    match r.below(8) {
        0..=2 => mark,
        3 => not_finite(r),
        4 => r.of(&[0.0f32, -0.0]).to_bits(),
        5 => r.of(&[-1e-45, -TINY, -0.1, -0.125, -1.0, f32::MIN]).to_bits(),
        _ => 0x8000_0000 | r.word() as u32,
    }
}

fn shuffle(r: &mut Random, cells: &mut [u32]) {
    for i in 1..cells.len() {
        cells.swap(i, r.below(i as u64 + 1) as usize);
    }
}

pub fn card(r: &mut Random) -> (Vec<u8>, Shares) {
    let layout = layout(r);
    let [width, height] = layout.size.map(u64::from);
    let shares = Shares::any(r);
    let most = r.of(&[0, width * height / 8, width * height / 3, width * height]);
    let dropped = r.below(most + 1);
    let target = target(r, width * height, shares.scale);
    let parts = parts(r, shares, target, width * height - dropped);
    let mark = mark(r, shares, &parts);
    let mut cells: Vec<u32> = parts.iter().map(|&units| shares.cell(units)).collect();
    cells.extend((0..dropped).map(|_| not_kept(r, mark)));
    shuffle(r, &mut cells);
    let count = r.below(9);
    let circles = circles(r, &layout, count);
    (layout.card(mark, &cells, &circles), shares)
}

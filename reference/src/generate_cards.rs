// Cards, good and damaged. Each depends on the seed and its own number alone.
use crate::generate_large;
use crate::generate_sections;
use crate::generate_shares::{self, Shares};
use crate::make_card::{placed, usual};
use crate::random::Random;

impl Random {
    pub fn of<T: Copy>(&mut self, list: &[T]) -> T {
        list[self.below(list.len() as u64) as usize]
    }

    pub fn one_in(&mut self, n: u64) -> bool {
        self.below(n) == 0
    }
}

#[rustfmt::skip]
pub const NODATA: [u32; 10] = [
    0xc61c_3c00, 0xc61c_3c00, 0, 0x8000_0000, 0x7fc0_0000, 0x7fc0_0001, 0xff7f_ffff, 0x3f80_0000, 0x7f80_0000, 0xff80_0000,
];

/// +infinity, −infinity, or a NaN with a payload.
pub fn not_finite(r: &mut Random) -> u32 {
    let nan = 0x7f80_0001 + r.below(0x7f_ffff) as u32;
    r.of(&[0x7f80_0000, 0x7f80_0000, 0xff80_0000, nan])
}

fn cell(r: &mut Random, nodata: u32, kind: u64) -> u32 {
    match (kind, r.below(40)) {
        (_, 0) => nodata,
        (_, 1) => r.of(&[0, 0x8000_0000, 0x7fc0_0000, 0x7fc0_0001, 0xffc0_0000, 1, 0x8000_0001, 0xbf80_0000]),
        (0 | 4, 2..=4) => not_finite(r),
        (0, _) | (1, _) => (r.below(2000) as f32).to_bits(),
        (2, _) => ((r.below(100_000) as f32) / 64.0).to_bits(),
        (3, _) => (r.below(1 << 40) as f32).to_bits(),
        (4, _) => r.word() as u32,
        _ => ((r.below(1 << 24) as f32) * 1024.0).to_bits(),
    }
}

fn radius(r: &mut Random) -> f64 {
    match r.below(16) {
        0 => r.of(&[0.0, -0.0, -1.0, f64::NAN, f64::INFINITY, f64::NEG_INFINITY, 1e-320, f64::MAX, -1e-300]),
        1 => r.of(&[20015.0, 20015.5, 20016.0, 10007.557, 20037.5]),
        2 => f64::from_bits(r.word()),
        3..=5 => r.below(20_016) as f64,
        6..=9 => r.below(2_000) as f64,
        _ => r.below(5_000_000) as f64 / 1000.0,
    }
}

/// A card without its cells, its mark and its circles.
pub struct Layout {
    pub size: [u32; 2],
    degrees: [f64; 4],
    factor: u32,
}

impl Layout {
    pub fn card(&self, nodata: u32, cells: &[u32], circles: &[u8]) -> Vec<u8> {
        self.card_at(nodata, cells, circles, usual(4 * cells.len()))
    }

    /// With its rows and circles at these offsets.
    pub fn card_at(&self, nodata: u32, cells: &[u32], circles: &[u8], at: [u32; 2]) -> Vec<u8> {
        let rows: Vec<u8> = cells.iter().flat_map(|cell| cell.to_le_bytes()).collect();
        placed(self.size, self.degrees, nodata, self.factor, &rows, circles, at)
    }
}

/// A side of a coarse grid: from 1 to `most`, or beside a multiple of 8, where a block of its table ends.
pub fn side(r: &mut Random, most: u64) -> u32 {
    if r.one_in(5) {
        r.of(&[6, 7, 8, 9, 10, 15, 16, 17])
    } else {
        r.below(most) as u32 + 1
    }
}

/// A layout that most of the checks pass.
pub fn layout(r: &mut Random) -> Layout {
    let factor = r.of(&[1, 1, 1, 2, 2, 3, 4, 5, 6]);
    let (mut width, mut height) = (side(r, 12), side(r, 8));
    if r.one_in(12) {
        (width, height) = (r.below(600 / u64::from(factor)) as u32 + 1, r.below(10) as u32 + 1);
    }
    layout_of(r, [width * factor, height * factor], factor)
}

/// Of this size and factor.
pub fn layout_of(r: &mut Random, size: [u32; 2], factor: u32) -> Layout {
    let [width, height] = size;
    let closes = !r.one_in(8);
    let mut lon_step = if closes { 360.0 / f64::from(width) } else { 300.0 / f64::from(width) };
    if r.one_in(4) {
        lon_step = -lon_step;
    }
    let lat = if r.one_in(2) { 90.0 } else { 90.0 - r.below(60) as f64 };
    let lat_step = -((lat + 90.0) / f64::from(height)) * r.of(&[1.0, 1.0, 0.5, 0.9]);
    let lon = r.of(&[-180.0, -180.0, 0.0, 179.99, 540.0, -180.00000000000003, 12.5]);
    Layout { size, degrees: [lat, lon, lon_step, lat_step], factor }
}

/// So many circles, on the grid and one step off it.
pub fn circles(r: &mut Random, layout: &Layout, count: u64) -> Vec<u8> {
    let [width, height] = layout.size;
    let mut circles = Vec::new();
    for _ in 0..count {
        let place = |r: &mut Random, n: u32| {
            let past = u64::from(r.one_in(9));
            r.below(u64::from(n / layout.factor) + past) as u32
        };
        let (row, col) = (place(r, height), place(r, width));
        circles.extend(row.to_le_bytes());
        circles.extend(col.to_le_bytes());
        circles.extend(radius(r).to_le_bytes());
    }
    circles
}

/// The cells of a card, of one of six kinds.
pub fn cells(r: &mut Random, layout: &Layout, nodata: u32) -> Vec<u32> {
    let kind = r.below(6);
    let [width, height] = layout.size;
    (0..width * height).map(|_| cell(r, nodata, kind)).collect()
}

/// A card that most of the checks pass.
fn good(r: &mut Random) -> Vec<u8> {
    let layout = layout(r);
    filled(r, &layout)
}

/// The layout with cells of one kind and up to eight circles.
pub fn filled(r: &mut Random, layout: &Layout) -> Vec<u8> {
    let nodata = r.of(&NODATA);
    let cells = cells(r, layout, nodata);
    let count = r.below(9);
    let circles = circles(r, layout, count);
    layout.card(nodata, &cells, &circles)
}

const WORDS: [u32; 12] = [0, 1, 2, 3, 7, 64, 90, 1023, 1024, 1_048_576, 1_048_577, u32::MAX];

#[rustfmt::skip]
const FLOATS: [f64; 20] = [
    0.0, -0.0, 1.0, -1.0, 45.0, 90.0, -90.0, 90.00000000000001, -90.00000000000001, 180.0, -180.0,
    -180.00000000000003, 360.0, 1e-9, -1e-9, 5e-324, f64::MAX, f64::NAN, f64::INFINITY, f64::NEG_INFINITY,
];

pub fn put(card: &mut [u8], at: usize, bytes: &[u8]) {
    if let Some(place) = card.get_mut(at..at + bytes.len()) {
        place.copy_from_slice(bytes);
    }
}

/// One damage: a field at a limit, a length, a byte, or sections that overlap or stand at the end.
pub fn damage(r: &mut Random, card: &mut Vec<u8>) {
    let length = card.len() as u32;
    match r.below(8) {
        0 => put(card, r.of(&[0, 4, 40, 44, 48, 52, 56, 60]), &r.of(&WORDS).to_le_bytes()),
        1 => put(card, r.of(&[8, 16, 24, 32]), &r.of(&FLOATS).to_le_bytes()),
        2 => {
            let to = r.of(&[0, 1, 59, 60, 63, 64, length.saturating_sub(1), length / 2]) as usize;
            card.truncate(to);
        }
        3 => put(card, r.below(u64::from(length.max(1))) as usize, &[r.word() as u8]),
        4 => {
            let at = r.of(&[48, 56]);
            let near = length.wrapping_sub(r.of(&[0, 1, 4, 16, 32])).wrapping_add(r.of(&[0, 1]));
            put(card, at, &near.to_le_bytes());
        }
        5 => {
            put(card, 52, &0u32.to_le_bytes());
            let near = length.wrapping_add(r.of(&[0, 1]));
            put(card, 56, &near.to_le_bytes());
        }
        6 => card.resize(r.of(&[65_535, 65_536, 65_537, 70_000]), 0),
        _ => put(card, r.of(&[0, 4, 44]), &(r.below(30) as u32).to_le_bytes()),
    }
}

/// Bytes of any length: of one card in sixteen all of them, and else those of the rows. Each field of the header is right
/// fifteen times in sixteen, so that every check is met, and so is every circle's.
fn random(r: &mut Random) -> Vec<u8> {
    let length = match r.below(32) {
        0 => r.below(65),
        1 => 65_530 + r.below(10),
        _ => r.below(70_001),
    } as usize;
    let mut card: Vec<u8> = (0..length.div_ceil(8)).flat_map(|_| r.word().to_le_bytes()).collect();
    card.truncate(length);
    if !r.one_in(16) && length >= 64 {
        random_header(r, &mut card);
    }
    card
}

fn random_header(r: &mut Random, card: &mut [u8]) {
    let factor = r.of(&[1, 1, 2, 3, 4, 7]);
    let side = |r: &mut Random, most: u64| (r.below(most) + 1) as u32 * factor;
    let (width, height) = if r.one_in(8) { (side(r, 700), side(r, 3)) } else { (side(r, 12), side(r, 8)) };
    let lat = r.of(&[90.0, 90.0, 60.5, 0.0, -89.0]);
    let lon = r.of(&[-180.0, 0.0, 179.99, 540.0, -1e300]);
    let lon_step = limit(r, 360.0, width) * r.of(&[1.0, 1.0, -1.0, 0.5]);
    let lat_step = limit(r, lat + 90.0, height) * r.of(&[-1.0, -1.0, -0.5]);
    for (at, value) in [(8, lat), (16, lon), (24, lon_step), (32, lat_step)] {
        let value = if r.one_in(16) { any_float(r) } else { value };
        put(card, at, &value.to_le_bytes());
    }
    // A section stands anywhere in the card where it fits, over the header too.
    let length = card.len() as u64;
    let place = |r: &mut Random, size: u64| r.below(length.saturating_sub(size) + 1) as u32;
    let circles = r.below(12) as u32;
    let rows_at = place(r, 4 * u64::from(width) * u64::from(height));
    let circles_at = place(r, 16 * u64::from(circles));
    for _ in 0..r.below(8) {
        let place = r.below(u64::from(width) * u64::from(height)) as usize;
        put(card, rows_at as usize + 4 * place, &not_finite(r).to_le_bytes());
    }
    if r.one_in(4) {
        put(card, 40, &not_finite(r).to_le_bytes());
    }
    random_circles(r, card, [height / factor, width / factor], circles_at as usize, circles);
    let words =
        [(0, width), (4, height), (44, factor), (48, rows_at), (52, circles), (56, circles_at), (60, 0)];
    for (at, value) in words {
        let value = if r.one_in(16) { any_word(r) } else { value };
        put(card, at, &value.to_le_bytes());
    }
}

/// The step of so many cells over a span, or one at the end of the tolerance.
fn limit(r: &mut Random, span: f64, cells: u32) -> f64 {
    let step = (span + r.of(&[0.0, 1e-9])) / f64::from(cells);
    f64::from_bits(step.to_bits() + r.below(5) - 2)
}

fn random_circles(r: &mut Random, card: &mut [u8], size: [u32; 2], at: usize, count: u32) {
    for i in 0..count as usize {
        for (place, cells) in [(0, size[0]), (4, size[1])] {
            let index = if r.one_in(16) { any_word(r) } else { r.below(u64::from(cells)) as u32 };
            put(card, at + 16 * i + place, &index.to_le_bytes());
        }
        let km = radius(r);
        put(card, at + 16 * i + 8, &km.to_le_bytes());
    }
}

fn any_word(r: &mut Random) -> u32 {
    match r.below(3) {
        0 => r.of(&WORDS),
        1 => r.below(5000) as u32,
        _ => r.word() as u32,
    }
}

fn any_float(r: &mut Random) -> f64 {
    if r.one_in(2) {
        r.of(&FLOATS)
    } else {
        f64::from_bits(r.word())
    }
}

#[derive(Clone, Copy)]
pub enum Kind {
    Good,
    Damaged,
    Random,
    /// The dearest card, and the dearest of one row.
    Worst,
    Wide,
    /// Good ones with up to two damages.
    Mixed,
    /// Cells that are shares of a person.
    Shares,
    /// Sections that touch, overlap, contain each other, or lie over the header.
    Sections,
    /// Tables at the limit of 27, and sizes beside a multiple of 8.
    Tables,
}

impl Kind {
    pub fn named(name: &str) -> Option<Self> {
        match name {
            "good" => Some(Self::Good),
            "damaged" => Some(Self::Damaged),
            "random" => Some(Self::Random),
            "worst" => Some(Self::Worst),
            "wide" => Some(Self::Wide),
            "mixed" => Some(Self::Mixed),
            "shares" => Some(Self::Shares),
            "sections" => Some(Self::Sections),
            "tables" => Some(Self::Tables),
            _ => None,
        }
    }
}

pub fn card(seed: u64, number: u64, kind: Kind) -> Vec<u8> {
    card_and_shares(seed, number, kind).0
}

/// The card, and of one of shares what it was made by.
pub fn card_and_shares(seed: u64, number: u64, kind: Kind) -> (Vec<u8>, Option<Shares>) {
    let mut r = Random(seed.wrapping_mul(0x2545_f491_4f6c_dd1d) ^ number.wrapping_mul(0x9e37_79b9_7f4a_7c15));
    r.word();
    let card = match kind {
        Kind::Good => good(&mut r),
        Kind::Random => random(&mut r),
        Kind::Worst => generate_large::worst(&mut r, usize::MAX),
        Kind::Wide => generate_large::wide(&mut r),
        Kind::Sections => generate_sections::card(&mut r),
        Kind::Tables => generate_large::card(&mut r),
        Kind::Damaged | Kind::Mixed => {
            let mut card = good(&mut r);
            let damages = if matches!(kind, Kind::Damaged) { 1 + r.below(3) } else { r.below(3) };
            for _ in 0..damages {
                damage(&mut r, &mut card);
            }
            card
        }
        Kind::Shares => {
            let (card, shares) = generate_shares::card(&mut r);
            return (card, Some(shares));
        }
    };
    (card, None)
}

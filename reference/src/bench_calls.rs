// The calls that are timed. Each makes its inputs once, always the same; a turn puts all of them through one side.
use crate::blocks;
use crate::generate_cards::{self, Kind};
use crate::generate_large;
use crate::random::Random;
use crate::table::{padded_len, Buffers, FNV_OFFSET_BASIS};
use crate::{plain, proved};

#[derive(Clone, Copy)]
pub enum Side {
    Proved,
    Rust,
}

pub trait Call {
    fn turn(&mut self, side: Side);
    /// How many calls a turn makes, or cells, where a row's cells are what is paid for.
    fn calls(&self) -> usize;
    /// The bits of all that a first turn answered and left in what it was lent.
    fn left(&self) -> Vec<u64>;
}

/// Enough calls that a turn's own cost does not show, and few enough that what they read stays in the cache.
const COUNT: usize = 4096;
const RECTANGLES: usize = 256;
const CIRCLES: u32 = 32;
const WORST_CIRCLES: usize = 8;
const WIDE: usize = 1024;
/// So many that a processor hardly learns their branches, as it seems to where fewer come again and again.
const RASTER: usize = 64 * WIDE;

fn between(r: &mut Random, low: f64, high: f64) -> f64 {
    low + (high - low) * ((r.word() >> 11) as f64 / 9007199254740992.0)
}

fn bits(numbers: &[f64]) -> impl Iterator<Item = u64> + '_ {
    numbers.iter().map(|x| x.to_bits())
}

fn words(numbers: &[u32]) -> impl Iterator<Item = u64> + '_ {
    numbers.iter().map(|&x| u64::from(x))
}

// ---- a number for each input

struct Numbers<S, T, P, R> {
    shared: S,
    inputs: Vec<T>,
    answers: Vec<f64>,
    proved: P,
    rust: R,
}

fn numbers<S: 'static, T: Copy + 'static>(
    shared: S,
    inputs: Vec<T>,
    proved: impl Fn(&S, T) -> f64 + 'static,
    rust: impl Fn(&S, T) -> f64 + 'static,
) -> Box<dyn Call> {
    let answers = vec![0.0; inputs.len()];
    Box::new(Numbers { shared, inputs, answers, proved, rust })
}

impl<S, T: Copy, P: Fn(&S, T) -> f64, R: Fn(&S, T) -> f64> Call for Numbers<S, T, P, R> {
    fn turn(&mut self, side: Side) {
        let each = self.answers.iter_mut().zip(&self.inputs);
        match side {
            Side::Proved => each.for_each(|(answer, &input)| *answer = (self.proved)(&self.shared, input)),
            Side::Rust => each.for_each(|(answer, &input)| *answer = (self.rust)(&self.shared, input)),
        }
    }

    fn calls(&self) -> usize {
        self.inputs.len()
    }

    fn left(&self) -> Vec<u64> {
        bits(&self.answers).collect()
    }
}

/// Numbers above zero, over many exponents.
pub fn sqrt() -> Box<dyn Call> {
    let mut r = Random(1);
    let number = |_| between(&mut r, 1.0, 2.0) * between(&mut r, -300.0, 300.0).exp2();
    let inputs = (0..COUNT).map(number).collect();
    numbers((), inputs, |(), x| proved::sqrt(x), |(), x| plain::sqrt(x))
}

fn pairs() -> Vec<[f64; 2]> {
    let mut r = Random(2);
    (0..COUNT).map(|_| [(); 2].map(|()| between(&mut r, -1e6, 1e6))).collect()
}

pub fn two_sum() -> Box<dyn Call> {
    numbers((), pairs(), |(), [a, b]| proved::two_sum(a, b), |(), [a, b]| plain::two_sum(a, b))
}

pub fn rem_euclid() -> Box<dyn Call> {
    numbers(360.0, pairs(), |m, [x, _]| proved::rem_euclid(x, *m), |m, [x, _]| plain::rem_euclid(x, *m))
}

/// No two longitudes are more than 180 apart: the proved call would refuse them.
pub fn great_circle_km() -> Box<dyn Call> {
    let mut r = Random(3);
    let point = |r: &mut Random| (between(r, -90.0, 90.0), between(r, -90.0, 90.0));
    let inputs = (0..COUNT).map(|_| (point(&mut r), point(&mut r))).collect();
    numbers(
        (),
        inputs,
        |(), (from, to)| proved::great_circle_km(from.0, from.1, to.0, to.1),
        |(), (from, to)| plain::great_circle_km(from.0, from.1, to.0, to.1),
    )
}

/// A table as each side takes it: the reference in row layout, the proved calls in blocks.
struct Table {
    rows: Vec<f64>,
    blocks: Vec<f64>,
}

/// A table over the globe. Its cells are whole, as a raster's counts make them, and otherwise anything.
fn table() -> Table {
    let (globe, mut r) = (plain::globe(), Random(4));
    let rows: Vec<f64> = (0..padded_len(&globe)).map(|_| r.below(1_000_000_000) as f64).collect();
    Table { blocks: blocks::to_blocks(&globe, &rows), rows }
}

/// Circles around columns all over a row, by one kernel, which the reference makes for both sides.
pub fn circle(row: u32, km: f64) -> Box<dyn Call> {
    let mut widths = vec![0; 900];
    let kernel = plain::new_kernel(row, km, &mut widths).expect("the row and the radius are the globe's");
    let columns = (0..CIRCLES).map(|i| i * 56).collect();
    numbers(
        (table(), kernel.north.get(), kernel.count, widths),
        columns,
        |(table, north, count, widths), column| proved::circle(&table.blocks, *north, *count, widths, column),
        |(table, north, count, widths), column| plain::circle(&table.rows, *north, *count, widths, column),
    )
}

/// Rectangles of any size, of which half go across the seam.
pub fn rectangle() -> Box<dyn Call> {
    let mut r = Random(5);
    let two = |r: &mut Random, most: u64| [r.below(most) as u32, r.below(most) as u32];
    let inputs = (0..RECTANGLES).map(|_| (two(&mut r, 900), two(&mut r, 1800)));
    let inputs = inputs.map(|([a, b], [west, east])| [a.min(b), a.max(b), west, east]).collect();
    numbers(
        table(),
        inputs,
        |table, [north, south, west, east]| proved::rectangle(&table.blocks, north, south, west, east),
        |table, [north, south, west, east]| plain::rectangle(&table.rows, north, south, west, east),
    )
}

// ---- rows

struct DigestRow {
    cells: Vec<u32>,
    digest: u64,
}

pub fn digest_row() -> Box<dyn Call> {
    let mut r = Random(6);
    Box::new(DigestRow { cells: (0..COUNT).map(|_| r.word() as u32).collect(), digest: 0 })
}

impl Call for DigestRow {
    fn turn(&mut self, side: Side) {
        self.digest = match side {
            Side::Proved => proved::digest_row(FNV_OFFSET_BASIS, &self.cells),
            Side::Rust => plain::digest_row(FNV_OFFSET_BASIS, &self.cells),
        };
    }

    fn calls(&self) -> usize {
        self.cells.len()
    }

    fn left(&self) -> Vec<u64> {
        vec![self.digest]
    }
}

/// The raster stands here twice, since one side takes a row as bits and the other as floats; so does the table.
struct BuildRow {
    raster: Vec<u32>,
    floats: Vec<f32>,
    row: Vec<u32>,
    float_row: Vec<f32>,
    acc: Vec<f64>,
    corr: Vec<f64>,
    coarse: Vec<f64>,
    table: Table,
    digest: u64,
}

/// Of eight cells, in any order: one unknown, three `empty` and four populated.
pub fn build_row(empty: [f32; 3]) -> Box<dyn Call> {
    let mut r = Random(7);
    let floats: Vec<f32> = (0..RASTER)
        .map(|_| match r.below(8) {
            0 => f32::from_bits(plain::NODATA),
            i @ 1..=3 => empty[i as usize - 1],
            _ => between(&mut r, 0.0, 1000.0) as f32,
        })
        .collect();
    let rows = vec![0.0; padded_len(&plain::wide_grid())];
    Box::new(BuildRow {
        raster: floats.iter().map(|x| x.to_bits()).collect(),
        floats,
        row: vec![0; WIDE],
        float_row: vec![0.0; WIDE],
        acc: vec![0.0; WIDE + 1],
        corr: vec![0.0; WIDE + 1],
        coarse: vec![0.0; WIDE + 1],
        table: Table { blocks: blocks::to_blocks(&plain::wide_grid(), &rows), rows },
        digest: 0,
    })
}

impl Call for BuildRow {
    /// Each row is copied first, for the call writes to it. The sums start anew, so that every turn is the same.
    fn turn(&mut self, side: Side) {
        self.acc.fill(0.0);
        self.corr.fill(0.0);
        self.digest = FNV_OFFSET_BASIS;
        let table = match side {
            Side::Proved => &mut self.table.blocks,
            Side::Rust => &mut self.table.rows,
        };
        let mut lent = Buffers { acc: &mut self.acc, corr: &mut self.corr, coarse: &mut self.coarse, table };
        match side {
            Side::Proved => {
                for row in self.raster.chunks_exact(WIDE) {
                    self.row.copy_from_slice(row);
                    self.digest = proved::build_row(self.digest, &mut self.row, &mut lent);
                }
            }
            Side::Rust => {
                for row in self.floats.chunks_exact(WIDE) {
                    self.float_row.copy_from_slice(row);
                    self.digest = plain::build_row(self.digest, &mut self.float_row, &mut lent);
                }
            }
        }
    }

    fn calls(&self) -> usize {
        self.raster.len()
    }

    /// After a first turn, the row and the table of the side that was not asked have zeros, so either side's are the two
    /// together.
    fn left(&self) -> Vec<u64> {
        let row = self.row.iter().zip(&self.float_row).map(|(cell, float)| u64::from(cell | float.to_bits()));
        let rows = blocks::to_blocks(&plain::wide_grid(), &self.table.rows);
        let table = bits(&self.table.blocks).zip(bits(&rows)).map(|(proved, rust)| proved | rust);
        let lent = [&self.acc, &self.corr, &self.coarse].into_iter().flat_map(|part| bits(part));
        [self.digest].into_iter().chain(row).chain(lent).chain(table.collect::<Vec<u64>>()).collect()
    }
}

// ---- a kernel, a card

struct Kernel {
    row: u32,
    km: f64,
    half_widths: Vec<u32>,
    north: u64,
}

pub fn kernel(row: u32, km: f64) -> Box<dyn Call> {
    Box::new(Kernel { row, km, half_widths: vec![7; 900], north: 0 })
}

impl Call for Kernel {
    fn turn(&mut self, side: Side) {
        self.north = match side {
            Side::Proved => proved::kernel(self.row, self.km, &mut self.half_widths),
            Side::Rust => plain::kernel(self.row, self.km, &mut self.half_widths),
        };
    }

    fn calls(&self) -> usize {
        1
    }

    fn left(&self) -> Vec<u64> {
        [self.north].into_iter().chain(words(&self.half_widths)).collect()
    }
}

struct Card {
    card: Vec<u8>,
    /// What is paid for: the card, or its circles.
    calls: usize,
    out: Vec<u8>,
    length: usize,
}

/// The dearest card of one row. No text is longer than `out`.
pub fn card() -> Box<dyn Call> {
    let card = generate_cards::card(1, 0, Kind::Wide);
    Box::new(Card { card, calls: 1, out: vec![0; 150_000], length: 0 })
}

/// A few circles of the dearest card, which has 3,324 and takes seconds.
pub fn worst_circle() -> Box<dyn Call> {
    let card = generate_large::worst(&mut Random(8), WORST_CIRCLES);
    Box::new(Card { card, calls: WORST_CIRCLES, out: vec![0; 1000], length: 0 })
}

impl Call for Card {
    fn turn(&mut self, side: Side) {
        self.length = match side {
            Side::Proved => proved::card_answer(&self.card, &mut self.out),
            Side::Rust => plain::card_answer(&self.card, &mut self.out),
        };
    }

    fn calls(&self) -> usize {
        self.calls
    }

    fn left(&self) -> Vec<u64> {
        [self.length as u64].into_iter().chain(self.out.iter().map(|&byte| u64::from(byte))).collect()
    }
}

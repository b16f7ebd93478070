// A card read as document 01 says, with document 02's C-16 and C-17, and what `count` prints of it, by the copies of the
// reference's modules: its table is in row layout here.
use crate::blocks::payload_len;
use crate::geodesy::{LatLon, RadiusError, RadiusKm};
use crate::grid::{Col, Grid, Row};
use crate::kernel::Kernel;
use crate::refusals::{self, KernelFields, Refusal};
use crate::table::{self, Buffers, Decimation};
use std::fmt::Write as _;
use std::ops::Range;

pub struct Header {
    pub decimation: Decimation,
    pub nodata: u32,
    pub rows_at: usize,
    pub circles: usize,
    pub circles_at: usize,
}

pub fn word(card: &[u8], at: usize) -> u32 {
    u32::from_le_bytes(card[at..at + 4].try_into().unwrap())
}

pub fn float(card: &[u8], at: usize) -> f64 {
    f64::from_le_bytes(card[at..at + 8].try_into().unwrap())
}

/// The byte ranges that a card's words give to header, rows and circles: any ranges, which the checks are to look at.
pub struct Sections {
    pub header: Range<u128>,
    pub rows: Range<u128>,
    pub circles: Range<u128>,
}

impl Sections {
    pub fn of(card: &[u8]) -> Self {
        let section = |at: usize, length: u128| {
            let start = u128::from(word(card, at));
            start..start + length
        };
        Self {
            header: 0..64,
            rows: section(48, 4 * u128::from(word(card, 0)) * u128::from(word(card, 4))),
            circles: section(56, 16 * u128::from(word(card, 52))),
        }
    }

    pub fn overlap(&self) -> bool {
        let Self { header, rows, circles } = self;
        overlap(header, rows) || overlap(header, circles) || overlap(rows, circles)
    }
}

/// A byte of both is at or behind both starts and ahead of both ends.
pub fn overlap(a: &Range<u128>, b: &Range<u128>) -> bool {
    a.start.max(b.start) < a.end.min(b.end)
}

pub fn inside(card: &[u8], section: &Range<u128>) -> bool {
    section.end <= card.len() as u128
}

/// The checks of a card, in their order.
#[derive(Clone, Copy, PartialEq, Eq, PartialOrd, Ord)]
pub enum Check {
    Length,
    Header,
    Word,
    Grid,
    Factor,
    Coarse,
    Table,
    Sections,
    Overlap,
}

/// A card's refusal, and the check that it comes from.
#[derive(Clone, Copy, PartialEq, Eq, PartialOrd, Ord)]
pub struct Refused {
    pub check: Check,
    pub number: Refusal,
}

impl Refused {
    pub fn cause(self) -> &'static str {
        match (self.number, self.check) {
            (1, _) => "width or height 0",
            (2, _) => "width or height over 1,048,576",
            (3, _) => "origin not finite",
            (4, _) => "origin latitude outside ±90",
            (5, _) => "a step not finite",
            (6, _) => "a step of 0",
            (7, _) => "lat_step above 0",
            (8, _) => "the south edge is below -90",
            (9, _) => "the columns are more than 360 degrees wide",
            (10, _) => "the factor is 0, or does not divide width and height",
            (25, Check::Header) => "shorter than its header",
            (25, _) => "rows or circles past the card's end",
            (26, _) => "the word at 60 is not zero",
            (32, _) => "two of header, rows and circles overlap",
            (_, Check::Length) => "longer than 65,536 bytes",
            _ => "64 × ⌈(width + 1) / 8⌉ × ⌈(height + 1) / 8⌉ over 8,192",
        }
    }

    /// The number, and the check where more than one has it.
    pub fn label(self) -> String {
        match self.check {
            Check::Length => "27 (length)".to_string(),
            Check::Header => "25 (header)".to_string(),
            Check::Coarse => format!("{} (coarse)", self.number),
            Check::Table => "27 (table)".to_string(),
            Check::Sections => "25 (sections)".to_string(),
            Check::Word | Check::Grid | Check::Factor | Check::Overlap => self.number.to_string(),
        }
    }
}

/// The most places that a source table may take, whatever the factor.
pub const MOST_PLACES: u128 = 8192;

/// The order of documents 01 and 02: 27 (length), 25 (header), 26, 1 to 9, 10 with the coarse grid's own 1 to 9, 27 (table),
/// 25 (sections), 32.
pub fn header(card: &[u8]) -> Result<Header, Refused> {
    if card.len() > 65536 {
        return Err(Refused { check: Check::Length, number: 27 });
    }
    if card.len() < 64 {
        return Err(Refused { check: Check::Header, number: 25 });
    }
    if word(card, 60) != 0 {
        return Err(Refused { check: Check::Word, number: 26 });
    }
    let source = refusals::new_grid(Grid {
        width: word(card, 0),
        height: word(card, 4),
        origin: LatLon { lat: float(card, 8), lon: float(card, 16) },
        lon_step: float(card, 24),
        lat_step: float(card, 32),
    });
    let source = source.map_err(|number| Refused { check: Check::Grid, number })?;
    let decimation = refusals::new_decimation(source, word(card, 44)).map_err(|number| {
        let check = if number == 10 { Check::Factor } else { Check::Coarse };
        Refused { check, number }
    })?;
    if payload_len(&source) > MOST_PLACES {
        return Err(Refused { check: Check::Table, number: 27 });
    }
    let sections = Sections::of(card);
    if !inside(card, &sections.rows) || !inside(card, &sections.circles) {
        return Err(Refused { check: Check::Sections, number: 25 });
    }
    if sections.overlap() {
        return Err(Refused { check: Check::Overlap, number: 32 });
    }
    Ok(Header {
        decimation,
        nodata: word(card, 40),
        rows_at: word(card, 48) as usize,
        circles: word(card, 52) as usize,
        circles_at: word(card, 56) as usize,
    })
}

/// A count that is whole in 0 to 2^53, or its bits.
fn shown(x: f64) -> String {
    if (0.0..=9007199254740992.0).contains(&x) && x.fract() == 0.0 {
        format!("{}", x as u64)
    } else if x.is_nan() {
        "bits 7FF8000000000000".to_string()
    } else {
        format!("bits {:016X}", x.to_bits())
    }
}

/// 18, 19, 15, 17, or the kernel.
pub fn kernel(grid: &Grid, row: u32, km: f64, half_widths: &mut [u32]) -> Result<Kernel, Refusal> {
    if let Err(error) = RadiusKm::new(km) {
        return Err(match error {
            RadiusError::NotFinite => 18,
            RadiusError::Negative => 19,
        });
    }
    refusals::new_kernel(*grid, Row(row), km, half_widths)
}

/// 18, 19, 15, 17, 16, or the people.
fn people(grid: &Grid, cells: &[f64], row: u32, col: u32, km: f64) -> Result<f64, Refusal> {
    let mut half_widths = vec![0; grid.height as usize];
    let kernel = kernel(grid, row, km, &mut half_widths)?;
    let fields = KernelFields { grid: *grid, centre: row, km, north: kernel.north.0, count: kernel.count };
    refusals::circle_population(grid, cells, fields, &half_widths, Col(col))
}

fn report(card: &[u8], h: &Header) -> Result<String, Refusal> {
    let (source, coarse) = (h.decimation.source, h.decimation.grid);
    let width = source.width as usize;
    let (mut acc, mut corr) = (vec![0.0; width + 1], vec![0.0; width + 1]);
    let mut narrow = vec![0.0; coarse.width as usize + 1];
    let mut cells = vec![0.0; table::padded_len(&coarse)];
    let mut lent = Buffers { acc: &mut acc, corr: &mut corr, coarse: &mut narrow, table: &mut cells };
    let mut builder = refusals::start(source, h.decimation.factor, h.nodata, &mut lent)?;
    for row in 0..source.height as usize {
        let at = |column: usize| f32::from_bits(word(card, h.rows_at + 4 * (row * width + column)));
        let mut values: Vec<f32> = (0..width).map(at).collect();
        refusals::build_row(&mut builder, &mut values, &mut lent)?;
    }
    let built = refusals::finish(&builder, &lent)?;
    let mut text = format!("rows {}\n", source.height);
    _ = writeln!(text, "cells {}", built.tallies.fields().map(|count| count.to_string()).join(" "));
    _ = writeln!(text, "total {}", shown(built.total));
    for i in 0..h.circles {
        let at = h.circles_at + 16 * i;
        _ = match people(&coarse, &cells, word(card, at), word(card, at + 4), float(card, at + 8)) {
            Ok(x) => writeln!(text, "circle {i} {}", shown(x)),
            Err(n) => writeln!(text, "circle {i} refused {n}"),
        };
    }
    Ok(text)
}

pub fn answer(card: &[u8]) -> String {
    header(card)
        .map_err(|refused| refused.number)
        .and_then(|h| report(card, &h))
        .unwrap_or_else(|number| format!("refused {number}\n"))
}

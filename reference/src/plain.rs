// The reference's calls in the form of the proved ones, on the same records. None is put into the loop that calls it, for a
// linked call is not either.
use crate::geodesy::{self, LatLon};
use crate::grid::{Col, Grid, Row};
use crate::kernel::Kernel;
use crate::raster::CellTallies;
use crate::refusals::{self, KernelFields, Refusal};
use crate::table::{self, Buffers, Builder, ColSpan, Decimation, RowBand};
use crate::{answer_card, stand_ins};

/// The mark of the wide raster: −9999.
pub const NODATA: u32 = 0xc61c_3c00;

/// 1,024 columns around the globe, and two rows.
pub fn wide_grid() -> Grid {
    let origin = LatLon { lat: 90.0, lon: -180.0 };
    Grid { width: 1024, height: 2, origin, lon_step: 0.3515625, lat_step: -90.0 }
}

/// Cells of a fifth of a degree.
pub fn globe() -> Grid {
    let origin = LatLon { lat: 90.0, lon: -180.0 };
    Grid { width: 1800, height: 900, origin, lon_step: 0.2, lat_step: -0.2 }
}

#[inline(never)]
pub fn sqrt(x: f64) -> f64 {
    x.sqrt()
}

#[inline(never)]
pub fn two_sum(a: f64, b: f64) -> f64 {
    let (sum, dropped) = table::two_sum(a, b);
    sum + dropped
}

#[inline(never)]
pub fn rem_euclid(x: f64, m: f64) -> f64 {
    stand_ins::rem_euclid(x, m)
}

#[inline(never)]
pub fn great_circle_km(lat0: f64, lon0: f64, lat1: f64, lon1: f64) -> f64 {
    geodesy::great_circle_km(LatLon { lat: lat0, lon: lon0 }, LatLon { lat: lat1, lon: lon1 })
}

#[inline(never)]
pub fn digest_row(digest: u64, row: &[u32]) -> u64 {
    row.iter().fold(digest, |digest, &cell| table::mix(digest, cell))
}

/// A row call at factor 1 on a builder that has no row yet.
#[inline(never)]
pub fn build_row(digest: u64, row: &mut [f32], lent: &mut Buffers<'_>) -> u64 {
    let source = wide_grid();
    let mut builder = Builder {
        decimation: Decimation { factor: 1, source, grid: source },
        nodata: NODATA,
        rows: 0,
        digest,
        tallies: CellTallies::default(),
    };
    match refusals::build_row(&mut builder, row, lent) {
        Ok(()) => builder.digest,
        Err(number) => number,
    }
}

pub fn new_kernel(row: u32, km: f64, half_widths: &mut [u32]) -> Result<Kernel, Refusal> {
    refusals::new_kernel(globe(), Row(row), km, half_widths)
}

#[inline(never)]
pub fn kernel(row: u32, km: f64, half_widths: &mut [u32]) -> u64 {
    match new_kernel(row, km, half_widths) {
        Ok(kernel) => u64::from(kernel.north.get()),
        Err(number) => (1 << 32) + number,
    }
}

#[inline(never)]
pub fn circle(cells: &[f64], north: u32, count: u32, half_widths: &[u32], column: u32) -> f64 {
    let fields = KernelFields { grid: globe(), centre: north, km: 1.0, north, count };
    refusals::circle_population(&globe(), cells, fields, half_widths, Col(column)).unwrap_or(-1.0)
}

#[inline(never)]
pub fn rectangle(cells: &[f64], north: u32, south: u32, west: u32, east: u32) -> f64 {
    let rows = RowBand { north: Row(north), south: Row(south) };
    let cols = ColSpan::Through { west: Col(west), east: Col(east) };
    refusals::population(&globe(), cells, rows, cols).unwrap_or(-1.0)
}

/// The text's length; the text is at the start of `out`, which has room for it.
#[inline(never)]
pub fn card_answer(card: &[u8], out: &mut [u8]) -> usize {
    let text = answer_card::answer(card);
    out[..text.len()].copy_from_slice(text.as_bytes());
    text.len()
}

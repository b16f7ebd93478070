// Document 01's refusals around the reference's calls, in its order. A record may hold anything: one that its maker
// could not give is refused 22, ahead of all else. A call that is refused changes nothing that it is lent. A table is in row
// layout here, as the copies have it; `in_blocks.rs` takes it as it is lent.
use crate::circle;
use crate::geodesy::{LatBand, LatLon, RadiusKm};
use crate::grid::{Col, Grid, GridIndexError, LonSpan, Row};
use crate::kernel::{Kernel, KernelError};
use crate::table::{
    self, Buffers, Builder, BuiltTable, ColSpan, Decimation, RowBand, Table, TableError, Window,
};

/// A refusal's number.
pub type Refusal = u64;

pub const TABLE_LENGTH: Refusal = 11;
const ROW_LENGTH: Refusal = 12;
const ROW_AFTER_LAST: Refusal = 13;
const FINISH_BEFORE_LAST: Refusal = 14;
const ROW_OFF_GRID: Refusal = 15;
const COLUMN_OFF_GRID: Refusal = 16;
const GRIDS_DIFFER: Refusal = 21;
const NOT_ITS_MAKERS: Refusal = 22;
const NO_CELL: Refusal = 23;
const ACCUMULATOR_LENGTH: Refusal = 29;
const COARSE_LENGTH: Refusal = 30;

pub fn unless(fails: bool, number: Refusal) -> Result<(), Refusal> {
    if fails {
        Err(number)
    } else {
        Ok(())
    }
}

fn off_grid(error: GridIndexError) -> Refusal {
    error as Refusal
}

// ---- grids

pub fn new_grid(g: Grid) -> Result<Grid, Refusal> {
    Grid::new(g.width, g.height, g.origin, g.lon_step, g.lat_step).map_err(|error| error as Refusal)
}

/// A grid that `Grid::new` could give. Its longitude stays as it is: 180 can come of the wrapping, which would take it
/// to −180 a second time.
pub fn made(g: &Grid) -> Result<(), Refusal> {
    unless(new_grid(*g).is_err() || !(-180.0..=180.0).contains(&g.origin.lon), NOT_ITS_MAKERS)
}

pub fn centre_of(g: &Grid, row: Row, col: Col) -> Result<LatLon, Refusal> {
    made(g)?;
    g.centre_of(row, col).map_err(off_grid)
}

pub fn centre_lat(g: &Grid, row: Row) -> Result<f64, Refusal> {
    made(g)?;
    g.centre_lat(row).map_err(off_grid)
}

pub fn lat_bounds(g: &Grid, row: Row) -> Result<LatBand, Refusal> {
    made(g)?;
    g.lat_bounds(row).map_err(off_grid)
}

pub fn lon_bounds(g: &Grid, col: Col) -> Result<LonSpan, Refusal> {
    made(g)?;
    g.lon_bounds(col).map_err(off_grid)
}

pub fn col_along(g: &Grid, col: Col, cells: i64) -> Result<Col, Refusal> {
    made(g)?;
    g.col_along(col, cells).map_err(off_grid)
}

pub fn cell_containing(g: &Grid, at: LatLon) -> Result<(Row, Col), Refusal> {
    made(g)?;
    g.cell_containing(at).ok_or(NO_CELL)
}

pub fn cell_area_km2(g: &Grid, row: Row) -> Result<f64, Refusal> {
    made(g)?;
    g.cell_area_km2(row).map_err(off_grid)
}

pub fn spans_full_turn(g: &Grid) -> Result<bool, Refusal> {
    made(g)?;
    Ok(g.spans_full_turn())
}

pub fn middle_row(g: &Grid) -> Result<Row, Refusal> {
    made(g)?;
    Ok(g.middle_row())
}

pub fn row(g: &Grid, row: u32) -> Result<Row, Refusal> {
    made(g)?;
    g.row(row).ok_or(ROW_OFF_GRID)
}

pub fn col(g: &Grid, col: u32) -> Result<Col, Refusal> {
    made(g)?;
    g.col(col).ok_or(COLUMN_OFF_GRID)
}

// ---- building

fn decimation(source: Grid, factor: u32) -> Result<Decimation, Refusal> {
    Decimation::new(source, factor).map_err(|error| match error {
        TableError::PayloadLength => TABLE_LENGTH,
        TableError::Decimation => 10,
        TableError::DecimatedGrid(cause) => cause as Refusal,
    })
}

pub fn new_decimation(source: Grid, factor: u32) -> Result<Decimation, Refusal> {
    made(&source)?;
    decimation(source, factor)
}

/// Document 02, C-13: the table, then accumulator and correction rows, then the coarse row, at factor 1 too.
fn right_lengths(d: &Decimation, lent: &Buffers<'_>) -> Result<(), Refusal> {
    let wide = d.source.width as usize + 1;
    unless(lent.table.len() != table::padded_len(&d.grid), TABLE_LENGTH)?;
    unless(lent.acc.len() != wide || lent.corr.len() != wide, ACCUMULATOR_LENGTH)?;
    unless(lent.coarse.len() != d.grid.width as usize + 1, COARSE_LENGTH)
}

/// A builder that a start or a row call could give: its coarse grid is its source's at that factor, its rows are at
/// most the height, and its tallies add up to rows × width.
fn made_builder(b: &Builder) -> Result<(), Refusal> {
    let source = b.decimation.source;
    made(&source)?;
    let again = decimation(source, b.decimation.factor).map_err(|_| NOT_ITS_MAKERS)?;
    let cells: u128 = b.tallies.fields().map(u128::from).iter().sum();
    let right = again.grid == b.decimation.grid
        && b.rows <= source.height
        && cells == u128::from(b.rows) * u128::from(source.width);
    unless(!right, NOT_ITS_MAKERS)
}

pub fn start(source: Grid, factor: u32, nodata: u32, lent: &mut Buffers<'_>) -> Result<Builder, Refusal> {
    let d = new_decimation(source, factor)?;
    right_lengths(&d, lent)?;
    Ok(Builder::start(d, nodata, lent))
}

pub fn build_row(b: &mut Builder, values: &mut [f32], lent: &mut Buffers<'_>) -> Result<(), Refusal> {
    made_builder(b)?;
    right_lengths(&b.decimation, lent)?;
    unless(b.rows == b.decimation.source.height, ROW_AFTER_LAST)?;
    unless(values.len() != b.decimation.source.width as usize, ROW_LENGTH)?;
    b.row(values, lent);
    Ok(())
}

pub fn finish(b: &Builder, lent: &Buffers<'_>) -> Result<BuiltTable, Refusal> {
    made_builder(b)?;
    right_lengths(&b.decimation, lent)?;
    unless(b.rows < b.decimation.source.height, FINISH_BEFORE_LAST)?;
    Ok(b.finish(lent))
}

// ---- rectangles

pub fn population(g: &Grid, cells: &[f64], rows: RowBand, cols: ColSpan) -> Result<f64, Refusal> {
    made(g)?;
    unless(rows.north > rows.south, NOT_ITS_MAKERS)?;
    let table = Table::new(*g, cells).map_err(|_| TABLE_LENGTH)?;
    unless(rows.south.0 >= g.height, ROW_OFF_GRID)?;
    if let ColSpan::Through { west, east } = cols {
        unless(west.0 >= g.width || east.0 >= g.width, COLUMN_OFF_GRID)?;
    }
    Ok(table.population(rows, cols))
}

pub fn whole(g: &Grid) -> Result<(RowBand, ColSpan), Refusal> {
    made(g)?;
    Ok(table::whole(g))
}

pub fn covering(g: &Grid, window: Window) -> Result<(RowBand, ColSpan), Refusal> {
    made(g)?;
    table::covering(g, window).ok_or(NO_CELL)
}

// ---- kernels and circles

pub fn new_kernel(g: Grid, centre: Row, km: f64, half_widths: &mut [u32]) -> Result<Kernel, Refusal> {
    made(&g)?;
    let radius = RadiusKm::new(km).map_err(|_| NOT_ITS_MAKERS)?;
    Kernel::new(g, centre, radius, half_widths).map_err(|error| match error {
        KernelError::GridIndex(cause) => off_grid(cause),
        KernelError::ColumnsDoNotClose => 17,
        KernelError::SliceShort => 20,
    })
}

/// A kernel's fields as they come.
#[derive(Clone, Copy)]
pub struct KernelFields {
    pub grid: Grid,
    pub centre: u32,
    pub km: f64,
    pub north: u32,
    pub count: u32,
}

/// A kernel that `Kernel::new` could give, as far as document 01 asks: whatever its centre row.
fn made_kernel(k: KernelFields, half_widths: &[u32]) -> Result<Kernel, Refusal> {
    made(&k.grid)?;
    let radius = RadiusKm::new(k.km).map_err(|_| NOT_ITS_MAKERS)?;
    let rows = u64::from(k.north) + u64::from(k.count) <= u64::from(k.grid.height);
    unless(!rows || half_widths.len() < k.count as usize, NOT_ITS_MAKERS)?;
    let closing = k.grid.width / 2;
    unless(half_widths[..k.count as usize].iter().any(|&h| h > closing), NOT_ITS_MAKERS)?;
    Ok(Kernel { grid: k.grid, centre: Row(k.centre), radius, north: Row(k.north), count: k.count })
}

pub fn circle_population(
    g: &Grid,
    cells: &[f64],
    k: KernelFields,
    half_widths: &[u32],
    column: Col,
) -> Result<f64, Refusal> {
    made(g)?;
    let kernel = made_kernel(k, half_widths)?;
    let table = Table::new(*g, cells).map_err(|_| TABLE_LENGTH)?;
    unless(*table.grid() != *kernel.grid(), GRIDS_DIFFER)?;
    circle::population(&table, &kernel, half_widths, column).map_err(off_grid)
}

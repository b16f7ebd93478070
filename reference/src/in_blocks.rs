// Document 02's C-16 around the refusals: a table is lent in blocks, and 11 tests the payload length. The copy of the
// reference works on rows, so that what it is lent goes from blocks to rows, and what it wrote the way back.
use crate::blocks;
use crate::grid::Grid;
use crate::refusals::{self, Refusal};
use crate::table::{padded_len, Buffers, Builder, BuiltTable};

/// The rows of a table that is lent in blocks. Where its length is not the payload length they are none, which is the length
/// of no table: so 11 comes at its place in the order.
pub fn rows_of(grid: &Grid, blocks: &[f64]) -> Vec<f64> {
    if blocks.len() as u128 == blocks::payload_len(grid) {
        blocks::to_rows(grid, blocks)
    } else {
        vec![]
    }
}

/// The same buffers with the table's rows in place of its blocks.
fn with_rows<'a>(lent: &'a mut Buffers<'_>, rows: &'a mut [f64]) -> Buffers<'a> {
    Buffers { acc: lent.acc, corr: lent.corr, coarse: lent.coarse, table: rows }
}

/// A start writes +0.0 past the edge.
pub fn start(source: Grid, factor: u32, nodata: u32, lent: &mut Buffers<'_>) -> Result<Builder, Refusal> {
    let grid = refusals::new_decimation(source, factor)?.grid;
    let mut rows = rows_of(&grid, lent.table);
    let started = refusals::start(source, factor, nodata, &mut with_rows(lent, &mut rows))?;
    lent.table.copy_from_slice(&blocks::to_blocks(&grid, &rows));
    Ok(started)
}

/// A row handed on fills the places of its own cells: what is past the edge stays as it was found.
pub fn build_row(b: &mut Builder, values: &mut [f32], lent: &mut Buffers<'_>) -> Result<(), Refusal> {
    let grid = b.decimation.grid;
    let mut rows = rows_of(&grid, lent.table);
    refusals::build_row(b, values, &mut with_rows(lent, &mut rows))?;
    blocks::lay_rows(&grid, &rows, lent.table);
    Ok(())
}

pub fn finish(b: &Builder, lent: &mut Buffers<'_>) -> Result<BuiltTable, Refusal> {
    let mut rows = rows_of(&b.decimation.grid, lent.table);
    refusals::finish(b, &with_rows(lent, &mut rows))
}

// ---- the full map

/// 22 for the grid, then 11 for either length.
fn map_refusal(grid: &Grid, rows: &[f64], blocks: &[f64]) -> Result<(), Refusal> {
    refusals::made(grid)?;
    let right = rows.len() == padded_len(grid) && blocks.len() as u128 == blocks::payload_len(grid);
    refusals::unless(!right, refusals::TABLE_LENGTH)
}

pub fn map_to_blocks(grid: &Grid, rows: &[f64], blocks: &mut [f64]) -> Result<(), Refusal> {
    map_refusal(grid, rows, blocks)?;
    blocks.copy_from_slice(&blocks::to_blocks(grid, rows));
    Ok(())
}

pub fn map_to_rows(grid: &Grid, blocks: &[f64], rows: &mut [f64]) -> Result<(), Refusal> {
    map_refusal(grid, rows, blocks)?;
    rows.copy_from_slice(&blocks::to_rows(grid, blocks));
    Ok(())
}

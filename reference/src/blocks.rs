// How a table lies in blocks, from the words of document 02's C-16. A table over a grid has one column and one row more than
// the grid. Its cells are stored in blocks of 8 by 8, blocks in row order and cells in row order inside each; what such a
// block has past the table's last column or last row is past the edge.
use crate::grid::Grid;

/// The cells of a block's side, and of a block.
const SIDE: usize = 8;
pub const BLOCK: usize = SIDE * SIDE;

/// How many blocks in a line hold a table's columns, or its rows, where the grid has so many.
fn line_of_blocks(of_grid: u32) -> u64 {
    (u64::from(of_grid) + 1).div_ceil(SIDE as u64)
}

/// 64 times the number of blocks. A grid may be any record, so this may be more than 64 bits hold.
pub fn payload_len(grid: &Grid) -> u128 {
    BLOCK as u128 * u128::from(line_of_blocks(grid.width)) * u128::from(line_of_blocks(grid.height))
}

/// Of a table row and a table column; it needs a grid whose table fits the memory.
pub fn place(grid: &Grid, row: usize, col: usize) -> usize {
    let block = row / SIDE * line_of_blocks(grid.width) as usize + col / SIDE;
    block * BLOCK + row % SIDE * SIDE + col % SIDE
}

/// The table row and the table column of each place, as the places stand one behind another.
pub fn places(grid: &Grid) -> impl Iterator<Item = (usize, usize)> {
    let [across, down] = [grid.width, grid.height].map(|of_grid| line_of_blocks(of_grid) as usize);
    let blocks = (0..down).flat_map(move |south| (0..across).map(move |east| (SIDE * south, SIDE * east)));
    blocks.flat_map(|(north, west)| {
        (north..north + SIDE).flat_map(move |row| (west..west + SIDE).map(move |col| (row, col)))
    })
}

pub fn past_edge(grid: &Grid, (row, col): (usize, usize)) -> bool {
    row > grid.height as usize || col > grid.width as usize
}

/// The places that no cell of the table has.
pub fn edge(grid: &Grid) -> Vec<usize> {
    places(grid).enumerate().filter(|&(_, cell)| past_edge(grid, cell)).map(|(place, _)| place).collect()
}

/// Of a table's cells row after row.
fn row_place(grid: &Grid, (row, col): (usize, usize)) -> usize {
    row * (grid.width as usize + 1) + col
}

/// Rows to blocks, with +0.0 past the edge.
pub fn to_blocks(grid: &Grid, rows: &[f64]) -> Vec<f64> {
    let held = |cell| if past_edge(grid, cell) { 0.0 } else { rows[row_place(grid, cell)] };
    places(grid).map(held).collect()
}

/// Rows to blocks, where every place past the edge keeps what it holds.
pub fn lay_rows(grid: &Grid, rows: &[f64], blocks: &mut [f64]) {
    for (held, cell) in blocks.iter_mut().zip(places(grid)) {
        if !past_edge(grid, cell) {
            *held = rows[row_place(grid, cell)];
        }
    }
}

/// Blocks to rows. It goes by `place`, the way to blocks by `places`, so that a table that goes there and back tries one by
/// the other.
pub fn to_rows(grid: &Grid, blocks: &[f64]) -> Vec<f64> {
    let (rows, cols) = (0..=grid.height as usize, 0..=grid.width as usize);
    let cells = rows.flat_map(|row| cols.clone().map(move |col| (row, col)));
    cells.map(|(row, col)| blocks[place(grid, row, col)]).collect()
}

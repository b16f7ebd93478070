// Tables in blocks: their sizes, what stands past the edge, lengths that are not the payload's, and calls of the map.
use crate::blocks::{self, payload_len, BLOCK};
use crate::generate::{Random, NANS};
use crate::generate_grids::grid_words;
use crate::grid::Grid;
use crate::in_blocks;
use crate::table::padded_len;
use crate::words::listed;

/// Columns or rows of a grid whose table ends where a block does, or beside it.
pub const BESIDE: [u64; 11] = [1, 6, 7, 8, 9, 10, 14, 15, 16, 17, 18];

/// Blocks across and down: together 128, the most that a list holds, and one more.
const FULL: [[u64; 2]; 8] = [[1, 128], [2, 64], [4, 32], [8, 16], [16, 8], [32, 4], [64, 2], [128, 1]];
const OVER: [[u64; 2]; 4] = [[1, 129], [3, 43], [43, 3], [129, 1]];

/// What may stand past the edge besides a number.
const ODD: [f64; 5] = [-0.0, f64::INFINITY, f64::NEG_INFINITY, f64::MAX, 1.0];

/// What a table's length may be taken for: one place fewer or more, none, the cells of the row layout, a block more or fewer, and
/// the blocks of the grid's own columns and rows.
pub fn wrong_payloads(g: &Grid) -> [usize; 7] {
    let right = payload_len(g) as usize;
    let blocks = g.width.div_ceil(8) as usize * g.height.div_ceil(8) as usize;
    [right - 1, right + 1, 0, padded_len(g), right + BLOCK, right - BLOCK, BLOCK * blocks]
}

/// The same of the row layout, with the payload length and the grid's own cells among them.
pub fn wrong_rows(g: &Grid) -> [usize; 5] {
    let right = padded_len(g);
    [right - 1, right + 1, 0, payload_len(g) as usize, g.width as usize * g.height as usize]
}

impl Random {
    /// From 1 to `most`, and often beside a multiple of 8.
    pub fn side(&mut self, most: u64) -> u64 {
        let beside = self.pick(&BESIDE);
        if beside <= most && self.chance(2) {
            beside
        } else {
            1 + self.below(most)
        }
    }

    /// Of a table that most often a list holds.
    pub fn table_size(&mut self) -> (u32, u32) {
        let [width, height] = match self.below(64) {
            0 => self.full_size(),
            1 => self.over_size(),
            2 => [1 + self.below(7), u64::from(self.size(1023))],
            3 => [u64::from(self.size(1023)), 1 + self.below(7)],
            4..=7 => [u64::from(self.size(300)), self.side(15)],
            _ => [self.side(40), self.side(24)],
        };
        (width as u32, height as u32)
    }

    /// Of a table of 8,192 places.
    pub fn full_size(&mut self) -> [u64; 2] {
        self.pick(&FULL).map(|blocks| self.side_of(blocks))
    }

    /// Of a table of a block more.
    pub fn over_size(&mut self) -> [u64; 2] {
        self.pick(&OVER).map(|blocks| self.side_of(blocks))
    }

    /// Columns or rows of a grid whose table has so many blocks in a line.
    fn side_of(&mut self, blocks: u64) -> u64 {
        (8 * blocks - 1 - self.below(8)).max(1)
    }

    /// Something in every place past the edge, or in one of them, where the table has its payload length.
    pub fn fill_edge(&mut self, g: &Grid, table: &mut [f64]) {
        if table.len() as u128 != payload_len(g) {
            return;
        }
        let mut edge = blocks::edge(g);
        if self.chance(4) && !edge.is_empty() {
            edge = vec![self.pick(&edge)];
        }
        let (kind, same) = (self.below(4), self.past());
        for place in edge {
            table[place] = match kind {
                0 => same,
                1 => self.below(1000) as f64,
                2 => self.past(),
                _ => self.float(),
            };
        }
    }

    fn past(&mut self) -> f64 {
        let nan = f64::from_bits(self.pick(&NANS));
        if self.chance(3) {
            nan
        } else {
            self.pick(&ODD)
        }
    }

    /// One to four of the floats become a NaN, −0.0, an infinity or a number.
    pub fn sprinkle(&mut self, floats: &mut [f64]) {
        for _ in 0..1 + self.below(4) {
            let place = self.below(floats.len() as u64) as usize;
            floats[place] = self.past();
        }
    }

    // ---- the map

    /// Whole numbers or any floats, with others among them or not; or one float everywhere.
    fn buffer(&mut self, length: usize) -> Vec<f64> {
        let kind = self.below(4);
        let same = if self.chance(4) { 0.0 } else { self.past() };
        let float = |r: &mut Self| match kind {
            0 => same,
            1 => r.float(),
            _ => r.below(1 << 20) as f64,
        };
        let mut buffer: Vec<f64> = (0..length).map(|_| float(self)).collect();
        if kind == 3 && length > 0 {
            self.sprinkle(&mut buffer);
        }
        buffer
    }

    /// The lengths of row layout and blocks: of one call in four either is wrong, or both are.
    fn map_lengths(&mut self, g: &Grid) -> [usize; 2] {
        let mut lengths = [padded_len(g), payload_len(g) as usize];
        let wrong = if self.chance(4) { 1 + self.below(3) } else { 0 };
        if wrong & 1 != 0 {
            lengths[0] = self.pick(&wrong_rows(g));
        }
        if wrong & 2 != 0 {
            lengths[1] = self.pick(&wrong_payloads(g));
        }
        lengths
    }

    /// A call of the map, and of one in three the way back, from what the first call left.
    pub fn map_calls(&mut self, number: u64) -> Vec<Vec<u64>> {
        let (width, height) = self.table_size();
        let mut g = self.made_grid(width, height);
        let lengths = self.map_lengths(&g);
        let [mut rows, mut blocks] = lengths.map(|length| self.buffer(length));
        if self.chance(2) {
            let edge = if blocks.len() as u128 == payload_len(&g) { blocks::edge(&g) } else { vec![] };
            edge.into_iter().for_each(|place| blocks[place] = 0.0);
        }
        if self.chance(12) {
            self.spoil(&mut g);
        }
        let mut calls = vec![map_call(number, &g, &rows, &blocks)];
        if self.chance(3) {
            let done = match number {
                0x63 => in_blocks::map_to_blocks(&g, &rows, &mut blocks),
                _ => in_blocks::map_to_rows(&g, &blocks, &mut rows),
            };
            if done.is_ok() {
                let written = if number == 0x63 { &mut rows } else { &mut blocks };
                *written = self.buffer(written.len());
                calls.push(map_call(0x63 + 0x64 - number, &g, &rows, &blocks));
            }
        }
        calls
    }
}

/// The list that is read comes first.
pub fn map_call(number: u64, g: &Grid, rows: &[f64], blocks: &[f64]) -> Vec<u64> {
    let [rows, blocks] =
        [rows, blocks].map(|floats| floats.iter().map(|x| x.to_bits()).collect::<Vec<u64>>());
    let lists = if number == 0x63 { [&rows, &blocks] } else { [&blocks, &rows] };
    [vec![number], listed(&[&grid_words(g), lists[0], lists[1]])].concat()
}

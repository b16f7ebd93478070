// Builds: a walk of starts, rows and finishes, each call on what the Rust's answer to the one before left.
use crate::blocks::{payload_len, BLOCK};
use crate::build_calls::{builder, Lent};
use crate::generate::Random;
use crate::generate_grids::{grid_words, plain_grid};
use crate::generate_layouts::wrong_payloads;
use crate::generate_tables::Cells;
use crate::grid::Grid;
use crate::in_blocks;
use crate::table::{padded_len, Builder, Decimation};
use crate::table_calls::cells_of;
use crate::words::listed;
use std::array;

/// The calls so far, and what they left: the builder's 21 words and the lent buffers.
pub struct Walk {
    pub calls: Vec<Vec<u64>>,
    builder: Vec<u64>,
    lent: Lent,
}

impl Walk {
    /// At first the builder is the record of the grid at factor 1, and zeros. Entry i of each buffer has the pattern of
    /// the fill's low 63 bits, plus i.
    pub fn new(g: &Grid, fill: u64, lengths: [usize; 4]) -> Self {
        let filled = |n: usize| (0..n).map(|i| f64::from_bits((fill & !(1 << 63)) + i as u64)).collect();
        let builder = [grid_words(g), grid_words(g), vec![1, 0, 0, 0, 0, 0, 0, 0, 0]].concat();
        Self { calls: vec![], builder, lent: Lent(lengths.map(filled)) }
    }

    fn push(&mut self, number: u64, words: &[u64], row: &[u64]) {
        let [acc, corr, coarse, table] =
            [0, 1, 2, 3].map(|k: usize| self.lent.0[k].iter().map(|x| x.to_bits()).collect::<Vec<u64>>());
        let lists = [words, &acc[..], &corr, &coarse, &table, row];
        self.calls.push([vec![number], listed(&lists[..if number == 0x51 { 6 } else { 5 }])].concat());
    }

    /// On the builder's source grid.
    pub fn start(&mut self, factor: u64, nodata: u64) {
        let words = [&self.builder[..6], &[factor, nodata]].concat();
        self.push(0x50, &words, &[]);
        let source = builder(&self.builder).decimation.source;
        if let Ok(b) = in_blocks::start(source, factor as u32, nodata as u32, &mut self.lent.buffers()) {
            self.builder = words_of(b);
        }
    }

    pub fn row(&mut self, row: &[u64]) {
        self.push(0x51, &self.builder.clone(), row);
        let mut b = builder(&self.builder);
        if in_blocks::build_row(&mut b, &mut cells_of(row), &mut self.lent.buffers()).is_ok() {
            self.builder = words_of(b);
        }
    }

    pub fn finish(&mut self) {
        self.push(0x52, &self.builder.clone(), &[]);
    }

    /// The builder with so many rows in, all of them unknown.
    pub fn stand_at(&mut self, rows: u32) {
        self.builder[14] = u64::from(rows);
        self.builder[16..].fill(0);
        self.builder[16] = u64::from(rows) * self.builder[0];
    }

    pub fn table_mut(&mut self) -> &mut [f64] {
        &mut self.lent.0[3]
    }

    /// One call with buffers of other lengths, cut or filled up. The walk goes on with those that it had.
    pub fn lending(&mut self, lengths: [usize; 4], call: impl FnOnce(&mut Self)) {
        let kept = self.lent.clone();
        for (buffer, length) in self.lent.0.iter_mut().zip(lengths) {
            buffer.resize(length, 1.0);
        }
        call(self);
        self.lent = kept;
    }
}

/// The lengths that a build asks: accumulator, corrections, coarse row, table; and others that its table may be lent with.
#[derive(Clone, Copy)]
pub struct Lengths {
    pub right: [usize; 4],
    tables: [usize; 7],
}

/// The places of a table over 40 columns and 24 rows, the most that a build asks here unless its grid was spoiled.
const LONGEST: u128 = 1536;

impl Lengths {
    /// A table that would be longer is lent as one block.
    pub fn of(source: &Grid, coarse: &Grid) -> Self {
        let small = Grid { width: 1, height: 1, ..*coarse };
        let table = if payload_len(coarse) <= LONGEST { coarse } else { &small };
        Self::lent(source.width.min(100), coarse.width.min(100), table)
    }

    /// However long the table is.
    fn of_any(source: &Grid, coarse: &Grid) -> Self {
        Self::lent(source.width, coarse.width, coarse)
    }

    fn lent(width: u32, coarse_width: u32, table: &Grid) -> Self {
        let [wide, narrow] = [width, coarse_width].map(|columns| columns as usize + 1);
        let right = [wide, wide, narrow, payload_len(table) as usize];
        Self { right, tables: wrong_payloads(table) }
    }

    /// Those of the set are wrong: shorter by one, longer by one, or 0, and the table's in a way of its own too. Bit k of the set
    /// is for length k.
    pub fn wrong(self, set: u64, mut kind: impl FnMut() -> u64) -> [usize; 4] {
        array::from_fn(|k| match (set >> k & 1, self.right[k]) {
            (0, length) => length,
            (_, _) if k == 3 => self.tables[kind() as usize],
            (_, length) => [length - 1, length + 1, 0][kind() as usize % 3],
        })
    }
}

/// What a build goes by.
struct Plan {
    source: Grid,
    coarse: Grid,
    factor: u64,
    nodata: u64,
    cells: Cells,
    asked: Lengths,
}

fn words_of(b: Builder) -> Vec<u64> {
    let numbers = [b.decimation.factor, b.nodata, b.rows].map(u64::from);
    let grids = [grid_words(&b.decimation.source), grid_words(&b.decimation.grid)].concat();
    [grids, numbers.to_vec(), vec![b.digest], b.tallies.fields().to_vec()].concat()
}

impl Random {
    /// A source grid and a factor, which most often divides both of its dimensions.
    fn source(&mut self) -> (Grid, u64) {
        let factor = if self.chance(3) { 1 } else { 1 + self.below(12) };
        let (columns, rows) = (self.side(24 / factor), self.side(18 / factor));
        let mut size = [columns * factor, rows * factor];
        if self.chance(8) {
            size = [1 + self.below(40), 1 + self.below(24)];
        }
        let mut g = self.made_grid(size[0] as u32, size[1] as u32);
        if self.chance(4) {
            self.zero_origin(&mut g);
        }
        if self.chance(16) {
            self.spoil(&mut g);
        }
        let factor = if self.chance(16) { self.pick(&[0, 2, 3, 0xffff_ffff, 1 << 32 | 1]) } else { factor };
        (g, factor)
    }

    /// The first words of the lent buffers.
    fn fill(&mut self) -> u64 {
        match self.below(4) {
            0 => self.pick(&[0, 0x3ff0_0000_0000_0000, 0x7ff0_0000_0000_0000 - 3, 0x7ff8_0000_0000_0000]),
            _ => self.word(),
        }
    }

    /// Wrong lengths: any set of them, or one that is another's or any.
    fn wrong_lengths(&mut self, asked: Lengths) -> [usize; 4] {
        if self.chance(8) {
            let mut lengths = asked.right;
            let [wide, _, narrow, table] = lengths;
            let other = self.below(100) as usize;
            lengths[self.below(4) as usize] = self.pick(&[wide, narrow, table, other]);
            return lengths;
        }
        let set = 1 + self.below(15);
        asked.wrong(set, || self.below(7))
    }

    /// A start, a row or a finish with wrong lengths.
    fn lend_wrongly(&mut self, walk: &mut Walk, plan: &Plan) {
        let row = self.build_row(plan);
        let lengths = self.wrong_lengths(plan.asked);
        match self.below(3) {
            0 => walk.lending(lengths, |walk| walk.start(plan.factor, plan.nodata)),
            1 => walk.lending(lengths, |walk| walk.row(&row)),
            _ => walk.lending(lengths, Walk::finish),
        }
    }

    /// A field of the builder becomes a word that its maker may not have put there.
    fn forge(&mut self, walk: &mut Walk, g: &Grid) {
        let field = self.below(22) as usize;
        let mut other = *g;
        self.spoil(&mut other);
        let word = match field {
            0..=11 => match self.below(4) {
                0 => grid_words(&other)[field % 6],
                1 => grid_words(g)[field % 6] ^ 1 << 63,
                2 => grid_words(g)[field % 6] + 1,
                _ => self.word(),
            },
            12 => self.below(13),
            14 => self.below(u64::from(g.height) + 3),
            16..=20 => match self.below(4) {
                0 => u64::MAX - self.below(2),
                1 => 1 << 63,
                _ => self.below(u64::from(g.width) * 3 + 1),
            },
            _ => self.word(),
        };
        if let Some(w) = walk.builder.get_mut(field) {
            *w = word;
        }
    }

    /// The source grid, the coarse grid or each of them gets other signs of the zeros in its origin.
    fn sign_zeros(&mut self, walk: &mut Walk) {
        let d = builder(&walk.builder).decimation;
        let which = 1 + self.below(3);
        if which & 1 != 0 {
            walk.builder[..6].copy_from_slice(&grid_words(&self.other_zeros(&d.source)));
        }
        if which & 2 != 0 {
            walk.builder[6..12].copy_from_slice(&grid_words(&self.other_zeros(&d.grid)));
        }
    }

    /// The same builder with other rows, which a maker could give: the tallies add up.
    fn jump(&mut self, walk: &mut Walk, g: &Grid) {
        let rows = self.below(u64::from(g.height) + 1);
        let cells = rows * u64::from(g.width);
        let nodata = self.below(cells + 1);
        walk.builder[14] = rows;
        walk.builder[16..].fill(0);
        for part in [nodata, cells - nodata] {
            walk.builder[16 + self.below(5) as usize] += part;
        }
    }

    /// Two tallies that add up to what they did modulo 2^64, and to 2^64 more: no builder's.
    fn wrap(&mut self, walk: &mut Walk) {
        let (one, other) = (self.below(5) as usize, 1 + self.below(4) as usize);
        let (one, other) = (16 + one, 16 + (one + other) % 5);
        let both = walk.builder[one].wrapping_add(walk.builder[other]);
        walk.builder[one] = u64::MAX - self.below(1 << 20);
        walk.builder[other] = both.wrapping_sub(walk.builder[one]);
    }

    /// A row of the length that is asked, or of another.
    fn build_row(&mut self, plan: &Plan) -> Vec<u64> {
        let width = u64::from(plan.source.width).min(300);
        let length = if self.chance(16) {
            self.pick(&[0, 1, width.saturating_sub(1), width + 1, 2 * width])
        } else {
            width
        };
        self.row_of(plan.cells, plan.nodata, length)
    }

    fn plan(&mut self) -> Plan {
        let (source, factor) = self.source();
        let coarse = Decimation::new(source, factor as u32).map_or(source, |d| d.grid);
        let asked = Lengths::of(&source, &coarse);
        Plan { source, coarse, factor, nodata: self.nodata(), cells: self.cells(), asked }
    }

    /// Of a table of 8,192 places, or of a block more, which no list holds.
    fn full_plan(&mut self) -> Plan {
        let factor = self.pick(&[1, 1, 2, 3]);
        let size = if self.chance(5) { self.over_size() } else { self.full_size() };
        let [width, height] = size.map(|side| (side * factor) as u32);
        let made = |source: Grid| Decimation::new(source, factor as u32).ok();
        let decimation = made(self.made_grid(width, height)).or_else(|| made(plain_grid(width, height)));
        let Decimation { source, grid: coarse, .. } = decimation.expect("the plain grid has a coarse one");
        let asked = Lengths::of_any(&source, &coarse);
        Plan { source, coarse, factor, nodata: self.nodata(), cells: self.cells(), asked }
    }

    /// What may come ahead of a row.
    fn ahead_of_row(&mut self, walk: &mut Walk, plan: &Plan) {
        match self.below(48) {
            0 => walk.finish(),
            1 | 5 => {
                if self.chance(2) {
                    self.forge(walk, &plan.source);
                } else {
                    self.sign_zeros(walk);
                }
                walk.row(&self.build_row(plan));
                walk.finish();
                let right = [grid_words(&plan.source), grid_words(&plan.coarse), vec![plan.factor]].concat();
                walk.builder[..13].copy_from_slice(&right);
            }
            2 => self.jump(walk, &plan.source),
            3 => walk.start(plan.factor, plan.nodata),
            4 => walk.calls.push(vec![0x53 + self.below(3)]),
            9 => {
                let kept = walk.builder.clone();
                self.wrap(walk);
                walk.row(&self.build_row(plan));
                walk.finish();
                walk.builder = kept;
            }
            6..=8 => self.lend_wrongly(walk, plan),
            // The rows that follow leave what is past the edge.
            10..=13 => self.fill_edge(&plan.coarse, walk.table_mut()),
            _ => {}
        }
    }

    /// What may come after the last row.
    fn after_rows(&mut self, walk: &mut Walk, plan: &Plan) {
        match self.below(8) {
            0 => walk.row(&self.build_row(plan)),
            1 => self.jump(walk, &plan.source),
            2 => self.forge(walk, &plan.source),
            3 | 4 => self.lend_wrongly(walk, plan),
            _ => walk.finish(),
        }
    }

    /// A start, the rows with other calls among them, a finish, and what comes after it.
    pub fn build(&mut self) -> Vec<Vec<u64>> {
        let plan = self.plan();
        let lent = if self.chance(16) { self.wrong_lengths(plan.asked) } else { plan.asked.right };
        let mut walk = Walk::new(&plan.source, self.fill(), lent);
        if !self.chance(32) {
            walk.start(plan.factor, plan.nodata);
        }
        for _ in 0..plan.source.height.min(24) {
            self.ahead_of_row(&mut walk, &plan);
            walk.row(&self.build_row(&plan));
        }
        for _ in 0..self.below(3) {
            walk.row(&self.build_row(&plan));
        }
        for _ in 0..self.below(4) {
            self.after_rows(&mut walk, &plan);
        }
        // A call that is cut short.
        if let Some(mut call) = walk.calls.last().cloned().filter(|_| self.chance(10)) {
            call.truncate(1 + self.below(call.len() as u64) as usize);
            walk.calls.push(call);
        }
        walk.calls
    }

    /// A start, a few of the rows with something past the edge, the last one and a finish, on a table as long as a list.
    pub fn full_build(&mut self) -> Vec<Vec<u64>> {
        let plan = self.full_plan();
        let mut walk = Walk::new(&plan.source, self.fill(), plan.asked.right);
        walk.start(plan.factor, plan.nodata);
        // Where the start was refused, the rows are refused for the length too, and not for the record.
        walk.builder[6..12].copy_from_slice(&grid_words(&plan.coarse));
        walk.builder[12] = plan.factor;
        let (factor, height) = (plan.factor as u32, plan.source.height);
        let last = self.below(u64::from(height / factor)) as u32 * factor + factor - 1;
        for rows in [factor - 1, last, self.below(u64::from(height)) as u32, height - 1] {
            walk.stand_at(rows);
            self.fill_edge(&plan.coarse, walk.table_mut());
            let row = self.row_of(plan.cells, plan.nodata, u64::from(plan.source.width));
            if self.chance(4) {
                let mut lengths = plan.asked.right;
                lengths[3] = self.pick(&[lengths[3] - 1, lengths[3] - BLOCK, padded_len(&plan.coarse)]);
                walk.lending(lengths, |walk| walk.row(&row));
            }
            walk.row(&row);
        }
        walk.finish();
        walk.calls
    }
}

// Arguments of the calls on rows, rectangles, kernels and circles.
use crate::blocks::{self, payload_len};
use crate::generate::{Random, HALVES};
use crate::generate_grids::grid_words;
use crate::generate_layouts::wrong_payloads;
use crate::geodesy::{great_circle_km, LatLon};
use crate::grid::{Grid, Row};
use crate::refusals::{self, KernelFields};
use crate::table::{padded_len, Buffers};
use crate::words::listed;

/// What a raster's cells are drawn from.
#[derive(Clone, Copy)]
pub enum Cells {
    Whole,
    Large,
    Fractions,
    Mixed,
    /// Whole numbers, with infinities, NaNs and the mark among them.
    Lakes,
    Any,
}

impl Random {
    // ---- rows

    /// +infinity, −infinity, or a NaN of any sign and payload.
    pub fn not_finite(&mut self) -> u64 {
        match self.below(4) {
            0 | 1 => 0x7f80_0000,
            2 => 0xff80_0000,
            _ => 0x7f80_0001 + self.below(0x7f_ffff) | self.pick(&[0, 0x8000_0000]),
        }
    }

    pub fn nodata(&mut self) -> u64 {
        match self.below(5) {
            0 => HALVES[self.below(18) as usize],
            1 => {
                self.pick(&[0xc61c_3c00, 0xff7f_ffff, 0xff7f_fffd, 0x7fc0_0000, 0x7fc0_0001, 0, 0x8000_0000])
            }
            2 => self.word() >> 32,
            3 => self.not_finite(),
            _ => 0xc61c_3c00,
        }
    }

    /// A cell's pattern.
    fn cell(&mut self, cells: Cells, nodata: u64) -> u64 {
        let bits = |x: f64| u64::from((x as f32).to_bits());
        match cells {
            Cells::Whole => bits(self.below(1000) as f64),
            // Sums that come near 2^53 and go past it.
            Cells::Large => match self.below(4) {
                0 => bits(self.pick(&[
                    9007199254740992.0,
                    4503599627370496.0,
                    9007198717870080.0,
                    2251799813685248.0,
                ])),
                1 => bits(1.0 + self.below(4) as f64),
                _ => bits((self.word() >> (11 + self.below(40))) as f64),
            },
            Cells::Fractions => bits(self.between(0.0, 1000.0)),
            Cells::Mixed => match self.below(8) {
                0 => nodata,
                1 => bits(-self.between(0.0, 10.0)),
                2 => 0,
                3 => self.pick(&[0x8000_0000, 1, 0x7f80_0000]),
                4 => bits(self.below(1 << 20) as f64),
                _ => bits(self.between(0.0, 1e6)),
            },
            Cells::Lakes => match self.below(6) {
                0 => self.not_finite(),
                1 => nodata,
                _ => bits(self.below(1000) as f64),
            },
            Cells::Any => match self.below(8) {
                0 => nodata,
                // One bit away from the mark, so that the NaNs beside it are tried.
                1 => nodata ^ 1 << self.below(32),
                2 => HALVES[self.below(18) as usize],
                3 => 0x7f80_0000 | self.word() & 0x807f_ffff,
                4 => self.word() & 0x807f_ffff,
                5 => bits(self.short()),
                _ => self.word() >> 32,
            },
        }
    }

    pub fn cells(&mut self) -> Cells {
        self.pick(&[
            Cells::Whole,
            Cells::Large,
            Cells::Fractions,
            Cells::Mixed,
            Cells::Mixed,
            Cells::Lakes,
            Cells::Any,
        ])
    }

    pub fn row_of(&mut self, cells: Cells, nodata: u64, length: u64) -> Vec<u64> {
        (0..length).map(|_| self.cell(cells, nodata)).collect()
    }

    /// The mark, and the row's cells; seldom a long row, or one that is too long.
    pub fn raster_row(&mut self) -> Vec<u64> {
        let nodata = self.nodata();
        let length = match self.below(512) {
            0 => 8192 - self.below(2),
            1 => 8193,
            2..=9 => self.below(600),
            _ => self.below(24),
        };
        let cells = self.pick(&[Cells::Lakes, Cells::Any, Cells::Any, Cells::Any]);
        listed(&[&[nodata], &self.row_of(cells, nodata, length)])
    }

    // ---- tables and rectangles

    /// A table over the grid, in blocks: of a raster that was built, or of any floats. Of those that were built, half have
    /// something else than +0.0 past the edge.
    fn table(&mut self, g: &Grid) -> Vec<u64> {
        if self.chance(4) {
            return (0..payload_len(g)).map(|_| self.float().to_bits()).collect();
        }
        let mut table = blocks::to_blocks(g, &self.built_rows(g));
        if self.chance(2) {
            self.fill_edge(g, &mut table);
        }
        if self.chance(8) {
            self.sprinkle(&mut table);
        }
        table.into_iter().map(f64::to_bits).collect()
    }

    /// A table in row layout.
    fn built_rows(&mut self, g: &Grid) -> Vec<f64> {
        let wide = g.width as usize + 1;
        let mut table = vec![0.0; padded_len(g)];
        let (mut acc, mut corr, mut coarse) = (vec![0.0; wide], vec![0.0; wide], vec![0.0; wide]);
        let mut lent = Buffers { acc: &mut acc, corr: &mut corr, coarse: &mut coarse, table: &mut table };
        let cells = if self.chance(6) { Cells::Any } else { self.cells() };
        if let Ok(mut builder) = refusals::start(*g, 1, 0xc61c_3c00, &mut lent) {
            for _ in 0..g.height {
                let row = self.row_of(cells, 0xc61c_3c00, u64::from(g.width));
                let mut row: Vec<f32> = row.into_iter().map(|bits| f32::from_bits(bits as u32)).collect();
                refusals::build_row(&mut builder, &mut row, &mut lent).ok();
            }
        }
        table
    }

    /// The list with one element more or less, or none.
    fn cut(&mut self, list: &mut Vec<u64>) {
        match self.below(3) {
            0 => list.push(0),
            1 => drop(list.pop()),
            _ => list.clear(),
        }
    }

    /// The table with a length that is not its payload's, most often.
    fn cut_table(&mut self, g: &Grid, table: &mut Vec<u64>) {
        table.resize(self.pick(&wrong_payloads(g)), 0x3ff0_0000_0000_0000);
    }

    fn mostly_below(&mut self, limit: u32) -> u64 {
        if self.chance(8) {
            self.index(limit)
        } else {
            self.below(u64::from(limit))
        }
    }

    /// A grid, its table, and rectangles.
    pub fn rectangles(&mut self) -> Vec<u64> {
        let (width, height) = self.table_size();
        let mut g = self.made_grid(width, height);
        let mut cells = self.table(&g);
        if self.chance(10) {
            self.cut_table(&g, &mut cells);
        }
        if self.chance(16) {
            self.spoil(&mut g);
        }
        let mut questions = vec![];
        for _ in 0..8 {
            let [a, b] = [height, height].map(|limit| self.mostly_below(limit));
            let [west, east] = [width, width].map(|limit| self.mostly_below(limit));
            let (north, south) = if self.chance(12) { (a, b) } else { (a.min(b), a.max(b)) };
            let kind = if self.chance(4) { 1 + self.below(2) } else { 0 };
            let east = if self.chance(6) { west } else { east };
            questions.extend([north, south, kind, west, east]);
        }
        if self.chance(64) {
            questions.pop();
        }
        listed(&[&grid_words(&g), &cells, &[], &questions])
    }

    /// A grid, and in call 62 a window.
    pub fn window(&mut self, call: u64) -> Vec<u64> {
        let g = self.any_grid();
        let mut words = grid_words(&g);
        if call == 0x62 {
            let (north, south) = (self.lat_on(&g), self.lat_on(&g));
            let west = self.lon_on(&g);
            let span = self.pick(&[360.0, 360.0 - 1e-9, 0.0, 720.0]);
            let east = match self.below(4) {
                0 => self.near(west + span),
                1 => west + self.near(span),
                _ => self.lon_on(&g),
            };
            words.extend([north, south, west, east].map(f64::to_bits));
        }
        words
    }

    // ---- kernels and circles

    /// A grid that closes, most often.
    fn turn_grid(&mut self, width: u32, height: u32) -> Grid {
        let mut g = self.made_grid(width, height);
        if !self.chance(16) {
            g.lon_step = self.either_sign(360.0 / f64::from(width));
            if self.chance(4) {
                g.lon_step = self.near(g.lon_step);
            }
        }
        g
    }

    /// The distance from the row's centre to some cell, or a length at a limit.
    fn reach(&mut self, g: &Grid, row: u64) -> f64 {
        let lat = |row: u64| g.origin.lat + (row as f64 + 0.5) * g.lat_step;
        match self.below(12) {
            0 => self.pick(&[0.0, -0.0, 1e-320, f64::from_bits(1), 1.5e-320, 1.6e-320, 1e-300, 1e-9]),
            1 => self.pick(&[20015.0, 20016.0, 20015.114442035923, 1e6, 1e300, f64::MAX]),
            2 => {
                let half = 6371.0088 * std::f64::consts::PI;
                self.near(half)
            }
            3..=6 => {
                let other = self.below(u64::from(g.height).max(1));
                let along = self.below(u64::from(g.width) / 2 + 1) as f64 * g.lon_step;
                let from = LatLon { lat: lat(row), lon: 0.0 };
                let km = great_circle_km(from, LatLon { lat: lat(other), lon: along });
                self.near(km).abs()
            }
            7 => self.between(0.0, 200.0),
            8 if self.chance(4) => self.float(),
            _ => self.between(0.0, 20100.0),
        }
    }

    /// A grid, a centre row and a radius, and the lent slice.
    pub fn kernel(&mut self) -> Vec<u64> {
        let (width, height) = match self.below(8) {
            0 => (self.size(2000), self.size(400)),
            1 => (1 + self.below(4) as u32, self.size(60)),
            _ => (self.size(2000), self.size(40)),
        };
        let mut g = self.turn_grid(width, height);
        let row = self.index(height);
        let km = self.reach(&g, row);
        if self.chance(24) {
            self.spoil(&mut g);
        }
        let height = u64::from(height);
        let length = match self.below(16) {
            0 => height - 1,
            1 => self.below(height + 1),
            2..=4 => height + self.below(4),
            _ => height,
        };
        // Entry i is at first the low half of the fill, plus i modulo 2^32.
        let fill = self.half();
        let slice: Vec<u64> = (0..length).map(|i| u64::from((fill as u32).wrapping_add(i as u32))).collect();
        listed(&[&[grid_words(&g), vec![row, km.to_bits()]].concat(), &slice])
    }

    /// Half-widths and a kernel's fields: of a kernel that is made, or any.
    fn kernel_record(&mut self, g: &Grid) -> (KernelFields, Vec<u64>) {
        let row = self.below(u64::from(g.height));
        let km = self.reach(g, row);
        let mut half_widths = vec![7; g.height as usize];
        let centre = Row(row as u32);
        if let Ok(kernel) = refusals::new_kernel(*g, centre, km, &mut half_widths) {
            if !self.chance(4) {
                let fields = KernelFields {
                    grid: *g,
                    centre: centre.0,
                    km,
                    north: kernel.north.0,
                    count: kernel.count,
                };
                return (fields, half_widths.into_iter().map(u64::from).collect());
            }
        }
        let north = self.below(u64::from(g.height) + 1);
        let count = self.below(u64::from(g.height) - north + 1);
        let closing = u64::from(g.width / 2);
        let widths = (0..count).map(|_| self.below(closing + 1)).collect();
        let centre = self.index(g.height) as u32;
        (KernelFields { grid: *g, centre, km, north: north as u32, count: count as u32 }, widths)
    }

    /// One thing of a kernel becomes what its maker may not give.
    fn spoil_kernel(&mut self, k: &mut KernelFields, half_widths: &mut Vec<u64>) {
        let closing = u64::from(k.grid.width / 2);
        match self.below(8) {
            0 => k.north = k.north.wrapping_add(1),
            1 => k.count = k.count.wrapping_add(1),
            2 => k.count = self.word() as u32,
            3 => self.cut(half_widths),
            4 => self.spoil(&mut k.grid),
            5 => k.km = self.float(),
            6 => k.grid.lon_step = self.near(k.grid.lon_step),
            _ => {
                let entry = self.below(half_widths.len() as u64 + 1) as usize;
                if let Some(h) = half_widths.get_mut(entry) {
                    *h = if self.chance(2) { closing + 1 } else { self.word() };
                }
            }
        }
    }

    /// A grid, its table, a kernel with its half-widths, and columns.
    pub fn circles(&mut self) -> Vec<u64> {
        let (width, height) = self.table_size();
        let mut g = self.turn_grid(width, height);
        if self.chance(4) {
            self.zero_origin(&mut g);
        }
        if refusals::new_grid(g).is_err() {
            g = self.made_grid(width, height);
        }
        let mut cells = self.table(&g);
        let (mut kernel, mut half_widths) = self.kernel_record(&g);
        if self.chance(2) {
            kernel.grid = self.other_zeros(&g);
        }
        if self.chance(8) {
            self.spoil_kernel(&mut kernel, &mut half_widths);
        }
        if self.chance(10) {
            self.cut_table(&g, &mut cells);
        }
        if self.chance(24) {
            self.spoil(&mut g);
        }
        half_widths.truncate(8192);
        let columns: Vec<[u64; 5]> = (0..16).map(|_| [self.index(width), 0, 0, 0, 0]).collect();
        let k =
            [u64::from(kernel.centre), kernel.km.to_bits(), u64::from(kernel.north), u64::from(kernel.count)];
        let words = [grid_words(&g), grid_words(&kernel.grid), k.to_vec()].concat();
        listed(&[&words, &cells, &half_widths, &columns.concat()])
    }
}

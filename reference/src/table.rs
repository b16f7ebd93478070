// MIT licence (NOTICE). From turboBasic/PopulationCircles2026 at 29312e2fd7, crates/popcircles/src/table.rs.
// Cut: countries, the cache, logs, brackets, progress, the error texts and what the errors carry, the tests,
// `#[must_use]`, `Decimation::none`.
// Put in: `build` is three calls, `start`, `row` and `finish`, over buffers that are lent; the row handed on goes into
// the table. A start leaves the coarse row. `decimated` is two functions. `whole` and `covering` need the grid alone.
// The word step of the digest is a function. Fields are open, for records that their makers could not give;
// `refusals.rs` tests those.
use crate::geodesy::LatLon;
use crate::grid::{Col, Grid, GridError, Row, BOUNDARY_TOLERANCE_DEG};
use crate::raster::{sanitise_row, CellTallies};

#[derive(Debug, Clone, Copy, PartialEq)]
pub enum TableError {
    PayloadLength,
    Decimation,
    DecimatedGrid(GridError),
}

/// A band of rows, inclusive at both ends.
///
/// Inclusive because a [`Row`] is only ever minted by the grid that contains it, so a half-open band
/// would need a southern end no grid will mint. Any pair of rows is a band, so the constructor orders
/// them rather than refusing one order: there is nothing here for a caller to get wrong and nothing
/// downstream to re-check.
#[derive(Debug, Clone, Copy, PartialEq, Eq)]
pub struct RowBand {
    pub north: Row,
    pub south: Row,
}

impl RowBand {
    pub fn new(a: Row, b: Row) -> Self {
        Self { north: a.min(b), south: a.max(b) }
    }

    pub const fn north(self) -> Row {
        self.north
    }

    pub const fn south(self) -> Row {
        self.south
    }
}

/// The columns a query covers.
///
/// The full turn is a **variant**, not a `west == east` pair: on a grid whose columns close on
/// themselves, a span given as two indices cannot say whether it means one column or all of them, and
/// the answer a caller wants is the one it did not encode. Splitting the wrapped case into two
/// rectangles is then this module's business rather than every caller's.
#[derive(Debug, Clone, Copy, PartialEq, Eq)]
pub enum ColSpan {
    /// `west` through `east` inclusive, running east past the last column and on from the first when
    /// `west > east`.
    Through { west: Col, east: Col },
    /// Every column of the grid, exactly once.
    FullTurn,
}

/// A latitude and longitude window a caller wants the population of.
///
/// Four degrees rather than two [`LatLon`] corners, because the **span** `east - west` is what decides
/// which [`ColSpan`] a window means and a pair of corners cannot say: −180 and 180 reduce to the same
/// column, so a window given as corners cannot tell one column from the whole turn. A span of a full
/// turn or more is [`ColSpan::FullTurn`]; a negative span wraps the antimeridian and is ordinary.
#[derive(Debug, Clone, Copy, PartialEq)]
pub struct Window {
    pub north: f64,
    pub south: f64,
    pub west: f64,
    pub east: f64,
}

/// A summed-area table over a grid, borrowing its payload.
///
/// The payload is padded to `(height + 1) x (width + 1)` with a zero first row and column, so element `(r, c)` holds the population of every cell strictly north of grid row `r`
/// and strictly west of grid column `c`, and a rectangle touching the north or west edge needs no
/// branch of its own.
///
/// It borrows a slice instead of taking a storage generic, which is the same decision: a `Vec` and a
/// mapping are both a slice by the time a query sees one, and the checked cast belongs where it can
/// fail rather than behind an accessor.
#[derive(Debug, Clone, Copy)]
pub struct Table<'a> {
    grid: Grid,
    cells: &'a [f64],
}

impl<'a> Table<'a> {
    /// # Errors
    /// [`TableError::PayloadLength`] when `cells` is not the padded product of the grid's dimensions.
    /// That is the whole of what a slice can be wrong about here, and checking it once is what lets
    /// every query below index without a bound of its own.
    pub fn new(grid: Grid, cells: &'a [f64]) -> Result<Self, TableError> {
        let expected = padded_len(&grid);
        if cells.len() != expected {
            return Err(TableError::PayloadLength);
        }
        Ok(Self { grid, cells })
    }

    pub const fn grid(&self) -> &Grid {
        &self.grid
    }

    /// The population of a rectangle: four lookups, and two of those for a span that wraps.
    ///
    /// # Panics
    /// If an index was minted by a larger grid; [`Row`] says why that is a stop.
    pub fn population(&self, rows: RowBand, cols: ColSpan) -> f64 {
        let width = self.grid.width();
        // The band is ordered, so its southern end is the only one that can run off the grid.
        assert!(
            rows.south.get() < self.grid.height(),
            "row {} is not a row of a {}-row table",
            rows.south.get(),
            self.grid.height()
        );

        match cols {
            // One rectangle over every column, never two pieces meeting at a seam. The full turn is
            // the case a split double-counts, and here there is no split to get wrong.
            ColSpan::FullTurn => self.rectangle(rows, 0, width),
            ColSpan::Through { west, east } => {
                assert!(
                    west.get() < width && east.get() < width,
                    "({}, {}) are not columns of a {}-column table",
                    west.get(),
                    east.get(),
                    width
                );
                if west.get() <= east.get() {
                    self.rectangle(rows, west.get(), east.get() + 1)
                } else {
                    self.rectangle(rows, west.get(), width) + self.rectangle(rows, 0, east.get() + 1)
                }
            }
        }
    }

    /// `first` and `last` are grid columns, half-open, and both are already padded indices.
    fn rectangle(&self, rows: RowBand, first: u32, last: u32) -> f64 {
        let north = rows.north.get();
        let south = rows.south.get() + 1;
        self.corner(south, last) - self.corner(north, last) - self.corner(south, first)
            + self.corner(north, first)
    }

    fn corner(&self, row: u32, col: u32) -> f64 {
        let stride = self.grid.width() as usize + 1;
        self.cells[row as usize * stride + col as usize]
    }
}

/// Every row and every column, which is the table's whole extent.
///
/// Not a [`Window`] of 90 to −90: the grid's outer southern boundary lies in no cell, by
/// [`Grid::cell_containing`]'s convention, so the whole-globe question is this rather than a window
/// a caller has to nudge off the pole.
pub fn whole(grid: &Grid) -> (RowBand, ColSpan) {
    // Seeded with the middle row, the one row [`Grid`] mints without an `Option`, and widened by
    // every row the grid hands out. That is what makes the extent an expression over the grid's own
    // mints rather than a pair of indices this module asserts are rows.
    let middle = grid.middle_row();
    let rows = grid.rows().fold(RowBand::new(middle, middle), |band, row| {
        RowBand::new(band.north().min(row), band.south().max(row))
    });
    (rows, ColSpan::FullTurn)
}

/// The rows and columns a [`Window`] covers, or `None` when a corner falls outside the grid.
///
/// Here rather than in a caller because it is coordinate arithmetic and one branch — the full turn —
/// and a caller that assembled a [`ColSpan`] itself from a pair of longitudes would get that branch
/// wrong at −180 to 180, which is the case a whole-globe question is always asked in.
///
/// A coordinate on a cell's boundary belongs to the cell south or east of it, and the grid's own
/// outer southern and eastern boundaries belong to no cell at all — both are
/// [`Grid::cell_containing`]'s convention rather than this method's, and [`whole`] is
/// what a caller wanting the extent asks for instead.
pub fn covering(grid: &Grid, window: Window) -> Option<(RowBand, ColSpan)> {
    // A latitude alone has no cell, so pair each with a longitude every grid has: its own origin's.
    let at = |lat: f64, lon: f64| grid.cell_containing(LatLon { lat, lon });
    let west_edge = grid.origin().lon;
    let (north, _) = at(window.north, west_edge)?;
    let (south, _) = at(window.south, west_edge)?;
    let rows = RowBand::new(north, south);

    if window.east - window.west >= 360.0 - BOUNDARY_TOLERANCE_DEG {
        return Some((rows, ColSpan::FullTurn));
    }
    let (_, west) = at(window.north, window.west)?;
    let (_, east) = at(window.north, window.east)?;
    Some((rows, ColSpan::Through { west, east }))
}

/// Saturating rather than wrapping, so a grid too large for this host's addresses is reported as a
/// payload of the wrong length instead of as a smaller shape some payload happens to fit.
pub fn padded_len(grid: &Grid) -> usize {
    let cells = (u64::from(grid.width()) + 1) * (u64::from(grid.height()) + 1);
    usize::try_from(cells).unwrap_or(usize::MAX)
}

/// How coarse a table is, and the grid that makes it: a factor of k folds every k by k block of source
/// cells into one table cell.
///
/// It is built against the grid it will be applied to, because the factor's whole constraint is a
/// relation to that grid — k has to divide both dimensions, so that no block is partial and the coarser
/// grid covers the same ground. Refusing it here is what keeps a half-filled block from being a case
/// the build, the query and the cache each need an answer for.
#[derive(Debug, Clone, Copy, PartialEq)]
pub struct Decimation {
    pub factor: u32,
    pub source: Grid,
    pub grid: Grid,
}

impl Decimation {
    /// # Errors
    /// [`TableError::Decimation`] when `factor` does not divide both of the grid's dimensions, zero
    /// included; [`TableError::DecimatedGrid`] when the coarser grid is not one this crate accepts.
    pub fn new(source: Grid, factor: u32) -> Result<Self, TableError> {
        // A factor of zero needs no case of its own: the grid's dimensions are never zero, and no
        // non-zero number is a multiple of zero, so the rule below refuses it without dividing by it.
        if !source.width().is_multiple_of(factor) || !source.height().is_multiple_of(factor) {
            return Err(TableError::Decimation);
        }

        let grid = Grid::new(
            source.width() / factor,
            source.height() / factor,
            source.origin(),
            source.lon_step() * f64::from(factor),
            source.lat_step() * f64::from(factor),
        )
        .map_err(TableError::DecimatedGrid)?;

        Ok(Self { factor, source, grid })
    }

    pub const fn factor(&self) -> u32 {
        self.factor
    }

    /// The grid the table is over — the source's own when the factor is one.
    pub const fn grid(&self) -> &Grid {
        &self.grid
    }

    pub const fn source(&self) -> &Grid {
        &self.source
    }
}

/// What a build produced beside the rows it emitted, and everything a cache header needs of them.
#[derive(Debug, Clone, Copy, PartialEq)]
pub struct BuiltTable {
    /// The identity of the cells this table was built from — ADR 0005, and the only thing
    /// that says two tables are the same table. Of the source's cells, not the table's: a decimated
    /// table and a full one over the same raster carry the same digest and differ by the factor beside
    /// it, so a mismatch in either is reported as itself.
    pub digest: u64,
    pub tallies: CellTallies,
    /// The whole raster's population: the table's last cell, so it carries the compensation the rest
    /// of the table carries rather than being summed a second way.
    pub total: f64,
    /// What the rows that were emitted are over, so a cache header needs nothing the build did not
    /// already settle.
    pub decimation: Decimation,
}

// The digest in full, because one whose word width or order is left to the
// implementation is a number that happens to match today rather than an identity: FNV-1a, 64-bit,
// standard offset basis and prime, over each sanitised cell's `f32` bits widened to `u64`, in
// row-major order.
pub const FNV_OFFSET_BASIS: u64 = 0xcbf2_9ce4_8422_2325;
const FNV_PRIME: u64 = 0x0000_0100_0000_01b3;

pub fn mix(digest: u64, cell: u32) -> u64 {
    (digest ^ u64::from(cell)).wrapping_mul(FNV_PRIME)
}

/// What a build goes by from call to call, beside the buffers that each call is lent.
#[derive(Debug, Clone, Copy, PartialEq)]
pub struct Builder {
    pub decimation: Decimation,
    pub nodata: u32,
    pub rows: u32,
    pub digest: u64,
    pub tallies: CellTallies,
}

/// What a build is lent: one accumulator row, one correction row, a row of the coarser width to gather
/// into, and the table.
pub struct Buffers<'a> {
    pub acc: &'a mut [f64],
    pub corr: &'a mut [f64],
    pub coarse: &'a mut [f64],
    pub table: &'a mut [f64],
}

impl Builder {
    /// The lengths are those that the decimation asks.
    pub fn start(decimation: Decimation, nodata: u32, lent: &mut Buffers<'_>) -> Self {
        lent.acc.fill(0.0);
        lent.corr.fill(0.0);

        // The zero row, which is the padding itself: emitting it here is what lets a rectangle touching
        // the north edge subtract four corners like any other.
        lent.table[..=decimation.grid().width() as usize].fill(0.0);
        Self { decimation, nodata, rows: 0, digest: FNV_OFFSET_BASIS, tallies: CellTallies::default() }
    }

    /// The accumulator holds the correctly rounded column sum and the correction holds exactly what f64
    /// could not, renormalised after every row; that is why the accumulator can be emitted as it stands,
    /// where Neumaier's deferred correction would need a third row resident to add the two together into.
    pub fn row(&mut self, values: &mut [f32], lent: &mut Buffers<'_>) {
        sanitise_row(values, self.nodata, &mut self.tallies);
        let (acc, corr) = (&mut *lent.acc, &mut *lent.corr);
        let mut digest = self.digest;

        // The row prefix lives in two scalars rather than a row of its own: each prefix is consumed by
        // the column it belongs to in the same step, so nothing here ever needs a whole prefix row.
        let mut prefix = 0.0f64;
        let mut prefix_corr = 0.0f64;
        for (index, &cell) in values.iter().enumerate() {
            digest = mix(digest, cell.to_bits());

            // The one widening in the build, and the ground rule behind it: f32 -> f64 is exact, and
            // no accumulator below is ever anything but f64.
            let (sum, dropped) = two_sum(prefix, f64::from(cell));
            (prefix, prefix_corr) = two_sum(sum, prefix_corr + dropped);

            let column = index + 1;
            let (sum, dropped) = two_sum(acc[column], prefix);
            (acc[column], corr[column]) = two_sum(sum, corr[column] + dropped);
        }

        self.digest = digest;
        self.rows += 1;
        // Every k-th row, because the factor divides the height and so the last row always completes a
        // block: no partial block ever reaches this.
        if self.rows.is_multiple_of(self.decimation.factor()) {
            self.emit(lent);
        }
    }

    fn emit(&self, lent: &mut Buffers<'_>) {
        let factor = self.decimation.factor() as usize;
        let stride = self.decimation.grid().width() as usize + 1;
        let start = self.rows as usize / factor * stride;
        gather(lent.acc, lent.coarse, factor);
        lent.table[start..start + stride].copy_from_slice(decimated(lent.acc, lent.coarse, factor));
    }

    pub fn finish(&self, lent: &Buffers<'_>) -> BuiltTable {
        BuiltTable {
            digest: self.digest,
            tallies: self.tallies,
            total: lent.acc[self.decimation.source().width() as usize],
            decimation: self.decimation,
        }
    }
}

/// The row to emit: the accumulator itself, or every k-th cell of it.
///
/// A decimated summation table **is** the full one's every k-th row and column, because the prefix sum
/// over k by k blocks and the prefix sum over cells agree at every block corner. So decimation needs no
/// block sum of its own, and the one thing forbidden — a block rounded before the table sees it
/// — has nothing to round: every source cell is folded into the f64 accumulators exactly as it would be
/// at full resolution, and the coarser table is what is read back out.
fn decimated<'r>(acc: &'r [f64], coarse: &'r [f64], factor: usize) -> &'r [f64] {
    if factor == 1 {
        acc
    } else {
        coarse
    }
}

/// At factor 1 nothing is gathered: the accumulator is already the row to emit.
fn gather(acc: &[f64], coarse: &mut [f64], factor: usize) {
    if factor == 1 {
        return;
    }
    for (index, cell) in coarse.iter_mut().enumerate() {
        *cell = acc[index * factor];
    }
}

/// Knuth's two-sum: the rounded sum, and exactly what the rounding dropped, for any two magnitudes.
///
/// The unconditional form rather than Neumaier's comparison of magnitudes — the same arithmetic, and
/// the error term is what both are for, but this one costs no branch per cell over 933 120 000 of them.
pub fn two_sum(a: f64, b: f64) -> (f64, f64) {
    let sum = a + b;
    let b_rounded = sum - a;
    (sum, (a - (sum - b_rounded)) + (b - b_rounded))
}

// MIT licence (NOTICE). From turboBasic/PopulationCircles2026 at 29312e2fd7, crates/popcircles/src/kernel.rs.
// Cut: the error texts and what the errors carry, the tests, `#[must_use]`, the readers.
// Put in: the stand-ins for sin, cos, acos, to_radians and to_degrees; a ratio that is not a number gives the closing
// width before acos. A kernel is the record without its spans, and the spans are lent half-widths: closing for a full
// turn. Fields are open, for records that `new` could not give; `refusals.rs` tests those.

// Step 2 of application.md "Approach": the columns a spherical cap of a given ground radius covers in
// each row of a grid. A span is an offset from a centre column rather than a pair of column indices,
// which is what makes one kernel serve every centre on its row and leaves the seam to one place.
//
// For a positive radius, a cell is in the cap when its centre is within the cap's angular radius of the
// cap centre, measured through geodesy. A zero-radius point has no area and contains no cells. The
// spherical law of cosines below is an estimate the definition corrects rather than the answer: arccos
// loses precision exactly at the cap boundary, where its derivative is unbounded, and what the search
// needs is a membership rule a brute-force distance test reproduces — application.md "Correctness invariants".

use crate::geodesy::{angular_distance_rad, central_angle_rad, LatLon, RadiusKm};
use crate::grid::{Col, Grid, GridIndexError, Row};
use crate::stand_ins::{acos, cos, sin, to_degrees, to_radians};
use crate::table::ColSpan;

#[derive(Debug, Clone, Copy, PartialEq)]
pub enum KernelError {
    ColumnsDoNotClose,
    SliceShort,
    GridIndex(GridIndexError),
}

impl From<GridIndexError> for KernelError {
    fn from(error: GridIndexError) -> Self {
        Self::GridIndex(error)
    }
}

/// The columns one row of a kernel covers, as an offset from the centre column.
#[derive(Debug, Clone, Copy, PartialEq, Eq)]
pub enum Span {
    /// `half_width` columns either side of the centre column, and the centre column itself: `2h + 1`
    /// columns in all.
    Around { half_width: u32 },
    /// Every column of the row. A variant rather than the half width that would reach it, for
    /// [`crate::table::ColSpan::FullTurn`]'s reason: a row wide enough to close on itself must not be
    /// assembled from two pieces that double-count where they meet.
    FullTurn,
}

/// The cap being measured, in the terms one row's span needs, and the only place the geometry lives.
#[derive(Debug, Clone, Copy)]
struct Cap {
    angle_rad: f64,
    centre_lat: f64,
    lon_step: f64,
    width: u32,
}

impl Cap {
    /// The radius becomes an angle once, here, and is clamped at half a turn: no two points on a sphere
    /// are further apart than that, and an angle past π would leave `cos θ` in [`Cap::estimate`]
    /// oscillating instead of saturating — an estimate the walk would then pay for a column at a time.
    fn over(grid: &Grid, centre_lat: f64, radius_km: f64) -> Self {
        Self {
            angle_rad: central_angle_rad(radius_km).min(std::f64::consts::PI),
            centre_lat,
            lon_step: grid.lon_step(),
            width: grid.width(),
        }
    }

    /// The smallest half width that closes a row: `2h + 1 >= width` holds here at both parities, so
    /// reaching it is the full turn rather than a span a column short of one.
    const fn closing(&self) -> u32 {
        self.width / 2
    }

    /// Whether the cell `cells` columns along the row at `lat` is in the cap.
    ///
    /// The longitude is an **offset** — `cells` steps of the grid's own step — and never the difference
    /// of two [`Grid::centre_of`] longitudes, which is a whole multiple of that step only to within a
    /// rounding. Taking the offset is what makes a kernel exactly longitude-invariant rather than
    /// invariant to within the rounding that decides a boundary cell.
    ///
    /// A zero-radius point has no area and therefore contains no population cells.
    fn contains(&self, lat: f64, cells: u32) -> bool {
        if self.angle_rad == 0.0 {
            return false;
        }
        let centre = LatLon { lat: self.centre_lat, lon: 0.0 };
        let along = LatLon { lat, lon: f64::from(cells) * self.lon_step };
        angular_distance_rad(centre, along) <= self.angle_rad
    }

    /// Whether the cap reaches the row at `lat` at all.
    ///
    /// The cell on the cap's own meridian is the row's closest to the centre, because for two fixed
    /// latitudes the great-circle distance grows with the longitude difference across the half turn. So
    /// a row this refuses holds no cell of the cap, and the rows it admits are contiguous.
    fn reaches(&self, lat: f64) -> bool {
        self.contains(lat, 0)
    }

    /// The columns the cap covers in a row it reaches.
    fn span(&self, lat: f64) -> Span {
        let closing = self.closing();
        let mut half_width = self.estimate(lat).min(closing);
        // The estimate is a starting point and `contains` is the definition, so this walk is what makes
        // the two agree. Either loop moves a step or two in practice, and no estimate can make the
        // answer wrong — only slow. What makes them terminate rather than merely stop is the same
        // monotonicity `reaches` rests on.
        while half_width < closing && self.contains(lat, half_width + 1) {
            half_width += 1;
        }
        while half_width > 0 && !self.contains(lat, half_width) {
            half_width -= 1;
        }

        if half_width == closing {
            Span::FullTurn
        } else {
            Span::Around { half_width }
        }
    }

    /// The half width the spherical law of cosines gives: `cos θ = sin φ₀ sin φ + cos φ₀ cos φ cos Δλ`,
    /// solved for Δλ and floored to whole columns.
    fn estimate(&self, lat: f64) -> u32 {
        let closing = self.closing();
        let (centre, row) = (to_radians(self.centre_lat), to_radians(lat));
        let ratio = (cos(self.angle_rad) - sin(centre) * sin(row)) / (cos(centre) * cos(row));

        // The two degenerate branches, explicit because no arccos answers either: at or past 1 the cap
        // reaches no further than its own meridian in this row, and at or past −1 it covers the row.
        if ratio >= 1.0 {
            return 0;
        }
        if ratio <= -1.0 || ratio.is_nan() {
            return closing;
        }

        let cells = to_degrees(acos(ratio)) / self.lon_step.abs();
        if cells.is_nan() || cells >= f64::from(closing) {
            return closing;
        }
        // `cells` is finite and inside `[0, closing)`, so truncating is exact, and truncation is the
        // floor this wants: the last column the estimate claims. std offers no fallible f64 -> u32.
        cells as u32
    }
}

/// A cap of a given ground radius, decomposed into the columns it covers in each row it reaches.
///
/// It is built for a **row**, not for a cell: the shape depends on the centre's latitude and on nothing
/// else, so one kernel serves every centre on that row and the longitudes enter only when it is placed.
///
/// A grid whose columns do not close has no kernel. Invariance is the whole point of the type, and on a
/// grid that does not close a span would need clipping that depends on which column the centre is —
/// which is to say it would not be one shape but a different shape per centre.
#[derive(Debug, Clone, Copy, PartialEq)]
pub struct Kernel {
    pub grid: Grid,
    pub centre: Row,
    pub radius: RadiusKm,
    pub north: Row,
    pub count: u32,
}

impl Kernel {
    /// # Errors
    /// [`KernelError::ColumnsDoNotClose`] when the grid's columns do not close on themselves, which is
    /// the whole of what a caller holding a [`RadiusKm`] can be wrong about here. A zero-radius point
    /// contains no cells. Returns [`KernelError::GridIndex`] if `centre` is outside the grid, and
    /// [`KernelError::SliceShort`] if the lent slice has fewer entries than the grid has rows.
    pub fn new(
        grid: Grid,
        centre: Row,
        radius: RadiusKm,
        half_widths: &mut [u32],
    ) -> Result<Self, KernelError> {
        let centre_lat = grid.centre_lat(centre)?;
        if !grid.spans_full_turn() {
            return Err(KernelError::ColumnsDoNotClose);
        }
        if half_widths.len() < grid.height() as usize {
            return Err(KernelError::SliceShort);
        }
        if radius.km() == 0.0 {
            return Ok(Self { grid, centre, radius, north: centre, count: 0 });
        }

        let cap = Cap::over(&grid, centre_lat, radius.km());

        // North then south from the centre row, each stopping at the first row the cap does not reach:
        // the rows it reaches are contiguous, so a first miss is the end of the band and not a gap in
        // it. The grid's own ends stop the walk too, which is how a cap reaching past a pole — or past
        // the edge of a grid covering a band of latitude only — is clipped rather than refused.
        let mut north = centre;
        while let Some(previous) = north.get().checked_sub(1).and_then(|index| grid.row(index)) {
            if !cap.reaches(grid.centre_lat(previous)?) {
                break;
            }
            north = previous;
        }
        let mut south = centre;
        while let Some(next) = south.get().checked_add(1).and_then(|index| grid.row(index)) {
            if !cap.reaches(grid.centre_lat(next)?) {
                break;
            }
            south = next;
        }

        let mut count = 0;
        for row in grid.rows().skip(north.get() as usize).take_while(|row| *row <= south) {
            half_widths[count as usize] = match cap.span(grid.centre_lat(row)?) {
                Span::FullTurn => cap.closing(),
                Span::Around { half_width } => half_width,
            };
            count += 1;
        }

        Ok(Self { grid, centre, radius, north, count })
    }

    /// The grid this kernel was built over — the whole of it, not the band the cap reaches. A cap
    /// clipped at the grid's edge still belongs to the grid, and an evaluation checking a table against
    /// this needs the grid the table's own would have to equal.
    pub const fn grid(&self) -> &Grid {
        &self.grid
    }

    /// Every row the cap reaches, north to south, with the columns it covers there.
    pub fn rows<'a>(&'a self, half_widths: &'a [u32]) -> impl Iterator<Item = (Row, Span)> + 'a {
        let closing = self.grid.width() / 2;
        self.grid
            .rows()
            .skip(self.north.get() as usize)
            .zip(half_widths[..self.count as usize].iter().copied())
            .map(move |(row, half_width)| {
                (row, if half_width == closing { Span::FullTurn } else { Span::Around { half_width } })
            })
    }

    /// The kernel laid on a centre column: each row it reaches and the columns it covers there, in the
    /// terms [`crate::table::Table::population`] takes.
    ///
    /// Yielding a [`ColSpan`] rather than a shape of its own is deliberate. A second spelling of
    /// "wrapped columns" would have to be converted into that one somewhere, and the conversion is
    /// exactly where the double count [`ColSpan::FullTurn`] exists to prevent comes back.
    ///
    /// The offsets are symmetric about the centre, so which of a [`ColSpan::Through`]'s two fields the
    /// lower index lands in follows `lon_step`'s sign. The set of columns does not, and neither does its
    /// population.
    ///
    /// # Errors
    /// Returns [`GridIndexError`] if `centre` is outside the grid or a yielded placement is invalid.
    pub fn place<'a>(
        &'a self,
        half_widths: &'a [u32],
        centre: Col,
    ) -> Result<impl Iterator<Item = Result<(Row, ColSpan), GridIndexError>> + 'a, GridIndexError> {
        self.grid.col_along(centre, 0)?;
        Ok(self.rows(half_widths).map(move |(row, span)| {
            let cols = match span {
                Span::FullTurn => ColSpan::FullTurn,
                Span::Around { half_width } => {
                    let offset = i64::from(half_width);
                    ColSpan::Through {
                        west: self.grid.col_along(centre, -offset)?,
                        east: self.grid.col_along(centre, offset)?,
                    }
                }
            };
            Ok((row, cols))
        }))
    }
}

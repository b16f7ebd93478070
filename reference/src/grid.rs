// MIT licence (NOTICE). From turboBasic/PopulationCircles2026 at 29312e2fd7, crates/popcircles/src/grid.rs.
// Cut: the error texts and what the errors carry, the tests, `#[must_use]`, `cols`, `middle_row_cell_area_km2`.
// Put in: check 2 after 1, `rem_euclid` written out; equality of grids by bits (document 02, C-20). An index that does not
// fit is the refusal's number, the row before the column. Fields and indices are open, for records that `new` could not
// give; `refusals.rs` tests those.
use crate::geodesy::{wrap_lon, zone_area_km2, LatBand, LatLon};
use crate::stand_ins::rem_euclid;

// A step arrives as a decimal from a geotransform and need not round-trip to the rational it
// means, so a span computed from one lands a few ulps off the whole number it is meant to hit —
// past -90 for a grid that in fact ends at the pole, short of 360 for one that in fact closes on
// itself. The size is what keeps this from swallowing a real discrepancy: being out by one cell
// costs 1/120° on the finest grid here, eight orders of magnitude above this.
//
// The registry raster is what fixes the scale rather than a guess: its step is 1/120 + 5.4e-16 and
// its origin latitude 90 + 1.16e-11, so the width times the step overshoots a full turn by 2.3e-11.
// pub(crate) because the raster reader compares a file's geotransform against a declared grid and
// has to allow exactly the same rounding this does — a second constant there would be two answers to
// one question.
pub(crate) const BOUNDARY_TOLERANCE_DEG: f64 = 1e-9;

/// The most rows or columns.
const LIMIT: u32 = 1_048_576;

/// In the order of the checks, 1 to 9.
#[derive(Debug, Clone, Copy, PartialEq)]
pub enum GridError {
    EmptyDimension = 1,
    OverLimit,
    NonFiniteOrigin,
    OriginLatOutOfRange,
    NonFiniteStep,
    ZeroStep,
    LatStepNotSouthward,
    RunsPastSouthPole,
    RunsPastAFullTurn,
}

/// An index does not fit the grid receiving it.
#[derive(Debug, Clone, Copy, PartialEq, Eq)]
pub enum GridIndexError {
    RowOutOfBounds = 15,
    ColumnOutOfBounds = 16,
}

#[derive(Debug, Clone, Copy, PartialEq)]
pub struct LonSpan {
    pub west: f64,
    pub east: f64,
}

/// An index minted by one grid can be passed to another because the type carries no grid identity.
/// Index-consuming methods check it against the receiving grid and return [`GridIndexError`] when it
/// does not fit.
#[derive(Debug, Clone, Copy, PartialEq, Eq, PartialOrd, Ord, Hash)]
pub struct Row(pub u32);

#[derive(Debug, Clone, Copy, PartialEq, Eq, PartialOrd, Ord, Hash)]
pub struct Col(pub u32);

impl Row {
    pub const fn get(self) -> u32 {
        self.0
    }
}

impl Col {
    pub const fn get(self) -> u32 {
        self.0
    }
}

/// Rows run north to south, so `lat_step` is negative — the GDAL north-up convention, kept so a
/// geotransform read from a raster needs no sign flip.
#[derive(Debug, Clone, Copy)]
pub struct Grid {
    pub width: u32,
    pub height: u32,
    pub origin: LatLon,
    pub lon_step: f64,
    pub lat_step: f64,
}

impl Grid {
    /// The bits of the four floats. The counter's language has one NaN, so every NaN has the same here.
    pub fn float_bits(&self) -> [u64; 4] {
        let floats = [self.origin.lat, self.origin.lon, self.lon_step, self.lat_step];
        floats.map(|x| if x.is_nan() { 0x7ff8_0000_0000_0000 } else { x.to_bits() })
    }
}

/// Both dimensions match, and the four floats have the same bits.
impl PartialEq for Grid {
    fn eq(&self, other: &Self) -> bool {
        self.width == other.width && self.height == other.height && self.float_bits() == other.float_bits()
    }
}

impl Grid {
    /// # Errors
    /// [`GridError`], whose variants name the cases, when the arguments cannot describe a north-up
    /// grid that stays on the globe.
    pub fn new(
        width: u32,
        height: u32,
        origin: LatLon,
        lon_step: f64,
        lat_step: f64,
    ) -> Result<Self, GridError> {
        if width == 0 || height == 0 {
            return Err(GridError::EmptyDimension);
        }
        if width > LIMIT || height > LIMIT {
            return Err(GridError::OverLimit);
        }
        if !origin.lat.is_finite() || !origin.lon.is_finite() {
            return Err(GridError::NonFiniteOrigin);
        }
        if !(-90.0..=90.0).contains(&origin.lat) {
            return Err(GridError::OriginLatOutOfRange);
        }
        if !lon_step.is_finite() || !lat_step.is_finite() {
            return Err(GridError::NonFiniteStep);
        }
        if lon_step == 0.0 || lat_step == 0.0 {
            return Err(GridError::ZeroStep);
        }
        if lat_step > 0.0 {
            return Err(GridError::LatStepNotSouthward);
        }

        // u32 -> f64 is exact: f64 represents every integer below 2^53.
        let south_edge = origin.lat + f64::from(height) * lat_step;
        if south_edge < -90.0 - BOUNDARY_TOLERANCE_DEG {
            return Err(GridError::RunsPastSouthPole);
        }

        // The longitude axis needs its own bound, and for a different reason than the latitude one:
        // past a full turn two columns address the same meridian, so `cell_containing` cannot invert
        // `centre_of` and the round trip fails on a plausible answer rather than on an error.
        let lon_span = f64::from(width) * lon_step.abs();
        if lon_span > 360.0 + BOUNDARY_TOLERANCE_DEG {
            return Err(GridError::RunsPastAFullTurn);
        }

        Ok(Self {
            width,
            height,
            // Reducing the origin once here is what keeps `centre_of` and `cell_containing` talking
            // about the same longitudes: the inverse reduces modulo a turn and so is indifferent to
            // an origin a few turns out, while the forward direction would carry that offset into
            // every coordinate it returns and hand a renderer a longitude of 540.
            origin: LatLon { lat: origin.lat, lon: wrap_lon(origin.lon) },
            lon_step,
            lat_step,
        })
    }

    pub const fn width(&self) -> u32 {
        self.width
    }

    pub const fn height(&self) -> u32 {
        self.height
    }

    pub const fn origin(&self) -> LatLon {
        self.origin
    }

    pub const fn lon_step(&self) -> f64 {
        self.lon_step
    }

    pub const fn lat_step(&self) -> f64 {
        self.lat_step
    }

    /// The row this grid contains at `row`, or `None` when it has no such row.
    pub const fn row(&self, row: u32) -> Option<Row> {
        if row < self.height {
            Some(Row(row))
        } else {
            None
        }
    }

    pub const fn col(&self, col: u32) -> Option<Col> {
        if col < self.width {
            Some(Col(col))
        } else {
            None
        }
    }

    /// The row halfway down the grid. The one mint that returns a [`Row`] rather than an
    /// `Option<Row>`, because the constructor rejects a zero height, so the middle index always
    /// names a row and a caller has no absent case to invent a number for.
    pub const fn middle_row(&self) -> Row {
        Row(self.height / 2)
    }

    /// Every row north to south. It exists so a traversal needs no index it has to check: the iterator is
    /// the mint.
    pub fn rows(&self) -> impl Iterator<Item = Row> {
        (0..self.height).map(Row)
    }

    /// The centre of a cell, not its corner: an index addresses a sample, and every distance in the
    /// search is measured between sample centres.
    ///
    /// The longitude is reduced only as far as the origin was, so a grid whose columns cross the
    /// antimeridian returns one past 180 rather than folded — folding it here is what would put west
    /// east of east in a [`LonSpan`]. Distance does not care, since it works on a difference;
    /// anything presenting a coordinate reduces with [`crate::geodesy::wrap_lon`].
    ///
    /// # Errors
    /// Returns [`GridIndexError`] if either index is outside this grid.
    pub fn centre_of(&self, row: Row, col: Col) -> Result<LatLon, GridIndexError> {
        if row.0 >= self.height {
            return Err(GridIndexError::RowOutOfBounds);
        }
        if col.0 >= self.width {
            return Err(GridIndexError::ColumnOutOfBounds);
        }
        // u32 -> f64 is exact below 2^53, so this carries no rounding of its own.
        Ok(LatLon {
            lat: self.origin.lat + (f64::from(row.0) + 0.5) * self.lat_step,
            lon: self.origin.lon + (f64::from(col.0) + 0.5) * self.lon_step,
        })
    }

    /// The latitude every cell centre in a row shares.
    ///
    /// It takes no column for the reason [`Grid::cell_area_km2`] takes none, and it exists because a
    /// circular kernel is built from a row's latitude alone: without it such a caller has to name a
    /// column it has no use for, and a column it invented is a column it could invent wrongly.
    /// [`Grid::centre_of`] reads it rather than recomputing it, so a row has one latitude and not two
    /// that agree.
    ///
    /// # Errors
    /// Returns [`GridIndexError::RowOutOfBounds`] if `row` is outside this grid.
    pub fn centre_lat(&self, row: Row) -> Result<f64, GridIndexError> {
        if row.0 >= self.height {
            return Err(GridIndexError::RowOutOfBounds);
        }
        Ok(self.origin.lat + (f64::from(row.0) + 0.5) * self.lat_step)
    }

    /// # Errors
    /// Returns [`GridIndexError::RowOutOfBounds`] if `row` is outside this grid.
    pub fn lat_bounds(&self, row: Row) -> Result<LatBand, GridIndexError> {
        if row.0 >= self.height {
            return Err(GridIndexError::RowOutOfBounds);
        }
        Ok(self.lat_band_unchecked(row))
    }

    fn lat_band_unchecked(&self, row: Row) -> LatBand {
        let north = self.origin.lat + f64::from(row.0) * self.lat_step;
        // lat_step is negative by construction, so north is the larger of the two.
        LatBand::new(north, north + self.lat_step)
    }

    /// # Errors
    /// Returns [`GridIndexError::ColumnOutOfBounds`] if `col` is outside this grid.
    pub fn lon_bounds(&self, col: Col) -> Result<LonSpan, GridIndexError> {
        if col.0 >= self.width {
            return Err(GridIndexError::ColumnOutOfBounds);
        }
        let a = self.origin.lon + f64::from(col.0) * self.lon_step;
        let b = a + self.lon_step;
        // lon_step's sign is not constrained, so order by value rather than by index.
        Ok(LonSpan { west: a.min(b), east: a.max(b) })
    }

    /// The column `cells` along from `col`, counting round the seam: through rising indices when
    /// `cells` is positive, falling when it is negative.
    ///
    /// For an in-range starting column, the offset is reduced modulo the width and always names a
    /// column this grid has. Whether that column also sits `cells` steps *east on the ground* turns on
    /// [`Grid::spans_full_turn`] and on `lon_step`'s sign, and this asks neither: the caller for which
    /// the ground matters is [`crate::kernel::Kernel`], which settles both before it places a span.
    ///
    /// # Errors
    /// Returns [`GridIndexError::ColumnOutOfBounds`] if `col` is outside this grid.
    pub fn col_along(&self, col: Col, cells: i64) -> Result<Col, GridIndexError> {
        if col.0 >= self.width {
            return Err(GridIndexError::ColumnOutOfBounds);
        }
        let width = i64::from(self.width);
        // The offset is reduced before it is added rather than after, so both terms stay below 2^32 and
        // no offset a caller can pass overflows the sum.
        let index = (i64::from(col.0) + cells.rem_euclid(width)).rem_euclid(width);
        // rem_euclid by a positive modulus lands in [0, width), and the width came from a u32, so this
        // conversion is exact. std offers no fallible i64 -> u32, which is why it is a cast.
        Ok(Col(index as u32))
    }

    /// The cell containing a coordinate, or `None` when it falls outside the grid.
    ///
    /// Longitude is reduced modulo a full turn first, so on a whole-globe grid every longitude
    /// lands in a column and the antimeridian is not a boundary. On a window grid a longitude
    /// outside the window has no column, and that is the `None`.
    pub fn cell_containing(&self, at: LatLon) -> Option<(Row, Col)> {
        if !at.lat.is_finite() || !at.lon.is_finite() {
            return None;
        }

        let row = Row(index_from_offset((at.lat - self.origin.lat) / self.lat_step, self.height)?);

        let cells_from_origin = (at.lon - self.origin.lon) / self.lon_step;
        // Reducing by the width rather than by 360/step is what makes "every longitude has a
        // column" exact on a closed grid: 360/step can exceed the width by a rounding sliver, and
        // longitudes falling in that sliver would otherwise have no column at all.
        let modulus =
            if self.spans_full_turn() { f64::from(self.width) } else { 360.0 / self.lon_step.abs() };
        let col = Col(index_from_offset(rem_euclid(cells_from_origin, modulus), self.width)?);

        Some((row, col))
    }

    /// The ground area of any cell in a row. Every cell in a row has the same area, so this takes no
    /// column.
    ///
    /// It reads the row's edges through [`Grid::lat_bounds`] rather than recomputing them, which is
    /// what stops the area and the coordinate of a row from ever disagreeing about where the row is.
    ///
    /// # Errors
    /// Returns [`GridIndexError::RowOutOfBounds`] if `row` is outside this grid.
    pub fn cell_area_km2(&self, row: Row) -> Result<f64, GridIndexError> {
        Ok(zone_area_km2(self.lat_bounds(row)?, self.lon_step.abs()))
    }

    /// Whether the columns close on themselves, as a whole-globe raster's do.
    pub fn spans_full_turn(&self) -> bool {
        (f64::from(self.width) * self.lon_step.abs() - 360.0).abs() <= BOUNDARY_TOLERANCE_DEG
    }
}

/// `offset` is a position in cells from the origin along one axis; the index is the cell it falls
/// in, or `None` when that is off the end.
pub fn index_from_offset(offset: f64, limit: u32) -> Option<u32> {
    let floored = offset.floor();
    if !(0.0..f64::from(limit)).contains(&floored) {
        return None;
    }
    // The range check above proves floored is an integral f64 in [0, limit) and limit is a u32, so
    // this conversion is exact. std offers no fallible f64 -> u32, which is why it is a cast.
    Some(floored as u32)
}

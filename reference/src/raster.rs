// MIT licence (NOTICE). From turboBasic/PopulationCircles2026 at 29312e2fd7, crates/popcircles/src/raster.rs.
// Cut: all but the tallies and `sanitise_row`.
// Put in: the sentinel comes as its bits; document 02's C-12, the tally of +infinity.

/// Where every cell of a drained raster went. The five classes are disjoint and exhaustive, so they
/// sum to the grid's cell count, and that sum is the claim a caller can check its own traversal
/// against.
#[derive(Debug, Clone, Copy, Default, PartialEq, Eq)]
pub struct CellTallies {
    /// Cells matching the declared sentinel bit for bit.
    pub nodata: u64,
    /// Negative cells that did not match it. Zero population all the same, counted apart because
    /// nothing about the dataset says they should exist — the count is what turns that from an
    /// assumption into an observation.
    pub unexpected_negative: u64,
    pub zero: u64,
    pub populated: u64,
    /// Cells of +infinity that did not match it (document 02, C-12).
    pub unbounded: u64,
}

impl CellTallies {
    /// In record order.
    pub fn fields(self) -> [u64; 5] {
        [self.nodata, self.unexpected_negative, self.zero, self.populated, self.unbounded]
    }

    pub fn of_fields([nodata, unexpected_negative, zero, populated, unbounded]: [u64; 5]) -> Self {
        Self { nodata, unexpected_negative, zero, populated, unbounded }
    }
}

/// The one place a sentinel becomes a zero, and the only thing in this crate that knows a nodata value
/// from a population count. `application.md` "Nodata" is why it is one place: a second copy is how a
/// later stage ends up having to tell them apart again.
///
/// The sentinel is matched on bits, not with `==`. A `GDAL_NODATA` of `nan` is a legal tag that `==`
/// would never match, and the registry raster's sentinel sits two ulps from `-f32::MAX`, so a
/// comparison that is nearly right is a world population of zero.
pub fn sanitise_row(values: &mut [f32], sentinel: u32, tallies: &mut CellTallies) {
    for value in values {
        if value.to_bits() == sentinel {
            tallies.nodata += 1;
            *value = 0.0;
        } else if *value == f32::INFINITY {
            tallies.unbounded += 1;
            *value = 0.0;
        } else if *value < 0.0 {
            tallies.unexpected_negative += 1;
            *value = 0.0;
        } else if *value > 0.0 {
            tallies.populated += 1;
        } else {
            // Zero, and everything else that is not a count: a NaN which is not the sentinel compares
            // false both ways and lands here. Writing zero rather than leaving it is what keeps "no
            // later stage has to know a sentinel from a count" true of NaN too.
            tallies.zero += 1;
            *value = 0.0;
        }
    }
}

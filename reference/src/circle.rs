// MIT licence (NOTICE). From turboBasic/PopulationCircles2026 at 29312e2fd7, crates/popcircles/src/circle.rs.
// Cut: countries, the tests.
// Put in: the kernel's half-widths are lent. Two grids that differ are a refusal, tested in `refusals.rs`.

// The ground step 3 of application.md "Approach" stands on: the population inside a circle of a given
// ground radius, anywhere on the globe. The geometry is the kernel's and the arithmetic is the table's,
// so what is here is the fold between them and nothing else — no distance, no latitude, no angle.

use crate::grid::{Col, GridIndexError};
use crate::kernel::Kernel;
use crate::table::{RowBand, Table};

/// The population inside the circle `kernel` describes, centred on `centre` in the kernel's own row.
///
/// One rectangle per row the cap reaches, added in the order [`Kernel::place`] yields them, north to
/// south. The order is fixed rather than incidental: a rerun has to give the same answer down to the last
/// bit, so nothing here sorts the rows, splits them across threads, or merges two of them into one query.
///
/// A grid whose columns do not close needs no case: [`Kernel::new`] refuses one, so holding a kernel is
/// the proof, and that the table has the same grid extends it to the table.
///
/// # Errors
/// Returns [`GridIndexError`] if `centre` is outside the kernel grid.
pub fn population(
    table: &Table<'_>,
    kernel: &Kernel,
    half_widths: &[u32],
    centre: Col,
) -> Result<f64, GridIndexError> {
    let mut total = 0.0;
    for placed in kernel.place(half_widths, centre)? {
        let (row, cols) = placed?;
        total += table.population(RowBand::new(row, row), cols);
    }
    Ok(total)
}

// The proved calls, linked from the crate `exports`. A slice is lent as its pointer and its length.
use crate::table::Buffers;

extern "C" {
    fn exports_sqrt(x: f64) -> f64;
    fn exports_two_sum(a: f64, b: f64) -> f64;
    fn exports_rem_euclid(x: f64, m: f64) -> f64;
    fn exports_great_circle_km(lat0: f64, lon0: f64, lat1: f64, lon1: f64) -> f64;
    fn exports_digest_row(digest: u64, row: *const u32, length: usize) -> u64;
    fn exports_build_row(
        digest: u64,
        row: *mut u32,
        row_length: usize,
        acc: *mut f64,
        acc_length: usize,
        corr: *mut f64,
        corr_length: usize,
        coarse: *mut f64,
        coarse_length: usize,
        table: *mut f64,
        table_length: usize,
    ) -> u64;
    fn exports_kernel(row: u32, km: f64, half_widths: *mut u32, length: usize) -> u64;
    fn exports_circle(
        cells: *const f64,
        cells_length: usize,
        north: u32,
        count: u32,
        half_widths: *const u32,
        half_widths_length: usize,
        column: u32,
    ) -> f64;
    fn exports_rectangle(
        cells: *const f64,
        cells_length: usize,
        north: u32,
        south: u32,
        west: u32,
        east: u32,
    ) -> f64;
    fn exports_card_answer(card: *const u8, card_length: usize, out: *mut u8, out_length: usize) -> usize;
}

// SAFETY, of each: the proved function takes every number, and each pointer and length are of one slice.

pub fn sqrt(x: f64) -> f64 {
    unsafe { exports_sqrt(x) }
}

pub fn two_sum(a: f64, b: f64) -> f64 {
    unsafe { exports_two_sum(a, b) }
}

pub fn rem_euclid(x: f64, m: f64) -> f64 {
    unsafe { exports_rem_euclid(x, m) }
}

pub fn great_circle_km(lat0: f64, lon0: f64, lat1: f64, lon1: f64) -> f64 {
    unsafe { exports_great_circle_km(lat0, lon0, lat1, lon1) }
}

pub fn digest_row(digest: u64, row: &[u32]) -> u64 {
    unsafe { exports_digest_row(digest, row.as_ptr(), row.len()) }
}

pub fn build_row(digest: u64, row: &mut [u32], lent: &mut Buffers<'_>) -> u64 {
    unsafe {
        exports_build_row(
            digest,
            row.as_mut_ptr(),
            row.len(),
            lent.acc.as_mut_ptr(),
            lent.acc.len(),
            lent.corr.as_mut_ptr(),
            lent.corr.len(),
            lent.coarse.as_mut_ptr(),
            lent.coarse.len(),
            lent.table.as_mut_ptr(),
            lent.table.len(),
        )
    }
}

pub fn kernel(row: u32, km: f64, half_widths: &mut [u32]) -> u64 {
    unsafe { exports_kernel(row, km, half_widths.as_mut_ptr(), half_widths.len()) }
}

pub fn circle(cells: &[f64], north: u32, count: u32, half_widths: &[u32], column: u32) -> f64 {
    let (widths, length) = (half_widths.as_ptr(), half_widths.len());
    unsafe { exports_circle(cells.as_ptr(), cells.len(), north, count, widths, length, column) }
}

pub fn rectangle(cells: &[f64], north: u32, south: u32, west: u32, east: u32) -> f64 {
    unsafe { exports_rectangle(cells.as_ptr(), cells.len(), north, south, west, east) }
}

pub fn card_answer(card: &[u8], out: &mut [u8]) -> usize {
    unsafe { exports_card_answer(card.as_ptr(), card.len(), out.as_mut_ptr(), out.len()) }
}

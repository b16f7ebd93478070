// Cards whose sections lie every way to each other, to the header and to the card's end.
use crate::generate_cards::{cells, circles, damage, layout, put, NODATA};
use crate::random::Random;

/// Of one card in eight a few bytes are cut off, and one in eight has a damage besides, so that 25 and the causes ahead of it
/// stand beside 32.
pub fn card(r: &mut Random) -> Vec<u8> {
    let layout = layout(r);
    let nodata = r.of(&NODATA);
    let cells = cells(r, &layout, nodata);
    let rows = 4 * cells.len() as u64;
    let count = match r.below(8) {
        0..=2 => 0,
        // As long as the rows where these are of whole circles, else a little shorter; then a little longer.
        3 => rows / 16,
        4 => rows / 16 + 1 + r.below(3),
        _ => 1 + r.below(8),
    };
    let circles = circles(r, &layout, count);
    let at = if count == 0 { [start(r), 0] } else { places(r, rows, 16 * count) };
    let mut card = layout.card_at(nodata, &cells, &circles, at.map(|at| at as u32));
    card.resize(card.len() + r.of(&[0, 0, 1, 8]), 0);
    if count == 0 {
        let at = without_circles(r, at[0], rows, card.len() as u64);
        put(&mut card, 56, &(at as u32).to_le_bytes());
    }
    if r.one_in(8) {
        card.truncate((card.len() - 1 - r.below(20) as usize).max(64));
    }
    if r.one_in(8) {
        damage(r, &mut card);
    }
    card
}

/// Where the first section starts: right behind the header, a little farther, or over it.
fn start(r: &mut Random) -> u64 {
    match r.below(12) {
        0 => r.of(&[0, 63]),
        1 => r.below(64),
        _ => 64 + r.of(&[0, 0, 1, 3, 16]),
    }
}

/// Offsets of rows and circles, which take so many bytes.
fn places(r: &mut Random, rows: u64, circles: u64) -> [u64; 2] {
    let at = start(r);
    match r.below(8) {
        // Behind each other: with a byte in both, touching, with a byte between.
        0 | 1 => [at, at + rows + r.below(3) - 1],
        2 | 3 => [at + circles + r.below(3) - 1, at],
        // One in the other, at either end of it or inside.
        4 if circles <= rows => [at, at + up_to(r, rows - circles)],
        4 => [at + up_to(r, circles - rows), at],
        5 => [at, at],
        6 => [at, r.below(at + rows + 16)],
        _ => [r.below(at + circles + 16), at],
    }
}

/// From 0 to `most`, both ends often.
fn up_to(r: &mut Random, most: u64) -> u64 {
    let any = r.below(most + 1);
    r.of(&[0, most, any])
}

/// The offset of no circles, on a card of this length.
fn without_circles(r: &mut Random, rows_at: u64, rows: u64, length: u64) -> u64 {
    match r.below(10) {
        0 => 0,
        1 => 1 + r.below(63),
        2 => 64,
        3 | 4 => rows_at + 1 + r.below(rows - 1),
        5 => rows_at + r.of(&[0, rows]),
        6 => length,
        7 => length + 1,
        8 => r.of(&[length + 2, length + 16, 65_536, 65_537, 0xffff_ffff]),
        _ => r.below(length + 1),
    }
}

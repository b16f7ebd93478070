// Cards whose table is as large as it may be, a block larger, or ends beside a block's end; and the dearest cards.
use crate::generate_cards::{damage, filled, layout_of, side};
use crate::make_card::{placed, usual};
use crate::random::Random;

/// Blocks across and down, of a source table of 8,192 places and of one block more.
const FULL: [[u32; 2]; 8] = [[1, 128], [2, 64], [4, 32], [8, 16], [16, 8], [32, 4], [64, 2], [128, 1]];
const OVER: [[u32; 2]; 4] = [[1, 129], [3, 43], [43, 3], [129, 1]];

/// One card in eight has a damage besides, so that 27 stands beside what comes ahead of it and behind it.
pub fn card(r: &mut Random) -> Vec<u8> {
    let factor = r.of(&[1, 1, 2, 3, 4, 5, 7]);
    let size = match r.below(16) {
        0 => r.of(&FULL).map(|blocks| side_of(r, blocks, factor)),
        1 => r.of(&OVER).map(|blocks| side_of(r, blocks, factor)),
        2 => {
            let across = 1 + r.below(40) as u32;
            let down = 128 / across + r.below(3) as u32;
            [across, down.max(1)].map(|blocks| side_of(r, blocks, factor))
        }
        _ => [side(r, 18), side(r, 18)].map(|side| side * r.of(&[1, factor])),
    };
    let factor = if size.iter().all(|side| side % factor == 0) { factor } else { 1 };
    let layout = layout_of(r, size, factor);
    let mut card = filled(r, &layout);
    if r.one_in(8) {
        damage(r, &mut card);
    }
    card
}

/// Columns or rows whose table has so many blocks in a line, a multiple of a factor up to 7.
fn side_of(r: &mut Random, blocks: u32, factor: u32) -> u32 {
    let least = (8 * blocks - 8).max(1);
    let multiples: Vec<u32> = (least..8 * blocks).filter(|side| side % factor == 0).collect();
    r.of(&multiples)
}

// ---- the dearest cards

/// A raster of whole people, and as many circles of these columns and radii as fit behind it, but at most so many.
fn crowded(
    r: &mut Random,
    size: [u32; 2],
    degrees: [f64; 4],
    most: usize,
    circle: impl Fn(&mut Random) -> (u32, f64),
) -> Vec<u8> {
    let [width, height] = size;
    let cells = (0..width * height).flat_map(|_| (r.below(2000) as f32).to_bits().to_le_bytes());
    let rows: Vec<u8> = cells.collect();
    let mut circles = Vec::new();
    for _ in 0..most.min((65_536 - 64 - rows.len()) / 16) {
        let (col, km) = circle(r);
        circles.extend((height / 2).to_le_bytes());
        circles.extend(col.to_le_bytes());
        circles.extend(km.to_le_bytes());
    }
    placed(size, degrees, 0xc61c_3c00, 1, &rows, &circles, usual(rows.len()))
}

/// One row of 1,023 columns, the most that fit, and 3,836 circles.
pub fn wide(r: &mut Random) -> Vec<u8> {
    let degrees = [60.0, -180.0, 360.0 / 1023.0, -1.0];
    crowded(r, [1023, 1], degrees, usize::MAX, |r| (r.below(1023) as u32, r.below(20_016) as f64))
}

/// The dearest card that was found: 1,023 rows, the most that fit, each reached by every one of 3,324 circles. The latitudes
/// are so near 0 that their squares are subnormal, which the processor takes longer for; and a third of a turn is just within
/// the radius, where the estimate of the half-width is one column short.
pub fn worst(r: &mut Random, most: usize) -> Vec<u8> {
    let degrees = [0.0, -180.0, 120.0, -1e-158];
    crowded(r, [3, 1023], degrees, most, |r| (r.below(3) as u32, 13343.409628023945))
}

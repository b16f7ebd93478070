// How many calls of a list are refused for a length, and which of the four were wrong. Such a call changes nothing.
use crate::blocks::payload_len;
use crate::build_calls::{builder, lent_by, Lent};
use crate::grid_calls::grid;
use crate::in_blocks;
use crate::refusals::{self, Refusal};
use crate::table::Decimation;
use crate::table_calls::cells_of;
use crate::words::{lent, list, Arguments};
use std::collections::BTreeMap;

/// By name: `CALL NUMBER` the refusals; `set NAMES` which lengths were wrong; `kind WORD` how each was; `ahead NUMBER` the
/// calls that would have been refused with NUMBER if their lengths had been right.
pub type Counts = BTreeMap<String, u64>;

const NAMES: [&str; 4] = ["accumulator", "corrections", "coarse", "table"];

/// A call's refusal and its decimation, with what comes after the lengths.
fn refused(number: u64, call: &[u64], buffers: &mut Lent) -> Option<(Refusal, Decimation, Option<Refusal>)> {
    let words = list(call, 0);
    if number == 0x50 {
        let words = &mut Arguments(words);
        let (source, factor, nodata) = (grid(words), words.next() as u32, words.next() as u32);
        let refusal = in_blocks::start(source, factor, nodata, &mut buffers.buffers()).err()?;
        return Some((refusal, refusals::new_decimation(source, factor).ok()?, None));
    }
    let mut b = builder(words);
    let (d, rows) = (b.decimation, b.rows);
    if number == 0x52 {
        let refusal = in_blocks::finish(&b, &mut buffers.buffers()).err()?;
        return Some((refusal, d, (rows < d.source.height).then_some(14)));
    }
    let row = lent(call, 5);
    let mut cells = cells_of(row);
    let refusal = in_blocks::build_row(&mut b, &mut cells, &mut buffers.buffers()).err()?;
    assert!(cells_of(row).iter().zip(&cells).all(|(x, y)| x.to_bits() == y.to_bits()), "the row was changed");
    let wrong_row = (row.len() != d.source.width as usize).then_some(12);
    Some((refusal, d, if rows == d.source.height { Some(13) } else { wrong_row }))
}

fn bits(buffers: &Lent) -> Vec<Vec<u64>> {
    buffers.0.iter().map(|cells| cells.iter().map(|x| x.to_bits()).collect()).collect()
}

pub fn count(counts: &mut Counts, number: u64, call: &[u64]) {
    if !(0x50..=0x52).contains(&number) {
        return;
    }
    let mut buffers = lent_by(call);
    let before = bits(&buffers);
    let refused = refused(number, call, &mut buffers).filter(|(refusal, ..)| [11, 29, 30].contains(refusal));
    let Some((refusal, d, later)) = refused else {
        return;
    };
    assert!(before == bits(&buffers), "a buffer was changed");
    let wide = d.source.width as usize + 1;
    let right = [wide, wide, d.grid.width as usize + 1, payload_len(&d.grid) as usize];
    let mut add = |name: String| *counts.entry(name).or_default() += 1;
    add(format!("{number:x} {refusal}"));
    if let Some(later) = later {
        add(format!("ahead {later}"));
    }
    let wrong: Vec<usize> = (0..4).filter(|&k| before[k].len() != right[k]).collect();
    add(format!("set {}", wrong.iter().map(|&k| NAMES[k]).collect::<Vec<_>>().join("+")));
    for k in wrong {
        let kind = match before[k].len() {
            0 => "none",
            n if n + 1 == right[k] => "shorter",
            n if n == right[k] + 1 => "longer",
            _ => "other",
        };
        add(format!("kind {kind}"));
    }
}

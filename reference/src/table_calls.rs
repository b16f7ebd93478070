// Calls 40 and 60 to 64: rows, rectangles, and the map between row layout and blocks.
use crate::calls::{given, number, one, shown, six, Answer};
use crate::grid::{Col, Row};
use crate::grid_calls::grid;
use crate::in_blocks::{self, rows_of};
use crate::raster::{sanitise_row, CellTallies};
use crate::refusals;
use crate::table::{ColSpan, RowBand, Window};
use crate::words::{lent, list, Arguments};

/// A row from its bit patterns. Patterns of NaN stay as they are.
pub fn cells_of(patterns: &[u64]) -> Vec<f32> {
    patterns.iter().map(|&bits| f32::from_bits(bits as u32)).collect()
}

pub fn floats_of(words: &[u64]) -> Vec<f64> {
    words.iter().map(|&bits| f64::from_bits(bits)).collect()
}

pub fn patterns_of(cells: &[f32]) -> Answer {
    cells.iter().map(|cell| u64::from(cell.to_bits())).collect()
}

pub fn sanitise(call: &[u64]) -> Answer {
    let nodata = Arguments(list(call, 0)).next() as u32;
    let mut cells = cells_of(lent(call, 1));
    let mut tallies = CellTallies::default();
    sanitise_row(&mut cells, nodata, &mut tallies);
    [six(tallies.fields().to_vec()), patterns_of(&cells)].concat()
}

// ---- rectangles

pub fn extents(call: u64, words: &mut Arguments<'_>) -> Answer {
    let g = grid(words);
    if call == 0x61 {
        return given(refusals::whole(&g), extent);
    }
    let (north, south) = (words.float(), words.float());
    let (west, east) = (words.float(), words.float());
    given(refusals::covering(&g, Window { north, south, west, east }), extent)
}

fn extent((rows, cols): (RowBand, ColSpan)) -> Answer {
    let (kind, west, east) = match cols {
        ColSpan::Through { west, east } => (0, west.get(), east.get()),
        ColSpan::FullTurn => (1, 0, 0),
    };
    vec![u64::from(rows.north.get()), u64::from(rows.south.get()), kind, u64::from(west), u64::from(east)]
}

/// Rectangles of one table.
pub fn populations(call: &[u64]) -> Answer {
    let g = grid(&mut Arguments(list(call, 0)));
    let cells = rows_of(&g, &floats_of(lent(call, 1)));
    let questions = list(call, 3).chunks_exact(5);
    let mut answer = one(questions.len() as u64);
    for question in questions {
        let [north, south] = [question[0], question[1]].map(|row| Row(row as u32));
        let [west, east] = [question[3], question[4]].map(|col| Col(col as u32));
        let cols = if question[2] == 0 { ColSpan::Through { west, east } } else { ColSpan::FullTurn };
        let people = refusals::population(&g, &cells, RowBand { north, south }, cols);
        answer.extend(six(given(people, number)));
    }
    answer
}

// ---- the map

/// From the first list to the second; both follow the answer as they are left.
pub fn map(number: u64, call: &[u64]) -> Answer {
    let g = grid(&mut Arguments(list(call, 0)));
    let (read, mut written) = (floats_of(lent(call, 1)), floats_of(lent(call, 2)));
    let done = match number {
        0x63 => in_blocks::map_to_blocks(&g, &read, &mut written),
        _ => in_blocks::map_to_rows(&g, &read, &mut written),
    };
    let left = read.into_iter().chain(written).map(shown).collect();
    [six(given(done, |()| vec![])), left].concat()
}

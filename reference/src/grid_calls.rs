// Calls 30 to 3c: grids.
use crate::calls::{given, number, one, shown, two, Answer};
use crate::geodesy::LatLon;
use crate::grid::{Col, Grid, Row};
use crate::refusals;
use crate::words::Arguments;

/// The six fields of a grid, as they come.
pub fn grid(words: &mut Arguments<'_>) -> Grid {
    Grid {
        width: words.next() as u32,
        height: words.next() as u32,
        origin: LatLon { lat: words.float(), lon: words.float() },
        lon_step: words.float(),
        lat_step: words.float(),
    }
}

pub fn fields(g: Grid) -> Answer {
    let floats = [g.origin.lat, g.origin.lon, g.lon_step, g.lat_step].map(shown);
    [vec![u64::from(g.width), u64::from(g.height)], floats.to_vec()].concat()
}

pub fn answer(call: u64, words: &mut Arguments<'_>) -> Answer {
    let g = grid(words);
    match call {
        // A grid is six words, so no 0 stands ahead of it.
        0x30 => refusals::new_grid(g).map_or_else(one, fields),
        0x38 => given(refusals::spans_full_turn(&g), |spans| one(u64::from(spans))),
        0x39 => given(refusals::middle_row(&g), |row| one(u64::from(row.get()))),
        0x3c => one(u64::from(g == grid(words))),
        _ => lookup(call, &g, words),
    }
}

fn lookup(call: u64, g: &Grid, words: &mut Arguments<'_>) -> Answer {
    let first = words.next();
    let (row, col) = (Row(first as u32), Col(first as u32));
    match call {
        0x31 => {
            let col = Col(words.next() as u32);
            given(refusals::centre_of(g, row, col), |at| two(shown(at.lat), shown(at.lon)))
        }
        0x32 => given(refusals::centre_lat(g, row), number),
        0x33 => given(refusals::lat_bounds(g, row), |band| two(shown(band.north()), shown(band.south()))),
        0x34 => given(refusals::lon_bounds(g, col), |span| two(shown(span.west), shown(span.east))),
        0x35 => {
            let cells = words.next() as i64;
            given(refusals::col_along(g, col, cells), |col| one(u64::from(col.get())))
        }
        0x36 => {
            let at = LatLon { lat: f64::from_bits(first), lon: words.float() };
            given(refusals::cell_containing(g, at), |(row, col)| {
                two(u64::from(row.get()), u64::from(col.get()))
            })
        }
        0x37 => given(refusals::cell_area_km2(g, row), number),
        0x3a => given(refusals::row(g, first as u32), |row| one(u64::from(row.get()))),
        _ => given(refusals::col(g, first as u32), |col| one(u64::from(col.get()))),
    }
}

// How large the tables of a run's cards are: at the limit of 27, past it, and beside the end of a block.
use crate::answer_card::{word, Check, Refused, MOST_PLACES};
use crate::blocks::{payload_len, BLOCK};
use crate::geodesy::LatLon;
use crate::grid::Grid;

#[derive(Default)]
pub struct TableCounts {
    /// Source tables of exactly 8,192 places that are not refused for it; of them with a factor above 1.
    full: [u64; 2],
    /// Refused 27 for the table: a block over, and farther over.
    over: [u64; 2],
    /// Of those: of at most 8,192 cells, and with a coarse table within the limit.
    few_cells: u64,
    coarse_within: u64,
    /// Of accepted cards, by what is left of the coarse grid's columns and rows at 8.
    sides: [[u64; 8]; 2],
}

impl TableCounts {
    /// Of cards that meet the table's check.
    pub fn add(&mut self, card: &[u8], refused: Option<Refused>) {
        if refused.is_some_and(|by| by.check < Check::Table) {
            return;
        }
        let factor = word(card, 44);
        let table = |factor: u32| {
            let origin = LatLon { lat: 0.0, lon: 0.0 };
            let [width, height] = [0, 4].map(|at| word(card, at) / factor);
            Grid { width, height, origin, lon_step: 0.0, lat_step: 0.0 }
        };
        let (source, coarse) = (table(1), table(factor));
        let places = payload_len(&source);
        if refused.is_some_and(|by| by.check == Check::Table) {
            self.over[usize::from(places > MOST_PLACES + BLOCK as u128)] += 1;
            let cells = (u128::from(source.width) + 1) * (u128::from(source.height) + 1);
            self.few_cells += u64::from(cells <= MOST_PLACES);
            self.coarse_within += u64::from(payload_len(&coarse) <= MOST_PLACES);
            return;
        }
        if places == MOST_PLACES {
            self.full[0] += 1;
            self.full[1] += u64::from(factor > 1);
        }
        if refused.is_none() {
            self.sides[0][coarse.width as usize % 8] += 1;
            self.sides[1][coarse.height as usize % 8] += 1;
        }
    }

    pub fn print(&self) {
        println!(
            "tables: of 8,192 places {}, of them at a factor above 1 {}; refused 27 a block over {}, farther over {}; of these with at most 8,192 cells {}, with a coarse table of at most 8,192 places {}",
            self.full[0], self.full[1], self.over[0], self.over[1], self.few_cells, self.coarse_within
        );
        let [columns, rows] = self.sides.map(|counts| counts.map(|count| count.to_string()).join(", "));
        println!("accepted, by the coarse grid's columns modulo 8 from 0 on: {columns}; by its rows: {rows}");
    }
}

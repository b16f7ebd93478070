// Which tables in blocks the calls of a list are lent, how wrong lengths came about, and what the map was asked.
use crate::blocks::{self, payload_len, BLOCK};
use crate::build_calls::{builder, lent_by};
use crate::calls;
use crate::grid::Grid;
use crate::grid_calls::grid;
use crate::in_blocks;
use crate::refusals::{self, Refusal};
use crate::table_calls::{cells_of, floats_of};
use crate::words::{lent, list, Arguments};
use std::collections::BTreeMap;

/// By name: `width R` and `height R` the tables by what is left of a side at 8; `payload WORD`; `past CALL` and `past WORD` what
/// stood past the edge; `inside WORD`; `wrong WORD` the lengths that were refused 11; `CALL WORD` the map's verdicts.
#[derive(Default)]
pub struct Counts {
    pub by_name: BTreeMap<String, u64>,
    /// The map's call before this one, where it was done.
    last: Option<Mapped>,
}

/// The words of the map's two lists, as they were lent and as the second was left.
struct Mapped {
    number: u64,
    grid: Vec<u64>,
    read: Vec<u64>,
    left: Vec<u64>,
}

impl Counts {
    fn add(&mut self, name: String) {
        *self.by_name.entry(name).or_default() += 1;
    }

    pub fn count(&mut self, number: u64, call: &[u64]) {
        let last = self.last.take();
        match number {
            0x50..=0x52 => {
                if let Some((g, verdict)) = built(number, call) {
                    self.table(number, &g, lent(call, 4), verdict);
                }
            }
            0x60 | 0x80 => {
                let g = grid(&mut Arguments(list(call, 0)));
                let verdict = asked(&calls::answer(number, call));
                self.table(number, &g, lent(call, 1), verdict);
            }
            0x63 | 0x64 => self.map(number, call, last),
            _ => {}
        }
    }

    /// A table that a call was lent; Ok where it was answered.
    fn table(&mut self, number: u64, g: &Grid, table: &[u64], verdict: Result<(), Refusal>) {
        match verdict {
            Ok(()) => self.answered(number, g, table),
            Err(refusals::TABLE_LENGTH) => {
                let over = payload_len(g).saturating_sub(8192);
                match over {
                    0 => self.add(format!("wrong {}", wrong(g, table.len()))),
                    _ if over == BLOCK as u128 => self.add("payload over".to_string()),
                    _ => self.add("payload farther".to_string()),
                }
            }
            Err(_) => {}
        }
    }

    fn answered(&mut self, number: u64, g: &Grid, table: &[u64]) {
        self.add(format!("width {}", g.width % 8));
        self.add(format!("height {}", g.height % 8));
        if table.len() == 8192 {
            self.add("payload full".to_string());
        }
        let past = past(g, table);
        if !past.is_empty() {
            self.add(format!("past {number:x}"));
            past.into_iter().for_each(|kind| self.add(format!("past {kind}")));
        }
        if number >= 0x60 {
            let cells = blocks::to_rows(g, &floats_of(table));
            if cells.iter().any(|x| x.is_nan()) {
                self.add("inside NaN".to_string());
            }
            if cells.iter().any(|x| x.to_bits() == 1 << 63) {
                self.add("inside -0".to_string());
            }
        }
    }

    fn map(&mut self, number: u64, call: &[u64], last: Option<Mapped>) {
        let g = grid(&mut Arguments(list(call, 0)));
        let (read, written) = (lent(call, 1), lent(call, 2));
        let (rows, blocks) = if number == 0x63 { (read, written) } else { (written, read) };
        let cells = (u128::from(g.width) + 1) * (u128::from(g.height) + 1);
        let lengths = match (rows.len() as u128 != cells, blocks.len() as u128 != payload_len(&g)) {
            (false, false) => "right",
            (true, false) => "rows",
            (false, true) => "blocks",
            (true, true) => "both",
        };
        let answer = calls::answer(number, call);
        self.add(format!("{number:x} {} {lengths}", answer[0]));
        if answer[0] != 0 {
            return;
        }
        if !past(&g, blocks).is_empty() {
            self.add(format!("{number:x} past"));
        }
        let mapped = Mapped {
            number,
            grid: list(call, 0).to_vec(),
            read: floats_of(read).into_iter().map(calls::shown).collect(),
            left: answer[answer.len() - written.len()..].to_vec(),
        };
        self.back(&g, &mapped, last);
        self.last = Some(mapped);
    }

    /// The way back from what the call before left: every bit is kept, from blocks where all past the edge was +0.0.
    fn back(&mut self, g: &Grid, mapped: &Mapped, last: Option<Mapped>) {
        let first = |last: &Mapped| {
            last.number != mapped.number && last.grid == mapped.grid && last.left == mapped.read
        };
        let Some(first) = last.filter(first) else {
            return;
        };
        let kept = mapped.left == first.read;
        let zeros = first.number == 0x63 || past(g, &first.read).is_empty();
        assert!(kept == zeros, "there and back");
        self.add(format!("back {:x} {}", first.number, if kept { "kept" } else { "cleared" }));
    }
}

/// The coarse grid of a start, row or finish, and its verdict; None where there is no such grid.
fn built(number: u64, call: &[u64]) -> Option<(Grid, Result<(), Refusal>)> {
    let words = list(call, 0);
    let mut buffers = lent_by(call);
    let lent_buffers = &mut buffers.buffers();
    if number == 0x50 {
        let words = &mut Arguments(words);
        let (source, factor, nodata) = (grid(words), words.next() as u32, words.next() as u32);
        let coarse = refusals::new_decimation(source, factor).ok()?.grid;
        return Some((coarse, in_blocks::start(source, factor, nodata, lent_buffers).map(drop)));
    }
    let mut b = builder(words);
    let coarse = b.decimation.grid;
    let verdict = match number {
        0x51 => in_blocks::build_row(&mut b, &mut cells_of(lent(call, 5)), lent_buffers),
        _ => in_blocks::finish(&b, lent_buffers).map(drop),
    };
    Some((coarse, verdict))
}

/// Whether one of the questions is answered, and else the number of one of them.
fn asked(answer: &[u64]) -> Result<(), Refusal> {
    let verdicts = || answer[1..].chunks_exact(6).map(|answer| answer[0]);
    if verdicts().any(|number| number == 0) {
        Ok(())
    } else {
        Err(verdicts().max().unwrap_or(0))
    }
}

/// What a wrong length may have been taken for.
fn wrong(g: &Grid, length: usize) -> &'static str {
    let right = payload_len(g) as usize;
    let cells = (g.width as usize + 1) * (g.height as usize + 1);
    match length {
        0 => "none",
        _ if length == cells => "cells",
        _ if length + 1 == right => "fewer",
        _ if length == right + 1 => "more",
        _ if length + BLOCK == right => "block-fewer",
        _ if length == right + BLOCK => "block-more",
        _ => "other",
    }
}

/// The kinds of what is not +0.0 past the edge of a table of the right length.
fn past(g: &Grid, table: &[u64]) -> Vec<&'static str> {
    let kind = |bits: u64| match f64::from_bits(bits) {
        x if x.is_nan() => 0,
        x if x.is_infinite() => 1,
        x if x == 0.0 => 2,
        _ => 3,
    };
    let mut found = [false; 4];
    let edge = blocks::edge(g).into_iter().map(|place| table[place]);
    edge.filter(|&bits| bits != 0).for_each(|bits| found[kind(bits)] = true);
    let kinds = ["NaN", "infinity", "-0", "number"].into_iter().zip(found);
    kinds.filter(|(_, found)| *found).map(|(kind, _)| kind).collect()
}

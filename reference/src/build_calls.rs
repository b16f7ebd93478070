// Calls 50 to 52: a start, a row and a finish, each on the builder and the buffers that it is given.
use crate::calls::{one, shown, six, Answer};
use crate::grid_calls::{fields, grid};
use crate::in_blocks;
use crate::raster::CellTallies;
use crate::refusals::Refusal;
use crate::table::{Buffers, Builder, Decimation};
use crate::table_calls::{cells_of, floats_of, patterns_of};
use crate::words::{lent, list, Arguments};

/// The buffers that a build is lent: accumulator, corrections, coarse row, table.
#[derive(Clone)]
pub struct Lent(pub [Vec<f64>; 4]);

impl Lent {
    pub fn buffers(&mut self) -> Buffers<'_> {
        let [acc, corr, coarse, table] = &mut self.0;
        Buffers { acc, corr, coarse, table }
    }
}

pub fn lent_by(call: &[u64]) -> Lent {
    Lent([1, 2, 3, 4].map(|k| floats_of(lent(call, k))))
}

fn left(lent: Lent) -> Answer {
    lent.0.concat().into_iter().map(shown).collect()
}

pub fn start(call: &[u64]) -> Answer {
    let words = &mut Arguments(list(call, 0));
    let (source, factor, nodata) = (grid(words), words.next() as u32, words.next() as u32);
    let mut lent = lent_by(call);
    let started = in_blocks::start(source, factor, nodata, &mut lent.buffers());
    [given(started), left(lent)].concat()
}

pub fn row(call: &[u64]) -> Answer {
    let mut builder = builder(list(call, 0));
    let mut lent = lent_by(call);
    let mut cells = cells_of(self::lent(call, 5));
    let answer = in_blocks::build_row(&mut builder, &mut cells, &mut lent.buffers());
    [given(answer.map(|()| builder)), patterns_of(&cells), left(lent)].concat()
}

/// A finish is lent nothing that it could change.
pub fn finish(call: &[u64]) -> Answer {
    let mut lent = lent_by(call);
    match in_blocks::finish(&builder(list(call, 0)), &mut lent.buffers()) {
        Ok(t) => {
            // A built table has no nodata and no rows.
            let (decimation, digest, tallies) = (t.decimation, t.digest, t.tallies);
            builder_words(Builder { decimation, nodata: 0, rows: 0, digest, tallies }, t.total)
        }
        Err(number) => six(one(number)),
    }
}

/// A builder from its 21 words.
pub fn builder(words: &[u64]) -> Builder {
    let words = &mut Arguments(words);
    let (source, coarse) = (grid(words), grid(words));
    Builder {
        decimation: Decimation { factor: words.next() as u32, source, grid: coarse },
        nodata: words.next() as u32,
        rows: words.next() as u32,
        digest: words.next(),
        tallies: CellTallies::of_fields([(); 5].map(|()| words.next())),
    }
}

fn given(answer: Result<Builder, Refusal>) -> Answer {
    answer.map_or_else(|number| six(one(number)), |b| builder_words(b, 0.0))
}

fn builder_words(b: Builder, total: f64) -> Answer {
    let tallies = [&b.tallies.fields()[..], &[b.digest]].concat();
    let [factor, nodata, rows] = [b.decimation.factor, b.nodata, b.rows].map(u64::from);
    let numbers = six(vec![factor, nodata, rows, shown(total)]);
    [fields(b.decimation.source), fields(b.decimation.grid), tallies, numbers].concat()
}

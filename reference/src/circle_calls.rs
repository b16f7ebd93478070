// Calls 70 and 80: kernels and circles.
use crate::calls::{given, number, one, six, two, Answer};
use crate::grid::{Col, Row};
use crate::grid_calls::grid;
use crate::in_blocks::rows_of;
use crate::refusals::{self, KernelFields};
use crate::table_calls::floats_of;
use crate::words::{lent, list, Arguments};

/// A list of half-widths.
fn halves(call: &[u64], k: usize) -> Vec<u32> {
    lent(call, k).iter().map(|&half| half as u32).collect()
}

/// The half-widths as they are left follow the answer.
pub fn kernel(call: &[u64]) -> Answer {
    let words = &mut Arguments(list(call, 0));
    let (g, centre, km) = (grid(words), Row(words.next() as u32), words.float());
    let mut half_widths = halves(call, 1);
    let made = given(refusals::new_kernel(g, centre, km, &mut half_widths), |kernel| {
        two(u64::from(kernel.north.get()), u64::from(kernel.count))
    });
    [six(made), half_widths.into_iter().map(u64::from).collect()].concat()
}

/// Circles of one table and one kernel, around several columns.
pub fn circles(call: &[u64]) -> Answer {
    let words = &mut Arguments(list(call, 0));
    let g = grid(words);
    let kernel = KernelFields {
        grid: grid(words),
        centre: words.next() as u32,
        km: words.float(),
        north: words.next() as u32,
        count: words.next() as u32,
    };
    let cells = rows_of(&g, &floats_of(lent(call, 1)));
    let half_widths = halves(call, 2);
    let questions = list(call, 3).chunks_exact(5);
    let mut answer = one(questions.len() as u64);
    for question in questions {
        let column = Col(question[0] as u32);
        let people = refusals::circle_population(&g, &cells, kernel, &half_widths, column);
        answer.extend(six(given(people, number)));
    }
    answer
}

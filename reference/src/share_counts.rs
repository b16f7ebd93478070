// What a run met on its cards of shares.
use crate::generate_shares::{Shares, Sort};
use crate::shares::{Lent, Met, BOUND};

/// Of eighths, shares of 2^-20 and mixtures.
#[derive(Default)]
pub struct ShareCounts([Counted; 3]);

#[derive(Default)]
struct Counted {
    /// At factor 1, and above it.
    cards: [u64; 2],
    across_seam: [u64; 2],
    at_bound: u64,
    below_bound: u64,
    fraction: u64,
    not_finite: u64,
    /// In decimal, and as bits.
    totals: [u64; 2],
    circles: [u64; 2],
}

impl ShareCounts {
    /// Of an accepted card.
    pub fn add(&mut self, by: Shares, met: &Met, text: &str) {
        let counted = &mut self.0[match by.sort {
            Sort::Eighths => 0,
            Sort::Finest => 1,
            Sort::Mixture => 2,
        }];
        counted.add(met);
        text.lines().for_each(|line| counted.add_line(line));
    }

    pub fn print(&self) {
        for (sort, counted) in ["eighths", "shares of 2^-20", "mixtures"].iter().zip(&self.0) {
            counted.print(sort);
        }
    }
}

impl Counted {
    fn add(&mut self, met: &Met) {
        let above = usize::from(met.factor > 1);
        self.cards[above] += 1;
        self.across_seam[above] += met.circles_across_seam;
        self.at_bound += u64::from(met.units == BOUND);
        self.below_bound += u64::from(met.units == BOUND - 1);
        self.fraction += u64::from(met.lent == Lent::Fraction);
        self.not_finite += u64::from(met.lent == Lent::NotFinite);
    }

    fn add_line(&mut self, line: &str) {
        let words: Vec<&str> = line.split(' ').collect();
        match words[..] {
            ["total", _] => self.totals[0] += 1,
            ["total", "bits", _] => self.totals[1] += 1,
            ["circle", _, _] => self.circles[0] += 1,
            ["circle", _, "bits", _] => self.circles[1] += 1,
            _ => {}
        }
    }

    fn print(&self, sort: &str) {
        println!(
            "{sort}: cards at factor 1 {}, above {}; of 2^53 units {}, one less {}; with a finite cell as lent that is no multiple of the unit {}, else with an infinity or NaN {}; totals in decimal {}, as bits {}; circles in decimal {}, as bits {}; across the seam at factor 1 {}, above {}",
            self.cards[0],
            self.cards[1],
            self.at_bound,
            self.below_bound,
            self.fraction,
            self.not_finite,
            self.totals[0],
            self.totals[1],
            self.circles[0],
            self.circles[1],
            self.across_seam[0],
            self.across_seam[1]
        );
    }
}

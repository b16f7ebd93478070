// How the sections of a run's cards lay: to each other, to the header, and to the card's end.
use crate::answer_card::{Check, Refused, Sections};
use std::collections::BTreeMap;
use std::ops::Range;

#[derive(Default)]
pub struct SectionCounts {
    /// Of cards that meet the sections' checks: accepted, refused 25, refused 32.
    met: BTreeMap<&'static str, [u64; 3]>,
    /// Of cards with sections that overlap: those that are refused for what comes first.
    behind: BTreeMap<Refused, u64>,
}

impl SectionCounts {
    pub fn add(&mut self, card: &[u8], refused: Option<Refused>) {
        if card.len() < 64 {
            return;
        }
        let sections = Sections::of(card);
        let verdict = match refused.map(|by| by.check) {
            None => Some(0),
            Some(Check::Sections) => Some(1),
            Some(Check::Overlap) => Some(2),
            _ => None,
        };
        if let Some(verdict) = verdict {
            let lies = [
                Some(between(&sections, card.len() as u128)),
                rows_to_header(&sections),
                circles_to_header(&sections),
            ];
            lies.iter().flatten().for_each(|lies| self.met.entry(lies).or_default()[verdict] += 1);
        }
        if let Some(by) = refused.filter(|by| by.check != Check::Overlap && sections.overlap()) {
            *self.behind.entry(by).or_default() += 1;
        }
    }

    pub fn print(&self) {
        println!("sections, of cards accepted, refused 25, refused 32:");
        for (lies, [accepted, ends, overlap]) in &self.met {
            println!("    {lies}: {accepted}, {ends}, {overlap}");
        }
        let behind: Vec<String> =
            self.behind.iter().map(|(by, count)| format!("{} {count}", by.label())).collect();
        println!("sections that overlap, refused for what comes first: {}", behind.join(", "));
    }
}

/// Circles and rows; where there are no circles, their offset.
fn between(Sections { rows, circles, .. }: &Sections, length: u128) -> &'static str {
    if circles.is_empty() {
        return no_circles(circles.start, rows, length);
    }
    let shared = rows.end.min(circles.end).saturating_sub(rows.start.max(circles.start));
    match shared {
        0 if circles.start == rows.end => "circles right behind the rows",
        0 if circles.end == rows.start => "circles right ahead of the rows",
        0 if circles.start > rows.end => "circles behind the rows, with bytes between",
        0 => "circles ahead of the rows, with bytes between",
        _ if rows == circles => "circles and rows the same bytes",
        _ if shared == circles.end - circles.start => "circles inside the rows",
        _ if shared == rows.end - rows.start => "circles around the rows",
        1 if rows.start < circles.start => "circles over the rows' last byte alone",
        1 => "circles over the rows' first byte alone",
        _ => "circles over several bytes of the rows",
    }
}

fn no_circles(at: u128, rows: &Range<u128>, length: u128) -> &'static str {
    match at {
        0 => "no circles, at 0",
        1..=63 => "no circles, inside the header",
        _ if at == length => "no circles, at the end",
        _ if at == length + 1 => "no circles, one past the end",
        _ if at > length => "no circles, farther past the end",
        _ if rows.start < at && at < rows.end => "no circles, inside the rows",
        _ => "no circles, elsewhere",
    }
}

fn rows_to_header(sections: &Sections) -> Option<&'static str> {
    match sections.rows.start {
        0..=62 => Some("rows over several bytes of the header"),
        63 => Some("rows over the header's last byte alone"),
        64 => Some("rows right behind the header"),
        _ => None,
    }
}

fn circles_to_header(sections: &Sections) -> Option<&'static str> {
    match sections.circles.start {
        _ if sections.circles.is_empty() => None,
        0..=62 => Some("circles over several bytes of the header"),
        63 => Some("circles over the header's last byte alone"),
        64 => Some("circles right behind the header"),
        _ => None,
    }
}

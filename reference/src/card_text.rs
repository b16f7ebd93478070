// The readable text of a card, from which `make_card` makes the card again.
use crate::answer_card::{float, header, inside, word, Sections};
use crate::make_card::usual;
use std::fmt::Write as _;

/// Fields that the box refuses have a text too; a card whose header or sections are not there has none.
pub fn text(card: &[u8]) -> Result<String, String> {
    if card.len() > 65536 {
        return Err("no text: the card is longer than 65,536 bytes (refused 27)".to_string());
    }
    if card.len() < 64 {
        return Err(format!("no text: the card has {} bytes, and its header 64 (refused 25)", card.len()));
    }
    if word(card, 60) != 0 {
        return Err("no text: the word at 60 is not zero (refused 26)".to_string());
    }
    let sections = Sections::of(card);
    for (name, section) in [("rows", &sections.rows), ("circles", &sections.circles)] {
        if !inside(card, section) {
            return Err(format!("no text: the {name} go past the card's end"));
        }
    }
    let mut text = format!("size {} {}\n", word(card, 0), word(card, 4));
    _ = writeln!(text, "origin {} {}", degrees(card, 8), degrees(card, 16));
    _ = writeln!(text, "steps {} {}", degrees(card, 24), degrees(card, 32));
    _ = writeln!(text, "nodata {}", cell(word(card, 40)));
    _ = writeln!(text, "factor {}", word(card, 44));
    let at = [word(card, 48), word(card, 56)];
    if at != usual((sections.rows.end - sections.rows.start) as usize) {
        _ = writeln!(text, "at {} {}", at[0], at[1]);
    }
    if let Err(refused) = header(card) {
        _ = writeln!(text, "refused {}", refused.number);
    }
    lines(card, &mut text);
    Ok(text)
}

/// Of the rows and the circles.
fn lines(card: &[u8], text: &mut String) {
    let (width, mut at) = (word(card, 0) as usize, word(card, 48) as usize);
    let height = if width == 0 { 0 } else { word(card, 4) };
    for _ in 0..height {
        text.push_str("row");
        for column in 0..width {
            _ = write!(text, " {}", cell(word(card, at + 4 * column)));
        }
        text.push('\n');
        at += 4 * width;
    }
    at = word(card, 56) as usize;
    for _ in 0..word(card, 52) {
        _ = writeln!(text, "circle {} {} {}", word(card, at), word(card, at + 4), degrees(card, at + 8));
        at += 16;
    }
}

/// A NaN with a sign or a payload is kept as `bits:` and its digits.
fn cell(bits: u32) -> String {
    let x = f32::from_bits(bits);
    if x.is_nan() && bits != 0x7fc0_0000 {
        format!("bits:{bits:08x}")
    } else {
        decimal(f64::from(x), x.to_string(), format!("{x:e}"))
    }
}

fn degrees(card: &[u8], at: usize) -> String {
    let x = float(card, at);
    if x.is_nan() && x.to_bits() != 0x7ff8_0000_0000_0000 {
        format!("bits:{:016x}", x.to_bits())
    } else {
        decimal(x, x.to_string(), format!("{x:e}"))
    }
}

/// Whole numbers with all their digits; others in the shortest form that gives the same float.
fn decimal(x: f64, plain: String, scientific: String) -> String {
    let size = x.abs();
    if x == 0.0 || !x.is_finite() {
        plain
    } else if size < 1e18 && x.fract() == 0.0 {
        format!("{x:.0}")
    } else if (1e-5..1e18).contains(&size) {
        plain
    } else {
        scientific
    }
}

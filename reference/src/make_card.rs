// A card from readable text. docs/CARD.md has the form: a line for each field, row and circle; `#` starts a comment.
use crate::answer_card::{answer, header, Check, Refused};
use std::collections::BTreeMap;

/// What is wrong in a text, and on which line.
pub struct Mistake {
    pub line: usize,
    pub what: String,
}

/// A card, and the lines of its circles.
pub struct Made {
    pub card: Vec<u8>,
    circle_lines: Vec<usize>,
}

impl Made {
    /// A circle may be refused: the card is answered all the same, but it may not be meant.
    pub fn notes(&self) -> Vec<String> {
        let mut refused: BTreeMap<String, Vec<usize>> = BTreeMap::new();
        let text = answer(&self.card);
        let circles = text.lines().filter(|line| line.starts_with("circle"));
        for (circle, &line) in circles.zip(&self.circle_lines) {
            if let Some((_, number)) = circle.split_once(" refused ") {
                refused.entry(number.to_string()).or_default().push(line);
            }
        }
        let note = |(number, lines): (String, Vec<usize>)| match lines[..] {
            [line] => format!("note: line {line}: the box will refuse this circle: {number}"),
            _ => format!(
                "note: line {} and {} more: the box will refuse these circles: {number}",
                lines[0],
                lines.len() - 1
            ),
        };
        refused.into_iter().map(note).collect()
    }
}

/// The words of a line, and what they take.
const FORMS: [(&str, &str); 9] = [
    ("size", "a width and a height"),
    ("origin", "a latitude and a longitude"),
    ("steps", "lon_step and lat_step"),
    ("nodata", "one number"),
    ("factor", "one whole number"),
    ("at", "the offsets of rows and circles"),
    ("row", "a number for each column"),
    ("circle", "a row, a column and a radius in km"),
    ("refused", "the number of the refusal that is meant"),
];

/// A field that stands once, with the number of its line.
type Once<T> = Option<(usize, T)>;

#[derive(Default)]
struct Fields {
    line: usize,
    size: Once<[u32; 2]>,
    origin: Once<[f64; 2]>,
    steps: Once<[f64; 2]>,
    nodata: Once<u32>,
    factor: Once<u32>,
    at: Once<[u32; 2]>,
    refused: Once<u64>,
    row_count: u32,
    rows: Vec<u8>,
    circles: Vec<u8>,
    circle_lines: Vec<usize>,
}

/// The card, checked as the box does it, or the first mistake.
pub fn card(text: &str) -> Result<Made, Mistake> {
    let mut fields = Fields::default();
    for line in text.lines() {
        fields.line += 1;
        let words: Vec<&str> = line.split('#').next().unwrap_or("").split_whitespace().collect();
        if let Some((&field, words)) = words.split_first() {
            fields.take(field, words).map_err(|what| Mistake { line: fields.line, what })?;
        }
    }
    let card = fields.laid_out().map_err(|what| Mistake { line: fields.line.max(1), what })?;
    fields.check(header(&card).err())?;
    Ok(Made { card, circle_lines: fields.circle_lines })
}

impl Fields {
    fn take(&mut self, field: &str, words: &[&str]) -> Result<(), String> {
        let line = self.line;
        match (field, words) {
            ("size", [width, height]) => once(&mut self.size, line, [whole(width)?, whole(height)?]),
            ("origin", [lat, lon]) => once(&mut self.origin, line, [float(lat)?, float(lon)?]),
            ("steps", [lon, lat]) => once(&mut self.steps, line, [float(lon)?, float(lat)?]),
            ("nodata", [mark]) => once(&mut self.nodata, line, cell(mark)?),
            ("factor", [factor]) => once(&mut self.factor, line, whole(factor)?),
            ("at", [rows, circles]) => once(&mut self.at, line, [offset(rows)?, offset(circles)?]),
            ("refused", [number]) => once(&mut self.refused, line, u64::from(whole(number)?)),
            ("row", cells) => self.row(cells),
            ("circle", [row, col, km]) => {
                self.circles.extend(whole(row)?.to_le_bytes());
                self.circles.extend(whole(col)?.to_le_bytes());
                self.circles.extend(float(km)?.to_le_bytes());
                self.circle_lines.push(line);
                Ok(())
            }
            _ => Err(match FORMS.iter().find(|(name, _)| *name == field) {
                Some((name, takes)) => format!("`{name}` takes {takes}; here are {} words", words.len()),
                None => {
                    format!("`{field}` is none of {}", FORMS.map(|(name, _)| name).join(", "))
                }
            }),
        }
    }

    fn row(&mut self, cells: &[&str]) -> Result<(), String> {
        let (_, [width, height]) = self.size.ok_or("a `row` ahead of `size`")?;
        if self.row_count == height {
            return Err(format!("a row too many: `size` says {height}"));
        }
        if cells.len() != width as usize {
            return Err(format!("a row of {} cells: `size` says {width}", cells.len()));
        }
        self.row_count += 1;
        for word in cells {
            self.rows.extend(cell(word)?.to_le_bytes());
        }
        Ok(())
    }

    /// The sections stand as usual where no line says at which offsets.
    fn laid_out(&self) -> Result<Vec<u8>, String> {
        let missing = |name: &str| format!("the text ends, and there is no line `{name}`");
        let (_, [width, height]) = self.size.ok_or_else(|| missing("size"))?;
        let (_, [lat, lon]) = self.origin.ok_or_else(|| missing("origin"))?;
        let (_, [lon_step, lat_step]) = self.steps.ok_or_else(|| missing("steps"))?;
        let (_, nodata) = self.nodata.ok_or_else(|| missing("nodata"))?;
        let (_, factor) = self.factor.ok_or_else(|| missing("factor"))?;
        // Rows of no cells need no lines.
        if width > 0 && self.row_count < height {
            return Err(format!("the text ends, and {} of {height} rows are there", self.row_count));
        }
        let degrees = [lat, lon, lon_step, lat_step];
        let at = self.at.map_or(usual(self.rows.len()), |(_, at)| at);
        Ok(placed([width, height], degrees, nodata, factor, &self.rows, &self.circles, at))
    }

    /// A card that the box refuses is a mistake, unless a line `refused` has the number.
    fn check(&self, refused: Option<Refused>) -> Result<(), Mistake> {
        match (self.refused, refused) {
            (None, None) => Ok(()),
            (None, Some(by)) => Err(Mistake {
                line: self.line_of(by),
                what: format!("the box would refuse this card: {}, {}", by.number, by.cause()),
            }),
            (Some((_, number)), Some(by)) if number == by.number => Ok(()),
            (Some((line, _)), by) => {
                let number = by.map_or("nothing".to_string(), |by| by.number.to_string());
                Err(Mistake { line, what: format!("the box would refuse {number} here") })
            }
        }
    }

    /// The line that a check is about; the last one where it is about the whole.
    fn line_of(&self, by: Refused) -> usize {
        let line = match (by.check, by.number) {
            (Check::Table, _) | (Check::Grid, 1 | 2) => self.size.map(|(line, _)| line),
            (Check::Grid, 3 | 4) => self.origin.map(|(line, _)| line),
            (Check::Grid, _) => self.steps.map(|(line, _)| line),
            (Check::Factor | Check::Coarse, _) => self.factor.map(|(line, _)| line),
            (Check::Overlap, _) => self.at.map(|(line, _)| line),
            _ => None,
        };
        line.unwrap_or(self.line)
    }
}

fn once<T>(field: &mut Once<T>, line: usize, value: T) -> Result<(), String> {
    match field {
        Some((before, _)) => Err(format!("line {before} has this field already")),
        None => {
            *field = Some((line, value));
            Ok(())
        }
    }
}

fn whole(word: &str) -> Result<u32, String> {
    word.parse().map_err(|_| format!("{word} is no whole number from 0 to 4294967295"))
}

/// A place in a card, or its end.
fn offset(word: &str) -> Result<u32, String> {
    let offset = whole(word)?;
    if offset <= 65536 {
        Ok(offset)
    } else {
        Err(format!("{word} is past 65,536, where the longest card ends"))
    }
}

/// The bits of an f32: a number, or `bits:` and 8 hexadecimal digits.
fn cell(word: &str) -> Result<u32, String> {
    if let Some(digits) = word.strip_prefix("bits:") {
        return Ok(pattern(digits, 8)? as u32);
    }
    let x: f32 = word.parse().map_err(|_| format!("{word} is no number"))?;
    held(word, f64::from(x), "32")?;
    Ok(x.to_bits())
}

/// An f64: a number, or `bits:` and 16 hexadecimal digits.
fn float(word: &str) -> Result<f64, String> {
    if let Some(digits) = word.strip_prefix("bits:") {
        return Ok(f64::from_bits(pattern(digits, 16)?));
    }
    let x: f64 = word.parse().map_err(|_| format!("{word} is no number"))?;
    held(word, x, "64")?;
    Ok(x)
}

fn pattern(digits: &str, length: usize) -> Result<u64, String> {
    let right = digits.len() == length && digits.bytes().all(|digit| digit.is_ascii_hexdigit());
    let wrong = || format!("bits:{digits} has not {length} hexadecimal digits");
    u64::from_str_radix(digits, 16).ok().filter(|_| right).ok_or_else(wrong)
}

/// A number is rounded to the nearest float. A whole one must be that float; none may become infinite, or zero.
fn held(word: &str, x: f64, bits: &str) -> Result<(), String> {
    let digits = word.trim_start_matches(['+', '-']);
    let named = digits.starts_with(|first: char| first.is_ascii_alphabetic());
    let zero = !digits.split(['e', 'E']).next().unwrap_or("").contains(|digit| ('1'..='9').contains(&digit));
    if !named && (x.is_infinite() || x == 0.0 && !zero) {
        return Err(format!("{word} does not fit a float of {bits} bits"));
    }
    match digits.parse::<u128>() {
        Ok(number) if number != x.abs() as u128 => {
            Err(format!("{word} does not fit a float of {bits} bits; the nearest is {x:.0}"))
        }
        _ => Ok(()),
    }
}

/// Offsets of rows and circles: the rows, of so many bytes, at 64 and the circles behind them.
pub fn usual(rows: usize) -> [u32; 2] {
    [64, 64 + rows as u32]
}

/// The sections at these offsets, with zeros between. Where they overlap, the circles stand over the rows and the header over
/// both.
pub fn placed(
    size: [u32; 2],
    degrees: [f64; 4],
    nodata: u32,
    factor: u32,
    rows: &[u8],
    circles: &[u8],
    at: [u32; 2],
) -> Vec<u8> {
    let mut header = Vec::new();
    header.extend(size.iter().flat_map(|n| n.to_le_bytes()));
    header.extend(degrees.iter().flat_map(|x| x.to_le_bytes()));
    let words = [nodata, factor, at[0], circles.len() as u32 / 16, at[1], 0];
    header.extend(words.iter().flat_map(|n| n.to_le_bytes()));
    let mut card = Vec::new();
    for (at, section) in [(at[0], rows), (at[1], circles), (0, &header)] {
        let (start, end) = (at as usize, at as usize + section.len());
        card.resize(card.len().max(end), 0);
        card[start..end].copy_from_slice(section);
    }
    card
}

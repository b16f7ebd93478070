// Looks in what was built for the numbers that the program works out from k: the arctangent's reciprocals and the divisors
// of sine and cosine. `reference/constants` builds and runs it.
mod elf;

use elf::{little_endian, Object, Section};
use std::collections::BTreeSet;
use std::io::Write;
use std::process::ExitCode;

/// The numbers of a series. Not looked for are the arctangent's 1 at k = 0, the sine's 6 and the cosine's 2 at k = 1: other
/// code may well have them.
struct Series {
    name: &'static str,
    first: u32,
    last: u32,
    divisor: fn(u32) -> u32,
    reciprocal: bool,
}

#[rustfmt::skip]
const SERIES: [Series; 3] = [
    Series { name: "arctangent 1/(2k+1)", first: 1, last: 10, divisor: |k| 2 * k + 1, reciprocal: true },
    Series { name: "sine 2k(2k+1)", first: 2, last: 10, divisor: |k| 2 * k * (2 * k + 1), reciprocal: false },
    Series { name: "cosine (2k-1)(2k)", first: 2, last: 15, divisor: |k| (2 * k - 1) * (2 * k), reciprocal: false },
];

/// In what form a number is kept.
#[derive(Clone, Copy, PartialEq)]
enum Form {
    Double,
    Single,
    /// A whole number of so many bytes.
    Whole(u64),
}

impl Form {
    fn bytes(self) -> u64 {
        match self {
            Form::Double => 8,
            Form::Single => 4,
            Form::Whole(bytes) => bytes,
        }
    }
}

/// The forms that are looked for in tables alone: by itself such a number may be anything.
const IN_TABLES: [Form; 4] = [Form::Single, Form::Whole(8), Form::Whole(4), Form::Whole(2)];

/// A number of a series, of either sign: the compiler makes 1 + z / -d * s of 1 - z / d * s, and keeps -d.
#[derive(Clone, Copy)]
struct Number {
    series: usize,
    k: u32,
    negative: bool,
    form: Form,
    bits: u64,
}

impl Number {
    /// None for a whole number of a reciprocal.
    fn new(series: usize, k: u32, negative: bool, form: Form) -> Option<Number> {
        let Series { divisor, reciprocal, .. } = SERIES[series];
        let sign = if negative { -1 } else { 1 };
        let whole = sign * i64::from(divisor(k));
        let float = if reciprocal { 1.0 / whole as f64 } else { whole as f64 };
        let bits = match form {
            Form::Double => float.to_bits(),
            Form::Single => u64::from((float as f32).to_bits()),
            Form::Whole(_) if reciprocal => return None,
            Form::Whole(bytes) => whole as u64 & u64::MAX >> (64 - 8 * bytes),
        };
        Some(Number { series, k, negative, form, bits })
    }

    /// All numbers in one form. No two have the same bits.
    fn all(form: Form) -> Vec<Number> {
        let of = |series: usize| (SERIES[series].first..=SERIES[series].last).map(move |k| (series, k));
        let signed = (0..SERIES.len()).flat_map(of).flat_map(|(series, k)| {
            [false, true].into_iter().filter_map(move |negative| Number::new(series, k, negative, form))
        });
        signed.collect()
    }

    /// Whether the other one would stand beside it in a table.
    fn beside(&self, other: &Number) -> bool {
        self.series == other.series && self.k.abs_diff(other.k) == 1
    }

    fn text(&self) -> String {
        let Series { name, divisor, reciprocal, .. } = SERIES[self.series];
        let (sign, one) = (if self.negative { "-" } else { "" }, if reciprocal { "1/" } else { "" });
        let form = match self.form {
            Form::Double | Form::Single => "a float",
            Form::Whole(_) => "a whole number",
        };
        format!(
            "{sign}{one}{}, {name} at k = {}, {form} of {} bytes",
            divisor(self.k),
            self.k,
            self.form.bytes()
        )
    }
}

/// A number that other code needs, and that stays.
struct Explained {
    value: f64,
    /// None: it is explained in every file. Else where alone.
    only: Option<Kind>,
    why: &'static str,
}

#[derive(Clone, Copy, PartialEq)]
enum Kind {
    Program,
    /// The object of the crate `exports`.
    Exports,
    Other,
}

/// Only what stands in the files once the series' own are gone.
const EXPLAINED: [Explained; 5] = [
    Explained { value: 90.0, only: None, why: "the latitude of a pole, crate grid" },
    Explained { value: -90.0, only: Some(Kind::Program), why: "the latitude of the south pole, crate grid" },
    Explained { value: -90.0, only: Some(Kind::Exports), why: "the step of two rows from pole to pole, crate exports" },
    Explained { value: 0.2, only: Some(Kind::Exports), why: "the step of 1,800 columns, crate exports" },
    Explained { value: -0.2, only: Some(Kind::Exports), why: "the step of 900 rows, crate exports" },
];

fn explanation(number: &Number, kind: Kind) -> Option<&'static str> {
    let same = |known: &&Explained| {
        number.form == Form::Double && number.bits == known.value.to_bits() && known.only.map_or(true, |only| only == kind)
    };
    EXPLAINED.iter().find(same).map(|known| known.why)
}

/// The object of the crate `exports` is known by the names of its functions.
fn kind(object: &Object) -> Kind {
    if object.linked {
        Kind::Program
    } else if object.sections.iter().any(|section| section.name.starts_with(".text.exports_")) {
        Kind::Exports
    } else {
        Kind::Other
    }
}

/// How far from the section's beginning, and the number there.
type Place = (usize, Number);

/// The doubles of a section, code too, at any byte: an instruction holds its own anywhere.
fn doubles(section: &Section, numbers: &[Number]) -> Vec<Place> {
    let windows = section.bytes.windows(8).enumerate();
    windows.filter_map(|(at, bytes)| known(numbers, bytes).map(|number| (at, number))).collect()
}

fn known(numbers: &[Number], bytes: &[u8]) -> Option<Number> {
    let bits = little_endian(bytes);
    numbers.iter().find(|number| number.bits == bits).copied()
}

/// The numbers of one form that stand in a table: beside each, in its own width, is one of a neighbouring k.
fn tabled(section: &Section, form: Form) -> Vec<Place> {
    let (numbers, width) = (Number::all(form), form.bytes());
    let before = ((width - section.address % width) % width).min(section.bytes.len() as u64) as usize;
    let elements = section.bytes[before..].chunks_exact(width as usize);
    let elements: Vec<Option<Number>> = elements.map(|bytes| known(&numbers, bytes)).collect();
    let beside = |number: &Number, i: usize| {
        let other = elements.get(i).copied().flatten();
        other.is_some_and(|other| number.beside(&other))
    };
    let in_table = |(i, number): (usize, &Option<Number>)| {
        let number = (*number)?;
        let table = beside(&number, i.wrapping_sub(1)) || beside(&number, i + 1);
        table.then_some((before + i * width as usize, number))
    };
    elements.iter().enumerate().filter_map(in_table).collect()
}

fn places(section: &Section) -> Vec<Place> {
    // A relocation table holds addresses, which the linker lays, and no number of the program.
    if section.name.starts_with(".rela") {
        return Vec::new();
    }
    let mut places = doubles(section, &Number::all(Form::Double));
    if section.data() {
        places.extend(IN_TABLES.iter().flat_map(|&form| tabled(section, form)));
    }
    places
}

/// Different numbers, and the places where they stand.
#[derive(Default)]
struct Tally {
    numbers: BTreeSet<(u64, u64)>,
    places: u64,
}

impl Tally {
    fn add(&mut self, number: &Number) {
        self.numbers.insert((number.form.bytes(), number.bits));
        self.places += 1;
    }
}

#[derive(Default)]
struct Report {
    lines: String,
    found: Tally,
    explained: Tally,
}

impl Report {
    fn add(&mut self, name: &str, section: &Section, (at, number): &Place, why: Option<&str>) {
        let (verdict, tally, why) = match why {
            Some(why) => ("explained", &mut self.explained, format!(": {why}")),
            None => ("found", &mut self.found, String::new()),
        };
        tally.add(number);
        self.lines += &format!("{name}: {verdict} {}, at {} + {at:#x}{why}\n", number.text(), section.name);
    }

    fn add_object(&mut self, file: &str, object: &Object) {
        let kind = kind(object);
        let name = object.member.as_ref().map_or(file.to_string(), |member| format!("{file}({member})"));
        for section in &object.sections {
            for place in places(section) {
                self.add(&name, section, &place, explanation(&place.1, kind));
            }
        }
    }

    fn summary(&self, file: &str, objects: &[Object]) -> String {
        let sections = || objects.iter().flat_map(|object| &object.sections);
        let bytes = |name: &str| -> usize {
            sections()
                .filter(|section| section.name.starts_with(name))
                .map(|section| section.bytes.len())
                .sum()
        };
        let (found, explained) = (&self.found, &self.explained);
        let looked = format!(
            "{} loaded sections of {} bytes, .text {}, .rodata {}",
            sections().count(),
            bytes(""),
            bytes(".text"),
            bytes(".rodata")
        );
        format!(
            "{file}: {looked}; found {} numbers in {} places, explained {} in {}\n",
            found.numbers.len(),
            found.places,
            explained.numbers.len(),
            explained.places
        )
    }
}

/// What is said of a file, and whether a number was found that is not explained.
fn look(file: &str) -> Result<(String, bool), String> {
    let bytes = std::fs::read(file).map_err(|error| error.to_string())?;
    let objects = elf::objects(&bytes)?;
    let mut report = Report::default();
    for object in &objects {
        report.add_object(file, object);
    }
    let summary = report.summary(file, &objects);
    Ok((report.lines + &summary, report.found.places > 0))
}

fn main() -> ExitCode {
    let files: Vec<String> = std::env::args().skip(1).collect();
    if files.is_empty() {
        eprintln!("usage: constants FILE..");
        return ExitCode::from(2);
    }
    let mut status = 0;
    for file in &files {
        let said = look(file).and_then(|(text, found)| {
            let written = std::io::stdout().write_all(text.as_bytes());
            written.map(|()| found).map_err(|error| error.to_string())
        });
        status = status.max(match said {
            Ok(found) => u8::from(found),
            Err(error) => {
                eprintln!("constants: {file}: {error}");
                2
            }
        });
    }
    ExitCode::from(status)
}

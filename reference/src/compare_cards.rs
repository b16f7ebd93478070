// Many generated cards through the Rust and through what is to print the same.
use crate::answer_card::{answer, header, Refused};
use crate::generate_cards::{card_and_shares, Kind};
use crate::progress::Progress;
use crate::section_counts::SectionCounts;
use crate::share_counts::ShareCounts;
use crate::table_counts::TableCounts;
use crate::{card_text, made, shares};
use std::collections::BTreeMap;
use std::fs::{self, File};
use std::io::Write;
use std::process::{Command, Output, Stdio};
use std::time::{Duration, Instant};

/// How many cards and circles had each verdict.
#[derive(Default)]
struct Verdicts {
    refused: BTreeMap<Refused, u64>,
    accepted: u64,
    circles: BTreeMap<String, u64>,
    /// Accepted cards with an unbounded cell, and those of them whose total is shown in decimal.
    unbounded: [u64; 2],
    /// Cards with a count that is infinite or no number.
    not_finite: u64,
    sections: SectionCounts,
    tables: TableCounts,
}

impl Verdicts {
    fn add(&mut self, card: &[u8], text: &str) {
        let refused = header(card).err();
        self.sections.add(card, refused);
        self.tables.add(card, refused);
        if let Some(refused) = refused {
            *self.refused.entry(refused).or_default() += 1;
            return;
        }
        self.accepted += 1;
        if text.lines().any(|line| line.starts_with("cells ") && !line.ends_with(" 0")) {
            self.unbounded[0] += 1;
            self.unbounded[1] += u64::from(!text.contains("total bits"));
        }
        self.not_finite += u64::from(text.contains("bits 7FF") || text.contains("bits FFF"));
        for line in text.lines().filter(|line| line.starts_with("circle")) {
            let words: Vec<&str> = line.split(' ').skip(2).collect();
            let verdict = match words[..] {
                ["refused", number] => format!("refused {number}"),
                ["bits", _] => "bits".to_string(),
                _ => "counted".to_string(),
            };
            *self.circles.entry(verdict).or_default() += 1;
        }
    }

    fn print(&self) {
        let mut cards: Vec<String> =
            self.refused.iter().map(|(by, count)| format!("{} {count}", by.label())).collect();
        cards.push(format!("accepted {}", self.accepted));
        println!("cards: {}", cards.join(", "));
        let circles: Vec<String> =
            self.circles.iter().map(|(verdict, count)| format!("{verdict} {count}")).collect();
        println!("circles: {}", circles.join(", "));
        let [unbounded, decimal] = self.unbounded;
        println!(
            "cards with unbounded cells: {unbounded}, of them with a total in decimal {decimal}; cards with a count that is not finite: {}",
            self.not_finite
        );
        self.sections.print();
        self.tables.print();
    }
}

/// N cards; `ours` gives what is printed of one, or what went wrong. Cards of shares are counted in whole numbers too.
fn run(
    seed: u64,
    count: u64,
    kind: Kind,
    mut ours: impl FnMut(&[u8]) -> Result<Vec<u8>, String>,
) -> Result<Duration, String> {
    let mut verdicts = Verdicts::default();
    let mut share_counts = None;
    let mut progress = Progress::new(count, "cards");
    let mut rust = Duration::ZERO;
    for i in 0..count {
        let (card, made_by) = card_and_shares(seed, i, kind);
        let began = Instant::now();
        let expected = answer(&card);
        rust += began.elapsed();
        let which = || format!("card {i} of seed {seed}");
        same(&card, &expected, ours(&card), "here").map_err(|differs| which() + &differs)?;
        verdicts.add(&card, &expected);
        if let Some(by) = made_by {
            let whole = shares::answer(&card, by.scale).map_err(|wrong| format!("{}: {wrong}", which()))?;
            let text = whole.text.into_bytes();
            same(&card, &expected, Ok(text), "whole numbers").map_err(|differs| which() + &differs)?;
            let counts = share_counts.get_or_insert_with(ShareCounts::default);
            whole.met.iter().for_each(|met| counts.add(by, met, &expected));
        }
        progress.at(i + 1);
    }
    println!("{count} cards, no difference");
    verdicts.print();
    share_counts.iter().for_each(ShareCounts::print);
    Ok(rust)
}

fn same(card: &[u8], expected: &str, printed: Result<Vec<u8>, String>, by: &str) -> Result<(), String> {
    if printed.as_ref().is_ok_and(|printed| printed == expected.as_bytes()) {
        return Ok(());
    }
    _ = fs::write("target/reference/differs.card", card);
    let printed = printed.map_or_else(|wrong| wrong, |text| String::from_utf8_lossy(&text).into_owned());
    Err(format!(" differs; it is in target/reference/differs.card\nrust:\n{expected}\n{by}:\n{printed}"))
}

/// Through the proved code, linked from the crate `exports`.
#[cfg(linked)]
pub fn linked(seed: u64, count: u64, kind: Kind) -> Result<(), String> {
    extern "C" {
        fn exports_card_answer(card: *const u8, card_len: usize, out: *mut u8, out_len: usize) -> usize;
    }
    // No text is longer. The buffer is full of another byte, so that what is written past the text shows.
    let blank = vec![0xaau8; 150_000];
    let mut out = blank.clone();
    let mut proved = Duration::ZERO;
    let rust = run(seed, count, kind, |card| {
        let began = Instant::now();
        // SAFETY: each pointer and length are of one slice.
        let length = unsafe { exports_card_answer(card.as_ptr(), card.len(), out.as_mut_ptr(), out.len()) };
        proved += began.elapsed();
        if length > out.len() || out[length..] != blank[length..] {
            return Err(format!("a text of {length} bytes, and something behind it"));
        }
        let text = out[..length].to_vec();
        out[..length].fill(0xaa);
        Ok(text)
    })?;
    println!("time: proved {:.3} s, rust {:.3} s", proved.as_secs_f64(), rust.as_secs_f64());
    Ok(())
}

/// Through the program crates/count/out/count, each card from a file and through a pipe in two pieces.
pub fn program(seed: u64, count: u64, kind: Kind) -> Result<(), String> {
    run(seed, count, kind, |card| {
        let wrong = |error: std::io::Error| format!("crates/count/out/count: {error}");
        let file = printed(from_file(card).map_err(wrong)?)?;
        let pipe = printed(through_pipe(card).map_err(wrong)?)?;
        if file == pipe {
            Ok(file)
        } else {
            Err("another text from a file than through a pipe".to_string())
        }
    })?;
    Ok(())
}

/// A program that says something on standard error, or ends with another status than 0, has failed.
fn printed(output: Output) -> Result<Vec<u8>, String> {
    if output.status.success() && output.stderr.is_empty() {
        Ok(output.stdout)
    } else {
        Err(format!("{}: {}", output.status, String::from_utf8_lossy(&output.stderr)))
    }
}

fn from_file(card: &[u8]) -> std::io::Result<Output> {
    let path = "target/reference/program.card";
    fs::write(path, card)?;
    Command::new("crates/count/out/count").stdin(File::open(path)?).output()
}

fn through_pipe(card: &[u8]) -> std::io::Result<Output> {
    let mut command = Command::new("crates/count/out/count");
    let mut child = command.stdin(Stdio::piped()).stdout(Stdio::piped()).stderr(Stdio::piped()).spawn()?;
    if let Some(mut stdin) = child.stdin.take() {
        let (first, second) = card.split_at(card.len() / 3);
        // A card that is too long is not read to its end.
        _ = stdin.write_all(first).and_then(|()| stdin.write_all(second));
    }
    child.wait_with_output()
}

/// To text and back: the same bytes but for those in no section, and always a card that counts the same.
pub fn back(seed: u64, count: u64, kind: Kind) -> Result<(), String> {
    let (mut texts, mut same) = (0u64, 0u64);
    run(seed, count, kind, |card| {
        let Ok(text) = card_text::text(card) else {
            return Ok(answer(card).into_bytes());
        };
        let again = made(text.as_bytes())?.card;
        texts += 1;
        same += u64::from(again == card);
        if card_text::text(&again)? == text {
            Ok(answer(&again).into_bytes())
        } else {
            Err(format!("the text is another one when it comes back\n{text}"))
        }
    })?;
    println!("{texts} cards have a text; {same} came back byte for byte, the others with the same fields");
    Ok(())
}

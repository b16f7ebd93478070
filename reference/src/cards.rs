// Cards: answers one as the program `count` does, makes one from readable text and gives the text back, and compares many
// with the proved code. reference/README.md has the commands.
// The modules have calls that a card does not make.
#![allow(dead_code)]

mod answer_card;
mod blocks;
mod card_text;
mod circle;
mod compare_cards;
mod generate_cards;
mod generate_large;
mod generate_sections;
mod generate_shares;
mod geodesy;
mod grid;
mod kernel;
mod make_card;
mod progress;
mod random;
mod raster;
mod refusals;
mod section_counts;
mod share_counts;
mod shares;
mod stand_ins;
mod table;
mod table_counts;

use answer_card::answer;
use generate_cards::Kind;
use make_card::Made;
use std::io::{Read, Write};
use std::process::ExitCode;

fn main() -> ExitCode {
    let words: Vec<String> = std::env::args().skip(1).collect();
    let words: Vec<&str> = words.iter().map(String::as_str).collect();
    let done = match words[..] {
        ["answer"] => Some(input().and_then(|card| output(answer(&card).as_bytes()))),
        ["make"] => Some(input().and_then(|text| make(&text))),
        ["text"] => Some(input().and_then(|card| written(&card)).and_then(|text| output(text.as_bytes()))),
        [command, seed, number] => seeded(command, seed, number, "mixed"),
        [command, seed, number, kind] => seeded(command, seed, number, kind),
        _ => None,
    };
    match done {
        Some(Ok(())) => ExitCode::SUCCESS,
        Some(Err(what)) => {
            eprintln!("{what}");
            ExitCode::FAILURE
        }
        None => {
            eprintln!(
                "usage: cards make | text | answer | (generate | compare | program | back) SEED N [KIND]"
            );
            ExitCode::from(2)
        }
    }
}

/// None where the words are no use of the command.
fn seeded(command: &str, seed: &str, number: &str, kind: &str) -> Option<Result<(), String>> {
    let (seed, number) = (seed.parse().ok()?, number.parse().ok()?);
    let kind = Kind::named(kind)?;
    match command {
        "generate" => Some(output(&generate_cards::card(seed, number, kind))),
        _ if number == 0 => None,
        #[cfg(linked)]
        "compare" => Some(compare_cards::linked(seed, number, kind)),
        "program" => Some(compare_cards::program(seed, number, kind)),
        "back" => Some(compare_cards::back(seed, number, kind)),
        _ => None,
    }
}

fn input() -> Result<Vec<u8>, String> {
    let mut bytes = Vec::new();
    std::io::stdin().read_to_end(&mut bytes).map_err(|error| format!("standard input: {error}"))?;
    Ok(bytes)
}

fn output(bytes: &[u8]) -> Result<(), String> {
    let mut out = std::io::stdout();
    out.write_all(bytes).and_then(|()| out.flush()).map_err(|error| format!("standard output: {error}"))
}

fn make(text: &[u8]) -> Result<(), String> {
    let made = made(text)?;
    made.notes().iter().for_each(|note| eprintln!("{note}"));
    output(&made.card)
}

fn made(text: &[u8]) -> Result<Made, String> {
    let text =
        std::str::from_utf8(text).map_err(|_| "this is no text (a card's text is UTF-8)".to_string())?;
    make_card::card(text).map_err(|mistake| format!("line {}: {}", mistake.line, mistake.what))
}

/// The text, which is tried: it gives the card back, but for bytes in no section.
fn written(card: &[u8]) -> Result<String, String> {
    let text = card_text::text(card)?;
    if made(text.as_bytes())?.card != card {
        eprintln!("note: this card has bytes in no section; a card made from the text holds the same fields");
    }
    Ok(text)
}

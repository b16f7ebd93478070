// The calls by number, answered by the reference. README.md has the table.
use crate::geodesy::{self, LatBand, LatLon, RadiusError, RadiusKm};
use crate::refusals::Refusal;
use crate::words::{lent, list, Arguments};
use crate::{build_calls, circle_calls, grid, grid_calls, stand_ins, table, table_calls};

/// A bit pattern, with one pattern for every NaN.
pub fn shown(x: f64) -> u64 {
    if x.is_nan() {
        0x7ff8_0000_0000_0000
    } else {
        x.to_bits()
    }
}

/// The words of an answer.
pub type Answer = Vec<u64>;

pub fn one(word: u64) -> Answer {
    vec![word]
}

pub fn two(first: u64, second: u64) -> Answer {
    vec![first, second]
}

pub fn number(x: f64) -> Answer {
    one(shown(x))
}

/// 0 and the words of what was given, or the refusal's number.
pub fn given<T>(answer: Result<T, Refusal>, words: impl FnOnce(T) -> Answer) -> Answer {
    match answer {
        Ok(value) => [one(0), words(value)].concat(),
        Err(number) => one(number),
    }
}

/// An answer without lists: six words, with zeros behind.
pub fn six(mut answer: Answer) -> Answer {
    answer.resize(6, 0);
    answer
}

/// A call's number and its words.
pub fn answer(number: u64, call: &[u64]) -> Answer {
    match number {
        0x12 => digest_row(call),
        0x40 => table_calls::sanitise(call),
        0x50 => build_calls::start(call),
        0x51 => build_calls::row(call),
        0x52 => build_calls::finish(call),
        0x60 => table_calls::populations(call),
        0x63 | 0x64 => table_calls::map(number, call),
        0x70 => circle_calls::kernel(call),
        0x80 => circle_calls::circles(call),
        _ => six(short_answer(number, &mut Arguments(call))),
    }
}

/// The answer to a call without lists.
fn short_answer(call: u64, words: &mut Arguments<'_>) -> Answer {
    match call {
        0x01..=0x0c => float(call, words),
        0x10 | 0x11 => digest(call, words),
        0x20..=0x2e => sphere(call, words),
        0x30..=0x3c => grid_calls::answer(call, words),
        0x61 | 0x62 => table_calls::extents(call, words),
        // Of no known number.
        _ => number(f64::NAN),
    }
}

fn float(call: u64, words: &mut Arguments<'_>) -> Answer {
    let bits = words.next();
    let x = f64::from_bits(bits);
    match call {
        0x01 => number(x.sqrt()),
        0x02 => {
            let (sum, dropped) = table::two_sum(x, words.float());
            two(shown(sum), shown(dropped))
        }
        0x03 => number(x % words.float()),
        0x04 => number(stand_ins::rem_euclid(x, words.float())),
        0x05 => number(f64::from(f32::from_bits(bits as u32))),
        0x06 => one(u64::from(x.is_finite())),
        0x07 => number(x.abs()),
        0x08 => number(x.min(words.float())),
        0x09 => number(x.max(words.float())),
        0x0a => {
            let (low, high) = (words.float(), words.float());
            number(clamp(x, low, high))
        }
        0x0b => match grid::index_from_offset(x, words.next() as u32) {
            Some(index) => two(1, u64::from(index)),
            None => one(0),
        },
        _ => one(u64::from(x as u32)),
    }
}

/// Rust's own panics at bounds that are out of order or NaN; `replay` takes any.
fn clamp(x: f64, low: f64, high: f64) -> f64 {
    if low <= high {
        x.clamp(low, high)
    } else if x < low {
        low
    } else if high < x {
        high
    } else {
        x
    }
}

fn digest(call: u64, words: &mut Arguments<'_>) -> Answer {
    let (first, second) = (words.next(), words.next());
    one(match call {
        0x10 => first.wrapping_mul(second),
        _ => table::mix(first, second as u32),
    })
}

/// The row follows the digest.
fn digest_row(call: &[u64]) -> Answer {
    let row: Vec<u64> = lent(call, 1).iter().map(|&cell| u64::from(cell as u32)).collect();
    let first = Arguments(list(call, 0)).next();
    let digest = row.iter().fold(first, |digest, &cell| table::mix(digest, cell as u32));
    [six(one(digest)), row].concat()
}

fn sphere(call: u64, words: &mut Arguments<'_>) -> Answer {
    let bits = words.next();
    let x = f64::from_bits(bits);
    match call {
        0x20 => number(stand_ins::sin(x)),
        0x21 => number(stand_ins::cos(x)),
        0x22 => number(stand_ins::atan2(x, words.float())),
        0x23 => number(stand_ins::acos(x)),
        0x24 => number(stand_ins::to_radians(x)),
        0x25 => number(stand_ins::to_degrees(x)),
        0x26 => number(geodesy::wrap_lon(x)),
        0x27 | 0x28 => {
            let from = LatLon { lat: x, lon: words.float() };
            let to = LatLon { lat: words.float(), lon: words.float() };
            distance(call, from, to)
        }
        0x29 => number(geodesy::arc_km(x)),
        0x2a => number(geodesy::central_angle_rad(x)),
        0x2b => match RadiusKm::new(x) {
            Ok(radius) => two(0, shown(radius.km())),
            Err(RadiusError::NotFinite) => one(18),
            Err(RadiusError::Negative) => one(19),
        },
        0x2c => number(RadiusKm::from(bits as u32).km()),
        0x2d => {
            let more = words.float();
            match RadiusKm::new(x) {
                Ok(radius) => two(0, shown(radius.widened_by(more).km())),
                // No record that `new` gives.
                Err(_) => one(22),
            }
        }
        _ => {
            let band = LatBand::new(x, words.float());
            number(geodesy::zone_area_km2(band, words.float()))
        }
    }
}

fn distance(call: u64, from: LatLon, to: LatLon) -> Answer {
    let inside = (-91.0..=91.0).contains(&from.lat)
        && (-91.0..=91.0).contains(&to.lat)
        && (-181.0..=181.0).contains(&(to.lon - from.lon));
    if !inside {
        return one(24);
    }
    two(
        0,
        shown(match call {
            0x27 => geodesy::angular_distance_rad(from, to),
            _ => geodesy::great_circle_km(from, to),
        }),
    )
}

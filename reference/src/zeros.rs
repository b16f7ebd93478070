// How many calls of a list begin a series of sine, cosine or arctangent at 0, where the program takes a few turns
// of it and elsewhere all. An argument is worked out as the reference does, so that one that underflows is seen.
use crate::calls;
use crate::geodesy::LatBand;
use crate::grid::Row;
use crate::grid_calls::grid;
use crate::refusals;
use crate::stand_ins::to_radians;
use crate::words::{list, Arguments};
use std::collections::BTreeMap;

/// By name: what is worked out, and which of its arguments is 0.
pub type Counts = BTreeMap<String, u64>;

fn signed(x: f64) -> Option<&'static str> {
    (x == 0.0).then_some(if x.is_sign_negative() { "-0" } else { "+0" })
}

/// Which of the two is 0, and `-0` where a zero is negative.
fn of_two(names: [&'static str; 2], [a, b]: [f64; 2]) -> Vec<&'static str> {
    let which = match (a == 0.0, b == 0.0) {
        (true, true) => Some("both"),
        (true, false) => Some(names[0]),
        (false, true) => Some(names[1]),
        (false, false) => None,
    };
    let negative = [a, b].into_iter().filter_map(signed).find(|&sign| sign == "-0");
    which.into_iter().chain(negative).collect()
}

/// The series begins at y/x or x/y; 0/0 is counted too, where it begins at a NaN.
fn quotient(y: f64, x: f64) -> Option<&'static str> {
    let t = if y <= x { y / x } else { x / y };
    match (y == 0.0, x == 0.0) {
        (true, true) => Some("0/0"),
        _ if t != 0.0 => None,
        (true, false) => Some("0/x"),
        (false, true) => Some("y/0"),
        (false, false) => Some("underflow"),
    }
}

fn arccosine(r: f64) -> Option<&'static str> {
    quotient((1.0 - r).sqrt(), (1.0 + r).sqrt()).map(|_| if r > 0.0 { "1" } else { "-1" })
}

/// The half differences' sines and the latitudes' cosines; none of a distance that is refused.
fn distance(number: u64, call: &[u64]) -> Vec<(&'static str, &'static str)> {
    if calls::answer(number, call)[0] != 0 {
        return vec![];
    }
    let words = &mut Arguments(call);
    let [from_lat, from_lon, to_lat, to_lon] = [(); 4].map(|()| words.float());
    let lats = [from_lat, to_lat].map(to_radians);
    let halves = [(lats[1] - lats[0]) / 2.0, to_radians(to_lon - from_lon) / 2.0];
    let named = |name, zeros: Vec<&'static str>| zeros.into_iter().map(move |zero| (name, zero));
    let halves = of_two(["latitude", "longitude"], halves);
    named("halves", halves).chain(named("latitudes", of_two(["from", "to"], lats))).collect()
}

/// The edges' sines, of an area that is not refused.
fn band(number: u64, call: &[u64]) -> Option<LatBand> {
    let words = &mut Arguments(call);
    if number == 0x2e {
        return Some(LatBand::new(words.float(), words.float()));
    }
    let g = grid(words);
    refusals::lat_bounds(&g, Row(words.next() as u32)).ok()
}

/// A kernel that is made, around a row at latitude 0.
fn around_zero(call: &[u64]) -> bool {
    let words = &mut Arguments(list(call, 0));
    let lat = refusals::centre_lat(&grid(words), Row(words.next() as u32));
    lat == Ok(0.0) && words.float() > 0.0 && calls::answer(0x70, call)[0] == 0
}

pub fn count(counts: &mut Counts, number: u64, call: &[u64]) {
    let words = &mut Arguments(call);
    let named = |name, zero: Option<&'static str>| zero.map(|zero| (name, zero)).into_iter().collect();
    let zeros: Vec<(&str, &str)> = match number {
        0x20 => named("sine", signed(words.float())),
        0x21 => named("cosine", signed(words.float())),
        0x22 => named("arctangent", quotient(words.float(), words.float())),
        0x23 => named("arccosine", arccosine(words.float())),
        0x27 | 0x28 => distance(number, call),
        0x2e | 0x37 => {
            let edges = band(number, call).map(|band| [band.north(), band.south()].map(to_radians));
            let zeros = edges.map_or(vec![], |edges| of_two(["north", "south"], edges));
            zeros.into_iter().map(|zero| ("zone", zero)).collect()
        }
        0x70 => named("kernel", around_zero(call).then_some("centre")),
        _ => vec![],
    };
    for (name, zero) in zeros {
        *counts.entry(format!("{name} {zero}")).or_default() += 1;
    }
}

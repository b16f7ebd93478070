// The proved square root against the hardware's, bit for bit. `reference/roots` builds and runs it.
mod progress;
mod random;

use progress::Progress;
use random::Random;
use std::process::ExitCode;

extern "C" {
    fn exports_sqrt(x: f64) -> f64;
}

/// As many as the acceptance list has.
const COUNT: u64 = 40_200_000;

/// Zeros, infinities, NaNs, the ends of the ranges and numbers below zero.
const LIMITS: [u64; 16] = [
    0,
    1,
    2,
    0x000f_ffff_ffff_ffff,
    0x0010_0000_0000_0000,
    0x0010_0000_0000_0001,
    0x3fef_ffff_ffff_ffff,
    0x3ff0_0000_0000_0000,
    0x3ff0_0000_0000_0001,
    0x7fef_ffff_ffff_ffff,
    0x7ff0_0000_0000_0000,
    0x7ff0_0000_0000_0001,
    0x7ff8_0000_0000_0000,
    0x7fff_ffff_ffff_ffff,
    0x3fff_ffff_ffff_ffff,
    0x4000_0000_0000_0000,
];

/// The exponents: 2,046 of normal numbers, and below them one for each place of a subnormal number's first digit.
const SUBNORMAL: i64 = 52;
const EXPONENTS: u64 = 2046 + SUBNORMAL as u64;

/// Number `index` of the list: all exponents in turn, and for each one of four kinds.
fn input(index: u64, random: &mut Random) -> f64 {
    let exponent = (index % EXPONENTS) as i64 - SUBNORMAL + 1;
    let root = match index / EXPONENTS % 4 {
        0 => return scaled(random.word() >> 12 | 1 << 52, exponent),
        // Its square is a float.
        1 => random.word() >> 38 | 1 << 25,
        // A float whose square is nearly one.
        2 => near_float(random, 53),
        // The middle between two floats whose square is nearly one.
        _ => near_float(random, 54),
    };
    near_square(root, exponent, random)
}

/// An odd number of so many digits whose square is less than 2^22 from a multiple of 2^(digits + 1).
fn near_float(random: &mut Random, digits: u32) -> u64 {
    let rest = (8 * random.below(1 << 20) + 1).wrapping_sub(1 << 22);
    // Each digit of the root settles one more of the square's.
    let mut root = 1u64;
    for place in 3..=digits {
        let wrong = root.wrapping_mul(root).wrapping_sub(rest) >> place & 1;
        root += wrong << (place - 1);
    }
    root.max((1 << digits) - root)
}

/// The first 53 digits of a square, up to two steps away, times a power of 4 that brings it to the exponent or the one
/// below.
fn near_square(root: u64, exponent: i64, random: &mut Random) -> f64 {
    let square = u128::from(root) * u128::from(root);
    let digits = i64::from(128 - square.leading_zeros());
    let first = if digits > 53 { square >> (digits - 53) } else { square << (53 - digits) } as u64;
    let x = scaled(first, exponent - (exponent + digits) % 2);
    f64::from_bits((x.to_bits() + random.below(5)).saturating_sub(2))
}

/// A number of 53 digits whose first has the biased exponent; the digits that a subnormal number lacks are cut.
fn scaled(digits: u64, exponent: i64) -> f64 {
    f64::from_bits(if exponent > 0 { (exponent as u64 - 1 << 52) + digits } else { digits >> (1 - exponent) })
}

/// Equal bits, or two NaNs.
fn same(x: f64) -> bool {
    // SAFETY: the proved function takes every number.
    let proved = unsafe { exports_sqrt(x) };
    let hardware = x.sqrt();
    proved.to_bits() == hardware.to_bits() || proved.is_nan() && hardware.is_nan()
}

fn compare(count: u64) -> Result<(), f64> {
    for bits in LIMITS {
        for x in [f64::from_bits(bits), -f64::from_bits(bits)] {
            same(x).then_some(()).ok_or(x)?;
        }
    }
    let mut random = Random(1);
    let mut progress = Progress::new(count, "roots");
    for index in 0..count {
        let x = input(index, &mut random);
        same(x).then_some(()).ok_or(x)?;
        if index % 4096 == 0 {
            progress.at(index);
        }
    }
    Ok(())
}

fn main() -> ExitCode {
    let words: Vec<String> = std::env::args().skip(1).collect();
    let count = match &words[..] {
        [] => Some(COUNT),
        [count] => count.parse().ok().filter(|&count| count > 0),
        _ => None,
    };
    let Some(count) = count else {
        eprintln!("usage: roots [N]");
        return ExitCode::from(2);
    };
    match compare(count) {
        Ok(()) => {
            println!("{count} roots and {} limits, no difference", 2 * LIMITS.len());
            println!("{EXPONENTS} exponents, {} numbers for each", count / EXPONENTS);
            ExitCode::SUCCESS
        }
        Err(x) => {
            println!("the root of bits {:016X} differs", x.to_bits());
            ExitCode::FAILURE
        }
    }
}

// Lists of calls. Each call depends on the seed and its own number alone, so that a long list can be made in parts.
pub use crate::random::Random;
use crate::table::FNV_OFFSET_BASIS;
use crate::words::listed;
use std::f64::consts::PI;
use std::ops::RangeInclusive;

/// The floats where rules change. Their negatives and their neighbours are drawn too.
#[rustfmt::skip]
pub const LIMITS: [f64; 32] = [
    0.0, f64::from_bits(1), f64::from_bits(0x000f_ffff_ffff_ffff), f64::MIN_POSITIVE, 1e-320, 1e-20, f64::EPSILON,
    0.5, 1.0, 1.5, 2.0, PI / 4.0, PI / 2.0, PI,
    45.0, 90.0, 91.0, 179.0, 180.0, 181.0, 270.0, 360.0, 540.0,
    6371.0088, 20016.0, 2147483648.0, 4294967295.0, 4294967296.0, 9007199254740992.0, 18446744073709551616.0,
    f64::MAX, f64::INFINITY,
];

pub const NANS: [u64; 4] =
    [0x7ff8_0000_0000_0000, 0xfff8_0000_0000_0000, 0x7ff0_0000_0000_0001, 0xffff_ffff_ffff_ffff];

/// f32 patterns where the rules change; and 32-bit words.
#[rustfmt::skip]
pub const HALVES: [u64; 18] = [
    0, 1, 2, 0x007f_ffff, 0x0080_0000, 0x3f80_0000, 0x4b80_0000, 0x7f7f_ffff, 0x7f80_0000,
    0x7f80_0001, 0x7fc0_0000, 0x7fff_ffff, 0x8000_0000, 0x8000_0001, 0xc61c_3c00, 0xff80_0000, 0xffc0_0000, 0xffff_ffff,
];

impl Random {
    pub fn of(&mut self, floats: &[f64]) -> f64 {
        floats[self.below(floats.len() as u64) as usize]
    }

    /// From `low` to `high`.
    pub fn between(&mut self, low: f64, high: f64) -> f64 {
        low + (high - low) * ((self.word() >> 11) as f64 / 9007199254740992.0)
    }

    pub fn either_sign(&mut self, x: f64) -> f64 {
        if self.below(2) == 0 {
            x
        } else {
            -x
        }
    }

    /// x, or a float at most two patterns away.
    pub fn near(&mut self, x: f64) -> f64 {
        f64::from_bits(x.to_bits().wrapping_add(self.below(5)).wrapping_sub(2))
    }

    /// A limit, or a neighbour of one, of either sign.
    pub fn limit(&mut self) -> f64 {
        let x = self.of(&LIMITS);
        let x = self.either_sign(x);
        if self.below(2) == 0 {
            x
        } else {
            self.near(x)
        }
    }

    /// A whole number, or one and a half, or a few binary digits more.
    pub fn short(&mut self) -> f64 {
        let size = 1 << (1 + self.below(24));
        let x = self.below(size) as f64 / [1.0, 1.0, 2.0, 8.0, 1024.0][self.below(5) as usize];
        self.either_sign(x)
    }

    /// Any float.
    pub fn float(&mut self) -> f64 {
        match self.below(16) {
            0..=4 => f64::from_bits(self.word()),
            5 => f64::from_bits(NANS[self.below(4) as usize]),
            6 => f64::from_bits(self.word() & 0x800f_ffff_ffff_ffff),
            7..=9 => self.limit(),
            10 | 11 => self.short(),
            12 | 13 => self.between(-400.0, 400.0),
            14 => self.between(-2.0, 2.0),
            _ => self.between(-50000.0, 50000.0),
        }
    }

    /// A float that is a number.
    pub fn number(&mut self) -> f64 {
        let x = self.float();
        if x.is_nan() {
            1.0
        } else {
            x
        }
    }

    pub fn latitude(&mut self) -> f64 {
        match self.below(16) {
            0..=9 => self.between(-90.0, 90.0),
            10 => self.between(-91.0, 91.0),
            11 => {
                let x = self.of(&[0.0, 45.0, 90.0, 91.0]);
                let x = self.either_sign(x);
                self.near(x)
            }
            12..=14 => self.below(183) as f64 - 91.0,
            _ => self.float(),
        }
    }

    pub fn longitude(&mut self) -> f64 {
        match self.below(16) {
            0..=9 => self.between(-180.0, 180.0),
            10 => self.between(-540.0, 540.0),
            11 => {
                let x = self.of(&[0.0, 90.0, 180.0, 181.0]);
                let x = self.either_sign(x);
                self.near(x)
            }
            12..=14 => self.below(361) as f64 - 180.0,
            _ => self.float(),
        }
    }

    /// For the root: squares, the squares of middles between neighbours, and what lies beside both.
    pub fn square(&mut self) -> f64 {
        let scale = f64::from_bits((511 + self.below(1022)) << 52);
        let root = match self.below(3) {
            0 => self.below(1 << 26) as f64,
            1 => (1u64 << 52 | self.word() >> 12) as f64,
            _ => {
                let x = (1u64 << 52 | self.word() >> 12) as f64;
                return self.near((x * x + x) * scale * scale);
            }
        };
        self.near(root * root * scale * scale)
    }

    /// For the remainder: a float and a modulus with any gap of exponents, also multiples and their neighbours.
    pub fn remainder(&mut self) -> [f64; 2] {
        let m = match self.below(8) {
            0..=3 => self.float(),
            4 => 360.0,
            5 => self.short(),
            6 => f64::from_bits(self.word() & 0x001f_ffff_ffff_ffff),
            _ => self.between(0.0, 100000.0),
        };
        let x = match self.below(4) {
            0 | 1 => self.float(),
            2 => {
                let times = self.short();
                self.near(m * times)
            }
            _ => {
                let exponent = self.below(2047) << 52;
                f64::from_bits(self.word() & 0x800f_ffff_ffff_ffff | exponent)
            }
        };
        [x, m]
    }

    /// For the sum: any two, two of near exponents, and a tie of the rounding.
    pub fn addends(&mut self) -> [f64; 2] {
        let a = self.float();
        let b = match self.below(4) {
            0 => self.float(),
            1 => {
                let sum = self.near(a);
                -sum
            }
            2 => {
                let exponent = (a.to_bits() >> 52 & 0x7ff).saturating_sub(self.below(110)) << 52;
                f64::from_bits(self.word() & 0x800f_ffff_ffff_ffff | exponent)
            }
            _ => {
                let exponent = (a.to_bits() >> 52 & 0x7ff).saturating_sub(53) << 52;
                let half = f64::from_bits(exponent);
                let half = self.near(half);
                self.either_sign(half)
            }
        };
        if self.below(2) == 0 {
            [a, b]
        } else {
            [b, a]
        }
    }

    /// Two numbers that are not zeros of both signs, for which Rust leaves the smaller and the larger open.
    pub fn two_numbers(&mut self) -> [f64; 2] {
        let x = self.number();
        let y = if self.below(4) == 0 { self.near(x) } else { self.number() };
        let y = if y.is_nan() { 1.0 } else { y };
        if x == 0.0 && y == 0.0 {
            [x, x]
        } else {
            [x, y]
        }
    }

    pub fn clamped(&mut self) -> [f64; 3] {
        let [a, b] = self.two_numbers();
        let (low, high) = if a <= b { (a, b) } else { (b, a) };
        let x = match self.below(4) {
            0 => self.near(low),
            1 => self.near(high),
            _ => self.float(),
        };
        // A zero and a bound that is the other zero are equal, and Rust leaves it open which is given.
        let zero = x == 0.0 && (low == 0.0 || high == 0.0);
        [if zero { 1.0 } else { x }, low, high]
    }

    /// A position and a limit, above which any 32 bits may stand.
    pub fn offset(&mut self) -> [u64; 2] {
        let limit = match self.below(4) {
            0 => HALVES[self.below(18) as usize],
            1 => self.below(100),
            2 => self.below(1048577),
            _ => self.word() >> 32,
        };
        let x = match self.below(4) {
            0 => self.float(),
            1 => self.near(limit as f64),
            _ => {
                let high = limit as f64 * 1.1 + 1.0;
                self.between(-1.0, high)
            }
        };
        let above = if self.below(4) == 0 { self.word() << 32 } else { 0 };
        [x.to_bits(), above | limit]
    }

    /// 32 bits, above which any others may stand.
    pub fn half(&mut self) -> u64 {
        match self.below(4) {
            0 => HALVES[self.below(18) as usize],
            1 => self.word(),
            _ => self.word() >> 32,
        }
    }

    pub fn factor(&mut self) -> u64 {
        match self.below(4) {
            0 => [0, 1, 2, 3, 0xffff_ffff, 1 << 32, 1 << 63, u64::MAX][self.below(8) as usize],
            1 => self.word() >> self.below(64),
            _ => self.word(),
        }
    }

    /// A digest and a row's cells; seldom a long row.
    pub fn row(&mut self) -> Vec<u64> {
        let digest = if self.below(2) == 0 { FNV_OFFSET_BASIS } else { self.word() };
        let length = match self.below(256) {
            0 => 8192 - self.below(2),
            1 => self.below(1000),
            _ => self.below(16),
        };
        let row: Vec<u64> = (0..length).map(|_| self.half()).collect();
        listed(&[&[digest], &row])
    }

    /// A radius, and what it is widened by.
    pub fn widening(&mut self) -> [f64; 2] {
        match self.below(8) {
            0 => [self.either_sign(0.0), self.either_sign(0.0)],
            1 => {
                let km = self.radius();
                [km, self.near(-km)]
            }
            _ => [self.radius(), self.float()],
        }
    }

    pub fn radius(&mut self) -> f64 {
        match self.below(4) {
            0 => self.float(),
            1 => self.limit().abs(),
            2 => self.short().abs(),
            _ => self.between(0.0, 21000.0),
        }
    }
}

pub fn bits<const N: usize>(floats: [f64; N]) -> Vec<u64> {
    floats.iter().map(|x| x.to_bits()).collect()
}

/// The modules and the numbers of their calls.
pub const MODULES: [(&str, RangeInclusive<u64>); 10] = [
    ("float", 0x01..=0x0c),
    ("digest", 0x10..=0x12),
    ("geodesy", 0x20..=0x2e),
    ("grid", 0x30..=0x3c),
    ("raster", 0x40..=0x40),
    ("build", 0x50..=0x50),
    ("rectangle", 0x60..=0x62),
    ("layout", 0x63..=0x64),
    ("kernel", 0x70..=0x70),
    ("circle", 0x80..=0x80),
];

/// The numbers of a module's calls.
pub fn numbers_of(module: &str) -> Option<Vec<u64>> {
    let numbers: Vec<u64> = MODULES
        .into_iter()
        .filter(|(name, _)| module == "all" || module == *name)
        .flat_map(|(_, numbers)| numbers)
        .collect();
    Some(numbers).filter(|numbers| !numbers.is_empty())
}

/// Call `index` of a seed's list, of one of the numbers given; 50 is a whole build, of several calls, and 63 and 64 may be the
/// way there and back.
pub fn calls(seed: u64, index: u64, numbers: &[u64]) -> Vec<Vec<u64>> {
    let start = Random(seed).word();
    let mut random = Random(start.wrapping_add(index.wrapping_mul(0xd1b5_4a32_d192_ed03)));
    let number = numbers[random.below(numbers.len() as u64) as usize];
    match number {
        0x50 => build(&mut random),
        0x63 | 0x64 => random.map_calls(number),
        _ => vec![call_of(number, &mut random)],
    }
}

/// One in 256 has a table as long as a list, by words of its own, so that every other build is what it was without it.
fn build(random: &mut Random) -> Vec<Vec<u64>> {
    let mut own = Random(!random.0);
    if own.chance(256) {
        own.full_build()
    } else {
        random.build()
    }
}

fn call_of(number: u64, random: &mut Random) -> Vec<u64> {
    // By words of its own, so that every other call is what it was without them.
    let zeros = Random(!random.0).zero_call(number);
    let mut words = vec![number];
    words.extend(zeros.unwrap_or_else(|| arguments(number, random)));
    words
}

fn arguments(number: u64, random: &mut Random) -> Vec<u64> {
    match number {
        0x01 => bits([if random.below(2) == 0 { random.square() } else { random.float() }]),
        0x02 => bits(random.addends()),
        0x03 | 0x04 => bits(random.remainder()),
        0x05 | 0x2c => vec![random.half()],
        0x08 | 0x09 => bits(random.two_numbers()),
        0x0a => bits(random.clamped()),
        0x0b => random.offset().to_vec(),
        0x10 => vec![random.factor(), random.factor()],
        0x11 => vec![random.word(), random.half()],
        0x12 => random.row(),
        0x20 | 0x21 => bits([random.angle()]),
        0x22 => bits(random.legs()),
        0x23 => bits([if random.below(2) == 0 { random.between(-1.0, 1.0) } else { random.float() }]),
        0x26 => bits([if random.below(2) == 0 { random.longitude() } else { random.float() }]),
        0x27 | 0x28 => bits(random.points()),
        0x2d => bits(random.widening()),
        0x2e => bits([random.latitude(), random.latitude(), random.longitude()]),
        0x30..=0x3c => random.grid_call(number),
        0x40 => random.raster_row(),
        0x60 => random.rectangles(),
        0x61 | 0x62 => random.window(number),
        0x70 => random.kernel(),
        0x80 => random.circles(),
        _ => bits([random.float()]),
    }
}

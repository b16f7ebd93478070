// Arguments of the calls on grids.
use crate::generate::{Random, HALVES};
use crate::geodesy::LatLon;
use crate::grid::Grid;
use crate::refusals;

/// A grid as six words.
pub fn grid_words(g: &Grid) -> Vec<u64> {
    let floats = [g.origin.lat, g.origin.lon, g.lon_step, g.lat_step].map(f64::to_bits);
    [vec![u64::from(g.width), u64::from(g.height)], floats.to_vec()].concat()
}

/// A grid of that size around the globe, which is given at every factor.
pub fn plain_grid(width: u32, height: u32) -> Grid {
    let (lon_step, lat_step) = (360.0 / f64::from(width), -90.0 / f64::from(height));
    Grid { width, height, origin: LatLon { lat: 45.0, lon: -180.0 }, lon_step, lat_step }
}

const TOLERANCE: f64 = 1e-9;

impl Random {
    /// One of the words.
    pub fn pick<T: Copy>(&mut self, items: &[T]) -> T {
        items[self.below(items.len() as u64) as usize]
    }

    pub fn chance(&mut self, one_in: u64) -> bool {
        self.below(one_in) == 0
    }

    /// From 1 to `most`, the small ones as often as the large ones.
    pub fn size(&mut self, most: u64) -> u32 {
        let bits = self.below(u64::from(most.ilog2()) + 1) + 1;
        (1 + self.below((1 << bits).min(most))) as u32
    }

    fn dimension(&mut self) -> u32 {
        match self.below(8) {
            0 => self.pick(&[1, 2, 3, 360, 1_048_575, 1_048_576]),
            1 => 1 + self.below(1_048_576) as u32,
            _ => self.size(2000),
        }
    }

    /// The origin of a longitude, within ±180.
    fn origin_lon(&mut self) -> f64 {
        match self.below(8) {
            0..=2 => self.between(-180.0, 180.0),
            3 => self.pick(&[0.0, -0.0, 180.0, -180.0]),
            4 => self.below(361) as f64 - 180.0,
            _ => -180.0,
        }
    }

    /// Of a turn or of a part of one, with either sign.
    pub fn lon_step(&mut self, width: u32) -> f64 {
        let width = f64::from(width);
        let step = match self.below(8) {
            0..=2 => 360.0 / width,
            3 => self.near(360.0 / width),
            4 => {
                let turn = self.pick(&[360.0 - TOLERANCE, 360.0 + TOLERANCE]);
                self.near(turn / width)
            }
            5 => self.between(0.0, 360.0) / width,
            6 => self.pick(&[1.0 / 120.0, 0.25, 1.0, 1e-6, 1e-300]),
            _ => (360.0 / width).floor(),
        };
        let step = if step == 0.0 { 360.0 / width } else { step };
        if self.chance(4) {
            -step
        } else {
            step
        }
    }

    fn lat_step(&mut self, lat: f64, height: u32) -> f64 {
        let (span, height) = (lat + 90.0, f64::from(height));
        let step = match self.below(8) {
            0..=2 => -span / height,
            3 => self.near(-span / height),
            4 => self.near(-(span + TOLERANCE) / height),
            5 | 6 => -self.between(0.0, span.max(1.0)) / height,
            _ => self.pick(&[-1.0 / 120.0, -0.25, -1.0, -1e-300]),
        };
        if step < 0.0 {
            step
        } else {
            -1.0 / height
        }
    }

    /// A grid of that size, which `Grid::new` refuses seldom.
    pub fn grid_of(&mut self, width: u32, height: u32) -> Grid {
        let lat = match self.below(8) {
            0..=3 => 90.0,
            4 => self.pick(&[0.0, -0.0, 45.0, -89.0, -90.0]),
            _ => self.between(-90.0, 90.0),
        };
        let origin = LatLon { lat, lon: self.origin_lon() };
        Grid { width, height, origin, lon_step: self.lon_step(width), lat_step: self.lat_step(lat, height) }
    }

    /// A grid of that size that `Grid::new` gives.
    pub fn made_grid(&mut self, width: u32, height: u32) -> Grid {
        for _ in 0..4 {
            if let Ok(g) = refusals::new_grid(self.grid_of(width, height)) {
                return g;
            }
        }
        plain_grid(width, height)
    }

    /// The grid from an origin with a zero of either sign: its latitude, its longitude or both. The rows stay on the globe.
    pub fn zero_origin(&mut self, g: &mut Grid) {
        let which = 1 + self.below(3);
        if which & 1 != 0 {
            g.origin.lat = self.either_sign(0.0);
            g.lat_step = g.lat_step.max(-90.0 / f64::from(g.height));
        }
        if which & 2 != 0 {
            g.origin.lon = self.either_sign(0.0);
        }
    }

    /// The grid with another sign of the zeros in its origin: of one, of both or of none.
    pub fn other_zeros(&mut self, g: &Grid) -> Grid {
        let mut other = *g;
        let which = self.below(4);
        if which & 1 != 0 && g.origin.lat == 0.0 {
            other.origin.lat = -g.origin.lat;
        }
        if which & 2 != 0 && g.origin.lon == 0.0 {
            other.origin.lon = -g.origin.lon;
        }
        other
    }

    /// Any float, and often one that is not finite.
    fn odd(&mut self) -> f64 {
        if self.chance(3) {
            self.pick(&[f64::NAN, f64::INFINITY, f64::NEG_INFINITY])
        } else {
            self.float()
        }
    }

    /// A field becomes one at or past a limit, or anything.
    pub fn spoil(&mut self, g: &mut Grid) {
        match self.below(7) {
            0 => g.width = self.pick(&[0, 1, 1_048_576, 1_048_577, 0x8000_0000, 0xffff_ffff]),
            1 => g.height = self.pick(&[0, 1, 1_048_576, 1_048_577, 0x8000_0000, 0xffff_ffff]),
            2 => {
                let edge = self.either_sign(90.0);
                g.origin.lat = if self.chance(2) { self.near(edge) } else { self.odd() };
            }
            3 => {
                let edge = self.pick(&[180.0, 360.0, 540.0]);
                let edge = self.either_sign(edge);
                g.origin.lon = match self.below(4) {
                    0 => -180.00000000000003,
                    1 | 2 => self.near(edge),
                    _ => self.odd(),
                };
            }
            4 => g.lon_step = if self.chance(2) { self.either_sign(0.0) } else { self.odd() },
            5 => g.lat_step = if self.chance(2) { self.either_sign(0.0) } else { self.odd() },
            _ => g.lat_step = -g.lat_step,
        }
    }

    /// Any grid, most often one that passes.
    pub fn any_grid(&mut self) -> Grid {
        let (width, height) = (self.dimension(), self.dimension());
        let mut g = if self.chance(3) { self.grid_of(width, height) } else { self.made_grid(width, height) };
        while self.chance(4) {
            self.spoil(&mut g);
        }
        g
    }

    /// An index on the axis, at its end or past it.
    pub fn index(&mut self, limit: u32) -> u64 {
        let limit = u64::from(limit);
        match self.below(16) {
            0 => limit,
            1 => limit.saturating_sub(1),
            2 => 0,
            3 => HALVES[self.below(18) as usize],
            4 => self.word(),
            _ => self.below(limit.max(1)),
        }
    }

    fn steps(&mut self, width: u32) -> u64 {
        let width = i64::from(width);
        let cells = match self.below(8) {
            0 => self.pick(&[i64::MIN, i64::MIN + 1, i64::MAX, -1, 0, 1]),
            1 => self.word() as i64,
            2 => (self.word() as i64) >> self.below(64),
            3 => width.wrapping_mul(self.below(7) as i64 - 3) + self.below(3) as i64 - 1,
            _ => self.below(4 * width as u64 + 3) as i64 - 2 * width,
        };
        cells as u64
    }

    /// A latitude at a row's edge, a few patterns away, or anywhere.
    pub fn lat_on(&mut self, g: &Grid) -> f64 {
        let row = self.below(u64::from(g.height) + 1) as f64;
        match self.below(8) {
            0..=2 => self.near(g.origin.lat + row * g.lat_step),
            3 => self.either_sign(90.0),
            4 => self.odd(),
            _ => g.origin.lat + self.between(0.0, f64::from(g.height)) * g.lat_step,
        }
    }

    pub fn lon_on(&mut self, g: &Grid) -> f64 {
        let col = self.below(u64::from(g.width) + 1) as f64;
        match self.below(8) {
            0..=2 => {
                let turns = self.pick(&[0.0, 0.0, 360.0, -360.0]);
                self.near(g.origin.lon + col * g.lon_step + turns)
            }
            3 => self.pick(&[-1e-20, 1e-20, -0.0, 0.0, 180.0, -180.0, 360.0]),
            4 => self.odd(),
            5 => self.longitude(),
            _ => g.origin.lon + self.between(0.0, f64::from(g.width)) * g.lon_step,
        }
    }

    fn other_grid(&mut self, g: &Grid) -> Grid {
        let mut other = if self.chance(2) { self.other_zeros(g) } else { *g };
        match self.below(12) {
            0 => other.width ^= 1 << self.below(32),
            1 => other.height ^= 1 << self.below(32),
            2 => other.origin.lat = self.near(g.origin.lat),
            3 => other.origin.lon = self.near(g.origin.lon),
            4 => other.lon_step = self.near(g.lon_step),
            5 => other.lat_step = self.near(g.lat_step),
            6 => return self.any_grid(),
            7 => match self.below(4) {
                0 => other.origin.lat = -g.origin.lat,
                1 => other.origin.lon = -g.origin.lon,
                2 => other.lon_step = -g.lon_step,
                _ => other.lat_step = -g.lat_step,
            },
            _ => {}
        }
        other
    }

    pub fn grid_call(&mut self, call: u64) -> Vec<u64> {
        let mut g = self.any_grid();
        if call == 0x3c {
            match self.below(12) {
                0..=3 => self.zero_origin(&mut g),
                4 => g.origin.lat = f64::NAN,
                _ => {}
            }
        }
        let mut words = grid_words(&g);
        if self.chance(64) {
            words[0] |= self.word() << 32;
        }
        // The case that document 01 names: a longitude just west of the origin 0 of a grid of four columns.
        if call == 0x36 && self.chance(64) {
            let origin = LatLon { lat: 90.0, lon: 0.0 };
            let at = [self.pick(&[-90.0, 0.0, 90.0]), self.pick(&[-1e-20, 0.0, -1e-10])];
            words = grid_words(&Grid { width: 4, height: 2, origin, lon_step: 90.0, lat_step: -90.0 });
            words.extend(at.map(f64::to_bits));
            return words;
        }
        words.extend(match call {
            0x30 | 0x38 | 0x39 => vec![],
            0x31 => vec![self.index(g.height), self.index(g.width)],
            0x34 | 0x3b => vec![self.index(g.width)],
            0x35 => vec![self.index(g.width), self.steps(g.width)],
            0x36 => vec![self.lat_on(&g).to_bits(), self.lon_on(&g).to_bits()],
            0x3c => grid_words(&self.other_grid(&g)),
            _ => vec![self.index(g.height)],
        });
        words
    }
}

// Arguments of the calls on the sphere, also those at which a series of sine, cosine or arctangent begins at 0 or beside it.
use crate::generate::{bits, Random};
use std::f64::consts::PI;

/// Floats beside 0: in radians, halved, squared or divided they may be 0.
const SMALL: [f64; 5] = [f64::from_bits(1), f64::MIN_POSITIVE, 1e-162, 1e-154, 1e-20];

impl Random {
    pub fn points(&mut self) -> [f64; 4] {
        let (lat, lon) = (self.latitude(), self.longitude());
        match self.below(8) {
            // Two points that are near, that are the same, and that lie opposite.
            0 => [lat, lon, lat + self.between(-1e-3, 1e-3), lon + self.between(-1e-3, 1e-3)],
            1 => [lat, lon, self.near(lat), self.near(lon)],
            2 => [lat, lon, self.near(-lat), lon + 180.0],
            3 => {
                let away = self.of(&[180.0, 181.0]);
                let away = self.either_sign(away);
                let away = self.near(away);
                [lat, lon, self.latitude(), lon + away]
            }
            // One place from both sides of a pole, where the haversine can round to below 0.
            4 => {
                let past = self.between(0.0, 1.0);
                let (north, turn) = (self.either_sign(1.0), self.either_sign(180.0));
                [north * (90.0 + past), lon, self.near(north * (90.0 - past)), lon + turn]
            }
            _ => [lat, lon, self.latitude(), self.longitude()],
        }
    }

    /// For atan2: two legs of a triangle, and whatever else.
    pub fn legs(&mut self) -> [f64; 2] {
        match self.below(4) {
            0 => [self.float(), self.float()],
            1 => [self.number().abs(), self.number().abs()],
            2 => {
                let h = self.between(0.0, 1.0);
                [h.sqrt(), (1.0 - h).sqrt()]
            }
            _ => {
                let x = self.between(0.0, 2.0);
                [self.near(x), x]
            }
        }
    }

    pub fn angle(&mut self) -> f64 {
        match self.below(4) {
            0 => self.float(),
            1 => {
                let quarters = self.below(9) as f64 - 4.0;
                self.near(quarters * (PI / 4.0))
            }
            _ => self.between(-PI, PI),
        }
    }

    // ---- zeros

    /// One call in sixteen, of those that begin a series.
    pub fn zero_call(&mut self, number: u64) -> Option<Vec<u64>> {
        if !self.chance(16) {
            return None;
        }
        match number {
            0x20 | 0x21 => Some(bits([self.zero()])),
            0x22 => Some(bits(self.zero_legs())),
            0x23 => Some(bits([self.pole()])),
            0x27 | 0x28 => Some(bits(self.zero_points())),
            0x2e => Some(bits(self.zero_band())),
            _ => None,
        }
    }

    /// 0, or a float beside it, of either sign.
    fn zero(&mut self) -> f64 {
        let x = if self.chance(3) { self.of(&SMALL) } else { 0.0 };
        self.either_sign(x)
    }

    /// 1 or −1, whose arccosine has a root of 0, or a neighbour.
    fn pole(&mut self) -> f64 {
        let x = self.either_sign(1.0);
        if self.chance(4) {
            self.near(x)
        } else {
            x
        }
    }

    fn zero_legs(&mut self) -> [f64; 2] {
        let (zero, other) = (self.zero(), self.number());
        match self.below(4) {
            0 => [zero, other.abs()],
            1 => [other.abs(), zero],
            2 => [zero, other],
            _ => [zero, self.zero()],
        }
    }

    /// Points of equal latitude, of equal longitude, of both, and on the equator: one of them, or both.
    fn zero_points(&mut self) -> [f64; 4] {
        let [lat, other_lat] = [(); 2].map(|()| self.between(-90.0, 90.0));
        let [lon, other_lon] = [(); 2].map(|()| self.between(-90.0, 90.0));
        let (zero, other_zero) = (self.zero(), self.zero());
        match self.below(8) {
            0 => [lat, lon, lat, other_lon],
            1 => [lat, lon, other_lat, lon],
            2 => [lat, lon, lat, lon],
            3 => [zero, lon, lat, other_lon],
            4 => [lat, lon, zero, other_lon],
            5 => [zero, lon, other_zero, other_lon],
            6 => [zero, lon, other_zero, lon],
            _ => [lat, zero, self.near(lat), other_zero],
        }
    }

    /// The edges of a zone, of which one or both are on the equator, and degrees of longitude.
    fn zero_band(&mut self) -> [f64; 3] {
        let (zero, lat) = (self.zero(), self.between(-90.0, 90.0));
        let [north, south] = match self.below(3) {
            0 => [zero, lat],
            1 => [lat, zero],
            _ => [zero, self.zero()],
        };
        [north, south, self.longitude()]
    }
}

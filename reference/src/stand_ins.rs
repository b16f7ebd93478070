// The stand-ins that document 01 gives for the library's functions, so that both sides compute the same bits. Each
// operation is rounded, in the order written. The square root is the machine's.
use std::f64::consts::PI;

/// `powi(2)`: one product.
pub fn squared(x: f64) -> f64 {
    x * x
}

pub fn to_radians(degrees: f64) -> f64 {
    degrees * (PI / 180.0)
}

pub fn to_degrees(radians: f64) -> f64 {
    radians * (180.0 / PI)
}

pub fn sin(x: f64) -> f64 {
    let z = x * x;
    let mut s = 1.0;
    for k in (1..=10).rev() {
        let k = f64::from(k);
        s = 1.0 - (z / (2.0 * k * (2.0 * k + 1.0))) * s;
    }
    x * s
}

pub fn cos(x: f64) -> f64 {
    let z = x * x;
    let mut c = 1.0;
    for k in (1..=15).rev() {
        let k = f64::from(k);
        c = 1.0 - (z / ((2.0 * k - 1.0) * (2.0 * k))) * c;
    }
    c
}

/// A(t), the arctangent: the angle is halved twice, and the series is taken to the 21st power.
fn arctan(t: f64) -> f64 {
    let mut t = t;
    for _ in 0..2 {
        t = t / (1.0 + (1.0 + t * t).sqrt());
    }
    let w = t * t;
    let mut a = 1.0 / 21.0;
    for k in (0..=9).rev() {
        a = 1.0 / (2.0 * f64::from(k) + 1.0) - w * a;
    }
    4.0 * (t * a)
}

/// For `y` and `x` at least 0 and not both 0; elsewhere it answers what the same steps give.
pub fn atan2(y: f64, x: f64) -> f64 {
    if y <= x {
        arctan(y / x)
    } else {
        PI / 2.0 - arctan(x / y)
    }
}

pub fn acos(r: f64) -> f64 {
    2.0 * atan2((1.0 - r).sqrt(), (1.0 + r).sqrt())
}

/// Document 01 writes it out, so it is not left to the library.
pub fn rem_euclid(value: f64, m: f64) -> f64 {
    let r = value % m;
    if r < 0.0 {
        r + m.abs()
    } else {
        r
    }
}

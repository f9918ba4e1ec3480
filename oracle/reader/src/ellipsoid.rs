//! Ellipsoids, and what the steps ask of them.
//!
//! Document 01: "An ellipsoid is a record of a, f, es = f(2 - f), b = a(1 - f), es' = es/(1 -
//! es). f = 1/(the table's number)". The table has five rows. "w = 1 - es·sin²φ; N = a/√w; M =
//! a(1 - es)/(w·√w). The geocentric latitude is atan2((1 - es)·sin φ, cos φ)."
//!
//! Document 02, A8: "Numbers 6 to 13 name its rows" - rows of "a and 1/f pairs".
//!
//! Readings
//! - es·sin²φ is es times the square, as a square stands in the sign: s·s is rounded first. The
//!   other order, (es·s)·s, parts in the last place of N at ordinary latitudes, for example at φ
//!   = 1 on GRS80.
//! - M's numerator a(1 - es) is rounded before the division, and w·√w is one product.

use crate::kernels;

#[derive(Clone, Copy, Debug)]
pub struct Ellipsoid {
    pub a: f64,
    pub f: f64,
    pub es: f64,
    pub b: f64,
    /// es'
    pub eps: f64,
}

/// The table: a and 1/f.
pub const TABLE: [[f64; 2]; 5] = [
    [6378137.0, 298.257222101],
    [6378137.0, 298.257223563],
    [6378388.0, 297.0],
    [6377397.155, 299.1528128],
    [6378245.0, 298.3],
];

impl Ellipsoid {
    /// From a row: a and 1/f.
    pub fn of_row(row: [f64; 2]) -> Ellipsoid {
        let a = row[0];
        let f = 1.0 / row[1];
        let es = f * (2.0 - f);
        let b = a * (1.0 - f);
        let eps = es / (1.0 - es);
        Ellipsoid { a, f, es, b, eps }
    }

    /// 1 to 5 name the table's rows, 6 to 13 the sheet's own. The number has passed refusal 5.
    pub fn numbered(number: u32, own: &[[f64; 2]; 8]) -> Ellipsoid {
        let at = number as usize;
        Ellipsoid::of_row(if at <= 5 { TABLE[at - 1] } else { own[at - 6] })
    }

    fn w(&self, phi: f64) -> f64 {
        let s = kernels::sin(phi);
        1.0 - self.es * (s * s)
    }

    /// N, the radius of curvature in the prime vertical.
    pub fn prime_vertical(&self, phi: f64) -> f64 {
        self.a / kernels::sqrt(self.w(phi))
    }

    /// M, the radius of curvature in the meridian.
    pub fn meridian(&self, phi: f64) -> f64 {
        let w = self.w(phi);
        (self.a * (1.0 - self.es)) / (w * kernels::sqrt(w))
    }

    pub fn geocentric_latitude(&self, phi: f64) -> f64 {
        kernels::atan2((1.0 - self.es) * kernels::sin(phi), kernels::cos(phi))
    }
}

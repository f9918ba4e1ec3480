//! The kernels, taken from outside.
//!
//! Document 01: "The files given don't contain sin, cos, atan2, hypot, curvature radii or
//! ellipsoid data. The team writes each kernel's operation sequence in docs." The reader doesn't
//! read the kernels a second time. It calls the library's own by the crate `ours`, or the
//! standard library's under the feature `std-kernels`.
//!
//! Document 01: "An angle that isn't finite, or beyond ±1024, gives NaN." Document 02, A5: "The
//! kernels shall answer either the pair of numbers or "out of reach", the latter exactly for an
//! angle not finite or beyond ±1024."
//!
//! Readings
//! - ±1024 itself is in reach: "beyond" leaves the bound inside. Smallest input: sin(1024).

#[cfg(feature = "std-kernels")]
mod chosen {
    use super::out_of_reach;

    pub fn sqrt(x: f64) -> f64 {
        x.sqrt()
    }

    pub fn sin(x: f64) -> f64 {
        if out_of_reach(x) { f64::NAN } else { x.sin() }
    }

    pub fn cos(x: f64) -> f64 {
        if out_of_reach(x) { f64::NAN } else { x.cos() }
    }

    pub fn sin_cos(x: f64) -> (f64, f64) {
        (sin(x), cos(x))
    }

    pub fn atan2(y: f64, x: f64) -> f64 {
        y.atan2(x)
    }

    /// "infinite if either part is, even beside a NaN": written out, as a C library may part from
    /// this beside a signalling NaN.
    pub fn hypot(x: f64, y: f64) -> f64 {
        if x.is_infinite() || y.is_infinite() { f64::INFINITY } else { x.hypot(y) }
    }
}

#[cfg(not(feature = "std-kernels"))]
mod chosen {
    pub use ours::{atan2, cos, hypot, sin, sin_cos, sqrt};
}

pub use chosen::{atan2, cos, hypot, sin, sin_cos, sqrt};

/// "An angle not finite or beyond ±1024."
pub fn out_of_reach(x: f64) -> bool {
    !(-1024.0..=1024.0).contains(&x)
}

#[cfg(test)]
mod tests {
    use super::*;

    #[test]
    fn the_reach_ends_beyond_1024() {
        let beyond = 1024.0f64.next_up();
        assert!(!out_of_reach(1024.0) && !out_of_reach(-1024.0));
        assert!(out_of_reach(beyond) && out_of_reach(-beyond));
        assert!(out_of_reach(f64::NAN) && out_of_reach(f64::INFINITY));
        assert!(!sin(1024.0).is_nan() && sin(beyond).is_nan() && cos(beyond).is_nan());
    }
}

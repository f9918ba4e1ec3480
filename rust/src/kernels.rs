//! The kernels that the steps are computed with. Any numbers are taken, nothing is refused, and every box gives the same bits.
//!
//! docs/KERNELS.md of the repository has each one's operation sequence, its proved laws and its measured error.
use crate::ffi;

/// The square root, proved correctly rounded: -0 gives -0, +∞ gives +∞, a negative number NaN.
pub fn sqrt(x: f64) -> f64 {
    ffi::sillfeather_sqrt(x)
}

/// The sine of an angle in radians: proved within -1 to 1 and odd, keeps a zero; an angle that is not finite, or beyond ±1024, gives NaN. Measured: within
/// 2^-51 for angles up to 8.
pub fn sin(x: f64) -> f64 {
    ffi::sillfeather_sin(x)
}

/// The cosine of an angle in radians: proved within -1 to 1 and even, 1 of a zero; an angle that is not finite, or beyond ±1024, gives NaN. Measured: within
/// 2^-51 for angles up to 8.
pub fn cos(x: f64) -> f64 {
    ffi::sillfeather_cos(x)
}

/// [`sin`] and [`cos`] of one angle, at the cost of little more than one of them.
pub fn sin_cos(x: f64) -> (f64, f64) {
    ffi::sin_cos(x)
}

/// The sine and the cosine of an angle in radians, or `None` where it is out of reach: not finite, or
/// beyond 1024 either way.
///
/// ```
/// use sillfeather::kernels::{sin_cos, sin_cos_reach};
/// assert_eq!(sin_cos_reach(0.5), Some(sin_cos(0.5)));
/// assert_eq!(sin_cos_reach(-1024.0), Some(sin_cos(-1024.0)));
/// assert_eq!(sin_cos_reach(1024.0_f64.next_up()), None);
/// assert_eq!(sin_cos_reach(f64::NAN), None);
/// ```
pub fn sin_cos_reach(x: f64) -> Option<(f64, f64)> {
    ffi::sin_cos_reach(x)
}

/// The angle of the point (x, y), from -π to π, with IEEE's cases for zeros, infinities and quadrants. Measured: within 2^-50.
pub fn atan2(y: f64, x: f64) -> f64 {
    ffi::sillfeather_atan2(y, x)
}

/// √(x² + y²): infinite if either part is, even beside a NaN; +0 of two zeros. Measured: within 2 units in the last place for results from 2^-500 to 2^500.
pub fn hypot(x: f64, y: f64) -> f64 {
    ffi::sillfeather_hypot(x, y)
}

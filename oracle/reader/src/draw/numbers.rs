//! Numbers of the kinds that a sheet, a list or a velocity holds.

use crate::random::Random;
use crate::sheet::NOT_GIVEN;
use crate::{ellipsoid, kernels};
use std::f64::consts::{FRAC_PI_2, FRAC_PI_4, PI};

/// How a sheet's numbers are drawn: of their ordinary size, mostly zero, or any finite number.
#[derive(Clone, Copy, PartialEq, Debug)]
pub enum Style {
    Ordinary,
    Sparse,
    Wild,
}

pub fn style(r: &mut Random) -> Style {
    r.pick(&[Style::Ordinary, Style::Ordinary, Style::Ordinary, Style::Sparse, Style::Wild])
}

/// A parameter of about this size.
pub fn parameter(r: &mut Random, style: Style, size: f64) -> f64 {
    match style {
        Style::Ordinary => r.between(-size, size),
        Style::Sparse if !r.once_in(5) => r.sign(0.0),
        Style::Sparse => r.between(-size, size),
        Style::Wild => match r.below(4) {
            0 => r.sign(0.0),
            1 => r.between(-size, size),
            2 => {
                let tiny = f64::from_bits(1 + r.below(3000));
                r.sign(tiny)
            }
            _ => r.wild_finite(),
        },
    }
}

pub fn three(r: &mut Random, style: Style, size: f64) -> [f64; 3] {
    [(); 3].map(|()| parameter(r, style, size))
}

/// Zeros of either sign.
pub fn zeros(r: &mut Random) -> [f64; 3] {
    [(); 3].map(|()| r.sign(0.0))
}

/// An epoch that is given.
pub fn epoch(r: &mut Random, style: Style) -> f64 {
    match style {
        Style::Wild if r.once_in(3) => r.wild_finite(),
        _ if r.once_in(10) => r.sign(0.0),
        _ => 1985.0 + r.below(45) as f64,
    }
}

/// An epoch that is given or not.
pub fn epoch_or_none(r: &mut Random, style: Style) -> f64 {
    if r.once_in(3) { NOT_GIVEN } else { epoch(r, style) }
}

// ----- Places ----------------------------------------------------------------------------

/// The zero, the quarters, angles at the kernels' reach and at half of it, and any number.
fn odd_angle(r: &mut Random) -> f64 {
    let at = r.pick(&[0.0, PI, FRAC_PI_2, FRAC_PI_4, 2.0 * PI, 512.0, 1024.0]);
    match r.below(4) {
        0 => r.sign(at),
        1 => {
            let x = r.beside(at);
            r.sign(x)
        }
        2 => r.between(-1100.0, 1100.0),
        _ => r.wild(),
    }
}

pub fn longitude(r: &mut Random) -> f64 {
    if r.once_in(8) { odd_angle(r) } else { r.between(-PI, PI) }
}

pub fn latitude(r: &mut Random) -> f64 {
    match r.below(16) {
        0 | 1 => odd_angle(r),
        2 => r.magnitude(-1020, -20),
        _ => r.between(-FRAC_PI_2, FRAC_PI_2),
    }
}

/// From the Earth's centre to orbit, and any number. At the equator -a is minus N, a zero
/// divisor.
pub fn height(r: &mut Random) -> f64 {
    match r.below(16) {
        0 => -axis(r),
        1 => {
            let a = axis(r);
            r.between(-a - 1000.0, 0.0)
        }
        2 => r.between(0.0, 4.2e7),
        3 => r.magnitude(20, 33),
        4 => r.wild(),
        5 => r.sign(0.0),
        _ => r.between(-1e5, 1e5),
    }
}

fn axis(r: &mut Random) -> f64 {
    r.pick(&ellipsoid::TABLE)[0]
}

pub fn geographic(r: &mut Random) -> [f64; 3] {
    let mut place = [longitude(r), latitude(r), height(r)];
    if r.once_in(20) {
        place = [longitude(r), r.sign(0.0), -axis(r)];
    }
    place
}

pub fn cartesian(r: &mut Random) -> [f64; 3] {
    match r.below(20) {
        0 => on_an_axis(r),
        1 => {
            let z = z_beside_the_axis(r);
            [r.magnitude(-48, 4), r.magnitude(-48, 4), z]
        }
        2 => at_the_cutoffs(r),
        3 => [(); 3].map(|()| r.magnitude(-10, 22)),
        4 => [(); 3].map(|()| r.wild()),
        5 => {
            let mut v = near_the_ground(r);
            v[r.below(3) as usize] = r.wild();
            v
        }
        6 => {
            let mut v = near_the_ground(r);
            v[r.below(3) as usize] = r.sign(0.0);
            v
        }
        7 => [(); 3].map(|()| r.magnitude(20, 30)),
        8 => {
            let at = r.below(1000) as i32 - 500;
            [(); 3].map(|()| r.magnitude(at, at + 10))
        }
        _ => near_the_ground(r),
    }
}

pub fn near_the_ground(r: &mut Random) -> [f64; 3] {
    loop {
        let v = [(); 3].map(|()| r.between(-1.0, 1.0));
        let square = v[0] * v[0] + v[1] * v[1] + v[2] * v[2];
        if (0.01..=1.0).contains(&square) {
            let radius = (6.37e6 + r.between(-2e5, 2e5)) / kernels::sqrt(square);
            return v.map(|x| x * radius);
        }
    }
}

fn on_an_axis(r: &mut Random) -> [f64; 3] {
    let mut v = zeros(r);
    v[r.pick(&[0, 1, 2, 2, 2])] = match r.below(4) {
        0 => r.wild(),
        1 => axis(r),
        _ => r.between(-7e6, 7e6),
    };
    v
}

fn z_beside_the_axis(r: &mut Random) -> f64 {
    if r.once_in(5) { r.wild() } else { r.between(-7e6, 7e6) }
}

/// p at a·1e-16, where cart's method changes, and at 1e-12, where `geographic` does.
fn at_the_cutoffs(r: &mut Random) -> [f64; 3] {
    let cutoff = if r.once_in(2) { 1e-12 } else { axis(r) * 1e-16 };
    let p = r.beside(cutoff);
    let (p, zero, z) = (r.sign(p), r.sign(0.0), z_beside_the_axis(r));
    if r.once_in(2) { [p, zero, z] } else { [zero, p, z] }
}

// ----- Times, velocities, marks --------------------------------------------------------------

/// Often the time before, as a receiver at rest sends it; sometimes zero, the epoch, or far away;
/// missing or any number only where `odd` is set, as one NaN spoils a running list.
pub fn time(r: &mut Random, before: f64, epoch: f64, odd: bool) -> f64 {
    match r.below(16) {
        0..=4 => before,
        5 => r.sign(0.0),
        6 if !epoch.is_nan() => epoch,
        7 if odd => r.nan(),
        8 if odd => r.wild(),
        9 => r.between(-1e6, 1e6),
        10 => r.beside(2000.0),
        _ => 2000.0 + r.below(4000) as f64 / 100.0,
    }
}

/// East, north and up in mm a year.
pub fn velocities(r: &mut Random, tuples: usize) -> Vec<f64> {
    let one = |r: &mut Random| match r.below(24) {
        0 => r.wild(),
        1 => r.sign(0.0),
        _ => r.between(-80.0, 80.0),
    };
    (0..3 * tuples).map(|_| one(r)).collect()
}

pub fn marks(r: &mut Random, tuples: usize) -> Vec<u8> {
    (0..tuples).map(|_| !r.once_in(8) as u8).collect()
}

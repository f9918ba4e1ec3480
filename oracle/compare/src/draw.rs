//! Draws tuples, velocities and parameters: mostly ordinary, and every odd class that the issue of the oracles names.
//!
//! Only our own kernels and single operations are used, so that a seed draws the same jobs on every machine.
use crate::random::Random;
use job::{Body, Helmert, NOT_GIVEN};
use std::f64::consts::{FRAC_PI_2, FRAC_PI_4, PI};

const AXES: [f64; 5] = [6378137.0, 6378137.0, 6378388.0, 6377397.155, 6378245.0];

pub fn ellipsoid(r: &mut Random) -> u32 {
    1 + r.below(5) as u32
}

// ----- Geographic tuples ---------------------------------------------------------------

/// The date line, the quarters, angles at the kernels' reach, and any number.
pub fn longitude(r: &mut Random) -> f64 {
    match r.below(20) {
        0 => {
            let x = r.pick(&[0.0, PI, FRAC_PI_2, FRAC_PI_4, 2.0 * PI]);
            r.sign(x)
        }
        1 => {
            let x = r.pick(&[PI, FRAC_PI_2]);
            let x = r.beside(x);
            r.sign(x)
        }
        2 => far_angle(r),
        3 => r.wild(),
        _ => r.between(-PI, PI),
    }
}

/// The equator, the poles, a step beside them, angles at the kernels' reach, and any number.
pub fn latitude(r: &mut Random) -> f64 {
    match r.below(20) {
        0 => r.sign(0.0),
        1 => r.sign(FRAC_PI_2),
        2 => {
            let x = r.beside(FRAC_PI_2);
            r.sign(x)
        }
        3 => far_angle(r),
        4 => r.wild(),
        5 => r.magnitude(-1020, -20),
        _ => r.between(-FRAC_PI_2, FRAC_PI_2),
    }
}

fn far_angle(r: &mut Random) -> f64 {
    match r.below(4) {
        0 => r.sign(1024.0),
        1 => {
            let x = r.beside(1024.0);
            r.sign(x)
        }
        2 => r.sign(512.0),
        _ => r.between(-1100.0, 1100.0),
    }
}

/// From the Earth's centre to orbit; exactly minus a radius of curvature, where Molodensky's divisors are zero; any number.
pub fn height(r: &mut Random, number: u32, phi: f64) -> f64 {
    match r.below(16) {
        0 => {
            let (n, m) = over_kernels::radii(number, phi);
            r.pick(&[-n, -m])
        }
        1 => {
            let a = r.pick(&AXES);
            r.between(-a - 1000.0, 0.0)
        }
        2 => r.between(0.0, 4.2e7),
        3 => r.magnitude(20, 33),
        4 => r.wild(),
        5 => r.sign(0.0),
        _ => r.between(-1e5, 1e5),
    }
}

pub fn geographic(r: &mut Random, number: u32) -> [f64; 3] {
    let phi = latitude(r);
    [longitude(r), phi, height(r, number, phi)]
}

// ----- Cartesian tuples ----------------------------------------------------------------

pub fn cartesian(r: &mut Random) -> [f64; 3] {
    match r.below(20) {
        0 => on_an_axis(r),
        1 => near_the_axis(r),
        2 => at_the_cutoffs(r),
        3 => [(); 3].map(|()| r.magnitude(-10, 22)),
        4 => [(); 3].map(|()| r.wild()),
        5 => {
            let mut v = near_the_ground(r);
            v[r.below(3) as usize] = r.wild();
            v
        }
        6 => {
            let mut v = near_the_ground(r);
            v[r.below(3) as usize] = r.sign(0.0);
            v
        }
        7 => [(); 3].map(|()| r.magnitude(20, 30)),
        8 => {
            let at = r.below(1000) as i32 - 500;
            [(); 3].map(|()| r.magnitude(at, at + 10))
        }
        _ => near_the_ground(r),
    }
}

fn near_the_ground(r: &mut Random) -> [f64; 3] {
    let (sphi, cphi) = ours::sin_cos(r.between(-FRAC_PI_2, FRAC_PI_2));
    let (slam, clam) = ours::sin_cos(r.between(-PI, PI));
    let radius = 6.37e6 + r.between(-2e5, 2e5);
    [radius * cphi * clam, radius * cphi * slam, radius * sphi]
}

fn on_an_axis(r: &mut Random) -> [f64; 3] {
    let mut v = [(); 3].map(|()| r.sign(0.0));
    let i = r.pick(&[0, 1, 2, 2, 2, 2]);
    v[i] = match r.below(4) {
        0 => r.wild(),
        1 => r.sign(0.0),
        _ => r.between(-7e6, 7e6),
    };
    v
}

fn near_the_axis(r: &mut Random) -> [f64; 3] {
    let z = if r.once_in(6) { r.wild() } else { r.between(-7e6, 7e6) };
    [r.magnitude(-48, 4), r.magnitude(-48, 4), z]
}

/// p at a·1e-16, where cart's method changes, and at 1e-12, where `geographic` does.
fn at_the_cutoffs(r: &mut Random) -> [f64; 3] {
    let a = r.pick(&AXES);
    let cutoff = r.pick(&[1e-12, a * 1e-16]);
    let p = r.beside(cutoff);
    let p = r.sign(p);
    let zero = r.sign(0.0);
    let z = if r.once_in(6) { r.wild() } else { r.between(-7e6, 7e6) };
    if r.once_in(2) { [p, zero, z] } else { [zero, p, z] }
}

// ----- Times -----------------------------------------------------------------------------

/// Often the time before, as a stationary receiver sends it; sometimes missing, zero, the epoch, or far away.
pub fn time(r: &mut Random, before: f64, epoch: f64, missing: bool) -> f64 {
    match r.below(16) {
        0..=4 => before,
        5 => r.sign(0.0),
        6 => epoch,
        7 if missing => r.wild(),
        8 => r.between(-1e6, 1e6),
        9 => r.beside(2000.0),
        _ => 2000.0 + r.below(4000) as f64 / 100.0,
    }
}

/// A list of n tuples. Times of NaN come only in some lists: in running mode one spoils the rest.
pub fn list(r: &mut Random, n: usize, epoch: f64, mut place: impl FnMut(&mut Random) -> [f64; 3]) -> Vec<f64> {
    let missing = r.once_in(3);
    let mut t = 2010.0;
    let mut list = Vec::with_capacity(4 * n);
    for _ in 0..n {
        t = time(r, t, epoch, missing);
        list.extend(place(r));
        list.push(t);
    }
    list
}

/// A list of n tuples of which some have no time: the first, the last, a whole block of sixteen, those at the edges of blocks,
/// or some here and there.
pub fn untimed_list(r: &mut Random, n: usize, epoch: f64) -> Vec<f64> {
    let mut list = list(r, n, epoch, cartesian);
    let blocks = n.div_ceil(16).max(1) as u64;
    let (pattern, block) = (r.below(5), r.below(blocks) as usize);
    for i in 0..n {
        let missing = match pattern {
            0 => i == 0,
            1 => i + 1 == n,
            2 => i / 16 == block,
            3 => i % 16 == 0 || i % 16 == 15,
            _ => r.once_in(3),
        };
        if missing {
            list[4 * i + 3] = r.nan();
        }
    }
    list
}

/// Mostly short, so that many sheets are met; sometimes as long as a list may be, or empty.
pub fn list_length(r: &mut Random) -> usize {
    match r.below(100) {
        0 => 0,
        1 => 2048,
        2..=20 => 1 + r.below(4) as usize,
        _ => 1 + r.below(160) as usize,
    }
}

/// East, north and up in mm a year.
pub fn velocities(r: &mut Random, n: usize) -> Vec<f64> {
    (0..3 * n)
        .map(|_| match r.below(24) {
            0 => r.wild(),
            1 => r.sign(0.0),
            _ => r.between(-80.0, 80.0),
        })
        .collect()
}

pub fn marks(r: &mut Random, n: usize) -> Vec<u8> {
    (0..n).map(|_| !r.once_in(8) as u8).collect()
}

// ----- Parameters ------------------------------------------------------------------------

/// How a sheet's numbers are drawn.
#[derive(Clone, Copy, PartialEq)]
pub enum Style {
    Ordinary,
    Sparse,
    Wild,
}

pub fn style(r: &mut Random) -> Style {
    r.pick(&[Style::Ordinary, Style::Ordinary, Style::Ordinary, Style::Sparse, Style::Wild])
}

/// A parameter of about this size: ordinary; mostly zero, by either sign; or any finite number.
pub fn parameter(r: &mut Random, style: Style, size: f64) -> f64 {
    match style {
        Style::Ordinary => r.between(-size, size),
        Style::Sparse if !r.once_in(5) => r.sign(0.0),
        Style::Sparse => r.between(-size, size),
        Style::Wild => match r.below(3) {
            0 => r.sign(0.0),
            1 => r.between(-size, size),
            _ => r.wild_finite(),
        },
    }
}

fn three(r: &mut Random, style: Style, size: f64) -> [f64; 3] {
    [(); 3].map(|()| parameter(r, style, size))
}

fn zeros(r: &mut Random) -> [f64; 3] {
    [(); 3].map(|()| r.sign(0.0))
}

pub fn epoch(r: &mut Random, style: Style) -> f64 {
    match style {
        Style::Wild if r.once_in(3) => r.wild_finite(),
        _ if r.once_in(10) => r.sign(0.0),
        _ => 1985.0 + r.below(45) as f64,
    }
}

#[derive(Clone, Copy, PartialEq, Debug)]
pub enum Mode {
    Static,
    Fixed,
    Running,
    OwnEpoch,
}

/// A Helmert body of a mode: no rates if static, t_obs if fixed. Now and then what rules 6 and 7 ask for is left out.
pub fn helmert(r: &mut Random, mode: Mode) -> Helmert {
    let style = style(r);
    let mut h = Helmert::blank();
    h.flags = r.below(8) as u32;
    h.convention = if r.once_in(30) { 0 } else { 1 + r.below(2) as u32 };
    (h.translation, h.xyz) = pair(r, style, 500.0);
    if !r.once_in(4) {
        (h.rotation, h.rxyz) = angles(r, style, 5.0);
    }
    (h.scale, h.s) = (parameter(r, style, 20.0), parameter(r, style, 20.0));
    if r.once_in(3) {
        h.scale = r.sign(0.0);
    }
    h.t_epoch = epoch(r, style);
    if mode == Mode::Static {
        (h.translation_rate, h.dxyz, h.rotation_rate, h.drxyz) = (zeros(r), zeros(r), zeros(r), zeros(r));
        (h.scale_rate, h.ds) = (r.sign(0.0), r.sign(0.0));
        h.t_obs = r.pick(&[NOT_GIVEN, 2011.5]);
        h.flags |= 8 * r.below(2) as u32;
    } else {
        rates(r, style, &mut h);
    }
    if mode == Mode::Fixed {
        h.t_obs = if style == Style::Wild { r.wild_finite() } else { 1990.0 + r.below(500) as f64 / 10.0 };
        h.flags |= 8 * r.below(2) as u32;
    }
    if mode == Mode::OwnEpoch {
        h.flags |= 8;
    }
    if r.once_in(30) || mode == Mode::Static && r.once_in(2) {
        h.t_epoch = NOT_GIVEN;
    }
    h
}

/// A Helmert body for the signs of the small-angle matrix: each angle a zero of either sign,
/// subnormal or ordinary; each rate a zero, ordinary, or so large that a long time makes the angle
/// infinite. The epoch is 0, running or own-epoch.
pub fn turning(r: &mut Random) -> Helmert {
    let mut h = Helmert::blank();
    h.flags = 8 * r.below(2) as u32;
    h.convention = 1 + r.below(2) as u32;
    h.t_epoch = 0.0;
    h.rotation = [(); 3].map(|()| match r.below(4) {
        0 => r.sign(0.0),
        1 => r.magnitude(-1020, -1004), // subnormal in radians
        _ => r.between(-5.0, 5.0),
    });
    h.rotation_rate = [(); 3].map(|()| match r.below(4) {
        0 | 1 => r.sign(0.0),
        2 => r.sign(f64::MAX),
        _ => r.between(-5.0, 5.0),
    });
    if r.once_in(2) {
        h.translation = three(r, Style::Ordinary, 500.0);
    }
    h
}

/// Points whose coordinates are zeros, one or ordinary, at the epoch, long before or after it, or
/// at times that make an angle NaN.
pub fn turned_list(r: &mut Random, n: usize) -> Vec<f64> {
    let missing = r.once_in(4);
    let mut list = Vec::with_capacity(4 * n);
    for _ in 0..n {
        list.extend([(); 3].map(|()| match r.below(3) {
            0 => r.sign(0.0),
            1 => r.sign(1.0),
            _ => r.between(-7e6, 7e6),
        }));
        list.push(match r.below(8) {
            0 if missing => r.pick(&[f64::NAN, f64::INFINITY, f64::NEG_INFINITY]),
            0..=2 => 0.0,
            3..=5 => r.sign(1e12),
            _ => r.between(-40.0, 40.0),
        });
    }
    list
}

fn rates(r: &mut Random, style: Style, h: &mut Helmert) {
    if !r.once_in(4) {
        (h.translation_rate, h.dxyz) = pair(r, style, 3.0);
    }
    if !r.once_in(4) {
        (h.rotation_rate, h.drxyz) = angles(r, style, 0.5);
    }
    (h.scale_rate, h.ds) = (parameter(r, style, 0.2), parameter(r, style, 0.2));
    if r.once_in(3) {
        h.scale_rate = r.sign(0.0);
    }
    if r.once_in(6) {
        vanishing(r, h);
    }
}

/// Rates so small that their units make them zero: the sheet is then static.
fn vanishing(r: &mut Random, h: &mut Helmert) {
    let tiny = f64::from_bits(1 + r.below(3));
    h.translation_rate = [(); 3].map(|()| r.sign(tiny));
    h.rotation_rate = [(); 3].map(|()| r.sign(tiny));
    (h.dxyz, h.drxyz) = (zeros(r), zeros(r));
    (h.scale_rate, h.ds) = (r.sign(tiny), r.sign(0.0));
}

/// A series and its singles, of which some are zero.
fn pair(r: &mut Random, style: Style, size: f64) -> ([f64; 3], [f64; 3]) {
    let series = three(r, style, size);
    let singles = [(); 3].map(|()| if r.once_in(2) { r.sign(0.0) } else { parameter(r, style, size) });
    (series, singles)
}

/// Angles in arcseconds; in wild sheets also some that come near the kernels' reach of 1024 radians, or pass it.
fn angles(r: &mut Random, style: Style, size: f64) -> ([f64; 3], [f64; 3]) {
    let size = if style == Style::Wild { r.pick(&[1e6, 2.112e8, 2.2e8, 2.2e14]) } else { size };
    pair(r, style, size)
}

pub fn molodensky(r: &mut Random, abridged: bool) -> Body {
    let style = style(r);
    let two = r.once_in(2);
    let flags = abridged as u32 + 2 * two as u32;
    let mut offsets = [500.0, 500.0, 500.0, 600.0, 1e-4].map(|size| parameter(r, style, size));
    if two {
        offsets[3..].fill(0.0);
    }
    let second = if two { ellipsoid(r) } else { 0 };
    Body::Molodensky { flags, first: ellipsoid(r), second, offsets }
}

/// Codes of the three systems; now and then another, which `new` refuses.
pub fn permtide(r: &mut Random) -> Body {
    let mut code = || if r.once_in(60) { r.pick(&[0, 4, 77]) } else { 1 + r.below(3) as u32 };
    let (to, from) = (code(), code());
    let style = style(r);
    let k = if style == Style::Ordinary { 0.3 } else { parameter(r, style, 1.0) };
    Body::Permtide { ellipsoid: ellipsoid(r), to, from, k }
}

/// Codes in rule and beside it, k at the edges of binary64. The Rust refuses just the codes.
pub fn edge_permtide(r: &mut Random) -> Body {
    let mut code = || if r.once_in(20) { r.pick(&[0, 4, u32::MAX]) } else { 1 + r.below(3) as u32 };
    let (to, from) = (code(), code());
    let k = match r.below(6) {
        0 => f64::MAX,
        1 => f64::from_bits(1),
        2 => 0.0,
        3 => 1.0,
        4 => r.magnitude(1020, 1023),
        _ => r.wild_finite(),
    };
    let k = r.sign(k);
    Body::Permtide { ellipsoid: ellipsoid(r), to, from, k }
}

/// dt, t_epoch or both; now and then neither, which rule 8 refuses.
pub fn deformation(r: &mut Random, raw: bool) -> Body {
    let style = style(r);
    let dt = if r.once_in(2) { NOT_GIVEN } else { parameter(r, style, 30.0) };
    let t_epoch = if r.once_in(if dt.is_nan() { 20 } else { 2 }) { NOT_GIVEN } else { epoch(r, style) };
    Body::Deformation { flags: raw as u32, ellipsoid: ellipsoid(r), dt, t_epoch }
}

/// A body of kind 6: a pivot near the earth's surface, of zeros, or wild. Now and then the convention that rule 6 asks for is left out, and now and then S is 0.
pub fn badekas(r: &mut Random) -> Body {
    let style = style(r);
    let flags = r.below(8) as u32;
    let convention = if r.once_in(20) { 0 } else { 1 + r.below(2) as u32 };
    let translation = three(r, style, 500.0);
    let rotation = if r.once_in(4) { zeros(r) } else { angles(r, style, 5.0).0 };
    let scale = if r.once_in(20) { -1e6 } else { parameter(r, style, 20.0) };
    let pivot = match r.below(4) {
        0 => zeros(r),
        1 => [0.0; 3],
        _ => three(r, style, 6.4e6),
    };
    Body::Badekas { flags, convention, translation, rotation, scale, pivot }
}

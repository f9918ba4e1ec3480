//! The steps: what each kind does to one tuple, with the state that it carries along the list.
//!
//! Document 01, "The five steps":
//! - cart: "Both ways count tuples with no NaN in the result, time included. Inverse: p < a·1e-16
//!   gives φ = π/2 with Z's sign, h = |Z| - b, written but *not counted*. `geographic` (used by
//!   deformation) has the cutoff 1e-12 instead; the two methods stay separate. On the axis a NaN
//!   Z gives φ NaN: a listed difference."
//! - permtide: "Systems mean 1, zero 2, free 3. Coefficient, to/from: mean/zero 1; mean/free 1 +
//!   k; zero/mean -1; zero/free k; free/mean -(1 + k); free/zero -k; equal 0; other codes NaN,
//!   tested as in the Rust. Forward adds coefficient·(-0.198)·(1.5·s·s - 0.5) to h, s the sine of
//!   the geocentric latitude; inverse subtracts. All tuples count."
//! - Molodensky: "Formulas of `calc_molodensky_params`, full and abridged. The outcome is either
//!   three offsets or none, where a divisor is zero; none makes the first three coordinates NaN.
//!   Time stays. All tuples count. With two ellipsoids da and df are second minus first."
//! - Helmert: "A single (x, dx, rx, drx, ...) that is not zero wins over its series place; so do
//!   scale over s and scale_rate over ds. mm: times 0.001. Arcseconds: times π/(3.6e3·180); uas:
//!   π/(3.6e9·180). S = 1 + scale·1e-6. Rotated: any scaled angle or angle rate not zero.
//!   Dynamic: any scaled rate not zero. Fixed: dynamic with t_obs given; T and R move once by
//!   rate·(t_obs - t_epoch), S moves by it three times, one rounding after another". "Forward
//!   S·(M·v) + T; inverse Mᵀ·((v - T)/S). If not rotated, M is left out. Time stays, all tuples
//!   count." "*Running* (the Rust's mode, dynamic and not fixed): state is the last time (NaN at
//!   first) and T. When a tuple's time is not equal (as binary64) to the last time, it becomes
//!   the last time and T **grows** by dt·DT, dt being it less t_epoch; R and S are the sheet's at
//!   the last time's dt. One NaN time spoils T for the rest." "*Own-epoch* (added, in running's
//!   place; a static or fixed sheet ignores the flag): T, R, S each taken from the sheet's at the
//!   tuple's dt. A NaN time is read as t_epoch."
//! - deformation: "The caller lends east, north, up in mm/year, and a mark per tuple, 1 present,
//!   0 absent. Absent: four NaNs, not counted. d = -dt if dt is given, else t_epoch - t. Velocity
//!   times -0.001 forward, 0.001 inverse, rotated, times d, added to all four coordinates (fourth
//!   addend 0.0, so a time of -0 becomes +0); raw writes the correction and its length."
//!
//! "Kept run": "after each fix, the track: last time, T." "Static, fixed and own-epoch runs track
//! (NaN, T) throughout, T as moved by t_obs."
//!
//! Document 02:
//! - A3: "In own-epoch mode with a dynamic, unfixed sheet such a fix" - with a NaN time -
//!   "becomes three NaNs with its time kept, and isn't counted."
//! - A4: "A static step, the pivot subtracted before the matrix and added after the scale, before
//!   the translation; the inverse undoes this in reverse".
//! - A5: "Every step that uses them" - sine or cosine - "reports, beside its count, how many
//!   tuples met it" - an angle out of reach -, "each tuple once; its coordinates and old counts
//!   stay. For an exact Helmert matrix the tuples using it are reported."
//! - A12: a step's track is "(NaN, +0, +0, +0 where it has no T)".
//! - A13: "Add a flag, worth 2, that gives deformation the comment's sign in both directions".
//!
//! The order of roundings is the Rust's: products and sums from the left as its expressions
//! stand.
//!
//! Readings
//! - NaN read as t_epoch (before A3): dt is t_epoch - t_epoch, that is +0, and T grows by +0·DT.
//!   So a T of -0 becomes +0 where DT is above zero. Smallest input: own-epoch, a translation of
//!   x = -0, dx = 1, t_epoch = 2000; one fix of X = -0 and time NaN: the result is +0, not -0.
//! - A5, Helmert: a tuple uses the matrix of the last time's dt, also where its own time is the
//!   same and the matrix is not built anew. Smallest input: running, exact, drx 1, two fixes of
//!   time 1e300: both are reported. Where M is left out nobody uses it: exact with no rotation
//!   reports 0.
//! - A5 with A3: a fix lost for its missing time uses no matrix and isn't reported. Smallest
//!   input: own-epoch, exact, drx 1, one fix of time NaN: 0.
//! - A5, Molodensky: the abridged form asks for the sine of 2φ too, so an angle from 512 to 1024
//!   is out of reach there alone. Smallest input: φ = 600: abridged 1, full 0.
//! - A5, deformation: only a present tuple meets the sine; an absent one isn't reported. Smallest
//!   input: mark 0 at X = NaN: 0; mark 1: 1. A time out of all bounds is no angle.
//! - A5, cart inverse uses no sine or cosine and always reports 0.
//! - A5, permtide: φ out of reach is met once, though the sine of the geocentric latitude
//!   follows.
//! - A4, forward: u = v - P; S·(M·u), then + P, then + T, each rounded. Inverse: (v - T) - P,
//!   then /S, then Mᵀ, then + P. The pivot is added and subtracted also where M is left out.
//! - A4, the track of kind 6 is (NaN, T) as that of a static Helmert step. Smallest input: a kept
//!   run of one fix under kind 6 with translation (1, 0, 0): track NaN, 1, 0, 0.
//! - A13 with raw: flags 3 write the comment's correction, the crate's with both signs changed.
//! - The length that raw writes is the root of four products summed from the left; the fourth is
//!   0·0 and never shows.

use crate::ellipsoid::Ellipsoid;
use crate::sheet::{Badekas, Body, Deformation, Helmert, Molodensky, Permtide, Record};
use crate::{In, kernels};
use std::f64::consts::{FRAC_PI_2, PI};

pub type Tuple = [f64; 4];

/// What a step carries from fix to fix, as the track has it: last time, T.
pub type State = [f64; 4];

/// The state of a step that has no T.
pub const NO_STATE: State = [f64::NAN, 0.0, 0.0, 0.0];

/// A tuple through a step.
#[derive(Clone, Copy, Debug)]
pub struct Done {
    pub tuple: Tuple,
    pub counted: bool,
    pub out_of_reach: bool,
}

/// A step made ready to run.
#[derive(Clone, Debug)]
pub enum Ready {
    Helmert(ReadyHelmert),
    Cart(Ellipsoid),
    Molodensky(ReadyMolodensky),
    Permtide(Ellipsoid, f64),
    Deformation(Deformation, Ellipsoid),
    Badekas(ReadyBadekas),
}

/// Where a deformation step finds a tuple's velocity: by the place of the tuple as it reaches the
/// step, longitude and latitude. None is absent.
pub type Velocity<'a> = &'a dyn Fn(f64, f64) -> Option<[f64; 3]>;

/// The steps of an accepted record, in sheet order.
pub fn ready(record: &Record) -> Vec<Ready> {
    let ellipsoid = |number| Ellipsoid::numbered(number, &record.rows);
    let one = |body: &Body| match body {
        Body::Helmert(h) => Ready::Helmert(ready_helmert(h)),
        Body::Cart(c) => Ready::Cart(ellipsoid(c.ellipsoid)),
        Body::Molodensky(m) => {
            let second = if m.flags & 2 != 0 { Some(ellipsoid(m.second)) } else { None };
            Ready::Molodensky(ready_molodensky(m, ellipsoid(m.first), second))
        }
        Body::Permtide(p) => Ready::Permtide(ellipsoid(p.ellipsoid), coefficient(p)),
        Body::Deformation(d) => Ready::Deformation(d.clone(), ellipsoid(d.ellipsoid)),
        Body::Badekas(m) => Ready::Badekas(ready_badekas(m)),
        Body::Other(_) => panic!("an accepted record has no such kind"),
    };
    record.live().iter().map(|step| one(&step.body)).collect()
}

impl Ready {
    /// The state before the first fix.
    pub fn start(&self) -> State {
        match self {
            Ready::Helmert(h) => [f64::NAN, h.t[0], h.t[1], h.t[2]],
            Ready::Badekas(m) => [f64::NAN, m.t[0], m.t[1], m.t[2]],
            _ => NO_STATE,
        }
    }

    /// One tuple, `inverse` being the direction after the inverted word. The state is that before
    /// the tuple; it leaves as that after it.
    pub fn one(
        &self,
        inp: &In,
        inverse: bool,
        state: &mut State,
        tuple: Tuple,
        velocity: Velocity,
    ) -> Done {
        if !matches!(self, Ready::Helmert(h) if h.mode == Mode::Running) {
            *state = self.start();
        }
        let mut done = match self {
            Ready::Helmert(h) => helmert(inp, h, inverse, state, tuple),
            Ready::Cart(e) if inverse => cart_inverse(e, tuple),
            Ready::Cart(e) => cart_forward(e, tuple),
            Ready::Molodensky(m) => molodensky(m, inverse, tuple),
            Ready::Permtide(e, c) => permtide(e, *c, inverse, tuple),
            Ready::Deformation(d, e) => deformation(d, e, inverse, tuple, velocity),
            Ready::Badekas(m) => badekas(m, inverse, tuple),
        };
        done.out_of_reach &= inp.a5;
        done
    }
}

fn any_out_of_reach(angles: &[f64]) -> bool {
    angles.iter().any(|x| kernels::out_of_reach(*x))
}

fn no_nan(tuple: &Tuple) -> bool {
    !tuple.iter().any(|x| x.is_nan())
}

// ----- cart --------------------------------------------------------------------------------

fn cart_forward(e: &Ellipsoid, tuple: Tuple) -> Done {
    let [lam, phi, h, t] = tuple;
    let n = e.prime_vertical(phi);
    let (sinphi, cosphi) = kernels::sin_cos(phi);
    let (sinlam, coslam) = kernels::sin_cos(lam);
    let x = (n + h) * cosphi * coslam;
    let y = (n + h) * cosphi * sinlam;
    let z = (n * (1.0 - e.es) + h) * sinphi;
    let tuple = [x, y, z, t];
    Done { tuple, counted: no_nan(&tuple), out_of_reach: any_out_of_reach(&[phi, lam]) }
}

/// π/2 with Z's sign; a NaN Z gives NaN.
fn pole(z: f64) -> f64 {
    if z.is_nan() { f64::NAN } else { FRAC_PI_2.copysign(z) }
}

fn cart_inverse(e: &Ellipsoid, tuple: Tuple) -> Done {
    let [x, y, z, t] = tuple;
    let ra = 1.0 / e.a;
    let ar = e.b * ra;
    let ce4 = 1.5 * e.es * e.es;
    let lam = kernels::atan2(y, x);
    let p = kernels::hypot(x, y);
    if p < e.a * 1e-16 {
        let tuple = [lam, pole(z), z.abs() - e.b, t];
        return Done { tuple, counted: false, out_of_reach: false };
    }
    let pp = ra * p;
    let s0 = ra * z;
    let c0 = ar * pp;
    let a = kernels::hypot(s0, c0);
    let f = pp * a * a * a - e.es * c0 * c0 * c0;
    let b = ce4 * s0 * s0 * c0 * c0 * pp * (a - ar);
    let s1 = (ar * s0 * a * a * a + e.es * s0 * s0 * s0) * f - b * s0;
    let c1 = f * f - b * c0;
    let cc = ar * c1;
    let phi = kernels::atan2(s1, cc);
    let h = (p * cc.abs() + z.abs() * s1.abs() - e.a * kernels::hypot(cc, ar * s1))
        / kernels::hypot(cc, s1);
    let tuple = [lam, phi, h, t];
    Done { tuple, counted: no_nan(&tuple), out_of_reach: false }
}

/// The crate's `geographic`, as far as its longitude and latitude: no step reads its height.
pub fn geographic(e: &Ellipsoid, tuple: &Tuple) -> (f64, f64) {
    let [x, y, z, _] = *tuple;
    let lam = kernels::atan2(y, x);
    let p = kernels::hypot(x, y);
    if p < 1.0e-12 {
        return (lam, pole(z));
    }
    let t = (z * e.a) / (p * e.b);
    let c = 1.0 / kernels::sqrt(1.0 + t * t);
    let s = c * t;
    let phi_num = z + e.eps * e.b * (s * s * s);
    let phi_denom = p - e.es * e.a * (c * c * c);
    (lam, kernels::atan2(phi_num, phi_denom))
}

// ----- permtide ------------------------------------------------------------------------------

/// The nine coefficients; other codes NaN.
pub fn coefficient(p: &Permtide) -> f64 {
    const MEAN: u32 = 1;
    const ZERO: u32 = 2;
    const FREE: u32 = 3;
    match (p.to, p.from) {
        (MEAN, ZERO) => 1.0,
        (MEAN, FREE) => 1.0 + p.k,
        (ZERO, MEAN) => -1.0,
        (ZERO, FREE) => p.k,
        (FREE, MEAN) => -(1.0 + p.k),
        (FREE, ZERO) => -p.k,
        (MEAN, MEAN) | (ZERO, ZERO) | (FREE, FREE) => 0.0,
        _ => f64::NAN,
    }
}

fn permtide(e: &Ellipsoid, coefficient: f64, inverse: bool, tuple: Tuple) -> Done {
    let [lam, phi, h, t] = tuple;
    let s = kernels::sin(e.geocentric_latitude(phi));
    let by = coefficient * (-0.198) * (1.5 * s * s - 0.5);
    let h = if inverse { h - by } else { h + by };
    let out_of_reach = kernels::out_of_reach(phi);
    Done { tuple: [lam, phi, h, t], counted: true, out_of_reach }
}

// ----- Molodensky ----------------------------------------------------------------------------

#[derive(Clone, Debug)]
pub struct ReadyMolodensky {
    abridged: bool,
    e: Ellipsoid,
    d: [f64; 3],
    da: f64,
    df: f64,
    adffda: f64,
}

fn ready_molodensky(
    m: &Molodensky,
    first: Ellipsoid,
    second: Option<Ellipsoid>,
) -> ReadyMolodensky {
    let (da, df) = match second {
        Some(second) => (second.a - first.a, second.f - first.f),
        None => (m.da, m.df),
    };
    let adffda = first.a * df + first.f * da;
    let abridged = m.flags & 1 != 0;
    ReadyMolodensky { abridged, e: first, d: [m.dx, m.dy, m.dz], da, df, adffda }
}

/// Three offsets, or none where a divisor is zero.
fn offsets(m: &ReadyMolodensky, tuple: &Tuple) -> Option<[f64; 3]> {
    let [lam, phi, h, _] = *tuple;
    let [dx, dy, dz] = m.d;
    let (slam, clam) = kernels::sin_cos(lam);
    let (sphi, cphi) = kernels::sin_cos(phi);
    let n = m.e.prime_vertical(phi);
    let mm = m.e.meridian(phi);
    let fac = dx * clam + dy * slam;
    if m.abridged {
        let dphi = (-fac * sphi + dz * cphi + m.adffda * kernels::sin(2.0 * phi)) / mm;
        let dlam_denom = n * cphi;
        if dlam_denom == 0.0 {
            return None;
        }
        let dlam = (dy * clam - dx * slam) / dlam_denom;
        let dh = fac * cphi + (dz + m.adffda * sphi) * sphi - m.da;
        return Some([dlam, dphi, dh]);
    }
    let f = m.e.f;
    let dphi = (dz + ((n * m.e.es * sphi * m.da) / m.e.a)) * cphi - fac * sphi
        + (mm / (1.0 - f) + n * (1.0 - f)) * m.df * sphi * cphi;
    let dphi_denom = mm + h;
    if dphi_denom == 0.0 {
        return None;
    }
    let dphi = dphi / dphi_denom;
    let dlam_denom = (n + h) * cphi;
    if dlam_denom == 0.0 {
        return None;
    }
    let dlam = (dy * clam - dx * slam) / dlam_denom;
    let dh = fac * cphi + dz * sphi - (m.e.a / n) * m.da + n * (1.0 - f) * m.df * sphi * sphi;
    Some([dlam, dphi, dh])
}

fn molodensky(m: &ReadyMolodensky, inverse: bool, tuple: Tuple) -> Done {
    let [lam, phi, h, t] = tuple;
    let tuple = match offsets(m, &tuple) {
        Some([dlam, dphi, dh]) if inverse => [lam - dlam, phi - dphi, h - dh, t],
        Some([dlam, dphi, dh]) => [lam + dlam, phi + dphi, h + dh, t],
        None => [f64::NAN, f64::NAN, f64::NAN, t],
    };
    let twice = m.abridged && kernels::out_of_reach(2.0 * phi);
    Done { tuple, counted: true, out_of_reach: any_out_of_reach(&[lam, phi]) || twice }
}

// ----- Helmert -------------------------------------------------------------------------------

#[derive(Clone, Copy, Debug, PartialEq, Eq)]
pub enum Mode {
    Static,
    Fixed,
    Running,
    OwnEpoch,
}

/// The sheet's numbers in metres, radians and parts of one, before t_obs moves them.
#[derive(Clone, Debug)]
pub struct Scaled {
    pub t: [f64; 3],
    pub dt: [f64; 3],
    pub r: [f64; 3],
    pub dr: [f64; 3],
    pub s: f64,
    pub ds: f64,
    pub rotated: bool,
    pub dynamic: bool,
}

#[derive(Clone, Debug)]
pub struct ReadyHelmert {
    pub mode: Mode,
    t: [f64; 3],
    dt: [f64; 3],
    r: [f64; 3],
    dr: [f64; 3],
    s: f64,
    ds: f64,
    rotated: bool,
    exact: bool,
    position_vector: bool,
    epoch: f64,
}

/// A single that is not zero wins.
fn winner(single: f64, series: f64) -> f64 {
    if single != 0.0 { single } else { series }
}

fn winners(single: [f64; 3], series: [f64; 3]) -> [f64; 3] {
    [0, 1, 2].map(|i| winner(single[i], series[i]))
}

fn any_not_zero(numbers: &[f64]) -> bool {
    numbers.iter().any(|x| *x != 0.0)
}

/// In metres and in radians a unit of the sheet.
fn units(flags: u32) -> (f64, f64) {
    let linear = if flags & 4 != 0 { 0.001 } else { 1.0 };
    let angular = if flags & 2 != 0 { PI / (3.6e9 * 180.0) } else { PI / (3.6e3 * 180.0) };
    (linear, angular)
}

pub fn scaled(h: &Helmert) -> Scaled {
    let (linear, angular) = units(h.flags);
    let t = winners(h.xyz, h.translation).map(|x| linear * x);
    let dt = winners(h.dxyz, h.translation_rate).map(|x| linear * x);
    let r = winners(h.rxyz, h.rotation).map(|x| x * angular);
    let dr = winners(h.drxyz, h.rotation_rate).map(|x| x * angular);
    let s = 1.0 + winner(h.scale, h.s) * 1e-6;
    let ds = winner(h.scale_rate, h.ds) * 1e-6;
    let rotated = any_not_zero(&r) || any_not_zero(&dr);
    let dynamic = any_not_zero(&dt) || any_not_zero(&dr) || ds != 0.0;
    Scaled { t, dt, r, dr, s, ds, rotated, dynamic }
}

fn ready_helmert(h: &Helmert) -> ReadyHelmert {
    let Scaled { mut t, dt, mut r, dr, mut s, ds, rotated, dynamic } = scaled(h);
    let mode = if !dynamic {
        Mode::Static
    } else if !h.t_obs.is_nan() {
        Mode::Fixed
    } else if h.flags & 8 != 0 {
        Mode::OwnEpoch
    } else {
        Mode::Running
    };
    if mode == Mode::Fixed {
        for i in 0..3 {
            t[i] += dt[i] * (h.t_obs - h.t_epoch);
            r[i] += dr[i] * (h.t_obs - h.t_epoch);
            s += ds * (h.t_obs - h.t_epoch);
        }
    }
    ReadyHelmert {
        mode,
        t,
        dt,
        r,
        dr,
        s,
        ds,
        rotated,
        exact: h.flags & 1 != 0,
        position_vector: h.convention != 2,
        epoch: h.t_epoch,
    }
}

/// Three rows of three numbers.
type Matrix = [[f64; 3]; 3];

fn transposed(m: &Matrix) -> Matrix {
    [0, 1, 2].map(|i| [0, 1, 2].map(|j| m[j][i]))
}

/// The coordinate frame rows; the position vector matrix is the transpose.
fn matrix(r: &[f64; 3], exact: bool, position_vector: bool) -> Matrix {
    let [rx, ry, rz] = *r;
    let frame = if exact {
        let (sx, cx) = kernels::sin_cos(rx);
        let (sy, cy) = kernels::sin_cos(ry);
        let (sz, cz) = kernels::sin_cos(rz);
        [
            [cy * cz, cx * sz + sx * sy * cz, -cx * sy * cz + sx * sz],
            [-cy * sz, cx * cz - sx * sy * sz, sx * cz + cx * sy * sz],
            [sy, -sx * cy, cx * cy],
        ]
    } else {
        [[1.0, rz, -ry], [-rz, 1.0, rx], [ry, -rx, 1.0]]
    };
    if position_vector { transposed(&frame) } else { frame }
}

/// Each row's three products, summed from the left.
fn product(m: &Matrix, v: [f64; 3]) -> [f64; 3] {
    [0, 1, 2].map(|i| v[0] * m[i][0] + v[1] * m[i][1] + v[2] * m[i][2])
}

fn helmert(inp: &In, h: &ReadyHelmert, inverse: bool, state: &mut State, tuple: Tuple) -> Done {
    let [x, y, z, time] = tuple;
    let grown = |t: [f64; 3], dt: f64| [0, 1, 2].map(|i| t[i] + dt * h.dt[i]);
    let at = |dt: f64| ([0, 1, 2].map(|i| h.r[i] + dt * h.dr[i]), h.s + dt * h.ds);
    let (t, (r, s)) = match h.mode {
        Mode::Static | Mode::Fixed => (h.t, (h.r, h.s)),
        Mode::Running => {
            let [last, t0, t1, t2] = *state;
            if time != last {
                let t = grown([t0, t1, t2], time - h.epoch);
                *state = [time, t[0], t[1], t[2]];
            }
            ([state[1], state[2], state[3]], at(state[0] - h.epoch))
        }
        Mode::OwnEpoch if inp.a3 && time.is_nan() => {
            let tuple = [f64::NAN, f64::NAN, f64::NAN, time];
            return Done { tuple, counted: false, out_of_reach: false };
        }
        Mode::OwnEpoch => {
            let time = if time.is_nan() { h.epoch } else { time };
            (grown(h.t, time - h.epoch), at(time - h.epoch))
        }
    };
    let m = if h.rotated { Some(matrix(&r, h.exact, h.position_vector)) } else { None };
    let v = [x, y, z];
    let [x, y, z] = if inverse {
        let v = [0, 1, 2].map(|i| (v[i] - t[i]) / s);
        m.map_or(v, |m| product(&transposed(&m), v))
    } else {
        let v = m.map_or(v, |m| product(&m, v));
        [0, 1, 2].map(|i| s * v[i] + t[i])
    };
    let out_of_reach = h.rotated && h.exact && any_out_of_reach(&r);
    Done { tuple: [x, y, z, time], counted: true, out_of_reach }
}

// ----- Kind 6 ----------------------------------------------------------------------------------

#[derive(Clone, Debug)]
pub struct ReadyBadekas {
    pub t: [f64; 3],
    r: [f64; 3],
    s: f64,
    pivot: [f64; 3],
    pub rotated: bool,
    exact: bool,
    position_vector: bool,
}

/// The numbers of kind 6 in metres, radians and parts of one.
pub fn scaled_badekas(m: &Badekas) -> ReadyBadekas {
    let (linear, angular) = units(m.flags);
    let r = m.rotation.map(|x| x * angular);
    ReadyBadekas {
        t: m.translation.map(|x| linear * x),
        r,
        s: 1.0 + m.scale * 1e-6,
        pivot: m.pivot,
        rotated: any_not_zero(&r),
        exact: m.flags & 1 != 0,
        position_vector: m.convention != 2,
    }
}

fn ready_badekas(m: &Badekas) -> ReadyBadekas {
    scaled_badekas(m)
}

fn badekas(b: &ReadyBadekas, inverse: bool, tuple: Tuple) -> Done {
    let [x, y, z, time] = tuple;
    let m = if b.rotated { Some(matrix(&b.r, b.exact, b.position_vector)) } else { None };
    let v = [x, y, z];
    let [x, y, z] = if inverse {
        let v = [0, 1, 2].map(|i| ((v[i] - b.t[i]) - b.pivot[i]) / b.s);
        let v = m.map_or(v, |m| product(&transposed(&m), v));
        [0, 1, 2].map(|i| v[i] + b.pivot[i])
    } else {
        let v = [0, 1, 2].map(|i| v[i] - b.pivot[i]);
        let v = m.map_or(v, |m| product(&m, v));
        [0, 1, 2].map(|i| (b.s * v[i] + b.pivot[i]) + b.t[i])
    };
    let out_of_reach = b.rotated && b.exact && any_out_of_reach(&b.r);
    Done { tuple: [x, y, z, time], counted: true, out_of_reach }
}

// ----- deformation -----------------------------------------------------------------------------

fn deformation(
    d: &Deformation,
    e: &Ellipsoid,
    inverse: bool,
    tuple: Tuple,
    velocity: Velocity,
) -> Done {
    let (lon, lat) = geographic(e, &tuple);
    let Some(v) = velocity(lon, lat) else {
        return Done { tuple: [f64::NAN; 4], counted: false, out_of_reach: false };
    };
    let comment = d.flags & 2 != 0;
    let duration = if d.dt.is_finite() { -d.dt } else { d.t_epoch - tuple[3] };
    let per = if inverse == comment { -0.001 } else { 0.001 };
    let v = v.map(|x| x * per);
    let (slon, clon) = kernels::sin_cos(lon);
    let (slat, clat) = kernels::sin_cos(lat);
    let by = [
        duration * (-slat * clon * v[1] - slon * v[0] + clat * clon * v[2]),
        duration * (-slat * slon * v[1] + clon * v[0] + clat * slon * v[2]),
        duration * (clat * v[1] + slat * v[2]),
        0.0,
    ];
    let tuple = if d.flags & 1 != 0 {
        let square = by[0] * by[0] + by[1] * by[1] + by[2] * by[2] + by[3] * by[3];
        [by[0], by[1], by[2], kernels::sqrt(square)]
    } else {
        [0, 1, 2, 3].map(|i| tuple[i] + by[i])
    };
    Done { tuple, counted: true, out_of_reach: any_out_of_reach(&[lon, lat]) }
}

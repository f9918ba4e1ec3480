//! The near run (document 01's first oracle): our answers beside the published code with the C library's
//! kernels, within 1e-7 m and 1e-14 rad, over |h| ≤ 100 km, |latitude| ≤ 80° and the parameters of
//! published shifts. Prints the largest difference of each step.
//!
//!     near [tuples a shift and direction, 20000] [seed, 1]
use compare::{random::Random, tell};
use job::published_shifts::{Published, datums, frames, molodensky};
use job::{Body, Job, NOT_GIVEN, Step};
use std::collections::BTreeMap;
use std::process::ExitCode;

const METRES: f64 = 1e-7;
const RADIANS: f64 = 1e-14;

#[derive(Clone, Copy, PartialEq)]
enum Place {
    Geographic,
    Cartesian,
}

struct Case {
    /// the step whose largest difference this counts to
    step: &'static str,
    name: String,
    body: Body,
    takes: Place,
    gives: Place,
    inverse: bool,
}

#[derive(Default, Clone, Copy)]
struct Largest {
    metres: f64,
    radians: f64,
    tuples: usize,
}

fn main() -> ExitCode {
    let mut args = std::env::args().skip(1).map(|a| a.parse::<u64>().expect("a number"));
    let (wanted, seed) = (args.next().unwrap_or(20_000) as usize, args.next().unwrap_or(1));
    println!("near run: {wanted} tuples a shift and direction, seed {seed}");
    let mut r = Random::new(seed);
    let mut steps: BTreeMap<&str, Largest> = BTreeMap::new();
    let (mut passed, mut failed) = (0, 0);
    for case in cases() {
        let mut largest = Largest::default();
        let mut sound = true;
        while largest.tuples < wanted {
            sound &= compare(&case, &mut r, &mut largest);
        }
        sound &= largest.metres <= METRES && largest.radians <= RADIANS;
        println!("{}: {:.3e} m, {:.3e} rad", case.name, largest.metres, largest.radians);
        add(steps.entry(case.step).or_default(), largest);
        if sound { passed += 1 } else { failed += 1 }
    }
    println!("largest difference of each step");
    for (step, l) in steps {
        println!("  {step}: {:.3e} m, {:.3e} rad, {} tuples", l.metres, l.radians, l.tuples);
    }
    println!("{passed} passed, {failed} failed");
    if failed == 0 { ExitCode::SUCCESS } else { ExitCode::FAILURE }
}

fn add(to: &mut Largest, l: Largest) {
    to.metres = to.metres.max(l.metres);
    to.radians = to.radians.max(l.radians);
    to.tuples += l.tuples;
}

// ----- One job ---------------------------------------------------------------------------

/// Whether refusal, counts and times agree; the places' differences go into `largest`.
fn compare(case: &Case, r: &mut Random, largest: &mut Largest) -> bool {
    let n = 256;
    let list = (0..n).flat_map(|_| fix(r, case.takes)).collect();
    let steps = vec![Step { inverted: false, body: case.body.clone() }];
    let lent = matches!(case.body, Body::Deformation { .. });
    let velocities = if lent { (0..3 * n).map(|_| r.between(-80.0, 80.0)).collect() } else { vec![] };
    let marks = if lent { vec![1; n] } else { vec![] };
    let job = Job { inverse: case.inverse, steps, list, velocities, marks };
    let (rust, ours) = (published::run(&job).answer, ours::shift(&job));
    largest.tuples += n;
    let mut sound = rust.refusal == 0 && ours.refusal == 0 && rust.counts == ours.counts;
    for (a, b) in rust.list.chunks_exact(4).zip(ours.list.chunks_exact(4)) {
        let d = [0, 1, 2].map(|i| (a[i] - b[i]).abs());
        let angles = if case.gives == Place::Geographic { 2 } else { 0 };
        let widest = |part: &[f64]| part.iter().fold(0.0, |w: f64, x| if x.is_nan() { f64::INFINITY } else { w.max(*x) });
        largest.radians = largest.radians.max(widest(&d[..angles]));
        largest.metres = largest.metres.max(widest(&d[angles..]));
        sound &= fourth(case, a[3], b[3], largest);
    }
    if !sound {
        tell::difference(&case.name, &job, &rust, &ours);
    }
    sound
}

/// The time is the same to the bit; in a raw deformation the fourth number is a length.
fn fourth(case: &Case, a: f64, b: f64, largest: &mut Largest) -> bool {
    if matches!(case.body, Body::Deformation { flags: 1, .. }) {
        largest.metres = largest.metres.max((a - b).abs());
        return true;
    }
    a.to_bits() == b.to_bits()
}

/// A fix of the test list. Both sides are given the same numbers, however they were made.
fn fix(r: &mut Random, place: Place) -> [f64; 4] {
    let latitude = r.between(-80.0, 80.0).to_radians();
    let longitude = r.between(-179.9, 179.9).to_radians();
    let h = r.between(-1e5, 1e5);
    let t = 1990.0 + r.below(4000) as f64 / 100.0;
    if place == Place::Geographic {
        return [longitude, latitude, h, t];
    }
    let (sphi, cphi) = latitude.sin_cos();
    let (slam, clam) = longitude.sin_cos();
    let n = 6378137.0 / (1.0 - 0.00669438 * sphi * sphi).sqrt();
    [(n + h) * cphi * clam, (n + h) * cphi * slam, (n * (1.0 - 0.00669438) + h) * sphi, t]
}

// ----- The cases -------------------------------------------------------------------------

fn cases() -> Vec<Case> {
    let mut all = Vec::new();
    cart(&mut all);
    for p in frames() {
        moving(&mut all, &p);
    }
    for p in datums() {
        resting(&mut all, &p);
    }
    for p in molodensky() {
        curvilinear(&mut all, &p);
    }
    tides(&mut all);
    deformations(&mut all);
    all
}

fn both_ways(all: &mut Vec<Case>, step: &'static str, name: &str, body: Body, place: Place) {
    for inverse in [false, true] {
        let way = if inverse { "inverse" } else { "forward" };
        let name = format!("{step}, {name}, {way}");
        all.push(Case { step, name, body: body.clone(), takes: place, gives: place, inverse });
    }
}

fn cart(all: &mut Vec<Case>) {
    for ellipsoid in 1..=5 {
        let body = Body::Cart { ellipsoid };
        let (geo, xyz) = (Place::Geographic, Place::Cartesian);
        let name = |way| format!("cart, ellipsoid {ellipsoid}, {way}");
        all.push(Case {
            step: "cart forward",
            name: name("forward"),
            body: body.clone(),
            takes: geo,
            gives: xyz,
            inverse: false,
        });
        all.push(Case { step: "cart inverse", name: name("inverse"), body, takes: xyz, gives: geo, inverse: true });
    }
}

/// A frame with rates: running and own-epoch, at one observation time, and each with the exact matrix.
fn moving(all: &mut Vec<Case>, p: &Published) {
    let Body::Helmert(h) = &p.body else { unreachable!() };
    for exact in [0, 1] {
        for (step, own_epoch, t_obs) in
            [("helmert running", 0, NOT_GIVEN), ("helmert own-epoch", 8, NOT_GIVEN), ("helmert fixed", 0, 2024.5)]
        {
            let mut h = h.clone();
            h.flags |= exact | own_epoch;
            h.t_obs = t_obs;
            let name = if exact == 1 { format!("{}, exact", p.name) } else { p.name.to_string() };
            both_ways(all, step, &name, Body::Helmert(h), Place::Cartesian);
        }
    }
}

fn resting(all: &mut Vec<Case>, p: &Published) {
    let Body::Helmert(h) = &p.body else { unreachable!() };
    both_ways(all, "helmert static", p.name, p.body.clone(), Place::Cartesian);
    let mut h = h.clone();
    h.flags |= 1;
    both_ways(all, "helmert static", &format!("{}, exact", p.name), Body::Helmert(h), Place::Cartesian);
}

fn curvilinear(all: &mut Vec<Case>, p: &Published) {
    let Body::Molodensky { flags, first, second, offsets } = p.body else { unreachable!() };
    both_ways(all, "molodensky full", p.name, p.body.clone(), Place::Geographic);
    let abridged = Body::Molodensky { flags: flags | 1, first, second, offsets };
    both_ways(all, "molodensky abridged", p.name, abridged, Place::Geographic);
}

fn tides(all: &mut Vec<Case>) {
    for to in 1..=3 {
        for from in 1..=3 {
            let body = Body::Permtide { ellipsoid: 1, to, from, k: 0.3 };
            both_ways(all, "permtide", &format!("to {to} from {from}"), body, Place::Geographic);
        }
    }
}

fn deformations(all: &mut Vec<Case>) {
    for (name, flags, dt) in [("by epoch", 0, NOT_GIVEN), ("by dt", 0, 12.5), ("raw", 1, NOT_GIVEN)] {
        let body = Body::Deformation { flags, ellipsoid: 1, dt, t_epoch: 2000.0 };
        both_ways(all, "deformation", name, body, Place::Cartesian);
    }
}

//! The number of tuples that met an angle out of reach, at the edges that document 02, A5 has: for
//! each angle of each step 1024 and -1024, the number after 1024, infinities and NaN; both angles out
//! of reach; twice the latitude; marks that are absent; matrices that are not used. Each expected
//! number is written by hand. Every call goes through the flat entries and the columns entries
//! (ours), and beside the second reader.
use compare::LANDED;
use job::{Body, Helmert, NOT_GIVEN, Step, sheet};
use reader::chain;
use std::process::ExitCode;

struct Told {
    passed: usize,
    failed: usize,
}

impl Told {
    fn expect(&mut self, what: &str, found: u64, expected: u64) {
        if found == expected {
            self.passed += 1;
        } else {
            self.failed += 1;
            println!("{what}: {found} out of reach, {expected} expected");
        }
    }

    /// One step over a list: how many tuples met an angle out of reach, by the library and by the reader.
    fn step(&mut self, what: &str, inverse: bool, body: &Body, list: &[[f64; 4]], marks: &[u8], expected: u64) {
        let bytes = sheet(&[Step { inverted: false, body: body.clone() }]);
        let velocities = vec![1.0; 3 * marks.len()];
        let flat = list.as_flattened();
        let (answer, out_of_reach) = ours::shift_reach(inverse, &bytes, flat, &velocities, marks);
        assert_eq!((answer.refusal, answer.step), (0, 0), "{what}");
        self.expect(what, u64::from(out_of_reach[0]), expected);
        let read = chain::shift(&LANDED, inverse, &bytes, flat, &velocities, marks, None);
        self.expect(&format!("{what}, the second reader"), u64::from(read.out_of_reach[0]), expected);
    }

    /// The same of a kept run, and of each fix corrected to itself, whose stretch is at least that fix.
    fn kept(&mut self, what: &str, helmert: &Helmert, times: &[f64], expected: u64, each: &[u64]) {
        self.kept_body(what, &Body::Helmert(helmert.clone()), times, expected, each);
    }

    fn kept_body(&mut self, what: &str, body: &Body, times: &[f64], expected: u64, each: &[u64]) {
        let list: Vec<[f64; 4]> = times.iter().map(|t| [1.0, 2.0, 3.0, *t]).collect();
        for inverse in [false, true] {
            self.step(what, inverse, body, &list, &[], expected);
            let bytes = sheet(&[Step { inverted: false, body: body.clone() }]);
            let mut flat = list.as_flattened().to_vec();
            let (mut results, mut track) = (vec![0.0; flat.len()], vec![0.0; flat.len()]);
            let (told, counted, met) = ours::keep_reach(inverse, &bytes, &flat, &mut results, &mut track);
            let own_epoch = matches!(body, Body::Helmert(h) if h.flags & 8 != 0);
            let lost = if own_epoch { times.iter().filter(|t| t.is_nan()).count() } else { 0 };
            assert_eq!((told, counted), ((0, 0), (times.len() - lost) as u64), "{what}");
            self.expect(&format!("{what}, kept"), met, expected);
            for (index, met) in each.iter().enumerate() {
                let lists = [&mut flat[..], &mut results[..], &mut track[..]];
                let (told, redone, found) = ours::correct_reach(inverse, &bytes, lists, index as u64, list[index]);
                assert_eq!((told, redone), ((0, 0), 1), "{what}");
                self.expect(&format!("{what}, fix {index} corrected to itself"), found, *met);
            }
        }
    }
}

fn main() -> ExitCode {
    let mut told = Told { passed: 0, failed: 0 };
    let after = f64::from_bits(1024f64.to_bits() + 1);
    let half = f64::from_bits(512f64.to_bits() + 1);
    let edges =
        [(0.0, 0), (1024.0, 0), (-1024.0, 0), (after, 1), (-after, 1), (f64::INFINITY, 1), (f64::NEG_INFINITY, 1), (f64::NAN, 1)];

    let cart = Body::Cart { ellipsoid: 1 };
    let molodensky = |flags| Body::Molodensky { flags, first: 1, second: 0, offsets: [1.0, 2.0, 3.0, 4.0, 1e-5] };
    let permtide = Body::Permtide { ellipsoid: 1, to: 1, from: 2, k: 0.3 };
    for (angle, met) in edges {
        let at = |what: &str| format!("{what} at {angle}");
        told.step(&at("cart, longitude"), false, &cart, &[[angle, 0.0, 0.0, 0.0]], &[], met);
        told.step(&at("cart, latitude"), false, &cart, &[[0.0, angle, 0.0, 0.0]], &[], met);
        told.step(&at("cart, both"), false, &cart, &[[angle, angle, 0.0, 0.0]], &[], met);
        told.step(&at("cart inverse"), true, &cart, &[[angle, angle, angle, 0.0]], &[], 0);
        for inverse in [false, true] {
            told.step(&at("permtide, latitude"), inverse, &permtide, &[[0.0, angle, 0.0, 0.0]], &[], met);
            told.step(&at("permtide, longitude"), inverse, &permtide, &[[angle, 0.0, 0.0, 0.0]], &[], 0);
            told.step(&at("full, longitude"), inverse, &molodensky(0), &[[angle, 0.0, 0.0, 0.0]], &[], met);
            told.step(&at("full, latitude"), inverse, &molodensky(0), &[[0.0, angle, 0.0, 0.0]], &[], met);
            told.step(&at("full, both"), inverse, &molodensky(0), &[[angle, angle, 0.0, 0.0]], &[], met);
            told.step(&at("abridged, longitude"), inverse, &molodensky(1), &[[angle, 0.0, 0.0, 0.0]], &[], met);
        }
    }
    for (latitude, abridged) in [(512.0, 0), (-512.0, 0), (half, 1), (-half, 1), (513.0, 1), (1024.0, 1), (after, 1)] {
        told.step(&format!("abridged, latitude {latitude}"), false, &molodensky(1), &[[0.0, latitude, 0.0, 0.0]], &[], abridged);
        told.step(
            &format!("full, latitude {latitude}"),
            false,
            &molodensky(0),
            &[[0.0, latitude, 0.0, 0.0]],
            &[],
            u64::from(latitude == after),
        );
    }

    let deformation = Body::Deformation { flags: 0, ellipsoid: 1, dt: 1.0, t_epoch: NOT_GIVEN };
    for (fix, met) in [
        ([6378137.0, 0.0, 0.0, 0.0], 0),
        ([1.0, 0.0, 3e301, 0.0], 1), // finite coordinates, whose latitude is NaN
        ([f64::NAN, 0.0, 0.0, 0.0], 1),
        ([f64::NAN; 4], 1),
    ] {
        for inverse in [false, true] {
            told.step(&format!("deformation of {fix:?}"), inverse, &deformation, &[fix], &[1], met);
            told.step(&format!("deformation of {fix:?}, absent"), inverse, &deformation, &[fix], &[0], 0);
        }
    }

    // A turn of a radian a year with exact angles, in each mode.
    let radian = 180.0 * 3600.0 / std::f64::consts::PI;
    let turning = Helmert { flags: 1, convention: 1, drxyz: [radian, 0.0, 0.0], t_epoch: 2000.0, ..Helmert::blank() };
    let times = [2001.0, f64::NAN, 2001.0, 4000.0];
    told.kept("running", &turning, &times, 2, &[0, 1, 0, 1]);
    told.kept("running, infinite times", &turning, &[2001.0, f64::INFINITY, f64::NEG_INFINITY, 2001.0], 2, &[0, 1, 1, 0]);
    told.kept("own-epoch", &Helmert { flags: 9, ..turning.clone() }, &times, 1, &[0, 0, 0, 1]);
    told.kept("fixed, in reach", &Helmert { t_obs: 2001.0, ..turning.clone() }, &times, 0, &[0; 4]);
    told.kept("fixed, out of reach", &Helmert { t_obs: 4000.0, ..turning.clone() }, &times, 4, &[1; 4]);
    told.kept("small angles", &Helmert { flags: 0, ..turning.clone() }, &times, 0, &[0; 4]);
    let still = Helmert { drxyz: [0.0; 3], t_epoch: NOT_GIVEN, ..turning.clone() };
    told.kept("static, in reach", &Helmert { rxyz: [1023.0 * radian, 0.0, 0.0], ..still.clone() }, &times, 0, &[0; 4]);
    told.kept("static, out of reach", &Helmert { rxyz: [0.0, 0.0, 1025.0 * radian], ..still.clone() }, &times, 4, &[1; 4]);
    told.kept(
        "exact and not rotated",
        &Helmert { drxyz: [0.0; 3], dxyz: [1.0, 0.0, 0.0], ..turning.clone() },
        &times,
        0,
        &[0; 4],
    );

    // About a pivot: an exact matrix is used by all or none, whatever the fix and its time.
    let about = |flags, angles: [f64; 3]| Body::Badekas {
        flags,
        convention: 2,
        translation: [1.0, 2.0, 3.0],
        rotation: angles.map(|a| a * radian),
        scale: 1.0,
        pivot: [1.0, 2.0, 3.0],
    };
    told.kept_body("about a pivot, in reach", &about(1, [1023.0, -1023.0, 0.0]), &times, 0, &[0; 4]);
    told.kept_body("about a pivot, out of reach", &about(1, [0.0, -1025.0, 0.0]), &times, 4, &[1; 4]);
    told.kept_body("about a pivot, small angles", &about(0, [0.0, -1025.0, 0.0]), &times, 0, &[0; 4]);
    told.kept_body("about a pivot, exact and not rotated", &about(1, [0.0; 3]), &times, 0, &[0; 4]);

    // A refused call tells zeros.
    let (answer, out_of_reach) = ours::shift_reach(false, &sheet(&[]), &[f64::NAN; 4], &[], &[]);
    told.expect("a refused call", u64::from(answer.refusal == 0) + u64::from(out_of_reach.iter().sum::<u32>()), 0);

    println!("{} passed, {} failed", told.passed, told.failed);
    if told.failed == 0 { ExitCode::SUCCESS } else { ExitCode::FAILURE }
}

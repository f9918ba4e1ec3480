//! The files of fixed answers: made of the same-bits oracle's, and the first of them replayed against the library.
//!
//!     vectors write FOLDER     vectors check FOLDER
use compare::{
    draw,
    random::Random,
    suites::{self, SUITES},
};
use job::{Answer, Body, Helmert, Job, NOT_GIVEN, Step, canonical, vectors};
use std::path::Path;
use std::process::ExitCode;

const SEED: u64 = 20_010;
const JOBS: usize = 14;
const LONGEST: u64 = 24;
const PLACES: usize = 600;

fn main() -> ExitCode {
    let args: Vec<String> = std::env::args().skip(1).collect();
    let [what, folder] = &args[..] else { panic!("vectors write FOLDER, or vectors check FOLDER") };
    match what.as_str() {
        "write" => write(Path::new(folder)),
        "check" => check(&Path::new(folder).join(ANSWERS)),
        _ => panic!("write or check"),
    }
}

const ANSWERS: &str = "answers.bin";
const GEOGRAPHIC: &str = "geographic.bin";

fn write(folder: &Path) -> ExitCode {
    let jobs = marked_points().into_iter().chain(refused()).chain(drawn()).chain(untimed());
    let answered: Vec<(Job, Answer)> = jobs.map(|job| (job.clone(), over_kernels::run(&job).answer)).collect();
    let tuples: usize = answered.iter().map(|(job, _)| job.list.len() / 4).sum();
    std::fs::create_dir_all(folder).unwrap();
    std::fs::write(folder.join(ANSWERS), vectors::file(&answered)).unwrap();
    std::fs::write(folder.join(GEOGRAPHIC), geographic()).unwrap();
    println!("{} jobs of {tuples} tuples and {PLACES} places written", answered.len());
    ExitCode::SUCCESS
}

fn check(path: &Path) -> ExitCode {
    let (mut passed, mut failed) = (0, 0);
    for (i, r) in vectors::records(&std::fs::read(path).unwrap()).iter().enumerate() {
        let ours = ours::shift_bytes(r.inverse, &r.sheet, &r.list, &r.velocities, &r.marks);
        if ours.same(&r.answer) {
            passed += 1;
        } else {
            failed += 1;
            println!("record {i}: {:?} expected, {:?} given", r.answer, ours);
        }
    }
    println!("{passed} passed, {failed} failed");
    if failed == 0 { ExitCode::SUCCESS } else { ExitCode::FAILURE }
}

/// Ellipsoid, tuple, and what `geographic` makes of it: its height reaches no step, so no job can show it.
fn geographic() -> Vec<u8> {
    let mut r = Random::new(SEED);
    let mut out: Vec<u8> = [1, PLACES as u32].into_iter().flat_map(u32::to_le_bytes).collect();
    for _ in 0..PLACES {
        let ellipsoid = draw::ellipsoid(&mut r);
        let [x, y, z] = draw::cartesian(&mut r);
        let tuple = [x, y, z, draw::time(&mut r, 2010.0, 2000.0, true)];
        let place = over_kernels::geographic(ellipsoid, tuple).map(canonical);
        out.extend([ellipsoid, 0].into_iter().flat_map(u32::to_le_bytes));
        out.extend(tuple.map(f64::to_bits).into_iter().chain(place).flat_map(u64::to_le_bytes));
    }
    out
}

// ----- The jobs --------------------------------------------------------------------------

/// From every suite, forward and inverse.
fn drawn() -> Vec<Job> {
    let mut r = Random::new(SEED);
    let mut jobs = Vec::new();
    for suite in &SUITES {
        for inverse in [false, true] {
            for _ in 0..JOBS {
                let n = 1 + r.below(LONGEST) as usize;
                jobs.push(suite.job(&mut r, inverse, n));
            }
        }
    }
    jobs
}

/// Missing times (document 02, A3), forward and inverse, in lists longer than a block of sixteen.
fn untimed() -> Vec<Job> {
    let mut r = Random::new(SEED);
    let mut jobs = Vec::new();
    for inverse in [false, true] {
        for _ in 0..JOBS {
            let n = 17 + r.below(LONGEST - 16) as usize;
            jobs.push(suites::missing_times(&mut r, inverse, n));
        }
    }
    jobs
}

fn single(inverse: bool, body: Body, list: &[f64]) -> Job {
    let steps = vec![Step { inverted: false, body }];
    Job { inverse, steps, list: list.to_vec(), velocities: vec![], marks: vec![] }
}

/// DT = (1, 0, 0), t_epoch 2000, X = 0 at each of these times.
fn moving(flags: u32, times: &[f64]) -> Job {
    let h = Helmert { flags, dxyz: [1.0, 0.0, 0.0], t_epoch: 2000.0, ..Helmert::blank() };
    let list: Vec<f64> = times.iter().flat_map(|t| [0.0, 0.0, 0.0, *t]).collect();
    single(false, Body::Helmert(h), &list)
}

/// Document 01's marked points that are runs of a chain: P1 to P5 and P8 to P12, in order.
fn marked_points() -> Vec<Job> {
    let nan = NOT_GIVEN;
    let cart = Body::Cart { ellipsoid: 1 };
    let molodensky = Body::Molodensky { flags: 0, first: 1, second: 0, offsets: [0.0; 5] };
    let tide = Body::Permtide { ellipsoid: 1, to: 1, from: 2, k: 0.3 };
    let no_convention = Helmert { flags: 0, rxyz: [1.0, 0.0, 0.0], ..Helmert::blank() };
    let no_epoch = Helmert { flags: 0, dxyz: [1.0, 0.0, 0.0], ..Helmert::blank() };
    vec![
        single(false, cart.clone(), &[0.0; 4]),
        moving(0, &[2001.0, 2002.0, 2001.0]),
        moving(8, &[2001.0, 2002.0, 2001.0]),
        moving(0, &[2001.0, 2001.0]),
        moving(0, &[2001.0, nan, 2001.0]),
        single(true, cart, &[0.0, 0.0, 7000000.0, 0.0]),
        single(false, molodensky, &[0.0, 0.0, -6378137.0, 0.0]),
        single(false, tide, &[0.0; 4]),
        single(false, Body::Helmert(no_convention), &[0.0; 4]),
        single(false, Body::Helmert(no_epoch), &[0.0; 4]),
    ]
}

/// Steps that the Rust's `new` refuses, behind steps that it takes: 5, 6, 7 and 8.
fn refused() -> Vec<Job> {
    let wrong = [
        Body::Permtide { ellipsoid: 1, to: 4, from: 1, k: 0.3 },
        Body::Helmert(Helmert { flags: 0, drxyz: [0.0, 0.0, 1.0], t_epoch: 2000.0, ..Helmert::blank() }),
        Body::Helmert(Helmert { flags: 0, convention: 2, ds: 1.0, ..Helmert::blank() }),
        Body::Deformation { flags: 0, ellipsoid: 1, dt: NOT_GIVEN, t_epoch: NOT_GIVEN },
    ];
    let mut jobs = Vec::new();
    for (before, body) in wrong.into_iter().enumerate() {
        let mut job = single(false, Body::Cart { ellipsoid: 1 }, &[0.5, 0.25, -0.0, NOT_GIVEN]);
        if matches!(body, Body::Deformation { .. }) {
            (job.velocities, job.marks) = (vec![1.0, 2.0, 3.0], vec![1]);
        }
        job.steps = vec![job.steps[0].clone(); before];
        job.steps.push(Step { inverted: true, body });
        jobs.push(job);
    }
    jobs
}

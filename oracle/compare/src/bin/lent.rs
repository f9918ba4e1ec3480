//! Refusals 9 and 10 of `sillfeather_shift` beside document 01's words: lists, velocities and marks of right and wrong lengths, behind
//! sheets that are accepted or not. A refused call leaves every bit of the list, and counts nothing.
//!
//!     lent [calls, 20000] [seed, 1]
use compare::{draw, random::Random, suites::SUITES, tell};
use job::{Body, Job, sheet};
use std::collections::BTreeMap;
use std::process::ExitCode;

fn main() -> ExitCode {
    let mut args = std::env::args().skip(1).map(|a| a.parse::<u64>().expect("a number"));
    let (calls, seed) = (args.next().unwrap_or(20_000), args.next().unwrap_or(1));
    let mut r = Random::new(seed);
    let mut numbers: BTreeMap<u32, usize> = BTreeMap::new();
    let (mut passed, mut failed) = (0, 0);
    for _ in 0..calls {
        let job = call(&mut r);
        let bytes = sheet(&job.steps);
        let expected = refusal(&job, ours::check(&bytes));
        *numbers.entry(expected.0).or_default() += 1;
        let told = ours::shift(&job);
        let left_alone = told.counts == [0; 16] && bits(&told.list) == bits(&job.list);
        if (told.refusal, told.step) == expected && (expected.0 == 0 || left_alone) {
            passed += 1;
        } else {
            failed += 1;
            println!(
                "{expected:?} expected, ({}, {}) given, left alone {left_alone}: {}",
                told.refusal,
                told.step,
                tell::hex(&bytes)
            );
            println!("  {} numbers, {} velocities, {} marks", job.list.len(), job.velocities.len(), job.marks.len());
        }
    }
    println!("lent lists: {calls} calls, by number of refusal {numbers:?}");
    println!("{passed} passed, {failed} failed");
    if failed == 0 { ExitCode::SUCCESS } else { ExitCode::FAILURE }
}

fn bits(list: &[f64]) -> Vec<u64> {
    list.iter().map(|x| x.to_bits()).collect()
}

/// The sheet's own refusals come first, 11 among them; then 9, then 10.
fn refusal(job: &Job, of_the_sheet: (u32, u32)) -> (u32, u32) {
    let n = job.list.len() / 4;
    let deformed = job.steps.iter().any(|s| matches!(s.body, Body::Deformation { .. }));
    let (velocities, marks) = if deformed { (3 * n, n) } else { (0, 0) };
    if of_the_sheet.0 != 0 {
        of_the_sheet
    } else if job.list.len() % 4 != 0 || n > 2048 {
        (9, 0)
    } else if job.velocities.len() != velocities || job.marks.len() != marks || job.marks.iter().any(|m| *m > 1) {
        (10, 0)
    } else {
        (0, 0)
    }
}

/// A job of a suite whose lengths are made wrong now and then.
fn call(r: &mut Random) -> Job {
    let suite = &SUITES[r.below(SUITES.len() as u64) as usize];
    let n = if r.once_in(20) { r.pick(&[0, 1, 2047, 2048, 2049]) } else { draw::list_length(r).min(40) };
    let inverse = r.once_in(2);
    let mut job = suite.job(r, inverse, n);
    if r.once_in(10) {
        let second = Body::Deformation { flags: 0, ellipsoid: 1, dt: 1.0, t_epoch: 2000.0 };
        job.steps.truncate(15);
        job.steps.push(job::Step { inverted: false, body: second });
    }
    if r.once_in(4) {
        resize(r, &mut job.list, 0.5);
    }
    if r.once_in(6) {
        resize(r, &mut job.velocities, 1.0);
    }
    if r.once_in(6) {
        resize(r, &mut job.marks, 1);
    }
    if !job.marks.is_empty() && r.once_in(6) {
        let at = r.below(job.marks.len() as u64) as usize;
        job.marks[at] = r.pick(&[2, 3, 128, 255]);
    }
    job
}

/// A few more or a few less.
fn resize<T: Copy>(r: &mut Random, list: &mut Vec<T>, with: T) {
    let by = r.below(10) as usize;
    let to = if r.once_in(2) { list.len() + by } else { list.len().saturating_sub(by) };
    list.resize(to, with);
}

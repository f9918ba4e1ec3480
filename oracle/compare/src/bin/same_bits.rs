//! The same-bits run (document 01's second oracle): every bit of our answers beside those of the published
//! code over our kernels, what `sillfeather_check` says of each sheet beside the Rust's `new`, and how
//! many tuples met an angle out of reach beside a mark set where the Rust takes a sine or a cosine
//! (document 02, A5). No tolerance.
//!
//!     same_bits [tuples a suite and direction, 50000] [seed, 1]
use compare::{
    draw,
    random::Random,
    suites::{FURTHER, SUITES},
    tell,
};
use std::process::ExitCode;

#[derive(Default)]
struct Tally {
    tuples: usize,
    /// tuples whose results hold no NaN
    whole: usize,
    jobs: usize,
    refused: usize,
    listed: usize,
    out_of_reach: u32,
    parted: usize,
}

fn main() -> ExitCode {
    let mut args = std::env::args().skip(1).map(|a| a.parse::<u64>().expect("a number"));
    let (wanted, seed) = (args.next().unwrap_or(50_000) as usize, args.next().unwrap_or(1));
    println!("same-bits run: {wanted} tuples a suite and direction, seed {seed}");
    let (mut passed, mut failed) = (0, 0);
    for (i, suite) in SUITES.iter().chain(&FURTHER).enumerate() {
        for inverse in [false, true] {
            let mut r = Random::new(seed.wrapping_mul(1000) + 2 * i as u64 + inverse as u64);
            let name = format!("{} {}", suite.name, if inverse { "inverse" } else { "forward" });
            let tally = compare(&name, wanted, |n, r| suite.job(r, inverse, n), &mut r);
            println!(
                "{name}: {} tuples, {} without NaN, in {} jobs, {} refused alike, {} with a NaN Z on the axis, {} out of reach, {} parted",
                tally.tuples, tally.whole, tally.jobs, tally.refused, tally.listed, tally.out_of_reach, tally.parted
            );
            if tally.parted == 0 { passed += 1 } else { failed += 1 }
        }
    }
    println!("{passed} passed, {failed} failed");
    if failed == 0 { ExitCode::SUCCESS } else { ExitCode::FAILURE }
}

/// Jobs until the wanted number of tuples has been shifted.
fn compare(name: &str, wanted: usize, draw: impl Fn(usize, &mut Random) -> job::Job, r: &mut Random) -> Tally {
    let mut tally = Tally::default();
    while tally.tuples < wanted {
        let n = draw::list_length(r);
        let job = draw(n, r);
        let ran = over_kernels::run(&job);
        let ours = ours::shift(&job);
        tally.jobs += 1;
        tally.listed += ran.nan_z_on_the_axis;
        if ran.answer.refusal == 0 {
            tally.tuples += n;
            tally.whole += ran.answer.list.chunks_exact(4).filter(|t| !t.iter().any(|x| x.is_nan())).count();
        } else {
            tally.refused += 1;
        }
        let sheet = job::sheet(&job.steps);
        let checked = ours::check(&sheet);
        let marked = over_kernels::out_of_reach(&job);
        let (_, met) = ours::shift_reach(job.inverse, &sheet, &job.list, &job.velocities, &job.marks);
        tally.out_of_reach += marked.iter().sum::<u32>();
        if !ran.answer.same(&ours) || checked != (ran.answer.refusal, ran.answer.step) || met != marked {
            tally.parted += 1;
            if tally.parted <= 3 {
                tell::difference(name, &job, &ran.answer, &ours);
            }
        }
    }
    tally
}

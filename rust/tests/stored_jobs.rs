//! The stored jobs of examples/sheets, read as the program reads them, give the stored lines.
mod common;
use sillfeather::*;
use std::fs;
use std::path::{Path, PathBuf};

struct Job<'a> {
    direction: Direction,
    sheet: &'a [u8],
    list: Vec<f64>,
    velocities: Vec<f64>,
    marks: &'a [u8],
}

/// u32 direction, sheet length, tuple count, velocity count; sheet; tuples; velocities; marks; then the end.
fn read(job: &[u8]) -> Job<'_> {
    let word = |i: usize| u32::from_le_bytes(job[4 * i..4 * i + 4].try_into().unwrap()) as usize;
    let numbers = |bytes: &[u8]| bytes.chunks_exact(8).map(|b| f64::from_le_bytes(b.try_into().unwrap())).collect();
    let (sheet, rest) = job[16..].split_at(word(1));
    let (list, rest) = rest.split_at(32 * word(2));
    let (velocities, marks) = rest.split_at(24 * word(3));
    assert!(word(0) < 2 && marks.len() == word(3));
    let direction = if word(0) == 0 { Direction::Forward } else { Direction::Inverse };
    Job { direction, sheet, list: numbers(list), velocities: numbers(velocities), marks }
}

/// What the program prints for a job that is not refused.
fn printed(job: &mut Job) -> String {
    let sheet = Sheet::from_bytes(job.sheet).unwrap();
    let counts = sheet.shift_flat(job.direction, &mut job.list, &job.velocities, job.marks).unwrap();
    let mut out = format!("steps {} tuples {}\n", sheet.step_count(), job.list.len() / 4);
    for (i, count) in counts.steps().iter().enumerate() {
        out += &format!("step {} counted {count}\n", i + 1);
    }
    let bits = |x: &f64| format!("{:016x}", if x.is_nan() { common::NOT_GIVEN } else { x.to_bits() });
    for fix in job.list.chunks_exact(4) {
        out += &(fix.iter().map(bits).collect::<Vec<_>>().join(" ") + "\n");
    }
    out
}

fn stored_jobs() -> Vec<PathBuf> {
    let folder = Path::new(env!("CARGO_MANIFEST_DIR")).join("../examples/sheets");
    let mut jobs: Vec<PathBuf> = fs::read_dir(folder).unwrap().map(|entry| entry.unwrap().path()).collect();
    jobs.retain(|path| path.extension().is_some_and(|e| e == "job"));
    jobs
}

#[test]
fn stored_jobs_give_the_stored_lines() {
    let jobs = stored_jobs();
    assert!(jobs.len() >= 5);
    for path in jobs {
        let bytes = fs::read(&path).unwrap();
        let mut job = read(&bytes);
        assert_eq!(job.sheet, fs::read(path.with_extension("sheet")).unwrap(), "{}", path.display());
        assert_eq!(printed(&mut job), fs::read_to_string(path.with_extension("expected")).unwrap(), "{}", path.display());
    }
}

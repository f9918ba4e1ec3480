//! The columns entries at their edges, beside the flat entries: every length about a block, a window
//! and the limit; times that stay equal across such an edge; marks that change across it; kept runs
//! corrected beside it; columns of unequal length; NaN payloads.
//!
//!     columns [draws a length, 20] [seed, 1]
//!
//! Every call of `ours` is made through both entries and compared (ours/src/columns.rs). Here stand
//! the lists that have edges, and what columns alone can break: refusals 9 and 13.
use compare::random::Random;
use compare::suites::{FURTHER, SUITES};
use job::{Body, Job, sheet};
use ours::columns::{self, Columns};
use std::process::ExitCode;

const ROWS: [usize; 16] = [0, 1, 2, 15, 16, 17, 31, 32, 63, 64, 65, 127, 128, 129, 2048, 2049];
const LIMIT: usize = 2048;
/// Of a block of rows, and of a window of the flat entries.
const EDGES: [usize; 2] = [16, 64];
const PAYLOADS: [u64; 4] = [0x7ff8_0000_0000_1234, 0xfff8_dead_beef_0001, 0x7ff4_0000_0000_0001, 0xfff0_0000_0000_0003];

struct Told {
    passed: usize,
    failed: usize,
}

impl Told {
    fn expect(&mut self, holds: bool, what: &str) {
        if holds {
            self.passed += 1;
        } else {
            self.failed += 1;
            println!("parted: {what}");
        }
    }
}

fn main() -> ExitCode {
    let mut args = std::env::args().skip(1).map(|a| a.parse::<u64>().expect("a number"));
    let (draws, seed) = (args.next().unwrap_or(20), args.next().unwrap_or(1));
    let mut r = Random::new(seed);
    let mut told = Told { passed: 0, failed: 0 };
    for suite in SUITES.iter().chain(&FURTHER) {
        for rows in ROWS {
            for _ in 0..draws {
                let inverse = r.once_in(2);
                let mut job = suite.job(&mut r, inverse, rows);
                across_an_edge(&mut r, &mut job);
                lengths(&mut told, suite.name, &job);
                kept(&mut r, &mut told, suite.name, &job);
            }
            let job = suite.job(&mut r, false, rows);
            unequal(&mut told, suite.name, &job);
            kept_unequal(&mut told, suite.name, &job);
            payloads(&mut r, &mut told, suite.name, job);
        }
    }
    println!("columns: {} suites, {} lengths, {draws} draws each", SUITES.len() + FURTHER.len(), ROWS.len());
    println!("{} passed, {} failed", told.passed, told.failed);
    if told.failed == 0 { ExitCode::SUCCESS } else { ExitCode::FAILURE }
}

/// In every other job one time, and one mark, on some rows before an edge and after it.
fn across_an_edge(r: &mut Random, job: &mut Job) {
    let rows = job.list.len() / 4;
    let edge = r.pick(&EDGES);
    if rows <= edge || r.once_in(2) {
        return;
    }
    let edge = edge * (1 + r.below((rows / edge) as u64) as usize);
    let (time, mark) = (r.pick(&[2001.0, f64::NAN, -0.0]), r.below(2) as u8);
    let (before, after) = (1 + r.below(20) as usize, 1 + r.below(20) as usize);
    for i in edge.saturating_sub(before)..(edge + after).min(rows) {
        job.list[4 * i + 3] = time;
        if let Some(marked) = job.marks.get_mut(i) {
            *marked = mark;
        }
    }
}

/// The refusal of the job's sheet, else 9 over 2,048 rows.
fn expected(job: &Job) -> (u32, u32) {
    match ours::check(&sheet(&job.steps)) {
        (0, _) if job.list.len() / 4 > LIMIT => (9, 0),
        own => own,
    }
}

fn lengths(told: &mut Told, name: &str, job: &Job) {
    let answer = ours::shift(job);
    told.expect(
        (answer.refusal, answer.step) == expected(job),
        &format!("{name}, {} rows: {:?}", job.list.len() / 4, answer.refusal),
    );
}

/// One Helmert or ten-parameter step, which is what a kept run is of.
fn keeps(job: &Job) -> bool {
    matches!(job.steps[..], [job::Step { body: Body::Helmert(_) | Body::Badekas { .. }, .. }])
}

/// A kept run, and corrections at its ends, beside edges, past its end and at any index.
fn kept(r: &mut Random, told: &mut Told, name: &str, job: &Job) {
    if !keeps(job) {
        return;
    }
    let (bytes, rows) = (sheet(&job.steps), job.list.len() / 4);
    let (mut list, mut results, mut track) = (job.list.clone(), vec![0.5; 4 * rows], vec![0.25; 4 * rows]);
    let first = ours::keep(job.inverse, &bytes, &list, &mut results, &mut track);
    told.expect(first == expected(job), &format!("{name}, {rows} rows kept: {first:?}"));
    for index in [0, 15, 16, 63, 64, rows.saturating_sub(1), rows, r.below(1 + rows as u64) as usize] {
        let from = 4 * r.below(1 + rows as u64) as usize;
        let fix = list.get(from..from + 4).map_or([1.0, 2.0, 3.0, 2001.0], |fix| fix.try_into().unwrap());
        let (said, redone) = ours::correct(job.inverse, &bytes, [&mut list, &mut results, &mut track], index as u64, fix);
        let right = match expected(job) {
            (0, _) if index >= rows => (14, 0),
            own => own,
        };
        told.expect(
            said == right && (redone == 0) == (right != (0, 0)),
            &format!("{name}, {rows} rows, fix {index} corrected: {said:?}, {redone}"),
        );
    }
}

fn bits(columns: &Columns) -> Vec<Vec<u64>> {
    columns.iter().map(|c| c.iter().map(|x| x.to_bits()).collect()).collect()
}

/// Each way to make one column a row shorter or longer than the others.
fn uneven(list: &Columns) -> impl Iterator<Item = (usize, Columns)> {
    let changed = |which: usize, longer: bool| {
        let mut list = list.clone();
        if longer {
            list[which].push(0.5);
        } else {
            list[which].pop()?;
        }
        Some((which, list))
    };
    (0..8).filter_map(move |way| changed(way / 2, way % 2 == 1))
}

/// One column a row shorter or longer than the others: 9, and nothing is written.
fn unequal(told: &mut Told, name: &str, job: &Job) {
    let bytes = sheet(&job.steps);
    if ours::check(&bytes).0 != 0 {
        return;
    }
    for (which, mut list) in uneven(&columns::columns(&job.list)) {
        let before = bits(&list);
        let [mut counts, mut out_of_reach] = [[u32::MAX; 16]; 2];
        let lent = columns::write(&mut list);
        let code = columns::shift(job.inverse, &bytes, lent, &job.velocities, &job.marks, [&mut counts, &mut out_of_reach]);
        told.expect(
            code == 9 && [counts, out_of_reach] == [[0; 16]; 2] && bits(&list) == before,
            &format!("{name}: column {which} of another length, {code}"),
        );
    }
}

/// The same of a kept run: 9 for the list's columns, 13 for those of results and track.
fn kept_unequal(told: &mut Told, name: &str, job: &Job) {
    let bytes = sheet(&job.steps);
    if !keeps(job) || expected(job) != (0, 0) {
        return;
    }
    let whole = columns::columns(&job.list);
    for of in 0..3 {
        for (which, changed) in uneven(&whole) {
            let mut lists = [(); 3].map(|()| whole.clone());
            lists[of] = changed;
            let before: Vec<_> = lists.iter().map(bits).collect();
            let expected = if of == 0 { 9 } else { 13 };
            let [list, results, track] = &mut lists;
            let code = columns::keep(job.inverse, &bytes, columns::read(list), columns::write(results), columns::write(track));
            let tells =
                columns::keep_reach(job.inverse, &bytes, columns::read(list), columns::write(results), columns::write(track));
            let again = columns::correct(job.inverse, &bytes, lists.each_mut().map(columns::write), 0, &[0.0; 4]);
            let tells_again = columns::correct_reach(job.inverse, &bytes, lists.each_mut().map(columns::write), 0, &[0.0; 4]);
            let after: Vec<_> = lists.iter().map(bits).collect();
            let refused = code == expected && again == (expected, 0) && [tells, tells_again] == [(expected, [0, 0]); 2];
            told.expect(
                refused && before == after,
                &format!("{name}: kept, column {which} of list {of} of another length, {code} and {again:?}"),
            );
        }
    }
}

/// NaNs with payloads in the numbers that a step carries: their bits come through the flat entry's
/// converters, and through columns.
fn payloads(r: &mut Random, told: &mut Told, name: &str, mut job: Job) {
    let carried: &[usize] = match job.steps[..] {
        [job::Step { body: Body::Permtide { .. }, .. }] => &[0, 1, 3],
        [job::Step { body: Body::Cart { .. } | Body::Molodensky { .. } | Body::Helmert(_) | Body::Badekas { .. }, .. }] => &[3],
        _ => return,
    };
    for tuple in job.list.chunks_mut(4) {
        for number in carried {
            tuple[*number] = f64::from_bits(r.pick(&PAYLOADS));
        }
    }
    let mut list = columns::columns(&job.list);
    let lent = columns::write(&mut list);
    columns::shift(job.inverse, &sheet(&job.steps), lent, &job.velocities, &job.marks, [&mut [0; 16], &mut [0; 16]]);
    for (how, after) in [("flat", ours::shift(&job).list), ("columns", columns::flat(&list))] {
        let came =
            after.iter().zip(&job.list).enumerate().all(|(i, (a, b))| !carried.contains(&(i % 4)) || a.to_bits() == b.to_bits());
        told.expect(came, &format!("{name}, {how}: a NaN's payload"));
    }
}

//! The closure report and the chart profile.
//!
//! Document 02, A14: "Add a report that runs a chain forward, then inverse, over many lists. It
//! gives the tuples seen, those with a NaN at start or end (counted only there), those restored
//! bit for bit, and per coordinate the largest absolute difference as bits among the rest, with
//! its list and index, the earliest on ties; a coordinate equal in bits differs by 0; with none
//! left, 0 at list 0, index 0. Beside it a chart profile judges sheets: Helmert and cart only, no
//! exact flag, own-epoch or not dynamic. A sheet passes exactly when those rules hold; else the
//! first offending step is named. Refusal 25, profile, carries that step and comes after 8 and
//! before 11, only where the profile was asked for."
//!
//! Readings
//! - A tuple has a NaN if any of its four numbers is one, as given or after the way back. It is
//!   then not among those restored, even where its bits are the same.
//! - Bit for bit asks all four numbers. "The rest" are the tuples without a NaN that are not
//!   restored; each of them takes part in all four coordinates, also where one is equal.
//! - So a coordinate in which all of the rest are equal has 0 at the first of them, and not at
//!   list 0, index 0. Smallest input: one list of two tuples, the first restored, the second
//!   changed in X alone: Y's largest is 0 at list 0, index 1.
//! - The difference is end less start, once rounded, its sign taken off. Between zeros of two
//!   signs it is 0 too; of an infinity and a number it is infinite.
//! - Lists and indices count from 0, as an empty rest has "list 0, index 0".
//! - Each list is run afresh, both ways: no state goes from one to the next or from the way there
//!   to the way back. Velocities and marks are lent for each list and serve both ways; so does a
//!   grid.
//! - The refusals of several lists stand in document 01's order of numbers first: 9 for any list,
//!   then 10 for any, then 17, 18. Smallest input: two lists, the first with marks of a wrong
//!   length, the second of five numbers: 9.
//! - No list at all is a report of zeros. The lists are not changed.
//! - The profile reads the own-epoch flag as it stands, also where a fixed sheet ignores it, and
//!   "dynamic" as document 01 has it, fixed sheets included. Smallest input: a Helmert step of dx
//!   1, t_epoch 2000 and t_obs 2001: offending without flag 8, passing with it.
//! - Kind 6 offends, and so does an exact flag without a rotation. An own ellipsoid doesn't.

use crate::chain::{Chain, Lent, run, test_list, test_velocities};
use crate::sheet::{self, Body, Record};
use crate::{In, Refusal, grid, steps};

/// One of the lists, with what is lent for it.
#[derive(Clone, Debug, Default)]
pub struct Listed {
    pub list: Vec<f64>,
    pub velocities: Vec<f64>,
    pub marks: Vec<u8>,
}

/// The largest difference of a coordinate.
#[derive(Clone, Copy, Debug, Default, PartialEq, Eq)]
pub struct Largest {
    pub bits: u64,
    pub list: u32,
    pub index: u32,
}

/// The report. Refused: zeros.
#[derive(Clone, Copy, Debug, Default, PartialEq, Eq)]
pub struct Report {
    pub refusal: u32,
    pub step: u32,
    pub seen: u64,
    pub with_nan: u64,
    pub restored: u64,
    pub largest: [Largest; 4],
}

/// The first offending step, from 1.
pub fn first_offence(record: &Record) -> Option<u32> {
    let offends = |body: &Body| match body {
        Body::Cart(_) => false,
        Body::Helmert(h) => {
            let own_epoch = h.flags & 8 != 0;
            h.flags & 1 != 0 || !own_epoch && steps::scaled(h).dynamic
        }
        _ => true,
    };
    record.live().iter().position(|step| offends(&step.body)).map(|at| at as u32 + 1)
}

/// A sheet by 1 to 8, by 25 where the profile is asked for, and by 11.
pub fn judge(inp: &In, sheet: &[u8], profile: bool) -> Result<Record, Refusal> {
    let record = sheet::read(inp, sheet)?;
    if let Some(step) = first_offence(&record).filter(|_| profile) {
        return Err(Refusal { number: 25, step });
    }
    sheet::second_deformation(&record)?;
    Ok(record)
}

pub fn report(
    inp: &In,
    sheet: &[u8],
    lists: &[Listed],
    grid: Option<&[u8]>,
    profile: bool,
) -> Report {
    accepted(inp, sheet, lists, grid, profile).unwrap_or_else(|refusal| Report {
        refusal: refusal.number,
        step: refusal.step,
        ..Report::default()
    })
}

fn accepted(
    inp: &In,
    sheet: &[u8],
    lists: &[Listed],
    grid: Option<&[u8]>,
    profile: bool,
) -> Result<Report, Refusal> {
    let record = judge(inp, sheet, profile)?;
    let grid = grid.filter(|_| inp.a1);
    for listed in lists {
        test_list(&listed.list)?;
    }
    for Listed { list, velocities, marks } in lists {
        test_velocities(&record, list.len() / 4, velocities, marks, grid.is_some())?;
    }
    let grid = grid.map(grid::check).transpose()?;
    let mut report = Report::default();
    for (number, listed) in lists.iter().enumerate() {
        let lent = match &grid {
            Some(grid) => Lent::Found(grid.clone()),
            None => Lent::Given { velocities: &listed.velocities, marks: &listed.marks },
        };
        let there = run(inp, &Chain::of(&record, false), &listed.list, &lent).list;
        let back = run(inp, &Chain::of(&record, true), &there, &lent).list;
        for (index, (start, end)) in listed.list.chunks(4).zip(back.chunks(4)).enumerate() {
            enter(&mut report, number as u32, index as u32, start, end);
        }
    }
    Ok(report)
}

/// One tuple, as it was given and as it came back.
fn enter(report: &mut Report, list: u32, index: u32, start: &[f64], end: &[f64]) {
    let earlier = report.seen - report.with_nan - report.restored;
    report.seen += 1;
    if start.iter().chain(end).any(|x| x.is_nan()) {
        report.with_nan += 1;
        return;
    }
    if start.iter().zip(end).all(|(a, b)| a.to_bits() == b.to_bits()) {
        report.restored += 1;
        return;
    }
    for (i, largest) in report.largest.iter_mut().enumerate() {
        let difference =
            if start[i].to_bits() == end[i].to_bits() { 0.0 } else { (end[i] - start[i]).abs() };
        if earlier == 0 || difference > f64::from_bits(largest.bits) {
            *largest = Largest { bits: difference.to_bits(), list, index };
        }
    }
}

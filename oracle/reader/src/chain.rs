//! A list through a sheet, with every refusal in order.
//!
//! Document 01: "A list holds 0 to 2,048 tuples." "A chain runs steps in order, inverse in
//! reverse with each turned round; it returns each step's count in sheet order, other places 0."
//! Refusals "9: list not of whole tuples, or over 2,048", "10: velocities or marks of wrong
//! length (both empty without kind 5), or a mark over 1". "Order: 1, 2, 3, 4; then step by step 5
//! to 8; then 11, 12, 9, 13, 10, 14, 15." "counts are zero, lent buffers hold what they held."
//!
//! Document 02, A1: "The place is that of the tuple as it reaches the step. A point outside, or
//! with a NaN place, is absent, mark 0. With a grid, 10 asks for empty velocities and marks."
//! "Refusals: 17, grid layout; 18, grid number not finite or spacing not positive; both after
//! 10."
//!
//! Readings
//! - Three velocities and one mark a tuple; with an empty list both are empty also under kind 5.
//! - A grid that is lent is tested whether or not the sheet has a deformation step. Smallest
//!   input: P1's sheet, an empty list and a grid of no bytes: 17.
//! - Without A1 no grid can be lent: `grid` is then not looked at.

use crate::grid::{self, Grid};
use crate::sheet::{self, Body, Record};
use crate::steps::{self, Ready, State, Tuple};
use crate::{In, Refusal, same_numbers};
use std::cell::RefCell;

/// What a run answers. Refused: the number and the step, zeros, the list as it was.
#[derive(Clone, Debug)]
pub struct Answer {
    pub refusal: u32,
    pub step: u32,
    pub counts: [u32; 16],
    /// A5: tuples that met an angle out of reach, step by step; zeros without A5.
    pub out_of_reach: [u32; 16],
    pub list: Vec<f64>,
}

impl Answer {
    pub fn refused(refusal: Refusal, list: &[f64]) -> Answer {
        Answer {
            refusal: refusal.number,
            step: refusal.step,
            counts: [0; 16],
            out_of_reach: [0; 16],
            list: list.to_vec(),
        }
    }

    /// Every number, and every bit of the list; all NaNs count as equal.
    pub fn same(&self, other: &Answer) -> bool {
        (self.refusal, self.step) == (other.refusal, other.step)
            && (self.counts, self.out_of_reach) == (other.counts, other.out_of_reach)
            && same_numbers(&self.list, &other.list)
    }
}

/// The velocities of a run: lent one a tuple, with marks, or found in a grid.
pub enum Lent<'a> {
    Given { velocities: &'a [f64], marks: &'a [u8] },
    Found(Grid),
}

/// For a run without deformation.
pub const NOTHING_LENT: Lent = Lent::Given { velocities: &[], marks: &[] };

impl Lent<'_> {
    /// The velocity of tuple i, which reaches the step at this place.
    pub fn velocity(&self, i: usize, longitude: f64, latitude: f64) -> Option<[f64; 3]> {
        match self {
            Lent::Given { velocities, marks } => {
                let v = &velocities[3 * i..3 * i + 3];
                (marks[i] == 1).then(|| [v[0], v[1], v[2]])
            }
            Lent::Found(grid) => grid::lookup(grid, longitude, latitude),
        }
    }
}

/// 9.
pub fn test_list(list: &[f64]) -> Result<(), Refusal> {
    if !list.len().is_multiple_of(4) || list.len() / 4 > 2048 {
        Err(Refusal::plain(9))
    } else {
        Ok(())
    }
}

fn has_deformation(record: &Record) -> bool {
    record.live().iter().any(|step| matches!(step.body, Body::Deformation(_)))
}

/// 10.
pub fn test_velocities(
    record: &Record,
    tuples: usize,
    velocities: &[f64],
    marks: &[u8],
    with_grid: bool,
) -> Result<(), Refusal> {
    let asked = if has_deformation(record) && !with_grid { tuples } else { 0 };
    let lengths = velocities.len() == 3 * asked && marks.len() == asked;
    if !lengths || marks.iter().any(|mark| *mark > 1) {
        return Err(Refusal::plain(10));
    }
    Ok(())
}

/// 10, then 17 and 18.
pub fn test_lent<'a>(
    inp: &In,
    record: &Record,
    tuples: usize,
    velocities: &'a [f64],
    marks: &'a [u8],
    grid: Option<&[u8]>,
) -> Result<Lent<'a>, Refusal> {
    let grid = grid.filter(|_| inp.a1);
    test_velocities(record, tuples, velocities, marks, grid.is_some())?;
    Ok(match grid {
        Some(bytes) => Lent::Found(grid::check(bytes)?),
        None => Lent::Given { velocities, marks },
    })
}

pub fn tuple_of(list: &[f64], i: usize) -> Tuple {
    list[4 * i..4 * i + 4].try_into().unwrap()
}

/// An accepted sheet made ready, in a direction.
pub struct Chain {
    pub steps: Vec<Ready>,
    /// The places of the steps in the order in which they run, each with its direction.
    order: Vec<(usize, bool)>,
}

/// A tuple through a chain: what it became, and the places of the steps that counted it and that
/// met an angle out of reach.
pub struct Through {
    pub tuple: Tuple,
    pub counted: [bool; 16],
    pub out_of_reach: [bool; 16],
}

impl Chain {
    pub fn of(record: &Record, inverse: bool) -> Chain {
        let turned = |i: usize| (record.steps[i].inverted == 1) != inverse;
        let mut order: Vec<(usize, bool)> =
            (0..record.count as usize).map(|i| (i, turned(i))).collect();
        if inverse {
            order.reverse();
        }
        Chain { steps: steps::ready(record), order }
    }

    /// The state of each step before the first fix, in sheet order.
    pub fn start(&self) -> Vec<State> {
        self.steps.iter().map(Ready::start).collect()
    }

    /// Tuple i through all steps. The states, in sheet order, are those before it; they leave as
    /// those after it.
    pub fn one(
        &self,
        inp: &In,
        states: &mut [State],
        i: usize,
        tuple: Tuple,
        lent: &Lent,
    ) -> Through {
        let mut through = Through { tuple, counted: [false; 16], out_of_reach: [false; 16] };
        for (at, inverse) in &self.order {
            let velocity = |longitude, latitude| lent.velocity(i, longitude, latitude);
            let step = &self.steps[*at];
            let done = step.one(inp, *inverse, &mut states[*at], through.tuple, &velocity);
            through.tuple = done.tuple;
            through.counted[*at] = done.counted;
            through.out_of_reach[*at] = done.out_of_reach;
        }
        through
    }
}

/// The place, longitude and latitude, at which each tuple reaches the deformation step. Empty
/// where the chain has none.
pub fn places(inp: &In, chain: &Chain, list: &[f64]) -> Vec<(f64, f64)> {
    let found = RefCell::new(Vec::new());
    let mut states = chain.start();
    for i in 0..list.len() / 4 {
        let mut tuple = tuple_of(list, i);
        for (at, inverse) in &chain.order {
            let velocity = |longitude, latitude| {
                found.borrow_mut().push((longitude, latitude));
                None
            };
            tuple = chain.steps[*at].one(inp, *inverse, &mut states[*at], tuple, &velocity).tuple;
        }
    }
    found.into_inner()
}

/// Adds one where it is true.
pub fn tally(counts: &mut [u32; 16], met: &[bool; 16]) {
    for (count, met) in counts.iter_mut().zip(met) {
        *count += *met as u32;
    }
}

/// A list through a sheet.
pub fn shift(
    inp: &In,
    inverse: bool,
    sheet: &[u8],
    list: &[f64],
    velocities: &[f64],
    marks: &[u8],
    grid: Option<&[u8]>,
) -> Answer {
    accepted(inp, inverse, sheet, list, velocities, marks, grid)
        .unwrap_or_else(|refusal| Answer::refused(refusal, list))
}

fn accepted(
    inp: &In,
    inverse: bool,
    sheet: &[u8],
    list: &[f64],
    velocities: &[f64],
    marks: &[u8],
    grid: Option<&[u8]>,
) -> Result<Answer, Refusal> {
    let record = sheet::check(inp, sheet)?;
    test_list(list)?;
    let lent = test_lent(inp, &record, list.len() / 4, velocities, marks, grid)?;
    Ok(run(inp, &Chain::of(&record, inverse), list, &lent))
}

/// Runs what was accepted.
pub fn run(inp: &In, chain: &Chain, list: &[f64], lent: &Lent) -> Answer {
    let mut answer = Answer::refused(Refusal::plain(0), list);
    let mut states = chain.start();
    for i in 0..list.len() / 4 {
        let through = chain.one(inp, &mut states, i, tuple_of(list, i), lent);
        answer.list[4 * i..4 * i + 4].copy_from_slice(&through.tuple);
        tally(&mut answer.counts, &through.counted);
        tally(&mut answer.out_of_reach, &through.out_of_reach);
    }
    answer
}

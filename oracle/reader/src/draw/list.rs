//! Lists with their sheets, velocities and marks: the input of `chain::shift`.

use super::grid;
use super::numbers::{cartesian, geographic, marks, time, velocities};
use super::sheet::{self, Drawn, Space};
use crate::In;
use crate::chain::{Chain, places};
use crate::random::Random;
use crate::sheet::{Body, Record, Step, bytes_untested, check};

/// An input of `chain::shift`.
#[derive(Clone, Debug)]
pub struct Shift {
    pub inverse: bool,
    pub sheet: Vec<u8>,
    pub list: Vec<f64>,
    pub velocities: Vec<f64>,
    pub marks: Vec<u8>,
    pub grid: Option<Vec<u8>>,
}

/// Mostly short, so that many sheets are met; sometimes at the limits.
pub fn length(r: &mut Random) -> usize {
    match r.below(64) {
        0 => 0,
        1 => 16,
        2 => 17,
        3 => 2048,
        4 => 100 + r.below(400) as usize,
        5..=24 => 1,
        _ => 1 + r.below(12) as usize,
    }
}

/// A list of tuples for the space.
pub fn draw_list(r: &mut Random, tuples: usize, space: Space, epoch: f64) -> Vec<f64> {
    let odd = r.once_in(3);
    let mut t = 2010.0;
    let mut list = Vec::with_capacity(4 * tuples);
    for _ in 0..tuples {
        t = time(r, t, epoch, odd);
        list.extend(if space == Space::Geographic { geographic(r) } else { cartesian(r) });
        list.push(t);
    }
    if r.once_in(10) && tuples > 0 {
        let at = r.below(list.len() as u64) as usize;
        list[at] = r.wild();
    }
    list
}

/// The first epoch in a record, so that some tuples are taken at it.
pub fn an_epoch(record: &Record) -> f64 {
    let epochs = record.steps.iter().map(|step| match &step.body {
        Body::Helmert(h) => h.t_epoch,
        Body::Deformation(d) => d.t_epoch,
        _ => f64::NAN,
    });
    epochs.into_iter().find(|x| !x.is_nan()).unwrap_or(f64::NAN)
}

pub fn has_deformation(record: &Record) -> bool {
    let live = record.steps.iter().take(record.count.min(16) as usize);
    live.into_iter().any(|step| matches!(step.body, Body::Deformation(_)))
}

/// A list for a record that was drawn, in a direction.
pub fn list_for(r: &mut Random, drawn: &Drawn, inverse: bool, tuples: usize) -> Vec<f64> {
    let space = if inverse { drawn.after } else { drawn.before };
    draw_list(r, tuples, space, an_epoch(&drawn.record))
}

/// Good nearly three times in four; else the sheet is spoiled or damaged, the list is not whole
/// or too long, or velocities and marks are of a wrong length or value.
pub fn draw_shift(r: &mut Random, inp: &In) -> Shift {
    let drawn = sheet::draw_record(r, inp);
    let inverse = r.once_in(2);
    let tuples = if r.once_in(60) { 2049 } else { length(r) };
    let list = list_for(r, &drawn, inverse, tuples);
    let lent = if has_deformation(&drawn.record) { tuples } else { 0 };
    let mut shift = Shift {
        inverse,
        sheet: bytes_untested(&drawn.record),
        list,
        velocities: velocities(r, lent),
        marks: marks(r, lent),
        grid: None,
    };
    if inp.a1 && r.once_in(if lent > 0 { 2 } else { 20 }) {
        lend_grid(r, inp, &mut shift);
    }
    if r.once_in(4) {
        spoil_shift(r, inp, &mut shift, &drawn.record);
    }
    shift
}

/// One step of a kind from 1 to 6 with a list of its space; nearly always accepted.
pub fn draw_step(r: &mut Random, inp: &In, kind: u32) -> Shift {
    let body = sheet::body_of_kind(r, inp, 0, kind);
    let record = Record::of(&[Step { inverted: r.once_in(2) as u32, body }]);
    let inverse = r.once_in(2);
    let turned = inverse != (record.steps[0].inverted == 1);
    let space = match kind {
        2 if !turned => Space::Geographic,
        3 | 4 => Space::Geographic,
        _ => Space::Cartesian,
    };
    let tuples = length(r);
    let list = draw_list(r, tuples, space, an_epoch(&record));
    let lent = if kind == 5 { tuples } else { 0 };
    Shift {
        inverse,
        sheet: bytes_untested(&record),
        list,
        velocities: velocities(r, lent),
        marks: marks(r, lent),
        grid: None,
    }
}

/// A grid in place of velocities and marks, mostly laid around a place of the list.
fn lend_grid(r: &mut Random, inp: &In, shift: &mut Shift) {
    shift.velocities.clear();
    shift.marks.clear();
    shift.grid = Some(grid_for(r, inp, shift.inverse, &shift.sheet, &shift.list));
}

/// The bytes of a grid, mostly laid around a place at which the list reaches the deformation
/// step.
pub fn grid_for(r: &mut Random, inp: &In, inverse: bool, sheet: &[u8], list: &[f64]) -> Vec<u8> {
    let places = match check(inp, sheet) {
        Ok(record) => places(inp, &Chain::of(&record, inverse), list),
        Err(_) => vec![],
    };
    let mut bytes = if places.is_empty() || r.once_in(12) {
        grid::draw_grid(r).bytes()
    } else {
        let (longitude, latitude) = r.pick(&places);
        grid::draw_grid_around(r, longitude, latitude).bytes()
    };
    if r.once_in(12) {
        grid::spoil_grid(r, &mut bytes);
    }
    bytes
}

fn spoil_shift(r: &mut Random, inp: &In, shift: &mut Shift, record: &Record) {
    for _ in 0..1 + r.below(2) {
        match r.below(9) {
            8 => {
                if let Some(bytes) = &mut shift.grid {
                    grid::spoil_grid(r, bytes);
                }
            }
            0 | 1 => {
                let mut record = record.clone();
                sheet::spoil_record(r, inp, &mut record);
                shift.sheet = sheet::spoiled_bytes(&record);
            }
            2 => sheet::damage(r, &mut shift.sheet),
            3 => {
                let more = 1 + r.below(3) as usize;
                shift.list.resize(shift.list.len() + more, 1.0);
            }
            4 => {
                shift.list.pop();
            }
            5 => spoil_velocities(r, shift),
            6 => spoil_marks(r, shift),
            _ => shift.list.resize(r.pick(&[4 * 2048, 4 * 2049, 4 * 2049 - 1]), 1.0),
        }
    }
}

fn spoil_velocities(r: &mut Random, shift: &mut Shift) {
    match r.below(3) {
        0 => shift.velocities.push(0.0),
        1 => {
            shift.velocities.pop();
        }
        _ => shift.velocities.clear(),
    }
}

fn spoil_marks(r: &mut Random, shift: &mut Shift) {
    match r.below(4) {
        0 => shift.marks.push(1),
        1 => {
            shift.marks.pop();
        }
        2 => shift.marks.clear(),
        _ => {
            if !shift.marks.is_empty() {
                let at = r.below(shift.marks.len() as u64) as usize;
                shift.marks[at] = r.pick(&[2, 3, 128, 255]);
            }
        }
    }
}

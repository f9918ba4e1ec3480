//! Kept runs with corrections.

use super::list::{an_epoch, draw_list, grid_for, has_deformation, length, list_for};
use super::numbers::{cartesian, geographic, marks, time, velocities};
use super::sheet::{self, Space, draw_record_of, helmert_of, spoil_body};
use crate::In;
use crate::kept::{Given, Layout, Memory, keep, keep_chain};
use crate::random::Random;
use crate::sheet::{Body, Record, Step, bytes_untested};
use crate::steps::Mode::{Fixed, OwnEpoch, Running, Static};

/// An input of `kept::keep`, with the memory of `kept::correct` and a row of corrections. The
/// memory mostly holds a fresh run; where it doesn't, `fresh` is false.
#[derive(Clone, Debug)]
pub struct KeptRun {
    pub inverse: bool,
    pub sheet: Vec<u8>,
    pub memory: Memory,
    pub fresh: bool,
    pub corrections: Vec<(u64, [f64; 4])>,
}

/// One Helmert step, mostly in running mode, or one of kind 6.
pub fn one_step(r: &mut Random, inp: &In) -> Record {
    let body = if inp.a4 && r.once_in(6) {
        Body::Badekas(sheet::badekas(r))
    } else {
        let mode = r.pick(&[Running, Running, Running, Running, Static, Fixed, OwnEpoch]);
        Body::Helmert(helmert_of(r, inp, mode))
    };
    Record::of(&[Step { inverted: r.once_in(4) as u32, body }])
}

pub fn draw_kept(r: &mut Random, inp: &In) -> KeptRun {
    let mut record = one_step(r, inp);
    let epoch = an_epoch(&record);
    let fixes = if r.once_in(6) { 30 + r.below(200) as usize } else { length(r) };
    let list = draw_list(r, fixes, Space::Cartesian, epoch);
    let inverse = r.once_in(2);
    let sheet = bytes_untested(&record);
    let stale: Vec<f64> = (0..4 * fixes).map(|_| r.between(-9.0, 9.0)).collect();
    let memory = Memory { list, results: stale.clone(), track: stale, words: vec![] };
    let mut run = KeptRun { inverse, sheet, memory, fresh: !r.once_in(10), corrections: vec![] };
    if run.fresh {
        run.memory = keep(inp, inverse, &run.sheet, &run.memory).memory;
    }
    for _ in 0..1 + r.below(4) {
        let correction = correction(r, &run.memory.list, epoch);
        run.corrections.push(correction);
    }
    if r.once_in(8) {
        if r.once_in(2) {
            spoil_memory(r, &mut run.memory);
        } else {
            match r.below(4) {
                0 => sheet::damage(r, &mut run.sheet),
                1 => {
                    run.sheet = bytes_untested(&sheet::draw_record(r, inp).record);
                }
                _ => {
                    spoil_body(r, &mut record.steps[0].body, 0);
                    run.sheet = bytes_untested(&record);
                }
            }
        }
    }
    run
}

/// The index is mostly below the count. The new fix is mostly retimed to the time before it, the
/// time after it, its own or another: so stretches of every length are met.
pub fn correction(r: &mut Random, list: &[f64], epoch: f64) -> (u64, [f64; 4]) {
    let fixes = list.len() as u64 / 4;
    let index = match r.below(12) {
        0 => fixes,
        1 => r.pick(&[fixes + 1, u32::MAX as u64, 1 << 32, u64::MAX]),
        2 => 0,
        3 => fixes.saturating_sub(1),
        _ => r.below(fixes.max(1)),
    };
    (index, new_fix(r, list, index, epoch, Space::Cartesian))
}

/// A new fix for the place.
pub fn new_fix(r: &mut Random, list: &[f64], index: u64, epoch: f64, space: Space) -> [f64; 4] {
    let fixes = list.len() as u64 / 4;
    let at = index.min(fixes.saturating_sub(1)) as usize;
    let old = list.get(4 * at..4 * at + 4).map_or([0.0; 4], |fix| fix.try_into().unwrap());
    let time_of = |i: usize| list.get(4 * i + 3).copied().unwrap_or(2010.0);
    let t = match r.below(8) {
        0 | 1 => old[3],
        2 => time_of(at.saturating_sub(1)),
        3 => time_of(at + 1),
        4 => -old[3],
        5 => r.nan(),
        _ => time(r, old[3], epoch, true),
    };
    let place = match r.below(2) {
        0 => [old[0], old[1], old[2]],
        _ if space == Space::Geographic => geographic(r),
        _ => cartesian(r),
    };
    [place[0], place[1], place[2], t]
}

/// Lengths out of rule, or a number of the track changed.
pub fn spoil_memory(r: &mut Random, memory: &mut Memory) {
    match r.below(6) {
        0 => memory.list.push(1.0),
        1 => memory.results.push(1.0),
        2 => memory.track.push(1.0),
        3 => {
            memory.results.pop();
        }
        4 => {
            memory.track.pop();
        }
        _ => {
            if !memory.track.is_empty() {
                let at = r.below(memory.track.len() as u64) as usize;
                memory.track[at] = r.wild();
            }
        }
    }
}

// ----- Through a chain -------------------------------------------------------------------------

/// An input of `kept::keep_chain` and of `kept::correct_chain`. The memory mostly holds a fresh
/// run.
#[derive(Clone, Debug)]
pub struct KeptChain {
    pub inverse: bool,
    pub sheet: Vec<u8>,
    pub velocities: Vec<f64>,
    pub marks: Vec<u8>,
    pub grid: Option<Vec<u8>>,
    pub layout: Layout,
    pub memory: Memory,
    pub fresh: bool,
    /// The correction: its indices, its fixes, and the velocities and marks that it is lent.
    /// While `premise` is true these part from the run's only at the indices.
    pub indices: Vec<u64>,
    pub fixes: Vec<f64>,
    pub new_velocities: Vec<f64>,
    pub new_marks: Vec<u8>,
    pub premise: bool,
}

impl KeptChain {
    /// As the run was given.
    pub fn given(&self) -> Given<'_> {
        Given {
            inverse: self.inverse,
            sheet: &self.sheet,
            velocities: &self.velocities,
            marks: &self.marks,
            grid: self.grid.as_deref(),
            layout: self.layout,
        }
    }

    /// As the correction is given.
    pub fn given_anew(&self) -> Given<'_> {
        Given { velocities: &self.new_velocities, marks: &self.new_marks, ..self.given() }
    }
}

pub fn draw_kept_chain(r: &mut Random, inp: &In, layout: Layout) -> KeptChain {
    let count = r.pick(&[1, 1, 2, 2, 3, 3, 4, 5, 8, 16]);
    let mut drawn = draw_record_of(r, inp, count);
    for step in &mut drawn.record.steps {
        if let Body::Deformation(d) = &mut step.body
            && !r.once_in(30)
        {
            d.flags &= 2;
        }
    }
    let inverse = r.once_in(2);
    let fixes = match r.below(6) {
        0 => length(r).min(200),
        1 => 30 + r.below(60) as usize,
        _ => 1 + r.below(12) as usize,
    };
    let list = list_for(r, &drawn, inverse, fixes);
    let sheet = bytes_untested(&drawn.record);
    let lent = if has_deformation(&drawn.record) { fixes } else { 0 };
    let (mut velocities, mut marks) = (velocities(r, lent), marks(r, lent));
    let mut grid = None;
    if inp.a1 && lent > 0 && r.once_in(2) {
        grid = Some(grid_for(r, inp, inverse, &sheet, &list));
        velocities.clear();
        marks.clear();
    }
    let memory = Memory {
        list,
        results: vec![1.5; 4 * fixes],
        track: vec![2.5; 4 * fixes * count],
        words: vec![u32::MAX; fixes],
    };
    let mut run = KeptChain {
        inverse,
        sheet,
        new_velocities: velocities.clone(),
        new_marks: marks.clone(),
        velocities,
        marks,
        grid,
        layout,
        memory,
        fresh: !r.once_in(12),
        indices: vec![],
        fixes: vec![],
        premise: true,
    };
    if run.fresh {
        run.memory = keep_chain(inp, &run.given(), &run.memory).memory;
    }
    let space = if inverse { drawn.after } else { drawn.before };
    draw_correction(r, &mut run, an_epoch(&drawn.record), space);
    if r.once_in(8) {
        spoil_chain(r, &mut run);
    }
    run
}

/// Indices in rising order, with new fixes and, at them, new velocities and marks.
fn draw_correction(r: &mut Random, run: &mut KeptChain, epoch: f64, space: Space) {
    let fixes = run.memory.list.len() as u64 / 4;
    let often = r.pick(&[1, 2, 4, 20, 200]);
    run.indices = (0..fixes).filter(|_| r.once_in(often)).collect();
    if run.indices.is_empty() && fixes > 0 && !r.once_in(8) {
        run.indices.push(r.below(fixes));
    }
    let found = run.marks.is_empty();
    for index in run.indices.clone() {
        run.fixes.extend(new_fix(r, &run.memory.list, index, epoch, space));
        if !found && r.once_in(2) {
            let at = index as usize;
            run.new_marks[at] = r.below(2) as u8;
            run.new_velocities[3 * at] = r.between(-80.0, 80.0);
        }
    }
    if !found && fixes > 0 && r.once_in(12) {
        let at = r.below(fixes) as usize;
        run.new_marks[at] ^= 1;
        run.premise = run.indices.contains(&(at as u64));
    }
}

fn spoil_chain(r: &mut Random, run: &mut KeptChain) {
    let fixes = run.memory.list.len() as u64 / 4;
    run.premise = false;
    match r.below(12) {
        0 => run.indices.push(r.pick(&[fixes, fixes + 1, u32::MAX as u64])),
        1 => run.indices.reverse(),
        2 => {
            if let Some(first) = run.indices.first() {
                run.indices.insert(0, *first);
            }
        }
        3 => run.fixes.push(0.0),
        4 => {
            run.fixes.pop();
        }
        5 => {
            run.memory.words.pop();
        }
        6 => run.memory.words.push(0),
        7 => sheet::damage(r, &mut run.sheet),
        8 => {
            run.new_marks.push(1);
        }
        9 if !run.memory.words.is_empty() => {
            let at = r.below(run.memory.words.len() as u64) as usize;
            run.memory.words[at] = r.bits() as u32;
        }
        _ => spoil_memory(r, &mut run.memory),
    }
}

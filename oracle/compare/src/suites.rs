//! What is compared: each step in each of its modes, and chains of steps.
use crate::draw::{self, Mode};
use crate::random::Random;
use job::{Body, Job, Step};

pub struct Suite {
    pub name: &'static str,
    draw: fn(&mut Random, bool, usize) -> Job,
}

impl Suite {
    /// A job of n tuples.
    pub fn job(&self, r: &mut Random, inverse: bool, n: usize) -> Job {
        (self.draw)(r, inverse, n)
    }
}

pub const SUITES: [Suite; 12] = [
    Suite { name: "cart", draw: cart },
    Suite { name: "permtide", draw: permtide },
    Suite { name: "molodensky full", draw: |r, inverse, n| molodensky(r, inverse, n, false) },
    Suite { name: "molodensky abridged", draw: |r, inverse, n| molodensky(r, inverse, n, true) },
    Suite { name: "helmert static", draw: |r, inverse, n| helmert(r, inverse, n, Mode::Static) },
    Suite { name: "helmert fixed", draw: |r, inverse, n| helmert(r, inverse, n, Mode::Fixed) },
    Suite { name: "helmert running", draw: |r, inverse, n| helmert(r, inverse, n, Mode::Running) },
    Suite { name: "helmert own-epoch", draw: |r, inverse, n| helmert(r, inverse, n, Mode::OwnEpoch) },
    Suite { name: "deformation", draw: |r, inverse, n| deformation(r, inverse, n, false) },
    Suite { name: "deformation raw", draw: |r, inverse, n| deformation(r, inverse, n, true) },
    Suite { name: "chain", draw: chain },
    Suite { name: "chain of published shifts", draw: published_chain },
];

/// Suites beside those that the stored vectors are drawn from.
pub const FURTHER: [Suite; 5] = [
    Suite { name: "helmert small angles", draw: small_angles },
    Suite { name: "permtide at the edges", draw: tides },
    Suite { name: "deformation by the comment", draw: by_the_comment },
    Suite { name: "helmert missing times", draw: missing_times },
    Suite { name: "badekas", draw: badekas },
];

/// One step, asked for in a direction: by the call alone, or turned in the sheet.
fn one(r: &mut Random, inverse: bool, body: Body, list: Vec<f64>) -> Job {
    let inverted = r.once_in(4);
    let steps = vec![Step { inverted, body }];
    lend(r, Job { inverse: inverse != inverted, steps, list, velocities: vec![], marks: vec![] })
}

/// Velocities and marks where a deformation step asks for them.
fn lend(r: &mut Random, mut job: Job) -> Job {
    if job.steps.iter().any(|s| matches!(s.body, Body::Deformation { .. })) {
        let n = job.list.len() / 4;
        job.velocities = draw::velocities(r, n);
        job.marks = draw::marks(r, n);
    }
    job
}

fn cart(r: &mut Random, inverse: bool, n: usize) -> Job {
    let ellipsoid = draw::ellipsoid(r);
    let list = if inverse {
        draw::list(r, n, 2000.0, draw::cartesian)
    } else {
        draw::list(r, n, 2000.0, |r| draw::geographic(r, ellipsoid))
    };
    one(r, inverse, Body::Cart { ellipsoid }, list)
}

fn permtide(r: &mut Random, inverse: bool, n: usize) -> Job {
    let list = draw::list(r, n, 2000.0, |r| draw::geographic(r, 1));
    let body = draw::permtide(r);
    one(r, inverse, body, list)
}

fn molodensky(r: &mut Random, inverse: bool, n: usize, abridged: bool) -> Job {
    let body = draw::molodensky(r, abridged);
    let Body::Molodensky { first, .. } = body else { unreachable!() };
    let list = draw::list(r, n, 2000.0, |r| draw::geographic(r, first));
    one(r, inverse, body, list)
}

fn helmert(r: &mut Random, inverse: bool, n: usize, mode: Mode) -> Job {
    let h = draw::helmert(r, mode);
    let list = draw::list(r, n, h.t_epoch, draw::cartesian);
    one(r, inverse, Body::Helmert(h), list)
}

/// Every class of angle in both small-angle matrices.
fn small_angles(r: &mut Random, inverse: bool, n: usize) -> Job {
    let h = draw::turning(r);
    let list = draw::turned_list(r, n);
    one(r, inverse, Body::Helmert(h), list)
}

/// Missing times in own-epoch mode, exact or by small angles; and on a fixed sheet with the same flag, which asks for no time.
pub fn missing_times(r: &mut Random, inverse: bool, n: usize) -> Job {
    let mode = if r.once_in(4) { Mode::Fixed } else { Mode::OwnEpoch };
    let mut h = draw::helmert(r, mode);
    h.flags |= 8;
    let list = draw::untimed_list(r, n, h.t_epoch);
    one(r, inverse, Body::Helmert(h), list)
}

/// Every pair of codes with every kind of k.
fn tides(r: &mut Random, inverse: bool, n: usize) -> Job {
    let list = draw::list(r, n, 2000.0, |r| draw::geographic(r, 1));
    let body = draw::edge_permtide(r);
    one(r, inverse, body, list)
}

/// Flag 2, with and without raw, alone or between steps of cart.
fn by_the_comment(r: &mut Random, inverse: bool, n: usize) -> Job {
    let raw = r.once_in(2);
    let Body::Deformation { flags, ellipsoid, dt, t_epoch } = draw::deformation(r, raw) else { unreachable!() };
    let list = draw::list(r, n, t_epoch, draw::cartesian);
    one(r, inverse, Body::Deformation { flags: flags + 2, ellipsoid, dt, t_epoch }, list)
}

/// Kind 6. Now and then a fix is the pivot itself, or three zeros of either sign.
fn badekas(r: &mut Random, inverse: bool, n: usize) -> Job {
    let body = draw::badekas(r);
    let Body::Badekas { pivot, .. } = body else { unreachable!() };
    let mut list = draw::list(r, n, 2000.0, draw::cartesian);
    for tuple in list.chunks_exact_mut(4) {
        if r.once_in(50) {
            tuple[..3].copy_from_slice(&pivot);
        } else if r.once_in(50) {
            tuple[..3].fill_with(|| r.sign(0.0));
        }
    }
    one(r, inverse, body, list)
}

fn deformation(r: &mut Random, inverse: bool, n: usize, raw: bool) -> Job {
    let body = draw::deformation(r, raw);
    let Body::Deformation { t_epoch, .. } = body else { unreachable!() };
    let list = draw::list(r, n, t_epoch, draw::cartesian);
    one(r, inverse, body, list)
}

/// Any steps in any order, at most one of them deformation; mostly a few, now and then sixteen.
fn chain(r: &mut Random, inverse: bool, n: usize) -> Job {
    let length = if r.once_in(20) { 16 } else { 2 + r.below(4) as usize };
    let mut deformed = false;
    let steps = (0..length).map(|_| any_step(r, &mut deformed)).collect();
    let geographic = r.once_in(2);
    let list = draw::list(r, n, 2000.0, |r| if geographic { draw::geographic(r, 1) } else { draw::cartesian(r) });
    lend(r, Job { inverse, steps, list, velocities: vec![], marks: vec![] })
}

fn any_step(r: &mut Random, deformed: &mut bool) -> Step {
    let inverted = r.once_in(3);
    let body = match r.below(if *deformed { 4 } else { 5 }) {
        0 => Body::Cart { ellipsoid: draw::ellipsoid(r) },
        1 => draw::permtide(r),
        2 => {
            let abridged = r.once_in(2);
            draw::molodensky(r, abridged)
        }
        3 => {
            let mode = r.pick(&[Mode::Static, Mode::Fixed, Mode::Running, Mode::OwnEpoch]);
            Body::Helmert(draw::helmert(r, mode))
        }
        _ => {
            *deformed = true;
            let raw = r.once_in(3);
            draw::deformation(r, raw)
        }
    };
    Step { inverted, body }
}

/// As in use: geographic to cartesian, a published shift, and back to geographic; from the other end where asked for inverse.
fn published_chain(r: &mut Random, inverse: bool, n: usize) -> Job {
    let all = job::published_shifts::frames().into_iter().chain(job::published_shifts::datums());
    let all: Vec<_> = all.collect();
    let mut body = all[r.below(all.len() as u64) as usize].body.clone();
    if let Body::Helmert(h) = &mut body {
        h.flags |= 8 * r.below(2) as u32;
    }
    let steps = vec![
        Step { inverted: false, body: Body::Cart { ellipsoid: draw::ellipsoid(r) } },
        Step { inverted: r.once_in(2), body },
        Step { inverted: true, body: Body::Cart { ellipsoid: draw::ellipsoid(r) } },
    ];
    let list = draw::list(r, n, 2010.0, |r| draw::geographic(r, 1));
    Job { inverse, steps, list, velocities: vec![], marks: vec![] }
}

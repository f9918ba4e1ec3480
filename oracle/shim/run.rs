//! Runs a job through the published operators: each step of the sheet by its file, one after another, by document 01's chain.
use crate::authoring::*;
use crate::kernel;
use job::{Answer, Body, Helmert, Job, Step};

/// What the Rust answers, and how many tuples were brought to the one listed difference.
pub struct Ran {
    pub answer: Answer,
    pub nan_z_on_the_axis: usize,
}

/// As document 01 reads the Rust: with the listed difference.
pub fn run(job: &Job) -> Ran {
    steps(job, true)
}

/// As the Rust is, without the listed difference.
#[allow(dead_code)]
pub fn as_published(job: &Job) -> Answer {
    steps(job, false).answer
}

fn steps(job: &Job, listed: bool) -> Ran {
    let mut ops = Vec::new();
    for (i, step) in job.steps.iter().enumerate() {
        match operator(&step.body, job) {
            Ok(op) => ops.push(op),
            Err(e) => return Ran { answer: Answer::refused(job, number(&e), i as u32 + 1), nan_z_on_the_axis: 0 },
        }
    }
    let mut ran = Ran { answer: Answer::start(job), nan_z_on_the_axis: 0 };
    let mut order: Vec<usize> = (0..ops.len()).collect();
    if job.inverse {
        order.reverse();
    }
    for i in order {
        let turned = job.steps[i].inverted != job.inverse;
        let turned = turned != by_the_comment(&job.steps[i]);
        let before = ran.answer.list.clone();
        ran.answer.counts[i] = apply(&ops[i], &job.steps[i], turned, job, &mut ran.answer.list) as u32;
        if !listed {
            continue;
        }
        ran.nan_z_on_the_axis += nan_z_on_the_axis(&ops[i], &job.steps[i], turned, job, &before, &mut ran.answer.list);
    }
    ran
}

/// What is seen of a step at one tuple: before its operator is made, after it is, and after it was
/// applied. `listed` tells the one listed difference: the Rust took a latitude where ours is NaN.
#[allow(dead_code)]
pub trait Watch {
    fn begun(&mut self);
    fn made(&mut self);
    fn applied(&mut self, step: usize, kind: &Body, counted: bool, listed: bool);
}

/// The chain once more, watched a tuple at a time: each step's operator is made anew for every tuple
/// of the list that reaches the step, and applied to it as a list of its own. In running mode such a
/// list uses the matrix at its own time, as the whole list does, whose last time is then that one.
#[allow(dead_code)]
pub fn watched(job: &Job, watch: &mut impl Watch) {
    if run(job).answer.refusal != 0 {
        return;
    }
    let mut order: Vec<usize> = (0..job.steps.len()).collect();
    if job.inverse {
        order.reverse();
    }
    let mut list = job.list.clone();
    for i in order {
        let step = &job.steps[i];
        let turned = (step.inverted != job.inverse) != by_the_comment(step);
        for (k, tuple) in list.chunks_exact(4).enumerate() {
            let lent = |n: usize, all: usize| if all == 0 { 0..0 } else { n * k..n * (k + 1) };
            let alone = Job {
                steps: vec![],
                list: tuple.to_vec(),
                velocities: job.velocities[lent(3, job.velocities.len())].to_vec(),
                marks: job.marks[lent(1, job.marks.len())].to_vec(),
                ..job.clone()
            };
            watch.begun();
            let op = operator(&step.body, &alone).expect("made before");
            watch.made();
            let mut after = tuple.to_vec();
            let counted = apply(&op, step, turned, &alone, &mut after);
            let listed = nan_z_on_the_axis(&op, step, turned, &alone, tuple, &mut after);
            watch.applied(i, &step.body, counted == 1, listed == 1);
        }
        let alone = Job { inverse: job.inverse, steps: vec![job.steps[i].clone()], list, ..job.clone() };
        list = run(&alone).answer.list;
    }
}

/// Whether a step has deformation's flag 2, with which the Rust is run the other way round.
fn by_the_comment(step: &Step) -> bool {
    matches!(step.body, Body::Deformation { flags, .. } if flags & 2 != 0)
}

/// The number of document 01 for a refusal by the Rust's `new`.
fn number(e: &Error) -> u32 {
    match e {
        Error::BadParam(what, _) if what == "convention" => 6,
        Error::MissingParam(what) if what == "t_epoch" => 7,
        Error::MissingParam(what) if what == "- either t_epoch or dt must be given" => 8,
        Error::BadParam(what, _) if what == "'to=' or 'from='" => 5,
        other => panic!("no number for {other:?}"),
    }
}

// ----- One step ----------------------------------------------------------------------

fn apply(op: &Op, step: &Step, inverse: bool, job: &Job, list: &mut [f64]) -> usize {
    if let Body::Helmert(h) = &step.body
        && h.flags & 8 != 0
        && op.params.boolean("dynamic")
        && !op.params.boolean("fixed_time")
    {
        return own_epoch(op, inverse, list);
    }
    if let Body::Badekas { flags, translation, pivot, .. } = step.body {
        let metres = if flags & 4 != 0 { 0.001 } else { 1.0 };
        return about_the_pivot(op, translation.map(|t| metres * t), pivot, inverse, list);
    }
    op.apply(&Lent::new(&job.velocities, &job.marks), &mut Flat(list), inverse)
}

/// Kind 6, which the crate does not have: its static Helmert with the pivot for a translation, between one difference and one
/// sum on each axis. Forward the pivot goes off before and the translation comes on after; inverse the other way round.
fn about_the_pivot(op: &Op, translation: [f64; 3], pivot: [f64; 3], inverse: bool, list: &mut [f64]) -> usize {
    let (off, on) = if inverse { (translation, pivot) } else { (pivot, translation) };
    for tuple in list.chunks_exact_mut(4) {
        (0..3).for_each(|axis| tuple[axis] -= off[axis]);
    }
    let count = op.apply(&Lent::new(&[], &[]), &mut Flat(list), inverse);
    for tuple in list.chunks_exact_mut(4) {
        (0..3).for_each(|axis| tuple[axis] += on[axis]);
    }
    count
}

/// Own-epoch mode, which the crate does not have: each tuple as a list of its own, where T grows once from the sheet's. A NaN
/// time makes that T NaN, so the crate's own arithmetic loses the fix; what is ours is that it is not counted (document 02, A3).
fn own_epoch(op: &Op, inverse: bool, list: &mut [f64]) -> usize {
    let mut count = 0;
    for tuple in list.chunks_exact_mut(4) {
        let missing = tuple[3].is_nan();
        let counted = op.apply(&Lent::new(&[], &[]), &mut Flat(tuple), inverse);
        count += if missing { 0 } else { counted };
    }
    count
}

/// The listed difference: on the axis a NaN Z gives φ NaN with us, π/2 in the Rust. Writes our reading into the Rust's results.
fn nan_z_on_the_axis(op: &Op, step: &Step, inverse: bool, job: &Job, before: &[f64], list: &mut [f64]) -> usize {
    let cutoff = match step.body {
        Body::Cart { .. } if inverse => op.params.ellps(0).semimajor_axis() * 1e-16,
        Body::Deformation { .. } => 1.0e-12,
        _ => return 0,
    };
    let mut met = 0;
    for (i, (old, new)) in before.chunks_exact(4).zip(list.chunks_exact_mut(4)).enumerate() {
        if !(old[2].is_nan() && kernel::hypot(old[0], old[1]) < cutoff) {
            continue;
        }
        match step.body {
            Body::Deformation { flags, .. } if job.marks[i] == 1 => {
                new[..3].fill(f64::NAN);
                if flags & 1 != 0 {
                    new[3] = f64::NAN;
                }
            }
            Body::Deformation { .. } => continue,
            _ => new[1] = f64::NAN,
        }
        met += 1;
    }
    met
}

// ----- From a sheet's body to the Rust's parameters ------------------------------------

fn operator(body: &Body, job: &Job) -> Result<Op, Error> {
    new(body, &parameters(body), &Lent::new(&job.velocities, &job.marks))
}

/// The Rust's `new` of a body's kind.
pub fn new(body: &Body, raw: &RawParameters, ctx: &dyn Context) -> Result<Op, Error> {
    match body {
        Body::Helmert(_) | Body::Badekas { .. } => crate::helmert::new(raw, ctx),
        Body::Cart { .. } => crate::cart::new(raw, ctx),
        Body::Molodensky { .. } => crate::molodensky::new(raw, ctx),
        Body::Permtide { .. } => crate::permtide::new(raw, ctx),
        Body::Deformation { .. } => crate::deformation::new(raw, ctx),
    }
}

pub fn parameters(body: &Body) -> RawParameters {
    let mut raw = RawParameters::default();
    match *body {
        Body::Helmert(ref h) => helmert(h, &mut raw),
        Body::Cart { ellipsoid } => ellps(&mut raw, "ellps", ellipsoid),
        Body::Molodensky { flags, first, second, offsets } => {
            flag(&mut raw, flags, 1, "abridged");
            let keys = if flags & 2 != 0 { &["dx", "dy", "dz"][..] } else { &["dx", "dy", "dz", "da", "df"][..] };
            raw.reals.extend(keys.iter().copied().zip(offsets));
            if flags & 2 != 0 {
                ellps(&mut raw, "ellps_0", first);
                ellps(&mut raw, "ellps_1", second);
            } else {
                ellps(&mut raw, "ellps", first);
            }
        }
        Body::Permtide { ellipsoid, to, from, k } => {
            ellps(&mut raw, "ellps", ellipsoid);
            raw.texts.insert("to", system(to));
            raw.texts.insert("from", system(from));
            raw.reals.insert("k", k);
        }
        Body::Deformation { flags, ellipsoid, dt, t_epoch } => {
            flag(&mut raw, flags, 1, "raw");
            ellps(&mut raw, "ellps", ellipsoid);
            raw.texts.insert("grids", "lent".to_string());
            raw.reals.insert("dt", dt);
            raw.reals.insert("t_epoch", t_epoch);
        }
        // in metres: the pivot is the translation
        Body::Badekas { flags, convention, rotation, scale, pivot, .. } => {
            helmert(&Helmert { flags: flags & 3, convention, translation: pivot, rotation, scale, ..Helmert::blank() }, &mut raw);
        }
    }
    raw
}

fn helmert(h: &Helmert, raw: &mut RawParameters) {
    flag(raw, h.flags, 1, "exact");
    flag(raw, h.flags, 2, "uas");
    flag(raw, h.flags, 4, "mm");
    let convention = ["", "position_vector", "coordinate_frame"][h.convention as usize];
    raw.texts.insert("convention", convention.to_string());
    for (key, series, keys, singles) in [
        ("translation", h.translation, ["x", "y", "z"], h.xyz),
        ("translation_rate", h.translation_rate, ["dx", "dy", "dz"], h.dxyz),
        ("rotation", h.rotation, ["rx", "ry", "rz"], h.rxyz),
        ("rotation_rate", h.rotation_rate, ["drx", "dry", "drz"], h.drxyz),
    ] {
        raw.series.insert(key, series.to_vec());
        raw.reals.extend(keys.into_iter().zip(singles));
    }
    let keys = ["scale", "s", "scale_rate", "ds", "t_epoch", "t_obs"];
    raw.reals.extend(keys.into_iter().zip([h.scale, h.s, h.scale_rate, h.ds, h.t_epoch, h.t_obs]));
}

fn flag(raw: &mut RawParameters, flags: u32, bit: u32, key: &'static str) {
    if flags & bit != 0 {
        raw.flags.insert(key);
    }
}

fn ellps(raw: &mut RawParameters, key: &'static str, number: u32) {
    raw.texts.insert(key, ellipsoid_name(number).to_string());
}

/// Systems mean 1, zero 2, free 3; any other code is a word that the Rust does not know.
fn system(code: u32) -> String {
    match code {
        1 => "mean",
        2 => "zero",
        3 => "free",
        _ => "none of the three",
    }
    .to_string()
}

//! A job as the oracles see it: a sheet's steps as records, a list, velocities and marks; and the bytes that document 01 gives them.
//!
//! The writer here knows document 01 and nothing of the library's own writer or reader.
pub mod published_shifts;
pub mod vectors;

/// The bits of "not given".
pub const NOT_GIVEN: f64 = f64::from_bits(0x7ff8_0000_0000_0000);

#[derive(Clone, Debug)]
pub struct Helmert {
    pub flags: u32,
    pub convention: u32,
    pub translation: [f64; 3],
    pub xyz: [f64; 3],
    pub translation_rate: [f64; 3],
    pub dxyz: [f64; 3],
    pub rotation: [f64; 3],
    pub rxyz: [f64; 3],
    pub rotation_rate: [f64; 3],
    pub drxyz: [f64; 3],
    pub scale: f64,
    pub s: f64,
    pub scale_rate: f64,
    pub ds: f64,
    pub t_epoch: f64,
    pub t_obs: f64,
}

impl Helmert {
    /// Zeros, own-epoch, no convention, no times (document 02, A9). What is compared with the crate
    /// sets its flags itself.
    pub fn blank() -> Helmert {
        Helmert {
            flags: 8,
            convention: 0,
            translation: [0.0; 3],
            xyz: [0.0; 3],
            translation_rate: [0.0; 3],
            dxyz: [0.0; 3],
            rotation: [0.0; 3],
            rxyz: [0.0; 3],
            rotation_rate: [0.0; 3],
            drxyz: [0.0; 3],
            scale: 0.0,
            s: 0.0,
            scale_rate: 0.0,
            ds: 0.0,
            t_epoch: NOT_GIVEN,
            t_obs: NOT_GIVEN,
        }
    }

    /// The eight vectors in the sheet's order.
    pub fn vectors(&self) -> [[f64; 3]; 8] {
        [self.translation, self.xyz, self.translation_rate, self.dxyz, self.rotation, self.rxyz, self.rotation_rate, self.drxyz]
    }
}

#[derive(Clone, Debug)]
pub enum Body {
    Helmert(Helmert),
    Cart {
        ellipsoid: u32,
    },
    /// offsets: dx dy dz da df
    Molodensky {
        flags: u32,
        first: u32,
        second: u32,
        offsets: [f64; 5],
    },
    Permtide {
        ellipsoid: u32,
        to: u32,
        from: u32,
        k: f64,
    },
    Deformation {
        flags: u32,
        ellipsoid: u32,
        dt: f64,
        t_epoch: f64,
    },
    Badekas {
        flags: u32,
        convention: u32,
        translation: [f64; 3],
        rotation: [f64; 3],
        scale: f64,
        pivot: [f64; 3],
    },
}

#[derive(Clone, Debug)]
pub struct Step {
    pub inverted: bool,
    pub body: Body,
}

#[derive(Clone, Debug)]
pub struct Job {
    pub inverse: bool,
    pub steps: Vec<Step>,
    pub list: Vec<f64>,
    pub velocities: Vec<f64>,
    pub marks: Vec<u8>,
}

/// What a run of a job answers. Refused: the number and step, counts of zero, the list as it was.
#[derive(Clone, Debug)]
pub struct Answer {
    pub refusal: u32,
    pub step: u32,
    pub counts: [u32; 16],
    pub list: Vec<f64>,
}

impl Answer {
    pub fn start(job: &Job) -> Answer {
        Answer::refused(job, 0, 0)
    }

    pub fn refused(job: &Job, refusal: u32, step: u32) -> Answer {
        Answer { refusal, step, counts: [0; 16], list: job.list.clone() }
    }

    /// Refusal, counts and every bit of the list; all NaNs count as equal.
    pub fn same(&self, other: &Answer) -> bool {
        (self.refusal, self.step, self.counts) == (other.refusal, other.step, other.counts)
            && self.list.len() == other.list.len()
            && self.list.iter().zip(&other.list).all(|(a, b)| same(*a, *b))
    }
}

pub fn same(a: f64, b: f64) -> bool {
    a.to_bits() == b.to_bits() || a.is_nan() && b.is_nan()
}

// ----- The sheet's bytes ---------------------------------------------------------------

#[derive(Default)]
struct Bytes(Vec<u8>);

impl Bytes {
    fn words(&mut self, words: &[u32]) {
        self.0.extend(words.iter().flat_map(|w| w.to_le_bytes()));
    }

    /// A NaN is written as "not given".
    fn numbers(&mut self, numbers: &[f64]) {
        self.0.extend(numbers.iter().flat_map(|x| canonical(*x).to_le_bytes()));
    }
}

/// The bits of a number, all NaNs as one.
pub fn canonical(x: f64) -> u64 {
    if x.is_nan() { NOT_GIVEN.to_bits() } else { x.to_bits() }
}

fn kind(body: &Body) -> u32 {
    match body {
        Body::Helmert(_) => 1,
        Body::Cart { .. } => 2,
        Body::Molodensky { .. } => 3,
        Body::Permtide { .. } => 4,
        Body::Deformation { .. } => 5,
        Body::Badekas { .. } => 6,
    }
}

fn body_bytes(body: &Body) -> Vec<u8> {
    let mut b = Bytes::default();
    match *body {
        Body::Helmert(ref h) => {
            b.words(&[h.flags, h.convention]);
            b.numbers(h.vectors().as_flattened());
            b.numbers(&[h.scale, h.s, h.scale_rate, h.ds, h.t_epoch, h.t_obs]);
        }
        Body::Cart { ellipsoid } => b.words(&[ellipsoid, 0]),
        Body::Molodensky { flags, first, second, offsets } => {
            b.words(&[flags, first, second, 0]);
            b.numbers(&offsets);
        }
        Body::Permtide { ellipsoid, to, from, k } => {
            b.words(&[ellipsoid, to, from, 0]);
            b.numbers(&[k]);
        }
        Body::Deformation { flags, ellipsoid, dt, t_epoch } => {
            b.words(&[flags, ellipsoid]);
            b.numbers(&[dt, t_epoch]);
        }
        Body::Badekas { flags, convention, translation, rotation, scale, pivot } => {
            b.words(&[flags, convention]);
            b.numbers(&translation);
            b.numbers(&rotation);
            b.numbers(&[scale]);
            b.numbers(&pivot);
        }
    }
    b.0
}

/// Header, directory, bodies.
pub fn sheet(steps: &[Step]) -> Vec<u8> {
    let bodies: Vec<Vec<u8>> = steps.iter().map(|s| body_bytes(&s.body)).collect();
    let mut at = 16 + 16 * steps.len();
    let total = at + bodies.iter().map(Vec::len).sum::<usize>();
    let mut out = Bytes::default();
    out.words(&[1, total as u32, steps.len() as u32, 16]);
    for (step, body) in steps.iter().zip(&bodies) {
        out.words(&[kind(&step.body), step.inverted as u32, at as u32, body.len() as u32]);
        at += body.len();
    }
    out.0.extend(bodies.concat());
    out.0
}

/// The job as the program reads it from its standard input.
pub fn program_input(job: &Job) -> Vec<u8> {
    let sheet = sheet(&job.steps);
    let mut out = Bytes::default();
    out.words(&[job.inverse as u32, sheet.len() as u32, (job.list.len() / 4) as u32, (job.velocities.len() / 3) as u32]);
    out.0.extend(sheet);
    out.0.extend(job.list.iter().chain(&job.velocities).flat_map(|x| x.to_le_bytes()));
    out.0.extend(&job.marks);
    out.0
}

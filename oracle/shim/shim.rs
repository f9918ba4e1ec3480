//! What the six files of docs/src lean on and do not contain: coordinates, ellipsoids, parameters, operators, grids.
//!
//! Only as much as the files ask for. Whatever stands here was decided by us, not by the crate: docs/DECISIONS.md lists it. The
//! kernels come from `crate::kernel`, so that both oracles stand on this one file.
use crate::kernel;
use std::cell::Cell;
use std::collections::{BTreeMap, BTreeSet};
use std::ops::{Add, Index, IndexMut};
use std::sync::Arc;

// ----- Coordinates -------------------------------------------------------------------

#[derive(Clone, Copy, Debug)]
pub struct Coor4D(pub [f64; 4]);

impl Coor4D {
    pub fn raw(x: f64, y: f64, z: f64, t: f64) -> Coor4D {
        Coor4D([x, y, z, t])
    }

    pub fn nan() -> Coor4D {
        Coor4D([f64::NAN; 4])
    }

    /// All four components times one number.
    pub fn scale(&self, k: f64) -> Coor4D {
        Coor4D(self.0.map(|c| c * k))
    }

    /// Four products, summed from the left.
    pub fn dot(&self, other: Coor4D) -> f64 {
        let (a, b) = (self.0, other.0);
        a[0] * b[0] + a[1] * b[1] + a[2] * b[2] + a[3] * b[3]
    }
}

/// All four components, each with its own.
impl Add for Coor4D {
    type Output = Coor4D;
    fn add(self, other: Coor4D) -> Coor4D {
        let (a, b) = (self.0, other.0);
        Coor4D([a[0] + b[0], a[1] + b[1], a[2] + b[2], a[3] + b[3]])
    }
}

impl Index<usize> for Coor4D {
    type Output = f64;
    fn index(&self, i: usize) -> &f64 {
        &self.0[i]
    }
}

impl IndexMut<usize> for Coor4D {
    fn index_mut(&mut self, i: usize) -> &mut f64 {
        &mut self.0[i]
    }
}

pub trait CoordinateTuple {
    fn xyzt(&self) -> (f64, f64, f64, f64);
}

impl CoordinateTuple for Coor4D {
    fn xyzt(&self) -> (f64, f64, f64, f64) {
        (self.0[0], self.0[1], self.0[2], self.0[3])
    }
}

pub trait CoordinateSet {
    fn len(&self) -> usize;
    fn get_coord(&self, i: usize) -> Coor4D;
    fn set_coord(&mut self, i: usize, value: &Coor4D);
}

/// A flat list, four numbers a tuple.
pub struct Flat<'a>(pub &'a mut [f64]);

impl CoordinateSet for Flat<'_> {
    fn len(&self) -> usize {
        self.0.len() / 4
    }

    fn get_coord(&self, i: usize) -> Coor4D {
        let at = 4 * i;
        Coor4D([self.0[at], self.0[at + 1], self.0[at + 2], self.0[at + 3]])
    }

    fn set_coord(&mut self, i: usize, value: &Coor4D) {
        self.0[4 * i..4 * i + 4].copy_from_slice(&value.0);
    }
}

// ----- Ellipsoids --------------------------------------------------------------------

/// Document 01, "Kernels and ellipsoids".
#[derive(Clone, Copy, Debug)]
pub struct Ellipsoid {
    a: f64,
    f: f64,
}

const TABLE: [(&str, f64, f64); 5] = [
    ("GRS80", 6378137.0, 298.257222101),
    ("WGS84", 6378137.0, 298.257223563),
    ("intl", 6378388.0, 297.0),
    ("bessel", 6377397.155, 299.1528128),
    ("krass", 6378245.0, 298.3),
];

/// The name of the table's row, counted from 1.
pub fn ellipsoid_name(number: u32) -> &'static str {
    TABLE[number as usize - 1].0
}

impl Ellipsoid {
    pub fn named(name: &str) -> Ellipsoid {
        let row = TABLE.iter().find(|row| row.0 == name).expect("an ellipsoid of the table");
        Ellipsoid { a: row.1, f: 1.0 / row.2 }
    }

    /// w = 1 - es·sin²φ: the square first, then its product with es.
    fn w(&self, phi: f64) -> f64 {
        let s = kernel::sin(phi);
        1.0 - (s * s) * self.eccentricity_squared()
    }
}

pub trait EllipsoidBase {
    fn semimajor_axis(&self) -> f64;
    fn flattening(&self) -> f64;
    fn semiminor_axis(&self) -> f64;
    fn eccentricity_squared(&self) -> f64;
    fn second_eccentricity_squared(&self) -> f64;
    fn prime_vertical_radius_of_curvature(&self, phi: f64) -> f64;
    fn meridian_radius_of_curvature(&self, phi: f64) -> f64;
    fn latitude_geographic_to_geocentric(&self, phi: f64) -> f64;
}

impl EllipsoidBase for Ellipsoid {
    fn semimajor_axis(&self) -> f64 {
        self.a
    }

    fn flattening(&self) -> f64 {
        self.f
    }

    fn semiminor_axis(&self) -> f64 {
        self.a * (1.0 - self.f)
    }

    fn eccentricity_squared(&self) -> f64 {
        self.f * (2.0 - self.f)
    }

    fn second_eccentricity_squared(&self) -> f64 {
        let es = self.eccentricity_squared();
        es / (1.0 - es)
    }

    fn prime_vertical_radius_of_curvature(&self, phi: f64) -> f64 {
        self.a / kernel::sqrt(self.w(phi))
    }

    fn meridian_radius_of_curvature(&self, phi: f64) -> f64 {
        let w = self.w(phi);
        self.a * (1.0 - self.eccentricity_squared()) / (w * kernel::sqrt(w))
    }

    fn latitude_geographic_to_geocentric(&self, phi: f64) -> f64 {
        kernel::atan2((1.0 - self.eccentricity_squared()) * kernel::sin(phi), kernel::cos(phi))
    }
}

impl crate::geocart::GeoCart for Ellipsoid {}

// ----- Parameters --------------------------------------------------------------------

#[derive(Debug)]
pub enum Error {
    MissingParam(String),
    BadParam(String, #[allow(dead_code)] String),
    #[allow(dead_code)]
    Unexpected {
        message: String,
        expected: String,
        found: String,
    },
}

#[allow(dead_code)]
pub enum OpParameter {
    Flag { key: &'static str },
    Real { key: &'static str, default: Option<f64> },
    Series { key: &'static str, default: Option<&'static str> },
    Text { key: &'static str, default: Option<&'static str> },
    Texts { key: &'static str, default: Option<&'static str> },
}

/// What is given to an operator, already a number or a word: text is not parsed here.
#[derive(Default)]
pub struct RawParameters {
    pub invoked_as: String,
    pub instantiated_as: String,
    pub flags: BTreeSet<&'static str>,
    pub reals: BTreeMap<&'static str, f64>,
    pub series: BTreeMap<&'static str, Vec<f64>>,
    pub texts: BTreeMap<&'static str, String>,
}

#[derive(Default)]
pub struct ParsedParameters {
    pub boolean: BTreeSet<&'static str>,
    pub real: BTreeMap<&'static str, f64>,
    pub series: BTreeMap<&'static str, Vec<f64>>,
    pub text: BTreeMap<&'static str, String>,
    pub texts: BTreeMap<&'static str, Vec<String>>,
    pub given: BTreeMap<String, String>,
    pub grids: Vec<Arc<dyn Grid>>,
}

fn missing(key: &str) -> Error {
    Error::MissingParam(key.to_string())
}

impl ParsedParameters {
    /// Each key of the gamut: what is given, else the default, else refused.
    pub fn new(raw: &RawParameters, gamut: &[OpParameter]) -> Result<ParsedParameters, Error> {
        let mut p = ParsedParameters::default();
        p.given = raw.texts.iter().map(|(k, v)| (k.to_string(), v.clone())).collect();
        for parameter in gamut {
            p.take(raw, parameter)?;
        }
        Ok(p)
    }

    fn take(&mut self, raw: &RawParameters, parameter: &OpParameter) -> Result<(), Error> {
        match *parameter {
            OpParameter::Flag { key } => {
                if raw.flags.contains(key) {
                    self.boolean.insert(key);
                }
            }
            OpParameter::Real { key, default } => {
                let value = raw.reals.get(key).copied().or(default);
                self.real.insert(key, value.ok_or_else(|| missing(key))?);
            }
            OpParameter::Series { key, default } => {
                let value = raw.series.get(key).cloned().or(default.map(zeros));
                self.series.insert(key, value.ok_or_else(|| missing(key))?);
            }
            OpParameter::Text { key, default } => {
                let value = raw.texts.get(key).cloned().or(default.map(str::to_string));
                self.text.insert(key, value.ok_or_else(|| missing(key))?);
            }
            OpParameter::Texts { key, default } => {
                let value = raw.texts.get(key).cloned().or(default.map(str::to_string));
                self.texts.insert(key, vec![value.ok_or_else(|| missing(key))?]);
            }
        }
        Ok(())
    }

    pub fn boolean(&self, key: &str) -> bool {
        self.boolean.contains(key)
    }

    pub fn real(&self, key: &str) -> Result<f64, Error> {
        self.real.get(key).copied().ok_or_else(|| missing(key))
    }

    pub fn series(&self, key: &str) -> Result<&[f64], Error> {
        self.series.get(key).map(Vec::as_slice).ok_or_else(|| missing(key))
    }

    pub fn text(&self, key: &str) -> Result<String, Error> {
        self.text.get(key).cloned().ok_or_else(|| missing(key))
    }

    pub fn texts(&self, key: &str) -> Result<&Vec<String>, Error> {
        self.texts.get(key).ok_or_else(|| missing(key))
    }

    /// `ellps_0` and `ellps_1` where they are given; else `ellps`, or its default, for both.
    pub fn ellps(&self, index: usize) -> Ellipsoid {
        let numbered = self.given.get(&format!("ellps_{index}"));
        Ellipsoid::named(numbered.unwrap_or_else(|| &self.text["ellps"]))
    }
}

/// The files' only default of a series is "0,0,0".
fn zeros(default: &str) -> Vec<f64> {
    assert_eq!(default, "0,0,0");
    vec![0.0; 3]
}

// ----- Operators ---------------------------------------------------------------------

#[derive(Clone, Copy, PartialEq, Eq, Debug)]
pub enum Direction {
    Fwd,
    Inv,
}
pub use Direction::{Fwd, Inv};

#[derive(Clone, Copy)]
pub struct InnerOp(pub fn(&Op, &dyn Context, &mut dyn CoordinateSet) -> usize);

pub struct OpDescriptor {
    fwd: InnerOp,
    inv: Option<InnerOp>,
}

impl OpDescriptor {
    pub fn new(_definition: &str, fwd: InnerOp, inv: Option<InnerOp>) -> OpDescriptor {
        OpDescriptor { fwd, inv }
    }
}

pub struct Op {
    pub descriptor: OpDescriptor,
    pub params: ParsedParameters,
    #[allow(dead_code)]
    pub steps: Option<Vec<Op>>,
}

impl Op {
    pub fn basic(parameters: &RawParameters, fwd: InnerOp, inv: Option<InnerOp>, gamut: &[OpParameter]) -> Result<Op, Error> {
        let params = ParsedParameters::new(parameters, gamut)?;
        let descriptor = OpDescriptor::new(&parameters.instantiated_as, fwd, inv);
        Ok(Op { descriptor, params, steps: None })
    }

    pub fn apply(&self, ctx: &dyn Context, operands: &mut dyn CoordinateSet, inverse: bool) -> usize {
        let inner = if inverse { self.descriptor.inv.expect("each of the five has an inverse") } else { self.descriptor.fwd };
        inner.0(self, ctx, operands)
    }
}

// ----- Grids -------------------------------------------------------------------------

pub trait Grid {
    fn bands(&self) -> usize;
}

pub trait Context {
    fn get_grid(&self, name: &str) -> Result<Arc<dyn Grid>, Error>;
    fn next_velocity(&self) -> Option<Coor4D>;
}

struct LentGrid;

impl Grid for LentGrid {
    fn bands(&self) -> usize {
        3
    }
}

/// The velocities lent for a list, looked up once a tuple and in its order.
pub struct Lent<'a> {
    velocities: &'a [f64],
    marks: &'a [u8],
    next: Cell<usize>,
}

impl<'a> Lent<'a> {
    pub fn new(velocities: &'a [f64], marks: &'a [u8]) -> Lent<'a> {
        Lent { velocities, marks, next: Cell::new(0) }
    }
}

impl Context for Lent<'_> {
    fn get_grid(&self, _name: &str) -> Result<Arc<dyn Grid>, Error> {
        Ok(Arc::new(LentGrid))
    }

    /// None where the mark says absent.
    fn next_velocity(&self) -> Option<Coor4D> {
        let i = self.next.replace(self.next.get() + 1);
        let v = &self.velocities[3 * i..3 * i + 3];
        (self.marks[i] == 1).then(|| Coor4D::raw(v[0], v[1], v[2], 0.0))
    }
}

pub fn grids_at(ctx: Option<&dyn Context>, _grids: &[Arc<dyn Grid>], _at: Coor4D, _use_null_grid: bool) -> Option<Coor4D> {
    ctx?.next_velocity()
}

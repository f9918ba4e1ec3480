use alloc::vec::Vec;
use core::fmt;

use crate::steps::{Step, or_not_given};
use crate::{Direction, Grid, Refusal, ffi, lent};

/// The longest sheet: header, sixteen entries of the directory, sixteen Helmert bodies.
const LONGEST: usize = 4376;

/// The most words that a rescue changes: form, total length and directory offset, and offset and length of sixteen bodies.
const MOST_CHANGES: usize = 35;

/// A sheet that the library's reader accepts: the bytes by which two boxes hand each other their parameters.
#[derive(Clone, Debug, PartialEq, Eq, Hash)]
pub struct Sheet {
    bytes: Vec<u8>,
}

impl Sheet {
    /// A sheet made step by step.
    pub fn builder() -> SheetBuilder {
        SheetBuilder { room: [0; LONGEST], length: 0, refused: None }
    }

    /// The sheet that these bytes are, or the first rule that they break.
    pub fn from_bytes(bytes: &[u8]) -> Result<Sheet, Refusal> {
        lent::check(bytes)?;
        Ok(Sheet { bytes: bytes.to_vec() })
    }

    /// The sheet that damaged bytes were, and each word of header or directory that was mended, in ascending place.
    ///
    /// The step count, the kinds, the inverted words and the bodies are taken as they stand; form, total length, directory offset, body offsets and body
    /// lengths follow from them. Refused: 19 where they do not fit the number of bytes; then, of the mended sheet, 5 to 8 and 11.
    ///
    /// ```
    /// use sillfeather::{Cart, Change, Ellipsoid, Helmert, Refusal, Sheet};
    ///
    /// let sheet = Sheet::builder().step(Helmert::BLANK).step(Cart { ellipsoid: Ellipsoid::Grs80 }).build()?;
    /// let mut damaged = sheet.as_bytes().to_vec();
    /// damaged[40..44].copy_from_slice(&311_u32.to_le_bytes());
    /// assert_eq!(Sheet::from_bytes(&damaged), Err(Refusal::Directory));
    ///
    /// let (mended, changes) = Sheet::rescue(&damaged)?;
    /// assert_eq!(mended, sheet);
    /// assert_eq!(changes, [Change { place: 40, old: 311, new: 296 }]);
    /// assert_eq!(changes[0].to_string(), "step 2, body offset: 311 is 296");
    /// # Ok::<(), sillfeather::Refusal>(())
    /// ```
    pub fn rescue(damaged: &[u8]) -> Result<(Sheet, Vec<Change>), Refusal> {
        let (mut room, mut changes) = ([0; LONGEST], [0; 3 * MOST_CHANGES]);
        let changed = lent::rescue(damaged, &mut room, &mut changes)?;
        let listed = changes[..3 * changed as usize].chunks_exact(3);
        let changes = listed.map(|c| Change { place: c[0], old: c[1], new: c[2] }).collect();
        Ok((Sheet { bytes: room[..damaged.len()].to_vec() }, changes))
    }

    /// The sheet's bytes, 40 to 4,376.
    pub fn as_bytes(&self) -> &[u8] {
        &self.bytes
    }

    /// The number of steps, 1 to 16.
    pub fn step_count(&self) -> usize {
        // The header's third word; its upper bytes are 0 in every accepted sheet.
        usize::from(self.bytes[8])
    }

    /// Shifts a list in place: the steps in order, or for [`Direction::Inverse`] in reverse with each turned round. For sheets without a deformation step.
    ///
    /// A fix is four numbers: longitude, latitude, height (radians and metres) or X, Y, Z (metres), then time in years. Refused: 9 over 2,048 fixes, 10 where
    /// the sheet has a deformation step and the list a fix; the list then holds what it held.
    pub fn shift(&self, direction: Direction, list: &mut [[f64; 4]]) -> Result<Counts, Refusal> {
        self.shift_with(direction, list, &[], &[])
    }

    /// The same with a velocity and a mark for each fix, which a deformation step reads: east, north, up in mm a year; 1 present, 0 absent. Without such a
    /// step both are empty (refusal 10).
    ///
    /// ```
    /// use sillfeather::{Deformation, Direction, Sheet};
    ///
    /// let sheet = Sheet::builder().step(Deformation { t_epoch: Some(2000.0), ..Deformation::BLANK }).build()?;
    /// let mut fixes = [[6378137.0, 0.0, 0.0, 2010.0]; 2];
    /// // a metre a year upwards; the second fix has no velocity
    /// let counts = sheet.shift_with(Direction::Forward, &mut fixes, &[[0.0, 0.0, 1000.0]; 2], &[1, 0])?;
    /// assert_eq!(counts.steps(), [1]);
    /// assert_eq!(fixes[0], [6378147.0, 0.0, 0.0, 2010.0]);
    /// assert!(fixes[1].iter().all(|x| x.is_nan()));
    /// # Ok::<(), sillfeather::Refusal>(())
    /// ```
    pub fn shift_with(
        &self,
        direction: Direction,
        list: &mut [[f64; 4]],
        velocities: &[[f64; 3]],
        marks: &[u8],
    ) -> Result<Counts, Refusal> {
        self.shift_flat(direction, list.as_flattened_mut(), velocities.as_flattened(), marks)
    }

    /// The same over flat lists, four numbers a fix and three a velocity. A list that is not of whole fixes is refused by 9.
    pub fn shift_flat(
        &self,
        direction: Direction,
        list: &mut [f64],
        velocities: &[f64],
        marks: &[u8],
    ) -> Result<Counts, Refusal> {
        let [counts, out_of_reach] = lent::shift_reach(direction, &self.bytes, list, velocities, marks)?;
        Ok(Counts { counts, out_of_reach, steps: self.step_count() })
    }

    /// Shifts a list in place with a velocity grid: a deformation step moves each fix by the velocity that the grid gives at its place as it reaches the step,
    /// on the step's ellipsoid. A fix outside the grid, or with a NaN place, is absent: four NaNs, and not counted. Refused: 9 over 2,048 fixes; the list then
    /// holds what it held.
    ///
    /// ```
    /// use sillfeather::{Deformation, Direction, Grid, Sheet};
    ///
    /// let sheet = Sheet::builder().step(Deformation { t_epoch: Some(2000.0), ..Deformation::BLANK }).build()?;
    /// // a metre a year upwards, within 0.1 radian of longitude and latitude 0
    /// let grid = Grid::new([-0.1, -0.1, 0.2, 0.2], 2, &[[0.0, 0.0, 1000.0]; 4])?;
    /// let mut fixes = [[6378137.0, 0.0, 0.0, 2010.0], [0.0, 6378137.0, 0.0, 2010.0]];
    /// let counts = sheet.shift_grid(Direction::Forward, &mut fixes, &grid)?;
    /// assert_eq!(counts.steps(), [1]);
    /// assert_eq!(fixes[0], [6378147.0, 0.0, 0.0, 2010.0]);
    /// assert!(fixes[1].iter().all(|x| x.is_nan()));
    /// # Ok::<(), sillfeather::Refusal>(())
    /// ```
    pub fn shift_grid(&self, direction: Direction, list: &mut [[f64; 4]], grid: &Grid) -> Result<Counts, Refusal> {
        let [counts, out_of_reach] = lent::shift_grid(direction, &self.bytes, list.as_flattened_mut(), grid.as_bytes())?;
        Ok(Counts { counts, out_of_reach, steps: self.step_count() })
    }
}

impl AsRef<[u8]> for Sheet {
    fn as_ref(&self) -> &[u8] {
        self.as_bytes()
    }
}

impl TryFrom<&[u8]> for Sheet {
    type Error = Refusal;

    fn try_from(bytes: &[u8]) -> Result<Sheet, Refusal> {
        Sheet::from_bytes(bytes)
    }
}

/// A word of header or directory that [`Sheet::rescue`] changed.
#[derive(Clone, Copy, Debug, PartialEq, Eq, Hash)]
pub struct Change {
    /// The word's place, in bytes from the sheet's start.
    pub place: u32,
    /// The number that stood there.
    pub old: u32,
    /// The number that stands there now.
    pub new: u32,
}

/// By the word's name: `step 2, body offset: 311 is 296`.
impl fmt::Display for Change {
    fn fmt(&self, f: &mut fmt::Formatter<'_>) -> fmt::Result {
        match (self.place / 16, self.place % 16) {
            (0, 0) => f.write_str("form")?,
            (0, 4) => f.write_str("total length")?,
            (0, 8) => f.write_str("step count")?,
            (0, _) => f.write_str("directory offset")?,
            (step, 0) => write!(f, "step {step}, kind")?,
            (step, 4) => write!(f, "step {step}, inverted")?,
            (step, 8) => write!(f, "step {step}, body offset")?,
            (step, _) => write!(f, "step {step}, body length")?,
        }
        write!(f, ": {} is {}", self.old, self.new)
    }
}

/// How many fixes each step counted, in the sheet's order.
///
/// Helmert, Molodensky, permtide and kind 6 count every fix; cart those with no NaN in the result, and inverse none on the axis; deformation those whose mark is 1.
#[derive(Clone, Copy, Debug, PartialEq, Eq, Hash)]
pub struct Counts {
    pub(crate) counts: [u32; 16],
    pub(crate) out_of_reach: [u32; 16],
    pub(crate) steps: usize,
}

impl Counts {
    /// One count a step of the sheet.
    pub fn steps(&self) -> &[u32] {
        &self.counts[..self.steps]
    }

    /// All sixteen places; those past the sheet's steps are 0.
    pub fn all(&self) -> &[u32; 16] {
        &self.counts
    }

    /// How many fixes met an angle out of reach of sine and cosine, one number a step of the sheet: an angle not finite or beyond ±1024 that the step takes.
    /// A fix is told once, however many of its angles are; its results are NaN where they rest on that angle.
    ///
    /// ```
    /// use sillfeather::{Cart, Direction, Sheet};
    ///
    /// let sheet = Sheet::builder().step(Cart::BLANK).build()?;
    /// let mut fixes = [[0.1, 0.9, 0.0, 0.0], [f64::NAN, f64::INFINITY, 0.0, 0.0]];
    /// let counts = sheet.shift(Direction::Forward, &mut fixes)?;
    /// assert_eq!((counts.steps(), counts.out_of_reach()), (&[1][..], &[1][..]));
    /// # Ok::<(), sillfeather::Refusal>(())
    /// ```
    pub fn out_of_reach(&self) -> &[u32] {
        &self.out_of_reach[..self.steps]
    }
}

/// Makes a [`Sheet`] step by step, through the library's own writer.
///
/// Each step is tested as it is added; once one is refused, those after it are left out, and [`build`](SheetBuilder::build) answers that first refusal: 3 for
/// a seventeenth step, 5 to 8 for a step out of rule, 11 for a second deformation step.
#[derive(Clone, Debug)]
pub struct SheetBuilder {
    room: [u8; LONGEST],
    length: u64,
    refused: Option<Refusal>,
}

impl SheetBuilder {
    /// Adds a step at the end.
    #[must_use]
    pub fn step(self, step: impl Into<Step>) -> SheetBuilder {
        self.add(false, step.into())
    }

    /// Adds a step at the end that runs the other way round.
    #[must_use]
    pub fn inverted(self, step: impl Into<Step>) -> SheetBuilder {
        self.add(true, step.into())
    }

    /// The sheet, or the first refusal; 3 where no step was added.
    pub fn build(self) -> Result<Sheet, Refusal> {
        match self.refused {
            Some(refusal) => Err(refusal),
            None if self.length == 0 => Err(Refusal::StepCount),
            None => Ok(Sheet { bytes: self.room[..self.length as usize].to_vec() }),
        }
    }

    fn add(mut self, inverted: bool, step: Step) -> SheetBuilder {
        if self.refused.is_none() {
            self.refused = Refusal::told(self.write(u32::from(inverted), step)).err();
        }
        self
    }

    fn write(&mut self, inverted: u32, step: Step) -> u32 {
        let (room, length) = (&mut self.room, &mut self.length);
        match step {
            Step::Helmert(h) => {
                let convention = h.convention.map_or(0, |c| c as u32);
                ffi::add_helmert(room, length, inverted, h.flags(), convention, &h.numbers())
            }
            Step::Cart(c) => ffi::add_cart(room, length, inverted, c.ellipsoid as u32),
            Step::Molodensky(m) => {
                let second = m.second.map_or(0, |e| e as u32);
                ffi::add_molodensky(room, length, inverted, m.flags(), m.first as u32, second, &m.numbers())
            }
            Step::Permtide(p) => {
                let (to, from) = (p.to.map_or(0, |t| t as u32), p.from.map_or(0, |t| t as u32));
                ffi::add_permtide(room, length, inverted, p.ellipsoid as u32, to, from, p.k)
            }
            Step::Deformation(d) => {
                let (dt, t_epoch) = (or_not_given(d.dt), or_not_given(d.t_epoch));
                ffi::add_deformation(room, length, inverted, d.flags(), d.ellipsoid as u32, dt, t_epoch)
            }
            Step::Badekas(b) => {
                let convention = b.convention.map_or(0, |c| c as u32);
                ffi::add_badekas(room, length, inverted, b.flags(), convention, &b.numbers())
            }
        }
    }
}

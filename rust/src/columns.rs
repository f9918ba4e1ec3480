use alloc::vec::Vec;

use crate::{Counts, Direction, Refusal, Sheet, lent};

/// A list as a display holds it: four columns of one length, the first, second, third and fourth numbers of its fixes.
///
/// ```
/// use sillfeather::{Columns, Direction, Helmert, Sheet};
///
/// let sheet = Sheet::builder().step(Helmert { translation: [-87.0, -98.0, -121.0], ..Helmert::BLANK }).build()?;
/// let (mut x, mut y) = ([3513638.0, 3513640.0], [778956.0, 778950.0]);
/// let (mut z, mut t) = ([5248216.0, 5248215.0], [2024.5, 2024.6]);
/// let mut columns = Columns { x: &mut x, y: &mut y, z: &mut z, t: &mut t };
/// let counts = sheet.shift_columns(Direction::Forward, &mut columns, &[], &[])?;
/// assert_eq!(counts.steps(), [2]);
/// assert_eq!(x, [3513551.0, 3513553.0]);
///
/// // a column that is a row shorter is refused, and nothing is written
/// let mut columns = Columns { x: &mut x, y: &mut y, z: &mut z, t: &mut t[..1] };
/// assert_eq!(columns.fixes().unwrap_err().number(), 9);
/// assert_eq!(sheet.shift_columns(Direction::Forward, &mut columns, &[], &[]).unwrap_err().number(), 9);
/// assert_eq!(x, [3513551.0, 3513553.0]);
/// # Ok::<(), sillfeather::Refusal>(())
/// ```
#[derive(Debug)]
pub struct Columns<'a> {
    /// Longitudes in radians, or X in metres.
    pub x: &'a mut [f64],
    /// Latitudes in radians, or Y in metres.
    pub y: &'a mut [f64],
    /// Heights, or Z, in metres.
    pub z: &'a mut [f64],
    /// Times in years.
    pub t: &'a mut [f64],
}

impl Columns<'_> {
    /// How many fixes there are. Refused: 9 where a column is not as long as the others.
    pub fn rows(&self) -> Result<usize, Refusal> {
        let rows = self.x.len();
        if [self.y.len(), self.z.len(), self.t.len()] == [rows; 3] { Ok(rows) } else { Err(Refusal::List) }
    }

    /// The fixes, a copy of their numbers. Refused: 9 where a column is not as long as the others.
    pub fn fixes(&self) -> Result<Vec<[f64; 4]>, Refusal> {
        Ok((0..self.rows()?).map(|i| [self.x[i], self.y[i], self.z[i], self.t[i]]).collect())
    }

    /// Writes fixes into the columns. Refused: 9 where a column has not as many rows; nothing is written then.
    pub fn set(&mut self, fixes: &[[f64; 4]]) -> Result<(), Refusal> {
        if self.rows()? != fixes.len() {
            return Err(Refusal::List);
        }
        for (i, fix) in fixes.iter().enumerate() {
            [self.x[i], self.y[i], self.z[i], self.t[i]] = *fix;
        }
        Ok(())
    }

    /// The four, to be written.
    fn lent(&mut self) -> [&mut [f64]; 4] {
        [self.x, self.y, self.z, self.t]
    }
}

impl Sheet {
    /// [`Sheet::shift_with`] over columns, in place. Refused: 9 also where a column is not as long as the others; what was lent then holds what it held.
    ///
    /// The answer, and every number, is that of the fixes as a list. Nothing is copied: the columns are shifted where they stand.
    pub fn shift_columns(
        &self,
        direction: Direction,
        columns: &mut Columns,
        velocities: &[[f64; 3]],
        marks: &[u8],
    ) -> Result<Counts, Refusal> {
        let [counts, out_of_reach] =
            lent::shift_columns(direction, self.as_bytes(), columns.lent(), velocities.as_flattened(), marks)?;
        Ok(Counts { counts, out_of_reach, steps: self.step_count() })
    }

    /// A kept run over columns, as [`KeptRun::keep`](crate::KeptRun::keep) over a list: reads the list's columns, and writes those of the results and of the
    /// track. Answers how many fixes the step counted, and how many met an angle out of reach.
    ///
    /// Refused: 12 where the sheet is not one Helmert step; 9 over 2,048 fixes, or where the list's columns are not of one length; 13 where a column of the
    /// results or of the track is not as long as they are. What was lent then holds what it held.
    ///
    /// ```
    /// use sillfeather::{Columns, Convention, Direction, Helmert, Sheet};
    ///
    /// // a turn of a radian a year, with exact angles
    /// let turning = Helmert { exact: true, own_epoch: false, drxyz: [206264.80624709636, 0.0, 0.0], t_epoch: Some(2000.0), ..Helmert::BLANK };
    /// let sheet = Sheet::builder().step(Helmert { convention: Some(Convention::PositionVector), ..turning }).build()?;
    /// let [mut list, mut results, mut track] = [[[0.0; 4]; 4]; 3];
    /// list[3] = [2001.0, f64::NAN, 2001.0, 4000.0];
    ///
    /// fn columns([x, y, z, t]: &mut [[f64; 4]; 4]) -> Columns<'_> {
    ///     Columns { x, y, z, t }
    /// }
    /// let (mut list, mut results, mut track) = (columns(&mut list), columns(&mut results), columns(&mut track));
    /// assert_eq!(sheet.keep_columns(Direction::Forward, &list, &mut results, &mut track)?, [4, 2]);
    /// // the last fix was in time: one is redone, and none of those is out of reach
    /// let fix = [0.0, 0.0, 0.0, 2002.0];
    /// assert_eq!(sheet.correct_columns(Direction::Forward, &mut list, &mut results, &mut track, 3, fix)?, [1, 0]);
    /// # Ok::<(), sillfeather::Refusal>(())
    /// ```
    pub fn keep_columns(
        &self,
        direction: Direction,
        list: &Columns,
        results: &mut Columns,
        track: &mut Columns,
    ) -> Result<[u64; 2], Refusal> {
        lent::keep_columns(direction, self.as_bytes(), [&list.x, &list.y, &list.z, &list.t], results.lent(), track.lent())
    }

    /// Corrects one fix of a kept run over columns, by its index from 0. Answers how many fixes were redone, and how many of those met an angle out of reach.
    ///
    /// If the columns came from [`Sheet::keep_columns`] in the same direction, and from corrections after it, they end as a fresh run over the corrected list
    /// would leave them. Refused: as there, and 14 where the list has no such fix.
    pub fn correct_columns(
        &self,
        direction: Direction,
        list: &mut Columns,
        results: &mut Columns,
        track: &mut Columns,
        index: usize,
        fix: [f64; 4],
    ) -> Result<[u64; 2], Refusal> {
        lent::correct_columns(direction, self.as_bytes(), list.lent(), results.lent(), track.lent(), index, fix)
    }
}

use alloc::vec;
use alloc::vec::Vec;

use crate::{Direction, Refusal, Sheet, lent};

/// A run that is kept: the list, its results and its track, under a sheet of one Helmert or kind 6 step; and the correction of one fix at a time.
///
/// A correction redoes as few fixes as it must. In running mode that is from the corrected fix on, until the carried state is the kept one; in static, fixed and
/// own-epoch mode it is that fix alone. Afterwards list, results and track are those of a fresh run over the corrected list, bit for bit.
///
/// ```
/// use sillfeather::{Direction, Helmert, KeptRun, Sheet};
///
/// let sheet = Sheet::builder()
///     .step(Helmert { own_epoch: false, dxyz: [1.0, 0.0, 0.0], t_epoch: Some(2000.0), ..Helmert::BLANK })
///     .build()?;
/// let at = |time| [0.0, 0.0, 0.0, time];
/// let mut run = KeptRun::keep(&sheet, Direction::Forward, &[at(2001.0), at(2000.0), at(2002.0)])?;
/// assert_eq!(run.results()[2][0], 3.0);
/// // the second fix was a year later
/// assert_eq!(run.correct(1, at(2001.0))?, 2);
/// assert_eq!(run.list()[1], at(2001.0));
/// # Ok::<(), sillfeather::Refusal>(())
/// ```
#[derive(Clone, Debug)]
pub struct KeptRun {
    sheet: Sheet,
    direction: Direction,
    list: Vec<[f64; 4]>,
    results: Vec<[f64; 4]>,
    track: Vec<[f64; 4]>,
}

impl KeptRun {
    /// Runs the sheet over the list and keeps both, the results and the track. Refused: 12 where the sheet is not one Helmert or kind 6 step, 9 over 2,048 fixes.
    pub fn keep(sheet: &Sheet, direction: Direction, list: &[[f64; 4]]) -> Result<KeptRun, Refusal> {
        let mut run = KeptRun {
            sheet: sheet.clone(),
            direction,
            list: list.to_vec(),
            results: vec![[0.0; 4]; list.len()],
            track: vec![[0.0; 4]; list.len()],
        };
        let (results, track) = (run.results.as_flattened_mut(), run.track.as_flattened_mut());
        lent::keep(direction, sheet.as_bytes(), list.as_flattened(), results, track)?;
        Ok(run)
    }

    /// Writes a new fix at an index, from 0, and redoes what depends on it. Answers how many fixes were redone. Refused by 14 where the list has no such fix;
    /// the run is then as it was.
    pub fn correct(&mut self, index: usize, fix: [f64; 4]) -> Result<u64, Refusal> {
        let (list, results, track) =
            (self.list.as_flattened_mut(), self.results.as_flattened_mut(), self.track.as_flattened_mut());
        lent::correct(self.direction, self.sheet.as_bytes(), list, results, track, index, fix)
    }

    /// The same, telling how many fixes were redone and how many of those met an angle out of reach. The number of a fresh run over the corrected list is the
    /// sum of what stands before the fixes redone, of this number, and of what stands after them.
    pub fn correct_reach(&mut self, index: usize, fix: [f64; 4]) -> Result<[u64; 2], Refusal> {
        let (list, results, track) =
            (self.list.as_flattened_mut(), self.results.as_flattened_mut(), self.track.as_flattened_mut());
        lent::correct_reach(self.direction, self.sheet.as_bytes(), list, results, track, index, fix)
    }

    /// How many fixes of the list as it stands the step counts, and how many meet an angle out of reach, by a fresh run beside the kept one.
    ///
    /// ```
    /// use sillfeather::{Convention, Direction, Helmert, KeptRun, Sheet};
    ///
    /// // a turn of a radian a year, with exact angles
    /// let turning = Helmert { exact: true, own_epoch: false, drxyz: [206264.80624709636, 0.0, 0.0], t_epoch: Some(2000.0), ..Helmert::BLANK };
    /// let sheet = Sheet::builder().step(Helmert { convention: Some(Convention::PositionVector), ..turning }).build()?;
    /// let at = |time| [0.0, 0.0, 0.0, time];
    /// let mut run = KeptRun::keep(&sheet, Direction::Forward, &[at(2001.0), at(f64::NAN), at(2001.0), at(4000.0)])?;
    /// assert_eq!(run.numbers()?, [4, 2]);
    /// // the last fix was in time
    /// assert_eq!(run.correct_reach(3, at(2002.0))?, [1, 0]);
    /// assert_eq!(run.numbers()?, [4, 1]);
    /// # Ok::<(), sillfeather::Refusal>(())
    /// ```
    pub fn numbers(&self) -> Result<[u64; 2], Refusal> {
        let (mut results, mut track) = (self.results.clone(), self.track.clone());
        let (list, results, track) = (self.list.as_flattened(), results.as_flattened_mut(), track.as_flattened_mut());
        lent::keep_reach(self.direction, self.sheet.as_bytes(), list, results, track)
    }

    /// The sheet.
    pub fn sheet(&self) -> &Sheet {
        &self.sheet
    }

    /// The direction.
    pub fn direction(&self) -> Direction {
        self.direction
    }

    /// The fixes as they came, with the corrections.
    pub fn list(&self) -> &[[f64; 4]] {
        &self.list
    }

    /// The fixes shifted.
    pub fn results(&self) -> &[[f64; 4]] {
        &self.results
    }

    /// After each fix the last time and T; (NaN, T) throughout in static, fixed and own-epoch mode.
    pub fn track(&self) -> &[[f64; 4]] {
        &self.track
    }
}

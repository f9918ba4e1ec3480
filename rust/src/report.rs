use alloc::vec;

use crate::{Grid, Refusal, Sheet, lent};

/// What a sheet is judged by beside the reader's own rules.
#[derive(Clone, Copy, Debug, Default, PartialEq, Eq, Hash)]
pub enum Profile {
    /// Nothing more.
    #[default]
    None,
    /// The chart profile: Helmert and cart only, no exact flag, own-epoch or not dynamic.
    Chart,
}

impl Profile {
    /// The archive's word.
    pub(crate) fn word(self) -> u32 {
        match self {
            Profile::None => 0,
            Profile::Chart => 1,
        }
    }
}

/// The largest difference of a coordinate between the start and the end of a closure, and the fix that it stands at, the earliest where several differ by as
/// much.
#[derive(Clone, Copy, Debug, Default, PartialEq, Eq, Hash)]
pub struct Largest {
    /// The difference's absolute value by its bits, so that two boxes can compare it.
    pub bits: u64,
    /// The list, from 0.
    pub list: u64,
    /// The fix's index in it, from 0.
    pub index: u64,
}

impl Largest {
    /// The difference in metres, radians or years.
    pub fn difference(self) -> f64 {
        f64::from_bits(self.bits)
    }
}

/// The closure report: what a sheet forward and then inverse leaves of lists of fixes. The same report from the same lists on two boxes says that both
/// counted alike and have the same worst fixes.
///
/// ```
/// use sillfeather::{Helmert, Profile, Report, Sheet};
///
/// let sheet = Sheet::builder().step(Helmert { translation: [0.1, 0.0, 0.0], ..Helmert::BLANK }).build()?;
/// let mut report = Report::default();
/// report.add(&sheet, Profile::Chart, &[[1.0, 2.0, 3.0, 2024.5], [0.3, 2.0, 3.0, 2024.5]])?;
/// assert_eq!((report.lists, report.tuples, report.nans, report.restored), (1, 2, 0, 1));
/// // 0.3 and 0.1 make 0.4, and 0.4 less 0.1 is another number than 0.3
/// assert_eq!((report.largest[0].difference(), report.largest[0].index), (5.551115123125783e-17, 1));
/// # Ok::<(), sillfeather::Refusal>(())
/// ```
#[derive(Clone, Copy, Debug, Default, PartialEq, Eq, Hash)]
pub struct Report {
    /// Lists added.
    pub lists: u64,
    /// Fixes seen.
    pub tuples: u64,
    /// Those with a NaN at the start or at the end.
    pub nans: u64,
    /// Those without one that came back bit for bit.
    pub restored: u64,
    /// Of each coordinate, the largest difference among the others.
    pub largest: [Largest; 4],
}

impl Report {
    /// Adds a list of fixes. For sheets without a deformation step. Refused: 25 outside the profile, 9 over 2,048 fixes, 10 where the sheet has a deformation
    /// step and the list a fix; the report is then as it was.
    pub fn add(&mut self, sheet: &Sheet, profile: Profile, list: &[[f64; 4]]) -> Result<(), Refusal> {
        self.add_with(sheet, profile, list, &[], &[])
    }

    /// The same with a velocity and a mark for each fix, as [`Sheet::shift_with`] takes them; they serve both ways.
    pub fn add_with(
        &mut self,
        sheet: &Sheet,
        profile: Profile,
        list: &[[f64; 4]],
        velocities: &[[f64; 3]],
        marks: &[u8],
    ) -> Result<(), Refusal> {
        let list = list.as_flattened();
        let mut room = vec![0.0; list.len()];
        let mut numbers = self.numbers();
        lent::closure(&mut numbers, profile, sheet.as_bytes(), list, &mut room, velocities.as_flattened(), marks)?;
        *self = Report::from(numbers);
        Ok(())
    }

    /// The same with a velocity grid, as [`Sheet::shift_grid`] takes one. It serves both ways: each way looks it up where the fix then is.
    pub fn add_grid(&mut self, sheet: &Sheet, profile: Profile, list: &[[f64; 4]], grid: &Grid) -> Result<(), Refusal> {
        let list = list.as_flattened();
        let mut room = vec![0.0; list.len()];
        let mut numbers = self.numbers();
        lent::closure_grid(&mut numbers, profile, sheet.as_bytes(), list, &mut room, grid.as_bytes())?;
        *self = Report::from(numbers);
        Ok(())
    }

    /// The sixteen numbers of C's report: lists, tuples, NaNs, restored; then bits, list and index of each coordinate.
    pub fn numbers(&self) -> [u64; 16] {
        let [x, y, z, t] = self.largest.map(|w| [w.bits, w.list, w.index]);
        let mut all = [self.lists, self.tuples, self.nans, self.restored, 0, 0, 0, 0, 0, 0, 0, 0, 0, 0, 0, 0];
        all[4..7].copy_from_slice(&x);
        all[7..10].copy_from_slice(&y);
        all[10..13].copy_from_slice(&z);
        all[13..].copy_from_slice(&t);
        all
    }
}

impl From<[u64; 16]> for Report {
    fn from(n: [u64; 16]) -> Report {
        let largest = [4, 7, 10, 13].map(|i| Largest { bits: n[i], list: n[i + 1], index: n[i + 2] });
        Report { lists: n[0], tuples: n[1], nans: n[2], restored: n[3], largest }
    }
}

impl Sheet {
    /// Judges the sheet by a profile. Refused: 25 with the first offending step.
    ///
    /// ```
    /// use sillfeather::{Helmert, Profile, Refusal, Sheet};
    ///
    /// let exact = Sheet::builder().step(Helmert::BLANK).step(Helmert { exact: true, ..Helmert::BLANK }).build()?;
    /// assert_eq!(exact.judge(Profile::None), Ok(()));
    /// assert_eq!(exact.judge(Profile::Chart), Err(Refusal::Profile { step: 2 }));
    /// # Ok::<(), sillfeather::Refusal>(())
    /// ```
    pub fn judge(&self, profile: Profile) -> Result<(), Refusal> {
        lent::check_profile(self.as_bytes(), profile)
    }
}

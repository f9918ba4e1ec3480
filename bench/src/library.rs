//! The library's exported functions, as C has them: nothing is copied and nothing is checked on the
//! way. And the entries over columns.
use ours::columns;

/// Room for sixteen counts, whatever their width.
type Counts = [u64; 16];

type Check = unsafe extern "C" fn(*const u8, usize) -> u32;
type Shift =
    unsafe extern "C" fn(u32, *const u8, usize, *mut f64, usize, *const f64, usize, *const u8, usize, *mut Counts) -> u32;
type Keep = unsafe extern "C" fn(u32, *const u8, usize, *const f64, usize, *mut f64, usize, *mut f64, usize) -> u32;
type Correct = unsafe extern "C" fn(
    u32,
    *const u8,
    usize,
    *mut f64,
    usize,
    *mut f64,
    usize,
    *mut f64,
    usize,
    usize,
    *const [f64; 4],
    *mut u64,
) -> u32;

/// One build of the library.
pub struct Library {
    check: Check,
    shift: Shift,
    keep: Keep,
    correct: Correct,
}

macro_rules! build {
    ($check:ident, $shift:ident, $keep:ident, $correct:ident) => {{
        unsafe extern "C" {
            fn $check(sheet: *const u8, sheet_len: usize) -> u32;
            fn $shift(
                inverse: u32,
                sheet: *const u8,
                sheet_len: usize,
                list: *mut f64,
                list_len: usize,
                velocities: *const f64,
                velocities_len: usize,
                marks: *const u8,
                marks_len: usize,
                counts: *mut Counts,
            ) -> u32;
            fn $keep(
                inverse: u32,
                sheet: *const u8,
                sheet_len: usize,
                list: *const f64,
                list_len: usize,
                results: *mut f64,
                results_len: usize,
                track: *mut f64,
                track_len: usize,
            ) -> u32;
            fn $correct(
                inverse: u32,
                sheet: *const u8,
                sheet_len: usize,
                list: *mut f64,
                list_len: usize,
                results: *mut f64,
                results_len: usize,
                track: *mut f64,
                track_len: usize,
                index: usize,
                fix: *const [f64; 4],
                redone: *mut u64,
            ) -> u32;
        }
        Library { check: $check, shift: $shift, keep: $keep, correct: $correct }
    }};
}

pub fn present() -> Library {
    build!(sillfeather_check, sillfeather_shift, sillfeather_keep, sillfeather_correct)
}

/// The build that is compared with, where one is linked (build.rs).
#[cfg(before)]
pub fn before() -> Option<Library> {
    Some(build!(before_sillfeather_check, before_sillfeather_shift, before_sillfeather_keep, before_sillfeather_correct))
}

#[cfg(not(before))]
pub fn before() -> Option<Library> {
    None
}

impl Library {
    pub fn check(&self, sheet: &[u8]) {
        assert_eq!(unsafe { (self.check)(sheet.as_ptr(), sheet.len()) }, 0);
    }

    pub fn shift(&self, inverse: bool, sheet: &[u8], list: &mut [f64], velocities: &[f64], marks: &[u8]) {
        let mut counts = Counts::default();
        let told = unsafe {
            (self.shift)(
                inverse as u32,
                sheet.as_ptr(),
                sheet.len(),
                list.as_mut_ptr(),
                list.len(),
                velocities.as_ptr(),
                velocities.len(),
                marks.as_ptr(),
                marks.len(),
                &mut counts,
            )
        };
        assert_eq!(told, 0);
    }

    pub fn keep(&self, sheet: &[u8], list: &[f64], [results, track]: [&mut [f64]; 2]) {
        let (r, t) = (results.as_mut_ptr(), track.as_mut_ptr());
        let told =
            unsafe { (self.keep)(0, sheet.as_ptr(), sheet.len(), list.as_ptr(), list.len(), r, results.len(), t, track.len()) };
        assert_eq!(told, 0);
    }

    /// How many fixes were redone.
    pub fn correct(&self, sheet: &[u8], [list, results, track]: [&mut [f64]; 3], index: usize, fix: &[f64; 4]) -> u64 {
        let (l, r, t) = (list.as_mut_ptr(), results.as_mut_ptr(), track.as_mut_ptr());
        let mut redone = 0;
        let told = unsafe {
            let (sheet, n) = (sheet.as_ptr(), sheet.len());
            (self.correct)(0, sheet, n, l, list.len(), r, results.len(), t, track.len(), index, fix, &mut redone)
        };
        assert_eq!(told, 0);
        redone
    }
}

pub fn shift_columns(inverse: bool, sheet: &[u8], list: [&mut [f64]; 4], velocities: &[f64], marks: &[u8]) {
    assert_eq!(columns::shift(inverse, sheet, list, velocities, marks, [&mut [0; 16], &mut [0; 16]]), 0);
}

pub fn keep_columns(sheet: &[u8], list: [&[f64]; 4], [results, track]: [[&mut [f64]; 4]; 2]) {
    assert_eq!(columns::keep(false, sheet, list, results, track), 0);
}

/// How many fixes were redone.
pub fn correct_columns(sheet: &[u8], lists: [[&mut [f64]; 4]; 3], index: usize, fix: &[f64; 4]) -> u64 {
    let (told, redone) = columns::correct(false, sheet, lists, index, fix);
    assert_eq!(told, 0);
    redone
}

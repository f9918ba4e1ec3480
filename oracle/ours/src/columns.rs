//! The same calls through the columns entries: four columns for each list.
//!
//! A flat list of whole tuples is taken apart into columns here, and put together again; what the
//! columns entry leaves has to be what the flat entry left, number by number and by its bits. Of a
//! NaN that a step computed no bits are promised, so there any two NaNs are equal. A number that is
//! only carried (a time, a list that is kept, all that a refused call was lent) is compared by its
//! memory, a NaN's payload too.

/// Four columns.
pub type Columns = [Vec<f64>; 4];

unsafe extern "C" {
    fn sillfeather_shift_columns(
        inverse: u32,
        sheet: *const u8,
        sheet_len: usize,
        x: *mut f64,
        x_len: usize,
        y: *mut f64,
        y_len: usize,
        z: *mut f64,
        z_len: usize,
        t: *mut f64,
        t_len: usize,
        velocities: *const f64,
        velocities_len: usize,
        marks: *const u8,
        marks_len: usize,
        counts: *mut u32,
        out_of_reach: *mut u32,
    ) -> u32;
    fn sillfeather_keep_columns(
        inverse: u32,
        sheet: *const u8,
        sheet_len: usize,
        x: *const f64,
        x_len: usize,
        y: *const f64,
        y_len: usize,
        z: *const f64,
        z_len: usize,
        t: *const f64,
        t_len: usize,
        results_x: *mut f64,
        results_x_len: usize,
        results_y: *mut f64,
        results_y_len: usize,
        results_z: *mut f64,
        results_z_len: usize,
        results_t: *mut f64,
        results_t_len: usize,
        track_x: *mut f64,
        track_x_len: usize,
        track_y: *mut f64,
        track_y_len: usize,
        track_z: *mut f64,
        track_z_len: usize,
        track_t: *mut f64,
        track_t_len: usize,
    ) -> u32;
    fn sillfeather_keep_columns_reach(
        inverse: u32,
        sheet: *const u8,
        sheet_len: usize,
        x: *const f64,
        x_len: usize,
        y: *const f64,
        y_len: usize,
        z: *const f64,
        z_len: usize,
        t: *const f64,
        t_len: usize,
        results_x: *mut f64,
        results_x_len: usize,
        results_y: *mut f64,
        results_y_len: usize,
        results_z: *mut f64,
        results_z_len: usize,
        results_t: *mut f64,
        results_t_len: usize,
        track_x: *mut f64,
        track_x_len: usize,
        track_y: *mut f64,
        track_y_len: usize,
        track_z: *mut f64,
        track_z_len: usize,
        track_t: *mut f64,
        track_t_len: usize,
        counted: *mut u64,
        out_of_reach: *mut u64,
    ) -> u32;
    fn sillfeather_correct_columns(
        inverse: u32,
        sheet: *const u8,
        sheet_len: usize,
        x: *mut f64,
        x_len: usize,
        y: *mut f64,
        y_len: usize,
        z: *mut f64,
        z_len: usize,
        t: *mut f64,
        t_len: usize,
        results_x: *mut f64,
        results_x_len: usize,
        results_y: *mut f64,
        results_y_len: usize,
        results_z: *mut f64,
        results_z_len: usize,
        results_t: *mut f64,
        results_t_len: usize,
        track_x: *mut f64,
        track_x_len: usize,
        track_y: *mut f64,
        track_y_len: usize,
        track_z: *mut f64,
        track_z_len: usize,
        track_t: *mut f64,
        track_t_len: usize,
        index: usize,
        fix: *const f64,
        redone: *mut u64,
    ) -> u32;
    fn sillfeather_correct_columns_reach(
        inverse: u32,
        sheet: *const u8,
        sheet_len: usize,
        x: *mut f64,
        x_len: usize,
        y: *mut f64,
        y_len: usize,
        z: *mut f64,
        z_len: usize,
        t: *mut f64,
        t_len: usize,
        results_x: *mut f64,
        results_x_len: usize,
        results_y: *mut f64,
        results_y_len: usize,
        results_z: *mut f64,
        results_z_len: usize,
        results_t: *mut f64,
        results_t_len: usize,
        track_x: *mut f64,
        track_x_len: usize,
        track_y: *mut f64,
        track_y_len: usize,
        track_z: *mut f64,
        track_z_len: usize,
        track_t: *mut f64,
        track_t_len: usize,
        index: usize,
        fix: *const f64,
        redone: *mut u64,
        out_of_reach: *mut u64,
    ) -> u32;
}

/// The columns of a flat list of whole tuples.
pub fn columns(list: &[f64]) -> Columns {
    [0, 1, 2, 3].map(|k| list.iter().skip(k).step_by(4).copied().collect())
}

/// The flat list that columns of one length stand for.
pub fn flat(columns: &Columns) -> Vec<f64> {
    (0..columns[0].len()).flat_map(|i| columns.iter().map(move |c| c[i])).collect()
}

/// Columns as they are lent to be read, and to be written.
pub fn read(columns: &Columns) -> [&[f64]; 4] {
    columns.each_ref().map(|c| c.as_slice())
}

pub fn write(columns: &mut Columns) -> [&mut [f64]; 4] {
    columns.each_mut().map(|c| c.as_mut_slice())
}

/// A sheet over four columns; the refusal as C gets it.
pub fn shift(
    inverse: bool,
    sheet: &[u8],
    [x, y, z, t]: [&mut [f64]; 4],
    velocities: &[f64],
    marks: &[u8],
    [counts, out_of_reach]: [&mut [u32; 16]; 2],
) -> u32 {
    unsafe {
        sillfeather_shift_columns(
            inverse as u32,
            sheet.as_ptr(),
            sheet.len(),
            x.as_mut_ptr(),
            x.len(),
            y.as_mut_ptr(),
            y.len(),
            z.as_mut_ptr(),
            z.len(),
            t.as_mut_ptr(),
            t.len(),
            velocities.as_ptr(),
            velocities.len(),
            marks.as_ptr(),
            marks.len(),
            counts.as_mut_ptr(),
            out_of_reach.as_mut_ptr(),
        )
    }
}

/// A call of a kept run's entry: the list's columns by `$list`, those of results and track to be
/// written, then what else it takes.
macro_rules! kept {
    ($entry:ident, $inverse:expr, $sheet:expr, $list:ident [$($read:ident)*], [$($written:ident)*] $(, $more:expr)*) => {
        unsafe {
            $entry(
                $inverse as u32,
                $sheet.as_ptr(),
                $sheet.len(),
                $($read.$list(), $read.len(),)*
                $($written.as_mut_ptr(), $written.len(),)*
                $($more),*
            )
        }
    };
}

/// A fresh kept run over columns; the refusal as C gets it.
pub fn keep(
    inverse: bool,
    sheet: &[u8],
    [x, y, z, t]: [&[f64]; 4],
    [rx, ry, rz, rt]: [&mut [f64]; 4],
    [kx, ky, kz, kt]: [&mut [f64]; 4],
) -> u32 {
    kept!(sillfeather_keep_columns, inverse, sheet, as_ptr [x y z t], [rx ry rz rt kx ky kz kt])
}

/// The same; and how many fixes were counted, and how many met an angle out of reach.
pub fn keep_reach(
    inverse: bool,
    sheet: &[u8],
    [x, y, z, t]: [&[f64]; 4],
    [rx, ry, rz, rt]: [&mut [f64]; 4],
    [kx, ky, kz, kt]: [&mut [f64]; 4],
) -> (u32, [u64; 2]) {
    let [mut counted, mut out_of_reach] = [u64::MAX; 2]; // written, refused or not
    let told = kept!(
        sillfeather_keep_columns_reach, inverse, sheet, as_ptr [x y z t], [rx ry rz rt kx ky kz kt],
        &mut counted, &mut out_of_reach
    );
    (told, [counted, out_of_reach])
}

/// A correction over the columns of list, results and track; the refusal as C gets it, and how many
/// fixes were redone.
pub fn correct(
    inverse: bool,
    sheet: &[u8],
    [[x, y, z, t], [rx, ry, rz, rt], [kx, ky, kz, kt]]: [[&mut [f64]; 4]; 3],
    index: usize,
    fix: &[f64; 4],
) -> (u32, u64) {
    let mut redone = u64::MAX; // written, refused or not
    let told = kept!(
        sillfeather_correct_columns, inverse, sheet, as_mut_ptr [x y z t], [rx ry rz rt kx ky kz kt],
        index, fix.as_ptr(), &mut redone
    );
    (told, redone)
}

/// The same; and how many of those met an angle out of reach.
pub fn correct_reach(
    inverse: bool,
    sheet: &[u8],
    [[x, y, z, t], [rx, ry, rz, rt], [kx, ky, kz, kt]]: [[&mut [f64]; 4]; 3],
    index: usize,
    fix: &[f64; 4],
) -> (u32, [u64; 2]) {
    let [mut redone, mut out_of_reach] = [u64::MAX; 2]; // written, refused or not
    let told = kept!(
        sillfeather_correct_columns_reach, inverse, sheet, as_mut_ptr [x y z t], [rx ry rz rt kx ky kz kt],
        index, fix.as_ptr(), &mut redone, &mut out_of_reach
    );
    (told, [redone, out_of_reach])
}

// ----- the flat entry beside the columns entry ---------------------------------------------

/// Columns hold what a flat list holds: number by number the same bits, or two NaNs where the number
/// is not one that is only carried.
fn same(what: &str, columns: &Columns, list: &[f64], carried: impl Fn(usize) -> bool) {
    let joined = flat(columns);
    assert_eq!(joined.len(), list.len(), "{what}: as many numbers through columns");
    for (i, (a, b)) in joined.iter().zip(list).enumerate() {
        assert!(
            a.to_bits() == b.to_bits() || a.is_nan() && b.is_nan() && !carried(i),
            "{what}: number {i} of {}, {:016x} through columns and {:016x} flat",
            list.len(),
            a.to_bits(),
            b.to_bits()
        );
    }
}

/// Every bit.
fn same_memory(what: &str, columns: &Columns, list: &[f64]) {
    same(what, columns, list, |_| true);
}

/// No step computes a time, but that deformation makes a fix without a mark four NaNs.
fn is_time(number: usize) -> bool {
    number % 4 == 3
}

pub fn shifts_alike(
    inverse: bool,
    sheet: &[u8],
    before: &[f64],
    (told, counts, out_of_reach, after): (u32, &[u32; 16], &[u32; 16], &[f64]),
    velocities: &[f64],
    marks: &[u8],
) {
    if before.len() % 4 != 0 {
        return;
    }
    let mut list = columns(before);
    let [mut said, mut met] = [[u32::MAX; 16]; 2]; // each is written, refused or not
    let answer = shift(inverse, sheet, write(&mut list), velocities, marks, [&mut said, &mut met]);
    assert_eq!(told, answer, "a shift's answer through columns");
    assert_eq!(counts, &said, "a shift's counts through columns");
    assert_eq!(out_of_reach, &met, "a shift's tuples out of reach through columns");
    if told == 0 {
        same("a shift", &list, after, |i| is_time(i) && marks.is_empty());
    } else {
        same_memory("a refused shift", &list, before);
        same_memory("a refused shift, flat", &list, after);
    }
}

/// Lists of whole tuples: what columns of one length can stand for.
fn whole(before: &[Vec<f64>; 3]) -> bool {
    before.iter().all(|list| list.len() % 4 == 0)
}

/// A kept run through the columns entry, and through the one that tells the numbers.
pub fn keeps_alike(inverse: bool, sheet: &[u8], before: &[Vec<f64>; 3], (told, numbers, after): (u32, [u64; 2], [&[f64]; 3])) {
    if !whole(before) {
        return;
    }
    for reach in [false, true] {
        let [list, mut results, mut track] = [0, 1, 2].map(|k| columns(&before[k]));
        if reach {
            let said = keep_reach(inverse, sheet, read(&list), write(&mut results), write(&mut track));
            assert_eq!((told, numbers), said, "a kept run's answer and numbers through columns");
        } else {
            let said = keep(inverse, sheet, read(&list), write(&mut results), write(&mut track));
            assert_eq!(told, said, "a kept run's answer through columns");
        }
        if told == 0 {
            same("kept results", &results, after[1], is_time);
            same("a kept track", &track, after[2], |_| false);
        } else {
            for (columns, k) in [(&results, 1), (&track, 2)] {
                same_memory("a refused kept run", columns, &before[k]);
                same_memory("a refused kept run, flat", columns, after[k]);
            }
        }
    }
}

/// The same of a correction. The list is carried whole; of results and track all that stands before
/// the index, and after the fixes that were redone.
pub fn corrects_alike(
    inverse: bool,
    sheet: &[u8],
    before: &[Vec<f64>; 3],
    (index, fix): (u64, [f64; 4]),
    (told, [redone, out_of_reach], after): (u32, [u64; 2], [&[f64]; 3]),
) {
    if !whole(before) {
        return;
    }
    let (from, to) = if told == 0 { (4 * index as usize, 4 * (index + redone) as usize) } else { (0, 0) };
    let left = |i: usize| i < from || to <= i;
    for reach in [false, true] {
        let [mut list, mut results, mut track] = [0, 1, 2].map(|k| columns(&before[k]));
        let lists = [&mut list, &mut results, &mut track].map(write);
        if reach {
            let said = correct_reach(inverse, sheet, lists, index as usize, &fix);
            assert_eq!((told, [redone, out_of_reach]), said, "a correction's answer and numbers through columns");
        } else {
            let said = correct(inverse, sheet, lists, index as usize, &fix);
            assert_eq!((told, redone), said, "a correction's answer through columns");
        }
        same_memory("a corrected list", &list, after[0]);
        same("corrected results", &results, after[1], |i| left(i) || is_time(i));
        same("a corrected track", &track, after[2], left);
    }
    for k in 0..3 {
        let moved = if k == 0 { from..from + 4 } else { from..to };
        let kept = |i: &usize| told != 0 || !moved.contains(i);
        let parted = (0..before[k].len()).filter(kept).find(|&i| before[k][i].to_bits() != after[k][i].to_bits());
        assert!(parted.is_none(), "a correction changed number {parted:?} of list {k}, outside of {moved:?}");
    }
}

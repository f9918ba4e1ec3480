//! A velocity grid's check and lookup, and the deformation step by a grid over columns.
use crate::columns::{self, Columns};
use job::Answer;

unsafe extern "C" {
    fn sillfeather_check_grid(grid: *const u8, grid_len: usize) -> u32;
    fn sillfeather_shift_grid(
        inverse: u32,
        sheet: *const u8,
        sheet_len: usize,
        list: *mut f64,
        list_len: usize,
        velocities: *const f64,
        velocities_len: usize,
        marks: *const u8,
        marks_len: usize,
        grid: *const u8,
        grid_len: usize,
        counts: *mut u32,
        out_of_reach: *mut u32,
    ) -> u32;
    fn sillfeather_closure_grid(
        report: *mut u64,
        profile: u32,
        sheet: *const u8,
        sheet_len: usize,
        list: *const f64,
        list_len: usize,
        room: *mut f64,
        room_len: usize,
        velocities: *const f64,
        velocities_len: usize,
        marks: *const u8,
        marks_len: usize,
        grid: *const u8,
        grid_len: usize,
    ) -> u32;
    fn grid_found(grid: *const u8, grid_len: usize, lam: f64, phi: f64, east: *mut f64, north: *mut f64, up: *mut f64) -> u8;
    fn grid_found_block(
        grid: *const u8,
        grid_len: usize,
        lam: *const [f64; 16],
        phi: *const [f64; 16],
        marks: *mut [u8; 16],
        east: *mut [f64; 16],
        north: *mut [f64; 16],
        up: *mut [f64; 16],
    );
    fn grid_deformation(
        inverse: u32,
        flags: u32,
        ellipsoid: u32,
        dt: f64,
        epoch: f64,
        x: *mut f64,
        x_len: usize,
        y: *mut f64,
        y_len: usize,
        z: *mut f64,
        z_len: usize,
        t: *mut f64,
        t_len: usize,
        grid: *const u8,
        grid_len: usize,
    ) -> usize;
}

/// A mark, and east, north and up.
pub type Found = (u8, [f64; 3]);

/// 0, 17 or 18.
pub fn check(grid: &[u8]) -> u32 {
    unsafe { sillfeather_check_grid(grid.as_ptr(), grid.len()) }
}

/// A sheet over a list with a grid, through the library's entry; and how many tuples met an angle out of reach in each step.
pub fn shift(inverse: bool, sheet: &[u8], list: &[f64], velocities: &[f64], marks: &[u8], grid: &[u8]) -> (Answer, [u32; 16]) {
    let [mut counts, mut out_of_reach] = [[u32::MAX; 16]; 2]; // each is written, refused or not
    let mut list = list.to_vec();
    let told = unsafe {
        sillfeather_shift_grid(
            inverse as u32,
            sheet.as_ptr(),
            sheet.len(),
            list.as_mut_ptr(),
            list.len(),
            velocities.as_ptr(),
            velocities.len(),
            marks.as_ptr(),
            marks.len(),
            grid.as_ptr(),
            grid.len(),
            counts.as_mut_ptr(),
            out_of_reach.as_mut_ptr(),
        )
    };
    let (refusal, step) = crate::apart(told);
    (Answer { refusal, step, counts, list }, out_of_reach)
}

/// A list added to a closure report with a grid; the refusal's number and step.
pub fn closure(
    report: &mut [u64; 16],
    profile: u32,
    sheet: &[u8],
    list: &[f64],
    room: &mut [f64],
    velocities: &[f64],
    marks: &[u8],
    grid: &[u8],
) -> (u32, u32) {
    crate::apart(unsafe {
        sillfeather_closure_grid(
            report.as_mut_ptr(),
            profile,
            sheet.as_ptr(),
            sheet.len(),
            list.as_ptr(),
            list.len(),
            room.as_mut_ptr(),
            room.len(),
            velocities.as_ptr(),
            velocities.len(),
            marks.as_ptr(),
            marks.len(),
            grid.as_ptr(),
            grid.len(),
        )
    })
}

pub fn found(grid: &[u8], lam: f64, phi: f64) -> Found {
    let mut v = [0.0; 3];
    let [east, north, up] = &mut v;
    let mark = unsafe { grid_found(grid.as_ptr(), grid.len(), lam, phi, east, north, up) };
    (mark, v)
}

pub fn found_block(grid: &[u8], lam: &[f64; 16], phi: &[f64; 16]) -> [Found; 16] {
    let (mut m, mut e, mut n, mut u) = ([9; 16], [9.0; 16], [9.0; 16], [9.0; 16]);
    unsafe { grid_found_block(grid.as_ptr(), grid.len(), lam, phi, &mut m, &mut e, &mut n, &mut u) };
    std::array::from_fn(|k| (m[k], [e[k], n[k], u[k]]))
}

/// A deformation record's numbers.
#[derive(Clone, Copy, Debug)]
pub struct Step {
    pub flags: u32,
    pub ellipsoid: u32,
    pub dt: f64,
    pub t_epoch: f64,
}

/// The step by a grid over a list's columns: the list afterwards, and the count.
pub fn deformation(inverse: bool, step: Step, list: &[f64], grid: &[u8]) -> (Vec<f64>, usize) {
    let mut all: Columns = columns::columns(list);
    let [x, y, z, t] = columns::write(&mut all);
    let counted = unsafe {
        grid_deformation(
            inverse as u32,
            step.flags,
            step.ellipsoid,
            step.dt,
            step.t_epoch,
            x.as_mut_ptr(),
            x.len(),
            y.as_mut_ptr(),
            y.len(),
            z.as_mut_ptr(),
            z.len(),
            t.as_mut_ptr(),
            t.len(),
            grid.as_ptr(),
            grid.len(),
        )
    };
    (columns::flat(&all), counted)
}

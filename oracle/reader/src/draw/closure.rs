//! Lists for the closure report, and sheets near the profile's rules.

use super::list::{grid_for, has_deformation, length, list_for};
use super::numbers::{marks, velocities};
use super::sheet::{self, Drawn, Space, draw_record, ellipsoid, helmert_of};
use crate::In;
use crate::closure::Listed;
use crate::random::Random;
use crate::sheet::{Body, Cart, Record, Step, bytes_untested};
use crate::steps::Mode::{Fixed, OwnEpoch, Running, Static};

/// An input of `closure::report`.
#[derive(Clone, Debug)]
pub struct Reported {
    pub sheet: Vec<u8>,
    pub lists: Vec<Listed>,
    pub grid: Option<Vec<u8>>,
    pub profile: bool,
}

/// A sheet that passes the profile, or offends it by one thing.
pub fn near_the_profile(r: &mut Random, inp: &In) -> Drawn {
    let count = 1 + r.below(4) as usize;
    let mut steps = Vec::new();
    let before = if r.once_in(2) { Space::Geographic } else { Space::Cartesian };
    let mut space = before;
    for _ in 0..count {
        if space == Space::Geographic || r.once_in(3) {
            let inverted = (space == Space::Cartesian) as u32;
            let body = Body::Cart(Cart { ellipsoid: ellipsoid(r, 0) });
            steps.push(Step { inverted, body });
            space = if inverted == 1 { Space::Geographic } else { Space::Cartesian };
        } else {
            let mode = r.pick(&[Static, Static, OwnEpoch, OwnEpoch, OwnEpoch, Fixed, Running]);
            let mut h = helmert_of(r, inp, mode);
            if !r.once_in(8) {
                h.flags &= !1;
            }
            steps.push(Step { inverted: r.once_in(3) as u32, body: Body::Helmert(h) });
        }
    }
    if r.once_in(6) {
        let at = r.below(count as u64) as usize;
        steps[at].body = match r.below(4) {
            0 => Body::Molodensky(sheet::molodensky(r, 0)),
            1 => Body::Permtide(sheet::permtide(r, 0)),
            2 if inp.a4 => Body::Badekas(sheet::badekas(r)),
            _ => Body::Deformation(sheet::deformation(r, inp, 0)),
        };
    }
    Drawn { record: Record::of(&steps), before, after: space }
}

/// From no list to eight, mostly short; now and then a list, a mark, a grid or the sheet is out
/// of rule. Some tuples repeat an earlier one, so that ties are met.
pub fn draw_reported(r: &mut Random, inp: &In) -> Reported {
    let drawn = if r.once_in(2) { near_the_profile(r, inp) } else { draw_record(r, inp) };
    let lists = r.pick(&[0, 1, 1, 2, 2, 3, 8]);
    let mut sheet = bytes_untested(&drawn.record);
    let deformed = has_deformation(&drawn.record);
    let with_grid = inp.a1 && r.once_in(if deformed { 2 } else { 20 });
    let mut all = Vec::new();
    for _ in 0..lists {
        let tuples = length(r).min(300);
        let mut list = list_for(r, &drawn, false, tuples);
        for i in 1..tuples {
            if r.once_in(12) {
                let from = 4 * r.below(i as u64) as usize;
                list.copy_within(from..from + 4, 4 * i);
            }
        }
        let lent = if deformed && !with_grid { tuples } else { 0 };
        all.push(Listed { list, velocities: velocities(r, lent), marks: marks(r, lent) });
    }
    let first: &[f64] = all.first().map_or(&[], |listed| &listed.list);
    let grid = with_grid.then(|| grid_for(r, inp, false, &sheet, first));
    for _ in 0..if r.once_in(8) { 2 } else { 0 } {
        match r.below(4) {
            0 => sheet::damage(r, &mut sheet),
            1 => {
                if let Some(listed) = all.last_mut() {
                    listed.list.push(1.0);
                }
            }
            2 => {
                if let Some(listed) = all.first_mut() {
                    listed.marks.push(r.below(3) as u8);
                }
            }
            _ => {
                if let Some(listed) = all.last_mut() {
                    listed.list.resize(4 * 2049, 1.0);
                }
            }
        }
    }
    Reported { sheet, lists: all, grid, profile: r.once_in(2) }
}

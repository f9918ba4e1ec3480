//! Damaged sheets for the rescue.

use super::sheet::{draw_record, set_word, spoil_record, spoiled_bytes};
use crate::random::Random;
use crate::rescue::rescue;
use crate::sheet::bytes_untested;
use crate::{In, word_at};

/// An input of `rescue::rescue`.
#[derive(Clone, Debug)]
pub struct Damaged {
    pub sheet: Vec<u8>,
    pub room: usize,
    pub places: usize,
}

/// Mostly a sheet of form 1 whose rebuilt words are wrong, from none of them to all; sometimes
/// one that can't be rebuilt, or whose bodies the reader refuses. Room and list are mostly as
/// needed, more, or one too short.
pub fn draw_damaged(r: &mut Random, inp: &In) -> Damaged {
    let mut record = draw_record(r, inp).record;
    if r.once_in(5) {
        spoil_record(r, inp, &mut record);
    }
    if !r.once_in(10) && record.form == 2 {
        (record.form, record.own) = (1, 0);
    }
    let mut sheet = if record.count == 0 || record.count > 16 {
        spoiled_bytes(&record)
    } else {
        record.own = record.own.min(8);
        bytes_untested(&record)
    };
    let count = record.count.clamp(1, 16) as usize;
    let rebuilt = [0, 4, 12].into_iter().chain((0..count).flat_map(|i| [24 + 16 * i, 28 + 16 * i]));
    let often = r.pick(&[1, 2, 4, 8]);
    for at in rebuilt {
        if at + 4 <= sheet.len() && r.once_in(often) {
            let old = word_at(&sheet, at);
            let new = match r.below(3) {
                0 => old.wrapping_add(r.pick(&[1, 4, 8, 16, u32::MAX])),
                1 => old ^ (1 << r.below(32)),
                _ => r.wild_word(),
            };
            set_word(&mut sheet, at, new);
        }
    }
    if r.once_in(6) {
        beyond_rescue(r, &mut sheet, count);
    }
    let needed = rescue(inp, &sheet, usize::MAX, usize::MAX).changes.len();
    let room = around(r, sheet.len());
    let places = around(r, needed);
    Damaged { sheet, room, places }
}

/// As needed, more, one too short, or none.
fn around(r: &mut Random, needed: usize) -> usize {
    match r.below(12) {
        0 => needed.saturating_sub(1),
        1 => 0,
        2 => needed + 1 + r.below(100) as usize,
        _ => needed,
    }
}

/// Bytes too many or too few, or the step count, a kind or an inverted word changed.
fn beyond_rescue(r: &mut Random, sheet: &mut Vec<u8>, count: usize) {
    let step = 16 + 16 * r.below(count as u64) as usize;
    match r.below(6) {
        0 => {
            let keep = r.below(sheet.len() as u64 + 1) as usize;
            sheet.truncate(keep);
        }
        1 => {
            let more = r.pick(&[1, 8, 24, 88]);
            sheet.extend((0..more).map(|_| r.bits() as u8));
        }
        2 => set_word(sheet, 8, r.pick(&[0, 1, 2, 16, 17, u32::MAX])),
        // 4 and 5 are of one length: the bodies still fill the sheet.
        3 | 4 => set_word(sheet, step, r.pick(&[0, 1, 2, 3, 4, 5, 6, 7, u32::MAX])),
        _ => set_word(sheet, step + 4, r.pick(&[0, 1, 2, u32::MAX])),
    }
}

//! Stores driven through a day of opening, correcting and closing.

use super::kept::{correction, one_step};
use super::list::{an_epoch, draw_list};
use super::sheet::{self, Space};
use crate::In;
use crate::random::Random;
use crate::sheet::{Body, bytes_untested, check};
use crate::store::Store;

/// A call of an entry.
#[derive(Clone, Debug)]
pub enum Call {
    Open { identifier: u32, inverse: bool, sheet: Vec<u8>, list: Vec<f64> },
    Close { identifier: u32 },
    Correct { identifier: u32, index: u64, fix: [f64; 4] },
}

/// A buffer of zeros and the calls on it, one after another.
#[derive(Clone, Debug)]
pub struct Day {
    pub length: usize,
    pub calls: Vec<Call>,
}

/// The answer of a call on the reader's store.
pub fn answer(store: &mut Store, inp: &In, call: &Call) -> crate::store::Told {
    match call {
        Call::Open { identifier, inverse, sheet, list } => {
            store.open(inp, *identifier, *inverse, sheet, list)
        }
        Call::Close { identifier } => store.close(*identifier),
        Call::Correct { identifier, index, fix } => store.correct(inp, *identifier, *index, *fix),
    }
}

/// `header` is the header's length by docs. Buffers range from shorter than the header to room
/// for all sixteen; many openings ask for what is just free, or for a fix more.
pub fn draw_day(r: &mut Random, inp: &In, header: usize, calls: usize) -> Day {
    let length = match r.below(12) {
        0 => r.pick(&[0, header - 1, header, header + 1, header + 279, header + 280]),
        1 => header + 16 * (280 + 96 * 4),
        2 => header + 60000,
        _ => header + 300 + r.below(6000) as usize,
    };
    // On some days nearly every call opens, so that all sixteen are met.
    let eager = r.once_in(5);
    let length = if eager { header + 20000 + r.below(9) as usize } else { length };
    let mut store = Store::empty(length, header);
    let mut day = Day { length, calls: vec![] };
    for _ in 0..calls {
        let call = draw_call(r, inp, &store, eager);
        answer(&mut store, inp, &call);
        day.calls.push(call);
    }
    day
}

/// One call that fits the store as it stands.
pub fn draw_call(r: &mut Random, inp: &In, store: &Store, eager: bool) -> Call {
    if eager && !r.once_in(6) {
        return draw_open(r, inp, store);
    }
    let opening = if store.runs.len() < 3 { 6 } else { 4 };
    match r.below(10) {
        n if n < opening => draw_open(r, inp, store),
        n if n < 8 => draw_correct(r, store),
        _ => Call::Close { identifier: known(r, store) },
    }
}

/// Mostly an open one; else out of range, at the ends of the range, or any.
fn known(r: &mut Random, store: &Store) -> u32 {
    if store.runs.is_empty() || r.once_in(10) {
        return any_identifier(r);
    }
    store.runs[r.below(store.runs.len() as u64) as usize].identifier
}

fn any_identifier(r: &mut Random) -> u32 {
    match r.below(8) {
        0 => r.pick(&[0, 65536, 65537, 1 << 31, u32::MAX]),
        1 => r.pick(&[1, 65535]),
        2 => 1 + r.below(65535) as u32,
        _ => 1 + r.below(24) as u32,
    }
}

fn draw_open(r: &mut Random, inp: &In, store: &Store) -> Call {
    let identifier = if r.once_in(12) { known(r, store) } else { any_identifier(r) };
    let record = one_step(r, inp);
    let mut sheet = bytes_untested(&record);
    let free = if store.in_rule { store.free() } else { 0 };
    // The fixes that still fit.
    let fit = free.saturating_sub(sheet.len()) / 96;
    let fixes = match r.below(8) {
        0 if fit < 100 => fit,
        1 if fit < 100 => fit + 1,
        2 => 0,
        _ => r.below(10) as usize,
    };
    let epoch = an_epoch(&record);
    let mut list = draw_list(r, fixes, Space::Cartesian, epoch);
    if r.once_in(16) {
        match r.below(4) {
            0 => sheet::damage(r, &mut sheet),
            1 => list.push(1.0),
            2 => sheet = bytes_untested(&sheet::draw_record(r, inp).record),
            _ => list.resize(4 * 2049, 1.0),
        }
    }
    Call::Open { identifier, inverse: r.once_in(2), sheet, list }
}

fn draw_correct(r: &mut Random, store: &Store) -> Call {
    let identifier = known(r, store);
    let (index, fix) = match store.look(identifier) {
        Ok(run) => correction(r, &run.memory.list, epoch_of(&run.sheet)),
        Err(_) => (r.below(4), [1.0, 2.0, 3.0, 2010.0]),
    };
    Call::Correct { identifier, index, fix }
}

/// The epoch of a Helmert sheet that is open.
fn epoch_of(sheet: &[u8]) -> f64 {
    match check(&In::ALL, sheet).map(|record| record.steps[0].body.clone()) {
        Ok(Body::Helmert(h)) => h.t_epoch,
        _ => f64::NAN,
    }
}

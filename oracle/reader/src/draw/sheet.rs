//! Records and sheets: in rule with fields at their limits, out of rule by one field, damaged.

use super::numbers::{Style, epoch, epoch_or_none, parameter, style, three, zeros};
use crate::random::Random;
use crate::sheet::{
    Badekas, Body, Cart, Deformation, Helmert, Molodensky, NOT_GIVEN, Permtide, Record, Step,
    bytes_untested,
};
use crate::steps::Mode;
use crate::{In, word_at};

/// Where a tuple stands between two steps.
#[derive(Clone, Copy, PartialEq, Debug)]
pub enum Space {
    Geographic,
    Cartesian,
}

/// A record that fits together, with the space of its tuples before the first step and after the
/// last one. Nearly always in rule; 6, 7, 8 and 11 are met now and then.
#[derive(Clone, Debug)]
pub struct Drawn {
    pub record: Record,
    pub before: Space,
    pub after: Space,
}

// ----- Good records ------------------------------------------------------------------------

pub fn draw_record(r: &mut Random, inp: &In) -> Drawn {
    let count = match r.below(20) {
        0 => 16,
        1 => 2 + r.below(15) as usize,
        2..=5 => 2 + r.below(3) as usize,
        _ => 1,
    };
    draw_record_of(r, inp, count)
}

/// With this many steps.
pub fn draw_record_of(r: &mut Random, inp: &In, count: usize) -> Drawn {
    let mut record = Record::of(&[]);
    if inp.a8 && r.once_in(2) {
        record.form = 2;
        record.own = r.pick(&[0, 1, 2, 7, 8]);
        for row in record.rows.iter_mut().take(record.own as usize) {
            *row = own_row(r);
        }
    }
    let before = if r.once_in(2) { Space::Geographic } else { Space::Cartesian };
    let mut space = before;
    let mut deformed = false;
    record.count = count as u32;
    for i in 0..count {
        let (step, after) = fitting_step(r, inp, record.own, space, &mut deformed);
        record.steps[i] = step;
        space = after;
    }
    Drawn { record, before, after: space }
}

/// A row of an own ellipsoid: ordinary, or at its limits.
pub fn own_row(r: &mut Random) -> [f64; 2] {
    let a = match r.below(4) {
        0 => r.pick(&[1.0, 1e9]),
        1 => r.between(1.0, 1e9),
        _ => r.between(6.3e6, 6.4e6),
    };
    let rf = match r.below(4) {
        0 => r.pick(&[2.0, 1e9]),
        1 => r.between(2.0, 1e9),
        _ => r.between(250.0, 350.0),
    };
    [a, rf]
}

/// A step that takes tuples of this space, and the space that it leaves them in.
fn fitting_step(
    r: &mut Random,
    inp: &In,
    own: u32,
    space: Space,
    deformed: &mut bool,
) -> (Step, Space) {
    let any = r.once_in(40);
    let kind = if any {
        r.pick(&[1, 2, 3, 4, 5])
    } else if space == Space::Geographic {
        r.pick(&[2, 2, 3, 4])
    } else {
        r.pick(&[1, 1, 1, 2, 5, if inp.a4 { 6 } else { 1 }])
    };
    let kind = if kind == 5 && *deformed && !r.once_in(20) { 1 } else { kind };
    *deformed |= kind == 5;
    let body = body_of_kind(r, inp, own, kind);
    let mut inverted = r.once_in(3) as u32;
    let mut after = space;
    if kind == 2 && !any {
        inverted = (space == Space::Cartesian) as u32;
        after = if inverted == 1 { Space::Geographic } else { Space::Cartesian };
    }
    (Step { inverted, body }, after)
}

/// A body of a kind from 1 to 6, nearly always in rule.
pub fn body_of_kind(r: &mut Random, inp: &In, own: u32, kind: u32) -> Body {
    match kind {
        1 => Body::Helmert(helmert(r, inp)),
        2 => Body::Cart(Cart { ellipsoid: ellipsoid(r, own) }),
        3 => Body::Molodensky(molodensky(r, own)),
        4 => Body::Permtide(permtide(r, own)),
        5 => Body::Deformation(deformation(r, inp, own)),
        _ => Body::Badekas(badekas(r)),
    }
}

pub fn ellipsoid(r: &mut Random, own: u32) -> u32 {
    if own > 0 && r.once_in(2) { 6 + r.below(own as u64) as u32 } else { 1 + r.below(5) as u32 }
}

/// A Helmert body of any mode.
pub fn helmert(r: &mut Random, inp: &In) -> Helmert {
    let mode = r.pick(&[Mode::Static, Mode::Fixed, Mode::Running, Mode::Running, Mode::OwnEpoch]);
    helmert_of(r, inp, mode)
}

/// Of one mode: no rates if static, t_obs if fixed. Now and then what 6 and 7 ask for is left
/// out.
pub fn helmert_of(r: &mut Random, inp: &In, mode: Mode) -> Helmert {
    let style = style(r);
    let mut h = Helmert::blank(inp);
    h.flags = r.below(8) as u32;
    h.convention = if r.once_in(30) { 0 } else { 1 + r.below(2) as u32 };
    (h.translation, h.xyz) = pair(r, style, 500.0);
    if !r.once_in(4) {
        (h.rotation, h.rxyz) = angles(r, style, 5.0);
    }
    (h.scale, h.s) = (parameter(r, style, 20.0), parameter(r, style, 20.0));
    if r.once_in(3) {
        h.scale = r.sign(0.0);
    }
    h.t_epoch = epoch(r, style);
    if mode == Mode::Static {
        (h.translation_rate, h.dxyz) = (zeros(r), zeros(r));
        (h.rotation_rate, h.drxyz) = (zeros(r), zeros(r));
        (h.scale_rate, h.ds) = (r.sign(0.0), r.sign(0.0));
        h.t_obs = r.pick(&[NOT_GIVEN, 2011.5]);
    } else {
        rates(r, style, &mut h);
    }
    if mode == Mode::Fixed {
        h.t_obs = match style {
            Style::Wild => r.wild_finite(),
            _ => 1990.0 + r.below(500) as f64 / 10.0,
        };
    }
    h.flags |= match mode {
        Mode::OwnEpoch => 8,
        Mode::Running => 0,
        Mode::Static | Mode::Fixed => 8 * r.below(2) as u32,
    };
    if r.once_in(30) || mode == Mode::Static && r.once_in(2) {
        h.t_epoch = NOT_GIVEN;
    }
    h
}

fn rates(r: &mut Random, style: Style, h: &mut Helmert) {
    if !r.once_in(4) {
        (h.translation_rate, h.dxyz) = pair(r, style, 3.0);
    }
    if !r.once_in(4) {
        (h.rotation_rate, h.drxyz) = angles(r, style, 0.5);
    }
    (h.scale_rate, h.ds) = (parameter(r, style, 0.2), parameter(r, style, 0.2));
    if r.once_in(3) {
        h.scale_rate = r.sign(0.0);
    }
    if r.once_in(6) {
        vanishing(r, h);
    }
}

/// Rates so small that their units make them zero: the sheet is then static.
fn vanishing(r: &mut Random, h: &mut Helmert) {
    let tiny = f64::from_bits(1 + r.below(3));
    h.translation_rate = [(); 3].map(|()| r.sign(tiny));
    h.rotation_rate = [(); 3].map(|()| r.sign(tiny));
    (h.dxyz, h.drxyz) = (zeros(r), zeros(r));
    (h.scale_rate, h.ds) = (r.sign(tiny), r.sign(0.0));
}

/// A series and its singles, of which some are zero.
fn pair(r: &mut Random, style: Style, size: f64) -> ([f64; 3], [f64; 3]) {
    let series = three(r, style, size);
    let single = |r: &mut Random| {
        if r.once_in(2) { r.sign(0.0) } else { parameter(r, style, size) }
    };
    (series, [(); 3].map(|()| single(r)))
}

/// Angles in the sheet's unit; in wild sheets also some near the kernels' reach or past it.
fn angles(r: &mut Random, style: Style, size: f64) -> ([f64; 3], [f64; 3]) {
    let size = if style == Style::Wild { r.pick(&[1e6, 2.112e8, 2.2e8, 2.2e14]) } else { size };
    pair(r, style, size)
}

pub fn molodensky(r: &mut Random, own: u32) -> Molodensky {
    let style = style(r);
    let flags = r.below(4) as u32;
    let two = flags & 2 != 0;
    let mut m = Molodensky {
        flags,
        first: ellipsoid(r, own),
        second: if two { ellipsoid(r, own) } else { 0 },
        dx: parameter(r, style, 500.0),
        dy: parameter(r, style, 500.0),
        dz: parameter(r, style, 500.0),
        da: parameter(r, style, 600.0),
        df: parameter(r, style, 1e-4),
    };
    if two {
        (m.da, m.df) = (0.0, 0.0);
    }
    m
}

pub fn permtide(r: &mut Random, own: u32) -> Permtide {
    let style = style(r);
    let k = if style == Style::Ordinary { 0.3 } else { parameter(r, style, 1.0) };
    let (to, from) = (1 + r.below(3) as u32, 1 + r.below(3) as u32);
    Permtide { ellipsoid: ellipsoid(r, own), to, from, k }
}

/// dt, t_epoch or both; now and then neither, which 8 refuses. Raw once in five.
pub fn deformation(r: &mut Random, inp: &In, own: u32) -> Deformation {
    let style = style(r);
    let dt = if r.once_in(2) { NOT_GIVEN } else { parameter(r, style, 30.0) };
    let t_epoch = match dt.is_nan() {
        true if r.once_in(20) => NOT_GIVEN,
        true => epoch(r, style),
        false => epoch_or_none(r, style),
    };
    let flags = r.once_in(5) as u32 + if inp.a13 { 2 * r.below(2) as u32 } else { 0 };
    Deformation { flags, ellipsoid: ellipsoid(r, own), dt, t_epoch }
}

pub fn badekas(r: &mut Random) -> Badekas {
    let style = style(r);
    let rotation = if r.once_in(4) { zeros(r) } else { angles(r, style, 5.0).0 };
    let pivot = match r.below(4) {
        0 => [0.0; 3],
        1 => zeros(r),
        _ => three(r, style, 6.4e6),
    };
    Badekas {
        flags: r.below(8) as u32,
        convention: if r.once_in(20) { 0 } else { 1 + r.below(2) as u32 },
        translation: three(r, style, 500.0),
        rotation,
        scale: parameter(r, style, 20.0),
        pivot,
    }
}

// ----- Records out of rule -------------------------------------------------------------------

/// Puts one thing of a record outside its rule, or at the bound of it.
pub fn spoil_record(r: &mut Random, inp: &In, record: &mut Record) {
    match r.below(16) {
        0 => record.count = r.pick(&[0, 17, 18, u32::MAX]),
        1 => {
            let step = any_step(r, record);
            step.inverted = r.pick(&[2, 3, 256, u32::MAX]);
        }
        2 => {
            let kind = r.pick(&[0, 6, 7, 8, 255, 256, u32::MAX]);
            if !(inp.a4 && kind == 6) {
                any_step(r, record).body = Body::Other(kind);
            }
        }
        3 if inp.a8 => record.form = r.pick(&[0, 3, 256, u32::MAX]),
        4 if inp.a8 => spoil_rows(r, record),
        5 => {
            // A second deformation step, or a third.
            for _ in 0..1 + r.below(2) {
                let d = deformation(r, inp, 0);
                any_step(r, record).body = Body::Deformation(d);
            }
        }
        _ => {
            let own = record.own;
            let step = any_step(r, record);
            spoil_body(r, &mut step.body, own);
        }
    }
}

fn any_step<'a>(r: &mut Random, record: &'a mut Record) -> &'a mut Step {
    &mut record.steps[r.below(record.count.clamp(1, 16) as u64) as usize]
}

/// The count of own ellipsoids, or a row at its bound or one unit in the last place beside it.
fn spoil_rows(r: &mut Random, record: &mut Record) {
    if record.own == 0 || record.form == 1 || r.once_in(4) {
        record.own = r.pick(&[1, 8, 9, 10, 255, u32::MAX]);
        return;
    }
    let row = &mut record.rows[r.below(record.own.min(8) as u64) as usize];
    let at = r.below(2) as usize;
    let bound = r.pick(&[[1.0, 2.0][at], 1e9]);
    row[at] = match r.below(4) {
        0 => r.wild(),
        1 => -bound,
        _ => r.at_or_next(bound),
    };
}

/// A number that is not finite.
fn not_finite(r: &mut Random) -> f64 {
    if r.once_in(2) { r.nan() } else { r.sign(f64::INFINITY) }
}

/// A body with one field outside its rule or beside its bound.
pub fn spoil_body(r: &mut Random, body: &mut Body, own: u32) {
    let ellipsoids = [0, 1, 5, 6, 5 + own, 6 + own, 13, 14, 256, u32::MAX];
    match body {
        Body::Helmert(h) => match r.below(8) {
            0 => h.flags = r.pick(&[15, 16, 17, 31, 1 << 31, u32::MAX]),
            1 => h.convention = r.pick(&[0, 3, 4, 256, u32::MAX]),
            2 => h.t_epoch = r.nan(),
            3 => h.t_obs = r.nan(),
            4 => {
                let x = r.sign(f64::INFINITY);
                *r.pick_mut([&mut h.t_epoch, &mut h.t_obs]) = x;
            }
            5 => {
                let x = not_finite(r);
                *r.pick_mut([&mut h.scale, &mut h.s, &mut h.scale_rate, &mut h.ds]) = x;
            }
            _ => {
                let (x, j) = (not_finite(r), r.below(3) as usize);
                r.pick_mut([
                    &mut h.translation,
                    &mut h.xyz,
                    &mut h.translation_rate,
                    &mut h.dxyz,
                    &mut h.rotation,
                    &mut h.rxyz,
                    &mut h.rotation_rate,
                    &mut h.drxyz,
                ])[j] = x;
            }
        },
        Body::Cart(c) => c.ellipsoid = r.pick(&ellipsoids),
        Body::Molodensky(m) => match r.below(6) {
            0 => m.flags = r.pick(&[0, 1, 2, 3, 4, 5, 256, u32::MAX]),
            1 => m.first = r.pick(&ellipsoids),
            2 => m.second = r.pick(&ellipsoids),
            3 => {
                let x = r.pick(&[-0.0, f64::from_bits(1), 1.0]);
                *r.pick_mut([&mut m.da, &mut m.df]) = x;
            }
            _ => {
                let x = not_finite(r);
                *r.pick_mut([&mut m.dx, &mut m.dy, &mut m.dz, &mut m.da, &mut m.df]) = x;
            }
        },
        Body::Permtide(p) => match r.below(4) {
            0 => p.ellipsoid = r.pick(&ellipsoids),
            1 => p.to = r.pick(&[0, 1, 3, 4, 256, u32::MAX]),
            2 => p.from = r.pick(&[0, 1, 3, 4, 256, u32::MAX]),
            _ => p.k = not_finite(r),
        },
        Body::Deformation(d) => match r.below(4) {
            0 => d.flags = r.pick(&[1, 2, 3, 4, 5, 256, u32::MAX]),
            1 => d.ellipsoid = r.pick(&ellipsoids),
            2 => d.dt = not_finite(r),
            _ => d.t_epoch = not_finite(r),
        },
        Body::Badekas(m) => match r.below(4) {
            0 => m.flags = r.pick(&[7, 8, 9, 15, 256, u32::MAX]),
            1 => m.convention = r.pick(&[0, 3, 4, 256, u32::MAX]),
            2 => m.scale = not_finite(r),
            _ => {
                let (x, j) = (not_finite(r), r.below(3) as usize);
                r.pick_mut([&mut m.translation, &mut m.rotation, &mut m.pivot])[j] = x;
            }
        },
        Body::Other(_) => {}
    }
}

// ----- Bytes -----------------------------------------------------------------------------------

/// A sheet: mostly of a good record, sometimes of a spoiled one, sometimes damaged in its bytes.
pub fn draw_sheet(r: &mut Random, inp: &In) -> Vec<u8> {
    let mut record = draw_record(r, inp).record;
    match r.below(6) {
        0 | 1 => {
            spoil_record(r, inp, &mut record);
            let mut sheet = spoiled_bytes(&record);
            if r.once_in(6) {
                damage(r, &mut sheet);
            }
            sheet
        }
        2 => {
            let mut sheet = bytes_untested(&record);
            for _ in 0..1 + r.below(2) {
                damage(r, &mut sheet);
            }
            sheet
        }
        _ => bytes_untested(&record),
    }
}

/// The bytes that a writer without tests would write. Counts past their bounds are written as
/// they are, over as many steps and rows as there are.
pub fn spoiled_bytes(record: &Record) -> Vec<u8> {
    let mut held = record.clone();
    held.count = held.count.clamp(1, 16);
    held.own = held.own.min(8);
    held.form = if record.form == 1 { 1 } else { 2 };
    let mut sheet = bytes_untested(&held);
    set_word(&mut sheet, 0, record.form);
    set_word(&mut sheet, 8, record.count);
    if held.form == 2 {
        set_word(&mut sheet, 16, record.own);
    }
    sheet
}

pub fn set_word(bytes: &mut [u8], at: usize, word: u32) {
    bytes[at..at + 4].copy_from_slice(&word.to_le_bytes());
}

/// Cuts, lengthens or changes a sheet's bytes; about half of the time the total length is mended,
/// so that the rules behind 1 are reached.
pub fn damage(r: &mut Random, sheet: &mut Vec<u8>) {
    let directory = 24 + 16 * 16;
    match r.below(10) {
        0 => sheet.truncate(sheet.len().saturating_sub(1)),
        1 => {
            let keep = r.below(sheet.len() as u64 + 1) as usize;
            sheet.truncate(keep);
        }
        2 => {
            let more = r.pick(&[1, 4, 8, 16, 24]);
            sheet.extend((0..more).map(|_| r.bits() as u8));
        }
        3 => {
            let length = r.pick(&[15, 16, 17, 23, 24, 25, 4239, 4240, 4241, 4375, 4376, 4377]);
            sheet.resize(length, 0);
        }
        4 if sheet.len() >= 4 => set_word(sheet, 0, r.pick(&[0, 1, 2, 3, 258])),
        5..=7 if sheet.len() >= 4 => {
            // A word of the header or the directory.
            let words = sheet.len().min(directory) as u64 / 4;
            let at = 4 * r.below(words) as usize;
            let old = word_at(sheet, at);
            let new = match r.below(4) {
                0 => old.wrapping_add(1),
                1 => old.wrapping_sub(1),
                2 => old ^ (1 << r.below(32)),
                _ => r.wild_word(),
            };
            set_word(sheet, at, new);
        }
        _ if sheet.len() >= 4 => {
            let at = 4 * r.below(sheet.len() as u64 / 4) as usize;
            let new = r.wild_word();
            set_word(sheet, at, new);
        }
        _ => {}
    }
    if sheet.len() >= 8 && r.once_in(2) {
        let length = sheet.len() as u32;
        set_word(sheet, 4, length);
    }
}

//! The sheet: its bytes and its record.
//!
//! Document 01, "The sheet": "Little-endian u32 and binary64. Header: form 1; total length; step
//! count 1 to 16; directory offset 16. Directory, 16 bytes a step: kind; inverted 0 or 1; body
//! offset; body length. Bodies follow without gaps, in order." The table of five kinds, with
//! their lengths 248, 8, 56, 24, 24 and their fields. "Numbers are finite; t_epoch, t_obs, dt may
//! be 7ff8000000000000, "not given". Each kind has a blank record with the crate's defaults (k =
//! 0.3, GRS80, own-epoch off); permtide's blank has codes 0, refused by 5. Past its step count a
//! record reads as blank cart steps, never compared."
//!
//! "Numbers of refusal": 1 to 8, 11 and 15. "Order: 1, 2, 3, 4; then step by step 5 to 8; then
//! 11, 12, 9, 13, 10, 14, 15. Each answer carries the step, from 1, for 5 to 8 and 11, else 0".
//! "The writer tests its record by 3, kinds and inverted words by 4, then 5 to 8, 11, then 15; it
//! writes the sheet's bytes at the room's start and nothing after them."
//!
//! Document 02, A4: "Add kind 6, 88 bytes: flags (1 exact, 2 uas, 4 mm), convention, then
//! translation, rotation, scale, pivot (always metres)." "Refusals: 5 and 6 apply to kind 6".
//!
//! A8: "Form 2 puts after the directory offset an ellipsoid count (0 to 8) and a table offset, so
//! its header is 24 bytes; the table of a and 1/f pairs follows the directory, before the bodies.
//! Numbers 6 to 13 name its rows. Rows past the count read as zeros and, like such steps, are
//! never compared. The writer also tests the form by 2, before 3, and count and rows by 20; a
//! form 1 record's count is 0. a lies from 1 to 1e9, 1/f from 2 to 1e9. A box that knows only
//! form 1 answers 1 above 4,240 bytes, else 2." "Refusals: 1 asks 24 to 4,376 bytes where the
//! form word is 2 and keeps its old limits otherwise; 2 now means form neither 1 nor 2; 4 asks
//! directory offset 24 there, and the first body where the counted rows after the directory end;
//! 20, ellipsoid count, table offset or row out of rule, between 4 and 5."
//!
//! A9: "The blank Helmert record now has own-epoch on." A13: "Refusal 5 no longer meets flag 2 in
//! kind 5."
//!
//! Readings
//! - "Step by step 5 to 8": step 1 by 5, 6, 7, 8, then step 2. Smallest input: two steps, the
//!   first refused by 7 and the second by 5; the answer is 7 at step 1.
//! - 6 and 7 stand on the scaled numbers of Helmert ("Testing rates before scaling" is an error).
//!   Smallest input: a rate of 5e-324 with flag mm and no t_epoch is accepted.
//! - 11 belongs to the sheet: the reader and the writer both give it. Its step is the second
//!   deformation step, where a third would be later. Smallest input: three deformation steps give
//!   11 at step 2.
//! - Form 2's 4 takes the ellipsoid count as it stands, though 20 comes later, and by whole
//!   numbers without a wrap. Smallest input: count 9 with nine rows in place is 20; count 9 with
//!   eight rows is 4.
//! - Form 2's table offset has its rule, 24 + 16 a step, also where the count is 0.
//! - A number past the counted rows, such as 6 with no row, is a field outside its rule: 5.
//! - The writer's 5 asks the bits 7ff8000000000000 for "not given", as the reader's does.
//!   Smallest input: a deformation record with dt 1 and t_epoch of the bits fff8000000000000 is
//!   5.
//! - The writer's 20 stands between 4 and 5, as the reader's. It tests only the rows below the
//!   count, and of a form 1 record only that its count is 0.
//! - The words that are 0 in a body are no part of a record: the reader tests them by 5, the
//!   writer writes 0.
//! - A record past its count has blank cart steps that are not inverted.

use crate::{In, Refusal, number_at, number_bytes, steps, word_at, word_bytes};

/// "Not given".
pub const NOT_GIVEN: f64 = f64::from_bits(0x7ff8_0000_0000_0000);

/// The longest sheet of form 1 and of form 2.
pub const LONGEST: [usize; 2] = [4240, 4376];

// ----- The record ----------------------------------------------------------------------

#[derive(Clone, Debug)]
pub struct Helmert {
    /// 1 exact, 2 uas, 4 mm, 8 own-epoch
    pub flags: u32,
    /// 0 none, 1 position vector, 2 coordinate frame
    pub convention: u32,
    pub translation: [f64; 3],
    pub xyz: [f64; 3],
    pub translation_rate: [f64; 3],
    pub dxyz: [f64; 3],
    pub rotation: [f64; 3],
    pub rxyz: [f64; 3],
    pub rotation_rate: [f64; 3],
    pub drxyz: [f64; 3],
    pub scale: f64,
    pub s: f64,
    pub scale_rate: f64,
    pub ds: f64,
    pub t_epoch: f64,
    pub t_obs: f64,
}

#[derive(Clone, Debug)]
pub struct Cart {
    pub ellipsoid: u32,
}

#[derive(Clone, Debug)]
pub struct Molodensky {
    /// 1 abridged, 2 two ellipsoids
    pub flags: u32,
    pub first: u32,
    pub second: u32,
    pub dx: f64,
    pub dy: f64,
    pub dz: f64,
    pub da: f64,
    pub df: f64,
}

#[derive(Clone, Debug)]
pub struct Permtide {
    pub ellipsoid: u32,
    /// mean 1, zero 2, free 3
    pub to: u32,
    pub from: u32,
    pub k: f64,
}

#[derive(Clone, Debug)]
pub struct Deformation {
    /// 1 raw; 2 the comment's sign (A13)
    pub flags: u32,
    pub ellipsoid: u32,
    pub dt: f64,
    pub t_epoch: f64,
}

/// Kind 6 (A4), Molodensky-Badekas.
#[derive(Clone, Debug)]
pub struct Badekas {
    /// 1 exact, 2 uas, 4 mm
    pub flags: u32,
    pub convention: u32,
    pub translation: [f64; 3],
    pub rotation: [f64; 3],
    pub scale: f64,
    pub pivot: [f64; 3],
}

#[derive(Clone, Debug)]
pub enum Body {
    Helmert(Helmert),
    Cart(Cart),
    Molodensky(Molodensky),
    Permtide(Permtide),
    Deformation(Deformation),
    Badekas(Badekas),
    /// A kind outside its rule, as only a writer meets it.
    Other(u32),
}

#[derive(Clone, Debug)]
pub struct Step {
    pub inverted: u32,
    pub body: Body,
}

#[derive(Clone, Debug)]
pub struct Record {
    /// 1, or 2 under A8.
    pub form: u32,
    /// The step count.
    pub count: u32,
    /// Sixteen places.
    pub steps: Vec<Step>,
    /// The ellipsoid count (A8).
    pub own: u32,
    /// a and 1/f of each own ellipsoid (A8).
    pub rows: [[f64; 2]; 8],
}

impl Helmert {
    pub fn blank(inp: &In) -> Helmert {
        Helmert {
            flags: if inp.a9 { 8 } else { 0 },
            convention: 0,
            translation: [0.0; 3],
            xyz: [0.0; 3],
            translation_rate: [0.0; 3],
            dxyz: [0.0; 3],
            rotation: [0.0; 3],
            rxyz: [0.0; 3],
            rotation_rate: [0.0; 3],
            drxyz: [0.0; 3],
            scale: 0.0,
            s: 0.0,
            scale_rate: 0.0,
            ds: 0.0,
            t_epoch: NOT_GIVEN,
            t_obs: NOT_GIVEN,
        }
    }
}

impl Cart {
    pub fn blank() -> Cart {
        Cart { ellipsoid: 1 }
    }
}

impl Molodensky {
    pub fn blank() -> Molodensky {
        Molodensky { flags: 0, first: 1, second: 0, dx: 0.0, dy: 0.0, dz: 0.0, da: 0.0, df: 0.0 }
    }
}

impl Permtide {
    pub fn blank() -> Permtide {
        Permtide { ellipsoid: 1, to: 0, from: 0, k: 0.3 }
    }
}

impl Deformation {
    pub fn blank() -> Deformation {
        Deformation { flags: 0, ellipsoid: 1, dt: NOT_GIVEN, t_epoch: NOT_GIVEN }
    }
}

impl Badekas {
    pub fn blank() -> Badekas {
        Badekas {
            flags: 0,
            convention: 0,
            translation: [0.0; 3],
            rotation: [0.0; 3],
            scale: 0.0,
            pivot: [0.0; 3],
        }
    }
}

impl Body {
    pub fn kind(&self) -> u32 {
        match self {
            Body::Helmert(_) => 1,
            Body::Cart(_) => 2,
            Body::Molodensky(_) => 3,
            Body::Permtide(_) => 4,
            Body::Deformation(_) => 5,
            Body::Badekas(_) => 6,
            Body::Other(kind) => *kind,
        }
    }
}

impl Record {
    /// A form 1 record of these steps, blank cart steps after them.
    pub fn of(steps: &[Step]) -> Record {
        let blank = Step { inverted: 0, body: Body::Cart(Cart::blank()) };
        let mut all = steps.to_vec();
        all.resize(all.len().max(16), blank);
        Record { form: 1, count: steps.len() as u32, steps: all, own: 0, rows: [[0.0; 2]; 8] }
    }

    /// The steps below the count.
    pub fn live(&self) -> &[Step] {
        &self.steps[..self.count as usize]
    }

    /// Equal as records are: what lies past the counts is never compared.
    pub fn same(&self, other: &Record) -> bool {
        (self.form, self.count, self.own) == (other.form, other.count, other.own)
            && self.live().iter().zip(other.live()).all(|(a, b)| {
                a.inverted == b.inverted
                    && a.body.kind() == b.body.kind()
                    && body_bytes(&a.body) == body_bytes(&b.body)
            })
            && (0..self.own.min(8) as usize).all(|i| {
                let (a, b) = (self.rows[i], other.rows[i]);
                a[0].to_bits() == b[0].to_bits() && a[1].to_bits() == b[1].to_bits()
            })
    }
}

// ----- Rules -----------------------------------------------------------------------------

/// The body length of a kind, none for a kind outside its rule.
pub fn body_length(inp: &In, kind: u32) -> Option<usize> {
    match kind {
        1 => Some(248),
        2 => Some(8),
        3 => Some(56),
        4 | 5 => Some(24),
        6 if inp.a4 => Some(88),
        _ => None,
    }
}

fn finite_or_not_given(x: f64) -> bool {
    x.is_finite() || x.to_bits() == NOT_GIVEN.to_bits()
}

fn all_finite(numbers: &[f64]) -> bool {
    numbers.iter().all(|x| x.is_finite())
}

fn is_ellipsoid(number: u32, own: u32) -> bool {
    (1..=5 + own).contains(&number)
}

/// Every field of a body inside its rule; `own` is the count of own ellipsoids.
fn fields_in_rule(inp: &In, body: &Body, own: u32) -> bool {
    match body {
        Body::Helmert(h) => {
            h.flags <= 15
                && h.convention <= 2
                && all_finite(vectors(h).as_flattened())
                && all_finite(&[h.scale, h.s, h.scale_rate, h.ds])
                && finite_or_not_given(h.t_epoch)
                && finite_or_not_given(h.t_obs)
        }
        Body::Cart(c) => is_ellipsoid(c.ellipsoid, own),
        Body::Molodensky(m) => {
            let two = m.flags & 2 != 0;
            let second = if two { is_ellipsoid(m.second, own) } else { m.second == 0 };
            let plus_zeros = m.da.to_bits() == 0 && m.df.to_bits() == 0;
            m.flags <= 3
                && is_ellipsoid(m.first, own)
                && second
                && all_finite(&[m.dx, m.dy, m.dz, m.da, m.df])
                && (!two || plus_zeros)
        }
        Body::Permtide(p) => {
            is_ellipsoid(p.ellipsoid, own)
                && (1..=3).contains(&p.to)
                && (1..=3).contains(&p.from)
                && p.k.is_finite()
        }
        Body::Deformation(d) => {
            d.flags <= (if inp.a13 { 3 } else { 1 })
                && is_ellipsoid(d.ellipsoid, own)
                && finite_or_not_given(d.dt)
                && finite_or_not_given(d.t_epoch)
        }
        Body::Badekas(m) => {
            m.flags <= 7
                && m.convention <= 2
                && all_finite(&m.translation)
                && all_finite(&m.rotation)
                && m.scale.is_finite()
                && all_finite(&m.pivot)
        }
        Body::Other(_) => false,
    }
}

/// 5 to 8 of one step, in this order; none where the body is accepted.
fn body_refusal(inp: &In, body: &Body, own: u32) -> Option<u32> {
    if !fields_in_rule(inp, body, own) {
        return Some(5);
    }
    match body {
        Body::Helmert(h) => {
            let scaled = steps::scaled(h);
            if scaled.rotated && h.convention == 0 {
                Some(6)
            } else if scaled.dynamic && h.t_epoch.is_nan() {
                Some(7)
            } else {
                None
            }
        }
        Body::Badekas(m) if steps::scaled_badekas(m).rotated && m.convention == 0 => Some(6),
        Body::Deformation(d) if d.dt.is_nan() && d.t_epoch.is_nan() => Some(8),
        _ => None,
    }
}

/// 5 to 8, step by step.
fn steps_refusal(inp: &In, record: &Record) -> Result<(), Refusal> {
    for (i, step) in record.live().iter().enumerate() {
        if let Some(number) = body_refusal(inp, &step.body, record.own) {
            return Err(Refusal { number, step: i as u32 + 1 });
        }
    }
    Ok(())
}

/// 11, the second deformation step.
pub fn second_deformation(record: &Record) -> Result<(), Refusal> {
    let mut places = (0..record.count as usize)
        .filter(|i| matches!(record.steps[*i].body, Body::Deformation(_)));
    match places.nth(1) {
        Some(second) => Err(Refusal { number: 11, step: second as u32 + 1 }),
        None => Ok(()),
    }
}

/// a from 1 to 1e9, 1/f from 2 to 1e9; no NaN lies there.
fn row_in_rule(row: [f64; 2]) -> bool {
    (1.0..=1e9).contains(&row[0]) && (2.0..=1e9).contains(&row[1])
}

// ----- Reading -----------------------------------------------------------------------------

/// The sheet with every refusal of its own: 1 to 4, 20, 5 to 8, 11.
pub fn check(inp: &In, sheet: &[u8]) -> Result<Record, Refusal> {
    let record = read(inp, sheet)?;
    second_deformation(&record)?;
    Ok(record)
}

/// The sheet by 1 to 4, 20 and 5 to 8: all that comes before the profile's 25 and 11.
pub fn read(inp: &In, sheet: &[u8]) -> Result<Record, Refusal> {
    let form = if sheet.len() < 4 { 0 } else { word_at(sheet, 0) };
    let two = inp.a8 && form == 2;
    let (least, most) = if two { (24, LONGEST[1]) } else { (16, LONGEST[0]) };
    if !(least..=most).contains(&sheet.len()) || word_at(sheet, 4) as usize != sheet.len() {
        return Err(Refusal::plain(1));
    }
    if form != 1 && !two {
        return Err(Refusal::plain(2));
    }
    let count = word_at(sheet, 8);
    if !(1..=16).contains(&count) {
        return Err(Refusal::plain(3));
    }
    let (own, bodies) = directory(inp, sheet, two, count).ok_or(Refusal::plain(4))?;
    let mut record = Record::of(&[]);
    (record.form, record.count) = (form, count);
    if two {
        (record.own, record.rows) = table(sheet, count, own).ok_or(Refusal::plain(20))?;
    }
    for (i, (kind, inverted, at)) in bodies.into_iter().enumerate() {
        let length = body_length(inp, kind).unwrap();
        let Some(body) = body_of(kind, &sheet[at..at + length]) else {
            return Err(Refusal { number: 5, step: i as u32 + 1 });
        };
        if let Some(number) = body_refusal(inp, &body, record.own) {
            return Err(Refusal { number, step: i as u32 + 1 });
        }
        record.steps[i] = Step { inverted, body };
    }
    Ok(record)
}

/// Kind, inverted word and the place of the body.
type Entry = (u32, u32, usize);

/// The ellipsoid count as it stands, and each step's entry; none for refusal 4.
fn directory(inp: &In, sheet: &[u8], two: bool, count: u32) -> Option<(u32, Vec<Entry>)> {
    let header = if two { 24 } else { 16 };
    let end = header + 16 * count as usize;
    if word_at(sheet, 12) as usize != header || end > sheet.len() {
        return None;
    }
    let own = if two { word_at(sheet, 16) } else { 0 };
    let mut next = end as u64 + 16 * own as u64;
    let mut entries = Vec::new();
    for i in 0..count as usize {
        let at = header + 16 * i;
        let [kind, inverted, offset, length] = [0, 4, 8, 12].map(|by| word_at(sheet, at + by));
        let rule = body_length(inp, kind)?;
        if inverted > 1 || length as usize != rule || offset as u64 != next {
            return None;
        }
        entries.push((kind, inverted, next as usize));
        next += rule as u64;
    }
    (next == sheet.len() as u64).then_some((own, entries))
}

/// The own ellipsoids of a form 2 sheet; none for refusal 20.
fn table(sheet: &[u8], count: u32, own: u32) -> Option<(u32, [[f64; 2]; 8])> {
    let start = 24 + 16 * count as usize;
    if own > 8 || word_at(sheet, 20) as usize != start {
        return None;
    }
    let mut rows = [[0.0; 2]; 8];
    for (i, row) in rows.iter_mut().enumerate().take(own as usize) {
        *row = [number_at(sheet, start + 16 * i), number_at(sheet, start + 16 * i + 8)];
        if !row_in_rule(*row) {
            return None;
        }
    }
    Some((own, rows))
}

/// A body's fields, not yet tested; none where a word that is 0 by its rule isn't.
fn body_of(kind: u32, bytes: &[u8]) -> Option<Body> {
    let word = |i: usize| word_at(bytes, 4 * i);
    let number = |at: usize, i: usize| number_at(bytes, at + 8 * i);
    let three = |at: usize, i: usize| [0, 1, 2].map(|j| number(at, 3 * i + j));
    Some(match kind {
        1 => Body::Helmert(Helmert {
            flags: word(0),
            convention: word(1),
            translation: three(8, 0),
            xyz: three(8, 1),
            translation_rate: three(8, 2),
            dxyz: three(8, 3),
            rotation: three(8, 4),
            rxyz: three(8, 5),
            rotation_rate: three(8, 6),
            drxyz: three(8, 7),
            scale: number(200, 0),
            s: number(200, 1),
            scale_rate: number(200, 2),
            ds: number(200, 3),
            t_epoch: number(200, 4),
            t_obs: number(200, 5),
        }),
        2 if word(1) == 0 => Body::Cart(Cart { ellipsoid: word(0) }),
        3 if word(3) == 0 => Body::Molodensky(Molodensky {
            flags: word(0),
            first: word(1),
            second: word(2),
            dx: number(16, 0),
            dy: number(16, 1),
            dz: number(16, 2),
            da: number(16, 3),
            df: number(16, 4),
        }),
        4 if word(3) == 0 => Body::Permtide(Permtide {
            ellipsoid: word(0),
            to: word(1),
            from: word(2),
            k: number(16, 0),
        }),
        5 => Body::Deformation(Deformation {
            flags: word(0),
            ellipsoid: word(1),
            dt: number(8, 0),
            t_epoch: number(8, 1),
        }),
        6 => Body::Badekas(Badekas {
            flags: word(0),
            convention: word(1),
            translation: three(8, 0),
            rotation: three(8, 1),
            scale: number(8, 6),
            pivot: three(64, 0),
        }),
        _ => return None,
    })
}

// ----- Writing -----------------------------------------------------------------------------

/// The eight vectors of Helmert in the sheet's order.
pub fn vectors(h: &Helmert) -> [[f64; 3]; 8] {
    [h.translation, h.xyz, h.translation_rate, h.dxyz, h.rotation, h.rxyz, h.rotation_rate, h.drxyz]
}

/// A body's bytes, whether in rule or not; a kind outside its rule has none.
pub fn body_bytes(body: &Body) -> Vec<u8> {
    match body {
        Body::Helmert(h) => [
            word_bytes(&[h.flags, h.convention]),
            number_bytes(vectors(h).as_flattened()),
            number_bytes(&[h.scale, h.s, h.scale_rate, h.ds, h.t_epoch, h.t_obs]),
        ]
        .concat(),
        Body::Cart(c) => word_bytes(&[c.ellipsoid, 0]),
        Body::Molodensky(m) => [
            word_bytes(&[m.flags, m.first, m.second, 0]),
            number_bytes(&[m.dx, m.dy, m.dz, m.da, m.df]),
        ]
        .concat(),
        Body::Permtide(p) => {
            [word_bytes(&[p.ellipsoid, p.to, p.from, 0]), number_bytes(&[p.k])].concat()
        }
        Body::Deformation(d) => {
            [word_bytes(&[d.flags, d.ellipsoid]), number_bytes(&[d.dt, d.t_epoch])].concat()
        }
        Body::Badekas(m) => [
            word_bytes(&[m.flags, m.convention]),
            number_bytes(&m.translation),
            number_bytes(&m.rotation),
            number_bytes(&[m.scale]),
            number_bytes(&m.pivot),
        ]
        .concat(),
        Body::Other(_) => Vec::new(),
    }
}

/// The bytes of a record whose counts are in rule, its fields untested.
pub fn bytes_untested(record: &Record) -> Vec<u8> {
    let bodies: Vec<Vec<u8>> = record.live().iter().map(|s| body_bytes(&s.body)).collect();
    let two = record.form == 2;
    let header = if two { 24 } else { 16 };
    let rows = if two { &record.rows[..record.own as usize] } else { &[] };
    let table = header + 16 * bodies.len();
    let mut next = table + 16 * rows.len();
    let total = next + bodies.iter().map(Vec::len).sum::<usize>();
    let mut words = vec![record.form, total as u32, record.count, header as u32];
    if two {
        words.extend([record.own, table as u32]);
    }
    for (step, body) in record.live().iter().zip(&bodies) {
        words.extend([step.body.kind(), step.inverted, next as u32, body.len() as u32]);
        next += body.len();
    }
    [word_bytes(&words), number_bytes(rows.as_flattened()), bodies.concat()].concat()
}

/// The sheet's bytes for a record, or the writer's refusal. The caller's room holds `room` bytes;
/// what lies after the sheet's bytes stays as it was.
pub fn write(inp: &In, record: &Record, room: usize) -> Result<Vec<u8>, Refusal> {
    let mut record = record.clone();
    if !inp.a8 {
        (record.form, record.own) = (1, 0); // a record without A8 has neither
    }
    if !(1..=2).contains(&record.form) {
        return Err(Refusal::plain(2));
    }
    if !(1..=16).contains(&record.count) {
        return Err(Refusal::plain(3));
    }
    let out_of_rule = |s: &Step| s.inverted > 1 || body_length(inp, s.body.kind()).is_none();
    if record.live().iter().any(out_of_rule) {
        return Err(Refusal::plain(4));
    }
    let most = if record.form == 2 { 8 } else { 0 };
    if record.own > most || record.rows[..record.own as usize].iter().any(|r| !row_in_rule(*r)) {
        return Err(Refusal::plain(20));
    }
    steps_refusal(inp, &record)?;
    second_deformation(&record)?;
    let bytes = bytes_untested(&record);
    if room < bytes.len() {
        return Err(Refusal::plain(15));
    }
    Ok(bytes)
}

//! Closure reports and profiles beside the second reader (oracle/reader), which was written from
//! document 02 alone: the answer of each call, the sixteen numbers of the report, and every number
//! of the room, what lies behind the list too.
//!
//!     closures [cases, 5000] [seed, 1]
//!
//! Lists are added one call at a time; the reader reports of all that were accepted at once. The
//! edges are met on purpose, and each must have been met.
use compare::LANDED;
use reader::closure::{Listed, Report, judge, report};
use reader::random::Random;
use reader::sheet::{Badekas, Body, Cart, Deformation, Helmert, Molodensky, NOT_GIVEN, Permtide, Record, Step, bytes_untested};
use reader::{chain, draw, same_numbers};
use std::process::ExitCode;

/// What the room holds before, and behind what is written.
const ROOM: f64 = -7.25;

#[derive(Default)]
struct Part {
    cases: usize,
    accepted: usize,
    parted: usize,
}

/// What the edges met.
#[derive(Default)]
struct Met {
    nan_at_start_only: usize,
    nan_at_end_only: usize,
    zero_by_sign: usize,
    overflow: usize,
    ties: usize,
    zero_away_from_the_start: usize,
}

impl Part {
    fn differ(&mut self, name: &str, what: &str, case: impl std::fmt::Debug) {
        self.parted += 1;
        if self.parted <= 3 {
            println!("{name} parts by {what}: {case:?}");
        }
    }

    /// Every list of a case, one call each, in rooms of several lengths; then the whole report.
    fn try_all(
        &mut self,
        name: &str,
        r: &mut Random,
        sheet: &[u8],
        lists: &[Listed],
        grid: Option<&[u8]>,
        profile: bool,
    ) -> Report {
        self.cases += 1;
        for asked in [false, true] {
            let told = judge(&LANDED, sheet, asked).map_or_else(|e| (e.number, e.step), |_| (0, 0));
            if ours::check_profile(sheet, asked as u32) != told {
                self.differ(name, "profile", (sheet, asked));
            }
        }
        let mut ours_now = [0; 16];
        let mut kept: Vec<Listed> = Vec::new();
        for listed in lists {
            let one = report(&LANDED, sheet, std::slice::from_ref(listed), grid, profile);
            let numbers = listed.list.len();
            if numbers > 0 {
                let (before, mut room) = (ours_now, vec![ROOM; r.below(numbers as u64) as usize]);
                let short = lend(&mut ours_now, profile as u32, sheet, listed, &mut room, grid);
                let expected = if one.refusal == 0 { (15, 0) } else { (one.refusal, one.step) };
                if short != expected || ours_now != before || room.iter().any(|x| *x != ROOM) {
                    self.differ(name, "short room", (sheet, listed, short));
                }
            }
            let (before, mut room) = (ours_now, vec![ROOM; numbers + r.below(6) as usize]);
            let told = lend(&mut ours_now, profile as u32, sheet, listed, &mut room, grid);
            if told != (one.refusal, one.step) {
                self.differ(name, "answer", (sheet, listed, told));
            }
            if one.refusal != 0 {
                if ours_now != before || room.iter().any(|x| *x != ROOM) {
                    self.differ(name, "what a refused call leaves", (sheet, listed));
                }
                continue;
            }
            self.accepted += 1;
            let Listed { list, velocities, marks } = listed;
            let there = chain::shift(&LANDED, false, sheet, list, velocities, marks, grid).list;
            let back = chain::shift(&LANDED, true, sheet, &there, velocities, marks, grid).list;
            if !same_numbers(&room[..numbers], &back) || room[numbers..].iter().any(|x| *x != ROOM) {
                self.differ(name, "room", (sheet, listed));
            }
            kept.push(listed.clone());
        }
        let all = report(&LANDED, sheet, &kept, grid, profile);
        let expected = if kept.is_empty() { [0; 16] } else { numbers(kept.len() as u64, &all) };
        if ours_now != expected {
            self.differ(name, "report", (sheet, &kept, ours_now, expected));
        }
        all
    }
}

fn lend(
    report: &mut [u64; 16],
    profile: u32,
    sheet: &[u8],
    listed: &Listed,
    room: &mut [f64],
    grid: Option<&[u8]>,
) -> (u32, u32) {
    let Listed { list, velocities, marks } = listed;
    match grid {
        Some(grid) => ours::grid::closure(report, profile, sheet, list, room, velocities, marks, grid),
        None => ours::closure(report, profile, sheet, list, room, velocities, marks),
    }
}

/// The reader's report as the library has it.
fn numbers(lists: u64, r: &Report) -> [u64; 16] {
    let mut all = [0; 16];
    all[..4].copy_from_slice(&[lists, r.seen, r.with_nan, r.restored]);
    for (i, w) in r.largest.iter().enumerate() {
        all[4 + 3 * i..7 + 3 * i].copy_from_slice(&[w.bits, w.list.into(), w.index.into()]);
    }
    all
}

/// A raw deformation step by a given duration: it writes a length where the time was, so that a
/// missing time is a NaN at the start only.
fn raw_sheet() -> Vec<u8> {
    let body = Body::Deformation(Deformation { flags: 1, ellipsoid: 1, dt: 1.0, t_epoch: NOT_GIVEN });
    bytes_untested(&Record::of(&[Step { inverted: 0, body }]))
}

/// One Helmert step, or with a cart behind it turned both ways, that numbers at the edges go through.
fn edge_sheet(r: &mut Random) -> Vec<u8> {
    let far = r.pick(&[0.0, 0.1, 1.0, -1.0, 1e-300, 1e300, f64::MAX, -f64::MAX]);
    let mut h = Helmert::blank(&LANDED);
    h.translation[r.below(3) as usize] = far;
    if r.once_in(3) {
        h.rotation[r.below(3) as usize] = 0.5;
        h.convention = 1 + r.below(2) as u32;
    }
    if r.once_in(4) {
        h.scale = r.pick(&[1.5, -1e6, 1e9]);
    }
    let mut steps = vec![Step { inverted: r.below(2) as u32, body: Body::Helmert(h) }];
    if r.once_in(4) {
        let cart = Body::Cart(Cart { ellipsoid: 1 });
        steps.push(Step { inverted: 1, body: cart.clone() });
        steps.push(Step { inverted: 0, body: cart });
    }
    bytes_untested(&Record::of(&steps))
}

fn edge_number(r: &mut Random) -> f64 {
    let tiny = f64::from_bits(1);
    let all = [0.0, -0.0, 0.0, 1.0, 1.0, 0.3, -0.3, 1e16, f64::MAX, -f64::MAX, f64::INFINITY, -f64::INFINITY, tiny, 1e-310, 2.5];
    if r.once_in(20) { r.nan() } else { r.pick(&all) }
}

/// A few short lists of such numbers, with repeated tuples; counts which edges were met.
fn edges(name: &str, part: &mut Part, r: &mut Random, met: &mut Met) {
    let raw = r.once_in(8);
    let sheet = if raw { raw_sheet() } else { edge_sheet(r) };
    let mut lists: Vec<Listed> = Vec::new();
    for _ in 0..1 + r.below(3) {
        let tuples = r.below(4) as usize;
        let mut list: Vec<f64> = (0..4 * tuples).map(|_| edge_number(r)).collect();
        if let Some(before) = lists.last().filter(|_| r.once_in(3)) {
            list.extend_from_slice(&before.list);
        }
        if raw {
            list.chunks_mut(4).for_each(|fix| fix.copy_from_slice(&[6378137.0, 1.0, 2.0, r.nan()]));
        }
        let tuples = if raw { list.len() / 4 } else { 0 };
        lists.push(Listed { list, velocities: vec![1000.0; 3 * tuples], marks: vec![1; tuples] });
    }
    let all = part.try_all(name, r, &sheet, &lists, None, false);
    let mut largest_seen = Vec::new();
    for listed in &lists {
        let Listed { list, velocities, marks } = listed;
        let there = chain::shift(&LANDED, false, &sheet, list, velocities, marks, None).list;
        let back = chain::shift(&LANDED, true, &sheet, &there, velocities, marks, None).list;
        for (start, end) in list.chunks(4).zip(back.chunks(4)) {
            let nan = |t: &[f64]| t.iter().any(|x| x.is_nan());
            met.nan_at_start_only += (nan(start) && !nan(end)) as usize;
            met.nan_at_end_only += (!nan(start) && nan(end)) as usize;
            let changed = start.iter().zip(end).any(|(a, b)| a.to_bits() != b.to_bits());
            if nan(start) || nan(end) || !changed {
                continue;
            }
            let by_sign = |(a, b): (&f64, &f64)| *a == 0.0 && *b == 0.0 && a.to_bits() != b.to_bits();
            met.zero_by_sign += start.iter().zip(end).any(by_sign) as usize;
            met.overflow += start.iter().zip(end).any(|(a, b)| a.is_finite() && b.is_infinite()) as usize;
            largest_seen.push((end[0] - start[0]).abs().to_bits());
        }
    }
    let top = all.largest[0];
    met.ties += (largest_seen.iter().filter(|b| **b == top.bits).count() > 1) as usize;
    met.zero_away_from_the_start += all.largest.iter().any(|w| w.bits == 0 && (w.list, w.index) != (0, 0)) as usize;
}

/// Helmert steps of every flag and mode, other kinds, at every place of a sheet of one to sixteen.
fn profiles(name: &str, part: &mut Part, r: &mut Random) {
    let cart = Step { inverted: 0, body: Body::Cart(Cart { ellipsoid: 1 }) };
    for steps in [1, 2, 16] {
        for at in 0..steps {
            for flags in 0..16 {
                for mode in 0..3 {
                    let mut h = Helmert::blank(&LANDED);
                    h.flags = flags;
                    h.t_epoch = 2000.0;
                    h.dxyz[1] = if mode == 0 { 0.0 } else { 1.0 };
                    h.t_obs = if mode == 2 { 2010.0 } else { h.t_obs };
                    let mut all = vec![cart.clone(); steps];
                    all[at].body = Body::Helmert(h);
                    part.try_all(name, r, &bytes_untested(&Record::of(&all)), &[], None, true);
                }
            }
            for body in [
                Body::Molodensky(Molodensky::blank()),
                Body::Permtide(Permtide { to: 1, from: 2, ..Permtide::blank() }),
                Body::Badekas(Badekas::blank()),
            ] {
                let mut all = vec![cart.clone(); steps];
                all[at].body = body;
                part.try_all(name, r, &bytes_untested(&Record::of(&all)), &[], None, true);
            }
        }
    }
}

/// A profile that nobody knows: 25 without a step, unless the reader's 1 to 8 come before it.
fn unknown(name: &str, part: &mut Part, r: &mut Random) {
    let sheet = draw::draw_sheet(r, &LANDED);
    let own = ours::check_profile(&sheet, 0);
    let expected = if own.0 == 0 || own.0 == 11 { (25, 0) } else { own };
    let profile = r.pick(&[2, 3, 255, 65536, u32::MAX]);
    part.cases += 1;
    part.accepted += (own.0 == 0) as usize;
    if ours::check_profile(&sheet, profile) != expected {
        part.differ(name, "answer", (sheet, profile));
    }
}

fn main() -> ExitCode {
    let mut args = std::env::args().skip(1).map(|a| a.parse::<u64>().expect("a number"));
    let (cases, seed) = (args.next().unwrap_or(5000), args.next().unwrap_or(1));
    println!("closures: {cases} cases, seed {seed}");
    let mut r = Random::new(seed.wrapping_mul(1000) + 141);
    let names = ["drawn", "edges", "profiles by flags", "unknown profiles"];
    let mut parts = names.map(|_| Part::default());
    let mut met = Met::default();
    for _ in 0..cases {
        let d = draw::draw_reported(&mut r, &LANDED);
        parts[0].try_all(names[0], &mut r, &d.sheet, &d.lists, d.grid.as_deref(), d.profile);
        edges(names[1], &mut parts[1], &mut r, &mut met);
        unknown(names[3], &mut parts[3], &mut r);
    }
    profiles(names[2], &mut parts[2], &mut r);
    let (mut passed, mut failed) = (0, 0);
    for (name, part) in names.iter().zip(&parts) {
        println!("{name}: {} cases, {} lists accepted, {} parted", part.cases, part.accepted, part.parted);
        if part.parted == 0 { passed += 1 } else { failed += 1 }
    }
    for (what, times) in [
        ("a NaN at the start only", met.nan_at_start_only),
        ("a NaN at the end only", met.nan_at_end_only),
        ("-0 to +0 or back", met.zero_by_sign),
        ("overflow to an infinity", met.overflow),
        ("ties", met.ties),
        ("0 away from list 0, index 0", met.zero_away_from_the_start),
    ] {
        println!("met {times} times: {what}");
        if times > 0 { passed += 1 } else { failed += 1 }
    }
    println!("{passed} passed, {failed} failed");
    if failed == 0 { ExitCode::SUCCESS } else { ExitCode::FAILURE }
}

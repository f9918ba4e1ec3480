//! Closure reports and profiles: which number takes a fix in, what a refused call leaves, and each rule of the chart profile.
mod common;
use common::*;
use sillfeather::*;

const NAN: f64 = f64::NAN;

fn still() -> Sheet {
    Sheet::builder().step(Helmert::BLANK).build().unwrap()
}

fn moved(x: f64) -> Sheet {
    Sheet::builder().step(Helmert { translation: [x, 0.0, 0.0], ..Helmert::BLANK }).build().unwrap()
}

fn place(bits: f64, list: u64, index: u64) -> Largest {
    Largest { bits: bits.to_bits(), list, index }
}

/// The first fix comes back, the second is off in x alone: the other coordinates differ by 0 at the second.
#[test]
fn off_in_one_coordinate() {
    let mut report = Report::default();
    report.add(&moved(0.1), Profile::None, &[[1.0, 2.0, 3.0, 4.0], [0.3, 2.0, 3.0, 4.0]]).unwrap();
    assert_eq!((report.lists, report.tuples, report.nans, report.restored), (1, 2, 0, 1));
    let off = (0.3 + 0.1 - 0.1) - 0.3;
    assert_eq!(report.largest, [place(off, 0, 1), place(0.0, 0, 1), place(0.0, 0, 1), place(0.0, 0, 1)]);
}

/// NaNs at the start, an infinity that comes back, an overflow to one, and the earliest of equal differences in a later list.
#[test]
fn each_fate() {
    let mut report = Report::default();
    let far = moved(f64::MAX);
    report.add(&far, Profile::None, &[[0.0, NAN, 0.0, 0.0], [1.0, 0.0, 0.0, NAN], [f64::INFINITY, 1.0, 1.0, 1.0]]).unwrap();
    assert_eq!((report.tuples, report.nans, report.restored), (3, 2, 1));
    assert_eq!(report.largest, [Largest::default(); 4]);
    report.add(&far, Profile::None, &[]).unwrap();
    report.add(&far, Profile::None, &[[f64::MAX, 0.0, 0.0, 0.0], [1.0, 0.0, 0.0, 0.0]]).unwrap();
    report.add(&far, Profile::None, &[[f64::MAX, 0.0, 0.0, 0.0]]).unwrap();
    assert_eq!((report.lists, report.tuples, report.nans, report.restored), (4, 6, 2, 1));
    assert_eq!(report.largest[0], place(f64::INFINITY, 2, 0));
}

/// -0 comes back as +0: not restored, and it differs by 0.
#[test]
fn zeros_by_sign() {
    let mut report = Report::default();
    report.add(&moved(1.0), Profile::None, &[[1.0, 0.0, 0.0, 0.0], [-0.0, 0.0, 0.0, 0.0]]).unwrap();
    assert_eq!((report.tuples, report.restored), (2, 1));
    assert_eq!(report.largest, [place(0.0, 0, 1); 4]);
}

/// Numbers and report are the same, and any numbers are added to; sums stay at the largest.
#[test]
fn rolls_from_any_numbers() {
    let numbers: [u64; 16] = core::array::from_fn(|i| 1000 + i as u64);
    assert_eq!(Report::from(numbers).numbers(), numbers);
    let mut full = Report::from([u64::MAX; 16]);
    full.add(&still(), Profile::None, &[[1.0; 4]]).unwrap();
    assert_eq!(full, Report::from([u64::MAX; 16]));
}

/// Refused calls leave report and room; a room that is longer keeps what is behind the list.
#[test]
fn lent_room() {
    let sheet = still();
    let mut report = [7; 16];
    let mut room = [9.0; 12];
    let list = [1.0, 2.0, 3.0, 4.0, 5.0, 6.0, 7.0, 8.0];
    let short = lent::closure(&mut report, Profile::None, sheet.as_bytes(), &list, &mut room[..7], &[], &[]);
    assert_eq!(short, Err(Refusal::Room));
    let odd = lent::closure(&mut report, Profile::None, sheet.as_bytes(), &list[..7], &mut room[..0], &[], &[]);
    assert_eq!(odd, Err(Refusal::List));
    let marked = lent::closure(&mut report, Profile::None, sheet.as_bytes(), &list, &mut room[..0], &[], &[1]);
    assert_eq!(marked, Err(Refusal::Velocities));
    assert_eq!((report, room), ([7; 16], [9.0; 12]));
    lent::closure(&mut report, Profile::None, sheet.as_bytes(), &list, &mut room, &[], &[]).unwrap();
    assert_eq!(report[..4], [8, 9, 7, 9]);
    assert_eq!(room, [1.0, 2.0, 3.0, 4.0, 5.0, 6.0, 7.0, 8.0, 9.0, 9.0, 9.0, 9.0]);
}

/// Every flag with and without rates, and t_obs: own-epoch is the flag, not the mode.
#[test]
fn chart_profile() {
    for flags in 0..16 {
        for (dynamic, t_obs) in [(false, None), (true, None), (true, Some(2010.0))] {
            let h = Helmert {
                exact: flags & 1 != 0,
                uas: flags & 2 != 0,
                mm: flags & 4 != 0,
                own_epoch: flags & 8 != 0,
                dxyz: [if dynamic { 1.0 } else { 0.0 }, 0.0, 0.0],
                t_epoch: Some(2000.0),
                t_obs,
                ..Helmert::BLANK
            };
            let sheet = Sheet::builder().step(Cart::BLANK).step(h).build().unwrap();
            let passes = flags & 1 == 0 && (!dynamic || flags & 8 != 0);
            let told = if passes { Ok(()) } else { Err(Refusal::Profile { step: 2 }) };
            assert_eq!(sheet.judge(Profile::Chart), told, "{h:?}");
            assert_eq!(sheet.judge(Profile::None), Ok(()));
            assert_eq!(Report::default().add(&sheet, Profile::Chart, &[]), told);
        }
    }
}

/// 25 comes after 8 and before 11.
#[test]
fn order() {
    let body = || Bytes::default().words(&[0, 1]).numbers(&[1.0, NAN]).0;
    let words = [1, 96, 2, 16, 5, 0, 48, 24, 5, 0, 72, 24];
    let mut twice = Bytes::default().words(&words).0;
    twice.extend(body());
    twice.extend(body());
    assert_eq!(lent::check_profile(&twice, Profile::None), Err(Refusal::SecondDeformation { step: 2 }));
    assert_eq!(lent::check_profile(&twice, Profile::Chart), Err(Refusal::Profile { step: 1 }));
    twice[48] = 4;
    assert_eq!(lent::check_profile(&twice, Profile::Chart), Err(Refusal::Field { step: 1 }));
}

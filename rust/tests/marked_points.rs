//! The marked points P1 to P12, and the points that are only run, through this crate.
mod common;
use common::*;
use sillfeather::*;

const FORWARD: Direction = Direction::Forward;
const INVERSE: Direction = Direction::Inverse;

/// X after a forward run over fixes at X = 0 at these times.
fn forward_xs(helmert: Helmert, times: &[f64]) -> Vec<f64> {
    let mut list: Vec<[f64; 4]> = times.iter().map(|t| at(*t)).collect();
    let counts = sheet_of(helmert).shift(FORWARD, &mut list).unwrap();
    assert_eq!(counts.steps(), [times.len() as u32]);
    for (fix, time) in list.iter().zip(times) {
        assert!(same(fix[3], *time), "time stays");
    }
    list.iter().map(|fix| fix[0]).collect()
}

fn p1_bytes() -> Vec<u8> {
    Bytes::default().words(&[1, 40, 1, 16, 2, 0, 32, 8, 1, 0]).0
}

#[test]
fn p1_cart_on_grs80() {
    let sheet = Sheet::from_bytes(&p1_bytes()).unwrap();
    let mut list = [[0.0; 4]];
    let counts = sheet.shift(FORWARD, &mut list).unwrap();
    assert_eq!(counts.steps(), [1]);
    assert_eq!(bits(&list[0]), [0x4158_54a6_4000_0000, 0, 0, 0]);
}

#[test]
fn p2_running_grows() {
    assert_eq!(forward_xs(moving(), &[2001.0, 2002.0, 2001.0]), [1.0, 3.0, 4.0]);
}

#[test]
fn p3_own_epoch() {
    assert_eq!(forward_xs(Helmert { own_epoch: true, ..moving() }, &[2001.0, 2002.0, 2001.0]), [1.0, 2.0, 1.0]);
}

#[test]
fn p4_the_same_time_twice() {
    assert_eq!(forward_xs(moving(), &[2001.0, 2001.0]), [1.0, 1.0]);
}

#[test]
fn p5_a_nan_time_spoils_the_rest() {
    let xs = forward_xs(moving(), &[2001.0, f64::NAN, 2001.0]);
    assert_eq!(xs[0], 1.0);
    assert!(xs[1].is_nan() && xs[2].is_nan());
}

#[test]
fn p6_a_retimed_fix_redoes_two() {
    let list = [at(2001.0), at(2000.0), at(2002.0)];
    let mut run = KeptRun::keep(&sheet_of(moving()), FORWARD, &list).unwrap();
    assert_eq!(run.correct(1, at(2001.0)), Ok(2));
    let fresh = KeptRun::keep(&sheet_of(moving()), FORWARD, &[at(2001.0), at(2001.0), at(2002.0)]).unwrap();
    assert_same(run.list(), fresh.list());
    assert_same(run.results(), fresh.results());
    assert_same(run.track(), fresh.track());
}

#[test]
fn p7_a_byte_cut() {
    let mut bytes = p1_bytes();
    bytes.pop();
    assert_eq!(Sheet::from_bytes(&bytes), Err(Refusal::Length));
}

#[test]
fn p8_above_the_pole() {
    let mut list = [[0.0, 0.0, 7_000_000.0, 0.0]];
    let counts = sheet_of(Cart::BLANK).shift(INVERSE, &mut list).unwrap();
    let b = 6378137.0 * (1.0 - 1.0 / 298.257222101);
    assert_eq!(list[0][2], 7_000_000.0 - b);
    assert_eq!(list[0][1], std::f64::consts::FRAC_PI_2);
    assert_eq!(counts.steps(), [0], "written, but not counted");
}

#[test]
fn p9_the_centre_of_the_earth() {
    let mut list = [[0.0, 0.0, -6378137.0, 2024.5]];
    let counts = sheet_of(Molodensky::BLANK).shift(FORWARD, &mut list).unwrap();
    assert!(list[0][..3].iter().all(|x| x.is_nan()));
    assert_eq!(list[0][3], 2024.5);
    assert_eq!(counts.steps(), [1]);
}

#[test]
fn p10_zero_to_mean_at_the_equator() {
    let tide = Permtide { to: Some(TideSystem::Mean), from: Some(TideSystem::Zero), ..Permtide::BLANK };
    let mut list = [[0.0; 4]];
    sheet_of(tide).shift(FORWARD, &mut list).unwrap();
    assert_eq!(list[0][2], 0.099);
}

#[test]
fn p11_turned_without_a_convention() {
    assert_eq!(refused(Helmert { rxyz: [1.0, 0.0, 0.0], ..Helmert::BLANK }), Refusal::Convention { step: 1 });
}

#[test]
fn p12_moving_without_an_epoch() {
    assert_eq!(refused(Helmert { dxyz: [1.0, 0.0, 0.0], ..Helmert::BLANK }), Refusal::Epoch { step: 1 });
}

#[test]
fn as_many_fixes_as_a_list_holds() {
    let sheet = sheet_of(Cart::BLANK);
    let mut full = vec![[0.0; 4]; 2048];
    assert_eq!(sheet.shift(FORWARD, &mut full).unwrap().steps(), [2048]);
    let mut over = vec![[0.5; 4]; 2049];
    assert_eq!(sheet.shift(FORWARD, &mut over), Err(Refusal::List));
    assert_same(&over, &vec![[0.5; 4]; 2049]);
}

#[test]
fn near_the_axis() {
    // cart's cutoff is a·1e-16, so p = 1e-11 is on the axis, and 1e-9 is not
    for (p, counted) in [(1e-11, 0), (1e-9, 1)] {
        let mut list = [[p, 0.0, -7_000_000.0, 0.0]];
        let counts = sheet_of(Cart::BLANK).shift(INVERSE, &mut list).unwrap();
        assert_eq!(counts.steps(), [counted]);
        assert_eq!(list[0][1], -std::f64::consts::FRAC_PI_2);
    }
}

#[test]
fn as_many_steps_as_a_sheet_holds() {
    let steps = |n| (0..n).fold(Sheet::builder(), |b, _| b.step(Helmert::BLANK)).build();
    let full = steps(16).unwrap();
    assert_eq!((full.step_count(), full.as_bytes().len()), (16, 4240));
    assert_eq!(full.shift(FORWARD, &mut [[1.0; 4]; 3]).unwrap().all(), &[3; 16]);
    assert_eq!(steps(17), Err(Refusal::StepCount));
}

#[test]
fn ten_years_up() {
    let sheet = sheet_of(Deformation { t_epoch: Some(2000.0), ..Deformation::BLANK });
    let mut list = [[6378137.0, 0.0, 0.0, 2010.0]];
    let counts = sheet.shift_with(FORWARD, &mut list, &[[0.0, 0.0, 1000.0]], &[1]).unwrap();
    assert_eq!(list[0][0], 6378147.0);
    assert_eq!(counts.steps(), [1]);
}

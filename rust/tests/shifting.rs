//! Lists under sheets: directions, counts, velocities and marks, and that a refusal leaves the list alone.
mod common;
use common::*;
use sillfeather::*;

const FORWARD: Direction = Direction::Forward;
const INVERSE: Direction = Direction::Inverse;

fn deformation() -> Sheet {
    sheet_of(Deformation { t_epoch: Some(2000.0), ..Deformation::BLANK })
}

#[test]
fn there_and_back() {
    let helmert = Helmert {
        convention: Some(Convention::CoordinateFrame),
        translation: [23.57, -140.95, -79.8],
        rotation: [0.0, -0.35, -0.79],
        scale: -0.22,
        ..Helmert::BLANK
    };
    let sheet = Sheet::builder()
        .step(Cart { ellipsoid: Ellipsoid::Krassowsky1940 })
        .step(helmert)
        .inverted(Cart { ellipsoid: Ellipsoid::Wgs84 })
        .build()
        .unwrap();
    let mut random = Random(59);
    let start: Vec<[f64; 4]> = (0..500)
        .map(|_| {
            [random.between(-3.1, 3.1), random.between(-1.4, 1.4), random.between(-1e4, 1e4), random.between(1990.0, 2030.0)]
        })
        .collect();
    let mut list = start.clone();
    assert_eq!(sheet.shift(FORWARD, &mut list).unwrap().steps(), [500; 3]);
    assert!(list.iter().zip(&start).all(|(a, b)| a != b));
    assert_eq!(sheet.shift(INVERSE, &mut list).unwrap().steps(), [500; 3]);
    for (end, start) in list.iter().zip(&start) {
        // the small-angle matrix and its transpose are inverse to each other but for the angles' squares: 1e-11 of the Earth's radius
        assert!((0..2).all(|i| (end[i] - start[i]).abs() < 1e-10), "{end:?} {start:?}");
        assert!((end[2] - start[2]).abs() < 1e-3 && end[3] == start[3]);
    }
}

/// Own-epoch: fixes without a time, first, last, beside a block of sixteen and the whole of one, are lost and not counted; the
/// others are as if they were alone. A fixed sheet with the same flag does not ask for the time.
#[test]
fn a_missing_time_is_not_the_epoch() {
    for exact in [false, true] {
        let helmert =
            Helmert { own_epoch: true, exact, drxyz: [0.0, 0.5, 0.0], convention: Some(Convention::CoordinateFrame), ..moving() };
        let (sheet, fixed) = (sheet_of(helmert), sheet_of(Helmert { t_obs: Some(2001.0), ..helmert }));
        let given: Vec<[f64; 4]> = (0..48).map(|i| [i as f64, -1.0, 2.0, 2000.0 + i as f64]).collect();
        let missing: [fn(usize) -> bool; 5] = [|i| i == 0, |i| i == 47, |i| i % 16 == 15, |i| i / 16 == 1, |_| true];
        for direction in [FORWARD, INVERSE] {
            for missing in missing {
                let mut list = given.clone();
                (0..48).filter(|i| missing(*i)).for_each(|i| list[i][3] = f64::NAN);
                let mut expected = list.clone();
                for (i, fix) in expected.iter_mut().enumerate() {
                    if missing(i) {
                        *fix = [f64::NAN; 4];
                    } else {
                        sheet.shift(direction, std::slice::from_mut(fix)).unwrap();
                    }
                }
                let mut still = list.clone();
                let counts = sheet.shift(direction, &mut list).unwrap();
                assert_eq!(counts.steps(), [(0..48).filter(|i| !missing(*i)).count() as u32]);
                assert_same(&list, &expected);

                let mut timed = given.clone();
                assert_eq!(fixed.shift(direction, &mut still).unwrap().steps(), [48]);
                fixed.shift(direction, &mut timed).unwrap();
                (0..48).filter(|i| missing(*i)).for_each(|i| timed[i][3] = f64::NAN);
                assert_same(&still, &timed);
            }
        }
    }
}

#[test]
fn inverted_steps_run_the_other_way() {
    let mut by_step = [[0.25, 0.75, 120.0, 2024.5]];
    let mut by_direction = by_step;
    Sheet::builder()
        .inverted(Molodensky { dx: 10.0, ..Molodensky::BLANK })
        .build()
        .unwrap()
        .shift(FORWARD, &mut by_step)
        .unwrap();
    sheet_of(Molodensky { dx: 10.0, ..Molodensky::BLANK }).shift(INVERSE, &mut by_direction).unwrap();
    assert_same(&by_step, &by_direction);
}

#[test]
fn counts_stand_in_the_sheets_order() {
    let sheet = Sheet::builder().step(Cart::BLANK).step(Helmert::BLANK).build().unwrap();
    for direction in [FORWARD, INVERSE] {
        let mut list = [[0.0, 0.0, 0.0, 0.0], [f64::NAN, 0.0, 0.0, 0.0], [0.0, 0.0, 0.0, f64::NAN]];
        let counts = sheet.shift(direction, &mut list).unwrap();
        // inverse, the first is on the axis
        let cart = if direction == FORWARD { 1 } else { 0 };
        assert_eq!(counts.steps(), [cart, 3]);
        assert_eq!(counts.all()[2..], [0; 14]);
    }
}

#[test]
fn empty_lists() {
    let nothing: &mut [[f64; 4]] = &mut [];
    assert_eq!(sheet_of(Cart::BLANK).shift(FORWARD, nothing).unwrap().steps(), [0]);
    assert_eq!(deformation().shift(FORWARD, nothing).unwrap().steps(), [0]);
}

#[test]
fn flat_and_whole_lists_agree() {
    let sheet = sheet_of(Helmert { xyz: [1.0, 2.0, 3.0], ..Helmert::BLANK });
    let mut fixes = [[10.0, 20.0, 30.0, 2000.0], [40.0, 50.0, 60.0, 2001.0]];
    let mut flat = fixes.concat();
    assert_eq!(sheet.shift(FORWARD, &mut fixes), sheet.shift_flat(FORWARD, &mut flat, &[], &[]));
    assert_eq!(bits(fixes.as_flattened()), bits(&flat));
    assert_eq!(fixes[1], [41.0, 52.0, 63.0, 2001.0]);
}

#[test]
fn marks_tell_who_has_a_velocity() {
    let mut list = [[6378137.0, 0.0, 0.0, 2010.0]; 2];
    let counts = deformation().shift_with(FORWARD, &mut list, &[[0.0, 0.0, 1000.0]; 2], &[0, 1]).unwrap();
    assert_eq!(counts.steps(), [1]);
    assert!(list[0].iter().all(|x| x.is_nan()));
    assert_eq!(list[1][0], 6378147.0);
}

#[test]
fn the_comments_sign_is_the_other_direction() {
    let velocities = [[12.5, -3.0, 40.0], [0.0, -0.0, f64::NAN], [1.0, 2.0, 3.0]];
    let start = [[4.0e6, 1.0e6, 5.0e6, -0.0], [0.0, 0.0, 6.4e6, 2010.0], [1.0, 2.0, 3.0, f64::NAN]];
    for raw in [false, true] {
        let plain = Deformation { raw, t_epoch: Some(2000.0), ..Deformation::BLANK };
        let flagged = Deformation { comment_sign: true, ..plain };
        for (one, other) in [(FORWARD, INVERSE), (INVERSE, FORWARD)] {
            let (mut by_comment, mut by_crate) = (start, start);
            let counts = sheet_of(flagged).shift_with(one, &mut by_comment, &velocities, &[1, 1, 0]);
            assert_eq!(counts, sheet_of(plain).shift_with(other, &mut by_crate, &velocities, &[1, 1, 0]));
            assert_eq!(bits(by_comment.as_flattened()), bits(by_crate.as_flattened()));
        }
    }
}

const LA_CANOA: Badekas = Badekas {
    convention: Some(Convention::CoordinateFrame),
    translation: [-270.933, 115.599, -360.226],
    rotation: [-5.266, -1.238, 2.381],
    scale: -5.109,
    pivot: [2464351.59, -5783466.61, 974809.81],
    ..Badekas::BLANK
};

#[test]
fn about_a_pivot() {
    let start = [[2550408.96, -5749912.26, 1054891.11, 2000.0], [2464351.59, -5783466.61, 974809.81, f64::NAN]];
    let mut list = start;
    assert_eq!(sheet_of(LA_CANOA).shift(FORWARD, &mut list).unwrap().steps(), [2]);
    let there: Vec<u64> = list.as_flattened().iter().map(|x| x.to_bits()).collect();
    assert_eq!(there[..3], [0x414374bd3a47854d, 0xc155ef09f7b32109, 0x41301742d0a3cc7a]);
    assert_eq!(there[4..7], [0x4142cca854189374, 0xc1560fcdc0b43958, 0x412dbce32b020c4a]); // the pivot moves by T
    sheet_of(LA_CANOA).shift(INVERSE, &mut list).unwrap();
    assert!(list[0].iter().zip(start[0]).all(|(a, b)| (a - b).abs() < 1e-4));
}

#[test]
fn a_pivot_of_zeros_is_the_static_helmert_step() {
    let about = Badekas { pivot: [0.0; 3], ..LA_CANOA };
    let helmert = Helmert {
        convention: about.convention,
        translation: about.translation,
        rotation: about.rotation,
        scale: about.scale,
        ..Helmert::BLANK
    };
    for direction in [FORWARD, INVERSE] {
        let mut list = [[2550408.96, -5749912.26, 1054891.11, 2000.0], [1.0, f64::NAN, 2.0, 0.0], [1e300, 1.0, -1e308, 0.0]];
        let mut other = list;
        sheet_of(about).shift(direction, &mut list).unwrap();
        sheet_of(helmert).shift(direction, &mut other).unwrap();
        assert_eq!(bits(list.as_flattened()), bits(other.as_flattened()));
    }
}

#[test]
fn refusals_leave_the_list() {
    let (cart, moved) = (sheet_of(Cart::BLANK), deformation());
    let quiet = f64::from_bits(0x7ff8_0000_0000_0abc);
    for (sheet, length, velocities, marks, refusal) in [
        (&cart, 7, 0, vec![], Refusal::List),
        (&cart, 8196, 0, vec![], Refusal::List),
        (&cart, 8, 6, vec![1, 1], Refusal::Velocities),
        (&cart, 8, 0, vec![1, 1], Refusal::Velocities),
        (&moved, 8, 0, vec![], Refusal::Velocities),
        (&moved, 8, 5, vec![1, 1], Refusal::Velocities),
        (&moved, 8, 6, vec![1], Refusal::Velocities),
        (&moved, 8, 6, vec![1, 2], Refusal::Velocities),
        (&moved, 7, 5, vec![9], Refusal::List),
    ] {
        for direction in [FORWARD, INVERSE] {
            let mut list = vec![quiet; length];
            assert_eq!(sheet.shift_flat(direction, &mut list, &vec![0.0; velocities], &marks), Err(refusal));
            assert_eq!(bits(&list), vec![quiet.to_bits(); length]);
        }
    }
    let mut list = [1.0; 4];
    let cut = &cart.as_bytes()[..39];
    assert_eq!(lent::shift(FORWARD, cut, &mut list, &[], &[]), Err(Refusal::Length));
    assert_eq!(lent::check(cut), Err(Refusal::Length));
    assert_eq!(list, [1.0; 4]);
}

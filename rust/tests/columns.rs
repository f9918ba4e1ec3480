//! Four columns under sheets, and kept runs over columns: the same answers and numbers as the fixes as a list, refusals 9 and 13, and that a refusal leaves
//! every column.
mod common;
use common::*;
use sillfeather::*;

struct Held {
    x: Vec<f64>,
    y: Vec<f64>,
    z: Vec<f64>,
    t: Vec<f64>,
}

impl Held {
    fn of(fixes: &[[f64; 4]]) -> Held {
        let [x, y, z, t] = [0, 1, 2, 3].map(|k| fixes.iter().map(|fix| fix[k]).collect());
        Held { x, y, z, t }
    }

    fn columns(&mut self) -> Columns<'_> {
        Columns { x: &mut self.x, y: &mut self.y, z: &mut self.z, t: &mut self.t }
    }

    fn bits(&self) -> [Vec<u64>; 4] {
        [&self.x, &self.y, &self.z, &self.t].map(|column| bits(column))
    }
}

fn drawn(rows: usize) -> Vec<[f64; 4]> {
    let mut random = Random(7);
    let time = |i: usize| if i % 7 == 3 { f64::from_bits(0x7ff8_0000_0000_1234) } else { 2000.0 + (i / 20) as f64 };
    (0..rows).map(|i| [random.between(-3.1, 3.1), random.between(-1.4, 1.4), random.between(-1e4, 1e4), time(i)]).collect()
}

#[test]
fn as_the_fixes_as_a_list() {
    let chain = Sheet::builder()
        .step(Cart { ellipsoid: Ellipsoid::Grs80 })
        .step(Helmert { drxyz: [0.0, 0.5, 0.0], convention: Some(Convention::PositionVector), ..moving() })
        .inverted(Cart { ellipsoid: Ellipsoid::Wgs84 })
        .build()
        .unwrap();
    let deforms = sheet_of(Deformation { t_epoch: Some(2000.0), ..Deformation::BLANK });
    for rows in [0, 1, 15, 16, 17, 127, 128, 129, 2048] {
        let fixes = drawn(rows);
        let (velocities, marks) = (vec![[1.0, 2.0, 3.0]; rows], (0..rows).map(|i| (i % 5 != 0) as u8).collect::<Vec<u8>>());
        for direction in [Direction::Forward, Direction::Inverse] {
            for (sheet, velocities, marks) in [(&chain, &[][..], &[][..]), (&deforms, &velocities[..], &marks[..])] {
                let (mut list, mut held) = (fixes.clone(), Held::of(&fixes));
                let counts = sheet.shift_with(direction, &mut list, velocities, marks).unwrap();
                assert_eq!(sheet.shift_columns(direction, &mut held.columns(), velocities, marks).unwrap(), counts);
                assert_eq!(held.bits(), Held::of(&list).bits());
            }
        }
    }
}

#[test]
fn columns_of_unequal_length() {
    let sheet = sheet_of(moving());
    for rows in [1, 2, 40, 2048] {
        for way in 0..8 {
            let mut held = Held::of(&drawn(rows));
            let column = [&mut held.x, &mut held.y, &mut held.z, &mut held.t].into_iter().nth(way / 2).unwrap();
            column.resize(if way % 2 == 0 { rows - 1 } else { rows + 1 }, 0.5);
            let before = held.bits();
            let mut columns = held.columns();
            assert_eq!(columns.rows(), Err(Refusal::List));
            assert_eq!(columns.fixes(), Err(Refusal::List));
            assert_eq!(columns.set(&drawn(rows)), Err(Refusal::List));
            assert_eq!(sheet.shift_columns(Direction::Forward, &mut columns, &[], &[]), Err(Refusal::List));
            assert_eq!(held.bits(), before);
        }
    }
}

#[test]
fn refused_as_a_list_is() {
    let sheet = sheet_of(moving());
    let mut held = Held::of(&drawn(2049));
    let before = held.bits();
    assert_eq!(sheet.shift_columns(Direction::Forward, &mut held.columns(), &[], &[]), Err(Refusal::List));
    assert_eq!(held.columns().set(&drawn(2048)), Err(Refusal::List));
    assert_eq!(held.bits(), before);

    let mut held = Held::of(&drawn(20));
    let before = held.bits();
    assert_eq!(sheet.shift_columns(Direction::Forward, &mut held.columns(), &[[0.0; 3]; 20], &[1; 20]), Err(Refusal::Velocities));
    assert_eq!(held.bits(), before);
}

#[test]
fn there_and_back() {
    let fixes = drawn(50);
    let mut held = Held::of(&vec![[0.0; 4]; 50]);
    held.columns().set(&fixes).unwrap();
    assert_eq!(held.bits(), Held::of(&fixes).bits());
    assert_eq!(bits(held.columns().fixes().unwrap().as_flattened()), bits(fixes.as_flattened()));
}

/// With exact angles, a turn of a radian a year from 2000 on: a time after 3024 is out of reach, and in running mode a missing one.
fn turning() -> Helmert {
    Helmert { exact: true, drxyz: [206264.80624709636, 0.0, 0.0], convention: Some(Convention::PositionVector), ..moving() }
}

#[test]
fn kept_as_the_fixes_as_a_list() {
    let still = Helmert { translation: [1.0, 2.0, 3.0], ..Helmert::BLANK };
    for helmert in [turning(), Helmert { own_epoch: true, ..turning() }, moving(), still] {
        let sheet = sheet_of(helmert);
        for direction in [Direction::Forward, Direction::Inverse] {
            for rows in [0, 1, 16, 40] {
                let mut random = Random(11);
                let mut fixes = drawn(rows);
                fixes.iter_mut().skip(5).step_by(9).for_each(|fix| fix[3] = 4000.0);
                let mut run = KeptRun::keep(&sheet, direction, &fixes).unwrap();
                let [mut list, mut results, mut track] =
                    [&fixes, &vec![[0.5; 4]; rows], &vec![[0.25; 4]; rows]].map(|of| Held::of(of));
                let numbers = sheet.keep_columns(direction, &list.columns(), &mut results.columns(), &mut track.columns());
                assert_eq!(numbers, run.numbers());
                for k in 0..3 * rows {
                    let fix = [1.0, 2.0, 3.0, random.one_of(&[2000.0, 2001.0, 4000.0, f64::NAN])];
                    let (lists, index) = ((&mut list.columns(), &mut results.columns(), &mut track.columns()), k * 7 % rows);
                    let told = sheet.correct_columns(direction, lists.0, lists.1, lists.2, index, fix);
                    assert_eq!(told, run.correct_reach(index, fix));
                    assert_same(&list.columns().fixes().unwrap(), run.list());
                    assert_same(&results.columns().fixes().unwrap(), run.results());
                    assert_same(&track.columns().fixes().unwrap(), run.track());
                }
                let [mut results, mut track] = [results, track];
                let fresh = sheet.keep_columns(direction, &list.columns(), &mut results.columns(), &mut track.columns());
                assert_eq!(fresh, run.numbers());
            }
        }
    }
}

#[test]
fn out_of_reach_over_a_stretch() {
    let sheet = sheet_of(turning());
    let [mut list, mut results, mut track] = [(); 3].map(|()| Held::of(&[2001.0, f64::NAN, 2001.0, 4000.0].map(at)));
    let [list, results, track] = [&mut list.columns(), &mut results.columns(), &mut track.columns()];
    assert_eq!(sheet.keep_columns(Direction::Forward, list, results, track), Ok([4, 2]));
    assert_eq!(sheet.correct_columns(Direction::Forward, list, results, track, 0, at(4000.0)), Ok([2, 2]));
    assert_eq!(sheet.correct_columns(Direction::Forward, list, results, track, 3, at(2002.0)), Ok([1, 0]));
    assert_eq!(sheet.keep_columns(Direction::Forward, list, results, track), Ok([4, 2]));
    assert_eq!(sheet.correct_columns(Direction::Forward, list, results, track, 4, at(2002.0)), Err(Refusal::Index));
}

#[test]
fn kept_columns_of_unequal_length() {
    let sheet = sheet_of(turning());
    for way in 0..24 {
        let mut held = [(); 3].map(|()| Held::of(&drawn(20)));
        let Held { x, y, z, t } = &mut held[way / 8];
        [x, y, z, t][way / 2 % 4].resize(if way % 2 == 0 { 19 } else { 21 }, 0.5);
        let before = held.each_ref().map(Held::bits);
        let refusal = Err(if way < 8 { Refusal::List } else { Refusal::KeptLength });
        let [list, results, track] = held.each_mut().map(Held::columns);
        let [list, results, track] = [&mut { list }, &mut { results }, &mut { track }];
        assert_eq!(sheet.keep_columns(Direction::Forward, list, results, track), refusal);
        assert_eq!(sheet.correct_columns(Direction::Forward, list, results, track, 0, at(2001.0)), refusal);
        assert_eq!(held.each_ref().map(Held::bits), before);
    }
}

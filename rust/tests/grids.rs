//! Velocity grids: the rules 17 and 18, sheets over lists with a grid, and that a refusal leaves the list.
mod common;
use common::*;
use sillfeather::*;

/// A metre a year upwards within 0.1 radian of longitude and latitude 0.
fn rising() -> Grid {
    Grid::new([-0.1, -0.1, 0.2, 0.2], 2, &[[0.0, 0.0, 1000.0]; 4]).unwrap()
}

fn deforms() -> Deformation {
    Deformation { t_epoch: Some(2000.0), ..Deformation::BLANK }
}

#[test]
fn every_count_and_length() {
    for (rows, columns) in [(2, 2), (2, 64), (64, 2), (64, 64)] {
        let grid = Grid::new([0.0, 0.0, 0.01, 0.01], columns, &vec![[1.0, 2.0, 3.0]; rows * columns]).unwrap();
        assert_eq!((grid.rows(), grid.columns()), (rows, columns));
        assert_eq!(grid.as_bytes().len(), 40 + 24 * rows * columns);
        let mut long = grid.as_bytes().to_vec();
        assert_eq!(Grid::from_bytes(&long[..long.len() - 1]), Err(Refusal::Grid));
        long.push(0);
        assert_eq!(Grid::from_bytes(&long), Err(Refusal::Grid));
    }
    for (columns, nodes) in [(0, 4), (1, 4), (65, 130), (2, 2), (2, 130), (2, 5), (3, 0)] {
        let grid = Grid::new([0.0, 0.0, 0.1, 0.1], columns, &vec![[0.0; 3]; nodes]);
        assert_eq!(grid, Err(Refusal::Grid), "{columns} columns, {nodes} nodes");
    }
}

#[test]
fn every_number_is_finite_and_spacings_positive() {
    let bytes = rising().as_bytes().to_vec();
    for at in (8..bytes.len()).step_by(8) {
        for x in [f64::NAN, f64::INFINITY, f64::NEG_INFINITY] {
            let mut odd = bytes.clone();
            odd[at..at + 8].copy_from_slice(&x.to_le_bytes());
            assert_eq!(Grid::from_bytes(&odd), Err(Refusal::GridNumber), "{x} at {at}");
        }
    }
    for x in [0.0, -0.0, -0.2] {
        assert_eq!(Grid::new([0.0, 0.0, x, 0.1], 2, &[[0.0; 3]; 4]), Err(Refusal::GridNumber));
        assert_eq!(Grid::new([0.0, 0.0, 0.1, x], 2, &[[0.0; 3]; 4]), Err(Refusal::GridNumber));
    }
    assert!(Grid::new([0.0, 0.0, f64::from_bits(1), f64::MAX], 2, &[[f64::MAX; 3]; 4]).is_ok());
}

#[test]
fn as_with_lent_velocities() {
    // One velocity everywhere whose weights add up without a rounding, at places of quarters of a spacing.
    let grid = Grid::new([-0.25, -0.25, 0.5, 0.5], 2, &[[64.0, -32.0, 1000.0]; 4]).unwrap();
    let fixes: Vec<[f64; 4]> = (0..2048).map(|i| [6378137.0 + i as f64, 0.0, 0.0, 2000.0 + (i % 30) as f64]).collect();
    let (velocities, marks) = (vec![[64.0, -32.0, 1000.0]; 2048], vec![1; 2048]);
    for raw in [false, true] {
        for comment_sign in [false, true] {
            let sheet = sheet_of(Deformation { raw, comment_sign, ..deforms() });
            for direction in [Direction::Forward, Direction::Inverse] {
                for rows in [0, 1, 15, 16, 17, 2048] {
                    let (mut lent, mut found) = (fixes[..rows].to_vec(), fixes[..rows].to_vec());
                    let counts = sheet.shift_with(direction, &mut lent, &velocities[..rows], &marks[..rows]).unwrap();
                    assert_eq!(sheet.shift_grid(direction, &mut found, &grid).unwrap(), counts);
                    assert_eq!(bits(found.as_flattened()), bits(lent.as_flattened()));
                }
            }
        }
    }
}

#[test]
fn the_place_as_the_step_is_reached() {
    let sheet = Sheet::builder().step(Cart { ellipsoid: Ellipsoid::Grs80 }).step(deforms()).build().unwrap();
    let mut fixes = [[0.0, 0.0, 0.0, 2010.0], [1.0, 0.0, 0.0, 2010.0]];
    let counts = sheet.shift_grid(Direction::Forward, &mut fixes, &rising()).unwrap();
    assert_eq!((counts.steps(), counts.out_of_reach()), (&[2, 1][..], &[0, 0][..]));
    assert_eq!(fixes[0], [6378147.0, 0.0, 0.0, 2010.0]);
    assert!(fixes[1].iter().all(|x| x.is_nan()));
}

#[test]
fn refusals_leave_the_list() {
    let sheet = sheet_of(deforms());
    let mut long = vec![[1.0, 2.0, 3.0, 4.0]; 2049];
    assert_eq!(sheet.shift_grid(Direction::Forward, &mut long, &rising()), Err(Refusal::List));
    assert!(long.iter().all(|fix| *fix == [1.0, 2.0, 3.0, 4.0]));
    let mut list = [1.0, 2.0, 3.0, 4.0];
    let grid = rising();
    let mut odd = grid.as_bytes().to_vec();
    odd[24..32].fill(0);
    for (lent, refusal) in [(&[][..], Refusal::Grid), (&odd[..135], Refusal::Grid), (&odd, Refusal::GridNumber)] {
        for sheet in [&sheet, &sheet_of(Cart { ellipsoid: Ellipsoid::Grs80 })] {
            assert_eq!(lent::shift_grid(Direction::Inverse, sheet.as_bytes(), &mut list, lent), Err(refusal));
        }
    }
    assert_eq!(lent::shift_grid(Direction::Forward, sheet.as_bytes(), &mut list[..3], &[]), Err(Refusal::List));
    assert_eq!(lent::shift_grid(Direction::Forward, &sheet.as_bytes()[..39], &mut list, &[]), Err(Refusal::Length));
    assert_eq!(list, [1.0, 2.0, 3.0, 4.0]);
}

#[test]
fn a_closure_with_a_grid() {
    let sheet = sheet_of(deforms());
    let fixes = [[6378137.0, 0.0, 0.0, 2010.0], [0.0, 6378137.0, 0.0, 2010.0]];
    let mut report = Report::default();
    report.add_grid(&sheet, Profile::None, &fixes, &rising()).unwrap();
    assert_eq!((report.lists, report.tuples, report.nans, report.restored), (1, 2, 1, 1));
    let before = report;
    assert_eq!(report.add_grid(&sheet, Profile::Chart, &fixes, &rising()), Err(Refusal::Profile { step: 1 }));
    let (list, mut room, mut numbers) = ([1.0, 2.0, 3.0, 4.0], [0.5; 4], report.numbers());
    for (grid, room_len, refusal) in [(&[][..], 3, Refusal::Grid), (rising().as_bytes(), 3, Refusal::Room)] {
        let told = lent::closure_grid(&mut numbers, Profile::None, sheet.as_bytes(), &list, &mut room[..room_len], grid);
        assert_eq!(told, Err(refusal));
    }
    assert_eq!((report, Report::from(numbers), room), (before, before, [0.5; 4]));
}

//! The velocity grid.

use reader::chain::shift;
use reader::draw::grid::{draw_grid, draw_grid_around, draw_places, spoil_grid};
use reader::draw::{draw_shift, sheet::set_word};
use reader::grid::{Grid, check, lookup};
use reader::random::Random;
use reader::sheet::{Body, Cart, Deformation, Record, Step, bytes_untested};
use reader::{In, same_numbers};

const A1: In = In { a1: true, ..In::NONE };

fn small() -> Grid {
    Grid {
        rows: 2,
        columns: 3,
        south: 0.0,
        west: -1.0,
        latitude_spacing: 0.5,
        longitude_spacing: 1.0,
        nodes: (0..6).map(|i| [i as f64, 10.0 * i as f64, 1000.0]).collect(),
    }
}

fn deformation() -> Vec<u8> {
    let d = Deformation { t_epoch: 2000.0, ..Deformation::blank() };
    bytes_untested(&Record::of(&[Step { inverted: 0, body: Body::Deformation(d) }]))
}

#[test]
fn nodes_edges_and_the_middle() {
    let grid = small();
    for row in 0..2 {
        for column in 0..3 {
            let at = (column as f64 - 1.0, row as f64 * 0.5);
            assert_eq!(lookup(&grid, at.0, at.1), Some(grid.nodes[3 * row + column]));
        }
    }
    assert_eq!(lookup(&grid, 0.5, 0.25), Some([3.0, 30.0, 1000.0]));
    assert_eq!(lookup(&grid, -0.0, -0.0), Some([1.0, 10.0, 1000.0]));
    assert_eq!(lookup(&grid, 1.0f64.next_up(), 0.0), None);
    assert_eq!(lookup(&grid, 1.0, -f64::from_bits(1)), None);
    assert_eq!(lookup(&grid, f64::NAN, 0.0), None);
    assert_eq!(lookup(&grid, 0.0, f64::NAN), None);
}

#[test]
fn layout_before_numbers() {
    let good = small().bytes();
    assert_eq!(check(&good).unwrap().bytes(), good);
    let number = |bytes: &[u8]| check(bytes).map_or_else(|refusal| refusal.number, |_| 0);
    assert_eq!(number(&[]), 17);
    assert_eq!(number(&good[..good.len() - 1]), 17);
    assert_eq!(number(&[&good[..], &[0]].concat()), 17);
    for (at, word) in [(0, 1), (0, 3), (4, 1), (4, 65), (0, u32::MAX)] {
        let mut bytes = good.clone();
        set_word(&mut bytes, at, word);
        assert_eq!(number(&bytes), 17);
    }
    for (i, x) in [(0, f64::NAN), (1, f64::INFINITY), (2, 0.0), (3, -1.0), (21, f64::NAN)] {
        let mut bytes = good.clone();
        bytes[8 + 8 * i..16 + 8 * i].copy_from_slice(&f64::to_le_bytes(x));
        assert_eq!(number(&bytes), 18, "number {i}");
        bytes.pop();
        assert_eq!(number(&bytes), 17, "number {i}");
    }
}

#[test]
fn a_grid_in_a_run() {
    let list = [6378137.0, 0.0, 0.0, 2010.0, -6378137.0, 0.0, 0.0, 2010.0];
    let bytes = small().bytes();
    let answer = shift(&A1, false, &deformation(), &list, &[], &[], Some(&bytes));
    assert_eq!((answer.refusal, answer.counts[0], answer.list[0]), (0, 1, 6378147.0));
    assert!(answer.list[4..].iter().all(|x| x.is_nan()));
    // As with the velocity lent that was found.
    let lent = shift(
        &A1,
        false,
        &deformation(),
        &list,
        &[1.0, 10.0, 1000.0, 0.0, 0.0, 0.0],
        &[1, 0],
        None,
    );
    assert!(lent.same(&answer));
    assert_eq!(shift(&A1, false, &deformation(), &list, &[0.0; 6], &[1, 1], Some(&[])).refusal, 10);
    assert_eq!(shift(&A1, false, &deformation(), &list, &[], &[], Some(&[])).refusal, 17);
    let cart =
        bytes_untested(&Record::of(&[Step { inverted: 0, body: Body::Cart(Cart::blank()) }]));
    assert_eq!(shift(&A1, false, &cart, &[], &[], &[], Some(&[])).refusal, 17);
    assert_eq!(shift(&A1, false, &cart, &[], &[], &[], Some(&bytes)).refusal, 0);
}

#[test]
fn drawn_grids() {
    let (mut present, mut absent, mut refused) = (0, 0, [0; 19]);
    for seed in 0..300 {
        let r = &mut Random::new(seed);
        let grid = draw_grid(r);
        for (longitude, latitude) in draw_places(r, &grid, 40) {
            match lookup(&grid, longitude, latitude) {
                Some(_) => present += 1,
                None => absent += 1,
            }
        }
        let (longitude, latitude) = (r.between(-3.0, 3.0), r.between(-1.5, 1.5));
        let mut bytes = draw_grid_around(r, longitude, latitude).bytes();
        assert_eq!(check(&bytes).unwrap().bytes(), bytes);
        spoil_grid(r, &mut bytes);
        refused[check(&bytes).map_or_else(|refusal| refusal.number, |_| 0) as usize] += 1;
    }
    assert!(present > 2000 && absent > 2000 && refused[17] > 50 && refused[18] > 50);
}

#[test]
fn drawn_runs_find_their_grids() {
    let (mut with, mut found) = (0, 0);
    for seed in 0..3000 {
        let s = draw_shift(&mut Random::new(seed), &A1);
        if s.list.len() > 4000 {
            continue;
        }
        let grid = s.grid.as_deref();
        let a = shift(&A1, s.inverse, &s.sheet, &s.list, &s.velocities, &s.marks, grid);
        if a.refusal != 0 {
            assert!(a.counts == [0; 16] && same_numbers(&a.list, &s.list));
        } else if s.grid.is_some() {
            with += 1;
            found += a.counts.iter().any(|c| *c > 0) as u32;
        }
    }
    assert!(with > 100 && found > 60, "{with} {found}");
}

#[test]
fn the_last_row_by_its_number() {
    let mut grid = small();
    (grid.rows, grid.columns, grid.latitude_spacing) = (4, 2, 0.1);
    grid.nodes = (0..8).map(|i| [i as f64; 3]).collect();
    let north = grid.extent().north;
    assert!(north == 0.30000000000000004 && north / 0.1 > 3.0);
    assert_eq!(lookup(&grid, -1.0, north), Some(grid.nodes[6]));
    assert_eq!(lookup(&grid, -1.0, north.next_up()), None);
    (grid.rows, grid.south, grid.latitude_spacing) = (2, 0.2, 0.5);
    let north = grid.extent().north;
    assert!(north == 0.7 && (north - 0.2) / 0.5 < 1.0);
    assert_eq!(lookup(&grid, 0.0, north), Some(grid.nodes[3]));
    let unit = f64::EPSILON;
    (grid.south, grid.latitude_spacing) = (1.0, 0.6 * unit);
    assert_eq!(grid.extent().north, 1.0 + unit);
    assert_eq!(lookup(&grid, -1.0, 1.0 + unit), Some(grid.nodes[2]));
}

//! Grids and places.

use super::sheet::set_word;
use crate::grid::Grid;
use crate::random::Random;
use std::f64::consts::{FRAC_PI_2, PI};

/// A count: small, or at its limits.
fn count(r: &mut Random) -> usize {
    match r.below(12) {
        0 => 64,
        1 => 3 + r.below(62) as usize,
        2..=5 => 3 + r.below(3) as usize,
        _ => 2,
    }
}

/// Spacings of ordinary grids; now and then tiny, huge, or anything positive.
fn spacing(r: &mut Random) -> f64 {
    match r.below(16) {
        0 => f64::from_bits(1 + r.below(4)),
        1 => r.magnitude(-1022, -40).abs(),
        2 => r.magnitude(20, 1023).abs(),
        3 => f64::MAX,
        4 => r.pick(&[0.1, 0.01, PI, FRAC_PI_2, 2.0 * PI, 1.0]),
        _ => r.between(1e-4, 0.2),
    }
}

/// East, north, up.
fn node(r: &mut Random) -> [f64; 3] {
    [(); 3].map(|()| match r.below(40) {
        0 => r.wild_finite(),
        1 => r.sign(0.0),
        _ => r.between(-80.0, 80.0),
    })
}

/// A grid in rule anywhere.
pub fn draw_grid(r: &mut Random) -> Grid {
    let (rows, columns) = (count(r), count(r));
    let corner = |r: &mut Random, edge: f64| match r.below(8) {
        0 => r.sign(0.0),
        1 => r.sign(edge),
        2 => r.wild_finite(),
        _ => r.between(-edge, edge),
    };
    Grid {
        rows,
        columns,
        south: corner(r, FRAC_PI_2),
        west: corner(r, PI),
        latitude_spacing: spacing(r),
        longitude_spacing: spacing(r),
        nodes: (0..rows * columns).map(|_| node(r)).collect(),
    }
}

/// A grid in rule that holds the place: inside a cell, on a node, on an edge, or a unit in the
/// last place beside one. A place that is not finite is left alone.
pub fn draw_grid_around(r: &mut Random, longitude: f64, latitude: f64) -> Grid {
    let mut grid = draw_grid(r);
    if latitude.is_finite() {
        let start = corner_before(r, latitude, grid.latitude_spacing, grid.rows);
        if start.is_finite() {
            grid.south = start;
        }
    }
    if longitude.is_finite() {
        let start = corner_before(r, longitude, grid.longitude_spacing, grid.columns);
        if start.is_finite() {
            grid.west = start;
        }
    }
    grid
}

/// A first row such that the place lies on a row, on the first or the last one, between rows, or
/// a unit in the last place beside.
fn corner_before(r: &mut Random, place: f64, spacing: f64, count: usize) -> f64 {
    let rows = match r.below(6) {
        0 => 0.0,
        1 => (count - 1) as f64,
        2 => r.below(count as u64) as f64,
        _ => r.between(0.0, (count - 1) as f64),
    };
    let start = place - rows * spacing;
    if r.once_in(3) { r.at_or_next(start) } else { start }
}

/// Puts the layout or a number out of rule, or at its bound.
pub fn spoil_grid(r: &mut Random, bytes: &mut Vec<u8>) {
    if bytes.len() < 40 {
        return;
    }
    let numbers = (bytes.len() as u64 - 8) / 8;
    match r.below(8) {
        0 => set_word(bytes, 4 * r.below(2) as usize, r.pick(&[0, 1, 2, 64, 65, u32::MAX])),
        1 => {
            let (rows, columns) = (r.pick(&[1, 65]), r.pick(&[2, 64]));
            set_word(bytes, 0, rows);
            set_word(bytes, 4, columns);
            bytes.resize(40 + 24 * (rows * columns) as usize, 0);
        }
        2 => {
            let shorter = bytes.len() - r.pick(&[1, 8, 24]).min(bytes.len());
            bytes.truncate(shorter);
        }
        3 => bytes.extend((0..r.pick(&[1, 8, 24])).map(|_| 0)),
        4 => bytes.truncate(r.pick(&[0, 7, 8, 39, 40])),
        5 => {
            let odd = r.pick(&[0.0, -0.0, -0.1, f64::from_bits(1), -f64::from_bits(1), f64::MAX]);
            set_number(bytes, 2 + r.below(2) as usize, odd);
        }
        6 => {
            let x = if r.once_in(2) { r.nan() } else { r.sign(f64::INFINITY) };
            set_number(bytes, r.below(4) as usize, x);
        }
        _ => {
            let x = if r.once_in(2) { r.nan() } else { r.sign(f64::INFINITY) };
            set_number(bytes, r.below(numbers) as usize, x);
        }
    }
}

/// The i-th number after the counts.
fn set_number(bytes: &mut [u8], i: usize, x: f64) {
    let at = 8 + 8 * i;
    bytes[at..at + 8].copy_from_slice(&x.to_bits().to_le_bytes());
}

/// Places to look up in a grid: its corners, edges and nodes, each also a unit in the last place
/// beside, inside, outside, and odd numbers. Longitude, latitude.
pub fn draw_places(r: &mut Random, grid: &Grid, number: usize) -> Vec<(f64, f64)> {
    let e = grid.extent();
    let one = |r: &mut Random, low: f64, high: f64, spacing: f64, count: usize| {
        let node = low + r.below(count as u64) as f64 * spacing;
        match r.below(12) {
            0 => low,
            1 => high,
            2 => r.at_or_next(low),
            3 => r.at_or_next(high),
            4 => node,
            5 => r.at_or_next(node),
            6 => r.wild(),
            7 => high + spacing,
            8 => low - spacing,
            _ => low + r.unit() * (high - low),
        }
    };
    let mut places = vec![
        (e.west, e.south),
        (e.west, e.north),
        (e.east, e.south),
        (e.east, e.north),
        (f64::NAN, e.south),
        (e.west, f64::NAN),
    ];
    places.extend((0..number).map(|_| {
        (
            one(r, e.west, e.east, grid.longitude_spacing, grid.columns),
            one(r, e.south, e.north, grid.latitude_spacing, grid.rows),
        )
    }));
    places
}

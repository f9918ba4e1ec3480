//! The velocity grid on board.
//!
//! Document 02, A1: "A grid is bytes: u32 row and column counts (2 to 64 each), then as binary64
//! south latitude, west longitude, latitude and longitude spacing in radians, and east, north, up
//! in mm/year at each node, rows from the south, nodes from the west; the length is exactly what
//! the counts say. Lookup is bilinear in `geographic`'s longitude and latitude, each weight and
//! sum rounded once in a documented order; edges belong to the grid. The place is that of the
//! tuple as it reaches the step. A point outside, or with a NaN place, is absent, mark 0."
//! "Refusals: 17, grid layout; 18, grid number not finite or spacing not positive; both after
//! 10."
//!
//! Readings
//! - The document leaves the order of roundings to docs. The one chosen here stands in `lookup`,
//!   and nowhere else but for the north and east edges in `Grid::extent`.
//! - The edges are numbers: north is south + (rows - 1)·spacing with two roundings, and a place
//!   is inside from south to north and from west to east, both ends included. Smallest input that
//!   parts this from a test of the quotient alone: south 0, spacing 0.1, four rows; north is
//!   0.30000000000000004, whose quotient by 0.1 is 3.0000000000000004, beyond the last row.
//! - A place on the last row stands rows - 1 spacings from the first, whatever the quotient is, and
//!   no place stands further: so its weight there is 1 and each corner gives its own node. Smallest
//!   inputs: south 0.2, two rows, spacing 0.5, whose north is 0.7 with the quotient
//!   0.9999999999999999; and the four rows above, whose north has a quotient over 3.
//! - A node's row and column are the quotient's whole part, at most the last but one; so a place
//!   on an inner node is the south-west node of its cell.
//! - The longitude is `geographic`'s, from -π to π; no turn is added or taken. Smallest input:
//!   west 3, spacing 0.2, two columns; a place at longitude -3.1 is outside.
//! - A spacing of -0 or 0 is not positive; a spacing below the normal range is positive.
//! - Numbers that overflow in the lookup stay as they come: an infinite or NaN velocity is
//!   present.

use crate::{Refusal, number_at, number_bytes, word_at, word_bytes};

#[derive(Clone, Debug)]
pub struct Grid {
    pub rows: usize,
    pub columns: usize,
    /// Latitude of the first row.
    pub south: f64,
    /// Longitude of the first column.
    pub west: f64,
    pub latitude_spacing: f64,
    pub longitude_spacing: f64,
    /// East, north, up; rows from the south, nodes from the west.
    pub nodes: Vec<[f64; 3]>,
}

/// The edges.
#[derive(Clone, Copy, Debug)]
pub struct Extent {
    pub south: f64,
    pub north: f64,
    pub west: f64,
    pub east: f64,
}

/// A grid's bytes, or 17, or 18.
pub fn check(bytes: &[u8]) -> Result<Grid, Refusal> {
    if bytes.len() < 8 {
        return Err(Refusal::plain(17));
    }
    let (rows, columns) = (word_at(bytes, 0) as usize, word_at(bytes, 4) as usize);
    let counts = (2..=64).contains(&rows) && (2..=64).contains(&columns);
    if !counts || bytes.len() != 40 + 24 * rows * columns {
        return Err(Refusal::plain(17));
    }
    let numbers: Vec<f64> = (8..bytes.len()).step_by(8).map(|at| number_at(bytes, at)).collect();
    let spacings = numbers[2] > 0.0 && numbers[3] > 0.0;
    if !spacings || numbers.iter().any(|x| !x.is_finite()) {
        return Err(Refusal::plain(18));
    }
    Ok(Grid {
        rows,
        columns,
        south: numbers[0],
        west: numbers[1],
        latitude_spacing: numbers[2],
        longitude_spacing: numbers[3],
        nodes: numbers[4..].chunks_exact(3).map(|v| [v[0], v[1], v[2]]).collect(),
    })
}

impl Grid {
    pub fn bytes(&self) -> Vec<u8> {
        let place = [self.south, self.west, self.latitude_spacing, self.longitude_spacing];
        [
            word_bytes(&[self.rows as u32, self.columns as u32]),
            number_bytes(&place),
            number_bytes(self.nodes.as_flattened()),
        ]
        .concat()
    }

    /// North and east with two roundings each: the product, then the sum.
    pub fn extent(&self) -> Extent {
        Extent {
            south: self.south,
            north: self.south + (self.rows - 1) as f64 * self.latitude_spacing,
            west: self.west,
            east: self.west + (self.columns - 1) as f64 * self.longitude_spacing,
        }
    }
}

/// How many spacings a place inside stands from the first row, or column: never more than the last.
fn spacings(place: f64, first: f64, last: f64, spacing: f64, count: usize) -> f64 {
    let quotient = (place - first) / spacing;
    let most = (count - 1) as f64;
    if place == last || quotient > most { most } else { quotient }
}

/// The velocity at a place, none where it is absent.
///
/// 1. Inside: south <= latitude <= north and west <= longitude <= east, as binary64.
/// 2. y = (latitude - south) / spacing, two roundings, at most rows - 1, and rows - 1 itself where
///    the latitude is north; its row is the whole part of y, at most the last row but one; v = y -
///    row, one rounding. x, column and u likewise, from the longitude.
/// 3. v' = 1 - v and u' = 1 - u, one rounding each.
/// 4. The weights, one rounding each: south-west v'·u', south-east v'·u, north-west v·u',
///    north-east v·u.
/// 5. Each of east, north and up: the four nodes times their weights in that order, summed from
///    the left: ((sw·w + se·w) + nw·w) + ne·w.
pub fn lookup(grid: &Grid, longitude: f64, latitude: f64) -> Option<[f64; 3]> {
    let e = grid.extent();
    let inside =
        e.south <= latitude && latitude <= e.north && e.west <= longitude && longitude <= e.east;
    if !inside {
        return None;
    }
    let y = spacings(latitude, e.south, e.north, grid.latitude_spacing, grid.rows);
    let x = spacings(longitude, e.west, e.east, grid.longitude_spacing, grid.columns);
    let row = (y as usize).min(grid.rows - 2);
    let column = (x as usize).min(grid.columns - 2);
    let v = y - row as f64;
    let u = x - column as f64;
    let (v1, u1) = (1.0 - v, 1.0 - u);
    let weights = [v1 * u1, v1 * u, v * u1, v * u];
    let first = row * grid.columns + column;
    let node = |at: usize| grid.nodes[at];
    let (sw, se) = (node(first), node(first + 1));
    let (nw, ne) = (node(first + grid.columns), node(first + grid.columns + 1));
    Some(
        [0, 1, 2].map(|i| {
            sw[i] * weights[0] + se[i] * weights[1] + nw[i] * weights[2] + ne[i] * weights[3]
        }),
    )
}

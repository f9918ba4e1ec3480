use alloc::vec::Vec;

use crate::{Refusal, lent};

/// A velocity grid that the library accepts, checked once and kept: the velocities of the ground over a rectangle of longitude and latitude.
///
/// docs/FORMAT.md has the bytes one by one, and how a velocity is found in them. The edges belong to the grid. Longitudes are not wrapped: a grid that begins
/// west of ±π finds nothing on the other side.
///
/// ```
/// use sillfeather::{Grid, Refusal};
///
/// // two rows by three columns from 10° E 50° N, 2° apart; east, north and up in mm a year at each node
/// let nodes = [[17.1, 15.0, 0.4], [17.4, 14.8, 0.6], [17.9, 14.6, 0.9], [16.9, 15.2, 1.1], [17.2, 15.0, 1.6], [17.6, 14.9, 2.2]];
/// let grid = Grid::new([50.0_f64, 10.0, 2.0, 2.0].map(f64::to_radians), 3, &nodes)?;
/// assert_eq!((grid.rows(), grid.columns(), grid.as_bytes().len()), (2, 3, 184));
/// assert_eq!(Grid::from_bytes(grid.as_bytes())?, grid);
///
/// let cut = &grid.as_bytes()[..183];
/// assert_eq!(Grid::from_bytes(cut), Err(Refusal::Grid));
/// assert_eq!(Grid::new([0.0, 0.0, 0.0, 0.1], 3, &nodes), Err(Refusal::GridNumber));
/// # Ok::<(), sillfeather::Refusal>(())
/// ```
#[derive(Clone, Debug, PartialEq, Eq, Hash)]
pub struct Grid {
    bytes: Vec<u8>,
}

impl Grid {
    /// The grid that these bytes are, or the rule that they break: 17, or 18.
    pub fn from_bytes(bytes: &[u8]) -> Result<Grid, Refusal> {
        lent::check_grid(bytes)?;
        Ok(Grid { bytes: bytes.to_vec() })
    }

    /// A grid of nodes, row after row from the south, each row from the west. `place` is the first row's latitude, the first column's longitude, and the
    /// spacing of rows and of columns, all in radians; a node is east, north and up in mm a year. Refused: 17 where the nodes do not fill rows of `columns`,
    /// or a count is outside 2 to 64; 18.
    pub fn new(place: [f64; 4], columns: usize, nodes: &[[f64; 3]]) -> Result<Grid, Refusal> {
        let rows = nodes.len().checked_div(columns).unwrap_or(0);
        let count = |n: usize| u32::try_from(n).unwrap_or(u32::MAX).to_le_bytes();
        let numbers = place.iter().chain(nodes.as_flattened()).flat_map(|x| x.to_le_bytes());
        let bytes: Vec<u8> = count(rows).into_iter().chain(count(columns)).chain(numbers).collect();
        Grid::from_bytes(&bytes)
    }

    /// The grid's bytes, 136 to 98,344.
    pub fn as_bytes(&self) -> &[u8] {
        &self.bytes
    }

    /// The number of rows, 2 to 64.
    pub fn rows(&self) -> usize {
        // The first word; its upper bytes are 0 in every accepted grid.
        usize::from(self.bytes[0])
    }

    /// The number of columns, 2 to 64.
    pub fn columns(&self) -> usize {
        usize::from(self.bytes[4])
    }
}

impl AsRef<[u8]> for Grid {
    fn as_ref(&self) -> &[u8] {
        &self.bytes
    }
}

impl TryFrom<&[u8]> for Grid {
    type Error = Refusal;

    fn try_from(bytes: &[u8]) -> Result<Grid, Refusal> {
        Grid::from_bytes(bytes)
    }
}

//! Inputs to compare the library with the reader by: good, damaged and at every edge.
//!
//! Each drawer takes a generator and `In`, and draws the same input from the same state wherever
//! the kernels are the same: numbers come from single operations and the square root, but a kept
//! run's memory is a fresh run of the reader, and a grid is laid around places that the reader
//! found.
//!
//! - `sheet`: `draw_sheet` and `draw_record`, `sheet::spoil_record`, `sheet::damage`.
//! - `steps`: `draw_step`, one step of a kind with a list for it.
//! - `chain`: `draw_shift`.
//! - `grid`: `draw_grid`, `draw_places`, `grid::draw_grid_around`, `grid::spoil_grid`.
//! - `kept`: `draw_kept`, `draw_kept_chain`.
//! - `rescue`: `draw_damaged`.
//! - `store`: `draw_day`.
//! - `closure`: `draw_reported`.

pub mod closure;
pub mod grid;
pub mod kept;
pub mod list;
pub mod numbers;
pub mod rescue;
pub mod sheet;
pub mod store;

pub use closure::{Reported, draw_reported};
pub use grid::{draw_grid, draw_places};
pub use kept::{KeptChain, KeptRun, draw_kept, draw_kept_chain};
pub use list::{Shift, draw_list, draw_shift, draw_step};
pub use rescue::{Damaged, draw_damaged};
pub use sheet::{draw_record, draw_sheet};
pub use store::{Day, draw_day};

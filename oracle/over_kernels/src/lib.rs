//! The same-bits oracle (document 01's second): the six files of docs/src with their outside calls sent
//! to our kernels.
//!
//! The build script copies the files and renames the calls, nothing else; the methods by the new names stand in `Kernels`.
#![allow(unused_doc_comments)]

/// The kernels of the shim's ellipsoids and of the listed difference.
mod kernel {
    pub use ours::{atan2, cos, hypot, sin, sqrt};
}

/// The renamed methods.
mod kernels {
    pub trait Kernels {
        fn k_sin(self) -> f64;
        fn k_sin_cos(self) -> (f64, f64);
        fn k_sqrt(self) -> f64;
        fn k_atan2(self, x: f64) -> f64;
        fn k_hypot(self, y: f64) -> f64;
        fn k_powi(self, n: i32) -> f64;
    }

    impl Kernels for f64 {
        fn k_sin(self) -> f64 {
            crate::reach::asked(self);
            ours::sin(self)
        }
        fn k_sin_cos(self) -> (f64, f64) {
            crate::reach::asked(self);
            ours::sin_cos(self)
        }
        fn k_sqrt(self) -> f64 {
            ours::sqrt(self)
        }
        fn k_atan2(self, x: f64) -> f64 {
            ours::atan2(self, x)
        }
        fn k_hypot(self, y: f64) -> f64 {
            ours::hypot(self, y)
        }
        /// Products from the left.
        fn k_powi(self, n: i32) -> f64 {
            (1..n).fold(self, |product, _| product * self)
        }
    }
}

#[path = "../../shim/run.rs"]
mod run;
#[path = "../../shim/shim.rs"]
mod shim;

mod authoring {
    pub use crate::geocart::GeoCart;
    pub use crate::kernels::Kernels;
    pub use crate::shim::*;
}

use kernels::Kernels;
use shim::*;

include!(concat!(env!("OUT_DIR"), "/files.rs"));

pub use reach::out_of_reach;
pub use run::{Ran, run};

/// Document 02, A5: how many tuples met an angle out of reach, counted where the Rust takes a sine or
/// a cosine.
mod reach {
    use crate::run::{Watch, watched};
    use job::{Body, Job};
    use std::cell::Cell;

    thread_local! {
        /// Whether a sine was asked for since the mark was cleared, and whether of an angle that is
        /// not finite or beyond 1024.
        static MARK: Cell<(bool, bool)> = const { Cell::new((false, false)) };
    }

    pub fn asked(angle: f64) {
        let out = !(angle.abs() <= 1024.0);
        MARK.with(|mark| mark.set((true, mark.get().1 || out)));
    }

    fn taken() -> (bool, bool) {
        MARK.with(|mark| mark.replace((false, false)))
    }

    #[derive(Default)]
    struct Counts {
        made: (bool, bool),
        numbers: [u32; 16],
    }

    impl Watch for Counts {
        fn begun(&mut self) {
            taken();
        }

        /// What `new` asked for: Helmert's matrix of the sheet's own angles.
        fn made(&mut self) {
            self.made = taken();
        }

        /// A step that asks for a sine at the tuple goes by that; else the matrix that `new` made is
        /// used. A fix without its time uses none in own-epoch mode, and is the one fix that Helmert
        /// does not count (A3). By the listed difference deformation's latitude is NaN.
        fn applied(&mut self, step: usize, kind: &Body, counted: bool, listed: bool) {
            let (asked, out) = taken();
            let met = if asked { out } else { self.made.1 } || listed && matches!(kind, Body::Deformation { .. });
            let used = counted || !matches!(kind, Body::Helmert(_));
            self.numbers[step] += (met && used) as u32;
        }
    }

    pub fn out_of_reach(job: &Job) -> [u32; 16] {
        let mut counts = Counts::default();
        watched(job, &mut counts);
        counts.numbers
    }
}

/// `geographic` on an ellipsoid of the table. `deformation` alone calls it, and leaves its height unread. On the axis a NaN Z gives
/// φ NaN, the listed difference.
pub fn geographic(ellipsoid: u32, tuple: [f64; 4]) -> [f64; 4] {
    let e = Ellipsoid::named(ellipsoid_name(ellipsoid));
    let mut place = geocart::GeoCart::geographic(&e, &Coor4D(tuple)).0;
    if tuple[2].is_nan() && kernel::hypot(tuple[0], tuple[1]) < 1.0e-12 {
        place[1] = f64::NAN;
    }
    place
}

/// The radii of curvature N and M on an ellipsoid of the table.
pub fn radii(ellipsoid: u32, phi: f64) -> (f64, f64) {
    let e = Ellipsoid::named(ellipsoid_name(ellipsoid));
    (e.prime_vertical_radius_of_curvature(phi), e.meridian_radius_of_curvature(phi))
}

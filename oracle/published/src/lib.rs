//! The near oracle (document 01's first): the six files of docs/src as published, with the C library's kernels.
#![allow(unused_doc_comments)]

/// The kernels of the shim's ellipsoids and of the listed difference.
mod kernel {
    pub fn sin(x: f64) -> f64 {
        x.sin()
    }
    pub fn cos(x: f64) -> f64 {
        x.cos()
    }
    pub fn sqrt(x: f64) -> f64 {
        x.sqrt()
    }
    pub fn atan2(y: f64, x: f64) -> f64 {
        y.atan2(x)
    }
    pub fn hypot(x: f64, y: f64) -> f64 {
        x.hypot(y)
    }
}

#[path = "../../shim/run.rs"]
mod run;
#[path = "../../shim/shim.rs"]
mod shim;

mod authoring {
    pub use crate::geocart::GeoCart;
    pub use crate::shim::*;
}

use shim::*;

#[path = "../../../docs/src/src/inner_op/cart.rs"]
mod cart;
#[path = "../../../docs/src/src/inner_op/deformation.rs"]
mod deformation;
#[path = "../../../docs/src/src/ellipsoid/geocart.rs"]
mod geocart;
#[path = "../../../docs/src/src/inner_op/helmert.rs"]
mod helmert;
#[path = "../../../docs/src/src/inner_op/molodensky.rs"]
mod molodensky;
#[path = "../../../docs/src/src/inner_op/permtide.rs"]
mod permtide;

pub use run::{Ran, as_published, new, parameters, run};
pub use shim::{Flat, Lent, Op, RawParameters};

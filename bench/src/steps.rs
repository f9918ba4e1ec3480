//! What is run: a step of each kind and mode, with the parameters of a published shift, and the place its tuples are of.
use job::published_shifts::{Published, datums, frames, molodensky};
use job::{Body, Helmert, NOT_GIVEN, Step};

#[derive(Clone, Copy, PartialEq)]
pub enum Place {
    Geographic,
    Cartesian,
}
use Place::{Cartesian, Geographic};

#[derive(Clone, Copy, PartialEq)]
pub enum Times {
    /// each fix a second after the one before
    Differ,
    Equal,
}
use Times::{Differ, Equal};

pub struct Row {
    pub step: &'static str,
    pub body: Body,
    /// where the tuples of the forward step stand, and those of the inverse
    pub takes: [Place; 2],
    pub times: Times,
    /// the aims of original / ours over 2,048 fixes, flat and as columns; forward and inverse
    pub aims: [[f64; 2]; 2],
}

/// Three steps of a sheet that is run forward.
pub struct Chain {
    pub steps: Vec<Step>,
    pub takes: Place,
    pub times: Times,
}

fn row(step: &'static str, body: Body, place: Place, times: Times, aim: f64) -> Row {
    Row { step, body, takes: [place; 2], times, aims: [[aim; 2]; 2] }
}

/// A row whose aim over columns is another.
fn columned(aim: f64, row: Row) -> Row {
    Row { aims: row.aims.map(|[flat, _]| [flat, aim]), ..row }
}

fn named(all: Vec<Published>, name: &str) -> Body {
    all.into_iter().find(|p| p.name == name).expect("a published shift").body
}

/// The shift from ITRF2014 to ETRF2000, with more flags.
fn moving(flags: u32, t_obs: f64) -> Body {
    let Body::Helmert(h) = named(frames(), "ITRF2014 to ETRF2000") else { unreachable!() };
    Body::Helmert(Helmert { flags: h.flags | flags, t_obs, ..h })
}

/// La Canoa to REGVEN, EPSG 1771.
fn about_a_pivot() -> Body {
    Body::Badekas {
        flags: 0,
        convention: 2,
        translation: [-270.933, 115.599, -360.226],
        rotation: [-5.266, -1.238, 2.381],
        scale: -5.109,
        pivot: [2464351.59, -5783466.61, 974809.81],
    }
}

const EXACT: u32 = 1;
const OWN_EPOCH: u32 = 8;

pub fn rows() -> Vec<Row> {
    let Body::Molodensky { flags, first, second, offsets } = named(molodensky(), "ED50 to WGS 84, mean") else { unreachable!() };
    let full = Body::Molodensky { flags, first, second, offsets };
    let abridged = Body::Molodensky { flags: flags | 1, first, second, offsets };
    let deformation = Body::Deformation { flags: 0, ellipsoid: 1, dt: NOT_GIVEN, t_epoch: 2000.0 };
    vec![
        columned(2.5, row("Helmert, translation only", named(datums(), "ED50 to WGS 84, mean"), Cartesian, Differ, 1.5)),
        columned(2.5, row("Helmert, static, rotated", named(datums(), "OSGB36 to WGS 84"), Cartesian, Differ, 1.5)),
        row("Molodensky-Badekas, rotated", about_a_pivot(), Cartesian, Differ, 0.0),
        columned(2.5, row("Helmert, fixed", moving(0, 2024.5), Cartesian, Differ, 1.5)),
        columned(2.3, row("Helmert, running, times differ", moving(0, NOT_GIVEN), Cartesian, Differ, 1.5)),
        columned(2.8, row("Helmert, running, times equal", moving(0, NOT_GIVEN), Cartesian, Equal, 1.5)),
        row("Helmert, running, exact, times differ", moving(EXACT, NOT_GIVEN), Cartesian, Differ, 1.5),
        row("Helmert, running, exact, times equal", moving(EXACT, NOT_GIVEN), Cartesian, Equal, 1.5),
        row("Helmert, own-epoch, times differ", moving(OWN_EPOCH, NOT_GIVEN), Cartesian, Differ, 0.0),
        row("Helmert, own-epoch, times equal", moving(OWN_EPOCH, NOT_GIVEN), Cartesian, Equal, 0.0),
        row("Helmert, own-epoch, exact, times differ", moving(EXACT + OWN_EPOCH, NOT_GIVEN), Cartesian, Differ, 0.0),
        Row {
            step: "cart",
            body: Body::Cart { ellipsoid: 1 },
            takes: [Geographic, Cartesian],
            times: Differ,
            aims: [[1.3; 2], [1.0; 2]],
        },
        row("Molodensky, full", full, Geographic, Differ, 1.3),
        row("Molodensky, abridged", abridged, Geographic, Differ, 1.3),
        row("permtide", Body::Permtide { ellipsoid: 1, to: 1, from: 2, k: 0.3 }, Geographic, Differ, 1.3),
        row("deformation", deformation, Cartesian, Differ, 1.3),
    ]
}

/// From one datum's ellipsoid to another's by way of the Earth's centre, as a chart's datum is reached.
pub fn chains() -> Vec<(&'static str, Chain)> {
    let by = |helmert: Body, times| {
        let bodies = [Body::Cart { ellipsoid: 1 }, helmert, Body::Cart { ellipsoid: 3 }];
        let steps = bodies.into_iter().enumerate().map(|(i, body)| Step { inverted: i == 2, body }).collect();
        Chain { steps, takes: Geographic, times }
    };
    vec![
        ("cart, static Helmert, cart inverse", by(named(datums(), "OSGB36 to WGS 84"), Differ)),
        ("cart, running Helmert, cart inverse", by(moving(0, NOT_GIVEN), Differ)),
    ]
}

impl Row {
    /// The crate has no own-epoch mode and no pivot.
    pub fn in_the_original(&self) -> bool {
        !matches!(&self.body, Body::Helmert(h) if h.flags & OWN_EPOCH != 0) && self.known_before()
    }

    /// An archive from before request A4 refuses kind 6.
    pub fn known_before(&self) -> bool {
        !matches!(self.body, Body::Badekas { .. })
    }

    pub fn helmert(&self) -> bool {
        matches!(self.body, Body::Helmert(_))
    }

    pub fn deforms(&self) -> bool {
        matches!(self.body, Body::Deformation { .. })
    }
}

// ----- The lists -------------------------------------------------------------------------

struct Random(u64);

impl Random {
    fn between(&mut self, low: f64, high: f64) -> f64 {
        self.0 ^= self.0 << 13;
        self.0 ^= self.0 >> 7;
        self.0 ^= self.0 << 17;
        low + (high - low) * (self.0 >> 11) as f64 / (1u64 << 53) as f64
    }
}

pub const TUPLES: usize = 2048;

const SECOND: f64 = 1.0 / (365.25 * 86400.0);

/// Fixes all over the oceans and a little above them, up to latitude 80°.
pub fn list(place: Place, times: Times) -> Vec<f64> {
    let mut r = Random(88172645463325252);
    (0..TUPLES).flat_map(|i| fix(&mut r, place, 2024.0 + if times == Differ { i as f64 * SECOND } else { 0.0 })).collect()
}

fn fix(r: &mut Random, place: Place, t: f64) -> [f64; 4] {
    let (latitude, longitude) = (r.between(-80.0, 80.0).to_radians(), r.between(-179.9, 179.9).to_radians());
    let h = r.between(-50.0, 150.0);
    if place == Geographic {
        return [longitude, latitude, h, t];
    }
    let (sphi, cphi) = latitude.sin_cos();
    let (slam, clam) = longitude.sin_cos();
    let n = 6378137.0 / (1.0 - 0.00669438 * sphi * sphi).sqrt();
    [(n + h) * cphi * clam, (n + h) * cphi * slam, (n * (1.0 - 0.00669438) + h) * sphi, t]
}

/// East, north and up in mm a year.
pub fn velocities() -> Vec<f64> {
    let mut r = Random(1181783497276652981);
    (0..3 * TUPLES).map(|_| r.between(-80.0, 80.0)).collect()
}

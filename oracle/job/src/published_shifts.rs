//! Shifts that national and international bodies have published, as steps of a sheet.
//!
//! The numbers were held against the EPSG dataset, version 10.076, and the ITRF tables, both as PROJ 9.1.1 carries them.
use crate::{Body, Helmert};

pub struct Published {
    pub name: &'static str,
    pub source: &'static str,
    pub body: Body,
}

const POSITION_VECTOR: u32 = 1;
const COORDINATE_FRAME: u32 = 2;

const MM_AND_UAS: u32 = 6;

// ----- Between frames, with rates ------------------------------------------------------

/// Millimetres, parts in 10^9 and milliarcseconds, as the frames' own tables have them; each row translation, scale, rotation.
type Row = ([f64; 3], f64, [f64; 3]);

fn frame(name: &'static str, source: &'static str, convention: u32, epoch: f64, at: Row, rate: Row) -> Published {
    let mut h = Helmert::blank();
    h.flags = MM_AND_UAS;
    h.convention = convention;
    h.translation = at.0;
    h.s = at.1 / 1000.0;
    h.rotation = at.2.map(|mas| mas * 1000.0);
    h.translation_rate = rate.0;
    h.ds = rate.1 / 1000.0;
    h.rotation_rate = rate.2.map(|mas| mas * 1000.0);
    h.t_epoch = epoch;
    Published { name, source, body: Body::Helmert(h) }
}

const ITRF2014: &str = "itrf.ign.fr, parameters from ITRF2014 to past ITRFs";
const ITRF2020: &str = "itrf.ign.fr, parameters from ITRF2020 to past ITRFs";
const EUREF: &str = "EUREF Technical Note 1";
const NONE: [f64; 3] = [0.0; 3];

pub fn frames() -> Vec<Published> {
    let pv = POSITION_VECTOR;
    let cf = COORDINATE_FRAME;
    vec![
        frame("ITRF2014 to ITRF2008", ITRF2014, pv, 2010.0, ([1.6, 1.9, 2.4], -0.02, NONE), ([0.0, 0.0, -0.1], 0.03, NONE)),
        frame("ITRF2014 to ITRF2005", ITRF2014, pv, 2010.0, ([2.6, 1.0, -2.3], 0.92, NONE), ([0.3, 0.0, -0.1], 0.03, NONE)),
        frame("ITRF2014 to ITRF2000", ITRF2014, pv, 2010.0, ([0.7, 1.2, -26.1], 2.12, NONE), ([0.1, 0.1, -1.9], 0.11, NONE)),
        frame(
            "ITRF2014 to ITRF97",
            ITRF2014,
            pv,
            2010.0,
            ([7.4, -0.5, -62.8], 3.80, [0.0, 0.0, 0.26]),
            ([0.1, -0.5, -3.3], 0.12, [0.0, 0.0, 0.02]),
        ),
        frame(
            "ITRF2014 to ITRF93",
            ITRF2014,
            pv,
            2010.0,
            ([-50.4, 3.3, -60.2], 4.29, [-2.81, -3.38, 0.40]),
            ([-2.8, -0.1, -2.5], 0.12, [-0.11, -0.19, 0.07]),
        ),
        frame("ITRF2020 to ITRF2014", ITRF2020, pv, 2015.0, ([-1.4, -0.9, 1.4], -0.42, NONE), ([0.0, -0.1, 0.2], 0.0, NONE)),
        frame(
            "ITRF2014 to ETRF2000",
            EUREF,
            pv,
            2010.0,
            ([54.7, 52.2, -74.1], 2.12, [1.701, 10.290, -16.632]),
            ([0.1, 0.1, -1.9], 0.11, [0.081, 0.490, -0.792]),
        ),
        frame(
            "ITRF2014 to ETRF2014",
            EUREF,
            pv,
            2010.0,
            (NONE, 0.0, [1.785, 11.151, -16.170]),
            (NONE, 0.0, [0.085, 0.531, -0.770]),
        ),
        frame(
            "ITRF2014 to GDA2020",
            "ICSM, GDA2020 Technical Manual",
            cf,
            2020.0,
            (NONE, 0.0, NONE),
            (NONE, 0.0, [1.50379, 1.18346, 1.20716]),
        ),
        frame(
            "ITRF2008 to GDA94",
            "Dawson and Woods 2010",
            cf,
            1994.0,
            ([-84.68, -19.42, 32.01], 9.710, [-0.4254, 2.2578, 2.4015]),
            ([1.42, 1.34, 0.90], 0.109, [1.5461, 1.1820, 1.1551]),
        ),
    ]
}

// ----- Static, between datums ----------------------------------------------------------

/// Metres, arcseconds and parts in 10^6.
fn datum(name: &'static str, source: &'static str, convention: u32, t: [f64; 3], r: [f64; 3], s: f64) -> Published {
    let mut h = Helmert::blank();
    h.flags = 0;
    h.convention = convention;
    h.xyz = t;
    h.rxyz = r;
    h.scale = s;
    Published { name, source, body: Body::Helmert(h) }
}

pub fn datums() -> Vec<Published> {
    let pv = POSITION_VECTOR;
    let cf = COORDINATE_FRAME;
    vec![
        datum("ED50 to WGS 84, mean", "EPSG 1133", pv, [-87.0, -98.0, -121.0], NONE, 0.0),
        datum("ED50 to WGS 84, north of 62°", "EPSG 1612", pv, [-116.641, -56.931, -110.559], [0.893, 0.921, -0.917], -3.52),
        datum("OSGB36 to WGS 84", "EPSG 1314", pv, [446.448, -125.157, 542.06], [0.15, 0.247, 0.842], -20.489),
        datum("DHDN to WGS 84", "EPSG 1777", pv, [598.1, 73.7, 418.2], [0.202, 0.045, -2.455], 6.7),
        datum("MGI to WGS 84", "EPSG 1618", pv, [577.326, 90.129, 463.919], [5.137, 1.474, 5.297], 2.4232),
        datum("Pulkovo 1942 to WGS 84", "EPSG 1267", cf, [23.92, -141.27, -80.9], [0.0, -0.35, -0.82], -0.12),
        datum("Pulkovo 1942(83) to ETRS89", "EPSG 1775", pv, [24.9, -126.4, -93.2], [-0.063, -0.247, -0.041], 1.01),
        datum(
            "GDA94 to GDA2020",
            "ICSM, GDA2020 Technical Manual",
            cf,
            [0.06155, -0.01087, -0.04019],
            [-0.0394924, -0.0327221, -0.0328979],
            -0.009994,
        ),
        datum("WGS 72 to WGS 84", "IOGP 373-7-2", pv, [0.0, 0.0, 4.5], [0.0, 0.0, 0.554], 0.219),
    ]
}

// ----- Molodensky ------------------------------------------------------------------------

const WGS84: u32 = 2;
const INTERNATIONAL: u32 = 3;
const BESSEL: u32 = 4;
const KRASSOWSKY: u32 = 5;

fn two_ellipsoids(name: &'static str, source: &'static str, first: u32, d: [f64; 3]) -> Published {
    let offsets = [d[0], d[1], d[2], 0.0, 0.0];
    Published { name, source, body: Body::Molodensky { flags: 2, first, second: WGS84, offsets } }
}

/// Full form; the abridged is the same with flag 1.
pub fn molodensky() -> Vec<Published> {
    vec![
        two_ellipsoids("ED50 to WGS 84, mean", "NIMA TR8350.2", INTERNATIONAL, [-87.0, -98.0, -121.0]),
        two_ellipsoids("Tokyo to WGS 84, mean", "NIMA TR8350.2", BESSEL, [-148.0, 507.0, 685.0]),
        two_ellipsoids("DHDN to WGS 84, translations", "EPSG 1777", BESSEL, [598.1, 73.7, 418.2]),
        two_ellipsoids("Pulkovo 1942 to WGS 84, mean", "NIMA TR8350.2", KRASSOWSKY, [28.0, -130.0, -95.0]),
        Published {
            name: "WGS 84 to OSGB36, mean",
            source: "NIMA TR8350.2",
            body: Body::Molodensky {
                flags: 0,
                first: WGS84,
                second: 0,
                offsets: [-375.0, 111.0, -431.0, -573.604, -0.11960023e-4],
            },
        },
    ]
}

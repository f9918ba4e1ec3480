//! The published shifts. Where a source names an EPSG code, the parameters were held against the EPSG dataset, version 10.076, as PROJ 9.1.1 carries it.
use sillfeather::{Badekas, Cart, Convention, Deformation, Direction, Ellipsoid, Helmert, Molodensky, Permtide, Step, TideSystem};

use Direction::{Forward, Inverse};
use Ellipsoid::{Bessel1841, Grs80, International1924, Krassowsky1940, Wgs84};
use Place::{Geocentric, Geographic};

/// How a fix's first three numbers are meant.
#[derive(Clone, Copy, PartialEq)]
pub enum Place {
    /// X, Y, Z in metres.
    Geocentric,
    /// Longitude and latitude, here in degrees, and height in metres.
    Geographic,
}

pub struct Published {
    pub name: &'static str,
    pub title: &'static str,
    pub source: &'static str,
    /// As the publisher gives it.
    pub accuracy: &'static str,
    /// Inverted, and the step.
    pub steps: Vec<(bool, Step)>,
    pub direction: Direction,
    pub from: Place,
    pub to: Place,
    /// Geographic ones in degrees.
    pub fixes: Vec<[f64; 4]>,
    pub velocities: Vec<[f64; 3]>,
    pub marks: Vec<u8>,
    /// What the publication gives for the fixes, where it does.
    pub published: Vec<&'static str>,
}

impl Published {
    /// The fixes in the steps' units.
    pub fn list(&self) -> Vec<[f64; 4]> {
        let radians = |f: &[f64; 4]| [f[0].to_radians(), f[1].to_radians(), f[2], f[3]];
        match self.from {
            Geocentric => self.fixes.clone(),
            Geographic => self.fixes.iter().map(radians).collect(),
        }
    }
}

// ----- How steps are put together --------------------------------------------------------

const POSITION_VECTOR: Option<Convention> = Some(Convention::PositionVector);
const COORDINATE_FRAME: Option<Convention> = Some(Convention::CoordinateFrame);

fn one(step: impl Into<Step>) -> Vec<(bool, Step)> {
    vec![(false, step.into())]
}

/// Geographic on one ellipsoid to geographic on another, by geocentric coordinates.
fn through(first: Ellipsoid, helmert: Helmert, second: Ellipsoid) -> Vec<(bool, Step)> {
    vec![(false, Cart { ellipsoid: first }.into()), (false, helmert.into()), (true, Cart { ellipsoid: second }.into())]
}

/// Millimetres, microarcseconds, parts in 10⁶ and their rates, each fix at its own time.
fn frame(convention: Option<Convention>, t_epoch: f64) -> Helmert {
    Helmert { mm: true, uas: true, own_epoch: true, convention, t_epoch: Some(t_epoch), ..Helmert::BLANK }
}

fn degrees(d: f64, m: f64, s: f64) -> f64 {
    d + m / 60.0 + s / 3600.0
}

fn shift(name: &'static str, title: &'static str, source: &'static str, accuracy: &'static str) -> Published {
    Published {
        name,
        title,
        source,
        accuracy,
        steps: Vec::new(),
        direction: Forward,
        from: Geographic,
        to: Geographic,
        fixes: Vec::new(),
        velocities: Vec::new(),
        marks: Vec::new(),
        published: Vec::new(),
    }
}

pub fn all() -> Vec<Published> {
    let mut all = between_datums();
    all.extend(molodensky());
    all.extend(about_a_pivot());
    all.extend(between_frames());
    all.extend(the_other_kinds());
    all
}

// ----- Between datums, static ------------------------------------------------------------

fn between_datums() -> Vec<Published> {
    vec![
        Published {
            steps: one(Helmert {
                convention: POSITION_VECTOR,
                translation: [0.0, 0.0, 4.5],
                rotation: [0.0, 0.0, 0.554],
                scale: 0.219,
                own_epoch: false,
                ..Helmert::BLANK
            }),
            from: Geocentric,
            to: Geocentric,
            fixes: vec![[3657660.66, 255768.55, 5201382.11, 0.0]],
            published: vec!["3657660.78, 255778.43, 5201387.75 m (IOGP 373-7-2, from rounded parameters)"],
            ..shift("wgs72_to_wgs84", "WGS 72 to WGS 84", "EPSG 1238; the worked example of IOGP 373-7-2", "2 m")
        },
        Published {
            steps: through(
                International1924,
                Helmert {
                    convention: POSITION_VECTOR,
                    translation: [-89.5, -93.8, -123.1],
                    rotation: [0.0, 0.0, -0.156],
                    scale: 1.2,
                    own_epoch: false,
                    ..Helmert::BLANK
                },
                Wgs84,
            ),
            fixes: vec![[2.5, 56.5, 0.0, 2024.5], [3.25, 57.125, 12.0, 2024.5], [-1.75, 60.25, -80.0, 2024.5]],
            ..shift("ed50_to_wgs84_common_offshore", "ED50 to WGS 84, North Sea, \"Common Offshore\"", "EPSG 1311", "1 m")
        },
        Published {
            steps: through(
                International1924,
                Helmert {
                    convention: POSITION_VECTOR,
                    translation: [-116.641, -56.931, -110.559],
                    rotation: [0.893, 0.921, -0.917],
                    scale: -3.52,
                    own_epoch: false,
                    ..Helmert::BLANK
                },
                Wgs84,
            ),
            fixes: vec![[5.0, 63.5, 0.0, 2024.5], [15.5, 70.25, 25.0, 2024.5]],
            ..shift("ed50_to_wgs84_north_of_62", "ED50 to WGS 84, off Norway north of 62° N", "EPSG 1612", "1 m")
        },
        Published {
            steps: through(
                Bessel1841,
                Helmert {
                    convention: POSITION_VECTOR,
                    translation: [598.1, 73.7, 418.2],
                    rotation: [0.202, 0.045, -2.455],
                    scale: 6.7,
                    own_epoch: false,
                    ..Helmert::BLANK
                },
                Wgs84,
            ),
            direction: Inverse,
            fixes: vec![[8.125, 53.875, 45.0, 2024.5], [11.5, 54.25, 38.0, 2024.5]],
            ..shift("dhdn_to_wgs84", "DHDN to WGS 84, western Germany; the job is inverse, WGS 84 to DHDN", "EPSG 1777", "3 m")
        },
        Published {
            steps: through(
                Krassowsky1940,
                Helmert {
                    convention: COORDINATE_FRAME,
                    translation: [23.57, -140.95, -79.8],
                    rotation: [0.0, -0.35, -0.79],
                    scale: -0.22,
                    own_epoch: false,
                    ..Helmert::BLANK
                },
                Wgs84,
            ),
            fixes: vec![[30.25, 59.875, 10.0, 2024.5], [142.75, 52.5, 5.0, 2024.5]],
            ..shift("pulkovo1942_to_wgs84", "Pulkovo 1942 to WGS 84, Russia", "EPSG 5044 (GOST R 51794-2008)", "3 m")
        },
        Published {
            steps: one(Helmert {
                mm: true,
                uas: true,
                convention: COORDINATE_FRAME,
                translation: [61.55, -10.87, -40.19],
                rotation: [-39492.4, -32722.1, -32897.9],
                scale: -0.009994,
                own_epoch: false,
                ..Helmert::BLANK
            }),
            from: Geocentric,
            to: Geocentric,
            fixes: vec![[-4052051.7643, 4212836.2017, -2545106.0245, 0.0]],
            published: vec!["-4052052.7379, 4212835.9897, -2545104.5898 m (Alice Springs; GDA2020 Technical Manual)"],
            ..shift("gda94_to_gda2020", "GDA94 to GDA2020, Australia", "EPSG 8048; ICSM, GDA2020 Technical Manual", "0.01 m")
        },
    ]
}

// ----- Molodensky ------------------------------------------------------------------------

fn molodensky() -> Vec<Published> {
    let north_sea = [degrees(2.0, 7.0, 46.38), degrees(53.0, 48.0, 33.82), 73.0, 0.0];
    vec![
        Published {
            steps: one(Molodensky {
                abridged: true,
                first: Wgs84,
                second: Some(International1924),
                dx: 84.87,
                dy: 96.49,
                dz: 116.95,
                ..Molodensky::BLANK
            }),
            fixes: vec![north_sea],
            published: vec!["2°07'51.477\", 53°48'36.563\", 28.091 m (IOGP 373-7-2)"],
            ..shift(
                "wgs84_to_ed50_abridged",
                "WGS 84 to ED50 by abridged Molodensky, North Sea",
                "the worked example of IOGP 373-7-2",
                "not given",
            )
        },
        Published {
            steps: one(Molodensky {
                first: Bessel1841,
                second: Some(Wgs84),
                dx: -148.0,
                dy: 507.0,
                dz: 685.0,
                ..Molodensky::BLANK
            }),
            fixes: vec![[139.75, 35.625, 40.0, 2024.5], [129.0, 35.125, 3.0, 2024.5]],
            ..shift(
                "tokyo_to_wgs84",
                "Tokyo to WGS 84 by Molodensky, Japan and South Korea",
                "EPSG 1230 (NIMA TR8350.2, mean solution)",
                "29 m",
            )
        },
    ]
}

// ----- Between frames, with rates --------------------------------------------------------

fn between_frames() -> Vec<Published> {
    let onsala = [3370658.378, 711877.314, 5349787.086];
    let at = |[x, y, z]: [f64; 3], t| [x, y, z, t];
    vec![
        Published {
            steps: one(Helmert {
                translation: [54.7, 52.2, -74.1],
                translation_rate: [0.1, 0.1, -1.9],
                rotation: [1701.0, 10290.0, -16632.0],
                rotation_rate: [81.0, 490.0, -792.0],
                scale: 0.00212,
                scale_rate: 0.00011,
                ..frame(POSITION_VECTOR, 2010.0)
            }),
            from: Geocentric,
            to: Geocentric,
            fixes: vec![at(onsala, 2010.0), at(onsala, 2017.0), at(onsala, 2024.5)],
            ..shift(
                "itrf2014_to_etrf2000",
                "ITRF2014 to ETRF2000, Europe",
                "EPSG 8405; EUREF Technical Note 1",
                "0 (by definition)",
            )
        },
        Published {
            steps: through(
                Grs80,
                Helmert { rotation_rate: [1503.79, 1183.46, 1207.16], ..frame(COORDINATE_FRAME, 2020.0) },
                Grs80,
            ),
            fixes: vec![[133.875, -23.625, 600.0, 2018.0], [151.25, -33.875, 20.0, 2024.5]],
            ..shift(
                "itrf2014_to_gda2020",
                "ITRF2014 to GDA2020, Australia",
                "EPSG 8049; ICSM, GDA2020 Technical Manual",
                "0.03 m",
            )
        },
        Published {
            steps: one(Helmert {
                translation: [1005.3, -1909.2, -541.6],
                translation_rate: [0.8, -0.6, -1.4],
                rotation: [26781.4, -420.3, 10932.1],
                rotation_rate: [66.7, -757.4, -51.3],
                scale: 0.00037,
                scale_rate: -0.00007,
                ..frame(COORDINATE_FRAME, 2010.0)
            }),
            from: Geocentric,
            to: Geocentric,
            fixes: vec![[1112189.0, -4842955.0, 3985352.0, 2010.0], [1112189.0, -4842955.0, 3985352.0, 2024.5]],
            ..shift("itrf2014_to_nad83_2011", "ITRF2014 to NAD83(2011), United States", "EPSG 8970", "0 (by definition)")
        },
        Published {
            steps: one(Helmert {
                translation: [-1.6, -1.9, -2.4],
                translation_rate: [0.0, 0.0, 0.1],
                scale: 0.00002,
                scale_rate: -0.00003,
                ..frame(None, 2010.0)
            }),
            direction: Inverse,
            from: Geocentric,
            to: Geocentric,
            fixes: vec![at(onsala, 2010.0), at(onsala, 2024.5)],
            ..shift(
                "itrf2008_to_itrf2014",
                "ITRF2008 to ITRF2014; the job is inverse, ITRF2014 to ITRF2008",
                "EPSG 7790; itrf.ign.fr, parameters from ITRF2014 to past ITRFs",
                "0.01 m",
            )
        },
        Published {
            steps: one(Helmert {
                translation: [1.4, 0.9, -1.4],
                translation_rate: [0.0, 0.1, -0.2],
                scale: 0.00042,
                ..frame(None, 2015.0)
            }),
            from: Geocentric,
            to: Geocentric,
            fixes: vec![at(onsala, 2015.0), at(onsala, 2024.5)],
            ..shift(
                "itrf2014_to_itrf2020",
                "ITRF2014 to ITRF2020",
                "EPSG 9991; itrf.ign.fr, parameters from ITRF2020 to past ITRFs",
                "0.001 m",
            )
        },
    ]
}

// ----- About a pivot -----------------------------------------------------------------------

fn about_a_pivot() -> Vec<Published> {
    vec![
        Published {
            steps: one(Badekas {
                convention: COORDINATE_FRAME,
                translation: [-270.933, 115.599, -360.226],
                rotation: [-5.266, -1.238, 2.381],
                scale: -5.109,
                pivot: [2464351.59, -5783466.61, 974809.81],
                ..Badekas::BLANK
            }),
            from: Geocentric,
            to: Geocentric,
            fixes: vec![[2550408.96, -5749912.26, 1054891.11, 0.0], [2464351.59, -5783466.61, 974809.81, 0.0]],
            published: vec!["2550138.45, -5749799.87, 1054530.82 m (IOGP 373-7-2)"],
            ..shift("la_canoa_to_regven", "La Canoa to REGVEN, Venezuela", "EPSG 1771; the worked example of IOGP 373-7-2", "2 m")
        },
        Published {
            steps: vec![
                (false, Cart { ellipsoid: Bessel1841 }.into()),
                (
                    false,
                    Badekas {
                        convention: COORDINATE_FRAME,
                        translation: [593.0248, 25.9984, 478.7459],
                        // 1.9342, -1.6677 and 9.1019 microradians
                        rotation: [0.3989573882431338, -0.3439878173782826, 1.8774016399804465],
                        scale: 4.0725,
                        pivot: [3903453.1482, 368135.3134, 5012970.3051],
                        ..Badekas::BLANK
                    }
                    .into(),
                ),
                (true, Cart { ellipsoid: Grs80 }.into()),
            ],
            fixes: vec![[5.387638, 52.155172, 0.0, 2024.5], [4.5, 53.0, 10.0, 2024.5], [3.6, 51.5, -30.0, 2024.5]],
            ..shift("amersfoort_to_etrs89", "Amersfoort to ETRS89, the Netherlands", "EPSG 4831; RDNAPTRANS2008, Kadaster", "0.5 m")
        },
    ]
}

// ----- The two kinds that no published parameters go with --------------------------------

fn the_other_kinds() -> Vec<Published> {
    vec![
        Published {
            steps: one(Permtide { to: Some(TideSystem::Mean), from: Some(TideSystem::Zero), ..Permtide::BLANK }),
            fixes: vec![[0.0, 0.0, 0.0, 0.0], [12.0, 57.5, 10.0, 2024.5]],
            ..shift(
                "tide_zero_to_mean",
                "Heights from zero tide to mean tide",
                "no published shift: the step's own formula",
                "not given",
            )
        },
        Published {
            steps: one(Deformation { t_epoch: Some(2000.0), ..Deformation::BLANK }),
            from: Geocentric,
            to: Geocentric,
            fixes: vec![
                [6378137.0, 0.0, 0.0, 2010.0],
                [3370658.378, 711877.314, 5349787.086, 2024.5],
                [0.0, 6378137.0, 0.0, 2010.0],
            ],
            velocities: vec![[0.0, 0.0, 1000.0], [17.0, 14.0, 2.5], [0.0, 0.0, 0.0]],
            marks: vec![1, 1, 0],
            ..shift(
                "deformation_by_velocities",
                "Along lent velocities from epoch 2000 to each fix's time",
                "no published shift: made-up velocities, the third marked absent",
                "not given",
            )
        },
    ]
}

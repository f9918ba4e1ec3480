//! The six kinds of step, as a sheet carries them, and the words that their fields take.

/// "Not given" in a sheet.
pub(crate) const NOT_GIVEN: f64 = f64::from_bits(0x7ff8_0000_0000_0000);

/// One of the five ellipsoids, by its number in the sheet.
#[derive(Clone, Copy, Debug, PartialEq, Eq, Hash, Default)]
#[repr(u32)]
pub enum Ellipsoid {
    /// GRS80: a 6378137, 1/f 298.257222101.
    #[default]
    Grs80 = 1,
    /// WGS84: a 6378137, 1/f 298.257223563.
    Wgs84 = 2,
    /// International 1924: a 6378388, 1/f 297.
    International1924 = 3,
    /// Bessel 1841: a 6377397.155, 1/f 299.1528128.
    Bessel1841 = 4,
    /// Krassowsky 1940: a 6378245, 1/f 298.3.
    Krassowsky1940 = 5,
}

/// Which way a Helmert step's angles turn.
#[derive(Clone, Copy, Debug, PartialEq, Eq, Hash)]
#[repr(u32)]
pub enum Convention {
    /// The angles turn the position vector.
    PositionVector = 1,
    /// The angles turn the coordinate frame.
    CoordinateFrame = 2,
}

/// A permanent tide system.
#[derive(Clone, Copy, Debug, PartialEq, Eq, Hash)]
#[repr(u32)]
pub enum TideSystem {
    /// Mean tide.
    Mean = 1,
    /// Zero tide.
    Zero = 2,
    /// Tide free.
    Free = 3,
}

/// Kind 1, Helmert: geocentric coordinates moved, turned and scaled, forward S·(M·v) + T, inverse Mᵀ·((v - T)/S).
///
/// Each parameter has two places, a series (`translation`) and singles (`xyz`); a single that is not zero wins over its series place, and so do `scale`
/// over `s` and `scale_rate` over `ds`. Lengths are in metres, or in millimetres with `mm`; angles in arcseconds, or in microarcseconds with `uas`; scales in
/// parts in 10⁶; rates a year; times in years.
///
/// A step is *dynamic* where a rate is not zero; it then needs `t_epoch` (refusal 7). With `t_obs` it is taken once at that time. Without, in *running* mode,
/// T grows by rate·(time - t_epoch) whenever a fix's time differs from the last one's, as the crate geodesy has it, so that a result depends on the fixes
/// before it; with `own_epoch` each fix is shifted by the parameters at its own time.
///
/// A NaN time is a missing one. With `own_epoch`, and without `t_obs`, such a fix of a dynamic step becomes three NaNs, its time stays, and it is not
/// counted; the fixes beside it are untouched. In running mode one NaN time spoils its own fix and all that follow, and all count.
#[derive(Clone, Copy, Debug, PartialEq)]
pub struct Helmert {
    /// Flag 1: the exact rotation matrix, not that of small angles.
    pub exact: bool,
    /// Flag 2: angles in microarcseconds.
    pub uas: bool,
    /// Flag 4: lengths in millimetres.
    pub mm: bool,
    /// Flag 8: each fix by the parameters at its own time, in running's place; a fix without a time is lost and not counted.
    pub own_epoch: bool,
    /// Which way the angles turn; none is refused by 6 where an angle or its rate is not zero.
    pub convention: Option<Convention>,
    /// The series T.
    pub translation: [f64; 3],
    /// The singles x, y, z.
    pub xyz: [f64; 3],
    /// The series T, a year.
    pub translation_rate: [f64; 3],
    /// The singles dx, dy, dz, a year.
    pub dxyz: [f64; 3],
    /// The series of angles.
    pub rotation: [f64; 3],
    /// The singles rx, ry, rz.
    pub rxyz: [f64; 3],
    /// The series of angles, a year.
    pub rotation_rate: [f64; 3],
    /// The singles drx, dry, drz, a year.
    pub drxyz: [f64; 3],
    /// The scale in parts in 10⁶; not zero, it wins over `s`.
    pub scale: f64,
    /// The scale in parts in 10⁶.
    pub s: f64,
    /// The scale's rate a year; not zero, it wins over `ds`.
    pub scale_rate: f64,
    /// The scale's rate a year.
    pub ds: f64,
    /// The time that rates count from. None, or a NaN: not given.
    pub t_epoch: Option<f64>,
    /// One time for all fixes. None, or a NaN: not given.
    pub t_obs: Option<f64>,
}

impl Helmert {
    /// The record to begin with: zeros, no convention, no times, and own-epoch, so that no fix's
    /// result depends on the fixes before it. `own_epoch: false` gives the original's running mode.
    ///
    /// ```
    /// use sillfeather::{Direction, Helmert, Sheet};
    /// // A metre a year along X from 2000. The third fix is as late as the first, and moves as far.
    /// let step = Helmert { dxyz: [1.0, 0.0, 0.0], t_epoch: Some(2000.0), ..Helmert::BLANK };
    /// let sheet = Sheet::builder().step(step).build().unwrap();
    /// let mut fixes = [2001.0, 2002.0, 2001.0].map(|time| [0.0, 0.0, 0.0, time]);
    /// sheet.shift(Direction::Forward, &mut fixes).unwrap();
    /// assert_eq!(fixes.map(|fix| fix[0]), [1.0, 2.0, 1.0]);
    /// ```
    pub const BLANK: Helmert = Helmert {
        exact: false,
        uas: false,
        mm: false,
        own_epoch: true,
        convention: None,
        translation: [0.0; 3],
        xyz: [0.0; 3],
        translation_rate: [0.0; 3],
        dxyz: [0.0; 3],
        rotation: [0.0; 3],
        rxyz: [0.0; 3],
        rotation_rate: [0.0; 3],
        drxyz: [0.0; 3],
        scale: 0.0,
        s: 0.0,
        scale_rate: 0.0,
        ds: 0.0,
        t_epoch: None,
        t_obs: None,
    };

    pub(crate) fn flags(&self) -> u32 {
        u32::from(self.exact) | u32::from(self.uas) << 1 | u32::from(self.mm) << 2 | u32::from(self.own_epoch) << 3
    }

    /// The thirty numbers in the body's order.
    pub(crate) fn numbers(&self) -> [f64; 30] {
        let series = [
            self.translation,
            self.xyz,
            self.translation_rate,
            self.dxyz,
            self.rotation,
            self.rxyz,
            self.rotation_rate,
            self.drxyz,
        ];
        let singles = [self.scale, self.s, self.scale_rate, self.ds, or_not_given(self.t_epoch), or_not_given(self.t_obs)];
        let mut numbers = [0.0; 30];
        numbers[..24].copy_from_slice(series.as_flattened());
        numbers[24..].copy_from_slice(&singles);
        numbers
    }
}

impl Default for Helmert {
    /// [`Helmert::BLANK`].
    fn default() -> Helmert {
        Helmert::BLANK
    }
}

/// Kind 2, cart: forward from longitude, latitude (radians) and height (metres) to geocentric X, Y, Z (metres); inverse back.
///
/// Both ways count fixes with no NaN in the result. A point on the axis is written by the inverse, and not counted.
#[derive(Clone, Copy, Debug, PartialEq, Eq)]
pub struct Cart {
    /// The ellipsoid.
    pub ellipsoid: Ellipsoid,
}

impl Cart {
    /// On GRS80.
    pub const BLANK: Cart = Cart { ellipsoid: Ellipsoid::Grs80 };
}

impl Default for Cart {
    /// [`Cart::BLANK`].
    fn default() -> Cart {
        Cart::BLANK
    }
}

/// Kind 3, Molodensky: longitude, latitude (radians) and height (metres) from one ellipsoid's datum to another's, with no way through geocentric coordinates.
///
/// Where a divisor is zero the first three coordinates become NaN.
#[derive(Clone, Copy, Debug, PartialEq)]
pub struct Molodensky {
    /// Flag 1: the abridged formulas.
    pub abridged: bool,
    /// The ellipsoid shifted from.
    pub first: Ellipsoid,
    /// Flag 2: the ellipsoid shifted to; da and df are then second minus first, and those below must be +0 (refusal 5).
    pub second: Option<Ellipsoid>,
    /// Along X, in metres.
    pub dx: f64,
    /// Along Y, in metres.
    pub dy: f64,
    /// Along Z, in metres.
    pub dz: f64,
    /// The difference of the major axes, in metres.
    pub da: f64,
    /// The difference of the flattenings.
    pub df: f64,
}

impl Molodensky {
    /// Zeros, on GRS80, full formulas, one ellipsoid.
    pub const BLANK: Molodensky =
        Molodensky { abridged: false, first: Ellipsoid::Grs80, second: None, dx: 0.0, dy: 0.0, dz: 0.0, da: 0.0, df: 0.0 };

    pub(crate) fn flags(&self) -> u32 {
        u32::from(self.abridged) | u32::from(self.second.is_some()) << 1
    }

    /// The five numbers in the body's order.
    pub(crate) fn numbers(&self) -> [f64; 5] {
        [self.dx, self.dy, self.dz, self.da, self.df]
    }
}

impl Default for Molodensky {
    /// [`Molodensky::BLANK`].
    fn default() -> Molodensky {
        Molodensky::BLANK
    }
}

/// Kind 4, permtide: heights from one permanent tide system to another. Latitude in radians, height in metres.
#[derive(Clone, Copy, Debug, PartialEq)]
pub struct Permtide {
    /// The ellipsoid.
    pub ellipsoid: Ellipsoid,
    /// The system shifted to; none is refused by 5.
    pub to: Option<TideSystem>,
    /// The system shifted from; none is refused by 5.
    pub from: Option<TideSystem>,
    /// The Love number k.
    pub k: f64,
}

impl Permtide {
    /// On GRS80, k = 0.3, and no systems: they must be set.
    pub const BLANK: Permtide = Permtide { ellipsoid: Ellipsoid::Grs80, to: None, from: None, k: 0.3 };
}

impl Default for Permtide {
    /// [`Permtide::BLANK`].
    fn default() -> Permtide {
        Permtide::BLANK
    }
}

/// Kind 5, deformation: geocentric coordinates moved along the velocities that the caller lends, one a fix, for the years between the epoch and the fix.
///
/// Forward adds (time - t_epoch)·velocity; with `comment_sign` it removes it. A fix whose mark is 0
/// has no velocity: it becomes four NaNs and is not counted. A sheet has at most one such step
/// (refusal 11).
///
/// ```
/// use sillfeather::{Deformation, Direction, Sheet};
/// // The ground rises by a metre a year. Forward takes the fix of 2010 back to the epoch 2000.
/// let step = Deformation { comment_sign: true, t_epoch: Some(2000.0), ..Deformation::BLANK };
/// let sheet = Sheet::builder().step(step).build().unwrap();
/// let mut fixes = [[6378137.0, 0.0, 0.0, 2010.0]];
/// sheet.shift_with(Direction::Forward, &mut fixes, &[[0.0, 0.0, 1000.0]], &[1]).unwrap();
/// assert_eq!(fixes[0][0], 6378127.0);
/// ```
#[derive(Clone, Copy, Debug, PartialEq)]
pub struct Deformation {
    /// Flag 1: the correction and its length are written, not the corrected place.
    pub raw: bool,
    /// Flag 2: the sign of the comment in the original's file. Forward removes the motion since the
    /// epoch, and inverse adds it.
    pub comment_sign: bool,
    /// The ellipsoid on which east, north and up are taken.
    pub ellipsoid: Ellipsoid,
    /// The years, the same for all fixes; given, it goes before `t_epoch`. None, or a NaN: not given.
    pub dt: Option<f64>,
    /// The time that a fix's years count from. None, or a NaN: not given.
    pub t_epoch: Option<f64>,
}

impl Deformation {
    /// On GRS80, not raw, by the crate's sign, and no times: one must be set (refusal 8).
    pub const BLANK: Deformation =
        Deformation { raw: false, comment_sign: false, ellipsoid: Ellipsoid::Grs80, dt: None, t_epoch: None };

    /// The flags as the sheet carries them.
    pub(crate) fn flags(&self) -> u32 {
        u32::from(self.raw) + 2 * u32::from(self.comment_sign)
    }
}

impl Default for Deformation {
    /// [`Deformation::BLANK`].
    fn default() -> Deformation {
        Deformation::BLANK
    }
}

/// Kind 6, the ten-parameter shift about a pivot (Molodensky-Badekas of IOGP 373-7-2): geocentric coordinates, forward ((S·(M·(v - P))) + P) + T, inverse
/// Mᵀ·(((v - T) - P)/S) + P.
///
/// The translation is in metres, or in millimetres with `mm`; the pivot always in metres; angles in arcseconds, or in microarcseconds with `uas`; the scale
/// in parts in 10⁶. The step is static: no time matters to it.
///
/// ```
/// use sillfeather::{Badekas, Convention, Direction, Sheet};
/// // La Canoa to REGVEN.
/// let step = Badekas {
///     convention: Some(Convention::CoordinateFrame),
///     translation: [-270.933, 115.599, -360.226],
///     rotation: [-5.266, -1.238, 2.381],
///     scale: -5.109,
///     pivot: [2464351.59, -5783466.61, 974809.81],
///     ..Badekas::BLANK
/// };
/// let sheet = Sheet::builder().step(step).build().unwrap();
/// let mut fixes = [[2550408.96, -5749912.26, 1054891.11, 2000.0]];
/// sheet.shift(Direction::Forward, &mut fixes).unwrap();
/// assert!((fixes[0][0] - 2550138.455).abs() < 1e-3);
/// ```
#[derive(Clone, Copy, Debug, PartialEq)]
pub struct Badekas {
    /// Flag 1: the exact rotation matrix, not that of small angles.
    pub exact: bool,
    /// Flag 2: angles in microarcseconds.
    pub uas: bool,
    /// Flag 4: the translation in millimetres.
    pub mm: bool,
    /// Which way the angles turn; a rotated step needs one (refusal 6).
    pub convention: Option<Convention>,
    /// Translation along x, y, z.
    pub translation: [f64; 3],
    /// Rotation about x, y, z.
    pub rotation: [f64; 3],
    /// Scale, less one, in parts in 10⁶.
    pub scale: f64,
    /// The pivot's x, y, z in metres.
    pub pivot: [f64; 3],
}

impl Badekas {
    /// Zeros, no flag, no convention.
    pub const BLANK: Badekas = Badekas {
        exact: false,
        uas: false,
        mm: false,
        convention: None,
        translation: [0.0; 3],
        rotation: [0.0; 3],
        scale: 0.0,
        pivot: [0.0; 3],
    };

    /// The flags as the sheet carries them.
    pub(crate) fn flags(&self) -> u32 {
        u32::from(self.exact) + 2 * u32::from(self.uas) + 4 * u32::from(self.mm)
    }

    /// The ten numbers in the order of the body.
    pub(crate) fn numbers(&self) -> [f64; 10] {
        let ([tx, ty, tz], [rx, ry, rz], [px, py, pz]) = (self.translation, self.rotation, self.pivot);
        [tx, ty, tz, rx, ry, rz, self.scale, px, py, pz]
    }
}

impl Default for Badekas {
    /// [`Badekas::BLANK`].
    fn default() -> Badekas {
        Badekas::BLANK
    }
}

/// A step of any kind.
// By value, as the sheet has it: a step lives until it is added, and a sheet has at most sixteen.
#[allow(clippy::large_enum_variant)]
#[derive(Clone, Copy, Debug, PartialEq)]
pub enum Step {
    /// Kind 1.
    Helmert(Helmert),
    /// Kind 2.
    Cart(Cart),
    /// Kind 3.
    Molodensky(Molodensky),
    /// Kind 4.
    Permtide(Permtide),
    /// Kind 5.
    Deformation(Deformation),
    /// Kind 6.
    Badekas(Badekas),
}

macro_rules! is_a_step {
    ($($kind:ident)*) => {
        $(impl From<$kind> for Step {
            fn from(step: $kind) -> Step {
                Step::$kind(step)
            }
        })*
    };
}

is_a_step!(Helmert Cart Molodensky Permtide Deformation Badekas);

pub(crate) fn or_not_given(number: Option<f64>) -> f64 {
    number.unwrap_or(NOT_GIVEN)
}

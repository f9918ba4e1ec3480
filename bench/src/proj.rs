//! PROJ's own operation for a step, where Debian's libproj-dev is installed (build.rs looks): the same parameters, in the text that PROJ takes.
use job::{Body, Helmert};
use std::ffi::{CString, c_char, c_int, c_void};

unsafe extern "C" {
    fn proj_create(context: *mut c_void, definition: *const c_char) -> *mut c_void;
    fn proj_destroy(operation: *mut c_void) -> *mut c_void;
    fn proj_trans_generic(
        operation: *mut c_void,
        direction: c_int,
        x: *mut f64,
        sx: usize,
        nx: usize,
        y: *mut f64,
        sy: usize,
        ny: usize,
        z: *mut f64,
        sz: usize,
        nz: usize,
        t: *mut f64,
        st: usize,
        nt: usize,
    ) -> usize;
}

pub struct Operation(*mut c_void);

impl Drop for Operation {
    fn drop(&mut self) {
        unsafe { proj_destroy(self.0) };
    }
}

const ELLIPSOIDS: [&str; 6] = ["", "GRS80", "WGS84", "intl", "bessel", "krass"];

impl Operation {
    /// None where PROJ has no such operation: a fixed time, permanent tides, velocities from elsewhere than a grid.
    pub fn new(body: &Body) -> Option<Operation> {
        let definition = CString::new(definition(body)?).unwrap();
        let made = unsafe { proj_create(std::ptr::null_mut(), definition.as_ptr()) };
        assert!(!made.is_null(), "PROJ refuses {definition:?}");
        Some(Operation(made))
    }

    /// Over a list of four numbers a tuple, where it stands.
    pub fn apply(&self, list: &mut [f64], inverse: bool) {
        let (n, at, tuple) = (list.len() / 4, list.as_mut_ptr(), 32);
        let [x, y, z, t] = [0, 1, 2, 3].map(|k| unsafe { at.add(k) });
        let direction = if inverse { -1 } else { 1 };
        unsafe { proj_trans_generic(self.0, direction, x, tuple, n, y, tuple, n, z, tuple, n, t, tuple, n) };
    }
}

fn definition(body: &Body) -> Option<String> {
    match body {
        Body::Helmert(h) => helmert(h),
        Body::Cart { ellipsoid } => Some(format!("+proj=cart +ellps={}", ELLIPSOIDS[*ellipsoid as usize])),
        Body::Molodensky { flags, first, second: 2, offsets: [dx, dy, dz, ..] } if flags & 2 != 0 && *first == 3 => {
            // second less first: WGS84 less the International ellipsoid
            let (da, df) = (6378137.0 - 6378388.0, 1.0 / 298.257223563 - 1.0 / 297.0);
            let abridged = if flags & 1 != 0 { " +abridged" } else { "" };
            Some(format!("+proj=molodensky +ellps=intl +dx={dx} +dy={dy} +dz={dz} +da={da} +df={df}{abridged}"))
        }
        _ => None,
    }
}

fn helmert(h: &Helmert) -> Option<String> {
    if !h.t_obs.is_nan() {
        return None;
    }
    // the sheet's units: millimetres and microarcseconds by flag, else metres and arcseconds
    let (length, angle) = (if h.flags & 4 != 0 { 1e-3 } else { 1.0 }, if h.flags & 2 != 0 { 1e-6 } else { 1.0 });
    let sum = |a: [f64; 3], b: [f64; 3], unit: f64| [0, 1, 2].map(|k| (a[k] + b[k]) * unit);
    let ([x, y, z], [rx, ry, rz]) = (sum(h.translation, h.xyz, length), sum(h.rotation, h.rxyz, angle));
    let ([dx, dy, dz], [drx, dry, drz]) = (sum(h.translation_rate, h.dxyz, length), sum(h.rotation_rate, h.drxyz, angle));
    let (s, ds) = (h.scale + h.s, h.scale_rate + h.ds);
    let mut text = format!("+proj=helmert +x={x} +y={y} +z={z}");
    if [rx, ry, rz, s, drx, dry, drz, ds].iter().any(|p| *p != 0.0) {
        let convention = if h.convention == 1 { "position_vector" } else { "coordinate_frame" };
        text += &format!(" +rx={rx} +ry={ry} +rz={rz} +s={s} +convention={convention}");
    }
    if !h.t_epoch.is_nan() {
        text += &format!(" +dx={dx} +dy={dy} +dz={dz} +drx={drx} +dry={dry} +drz={drz} +ds={ds} +t_epoch={}", h.t_epoch);
    }
    if h.flags & 1 != 0 {
        text += " +exact";
    }
    Some(text)
}

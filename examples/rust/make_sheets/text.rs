//! What is written for a person, and the program's own lines.
use std::fmt::Write;

use sillfeather::{Badekas, Deformation, Direction, Ellipsoid, Helmert, Molodensky, Permtide, Sheet, Step};

use crate::shifts::{Place, Published};

/// The program's lines: NaN prints as 7ff8000000000000.
pub fn lines(counts: &[u32], list: &[[f64; 4]]) -> String {
    let mut out = format!("steps {} tuples {}\n", counts.len(), list.len());
    for (i, count) in counts.iter().enumerate() {
        writeln!(out, "step {} counted {count}", i + 1).unwrap();
    }
    for tuple in list {
        let bits = tuple.map(|x| if x.is_nan() { 0x7ff8_0000_0000_0000 } else { x.to_bits() });
        writeln!(out, "{}", bits.map(|b| format!("{b:016x}")).join(" ")).unwrap();
    }
    out
}

pub fn description(shift: &Published, sheet: &Sheet, results: &[[f64; 4]]) -> String {
    let mut out = format!("{}\n", shift.title);
    writeln!(out, "source    {}", shift.source).unwrap();
    writeln!(out, "accuracy  {}", shift.accuracy).unwrap();
    writeln!(out, "sheet     {} bytes, {}", sheet.as_bytes().len(), number_of(sheet.step_count(), "step", "steps")).unwrap();
    for (i, (inverted, step)) in shift.steps.iter().enumerate() {
        writeln!(out, "\nstep {}, {}{}", i + 1, kind(step), if *inverted { ", inverted" } else { "" }).unwrap();
        for (name, value) in fields(step) {
            writeln!(out, "    {name:17} {value}").unwrap();
        }
    }
    let way = if shift.direction == Direction::Forward { "forward" } else { "inverse" };
    writeln!(out, "\nthe job: {way}, {}", number_of(shift.fixes.len(), "fix", "fixes")).unwrap();
    for (i, (fix, result)) in shift.fixes.iter().zip(results).enumerate() {
        writeln!(out, "    {}", place(shift.from, *fix)).unwrap();
        if let (Some([e, n, u]), Some(mark)) = (shift.velocities.get(i), shift.marks.get(i)) {
            let absent = if *mark == 1 { "" } else { ", marked absent" };
            writeln!(out, "        velocity east {e}, north {n}, up {u} mm/year{absent}").unwrap();
        }
        writeln!(out, "      → {}", place(shift.to, in_degrees(shift.to, *result))).unwrap();
        if let Some(published) = shift.published.get(i) {
            writeln!(out, "        published {published}").unwrap();
        }
    }
    out
}

fn number_of(n: usize, one: &str, many: &str) -> String {
    format!("{n} {}", if n == 1 { one } else { many })
}

fn kind(step: &Step) -> &'static str {
    match step {
        Step::Helmert(_) => "Helmert",
        Step::Cart(_) => "cart",
        Step::Molodensky(_) => "Molodensky",
        Step::Permtide(_) => "permtide",
        Step::Deformation(_) => "deformation",
        Step::Badekas(_) => "Molodensky-Badekas",
    }
}

/// The fields that are not blank, by their names in the sheet, in their units.
fn fields(step: &Step) -> Vec<(&'static str, String)> {
    match step {
        Step::Helmert(h) => helmert(h),
        Step::Cart(c) => vec![("ellipsoid", ellipsoid(c.ellipsoid))],
        Step::Molodensky(m) => molodensky(m),
        Step::Permtide(p) => permtide(p),
        Step::Deformation(d) => deformation(d),
        Step::Badekas(b) => badekas(b),
    }
}

fn helmert(h: &Helmert) -> Vec<(&'static str, String)> {
    let length = if h.mm { "mm" } else { "m" };
    let angle = if h.uas { "µas" } else { "″" };
    let mut out = Vec::new();
    let flags = [(h.exact, "exact"), (h.uas, "uas"), (h.mm, "mm"), (h.own_epoch, "own-epoch")];
    let set: Vec<&str> = flags.iter().filter(|(set, _)| *set).map(|(_, name)| *name).collect();
    if !set.is_empty() {
        out.push(("flags", set.join(", ")));
    }
    if let Some(convention) = h.convention {
        out.push(("convention", words(&format!("{convention:?}"))));
    }
    for (name, v, unit) in [
        ("translation", h.translation, length.to_string()),
        ("xyz", h.xyz, length.to_string()),
        ("translation_rate", h.translation_rate, format!("{length}/year")),
        ("dxyz", h.dxyz, format!("{length}/year")),
        ("rotation", h.rotation, angle.to_string()),
        ("rxyz", h.rxyz, angle.to_string()),
        ("rotation_rate", h.rotation_rate, format!("{angle}/year")),
        ("drxyz", h.drxyz, format!("{angle}/year")),
    ] {
        if v != [0.0; 3] {
            out.push((name, format!("{}, {}, {} {unit}", v[0], v[1], v[2])));
        }
    }
    for (name, x, unit) in [("scale", h.scale, ""), ("s", h.s, ""), ("scale_rate", h.scale_rate, "/year"), ("ds", h.ds, "/year")]
    {
        if x != 0.0 {
            out.push((name, format!("{x} parts in 10⁶{unit}")));
        }
    }
    times(&mut out, &[("t_epoch", h.t_epoch), ("t_obs", h.t_obs)]);
    out
}

fn molodensky(m: &Molodensky) -> Vec<(&'static str, String)> {
    let mut out = vec![("formulas", if m.abridged { "abridged" } else { "full" }.to_string()), ("first", ellipsoid(m.first))];
    if let Some(second) = m.second {
        out.push(("second", ellipsoid(second)));
    }
    out.push(("dx, dy, dz", format!("{}, {}, {} m", m.dx, m.dy, m.dz)));
    if m.second.is_none() {
        out.push(("da, df", format!("{} m, {}", m.da, m.df)));
    }
    out
}

fn permtide(p: &Permtide) -> Vec<(&'static str, String)> {
    let system = |s: Option<_>| s.map_or("not set".to_string(), |s| words(&format!("{s:?}")));
    vec![("ellipsoid", ellipsoid(p.ellipsoid)), ("to", system(p.to)), ("from", system(p.from)), ("k", p.k.to_string())]
}

fn deformation(d: &Deformation) -> Vec<(&'static str, String)> {
    let mut out = vec![("ellipsoid", ellipsoid(d.ellipsoid))];
    let flags = [(d.raw, "raw"), (d.comment_sign, "comment's sign")];
    let flags: Vec<&str> = flags.into_iter().filter_map(|(set, name)| set.then_some(name)).collect();
    if !flags.is_empty() {
        out.push(("flags", flags.join(", ")));
    }
    times(&mut out, &[("dt", d.dt), ("t_epoch", d.t_epoch)]);
    out
}

fn badekas(b: &Badekas) -> Vec<(&'static str, String)> {
    let mut out = Vec::new();
    let flags = [(b.exact, "exact"), (b.uas, "uas"), (b.mm, "mm")];
    let flags: Vec<&str> = flags.into_iter().filter_map(|(set, name)| set.then_some(name)).collect();
    if !flags.is_empty() {
        out.push(("flags", flags.join(", ")));
    }
    if let Some(convention) = b.convention {
        out.push(("convention", words(&format!("{convention:?}"))));
    }
    let three = |v: [f64; 3], unit: &str| format!("{}, {}, {} {unit}", v[0], v[1], v[2]);
    out.push(("translation", three(b.translation, if b.mm { "mm" } else { "m" })));
    out.push(("rotation", three(b.rotation, if b.uas { "µas" } else { "″" })));
    out.push(("scale", format!("{} parts in 10⁶", b.scale)));
    out.push(("pivot", three(b.pivot, "m")));
    out
}

fn times(out: &mut Vec<(&'static str, String)>, given: &[(&'static str, Option<f64>)]) {
    out.extend(given.iter().filter_map(|(name, t)| t.map(|t| (*name, t.to_string()))));
}

fn ellipsoid(e: Ellipsoid) -> String {
    match e {
        Ellipsoid::Grs80 => "GRS80",
        Ellipsoid::Wgs84 => "WGS84",
        Ellipsoid::International1924 => "International 1924",
        Ellipsoid::Bessel1841 => "Bessel 1841",
        Ellipsoid::Krassowsky1940 => "Krassowsky 1940",
    }
    .to_string()
}

/// `CoordinateFrame` as "coordinate frame".
fn words(name: &str) -> String {
    let mut out = String::new();
    for c in name.chars() {
        if c.is_uppercase() && !out.is_empty() {
            out.push(' ');
        }
        out.extend(c.to_lowercase());
    }
    out
}

fn in_degrees(kind: Place, tuple: [f64; 4]) -> [f64; 4] {
    match kind {
        Place::Geocentric => tuple,
        Place::Geographic => [tuple[0].to_degrees(), tuple[1].to_degrees(), tuple[2], tuple[3]],
    }
}

/// Geographic in degrees, longitude first.
fn place(kind: Place, [x, y, z, t]: [f64; 4]) -> String {
    match kind {
        Place::Geocentric => format!("{x:.4}, {y:.4}, {z:.4} m at {t}"),
        Place::Geographic => format!("{x:.9}°, {y:.9}°, {z:.4} m at {t}"),
    }
}

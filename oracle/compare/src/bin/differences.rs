//! Prints the smallest inputs of docs/DIFFERENCES.md with the answers of the published code, as it is, and ours.
use job::{Body, Helmert, Job, Step};

fn main() {
    let cart = Body::Cart { ellipsoid: 1 };
    let nan = f64::NAN;
    show("NaN Z on the axis, cart inverse", true, cart.clone(), &[0.0, 0.0, nan, 0.0], &[]);
    let by_epoch = Body::Deformation { flags: 0, ellipsoid: 1, dt: nan, t_epoch: 2000.0 };
    show("NaN Z on the axis, deformation", false, by_epoch.clone(), &[0.0, 0.0, nan, 2001.0], &[0.0, 0.0, 1000.0]);
    show("an angle beyond 1024, cart forward", false, cart.clone(), &[0.0, 1025.0, 0.0, 0.0], &[]);
    let after_512 = f64::from_bits(512f64.to_bits() + 1);
    for (name, flags) in [("a latitude beyond 512, Molodensky", 0), ("a latitude beyond 512, abridged Molodensky", 1)] {
        let nothing_moved = Body::Molodensky { flags, first: 1, second: 0, offsets: [0.0; 5] };
        show(name, false, nothing_moved, &[0.0, after_512, 0.0, 0.0], &[]);
    }
    let endless = Helmert { flags: 0, xyz: [f64::INFINITY, 0.0, 0.0], ..Helmert::blank() };
    show("a number that is not finite, Helmert (ours refused)", false, Body::Helmert(endless), &[0.0; 4], &[]);
    let for_ever = Body::Deformation { flags: 0, ellipsoid: 1, dt: f64::INFINITY, t_epoch: 2000.0 };
    let risen = [6378137.0, 0.0, 0.0, 2010.0];
    show("a number that is not finite, deformation (ours refused)", false, for_ever, &risen, &[0.0, 0.0, 1000.0]);
    show("the last bits, cart forward", false, cart.clone(), &[2.5, 0.0, 0.0, 0.0], &[]);
    show("an axis point is not counted, cart inverse", true, cart.clone(), &[0.0, 0.0, 7e6, 0.0], &[]);
    show("p = 1e-11, cart inverse", true, cart.clone(), &[1e-11, 0.0, 7e6, 0.0], &[]);
    show("Z = -0 at the centre, cart inverse", true, cart, &[0.0, 0.0, -0.0, 0.0], &[]);
    let molodensky = Body::Molodensky { flags: 0, first: 1, second: 0, offsets: [0.0; 5] };
    show("a zero divisor, Molodensky", false, molodensky, &[0.0, 0.0, -6378137.0, 0.0], &[]);
    for (name, flags) in [("T grows, running", 0), ("T taken anew, own-epoch (ours alone)", 8)] {
        let times = [2001.0, 2002.0, 2001.0];
        show(name, false, moving(flags), &times.map(|t| [0.0, 0.0, 0.0, t]).concat(), &[]);
    }
    for (name, flags) in [("a NaN time, running", 0), ("a NaN time, own-epoch (ours alone)", 8)] {
        let times = [2001.0, nan, 2001.0];
        show(name, false, moving(flags), &times.map(|t| [0.0, 0.0, 0.0, t]).concat(), &[]);
    }
    let fixed = Helmert { flags: 0, scale_rate: 1.0, t_epoch: 2000.0, t_obs: 2001.0, ..Helmert::blank() };
    show("S moved three times, fixed", false, Body::Helmert(fixed), &[1e6, 0.0, 0.0, 0.0], &[]);
    show("forward adds, deformation", false, by_epoch.clone(), &[6378137.0, 0.0, 0.0, 2010.0], &[0.0, 0.0, 1000.0]);
    show("a time of -0, deformation", false, by_epoch, &[6378137.0, 0.0, 0.0, -0.0], &[0.0, 0.0, 0.0]);
    let doubled = Helmert { flags: 0, scale: 1e6, ..Helmert::blank() };
    show("undone, not negated, Helmert inverse", true, Body::Helmert(doubled), &[1.0, 0.0, 0.0, 0.0], &[]);
    for (name, flags) in [("a quarter turn, small-angle", 0), ("a quarter turn, exact", 1)] {
        let turned = Helmert { flags, convention: 1, rxyz: [0.0, 0.0, 324_000.0], ..Helmert::blank() };
        show(name, false, Body::Helmert(turned), &[1.0, 0.0, 0.0, 0.0], &[]);
    }
    let two = Body::Molodensky { flags: 2, first: 1, second: 3, offsets: [0.0; 5] };
    show("on the first ellipsoid, Molodensky inverse", true, two, &[0.0, std::f64::consts::FRAC_PI_4, 0.0, 0.0], &[]);
}

/// DT = (1, 0, 0), t_epoch 2000.
fn moving(flags: u32) -> Body {
    Body::Helmert(Helmert { flags, dxyz: [1.0, 0.0, 0.0], t_epoch: 2000.0, ..Helmert::blank() })
}

fn show(name: &str, inverse: bool, body: Body, list: &[f64], velocities: &[f64]) {
    let steps = vec![Step { inverted: false, body }];
    let marks = vec![1; velocities.len() / 3];
    let job = Job { inverse, steps, list: list.to_vec(), velocities: velocities.to_vec(), marks };
    let (rust, ours) = (published::as_published(&job), ours::shift(&job));
    println!("{name}");
    for (i, tuple) in list.chunks_exact(4).enumerate() {
        let at = 4 * i..4 * i + 4;
        println!("  {tuple:?}: Rust {:?}, ours {:?}", &rust.list[at.clone()], &ours.list[at]);
    }
    println!("  counted: Rust {}, ours {}", rust.counts[0], ours.counts[0]);
}

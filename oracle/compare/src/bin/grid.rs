//! A velocity grid's check, its lookup and the deformation step by it, beside the second reader
//! (oracle/reader), which was written from document 02 and the documented sequence alone. No
//! tolerance; all NaNs count as equal.
//!
//!     grid [places, 2000000] [seed, 1]
//!
//! Parts: `places`, looked up in drawn and in named grids, by one and by sixteen; `layouts`, every
//! length near the right one and every count near its bounds; `numbers`, each number of grids of
//! several sizes made NaN or infinite in turn, and the spacings at and around zero; `spoilt`, drawn
//! damage; `bytes`, lookups in bytes that are no grid, which must end with an answer and stay within
//! the bytes; `steps`, lists through one deformation step by a grid, both ways, raw and with the
//! comment's sign, the places of their tuples being looked up; `chains`, drawn sheets through the
//! entry with a grid, forward and inverse, with steps before and after, refused calls among them.
use compare::LANDED;
use ours::grid::{self as library, Found, Step, check, deformation, found, found_block};
use reader::chain::shift;
use reader::draw::{
    draw_step, grid as draw,
    list::{draw_shift, grid_for},
};
use reader::grid::{self, Grid};
use reader::random::Random;
use reader::sheet::{self, Body};
use reader::{same, same_numbers};
use std::f64::consts::{FRAC_PI_2, PI};
use std::process::ExitCode;

fn expected(g: &Grid, lam: f64, phi: f64) -> Found {
    match grid::lookup(g, lam, phi) {
        None => (0, [f64::NAN; 3]),
        Some(v) => (1, v),
    }
}

fn agree(a: Found, b: Found) -> bool {
    a.0 == b.0 && a.1.iter().zip(&b.1).all(|(x, y)| same(*x, *y))
}

/// Cases and those that part; the first few are printed.
struct Tally {
    name: &'static str,
    cases: usize,
    parted: usize,
}

impl Tally {
    fn new(name: &'static str) -> Tally {
        Tally { name, cases: 0, parted: 0 }
    }

    fn count(&mut self, agree: bool, case: impl FnOnce() -> String) {
        self.cases += 1;
        if !agree {
            self.parted += 1;
            if self.parted <= 3 {
                println!("{} parts: {}", self.name, case());
            }
        }
    }
}

/// Grids that are asked for by name: smallest, largest, rows unlike columns, poles, ±π, spacings
/// lost in rounding, subnormal, huge, an extent that overflows, and last lines whose quotient lies
/// beside count - 1.
fn named(r: &mut Random) -> Vec<Grid> {
    let sizes = [(2, 2), (64, 64), (2, 64), (64, 2), (3, 17)];
    let axes = [
        (-FRAC_PI_2, PI / 63.0, -PI, 2.0 * PI / 63.0),
        (0.0, 0.1, 0.0, 0.1),
        (0.2, 0.5, -0.2, 0.5),
        (1.0, 0.6 * f64::EPSILON, -1.0, 0.4 * f64::EPSILON),
        (0.0, f64::from_bits(1), -0.0, f64::from_bits(3)),
        (-f64::MAX, f64::MAX, -1e308, 1e307),
        (f64::MAX, f64::MAX, 1e300, f64::MAX / 2.0),
        (FRAC_PI_2 - 0.01, 0.005, PI - 0.01, 0.005),
    ];
    let mut all = Vec::new();
    for (rows, columns) in sizes {
        for (south, latitude_spacing, west, longitude_spacing) in axes {
            let mut g = draw::draw_grid(r);
            let nodes = (0..rows * columns).map(|_| [(); 3].map(|()| r.between(-80.0, 80.0)));
            g.nodes = nodes.collect();
            (g.rows, g.columns) = (rows, columns);
            (g.south, g.latitude_spacing) = (south, latitude_spacing);
            (g.west, g.longitude_spacing) = (west, longitude_spacing);
            all.push(g);
        }
    }
    all
}

fn places(number: usize, seed: u64) -> Tally {
    let mut r = Random::new(seed);
    let mut tally = Tally::new("places");
    let mut present = 0;
    let mut grids = named(&mut r);
    while tally.cases < number {
        let g = grids.pop().unwrap_or_else(|| draw::draw_grid(&mut r));
        let bytes = g.bytes();
        let mut all = draw::draw_places(&mut r, &g, 1000);
        all.extend(nodes(&mut r, &g));
        for sixteen in all.chunks_exact(16) {
            let lam = std::array::from_fn(|k| sixteen[k].0);
            let phi = std::array::from_fn(|k| sixteen[k].1);
            let block = found_block(&bytes, &lam, &phi);
            for k in 0..16 {
                let want = expected(&g, lam[k], phi[k]);
                let one = found(&bytes, lam[k], phi[k]);
                present += want.0 as usize;
                tally.count(agree(one, want) && agree(block[k], want), || {
                    format!("{:e} {:e} in {g:?}: {want:?} {one:?} {:?}", lam[k], phi[k], block[k])
                });
            }
        }
    }
    println!("places: {present} present");
    tally
}

/// Nodes' own places, and a unit in the last place beside them.
fn nodes(r: &mut Random, g: &Grid) -> Vec<(f64, f64)> {
    let mut all = Vec::new();
    for i in 0..g.rows {
        for j in 0..g.columns {
            let phi = g.south + i as f64 * g.latitude_spacing;
            let lam = g.west + j as f64 * g.longitude_spacing;
            all.push((r.at_or_next(lam), r.at_or_next(phi)));
            all.push((lam, phi));
        }
    }
    all
}

fn compare_check(tally: &mut Tally, bytes: &[u8]) {
    let want = grid::check(bytes).map_or_else(|refusal| refusal.number, |_| 0);
    let got = check(bytes);
    tally.count(got == want, || format!("{} bytes, head {:?}: {want} {got}", bytes.len(), &bytes[..bytes.len().min(8)]));
}

fn set(bytes: &mut [u8], at: usize, word: &[u8]) {
    bytes[at..at + word.len()].copy_from_slice(word);
}

fn layouts(seed: u64) -> Tally {
    let mut r = Random::new(seed);
    let mut tally = Tally::new("layouts");
    let counts = [0, 1, 2, 3, 17, 63, 64, 65, 66, 255, 256, 1 << 16, 1 << 31, u32::MAX];
    for rows in counts {
        for columns in counts {
            let right = 40 + 24 * (rows as usize % 70) * (columns as usize % 70);
            let mut lengths: Vec<usize> = (right.saturating_sub(50)..right + 50).collect();
            lengths.extend(0..60);
            for length in lengths {
                let mut bytes = vec![0; length];
                for number in (8..length.saturating_sub(7)).step_by(8) {
                    set(&mut bytes, number, &r.between(0.001, 1.0).to_le_bytes());
                }
                let head = [rows.to_le_bytes(), columns.to_le_bytes()].concat();
                let there = length.min(8);
                set(&mut bytes, 0, &head[..there]);
                compare_check(&mut tally, &bytes);
            }
        }
    }
    tally
}

fn numbers(seed: u64) -> Tally {
    let mut r = Random::new(seed);
    let mut tally = Tally::new("numbers");
    let odd = [f64::INFINITY, f64::NEG_INFINITY, f64::NAN, -f64::NAN, f64::from_bits(0x7ff0_0000_0000_0001)];
    let near = [0.0, -0.0, f64::from_bits(1), -f64::from_bits(1), f64::MAX, -f64::MAX, -0.1];
    for (rows, columns) in [(2, 2), (2, 3), (3, 5), (17, 4), (64, 64)] {
        let mut g = draw::draw_grid(&mut r);
        (g.rows, g.columns) = (rows, columns);
        g.nodes = vec![[1.5, -2.5, f64::MAX]; rows * columns];
        let mut bytes = g.bytes();
        compare_check(&mut tally, &bytes);
        for at in (8..bytes.len()).step_by(8) {
            let kept: Vec<u8> = bytes[at..at + 8].to_vec();
            for x in odd.into_iter().chain(near) {
                set(&mut bytes, at, &x.to_bits().to_le_bytes());
                compare_check(&mut tally, &bytes);
            }
            set(&mut bytes, at, &kept);
        }
    }
    tally
}

fn spoilt(number: usize, seed: u64) -> Tally {
    let mut r = Random::new(seed);
    let mut tally = Tally::new("spoilt");
    for _ in 0..number {
        let mut bytes = draw::draw_grid(&mut r).bytes();
        for _ in 0..r.below(3) {
            draw::spoil_grid(&mut r, &mut bytes);
        }
        compare_check(&mut tally, &bytes);
    }
    tally
}

/// A mark of 0 or 1, and the block's answers are those of one place.
fn bytes(number: usize, seed: u64) -> Tally {
    let mut r = Random::new(seed);
    let mut tally = Tally::new("bytes");
    for _ in 0..number {
        let g = draw::draw_grid(&mut r);
        let mut bytes = g.bytes();
        draw::spoil_grid(&mut r, &mut bytes);
        let lent = bytes.into_boxed_slice();
        let all = draw::draw_places(&mut r, &g, 10);
        let lam = std::array::from_fn(|k| all[k].0);
        let phi = std::array::from_fn(|k| all[k].1);
        let block = found_block(&lent, &lam, &phi);
        for k in 0..16 {
            let one = found(&lent, lam[k], phi[k]);
            tally.count(one.0 <= 1 && agree(one, block[k]), || format!("{one:?} {:?}", block[k]));
        }
    }
    tally
}

/// A grid of the whole earth, or of its northern or southern half.
fn wide(r: &mut Random) -> Vec<u8> {
    let mut g = draw::draw_grid(r);
    let (rows, columns) = (r.pick(&[2, 19, 64]), r.pick(&[2, 37, 64]));
    (g.rows, g.columns, g.west) = (rows, columns, -PI);
    g.south = r.pick(&[-FRAC_PI_2, 0.0]);
    g.latitude_spacing = FRAC_PI_2 / (rows - 1) as f64 * r.pick(&[1.0, 2.0]);
    g.longitude_spacing = 2.0 * PI / (columns - 1) as f64;
    g.nodes = (0..rows * columns).map(|_| [(); 3].map(|()| r.between(-80.0, 80.0))).collect();
    g.bytes()
}

/// Lists through one deformation step by a grid that is accepted.
fn steps(tuples: usize, seed: u64) -> Tally {
    let mut r = Random::new(seed);
    let mut tally = Tally::new("steps");
    let (mut seen, mut counted) = (0, 0);
    while seen < tuples {
        let s = draw_step(&mut r, &LANDED, 5);
        let lent = match r.once_in(2) {
            true => grid_for(&mut r, &LANDED, s.inverse, &s.sheet, &s.list),
            false => wide(&mut r),
        };
        let want = shift(&LANDED, s.inverse, &s.sheet, &s.list, &[], &[], Some(&lent));
        if want.refusal != 0 {
            continue;
        }
        let record = sheet::read(&LANDED, &s.sheet).expect("accepted");
        let Body::Deformation(d) = &record.live()[0].body else { unreachable!() };
        let step = Step { flags: d.flags, ellipsoid: d.ellipsoid, dt: d.dt, t_epoch: d.t_epoch };
        let reversed = s.inverse != (record.live()[0].inverted == 1);
        let (list, n) = deformation(reversed, step, &s.list, &lent);
        (seen, counted) = (seen + s.list.len() / 4, counted + n);
        tally.count(n == want.counts[0] as usize && same_numbers(&list, &want.list), || {
            format!("{step:?} reversed {reversed} {:?} in {lent:?}: {:?}; {list:?}", s.list, want.list)
        });
    }
    println!("steps: {seen} tuples, {counted} with a velocity");
    tally
}

/// Whole calls with a grid: the refusal and its step, each step's two numbers, and the list.
fn chains(tuples: usize, seed: u64) -> Tally {
    let mut r = Random::new(seed);
    let mut tally = Tally::new("chains");
    let (mut seen, mut ran, mut given) = (0, 0, [0; 19]);
    while seen < tuples {
        let s = draw_shift(&mut r, &LANDED);
        let Some(lent) = &s.grid else { continue };
        let want = shift(&LANDED, s.inverse, &s.sheet, &s.list, &s.velocities, &s.marks, Some(lent));
        let (told, out_of_reach) = library::shift(s.inverse, &s.sheet, &s.list, &s.velocities, &s.marks, lent);
        (seen, ran) = (seen + s.list.len() / 4, ran + (want.refusal == 0) as usize);
        given[want.refusal as usize] += 1;
        let agree = (told.refusal, told.step, told.counts, out_of_reach)
            == (want.refusal, want.step, want.counts, want.out_of_reach)
            && same_numbers(&told.list, &want.list);
        tally.count(agree, || format!("inverse {} {:?} {:?}: {want:?}; {told:?}", s.inverse, s.sheet, s.list));
    }
    println!(
        "chains: {seen} tuples, {ran} calls run, refusals 9, 10, 17, 18: {} {} {} {}",
        given[9], given[10], given[17], given[18]
    );
    tally
}

fn main() -> ExitCode {
    let mut args = std::env::args().skip(1).map(|a| a.parse::<u64>().expect("a number"));
    let (number, seed) = (args.next().unwrap_or(2_000_000) as usize, args.next().unwrap_or(1));
    println!("grid: {number} places, seed {seed}");
    let parts = [
        places(number, seed),
        layouts(seed),
        numbers(seed),
        spoilt(number / 20, seed),
        bytes(number / 100, seed),
        steps(number / 4, seed),
        chains(number / 4, seed),
    ];
    let failed = parts.iter().filter(|t| t.parted > 0).count();
    for t in &parts {
        println!("{}: {} cases, {} parted", t.name, t.cases, t.parted);
    }
    println!("{} passed, {failed} failed", parts.len() - failed);
    if failed == 0 { ExitCode::SUCCESS } else { ExitCode::FAILURE }
}

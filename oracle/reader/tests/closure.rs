//! The closure report and the profile.

use reader::closure::{Largest, Listed, Report, judge, report};
use reader::draw::draw_reported;
use reader::random::Random;
use reader::sheet::{Badekas, Body, Cart, Deformation, Helmert, Record, Step, bytes_untested};
use reader::{In, word_bytes};

fn step(body: Body) -> Step {
    Step { inverted: 0, body }
}

fn sheet(bodies: &[Body]) -> Vec<u8> {
    let steps: Vec<Step> = bodies.iter().cloned().map(step).collect();
    bytes_untested(&Record::of(&steps))
}

fn lists(lists: &[&[f64]]) -> Vec<Listed> {
    lists.iter().map(|list| Listed { list: list.to_vec(), ..Listed::default() }).collect()
}

fn moving(flags: u32, t_obs: f64) -> Body {
    let mut h = Helmert::blank(&In::NONE);
    (h.flags, h.dxyz, h.t_epoch, h.t_obs) = (flags, [1.0, 0.0, 0.0], 2000.0, t_obs);
    Body::Helmert(h)
}

#[test]
fn by_hand() {
    // X goes to X + 1e16 and back: small numbers are lost.
    let mut h = Helmert::blank(&In::NONE);
    h.xyz[0] = 1e16;
    let sheet = sheet(&[Body::Helmert(h)]);
    let told = report(&In::NONE, &sheet, &[], None, false);
    assert_eq!(told, Report::default());
    let a = [2.0, 5.0, 6.0, 7.0, f64::NAN, 0.0, 0.0, 0.0];
    let b = [3.0, 0.0, -0.0, 1.0, 1.0, f64::INFINITY, 2.0, 1.0, -3.0, 1.0, 1.0, 1.0];
    let told = report(&In::NONE, &sheet, &lists(&[&a, &[], &b]), None, false);
    assert_eq!((told.seen, told.with_nan, told.restored), (5, 1, 1));
    let one = 1.0f64.to_bits();
    // 3 comes back as 4, 1 as 0, -3 as -4: three differences of 1, the earliest at list 2. -0 comes
    // back as +0, which isn't restored and differs by 0.
    assert_eq!(told.largest[0], Largest { bits: one, list: 2, index: 0 });
    let first = Largest { bits: 0, list: 2, index: 0 };
    assert_eq!(told.largest[1..], [first; 3]);
    let none = report(&In::NONE, &sheet, &lists(&[&a]), None, false);
    assert_eq!((none.seen, none.largest), (2, [Largest::default(); 4]));
}

#[test]
fn refusals_of_lists() {
    let d = Deformation { t_epoch: 2000.0, ..Deformation::blank() };
    let sheet = sheet(&[Body::Deformation(d)]);
    let mut two = lists(&[&[0.0; 4], &[0.0; 5]]);
    assert_eq!(report(&In::ALL, &sheet, &two, None, false).refusal, 9);
    two[1].list.pop();
    assert_eq!(report(&In::ALL, &sheet, &two, None, false).refusal, 10);
    assert_eq!(report(&In::ALL, &sheet, &two, Some(&[]), false).refusal, 17);
    two[1].marks.push(0);
    assert_eq!(report(&In::ALL, &sheet, &two, Some(&[]), false).refusal, 10);
    let told = report(&In::ALL, &sheet, &two, Some(&[]), true);
    assert_eq!((told.refusal, told.step), (25, 1));
}

#[test]
fn the_profile() {
    let offence = |bodies: &[Body]| {
        judge(&In::ALL, &sheet(bodies), true).map_or_else(|r| (r.number, r.step), |_| (0, 0))
    };
    let none = reader::sheet::NOT_GIVEN;
    let cart = Body::Cart(Cart::blank());
    assert_eq!(offence(&[cart.clone(), moving(8, none)]), (0, 0));
    assert_eq!(offence(&[cart.clone(), moving(0, none)]), (25, 2));
    assert_eq!(offence(&[moving(0, 2001.0)]), (25, 1));
    assert_eq!(offence(&[moving(8, 2001.0)]), (0, 0));
    assert_eq!(offence(&[Body::Helmert(Helmert::blank(&In::NONE))]), (0, 0));
    assert_eq!(offence(&[moving(9, none)]), (25, 1));
    assert_eq!(offence(&[cart.clone(), Body::Badekas(Badekas::blank())]), (25, 2));
    // After 8 and before 11.
    let blank = Body::Deformation(Deformation::blank());
    assert_eq!(offence(&[moving(0, none), blank]), (8, 2));
    let d = Body::Deformation(Deformation { t_epoch: 2000.0, ..Deformation::blank() });
    assert_eq!(offence(&[cart, d.clone(), d.clone()]), (25, 2));
    let told = judge(&In::ALL, &sheet(&[d.clone(), d]), false).unwrap_err();
    assert_eq!((told.number, told.step), (11, 2));
    assert_eq!(judge(&In::ALL, &word_bytes(&[1]), true).unwrap_err().number, 1);
}

#[test]
fn drawn() {
    let (mut seen, mut rest) = ([0; 26], 0);
    for seed in 0..1500 {
        let inp = if seed % 2 == 0 { In::NONE } else { In::ALL };
        let d = draw_reported(&mut Random::new(seed), &inp);
        let told = report(&inp, &d.sheet, &d.lists, d.grid.as_deref(), d.profile);
        seen[told.refusal as usize] += 1;
        if told.refusal == 0 {
            let tuples: usize = d.lists.iter().map(|listed| listed.list.len() / 4).sum();
            assert_eq!(told.seen, tuples as u64);
            rest += told.seen - told.with_nan - told.restored;
        } else {
            let Report { refusal, step, .. } = told;
            assert_eq!(told, Report { refusal, step, ..Report::default() });
        }
    }
    assert!(seen[0] > 500 && seen[25] > 100 && seen[9] > 0 && seen[10] > 0 && rest > 1000);
}

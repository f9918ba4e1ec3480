//! Hand-made cases of document 02's requests and of document 01's refusals.

use reader::chain::{Answer, shift};
use reader::draw::sheet::set_word;
use reader::sheet::{
    Body, Cart, Deformation, Helmert, Molodensky, NOT_GIVEN, Permtide, Record, Step,
    bytes_untested, check, write,
};
use reader::{In, Refusal};

const NONE: In = In::NONE;

fn step(body: Body) -> Step {
    Step { inverted: 0, body }
}

fn one(body: Body) -> Vec<u8> {
    bytes_untested(&Record::of(&[step(body)]))
}

fn run(inp: &In, inverse: bool, sheet: &[u8], list: &[f64]) -> Answer {
    shift(inp, inverse, sheet, list, &[], &[], None)
}

fn refused(inp: &In, sheet: &[u8]) -> (u32, u32) {
    match check(inp, sheet) {
        Ok(_) => (0, 0),
        Err(Refusal { number, step }) => (number, step),
    }
}

fn moving(flags: u32) -> Helmert {
    let mut h = Helmert::blank(&NONE);
    (h.flags, h.dxyz, h.t_epoch) = (flags, [1.0, 0.0, 0.0], 2000.0);
    h
}

fn deformation(flags: u32) -> Body {
    Body::Deformation(Deformation { flags, ellipsoid: 1, dt: NOT_GIVEN, t_epoch: 2000.0 })
}

#[test]
fn steps_are_refused_in_order() {
    let seven = Body::Helmert(Helmert { t_epoch: NOT_GIVEN, ..moving(0) });
    let five = Body::Cart(Cart { ellipsoid: 0 });
    let sheet = bytes_untested(&Record::of(&[step(seven.clone()), step(five.clone())]));
    assert_eq!(refused(&NONE, &sheet), (7, 1));
    let sheet = bytes_untested(&Record::of(&[step(five), step(seven)]));
    assert_eq!(refused(&NONE, &sheet), (5, 1));
    let three = vec![step(deformation(0)); 3];
    assert_eq!(refused(&NONE, &bytes_untested(&Record::of(&three))), (11, 2));
}

#[test]
fn header_and_directory() {
    let good = one(Body::Cart(Cart::blank()));
    let words = [(0, 2, 2), (4, 41, 1), (8, 0, 3), (8, 17, 3), (8, 2, 4), (12, 24, 4), (16, 0, 4)];
    for (at, word, number) in words.into_iter().chain([
        (16, 6, 4),
        (20, 2, 4),
        (24, 33, 4),
        (28, 7, 4),
        (28, 12, 4),
        (36, 1, 5),
        (32, 6, 5),
    ]) {
        let mut sheet = good.clone();
        set_word(&mut sheet, at, word);
        let step = (number == 5) as u32;
        assert_eq!(refused(&NONE, &sheet), (number, step), "word {word} at {at}");
    }
    assert_eq!(refused(&NONE, &[]), (1, 0));
}

#[test]
fn scaling_comes_before_the_tests() {
    let mut h = Helmert::blank(&NONE);
    (h.flags, h.dxyz[0]) = (4, f64::from_bits(1));
    assert_eq!(refused(&NONE, &one(Body::Helmert(h.clone()))), (0, 0));
    h.flags = 0;
    assert_eq!(refused(&NONE, &one(Body::Helmert(h))), (7, 1));
    let mut h = Helmert::blank(&NONE);
    h.rotation[1] = -f64::from_bits(3);
    assert_eq!(refused(&NONE, &one(Body::Helmert(h))), (0, 0));
}

#[test]
fn list_before_velocities() {
    let sheet = one(deformation(0));
    let answer = shift(&NONE, false, &sheet, &[0.0; 5], &[], &[], None);
    assert_eq!((answer.refusal, answer.list), (9, vec![0.0; 5]));
    assert_eq!(shift(&NONE, false, &sheet, &[0.0; 4], &[], &[], None).refusal, 10);
    assert_eq!(shift(&NONE, false, &sheet, &[0.0; 4], &[0.0; 3], &[2], None).refusal, 10);
    assert_eq!(shift(&NONE, false, &sheet, &[], &[], &[], None).refusal, 0);
    let cart = one(Body::Cart(Cart::blank()));
    assert_eq!(shift(&NONE, false, &cart, &[0.0; 4], &[0.0; 3], &[1], None).refusal, 10);
}

#[test]
fn a3_a_missing_time_loses_the_fix() {
    let sheet = one(Body::Helmert(moving(8)));
    let list = [5.0, 6.0, 7.0, f64::NAN, 5.0, 6.0, 7.0, 2001.0];
    let old = run(&NONE, false, &sheet, &list);
    assert_eq!((old.counts[0], old.list[0], old.list[4]), (2, 5.0, 6.0));
    let new = run(&In { a3: true, ..NONE }, false, &sheet, &list);
    assert_eq!((new.counts[0], new.list[4], new.list[7]), (1, 6.0, 2001.0));
    assert!(new.list[..4].iter().all(|x| x.is_nan()));
    // A static or a fixed sheet does not ask for the time.
    let mut still = moving(8);
    still.t_obs = 2002.0;
    let new = run(&In { a3: true, ..NONE }, false, &one(Body::Helmert(still)), &list);
    assert_eq!((new.counts[0], new.list[0]), (2, 7.0));
}

#[test]
fn t_obs_moves_the_scale_three_times() {
    let mut h = moving(0);
    (h.ds, h.t_obs) = (1e6, 2001.0); // DS = 1
    let answer = run(&NONE, false, &one(Body::Helmert(h)), &[1.0, 0.0, 0.0, 5.0]);
    assert_eq!(answer.list[0], 1.0 * 4.0 + 1.0);
}

#[test]
fn a9_blank() {
    assert_eq!(Helmert::blank(&NONE).flags, 0);
    assert_eq!(Helmert::blank(&In { a9: true, ..NONE }).flags, 8);
    assert_eq!(refused(&NONE, &one(Body::Permtide(Permtide::blank()))), (5, 1));
    assert_eq!(refused(&NONE, &one(Body::Deformation(Deformation::blank()))), (8, 1));
    assert_eq!(refused(&NONE, &one(Body::Molodensky(Molodensky::blank()))), (0, 0));
}

#[test]
fn a13_forward_is_the_old_inverse() {
    let new = In { a13: true, ..NONE };
    assert_eq!(refused(&NONE, &one(deformation(2))), (5, 1));
    assert_eq!(refused(&new, &one(deformation(4))), (5, 1));
    let list = [3.1e6, -2.2e6, 5.0e6, 2011.5, 0.0, 0.0, f64::NAN, -0.0];
    let (v, marks) = ([3.0, -4.0, 5.0, 1.0, 1.0, 1.0], [1, 1]);
    for raw in [0, 1] {
        for inverse in [false, true] {
            let a = shift(&new, inverse, &one(deformation(2 + raw)), &list, &v, &marks, None);
            let b = shift(&new, !inverse, &one(deformation(raw)), &list, &v, &marks, None);
            assert!(a.refusal == 0 && a.same(&b));
        }
    }
}

#[test]
fn the_axis_and_a_nan_z() {
    let cart = one(Body::Cart(Cart::blank()));
    let answer = run(&NONE, true, &cart, &[0.0, 0.0, f64::NAN, 1.0, 0.0, 0.0, -0.0, 1.0]);
    assert!(answer.list[1].is_nan() && answer.list[2].is_nan());
    assert_eq!(answer.list[5], -std::f64::consts::FRAC_PI_2);
    assert_eq!(answer.counts[0], 0);
}

#[test]
fn the_writer_and_the_reader_agree() {
    let record = Record::of(&[step(Body::Helmert(moving(3))), step(deformation(1))]);
    let sheet = write(&NONE, &record, 4240).unwrap();
    assert!(check(&NONE, &sheet).unwrap().same(&record));
    assert_eq!(write(&NONE, &record, sheet.len()).unwrap(), sheet);
    assert_eq!(write(&NONE, &record, sheet.len() - 1).unwrap_err(), Refusal::plain(15));
    let mut bad = record.clone();
    (bad.count, bad.steps[0].inverted) = (0, 2);
    assert_eq!(write(&NONE, &bad, 0).unwrap_err(), Refusal::plain(3));
    bad.count = 2;
    bad.steps[1].body = Body::Cart(Cart { ellipsoid: 9 });
    assert_eq!(write(&NONE, &bad, 0).unwrap_err(), Refusal::plain(4));
    bad.steps[0].inverted = 1;
    assert_eq!(write(&NONE, &bad, 0).unwrap_err(), Refusal { number: 5, step: 2 });
}

#[test]
fn a5_angles_out_of_reach() {
    let five = In { a5: true, ..NONE };
    let reach = |sheet: &[u8], inverse: bool, list: &[f64]| {
        let old = run(&NONE, inverse, sheet, list);
        let new = run(&five, inverse, sheet, list);
        assert_eq!((old.counts, old.out_of_reach), (new.counts, [0; 16]));
        assert!(reader::same_numbers(&old.list, &new.list));
        new.out_of_reach[0]
    };
    let beyond = 1024.0f64.next_up();
    let cart = one(Body::Cart(Cart::blank()));
    let list = [0.0, 1024.0, 0.0, 0.0, beyond, f64::NAN, 0.0, 0.0, f64::INFINITY, 0.0, 0.0, 0.0];
    assert_eq!(reach(&cart, false, &list), 2);
    assert_eq!(reach(&cart, true, &list), 0);
    let mut p = Permtide::blank();
    (p.to, p.from) = (1, 1);
    assert_eq!(reach(&one(Body::Permtide(p)), false, &list), 1);
    let full = one(Body::Molodensky(Molodensky::blank()));
    let abridged = one(Body::Molodensky(Molodensky { flags: 1, ..Molodensky::blank() }));
    assert_eq!(reach(&full, false, &[0.0, 600.0, 0.0, 0.0]), 0);
    assert_eq!(reach(&abridged, false, &[0.0, 600.0, 0.0, 0.0]), 1);

    // Running, exact: both fixes use the matrix of the far time.
    let mut h = moving(1);
    (h.drxyz[0], h.convention) = (1.0, 1);
    let far = [0.0, 0.0, 0.0, 1e300, 0.0, 0.0, 0.0, 1e300, 0.0, 0.0, 0.0, 2000.0];
    assert_eq!(reach(&one(Body::Helmert(h.clone())), false, &far), 2);
    h.flags = 0;
    assert_eq!(reach(&one(Body::Helmert(h.clone())), false, &far), 0);
    // Own-epoch: a NaN time is the epoch, or with A3 lost; no matrix is out of reach.
    h.flags = 9;
    let missing = [0.0, 0.0, 0.0, f64::NAN];
    assert_eq!(reach(&one(Body::Helmert(h.clone())), false, &missing), 0);
    let both = In { a3: true, ..five };
    assert_eq!(run(&both, false, &one(Body::Helmert(h)), &missing).out_of_reach[0], 0);

    let sheet = one(deformation(0));
    let list = [f64::NAN; 8];
    let answer = shift(&five, false, &sheet, &list, &[0.0; 6], &[0, 1], None);
    assert_eq!((answer.counts[0], answer.out_of_reach[0]), (1, 1));
}

#[test]
fn a_missing_time_before_a3_is_the_epoch() {
    let mut h = moving(8);
    h.translation[0] = -0.0;
    let answer = run(&NONE, false, &one(Body::Helmert(h)), &[-0.0, 0.0, 0.0, f64::NAN]);
    assert_eq!((answer.counts[0], answer.list[0].to_bits()), (1, 0));
}

#[test]
fn drawn_steps_are_mostly_accepted() {
    use reader::draw::draw_step;
    use reader::random::Random;
    for kind in 1..=6 {
        let mut accepted = 0;
        for seed in 0..100 {
            let s = draw_step(&mut Random::new(seed), &In::ALL, kind);
            let told = shift(&In::ALL, s.inverse, &s.sheet, &s.list, &s.velocities, &s.marks, None);
            accepted += (told.refusal == 0) as u32;
        }
        assert!(accepted > 80, "kind {kind}: {accepted}");
    }
}

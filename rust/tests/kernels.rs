//! The kernels' special values and laws, and that they are near the C library's.
mod common;
use common::*;
use sillfeather::kernels::*;

const INFINITY: f64 = f64::INFINITY;
const NAN: f64 = f64::NAN;

#[test]
fn square_roots_are_correctly_rounded() {
    let mut random = Random(7);
    for _ in 0..100_000 {
        // the machine's root is correctly rounded too, so the bits agree
        let x = f64::from_bits(random.word() >> 1);
        assert!(same(sqrt(x), x.sqrt()), "{x:e}");
    }
    assert!(same(sqrt(-0.0), -0.0) && same(sqrt(INFINITY), INFINITY) && sqrt(-1.0).is_nan() && sqrt(NAN).is_nan());
}

#[test]
fn sine_and_cosine() {
    assert!(same(sin(0.0), 0.0) && same(sin(-0.0), -0.0) && cos(-0.0) == 1.0);
    for out_of_reach in [1024.0_f64.next_up(), -2000.0, INFINITY, -INFINITY, NAN] {
        let (s, c) = sin_cos(out_of_reach);
        assert!(s.is_nan() && c.is_nan() && sin(out_of_reach).is_nan() && cos(out_of_reach).is_nan());
    }
    assert!(sin(1024.0).is_finite() && cos(-1024.0).is_finite());
    let mut random = Random(8);
    for _ in 0..100_000 {
        let x = random.between(-8.0, 8.0);
        let (s, c) = sin_cos(x);
        assert!(same(s, sin(x)) && same(c, cos(x)) && same(sin(-x), -s) && same(cos(-x), c));
        let near = |ours: f64, theirs: f64| (ours - theirs).abs() <= 2.0_f64.powi(-51) && ours.abs() <= 1.0;
        assert!(near(s, x.sin()) && near(c, x.cos()), "{x:e}");
    }
}

#[test]
fn arctangents() {
    let special = [0.0, -0.0, 1.0, -1.0, INFINITY, -INFINITY, NAN];
    for y in special {
        for x in special {
            assert!(same(atan2(y, x), y.atan2(x)), "atan2({y}, {x})");
        }
    }
    let mut random = Random(9);
    for _ in 0..100_000 {
        let (y, x) = (random.between(-9.0, 9.0), random.between(-9.0, 9.0));
        assert!((atan2(y, x) - y.atan2(x)).abs() <= 2.0_f64.powi(-50), "atan2({y:e}, {x:e})");
    }
}

#[test]
fn lengths() {
    assert!(same(hypot(-0.0, 0.0), 0.0) && hypot(NAN, -INFINITY) == INFINITY && hypot(NAN, 1.0).is_nan());
    assert_eq!(hypot(3.0, -4.0), 5.0);
    let mut random = Random(10);
    for _ in 0..100_000 {
        let (x, y) = (random.between(-7e6, 7e6), random.between(-7e6, 7e6));
        let (ours, theirs) = (hypot(x, y), x.hypot(y));
        assert!(ours.to_bits().abs_diff(theirs.to_bits()) <= 3, "hypot({x:e}, {y:e})");
        assert!(same(ours, hypot(y, -x)));
    }
}

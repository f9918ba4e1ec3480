//! Document 01's marked points, and the inputs that it wants run only.

use reader::chain::{Answer, shift};
use reader::sheet::{
    Body, Cart, Deformation, Helmert, Molodensky, Permtide, Record, Step, bytes_untested,
};
use reader::{In, word_bytes};

const NONE: In = In::NONE;

fn one(body: Body) -> Vec<u8> {
    bytes_untested(&Record::of(&[Step { inverted: 0, body }]))
}

fn forward(sheet: &[u8], list: &[f64]) -> Answer {
    shift(&NONE, false, sheet, list, &[], &[], None)
}

fn grs80() -> Vec<u8> {
    word_bytes(&[1, 40, 1, 16, 2, 0, 32, 8, 1, 0])
}

/// DT = (1, 0, 0), t_epoch 2000.
pub fn moving(flags: u32) -> Vec<u8> {
    let mut h = Helmert::blank(&NONE);
    (h.flags, h.dxyz, h.t_epoch) = (flags, [1.0, 0.0, 0.0], 2000.0);
    one(Body::Helmert(h))
}

/// The resulting X of fixes at X = 0 with these times.
fn x_of(flags: u32, times: &[f64]) -> Vec<f64> {
    let list: Vec<f64> = times.iter().flat_map(|t| [0.0, 0.0, 0.0, *t]).collect();
    let answer = forward(&moving(flags), &list);
    assert_eq!((answer.refusal, answer.counts[0]), (0, times.len() as u32));
    answer.list.chunks(4).map(|c| c[0]).collect()
}

#[test]
fn p1() {
    assert_eq!(grs80(), one(Body::Cart(Cart::blank())));
    let answer = forward(&grs80(), &[0.0; 4]);
    assert_eq!((answer.refusal, answer.step, answer.counts[0]), (0, 0, 1));
    let bits: Vec<u64> = answer.list.iter().map(|x| x.to_bits()).collect();
    assert_eq!(bits, [0x415854a640000000, 0, 0, 0]);
}

#[test]
fn p2_to_p5() {
    assert_eq!(x_of(0, &[2001.0, 2002.0, 2001.0]), [1.0, 3.0, 4.0]);
    assert_eq!(x_of(8, &[2001.0, 2002.0, 2001.0]), [1.0, 2.0, 1.0]);
    assert_eq!(x_of(0, &[2001.0, 2001.0]), [1.0, 1.0]);
    let p5 = x_of(0, &[2001.0, f64::NAN, 2001.0]);
    assert!(p5[0] == 1.0 && p5[1].is_nan() && p5[2].is_nan());
}

#[test]
fn p7() {
    let answer = forward(&grs80()[..39], &[0.0; 4]);
    assert_eq!((answer.refusal, answer.step, answer.counts), (1, 0, [0; 16]));
}

#[test]
fn p8() {
    let list = [0.0, 0.0, 7000000.0, 0.0];
    let answer = shift(&NONE, true, &grs80(), &list, &[], &[], None);
    let b = 6378137.0 * (1.0 - 1.0 / 298.257222101);
    assert_eq!((answer.refusal, answer.counts[0], answer.list[2]), (0, 0, 7000000.0 - b));
    assert_eq!(answer.list[1], std::f64::consts::FRAC_PI_2);
}

#[test]
fn p9() {
    let answer = forward(&one(Body::Molodensky(Molodensky::blank())), &[0.0, 0.0, -6378137.0, 7.0]);
    assert_eq!((answer.refusal, answer.counts[0], answer.list[3]), (0, 1, 7.0));
    assert!(answer.list[..3].iter().all(|x| x.is_nan()));
}

#[test]
fn p10() {
    let mut p = Permtide::blank();
    (p.to, p.from) = (1, 2);
    let answer = forward(&one(Body::Permtide(p)), &[0.0; 4]);
    assert_eq!((answer.refusal, answer.counts[0], answer.list[2]), (0, 1, 0.099));
}

#[test]
fn p11_and_p12() {
    let mut h = Helmert::blank(&NONE);
    h.rxyz[0] = 1.0;
    let answer = forward(&one(Body::Helmert(h)), &[]);
    assert_eq!((answer.refusal, answer.step), (6, 1));
    let mut h = Helmert::blank(&NONE);
    h.dxyz[0] = 1.0;
    let answer = forward(&one(Body::Helmert(h)), &[]);
    assert_eq!((answer.refusal, answer.step), (7, 1));
}

#[test]
fn run_only() {
    let full = vec![0.0; 4 * 2048];
    assert_eq!(forward(&grs80(), &full).counts[0], 2048);
    let over = vec![0.0; 4 * 2049];
    let answer = forward(&grs80(), &over);
    assert_eq!((answer.refusal, answer.step, answer.list), (9, 0, over));

    let steps = vec![Step { inverted: 0, body: Body::Cart(Cart::blank()) }; 17];
    assert_eq!(forward(&bytes_untested(&Record::of(&steps[..16])), &[]).refusal, 0);
    assert_eq!(forward(&bytes_untested(&Record::of(&steps)), &[]).refusal, 3);

    // p = 1e-11: inside cart's cutoff of 6.4e-10, outside that of `geographic`.
    let near = [1e-11, 0.0, 7e6, 2010.0];
    assert_eq!(shift(&NONE, true, &grs80(), &near, &[], &[], None).counts[0], 0);

    let mut d = Deformation::blank();
    d.t_epoch = 2000.0;
    let sheet = one(Body::Deformation(d));
    let at = [6378137.0, 0.0, 0.0, 2010.0];
    let up = [0.0, 0.0, 1000.0];
    let answer = shift(&NONE, false, &sheet, &at, &up, &[1], None);
    assert_eq!((answer.counts[0], answer.list[0]), (1, 6378147.0));
    let absent = shift(&NONE, false, &sheet, &at, &up, &[0], None);
    assert!(absent.counts[0] == 0 && absent.list.iter().all(|x| x.is_nan()));
}

#[test]
fn p6() {
    use reader::kept::{Memory, correct, keep};
    let list: Vec<f64> =
        [2001.0, 2000.0, 2002.0].iter().flat_map(|t| [0.0, 0.0, 0.0, *t]).collect();
    let memory = Memory { list, results: vec![7.0; 12], track: vec![7.0; 12], words: vec![] };
    let fresh = keep(&NONE, false, &moving(0), &memory);
    assert_eq!((fresh.refusal, fresh.counts[0]), (0, 3));
    let x: Vec<f64> = fresh.memory.results.chunks(4).map(|c| c[0]).collect();
    assert_eq!(x, [1.0, 1.0, 3.0]);
    assert_eq!(fresh.memory.track[4..8], [2000.0, 1.0, 0.0, 0.0]);
    let fix = [0.0, 0.0, 0.0, 2001.0];
    let corrected = correct(&NONE, false, &moving(0), &fresh.memory, 1, fix);
    assert_eq!((corrected.refusal, corrected.redone), (0, 2));
    let mut memory = memory;
    memory.list[7] = 2001.0;
    assert!(corrected.memory.same(&keep(&NONE, false, &moving(0), &memory).memory));
    assert_eq!(correct(&NONE, false, &moving(0), &memory, 3, fix).refusal, 14);
}

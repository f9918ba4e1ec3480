//! Kept runs: after any corrections what a fresh run gives, and what is refused.
mod common;
use common::*;
use sillfeather::*;

const DIRECTIONS: [Direction; 2] = [Direction::Forward, Direction::Inverse];

/// Static, fixed, own-epoch and running, turned and not, exact and not.
fn drawn_helmert(random: &mut Random) -> Helmert {
    let mut three = |size: f64| [random.between(-size, size), random.between(-size, size), random.between(-size, size)];
    let mut helmert = Helmert {
        translation: three(100.0),
        rotation: three(5.0),
        scale: 1.5,
        convention: Some(Convention::PositionVector),
        own_epoch: false,
        ..Helmert::BLANK
    };
    if random.below(4) > 0 {
        helmert.translation_rate = [1.0, -0.5, random.between(-1.0, 1.0)];
        helmert.rotation_rate = [0.0, random.one_of(&[0.0, 0.01]), 0.0];
        helmert.t_epoch = Some(2000.0);
        helmert.own_epoch = random.below(4) == 0;
        helmert.t_obs = random.one_of(&[None, None, Some(2010.25)]);
    }
    helmert.exact = random.below(2) == 0;
    helmert.convention = random.one_of(&[Some(Convention::PositionVector), Some(Convention::CoordinateFrame)]);
    helmert
}

/// Times repeat, so that runs meet again; now and then one is NaN, or a zero.
fn drawn_fix(random: &mut Random) -> [f64; 4] {
    let time = random.one_of(&[1999.0, 2000.0, 2000.0, 2001.0, 2001.5, 2002.0]);
    let time = if random.below(40) == 0 { random.one_of(&[f64::NAN, 0.0, -0.0, f64::INFINITY]) } else { time };
    [random.between(-7e6, 7e6), random.between(-7e6, 7e6), random.between(-7e6, 7e6), time]
}

#[test]
fn corrections_end_as_fresh_runs() {
    let mut random = Random(0x5111_fea7);
    for _ in 0..300 {
        let helmert = drawn_helmert(&mut random);
        let builder = Sheet::builder();
        let sheet = if random.below(2) == 0 { builder.step(helmert) } else { builder.inverted(helmert) }.build().unwrap();
        let direction = random.one_of(&DIRECTIONS);
        let mut list: Vec<[f64; 4]> = (0..1 + random.below(60)).map(|_| drawn_fix(&mut random)).collect();
        let mut run = KeptRun::keep(&sheet, direction, &list).unwrap();
        let running = helmert.t_epoch.is_some() && helmert.t_obs.is_none() && !helmert.own_epoch;
        for _ in 0..20 {
            let index = random.below(list.len());
            let fix = drawn_fix(&mut random);
            list[index] = fix;
            let redone = run.correct(index, fix).unwrap();
            assert!(1 <= redone && redone <= (list.len() - index) as u64);
            if !running {
                assert_eq!(redone, 1, "a fix's result depends on that fix and the sheet alone");
            }
            let fresh = KeptRun::keep(&sheet, direction, &list).unwrap();
            assert_same(run.list(), &list);
            assert_same(run.results(), fresh.results());
            assert_same(run.track(), fresh.track());
        }
    }
}

/// Own-epoch: a fix whose time goes missing is lost, and comes back with its time. One fix is redone each time, first, last or
/// between, and the run is what a fresh one is.
#[test]
fn a_time_goes_missing_and_comes_back() {
    let missing = at(f64::NAN);
    for exact in [false, true] {
        let helmert = Helmert {
            own_epoch: true,
            exact,
            rotation_rate: [0.0, 0.0, 0.5],
            convention: Some(Convention::PositionVector),
            ..moving()
        };
        let sheet = sheet_of(helmert);
        for direction in DIRECTIONS {
            let mut list: Vec<[f64; 4]> = (0..40).map(|i| [i as f64, 1.0, -1.0, 2001.0 + i as f64]).collect();
            let mut run = KeptRun::keep(&sheet, direction, &list).unwrap();
            let whole = run.clone();
            for index in [0, 15, 16, 17, 39] {
                let given = list[index];
                for fix in [missing, given, missing, given] {
                    list[index] = fix;
                    assert_eq!(run.correct(index, fix), Ok(1));
                    let fresh = KeptRun::keep(&sheet, direction, &list).unwrap();
                    assert_same(run.list(), &list);
                    assert_same(run.results(), fresh.results());
                    assert_same(run.track(), fresh.track());
                    assert_eq!(run.results()[index][..3].iter().all(|x| x.is_nan()), fix[3].is_nan());
                    assert_same(&run.results()[index + 1..], &whole.results()[index + 1..]);
                }
            }
        }
    }
}

#[test]
fn results_are_those_of_a_shift() {
    let mut random = Random(0x1957);
    for _ in 0..200 {
        let sheet = sheet_of(drawn_helmert(&mut random));
        let direction = random.one_of(&DIRECTIONS);
        let list: Vec<[f64; 4]> = (0..random.below(80)).map(|_| drawn_fix(&mut random)).collect();
        let run = KeptRun::keep(&sheet, direction, &list).unwrap();
        let mut shifted = list.clone();
        sheet.shift(direction, &mut shifted).unwrap();
        assert_same(run.results(), &shifted);
        assert_same(run.list(), &list);
        assert_eq!((run.sheet(), run.direction()), (&sheet, direction));
    }
}

#[test]
fn the_track_is_last_time_and_translation() {
    let list = [at(2001.0), at(2003.0), at(2003.0)];
    let run = KeptRun::keep(&sheet_of(moving()), Direction::Forward, &list).unwrap();
    assert_same(run.track(), &[[2001.0, 1.0, 0.0, 0.0], [2003.0, 4.0, 0.0, 0.0], [2003.0, 4.0, 0.0, 0.0]]);
    let fixed = sheet_of(Helmert { t_obs: Some(2002.0), ..moving() });
    let run = KeptRun::keep(&fixed, Direction::Forward, &list).unwrap();
    assert_same(run.track(), &[[f64::NAN, 2.0, 0.0, 0.0]; 3]);
}

#[test]
fn about_a_pivot_one_fix_is_redone() {
    let mut random = Random(0x0b4d_e4a5);
    let step = Badekas {
        convention: Some(Convention::CoordinateFrame),
        translation: [-270.933, 115.599, -360.226],
        rotation: [-5.266, -1.238, 2.381],
        scale: -5.109,
        pivot: [2464351.59, -5783466.61, 974809.81],
        ..Badekas::BLANK
    };
    for direction in DIRECTIONS {
        let sheet = sheet_of(step);
        let mut list: Vec<[f64; 4]> = (0..20).map(|_| drawn_fix(&mut random)).collect();
        let mut run = KeptRun::keep(&sheet, direction, &list).unwrap();
        for index in [0, 19, 7, 7] {
            list[index] = drawn_fix(&mut random);
            assert_eq!(run.correct(index, list[index]), Ok(1));
            let fresh = KeptRun::keep(&sheet, direction, &list).unwrap();
            assert_same(run.results(), fresh.results());
            assert_same(run.track(), fresh.track());
        }
        assert!(run.track()[0][0].is_nan() && run.track()[0][1..] == step.translation);
    }
}

#[test]
fn an_empty_run() {
    let mut run = KeptRun::keep(&sheet_of(moving()), Direction::Forward, &[]).unwrap();
    assert_eq!(run.correct(0, at(2001.0)), Err(Refusal::Index));
    assert!(run.list().is_empty() && run.results().is_empty() && run.track().is_empty());
}

#[test]
fn refused_sheets_and_lists() {
    let not_one = [
        sheet_of(Cart::BLANK),
        Sheet::builder().step(moving()).step(moving()).build().unwrap(),
        Sheet::builder().step(Cart::BLANK).step(moving()).build().unwrap(),
    ];
    for sheet in not_one {
        assert_eq!(KeptRun::keep(&sheet, Direction::Forward, &[at(2001.0)]).err(), Some(Refusal::NotOneHelmert));
    }
    let over = vec![at(2001.0); 2049];
    assert_eq!(KeptRun::keep(&sheet_of(moving()), Direction::Forward, &over).err(), Some(Refusal::List));
    assert!(KeptRun::keep(&sheet_of(moving()), Direction::Forward, &over[1..]).is_ok());
}

#[test]
fn a_refused_correction_leaves_the_run() {
    let list = [at(2001.0), at(2000.0), at(2002.0)];
    let mut run = KeptRun::keep(&sheet_of(moving()), Direction::Forward, &list).unwrap();
    let before = run.clone();
    for index in [3, 4, usize::MAX / 4, usize::MAX] {
        assert_eq!(run.correct(index, at(1990.0)), Err(Refusal::Index));
    }
    for (now, then) in [(run.list(), before.list()), (run.results(), before.results()), (run.track(), before.track())] {
        assert_eq!(bits(now.as_flattened()), bits(then.as_flattened()));
    }
}

/// Refusals that only lent buffers can give, and that nothing in them is touched.
#[test]
fn refused_buffers_hold_what_they_held() {
    let (good, cart) = (sheet_of(moving()), sheet_of(Cart::BLANK));
    let cut = &good.as_bytes()[1..];
    let marked = |n: usize| vec![f64::from_bits(0x7ff4_0000_0000_0abc); n];
    for (sheet, lengths, index, refusal) in [
        (cut, [7, 8, 8], 9, Refusal::Length),
        (cart.as_bytes(), [7, 8, 8], 9, Refusal::NotOneHelmert),
        (good.as_bytes(), [7, 8, 8], 9, Refusal::List),
        (good.as_bytes(), [8196, 8, 8], 9, Refusal::List),
        (good.as_bytes(), [8, 7, 8], 9, Refusal::KeptLength),
        (good.as_bytes(), [8, 8, 4], 9, Refusal::KeptLength),
        (good.as_bytes(), [8, 12, 12], 9, Refusal::KeptLength),
        (good.as_bytes(), [8, 8, 8], 2, Refusal::Index),
    ] {
        let [mut list, mut results, mut track] = lengths.map(marked);
        let corrected = lent::correct(Direction::Forward, sheet, &mut list, &mut results, &mut track, index, at(2001.0));
        assert_eq!(corrected, Err(refusal));
        if refusal != Refusal::Index {
            assert_eq!(lent::keep(Direction::Forward, sheet, &list, &mut results, &mut track), Err(refusal));
        }
        for (now, length) in [&list, &results, &track].into_iter().zip(lengths) {
            assert_eq!(bits(now), bits(&marked(length)));
        }
    }
}

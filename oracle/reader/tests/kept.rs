//! Corrections end as fresh runs do, over drawn inputs.

use reader::draw::draw_kept;
use reader::kept::{correct, keep};
use reader::random::Random;
use reader::{In, same};

#[test]
fn a_correction_ends_as_a_fresh_run() {
    let (mut corrected, mut longest) = (0, 0);
    for seed in 0..600 {
        let inp = if seed % 2 == 0 { In::NONE } else { In::ALL };
        let run = draw_kept(&mut Random::new(seed), &inp);
        let first = keep(&inp, run.inverse, &run.sheet, &run.memory);
        if first.refusal != 0 {
            assert!(first.memory.same(&run.memory));
            continue;
        }
        let mut memory = first.memory;
        for (index, fix) in run.corrections {
            let mut told = correct(&inp, run.inverse, &run.sheet, &memory, index, fix);
            if index >= memory.list.len() as u64 / 4 {
                assert!(told.refusal == 14 && told.memory.same(&memory) && told.redone == 0);
                continue;
            }
            let at = 4 * index as usize;
            assert!((0..4).all(|j| same(told.memory.list[at + j], fix[j])));
            let again = keep(&inp, run.inverse, &run.sheet, &told.memory);
            assert!(again.memory.same(&told.memory), "seed {seed}");
            corrected += 1;
            longest = longest.max(told.redone);
            std::mem::swap(&mut memory, &mut told.memory);
        }
    }
    assert!(corrected > 300 && longest > 100, "{corrected} {longest}");
}

#[test]
fn a_track_that_no_run_wrote_is_compared_too() {
    use reader::kept::Memory;
    use reader::sheet::{Body, Helmert, Record, Step, bytes_untested};
    let blank = Body::Helmert(Helmert::blank(&In::NONE));
    let sheet = bytes_untested(&Record::of(&[Step { inverted: 0, body: blank }]));
    let memory =
        Memory { list: vec![1.0; 8], results: vec![0.0; 8], track: vec![0.0; 8], words: vec![] };
    let told = correct(&In::NONE, false, &sheet, &memory, 0, [2.0; 4]);
    assert_eq!((told.redone, told.counts[0]), (2, 2));
    let fresh = keep(&In::NONE, false, &sheet, &memory).memory;
    assert_eq!(correct(&In::NONE, false, &sheet, &fresh, 0, [2.0; 4]).redone, 1);
}

// ----- Through a chain -------------------------------------------------------------------------

mod chain {
    use reader::In;
    use reader::chain::shift;
    use reader::draw::draw_kept_chain;
    use reader::kept::{Given, Layout, Memory, correct, correct_chain, keep, keep_chain};
    use reader::random::Random;
    use reader::same_numbers;
    use reader::sheet::{Body, Cart, Deformation, Helmert, Record, Step, bytes_untested};

    #[test]
    fn corrections_end_as_fresh_runs() {
        let (mut corrected, mut more, mut refused) = (0, 0, [0; 21]);
        for seed in 0..2500 {
            let inp = if seed % 2 == 0 { In { a12: true, ..In::NONE } } else { In::ALL };
            let layout = if seed % 3 == 0 { Layout::ByFix } else { Layout::ByStep };
            let run = draw_kept_chain(&mut Random::new(seed), &inp, layout);
            let told =
                correct_chain(&inp, &run.given_anew(), &run.memory, &run.indices, &run.fixes);
            refused[told.refusal as usize] += 1;
            if told.refusal != 0 {
                assert!(told.memory.same(&run.memory) && told.redone == 0);
                assert_eq!((told.counts, told.whole), ([0; 16], [0; 16]));
                continue;
            }
            if !run.fresh || !run.premise {
                continue;
            }
            let again = keep_chain(&inp, &run.given_anew(), &told.memory);
            assert!(again.memory.same(&told.memory), "seed {seed}");
            assert_eq!((again.whole, again.counts), (told.whole, told.whole));
            corrected += 1;
            more += (told.redone as usize > run.indices.len()) as u32;
            assert!(told.redone as usize >= run.indices.len());
            // As a plain run of the same list.
            let plain = shift(
                &inp,
                run.inverse,
                &run.sheet,
                &told.memory.list,
                &run.new_velocities,
                &run.new_marks,
                run.grid.as_deref(),
            );
            assert!(plain.counts == told.whole && same_numbers(&plain.list, &told.memory.results));
        }
        assert!(corrected > 800 && more > 200, "{corrected} {more}");
        for number in [12, 13, 10, 14] {
            assert!(refused[number] > 0, "refusal {number}");
        }
    }

    #[test]
    fn one_helmert_step_is_the_former_kept_run() {
        for seed in 0..300 {
            let inp = In { a3: true, a5: true, ..In::NONE };
            let run = reader::draw::draw_kept(&mut Random::new(seed), &inp);
            let old = keep(&inp, run.inverse, &run.sheet, &run.memory);
            if old.refusal != 0 {
                continue;
            }
            let given = Given {
                inverse: run.inverse,
                sheet: &run.sheet,
                velocities: &[],
                marks: &[],
                grid: None,
                layout: Layout::ByStep,
            };
            let words = vec![0; run.memory.list.len() / 4];
            let memory = Memory { words, ..run.memory.clone() };
            for (index, fix) in run.corrections {
                let old = correct(&inp, run.inverse, &run.sheet, &run.memory, index, fix);
                let new = correct_chain(&inp, &given, &memory, &[index], &fix);
                assert_eq!((old.refusal, old.redone), (new.refusal, new.redone));
                assert_eq!((old.counts, old.out_of_reach), (new.counts, new.out_of_reach));
                assert!(Memory { words: vec![], ..new.memory }.same(&old.memory));
            }
        }
    }

    #[test]
    fn by_hand() {
        // A running step, then cart backwards: the axis is written but not counted.
        let mut h = Helmert::blank(&In::NONE);
        (h.dxyz, h.t_epoch) = ([1.0, 0.0, 0.0], 2000.0);
        let cart = Step { inverted: 1, body: Body::Cart(Cart::blank()) };
        let steps = [Step { inverted: 0, body: Body::Helmert(h) }, cart];
        let sheet = bytes_untested(&Record::of(&steps));
        let inp = In { a12: true, ..In::NONE };
        let mut given = Given {
            inverse: false,
            sheet: &sheet,
            velocities: &[],
            marks: &[],
            grid: None,
            layout: Layout::ByStep,
        };
        let list: Vec<f64> =
            [2000.0, 2001.0, 2001.0].iter().flat_map(|t| [0.0, 0.0, 9e6, *t]).collect();
        let memory =
            Memory { list, results: vec![0.0; 12], track: vec![0.0; 24], words: vec![9; 3] };
        let told = keep_chain(&inp, &given, &memory);
        assert_eq!((told.refusal, told.memory.words.clone()), (0, vec![1, 3, 3]));
        assert_eq!(told.whole[..2], [3, 2]);
        assert_eq!(told.memory.track[8..12], [2001.0, 1.0, 0.0, 0.0]);
        let none = &told.memory.track[12..16];
        assert!(none[0].is_nan() && none[1..] == [0.0; 3]);
        given.layout = Layout::ByFix;
        let by_fix = keep_chain(&inp, &given, &memory).memory.track;
        assert_eq!(by_fix[8..12], [2001.0, 1.0, 0.0, 0.0]);
        assert!(by_fix[4].is_nan());
        given.layout = Layout::ByStep;
        // Nothing listed, then fix 1 put back to the epoch: fix 2 is redone as well.
        let none = correct_chain(&inp, &given, &told.memory, &[], &[]);
        assert_eq!((none.refusal, none.redone, none.whole), (0, 0, told.whole));
        let fix = [0.0, 0.0, 9e6, 2000.0];
        let fixed = correct_chain(&inp, &given, &told.memory, &[1], &fix);
        assert_eq!((fixed.redone, fixed.memory.words), (2, vec![1, 1, 3]));
        for indices in [&[1, 1][..], &[2, 1], &[3, 4], &[0]] {
            assert_eq!(correct_chain(&inp, &given, &told.memory, indices, &[0.0; 8]).refusal, 14);
        }
        let raw = Deformation { flags: 3, t_epoch: 2000.0, ..Deformation::blank() };
        let raw = Step { inverted: 0, body: Body::Deformation(raw) };
        let raw = bytes_untested(&Record::of(&[raw]));
        let both = In { a13: true, ..inp };
        let raw = Given { sheet: &raw, ..given };
        assert_eq!(keep_chain(&both, &raw, &Memory::default()).refusal, 12);
    }
}

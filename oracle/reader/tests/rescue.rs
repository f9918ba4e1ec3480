//! The rescue of damaged sheets.

use reader::draw::draw_damaged;
use reader::draw::sheet::set_word;
use reader::random::Random;
use reader::rescue::{Change, rescue};
use reader::sheet::{Body, Cart, Deformation, Record, Step, bytes_untested, check};
use reader::{In, word_bytes};

fn grs80() -> Vec<u8> {
    word_bytes(&[1, 40, 1, 16, 2, 0, 32, 8, 1, 0])
}

#[test]
fn by_hand() {
    let told = rescue(&In::NONE, &grs80(), 40, 0);
    assert_eq!((told.refusal, told.sheet, told.changes.len()), (0, grs80(), 0));
    let damaged = word_bytes(&[2, 41, 1, 0, 2, 0, 0, 7, 1, 0]);
    let told = rescue(&In::ALL, &damaged, 40, 5);
    assert_eq!((told.refusal, told.sheet), (0, grs80()));
    let change = |place, old, new| Change { place, old, new };
    let all = [(0, 2, 1), (4, 41, 40), (12, 0, 16), (24, 0, 32), (28, 7, 8)];
    assert_eq!(told.changes, all.map(|(place, old, new)| change(place, old, new)));
    assert_eq!(rescue(&In::NONE, &damaged, 40, 4).refusal, 15);
    assert_eq!(rescue(&In::NONE, &damaged, 39, 5).refusal, 15);
    assert_eq!(rescue(&In::NONE, &damaged[..39], 0, 0).refusal, 19);
    assert_eq!(rescue(&In::NONE, &[], 0, 0).refusal, 19);
    for (at, word) in [(8, 0), (8, 2), (8, 17), (16, 0), (16, 4), (16, 6), (20, 2)] {
        let mut bad = damaged.clone();
        set_word(&mut bad, at, word);
        assert_eq!(rescue(&In::NONE, &bad, 99, 99).refusal, 19, "word {word} at {at}");
    }
    let mut five = damaged.clone();
    set_word(&mut five, 32, 0);
    let told = rescue(&In::NONE, &five, 40, 5);
    assert_eq!((told.refusal, told.step, told.sheet.len()), (5, 1, 0));
    assert_eq!(rescue(&In::NONE, &five, 0, 0).refusal, 15);
}

#[test]
fn eleven_and_form_2() {
    let d = Deformation { t_epoch: 2000.0, ..Deformation::blank() };
    let step = Step { inverted: 0, body: Body::Deformation(d) };
    let sheet = bytes_untested(&Record::of(&[step.clone(), step]));
    let told = rescue(&In::NONE, &sheet, 999, 9);
    assert_eq!((told.refusal, told.step), (11, 2));
    let mut record = Record::of(&[Step { inverted: 0, body: Body::Cart(Cart::blank()) }]);
    record.form = 2;
    let sheet = bytes_untested(&record);
    assert!(check(&In::ALL, &sheet).is_ok());
    assert_eq!(rescue(&In::ALL, &sheet, 999, 9).refusal, 19);
}

#[test]
fn drawn() {
    let mut seen = [0; 20];
    for seed in 0..4000 {
        let inp = if seed % 2 == 0 { In::NONE } else { In::ALL };
        let d = draw_damaged(&mut Random::new(seed), &inp);
        let told = rescue(&inp, &d.sheet, d.room, d.places);
        seen[told.refusal as usize] += 1;
        if told.refusal != 0 {
            assert!(told.sheet.is_empty() && told.changes.is_empty());
            continue;
        }
        assert!(check(&inp, &told.sheet).is_ok() && told.sheet.len() == d.sheet.len());
        assert!(told.changes.windows(2).all(|w| w[0].place < w[1].place));
        // The changes turned back give the damaged sheet.
        let mut back = told.sheet.clone();
        for Change { place, old, new } in told.changes {
            assert_ne!(old, new);
            set_word(&mut back, place as usize, old);
        }
        assert_eq!(back, d.sheet, "seed {seed}");
    }
    for number in [0, 5, 6, 7, 8, 11, 15, 19] {
        assert!(seen[number] > 0, "refusal {number}");
    }
}

//! The store of kept runs.

use reader::In;
use reader::draw::draw_day;
use reader::draw::store::answer;
use reader::kept::{Memory, keep};
use reader::random::Random;
use reader::sheet::{Body, Cart, Helmert, Record, Step, bytes_untested};
use reader::store::{Store, need};

const HEADER: usize = 400;

fn sheet() -> Vec<u8> {
    let mut h = Helmert::blank(&In::NONE);
    (h.dxyz, h.t_epoch) = ([1.0, 0.0, 0.0], 2000.0);
    bytes_untested(&Record::of(&[Step { inverted: 0, body: Body::Helmert(h) }]))
}

#[test]
fn by_hand() {
    let inp = &In::ALL;
    let list: Vec<f64> =
        [2001.0, 2000.0, 2002.0].iter().flat_map(|t| [0.0, 0.0, 0.0, *t]).collect();
    let one = need(&sheet(), 3);
    assert_eq!(one, 280 + 96 * 3);
    let mut store = Store::empty(HEADER + 2 * one, HEADER);
    assert_eq!(store.open(inp, 0, false, &sheet(), &list).refusal, 21);
    assert_eq!(store.open(inp, 65536, false, &sheet(), &list).refusal, 21);
    let told = store.open(inp, 65535, false, &sheet(), &list);
    assert_eq!((told.refusal, told.counted), (0, 3));
    assert_eq!(store.open(inp, 65535, false, &[], &list).refusal, 21);
    assert_eq!(store.open(inp, 1, false, &[], &list).refusal, 1);
    assert_eq!(store.open(inp, 1, false, &sheet(), &list).refusal, 0);
    assert_eq!(store.free(), 0);
    assert_eq!(store.open(inp, 2, false, &sheet(), &[]).refusal, 23);
    assert_eq!(store.open(inp, 2, false, &sheet(), &[0.0; 5]).refusal, 9);
    let cart = Step { inverted: 0, body: Body::Cart(Cart::blank()) };
    let cart = bytes_untested(&Record::of(&[cart]));
    assert_eq!(store.open(inp, 2, false, &cart, &[0.0; 5]).refusal, 12);
    // P6 inside the store.
    let told = store.correct(inp, 1, 1, [0.0, 0.0, 0.0, 2001.0]);
    assert_eq!((told.refusal, told.redone), (0, 2));
    assert_eq!(store.correct(inp, 1, 3, [0.0; 4]).refusal, 14);
    assert_eq!(store.correct(inp, 2, 3, [0.0; 4]).refusal, 21);
    assert_eq!(store.close(2).refusal, 21);
    assert_eq!((store.close(1).refusal, store.free()), (0, one));
    assert_eq!(store.open(inp, 2, true, &sheet(), &list).refusal, 0);
    assert_eq!(Store::empty(HEADER - 1, HEADER).close(0).refusal, 24);
    assert_eq!(Store::empty(HEADER, HEADER).open(inp, 1, false, &sheet(), &[]).refusal, 23);
}

#[test]
fn sixteen() {
    let mut store = Store::empty(HEADER + 17 * 280, HEADER);
    for identifier in 1..=16 {
        assert_eq!(store.open(&In::ALL, identifier, false, &sheet(), &[]).refusal, 0);
    }
    assert_eq!(store.open(&In::ALL, 17, false, &[], &[]).refusal, 22);
    assert_eq!(store.open(&In::ALL, 16, false, &[], &[]).refusal, 21);
}

#[test]
fn drawn_days() {
    let mut seen = [0; 26];
    let mut most = 0;
    for seed in 0..150 {
        let inp = if seed % 2 == 0 { In::NONE } else { In::ALL };
        let day = draw_day(&mut Random::new(seed), &inp, HEADER, 60);
        let mut store = Store::empty(day.length, HEADER);
        for call in &day.calls {
            let before = store.clone();
            let told = answer(&mut store, &inp, call);
            seen[told.refusal as usize] += 1;
            most = most.max(store.runs.len());
            assert!(told.refusal == 0 || before.runs.len() == store.runs.len());
            for run in &store.runs {
                // Each open run is a fresh run of its list.
                let room = vec![0.0; run.memory.list.len()];
                let list = run.memory.list.clone();
                let memory = Memory { list, results: room.clone(), track: room, words: vec![] };
                let fresh = keep(&inp, run.inverse, &run.sheet, &memory);
                assert!(fresh.refusal == 0 && fresh.memory.same(&run.memory));
            }
        }
    }
    assert_eq!(most, 16);
    for number in [0, 9, 12, 14, 21, 22, 23, 24] {
        assert!(seen[number] > 0, "refusal {number}");
    }
}

//! Kind 6, form 2, and drawn sheets.

use reader::chain::shift;
use reader::draw::sheet::{draw_record, draw_sheet, set_word, spoil_record};
use reader::random::Random;
use reader::sheet::{
    Badekas, Body, Cart, Deformation, Helmert, Record, Step, bytes_untested, check, read, write,
};
use reader::{In, Refusal, number_bytes, word_at, word_bytes};

const NONE: In = In::NONE;
const A4: In = In { a4: true, ..NONE };
const A8: In = In { a8: true, ..NONE };

fn one(body: Body) -> Record {
    Record::of(&[Step { inverted: 0, body }])
}

fn refused(inp: &In, sheet: &[u8]) -> (u32, u32) {
    check(inp, sheet).map_or_else(|r| (r.number, r.step), |_| (0, 0))
}

// ----- A4 ------------------------------------------------------------------------------------

#[test]
fn kind_6_with_no_pivot_is_static_helmert() {
    for seed in 0..200 {
        let r = &mut Random::new(seed);
        let mut m = Badekas::blank();
        m.flags = r.below(8) as u32;
        m.convention = 1 + r.below(2) as u32;
        m.translation = [(); 3].map(|()| r.between(-900.0, 900.0));
        m.rotation = [(); 3].map(|()| r.between(-9.0, 9.0));
        m.scale = r.between(-9.0, 9.0);
        let mut h = Helmert::blank(&NONE);
        (h.flags, h.convention, h.scale) = (m.flags, m.convention, m.scale);
        (h.translation, h.rotation) = (m.translation, m.rotation);
        let list: Vec<f64> = (0..40).map(|_| r.between(-7e6, 7e6)).collect();
        for inverse in [false, true] {
            let six = bytes_untested(&one(Body::Badekas(m.clone())));
            let a = shift(&A4, inverse, &six, &list, &[], &[], None);
            let helmert = bytes_untested(&one(Body::Helmert(h.clone())));
            let b = shift(&A4, inverse, &helmert, &list, &[], &[], None);
            assert!(a.refusal == 0 && a.same(&b));
        }
    }
}

#[test]
fn kind_6_by_hand() {
    let mut m = Badekas::blank();
    (m.flags, m.translation, m.scale) = (4, [1000.0, 0.0, -2000.0], 1e6);
    m.pivot = [100.0, 200.0, 300.0];
    let sheet = bytes_untested(&one(Body::Badekas(m.clone())));
    assert_eq!(sheet.len(), 16 + 16 + 88);
    let list = [101.0, 202.0, 303.0, 5.0];
    let there = shift(&A4, false, &sheet, &list, &[], &[], None);
    assert_eq!(there.list, [103.0, 204.0, 304.0, 5.0]);
    let back = shift(&A4, true, &sheet, &there.list, &[], &[], None);
    assert_eq!((back.counts[0], back.list), (1, list.to_vec()));
    assert_eq!(refused(&NONE, &sheet), (4, 0));
    m.flags = 8;
    assert_eq!(refused(&A4, &bytes_untested(&one(Body::Badekas(m.clone())))), (5, 1));
    (m.flags, m.rotation[2]) = (0, 1.0);
    assert_eq!(refused(&A4, &bytes_untested(&one(Body::Badekas(m.clone())))), (6, 1));
    // The quarter turn about the pivot, by both conventions.
    (m.flags, m.translation, m.scale) = (1, [0.0; 3], 0.0);
    m.rotation = [0.0, 0.0, 90.0 * 3600.0];
    for (convention, y) in [(1, 201.0), (2, 199.0)] {
        m.convention = convention;
        let sheet = bytes_untested(&one(Body::Badekas(m.clone())));
        let told = shift(&A4, false, &sheet, &[101.0, 200.0, 300.0, 5.0], &[], &[], None);
        assert!((told.list[0] - 100.0).abs() < 1e-9 && (told.list[1] - y).abs() < 1e-9);
    }
}

// ----- A8 ------------------------------------------------------------------------------------

/// One cart step on this ellipsoid, with own rows.
fn own(number: u32, rows: &[[f64; 2]]) -> Record {
    let mut record = one(Body::Cart(Cart { ellipsoid: number }));
    (record.form, record.own) = (2, rows.len() as u32);
    record.rows[..rows.len()].copy_from_slice(rows);
    record
}

#[test]
fn form_2_by_hand() {
    let sheet = write(&A8, &own(6, &[[6378137.0, 298.257222101]]), 4376).unwrap();
    let words = word_bytes(&[2, 64, 1, 24, 1, 40, 2, 0, 56, 8]);
    let rows = number_bytes(&[6378137.0, 298.257222101]);
    assert_eq!(sheet, [words, rows, word_bytes(&[6, 0])].concat());
    let told = shift(&A8, false, &sheet, &[0.3, 0.7, 10.0, 1.0], &[], &[], None);
    let grs80 = bytes_untested(&one(Body::Cart(Cart::blank())));
    assert!(told.same(&shift(&A8, false, &grs80, &[0.3, 0.7, 10.0, 1.0], &[], &[], None)));
    // A box that knows only form 1.
    assert_eq!(refused(&NONE, &sheet), (2, 0));
    assert_eq!(refused(&NONE, &[&sheet[..], &[0; 4200]].concat()), (1, 0));
    for (at, word, number) in
        [(0, 3, 2), (12, 16, 4), (16, 0, 4), (16, 2, 4), (20, 39, 20), (32, 40, 4), (56, 7, 5)]
    {
        let mut bad = sheet.clone();
        set_word(&mut bad, at, word);
        assert_eq!(refused(&A8, &bad), (number, (number == 5) as u32), "word {word} at {at}");
    }
    assert_eq!(refused(&A8, &word_bytes(&[2, 20, 1, 24, 0])), (1, 0));
    assert_eq!(refused(&A8, &bytes_untested(&one(Body::Cart(Cart { ellipsoid: 6 })))), (5, 1));
}

#[test]
fn rows_at_their_bounds() {
    let (up, down) = (1e9f64.next_up(), 1.0f64.next_down());
    for (row, number) in [
        ([1.0, 2.0], 0),
        ([1e9, 1e9], 0),
        ([down, 2.0], 20),
        ([1.0, 2.0f64.next_down()], 20),
        ([up, 2.0], 20),
        ([1.0, up], 20),
        ([f64::NAN, 2.0], 20),
        ([1.0, f64::INFINITY], 20),
    ] {
        let record = own(1, &[[5.0, 5.0], row]);
        assert_eq!(refused(&A8, &bytes_untested(&record)), (number, 0), "{row:?}");
        let told = write(&A8, &record, 4376).map_or_else(|r| r.number, |_| 0);
        assert_eq!(told, number);
    }
}

#[test]
fn nine_rows() {
    let record = own(1, &[[5.0, 5.0]; 8]);
    let sheet = bytes_untested(&record);
    let mut nine = sheet.clone();
    nine.splice(40..40, number_bytes(&[5.0, 5.0]));
    let length = nine.len() as u32;
    set_word(&mut nine, 4, length);
    set_word(&mut nine, 16, 9);
    assert_eq!(refused(&A8, &nine), (4, 0));
    let first = word_at(&nine, 32) + 16;
    set_word(&mut nine, 32, first);
    assert_eq!(refused(&A8, &nine), (20, 0));
    // The writer: form by 2, then 3, 4, 20, 5.
    let mut record = record;
    (record.form, record.count, record.own) = (3, 0, 9);
    assert_eq!(write(&A8, &record, 0).unwrap_err(), Refusal::plain(2));
    record.form = 2;
    assert_eq!(write(&A8, &record, 0).unwrap_err(), Refusal::plain(3));
    (record.count, record.steps[0].inverted) = (1, 2);
    assert_eq!(write(&A8, &record, 0).unwrap_err(), Refusal::plain(4));
    record.steps[0] = Step { inverted: 0, body: Body::Deformation(Deformation::blank()) };
    assert_eq!(write(&A8, &record, 0).unwrap_err(), Refusal::plain(20));
    (record.form, record.own) = (1, 1);
    assert_eq!(write(&A8, &record, 0).unwrap_err(), Refusal::plain(20));
    record.own = 0;
    assert_eq!(write(&A8, &record, 0).unwrap_err(), Refusal { number: 8, step: 1 });
}

// ----- Drawn -----------------------------------------------------------------------------------

#[test]
fn drawn_records_come_back() {
    for (seed, inp) in (0..1500).zip([NONE, A4, A8, In::ALL].into_iter().cycle()) {
        let r = &mut Random::new(seed);
        let record = draw_record(r, &inp).record;
        let Ok(sheet) = write(&inp, &record, 4376) else { continue };
        let again = check(&inp, &sheet).unwrap();
        assert!(again.same(&record), "seed {seed}");
        assert_eq!(write(&inp, &again, sheet.len()).unwrap(), sheet);
        // Past the count a record reads as blank cart steps.
        let blank =
            |s: &Step| s.inverted == 0 && matches!(s.body, Body::Cart(Cart { ellipsoid: 1 }));
        assert!(again.steps.len() == 16 && again.steps[again.count as usize..].iter().all(blank));
    }
}

#[test]
fn spoiled_records_and_sheets_meet_every_number() {
    let (mut written, mut seen) = ([0; 26], [0; 26]);
    for seed in 0..6000 {
        let r = &mut Random::new(seed);
        let mut record = draw_record(r, &In::ALL).record;
        spoil_record(r, &In::ALL, &mut record);
        let room = r.pick(&[0, 100, 4376]);
        let told = write(&In::ALL, &record, room).map_or_else(|r| r.number, |_| 0);
        written[told as usize] += 1;
        let sheet = draw_sheet(r, &In::ALL);
        let told = read(&In::ALL, &sheet).map_or_else(|r| r.number, |_| 0);
        seen[told as usize] += 1;
    }
    for number in [0, 2, 3, 4, 5, 6, 7, 8, 11, 15, 20] {
        assert!(written[number] > 0, "written {number}");
    }
    for number in [0, 1, 2, 3, 4, 5, 6, 7, 8, 20] {
        assert!(seen[number] > 0, "seen {number}");
    }
}

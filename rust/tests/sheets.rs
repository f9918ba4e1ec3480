//! The builder's bytes beside bytes placed by hand from docs/FORMAT.md, and what builder and reader refuse.
mod common;
use common::*;
use sillfeather::*;

/// Header and directory of one step, then the body.
fn by_hand(kind: u32, inverted: u32, body: Vec<u8>) -> Vec<u8> {
    let length = body.len() as u32;
    let mut sheet = Bytes::default().words(&[1, 32 + length, 1, 16, kind, inverted, 32, length]).0;
    sheet.extend(body);
    sheet
}

fn assert_built(step: impl Into<Step> + Copy, kind: u32, body: Vec<u8>) {
    let forward = Sheet::builder().step(step).build().unwrap();
    assert_eq!(forward.as_bytes(), by_hand(kind, 0, body.clone()));
    let inverted = Sheet::builder().inverted(step).build().unwrap();
    assert_eq!(inverted.as_bytes(), by_hand(kind, 1, body));
    assert_eq!(Sheet::from_bytes(forward.as_bytes()), Ok(forward));
}

/// Thirty numbers that differ, in the body's order.
fn numbered() -> Helmert {
    let three = |n: f64| [n, n + 0.25, n + 0.5];
    Helmert {
        translation: three(1.0),
        xyz: three(2.0),
        translation_rate: three(3.0),
        dxyz: three(4.0),
        rotation: three(5.0),
        rxyz: three(6.0),
        rotation_rate: three(7.0),
        drxyz: three(8.0),
        scale: 9.0,
        s: 10.0,
        scale_rate: 11.0,
        ds: 12.0,
        convention: Some(Convention::CoordinateFrame),
        t_epoch: Some(2010.0),
        t_obs: Some(2020.5),
        own_epoch: false,
        ..Helmert::BLANK
    }
}

fn numbers() -> Vec<f64> {
    let series = (1..=8).flat_map(|n| [0.0, 0.25, 0.5].map(|part| f64::from(n) + part));
    series.chain([9.0, 10.0, 11.0, 12.0, 2010.0, 2020.5]).collect()
}

#[test]
fn helmert() {
    assert_built(numbered(), 1, Bytes::default().words(&[0, 2]).numbers(&numbers()).0);
    let position_vector = Some(Convention::PositionVector);
    for (flags, step) in [
        (1, Helmert { exact: true, ..numbered() }),
        (2, Helmert { uas: true, ..numbered() }),
        (4, Helmert { mm: true, ..numbered() }),
        (8, Helmert { own_epoch: true, ..numbered() }),
        (15, Helmert { exact: true, uas: true, mm: true, own_epoch: true, ..numbered() }),
    ] {
        assert_built(step, 1, Bytes::default().words(&[flags, 2]).numbers(&numbers()).0);
        let turned = Helmert { convention: position_vector, ..step };
        assert_built(turned, 1, Bytes::default().words(&[flags, 1]).numbers(&numbers()).0);
    }
    let blank = Bytes::default().words(&[8, 0]).numbers(&[0.0; 28]).long(NOT_GIVEN).long(NOT_GIVEN);
    assert_built(Helmert::BLANK, 1, blank.0);
    assert_eq!(Helmert::default(), Helmert::BLANK);
}

#[test]
fn not_given_is_written_in_one_way() {
    let another_nan = f64::from_bits(0xfff8_0000_0000_0001);
    let blank = sheet_of(Helmert::BLANK);
    assert_eq!(sheet_of(Helmert { t_epoch: Some(another_nan), t_obs: Some(-f64::NAN), ..Helmert::BLANK }), blank);
}

#[test]
fn cart() {
    let five =
        [Ellipsoid::Grs80, Ellipsoid::Wgs84, Ellipsoid::International1924, Ellipsoid::Bessel1841, Ellipsoid::Krassowsky1940];
    for (number, ellipsoid) in (1..).zip(five) {
        assert_built(Cart { ellipsoid }, 2, Bytes::default().words(&[number, 0]).0);
    }
    assert_built(Cart::default(), 2, Bytes::default().words(&[1, 0]).0);
}

#[test]
fn molodensky() {
    let one = Molodensky { first: Ellipsoid::Wgs84, dx: 1.0, dy: 2.0, dz: 3.0, da: 4.0, df: 5.0, ..Molodensky::BLANK };
    assert_built(one, 3, Bytes::default().words(&[0, 2, 0, 0]).numbers(&[1.0, 2.0, 3.0, 4.0, 5.0]).0);
    let two = Molodensky { abridged: true, second: Some(Ellipsoid::Krassowsky1940), da: 0.0, df: 0.0, ..one };
    assert_built(two, 3, Bytes::default().words(&[3, 2, 5, 0]).numbers(&[1.0, 2.0, 3.0, 0.0, 0.0]).0);
    assert_built(Molodensky::default(), 3, Bytes::default().words(&[0, 1, 0, 0]).numbers(&[0.0; 5]).0);
}

#[test]
fn permtide() {
    let systems = [TideSystem::Mean, TideSystem::Zero, TideSystem::Free];
    for (to, system_to) in (1..).zip(systems) {
        for (from, system_from) in (1..).zip(systems) {
            let step = Permtide { to: Some(system_to), from: Some(system_from), ..Permtide::default() };
            assert_built(step, 4, Bytes::default().words(&[1, to, from, 0]).numbers(&[0.3]).0);
        }
    }
    assert_eq!(refused(Permtide::BLANK), Refusal::Field { step: 1 }, "the blank has no systems");
}

#[test]
fn deformation() {
    let step = Deformation { raw: true, ellipsoid: Ellipsoid::Bessel1841, dt: Some(2.5), ..Deformation::BLANK };
    assert_built(step, 5, Bytes::default().words(&[1, 4]).numbers(&[2.5]).long(NOT_GIVEN).0);
    let removing = Deformation { comment_sign: true, ..step };
    assert_built(removing, 5, Bytes::default().words(&[3, 4]).numbers(&[2.5]).long(NOT_GIVEN).0);
    let by_epoch = Deformation { t_epoch: Some(2000.0), ..Deformation::default() };
    assert_built(by_epoch, 5, Bytes::default().words(&[0, 1]).long(NOT_GIVEN).numbers(&[2000.0]).0);
}

#[test]
fn five_steps_in_order() {
    let tide = Permtide { to: Some(TideSystem::Free), from: Some(TideSystem::Mean), ..Permtide::BLANK };
    let sheet = Sheet::builder()
        .step(tide)
        .inverted(Molodensky::BLANK)
        .step(Cart::BLANK)
        .step(Deformation { dt: Some(1.0), ..Deformation::BLANK })
        .inverted(numbered())
        .build()
        .unwrap();
    let head = [1, 16 + 5 * 16 + 24 + 56 + 8 + 24 + 248, 5, 16];
    let directory = [4, 0, 96, 24, 3, 1, 120, 56, 2, 0, 176, 8, 5, 0, 184, 24, 1, 1, 208, 248];
    let by_hand = Bytes::default()
        .words(&head)
        .words(&directory)
        .words(&[1, 3, 1, 0])
        .numbers(&[0.3])
        .words(&[0, 1, 0, 0])
        .numbers(&[0.0; 5])
        .words(&[1, 0])
        .words(&[0, 1])
        .numbers(&[1.0])
        .long(NOT_GIVEN)
        .words(&[0, 2])
        .numbers(&numbers());
    assert_eq!(sheet.as_bytes(), by_hand.0);
    assert_eq!(sheet.step_count(), 5);
}

#[test]
fn the_builder_answers_its_first_refusal() {
    let endless = Helmert { s: f64::INFINITY, ..Helmert::BLANK };
    let late = Sheet::builder().step(Cart::BLANK).step(endless).step(Permtide::BLANK).build();
    assert_eq!(late, Err(Refusal::Field { step: 2 }));
    assert_eq!(refused(Deformation::BLANK), Refusal::Duration { step: 1 });
    assert_eq!(refused(Deformation { dt: Some(f64::NAN), ..Deformation::BLANK }), Refusal::Duration { step: 1 });
    let moved = Deformation { dt: Some(1.0), ..Deformation::BLANK };
    let twice = Sheet::builder().step(moved).step(Cart::BLANK).step(moved).build();
    assert_eq!(twice, Err(Refusal::SecondDeformation { step: 3 }));
    let both = Molodensky { second: Some(Ellipsoid::Wgs84), da: 1.0, ..Molodensky::BLANK };
    assert_eq!(refused(both), Refusal::Field { step: 1 }, "da beside a second ellipsoid");
    assert_eq!(refused(Molodensky { second: Some(Ellipsoid::Wgs84), df: -0.0, ..both }), Refusal::Field { step: 1 });
    assert_eq!(Sheet::builder().build(), Err(Refusal::StepCount));
}

#[test]
fn the_reader_answers_each_number() {
    let good = sheet_of(numbered()).as_bytes().to_vec();
    let with = |place: usize, word: u32| {
        let mut sheet = good.clone();
        sheet[place..place + 4].copy_from_slice(&word.to_le_bytes());
        Sheet::from_bytes(&sheet)
    };
    assert_eq!(Sheet::from_bytes(&[]), Err(Refusal::Length));
    assert_eq!(Sheet::from_bytes(&[0; 4241]), Err(Refusal::Length));
    assert_eq!(with(4, 281), Err(Refusal::Length));
    assert_eq!(with(0, 2), Err(Refusal::Form));
    assert_eq!(with(8, 0), Err(Refusal::StepCount));
    assert_eq!(with(8, 17), Err(Refusal::StepCount));
    assert_eq!(with(12, 17), Err(Refusal::Directory));
    assert_eq!(with(16, 6), Err(Refusal::Directory));
    assert_eq!(with(20, 2), Err(Refusal::Directory));
    assert_eq!(with(24, 33), Err(Refusal::Directory));
    assert_eq!(with(28, 247), Err(Refusal::Directory));
    assert_eq!(with(32, 16), Err(Refusal::Field { step: 1 }));
    assert_eq!(with(36, 3), Err(Refusal::Field { step: 1 }));
    assert_eq!(with(36, 0), Err(Refusal::Convention { step: 1 }));
    let mut other_nan = good.clone();
    other_nan[272..280].copy_from_slice(&0x7ff8_0000_0000_0001_u64.to_le_bytes());
    assert_eq!(Sheet::from_bytes(&other_nan), Err(Refusal::Field { step: 1 }));
}

/// Each word that a rescue rebuilds, damaged alone and with the others; what cannot be rebuilt; and lent room and list one short.
#[test]
fn rescued() {
    let sheet = Sheet::builder().step(numbered()).inverted(Cart { ellipsoid: Ellipsoid::Wgs84 }).build().unwrap();
    let whole = sheet.as_bytes();
    assert_eq!(Sheet::rescue(whole), Ok((sheet.clone(), vec![])));
    let words = [(0, 1), (4, 304), (12, 16), (24, 48), (28, 248), (40, 296), (44, 8)];
    let mut all = whole.to_vec();
    let mut changes = vec![];
    for (place, new) in words {
        let change = Change { place, old: u32::MAX, new };
        let at = place as usize;
        let mut damaged = whole.to_vec();
        damaged[at..at + 4].copy_from_slice(&[255; 4]);
        all[at..at + 4].copy_from_slice(&[255; 4]);
        assert_eq!(Sheet::rescue(&damaged), Ok((sheet.clone(), vec![change])));
        changes.push(change);
    }
    assert_eq!(Sheet::rescue(&all), Ok((sheet.clone(), changes)));
    assert_eq!(Sheet::rescue(&all[..all.len() - 1]), Err(Refusal::Rescue));
    assert_eq!(Sheet::rescue(&[]), Err(Refusal::Rescue));

    let (mut room, mut list) = ([0; 304], [0; 21]);
    assert_eq!(lent::rescue(&all, &mut room[..303], &mut list), Err(Refusal::Room));
    assert_eq!(lent::rescue(&all, &mut room, &mut list[..20]), Err(Refusal::Room));
    assert_eq!((room, list), ([0; 304], [0; 21]));
    assert_eq!(lent::rescue(&all, &mut room, &mut list), Ok(7));
    assert_eq!((&room[..], &list[..3]), (whole, &[0, u32::MAX, 1][..]));

    all[48..52].copy_from_slice(&[16, 0, 0, 0]);
    assert_eq!(Sheet::rescue(&all), Err(Refusal::Field { step: 1 }));
}

#[test]
fn changes_by_name() {
    let told = |place| Change { place, old: 311, new: 288 }.to_string();
    assert_eq!(told(0), "form: 311 is 288");
    assert_eq!(told(4), "total length: 311 is 288");
    assert_eq!(told(12), "directory offset: 311 is 288");
    assert_eq!(told(24), "step 1, body offset: 311 is 288");
    assert_eq!(told(268), "step 16, body length: 311 is 288");
}

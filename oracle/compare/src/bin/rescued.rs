//! The rescue of damaged sheets beside the second reader's (oracle/reader), which was written from
//! document 02 alone: the answer, every byte of the room and every word of the list, what lies behind
//! them too.
//!
//!     rescued FOLDER [cases, 5000] [seed, 1]
//!
//! The sheets of FOLDER, which are whole, are damaged in each word that is rebuilt and must come out
//! as they were.
use compare::LANDED;
use reader::random::Random;
use reader::rescue::{Rescued, rescue};
use reader::{draw, word_at};
use std::path::Path;
use std::process::ExitCode;

/// What room and list hold before, and behind what is written.
const ROOM: u8 = 0xa5;
const LIST: u32 = 0xa5a5_a5a5;

#[derive(Default)]
struct Part {
    cases: usize,
    accepted: usize,
    parted: usize,
}

impl Part {
    /// One case: the damaged sheet, the room's length in bytes and the list's in words.
    fn try_one(&mut self, name: &str, damaged: &[u8], room: usize, words: usize) -> Rescued {
        let expected = rescue(&LANDED, damaged, room, words / 3);
        let (mut room_after, mut list_after) = (vec![ROOM; room], vec![LIST; words]);
        room_after.splice(..expected.sheet.len(), expected.sheet.iter().copied());
        let listed: Vec<u32> = expected.changes.iter().flat_map(|c| [c.place, c.old, c.new]).collect();
        list_after.splice(..listed.len(), listed);

        let (mut lent_room, mut lent_list) = (vec![ROOM; room], vec![LIST; words]);
        let (told, changed) = ours::rescue(damaged, &mut lent_room, &mut lent_list);
        let agree = told == (expected.refusal, expected.step)
            && changed == expected.changes.len() as u64
            && lent_room == room_after
            && lent_list == list_after;
        self.cases += 1;
        self.accepted += (expected.refusal == 0) as usize;
        if !agree {
            self.parted += 1;
            if self.parted <= 3 {
                println!("{name} parts: {damaged:?}, room {room}, list {words}: {told:?}, {changed} changed; {expected:?}");
            }
        }
        expected
    }

    /// With room and list as needed, one less each, both, none, and more.
    fn try_all(&mut self, name: &str, damaged: &[u8]) -> Rescued {
        let whole = self.try_one(name, damaged, 4300, 300);
        let (room, words) = (damaged.len(), 3 * whole.changes.len());
        for (room, words) in [
            (room, words),
            (room.saturating_sub(1), words),
            (room, words.saturating_sub(1)),
            (room.saturating_sub(1), words.saturating_sub(1)),
            (0, 0),
            (room + 1, words + 2),
        ] {
            self.try_one(name, damaged, room, words);
        }
        whole
    }

    /// The same of a sheet that is to come out as `sheet`.
    fn mends(&mut self, name: &str, damaged: &[u8], sheet: &[u8]) {
        let told = self.try_all(name, damaged);
        if told.refusal != 0 || told.sheet != sheet {
            println!("{name}: not mended: {damaged:?}");
            self.parted += 1;
        }
    }
}

fn set_word(bytes: &mut [u8], at: usize, word: u32) {
    bytes[at..at + 4].copy_from_slice(&word.to_le_bytes());
}

/// The places of the words that a rescue rebuilds.
fn rebuilt(sheet: &[u8]) -> Vec<usize> {
    let steps = word_at(sheet, 8) as usize;
    [0, 4, 12].into_iter().chain((0..steps).flat_map(|i| [24 + 16 * i, 28 + 16 * i])).collect()
}

/// Each rebuilt word damaged in many ways, two of them swapped, and all at once.
fn words(name: &str, part: &mut Part, sheet: &[u8], r: &mut Random) {
    part.mends(name, sheet, sheet);
    let places = rebuilt(sheet);
    for &at in &places {
        let old = word_at(sheet, at);
        let ways = [
            0,
            1,
            2,
            16,
            u32::MAX,
            u32::MAX - 1,
            old ^ 1,
            old ^ (1 << 31),
            old.wrapping_add(1),
            old.wrapping_sub(1),
            r.bits() as u32,
        ];
        for new in ways {
            let mut damaged = sheet.to_vec();
            set_word(&mut damaged, at, new);
            part.mends(name, &damaged, sheet);
        }
        for &other in &places {
            let mut damaged = sheet.to_vec();
            set_word(&mut damaged, at, word_at(sheet, other));
            set_word(&mut damaged, other, old);
            part.mends(name, &damaged, sheet);
        }
    }
    for new in [0, u32::MAX] {
        let mut damaged = sheet.to_vec();
        for &at in &places {
            set_word(&mut damaged, at, new);
        }
        part.mends(name, &damaged, sheet);
    }
}

/// Every word of header and directory damaged, those too that are taken as they stand; and a body
/// broken by 5, with short room too.
fn other_words(name: &str, part: &mut Part, sheet: &[u8]) {
    let head = 16 + 16 * word_at(sheet, 8) as usize;
    for at in (0..head).step_by(4) {
        for new in [0, 1, 2, 3, 4, 5, 6, 16, 17, u32::MAX, word_at(sheet, at) ^ 1] {
            let mut damaged = sheet.to_vec();
            set_word(&mut damaged, at, new);
            part.try_all(name, &damaged);
        }
    }
    for at in (head..sheet.len()).step_by(4) {
        let mut damaged = sheet.to_vec();
        set_word(&mut damaged, at, u32::MAX);
        set_word(&mut damaged, 24, u32::MAX);
        part.try_all(name, &damaged);
    }
}

/// Cut at two places, and rejoined with a piece left out, doubled, turned round or from another sheet.
fn rejoined(name: &str, part: &mut Part, sheet: &[u8], other: &[u8], r: &mut Random) {
    let mut cuts = [0, 0].map(|_| r.below(sheet.len() as u64 / 4 + 1) as usize * 4);
    if r.once_in(4) {
        cuts[0] = r.below(sheet.len() as u64 + 1) as usize;
    }
    cuts.sort();
    let (a, b, c) = (&sheet[..cuts[0]], &sheet[cuts[0]..cuts[1]], &sheet[cuts[1]..]);
    for pieces in [[a, c, &[]], [a, b, b], [a, c, b], [b, a, c], [a, b, &[]], [a, b, &other[other.len().min(cuts[1])..]]] {
        part.try_all(name, &pieces.concat());
    }
}

fn drawn(name: &str, part: &mut Part, r: &mut Random) {
    let d = draw::draw_damaged(r, &LANDED);
    let over = r.below(3) as usize;
    part.try_one(name, &d.sheet, d.room, 3 * d.places + over);
}

fn main() -> ExitCode {
    let mut args = std::env::args().skip(1);
    let folder = args.next().expect("a folder of sheets");
    let mut numbers = args.map(|a| a.parse::<u64>().expect("a number"));
    let (cases, seed) = (numbers.next().unwrap_or(5000), numbers.next().unwrap_or(1));
    println!("rescued: {cases} cases, seed {seed}");
    let mut files: Vec<_> = Path::new(&folder).read_dir().expect("a folder").map(|e| e.expect("an entry").path()).collect();
    files.sort();
    let whole: Vec<Vec<u8>> = files
        .iter()
        .filter(|f| f.extension().is_some_and(|e| e == "sheet"))
        .map(|f| std::fs::read(f).expect("a sheet"))
        .collect();
    assert!(!whole.is_empty(), "no sheet in {folder}");

    let mut r = Random::new(seed.wrapping_mul(1000) + 77);
    let mut parts = [Part::default(), Part::default(), Part::default(), Part::default()];
    let names = ["rebuilt words", "other words", "cut and rejoined", "drawn"];
    for (i, sheet) in whole.iter().enumerate() {
        words(names[0], &mut parts[0], sheet, &mut r);
        other_words(names[1], &mut parts[1], sheet);
        for _ in 0..cases / 20 {
            rejoined(names[2], &mut parts[2], sheet, &whole[(i + 1) % whole.len()], &mut r);
        }
    }
    for _ in 0..4 * cases {
        drawn(names[3], &mut parts[3], &mut r);
    }
    let (mut passed, mut failed) = (0, 0);
    for (name, part) in names.iter().zip(&parts) {
        println!("{name}: {} cases, {} accepted, {} parted", part.cases, part.accepted, part.parted);
        if part.parted == 0 { passed += 1 } else { failed += 1 }
    }
    println!("{passed} passed, {failed} failed");
    if failed == 0 { ExitCode::SUCCESS } else { ExitCode::FAILURE }
}

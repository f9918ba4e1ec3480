//! Sheet rescue.
//!
//! Document 02, A6: "Add a tool that takes a damaged sheet and lent room. From the step count,
//! kinds and inverted words, if these are in rule and the bodies fill the remaining bytes
//! exactly, it rebuilds form, total length, directory offset, body offsets and body lengths. It
//! lists each header or directory word changed, with place, old and new number, in ascending
//! place. Bodies are never changed; the result then passes the reader or the reader's refusal is
//! returned. On refusal room and list stay untouched. Refusals: 19, cannot be rebuilt by that
//! rule; 15 after it for room or list too short; then the reader's." A8: "Rescue stays for form
//! 1".
//!
//! Readings
//! - A place is the word's offset in bytes from the sheet's start, as the sheet's own offsets
//!   are; word 1, the total length, has place 4. A list that counts words has a quarter of it.
//! - The list is too short where it has fewer places than words changed; with nothing changed a
//!   list of no places will do. Smallest input: P1's sheet, undamaged, room 40, list 0: accepted.
//! - The reader's refusals that can follow are 5 to 8 and 11, as 11 belongs to the sheet.
//!   Smallest input: a whole sheet of two deformation steps: 11 at step 2.
//! - 15 comes before the reader's. Smallest input: a cart sheet on ellipsoid 0 and no room: 15.
//! - A form word of 2 is a form word to be mended. Smallest input: P1's sheet with form 2:
//!   rebuilt with one word changed. A sound form 2 sheet has its table offset where form 1 has
//!   the first inverted word, and so is 19.
//! - Kind 6 is in rule where A4 is read.

use crate::{In, Refusal, sheet, word_at, word_bytes};

/// A word changed.
#[derive(Clone, Copy, Debug, PartialEq, Eq)]
pub struct Change {
    /// In bytes from the sheet's start.
    pub place: u32,
    pub old: u32,
    pub new: u32,
}

/// What a rescue answers. Refused: nothing is written, both are empty here.
#[derive(Clone, Debug, PartialEq, Eq)]
pub struct Rescued {
    pub refusal: u32,
    pub step: u32,
    /// What stands at the room's start.
    pub sheet: Vec<u8>,
    /// What stands at the list's start.
    pub changes: Vec<Change>,
}

/// `room` is the room's length in bytes, `places` the number of changes that the list can hold.
pub fn rescue(inp: &In, damaged: &[u8], room: usize, places: usize) -> Rescued {
    match rebuilt(inp, damaged, room, places) {
        Ok((sheet, changes)) => Rescued { refusal: 0, step: 0, sheet, changes },
        Err(Refusal { number, step }) => {
            Rescued { refusal: number, step, sheet: vec![], changes: vec![] }
        }
    }
}

fn rebuilt(
    inp: &In,
    damaged: &[u8],
    room: usize,
    places: usize,
) -> Result<(Vec<u8>, Vec<Change>), Refusal> {
    let words = by_the_rule(inp, damaged).ok_or(Refusal::plain(19))?;
    let change = |(i, new): (usize, &u32)| {
        let old = word_at(damaged, 4 * i);
        (old != *new).then_some(Change { place: 4 * i as u32, old, new: *new })
    };
    let changes: Vec<Change> = words.iter().enumerate().filter_map(change).collect();
    if room < damaged.len() || places < changes.len() {
        return Err(Refusal::plain(15));
    }
    let mut whole = word_bytes(&words);
    whole.extend(&damaged[whole.len()..]);
    sheet::check(inp, &whole)?;
    Ok((whole, changes))
}

/// The words of header and directory, none where they can't be rebuilt.
fn by_the_rule(inp: &In, damaged: &[u8]) -> Option<Vec<u32>> {
    if damaged.len() < 16 {
        return None;
    }
    let count = word_at(damaged, 8);
    let directory = 16 + 16 * (1..=16).contains(&count).then_some(count as usize)?;
    if damaged.len() < directory {
        return None;
    }
    let mut words = vec![1, damaged.len() as u32, count, 16];
    let mut next = directory;
    for i in 0..count as usize {
        let (kind, inverted) = (word_at(damaged, 16 + 16 * i), word_at(damaged, 20 + 16 * i));
        let length = sheet::body_length(inp, kind)?;
        if inverted > 1 {
            return None;
        }
        words.extend([kind, inverted, next as u32, length as u32]);
        next += length;
    }
    (next == damaged.len()).then_some(words)
}

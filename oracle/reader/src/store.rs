//! The store of kept runs, by its meaning: which runs are open and what each holds. The bytes,
//! the gaps and the moves of a compaction are the library's own.
//!
//! Document 02, A11: "Keep up to 16 kept runs in one lent buffer under a header of counts and
//! offsets, each under an identifier from 1 to 65,535. Closing frees its room. Opening compacts
//! when the largest gap is too small but the free total suffices. Opening writes a fresh run of
//! the lent list; each run keeps its sheet and direction too. A run needs its sheet's length and
//! 96 bytes a fix, no more. The header's length is fixed in docs, at most 1,024 bytes; free is
//! what header and open runs leave, and a header of zeros is an empty store. The header's rule,
//! in docs, is met by zeros and by every store that an entry leaves from one that met it.
//! Afterwards each open run holds the same material; freed room is used. Demand 3 holds for a
//! correction inside the store, and other runs' contents don't change. Refusals: 21, identifier
//! out of range, taken or unknown; 22, all 16 open; 23, free total below what is needed, and
//! never otherwise; 24, store header out of its rule. Order: 24, 21, 22, then document 01's own,
//! 23 last." A12: "In the store 12 to 14 keep their former meaning."
//!
//! Readings
//! - The 96 bytes of a fix are its tuple, its result and its track, 32 bytes each.
//! - A buffer shorter than the header has no header in rule: 24 from every entry. Smallest input:
//!   a buffer of no bytes. A buffer as long as the header is an empty store with nothing free.
//! - 22 belongs to opening. Smallest input: 16 open, a seventeenth under a taken identifier: 21;
//!   under a new one: 22, whatever its sheet.
//! - Opening is by 24, 21, 22, 1 to 8, 11, 12, 9, 23; closing by 24, 21; correcting by 24, 21,
//!   14. 13 can't be met, as the store itself lays out results and track. Smallest input of 23
//!   last: a list of five numbers in a full store: 9.
//! - An empty list is a run too; it needs its sheet's length.
//! - Refused: the store stays as it was.
//! - An opened run answers document 01's kept run: its count, and by A5 its number; a correction
//!   answers the fixes redone.

use crate::kept::{Kept, Memory, correct, keep};
use crate::{In, Refusal};

/// An open run.
#[derive(Clone, Debug)]
pub struct Run {
    pub identifier: u32,
    pub inverse: bool,
    pub sheet: Vec<u8>,
    /// List, results and track.
    pub memory: Memory,
}

/// A store: its buffer's length, its header's length, and its open runs in the order of opening.
#[derive(Clone, Debug)]
pub struct Store {
    pub length: usize,
    pub header: usize,
    pub runs: Vec<Run>,
    /// Whether the header is in rule. A caller that spoils the header's bytes sets it false.
    pub in_rule: bool,
}

/// What an entry answers; refused: zeros.
#[derive(Clone, Copy, Debug, Default, PartialEq, Eq)]
pub struct Told {
    pub refusal: u32,
    pub step: u32,
    /// Of a correction, the fixes redone.
    pub redone: u32,
    /// The fixes counted among those run.
    pub counted: u32,
    /// A5: the fixes that met an angle out of reach among those run.
    pub out_of_reach: u32,
}

impl Told {
    fn refused(refusal: Refusal) -> Told {
        Told { refusal: refusal.number, step: refusal.step, ..Told::default() }
    }

    fn of(kept: &Kept) -> Told {
        Told {
            refusal: kept.refusal,
            step: kept.step,
            redone: kept.redone,
            counted: kept.counts[0],
            out_of_reach: kept.out_of_reach[0],
        }
    }
}

/// The room that a run needs.
pub fn need(sheet: &[u8], fixes: usize) -> usize {
    sheet.len() + 96 * fixes
}

impl Run {
    pub fn need(&self) -> usize {
        need(&self.sheet, self.memory.list.len() / 4)
    }
}

impl Store {
    /// A buffer of zeros.
    pub fn empty(length: usize, header: usize) -> Store {
        Store { length, header, runs: vec![], in_rule: length >= header }
    }

    /// What header and open runs leave.
    pub fn free(&self) -> usize {
        self.length - self.header - self.runs.iter().map(Run::need).sum::<usize>()
    }

    fn find(&self, identifier: u32) -> Option<usize> {
        self.runs.iter().position(|run| run.identifier == identifier)
    }

    /// 24, then 21 for an identifier out of range or unknown.
    fn known(&self, identifier: u32) -> Result<usize, Refusal> {
        if !self.in_rule {
            return Err(Refusal::plain(24));
        }
        self.find(identifier).ok_or(Refusal::plain(21))
    }

    /// The run under an identifier.
    pub fn look(&self, identifier: u32) -> Result<&Run, Refusal> {
        self.known(identifier).map(|at| &self.runs[at])
    }

    pub fn open(
        &mut self,
        inp: &In,
        identifier: u32,
        inverse: bool,
        sheet: &[u8],
        list: &[f64],
    ) -> Told {
        if !self.in_rule {
            return Told::refused(Refusal::plain(24));
        }
        if !(1..=65535).contains(&identifier) || self.find(identifier).is_some() {
            return Told::refused(Refusal::plain(21));
        }
        if self.runs.len() == 16 {
            return Told::refused(Refusal::plain(22));
        }
        let room = vec![0.0; list.len()];
        let memory =
            Memory { list: list.to_vec(), results: room.clone(), track: room, words: vec![] };
        let kept = keep(inp, inverse, sheet, &memory);
        if kept.refusal == 0 {
            if self.free() < need(sheet, list.len() / 4) {
                return Told::refused(Refusal::plain(23));
            }
            let memory = kept.memory.clone();
            self.runs.push(Run { identifier, inverse, sheet: sheet.to_vec(), memory });
        }
        Told::of(&kept)
    }

    pub fn close(&mut self, identifier: u32) -> Told {
        match self.known(identifier) {
            Ok(at) => {
                self.runs.remove(at);
                Told::default()
            }
            Err(refusal) => Told::refused(refusal),
        }
    }

    pub fn correct(&mut self, inp: &In, identifier: u32, index: u64, fix: [f64; 4]) -> Told {
        match self.known(identifier) {
            Ok(at) => {
                let run = &mut self.runs[at];
                let kept = correct(inp, run.inverse, &run.sheet, &run.memory, index, fix);
                run.memory = kept.memory.clone();
                Told::of(&kept)
            }
            Err(refusal) => Told::refused(refusal),
        }
    }
}

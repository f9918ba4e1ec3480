//! Kept runs and their corrections.
//!
//! Document 01, "Kept run": "Reads the list, writes results and, after each fix, the track: last
//! time, T. A correction gives an index, counted from 0, and the new fix; the call writes it into
//! the list, then redoes, in running mode from the track before it (at index 0 the sheet's
//! start), else from the sheet's T. Static, fixed and own-epoch runs track (NaN, T) throughout, T
//! as moved by t_obs. There a fix's result depends on that fix and the sheet alone." P6: "2001,
//! 2000, 2002 running, index 1 retimed to 2001: count 2." "Errors that tempt": "Comparing track
//! numbers by == alone, which parts NaNs and joins zeros. Redoing only the corrected fix."
//! Refusals "12: kept run: not one Helmert step", "13: kept run: results or track not as long as
//! the list (track: 4 numbers a fix)", "14: corrected fix's index not below the count"; the order
//! 11, 12, 9, 13, 10, 14.
//!
//! Document 02, A4: "Kept runs accept it, their count one under demand 3's premise." "12 now
//! means not one Helmert or kind 6 step." A5: "Demand 2 includes the new number; so does demand
//! 3, over its stretch."
//!
//! A12: "Extend the kept run to any chain without raw deformation, with a track for each step
//! (NaN, +0, +0, +0 where it has no T) and a word a fix telling which steps counted it. Given a
//! set of distinct indices in rising order, redo exactly the listed fixes and those before which
//! the carried state of some step differs from the kept one; before the first index, and after a
//! fix left alone, the carried state counts as the kept one. If the kept material came from a
//! fresh run before the corrections, it ends equal to a fresh run after them, per-step counts
//! included; the returned number of fixes written equals the definition's." "The premise includes
//! the same sheet, direction and grid, and the same lent velocities and marks at unlisted fixes.
//! Refusals: 14 also for indices not rising or new fixes not one for each; 12 then means raw
//! deformation only; 13 asks 4 track numbers a fix for each step, one word a fix; 10 applies. In
//! the store 12 to 14 keep their former meaning."
//!
//! Readings
//! - The stretch of document 01 is that of A12's wording: the corrected fix, and after it each
//!   fix before which the carried state differs from the kept one, up to the first that doesn't;
//!   where kept means the track as it was lent. So a track that no fresh run wrote is compared
//!   too, in every mode. Smallest input: a static sheet, two fixes, the track's first number 1
//!   and not NaN; index 0 corrected: count 2.
//! - The count of a correction is the number of fixes redone. Beside it stand here the numbers
//!   counted, and those that met an angle out of reach, among the fixes redone.
//! - A correction that changes nothing still redoes its fix: count 1.
//! - Document 01's kept run lends no velocities, so 10 can't be met.
//! - A12, the tracks lie in one list, step after step ("a track for each step"), each with 4
//!   numbers a fix; `Layout::ByFix` reads the other order, fix after fix. Smallest input: two
//!   steps and two fixes. Steps stand in sheet order in both directions.
//! - A12, the word: step 1 is the bit worth 1, step 2 that worth 2, and so on, in sheet order. A
//!   redone fix has its word written anew, other bits 0.
//! - A12, the per-step counts of an answer are those of the whole list: the words that have the
//!   step's bit, after the call. Words of a fix left alone count as they were lent; bits of steps
//!   that the sheet doesn't have are not counted. `counts` has beside this those among the fixes
//!   run.
//! - A12, no index at all is a set: nothing is redone, 0 fixes written, the counts are the
//!   words'.
//! - A12, every step's track is compared, also where the step has no T or is not in running mode:
//!   after a track that no run wrote the next fix is redone, as in document 01's kept run.
//! - A12, "before which": the state before fix 0 is the sheet's start, carried and kept alike.
//! - A12, 12 is any deformation step with flag 1, also beside flag 2; it carries step 0.
//! - A12 with A1: 17 and 18 stand after 10 and before 14. Smallest input: a correction at an
//!   index too high with a grid of no bytes: 17.
//! - A12 with A5: the number is that of the fixes redone, step by step.

use crate::chain::{Chain, Lent, NOTHING_LENT, tally, test_lent, test_list, tuple_of};
use crate::sheet::{self, Body, Record};
use crate::steps::State;
use crate::{In, Refusal, same_numbers};

/// What a kept run or a correction answers, and the lent memory afterwards. Refused: the number
/// and the step, zeros, all memory as it was.
#[derive(Clone, Debug)]
pub struct Kept {
    pub refusal: u32,
    pub step: u32,
    /// The fixes redone by a correction; 0 for a fresh run.
    pub redone: u32,
    /// Fixes counted by each step: of a fresh run all, of a correction those redone.
    pub counts: [u32; 16],
    /// A12: fixes of the whole list counted by each step, by the words; else zeros.
    pub whole: [u32; 16],
    /// A5: fixes that met an angle out of reach, of those run.
    pub out_of_reach: [u32; 16],
    pub memory: Memory,
}

/// The lent memory of a kept run.
#[derive(Clone, Debug, Default)]
pub struct Memory {
    pub list: Vec<f64>,
    pub results: Vec<f64>,
    pub track: Vec<f64>,
    /// A12: a word a fix; else empty.
    pub words: Vec<u32>,
}

impl Memory {
    pub fn same(&self, other: &Memory) -> bool {
        same_numbers(&self.list, &other.list)
            && same_numbers(&self.results, &other.results)
            && same_numbers(&self.track, &other.track)
            && self.words == other.words
    }
}

impl Kept {
    fn start(refusal: Refusal, memory: &Memory) -> Kept {
        Kept {
            refusal: refusal.number,
            step: refusal.step,
            redone: 0,
            counts: [0; 16],
            whole: [0; 16],
            out_of_reach: [0; 16],
            memory: memory.clone(),
        }
    }

    pub fn same(&self, other: &Kept) -> bool {
        (self.refusal, self.step, self.redone) == (other.refusal, other.step, other.redone)
            && (self.counts, self.whole) == (other.counts, other.whole)
            && self.out_of_reach == other.out_of_reach
            && self.memory.same(&other.memory)
    }
}

// ----- Document 01's kept run ----------------------------------------------------------------

/// One Helmert step, or one of kind 6.
fn is_one(inp: &In, record: &Record) -> bool {
    record.count == 1
        && match record.steps[0].body {
            Body::Helmert(_) => true,
            Body::Badekas(_) => inp.a4,
            _ => false,
        }
}

/// 1 to 8, 11, 12, 9, 13.
fn accepted(inp: &In, sheet: &[u8], memory: &Memory) -> Result<Record, Refusal> {
    let record = sheet::check(inp, sheet)?;
    if !is_one(inp, &record) {
        return Err(Refusal::plain(12));
    }
    test_list(&memory.list)?;
    let length = memory.list.len();
    if memory.results.len() != length || memory.track.len() != length {
        return Err(Refusal::plain(13));
    }
    Ok(record)
}

/// A fresh kept run of the list in the memory.
pub fn keep(inp: &In, inverse: bool, sheet: &[u8], memory: &Memory) -> Kept {
    let record = match accepted(inp, sheet, memory) {
        Ok(record) => record,
        Err(refusal) => return Kept::start(refusal, memory),
    };
    let mut kept = Kept::start(Refusal::plain(0), memory);
    let chain = Chain::of(&record, inverse);
    let mut states = chain.start();
    for i in 0..memory.list.len() / 4 {
        one_fix(inp, &chain, &mut states, i, &mut kept);
    }
    kept
}

/// A correction of one fix.
pub fn correct(
    inp: &In,
    inverse: bool,
    sheet: &[u8],
    memory: &Memory,
    index: u64,
    fix: [f64; 4],
) -> Kept {
    let record = match accepted(inp, sheet, memory) {
        Ok(record) => record,
        Err(refusal) => return Kept::start(refusal, memory),
    };
    let fixes = memory.list.len() / 4;
    if index >= fixes as u64 {
        return Kept::start(Refusal::plain(14), memory);
    }
    let index = index as usize;
    let mut kept = Kept::start(Refusal::plain(0), memory);
    kept.memory.list[4 * index..4 * index + 4].copy_from_slice(&fix);
    let chain = Chain::of(&record, inverse);
    let mut states = chain.start();
    if index > 0 {
        states[0] = tuple_of(&memory.track, index - 1);
    }
    for i in index..fixes {
        if i > index && same_numbers(&states[0], &tuple_of(&memory.track, i - 1)) {
            break;
        }
        one_fix(inp, &chain, &mut states, i, &mut kept);
        kept.redone += 1;
    }
    kept
}

/// Fix i from the state before it; its result and track are written.
fn one_fix(inp: &In, chain: &Chain, states: &mut [State], i: usize, kept: &mut Kept) {
    let memory = &mut kept.memory;
    let through = chain.one(inp, states, i, tuple_of(&memory.list, i), &NOTHING_LENT);
    memory.results[4 * i..4 * i + 4].copy_from_slice(&through.tuple);
    memory.track[4 * i..4 * i + 4].copy_from_slice(&states[0]);
    tally(&mut kept.counts, &through.counted);
    tally(&mut kept.out_of_reach, &through.out_of_reach);
}

// ----- A12's, through a chain ------------------------------------------------------------------

/// How the tracks of several steps lie in one list.
#[derive(Clone, Copy, Debug, PartialEq, Eq)]
pub enum Layout {
    /// Step after step, in each fix after fix.
    ByStep,
    /// Fix after fix, in each step after step.
    ByFix,
}

/// What a kept run through a chain is given beside its memory.
#[derive(Clone, Copy, Debug)]
pub struct Given<'a> {
    pub inverse: bool,
    pub sheet: &'a [u8],
    pub velocities: &'a [f64],
    pub marks: &'a [u8],
    pub grid: Option<&'a [u8]>,
    pub layout: Layout,
}

/// What was accepted.
struct Accepted<'a> {
    chain: Chain,
    lent: Lent<'a>,
    fixes: usize,
    layout: Layout,
}

impl Accepted<'_> {
    /// Where the four track numbers of a step after a fix begin.
    fn place(&self, step: usize, fix: usize) -> usize {
        4 * match self.layout {
            Layout::ByStep => step * self.fixes + fix,
            Layout::ByFix => fix * self.chain.steps.len() + step,
        }
    }

    /// The states before a fix by a track.
    fn before(&self, track: &[f64], fix: usize) -> Vec<State> {
        let state = |step| {
            let at = self.place(step, fix - 1);
            track[at..at + 4].try_into().unwrap()
        };
        if fix == 0 { self.chain.start() } else { (0..self.chain.steps.len()).map(state).collect() }
    }

    /// Fix i from the states before it: result, track and word are written.
    fn one_fix(&self, inp: &In, states: &mut [State], i: usize, kept: &mut Kept) {
        let memory = &mut kept.memory;
        let through = self.chain.one(inp, states, i, tuple_of(&memory.list, i), &self.lent);
        memory.results[4 * i..4 * i + 4].copy_from_slice(&through.tuple);
        for (step, state) in states.iter().enumerate() {
            let at = self.place(step, i);
            memory.track[at..at + 4].copy_from_slice(state);
        }
        memory.words[i] = (0..16).map(|step| (through.counted[step] as u32) << step).sum();
        tally(&mut kept.counts, &through.counted);
        tally(&mut kept.out_of_reach, &through.out_of_reach);
    }

    /// The counts of the whole list by its words.
    fn whole(&self, words: &[u32]) -> [u32; 16] {
        let mut whole = [0; 16];
        for (step, count) in whole.iter_mut().enumerate().take(self.chain.steps.len()) {
            *count = words.iter().filter(|word| *word >> step & 1 == 1).count() as u32;
        }
        whole
    }
}

/// 1 to 8, 11, 12, 9, 13, 10, 17, 18.
fn accepted_chain<'a>(
    inp: &In,
    given: &Given<'a>,
    memory: &Memory,
) -> Result<Accepted<'a>, Refusal> {
    let record = sheet::check(inp, given.sheet)?;
    let raw = |body: &Body| matches!(body, Body::Deformation(d) if d.flags & 1 != 0);
    if record.live().iter().any(|step| raw(&step.body)) {
        return Err(Refusal::plain(12));
    }
    test_list(&memory.list)?;
    let fixes = memory.list.len() / 4;
    if memory.results.len() != 4 * fixes
        || memory.track.len() != 4 * fixes * record.count as usize
        || memory.words.len() != fixes
    {
        return Err(Refusal::plain(13));
    }
    let lent = test_lent(inp, &record, fixes, given.velocities, given.marks, given.grid)?;
    let chain = Chain::of(&record, given.inverse);
    Ok(Accepted { chain, lent, fixes, layout: given.layout })
}

/// A fresh kept run through a chain.
pub fn keep_chain(inp: &In, given: &Given, memory: &Memory) -> Kept {
    let run = match accepted_chain(inp, given, memory) {
        Ok(run) => run,
        Err(refusal) => return Kept::start(refusal, memory),
    };
    let mut kept = Kept::start(Refusal::plain(0), memory);
    let mut states = run.chain.start();
    for i in 0..run.fixes {
        run.one_fix(inp, &mut states, i, &mut kept);
    }
    kept.whole = run.whole(&kept.memory.words);
    kept
}

/// A correction of a set of fixes, four numbers for each index.
pub fn correct_chain(
    inp: &In,
    given: &Given,
    memory: &Memory,
    indices: &[u64],
    fixes: &[f64],
) -> Kept {
    let run = match accepted_chain(inp, given, memory) {
        Ok(run) => run,
        Err(refusal) => return Kept::start(refusal, memory),
    };
    let below = indices.iter().all(|index| *index < run.fixes as u64);
    let rising = indices.windows(2).all(|pair| pair[0] < pair[1]);
    if !below || !rising || fixes.len() != 4 * indices.len() {
        return Kept::start(Refusal::plain(14), memory);
    }
    let mut kept = Kept::start(Refusal::plain(0), memory);
    for (index, fix) in indices.iter().zip(fixes.chunks_exact(4)) {
        let at = 4 * *index as usize;
        kept.memory.list[at..at + 4].copy_from_slice(fix);
    }
    if let Some(first) = indices.first() {
        let mut carried = run.before(&memory.track, *first as usize);
        for i in *first as usize..run.fixes {
            let before = run.before(&memory.track, i);
            if indices.contains(&(i as u64))
                || !same_numbers(carried.as_flattened(), before.as_flattened())
            {
                run.one_fix(inp, &mut carried, i, &mut kept);
                kept.redone += 1;
            } else {
                carried = run.before(&memory.track, i + 1);
            }
        }
    }
    kept.whole = run.whole(&kept.memory.words);
    kept
}

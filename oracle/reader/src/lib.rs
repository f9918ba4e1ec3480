//! A second reader of the two requirement documents, for the oracle: what the library shall
//! answer, written from documents 01 and 02 alone, with the crate's six files for the order of
//! roundings.
//!
//! It knows nothing of the library's own code. Where a document leaves room, the module's head
//! has a list "Readings": what was chosen here, and the smallest input that shows the difference.
//! A place where reader and library part is thus a fault of one of them, or a reading to settle.
//!
//! - `sheet`: the bytes of a sheet and its record, reading and writing.
//! - `steps`: one step on one tuple, with the state that it carries.
//! - `chain`: a list through a sheet, with every refusal in order.
//! - `grid`: A1's velocity grid.
//! - `kept`: document 01's kept run, and A12's through a chain.
//! - `rescue`: A6's rebuilding of a damaged sheet.
//! - `store`: A11's store of kept runs, by its meaning.
//! - `closure`: A14's report and profile.
//! - `draw`: inputs for each of these, good, damaged and at every edge.
//!
//! All arithmetic is binary64, one rounding an operation.

pub mod chain;
pub mod closure;
pub mod draw;
pub mod ellipsoid;
pub mod grid;
pub mod kept;
pub mod kernels;
pub mod random;
pub mod rescue;
pub mod sheet;
pub mod steps;
pub mod store;

/// Which of document 02's requests are read, so that the library can be compared after each
/// landing.
///
/// A2 and A10 change no answer. A6, A11 and A14 are entries of their own. A7 is about the form of
/// a list in memory.
#[derive(Clone, Copy, Debug, PartialEq, Eq, Default)]
pub struct In {
    /// A velocity grid may be lent.
    pub a1: bool,
    /// A NaN time in own-epoch mode loses the fix.
    pub a3: bool,
    /// Kind 6.
    pub a4: bool,
    /// The number of tuples that met an angle out of reach.
    pub a5: bool,
    /// Form 2, own ellipsoids.
    pub a8: bool,
    /// The blank Helmert record has own-epoch on.
    pub a9: bool,
    /// The kept run goes through a chain.
    pub a12: bool,
    /// Flag 2 of deformation.
    pub a13: bool,
}

impl In {
    /// Document 01 alone.
    pub const NONE: In = In {
        a1: false,
        a3: false,
        a4: false,
        a5: false,
        a8: false,
        a9: false,
        a12: false,
        a13: false,
    };

    /// Document 01 with every request of document 02.
    pub const ALL: In =
        In { a1: true, a3: true, a4: true, a5: true, a8: true, a9: true, a12: true, a13: true };
}

/// A number of refusal, with the step that the answer carries: "the step, from 1, for 5 to 8 and
/// 11, else 0".
#[derive(Clone, Copy, Debug, PartialEq, Eq)]
pub struct Refusal {
    pub number: u32,
    pub step: u32,
}

impl Refusal {
    /// A refusal that carries no step.
    pub fn plain(number: u32) -> Refusal {
        Refusal { number, step: 0 }
    }
}

/// "All NaNs count as equal; zeros differ by sign."
pub fn same(a: f64, b: f64) -> bool {
    a.to_bits() == b.to_bits() || a.is_nan() && b.is_nan()
}

/// The same, number by number.
pub fn same_numbers(a: &[f64], b: &[f64]) -> bool {
    a.len() == b.len() && a.iter().zip(b).all(|(x, y)| same(*x, *y))
}

/// The bits of a number, all NaNs as one.
pub fn canonical(x: f64) -> u64 {
    if x.is_nan() { sheet::NOT_GIVEN.to_bits() } else { x.to_bits() }
}

/// The bytes of words, lowest byte first.
pub fn word_bytes(words: &[u32]) -> Vec<u8> {
    words.iter().flat_map(|w| w.to_le_bytes()).collect()
}

/// The bytes of numbers, lowest byte first, each bit kept.
pub fn number_bytes(numbers: &[f64]) -> Vec<u8> {
    numbers.iter().flat_map(|x| x.to_bits().to_le_bytes()).collect()
}

/// The word at a byte's place.
pub fn word_at(bytes: &[u8], at: usize) -> u32 {
    u32::from_le_bytes(bytes[at..at + 4].try_into().unwrap())
}

/// The number at a byte's place.
pub fn number_at(bytes: &[u8], at: usize) -> f64 {
    f64::from_bits(u64::from_le_bytes(bytes[at..at + 8].try_into().unwrap()))
}

//! What the tests share: bytes placed by hand, numbers compared by their bits, numbers drawn at random.
#![allow(dead_code)]
use sillfeather::{Helmert, Refusal, Sheet, Step};

pub const NOT_GIVEN: u64 = 0x7ff8_0000_0000_0000;

/// The same number: all NaNs count as equal, zeros differ by sign.
pub fn same(a: f64, b: f64) -> bool {
    a.to_bits() == b.to_bits() || a.is_nan() && b.is_nan()
}

pub fn assert_same(a: &[[f64; 4]], b: &[[f64; 4]]) {
    assert_eq!(a.len(), b.len());
    for (i, (x, y)) in a.as_flattened().iter().zip(b.as_flattened()).enumerate() {
        assert!(same(*x, *y), "fix {} number {}: {x:?} and {y:?}", i / 4, i % 4);
    }
}

/// Every bit, a NaN's too: for what must not have been touched.
pub fn bits(numbers: &[f64]) -> Vec<u64> {
    numbers.iter().map(|x| x.to_bits()).collect()
}

pub fn sheet_of(step: impl Into<Step>) -> Sheet {
    Sheet::builder().step(step).build().unwrap()
}

pub fn refused(step: impl Into<Step>) -> Refusal {
    Sheet::builder().step(step).build().unwrap_err()
}

/// The sheet of P2 and P4 to P6, in running mode: DT = (1, 0, 0) from 2000.
pub fn moving() -> Helmert {
    Helmert { own_epoch: false, dxyz: [1.0, 0.0, 0.0], t_epoch: Some(2000.0), ..Helmert::BLANK }
}

/// X = 0 at a time.
pub fn at(time: f64) -> [f64; 4] {
    [0.0, 0.0, 0.0, time]
}

/// Words of four bytes and numbers of eight, lowest byte first, one after the other.
#[derive(Default)]
pub struct Bytes(pub Vec<u8>);

impl Bytes {
    pub fn words(mut self, words: &[u32]) -> Bytes {
        self.0.extend(words.iter().flat_map(|w| w.to_le_bytes()));
        self
    }

    pub fn numbers(mut self, numbers: &[f64]) -> Bytes {
        self.0.extend(numbers.iter().flat_map(|x| x.to_le_bytes()));
        self
    }

    pub fn long(mut self, bits: u64) -> Bytes {
        self.0.extend(bits.to_le_bytes());
        self
    }
}

/// Marsaglia's xorshift64*.
pub struct Random(pub u64);

impl Random {
    pub fn word(&mut self) -> u64 {
        self.0 ^= self.0 >> 12;
        self.0 ^= self.0 << 25;
        self.0 ^= self.0 >> 27;
        self.0.wrapping_mul(0x2545_f491_4f6c_dd1d)
    }

    pub fn below(&mut self, n: usize) -> usize {
        (self.word() >> 33) as usize % n
    }

    /// From 0 to 1.
    pub fn part(&mut self) -> f64 {
        (self.word() >> 11) as f64 / (1u64 << 53) as f64
    }

    pub fn between(&mut self, low: f64, high: f64) -> f64 {
        low + self.part() * (high - low)
    }

    pub fn one_of<T: Copy>(&mut self, these: &[T]) -> T {
        these[self.below(these.len())]
    }
}

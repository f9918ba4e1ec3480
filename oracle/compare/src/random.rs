//! Random numbers (splitmix64) and the numbers of binary64 that ordinary drawing never meets.

pub struct Random(u64);

impl Random {
    pub fn new(seed: u64) -> Random {
        Random(seed)
    }

    pub fn bits(&mut self) -> u64 {
        self.0 = self.0.wrapping_add(0x9e37_79b9_7f4a_7c15);
        let mut z = self.0;
        z = (z ^ (z >> 30)).wrapping_mul(0xbf58_476d_1ce4_e5b9);
        z = (z ^ (z >> 27)).wrapping_mul(0x94d0_49bb_1331_11eb);
        z ^ (z >> 31)
    }

    pub fn below(&mut self, n: u64) -> u64 {
        self.bits() % n
    }

    /// True once in n.
    pub fn once_in(&mut self, n: u64) -> bool {
        self.below(n) == 0
    }

    pub fn pick<T: Copy>(&mut self, all: &[T]) -> T {
        all[self.below(all.len() as u64) as usize]
    }

    /// From 0 to 1.
    pub fn unit(&mut self) -> f64 {
        (self.bits() >> 11) as f64 / (1u64 << 53) as f64
    }

    pub fn between(&mut self, low: f64, high: f64) -> f64 {
        low + (high - low) * self.unit()
    }

    pub fn sign(&mut self, x: f64) -> f64 {
        if self.once_in(2) { -x } else { x }
    }

    /// 2^low to 2^high by the exponent, either sign.
    pub fn magnitude(&mut self, low: i32, high: i32) -> f64 {
        let exponent = low + self.below((high - low) as u64) as i32;
        let x = power_of_two(exponent) * (1.0 + self.unit());
        self.sign(x)
    }

    /// A few units in the last place beside x.
    pub fn beside(&mut self, x: f64) -> f64 {
        let by = self.below(9) as i64 - 4;
        f64::from_bits(x.to_bits().wrapping_add_signed(by))
    }

    /// Any binary64 number: special ones, the edges of the range, and any bits.
    pub fn wild(&mut self) -> f64 {
        match self.below(12) {
            0 => self.sign(0.0),
            1 => self.pick(&NANS),
            2 => self.sign(f64::INFINITY),
            3 => self.sign(f64::MAX),
            4 => self.sign(f64::MIN_POSITIVE),
            5 => {
                let bits = 1 + self.below(1 << 52);
                self.sign(f64::from_bits(bits))
            }
            6 => self.sign(f64::from_bits(1)),
            7 => self.magnitude(1000, 1023),
            8 => self.magnitude(-1022, -1000),
            9 => self.magnitude(-60, 60),
            10 => self.magnitude(480, 540),
            _ => f64::from_bits(self.bits()),
        }
    }

    /// A NaN of any bits, a signalling one too.
    pub fn nan(&mut self) -> f64 {
        if self.once_in(5) { f64::from_bits(0x7ff0_0000_0000_0001) } else { self.pick(&NANS) }
    }

    pub fn wild_finite(&mut self) -> f64 {
        loop {
            let x = self.wild();
            if x.is_finite() {
                return x;
            }
        }
    }
}

const NANS: [f64; 4] = [
    f64::from_bits(0x7ff8_0000_0000_0000),
    f64::from_bits(0xfff8_0000_0000_0000),
    f64::from_bits(0x7ff8_dead_beef_0001),
    f64::from_bits(0xffff_ffff_ffff_ffff),
];

/// Exponents of normal numbers.
fn power_of_two(exponent: i32) -> f64 {
    f64::from_bits(((exponent + 1023) as u64) << 52)
}

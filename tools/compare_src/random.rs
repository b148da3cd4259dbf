//! Random numbers that a seed decides, and doubles of the kinds that arithmetic can go wrong on.

/// A counter with steps of an odd constant, its bits mixed (splitmix64).
pub struct Random {
    state: u64,
}

/// What the doubles of one case are drawn from. A case keeps to one flavour: mixed freely, nearly
/// every answer would be a NaN or an infinity and show nothing.
#[derive(Clone, Copy, PartialEq)]
pub enum Flavour {
    /// Sizes near 1: every operation rounds.
    Ordinary,
    /// Whole numbers of -3 to 3, -0.0 among them: exact cancellation, and signs of zero.
    Small,
    /// Far apart in size, so that products overflow, vanish or are subnormal.
    Far,
    /// Anything, infinities and NaN included.
    Wild,
}

const SPECIALS: [f64; 16] = [
    0.0,
    -0.0,
    1.0,
    -1.0,
    f64::INFINITY,
    f64::NEG_INFINITY,
    f64::NAN,
    f64::MAX,
    f64::MIN,
    f64::MIN_POSITIVE,
    -f64::MIN_POSITIVE,
    f64::EPSILON,
    1e-12,
    1e-24,
    5e-324,
    -5e-324,
];

impl Random {
    pub fn new(seed: u64, name: &str) -> Self {
        let mut random = Random { state: seed };
        for byte in name.bytes() {
            random.state = random.bits() ^ u64::from(byte);
        }
        random
    }

    pub fn bits(&mut self) -> u64 {
        self.state = self.state.wrapping_add(0x9E37_79B9_7F4A_7C15);
        let mut z = self.state;
        z = (z ^ (z >> 30)).wrapping_mul(0xBF58_476D_1CE4_E5B9);
        z = (z ^ (z >> 27)).wrapping_mul(0x94D0_49BB_1331_11EB);
        z ^ (z >> 31)
    }

    /// A number below `n`.
    pub fn below(&mut self, n: u64) -> u64 {
        ((u128::from(self.bits()) * u128::from(n)) >> 64) as u64
    }

    /// A number of lo to hi, both included.
    pub fn within(&mut self, lo: i64, hi: i64) -> i64 {
        lo + self.below((hi - lo + 1) as u64) as i64
    }

    /// True once in `n` times.
    pub fn once_in(&mut self, n: u64) -> bool {
        self.below(n) == 0
    }

    pub fn flavour(&mut self) -> Flavour {
        match self.below(8) {
            0..3 => Flavour::Ordinary,
            3..6 => Flavour::Small,
            6 => Flavour::Far,
            _ => Flavour::Wild,
        }
    }

    pub fn double(&mut self, flavour: Flavour) -> f64 {
        match flavour {
            Flavour::Ordinary => self.of_exponents(-8, 8),
            Flavour::Small => self.small(),
            Flavour::Far => self.far(),
            Flavour::Wild => self.wild(),
        }
    }

    fn small(&mut self) -> f64 {
        let size = self.below(4) as f64;
        if self.once_in(2) { -size } else { size }
    }

    fn far(&mut self) -> f64 {
        match self.below(4) {
            0 => self.of_exponents(-1022, 1023),
            1 => self.of_exponents(500, 530),
            2 => self.of_exponents(-560, -480),
            _ => self.subnormal(),
        }
    }

    fn wild(&mut self) -> f64 {
        match self.below(8) {
            0 => self.any(),
            1 => self.small(),
            2 => self.far(),
            3 => self.of_exponents(-8, 8),
            4 => self.beside_power(),
            _ => self.special(),
        }
    }

    /// Any bits at all.
    pub fn any(&mut self) -> f64 {
        f64::from_bits(self.bits())
    }

    pub fn special(&mut self) -> f64 {
        SPECIALS[self.below(SPECIALS.len() as u64) as usize]
    }

    /// Random sign and significand, exponent of lo to hi.
    pub fn of_exponents(&mut self, lo: i64, hi: i64) -> f64 {
        let exponent = (self.within(lo, hi) + 1023) as u64;
        let rest = self.bits() & !(0x7FF << 52);
        f64::from_bits(rest | (exponent << 52))
    }

    /// Of either sign, with any number of leading zeros.
    pub fn subnormal(&mut self) -> f64 {
        let sign = self.bits() & (1 << 63);
        let shift = 12 + self.below(52);
        f64::from_bits(sign | (self.bits() >> shift))
    }

    /// A power of two or one of its neighbours, down to the least subnormal.
    pub fn beside_power(&mut self) -> f64 {
        let power = match self.below(4) {
            0 => 1 << self.below(52),
            _ => (1 + self.below(2046)) << 52,
        };
        self.beside(f64::from_bits(power), 2)
    }

    /// x moved by at most `steps` doubles either way. Bits of numbers of one sign are ordered as they are.
    pub fn beside(&mut self, x: f64, steps: i64) -> f64 {
        let step = self.within(-steps, steps);
        let sign = x.to_bits() & (1 << 63);
        let size = (x.to_bits() ^ sign).saturating_add_signed(step);
        f64::from_bits(sign | (size & !(1 << 63)))
    }
}

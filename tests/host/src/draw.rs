//! Deterministic draws: a seed gives the same numbers on every machine.
use crate::dividers::{FRACTION, INFINITY, SIGN};

pub struct Draw(u64);

impl Draw {
    pub fn new(seed: u64) -> Draw {
        Draw(seed)
    }

    /// 64 bits (splitmix64).
    pub fn bits(&mut self) -> u64 {
        self.0 = self.0.wrapping_add(0x9E37_79B9_7F4A_7C15);
        let mut z = self.0;
        z = (z ^ z >> 30).wrapping_mul(0xBF58_476D_1CE4_E5B9);
        z = (z ^ z >> 27).wrapping_mul(0x94D0_49BB_1331_11EB);
        z ^ z >> 31
    }

    /// A number below the bound.
    pub fn below(&mut self, bound: u64) -> u64 {
        self.bits() % bound
    }

    /// A number below 2^60 of any length in bits, often with long runs of ones or zeros.
    pub fn whole(&mut self) -> u64 {
        let x = match self.below(4) {
            0 => self.bits() & self.bits(),
            1 => self.bits() | self.bits(),
            2 => u64::MAX,
            _ => self.bits(),
        };
        let x = (x >> 4) >> self.below(60);
        x.wrapping_add(self.below(3)).wrapping_sub(1).min((1 << 60) - 1)
    }

    /// A fraction field: random, or near a power of two, or all ones, or zero.
    fn fraction(&mut self) -> u64 {
        let ones = |n: u64| (1u64 << n) - 1;
        match self.below(8) {
            0 => 0,
            1 => FRACTION,
            2 => 1 << self.below(52),
            3 => FRACTION ^ 1 << self.below(52),
            4 => ones(self.below(53)),
            5 => FRACTION & !ones(self.below(53)),
            _ => self.bits() & FRACTION,
        }
    }

    /// A pattern at an edge: subnormal, least or greatest exponent, infinite or not a number now and then.
    fn edge(&mut self) -> u64 {
        let field = match self.below(8) {
            0 => 0,
            1 => 1,
            2 => 2046,
            3 => 2047 * u64::from(self.below(16) == 0),
            4 => 1023 - 60 + self.below(120),
            _ => self.below(2047),
        };
        self.bits() & SIGN | field << 52 | self.fraction()
    }

    /// Two operands whose quotient lies near 2^target.
    fn near(&mut self, target: i64) -> (u64, u64) {
        let b = self.edge() & !SIGN;
        let field = (b >> 52) as i64 + target + self.below(5) as i64 - 2;
        let fraction = match self.below(4) {
            0 => b & FRACTION,
            1 => (b & FRACTION).wrapping_sub(1) & FRACTION,
            2 => FRACTION - self.below(4),
            _ => self.bits() & FRACTION,
        };
        let a = (field.clamp(0, 2046) as u64) << 52 | fraction;
        (a | self.bits() & SIGN, b)
    }

    /// A number m * 2^e, m below 2^53, e from -1074 to 971, as a pattern.
    fn pattern(m: u64, e: i64) -> u64 {
        let length = 64 - m.leading_zeros() as i64;
        let up = (53 - length).min(e + 1074);
        let m = m << up;
        if m >> 52 == 0 {
            m
        } else {
            ((e - up + 1075) as u64) << 52 | m & FRACTION
        }
    }

    /// Two operands whose quotient is halfway between two subnormal numbers, or next to that: (2k + 1) * c over c * 2^j.
    fn tie(&mut self) -> (u64, u64) {
        let odd = (self.bits() >> (39 + self.below(25))) | 1;
        let c = (self.bits() >> (37 + self.below(27))) | 1;
        let j = self.below(900) as i64;
        let a = Draw::pattern(odd * c, j - 1074);
        let b = Draw::pattern(c, j + 1);
        let off = if self.below(2) == 0 { 0 } else { self.below(5) };
        ((a + off).saturating_sub(off / 2) | self.bits() & SIGN, b | self.bits() & SIGN)
    }

    /// Two operands whose quotient lies next to a number, or halfway to the next one, of 53 bits.
    fn hard(&mut self) -> (u64, u64) {
        let b = self.fraction() | 1 << 52;
        let q = self.bits() & FRACTION | 1 << 52;
        let product = u128::from(2 * q + self.below(2)) * u128::from(b);
        let a = (product >> (product.ilog2() - 52)) as u64;
        let a = a + self.below(3) - 1;
        let (ea, eb) = (self.below(2046) + 1, self.below(2046) + 1);
        (ea << 52 | a & FRACTION, eb << 52 | b & FRACTION | self.bits() & SIGN)
    }

    /// A square, or a neighbour of one: half of them of a number of at most 26 bits, which is exact, the others of one of
    /// 54 bits, so that the root lies next to a number or halfway to the next one.
    fn square(&mut self) -> u64 {
        let exact = self.below(2) == 0;
        let s = if exact { self.bits() >> (38 + self.below(26)) } else { self.bits() >> 10 | 1 << 53 };
        let n = u128::from(s) * u128::from(s);
        let m = if exact { n as u64 } else { (n >> (n.ilog2() - 52)) as u64 };
        let a = Draw::pattern(m, self.below(2046) as i64 - 1074);
        (a + self.below(3)).saturating_sub(1)
    }

    /// The operand of a root. Five kinds in turn.
    pub fn root_operand(&mut self, turn: u64) -> u64 {
        match turn % 5 {
            0 => self.bits(),
            1 => self.edge(),
            2 => self.bits() >> (12 + self.below(52)),
            3 => (self.below(2048) << 52 | self.bits() & FRACTION) & !SIGN,
            _ => self.square(),
        }
    }

    /// Two binary64 operands. Seven kinds in turn.
    pub fn operands(&mut self, turn: u64) -> (u64, u64) {
        match turn % 7 {
            0 => (self.bits(), self.bits()),
            1 => (self.edge(), self.edge()),
            2 => self.near(-1022),
            3 => self.near(-1075),
            4 => self.near(1023),
            5 => self.tie(),
            _ => self.hard(),
        }
    }
}

/// Patterns of every class and at every edge; the tests take all pairs of them.
pub fn landmarks() -> Vec<u64> {
    let mut list = vec![0, 1, 2, 3, FRACTION - 1, FRACTION, 1 << 51];
    for field in [1u64, 2, 51, 52, 53, 1022, 1023, 1024, 2045, 2046] {
        for fraction in [0, 1, 2, 1 << 51, FRACTION - 1, FRACTION] {
            list.push(field << 52 | fraction);
        }
    }
    list.extend([INFINITY, INFINITY + 1, INFINITY | 1 << 51, INFINITY | FRACTION]);
    list.extend([INFINITY | ((1 << 51) - 1), INFINITY | 1 << 51 | 1]);
    let signed: Vec<u64> = list.iter().map(|x| x | SIGN).collect();
    list.extend(signed);
    list
}

//! Binary64 quotients and roots of the unit against those of both others.
use crate::calls::{self, Binary64};
use crate::dividers::{exact, exact_root, is_tie, processor, processor_root, NAN};
use crate::draw::Draw;

/// What was compared, and how often each kind of result came up.
#[derive(Clone, Copy, Debug, Default)]
pub struct Tally {
    pub answers: u64,
    pub differences: u64,
    pub inexact: u64,
    pub underflow: u64,
    pub overflow: u64,
    pub by_zero: u64,
    pub invalid: u64,
    pub subnormal: u64,
    pub nan: u64,
    pub ties: u64,
}

impl Tally {
    pub fn plus(self, o: Tally) -> Tally {
        Tally {
            answers: self.answers + o.answers,
            differences: self.differences + o.differences,
            inexact: self.inexact + o.inexact,
            underflow: self.underflow + o.underflow,
            overflow: self.overflow + o.overflow,
            by_zero: self.by_zero + o.by_zero,
            invalid: self.invalid + o.invalid,
            subnormal: self.subnormal + o.subnormal,
            nan: self.nan + o.nan,
            ties: self.ties + o.ties,
        }
    }
}

impl Tally {
    /// One answer of the unit to `what` against those of the two others.
    fn compare(&mut self, what: impl Fn() -> String, r: Binary64, processor: (u64, u64), exact: (u64, u64)) {
        assert_eq!(processor, exact, "the two others differ: {}", what());
        let (pattern, flags) = exact;
        self.answers += 1;
        if r != (Binary64 { refusal: 0, place: 0, pattern, flags }) {
            self.differences += 1;
            if self.differences < 10 {
                println!("{}: {r:x?}, the others say {exact:x?}", what());
            }
        }
        self.inexact += flags & 1;
        self.underflow += flags >> 1 & 1;
        self.overflow += flags >> 2 & 1;
        self.by_zero += flags >> 3 & 1;
        self.invalid += flags >> 4 & 1;
        let field = pattern >> 52 & 2047;
        self.subnormal += u64::from(field == 0 && pattern << 1 != 0);
        self.nan += u64::from(pattern == NAN);
    }
}

/// One pair in all four directions, through a lent table or the kept one.
pub fn pair(table: Option<&[u8]>, a: u64, b: u64, tally: &mut Tally) {
    for direction in 0..4 {
        let what = || format!("{a:016x} / {b:016x}, direction {direction}");
        let r = calls::divide_binary64(table, a, b, direction);
        tally.compare(what, r, processor(a, b, direction), exact(a, b, direction));
    }
    tally.ties += u64::from(is_tie(a, b));
}

/// The root of one operand in all four directions.
pub fn root(a: u64, tally: &mut Tally) {
    for direction in 0..4 {
        let what = || format!("the root of {a:016x}, direction {direction}");
        let r = calls::root_binary64(a, direction);
        tally.compare(what, r, processor_root(a, direction), exact_root(a, direction));
    }
}

/// So many pairs, drawn from a seed.
pub fn drawn(table: Option<&[u8]>, seed: u64, pairs: u64) -> Tally {
    let mut draw = Draw::new(seed);
    let mut tally = Tally::default();
    for turn in 0..pairs {
        let (a, b) = draw.operands(turn);
        pair(table, a, b, &mut tally);
    }
    tally
}

/// The roots of so many operands, drawn from a seed.
pub fn drawn_roots(seed: u64, operands: u64) -> Tally {
    let mut draw = Draw::new(seed);
    let mut tally = Tally::default();
    for turn in 0..operands {
        root(draw.root_operand(turn), &mut tally);
    }
    tally
}

/// Blocks of answers, parted over the machine's cores. Each block has a seed of its own, so the answers do not depend on
/// the number of cores.
pub fn on_all_cores(blocks: u64, answers: impl Fn(u64) -> Tally + Sync) -> Tally {
    let cores = std::thread::available_parallelism().map_or(1, |n| n.get()) as u64;
    let part = |core: u64| {
        let own = (core..blocks).step_by(cores as usize);
        own.map(&answers).fold(Tally::default(), Tally::plus)
    };
    std::thread::scope(|scope| {
        let part = &part;
        let parts: Vec<_> = (0..cores).map(|core| scope.spawn(move || part(core))).collect();
        parts.into_iter().map(|p| p.join().expect("a thread of the comparison")).fold(Tally::default(), Tally::plus)
    })
}

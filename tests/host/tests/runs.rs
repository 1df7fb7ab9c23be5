//! 300,000 kept runs, and 20,000 through 50 other tables, against the step made bit by bit; every byte of the buffer.
//!
//! Would catch a run whose digits are not the table's, whose quotient or remainder is not that of the division, which
//! pads or shortens its digits, or which writes a byte outside the n it was lent; a refusal that is missing, out
//! of order, with a wrong place or with values, or that writes. The draws are from the fixed seed below.
use host::calls::{self, Ran};
use host::draw::Draw;
use host::lent::{at_any_address, first, tables_and_none, Space, CANARY};
use host::specification::{rule, run};

const SEED: u64 = 0x5EED_0031;

/// One run through the unit and through the model: answer, digits and every other byte of the buffer.
fn check(lent: Option<&[u8]>, model: &[u8], dividend: u64, divisor: u64, digits: usize, draw: &mut Draw) {
    let trace = run(model, dividend, divisor, digits);
    // the model itself: words and true remainder agree, and the remainder stays in range
    assert_eq!(trace.words, trace.remainders);
    assert!(trace.remainders.iter().all(|p| 3 * p.abs() <= 8 * i128::from(divisor)));
    let scaled = u128::from(dividend) << (2 * (digits - 1));
    assert_eq!(trace.quotient as u128, scaled / u128::from(divisor));
    assert_eq!(trace.remainder as u128, scaled % u128::from(divisor));

    let before: Vec<u8> = (0..digits + draw.below(40) as usize).map(|_| draw.bits() as u8).collect();
    let place = draw.below((before.len() - digits + 1) as u64) as usize;
    let mut want = before.clone();
    want[place..place + digits].copy_from_slice(&trace.digits);
    let mut buffer = before;
    let got = calls::run(lent, dividend, divisor, digits, &mut buffer, place);
    let answer = Ran {
        refusal: 0,
        place: 0,
        quotient: trace.quotient as u64,
        remainder: trace.remainder as u64,
        digits: digits as u64,
    };
    assert_eq!(got, answer, "{dividend} / {divisor}, {digits} digits");
    assert_eq!(buffer, want, "{dividend} / {divisor}, {digits} digits at {place}");
}

/// A divisor and a dividend: random, or at the edges of a row and of the spans.
fn operands(draw: &mut Draw) -> (u64, u64) {
    let row = draw.below(16);
    let divisor = match draw.below(4) {
        0 => ((16 + row) << 56) + draw.below(3),
        1 => ((17 + row) << 56) - 1 - draw.below(3),
        _ => 1 << 60 | draw.bits() >> 4,
    };
    let dividend = match draw.below(6) {
        0 => draw.below(4),
        1 => (1 << 61) - 1 - draw.below(4),
        2 => divisor,
        3 => (divisor + draw.below(7)).saturating_sub(3).min((1 << 61) - 1),
        _ => draw.bits() >> 3,
    };
    (dividend, divisor)
}

#[test]
fn kept_table() {
    let mut draw = Draw::new(SEED);
    let made = rule().made();
    for turn in 0..300_000 {
        let (dividend, divisor) = operands(&mut draw);
        check(None, &made, dividend, divisor, 1 + turn % 28, &mut draw);
    }
}

#[test]
fn lent_passing_tables() {
    let mut draw = Draw::new(SEED + 1);
    let mut tables = vec![rule().made(), rule().farthest()];
    for _ in 0..48 {
        tables.push(rule().passing(&mut draw));
    }
    for table in &tables {
        for turn in 0..400 {
            let (dividend, divisor) = operands(&mut draw);
            check(Some(table), table, dividend, divisor, 1 + turn % 28, &mut draw);
        }
    }
}

#[test]
fn two_passing_tables_give_one_quotient_by_different_digits() {
    let mut draw = Draw::new(SEED + 2);
    let (made, farthest) = (rule().made(), rule().farthest());
    let mut different = 0;
    for _ in 0..2_000 {
        let (dividend, divisor) = operands(&mut draw);
        let (mut x, mut y) = ([0u8; 28], [0u8; 28]);
        let a = calls::run(Some(&made), dividend, divisor, 28, &mut x, 0);
        let b = calls::run(Some(&farthest), dividend, divisor, 28, &mut y, 0);
        assert_eq!(a, b, "{dividend} / {divisor}");
        different += u32::from(x != y);
    }
    assert!(different > 500, "the tables differ in {different} runs only");
}

#[test]
fn refusals() {
    let made = rule().made();
    let (low, high) = (1u64 << 60, (1u64 << 61) - 1);
    let mut seen = std::collections::BTreeMap::new();
    for (table, fault) in tables_and_none() {
        for digits in [0, 1, 28, 29, 30, 31, 32, usize::MAX] {
            for (dividend, divisor) in [
                (0, low),
                (high, high),
                (high, low),
                (high + 1, low),
                (u64::MAX, u64::MAX),
                (5, low - 1),
                (5, high + 1),
                (0, 0),
            ] {
                for (length, place) in [
                    (40usize, 0usize),
                    (40, 40usize.saturating_sub(digits)),
                    (40, 41usize.saturating_sub(digits)),
                    (40, 39),
                    (40, 40),
                    (40, 41),
                    (40, usize::MAX),
                    (0, 0),
                    (digits.min(64), 0),
                ] {
                    let fits = place <= length && length - place >= digits;
                    let conditions = [
                        (2, digits == 0 || digits > 28),
                        (3, !(low..=high).contains(&divisor) || dividend > high),
                        (7, !fits),
                    ];
                    let (refusal, at) = first(&conditions, fault);
                    *seen.entry(refusal).or_insert(0) += 1;
                    let mut space = vec![CANARY; length + 64];
                    let got =
                        calls::run(table.as_deref(), dividend, divisor, digits, &mut space[32..32 + length], place);
                    if refusal != 0 {
                        assert_eq!(got, Ran { refusal, place: at, ..Default::default() });
                        assert!(space.iter().all(|&b| b == CANARY), "a refused run touched its buffer");
                        continue;
                    }
                    let trace = run(table.as_ref().unwrap_or(&made), dividend, divisor, digits);
                    let (quotient, remainder) = (trace.quotient as u64, trace.remainder as u64);
                    assert_eq!(got, Ran { refusal: 0, place: 0, quotient, remainder, digits: digits as u64 });
                    let mut want = vec![CANARY; length + 64];
                    want[32 + place..32 + place + digits].copy_from_slice(&trace.digits);
                    assert_eq!(space, want);
                }
            }
        }
    }
    assert_eq!(seen.keys().copied().collect::<Vec<u64>>(), [0, 2, 3, 7, 8, 9, 10]);
}

/// Table and buffer at every pair of offsets, and through the kept table.
#[test]
fn tables_and_buffers_at_any_address() {
    const DIGITS: usize = 28;
    let (dividend, divisor) = (2023347993445111535, 1297036692411679568);
    let trace = |table: &[u8]| run(table, dividend, divisor, DIGITS);
    let made = trace(&rule().made());
    let wanted = |(refusal, place)| match refusal {
        0 => Ran { quotient: made.quotient as u64, remainder: made.remainder as u64, digits: 28, ..Default::default() },
        _ => Ran { refusal, place, ..Default::default() },
    };
    // the buffer at the offset, the digits at its place 3
    let buffer_at = |offset: usize, table: Option<&[u8]>, written: &[u8]| {
        let mut space = Space::new(offset, &[]);
        let got = calls::run(table, dividend, divisor, DIGITS, space.part(offset, DIGITS + 5), 3);
        assert!(space.holds(offset + 3, written), "buffer at offset {offset}");
        got
    };
    for offset in Space::OFFSETS {
        assert_eq!(buffer_at(offset, None, &made.digits), wanted((0, 0)));
        at_any_address(wanted, |table, (refusal, _)| {
            let written = if refusal == 0 { trace(table).digits } else { Vec::new() };
            buffer_at(offset, Some(table), &written)
        });
    }
}

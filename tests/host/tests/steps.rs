//! 100,000 runs of 28 fed-back steps against the run and the step made bit by bit; 1,200,000 steps at the range's edge.
//!
//! Would catch a step that is not the run's: another digit, other words, exchanged words, a lost carry; a remainder at the edge
//! of its range that is refused, or one beyond that is not; a refusal that is missing, out of order, with a wrong place or with
//! values. The draws are from the fixed seed below.
use host::calls::{self, Stepped};
use host::draw::Draw;
use host::lent::{self, at_any_address, first};
use host::specification::{rule, step, EIGHT};

const SEED: u64 = 0x5EED_0091;

/// Fifty tables that pass.
fn tables(draw: &mut Draw) -> Vec<Vec<u8>> {
    let drawn = (0..48).map(|_| rule().passing(draw));
    [rule().made(), rule().farthest()].into_iter().chain(drawn).collect()
}

/// The answer by the model: a digit of the table and the words bit by bit, or refusal 3 or 14. The table passes.
fn model(sum: u64, carry: u64, divisor: u64, table: &[u8]) -> Stepped {
    if !(1 << 60..1 << 61).contains(&divisor) {
        return Stepped { refusal: 3, ..Default::default() };
    }
    let p = i128::from(sum.wrapping_add(carry) as i64);
    if 3 * p < -8 * i128::from(divisor) || 3 * p > 8 * i128::from(divisor) {
        return Stepped { refusal: 14, ..Default::default() };
    }
    let row = (divisor >> 56) as usize - 16;
    let q = i128::from(table[128 * row + EIGHT.column_of(sum, carry)]) - 2;
    let (sum, carry) = step(sum, carry, q, divisor);
    Stepped { refusal: 0, place: 0, digit: q as i64, sum, carry }
}

/// A divisor: any, or at an edge of its row, and so of its span.
fn divisor(draw: &mut Draw) -> u64 {
    match draw.below(4) {
        0 => ((16 + draw.below(16)) << 56) + draw.below(2),
        1 => ((17 + draw.below(16)) << 56) - 1 - draw.below(2),
        _ => 1 << 60 | draw.bits() >> 4,
    }
}

#[test]
fn fed_back_they_give_the_runs_digits() {
    let mut draw = Draw::new(SEED);
    let mut met = [0u32; 5];
    for table in tables(&mut draw) {
        for _ in 0..2_000 {
            let divisor = divisor(&mut draw);
            let dividend = draw.bits() >> (3 + draw.below(2));
            let mut bytes = [9u8; 28];
            assert_eq!(calls::run(Some(&table), dividend, divisor, 28, &mut bytes, 0).refusal, 0);
            let mut at = Stepped { sum: dividend, ..Default::default() };
            for (i, byte) in bytes.into_iter().enumerate() {
                let want = model(at.sum, at.carry, divisor, &table);
                at = calls::step(at.sum, at.carry, divisor, &table);
                assert_eq!(at, want, "{dividend} / {divisor}, step {i}");
                assert_eq!((at.refusal, at.digit + 2), (0, i64::from(byte)), "{dividend} / {divisor}, step {i}");
                met[byte as usize] += 1;
            }
        }
    }
    assert!(met.iter().all(|&n| n > 100_000), "digits met {met:?}");
}

#[test]
fn remainders_at_the_ends_of_their_range() {
    let mut draw = Draw::new(SEED + 1);
    let made = rule().made();
    let mut seen = std::collections::BTreeMap::new();
    for _ in 0..100_000 {
        let divisor = divisor(&mut draw);
        let end = 8 * i128::from(divisor) / 3;
        for (p, refusal) in [(end, 0), (end + 1, 14), (-end, 0), (-end - 1, 14)] {
            // the two words: with nothing in the carry, with nothing in the sum, and any that wrap to the remainder
            let word = p as u64;
            let any = draw.bits();
            for (sum, carry) in [(word, 0), (0, word), (any, word.wrapping_sub(any))] {
                let got = calls::step(sum, carry, divisor, &made);
                assert_eq!(got.refusal, refusal, "P = {p}, D = {divisor}");
                assert_eq!(got, model(sum, carry, divisor, &made), "P = {p}, D = {divisor}");
                *seen.entry(sum.checked_add(carry).is_none()).or_insert(0) += 1;
            }
        }
    }
    assert!(seen[&true] > 100_000 && seen[&false] > 100_000, "words that wrap: {seen:?}");
}

#[test]
fn any_words_and_divisors() {
    let mut draw = Draw::new(SEED + 2);
    let tables = tables(&mut draw);
    let edges = [0, 1, 1 << 63, (1 << 63) - 1, (1 << 63) + 1, u64::MAX];
    let divisors = [0, 1, (1 << 60) - 1, 1 << 60, (1 << 61) - 1, 1 << 61, 1 << 63, u64::MAX];
    for &divisor in &divisors {
        for sum in edges {
            for carry in edges {
                let got = calls::step(sum, carry, divisor, &tables[0]);
                assert_eq!(got, model(sum, carry, divisor, &tables[0]), "{sum}, {carry}, {divisor}");
            }
        }
    }
    let mut seen = [0u32; 15];
    for turn in 0..500_000 {
        let table = &tables[turn % tables.len()];
        let (sum, carry) = (draw.bits(), draw.bits());
        let divisor = if turn % 16 == 0 { draw.bits() } else { divisor(&mut draw) };
        let got = calls::step(sum, carry, divisor, table);
        assert_eq!(got, model(sum, carry, divisor, table), "{sum}, {carry}, {divisor}");
        seen[got.refusal as usize] += 1;
    }
    assert!(seen[0] > 50_000 && seen[3] > 10_000 && seen[14] > 50_000, "{seen:?}");
}

#[test]
fn refusals() {
    let (low, high) = (1u64 << 60, (1u64 << 61) - 1);
    let mut seen = std::collections::BTreeMap::new();
    for (table, fault) in lent::tables() {
        for divisor in [0, low - 1, low, high, high + 1, u64::MAX] {
            let end = (8 * u128::from(divisor) / 3) as u64;
            for (sum, carry) in [(0, 0), (end, 0), (end, 1), (1, !end), (1 << 63, 0), (u64::MAX, 1 << 63)] {
                let p = i128::from(sum.wrapping_add(carry) as i64);
                let conditions = [
                    (3, !(low..=high).contains(&divisor)),
                    (14, 3 * p < -8 * i128::from(divisor) || 3 * p > 8 * i128::from(divisor)),
                ];
                let (refusal, place) = first(&conditions, fault);
                *seen.entry(refusal).or_insert(0) += 1;
                let got = calls::step(sum, carry, divisor, &table);
                match refusal {
                    0 => assert_eq!((got.refusal, got.place), (0, 0)),
                    _ => assert_eq!(got, Stepped { refusal, place, ..Default::default() }),
                }
            }
        }
    }
    assert_eq!(seen.keys().copied().collect::<Vec<u64>>(), [0, 3, 8, 9, 10, 14]);
}

/// 2^60 over 3 * 2^59: the digit is 1, and the words make 4 * (2^60 - 3 * 2^59).
#[test]
fn tables_at_any_address() {
    let wanted = |(refusal, place)| match refusal {
        0 => (0, 0, 1, 0u64.wrapping_sub(1 << 61)),
        _ => (refusal, place, 0, 0),
    };
    at_any_address(wanted, |table, _| {
        let got = calls::step(1 << 60, 0, 3 << 59, table);
        (got.refusal, got.place, got.digit, got.sum.wrapping_add(got.carry))
    });
}

//! 9 million divisions of whole numbers, of every pair of lengths, against the machine's, and multiplied back.
//!
//! Would catch a whole-number quotient or remainder that is off: a normalising shift lost, a digit too few, a wrong end
//! correction, an edge of the spans taken wrongly; a refusal that is missing, out of order, with a wrong place or with values.
//! The draws are from the fixed seed below.
use host::calls::{divide_whole, Whole};
use host::draw::Draw;
use host::lent::{at_any_address, first, tables_and_none};
use host::specification::rule;

const SEED: u64 = 0x5EED_0060;
const TOP: u64 = (1 << 60) - 1;

/// The machine's own division, and that the answer multiplies back without wrapping.
fn check(table: Option<&[u8]>, a: u64, b: u64) {
    let want = Whole { refusal: 0, place: 0, quotient: a / b, remainder: a % b };
    let got = divide_whole(table, a, b);
    assert_eq!(got, want, "{a} / {b}");
    assert_eq!(u128::from(got.quotient) * u128::from(b) + u128::from(got.remainder), u128::from(a), "{a} / {b}");
}

fn edges() -> Vec<u64> {
    let mut list: Vec<u64> = (1..40).collect();
    for k in 1..60 {
        for x in [(1u64 << k) - 1, 1 << k, (1 << k) + 1, 3 << k >> 1, (1 << k) + (1 << (k / 2))] {
            list.push(x.clamp(1, TOP));
        }
    }
    list.extend([TOP - 1, TOP, 4195835, 3145727]);
    list
}

#[test]
fn kept_table_at_the_edges() {
    let list = edges();
    for &b in &list {
        check(None, 0, b);
        for &a in &list {
            check(None, a, b);
        }
    }
}

#[test]
fn kept_table_on_drawn_numbers() {
    let mut draw = Draw::new(SEED);
    for _ in 0..3_000_000 {
        let (a, b) = (draw.whole(), draw.whole().max(1));
        check(None, a, b);
        // a multiple of b and its neighbours
        let near = a / b * b;
        check(None, near, b);
        check(None, near.saturating_sub(1), b);
    }
}

/// A number of so many bits.
fn of_length(draw: &mut Draw, bits: u32) -> u64 {
    1 << (bits - 1) | draw.below(1 << (bits - 1))
}

/// The number of digits comes from the two lengths alone: every pair of them, a quotient of any number of bits from 0 to 60.
#[test]
fn kept_table_for_every_pair_of_lengths() {
    let mut draw = Draw::new(SEED + 2);
    for i in 1..=60 {
        for j in 1..=60 {
            let (least, most) = (1 << (i - 1), TOP >> (60 - i));
            let (low, high) = (1 << (j - 1), TOP >> (60 - j));
            for (a, b) in [(least, low), (least, high), (most, low), (most, high)] {
                check(None, a, b);
            }
            for _ in 0..100 {
                check(None, of_length(&mut draw, i), of_length(&mut draw, j));
            }
        }
    }
}

#[test]
fn lent_tables() {
    let mut draw = Draw::new(SEED + 1);
    for _ in 0..40 {
        let table = rule().passing(&mut draw);
        for _ in 0..300 {
            check(Some(&table), draw.whole(), draw.whole().max(1));
        }
    }
}

/// 4 and 5, and then the table's.
#[test]
fn refusals() {
    let values = [0, 1, 2, 7, TOP, TOP + 1, TOP + 2, u64::MAX];
    for (table, fault) in tables_and_none() {
        for a in values {
            for b in values {
                let (refusal, place) = first(&[(4, a > TOP || b > TOP), (5, b == 0)], fault);
                let want = match refusal {
                    0 => Whole { refusal, place, quotient: a / b, remainder: a % b },
                    _ => Whole { refusal, place, ..Default::default() },
                };
                assert_eq!(divide_whole(table.as_deref(), a, b), want, "{a} / {b}");
            }
        }
    }
}

#[test]
fn tables_at_any_address() {
    let wanted = |(refusal, place)| match refusal {
        0 => Whole { refusal, place, quotient: 1, remainder: 1050108 },
        _ => Whole { refusal, place, ..Default::default() },
    };
    at_any_address(wanted, |table, _| divide_whole(Some(table), 4195835, 3145727));
}

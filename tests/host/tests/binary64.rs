//! 24 million kept quotients and 60,000 through lent tables, in four directions with flags, against the processor and an exact
//! division in 128 bits.
//!
//! Would catch a binary64 quotient or flag that differs from IEEE 754: a wrong rounding, a second rounding of a
//! subnormal result, a lost sticky bit, a wrong overflow value, a flag too many or too few, a wrong special case;
//! a refusal that is missing, out of order, with a wrong place or with values.
//! The draws are from the fixed seed below.
use host::calls::{divide_binary64, Binary64};
use host::compare::{drawn, on_all_cores, pair, Tally};
use host::dividers::exact;
use host::draw::{landmarks, Draw};
use host::lent::{at_any_address, first, tables_and_none};
use host::specification::rule;

const SEED: u64 = 0x5EED_0064;

fn nothing_differs(what: &str, tally: Tally) {
    println!("{what}, seed {SEED:x}: {tally:?}");
    assert_eq!(tally.differences, 0, "{what}");
}

#[test]
fn kept_table_on_twenty_four_million_divisions() {
    let tally = on_all_cores(600, |block| drawn(None, SEED + block, 10_000));
    nothing_differs("kept table, drawn operands", tally);
    assert!(tally.answers >= 20_000_000);
    // the draw reaches what it is meant to reach
    for (name, seen) in [
        ("inexact", tally.inexact),
        ("underflow", tally.underflow),
        ("overflow", tally.overflow),
        ("subnormal", tally.subnormal),
        ("ties", 4 * tally.ties),
    ] {
        assert!(seen > 500_000, "{name}: {seen}");
    }
    assert!(tally.nan > 10_000 && tally.by_zero > 1_000 && tally.invalid > 10, "{tally:?}");
}

#[test]
fn kept_table_on_all_pairs_of_landmarks() {
    let list = landmarks();
    let mut tally = Tally::default();
    for &a in &list {
        for &b in &list {
            pair(None, a, b, &mut tally);
        }
    }
    nothing_differs("kept table, landmarks", tally);
}

#[test]
fn lent_tables() {
    let mut draw = Draw::new(SEED);
    let mut tally = Tally::default();
    for turn in 0..60 {
        let table = match turn {
            0 => rule().made(),
            1 => rule().farthest(),
            _ => rule().passing(&mut draw),
        };
        tally = tally.plus(drawn(Some(&table), SEED + 1000 + turn, 250));
    }
    nothing_differs("lent passing tables", tally);
}

/// 6, and then the table's.
#[test]
fn refusals() {
    let (quiet, signalling) = (0x7FF8_0000_0000_0001u64, 0x7FF0_0000_0000_0001u64);
    let values = [0, 1, 1 << 63, 0x3FF0 << 48, 0x4008 << 48, 0x7FEF_FFFF_FFFF_FFFF, 0x7FF0 << 48, quiet, signalling];
    for (table, fault) in tables_and_none() {
        for direction in [0, 1, 2, 3, 4, 5, 1 << 32, u64::MAX] {
            for a in values {
                for b in values {
                    let (refusal, place) = first(&[(6, direction > 3)], fault);
                    let want = match refusal {
                        0 => {
                            let (pattern, flags) = exact(a, b, direction);
                            Binary64 { refusal, place, pattern, flags }
                        }
                        _ => Binary64 { refusal, place, ..Default::default() },
                    };
                    let got = divide_binary64(table.as_deref(), a, b, direction);
                    assert_eq!(got, want, "{a:016x} / {b:016x}, direction {direction}");
                }
            }
        }
    }
}

#[test]
fn tables_at_any_address() {
    let wanted = |(refusal, place)| match refusal {
        0 => Binary64 { refusal, place, pattern: 0x3FD5_5555_5555_5555, flags: 1 },
        _ => Binary64 { refusal, place, ..Default::default() },
    };
    at_any_address(wanted, |table, _| divide_binary64(Some(table), 0x3FF0 << 48, 0x4008 << 48, 0));
}

//! 12 million binary64 roots against the processor and an exact root in 128 bits; whole roots round squares.
//!
//! Would catch a root or a flag that differs from IEEE 754: a digit too few, a remainder that is not below, a lost sticky
//! bit, an odd exponent taken as even, a wrong rounding, a wrong sign or flag of a zero, of a number below zero, of an
//! infinity or of a not-a-number; and a whole root or remainder that is off by one. The draws are from the fixed seed below.
use host::calls::{root_binary64, root_whole, Binary64, Root};
use host::compare::{drawn_roots, on_all_cores, root, Tally};
use host::dividers::{whole_root, NAN};
use host::draw::{landmarks, Draw};

const SEED: u64 = 0x5EED_0082;
const TOP: u64 = (1 << 60) - 1;

fn nothing_differs(what: &str, tally: Tally) {
    println!("{what}, seed {SEED:x}: {tally:?}");
    assert_eq!(tally.differences, 0, "{what}");
    // no root overflows, underflows, is subnormal or a quotient by zero
    assert_eq!((tally.overflow, tally.underflow, tally.subnormal, tally.by_zero), (0, 0, 0, 0), "{what}");
}

#[test]
fn twelve_million_roots() {
    let tally = on_all_cores(300, |block| drawn_roots(SEED + block, 10_000));
    nothing_differs("roots, drawn operands", tally);
    assert!(tally.answers >= 10_000_000);
    // the draw reaches what it is meant to reach
    let exact = tally.answers - tally.inexact - tally.nan;
    assert!(tally.inexact > 5_000_000 && exact > 200_000 && tally.invalid > 1_000_000, "{tally:?}");
}

#[test]
fn landmarks_and_powers_of_two() {
    let mut tally = Tally::default();
    for a in landmarks() {
        root(a, &mut tally);
    }
    // every power of two, its neighbours, and its negative
    for k in 0..2098 {
        let a = if k < 52 { 1u64 << k } else { (k - 51) << 52 };
        for x in [a - 1, a, a + 1, a | 1 << 63] {
            root(x, &mut tally);
        }
    }
    nothing_differs("roots, landmarks and powers of two", tally);
}

#[test]
fn not_a_number_and_below_zero() {
    let answer = |pattern, flags| Binary64 { refusal: 0, place: 0, pattern, flags };
    for direction in 0..4 {
        for sign in [0, 1u64 << 63] {
            for payload in [1, 2, (1 << 51) - 1] {
                let signalling = sign | 0x7FF << 52 | payload;
                assert_eq!(root_binary64(signalling, direction), answer(NAN, 16));
                assert_eq!(root_binary64(signalling | 1 << 51, direction), answer(NAN, 0));
            }
            assert_eq!(root_binary64(sign, direction), answer(sign, 0));
        }
        assert_eq!(root_binary64(0x7FF << 52, direction), answer(0x7FF << 52, 0));
        for below in [0xFFF << 52, 1 << 63 | 1, 0xBFF << 52, 0xFFEF_FFFF_FFFF_FFFF] {
            assert_eq!(root_binary64(below, direction), answer(NAN, 16));
        }
    }
}

/// s and what is left, by the definition and by another root.
fn check(a: u64) {
    let got = root_whole(a);
    let (s, n) = (u128::from(got.root), u128::from(a));
    assert!(s * s <= n && n < (s + 1) * (s + 1), "{a}: {got:?}");
    let root = whole_root(n) as u64;
    assert_eq!(got, Root { refusal: 0, place: 0, root, remainder: a - root * root }, "{a}");
}

/// The first and the last number with the root s, and the one before them.
fn around(s: u64) {
    for a in [(s * s).saturating_sub(1), s * s, s * s + 2 * s] {
        check(a.min(TOP));
    }
}

#[test]
fn whole_roots() {
    (0..100_000).for_each(check);
    (0..100_000).for_each(around);
    ((1 << 30) - 100_000..1 << 30).for_each(around);
    (TOP - 100_000..=TOP).for_each(check);
    let mut draw = Draw::new(SEED);
    for _ in 0..1_000_000 {
        check(draw.whole());
        let s = draw.whole() >> 30;
        around(s);
    }
    for k in 0..30 {
        for s in [1u64 << k, (1 << k) - 1, (1 << k) + 1] {
            around(s);
        }
    }
}

#[test]
fn refusals() {
    for a in [0, 1, (1 << 60) - 1, 1 << 60, (1 << 60) + 1, u64::MAX] {
        let got = root_whole(a);
        match a >> 60 {
            0 => assert_eq!((got.refusal, got.place), (0, 0), "{a}"),
            _ => assert_eq!(got, Root { refusal: 4, ..Default::default() }, "{a}"),
        }
        // of a binary64 root only the direction is refused, whatever the operand
        for direction in [0, 1, 2, 3, 4, 5, 1 << 32, u64::MAX] {
            let got = root_binary64(a, direction);
            match direction {
                0..=3 => assert_eq!((got.refusal, got.place), (0, 0), "{a} {direction}"),
                _ => assert_eq!(got, Binary64 { refusal: 6, ..Default::default() }, "{a} {direction}"),
            }
        }
    }
}

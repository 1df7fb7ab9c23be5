//! Ten million comparisons, with neighbours and equal ratios, against products in 128 bits; the order of quotients and of
//! roots.
//!
//! Would catch a comparison of two ratios that is not that of the products, above all of neighbours and of equal ratios in other
//! terms; one that forgets to exchange the two as the remainders become divisors, or that ends too early; and a refusal that is
//! missing, raised without its condition, out of order or with a number beside it. Would catch a binary64 quotient that is smaller
//! than that of a smaller dividend, and a root that is smaller than that of a smaller number. The draws are from the fixed seeds
//! below.
use host::calls::{compare_ratios, divide_binary64, divide_samples, root_binary64, Comparison};
use host::dividers::SIGN;
use host::draw::{landmarks, Draw};
use host::specification::rule;
use std::cmp::Ordering;

const SEED: u64 = 0x5EED_1400;
const LARGEST: u64 = (1 << 60) - 1;

/// As a * d compares with c * b, in 128 bits.
fn check(a: u64, b: u64, c: u64, d: u64) {
    let order = (u128::from(a) * u128::from(d)).cmp(&(u128::from(c) * u128::from(b))) as i64;
    assert_eq!(compare_ratios(a, b, c, d), Comparison { refusal: 0, place: 0, order }, "{a}/{b} and {c}/{d}");
}

/// In both orders.
fn check_both(a: u64, b: u64, c: u64, d: u64) {
    check(a, b, c, d);
    check(c, d, a, b);
}

/// A number below 2^60, and not 0.
fn some(draw: &mut Draw) -> u64 {
    draw.whole().max(1)
}

#[test]
fn small_ratios() {
    for a in 0..24 {
        for b in 1..24 {
            for c in 0..24 {
                for d in 1..24 {
                    check(a, b, c, d);
                }
            }
        }
    }
}

/// Ten million quadruples in two tests, so that two cores share them: of any lengths, and of full length.
#[test]
fn drawn_ratios() {
    let mut draw = Draw::new(SEED);
    for _ in 0..5_000_000 {
        let (a, c) = (draw.whole(), draw.whole());
        check(a, some(&mut draw), c, some(&mut draw));
    }
}

#[test]
fn drawn_long_ratios() {
    let mut draw = Draw::new(SEED + 1);
    for _ in 0..5_000_000 {
        let mut long = || (draw.bits() >> 4).max(1);
        check(long(), long(), long(), long());
    }
}

/// Ratios one step beside each other.
#[test]
fn neighbours() {
    let mut draw = Draw::new(SEED + 2);
    for _ in 0..100_000 {
        let (a, b) = (draw.whole().min(LARGEST - 1), some(&mut draw).min(LARGEST - 1));
        check_both(a, b, a + 1, b);
        check_both(a, b, a, b + 1);
        check_both(a, b, a + 1, b + 1);
        let (a, b) = (LARGEST - 1 - draw.below(1000), LARGEST - draw.below(1000));
        check_both(a, b, a + 1, b);
        check_both(a, b, a - draw.below(1000), b - draw.below(1000));
    }
}

/// Equal ratios in other terms, and those one step beside them.
#[test]
fn multiples() {
    let mut draw = Draw::new(SEED + 3);
    for _ in 0..200_000 {
        let (a, b) = (draw.whole() >> 30, (draw.whole() >> 30).max(1));
        let (i, k) = (1 + draw.below(1 << 29), 1 + draw.below(1 << 29));
        check_both(a * i, b * i, a * k, b * k);
        check_both(a * i + 1, b * i, a * k, b * k);
        check_both(a * i, b * i, a * k, b * k + 1);
    }
}

#[test]
fn zeros() {
    let mut draw = Draw::new(SEED + 4);
    for _ in 0..200_000 {
        let (b, c, d) = (some(&mut draw), draw.whole(), some(&mut draw));
        check_both(0, b, 0, d);
        check_both(0, b, c, d);
        check_both(0, b, 1, LARGEST);
    }
}

/// Fibonacci's numbers, whose ratios take the most rounds of divisions: neighbours among them, each with itself, and all near the
/// last below 2^60.
#[test]
fn fibonacci() {
    let mut list = vec![1u64, 1];
    while let &[.., x, y] = &list[..] {
        if x + y > LARGEST {
            break;
        }
        list.push(x + y);
    }
    assert_eq!(list.len(), 88);
    for w in list.windows(3) {
        check_both(w[0], w[1], w[1], w[2]);
        check_both(w[1], w[0], w[2], w[1]);
        check_both(w[1], w[2], w[1], w[2]);
        check_both(w[2], w[1], w[2], w[1]);
        check_both(w[1], w[2], w[1] - 1, w[2] - 1);
    }
    for &a in &list[80..] {
        for &b in &list[80..] {
            for &c in &list[80..] {
                for &d in &list[80..] {
                    check(a, b, c, d);
                }
            }
        }
    }
}

#[test]
fn refusals() {
    let numbers = [0, 1, 7, LARGEST, LARGEST + 1, u64::MAX];
    for a in numbers {
        for b in numbers {
            for c in numbers {
                for d in numbers {
                    let refusal = if a.max(b).max(c).max(d) > LARGEST {
                        4
                    } else if b == 0 || d == 0 {
                        5
                    } else {
                        check(a, b, c, d);
                        continue;
                    };
                    assert_eq!(
                        compare_ratios(a, b, c, d),
                        Comparison { refusal, place: 0, order: 0 },
                        "{a}/{b} and {c}/{d}"
                    );
                }
            }
        }
    }
}

/// A list sorted by the call is in the order of the products, whichever order it came in.
#[test]
fn sorted_readings() {
    let mut draw = Draw::new(SEED + 5);
    let mut list: Vec<(u64, u64)> = (0..20_000)
        .map(|i| match i % 3 {
            0 => (draw.whole(), some(&mut draw)),
            1 => (LARGEST - draw.below(100), LARGEST - draw.below(100)),
            _ => (draw.below(50), 1 + draw.below(50)),
        })
        .collect();
    list.sort_by(|x, y| match compare_ratios(x.0, x.1, y.0, y.1).order {
        -1 => Ordering::Less,
        0 => Ordering::Equal,
        1 => Ordering::Greater,
        order => panic!("an order {order}"),
    });
    for w in list.windows(2) {
        let (x, y) = (w[0], w[1]);
        assert!(u128::from(x.0) * u128::from(y.1) <= u128::from(y.0) * u128::from(x.1), "{x:?} before {y:?}");
    }
}

/// Two finite numbers, the first not above the second: often neighbours, zeros of either sign among them.
fn two_numbers(draw: &mut Draw, turn: u64) -> Option<(f64, f64)> {
    let a = draw.operands(turn).0;
    let b = match draw.below(4) {
        0 => a.wrapping_add(1 + draw.below(4)),
        1 => a ^ SIGN,
        2 => draw.operands(turn).0,
        _ => draw.bits() & SIGN,
    };
    let (x, y) = (f64::from_bits(a), f64::from_bits(b));
    (x.is_finite() && y.is_finite()).then(|| if x <= y { (x, y) } else { (y, x) })
}

/// Over one divisor above zero the greater dividend never has the smaller quotient, in any direction: `<=` is the processor's.
fn bigger(table: Option<&[u8]>, pairs: u64, seed: u64) {
    let mut draw = Draw::new(seed);
    let mut compared = 0;
    for turn in 0..pairs {
        let divisor = draw.operands(turn).1 & !SIGN;
        let above = f64::from_bits(divisor);
        let Some((small, great)) = two_numbers(&mut draw, turn) else { continue };
        if !(above.is_finite() && above > 0.0) {
            continue;
        }
        compared += 1;
        for direction in 0..4 {
            let quotient = |a: f64| f64::from_bits(divide_binary64(table, a.to_bits(), divisor, direction).pattern);
            assert!(
                quotient(small) <= quotient(great),
                "{small:e} and {great:e} over {above:e}, direction {direction}"
            );
            if small == great {
                assert_eq!(
                    quotient(small),
                    quotient(great),
                    "{small:e} and {great:e} over {above:e}, direction {direction}"
                );
            }
        }
    }
    assert!(compared > pairs / 2, "{compared} of {pairs} pairs");
}

#[test]
fn bigger_stays_bigger() {
    bigger(None, 600_000, SEED + 6);
}

#[test]
fn bigger_stays_bigger_through_lent_tables() {
    let mut draw = Draw::new(SEED + 7);
    for seed in 0..10 {
        bigger(Some(&rule().passing(&mut draw)), 1_000, SEED + 8 + seed);
    }
}

/// A run of samples over one sensitivity keeps the order of its currents.
#[test]
fn sorted_samples() {
    let table = rule().passing(&mut Draw::new(SEED + 20));
    let mut draw = Draw::new(SEED + 21);
    let mut currents: Vec<f64> =
        (0..30_000).map(|turn| f64::from_bits(draw.operands(turn).0)).filter(|x| x.is_finite()).collect();
    currents.extend(landmarks().into_iter().map(f64::from_bits).filter(|x| x.is_finite()));
    currents.sort_by(f64::total_cmp);
    let currents: Vec<u64> = currents.into_iter().map(f64::to_bits).collect();
    for sensitivity in [f64::from_bits(1), 1e-300, 0.3, 1.0, 700.0, f64::MAX] {
        for direction in 0..4 {
            let mut concentrations = vec![0; currents.len()];
            let run = divide_samples(
                &table,
                &currents,
                &vec![sensitivity.to_bits(); currents.len()],
                &mut concentrations,
                direction,
            );
            assert_eq!((run.refusal, run.count), (0, currents.len() as u64));
            for w in concentrations.windows(2) {
                assert!(
                    f64::from_bits(w[0]) <= f64::from_bits(w[1]),
                    "{:#x} before {:#x} over {sensitivity:e}, direction {direction}",
                    w[0],
                    w[1]
                );
            }
        }
    }
}

/// The root of a greater number is never the smaller, in any direction, infinity among them.
#[test]
fn roots_stay_in_order() {
    let mut draw = Draw::new(SEED + 22);
    let mut compared = 0;
    for turn in 0..600_000 {
        let a = draw.root_operand(turn) & !SIGN;
        let b = match draw.below(3) {
            0 => a + 1 + draw.below(4),
            1 => draw.root_operand(turn) & !SIGN,
            _ => f64::INFINITY.to_bits(),
        };
        let (x, y) = (f64::from_bits(a), f64::from_bits(b));
        if x.is_nan() || y.is_nan() {
            continue;
        }
        compared += 1;
        let (small, great) = if x <= y { (x, y) } else { (y, x) };
        for direction in 0..4 {
            let root = |x: f64| f64::from_bits(root_binary64(x.to_bits(), direction).pattern);
            assert!(root(small) <= root(great), "{small:e} and {great:e}, direction {direction}");
            assert!(root(-0.0) <= root(small), "minus zero and {small:e}, direction {direction}");
        }
    }
    assert!(compared > 500_000, "{compared}");
}

//! Up to 1,000 samples against the single call, the processor and the exact divider; joined flags.
//!
//! Would catch a concentration that is not the single division's, or not the other dividers'; flags that are added and
//! not joined, or joined over too many or too few samples; a wrong count; a word behind the last concentration that is
//! written; a refusal that is missing, out of order, with a wrong place or with values, or that writes.
use host::calls::{self, Samples};
use host::dividers::{exact, processor};
use host::draw::{landmarks, Draw};
use host::lent::{at_any_address, first, tables};
use host::specification::rule;

const CANARY: u64 = 0xA5A5_5A5A_C3C3_3C3C;

/// Each of the flags 1, 2, 4, 8 and 16 that at least one sample raised, added up.
fn joined(flags: &[u64]) -> u64 {
    [1, 2, 4, 8, 16].iter().filter(|&&flag| flags.iter().any(|x| x / flag % 2 == 1)).sum()
}

/// One run in one direction, every word of the third list compared.
fn compare(table: &[u8], currents: &[u64], sensitivities: &[u64], rest: usize, direction: u64) -> u64 {
    let n = currents.len();
    let mut out = vec![CANARY; n + rest];
    let got = calls::divide_samples(table, currents, sensitivities, &mut out, direction);
    let mut flags = Vec::new();
    for j in 0..n {
        let (a, b) = (currents[j], sensitivities[j]);
        let single = calls::divide_binary64(Some(table), a, b, direction);
        let want = exact(a, b, direction);
        assert_eq!(want, processor(a, b, direction), "{a:016x} / {b:016x}, direction {direction}");
        assert_eq!((single.refusal, out[j]), (0, single.pattern), "{a:016x} / {b:016x}, direction {direction}");
        assert_eq!((out[j], single.flags), want, "{a:016x} / {b:016x}, direction {direction}");
        flags.push(want.1);
    }
    assert_eq!(got, Samples { refusal: 0, place: 0, flags: joined(&flags), count: n as u64 });
    assert!(out[n..].iter().all(|&word| word == CANARY), "{n} samples, {rest} words behind them");
    got.flags
}

#[test]
fn drawn_runs() {
    let tables = [rule().made(), rule().farthest()];
    let mut draw = Draw::new(12);
    let mut seen = std::collections::BTreeSet::new();
    for (turn, n) in (0..40).chain([100, 255, 256, 999, 1000]).enumerate() {
        for direction in 0..4 {
            let (currents, sensitivities): (Vec<u64>, Vec<u64>) =
                (0..n).map(|j| draw.operands(j + turn as u64)).unzip();
            let rest = draw.below(5) as usize;
            seen.insert(compare(&tables[turn % 2], &currents, &sensitivities, rest, direction));
        }
    }
    assert!(seen.contains(&0) && seen.contains(&31) && seen.len() > 8, "joined flags seen: {seen:?}");
}

/// Runs of every length from 0 to 40. Samples are divided four at a time: every pair of classes stands at every place of
/// four, and in the rest of a run, which has one to three.
#[test]
fn every_class_at_every_place_of_four() {
    let made = rule().made();
    // zero, the least and the greatest subnormal, a normal number, infinity, a quiet and a signalling not-a-number
    let positive = [0, 1, 0x000F_FFFF_FFFF_FFFF, 0x4008u64 << 48, 0x7FF0 << 48, 0x7FF8 << 48, 0x7FF0_0000_0000_0001];
    let patterns: Vec<u64> = positive.iter().flat_map(|&p| [p, p | 1 << 63]).collect();
    let pairs: Vec<(u64, u64)> = patterns.iter().flat_map(|&a| patterns.iter().map(move |&b| (a, b))).collect();
    for direction in 0..4 {
        for n in 0..=40 {
            for first in 0..pairs.len() {
                // 45 has no divisor in common with the 196 pairs: the pair at each place is another one in each run
                let run = (0..n).map(|j| pairs[(first + 45 * j) % pairs.len()]);
                let (currents, sensitivities): (Vec<u64>, Vec<u64>) = run.unzip();
                compare(&made, &currents, &sensitivities, first % 2, direction);
            }
        }
    }
}

/// Patterns of every class over each other, and runs in which one sample alone raises a flag, or two raise the same.
#[test]
fn classes_and_flags() {
    let made = rule().made();
    let marks = landmarks();
    let (one, three) = (0x3FF0u64 << 48, 0x4008u64 << 48);
    for direction in 0..4 {
        for &mark in &marks {
            compare(&made, &marks, &vec![mark; marks.len()], 1, direction);
        }
        // inexact; inexact and underflow; inexact and overflow; by zero; invalid; a signalling not-a-number; a quiet one
        let (signalling, quiet) = (0x7FF0_0000_0000_0001, 0x7FF8 << 48);
        let raising = [(one, three), (1, three), (0x7FEF << 48, 1), (one, 0), (0, 0), (one, signalling), (quiet, one)];
        for (k, &(a, b)) in raising.iter().enumerate() {
            for at in 0..7 {
                let mut currents = vec![one; 7];
                let mut sensitivities = vec![one; 7];
                (currents[at], sensitivities[at]) = (a, b);
                let flags = compare(&made, &currents, &sensitivities, 2, direction);
                assert_eq!(flags, [1, 3, 5, 8, 16, 16, 0][k], "sample {at}");
                (currents[(at + 3) % 7], sensitivities[(at + 3) % 7]) = (a, b);
                assert_eq!(compare(&made, &currents, &sensitivities, 0, direction), flags, "the same flag twice");
            }
        }
        assert_eq!(compare(&made, &[], &[], 3, direction), 0);
    }
}

/// 6, 11, 7, and then the table's, also of an empty run; the three lists lie in one space, of which no word changes.
#[test]
fn refusals() {
    let mut seen = std::collections::BTreeMap::new();
    for (table, fault) in tables() {
        for direction in [0, 1, 2, 3, 4, 1 << 32, u64::MAX] {
            for currents in 0..4usize {
                for sensitivities in 0..4usize {
                    for room in 0..5usize {
                        let conditions = [(6, direction > 3), (11, currents != sensitivities), (7, room < currents)];
                        let (refusal, place) = first(&conditions, fault);
                        *seen.entry(refusal).or_insert(0) += 1;
                        let (a, b) = (vec![0x4008u64 << 48; currents], vec![0x4000u64 << 48; sensitivities]);
                        let mut space = [CANARY; 12];
                        let got = calls::divide_samples(&table, &a, &b, &mut space[4..4 + room], direction);
                        let mut want = [CANARY; 12];
                        if refusal == 0 {
                            want[4..4 + currents].fill(0x3FF8 << 48);
                            assert_eq!(got, Samples { count: currents as u64, ..Default::default() });
                        } else {
                            assert_eq!(got, Samples { refusal, place, ..Default::default() });
                        }
                        assert_eq!(space, want, "refusal {refusal}, {currents} {sensitivities} {room}");
                    }
                }
            }
        }
    }
    assert_eq!(seen.keys().copied().collect::<Vec<u64>>(), [0, 6, 7, 8, 9, 10, 11]);
}

#[test]
fn tables_at_any_address() {
    let wanted = |(refusal, place)| match refusal {
        0 => Samples { refusal, place, flags: 1, count: 2 },
        _ => Samples { refusal, place, ..Default::default() },
    };
    at_any_address(wanted, |table, (refusal, _)| {
        let mut list = [CANARY; 4];
        let got = calls::divide_samples(table, &[0x3FF0 << 48; 2], &[0x4008 << 48; 2], &mut list[..3], 0);
        let first = if refusal == 0 { 0x3FD5_5555_5555_5555 } else { CANARY };
        assert_eq!(list, [first, first, CANARY, CANARY]);
        got
    });
}

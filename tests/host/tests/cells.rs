//! Every byte in every cell by both estimates, the made tables and limits, against a rule that is first held against lists of
//! all points.
//!
//! Would catch a cell judged wrongly, a witness that is no point, breaks nothing or is not the least, and a made digit
//! or limit that is not the one nearest zero. The other check is first held against a list of all points, and the points
//! against all pairs of words. The draws are from the fixed seed below.
use host::calls::{
    check_cell, check_cell_for, make_table, make_table_for, row_limits, row_limits_for, Cell, Limits, Made,
};
use host::check_by_search::{self, Check};
use host::draw::Draw;
use host::lent::{first, Space, CANARY};
use host::specification::{breaks, rule, seven, Rule, Unit, CELLS, EIGHT, SEVEN};

const SEED: u64 = 0x5EED_0128;
const DIGITS: [i128; 5] = [-2, -1, 0, 1, 2];

/// Both estimates: the bits, the scale, the rule, and the check as it was before the rows' multiples.
fn estimates() -> [(u64, Unit, &'static Rule, Check); 2] {
    [(7, SEVEN, seven(), check_by_search::SEVEN), (8, EIGHT, rule(), check_by_search::EIGHT)]
}

fn cells() -> impl Iterator<Item = (i128, i128, i128)> {
    (0..CELLS as i128).flat_map(|k| DIGITS.map(|q| (k / 128, k % 128, q)))
}

/// Both estimates at small scales.
fn small(powers: &[u32]) -> impl Iterator<Item = Unit> + '_ {
    powers.iter().flat_map(|&power| [Unit::seven(power), Unit::eight(power)])
}

/// Every e of a column occurs, and no other: the remainders of all pairs of words, by the column of each pair.
#[test]
fn the_remainders_of_a_column_are_those_of_all_pairs_of_words_at_small_scales() {
    for unit in small(&[4, 5, 6, 7]) {
        let size = 1u64 << (unit.power + 4);
        let mut seen = vec![false; 128 * size as usize];
        let at = |column: usize, p: i128| column * size as usize + p.rem_euclid(size.into()) as usize;
        for sum in 0..size {
            for carry in 0..size {
                seen[at(unit.column_of(sum, carry), (sum + carry).into())] = true;
            }
        }
        for column in 0..128 {
            let (start, span) = unit.column(column as i128);
            (0..=span).for_each(|e| assert!(seen[at(column, start + e)], "{unit:?}, column {column}: no e = {e}"));
            let there = seen[at(column, 0)..][..size as usize].iter().filter(|&&there| there).count();
            assert_eq!(there as i128, span + 1, "{unit:?}, column {column}: another e");
        }
    }
}

/// At full scale: drawn words, and words whose lower bits are all zeros or all ones, so that e is least or greatest.
#[test]
fn the_remainder_of_two_words_is_in_their_column() {
    let mut draw = Draw::new(SEED + 1);
    for unit in [SEVEN, EIGHT] {
        let below = (1u64 << (64 - unit.bits)) - 1;
        let mut met = [false; 2];
        for turn in 0..1_000_000 {
            let [sum, carry] = [0; 2].map(|_| match turn % 3 {
                0 => draw.bits() & !below,
                1 => draw.bits() | below,
                _ => draw.bits(),
            });
            let (start, span) = unit.column(unit.column_of(sum, carry) as i128);
            let e = (i128::from(sum) + i128::from(carry) - start).rem_euclid(1 << 64);
            assert!(e <= span, "{unit:?}: {sum:x} {carry:x}");
            met = [met[0] || e == 0, met[1] || e == span];
        }
        assert_eq!(met, [true, true]);
    }
    assert_eq!((SEVEN.column(64), EIGHT.column(64)), ((0, (1 << 58) - 2), (0, 3 * (1 << 56) - 2)));
}

#[test]
fn the_other_check_agrees_with_a_list_of_all_points_at_small_scales() {
    for unit in small(&[4, 5, 6, 7, 8]) {
        let mut witnesses = 0;
        for (row, column, q) in cells() {
            let listed = unit.listed(row, column, q);
            assert_eq!(unit.witness(row, column, q), listed, "{unit:?}, cell {row}/{column}, digit {q}");
            witnesses += u32::from(listed.is_some());
        }
        assert!(witnesses > 3_000);
    }
}

#[test]
fn cells_without_a_point() {
    for unit in small(&[4, 5, 6, 7, 8]) {
        for k in 0..CELLS as i128 {
            let listed = unit.points(k / 128, k % 128).next().is_some();
            assert_eq!(unit.has_point(k / 128, k % 128), listed, "{unit:?}, cell {k}");
        }
    }
    // at full scale they are the cells that allow all five digits, and no other cell allows both -2 and 2
    for ((_, unit, rule, _), count) in estimates().into_iter().zip([976, 981]) {
        let without: Vec<usize> = (0..CELLS).filter(|k| !unit.has_point(*k as i128 / 128, *k as i128 % 128)).collect();
        let five: Vec<usize> = (0..CELLS).filter(|&k| rule.allowed(k).len() == 5).collect();
        let both: Vec<usize> =
            (0..CELLS).filter(|&k| rule.allowed(k).contains(&0) && rule.allowed(k).contains(&4)).collect();
        assert_eq!(without.len(), count);
        assert_eq!((&five, &both), (&without, &without));
    }
}

#[test]
fn the_other_check_agrees_with_each_divisor_near_the_corners_at_full_scale() {
    let mut draw = Draw::new(SEED);
    for (unit, (row, column, q)) in [SEVEN, EIGHT].into_iter().flat_map(|unit| cells().map(move |cell| (unit, cell))) {
        let (first, last) = unit.divisors(row);
        let mut divisors = vec![first, first + 1, first + 2, last - 2, last - 1, last];
        for _ in 0..6 {
            divisors.push(first + i128::from(draw.bits() >> 8));
        }
        if let Some((d, _)) = unit.witness(row, column, q) {
            divisors.extend((d - 2..=d + 2).filter(|d| (first..=last).contains(d)));
        }
        for d in divisors {
            let broken = unit.broken_at(column, q, d);
            assert_eq!(broken.is_some(), unit.is_broken_divisor(row, column, q, d), "{row}/{column} {q} {d}");
            if let Some(p) = broken {
                assert!(unit.is_point(row, column, (d, p)) && breaks(q, (d, p)));
                assert!(!unit.is_point(row, column, (d, p - 1)) || !breaks(q, (d, p - 1)));
            }
        }
    }
}

#[test]
fn every_byte_of_every_cell() {
    for (bits, unit, rule, check) in estimates() {
        let mut disallowed = 0;
        for (row, column, q) in cells() {
            let (r, c, byte) = (row as u64, column as u64, (q + 2) as u8);
            let what = format!("{bits} bits, cell {row}/{column}, digit {q}");
            let got = check_cell_for(bits, r, c, byte);
            assert_eq!(got, rule.check_cell((128 * row + column) as usize, byte), "{what}");
            assert_eq!(got, check.check_cell(r, c, byte), "{what}: by search");
            assert_eq!(got.allowed == 1, check.allows(r, c, byte), "{what}: by search");
            if got.allowed == 0 {
                disallowed += 1;
                let (d, p) = (i128::from(got.divisor), i128::from(got.remainder));
                let (first, _) = unit.divisors(row);
                assert!(unit.is_point(row, column, (d, p)), "{what}: no point");
                assert!(breaks(q, (d, p)), "{what}: breaks nothing");
                assert_eq!(unit.broken_at(column, q, d), Some(p), "{what}: a smaller remainder");
                for smaller in [d - 1, d - 2, first, (first + d) / 2] {
                    if (first..d).contains(&smaller) {
                        assert_eq!(unit.broken_at(column, q, smaller), None, "{what}: a smaller divisor");
                    }
                }
            }
        }
        assert_eq!(disallowed, if bits == 7 { 4_176 } else { 4_130 });
        // a byte above 4 is no digit
        for k in 0..CELLS as u64 {
            for byte in 5..=255 {
                let want = Cell { refusal: 9, place: k, ..Default::default() };
                assert_eq!(check_cell_for(bits, k / 128, k % 128, byte), want);
            }
        }
    }
    // the call without bits is that of eight
    for k in 0..CELLS as u64 {
        for byte in 0..=255 {
            let (row, column) = (k / 128, k % 128);
            assert_eq!(check_cell(row, column, byte), check_cell_for(8, row, column, byte), "cell {k}, byte {byte}");
        }
    }
}

#[test]
fn worked_examples() {
    let allowed = |row: u64, column: u64| -> Vec<i64> {
        (0..5).filter(|&b| check_cell(row, column, b).allowed == 1).map(|b| i64::from(b) - 2).collect()
    };
    assert_eq!(allowed(0, 75), [1]);
    assert_eq!(allowed(0, 76), [2]);
    assert_eq!(allowed(1, 76), [1, 2]);
    assert_eq!(allowed(0, 67), [0, 1]);
    assert_eq!(allowed(0, 50), [-2]);
    assert_eq!(allowed(0, 51), [-2, -1]);
    assert_eq!(allowed(1, 87), [2]);
    assert_eq!(allowed(1, 88), [-2, -1, 0, 1, 2]);
    let w = check_cell(0, 75, 4);
    assert_eq!((w.divisor, w.remainder), (33 * (1 << 55) + 1, 11 * (1 << 57)));
    assert_eq!(row_limits(0), Limits { refusal: 0, place: 0, limits: [40, 51, 59, 68, 76, 87] });
    // case 5 by seven bits
    let allowed: Vec<u8> = (0..5).filter(|&b| check_cell_for(7, 0, 51, b).allowed == 1).collect();
    assert_eq!(allowed, [1]);
}

/// A call that makes a table, on buffers that just fit and that are longer.
fn makes(call: impl Fn(&mut [u8]) -> Made, made: &[u8]) {
    for extra in [0usize, 1, 77] {
        let tail: Vec<u8> = (0..extra).map(|i| 0xA0 ^ i as u8).collect();
        let mut buffer = vec![0xEE; CELLS];
        buffer.extend(&tail);
        assert_eq!(call(&mut buffer), Made::default());
        assert_eq!(buffer[..CELLS], made[..]);
        assert_eq!(buffer[CELLS..], tail[..]);
    }
}

#[test]
fn made_table_and_limits() {
    for (bits, _, rule, _) in estimates() {
        let made = rule.made();
        makes(|buffer| make_table_for(bits, buffer), &made);
        for row in 0..16usize {
            let limits = rule.limits(row);
            let begins: Vec<u8> = limits.iter().map(|&c| made[128 * row + c as usize]).collect();
            assert_eq!(begins, [0, 1, 2, 3, 4, 2]);
            let want = Limits { refusal: 0, place: 0, limits: limits.try_into().expect("six columns") };
            assert_eq!(row_limits_for(bits, row as u64), want, "{bits} bits, row {row}");
        }
    }
    makes(make_table, &rule().made());
    (0..16).for_each(|row| assert_eq!(row_limits(row), row_limits_for(8, row)));
}

/// The limits in tables/limits.txt: of a row six by eight bits, then six by seven.
#[test]
fn the_limits_in_the_file() {
    let page = include_str!("../../../tables/limits.txt");
    let mut rows = 0;
    for line in page.lines() {
        let numbers: Vec<u8> = line.split(['|', ' ']).filter_map(|word| word.parse().ok()).collect();
        let [row, eight @ .., _, _, _, _, _, _] = &numbers[..] else { continue };
        if numbers.len() == 13 {
            assert_eq!(u64::from(*row), rows);
            assert_eq!(row_limits_for(8, rows).limits, eight, "row {row}");
            assert_eq!(row_limits_for(7, rows).limits, numbers[7..], "row {row}");
            rows += 1;
        }
    }
    assert_eq!(rows, 16);
}

#[test]
fn refusals_of_a_cell() {
    for row in [0, 1, 15, 16, 17, 1 << 32, u64::MAX] {
        for column in [0, 87, 127, 128, 1 << 32, u64::MAX] {
            for byte in 0..=255u8 {
                let got = check_cell(row, column, byte);
                let conditions = [(1, row > 15 || column > 127)];
                let own = if byte > 4 { (9, row.wrapping_mul(128).wrapping_add(column)) } else { (0, 0) };
                let (refusal, place) = first(&conditions, own);
                if refusal != 0 {
                    assert_eq!(got, Cell { refusal, place, ..Default::default() }, "{row} {column} {byte}");
                } else {
                    assert_eq!((got.refusal, got.place), (0, 0), "{row} {column} {byte}");
                }
            }
        }
    }
}

#[test]
fn refusals_of_limits() {
    for row in [16, 17, 255, 256, 1 << 32, u64::MAX] {
        assert_eq!(row_limits(row), Limits { refusal: 1, ..Default::default() });
    }
    for row in 0..16 {
        assert_eq!(row_limits(row).refusal, 0);
    }
}

#[test]
fn refusals_of_the_maker() {
    for length in [0, 1, 2047, 2048, 2049] {
        let mut space = vec![CANARY; length + 64];
        let answer = make_table(&mut space[32..32 + length]);
        if length < CELLS {
            assert_eq!(answer, Made { refusal: 7, place: 0 });
            assert!(space.iter().all(|&b| b == CANARY), "length {length}");
        } else {
            assert_eq!(answer, Made::default());
            assert!(space[..32].iter().chain(&space[32 + CELLS..]).all(|&b| b == CANARY), "length {length}");
            assert_eq!(space[32..32 + CELLS], rule().made()[..]);
        }
    }
}

#[test]
fn made_table_at_any_address() {
    let made = rule().made();
    for offset in Space::OFFSETS {
        let mut space = Space::new(offset, &[]);
        assert_eq!(make_table(space.part(offset, CELLS + 3)), Made::default());
        assert!(space.holds(offset, &made), "offset {offset}");
        assert_eq!(make_table(space.part(offset, CELLS - 1)), Made { refusal: 7, place: 0 });
        assert!(space.holds(offset, &made), "refused, offset {offset}");
    }
}

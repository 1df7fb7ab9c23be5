//! The divisions, tables and refusals of ONE-WRONG-CELL.md.
//!
//! Would catch a check that lets a wrong cell through: a table with a single digit changed divides some operands wrongly,
//! and so does the one with the 1994 Pentium's five cells; every call must refuse both. The made table with these cells
//! divides all rightly, and is refused too. docs/ONE-WRONG-CELL.md tells the story with these numbers. The draws are from
//! the fixed seed below.
use host::calls::{self, Binary64, Ran, Samples, Whole};
use host::draw::Draw;
use host::specification::{breaks, rule, run, run_by, seven, Trace, EIGHT, SEVEN};

const SEED: u64 = 0x5EED_0991;
const DIGITS: usize = 28;

/// Row and column of the cells that the 1994 Pentium is reported to have held as 0.
const FIVE: [(u64, u64); 5] = [(1, 87), (4, 91), (7, 95), (10, 99), (13, 103)];

/// The one of them that the division below meets, and the one that the division of 1994 met.
const MET: (u64, u64) = (4, 91);
const MET_1994: (u64, u64) = (7, 95);

const PENTIUM: &[u8] = include_bytes!("../../../tables/pentium-1994.table");

/// 3175 over 1343 as the unit's binary64 division runs it: each operand's 53 bits, moved up 8.
const DIVIDEND: u64 = 3175 << 49;
const DIVISOR: u64 = 1343 << 50;

const RIGHT: [i16; DIGITS] =
    [1, 1, -1, -1, 2, 2, 2, -1, -1, 1, -1, -2, 2, -1, 0, 0, -1, -1, 1, 0, -1, 0, 0, 1, -1, -1, 2, -1];
const WRONG: [i16; DIGITS] =
    [1, 1, -1, -1, 0, -2, 1, -1, 2, 2, -2, 1, 0, 1, 0, 1, 0, -1, 2, -1, 0, 1, -1, -2, 2, 0, -1, 0];

/// 4195835 over 3145727 in the same way.
const DIVIDEND_1994: u64 = 4195835 << 38;
const DIVISOR_1994: u64 = 3145727 << 39;

const RIGHT_1994: [i16; DIGITS] =
    [1, -1, -1, -1, -1, -1, -1, 2, 2, 2, 2, 0, 1, -1, 2, 1, 0, -1, 2, 1, -1, 2, -2, -2, 2, 0, 1, 1];
const WRONG_1994: [i16; DIGITS] =
    [1, -1, -1, -1, -1, -1, -1, 2, 0, 0, -1, 2, -2, 1, -1, 2, 1, 1, -1, -2, 2, 2, -1, 2, -2, 2, 1, -2];

fn index((row, column): (u64, u64)) -> usize {
    (128 * row + column) as usize
}

/// The table with digit 0 in these cells.
fn at_0(mut table: Vec<u8>, cells: &[(u64, u64)]) -> Vec<u8> {
    cells.iter().for_each(|&cell| table[index(cell)] = 2);
    table
}

/// The table of the digits farthest from zero, with the one cell that is met at digit 0.
fn one_wrong() -> Vec<u8> {
    at_0(rule().farthest(), &[MET])
}

fn digits(trace: &Trace) -> Vec<i16> {
    trace.digits.iter().map(|&byte| i16::from(byte) - 2).collect()
}

/// So many decimals of an operand over another as a quotient of so many digits reads, the others cut off. The divisor was
/// moved up by one bit more than the dividend.
fn reads(quotient: i128, digits: usize, decimals: u32) -> i128 {
    (2 * quotient * 10i128.pow(decimals)) >> (2 * (digits - 1))
}

/// Before which digits a run comes to one of the five cells.
fn met(trace: &Trace) -> Vec<usize> {
    let of_five = |&i: &usize| FIVE.iter().any(|&cell| index(cell) == trace.cells[i]);
    (0..trace.cells.len()).filter(of_five).collect()
}

/// The wrong run leaves the range behind the digit at `step`, where the words lose 2^64. From there on they hold the
/// remainders that another dividend has with these digits, and stay in range. Its quotient, corrected by the words' sign.
fn goes_on_as(wrong: &Trace, step: usize, other: i128, divisor: u64) -> i128 {
    let divisor = i128::from(divisor);
    let within = |p: i128| 3 * p.abs() <= 8 * divisor;
    assert!(wrong.remainders[..=step].iter().all(|&p| within(p)) && !within(wrong.remainders[step + 1]));
    assert_eq!(wrong.words[..=step], wrong.remainders[..=step]);
    assert_eq!(wrong.words[step + 1], wrong.remainders[step + 1] - (1 << 64));
    let mut p = other;
    for (i, q) in digits(wrong).into_iter().enumerate() {
        p = 4 * (p - i128::from(q) * divisor);
        assert!(i < step || p == wrong.words[i + 1] && within(p), "digit {i}");
    }
    // their last sum is negative: a divider that knows only its words takes 1 from S, and has the other's quotient
    assert!(wrong.words[DIGITS] < 0);
    let corrected = wrong.quotient - 1;
    assert_eq!(corrected, (other << (2 * (DIGITS - 1))) / divisor);
    corrected
}

#[test]
fn the_1994_table_is_the_digits_farthest_from_zero_with_five_cells_at_0() {
    let good = rule().farthest();
    assert_eq!(PENTIUM, at_0(good.clone(), &FIVE));
    assert_eq!(calls::check_table(&good), Default::default());
    for cell in FIVE {
        assert_eq!(rule().allowed(index(cell)), [4], "{cell:?}");
    }
    let report = calls::check_table(PENTIUM);
    assert_eq!((report.refusal, report.place, report.count), (10, 215, 5));
    assert_eq!((report.row, report.column), FIVE[0]);
}

#[test]
fn the_five_witnesses_lie_on_the_range_itself() {
    for (k, (row, column)) in (0..).zip(FIVE) {
        let cell = calls::check_cell(row, column, 2);
        let (d, p) = (i128::from(cell.divisor), i128::from(cell.remainder));
        assert_eq!((cell.refusal, cell.allowed, 3 * p), (0, 0, 8 * d), "{row}/{column}");
        // the column's lower end, and a quarter into the row
        assert_eq!((p, d), ((23 + 4 * k) << 57, (69 + 12 * k) << 54), "{row}/{column}");
    }
}

#[test]
fn the_plain_recurrence_goes_wrong() {
    let right = run(&rule().farthest(), DIVIDEND, DIVISOR, DIGITS);
    assert_eq!(digits(&right), RIGHT);
    assert_eq!(right.quotient, 21294011640955062);
    assert_eq!(right.quotient, (i128::from(DIVIDEND) << (2 * (DIGITS - 1))) / i128::from(DIVISOR));
    assert_eq!(reads(right.quotient, DIGITS, 14), 2_36411020104244);
    // one wrong cell does it; the other four are not met
    for table in [&one_wrong()[..], PENTIUM] {
        let wrong = run(table, DIVIDEND, DIVISOR, DIGITS);
        assert_eq!(digits(&wrong), WRONG);
        assert_eq!((met(&wrong), wrong.cells[4]), (vec![4], index(MET)));
        assert_eq!(wrong.quotient, 21079394830715516);
        assert_eq!(reads(wrong.quotient, DIGITS, 14), 2_34028294862248);
    }
}

#[test]
fn the_words_go_on_as_if_the_dividend_were_32_less() {
    let wrong = run(&one_wrong(), DIVIDEND, DIVISOR, DIGITS);
    assert_eq!((wrong.remainders[4], wrong.remainders[5]), (3940649673949184000, 15762598695796736000));
    let corrected = goes_on_as(&wrong, 4, 3143 << 49, DIVISOR);
    // rounded to binary64, and times 1343: 32 are missing
    let answer = f64::from_bits(0x4002_B8E6_443D_C29F);
    assert_eq!((corrected + 2) / 4, i128::from(answer.to_bits() & ((1 << 52) - 1) | 1 << 52));
    assert_eq!(answer, 3143.0 / 1343.0);
    assert_eq!(3175.0 - answer * 1343.0, 32.0);
}

/// By seven bits, and the digits farthest from zero by their rule.
#[test]
fn the_division_of_1994_by_seven_bits() {
    let good = seven().farthest();
    let run = |table: &[u8], digits| run_by(SEVEN, table, DIVIDEND_1994, DIVISOR_1994, digits);
    let right = run(&good, DIGITS);
    assert_eq!(digits(&right), RIGHT_1994);
    assert_eq!(right.quotient, 12013986555418245);
    assert_eq!(right.quotient, (i128::from(DIVIDEND_1994) << (2 * (DIGITS - 1))) / i128::from(DIVISOR_1994));
    assert_eq!(reads(right.quotient, DIGITS, 14), 1_33382044913624);
    for table in [at_0(good.clone(), &[MET_1994]), at_0(good, &FIVE)] {
        let wrong = run(&table, DIGITS);
        assert_eq!(digits(&wrong), WRONG_1994);
        assert_eq!((met(&wrong), wrong.cells[8]), (vec![8], index(MET_1994)));
        assert_eq!(wrong.quotient, 12013253547433378);
        assert_eq!(reads(wrong.quotient, DIGITS, 14), 1_33373906890203);
        // 31 digits, the most of the recurrence (a caller's run has 28), to 18 decimals and rounded
        assert_eq!((reads(run(&table, 31).quotient, 31, 19) + 5) / 10, 1_333739068902037589);
        let corrected = goes_on_as(&wrong, 8, 4195579 << 38, DIVISOR_1994);
        let answer = f64::from_bits(0x3FF5_56FE_C725_4ED1);
        assert_eq!((corrected + 1) / 2, i128::from(answer.to_bits() & ((1 << 52) - 1) | 1 << 52));
        assert_eq!(answer, 4195579.0 / 3145727.0);
        assert_eq!(4195835.0 - answer * 3145727.0, 256.0);
        // by eight bits it does not come to the cell, and is right
        let eight = host::specification::run(&table, DIVIDEND_1994, DIVISOR_1994, DIGITS);
        assert_eq!((met(&eight), eight.quotient), (vec![], right.quotient));
    }
}

#[test]
fn the_check_refuses_the_table_with_its_witness() {
    let report = calls::check_table(&one_wrong());
    assert_eq!((report.refusal, report.place), (10, 603));
    assert_eq!((report.count, report.row, report.column), (1, 4, 91));
    assert_eq!((report.divisor, report.remainder), (1459166279268040704, 3891110078048108544));
    let witness = (i128::from(report.divisor), i128::from(report.remainder));
    assert!(EIGHT.is_point(4, 91, witness) && breaks(0, witness));
}

#[test]
fn every_call_refuses_the_tables_and_right_ones_divide_rightly() {
    let (a, b) = (3175f64.to_bits(), 1343f64.to_bits());
    for (table, place) in [(&one_wrong()[..], 603), (PENTIUM, 215)] {
        let mut buffer = [7u8; DIGITS];
        let ran = calls::run(Some(table), DIVIDEND, DIVISOR, DIGITS, &mut buffer, 0);
        assert_eq!(ran, Ran { refusal: 10, place, ..Default::default() });
        assert_eq!(buffer, [7; DIGITS]);
        let whole = calls::divide_whole(Some(table), 3175, 1343);
        assert_eq!(whole, Whole { refusal: 10, place, ..Default::default() });
        let binary64 = calls::divide_binary64(Some(table), a, b, 0);
        assert_eq!(binary64, Binary64 { refusal: 10, place, ..Default::default() });
        let mut list = [7; 3];
        let samples = calls::divide_samples(table, &[a, a], &[b, b], &mut list, 0);
        assert_eq!(samples, Samples { refusal: 10, place, ..Default::default() });
        assert_eq!(list, [7; 3]);
    }
    let good = rule().farthest();
    let mut buffer = [7u8; DIGITS];
    assert_eq!(calls::run(Some(&good), DIVIDEND, DIVISOR, DIGITS, &mut buffer, 0).quotient, 21294011640955062);
    assert_eq!(buffer.map(|byte| i16::from(byte) - 2), RIGHT);
    for (a, b, pattern) in
        [(a, b, 0x4002_E9B2_9BEC_F02E), (4195835f64.to_bits(), 3145727f64.to_bits(), 0x3FF5_5754_1C7C_6B43)]
    {
        let right = Binary64 { pattern, flags: 1, ..Default::default() };
        assert_eq!(calls::divide_binary64(Some(&good), a, b, 0), right);
        assert_eq!(calls::divide_binary64(None, a, b, 0), right);
    }
}

/// Below how many sixteenths of 2^60 the remainders of a row stay behind each digit from -2 to 2, `last` being the last column
/// that holds the digit. A remainder lies less than 3/16 above its column's start. Behind 2 it comes from the greatest of the
/// other four, or from the dividend, which is below 32/16.
fn bounds(row: i128, last: impl Fn(i128) -> i128) -> [i128; 5] {
    let (least, end) = (16 + row, 17 + row);
    let behind = |q: i128| 4 * (2 * (last(q) - 64) + 3 - q * if q > 0 { least } else { end });
    let four = [-2, -1, 0, 1].map(behind);
    let greatest = four.into_iter().fold(32, i128::max);
    [four[0], four[1], four[2], four[3], 4 * (greatest - 2 * least)]
}

/// A dividend, and a divisor of the row: drawn, or next to the ends of their spans.
fn operands_of_row(row: u64, draw: &mut Draw) -> (u64, u64) {
    let (first, end) = ((16 + row) << 56, (17 + row) << 56);
    let divisor = match draw.below(4) {
        0 => first + draw.below(4),
        1 => end - 1 - draw.below(4),
        _ => first + draw.below(1 << 56),
    };
    let dividend = match draw.below(4) {
        0 => draw.below(4),
        1 => (1 << 61) - 1 - draw.below(4),
        _ => draw.below(1 << 61),
    };
    (dividend, divisor)
}

#[test]
fn the_made_table_with_the_wrong_cells_never_comes_to_them() {
    let wrong = at_0(rule().made(), &FIVE);
    let report = calls::check_table(&wrong);
    assert_eq!((report.refusal, report.place, report.count), (10, 215, 5));
    let mut draw = Draw::new(SEED);
    // the cells begin at so many eighths of 2^60; the remainders of their rows stay below so many quarters, and come near
    let all = [(23, 11), (27, 13), (31, 15), (35, 17), (39, 19)];
    let behind =
        [[36, 36, 44, 40, 40], [44, 40, 52, 52, 48], [44, 44, 60, 56, 56], [52, 48, 68, 68, 64], [52, 52, 76, 72, 72]];
    for (((row, column), (eighths, quarters)), behind) in FIVE.into_iter().zip(all).zip(behind) {
        assert!(column == 64 + eighths && 2 * quarters < eighths);
        let limits = calls::row_limits(row).limits.map(i128::from);
        assert_eq!(bounds(row.into(), |q| limits[(q + 3) as usize] - 1), behind);
        assert_eq!(behind.into_iter().max(), Some(4 * i128::from(quarters)));
        let mut greatest = 0;
        for _ in 0..50_000 {
            let (dividend, divisor) = operands_of_row(row, &mut draw);
            let trace = run(&wrong, dividend, divisor, DIGITS);
            let scaled = i128::from(dividend) << (2 * (DIGITS - 1));
            assert_eq!(trace.quotient, scaled / i128::from(divisor), "{dividend} / {divisor}");
            assert_eq!(trace.remainder, scaled % i128::from(divisor), "{dividend} / {divisor}");
            assert!(!trace.cells.contains(&index((row, column))), "{dividend} / {divisor}");
            greatest = trace.remainders.into_iter().fold(greatest, i128::max);
        }
        let bound = i128::from(quarters) << 58;
        assert!(greatest < bound && 100 * greatest > 97 * bound, "row {row}: {greatest}");
    }
}

/// Three of the five are out of reach through every table whose other cells are right; the other two are met.
#[test]
fn three_of_the_five_are_met_through_no_table() {
    // in sixteenths, where all remainders of the row stay below the cell
    for ((row, column), all) in FIVE.into_iter().zip([Some(44), None, Some(60), None, Some(76)]) {
        let last = |q: i128| {
            let holds = |c: &i128| rule().allowed(128 * row as usize + *c as usize).contains(&((q + 2) as u8));
            (0..128).filter(|&c| EIGHT.has_point(row.into(), c)).filter(holds).max().expect("a column")
        };
        let greatest = bounds(row.into(), last).into_iter().max();
        let begins = Some(2 * (i128::from(column) - 64));
        assert!(if all.is_some() { greatest == all && all < begins } else { greatest > begins }, "{row}/{column}");
    }
    let wrong = run(&one_wrong(), DIVIDEND, DIVISOR, DIGITS);
    assert_eq!(wrong.cells[4], index((4, 91)));
    let other = run(PENTIUM, 582512570662832343, 1944533356547664828, DIGITS);
    assert_eq!((met(&other), other.cells[18]), (vec![18], index((10, 99))));
}

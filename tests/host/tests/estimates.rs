//! Check and repair of 100,000 drawn tables by seven bits and by eight, against two other checks; the programs with 7 and 8;
//! the printed table.
//!
//! Would catch a table call that goes by the wrong estimate, or by one estimate in some rows and by the other elsewhere: the
//! check, the repair and the programs by seven bits and by eight, on 100,000 drawn tables and on those of tables/, against the
//! specification's rule and against the check as it was before the rows' multiples; a table that passes for seven and is refused
//! for eight, a cell that allows less by eight; and a page that misreads the printed table. The draws are from the fixed seed
//! below.
use host::calls::{
    self, check_table, check_table_for, repair_table, repair_table_for, Cell, Limits, Made, Repaired, Report,
};
use host::check_by_search;
use host::compare::{on_all_cores, Tally};
use host::draw::Draw;
use host::lent;
use host::programs::{printed_with, written_with};
use host::specification::{rule, run, run_by, seven, Rule, CELLS, EIGHT, SEVEN};

const SEED: u64 = 0x5EED_0256;
const CANARY: u8 = 0x5A;
const KEPT: &[u8] = include_bytes!("../../../tables/kept.table");
const KEPT_SEVEN: &[u8] = include_bytes!("../../../tables/kept-seven-bits.table");
const PRINTED: &[u8] = include_bytes!("../../../tables/clarke-zhao-1995.table");
const PENTIUM: &[u8] = include_bytes!("../../../tables/pentium-1994.table");

/// The answer by seven bits, which is that of the unit, of the rule and of the check by search.
fn by_seven(table: &[u8]) -> Report {
    let got = check_table_for(7, table);
    assert_eq!(got, seven().check(table));
    assert_eq!(got, check_by_search::SEVEN.check_table(table));
    got
}

/// The answer by eight bits, which is that of the call without bits too.
fn by_eight(table: &[u8]) -> Report {
    let got = check_table_for(8, table);
    assert_eq!(got, check_table(table));
    assert_eq!(got, rule().check(table));
    assert_eq!(got, check_by_search::EIGHT.check_table(table));
    got
}

/// A repair into two buffers that are longer by so many bytes; what it leaves in them.
fn repaired(call: impl Fn(&mut [u8], &mut [u8]) -> Repaired, longer: usize) -> (Repaired, Vec<u8>, Vec<u8>) {
    let (mut table, mut marks) = (vec![CANARY; CELLS + longer], vec![!CANARY; CELLS + longer]);
    let answer = call(&mut table, &mut marks);
    (answer, table, marks)
}

/// The repair by so many bits, which is that of the rule; what it makes of the table.
fn check_repair(bits: u64, rule: &Rule, made: &[u8], table: &[u8], longer: usize) -> Vec<u8> {
    let got = repaired(|r, c| repair_table_for(bits, table, r, c), longer);
    let want = rule.repaired(table, made);
    let marks: Vec<u8> = (0..CELLS).map(|k| u8::from(want[k] != table[k])).collect();
    let count = marks.iter().map(|&mark| u64::from(mark)).sum();
    assert_eq!(got.0, Repaired { refusal: 0, place: 0, count }, "{bits} bits");
    assert!(got.1[..CELLS] == want && got.1[CELLS..].iter().all(|&b| b == CANARY), "{bits} bits: the table");
    assert!(got.2[..CELLS] == marks && got.2[CELLS..].iter().all(|&b| b == !CANARY), "{bits} bits: the marks");
    if bits == 8 {
        assert!(got == repaired(|r, c| repair_table(table, r, c), longer), "the call without bits");
    }
    want
}

/// Tables that pass for an estimate: the made one, the one of the digits farthest from zero, and drawn ones.
fn pool(rule: &Rule, draw: &mut Draw) -> Vec<Vec<u8>> {
    let mut tables = vec![rule.made(), rule.farthest()];
    tables.extend((0..6).map(|_| rule.passing(draw)));
    tables
}

/// Tables of all kinds: each cell from one or the other of two tables of a pool, and then no, few or many bytes drawn anew, up
/// to 4, up to 5 or any.
fn drawn(draw: &mut Draw, pools: &[Vec<Vec<u8>>; 2], turn: u64) -> Vec<u8> {
    let pool = &pools[turn as usize % 2];
    let [one, other] = [0; 2].map(|_| &pool[draw.below(pool.len() as u64) as usize]);
    let mut table = one.clone();
    for part in 0..CELLS / 64 {
        let bits = draw.bits();
        for k in (0..64).filter(|k| bits >> k & 1 == 1) {
            table[64 * part + k] = other[64 * part + k];
        }
    }
    let changes = match turn / 2 % 4 {
        0 => draw.below(3),
        1 => draw.below(60),
        2 => draw.below(CELLS as u64),
        _ => 0,
    };
    let bound = [5, 5, 6, 256][draw.below(4) as usize];
    for _ in 0..changes {
        table[draw.below(CELLS as u64) as usize] = draw.below(bound) as u8;
    }
    table
}

#[test]
fn a_hundred_thousand_tables_by_both() {
    let (made_seven, made_eight) = (seven().made(), rule().made());
    let block = |seed: u64| {
        let mut draw = Draw::new(SEED << 8 | seed);
        let pools = [seven(), rule()].map(|rule| pool(rule, &mut draw));
        let mut tally = Tally::default();
        for turn in 0..1_000 {
            let table = drawn(&mut draw, &pools, turn);
            let (report, report_eight) = (check_table_for(7, &table), check_table_for(8, &table));
            assert_eq!((report, report_eight), (seven().check(&table), rule().check(&table)));
            if turn % 8 < 2 {
                assert_eq!((report, report_eight), (by_seven(&table), by_eight(&table)));
            }
            // no cell is bad for eight alone
            assert!(report_eight.count <= report.count);
            let longer = turn as usize % 3;
            let mended = check_repair(7, seven(), &made_seven, &table, longer);
            check_repair(8, rule(), &made_eight, &table, longer);
            assert_eq!((check_table_for(7, &mended), check_table(&mended)), Default::default());
            tally.answers += 1;
            tally.differences += u64::from(report != report_eight);
        }
        tally
    };
    let tally = on_all_cores(100, block);
    assert_eq!(tally.answers, 100_000);
    assert!(tally.differences > 40_000, "the estimates differ on {} tables only", tally.differences);
}

/// Every byte in every cell of the table made for seven bits, one at a time.
#[test]
fn each_single_damage_by_seven_bits() {
    let made = seven().made();
    let mut refused = 0;
    let mut table = made.clone();
    for cell in 0..CELLS {
        for byte in [0, 1, 2, 3, 4, 5, 255] {
            table[cell] = byte;
            refused += u32::from(by_seven(&table).refusal == 10);
            let mended = check_repair(7, seven(), &made, &table, 0);
            assert_eq!(mended[cell], if seven().allowed(cell).contains(&byte) { byte } else { made[cell] });
        }
        table[cell] = made[cell];
    }
    assert_eq!(refused, 4_176);
}

#[test]
fn other_lengths_and_tables_of_one_byte() {
    for byte in 0..=255 {
        by_seven(&[byte; CELLS]);
    }
    for length in [0, 1, 127, 2047, 2049, 4096] {
        let table: Vec<u8> = seven().made().into_iter().cycle().take(length).collect();
        assert_eq!(by_seven(&table), Report { refusal: 8, ..Default::default() });
    }
}

/// Runs through a table that passes for eight, by the unit: quotient and remainder of the division.
fn divides(table: &[u8], runs: usize, draw: &mut Draw) {
    for _ in 0..runs {
        let (dividend, divisor) = (draw.bits() >> 3, 1 << 60 | draw.bits() >> 4);
        let mut digits = [0u8; 28];
        let got = calls::run(Some(table), dividend, divisor, 28, &mut digits, 0);
        let scaled = u128::from(dividend) << 54;
        let exact = (0, (scaled / u128::from(divisor)) as u64, (scaled % u128::from(divisor)) as u64);
        assert_eq!((got.refusal, got.quotient, got.remainder), exact, "{dividend} / {divisor}");
        assert_eq!(digits[..], run(table, dividend, divisor, 28).digits);
    }
}

#[test]
fn a_point_by_eight_is_one_by_seven_and_no_cell_allows_less() {
    let (mut grown, mut witnesses) = (0, 0);
    for k in 0..CELLS {
        let (start, span) = EIGHT.column(k as i128 % 128);
        let (start_seven, span_seven) = SEVEN.column(k as i128 % 128);
        assert!(start == start_seven && span < span_seven);
        let (allowed, allowed_seven) = (rule().allowed(k), seven().allowed(k));
        assert!(allowed_seven.iter().all(|byte| allowed.contains(byte)), "cell {k}");
        grown += u32::from(allowed.len() > allowed_seven.len());
        witnesses += (0..5).filter(|&byte| rule().witness(k, byte) != seven().witness(k, byte)).count();
    }
    assert_eq!((grown, witnesses), (31, 146));
}

#[test]
fn ten_thousand_tables_for_seven_bits_divide_by_eight() {
    let mut draw = Draw::new(SEED);
    for turn in 0..10_000 {
        let table = match turn {
            0 => seven().made(),
            1 => seven().farthest(),
            _ => seven().passing(&mut draw),
        };
        assert_eq!(by_seven(&table), Report::default());
        assert_eq!(by_eight(&table), Report::default(), "table {turn}");
        divides(&table, 2, &mut draw);
    }
    divides(KEPT_SEVEN, 20_000, &mut draw);
}

/// The tables of tables/: how many cells are bad by seven bits and by eight, and in which of the two they differ.
#[test]
fn the_tables_of_the_repository() {
    assert!(KEPT == rule().made() && KEPT_SEVEN == seven().made());
    let counts = [KEPT, KEPT_SEVEN, PRINTED, PENTIUM].map(|table| (by_seven(table).count, by_eight(table).count));
    assert_eq!(counts, [(17, 0), (0, 0), (5, 0), (24, 5)]);
    let report = by_seven(KEPT);
    assert_eq!((report.refusal, report.place, report.row, report.column), (10, 196, 1, 68));
    // the kept table is bad by seven bits where the two kept tables differ, and its repair is the other
    let bad: Vec<usize> = seven().bad_cells(KEPT).iter().map(|&(cell, _)| cell).collect();
    let differ: Vec<usize> = (0..CELLS).filter(|&k| KEPT[k] != KEPT_SEVEN[k]).collect();
    assert_eq!(bad, differ);
    assert_eq!(check_repair(7, seven(), KEPT_SEVEN, KEPT, 0), KEPT_SEVEN);
    // and so are nearly all tables drawn from the digits that are allowed by eight
    let mut draw = Draw::new(SEED + 2);
    let refused = (0..500).filter(|_| by_seven(&rule().passing(&mut draw)).refusal == 10).count();
    assert!(refused > 490, "{refused}");
}

/// Through one table both estimates give one quotient and one remainder, by digits that may differ.
#[test]
fn both_estimates_give_one_quotient() {
    let mut draw = Draw::new(SEED + 3);
    let farthest = seven().farthest();
    let mut different = 0;
    for turn in 0..20_000 {
        let table = if turn % 2 == 0 { KEPT_SEVEN } else { &farthest };
        let (dividend, divisor) = (draw.bits() >> 3, 1 << 60 | draw.bits() >> 4);
        let (x, y) = (run(table, dividend, divisor, 28), run_by(SEVEN, table, dividend, divisor, 28));
        assert_eq!((x.quotient, x.remainder), (y.quotient, y.remainder), "{dividend} / {divisor}");
        different += u32::from(x.digits != y.digits);
    }
    assert!(different > 1_000, "the digits differ in {different} runs only");
}

/// The kept table in a divider that adds seven bits: some quotients are wrong, and each of these records is marked for seven bits
/// and none for eight.
#[test]
fn the_kept_table_in_a_divider_of_seven_bits() {
    let mut draw = Draw::new(SEED + 5);
    let one = 1u64 << 52;
    let (mut currents, mut sensitivities) = (Vec::new(), Vec::new());
    for _ in 0..100_000 {
        let (x, y) = (one | draw.bits() >> 12, one | draw.bits() >> 12);
        let ran = run_by(SEVEN, KEPT, x << 8, y << 8, 28);
        if ran.quotient != ((u128::from(x) << 54) / u128::from(y)) as i128 {
            currents.push(x - one | 1023 << 52);
            sensitivities.push(y - one | 1023 << 52);
        }
    }
    let wrong = currents.len();
    println!("rechecked: the kept table by seven bits divides {wrong} of 100000 drawn pairs wrongly");
    assert!(wrong > 5, "{wrong}");
    for (bits, mark) in [(7, 1), (8, 0)] {
        let mut marks = vec![2; wrong];
        calls::affected_samples(bits, KEPT, &currents, &sensitivities, &mut marks);
        assert_eq!(marks, vec![mark; wrong], "{bits} bits");
    }
}

/// The table that Clarke and Zhao print, as docs/PRINTED-TABLE.md reads it: its five bad cells by seven bits are those that the
/// page lists, with their witnesses.
#[test]
fn the_printed_table() {
    divides(PRINTED, 20_000, &mut Draw::new(SEED + 4));
    let text = listed(seven(), PRINTED);
    assert_eq!(text.lines().count(), 6);
    assert_eq!(printed_with("listing", &["7"], PRINTED), text);
    let page = include_str!("../../../docs/PRINTED-TABLE.md");
    let shown: String = text.lines().map(|line| format!("    {line}\n")).collect();
    assert!(page.contains(&shown), "the page lists other cells");
    let bad: Vec<(usize, usize)> = seven().bad_cells(PRINTED).iter().map(|&(k, _)| (k / 128, k % 128)).collect();
    assert_eq!(bad, [(2, 59), (3, 49), (3, 59), (4, 79), (10, 71)]);
    // a printed row is two of ours, and beyond the printed columns there is no point
    for k in 0..CELLS {
        assert_eq!(PRINTED[k], PRINTED[k ^ 128]);
        let printed = (16..112).contains(&(k % 128));
        assert!(printed || !SEVEN.has_point(k as i128 / 128, k as i128 % 128) && PRINTED[k] == 2);
    }
}

/// A slip in the reading shows: the printed table moved by one or more columns, or by a printed row.
#[test]
fn the_printed_table_read_otherwise_is_bad() {
    let moved = |by: isize| -> Vec<u8> {
        let at = |k: usize| (k as isize - by).rem_euclid(CELLS as isize) as usize;
        (0..CELLS).map(|k| PRINTED[at(k)]).collect()
    };
    let counts = [-4, -2, -1, 1, 2, 4].map(|by| by_eight(&moved(by)).count);
    assert_eq!(counts, [234, 83, 26, 20, 63, 207]);
    assert!([-256, 256].iter().all(|&by| by_eight(&moved(by)).count > 20));
}

/// The specification's listing of a table.
fn listed(rule: &Rule, table: &[u8]) -> String {
    let mut text = String::from("row column digit divisor remainder\n");
    for (cell, (d, p)) in rule.bad_cells(table) {
        text += &format!("{} {} {} {d} {p}\n", cell / 128, cell % 128, i16::from(table[cell]) - 2);
    }
    text
}

/// listing, maker and repair by their argument: 7 is seven bits, 8 and none are eight.
#[test]
fn the_programs_go_by_their_argument() {
    let mut draw = Draw::new(SEED + 5);
    for (arguments, bits, rule) in [(vec!["7"], 7, seven()), (vec!["8"], 8, rule()), (vec![], 8, rule())] {
        let made = rule.made();
        assert!(written_with("maker", &arguments, &[]).stdout == made, "maker {arguments:?}");
        for turn in 0..24 {
            let mut table = [KEPT, KEPT_SEVEN, PRINTED, PENTIUM][turn % 4].to_vec();
            for _ in 0..turn / 4 * 20 {
                table[draw.below(CELLS as u64) as usize] = draw.below(5) as u8;
            }
            assert_eq!(printed_with("listing", &arguments, &table), listed(rule, &table), "listing {arguments:?}");
            let output = written_with("repair", &arguments, &table);
            let repaired = rule.repaired(&table, &made);
            assert!(output.stdout == repaired, "repair {arguments:?}");
            let changes = (0..CELLS).filter(|&k| repaired[k] != table[k]).count();
            let last = format!("\nchanges {changes} for {bits} bits\n");
            assert!(output.stderr.ends_with(last.as_bytes()), "repair {arguments:?}: not {last}");
        }
    }
}

/// Another argument, or two, is told on standard error, and nothing is written.
#[test]
fn other_arguments_of_the_programs() {
    for program in ["listing", "maker", "repair", "plot"] {
        for arguments in
            [vec!["9"], vec!["6"], vec![""], vec!["77"], vec!["7 "], vec!["seven"], vec!["7", "8"], vec!["8", "8"]]
        {
            let output = written_with(program, &arguments, KEPT);
            assert!(output.stdout.is_empty(), "{program} {arguments:?}");
            let told = String::from_utf8(output.stderr).expect("text");
            let usage = format!("usage: {program} [7|8");
            assert!(told.starts_with(&usage) && told.lines().count() == 1, "{program} {arguments:?}: {told}");
        }
    }
}

/// The calls for a number of bits: 17 before every other refusal, with zeros, and no byte changed; for 7 and 8 the others, in
/// their order.
#[test]
fn refusals() {
    let numbers = [
        7 << 8,
        8 << 8,
        1 << 16 | 7,
        1 << 31,
        1 << 32 | 7,
        1 << 32 | 8,
        1 << 56 | 7,
        7 << 56,
        1 << 63 | 7,
        1 << 63 | 8,
        u64::MAX - 7,
        u64::MAX,
    ];
    let tables = lent::tables();
    let mut seen = std::collections::BTreeMap::new();
    for bits in (0..=300).chain(numbers) {
        let mut first = |conditions: &[(u64, bool)], own: (u64, u64)| {
            let none = [(17, bits != 7 && bits != 8)];
            let answer = lent::first(&[&none, conditions].concat(), own);
            *seen.entry(answer.0).or_insert(0) += 1;
            answer
        };
        for (row, column, byte) in [(0, 0, 0), (1, 87, 2), (15, 127, 4), (0, 76, 5), (16, 128, 255), (u64::MAX, 0, 9)] {
            let own = if byte > 4 { (9, row.wrapping_mul(128).wrapping_add(column)) } else { (0, 0) };
            let (refusal, place) = first(&[(1, row > 15 || column > 127)], own);
            let got = calls::check_cell_for(bits, row, column, byte);
            match refusal {
                0 => assert_eq!((got.refusal, got.place), (0, 0), "{bits}"),
                _ => assert_eq!(got, Cell { refusal, place, ..Default::default() }, "{bits}"),
            }
            let (refusal, place) = first(&[(1, row > 15)], (0, 0));
            let got = calls::row_limits_for(bits, row);
            match refusal {
                0 => assert_eq!((got.refusal, got.place), (0, 0), "{bits}"),
                _ => assert_eq!(got, Limits { refusal, place, ..Default::default() }, "{bits}"),
            }
        }
        for (table, ..) in &tables {
            let report = if bits == 7 { seven().check(table) } else { rule().check(table) };
            let got = calls::check_table_for(bits, table);
            match first(&[], (report.refusal, report.place)).0 {
                17 => assert_eq!(got, Report { refusal: 17, ..Default::default() }, "{bits}"),
                _ => assert_eq!(got, report, "{bits}"),
            }
            for (room, marks) in [(0, 0), (CELLS, CELLS - 1), (CELLS - 1, CELLS), (CELLS, CELLS), (CELLS + 9, CELLS)] {
                let conditions = [(7, room < CELLS || marks < CELLS), (8, table.len() != CELLS)];
                let (refusal, place) = first(&conditions, (0, 0));
                let mut space = vec![CANARY; room + marks + 96];
                let (left, right) = space.split_at_mut(32 + room);
                let got = calls::repair_table_for(bits, table, &mut left[32..], &mut right[32..32 + marks]);
                if refusal == 0 {
                    assert_eq!((got.refusal, got.place), (0, 0), "{bits}");
                } else {
                    assert_eq!(got, Repaired { refusal, place, ..Default::default() }, "{bits}");
                    assert!(space.iter().all(|&b| b == CANARY), "{bits}: a refused repair touched a buffer");
                }
            }
        }
        for length in [0, 1, 2047, 2048, 2049] {
            let (refusal, place) = first(&[(7, length < CELLS)], (0, 0));
            let mut space = vec![CANARY; length + 64];
            assert_eq!(calls::make_table_for(bits, &mut space[32..32 + length]), Made { refusal, place }, "{bits}");
            let untouched = space.iter().all(|&b| b == CANARY);
            assert_eq!(untouched, refusal != 0, "{bits}, length {length}");
        }
    }
    assert_eq!(seen.keys().copied().collect::<Vec<u64>>(), [0, 1, 7, 8, 9, 10, 17]);
}

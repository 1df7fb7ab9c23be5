//! The check of every single change of the made table, of 10,000 damaged tables and of other lengths, against two other checks.
//!
//! Would catch a check that passes a damaged table or refuses a passing one, a wrong number of bad cells, and a first
//! cell or witness that is not the first or not the least. Each answer is held against the specification's rule and against
//! the check as it was before the rows' multiples. The draws are from the fixed seed below.
use host::calls::{check_table, Report};
use host::check_by_search::EIGHT;
use host::draw::Draw;
use host::lent::{tables, Space};
use host::specification::{rule, CELLS};

const SEED: u64 = 0x5EED_2048;

/// The check's answer, which is that of the specification's rule and of the check by search.
fn checked(table: &[u8], what: &str) -> Report {
    let got = check_table(table);
    assert_eq!(got, rule().check(table), "{what}");
    assert_eq!(got, EIGHT.check_table(table), "the check by search: {what}");
    got
}

#[test]
fn passing_tables_pass() {
    let mut draw = Draw::new(SEED);
    for turn in 0..500 {
        let table = match turn {
            0 => rule().made(),
            1 => rule().farthest(),
            _ => rule().passing(&mut draw),
        };
        assert_eq!(checked(&table, "a passing table"), Default::default());
    }
}

#[test]
fn each_single_damage_is_found() {
    let made = rule().made();
    let mut refused = 0;
    for cell in 0..CELLS {
        for byte in 0..5 {
            let mut table = made.clone();
            table[cell] = byte;
            let got = checked(&table, &format!("cell {cell}, byte {byte}"));
            refused += u32::from(got.refusal == 10);
        }
    }
    assert_eq!(refused, 4_130);
}

#[test]
fn damaged_tables() {
    let mut draw = Draw::new(SEED + 1);
    for turn in 0..10_000 {
        let mut table = rule().passing(&mut draw);
        let changes = draw.below([4, 40, 4000][turn % 3]);
        // every third table may hold bytes above 4, which go before any bad cell
        let bound = if turn % 9 < 6 { 5 } else { 8 };
        for _ in 0..changes {
            table[draw.below(CELLS as u64) as usize] = draw.below(bound) as u8;
        }
        checked(&table, &format!("table {turn}"));
    }
}

#[test]
fn whole_tables_of_one_byte() {
    for byte in 0..=255 {
        let table = vec![byte; CELLS];
        checked(&table, &format!("byte {byte}"));
    }
    // the opposite digit in every cell that has a point
    let worst: Vec<u8> = rule().made().iter().map(|b| if *b < 2 { 4 } else { 0 }).collect();
    assert_eq!(checked(&worst, "the opposite digits").count, 1_067);
}

#[test]
fn other_lengths_are_refused() {
    let made = rule().made();
    for length in [0, 1, 127, 2047, 2049, 4096] {
        let table: Vec<u8> = made.iter().copied().cycle().take(length).collect();
        checked(&table, &format!("length {length}"));
    }
}

#[test]
fn refusals() {
    for (table, (refusal, place)) in tables() {
        let got = check_table(&table);
        assert_eq!((got.refusal, got.place), (refusal, place));
        let want = match refusal {
            // only 10 has more than number and place: the cells are counted and the first one's witness is given
            10 => rule().check(&table),
            _ => Report { refusal, place, ..Default::default() },
        };
        assert_eq!(got, want);
    }
}

#[test]
fn tables_at_any_address() {
    for (table, _) in tables() {
        for offset in Space::OFFSETS {
            let mut space = Space::new(offset, &table);
            assert_eq!(check_table(space.part(offset, table.len())), rule().check(&table), "offset {offset}");
            assert!(space.holds(offset, &table), "offset {offset}");
        }
    }
}

//! 6,000 repairs of drawn tables, by call and program, against the other cell rule.
//!
//! Would catch a repair that changes a cell which may stay, leaves one which may not, writes a digit that is not the made
//! one, marks or counts otherwise, or touches a byte behind the 2,048: the call against the specification's rule, on drawn
//! tables with 0 to 2,048 changed bytes and buffers longer than needed; the program's table and text on such tables. The
//! draws are from the fixed seed below.
use host::calls::{check_table, repair_table, Repaired};
use host::draw::Draw;
use host::programs::written;
use host::specification::{rule, CELLS};

const SEED: u64 = 0x5EED_0011;
const CANARY: u8 = 0x5A;

/// A table read back, and what the specification makes of it: the repaired table, its marks and the number of changes.
fn wanted(table: &[u8]) -> (Vec<u8>, Vec<u8>, u64) {
    let repaired = rule().repaired(table, &rule().made());
    let marks: Vec<u8> = (0..CELLS).map(|k| u8::from(repaired[k] != table[k])).collect();
    let count = marks.iter().map(|&mark| u64::from(mark)).sum();
    (repaired, marks, count)
}

/// The call with buffers that are longer by so many bytes, each canary kept.
fn repaired(table: &[u8], longer: usize, still: usize) -> (Vec<u8>, Vec<u8>, u64) {
    let mut repaired = vec![CANARY; CELLS + longer + 64];
    let mut changed = vec![!CANARY; CELLS + still + 64];
    let got = repair_table(table, &mut repaired[..CELLS + longer], &mut changed[..CELLS + still]);
    assert_eq!((got.refusal, got.place), (0, 0));
    assert!(repaired[CELLS..].iter().all(|&byte| byte == CANARY), "a byte behind the repaired table");
    assert!(changed[CELLS..].iter().all(|&byte| byte == !CANARY), "a byte behind the marks");
    (repaired[..CELLS].to_vec(), changed[..CELLS].to_vec(), got.count)
}

/// Repaired as the specification's rule says; the check passes it, and a second repair changes nothing.
fn check(table: &[u8], what: &str) -> (Vec<u8>, u64) {
    let want = wanted(table);
    let got = repaired(table, table[0] as usize % 3, table[1] as usize % 5);
    assert_eq!(got.2, want.2, "{what}: the count");
    assert!(got.0 == want.0, "{what}: the table");
    assert!(got.1 == want.1, "{what}: the marks");
    assert_eq!(check_table(&got.0), Default::default(), "{what}");
    assert_eq!(repaired(&got.0, 0, 0), (got.0.clone(), vec![0; CELLS], 0), "{what}: once more");
    (got.0, got.2)
}

/// A passing table with `changes` bytes drawn anew, below the bound.
fn damaged(draw: &mut Draw, changes: u64, bound: u64) -> Vec<u8> {
    let mut table = rule().passing(draw);
    for _ in 0..changes {
        table[draw.below(CELLS as u64) as usize] = draw.below(bound) as u8;
    }
    table
}

#[test]
fn drawn_tables() {
    let mut draw = Draw::new(SEED);
    let mut least = [u64::MAX; 2];
    for turn in 0..6_000u64 {
        let changes = match turn % 4 {
            0 => turn / 4 % 9,
            1 => draw.below(60),
            2 => draw.below(CELLS as u64 + 1),
            _ => 40 * CELLS as u64,
        };
        let table = damaged(&mut draw, changes, [5, 6, 256][turn as usize % 3]);
        let (_, count) = check(&table, &format!("table {turn}"));
        least[usize::from(changes > CELLS as u64)] = least[usize::from(changes > CELLS as u64)].min(count);
        // no passing table is nearer
        let other = rule().passing(&mut draw);
        let apart = (0..CELLS).filter(|&k| other[k] != table[k]).count() as u64;
        assert!(count <= apart, "table {turn}: {count} changes, and a passing table differs in {apart}");
    }
    assert_eq!(least[0], 0);
    assert!(least[1] > 0);
}

#[test]
fn each_byte_of_each_cell() {
    let made = rule().made();
    for byte in 0..=255u8 {
        check(&vec![byte; CELLS], &format!("byte {byte}"));
    }
    for cell in 0..CELLS {
        for byte in [0, 1, 2, 3, 4, 5, 128, 255] {
            let mut table = made.clone();
            table[cell] = byte;
            let (got, count) = check(&table, &format!("cell {cell}, byte {byte}"));
            let stays = rule().allowed(cell).contains(&byte);
            assert_eq!(count, u64::from(!stays), "cell {cell}, byte {byte}");
            assert_eq!(got[cell], if stays { byte } else { made[cell] });
        }
    }
}

#[test]
fn passing_tables_stay() {
    let mut draw = Draw::new(SEED + 1);
    for turn in 0..500 {
        let table = match turn {
            0 => rule().made(),
            1 => rule().farthest(),
            _ => rule().passing(&mut draw),
        };
        let (got, count) = check(&table, "a passing table");
        assert!(got == table && count == 0);
    }
}

/// 7 for either buffer, then 8; a count of 0, and no byte of either buffer changed.
#[test]
fn refusals() {
    let sizes = [0, 1, CELLS - 1, CELLS, CELLS + 1, 2 * CELLS];
    let mut draw = Draw::new(SEED + 2);
    for size in sizes {
        let table: Vec<u8> = (0..size).map(|_| draw.below(256) as u8).collect();
        for room in sizes {
            for marks in sizes {
                let refusal = match (room < CELLS || marks < CELLS, size != CELLS) {
                    (true, _) => 7,
                    (_, true) => 8,
                    _ => continue,
                };
                let mut repaired = vec![CANARY; 2 * CELLS + 8];
                let mut changed = vec![!CANARY; 2 * CELLS + 8];
                let got = repair_table(&table, &mut repaired[..room], &mut changed[..marks]);
                assert_eq!(got, Repaired { refusal, place: 0, count: 0 }, "table {size}, room {room}, marks {marks}");
                assert!(repaired.iter().all(|&b| b == CANARY) && changed.iter().all(|&b| b == !CANARY));
            }
        }
    }
}

/// Table and buffers at odd addresses, in one space with canaries between them.
#[test]
fn at_any_address() {
    let mut draw = Draw::new(SEED + 3);
    for offset in 0..18 {
        let table = damaged(&mut draw, 300, 8);
        let (want, marks, count) = wanted(&table);
        let mut held = vec![CANARY; CELLS + 32];
        held[offset..offset + CELLS].copy_from_slice(&table);
        let mut space = vec![CANARY; 4 * CELLS];
        let (left, right) = space.split_at_mut(CELLS + 64);
        let got = repair_table(
            &held[offset..offset + CELLS],
            &mut left[offset..offset + CELLS],
            &mut right[2 * offset + 1..2 * offset + 1 + CELLS],
        );
        assert_eq!(got, Repaired { refusal: 0, place: 0, count });
        let mut all = vec![CANARY; 4 * CELLS];
        all[offset..offset + CELLS].copy_from_slice(&want);
        let start = CELLS + 64 + 2 * offset + 1;
        all[start..start + CELLS].copy_from_slice(&marks);
        assert!(space == all, "offset {offset}");
    }
}

/// The program: its table on standard output, a line for each change and their number on standard error.
fn program(input: &[u8]) {
    let output = written("repair", input);
    let said = String::from_utf8(output.stderr).expect("text");
    if input.len() != CELLS {
        assert!(output.stdout.is_empty());
        assert_eq!(said, "refusal place\n8 0\n");
        return;
    }
    let (table, _, count) = wanted(input);
    let mut text = String::from("row column byte new\n");
    for k in (0..CELLS).filter(|&k| table[k] != input[k]) {
        text += &format!("{} {} {} {}\n", k / 128, k % 128, input[k], table[k]);
    }
    text += &format!("changes {count} for 8 bits\n");
    assert!(output.stdout == table);
    assert_eq!(said, text);
}

#[test]
fn the_program() {
    let mut draw = Draw::new(SEED + 4);
    for turn in 0..120 {
        let changes = [0, 1, 30, draw.below(CELLS as u64 + 1), 40 * CELLS as u64][turn % 5];
        program(&damaged(&mut draw, changes, [5, 256][turn % 2]));
    }
    program(&[255; CELLS]);
    for length in [0, 1, CELLS - 1, CELLS + 1, CELLS + 2, 100_000] {
        program(&vec![2; length]);
    }
}

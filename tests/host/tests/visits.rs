//! Visits through the kept table and 20 drawn ones, against runs pair by pair; the picture of visits.
//!
//! Would catch a cell whose visits are off by one or counted for another cell, pairs or digits left out or counted twice, operands
//! at another place, numbers of the list that are added to or touched though they are to be kept; a refusal that is missing, raised
//! without its condition, out of order or with a wrong place; and a picture of visits with a cell left out, drawn twice, in a wrong
//! place or shade, or with another number. The draws are from the fixed seed below.
use host::calls::{count_visits, Visits};
use host::draw::Draw;
use host::programs::printed_with;
use host::specification::{rule, run, CELLS, EIGHT};
use host::svg::{elements, rectangle};
use std::collections::BTreeSet;

const SEED: u64 = 0x5EED_1300;
const CANARY: u32 = 0xA5A5_A5A5;
const KEPT: &[u8] = include_bytes!("../../../tables/kept.table");
const PENTIUM: &[u8] = include_bytes!("../../../tables/pentium-1994.table");

/// All numbers from 2^60 to 2^61 - 1 of which only the first k bits can be ones.
fn operands(k: u32) -> impl Iterator<Item = u64> + Clone {
    (1u64 << 60..1 << 61).step_by(1 << (61 - k))
}

/// The visits of each cell, run by run.
fn model(table: &[u8], k: u32, n: usize) -> Vec<u32> {
    let mut visits = vec![0; CELLS];
    for dividend in operands(k) {
        for divisor in operands(k) {
            for cell in run(table, dividend, divisor, n).cells {
                visits[cell] += 1;
            }
        }
    }
    visits
}

/// What the call leaves in a list of 2,048 numbers and `spare` more, which held canaries.
fn counted(table: &[u8], k: u32, n: usize, spare: usize) -> Vec<u32> {
    let mut list = vec![CANARY; CELLS + spare];
    assert_eq!(count_visits(table, k.into(), n, &mut list), Visits::default(), "k {k}, n {n}");
    assert!(list[CELLS..].iter().all(|&x| x == CANARY), "k {k}, n {n}: the rest of the list");
    list.truncate(CELLS);
    list
}

fn check(table: &[u8], k: u32, n: usize, spare: usize) {
    let (wanted, found) = (model(table, k, n), counted(table, k, n, spare));
    let differs = (0..CELLS).find(|&c| wanted[c] != found[c]);
    assert_eq!(differs, None, "k {k}, n {n}: the first cell that differs");
    let total: u64 = found.iter().map(|&x| u64::from(x)).sum();
    assert_eq!(total, n as u64 * 4u64.pow(k - 1));
}

#[test]
fn all_numbers_of_bits_through_the_kept_table() {
    assert_eq!(operands(6).count(), 32);
    for k in 1..=6 {
        for n in [1, 2, 3, 13, 27, 28] {
            check(KEPT, k, n, (n % 3) * 7);
        }
    }
}

#[test]
fn through_drawn_passing_tables() {
    let mut draw = Draw::new(SEED);
    for turn in 0..20 {
        let table = rule().passing(&mut draw);
        for k in 1..=6 {
            check(&table, k, 1 + draw.below(28) as usize, turn % 2);
        }
        check(&table, 6, 28, 0);
    }
    check(&rule().farthest(), 6, 28, 0);
}

/// What the list held does not matter: zeros, ones, the largest.
#[test]
fn the_list_is_written_over() {
    let wanted = model(KEPT, 4, 28);
    for held in [0, 1, 1 << 31, u32::MAX] {
        let mut list = vec![held; CELLS];
        assert_eq!(count_visits(KEPT, 4, 28, &mut list), Visits::default());
        assert!(list == wanted, "a list of {held}");
    }
}

/// The first refusal by the specification's order: 2, 16, 7, and then the table's.
fn refusal(table: &[u8], bits: u64, digits: usize, room: usize) -> Visits {
    let number = match () {
        () if digits == 0 || digits > 28 => 2,
        () if bits == 0 || bits > 6 => 16,
        () if room < CELLS => 7,
        () => {
            let report = rule().check(table);
            return Visits { refusal: report.refusal, place: report.place };
        }
    };
    Visits { refusal: number, place: 0 }
}

#[test]
fn refusals_in_order_and_nothing_written() {
    let above = [&KEPT[..700], &[5], &KEPT[701..]].concat();
    let tables: [&[u8]; 6] = [KEPT, PENTIUM, &above, &[], &KEPT[..2047], &[KEPT, &[2]].concat()];
    let mut seen = BTreeSet::new();
    for table in tables {
        for bits in [0, 1, 2, 7, 64, u64::MAX] {
            for digits in [0, 1, 2, 29, 31, usize::MAX] {
                for room in [0, 1, 2047, 2048, 2049] {
                    let mut list = vec![CANARY; room];
                    let wanted = refusal(table, bits, digits, room);
                    assert_eq!(count_visits(table, bits, digits, &mut list), wanted, "{bits} {digits} {room}");
                    seen.insert(wanted.refusal);
                    assert!(wanted.refusal == 0 || list.iter().all(|&x| x == CANARY), "{wanted:?} has written");
                }
            }
        }
    }
    assert_eq!(seen.into_iter().collect::<Vec<_>>(), [0, 2, 7, 8, 9, 10, 16]);
}

/// From how many visits on a cell has each shade; the legend says so.
const SHADES: [(u32, &str); 6] =
    [(1, "1 to 7"), (8, "8 to 15"), (16, "16 to 31"), (32, "32 to 63"), (64, "64 to 127"), (128, "128 or more")];

fn class(visits: u32, in_range: bool) -> String {
    match SHADES.iter().filter(|shade| shade.0 <= visits).count() {
        0 => if in_range { "never" } else { "none" }.to_string(),
        shade => format!("v{shade}"),
    }
}

/// The picture shows each cell of the columns 16 to 111 once, at its place, in the shade of its visits, which its title tells.
fn compare_picture(table: &[u8]) {
    let visits = model(table, 6, 28);
    let svg = printed_with("plot", &["visits"], table);
    let all = elements(&svg).unwrap();
    let mut drawn = BTreeSet::new();
    for pair in all.windows(2).filter(|pair| pair[0].name == "path" && pair[1].name == "title") {
        let edge = rectangle(pair[0].get("d")).unwrap();
        let (row, column) = ((edge.left - 100.0) / 40.0, (756.0 - edge.bottom) / 6.0);
        assert_eq!((edge.right - edge.left, edge.bottom - edge.top), (40.0, 6.0));
        let cell = 128 * row as usize + column as usize;
        assert!(row.fract() == 0.0 && column.fract() == 0.0 && drawn.insert(cell), "{row} {column}");
        let in_range = EIGHT.has_point(row as i128, column as i128);
        assert_eq!(pair[0].get("class"), class(visits[cell], in_range), "{row} {column}");
        let end = if in_range { "" } else { ", out of range" };
        assert_eq!(pair[1].text, format!("row {row}, column {column}, visits: {}{end}", visits[cell]));
    }
    let wanted: BTreeSet<usize> = (0..CELLS).filter(|cell| (16..112).contains(&(cell % 128))).collect();
    assert!(drawn == wanted, "{} cells are drawn", drawn.len());
    let met = visits.iter().filter(|&&x| x > 0).count();
    assert!(svg.contains(&format!(": 28,672 digits, taken at {met} cells.</text>")));
    for (i, (_, name)) in SHADES.iter().enumerate() {
        let key = format!("<path class='v{}' d='M836 {}h34v20h-34z'/>", i + 1, 241 - 27 * i);
        assert!(svg.contains(&format!("{key}<text x='880' y='{}'>{name}</text>", 256 - 27 * i)), "{name}");
    }
    assert!(svg.contains("<path class='never' d='M836 268h34v20h-34z'/><text x='880' y='283'>never met</text>"));
    assert!(svg.contains("<path class='none' d='M836 295h34v20h-34z'/><text x='880' y='310'>out of range</text>"));
}

#[test]
fn the_picture_shows_the_visits() {
    let mut draw = Draw::new(SEED + 1);
    compare_picture(KEPT);
    for _ in 0..3 {
        compare_picture(&rule().passing(&mut draw));
    }
}

#[test]
fn no_picture_of_a_table_that_is_refused() {
    for (table, place) in [(PENTIUM, "10 215"), (&KEPT[..2047], "8 0"), (&[], "8 0")] {
        assert_eq!(printed_with("plot", &["visits"], table), format!("refusal place\n{place}\n"));
    }
    assert_eq!(printed_with("plot", &["visit"], KEPT), "");
    assert_eq!(printed_with("plot", &["visitss"], KEPT), "");
    assert_eq!(printed_with("plot", &["visits", "visits"], KEPT), "");
}

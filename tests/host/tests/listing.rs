//! All that `listing` prints on drawn, damaged, short and long inputs, against the other check.
//!
//! Would catch a listing that leaves out or adds a bad cell, prints a wrong witness or number, or takes input of the
//! wrong length for a table: the program is run on whole inputs and all that it prints is compared.
//! The draws are from the fixed seed below.
use host::draw::Draw;
use host::programs::printed;
use host::specification::{rule, CELLS};

const SEED: u64 = 0x5EED_0010;

fn listing(input: &[u8]) -> String {
    printed("listing", input)
}

/// The specification's listing of an input.
fn wanted(input: &[u8]) -> String {
    let report = rule().check(input);
    if report.refusal == 8 || report.refusal == 9 {
        return format!("refusal place\n{} {}\n", report.refusal, report.place);
    }
    let mut text = String::from("row column digit divisor remainder\n");
    for (cell, (d, p)) in rule().bad_cells(input) {
        text += &format!("{} {} {} {d} {p}\n", cell / 128, cell % 128, i16::from(input[cell]) - 2);
    }
    text
}

fn check(input: &[u8]) {
    assert_eq!(listing(input), wanted(input));
}

#[test]
fn worked_example() {
    let mut table = rule().made();
    table[215] = 2;
    let text = "row column digit divisor remainder\n1 87 0 1242993497154256896 3314649325744685056\n";
    assert_eq!(listing(&table), text);
    assert_eq!(wanted(&table), text);
}

#[test]
fn passing_tables_print_one_line() {
    let mut draw = Draw::new(SEED);
    check(&rule().made());
    check(&rule().farthest());
    check(&rule().passing(&mut draw));
}

#[test]
fn lengths() {
    let made = rule().made();
    for length in [0, 1, 2047, 2049, 2050, 5000, 100_000] {
        let input: Vec<u8> = made.iter().copied().cycle().take(length).collect();
        check(&input);
    }
}

#[test]
fn bytes_above_four() {
    let made = rule().made();
    let with = |changes: &[(usize, u8)]| {
        let mut table = made.clone();
        changes.iter().for_each(|&(cell, byte)| table[cell] = byte);
        table
    };
    for (changes, place) in [
        (vec![(0, 5)], 0),
        (vec![(2047, 5)], 2047),
        (vec![(1500, 5), (100, 255)], 100),
        // behind a bad cell
        (vec![(215, 2), (1500, 5)], 1500),
    ] {
        assert_eq!(listing(&with(&changes)), format!("refusal place\n9 {place}\n"));
    }
    // the length goes before the bytes
    let long = [&made[..], &[255]].concat();
    assert_eq!(listing(&long), "refusal place\n8 0\n");
    assert_eq!(listing(&with(&[(3, 9)])[..2047]), "refusal place\n8 0\n");
}

#[test]
fn damaged_and_random_tables() {
    let mut draw = Draw::new(SEED + 1);
    for turn in 0..150u64 {
        let mut table = rule().passing(&mut draw);
        for _ in 0..draw.below(60) {
            table[draw.below(CELLS as u64) as usize] = draw.below(5 + turn % 10 / 9) as u8;
        }
        check(&table);
    }
    for bound in [5, 6, 256] {
        let table: Vec<u8> = (0..CELLS).map(|_| draw.below(bound) as u8).collect();
        check(&table);
    }
    // bad in every cell that has a point; a byte above 4 behind a bad cell
    let mut worst: Vec<u8> = rule().made().iter().map(|b| if *b < 2 { 4 } else { 0 }).collect();
    check(&worst);
    worst[2000] = 5;
    check(&worst);
}

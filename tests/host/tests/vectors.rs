//! 9,724 public vectors, on which processor, exact divider and unit have to agree.
//!
//! Would catch a public IEEE vector on which the unit, the processor and the exact divider, or the exact root, do not all
//! give the vector's pattern and flags; and a file of vectors that is missing, cut short or not in its form.
use host::calls::{divide_binary64, root_binary64, Binary64};
use host::dividers::{exact, exact_root, processor, processor_root, signals};
use host::specification::rule;

/// The files, each with its number of lines.
const FILES: [(&str, usize); 7] = [
    ("div-glibc.txt", 1_136),
    ("div-llvm.txt", 28),
    ("div-mpfr.txt", 12),
    ("div-nan.txt", 400),
    ("div-testfloat.txt", 4_676),
    ("sqrt-glibc.txt", 420),
    ("sqrt-testfloat.txt", 3_052),
];
const FOLDER: &str = concat!(env!("CARGO_MANIFEST_DIR"), "/../../crates/vectors/data");

/// A quotient, or the root of a.
struct Vector {
    a: u64,
    b: Option<u64>,
    direction: u64,
    pattern: u64,
    flags: u64,
}

/// A line `a b direction pattern flags`: 16 hexadecimal digits, 16, or as many blanks for a root, one digit, 16, two
/// decimal digits.
fn parse(line: &str) -> Option<Vector> {
    let ends = [(0, 16), (17, 33), (34, 35), (36, 52), (53, 55)];
    let fields: Vec<&str> = ends.iter().map(|&(start, end)| line.get(start..end)).collect::<Option<_>>()?;
    if line.len() != 55 || ends[1..].iter().any(|&(start, _)| line.as_bytes()[start - 1] != b' ') {
        return None;
    }
    let pattern = |k: usize| u64::from_str_radix(fields[k], 16).ok();
    let number = |k: usize| fields[k].parse().ok();
    let b = if fields[1] == " ".repeat(16) { None } else { Some(pattern(1)?) };
    Some(Vector { a: pattern(0)?, b, direction: number(2)?, pattern: pattern(3)?, flags: number(4)? })
}

fn vectors(file: &str) -> Vec<Vector> {
    let text = std::fs::read_to_string(format!("{FOLDER}/{file}")).unwrap_or_else(|e| panic!("{file}: {e}"));
    let read = |(k, line)| parse(line).unwrap_or_else(|| panic!("{file}: line {} is not in the form: {line}", k + 1));
    text.lines().enumerate().map(read).collect()
}

#[test]
fn unit_processor_and_exact_divider_give_each_vector() {
    let farthest = rule().farthest();
    let (mut signalling, mut roots) = (0, 0);
    for (file, count) in FILES {
        let list = vectors(file);
        assert_eq!(list.len(), count, "{file}");
        for Vector { a, b, direction, pattern, flags } in list {
            let what = format!("{file}: {a:016x}, {b:016x?}, direction {direction}");
            let want = (pattern, flags);
            let answer = Binary64 { refusal: 0, place: 0, pattern, flags };
            let Some(b) = b else {
                assert_eq!(processor_root(a, direction), want, "the processor, {what}");
                assert_eq!(exact_root(a, direction), want, "the exact root, {what}");
                assert_eq!(root_binary64(a, direction), answer, "the unit, {what}");
                roots += 1;
                continue;
            };
            signalling += u64::from(signals(a) || signals(b));
            assert_eq!(processor(a, b, direction), want, "the processor, {what}");
            assert_eq!(exact(a, b, direction), want, "the exact divider, {what}");
            for table in [None, Some(&farthest[..])] {
                assert_eq!(divide_binary64(table, a, b, direction), answer, "the unit, {what}");
            }
        }
    }
    assert_eq!((signalling, roots), (156, 3_472));
}

#[test]
fn no_file_of_vectors_is_passed_over() {
    let entries = std::fs::read_dir(FOLDER).expect("the folder of the vectors");
    let names = entries.map(|entry| entry.expect("an entry").file_name().into_string().expect("a name"));
    let mut found: Vec<String> = names.filter(|name| name.ends_with(".txt")).collect();
    found.sort();
    assert_eq!(found, FILES.map(|(file, _)| file));
}

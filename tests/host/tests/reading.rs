//! `listing`, `repair` and `plot` where a read fails or gives fewer bytes.
//!
//! Would catch a program that takes a read which fails after some bytes for the end of its input, or one that gives fewer
//! bytes than were asked for: its input is a socket that gives some bytes and then fails, or whose last byte comes late.
use host::programs::{fed, written};
use host::specification::rule;

const READERS: [&str; 3] = ["listing", "repair", "plot"];

#[test]
fn a_read_that_fails_after_some_bytes() {
    let table = rule().made();
    for name in READERS {
        for length in [1, 1000, 2047, 2048] {
            let output = fed(name, &table[..length], None);
            assert_eq!(String::from_utf8_lossy(&output.stdout), "", "{name}, {length} bytes");
            assert_eq!(
                String::from_utf8_lossy(&output.stderr),
                format!("{name}: not all was read\n"),
                "{name}, {length} bytes"
            );
        }
    }
}

#[test]
fn a_last_byte_that_comes_late() {
    let mut table = rule().made();
    table[215] = 2;
    let longer: Vec<u8> = table.iter().copied().chain([2]).collect();
    for name in READERS {
        for input in [&table[..], &longer[..]] {
            let (last, first) = input.split_last().expect("bytes");
            let output = fed(name, first, Some(*last));
            let wanted = written(name, input);
            assert_eq!(output.stdout, wanted.stdout, "{name}, {} bytes", input.len());
            assert_eq!(output.stderr, wanted.stderr, "{name}, {} bytes", input.len());
        }
    }
}

//! A reading from Rust: the quotient of a current and a sensitivity, through the kept table.
//!
//!     reading CURRENT SENSITIVITY
//!
//! The current is in nA, the sensitivity in nA a ppm, and the reading in ppm.
//! Status: 0 the reading was printed, 1 there is none, 2 the arguments are wrong or not all was written; what is wrong stands
//! on standard error.
//! Build: rustc -L target/staticlib examples/reading.rs -o build/reading

use std::io::Write;
use std::process::ExitCode;

#[repr(C)]
struct Binary64 {
    refusal: u64,
    place: u64,
    pattern: u64,
    flags: u64,
}

#[link(name = "quendaric", kind = "static")]
extern "C" {
    fn quendaric_divide_binary64_kept(a: u64, b: u64, direction: u64) -> Binary64;
}

const NEAREST: u64 = 0;
const INEXACT: u64 = 1;
const UNDERFLOW: u64 = 2;

/// What the cell can be, in nA a ppm, and what it can read, in ppm. Put in the figures of yours.
const SENSITIVITIES: std::ops::RangeInclusive<f64> = 10.0..=10000.0;
const READINGS: std::ops::RangeInclusive<f64> = -5.0..=500.0;

/// The rule of `quendaric_reading` in the header, with the sensitivities of this cell.
fn is_reading(answer: &Binary64, current: f64, sensitivity: f64) -> bool {
    answer.refusal == 0
        && current.is_finite()
        && SENSITIVITIES.contains(&sensitivity)
        && answer.flags & !(INEXACT | UNDERFLOW) == 0
        && READINGS.contains(&f64::from_bits(answer.pattern))
}

/// The number in an argument, where it is one that is finite and in the range of f64.
fn number(place: usize) -> Option<f64> {
    let word = std::env::args_os().nth(place)?.into_string().ok()?;
    let number: f64 = word.parse().ok()?;
    // a number below the range is read as 0
    let significand = word.split(['e', 'E']).next()?;
    let below = number == 0.0 && significand.contains(|c: char| ('1'..='9').contains(&c));
    (number.is_finite() && !below).then_some(number)
}

fn main() -> ExitCode {
    let (Some(current), Some(sensitivity), 3) = (number(1), number(2), std::env::args_os().len()) else {
        eprintln!("usage: reading CURRENT SENSITIVITY, both finite numbers in the range of f64");
        return ExitCode::from(2);
    };
    // the call takes three numbers and has no pointer
    let answer = unsafe { quendaric_divide_binary64_kept(current.to_bits(), sensitivity.to_bits(), NEAREST) };
    let reading = f64::from_bits(answer.pattern);
    if !is_reading(&answer, current, sensitivity) {
        eprintln!("no reading: refusal {}, flags {}, quotient {reading:e}", answer.refusal, answer.flags);
        eprintln!("this cell has {SENSITIVITIES:?} nA a ppm and reads {READINGS:?}");
        return ExitCode::from(1);
    }
    let mut output = std::io::stdout();
    let written = writeln!(output, "reading {reading}, flags {}", answer.flags).and_then(|()| output.flush());
    if let Err(fault) = written {
        eprintln!("standard output: not all was written: {fault}");
        return ExitCode::from(2);
    }
    ExitCode::SUCCESS
}

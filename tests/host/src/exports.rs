//! The calls of the archive, with slices for pointers and lengths. tools/prototypes makes this file: do not edit it.

use crate::calls::left;

#[repr(C)]
#[derive(Clone, Copy, Debug, Default, PartialEq, Eq)]
pub struct Cell {
    pub refusal: u64,
    pub place: u64,
    pub allowed: u64,
    pub divisor: u64,
    pub remainder: i64,
}

#[repr(C)]
#[derive(Clone, Copy, Debug, Default, PartialEq, Eq)]
pub struct Report {
    pub refusal: u64,
    pub place: u64,
    pub count: u64,
    pub row: u64,
    pub column: u64,
    pub divisor: u64,
    pub remainder: i64,
}

#[repr(C)]
#[derive(Clone, Copy, Debug, Default, PartialEq, Eq)]
pub struct Limits {
    pub refusal: u64,
    pub place: u64,
    pub limits: [u8; 6],
}

#[repr(C)]
#[derive(Clone, Copy, Debug, Default, PartialEq, Eq)]
pub struct Made {
    pub refusal: u64,
    pub place: u64,
}

#[repr(C)]
#[derive(Clone, Copy, Debug, Default, PartialEq, Eq)]
pub struct Repaired {
    pub refusal: u64,
    pub place: u64,
    pub count: u64,
}

#[repr(C)]
#[derive(Clone, Copy, Debug, Default, PartialEq, Eq)]
pub struct Ran {
    pub refusal: u64,
    pub place: u64,
    pub quotient: u64,
    pub remainder: u64,
    pub digits: u64,
}

#[repr(C)]
#[derive(Clone, Copy, Debug, Default, PartialEq, Eq)]
pub struct Stepped {
    pub refusal: u64,
    pub place: u64,
    pub digit: i64,
    pub sum: u64,
    pub carry: u64,
}

#[repr(C)]
#[derive(Clone, Copy, Debug, Default, PartialEq, Eq)]
pub struct Whole {
    pub refusal: u64,
    pub place: u64,
    pub quotient: u64,
    pub remainder: u64,
}

#[repr(C)]
#[derive(Clone, Copy, Debug, Default, PartialEq, Eq)]
pub struct Binary64 {
    pub refusal: u64,
    pub place: u64,
    pub pattern: u64,
    pub flags: u64,
}

#[repr(C)]
#[derive(Clone, Copy, Debug, Default, PartialEq, Eq)]
pub struct Samples {
    pub refusal: u64,
    pub place: u64,
    pub flags: u64,
    pub count: u64,
}

#[repr(C)]
#[derive(Clone, Copy, Debug, Default, PartialEq, Eq)]
pub struct AffectedCount {
    pub refusal: u64,
    pub place: u64,
    pub count: u64,
}

#[repr(C)]
#[derive(Clone, Copy, Debug, Default, PartialEq, Eq)]
pub struct AffectedMark {
    pub refusal: u64,
    pub place: u64,
    pub affected: u64,
}

#[repr(C)]
#[derive(Clone, Copy, Debug, Default, PartialEq, Eq)]
pub struct Averages {
    pub refusal: u64,
    pub place: u64,
}

#[repr(C)]
#[derive(Clone, Copy, Debug, Default, PartialEq, Eq)]
pub struct Packed {
    pub refusal: u64,
    pub place: u64,
    pub quotient: [u8; 8],
    pub remainder: [u8; 8],
}

#[repr(C)]
#[derive(Clone, Copy, Debug, Default, PartialEq, Eq)]
pub struct Visits {
    pub refusal: u64,
    pub place: u64,
}

#[repr(C)]
#[derive(Clone, Copy, Debug, Default, PartialEq, Eq)]
pub struct Comparison {
    pub refusal: u64,
    pub place: u64,
    pub order: i64,
}

#[repr(C)]
#[derive(Clone, Copy, Debug, Default, PartialEq, Eq)]
pub struct Root {
    pub refusal: u64,
    pub place: u64,
    pub root: u64,
    pub remainder: u64,
}

#[repr(C)]
#[derive(Clone, Copy, Debug, Default, PartialEq, Eq)]
pub struct Linked {
    pub refusal: u64,
    pub place: u64,
}

extern "C" {
    pub fn quendaric_check_cell(row: u64, column: u64, byte: u8) -> Cell;
    pub fn quendaric_check_cell_for(estimate_bits: u64, row: u64, column: u64, byte: u8) -> Cell;
    pub fn quendaric_check_table(table: *const u8, length: usize) -> Report;
    pub fn quendaric_check_table_for(estimate_bits: u64, table: *const u8, table_length: usize) -> Report;
    pub fn quendaric_row_limits(row: u64) -> Limits;
    pub fn quendaric_row_limits_for(estimate_bits: u64, row: u64) -> Limits;
    pub fn quendaric_make_table(buffer: *mut u8, length: usize) -> Made;
    pub fn quendaric_make_table_for(estimate_bits: u64, buffer: *mut u8, buffer_length: usize) -> Made;
    pub fn quendaric_repair_table(
        table: *const u8,
        table_length: usize,
        repaired: *mut u8,
        repaired_length: usize,
        changed: *mut u8,
        changed_length: usize,
    ) -> Repaired;
    pub fn quendaric_repair_table_for(
        estimate_bits: u64,
        table: *const u8,
        table_length: usize,
        repaired: *mut u8,
        repaired_length: usize,
        changed: *mut u8,
        changed_length: usize,
    ) -> Repaired;
    pub fn quendaric_run(
        table: *const u8,
        table_length: usize,
        dividend: u64,
        divisor: u64,
        digits: usize,
        buffer: *mut u8,
        buffer_length: usize,
        place: usize,
    ) -> Ran;
    pub fn quendaric_run_kept(
        dividend: u64,
        divisor: u64,
        digits: usize,
        buffer: *mut u8,
        buffer_length: usize,
        place: usize,
    ) -> Ran;
    pub fn quendaric_step(sum: u64, carry: u64, divisor: u64, table: *const u8, table_length: usize) -> Stepped;
    pub fn quendaric_divide_whole(table: *const u8, table_length: usize, a: u64, b: u64) -> Whole;
    pub fn quendaric_divide_whole_kept(a: u64, b: u64) -> Whole;
    pub fn quendaric_divide_binary64(table: *const u8, table_length: usize, a: u64, b: u64, direction: u64) -> Binary64;
    pub fn quendaric_divide_binary64_kept(a: u64, b: u64, direction: u64) -> Binary64;
    pub fn quendaric_divide_samples(
        table: *const u8,
        table_length: usize,
        currents: *const u64,
        currents_length: usize,
        sensitivities: *const u64,
        sensitivities_length: usize,
        concentrations: *mut u64,
        concentrations_length: usize,
        direction: u64,
    ) -> Samples;
    pub fn quendaric_affected_samples(
        estimate_bits: u64,
        table: *const u8,
        table_length: usize,
        currents: *const u64,
        currents_length: usize,
        sensitivities: *const u64,
        sensitivities_length: usize,
        affected: *mut u8,
        affected_length: usize,
    ) -> AffectedCount;
    pub fn quendaric_affected_whole(
        estimate_bits: u64,
        table: *const u8,
        table_length: usize,
        a: u64,
        b: u64,
    ) -> AffectedMark;
    pub fn quendaric_affected_run(
        estimate_bits: u64,
        table: *const u8,
        table_length: usize,
        dividend: u64,
        divisor: u64,
        digits: usize,
    ) -> AffectedMark;
    pub fn quendaric_average_windows(
        readings: *const u64,
        readings_length: usize,
        width: usize,
        newest_first: bool,
        means: *mut u64,
        means_length: usize,
        remainders: *mut u64,
        remainders_length: usize,
    ) -> Averages;
    pub fn quendaric_divide_packed(dividend: *const u8, divisor: *const u8) -> Packed;
    pub fn quendaric_count_visits(
        table: *const u8,
        table_length: usize,
        bits: u64,
        digits: usize,
        visits: *mut u32,
        visits_length: usize,
    ) -> Visits;
    pub fn quendaric_compare_ratios(a: u64, b: u64, c: u64, d: u64) -> Comparison;
    pub fn quendaric_root_whole(a: u64) -> Root;
    pub fn quendaric_root_binary64(a: u64, direction: u64) -> Binary64;
    pub fn quendaric_version_3_6_0() -> Linked;
}

pub fn check_cell(row: u64, column: u64, byte: u8) -> Cell {
    unsafe { quendaric_check_cell(row, column, byte) }
}

pub fn check_cell_for(estimate_bits: u64, row: u64, column: u64, byte: u8) -> Cell {
    unsafe { quendaric_check_cell_for(estimate_bits, row, column, byte) }
}

pub fn check_table(table: &[u8]) -> Report {
    let table_before = table.to_vec();
    let answer = unsafe { quendaric_check_table(table.as_ptr(), table.len()) };
    left(table, &table_before);
    answer
}

pub fn check_table_for(estimate_bits: u64, table: &[u8]) -> Report {
    let table_before = table.to_vec();
    let answer = unsafe { quendaric_check_table_for(estimate_bits, table.as_ptr(), table.len()) };
    left(table, &table_before);
    answer
}

pub fn row_limits(row: u64) -> Limits {
    unsafe { quendaric_row_limits(row) }
}

pub fn row_limits_for(estimate_bits: u64, row: u64) -> Limits {
    unsafe { quendaric_row_limits_for(estimate_bits, row) }
}

pub fn make_table(buffer: &mut [u8]) -> Made {
    unsafe { quendaric_make_table(buffer.as_mut_ptr(), buffer.len()) }
}

pub fn make_table_for(estimate_bits: u64, buffer: &mut [u8]) -> Made {
    unsafe { quendaric_make_table_for(estimate_bits, buffer.as_mut_ptr(), buffer.len()) }
}

pub fn repair_table(table: &[u8], repaired: &mut [u8], changed: &mut [u8]) -> Repaired {
    let table_before = table.to_vec();
    let answer = unsafe {
        quendaric_repair_table(
            table.as_ptr(),
            table.len(),
            repaired.as_mut_ptr(),
            repaired.len(),
            changed.as_mut_ptr(),
            changed.len(),
        )
    };
    left(table, &table_before);
    answer
}

pub fn repair_table_for(estimate_bits: u64, table: &[u8], repaired: &mut [u8], changed: &mut [u8]) -> Repaired {
    let table_before = table.to_vec();
    let answer = unsafe {
        quendaric_repair_table_for(
            estimate_bits,
            table.as_ptr(),
            table.len(),
            repaired.as_mut_ptr(),
            repaired.len(),
            changed.as_mut_ptr(),
            changed.len(),
        )
    };
    left(table, &table_before);
    answer
}

pub fn run(table: &[u8], dividend: u64, divisor: u64, digits: usize, buffer: &mut [u8], place: usize) -> Ran {
    let table_before = table.to_vec();
    let answer = unsafe {
        quendaric_run(table.as_ptr(), table.len(), dividend, divisor, digits, buffer.as_mut_ptr(), buffer.len(), place)
    };
    left(table, &table_before);
    answer
}

pub fn run_kept(dividend: u64, divisor: u64, digits: usize, buffer: &mut [u8], place: usize) -> Ran {
    unsafe { quendaric_run_kept(dividend, divisor, digits, buffer.as_mut_ptr(), buffer.len(), place) }
}

pub fn step(sum: u64, carry: u64, divisor: u64, table: &[u8]) -> Stepped {
    let table_before = table.to_vec();
    let answer = unsafe { quendaric_step(sum, carry, divisor, table.as_ptr(), table.len()) };
    left(table, &table_before);
    answer
}

pub fn divide_whole(table: &[u8], a: u64, b: u64) -> Whole {
    let table_before = table.to_vec();
    let answer = unsafe { quendaric_divide_whole(table.as_ptr(), table.len(), a, b) };
    left(table, &table_before);
    answer
}

pub fn divide_whole_kept(a: u64, b: u64) -> Whole {
    unsafe { quendaric_divide_whole_kept(a, b) }
}

pub fn divide_binary64(table: &[u8], a: u64, b: u64, direction: u64) -> Binary64 {
    let table_before = table.to_vec();
    let answer = unsafe { quendaric_divide_binary64(table.as_ptr(), table.len(), a, b, direction) };
    left(table, &table_before);
    answer
}

pub fn divide_binary64_kept(a: u64, b: u64, direction: u64) -> Binary64 {
    unsafe { quendaric_divide_binary64_kept(a, b, direction) }
}

pub fn divide_samples(
    table: &[u8],
    currents: &[u64],
    sensitivities: &[u64],
    concentrations: &mut [u64],
    direction: u64,
) -> Samples {
    let table_before = table.to_vec();
    let currents_before = currents.to_vec();
    let sensitivities_before = sensitivities.to_vec();
    let answer = unsafe {
        quendaric_divide_samples(
            table.as_ptr(),
            table.len(),
            currents.as_ptr(),
            currents.len(),
            sensitivities.as_ptr(),
            sensitivities.len(),
            concentrations.as_mut_ptr(),
            concentrations.len(),
            direction,
        )
    };
    left(table, &table_before);
    left(currents, &currents_before);
    left(sensitivities, &sensitivities_before);
    answer
}

pub fn affected_samples(
    estimate_bits: u64,
    table: &[u8],
    currents: &[u64],
    sensitivities: &[u64],
    affected: &mut [u8],
) -> AffectedCount {
    let table_before = table.to_vec();
    let currents_before = currents.to_vec();
    let sensitivities_before = sensitivities.to_vec();
    let answer = unsafe {
        quendaric_affected_samples(
            estimate_bits,
            table.as_ptr(),
            table.len(),
            currents.as_ptr(),
            currents.len(),
            sensitivities.as_ptr(),
            sensitivities.len(),
            affected.as_mut_ptr(),
            affected.len(),
        )
    };
    left(table, &table_before);
    left(currents, &currents_before);
    left(sensitivities, &sensitivities_before);
    answer
}

pub fn affected_whole(estimate_bits: u64, table: &[u8], a: u64, b: u64) -> AffectedMark {
    let table_before = table.to_vec();
    let answer = unsafe { quendaric_affected_whole(estimate_bits, table.as_ptr(), table.len(), a, b) };
    left(table, &table_before);
    answer
}

pub fn affected_run(estimate_bits: u64, table: &[u8], dividend: u64, divisor: u64, digits: usize) -> AffectedMark {
    let table_before = table.to_vec();
    let answer = unsafe {
        quendaric_affected_run(estimate_bits, table.as_ptr(), table.len(), dividend, divisor, digits)
    };
    left(table, &table_before);
    answer
}

pub fn average_windows(
    readings: &[u64],
    width: usize,
    newest_first: bool,
    means: &mut [u64],
    remainders: &mut [u64],
) -> Averages {
    let readings_before = readings.to_vec();
    let answer = unsafe {
        quendaric_average_windows(
            readings.as_ptr(),
            readings.len(),
            width,
            newest_first,
            means.as_mut_ptr(),
            means.len(),
            remainders.as_mut_ptr(),
            remainders.len(),
        )
    };
    left(readings, &readings_before);
    answer
}

pub fn divide_packed(dividend: &[u8; 8], divisor: &[u8; 8]) -> Packed {
    let dividend_before = dividend.to_vec();
    let divisor_before = divisor.to_vec();
    let answer = unsafe { quendaric_divide_packed(dividend.as_ptr(), divisor.as_ptr()) };
    left(dividend, &dividend_before);
    left(divisor, &divisor_before);
    answer
}

pub fn count_visits(table: &[u8], bits: u64, digits: usize, visits: &mut [u32]) -> Visits {
    let table_before = table.to_vec();
    let answer = unsafe {
        quendaric_count_visits(table.as_ptr(), table.len(), bits, digits, visits.as_mut_ptr(), visits.len())
    };
    left(table, &table_before);
    answer
}

pub fn compare_ratios(a: u64, b: u64, c: u64, d: u64) -> Comparison {
    unsafe { quendaric_compare_ratios(a, b, c, d) }
}

pub fn root_whole(a: u64) -> Root {
    unsafe { quendaric_root_whole(a) }
}

pub fn root_binary64(a: u64, direction: u64) -> Binary64 {
    unsafe { quendaric_root_binary64(a, direction) }
}

pub fn version_3_6_0() -> Linked {
    unsafe { quendaric_version_3_6_0() }
}

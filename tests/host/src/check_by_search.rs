//! A check in 64-bit words without a row's multiples: a rule in small numbers says which cells are bad, and a search for the
//! least witness from below and from above judges a single cell. What the estimate leaves out at most, the
//! span, is given, so that there is one for each estimate.
use crate::calls::{Cell, Report};
use crate::specification::CELLS;

/// What the remainders are moved up by, and the widths of a column and of a row.
const HALF: u64 = 1 << 63;
const COLUMN: u64 = 1 << 57;
const ROW: u64 = 1 << 56;

/// In units of 2^56 three times the remainders of a column lie from v - LOW_EDGE on, for six times its number, v.
const LOW_EDGE: u64 = 384;

/// The check for a span, which is two short of so many units of 2^56.
pub struct Check {
    units: u64,
}

pub const SEVEN: Check = Check { units: 4 };
pub const EIGHT: Check = Check { units: 3 };

/// The least D from `start` on with x <= 8D and, for k = 0, y < 4D, for k = 1, y < D.
fn least_divisor(start: u64, x: u64, y: u64, k: u64) -> u64 {
    let past = match k {
        0 => y / 4 + 1,
        1 => y + 1,
        _ => 0,
    };
    start.max((x + 7) / 8).max(past)
}

impl Check {
    /// Does the cell allow the byte's digit?
    pub fn allows(&self, row: u64, column: u64, byte: u8) -> bool {
        let (v, u, w) = (6 * column, 16 + row, 17 + row);
        let high_edge = LOW_EDGE - 3 * self.units;
        if v <= high_edge - 8 * w || LOW_EDGE + 8 * w <= v {
            return true;
        }
        let (least, greatest) = match byte {
            0 => (0, high_edge - 4 * w),
            1 => (LOW_EDGE - 5 * u, high_edge - w),
            2 => (LOW_EDGE - 2 * u, high_edge + 2 * u),
            3 => (LOW_EDGE + w, high_edge + 5 * u),
            _ => (LOW_EDGE + 4 * w, 768),
        };
        least <= v && v <= greatest
    }

    /// The least divisor, and for it the least remainder plus 2^63, that break a digit.
    fn search(&self, row: u64, column: u64, byte: u64) -> Option<(u64, u64)> {
        if !(20..=106).contains(&column) {
            return None;
        }
        let (left, right) = (column * COLUMN, column * COLUMN + self.units * ROW - 2);
        let (start, end) = ((16 + row) * ROW, (17 + row) * ROW);
        let (above, under) = (3 * left.saturating_sub(HALF), 3 * HALF.saturating_sub(right));
        let reach = |d: u64| 2 * d + 2 * d / 3;
        let low = Some(least_divisor(start, under, above, 4 - byte)).filter(|&d| d < end).and_then(|d| {
            let w = left.max(HALF - reach(d));
            (w - (HALF - reach(d)) < byte * d).then_some((d, w))
        });
        let high = Some(least_divisor(start, above, under, byte)).filter(|&d| d < end).and_then(|d| {
            let w = left.max(HALF - 2 * d + byte * d + 2 * d / 3 + 1);
            (w <= right && w <= HALF + reach(d)).then_some((d, w))
        });
        match (low, high) {
            (Some(a), Some(b)) => Some(if b.0 < a.0 { b } else { a }),
            (a, b) => a.or(b),
        }
    }

    /// The answer to a single cell and a byte from 0 to 4.
    pub fn check_cell(&self, row: u64, column: u64, byte: u8) -> Cell {
        match self.search(row, column, u64::from(byte)) {
            None => Cell { allowed: 1, ..Default::default() },
            Some((divisor, w)) => Cell { divisor, remainder: w.wrapping_sub(HALF) as i64, ..Default::default() },
        }
    }

    /// The check's answer.
    pub fn check_table(&self, table: &[u8]) -> Report {
        if table.len() != CELLS {
            return Report { refusal: 8, ..Default::default() };
        }
        if let Some(place) = table.iter().position(|&byte| byte > 4) {
            return Report { refusal: 9, place: place as u64, ..Default::default() };
        }
        let cell = |k: usize| (k as u64 / 128, k as u64 % 128, table[k]);
        let bad = |k: &usize| {
            let (row, column, byte) = cell(*k);
            !self.allows(row, column, byte)
        };
        let Some(first) = (0..CELLS).find(bad) else {
            return Default::default();
        };
        let (row, column, byte) = cell(first);
        let witness = self.check_cell(row, column, byte);
        Report {
            refusal: 10,
            place: first as u64,
            count: (0..CELLS).filter(bad).count() as u64,
            row,
            column,
            divisor: witness.divisor,
            remainder: witness.remainder,
        }
    }
}

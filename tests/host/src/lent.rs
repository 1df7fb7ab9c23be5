//! What a test lends: tables that pass and that do not, each with the refusal that a call gives for it, at every address.

use crate::specification::{rule, CELLS};

pub const CANARY: u8 = 0xA5;

/// A refusal and its place.
pub type Fault = (u64, u64);

/// Tables that pass and that do not, each with what a call tells of it.
pub fn tables() -> Vec<(Vec<u8>, Fault)> {
    let made = rule().made();
    let with = |changes: &[(usize, u8)]| {
        let mut table = made.clone();
        for &(cell, byte) in changes {
            table[cell] = byte;
        }
        table
    };
    let mut list = vec![
        (made.clone(), (0, 0)),
        (rule().farthest(), (0, 0)),
        (Vec::new(), (8, 0)),
        (made[..2047].to_vec(), (8, 0)),
        ([&made[..], &[2]].concat(), (8, 0)),
        // too short, and a byte above 4, and a bad cell: 8 goes first
        (with(&[(40, 9), (215, 2)])[..2000].to_vec(), (8, 0)),
        (with(&[(0, 5)]), (9, 0)),
        (with(&[(2047, 255)]), (9, 2047)),
        // a byte above 4 goes before an earlier bad cell
        (with(&[(215, 2), (1000, 5), (1500, 7)]), (9, 1000)),
        (with(&[(215, 2)]), (10, 215)),
        (with(&[(215, 2), (1234, 0), (60, 0)]), (10, 60)),
    ];
    let told = |table: &[u8]| (rule().check(table).refusal, rule().check(table).place);
    for (table, fault) in &list {
        assert_eq!(told(table), *fault);
    }
    let zeros = vec![2; CELLS];
    let fault = told(&zeros);
    list.push((zeros, fault));
    list
}

/// The same, and none: the kept table, of which nothing is refused.
pub fn tables_and_none() -> Vec<(Option<Vec<u8>>, Fault)> {
    tables().into_iter().map(|(table, fault)| (Some(table), fault)).chain([(None, (0, 0))]).collect()
}

/// The first condition that holds, in the call's order; then what the table tells.
pub fn first(conditions: &[(u64, bool)], table: Fault) -> Fault {
    conditions.iter().find(|(_, holds)| *holds).map_or(table, |&(number, _)| (number, 0))
}

/// Bytes at an offset from an address that 64 divides, with a canary before and behind them.
#[repr(align(64))]
pub struct Space([u8; 4096]);

impl Space {
    pub const OFFSETS: std::ops::Range<usize> = 0..18;

    pub fn new(offset: usize, bytes: &[u8]) -> Box<Space> {
        let mut space = Box::new(Space([CANARY; 4096]));
        assert_eq!(space.0.as_ptr() as usize % 64, 0);
        space.part(offset, bytes.len()).copy_from_slice(bytes);
        space
    }

    pub fn part(&mut self, offset: usize, length: usize) -> &mut [u8] {
        &mut self.0[64 + offset..64 + offset + length]
    }

    /// These bytes at the offset, and a canary everywhere else.
    pub fn holds(&self, offset: usize, bytes: &[u8]) -> bool {
        self.0 == Space::new(offset, bytes).0
    }
}

/// A call with each of the tables at every offset, and then every byte of the space; `wanted` is told the table's fault.
pub fn at_any_address<T: PartialEq + std::fmt::Debug>(wanted: impl Fn(Fault) -> T, call: impl Fn(&[u8], Fault) -> T) {
    for (table, fault) in tables() {
        for offset in Space::OFFSETS {
            let mut space = Space::new(offset, &table);
            assert_eq!(call(space.part(offset, table.len()), fault), wanted(fault), "table at offset {offset}");
            assert!(space.holds(offset, &table), "a byte of the table's space changed, offset {offset}");
        }
    }
}

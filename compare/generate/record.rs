//! What records are put together from (../FORMAT.md), and how long their parts
//! may be.

use crate::networks::{MOST_LINKS, MOST_NODES};

/// What a part may have beyond all that can be asked of it.
const SPARE: usize = 128;

pub const LONGEST_ROW: usize = MOST_LINKS + 16;
pub const LONGEST_TABLE: usize = 2 * MOST_LINKS * MOST_NODES + SPARE;
pub const LONGEST_TRACE: usize = 256 + SPARE;

/// Two counts, and three numbers for each link, of three groups each: no good
/// plan is longer.
pub const PLAN_BOUND: usize = 3 * (2 + 3 * MOST_LINKS);
/// Of a stored plan, and of a room for one.
pub const LONGEST_PLAN: usize = PLAN_BOUND + SPARE;

/// A whole record: kind, length, fields.
pub fn record(kind: char, fields: &[&[u8]]) -> Vec<u8> {
    let fields = fields.concat();
    let length = u32::try_from(fields.len()).expect("records stay short");
    [&[kind as u8][..], &length.to_le_bytes(), &fields].concat()
}

pub fn two(number: usize) -> [u8; 2] {
    u16::try_from(number).expect("lengths stay short").to_le_bytes()
}

pub fn eight(number: u64) -> [u8; 8] {
    number.to_le_bytes()
}

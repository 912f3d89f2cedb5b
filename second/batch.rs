//! Takes a batch apart: into records, and a record into its fields. What a
//! batch looks like: ../compare/FORMAT.md. Which fields a record has, its
//! reader knows (codec.rs, records.rs). A batch that does not hold what is due,
//! or more than that, is an error of the comparison itself, never an answer.

use crate::network::{Network, MOST_LINKS, MOST_NODES};

/// What a part may have beyond all that can be asked of it.
const SPARE: usize = 128;
const MOST_ROW: usize = MOST_LINKS + 16;
pub const MOST_TABLE: usize = 2 * MOST_LINKS * MOST_NODES as usize + SPARE;
pub const MOST_TRACE: usize = 256 + SPARE;
/// Of a stored plan, and of a room for one.
pub const MOST_PLAN: usize = 3 * (2 + 3 * MOST_LINKS) + SPARE;

/// One record, as far as it has not been read.
pub struct Record<'a> {
    pub kind: u8,
    left: &'a [u8],
}

fn within(length: usize, most: usize) -> Result<usize, String> {
    if length > most { Err(format!("a length of {length}, over {most}")) } else { Ok(length) }
}

fn number(bytes: &[u8]) -> u64 {
    bytes.iter().rev().fold(0, |sum, &b| sum << 8 | u64::from(b))
}

/// The first record of a batch, and what follows it.
fn split(batch: &[u8]) -> Option<(Record<'_>, &[u8])> {
    let (&kind, rest) = batch.split_first()?;
    let (length, rest) = rest.split_at_checked(4)?;
    let (left, rest) = rest.split_at_checked(number(length) as usize)?;
    Some((Record { kind, left }, rest))
}

/// Goes through a batch: `keep` gets what `read` made of each record, once
/// the record has been read to its end.
pub fn each<T>(
    batch: &[u8],
    read: fn(&mut Record) -> Result<T, String>,
    mut keep: impl FnMut(T) -> Result<(), String>,
) -> Result<(), String> {
    let mut left = batch;
    let mut count = 0;
    while !left.is_empty() {
        let (mut record, rest) = split(left).ok_or("the batch ends inside a record")?;
        let made = read(&mut record).and_then(|made| record.end().map(|()| made));
        keep(made.map_err(|fault| format!("record {count}: {fault}"))?)?;
        left = rest;
        count += 1;
    }
    Ok(())
}

/// Answers a batch: what `line` makes of each record.
pub fn answer(
    batch: &[u8],
    output: &mut impl std::io::Write,
    line: fn(&mut Record) -> Result<String, String>,
) -> Result<(), String> {
    each(batch, line, |line| writeln!(output, "{line}").map_err(|fault| fault.to_string()))
}

impl<'a> Record<'a> {
    pub fn take(&mut self, count: usize) -> Result<&'a [u8], String> {
        let fields = self.left.split_at_checked(count);
        let (front, left) = fields.ok_or("its fields take more than its length")?;
        self.left = left;
        Ok(front)
    }

    fn end(&self) -> Result<(), String> {
        match self.left.len() {
            0 => Ok(()),
            left => Err(format!("its fields leave {left} bytes of its length")),
        }
    }

    /// All that is left, as one field of at most `most` bytes.
    pub fn rest(&mut self, most: usize) -> Result<&'a [u8], String> {
        let length = within(self.left.len(), most)?;
        self.take(length)
    }

    /// Leaves out all that is left, whatever it is.
    pub fn skip(&mut self) {
        self.left = &[];
    }

    pub fn byte(&mut self) -> Result<u8, String> {
        Ok(self.take(1)?[0])
    }

    /// An unsigned number of `width` bytes.
    pub fn little(&mut self, width: usize) -> Result<u64, String> {
        self.take(width).map(number)
    }

    /// A length of `width` bytes that may be at most `most`.
    pub fn length(&mut self, width: usize, most: usize) -> Result<usize, String> {
        within(self.little(width)? as usize, most)
    }

    pub fn network(&mut self) -> Result<Network, String> {
        let nodes = self.little(8)?;
        let low_count = self.length(1, MOST_ROW)?;
        let high_count = self.length(1, MOST_ROW)?;
        let weight_count = self.length(1, MOST_ROW)?;
        let lows = self.take(low_count)?.to_vec();
        let highs = self.take(high_count)?.to_vec();
        let mut weights = Vec::with_capacity(weight_count);
        for _ in 0..weight_count {
            weights.push(self.little(4)? as u32);
        }
        Ok(Network { nodes, lows, highs, weights })
    }

    /// For a byte that is the kind of no record which the sub-command answers.
    pub fn unknown(&self) -> String {
        format!("no kind of record here: byte {}", self.kind)
    }
}

/// What a lent room, table or trace holds before it is lent.
pub const UNTOUCHED: u8 = 0xEE;

pub fn hex(bytes: &[u8]) -> String {
    bytes.iter().map(|b| format!("{b:02x}")).collect()
}

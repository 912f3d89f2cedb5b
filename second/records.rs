//! Sub-command `tables`: paths, key links, tables, steps and walks, record by
//! record. Records and answer lines: ../compare/FORMAT.md.

use crate::batch::{self, hex, Record, MOST_TABLE, MOST_TRACE, UNTOUCHED};
use crate::network::{shown, Network, Refusal};
use crate::paths::{by_tree, Best};
use crate::tables::{self, Lent, Told};
use crate::walk::{self, Asked, Failure, Figures, Step, Walk};

/// The kind of a record that has tables built, and of one that asks a step or
/// a walk over lent ones.
pub const TABLES: u8 = b'T';
pub const STEP: u8 = b'S';
pub const WALK: u8 = b'W';

/// Larger networks' tables are told by their hash alone.
const MOST_NODES_IN_FULL: u64 = 6;

struct Fnv(u64);

impl Fnv {
    fn new() -> Fnv {
        Fnv(0xCBF2_9CE4_8422_2325)
    }

    fn add(&mut self, bytes: &[u8]) {
        for &byte in bytes {
            self.0 = (self.0 ^ u64::from(byte)).wrapping_mul(0x0000_0100_0000_01B3);
        }
    }

    fn told(&self) -> String {
        format!("{:016x}", self.0)
    }
}

fn lent<'a>(record: &mut Record<'a>) -> Result<Lent<'a>, String> {
    let mut table = || -> Result<&'a [u8], String> {
        let length = record.length(2, MOST_TABLE)?;
        record.take(length)
    };
    Ok(Lent { routing: table()?, forwarding: table()?, backwarding: table()? })
}

fn failure(record: &mut Record) -> Result<Failure, String> {
    let kind = record.byte()?;
    // The number stands there in both cases.
    let number = record.little(8)?;
    match kind {
        0 => Ok(Failure::None),
        1 => Ok(Failure::Link(number)),
        other => Err(format!("no kind of failure: byte {other}")),
    }
}

/// A record of kind T: the network, and the rooms for its three tables.
pub fn rooms(record: &mut Record) -> Result<(Network, [Vec<u8>; 3]), String> {
    let network = record.network()?;
    let mut rooms = [vec![], vec![], vec![]];
    for room in &mut rooms {
        *room = vec![UNTOUCHED; record.length(2, MOST_TABLE)?];
    }
    Ok((network, rooms))
}

/// A record of kind S.
pub struct LentStep<'a> {
    pub network: Network,
    pub tables: Lent<'a>,
    pub asked: Asked,
    pub destination: u64,
    pub failure: Failure,
}

impl<'a> LentStep<'a> {
    pub fn read(record: &mut Record<'a>) -> Result<LentStep<'a>, String> {
        let network = record.network()?;
        let tables = lent(record)?;
        let kind = record.byte()?;
        let asked = match (kind, record.little(8)?) {
            (0, node) => Asked::Start(node),
            (1, interface) => Asked::Arrival(interface),
            (other, _) => return Err(format!("no kind of step: byte {other}")),
        };
        let destination = record.little(8)?;
        Ok(LentStep { network, tables, asked, destination, failure: failure(record)? })
    }

    pub fn answer(&self) -> Result<Step, Refusal> {
        walk::step(&self.network, self.tables, self.asked, self.destination, self.failure)
    }
}

/// A record of kind W.
pub struct LentWalk<'a> {
    pub network: Network,
    pub tables: Lent<'a>,
    pub source: u64,
    pub destination: u64,
    pub failure: Failure,
    pub limit: u8,
    trace: Vec<u8>,
}

impl<'a> LentWalk<'a> {
    pub fn read(record: &mut Record<'a>) -> Result<LentWalk<'a>, String> {
        Ok(LentWalk {
            network: record.network()?,
            tables: lent(record)?,
            source: record.little(8)?,
            destination: record.little(8)?,
            failure: failure(record)?,
            limit: record.byte()?,
            trace: vec![UNTOUCHED; record.length(2, MOST_TRACE)?],
        })
    }

    pub fn answer(&mut self) -> Result<Walk, Refusal> {
        let (source, destination) = (self.source, self.destination);
        let LentWalk { network, tables, failure, limit, trace, .. } = self;
        walk::walk(network, *tables, source, destination, *failure, *limit, trace)
    }
}

fn tables_line(record: &mut Record) -> Result<String, String> {
    let (network, mut rooms) = rooms(record)?;
    let (number, place) = shown(&tables::fill(&network, &mut rooms));
    let mut hash = Fnv::new();
    hash.add(&rooms.concat());
    let mut line = format!("tables {number} at {place} {}", hash.told());
    if number == 0 && network.nodes <= MOST_NODES_IN_FULL {
        for room in &rooms {
            line.push(' ');
            line.push_str(&hex(room));
        }
    }
    Ok(line)
}

fn keys_line(record: &mut Record) -> Result<String, String> {
    let network = record.network()?;
    let interface = record.little(8)?;
    let destination = record.little(8)?;
    let answer = tables::keys(&network, interface, destination);
    let (number, place) = shown(&answer);
    Ok(format!("keys {number} at {place} {}", answer.unwrap_or(0)))
}

fn best_line(record: &mut Record) -> Result<String, String> {
    let network = record.network()?;
    let source = record.little(8)?;
    let destination = record.little(8)?;
    let answer = tables::told(&network, source, destination);
    let (number, place) = shown(&answer);
    let Told { sum, links, entry } = answer.unwrap_or(Told { sum: 0, links: 0, entry: 0 });
    Ok(format!("best {number} at {place} sum {sum} links {links} entry {entry}"))
}

fn row_line(record: &mut Record) -> Result<String, String> {
    let length = record.length(2, MOST_TABLE)?;
    let table = record.take(length)?;
    let nodes = record.little(8)?;
    let interface = record.little(8)?;
    let answer = tables::row(table, nodes, interface);
    // This look-up answers without a place.
    let (number, _) = shown(&answer);
    Ok(format!("row {number} {}", hex(answer.unwrap_or(&[]))))
}

fn step_line(record: &mut Record) -> Result<String, String> {
    let answer = LentStep::read(record)?.answer();
    let (number, place) = shown(&answer);
    let step = match answer {
        Ok(Step::Delivered) => "delivered".to_string(),
        Ok(Step::Nothing) => "nothing".to_string(),
        Ok(Step::Dropped) => "dropped".to_string(),
        Ok(Step::Next { node, interface }) => format!("next {node} {interface}"),
        Err(_) => "-".to_string(),
    };
    Ok(format!("step {number} at {place} {step}"))
}

fn walk_line(record: &mut Record) -> Result<String, String> {
    let mut lent = LentWalk::read(record)?;
    let answer = lent.answer();
    let (number, place) = shown(&answer);
    let (ending, hops) = answer.map_or((0, 0), |walk| (walk.ending, walk.hops()));
    Ok(format!("walk {number} at {place} ending {ending} hops {hops} trace {}", hex(&lent.trace)))
}

fn all_line(record: &mut Record) -> Result<String, String> {
    let answer = record.network()?.graph();
    let (number, place) = shown(&answer);
    let Ok(graph) = answer else {
        return Ok(format!("all {number} at {place} -"));
    };
    let built = tables::build(&mut Best::new(&graph, by_tree));
    let mut hash = Fnv::new();
    for failed in std::iter::once(0).chain((0..graph.links.len()).map(|link| 1 << link)) {
        for source in 0..graph.nodes {
            for destination in 0..graph.nodes {
                let limit = u8::MAX;
                let walk = walk::follow(&graph, built.lent(), source, destination, failed, limit);
                // The limit keeps the count of hops within a byte.
                hash.add(&[walk.ending, walk.hops() as u8]);
                hash.add(&walk.nodes);
            }
        }
    }
    Ok(format!("all {number} at {place} {}", hash.told()))
}

fn figures_line(record: &mut Record) -> Result<String, String> {
    let network = record.network()?;
    let tables = lent(record)?;
    let failure = failure(record)?;
    let answer = walk::figures(&network, tables, failure);
    let (number, place) = shown(&answer);
    let Figures { delivered, dropped, hops, longest } = answer.unwrap_or_default();
    Ok(format!("figures {number} at {place} {delivered} {dropped} {hops} {longest}"))
}

fn line(record: &mut Record) -> Result<String, String> {
    match record.kind {
        TABLES => tables_line(record),
        b'K' => keys_line(record),
        b'B' => best_line(record),
        b'R' => row_line(record),
        STEP => step_line(record),
        WALK => walk_line(record),
        b'A' => all_line(record),
        b'F' => figures_line(record),
        _ => Err(record.unknown()),
    }
}

pub fn run(input: &[u8], output: &mut impl std::io::Write) -> Result<(), String> {
    batch::answer(input, output, line)
}

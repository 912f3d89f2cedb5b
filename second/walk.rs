//! The step and the walk over any tables, and the figures of a failure line.

use crate::network::{index, Graph, Network, Refusal};
use crate::tables::{Lent, NO_PATH, OWN};

/// A failure as it is lent: the link need not exist.
#[derive(Clone, Copy)]
pub enum Failure {
    None,
    Link(u64),
}

impl Failure {
    /// As a set of links, of one at most. What moves packets takes any set.
    pub fn check(self, graph: &Graph) -> Result<u64, Refusal> {
        match self {
            Failure::None => Ok(0),
            Failure::Link(number) => index(number, graph.links.len(), 12).map(|link| 1 << link),
        }
    }
}

/// Where a step is asked, as it is lent.
#[derive(Clone, Copy)]
pub enum Asked {
    Start(u64),
    Arrival(u64),
}

/// Where a packet is, once checked. On arrival, the node that the interface
/// enters decides.
#[derive(Clone, Copy)]
pub enum At {
    Start(usize),
    Arrival(usize),
}

#[derive(PartialEq, Debug)]
pub enum Step {
    Delivered,
    Nothing,
    Dropped,
    Next { node: usize, interface: usize },
}

// ------------------------------------------------------ refusals 14, 16

fn table_lengths(graph: &Graph, tables: Lent) -> Result<(), Refusal> {
    let (nodes, interfaces) = (graph.nodes, graph.interfaces());
    let enough = tables.routing.len() >= nodes * nodes
        && tables.forwarding.len() >= interfaces * nodes
        && tables.backwarding.len() >= interfaces * nodes;
    if enough { Ok(()) } else { Err(Refusal::whole(14)) }
}

/// Whether each entry of a row could be followed by its deciding node.
fn row_fits(graph: &Graph, decider: usize, row: &[u8]) -> bool {
    row.iter().enumerate().all(|(d, &entry)| {
        if d == decider {
            entry == OWN
        } else {
            entry == NO_PATH || graph.over(decider, usize::from(entry)).is_some()
        }
    })
}

fn table_entries(graph: &Graph, tables: Lent) -> Result<(), Refusal> {
    let (nodes, interfaces) = (graph.nodes, graph.interfaces());
    // Bytes past the last row are no entries, whatever they are.
    let mut routing = tables.routing.chunks(nodes).take(nodes).enumerate();
    let mut forwarding = tables.forwarding.chunks(nodes).take(interfaces).enumerate();
    let mut backwarding = tables.backwarding.chunks(nodes).take(interfaces).enumerate();
    let fits = routing.all(|(i, row)| row_fits(graph, i, row))
        && forwarding.all(|(interface, row)| row_fits(graph, graph.ends(interface).1, row))
        && backwarding.all(|(interface, row)| row_fits(graph, graph.ends(interface).0, row));
    if fits { Ok(()) } else { Err(Refusal::whole(16)) }
}

// ------------------------------------------------------------- moving

/// One step; everything has been checked.
pub fn take(graph: &Graph, tables: Lent, at: At, d: usize, failed: u64) -> Step {
    let (node, table, row) = match at {
        At::Start(node) => (node, tables.routing, node),
        At::Arrival(interface) => (graph.ends(interface).1, tables.forwarding, interface),
    };
    if node == d {
        return Step::Delivered;
    }
    // The interface that an entry leads over, none for the entry 255. The entry
    // is not 254, as that one stands only where d is the deciding node.
    let follow = |table: &[u8], row: usize| {
        let link = usize::from(table[row * graph.nodes + d]);
        graph.over(node, link)
    };
    let works = |interface: usize| failed >> (interface / 2) & 1 == 0;
    let next = |interface: usize| Step::Next { node: graph.ends(interface).1, interface };

    let Some(usual) = follow(table, row) else {
        return Step::Nothing;
    };
    if works(usual) {
        return next(usual);
    }
    match follow(tables.backwarding, usual) {
        Some(around) if works(around) => next(around),
        _ => Step::Dropped,
    }
}

pub const DELIVERED: u8 = 0;
pub const NO_ENTRY_AT_START: u8 = 1;
pub const DROPPED: u8 = 2;
pub const LIMIT_USED: u8 = 3;

pub struct Walk {
    pub ending: u8,
    /// Hops + 1 of them, source first.
    pub nodes: Vec<u8>,
    /// Those that the steps answered, one for each hop. Nodes alone do not tell
    /// which of parallel links was crossed.
    pub interfaces: Vec<usize>,
}

impl Walk {
    pub fn hops(&self) -> usize {
        self.nodes.len() - 1
    }
}

/// One walk; everything has been checked.
pub fn follow(
    graph: &Graph,
    tables: Lent,
    source: usize,
    d: usize,
    failed: u64,
    limit: u8,
) -> Walk {
    let mut walk = Walk { ending: DELIVERED, nodes: vec![source as u8], interfaces: vec![] };
    let mut at = At::Start(source);
    let mut node = source;
    // The destination comes before the limit, and the limit before the step.
    while node != d {
        if walk.hops() == usize::from(limit) {
            walk.ending = LIMIT_USED;
            break;
        }
        match (take(graph, tables, at, d, failed), at) {
            (Step::Next { node: next, interface }, _) => {
                walk.nodes.push(next as u8);
                walk.interfaces.push(interface);
                node = next;
                at = At::Arrival(interface);
            }
            (Step::Nothing, At::Start(_)) => {
                walk.ending = NO_ENTRY_AT_START;
                break;
            }
            // Request L7: nothing to follow on arrival is told as dropped.
            (Step::Nothing, At::Arrival(_)) | (Step::Dropped, _) => {
                walk.ending = DROPPED;
                break;
            }
            (Step::Delivered, _) => unreachable!("a step away from its destination"),
        }
    }
    walk
}

/// Figures of one failure line of the report.
#[derive(Default)]
pub struct Figures {
    pub delivered: usize,
    pub dropped: usize,
    pub hops: usize,
    pub longest: usize,
}

const REPORT_LIMIT: u8 = 64;

/// Every ordered pair of different nodes; everything has been checked.
pub fn count(graph: &Graph, tables: Lent, failed: u64) -> Figures {
    let mut figures = Figures::default();
    for source in 0..graph.nodes {
        for d in (0..graph.nodes).filter(|&d| d != source) {
            let walk = follow(graph, tables, source, d, failed, REPORT_LIMIT);
            if walk.ending == DELIVERED {
                figures.delivered += 1;
                figures.hops += walk.hops();
                figures.longest = figures.longest.max(walk.hops());
            } else {
                figures.dropped += 1;
            }
        }
    }
    figures
}

// ------------------------------------------- the entries with refusals

/// Refusals: the network's, 13, 12, 11 (start node, then destination), 14,
/// 16.
pub fn step(
    network: &Network,
    tables: Lent,
    asked: Asked,
    destination: u64,
    failure: Failure,
) -> Result<Step, Refusal> {
    let graph = network.graph()?;
    // An interface is checked before the failure, a start node after it.
    if let Asked::Arrival(interface) = asked {
        index(interface, graph.interfaces(), 13)?;
    }
    let failed = failure.check(&graph)?;
    let at = match asked {
        Asked::Start(node) => At::Start(index(node, graph.nodes, 11)?),
        Asked::Arrival(interface) => At::Arrival(interface as usize),
    };
    let destination = index(destination, graph.nodes, 11)?;
    table_lengths(&graph, tables)?;
    table_entries(&graph, tables)?;
    Ok(take(&graph, tables, at, destination, failed))
}

/// Refusals: the network's, 12, 11 (source, then destination), 14, 16, 15.
/// Writes hops + 1 bytes of the trace.
pub fn walk(
    network: &Network,
    tables: Lent,
    source: u64,
    destination: u64,
    failure: Failure,
    limit: u8,
    trace: &mut [u8],
) -> Result<Walk, Refusal> {
    let graph = network.graph()?;
    let failed = failure.check(&graph)?;
    let source = index(source, graph.nodes, 11)?;
    let destination = index(destination, graph.nodes, 11)?;
    table_lengths(&graph, tables)?;
    table_entries(&graph, tables)?;
    if trace.len() < usize::from(limit) + 1 {
        return Err(Refusal::whole(15));
    }
    let walk = follow(&graph, tables, source, destination, failed, limit);
    trace[..walk.nodes.len()].copy_from_slice(&walk.nodes);
    Ok(walk)
}

/// Refusals: the network's, 12, 14, 16.
pub fn figures(network: &Network, tables: Lent, failure: Failure) -> Result<Figures, Refusal> {
    let graph = network.graph()?;
    let failed = failure.check(&graph)?;
    table_lengths(&graph, tables)?;
    table_entries(&graph, tables)?;
    Ok(count(&graph, tables, failed))
}

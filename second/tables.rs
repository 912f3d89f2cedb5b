//! Key links and the three tables, straight from the formulas of document 01
//! and, for backwarding entries, of request L2 (000, section II). An entry
//! names a link, and so do all formulas (request L5).

use crate::network::{index, Network, Refusal, MOST_NODES};
use crate::paths::{by_tree, set_of, sum_of, Best};

/// The entry for the deciding node itself.
pub const OWN: u8 = 254;
/// The entry where no path exists.
pub const NO_PATH: u8 = 255;

/// Tables as they are lent: perhaps too short, longer than need be, or
/// filled by someone else.
#[derive(Clone, Copy)]
pub struct Lent<'a> {
    pub routing: &'a [u8],
    pub forwarding: &'a [u8],
    pub backwarding: &'a [u8],
}

/// Tables as they are built, with no byte past the last row.
#[derive(PartialEq)]
pub struct Tables {
    pub routing: Vec<u8>,
    pub forwarding: Vec<u8>,
    pub backwarding: Vec<u8>,
}

impl Tables {
    pub fn lent(&self) -> Lent<'_> {
        Lent {
            routing: &self.routing,
            forwarding: &self.forwarding,
            backwarding: &self.backwarding,
        }
    }
}

/// The first link from `at` to `d` without the links in `out`, as an entry.
pub fn entry(best: &mut Best, out: u64, at: usize, d: usize) -> u8 {
    if at == d {
        return OWN;
    }
    match best.path(out, at, d) {
        // Two different nodes: the chain has a first link, below 64.
        Some(chain) => (chain[0] / 2) as u8,
        None => NO_PATH,
    }
}

/// The key links of an interface j to i for each d (000, section II; 001,
/// section 2.2), as sets by link number. A link leads both ways, so either of
/// its ends is taken as u; and it is taken out whole, not in one direction
/// only. Both conditions ask for the interface's own link (request L5).
pub fn key_links(best: &mut Best, interface: usize) -> Vec<u64> {
    let graph = best.graph;
    let (own, i) = (interface / 2, graph.ends(interface).1);
    // First condition: with all links present, it is the entry of i for d.
    let asked: Vec<usize> =
        (0..graph.nodes).filter(|&d| usize::from(entry(best, 0, i, d)) == own).collect();
    let mut keys = vec![0; graph.nodes];
    for (number, link) in graph.links.iter().enumerate() {
        let alone = 1 << number;
        for u in [link.low, link.high] {
            // Second condition: without the key link, the best path from u to
            // d crosses it from j to i.
            let paths = best.paths(alone, u);
            for &d in &asked {
                if paths[d].as_ref().is_some_and(|path| path.contains(&interface)) {
                    keys[d] |= alone;
                }
            }
        }
    }
    keys
}

pub fn build(best: &mut Best) -> Tables {
    let graph = best.graph;
    let (nodes, interfaces) = (graph.nodes, graph.interfaces());
    let mut tables = Tables { routing: vec![], forwarding: vec![], backwarding: vec![] };
    for i in 0..nodes {
        tables.routing.extend((0..nodes).map(|d| entry(best, 0, i, d)));
    }
    for interface in 0..interfaces {
        // Whoever gets a packet decides where it is forwarded to, and whoever
        // cannot send it decides where it is backwarded to.
        let (sender, receiver) = graph.ends(interface);
        for (d, keys) in key_links(best, interface).into_iter().enumerate() {
            tables.forwarding.push(entry(best, keys, receiver, d));
            // Where there are key links, a packet takes this interface only
            // because of them; it is turned back because of the own link.
            tables.backwarding.push(entry(best, keys | 1 << (interface / 2), sender, d));
        }
    }
    tables
}

// ------------------------------------------- the entries with refusals

/// What is told of the best path between two nodes, all links present.
pub struct Told {
    pub sum: u64,
    pub links: u64,
    pub entry: u8,
}

/// Refusals: the network's, then 11 for the source and for the destination.
pub fn told(network: &Network, source: u64, destination: u64) -> Result<Told, Refusal> {
    let graph = network.graph()?;
    let source = index(source, graph.nodes, 11)?;
    let destination = index(destination, graph.nodes, 11)?;
    let mut best = Best::new(&graph, by_tree);
    let entry = entry(&mut best, 0, source, destination);
    // No path tells 0 and 0 like the path of no links; the entry differs.
    let chain = best.path(0, source, destination).unwrap_or(&[]);
    Ok(Told { sum: sum_of(&graph, chain), links: set_of(chain), entry })
}

/// Refusals: the network's, then 13 and 11.
pub fn keys(network: &Network, interface: u64, destination: u64) -> Result<u64, Refusal> {
    let graph = network.graph()?;
    let interface = index(interface, graph.interfaces(), 13)?;
    let destination = index(destination, graph.nodes, 11)?;
    Ok(key_links(&mut Best::new(&graph, by_tree), interface)[destination])
}

/// Fills the fronts of the lent tables: routing, forwarding, backwarding.
/// Refusals: the network's, then 14. All three lengths are looked at before
/// any byte changes.
pub fn fill(network: &Network, rooms: &mut [Vec<u8>; 3]) -> Result<(), Refusal> {
    let graph = network.graph()?;
    let built = build(&mut Best::new(&graph, by_tree));
    let built = [built.routing, built.forwarding, built.backwarding];
    if built.iter().zip(rooms.iter()).any(|(table, room)| room.len() < table.len()) {
        return Err(Refusal::whole(14));
    }
    for (table, room) in built.iter().zip(rooms) {
        room[..table.len()].copy_from_slice(table);
    }
    Ok(())
}

/// The row of an interface, looked up in a table with rows of `nodes` bytes.
/// Refusals 3 and 13; there is no network here, so the table alone says
/// which rows there are.
pub fn row(table: &[u8], nodes: u64, interface: u64) -> Result<&[u8], Refusal> {
    if nodes == 0 || nodes > MOST_NODES {
        return Err(Refusal::whole(3));
    }
    // Wide enough that no lent number can come round to a row in the table.
    let first = u128::from(interface) * u128::from(nodes);
    let end = first + u128::from(nodes);
    if end > table.len() as u128 {
        return Err(Refusal::whole(13));
    }
    Ok(&table[first as usize..end as usize])
}

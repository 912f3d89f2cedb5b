//! Networks whose detours are dear, so that a packet turns back a long way
//! before it leaves its usual path. Interfaces then have several key links for
//! one destination, and it matters which of them are taken out for an entry.

use crate::chance::Chance;
use crate::networks::{Link, Net, NetCase, MOST_LINKS};
use crate::shapes::{numbers, Shape};

/// The network with other node numbers, as links want them: low end first, in
/// ascending order.
fn renumbered(chance: &mut Chance, nodes: usize, links: &[Link]) -> Net {
    let number = numbers(chance, nodes);
    let ends = |&(one, other, weight): &Link| {
        let (one, other) = (number[one], number[other]);
        (one.min(other), one.max(other), weight)
    };
    let mut links: Vec<Link> = links.iter().map(ends).collect();
    links.sort();
    Net::listed(nodes, &links)
}

/// A path of weight 1 from node to node.
fn path(nodes: usize) -> Vec<Link> {
    (1..nodes).map(|node| (node - 1, node, 1)).collect()
}

/// Plan A grown: detours leave node 0, dearer the further they lead.
fn from_one_node(nodes: usize) -> Vec<Link> {
    let mut links = path(nodes);
    links.extend((2..nodes).map(|node| (0, node, node * node)));
    links
}

/// Detours enter the last node. The one from node 0 is worth turning back for,
/// and of the others the last is the cheapest: with the way back closed, a
/// packet would follow its old path as far as that is open.
fn to_one_node(nodes: usize) -> Vec<Link> {
    let last = nodes - 1;
    let mut links = path(nodes);
    links.push((0, last, nodes));
    links.extend((1..last - 1).map(|node| (node, last, nodes + 3 * last - 2 * node)));
    links
}

/// Two paths side by side, with cheap rungs at both ends; of those between
/// each is cheaper than the one before.
fn ladder(rungs: usize) -> Vec<Link> {
    let last = rungs - 1;
    let mut links = path(rungs);
    links.extend(path(rungs).iter().map(|link| (rungs + link.0, rungs + link.1, link.2)));
    for rung in 0..rungs {
        let weight = if rung % last == 0 { 1 } else { 5 * last + 2 - 3 * rung };
        links.push((rung, rungs + rung, weight));
    }
    links
}

/// A ring with so many chords, as far as there is room for them; each is dearer
/// than the whole way round.
fn ring(chance: &mut Chance, nodes: usize, chords: usize) -> Vec<Link> {
    let round = Shape::ring(nodes).pairs;
    let most_round = 2 * nodes;
    let shape = Shape::ring(nodes).filled(chance, (nodes + chords).min(MOST_LINKS));
    let mut weigh = |pair: &(usize, usize)| {
        if round.contains(pair) {
            chance.between(1, 2)
        } else {
            chance.between(most_round + 1, 3 * most_round)
        }
    };
    shape.pairs.iter().map(|pair| (pair.0, pair.1, weigh(pair))).collect()
}

pub fn list(chance: &mut Chance) -> Vec<NetCase> {
    let mut list = Vec::new();
    for nodes in [5, 6, 12, 32] {
        list.push(("dear detours from one node", renumbered(chance, nodes, &from_one_node(nodes))));
        list.push(("dear detours to one node", renumbered(chance, nodes, &to_one_node(nodes))));
    }
    for rungs in [3, 4, 8, 16] {
        list.push(("ladder with dear rungs", renumbered(chance, 2 * rungs, &ladder(rungs))));
    }
    for (nodes, chords) in [(5, 1), (6, 2), (8, 1), (12, 3), (12, 12), (32, 1), (32, 6), (32, 32)] {
        let links = ring(chance, nodes, chords);
        list.push(("ring with dear chords", renumbered(chance, nodes, &links)));
    }
    list
}

pub fn at_random(chance: &mut Chance, nodes: usize) -> NetCase {
    let chords = chance.between(1, nodes);
    let links = ring(chance, nodes, chords);
    ("ring with dear chords at random", renumbered(chance, nodes, &links))
}

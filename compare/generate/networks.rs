//! Networks as they stand in records, and lists of good ones: deliberate
//! shapes, and shapes at random.

use crate::chance::Chance;
use crate::detours;
use crate::record::LONGEST_ROW;
use crate::shapes::Shape;

pub const MOST_NODES: usize = 32;
pub const MOST_LINKS: usize = 64;

/// Low end, high end, weight.
pub type Link = (usize, usize, usize);

/// Plan A of document 01, which has four nodes.
pub const PLAN_A: [Link; 5] = [(0, 1, 1), (0, 2, 4), (0, 3, 9), (1, 2, 1), (2, 3, 1)];

/// How the weights of a network are drawn.
#[derive(Clone, Copy)]
pub enum Weights {
    All(usize),
    UpTo(usize),
    Extreme,
}

/// With few different weights most pairs have several best sums.
const TIES: [Weights; 4] = [Weights::All(1), Weights::UpTo(2), Weights::UpTo(3), Weights::UpTo(3)];

/// A network as it stands in a record; it may be put wrong afterwards.
#[derive(Clone)]
pub struct Net {
    pub nodes: u64,
    pub lows: Vec<u8>,
    pub highs: Vec<u8>,
    pub weights: Vec<u32>,
}

impl Net {
    pub fn of(chance: &mut Chance, shape: &Shape, weights: Weights) -> Net {
        assert!((1..=MOST_NODES).contains(&shape.nodes) && shape.pairs.len() <= LONGEST_ROW);
        let mut weigh = || match weights {
            Weights::All(weight) => weight,
            Weights::UpTo(most) => chance.between(1, most),
            Weights::Extreme => chance.pick(&[1, 2, 32_767, 32_768, 65_534, 65_535]),
        };
        // The pairs are kept in ascending order, which links must have.
        let links: Vec<Link> = shape.pairs.iter().map(|&(low, high)| (low, high, weigh())).collect();
        Net::listed(shape.nodes, &links)
    }

    /// From links in their order.
    pub fn listed(nodes: usize, links: &[Link]) -> Net {
        Net {
            nodes: nodes as u64,
            lows: links.iter().map(|link| link.0 as u8).collect(),
            highs: links.iter().map(|link| link.1 as u8).collect(),
            weights: links.iter().map(|link| link.2 as u32).collect(),
        }
    }

    pub fn size(&self) -> usize {
        self.nodes as usize
    }

    pub fn links(&self) -> usize {
        self.lows.len()
    }

    pub fn interfaces(&self) -> usize {
        2 * self.links()
    }

    /// The node that an interface leaves, and the node that it enters.
    pub fn ends(&self, interface: usize) -> (usize, usize) {
        let link = interface / 2;
        let (low, high) = (usize::from(self.lows[link]), usize::from(self.highs[link]));
        if interface % 2 == 0 { (low, high) } else { (high, low) }
    }

    /// Of the first link from one node to the other.
    pub fn interface(&self, from: usize, to: usize) -> Option<usize> {
        (0..self.interfaces()).find(|&interface| self.ends(interface) == (from, to))
    }

    /// The interfaces that leave a node. An entry names the link of one.
    pub fn leaving(&self, node: usize) -> Vec<usize> {
        (0..self.interfaces()).filter(|&interface| self.ends(interface).0 == node).collect()
    }

    /// The interface from a node over the link that an entry names.
    pub fn over(&self, node: usize, entry: u8) -> Option<usize> {
        self.leaving(node).into_iter().find(|interface| interface / 2 == usize::from(entry))
    }

    /// How many links away each node is, far too many if it is not joined.
    /// Only to draw tables that lead somewhere; weights play no part.
    pub fn distances(&self, from: usize) -> Vec<usize> {
        let mut distances = vec![usize::MAX / 2; self.size()];
        distances[from] = 0;
        for _ in 0..self.size() {
            for interface in 0..self.interfaces() {
                let (tail, head) = self.ends(interface);
                distances[head] = distances[head].min(distances[tail] + 1);
            }
        }
        distances
    }

    pub fn bytes(&self) -> Vec<u8> {
        let lengths = [self.lows.len(), self.highs.len(), self.weights.len()];
        assert!(lengths.iter().all(|&length| length <= LONGEST_ROW));
        let mut bytes = self.nodes.to_le_bytes().to_vec();
        bytes.extend(lengths.map(|length| length as u8));
        bytes.extend(&self.lows);
        bytes.extend(&self.highs);
        for weight in &self.weights {
            bytes.extend(weight.to_le_bytes());
        }
        bytes
    }

    pub fn with_nodes(&self, nodes: u64) -> Net {
        Net { nodes, ..self.clone() }
    }

    pub fn with_ends(&self, link: usize, low: u8, high: u8) -> Net {
        let mut other = self.clone();
        other.lows[link] = low;
        other.highs[link] = high;
        other
    }

    pub fn with_weight(&self, link: usize, weight: u32) -> Net {
        let mut other = self.clone();
        other.weights[link] = weight;
        other
    }

    pub fn with_lengths(&self, lows: usize, highs: usize, weights: usize) -> Net {
        let mut other = self.clone();
        other.lows.resize(lows, 1);
        other.highs.resize(highs, 2);
        other.weights.resize(weights, 3);
        other
    }
}

pub type NetCase = (&'static str, Net);

/// How many networks of the bench sheet come first in the list.
pub const BENCH_SHEET: usize = 3;

/// The deliberate networks, none with parallel links. Whole reports on them are
/// kept, so the list stays as it is (reports_batch.rs).
pub fn net_list(chance: &mut Chance) -> Vec<NetCase> {
    // Document 01's own: plan A, the square, two nodes.
    let plan_a = Net::listed(4, &PLAN_A);
    let square = Net::listed(4, &[(0, 1, 1), (0, 2, 1), (1, 3, 1), (2, 3, 1)]);
    let pair = Net::listed(2, &[(0, 1, 1)]);
    let mut list = vec![("bench sheet", plan_a), ("bench sheet", square), ("bench sheet", pair)];

    let mut shapes: Vec<(&'static str, Shape)> = vec![("one node", Shape::bare(1))];
    for nodes in [2, 3, 5, 17, 32] {
        shapes.push(("no links", Shape::bare(nodes)));
    }
    for nodes in [3, 4, 5, 6, 8, 32] {
        shapes.push(("chain", Shape::chain(nodes)));
        shapes.push(("star", Shape::star(nodes)));
        shapes.push(("tree", Shape::tree(chance, nodes)));
        shapes.push(("ring", Shape::ring(nodes)));
    }
    for nodes in [3, 4, 5, 6, 7, 8, 11] {
        shapes.push(("complete", Shape::complete(nodes)));
    }
    for (rows, columns) in [(2, 3), (2, 4), (3, 3), (2, 8), (4, 4), (4, 8)] {
        shapes.push(("grid", Shape::grid(rows, columns)));
    }
    for bits in [3, 4] {
        shapes.push(("cube", Shape::cube(bits)));
    }
    for nodes in [5, 7, 12] {
        shapes.push(("circle with chords", Shape::circle(nodes, &[1, 2])));
    }
    for offset in [2, 5, 12] {
        shapes.push(("32 nodes, 64 links", Shape::circle(32, &[1, offset])));
    }
    for _ in 0..4 {
        let shape = Shape::tree(chance, 32).filled(chance, MOST_LINKS);
        shapes.push(("32 nodes, 64 links", shape));
    }
    shapes.push(("32 nodes, 64 links", Shape::bare(32).filled(chance, MOST_LINKS)));
    for (one, other) in [(3, 3), (4, 3), (5, 4), (8, 8), (16, 16)] {
        let (one, other) = (Shape::ring(one), Shape::ring(other));
        shapes.push(("bridge", one.bridged(chance, &other)));
        shapes.push(("separate parts", one.beside(&other)));
        let third = one.bridged(chance, &Shape::chain(2)).bridged(chance, &Shape::ring(3));
        if third.nodes + other.nodes <= 32 {
            shapes.push(("bridges and separate parts", third.beside(&other)));
        }
    }
    shapes.push(("separate parts", Shape::bare(3).beside(&Shape::complete(4))));
    shapes.push(("separate parts", Shape::chain(2).beside(&Shape::chain(2)).beside(&Shape::ring(4))));

    for (name, shape) in &shapes {
        list.push((*name, Net::of(chance, shape, Weights::All(1))));
        // Without links there is nothing that other weights could change.
        if !shape.pairs.is_empty() {
            let shape = shape.renumbered(chance);
            list.push((*name, Net::of(chance, &shape, Weights::UpTo(3))));
        }
    }
    for weights in [Weights::All(65_535), Weights::Extreme, Weights::UpTo(65_535)] {
        for shape in [Shape::complete(6), Shape::circle(16, &[1, 3]), Shape::chain(32)] {
            let shape = shape.renumbered(chance);
            list.push(("large weights", Net::of(chance, &shape, weights)));
        }
    }
    list.extend(detours::list(chance));
    list
}

fn part_at_random(chance: &mut Chance, nodes: usize) -> Shape {
    match chance.below(7) {
        0 => Shape::tree(chance, nodes),
        1 if nodes >= 3 => Shape::ring(nodes),
        2 => Shape::bare(nodes).filled(chance, nodes),
        _ => {
            let links = chance.between(nodes - 1, 2 * nodes + 2);
            Shape::tree(chance, nodes).filled(chance, links)
        }
    }
}

pub fn net_at_random(chance: &mut Chance) -> NetCase {
    let nodes = match chance.below(10) {
        0..6 => chance.between(2, 8),
        6..9 => chance.between(9, 16),
        _ => chance.between(17, 32),
    };
    net_of_size(chance, nodes)
}

pub fn net_of_size(chance: &mut Chance, nodes: usize) -> NetCase {
    if nodes >= 5 && chance.one_in(8) {
        return detours::at_random(chance, nodes);
    }
    let (name, shape) = match chance.below(6) {
        0 if nodes >= 4 => {
            let cut = chance.between(2, nodes - 2);
            let (one, other) = (part_at_random(chance, cut), part_at_random(chance, nodes - cut));
            ("separate parts at random", one.beside(&other))
        }
        1 if nodes >= 4 => {
            let cut = chance.between(2, nodes - 2);
            let (one, other) = (part_at_random(chance, cut), part_at_random(chance, nodes - cut));
            ("bridge at random", one.bridged(chance, &other))
        }
        _ => ("at random", part_at_random(chance, nodes)),
    };
    // A part, or two together, may have more links than a plan may.
    let mut shape = shape.renumbered(chance);
    while shape.pairs.len() > MOST_LINKS {
        shape.pairs.pop_last();
    }
    let weights = match chance.below(8) {
        0 => Weights::UpTo(9),
        1 => chance.pick(&[Weights::UpTo(65_535), Weights::Extreme]),
        _ => chance.pick(&TIES),
    };
    (name, Net::of(chance, &shape, weights))
}

//! Shapes of networks: chains, rings, trees, grids and what is put together
//! from them.

use crate::chance::Chance;
use std::collections::BTreeSet;

/// Which nodes are joined, before anything has a weight.
pub struct Shape {
    pub nodes: usize,
    /// Low node first.
    pub pairs: BTreeSet<(usize, usize)>,
}

impl Shape {
    pub fn bare(nodes: usize) -> Shape {
        Shape { nodes, pairs: BTreeSet::new() }
    }

    pub fn join(&mut self, one: usize, other: usize) {
        self.pairs.insert((one.min(other), one.max(other)));
    }

    pub fn of(nodes: usize, pairs: impl IntoIterator<Item = (usize, usize)>) -> Shape {
        let mut shape = Shape::bare(nodes);
        for (one, other) in pairs {
            shape.join(one, other);
        }
        shape
    }

    pub fn chain(nodes: usize) -> Shape {
        Shape::of(nodes, (1..nodes).map(|node| (node - 1, node)))
    }

    pub fn star(nodes: usize) -> Shape {
        Shape::of(nodes, (1..nodes).map(|node| (0, node)))
    }

    pub fn ring(nodes: usize) -> Shape {
        Shape::circle(nodes, &[1])
    }

    /// Each node joined to those so many places further round.
    pub fn circle(nodes: usize, offsets: &[usize]) -> Shape {
        let pairs = offsets
            .iter()
            .flat_map(|offset| (0..nodes).map(move |node| (node, (node + offset) % nodes)));
        Shape::of(nodes, pairs.filter(|(one, other)| one != other))
    }

    pub fn complete(nodes: usize) -> Shape {
        Shape::of(nodes, (0..nodes).flat_map(|high| (0..high).map(move |low| (low, high))))
    }

    pub fn grid(rows: usize, columns: usize) -> Shape {
        let mut shape = Shape::bare(rows * columns);
        for node in 0..rows * columns {
            if node % columns + 1 < columns {
                shape.join(node, node + 1);
            }
            if node + columns < rows * columns {
                shape.join(node, node + columns);
            }
        }
        shape
    }

    /// Nodes joined whose numbers differ in one bit.
    pub fn cube(bits: usize) -> Shape {
        let nodes = 1 << bits;
        Shape::of(nodes, (0..nodes).flat_map(|node| (0..bits).map(move |bit| (node, node ^ 1 << bit))))
    }

    pub fn tree(chance: &mut Chance, nodes: usize) -> Shape {
        let mut shape = Shape::bare(nodes);
        for node in 1..nodes {
            shape.join(chance.below(node), node);
        }
        shape
    }

    /// With so many links in all, as far as there are pairs for them.
    pub fn filled(mut self, chance: &mut Chance, links: usize) -> Shape {
        let most = self.nodes * (self.nodes - 1) / 2;
        while self.pairs.len() < links.min(most) {
            let (one, other) = (chance.below(self.nodes), chance.below(self.nodes));
            if one != other {
                self.join(one, other);
            }
        }
        self
    }

    /// Two shapes side by side, not joined.
    pub fn beside(&self, other: &Shape) -> Shape {
        let moved = other.pairs.iter().map(|&(low, high)| (low + self.nodes, high + self.nodes));
        Shape::of(self.nodes + other.nodes, self.pairs.iter().copied().chain(moved))
    }

    /// Two shapes joined by one link, which is a bridge.
    pub fn bridged(&self, chance: &mut Chance, other: &Shape) -> Shape {
        let mut both = self.beside(other);
        both.join(chance.below(self.nodes), self.nodes + chance.below(other.nodes));
        both
    }

    /// The same with other node numbers, and so other link numbers, which
    /// decide between equal paths.
    pub fn renumbered(&self, chance: &mut Chance) -> Shape {
        let number = numbers(chance, self.nodes);
        Shape::of(self.nodes, self.pairs.iter().map(|&(low, high)| (number[low], number[high])))
    }
}

/// A new number for each of so many nodes.
pub fn numbers(chance: &mut Chance, nodes: usize) -> Vec<usize> {
    let mut number: Vec<usize> = (0..nodes).collect();
    for place in 1..nodes {
        number.swap(place, chance.below(place + 1));
    }
    number
}

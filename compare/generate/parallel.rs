//! Networks with parallel links: twins and triples of equal and of different
//! weights, and as many as may be.
//!
//! The first of parallel links is the cheapest. Best paths use the others only
//! where it is taken out, and then only if no detour is cheaper; so some have
//! siblings that are hardly dearer, and some siblings so dear that a packet
//! rather turns back.

use crate::chance::Chance;
use crate::networks::{net_of_size, Link, Net, NetCase, Weights, MOST_LINKS, PLAN_A};
use crate::shapes::Shape;

const MOST_WEIGHT: usize = 65_535;

/// How much a sibling weighs.
#[derive(Clone, Copy)]
pub enum Sibling {
    Equal,
    Dearer(usize),
    /// Up to so much dearer.
    UpTo(usize),
    Dearest,
}

impl Sibling {
    fn weight(self, chance: &mut Chance, weight: usize) -> usize {
        let weight = match self {
            Sibling::Equal => weight,
            Sibling::Dearer(more) => weight + more,
            Sibling::UpTo(more) => weight + chance.below(more + 1),
            Sibling::Dearest => MOST_WEIGHT,
        };
        weight.min(MOST_WEIGHT)
    }
}

pub fn links_of(net: &Net) -> Vec<Link> {
    let link = |k: usize| (usize::from(net.lows[k]), usize::from(net.highs[k]), net.weights[k] as usize);
    (0..net.links()).map(link).collect()
}

/// In the order that links must have.
fn ordered(nodes: usize, mut links: Vec<Link>) -> Net {
    links.sort();
    Net::listed(nodes, &links)
}

/// Siblings for some links of a network, by their numbers there; one that comes
/// again gets one more. There are never more links than may be.
fn siblings_of(chance: &mut Chance, net: &Net, whose: &[usize], sibling: Sibling) -> Net {
    let single = links_of(net);
    let mut links = single.clone();
    for &link in whose {
        let (low, high, weight) = single[link];
        if links.len() < MOST_LINKS {
            links.push((low, high, sibling.weight(chance, weight)));
        }
    }
    ordered(net.size(), links)
}

/// Every link so many times.
fn times(chance: &mut Chance, net: &Net, times: usize, sibling: Sibling) -> Net {
    let whose: Vec<usize> = (1..times).flat_map(|_| 0..net.links()).collect();
    siblings_of(chance, net, &whose, sibling)
}

/// So many siblings, for any links.
fn some(chance: &mut Chance, net: &Net, count: usize, sibling: Sibling) -> Net {
    let whose: Vec<usize> = (0..count).map(|_| chance.below(net.links())).collect();
    siblings_of(chance, net, &whose, sibling)
}

/// Two nodes, and a link for each weight.
fn pair(weights: &[usize]) -> Net {
    ordered(2, weights.iter().map(|&weight| (0, 1, weight)).collect())
}

/// If link 3, the first of 1-2, fails, a packet turns back over link 0: link 4 is
/// too dear. The second program's self-test has the same network: its entries
/// are others than if links were told by nodes.
pub const TWINS: [Link; 5] = [(0, 1, 1), (0, 1, 40), (0, 2, 9), (1, 2, 1), (1, 2, 30)];

/// Two nodes.
fn pairs() -> Vec<NetCase> {
    let most: Vec<usize> = (1..=MOST_LINKS).collect();
    vec![
        ("twins of equal weight", pair(&[5, 5])),
        ("twins", pair(&[3, 4])),
        ("triple", pair(&[3, 4, 9])),
        ("triple of equal weight", pair(&[7, 7, 7])),
        ("64 parallel links", pair(&most)),
        ("64 parallel links of equal weight", pair(&[1; MOST_LINKS])),
        ("twins with large weights", pair(&[MOST_WEIGHT - 1, MOST_WEIGHT, MOST_WEIGHT])),
    ]
}

/// Networks where a link is a key link and has a sibling; none where two that
/// are parallel are, since all key links lie on one best path.
fn key_twins(chance: &mut Chance) -> Vec<NetCase> {
    let plan_a = Net::listed(4, &PLAN_A);
    let name = "a twin as key link";
    let mut list = vec![(name, Net::listed(3, &TWINS))];
    for link in 0..PLAN_A.len() {
        list.push((name, siblings_of(chance, &plan_a, &[link], Sibling::Dearer(20))));
    }
    list.push((name, times(chance, &plan_a, 2, Sibling::Dearer(30))));
    list.push((name, times(chance, &plan_a, 3, Sibling::UpTo(12))));
    for nodes in [6, 12] {
        // A path, and detours from its first node that cost more the further
        // they lead; siblings of the path are dearer still.
        let mut links: Vec<Link> = (1..nodes).map(|node| (node - 1, node, 1)).collect();
        links.extend((2..nodes).map(|node| (0, node, node * node)));
        let net = ordered(nodes, links);
        list.push((name, times(chance, &net, 2, Sibling::Dearer(2 * nodes * nodes))));
        list.push((name, times(chance, &net, 2, Sibling::UpTo(nodes * nodes))));
    }
    list
}

/// Shapes with siblings.
fn shapes(chance: &mut Chance) -> Vec<NetCase> {
    let mut list = Vec::new();
    let square = Shape::of(4, [(0, 1), (0, 2), (1, 3), (2, 3)]);
    for shape in [Shape::chain(3), square, Shape::ring(5), Shape::complete(4), Shape::grid(2, 3)] {
        let net = Net::of(chance, &shape, Weights::All(1));
        list.push(("twins of equal weight", times(chance, &net, 2, Sibling::Equal)));
        let shape = shape.renumbered(chance);
        let net = Net::of(chance, &shape, Weights::UpTo(3));
        list.push(("triples", times(chance, &net, 3, Sibling::UpTo(4))));
    }
    let apart = Shape::ring(3).beside(&Shape::chain(2)).beside(&Shape::bare(1));
    let net = Net::of(chance, &apart, Weights::UpTo(3));
    list.push(("twins in separate parts", times(chance, &net, 2, Sibling::UpTo(9))));
    let bridged = Shape::ring(4).bridged(chance, &Shape::ring(4));
    let net = Net::of(chance, &bridged, Weights::UpTo(3));
    list.push(("twins at a bridge", times(chance, &net, 2, Sibling::UpTo(9))));
    list
}

/// Networks of 32 nodes and 64 links, with siblings.
fn full(chance: &mut Chance) -> Vec<NetCase> {
    let name = "32 nodes, 64 links, some parallel";
    let ring = Net::of(chance, &Shape::ring(32), Weights::UpTo(2));
    let mut list = vec![
        (name, times(chance, &ring, 2, Sibling::Equal)),
        (name, times(chance, &ring, 2, Sibling::Dearer(70))),
    ];
    for sibling in [Sibling::Equal, Sibling::UpTo(9), Sibling::Dearest] {
        list.push(full_at_random(chance, Weights::UpTo(3), sibling));
    }
    list
}

/// A tree with links across it, filled up with siblings.
pub fn full_at_random(chance: &mut Chance, weights: Weights, sibling: Sibling) -> NetCase {
    let single = chance.between(31, 60);
    let shape = Shape::tree(chance, 32).filled(chance, single).renumbered(chance);
    let net = Net::of(chance, &shape, weights);
    ("32 nodes, 64 links, some parallel", some(chance, &net, MOST_LINKS, sibling))
}

/// The deliberate networks.
pub fn list(chance: &mut Chance) -> Vec<NetCase> {
    let mut list = pairs();
    list.extend(key_twins(chance));
    list.extend(shapes(chance));
    list.extend(full(chance));
    list
}

/// How much dearer siblings are at random.
pub fn sibling_at_random(chance: &mut Chance) -> Sibling {
    chance.pick(&[
        Sibling::Equal,
        Sibling::Dearer(1),
        Sibling::UpTo(3),
        Sibling::UpTo(9),
        Sibling::UpTo(40),
        Sibling::UpTo(40),
        Sibling::Dearest,
    ])
}

/// Any network of so many nodes, with siblings if it has links at all.
pub fn of_size(chance: &mut Chance, nodes: usize) -> NetCase {
    let (_, net) = net_of_size(chance, nodes);
    if net.links() == 0 {
        return ("at random", net);
    }
    let count = if chance.one_in(3) { net.links() } else { chance.between(1, 4) };
    let sibling = sibling_at_random(chance);
    ("at random, some parallel", some(chance, &net, count, sibling))
}

/// Mostly small ones: they show as much, and are answered faster.
pub fn at_random(chance: &mut Chance) -> NetCase {
    let nodes = if chance.one_in(4) { chance.between(7, 14) } else { chance.between(2, 6) };
    of_size(chance, nodes)
}

//! Best paths, found in two ways that share nothing but the network: by
//! trying every path, which is slow but says the rule word by word, and by
//! Dijkstra's method. The self-test holds the one against the other.

use crate::network::Graph;
use std::collections::HashMap;

/// The interfaces that a path leads over, first to last: its links, each in the
/// direction in which it is crossed. The path of no links has none.
pub type Chain = Vec<usize>;

/// Finds, from one node, the best chain to each node, or none where there is
/// no path. The links in the set `out` are taken out first.
pub type Method = fn(graph: &Graph, out: u64, from: usize) -> Vec<Option<Chain>>;

/// The interfaces that leave a node, without the links in `out`.
fn usable(graph: &Graph, out: u64, node: usize) -> impl Iterator<Item = usize> + '_ {
    let left_in = move |interface: &usize| out >> (interface / 2) & 1 == 0;
    graph.leaving(node).iter().copied().filter(left_in)
}

fn links_of(chain: &[usize]) -> Vec<usize> {
    chain.iter().map(|interface| interface / 2).collect()
}

pub fn sum_of(graph: &Graph, chain: &[usize]) -> u64 {
    links_of(chain).iter().map(|&link| u64::from(graph.links[link].weight)).sum()
}

pub fn set_of(chain: &[usize]) -> u64 {
    links_of(chain).iter().fold(0, |set, &link| set | 1 << link)
}

/// The nodes of a chain from a node on, that node first.
pub fn nodes_of(graph: &Graph, from: usize, chain: &[usize]) -> Vec<usize> {
    std::iter::once(from).chain(chain.iter().map(|&interface| graph.ends(interface).1)).collect()
}

// ------------------------------------------------------------- by trial

/// Every path from a node, the one of no links included, with the node where it
/// ends. Each longer path is a shorter one with one link more, so the list grows
/// until nothing can be put on. Meant for up to 8 nodes or so.
pub fn every_chain(graph: &Graph, out: u64, from: usize) -> Vec<(Chain, usize)> {
    let mut all = vec![(vec![], from)];
    let mut next = 0;
    while next < all.len() {
        let (chain, last) = all[next].clone();
        let visited = nodes_of(graph, from, &chain);
        for interface in usable(graph, out, last) {
            let to = graph.ends(interface).1;
            if !visited.contains(&to) {
                all.push(([&chain[..], &[interface]].concat(), to));
            }
        }
        next += 1;
    }
    all
}

/// Document 01's rule as it is written: the smaller weight sum is better; of
/// two paths of equal sum, the better lacks the highest-numbered link that
/// lies on only one of them.
fn is_better(graph: &Graph, one: &[usize], other: &[usize]) -> bool {
    let (one_sum, other_sum) = (sum_of(graph, one), sum_of(graph, other));
    if one_sum != other_sum {
        return one_sum < other_sum;
    }
    let (one, other) = (links_of(one), links_of(other));
    let on_only_one = |link: &usize| one.contains(link) != other.contains(link);
    match (0..graph.links.len()).filter(on_only_one).max() {
        Some(highest) => !one.contains(&highest),
        None => false,
    }
}

pub fn by_trial(graph: &Graph, out: u64, from: usize) -> Vec<Option<Chain>> {
    let mut best: Vec<Option<Chain>> = vec![None; graph.nodes];
    for (chain, to) in every_chain(graph, out, from) {
        let known = &mut best[to];
        if known.as_ref().is_none_or(|known| is_better(graph, &chain, known)) {
            *known = Some(chain);
        }
    }
    best
}

// ------------------------------------------------------------ by a tree

/// What one link adds to the cost of a path: its weight above 64 bits of
/// which one, its own, is set. A path has no link twice, so those bits never
/// carry and spell its set of links. Of two such sets the smaller number
/// lacks the highest link in which they differ, which is the rule. The whole
/// is a plain sum of positive parts, and that is all Dijkstra's method asks.
fn toll(graph: &Graph, link: usize) -> u128 {
    u128::from(graph.links[link].weight) << 64 | 1 << link
}

pub fn by_tree(graph: &Graph, out: u64, from: usize) -> Vec<Option<Chain>> {
    let mut best: Vec<Option<Chain>> = vec![None; graph.nodes];
    // The least cost found so far, and the last interface on that way; only
    // the way to the node itself has none.
    let mut reached: Vec<Option<(u128, Option<usize>)>> = vec![None; graph.nodes];
    reached[from] = Some((0, None));
    loop {
        let open = (0..graph.nodes).filter(|&node| best[node].is_none());
        let nearest = open.filter_map(|node| reached[node].map(|way| (way, node))).min();
        let Some(((cost, last), node)) = nearest else {
            return best;
        };
        // The node before has its chain already.
        let before = last.and_then(|interface| best[graph.ends(interface).0].as_deref());
        best[node] = Some([before.unwrap_or(&[]), last.as_slice()].concat());
        for interface in usable(graph, out, node) {
            let way = &mut reached[graph.ends(interface).1];
            // A node with a chain never changes: its cost is at most `cost`.
            let longer = cost + toll(graph, interface / 2);
            if way.is_none_or(|(known, _)| longer < known) {
                *way = Some((longer, Some(interface)));
            }
        }
    }
}

// --------------------------------------------------------------- asking

/// Answers questions for best paths of one network by one method, and keeps
/// what it has found: tables and key links ask for the same ones many times.
pub struct Best<'a> {
    pub graph: &'a Graph,
    method: Method,
    found: HashMap<(u64, usize), Vec<Option<Chain>>>,
}

impl<'a> Best<'a> {
    pub fn new(graph: &'a Graph, method: Method) -> Best<'a> {
        Best { graph, method, found: HashMap::new() }
    }

    /// The best paths from a node to each node, without the links in `out`.
    pub fn paths(&mut self, out: u64, from: usize) -> &[Option<Chain>] {
        let (graph, method) = (self.graph, self.method);
        self.found.entry((out, from)).or_insert_with(|| method(graph, out, from))
    }

    pub fn path(&mut self, out: u64, from: usize, to: usize) -> Option<&[usize]> {
        self.paths(out, from)[to].as_deref()
    }
}

//! Sub-command `rules`: whether a batch tells rules from others that look like
//! them. Two programs that agree have shown the same rule only if another one
//! would have answered otherwise, so what shows the rule is counted.
//!
//! Backwarding entries (request L2): others take out the interface's own link
//! alone, or with it only the key link nearest the destination, which 000's
//! lemma 2 allows for forwarding entries. Records with tables to be filled
//! count, if they are filled. Walks over built tables show no difference: with
//! one link failed at most, they ask the backwarding entry of usual interfaces
//! alone, and those have no key links.
//!
//! Parallel links (request L5): whoever tells links by the nodes that they join
//! takes one for its sibling. Backwarding entries would then be taken without
//! the siblings of the own link or of the key links; key links would be those of
//! any link from j to i; and a failed link would fail with its siblings. Each is
//! counted: the first three over the same networks, the last over walks and
//! steps.
//!
//! Nothing to follow on arrival (request L7): a walk tells it as dropped, and a
//! step still says it. Records of walks and steps count, if they are accepted.

use crate::batch::{self, Record};
use crate::network::{Graph, Network, Refusal};
use crate::paths::{by_tree, Best};
use crate::records::{rooms, LentStep, LentWalk, STEP, TABLES, WALK};
use crate::tables::{self, entry, key_links, NO_PATH};
use crate::walk::{self, Asked, At, Failure, Step, Walk, DROPPED};
use std::collections::HashSet;

// --------------------------------------------------- backwarding entries

/// Backwarding tables by the other rules, and what else is counted of them.
#[derive(Default)]
pub struct Others {
    pub own_link_alone: Vec<u8>,
    pub nearest_alone: Vec<u8>,
    pub pair_of_own_link: Vec<u8>,
    pub pairs_of_key_links: Vec<u8>,
    with_key_links: usize,
    /// Sets of key links that would be others if links were told by nodes.
    pub keys_by_nodes: usize,
}

/// The key link nearest the destination, as a set: the last on the best path
/// of the node that the interface enters. All key links lie on that path.
fn nearest(best: &mut Best, receiver: usize, d: usize, keys: u64) -> u64 {
    let path = best.path(0, receiver, d).unwrap_or(&[]);
    let links = path.iter().map(|interface| 1 << (interface / 2));
    links.filter(|link| keys & link != 0).last().unwrap_or(0)
}

/// A set of links with all their siblings.
pub fn with_siblings(graph: &Graph, set: u64) -> u64 {
    let links = (0..graph.links.len()).filter(|link| set >> link & 1 == 1);
    links.fold(0, |all, link| all | graph.pair(link))
}

/// Which of the two conditions of a key link asks for nodes, where it should
/// ask for the interface's own link.
#[derive(Clone, Copy)]
pub struct Looser {
    /// That j is the next node of i for d.
    pub next_node: bool,
    /// That the path crosses from j to i, over any link.
    pub any_link: bool,
}

/// As links were told before there were parallel ones.
pub const BY_NODES: Looser = Looser { next_node: true, any_link: true };

/// Whether one interface is the other; or, if nodes are enough, has its ends.
fn alike(graph: &Graph, nodes_are_enough: bool, one: usize, other: usize) -> bool {
    one == other || nodes_are_enough && graph.ends(one) == graph.ends(other)
}

/// The key links of an interface for each destination by looser conditions.
pub fn looser_key_links(best: &mut Best, interface: usize, looser: Looser) -> Vec<u64> {
    let graph = best.graph;
    let back = interface ^ 1;
    let mut keys = vec![0; graph.nodes];
    for (d, keys) in keys.iter_mut().enumerate() {
        let usual = best.path(0, graph.ends(interface).1, d).and_then(|path| path.first().copied());
        if !usual.is_some_and(|first| alike(graph, looser.next_node, first, back)) {
            continue;
        }
        for (number, link) in graph.links.iter().enumerate() {
            for u in [link.low, link.high] {
                let path = best.path(1 << number, u, d).unwrap_or(&[]);
                if path.iter().any(|&crossed| alike(graph, looser.any_link, crossed, interface)) {
                    *keys |= 1 << number;
                }
            }
        }
    }
    keys
}

pub fn others(best: &mut Best) -> Others {
    let graph = best.graph;
    let mut others = Others::default();
    for interface in 0..graph.interfaces() {
        let (sender, receiver) = graph.ends(interface);
        let link = interface / 2;
        let (own, pair) = (1 << link, graph.pair(link));
        let all_keys = key_links(best, interface);
        let by_nodes = looser_key_links(best, interface, BY_NODES);
        for (d, keys) in all_keys.into_iter().enumerate() {
            let near = nearest(best, receiver, d, keys);
            let siblings = with_siblings(graph, keys);
            others.own_link_alone.push(entry(best, own, sender, d));
            others.nearest_alone.push(entry(best, own | near, sender, d));
            others.pair_of_own_link.push(entry(best, pair | keys, sender, d));
            others.pairs_of_key_links.push(entry(best, own | siblings, sender, d));
            others.with_key_links += usize::from(keys != 0);
            others.keys_by_nodes += usize::from(keys != by_nodes[d]);
        }
    }
    others
}

/// What is counted of the entries of a built table, and of the sets that they
/// are taken without.
const COUNTED: [&str; 6] = [
    "have key links",
    "would be others with the own link alone taken out",
    "would be others with the own link and the key link nearest the destination taken out",
    "would be others with the siblings of the own link taken out too",
    "would be others with the siblings of the key links taken out too",
    "would have other key links if links were told by nodes",
];

pub fn count(others: &Others, built: &[u8]) -> [usize; 6] {
    let differing = |table: &[u8]| table.iter().zip(built).filter(|(one, other)| one != other).count();
    [
        others.with_key_links,
        differing(&others.own_link_alone),
        differing(&others.nearest_alone),
        differing(&others.pair_of_own_link),
        differing(&others.pairs_of_key_links),
        others.keys_by_nodes,
    ]
}

/// What is found in tables that were built.
#[derive(Default)]
struct Entries {
    /// A network may come again, with other rooms; it counts once.
    networks: HashSet<Network>,
    all: usize,
    counted: [usize; 6],
    in_networks: [usize; 6],
}

impl Entries {
    fn add(&mut self, network: Network, backwarding: &[u8]) {
        // Filled tables are those of a good network.
        let Ok(graph) = network.graph() else {
            return;
        };
        if self.networks.insert(network) {
            let others = others(&mut Best::new(&graph, by_tree));
            self.all += others.own_link_alone.len();
            for (what, found) in count(&others, backwarding).into_iter().enumerate() {
                self.counted[what] += found;
                self.in_networks[what] += usize::from(found > 0);
            }
        }
    }

    fn told(&self) -> String {
        let networks = self.networks.len();
        let mut text = format!("rules: {} backwarding entries of {networks} networks\n", self.all);
        for (what, counted) in COUNTED.iter().enumerate() {
            let (entries, networks) = (self.counted[what], self.in_networks[what]);
            text += &format!("rules: {entries} in {networks} networks {counted}\n");
        }
        text
    }
}

// ------------------------------------------------------- walks and steps

/// How many of all accepted records show a rule.
#[derive(Default)]
struct Share {
    showing: usize,
    all: usize,
}

impl Share {
    fn add(&mut self, shows: bool) {
        self.showing += usize::from(shows);
        self.all += 1;
    }

    fn told(&self, records: &str, show: &str) -> String {
        format!("rules: {} of {} {records} {show}\n", self.showing, self.all)
    }
}

/// What an accepted walk or step shows.
struct Shows {
    /// It finds nothing to follow on arrival.
    nothing_on_arrival: bool,
    /// It would have another answer if a failed link failed with its siblings.
    siblings: bool,
}

/// Whether a walk ends for want of an entry on arrival, and not at the failed
/// link: it reads the forwarding entry of its last hop.
fn no_entry_on_arrival(lent: &LentWalk, graph: &Graph, walk: &Walk) -> bool {
    let Some(crossed) = walk.interfaces.last() else {
        return false;
    };
    let entry = lent.tables.forwarding[crossed * graph.nodes + lent.destination as usize];
    walk.ending == DROPPED && entry == NO_PATH
}

/// The failed link with its siblings.
fn failed_pair(graph: &Graph, failure: Failure) -> Result<u64, Refusal> {
    failure.check(graph).map(|failed| with_siblings(graph, failed))
}

fn shown_by_walk(lent: &mut LentWalk) -> Result<Shows, Refusal> {
    let walk = lent.answer()?;
    let graph = lent.network.graph()?;
    let (source, d) = (lent.source as usize, lent.destination as usize);
    let failed = failed_pair(&graph, lent.failure)?;
    let other = walk::follow(&graph, lent.tables, source, d, failed, lent.limit);
    Ok(Shows {
        nothing_on_arrival: no_entry_on_arrival(lent, &graph, &walk),
        siblings: (walk.ending, &walk.nodes) != (other.ending, &other.nodes),
    })
}

fn shown_by_step(lent: &LentStep) -> Result<Shows, Refusal> {
    let step = lent.answer()?;
    let graph = lent.network.graph()?;
    let (at, on_arrival) = match lent.asked {
        Asked::Start(node) => (At::Start(node as usize), false),
        Asked::Arrival(interface) => (At::Arrival(interface as usize), true),
    };
    let failed = failed_pair(&graph, lent.failure)?;
    let other = walk::take(&graph, lent.tables, at, lent.destination as usize, failed);
    let nothing_on_arrival = on_arrival && matches!(step, Step::Nothing);
    Ok(Shows { nothing_on_arrival, siblings: step != other })
}

// ------------------------------------------------------------- the batch

/// What a record adds to the counts.
enum Counts {
    /// A network and its backwarding table.
    Entries(Network, Vec<u8>),
    Walk(Shows),
    Step(Shows),
}

fn tables_counts(record: &mut Record) -> Result<Option<Counts>, String> {
    let (network, mut rooms) = rooms(record)?;
    let filled = tables::fill(&network, &mut rooms).is_ok();
    let [_, _, backwarding] = rooms;
    Ok(filled.then_some(Counts::Entries(network, backwarding)))
}

/// Nothing for a refused record, and for one of another kind.
fn counts(record: &mut Record) -> Result<Option<Counts>, String> {
    match record.kind {
        TABLES => tables_counts(record),
        WALK => Ok(shown_by_walk(&mut LentWalk::read(record)?).ok().map(Counts::Walk)),
        STEP => Ok(shown_by_step(&LentStep::read(record)?).ok().map(Counts::Step)),
        _ => {
            record.skip();
            Ok(None)
        }
    }
}

/// Walks, or steps.
#[derive(Default)]
struct Shares {
    nothing_on_arrival: Share,
    siblings: Share,
}

impl Shares {
    fn add(&mut self, shows: Shows) {
        self.nothing_on_arrival.add(shows.nothing_on_arrival);
        self.siblings.add(shows.siblings);
    }

    fn all_there(&self) -> bool {
        self.nothing_on_arrival.showing > 0 && self.siblings.showing > 0
    }
}

/// Whether the batch tells the rules from the others.
pub fn run(input: &[u8], output: &mut impl std::io::Write) -> Result<bool, String> {
    let mut entries = Entries::default();
    let (mut walks, mut steps) = (Shares::default(), Shares::default());
    batch::each(input, counts, |counts| {
        match counts {
            Some(Counts::Entries(network, backwarding)) => entries.add(network, &backwarding),
            Some(Counts::Walk(shows)) => walks.add(shows),
            Some(Counts::Step(shows)) => steps.add(shows),
            None => {}
        }
        Ok(())
    })?;
    let siblings = "would be others if a failed link failed with its siblings";
    let text = [
        entries.told(),
        walks.nothing_on_arrival.told("walks", "find no entry on arrival"),
        steps.nothing_on_arrival.told("steps", "are asked on an arrival and find nothing to follow"),
        walks.siblings.told("walks", siblings),
        steps.siblings.told("steps", siblings),
    ];
    output.write_all(text.concat().as_bytes()).map_err(|fault| fault.to_string())?;
    Ok(!entries.counted.contains(&0) && walks.all_there() && steps.all_there())
}

//! Sub-command `selftest`: this program held against itself and against what
//! document 01 says of it, before it is held against the proved program.
//!
//! Five parts: the bench sheet, the report that document 01 prints, and rows
//! on arrivals that find nothing and on parallel links; batches whose lengths
//! are wrong, which must not pass, and batches that cannot tell rules apart; the
//! two ways to best paths against each other on small networks full of equal
//! paths; demand 3 on networks of every size; and on the same ones, whatever
//! links have failed, that every arrival finds an entry. Two of three networks
//! may have parallel links. Nothing is read, and every run does the same. It
//! prints how often each thing was checked, and up to 20 faults.

mod parallel;

use crate::network::{Graph, Network, Refusal};
use crate::paths::{by_tree, by_trial, every_chain, nodes_of, set_of, sum_of, Best, Method};
use crate::tables::{self, Lent, Tables, NO_PATH};
use crate::walk::{self, Asked, Failure, Step, Walk};
use crate::{plan, records, report, rules};

const MOST_TOLD: usize = 20;
const SMALL_NETWORKS: usize = 1500;
const WALKED_NETWORKS: usize = 400;
/// How many parallel links networks have, in turn: none, or another beside one
/// link in so many.
const PARALLEL: [Option<usize>; 3] = [None, Some(4), Some(2)];

// -------------------------------------------------------------- counting

#[derive(Default)]
struct Tally {
    /// In the order in which they were first counted.
    counts: Vec<(&'static str, usize)>,
    faults: Vec<String>,
}

impl Tally {
    fn add(&mut self, what: &'static str, more: usize) {
        match self.counts.iter_mut().find(|(known, _)| *known == what) {
            Some((_, count)) => *count += more,
            None => self.counts.push((what, more)),
        }
    }

    fn count(&mut self, what: &'static str) {
        self.add(what, 1);
    }

    fn check(&mut self, what: &'static str, holds: bool, where_: impl FnOnce() -> String) {
        self.count(what);
        if !holds {
            self.faults.push(format!("{what}: {}", where_()));
        }
    }
}

fn described(network: &Network) -> String {
    let mut text = format!("{} nodes", network.nodes);
    for k in 0..network.lows.len() {
        text += &format!(" {}-{}:{}", network.lows[k], network.highs[k], network.weights[k]);
    }
    text
}

// ------------------------------------------------------ the bench sheet

const WAYS: [(&str, Method); 2] = [("by trial", by_trial), ("by tree", by_tree)];

const PLAN_A: [u8; 17] = [4, 5, 0, 1, 1, 0, 2, 4, 0, 3, 9, 1, 1, 1, 2, 1, 1];
const SQUARE: [u8; 14] = [4, 4, 0, 1, 1, 0, 2, 1, 1, 2, 1, 2, 1, 1];

const REPORT_A: &str = "\
nodes 4 links 5
none delivered 12 dropped 0 hops 20 longest 3
0-1 delivered 12 dropped 0 hops 22 longest 4
0-2 delivered 12 dropped 0 hops 20 longest 3
0-3 delivered 12 dropped 0 hops 20 longest 3
1-2 delivered 12 dropped 0 hops 22 longest 3
2-3 delivered 12 dropped 0 hops 26 longest 5
walks 72 delivered 72 dropped 0
";

/// A good network, and its tables by one method.
struct Built {
    network: Network,
    graph: Graph,
    tables: Tables,
    method: Method,
}

impl Built {
    fn new(stored: &[u8], method: Method) -> Built {
        let Ok(network) = plan::read(stored) else {
            panic!("a plan of these rows is refused");
        };
        Built::of(network, method)
    }

    fn of(network: Network, method: Method) -> Built {
        let Ok(graph) = network.graph() else {
            panic!("not a good network: {}", described(&network));
        };
        let tables = tables::build(&mut Best::new(&graph, method));
        Built { network, graph, tables, method }
    }

    /// Without the entry on one arrival. Nobody builds such tables, but they
    /// pass refusal 16.
    fn with_gap(mut self, j: usize, i: usize, d: usize) -> Built {
        let gap = self.place(j, i, d);
        self.tables.forwarding[gap] = NO_PATH;
        self
    }

    /// Of the first link from one node to the other.
    fn interface(&self, from: usize, to: usize) -> usize {
        let mut all = 0..self.graph.interfaces();
        all.find(|&interface| self.graph.ends(interface) == (from, to)).expect("neighbours")
    }

    fn routing(&self, i: usize, d: usize) -> u8 {
        self.tables.routing[i * self.graph.nodes + d]
    }

    /// Where an interface's entry for d stands, in either of its tables.
    fn place(&self, from: usize, to: usize, d: usize) -> usize {
        self.interface(from, to) * self.graph.nodes + d
    }

    fn forwarding(&self, j: usize, i: usize, d: usize) -> u8 {
        self.tables.forwarding[self.place(j, i, d)]
    }

    fn backwarding(&self, i: usize, j: usize, d: usize) -> u8 {
        self.tables.backwarding[self.place(i, j, d)]
    }

    fn keys(&self, j: usize, i: usize, d: usize) -> u64 {
        tables::key_links(&mut Best::new(&self.graph, self.method), self.interface(j, i))[d]
    }

    fn failure(&self, failed: Option<(usize, usize)>) -> Failure {
        match failed {
            Some((low, high)) => Failure::Link(self.interface(low, high) as u64 / 2),
            None => Failure::None,
        }
    }

    /// Ending and trace, asked through the entry that checks everything.
    fn walk(&self, source: u64, d: u64, failed: Option<(usize, usize)>, limit: u8) -> (u8, Vec<u8>) {
        self.walk_with(source, d, self.failure(failed), limit)
    }

    fn walk_with(&self, source: u64, d: u64, failure: Failure, limit: u8) -> (u8, Vec<u8>) {
        let mut trace = vec![0xEE; usize::from(limit) + 1];
        let lent = self.tables.lent();
        match walk::walk(&self.network, lent, source, d, failure, limit, &mut trace) {
            Ok(walk) => (walk.ending, trace[..=walk.hops()].to_vec()),
            Err(refusal) => panic!("a walk of these rows: refusal {}", refusal.number),
        }
    }

    fn step(&self, asked: Asked, d: u64, failure: Failure) -> Result<Step, Refusal> {
        walk::step(&self.network, self.tables.lent(), asked, d, failure)
    }

    /// Whether a step says that there is nothing to follow, asked the same way.
    fn nothing(&self, asked: Asked, d: u64, failed: Option<(usize, usize)>) -> bool {
        matches!(self.step(asked, d, self.failure(failed)), Ok(Step::Nothing))
    }

    fn arrival(&self, j: usize, i: usize) -> Asked {
        Asked::Arrival(self.interface(j, i) as u64)
    }
}

/// What the reader says of some bytes: number and place, 0 and 0 if good.
fn read(stored: &[u8]) -> (u8, usize) {
    crate::network::shown(&plan::read(stored))
}

/// A plan of so many nodes and links, all of weight 1, in the right order.
fn stored(nodes: u8, links: usize) -> Vec<u8> {
    let mut bytes = vec![nodes, links as u8];
    let pairs = (0..nodes).flat_map(|low| (low + 1..nodes).map(move |high| (low, high)));
    for (low, high) in pairs.take(links) {
        bytes.extend([low, high - low, 1]);
    }
    bytes
}

fn bench_sheet(tally: &mut Tally) {
    let mut row = |name: &str, holds: bool| {
        tally.check("rows of the bench sheet", holds, || name.to_string());
    };
    for (way, method) in WAYS {
        let a = Built::new(&PLAN_A, method);
        row(&format!("routing, {way}"), a.routing(0, 3) == 0);
        row(&format!("key links, {way}"), a.keys(1, 0, 3) == 24);
        row(&format!("forwarding 1 to 0, {way}"), a.forwarding(1, 0, 3) == 2);
        row(&format!("forwarding 2 to 0, {way}"), a.forwarding(2, 0, 3) == 0);
        row(&format!("backwarding 0 to 1, {way}"), a.backwarding(0, 1, 3) == 1);
        row(&format!("backwarding 1 to 0, {way}"), a.backwarding(1, 0, 3) == 255);
        row(&format!("1-2 failed, {way}"), a.walk(0, 3, Some((1, 2)), 64) == (0, vec![0, 1, 0, 3]));
        let long = vec![0, 1, 2, 1, 0, 3];
        row(&format!("2-3 failed, {way}"), a.walk(0, 3, Some((2, 3)), 64) == (0, long.clone()));
        row(&format!("limit 4, {way}"), a.walk(0, 3, Some((2, 3)), 4) == (3, long[..5].to_vec()));
        row(&format!("no way to go, {way}"), a.walk(2, 2, None, 0) == (0, vec![2]));

        let square = Built::new(&SQUARE, method);
        row(&format!("square, {way}"), square.routing(0, 3) == 0);
        let pair = Built::new(&[2, 1, 0, 1, 1], method);
        row(&format!("two nodes, {way}"), pair.walk(0, 1, Some((0, 1)), 64) == (2, vec![0]));
    }

    row("300", read(&[2, 1, 0, 1, 0xAC, 0x02]) == (0, 0));
    row("65,535", read(&[2, 1, 0, 1, 0xFF, 0xFF, 0x03]) == (0, 0));
    row("65,536", read(&[2, 1, 0, 1, 0x80, 0x80, 0x04]) == (6, 4));
    row("80 00", read(&[2, 1, 0, 1, 0x80, 0x00]) == (2, 4));
    row("01 00", read(&[1, 0]) == (0, 0));
    row("00", read(&[0]) == (3, 0));
    row("no bytes", read(&[]) == (1, 0));
    row("32 nodes", read(&[32, 0]) == (0, 0));
    row("33 nodes", read(&[33, 0]) == (3, 0));
    row("64 links", read(&stored(32, 64)) == (0, 0));
    row("65 links", read(&stored(32, 65)) == (4, 1));

    row("report of plan A", report::text(&PLAN_A) == REPORT_A);
    row("report of a refused plan", report::text(&[0]) == "refused 3 at 0\n");
}

// ---------------------------------------------------- nothing on arrival

/// Three nodes in a row, and three of which the last has no link.
const CHAIN: [u8; 8] = [3, 2, 0, 1, 1, 1, 1, 1];
const APART: [u8; 5] = [3, 1, 0, 1, 1];

/// The built tables of APART. The batch lends the same bytes, as its generator
/// can build none: change them there too.
const APART_ROUTING: [u8; 9] = [254, 0, 255, 0, 254, 255, 255, 255, 254];
const APART_FORWARDING: [u8; 6] = [0, 254, 255, 254, 0, 255];
const APART_BACKWARDING: [u8; 6] = [254, 255, 255, 255, 254, 255];

/// Tells one row: its name, and whether it holds.
type Row<'a> = &'a mut dyn FnMut(&str, bool);

fn gap_on_arrival(row: Row, chain: Built) {
    row("chain, routing", chain.routing(0, 2) == 0);
    row("chain, as built", chain.walk(0, 2, None, 64) == (0, vec![0, 1, 2]));
    let mut chain = chain.with_gap(0, 1, 2);
    row("gap", chain.walk(0, 2, None, 64) == (2, vec![0, 1]));
    row("gap, limit 2", chain.walk(0, 2, None, 2) == (2, vec![0, 1]));
    row("gap, limit 1", chain.walk(0, 2, None, 1) == (3, vec![0, 1]));
    row("gap, limit 0", chain.walk(0, 2, None, 0) == (3, vec![0]));
    row("gap, 1-2 failed", chain.walk(0, 2, Some((1, 2)), 64) == (2, vec![0, 1]));
    row("gap, 0-1 failed", chain.walk(0, 2, Some((0, 1)), 64) == (2, vec![0]));
    row("gap, to 1", chain.walk(0, 1, None, 64) == (0, vec![0, 1]));
    row("gap, from 1", chain.walk(1, 2, None, 64) == (0, vec![1, 2]));
    row("gap, step", chain.nothing(chain.arrival(0, 1), 2, None));
    row("gap, step, 1-2 failed", chain.nothing(chain.arrival(0, 1), 2, Some((1, 2))));
    chain.tables.routing[2] = NO_PATH;
    row("gap at the start", chain.walk(0, 2, None, 64) == (1, vec![0]));
    row("gap at the start, limit 0", chain.walk(0, 2, None, 0) == (3, vec![0]));
}

/// Node 1 cannot send to 2 and turns the packet back to 0, over link 0.
fn gap_after_turning(row: Row, chain: Built) {
    let mut chain = chain.with_gap(1, 0, 2);
    let turn = chain.place(1, 2, 2);
    chain.tables.backwarding[turn] = 0;
    let failed = Some((1, 2));
    row("turned", chain.walk(0, 2, failed, 64) == (2, vec![0, 1, 0]));
    row("turned, limit 2", chain.walk(0, 2, failed, 2) == (3, vec![0, 1, 0]));
    row("turned, step", chain.nothing(chain.arrival(1, 0), 2, failed));
}

/// Over built tables only a step can be asked on such an arrival.
fn arrival_of_no_walk(row: Row, apart: Built) {
    let bytes = [&apart.tables.routing[..], &apart.tables.forwarding, &apart.tables.backwarding];
    row("apart, tables", bytes == [&APART_ROUTING[..], &APART_FORWARDING, &APART_BACKWARDING]);
    row("apart, step on arrival", apart.nothing(apart.arrival(0, 1), 2, None));
    row("apart, step at the start", apart.nothing(Asked::Start(0), 2, None));
    row("apart, walk", apart.walk(0, 2, None, 64) == (1, vec![0]));
}

/// Request L7: a walk tells nothing to follow on arrival as ending 2, and a
/// step says it as before.
fn nothing_on_arrival(tally: &mut Tally) {
    for (way, method) in WAYS {
        let mut row = |name: &str, holds: bool| {
            tally.check("rows on arrivals with no entry", holds, || format!("{name}, {way}"));
        };
        gap_on_arrival(&mut row, Built::new(&CHAIN, method));
        gap_after_turning(&mut row, Built::new(&CHAIN, method));
        arrival_of_no_walk(&mut row, Built::new(&APART, method));
    }
}

// --------------------------------------------------------------- batches

fn batches(tally: &mut Tally) {
    // One node without links: the node count and three row lengths.
    let fields = [1, 0, 0, 0, 0, 0, 0, 0, 0, 0, 0];
    let record = |length: u8, fields: &[u8]| [&[b'A', length, 0, 0, 0], fields].concat();
    let more = [&fields[..], &[0]].concat();
    for (name, batch, good) in [
        ("a record as long as its fields", record(11, &fields), true),
        ("a longer one", record(12, &more), false),
        ("a shorter one", record(10, &fields[..10]), false),
        ("a length past the end", record(12, &fields), false),
        ("two records, the first longer", [record(12, &more), record(11, &fields)].concat(), false),
        ("no whole length", vec![b'A', 11, 0, 0], false),
        ("no records", vec![], true),
    ] {
        let answered = records::run(&batch, &mut std::io::sink()).is_ok();
        tally.check("batches by their lengths", answered == good, || name.to_string());
    }
}

/// A network, and the fields after it.
fn network_record(kind: u8, network: &Network, rest: &[&[u8]]) -> Vec<u8> {
    let mut fields = network.nodes.to_le_bytes().to_vec();
    fields.extend([network.lows.len() as u8; 3]);
    fields.extend([&network.lows[..], &network.highs].concat());
    fields.extend(network.weights.iter().flat_map(|weight| weight.to_le_bytes()));
    fields.extend(rest.concat());
    [&[kind, fields.len() as u8, 0, 0, 0], &fields[..]].concat()
}

/// Three tables of this length to be filled.
fn tables_record(network: &Network, length: u8) -> Vec<u8> {
    network_record(b'T', network, &[&[length, 0].repeat(3)])
}

fn lent_fields(tables: &Tables) -> Vec<u8> {
    let lent = [&tables.routing, &tables.forwarding, &tables.backwarding];
    lent.into_iter().flat_map(|table| [&[table.len() as u8, 0], &table[..]].concat()).collect()
}

const NONE_FAILED: [u8; 9] = [0; 9];

fn link_failed(link: u8) -> [u8; 9] {
    [1, link, 0, 0, 0, 0, 0, 0, 0]
}

/// A walk from 0 to 2, with room for so many nodes.
fn walk_record(built: &Built, failure: [u8; 9], limit: u8, trace: u8) -> Vec<u8> {
    let ends = [0_u64, 2].map(u64::to_le_bytes).concat();
    let rest: [&[u8]; 4] = [&lent_fields(&built.tables), &ends, &failure, &[limit, trace, 0]];
    network_record(b'W', &built.network, &rest)
}

/// A step for 2, at a start node (0) or on arrival over an interface (1).
fn step_record(built: &Built, kind: u8, asked: u64, failure: [u8; 9]) -> Vec<u8> {
    let numbers = [asked, 2].map(u64::to_le_bytes).concat();
    let rest: [&[u8]; 4] = [&lent_fields(&built.tables), &[kind], &numbers, &failure];
    network_record(b'S', &built.network, &rest)
}

fn other_rules(tally: &mut Tally) {
    for (way, method) in WAYS {
        let a = Built::new(&PLAN_A, method);
        let others = rules::others(&mut Best::new(&a.graph, method));
        // Node 1, which cannot send to 0 for 3, would send over link 3 by either.
        let place = a.place(1, 0, 3);
        let holds = rules::count(&others, &a.tables.backwarding) == [4, 4, 1, 0, 0, 0]
            && [others.own_link_alone[place], others.nearest_alone[place]] == [3, 3];
        tally.check("other rules on plan A", holds, || way.to_string());
    }
}

/// A batch that tells all rules apart needs all of these.
#[derive(Clone)]
struct Telling {
    /// Tables of plan A, which has no parallel links, and of a network that has.
    a: Vec<u8>,
    twins: Vec<u8>,
    /// A walk and a step that find nothing on arrival.
    walk: Vec<u8>,
    step: Vec<u8>,
    /// A walk and a step that would go elsewhere if siblings failed too.
    twin_walk: Vec<u8>,
    twin_step: Vec<u8>,
}

impl Telling {
    fn all() -> Telling {
        let gap = Built::new(&CHAIN, by_tree).with_gap(0, 1, 2);
        let twins = Built::new(&parallel::TWINS, by_tree);
        Telling {
            a: tables_record(&Built::new(&PLAN_A, by_tree).network, 40),
            twins: tables_record(&twins.network, 40),
            walk: walk_record(&gap, NONE_FAILED, 64, 65),
            step: step_record(&gap, 1, 0, NONE_FAILED),
            twin_walk: walk_record(&twins, link_failed(4), 64, 65),
            twin_step: step_record(&twins, 0, 1, link_failed(4)),
        }
    }

    fn batch(&self) -> Vec<u8> {
        let Telling { a, twins, walk, step, twin_walk, twin_step } = self;
        [a, twins, walk, step, twin_walk, twin_step].map(Vec::as_slice).concat()
    }
}

fn telling_batches(tally: &mut Tally) {
    let square = tables_record(&Built::new(&SQUARE, by_tree).network, 40);
    let (chain, apart) = (Built::new(&CHAIN, by_tree), Built::new(&APART, by_tree));
    let gap = Built::new(&CHAIN, by_tree).with_gap(0, 1, 2);
    let twins = Built::new(&parallel::TWINS, by_tree);
    let none = Vec::new();
    let all = Telling::all();
    let with_a = |a: Vec<u8>| Telling { a, ..all.clone() };
    let with_twins = |twins: Vec<u8>| Telling { twins, ..all.clone() };
    let with_walk = |walk: Vec<u8>| Telling { walk, ..all.clone() };
    let with_step = |step: Vec<u8>| Telling { step, ..all.clone() };
    let with_twin_walk = |twin_walk: Vec<u8>| Telling { twin_walk, ..all.clone() };
    let with_twin_step = |twin_step: Vec<u8>| Telling { twin_step, ..all.clone() };
    for (name, batch, tells) in [
        ("plan A, twins, gaps", all.clone(), true),
        ("the square too", with_a([&square[..], &all.a].concat()), true),
        ("no tables of plan A", with_a(none.clone()), false),
        ("the square, where no interface has two key links", with_a(square.clone()), false),
        ("plan A without room", with_a(tables_record(&Built::new(&PLAN_A, by_tree).network, 39)), false),
        ("no tables of twins", with_twins(none.clone()), false),
        ("the square in place of twins", with_twins(square), false),
        ("twins without room", with_twins(tables_record(&twins.network, 29)), false),
        ("no walk", with_walk(none.clone()), false),
        ("a walk delivered", with_walk(walk_record(&chain, NONE_FAILED, 64, 65)), false),
        ("no entry at the start", with_walk(walk_record(&apart, NONE_FAILED, 64, 65)), false),
        ("dropped at the failed link", with_walk(walk_record(&chain, link_failed(1), 64, 65)), false),
        ("a walk with its limit used up", with_walk(walk_record(&gap, NONE_FAILED, 1, 2)), false),
        ("a walk with a short trace", with_walk(walk_record(&gap, NONE_FAILED, 64, 64)), false),
        ("no step", with_step(none.clone()), false),
        ("a step with an entry", with_step(step_record(&chain, 1, 0, NONE_FAILED)), false),
        ("a step at the start", with_step(step_record(&apart, 0, 0, NONE_FAILED)), false),
        ("a step over no interface", with_step(step_record(&gap, 1, 4, NONE_FAILED)), false),
        ("no walk past a failed twin", with_twin_walk(none.clone()), false),
        ("a walk with no failed twin", with_twin_walk(walk_record(&twins, NONE_FAILED, 64, 65)), false),
        ("a walk at the failed twin", with_twin_walk(walk_record(&twins, link_failed(3), 64, 65)), false),
        ("no step past a failed twin", with_twin_step(none.clone()), false),
        ("a step at the failed twin", with_twin_step(step_record(&twins, 0, 1, link_failed(3))), false),
    ] {
        let told = rules::run(&batch.batch(), &mut std::io::sink());
        tally.check("batches that tell the rules apart", told == Ok(tells), || name.to_string());
    }
    let told = rules::run(&[], &mut std::io::sink());
    tally.check("batches that tell the rules apart", told == Ok(false), || "no records".to_string());
}

/// A network counts once, and refused records do not.
fn counts_of_rules(tally: &mut Tally) {
    let gap = Built::new(&CHAIN, by_tree).with_gap(0, 1, 2);
    let all = Telling::all();
    let batch = [
        all.batch(),
        all.a,
        all.twins,
        walk_record(&gap, NONE_FAILED, 1, 2),
        walk_record(&gap, NONE_FAILED, 64, 64),
        step_record(&gap, 0, 0, NONE_FAILED),
        step_record(&gap, 1, 4, NONE_FAILED),
    ];
    let mut told = Vec::new();
    let told_all = rules::run(&batch.concat(), &mut told) == Ok(true);
    let told = String::from_utf8_lossy(&told);
    for line in [
        "rules: 70 backwarding entries of 2 networks",
        "rules: 1 of 3 walks find no entry on arrival",
        "rules: 1 of 3 steps are asked on an arrival and find nothing to follow",
        "rules: 1 of 3 walks would be others if a failed link failed with its siblings",
        "rules: 1 of 3 steps would be others if a failed link failed with its siblings",
    ] {
        let holds = told_all && told.lines().any(|other| other == line);
        tally.check("lines that count for the rules", holds, || line.to_string());
    }
}

// ------------------------------------------------------- random networks

/// Xorshift with a multiplication; the seed must not be 0.
struct Chance(u64);

impl Chance {
    /// From 0 to one below `end`.
    fn below(&mut self, end: usize) -> usize {
        self.0 ^= self.0 >> 12;
        self.0 ^= self.0 << 25;
        self.0 ^= self.0 >> 27;
        let scattered = self.0.wrapping_mul(0x2545_F491_4F6C_DD1D);
        ((scattered >> 33) % end as u64) as usize
    }
}

/// A network of so many nodes and about so many links. Half of them start
/// from a tree over all nodes; the others often fall apart. Small weights
/// make equal paths. Parallel links come by chance, and one link in so many
/// gets another put beside one that is there, mostly dearer, so that it can pay
/// to turn back first.
fn draw(chance: &mut Chance, nodes: usize, links: usize, parallel: Option<usize>) -> Network {
    let mut all: Vec<(u8, u8, u32)> = Vec::new();
    let most_weight = [1, 2, 3, 9, 65_535][chance.below(5)];
    let mut join = |chance: &mut Chance, one: usize, other: usize| {
        let (low, high) = (one.min(other) as u8, one.max(other) as u8);
        let weight = 1 + chance.below(most_weight) as u32;
        let known = all.iter().any(|link| (link.0, link.1) == (low, high));
        if one == other || all.len() == 64 || known && parallel.is_none() {
            return;
        }
        all.push((low, high, weight));
        if parallel.is_some_and(|one_in| all.len() < 64 && chance.below(one_in) == 0) {
            let beside = all[chance.below(all.len())];
            let dearer = (beside.2 + chance.below(3 * nodes) as u32).min(65_535);
            all.push((beside.0, beside.1, dearer));
        }
    };
    if chance.below(2) == 0 {
        for node in 1..nodes {
            let earlier = chance.below(node);
            join(chance, earlier, node);
        }
    }
    for _ in 0..links {
        let (one, other) = (chance.below(nodes), chance.below(nodes));
        join(chance, one, other);
    }
    all.sort();
    Network {
        nodes: nodes as u64,
        lows: all.iter().map(|link| link.0).collect(),
        highs: all.iter().map(|link| link.1).collect(),
        weights: all.iter().map(|link| link.2).collect(),
    }
}

/// A set with about one link in so many.
fn draw_set(chance: &mut Chance, links: usize, one_in: usize) -> u64 {
    (0..links).filter(|_| chance.below(one_in) == 0).fold(0, |set, link| set | 1 << link)
}

// ----------------------------------------------------- two ways to paths

/// The interface that enters each node in the tree of best paths from a root,
/// none for the root and for nodes that are not in the tree.
fn branches(graph: &Graph, out: u64, root: usize) -> Vec<Option<usize>> {
    let chains = by_tree(graph, out, root);
    chains.into_iter().map(|chain| chain.and_then(|chain| chain.last().copied())).collect()
}

/// Whether `node` stands at or below `top` in such a tree.
fn below(graph: &Graph, branches: &[Option<usize>], top: usize, node: usize) -> bool {
    let mut climbing = Some(node);
    while let Some(here) = climbing {
        if here == top {
            return true;
        }
        climbing = branches[here].map(|interface| graph.ends(interface).0);
    }
    false
}

/// 000's algorithm 1: the key links of interface j to i for every d at once,
/// by subtrees of best-path trees. Its edge u to v stands for the whole link,
/// and its edges between i and j for the interface's own.
fn keys_by_algorithm(graph: &Graph, interface: usize) -> Vec<u64> {
    let (j, i) = graph.ends(interface);
    let back = interface ^ 1;
    let mut keys = vec![0; graph.nodes];
    let usual = branches(graph, 0, i);
    if usual[j] != Some(back) {
        return keys;
    }
    for (number, link) in graph.links.iter().enumerate() {
        for u in [link.low, link.high] {
            let without = branches(graph, 1 << number, u);
            if without[i] != Some(interface) {
                continue;
            }
            for (d, keys) in keys.iter_mut().enumerate() {
                if below(graph, &usual, j, d) && below(graph, &without, i, d) {
                    *keys |= 1 << number;
                }
            }
        }
    }
    keys
}

fn has_parallel_links(graph: &Graph) -> bool {
    (0..graph.links.len()).any(|link| graph.pair(link).count_ones() > 1)
}

fn compare_ways(tally: &mut Tally, chance: &mut Chance, network: &Network) {
    let Ok(graph) = network.graph() else {
        return tally.check("networks drawn are good", false, || described(network));
    };
    tally.count("networks for both ways to best paths");
    if has_parallel_links(&graph) {
        tally.count("  such networks, with parallel links");
    }
    let links = graph.links.len();
    let mut outs = vec![0];
    outs.extend((0..links).map(|link| 1 << link));
    for _ in 0..3 {
        outs.push(draw_set(chance, links, 3));
    }
    for out in outs {
        for from in 0..graph.nodes {
            let (trial, tree) = (by_trial(&graph, out, from), by_tree(&graph, out, from));
            let all = every_chain(&graph, out, from);
            for to in 0..graph.nodes {
                let place = || format!("{from} to {to} without {out:b}, {}", described(network));
                tally.check("best paths equal both ways", trial[to] == tree[to], place);
                let Some(best) = &tree[to] else {
                    tally.count("  such paths, none there");
                    continue;
                };
                let least = sum_of(&graph, best);
                let nodes = nodes_of(&graph, from, best);
                let mut equal = all.iter().filter(|(chain, end)| *end == to && sum_of(&graph, chain) == least);
                if equal.clone().count() > 1 {
                    tally.count("  such paths, chosen among equal sums");
                }
                if equal.any(|(chain, _)| chain != best && nodes_of(&graph, from, chain) == nodes) {
                    tally.count("  such paths, chosen among equal sums over the same nodes");
                }
                let back = by_tree(&graph, out, to)[from].clone();
                let turned = |chain: Vec<usize>| chain.iter().rev().map(|interface| interface ^ 1).collect();
                let back: Option<Vec<usize>> = back.map(turned);
                tally.check("best paths equal from either end", back.as_ref() == Some(best), place);
            }
        }
    }
    let (mut trial, mut tree) = (Best::new(&graph, by_trial), Best::new(&graph, by_tree));
    for interface in 0..graph.interfaces() {
        let algorithm = keys_by_algorithm(&graph, interface);
        let by_trial = tables::key_links(&mut trial, interface);
        let by_tree = tables::key_links(&mut tree, interface);
        for d in 0..graph.nodes {
            let (one, other) = (by_trial[d], by_tree[d]);
            let place = || format!("interface {interface} for {d}, {}", described(network));
            tally.check("key links equal both ways", one == other, place);
            tally.check("key links equal 000's algorithm", one == algorithm[d], place);
            if one.count_ones() > 1 {
                tally.count("  such sets of several key links");
            } else if one != 0 {
                tally.count("  such sets of one key link");
            }
            // 000, section II: on the receiver's best path, and none where
            // the interface is the usual way to d.
            let (sender, receiver) = graph.ends(interface);
            let path = tree.path(0, receiver, d).map_or(0, set_of);
            tally.check("key links lie on the best path", one & !path == 0, place);
            if tree.path(0, sender, d).is_some_and(|path| path.first() == Some(&interface)) {
                tally.check("usual interfaces have no key links", one == 0, place);
            }
            // So no two of them are parallel.
            let pairs = (0..links).filter(|link| one >> link & 1 == 1).map(|link| graph.pair(link));
            let single = pairs.clone().all(|pair| (pair & one).count_ones() == 1);
            tally.check("key links of different pairs", single, place);
            if pairs.into_iter().any(|pair| pair.count_ones() > 1) {
                tally.count("  such sets with one of parallel links");
            }
        }
        // One condition asked by nodes alone changes nothing; both do.
        for (next_node, any_link) in [(true, false), (false, true)] {
            let looser = rules::Looser { next_node, any_link };
            let same = rules::looser_key_links(&mut tree, interface, looser) == by_tree;
            let place = || format!("interface {interface}, {}", described(network));
            tally.check("key links with one condition by nodes", same, place);
        }
    }
    let (by_trial, by_tree) = (tables::build(&mut trial), tables::build(&mut tree));
    tally.check("tables equal both ways", by_trial == by_tree, || described(network));
    let others = [&mut trial, &mut tree].map(rules::others);
    let [one, other] = others.map(|others| rules::count(&others, &by_tree.backwarding));
    tally.check("other rules equal both ways", one == other, || described(network));
    for (found, what) in one.into_iter().zip(NOT_AS).skip(1) {
        if found > 0 {
            tally.count(what);
        }
    }
}

/// How networks are counted that tell a rule from another.
const NOT_AS: [&str; 6] = [
    "  such networks, with key links",
    "  such networks, not as with the own link alone",
    "  such networks, not as with the nearest key link",
    "  such networks, not as without the own link's siblings",
    "  such networks, not as without the key links' siblings",
    "  such networks, not as with key links by nodes",
];

// ------------------------------------------------------------- demand 3

/// A number for each node that two nodes share exactly if working links
/// join them, however long the way. Knows nothing of paths or weights.
fn parts(graph: &Graph, failed: u64) -> Vec<usize> {
    let mut part: Vec<usize> = (0..graph.nodes).collect();
    for (number, link) in graph.links.iter().enumerate() {
        if failed >> number & 1 == 0 {
            let (kept, gone) = (part[link.low], part[link.high]);
            for label in &mut part {
                if *label == gone {
                    *label = kept;
                }
            }
        }
    }
    part
}

/// The first thing demand 3 asks of a walk between different nodes that does
/// not hold.
fn broken(
    graph: &Graph,
    walk: &Walk,
    ends: (usize, usize),
    failed: u64,
    joined: bool,
) -> Option<&'static str> {
    let nodes: Vec<usize> = walk.nodes.iter().map(|&node| usize::from(node)).collect();
    if nodes.first() != Some(&ends.0) {
        return Some("starts elsewhere");
    }
    if walk.interfaces.len() != walk.hops() {
        return Some("not an interface for each hop");
    }
    let mut crossed = vec![false; graph.interfaces()];
    for (hop, &interface) in nodes.windows(2).zip(&walk.interfaces) {
        if graph.ends(interface) != (hop[0], hop[1]) {
            return Some("crosses no link");
        }
        if failed >> (interface / 2) & 1 == 1 {
            return Some("crosses the failed link");
        }
        if std::mem::replace(&mut crossed[interface], true) {
            return Some("crosses a link twice in one direction");
        }
    }
    let fits = match (joined, walk.ending) {
        (true, walk::DELIVERED) => {
            nodes.last() == Some(&ends.1) && walk.hops() + 3 <= 2 * graph.nodes
        }
        (false, walk::NO_ENTRY_AT_START) => walk.hops() == 0,
        (false, walk::DROPPED) => walk.hops() + 2 <= graph.nodes,
        _ => false,
    };
    if fits { None } else { Some("ends wrongly or too late") }
}

/// How walks are counted by their ending.
const BY_ENDING: [&str; 4] = [
    "  such walks, ending 0",
    "  such walks, ending 1",
    "  such walks, ending 2",
    "  such walks, ending 3",
];

/// Whether a link is the first of those that join its two nodes, and so the
/// cheapest.
fn first_of_pair(graph: &Graph, link: usize) -> bool {
    graph.pair(link).trailing_zeros() as usize == link
}

/// None, and each link alone, as sets.
fn failures(graph: &Graph) -> impl Iterator<Item = u64> {
    std::iter::once(0).chain((0..graph.links.len()).map(|link| 1 << link))
}

/// Whether each hop is over the link of the interface that its step answers,
/// asked anew at each node, and to the node that the step answers.
fn each_hop_a_step(built: &Built, walk: &Walk, d: usize, failed: u64) -> bool {
    let mut at = walk::At::Start(usize::from(walk.nodes[0]));
    let hops = walk.nodes[1..].iter().zip(&walk.interfaces);
    hops.into_iter().all(|(&node, &interface)| {
        let step = walk::take(&built.graph, built.tables.lent(), at, d, failed);
        at = walk::At::Arrival(interface);
        step == Step::Next { node: usize::from(node), interface }
    })
}

fn walk_all(tally: &mut Tally, built: &Built) {
    let Built { network, graph, tables, .. } = built;
    tally.count("networks walked");
    let accepted = walk::figures(network, tables.lent(), Failure::None).is_ok();
    tally.check("built tables are accepted", accepted, || described(network));
    let others = rules::others(&mut Best::new(graph, by_tree));
    let own_link_alone = Lent { backwarding: &others.own_link_alone, ..tables.lent() };
    if has_parallel_links(graph) {
        tally.count("  such networks, with parallel links");
    }
    for failed in failures(graph) {
        let part = parts(graph, failed);
        for source in 0..graph.nodes {
            for d in 0..graph.nodes {
                let place = || format!("{source} to {d}, failed {failed:b}, {}", described(network));
                let walk = walk::follow(graph, tables.lent(), source, d, failed, u8::MAX);
                if source == d {
                    let stays = walk.ending == walk::DELIVERED && walk.hops() == 0;
                    tally.check("walks to the source itself", stays, place);
                    let step = walk::take(graph, tables.lent(), walk::At::Start(d), d, failed);
                    let done = matches!(step, Step::Delivered);
                    tally.check("steps at the destination", done, place);
                    continue;
                }
                let joined = part[source] == part[d];
                let broken = broken(graph, &walk, (source, d), failed, joined);
                let told = || format!("{}, {:?}, {}", broken.unwrap_or(""), walk.nodes, place());
                tally.check("walks that keep demand 3", broken.is_none(), told);
                let other = walk::follow(graph, own_link_alone, source, d, failed, u8::MAX);
                let same = (other.ending, &other.nodes) == (walk.ending, &walk.nodes);
                tally.check("walks as with the own link alone taken out", same, place);
                let packet = send(built, source, d, failed);
                let last = usize::from(walk.nodes[walk.hops()]);
                let same = (packet.node, &packet.crossed) == (last, &walk.interfaces);
                tally.check("walks over the links that the packet crosses", same, place);
                let stepwise = each_hop_a_step(built, &walk, d, failed);
                tally.check("walks whose hops are their steps'", stepwise, place);
                tally.count(BY_ENDING[usize::from(walk.ending)]);
                let dearer = |&interface: &usize| !first_of_pair(graph, interface / 2);
                if walk.interfaces.iter().any(dearer) {
                    tally.count("  such walks, over a link with one parallel before it");
                }
                if walk.hops() + 3 == 2 * graph.nodes {
                    tally.count("  such walks, as long as allowed");
                }
            }
        }
    }
}

// --------------------------------------------------- entries on arrival

/// A packet that has come as far as it gets.
struct Packet {
    node: usize,
    /// What it reads there.
    entry: u8,
    /// The interfaces that it has come over.
    crossed: Vec<usize>,
}

const MOST_HOPS: usize = 255;

/// A second opinion on walks: it reads the three tables by itself, asks
/// walk.rs nothing, and any links may have failed.
fn send(built: &Built, source: usize, d: usize, failed: u64) -> Packet {
    let Built { graph, tables, .. } = built;
    let works = |interface: &usize| failed >> (interface / 2) & 1 == 0;
    let mut packet = Packet { node: source, entry: built.routing(source, d), crossed: vec![] };
    while packet.node != d && packet.crossed.len() < MOST_HOPS {
        // Link k is interface 2k at its low end, 2k + 1 at its high end.
        let towards = |entry: u8| {
            let link = graph.links.get(usize::from(entry))?;
            Some(2 * usize::from(entry) + usize::from(link.high == packet.node))
        };
        let Some(usual) = towards(packet.entry) else {
            break;
        };
        let around = towards(tables.backwarding[usual * graph.nodes + d]);
        let Some(crossed) = [Some(usual), around].into_iter().flatten().find(works) else {
            break;
        };
        packet.node = graph.ends(crossed).1;
        packet.entry = tables.forwarding[crossed * graph.nodes + d];
        packet.crossed.push(crossed);
    }
    packet
}

/// Networks up to this many links have every pair of them failed.
const EVERY_PAIR: usize = 16;

/// Sets of failed links: none, all, each alone, pairs, and larger ones.
fn failed_sets(chance: &mut Chance, links: usize) -> Vec<u64> {
    let all = (0..links).fold(0, |set, link| set | 1 << link);
    let mut sets = vec![0, all];
    for link in 0..links {
        let alone = 1 << link;
        sets.push(alone);
        let others: Vec<usize> =
            if links <= EVERY_PAIR { (0..link).collect() } else { vec![chance.below(links)] };
        sets.extend(others.iter().map(|other| alone | 1 << other));
        let one_in = 2 + chance.below(8);
        sets.push(draw_set(chance, links, one_in));
    }
    sets
}

/// Request L7: over built tables each arrival finds an entry, whatever links
/// have failed, and a packet that is dropped stands at a failed link.
fn send_all(tally: &mut Tally, built: &Built, failed: u64) {
    let Built { network, graph, .. } = built;
    for source in 0..graph.nodes {
        for d in (0..graph.nodes).filter(|&d| d != source) {
            let place = || format!("{source} to {d}, failed {failed:b}, {}", described(network));
            let packet = send(built, source, d, failed);
            let hops = packet.crossed.len();
            tally.add("arrivals, whatever links have failed", hops);
            // It has left every arrival but the last by the entry found there.
            let found = hops == 0 || packet.entry != NO_PATH;
            tally.check("packets that find an entry on each arrival", found, place);
            if packet.node == d {
                tally.count("  such packets, delivered");
            } else if hops == MOST_HOPS {
                tally.count("  such packets, still going after 255 hops");
            } else if hops == 0 && packet.entry == NO_PATH {
                tally.count("  such packets, no entry at the start");
            } else {
                let link = usize::from(packet.entry);
                let there = graph.over(packet.node, link).is_some();
                let at_failed = there && failed >> link & 1 == 1;
                tally.check("  such packets, dropped at a failed link", at_failed, place);
                if hops > 0 && failed.count_ones() > 1 {
                    tally.count("  such packets, dropped on arrival, several links failed");
                }
            }
        }
    }
}

/// A step can be asked where no packet arrives. It finds nothing exactly if
/// no links, failed or not, join the node to the destination.
fn step_on_arrival(tally: &mut Tally, built: &Built, failed: u64) {
    let Built { network, graph, tables, .. } = built;
    let part = parts(graph, 0);
    for interface in 0..graph.interfaces() {
        for d in 0..graph.nodes {
            let step = walk::take(graph, tables.lent(), walk::At::Arrival(interface), d, failed);
            let nothing = matches!(step, Step::Nothing);
            let apart = part[graph.ends(interface).1] != part[d];
            let place = || format!("over {interface} for {d}, failed {failed:b}, {}", described(network));
            tally.check("steps on arrival, nothing exactly where apart", nothing == apart, place);
            if nothing {
                tally.count("  such steps, nothing to follow");
            }
        }
    }
}

fn arrive_all(tally: &mut Tally, chance: &mut Chance, built: &Built) {
    let links = built.graph.links.len();
    for failed in failed_sets(chance, links) {
        tally.count("sets of failed links");
        if failed.count_ones() > 1 {
            tally.count("  such sets, of several links");
        }
        send_all(tally, built, failed);
    }
    for failed in failures(&built.graph) {
        step_on_arrival(tally, built, failed);
    }
}

// ----------------------------------------------------------------- main

/// Whether everything held.
pub fn run(output: &mut impl std::io::Write) -> Result<bool, String> {
    let mut well = true;
    let mut part = |work: &mut dyn FnMut(&mut Tally)| -> Result<(), String> {
        let mut tally = Tally::default();
        work(&mut tally);
        well &= tally.faults.is_empty();
        tell(output, &tally).map_err(|fault| fault.to_string())
    };
    let mut chance = Chance(0x5EED);
    part(&mut |tally| {
        bench_sheet(tally);
        nothing_on_arrival(tally);
        parallel::rows(tally);
    })?;
    part(&mut |tally| {
        batches(tally);
        other_rules(tally);
        telling_batches(tally);
        counts_of_rules(tally);
    })?;
    part(&mut |tally| {
        for number in 0..SMALL_NETWORKS {
            let parallel = PARALLEL[number % PARALLEL.len()];
            // Every parallel link doubles the paths over its nodes.
            let nodes = 1 + chance.below(if parallel.is_some() { 6 } else { 8 });
            let links = chance.below(if parallel.is_some() { 2 } else { 3 } * nodes);
            let network = draw(&mut chance, nodes, links, parallel);
            compare_ways(tally, &mut chance, &network);
        }
    })?;
    let mut walked = Vec::new();
    for number in 0..WALKED_NETWORKS {
        let nodes = if number % 4 == 0 { 9 + chance.below(24) } else { 1 + chance.below(9) };
        let links = chance.below(3 * nodes);
        let network = draw(&mut chance, nodes, links, PARALLEL[number % PARALLEL.len()]);
        walked.push(Built::of(network, by_tree));
    }
    part(&mut |tally| {
        for built in &walked {
            walk_all(tally, built);
        }
    })?;
    part(&mut |tally| {
        for built in &walked {
            arrive_all(tally, &mut chance, built);
        }
    })?;
    let verdict = if well { "selftest passed" } else { "selftest FAILED" };
    writeln!(output, "{verdict}").map_err(|fault| fault.to_string())?;
    Ok(well)
}

fn tell(output: &mut impl std::io::Write, tally: &Tally) -> std::io::Result<()> {
    for (what, count) in &tally.counts {
        writeln!(output, "{count:9} {what}")?;
    }
    for fault in tally.faults.iter().take(MOST_TOLD) {
        writeln!(output, "FAULT {fault}")?;
    }
    if tally.faults.len() > MOST_TOLD {
        writeln!(output, "{} more faults", tally.faults.len() - MOST_TOLD)?;
    }
    Ok(())
}

//! Rows on parallel links (request L5), worked out by hand from the definitions.

use super::{read, report, rules, Built, Row, Tally, PLAN_A, WAYS};
use crate::network::{shown, Network};
use crate::paths::Best;
use crate::plan;
use crate::tables::key_links;
use crate::walk::{Asked, Failure, Step};

/// Two nodes, two links of one weight.
const PAIR: [u8; 8] = [2, 2, 0, 1, 5, 0, 1, 5];
/// Two nodes, three links.
const TRIPLE: [u8; 11] = [2, 3, 0, 1, 3, 0, 1, 4, 0, 1, 9];
/// Three nodes in a row, each joined to the next by two links of weight 1.
const EQUAL: [u8; 14] = [3, 4, 0, 1, 1, 0, 1, 1, 1, 1, 1, 1, 1, 1];

/// Three nodes: links 0 and 1 are 0-1 of weight 1 and 40, link 2 is 0-2 of
/// weight 9, links 3 and 4 are 1-2 of weight 1 and 30. From 0 to 2 the best path
/// is `0 1 2` over links 0 and 3. Where link 3 is down it pays to turn back and
/// take link 2: 1 + 9 is less than 30.
pub const TWINS: [u8; 17] = [3, 5, 0, 1, 1, 0, 1, 40, 0, 2, 9, 1, 1, 1, 1, 1, 30];

const REPORT_PAIR: &str = "\
nodes 2 links 2
none delivered 2 dropped 0 hops 2 longest 1
0-1/0 delivered 2 dropped 0 hops 2 longest 1
0-1/1 delivered 2 dropped 0 hops 2 longest 1
walks 6 delivered 6 dropped 0
";

const REPORT_TWINS: &str = "\
nodes 3 links 5
none delivered 6 dropped 0 hops 8 longest 2
0-1/0 delivered 6 dropped 0 hops 10 longest 3
0-1/1 delivered 6 dropped 0 hops 8 longest 2
0-2 delivered 6 dropped 0 hops 8 longest 2
1-2/3 delivered 6 dropped 0 hops 10 longest 3
1-2/4 delivered 6 dropped 0 hops 8 longest 2
walks 36 delivered 36 dropped 0
";

/// All of plan A, as the specification prints it.
const ROUTING_A: [u8; 16] = [254, 0, 0, 0, 0, 254, 3, 3, 3, 3, 254, 4, 4, 4, 4, 254];
const FORWARDING_A: [u8; 40] = [
    0, 254, 3, 3, 254, 0, 1, 2, 3, 3, 254, 4, 254, 0, 0, 0, 4, 4, 4, 254, //
    254, 0, 0, 0, 1, 3, 254, 4, 0, 254, 3, 0, 4, 4, 4, 254, 3, 3, 254, 4,
];
const BACKWARDING_A: [u8; 40] = [
    254, 1, 1, 1, 3, 254, 255, 255, 254, 0, 0, 0, 3, 3, 254, 4, 254, 0, 0, 0, //
    4, 4, 4, 254, 255, 254, 0, 0, 1, 1, 254, 1, 3, 3, 254, 3, 2, 2, 2, 254,
];

const NONE: Failure = Failure::None;

impl Built {
    /// Entries by the interface's number: two nodes do not name one here.
    fn forwarding_over(&self, interface: usize, d: usize) -> u8 {
        self.tables.forwarding[interface * self.graph.nodes + d]
    }

    fn backwarding_over(&self, interface: usize, d: usize) -> u8 {
        self.tables.backwarding[interface * self.graph.nodes + d]
    }

    fn keys_over(&self, interface: usize, d: usize) -> u64 {
        key_links(&mut Best::new(&self.graph, self.method), interface)[d]
    }

    fn keys_by_nodes(&self, interface: usize, d: usize) -> u64 {
        let mut best = Best::new(&self.graph, self.method);
        rules::looser_key_links(&mut best, interface, rules::BY_NODES)[d]
    }

    /// Ending and trace without a failure, then with each link failed.
    fn walks(&self, source: u64, d: u64) -> Vec<(u8, Vec<u8>)> {
        let failures = (0..self.graph.links.len() as u64).map(Failure::Link);
        std::iter::once(NONE).chain(failures).map(|f| self.walk_with(source, d, f, 64)).collect()
    }

    fn next(&self, asked: Asked, d: u64, failure: Failure) -> Option<(usize, usize)> {
        match self.step(asked, d, failure) {
            Ok(Step::Next { node, interface }) => Some((node, interface)),
            _ => None,
        }
    }

    /// The refusal of a step if one entry is another; 0 if it is accepted.
    fn refusal_with(mut self, change: impl FnOnce(&mut Built)) -> u8 {
        change(&mut self);
        shown(&self.step(Asked::Start(0), 1, NONE)).0
    }
}

fn pair(row: Row, pair: Built) {
    row("pair, routing", [pair.routing(0, 1), pair.routing(1, 0)] == [0, 0]);
    let backwarding = [(0, 1), (1, 0), (2, 1), (3, 0)].map(|(h, d)| pair.backwarding_over(h, d));
    row("pair, backwarding", backwarding == [1, 1, 0, 0]);
    let forwarding = [(0, 0), (1, 1), (2, 0), (3, 1)].map(|(h, d)| pair.forwarding_over(h, d));
    row("pair, forwarding", forwarding == [0; 4]);
    let keys = (0..4).flat_map(|h| [pair.keys_over(h, 0), pair.keys_over(h, 1)]);
    row("pair, key links", keys.sum::<u64>() == 0);
    row("pair, walks", pair.walks(0, 1) == vec![(0, vec![0, 1]); 3]);
    row("pair, walks back", pair.walks(1, 0) == vec![(0, vec![1, 0]); 3]);
    let start = |failure| pair.next(Asked::Start(0), 1, failure);
    row("pair, step", start(NONE) == Some((1, 0)));
    row("pair, step, link 0 failed", start(Failure::Link(0)) == Some((1, 2)));
    row("pair, step, link 1 failed", start(Failure::Link(1)) == Some((1, 0)));
    row("pair, report", report::text(&PAIR) == REPORT_PAIR);
}

fn triple(row: Row, triple: Built) {
    row("triple, routing", triple.routing(0, 1) == 0);
    let backwarding = [0, 2, 4].map(|interface| triple.backwarding_over(interface, 1));
    row("triple, backwarding", backwarding == [1, 0, 0]);
    row("triple, walks", triple.walks(0, 1) == vec![(0, vec![0, 1]); 4]);
    let names: Vec<String> = report::text(&TRIPLE).lines().map(first_word).collect();
    row("triple, names", names == ["nodes", "none", "0-1/0", "0-1/1", "0-1/2", "walks"]);
}

fn first_word(line: &str) -> String {
    line.split(' ').next().unwrap_or("").to_string()
}

fn equal_weights(row: Row, equal: Built) {
    row("equal, routing", [equal.routing(0, 2), equal.routing(1, 2), equal.routing(2, 0)] == [0, 2, 2]);
    let mut best = Best::new(&equal.graph, equal.method);
    row("equal, best path", best.path(0, 0, 2) == Some(&[0, 4]));
    row("equal, best path without link 0", best.path(1, 0, 2) == Some(&[2, 4]));
    row("equal, best path without link 2", best.path(4, 0, 2) == Some(&[0, 6]));
    row("equal, best path back", best.path(0, 2, 0) == Some(&[5, 1]));
    let around = [(0, 2), (2, 2), (4, 2), (6, 2)].map(|(h, d)| equal.backwarding_over(h, d));
    row("equal, backwarding", around == [1, 0, 3, 2]);
    row("equal, walks", equal.walks(0, 2) == vec![(0, vec![0, 1, 2]); 5]);
}

/// Link 3, but not its sibling, is the key link of interface 1, which is 1 to 0
/// over link 0, for 2. Interface 3, the same over link 1, has none. By nodes the
/// two would be alike.
fn twins(row: Row, twins: Built) {
    row("twins, routing", twins.tables.routing == [254, 0, 0, 0, 254, 3, 3, 3, 254]);
    row("twins, key links", [twins.keys_over(1, 2), twins.keys_over(3, 2)] == [8, 0]);
    row("twins, key links by nodes", [1, 3].map(|h| twins.keys_by_nodes(h, 2)) == [8, 8]);
    row("twins, forwarding", [1, 3].map(|h| twins.forwarding_over(h, 2)) == [2, 0]);
    // Without links 0 and 3: over link 4 for 30, over links 1 and 2 for 49.
    row("twins, backwarding 1 to 0", [1, 3].map(|h| twins.backwarding_over(h, 2)) == [4, 3]);
    row("twins, backwarding 0 to 1", [0, 2].map(|h| twins.backwarding_over(h, 2)) == [2, 0]);
    row("twins, key links for 0", [twins.keys_over(6, 0), twins.keys_over(8, 0)] == [1, 0]);
    row("twins, forwarding for 0", [6, 8].map(|h| twins.forwarding_over(h, 0)) == [2, 3]);
    let usual = (0, vec![0, 1, 2]);
    let walks =
        [usual.clone(), (0, vec![0, 2]), usual.clone(), usual.clone(), (0, vec![0, 1, 0, 2]), usual];
    row("twins, walks 0 to 2", twins.walks(0, 2) == walks);
    let start = |failure| twins.next(Asked::Start(1), 2, failure);
    row("twins, step", start(Failure::Link(4)) == Some((2, 6)));
    row("twins, step, link 3 failed", start(Failure::Link(3)) == Some((0, 1)));
    row("twins, report", report::text(&TWINS) == REPORT_TWINS);
}

/// Refusal 16 asks for a link at the deciding node, failed or not.
fn lent_tables(row: Row, built: &dyn Fn(&[u8]) -> Built) {
    for (name, entry, refusal) in [
        ("its own link", 0, 0),
        ("a sibling", 1, 0),
        ("another link there", 2, 0),
        ("a link elsewhere", 3, 16),
        ("the last link, elsewhere", 4, 16),
        ("no link", 5, 16),
        ("a link from 64 on", 64, 16),
        ("253", 253, 16),
        ("254", 254, 16),
        ("255", 255, 0),
    ] {
        let told = format!("entry of 0 for 1: {name}");
        // Routing of 0, forwarding 1 to 0 over link 1, backwarding 0 to 1 over it.
        row(&told, built(&TWINS).refusal_with(|b| b.tables.routing[1] = entry) == refusal);
        row(&told, built(&TWINS).refusal_with(|b| b.tables.forwarding[3 * 3 + 1] = entry) == refusal);
        row(&told, built(&TWINS).refusal_with(|b| b.tables.backwarding[2 * 3 + 1] = entry) == refusal);
    }
    // Over lent tables a packet takes the sibling that an entry names.
    let mut lent = built(&TWINS);
    lent.tables.routing[1] = 1;
    let start = |lent: &Built, failure| lent.next(Asked::Start(0), 1, failure);
    row("lent sibling", start(&lent, NONE) == Some((1, 2)));
    row("lent sibling, link 0 failed", start(&lent, Failure::Link(0)) == Some((1, 2)));
    row("lent sibling failed", start(&lent, Failure::Link(1)) == Some((1, 0)));
    lent.tables.backwarding[2 * 3 + 1] = 1;
    let dropped = lent.step(Asked::Start(0), 1, Failure::Link(1)) == Ok(Step::Dropped);
    row("lent sibling failed, and no other named", dropped);
}

fn order_of_plans(row: Row) {
    for (name, stored, answer) in [
        ("equal weights", &PAIR[..], (0, 0)),
        ("ascending weights", &TRIPLE, (0, 0)),
        ("a smaller weight", &[2, 2, 0, 1, 5, 0, 1, 4], (7, 5)),
        ("no weight", &[2, 2, 0, 1, 5, 0, 1, 0], (6, 7)),
        ("weight 65,536", &[2, 2, 0, 1, 5, 0, 1, 0x80, 0x80, 0x04], (6, 7)),
        ("weight with an empty group", &[2, 2, 0, 1, 5, 0, 1, 0x81, 0x00], (2, 7)),
        ("weight of four groups", &[2, 2, 0, 1, 5, 0, 1, 0x80, 0x80, 0x80], (2, 7)),
        ("weight cut", &[2, 2, 0, 1, 5, 0, 1, 0x80], (1, 8)),
        ("weight not there", &[2, 2, 0, 1, 5, 0, 1], (1, 7)),
        ("127, then 128", &[2, 2, 0, 1, 0x7F, 0, 1, 0x80, 0x01], (0, 0)),
        ("128, then 127", &[2, 2, 0, 1, 0x80, 0x01, 0, 1, 0x7F], (7, 6)),
        ("255, then 256", &[2, 2, 0, 1, 0xFF, 0x01, 0, 1, 0x80, 0x02], (0, 0)),
        ("a third lighter than the second", &[2, 3, 0, 1, 5, 0, 1, 7, 0, 1, 6], (7, 8)),
        ("a third lighter than both", &[2, 3, 0, 1, 5, 0, 1, 7, 0, 1, 4], (7, 8)),
        ("a third as light as the first", &[2, 3, 0, 1, 5, 0, 1, 7, 0, 1, 5], (7, 8)),
        ("a descending pair", &[3, 2, 0, 2, 1, 0, 1, 1], (7, 5)),
        ("a descending pair, no weight", &[3, 2, 0, 2, 1, 0, 1, 0], (7, 5)),
        ("a descending pair, weight not there", &[3, 2, 0, 2, 1, 0, 1], (7, 5)),
        ("an equal pair with another between", &[3, 3, 0, 1, 1, 0, 2, 1, 0, 1, 1], (7, 8)),
        ("a later pair with a smaller weight", &[3, 2, 0, 1, 9, 0, 2, 1], (0, 0)),
        ("bytes left after a pair", &[2, 2, 0, 1, 5, 0, 1, 5, 0], (8, 8)),
        ("a smaller weight, and bytes left", &[2, 2, 0, 1, 5, 0, 1, 4, 0], (7, 5)),
    ] {
        row(name, read(stored) == answer);
    }
    for stored in [&PAIR[..], &TRIPLE, &EQUAL, &TWINS] {
        let written = plan::read(stored).map(|network| plan::bytes_of(&network));
        row("written as read", written.as_deref() == Ok(stored));
    }
}

fn order_in_memory(row: Row) {
    for (name, links, answer) in [
        ("equal weights", &[(0, 1, 5), (0, 1, 5)][..], (0, 0)),
        ("a smaller weight", &[(0, 1, 5), (0, 1, 4)], (7, 1)),
        ("no weight", &[(0, 1, 5), (0, 1, 0)], (6, 1)),
        ("weight 65,536", &[(0, 1, 5), (0, 1, 65_536)], (6, 1)),
        ("a descending pair, no weight", &[(0, 2, 5), (0, 1, 0)], (7, 1)),
        ("a third lighter than the second", &[(0, 1, 5), (0, 1, 7), (0, 1, 6)], (7, 2)),
        ("no weight before", &[(0, 1, 0), (0, 1, 4)], (6, 0)),
        ("an equal pair with another between", &[(0, 1, 1), (0, 2, 1), (0, 1, 1)], (7, 2)),
        ("low end descending, high end ascending", &[(1, 2, 1), (0, 3, 1)], (7, 1)),
        ("a later pair with a smaller weight", &[(0, 1, 9), (0, 2, 1), (1, 2, 1)], (0, 0)),
    ] {
        let network = Network {
            nodes: 4,
            lows: links.iter().map(|link| link.0).collect(),
            highs: links.iter().map(|link| link.1).collect(),
            weights: links.iter().map(|link| link.2).collect(),
        };
        row(&format!("{name}, in memory"), shown(&network.check()) == answer);
    }
}

fn whole_of_plan_a(row: Row, a: Built) {
    row("plan A, routing", a.tables.routing == ROUTING_A);
    row("plan A, forwarding", a.tables.forwarding == FORWARDING_A);
    row("plan A, backwarding", a.tables.backwarding == BACKWARDING_A);
}

pub fn rows(tally: &mut Tally) {
    for (way, method) in WAYS {
        let mut row = |name: &str, holds: bool| {
            tally.check("rows on parallel links", holds, || format!("{name}, {way}"));
        };
        pair(&mut row, Built::new(&PAIR, method));
        triple(&mut row, Built::new(&TRIPLE, method));
        equal_weights(&mut row, Built::new(&EQUAL, method));
        twins(&mut row, Built::new(&TWINS, method));
        lent_tables(&mut row, &|stored| Built::new(stored, method));
        whole_of_plan_a(&mut row, Built::new(&PLAN_A, method));
    }
    let mut row = |name: &str, holds: bool| {
        tally.check("rows on the order of parallel links", holds, || name.to_string());
    };
    order_of_plans(&mut row);
    order_in_memory(&mut row);
}

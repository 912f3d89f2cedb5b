//! Sub-command `tables`: a batch of records for paths, key links, tables, steps
//! and walks. It reaches every refusal, every ending, arrivals that find
//! nothing, equal paths, parallel links, bridges, separate parts, interfaces with
//! several key links, the limits and what lies one past them.
//!
//! COUNT is the number of good networks; each brings records of every kind. A
//! list of deliberate networks comes first, the rest is drawn at random.
//! Deliberate steps and walks, and networks with a fault, come on top of them.

use crate::chance::Chance;
use crate::networks::{net_at_random, net_list, Link, Net, NetCase, Weights, BENCH_SHEET, MOST_LINKS};
use crate::parallel;
use crate::record::{eight, record, two, LONGEST_ROW, LONGEST_TABLE, LONGEST_TRACE};
use crate::shapes::Shape;
use std::collections::BTreeMap;

/// Networks that are refused: each fault, at the first, a middle and the last
/// link, and several at once.
fn bad_list(chance: &mut Chance) -> Vec<NetCase> {
    let mut list: Vec<NetCase> = Vec::new();
    let small = Net::of(chance, &Shape::grid(2, 3), Weights::UpTo(3));
    let full = Net::of(chance, &Shape::circle(32, &[1, 5]), Weights::UpTo(3));
    let bare = Net::of(chance, &Shape::bare(1), Weights::All(1));

    for nodes in [0, 33, 34, 255, 256, 256 + 6, (1 << 32) + 6, (1 << 63) + 6, u64::MAX] {
        list.push(("node count", small.with_nodes(nodes)));
        list.push(("node count", bare.with_nodes(nodes)));
    }
    let l = small.links();
    for (lows, highs, weights) in
        [(l - 1, l, l), (l, l - 1, l), (l, l, l - 1), (l + 1, l, l), (l, l, 0), (80, 80, 79)]
    {
        let unequal = small.with_lengths(lows, highs, weights);
        list.push(("unequal rows", unequal.clone()));
        list.push(("unequal rows and node count", unequal.with_nodes(chance.pick(&[0, 33]))));
    }
    for links in [MOST_LINKS + 1, MOST_LINKS + 2, LONGEST_ROW] {
        let shape = Shape::tree(chance, 32).filled(chance, links);
        let many = Net::of(chance, &shape, Weights::UpTo(3));
        list.push(("too many links", many.clone()));
        list.push(("too many links and a bad one", many.with_ends(0, 9, 9).with_weight(0, 0)));
    }
    for net in [&small, &full] {
        let last = net.links() - 1;
        let n = net.nodes as u8;
        for link in [0, last / 2, last] {
            let (low, high) = (net.lows[link], net.highs[link]);
            for (low, high) in [(0, n), (n - 1, n), (high, low), (low, low), (n, n + 1), (255, 255)] {
                list.push(("ends", net.with_ends(link, low, high)));
            }
            for weight in [0, 65_536, u32::MAX] {
                list.push(("weight", net.with_weight(link, weight)));
            }
        }
        for link in [1, last / 2, last] {
            let first = net.with_ends(0, 0, 2);
            let descending = first.with_ends(link, 0, 1);
            list.push(("order", descending.clone()));
            list.push(("order and weight", descending.with_weight(link, 0)));
            let twin = net.with_ends(link, net.lows[link - 1], net.highs[link - 1]);
            let lighter = twin.with_weight(link - 1, 5).with_weight(link, 4);
            list.push(("lighter twin", lighter.clone()));
            list.push(("twin of no weight", lighter.with_weight(link, 0)));
            list.push(("twin too heavy", lighter.with_weight(link, 65_536)));
            list.push(("weight, then twin", lighter.with_weight(link - 1, 0)));
        }
    }
    list
}

// ---------------------------------------------------------------- tables

/// Routing, forwarding, backwarding.
type Tables = [Vec<u8>; 3];

fn row_count(net: &Net, table: usize) -> usize {
    if table == 0 { net.size() } else { net.interfaces() }
}

/// The node that decides by a row: a packet is forwarded by the node that it
/// enters and backwarded by the node that it cannot leave.
fn decider(net: &Net, table: usize, row: usize) -> usize {
    match table {
        0 => row,
        1 => net.ends(row).1,
        _ => net.ends(row).0,
    }
}

fn exact_lengths(net: &Net) -> [usize; 3] {
    [0, 1, 2].map(|table| row_count(net, table) * net.size())
}

/// The entry that leads over an interface: the number of its link.
fn entry_over(interface: usize) -> u8 {
    (interface / 2) as u8
}

/// Tables that nobody built from best paths, but that a walk must accept.
/// Some of them lead nearly everywhere, some round in circles, some have
/// gaps, so that every ending occurs, also for want of an entry on arrival.
fn arbitrary(chance: &mut Chance, net: &Net) -> Tables {
    let n = net.size();
    // One entry in so many is 255; with 0, only where there is no link.
    // Backwarding has its own share, so that packets which travel well are
    // dropped at the failed link now and then.
    let often = chance.pick(&[0, 0, 40, 8, 2]);
    let gaps = [often, often, chance.pick(&[0, 8, 2])];
    // So many entries of a hundred lead nearer to their destination.
    let aim = chance.pick(&[0, 50, 90, 98, 100]);
    let distances: Vec<Vec<usize>> = (0..n).map(|d| net.distances(d)).collect();
    [0, 1, 2].map(|table| {
        let mut bytes = Vec::new();
        for row in 0..row_count(net, table) {
            let node = decider(net, table, row);
            let mut choices = net.leaving(node);
            // A backwarding entry that leads over the failed link again is
            // accepted and gets a packet dropped: rare, but wanted.
            if table == 2 && choices.len() > 1 && !chance.one_in(8) {
                choices.retain(|&next| next != row);
            }
            for (d, distances) in distances.iter().enumerate() {
                let nearest = choices.iter().map(|&next| distances[net.ends(next).1]).min();
                // Of parallel links each leads as near.
                let nearest = choices.iter().filter(|&&next| Some(distances[net.ends(next).1]) == nearest);
                let nearest: Vec<usize> = nearest.copied().collect();
                let gap = choices.is_empty() || gaps[table] > 0 && chance.one_in(gaps[table]);
                bytes.push(match gap {
                    _ if d == node => 254,
                    true => 255,
                    false if chance.below(100) < aim => entry_over(chance.pick(&nearest)),
                    false => entry_over(chance.pick(&choices)),
                });
            }
        }
        bytes
    })
}

/// Bytes past the last row, which are nobody's entries.
fn lengthened(chance: &mut Chance, tables: &mut Tables) {
    for table in tables {
        let more = chance.pick(&[0, 0, 1, 3, 40]).min(LONGEST_TABLE - table.len());
        for _ in 0..more {
            table.push(chance.byte());
        }
    }
}

/// One table cut, or one entry changed so that it is mostly refused.
fn damaged(chance: &mut Chance, net: &Net, tables: &mut Tables) -> &'static str {
    let n = net.size();
    // Without links only the routing table has rows.
    let table = if net.links() == 0 { 0 } else { chance.below(3) };
    let exact = exact_lengths(net)[table];
    if chance.one_in(3) {
        let length = chance.pick(&[exact - 1, exact - 1, 0, exact.saturating_sub(n), exact / 2]);
        tables[table].truncate(length);
        return "table cut";
    }
    let rows = row_count(net, table);
    let any_row = chance.below(rows);
    let row = chance.pick(&[0, rows - 1, any_row, any_row]);
    let node = decider(net, table, row);
    let any_node = chance.below(n);
    let d = chance.pick(&[node, n - 1, any_node, any_node]);
    let links = net.links() as u8;
    let other = if links == 0 { 0 } else { chance.below(net.links()) as u8 };
    let entries = [links, links + 1, 63, 64, 253, 254, 255, node as u8, other, other, other + 128];
    tables[table][row * n + d] = chance.pick(&entries);
    "entry changed"
}

// --------------------------------------------------------------- records

/// The batch as far as it is made, and what is in it.
struct Made {
    batch: Vec<u8>,
    cases: BTreeMap<String, usize>,
    kinds: BTreeMap<char, usize>,
}

impl Made {
    fn push(&mut self, kind: char, case: &str, parts: &[&[u8]]) {
        self.batch.extend(record(kind, parts));
        *self.cases.entry(format!("{kind}: {case}")).or_default() += 1;
        *self.kinds.entry(kind).or_default() += 1;
    }
}

fn table_bytes(tables: &Tables) -> Vec<u8> {
    let mut bytes = Vec::new();
    for table in tables {
        assert!(table.len() <= LONGEST_TABLE);
        bytes.extend(two(table.len()));
        bytes.extend(table);
    }
    bytes
}

fn push_tables(made: &mut Made, case: &str, net: &Net, lengths: [usize; 3]) {
    assert!(lengths.iter().all(|&length| length <= LONGEST_TABLE));
    made.push('T', case, &[&net.bytes(), &lengths.map(two).concat()]);
}

fn push_odd_tables(chance: &mut Chance, made: &mut Made, net: &Net) {
    let mut lengths = exact_lengths(net);
    let table = chance.below(3);
    let case = match chance.below(6) {
        0 | 1 => {
            lengths[table] = lengths[table].saturating_sub(1);
            "one table one short"
        }
        2 => {
            lengths[table] = lengths[table].saturating_sub(net.size());
            "one table a row short"
        }
        3 => {
            lengths[table] = 0;
            "one table of no bytes"
        }
        4 => {
            lengths = lengths.map(|length| chance.between(length, LONGEST_TABLE.min(length + 90)));
            "longer tables"
        }
        _ => {
            lengths = lengths.map(|length| chance.pick(&[length, length + 1, LONGEST_TABLE]));
            "longer tables"
        }
    };
    push_tables(made, case, net, lengths);
}

/// A number below the limit, or now and then one that is not; then what is
/// asked cannot be answered. Without any number to give it always is.
fn number(chance: &mut Chance, limit: usize, wrong_in: usize, wrong: &mut bool) -> u64 {
    if limit == 0 || chance.one_in(wrong_in) {
        *wrong = true;
        chance.too_large(limit)
    } else {
        chance.below(limit) as u64
    }
}

fn push_keys(made: &mut Made, case: &str, net: &Net, interface: u64, d: u64) {
    made.push('K', case, &[&net.bytes(), &eight(interface), &eight(d)]);
}

fn push_keys_at_random(chance: &mut Chance, made: &mut Made, net: &Net, wrong_in: usize) {
    let mut wrong = false;
    let interface = number(chance, net.interfaces(), wrong_in, &mut wrong);
    let d = number(chance, net.size(), wrong_in, &mut wrong);
    let case = if wrong { "a number too large" } else { "sample" };
    push_keys(made, case, net, interface, d);
}

/// A key link needs an interface that a packet would go against: one from a
/// node nearer to the destination. Others nearly always answer 0.
fn push_keys_against(chance: &mut Chance, made: &mut Made, net: &Net) {
    let d = chance.below(net.size());
    let distances = net.distances(d);
    let against = |&interface: &usize| {
        let (tail, head) = net.ends(interface);
        distances[tail] < distances[head]
    };
    let interfaces: Vec<usize> = (0..net.interfaces()).filter(against).collect();
    if !interfaces.is_empty() {
        let interface = chance.pick(&interfaces) as u64;
        push_keys(made, "sample from nearer to farther", net, interface, d as u64);
    }
}

fn push_best_at_random(chance: &mut Chance, made: &mut Made, net: &Net) {
    let mut wrong = false;
    let source = number(chance, net.size(), 12, &mut wrong);
    let d = number(chance, net.size(), 12, &mut wrong);
    let case = if wrong { "a number too large" } else { "sample" };
    made.push('B', case, &[&net.bytes(), &eight(source), &eight(d)]);
}

/// A look-up has no network: only a table, a row length and a number.
fn push_row(made: &mut Made, case: &str, table: &[u8], n: u64, interface: u64) {
    made.push('R', case, &[&two(table.len()), table, &eight(n), &eight(interface)]);
}

fn push_row_list(chance: &mut Chance, made: &mut Made) {
    let table: Vec<u8> = (0..LONGEST_TABLE).map(|_| chance.byte()).collect();
    for n in [1, 2, 3, 5, 6, 31, 32_usize] {
        for rows in [0, 1, 2, 7, 128] {
            for length in [rows * n, (rows * n + n).saturating_sub(1)] {
                let table = &table[..length.min(LONGEST_TABLE)];
                // The last row, and the first that is not wholly there.
                for row in [rows.saturating_sub(1), rows, rows + 1] {
                    push_row(made, "edge of the table", table, n as u64, row as u64);
                }
            }
        }
    }
    for n in [0, 33, 34, 255, 256, 256 + 4, (1 << 32) + 4, (1 << 63) + 4, u64::MAX] {
        for interface in [0, 1, u64::MAX] {
            push_row(made, "row length refused", &table[..40], n, interface);
            push_row(made, "row length refused", &[], n, interface);
        }
    }
    // The product, or the product and one row, come round to a row that the
    // table has, if only 64 or 32 bits of them are kept.
    for n in [1_u64, 2, 4, 8, 16, 32, 3, 5, 7] {
        for bits in [32, 64] {
            let around = ((1_u128 << bits) / u128::from(n)) as u64;
            for more in [0, 1] {
                push_row(made, "comes round", &table[..400], n, around.saturating_add(more));
            }
            push_row(made, "comes round", &table[..400], n, around.wrapping_sub(1));
        }
        push_row(made, "comes round", &table[..400], n, u64::MAX);
        push_row(made, "comes round", &table, n, u64::MAX - 1);
    }
}

fn push_row_at_random(chance: &mut Chance, made: &mut Made) {
    let n = chance.between(1, 32);
    let rows = chance.below(24);
    let length = rows * n + chance.below(n);
    let table: Vec<u8> = (0..length).map(|_| chance.byte()).collect();
    let interface = if chance.one_in(6) { rows + chance.below(3) } else { chance.below(rows.max(1)) };
    push_row(made, "sample", &table, n as u64, interface as u64);
}

/// The link that a packet comes to within a few moves over these tables, so
/// that its failure matters; none if it cannot make the first. `at` is the
/// table and the row that it is looked up in first.
fn link_ahead(
    chance: &mut Chance,
    net: &Net,
    tables: &Tables,
    at: (usize, usize),
    d: usize,
) -> Option<usize> {
    let (mut table, mut row) = at;
    let mut ahead = None;
    for _ in 0..=chance.below(4) {
        let node = decider(net, table, row);
        let entry = tables[table].get(row * net.size() + d).copied()?;
        match net.over(node, entry) {
            Some(interface) => (ahead, table, row) = (Some(interface / 2), 1, interface),
            None => break,
        }
    }
    ahead
}

/// How often something is put wrong in a record: mostly seldom, but in some
/// records nearly everything, since then the order of refusals decides.
fn wrong_in(chance: &mut Chance) -> usize {
    chance.pick(&[40, 40, 40, 40, 2])
}

fn failure_bytes(kind: u8, number: u64) -> Vec<u8> {
    [&[kind][..], &eight(number)].concat()
}

/// A failure's bytes: none, the link ahead, any link, or no link at all.
fn failure(
    chance: &mut Chance,
    net: &Net,
    ahead: Option<usize>,
    wrong_in: usize,
    wrong: &mut bool,
) -> Vec<u8> {
    let (kind, number) = match (chance.below(8), ahead) {
        // With no failure the number says nothing, even if it is too large.
        (0, _) => (0, chance.pick(&[0, 1, u64::MAX])),
        (1..=4, Some(link)) if !chance.one_in(wrong_in) => (1, link as u64),
        // Without links, link 0 is the one most easily let through.
        (1..=4, None) if net.links() == 0 => {
            *wrong = true;
            (1, 0)
        }
        _ => (1, number(chance, net.links(), wrong_in, wrong)),
    };
    failure_bytes(kind, number)
}

/// What is wrong with a record, for the count of cases only.
fn case_of(damage: Option<&'static str>, wrong: bool) -> &'static str {
    match (damage, wrong) {
        (None, false) => "nothing put wrong",
        (None, true) => "a number too large",
        (Some(damage), false) => damage,
        (Some(_), true) => "a table damaged and a number too large",
    }
}

/// Tables for one record: as drawn, lengthened, or damaged.
fn lent(
    chance: &mut Chance,
    net: &Net,
    drawn: &Tables,
    wrong_in: usize,
) -> (Tables, Option<&'static str>) {
    let mut tables = drawn.clone();
    if chance.one_in(4) {
        lengthened(chance, &mut tables);
    }
    // Tables can be put wrong in more ways than numbers can.
    let damage = chance.one_in(wrong_in.min(6)).then(|| damaged(chance, net, &mut tables));
    (tables, damage)
}

/// Where a step is asked: at a start node, or on arrival over an interface.
const START: u8 = 0;
const ARRIVAL: u8 = 1;

fn push_step(
    made: &mut Made,
    case: &str,
    (net, tables): (&Net, &Tables),
    (kind, asked): (u8, u64),
    d: u64,
    failure: &[u8],
) {
    let tables = table_bytes(tables);
    made.push('S', case, &[&net.bytes(), &tables, &[kind], &eight(asked), &eight(d), failure]);
}

fn push_step_at_random(chance: &mut Chance, made: &mut Made, net: &Net, drawn: &Tables) {
    let wrong_in = wrong_in(chance);
    let (tables, damage) = lent(chance, net, drawn, wrong_in);
    let mut wrong = false;
    // Without links there is no interface to arrive on.
    let arrival = chance.one_in(if net.links() > 0 { 2 } else { 6 });
    let limit = if arrival { net.interfaces() } else { net.size() };
    let asked = number(chance, limit, wrong_in, &mut wrong);
    let d = number(chance, net.size(), wrong_in, &mut wrong);
    let ahead = if wrong {
        None
    } else {
        link_ahead(chance, net, &tables, (usize::from(arrival), asked as usize), d as usize)
    };
    let failure = failure(chance, net, ahead, wrong_in, &mut wrong);
    let kind = if arrival { ARRIVAL } else { START };
    push_step(made, case_of(damage, wrong), (net, &tables), (kind, asked), d, &failure);
}

fn push_walk(
    made: &mut Made,
    case: &str,
    (net, tables): (&Net, &Tables),
    (source, d): (u64, u64),
    failure: &[u8],
    limit: u8,
    trace: usize,
) {
    let (tables, ends) = (table_bytes(tables), [eight(source), eight(d)].concat());
    made.push('W', case, &[&net.bytes(), &tables, &ends, failure, &[limit], &two(trace)]);
}

fn push_walk_at_random(chance: &mut Chance, made: &mut Made, net: &Net, drawn: &Tables) {
    let wrong_in = wrong_in(chance);
    let (tables, damage) = lent(chance, net, drawn, wrong_in);
    let mut wrong = false;
    let source = number(chance, net.size(), wrong_in, &mut wrong);
    let d = number(chance, net.size(), wrong_in, &mut wrong);
    let ahead = if wrong {
        None
    } else {
        link_ahead(chance, net, &tables, (0, source as usize), d as usize)
    };
    let failure = failure(chance, net, ahead, wrong_in, &mut wrong);
    let limit = match chance.below(4) {
        0 => chance.pick(&[0, 1, 2, 3, 254, 255]),
        1 => chance.below(2 * net.size() + 1) as u8,
        2 => chance.byte(),
        _ => 64,
    };
    let exact = usize::from(limit) + 1;
    let trace = match chance.below(12) {
        0 => exact - 1,
        1 => chance.below(exact),
        2..=4 => chance.between(exact, LONGEST_TRACE),
        _ => exact,
    };
    let case = match case_of(damage, wrong) {
        "nothing put wrong" if trace < exact => "short trace",
        case => case,
    };
    push_walk(made, case, (net, &tables), (source, d), &failure, limit, trace);
}

fn push_figures(chance: &mut Chance, made: &mut Made, net: &Net, drawn: &Tables) {
    let wrong_in = wrong_in(chance);
    let (tables, damage) = lent(chance, net, drawn, wrong_in);
    let mut wrong = false;
    let failure = failure(chance, net, None, wrong_in, &mut wrong);
    let parts: [&[u8]; 3] = [&net.bytes(), &table_bytes(&tables), &failure];
    made.push('F', case_of(damage, wrong), &parts);
}

/// Networks up to this many pairs of interface and destination, and this many
/// links, get a K record for each pair.
const ALL_KEYS: usize = 400;
const ALL_KEYS_LINKS: usize = 32;

fn push_good(chance: &mut Chance, made: &mut Made, net: &Net) {
    push_tables(made, "exact tables", net, exact_lengths(net));
    if chance.one_in(2) {
        push_odd_tables(chance, made, net);
    }
    made.push('A', "good network", &[&net.bytes()]);
    if net.interfaces() * net.size() <= ALL_KEYS && net.links() <= ALL_KEYS_LINKS {
        for interface in 0..net.interfaces() {
            for d in 0..net.size() {
                push_keys(made, "all of a small network", net, interface as u64, d as u64);
            }
        }
        push_keys_at_random(chance, made, net, 2);
    } else {
        for _ in 0..4 {
            push_keys_at_random(chance, made, net, 8);
        }
        for _ in 0..16 {
            push_keys_against(chance, made, net);
        }
    }
    for _ in 0..6 {
        push_best_at_random(chance, made, net);
    }
    for _ in 0..2 {
        push_row_at_random(chance, made);
    }
    for _ in 0..2 {
        let drawn = arbitrary(chance, net);
        for _ in 0..5 {
            push_step_at_random(chance, made, net, &drawn);
            push_walk_at_random(chance, made, net, &drawn);
        }
        push_figures(chance, made, net, &drawn);
    }
}

/// One record of each kind that has a network. The other arguments would
/// often be refused too, but the network's refusal comes first.
fn push_bad(chance: &mut Chance, made: &mut Made, case: &str, bad: &Net, near: &Net) {
    let case = format!("bad network: {case}");
    let network = bad.bytes();
    let short = chance.one_in(2);
    let mut drawn = arbitrary(chance, near);
    if short {
        drawn = drawn.map(|table| table[..table.len() / 2].to_vec());
    }
    let tables = table_bytes(&drawn);
    let lengths = drawn.map(|table| two(table.len())).concat();
    let few = |chance: &mut Chance| eight(chance.pick(&[0, 1, 2, 40, 200, u64::MAX]));
    let (one, other) = (few(chance), few(chance));
    let failure = [&[chance.below(2) as u8][..], &few(chance)].concat();
    let limit = chance.pick(&[0, 5, 64, 255]);
    let trace = two(if short { 0 } else { 256 });
    made.push('T', &case, &[&network, &lengths]);
    made.push('K', &case, &[&network, &one, &other]);
    made.push('B', &case, &[&network, &one, &other]);
    let kind = [chance.below(2) as u8];
    made.push('S', &case, &[&network, &tables, &kind, &one, &other, &failure]);
    made.push('W', &case, &[&network, &tables, &one, &other, &failure, &[limit], &trace]);
    made.push('A', &case, &[&network]);
    made.push('F', &case, &[&network, &tables, &failure]);
}

// ---------------------------------------------------- nothing on arrival

/// Entries that lead to the neighbour with the fewest links to go, over the
/// first link to it. A packet that is turned back goes over another link than
/// the one it cannot be sent over.
fn straight_row(net: &Net, table: usize, row: usize) -> Vec<u8> {
    let node = decider(net, table, row);
    let mut choices = net.leaving(node);
    if table == 2 {
        choices.retain(|&next| next != row);
    }
    let entry = |d: usize| match choices.iter().min_by_key(|&&next| net.distances(d)[net.ends(next).1]) {
        _ if d == node => 254,
        Some(&nearest) => entry_over(nearest),
        None => 255,
    };
    (0..net.size()).map(entry).collect()
}

fn straight(net: &Net) -> Tables {
    [0, 1, 2].map(|table| {
        (0..row_count(net, table)).flat_map(|row| straight_row(net, table, row)).collect()
    })
}

/// From a node of a chain to its last one, but over one interface there is
/// nothing to follow on arrival; and the step on that arrival.
fn push_gap(made: &mut Made, case: &str, nodes: usize, source: u64, gap: (usize, usize)) {
    let links: Vec<Link> = (1..nodes).map(|high| (high - 1, high, 1)).collect();
    let net = Net::listed(nodes, &links);
    let d = nodes - 1;
    let interface = net.interface(gap.0, gap.1).expect("neighbours");
    let mut tables = straight(&net);
    tables[1][interface * nodes + d] = 255;

    let failures = (0..net.links()).map(|link| failure_bytes(1, link as u64));
    for failure in std::iter::once(failure_bytes(0, 0)).chain(failures) {
        for limit in [0, 1, 2, 3, 4, 64, 255] {
            let trace = usize::from(limit) + 1;
            push_walk(made, case, (&net, &tables), (source, d as u64), &failure, limit, trace);
        }
        push_step(made, case, (&net, &tables), (ARRIVAL, interface as u64), d as u64, &failure);
    }
}

/// The built tables of three nodes whose one link is 0-1. The second program's
/// self-test has the same bytes and shows that they are: change them there too.
const BUILT_APART: [&[u8]; 3] = [
    &[254, 0, 255, 0, 254, 255, 255, 255, 254],
    &[0, 254, 255, 254, 0, 255],
    &[254, 255, 255, 255, 254, 255],
];

/// No walk to node 2 arrives anywhere over these, but a step can be asked on
/// each arrival.
fn push_apart(made: &mut Made) {
    let case = "built tables, destination apart";
    let net = Net::listed(3, &[(0, 1, 1)]);
    let tables = BUILT_APART.map(<[u8]>::to_vec);
    for failure in [failure_bytes(0, 0), failure_bytes(1, 0)] {
        for number in [0, 1] {
            push_step(made, case, (&net, &tables), (ARRIVAL, number), 2, &failure);
            push_step(made, case, (&net, &tables), (START, number), 2, &failure);
            for limit in [0, 1, 64] {
                let trace = usize::from(limit) + 1;
                push_walk(made, case, (&net, &tables), (number, 2), &failure, limit, trace);
            }
        }
    }
}

/// Steps and walks that find nothing on arrival. Nothing is drawn for them, so
/// that the records after them stay as they are.
fn push_arrival_list(made: &mut Made) {
    push_gap(made, "gap on the first arrival", 3, 0, (0, 1));
    push_gap(made, "gap two arrivals later", 5, 0, (2, 3));
    push_gap(made, "gap after turning back", 3, 0, (1, 0));
    push_gap(made, "gap after turning back", 3, 1, (1, 0));
    push_apart(made);
}

// --------------------------------------------------------- parallel links

/// One entry of lent tables changed: steps, walks and figures with each failure.
fn push_changed(made: &mut Made, case: &str, net: &Net, tables: &Tables, d: usize) {
    let failures = (0..net.links()).map(|link| failure_bytes(1, link as u64));
    for failure in std::iter::once(failure_bytes(0, 0)).chain(failures) {
        for source in (0..net.size()).filter(|&source| source != d) {
            push_walk(made, case, (net, tables), (source as u64, d as u64), &failure, 64, 65);
            push_step(made, case, (net, tables), (START, source as u64), d as u64, &failure);
        }
        made.push('F', case, &[&net.bytes(), &table_bytes(tables), &failure]);
    }
    // On arrival at 0 over either of the links from 1.
    for interface in [1, 3] {
        let none = failure_bytes(0, 0);
        push_step(made, case, (net, tables), (ARRIVAL, interface), d as u64, &none);
    }
}

/// Tables that name links, of a network where links 0 and 1 are 0-1, link 2 is
/// 0-2 and links 3 and 4 are 1-2. An entry of node 0 for 2 is another: in the
/// routing table, in the forwarding row of 1 to 0 over link 0, and in the
/// backwarding row of 0 to 1 over link 1.
fn push_sibling_list(made: &mut Made) {
    let net = Net::listed(3, &parallel::TWINS);
    let d = 2;
    for (case, entry) in [
        ("entry: a link there", 0),
        ("entry: its sibling", 1),
        ("entry: the link to the destination", 2),
        ("entry: a link elsewhere", 3),
        ("entry: a link elsewhere", 4),
        ("entry: the link count", 5),
        ("entry: past the link count", 63),
        ("entry: past the link count", 64),
        ("entry: past the link count", 128),
        ("entry: 253", 253),
        ("entry: 254", 254),
        ("entry: 255", 255),
    ] {
        for (table, row) in [(0, 0), (1, 1), (2, 2)] {
            let mut tables = straight(&net);
            // Over the siblings, so that failed ones are met.
            tables[0][d] = 1;
            tables[table][row * net.size() + d] = entry;
            push_changed(made, case, &net, &tables, d);
        }
    }
}

// ------------------------------------------------------------- the batch

/// Shapes that stand here with weights that differ, and not also with none
/// but 1: whole reports have both.
const WEIGHED: [&str; 6] =
    ["chain", "star", "tree", "complete", "separate parts", "bridges and separate parts"];

/// The deliberate networks: the bench sheet, those with parallel links, and the
/// shapes. The first 170 networks of a batch hold them all, and compare.sh counts
/// on that.
fn deliberate(chance: &mut Chance) -> Vec<NetCase> {
    let mut list = net_list(chance);
    let shapes = list.split_off(BENCH_SHEET);
    let stays = |(name, net): &NetCase| !WEIGHED.contains(name) || net.weights.iter().any(|&weight| weight > 1);
    let shapes: Vec<NetCase> = shapes.into_iter().filter(stays).collect();
    list.extend(parallel::list(chance));
    list.extend(shapes);
    list
}

fn any_at_random(chance: &mut Chance) -> NetCase {
    if chance.one_in(3) { parallel::at_random(chance) } else { net_at_random(chance) }
}

pub fn make(chance: &mut Chance, count: usize) -> Vec<u8> {
    let mut made = Made { batch: Vec::new(), cases: BTreeMap::new(), kinds: BTreeMap::new() };
    push_arrival_list(&mut made);
    push_sibling_list(&mut made);
    let mut listed = deliberate(chance).into_iter();
    let mut names: BTreeMap<&'static str, usize> = BTreeMap::new();
    let mut walks = 0;
    let mut full = 0;
    for _ in 0..count {
        let (name, net) = listed.next().unwrap_or_else(|| any_at_random(chance));
        *names.entry(name).or_default() += 1;
        walks += (net.links() + 1) * net.size() * net.size();
        full += usize::from(net.size() == 32 && net.links() == MOST_LINKS);
        push_good(chance, &mut made, &net);
    }
    push_row_list(chance, &mut made);
    let near = Net::of(chance, &Shape::grid(2, 3), Weights::UpTo(3));
    for (case, bad) in bad_list(chance) {
        push_bad(chance, &mut made, case, &bad, &near);
    }

    for (name, number) in names {
        eprintln!("{number:6} networks: {name}");
    }
    for (case, number) in made.cases {
        eprintln!("{number:6} {case}");
    }
    let kinds: Vec<String> = made.kinds.iter().map(|(kind, number)| format!("{number} {kind}")).collect();
    let total: usize = made.kinds.values().sum();
    eprintln!("{total:6} records: {}", kinds.join(", "));
    eprintln!("{count:6} networks, {full} of 32 nodes and 64 links, {walks} walks in A records");
    if listed.len() > 0 {
        eprintln!("{:6} deliberate networks left out: the count is too small for them", listed.len());
    }
    made.batch
}

//! Sub-command `codec`: a batch of stored plans and of networks in memory, for
//! the plan reader and writer. It reaches every refusal, every limit and what
//! lies one past it, and parallel links in every order.
//!
//! Of every six records five are plans and one is a network. Each of the two
//! sorts first runs through its list of deliberate cases and is then filled up
//! at random.

use crate::chance::Chance;
use crate::networks::{Net, PLAN_A};
use crate::parallel_plans;
use crate::record::{record, two, LONGEST_PLAN, LONGEST_ROW};
use crate::stored::{draw, draw_any, draw_with, longest, plan_at_random, plan_list, Draft, PlanCase};
use std::collections::BTreeMap;

// ------------------------------------------------------------- networks

/// A network, and the length of a room for its plan.
#[derive(Clone)]
struct Memory {
    net: Net,
    room: usize,
}

impl Memory {
    /// The drafted network with just the room that its plan needs, as far as
    /// a record can ask for it.
    fn of(draft: &Draft) -> Memory {
        let net = Net::listed(draft.nodes, &draft.links);
        Memory { net, room: draft.plan().len().min(LONGEST_PLAN) }
    }

    fn with_room(&self, room: usize) -> Memory {
        Memory { room, ..self.clone() }
    }

    /// The same room for another network.
    fn with(&self, net: Net) -> Memory {
        Memory { net, room: self.room }
    }

    fn record(&self) -> Vec<u8> {
        assert!(self.room <= LONGEST_PLAN);
        record('N', &[&self.net.bytes(), &two(self.room)])
    }
}

type MemoryCase = (&'static str, Memory);

const BAD_NODE_COUNTS: [u64; 11] = [
    0,
    33,
    34,
    255,
    256,
    // These look like four nodes to whoever keeps too few bits of them.
    256 + 4,
    65_536 + 4,
    (1 << 32) + 4,
    (1 << 63) + 4,
    u64::MAX - 1,
    u64::MAX,
];

const BAD_WEIGHTS: [u32; 7] =
    [0, 65_536, 65_537, 1 << 24, 1 << 31, u32::MAX - 65_535, u32::MAX];

/// Link ends that are refused whatever the other links say.
fn bad_ends(nodes: u8) -> Vec<(u8, u8)> {
    vec![
        (0, nodes),
        (0, 255),
        (nodes - 1, nodes),
        (nodes - 1, nodes - 1),
        (nodes - 1, nodes - 2),
        (0, 0),
        (nodes, nodes + 1),
        (nodes, 0),
        (254, 255),
        (255, 255),
        (255, 0),
    ]
}

/// The deliberate networks.
fn memory_list(chance: &mut Chance) -> Vec<MemoryCase> {
    let mut list: Vec<MemoryCase> = Vec::new();
    let longest = Memory::of(&longest(chance));
    let a = Memory::of(&Draft { nodes: 4, links: PLAN_A.to_vec() });

    // Valid, with many rooms.
    let mut valid = vec![
        Memory::of(&draw(chance, 1, 0)),
        Memory::of(&draw(chance, 32, 0)),
        Memory::of(&draw(chance, 2, 1)),
        Memory::of(&draw(chance, 32, 64)),
        a.clone(),
        longest.clone(),
    ];
    for _ in 0..3 {
        valid.push(Memory::of(&draw_with(chance, 1)));
    }
    for memory in &valid {
        let exact = memory.room;
        for room in [exact, exact + 1, exact + 40, LONGEST_PLAN] {
            list.push(("network: valid, room enough", memory.with_room(room.min(LONGEST_PLAN))));
        }
        list.push(("network: valid, room one short", memory.with_room(exact - 1)));
        list.push(("network: valid, room short", memory.with_room(exact / 2)));
        list.push(("network: valid, no room", memory.with_room(0)));
    }

    // Rows of unequal length, alone and with every other fault.
    let l = a.net.links();
    for (lows, highs, weights) in [
        (l - 1, l, l),
        (l, l - 1, l),
        (l, l, l - 1),
        (l + 1, l, l),
        (l, l + 1, l),
        (l, l, l + 1),
        (l - 1, l - 1, l),
        (l, l - 1, l - 1),
        (l - 1, l, l + 1),
        (0, l, l),
        (l, 0, l),
        (l, l, 0),
        (80, 80, 79),
        (65, 64, 64),
        (64, 64, 80),
    ] {
        let faulty = a.with(a.net.with_lengths(lows, highs, weights));
        list.push(("network: unequal rows", faulty.clone()));
        if chance.one_in(2) {
            let net = faulty.net.with_nodes(chance.pick(&BAD_NODE_COUNTS));
            list.push(("network: unequal rows and more", Memory { net, room: 0 }));
        }
    }

    // Node counts, alone and with bad links behind them.
    for nodes in BAD_NODE_COUNTS {
        list.push(("network: node count", a.with(a.net.with_nodes(nodes))));
        list.push(("network: node count", valid[0].with(valid[0].net.with_nodes(nodes))));
        let net = longest.net.with_nodes(nodes).with_weight(0, 0);
        list.push(("network: node count", Memory { net, room: 0 }));
    }
    for nodes in [1, 3, 4, 5, 32] {
        list.push(("network: node count", a.with(a.net.with_nodes(nodes))));
    }
    list.push(("network: node count", longest.with(longest.net.with_nodes(31))));
    let overlong = longest.net.with_lengths(80, 80, 80);
    list.push(("network: node count", longest.with(overlong.with_nodes(0))));

    // Too many links, with a bad first link as well.
    for links in [65, 66, 79, 80] {
        let memory = Memory::of(&draw(chance, 32, links));
        list.push(("network: over 64 links", memory.clone()));
        list.push(("network: over 64 links", Memory { net: memory.net.with_ends(0, 9, 9), room: 0 }));
        list.push(("network: over 64 links", memory.with(memory.net.with_nodes(1))));
    }

    // Each fault of a link, at the first, a middle and the last link.
    let middling = Memory::of(&draw(chance, 9, 7));
    for memory in [&middling, &longest] {
        let net = &memory.net;
        let last = net.links() - 1;
        for link in [0, last / 2, last] {
            for (low, high) in bad_ends(net.nodes as u8) {
                list.push(("network: ends", memory.with(net.with_ends(link, low, high))));
            }
            for weight in BAD_WEIGHTS {
                list.push(("network: weight", memory.with(net.with_weight(link, weight))));
            }
            for weight in [1, 65_535] {
                let memory = memory.with(net.with_weight(link, weight));
                list.push(("network: weight at its limit", memory));
            }
        }
        for link in [1, last / 2, last] {
            let (low, high) = (net.lows[link - 1], net.highs[link - 1]);
            let equal = net.with_ends(link, low, high);
            list.push(("network: order", memory.with(equal.clone())));
            list.push(("network: order", memory.with(net.with_ends(link, 0, 1))));
            if low > 0 {
                let earlier = net.with_ends(link, low - 1, net.nodes as u8 - 1);
                list.push(("network: order", memory.with(earlier)));
            }
            // Which of several faults is named.
            let unweighed = Memory { net: equal.with_weight(link, 0), room: 0 };
            list.push(("network: several faults", unweighed));
            list.push(("network: several faults", memory.with(equal.with_weight(link - 1, u32::MAX))));
            let both = net.with_ends(link, 0, 0).with_weight(link, 0);
            list.push(("network: several faults", memory.with(both.clone())));
            list.push(("network: several faults", memory.with(both.with_weight(link - 1, 65_536))));
        }
    }
    list
}

fn room_at_random(chance: &mut Chance, exact: usize) -> usize {
    match chance.below(4) {
        0 => exact,
        1 => exact.saturating_sub(1 + chance.below(3)),
        2 => (exact + chance.below(9)).min(LONGEST_PLAN),
        _ => chance.below(LONGEST_PLAN + 1),
    }
}

fn fault_at_random(chance: &mut Chance, net: Net) -> Net {
    let mut lengths = [net.lows.len(), net.highs.len(), net.weights.len()];
    let links = lengths[0].min(lengths[1]).min(lengths[2]);
    match chance.below(if links == 0 { 2 } else { 6 }) {
        0 if chance.one_in(2) => net.with_nodes(chance.pick(&BAD_NODE_COUNTS)),
        0 => net.with_nodes(chance.between(0, 34) as u64),
        1 => {
            lengths[chance.below(3)] = chance.below(LONGEST_ROW + 1);
            net.with_lengths(lengths[0], lengths[1], lengths[2])
        }
        2 => net.with_ends(chance.below(links), chance.below(34) as u8, chance.below(34) as u8),
        3 => net.with_ends(chance.below(links), chance.byte(), chance.byte()),
        4 => {
            let (one, other) = (chance.below(links), chance.below(links));
            let mut net = net;
            net.lows.swap(one, other);
            net.highs.swap(one, other);
            net
        }
        _ => {
            let weight = if chance.one_in(2) { chance.pick(&BAD_WEIGHTS) } else { chance.next() as u32 };
            net.with_weight(chance.below(links), weight)
        }
    }
}

/// Networks with parallel links; every third has other room than it needs.
fn parallel_list(chance: &mut Chance) -> Vec<MemoryCase> {
    let drafts = parallel_plans::draft_list(chance).into_iter().enumerate();
    let mut list = Vec::new();
    for (number, (name, draft)) in drafts {
        let exact = Memory::of(&draft);
        let room = if number % 3 == 0 { room_at_random(chance, exact.room) } else { exact.room };
        list.push((name, exact.with_room(room)));
    }
    list
}

fn memory_at_random(chance: &mut Chance) -> MemoryCase {
    if chance.one_in(3) {
        let (name, draft) = parallel_plans::draft_at_random(chance);
        return (name, Memory::of(&draft));
    }
    let mut memory = Memory::of(&draw_any(chance));
    memory.room = room_at_random(chance, memory.room);
    if chance.one_in(3) {
        return ("network: valid at random", memory);
    }
    for _ in 0..=chance.below(2) {
        memory.net = fault_at_random(chance, memory.net);
    }
    ("network: faults at random", memory)
}

// ------------------------------------------------------------- the batch

fn any_plan_at_random(chance: &mut Chance) -> PlanCase {
    if chance.one_in(4) {
        let (name, draft) = parallel_plans::draft_at_random(chance);
        return (name, draft.plan());
    }
    plan_at_random(chance)
}

pub fn make(chance: &mut Chance, count: usize) -> Vec<u8> {
    let mut plans = parallel_plans::plan_list(chance);
    plans.extend(plan_list(chance));
    let mut memories = parallel_list(chance);
    memories.extend(memory_list(chance));
    let (mut next_plan, mut next_memory) = (plans.into_iter(), memories.into_iter());

    let mut kinds: BTreeMap<(char, &'static str), usize> = BTreeMap::new();
    let mut sorts = [0, 0];
    let mut batch = Vec::new();
    for number in 0..count {
        let (kind, record) = if number % 6 == 5 {
            sorts[1] += 1;
            let (name, memory) = next_memory.next().unwrap_or_else(|| memory_at_random(chance));
            (('N', name), memory.record())
        } else {
            sorts[0] += 1;
            let (name, plan) = next_plan.next().unwrap_or_else(|| any_plan_at_random(chance));
            assert!(plan.len() <= LONGEST_PLAN);
            (('P', name), record('P', &[&plan]))
        };
        *kinds.entry(kind).or_default() += 1;
        batch.extend(record);
    }

    for ((kind, name), made) in kinds {
        eprintln!("{made:6} {kind} {name}");
    }
    eprintln!("{count:6} records: {} plans, {} networks", sorts[0], sorts[1]);
    let left = next_plan.len() + next_memory.len();
    if left > 0 {
        eprintln!("{left:6} deliberate cases left out: the count is too small for them");
    }
    batch
}

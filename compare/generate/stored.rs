//! Stored plans: good ones, and ones cut, lengthened and put wrong. This has
//! its own small encoder.

use crate::chance::Chance;
use crate::networks::{Link, Net, MOST_LINKS, PLAN_A};
use crate::record::LONGEST_PLAN;

pub const LARGEST_NUMBER: usize = 0x1F_FFFF;

/// The canonical groups of a number below 2^21.
pub fn groups(value: usize) -> Vec<u8> {
    let [a, b, c] = [value & 127, value >> 7 & 127, value >> 14].map(|group| group as u8);
    match value {
        0..=127 => vec![a],
        128..=16_383 => vec![a | 128, b],
        16_384..=LARGEST_NUMBER => vec![a | 128, b | 128, c],
        _ => panic!("no stored number: {value}"),
    }
}

/// A network that is meant to be valid. Faults are put in afterwards.
#[derive(Clone)]
pub struct Draft {
    pub nodes: usize,
    pub links: Vec<Link>,
}

/// Where a number stands in a plan's row of numbers.
const NODES: usize = 0;
const LINKS: usize = 1;
fn low_of(link: usize) -> usize {
    2 + 3 * link
}
fn difference_of(link: usize) -> usize {
    3 + 3 * link
}
pub fn weight_of(link: usize) -> usize {
    4 + 3 * link
}

impl Draft {
    /// From a good network of a record.
    pub fn of(net: &Net) -> Draft {
        let link = |k: usize| {
            (usize::from(net.lows[k]), usize::from(net.highs[k]), net.weights[k] as usize)
        };
        Draft { nodes: net.size(), links: (0..net.links()).map(link).collect() }
    }

    pub fn parts(&self) -> Vec<Vec<u8>> {
        let mut parts = vec![groups(self.nodes), groups(self.links.len())];
        for &(low, high, weight) in &self.links {
            parts.extend([groups(low), groups(high - low), groups(weight)]);
        }
        parts
    }

    pub fn plan(&self) -> Vec<u8> {
        self.parts().concat()
    }

    /// The plan with the number at one position given by other bytes.
    pub fn plan_with(&self, position: usize, bytes: &[u8]) -> Vec<u8> {
        self.plan_with_all(&[(position, bytes.to_vec())])
    }

    fn plan_with_all(&self, changes: &[(usize, Vec<u8>)]) -> Vec<u8> {
        let mut parts = self.parts();
        for (position, bytes) in changes {
            parts[*position] = bytes.clone();
        }
        parts.concat()
    }

    pub fn last(&self) -> usize {
        self.links.len() - 1
    }
}

fn most_links(nodes: usize) -> usize {
    (nodes * (nodes - 1) / 2).min(MOST_LINKS)
}

fn good_weight(chance: &mut Chance) -> usize {
    match chance.below(4) {
        0 => chance.between(1, 9),
        1 => chance.between(1, 20_000),
        2 => chance.pick(&[1, 2, 127, 128, 129, 16_383, 16_384, 16_385, 65_534, 65_535]),
        _ => chance.between(1, 65_535),
    }
}

/// A valid network with `links` links drawn from all pairs. It may be asked
/// for more than 64 links; such a network is only too long, not out of order.
pub fn draw(chance: &mut Chance, nodes: usize, links: usize) -> Draft {
    let mut pairs = Vec::new();
    for low in 0..nodes {
        for high in low + 1..nodes {
            pairs.push((low, high));
        }
    }
    while pairs.len() > links {
        // Taking from the ordered row keeps the order.
        let out = chance.below(pairs.len());
        pairs.remove(out);
    }
    let links = pairs.into_iter().map(|(low, high)| (low, high, good_weight(chance))).collect();
    Draft { nodes, links }
}

pub fn draw_any(chance: &mut Chance) -> Draft {
    let nodes = chance.between(1, 32);
    let most = most_links(nodes);
    // Short ones are frequent, so that faults in the first links are too.
    let links = if chance.one_in(2) { most.min(6) } else { most };
    let links = chance.below(links + 1);
    draw(chance, nodes, links)
}

/// A network with at least `links` links.
pub fn draw_with(chance: &mut Chance, links: usize) -> Draft {
    loop {
        let draft = draw_any(chance);
        if draft.links.len() >= links {
            return draft;
        }
    }
}

/// The longest valid plan: as many links as may be, and each number as long
/// as canon and its limit permit.
pub fn longest(chance: &mut Chance) -> Draft {
    let mut draft = draw(chance, 32, 64);
    for link in &mut draft.links {
        link.2 = chance.between(16_384, 65_535);
    }
    // No plan can be longer than one whose numbers all stand at their limit.
    let link_bound = groups(31).len() + groups(31).len() + groups(65_535).len();
    let bound = groups(32).len() + groups(64).len() + 64 * link_bound;
    assert_eq!(draft.plan().len(), bound);
    draft
}

/// Encodings that no canonical writer makes, and their canonical neighbours.
fn odd_numbers(value: usize) -> Vec<Vec<u8>> {
    let seven = (value & 127) as u8;
    vec![
        vec![seven | 128, 0x00],
        vec![seven | 128, 0x80, 0x00],
        vec![seven | 128, 0x80, 0x80],
        vec![seven | 128, 0x80, 0x80, 0x00],
        vec![0x81, 0x00],
        vec![0x80, 0x00],
        vec![0x80, 0x80, 0x00],
        vec![0x80, 0x80, 0x80],
        vec![0x80, 0x80, 0x80, 0x01],
        vec![0xFF, 0xFF, 0xFF],
        vec![0xFF, 0xFF, 0xFF, 0x7F],
        vec![0xFF, 0xFF, 0x00],
        vec![0xFF, 0xFF, 0x83],
        vec![0x80, 0x01],
        vec![0xFF, 0x7F],
        vec![0x80, 0x80, 0x01],
        vec![0xFF, 0xFF, 0x7F],
    ]
}

/// Numbers whose low eight or sixteen bits look harmless are among these.
fn odd_values(nodes: usize) -> Vec<usize> {
    vec![
        0,
        1,
        nodes - 1,
        nodes,
        nodes + 1,
        127,
        128,
        255,
        256,
        257,
        16_384,
        65_536,
        65_537,
        LARGEST_NUMBER,
    ]
}

pub type PlanCase = (&'static str, Vec<u8>);

pub fn lengthened(mut plan: Vec<u8>, length: usize, filler: u8) -> Vec<u8> {
    plan.resize(length, filler);
    plan
}

/// The deliberate plans.
pub fn plan_list(chance: &mut Chance) -> Vec<PlanCase> {
    let mut list: Vec<PlanCase> = Vec::new();
    let longest = longest(chance);
    let a = Draft { nodes: 4, links: PLAN_A.to_vec() };
    let one_node = Draft { nodes: 1, links: vec![] };
    let middling = draw(chance, 9, 7);

    // Rows of the bench sheet.
    list.push(("plan: empty", vec![]));
    list.push(("plan: bench sheet", a.plan()));
    list.push(("plan: bench sheet", one_node.plan()));
    list.push(("plan: bench sheet", vec![0x00]));
    for weight in [300, 65_535, 65_536] {
        list.push(("plan: bench sheet", [&[2, 1, 0, 1][..], &groups(weight)].concat()));
    }
    list.push(("plan: bench sheet", vec![2, 1, 0, 1, 0x80, 0x00]));

    // Every size: each link count, each node count bare and full.
    for links in 0..=64 {
        list.push(("plan: valid, every link count", draw(chance, 32, links).plan()));
    }
    for nodes in 1..=32 {
        list.push(("plan: valid, every node count", draw(chance, nodes, 0).plan()));
        list.push(("plan: valid, every node count", draw(chance, nodes, most_links(nodes)).plan()));
    }
    list.push(("plan: longest valid", longest.plan()));

    // Cut at every place.
    for draft in [&one_node, &a, &middling, &longest] {
        let plan = draft.plan();
        for length in 0..plan.len() {
            list.push(("plan: cut at every place", plan[..length].to_vec()));
        }
    }

    // Lengthened, by few bytes and past the longest plan.
    for draft in [&one_node, &a, &longest] {
        let plan = draft.plan();
        for filler in [0x00, 0x01, 0x80, 0xFF] {
            for more in 1..=4 {
                let length = plan.len() + more;
                list.push(("plan: lengthened", lengthened(plan.clone(), length, filler)));
            }
        }
        for length in [323, 324, 325, 400, 511, 512, LONGEST_PLAN - 1, LONGEST_PLAN] {
            let filler = chance.byte();
            list.push(("plan: lengthened, over 322 bytes", lengthened(plan.clone(), length, filler)));
        }
    }

    // Not canonical, at each number of the first, a middle and the last link.
    let mut positions = vec![NODES, LINKS];
    for link in [0, middling.last() / 2, middling.last()] {
        positions.extend([low_of(link), difference_of(link), weight_of(link)]);
    }
    for &position in &positions {
        let value = usize::from(middling.parts()[position][0]);
        for bytes in odd_numbers(value) {
            list.push(("plan: odd encoding", middling.plan_with(position, &bytes)));
            // The same as the very last bytes of the input.
            let upto = middling.parts()[..position].concat();
            if chance.one_in(3) {
                list.push(("plan: odd encoding, cut", [upto, bytes].concat()));
            }
        }
    }

    // Limits of the two counts.
    for nodes in [0, 1, 2, 31, 32, 33, 34, 64, 127, 128, 255, 256, 260, 288, 65_540, LARGEST_NUMBER] {
        list.push(("plan: node count", groups(nodes)));
        list.push(("plan: node count", [groups(nodes), vec![0]].concat()));
        list.push(("plan: node count", a.plan_with(NODES, &groups(nodes))));
        list.push(("plan: node count", longest.plan_with(NODES, &groups(nodes))));
    }
    for links in [0, 1, 4, 5, 6, 63, 64, 65, 66, 127, 128, 255, 256, 261, 65_541, LARGEST_NUMBER] {
        list.push(("plan: link count", vec![vec![4], groups(links)].concat()));
        list.push(("plan: link count", a.plan_with(LINKS, &groups(links))));
        list.push(("plan: link count", longest.plan_with(LINKS, &groups(links))));
    }
    // Sixty-five links that stand there as well as being counted.
    list.push(("plan: link count", draw(chance, 32, 65).plan()));
    list.push(("plan: link count", draw(chance, 32, 80).plan()));

    // Ends and weights at and past their limits, in three links.
    for draft in [&middling, &longest] {
        for link in [0, draft.last() / 2, draft.last()] {
            for weight in
                [0, 1, 127, 128, 16_383, 16_384, 65_534, 65_535, 65_536, 65_537, 131_071, LARGEST_NUMBER]
            {
                let plan = draft.plan_with(weight_of(link), &groups(weight));
                list.push(("plan: weight", plan));
            }
            for value in odd_values(draft.nodes) {
                let plan = draft.plan_with(low_of(link), &groups(value));
                list.push(("plan: low end", plan));
                let plan = draft.plan_with(difference_of(link), &groups(value));
                list.push(("plan: difference", plan));
            }
        }
    }
    for nodes in [1, 2, 3, 7, 16, 31, 32] {
        for low in [0, nodes - 1, nodes] {
            for high in [nodes - 1, nodes, nodes + 1] {
                let plan = Draft { nodes, links: vec![(low, high.max(low), 5)] }.plan();
                list.push(("plan: one link at the end of the nodes", plan));
            }
        }
    }

    // Order: equal, high end descending, low end descending. Then the same
    // with a bad weight behind it or a bad difference before it.
    for draft in [&a, &middling, &longest] {
        for link in [1, draft.last()] {
            let (low, high, weight) = draft.links[link - 1];
            let mut backs = vec![(low, high, weight)];
            if high > low + 1 {
                backs.push((low, high - 1, weight));
            }
            if low > 0 {
                backs.push((low - 1, high, weight));
                backs.push((low - 1, draft.nodes - 1, weight));
            }
            for back in backs {
                let mut faulty = draft.clone();
                faulty.links[link] = back;
                list.push(("plan: order", faulty.plan()));
                for bytes in [groups(0), groups(65_536), vec![0x80, 0x00], vec![0x80, 0x80, 0x80]] {
                    let plan = faulty.plan_with(weight_of(link), &bytes);
                    list.push(("plan: order, then another fault", plan));
                }
                let upto = faulty.parts()[..weight_of(link)].concat();
                list.push(("plan: order, then another fault", upto));
                for bytes in [groups(0), groups(faulty.nodes), vec![0x81, 0x00]] {
                    let plan = faulty.plan_with(difference_of(link), &bytes);
                    list.push(("plan: another fault, then order", plan));
                }
            }
        }
    }
    list
}

/// Any one or two numbers of a plan put wrong.
fn odd_number(chance: &mut Chance, nodes: usize) -> Vec<u8> {
    match chance.below(4) {
        0 => {
            let value = chance.between(0, 127);
            chance.pick(&odd_numbers(value))
        }
        1 => groups(chance.pick(&odd_values(nodes))),
        2 => groups(chance.between(0, 40)),
        _ => groups(chance.between(0, LARGEST_NUMBER)),
    }
}

pub fn plan_at_random(chance: &mut Chance) -> PlanCase {
    match chance.below(12) {
        0 | 1 => ("plan: valid at random", draw_any(chance).plan()),
        2 => {
            let mut plan = draw_any(chance).plan();
            let length = chance.below(plan.len());
            plan.truncate(length);
            ("plan: cut at random", plan)
        }
        3 => {
            let mut plan = draw_any(chance).plan();
            let more = if chance.one_in(3) { chance.below(LONGEST_PLAN - plan.len()) } else { chance.below(6) };
            for _ in 0..=more {
                plan.push(chance.byte());
            }
            ("plan: lengthened at random", plan)
        }
        4 | 5 => {
            let mut plan = draw_any(chance).plan();
            for _ in 0..=chance.below(3) {
                let place = chance.below(plan.len());
                plan[place] = match chance.below(3) {
                    0 => chance.byte(),
                    1 => plan[place] ^ 1 << chance.below(8),
                    _ => chance.pick(&[0x00, 0x01, 0x7F, 0x80, 0xFF]),
                };
            }
            ("plan: bytes changed at random", plan)
        }
        6 | 7 => {
            let draft = draw_any(chance);
            let count = 1 + chance.below(2);
            let mut changes = Vec::new();
            for _ in 0..count {
                let position = chance.below(draft.parts().len());
                changes.push((position, odd_number(chance, draft.nodes)));
            }
            ("plan: numbers changed at random", draft.plan_with_all(&changes))
        }
        8 => {
            let mut draft = draw_with(chance, 2);
            let link = 1 + chance.below(draft.last());
            let earlier = chance.below(link);
            if chance.one_in(2) {
                draft.links[link] = draft.links[earlier];
            } else {
                draft.links.swap(link, earlier);
            }
            ("plan: order at random", draft.plan())
        }
        9 => {
            let mut plan = draw_any(chance).plan();
            let place = chance.below(plan.len() + 1);
            if chance.one_in(2) || place == plan.len() {
                plan.insert(place, chance.byte());
            } else {
                plan.remove(place);
            }
            ("plan: byte put in or taken out", plan)
        }
        10 => {
            let length = chance.below(40);
            ("plan: garbage", (0..length).map(|_| chance.byte()).collect())
        }
        _ => {
            // Small bytes get further into a plan than free ones do.
            let mut plan = vec![chance.between(2, 32) as u8, chance.between(0, 5) as u8];
            for _ in 0..chance.below(18) {
                plan.push(chance.below(9) as u8);
            }
            ("plan: garbage of small bytes", plan)
        }
    }
}

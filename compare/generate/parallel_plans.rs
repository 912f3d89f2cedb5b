//! Stored plans whose links are parallel: in good order, in bad order, and with
//! other faults, so that it shows which of them is named. The drafts of faulty
//! ones serve for networks in memory too.

use crate::chance::Chance;
use crate::networks::{Link, MOST_LINKS, PLAN_A};
use crate::stored::{draw_with, groups, longest, weight_of, Draft, PlanCase, LARGEST_NUMBER};

pub type DraftCase = (&'static str, Draft);

fn draft(nodes: usize, links: &[Link]) -> Draft {
    Draft { nodes, links: links.to_vec() }
}

/// So many links between two nodes.
fn pair(weights: &[usize]) -> Draft {
    draft(2, &weights.iter().map(|&weight| (0, 1, weight)).collect::<Vec<_>>())
}

/// The draft with one of its links once more, right after itself.
fn twin_of(draft: &Draft, link: usize) -> Draft {
    let mut twin = draft.clone();
    twin.links.insert(link + 1, draft.links[link]);
    twin
}

/// Good and bad orders of weights, of two links and of three.
const WEIGHTS: [&[usize]; 33] = [
    &[1, 1],
    &[1, 2],
    &[2, 1],
    &[5, 4],
    &[5, 6],
    &[127, 128],
    &[128, 127],
    &[255, 256],
    &[256, 255],
    &[257, 1],
    &[16_383, 16_384],
    &[16_384, 16_383],
    &[16_384, 300],
    &[300, 16_384],
    &[65_534, 65_535],
    &[65_535, 65_534],
    &[65_535, 65_535],
    &[65_535, 1],
    &[1, 65_535],
    &[5, 0],
    &[5, 65_536],
    &[5, 65_540],
    &[5, LARGEST_NUMBER],
    &[0, 5],
    &[65_536, 5],
    &[5, 5, 5],
    &[5, 7, 7],
    &[5, 7, 9],
    &[5, 5, 4],
    &[5, 7, 6],
    &[5, 7, 5],
    &[5, 7, 4],
    &[5, 7, 0],
];

/// Descending pairs, and pairs that are equal with another one between, which
/// is a descending pair on the way.
fn orders() -> Vec<Draft> {
    let descending = [[(0, 2, 5), (0, 1, 5)], [(1, 2, 5), (0, 1, 5)], [(1, 2, 5), (0, 3, 9)]];
    let between = [
        [(0, 1, 5), (0, 2, 5), (0, 1, 5)],
        [(0, 1, 5), (0, 2, 5), (0, 1, 9)],
        [(0, 1, 5), (1, 2, 5), (0, 1, 5)],
        [(0, 2, 5), (0, 2, 7), (0, 1, 9)],
        [(0, 1, 5), (0, 2, 1), (0, 2, 1)],
        [(0, 1, 5), (0, 1, 9), (0, 2, 1)],
        [(0, 2, 9), (1, 2, 1), (1, 2, 1)],
    ];
    let mut all: Vec<Draft> = descending.iter().map(|links| draft(4, links)).collect();
    all.extend(between.iter().map(|links| draft(4, links)));
    all
}

/// Drafts with parallel links: those of WEIGHTS, alone and behind another link;
/// those that descend, also without a weight; and larger ones.
pub fn draft_list(chance: &mut Chance) -> Vec<DraftCase> {
    let mut list: Vec<DraftCase> = Vec::new();
    for weights in WEIGHTS {
        list.push(("parallel links", pair(weights)));
        let behind = weights.iter().map(|&weight| (1, 2, weight));
        let links: Vec<Link> = std::iter::once((0, 1, 9)).chain(behind).chain([(1, 3, 1)]).collect();
        list.push(("parallel links behind another", draft(4, &links)));
    }
    for descending in orders() {
        let last = descending.last();
        list.push(("parallel links, order of pairs", descending.clone()));
        for weight in [0, 65_536] {
            let mut unweighed = descending.clone();
            unweighed.links[last].2 = weight;
            list.push(("parallel links, order of pairs", unweighed));
        }
    }
    for count in [4, 31, 63, MOST_LINKS] {
        let mut last_lighter = pair(&vec![9; count]);
        list.push(("many parallel links", last_lighter.clone()));
        list.push(("many parallel links", pair(&(1..=count).collect::<Vec<_>>())));
        last_lighter.links[count - 1].2 = 8;
        list.push(("many parallel links, the last lighter", last_lighter));
    }
    list.push(("too many parallel links", pair(&[9; MOST_LINKS + 1])));
    let mut full = longest(chance);
    full.links.truncate(MOST_LINKS - 1);
    for base in [draft(4, &PLAN_A), full] {
        for link in [0, base.last() / 2, base.last()] {
            let twin = twin_of(&base, link);
            list.push(("a twin", twin.clone()));
            for (which, less) in [(link, 65_536), (link + 1, 0), (link + 1, 65_536)] {
                let mut faulty = twin.clone();
                faulty.links[which].2 = less;
                list.push(("a twin of no weight", faulty));
            }
            let mut lighter = twin.clone();
            lighter.links[link].2 += 1;
            list.push(("a lighter twin", lighter));
        }
    }
    list
}

/// The deliberate plans: the drafts, and weights that are no numbers.
pub fn plan_list(chance: &mut Chance) -> Vec<PlanCase> {
    let drafts = draft_list(chance).into_iter();
    let mut list: Vec<PlanCase> = drafts.map(|(name, draft)| (name, draft.plan())).collect();
    let twins = [pair(&[5, 5]), pair(&[5, 7, 7]), twin_of(&draft(4, &PLAN_A), 4)];
    let descending = draft(3, &[(0, 2, 5), (0, 1, 5)]);
    for draft in twins.iter().chain([&descending]) {
        let weight = weight_of(draft.last());
        let upto = draft.parts()[..weight].concat();
        let odd: [&[u8]; 6] = [
            &[0x80, 0x00],
            &[0x84, 0x00],
            &[0x80, 0x80, 0x00],
            &[0x80, 0x80, 0x80],
            &[0xFF, 0xFF, 0x83],
            &[0x80],
        ];
        for bytes in odd {
            list.push(("parallel links, odd weight", draft.plan_with(weight, bytes)));
        }
        list.push(("parallel links, cut", upto.clone()));
        list.push(("parallel links, cut", [&upto[..], &[0x80, 0x80]].concat()));
        for bytes in [groups(4), groups(5), groups(300)] {
            list.push(("parallel links, lengthened", [&upto[..], &bytes, &[0x00]].concat()));
        }
    }
    list
}

/// A good draft with twins, and now and then a fault in the order.
pub fn draft_at_random(chance: &mut Chance) -> DraftCase {
    let mut draft = draw_with(chance, 1);
    for _ in 0..=chance.below(4) {
        let link = chance.below(draft.links.len());
        if draft.links.len() < MOST_LINKS {
            draft = twin_of(&draft, link);
            draft.links[link + 1].2 += chance.pick(&[0, 0, 1, 3, 200, 20_000]);
        }
    }
    for link in &mut draft.links {
        link.2 = link.2.min(65_535);
    }
    draft.links.sort();
    if chance.one_in(2) {
        return ("parallel links at random", draft);
    }
    let (one, other) = (chance.below(draft.links.len()), chance.below(draft.links.len()));
    match chance.below(4) {
        0 => draft.links.swap(one, other),
        1 => draft.links[one].2 = chance.pick(&[0, 1, 65_535, 65_536, draft.links[other].2]),
        2 => (draft.links[one].0, draft.links[one].1) = (draft.links[other].0, draft.links[other].1),
        _ => draft.links[one].2 = (draft.links[one].2 + 1).saturating_sub(chance.below(3)),
    }
    ("parallel links at random, order put wrong", draft)
}

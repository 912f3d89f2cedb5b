//! Sub-command `example`: the plans in the folder plans/ that stand for sizes
//! and not for a real network. All have 32 nodes.

use crate::chance::Chance;
use crate::networks::{Net, Weights, MOST_LINKS};
use crate::shapes::Shape;
use crate::stored::Draft;

const NODES: usize = 32;

/// East and north of the map's corner, in km.
type Site = (usize, usize);

fn squared_distance(one: Site, other: Site) -> usize {
    one.0.abs_diff(other.0).pow(2) + one.1.abs_diff(other.1).pow(2)
}

/// Sites anywhere on a map of 4,000 by 2,500 km, but no two of them within
/// 150 km of each other.
fn sites(chance: &mut Chance) -> Vec<Site> {
    let mut sites: Vec<Site> = Vec::new();
    while sites.len() < NODES {
        let site = (chance.below(4000), chance.below(2500));
        if sites.iter().all(|&other| squared_distance(site, other) > 150 * 150) {
            sites.push(site);
        }
    }
    sites
}

/// Whether no third site lies inside the circle that has the straight line
/// between the two as its diameter. Such pairs join all sites.
fn neighbours(sites: &[Site], one: Site, other: Site) -> bool {
    let across = squared_distance(one, other);
    sites.iter().all(|&third| squared_distance(one, third) + squared_distance(third, other) >= across)
}

/// A backbone: neighbours are linked, then the pairs that lie nearest to each
/// other, until there are as many links as may be. Weights are lengths in km.
fn backbone() -> Draft {
    let sites = sites(&mut Chance::new(1));
    let mut pairs: Vec<(usize, usize)> = Shape::complete(NODES).pairs.into_iter().collect();
    pairs.sort_by_key(|&(low, high)| {
        let (one, other) = (sites[low], sites[high]);
        (!neighbours(&sites, one, other), squared_distance(one, other))
    });
    pairs.truncate(MOST_LINKS);
    pairs.sort();
    let length = |low: usize, high: usize| squared_distance(sites[low], sites[high]).isqrt();
    let links = pairs.into_iter().map(|(low, high)| (low, high, length(low, high))).collect();
    Draft { nodes: NODES, links }
}

/// A shape whose links all have weight 1.
fn even(shape: &Shape) -> Draft {
    // All weights are the same, so nothing is left to chance.
    Draft::of(&Net::of(&mut Chance::new(0), shape, Weights::All(1)))
}

pub fn plan(name: &str) -> Result<Vec<u8>, String> {
    let draft = match name {
        "full" => backbone(),
        "ring" => even(&Shape::ring(NODES)),
        "bare" => even(&Shape::bare(NODES)),
        other => return Err(format!("no such example: {other}; there is full, ring or bare")),
    };
    Ok(draft.plan())
}

//! Counts the rounds that columns of costs need: for each destination the
//! column over all links, and begun from that one the columns without one link
//! each, and without an interface's link and key links, for each interface
//! that has key links. It follows `paths/src/column.rt` and is not a part of
//! it: what is proved says that n - 1 rounds are enough, and this says how many
//! are made. A column begun from another is also filled from nothing, and the
//! two must be the same.
//!
//! Build:  rustc -O --edition 2021 -D warnings rounds.rs
//! Use:    rounds PLAN ...
//!
//! Exit status: 0 if all was counted; 1 if two columns differ; 2 if a file
//! cannot be read as a plan.

use std::path::Path;
use std::process::ExitCode;

struct Link {
    low: usize,
    high: usize,
    weight: u32,
}

struct Network {
    nodes: usize,
    links: Vec<Link>,
}

/// Weight sum, then the set of links as a number; none if there is no path.
type Cost = Option<(u32, u128)>;
type Column = Vec<Cost>;

/// The numbers of a stored plan, seven bits to a byte, the lowest first.
fn numbers(bytes: &[u8]) -> Vec<usize> {
    let groups = bytes.split_inclusive(|byte| byte & 128 == 0);
    groups.map(|group| group.iter().rev().fold(0, |sum, byte| sum * 128 + usize::from(byte & 127))).collect()
}

fn read(bytes: &[u8]) -> Option<Network> {
    let numbers = numbers(bytes);
    let (&[nodes, count], rest) = numbers.split_first_chunk()?;
    let link = |three: &[usize]| Link { low: three[0], high: three[0] + three[1], weight: three[2] as u32 };
    let links: Vec<Link> = rest.chunks_exact(3).map(link).collect();
    let fits = links.len() == count && rest.len() == 3 * count && links.iter().all(|link| link.high < nodes);
    fits.then_some(Network { nodes, links })
}

fn uses(cost: &Cost, out: u128) -> bool {
    cost.is_some_and(|(_, links)| links & out != 0)
}

/// Stores the way over a link if it comes before what the node has.
fn offer(column: &mut Column, to: usize, from: usize, weight: u32, number: usize) -> bool {
    let Some((sum, links)) = column[from] else {
        return false;
    };
    let way = (sum + weight, links | 1 << number);
    let better = column[to].is_none_or(|own| way < own);
    if better {
        column[to] = Some(way);
    }
    better
}

/// Fills the column; the answer is the number of rounds, the one that changes
/// nothing among them.
fn settle(network: &Network, column: &mut Column, out: u128) -> usize {
    let known = |link: &Link| column[link.low].is_some() && column[link.high].is_some();
    let mut offering: Vec<usize> = (0..network.links.len()).collect();
    offering.retain(|&number| out >> number & 1 == 0 && !known(&network.links[number]));
    for round in 1..network.nodes {
        let mut changed = false;
        for &number in &offering {
            let Link { low, high, weight } = network.links[number];
            changed |= offer(column, low, high, weight, number);
            changed |= offer(column, high, low, weight, number);
        }
        if !changed {
            return round;
        }
        offering.reverse();
    }
    network.nodes - 1
}

fn start(network: &Network, destination: usize) -> Column {
    let mut column = vec![None; network.nodes];
    column[destination] = Some((0, 0));
    column
}

#[derive(Default)]
struct Count {
    columns: usize,
    rounds: usize,
    most: usize,
}

impl Count {
    fn add(&mut self, rounds: usize) {
        self.columns += 1;
        self.rounds += rounds;
        self.most = self.most.max(rounds);
    }

    fn average(&self) -> f64 {
        self.rounds as f64 / self.columns.max(1) as f64
    }
}

/// The column without the links, begun from the one over all links, if it is
/// the one begun from nothing too.
fn without(network: &Network, all: &Column, destination: usize, out: u128, count: &mut Count) -> Option<Column> {
    let mut column: Column = all.iter().map(|cost| cost.filter(|_| !uses(cost, out))).collect();
    if column != *all {
        count.add(settle(network, &mut column, out));
    }
    let mut again = start(network, destination);
    settle(network, &mut again, out);
    (again == column).then_some(column)
}

/// The link by which a node's best path begins, and the node after it: the one
/// that has all links of the path but that.
fn first(network: &Network, column: &Column, node: usize) -> Option<(usize, usize)> {
    let (_, set) = column[node]?;
    let ends = |link: &Link| [(link.low, link.high), (link.high, link.low)];
    let mut ways = (0..network.links.len()).flat_map(|number| ends(&network.links[number]).map(|(from, to)| (number, from, to)));
    let leads = |number: usize, to: usize| column[to].is_some_and(|(_, rest)| rest | 1 << number == set && rest >> number & 1 == 0);
    ways.find(|&(number, from, to)| from == node && leads(number, to)).map(|(number, _, to)| (number, to))
}

/// Whether the best path of a node crosses the link, entering `to`.
fn crosses(network: &Network, column: &Column, mut node: usize, link: usize, to: usize) -> bool {
    while let Some((number, next)) = first(network, column, node) {
        if (number, next) == (link, to) {
            return true;
        }
        node = next;
    }
    false
}

/// The counts over all links, without one, and without an interface's link and
/// key links; or none if two columns differ.
fn count(network: &Network) -> Option<[Count; 3]> {
    let [mut whole, mut less, mut aside] = [Count::default(), Count::default(), Count::default()];
    for destination in 0..network.nodes {
        let mut all = start(network, destination);
        whole.add(settle(network, &mut all, 0));
        let mut columns = Vec::new();
        for number in 0..network.links.len() {
            columns.push(without(network, &all, destination, 1 << number, &mut less)?);
        }
        for node in 0..network.nodes {
            // only an interface that enters a node from where it would send has key links
            let Some((own, _)) = first(network, &all, node) else {
                continue;
            };
            let is_key = |&number: &usize| {
                let Link { low, high, .. } = network.links[number];
                [low, high].iter().any(|&end| crosses(network, &columns[number], end, own, node))
            };
            let keys: u128 = (0..columns.len()).filter(is_key).map(|number| 1 << number).sum();
            if keys != 0 {
                without(network, &all, destination, keys | 1 << own, &mut aside)?;
            }
        }
    }
    Some([whole, less, aside])
}

fn main() -> ExitCode {
    println!("plan        n - 1   all links       without one link                          without key links");
    println!("                    average  most   columns  of them touched  average  most   columns  average  most");
    for plan in std::env::args().skip(1) {
        let Some(network) = std::fs::read(&plan).ok().and_then(|bytes| read(&bytes)) else {
            eprintln!("rounds: {plan} is no plan");
            return ExitCode::from(2);
        };
        let Some([whole, less, aside]) = count(&network) else {
            eprintln!("rounds: {plan}: a column begun from another is not the one begun from nothing");
            return ExitCode::from(1);
        };
        let name = Path::new(&plan).file_stem().and_then(|stem| stem.to_str()).unwrap_or(&plan);
        println!(
            "{name:10}  {:5}  {:8.2}  {:4}  {:8}  {:15}  {:7.2}  {:4}  {:8}  {:7.2}  {:4}",
            network.nodes - 1,
            whole.average(),
            whole.most,
            network.nodes * network.links.len(),
            less.columns,
            less.average(),
            less.most,
            aside.columns,
            aside.average(),
            aside.most
        );
    }
    ExitCode::SUCCESS
}

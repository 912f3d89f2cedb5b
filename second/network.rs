//! What a network is and when one is refused.

pub const MOST_NODES: u64 = 32;
pub const MOST_LINKS: usize = 64;
pub const MOST_WEIGHT: u32 = 65_535;

/// Document 01's refusal number with its place.
#[derive(Clone, Copy, PartialEq)]
pub struct Refusal {
    pub number: u8,
    pub place: usize,
}

impl Refusal {
    /// A refusal that names no byte and no link stands at place 0.
    pub fn whole(number: u8) -> Refusal {
        Refusal { number, place: 0 }
    }
}

/// The number and place that an answer shows: 0 and 0 for success.
pub fn shown<T>(answer: &Result<T, Refusal>) -> (u8, usize) {
    match answer {
        Ok(_) => (0, 0),
        Err(refusal) => (refusal.number, refusal.place),
    }
}

/// A lent number as an index below `limit`, or the refusal with that number.
/// Lent numbers are as wide as can be, so nothing is cut off before the check.
pub fn index(lent: u64, limit: usize, number: u8) -> Result<usize, Refusal> {
    match usize::try_from(lent) {
        Ok(index) if index < limit => Ok(index),
        _ => Err(Refusal::whole(number)),
    }
}

/// The node count is as wide as a lent one can be, and the rows may differ in
/// length: a network in memory is only a claim until `check`.
#[derive(PartialEq, Eq, Hash)]
pub struct Network {
    pub nodes: u64,
    pub lows: Vec<u8>,
    pub highs: Vec<u8>,
    pub weights: Vec<u32>,
}

impl Network {
    /// Refusals 9, 3, 4, then link by link 5, 7, 6 and, for parallel links, 7.
    pub fn check(&self) -> Result<(), Refusal> {
        let links = self.lows.len();
        if self.highs.len() != links || self.weights.len() != links {
            return Err(Refusal::whole(9));
        }
        if self.nodes == 0 || self.nodes > MOST_NODES {
            return Err(Refusal::whole(3));
        }
        if links > MOST_LINKS {
            return Err(Refusal::whole(4));
        }
        for place in 0..links {
            if let Some(number) = self.link_fault(place) {
                return Err(Refusal { number, place });
            }
        }
        Ok(())
    }

    /// The first refusal that link `k` earns, if any. The three rows must be
    /// known to be equally long.
    fn link_fault(&self, k: usize) -> Option<u8> {
        let pair = (self.lows[k], self.highs[k]);
        // With low below high and high a node, low is a node as well.
        if pair.0 >= pair.1 || u64::from(pair.1) >= self.nodes {
            return Some(5);
        }
        // Pairs compare low end first, then high end.
        let before = k.checked_sub(1).map(|b| (self.lows[b], self.highs[b]));
        if before.is_some_and(|before| pair < before) {
            return Some(7);
        }
        if !(1..=MOST_WEIGHT).contains(&self.weights[k]) {
            return Some(6);
        }
        // Request L5: parallel links by weight, of which equal ones may follow.
        if before == Some(pair) && self.weights[k] < self.weights[k - 1] {
            return Some(7);
        }
        None
    }

    /// The checked network in the form the path work wants.
    pub fn graph(&self) -> Result<Graph, Refusal> {
        self.check()?;
        let nodes = self.nodes as usize;
        let mut graph = Graph { nodes, links: Vec::new(), doors: vec![Vec::new(); nodes] };
        for (k, &weight) in self.weights.iter().enumerate() {
            let (low, high) = (usize::from(self.lows[k]), usize::from(self.highs[k]));
            graph.links.push(Link { low, high, weight });
            graph.doors[low].push(2 * k);
            graph.doors[high].push(2 * k + 1);
        }
        Ok(graph)
    }
}

pub struct Link {
    pub low: usize,
    pub high: usize,
    pub weight: u32,
}

/// A network that has passed its check. There is no other way to one, so
/// whoever holds a graph need not check again.
pub struct Graph {
    pub nodes: usize,
    pub links: Vec<Link>,
    /// The interfaces that leave each node.
    doors: Vec<Vec<usize>>,
}

impl Graph {
    pub fn interfaces(&self) -> usize {
        2 * self.links.len()
    }

    /// The node that an interface leaves, and the node that it enters.
    pub fn ends(&self, interface: usize) -> (usize, usize) {
        let link = &self.links[interface / 2];
        if interface % 2 == 0 {
            (link.low, link.high)
        } else {
            (link.high, link.low)
        }
    }

    pub fn leaving(&self, node: usize) -> &[usize] {
        &self.doors[node]
    }

    /// The interface that leads from a node over a link. None if the link is
    /// not at that node, or is no link at all: an entry of a lent table may be
    /// any byte.
    pub fn over(&self, node: usize, link: usize) -> Option<usize> {
        let ends = self.links.get(link)?;
        let towards_high = (ends.low == node).then_some(2 * link);
        towards_high.or((ends.high == node).then_some(2 * link + 1))
    }

    /// The links that join the same two nodes as this one, itself among them,
    /// as a set.
    pub fn pair(&self, link: usize) -> u64 {
        let ends = |link: &Link| (link.low, link.high);
        let own = ends(&self.links[link]);
        let alike = self.links.iter().enumerate().filter(|(_, other)| ends(other) == own);
        alike.fold(0, |set, (number, _)| set | 1 << number)
    }
}

//! The stored plan: its reader and its writer.

use crate::network::{Network, Refusal, MOST_LINKS, MOST_NODES, MOST_WEIGHT};

const MOST_GROUPS: usize = 3;
const MORE: u8 = 0x80;

/// A number together with the place of its first byte, since most
/// refusals name that place.
struct Number {
    value: u32,
    place: usize,
}

impl Number {
    fn refused(&self, number: u8) -> Refusal {
        Refusal { number, place: self.place }
    }
}

struct Reader<'a> {
    bytes: &'a [u8],
    place: usize,
}

impl Reader<'_> {
    fn number(&mut self) -> Result<Number, Refusal> {
        let place = self.place;
        let rest = &self.bytes[place..];
        // How many groups, from the first on, say that more follow.
        let more = rest.iter().take(MOST_GROUPS).take_while(|&&b| b & MORE != 0).count();
        if more == MOST_GROUPS {
            return Err(Refusal { number: 2, place });
        }
        // The group due after those may not be there.
        let Some(&last) = rest.get(more) else {
            return Err(Refusal { number: 1, place: self.bytes.len() });
        };
        if more > 0 && last == 0 {
            return Err(Refusal { number: 2, place });
        }
        let value = rest[..=more]
            .iter()
            .rev()
            .fold(0, |sum, &b| sum * 128 + u32::from(b & !MORE));
        self.place = place + more + 1;
        Ok(Number { value, place })
    }
}

/// Reads a whole plan; every number is checked before the next is read.
pub fn read(bytes: &[u8]) -> Result<Network, Refusal> {
    let mut reader = Reader { bytes, place: 0 };

    let nodes = reader.number()?;
    if nodes.value == 0 || u64::from(nodes.value) > MOST_NODES {
        return Err(nodes.refused(3));
    }
    let links = reader.number()?;
    if links.value > MOST_LINKS as u32 {
        return Err(links.refused(4));
    }

    let mut network = Network {
        nodes: u64::from(nodes.value),
        lows: Vec::new(),
        highs: Vec::new(),
        weights: Vec::new(),
    };
    // The pair and the weight of the link before.
    let mut before: Option<((u32, u32), u32)> = None;
    for _ in 0..links.value {
        let low = reader.number()?;
        if low.value >= nodes.value {
            return Err(low.refused(5));
        }
        let difference = reader.number()?;
        // Both are below 2^21, so the sum cannot overflow.
        let high = low.value + difference.value;
        if difference.value == 0 || high >= nodes.value {
            return Err(difference.refused(5));
        }
        // The order is a fault of the link, so it stands where the link
        // begins. That of pairs comes before the weight is even read, that of
        // parallel links (request L5) once the weight is known to be one.
        let pair = (low.value, high);
        if before.is_some_and(|(earlier, _)| pair < earlier) {
            return Err(low.refused(7));
        }
        let weight = reader.number()?;
        if weight.value == 0 || weight.value > MOST_WEIGHT {
            return Err(weight.refused(6));
        }
        let link = (pair, weight.value);
        if before.is_some_and(|earlier| link < earlier) {
            return Err(low.refused(7));
        }
        before = Some(link);
        // Both ends are nodes by now, that is below 32.
        network.lows.push(low.value as u8);
        network.highs.push(high as u8);
        network.weights.push(weight.value);
    }

    if reader.place < bytes.len() {
        return Err(Refusal { number: 8, place: reader.place });
    }
    Ok(network)
}

fn push_number(plan: &mut Vec<u8>, value: u32) {
    let mut left = value;
    while left > 127 {
        plan.push((left % 128) as u8 | MORE);
        left /= 128;
    }
    plan.push(left as u8);
}

/// The plan of a network that has passed its check.
pub fn bytes_of(network: &Network) -> Vec<u8> {
    let mut plan = Vec::new();
    push_number(&mut plan, network.nodes as u32);
    push_number(&mut plan, network.lows.len() as u32);
    let ends = network.lows.iter().zip(&network.highs);
    for ((&low, &high), &weight) in ends.zip(&network.weights) {
        push_number(&mut plan, u32::from(low));
        push_number(&mut plan, u32::from(high - low));
        push_number(&mut plan, weight);
    }
    plan
}

/// Writes the plan into the front of the room and answers with the count
/// of bytes. The plan is made apart from the room, so a refusal cannot
/// have changed any byte of it.
pub fn write(network: &Network, room: &mut [u8]) -> Result<usize, Refusal> {
    network.check()?;
    let plan = bytes_of(network);
    let Some(front) = room.get_mut(..plan.len()) else {
        return Err(Refusal::whole(10));
    };
    front.copy_from_slice(&plan);
    Ok(plan.len())
}

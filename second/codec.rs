//! Sub-command `codec`: the plan reader and writer, record by record. Records
//! and answer lines: ../compare/FORMAT.md.

use crate::batch::{self, hex, Record, MOST_PLAN, UNTOUCHED};
use crate::network::{shown, Network};
use crate::plan;
use std::fmt::Write;

fn plan_line(bytes: &[u8]) -> String {
    let network = match plan::read(bytes) {
        Ok(network) => network,
        Err(refusal) => return format!("refused {} at {}", refusal.number, refusal.place),
    };
    let mut line = format!("nodes {} links {}", network.nodes, network.lows.len());
    for k in 0..network.lows.len() {
        let (low, high) = (network.lows[k], network.highs[k]);
        // Writing into a String never fails.
        let _ = write!(line, " {low}-{high}:{}", network.weights[k]);
    }
    let plan = plan::bytes_of(&network);
    let mut room = vec![UNTOUCHED; plan.len()];
    let written = plan::write(&network, &mut room);
    let count = written.unwrap_or(0);
    // No plan is empty: the node count alone takes a byte.
    let mut short_room = vec![UNTOUCHED; plan.len() - 1];
    let short = shown(&plan::write(&network, &mut short_room)).0;
    let _ = write!(line, " plan {} short {short}", hex(&room[..count]));
    line
}

fn memory_line(network: &Network, room: usize) -> String {
    let (check, check_place) = shown(&network.check());
    let mut room = vec![UNTOUCHED; room];
    let written = plan::write(network, &mut room);
    let (write, write_place) = shown(&written);
    let count = written.unwrap_or(0);
    format!(
        "network {check} at {check_place} write {write} at {write_place} count {count} room {}",
        hex(&room)
    )
}

fn line(record: &mut Record) -> Result<String, String> {
    match record.kind {
        b'P' => Ok(plan_line(record.rest(MOST_PLAN)?)),
        b'N' => {
            let network = record.network()?;
            Ok(memory_line(&network, record.length(2, MOST_PLAN)?))
        }
        _ => Err(record.unknown()),
    }
}

pub fn run(input: &[u8], output: &mut impl std::io::Write) -> Result<(), String> {
    batch::answer(input, output, line)
}

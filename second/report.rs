//! Sub-command `report`: what `nightplan` prints for a stored plan.

use crate::network::{Graph, Network, Refusal};
use crate::paths::{by_tree, Best};
use crate::{plan, tables, walk};
use std::fmt::Write;

/// A link by its ends; with its number if these do not tell it from another.
fn name(graph: &Graph, number: usize) -> String {
    let link = &graph.links[number];
    let ends = format!("{}-{}", link.low, link.high);
    if graph.pair(number).count_ones() > 1 { format!("{ends}/{number}") } else { ends }
}

fn lines(network: &Network) -> Result<String, Refusal> {
    let graph = network.graph()?;
    let built = tables::build(&mut Best::new(&graph, by_tree));
    let mut text = format!("nodes {} links {}\n", graph.nodes, graph.links.len());
    let (mut delivered, mut dropped) = (0, 0);

    let none = ("none".to_string(), 0);
    let failures = (0..graph.links.len()).map(|link| (name(&graph, link), 1 << link));
    for (name, failed) in std::iter::once(none).chain(failures) {
        let figures = walk::count(&graph, built.lent(), failed);
        delivered += figures.delivered;
        dropped += figures.dropped;
        // Writing into a String never fails.
        let _ = writeln!(
            text,
            "{name} delivered {} dropped {} hops {} longest {}",
            figures.delivered, figures.dropped, figures.hops, figures.longest
        );
    }
    let walks = delivered + dropped;
    let _ = writeln!(text, "walks {walks} delivered {delivered} dropped {dropped}");
    Ok(text)
}

pub fn text(stored: &[u8]) -> String {
    // The reader's network passes every check, so only the reader refuses.
    match plan::read(stored).and_then(|network| lines(&network)) {
        Ok(text) => text,
        Err(refusal) => format!("refused {} at {}\n", refusal.number, refusal.place),
    }
}

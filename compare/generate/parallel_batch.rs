//! Sub-command `parallel`: a batch of stored plans with parallel links, for whole
//! reports on them. It stands beside the batch `reports`, whose plans are the
//! ones that were reported before there were parallel links, and stay so.
//!
//! COUNT is the number of plans. Deliberate ones come first, the rest is drawn
//! at random: mostly small and good, some of any size, some in bad order.

use crate::chance::Chance;
use crate::networks::{Net, Weights};
use crate::parallel::{self, sibling_at_random};
use crate::parallel_plans;
use crate::reports_batch::{plan_of, text};

/// Plans of 32 nodes and 64 links.
const FULL_PLANS: usize = 40;

fn full_plan(chance: &mut Chance, number: usize) -> Net {
    let weights = [Weights::All(1), Weights::UpTo(3), Weights::UpTo(65_535), Weights::Extreme];
    let sibling = sibling_at_random(chance);
    parallel::full_at_random(chance, weights[number % weights.len()], sibling).1
}

fn plan_drawn(chance: &mut Chance) -> Vec<u8> {
    let nodes = match chance.below(8) {
        0 => return parallel_plans::draft_at_random(chance).1.plan(),
        1 => chance.between(9, 32),
        _ => chance.between(2, 8),
    };
    plan_of(&parallel::of_size(chance, nodes).1)
}

pub fn make(chance: &mut Chance, count: usize) -> Vec<u8> {
    let mut plans: Vec<Vec<u8>> = parallel::list(chance).iter().map(|(_, net)| plan_of(net)).collect();
    plans.extend((0..FULL_PLANS).map(|number| plan_of(&full_plan(chance, number))));
    // The reader alone is compared on all of these (codec_batch.rs); here a
    // third is enough.
    plans.extend(parallel_plans::plan_list(chance).into_iter().step_by(3).map(|(_, plan)| plan));
    let deliberate = plans.len();
    plans.resize_with(count, || plan_drawn(chance));
    text(&plans, deliberate)
}

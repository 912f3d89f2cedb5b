//! Sub-command `reports`: a batch of stored plans, for whole reports on them.
//! Those that are accepted have shapes of every kind, equal paths, the largest
//! size and weights at their limits; the others reach refusals 1 to 8.
//!
//! COUNT is the number of plans. Deliberate ones come first, the rest is drawn
//! at random: two of three are small and good, the third may be anything.
//!
//! What the proved programs said of these plans before there were parallel links
//! is kept (../kept.txt). So all that is drawn here stays as it is, and new plans
//! go to another batch (parallel_batch.rs).

use crate::chance::Chance;
use crate::networks::{net_list, net_of_size, Net, Weights, MOST_LINKS};
use crate::shapes::Shape;
use crate::stored::{lengthened, longest, plan_at_random, plan_list, Draft};

const FULL_PLANS: usize = 84;
const FAR_TOO_LONG: usize = 100_000;

pub fn plan_of(net: &Net) -> Vec<u8> {
    Draft::of(net).plan()
}

/// Plans of 32 nodes and 64 links, all sites joined. The weights go round
/// from those that make the most equal paths to those that make none.
fn full_plans(chance: &mut Chance) -> Vec<Vec<u8>> {
    let weights = [Weights::All(1), Weights::UpTo(3), Weights::UpTo(65_535), Weights::Extreme];
    let mut plans = Vec::new();
    for number in 0..FULL_PLANS {
        let shape = Shape::tree(chance, 32).filled(chance, MOST_LINKS).renumbered(chance);
        plans.push(plan_of(&Net::of(chance, &shape, weights[number % weights.len()])));
    }
    plans
}

/// More bytes than a plan can have: a good plan and what is left over, at the
/// length that the report program keeps of its input, beside it and far past
/// it; then one byte over and over.
fn overlong_plans(chance: &mut Chance) -> Vec<Vec<u8>> {
    let longest = longest(chance).plan();
    // two counts of a byte, and for each link two ends of a byte and a weight of up to three
    let kept = 2 + 5 * MOST_LINKS + 1;
    let lengths = [kept - 1, kept, kept + 1, FAR_TOO_LONG];
    let mut plans = lengths.map(|length| lengthened(longest.clone(), length, 0x01)).to_vec();
    plans.extend([0x00, 0x01, 0x80, 0xFF].map(|byte| vec![byte; FAR_TOO_LONG]));
    plans
}

fn plan_drawn(chance: &mut Chance) -> Vec<u8> {
    if chance.one_in(3) {
        return plan_at_random(chance).1;
    }
    let nodes = chance.between(1, 8);
    plan_of(&net_of_size(chance, nodes).1)
}

pub fn make(chance: &mut Chance, count: usize) -> Vec<u8> {
    let mut plans = full_plans(chance);
    plans.extend(overlong_plans(chance));
    plans.extend(net_list(chance).iter().map(|(_, net)| plan_of(net)));
    // The reader alone is compared on all of these (codec_batch.rs); here a
    // third is enough, with every kind of case in it.
    plans.extend(plan_list(chance).into_iter().step_by(3).map(|(_, plan)| plan));
    let deliberate = plans.len();
    plans.resize_with(count, || plan_drawn(chance));
    text(&plans, deliberate)
}

/// A line for each plan. Standard error tells how many were deliberate, and
/// whether all of these are there.
pub fn text(plans: &[Vec<u8>], deliberate: usize) -> Vec<u8> {
    let count = plans.len();
    if deliberate > count {
        eprintln!("{:6} deliberate plans left out: the count is too small for them", deliberate - count);
    }
    eprintln!("{count:6} plans: {} deliberate, the rest at random", deliberate.min(count));

    let line = |plan: &Vec<u8>| plan.iter().map(|byte| format!("{byte:02x}")).collect::<String>() + "\n";
    plans.iter().map(line).collect::<String>().into_bytes()
}

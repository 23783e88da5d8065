//! The x86-TSO verdict on a source recording: a write may wait in a store buffer while later reads of its thread go ahead.
//! Assumes an execution of a recording that loads.

use super::execution::Execution;
use super::relation::Relation;
use super::verdict::{per_location, Verdict};

pub fn judge(x: &Execution) -> Verdict {
    per_location(x, order)
}

/// tso = preserved po ∪ rfe ∪ co ∪ fr
fn order(x: &Execution) -> Relation {
    preserved(x).or(&x.rfe).or(&x.co).or(&x.fr)
}

/// po among reads, writes and SC fences, except from a write to a read where neither is of an rmw pair.
/// Fences of modes 1 to 3 are in no step.
fn preserved(x: &Execution) -> Relation {
    let pairs = x.rmw.image(x.reads) | x.rmw.inverse().image(x.writes);
    let ordered = x.reads | x.writes | x.fence_modes[4];
    let overtaken = x.po.starting_in(x.writes & !pairs).ending_in(x.reads & !pairs);
    x.po.starting_in(ordered).ending_in(ordered).minus(&overtaken)
}

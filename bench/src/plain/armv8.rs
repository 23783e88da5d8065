//! The ARMv8 verdict, in the names of the model's definition.
//! Assumes an execution of a recording that loads.

use super::execution::Execution;
use super::relation::Relation;
use super::verdict::{per_location, Verdict};

pub fn judge(x: &Execution) -> Verdict {
    per_location(x, ordered_before)
}

/// ob = obs ∪ dob ∪ aob ∪ bob, where obs = rfe ∪ fre ∪ coe
fn ordered_before(x: &Execution) -> Relation {
    let coi = x.co.and(&x.po);
    x.rfe.or(&x.fre).or(&x.coe).or(&dependencies(x, &coi)).or(&atomics(x)).or(&barriers(x, &coi))
}

/// dob = (addr ∪ data) ; rfi? ∪ (ctrl ∪ data) ; [W] ; coi? ∪ addr ; po ; [W] ∪ (ctrl ∪ addr ; po) ; [Fisb] ; po ; [R]
fn dependencies(x: &Execution, coi: &Relation) -> Relation {
    let [.., isb] = x.fence_modes;
    let read = x.addr.or(&x.data).then_optional(&x.rfi);
    let write = x.ctrl.or(&x.data).ending_in(x.writes).then_optional(coi);
    let behind_address = x.addr.then(&x.po);
    let behind_isb = x.ctrl.or(&behind_address).ending_in(isb).then(&x.po.ending_in(x.reads));
    read.or(&write).or(&behind_address.ending_in(x.writes)).or(&behind_isb)
}

/// aob = rmw ∪ [codom(rmw)] ; rfi ; [Racq]
fn atomics(x: &Execution) -> Relation {
    let pair_writes = x.rmw.image(x.reads);
    x.rfi.starting_in(pair_writes).ending_in(x.acquire_reads).or(&x.rmw)
}

/// bob = po ; [Fsy] ; po ∪ [R] ; po ; [Fld] ; po ∪ [Racq] ; po ∪ po ; [Wrel] ; coi? ∪ [Wrel] ; po ; [Racq]
fn barriers(x: &Execution, coi: &Relation) -> Relation {
    let [_, _, _, _, _, load, full, _] = x.fence_modes;
    let to_fence = x.po.ending_in(full).or(&x.po.starting_in(x.reads).ending_in(load));
    let release = x.po.ending_in(x.release_writes).then_optional(coi);
    let acquire = x.po.starting_in(x.release_writes).ending_in(x.acquire_reads);
    to_fence.then(&x.po).or(&x.po.starting_in(x.acquire_reads)).or(&release).or(&acquire)
}

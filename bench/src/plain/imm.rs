//! The IMM verdict, in the names of the model's definition.
//! Assumes an execution of a recording that loads.

use super::execution::Execution;
use super::relation::{has, members, Relation};
use super::verdict::{ring, rule_4, rule_5, rules_1_and_2, Verdict};

pub fn judge(x: &Execution) -> Verdict {
    if let Some(verdict) = rules_1_and_2(x) {
        return verdict;
    }
    let steps = x.po.or(&synchronizes_with(x));
    let hb = steps.closure();
    let eco = extended_coherence(x);
    if !is_coherent(x, &hb, &eco) {
        let closing = eco.minus(&Relation::identity(x.events)).or(&steps);
        return ring(3, x.events, &steps, &closing);
    }
    if let Some(verdict) = rule_4(x) {
        return verdict;
    }
    rule_5(x, &acyclicity(x, &hb, &eco))
}

/// hb ; eco? is irreflexive.
fn is_coherent(x: &Execution, hb: &Relation, eco: &Relation) -> bool {
    let before = eco.inverse();
    members(x.events).all(|e| !has(hb[e], e) && hb[e] & before[e] == 0)
}

/// sw = release ; (rfi ∪ po-loc? ; rfe) ; ([Racq] ∪ po ; [Facq])
fn synchronizes_with(x: &Execution) -> Relation {
    let [_, acquire, release, both, sc, ..] = x.fence_modes;
    // rs = [W] ; po-loc ; [W] ∪ [W] ; (po-loc? ; rf ; rmw)*
    let pair = x.rf.then(&x.rmw);
    let pairs = x.po_loc.then(&pair).or(&pair).closure().or(&Relation::identity(x.events));
    let rs = x.po_loc.ending_in(x.writes).or(&pairs).starting_in(x.writes);
    // release = ([Wrel] ∪ [Frel] ; po) ; rs
    let prefix = Relation::identity(x.release_writes).or(&x.po.starting_in(release | both | sc));
    let read = x.po_loc.then(&x.rfe).or(&x.rf);
    let to_fence = read.then(&x.po.ending_in(acquire | both | sc));
    prefix.then(&rs).then(&read.ending_in(x.acquire_reads).or(&to_fence))
}

/// eco = rf ∪ co ; rf? ∪ fr ; rf?
fn extended_coherence(x: &Execution) -> Relation {
    x.co.or(&x.fr).then_optional(&x.rf).or(&x.rf)
}

/// ar = rfe ∪ bob ∪ ppo ∪ detour ∪ psc ∪ [Wstrong] ; po ; [W]
fn acyclicity(x: &Execution, hb: &Relation, eco: &Relation) -> Relation {
    let sc = x.fence_modes[4];
    let detour = x.coe.then(&x.rfe).and(&x.po);
    let psc = hb.starting_in(sc).then(eco).then(&hb.ending_in(sc));
    let strong = x.po.starting_in(x.strong_writes).ending_in(x.writes);
    barriers(x).or(&x.rfe).or(&preserved(x)).or(&detour).or(&psc).or(&strong)
}

/// bob = po ; [Wrel] ∪ [Racq] ; po ∪ po ; [F] ∪ [F] ; po ∪ [Wrel] ; po-loc ; [W]
fn barriers(x: &Execution) -> Relation {
    let into = x.po.ending_in(x.release_writes | x.fences);
    let out = x.po.starting_in(x.acquire_reads | x.fences);
    into.or(&out).or(&x.po_loc.starting_in(x.release_writes).ending_in(x.writes))
}

/// ppo = [R] ; (data ∪ ctrl ∪ addr ; po? ∪ casdep ∪ [Rex] ; po ∪ rfi)⁺ ; [W]
fn preserved(x: &Execution) -> Relation {
    let address = x.addr.then_optional(&x.po);
    let exclusive = x.po.starting_in(x.exclusive_reads);
    let steps = x.data.or(&x.ctrl).or(&address).or(&x.casdep).or(&exclusive).or(&x.rfi);
    steps.closure().starting_in(x.reads).ending_in(x.writes)
}

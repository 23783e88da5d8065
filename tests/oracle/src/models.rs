//! The models: IMM and ARMv8 line by line in the order and with the names of document 003, x86-TSO by the words of 02's slip 6.

use crate::execution::Execution;
use crate::recording::{FENCE, ISB, READ, WRITE};
use crate::relation::*;

/// xe, the external part of a relation: not within po (003, section 3).
fn external(r: &Relation, x: &Execution) -> Relation {
    difference(r, &x.po)
}

/// xi, the internal part of a relation: within po (003, section 3).
fn internal(r: &Relation, x: &Execution) -> Relation {
    intersection(r, &x.po)
}

/// fr ≜ rf⁻¹;co (003, section 3.1).
fn from_read(x: &Execution) -> Relation {
    seq(&[&inverse(&x.rf), &x.co])
}

/// rmw ∩ (fre ; coe), which ATOMICITY wants empty in every model.
pub fn split_pairs(x: &Execution) -> Relation {
    let fre = external(&from_read(x), x);
    let coe = external(&x.co, x);
    intersection(&x.rmw, &seq(&[&fre, &coe]))
}

/// po|loc ∪ rf ∪ fr ∪ co, which SC-PER-LOC wants acyclic in ARMv8 (003, Definition C.1) and in x86-TSO.
pub fn per_location(x: &Execution) -> Relation {
    union(&[&x.po_loc, &x.rf, &from_read(x), &x.co])
}

/// IMM, sections 3.1 to 3.4.
pub struct Imm {
    pub sw: Relation,
    pub hb: Relation,
    pub eco: Relation,
    pub ar: Relation,
}

pub fn imm(x: &Execution) -> Imm {
    let Execution { po, po_loc, rf, co, rmw, data, addr, ctrl, casdep, .. } = x;
    let r = x.on(|e| e.class == READ);
    let w = x.on(|e| e.class == WRITE);
    let f = x.on(|e| e.class == FENCE);
    let r_acq = x.on(|e| e.class == READ && e.mode == 1);
    let r_ex = x.on(|e| e.class == READ && e.flag == 1);
    let w_rel = x.on(|e| e.class == WRITE && e.mode == 2);
    let w_strong = x.on(|e| e.class == WRITE && e.flag == 1);
    let f_acq = x.on(|e| e.class == FENCE && [1, 3, 4].contains(&e.mode));
    let f_rel = x.on(|e| e.class == FENCE && [2, 3, 4].contains(&e.mode));
    let f_sc = x.on(|e| e.class == FENCE && e.mode == 4);
    let rfe = external(rf, x);
    let rfi = internal(rf, x);
    let coe = external(co, x);

    // 3.1: rs ≜ [W];po|loc;[W] ∪ [W];(po|loc?;rf;rmw)*
    let rs = union(&[
        &seq(&[&w, po_loc, &w]),
        &seq(&[&w, &star(&seq(&[&opt(po_loc), rf, rmw]))]),
    ]);
    // 3.1: release ≜ ([Wrel] ∪ [F⊒rel];po);rs
    let release = seq(&[&union(&[&w_rel, &seq(&[&f_rel, po])]), &rs]);
    // 3.1: sw ≜ release;(rfi ∪ po|loc?;rfe);([Racq] ∪ po;[F⊒acq])
    let sw = seq(&[
        &release,
        &union(&[&rfi, &seq(&[&opt(po_loc), &rfe])]),
        &union(&[&r_acq, &seq(&[po, &f_acq])]),
    ]);
    // 3.1: hb ≜ (po ∪ sw)⁺
    let hb = plus(&union(&[po, &sw]));
    // 3.1: fr ≜ rf⁻¹;co
    let fr = from_read(x);
    // 3.1: eco ≜ rf ∪ co;rf? ∪ fr;rf?
    let eco = union(&[rf, &seq(&[co, &opt(rf)]), &seq(&[&fr, &opt(rf)])]);

    // 3.3: bob ≜ po;[Wrel] ∪ [Racq];po ∪ po;[F] ∪ [F];po ∪ [Wrel];po|loc;[W]
    let bob = union(&[
        &seq(&[po, &w_rel]),
        &seq(&[&r_acq, po]),
        &seq(&[po, &f]),
        &seq(&[&f, po]),
        &seq(&[&w_rel, po_loc, &w]),
    ]);
    // 3.3: deps ≜ data ∪ ctrl ∪ addr;po? ∪ casdep ∪ [Rex];po
    let deps = union(&[data, ctrl, &seq(&[addr, &opt(po)]), casdep, &seq(&[&r_ex, po])]);
    // 3.3: ppo ≜ [R];(deps ∪ rfi)⁺;[W]
    let ppo = seq(&[&r, &plus(&union(&[&deps, &rfi])), &w]);
    // 3.3: detour ≜ (coe;rfe) ∩ po
    let detour = intersection(&seq(&[&coe, &rfe]), po);
    // 3.3: psc ≜ [Fsc];hb;eco;hb;[Fsc]
    let psc = seq(&[&f_sc, &hb, &eco, &hb, &f_sc]);
    // 3.3: ar ≜ rfe ∪ bob ∪ ppo ∪ detour ∪ psc ∪ [Wstrong];po;[W]
    let ar = union(&[&rfe, &bob, &ppo, &detour, &psc, &seq(&[&w_strong, po, &w])]);
    Imm { sw, hb, eco, ar }
}

impl Imm {
    /// 3.4, COHERENCE: hb;eco? is irreflexive.
    pub fn coherent(&self) -> bool {
        irreflexive(&seq(&[&self.hb, &opt(&self.eco)]))
    }

    /// 3.4, NO-THIN-AIR: ar is acyclic.
    pub fn no_thin_air(&self) -> bool {
        acyclic(&self.ar)
    }
}

/// ARMv8's ob, section 4.2 with appendix C, 01's "The ARMv8 verdict", and isb of 02's slip 3:
/// Definition C.1, EXTERNAL, wants it acyclic.
pub fn ob(x: &Execution) -> Relation {
    let Execution { po, rf, co, rmw, data, addr, ctrl, .. } = x;
    let r = x.on(|e| e.class == READ);
    let w = x.on(|e| e.class == WRITE);
    let r_q = x.on(|e| e.class == READ && e.mode == 1);
    let w_l = x.on(|e| e.class == WRITE && e.mode == 2);
    let w_ex = x.on(|e| x.numbers.iter().any(|&read| rmw.has(read, e.number)));
    let f_ld = x.on(|e| e.class == FENCE && e.mode == 5);
    let f_sy = x.on(|e| e.class == FENCE && e.mode == 6);
    let f_isb = x.on(|e| e.class == FENCE && e.mode == ISB);
    let rfe = external(rf, x);
    let rfi = internal(rf, x);
    let fre = external(&from_read(x), x);
    let coe = external(co, x);
    let coi = internal(co, x);

    // C: obs ≜ rfe ∪ fre ∪ coe
    let obs = union(&[&rfe, &fre, &coe]);
    // C: dob ≜ (addr ∪ data);rfi? ∪ (ctrl ∪ data);[W];coi? ∪ addr;po;[W],
    // and, not in C but in ARM's model, from 02's slip 3: (ctrl ∪ addr;po);[Fisb];po;[R]
    let dob = union(&[
        &seq(&[&union(&[addr, data]), &opt(&rfi)]),
        &seq(&[&union(&[ctrl, data]), &w, &opt(&coi)]),
        &seq(&[addr, po, &w]),
        &seq(&[&union(&[ctrl, &seq(&[addr, po])]), &f_isb, po, &r]),
    ]);
    // C: aob ≜ rmw ∪ [Wex];rfi;[RQ]
    let aob = union(&[rmw, &seq(&[&w_ex, &rfi, &r_q])]);
    // C: bob ≜ po;[Fsy];po ∪ [R];po;[Fld];po ∪ [RQ];po ∪ po;[WL];coi?,
    // and from ARM's model, written out in 01: [WL];po;[RQ]
    let bob = union(&[
        &seq(&[po, &f_sy, po]),
        &seq(&[&r, po, &f_ld, po]),
        &seq(&[&r_q, po]),
        &seq(&[po, &w_l, &opt(&coi)]),
        &seq(&[&w_l, po, &r_q]),
    ]);
    union(&[&obs, &dob, &aob, &bob])
}

/// x86-TSO's tso, which its rule 5 wants acyclic (02, slip 6).
pub fn tso(x: &Execution) -> Relation {
    let Execution { po, rf, co, rmw, .. } = x;
    let r = x.on(|e| e.class == READ);
    let w = x.on(|e| e.class == WRITE);
    let f_sc = x.on(|e| e.class == FENCE && e.mode == 4);
    let pair = x.on(|e| x.numbers.iter().any(|&other| rmw.has(e.number, other) || rmw.has(other, e.number)));
    let access = union(&[&r, &w]);

    // "po between reads and writes except from a write to a read"
    let ppo = difference(&seq(&[&access, po, &access]), &seq(&[&w, po, &r]));
    // "po into or out of an SC fence or an event of an rmw pair"; "Fences of modes 1 to 3 have no step here"
    let any = union(&[&access, &f_sc]);
    let barrier = union(&[&f_sc, &pair]);
    let fenced = union(&[&seq(&[&any, po, &barrier]), &seq(&[&barrier, po, &any])]);
    // "rfe, co, fr"
    union(&[&ppo, &fenced, &external(rf, x), co, &from_read(x)])
}

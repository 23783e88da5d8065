//! What drawn chip recordings tell of the clause for isb, so that the comparisons try both ways of it and find a wrong reading.

use crate::execution::Execution;
use crate::generate::draft_of_kind;
use crate::models::ob;
use crate::random::Random;
use crate::recording::*;
use crate::relation::*;
use crate::rules::{judge_armv8, smallest_available};
use std::collections::BTreeMap;

/// A chip recording with an isb for which rules 1 to 4 hold, so that rule 5 decides.
pub struct Case {
    x: Execution,
    /// The ctrl links, not taken on.
    ctrl_links: Relation,
    /// ob but for the clause.
    others: Relation,
    /// The order of an allowed recording.
    answer: Option<Vec<u8>>,
    r: Relation,
    f_isb: Relation,
}

impl Case {
    fn of(mut recording: Recording) -> Option<Case> {
        let x = Execution::of(&recording);
        let verdict = judge_armv8(&x);
        let f_isb = x.on(|e| e.class == FENCE && e.mode == ISB);
        if !matches!(verdict.rule, None | Some(5)) || f_isb == Relation::empty() {
            return None;
        }
        let mut ctrl_links = Relation::empty();
        for (_, source, target) in recording.link_triples().into_iter().filter(|link| link.0 == CTRL) {
            ctrl_links.add(source, target);
        }
        // A fence of no mode serves no clause.
        recording.events.iter_mut().filter(|e| e.class == FENCE && e.mode == ISB).for_each(|e| e.mode = 0);
        let others = ob(&Execution::of(&recording));
        let answer = verdict.rule.is_none().then_some(verdict.events);
        let r = x.on(|e| e.class == READ);
        Some(Case { x, ctrl_links, others, answer, r, f_isb })
    }

    /// before;[Fisb];po;[R]
    fn isb_after(&self, before: &Relation) -> Relation {
        seq(&[before, &self.f_isb, &self.x.po, &self.r])
    }

    fn addr_po(&self) -> Relation {
        seq(&[&self.x.addr, &self.x.po])
    }

    /// ctrl ∪ addr;po
    fn dependencies(&self) -> Relation {
        union(&[&self.x.ctrl, &self.addr_po()])
    }

    /// The order of the recording if `clause` stood for the clause; none if it were broken.
    fn answer_by(&self, clause: &Relation) -> Option<Vec<u8>> {
        smallest_available(&self.x, &union(&[&self.others, clause]))
    }

    /// Whether the recording is broken if the clause has ctrl's way alone, addr's alone, and both. Where one is false, it is allowed
    /// without the clause.
    fn broken(&self) -> [bool; 3] {
        let ways = [self.x.ctrl.clone(), self.addr_po(), self.dependencies()];
        ways.map(|way| self.answer_by(&self.isb_after(&way)).is_none())
    }

    /// Another verdict, or another order, if `clause` stood for the clause.
    fn tells(&self, clause: &Relation) -> bool {
        self.answer_by(clause) != self.answer
    }
}

/// A sort of recording: its name, so many of 20,000 that are drawn at the least, and whether a recording is of it.
pub type Sort = (&'static str, usize, fn(&Case) -> bool);

pub const SORTS: [Sort; 14] = [
    ("ctrl;[Fisb];po;[R]", 1000, |c| c.isb_after(&c.x.ctrl) != Relation::empty()),
    ("addr;po;[Fisb];po;[R]", 500, |c| c.isb_after(&c.addr_po()) != Relation::empty()),
    ("broken by ctrl's way and not by addr's", 300, |c| c.broken() == [true, false, true]),
    ("broken by addr's way and not by ctrl's", 100, |c| c.broken() == [false, true, true]),
    ("broken by both ways together only", 10, |c| c.broken() == [false, false, true]),
    // Wrong readings of the clause, which give another answer.
    ("no clause", 700, |c| c.tells(&Relation::empty())),
    ("ctrl not taken on", 120, |c| c.tells(&c.isb_after(&union(&[&c.ctrl_links, &c.addr_po()])))),
    ("data too", 90, |c| c.tells(&c.isb_after(&union(&[&c.dependencies(), &seq(&[&c.x.data, &c.x.po])])))),
    ("no dependency needed", 300, |c| c.tells(&c.isb_after(&seq(&[&c.r, &c.x.po])))),
    ("addr from before the isb, be it to behind it", 80, |c| {
        let from = intersection(&compose(&c.x.addr, &inverse(&c.x.addr)), &identity());
        c.tells(&c.isb_after(&union(&[&c.x.ctrl, &seq(&[&from, &c.x.po])])))
    }),
    ("no isb needed", 250, |c| c.tells(&seq(&[&c.dependencies(), &c.r]))),
    ("not to a read only", 100, |c| c.tells(&seq(&[&c.dependencies(), &c.f_isb, &c.x.po]))),
    ("to the isb too", 350, |c| {
        let dependencies = c.dependencies();
        c.tells(&union(&[&c.isb_after(&dependencies), &seq(&[&dependencies, &c.f_isb])]))
    }),
    ("as dmb sy", 1000, |c| c.tells(&seq(&[&c.x.po, &c.f_isb, &c.x.po]))),
];

/// How many of `count` drawn chip recordings are of each sort, and how many are answered otherwise by the clause as written here.
pub fn of_chip_recordings(random: &mut Random, count: usize) -> (BTreeMap<&'static str, usize>, usize) {
    let (mut found, mut otherwise) = (BTreeMap::from(SORTS.map(|sort| (sort.0, 0))), 0);
    for _ in 0..count {
        let recording = load(&draft_of_kind(random, CHIP).to_bytes(random)).expect("a drawn recording loads");
        let Some(case) = Case::of(recording) else {
            continue;
        };
        otherwise += case.tells(&case.isb_after(&case.dependencies())) as usize;
        for (name, _, is_of) in SORTS {
            *found.entry(name).or_default() += is_of(&case) as usize;
        }
    }
    (found, otherwise)
}

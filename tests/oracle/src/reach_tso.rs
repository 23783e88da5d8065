//! What drawn source recordings tell of x86-TSO, so that the comparisons reach every verdict and find a wrong reading of its rules.

use crate::execution::Execution;
use crate::generate::draft_of_kind;
use crate::models::tso;
use crate::random::Random;
use crate::recording::*;
use crate::relation::*;
use crate::rules::{judge_imm, judge_tso, smallest_available};
use std::collections::BTreeMap;

/// A source recording for which rules 1 to 4 hold, so that rule 5 decides.
pub struct Case {
    x: Execution,
    broken_under_imm: bool,
    /// The order of an allowed recording.
    answer: Option<Vec<u8>>,
}

/// The parts that a reading makes tso of: ppo ∪ ([any];po;[barrier] ∪ [barrier];po;[any]) ∪ rf ∪ co ∪ fr ∪ more.
#[derive(Clone)]
pub struct Reading {
    ppo: Relation,
    po: Relation,
    any: Relation,
    barrier: Relation,
    rf: Relation,
    co: Relation,
    fr: Relation,
    more: Relation,
}

impl Reading {
    fn tso(&self) -> Relation {
        let into = seq(&[&self.any, &self.po, &self.barrier]);
        let out_of = seq(&[&self.barrier, &self.po, &self.any]);
        union(&[&self.ppo, &into, &out_of, &self.rf, &self.co, &self.fr, &self.more])
    }
}

impl Case {
    /// po from a class to a class.
    fn po(&self, from: u8, to: u8) -> Relation {
        seq(&[&self.x.on(|e| e.class == from), &self.x.po, &self.x.on(|e| e.class == to)])
    }

    fn access(&self) -> Relation {
        self.x.on(|e| e.class != FENCE)
    }

    /// Fences of modes 1 to 3.
    fn weak(&self) -> Relation {
        self.x.on(|e| e.class == FENCE && e.mode != 4)
    }

    fn sc(&self) -> Relation {
        self.x.on(|e| e.class == FENCE && e.mode == 4)
    }

    fn pair_reads(&self) -> Relation {
        self.x.on(|e| self.x.numbers.iter().any(|&write| self.x.rmw.has(e.number, write)))
    }

    fn pair_writes(&self) -> Relation {
        self.x.on(|e| self.x.numbers.iter().any(|&read| self.x.rmw.has(read, e.number)))
    }

    /// po to and from events, from and to others.
    fn around(&self, others: &Relation, events: &Relation) -> Relation {
        union(&[&seq(&[others, &self.x.po, events]), &seq(&[events, &self.x.po, others])])
    }

    /// The reading as it is meant.
    fn reading(&self) -> Reading {
        let x = &self.x;
        Reading {
            ppo: union(&[&self.po(READ, READ), &self.po(READ, WRITE), &self.po(WRITE, WRITE)]),
            po: x.po.clone(),
            any: union(&[&self.access(), &self.sc()]),
            barrier: union(&[&self.sc(), &self.pair_reads(), &self.pair_writes()]),
            rf: difference(&x.rf, &x.po),
            co: x.co.clone(),
            fr: seq(&[&inverse(&x.rf), &x.co]),
            more: Relation::empty(),
        }
    }

    /// Whether by this relation the recording has another verdict, another answer, and one against the claim that IMM allows what is
    /// allowed.
    fn told(&self, tso: &Relation) -> [bool; 3] {
        let answer = smallest_available(&self.x, tso);
        [answer.is_some() != self.answer.is_some(), answer != self.answer, answer.is_some() && self.broken_under_imm]
    }
}

/// A wrong reading: its name; of 20,000 drawn recordings at the least so many have another verdict by it, so many another answer, so many
/// one against the claim, where 0 is none at all; and what it makes of the parts.
pub type Wrong = (&'static str, [usize; 3], fn(&Case, &mut Reading));

/// Some give no other verdict. Where a pair's read has no step from the writes before it, the pair's write leads on as far. A fence of
/// modes 1 to 3 with steps from SC fences and pairs, and to these, can be left out of a ring, and so can an SC fence that po leads past.
/// No ring has an initial write.
/// None that has all steps is against the claim, and none for want of a pair's, which IMM does not ask for.
pub const WRONG: [Wrong; 22] = [
    ("write to read too", [900, 4000, 0], |c, r| r.ppo = seq(&[&c.access(), &c.x.po, &c.access()])),
    ("release write to acquire read too", [100, 400, 0], |c, r| {
        let releases = c.x.on(|e| e.class == WRITE && e.mode == 2);
        r.more = seq(&[&releases, &c.x.po, &c.x.on(|e| e.class == READ && e.mode == 1)]);
    }),
    ("no read to read", [700, 2500, 450], |c, r| r.ppo = difference(&r.ppo, &c.po(READ, READ))),
    ("no read to write", [2200, 2700, 1800], |c, r| r.ppo = difference(&r.ppo, &c.po(READ, WRITE))),
    ("no write to write", [1200, 4000, 550], |c, r| r.ppo = difference(&r.ppo, &c.po(WRITE, WRITE))),
    ("no SC fence", [600, 1800, 450], |c, r| {
        r.any = c.access();
        r.barrier = union(&[&c.pair_reads(), &c.pair_writes()]);
    }),
    ("past an SC fence, not into it", [0, 1200, 0], |c, r| {
        r.any = c.access();
        r.barrier = union(&[&c.pair_reads(), &c.pair_writes()]);
        r.more = seq(&[&r.any, &c.x.po, &c.sc(), &c.x.po, &r.any]);
    }),
    ("every fence as an SC fence", [200, 2200, 0], |c, r| {
        r.any = union(&[&r.any, &c.weak()]);
        r.barrier = union(&[&r.barrier, &c.weak()]);
    }),
    ("other fences to and from SC fences and pairs", [0, 600, 0], |c, r| r.any = union(&[&r.any, &c.weak()])),
    ("other fences to and from pairs", [0, 400, 0], |c, r| {
        r.more = c.around(&c.weak(), &union(&[&c.pair_reads(), &c.pair_writes()]));
    }),
    ("no pair", [260, 2700, 0], |c, r| r.barrier = c.sc()),
    ("no pair's read", [0, 2300, 0], |c, r| r.barrier = union(&[&c.sc(), &c.pair_writes()])),
    ("no pair's write", [150, 850, 0], |c, r| r.barrier = union(&[&c.sc(), &c.pair_reads()])),
    ("strong pairs alone", [160, 1400, 0], |c, r| {
        let strong = c.x.on(|e| e.class == WRITE && e.flag == 1);
        let reads = seq(&[&c.x.rmw, &strong, &inverse(&c.x.rmw)]);
        r.barrier = union(&[&c.sc(), &strong, &reads]);
    }),
    ("every exclusive read", [200, 1000, 0], |c, r| r.barrier = union(&[&r.barrier, &c.x.on(|e| e.class == READ && e.flag == 1)])),
    ("rf within a thread too", [100, 3600, 0], |c, r| r.rf = c.x.rf.clone()),
    ("no rf", [4000, 6000, 3000], |_, r| r.rf = Relation::empty()),
    ("no co", [1500, 2600, 1000], |_, r| r.co = Relation::empty()),
    ("no fr", [2200, 3000, 1500], |_, r| r.fr = Relation::empty()),
    ("no po from initial writes", [0, 4000, 0], |c, r| {
        let recorded = c.x.on(|e| e.number < INITIAL);
        r.po = seq(&[&recorded, &r.po]);
        r.ppo = seq(&[&recorded, &r.ppo]);
    }),
    ("no po from initial writes into barriers", [0, 1800, 0], |c, r| r.po = seq(&[&c.x.on(|e| e.number < INITIAL), &r.po])),
    ("initial writes to reads too", [0, 3500, 0], |c, r| {
        r.more = seq(&[&c.x.on(|e| e.number >= INITIAL), &c.x.po, &c.x.on(|e| e.class == READ)]);
    }),
];

/// By the broken rule, 0 where none is, how many of 20,000 drawn recordings have the verdict at the least.
pub const VERDICTS: [(u8, usize); 6] = [(0, 5000), (1, 500), (2, 450), (3, 1500), (4, 550), (5, 5000)];

/// So many at the least break rule 3 under IMM and not here.
pub const COHERENT: usize = 2300;

/// What drawn recordings tell.
#[derive(Default)]
pub struct Told {
    /// By the broken rule how many have the verdict.
    pub verdicts: BTreeMap<u8, usize>,
    /// How many break rule 3 under IMM and not here.
    pub coherent: usize,
    /// How many have another tso by the reading as it is meant, or by that with co and fr external. The internal ones are W-W and R-W.
    pub otherwise: usize,
    /// By the name of a wrong reading how many have another verdict, another answer, and one against the claim.
    pub wrong: BTreeMap<&'static str, [usize; 3]>,
}

/// Of `count` drawn source recordings.
pub fn of_source_recordings(random: &mut Random, count: usize) -> Told {
    let mut told = Told::default();
    for _ in 0..count {
        let recording = load(&draft_of_kind(random, SOURCE).to_bytes(random)).expect("a drawn recording loads");
        told.take(Execution::of(&recording));
    }
    told
}

impl Told {
    fn take(&mut self, x: Execution) {
        let (imm, verdict) = (judge_imm(&x).rule, judge_tso(&x));
        *self.verdicts.entry(verdict.rule.unwrap_or(0)).or_default() += 1;
        self.coherent += (imm == Some(3) && verdict.rule != Some(3)) as usize;
        if !matches!(verdict.rule, None | Some(5)) {
            return;
        }
        let answer = verdict.rule.is_none().then_some(verdict.events);
        let case = Case { x, broken_under_imm: imm.is_some(), answer };
        let meant = case.reading();
        let mut external = meant.clone();
        external.co = difference(&external.co, &case.x.po);
        external.fr = difference(&external.fr, &case.x.po);
        self.otherwise += [&meant, &external].iter().any(|reading| reading.tso() != tso(&case.x)) as usize;
        for (name, _, change) in WRONG {
            let mut reading = meant.clone();
            change(&case, &mut reading);
            let counts = self.wrong.entry(name).or_default();
            for (count, told) in counts.iter_mut().zip(case.told(&reading.tso())) {
                *count += told as usize;
            }
        }
    }
}

//! The execution graph of a recording that loads: its sets of events and base relations.
//! Assumes of the recording what loading ensures.

use super::recording::*;
use super::relation::{members, single, Relation, Set};

pub struct Execution {
    pub events: Set,
    pub reads: Set,
    pub writes: Set,
    pub fences: Set,
    pub acquire_reads: Set,
    pub exclusive_reads: Set,
    pub release_writes: Set,
    pub strong_writes: Set,
    /// Fences by their mode.
    pub fence_modes: [Set; 8],
    /// Reads and writes by their location.
    pub accesses: [Set; 8],
    pub po: Relation,
    pub po_loc: Relation,
    pub rf: Relation,
    pub rfe: Relation,
    pub rfi: Relation,
    pub co: Relation,
    pub coe: Relation,
    pub fr: Relation,
    pub fre: Relation,
    pub rmw: Relation,
    pub data: Relation,
    pub addr: Relation,
    pub ctrl: Relation,
    pub casdep: Relation,
}

impl Execution {
    pub fn of(loaded: &Loaded) -> Execution {
        let Loaded { recording, po, co } = loaded;
        let linked = |link_type: usize| recording.sources[link_type].inverse();
        let rf = linked(RF);
        let fr = recording.sources[RF].then(co);
        let mut x = Execution {
            events: recording.recorded() | recording.initial(),
            reads: 0,
            writes: recording.initial(),
            fences: 0,
            acquire_reads: 0,
            exclusive_reads: 0,
            release_writes: 0,
            strong_writes: 0,
            fence_modes: [0; 8],
            accesses: [0; 8],
            po: *po,
            po_loc: Relation::empty(),
            rf,
            rfe: rf.minus(po),
            rfi: rf.and(po),
            co: *co,
            coe: co.minus(po),
            fr,
            fre: fr.minus(po),
            rmw: linked(RMW),
            data: linked(DATA),
            addr: linked(ADDR),
            ctrl: linked(CTRL).then_optional(po),
            casdep: linked(CASDEP),
        };
        x.sort_events(recording);
        for set in x.accesses {
            for e in members(set) {
                x.po_loc[e] = po[e] & set;
            }
        }
        x
    }

    fn sort_events(&mut self, recording: &Recording) {
        for location in 0..recording.locations as usize {
            self.accesses[location] = single(INITIAL + location);
        }
        for e in 1..=recording.count {
            let event = &recording.events[e];
            let number = single(e);
            match event.class {
                READ => {
                    self.reads |= number;
                    self.acquire_reads |= if event.mode == 1 { number } else { 0 };
                    self.exclusive_reads |= if event.flag == 1 { number } else { 0 };
                }
                WRITE => {
                    self.writes |= number;
                    self.release_writes |= if event.mode == 2 { number } else { 0 };
                    self.strong_writes |= if event.flag == 1 { number } else { 0 };
                }
                _ => {
                    self.fences |= number;
                    self.fence_modes[event.mode as usize] |= number;
                    continue;
                }
            }
            self.accesses[event.location as usize] |= number;
        }
    }
}

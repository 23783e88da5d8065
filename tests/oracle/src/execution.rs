//! The execution of a recording that loads: its events and base relations (003, Definition 2.3; 01, "The recording").

use crate::recording::*;
use crate::relation::{opt, plus, seq, union, Relation};

/// An event of the execution, recorded or initial.
pub struct Label {
    pub number: u8,
    pub class: u8,
    pub mode: u8,
    pub flag: u8,
    pub location: u8,
}

pub struct Execution {
    /// All events by ascending number: the recorded ones, then the initial writes.
    pub labels: Vec<Label>,
    pub numbers: Vec<u8>,
    pub po: Relation,
    pub po_loc: Relation,
    pub rf: Relation,
    pub co: Relation,
    pub rmw: Relation,
    pub data: Relation,
    pub addr: Relation,
    pub ctrl: Relation,
    pub casdep: Relation,
}

impl Execution {
    pub fn of(recording: &Recording) -> Execution {
        let labels = labels(recording);
        let numbers: Vec<u8> = labels.iter().map(|l| l.number).collect();
        let find = |n: u8| labels.iter().find(|l| l.number == n).unwrap();
        let links = recording.link_triples();
        let linked = |link_type: u8| {
            let mut pairs = Relation::empty();
            for &(t, source, target) in &links {
                if t == link_type {
                    pairs.add(source, target);
                }
            }
            pairs
        };

        // po: earlier to later in a thread, and every initial write to every recorded event.
        let mut po = Relation::empty();
        for thread in &recording.threads {
            for (place, &earlier) in thread.iter().enumerate() {
                for &later in &thread[place + 1..] {
                    po.add(earlier, later);
                }
            }
        }
        for &a in &numbers {
            for &b in &numbers {
                if recording.is_initial(a) && recording.is_recorded(b) {
                    po.add(a, b);
                }
            }
        }

        // po-loc: po between reads or writes of one location.
        let po_loc = Relation::where_pairs(&numbers, |a, b| {
            let (first, second) = (find(a), find(b));
            po.has(a, b)
                && first.class != FENCE
                && second.class != FENCE
                && first.location == second.location
        });

        // co: the links and initial-before-recorded, taken transitively.
        let initial_first = Relation::where_pairs(&numbers, |a, b| {
            recording.is_initial(a)
                && recording.is_recorded(b)
                && find(b).class == WRITE
                && find(a).location == find(b).location
        });
        let co = plus(&union(&[&linked(CO), &initial_first]));

        // ctrl: the links, taken on to all po-later events.
        let ctrl = seq(&[&linked(CTRL), &opt(&po)]);

        Execution {
            rf: linked(RF),
            rmw: linked(RMW),
            data: linked(DATA),
            addr: linked(ADDR),
            casdep: linked(CASDEP),
            labels,
            numbers,
            po,
            po_loc,
            co,
            ctrl,
        }
    }

    /// What an event is.
    pub fn label(&self, number: u8) -> &Label {
        let place = self.labels.binary_search_by_key(&number, |l| l.number);
        &self.labels[place.unwrap_or_else(|_| panic!("{number} is no event"))]
    }

    /// [A] for the set A of events whose label passes the test.
    pub fn on(&self, test: impl Fn(&Label) -> bool) -> Relation {
        let members: Vec<u8> = self.labels.iter().filter(|l| test(l)).map(|l| l.number).collect();
        Relation::identity_on(&members, |_| true)
    }

    /// The numbers of the reads, ascending.
    pub fn reads(&self) -> Vec<u8> {
        self.labels.iter().filter(|l| l.class == READ).map(|l| l.number).collect()
    }

    /// The labels of the writes, by ascending number.
    pub fn writes(&self) -> Vec<&Label> {
        self.labels.iter().filter(|l| l.class == WRITE).collect()
    }
}

fn labels(recording: &Recording) -> Vec<Label> {
    let mut labels = Vec::new();
    for (index, e) in recording.events.iter().enumerate() {
        labels.push(Label {
            number: index as u8 + 1,
            class: e.class,
            mode: e.mode,
            flag: e.flag,
            location: e.location,
        });
    }
    for location in 0..recording.locations {
        labels.push(Label { number: INITIAL + location, class: WRITE, mode: 0, flag: 0, location });
    }
    labels
}

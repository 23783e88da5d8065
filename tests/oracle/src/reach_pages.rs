//! What the pages of drawn recordings and the rings drawn for them reach, so that the comparisons try every column and every sort of ring.

use crate::generate::draft_of_kind;
use crate::lent_rings;
use crate::page::{page, LINE};
use crate::random::Random;
use crate::recording::*;
use std::collections::BTreeSet;

/// Everything that stands in the columns of pages of one kind.
#[derive(Debug, Default, PartialEq)]
pub struct PageReach {
    /// How many lines there are.
    pub lines: BTreeSet<usize>,
    /// Class, mode and flag.
    pub labels: BTreeSet<String>,
    pub locations: BTreeSet<u8>,
    /// The digits of a number, and those of a value beside it.
    pub digits: BTreeSet<(usize, usize)>,
}

impl PageReach {
    /// What there is to reach: the table of classes, modes and flags, and the limits, read off the papers.
    pub fn limits(kind: u8) -> PageReach {
        let (most, labels) = if kind == SOURCE {
            (12, "R00 R01 R10 R11 W00 W01 W20 W21 F10 F20 F30 F40")
        } else {
            (18, "R00 R01 R10 R11 W00 W20 F50 F60 F70")
        };
        PageReach {
            lines: (0..=most).collect(),
            labels: labels.split(' ').map(String::from).collect(),
            locations: (0..8).collect(),
            digits: [1, 2].into_iter().flat_map(|number| (1..=5).map(move |value| (number, value))).collect(),
        }
    }

    fn take(&mut self, recording: &Recording, bytes: &[u8]) {
        self.lines.insert(bytes.len() / LINE);
        for (n, e) in (1..).zip(&recording.events) {
            let class = ["R", "W", "F"][e.class as usize - 1];
            self.labels.insert(format!("{class}{}{}", e.mode, e.flag));
            if e.class != FENCE {
                self.locations.insert(e.location);
                self.digits.insert((digits(n), digits(e.value as usize)));
            }
        }
    }
}

fn digits(number: usize) -> usize {
    number.to_string().len()
}

/// A sort of ring: its name, and whether a ring lent with a recording is of it.
pub type Sort = (&'static str, fn(&Recording, &[u8]) -> bool);

pub const SORTS: [Sort; 20] = [
    ("no entry", |_, ring| ring.is_empty()),
    ("one event", |r, ring| ring.len() == 1 && r.is_recorded(ring[0])),
    ("a few of the events", |r, ring| (2..r.events.len()).contains(&events(r, ring).len())),
    ("all of several events", |r, ring| r.events.len() > 1 && events(r, ring).len() == r.events.len()),
    ("an event twice", |r, ring| ring.iter().filter(|&&n| r.is_recorded(n)).count() > events(r, ring).len()),
    ("no event among several entries", |r, ring| ring.len() > 1 && events(r, ring).is_empty()),
    ("0", |_, ring| ring.contains(&0)),
    ("N + 1", |r, ring| ring.contains(&(r.events.len() as u8 + 1))),
    ("one of 49 to 55", |_, ring| ring.iter().any(|n| (49..=55).contains(n))),
    ("one of 56 to 63", |_, ring| ring.iter().any(|n| (56..=63).contains(n))),
    ("one of 64 to 255", |_, ring| ring.iter().any(|&n| n >= 64)),
    ("an event plus 64, 128 or 192, not the event", |r, ring| {
        ring.iter().any(|&n| n >= 64 && r.is_recorded(n % 64) && !ring.contains(&(n % 64)))
    }),
    ("256 entries", |_, ring| ring.len() == 256),
    ("300 to 1,000 entries", |_, ring| (300..=1000).contains(&ring.len())),
    ("over 65,536 entries", |_, ring| ring.len() > 65_536),
    ("an event behind 255 others only", |r, ring| only_behind(r, ring, 255)),
    ("an event behind 65,536 others only", |r, ring| only_behind(r, ring, 65_536)),
    ("the first events of threads of several, not the last", |r, ring| ends(r, ring, true, false)),
    ("the last events of threads of several, not the first", |r, ring| ends(r, ring, false, true)),
    ("the first and the last events of threads of several", |r, ring| ends(r, ring, true, true)),
];

/// The events of a recording that are in a ring.
fn events(recording: &Recording, ring: &[u8]) -> BTreeSet<u8> {
    ring.iter().copied().filter(|&n| recording.is_recorded(n)).collect()
}

fn only_behind(recording: &Recording, ring: &[u8], many: usize) -> bool {
    ring.len() > many && events(recording, &ring[..many]).len() < events(recording, ring).len()
}

/// Several threads have several events, and each of them its first in the ring or not, and its last.
fn ends(recording: &Recording, ring: &[u8], first: bool, last: bool) -> bool {
    let long: Vec<&Vec<u8>> = recording.threads.iter().filter(|thread| thread.len() > 1).collect();
    let as_wanted = |t: &&Vec<u8>| ring.contains(&t[0]) == first && ring.contains(&t[t.len() - 1]) == last;
    long.len() > 1 && long.iter().all(as_wanted)
}

/// What the pages of drawn recordings of a kind reach, and the names of the sorts that the rings drawn for them are of.
pub fn of_pages(random: &mut Random, kind: u8, count: usize) -> (PageReach, BTreeSet<&'static str>) {
    let (mut reached, mut sorts) = (PageReach::default(), BTreeSet::new());
    for _ in 0..count {
        let file = draft_of_kind(random, kind).to_bytes(random);
        let ring = lent_rings::draw(random, &file);
        let recording = load(&file).expect("a drawn recording loads");
        reached.take(&recording, &page(&file, &ring).expect("a recording that loads has a page"));
        sorts.extend(SORTS.iter().filter(|sort| sort.1(&recording, &ring)).map(|sort| sort.0));
    }
    (reached, sorts)
}

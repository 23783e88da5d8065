//! What generated files reach, so that the comparisons try every limit and every refusal.

use crate::damage::any_file;
use crate::generate::{draft_of_kind, too_long};
use crate::random::Random;
use crate::recording::*;
use std::collections::BTreeSet;

/// The largest numbers among recordings of one kind, and every number of threads that are not empty.
#[derive(Debug, Default, PartialEq)]
pub struct Reach {
    pub events: usize,
    pub links: usize,
    pub strong: usize,
    pub in_thread: usize,
    pub strong_in_thread: usize,
    pub threads: BTreeSet<usize>,
}

impl Reach {
    /// What there is to reach: the limits of a kind, read off the papers.
    pub fn limits(kind: u8) -> Reach {
        let threads = (0..=4).collect();
        if kind == SOURCE {
            Reach { events: 32, links: 200, strong: 16, in_thread: 12, strong_in_thread: 6, threads }
        } else {
            Reach { events: 48, links: 255, strong: 0, in_thread: 18, strong_in_thread: 0, threads }
        }
    }

    fn take(&mut self, recording: &Recording) {
        let is_strong = |&n: &u8| recording.event(n).class == WRITE && recording.event(n).flag == 1;
        let strong_of = |thread: &Vec<u8>| thread.iter().copied().filter(is_strong).count();
        let strong: Vec<usize> = recording.threads.iter().map(strong_of).collect();
        self.events = self.events.max(recording.events.len());
        self.links = self.links.max(recording.links.len());
        self.strong = self.strong.max(strong.iter().sum());
        for (thread, &strong) in recording.threads.iter().zip(&strong) {
            self.in_thread = self.in_thread.max(thread.len());
            self.strong_in_thread = self.strong_in_thread.max(strong);
        }
        self.threads.insert(recording.threads.iter().filter(|t| !t.is_empty()).count());
    }
}

/// What drawn recordings of a kind reach, and the refusals of those that do not load.
pub fn of_recordings(random: &mut Random, kind: u8, count: usize) -> (Reach, BTreeSet<u8>) {
    let (mut reached, mut refusals) = (Reach::default(), BTreeSet::new());
    for _ in 0..count {
        match load(&draft_of_kind(random, kind).to_bytes(random)) {
            Ok(recording) => reached.take(&recording),
            Err(cause) => {
                refusals.insert(cause);
            }
        }
    }
    (reached, refusals)
}

/// The longest threads of drawn recordings with a thread too long, and the outcomes of loading them.
pub fn of_too_long(random: &mut Random, kind: u8, count: usize) -> (BTreeSet<usize>, BTreeSet<u8>) {
    let (mut longest, mut outcomes) = (BTreeSet::new(), BTreeSet::new());
    for _ in 0..count {
        let draft = too_long(random, kind);
        longest.extend(draft.threads.iter().map(|t| t.len()).max());
        outcomes.insert(load(&draft.to_bytes(random)).err().unwrap_or(0));
    }
    (longest, outcomes)
}

/// The outcomes of loading generated files: 0 of those that load, and the refusals.
pub fn of_files(random: &mut Random, count: usize) -> BTreeSet<u8> {
    (0..count).map(|_| load(&any_file(random)).err().unwrap_or(0)).collect()
}

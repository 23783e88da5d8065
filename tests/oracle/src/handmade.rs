//! Helpers for files made by hand: texts of hexadecimal digits, records put together, single bytes set.

use crate::hex::from_hex;
use crate::samples::sample_named;

/// The bytes of a sample by its name, or of a text of hexadecimal digits; blanks and the bars between records are left out.
pub fn bytes(text: &str) -> Vec<u8> {
    let digits: String = text.chars().filter(|c| !c.is_whitespace() && *c != '|').collect();
    sample_named(text).or_else(|| from_hex(&digits)).expect("a sample or a text of hexadecimal digits")
}

/// An event record but for its first link: next, class, mode, flag, location, value low, value high.
pub type EventBytes = [u8; 7];

/// A link as type, source, target.
pub type LinkEnds = (u8, u8, u8);

/// A file: the links are numbered as listed, and those into one event are chained as listed.
pub fn file(kind: u8, locations: u8, heads: [u8; 4], events: &[EventBytes], links: &[LinkEnds]) -> Vec<u8> {
    let mut all = vec![kind, events.len() as u8, locations, links.len() as u8];
    all.extend(heads);
    let into = |event: usize, from: usize| {
        let found = (from..links.len()).find(|&i| links[i].2 as usize == event);
        found.map_or(0, |i| i as u8 + 1)
    };
    for (index, event) in events.iter().enumerate() {
        all.extend(event);
        all.push(into(index + 1, 0));
    }
    for (index, &(link_type, source, target)) in links.iter().enumerate() {
        all.extend([into(target as usize, index + 1), link_type, source, 0]);
    }
    all
}

/// The most events of a thread, by hand: the loader has its own.
pub fn thread_limit(kind: u8) -> u8 {
    if kind == 1 { 12 } else { 18 }
}

/// The lengths of as few threads as hold `n` events: all but the last at the limit.
/// What four cannot hold is in the fourth.
pub fn packed(kind: u8, n: u8) -> [u8; 4] {
    let before = |threads: u8| (threads as u16 * thread_limit(kind) as u16).min(n as u16) as u8;
    [before(1), before(2) - before(1), before(3) - before(2), n - before(3)]
}

/// Threads of the given lengths, their events numbered through.
pub fn numbered(lengths: [u8; 4]) -> [Vec<u8>; 4] {
    let mut last = 0;
    lengths.map(|length| {
        let first = last + 1;
        last += length;
        (first..=last).collect()
    })
}

/// The heads of four threads that list all events of a file, and the next field of each event.
pub fn chained(threads: &[Vec<u8>; 4]) -> ([u8; 4], Vec<u8>) {
    let mut nexts = vec![0; threads.iter().map(|thread| thread.len()).sum()];
    for step in threads.iter().flat_map(|thread| thread.windows(2)) {
        nexts[step[0] as usize - 1] = step[1];
    }
    let head = |t: usize| threads[t].first().copied().unwrap_or(0);
    ([head(0), head(1), head(2), head(3)], nexts)
}

/// The file with some of its bytes set to other values.
pub fn set(file: &[u8], edits: &[(usize, u8)]) -> Vec<u8> {
    let mut changed = file.to_vec();
    for &(place, value) in edits {
        changed[place] = value;
    }
    changed
}

/// The file with bytes of the given value behind it, up to a length.
pub fn lengthened(file: &[u8], length: usize, value: u8) -> Vec<u8> {
    let mut longer = file.to_vec();
    longer.resize(length, value);
    longer
}

// Places in the header, and in an event record and a link record.
pub const KIND: usize = 0;
pub const COUNT_EVENTS: usize = 1;
pub const COUNT_LOCATIONS: usize = 2;
pub const COUNT_LINKS: usize = 3;
pub const HEAD_1: usize = 4;

pub const NEXT: usize = 0;
pub const CLASS: usize = 1;
pub const MODE: usize = 2;
pub const FLAG: usize = 3;
pub const LOCATION: usize = 4;
pub const VALUE_LOW: usize = 5;
pub const VALUE_HIGH: usize = 6;

pub const LINK_NEXT: usize = 0;
pub const LINK_TYPE: usize = 1;
pub const LINK_SOURCE: usize = 2;
pub const LINK_LAST: usize = 3;

/// The place of a byte of event `number`.
pub fn in_event(number: usize, field: usize) -> usize {
    8 + 8 * (number - 1) + field
}

/// The place of a byte of link `number` in a file of `events` event records.
pub fn in_link(events: usize, number: usize, field: usize) -> usize {
    8 + 8 * events + 4 * (number - 1) + field
}

/// One boundary file: its name, its bytes, and 0 if it loads or the number of its refusal.
pub struct Case {
    pub name: String,
    pub file: Vec<u8>,
    pub expected: u8,
}

/// A list of boundary files.
pub struct Cases(pub Vec<Case>);

impl Cases {
    pub fn add(&mut self, name: impl Into<String>, file: Vec<u8>, expected: u8) {
        self.0.push(Case { name: name.into(), file, expected });
    }
}

/// `loads` or `refused K`.
pub fn outcome(number: u8) -> String {
    match number {
        0 => "loads".into(),
        k => format!("refused {k}"),
    }
}

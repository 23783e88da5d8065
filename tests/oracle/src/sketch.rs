//! A recording put together event by event, for boundary files.

use crate::handmade::*;

pub const READ: u8 = 1;
pub const WRITE: u8 = 2;
pub const FENCE: u8 = 3;
pub const RELAXED: u8 = 0;
pub const ACQUIRE: u8 = 1;
pub const RELEASE: u8 = 2;
pub const RF: u8 = 1;
pub const CO: u8 = 2;
pub const RMW: u8 = 3;
pub const DATA: u8 = 4;
pub const ADDR: u8 = 5;
pub const CTRL: u8 = 6;
pub const CASDEP: u8 = 7;

/// Threads are counted from 0.
pub struct Sketch {
    pub kind: u8,
    pub locations: u8,
    /// Class, mode, flag, location and value.
    pub events: Vec<[u8; 5]>,
    pub threads: [Vec<u8>; 4],
    pub links: Vec<LinkEnds>,
}

impl Sketch {
    pub fn new(kind: u8) -> Sketch {
        Sketch { kind, locations: 0, events: Vec::new(), threads: Default::default(), links: Vec::new() }
    }

    pub fn location(&mut self) -> u8 {
        self.locations += 1;
        self.locations - 1
    }

    /// Puts an event at the end of a thread. Its number is the next one.
    pub fn event(&mut self, thread: usize, class: u8, mode: u8, location: u8, value: u8) -> u8 {
        self.events.push([class, mode, 0, location, value]);
        let number = self.events.len() as u8;
        self.threads[thread].push(number);
        number
    }

    /// Gives an event flag 1: a read is exclusive, a write strong.
    pub fn set_flag(&mut self, number: u8) {
        self.events[number as usize - 1][2] = 1;
    }

    pub fn link(&mut self, link_type: u8, source: u8, target: u8) {
        self.links.push((link_type, source, target));
    }

    /// A read of the initial write.
    pub fn stale(&mut self, thread: usize, location: u8) -> u8 {
        let read = self.event(thread, READ, RELAXED, location, 0);
        self.link(RF, 56 + location, read);
        read
    }

    pub fn file(&self) -> Vec<u8> {
        let (heads, nexts) = chained(&self.threads);
        let bytes = |(&[class, mode, flag, location, value], &next): (&[u8; 5], &u8)| [next, class, mode, flag, location, value, 0];
        let events: Vec<EventBytes> = self.events.iter().zip(&nexts).map(bytes).collect();
        file(self.kind, self.locations, heads, &events, &self.links)
    }

    /// The same with the numbers of the events the other way round.
    pub fn backward(mut self) -> Sketch {
        let last = self.events.len() as u8 + 1;
        let turned = |n: u8| if n < 56 { last - n } else { n };
        self.events.reverse();
        self.threads.iter_mut().flatten().for_each(|n| *n = turned(*n));
        self.links.iter_mut().for_each(|(_, source, target)| (*source, *target) = (turned(*source), turned(*target)));
        self
    }
}

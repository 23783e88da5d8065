//! A draft built event by event, with the order of accesses that each location is to have.

use crate::draft::{Draft, DraftEvent};
use crate::generate::Theme;
use crate::generate_links::{co_of, dependencies, fits, rf_of, values};
use crate::random::Random;
use crate::recording::*;

/// A draft under construction with the order of accesses of each location.
pub struct Shaped {
    pub draft: Draft,
    /// For each location its reads and writes; a read is to read from the latest write before it.
    pub orders: Vec<Vec<u8>>,
}

impl Shaped {
    pub fn new(kind: u8) -> Shaped {
        Shaped { draft: Draft::empty(kind), orders: Vec::new() }
    }

    /// Appends an event to a thread, outside of the order of its location.
    pub fn event(&mut self, thread: usize, class: u8, mode: u8, flag: u8, location: u8) -> u8 {
        self.draft.events.push(DraftEvent { class, mode, flag, location, value: 0 });
        let number = self.draft.events.len() as u8;
        self.draft.threads[thread].push(number);
        number
    }

    /// So many events a thread can still take.
    pub fn room(&self, thread: usize) -> usize {
        most_in_thread(self.draft.kind).saturating_sub(self.draft.threads[thread].len())
    }

    pub fn new_location(&mut self) -> u8 {
        self.orders.push(Vec::new());
        self.orders.len() as u8 - 1
    }

    /// Puts `number` directly before or after `other` in the order of their location.
    pub fn place_beside(&mut self, number: u8, other: u8, after: bool) {
        let order = &mut self.orders[self.draft.event(other).location as usize];
        let place = order.iter().position(|&n| n == other).unwrap();
        order.insert(place + after as usize, number);
    }

    /// A dependency of some type that may end in `to`.
    pub fn depend(&mut self, random: &mut Random, from: u8, to: u8) {
        let types: Vec<u8> = [DATA, ADDR, CTRL, CASDEP].into_iter().filter(|&t| fits(&self.draft, t, to)).collect();
        let link_type = random.pick(&types);
        self.draft.add_link(link_type, from, to);
    }

    /// An exclusive read and a write behind it in a thread, joined by rmw and at times by data.
    pub fn pair(&mut self, random: &mut Random, thread: usize, location: u8, theme: &Theme) -> (u8, u8) {
        let read = self.event(thread, READ, mode_of(random, READ, theme), 1, location);
        let write = self.event(thread, WRITE, mode_of(random, WRITE, theme), 0, location);
        self.join(random, read, write, theme);
        (read, write)
    }

    /// Makes a read and the write directly behind it a pair.
    pub fn join(&mut self, random: &mut Random, read: u8, write: u8, theme: &Theme) {
        self.draft.event_mut(read).flag = 1;
        self.draft.event_mut(write).flag = (self.draft.kind == SOURCE && random.chance(theme.strong)) as u8;
        self.draft.add_link(RMW, read, write);
        if random.chance(30) {
            self.draft.add_link(DATA, read, write);
        }
    }

    /// Draws rf and co from the orders, adds stray links, and numbers events and threads anew at times.
    pub fn finish(self, random: &mut Random, theme: &Theme) -> Draft {
        let Shaped { mut draft, orders } = self;
        draft.locations = orders.len() as u8;
        values(random, &mut draft);
        let drop_co = random.chance(5);
        let drop_rf = random.chance(4);
        for (location, order) in orders.iter().enumerate() {
            let mut order = order.clone();
            // Two neighbours exchanged: another ring, or an order against po.
            if order.len() >= 2 && random.chance(8) {
                let place = random.below(order.len() - 1);
                order.swap(place, place + 1);
            }
            rf_of(random, &mut draft, location as u8, &order, 0, drop_rf);
            let coherence: Vec<u8> = order.iter().copied().filter(|&n| draft.event(n).class == WRITE).collect();
            co_of(random, &mut draft, location as u8, &coherence, drop_co);
        }
        if random.chance(40) {
            dependencies(random, &mut draft, theme.dependencies / 3);
        }
        random.shuffle(&mut draft.threads);
        if random.chance(60) {
            let mut numbers: Vec<u8> = (1..=draft.events.len() as u8).collect();
            random.shuffle(&mut numbers);
            draft.renumber(&numbers);
        }
        draft
    }
}

pub fn mode_of(random: &mut Random, class: u8, theme: &Theme) -> u8 {
    if class == READ {
        random.chance(theme.acquire) as u8
    } else {
        2 * random.chance(theme.release) as u8
    }
}

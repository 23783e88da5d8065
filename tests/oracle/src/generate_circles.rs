//! Random recordings with long rings and short ones beside them: circles of pairs, a read and a write that depends on it or that
//! synchronizes, where each read reads from the write of the pair before.

use crate::draft::Draft;
use crate::generate::Theme;
use crate::random::Random;
use crate::recording::*;
use crate::shaped::Shaped;

/// Each pair writes a location of its own.
const MOST_PAIRS: usize = 8;

pub fn circle_shaped(random: &mut Random, kind: u8, theme: &Theme) -> Draft {
    let mut drawn = Shaped::new(kind);
    let mut left = MOST_PAIRS;
    while left >= 2 && (left == MOST_PAIRS || random.chance(60)) {
        let pairs = random.between(2, left);
        circle(random, &mut drawn, pairs);
        left -= pairs;
    }
    // At times a read that comes too late for what it reads.
    for _ in 0..random.pick(&[0, 0, 0, 1, 2]) {
        let location = random.below(drawn.orders.len()) as u8;
        let read = drawn.event(random.below(4), READ, 0, 0, location);
        drawn.orders[location as usize].insert(0, read);
    }
    drawn.finish(random, theme)
}

/// A circle of so many pairs, no two neighbours in one thread.
fn circle(random: &mut Random, drawn: &mut Shaped, pairs: usize) {
    let synchronizes = random.chance(35);
    let (acquire, release) = if synchronizes { (1, 2) } else { (0, 0) };
    let locations: Vec<u8> = (0..pairs).map(|_| drawn.new_location()).collect();
    let threads = neighbours_differ(random, pairs);
    for pair in 0..pairs {
        let [from, to] = [locations[(pair + pairs - 1) % pairs], locations[pair]];
        let read = drawn.event(threads[pair], READ, acquire, 0, from);
        let write = drawn.event(threads[pair], WRITE, release, 0, to);
        drawn.orders[from as usize].push(read);
        drawn.orders[to as usize].insert(0, write);
        if !synchronizes {
            drawn.draft.add_link(DATA, read, write);
        }
    }
}

/// A thread for each of a circle's places, neighbours in different ones.
fn neighbours_differ(random: &mut Random, places: usize) -> Vec<usize> {
    loop {
        let threads: Vec<usize> = (0..places).map(|_| random.below(4)).collect();
        if (0..places).all(|place| threads[place] != threads[(place + 1) % places]) {
            return threads;
        }
    }
}

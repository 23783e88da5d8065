//! Rings that are lent for a page: any list of bytes, drawn for a file.

use crate::random::Random;
use crate::recording::load;

/// Numbers up to this one are events in some file.
const MOST_EVENTS: u8 = 48;

/// A ring for a file: none, some or all of its events, or the ends of its threads; at times with repeats and with numbers
/// of no recorded event, seldom in a list of very many. A file that does not load, or has no event, gets one as if it had all numbers.
pub fn draw(random: &mut Random, file: &[u8]) -> Vec<u8> {
    let mut threads = load(file).map_or(Vec::new(), |recording| recording.threads);
    threads.retain(|thread| !thread.is_empty());
    if threads.is_empty() {
        threads.push((1..=MOST_EVENTS).collect());
    }
    let events = threads.concat();
    let mut ring = members(random, &threads, &events);
    if random.chance(25) {
        for _ in 0..random.between(1, 4) {
            let again = if ring.is_empty() { random.pick(&events) } else { random.pick(&ring) };
            ring.extend([again, again]);
        }
    }
    let over = events.len() as u8 + 1;
    if random.chance(35) {
        ring.extend((0..random.between(1, 6)).map(|_| junk(random, over)).collect::<Vec<u8>>());
        random.shuffle(&mut ring);
    }
    match random.below(1000) {
        0 => among_junk(random, ring, over, 65_536),
        1..=50 => among_junk(random, ring, over, 255),
        _ => ring,
    }
}

/// Events of the file, each once.
fn members(random: &mut Random, threads: &[Vec<u8>], events: &[u8]) -> Vec<u8> {
    match random.below(100) {
        0..=14 => Vec::new(),
        15..=29 => vec![random.pick(events)],
        30..=59 => {
            let percent = random.pick(&[10, 25, 50, 90]);
            let mut some: Vec<u8> = events.iter().copied().filter(|_| random.chance(percent)).collect();
            random.shuffle(&mut some);
            some
        }
        60..=69 => events.to_vec(),
        // The first or the last event of each thread, or both.
        _ => {
            let (first, last) = random.pick(&[(true, false), (false, true), (true, true)]);
            let ends = |thread: &Vec<u8>| [(first, thread[0]), (last, thread[thread.len() - 1])];
            threads.iter().flat_map(ends).filter(|end| end.0).map(|end| end.1).collect()
        }
    }
}

/// A number of no recorded event; `over` is the smallest number above all of them.
fn junk(random: &mut Random, over: u8) -> u8 {
    match random.below(5) {
        0 => 0,
        1 => over + random.below(3) as u8,
        2 => random.between(49, 55) as u8,
        3 => random.between(56, 63) as u8,
        _ => random.between(64, 255) as u8,
    }
}

/// The ring among so much junk that the list is as long as `many` or longer: behind it, before it, or strewn in it.
fn among_junk(random: &mut Random, ring: Vec<u8>, over: u8, many: usize) -> Vec<u8> {
    let length = many + if random.chance(20) { random.below(3) } else { random.between(45, 745) };
    let junk: Vec<u8> = (0..length).map(|_| junk(random, over)).collect();
    match random.below(3) {
        0 => [junk, ring].concat(),
        1 => [ring, junk].concat(),
        _ => {
            let mut all = [junk, ring].concat();
            random.shuffle(&mut all);
            all
        }
    }
}

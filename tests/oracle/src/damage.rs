//! Files for comparison: recordings that load, translations of such, ones with a thread too long, and damaged ones.
//! And files of full size for the benchmark, whole or damaged.

use crate::draft::Draft;
use crate::generate::{any_kind, draft, draft_of_kind, full, most_events, too_long};
use crate::generate_links::fill;
use crate::random::Random;
use crate::recording::*;
use crate::translation::translate;

/// One file: in three of four cases one that loads.
pub fn any_file(random: &mut Random) -> Vec<u8> {
    match random.below(100) {
        0..=66 => draft(random).to_bytes(random),
        67..=68 => long_draft(random).to_bytes(random),
        69..=74 => {
            // A translation, itself a chip file.
            let source = draft_of_kind(random, SOURCE).to_bytes(random);
            translate(&source).expect("a generated source recording loads")
        }
        75..=86 => {
            let mut damaged = draft_to_damage(random);
            for _ in 0..random.between(1, 2) {
                damage_draft(random, &mut damaged);
            }
            damaged.to_bytes(random)
        }
        87..=97 => {
            let good = draft_to_damage(random).to_bytes(random);
            damage_bytes(random, good)
        }
        _ => random_bytes(random),
    }
}

/// A recording with as many events and links as its kind may have.
pub fn full_file(random: &mut Random, kind: u8) -> Vec<u8> {
    let mut draft = full(random, kind, most_in_thread(kind));
    fill(random, &mut draft);
    draft.to_bytes(random)
}

/// The same damaged: a thread too long, something broken that needs more than one byte, or bytes or the length changed.
pub fn damaged_full_file(random: &mut Random, kind: u8) -> Vec<u8> {
    let damage = random.below(10);
    let mut draft = full(random, kind, if damage == 0 { most_events(kind) } else { most_in_thread(kind) });
    if damage <= 4 {
        damage_draft(random, &mut draft);
    }
    fill(random, &mut draft);
    let file = draft.to_bytes(random);
    if damage <= 4 { file } else { damage_bytes(random, file) }
}

fn long_draft(random: &mut Random) -> Draft {
    let kind = any_kind(random);
    too_long(random, kind)
}

/// Mostly a recording that loads; at times one with a thread too long, so that this meets the damage.
fn draft_to_damage(random: &mut Random) -> Draft {
    if random.chance(12) { long_draft(random) } else { draft(random) }
}

/// Breaks, or at times only changes, something that needs more than one byte.
fn damage_draft(random: &mut Random, draft: &mut Draft) {
    let n = draft.events.len();
    if n == 0 {
        return;
    }
    let any_event = random.between(1, n) as u8;
    match random.below(14) {
        // A link of any type between two events of a thread, mostly neighbours in program order.
        0..=3 => {
            let thread = random.below(4);
            let list = draft.threads[thread].clone();
            if list.len() >= 2 {
                let place = random.below(list.len() - 1);
                let later = if random.chance(60) { place + 1 } else { random.below(list.len()) };
                draft.add_link(random.between(1, 7) as u8, list[place], list[later]);
            }
        }
        // A link of any type between any two events.
        4..=6 => {
            let odd = [0, n as u8 + 1, 55, 56, 57, 63, 64, 255];
            let source = if random.chance(15) { random.pick(&odd) } else { random.between(1, n) as u8 };
            let link_type = if random.chance(8) { random.pick(&[0, 8, 255]) } else { random.between(1, 7) as u8 };
            draft.add_link(link_type, source, any_event);
        }
        // A co link turned round.
        7 => {
            let turned = draft.links.iter().find(|l| l.0 == CO && 1 <= l.1 && l.1 as usize <= n).copied();
            if let Some((_, source, target)) = turned {
                draft.add_link(CO, target, source);
            }
        }
        // A second source for a read.
        8 => {
            let read = draft.links.iter().find(|l| l.0 == RF).copied();
            if let Some((_, _, target)) = read {
                draft.add_link(RF, any_event, target);
            }
        }
        // A strong write.
        9 => draft.event_mut(any_event).flag ^= 1,
        // A link taken away.
        10 if !draft.links.is_empty() => {
            let gone = random.below(draft.links.len());
            draft.links.remove(gone);
        }
        // Another value, location, class or mode.
        11 => {
            let locations = draft.locations as usize;
            let event = draft.event_mut(any_event);
            match random.below(4) {
                0 => event.value ^= random.pick(&[1, 256]),
                1 => event.location = random.below(locations + 1) as u8,
                2 => event.class = random.between(0, 4) as u8,
                _ => event.mode = random.between(0, 8) as u8,
            }
        }
        // The other kind.
        12 => other_kind(random, draft),
        // Two events of a thread exchanged.
        _ => {
            let thread = random.below(4);
            let length = draft.threads[thread].len();
            if length >= 2 {
                let (i, j) = (random.below(length), random.below(length));
                draft.threads[thread].swap(i, j);
            }
        }
    }
}

/// Makes a source draft a chip draft or the other way, fences and strong writes with it.
/// What may then stand against loading: N, M or a thread over the limit, or casdep.
fn other_kind(random: &mut Random, draft: &mut Draft) {
    draft.kind = if draft.kind == SOURCE { CHIP } else { SOURCE };
    for e in &mut draft.events {
        match (draft.kind, e.class) {
            (CHIP, FENCE) => e.mode = if e.mode == 1 { 5 } else { random.pick(&[6, ISB]) },
            (SOURCE, FENCE) => e.mode = if e.mode == 5 { 1 } else { random.pick(&[2, 3, 4]) },
            (CHIP, WRITE) => e.flag = 0,
            _ => {}
        }
    }
}

/// Changes bytes or the length.
fn damage_bytes(random: &mut Random, mut file: Vec<u8>) -> Vec<u8> {
    match random.below(10) {
        0..=6 => {
            for _ in 0..random.pick(&[1, 1, 1, 2, 3]) {
                // The header is hit more often than its share of the bytes.
                let place = if random.chance(15) { random.below(8) } else { random.below(file.len()) };
                let old = file[place];
                file[place] = match random.below(5) {
                    0 => old.wrapping_add(1),
                    1 => old.wrapping_sub(1),
                    2 => old ^ (1 << random.below(8)),
                    3 => random.below(10) as u8,
                    _ => random.byte(),
                };
            }
        }
        7 => file.truncate(random.below(file.len())),
        8 => {
            for _ in 0..random.pick(&[1, 1, 4, 8, 100]) {
                let more = random.byte();
                file.push(more);
            }
        }
        _ => {
            let place = random.below(file.len());
            file.remove(place);
        }
    }
    file
}

/// Bytes at random, at times with a header of the right length.
fn random_bytes(random: &mut Random) -> Vec<u8> {
    if random.chance(50) {
        let length = random.pick(&[0, 1, 7, 8, 9, 12, 16, 20, 64, 300]);
        return (0..length).map(|_| random.byte()).collect();
    }
    let (n, m) = (random.between(0, 4), random.between(0, 4));
    let mut file = vec![random.between(1, 2) as u8, n as u8, random.between(0, 2) as u8, m as u8];
    for _ in 4..8 + 8 * n + 4 * m {
        file.push(random.between(0, 3) as u8);
    }
    file
}

//! The translation of a source recording to a chip recording, and its bytes.
//! Assumes a source recording that loads.

use super::recording::*;
use super::relation::{members, single, Relation};

/// The translation of a source recording that loads.
pub fn translate(source: &Recording) -> Recording {
    let mut chip = source.clone();
    chip.kind = CHIP;
    for e in 1..=source.count {
        let old = &source.events[e];
        match old.class {
            FENCE => chip.events[e].mode = if old.mode == 1 { 5 } else { 6 },
            WRITE if old.flag == 1 => {
                chip.events[e].flag = 0;
                chip.count += 1;
                chip.events[e].next = chip.count as u8;
                chip.events[chip.count] = Event { next: old.next, class: FENCE, mode: 5, ..Event::default() };
            }
            _ => {}
        }
    }
    add_ctrl(source, &mut chip);
    chip.sources[CASDEP] = Relation::empty();
    chip
}

/// The ctrl links of exclusive reads, and those that casdep links become.
fn add_ctrl(source: &Recording, chip: &mut Recording) {
    let mut add = |from: usize, after: usize| {
        let to = chip.events[after].next as usize;
        if to != 0 {
            chip.sources[CTRL][to] |= single(from);
        }
    };
    for r in 1..=source.count {
        let event = &source.events[r];
        if event.class != READ || event.flag != 1 {
            continue;
        }
        let write = event.next as usize;
        let both = source.sources[RMW][write] & source.sources[DATA][write] & single(r);
        add(r, if both != 0 { write } else { r });
        for q in members(source.sources[CASDEP][r]) {
            add(q, r);
        }
    }
}

/// How many bytes a recording has, each of its links written once.
pub fn size(recording: &Recording) -> usize {
    let into = |e: usize| recording.sources.iter().map(move |type_sources| type_sources[e].count_ones() as usize);
    8 + 8 * recording.count + 4 * (1..=recording.count).flat_map(into).sum::<usize>()
}

/// Writes a recording, its links by target, type and source. The output has its size.
pub fn write(recording: &Recording, out: &mut [u8]) {
    let (head, rest) = out.split_at_mut(8);
    let (event_part, link_part) = rest.split_at_mut(8 * recording.count);
    let links = link_part.len() / 4;
    head[..4].copy_from_slice(&[recording.kind, recording.count as u8, recording.locations, links as u8]);
    head[4..].copy_from_slice(&recording.heads);
    let mut written = 0;
    for (index, record) in event_part.chunks_exact_mut(8).enumerate() {
        let e = index + 1;
        let before = written;
        for link_type in RF..=CASDEP {
            for source in members(recording.sources[link_type][e]) {
                let number = written + 1;
                link_part[4 * written..4 * number].copy_from_slice(&[number as u8 + 1, link_type as u8, source as u8, 0]);
                written = number;
            }
        }
        let mut first = 0;
        if written > before {
            first = before as u8 + 1;
            // The last link into an event ends its chain.
            link_part[4 * (written - 1)] = 0;
        }
        let event = &recording.events[e];
        let [low, high] = event.value.to_le_bytes();
        record.copy_from_slice(&[event.next, event.class, event.mode, event.flag, event.location, low, high, first]);
    }
}

//! The translation of a source file to a chip file (01, "The translation"; 003, Definition 4.4).

use crate::recording::*;
use std::collections::BTreeSet;

/// The translation's bytes, or the number of the refusal: that of loading, or 11 for a chip file.
pub fn translate(file: &[u8]) -> Result<Vec<u8>, u8> {
    let source = load(file)?;
    if source.kind != SOURCE {
        return Err(11);
    }
    let mut events = translated_events(&source);
    let links = translated_links(&source, &events);

    // Links are numbered by target, type, source, and chained in that order.
    for event in &mut events {
        event.first_link = 0;
    }
    let mut link_bytes = Vec::new();
    let ordered: Vec<(u8, u8, u8)> = links.into_iter().collect();
    for (index, &(target, link_type, origin)) in ordered.iter().enumerate() {
        let number = index as u8 + 1;
        let first = &mut events[target as usize - 1].first_link;
        if *first == 0 {
            *first = number;
        }
        let follower_shares_target = ordered.get(index + 1).is_some_and(|l| l.0 == target);
        let next = if follower_shares_target { number + 1 } else { 0 };
        link_bytes.extend([next, link_type, origin, 0]);
    }

    let mut chip = vec![CHIP, events.len() as u8, source.locations, ordered.len() as u8];
    chip.extend(source.heads);
    for e in &events {
        let [low, high] = e.value.to_le_bytes();
        chip.extend([e.next, e.class, e.mode, e.flag, e.location, low, high, e.first_link]);
    }
    chip.extend(link_bytes);
    Ok(chip)
}

/// The event records with the new fences chained in; the first links are left for the caller.
fn translated_events(source: &Recording) -> Vec<Event> {
    let mut events = source.events.clone();
    for number in 1..=source.events.len() as u8 {
        let old = source.event(number);
        let new = &mut events[number as usize - 1];
        if old.class == FENCE {
            new.mode = if old.mode == 1 { 5 } else { 6 };
        }
        if old.class == WRITE && old.flag == 1 {
            // A strong write: its flag becomes 0 and a fence of mode 5 follows it.
            new.flag = 0;
            let next = old.next;
            events.push(Event { next, class: FENCE, mode: 5, flag: 0, location: 0, value: 0, first_link: 0 });
            events[number as usize - 1].next = events.len() as u8;
        }
    }
    events
}

/// The links as a set of (target, type, source), which keeps the order asked for.
fn translated_links(source: &Recording, chip_events: &[Event]) -> BTreeSet<(u8, u8, u8)> {
    let old = source.link_triples();
    let after = |e: u8| chip_events[e as usize - 1].next;
    let mut links = BTreeSet::new();
    let mut add_ctrl = |from: u8, to: u8| {
        if to != 0 {
            links.insert((to, CTRL, from));
        }
    };
    for r in 1..=source.events.len() as u8 {
        let event = source.event(r);
        if event.class == READ && event.flag == 1 {
            // The write that r has both rmw and data to.
            let pair = old.iter().find(|&&(t, s, w)| t == RMW && s == r && old.contains(&(DATA, r, w)));
            match pair {
                Some(&(_, _, w)) => add_ctrl(r, after(w)),
                None => add_ctrl(r, after(r)),
            }
        }
    }
    for &(link_type, q, e) in &old {
        if link_type == CASDEP {
            add_ctrl(q, after(e));
        }
    }
    for &(link_type, origin, target) in &old {
        if link_type <= CTRL {
            links.insert((target, link_type, origin));
        }
    }
    links
}

//! Renumbered copies of files that load, drawn at random: the same recording with other numbers of events and threads, links repeated or
//! not, and links in another order (02, slip 7, calls such files twins).

use crate::draft::Draft;
use crate::random::Random;
use crate::recording::load;
use std::collections::BTreeSet;

/// A renumbered copy of a file, or the number of its refusal.
pub fn renumber(random: &mut Random, file: &[u8]) -> Result<Vec<u8>, u8> {
    let mut draft = Draft::of(&load(file)?);
    let mut numbers: Vec<u8> = (1..=draft.events.len() as u8).collect();
    random.shuffle(&mut numbers);
    draft.renumber(&numbers);
    random.shuffle(&mut draft.threads);
    repeat_otherwise(random, &mut draft);
    Ok(draft.to_bytes(random))
}

/// Often drops the repeats of links, and often repeats some, at times up to the limit of M.
fn repeat_otherwise(random: &mut Random, draft: &mut Draft) {
    if random.chance(60) {
        let once: BTreeSet<(u8, u8, u8)> = draft.links.drain(..).collect();
        draft.links.extend(once);
    }
    let wanted = match random.below(100) {
        _ if draft.links.is_empty() => 0,
        0..=4 => draft.most_links(),
        5..=44 => random.between(1, 6),
        _ => 0,
    };
    for _ in 0..wanted {
        let (link_type, source, target) = random.pick(&draft.links);
        draft.add_link(link_type, source, target);
    }
}

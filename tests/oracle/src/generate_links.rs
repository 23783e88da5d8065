//! Links of random recordings: values, rf and co from the order of a location's accesses, dependencies, repeats.

use crate::draft::Draft;
use crate::random::Random;
use crate::recording::*;

/// Values around the limits of a byte, and around those of each number of decimal digits.
const WIDE: [u16; 14] = [0, 1, 9, 10, 99, 100, 255, 256, 257, 999, 1000, 9999, 10000, 65535];

/// Gives reads and writes small values, at times values that need both bytes and up to five digits.
pub fn values(random: &mut Random, draft: &mut Draft) {
    let wide = random.chance(15);
    for e in draft.events.iter_mut().filter(|e| e.class != FENCE) {
        e.value = if wide { random.pick(&WIDE) } else { random.below(4) as u16 };
    }
}

/// Each read of `order` reads from the latest write before it, or in `astray` percent from any write of the location.
/// With `drop`, some reads are left without rf.
pub fn rf_of(random: &mut Random, draft: &mut Draft, location: u8, order: &[u8], astray: usize, drop: bool) {
    let mut sources: Vec<u8> = order.iter().copied().filter(|&n| draft.event(n).class == WRITE).collect();
    sources.push(INITIAL + location);
    let mut latest = INITIAL + location;
    for &n in order {
        if draft.event(n).class == WRITE {
            latest = n;
            continue;
        }
        let source = if random.chance(astray) { random.pick(&sources) } else { latest };
        if drop && random.chance(30) {
            continue;
        }
        draft.event_mut(n).value = if source >= INITIAL { 0 } else { draft.event(source).value };
        draft.add_link(RF, source, n);
    }
}

/// co as neighbouring links, with more of its pairs and links from the initial write at times.
/// With `drop`, pairs at random only.
pub fn co_of(random: &mut Random, draft: &mut Draft, location: u8, coherence: &[u8], drop: bool) {
    let all_pairs = random.chance(30);
    let from_initial = random.chance(30);
    for (i, &later) in coherence.iter().enumerate() {
        for (j, &earlier) in coherence[..i].iter().enumerate() {
            let wanted = if drop { random.chance(50) } else { j + 1 == i || all_pairs && random.chance(80) };
            if wanted && draft.links.len() < 150 {
                draft.add_link(CO, earlier, later);
            }
        }
        if from_initial && random.chance(50) {
            draft.add_link(CO, INITIAL + location, later);
        }
    }
}

/// data, addr, ctrl and casdep links along program order, about `percent` of those between neighbours; ctrl into an isb more often.
pub fn dependencies(random: &mut Random, draft: &mut Draft, percent: usize) {
    let near = random.chance(50);
    for thread in draft.threads.clone() {
        for (place, &from) in thread.iter().enumerate() {
            if draft.event(from).class != READ {
                continue;
            }
            for (distance, &to) in thread[place + 1..].iter().enumerate() {
                let reach = if near { 1 + distance } else { 1 + distance / 3 };
                for link_type in [DATA, ADDR, CTRL, CASDEP] {
                    let wanted = match link_type {
                        DATA if draft.has_link(RMW, from, to) => 40,
                        CASDEP => 10 + percent / reach,
                        CTRL if draft.is_isb(to) => 20 + percent / reach,
                        CTRL => percent / (2 * reach),
                        _ => percent / reach,
                    };
                    if fits(draft, link_type, to) && random.chance(wanted) {
                        draft.add_link(link_type, from, to);
                    }
                }
            }
        }
    }
}

/// Whether a dependency of this type from a po-earlier read may end in `to`.
pub fn fits(draft: &Draft, link_type: u8, to: u8) -> bool {
    let target = draft.event(to);
    match link_type {
        DATA => target.class == WRITE,
        ADDR => target.class != FENCE,
        CTRL => true,
        _ => draft.kind == SOURCE && target.class == READ && target.flag == 1,
    }
}

/// Repeats some links, at times up to the limit of M.
pub fn repeats(random: &mut Random, draft: &mut Draft) {
    if draft.links.is_empty() {
        return;
    }
    let wanted = match random.below(100) {
        0..=1 => draft.most_links(),
        2..=3 => random.between(0, draft.most_links()),
        4..=20 => random.between(1, 6),
        _ => 0,
    };
    repeat(random, draft, wanted);
}

/// Repeats links up to the limit of M.
pub fn fill(random: &mut Random, draft: &mut Draft) {
    repeat(random, draft, draft.most_links());
}

/// Repeats so many links, up to the limit of M. Assumes that there is one.
fn repeat(random: &mut Random, draft: &mut Draft, times: usize) {
    for _ in 0..times {
        let again = random.pick(&draft.links);
        draft.add_link(again.0, again.1, again.2);
    }
}

//! The oracle's renumbered copies and its check of them: pairs made by hand, drawn copies, copies with one thing altered, and small files
//! by brute force.

use crate::altered::{apply, MOVES, OTHERWISE};
use crate::damage::any_file;
use crate::handmade::bytes;
use crate::hex::to_hex;
use crate::random::Random;
use crate::recording::*;
use crate::renumber::renumber;
use crate::renumbered::renumbered;
use crate::selftest::Tally;
use crate::shown::verdicts;
use crate::translation::translate;
use crate::worked_numbering::{copy, ALTERED, FILE, OTHERS, REFUSED, SAME};
use std::collections::BTreeSet;

pub fn run(tally: &mut Tally) {
    worked(tally);
    drawn_copies(tally);
    altered_copies(tally);
    small_files(tally);
}

/// Tests what the check says of two files, whichever is first.
fn pair(tally: &mut Tally, name: &str, one: &[u8], other: &[u8], wanted: bool) {
    let got = [renumbered(one, other), renumbered(other, one)];
    tally.test(name, got == [wanted; 2], || format!("{got:?}: {} {}", to_hex(one), to_hex(other)));
}

fn loads(tally: &mut Tally, name: &str, file: &[u8]) {
    tally.test(name, load(file).is_ok(), || format!("does not load: {}", to_hex(file)));
}

/// The pairs made by hand. Those that differ load, so that they differ by what their name says.
fn worked(tally: &mut Tally) {
    for (name, one, other) in SAME {
        pair(tally, name, &bytes(one), &bytes(other), true);
    }
    for (name, one, other) in OTHERS {
        [one, other].iter().for_each(|file| loads(tally, name, &bytes(file)));
        pair(tally, name, &bytes(one), &bytes(other), false);
    }
    for (name, one, other) in REFUSED {
        tally.test(name, load(&bytes(other)).is_err(), || "loads".into());
        pair(tally, name, &bytes(one), &bytes(other), false);
    }
    let file = bytes(FILE);
    pair(tally, "all numbers", &file, &copy().file(), true);
    for (name, alter) in ALTERED {
        let mut altered = copy();
        alter(&mut altered);
        let bytes = altered.file();
        loads(tally, name, &bytes);
        pair(tally, name, &file, &bytes, false);
        pair(tally, name, &bytes, &altered.backward().file(), true);
    }
}

/// A drawn file that loads.
fn drawn(random: &mut Random) -> (Vec<u8>, Recording) {
    loop {
        let file = any_file(random);
        if let Ok(recording) = load(&file) {
            return (file, recording);
        }
    }
}

/// What a copy has for a recording: its name, of 5,000 drawn ones at the least so many have it, and the test.
const SORTS: [(&str, usize, fn(&Recording, &Recording) -> bool); 8] = [
    ("other events in its threads", 4500, |one, copy| threads(one) != threads(copy)),
    ("an empty thread elsewhere", 2500, |one, copy| one.heads.map(|head| head == 0) != copy.heads.map(|head| head == 0)),
    ("the next field of some event other than the next number", 4000, |_, copy| {
        copy.threads.iter().any(|thread| thread.windows(2).any(|w| w[1] != w[0] + 1))
    }),
    ("more links", 1500, |one, copy| copy.links.len() > one.links.len()),
    ("fewer links", 400, |one, copy| copy.links.len() < one.links.len()),
    ("as many links", 1500, |one, copy| copy.links.len() == one.links.len()),
    ("all links that there may be", 150, |_, copy| copy.links.len() == if copy.kind == SOURCE { 200 } else { 255 }),
    ("a chain of links that does not rise", 1000, |_, copy| {
        copy.links.iter().enumerate().any(|(index, link)| link.next != 0 && link.next as usize <= index)
    }),
];

fn threads(recording: &Recording) -> BTreeSet<&Vec<u8>> {
    recording.threads.iter().collect()
}

/// Drawn copies load and are found to be copies. The oracle's verdicts on them have the same rules and show as many events, and
/// translations of source copies are copies again. Copies are of every sort.
fn drawn_copies(tally: &mut Tally) {
    let mut random = Random::new(9);
    let mut found = [0; SORTS.len()];
    for _ in 0..5000 {
        let (file, recording) = drawn(&mut random);
        let other = renumber(&mut random, &file).expect("a file that loads has copies");
        loads(tally, "a drawn copy", &other);
        pair(tally, "a drawn copy", &file, &other, true);
        let shown = |file| verdicts(file).map(|list| list.iter().map(|v| (v.rule, v.events.len())).collect::<Vec<_>>());
        tally.test("verdicts on a drawn copy", shown(&file) == shown(&other), || format!("{} {}", to_hex(&file), to_hex(&other)));
        match [&file, &other].map(|file| translate(file)) {
            [Ok(one), Ok(two)] => pair(tally, "translations of a drawn copy", &one, &two, true),
            refused => tally.test("translations of a drawn copy", refused == [Err(11), Err(11)], || format!("{refused:?}")),
        }
        let Ok(copied) = load(&other) else { continue };
        for (count, (_, _, holds)) in found.iter_mut().zip(SORTS) {
            *count += holds(&recording, &copied) as usize;
        }
    }
    for (count, (name, least, _)) in found.into_iter().zip(SORTS) {
        tally.test("drawn copies", count >= least, || format!("{name}: {count} copies, not {least}"));
    }
}

/// A copy with one thing altered that no renumbering makes good is found to be none.
fn altered_copies(tally: &mut Tally) {
    let mut random = Random::new(10);
    for (name, least, alter) in OTHERWISE {
        let mut tried = 0;
        for _ in 0..1000 {
            let (file, _) = drawn(&mut random);
            let other = renumber(&mut random, &file).expect("a file that loads has copies");
            if let Some(altered) = apply(&mut random, &other, alter) {
                tried += 1;
                pair(tally, name, &file, &altered, false);
            }
        }
        tally.test(name, tried >= least, || format!("{tried} copies altered, not {least}"));
    }
}

/// Files of at most so many events are compared by brute force.
const SMALL: usize = 5;

/// Small files and copies of them, with something moved in most: the check agrees with brute force.
fn small_files(tally: &mut Tally) {
    let mut random = Random::new(11);
    let orders: Vec<Vec<Vec<u8>>> = (0..=SMALL).map(orders).collect();
    for (name, least, alter) in MOVES {
        let mut found = [0; 2];
        for _ in 0..20_000 {
            let (file, recording) = drawn(&mut random);
            if recording.events.len() > SMALL {
                continue;
            }
            let other = renumber(&mut random, &file).expect("a file that loads has copies");
            let Some(moved) = apply(&mut random, &other, alter) else { continue };
            let wanted = load(&moved).is_ok_and(|moved| by_definition(&recording, &moved, &orders[recording.events.len()]));
            found[wanted as usize] += 1;
            pair(tally, name, &file, &moved, wanted);
        }
        let enough = found.iter().zip(least).all(|(&count, least)| count >= least);
        tally.test(name, enough, || format!("{found:?} pairs that differ and that do not, not {least:?}"));
    }
}

/// Every order of the numbers 1 to n.
fn orders(n: usize) -> Vec<Vec<u8>> {
    (1..=n as u8).fold(vec![vec![]], |shorter, last| {
        let places = |order: Vec<u8>| (0..=order.len()).map(move |place| [&order[..place], &[last], &order[place..]].concat());
        shorter.into_iter().flat_map(places).collect()
    })
}

/// By the definition, for recordings of as many events: some numbering of the events, event n is `order[n - 1]`, makes of the fields of one
/// those of the other, and of the heads, in whatever order, the heads.
fn by_definition(one: &Recording, other: &Recording, orders: &[Vec<u8>]) -> bool {
    let sorted = |mut heads: [u8; 4]| {
        heads.sort();
        heads
    };
    let links: BTreeSet<(u8, u8, u8)> = other.link_triples().into_iter().collect();
    one.kind == other.kind
        && one.locations == other.locations
        && orders.iter().any(|order| {
            let new = |n: u8| if n == 0 || n >= INITIAL { n } else { order[n as usize - 1] };
            let fits = |(e, &theirs): (&Event, &u8)| {
                let their = other.event(theirs);
                new(e.next) == their.next
                    && [e.class, e.mode, e.flag, e.location] == [their.class, their.mode, their.flag, their.location]
                    && e.value == their.value
            };
            one.events.iter().zip(order).all(fits)
                && sorted(one.heads.map(new)) == sorted(other.heads)
                && one.link_triples().into_iter().map(|(t, s, e)| (t, new(s), new(e))).collect::<BTreeSet<_>>() == links
        })
}

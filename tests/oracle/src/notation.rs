//! Recordings written in a line, for boundary files: `W x 1; Wrel y 1 || Racq y 1; R x 0`. Threads are parted by `||`, events by `;`, and
//! numbered as they stand. An access names its set of 003, its location and its value, a fence its set alone. The values say what reads
//! and overwrites what: a read of 0 reads the initial write, of another value the only write of it, and co goes by ascending value.
//! Other links are written out: `data 1 2, rmw 3 4`.

use crate::sketch::*;

/// Class, mode and flag.
const SETS: [(&str, [u8; 3]); 15] = [
    ("R", [READ, RELAXED, 0]),
    ("Racq", [READ, ACQUIRE, 0]),
    ("Rex", [READ, RELAXED, 1]),
    ("Racqex", [READ, ACQUIRE, 1]),
    ("W", [WRITE, RELAXED, 0]),
    ("Wrel", [WRITE, RELEASE, 0]),
    ("Wstrong", [WRITE, RELAXED, 1]),
    ("Wrelstrong", [WRITE, RELEASE, 1]),
    ("Facq", [FENCE, 1, 0]),
    ("Frel", [FENCE, 2, 0]),
    ("Facqrel", [FENCE, 3, 0]),
    ("Fsc", [FENCE, 4, 0]),
    ("Fld", [FENCE, 5, 0]),
    ("Fsy", [FENCE, 6, 0]),
    ("Fisb", [FENCE, 7, 0]),
];
const LOCATIONS: [&str; 5] = ["x", "y", "z", "u", "v"];
const LINKS: [(&str, u8); 5] = [("rmw", RMW), ("data", DATA), ("addr", ADDR), ("ctrl", CTRL), ("casdep", CASDEP)];

/// The recording of a kind that has these threads and, beside rf and co, these links.
pub fn written(kind: u8, threads: &str, links: &str) -> Sketch {
    let mut sketch = Sketch::new(kind);
    for (thread, events) in threads.split(" || ").enumerate() {
        events.split("; ").for_each(|event| put_event(&mut sketch, thread, event));
    }
    by_values(&mut sketch);
    for link in links.split(", ").filter(|link| !link.is_empty()) {
        put_link(&mut sketch, link);
    }
    sketch
}

/// The value that a word stands for in a table.
fn looked_up<T: Copy>(table: &[(&str, T)], word: &str) -> T {
    table.iter().find(|row| row.0 == word).unwrap_or_else(|| panic!("`{word}` is not written so")).1
}

fn digits(word: &str) -> u8 {
    word.parse().unwrap_or_else(|_| panic!("`{word}` is no number"))
}

fn put_event(sketch: &mut Sketch, thread: usize, text: &str) {
    let words: Vec<&str> = text.split(' ').collect();
    let [class, mode, flag] = looked_up(&SETS, words[0]);
    let (location, value) = match words[1..] {
        [] if class == FENCE => (0, 0),
        [name, value] if class != FENCE => (LOCATIONS.iter().position(|&l| l == name).expect("a location") as u8, digits(value)),
        _ => panic!("`{text}` is no event"),
    };
    if class != FENCE {
        sketch.locations = sketch.locations.max(location + 1);
    }
    let number = sketch.event(thread, class, mode, location, value);
    if flag == 1 {
        sketch.set_flag(number);
    }
}

/// Gives a sketch the links rf and co.
fn by_values(sketch: &mut Sketch) {
    let accesses: Vec<(u8, [u8; 5])> = (1..).zip(sketch.events.clone()).filter(|access| access.1[0] != FENCE).collect();
    for &(target, [class, _, _, location, value]) in &accesses {
        let here = accesses.iter().filter(|(_, other)| other[0] == WRITE && other[3] == location);
        if class == READ {
            let mut sources: Vec<u8> = here.filter(|(_, write)| write[4] == value).map(|write| write.0).collect();
            if value == 0 {
                sources.push(56 + location);
            }
            assert_eq!(sources.len(), 1, "read {target} reads from one write");
            sketch.link(RF, sources[0], target);
        } else {
            here.filter(|(_, earlier)| earlier[4] < value).for_each(|earlier| sketch.link(CO, earlier.0, target));
        }
    }
}

fn put_link(sketch: &mut Sketch, text: &str) {
    let words: Vec<&str> = text.split(' ').collect();
    let [link_type, source, target] = words[..] else { panic!("`{text}` is no link") };
    sketch.link(looked_up(&LINKS, link_type), digits(source), digits(target));
}

//! The printed page (02, slip 2): one block per thread, one line per event in chain order.

use crate::recording::{load, Event, FENCE, READ};

/// A page has so many blocks beside each other, one per thread.
const BLOCKS: usize = 4;
/// So many columns has a block.
const BLOCK: usize = 20;
/// The bytes of a line: its columns and a line feed.
pub const LINE: usize = BLOCKS * BLOCK + 1;

/// The page's bytes, or the number of the refusal: that of loading.
pub fn page(file: &[u8], ring: &[u8]) -> Result<Vec<u8>, u8> {
    let recording = load(file)?;
    assert_eq!(recording.threads.len(), BLOCKS, "a thread has its block");
    let longest = recording.threads.iter().map(|thread| thread.len()).max().unwrap_or(0);
    let mut text = String::new();
    for line in 0..longest {
        for thread in &recording.threads {
            text += &match thread.get(line) {
                Some(&n) => block(n, recording.event(n), ring.contains(&n)),
                None => " ".repeat(BLOCK),
            };
        }
        text.push('\n');
    }
    assert_eq!(text.len(), longest * LINE, "a line has all its columns");
    Ok(text.into_bytes())
}

/// The block of event n. A fence leaves location and value as spaces.
fn block(n: u8, event: &Event, in_ring: bool) -> String {
    let class = match event.class {
        READ => 'R',
        FENCE => 'F',
        _ => 'W',
    };
    let (location, value) = match event.class {
        FENCE => (String::new(), String::new()),
        _ => (event.location.to_string(), event.value.to_string()),
    };
    let star = if in_ring { '*' } else { ' ' };
    // Columns 1 to 2, 4, 5, 6, 8, 10 to 14 and 16; the others are spaces.
    format!("{n:>2} {class}{}{} {location:>1} {value:>5} {star}    ", event.mode, event.flag)
}

//! Random source recordings built around store buffering: in each thread a write, then a read of what another thread writes, and between
//! them what orders the two under x86-TSO, or something near it.

use crate::draft::Draft;
use crate::generate::Theme;
use crate::random::Random;
use crate::recording::*;
use crate::shaped::{mode_of, Shaped};

/// What stands in a thread.
#[derive(Clone, Copy, PartialEq)]
enum By {
    ScFence,
    /// A pair of a location of its own.
    Pair,
    /// The write is a pair's.
    PairFirst,
    /// The read is a pair's.
    PairLast,
    /// A write in place of the read.
    WriteLast,
    /// Nothing that orders the write before the read.
    Nothing,
}
use By::*;

pub fn buffer_shaped(random: &mut Random, theme: &Theme) -> Draft {
    let mut drawn = Shaped::new(SOURCE);
    let threads = random.pick(&[2, 2, 2, 3, 4]);
    let locations: Vec<u8> = (0..threads).map(|_| drawn.new_location()).collect();
    // In no thread, in one or in any the write may come behind the read.
    let open = random.below(2 * threads);
    let anyhow = random.chance(15);
    for thread in 0..threads {
        let orders = random.pick(&[ScFence, Pair, PairFirst, PairFirst, PairLast, WriteLast]);
        let by = if thread == open || anyhow && random.chance(50) { Nothing } else { orders };
        buffer(random, &mut drawn, thread, [locations[thread], locations[(thread + 1) % threads]], by, theme);
    }
    drawn.finish(random, theme)
}

/// A thread that writes its own location and then reads or writes the next thread's, before that thread's write.
fn buffer(random: &mut Random, drawn: &mut Shaped, thread: usize, [own, next]: [u8; 2], by: By, theme: &Theme) {
    let first = access(random, drawn, thread, WRITE, own, by == PairFirst, theme);
    drawn.orders[own as usize].extend(first);
    let forwards = random.chance(30);
    if forwards && random.chance(50) {
        own_read(random, drawn, thread, own, theme);
    }
    let before = random.chance(50);
    if before {
        no_help(random, drawn, thread, theme);
    }
    match by {
        Pair if has_location(drawn) => {
            let location = drawn.new_location();
            let (read, write) = drawn.pair(random, thread, location, theme);
            drawn.orders[location as usize].extend([read, write]);
        }
        ScFence | Pair => {
            drawn.event(thread, FENCE, 4, 0, 0);
        }
        _ => {}
    }
    if !before {
        no_help(random, drawn, thread, theme);
    }
    if forwards && random.chance(50) {
        own_read(random, drawn, thread, own, theme);
    }
    let class = if by == WriteLast { WRITE } else { READ };
    let last = access(random, drawn, thread, class, next, by == PairLast, theme);
    drawn.orders[next as usize].splice(0..0, last);
}

/// A read or a write, or the pair that it is of; a read that is no pair's is exclusive at times.
fn access(random: &mut Random, drawn: &mut Shaped, thread: usize, class: u8, location: u8, pair: bool, theme: &Theme) -> Vec<u8> {
    if pair {
        let (read, write) = drawn.pair(random, thread, location, theme);
        return vec![read, write];
    }
    let flag = (class == READ && random.chance(20)) as u8;
    vec![drawn.event(thread, class, mode_of(random, class, theme), flag, location)]
}

fn has_location(drawn: &Shaped) -> bool {
    drawn.orders.len() < 8
}

/// A read of the thread's own write.
fn own_read(random: &mut Random, drawn: &mut Shaped, thread: usize, own: u8, theme: &Theme) {
    let read = access(random, drawn, thread, READ, own, false, theme);
    drawn.orders[own as usize].extend(read);
}

/// At times what does not order a write before a read: a fence of modes 1 to 3, or an exclusive read that failed.
fn no_help(random: &mut Random, drawn: &mut Shaped, thread: usize, theme: &Theme) {
    match random.below(6) {
        0..=1 => {
            drawn.event(thread, FENCE, random.between(1, 3) as u8, 0, 0);
        }
        2 if has_location(drawn) => {
            let location = drawn.new_location();
            let read = drawn.event(thread, READ, mode_of(random, READ, theme), 1, location);
            drawn.orders[location as usize].push(read);
        }
        _ => {}
    }
}

//! Random recordings built around message passing: a release, a release sequence through pairs, an acquire,
//! and an access behind it that goes against an access before the release.

use crate::draft::Draft;
use crate::generate::Theme;
use crate::random::Random;
use crate::recording::*;
use crate::shaped::{mode_of, Shaped};

pub fn sync_shaped(random: &mut Random, kind: u8, theme: &Theme) -> Draft {
    let mut sync = Shaped::new(kind);
    let data = sync.new_location();
    let flag = sync.new_location();

    // Thread 0: an access of the data, a release fence or write, writes of the flag.
    let before_class = random.pick(&[WRITE, WRITE, READ]);
    let before = sync.event(0, before_class, 0, 0, data);
    let fenced = random.chance(40);
    if fenced {
        let modes: &[u8] = if kind == SOURCE { &[2, 3, 4] } else { &[6] };
        sync.event(0, FENCE, random.pick(modes), 0, 0);
    }
    let mode = if fenced { mode_of(random, WRITE, theme) } else { 2 * random.chance(85) as u8 };
    let release = sync.event(0, WRITE, mode, 0, flag);
    sync.orders[flag as usize].push(release);
    let mut thread = 0;
    another_write(random, &mut sync, thread, flag);

    // Pairs, each reading from the write before it, in the thread of the one before or another.
    for _ in 0..random.pick(&[0, 1, 1, 2, 2, 3]) {
        thread = if random.chance(35) { thread } else { random.between(1, 3) };
        let (read, write) = sync.pair(random, thread, flag, theme);
        sync.orders[flag as usize].extend([read, write]);
        another_write(random, &mut sync, thread, flag);
    }

    // An acquire read of the flag, or a read and an acquire fence; in a chip also ctrl and an isb.
    if thread == 0 || random.chance(50) {
        thread = random.between(1, 3);
    }
    let acquire = random.chance(55);
    let read = sync.event(thread, READ, acquire as u8, random.chance(theme.exclusive) as u8, flag);
    sync.orders[flag as usize].push(read);
    if !acquire && random.chance(80) {
        let modes: &[u8] = if kind == SOURCE { &[1, 3, 4] } else { &[5, 6, ISB, ISB] };
        let fence = sync.event(thread, FENCE, random.pick(modes), 0, 0);
        if sync.draft.is_isb(fence) && random.chance(70) {
            sync.draft.add_link(CTRL, read, fence);
        }
    }

    // An access of the data that comes before the first one in the order of the location.
    let after_class = random.pick(&[READ, READ, WRITE]);
    let after = sync.event(thread, after_class, mode_of(random, after_class, theme), 0, data);
    sync.orders[data as usize].push(after);
    if before_class == READ {
        // The first access reads from a write of some thread, which comes between.
        let between = sync.event(random.between(1, 3), WRITE, 0, 0, data);
        sync.orders[data as usize].push(between);
    }
    sync.orders[data as usize].push(before);
    if random.chance(15) {
        sync.orders[data as usize].reverse();
    }
    sync.finish(random, theme)
}

/// At times another relaxed write of the flag in the same thread.
/// Room is kept for the last four: a read, a fence and two accesses of the data.
fn another_write(random: &mut Random, sync: &mut Shaped, thread: usize, flag: u8) {
    if random.chance(30) && sync.room(thread) > 4 {
        let again = sync.event(thread, WRITE, 0, 0, flag);
        sync.orders[flag as usize].push(again);
    }
}

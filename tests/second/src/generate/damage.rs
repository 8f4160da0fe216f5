//! Benches that no log has led to: changed but sound ones, and damaged ones.

use super::random::Random;
use super::text::SHOWN;
use crate::bench::*;

/// A sound bench with other holds, depths, errors or ignore flags; the bench
/// itself if no change is sound.
pub fn changed(random: &mut Random, bench: &Bench) -> Bench {
    for _ in 0..10 {
        let mut other = bench.clone();
        for _ in 0..random.from_to(1, 6) {
            change_once(random, &mut other);
        }
        if other.sound() {
            return other;
        }
    }
    bench.clone()
}

fn change_once(random: &mut Random, bench: &mut Bench) {
    let device = random.below(u64::from(bench.n)) as usize;
    match random.below(8) {
        0..=2 => bench.holds[device] = random.one_of(&[0, 1, 32_765, 32_766, 32_767, 32_767]),
        3 | 4 => bench.depth[device] = random.one_of(&[0, 0, 1, 253, 254, 255, 255]),
        5 => bench.error[device] = random.one_of(&[0, 5, 4_095]),
        6 => bench.error[device] = random.from_to(1, 4_095) as u16,
        _ => bench.ignore[device] ^= 1,
    }
}

/// A bench with one or two fields changed in any way.
pub fn damaged(random: &mut Random, bench: &Bench) -> Bench {
    if random.percent(2) {
        return Bench::empty();
    }
    let mut other = bench.clone();
    for _ in 0..random.one_of(&[1, 1, 2]) {
        damage_once(random, &mut other);
    }
    if random.percent(40) {
        recount(&mut other);
    }
    other
}

fn damage_once(random: &mut Random, bench: &mut Bench) {
    match random.below(12) {
        0..=3 => damage_device(random, bench),
        4 => damage_link(random, bench),
        5 => damage_size(random, bench),
        6 => damage_carried(random, bench),
        7 => damage_callback(random, bench),
        8 => put_in_change(random, bench),
        _ => forge_callback(random, bench),
    }
}

/// A row that is shown, mostly one in use.
fn row(random: &mut Random, used: u8) -> usize {
    let used = u64::from(used).min(SHOWN as u64);
    if used == 0 || random.percent(25) {
        random.below(SHOWN as u64) as usize
    } else {
        random.below(used) as usize
    }
}

/// A value within the range, or now and then one beyond it.
fn mostly_below(random: &mut Random, limit: u8) -> u8 {
    if random.percent(4) {
        limit + random.below(3) as u8
    } else {
        random.below(u64::from(limit)) as u8
    }
}

fn damage_device(random: &mut Random, bench: &mut Bench) {
    let row = row(random, bench.n);
    match random.below(8) {
        0 => bench.parent[row] = random.one_of(&[0, row as u8, row as u8 + 1, 250, 255, 1, 2]),
        1 => bench.ignore[row] = mostly_below(random, 2),
        2 => bench.status[row] = mostly_below(random, 4),
        3 => bench.holds[row] = random.one_of(&[0, 1, 2, 32_767, 32_768, 65_535]),
        4 => bench.depth[row] = random.one_of(&[0, 1, 2, 254, 255]),
        5 => bench.error[row] = random.one_of(&[0, 1, 5, 4_095, 4_096, 65_535]),
        6 => bench.children[row] = random.one_of(&[0, 1, 2, 3, 255]),
        _ => bench.linked[row] = random.one_of(&[0, 1, 2, 3, 255]),
    }
}

fn damage_link(random: &mut Random, bench: &mut Bench) {
    let row = row(random, bench.m);
    match random.below(5) {
        0 => bench.consumer[row] = random.below(u64::from(bench.n) + 2) as u8,
        1 => bench.supplier[row] = random.below(u64::from(bench.n) + 1) as u8,
        2 => bench.flags[row] = mostly_below(random, 4),
        3 => bench.flags[row] ^= RUNTIME,
        _ => {
            let other = (row + 1) % SHOWN;
            bench.consumer.swap(row, other);
            bench.supplier.swap(row, other);
            bench.flags.swap(row, other);
        }
    }
}

fn damage_size(random: &mut Random, bench: &mut Bench) {
    let (n, m) = (bench.n, bench.m);
    if random.percent(60) {
        bench.n = random.one_of(&[0, n.wrapping_sub(1), n.wrapping_add(1), 12, 63, 64, 65, 255]);
    } else {
        bench.m = random.one_of(&[0, m.wrapping_sub(1), m.wrapping_add(1), 12, 128, 129, 255]);
    }
}

fn damage_carried(random: &mut Random, bench: &mut Bench) {
    match random.below(3) {
        0 => bench.count = random.below(5) as u8,
        1 => bench.count = random.one_of(&[3, 4, 255]),
        _ => {
            let at = random.below(3) as usize;
            bench.carried[at] = random.one_of(&[0, 1, 255]);
        }
    }
}

fn damage_callback(random: &mut Random, bench: &mut Bench) {
    let device = random.below(u64::from(bench.n) + 2) as u8;
    match random.below(4) {
        0 => bench.callback = mostly_below(random, 4),
        1 => bench.asked = device,
        2 => bench.target = device,
        _ => bench.target = bench.asked,
    }
}

/// Opens another callback that fits, or nearly so.
fn forge_callback(random: &mut Random, bench: &mut Bench) {
    let n = u64::from(bench.n).clamp(1, SHOWN as u64);
    settle(bench);
    bench.callback = random.from_to(1, 3) as u8;
    bench.asked = random.below(n) as u8;
    bench.target = bench.asked;
    if bench.callback == RESUME_CALLBACK && random.percent(60) {
        bench.target = random.below(n) as u8;
    }
    let asked = usize::from(bench.asked);
    bench.status[asked] = [0, SUSPENDING, RESUMING, ACTIVE][usize::from(bench.callback)];
    if random.percent(70) {
        clear_faults(bench, asked);
        clear_faults(bench, usize::from(bench.target));
    }
    if random.percent(30) {
        put_in_change(random, bench);
    }
    recount(bench);
}

/// A device turns resuming or suspending; no count changes by it.
fn put_in_change(random: &mut Random, bench: &mut Bench) {
    let row = row(random, bench.n);
    bench.status[row] = match bench.status[row] {
        ACTIVE => SUSPENDING,
        SUSPENDED => RESUMING,
        other => other,
    };
}

/// Closes the open callback without a result.
fn settle(bench: &mut Bench) {
    for status in bench.status.iter_mut() {
        *status = match *status {
            SUSPENDING => ACTIVE,
            RESUMING => SUSPENDED,
            other => other,
        };
    }
}

fn clear_faults(bench: &mut Bench, device: usize) {
    bench.depth[device] = 0;
    bench.error[device] = 0;
    bench.holds[device] = 0;
}

/// Puts the counts of the rows shown right.
fn recount(bench: &mut Bench) {
    let (children, linked) = bench.recount();
    let shown = usize::from(bench.n).min(SHOWN);
    bench.children[..shown].copy_from_slice(&children[..shown]);
    bench.linked[..shown].copy_from_slice(&linked[..shown]);
}

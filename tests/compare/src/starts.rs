//! The benches that logs start from. All of them are sound.

use crate::benches::{loaded, reached};
use second::generate::damage::changed;
use second::generate::random::Random;
use second::generate::tables::Draft;
use second::{
    Bench, DEVICE_ROWS, IDLE_CALLBACK, MAX_DEVICES, MAX_HOLDS, MAX_LINKS, NO_CALLBACK, NO_PARENT,
    RESUME_CALLBACK, RUNTIME, STATELESS, SUSPEND_CALLBACK,
};

/// The sorts of benches.
#[derive(Clone, Copy, PartialEq)]
pub enum Start {
    /// A table just loaded.
    Loaded,
    /// Reached by a random log.
    Reached,
    /// Reached, with a few fields changed.
    Changed,
    /// Reached, with many holds and depths near their limits, and many errors.
    Strained,
    /// A callback is open, each kind as often.
    Open,
    /// Many consumers of device 0 are powered, and its use count is at or beyond a power of two.
    Crowded,
}

/// Each sort, in the order of the tally.
pub const ALL: [(Start, &str); 6] = [
    (Start::Loaded, "loaded"),
    (Start::Reached, "reached"),
    (Start::Changed, "changed"),
    (Start::Strained, "strained"),
    (Start::Open, "open"),
    (Start::Crowded, "crowded"),
];

/// A bench of this sort, with 0 to 3 bytes carried.
pub fn bench(random: &mut Random, start: Start) -> Bench {
    let mut bench = match start {
        Start::Loaded => loaded(random),
        Start::Reached => reached(random),
        Start::Changed => {
            let bench = reached(random);
            changed(random, &bench)
        }
        Start::Strained => strained(random),
        Start::Open => open(random),
        Start::Crowded => crowded(random),
    };
    carry(random, &mut bench);
    bench
}

fn carry(random: &mut Random, bench: &mut Bench) {
    bench.count = random.below(4) as u8;
    bench.carried = [0; 3];
    for byte in &mut bench.carried[..usize::from(bench.count)] {
        *byte = random.byte();
    }
}

fn strained(random: &mut Random) -> Bench {
    let mut bench = reached(random);
    for _ in 0..random.from_to(4, 20) {
        bench = changed(random, &bench);
    }
    bench
}

fn open(random: &mut Random) -> Bench {
    let (kind, callback) = random.one_of(&[
        (7, IDLE_CALLBACK),
        (8, SUSPEND_CALLBACK),
        (9, RESUME_CALLBACK),
    ]);
    loop {
        let mut bench = reached(random);
        if bench.callback == NO_CALLBACK {
            ask(random, &mut bench, kind);
        }
        if bench.callback == callback {
            return changed(random, &bench);
        }
    }
}

/// Clears what bars requests, and sends one to each device until a callback is open.
fn ask(random: &mut Random, bench: &mut Bench, kind: u8) {
    bench.holds = [0; DEVICE_ROWS];
    bench.depth = [0; DEVICE_ROWS];
    bench.error = [0; DEVICE_ROWS];
    let first = random.below(bench.n.into()) as u8;
    for step in 0..bench.n {
        if bench.callback == NO_CALLBACK {
            bench.record([kind, (first + step) % bench.n, 0, 0]);
        }
    }
}

fn crowded(random: &mut Random) -> Bench {
    let table = crowded_table(random);
    let mut bench = second::load(&table).expect("the table is good");
    // Set active, from the lowest number up; of the consumers all, some or few.
    let chance = random.one_of(&[100, 100, 50, 10, 3]);
    for device in 0..bench.n {
        if device == 0 || random.percent(chance) {
            bench.record([10, device, 0, 0]);
        }
    }
    for device in 0..bench.n {
        if device == 0 || random.percent(90) {
            bench.record([1, device, 0, 0]);
        }
    }
    let links = bench.linked[0];
    let usage = random.one_of(&[128, 256, 32_767, 32_768, 32_769, MAX_HOLDS + links]);
    bench.holds[0] = usage.saturating_sub(links).min(MAX_HOLDS);
    bench
}

/// Every other device is a consumer of device 0; further links as there is room.
fn crowded_table(random: &mut Random) -> Vec<u8> {
    let n = if random.percent(60) {
        MAX_DEVICES
    } else {
        random.from_to(2, MAX_DEVICES.into()) as u8
    };
    let Draft { devices, links } = Draft::good(random, n, MAX_LINKS.into());
    let mut links: Vec<[u8; 3]> = links.into_iter().filter(|link| link[1] != 0).collect();
    let room = u64::from(MAX_LINKS - (n - 1));
    let further = random.below(2 * room + 1).min(room) as usize;
    while links.len() > further {
        links.swap_remove(random.below(links.len() as u64) as usize);
    }
    let flags = random.one_of(&[RUNTIME, RUNTIME | STATELESS]);
    links.extend((1..n).map(|consumer| [consumer, 0, flags]));
    links.sort_unstable();
    let alone = random.percent(50);
    let devices = devices
        .into_iter()
        .map(|[parent, ignore]| [if alone { NO_PARENT } else { parent }, ignore])
        .collect();
    Draft { devices, links }.bytes()
}

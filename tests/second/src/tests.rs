//! Tests of the keeper against document 01's own numbers.

use crate::generate::hosts::{any_host, Session};
use crate::generate::lines::line;
use crate::generate::lists;
use crate::generate::random::Random;
use crate::generate::tables;
use crate::generate::tally::Tally;
use crate::*;

/// The table of the worked day.
const TABLE: [u8; 16] = [
    0x54, 0x57, 0x42, 0x01, 0x00, 0x03, 0x01, 0xFF, 0x00, 0xFF, 0x00, 0x00, 0x00, 0x02, 0x01, 0x01,
];

/// The records of the worked day and their replies, P1 to P12.
const DAY: [([u8; 4], [u8; 4]); 12] = [
    ([0x01, 0x00, 0x00, 0x00], [0x00, 0x00, 0x00, 0x00]),
    ([0x01, 0x01, 0x00, 0x00], [0x00, 0x01, 0x00, 0x00]),
    ([0x01, 0x02, 0x00, 0x00], [0x00, 0x02, 0x00, 0x00]),
    ([0x04, 0x02, 0x00, 0x00], [0x02, 0x00, 0x00, 0x00]),
    ([0x0D, 0x00, 0x00, 0x00], [0x02, 0x01, 0x00, 0x00]),
    ([0x0D, 0x01, 0x00, 0x00], [0x02, 0x02, 0x00, 0x00]),
    ([0x0D, 0x02, 0x00, 0x00], [0x00, 0x02, 0x00, 0x00]),
    ([0x08, 0x01, 0x00, 0x00], [0x00, 0x01, 0xF5, 0xFF]),
    ([0x08, 0x00, 0x00, 0x00], [0x00, 0x00, 0xF0, 0xFF]),
    ([0x06, 0x02, 0x00, 0x00], [0x03, 0x02, 0x00, 0x00]),
    ([0x0D, 0x02, 0x00, 0x00], [0x01, 0x02, 0x00, 0x00]),
    ([0x0D, 0x02, 0xF0, 0xFF], [0x00, 0x02, 0xF0, 0xFF]),
];

fn day_log() -> Vec<u8> {
    DAY.iter().flat_map(|(record, _)| *record).collect()
}

fn day_replies() -> Vec<u8> {
    DAY.iter().flat_map(|(_, reply)| *reply).collect()
}

fn day_bench() -> Bench {
    load(&TABLE).unwrap()
}

/// Sends a record that must be answered with this finished code.
fn finishes(bench: &mut Bench, kind: u8, device: u8, value: i16, code: i16) {
    let reply = send(bench, kind, device, value);
    let [low, high] = code.to_le_bytes();
    assert_eq!(reply, [FINISHED, device, low, high]);
}

fn send(bench: &mut Bench, kind: u8, device: u8, value: i16) -> [u8; 4] {
    let [low, high] = value.to_le_bytes();
    let reply = bench.record([kind, device, low, high]);
    assert!(bench.sound());
    reply
}

/// One enabled device, not yet awake.
fn lone_bench() -> Bench {
    let mut bench = load(b"TWB\x01\x00\x01\x00\xFF\x00").unwrap();
    finishes(&mut bench, 1, 0, 0, 0);
    bench
}

/// One enabled device, awake.
fn awake_bench() -> Bench {
    let mut bench = lone_bench();
    assert_eq!(send(&mut bench, 9, 0, 0), [2, 0, 0, 0]);
    finishes(&mut bench, 13, 0, 0, 0);
    bench
}

fn refused(table: &[u8], number: u8, index: u16) {
    assert_eq!(load(table), Err(Refusal { number, index }));
}

#[test]
fn worked_day_by_records() {
    let mut bench = day_bench();
    for (record, reply) in DAY {
        assert_eq!(bench.record(record), reply);
        assert!(bench.sound());
    }
    assert_eq!(bench.status[..3], [ACTIVE; 3]);
    assert_eq!(bench.error[..3], [0; 3]);
    assert_eq!(bench.children[..3], [1, 0, 0]);
    assert_eq!(bench.linked[..3], [0, 1, 0]);
}

#[test]
fn worked_day_whole() {
    let (mut bench, mut replies) = (day_bench(), [0xAA; 48]);
    assert_eq!(bench.feed(&day_log(), &mut replies), Ok(12));
    assert_eq!(replies, *day_replies());
    let mut right = day_bench();
    for (record, _) in DAY {
        right.record(record);
    }
    assert_eq!(bench, right);
}

#[test]
fn worked_day_cut_after_one_byte() {
    let (log, mut bench, mut replies) = (day_log(), day_bench(), [0xAA; 50]);
    assert_eq!(bench.feed(&log[..1], &mut []), Ok(0));
    assert_eq!((bench.count, bench.carried), (1, [1, 0, 0]));
    assert_eq!(bench.feed(&log[1..], &mut replies), Ok(12));
    assert_eq!(replies[..48], day_replies());
    assert_eq!(replies[48..], [0xAA; 2]);
}

#[test]
fn worked_day_byte_by_byte() {
    let (mut bench, mut joined) = (day_bench(), Vec::<u8>::new());
    for byte in day_log() {
        let mut reply = [0; 4];
        let taken = bench.feed(&[byte], &mut reply).unwrap();
        joined.extend(&reply[..4 * taken]);
    }
    assert_eq!(joined, day_replies());
}

#[test]
fn p13_and_p14() {
    let mut bench = day_bench();
    bench.holds[1] = 32_766;
    finishes(&mut bench, 3, 1, 0, 0);
    assert_eq!(bench.holds[1], 32_767);
    let before = bench.clone();
    finishes(&mut bench, 3, 1, 0, -75);
    finishes(&mut bench, 4, 1, 0, -75);
    assert_eq!(bench, before);
}

#[test]
fn suspend_error_is_kept_until_set_active() {
    let mut bench = awake_bench();
    assert_eq!(send(&mut bench, 8, 0, 0), [1, 0, 0, 0]);
    finishes(&mut bench, 13, 0, -5, -5);
    assert_eq!((bench.status[0], bench.error[0]), (ACTIVE, 5));
    finishes(&mut bench, 8, 0, 0, -22);
    finishes(&mut bench, 10, 0, 0, 0);
    assert_eq!((bench.status[0], bench.error[0]), (ACTIVE, 0));
}

#[test]
fn suspend_busy_is_no_error() {
    for value in [-11, -16] {
        let mut bench = awake_bench();
        send(&mut bench, 8, 0, 0);
        finishes(&mut bench, 13, 0, value, value);
        assert_eq!((bench.status[0], bench.error[0]), (ACTIVE, 0));
    }
}

#[test]
fn resume_error_is_always_kept() {
    for value in [-11, -13, -16, -75, -4_095] {
        let mut bench = lone_bench();
        send(&mut bench, 9, 0, 0);
        finishes(&mut bench, 13, 0, value, value);
        assert_eq!(bench.status[0], SUSPENDED);
        assert_eq!(bench.error[0], value.unsigned_abs());
    }
}

#[test]
fn member_error_is_answered_for_the_target() {
    let mut bench = day_bench();
    for (record, _) in &DAY[..5] {
        bench.record(*record);
    }
    assert_eq!(send(&mut bench, 13, 1, -5), [0, 2, 0xF0, 0xFF]);
    assert_eq!(bench.status[..3], [ACTIVE, SUSPENDED, SUSPENDED]);
    assert_eq!(bench.error[..3], [0, 5, 0]);
    assert_eq!(bench.holds[2], 1);
}

#[test]
fn get_and_wake_keeps_the_hold() {
    let mut bench = day_bench();
    finishes(&mut bench, 4, 2, 0, -13);
    assert_eq!(bench.holds[2], 1);
}

#[test]
fn set_active_twice_counts_once() {
    let mut bench = day_bench();
    for device in [0, 1, 2, 2] {
        finishes(&mut bench, 10, device, 0, 0);
    }
    assert_eq!((bench.children[0], bench.linked[1]), (1, 1));
}

#[test]
fn ignored_children_are_counted() {
    let mut bench = load(b"TWB\x01\x00\x02\x00\xFF\x01\x00\x00").unwrap();
    finishes(&mut bench, 10, 1, 0, 0);
    assert_eq!((bench.status[0], bench.children[0]), (SUSPENDED, 1));
    finishes(&mut bench, 12, 0, 0, -16);
    finishes(&mut bench, 10, 0, 0, 0);
    finishes(&mut bench, 12, 0, 0, 0);
    finishes(&mut bench, 11, 0, 0, -16);
}

#[test]
fn depths_and_holds_stop_at_their_ends() {
    let mut bench = lone_bench();
    finishes(&mut bench, 1, 0, 0, -75);
    finishes(&mut bench, 5, 0, 0, -75);
    finishes(&mut bench, 6, 0, 0, -75);
    bench.depth[0] = 255;
    finishes(&mut bench, 2, 0, 0, -75);
    assert_eq!(bench.depth[0], 255);
}

#[test]
fn codes_come_in_order() {
    let mut bench = awake_bench();
    finishes(&mut bench, 9, 0, 0, 1);
    bench.depth[0] = 1;
    finishes(&mut bench, 9, 0, 0, -13);
    bench.error[0] = 1;
    finishes(&mut bench, 9, 0, 0, -22);
    finishes(&mut bench, 7, 0, 0, -22);
}

#[test]
fn records_refused() {
    let mut bench = day_bench();
    let before = bench.clone();
    let cases = [
        ([0, 9, 9, 9], 11),
        ([14, 0, 0, 0], 11),
        ([1, 3, 9, 9], 12),
        ([1, 2, 1, 0], 13),
        ([12, 2, 2, 0], 13),
        ([13, 2, 1, 0], 13),
        ([13, 2, 0, 0xF0], 13),
        ([13, 2, 1, 0xF0], 14),
    ];
    for (record, number) in cases {
        assert_eq!(bench.record(record), [REFUSED, record[1], number, 0]);
        assert_eq!(bench, before);
    }
    finishes(&mut bench, 12, 2, 1, 0);
}

#[test]
fn while_a_callback_is_open() {
    let mut bench = lone_bench();
    send(&mut bench, 4, 0, 0);
    let before = bench.clone();
    for kind in 1..=12 {
        finishes(&mut bench, kind, 0, 0, -115);
        assert_eq!(send(&mut bench, kind, 1, 0), [REFUSED, 1, 12, 0]);
    }
    assert_eq!(bench, before);
}

#[test]
fn result_for_another_device() {
    let mut bench = day_bench();
    for (record, _) in &DAY[..4] {
        bench.record(*record);
    }
    assert_eq!(send(&mut bench, 13, 2, 0), [REFUSED, 2, 15, 0]);
    assert_eq!(send(&mut bench, 13, 2, 1), [REFUSED, 2, 13, 0]);
}

#[test]
fn wake_set_goes_round_an_ignoring_parent() {
    let table = b"TWB\x01\x00\x03\x01\xFF\x01\x00\x00\x01\x00\x02\x00\x01";
    let bench = load(table).unwrap();
    assert_eq!(bench.wakes_with(1, 0), Ok(false));
    assert_eq!(bench.wakes_with(2, 0), Ok(true));
    assert_eq!(bench.wakes_with(2, 1), Ok(true));
    assert_eq!(bench.parents_above(2), Ok(2));
}

#[test]
fn a_link_without_bit_0_has_no_effect() {
    let bench = load(b"TWB\x01\x00\x02\x01\xFF\x00\xFF\x00\x01\x00\x02").unwrap();
    assert_eq!(bench.wakes_with(1, 0), Ok(false));
}

#[test]
fn questions_refuse() {
    let bench = day_bench();
    assert_eq!(bench.status_of(2), Ok(SUSPENDED));
    assert_eq!(bench.status_of(3), Err(24));
    assert_eq!(bench.wakes_with(0, 3), Err(24));
    assert_eq!(bench.wakes_with(3, 0), Err(24));
    assert_eq!(Bench::empty().child_count(0), Err(21));
    assert_eq!(Bench::empty().parents_above(255), Err(21));
}

#[test]
fn request_alone_refuses() {
    let mut bench = day_bench();
    assert_eq!(bench.request([1, 2, 0, 0]), Ok([0, 2, 0, 0]));
    assert_eq!(bench.depth[2], 0);
    bench.n = 65;
    let unsound = bench.clone();
    assert_eq!(bench.request([1, 1, 0, 0]), Err(21));
    assert_eq!(bench, unsound);
}

#[test]
fn day_counts() {
    let counts = [0, 1, 2].map(|device| counted(&day_log(), &day_replies(), device));
    assert_eq!(counts, [(0, 0), (0, 0), (1, 1)]);
    // A put that overflows and one that finds a callback open.
    let log = [[5, 2, 0, 0], [6, 2, 0, 0], [4, 2, 1, 0]].concat();
    let replies = [[0, 2, 0xB5, 0xFF], [0, 2, 0x8D, 0xFF], [4, 2, 13, 0]].concat();
    assert_eq!(counted(&log, &replies, 2), (0, 0));
}

#[test]
fn usage_count_passes_16_bits() {
    let mut bench = day_bench();
    for device in 0..3 {
        finishes(&mut bench, 10, device, 0, 0);
    }
    bench.holds[1] = 32_767;
    assert_eq!(bench.usage_count(1), Ok(32_768));
    assert_eq!(bench.user_holds(1), Ok(32_767));
}

/// The day's table, every device set active and then enabled.
fn running_bench() -> Bench {
    let mut bench = day_bench();
    for device in [0, 1, 2] {
        finishes(&mut bench, 10, device, 0, 0);
    }
    for device in [0, 1, 2] {
        finishes(&mut bench, 1, device, 0, 0);
    }
    bench
}

#[test]
fn depths_and_holds_move_by_one() {
    let mut bench = day_bench();
    finishes(&mut bench, 2, 1, 0, 0);
    assert_eq!(bench.depth[..3], [1, 2, 1]);
    finishes(&mut bench, 1, 1, 0, 0);
    finishes(&mut bench, 1, 1, 0, 0);
    assert_eq!(bench.depth[..3], [1, 0, 1]);
    finishes(&mut bench, 3, 2, 0, 0);
    finishes(&mut bench, 3, 2, 0, 0);
    assert_eq!(bench.holds[..3], [0, 0, 2]);
    finishes(&mut bench, 5, 2, 0, 0);
    assert_eq!(bench.holds[..3], [0, 0, 1]);
    bench.depth[0] = 254;
    finishes(&mut bench, 2, 0, 0, 0);
    assert_eq!(bench.depth[0], 255);
}

#[test]
fn overflow_changes_nothing() {
    let mut bench = awake_bench();
    let before = bench.clone();
    for kind in [1, 5, 6] {
        finishes(&mut bench, kind, 0, 0, -75);
        assert_eq!(bench, before);
    }
    // Without -75 kind 4 would wake the device.
    let mut bench = lone_bench();
    bench.holds[0] = 32_767;
    let before = bench.clone();
    for kind in [3, 4] {
        finishes(&mut bench, kind, 0, 0, -75);
        assert_eq!(bench, before);
    }
    bench.depth[0] = 255;
    let before = bench.clone();
    finishes(&mut bench, 2, 0, 0, -75);
    assert_eq!(bench, before);
}

#[test]
fn suspend_test_comes_in_order() {
    let mut bench = running_bench();
    (bench.error[0], bench.depth[0], bench.holds[0]) = (5, 1, 1);
    let each = |bench: &mut Bench, code| {
        for kind in [7, 8] {
            finishes(bench, kind, 0, 0, code);
        }
    };
    each(&mut bench, -22);
    bench.error[0] = 0;
    each(&mut bench, -13);
    bench.depth[0] = 0;
    each(&mut bench, -11);
    bench.holds[0] = 0;
    // The converter is the bus's child.
    each(&mut bench, -16);
    finishes(&mut bench, 12, 0, 1, 0);
    assert_eq!(send(&mut bench, 7, 0, 0), [3, 0, 0, 0]);
    // The converter's link is a use of the reference.
    let mut bench = running_bench();
    for kind in [7, 8] {
        finishes(&mut bench, kind, 1, 0, -11);
    }
}

#[test]
fn a_suspended_device_passes_the_test_first() {
    let mut bench = lone_bench();
    finishes(&mut bench, 8, 0, 0, 1);
    finishes(&mut bench, 7, 0, 0, -11);
    finishes(&mut bench, 3, 0, 0, 0);
    finishes(&mut bench, 8, 0, 0, -11);
    bench.error[0] = 5;
    finishes(&mut bench, 8, 0, 0, -22);
}

#[test]
fn put_and_idle_of_a_device_still_in_use() {
    // By a holder: 0, disabled, failed and asleep too, and over a child.
    for (error, depth, status) in [
        (0, 0, ACTIVE),
        (5, 0, ACTIVE),
        (0, 1, ACTIVE),
        (5, 255, ACTIVE),
        (0, 0, SUSPENDED),
        (5, 1, SUSPENDED),
    ] {
        let mut bench = awake_bench();
        bench.holds[0] = 2;
        (bench.error[0], bench.depth[0], bench.status[0]) = (error, depth, status);
        let mut after = bench.clone();
        after.holds[0] = 1;
        finishes(&mut bench, 6, 0, 0, 0);
        assert_eq!(bench, after);
    }
    let mut bench = running_bench();
    bench.holds[0] = 2;
    finishes(&mut bench, 6, 0, 0, 0);
    // By a powered consumer alone: 0 too, and the hold is given back.
    for (error, depth) in [(0, 0), (5, 0), (0, 1)] {
        let mut bench = running_bench();
        bench.holds[1] = 1;
        (bench.error[1], bench.depth[1]) = (error, depth);
        finishes(&mut bench, 6, 1, 0, 0);
        assert_eq!((bench.holds[1], bench.usage(1)), (0, 1));
    }
}

#[test]
fn put_and_idle_with_the_last_use_gone() {
    let mut bench = awake_bench();
    bench.holds[0] = 1;
    assert_eq!(send(&mut bench, 6, 0, 0), [3, 0, 0, 0]);
    assert_eq!((bench.holds[0], bench.status[0]), (0, ACTIVE));
    // All of kind 7 follows: -22, -13, -16, and -11 for a device not active.
    for (error, depth, status, code) in [
        (5, 1, ACTIVE, -22),
        (0, 1, ACTIVE, -13),
        (0, 0, SUSPENDED, -11),
        (0, 1, SUSPENDED, -13),
    ] {
        let mut bench = awake_bench();
        bench.holds[0] = 1;
        (bench.error[0], bench.depth[0], bench.status[0]) = (error, depth, status);
        finishes(&mut bench, 6, 0, 0, code);
        assert_eq!(bench.holds[0], 0);
    }
    let mut bench = running_bench();
    bench.holds[0] = 1;
    finishes(&mut bench, 6, 0, 0, -16);
    assert_eq!(bench.holds[0], 0);
}

#[test]
fn idle_results() {
    for value in [-1, -5, -11, -13, -16, -75, -4_095] {
        let mut bench = awake_bench();
        let before = bench.clone();
        assert_eq!(send(&mut bench, 7, 0, 0), [3, 0, 0, 0]);
        finishes(&mut bench, 13, 0, value, value);
        assert_eq!(bench, before);
    }
    let mut bench = awake_bench();
    send(&mut bench, 7, 0, 0);
    assert_eq!(send(&mut bench, 13, 0, 0), [1, 0, 0, 0]);
    assert_eq!(bench.status[0], SUSPENDING);
    finishes(&mut bench, 13, 0, 0, 0);
    assert_eq!((bench.status[0], bench.error[0]), (SUSPENDED, 0));
}

#[test]
fn any_other_suspend_result_is_an_error() {
    for value in [-1, -13, -22, -75, -115, -4_095] {
        let mut bench = awake_bench();
        send(&mut bench, 8, 0, 0);
        finishes(&mut bench, 13, 0, value, value);
        assert_eq!(bench.status[0], ACTIVE);
        assert_eq!(bench.error[0], value.unsigned_abs());
    }
}

#[test]
fn counts_follow_the_suspend_result() {
    let mut bench = running_bench();
    assert_eq!(send(&mut bench, 8, 2, 0), [1, 2, 0, 0]);
    assert_eq!(bench.status[2], SUSPENDING);
    assert_eq!((bench.children[0], bench.linked[1]), (1, 1));
    finishes(&mut bench, 13, 2, 0, 0);
    assert_eq!(bench.status[2], SUSPENDED);
    assert_eq!((bench.children[0], bench.linked[1]), (0, 0));
    // Now the reference may sleep too.
    assert_eq!(send(&mut bench, 8, 1, 0), [1, 1, 0, 0]);
}

#[test]
fn counts_follow_the_resume_result() {
    let mut bench = day_bench();
    for (record, reply) in &DAY[..6] {
        assert_eq!(bench.record(*record), *reply);
    }
    assert_eq!(bench.status[..3], [ACTIVE, ACTIVE, RESUMING]);
    assert_eq!((bench.children[0], bench.linked[1]), (0, 0));
    finishes(&mut bench, 13, 2, 0, 0);
    assert_eq!((bench.children[0], bench.linked[1]), (1, 1));
}

#[test]
fn the_hold_stays_whatever_follows() {
    // -22, -13, -16, 1 and a failed callback.
    let mut bench = day_bench();
    bench.error[2] = 5;
    finishes(&mut bench, 4, 2, 0, -22);
    bench.error[2] = 0;
    finishes(&mut bench, 4, 2, 0, -13);
    finishes(&mut bench, 1, 2, 0, 0);
    finishes(&mut bench, 4, 2, 0, -16);
    assert_eq!(bench.holds[2], 3);
    let mut bench = awake_bench();
    finishes(&mut bench, 4, 0, 0, 1);
    assert_eq!(bench.holds[0], 1);
    let mut bench = lone_bench();
    assert_eq!(send(&mut bench, 4, 0, 0), [2, 0, 0, 0]);
    finishes(&mut bench, 13, 0, -5, -5);
    assert_eq!((bench.holds[0], bench.error[0]), (1, 5));
}

#[test]
fn another_member_bars_the_wake() {
    let mut bench = day_bench();
    for device in [0, 1, 2] {
        finishes(&mut bench, 1, device, 0, 0);
    }
    for member in [0, 1] {
        bench.depth[member] = 1;
        finishes(&mut bench, 9, 2, 0, -16);
        bench.depth[member] = 0;
        bench.error[member] = 5;
        finishes(&mut bench, 9, 2, 0, -16);
        bench.error[member] = 0;
    }
    // A powered device is no member.
    bench.error[0] = 5;
    finishes(&mut bench, 10, 0, 0, 0);
    bench.depth[0] = 1;
    assert_eq!(send(&mut bench, 9, 2, 0), [2, 1, 0, 0]);
}

#[test]
fn set_active_and_set_suspended() {
    let mut bench = day_bench();
    // The bus sleeps; then the reference does.
    finishes(&mut bench, 10, 2, 0, -16);
    finishes(&mut bench, 10, 0, 0, 0);
    finishes(&mut bench, 10, 2, 0, -16);
    finishes(&mut bench, 10, 1, 0, 0);
    finishes(&mut bench, 10, 2, 0, 0);
    finishes(&mut bench, 11, 0, 0, -16);
    finishes(&mut bench, 11, 1, 0, -16);
    finishes(&mut bench, 12, 0, 1, 0);
    bench.error[0] = 5;
    finishes(&mut bench, 11, 0, 0, 0);
    assert_eq!((bench.status[0], bench.error[0]), (SUSPENDED, 0));
    assert_eq!(bench.children[0], 1);
    finishes(&mut bench, 12, 0, 0, -16);
    finishes(&mut bench, 11, 2, 0, 0);
    finishes(&mut bench, 11, 2, 0, 0);
    assert_eq!((bench.children[0], bench.linked[1]), (0, 0));
    finishes(&mut bench, 12, 0, 0, 0);
    assert_eq!(bench.depth[..3], [1, 1, 1]);
}

#[test]
fn a_status_is_set_only_of_a_disabled_or_failed_device() {
    for kind in [10, 11] {
        let mut bench = awake_bench();
        finishes(&mut bench, kind, 0, 0, -11);
        bench.error[0] = 5;
        finishes(&mut bench, kind, 0, 0, 0);
        assert_eq!(bench.error[0], 0);
        finishes(&mut bench, kind, 0, 0, -11);
        bench.depth[0] = 1;
        bench.holds[0] = 1;
        finishes(&mut bench, kind, 0, 0, 0);
        assert_eq!((bench.depth[0], bench.holds[0]), (1, 1));
    }
}

#[test]
fn values_at_their_bounds() {
    for (kind, least, greatest) in (1..=11)
        .map(|kind| (kind, 0, 0))
        .chain([(12, 0, 1), (13, -4_095, 0)])
    {
        for value in [least - 1, greatest + 1, i16::MIN, i16::MAX] {
            let mut bench = lone_bench();
            assert_eq!(send(&mut bench, kind, 0, value), [REFUSED, 0, 13, 0]);
        }
        for value in [least, greatest] {
            let mut bench = lone_bench();
            let [reply, _, code, _] = send(&mut bench, kind, 0, value);
            // With none open a result is refused all the same.
            assert_eq!((reply == REFUSED, code == 14), (kind == 13, kind == 13));
        }
    }
}

#[test]
fn a_result_of_the_target_is_not_that_of_the_device_asked() {
    let mut bench = day_bench();
    for (record, _) in &DAY[..4] {
        bench.record(*record);
    }
    assert_eq!((bench.asked, bench.target), (0, 2));
    let before = bench.clone();
    for device in [1, 2] {
        assert_eq!(send(&mut bench, 13, device, 0), [REFUSED, device, 15, 0]);
        assert_eq!(bench, before);
    }
}

#[test]
fn greatest_use_counts() {
    // 64 devices: 63 are consumers of the first, the most that a table has.
    let mut table = b"TWB\x01\x00\x40\x3f".to_vec();
    table.extend([255, 0].repeat(64));
    table.extend((1..64).flat_map(|consumer| [consumer, 0, 1]));
    let mut bench = load(&table).unwrap();
    for device in 0..64 {
        finishes(&mut bench, 10, device, 0, 0);
    }
    finishes(&mut bench, 1, 0, 0, 0);
    bench.holds[0] = 32_767;
    assert_eq!(bench.usage_count(0), Ok(32_830));
    finishes(&mut bench, 7, 0, 0, -11);
    finishes(&mut bench, 8, 0, 0, -11);
    finishes(&mut bench, 6, 0, 0, 0);
    assert_eq!(bench.usage_count(0), Ok(32_829));
    // The stored counts alone, up to the greatest m.
    bench.holds[0] = 32_767;
    for links in 0..=128 {
        bench.linked[0] = links;
        assert_eq!(bench.usage(0), 32_767 + u32::from(links));
        assert_eq!(bench.suspend_test(0), Some(-11));
    }
}

#[test]
fn pieces_refused() {
    let (mut bench, mut replies) = (day_bench(), [0xAA; 5_000]);
    let before = bench.clone();
    assert_eq!(bench.feed(&[0; 4_097], &mut replies), Err(22));
    assert_eq!(bench.feed(&[0; 8], &mut replies[..7]), Err(23));
    assert_eq!(bench, before);
    assert_eq!(Bench::empty().feed(&[], &mut replies), Err(21));
    assert_eq!(replies, [0xAA; 5_000]);
    assert_eq!(bench.feed(&[0; 4_096], &mut replies), Ok(1_024));
}

#[test]
fn refused_pieces_leave_everything() {
    // One byte carried and a callback open.
    let log = day_log();
    let (mut bench, mut replies) = (day_bench(), [0xAA; 5_000]);
    assert_eq!(bench.feed(&log[..17], &mut replies), Ok(4));
    replies = [0xAA; 5_000];
    let mut unsound = bench.clone();
    unsound.holds[0] = 32_768;
    for (damaged, length, room, number) in [
        (true, 4_097, 0, 21),
        (true, 31, 5_000, 21),
        (true, 0, 0, 21),
        (false, 4_097, 5_000, 22),
        (false, 4_097, 0, 22),
        (false, 31, 31, 23),
        (false, 3, 0, 23),
    ] {
        let bench = if damaged { &mut unsound } else { &mut bench };
        let before = bench.clone();
        let refused = bench.feed(&[1; 4_097][..length], &mut replies[..room]);
        assert_eq!(refused, Err(number));
        assert_eq!(*bench, before);
        assert_eq!(replies, [0xAA; 5_000]);
    }
    assert_eq!(bench.feed(&log[17..], &mut replies), Ok(8));
    assert_eq!(replies[..32], day_replies()[16..]);
}

#[test]
fn an_empty_piece_changes_nothing() {
    let (mut bench, mut replies) = (day_bench(), [0xAA; 8]);
    for (byte, carried) in (0..).zip(day_log().iter().take(4)) {
        let before = bench.clone();
        assert_eq!(bench.count, byte);
        assert_eq!(bench.feed(&[], &mut replies), Ok(0));
        assert_eq!(bench.feed(&[], &mut []), Ok(0));
        assert_eq!((&bench, replies), (&before, [0xAA; 8]));
        bench.feed(&[*carried], &mut [0; 4]).unwrap();
    }
}

#[test]
fn bytes_past_the_replies_stay() {
    let log = day_log();
    for cut in 0..=48 {
        let (mut bench, mut replies) = (day_bench(), [0xAA; 60]);
        assert_eq!(bench.feed(&log[..cut], &mut replies), Ok(cut / 4));
        let written = cut / 4 * 4;
        assert_eq!(replies[..written], day_replies()[..written]);
        assert_eq!(replies[written..], [0xAA; 60][written..]);
        assert_eq!(bench.carried[..cut % 4], log[written..cut]);
        assert_eq!(bench.carried[cut % 4..], [0; 3][cut % 4..]);
        assert_eq!(usize::from(bench.count), cut % 4);
    }
}

#[test]
fn carried_bytes_count_for_the_room() {
    let mut bench = day_bench();
    assert_eq!(bench.feed(&[1, 0, 0], &mut []), Ok(0));
    assert_eq!(bench.feed(&[0], &mut [0; 3]), Err(23));
    assert_eq!(bench.feed(&[], &mut []), Ok(0));
    assert_eq!(bench.count, 3);
}

#[test]
fn table_header_refused() {
    refused(&[], 1, 0);
    refused(&TABLE[..6], 1, 0);
    refused(b"TWC\x01\x00\x01\x00\xFF\x00", 2, 0);
    refused(b"TWB\x02\x00\x01\x00\xFF\x00", 3, 0);
    refused(b"TWB\x01\x01\x01\x00\xFF\x00", 3, 0);
    refused(b"TWB\x01\x00\x00\x00", 4, 0);
    refused(b"TWB\x01\x00\x01\x81", 4, 0);
    refused(&TABLE[..15], 5, 0);
    refused(&[&TABLE[..], &[0]].concat(), 5, 0);
}

#[test]
fn table_sizes_at_their_limits() {
    let with = |n: u8| {
        let entries = [255, 0].repeat(usize::from(n));
        [&b"TWB\x01\x00"[..], &[n, 0], &entries].concat()
    };
    assert!(load(&with(64)).is_ok_and(|bench| bench.sound()));
    refused(&with(65), 4, 0);
}

#[test]
fn table_devices_refused() {
    refused(b"TWB\x01\x00\x01\x00\x00\x00", 6, 0);
    refused(b"TWB\x01\x00\x02\x00\xFF\x00\x01\x00", 6, 1);
    refused(b"TWB\x01\x00\x02\x00\xFF\x00\xFE\x00", 6, 1);
    refused(b"TWB\x01\x00\x02\x00\xFF\x02\x01\x00", 6, 0);
}

#[test]
fn table_links_refused() {
    let with = |links: &[[u8; 3]]| {
        let mut table = b"TWB\x01\x00\x03".to_vec();
        table.push(links.len() as u8);
        table.extend([255, 0, 255, 0, 255, 0]);
        table.extend(links.concat());
        table
    };
    refused(&with(&[[3, 0, 1]]), 7, 0);
    refused(&with(&[[1, 1, 1]]), 7, 0);
    refused(&with(&[[1, 0, 4]]), 7, 0);
    refused(&with(&[[1, 0, 1], [1, 0, 0]]), 7, 1);
    refused(&with(&[[2, 1, 1], [2, 0, 1]]), 7, 1);
    refused(&with(&[[2, 0, 1], [1, 0, 1]]), 7, 1);
    assert!(load(&with(&[[1, 0, 3], [2, 0, 0], [2, 1, 2]])).is_ok());
}

/// Three devices without a parent.
const THREE: [u8; 6] = [255, 0, 255, 0, 255, 0];

/// Writes two lists into a buffer with room for any table.
fn written(devices: &[u8], links: &[[u8; 3]]) -> Vec<u8> {
    let mut buffer = [0xAA; 1_000];
    let length = write(devices, &links.concat(), &mut buffer).unwrap();
    assert_eq!(buffer[length..], [0xAA; 1_000][length..]);
    buffer[..length].to_vec()
}

/// Two lists that are refused so, whatever the room: the buffer stays.
fn lists_refused(devices: &[u8], links: &[u8], number: u8, index: u16) {
    for room in [0, 7, 1_000] {
        let mut buffer = vec![0xAA; room];
        let refusal = Refusal { number, index };
        assert_eq!(write(devices, links, &mut buffer), Err(refusal));
        assert_eq!(buffer, vec![0xAA; room]);
    }
}

#[test]
fn day_table_written() {
    let mut buffer = [0xAA; 16];
    let length = write(&TABLE[7..13], &TABLE[13..], &mut buffer);
    assert_eq!((length, buffer), (Ok(16), TABLE));
}

#[test]
fn written_links_are_sorted() {
    let ordered = [[1, 0, 3], [2, 0, 1], [2, 1, 0]];
    let right = [b"TWB\x01\x00\x03\x03", &THREE[..], &ordered.concat()].concat();
    for [a, b, c] in [
        [0, 1, 2],
        [0, 2, 1],
        [1, 0, 2],
        [1, 2, 0],
        [2, 0, 1],
        [2, 1, 0],
    ] {
        let table = written(&THREE, &[ordered[a], ordered[b], ordered[c]]);
        assert_eq!(table, right);
        assert!(load(&table).is_ok());
    }
    // By consumer first: 2 comes before 3, although its supplier is higher.
    let table = written(&[255, 0].repeat(4), &[[3, 0, 1], [2, 1, 1]]);
    assert_eq!(table[15..], [2, 1, 1, 3, 0, 1]);
}

#[test]
fn written_without_links() {
    assert_eq!(written(&[255, 1], &[]), b"TWB\x01\x00\x01\x00\xFF\x01");
}

#[test]
fn list_sizes_at_their_limits() {
    let devices = [255, 0].repeat(65);
    let links: Vec<[u8; 3]> = (0..18)
        .flat_map(|consumer| (0..consumer).map(move |supplier| [consumer, supplier, 1]))
        .rev()
        .take(129)
        .collect();
    let table = written(&devices[..128], &links[..128]);
    assert_eq!(table.len(), 519);
    assert!(load(&table).is_ok_and(|bench| (bench.n, bench.m) == (64, 128)));
    lists_refused(&devices, &[], 4, 0);
    lists_refused(&devices[..128], &links.concat(), 4, 0);
    lists_refused(&[], &[], 4, 0);
    lists_refused(&[], &[1, 0, 1], 4, 0);
    // Counts that a byte does not hold.
    lists_refused(&[255, 0].repeat(257), &[], 4, 0);
    lists_refused(&devices[..2], &[1, 0, 1].repeat(256), 4, 0);
}

#[test]
fn listed_devices_refused() {
    lists_refused(&[0, 0], &[], 6, 0);
    lists_refused(&[255, 2], &[], 6, 0);
    lists_refused(&[255, 0, 1, 0], &[], 6, 1);
    lists_refused(&[255, 0, 254, 0], &[], 6, 1);
    lists_refused(&[255, 0, 0, 0, 0, 3, 9, 9], &[], 6, 2);
}

#[test]
fn listed_links_refused() {
    lists_refused(&THREE, &[3, 0, 1], 7, 0);
    lists_refused(&THREE, &[255, 0, 1], 7, 0);
    lists_refused(&THREE, &[1, 1, 1], 7, 0);
    lists_refused(&THREE, &[1, 2, 1], 7, 0);
    lists_refused(&THREE, &[1, 0, 4], 7, 0);
    // The index is that of the list given, and not that of its place in order.
    lists_refused(&THREE, &[2, 1, 1, 2, 0, 1, 1, 0, 4], 7, 2);
    lists_refused(&THREE, &[2, 1, 1, 0, 0, 1, 1, 0, 4], 7, 1);
}

#[test]
fn the_later_copy_is_refused() {
    for flags in 0..4 {
        lists_refused(&THREE, &[2, 0, 1, 2, 0, flags], 7, 1);
        lists_refused(&THREE, &[2, 0, flags, 1, 0, 1, 2, 1, 1, 2, 0, 1], 7, 3);
    }
    // The second of three copies.
    let copies = [[2, 1, 0], [2, 0, 0], [1, 0, 0], [2, 0, 1], [2, 0, 2]];
    lists_refused(&THREE, &copies.concat(), 7, 3);
    // The second copy of one pair stands before that of another.
    let copies = [[2, 0, 1], [1, 0, 1], [1, 0, 1], [2, 0, 1]];
    lists_refused(&THREE, &copies.concat(), 7, 2);
    // A copy behind a faulty entry, and a faulty entry behind a copy.
    lists_refused(&THREE, &[2, 0, 1, 2, 0, 4, 2, 0, 1], 7, 1);
    lists_refused(&THREE, &[2, 0, 4, 2, 0, 1], 7, 0);
    lists_refused(&THREE, &[2, 0, 1, 2, 0, 1, 3, 0, 1], 7, 1);
    // The pair the other way round is another one, and faulty by itself.
    lists_refused(&THREE, &[2, 1, 1, 1, 2, 1], 7, 1);
}

#[test]
fn the_writer_tests_in_order() {
    let (bad_device, bad_link) = ([0, 0], [0, 0, 0]);
    lists_refused(&bad_device.repeat(65), &bad_link, 4, 0);
    lists_refused(&bad_device, &bad_link.repeat(129), 4, 0);
    lists_refused(&[255, 0, 255, 0, 2, 0], &bad_link, 6, 2);
    let mut buffer = [];
    for (devices, links, number) in [
        (&THREE[..0], &[][..], 4),
        (&bad_device, &[], 6),
        (&THREE, &bad_link, 7),
        (&THREE, &[], 8),
    ] {
        let refusal = write(devices, links, &mut buffer).unwrap_err();
        assert_eq!(refusal, Refusal { number, index: 0 });
    }
}

#[test]
fn room_for_the_table() {
    for room in 0..20 {
        let mut buffer = vec![0xAA; room];
        let answer = write(&TABLE[7..13], &TABLE[13..], &mut buffer);
        if room < TABLE.len() {
            let short = Refusal {
                number: 8,
                index: 0,
            };
            assert_eq!((answer, buffer), (Err(short), vec![0xAA; room]));
        } else {
            assert_eq!(answer, Ok(TABLE.len()));
            assert_eq!(buffer[..16], TABLE);
            assert_eq!(buffer[16..], [0xAA; 4][..room - 16]);
        }
    }
}

#[test]
fn an_incomplete_entry_is_faulty() {
    lists_refused(&[255], &[], 6, 0);
    lists_refused(&THREE[..5], &[], 6, 2);
    lists_refused(&THREE, &[1], 7, 0);
    lists_refused(&THREE, &[1, 0], 7, 0);
    lists_refused(&THREE, &[2, 1, 1, 2], 7, 1);
    // Another fault before it comes first, also that of a link after a device.
    lists_refused(&[255, 2, 255], &[], 6, 0);
    lists_refused(&THREE[..5], &[3, 0, 1], 6, 2);
    lists_refused(&THREE, &[2, 2, 1, 2], 7, 0);
    // It counts for the limits.
    let (devices, links) = ([255, 0].repeat(64), [1, 0, 1].repeat(128));
    lists_refused(&[&devices[..], &[255]].concat(), &[], 4, 0);
    lists_refused(&THREE, &[&links[..], &[1]].concat(), 4, 0);
    lists_refused(&THREE, &[&links[..], &[1, 0]].concat(), 4, 0);
    lists_refused(&devices[..127], &[], 6, 63);
    lists_refused(&THREE, &links[..383], 7, 1);
}

#[test]
fn what_is_written_is_loaded() {
    let (mut random, mut counts) = (Random::new(13), [0; 9]);
    for _ in 0..5_000 {
        let lists = lists::any(&mut random);
        let mut buffer = [0xAA; 600];
        let length = match write(&lists.devices, &lists.links, &mut buffer) {
            Ok(length) => length,
            Err(Refusal { number, .. }) => {
                counts[usize::from(number)] += 1;
                assert_eq!(buffer, [0xAA; 600]);
                continue;
            }
        };
        counts[0] += 1;
        let bench = load(&buffer[..length]).unwrap();
        assert!(bench.sound());
        assert_eq!(buffer[7..7 + lists.devices.len()], lists.devices);
        let mut links = lists.whole_links();
        links.sort_unstable();
        let loaded: Vec<[u8; 3]> = (bench.link_rows())
            .map(|row| [bench.consumer[row], bench.supplier[row], bench.flags[row]])
            .collect();
        assert_eq!(loaded, links);
        // Again, from the table's own entries and from the list in another order.
        let again = [
            lists::Lists::of_table(&buffer[..length]),
            lists.shuffled(&mut random),
        ];
        for lists in again {
            let mut other = [0xAA; 600];
            assert_eq!(write(&lists.devices, &lists.links, &mut other), Ok(length));
            assert_eq!(other, buffer);
        }
    }
    for number in [0, 4, 6, 7] {
        assert!(counts[number] > 100);
    }
}

#[test]
fn what_is_loaded_is_written() {
    let mut random = Random::new(17);
    let mut taken = 0;
    for _ in 0..5_000 {
        let table = tables::any(&mut random);
        let lists = lists::Lists::of_table(&table).shuffled(&mut random);
        let mut buffer = vec![0xAA; table.len()];
        let answer = write(&lists.devices, &lists.links, &mut buffer);
        if load(&table).is_ok() {
            assert_eq!((answer, buffer), (Ok(table.len()), table));
            taken += 1;
        }
    }
    assert!(taken > 1_000);
}

#[test]
fn loaded_bench() {
    let bench = day_bench();
    assert!(bench.sound());
    assert_eq!(bench.parent[..4], [255, 255, 0, 0]);
    assert_eq!(bench.depth[..4], [1, 1, 1, 0]);
    assert_eq!(
        (bench.consumer[0], bench.supplier[0], bench.flags[0]),
        (2, 1, 1)
    );
}

#[test]
fn unsound_benches() {
    let spoilers: [fn(&mut Bench); 14] = [
        |bench| bench.n = 2,
        |bench| bench.m = 0,
        |bench| bench.parent[5] = 255,
        |bench| bench.flags[127] = 1,
        |bench| bench.holds[0] = 32_768,
        |bench| bench.error[0] = 4_096,
        |bench| bench.status[0] = RESUMING,
        |bench| bench.status[1] = 4,
        |bench| bench.children[2] = 1,
        |bench| bench.linked[1] = 1,
        |bench| bench.target = 1,
        |bench| bench.callback = IDLE_CALLBACK,
        |bench| bench.carried[0] = 1,
        |bench| bench.count = 4,
    ];
    for spoil in spoilers {
        let mut bench = day_bench();
        spoil(&mut bench);
        assert!(!bench.sound());
    }
}

#[test]
fn zero_rows_can_be_devices() {
    let mut bench = day_bench();
    bench.n = 64;
    assert!(bench.sound());
    bench.n = 65;
    assert!(!bench.sound());
}

#[test]
fn every_record_keeps_soundness() {
    let (mut random, mut tally) = (Random::new(7), Tally::default());
    for _ in 0..500 {
        let bench = load(&tables::small(&mut random, 12)).unwrap();
        let mut session = Session::new(bench, &mut tally);
        session.enable_all(&mut random);
        let host = any_host(&mut random);
        session.play(&mut random, host, 60);
        assert!(session.bench.sound());
    }
}

#[test]
fn cuts_do_not_matter() {
    let (mut random, mut tally) = (Random::new(11), Tally::default());
    for _ in 0..200 {
        let start = load(&tables::small(&mut random, 7)).unwrap();
        let mut session = Session::new(start.clone(), &mut tally);
        let host = any_host(&mut random);
        session.play(&mut random, host, 40);
        session.leave_rest(&mut random);
        let (mut bench, mut replies) = (start, vec![0; session.replies.len()]);
        let whole = bench.feed(&session.log, &mut replies);
        assert_eq!(whole, Ok(session.replies.len() / 4));
        assert_eq!((bench, replies), (session.bench, session.replies));
    }
}

/// The form of a bench with these bytes at these offsets, and 0 at all others.
fn form_with(places: &[(usize, &[u8])]) -> Vec<u8> {
    let mut form = vec![0; 4_753];
    for (at, bytes) in places {
        form[*at..at + bytes.len()].copy_from_slice(bytes);
    }
    form
}

#[test]
fn the_saved_day() {
    let loaded = form_with(&[
        (0, b"TWS\x01\x00"),
        (5, &[255, 255, 0]),
        (773, &[1, 1, 1]),
        (1285, &[2]),
        (1413, &[1]),
        (1541, &[1]),
        (1669, &[3]),
        (4749, &[1]),
    ]);
    let mut bench = day_bench();
    assert_eq!(save(&bench), Ok(loaded));
    // The reference is asked to resume for the converter, which is held.
    for (record, _) in &DAY[..5] {
        bench.record(*record);
    }
    assert_eq!(bench.feed(&[0x0D, 0x01], &mut []), Ok(0));
    let waking = form_with(&[
        (0, b"TWS\x01\x00"),
        (5, &[255, 255, 0]),
        (517, &[ACTIVE, RESUMING, SUSPENDED]),
        (1285, &[2]),
        (1413, &[1]),
        (1541, &[1]),
        (1669, &[3]),
        (1670, &[RESUME_CALLBACK, 1, 2]),
        (1673, &[2, 0x0D, 0x01]),
        (1677 + 4 * 2, &[1]),
        (4749, &[1]),
    ]);
    assert_eq!(save(&bench), Ok(waking));
    // All are awake; the bus ignores its child, the converter has an error and many holds.
    let mut bench = day_bench();
    for (record, _) in DAY {
        bench.record(record);
    }
    bench.ignore[0] = 1;
    bench.depth[1] = 255;
    bench.error[2] = 0x0FFE;
    bench.holds[2] = 0x7FFE;
    let awake = form_with(&[
        (0, b"TWS\x01\x00"),
        (5, &[255, 255, 0]),
        (261, &[1, 0, 0]),
        (517, &[ACTIVE; 3]),
        (773, &[0, 255, 0]),
        (1029, &[1, 0, 0]),
        (1285, &[2]),
        (1413, &[1]),
        (1541, &[1]),
        (1669, &[3]),
        (1677 + 4 * 2, &[0xFE, 0x7F, 0, 0]),
        (2701 + 4 * 2, &[0xFE, 0x0F, 0, 0]),
        (3725 + 4, &[1, 0, 0, 0]),
        (4749, &[1]),
    ]);
    assert_eq!(save(&bench), Ok(awake));
}

#[test]
fn the_last_rows_are_saved() {
    let mut links = vec![[1, 0, 1]];
    links.extend((2..64).flat_map(|consumer| [[consumer, 0, 1], [consumer, consumer - 1, 3]]));
    let mut bench = load(&written(&[255, 0].repeat(64), &links)).unwrap();
    for device in 0..64 {
        finishes(&mut bench, 10, device, 0, 0);
    }
    bench.holds[63] = 0x0102;
    let form = save(&bench).unwrap();
    assert_eq!(form[1285 + 124..1413], [63, 0, 0, 0]);
    assert_eq!(form[1413 + 124..1541], [62, 0, 0, 0]);
    assert_eq!(form[1541 + 124..1669], [3, 0, 0, 0]);
    assert_eq!(form[1677 + 4 * 63..][..4], [2, 1, 0, 0]);
    assert_eq!(form[3725..][..8], [63, 0, 0, 0, 1, 0, 0, 0]);
    assert_eq!(form[4749..], [125, 0, 0, 0]);
    assert_eq!(restore(&form), Ok(bench));
}

#[test]
fn what_is_saved_is_restored() {
    // Suspend, resume and idle are open, with 0 to 3 bytes carried.
    let mut benches = [awake_bench(), lone_bench(), awake_bench()];
    for (bench, kind) in benches.iter_mut().zip([8, 9, 7]) {
        send(bench, kind, 0, 0);
    }
    let open = benches.each_ref().map(|bench| bench.callback);
    assert_eq!(open, [SUSPEND_CALLBACK, RESUME_CALLBACK, IDLE_CALLBACK]);
    for start in benches {
        let record = [0x0D, 0, 0xF0, 0xFF];
        for carried in 0..4 {
            let mut bench = start.clone();
            bench.feed(&record[..carried], &mut []).unwrap();
            let form = save(&bench).unwrap();
            assert_eq!(form[1670], start.callback);
            assert_eq!(usize::from(form[1673]), carried);
            assert_eq!(form[1674..1674 + carried], record[..carried]);
            let mut again = restore(&form).unwrap();
            assert_eq!(again, bench);
            let (mut reply, mut right) = ([0; 4], [0; 4]);
            assert_eq!(again.feed(&record[carried..], &mut reply), Ok(1));
            assert_eq!(start.clone().feed(&record, &mut right), Ok(1));
            assert_eq!(reply, right);
        }
    }
}

#[test]
fn an_unsound_bench_is_not_saved() {
    assert_eq!(save(&Bench::empty()), Err(21));
    let mut bench = day_bench();
    bench.children[0] = 1;
    assert_eq!(save(&bench), Err(21));
    assert_eq!(restore(&form_of(&bench)), Err(21));
}

#[test]
fn forms_refused_in_order() {
    let form = save(&day_bench()).unwrap();
    assert_eq!(form.len(), 4_753);
    // Every fault of a later number is there as well.
    let mut bad = form.clone();
    bad[1669] = 0;
    assert_eq!(restore(&bad), Err(21));
    bad.push(0);
    assert_eq!(restore(&bad), Err(5));
    for version in [[0, 0], [2, 0], [0, 1], [1, 1]] {
        bad[3..5].copy_from_slice(&version);
        assert_eq!(restore(&bad), Err(3));
    }
    for (at, byte) in [(0, b't'), (1, b'T'), (2, b'B')] {
        let mut marked = bad.clone();
        marked[at] = byte;
        assert_eq!(restore(&marked), Err(2));
        for length in 0..5 {
            assert_eq!(restore(&marked[..length]), Err(1));
        }
        assert_eq!(restore(&marked[..5]), Err(2));
    }
    for length in 0..form.len() {
        let number = if length < 5 { 1 } else { 5 };
        assert_eq!(restore(&form[..length]), Err(number));
    }
}

#[test]
fn values_beyond_their_fields_are_refused() {
    let form = save(&day_bench()).unwrap();
    // The third and the fourth byte of holds, error and links of a device, and the upper ones of m.
    for at in [1679, 1680, 2703, 2704, 3727, 3728, 4750, 4751, 4752] {
        let mut bad = form.clone();
        bad[at] = 1;
        assert_eq!(restore(&bad), Err(21));
    }
}

#[test]
fn a_changed_form_is_refused_or_another_one() {
    let mut bench = day_bench();
    for (record, _) in &DAY[..5] {
        bench.record(*record);
    }
    let mut form = save(&bench).unwrap();
    let mut others = 0;
    for at in 0..form.len() {
        let right = form[at];
        for value in [0, 1, 2, 3, 127, 128, 255, right ^ 1, right ^ 2] {
            form[at] = value;
            if let (true, Ok(other)) = (value != right, restore(&form)) {
                assert_ne!(other, bench);
                assert_eq!(save(&other).as_ref(), Ok(&form));
                others += 1;
            }
        }
        form[at] = right;
    }
    assert!(others > 20);
}

#[test]
fn breaks_do_not_matter() {
    let (mut random, mut tally) = (Random::new(19), Tally::default());
    for _ in 0..100 {
        let start = load(&tables::small(&mut random, 7)).unwrap();
        let mut session = Session::new(start.clone(), &mut tally);
        session.enable_all(&mut random);
        let host = any_host(&mut random);
        session.play(&mut random, host, 40);
        session.leave_rest(&mut random);
        let (mut bench, mut replies) = (start, Vec::new());
        for byte in &session.log {
            bench = restore(&save(&bench).unwrap()).unwrap();
            let mut reply = [0; 4];
            let whole = bench.feed(&[*byte], &mut reply).unwrap();
            replies.extend(&reply[..4 * whole]);
        }
        assert_eq!((bench, replies), (session.bench, session.replies));
    }
}

/// The state bytes of a C host that has loaded the worked day's table, with two bytes behind them.
fn day_state() -> Vec<u8> {
    let mut state = vec![0xAA; FORM + 2];
    assert_eq!(host::load(&TABLE, &mut state), 0);
    assert_eq!(state[..FORM], save(&day_bench()).unwrap());
    assert_eq!(state[FORM..], [0xAA; 2]);
    state
}

#[test]
fn the_day_of_a_c_host() {
    let (mut state, mut bench) = (day_state(), day_bench());
    let mut replies = [0xAA; 50];
    assert_eq!(host::feed(&mut state, &day_log()[..6], &mut replies), 1);
    assert_eq!(
        (&replies[..4], &replies[4..]),
        (&[0; 4][..], &[0xAA; 46][..])
    );
    assert_eq!(host::feed(&mut state, &day_log()[6..], &mut replies), 11);
    assert_eq!(replies[..44], day_replies()[4..]);
    assert_eq!(replies[44..], [0xAA; 6]);
    bench.feed(&day_log(), &mut replies).unwrap();
    assert_eq!(state[..FORM], save(&bench).unwrap());
    assert_eq!(state[FORM..], [0xAA; 2]);
    // Part 1, the supplier of part 2, has one hold by its link; part 0 is the parent of part 2.
    for (question, answers) in [
        (0, [ACTIVE.into(); 3]),
        (1, [0, 1, 0]),
        (2, [1, 0, 0]),
        (3, [0, 0, 0]),
        (5, [0, 0, 1]),
    ] {
        for (part, answer) in (0..).zip(answers) {
            assert_eq!(host::ask(&state, question, part, u32::MAX), answer);
        }
    }
}

#[test]
fn wake_sets_of_a_c_host() {
    let state = day_state();
    for (part, members) in [(0, [1, 0, 0]), (1, [0, 1, 0]), (2, [1, 1, 1])] {
        for (second, member) in (0..).zip(members) {
            assert_eq!(host::ask(&state, 4, part, second), member);
        }
        for second in [3, 63, 64, 255, 256, 257, 65_537, 1 << 31, u32::MAX] {
            assert_eq!(host::ask(&state, 4, part, second), -24);
            assert_eq!(host::ask(&state, 0, second, part), -24);
        }
    }
    for question in [6, 7, 255, 256, 260, 65_536, 1 << 31, u32::MAX] {
        assert_eq!(host::ask(&state, question, 0, 0), -24);
    }
}

#[test]
fn a_c_host_is_refused_in_order() {
    let day = day_state();
    // A faulty table is refused with its own number, room or not.
    for (table, number) in [(&TABLE[..15], 5), (&TABLE[..6], 1), (&[], 1), (&TABLE, 8)] {
        for room in [0, 1, FORM - 1] {
            let mut state = vec![0xAA; room];
            assert_eq!(host::load(table, &mut state), -number);
            assert_eq!(state, vec![0xAA; room]);
        }
    }
    let mut version = day.clone();
    version[3] = 2;
    let mut unsound = day.clone();
    unsound[1669] = 0;
    for bad in [&day[..FORM - 1], &day[1..], &version, &unsound, &[]] {
        for (piece, room) in [(0, 0), (4, 4), (4_097, 5_000), (4_097, 0)] {
            let (mut state, mut replies) = (bad.to_vec(), vec![0xAA; room]);
            assert_eq!(host::feed(&mut state, &vec![1; piece], &mut replies), -21);
            assert_eq!((&state[..], replies), (bad, vec![0xAA; room]));
        }
        for (question, part) in [(0, 0), (6, 0), (0, 3), (4, u32::MAX)] {
            assert_eq!(host::ask(bad, question, part, 0), -21);
        }
    }
    for (piece, room, number) in [(4_097, 0, 22), (4_097, 5_000, 22), (8, 7, 23), (4, 0, 23)] {
        let (mut state, mut replies) = (day.clone(), vec![0xAA; room]);
        assert_eq!(
            host::feed(&mut state, &vec![1; piece], &mut replies),
            -number
        );
        assert_eq!((state, replies), (day.clone(), vec![0xAA; room]));
    }
}

#[test]
fn a_seed_gives_the_same_lines() {
    let lines = |seed| -> Vec<String> {
        let (mut random, mut tally) = (Random::new(seed), Tally::default());
        (0..50).map(|_| line(&mut random, &mut tally)).collect()
    };
    assert_eq!(lines(3), lines(3));
    assert_ne!(lines(3), lines(4));
}

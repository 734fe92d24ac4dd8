//! Errors without a frame as reports: every number, every cause and two at once, what becomes of the
//! state between other calls, and where the frame being filled ends.

use super::failed::{Play, LATE, MILLI};
use super::sheet::Sheet;
use crate::frame::HEADER_LENGTH;

/// FlexRay sources by their filters: for all, none, one that only slot 0 and cycle 0 would match, one
/// for everything but slot 0, for all but not started. Then CAN, started, and LIN, not started.
const SOURCES: &str = "3 0 3 1 3 2 3 3 3 4 1 5 2 6";
const STARTED: [usize; 4] = [0, 1, 2, 3];
const START: &str = "start 0
start 1
start 2
start 3
start 5
flexray-filter 0 0 2047 0 63 1
flexray-filter 2 0 0 0 0 64
flexray-filter 3 1 2047 0 63 1
flexray-filter 4 0 2047 0 63 1
can-mask 5 0 0";

/// Over the bits and the channels that are tried one by one: a bit that belongs to an update, and
/// numbers that are right again where they are cut to fewer bits.
const MORE_BITS: [u32; 21] = [
    18,
    30,
    31,
    32,
    34,
    48,
    62,
    63,
    64,
    74,
    128,
    142,
    255,
    256,
    266,
    1 << 16,
    65_550,
    1 << 31,
    0x8000_000a,
    0xffff_fffe,
    0xffff_ffff,
];
const MORE_CHANNELS: [u32; 8] = [
    255,
    256,
    257,
    259,
    65_537,
    1 << 31,
    0x8000_0003,
    0xffff_ffff,
];

pub fn every_error(sheet: &mut Sheet) {
    every_number(sheet);
    every_update(sheet);
    two_causes(sheet);
    no_report(sheet);
    other_calls(sheet);
    ends_of_frames(sheet);
    closings(sheet);
}

fn stage(play: &mut Play, limits: &str) {
    play.say(&format!("new\nsetup {limits} {SOURCES}"));
    play.say(START);
}

/// Every number of one word with right ones of the other, to each source in turn.
fn every_number(sheet: &mut Sheet) {
    let note = "Errors without a frame: all bits, all channels.";
    let mut play = Play::new(sheet, note);
    stage(&mut play, "256 8 1");
    for (i, bits) in (0..=16).chain(MORE_BITS).enumerate() {
        for channels in 1..=3 {
            let source = STARTED[(i + channels) % STARTED.len()];
            play.say(&format!("flexray-error {source} @ {channels} {bits}"));
        }
        play.take_waiting();
    }
    for (i, channels) in (0..=7).chain(MORE_CHANNELS).enumerate() {
        for (j, bits) in [0, 2, 4, 8, 14].into_iter().enumerate() {
            let source = STARTED[(i + j) % STARTED.len()];
            play.say(&format!("flexray-error {source} @ {channels} {bits}"));
        }
        play.take_waiting();
    }
    // No calls: these fit no 32 bits, and cut to them they would be right.
    for numbers in [
        "4294967297 10",
        "0x100000003 2",
        "18446744073709551615 0",
        "3 4294967296",
    ] {
        play.say(&format!("flexray-error 0 @ {numbers}"));
    }
    for numbers in [
        "1 4294967306",
        "2 0x10000000E",
        "3 0xFFFFFFFF00000004",
        "3 10 0",
        "3",
    ] {
        play.say(&format!("flexray-error 1 @ {numbers}"));
    }
    for channels in [0, 4, 257, u32::MAX] {
        for bits in [1, 16, 266, u32::MAX] {
            play.say(&format!("flexray-error 0 @ {channels} {bits}"));
        }
    }
    play.show();
}

/// The bits that an update may no longer give, one by one and with the others.
fn every_update(sheet: &mut Sheet) {
    let note = "FlexRay updates: every number of bits, and what is then told.";
    let mut play = Play::new(sheet, note);
    stage(&mut play, "256 8 1");
    let wide = [
        64,
        65,
        80,
        128,
        176,
        256,
        272,
        304,
        0x1_0010,
        0x8000_0000,
        0xffff_fff0,
        0xffff_ffff,
    ];
    for bits in (0..64u32).chain(wide) {
        let online = bits / 2 % 2;
        play.say(&format!("flexray-state 0 {online} {bits}\ntick @"));
        // The same bits in the other half: nothing but the low four decides.
        if bits % 16 == 0 || bits.count_ones() == 1 {
            play.say(&format!("flexray-state 0 {} {bits}\ntick @", 1 - online));
        }
        if bits % 8 == 0 {
            play.say("flexray-error 0 @ 1 6\ntick @\nflexray 0 @ 1 5 6 -");
            play.take_waiting();
        }
    }
    play.show();
}

/// Every source with every time and every range: no cause hides another that comes before it.
fn two_causes(sheet: &mut Sheet) {
    let note = "Errors without a frame with two causes at once.";
    let mut play = Play::new(sheet, note);
    stage(&mut play, "64 2 1");
    let absent = [
        "7",
        "8",
        "256",
        "4294967296",
        "9223372036854775808",
        "18446744073709551615",
    ];
    let others = ["0", "4", "4", "5", "6"];
    let numbers = ["3 10", "0 10", "3 9", "4 16"];
    for source in absent.into_iter().chain(others) {
        for numbers in numbers {
            for time in ["@", "281474976710656 0", "16 1000000000"] {
                play.say(&format!("flexray-error {source} {time} {numbers}"));
            }
        }
    }
    // All that a source may lack, in calls that are right but for that.
    for bits in [0, 2, 4, 6, 8, 10, 12, 14] {
        for source in ["4", "5", "6", "7", "263", "18446744073709551615"] {
            for channels in [1, 2, 3] {
                play.say(&format!("flexray-error {source} @ {channels} {bits}"));
            }
        }
        for source in STARTED {
            let [one, both] = [1, 3].map(|n| format!("flexray-error {source} @ {n} {bits}"));
            let stopped = format!("stop {source}\n{one}\n{both}");
            play.say(&format!("{stopped}\nstart {source}\n{one}"));
        }
    }
    for time in [
        "281474976710656 0",
        "18446744073709551615 999999999",
        "0 1000000000",
        "0 4294967295",
    ] {
        for bits in [0, 6, 14] {
            play.say(&format!("flexray-error 1 {time} 2 {bits}"));
        }
    }
    play.show();
}

/// A refused error is no report: it makes nothing known, and the tick tells what it would have.
fn no_report(sheet: &mut Sheet) {
    let note = "Refused errors without a frame, which are no reports.";
    let mut play = Play::new(sheet, note);
    stage(&mut play, "96 4 1");
    for (i, wrong) in ["0 10", "4 0", "3 1", "3 11", "3 16", "1 26", "2 256"]
        .into_iter()
        .enumerate()
    {
        let source = STARTED[i % STARTED.len()];
        let update = format!("flexray-state {source} 1 {}", 16 * (i % 4));
        let error = format!("flexray-error {source} @ {wrong}");
        play.say(&format!(
            "start {source}\n{error}\ntick @\n{update}\n{error}\ntick @\n{error}\ntick @"
        ));
        play.say(&format!(
            "flexray-error {source} @ 1 12\n{error}\ntick @\n{error}\ntick @\ntick @"
        ));
        play.show();
    }
}

/// What came before the error: the state is unknown, shown, not yet shown, or differs by bits that are
/// over since. All of source 0, which takes every frame.
const BEFORE: [&str; 7] = [
    "start 0",
    "start 0\nflexray-state 0 1 32\ntick @",
    "start 0\nflexray-state 0 0 16",
    "flexray-state 0 1 48\nconflict 0 @ 3 1027 63",
    "flexray-state 0 0 0\nflexray-error 0 @ 2 6",
    "flexray-error 0 @ 1 10",
    "flexray-state 0 1 0\nflexray 0 @ 1 5 6 01",
];

/// What comes behind it.
const BEHIND: [&str; 12] = [
    "tick @",
    "flexray 0 @ 1 5 6 01",
    "conflict 0 @ 3 1027 63",
    "conflict 0 @ 3 1027 63\nconflict 0 @ 1 1 0",
    "flexray-error 0 @ 3 10",
    "flexray-error 0 @ 3 4\nflexray-error 0 @ 3 0",
    "flexray-state 0 1 32",
    "flexray-state 0 0 0",
    "start 0",
    "start 0\nflexray-state 0 1 32",
    "stop 0\ntick @\nstart 0\nflexray-error 0 @ 3 10",
    "stop 0\nflexray-error 0 @ 3 10\ntick @\nflexray-state 0 1 16\nstart 0",
];

/// Two ticks at the end: the first finds a report since the last one, the second none.
fn other_calls(sheet: &mut Sheet) {
    let note = "Errors without a frame between frames, conflicts, updates, ticks and starts.";
    let mut play = Play::new(sheet, note);
    stage(&mut play, "160 8 1");
    for (i, before) in BEFORE.into_iter().enumerate() {
        for (j, behind) in BEHIND.into_iter().enumerate() {
            let bits = [10, 2, 4, 14, 0, 8, 12, 6][(i + j) % 8];
            // An unknown state becomes known also where no bit is set.
            let bits = if i == 0 { vec![bits, 0] } else { vec![bits] };
            for bits in bits {
                play.say(before);
                play.say(&format!("flexray-error 0 @ 3 {bits}\n{behind}"));
                if j % 2 == 0 {
                    play.say("flexray 0 @ 2 5 6 -");
                }
                play.say("tick @\ntick @");
                play.show();
            }
        }
    }
    // An update behind an error waits for the second tick, also where no bit was set.
    for bits in [0, 8, 0, 14, 0] {
        for update in ["1 32", "0 0", "1 48"] {
            let error = format!("flexray-error 0 @ 1 {bits}");
            play.say(&format!(
                "{error}\nflexray-state 0 {update}\ntick @\ntick @"
            ));
        }
        play.show();
    }
    // Of several sources: an error is a report of its own source alone.
    for source in STARTED {
        let error = format!("flexray-error {source} @ 2 8");
        play.say(
            "flexray-state 0 1 0\nflexray-state 1 1 16\nflexray-state 2 1 32\nflexray-state 3 1 48",
        );
        play.say(&format!("{error}\ntick @\n{error}\ntick @\ntick @"));
        play.say("offline");
        play.say(START);
    }
}

/// An error takes 8 bytes. These are left of the frame being filled.
const LEFT: [usize; 5] = [7, 8, 9, 15, 16];
/// Without a state and a payload.
const CAN_ITEM: usize = 9;

/// It fits, or closes the frame, for a byte; with a loss it is as long. With room for one, the frame
/// that closes is discarded, and this very item tells it.
fn ends_of_frames(sheet: &mut Sheet) {
    let note = "Errors without a frame at the end of a frame.";
    let mut play = Play::new(sheet, note);
    for (size, room) in [(48, 1), (48, 2), (64, 8)] {
        stage(&mut play, &format!("{size} {room} 1"));
        for left in LEFT {
            for fails in [false, true] {
                play.act("ct");
                let payload = "A5".repeat(size - HEADER_LENGTH - CAN_ITEM - left);
                play.say("can 5 @ 0x123 01");
                play.act("c");
                play.say(&format!("can 5 @ 0x40000123 {payload}"));
                if fails {
                    play.say("failed");
                }
                play.say("flexray-error 0 @ 3 10\nflexray-error 1 @ 1 0\nfailures\ndiscards");
                play.show();
            }
        }
    }
    // Frames of errors alone: of each size, as many as it takes.
    for size in [32, 37, 38, 39, 45, 46, 47] {
        stage(&mut play, &format!("{size} 2 1"));
        for bits in [2, 2, 4, 8, 14, 0, 0, 10] {
            play.say(&format!("flexray-error 1 @ 2 {bits}"));
        }
        play.show();
        play.say("discards");
    }
}

/// For the offset, for the clock and for the deadline; into a queue that is full.
fn closings(sheet: &mut Sheet) {
    let note = "Errors without a frame that come late, or behind, and frames of them that are due.";
    let mut play = Play::new(sheet, note);
    for limits in ["64 2 1", "64 1 0", "32 1 655"] {
        stage(&mut play, limits);
        for wait in [
            655_340_000,
            655_350_000,
            LATE,
            -MILLI,
            0,
            -20_000,
            -655 * MILLI,
        ] {
            play.say("flexray-error 1 @ 1 8");
            play.wait(wait);
            play.say("flexray-error 2 @ 2 4\nflexray-error 1 @ 3 0\ndiscards");
            play.take_waiting();
        }
        for wait in [MILLI - 20_001, 1, 10_000, 654 * MILLI] {
            play.say("flexray-error 3 @ 2 14");
            play.wait(wait);
            play.say("tick @");
            play.take_waiting();
        }
    }
}

#[cfg(test)]
mod tests {
    use super::*;
    use crate::count;

    #[test]
    fn every_answer_of_an_error_comes() {
        let mut sheet = Sheet::default();
        every_error(&mut sheet);
        let counts = String::from_utf8(count::report(&sheet.into_bytes())).unwrap();
        for answer in [0, 2, 3, 4, 5, 7] {
            let wanted = format!("flexray-error {answer} ");
            let line = counts.lines().find_map(|line| line.strip_prefix(&wanted));
            let count: usize = line.map_or(0, |count| count.parse().unwrap());
            assert!(count >= 50, "{answer}: {count}");
        }
        for answer in [1, 6, 8] {
            let never = format!("flexray-error {answer} ");
            assert!(!counts.contains(&never), "{answer}");
        }
    }
}

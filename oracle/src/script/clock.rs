//! A clock that steps back, in every call that has a time: by chosen amounts, in calls that close,
//! discard, open or leave a frame, and beside everything that keeps a step from being told.

use super::scene::{shifted, LAST};
use super::sheet::Sheet;
use crate::frame::{Time, LAST_SECOND};

/// The words before the time and behind it.
type Call = (&'static str, &'static str);

const TICK: Call = ("tick", "");
const REPORTS: [Call; 5] = [
    ("can 0", "0x123 01"),
    ("lin 1", "0x7D 0 01"),
    ("flexray 2", "1 5 6 01"),
    ("conflict 2", "3 1027 63"),
    ("flexray-error 2", "2 10"),
];
const CALLS: [Call; 6] = [
    REPORTS[0], REPORTS[1], REPORTS[2], REPORTS[3], REPORTS[4], TICK,
];
/// It fills the smallest frame.
const LONG: Call = ("can 0", "0x123 0102030405060708");

const SOURCES: &str = "1 5 2 6 3 7 1 8 2 9";
const START: &str =
    "start 0\nstart 1\nstart 2\ncan-mask 0 0 0\nlin-mask 1 0 0\nflexray-filter 2 0 2047 0 63 1";

const MILLI: i128 = 1_000_000;
const SECOND: i128 = 1_000_000_000;
const ALL_SECONDS: i128 = LAST_SECOND as i128 * SECOND;
/// The most that a call tells.
const CUT: i128 = 4_294_967_295;
/// How far a clock was set back after a time sync.
const SYNC: i128 = 4 * MILLI;

/// A header's seconds and nanoseconds, and how far behind it the next call is: a nanosecond, the
/// units of an offset, the edges of a second and of the cut, and numbers that would be small, or
/// none, if seconds or nanoseconds were cut to fewer bits.
const STEPS: [(u64, u32, i128); 29] = [
    (16, 1, 1),
    (16, 0, 1),
    (0, 1, 1),
    (LAST_SECOND, 999_999_999, 1),
    (16, 500_000_000, SYNC),
    (16, SYNC as u32 - 1, SYNC),
    (16, SYNC as u32, SYNC),
    (16, 0, 9_999),
    (16, 65_536, 65_536),
    (17, 0, 655_360_000),
    (16, 7, SECOND - 1),
    (16, 7, SECOND),
    (16, 7, SECOND + 1),
    (16, 0, 1 << 31),
    (16, 0, CUT - 1),
    (5, 294_967_294, CUT - 1),
    (16, 999_999_999, CUT - 1),
    (LAST_SECOND, 294_967_293, CUT - 1),
    (4, 294_967_295, CUT),
    (1_700_000_000, 0, CUT),
    (4, 294_967_296, CUT + 1),
    (16, 0, CUT + 1),
    (1_700_000_000, 1, 2 * (CUT + 1)),
    (16, 0, 16 * SECOND),
    (1_700_000_000, 3, 110 * SECOND + 4),
    (4_294_967_312, 0, (CUT + 1) * SECOND),
    (LAST_SECOND, 0, 1 << 64),
    (LAST_SECOND, 0, ALL_SECONDS - 999_999_999),
    (LAST_SECOND, 999_999_999, ALL_SECONDS + 999_999_999),
];

pub fn every_step_back(sheet: &mut Sheet) {
    every_amount(sheet);
    not_behind(sheet);
    ticks_that_change_nothing(sheet);
    states_of_a_tick(sheet);
    empty_frames(sheet);
    full_frames_and_queues(sheet);
    two_in_a_row(sheet);
    refusals(sheet);
    calls_between(sheet);
}

fn at(seconds: u64, nanos: u32) -> Time {
    Time { seconds, nanos }
}

fn say(sheet: &mut Sheet, (head, tail): Call, time: Time) {
    let Time { seconds, nanos } = time;
    let line = format!("{head} {seconds} {nanos} {tail}");
    sheet.line(line.trim_end());
}

/// Three sources that take everything and two that nothing is asked of before they are started.
fn stage(sheet: &mut Sheet, limits: &str) {
    sheet.line("new");
    sheet.line(&format!("setup {limits} {SOURCES}"));
    sheet.text(START);
}

fn take_all(sheet: &mut Sheet) {
    while let Some(frame) = sheet.engine().framer().oldest_waiting() {
        let line = format!("take {}", frame.len());
        sheet.line(&line);
    }
}

/// Leaves nothing being filled and nothing waiting, where the deadline is a millisecond.
fn close(sheet: &mut Sheet) {
    while let Some(header) = sheet.engine().framer().filling_since() {
        let due = shifted(header, MILLI);
        say(sheet, TICK, due);
        if due == LAST {
            sheet.line("offline");
            sheet.text(START);
        }
    }
    take_all(sheet);
}

fn every_amount(sheet: &mut Sheet) {
    sheet.note("A clock that steps back by chosen amounts, in each call that has a time.");
    stage(sheet, "64 8 1");
    for (i, (seconds, nanos, back)) in STEPS.into_iter().enumerate() {
        let header = at(seconds, nanos);
        for call in CALLS {
            say(sheet, REPORTS[i % REPORTS.len()], header);
            say(sheet, call, shifted(header, -back));
            close(sheet);
        }
    }
}

/// The time of the header itself, times before the last item but not before the header, also with a
/// smaller nanosecond field, and one too late for the frame.
fn not_behind(sheet: &mut Sheet) {
    sheet.note("Times that are not behind the header, although they are behind an item.");
    stage(sheet, "128 8 1");
    let header = at(16, 999_990_000);
    for call in CALLS {
        say(sheet, REPORTS[0], header);
        say(sheet, call, header);
        say(sheet, REPORTS[0], shifted(header, 20_000));
        for later in [19_999, 10_000, 9_999, 1, 0] {
            say(sheet, call, shifted(header, later));
        }
        say(sheet, call, shifted(header, 655_360_000));
        close(sheet);
    }
    for edge in [Time::default(), LAST] {
        for call in CALLS {
            say(sheet, REPORTS[0], edge);
            say(sheet, call, edge);
            close(sheet);
        }
    }
}

fn ticks_that_change_nothing(sheet: &mut Sheet) {
    sheet.note("Ticks behind that close nothing and add nothing.");
    let header = at(16, 5_000_000);
    for limits in ["64 1 0", "64 1 1", "64 1 655"] {
        stage(sheet, limits);
        say(sheet, REPORTS[0], header);
        for back in [1, 0, SYNC, CUT - 1, CUT, CUT + 1, 16 * SECOND, SECOND, 1] {
            say(sheet, TICK, shifted(header, -back));
        }
        say(sheet, REPORTS[0], shifted(header, 10_000));
        say(sheet, TICK, shifted(header, -1));
        say(sheet, TICK, shifted(header, 655 * MILLI));
        say(sheet, REPORTS[0], shifted(header, 656 * MILLI));
        take_all(sheet);
    }
}

const UPDATES: [&str; 5] = [
    "can-state 0 1 0 0 0",
    "lin-state 1 1",
    "flexray-state 2 1 32",
    "start 3\ncan-state 3 1 1 0 64",
    "start 4\nlin-state 4 0",
];

/// The tick tells states: of how many sources, how far behind, and with which limits. Four items
/// overflow the smallest frame, and where there is room for one frame the old one is lost.
fn states_of_a_tick(sheet: &mut Sheet) {
    sheet.note("Ticks behind whose states start a new frame, which its deadline does not close.");
    for (count, back, limits) in [
        (1, 1, "64 8 1"),
        (1, SYNC, "64 8 0"),
        (2, 655 * MILLI, "64 1 655"),
        (3, SECOND, "48 1 1"),
        (3, CUT - 1, "32 1 0"),
        (5, CUT, "32 8 1"),
        (5, CUT + 1, "32 1 1"),
        (5, 16 * SECOND, "32 2 655"),
    ] {
        stage(sheet, limits);
        states_behind(sheet, count, back);
    }
}

fn states_behind(sheet: &mut Sheet, count: usize, back: i128) {
    let header = at(20, 0);
    let now = shifted(header, -back);
    say(sheet, LONG, at(19, 0));
    say(sheet, LONG, header);
    // The report of before is then none since the last tick.
    say(sheet, TICK, header);
    for update in &UPDATES[..count] {
        sheet.text(update);
    }
    for time in [now, now, shifted(now, -1), shifted(now, 655 * MILLI)] {
        say(sheet, TICK, time);
    }
    sheet.line("discards");
    take_all(sheet);
}

/// A frame that was closed or dropped leaves no header time behind.
fn empty_frames(sheet: &mut Sheet) {
    sheet.note("Times behind a frame that is no longer being filled.");
    let header = at(16, 0);
    let now = at(15, 999_999_999);
    sheet.text("new\ntick 16 0\ntick 15 999999999");
    for call in CALLS {
        stage(sheet, "64 8 1");
        say(sheet, call, now);
        close(sheet);
        say(sheet, REPORTS[0], header);
        say(sheet, TICK, shifted(header, MILLI));
        say(sheet, call, now);
        for way in ["offline", "switch 48 2 1"] {
            say(sheet, REPORTS[1], shifted(header, SECOND));
            sheet.line(way);
            sheet.text(START);
            sheet.text(UPDATES[2]);
            say(sheet, call, now);
        }
        take_all(sheet);
    }
}

/// A full frame would have closed without the step too; with a frame waiting it is discarded.
fn full_frames_and_queues(sheet: &mut Sheet) {
    sheet.note(
        "Frames that close for their size or for the offset, and behind; then into a full queue.",
    );
    for call in REPORTS {
        stage(sheet, "32 1 0");
        let header = at(100, 500);
        say(sheet, LONG, header);
        say(sheet, call, header);
        take_all(sheet);
        say(sheet, LONG, shifted(header, 656 * MILLI));
        say(sheet, call, shifted(header, 655 * MILLI));
        sheet.line("discards");
        for seconds in [99, 98, 90] {
            say(sheet, LONG, at(seconds, 0));
            say(sheet, call, shifted(at(seconds, 0), -1));
            say(sheet, call, shifted(at(seconds, 0), -SYNC));
            sheet.line("discards");
        }
        take_all(sheet);
        say(sheet, call, at(80, 0));
        say(sheet, call, at(0, 0));
        take_all(sheet);
    }
}

/// The second step is measured from the frame that the first one opened; a tick that tells no state
/// opens none.
fn two_in_a_row(sheet: &mut Sheet) {
    sheet.note("Two steps back in a row.");
    stage(sheet, "64 8 1");
    let header = at(17, 2_000_000);
    for first in CALLS {
        for second in CALLS {
            say(sheet, REPORTS[2], header);
            say(sheet, first, shifted(header, -SYNC));
            say(sheet, second, shifted(header, -SYNC - 1));
            close(sheet);
        }
    }
}

/// Against the stage of `refusals`: sources 3 to 5 are not started, and there is no source 6.
const REFUSED: [Call; 29] = [
    ("can 6", "0x123 01"),
    ("can 1", "0x123 01"),
    ("can 3", "0x123 01"),
    ("can 0", "0x20000123 01"),
    ("can 0", "0x123 010203040506070809"),
    ("can 0", "0x80000123 01"),
    ("can 0", "0x40000123 010203040506070809"),
    ("lin 6", "0x7D 0 01"),
    ("lin 2", "0x7D 0 01"),
    ("lin 4", "0x7D 0 01"),
    ("lin 1", "0x3D 0 01"),
    ("lin 1", "0x7D 0 010203040506070809"),
    ("lin 1", "0x80 0 01"),
    ("flexray 6", "1 5 6 01"),
    ("flexray 0", "1 5 6 01"),
    ("flexray 5", "1 5 6 01"),
    ("flexray 2", "1 0 6 01"),
    ("flexray 2", "1 2047 6 01"),
    ("flexray 2", "1 5 6 01020304050607080910"),
    ("conflict 6", "1 5 6"),
    ("conflict 0", "1 5 6"),
    ("conflict 5", "1 5 6"),
    ("conflict 2", "4 5 6"),
    ("conflict 2", "1 2047 6"),
    ("flexray-error 6", "2 10"),
    ("flexray-error 0", "2 10"),
    ("flexray-error 5", "2 10"),
    ("flexray-error 2", "4 10"),
    ("flexray-error 2", "2 11"),
];

fn refusals(sheet: &mut Sheet) {
    sheet.note("Refused calls with times behind, then calls at the same time that are accepted.");
    let header = at(16, 500);
    for (i, back) in [1, SYNC, CUT, CUT + 1, 16 * SECOND].into_iter().enumerate() {
        sheet.text("new\nsetup 32 2 1 1 5 2 6 3 7 1 8 2 9 3 10\nstart 0\nstart 1\nstart 2");
        sheet.text("can-mask 0 0x80000000 0\nlin-mask 1 1 1\nflexray-filter 2 1 2046 0 63 1");
        say(sheet, REPORTS[0], header);
        let now = shifted(header, -back);
        for call in REFUSED {
            say(sheet, call, now);
        }
        let (Time { seconds, nanos }, long) = (now, "00".repeat(255));
        sheet.line(&format!("flexray 2 {seconds} {nanos} 1 5 6 {long}"));
        // As counts of nanoseconds these lie before the header time, and are out of range.
        for call in CALLS {
            say(sheet, call, at(15, 1_000_000_000));
            say(sheet, call, at(0, u32::MAX));
        }
        say(sheet, TICK, now);
        say(sheet, CALLS[i], now);
        take_all(sheet);
    }
}

/// Nothing here touches the frame being filled, nor its header time.
const BETWEEN: &str = "take 22
discards
switch 31 1 1
setup 64 1 1 1 5
stop 0
start 0
can-state 0 1 0 0 8
remove 0 0
can-mask 0 0 0
tick 281474976710656 0
can 0 281474976710655 1000000000 1 -";

fn calls_between(sheet: &mut Sheet) {
    sheet.note("Other calls between the report that opened the frame and the step.");
    stage(sheet, "48 2 1");
    for call in CALLS {
        for seconds in [14, 16] {
            say(sheet, LONG, at(seconds, 0));
        }
        sheet.text(BETWEEN);
        say(sheet, call, at(15, 1));
        take_all(sheet);
        say(sheet, call, at(14, 0));
        close(sheet);
    }
}

#[cfg(test)]
mod tests {
    use super::*;
    use crate::count;

    #[test]
    fn every_way_of_a_step_back_comes() {
        let mut sheet = Sheet::default();
        every_step_back(&mut sheet);
        let counts = String::from_utf8(count::report(&sheet.into_bytes())).unwrap();
        let of = |what: &str| -> usize {
            let line = counts.lines().find_map(|line| line.strip_prefix(what));
            line.map_or(0, |count| count.trim().parse().unwrap())
        };
        for (least, words) in [
            (50, "can lin flexray conflict flexray-error tick one cut"),
            (
                20,
                "under-cut edge second tick-still fits discards equal empty",
            ),
            (10, "tick-opens full"),
        ] {
            for what in words.split(' ') {
                assert!(of(&format!("back {what} ")) >= least, "{what}");
            }
        }
        for cause in 1..=8 {
            assert!(of(&format!("back refused-{cause} ")) >= 10, "{cause}");
        }
    }

    #[test]
    fn both_edges_of_the_cut_come_in_every_call() {
        let mut sheet = Sheet::default();
        every_amount(&mut sheet);
        let script = String::from_utf8(sheet.into_bytes()).unwrap();
        for (head, _) in CALLS {
            for nanos in [705_032_706, 705_032_704] {
                let line = format!("\n{head} 11 {nanos}");
                assert!(script.contains(&line), "{line}");
            }
            assert!(script.contains(&format!("\n{head} 1699999995 705032705")));
        }
    }
}

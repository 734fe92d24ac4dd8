//! Which item tells that a send failed: of every sort, for several losses at once, and at the end of
//! a frame, where the byte for the state makes the item too long.

use super::failed::{Play, CAN, CONFLICT, ERROR, FLEXRAY, LATE, LIN, MILLI, TICK};
use super::sheet::Sheet;
use crate::frame::HEADER_LENGTH;

pub fn every_item(sheet: &mut Sheet) {
    told_by_every_item(sheet);
    several_losses(sheet);
    lengths(sheet);
}

/// What tells the loss, and what is called before it to make the state known, or unknown again.
const TELLERS: [(&str, &str); 15] = [
    (CAN, "start 0"),
    (CAN, "can-state 0 1 0 0 0"),
    (CAN, ""),
    (LIN, "start 1"),
    (LIN, ""),
    ("lin 1 @ 0x7D 5 01", "lin-state 1 1"),
    (FLEXRAY, "start 2"),
    (FLEXRAY, "flexray-state 2 1 32"),
    (CONFLICT, ""),
    (CONFLICT, "start 2"),
    (ERROR, ""),
    (ERROR, "start 2"),
    (ERROR, "flexray-state 2 1 32"),
    (TICK, "start 1\nlin-state 1 1"),
    (TICK, "start 1\nlin-state 1 1\nstart 2\nflexray-state 2 1 0"),
];

/// Where nothing is being filled, in the frame being filled, and in a new one, for the offset or
/// because the clock steps back.
fn told_by_every_item(sheet: &mut Sheet) {
    let note = "Each sort of item tells that a send failed, and only the next one.";
    let mut play = Play::new(sheet, note);
    play.stage("80 2 1");
    for (i, (teller, before)) in TELLERS.into_iter().enumerate() {
        let opens = [LATE, -MILLI][i % 2];
        for (letters, wait) in [("f", 0), ("rf", 0), ("rf", opens)] {
            play.say(before);
            play.act(letters);
            play.wait(wait);
            play.say(&format!("{teller}\n{teller}\n{FLEXRAY}\nfailures"));
            play.show();
        }
    }
    // That a state was unknown when it told the loss leaves it unshown.
    for wait in [0, LATE] {
        play.say("start 0\nfailed");
        play.say(CAN);
        play.wait(wait);
        play.say("can-state 0 0 0 0 0\ntick @\ntick @\ntick @");
        play.show();
    }
}

/// As in `act`, from a queue that is full and a frame that is out: what closes before a take is
/// discarded.
const LOSSES: [&str; 14] = [
    "rcfr", "rfl", "fr", "rfcr", "ftfr", "rcftfr", "rfctfr", "rftl", "tfr", "ttffr", "rcrfr",
    "frfr", "frtfr", "rcfrcr",
];

fn several_losses(sheet: &mut Sheet) {
    let note = "Several losses before the next item, which tells them all.";
    let mut play = Play::new(sheet, note);
    for (room, losses) in [(1, &LOSSES[..]), (2, &LOSSES[..9]), (8, &LOSSES[..2])] {
        play.stage(&format!("64 {room} 1"));
        for losses in losses {
            play.act(&"rc".repeat(room));
            play.act("trc");
            play.act(losses);
            // A take makes room for the frame that holds the items.
            play.act("?rt");
            play.show();
        }
    }
}

/// The report that tells the loss, and its length without a state.
const LENGTHS: [(&str, usize); 3] = [
    ("can 0 @ 0x123 01020304", 13),
    ("lin 1 @ 0x7D 0 01020304", 10),
    ("flexray 2 @ 1 5 6 01020304", 12),
];
const SIZE: usize = 48;
/// Of the report that fills the frame to an edge: without a state and a payload.
const FILLER: usize = 9;

/// As many bytes are left as the item has without a state, or one more: with the loss it is a byte
/// too long, or just fits. With room for one, the frame that closes is discarded.
fn lengths(sheet: &mut Sheet) {
    let note = "Items that a loss makes a byte longer, at the end of a frame.";
    let mut play = Play::new(sheet, note);
    for (room, known) in [(1, false), (1, true), (2, true)] {
        play.stage(&format!("{SIZE} {room} 1"));
        if known {
            play.say("can-state 0 1 0 0 0\nlin-state 1 1\nflexray-state 2 1 32");
        }
        play.say(LIN);
        play.show();
        for (report, length) in LENGTHS {
            for free in [1, 0] {
                to_the_edge(&mut play, report, length + free);
            }
        }
        let (report, length) = LENGTHS[0];
        to_the_edge(&mut play, report, length + 2);
        to_the_edge(&mut play, report, length - 1);
    }
}

/// One frame waits when the other is filled so far that some bytes are left. It is taken before a
/// further report closes a frame that is full.
fn to_the_edge(play: &mut Play, report: &str, left: usize) {
    play.act("rc");
    let payload = "A5".repeat(SIZE - HEADER_LENGTH - FILLER - left);
    play.say(&format!("can 0 @ 0x40000123 {payload}"));
    play.act("f");
    play.say(report);
    play.act("tr?");
    play.show();
}

//! Sends that failed: every way in which the call is refused, and what may stand between the take,
//! the call and the next item.

use super::scene::shifted;
use super::sheet::Sheet;
use crate::frame::Time;

pub const MILLI: i128 = 1_000_000;
/// The clock goes on by this much with each line: the unit of an offset.
const STEP: i128 = 10_000;
/// So much later an item starts a new frame.
pub const LATE: i128 = 656 * MILLI;

const SOURCES: &str = "1 5 2 6 3 7 1 8";
const START_ONE: &str = "start 0\ncan-mask 0 0 0";
const START_OTHERS: &str = "start 1\nstart 2\nlin-mask 1 0 0\nflexray-filter 2 0 2046 0 63 1";

/// `@` stands for the time.
pub const TICK: &str = "tick @";
pub const CAN: &str = "can 0 @ 0x123 01";
pub const LIN: &str = "lin 1 @ 0x7D 0 01";
pub const FLEXRAY: &str = "flexray 2 @ 1 5 6 01";
pub const CONFLICT: &str = "conflict 2 @ 3 1027 63";
pub const ERROR: &str = "flexray-error 2 @ 3 10";

/// The script, and a clock that goes on with each line.
pub struct Play<'a> {
    sheet: &'a mut Sheet,
    now: Time,
    /// The lines that `a` stands for in `act`.
    again: String,
}

impl<'a> Play<'a> {
    pub fn new(sheet: &'a mut Sheet, note: &str) -> Play<'a> {
        sheet.note(note);
        Play {
            sheet,
            now: Time {
                seconds: 16,
                nanos: 0,
            },
            again: String::new(),
        }
    }

    pub fn say(&mut self, lines: &str) {
        for line in lines.lines() {
            let Time { seconds, nanos } = self.now;
            let line = line.replace('@', &format!("{seconds} {nanos}"));
            self.sheet.line(&line);
            self.wait(STEP);
        }
    }

    pub fn wait(&mut self, nanos: i128) {
        self.now = shifted(self.now, nanos);
    }

    /// Three sources that take nearly everything, and one that is not started. A frame is out.
    pub fn stage(&mut self, limits: &str) {
        self.say(&format!("new\nsetup {limits} {SOURCES}"));
        self.say(START_ONE);
        self.say(START_OTHERS);
        self.act("rct");
    }

    /// A report, a late one, a tick that closes where the deadline is a millisecond, a take, one that
    /// is refused with `n`, failed, and the counts, by their first letters.
    pub fn act(&mut self, letters: &str) {
        for letter in letters.chars() {
            match letter {
                'r' => self.say(CAN),
                'l' => {
                    self.wait(LATE);
                    self.say(CAN);
                }
                'c' => {
                    self.wait(MILLI);
                    self.say(TICK);
                }
                't' => self.take(),
                'n' => self.say("take 0"),
                'f' => self.say("failed"),
                'a' => self.say(&self.again.clone()),
                _ => self.say("failures\ndiscards"),
            }
        }
    }

    fn take(&mut self) {
        let waiting = self.sheet.engine().framer().oldest_waiting();
        let length = waiting.map_or(0, <[u8]>::len);
        self.say(&format!("take {length}"));
    }

    /// Shows what the frames hold: they are closed and taken.
    pub fn show(&mut self) {
        self.act("c");
        self.take_waiting();
    }

    pub fn take_waiting(&mut self) {
        while self.sheet.engine().framer().waiting() > 0 {
            self.take();
        }
    }
}

pub fn every_failure(sheet: &mut Sheet) {
    before_any_take(sheet);
    beginning_again(sheet);
    calls_between(sheet);
}

fn before_any_take(sheet: &mut Sheet) {
    let mut play = Play::new(sheet, "Sends that failed before there was any.");
    play.say("new");
    for calls in [
        "take 0",
        TICK,
        "offline",
        "switch 64 1 1",
        "setup 31 1 1 1 5",
        "failures",
        "setup 64 1 1 1 5 2 6",
        "take 64",
        "offline",
        "switch 64 2 1",
        START_ONE,
        CAN,
        "tick 17 0",
        "take 4",
        "take 23",
        "failures\ndiscards",
    ] {
        play.say("failed");
        play.say(calls);
    }
    play.now.seconds = 18;
    play.act("ft?f?f?rr?");
    play.show();
}

/// Out, called failed, out behind a failure; with a frame that waits or is being filled; and then
/// refused takes, of either cause.
const AGAIN: [&str; 6] = [
    "af?nfrcfnftff?",
    "fa?frrct?",
    "fa?nfrfcfrnft?",
    "rctfrcta?nfrct",
    "rctrfa?frct",
    "rcrafnfrcft?",
];

/// The frame that is out, the loss and the count are forgotten, or are not where the call is refused.
fn beginning_again(sheet: &mut Sheet) {
    let note = "Sends that failed, and offline, a switch or a new engine.";
    let mut play = Play::new(sheet, note);
    let afresh = format!("new\nfailures\nfailed\nsetup 64 1 1 {SOURCES}");
    play.stage("64 1 1");
    for again in ["offline", "switch 64 1 1", "switch 48 8 1", &afresh] {
        play.again = format!("{again}\n{START_ONE}");
        for letters in AGAIN {
            play.act(letters);
            play.show();
        }
    }
    for refused in [
        "switch 31 1 1",
        "switch 64 9 1",
        "setup 64 1 1 1 5",
        "new 0",
    ] {
        play.again = refused.to_string();
        play.act("afaf?rr");
        play.show();
    }
}

/// Calls that leave a loss and the frame that is out, or make an item. On the stage of
/// `calls_between` source 3 has no place for a filter, LIN ids are odd, and there is no source 4.
const BETWEEN: [&str; 52] = [
    "take 0",
    "take 4",
    "take 4",
    "take 23",
    TICK,
    TICK,
    "start 0",
    "stop 0\nstart 0",
    "stop 1",
    "start 1\nstart 1",
    "stop 2\nstop 2\nstart 2",
    "discards",
    "failures",
    "can-state 0 1 0 0 0",
    "lin-state 1 0",
    "flexray-state 2 1 48",
    "start 1\nlin-state 1 1\ntick @",
    "tick 281474976710656 0",
    "tick 0 1000000000",
    "can-mask 0 0 0\nremove 0 1",
    "can-range 0 1 0",
    "can-mask 3 0 0",
    "remove 0 7",
    "switch 0 1 1",
    "can 4 @ 0x123 01",
    "can 1 @ 0x123 01",
    "can 3 @ 0x123 01",
    "can 0 @ 2048 01",
    "can 0 @ 0x123 010203040506070809",
    "can 0 @ 0x40000123 0102030405060708091011121314151617181920212223242526272829303132",
    "can 0 16 1000000000 0x123 01",
    "lin 1 @ 0x80 0 01",
    "lin 1 @ 0x3D 0 01",
    "flexray 2 @ 1 2047 6 01",
    "conflict 2 @ 0 1 6",
    "flexray-error 4 @ 3 10",
    "flexray-error 0 @ 3 10",
    "flexray-error 2 @ 0 10",
    "flexray-error 2 @ 3 11",
    "flexray-state 2 1 62",
    "can-state 0 1 1 1 0",
    "lin-state 0 1",
    "flexray-state 4 1 0",
    "failed 0",
    "failures 0",
    "failed failed\nFailed\nfaile\nfailed\t\n failed\nfailed -",
    "failures -\nfailure\nfailures failed\nfailures  0",
    CAN,
    LIN,
    FLEXRAY,
    CONFLICT,
    ERROR,
];

/// Every other time a frame waits and another one is being filled.
fn calls_between(sheet: &mut Sheet) {
    let note = "Other calls between the take, the failure and the next item.";
    let mut play = Play::new(sheet, note);
    play.stage("48 2 1");
    play.say("remove 1 0\nlin-mask 1 1 1");
    play.say(&"can-mask 3 0 0\n".repeat(8));
    for (i, call) in BETWEEN.into_iter().enumerate() {
        play.again = call.to_string();
        play.act(["", "rcr"][i % 2]);
        play.act("afafr");
        play.say(FLEXRAY);
        play.say("failures");
        play.show();
    }
}

#[cfg(test)]
mod tests {
    use super::*;
    use crate::count;
    use crate::script::failed_items;

    #[test]
    fn every_way_of_a_failure_comes() {
        let mut sheet = Sheet::default();
        every_failure(&mut sheet);
        failed_items::every_item(&mut sheet);
        let counts = String::from_utf8(count::report(&sheet.into_bytes())).unwrap();
        let of = |what: &str| -> usize {
            let line = counts.lines().find_map(|line| line.strip_prefix(what));
            line.map_or(0, |count| count.trim().parse().unwrap())
        };
        for (least, words) in [
            (50, "0 17 17-twice empty filling told-can told-known told-unknown told-between"),
            (10, "17-before-setup 17-no-take 17-switch 17-new queue-full told-lin told-flexray told-opening bad"),
            (5, "17-offline 17-offline-take 17-switch-take discard-pending failure-pending then-discard-report"),
            (5, "grown-fits grown-closes grown-discards told-conflict told-flexray-error told-state told-behind told-several"),
            (3, "17-twice-take then-discard-tick dropped-offline dropped-switch dropped-new"),
        ] {
            for what in words.split(' ') {
                assert!(of(&format!("failed {what} ")) >= least, "{what}");
            }
        }
        for cause in (1..=14).chain([17]) {
            assert!(of(&format!("failed kept-{cause} ")) > 0, "{cause}");
        }
        for call in [
            "can",
            "lin",
            "flexray",
            "conflict",
            "flexray-error",
            "tick",
            "start",
            "stop",
            "12",
            "13",
        ] {
            assert!(of(&format!("failed after-{call} ")) > 0, "{call}");
        }
    }
}

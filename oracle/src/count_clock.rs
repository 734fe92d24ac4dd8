//! How often a script finds the clock behind, and what became of the frame then.

use crate::frame::{Time, HEADER_LENGTH};
use crate::framer::Framer;
use crate::text::{self, Line};
use std::collections::BTreeMap;

/// What a call tells where the clock is so far behind as to be cut.
const CUT: u32 = u32::MAX;

#[derive(Default)]
pub struct Clock {
    counts: BTreeMap<String, usize>,
    /// The header time of the last frame of this engine that a call left being filled.
    last: Option<Time>,
}

/// A call that has a time, with the frames before it and after it.
struct Timed<'a> {
    call: String,
    time: Time,
    before: &'a Framer,
    after: &'a Framer,
}

impl Clock {
    /// Looks at a line that is a call, at its answer, and at the frames before and after it.
    pub fn look(&mut self, line: &[u8], answer: &str, before: &Framer, after: &Framer) {
        let Line::Words(words) = text::words(line) else {
            return;
        };
        if let Some((call, time)) = timed_call(&words) {
            let timed = Timed {
                call,
                time,
                before,
                after,
            };
            self.look_at_answer(&timed, answer);
        } else if words == [b"new"] {
            self.last = None;
        }
        self.last = after.filling_since().or(self.last);
    }

    fn look_at_answer(&mut self, timed: &Timed, answer: &str) {
        let header = timed.before.filling_since();
        let is_before = |other: Time| timed.time.count() < other.count();
        if let Some(told) = answer.strip_prefix("0 back ") {
            let told = told.parse().unwrap_or(0);
            self.look_at_step(timed, told, header.unwrap_or_default());
        } else if answer == "0" {
            self.count("equal", header == Some(timed.time));
            self.count(
                "empty",
                header.is_none() && self.last.is_some_and(is_before),
            );
        } else if header.is_some_and(is_before) {
            self.count(&format!("refused-{answer}"), true);
        }
    }

    fn look_at_step(&mut self, timed: &Timed, told: u32, header: Time) {
        let (time, before, after) = (timed.time, timed.before, timed.after);
        self.count(&timed.call, true);
        self.count("one", told == 1);
        self.count("under-cut", told == CUT - 1);
        self.count("cut", told == CUT);
        let other_second = time.seconds != header.seconds;
        self.count("edge", other_second && time.nanos > header.nanos);
        self.count("second", other_second && time.nanos < header.nanos);
        if timed.call == "tick" {
            self.count("tick-still", before == after);
            self.count("tick-opens", after.filling_since() == Some(time));
        } else {
            // A loss that it tells in its new frame makes it a byte longer than before the closing.
            let item = after.filling().len() - HEADER_LENGTH;
            let fits = before.filling().len() + item <= before.limits().size as usize;
            self.count("fits", fits);
            self.count("full", !fits);
            self.count("discards", before.discards() < after.discards());
        }
    }

    fn count(&mut self, what: &str, holds: bool) {
        *self.counts.entry(what.to_string()).or_default() += usize::from(holds);
    }

    /// `back WHAT N`.
    pub fn report(&self) -> String {
        let counts = self.counts.iter();
        counts
            .map(|(what, count)| format!("back {what} {count}\n"))
            .collect()
    }
}

fn timed_call(words: &[&[u8]]) -> Option<(String, Time)> {
    let (seconds, nanos) = match words {
        [b"tick", seconds, nanos] => (seconds, nanos),
        [b"can" | b"lin" | b"flexray" | b"conflict" | b"flexray-error", _, seconds, nanos, ..] => {
            (seconds, nanos)
        }
        _ => return None,
    };
    let call = String::from_utf8_lossy(words[0]).into_owned();
    let time = Time {
        seconds: text::number(seconds)?,
        nanos: text::number32(nanos)?,
    };
    Some((call, time))
}

#[cfg(test)]
mod tests {
    use super::*;
    use crate::play::Player;

    /// The counts of calls on an engine with a CAN source and a queue for one frame.
    fn counts(calls: &[&str]) -> BTreeMap<String, usize> {
        let setup = ["new", "setup 32 1 1 1 5", "start 0", "can-mask 0 0 0"];
        let (mut player, mut clock) = (Player::default(), Clock::default());
        for (i, line) in setup.iter().chain(calls).enumerate() {
            let before = player.engine().framer().clone();
            let answer = player.line(i + 1, line.as_bytes()).unwrap();
            clock.look(line.as_bytes(), &answer, &before, player.engine().framer());
        }
        clock.counts.retain(|_, count| *count > 0);
        clock.counts
    }

    fn assert_counts(calls: &[&str], expected: &[(&str, usize)]) {
        let expected = expected
            .iter()
            .map(|&(what, count)| (what.to_string(), count));
        assert_eq!(counts(calls), expected.collect(), "{calls:?}");
    }

    const OPEN: &str = "can 0 16 5 1 -";

    #[test]
    fn how_far_a_tick_is_behind() {
        let still = |count, more: &[(&'static str, usize)]| {
            [&[("tick", count), ("tick-still", count)], more].concat()
        };
        assert_counts(&[OPEN, "tick 16 3"], &still(1, &[]));
        assert_counts(&[OPEN, "tick 16 4"], &still(1, &[("one", 1)]));
        let seconds = [OPEN, "tick 15 4", "tick 15 5", "tick 15 6"];
        assert_counts(&seconds, &still(3, &[("second", 1), ("edge", 1)]));
        let cuts = [OPEN, "tick 11 705032711", "tick 11 705032710", "tick 0 6"];
        let expected = still(3, &[("under-cut", 1), ("cut", 2), ("edge", 3)]);
        assert_counts(&cuts, &expected);
    }

    #[test]
    fn what_becomes_of_the_frame() {
        let state = [OPEN, "tick 16 5", "can-state 0 1 0 0 0", "tick 16 3"];
        assert_counts(&state, &[("equal", 1), ("tick", 1), ("tick-opens", 1)]);
        let reports = [OPEN, "can 0 16 3 1 -", "can 0 16 1 1 0102"];
        let expected = [("can", 2), ("fits", 1), ("full", 1), ("discards", 1)];
        assert_counts(&reports, &expected);
    }

    #[test]
    fn where_nothing_is_told() {
        assert_counts(&[OPEN, OPEN, "tick 16 6", "tick 16 5"], &[("equal", 2)]);
        let closed = [OPEN, "tick 17 0", "tick 16 5", "tick 16 4"];
        assert_counts(&closed, &[("empty", 1)]);
        assert_counts(&[OPEN, "offline", "tick 16 4"], &[("empty", 1)]);
        assert_counts(&[OPEN, "new", "tick 16 4"], &[]);
    }

    #[test]
    fn what_is_refused() {
        let behind = ["can 1 16 4 1 -", "can 0 16 4 2048 -", "tick 15 1000000000"];
        let not_behind = ["can 1 16 5 1 -", "tick 16 1000000000", "take 4"];
        let calls = [&[OPEN], &behind[..], &not_behind].concat();
        let expected = [("refused-2", 1), ("refused-5", 1), ("refused-7", 1)];
        assert_counts(&calls, &expected);
    }
}

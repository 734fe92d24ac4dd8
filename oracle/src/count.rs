//! How often a script gets each answer, so that a stored script can be held to a coverage.

use crate::count_clock::Clock;
use crate::count_error_frames::ErrorFrames;
use crate::count_errors::Errors;
use crate::count_failed::Sends;
use crate::count_pids::Pids;
use crate::frame::{Header, Id, Item, Kind};
use crate::play::Player;
use crate::state::LOST;
use crate::{reader, text};
use std::collections::BTreeMap;

/// `lines N`, `skipped N`, `bad N`, then `CALL ANSWER N` for each call and answer that occurred,
/// then `taken WHAT N` for what the taken frames held, then the lines about PIDs, about a clock that
/// steps back, about sends that failed and about errors without a frame.
pub fn report(script: &[u8]) -> Vec<u8> {
    let mut player = Player::default();
    let (mut lines, mut skipped, mut bad) = (0usize, 0usize, 0usize);
    let mut counts: BTreeMap<(String, u32), usize> = BTreeMap::new();
    let mut taken = Taken::default();
    let (mut pids, mut clock) = (Pids::default(), Clock::default());
    let mut sends = Sends::default();
    let (mut errors, mut error_frames) = (Errors::default(), ErrorFrames::default());
    for (i, line) in text::lines(script).enumerate() {
        lines += 1;
        let before = player.engine().clone();
        let Some(answer) = player.line(i + 1, line) else {
            skipped += 1;
            continue;
        };
        let after = player.engine();
        sends.look(line, &answer, &before, after);
        let first = answer.split(' ').next().unwrap_or_default();
        let call = call_name(line);
        match first.parse() {
            Ok(number) => {
                taken.look(&call, &answer);
                pids.look(line, number, after);
                clock.look(line, &answer, before.framer(), after.framer());
                errors.look(line, &answer, &before, after);
                error_frames.look(line, number);
                *counts.entry((call, number)).or_default() += 1;
            }
            Err(_) => bad += 1,
        }
    }
    let mut out = format!("lines {lines}\nskipped {skipped}\nbad {bad}\n");
    for ((call, number), count) in counts {
        out.push_str(&format!("{call} {number} {count}\n"));
    }
    for (what, count) in taken.counts {
        out.push_str(&format!("taken {what} {count}\n"));
    }
    out.push_str(&pids.report());
    out.push_str(&clock.report());
    out.push_str(&sends.report());
    out.push_str(&errors.report());
    out.push_str(&error_frames.report());
    out.into_bytes()
}

/// What the frames that a script takes hold: a call that answers 0 does not show that much came of it.
#[derive(Default)]
struct Taken {
    counts: BTreeMap<&'static str, usize>,
}

impl Taken {
    fn look(&mut self, call: &str, answer: &str) {
        let frame = taken_frame(answer).filter(|_| call == "take");
        let Some(frame) = frame else { return };
        let Ok(read) = reader::read(&frame) else {
            return self.count("unreadable", true);
        };
        self.count("frames", true);
        self.count("several-items", read.items.len() > 1);
        for placed in &read.items {
            self.look_at_item(&placed.item, &read.header);
        }
    }

    fn look_at_item(&mut self, item: &Item, header: &Header) {
        let state = item.state.unwrap_or(0);
        self.count("items", true);
        self.count("lost", state & LOST != 0);
        self.count("state", item.state.is_some());
        self.count("state-alone", item.id.is_none());
        let is_error = matches!(item.id, Some(Id::FlexRayError { .. }));
        let has_no_payload = item.id.is_some() && item.payload.is_none();
        self.count("conflict", has_no_payload && !is_error);
        self.count("flexray-error", is_error);
        self.count("lin-error", item.kind == Kind::Lin && state & 0x0f != 0);
        self.count("empty-payload", item.payload.is_some_and(<[u8]>::is_empty));
        self.count(
            "largest-offset",
            item.time.ticks_since(header.time) == 65_535,
        );
    }

    fn count(&mut self, what: &'static str, holds: bool) {
        *self.counts.entry(what).or_default() += usize::from(holds);
    }
}

/// The frame in the answer of an accepted take.
pub fn taken_frame(answer: &str) -> Option<Vec<u8>> {
    let mut words = answer.strip_prefix("0 ")?.split(' ');
    let length: usize = words.next()?.parse().ok()?;
    let mut output = text::bytes(words.next()?.as_bytes())?;
    output.truncate(length);
    Some(output)
}

fn call_name(line: &[u8]) -> String {
    let name = line
        .split(|&c| c == b' ' || c == b'#')
        .next()
        .unwrap_or_default();
    String::from_utf8_lossy(name).into_owned()
}

/// The script's line that gave answer line `k`, counted from 1, with its number before it.
pub fn line_of(script: &[u8], k: usize) -> Vec<u8> {
    let mut player = Player::default();
    let mut answered = 0;
    for (i, line) in text::lines(script).enumerate() {
        answered += usize::from(player.line(i + 1, line).is_some());
        if answered == k {
            let number = format!("line {}: ", i + 1);
            return [number.as_bytes(), line, b"\n"].concat();
        }
    }
    b"no such answer\n".to_vec()
}

#[cfg(test)]
mod tests {
    use super::*;

    const SCRIPT: &[u8] = b"new\n# note\nread 00\nread 01#x\n\nstep 0 -\nwhat\n";

    #[test]
    fn counts_by_call_and_answer() {
        let expected = "lines 7\nskipped 2\nbad 1\nnew 0 1\nread 20 2\nstep 20 1\n";
        assert_eq!(report(SCRIPT), expected.as_bytes());
    }

    #[test]
    fn counts_what_was_taken() {
        let script =
            b"setup 32 1 1 2 0\nstart 0\nlin-mask 0 0 0\nlin 0 1 0 0x80 1 -\ntick 2 0\ntake 32\n";
        let counts = String::from_utf8(report(script)).unwrap();
        for line in [
            "frames 1",
            "items 1",
            "lin-error 1",
            "empty-payload 1",
            "lost 0",
        ] {
            assert!(counts.contains(&format!("taken {line}\n")), "{line}");
        }
        assert_eq!(taken_frame("13 0 eeee"), None);
        assert_eq!(taken_frame("0 2 0102ee"), Some(vec![1, 2]));
    }

    #[test]
    fn finds_the_line_of_an_answer() {
        assert_eq!(line_of(SCRIPT, 3), b"line 4: read 01#x\n");
        assert_eq!(line_of(SCRIPT, 5), b"line 7: what\n");
        assert_eq!(line_of(SCRIPT, 6), b"no such answer\n");
    }
}

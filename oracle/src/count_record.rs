//! Which answers a script for `record` gets on the lines that write fields, and which ways.

use crate::count_positions::Positions;
use crate::frame::{Time, LAST_SECOND};
use crate::record::Recorder;
use crate::recording::{fields, judge};
use crate::text::{self, Line, LONGEST_LINE};
use std::collections::BTreeMap;

/// `record-NAME N` for each way that occurred, so that they stand beside those of recordings.
pub fn report(script: &[u8]) -> Vec<u8> {
    let mut recorder = Recorder::default();
    let mut ways = Ways::default();
    for (i, line) in text::lines(script).enumerate() {
        ways.add("lines");
        let written = recorder.recording().len();
        if let Some(answer) = recorder.line(i + 1, line) {
            ways.look(line, answer.split(' ').next().unwrap_or_default());
        }
        ways.look_at_written(line, &recorder.recording()[written..]);
    }
    let line = |(way, count): (&String, &usize)| format!("record-{way} {count}\n");
    ways.counts.iter().map(line).collect::<String>().into()
}

#[derive(Default)]
struct Ways {
    counts: BTreeMap<String, usize>,
    positions: Positions,
}

impl Ways {
    fn add(&mut self, way: &str) {
        *self.counts.entry(way.to_string()).or_default() += 1;
    }

    fn add_if(&mut self, holds: bool, way: &str) {
        if holds {
            self.add(way);
        }
    }

    /// A bad line answers a question mark.
    fn look(&mut self, line: &[u8], answer: &str) {
        self.add_if(line.len() > LONGEST_LINE, "too-long");
        if let (Some(text), true) = (line.strip_prefix(b"note "), answer != "?") {
            self.add(&format!("note-{answer}"));
            return self.look_at_note(text);
        }
        let Line::Words(words) = text::words(line) else {
            return;
        };
        let result = if answer == "?" { "bad" } else { answer };
        match words[..] {
            [b"start", _] => self.add(&format!("start-engine-{result}")),
            [b"start", seconds, nanos] => {
                self.add(&format!("start-{result}"));
                self.look_at_start(seconds, nanos);
            }
            [b"start", ..] => self.add("start-words"),
            [b"frame", ..] => self.add(&format!("frame-{result}")),
            [b"take", ..] => self.add(&format!("take-{result}")),
            [b"note", ..] => self.add("note-bad"),
            _ => {}
        }
    }

    fn look_at_note(&mut self, text: &[u8]) {
        for length in [0, 1_471, 1_472, 1_473] {
            self.add_if(text.len() == length, &format!("note-of-{length}"));
        }
        self.add_if(text.contains(&b'#'), "note-hash");
        self.add_if(text.first() == Some(&b' '), "note-first-space");
        self.add_if(text.last() == Some(&b' '), "note-last-space");
        self.add_if(text.last() == Some(&b'\r'), "note-carriage-return");
        self.add_if(text.iter().any(|&byte| byte >= 0x80), "note-high-bytes");
    }

    /// Which of the two numbers is out of range, or too wide.
    fn look_at_start(&mut self, seconds: &[u8], nanos: &[u8]) {
        let (Some(seconds), Some(nanos)) = (text::number(seconds), text::number(nanos)) else {
            return self.add("start-no-numbers");
        };
        let Ok(nanos) = u32::try_from(nanos) else {
            return self.add("start-wide-nanos");
        };
        let in_range = |seconds, nanos| Time { seconds, nanos }.is_in_range();
        let why = match (in_range(seconds, 0), in_range(0, nanos)) {
            (true, true) => return,
            (false, true) => "seconds",
            (true, false) => "nanos",
            (false, false) => "both",
        };
        self.add(&format!("start-42-{why}"));
        // As many bits of the seconds as a field has.
        let seconds = seconds & LAST_SECOND;
        self.positions.refuse(why, Some(Time { seconds, nanos }));
    }

    /// The positions of the items that the line wrote.
    fn look_at_written(&mut self, line: &[u8], written: &[u8]) {
        let from = if line.starts_with(b"take") {
            "take"
        } else {
            "frame"
        };
        for field in fields(written).0 {
            for way in self.positions.look_at(field, &judge(field)) {
                let shown = way == "0" || way == "positive" || way == "negative";
                self.add_if(shown, &format!("position-of-{from}"));
                self.add(&format!("position-{way}"));
            }
        }
    }
}

#[cfg(test)]
mod tests {
    use super::*;

    #[test]
    fn ways_of_the_lines_that_write() {
        let lines = [
            "note ",
            "note a#",
            "note",
            "start 0",
            "start 0 0",
            "start 281474976710656 0",
            "start 0 4294967296",
            "frame -",
            "frame",
            "take 0",
            "new",
            "# x",
        ];
        let expected = [
            "frame-20",
            "frame-bad",
            "lines",
            "note-0",
            "note-bad",
            "note-hash",
            "note-of-0",
            "start-0",
            "start-42",
            "start-42-seconds",
            "start-bad",
            "start-engine-2",
            "start-wide-nanos",
            "take-13",
        ];
        let many = |way: &str| match way {
            "lines" => 12,
            "note-0" => 2,
            _ => 1,
        };
        let line = |way: &&str| format!("record-{way} {}\n", many(way));
        let expected: String = expected.iter().map(line).collect();
        let counted = String::from_utf8(report(lines.join("\n").as_bytes())).unwrap();
        assert_eq!(counted, expected);
    }

    #[test]
    fn positions_of_what_the_lines_write() {
        let lines = [
            "frame 01070000000000100000000500050000810040",
            "start 15 0",
            "start 281474976710656 0",
            "setup 64 1 1 1 5",
            "start 0",
            "can-range 0 0 4294967295",
            "can 0 16 0 0x123 0102",
            "tick 17 0",
            "take 40",
        ];
        let counted = String::from_utf8(report(lines.join("\n").as_bytes())).unwrap();
        let positions: Vec<&str> = counted.lines().filter(|l| l.contains("position")).collect();
        let expected = [
            "dash-before",
            "first-nanosecond",
            "kept",
            "kept-seconds",
            "no-borrow",
            "of-take",
            "positive",
        ];
        let expected = expected.map(|way| format!("record-position-{way} 1"));
        assert_eq!(positions, expected);
    }
}

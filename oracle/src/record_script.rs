//! Makes scripts for `record` from a seed: first some fixed lines, then the mix of the script maker
//! with notes, microphone starts and frames between its lines.

use crate::frame::{Time, LAST_SECOND};
use crate::random::Random;
use crate::record::Recorder;
use crate::recording::LONGEST_BODY;
use crate::recording_frames as frames;
use crate::recording_maker::text as any_text;
use crate::script;
use crate::script::sheet::{hex, spelled};
use crate::tape::{Part, Tape};
use crate::text::{self, LONGEST_LINE};

/// Each row once. Nothing is set up yet, so that the starts with one number answer 2.
const HEAD: [&str; 46] = [
    "frame 010700000000001000000005000a00008100400002810040",
    "note a note",
    "note ",
    "note  two spaces before, and two behind  ",
    "note # no comment",
    "note a#b # c",
    "note a carriage return\r",
    "note \r",
    "note a tab\tand a backslash \\ and \\x5c",
    "note note",
    "note é ~ \u{7f}",
    "note",
    "note#",
    "note # text",
    "note\ttext",
    "note\r",
    " note text",
    "Note text",
    "notes text",
    "start 16 0",
    "start 16 0 ",
    "start 16 0 # comment",
    "start 0x10 0x3B9AC9FF",
    "start 281474976710655 999999999",
    "start 281474976710655 1000000000",
    "start 281474976710656 999999999",
    "start 281474976710656 1000000000",
    "start 18446744073709551615 4294967295",
    "start 18446744073709551616 0",
    "start 0 4294967296",
    "start 0",
    "start 0 ",
    "start",
    "start 0 0 0",
    "start  0 0",
    "start 0  0",
    "start -1 0",
    "frame -",
    "frame - # comment",
    "frame",
    "frame 0",
    "frame 0g",
    "frame 01 00",
    "frame 0100000000000010000000000000 ",
    "start 16 10006",
    "frame 010700000000001000000005000a00008100400002810040",
];

type Card = fn(&mut Random) -> Vec<u8>;
/// Cards with how often each is dealt.
type Deck = &'static [(usize, Card)];

const DECK: Deck = &[
    (8, |random| {
        let length = random.below(50);
        note(random, length)
    }),
    (2, |random| note(random, 1_471)),
    (2, |random| note(random, 1_472)),
    (2, |random| note(random, 1_473)),
    (1, |random| {
        let length = LONGEST_BODY + 2 + random.below(3_000);
        note(random, length)
    }),
    (2, |random| note(random, 0)),
    (2, odd_note),
    (2, |random| {
        let none = random.pick(&["note", "note#", "note#a", "note\t", "note\r", " note a"]);
        none.into()
    }),
    (6, |random| {
        let time = (random.next() >> 16, random.next() % 1_000_000_000);
        start(random, time)
    }),
    (5, |random| {
        let seconds = random.pick(&[0, 16, LAST_SECOND, LAST_SECOND + 1, u64::MAX]);
        let nanos = random.pick(&[0, 999_999_999, 1_000_000_000, u64::from(u32::MAX)]);
        start(random, (seconds, nanos))
    }),
    (3, |random| {
        let wide = random.pick(&["start 18446744073709551616 0", "start 16 4294967296"]);
        wide.into()
    }),
    (3, |random| {
        let fixed = random.pick(&HEAD);
        fixed.into()
    }),
    (6, |random| {
        let body = frames::right(random);
        frame(random, &body)
    }),
    (2, |random| {
        let body = frames::stump(random);
        frame(random, &body)
    }),
    (4, |random| {
        let body = frames::wrong_header(random);
        frame(random, &body)
    }),
    (10, |random| {
        let body = frames::wrong_item(random);
        frame(random, &body)
    }),
    (2, |random| {
        let body = frames::cut(random);
        frame(random, &body)
    }),
    (3, |random| {
        let length = random.pick(&[1_471, 1_472, 1_473, 1_473, 1_474, 3_000]);
        let body = match random.below(3) {
            0 => frames::wrong_of_length(random, length),
            _ => frames::of_length(random, length),
        };
        frame(random, &body)
    }),
    (2, no_frame),
];

fn own_line(random: &mut Random) -> Vec<u8> {
    let all = DECK.iter().map(|(often, _)| often).sum();
    let mut left = random.below(all);
    for &(often, card) in DECK {
        if left < often {
            return card(random);
        }
        left -= often;
    }
    Vec::new()
}

/// A line feed would end the line.
fn note(random: &mut Random, length: usize) -> Vec<u8> {
    let mut text = any_text(random, length);
    for byte in &mut text {
        if *byte == b'\n' {
            *byte = b'#';
        }
    }
    [b"note ", text.as_slice()].concat()
}

/// What would be cut off or skipped anywhere else is text.
fn odd_note(random: &mut Random) -> Vec<u8> {
    let odd = ["#", " ", "   ", "\r", " # ", "a ", "a\r", "#a#", "\\", "-"];
    format!("note {}", random.pick(&odd)).into()
}

fn start(random: &mut Random, (seconds, nanos): (u64, u64)) -> Vec<u8> {
    let (seconds, nanos) = (spelled(random, seconds), spelled(random, nanos));
    let behind = random.pick(&["", "", "", " ", "#", " # comment"]);
    format!("start {seconds} {nanos}{behind}").into()
}

fn frame(random: &mut Random, body: &[u8]) -> Vec<u8> {
    let digits = hex(random, body);
    let behind = random.pick(&["", "", "", " ", "#", " # comment"]);
    format!("frame {digits}{behind}").into()
}

/// Digits that are none, or not in pairs, or in the wrong place.
fn no_frame(random: &mut Random) -> Vec<u8> {
    let body = frames::right(random);
    let digits = hex(random, &body);
    let patterns = [
        "frame F0",
        "frame 0xF",
        "frame Fg0",
        "frame F F",
        "frame  F",
        "frame F\r",
        "frame F\t",
        "frames F",
        " frame F",
        "frame -F",
        "frame --",
        "frame 0 F",
    ];
    random.pick(&patterns).replace('F', &digits).into()
}

/// The longest lines that are none too long, and one character more.
fn long_lines() -> [Vec<u8>; 4] {
    let filled = |start: &str, with: u8, length: usize| {
        let mut line = start.as_bytes().to_vec();
        line.resize(length, with);
        line
    };
    [
        filled("note ", b'n', LONGEST_LINE),
        filled("note ", b'n', LONGEST_LINE + 1),
        filled("frame ", b'0', LONGEST_LINE),
        filled("frame ", b'0', LONGEST_LINE + 2),
    ]
}

/// The script while it is being made. Each line is played too, so that a start can be chosen by the
/// frame that the next line takes.
struct Made {
    lines: Vec<Vec<u8>>,
    recorder: Recorder,
    tape: Tape,
}

impl Made {
    fn new(random: &mut Random) -> Made {
        let frames = (0..40).map(|_| frames::with_items(random)).collect();
        Made {
            lines: Vec::new(),
            recorder: Recorder::default(),
            tape: Tape::new(random, frames),
        }
    }

    /// A start leaves the engine alone: what the line takes is the same behind it.
    fn push(&mut self, random: &mut Random, line: Vec<u8>) {
        let written = self.recorder.recording().len();
        self.recorder.line(1, &line);
        let field = &self.recorder.recording()[written..];
        if line.starts_with(b"take") && !field.is_empty() && !random.one_in(4) {
            let time = self.tape.start_for(random, &field[3..]);
            self.lines.push(start_at(random, time));
        }
        self.lines.push(line);
    }

    fn push_own(&mut self, random: &mut Random) {
        if !random.one_in(20) {
            let line = own_line(random);
            return self.push(random, line);
        }
        for part in self.tape.scene(random) {
            let line = line_of(random, part);
            self.push(random, line);
        }
    }
}

fn start_at(random: &mut Random, time: Time) -> Vec<u8> {
    start(random, (time.seconds, u64::from(time.nanos)))
}

/// A line can't have the wrong length. It has seconds of which the lower bits alone are a start's.
fn line_of(random: &mut Random, part: Part) -> Vec<u8> {
    match part {
        Part::Start(time) => start_at(random, time),
        Part::NoStart(mut time) => {
            time.seconds += LAST_SECOND + 1;
            start_at(random, time)
        }
        Part::Frame(bytes) => frame(random, &bytes),
    }
}

pub fn make(seed: u64, lines: usize) -> Vec<u8> {
    let mut random = Random::new(seed);
    let mut made = Made::new(&mut random);
    for line in HEAD {
        made.push(&mut random, line.into());
    }
    for line in long_lines() {
        made.push(&mut random, line);
    }
    let mix = script::mix(&mut random, lines.saturating_sub(made.lines.len()) / 2);
    for line in text::lines(&mix) {
        while random.one_in(2) {
            made.push_own(&mut random);
        }
        made.push(&mut random, line.to_vec());
    }
    while made.lines.len() < lines {
        made.push_own(&mut random);
    }
    made.lines
        .iter()
        .flat_map(|line| [line, b"\n".as_slice()].concat())
        .collect()
}

#[cfg(test)]
mod tests {
    use super::*;
    use crate::{count_record, record};

    #[test]
    fn a_script_is_as_long_as_asked_for_and_the_same_each_time() {
        for (seed, lines) in [(1, 0), (2, 60), (3, 3_000)] {
            let script = make(seed, lines);
            assert!(text::lines(&script).count() >= lines);
            assert_eq!(script, make(seed, lines));
        }
        assert_ne!(make(1, 100), make(2, 100));
    }

    #[test]
    fn the_head_answers() {
        let head = HEAD.join("\n");
        let (_, answers) = record::play(head.as_bytes());
        let answers = String::from_utf8(answers).unwrap();
        let answers: Vec<&str> = answers.lines().collect();
        let expected = [
            "0", "0", "0", "0", "0", "0", "0", "0", "0", "0", "0", "? 12", "? 13", "0", "? 15",
            "? 16", "? 17", "? 18", "? 19", "0", "0", "0", "0", "0", "42", "42", "42", "42",
            "? 29", "? 30", "2", "2", "? 33", "? 34", "? 35", "? 36", "? 37", "20", "20", "? 40",
            "? 41", "? 42", "? 43", "0", "0", "0",
        ];
        assert_eq!(answers, expected);
    }

    #[test]
    fn every_answer_of_the_new_lines_comes_whatever_the_seed() {
        for seed in 0..3 {
            let counts = String::from_utf8(count_record::report(&make(seed, 8_000))).unwrap();
            let frames = (20..=29)
                .chain([0, 41])
                .map(|n| format!("record-frame-{n} "));
            let others = [
                "note-0",
                "note-41",
                "start-0",
                "start-42",
                "take-0",
                "frame-bad",
            ];
            let others = others.iter().map(|way| format!("record-{way} "));
            for wanted in frames.chain(others) {
                assert!(counts.contains(&wanted), "{wanted} with seed {seed}");
            }
        }
    }
}

//! Plays a script with the lines that `record` knows besides: the frames that it takes, its notes, its
//! microphone starts and its frames become the fields of a recording.

use crate::count::taken_frame;
use crate::frame::Time;
use crate::play::Player;
use crate::recording;
use crate::text::{self, Line, LONGEST_LINE};

#[derive(Default)]
pub struct Recorder {
    player: Player,
    recording: Vec<u8>,
}

impl Recorder {
    /// What the lines so far have written.
    pub fn recording(&self) -> &[u8] {
        &self.recording
    }

    /// The answer to one line; a skipped line has none.
    pub fn line(&mut self, number: usize, line: &[u8]) -> Option<String> {
        if let Some(answer) = self.own_line(line) {
            return Some(answer.to_string());
        }
        let answer = self.player.line(number, line)?;
        if let Some(frame) = taken(line, &answer) {
            recording::write_frame(&mut self.recording, &frame);
        }
        Some(answer)
    }

    /// The answer number of a line that only `record` knows. A note is a note before anything of the
    /// line is cut or split.
    fn own_line(&mut self, line: &[u8]) -> Option<u8> {
        let out = &mut self.recording;
        if let Some(text) = note(line) {
            return Some(recording::write_note(out, text));
        }
        let Line::Words(words) = text::words(line) else {
            return None;
        };
        match words[..] {
            [b"start", seconds, nanos] => {
                let start = Time {
                    seconds: text::number(seconds)?,
                    nanos: text::number32(nanos)?,
                };
                Some(recording::write_start(out, start))
            }
            [b"frame", bytes] => Some(recording::write_frame(out, &text::bytes(bytes)?)),
            _ => None,
        }
    }
}

/// A line that is too long is no note either.
fn note(line: &[u8]) -> Option<&[u8]> {
    line.strip_prefix(b"note ")
        .filter(|_| line.len() <= LONGEST_LINE)
}

/// The frame that the line took.
fn taken(line: &[u8], answer: &str) -> Option<Vec<u8>> {
    match text::words(line) {
        Line::Words(words) if words[0] == b"take" => taken_frame(answer),
        _ => None,
    }
}

/// The recording and the answers.
pub fn play(script: &[u8]) -> (Vec<u8>, Vec<u8>) {
    let mut recorder = Recorder::default();
    let mut answers = Vec::new();
    for (i, line) in text::lines(script).enumerate() {
        if let Some(answer) = recorder.line(i + 1, line) {
            answers.extend_from_slice(answer.as_bytes());
            answers.push(b'\n');
        }
    }
    (recorder.recording, answers)
}

#[cfg(test)]
#[path = "record_tests.rs"]
mod tests;

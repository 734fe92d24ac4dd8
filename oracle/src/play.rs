//! Makes the calls of a script one after another and writes their answers.

use crate::calls;
use crate::engine::Engine;
use crate::frame::{Id, Placed};
use crate::reader::{self, Step};
use crate::text::{self, Line};
use crate::writer;

const LARGEST_REWRITE: u64 = 70_000;

/// What the calls of one script act on. The reader's calls keep nothing between them.
#[derive(Default)]
pub struct Player {
    engine: Engine,
}

impl Player {
    pub fn engine(&self) -> &Engine {
        &self.engine
    }

    /// The answer to one call, or nothing where the words are no call.
    fn call(&mut self, words: &[&[u8]]) -> Option<String> {
        let (name, rest) = words.split_first()?;
        match (*name, rest) {
            (b"new", []) => {
                self.engine = Engine::default();
                Some("0".to_string())
            }
            (b"read", [frame]) => Some(read(&text::bytes(frame)?)),
            (b"step", [place, frame]) => Some(step(text::number(place)?, &text::bytes(frame)?)),
            (b"payload", [place, frame]) => {
                Some(payload(text::number(place)?, &text::bytes(frame)?))
            }
            (b"rewrite", [size, frame]) => {
                let output = text::output(size, LARGEST_REWRITE)?;
                Some(rewrite(output, &text::bytes(frame)?))
            }
            _ => calls::call(&mut self.engine, name, rest),
        }
    }

    /// The answer to one line; a skipped line has none.
    pub fn line(&mut self, number: usize, line: &[u8]) -> Option<String> {
        let answer = match text::words(line) {
            Line::Skipped => return None,
            Line::TooLong => None,
            Line::Words(words) => self.call(&words),
        };
        Some(answer.unwrap_or_else(|| format!("? {number}")))
    }
}

pub fn answers(script: &[u8]) -> Vec<u8> {
    let mut player = Player::default();
    let mut out = Vec::new();
    for (i, line) in text::lines(script).enumerate() {
        if let Some(answer) = player.line(i + 1, line) {
            out.extend_from_slice(answer.as_bytes());
            out.push(b'\n');
        }
    }
    out
}

fn read(frame: &[u8]) -> String {
    match reader::read(frame) {
        Ok(yielded) => {
            let header = yielded.header;
            let time = header.time;
            format!(
                "0 {} {} {} {}",
                header.sequence, time.seconds, time.nanos, header.data_length
            )
        }
        Err(refusal) => format!("{refusal} 0 0 0 0"),
    }
}

fn step(place: u64, frame: &[u8]) -> String {
    match reader::step(frame, place) {
        Ok(Step::Item(placed)) => item(&placed),
        Ok(Step::End) => "0 end".to_string(),
        Err(refusal) => format!("{refusal} - - - - - - - -"),
    }
}

fn item(placed: &Placed) -> String {
    let item = &placed.item;
    let dash = || "-".to_string();
    let state = item.state.map_or_else(dash, |state| state.to_string());
    let length = item
        .payload
        .map_or_else(dash, |payload| payload.len().to_string());
    let id = match item.id {
        None => dash(),
        Some(Id::Can(key)) => key.to_string(),
        Some(Id::Lin(pid)) => pid.to_string(),
        Some(Id::FlexRay {
            channels,
            slot,
            cycle,
        }) => format!("{channels}/{slot}/{cycle}"),
        Some(Id::FlexRayError { channels }) => format!("{channels}/-/-"),
    };
    let time = item.time;
    let (next, kind, network) = (placed.next, item.kind as u8, item.network);
    format!(
        "0 {next} {} {} {kind} {network} {state} {id} {length}",
        time.seconds, time.nanos
    )
}

fn payload(place: u64, frame: &[u8]) -> String {
    match reader::payload(frame, place) {
        Ok(part) => format!("0 {}", text::hex(part)),
        Err(refusal) => format!("{refusal} -"),
    }
}

fn rewrite(mut output: Vec<u8>, frame: &[u8]) -> String {
    let answer = writer::rewrite(frame, &mut output);
    format!("{answer} {}", text::hex(&output))
}

#[cfg(test)]
#[path = "play_tests.rs"]
mod tests;

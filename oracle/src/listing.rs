//! The text that `list` writes of a recording.

use crate::frame::{Frame, Id, Item, Kind, Placed, Time, CAN_EXTENDED, CAN_FD};
use crate::position::position;
use crate::recording::{end_answer, fields, judge, Found};

/// The listing of a recording that is there as a whole.
pub fn list(recording: &[u8]) -> Vec<u8> {
    let mut listing = Listing::default();
    let (fields, rest) = fields(recording);
    for field in fields {
        listing.add(&judge(field));
    }
    listing.end(end_answer(rest))
}

/// The listing while it is being written.
#[derive(Default)]
pub struct Listing {
    text: String,
    skipped: u32,
    /// The latest good one.
    start: Option<Time>,
}

impl Listing {
    pub fn add(&mut self, found: &Found) {
        match found {
            Found::Skipped { .. } => self.skipped = self.skipped.saturating_add(1),
            Found::Start(start) => self.start = Some(*start),
            _ => {}
        }
        self.text.push_str(&lines(found, self.start));
    }

    pub fn end(mut self, answer: u8) -> Vec<u8> {
        self.text
            .push_str(&format!("end {answer} {}\n", self.skipped));
        self.text.into_bytes()
    }
}

fn lines(found: &Found, microphone: Option<Time>) -> String {
    match found {
        Found::Frame(frame) => frame_lines(frame, microphone),
        Found::Note(text) => format!("note {}\n", escaped(text)),
        Found::Start(start) => format!("start {}\n", time(*start)),
        Found::Refused { tag, answer } => format!("refused {tag} {answer}\n"),
        Found::Skipped { tag, length } => format!("skipped {tag} {length}\n"),
    }
}

fn frame_lines(frame: &Frame, microphone: Option<Time>) -> String {
    let header = &frame.header;
    let (sequence, length) = (header.sequence, header.data_length);
    let first = format!("frame {sequence} {} {length}\n", time(header.time));
    let line = |placed: &Placed| item_line(&placed.item, microphone);
    let items = frame.items.iter().map(line);
    std::iter::once(first).chain(items).collect()
}

fn item_line(item: &Item, microphone: Option<Time>) -> String {
    let words = [
        time(item.time),
        microphone.map_or_else(dash, |start| place(start, item.time)),
        bus(item).to_string(),
        item.network.to_string(),
        item.id.map_or_else(dash, id),
        item.state.map_or_else(dash, |state| format!("{state:02X}")),
        item.payload
            .map_or_else(dash, |bytes| bytes.len().to_string()),
        item.payload.map_or_else(dash, digits),
    ];
    format!("  {}\n", words.join(" "))
}

fn dash() -> String {
    "-".to_string()
}

/// On the tape.
fn place(start: Time, time: Time) -> String {
    position(start, time).map_or_else(|_| dash(), |sample| sample.to_string())
}

fn time(time: Time) -> String {
    format!("{}.{:09}", time.seconds, time.nanos)
}

/// Only an id tells CAN FD from CAN 2.0.
fn bus(item: &Item) -> &'static str {
    match (item.kind, item.id) {
        (Kind::Can, Some(Id::Can(key))) if key & CAN_FD != 0 => "CANFD",
        (Kind::Can, _) => "CAN",
        (Kind::Lin, _) => "LIN",
        (Kind::FlexRay, _) => "FLEXRAY",
    }
}

fn id(id: Id) -> String {
    match id {
        Id::Can(key) if key & CAN_EXTENDED != 0 => format!("{:08X}", key & 0x1fff_ffff),
        Id::Can(key) => format!("{:03X}", key & 0x7ff),
        Id::Lin(pid) => format!("{pid:02X}"),
        Id::FlexRay {
            channels,
            slot,
            cycle,
        } => format!("{}:{slot}:{cycle}", channel_names(channels)),
        Id::FlexRayError { channels } => format!("{}:-:-", channel_names(channels)),
    }
}

fn channel_names(channels: u8) -> &'static str {
    match channels {
        1 => "A",
        2 => "B",
        _ => "AB",
    }
}

fn digits(bytes: &[u8]) -> String {
    if bytes.is_empty() {
        return dash();
    }
    bytes.iter().map(|byte| format!("{byte:02X}")).collect()
}

/// A line stays one line of text whatever the note holds, and tells its bytes.
fn escaped(text: &[u8]) -> String {
    text.iter().map(|&byte| character(byte)).collect()
}

fn character(byte: u8) -> String {
    let is_printable = (0x20..=0x7e).contains(&byte);
    if is_printable && byte != b'\\' {
        char::from(byte).to_string()
    } else {
        format!("\\x{byte:02x}")
    }
}

#[cfg(test)]
#[path = "listing_tests.rs"]
mod tests;

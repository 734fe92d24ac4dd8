//! How errors without a frame come to the reader, and what it refuses of them.

use crate::frame::{Id, Kind, HEADER_LENGTH, SLOT_VALID};
use crate::reader;
use crate::text::{self, Line};
use std::collections::{BTreeMap, BTreeSet};

#[derive(Default)]
pub struct ErrorFrames {
    counts: BTreeMap<String, usize>,
    /// The first bytes of FlexRay ids, by their flags.
    first_bytes: BTreeMap<String, BTreeSet<u8>>,
}

/// The item for which a frame is refused, where it is FlexRay's and the first byte of its id is there.
struct Refused<'a> {
    place: &'static str,
    flags: u8,
    /// One to three bytes.
    id: &'a [u8],
}

impl ErrorFrames {
    /// Looks at a line that is a call.
    pub fn look(&mut self, line: &[u8], answer: u32) {
        let Line::Words(words) = text::words(line) else {
            return;
        };
        let (call, place, frame) = match words[..] {
            [call @ b"read", frame] => (call, None, frame),
            [call @ (b"step" | b"payload" | b"rewrite"), place, frame] => {
                (call, text::number(place), frame)
            }
            _ => return,
        };
        let call = String::from_utf8_lossy(call).into_owned();
        let Some(frame) = text::bytes(frame) else {
            return;
        };
        if let Ok(read) = reader::read(&frame) {
            for item in &read.items {
                let flags = frame[item.start + 2];
                let reached = match &call[..] {
                    "step" | "payload" => place == Some(item.start as u64),
                    _ => answer == 0,
                };
                self.look_at_accepted(&call, item.item.id, reached, item.start, flags);
                if let Some(Id::FlexRay { .. } | Id::FlexRayError { .. }) = item.item.id {
                    let id_at = item.start + 4 + usize::from(flags >> 7);
                    self.see(flags, frame[id_at]);
                }
            }
        } else if let Some(item) = refused(&frame) {
            self.look_at_refused(&call, &item, answer);
        }
    }

    fn look_at_accepted(
        &mut self,
        call: &str,
        id: Option<Id>,
        reached: bool,
        start: usize,
        flags: u8,
    ) {
        match id {
            Some(Id::FlexRayError { channels }) => {
                self.count(&format!("read-{}", place_of(start)), true);
                self.count(&format!("read-channels-{channels}"), true);
                self.count(&format!("read-by-{call}"), reached);
            }
            Some(Id::FlexRay { .. }) => self.count("frame-0", flags & 0xe0 == 0xc0),
            _ => {}
        }
    }

    fn look_at_refused(&mut self, call: &str, item: &Refused, answer: u32) {
        let flags = format!("{:02x}", item.flags & 0xe0);
        let state_and_id = flags == "c0";
        let [first, rest @ ..] = item.id else { return };
        let reserved = first & 0x30 != 0;
        let with_payload = !state_and_id;
        let no_channel = first >> 6 == 0;
        if first & SLOT_VALID != 0 {
            self.count(&format!("frame-{answer}"), state_and_id);
            if item.id.len() == 3 {
                self.see(item.flags, *first);
            }
            return;
        }
        let [low, cycle] = rest else {
            self.count("23-and-25", reserved || with_payload);
            self.count("23-and-29", !reserved && !with_payload && no_channel);
            self.count("23-alone", !reserved && !with_payload && !no_channel);
            return;
        };
        self.see(item.flags, *first);
        for way in [call, item.place] {
            self.count(&format!("{answer}-{way}"), true);
        }
        let outside = [no_channel, first & 0x07 != 0, *low != 0, *cycle != 0];
        let wrong = outside.iter().filter(|wrong| **wrong).count();
        let behind = if wrong > 0 { "-and-29" } else { "" };
        if answer == 25 {
            self.count(&format!("25-{flags}{behind}"), with_payload && !reserved);
            self.count(&format!("25-reserved{behind}"), state_and_id);
            self.count(&format!("25-reserved-{flags}"), with_payload && reserved);
            return;
        }
        self.count("29-several", wrong > 1);
        let names = ["channel", "slot-high", "slot-low", "cycle"];
        for (name, is_wrong) in names.into_iter().zip(outside) {
            self.count(&format!("29-{name}"), is_wrong && wrong == 1);
        }
    }

    fn see(&mut self, flags: u8, first: u8) {
        let flags = format!("{:02x}", flags & 0xe0);
        self.first_bytes.entry(flags).or_default().insert(first);
    }

    fn count(&mut self, what: &str, holds: bool) {
        if holds {
            *self.counts.entry(what.to_string()).or_default() += 1;
        }
    }

    /// `error WHAT N`, then `error bytes-FLAGS N` for how many different first bytes came.
    pub fn report(&self) -> String {
        let bytes = self.first_bytes.iter();
        let bytes = bytes.map(|(flags, seen)| (format!("bytes-{flags}"), seen.len()));
        let counts = self.counts.clone().into_iter().chain(bytes);
        counts
            .map(|(what, count)| format!("error {what} {count}\n"))
            .collect()
    }
}

fn place_of(start: usize) -> &'static str {
    if start == HEADER_LENGTH {
        "first"
    } else {
        "later"
    }
}

/// Nothing where the item is refused before its id.
fn refused(frame: &[u8]) -> Option<Refused<'_>> {
    let start = reader::refused_item(frame)?;
    let flags = *frame.get(start + 2)?;
    let is_flexray = flags & 0x1f == Kind::FlexRay as u8;
    let has_id = [0x60, 0xe0, 0xc0].contains(&(flags & 0xe0));
    let id_at = start + 4 + usize::from(flags >> 7);
    let id = frame.get(id_at..)?;
    let id = &id[..id.len().min(3)];
    (is_flexray && has_id && !id.is_empty()).then_some(Refused {
        place: place_of(start),
        flags,
        id,
    })
}

#[cfg(test)]
mod tests {
    use super::*;
    use crate::play::Player;

    /// The counts of lines with these bytes behind a header.
    fn counts(lines: &[(&str, &str)]) -> Vec<String> {
        let (mut player, mut errors) = (Player::default(), ErrorFrames::default());
        for (i, (call, items)) in lines.iter().enumerate() {
            let length = items.len() / 2;
            let line = format!("{call} 010000000000001000000000{length:04x}{items}");
            let answer = player.line(i + 1, line.as_bytes()).unwrap();
            let number = answer.split(' ').next().unwrap().parse().unwrap();
            errors.look(line.as_bytes(), number);
        }
        let report = errors.report();
        let lines = report.lines().map(|line| line.strip_prefix("error "));
        lines.map(|line| line.unwrap().to_string()).collect()
    }

    #[test]
    fn what_is_accepted() {
        let two = "0000c3070ac000000000c30700400000";
        let expected = [
            "read-by-read 2",
            "read-by-step 1",
            "read-channels-1 3",
            "read-channels-3 3",
            "read-first 3",
            "read-later 3",
            "bytes-c0 2",
        ];
        let calls = [("read", two), ("step 22", two), ("payload 99", two)];
        assert_eq!(counts(&calls), expected);
        let expected = ["frame-0 1", "bytes-60 1", "bytes-c0 1"];
        let frames = [("read", "0000c3070ac8010000006307480200 00")];
        let frames = frames.map(|(call, items)| (call, items.replace(' ', "")));
        assert_eq!(counts(&[(frames[0].0, &frames[0].1)]), expected);
    }

    #[test]
    fn what_is_refused_for_a_reserved_bit() {
        let expected = [
            "25-60 1",
            "25-e0-and-29 1",
            "25-first 5",
            "25-payload 1",
            "25-read 3",
            "25-reserved 1",
            "25-reserved-60 1",
            "25-reserved-and-29 1",
            "25-rewrite 1",
            "bytes-60 2",
            "bytes-c0 2",
            "bytes-e0 1",
        ];
        let calls = [
            ("read", "00006307c0000000"),
            ("payload 14", "0000e3070ac1000000"),
            ("read", "0000c3070ad00000"),
            ("rewrite 22", "0000c3070a200001"),
            ("read", "00006307f0000000"),
        ];
        assert_eq!(counts(&calls), expected);
    }

    #[test]
    fn what_is_out_of_range() {
        let expected = [
            "29-channel 1",
            "29-cycle 1",
            "29-first 4",
            "29-later 1",
            "29-read 3",
            "29-several 1",
            "29-slot-high 1",
            "29-slot-low 1",
            "29-step 2",
            "bytes-c0 5",
        ];
        let calls = [
            ("read", "0000c3070a000000"),
            ("read", "0000c3070ac40000"),
            ("step 14", "0000c3070a800100"),
            ("step 19", "000083074000 00c3070ac00001"),
            ("read", "0000c3070a410001"),
        ];
        let calls = calls.map(|(call, items)| (call, items.replace(' ', "")));
        let calls: Vec<(&str, &str)> = calls.iter().map(|(c, i)| (*c, &i[..])).collect();
        assert_eq!(counts(&calls), expected);
    }

    #[test]
    fn what_is_missing_or_no_error() {
        let expected = [
            "23-alone 2",
            "23-and-25 2",
            "23-and-29 1",
            "frame-25 1",
            "frame-29 1",
            "bytes-c0 2",
        ];
        let calls = [
            ("read", "0000c3070ac0"),
            ("read", "0000c3070ac000"),
            ("read", "0000c3070ad000"),
            ("read", "00006307c000"),
            ("read", "0000c3070a0000"),
            ("read", "0000c3070a"),
            ("read", "0000c3070ad80100"),
            ("read", "0000c3070ac80000"),
            ("read", "0000c2070a3d"),
            ("read", "0000a3070ac00000"),
        ];
        assert_eq!(counts(&calls), expected);
    }
}

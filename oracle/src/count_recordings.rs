//! Which ways recordings come: what their fields are found to be, and how they end. The counts of
//! several recordings are added up by `tools/check-recordings`.

use crate::count_positions::Positions;
use crate::frame::{Frame, Id, Item, Kind, Time, CAN_EXTENDED, CAN_FD, LAST_SECOND};
use crate::reader;
use crate::recording::{fields, judge, Field, Found};
use crate::recording::{FRAME, LONGEST_BODY, NOTE, START, START_LENGTH};
use crate::ways::{sort, Ways};

/// `NAME N` for each way that occurred in a recording.
pub fn report(recording: &[u8]) -> Vec<u8> {
    let mut ways = Ways::default();
    let mut positions = Positions::default();
    let (fields, rest) = fields(recording);
    ways.add("recordings");
    for (i, &field) in fields.iter().enumerate() {
        let before = i.checked_sub(1).map(|i| judge(fields[i]));
        ways.look_at_field(field, before);
        for way in positions.look_at(field, &judge(field)) {
            ways.add(format!("position-{way}"));
        }
    }
    ways.look_at_end(recording, rest);
    ways.report("")
}

/// The same for the ends alone of every part of the recording that starts where it does.
pub fn report_cuts(recording: &[u8]) -> Vec<u8> {
    let mut ways = Ways::default();
    for end in 0..=recording.len() {
        let part = &recording[..end];
        ways.look_at_end(part, fields(part).1);
    }
    ways.report("")
}

impl Ways {
    fn look_at_field(&mut self, field: Field, before: Option<Found>) {
        let found = judge(field);
        self.add("fields");
        match &found {
            Found::Frame(frame) => self.look_at_frame(field.body, frame),
            Found::Note(text) => self.look_at_note(text),
            Found::Start(time) => self.look_at_start(*time),
            Found::Refused { tag, answer } => self.look_at_refusal(field, *tag, *answer),
            Found::Skipped { tag, length } => self.look_at_skipped(*tag, *length),
        }
        // That listing goes on shows where something is listed.
        if let (Some(before), true) = (before, is_good(&found)) {
            self.look_at_good_after(&before);
        }
    }

    fn look_at_good_after(&mut self, before: &Found) {
        match before {
            Found::Refused { answer, .. } => self.add(format!("good-after-{answer}")),
            Found::Skipped { .. } => self.add("good-after-skipped"),
            _ => {}
        }
    }

    fn look_at_frame(&mut self, body: &[u8], frame: &Frame) {
        self.add("good-1");
        self.add_if(body.len() == 1_471, "good-1-of-1471");
        self.add_if(body.len() == 1_472, "good-1-of-1472");
        self.add_if(frame.items.is_empty(), "good-1-no-items");
        self.add_if(frame.items.len() > 1, "good-1-several-items");
        for placed in &frame.items {
            self.look_at_item(&placed.item, frame.header.time);
        }
    }

    fn look_at_item(&mut self, item: &Item, header: Time) {
        match item.id {
            Some(id) => self.look_at_id(id),
            None => self.add(format!("item-{}-no-id", kind(item.kind))),
        }
        let state = item.state.unwrap_or(0);
        self.add_if(item.state.is_none(), "item-no-state");
        self.add_if(item.state.is_some(), "item-state");
        self.add_if(item.state.is_some() && state < 16, "item-state-one-digit");
        self.add_if(state & 0x0f > 9 || state >> 4 > 9, "item-state-letters");
        self.add_if(item.payload.is_none(), "item-no-payload");
        self.add_if(item.payload.is_some_and(<[u8]>::is_empty), "item-payload-0");
        self.add_if(
            item.payload.is_some_and(|bytes| bytes.len() > 99),
            "item-payload-over-99",
        );
        self.add_if(item.time.seconds > header.seconds, "item-next-second");
        self.add_if(item.time.seconds > LAST_SECOND, "item-past-last-second");
        self.add_if(item.time.nanos < 100_000_000, "item-time-zeros");
    }

    fn look_at_id(&mut self, id: Id) {
        match id {
            Id::Can(key) => self.look_at_key(key),
            Id::Lin(pid) => {
                self.add("item-lin");
                self.add_if(pid < 16, "item-lin-one-digit");
            }
            Id::FlexRay { channels, .. } => self.add(format!("item-flexray-{channels}")),
            Id::FlexRayError { channels } => self.add(format!("item-error-{channels}")),
        }
    }

    fn look_at_key(&mut self, key: u32) {
        let bus = if key & CAN_FD != 0 { "canfd" } else { "can" };
        let (width, shown) = if key & CAN_EXTENDED != 0 {
            ("extended", key & 0x1fff_ffff)
        } else {
            ("standard", key & 0x7ff)
        };
        self.add(format!("item-{bus}-{width}"));
        let fills = shown >= if width == "extended" { 1 << 28 } else { 1 << 8 };
        self.add_if(!fills, &format!("item-{width}-zeros"));
        // An extended id that would also do as a standard one still has eight digits.
        let small = width == "extended" && shown < 2_048;
        self.add_if(small, "item-extended-small");
    }

    fn look_at_note(&mut self, text: &[u8]) {
        self.add("good-2");
        for length in [0, 1, 1_471, 1_472] {
            self.add_if(text.len() == length, &format!("good-2-of-{length}"));
        }
        let holds = |byte: u8| text.contains(&byte);
        self.add_if((0..=255).all(holds), "good-2-every-byte");
        self.add_if(holds(b'\\'), "good-2-backslash");
        self.add_if(holds(0x7f), "good-2-7f");
        self.add_if(holds(0x7e), "good-2-7e");
        self.add_if(holds(0x1f), "good-2-1f");
        self.add_if(holds(b'\n'), "good-2-line-feed");
        self.add_if(text.last() == Some(&b' '), "good-2-last-space");
    }

    fn look_at_start(&mut self, time: Time) {
        self.add("good-3");
        self.add_if(time.nanos == 0, "good-3-nanos-0");
        self.add_if(time.nanos == 999_999_999, "good-3-nanos-999999999");
        self.add_if(time.seconds == LAST_SECOND, "good-3-last-second");
    }

    fn look_at_refusal(&mut self, field: Field, tag: u8, answer: u8) {
        let length = field.body.len();
        self.add(format!("refused-{tag}-{answer}"));
        match tag {
            FRAME if answer == 41 => self.look_at_long_frame(field.body),
            FRAME => {
                self.add_if(length == LONGEST_BODY, "refused-1-of-1472");
                self.add_if(length == 0, "refused-1-of-0");
                self.add_if(length == 13, "refused-1-of-13");
            }
            NOTE => self.look_at_length("41-note", length),
            _ => self.look_at_wrong_start(field.body),
        }
    }

    fn look_at_long_frame(&mut self, body: &[u8]) {
        let right = reader::read(body).is_ok();
        self.add(if right {
            "41-frame-right-else"
        } else {
            "41-frame-wrong-too"
        });
        self.look_at_length("41-frame", body.len());
    }

    fn look_at_length(&mut self, what: &str, length: usize) {
        self.add_if(length == 1_473, &format!("{what}-of-1473"));
        self.add_if(length == 65_535, &format!("{what}-of-65535"));
        self.add_if(
            length > 1_473 && length < 65_535,
            &format!("{what}-between"),
        );
    }

    fn look_at_wrong_start(&mut self, body: &[u8]) {
        let length = body.len();
        if length == START_LENGTH {
            let first = body[6..] == 1_000_000_000u32.to_be_bytes();
            self.add("42-nanos");
            return self.add_if(first, "42-nanos-1000000000");
        }
        if length > LONGEST_BODY {
            self.add("42-over-1472");
            return self.look_at_length("42-over-1472", length);
        }
        self.add("42-length");
        for edge in [0, 9, 11, 1_472] {
            self.add_if(length == edge, &format!("42-length-{edge}"));
        }
        self.add_if(length < START_LENGTH, "42-length-under");
        self.add_if(length > START_LENGTH, "42-length-over");
    }

    fn look_at_skipped(&mut self, tag: u8, length: usize) {
        self.add("skipped");
        self.add(format!("tag-{tag}"));
        self.add(match length {
            0 | 1 | 10 | 255 | 256 | 1_472 | 1_473 | 65_535 => format!("skipped-of-{length}"),
            _ => "skipped-between".to_string(),
        });
    }

    fn look_at_end(&mut self, recording: &[u8], rest: &[u8]) {
        self.add_if(recording.is_empty(), "end-0-nothing");
        match *rest {
            [] => self.add("end-0"),
            [tag] => self.look_at_cut("tag", tag),
            [tag, _] => self.look_at_cut("length", tag),
            [tag, high, low, ref body @ ..] => {
                let length = usize::from(u16::from_be_bytes([high, low]));
                self.look_at_cut("body", tag);
                self.look_at_cut_body(tag, length, body.len());
            }
        }
    }

    fn look_at_cut(&mut self, place: &str, tag: u8) {
        self.add("end-40");
        self.add(format!("end-40-{place}"));
        self.add(format!("end-40-{place}-{}", sort(tag)));
    }

    fn look_at_cut_body(&mut self, tag: u8, length: usize, there: usize) {
        let sort = sort(tag);
        self.add_if(there == 0, &format!("end-40-before-body-{sort}"));
        self.add_if(there + 1 == length, &format!("end-40-last-byte-{sort}"));
        self.add_if(length > LONGEST_BODY, &format!("end-40-long-{sort}"));
        self.add_if(there > LONGEST_BODY, &format!("end-40-past-1472-{sort}"));
        let wrong_start = tag == START && length != START_LENGTH;
        self.add_if(wrong_start, "end-40-wrong-start");
    }
}

fn is_good(found: &Found) -> bool {
    matches!(found, Found::Frame(_) | Found::Note(_) | Found::Start(_))
}

fn kind(kind: Kind) -> &'static str {
    match kind {
        Kind::Can => "can",
        Kind::Lin => "lin",
        Kind::FlexRay => "flexray",
    }
}

#[cfg(test)]
#[path = "count_recordings_tests.rs"]
mod tests;

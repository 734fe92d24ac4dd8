//! Frames that a reader accepts, and the calls on them.

use super::raw::{RawFrame, RawItem, CAN, FLAG_SETS, FLEXRAY, ID, KINDS, LIN, PAYLOAD, STATE};
use super::sheet::Sheet;
use crate::frame::LAST_SECOND;
use crate::pid;
use crate::random::Random;

/// Seconds and nanoseconds at the edges: some reach the next second exactly with the offsets 1 and
/// 65,535, some stay one nanosecond under it.
const EDGE_TIMES: [(u64, u32); 10] = [
    (0, 0),
    (0, 999_999_999),
    (16, 344_650_000),
    (16, 344_649_999),
    (16, 999_989_999),
    (LAST_SECOND, 0),
    (LAST_SECOND, 344_649_999),
    (LAST_SECOND, 344_650_000),
    (LAST_SECOND, 999_990_000),
    (LAST_SECOND, 999_999_999),
];

pub fn frame(random: &mut Random, items: Vec<RawItem>) -> RawFrame {
    let (seconds, nanos) = match random.below(3) {
        0 => (random.next() >> 16, (random.next() % 1_000_000_000) as u32),
        _ => random.pick(&EDGE_TIMES),
    };
    let sequence = random.byte();
    RawFrame {
        version: 1,
        sequence,
        seconds,
        nanos,
        length_error: 0,
        items,
    }
}

pub fn any_item(random: &mut Random) -> RawItem {
    let kind = random.pick(&KINDS);
    let flags = random.pick(&FLAG_SETS);
    item(random, kind, flags)
}

pub fn any_items(random: &mut Random, count: usize) -> Vec<RawItem> {
    (0..count).map(|_| any_item(random)).collect()
}

pub fn item(random: &mut Random, kind: u8, flags: u8) -> RawItem {
    let any_offset = random.next() as u16;
    let any_network = random.byte();
    let mut item = RawItem {
        offset: random.pick(&[0, 1, 65_535, any_offset]),
        flags,
        kind,
        network: random.pick(&[0, 5, 255, any_network]),
        state: Vec::new(),
        id: Vec::new(),
        length: Vec::new(),
        payload: Vec::new(),
    };
    if flags & STATE != 0 {
        item.state = vec![state(random, kind)];
    }
    if flags & ID != 0 {
        item.id = id(random, kind);
    }
    if kind == FLEXRAY && flags == STATE | ID && random.one_in(3) {
        item.id = error_id(random);
    }
    if flags & PAYLOAD != 0 {
        let longest = longest_payload(kind, &item.id);
        let any = random.below(longest + 1);
        let length = random.pick(&[0, 1, longest, any, any % 9]);
        item.set_payload(random.bytes(length));
    }
    item
}

pub fn longest_payload(kind: u8, id: &[u8]) -> usize {
    match kind {
        CAN if id[0] & 0x40 != 0 => 64,
        FLEXRAY => 254,
        _ => 8,
    }
}

fn state(random: &mut Random, kind: u8) -> u8 {
    let any = random.byte();
    let state = random.pick(&[0x00, 0x40, 0xc0, 0xff, any, any]);
    match kind {
        LIN => state & !0x30,
        _ => state,
    }
}

fn id(random: &mut Random, kind: u8) -> Vec<u8> {
    match kind {
        CAN => can_key(random).to_be_bytes().to_vec(),
        LIN => vec![pid::of_id(random.byte() % pid::IDS)],
        _ => flexray_id(random),
    }
}

pub fn can_key(random: &mut Random) -> u32 {
    let any = random.next() as u32;
    let fd = any & 0x4000_0000;
    if random.one_in(2) {
        fd | random.pick(&[0, 1, 0x123, 2_047, any % 2_048])
    } else {
        let id = random.pick(&[0, 2_047, 2_048, 0x01ab_cdef, 0x1fff_ffff, any & 0x1fff_ffff]);
        0x8000_0000 | fd | id
    }
}

fn flexray_id(random: &mut Random) -> Vec<u8> {
    let any = random.next();
    let channels = random.pick(&[1u8, 2, 3]);
    let any_slot = (any % 2_047) as u16 + 1;
    let slot = random.pick(&[1u16, 255, 256, 1_027, 2_047, any_slot]);
    let cycle = random.pick(&[0u8, 1, 63, (any >> 32) as u8 % 64]);
    vec![channels << 6 | 8 | (slot >> 8) as u8, slot as u8, cycle]
}

/// The id of an error without a frame: the channels alone.
pub fn error_id(random: &mut Random) -> Vec<u8> {
    vec![random.pick(&[1, 2, 3]) << 6, 0, 0]
}

/// Each kind with each flag set, alone and before and after other items.
pub fn every_form(sheet: &mut Sheet, random: &mut Random) {
    sheet.note("Accepted frames: every kind with every flag set.");
    for empty in 0..3 {
        let frame = frame(random, Vec::new());
        calls(sheet, random, &frame, 1 + empty);
    }
    for kind in KINDS {
        for flags in FLAG_SETS {
            for others in 0..4 {
                let mut items = any_items(random, others);
                let at = random.below(others + 1);
                items.insert(at, item(random, kind, flags));
                let frame = frame(random, items);
                calls(sheet, random, &frame, 3);
            }
        }
    }
}

pub fn any_frame(sheet: &mut Sheet, random: &mut Random) {
    let count = random.below(7);
    let items = any_items(random, count);
    let frame = frame(random, items);
    calls(sheet, random, &frame, 1);
}

/// Every call on the frame, with so many places that are none.
pub fn calls(sheet: &mut Sheet, random: &mut Random, frame: &RawFrame, wrong: usize) {
    let bytes = frame.bytes();
    sheet.read(random, &bytes);
    for place in frame.places() {
        sheet.step(random, place, &bytes);
        sheet.payload(random, place, &bytes);
    }
    for _ in 0..wrong {
        let place = wrong_place(random, frame, bytes.len() as u64);
        sheet.step(random, place, &bytes);
        sheet.payload(random, place, &bytes);
    }
    let less = random.below(bytes.len());
    let more = bytes.len() + 1 + random.below(9);
    for size in [bytes.len(), more, bytes.len() - 1, less, 0] {
        if random.one_in(2) {
            sheet.rewrite(random, size, &bytes);
        }
    }
}

/// A place that neither starts an item nor is the end.
fn wrong_place(random: &mut Random, frame: &RawFrame, end: u64) -> u64 {
    let places = frame.places();
    loop {
        let start = random.pick(&places);
        let any = random.next();
        let place = random.pick(&[
            0,
            1,
            13,
            any % end,
            any % end,
            start + 1,
            start - 1,
            end + 1,
            end + any % 1_000,
            start + (1 << 32),
            start + (1 << 63),
            u64::MAX,
            any,
        ]);
        if !places.contains(&place) {
            return place;
        }
    }
}

#[cfg(test)]
mod tests {
    use super::*;
    use crate::{reader, writer};

    #[test]
    fn right_frames_are_accepted_and_rewritten_the_same() {
        let mut random = Random::new(3);
        for _ in 0..2_000 {
            let count = random.below(6);
            let items = any_items(&mut random, count);
            let frame = frame(&mut random, items);
            let bytes = frame.bytes();
            let read = reader::read(&bytes).expect("a right frame");
            let starts: Vec<u64> = read.items.iter().map(|item| item.start as u64).collect();
            assert_eq!(starts, frame.places()[..count]);
            assert_eq!(writer::lay_out(&read), bytes);
            let wrong = wrong_place(&mut random, &frame, bytes.len() as u64);
            assert_eq!(reader::step(&bytes, wrong), Err(30));
        }
    }
}

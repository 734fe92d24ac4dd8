//! Errors without a frame for the reader: every byte of their id, with every set of flags, first in a
//! frame and later, cut short, and called for in every way.

use super::raw::{RawFrame, RawItem, FLAG_SETS, FLEXRAY, ID, PAYLOAD, STATE};
use super::sheet::Sheet;
use super::valid;
use crate::frame::{HEADER_LENGTH, SLOT_VALID};
use crate::random::Random;

const STATE_AND_ID: u8 = STATE | ID;
/// Bytes of the slot and of the cycle: none, each bit, and the ends.
const BYTES: [u8; 12] = [0, 1, 2, 4, 8, 16, 32, 64, 128, 63, 254, 255];

pub fn every_frame(sheet: &mut Sheet, random: &mut Random) {
    sheet.note("Errors without a frame: right ones, with every call.");
    for others in [0, 0, 0, 1, 1, 2, 2, 3] {
        right(sheet, random, others);
    }
    sheet.note("Every first byte of a FlexRay id, with each set of flags that has one.");
    // Each script has them in another order.
    let turn = random.byte();
    for i in 0..=255 {
        every_flag_set(sheet, random, i ^ turn);
    }
    sheet.note("Errors without a frame with one thing wrong.");
    for _ in 0..12 {
        for channels in [0x40, 0x80, 0xc0] {
            one_wrong(sheet, random, channels);
        }
    }
    sheet.note("Slots and cycles of errors, and of frames, with state and id.");
    for slot_valid in [0, SLOT_VALID] {
        for byte in BYTES {
            slot_and_cycle(sheet, random, slot_valid, byte);
        }
    }
    sheet.note("Errors without a frame, cut at every byte, and with every bit turned over.");
    for id in [
        [0xc0, 0, 0],
        [0x50, 0, 0],
        [0, 0, 0],
        [0, 0, 1],
        [0x81, 0, 1],
        [0x90, 1, 64],
    ] {
        for flags in [
            STATE_AND_ID,
            STATE_AND_ID,
            STATE_AND_ID,
            ID | PAYLOAD,
            STATE | ID | PAYLOAD,
        ] {
            cut_everywhere(sheet, random, flags, &id);
        }
    }
    every_bit(sheet, random);
    behind_a_state(sheet, random);
}

fn with_id(random: &mut Random, flags: u8, id: &[u8]) -> RawItem {
    let mut item = valid::item(random, FLEXRAY, flags);
    item.id = id.to_vec();
    item
}

/// The item behind so many others, and the place where it starts.
fn behind(random: &mut Random, others: usize, item: RawItem) -> (RawFrame, u64) {
    let mut items = valid::any_items(random, others);
    items.push(item);
    let frame = valid::frame(random, items);
    let place = frame.places()[others];
    (frame, place)
}

fn right(sheet: &mut Sheet, random: &mut Random, others: usize) {
    for channels in [0x40, 0x80, 0xc0] {
        let mut items = valid::any_items(random, others);
        let at = random.below(others + 1);
        items.insert(at, with_id(random, STATE_AND_ID, &[channels, 0, 0]));
        let frame = valid::frame(random, items);
        valid::calls(sheet, random, &frame, 1);
        let bytes = frame.bytes();
        sheet.rewrite(random, bytes.len(), &bytes);
    }
}

/// One of the reader's calls, which looks at this item where it can.
fn ask(sheet: &mut Sheet, random: &mut Random, frame: &[u8], place: u64) {
    match random.below(6) {
        0..=2 => sheet.read(random, frame),
        3 => sheet.step(random, place, frame),
        4 => sheet.payload(random, place, frame),
        _ => sheet.rewrite(random, frame.len(), frame),
    }
}

/// With slot and cycle 0, and with others. With a payload the first byte is what counts.
fn every_flag_set(sheet: &mut Sheet, random: &mut Random, first: u8) {
    for flags in [
        STATE_AND_ID,
        STATE_AND_ID,
        ID | PAYLOAD,
        STATE | ID | PAYLOAD,
    ] {
        let others = random.below(3);
        let rest = random.pick(&[[0, 0], [0, 0], [1, 0], [0, 1], [0, 63], [0, 64], [255, 255]]);
        let item = with_id(random, flags, &[first, rest[0], rest[1]]);
        let (frame, place) = behind(random, others, item);
        ask(sheet, random, &frame.bytes(), place);
    }
    let item = with_id(random, STATE_AND_ID, &[first, 0, 0]);
    let others = random.below(2);
    let (frame, place) = behind(random, others, item);
    ask(sheet, random, &frame.bytes(), place);
}

fn one_wrong(sheet: &mut Sheet, random: &mut Random, channels: u8) {
    let byte = 1 + random.byte() % 255;
    let wrong = [
        (STATE_AND_ID, [0, 0, 0]),
        (STATE_AND_ID, [channels | 1 + byte % 7, 0, 0]),
        (STATE_AND_ID, [channels, byte, 0]),
        (STATE_AND_ID, [channels, 0, byte]),
        (
            STATE_AND_ID,
            [channels | random.pick(&[0x10, 0x20, 0x30]), 0, 0],
        ),
        (ID | PAYLOAD, [channels, 0, 0]),
        (STATE | ID | PAYLOAD, [channels, 0, 0]),
    ];
    for (flags, id) in wrong {
        let item = with_id(random, flags, &id);
        let others = random.below(2);
        let (frame, place) = behind(random, others, item);
        ask(sheet, random, &frame.bytes(), place);
    }
}

fn slot_and_cycle(sheet: &mut Sheet, random: &mut Random, slot_valid: u8, byte: u8) {
    let channels = random.pick(&[0x40, 0x80, 0xc0]);
    let high = random.pick(&[1, 2, 4]);
    for id in [
        [channels | slot_valid, byte, 0],
        [channels | slot_valid, 0, byte],
        [channels | slot_valid | high, byte, 0],
        [channels | slot_valid | high, 0, byte],
        [slot_valid, byte, byte],
        [channels | slot_valid | 0x10, byte, 0],
        [channels | slot_valid | 0x20, 0, byte],
    ] {
        let item = with_id(random, STATE_AND_ID, &id);
        let others = random.below(2);
        let (frame, place) = behind(random, others, item);
        ask(sheet, random, &frame.bytes(), place);
    }
}

/// What is missing of the id goes before what is wrong with it.
fn cut_everywhere(sheet: &mut Sheet, random: &mut Random, flags: u8, id: &[u8]) {
    let item = with_id(random, flags, id);
    let length = item.bytes().len() - item.payload.len();
    let others = random.below(2);
    let (frame, place) = behind(random, others, item);
    let data = &frame.bytes()[HEADER_LENGTH..];
    let start = place as usize - HEADER_LENGTH;
    for end in 4..=length {
        let cut = frame.bytes_around(&data[..start + end]);
        ask(sheet, random, &cut, place);
    }
}

fn every_bit(sheet: &mut Sheet, random: &mut Random) {
    for channels in [0x40, 0xc0] {
        let item = with_id(random, STATE_AND_ID, &[channels, 0, 0]);
        let frame = valid::frame(random, vec![item]).bytes();
        // From DataLength on: before it nothing is of an item.
        for bit in 8 * 12..8 * frame.len() {
            let mut turned = frame.clone();
            turned[bit / 8] ^= 0x80 >> (bit % 8);
            ask(sheet, random, &turned, 14);
        }
    }
}

/// A state alone has no id: the bytes of one are the next item then.
fn behind_a_state(sheet: &mut Sheet, random: &mut Random) {
    sheet.note("Ids of errors where the flags announce none, and flags that are refused.");
    for flags in 0..8 {
        for channels in [0x40, 0x80, 0xc0] {
            let mut item = with_id(random, STATE_AND_ID, &[channels, 0, 0]);
            item.flags = flags;
            if FLAG_SETS.contains(&flags) && flags & PAYLOAD != 0 {
                item.set_payload(random.bytes(1));
            }
            let others = random.below(2);
            let (frame, place) = behind(random, others, item);
            ask(sheet, random, &frame.bytes(), place);
        }
    }
}

#[cfg(test)]
mod tests {
    use super::*;
    use crate::count;

    #[test]
    fn every_new_cause_comes_whatever_the_seed() {
        for seed in 0..3 {
            let mut sheet = Sheet::default();
            every_frame(&mut sheet, &mut Random::new(seed));
            let counts = String::from_utf8(count::report(&sheet.into_bytes())).unwrap();
            let of = |what: &str| -> usize {
                let line = counts.lines().find_map(|line| line.strip_prefix(what));
                line.map_or(0, |count| count.trim().parse().unwrap())
            };
            for (least, words) in [
                (30, "25-60 25-e0 25-reserved 29-channel 29-slot-high 29-slot-low 29-cycle"),
                (10, "read-by-read read-by-step read-by-payload read-by-rewrite read-first read-later"),
                (10, "25-read 25-step 25-payload 25-rewrite 29-read 29-step 29-payload 29-rewrite"),
                (10, "25-first 25-later 29-first 29-later 23-alone 23-and-25 frame-0 frame-25 frame-29"),
            ] {
                for what in words.split(' ') {
                    let count = of(&format!("error {what} "));
                    assert!(count >= least, "{what}: {count} with seed {seed}");
                }
            }
        }
    }
}

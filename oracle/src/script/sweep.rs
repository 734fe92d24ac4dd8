//! Fields run through all their values, and frames with each bit turned over.

use super::raw::{RawItem, FLEXRAY, ID, KINDS, LIN, PAYLOAD, STATE};
use super::sheet::Sheet;
use super::valid;
use crate::random::Random;

pub fn every_value(sheet: &mut Sheet, random: &mut Random) {
    sheet.note("Every flag byte, every first byte of a FlexRay id, every LIN state.");
    for byte in 0..=255 {
        let flagged = item_of_flag_byte(random, byte);
        alone(sheet, random, flagged);
        let mut flexray = valid::item(random, FLEXRAY, ID | PAYLOAD);
        flexray.id[0] = byte;
        alone(sheet, random, flexray);
        let mut lin = valid::item(random, LIN, STATE);
        lin.state[0] = byte;
        alone(sheet, random, lin);
    }
    sheet.note("Every bit turned over.");
    for kind in KINDS {
        every_bit(sheet, random, kind);
    }
}

fn alone(sheet: &mut Sheet, random: &mut Random, item: RawItem) {
    let frame = valid::frame(random, vec![item]).bytes();
    if random.one_in(4) {
        sheet.step(random, 14, &frame);
    } else {
        sheet.read(random, &frame);
    }
}

/// The fields that the flags announce, whether or not the flags are allowed together.
fn item_of_flag_byte(random: &mut Random, byte: u8) -> RawItem {
    let kind = random.pick(&KINDS);
    let kind = if KINDS.contains(&(byte & 31)) {
        byte & 31
    } else {
        kind
    };
    let mut item = valid::item(random, kind, byte >> 5 | ID);
    if byte >> 5 & ID == 0 {
        item.id = Vec::new();
    }
    item.flags = byte >> 5;
    item.kind = byte & 31;
    item
}

fn every_bit(sheet: &mut Sheet, random: &mut Random, kind: u8) {
    let mut item = valid::item(random, kind, STATE | ID | PAYLOAD);
    item.set_payload(random.bytes(2));
    let frame = valid::frame(random, vec![item]).bytes();
    for bit in 0..8 * (frame.len() - 1) {
        // The seconds and the sequence number are any bytes: a sample of them is enough.
        let loose = (8..8 * 8).contains(&bit);
        if loose && !random.one_in(8) {
            continue;
        }
        let mut turned = frame.clone();
        turned[bit / 8] ^= 0x80 >> (bit % 8);
        sheet.read(random, &turned);
    }
}

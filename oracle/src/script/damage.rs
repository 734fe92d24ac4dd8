//! Frames with one thing wrong.

use super::garble::garbled;
use super::raw::{RawFrame, RawItem, CAN, FLAG_SETS, FLEXRAY, ID, KINDS, LIN, PAYLOAD, STATE};
use super::sheet::Sheet;
use super::valid;
use crate::frame::SLOT_VALID;
use crate::random::Random;

type Damage = fn(&mut RawItem, &mut Random);

/// A wrong value of one item field, for the kinds and with the flags that carry the field.
pub struct ItemDamage {
    kinds: &'static [u8],
    flags: u8,
    /// Flags with which the value would be another thing.
    without: u8,
    pub apply: Damage,
}

impl ItemDamage {
    pub fn fits(&self, kind: u8, flags: u8) -> bool {
        let flags_fit = flags & self.flags == self.flags && flags & self.without == 0;
        self.kinds.contains(&kind) && flags_fit
    }
}

const fn on(kinds: &'static [u8], flags: u8, apply: Damage) -> ItemDamage {
    ItemDamage {
        kinds,
        flags,
        without: 0,
        apply,
    }
}

/// Where an error without a frame may stand: with state and id alone.
const fn on_error(apply: Damage) -> ItemDamage {
    ItemDamage {
        kinds: &[FLEXRAY],
        flags: STATE | ID,
        without: PAYLOAD,
        apply,
    }
}

pub const ITEM_DAMAGES: [ItemDamage; 26] = [
    on(&KINDS, 0, |item, _| item.kind = 0),
    on(&KINDS, 0, |item, _| item.kind = 4),
    on(&KINDS, 0, |item, random| {
        item.kind = 4 + random.below(28) as u8
    }),
    on(&KINDS, 0, |item, _| item.kind = 31),
    on(&KINDS, 0, |item, random| {
        item.flags = random.pick(&[0, 1, 2, 5])
    }),
    on(&[LIN], STATE, |item, random| {
        item.state[0] |= random.pick(&[0x10, 0x20, 0x30])
    }),
    on(&[LIN], ID, |item, random| {
        item.id[0] = garbled(random, item.id[0])
    }),
    on(&[CAN], ID, |item, _| item.id[0] |= 0x20),
    on(&[CAN], ID, standard_id_too_big),
    on(&[FLEXRAY], ID, |item, random| {
        item.id[0] |= random.pick(&[0x10, 0x20, 0x30])
    }),
    on(&[FLEXRAY], ID | PAYLOAD, |item, _| {
        item.id[0] &= !SLOT_VALID
    }),
    on(&[FLEXRAY], ID | PAYLOAD, |item, random| {
        item.id = valid::error_id(random)
    }),
    on_error(|item, random| error_with(item, random, 0, &[0])),
    on_error(|item, random| error_with(item, random, 0, &[0x41, 0x42, 0x84, 0xc7])),
    on_error(|item, random| error_with(item, random, 1, &[1, 2, 4, 8, 16, 32, 64, 128, 255])),
    on_error(|item, random| error_with(item, random, 2, &[1, 2, 4, 8, 16, 32, 63, 64, 128])),
    on_error(|item, random| error_with(item, random, 0, &[0x50, 0xa0, 0xf0])),
    // A frame's id that has lost its bit 3.
    on_error(|item, _| item.id[0] = item.id[0] & !SLOT_VALID | 1),
    on(&[FLEXRAY], ID, |item, _| item.id[0] &= 0x3f),
    on(&[FLEXRAY], ID, slot_zero),
    on(&[FLEXRAY], ID, |item, random| {
        item.id[2] = random.pick(&[64, 65, 127, 128, 255])
    }),
    on(&KINDS, PAYLOAD, |item, random| {
        longer_payload(item, random, 1)
    }),
    on(&KINDS, PAYLOAD, |item, random| {
        longer_payload(item, random, 2)
    }),
    on(&KINDS, PAYLOAD, |item, _| item.length[0] = 255),
    on(&KINDS, PAYLOAD, cut_payload),
    on(&KINDS, PAYLOAD, |item, random| {
        item.payload.push(random.byte())
    }),
];

fn standard_id_too_big(item: &mut RawItem, random: &mut Random) {
    let any = 2_048 + random.next() as u32 % 0x1fff_f000;
    let id = random.pick(&[2_048u32, 4_096, 0x1000_0000, 0x1fff_ffff, any]);
    let fd = u32::from(item.id[0] & 0x40) << 24;
    item.id = (fd | id).to_be_bytes().to_vec();
}

/// An error without a frame, of which one byte of the id is wrong. Where it is one already, what was
/// wrong before stays: two damages of other bytes come together.
fn error_with(item: &mut RawItem, random: &mut Random, byte: usize, wrong: &[u8]) {
    if item.id[0] & SLOT_VALID != 0 {
        item.id = vec![item.id[0] & !0x0f, 0, 0];
    }
    item.id[byte] = random.pick(wrong);
}

/// Of a frame's id: an error has no other.
fn slot_zero(item: &mut RawItem, _: &mut Random) {
    item.id[0] |= SLOT_VALID;
    item.id[0] &= !0x07;
    item.id[1] = 0;
}

fn longer_payload(item: &mut RawItem, random: &mut Random, more: usize) {
    let length = (valid::longest_payload(item.kind, &item.id) + more).min(255);
    item.set_payload(random.bytes(length));
}

fn cut_payload(item: &mut RawItem, random: &mut Random) {
    let length = valid::longest_payload(item.kind, &item.id);
    item.length = vec![length as u8];
    item.payload = random.bytes(length - 1);
}

/// A wrong value of a header field.
pub const HEADER_DAMAGES: [fn(&mut RawFrame, &mut Random); 8] = [
    |frame, random| frame.version = random.pick(&[0, 2, 129, 255]),
    |frame, random| frame.version = 2 + random.byte() % 254,
    |frame, _| frame.nanos = 1_000_000_000,
    |frame, random| frame.nanos = random.pick(&[1_000_000_001, 1 << 31, u32::MAX]),
    |frame, random| frame.nanos = 1_000_000_000 + random.next() as u32 % 3_294_967_296,
    |frame, _| frame.length_error = 1,
    |frame, _| frame.length_error = u16::MAX,
    |frame, random| frame.length_error = random.pick(&[14, 256, 32_768, 65_522]),
];

/// An item that carries the field, whichever of the allowed flag sets has it.
pub fn carrier(random: &mut Random, damage: &ItemDamage) -> RawItem {
    let kind = random.pick(damage.kinds);
    loop {
        let flags = random.pick(&FLAG_SETS);
        if damage.fits(kind, flags) {
            return valid::item(random, kind, flags);
        }
    }
}

/// The item among others, each of which is right.
pub fn among(random: &mut Random, item: RawItem) -> RawFrame {
    let before = random.below(3);
    let after = random.below(2);
    let mut items = valid::any_items(random, before);
    items.push(item);
    items.extend(valid::any_items(random, after));
    valid::frame(random, items)
}

pub fn every_damage(sheet: &mut Sheet, random: &mut Random) {
    sheet.note("Frames with one wrong field.");
    for _ in 0..8 {
        for damage in &ITEM_DAMAGES {
            item_damage(sheet, random, damage);
        }
        for damage in HEADER_DAMAGES {
            header_damage(sheet, random, damage);
        }
    }
    sheet.note("Frames cut at every byte, with the DataLength that fits and without.");
    for kind in KINDS {
        for flags in FLAG_SETS {
            let item = valid::item(random, kind, flags);
            cut_everywhere(sheet, random, item);
        }
    }
    for _ in 0..30 {
        cut(sheet, random);
        scattered(sheet, random);
        random_bytes(sheet, random);
    }
}

pub fn any_damage(sheet: &mut Sheet, random: &mut Random) {
    if random.one_in(4) {
        let damage = random.pick(&HEADER_DAMAGES);
        header_damage(sheet, random, damage);
    } else {
        let which = random.below(ITEM_DAMAGES.len());
        item_damage(sheet, random, &ITEM_DAMAGES[which]);
    }
}

fn item_damage(sheet: &mut Sheet, random: &mut Random, damage: &ItemDamage) {
    let mut item = carrier(random, damage);
    (damage.apply)(&mut item, random);
    let frame = among(random, item).bytes();
    sheet.read(random, &frame);
    sheet.any_call(random, &frame);
}

fn header_damage(sheet: &mut Sheet, random: &mut Random, damage: fn(&mut RawFrame, &mut Random)) {
    let item = valid::any_item(random);
    let mut frame = among(random, item);
    damage(&mut frame, random);
    sheet.any_call(random, &frame.bytes());
}

fn cut_everywhere(sheet: &mut Sheet, random: &mut Random, item: RawItem) {
    let data = item.bytes();
    let frame = valid::frame(random, vec![item]);
    for end in 0..data.len().min(16) {
        sheet.any_call(random, &frame.bytes_around(&data[..end]));
    }
    let whole = frame.bytes();
    for end in 0..14 {
        if random.one_in(3) {
            sheet.any_call(random, &whole[..end]);
        }
    }
}

/// Bytes taken off the end, or put there, and DataLength sometimes set to what is left.
pub fn cut(sheet: &mut Sheet, random: &mut Random) {
    let count = 1 + random.below(4);
    let items = valid::any_items(random, count);
    let frame = valid::frame(random, items);
    let mut bytes = frame.bytes();
    if random.one_in(3) {
        let more = 1 + random.below(12);
        bytes.extend(random.bytes(more));
    } else {
        bytes.truncate(random.below(frame.bytes().len()));
    }
    if bytes.len() >= 14 && !random.one_in(4) {
        bytes = frame.bytes_around(&bytes[14..]);
    }
    sheet.any_call(random, &bytes);
}

/// One to three bytes of a right frame set to any value.
pub fn scattered(sheet: &mut Sheet, random: &mut Random) {
    let count = 1 + random.below(4);
    let items = valid::any_items(random, count);
    let mut bytes = valid::frame(random, items).bytes();
    for _ in 0..1 + random.below(3) {
        let near = bytes.len().min(40);
        let at = random.below(near);
        bytes[at] = random.byte();
    }
    sheet.any_call(random, &bytes);
}

/// Any bytes, alone or after a right header.
pub fn random_bytes(sheet: &mut Sheet, random: &mut Random) {
    let count = random.below(60);
    let mut data = random.bytes(count);
    if random.one_in(2) {
        if data.len() > 2 {
            data[2] = random.pick(&[0x61, 0x62, 0x63, 0xe1, 0xe2, 0xe3, 0xc3, 0x82]);
        }
        data = valid::frame(random, Vec::new()).bytes_around(&data);
    }
    sheet.any_call(random, &data);
}

#[cfg(test)]
mod tests {
    use super::*;
    use crate::reader;

    /// What a reader says of each item damage where the item is the last.
    const REFUSALS: [u8; ITEM_DAMAGES.len()] = [
        24, 24, 24, 24, 26, 25, 29, 25, 29, 25, 25, 25, 29, 29, 29, 29, 25, 29, 29, 29, 29, 27, 27,
        27, 23, 23,
    ];

    #[test]
    fn each_item_damage_gets_its_refusal() {
        let mut random = Random::new(1);
        for (damage, refusal) in ITEM_DAMAGES.iter().zip(REFUSALS) {
            for _ in 0..200 {
                let mut item = carrier(&mut random, damage);
                (damage.apply)(&mut item, &mut random);
                let frame = valid::frame(&mut random, vec![item]).bytes();
                assert_eq!(reader::read(&frame), Err(refusal), "{frame:02x?}");
            }
        }
    }

    #[test]
    fn each_header_damage_gets_its_refusal() {
        let mut random = Random::new(2);
        for (damage, refusal) in HEADER_DAMAGES.iter().zip([21, 21, 28, 28, 28, 22, 22, 22]) {
            for _ in 0..200 {
                let item = valid::any_item(&mut random);
                let mut frame = among(&mut random, item);
                damage(&mut frame, &mut random);
                assert_eq!(reader::read(&frame.bytes()), Err(refusal));
            }
        }
    }
}

//! Every PID in frames for the reader, and a wrong one beside every other cause of a refusal.

use super::damage::{carrier, ItemDamage, HEADER_DAMAGES, ITEM_DAMAGES};
use super::garble::garbled;
use super::raw::{RawItem, ID, LIN, PAYLOAD, STATE};
use super::sheet::Sheet;
use super::valid;
use crate::random::Random;

const WITH_ID: [u8; 3] = [ID | PAYLOAD, STATE | ID | PAYLOAD, STATE | ID];

pub fn every_frame(sheet: &mut Sheet, random: &mut Random) {
    sheet.note("Every PID in frames: with each set of flags, in the first item and later.");
    // Each script has them in another order.
    let turn = random.byte();
    for i in 0..=255 {
        every_flag_set(sheet, random, i ^ turn);
    }
    sheet.note("Wrong parity beside every other cause of a refusal.");
    for flags in [WITH_ID, WITH_ID].concat() {
        before_and_after(sheet, random, flags);
        in_one_item(sheet, random, flags);
    }
    for damage in &ITEM_DAMAGES {
        in_two_items(sheet, random, damage);
    }
    for damage in HEADER_DAMAGES {
        let item = wrong(random, ID | PAYLOAD);
        let mut frame = valid::frame(random, vec![item]);
        damage(&mut frame, random);
        sheet.any_call(random, &frame.bytes());
    }
}

/// Three frames: in one the PID comes first and the frame is read, in one it comes later and the step
/// goes to it, and in the third it is as it happens.
fn every_flag_set(sheet: &mut Sheet, random: &mut Random, pid: u8) {
    let last_is_read = random.one_in(2);
    let ways = [
        (0, true),
        (1 + random.below(2), false),
        (random.below(3), last_is_read),
    ];
    let shift = random.below(3);
    for (i, (before, is_read)) in ways.into_iter().enumerate() {
        let item = with_pid(random, WITH_ID[(i + shift) % 3], pid);
        let mut items = valid::any_items(random, before);
        items.push(item);
        let after = random.below(2);
        items.extend(valid::any_items(random, after));
        let frame = valid::frame(random, items);
        if is_read {
            sheet.read(random, &frame.bytes());
        } else {
            sheet.step(random, frame.places()[before], &frame.bytes());
        }
    }
}

fn with_pid(random: &mut Random, flags: u8, pid: u8) -> RawItem {
    let mut item = valid::item(random, LIN, flags);
    item.id[0] = pid;
    item
}

fn wrong(random: &mut Random, flags: u8) -> RawItem {
    let any = random.byte();
    let pid = garbled(random, any);
    with_pid(random, flags, pid)
}

/// The frame ends before the PID, and right behind it; then a place that is none, and an output that
/// is too short.
fn before_and_after(sheet: &mut Sheet, random: &mut Random, flags: u8) {
    let item = wrong(random, flags);
    let id_at = 4 + item.state.len();
    let data = item.bytes();
    let frame = valid::frame(random, vec![item]);
    sheet.read(random, &frame.bytes_around(&data[..id_at]));
    sheet.read(random, &frame.bytes_around(&data[..=id_at]));
    let whole = frame.bytes();
    let no_place = random.pick(&[0, 13, 15, 1 << 32]);
    sheet.step(random, no_place, &whole);
    sheet.payload(random, no_place, &whole);
    sheet.rewrite(random, whole.len() - 1, &whole);
}

fn in_one_item(sheet: &mut Sheet, random: &mut Random, flags: u8) {
    for damage in &ITEM_DAMAGES {
        if damage.fits(LIN, flags) {
            let mut item = wrong(random, flags);
            (damage.apply)(&mut item, random);
            let frame = valid::frame(random, vec![item]);
            sheet.any_call(random, &frame.bytes());
        }
    }
}

fn in_two_items(sheet: &mut Sheet, random: &mut Random, damage: &ItemDamage) {
    for first in [true, false] {
        let flags = random.pick(&WITH_ID);
        let mut items = vec![wrong(random, flags)];
        let mut other = carrier(random, damage);
        (damage.apply)(&mut other, random);
        items.insert(usize::from(first), other);
        let frame = valid::frame(random, items);
        sheet.any_call(random, &frame.bytes());
    }
}

//! Frames with two things wrong: which of the two is told is a rule of its own.

use super::damage::{among, carrier, HEADER_DAMAGES, ITEM_DAMAGES};
use super::raw::RawFrame;
use super::sheet::Sheet;
use super::valid;
use crate::random::Random;

pub fn two_causes(sheet: &mut Sheet, random: &mut Random) {
    sheet.note("Frames with two wrong fields.");
    for first in 0..HEADER_DAMAGES.len() {
        for second in 0..first {
            two_in_the_header(sheet, random, first, second);
        }
    }
    for first in 0..ITEM_DAMAGES.len() {
        for second in 0..ITEM_DAMAGES.len() {
            two_in_an_item(sheet, random, first, second);
        }
        two_in_two_items(sheet, random, first);
        one_in_each(sheet, random, first);
    }
}

pub fn any_two(sheet: &mut Sheet, random: &mut Random) {
    let first = random.below(ITEM_DAMAGES.len());
    let second = random.below(ITEM_DAMAGES.len());
    match random.below(5) {
        0 => two_in_the_header(
            sheet,
            random,
            first % HEADER_DAMAGES.len(),
            second % HEADER_DAMAGES.len(),
        ),
        1 => two_in_two_items(sheet, random, first),
        2 => one_in_each(sheet, random, first),
        _ => two_in_an_item(sheet, random, first, second),
    }
}

fn two_in_the_header(sheet: &mut Sheet, random: &mut Random, first: usize, second: usize) {
    let item = valid::any_item(random);
    let mut frame = among(random, item);
    HEADER_DAMAGES[first](&mut frame, random);
    HEADER_DAMAGES[second](&mut frame, random);
    ask_cut(sheet, random, &frame, 12);
}

/// The two fields of one item, for the kinds that have both.
fn two_in_an_item(sheet: &mut Sheet, random: &mut Random, first: usize, second: usize) {
    let (first, second) = (&ITEM_DAMAGES[first], &ITEM_DAMAGES[second]);
    let mut item = carrier(random, first);
    if !second.fits(item.kind, item.flags) {
        return;
    }
    (first.apply)(&mut item, random);
    (second.apply)(&mut item, random);
    let frame = among(random, item);
    ask_cut(sheet, random, &frame, 3);
}

fn two_in_two_items(sheet: &mut Sheet, random: &mut Random, first: usize) {
    let mut items = Vec::new();
    for which in [first, random.below(ITEM_DAMAGES.len())] {
        let mut item = carrier(random, &ITEM_DAMAGES[which]);
        (ITEM_DAMAGES[which].apply)(&mut item, random);
        items.push(item);
    }
    let frame = valid::frame(random, items);
    ask_cut(sheet, random, &frame, 6);
}

fn one_in_each(sheet: &mut Sheet, random: &mut Random, which: usize) {
    let mut item = carrier(random, &ITEM_DAMAGES[which]);
    (ITEM_DAMAGES[which].apply)(&mut item, random);
    let mut frame = among(random, item);
    let header = random.below(HEADER_DAMAGES.len());
    HEADER_DAMAGES[header](&mut frame, random);
    ask_cut(sheet, random, &frame, 6);
}

/// One in so many frames is cut too, so that missing bytes compete as well.
fn ask_cut(sheet: &mut Sheet, random: &mut Random, frame: &RawFrame, one_in: usize) {
    let mut bytes = frame.bytes();
    if random.one_in(one_in) {
        let end = random.below(bytes.len() + 1);
        bytes.truncate(end);
        if end >= 14 && random.one_in(2) {
            bytes = frame.bytes_around(&bytes[14..]);
        }
    }
    if random.one_in(2) {
        sheet.read(random, &bytes);
    } else {
        sheet.any_call(random, &bytes);
    }
}

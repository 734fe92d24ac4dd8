//! Bodies of frame fields for made recordings: right frames, wrong ones, and frames just as long as a
//! field may be, or longer.

use crate::count::taken_frame;
use crate::play::Player;
use crate::random::Random;
use crate::script::damage::{among, carrier, HEADER_DAMAGES, ITEM_DAMAGES};
use crate::script::raw::{RawFrame, FLAG_SETS, FLEXRAY, ID, KINDS, PAYLOAD, STATE};
use crate::script::{self, valid};
use crate::text;

/// FlexRay items with a payload have 8 bytes around it.
const SHORTEST_LOAD: usize = 8;
const LONGEST_LOAD: usize = SHORTEST_LOAD + 254;

pub fn right(random: &mut Random) -> Vec<u8> {
    let count = random.below(7);
    let items = valid::any_items(random, count);
    valid::frame(random, items).bytes()
}

pub fn with_items(random: &mut Random) -> Vec<u8> {
    let count = 1 + random.below(6);
    let items = valid::any_items(random, count);
    valid::frame(random, items).bytes()
}

/// Short, with up to three items.
pub fn of_states(random: &mut Random) -> Vec<u8> {
    let count = 1 + random.below(3);
    let state = |random: &mut Random| {
        let kind = random.pick(&KINDS);
        valid::item(random, kind, STATE)
    };
    let items = (0..count).map(|_| state(random)).collect();
    valid::frame(random, items).bytes()
}

pub fn without_items(random: &mut Random) -> Vec<u8> {
    valid::frame(random, Vec::new()).bytes()
}

/// Each kind with each set of flags, and an error without a frame, in one frame.
pub fn every_form(random: &mut Random) -> Vec<u8> {
    let mut items = Vec::new();
    for kind in KINDS {
        for flags in FLAG_SETS {
            items.push(valid::item(random, kind, flags));
        }
    }
    let mut error = valid::item(random, FLEXRAY, STATE | ID);
    error.id = valid::error_id(random);
    items.push(error);
    valid::frame(random, items).bytes()
}

/// An item of this kind with each set of flags, none with more than three bytes of payload.
pub fn short_forms(random: &mut Random, kind: u8) -> Vec<u8> {
    let mut items = Vec::new();
    for flags in FLAG_SETS {
        let mut item = valid::item(random, kind, flags);
        if flags & PAYLOAD != 0 {
            let length = random.below(4);
            item.set_payload(random.bytes(length));
        }
        items.push(item);
    }
    valid::frame(random, items).bytes()
}

/// A right frame of so many bytes, at least 22.
pub fn of_length(random: &mut Random, length: usize) -> Vec<u8> {
    long_frame(random, length).bytes()
}

fn long_frame(random: &mut Random, length: usize) -> RawFrame {
    let mut frame = valid::frame(random, Vec::new());
    let mut left = length - 14;
    while left > LONGEST_LOAD {
        let longest = LONGEST_LOAD.min(left - SHORTEST_LOAD);
        let any = SHORTEST_LOAD + random.below(longest - SHORTEST_LOAD + 1);
        let load = random.pick(&[longest, any]);
        push_load(random, &mut frame, load);
        left -= load;
    }
    push_load(random, &mut frame, left);
    frame
}

fn push_load(random: &mut Random, frame: &mut RawFrame, length: usize) {
    let mut item = valid::item(random, FLEXRAY, ID | PAYLOAD);
    item.set_payload(random.bytes(length - SHORTEST_LOAD));
    frame.items.push(item);
}

/// A frame of so many bytes whose last item, or whose header, is wrong.
pub fn wrong_of_length(random: &mut Random, length: usize) -> Vec<u8> {
    let mut frame = long_frame(random, length);
    if random.one_in(2) {
        random.pick(&HEADER_DAMAGES)(&mut frame, random);
    } else if let Some(last) = frame.items.last_mut() {
        last.id[2] = 64;
    }
    frame.bytes()
}

/// Too short for a header.
pub fn stump(random: &mut Random) -> Vec<u8> {
    let any = random.below(14);
    let length = random.pick(&[0, 1, 13, any]);
    let mut bytes = right(random);
    bytes.truncate(length);
    bytes
}

/// A field of the header is wrong.
pub fn wrong_header(random: &mut Random) -> Vec<u8> {
    let item = valid::any_item(random);
    let mut frame = among(random, item);
    random.pick(&HEADER_DAMAGES)(&mut frame, random);
    frame.bytes()
}

/// A field of one item is wrong, now and then a second one too.
pub fn wrong_item(random: &mut Random) -> Vec<u8> {
    let first = &ITEM_DAMAGES[random.below(ITEM_DAMAGES.len())];
    let second = &ITEM_DAMAGES[random.below(ITEM_DAMAGES.len())];
    let mut item = carrier(random, first);
    let both = random.one_in(4) && second.fits(item.kind, item.flags);
    (first.apply)(&mut item, random);
    if both {
        (second.apply)(&mut item, random);
    }
    among(random, item).bytes()
}

/// Bytes off the end, with the DataLength of what is left or with the old one.
pub fn cut(random: &mut Random) -> Vec<u8> {
    let count = 1 + random.below(4);
    let items = valid::any_items(random, count);
    let frame = valid::frame(random, items);
    let mut bytes = frame.bytes();
    bytes.truncate(14 + random.below(bytes.len() - 14));
    if random.one_in(4) {
        return bytes;
    }
    frame.bytes_around(&bytes[14..])
}

/// Frames that an engine closed and handed out.
pub fn taken(random: &mut Random, count: usize) -> Vec<Vec<u8>> {
    let mut frames = Vec::new();
    while frames.len() < count {
        let script = script::mix(random, 200);
        let mut player = Player::default();
        for line in text::lines(&script).filter(|line| !line.is_empty()) {
            let answer = player.line(1, line).unwrap_or_default();
            if line.starts_with(b"take ") {
                frames.extend(taken_frame(&answer));
            }
        }
    }
    frames
}

#[cfg(test)]
mod tests {
    use super::*;
    use crate::reader;

    #[test]
    fn frames_are_as_long_as_asked_for() {
        let mut random = Random::new(5);
        for length in (22..600).chain([1_471, 1_472, 1_473, 65_535]) {
            let frame = of_length(&mut random, length);
            assert_eq!(frame.len(), length);
            assert!(reader::read(&frame).is_ok(), "{length}");
            let wrong = wrong_of_length(&mut random, length);
            assert_eq!(wrong.len(), length);
            assert!(reader::read(&wrong).is_err(), "{length}");
        }
    }

    #[test]
    fn right_frames_are_right_and_stumps_are_too_short() {
        let mut random = Random::new(6);
        for _ in 0..200 {
            let sorts = [right, with_items, of_states, without_items, every_form];
            for sort in sorts {
                assert!(reader::read(&sort(&mut random)).is_ok());
            }
            for kind in KINDS {
                let short = short_forms(&mut random, kind);
                assert!(reader::read(&short).is_ok() && short.len() <= 60);
            }
            assert_eq!(reader::read(&stump(&mut random)), Err(20));
            assert!(reader::read(&wrong_header(&mut random)).is_err());
        }
        for frame in taken(&mut random, 30) {
            assert!(reader::read(&frame).is_ok());
        }
    }
}

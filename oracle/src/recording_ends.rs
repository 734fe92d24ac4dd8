//! How made recordings end: clean, or inside a field.

use crate::random::Random;
use crate::recording::{FRAME, LONGEST_BODY, NOTE, START};
use crate::recording_frames as frames;
use crate::recording_maker::{field, unknown_tag};

const LENGTHS: [usize; 10] = [1, 10, 14, 255, 256, 1_471, 1_472, 1_473, 2_000, 65_535];
/// Lengths that would be refused, were the field complete.
const TOO_LONG: [usize; 6] = [1_473, 1_474, 1_728, 3_000, 20_000, 65_535];

/// What stands behind the complete fields.
pub fn any(random: &mut Random) -> Vec<u8> {
    match random.below(14) {
        0..=2 => Vec::new(),
        3 => tag_alone(random),
        4 => half_a_length(random),
        5 => one_byte_less(random),
        6 | 7 => cut(random, &LENGTHS, |random, length| random.below(length)),
        8 => cut(random, &TOO_LONG, |random, _| {
            random.below(LONGEST_BODY + 1)
        }),
        9 => cut(random, &TOO_LONG, |_, _| LONGEST_BODY),
        10 => cut(random, &TOO_LONG[1..], |_, _| LONGEST_BODY + 1),
        11 | 12 => cut(random, &TOO_LONG[2..], |random, length| {
            LONGEST_BODY + 1 + random.below(length - LONGEST_BODY - 1)
        }),
        _ => cut(random, &TOO_LONG, |_, length| length - 1),
    }
}

/// A length over 1,472 and a few bytes of the body. Neighbouring seeds have another tag each.
pub fn long_with_little(random: &mut Random, seed: u64) -> Vec<u8> {
    let tag = tags(random)[(seed % 4) as usize];
    let length = random.pick(&TOO_LONG);
    let mut out = field(tag, body(random, tag, length));
    out.truncate(3 + 6 + random.below(10));
    out
}

fn tags(random: &mut Random) -> [u8; 4] {
    [FRAME, NOTE, START, unknown_tag(random)]
}

fn any_tag(random: &mut Random) -> u8 {
    let tags = tags(random);
    random.pick(&tags)
}

fn tag_alone(random: &mut Random) -> Vec<u8> {
    vec![any_tag(random)]
}

fn half_a_length(random: &mut Random) -> Vec<u8> {
    vec![any_tag(random), random.pick(&[0, 1, 5, 255])]
}

/// A field that would be right, but for its last byte.
fn one_byte_less(random: &mut Random) -> Vec<u8> {
    let tag = any_tag(random);
    let body = match tag {
        FRAME => frames::right(random),
        START => vec![0; 10],
        _ => random.bytes(30),
    };
    let mut out = field(tag, body);
    out.pop();
    out
}

/// One of the lengths is announced, and as many bytes are there as the last argument says.
fn cut(
    random: &mut Random,
    lengths: &[usize],
    there: impl Fn(&mut Random, usize) -> usize,
) -> Vec<u8> {
    let (tag, length) = (any_tag(random), random.pick(lengths));
    let there = there(random, length);
    let mut out = field(tag, body(random, tag, length));
    out.truncate(3 + there);
    out
}

/// A frame starts like a right one, so that nothing but the end is wrong with it.
fn body(random: &mut Random, tag: u8, length: usize) -> Vec<u8> {
    if tag == FRAME && length >= 22 {
        return frames::of_length(random, length);
    }
    random.bytes(length)
}

//! Makes recordings whose lengths are hit too, and whose ends are cut off or grown: what lies behind a
//! bad length reads as other fields, or as none.

use crate::check::{verdict, Verdict};
use crate::damaged::{self, other, spots, Spot};
use crate::random::Random;
use crate::recording::{fields, FRAME, HEAD, NOTE, START};
use crate::recording_maker::{field, unknown_tag};

const NUMBERS: u64 = 0x1e46_7450;
const LONGEST: usize = 65_535;

/// Neighbouring seeds are damaged in another way each.
const WAYS: [fn(&mut Random, &mut Vec<u8>); 11] = [
    one_length,
    |random, recording| several_lengths(random, recording),
    past_the_end,
    cut_off,
    grown,
    |random, recording| {
        one_length(random, recording);
        cut_off(random, recording);
    },
    |random, recording| {
        one_length(random, recording);
        grown(random, recording);
    },
    early_past_the_end,
    head_alone,
    all_but_a_byte,
    longest_but_a_byte,
];

pub fn make(seed: u64, fields: usize) -> Vec<u8> {
    let mut recording = damaged::make(seed, fields);
    let mut random = Random::new(seed ^ NUMBERS);
    let way = WAYS[(seed % WAYS.len() as u64) as usize];
    way(&mut random, &mut recording);
    recording
}

fn one_length(random: &mut Random, recording: &mut Vec<u8>) {
    let spots = spots(recording);
    if spots.is_empty() {
        return grown(random, recording);
    }
    let spot = spots[random.below(spots.len())];
    hit_length(random, recording, spot);
}

/// One byte of it, or both.
fn hit_length(random: &mut Random, recording: &mut [u8], spot: Spot) {
    let length = spot.length();
    let which = random.below(3);
    for (i, at) in length.enumerate() {
        if i != which {
            recording[at] = other(random, recording[at]);
        }
    }
}

/// Where they were before the first of them was hit.
fn several_lengths(random: &mut Random, recording: &mut [u8]) {
    let spots = spots(recording);
    for spot in spots {
        if random.one_in(3) {
            hit_length(random, recording, spot);
        }
    }
}

fn set_length(recording: &mut [u8], spot: Spot, length: usize) {
    let length = length.min(LONGEST) as u16;
    recording[spot.length()].copy_from_slice(&length.to_be_bytes());
}

/// A good field is the last, but its length is more than what is there: by one, by some, or by as much
/// as can be.
fn past_the_end(random: &mut Random, recording: &mut Vec<u8>) {
    let is_good = |spot: &Spot| {
        let (found, _) = fields(&recording[spot.tag..spot.end]);
        found.first().map(|&field| verdict(field)) == Some(Verdict::Good)
    };
    if let Some(spot) = spots(recording).into_iter().rev().find(is_good) {
        recording.truncate(spot.end);
        let there = spot.body().len();
        let more = 1 + random.below(300);
        let length = random.pick(&[there + 1, there + more, LONGEST]);
        set_length(recording, spot, length);
    }
}

/// One of the last lengths is too much for what is there, so that the rest has fields in it.
fn early_past_the_end(random: &mut Random, recording: &mut Vec<u8>) {
    drop_rest(recording);
    let few = random.below(4);
    if let Some(&spot) = spots(recording).iter().rev().nth(few) {
        let there = recording.len() - spot.body().start;
        set_length(recording, spot, there + 1 + random.below(40));
    }
}

fn cut_off(random: &mut Random, recording: &mut Vec<u8>) {
    let few = random.below(40);
    let any = random.below(recording.len() + 1);
    let off = random.pick(&[1, 2, 3, few, few, any]);
    recording.truncate(recording.len().saturating_sub(off));
}

/// By any bytes, or by the beginning of a field that would be right.
fn grown(random: &mut Random, recording: &mut Vec<u8>) {
    if !random.one_in(3) {
        drop_rest(recording);
    }
    let few = random.below(40);
    let more = random.pick(&[1, 2, 3, few]);
    let mut bytes = if random.one_in(2) {
        random.bytes(more)
    } else {
        field(any_tag(random), vec![0; 10])
    };
    bytes.truncate(more);
    recording.extend(bytes);
}

fn drop_rest(recording: &mut Vec<u8>) {
    let left = fields(recording).1.len();
    recording.truncate(recording.len() - left);
}

fn any_tag(random: &mut Random) -> u8 {
    let unknown = unknown_tag(random);
    random.pick(&[FRAME, NOTE, START, unknown])
}

/// Nothing of a body behind the complete fields.
fn head_alone(random: &mut Random, recording: &mut Vec<u8>) {
    drop_rest(recording);
    let length = random.pick(&[1, 10, 300, 1_473]);
    let mut head = field(any_tag(random), vec![0; length]);
    head.truncate(random.pick(&[1, 2, HEAD, HEAD]));
    recording.extend(head);
}

/// Behind the complete fields one that would be right, but for its last byte.
fn all_but_a_byte(random: &mut Random, recording: &mut Vec<u8>) {
    let length = random.pick(&[1, 10, 10, 40, 1_472]);
    put_cut(random, recording, length);
}

/// The most that a rest can be.
fn longest_but_a_byte(random: &mut Random, recording: &mut Vec<u8>) {
    put_cut(random, recording, LONGEST);
}

fn put_cut(random: &mut Random, recording: &mut Vec<u8>, length: usize) {
    drop_rest(recording);
    let tag = any_tag(random);
    let mut bytes = field(tag, vec![0; length]);
    bytes.pop();
    recording.extend(bytes);
}

#[cfg(test)]
#[path = "damaged_lengths_tests.rs"]
mod tests;

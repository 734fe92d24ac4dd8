//! Makes recordings with bad bytes in them. Tags and bodies are hit and every length is left alone, so
//! that each field lies where it lay before.

use crate::frame::Placed;
use crate::random::Random;
use crate::reader;
use crate::recording::{fields, FRAME, HEAD, NOTE, START, START_LENGTH};
use crate::recording_maker::{self, unknown_tag};
use std::ops::Range;

/// So that the hits have other numbers than the fields.
const NUMBERS: u64 = 0xbad_b17e5;

/// A recording as the maker makes them, and then bad bytes.
pub fn make(seed: u64, fields: usize) -> Vec<u8> {
    let mut recording = recording_maker::make(seed, fields);
    hit(&mut Random::new(seed ^ NUMBERS), &mut recording);
    recording
}

/// Where a field lies in the file. The last one may be cut short, in its head too.
#[derive(Clone, Copy, Debug, PartialEq)]
pub struct Spot {
    pub tag: usize,
    pub end: usize,
}

impl Spot {
    /// The bytes of the length that are there.
    pub fn length(self) -> Range<usize> {
        self.tag + 1..self.end.min(self.tag + HEAD)
    }

    pub fn body(self) -> Range<usize> {
        self.end.min(self.tag + HEAD)..self.end
    }
}

/// Of all fields, and of what is left behind them.
pub fn spots(recording: &[u8]) -> Vec<Spot> {
    let (fields, rest) = fields(recording);
    let mut spots: Vec<Spot> = Vec::new();
    let lengths = fields.iter().map(|field| HEAD + field.body.len());
    for length in lengths.chain(Some(rest.len()).filter(|&left| left > 0)) {
        let tag = spots.last().map_or(0, |spot| spot.end);
        let end = tag + length;
        spots.push(Spot { tag, end });
    }
    spots
}

/// A third of the fields is spared, so that good ones have bad neighbours.
fn hit(random: &mut Random, recording: &mut [u8]) {
    let spots = spots(recording);
    for (i, &spot) in spots.iter().enumerate() {
        match random.below(18) {
            0..=5 => {}
            6 | 7 => one(random, recording, spot.body()),
            8 => several(random, recording, spot.body()),
            9 => over_the_end(random, recording, spot, spots.get(i + 1)),
            10 | 11 => retag(random, recording, spot),
            12 => {
                retag(random, recording, spot);
                one(random, recording, spot.body());
            }
            _ => named(random, recording, spot),
        }
    }
}

/// Another byte, never the same.
pub fn other(random: &mut Random, byte: u8) -> u8 {
    let bit = 1 << random.below(8);
    let any = random.byte();
    let near = [byte.wrapping_add(1), byte.wrapping_sub(1)];
    let new = random.pick(&[byte ^ bit, byte ^ bit, 0, 255, near[0], near[1], any]);
    if new == byte {
        byte ^ bit
    } else {
        new
    }
}

fn one(random: &mut Random, recording: &mut [u8], body: Range<usize>) {
    if body.is_empty() {
        return;
    }
    let at = body.start + random.below(body.len());
    recording[at] = other(random, recording[at]);
}

fn several(random: &mut Random, recording: &mut [u8], body: Range<usize>) {
    for _ in 0..2 + random.below(5) {
        one(random, recording, body.clone());
    }
}

fn run(random: &mut Random, recording: &mut [u8], bytes: Range<usize>) {
    for at in bytes {
        recording[at] = other(random, recording[at]);
    }
}

/// A run of bad bytes from one body into the next one, around the length between them.
fn over_the_end(random: &mut Random, recording: &mut [u8], spot: Spot, next: Option<&Spot>) {
    let body = spot.body();
    let last = random.below(body.len().min(20) + 1);
    run(random, recording, spot.end - last..spot.end);
    if let Some(&next) = next {
        let body = next.body();
        let first = random.below(body.len().min(20) + 1);
        run(random, recording, next.tag..next.tag + 1);
        run(random, recording, body.start..body.start + first);
    }
}

/// Another tag that is known, or one that is not.
fn retag(random: &mut Random, recording: &mut [u8], spot: Spot) {
    let old = recording[spot.tag];
    let known = random.pick(&[FRAME, NOTE, START]);
    let known = if known == old { old % START + 1 } else { known };
    let unknown = unknown_tag(random);
    let new = random.pick(&[known, known, known, 0, 4, 255, unknown, old ^ 0x80]);
    recording[spot.tag] = if new == old { other(random, old) } else { new };
}

/// A byte that its field is judged by, where there is one.
fn named(random: &mut Random, recording: &mut [u8], spot: Spot) {
    let body = spot.body();
    match recording[spot.tag] {
        FRAME => {
            let places = frame_places(random, &recording[body.clone()]);
            if !places.is_empty() {
                let at = body.start + random.pick(&places);
                recording[at] = other(random, recording[at]);
            }
        }
        START if body.len() == START_LENGTH => nanos(random, &mut recording[body]),
        _ => one(random, recording, body),
    }
}

/// Too large in most cases. The largest that is right, and other seconds, leave the start good.
fn nanos(random: &mut Random, start: &mut [u8]) {
    match random.below(5) {
        0 => start[6..].copy_from_slice(&1_000_000_000u32.to_be_bytes()),
        1 | 2 => start[6] = 0x3c + random.below(256 - 0x3c) as u8,
        3 => start[6..].copy_from_slice(&999_999_999u32.to_be_bytes()),
        _ => start[random.below(6)] ^= 1 << random.below(8),
    }
}

/// Of the header the version, the nanoseconds and DataLength; of one item the flags, and what lies
/// between the network id and the payload: state, id and payload length.
fn frame_places(random: &mut Random, body: &[u8]) -> Vec<usize> {
    if let (Ok(frame), true) = (reader::read(body), random.one_in(2)) {
        if !frame.items.is_empty() {
            return item_places(&frame.items[random.below(frame.items.len())]);
        }
    }
    let places = [0, 0, 8, 8, 9, 12, 13];
    places.into_iter().filter(|&at| at < body.len()).collect()
}

fn item_places(placed: &Placed) -> Vec<usize> {
    let payload = placed.item.payload.map_or(0, <[u8]>::len);
    let flags = placed.start + 2;
    let judged = placed.start + 4..placed.next - payload;
    [flags].into_iter().chain(judged).collect()
}

#[cfg(test)]
#[path = "damaged_tests.rs"]
mod tests;

//! Microphone starts and frames that belong together, for the makers of recordings and of scripts:
//! how far an item is from the start before it is chosen to the nanosecond.

use crate::frame::{Frame, Time, LAST_SECOND, NANOS_PER_SECOND};
use crate::position::FARTHEST;
use crate::random::Random;
use crate::reader;

/// A recording has a field for it, a script for `record` a line.
#[derive(Clone, Debug, PartialEq)]
pub enum Part {
    /// Refused where its nanoseconds are out of range.
    Start(Time),
    /// Refused for another cause, and would be this start if it were believed.
    NoStart(Time),
    Frame(Vec<u8>),
}

type Size = fn(&mut Random) -> i128;

const SECOND: i128 = NANOS_PER_SECOND as i128;
const SAMPLES_OF_A_DAY: i128 = 4_147_200_000;

/// Nanoseconds between a start and an item. Each size comes with both signs.
const SIZES: [Size; 16] = [
    |_| 0,
    |_| 1,
    |_| 20_833,
    |_| 20_834,
    |_| 41_666,
    |_| 41_667,
    |_| FARTHEST - 1,
    |_| FARTHEST,
    |_| FARTHEST + 1,
    within,
    |random| within(random) >> random.below(46),
    sample,
    |random| sample(random) - 1,
    |random| FARTHEST + 2 + below(random, 2 * SECOND),
    |random| 2 * FARTHEST + below(random, 1 << 45) * SECOND + below(random, SECOND),
    wrapping,
];

/// A number under the limit, which is at most 64 bits wide.
fn below(random: &mut Random, limit: i128) -> i128 {
    i128::from(random.next()) % limit
}

fn within(random: &mut Random) -> i128 {
    below(random, FARTHEST)
}

/// The first nanosecond of any sample.
fn sample(random: &mut Random) -> i128 {
    let sample = 1 + below(random, SAMPLES_OF_A_DAY);
    (125_000 * sample + 5) / 6
}

/// Too far, and near where the nanoseconds, six times as many, or the seconds are cut to the bits of a
/// machine's word.
fn wrapping(random: &mut Random) -> i128 {
    let cut = random.pick(&[1 << 63, 1 << 64, 1 << 64, 3 << 64, SECOND << 32]);
    cut + (within(random) >> random.below(46))
}

pub struct Tape {
    frames: Vec<Vec<u8>>,
    turn: usize,
}

impl Tape {
    /// Right frames to choose from, each with an item, some with several.
    pub fn new(random: &mut Random, frames: Vec<Vec<u8>>) -> Tape {
        let turn = random.below(2 * SIZES.len());
        Tape { frames, turn }
    }

    /// Each size with each sign comes before one comes again.
    fn difference(&mut self, random: &mut Random) -> i128 {
        self.turn = (self.turn + 1) % (2 * SIZES.len());
        let size = SIZES[self.turn / 2](random);
        if self.turn % 2 == 0 {
            size
        } else {
            -size
        }
    }

    fn frame(&self, random: &mut Random) -> Vec<u8> {
        self.frames[random.below(self.frames.len())].clone()
    }

    /// A start before a frame that stays as it is. Where it would be out of range the item is at the
    /// other side of it; failing that, it is the frame's own time.
    pub fn start_for(&mut self, random: &mut Random, frame: &[u8]) -> Time {
        let time = any_item(random, frame);
        let difference = self.difference(random);
        start_before(time, difference)
            .or_else(|| start_before(time, -difference))
            .unwrap_or(read(frame).header.time)
    }

    pub fn scene(&mut self, random: &mut Random) -> Vec<Part> {
        match random.below(11) {
            0..=4 => self.frames_around_a_start(random),
            5 => self.start_inside_a_frame(random),
            6 => self.first_or_last_second(random),
            _ => self.short_scene(random),
        }
    }

    /// One frame.
    pub fn short_scene(&mut self, random: &mut Random) -> Vec<Part> {
        match random.below(4) {
            0 => self.start_for_a_frame(random),
            1 => self.refused_start(random),
            _ => self.several_starts(random),
        }
    }

    /// Items without a start, behind a refused one too, and then with one.
    pub fn opening(&mut self, random: &mut Random) -> Vec<Part> {
        let frame = self.frame(random);
        let time = any_item(random, &frame);
        let refused = refused(random, time);
        let start = self.start_for(random, &frame);
        vec![
            Part::Frame(self.frame(random)),
            refused,
            Part::Frame(frame.clone()),
            Part::Start(start),
            Part::Frame(frame),
        ]
    }

    fn frames_around_a_start(&mut self, random: &mut Random) -> Vec<Part> {
        let start = any_time(random);
        let mut parts = vec![Part::Start(start)];
        for _ in 0..4 {
            let difference = self.difference(random);
            let frame = self.frame(random);
            let frame = moved(random, frame, start, difference);
            parts.extend(frame.map(Part::Frame));
        }
        parts
    }

    fn start_for_a_frame(&mut self, random: &mut Random) -> Vec<Part> {
        let frame = self.frame(random);
        let start = self.start_for(random, &frame);
        vec![Part::Start(start), Part::Frame(frame)]
    }

    /// Good ones, of which the latest counts.
    fn several_starts(&mut self, random: &mut Random) -> Vec<Part> {
        let frame = self.frame(random);
        let mut parts = Vec::new();
        for _ in 0..1 + random.below(2) {
            let time = any_item(random, &frame);
            parts.push(Part::Start(other_start(random, time)));
        }
        parts.push(Part::Start(self.start_for(random, &frame)));
        parts.push(Part::Frame(frame));
        parts
    }

    /// Refused ones behind the good one.
    fn refused_start(&mut self, random: &mut Random) -> Vec<Part> {
        let frame = self.frame(random);
        let mut parts = vec![Part::Start(self.start_for(random, &frame))];
        for _ in 0..1 + random.below(2) {
            let time = any_item(random, &frame);
            parts.push(refused(random, time));
        }
        parts.push(Part::Frame(frame));
        parts
    }

    /// A frame, then a start, and then a frame with items before it and behind it.
    fn start_inside_a_frame(&mut self, random: &mut Random) -> Vec<Part> {
        let frame = self.spread_frame(random);
        let items = read(&frame).items.len();
        let time = read(&frame).items[random.below(items - 1) + 1].item.time;
        // Less than a tick, so that the item before is before the start.
        let any = below(random, 10_000);
        let difference = random.pick(&[0, 1, any]);
        let start = start_before(time, difference).unwrap_or_default();
        vec![
            Part::Frame(self.frame(random)),
            Part::Start(start),
            Part::Frame(frame),
        ]
    }

    /// With several items, one later than the other.
    fn spread_frame(&self, random: &mut Random) -> Vec<u8> {
        let mut frame = self.frame(random);
        while read(&frame).items.len() < 2 {
            frame = self.frame(random);
        }
        let places: Vec<usize> = read(&frame).items.iter().map(|item| item.start).collect();
        let mut offset = 0;
        for &place in &places {
            frame[place..place + 2].copy_from_slice(&(offset as u16).to_be_bytes());
            let most = random.pick(&[3, 200, 65_535 / places.len()]);
            offset += 1 + random.below(most);
        }
        with_header_time(frame, any_time(random))
    }

    /// Both in the same second; items may run past the last one.
    fn first_or_last_second(&mut self, random: &mut Random) -> Vec<Part> {
        let seconds = random.pick(&[0, LAST_SECOND]);
        let nanos = any_nanos(random);
        let mut parts = vec![Part::Start(Time { seconds, nanos })];
        for _ in 0..2 {
            let nanos = any_nanos(random);
            let frame = with_header_time(self.frame(random), Time { seconds, nanos });
            parts.push(Part::Frame(frame));
        }
        parts
    }
}

fn read(frame: &[u8]) -> Frame<'_> {
    reader::read(frame).expect("a right frame")
}

/// The time of one of its items.
fn any_item(random: &mut Random, frame: &[u8]) -> Time {
    let items = read(frame).items;
    items[random.below(items.len())].item.time
}

/// Days and years around it can be told.
fn any_time(random: &mut Random) -> Time {
    let middle = (1 << 46) + (random.next() >> 17);
    let of_these_years = 1_700_000_000 + random.next() % 500_000_000;
    Time {
        seconds: random.pick(&[middle, middle, middle, of_these_years]),
        nanos: any_nanos(random),
    }
}

fn any_nanos(random: &mut Random) -> u32 {
    let any = (random.next() % NANOS_PER_SECOND) as u32;
    random.pick(&[0, 1, 344_650_000, 999_990_000, 999_999_999, any, any, any])
}

/// A time that a start or a header can have.
fn time_of_count(count: i128) -> Option<Time> {
    let count = u128::try_from(count).ok()?;
    let time = Time {
        seconds: u64::try_from(count / u128::from(NANOS_PER_SECOND)).ok()?,
        nanos: (count % u128::from(NANOS_PER_SECOND)) as u32,
    };
    time.is_in_range().then_some(time)
}

/// From which the time is this difference.
fn start_before(time: Time, difference: i128) -> Option<Time> {
    time_of_count(time.count() as i128 - difference)
}

/// Within 24 hours where that is in range, so that it would give a number.
fn other_start(random: &mut Random, time: Time) -> Time {
    let size = within(random) >> random.below(30);
    start_before(time, size)
        .or_else(|| start_before(time, -size))
        .unwrap_or_default()
}

/// It would be a good start if it were counted in nanoseconds, or its first bytes alone were read.
fn refused(random: &mut Random, time: Time) -> Part {
    let other = other_start(random, time);
    if random.one_in(2) {
        return Part::NoStart(other);
    }
    let more = 1 + random.next() % 3;
    Part::Start(Time {
        seconds: other.seconds.saturating_sub(more),
        nanos: other.nanos + (more * NANOS_PER_SECOND) as u32,
    })
}

/// The frame, with a header time for which one of its items is this difference from the start.
fn moved(random: &mut Random, frame: Vec<u8>, start: Time, difference: i128) -> Option<Vec<u8>> {
    let time = any_item(random, &frame);
    let offset = time.nanos_since(read(&frame).header.time) as i128;
    let header = time_of_count(start.count() as i128 + difference - offset)?;
    Some(with_header_time(frame, header))
}

fn with_header_time(mut frame: Vec<u8>, time: Time) -> Vec<u8> {
    frame[2..8].copy_from_slice(&time.seconds.to_be_bytes()[2..]);
    frame[8..12].copy_from_slice(&time.nanos.to_be_bytes());
    frame
}

#[cfg(test)]
#[path = "tape_tests.rs"]
mod tests;

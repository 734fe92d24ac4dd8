//! Makes recordings from a seed. Fields are dealt from a deck that holds every sort of field, so that
//! a long recording has all of them, in any order.

use crate::frame::{Time, LAST_SECOND};
use crate::random::Random;
use crate::recording::{FRAME, LONGEST_BODY, NOTE, START};
use crate::recording_ends as ends;
use crate::recording_frames as frames;
use crate::script::raw::{CAN, FLEXRAY, LIN};
use crate::tape::{Part, Tape};
use std::collections::VecDeque;

pub const DEFAULT_FIELDS: usize = 200;
/// The most that two bytes can say.
const LONGEST: usize = 65_535;
const TAKEN_FRAMES: usize = 40;

type Card = fn(&mut Maker) -> Vec<u8>;
/// Cards with how many of each the deck has.
type Deck = &'static [(usize, Card)];

const DECK: Deck = &[
    // right frames
    (5, |m| frame(frames::right(&mut m.random))),
    (5, taken_frame),
    (1, |m| frame(frames::without_items(&mut m.random))),
    (2, |m| frame(frames::every_form(&mut m.random))),
    (1, |m| frame(frames::of_length(&mut m.random, 1_471))),
    (1, |m| frame(frames::of_length(&mut m.random, 1_472))),
    // wrong frames
    (3, |m| frame(frames::stump(&mut m.random))),
    (1, |_| frame(Vec::new())),
    (5, |m| frame(frames::wrong_header(&mut m.random))),
    (14, |m| frame(frames::wrong_item(&mut m.random))),
    (2, |m| frame(frames::cut(&mut m.random))),
    (1, |m| frame(frames::wrong_of_length(&mut m.random, 1_472))),
    (1, |m| frame(frames::of_length(&mut m.random, 1_473))),
    (1, |m| frame(frames::wrong_of_length(&mut m.random, 1_473))),
    (1, |m| {
        let length = m.too_long();
        frame(frames::of_length(&mut m.random, length))
    }),
    // notes
    (4, |m| {
        let length = m.random.below(60);
        m.note(length)
    }),
    (1, |m| m.note(0)),
    (1, |m| m.note(1)),
    (1, |_| note((0..=255).collect())),
    (1, |m| m.note(1_471)),
    (1, |m| m.note(1_472)),
    (1, |m| m.note(1_473)),
    (1, |m| {
        let length = m.too_long();
        m.note(length)
    }),
    // microphone starts
    (2, |m| right_start(m)),
    (1, |m| start(m, 999_999_999)),
    (1, |m| start(m, 1_000_000_000)),
    (1, |m| {
        let any = 1_000_000_000 + m.random.next() as u32 % 3_294_967_296;
        let nanos = m.random.pick(&[1_000_000_001, 1 << 31, u32::MAX, any]);
        start(m, nanos)
    }),
    (1, |m| start_of_length(m, 0)),
    (1, |m| start_of_length(m, 9)),
    (1, |m| start_of_length(m, 11)),
    (1, |m| {
        let any = m.random.below(LONGEST_BODY + 1);
        let length = m.random.pick(&[1, 6, 8, 12, 14, 20, 1_471, 1_472, any]);
        start_of_length(m, if length == 10 { 13 } else { length })
    }),
    (1, |m| start_of_length(m, 1_473)),
    // tags that nobody knows
    (1, |m| unknown(m, 0)),
    (1, |m| unknown(m, 1)),
    (1, |m| unknown(m, 10)),
    (1, |m| unknown(m, 255)),
    (1, |m| unknown(m, 256)),
    (1, |m| unknown(m, 1_472)),
    (1, |m| unknown(m, 1_473)),
    (10, |m| {
        let length = m.random.below(40);
        let tag = m.tag_in_turn();
        field(tag, m.random.bytes(length))
    }),
    (1, fields_inside),
    // as long as a field can be
    (1, longest),
    // starts, and frames at chosen places on their tape
    (10, |m| {
        let parts = m.tape.scene(&mut m.random);
        m.deal_parts(parts)
    }),
];

struct Maker {
    random: Random,
    taken: Vec<Vec<u8>>,
    left: Vec<Card>,
    last_tag: u8,
    tape: Tape,
    /// Lengths of starts that are refused for it.
    stretched: &'static [usize],
    /// What the last card has besides its first field.
    coming: VecDeque<Vec<u8>>,
}

impl Maker {
    fn new(seed: u64) -> Maker {
        let mut random = Random::new(seed);
        let taken = frames::taken(&mut random, TAKEN_FRAMES);
        let last_tag = random.byte();
        let mut on_tape = taken.clone();
        for _ in 0..TAKEN_FRAMES {
            on_tape.push(frames::of_states(&mut random));
            on_tape.push(frames::with_items(&mut random));
        }
        let tape = Tape::new(&mut random, on_tape);
        Maker {
            random,
            taken,
            left: Vec::new(),
            last_tag,
            tape,
            stretched: &[9, 11, 11, 12, 14, 1_472, 1_473, 1_473],
            coming: VecDeque::new(),
        }
    }

    /// The deck is dealt to its last card before it is taken up again.
    fn deal(&mut self, deck: Deck) -> Vec<u8> {
        if let Some(field) = self.coming.pop_front() {
            return field;
        }
        if self.left.is_empty() {
            let copies = |&(many, card): &(usize, Card)| vec![card; many];
            self.left = deck.iter().flat_map(copies).collect();
        }
        let which = self.random.below(self.left.len());
        let card = self.left.swap_remove(which);
        card(self)
    }

    /// Each unknown tag comes before one comes again.
    fn tag_in_turn(&mut self) -> u8 {
        self.last_tag = self.last_tag.wrapping_add(1);
        while is_known(self.last_tag) {
            self.last_tag += 1;
        }
        self.last_tag
    }

    /// A length over 1,472, seldom a very long one.
    fn too_long(&mut self) -> usize {
        let near = LONGEST_BODY + 2 + self.random.below(600);
        let any = LONGEST_BODY + 1 + self.random.below(5_000);
        self.random.pick(&[1_474, near, near, 2_048, 2_049, any])
    }

    fn note(&mut self, length: usize) -> Vec<u8> {
        note(text(&mut self.random, length))
    }

    /// These are dealt next, now and then with a field between that has no part in it.
    fn line_up(&mut self, parts: Vec<Part>) {
        for part in parts {
            if self.random.one_in(8) {
                let between = self.between();
                self.coming.push_back(between);
            }
            let field = self.field_of(part);
            self.coming.push_back(field);
        }
    }

    /// The first field; the others come behind it.
    fn deal_parts(&mut self, parts: Vec<Part>) -> Vec<u8> {
        self.line_up(parts);
        self.coming.pop_front().unwrap_or_default()
    }

    fn between(&mut self) -> Vec<u8> {
        let length = self.random.below(8);
        match self.random.below(3) {
            0 => self.note(length),
            1 => unknown(self, length),
            _ => frame(frames::stump(&mut self.random)),
        }
    }

    fn field_of(&mut self, part: Part) -> Vec<u8> {
        match part {
            Part::Start(time) => field(START, start_body(time)),
            Part::NoStart(time) => self.stretched_start(time),
            Part::Frame(bytes) => frame(bytes),
        }
    }

    /// Of another length than 10.
    fn stretched_start(&mut self, time: Time) -> Vec<u8> {
        let length = self.random.pick(self.stretched);
        let mut body = start_body(time);
        body.extend(self.random.bytes(length));
        body.truncate(length);
        field(START, body)
    }
}

pub fn field(tag: u8, body: Vec<u8>) -> Vec<u8> {
    let mut out = vec![tag];
    out.extend_from_slice(&(body.len() as u16).to_be_bytes());
    out.extend(body);
    out
}

fn frame(body: Vec<u8>) -> Vec<u8> {
    field(FRAME, body)
}

fn note(text: Vec<u8>) -> Vec<u8> {
    field(NOTE, text)
}

fn taken_frame(maker: &mut Maker) -> Vec<u8> {
    let which = maker.random.below(maker.taken.len());
    frame(maker.taken[which].clone())
}

/// Words, any bytes, or nothing but bytes at the edges of what is printable.
pub fn text(random: &mut Random, length: usize) -> Vec<u8> {
    const EDGES: [u8; 12] = [
        0x00, 0x0a, 0x0d, 0x1f, 0x20, b'!', b'[', b'\\', b']', 0x7e, 0x7f, 0x80,
    ];
    let sort = random.below(3);
    let character = |_| match sort {
        0 => b' ' + random.byte() % 95,
        1 => random.byte(),
        _ => random.pick(&EDGES),
    };
    (0..length).map(character).collect()
}

fn right_start(maker: &mut Maker) -> Vec<u8> {
    let any = (maker.random.next() % 1_000_000_000) as u32;
    let nanos = maker.random.pick(&[0, 1, 344_650_000, any]);
    start(maker, nanos)
}

/// Seconds are any six bytes.
fn start(maker: &mut Maker, nanos: u32) -> Vec<u8> {
    let any = maker.random.next() >> 16;
    let seconds = maker.random.pick(&[0, 16, LAST_SECOND, any, any]);
    field(START, start_body(Time { seconds, nanos }))
}

fn start_body(time: Time) -> Vec<u8> {
    let seconds = time.seconds.to_be_bytes();
    [&seconds[2..], &time.nanos.to_be_bytes()].concat()
}

/// Of another length than 10; where it is long enough its first ten bytes are often a right start.
fn start_of_length(maker: &mut Maker, length: usize) -> Vec<u8> {
    let mut body = right_start(maker)[3..].to_vec();
    if maker.random.one_in(3) {
        body.clear();
    }
    body.truncate(length);
    let more = maker.random.bytes(length - body.len());
    body.extend(more);
    field(START, body)
}

pub fn unknown_tag(random: &mut Random) -> u8 {
    let any = random.byte();
    let tag = random.pick(&[0, 4, 255, any, any, any, any, any]);
    if is_known(tag) {
        0
    } else {
        tag
    }
}

fn is_known(tag: u8) -> bool {
    (FRAME..=START).contains(&tag)
}

fn unknown(maker: &mut Maker, length: usize) -> Vec<u8> {
    let tag = unknown_tag(&mut maker.random);
    field(tag, maker.random.bytes(length))
}

/// A body that would itself be a recording is a body all the same.
fn fields_inside(maker: &mut Maker) -> Vec<u8> {
    let body = [
        frame(frames::right(&mut maker.random)),
        maker.note(3),
        right_start(maker),
    ];
    let tag = unknown_tag(&mut maker.random);
    let tag = maker.random.pick(&[NOTE, tag]);
    let mut body = body.concat();
    body.truncate(LONGEST_BODY);
    field(tag, body)
}

fn longest(maker: &mut Maker) -> Vec<u8> {
    match maker.random.below(6) {
        0 => frame(frames::of_length(&mut maker.random, LONGEST)),
        1 => frame(frames::wrong_of_length(&mut maker.random, LONGEST)),
        2 | 3 => maker.note(LONGEST),
        4 => start_of_length(maker, LONGEST),
        _ => unknown(maker, LONGEST),
    }
}

/// So many complete fields, and an end that is clean or cuts one more field short.
pub fn make(seed: u64, fields: usize) -> Vec<u8> {
    let mut maker = Maker::new(seed);
    let mut out = Vec::new();
    if maker.random.one_in(3) {
        let parts = maker.tape.opening(&mut maker.random);
        maker.line_up(parts);
    }
    for _ in 0..fields {
        out.extend(maker.deal(DECK));
    }
    out.extend(ends::any(&mut maker.random));
    out
}

/// Fields that are short, for recordings that are cut at every byte.
const SMALL_DECK: Deck = &[
    (2, |m| frame(small_frame(m))),
    (1, |m| frame(frames::stump(&mut m.random))),
    (1, |m| frame(wrong(small_frame(m)))),
    (3, |m| {
        let length = m.random.below(8);
        m.note(length)
    }),
    (2, right_start),
    (1, |m| start(m, 1_000_000_000)),
    (1, |m| {
        let length = m.random.pick(&[0, 1, 9, 11, 14]);
        start_of_length(m, length)
    }),
    (4, |m| {
        let length = m.random.below(8);
        unknown(m, length)
    }),
    (3, |m| {
        let parts = m.tape.short_scene(&mut m.random);
        m.deal_parts(parts)
    }),
];

/// Good and unknown fields that are short. Some would be others with another tag.
const SOUND_DECK: Deck = &[
    (1, |m| frame(frames::short_forms(&mut m.random, CAN))),
    (1, |m| frame(frames::short_forms(&mut m.random, LIN))),
    (1, |m| frame(frames::short_forms(&mut m.random, FLEXRAY))),
    (1, |m| frame(frames::of_states(&mut m.random))),
    (2, |m| {
        let length = m.random.below(6);
        m.note(length)
    }),
    (1, |m| m.note(0)),
    (1, |m| m.note(10)),
    (1, right_start),
    (1, |m| start(m, 999_999_999)),
    (2, |m| {
        let length = m.random.below(6);
        unknown(m, length)
    }),
    (1, |m| unknown(m, 0)),
    (1, |m| {
        let body = right_start(m).split_off(3);
        field(unknown_tag(&mut m.random), body)
    }),
    (1, |m| {
        let body = frames::of_states(&mut m.random);
        field(unknown_tag(&mut m.random), body)
    }),
];

/// So many short fields, none of them refused, and a clean end.
pub fn make_sound(seed: u64, fields: usize) -> Vec<u8> {
    let mut maker = Maker::new(seed);
    let mut out = Vec::new();
    for _ in 0..fields {
        out.extend(maker.deal(SOUND_DECK));
    }
    out
}

fn small_frame(maker: &mut Maker) -> Vec<u8> {
    let length = 22 + maker.random.below(12);
    frames::of_length(&mut maker.random, length)
}

fn wrong(mut frame: Vec<u8>) -> Vec<u8> {
    frame[0] = 2;
    frame
}

/// So many short fields, then the beginning of a long one, of which few bytes are there.
pub fn make_small(seed: u64, fields: usize) -> Vec<u8> {
    let mut maker = Maker::new(seed);
    let short = (0..20).map(|_| frames::of_states(&mut maker.random));
    let short = short.collect();
    maker.tape = Tape::new(&mut maker.random, short);
    maker.stretched = &[9, 11, 12, 14];
    let mut out = Vec::new();
    for _ in 0..fields {
        out.extend(maker.deal(SMALL_DECK));
    }
    out.extend(ends::long_with_little(&mut maker.random, seed));
    out
}

#[cfg(test)]
#[path = "recording_maker_tests.rs"]
mod tests;

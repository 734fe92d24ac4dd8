//! Drafts of the engine's calls as they would be accepted in a scene, or nearly always.

use super::draft::{Draft, Word, NARROW, WIDE};
use super::garble;
use super::near;
use super::scene::Scene;
use super::valid;
use crate::filter::Range;
use crate::frame::{Id, Kind, Time, CAN_FD, LAST_SECOND};

/// Bits and bounds at which a CAN key turns wrong or right.
const KEYS: [u64; 14] = [
    0,
    2_047,
    2_048,
    0x1fff_ffff,
    0x2000_0000,
    0x2000_07ff,
    0x4000_07ff,
    0x4000_0800,
    0x8000_0000,
    0x8000_0800,
    0x9fff_ffff,
    0xa000_0000,
    0xdfff_ffff,
    0xffff_ffff,
];

fn source(scene: &Scene, number: usize) -> Word {
    let count = scene.engine().sources().len() as u64;
    let all: Vec<u64> = (0..count).collect();
    let number = number as u64;
    let beyond = [count, number + 256, number + (1 << 32), 1 << 63, WIDE];
    Word::at_edges(number, WIDE, &[&all[..], &beyond].concat())
}

fn time(time: Time) -> Vec<Word> {
    let seconds = Word::within(time.seconds, 0, LAST_SECOND, WIDE);
    let nanos = Word::within(time.nanos.into(), 0, 999_999_999, NARROW);
    vec![seconds, nanos]
}

fn narrow(value: impl Into<u64>, low: u64, high: u64) -> Word {
    Word::within(value.into(), low, high, NARROW)
}

fn any_narrow(value: u32) -> Word {
    Word::at_edges(value.into(), NARROW, &[0, 1, 1 << 31, NARROW])
}

pub fn setup(size: u64, room: u64, deadline: u64, networks: &[(u64, u64)]) -> Draft {
    let mut words = limits(size, room, deadline);
    for &(kind, network) in networks {
        words.push(narrow(kind, 1, 3));
        words.push(narrow(network, 0, 255));
    }
    Draft::new("setup", words)
}

pub fn switch(size: u64, room: u64, deadline: u64) -> Draft {
    Draft::new("switch", limits(size, room, deadline))
}

/// 65,535 ms fits the 16 bits of a deadline; the standard's table ends at 0.655 s.
fn limits(size: u64, room: u64, deadline: u64) -> Vec<Word> {
    let deadlines = [0, 1, 655, 656, 65_535, 65_536, 1 << 32, WIDE];
    vec![
        Word::within(size, 32, 1_024, WIDE),
        Word::within(room, 1, 8, WIDE),
        Word::at_edges(deadline, WIDE, &deadlines),
    ]
}

pub fn start(scene: &Scene, number: usize) -> Draft {
    of_source("start", scene, number, Vec::new())
}

pub fn stop(scene: &Scene, number: usize) -> Draft {
    of_source("stop", scene, number, Vec::new())
}

pub fn frame(scene: &mut Scene, number: usize) -> Draft {
    let from = scene.source(number).clone();
    let id = near::id(scene.random, &from);
    frame_of(scene, number, id)
}

/// A frame of a LIN source with wrong parity. Its filters alone would most often let it pass.
pub fn garbled_frame(scene: &mut Scene, number: usize) -> Draft {
    let from = scene.source(number).clone();
    let id = match near::id(scene.random, &from) {
        Id::Lin(pid) => Id::Lin(garble::garbled(scene.random, pid)),
        other => other,
    };
    frame_of(scene, number, id)
}

fn frame_of(scene: &mut Scene, number: usize, id: Id) -> Draft {
    let at = scene.next_time();
    let payload = payload(scene, id);
    let mut words = [time(at), id_words(id)].concat();
    if let Id::Lin(_) = id {
        let any = scene.random.byte() % 16;
        let errors = scene.random.pick(&[0, 0, 0, 0, 1, 8, 8, 15, any]);
        words.push(narrow(errors, 0, 15));
    }
    words.push(payload);
    let name = ["can", "lin", "flexray"][scene.source(number).kind as usize - 1];
    of_source(name, scene, number, words)
}

/// Of a FlexRay source.
pub fn conflict(scene: &mut Scene, number: usize) -> Draft {
    let at = scene.next_time();
    let from = scene.source(number).clone();
    let id = near::id(scene.random, &from);
    let words = [time(at), id_words(id)].concat();
    of_source("conflict", scene, number, words)
}

/// Of a FlexRay source.
pub fn flexray_error(scene: &mut Scene, number: usize) -> Draft {
    let at = scene.next_time();
    let channels = scene.random.pick(&[1, 2, 3]);
    let bits = scene.random.pick(&[0, 2, 4, 6, 8, 10, 12, 14]);
    let id = id_words(Id::FlexRayError { channels });
    let words = [time(at), id, vec![error_bits(bits)]].concat();
    of_source("flexray-error", scene, number, words)
}

/// Right are the even numbers under 16. The others have the bit of a conflict, a bit that an update
/// gives, or are right again if they are cut to fewer bits.
fn error_bits(bits: u64) -> Word {
    let under: Vec<u64> = (0..=16).collect();
    let above = [bits + 16, bits + 32, bits + 64, bits + 128, 30, 31, 32, 63];
    let cut = [bits + 256, bits + 65_536, bits + (1 << 31), 1 << 31, NARROW];
    Word::at_edges(bits, NARROW, &[&under[..], &above, &cut].concat())
}

fn id_words(id: Id) -> Vec<Word> {
    match id {
        Id::Can(key) => vec![Word::at_edges(key.into(), NARROW, &KEYS)],
        Id::Lin(pid) => vec![pid_word(pid)],
        Id::FlexRay {
            channels,
            slot,
            cycle,
        } => vec![
            narrow(channels, 1, 3),
            narrow(slot, 1, 2_047),
            narrow(cycle, 0, 63),
        ],
        Id::FlexRayError { channels } => vec![narrow(channels, 1, 3)],
    }
}

/// The same id under other parity bits, the ends of a byte, the largest right PID, and numbers that
/// are a right PID again if they are cut to a byte.
fn pid_word(pid: u8) -> Word {
    let garbled = garble::PARITY_BITS.map(|bits| u64::from(pid ^ bits));
    let pid = u64::from(pid);
    let ends = [0, 0x80, 0xfe, 0xff, 0x100];
    let cut = [pid + 0x100, pid + 0x1_0000, NARROW - 0x7f, NARROW];
    Word::at_edges(pid, NARROW, &[&garbled[..], &ends, &cut].concat())
}

/// Payloads are mostly short, and often just fill the frame, or are one byte more.
fn payload(scene: &mut Scene, id: Id) -> Word {
    let beside = match id {
        Id::Can(_) => 10,
        Id::Lin(_) => 7,
        Id::FlexRay { .. } | Id::FlexRayError { .. } => 9,
    };
    let size = scene.limits().size as usize;
    let used = scene.engine().framer().filling().len().max(14);
    let left = |used: usize| size.saturating_sub(used + beside);
    let most = left(14).min(id.longest_payload());
    let short = scene.random.below(9);
    let exact = left(used);
    let common = [0, 1, 2, short, short, most.min(16)];
    let filling = [exact, exact + 1, exact + 2];
    let lengths = [&common[..], &common, &filling].concat();
    let mut length = scene.random.pick(&lengths);
    if scene.random.one_in(40) {
        length = most;
    }
    // A loss makes the item a byte longer, with which it just fits, or just does not.
    if scene.engine().framer().lost() && scene.random.one_in(3) {
        length = scene.random.pick(&[exact, exact + 1]);
    }
    let edges = match id {
        Id::Can(key) if key & CAN_FD != 0 => vec![0, 8, 9, most, left(14) + 1, 64, 65],
        Id::Can(_) | Id::Lin(_) => vec![0, 7, 8, 9],
        Id::FlexRay { .. } => vec![0, most, left(14) + 1, 254, 255],
        Id::FlexRayError { .. } => vec![0],
    };
    let bytes = scene.random.bytes(length.min(most));
    Word::bytes(bytes, &edges)
}

pub fn state(scene: &mut Scene, number: usize) -> Draft {
    match scene.source(number).kind {
        Kind::Can => can_state(scene, number),
        Kind::Lin => {
            let online = Word::flag(scene.random.one_in(2));
            of_source("lin-state", scene, number, vec![online])
        }
        Kind::FlexRay => flexray_state(scene, number),
    }
}

fn can_state(scene: &mut Scene, number: usize) -> Draft {
    let online = !scene.random.one_in(4);
    let mixes = [(false, false), (true, false), (false, true)];
    let (passive, bus_off) = scene.random.pick(&mixes);
    let any = scene.random.byte();
    let counter = scene.random.pick(&[0, 7, 8, 119, 120, 127, 128, 255, any]);
    let mut words: Vec<Word> = [online, passive, bus_off].map(Word::flag).to_vec();
    words.push(narrow(counter, 0, 255));
    of_source("can-state", scene, number, words)
}

fn flexray_state(scene: &mut Scene, number: usize) -> Draft {
    let online = Word::flag(!scene.random.one_in(4));
    let bits = scene.random.pick(&[0, 0x10, 0x20, 0x30]);
    // A bit that belongs to a report, alone and with others.
    let reports: Vec<u64> = [1, 2, 4, 8, 14, 15].map(|own| bits + own).to_vec();
    let ends = [0, 1, 14, 16, 48, 62, 63, 64, 65, 128];
    let cut = [bits + 256, bits + 65_536, 1 << 31, NARROW - 15, NARROW];
    let edges = [&reports[..], &ends, &cut].concat();
    let bits = Word::at_edges(bits, NARROW, &edges);
    of_source("flexray-state", scene, number, vec![online, bits])
}

pub fn tick(scene: &mut Scene) -> Draft {
    let at = scene.next_tick();
    Draft::new("tick", time(at))
}

/// A filter of the source's kind, by a mask or by bounds where there is a choice.
pub fn filter(scene: &mut Scene, number: usize) -> Draft {
    let by_mask = scene.random.one_in(2);
    match scene.source(number).kind {
        Kind::Can if by_mask => can_mask(scene, number),
        Kind::Can => can_range(scene, number),
        Kind::Lin if by_mask => lin_mask(scene, number),
        Kind::Lin => lin_range(scene, number),
        Kind::FlexRay => flexray_filter(scene, number),
    }
}

pub fn can_mask(scene: &mut Scene, number: usize) -> Draft {
    let key = valid::can_key(scene.random);
    let (mask, code) = near::mask_and_code(scene.random, key, u32::MAX);
    let words = vec![any_narrow(mask), any_narrow(code)];
    of_source("can-mask", scene, number, words)
}

pub fn can_range(scene: &mut Scene, number: usize) -> Draft {
    let keys = [(); 2].map(|_| valid::can_key(scene.random));
    let range = near::bounds(scene.random, keys, u32::MAX);
    of_source("can-range", scene, number, bounds(range, NARROW))
}

pub fn lin_mask(scene: &mut Scene, number: usize) -> Draft {
    let key = u32::from(scene.random.byte() % 64);
    let (mask, code) = near::mask_and_code(scene.random, key, 63);
    let words = vec![narrow(mask, 0, 63), narrow(code, 0, 63)];
    of_source("lin-mask", scene, number, words)
}

pub fn lin_range(scene: &mut Scene, number: usize) -> Draft {
    let keys = [(); 2].map(|_| u32::from(scene.random.byte() % 64));
    let range = near::bounds(scene.random, keys, 63);
    of_source("lin-range", scene, number, bounds(range, 63))
}

pub fn flexray_filter(scene: &mut Scene, number: usize) -> Draft {
    let slots = [(); 2].map(|_| scene.random.below(2_048) as u32);
    let slots = near::bounds(scene.random, slots, 2_047);
    let any = 1 + scene.random.below(64) as u32;
    let repetition = scene.random.pick(&[1, 2, 3, 4, 8, 16, 32, 63, 64, 64, any]);
    let cycles = [(); 2].map(|_| scene.random.below(repetition as usize) as u32);
    let cycles = near::bounds(scene.random, cycles, 63);
    let mut words = bounds(slots, 2_047);
    words.extend(bounds(cycles, 63));
    words.push(narrow(repetition, 1, 64));
    of_source("flexray-filter", scene, number, words)
}

fn of_source(name: &'static str, scene: &Scene, number: usize, rest: Vec<Word>) -> Draft {
    Draft::new(name, [vec![source(scene, number)], rest].concat())
}

/// Two bounds, of which each has an edge just past the other.
fn bounds(range: Range, highest: u64) -> Vec<Word> {
    let (lower, upper) = (u64::from(range.lower), u64::from(range.upper));
    let common = [0, highest, highest + 1, lower + 256, 1 << 31, NARROW];
    let edges = |more: [u64; 2]| [&common[..], &more].concat();
    vec![
        Word::at_edges(lower, NARROW, &edges([upper, upper + 1])),
        Word::at_edges(upper, NARROW, &edges([lower, lower.saturating_sub(1)])),
    ]
}

/// A filter that lets everything of its source pass.
pub fn filter_for_all(scene: &Scene, number: usize) -> Draft {
    let to = |upper| Range { lower: 0, upper };
    let (name, words) = match scene.source(number).kind {
        Kind::Can => ("can-range", bounds(to(u32::MAX), NARROW)),
        Kind::Lin => ("lin-mask", vec![narrow(0u8, 0, 63), narrow(0u8, 0, 63)]),
        Kind::FlexRay => {
            let (slots, cycles) = (bounds(to(2_047), 2_047), bounds(to(63), 63));
            let all = [slots, cycles, vec![narrow(1u8, 1, 64)]].concat();
            ("flexray-filter", all)
        }
    };
    of_source(name, scene, number, words)
}

pub fn remove(scene: &mut Scene, number: usize) -> Draft {
    let filters = &scene.source(number).filters;
    let taken: Vec<u64> = (0..8).filter(|&i| filters[i as usize].is_some()).collect();
    let any = scene.random.below(9) as u64;
    let place = if taken.is_empty() {
        any
    } else {
        scene.random.pick(&taken)
    };
    let words = vec![Word::within(place, 0, 7, WIDE)];
    of_source("remove", scene, number, words)
}

/// It has no words that could go to an edge; a bad line is made of it all the same.
pub fn failed() -> Draft {
    Draft::new("failed", Vec::new())
}

/// The largest output is left to a few lines of its own: it makes long answers.
pub fn take(scene: &mut Scene) -> Draft {
    let any = scene.random.below(24);
    let waiting = scene.engine().framer().oldest_waiting();
    let length = waiting.map_or(any, <[u8]>::len) as u64;
    let more = scene.random.pick(&[0, 0, 1, 2, 7]);
    let edges = [0, 1, length.saturating_sub(1), length, length + 1];
    let size = Word::at_edges(length + more, 2_048, &edges);
    Draft::new("take", vec![size])
}

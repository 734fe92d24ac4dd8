//! Ids beside the bounds of filters, and filters beside ids, so that matching is a close thing.

use super::valid;
use crate::filter::{Filter, Range};
use crate::frame::{Id, Kind, CAN_EXTENDED, CAN_RESERVED};
use crate::pid;
use crate::random::Random;
use crate::source::Source;

/// An id that a report may name; most often one that passes.
pub fn id(random: &mut Random, source: &Source) -> Id {
    let tries = if random.one_in(14) { 1 } else { 12 };
    let mut id = candidate(random, source);
    for _ in 1..tries {
        if source.passes(id) {
            break;
        }
        id = candidate(random, source);
    }
    id
}

fn candidate(random: &mut Random, source: &Source) -> Id {
    let filters: Vec<Filter> = source.filters.iter().flatten().copied().collect();
    if filters.is_empty() || random.one_in(3) {
        return any_id(random, source.kind);
    }
    match random.pick(&filters) {
        Filter::CanMask { mask, code } => can(masked(random, mask, code)),
        Filter::CanRange(range) => can(beside(random, range)),
        Filter::LinMask { mask, code } => lin(masked(random, mask, code)),
        Filter::LinRange(range) => lin(beside(random, range)),
        Filter::FlexRay {
            slots,
            cycles,
            repetition,
        } => {
            let turn = repetition * random.below(64) as u32;
            let cycle = beside(random, cycles).saturating_add(turn);
            flexray(beside(random, slots), cycle, random)
        }
    }
}

fn any_id(random: &mut Random, kind: Kind) -> Id {
    let any = random.next() as u32;
    match kind {
        Kind::Can => Id::Can(valid::can_key(random)),
        Kind::Lin => lin(any),
        Kind::FlexRay => {
            let slot = random.pick(&[1, 2, 255, 256, 1_027, 2_046, 2_047, any % 2_048]);
            flexray(slot, any >> 16, random)
        }
    }
}

/// The nearest key that a report may name.
fn can(key: u32) -> Id {
    let id = key & !CAN_RESERVED;
    let standard = key & CAN_EXTENDED == 0;
    Id::Can(if standard { id & 0x4000_07ff } else { id })
}

fn lin(key: u32) -> Id {
    Id::Lin(pid::of_id(key as u8 % pid::IDS))
}

fn flexray(slot: u32, cycle: u32, random: &mut Random) -> Id {
    Id::FlexRay {
        channels: random.pick(&[1, 2, 3]),
        slot: slot.clamp(1, 2_047) as u16,
        cycle: (cycle % 64) as u8,
    }
}

/// A key that the mask filter matches, or that misses by one bit.
fn masked(random: &mut Random, mask: u32, code: u32) -> u32 {
    let key = code & mask | random.next() as u32 & !mask;
    let bits = random.pick(&[6, 32]);
    let bit = 1u32 << random.below(bits);
    random.pick(&[key, key, key ^ bit])
}

fn beside(random: &mut Random, range: Range) -> u32 {
    let Range { lower, upper } = range;
    let inside = lower + random.next() as u32 % (upper - lower).max(1);
    let outside = [lower.saturating_sub(1), upper.saturating_add(1)];
    random.pick(&[lower, upper, inside, inside, outside[0], outside[1]])
}

/// Mask and code: everything, one key, some bits, or nothing at all because of a code bit that the
/// mask leaves out.
pub fn mask_and_code(random: &mut Random, key: u32, highest: u32) -> (u32, u32) {
    let any = random.next() as u32 & highest;
    let bit = 1u32 << random.below(highest.count_ones() as usize);
    match random.below(6) {
        0 => (0, 0),
        1 => (highest, key),
        2 | 3 => (any, key & any),
        4 => (bit, key & bit),
        _ => (any & !bit, key & any | bit),
    }
}

pub fn bounds(random: &mut Random, [key, other]: [u32; 2], highest: u32) -> Range {
    let near = key.saturating_add(random.below(4) as u32).min(highest);
    let wide = [(0, highest), (key, other), (0, key)];
    let narrow = [(key, key), (key, near), (key, near)];
    let (one, two) = random.pick(&[wide, narrow].concat());
    Range {
        lower: one.min(two),
        upper: one.max(two),
    }
}

//! Judges a frame and yields its header and items. A refusal is its answer number.

use crate::frame::{Frame, Header, Id, Item, Kind, Placed, Time};
use crate::frame::{CAN_EXTENDED, CAN_RESERVED, HEADER_LENGTH, NANOS_PER_SECOND, SLOT_VALID};
use crate::pid;

pub const TOO_SHORT: u8 = 20;
pub const VERSION: u8 = 21;
pub const DATA_LENGTH: u8 = 22;
pub const MISSING: u8 = 23;
pub const NETWORK_TYPE: u8 = 24;
pub const RESERVED: u8 = 25;
pub const FLAGS: u8 = 26;
pub const PAYLOAD_LENGTH: u8 = 27;
pub const NANOS: u8 = 28;
pub const OUT_OF_RANGE: u8 = 29;
pub const NO_SUCH_PLACE: u8 = 30;

/// What stands at a place of an accepted frame.
#[derive(Debug, PartialEq)]
pub enum Step<'a> {
    Item(Placed<'a>),
    End,
}

pub fn read(frame: &[u8]) -> Result<Frame<'_>, u8> {
    let header = read_header(frame)?;
    let mut items = Vec::new();
    read_items(frame, header.time, &mut items)?;
    Ok(Frame { header, items })
}

/// Where the item starts for which the frame is refused, so that coverage can look at it. Nothing
/// where the frame is right or its header is wrong.
pub fn refused_item(frame: &[u8]) -> Option<usize> {
    let header = read_header(frame).ok()?;
    let mut before = Vec::new();
    read_items(frame, header.time, &mut before).err()?;
    Some(before.last().map_or(HEADER_LENGTH, |item| item.next))
}

pub fn step(frame: &[u8], place: u64) -> Result<Step<'_>, u8> {
    let items = read(frame)?.items;
    if place == frame.len() as u64 {
        return Ok(Step::End);
    }
    let found = items.into_iter().find(|item| item.start as u64 == place);
    found.map(Step::Item).ok_or(NO_SUCH_PLACE)
}

pub fn payload(frame: &[u8], place: u64) -> Result<&[u8], u8> {
    Ok(match step(frame, place)? {
        Step::Item(placed) => placed.item.payload.unwrap_or(&[]),
        Step::End => &[],
    })
}

fn big_endian(bytes: &[u8]) -> u64 {
    bytes.iter().fold(0, |value, &b| value << 8 | u64::from(b))
}

fn read_header(frame: &[u8]) -> Result<Header, u8> {
    if frame.len() < HEADER_LENGTH {
        return Err(TOO_SHORT);
    }
    if frame[0] != 1 {
        return Err(VERSION);
    }
    let nanos = big_endian(&frame[8..12]);
    if nanos >= NANOS_PER_SECOND {
        return Err(NANOS);
    }
    let data_length = big_endian(&frame[12..14]);
    if data_length != (frame.len() - HEADER_LENGTH) as u64 {
        return Err(DATA_LENGTH);
    }
    Ok(Header {
        sequence: frame[1],
        time: Time {
            seconds: big_endian(&frame[2..8]),
            nanos: nanos as u32,
        },
        data_length: data_length as u16,
    })
}

/// The bytes that are not read yet.
struct Left<'a> {
    frame: &'a [u8],
    at: usize,
}

impl<'a> Left<'a> {
    fn take(&mut self, count: usize) -> Result<&'a [u8], u8> {
        if self.frame.len() - self.at < count {
            return Err(MISSING);
        }
        let part = &self.frame[self.at..self.at + count];
        self.at += count;
        Ok(part)
    }

    fn byte(&mut self) -> Result<u8, u8> {
        Ok(self.take(1)?[0])
    }
}

/// Puts the items down that come before the end, or before the first one that is refused.
fn read_items<'a>(frame: &'a [u8], header: Time, items: &mut Vec<Placed<'a>>) -> Result<(), u8> {
    let mut left = Left {
        frame,
        at: HEADER_LENGTH,
    };
    while left.at < frame.len() {
        let start = left.at;
        let item = read_item(&mut left, header)?;
        items.push(Placed {
            start,
            next: left.at,
            item,
        });
    }
    Ok(())
}

fn read_item<'a>(left: &mut Left<'a>, header: Time) -> Result<Item<'a>, u8> {
    let offset = big_endian(left.take(2)?) as u16;
    let flags = left.byte()?;
    let kind = kind_of(flags & 0x1f)?;
    let (has_state, has_id, has_payload) = match flags >> 5 {
        0b011 => (false, true, true),
        0b111 => (true, true, true),
        0b110 => (true, true, false),
        0b100 => (true, false, false),
        _ => return Err(FLAGS),
    };
    let network = left.byte()?;
    let state = if has_state {
        Some(read_state(left, kind)?)
    } else {
        None
    };
    let id = if has_id {
        Some(read_id(left, kind, has_payload)?)
    } else {
        None
    };
    let payload = match id {
        Some(id) if has_payload => Some(read_payload(left, id)?),
        _ => None,
    };
    let time = header.after_ticks(offset);
    Ok(Item {
        time,
        kind,
        network,
        state,
        id,
        payload,
    })
}

fn kind_of(network_type: u8) -> Result<Kind, u8> {
    match network_type {
        1 => Ok(Kind::Can),
        2 => Ok(Kind::Lin),
        3 => Ok(Kind::FlexRay),
        _ => Err(NETWORK_TYPE),
    }
}

fn read_state(left: &mut Left, kind: Kind) -> Result<u8, u8> {
    let state = left.byte()?;
    if kind == Kind::Lin && state & 0x30 != 0 {
        return Err(RESERVED);
    }
    Ok(state)
}

fn read_id(left: &mut Left, kind: Kind, has_payload: bool) -> Result<Id, u8> {
    match kind {
        Kind::Can => can_id(big_endian(left.take(4)?) as u32),
        Kind::Lin => lin_id(left.byte()?),
        Kind::FlexRay => flexray_id(left.take(3)?, has_payload),
    }
}

fn can_id(key: u32) -> Result<Id, u8> {
    if key & CAN_RESERVED != 0 {
        return Err(RESERVED);
    }
    if key & CAN_EXTENDED == 0 && key & 0x1fff_ffff > 2_047 {
        return Err(OUT_OF_RANGE);
    }
    Ok(Id::Can(key))
}

fn lin_id(pid: u8) -> Result<Id, u8> {
    if !pid::is_right(pid) {
        return Err(OUT_OF_RANGE);
    }
    Ok(Id::Lin(pid))
}

/// An item that has an id and no payload shows its state: only such a one may do without a slot.
fn flexray_id(id: &[u8], has_payload: bool) -> Result<Id, u8> {
    let slot_valid = id[0] & SLOT_VALID != 0;
    if id[0] & 0x30 != 0 || !slot_valid && has_payload {
        return Err(RESERVED);
    }
    let channels = id[0] >> 6;
    let slot = u16::from(id[0] & 0x07) << 8 | u16::from(id[1]);
    let cycle = id[2];
    let in_range = if slot_valid {
        slot != 0 && cycle <= 63
    } else {
        slot == 0 && cycle == 0
    };
    if channels == 0 || !in_range {
        return Err(OUT_OF_RANGE);
    }
    Ok(if slot_valid {
        Id::FlexRay {
            channels,
            slot,
            cycle,
        }
    } else {
        Id::FlexRayError { channels }
    })
}

fn read_payload<'a>(left: &mut Left<'a>, id: Id) -> Result<&'a [u8], u8> {
    let length = usize::from(left.byte()?);
    if length > id.longest_payload() {
        return Err(PAYLOAD_LENGTH);
    }
    left.take(length)
}

#[cfg(test)]
#[path = "reader_tests.rs"]
mod tests;

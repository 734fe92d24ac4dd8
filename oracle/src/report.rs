//! What a bus hands over, as far as it can be judged without the source.

use crate::frame::{Id, Kind, CAN_EXTENDED, CAN_RESERVED};
use crate::pid;
use crate::state::Own;

pub struct Report<'a> {
    pub kind: Kind,
    /// Nothing where a number of the report is out of range, or the parity of a PID is wrong.
    pub id: Option<Id>,
    /// Rule 4: nothing where the report says nothing of the state; no bit set says that it is known.
    pub own: Option<Own>,
    pub payload: Option<&'a [u8]>,
}

impl<'a> Report<'a> {
    pub fn can(key: u32, payload: &'a [u8]) -> Report<'a> {
        Report {
            kind: Kind::Can,
            id: can_id(key),
            own: None,
            payload: Some(payload),
        }
    }

    pub fn lin(pid: u32, errors: u32, payload: &'a [u8]) -> Report<'a> {
        let own = Own::lin(errors);
        Report {
            kind: Kind::Lin,
            id: lin_id(pid).filter(|_| own.is_some()),
            own,
            payload: Some(payload),
        }
    }

    pub fn flexray(channels: u32, slot: u32, cycle: u32, payload: &'a [u8]) -> Report<'a> {
        Report {
            kind: Kind::FlexRay,
            id: flexray_id(channels, slot, cycle),
            own: None,
            payload: Some(payload),
        }
    }

    /// Rule 5: id and state, no payload.
    pub fn conflict(channels: u32, slot: u32, cycle: u32) -> Report<'a> {
        Report {
            kind: Kind::FlexRay,
            id: flexray_id(channels, slot, cycle),
            own: Some(Own::CONFLICT),
            payload: None,
        }
    }

    /// An error of these channels without a frame: id and state, no payload.
    pub fn flexray_error(channels: u32, errors: u32) -> Report<'a> {
        let own = Own::flexray(errors);
        let channels = flexray_channels(channels).filter(|_| own.is_some());
        Report {
            kind: Kind::FlexRay,
            id: channels.map(|channels| Id::FlexRayError { channels }),
            own,
            payload: None,
        }
    }

    /// Rule 4: an error is never left out, and a report without a payload is there for the state,
    /// also where no bit of it is set.
    pub fn always_shows_state(&self) -> bool {
        self.payload.is_none() || self.own.is_some_and(Own::any_set)
    }
}

fn can_id(key: u32) -> Option<Id> {
    let standard = key & CAN_EXTENDED == 0;
    let too_big = standard && key & 0x1fff_ffff > 2_047;
    (key & CAN_RESERVED == 0 && !too_big).then_some(Id::Can(key))
}

fn lin_id(pid: u32) -> Option<Id> {
    let pid = u8::try_from(pid).ok()?;
    pid::is_right(pid).then_some(Id::Lin(pid))
}

fn flexray_id(channels: u32, slot: u32, cycle: u32) -> Option<Id> {
    let channels = flexray_channels(channels)?;
    let in_range = (1..=2_047).contains(&slot) && (0..=63).contains(&cycle);
    in_range.then_some(Id::FlexRay {
        channels,
        slot: slot as u16,
        cycle: cycle as u8,
    })
}

fn flexray_channels(channels: u32) -> Option<u8> {
    (1..=3).contains(&channels).then_some(channels as u8)
}

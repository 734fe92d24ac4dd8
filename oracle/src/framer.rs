//! The frame being filled and the frames that wait, by the rules of "Filling, closing, taking".

use crate::cause;
use crate::frame::{Header, Item, Time, HEADER_LENGTH};
use crate::state::{State, LOST};
use crate::writer;
use std::collections::VecDeque;

const NANOS_PER_MILLI: u128 = 1_000_000;
const LARGEST_OFFSET: u128 = 65_535;

/// F, Q and D, as setup and switch name them.
#[derive(Clone, Copy, Debug, Default, PartialEq)]
pub struct Limits {
    pub size: u64,
    pub room: u64,
    /// In milliseconds; 0 is none.
    pub deadline: u64,
}

impl Limits {
    /// The longest deadline is that of the standard's table, 0.655 s.
    pub fn are_in_range(&self) -> bool {
        (32..=1_024).contains(&self.size) && (1..=8).contains(&self.room) && self.deadline <= 655
    }
}

#[derive(Clone, Debug, Default, PartialEq)]
pub struct Framer {
    limits: Limits,
    /// A header and items; empty where nothing is being filled.
    filling: Vec<u8>,
    header_time: Time,
    waiting: VecDeque<Vec<u8>>,
    next_sequence: u8,
    lost: bool,
    discards: u32,
    /// The frame last taken has not been called failed.
    out: bool,
    failures: u32,
}

impl Framer {
    pub fn new(limits: Limits) -> Framer {
        Framer {
            limits,
            ..Framer::default()
        }
    }

    pub fn limits(&self) -> Limits {
        self.limits
    }

    pub fn discards(&self) -> u32 {
        self.discards
    }

    pub fn failures(&self) -> u32 {
        self.failures
    }

    /// A loss is pending.
    pub fn lost(&self) -> bool {
        self.lost
    }

    pub fn waiting(&self) -> usize {
        self.waiting.len()
    }

    /// The same with no loss pending.
    pub fn without_loss(&self) -> Framer {
        Framer {
            lost: false,
            ..self.clone()
        }
    }

    /// The bytes so far; DataLength is not among them before the closing.
    pub fn filling(&self) -> &[u8] {
        &self.filling
    }

    pub fn filling_since(&self) -> Option<Time> {
        (!self.filling.is_empty()).then_some(self.header_time)
    }

    /// How many nanoseconds a time lies before the header time of the frame being filled; an empty
    /// one has no header, and nothing lies before it.
    pub fn behind(&self, now: Time) -> u32 {
        let header = self.filling_since();
        header.map_or(0, |header| now.nanos_before(header))
    }

    pub fn oldest_waiting(&self) -> Option<&[u8]> {
        self.waiting.front().map(Vec::as_slice)
    }

    /// Whether an item fits a frame of its own, with a state byte.
    pub fn could_hold(&self, item: &Item) -> bool {
        let with_state = Item {
            state: Some(0),
            ..*item
        };
        HEADER_LENGTH + with_state.length() <= self.limits.size as usize
    }

    /// Rules 1, 2 and 4. The item comes without a state.
    pub fn add(&mut self, mut item: Item, state: &mut State, always_shown: bool) {
        item.state = self.state_to_show(state, always_shown);
        if self.must_close_for(&item) {
            self.close();
            // The closing may have lost a frame, which this very item then tells.
            item.state = self.state_to_show(state, always_shown);
        }
        if item.state.is_some() {
            state.mark_shown();
            self.lost = false;
        }
        self.put(&item);
    }

    fn state_to_show(&self, state: &State, always_shown: bool) -> Option<u8> {
        let lost = if self.lost { LOST } else { 0 };
        let shown = always_shown || self.lost || state.is_news();
        shown.then_some(state.byte() | lost)
    }

    /// Rule 2.
    fn must_close_for(&self, item: &Item) -> bool {
        if self.filling.is_empty() {
            return false;
        }
        item.time < self.header_time
            || item.time.ticks_since(self.header_time) > LARGEST_OFFSET
            || self.filling.len() + item.length() > self.limits.size as usize
    }

    /// Rule 1.
    fn put(&mut self, item: &Item) {
        if self.filling.is_empty() {
            self.header_time = item.time;
            let header = Header {
                sequence: self.next_sequence,
                time: item.time,
                data_length: 0,
            };
            writer::put_header(&mut self.filling, &header);
            self.next_sequence = self.next_sequence.wrapping_add(1);
        }
        writer::put_item(&mut self.filling, self.header_time, item);
    }

    /// Rule 3, for a frame that is not empty.
    fn close(&mut self) {
        let mut frame = std::mem::take(&mut self.filling);
        if self.waiting.len() as u64 == self.limits.room {
            self.lost = true;
            self.discards = self.discards.saturating_add(1);
            return;
        }
        let data_length = (frame.len() - HEADER_LENGTH) as u16;
        frame[12..HEADER_LENGTH].copy_from_slice(&data_length.to_be_bytes());
        self.waiting.push_back(frame);
    }

    /// The end of rule 6.
    pub fn close_overdue(&mut self, now: Time) {
        let waits = self.limits.deadline != 0 && !self.filling.is_empty();
        let deadline = u128::from(self.limits.deadline) * NANOS_PER_MILLI;
        if waits && now >= self.header_time && now.nanos_since(self.header_time) >= deadline {
            self.close();
        }
    }

    /// Rule 7: the length of the frame that now is at the front of the output.
    pub fn take(&mut self, output: &mut [u8]) -> Result<usize, u8> {
        let frame = self.waiting.front().ok_or(cause::NOTHING_WAITS)?;
        let length = frame.len();
        let front = output.get_mut(..length);
        front.ok_or(cause::OUTPUT_TOO_SHORT)?.copy_from_slice(frame);
        self.waiting.pop_front();
        self.out = true;
        Ok(length)
    }

    /// Rule 8.
    pub fn fail(&mut self) -> Result<(), u8> {
        if !self.out {
            return Err(cause::NO_FRAME_OUT);
        }
        self.out = false;
        self.lost = true;
        self.failures = self.failures.saturating_add(1);
        Ok(())
    }
}

#[cfg(test)]
mod tests {
    use super::*;
    use crate::frame::Kind;

    const SMALLEST: Limits = Limits {
        size: 32,
        room: 1,
        deadline: 1,
    };

    fn put_and_close(framer: &mut Framer) {
        framer.put(&Item {
            time: Time::default(),
            kind: Kind::Lin,
            network: 0,
            state: Some(0),
            id: None,
            payload: None,
        });
        framer.close();
    }

    #[test]
    fn the_discard_count_stops() {
        let mut framer = Framer::new(SMALLEST);
        framer.discards = u32::MAX - 1;
        let mut counts = Vec::new();
        for _ in 0..4 {
            put_and_close(&mut framer);
            counts.push(framer.discards());
        }
        assert_eq!(counts, [u32::MAX - 1, u32::MAX, u32::MAX, u32::MAX]);
        assert_eq!(framer.failures(), 0);
    }

    #[test]
    fn the_failure_count_stops() {
        let mut framer = Framer::new(SMALLEST);
        framer.failures = u32::MAX - 2;
        let mut counts = Vec::new();
        for _ in 0..4 {
            put_and_close(&mut framer);
            framer.take(&mut [0; 32]).unwrap();
            // At the cut a failed send is still a loss, and still told once.
            framer.lost = false;
            assert_eq!(framer.fail(), Ok(()));
            assert!(framer.lost());
            assert_eq!(framer.fail(), Err(17));
            counts.push(framer.failures());
        }
        assert_eq!(counts, [u32::MAX - 1, u32::MAX, u32::MAX, u32::MAX]);
        assert_eq!(framer.discards(), 0);
        assert_eq!(Framer::new(framer.limits()).failures(), 0);
    }
}

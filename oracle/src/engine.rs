//! The engine: each call with its causes in their order. A refusal is its answer number, and leaves
//! everything as it was. A report and a tick say how many nanoseconds the clock was behind.

use crate::cause;
use crate::filter::Filter;
use crate::frame::{Id, Kind, Time};
use crate::framer::{Framer, Limits};
use crate::report::Report;
use crate::source::Source;

const MOST_SOURCES: usize = 8;

/// Without sources the engine is before setup, and every call finds what the rules say of that.
#[derive(Clone, Debug, Default, PartialEq)]
pub struct Engine {
    sources: Vec<Source>,
    framer: Framer,
}

impl Engine {
    pub fn sources(&self) -> &[Source] {
        &self.sources
    }

    pub fn framer(&self) -> &Framer {
        &self.framer
    }

    fn is_set_up(&self) -> bool {
        !self.sources.is_empty()
    }

    /// Each network is the numbers of a kind and of a network id.
    pub fn setup(&mut self, limits: Limits, networks: &[(u32, u32)]) -> Result<(), u8> {
        if self.is_set_up() || !limits.are_in_range() {
            return Err(cause::SETUP);
        }
        self.sources = sources_of(networks).ok_or(cause::SETUP)?;
        self.framer = Framer::new(limits);
        Ok(())
    }

    pub fn switch(&mut self, limits: Limits) -> Result<(), u8> {
        if !self.is_set_up() || !limits.are_in_range() {
            return Err(cause::SETUP);
        }
        self.begin_again(limits);
        Ok(())
    }

    pub fn offline(&mut self) {
        self.begin_again(self.framer.limits());
    }

    fn begin_again(&mut self, limits: Limits) {
        for source in &mut self.sources {
            *source = Source::new(source.kind, source.network);
        }
        self.framer = Framer::new(limits);
    }

    /// Rule 4, its end: starting forgets the state.
    pub fn start(&mut self, number: u64) -> Result<(), u8> {
        let source = find(&mut self.sources, number)?;
        source.started = true;
        source.state = Default::default();
        Ok(())
    }

    pub fn stop(&mut self, number: u64) -> Result<(), u8> {
        find(&mut self.sources, number)?.started = false;
        Ok(())
    }

    /// Order 7, 2, 4, 3, 5, 6, 1, 8.
    pub fn report(&mut self, number: u64, time: Time, report: &Report) -> Result<u32, u8> {
        check_time(time)?;
        let source = find_started(&mut self.sources, number, report.kind)?;
        let id = passing_id(source, report)?;
        let item = source.item(time, Some(id), report.payload);
        if !self.framer.could_hold(&item) {
            return Err(cause::ITEM_TOO_LONG);
        }
        let behind = self.framer.behind(time);
        source.reported = true;
        if let Some(own) = report.own {
            source.state.bind(own);
        }
        let always_shown = report.always_shows_state();
        self.framer.add(item, &mut source.state, always_shown);
        if let Some(own) = report.own {
            source.state.unbind(own);
        }
        Ok(behind)
    }

    /// Order 2, 4, 3, 5. The byte is missing where the update is out of range.
    pub fn update(&mut self, number: u64, kind: Kind, byte: Option<u8>) -> Result<(), u8> {
        let source = find_started(&mut self.sources, number, kind)?;
        source.state.update(byte.ok_or(cause::OUT_OF_RANGE)?);
        Ok(())
    }

    /// Rule 6. A state item may start a new frame: the clock is measured before that.
    pub fn tick(&mut self, time: Time) -> Result<u32, u8> {
        check_time(time)?;
        let behind = self.framer.behind(time);
        for source in &mut self.sources {
            if source.owes_state() {
                let item = source.item(time, None, None);
                self.framer.add(item, &mut source.state, false);
            }
            source.reported = false;
        }
        self.framer.close_overdue(time);
        Ok(behind)
    }

    /// Order 2, 4, 9, 10. The number is the filter's place.
    pub fn add_filter(&mut self, number: u64, filter: Filter) -> Result<usize, u8> {
        let source = find_kind(&mut self.sources, number, filter.kind())?;
        if !filter.is_in_range() {
            return Err(cause::FILTER);
        }
        source.add_filter(filter)
    }

    /// Order 2, 11.
    pub fn remove_filter(&mut self, number: u64, place: u64) -> Result<(), u8> {
        find(&mut self.sources, number)?.remove_filter(place)
    }

    /// Order 13, 12.
    pub fn take(&mut self, output: &mut [u8]) -> Result<usize, u8> {
        self.framer.take(output)
    }

    /// Cause 17 alone.
    pub fn failed(&mut self) -> Result<(), u8> {
        self.framer.fail()
    }

    pub fn discards(&self) -> u32 {
        self.framer.discards()
    }

    pub fn failures(&self) -> u32 {
        self.framer.failures()
    }

    /// The same with no loss pending: it shows what a loss makes of a call.
    pub fn without_loss(&self) -> Engine {
        Engine {
            sources: self.sources.clone(),
            framer: self.framer.without_loss(),
        }
    }
}

fn sources_of(networks: &[(u32, u32)]) -> Option<Vec<Source>> {
    let named_twice = |i: usize| networks[..i].contains(&networks[i]);
    let count = networks.len();
    if !(1..=MOST_SOURCES).contains(&count) || (0..count).any(named_twice) {
        return None;
    }
    networks.iter().copied().map(Source::of_numbers).collect()
}

fn check_time(time: Time) -> Result<(), u8> {
    if time.is_in_range() {
        Ok(())
    } else {
        Err(cause::TIME)
    }
}

fn find(sources: &mut [Source], number: u64) -> Result<&mut Source, u8> {
    let place = usize::try_from(number).ok();
    let source = place.and_then(|place| sources.get_mut(place));
    source.ok_or(cause::NO_SUCH_SOURCE)
}

fn find_kind(sources: &mut [Source], number: u64, kind: Kind) -> Result<&mut Source, u8> {
    let source = find(sources, number)?;
    if source.kind != kind {
        return Err(cause::OTHER_KIND);
    }
    Ok(source)
}

fn find_started(sources: &mut [Source], number: u64, kind: Kind) -> Result<&mut Source, u8> {
    let source = find_kind(sources, number, kind)?;
    if !source.started {
        return Err(cause::NOT_STARTED);
    }
    Ok(source)
}

/// The part 5, 6, 1 of a report's order.
fn passing_id(source: &Source, report: &Report) -> Result<Id, u8> {
    let id = report.id.ok_or(cause::OUT_OF_RANGE)?;
    if report.payload.unwrap_or(&[]).len() > id.longest_payload() {
        return Err(cause::PAYLOAD_TOO_LONG);
    }
    if id.is_filtered() && !source.passes(id) {
        return Err(cause::NO_MATCH);
    }
    Ok(id)
}

#[cfg(test)]
#[path = "engine_tests.rs"]
mod tests;

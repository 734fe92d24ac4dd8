//! What the engine keeps of one source.

use crate::cause;
use crate::filter::Filter;
use crate::frame::{Id, Item, Kind, Time};
use crate::state::State;

pub const PLACES: usize = 8;

#[derive(Clone, Debug, PartialEq)]
pub struct Source {
    pub kind: Kind,
    pub network: u8,
    pub started: bool,
    pub filters: [Option<Filter>; PLACES],
    pub state: State,
    /// A report was accepted since the last tick.
    pub reported: bool,
}

impl Source {
    pub fn new(kind: Kind, network: u8) -> Source {
        Source {
            kind,
            network,
            started: false,
            filters: [None; PLACES],
            state: State::default(),
            reported: false,
        }
    }

    /// The source that setup's pair of numbers asks for, if there can be one.
    pub fn of_numbers((kind, network): (u32, u32)) -> Option<Source> {
        Some(Source::new(
            Kind::of_number(kind)?,
            u8::try_from(network).ok()?,
        ))
    }

    pub fn passes(&self, id: Id) -> bool {
        self.filters
            .iter()
            .flatten()
            .any(|filter| filter.matches(id))
    }

    pub fn add_filter(&mut self, filter: Filter) -> Result<usize, u8> {
        let free = self.filters.iter().position(Option::is_none);
        let place = free.ok_or(cause::NO_FREE_PLACE)?;
        self.filters[place] = Some(filter);
        Ok(place)
    }

    pub fn remove_filter(&mut self, number: u64) -> Result<(), u8> {
        let place = usize::try_from(number).ok();
        let place = place.and_then(|place| self.filters.get_mut(place));
        let taken = place.and_then(Option::take);
        taken.map(|_| ()).ok_or(cause::NO_SUCH_FILTER)
    }

    /// Rule 6: the state is to be told at a tick.
    pub fn owes_state(&self) -> bool {
        self.started && !self.reported && self.state.is_news()
    }

    pub fn item<'a>(&self, time: Time, id: Option<Id>, payload: Option<&'a [u8]>) -> Item<'a> {
        Item {
            time,
            kind: self.kind,
            network: self.network,
            state: None,
            id,
            payload,
        }
    }
}

//! How errors without a frame come to the engine, what becomes of their bits, and which updates may
//! not give them.

use crate::engine::Engine;
use crate::frame::{Id, Kind, Time};
use crate::source::Source;
use crate::text::{self, Line};
use std::collections::{BTreeMap, BTreeSet};

/// Flags and network id are at these places of the first item, and the id behind its state.
const FIRST_FLAGS: usize = 16;
const FIRST_ID: usize = 19;
const STATE_AND_ID: u8 = 0xc3;
const LARGEST_OFFSET: u128 = 65_535;
/// The bytes of an error's item.
const ITEM: usize = 8;

#[derive(Default)]
pub struct Errors {
    counts: BTreeMap<String, usize>,
    /// What was last accepted of each source, or of all in a tick.
    last: BTreeMap<usize, String>,
    /// The sources of which no item has told that the bits of an error are over.
    over: BTreeSet<usize>,
    /// The bits, under 64, of updates that were accepted, and of those that were refused with 5.
    right_updates: BTreeSet<u32>,
    wrong_updates: BTreeSet<u32>,
}

/// A `flexray-error` line, with the engine before it and after it.
struct Call<'a> {
    source: u64,
    time: Time,
    channels: u32,
    bits: u32,
    before: &'a Engine,
    after: &'a Engine,
}

impl Errors {
    /// Looks at a line that is a call, and at the engine before and after it.
    pub fn look(&mut self, line: &[u8], answer: &str, before: &Engine, after: &Engine) {
        let Line::Words(words) = text::words(line) else {
            return;
        };
        let number = answer.split(' ').next().unwrap_or_default();
        match words[..] {
            [b"flexray-error", source, seconds, nanos, channels, bits] => {
                let call = Call {
                    source: text::number(source).unwrap_or(u64::MAX),
                    time: Time {
                        seconds: text::number(seconds).unwrap_or(u64::MAX),
                        nanos: text::number32(nanos).unwrap_or(u32::MAX),
                    },
                    channels: text::number32(channels).unwrap_or(u32::MAX),
                    bits: text::number32(bits).unwrap_or(u32::MAX),
                    before,
                    after,
                };
                match number {
                    "0" => self.look_at_accepted(&call, answer),
                    _ => self.look_at_refused(&call),
                }
            }
            [b"flexray-state", _, _, bits] => {
                let bits = text::number32(bits).unwrap_or(u32::MAX);
                self.look_at_update(bits, number);
            }
            [b"tick", ..] if number == "0" => self.look_at_tick(before, after),
            _ => {}
        }
        if number == "0" {
            self.remember(&words, after);
        }
    }

    fn look_at_accepted(&mut self, call: &Call, answer: &str) {
        self.count(&format!("channels-{}", call.channels), true);
        self.count(&format!("bits-{}", call.bits), true);
        let number = call.source as usize;
        let (source, behind) = (&call.before.sources()[number], answer.contains("back"));
        self.count(&format!("filters-{}", filters_of(source)), true);
        self.count("unknown", !source.state.is_known());
        self.count("known", source.state.is_known());
        self.count("unshown", source.state.is_news());
        let last = self.last.get(&number).cloned().unwrap_or_default();
        self.count(&format!("after-{last}"), !last.is_empty());
        let (before, after) = (call.before.framer(), call.after.framer());
        let discards = before.discards() < after.discards();
        let loss = before.lost() || discards;
        self.count("loss", loss);
        self.count("loss-own", discards && !before.lost());
        let same = source.state.shown() == call.after.sources()[number].state.shown();
        self.count("repeated", same && !loss);
        self.count("repeated-none", same && !loss && call.bits == 0);
        self.look_at_frame(call, behind);
    }

    /// What becomes of the frame being filled.
    fn look_at_frame(&mut self, call: &Call, behind: bool) {
        let (before, after) = (call.before.framer(), call.after.framer());
        let (start, size) = (before.filling(), before.limits().size as usize);
        self.count("size-32", size == 32);
        self.count("behind", behind);
        self.count("fills", after.filling().len() == size);
        let Some(header) = before.filling_since() else {
            return self.count("opens", true);
        };
        if after.filling().starts_with(start) {
            return self.count("joins", true);
        }
        let late = !behind && call.time.ticks_since(header) > LARGEST_OFFSET;
        self.count("closes-behind", behind);
        self.count("closes-late", late);
        self.count("closes-full", !behind && !late);
        let a_byte = start.len() + ITEM == size + 1;
        self.count("closes-for-a-byte", !behind && !late && a_byte);
        self.count("discards", before.discards() < after.discards());
    }

    /// Two causes that both hold, and what is out of range where nothing else is wrong.
    fn look_at_refused(&mut self, call: &Call) {
        let causes = call.causes();
        for (i, first) in causes.iter().enumerate() {
            for second in &causes[i + 1..] {
                self.count(&format!("{first}-and-{second}"), true);
            }
        }
        if causes != [5] {
            return;
        }
        let channels_wrong = !(1..=3).contains(&call.channels);
        let bits_wrong = call.bits & !0x0e != 0;
        self.count("5-both", channels_wrong && bits_wrong);
        self.count("5-channels", channels_wrong && !bits_wrong);
        self.count("5-channels-wide", !bits_wrong && call.channels > 255);
        let alone = bits_wrong && !channels_wrong;
        self.count("5-bit-0", alone && call.bits & !0x0e == 1);
        self.count(
            "5-bits-7-to-4",
            alone && call.bits & 1 == 0 && call.bits < 256,
        );
        self.count("5-bits-wide", alone && call.bits > 255);
    }

    fn look_at_update(&mut self, bits: u32, number: &str) {
        if number == "0" {
            self.right_updates.insert(bits);
            return;
        }
        if number != "5" {
            return;
        }
        if bits < 64 {
            self.wrong_updates.insert(bits);
        }
        let (errors, conflict) = (bits & 0x0e != 0, bits & 0x01 != 0);
        self.count("update-errors", bits < 64 && errors && !conflict);
        self.count("update-conflict", bits < 64 && conflict && !errors);
        self.count("update-both", bits < 64 && errors && conflict);
        self.count("update-over", bits > 63 && !errors && !conflict);
    }

    /// A tick that finds the error as a report since the last tick waits; the next one tells.
    fn look_at_tick(&mut self, before: &Engine, after: &Engine) {
        let (mut waits, mut tells) = (0, 0);
        for &number in &self.over {
            let source = &before.sources()[number];
            waits += usize::from(source.started && source.reported);
            tells += usize::from(source.owes_state());
        }
        self.count("tick-waits", waits > 0);
        self.count("tick-tells", tells > 0);
        let start = before.framer().filling();
        let of_error = start.get(FIRST_FLAGS) == Some(&STATE_AND_ID)
            && start.get(FIRST_ID).is_some_and(|byte| byte & 0x08 == 0);
        self.count("due", of_error && after.framer().filling().is_empty());
    }

    fn remember(&mut self, words: &[&[u8]], after: &Engine) {
        let name = String::from_utf8_lossy(words[0]).into_owned();
        let source = words.get(1).and_then(|word| text::number(word));
        let source = source.map_or(usize::MAX, |source| source as usize);
        match &name[..] {
            "new" | "setup" | "switch" | "offline" => {
                self.last.clear();
                self.over.clear();
            }
            "tick" => {
                for number in 0..after.sources().len() {
                    self.follow(number, &name);
                }
            }
            "flexray" | "conflict" | "flexray-error" | "flexray-state" | "start" | "stop" => {
                let tells = name == "flexray" && self.over.contains(&source);
                self.count("frame-tells", tells);
                self.follow(source, &name);
                self.over.remove(&source);
            }
            _ => {}
        }
        let is_news = |number: &usize| after.sources()[*number].state.is_news();
        if name == "flexray-error" && is_news(&source) {
            self.over.insert(source);
        }
        self.over.retain(is_news);
    }

    fn follow(&mut self, number: usize, name: &str) {
        let last = self.last.insert(number, name.to_string());
        let error = last.as_deref() == Some("flexray-error");
        self.count(&format!("then-{name}"), error);
    }

    fn count(&mut self, what: &str, holds: bool) {
        if holds {
            *self.counts.entry(what.to_string()).or_default() += 1;
        }
    }

    /// `error WHAT N`.
    pub fn report(&self) -> String {
        let updates = [
            ("updates-right", &self.right_updates),
            ("updates-wrong", &self.wrong_updates),
        ];
        let updates = updates.map(|(what, bits)| (what.to_string(), bits.len()));
        let updates = updates.into_iter().filter(|(_, count)| *count > 0);
        let counts = self.counts.clone().into_iter().chain(updates);
        counts
            .map(|(what, count)| format!("error {what} {count}\n"))
            .collect()
    }
}

impl Call<'_> {
    /// Those that hold, in the order of a report.
    fn causes(&self) -> Vec<u8> {
        let source = self.before.sources().get(self.source as usize);
        let other_kind = source.is_some_and(|source| source.kind != Kind::FlexRay);
        let stopped = source.is_some_and(|source| !source.started);
        let in_range = (1..=3).contains(&self.channels) && self.bits & !0x0e == 0;
        let causes = [
            (7, !self.time.is_in_range()),
            (2, source.is_none()),
            (4, other_kind),
            (3, stopped),
            (5, !in_range),
        ];
        let holding = causes.into_iter().filter(|(_, holds)| *holds);
        holding.map(|(cause, _)| cause).collect()
    }
}

/// What the filters would do with slot 0 and cycle 0, which the bytes of an error hold.
fn filters_of(source: &Source) -> &'static str {
    let zero = Id::FlexRay {
        channels: 1,
        slot: 0,
        cycle: 0,
    };
    if source.filters.iter().all(Option::is_none) {
        "none"
    } else if source.passes(zero) {
        "match"
    } else {
        "miss"
    }
}

#[cfg(test)]
#[path = "count_errors_tests.rs"]
mod tests;

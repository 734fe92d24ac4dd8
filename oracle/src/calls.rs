//! The words of a line made into a call of the engine. Words that fit no call change nothing.

use crate::engine::Engine;
use crate::filter::{Filter, Range};
use crate::frame::{Kind, Time};
use crate::framer::Limits;
use crate::report::Report;
use crate::state;
use crate::text::{bytes, flag, hex, number, number32, output};

const LARGEST_TAKE: u64 = 2_048;

type Word<'a> = &'a [u8];

/// The answer line, or nothing where the words are no call of the engine.
pub fn call(engine: &mut Engine, name: Word, words: &[Word]) -> Option<String> {
    let sorts = [set_up, switch_source, report, update, change_filters, take];
    sorts.iter().find_map(|sort| sort(engine, name, words))
}

fn plain(result: Result<(), u8>) -> String {
    result.err().unwrap_or(0).to_string()
}

/// A clock that is not behind says nothing of itself.
fn timed(result: Result<u32, u8>) -> String {
    match result {
        Ok(behind @ 1..) => format!("0 back {behind}"),
        other => plain(other.map(|_| ())),
    }
}

/// The other number beside a refusal is 0.
fn numbered(result: Result<usize, u8>) -> String {
    match result {
        Ok(number) => format!("0 {number}"),
        Err(cause) => format!("{cause} 0"),
    }
}

fn set_up(engine: &mut Engine, name: Word, words: &[Word]) -> Option<String> {
    let result = match (name, words) {
        (b"setup", [size, room, deadline, networks @ ..]) => {
            engine.setup(limits(size, room, deadline)?, &pairs(networks)?)
        }
        (b"switch", [size, room, deadline]) => engine.switch(limits(size, room, deadline)?),
        (b"offline", []) => {
            engine.offline();
            Ok(())
        }
        _ => return None,
    };
    Some(plain(result))
}

fn switch_source(engine: &mut Engine, name: Word, words: &[Word]) -> Option<String> {
    let result = match (name, words) {
        (b"start", [source]) => engine.start(number(source)?),
        (b"stop", [source]) => engine.stop(number(source)?),
        _ => return None,
    };
    Some(plain(result))
}

fn report(engine: &mut Engine, name: Word, words: &[Word]) -> Option<String> {
    if let (b"tick", [seconds, nanos]) = (name, words) {
        return Some(timed(engine.tick(time(seconds, nanos)?)));
    }
    let [source, seconds, nanos, rest @ ..] = words else {
        return None;
    };
    let (source, time) = (number(source)?, time(seconds, nanos)?);
    let mut call = |report: Report| Some(timed(engine.report(source, time, &report)));
    match (name, rest) {
        (b"can", [key, payload]) => call(Report::can(number32(key)?, &bytes(payload)?)),
        (b"lin", [pid, errors, payload]) => call(Report::lin(
            number32(pid)?,
            number32(errors)?,
            &bytes(payload)?,
        )),
        (b"flexray", [channels, slot, cycle, payload]) => call(Report::flexray(
            number32(channels)?,
            number32(slot)?,
            number32(cycle)?,
            &bytes(payload)?,
        )),
        (b"conflict", [channels, slot, cycle]) => call(Report::conflict(
            number32(channels)?,
            number32(slot)?,
            number32(cycle)?,
        )),
        (b"flexray-error", [channels, bits]) => {
            call(Report::flexray_error(number32(channels)?, number32(bits)?))
        }
        _ => None,
    }
}

fn update(engine: &mut Engine, name: Word, words: &[Word]) -> Option<String> {
    let (source, rest) = words.split_first()?;
    let (kind, byte) = match (name, rest) {
        (b"can-state", [online, passive, bus_off, counter]) => {
            let (passive, bus_off) = (flag(passive)?, flag(bus_off)?);
            let byte = state::of_can(flag(online)?, passive, bus_off, number32(counter)?);
            (Kind::Can, byte)
        }
        (b"lin-state", [online]) => (Kind::Lin, Some(state::of_lin(flag(online)?))),
        (b"flexray-state", [online, bits]) => {
            let byte = state::of_flexray(flag(online)?, number32(bits)?);
            (Kind::FlexRay, byte)
        }
        _ => return None,
    };
    Some(plain(engine.update(number(source)?, kind, byte)))
}

fn change_filters(engine: &mut Engine, name: Word, words: &[Word]) -> Option<String> {
    let (source, rest) = words.split_first()?;
    let source = number(source)?;
    if let (b"remove", [place]) = (name, rest) {
        return Some(plain(engine.remove_filter(source, number(place)?)));
    }
    Some(numbered(engine.add_filter(source, filter(name, rest)?)))
}

fn filter(name: Word, words: &[Word]) -> Option<Filter> {
    Some(match (name, words) {
        (b"can-mask", [mask, code]) => Filter::CanMask {
            mask: number32(mask)?,
            code: number32(code)?,
        },
        (b"can-range", [lower, upper]) => Filter::CanRange(range(lower, upper)?),
        (b"lin-mask", [mask, code]) => Filter::LinMask {
            mask: number32(mask)?,
            code: number32(code)?,
        },
        (b"lin-range", [lower, upper]) => Filter::LinRange(range(lower, upper)?),
        (b"flexray-filter", [low_slot, high_slot, low_cycle, high_cycle, repetition]) => {
            Filter::FlexRay {
                slots: range(low_slot, high_slot)?,
                cycles: range(low_cycle, high_cycle)?,
                repetition: number32(repetition)?,
            }
        }
        _ => return None,
    })
}

fn take(engine: &mut Engine, name: Word, words: &[Word]) -> Option<String> {
    match (name, words) {
        (b"take", [size]) => {
            let mut output = output(size, LARGEST_TAKE)?;
            let taken = numbered(engine.take(&mut output));
            Some(format!("{taken} {}", hex(&output)))
        }
        (b"failed", []) => Some(plain(engine.failed())),
        (b"discards", []) => Some(format!("0 {}", engine.discards())),
        (b"failures", []) => Some(format!("0 {}", engine.failures())),
        _ => None,
    }
}

fn limits(size: Word, room: Word, deadline: Word) -> Option<Limits> {
    Some(Limits {
        size: number(size)?,
        room: number(room)?,
        deadline: number(deadline)?,
    })
}

/// Two numbers for each source, however many sources there are.
fn pairs(words: &[Word]) -> Option<Vec<(u32, u32)>> {
    if words.len() % 2 == 1 {
        return None;
    }
    words
        .chunks(2)
        .map(|pair| Some((number32(pair[0])?, number32(pair[1])?)))
        .collect()
}

fn time(seconds: Word, nanos: Word) -> Option<Time> {
    Some(Time {
        seconds: number(seconds)?,
        nanos: number32(nanos)?,
    })
}

fn range(lower: Word, upper: Word) -> Option<Range> {
    Some(Range {
        lower: number32(lower)?,
        upper: number32(upper)?,
    })
}

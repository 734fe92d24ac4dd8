//! Which ways the items of a recording come to their positions: how far they are from the start, and
//! which fields came before them.

use crate::frame::{Frame, Time, LAST_SECOND, NANOS_PER_SECOND};
use crate::position::{difference, position, FARTHEST};
use crate::recording::{start_time, Field, Found, LONGEST_BODY, START, START_LENGTH};

/// Differences that are counted one by one, with both signs.
const EDGES: [i128; 6] = [0, 1, 20_833, 20_834, 41_666, 41_667];

/// A start that was refused.
struct Refused {
    why: &'static str,
    /// What it would be if it were believed; nothing where bytes are missing.
    believed: Option<Time>,
}

/// What stood before the next field.
#[derive(Default)]
pub struct Positions {
    /// The good ones.
    starts: Vec<Time>,
    /// Since the latest good one.
    refused: Vec<Refused>,
}

type Ways = Vec<String>;

fn add_if(ways: &mut Ways, holds: bool, way: &str) {
    if holds {
        ways.push(way.to_string());
    }
}

impl Positions {
    /// The ways of the field's items.
    pub fn look_at(&mut self, field: Field, found: &Found) -> Ways {
        match found {
            Found::Start(start) => self.accept(*start),
            Found::Refused { tag: START, .. } => self.refuse_field(field.body),
            Found::Frame(frame) => return self.frame(frame),
            _ => {}
        }
        Ways::new()
    }

    fn accept(&mut self, start: Time) {
        self.starts.push(start);
        self.refused.clear();
    }

    pub fn refuse(&mut self, why: &'static str, believed: Option<Time>) {
        self.refused.push(Refused { why, believed });
    }

    fn refuse_field(&mut self, body: &[u8]) {
        let why = match body.len() {
            START_LENGTH => "nanos",
            length if length > LONGEST_BODY => "over-1472",
            _ => "length",
        };
        self.refuse(why, body.first_chunk().map(start_time));
    }

    fn frame(&self, frame: &Frame) -> Ways {
        let times: Vec<Time> = frame.items.iter().map(|placed| placed.item.time).collect();
        let mut ways: Ways = times.iter().flat_map(|&time| self.item(time)).collect();
        let told = |time: &Time| self.starts.last().map(|&start| shown(start, *time));
        let told: Vec<Option<i64>> = times.iter().filter_map(told).collect();
        let before = |sample: &Option<i64>| sample.is_some_and(|sample| sample < 0);
        let behind = |sample: &Option<i64>| sample.is_some_and(|sample| sample > 0);
        let turns = told.iter().skip_while(|one| !before(one)).any(behind);
        add_if(&mut ways, turns, "turns");
        let both = told.contains(&None) && told.iter().any(Option::is_some);
        add_if(&mut ways, both, "61-within");
        ways
    }

    fn item(&self, time: Time) -> Ways {
        let mut ways = Ways::new();
        let Some(&start) = self.starts.last() else {
            ways.push("dash-before".to_string());
            add_if(&mut ways, !self.refused.is_empty(), "dash-refused");
            return ways;
        };
        match shown(start, time) {
            Some(sample) => look_at_number(&mut ways, start, time, sample),
            None => look_at_far(&mut ways, difference(start, time)),
        }
        self.look_at_other_starts(&mut ways, time, shown(start, time));
        ways
    }

    fn look_at_other_starts(&self, ways: &mut Ways, time: Time, told: Option<i64>) {
        let differs = |start: &Time| shown(*start, time) != told;
        add_if(ways, differs(&self.starts[0]), "latest");
        if let [.., before, _] = self.starts[..] {
            let number = shown(before, time).is_some();
            add_if(ways, number && differs(&before), "latest-but-one");
        }
        for Refused { why, believed } in &self.refused {
            add_if(ways, told.is_some(), "kept");
            match believed {
                None => ways.push("kept-short".to_string()),
                Some(start) => add_if(ways, differs(start), &format!("kept-{why}")),
            }
        }
    }
}

fn shown(start: Time, time: Time) -> Option<i64> {
    position(start, time).ok()
}

fn side(nanos: i128) -> &'static str {
    if nanos < 0 {
        "-before"
    } else {
        ""
    }
}

fn look_at_far(ways: &mut Ways, nanos: i128) {
    let (size, side) = (nanos.abs(), side(nanos));
    ways.push("61".to_string());
    ways.push(format!("61{}", if nanos < 0 { side } else { "-after" }));
    add_if(ways, size == FARTHEST + 1, &format!("61-by-1{side}"));
    add_if(ways, size > 2 * FARTHEST, &format!("61-far{side}"));
    let near = |nanos: i128| nanos.abs() <= FARTHEST;
    let cut = i128::from((nanos * 6) as i64);
    add_if(ways, near(cut / 6), "61-wraps-nanos");
    let second = i128::from(NANOS_PER_SECOND);
    let seconds = nanos.div_euclid(second);
    let cut = i128::from(seconds as i32);
    let wraps = cut != seconds && near(cut * second);
    add_if(ways, wraps, "61-wraps-seconds");
}

fn look_at_number(ways: &mut Ways, start: Time, time: Time, sample: i64) {
    let nanos = difference(start, time);
    look_at_size(ways, nanos);
    look_at_sample(ways, nanos, sample);
    look_at_seconds(ways, start, time);
    let apart = samples(time) - samples(start);
    add_if(ways, apart != i128::from(sample), "apart-differs");
}

/// Since time zero, rounded before anything is subtracted.
fn samples(time: Time) -> i128 {
    i128::from(time.seconds) * 48_000 + i128::from(time.nanos) * 6 / 125_000
}

fn look_at_size(ways: &mut Ways, nanos: i128) {
    let (size, side) = (nanos.abs(), side(nanos));
    add_if(ways, EDGES.contains(&size), &format!("at-{nanos}"));
    add_if(ways, size == FARTHEST, &format!("24h{side}"));
    add_if(ways, size == FARTHEST - 1, &format!("24h-less-1{side}"));
}

fn look_at_sample(ways: &mut Ways, nanos: i128, sample: i64) {
    let side = side(nanos);
    add_if(ways, sample == 0, "0");
    add_if(ways, sample == -1, "minus-1");
    add_if(ways, sample < 0, "negative");
    add_if(ways, sample > 0, "positive");
    // More than 32 bits hold with a sign.
    let wide = i32::try_from(sample).is_err();
    add_if(ways, wide, &format!("wide{side}"));
    let past = (nanos * 6).rem_euclid(125_000);
    add_if(ways, past < 6, &format!("first-nanosecond{side}"));
    add_if(ways, past >= 125_000 - 6, &format!("last-nanosecond{side}"));
    let toward_zero = nanos * 6 / 125_000;
    add_if(
        ways,
        toward_zero != i128::from(sample),
        "toward-zero-differs",
    );
    let nearest = (nanos * 6 + 62_500).div_euclid(125_000);
    add_if(ways, nearest != i128::from(sample), "nearest-differs");
}

/// Whether a second has to be borrowed for the nanoseconds, from either side.
fn look_at_seconds(ways: &mut Ways, start: Time, time: Time) {
    let later = time.seconds > start.seconds;
    let earlier = time.seconds < start.seconds;
    add_if(ways, later && time.nanos < start.nanos, "borrow");
    add_if(ways, later && time.nanos >= start.nanos, "no-borrow");
    add_if(ways, earlier && time.nanos > start.nanos, "borrow-before");
    add_if(
        ways,
        earlier && time.nanos <= start.nanos,
        "no-borrow-before",
    );
    add_if(ways, start.seconds == 0, "second-0");
    add_if(ways, start.seconds == LAST_SECOND, "last-second");
    add_if(ways, time.seconds > LAST_SECOND, "past-last-second");
}

#[cfg(test)]
#[path = "count_positions_tests.rs"]
mod tests;

//! The engine as the script has brought it about so far, and a clock that likes edges.

use super::draft::Draft;
use super::sheet::Sheet;
use crate::engine::Engine;
use crate::frame::{Time, LAST_SECOND, NANOS_PER_SECOND};
use crate::framer::Limits;
use crate::random::Random;
use crate::source::Source;

pub struct Scene<'a> {
    pub sheet: &'a mut Sheet,
    pub random: &'a mut Random,
    pub now: Time,
}

pub const LAST: Time = Time {
    seconds: LAST_SECOND,
    nanos: 999_999_999,
};

/// Where an episode's clock may start: in the middle, and where seconds or the range end.
const STARTS: [(u64, u32); 8] = [
    (16, 0),
    (16, 0),
    (0, 0),
    (9, 999_999_000),
    (1_700_000_000, 999_990_000),
    (4_294_967_295, 999_999_999),
    (LAST_SECOND - 1, 344_640_001),
    (LAST_SECOND, 999_000_000),
];

/// Differences in nanoseconds between a header and an item, at the edges of offsets.
const FROM_HEADER: [i128; 10] = [
    0,
    1,
    9_999,
    10_000,
    19_999,
    655_349_999,
    655_350_000,
    655_359_999,
    655_360_000,
    1_000_000_000,
];

/// How far the clock is set back behind a header: the cut of what is told has its edges among them.
const BACK: [i128; 16] = [
    1,
    1,
    9_999,
    10_000,
    4_000_000,
    4_000_000,
    655_360_000,
    999_999_999,
    1_000_000_000,
    4_294_967_294,
    4_294_967_294,
    4_294_967_295,
    4_294_967_296,
    8_589_934_592,
    110_000_000_001,
    86_400_000_000_000,
];

const STEPS: [i128; 12] = [
    0, 0, 1, 1, 9_999, 10_000, 10_001, 20_833, 99_999, 100_000, 999_999, 1_000_000,
];

impl<'a> Scene<'a> {
    pub fn new(sheet: &'a mut Sheet, random: &'a mut Random) -> Scene<'a> {
        let (seconds, nanos) = random.pick(&STARTS);
        let now = Time { seconds, nanos };
        Scene { sheet, random, now }
    }

    pub fn engine(&self) -> &Engine {
        self.sheet.engine()
    }

    pub fn limits(&self) -> Limits {
        self.engine().framer().limits()
    }

    pub fn source(&self, number: usize) -> &Source {
        &self.engine().sources()[number]
    }

    pub fn say(&mut self, draft: &Draft) -> String {
        let line = draft.line(self.random);
        self.sheet.line(&line)
    }

    pub fn any_source(&mut self) -> usize {
        let count = self.engine().sources().len();
        self.random.below(count)
    }

    /// The time of the next report, which the clock then shows.
    pub fn next_time(&mut self) -> Time {
        let since = self.engine().framer().filling_since();
        let choice = self.random.below(24);
        self.now = match since {
            Some(header) if choice < 2 => shifted(header, self.random.pick(&FROM_HEADER)),
            Some(header) if choice < 5 => self.before(header),
            _ if choice == 5 => self.second_edge(),
            _ if choice == 6 && self.random.one_in(4) => self.any_time(),
            _ => shifted(self.now, self.random.pick(&STEPS)),
        };
        self.now
    }

    /// The time of the next tick: often just where a deadline is met, or just not.
    pub fn next_tick(&mut self) -> Time {
        let deadline = i128::from(self.limits().deadline) * 1_000_000;
        match self.engine().framer().filling_since() {
            Some(header) if self.random.one_in(2) => {
                let edges = [-1, 0, 0, 1, 10_000, -deadline, -deadline - 1];
                let off = self.random.pick(&edges);
                self.now = shifted(header, deadline + off);
                self.now
            }
            _ => self.next_time(),
        }
    }

    fn before(&mut self, header: Time) -> Time {
        let back = self.random.pick(&BACK);
        shifted(header, -back)
    }

    fn second_edge(&mut self) -> Time {
        let end = Time {
            nanos: 999_999_999,
            ..self.now
        };
        shifted(end, self.random.pick(&[-10_000, -1, 0, 1, 9_999]))
    }

    fn any_time(&mut self) -> Time {
        let seconds = self.random.next() >> 16;
        let nanos = (self.random.next() % NANOS_PER_SECOND) as u32;
        let any = Time { seconds, nanos };
        self.random.pick(&[any, any, LAST, Time::default()])
    }
}

/// A time so many nanoseconds away, or the nearest that there is.
pub fn shifted(time: Time, nanos: i128) -> Time {
    let count = time.count() as i128 + nanos;
    let count = count.clamp(0, LAST.count() as i128) as u128;
    let second = u128::from(NANOS_PER_SECOND);
    Time {
        seconds: (count / second) as u64,
        nanos: (count % second) as u32,
    }
}

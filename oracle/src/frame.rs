//! What a mirror frame says, apart from its bytes.

pub const HEADER_LENGTH: usize = 14;

pub const NANOS_PER_SECOND: u64 = 1_000_000_000;
pub const NANOS_PER_TICK: u64 = 10_000;
pub const LAST_SECOND: u64 = 281_474_976_710_655;

/// Times of a legal nanosecond compare as the clock does: seconds first.
#[derive(Clone, Copy, Debug, Default, PartialEq, PartialOrd)]
pub struct Time {
    pub seconds: u64,
    pub nanos: u32,
}

impl Time {
    /// Whether a call may name this time.
    pub fn is_in_range(self) -> bool {
        self.seconds <= LAST_SECOND && u64::from(self.nanos) < NANOS_PER_SECOND
    }

    /// The last second of a header plus the largest offset needs one second more than 48 bits hold.
    pub fn after_ticks(self, ticks: u16) -> Time {
        let nanos = u64::from(self.nanos) + u64::from(ticks) * NANOS_PER_TICK;
        Time {
            seconds: self.seconds + nanos / NANOS_PER_SECOND,
            nanos: (nanos % NANOS_PER_SECOND) as u32,
        }
    }

    /// Nanoseconds since time zero: 64 bits don't hold them.
    pub fn count(self) -> u128 {
        u128::from(self.seconds) * u128::from(NANOS_PER_SECOND) + u128::from(self.nanos)
    }

    /// Nanoseconds since an earlier time.
    pub fn nanos_since(self, earlier: Time) -> u128 {
        self.count() - earlier.count()
    }

    /// Nanoseconds until a later time, cut at the most that 32 bits hold; 0 where it is not later.
    pub fn nanos_before(self, later: Time) -> u32 {
        let nanos = later.count().saturating_sub(self.count());
        u32::try_from(nanos).unwrap_or(u32::MAX)
    }

    /// Whole ticks since an earlier time.
    pub fn ticks_since(self, earlier: Time) -> u128 {
        self.nanos_since(earlier) / u128::from(NANOS_PER_TICK)
    }
}

#[derive(Clone, Copy, Debug, PartialEq)]
pub enum Kind {
    Can = 1,
    Lin = 2,
    FlexRay = 3,
}

impl Kind {
    pub fn of_number(number: u32) -> Option<Kind> {
        [Kind::Can, Kind::Lin, Kind::FlexRay]
            .into_iter()
            .find(|&kind| kind as u32 == number)
    }
}

#[derive(Clone, Copy, Debug, PartialEq)]
pub enum Id {
    /// The 32-bit id with its two type bits.
    Can(u32),
    /// The PID, with its parity bits.
    Lin(u8),
    /// Channel A counts 1, channel B 2.
    FlexRay { channels: u8, slot: u16, cycle: u8 },
    /// An error of these channels that no frame can be named for: it has no slot and no cycle.
    FlexRayError { channels: u8 },
}

impl Id {
    /// What has no frame has nothing that a filter could look at.
    pub fn is_filtered(self) -> bool {
        !matches!(self, Id::FlexRayError { .. })
    }

    pub fn longest_payload(self) -> usize {
        match self {
            Id::Can(key) if key & CAN_FD != 0 => 64,
            Id::Can(_) | Id::Lin(_) => 8,
            Id::FlexRay { .. } => 254,
            Id::FlexRayError { .. } => 0,
        }
    }

    fn length(self) -> usize {
        match self {
            Id::Can(_) => 4,
            Id::Lin(_) => 1,
            Id::FlexRay { .. } | Id::FlexRayError { .. } => 3,
        }
    }
}

pub const CAN_EXTENDED: u32 = 1 << 31;
pub const CAN_FD: u32 = 1 << 30;
pub const CAN_RESERVED: u32 = 1 << 29;
/// The bit in the first byte of a FlexRay id that says whether slot and cycle are those of a frame.
pub const SLOT_VALID: u8 = 1 << 3;

#[derive(Clone, Copy, Debug, PartialEq)]
pub struct Header {
    pub sequence: u8,
    pub time: Time,
    pub data_length: u16,
}

/// An item holds its time and not its offset: a rewrite has to work the offset out again.
#[derive(Clone, Copy, Debug, PartialEq)]
pub struct Item<'a> {
    pub time: Time,
    pub kind: Kind,
    pub network: u8,
    pub state: Option<u8>,
    pub id: Option<Id>,
    pub payload: Option<&'a [u8]>,
}

impl Item<'_> {
    /// Offset, flags and network id are 4 bytes; a payload has its length before it.
    pub fn length(&self) -> usize {
        4 + usize::from(self.state.is_some())
            + self.id.map_or(0, Id::length)
            + self.payload.map_or(0, |payload| 1 + payload.len())
    }
}

/// An item, the place where it starts and the place after it.
#[derive(Debug, PartialEq)]
pub struct Placed<'a> {
    pub start: usize,
    pub next: usize,
    pub item: Item<'a>,
}

#[derive(Debug, PartialEq)]
pub struct Frame<'a> {
    pub header: Header,
    pub items: Vec<Placed<'a>>,
}

#[cfg(test)]
mod tests {
    use super::*;

    const LAST: Time = Time {
        seconds: LAST_SECOND,
        nanos: 999_999_999,
    };

    #[test]
    fn a_tick_is_ten_microseconds() {
        let start = Time {
            seconds: 9,
            nanos: 999_999_000,
        };
        let later = start.after_ticks(1);
        assert_eq!(
            later,
            Time {
                seconds: 10,
                nanos: 9_000
            }
        );
        assert_eq!(later.ticks_since(start), 1);
    }

    #[test]
    fn the_last_time_in_range() {
        assert!(LAST.is_in_range());
        let too_late = Time {
            seconds: LAST_SECOND + 1,
            nanos: 0,
        };
        assert!(!too_late.is_in_range());
        let no_nanosecond = Time {
            seconds: 0,
            nanos: 1_000_000_000,
        };
        assert!(!no_nanosecond.is_in_range());
    }

    #[test]
    fn nanoseconds_before_a_time_are_cut_and_never_below_zero() {
        let at = |seconds, nanos| Time { seconds, nanos };
        let header = at(16, 5);
        for (now, before) in [
            (at(16, 6), 0),
            (at(17, 0), 0),
            (header, 0),
            (at(16, 4), 1),
            (at(15, 999_999_999), 6),
            (at(15, 5), 1_000_000_000),
            (at(11, 705_032_711), u32::MAX - 1),
            (at(11, 705_032_710), u32::MAX),
            (at(11, 705_032_709), u32::MAX),
            (Time::default(), u32::MAX),
        ] {
            assert_eq!(now.nanos_before(header), before, "{now:?}");
        }
        assert_eq!(Time::default().nanos_before(LAST), u32::MAX);
        assert_eq!(LAST.nanos_before(Time::default()), 0);
    }

    #[test]
    fn ticks_run_past_the_last_second() {
        let later = LAST.after_ticks(65_535);
        assert_eq!(later.seconds, 281_474_976_710_656);
        assert_eq!(later.nanos, 655_349_999);
        assert_eq!(later.ticks_since(LAST), 65_535);
    }

    #[test]
    fn the_carry_comes_at_a_whole_second() {
        let at = |nanos| Time { seconds: 0, nanos };
        assert_eq!(at(344_649_999).after_ticks(65_535), at(999_999_999));
        let carried = at(344_650_000).after_ticks(65_535);
        assert_eq!(
            carried,
            Time {
                seconds: 1,
                nanos: 0
            }
        );
    }
}

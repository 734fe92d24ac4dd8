//! The filters of a source, by the section "Filters".

use crate::frame::{Id, Kind};

/// Bounds are inclusive.
#[derive(Clone, Copy, Debug, PartialEq)]
pub struct Range {
    pub lower: u32,
    pub upper: u32,
}

impl Range {
    fn holds(self, value: u32) -> bool {
        (self.lower..=self.upper).contains(&value)
    }

    fn rises_to(self, highest: u32) -> bool {
        self.lower <= self.upper && self.upper <= highest
    }
}

/// The key of CAN is the 32-bit id with its type bits, that of LIN the PID without its parity bits.
#[derive(Clone, Copy, Debug, PartialEq)]
pub enum Filter {
    CanMask {
        mask: u32,
        code: u32,
    },
    CanRange(Range),
    LinMask {
        mask: u32,
        code: u32,
    },
    LinRange(Range),
    FlexRay {
        slots: Range,
        cycles: Range,
        repetition: u32,
    },
}

const HIGHEST_LIN_KEY: u32 = 63;

impl Filter {
    pub fn kind(&self) -> Kind {
        match self {
            Filter::CanMask { .. } | Filter::CanRange(_) => Kind::Can,
            Filter::LinMask { .. } | Filter::LinRange(_) => Kind::Lin,
            Filter::FlexRay { .. } => Kind::FlexRay,
        }
    }

    /// A code outside its mask is in range, although it matches nothing.
    pub fn is_in_range(&self) -> bool {
        match *self {
            Filter::CanMask { .. } => true,
            Filter::CanRange(range) => range.rises_to(u32::MAX),
            Filter::LinMask { mask, code } => mask <= HIGHEST_LIN_KEY && code <= HIGHEST_LIN_KEY,
            Filter::LinRange(range) => range.rises_to(HIGHEST_LIN_KEY),
            Filter::FlexRay {
                slots,
                cycles,
                repetition,
            } => slots.rises_to(2_047) && cycles.rises_to(63) && (1..=64).contains(&repetition),
        }
    }

    pub fn matches(&self, id: Id) -> bool {
        match (*self, id) {
            (Filter::CanMask { mask, code }, Id::Can(key)) => key & mask == code,
            (Filter::CanRange(range), Id::Can(key)) => range.holds(key),
            (Filter::LinMask { mask, code }, Id::Lin(pid)) => lin_key(pid) & mask == code,
            (Filter::LinRange(range), Id::Lin(pid)) => range.holds(lin_key(pid)),
            (
                Filter::FlexRay {
                    slots,
                    cycles,
                    repetition,
                },
                Id::FlexRay { slot, cycle, .. },
            ) => slots.holds(u32::from(slot)) && cycles.holds(u32::from(cycle) % repetition),
            _ => false,
        }
    }
}

fn lin_key(pid: u8) -> u32 {
    u32::from(pid % 64)
}

#[cfg(test)]
mod tests {
    use super::*;
    use crate::pid;

    fn range(lower: u32, upper: u32) -> Range {
        Range { lower, upper }
    }

    fn flexray(slots: Range, cycles: Range, repetition: u32) -> Filter {
        Filter::FlexRay {
            slots,
            cycles,
            repetition,
        }
    }

    #[test]
    fn a_mask_takes_the_type_bits_too() {
        let filter = Filter::CanMask {
            mask: 0x8000_0007,
            code: 0x8000_0002,
        };
        assert!(filter.matches(Id::Can(0x8000_0012)));
        assert!(!filter.matches(Id::Can(0x0000_0012)));
        assert!(!filter.matches(Id::Can(0x8000_0013)));
    }

    #[test]
    fn a_code_outside_its_mask_matches_nothing() {
        let filter = Filter::LinMask { mask: 1, code: 3 };
        assert!(filter.is_in_range());
        assert!((0..pid::IDS).all(|id| !filter.matches(Id::Lin(pid::of_id(id)))));
    }

    #[test]
    fn a_lin_key_has_no_parity_bits() {
        for (key, pid) in [(0, 0x80), (1, 0xc1), (2, 0x42), (60, 0x3c), (61, 0x7d)] {
            let filter = Filter::LinRange(range(key, key));
            assert!(filter.matches(Id::Lin(pid)));
            assert!(!filter.matches(Id::Lin(0xfe)));
        }
    }

    #[test]
    fn bounds_are_inclusive() {
        let filter = Filter::CanRange(range(5, 7));
        let matched: Vec<u32> = (0..10).filter(|&k| filter.matches(Id::Can(k))).collect();
        assert_eq!(matched, [5, 6, 7]);
    }

    #[test]
    fn the_cycle_counts_modulo_the_repetition() {
        let filter = flexray(range(3, 3), range(1, 2), 4);
        let id = |slot, cycle| Id::FlexRay {
            channels: 1,
            slot,
            cycle,
        };
        let matched: Vec<u8> = (0..10).filter(|&c| filter.matches(id(3, c))).collect();
        assert_eq!(matched, [1, 2, 5, 6, 9]);
        assert!(!filter.matches(id(4, 1)));
    }

    #[test]
    fn limits_of_the_numbers() {
        let all = |filters: &[Filter], expected| {
            for filter in filters {
                assert_eq!(filter.is_in_range(), expected, "{filter:?}");
            }
        };
        all(
            &[
                Filter::CanRange(range(0, u32::MAX)),
                Filter::LinMask { mask: 63, code: 63 },
                Filter::LinRange(range(63, 63)),
                flexray(range(0, 2_047), range(0, 63), 64),
                flexray(range(0, 0), range(63, 63), 1),
            ],
            true,
        );
        all(
            &[
                Filter::CanRange(range(8, 7)),
                Filter::LinMask { mask: 64, code: 0 },
                Filter::LinMask { mask: 0, code: 64 },
                Filter::LinRange(range(0, 64)),
                Filter::LinRange(range(2, 1)),
                flexray(range(0, 2_048), range(0, 63), 64),
                flexray(range(2, 1), range(0, 63), 64),
                flexray(range(0, 1), range(0, 64), 64),
                flexray(range(0, 1), range(2, 1), 64),
                flexray(range(0, 1), range(0, 63), 0),
                flexray(range(0, 1), range(0, 63), 65),
            ],
            false,
        );
    }
}

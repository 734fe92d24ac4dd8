//! The state byte of a source, and when an item shows it, by rule 4.

pub const LOST: u8 = 0x80;
const ONLINE: u8 = 0x40;
const PASSIVE: u8 = 0x20;
const BUS_OFF: u8 = 0x10;
/// The error bits of LIN's state table, and those of FlexRay's: syntax error, content error and
/// boundary violation over the transmission conflict (Specification of Bus Mirroring, tables 7.4 and 7.5).
pub const LIN_ERRORS: u8 = 0x0f;
pub const FLEXRAY_ERRORS: u8 = 0x0e;
pub const CONFLICT: u8 = 0x01;

/// Neither byte ever holds the bit for lost frames, which belongs to no source.
#[derive(Clone, Copy, Debug, Default, PartialEq)]
pub struct State {
    /// Nothing while the state is unknown; it then stands for 0.
    current: Option<u8>,
    shown: Option<u8>,
}

impl State {
    pub fn byte(&self) -> u8 {
        self.current.unwrap_or(0)
    }

    /// What was last shown of it.
    pub fn shown(&self) -> Option<u8> {
        self.shown
    }

    pub fn is_known(&self) -> bool {
        self.current.is_some()
    }

    /// Known, and never shown or not the same as last shown.
    pub fn is_news(&self) -> bool {
        self.current.is_some() && self.current != self.shown
    }

    pub fn update(&mut self, byte: u8) {
        self.current = Some(byte);
    }

    /// Only a known byte counts as shown.
    pub fn mark_shown(&mut self) {
        if self.current.is_some() {
            self.shown = self.current;
        }
    }

    /// Writes the bits of one report over those of the report before it.
    pub fn bind(&mut self, own: Own) {
        self.current = Some(self.byte() & !own.mask | own.bits);
    }

    pub fn unbind(&mut self, own: Own) {
        self.current = self.current.map(|byte| byte & !own.mask);
    }
}

/// The bits of the state byte that belong to one report alone: which, and which of them are set.
#[derive(Clone, Copy, Debug, PartialEq)]
pub struct Own {
    mask: u8,
    bits: u8,
}

impl Own {
    pub const CONFLICT: Own = Own {
        mask: CONFLICT,
        bits: CONFLICT,
    };

    pub fn lin(errors: u32) -> Option<Own> {
        Own::under(LIN_ERRORS, errors)
    }

    pub fn flexray(errors: u32) -> Option<Own> {
        Own::under(FLEXRAY_ERRORS, errors)
    }

    pub fn any_set(self) -> bool {
        self.bits != 0
    }

    /// Nothing where a bit beside the mask is set.
    fn under(mask: u8, errors: u32) -> Option<Own> {
        let bits = u8::try_from(errors).ok()?;
        (bits & !mask == 0).then_some(Own { mask, bits })
    }
}

fn bit(set: bool, mask: u8) -> u8 {
    if set {
        mask
    } else {
        0
    }
}

/// The byte of a CAN update, or nothing where the update is out of range.
pub fn of_can(online: bool, passive: bool, bus_off: bool, counter: u32) -> Option<u8> {
    if passive && bus_off || counter > 255 {
        return None;
    }
    if !online {
        return Some(0);
    }
    // Four bits can't hold the 31 that a counter of 255 would give.
    let eighths = (counter / 8).min(15) as u8;
    Some(ONLINE | bit(passive, PASSIVE) | bit(bus_off, BUS_OFF) | eighths)
}

pub fn of_lin(online: bool) -> u8 {
    bit(online, ONLINE)
}

/// The byte of a FlexRay update, or nothing where the update is out of range: the bits that belong
/// to a report are not its own to give.
pub fn of_flexray(online: bool, bits: u32) -> Option<u8> {
    let byte = u8::try_from(bits).ok()?;
    let allowed = byte < ONLINE && byte & (FLEXRAY_ERRORS | CONFLICT) == 0;
    allowed.then_some(bit(online, ONLINE) | byte)
}

#[cfg(test)]
mod tests {
    use super::*;

    #[test]
    fn can_bytes() {
        assert_eq!(of_can(true, false, false, 0), Some(0x40));
        assert_eq!(of_can(true, true, false, 7), Some(0x60));
        assert_eq!(of_can(true, false, true, 8), Some(0x51));
        for counter in [120, 127, 128, 255] {
            assert_eq!(of_can(true, false, false, counter), Some(0x4f));
        }
        assert_eq!(of_can(false, true, false, 255), Some(0));
        for online in [false, true] {
            assert_eq!(of_can(online, true, true, 0), None);
            assert_eq!(of_can(online, false, false, 256), None);
        }
    }

    #[test]
    fn flexray_bytes() {
        for (bits, byte) in [(0, 0x40), (0x10, 0x50), (0x20, 0x60), (0x30, 0x70)] {
            assert_eq!(of_flexray(true, bits), Some(byte));
            assert_eq!(of_flexray(false, bits), Some(bits as u8));
        }
        for bits in (0..64).filter(|bits| bits % 16 != 0) {
            assert_eq!(of_flexray(true, bits), None, "{bits:#x}");
            assert_eq!(of_flexray(false, bits), None, "{bits:#x}");
        }
        for bits in [0x40, 0x80, 0x100, 0x130, 0x1_0000, u32::MAX - 15, u32::MAX] {
            assert_eq!(of_flexray(true, bits), None, "{bits:#x}");
        }
    }

    #[test]
    fn an_unknown_byte_is_no_news_and_counts_not_as_shown() {
        let mut state = State::default();
        assert!(!state.is_news());
        state.mark_shown();
        state.update(0);
        assert!(state.is_news());
        state.mark_shown();
        assert!(!state.is_news());
        state.update(0x40);
        assert!(state.is_news());
        state.update(0);
        assert!(!state.is_news());
    }

    #[test]
    fn bound_bits_go_and_leave_the_rest() {
        let mut state = State::default();
        state.update(0x40);
        let own = Own::lin(5).unwrap();
        state.bind(own);
        state.mark_shown();
        assert_eq!(state.byte(), 0x45);
        state.unbind(own);
        assert_eq!(state.byte(), 0x40);
        assert!(state.is_news());
    }

    #[test]
    fn which_bits_are_a_reports_own() {
        for errors in 0..16 {
            let lin = Own::lin(errors).unwrap();
            assert_eq!(lin.any_set(), errors != 0);
            assert_eq!(Own::flexray(errors).is_some(), errors % 2 == 0);
        }
        for errors in [
            16,
            0x1e,
            0x20,
            0x40,
            0x80,
            0x100,
            0x10e,
            u32::MAX - 1,
            u32::MAX,
        ] {
            assert_eq!(Own::lin(errors), None, "{errors:#x}");
            assert_eq!(Own::flexray(errors), None, "{errors:#x}");
        }
    }

    /// Between items none of these bits is set; here all are, so that it shows which ones are touched.
    #[test]
    fn own_bits_are_written_over_and_others_stay() {
        let after = |own: Own| {
            let mut state = State::default();
            state.update(0x7f);
            state.bind(own);
            let bound = state.byte();
            state.unbind(own);
            (bound, state.byte())
        };
        assert_eq!(after(Own::flexray(0).unwrap()), (0x71, 0x71));
        assert_eq!(after(Own::flexray(0x0a).unwrap()), (0x7b, 0x71));
        assert_eq!(after(Own::CONFLICT), (0x7f, 0x7e));
        assert_eq!(after(Own::lin(5).unwrap()), (0x75, 0x70));
    }

    #[test]
    fn no_bit_set_makes_the_byte_known_too() {
        let mut state = State::default();
        state.bind(Own::flexray(0).unwrap());
        assert!(state.is_known());
        assert!(state.is_news());
        state.unbind(Own::flexray(0).unwrap());
        assert!(state.is_known());
    }
}

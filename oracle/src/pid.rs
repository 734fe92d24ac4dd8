//! The protected id of a LIN frame (PID): six bits of id under two bits of parity.

/// How many ids bits 5 to 0 hold.
pub const IDS: u8 = 64;

/// The id bits that P0 and P1 are made of.
const UNDER_P0: [u8; 4] = [0, 1, 2, 4];
const UNDER_P1: [u8; 4] = [1, 3, 4, 5];

/// The one PID of an id under 64. P0, bit 6, is the exclusive or of its id bits; P1, bit 7, the
/// complement of that of its own.
pub fn of_id(id: u8) -> u8 {
    let p0 = is_odd(id, UNDER_P0);
    let p1 = !is_odd(id, UNDER_P1);
    u8::from(p1) << 7 | u8::from(p0) << 6 | id
}

/// Whether both parity bits are those of the id beneath them.
pub fn is_right(pid: u8) -> bool {
    pid == of_id(pid % IDS)
}

fn is_odd(id: u8, bits: [u8; 4]) -> bool {
    bits.iter()
        .fold(false, |odd, bit| odd ^ (id >> bit & 1 == 1))
}

#[cfg(test)]
mod tests {
    use super::*;

    #[test]
    fn known_pids() {
        let known = [
            (0x00, 0x80),
            (0x01, 0xc1),
            (0x02, 0x42),
            (0x3c, 0x3c),
            (0x3d, 0x7d),
            (0x3e, 0xfe),
            (0x3f, 0xbf),
        ];
        for (id, pid) in known {
            assert_eq!(of_id(id), pid, "{id:#x}");
            assert!(is_right(pid), "{pid:#x}");
            for turned in [0x40, 0x80, 0xc0] {
                assert!(!is_right(pid ^ turned), "{pid:#x} ^ {turned:#x}");
            }
        }
    }

    #[test]
    fn each_id_has_one_right_pid() {
        let right: Vec<u8> = (0..=255).filter(|&pid| is_right(pid)).collect();
        assert_eq!(right.len(), 64);
        for id in 0..IDS {
            let of_this: Vec<&u8> = right.iter().filter(|&pid| pid & 0x3f == id).collect();
            assert_eq!(of_this, [&of_id(id)], "{id:#x}");
        }
    }

    /// P0 with its bits has an even number of ones, P1 with its own an odd one.
    #[test]
    fn counting_ones_says_the_same() {
        for pid in 0..=255u8 {
            let even = (pid & 0b0101_0111).count_ones() % 2 == 0;
            let odd = (pid & 0b1011_1010).count_ones() % 2 == 1;
            assert_eq!(is_right(pid), even && odd, "{pid:#x}");
        }
    }

    #[test]
    fn any_single_bit_turned_over_shows() {
        for id in 0..IDS {
            for bit in 0..8 {
                assert!(!is_right(of_id(id) ^ 1 << bit), "{id:#x}, bit {bit}");
            }
        }
    }
}

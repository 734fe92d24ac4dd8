//! PIDs as a loose connector garbles them: their parity is wrong.

use crate::pid;
use crate::random::Random;

/// P0, P1, and both.
pub const PARITY_BITS: [u8; 3] = [0x40, 0x80, 0xc0];

/// A wrong PID: most often of the same id, so that a filter alone would not tell.
pub fn garbled(random: &mut Random, pid: u8) -> u8 {
    let any = random.byte();
    if random.one_in(4) && !pid::is_right(any) {
        return any;
    }
    pid::of_id(pid % pid::IDS) ^ random.pick(&PARITY_BITS)
}

#[cfg(test)]
mod tests {
    use super::*;

    #[test]
    fn what_is_garbled_is_wrong() {
        let mut random = Random::new(4);
        for pid in 0..=255 {
            for _ in 0..20 {
                assert!(!pid::is_right(garbled(&mut random, pid)), "{pid:#x}");
            }
        }
    }
}

//! Where on the tape of a microphone a time lies, in samples of 48,000 a second.

use crate::frame::Time;

/// The answer beyond 24 hours.
pub const TOO_FAR: u8 = 61;
/// 24 hours, which are still answered.
pub const FARTHEST: i128 = 86_400_000_000_000;

/// Nanoseconds from the start to the time, negative where the time is before it. A time out of range
/// is its count of nanoseconds.
pub fn difference(start: Time, time: Time) -> i128 {
    time.count() as i128 - start.count() as i128
}

/// The last sample that is not after the time. A refusal is its answer number.
pub fn position(start: Time, time: Time) -> Result<i64, u8> {
    let nanos = difference(start, time);
    if !(-FARTHEST..=FARTHEST).contains(&nanos) {
        return Err(TOO_FAR);
    }
    // The divisor is over 0, so that this rounds towards minus infinity.
    Ok((nanos * 6).div_euclid(125_000) as i64)
}

#[cfg(test)]
mod tests {
    use super::*;
    use crate::frame::LAST_SECOND;
    use crate::random::Random;

    const DAY_OF_SAMPLES: i64 = 4_147_200_000;

    fn at(seconds: u64, nanos: u32) -> Time {
        Time { seconds, nanos }
    }

    /// The time so many nanoseconds behind the start.
    fn behind(start: Time, nanos: i128) -> Time {
        let count = start.count() as i128 + nanos;
        at(
            (count / 1_000_000_000) as u64,
            (count % 1_000_000_000) as u32,
        )
    }

    /// Around a start in the middle of what can be told, at both ends of a second.
    fn of(nanos: i128) -> Result<i64, u8> {
        let told: Vec<_> = [0, 1, 500_000_000, 999_999_999]
            .map(|start| at(1_000_000, start))
            .map(|start| position(start, behind(start, nanos)))
            .to_vec();
        assert!(told.iter().all(|&one| one == told[0]), "{nanos}");
        told[0]
    }

    #[test]
    fn the_worked_values() {
        for (nanos, sample) in [
            (0, 0),
            (1, 0),
            (-1, -1),
            (20_833, 0),
            (20_834, 1),
            (-20_833, -1),
            (-20_834, -2),
            (41_666, 1),
            (41_667, 2),
            (-41_666, -2),
            (-41_667, -3),
            (62_499, 2),
            (62_500, 3),
            (-62_500, -3),
            (-62_501, -4),
            (1_000_000_000, 48_000),
            (-1_000_000_000, -48_000),
        ] {
            assert_eq!(of(nanos), Ok(sample), "{nanos}");
        }
    }

    #[test]
    fn exactly_24_hours_are_answered() {
        let hours = FARTHEST;
        assert_eq!(of(hours), Ok(DAY_OF_SAMPLES));
        assert_eq!(of(hours - 1), Ok(DAY_OF_SAMPLES - 1));
        assert_eq!(of(-hours), Ok(-DAY_OF_SAMPLES));
        assert_eq!(of(1 - hours), Ok(-DAY_OF_SAMPLES));
        for beyond in [hours + 1, hours + 20_834, 2 * hours] {
            assert_eq!(of(beyond), Err(61));
            assert_eq!(of(-beyond), Err(61));
        }
    }

    #[test]
    fn across_the_edge_of_a_second() {
        assert_eq!(position(at(9, 999_999_999), at(10, 0)), Ok(0));
        assert_eq!(position(at(10, 0), at(9, 999_999_999)), Ok(-1));
        assert_eq!(position(at(9, 999_990_000), at(10, 10_833)), Ok(0));
        assert_eq!(position(at(9, 999_990_000), at(10, 10_834)), Ok(1));
        assert_eq!(position(at(10, 10_834), at(9, 999_990_000)), Ok(-2));
        assert_eq!(position(at(9, 1), at(11, 0)), Ok(95_999));
        assert_eq!(position(at(11, 0), at(9, 1)), Ok(-96_000));
        assert_eq!(position(at(9, 0), at(11, 1)), Ok(96_000));
        assert_eq!(position(at(11, 1), at(9, 0)), Ok(-96_001));
    }

    #[test]
    fn in_the_first_and_the_last_second() {
        let last = at(LAST_SECOND, 999_999_999);
        assert_eq!(position(last, last), Ok(0));
        let past = last.after_ticks(65_535);
        assert_eq!(past.seconds, 281_474_976_710_656);
        assert_eq!(position(last, past), Ok(31_456));
        assert_eq!(position(past, last), Ok(-31_457));
        assert_eq!(
            position(at(LAST_SECOND - 86_400, 999_999_999), past),
            Err(61)
        );
        let day_before = at(LAST_SECOND - 86_400, 999_999_999);
        assert_eq!(position(day_before, last), Ok(DAY_OF_SAMPLES));
        assert_eq!(position(at(0, 0), at(86_400, 0)), Ok(DAY_OF_SAMPLES));
        assert_eq!(position(at(86_400, 0), at(0, 0)), Ok(-DAY_OF_SAMPLES));
        assert_eq!(position(at(86_400, 1), at(0, 0)), Err(61));
        assert_eq!(position(at(0, 0), last), Err(61));
        assert_eq!(position(last, at(0, 0)), Err(61));
    }

    #[test]
    fn times_out_of_range_are_their_counts() {
        let most = at(u64::MAX, u32::MAX);
        assert_eq!(position(most, most), Ok(0));
        assert_eq!(position(at(0, 0), most), Err(61));
        assert_eq!(position(most, at(0, 0)), Err(61));
        assert_eq!(position(at(16, 1_000_000_000), at(17, 0)), Ok(0));
        assert_eq!(position(at(17, 0), at(16, 999_999_999)), Ok(-1));
        assert_eq!(position(at(13, u32::MAX), at(17, 294_967_294)), Ok(-1));
        assert_eq!(
            position(at(0, u32::MAX), at(86_404, 294_967_295)),
            Ok(DAY_OF_SAMPLES)
        );
        assert_eq!(position(at(0, u32::MAX), at(86_404, 294_967_296)), Err(61));
        assert_eq!(
            position(at(u64::MAX - 86_400, 7), at(u64::MAX, 7)),
            Ok(DAY_OF_SAMPLES)
        );
        assert_eq!(position(at(u64::MAX, 8), at(u64::MAX - 86_400, 7)), Err(61));
    }

    /// The one whole number p with 125,000 p <= 6 d < 125,000 (p + 1); and sample n has position n.
    #[test]
    fn a_position_is_the_sample_that_is_not_over() {
        let mut random = Random::new(12);
        let start = at(1_000_000, 123_456_789);
        for _ in 0..10_000 {
            let any = random.next() as i128 % FARTHEST >> random.below(46);
            for nanos in [any, -any] {
                let sample = i128::from(position(start, behind(start, nanos)).unwrap());
                let bounds = 125_000 * sample..125_000 * (sample + 1);
                assert!(bounds.contains(&(6 * nanos)), "{nanos}");
                // Rounded up to whole nanoseconds.
                let begins = -(-125_000 * sample).div_euclid(6);
                let own = position(start, behind(start, begins)).unwrap();
                assert_eq!(i128::from(own), sample);
                let before = position(start, behind(start, begins - 1));
                assert!(before == Ok(own - 1) || before == Err(61), "{begins}");
            }
        }
    }
}

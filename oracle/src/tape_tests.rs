use super::*;
use crate::position::{difference, position};
use crate::recording_frames as frames;

fn tape(random: &mut Random) -> Tape {
    let frames = (0..20).map(|_| frames::with_items(random)).collect();
    Tape::new(random, frames)
}

/// How far each item is from each start before it.
fn differences(parts: &[Part]) -> Vec<i128> {
    let mut starts = Vec::new();
    let mut all = Vec::new();
    for part in parts {
        match part {
            Part::Start(start) => starts.push(*start),
            Part::NoStart(_) => {}
            Part::Frame(frame) => {
                for placed in read(frame).items {
                    let of = |&start| difference(start, placed.item.time);
                    all.extend(starts.iter().map(of));
                }
            }
        }
    }
    all
}

#[test]
fn every_difference_comes_with_both_signs() {
    let mut random = Random::new(1);
    let mut tape = tape(&mut random);
    let mut all = Vec::new();
    for _ in 0..60 {
        all.extend(differences(&tape.frames_around_a_start(&mut random)));
    }
    for size in [0, 1, 20_833, 20_834, 41_666, 41_667] {
        assert!(all.contains(&size) && all.contains(&-size), "{size}");
    }
    for beyond in [-1, 0, 1] {
        let size = FARTHEST + beyond;
        assert!(all.contains(&size) && all.contains(&-size), "{size}");
    }
}

#[test]
fn starts_are_good_but_for_those_that_are_meant_to_be_refused() {
    let mut random = Random::new(2);
    let mut tape = tape(&mut random);
    for _ in 0..300 {
        let frame = tape.frame(&mut random);
        assert!(tape.start_for(&mut random, &frame).is_in_range());
        for scene in [
            Tape::frames_around_a_start,
            Tape::several_starts,
            Tape::start_inside_a_frame,
            Tape::first_or_last_second,
        ] {
            for part in scene(&mut tape, &mut random) {
                match part {
                    Part::Start(start) => assert!(start.is_in_range()),
                    Part::NoStart(_) => panic!("a start that is refused"),
                    Part::Frame(frame) => assert!(reader::read(&frame).is_ok()),
                }
            }
        }
        match refused(&mut random, Time::default()) {
            Part::Start(start) => assert!(!start.is_in_range()),
            Part::NoStart(start) => assert!(start.is_in_range()),
            Part::Frame(_) => panic!("a frame"),
        }
    }
}

#[test]
fn a_start_inside_a_frame_has_items_at_both_sides() {
    let mut random = Random::new(3);
    let mut tape = tape(&mut random);
    for _ in 0..100 {
        let parts = tape.start_inside_a_frame(&mut random);
        let all = differences(&parts);
        assert!(all[0] < 0 && all[all.len() - 1] >= 0, "{parts:?}");
        assert!(all.is_sorted());
    }
}

#[test]
fn sizes_are_what_they_are_for() {
    let mut random = Random::new(4);
    let start = Time {
        seconds: 1 << 46,
        nanos: 5,
    };
    for _ in 0..300 {
        let begins = sample(&mut random);
        let told = |nanos: i128| position(start, start_before(start, -nanos).unwrap()).unwrap();
        assert_eq!(told(begins), told(begins - 1) + 1);
        // Every third sample begins at a whole nanosecond.
        let whole = begins * 6 % 125_000 == 0;
        assert_eq!(told(-begins) == told(1 - begins), whole);
        let far = wrapping(&mut random);
        assert!(far > FARTHEST);
        assert!(far % (1 << 63) <= FARTHEST || far % (SECOND << 32) <= FARTHEST);
    }
}

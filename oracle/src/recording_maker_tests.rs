use super::*;
use crate::recording::fields;
use crate::{count_recordings, reader};

#[test]
fn the_same_seed_makes_the_same_recording() {
    assert_eq!(make(7, 50), make(7, 50));
    assert_ne!(make(7, 50), make(8, 50));
    assert_eq!(make_small(7, 9), make_small(7, 9));
}

#[test]
fn a_recording_has_as_many_complete_fields_as_asked_for() {
    for seed in 0..40 {
        let count = seed as usize % 7;
        assert_eq!(fields(&make(seed, count)).0.len(), count);
        let small = make_small(seed, count);
        let (found, rest) = fields(&small);
        assert_eq!(found.len(), count);
        assert!(rest.len() > 3, "the long field that is cut short");
    }
}

#[test]
fn one_deck_has_every_verdict() {
    for seed in 0..5 {
        let mut maker = Maker::new(seed);
        let mut recording = maker.deal(DECK);
        while !maker.left.is_empty() {
            recording.extend(maker.deal(DECK));
        }
        let counts = count_recordings::report(&recording);
        let counts = String::from_utf8(counts).unwrap();
        for way in [
            "good-1",
            "good-2",
            "good-3",
            "refused-1-20",
            "refused-1-41",
            "refused-2-41",
            "refused-3-42",
            "42-nanos-1000000000",
            "42-over-1472",
            "42-length-9",
            "42-length-11",
            "skipped-of-0",
            "skipped-of-1473",
            "good-2-every-byte",
            "position-61",
            "position-positive",
            "position-negative",
        ] {
            let wanted = format!("\n{way} ");
            assert!(counts.contains(&wanted), "{way} with seed {seed}");
        }
    }
}

#[test]
fn cards_make_what_they_are_named_for() {
    let mut maker = Maker::new(1);
    for _ in 0..300 {
        let taken = taken_frame(&mut maker);
        assert!(reader::read(&taken[3..]).is_ok());
        let tag = unknown_tag(&mut maker.random);
        assert!(!is_known(tag));
        let right = right_start(&mut maker);
        assert_eq!(right.len(), 13);
        assert_eq!(longest(&mut maker).len(), 3 + LONGEST);
    }
}

#[test]
fn every_unknown_tag_has_its_turn() {
    let mut maker = Maker::new(2);
    let mut tags: Vec<u8> = (0..253).map(|_| maker.tag_in_turn()).collect();
    tags.sort();
    let all: Vec<u8> = (0..=255).filter(|&tag| !is_known(tag)).collect();
    assert_eq!(tags, all);
}

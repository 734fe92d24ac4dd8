use super::*;
use crate::recording::{judge, Found};

fn ends(recording: &[u8]) -> Vec<usize> {
    spots(recording).iter().map(|spot| spot.end).collect()
}

#[test]
fn the_same_seed_makes_the_same_bytes() {
    assert_eq!(make(3, 40), make(3, 40));
    assert_ne!(make(3, 40), make(4, 40));
}

#[test]
fn spots_cover_the_file() {
    let recording = [2, 0, 1, b'x', 9, 0, 0, 1, 0];
    let spots = spots(&recording);
    let expected = [(0, 4), (4, 7), (7, 9)].map(|(tag, end)| Spot { tag, end });
    assert_eq!(spots, expected);
    assert_eq!((spots[0].length(), spots[0].body()), (1..3, 3..4));
    assert_eq!((spots[1].length(), spots[1].body()), (5..7, 7..7));
    assert_eq!((spots[2].length(), spots[2].body()), (8..9, 9..9));
    let alone = Spot { tag: 0, end: 1 };
    assert_eq!((alone.length(), alone.body()), (1..1, 1..1));
}

#[test]
fn every_length_is_left_alone() {
    for seed in 0..10 {
        let (before, after) = (recording_maker::make(seed, 60), make(seed, 60));
        assert_eq!(ends(&before), ends(&after));
        for spot in spots(&before) {
            assert_eq!(before[spot.length()], after[spot.length()]);
        }
    }
}

/// Some fields are spared, some have one bad byte, some have many; tags are hit and bodies.
#[test]
fn hits_are_of_every_sort() {
    let (mut spared, mut one, mut many, mut tags, mut bodies) = (0, 0, 0, 0, 0);
    let (mut to_known, mut to_unknown, mut around_length) = (0, 0, 0);
    for seed in 0..6 {
        let (before, after) = (recording_maker::make(seed, 200), make(seed, 200));
        let is_hit = |at: usize| before[at] != after[at];
        for spot in spots(&before) {
            let hits = (spot.tag..spot.end).filter(|&at| is_hit(at)).count();
            spared += usize::from(hits == 0);
            one += usize::from(hits == 1);
            many += usize::from(hits > 1);
            bodies += usize::from(spot.body().any(is_hit));
            if is_hit(spot.tag) {
                let known = (FRAME..=START).contains(&after[spot.tag]);
                tags += 1;
                to_known += usize::from(known);
                to_unknown += usize::from(!known);
                let before_tag = spot.tag > 0 && is_hit(spot.tag - 1);
                let behind = spot.body().next().is_some_and(is_hit);
                around_length += usize::from(before_tag && behind);
            }
        }
    }
    let all = [spared, one, many, tags, bodies, to_known, to_unknown];
    assert!(all.iter().all(|&count| count > 60), "{all:?}");
    assert!(around_length > 10, "{around_length}");
}

#[test]
fn another_byte_is_never_the_same() {
    let mut random = Random::new(1);
    for _ in 0..20 {
        for byte in 0..=255 {
            assert_ne!(other(&mut random, byte), byte);
        }
    }
}

/// Each cause of a refusal comes of good fields that were hit.
#[test]
fn good_fields_go_bad_in_every_way() {
    let mut seen = Vec::new();
    for seed in 0..8 {
        let (before, after) = (recording_maker::make(seed, 300), make(seed, 300));
        for (old, new) in fields(&before).0.into_iter().zip(fields(&after).0) {
            let was_good = !matches!(judge(old), Found::Refused { .. } | Found::Skipped { .. });
            if let (true, Found::Refused { tag, answer }) = (was_good, judge(new)) {
                if tag == old.tag {
                    seen.push((tag, answer));
                }
            }
        }
    }
    seen.sort();
    seen.dedup();
    let frames = [21, 22, 23, 24, 25, 26, 27, 28, 29].map(|answer| (FRAME, answer));
    let expected = [&frames[..], &[(START, 42)]].concat();
    assert_eq!(seen, expected, "a length of its own is behind 20 and 41");
}

use super::*;
use crate::random::Random;
use crate::recording_maker::field as whole_field;
use crate::{check as whole, damaged, damaged_lengths, recording_maker};

fn assert_same(recording: &[u8], sizes: &[usize]) {
    let checked = check(recording, sizes);
    assert!(checked == whole::check(recording), "pieces of {sizes:?}");
    let mended = mend(recording, sizes);
    assert!(mended == whole::mend(recording), "pieces of {sizes:?}");
}

#[test]
fn pieces_of_one_size_are_checked_and_mended_as_the_whole() {
    for seed in 0..3 {
        for recording in [damaged::make(seed, 60), damaged_lengths::make(seed, 60)] {
            for size in [1, 2, 3, 4, 1_471, 1_472, 1_473, 1_474, 1_475, 1_476, 65_538] {
                assert_same(&recording, &[size]);
            }
        }
    }
}

#[test]
fn pieces_of_any_sizes_are_checked_and_mended_as_the_whole() {
    let mut random = Random::new(14);
    for seed in 10..16 {
        for recording in [damaged::make(seed, 30), damaged_lengths::make(seed, 30)] {
            for most in [3, 20, 2_000] {
                let mut sizes: Vec<usize> = (0..50).map(|_| random.below(most)).collect();
                sizes.push(1);
                assert_same(&recording, &sizes);
            }
        }
    }
}

#[test]
fn every_two_pieces_and_every_prefix_of_a_small_recording() {
    let recording = recording_maker::make_small(3, 9);
    for at in 1..recording.len() {
        assert_same(&recording, &[at, recording.len()]);
        assert_same(&recording[..at], &[1]);
        assert_same(&recording[..at], &[2, 0, 3]);
    }
}

/// 65,538 bytes are enough for any field.
#[test]
fn no_more_is_held_than_one_field() {
    for (tag, length) in [(9, 65_535), (2, 65_535), (1, 1_472), (3, 10), (0, 0)] {
        let bytes = whole_field(tag, vec![0; length]);
        let mut holder = Holder::default();
        let mut complete = 0;
        for _ in 0..3 {
            for &byte in &bytes {
                assert!(holder.held.len() < HEAD + length);
                holder.read(&[byte], |_| complete += 1);
            }
            assert!(holder.held.is_empty());
        }
        assert_eq!(complete, 3);
    }
}

use super::*;
use crate::random::Random;
use crate::{listing, recording_maker};

fn assert_same(recording: &[u8], pieces: &[usize]) {
    let whole = listing::list(recording);
    assert!(list(recording, pieces) == whole, "pieces of {pieces:?}");
}

#[test]
fn pieces_of_one_size_list_as_the_whole() {
    for seed in 0..6 {
        let recording = recording_maker::make(seed, 90);
        for size in [
            1, 2, 3, 4, 7, 1_471, 1_472, 1_473, 1_474, 1_475, 1_476, 65_536,
        ] {
            assert_same(&recording, &[size]);
        }
    }
}

#[test]
fn pieces_of_any_sizes_list_as_the_whole() {
    let mut random = Random::new(9);
    for seed in 10..30 {
        let recording = recording_maker::make(seed, 40);
        for most in [3, 20, 2_000] {
            let mut sizes: Vec<usize> = (0..50).map(|_| random.below(most)).collect();
            sizes.push(1);
            assert_same(&recording, &sizes);
        }
    }
}

#[test]
fn every_two_pieces_of_a_small_recording_list_as_the_whole() {
    for seed in 0..4 {
        let recording = recording_maker::make_small(seed, 13);
        for first in 1..recording.len() {
            assert_same(&recording, &[first, recording.len()]);
        }
    }
}

#[test]
fn cut_at_every_byte_pieces_end_as_the_whole_does() {
    let recording = recording_maker::make_small(7, 13);
    for end in 0..=recording.len() {
        for size in [1, 2, 5] {
            assert_same(&recording[..end], &[size]);
        }
    }
}

#[test]
fn no_more_is_kept_than_a_right_field_needs() {
    for (tag, length, most) in [
        (1, 1_472, 1_472),
        (2, 1_473, 0),
        (3, 65_535, 0),
        (9, 1_000, 0),
    ] {
        let mut reader = PieceReader::default();
        let recording = recording_maker::field(tag, vec![0; length]);
        let mut kept = 0;
        for byte in recording {
            kept = kept.max(reader.kept.len());
            reader.read(&[byte]);
        }
        // The last byte of a body is kept only for the moment of its judgement.
        assert!(kept + 1 >= most && kept <= most, "{tag} {length} {kept}");
        assert!(reader.kept.is_empty());
    }
}

#[test]
fn sizes_of_pieces() {
    assert_eq!(sizes("1"), Some(vec![1]));
    assert_eq!(sizes("3,0,1472"), Some(vec![3, 0, 1_472]));
    for word in ["", "0", "0,0", "1,", ",1", "-1", "1;2", "x"] {
        assert_eq!(sizes(word), None, "{word:?}");
    }
}

//! A small recording with each of its bytes damaged in turn, all others left alone.

use crate::damaged::{spots, Spot};

/// Every byte of a tag or a body.
pub fn hits(recording: &[u8]) -> Vec<Vec<u8>> {
    let in_field = |spot: &Spot| {
        let tag = (spot.tag, tag_values(recording[spot.tag]));
        let body = spot.body().map(|at| (at, values(recording[at])));
        [tag].into_iter().chain(body).collect::<Vec<_>>()
    };
    let places = spots(recording).iter().flat_map(in_field).collect();
    damaged(recording, places)
}

/// Every byte of a length.
pub fn hits_lengths(recording: &[u8]) -> Vec<Vec<u8>> {
    let lengths = spots(recording).into_iter().flat_map(Spot::length);
    let places = lengths.map(|at| (at, length_values(recording[at])));
    damaged(recording, places.collect())
}

/// One recording a line, in hexadecimal.
pub fn lines(recordings: &[Vec<u8>]) -> Vec<u8> {
    let line = |bytes: &Vec<u8>| {
        let digits = bytes.iter().map(|byte| format!("{byte:02x}"));
        digits.chain(["\n".to_string()]).collect::<String>()
    };
    recordings.iter().map(line).collect::<String>().into()
}

fn damaged(recording: &[u8], places: Vec<(usize, Vec<u8>)>) -> Vec<Vec<u8>> {
    let mut out = Vec::new();
    for (at, mut values) in places {
        values.sort();
        values.dedup();
        for value in values.into_iter().filter(|&value| value != recording[at]) {
            let mut bytes = recording.to_vec();
            bytes[at] = value;
            out.push(bytes);
        }
    }
    out
}

/// The lowest bit, the highest, all of them; no bit set, every bit set.
fn values(byte: u8) -> Vec<u8> {
    vec![byte ^ 1, byte ^ 0x80, !byte, 0, 255]
}

/// Also what would be another known field, and the first tag that is not known.
fn tag_values(byte: u8) -> Vec<u8> {
    [values(byte), vec![1, 2, 3, 4]].concat()
}

fn length_values(byte: u8) -> Vec<u8> {
    let near = vec![byte.wrapping_add(1), byte.wrapping_sub(1)];
    [values(byte), near].concat()
}

#[cfg(test)]
mod tests {
    use super::*;
    use crate::recording::fields;
    use crate::recording_maker;

    /// How many bytes differ, and the first of them.
    fn difference(a: &[u8], b: &[u8]) -> (usize, usize) {
        assert_eq!(a.len(), b.len());
        let differ: Vec<usize> = (0..a.len()).filter(|&i| a[i] != b[i]).collect();
        (differ.len(), differ[0])
    }

    #[test]
    fn every_byte_is_hit_by_one_of_them_and_none_twice_alike() {
        let recording = recording_maker::make_small(2, 9);
        let lengths: Vec<usize> = spots(&recording)
            .into_iter()
            .flat_map(Spot::length)
            .collect();
        let mut hit = vec![0; recording.len()];
        let (tags, bodies) = (hits(&recording), hits_lengths(&recording));
        for (made, of_length) in [(&tags, false), (&bodies, true)] {
            for bytes in made {
                let (count, at) = difference(&recording, bytes);
                assert_eq!((count, lengths.contains(&at)), (1, of_length));
                hit[at] += 1;
            }
            let mut different = made.clone();
            different.sort();
            different.dedup();
            assert_eq!(different.len(), made.len());
        }
        // of the five values one may be the byte itself, and others may be the same
        assert!(hit.iter().all(|&count| count >= 3), "{hit:?}");
    }

    #[test]
    fn lengths_stay_and_so_do_the_fields() {
        let recording = recording_maker::make_small(5, 9);
        let ends = |bytes: &[u8]| spots(bytes).iter().map(|s| s.end).collect::<Vec<_>>();
        for bytes in hits(&recording) {
            assert_eq!(ends(&bytes), ends(&recording));
        }
        let count = fields(&recording).0.len();
        let fewer = |bytes: &Vec<u8>| fields(bytes).0.len() < count;
        assert!(hits_lengths(&recording).iter().any(fewer));
    }

    #[test]
    fn the_values_of_a_small_field() {
        let hit = |recording: &[u8]| String::from_utf8(lines(&hits(recording))).unwrap();
        let expected = "00000109\n01000109\n03000109\n04000109\n82000109\nfd000109\nff000109\n\
             02000100\n02000108\n02000189\n020001f6\n020001ff\n";
        assert_eq!(hit(&[2, 0, 1, 9]), expected);
        let lengths = String::from_utf8(lines(&hits_lengths(&[9, 0, 1, 7]))).unwrap();
        let expected = "09010107\n09800107\n09ff0107\n\
             09000007\n09000207\n09008107\n0900fe07\n0900ff07\n";
        assert_eq!(lengths, expected);
    }
}

use super::*;
use crate::random::Random;
use crate::{recording_frames, recording_maker};

fn field(tag: u8, body: &[u8]) -> Vec<u8> {
    recording_maker::field(tag, body.to_vec())
}

fn refused(tag: u8, body: &[u8]) -> u8 {
    match judge(Field { tag, body }) {
        Found::Refused { tag: told, answer } if told == tag => answer,
        other => panic!("{other:?}"),
    }
}

fn start_body(seconds: u64, nanos: u32) -> Vec<u8> {
    [&seconds.to_be_bytes()[2..], &nanos.to_be_bytes()].concat()
}

#[test]
fn a_length_has_its_high_byte_first() {
    let bytes = [9, 1, 0].into_iter().chain([7; 256]).collect::<Vec<u8>>();
    let (found, rest) = fields(&bytes);
    assert_eq!(rest, []);
    assert_eq!(found.len(), 1);
    assert_eq!((found[0].tag, found[0].body.len()), (9, 256));
}

#[test]
fn fields_come_one_after_another_and_the_rest_is_cut_short() {
    let bytes = [2, 0, 1, b'x', 7, 0, 0, 1, 0, 2, 5];
    let (found, rest) = fields(&bytes);
    let (note, unknown) = (&bytes[3..4], &bytes[0..0]);
    assert_eq!(
        found,
        [
            Field { tag: 2, body: note },
            Field {
                tag: 7,
                body: unknown
            }
        ]
    );
    assert_eq!(rest, [1, 0, 2, 5]);
    assert_eq!(end_answer(rest), 40);
    assert_eq!(end_answer(&[]), 0);
    assert_eq!(fields(&[]), (vec![], [].as_slice()));
}

#[test]
fn a_frame_is_judged_by_its_length_and_then_by_the_reader() {
    let mut random = Random::new(1);
    for length in [22, 1_471, 1_472] {
        let frame = recording_frames::of_length(&mut random, length);
        let field = Field {
            tag: FRAME,
            body: &frame,
        };
        assert!(matches!(judge(field), Found::Frame(_)), "{length}");
    }
    for length in [1_473, 65_535] {
        let right = recording_frames::of_length(&mut random, length);
        assert_eq!(refused(FRAME, &right), 41);
        let wrong = recording_frames::wrong_of_length(&mut random, length);
        assert_eq!(refused(FRAME, &wrong), 41);
    }
    assert_eq!(refused(FRAME, &[]), 20);
    assert_eq!(refused(FRAME, &[0; 1_472]), 21);
    assert_eq!(refused(FRAME, &[0; 1_473]), 41);
}

#[test]
fn any_bytes_are_a_note_if_they_are_not_too_many() {
    for length in [0, 1, 1_471, 1_472] {
        let text = vec![0xff; length];
        let field = Field {
            tag: NOTE,
            body: &text,
        };
        assert_eq!(judge(field), Found::Note(&text));
    }
    assert_eq!(refused(NOTE, &[b'n'; 1_473]), 41);
    assert_eq!(refused(NOTE, &[b'n'; 65_535]), 41);
}

#[test]
fn a_start_has_ten_bytes_and_its_nanoseconds_in_range() {
    for (seconds, nanos) in [(0, 0), (16, 5), (LAST, 999_999_999)] {
        let body = start_body(seconds, nanos);
        let found = judge(Field {
            tag: START,
            body: &body,
        });
        assert_eq!(found, Found::Start(Time { seconds, nanos }));
    }
    for nanos in [1_000_000_000, u32::MAX] {
        assert_eq!(refused(START, &start_body(0, nanos)), 42);
    }
    for length in [0, 1, 9, 11, 20, 1_472, 1_473, 65_535] {
        assert_eq!(refused(START, &vec![0; length]), 42, "{length}");
    }
}

const LAST: u64 = 281_474_976_710_655;

#[test]
fn every_other_tag_is_skipped_whatever_its_length() {
    for tag in (4..=255).chain([0]) {
        for length in [0, 1, 10, 1_473, 65_535] {
            let body = vec![1; length];
            let found = judge(Field { tag, body: &body });
            assert_eq!(found, Found::Skipped { tag, length });
        }
    }
}

#[test]
fn what_is_written_is_the_field() {
    let mut random = Random::new(2);
    for length in [22, 300, 1_472] {
        let frame = recording_frames::of_length(&mut random, length);
        let mut out = vec![0xee];
        assert_eq!(write_frame(&mut out, &frame), 0);
        assert_eq!(out, [&[0xee], field(FRAME, &frame).as_slice()].concat());
    }
    for length in [0, 1, 1_472] {
        let text = random.bytes(length);
        let mut out = Vec::new();
        assert_eq!(write_note(&mut out, &text), 0);
        assert_eq!(out, field(NOTE, &text));
    }
    let mut out = Vec::new();
    let start = Time {
        seconds: LAST,
        nanos: 999_999_999,
    };
    assert_eq!(write_start(&mut out, start), 0);
    let expected = [
        3, 0, 10, 255, 255, 255, 255, 255, 255, 0x3b, 0x9a, 0xc9, 0xff,
    ];
    assert_eq!(out, expected);
}

#[test]
fn nothing_is_written_of_a_refused_field() {
    let mut random = Random::new(3);
    let mut out = Vec::new();
    let right = recording_frames::of_length(&mut random, 1_473);
    assert_eq!(write_frame(&mut out, &right), 41);
    assert_eq!(write_frame(&mut out, &[]), 20);
    assert_eq!(write_frame(&mut out, &[2; 14]), 21);
    assert_eq!(write_note(&mut out, &[b'n'; 1_473]), 41);
    for (seconds, nanos) in [(LAST + 1, 0), (u64::MAX, 0), (0, 1_000_000_000)] {
        assert_eq!(write_start(&mut out, Time { seconds, nanos }), 42);
    }
    assert_eq!(out, []);
}

/// Good fields that were listed write back as the same bytes.
#[test]
fn good_fields_write_back() {
    for seed in 0..3 {
        let recording = recording_maker::make(seed, 100);
        for read in fields(&recording).0 {
            let mut out = Vec::new();
            let answer = match judge(read) {
                Found::Frame(_) => write_frame(&mut out, read.body),
                Found::Note(text) => write_note(&mut out, text),
                Found::Start(time) => write_start(&mut out, time),
                _ => continue,
            };
            assert_eq!((answer, out), (0, field(read.tag, read.body)));
        }
    }
}

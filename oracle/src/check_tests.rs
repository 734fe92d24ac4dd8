use super::*;
use crate::recording_maker::field;

fn checked(recording: &[u8]) -> String {
    String::from_utf8(check(recording)).unwrap()
}

/// A frame without items, and how it would be refused.
const FRAME: [u8; 14] = [1, 7, 0, 0, 0, 0, 0, 9, 0, 0, 0, 5, 0, 0];

fn frame_with(at: usize, byte: u8) -> Vec<u8> {
    let mut body = FRAME.to_vec();
    body[at] = byte;
    body
}

#[test]
fn nothing_is_no_field() {
    assert_eq!(checked(&[]), "fields 0 0 0\n");
    assert_eq!(mend(&[]), []);
}

#[test]
fn a_line_for_each_field_and_the_counts() {
    let good = [
        field(1, FRAME.to_vec()),
        field(2, b"note".to_vec()),
        field(3, vec![0; 10]),
    ];
    let bad = [
        field(1, frame_with(0, 2)),
        field(2, vec![b'n'; 1_473]),
        field(3, vec![0; 9]),
        field(3, vec![255; 10]),
    ];
    let unknown = [field(0, vec![]), field(255, vec![7; 300])];
    let recording = [
        good.concat(),
        unknown[0].clone(),
        bad.concat(),
        unknown[1].clone(),
    ];
    let expected = "good 1 14\ngood 2 4\ngood 3 10\nunknown 0 0\n\
         bad 1 21 14\nbad 2 41 1473\nbad 3 42 9\nbad 3 42 10\nunknown 255 300\n\
         fields 3 4 2\n";
    assert_eq!(checked(&recording.concat()), expected);
    let copy = [good.concat(), unknown.concat()];
    assert_eq!(mend(&recording.concat()), copy.concat());
}

#[test]
fn each_cause_of_a_frame_is_named() {
    let item = |bytes: &[u8]| {
        let mut body = FRAME.to_vec();
        body[13] = bytes.len() as u8;
        body.extend_from_slice(bytes);
        body
    };
    for (body, answer) in [
        (vec![], 20),
        (FRAME[..13].to_vec(), 20),
        (frame_with(0, 0), 21),
        (frame_with(13, 1), 22),
        (item(&[0, 0]), 23),
        (item(&[0, 0, 0x84, 0, 0]), 24),
        (item(&[0, 0, 0x82, 0, 0x30]), 25),
        (item(&[0, 0, 0x21, 0, 0]), 26),
        (item(&[0, 0, 0x61, 0, 0, 0, 0, 1, 9, 0]), 27),
        (frame_with(8, 0x3c), 28),
        (item(&[0, 0, 0x62, 0, 0x81, 0]), 29),
        (vec![0; 1_473], 41),
    ] {
        let length = body.len();
        let expected = format!("bad 1 {answer} {length}\nfields 0 1 0\n");
        assert_eq!(checked(&field(1, body.clone())), expected);
        assert_eq!(mend(&field(1, body)), []);
    }
}

/// A start over 1,472 bytes is 42 as any start that is not of 10 bytes.
#[test]
fn the_edges_of_a_length() {
    for (tag, length, line) in [
        (2, 0, "good 2 0"),
        (2, 1_472, "good 2 1472"),
        (2, 1_473, "bad 2 41 1473"),
        (2, 65_535, "bad 2 41 65535"),
        (3, 9, "bad 3 42 9"),
        (3, 10, "good 3 10"),
        (3, 11, "bad 3 42 11"),
        (3, 1_472, "bad 3 42 1472"),
        (3, 1_473, "bad 3 42 1473"),
        (1, 0, "bad 1 20 0"),
        (1, 1_472, "bad 1 21 1472"),
        (1, 65_535, "bad 1 41 65535"),
        (4, 0, "unknown 4 0"),
        (4, 65_535, "unknown 4 65535"),
    ] {
        let checked = checked(&field(tag, vec![0; length]));
        assert_eq!(checked.lines().next(), Some(line));
    }
}

/// The rest has its tag and its length in it, as far as they are there.
#[test]
fn a_rest_is_told_and_dropped() {
    let note = field(2, b"x".to_vec());
    for tag in [0, 1, 2, 3, 9] {
        let whole = field(tag, vec![0; 300]);
        for there in [1, 2, 3, 4, 13, 302] {
            let recording = [&note, &whole[..there]].concat();
            let expected = format!("good 2 1\nrest 40 {there}\nfields 1 0 0\n");
            assert_eq!(checked(&recording), expected);
            assert_eq!(mend(&recording), note);
        }
    }
    let longest = field(7, vec![0; 65_535]);
    let expected = "rest 40 65537\nfields 0 0 0\n";
    assert_eq!(checked(&longest[..65_537]), expected);
    assert_eq!(mend(&longest[..65_537]), []);
    assert_eq!(mend(&longest), longest);
}

/// A rest may hold what would be fields if they were looked for.
#[test]
fn nothing_is_looked_for_in_a_rest() {
    let note = field(2, b"inside".to_vec());
    let recording = [&[2, 0, 200], note.as_slice(), note.as_slice()].concat();
    assert_eq!(checked(&recording), "rest 40 21\nfields 0 0 0\n");
    assert_eq!(mend(&recording), []);
}

#[test]
fn each_count_stops_at_its_end() {
    let last = u32::MAX;
    for body in [vec![0; 10], vec![0; 9]] {
        let mut report = Report {
            good: last - 1,
            bad: last - 1,
            unknown: last - 1,
            ..Report::default()
        };
        for _ in 0..3 {
            report.add(Field {
                tag: 3,
                body: &body,
            });
            report.add(Field {
                tag: 9,
                body: &body,
            });
        }
        let text = String::from_utf8(report.end(0)).unwrap();
        let (good, bad) = if body.len() == 10 {
            (last, last - 1)
        } else {
            (last - 1, last)
        };
        let expected = format!("fields {good} {bad} {last}\n");
        assert!(text.ends_with(&expected), "{text}");
    }
}

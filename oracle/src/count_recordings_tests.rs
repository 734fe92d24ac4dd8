use super::*;
use crate::recording_maker::field;

fn counted(counts: Vec<u8>) -> String {
    String::from_utf8(counts).unwrap()
}

#[test]
fn fields_and_the_end() {
    let recording = [
        field(2, vec![b'n'; 1_472]),
        field(2, vec![b'n'; 1_473]),
        field(3, vec![0; 10]),
        field(3, vec![0; 9]),
        field(9, vec![]),
        vec![1, 0],
    ];
    let expected = "41-note-of-1473 1\n42-length 1\n42-length-9 1\n42-length-under 1\n\
         end-40 1\nend-40-length 1\nend-40-length-frame 1\nfields 5\n\
         good-2 1\ngood-2-of-1472 1\ngood-3 1\ngood-3-nanos-0 1\ngood-after-41 1\n\
         recordings 1\nrefused-2-41 1\nrefused-3-42 1\n\
         skipped 1\nskipped-of-0 1\ntag-9 1\n";
    assert_eq!(counted(report(&recording.concat())), expected);
}

#[test]
fn an_end_for_each_cut() {
    let expected = "end-0 2\nend-0-nothing 1\nend-40 4\nend-40-before-body-note 1\n\
         end-40-body 2\nend-40-body-note 2\nend-40-last-byte-note 1\n\
         end-40-length 1\nend-40-length-note 1\nend-40-tag 1\nend-40-tag-note 1\n";
    assert_eq!(counted(report_cuts(&field(2, vec![1, 2]))), expected);
}

#[test]
fn a_body_that_is_cut() {
    let cut = |tag: u8, length: u16, there: usize| {
        let [high, low] = length.to_be_bytes();
        let mut recording = vec![tag, high, low];
        recording.resize(3 + there, 0);
        counted(report(&recording))
    };
    for way in ["end-40-long-frame", "end-40-past-1472-frame"] {
        assert!(cut(1, 1_474, 1_473).contains(&format!("{way} 1\n")));
    }
    assert!(!cut(1, 1_474, 1_472).contains("past"));
    assert!(!cut(1, 1_472, 1_471).contains("long"));
    assert!(cut(3, 11, 10).contains("end-40-wrong-start 1\n"));
    assert!(!cut(3, 10, 9).contains("wrong"));
    assert!(cut(0, 5, 0).contains("end-40-before-body-unknown 1\n"));
}

#[test]
fn a_frame_that_is_too_long_may_be_wrong_too() {
    let ways = |body: Vec<u8>| counted(report(&field(1, body)));
    assert!(ways(vec![0; 1_473]).contains("41-frame-wrong-too 1\n"));
    let mut right = vec![1, 0, 0, 0, 0, 0, 0, 0, 0, 0, 0, 0, 5, 180];
    right.extend([0, 0, 0x81, 0, 0].repeat(292));
    assert_eq!(right.len(), 1_474);
    assert!(ways(right).contains("41-frame-right-else 1\n"));
}

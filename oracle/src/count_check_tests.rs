use super::*;
use crate::recording_maker::field;

fn counted(counts: Vec<u8>) -> Vec<(String, usize)> {
    let text = String::from_utf8(counts).unwrap();
    let pair = |line: &str| {
        let (way, count) = line.split_once(' ').unwrap();
        (way.to_string(), count.parse().unwrap())
    };
    text.lines().map(pair).collect()
}

fn ways(recording: &[u8]) -> Vec<String> {
    let counts = counted(report(recording));
    counts.into_iter().map(|(way, _)| way).collect()
}

fn assert_has(recording: &[u8], wanted: &[&str]) {
    let ways = ways(recording);
    for way in wanted {
        assert!(ways.contains(&format!("check-{way}")), "{way} in {ways:?}");
    }
}

fn assert_lacks(recording: &[u8], unwanted: &[&str]) {
    let ways = ways(recording);
    for way in unwanted {
        assert!(!ways.contains(&format!("check-{way}")), "{way} in {ways:?}");
    }
}

fn note(length: usize) -> Vec<u8> {
    field(2, vec![b'n'; length])
}

#[test]
fn fields_and_their_neighbours() {
    let recording = [note(1_473), note(1_472), field(3, vec![0; 9])];
    let expected = [
        ("bad-2-41", 1),
        ("bad-2-of-1473", 1),
        ("bad-3-42", 1),
        ("bad-3-length", 1),
        ("bad-after-good", 1),
        ("fields", 3),
        ("file-first-bad", 1),
        ("file-last-bad", 1),
        ("files", 1),
        ("good-2", 1),
        ("good-2-after-bad", 1),
        ("good-2-after-bad-2", 1),
        ("good-2-of-1472", 1),
        ("good-after-bad", 1),
        ("good-after-bad-longer", 1),
        ("good-between-bad", 1),
        ("good-of-1472-after-1473", 1),
        ("no-rest", 1),
    ];
    let expected = expected.map(|(way, count)| (format!("check-{way}"), count));
    assert_eq!(counted(report(&recording.concat())), expected);
}

#[test]
fn unknown_ones_between() {
    let bad = field(1, vec![]);
    let unknown = |length| field(9, vec![0; length]);
    let recording = [bad.clone(), unknown(0), bad.clone(), unknown(65_535)].concat();
    let wanted = [
        "unknown-between-bad",
        "unknown-of-0",
        "unknown-of-65535",
        "unknown-over-1472",
        "bad-after-unknown",
        "file-nothing-good",
        "file-last-unknown",
        "bad-of-0",
    ];
    assert_has(&recording, &wanted);
    assert_lacks(
        &recording,
        &["file-empty-copy", "file-clean", "bad-after-bad"],
    );
    let three = [bad.clone(), bad.clone(), bad].concat();
    let wanted = [
        "bad-after-bad",
        "bad-three",
        "file-empty-copy",
        "file-all-bad",
    ];
    assert_has(&three, &wanted);
}

#[test]
fn two_causes_of_a_long_field() {
    assert_has(&field(1, vec![0; 1_473]), &["bad-1-41-wrong-too"]);
    assert_has(&field(3, vec![0; 1_473]), &["bad-3-over-1472"]);
    assert_has(&field(3, vec![255; 10]), &["bad-3-nanos"]);
    assert_has(&field(3, vec![0; 65_535]), &["bad-of-65535"]);
}

#[test]
fn files_as_a_whole() {
    assert_has(&[], &["file-empty", "file-clean", "no-rest"]);
    assert_lacks(&[], &["file-empty-copy", "file-nothing-good"]);
    let clean = [note(1), field(0, vec![])].concat();
    assert_has(&clean, &["file-clean-with-fields", "file-first-good"]);
    assert_has(&[2], &["file-empty-copy", "rest-after-nothing"]);
    assert_lacks(&[2], &["file-all-bad", "file-clean", "file-nothing-good"]);
}

#[test]
fn what_is_left_at_the_end() {
    let with_rest = |rest: &[u8]| [note(1).as_slice(), rest].concat();
    let cut = |tag: u8, length: usize, there: usize| {
        let bytes = field(tag, vec![0; length]);
        with_rest(&bytes[..there])
    };
    let wanted = ["rest", "rest-of-1", "rest-start", "rest-after-good"];
    assert_has(&cut(3, 10, 1), &wanted);
    assert_has(&cut(3, 10, 2), &["rest-of-2", "file-last-good-before-rest"]);
    let wanted = ["rest-of-3", "rest-unknown", "rest-right-unknown"];
    assert_has(&cut(4, 300, 3), &wanted);
    assert_has(&cut(2, 1, 3), &["rest-but-a-byte-note", "rest-right-note"]);
    assert_has(
        &cut(3, 11, 13),
        &["rest-but-a-byte-start", "rest-right-start"],
    );
    assert_has(&cut(3, 12, 13), &["rest-right-start"]);
    assert_lacks(&cut(3, 12, 13), &["rest-but-a-byte-start"]);
    assert_lacks(&cut(2, 1_473, 1_475), &["rest-over-1472"]);
    assert_has(&cut(2, 1_474, 1_476), &["rest-over-1472"]);
    assert_has(&cut(1, 65_535, 65_537), &["rest-of-65537", "rest-frame"]);
    let holds = [&[2, 0, 99], note(4).as_slice()].concat();
    assert_has(&with_rest(&holds), &["rest-holds-fields"]);
    assert_lacks(&with_rest(&holds[..9]), &["rest-holds-fields"]);
}

#[test]
fn hits_stand_together_and_the_others_alone() {
    let recording = [note(1).as_slice(), &[9, 0]].concat();
    let of = |counts: Vec<u8>, way: &str| {
        let counts = counted(counts);
        let found = counts.iter().find(|(name, _)| name == way);
        found.map_or(0, |&(_, count)| count)
    };
    let made = report_hits(&recording);
    assert_eq!(of(made.clone(), "check-files"), 1);
    assert_eq!(of(made.clone(), "check-fields"), 12);
    assert_eq!(of(made, "check-no-rest"), 1);
    let made = report_hits_lengths(&recording);
    assert_eq!(of(made, "check-files"), 11);
    let made = report_cuts(&recording);
    assert_eq!(of(made.clone(), "check-files"), 7);
    assert_eq!(of(made, "check-rest"), 5);
}

use super::*;
use crate::{listing, play, script};

/// The answers, and the listing of what was recorded.
fn recorded(script: &[u8]) -> (String, String) {
    let (recording, answers) = play(script);
    let listing = listing::list(&recording);
    let text = |bytes| String::from_utf8(bytes).unwrap();
    (text(answers), text(listing))
}

#[test]
fn a_taken_frame_becomes_a_field() {
    let lines = [
        "setup 64 1 1 1 5",
        "start 0",
        "can-range 0 0 4294967295",
        "can 0 16 0 0x123 0102",
        "tick 17 0",
        "take 3",
        "take 40 # this one",
        "take 40",
    ];
    let script = lines.join("\n");
    let (answers, listing) = recorded(script.as_bytes());
    let last: Vec<&str> = answers.lines().rev().take(3).collect();
    assert!(last[2].starts_with("12 0 "));
    assert!(last[1].starts_with("0 25 "));
    assert!(last[0].starts_with("13 0 "));
    let expected = "frame 0 16.000000000 11\n\
         \x20 16.000000000 - CAN 5 123 - 2 0102\n\
         end 0 0\n";
    assert_eq!(listing, expected);
}

#[test]
fn notes_are_all_behind_the_first_space() {
    let script =
        b"note a # b \nnote \nnote\nnote#\n note x\nnote\tx\nnote  y\nnote \r\nnote \xff\\";
    let (answers, listing) = recorded(script);
    assert_eq!(answers, "0\n0\n? 3\n? 4\n? 5\n? 6\n0\n0\n0\n");
    let expected = "note a # b \nnote \nnote  y\nnote \\x0d\nnote \\xff\\x5c\nend 0 0\n";
    assert_eq!(listing, expected);
}

#[test]
fn a_note_has_room_for_so_many_bytes() {
    for (length, answer) in [(1_471, "0"), (1_472, "0"), (1_473, "41"), (199_995, "41")] {
        let line = [b"note ".to_vec(), vec![b'n'; length]].concat();
        let (recording, answers) = play(&line);
        assert_eq!(answers, format!("{answer}\n").as_bytes(), "{length}");
        let written = if answer == "0" { 3 + length } else { 0 };
        assert_eq!(recording.len(), written, "{length}");
    }
    let line = [b"note ".to_vec(), vec![b'n'; 199_996]].concat();
    assert_eq!(play(&line), (vec![], b"? 1\n".to_vec()));
}

#[test]
fn a_start_with_two_numbers_is_the_microphones() {
    let lines = [
        "setup 64 1 1 1 5",
        "start 0",
        "start 1",
        "start 0 1",
        "start 0x10 0x3b9ac9ff # x",
        "start 281474976710656 0",
        "start 0 1000000000",
        "start 18446744073709551615 4294967295",
        "start 18446744073709551616 0",
        "start 0 4294967296",
        "start 0 0 0",
        "start",
        "start 1 1 ",
        "start 0  1",
    ];
    let script = lines.join("\n");
    let (answers, listing) = recorded(script.as_bytes());
    let expected = "0\n0\n2\n0\n0\n42\n42\n42\n? 9\n? 10\n? 11\n? 12\n0\n? 14\n";
    assert_eq!(answers, expected);
    let expected = "start 0.000000001\nstart 16.999999999\nstart 1.000000001\nend 0 0\n";
    assert_eq!(listing, expected);
}

#[test]
fn frames_are_judged_before_they_are_written() {
    let right = "01070000000000100000000500050000810040";
    let long = "00".repeat(1_473);
    let lines = [
        "frame -".to_string(),
        format!("frame {right}"),
        format!("frame 02{}", &right[2..]),
        format!("frame {long}"),
        "frame 0".to_string(),
        "frame".to_string(),
        "frame - -".to_string(),
        format!("frame {right} # x"),
        format!("frame {}", right.to_uppercase()),
    ];
    let script = lines.join("\n");
    let (answers, listing) = recorded(script.as_bytes());
    assert_eq!(answers, "20\n0\n21\n41\n? 5\n? 6\n? 7\n0\n0\n");
    let one = "frame 7 16.000000005 5\n  16.000000005 - CAN 0 - 40 - -\n";
    assert_eq!(listing, one.repeat(3) + "end 0 0\n");
}

#[test]
fn everything_else_is_answered_as_without_a_recording() {
    let script = script::make(11, 0);
    let is_own = |line: &&[u8]| !line.starts_with(b"start ") && !line.starts_with(b"frame ");
    let lines: Vec<&[u8]> = text::lines(&script).filter(is_own).collect();
    let script = lines.join(&b'\n');
    assert!(play(&script).1 == play::answers(&script));
}

#[test]
fn lines_are_numbered_and_skipped_as_ever() {
    let (answers, listing) = recorded(b"# note x\n\n   \nwhat\nnote x");
    assert_eq!(answers, "? 4\n0\n");
    assert_eq!(listing, "note x\nend 0 0\n");
}

use super::*;
use crate::recording_maker::field;

fn listed(recording: &[u8]) -> String {
    String::from_utf8(list(recording)).unwrap()
}

/// A frame of these items, at 16 s 999,999,000 ns with sequence number 9.
fn frame_of(items: &[u8]) -> Vec<u8> {
    let mut body = vec![1, 9, 0, 0, 0, 0, 0, 16, 0x3b, 0x9a, 0xc6, 0x18];
    body.extend_from_slice(&(items.len() as u16).to_be_bytes());
    body.extend_from_slice(items);
    field(1, body)
}

/// The line of the one item, without its line feed.
fn item(bytes: &[u8]) -> String {
    let text = listed(&frame_of(bytes));
    let lines: Vec<&str> = text.lines().collect();
    assert_eq!(lines.len(), 3, "{text}");
    let first = format!("frame 9 16.999999000 {}", bytes.len());
    assert_eq!((lines[0], lines[2]), (first.as_str(), "end 0 0"));
    lines[1].to_string()
}

#[test]
fn an_empty_file_has_no_fields() {
    assert_eq!(listed(&[]), "end 0 0\n");
}

#[test]
fn the_frame_of_the_worked_example() {
    let body = [
        0x01, 0x00, 0x00, 0x00, 0x00, 0x00, 0x00, 0x10, 0x00, 0x00, 0x00, 0x00, 0x00, 0x16, 0x00,
        0x00, 0x61, 0x05, 0x00, 0x00, 0x01, 0x23, 0x02, 0x01, 0x02, 0x00, 0x02, 0xe1, 0x05, 0x40,
        0xc1, 0xab, 0xcd, 0xef, 0x01, 0xaa,
    ];
    let expected = "frame 0 16.000000000 22\n\
         \x20 16.000000000 - CAN 5 123 - 2 0102\n\
         \x20 16.000020000 - CANFD 5 01ABCDEF 40 1 AA\n\
         end 0 0\n";
    assert_eq!(listed(&field(1, body.to_vec())), expected);
}

#[test]
fn a_frame_without_items_is_one_line() {
    assert_eq!(listed(&frame_of(&[])), "frame 9 16.999999000 0\nend 0 0\n");
}

#[test]
fn can_items() {
    let of = |id: [u8; 4]| item(&[&[0, 0, 0x61, 255], id.as_slice(), &[0]].concat());
    let line = |bus: &str, id: &str| format!("  16.999999000 - {bus} 255 {id} - 0 -");
    assert_eq!(of([0, 0, 0, 0]), line("CAN", "000"));
    assert_eq!(of([0, 0, 0, 0x0a]), line("CAN", "00A"));
    assert_eq!(of([0, 0, 7, 0xff]), line("CAN", "7FF"));
    assert_eq!(of([0x40, 0, 7, 0xff]), line("CANFD", "7FF"));
    assert_eq!(of([0x80, 0, 0, 0]), line("CAN", "00000000"));
    assert_eq!(of([0x80, 0, 7, 0xff]), line("CAN", "000007FF"));
    assert_eq!(of([0x9f, 0xff, 0xff, 0xff]), line("CAN", "1FFFFFFF"));
    assert_eq!(of([0xc0, 0, 0, 0x0b]), line("CANFD", "0000000B"));
    assert_eq!(of([0xdf, 0xff, 0xff, 0xff]), line("CANFD", "1FFFFFFF"));
}

#[test]
fn lin_items() {
    let expected = "  16.999999000 - LIN 0 3C - 1 0F";
    assert_eq!(item(&[0, 0, 0x62, 0, 0x3c, 1, 0x0f]), expected);
    let expected = "  16.999999000 - LIN 0 03 0A 0 -";
    assert_eq!(item(&[0, 0, 0xe2, 0, 0x0a, 0x03, 0]), expected);
}

#[test]
fn flexray_items() {
    let of = |id: [u8; 3]| item(&[&[0, 0, 0x63, 7], id.as_slice(), &[2, 0xab, 0]].concat());
    let line = |id: &str| format!("  16.999999000 - FLEXRAY 7 {id} - 2 AB00");
    assert_eq!(of([0x48, 1, 0]), line("A:1:0"));
    assert_eq!(of([0x88, 0xff, 63]), line("B:255:63"));
    assert_eq!(of([0xcc, 3, 63]), line("AB:1027:63"));
    assert_eq!(of([0xcf, 0xff, 9]), line("AB:2047:9"));
}

#[test]
fn items_without_a_payload() {
    let error = |channels: u8| item(&[0, 0, 0xc3, 7, 0x4e, channels, 0, 0]);
    let line = |id: &str| format!("  16.999999000 - FLEXRAY 7 {id} 4E - -");
    assert_eq!(error(0x40), line("A:-:-"));
    assert_eq!(error(0x80), line("B:-:-"));
    assert_eq!(error(0xc0), line("AB:-:-"));
    let conflict = item(&[0, 0, 0xc3, 7, 0x4e, 0xc8, 1, 0]);
    assert_eq!(conflict, line("AB:1:0"));
}

#[test]
fn items_without_an_id() {
    for (kind, bus) in [(1, "CAN"), (2, "LIN"), (3, "FLEXRAY")] {
        for (state, digits) in [(0, "00"), (0x0a, "0A"), (0xc0, "C0"), (0x8f, "8F")] {
            let expected = format!("  16.999999000 - {bus} 1 - {digits} - -");
            assert_eq!(item(&[0, 0, 0x80 | kind, 1, state]), expected);
        }
    }
}

#[test]
fn an_item_has_its_own_time() {
    let state = |offset: [u8; 2]| item(&[offset.as_slice(), &[0x81, 0, 0]].concat());
    assert_eq!(state([0, 1]), "  17.000009000 - CAN 0 - 00 - -");
    assert_eq!(state([255, 255]), "  17.655349000 - CAN 0 - 00 - -");
    let mut body = vec![1, 9, 255, 255, 255, 255, 255, 255, 0x3b, 0x9a, 0xc9, 0xff];
    body.extend_from_slice(&[0, 5, 0, 1, 0x81, 0, 0]);
    let expected = "frame 9 281474976710655.999999999 5\n\
         \x20 281474976710656.000009999 - CAN 0 - 00 - -\n\
         end 0 0\n";
    assert_eq!(listed(&field(1, body)), expected);
}

#[test]
fn notes_show_each_byte_and_stay_on_their_line() {
    let note = |text: &[u8]| listed(&field(2, text.to_vec()));
    assert_eq!(note(b""), "note \nend 0 0\n");
    assert_eq!(note(b" a~ "), "note  a~ \nend 0 0\n");
    assert_eq!(note(b"\\x5c"), "note \\x5cx5c\nend 0 0\n");
    let edges = [0x00, 0x0a, 0x1f, 0x20, 0x7e, 0x7f, 0x80, 0xab, 0xff];
    let expected = "note \\x00\\x0a\\x1f ~\\x7f\\x80\\xab\\xff\nend 0 0\n";
    assert_eq!(note(&edges), expected);
    for byte in 0..=255u8 {
        let plain = byte.is_ascii_graphic() && byte != b'\\' || byte == b' ';
        let text = note(&[byte]);
        let length = if plain { 1 } else { 4 };
        assert_eq!(text.len(), "note \nend 0 0\n".len() + length, "{byte}");
    }
}

#[test]
fn starts() {
    let body = [0, 0, 0, 0, 0, 16, 0, 0, 0, 5];
    let expected = "start 16.000000005\nend 0 0\n";
    assert_eq!(listed(&field(3, body.to_vec())), expected);
    let body = [255, 255, 255, 255, 255, 255, 0x3b, 0x9a, 0xc9, 0xff];
    let expected = "start 281474976710655.999999999\nend 0 0\n";
    assert_eq!(listed(&field(3, body.to_vec())), expected);
}

fn start(seconds: u64, nanos: u32) -> Vec<u8> {
    let body = [&seconds.to_be_bytes()[2..], &nanos.to_be_bytes()];
    field(3, body.concat())
}

/// The positions of all items, one behind the other.
fn positions(fields: &[Vec<u8>]) -> String {
    let text = listed(&fields.concat());
    let items = text.lines().filter(|line| line.starts_with("  "));
    let words: Vec<&str> = items.map(|line| line.split(' ').nth(3).unwrap()).collect();
    words.join(" ")
}

/// Three states, 0, 10 and 655,350 microseconds behind 16 s 999,999,000 ns.
fn three_states() -> Vec<u8> {
    let state = [0x81, 0, 0];
    let offsets = [[0, 0], [0, 1], [255, 255]];
    let items = offsets.map(|offset| [offset.as_slice(), &state].concat());
    frame_of(&items.concat())
}

#[test]
fn a_position_stands_behind_the_time() {
    let recording = [start(16, 999_999_000), three_states()].concat();
    let expected = "start 16.999999000\n\
         frame 9 16.999999000 15\n\
         \x20 16.999999000 0 CAN 0 - 00 - -\n\
         \x20 17.000009000 0 CAN 0 - 00 - -\n\
         \x20 17.655349000 31456 CAN 0 - 00 - -\n\
         end 0 0\n";
    assert_eq!(listed(&recording), expected);
}

#[test]
fn positions_before_and_behind_the_start() {
    let from = |seconds, nanos| positions(&[start(seconds, nanos), three_states()]);
    assert_eq!(from(16, 999_999_001), "-1 0 31456");
    assert_eq!(from(17, 9_000), "-1 0 31456");
    assert_eq!(from(17, 9_001), "-1 -1 31456");
    assert_eq!(from(17, 19_834), "-2 -1 31455");
    assert_eq!(from(17, 655_349_000), "-31457 -31457 0");
    assert_eq!(from(17, 655_349_001), "-31457 -31457 -1");
    assert_eq!(from(0, 0), "815999 816000 847456");
}

#[test]
fn no_position_beyond_24_hours() {
    let from = |seconds, nanos| positions(&[start(seconds, nanos), three_states()]);
    let day = 86_400;
    assert_eq!(
        from(16 + day, 999_999_000),
        "-4147200000 -4147200000 -4147168544"
    );
    assert_eq!(from(16 + day, 999_999_001), "- -4147200000 -4147168544");
    assert_eq!(from(17 + day, 9_001), "- - -4147168544");
    assert_eq!(from(17 + day, 655_349_001), "- - -");
    // In the last second, and past it.
    let mut late = three_states();
    late[5..11].fill(255);
    let from = |seconds, nanos| positions(&[start(seconds, nanos), late.clone()]);
    let before = 281_474_976_710_655 - day;
    assert_eq!(from(before, 999_999_000), "4147200000 - -");
    assert_eq!(from(before, 999_998_999), "- - -");
    assert_eq!(
        from(before + 1, 655_349_000),
        "4147168543 4147168543 4147200000"
    );
    assert_eq!(from(before + 1, 655_348_999), "4147168543 4147168543 -");
}

#[test]
fn the_latest_good_start_before_the_item_counts() {
    let states = three_states;
    let (here, later) = (start(16, 999_999_000), start(17, 655_349_000));
    let (of_here, of_later) = ("0 0 31456", "-31457 -31457 0");
    let told = positions(&[states(), here.clone(), later.clone(), states()]);
    assert_eq!(told, format!("- - - {of_later}"));
    let told = positions(&[here.clone(), states(), later, states(), here, states()]);
    assert_eq!(told, format!("{of_here} {of_later} {of_here}"));
    let far = [start(16, 999_999_000), start(1 << 40, 0), states()];
    assert_eq!(positions(&far), "- - -");
}

#[test]
fn a_refused_start_leaves_the_earlier_one_in_force() {
    let right = start(17, 9_000)[3..].to_vec();
    let refused = [
        field(3, right[..9].to_vec()),
        field(3, [right.as_slice(), &[0]].concat()),
        field(3, vec![]),
        field(3, right.repeat(200)),
        start(16, 1_000_009_000),
        start(16, u32::MAX),
    ];
    for wrong in refused {
        let fields = [start(16, 999_999_000), wrong.clone(), three_states()];
        assert_eq!(positions(&fields), "0 0 31456", "{wrong:?}");
        assert_eq!(positions(&[wrong, three_states()]), "- - -");
    }
    // Nor does any other field, nor a start that the end cuts short.
    let others = [
        field(2, right.clone()),
        field(4, right.clone()),
        field(1, right),
    ];
    let fields = [start(16, 999_999_000), others.concat(), three_states()];
    assert_eq!(positions(&fields), "0 0 31456");
    let cut = [
        start(16, 999_999_000),
        three_states(),
        start(1, 1)[..12].to_vec(),
    ];
    assert_eq!(positions(&cut), "0 0 31456");
}

#[test]
fn listing_goes_on_behind_a_refusal_and_behind_a_skipped_field() {
    let recording = [
        field(1, vec![]),
        field(1, vec![1; 1_473]),
        field(2, vec![b'n'; 1_473]),
        field(3, vec![0; 9]),
        field(3, vec![0; 1_473]),
        field(3, vec![255; 10]),
        field(0, vec![1, 0, 14]),
        field(4, vec![]),
        field(255, vec![0; 65_535]),
        field(2, b"on".to_vec()),
    ];
    let expected = "refused 1 20\n\
         refused 1 41\n\
         refused 2 41\n\
         refused 3 42\n\
         refused 3 42\n\
         refused 3 42\n\
         skipped 0 3\n\
         skipped 4 0\n\
         skipped 255 65535\n\
         note on\n\
         end 0 3\n";
    assert_eq!(listed(&recording.concat()), expected);
}

#[test]
fn a_field_that_the_end_cuts_short_gets_40_alone() {
    let before = field(9, vec![7]);
    for (tag, body) in [
        (1, vec![1; 1_473]),
        (1, vec![0; 14]),
        (2, vec![b'n'; 1_473]),
        (2, vec![b'n'; 3]),
        (3, vec![0; 11]),
        (3, vec![255; 10]),
        (4, vec![0; 1_473]),
        (255, vec![0]),
    ] {
        let last = field(tag, body);
        for there in [1, 2, 3, last.len() / 2, last.len() - 1] {
            let recording = [&before, &last[..there]].concat();
            let expected = "skipped 9 1\nend 40 1\n";
            assert_eq!(listed(&recording), expected, "{tag} {there}");
        }
    }
}

#[test]
fn the_count_of_skipped_fields_stops() {
    let mut listing = Listing {
        text: String::new(),
        skipped: u32::MAX - 1,
        start: None,
    };
    for _ in 0..3 {
        listing.add(&Found::Skipped { tag: 9, length: 0 });
    }
    let text = String::from_utf8(listing.end(40)).unwrap();
    let lines = "skipped 9 0\n".repeat(3);
    assert_eq!(text, lines + "end 40 4294967295\n");
}

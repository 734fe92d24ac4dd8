use super::*;
use crate::play::Player;

/// The counts of calls on an engine with FlexRay sources, all started: one without a filter, one whose
/// filter matches slot 0, one whose filter does not; then one of CAN, not started.
fn assert_counts(calls: &[&str], expected: &[(&str, usize)]) {
    let setup = "new\nsetup 38 1 1 3 0 3 1 3 2 1 5\nstart 0\nstart 1\nstart 2
flexray-filter 1 0 0 0 63 1\nflexray-filter 2 1 2047 0 63 1";
    let (mut player, mut errors) = (Player::default(), Errors::default());
    for (i, line) in setup.lines().chain(calls.iter().copied()).enumerate() {
        let before = player.engine().clone();
        let answer = player.line(i + 1, line.as_bytes()).unwrap();
        errors.look(line.as_bytes(), &answer, &before, player.engine());
    }
    let expected: BTreeMap<String, usize> = expected
        .iter()
        .map(|&(what, n)| (what.to_string(), n))
        .collect();
    assert_eq!(errors.counts, expected, "{calls:?}");
}

const FIRST: [(&str, usize); 6] = [
    ("after-start", 1),
    ("bits-10", 1),
    ("channels-3", 1),
    ("filters-none", 1),
    ("opens", 1),
    ("unknown", 1),
];

#[test]
fn how_an_error_comes() {
    assert_counts(&["flexray-error 0 16 0 3 10"], &FIRST);
    let calls = [
        "flexray-error 1 16 0 1 0",
        "flexray-error 1 16 0 1 0",
        "flexray-error 2 16 0 2 14",
        "flexray-error 2 16 0 2 14",
    ];
    let expected = [
        ("after-flexray-error", 2),
        ("after-start", 2),
        ("bits-0", 2),
        ("bits-14", 2),
        ("channels-1", 2),
        ("channels-2", 2),
        ("closes-full", 1),
        ("fills", 1),
        ("filters-match", 2),
        ("filters-miss", 2),
        ("joins", 2),
        ("known", 2),
        ("opens", 1),
        ("repeated", 2),
        ("repeated-none", 1),
        ("then-flexray-error", 2),
        ("unknown", 2),
        ("unshown", 1),
    ];
    assert_counts(&calls, &expected);
}

#[test]
fn how_its_bits_are_over() {
    let tick = [("tick-waits", 1), ("then-tick", 1)];
    let calls = ["flexray-error 0 16 0 3 10", "tick 16 0"];
    assert_counts(&calls, &[&FIRST[..], &tick].concat());
    let calls = [&calls[..], &["tick 16 0", "tick 16 0"]].concat();
    let told = [&FIRST[..], &tick, &[("tick-tells", 1)]].concat();
    assert_counts(&calls, &told);
    let calls = [&calls[..], &["tick 17 0"]].concat();
    assert_counts(&calls, &[&told[..], &[("due", 1)]].concat());
    let calls = [
        "flexray-error 2 16 0 3 10",
        "flexray 2 16 0 1 5 6 -",
        "tick 16 0",
        "tick 16 0",
    ];
    let expected = [
        ("after-start", 1),
        ("bits-10", 1),
        ("channels-3", 1),
        ("filters-miss", 1),
        ("frame-tells", 1),
        ("opens", 1),
        ("then-flexray", 1),
        ("unknown", 1),
    ];
    assert_counts(&calls, &expected);
    // An update says more than that they are over, and a start forgets them.
    for (call, then) in [
        ("flexray-state 0 1 32", "then-flexray-state"),
        ("start 0", "then-start"),
    ] {
        let calls = ["flexray-error 0 16 0 3 10", call, "tick 16 0", "tick 16 0"];
        assert_counts(&calls, &[&FIRST[..], &[(then, 1)]].concat());
    }
}

#[test]
fn what_becomes_of_the_frame() {
    let again = |call: &'static str, more: &[(&'static str, usize)]| {
        let calls = ["flexray-error 0 16 0 3 10", "tick 16 0", call];
        let common = [
            ("after-start", 1),
            ("after-tick", 1),
            ("bits-10", 2),
            ("channels-3", 2),
            ("filters-none", 2),
            ("known", 1),
            ("opens", 1),
            ("repeated", 1),
            ("then-tick", 1),
            ("tick-waits", 1),
            ("unknown", 1),
            ("unshown", 1),
        ];
        assert_counts(&calls, &[&common[..], more].concat());
    };
    again("flexray-error 0 16 655359999 3 10", &[("joins", 1)]);
    again("flexray-error 0 16 655360000 3 10", &[("closes-late", 1)]);
    let behind = [("behind", 1), ("closes-behind", 1)];
    again("flexray-error 0 15 0 3 10", &behind);
}

#[test]
fn losses_and_a_byte_too_many() {
    // 14 bytes of a header and 9 + 8 of a frame leave 7 of 38; the frame before it waits.
    let calls = [
        "flexray 2 15 0 1 5 6 -",
        "tick 15 1000000",
        "flexray 2 16 0 1 5 6 010203040506070809",
        "flexray-error 0 16 0 3 10",
        "take 38",
        "failed",
        "flexray-error 0 16 0 3 10",
    ];
    let expected = [
        ("after-flexray-error", 1),
        ("after-tick", 1),
        ("bits-10", 2),
        ("channels-3", 2),
        ("closes-for-a-byte", 1),
        ("closes-full", 1),
        ("discards", 1),
        ("filters-none", 2),
        ("joins", 1),
        ("known", 1),
        ("loss", 2),
        ("loss-own", 1),
        ("then-flexray-error", 1),
        ("unknown", 1),
        ("unshown", 1),
    ];
    assert_counts(&calls, &expected);
}

#[test]
fn what_is_refused() {
    let calls = [
        "flexray-error 4 16 1000000000 3 1",
        "flexray-error 3 16 0 0 10",
        "flexray-error 3 16 0 3 10",
        "flexray-error 0 16 0 3 11",
        "flexray-error 0 16 0 3 42",
        "flexray-error 0 16 0 3 266",
        "flexray-error 0 16 0 4 10",
        "flexray-error 0 16 0 257 10",
        "flexray-error 0 16 0 0 1",
    ];
    let expected = [
        ("2-and-5", 1),
        ("3-and-5", 1),
        ("4-and-3", 2),
        ("4-and-5", 1),
        ("5-bit-0", 1),
        ("5-bits-7-to-4", 1),
        ("5-bits-wide", 1),
        ("5-both", 1),
        ("5-channels", 2),
        ("5-channels-wide", 1),
        ("7-and-2", 1),
        ("7-and-5", 1),
    ];
    assert_counts(&calls, &expected);
}

#[test]
fn what_updates_may_not_give() {
    let calls = [
        "flexray-state 0 1 0",
        "flexray-state 0 1 48",
        "flexray-state 0 1 2",
        "flexray-state 0 1 62",
        "flexray-state 0 1 49",
        "flexray-state 0 1 3",
        "flexray-state 0 1 64",
        "flexray-state 0 1 66",
        "flexray-state 3 1 2",
        "flexray-state 4 1 2",
    ];
    let expected = [
        ("update-both", 1),
        ("update-conflict", 1),
        ("update-errors", 2),
        ("update-over", 1),
    ];
    assert_counts(&calls, &expected);
}

use super::*;
use crate::play::Player;

/// The counts of calls on an engine with a CAN and a FlexRay source and a queue for one frame, of
/// which the first was taken.
fn assert_counts(calls: &[&str], expected: &[(&str, usize)]) {
    let setup =
        "new\nsetup 41 1 1 1 5 3 7\nstart 0\ncan-mask 0 0 0\ncan 0 1 0 1 -\ntick 2 0\ntake 41";
    let (mut player, mut sends) = (Player::default(), Sends::default());
    for (i, line) in setup.lines().chain(calls.iter().copied()).enumerate() {
        let before = player.engine().clone();
        let answer = player.line(i + 1, line.as_bytes()).unwrap();
        sends.look(line.as_bytes(), &answer, &before, player.engine());
    }
    let expected = expected.iter().map(|&(what, n)| (what.to_string(), n));
    assert_eq!(sends.counts, expected.collect(), "{calls:?}");
}

#[test]
fn ways_of_being_refused() {
    let twice = [("empty", 1), ("kept-17", 1), ("17-twice", 1)];
    assert_counts(&["failed", "failed"], &twice);
    let calls = ["offline", "failed", "take 4", "failed"];
    let offline = [("17-offline", 2), ("17-offline-take", 1)];
    assert_counts(&calls, &offline);
    let calls = ["switch 32 1 9", "switch 31 1 1", "take 0", "failed"];
    assert_counts(&calls, &[("17-switch", 1), ("17-switch-take", 1)]);
    assert_counts(
        &["new", "failed", "failed 0"],
        &[("17-new", 1), ("17-before-setup", 1), ("bad", 1)],
    );
    let fresh = ["failed", "new", "failed", "setup 32 1 1 1 5", "failed"];
    let expected = [("empty", 1), ("dropped-new", 1)];
    let refused = [("17-before-setup", 1), ("17-no-take", 1)];
    assert_counts(&fresh, &[&expected[..], &refused].concat());
}

#[test]
fn ways_of_being_accepted() {
    let calls = ["can 0 3 0 1 -", "tick 4 0", "take 4", "failed"];
    let after = [("after-can", 1), ("after-tick", 1), ("after-12", 1)];
    let expected = [&after[..], &[("empty", 1), ("queue-full", 1)]].concat();
    assert_counts(&calls, &expected);
    let calls = ["can 0 3 0 1 -", "tick 4 0", "take 41", "failed", "failed"];
    let expected = [("empty", 1), ("after-take", 1), ("kept-17", 1)];
    let refused = [("17-twice", 1), ("17-twice-of-several", 1)];
    assert_counts(&calls, &[&expected[..], &refused].concat());
}

#[test]
fn what_tells_the_loss() {
    let calls = [
        "can 0 3 0 1 -",
        "failed",
        "tick 3 1",
        "can 0 3 1 1 0102030405060708",
    ];
    let expected = [
        ("after-can", 1),
        ("filling", 1),
        ("grown-fits", 1),
        ("kept-tick", 1),
        ("told-between", 1),
        ("told-can", 1),
        ("told-unknown", 1),
    ];
    assert_counts(&calls, &expected);
    let calls = [
        "failed",
        "can-state 0 1 0 0 0",
        "tick 3 1",
        "failures",
        "offline",
        "failures",
    ];
    let expected = [
        ("empty", 1),
        ("kept-can-state", 1),
        ("told-state", 1),
        ("told-known", 1),
        ("count-over-0", 1),
        ("count-0-offline", 1),
    ];
    assert_counts(&calls, &expected);
}

#[test]
fn losses_of_both_kinds() {
    let fill = ["can 0 3 0 1 -", "tick 4 0", "can 0 4 0 1 -"];
    let before = [&fill[..], &["tick 5 0", "failed"]].concat();
    let common = [("after-can", 1), ("after-tick", 1), ("queue-full", 1)];
    let expected = [&common[..], &[("empty", 1), ("discard-pending", 1)]].concat();
    assert_counts(&before, &expected);
    let behind = [&fill[..], &["failed", "tick 5 0"]].concat();
    let then = [("filling", 1), ("then-discard-tick", 1), ("kept-tick", 1)];
    assert_counts(&behind, &[&common[..], &then].concat());
    let report = [&fill[..], &["failed", "can 0 4 0 1 010203040506070809"]].concat();
    let then = [("filling", 1), ("kept-6", 1)];
    assert_counts(&report, &[&common[..], &then].concat());
    let report = [&fill[..], &["failed", "can 0 3 0 1 -"]].concat();
    let then = [
        ("filling", 1),
        ("then-discard-report", 1),
        ("told-behind", 1),
        ("told-can", 1),
        ("told-opening", 1),
        ("told-unknown", 1),
    ];
    assert_counts(&report, &[&common[..], &then].concat());
}

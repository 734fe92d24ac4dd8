use super::*;
use crate::recording::judge;
use crate::recording_maker::field;

fn at(seconds: u64, nanos: u32) -> Time {
    Time { seconds, nanos }
}

fn start(time: Time) -> Vec<u8> {
    let seconds = time.seconds.to_be_bytes();
    field(3, [&seconds[2..], &time.nanos.to_be_bytes()].concat())
}

/// States at this time and so many ticks behind it.
fn frame(time: Time, offsets: &[u8]) -> Vec<u8> {
    let mut body = vec![1, 0];
    body.extend(&start(time)[3..]);
    body.extend([0, 5 * offsets.len() as u8]);
    body.extend(offsets.iter().flat_map(|&offset| [0, offset, 0x81, 0, 0]));
    field(1, body)
}

fn ways(fields: &[Vec<u8>]) -> String {
    let mut positions = Positions::default();
    let mut all = Ways::new();
    for field in fields {
        let field = Field {
            tag: field[0],
            body: &field[3..],
        };
        all.extend(positions.look_at(field, &judge(field)));
    }
    all.join(" ")
}

#[test]
fn items_without_a_start() {
    let item = frame(at(16, 0), &[0]);
    assert_eq!(ways(&[item.clone()]), "dash-before");
    let refused = start(at(16, 1_000_000_000));
    assert_eq!(ways(&[refused, item]), "dash-before dash-refused");
}

/// The ways of one item.
fn of(from: Time, time: Time) -> String {
    ways(&[start(from), frame(time, &[0])])
}

#[test]
fn items_near_the_start() {
    assert_eq!(of(at(16, 5), at(16, 5)), "at-0 0 first-nanosecond");
    let expected = "at--1 minus-1 negative last-nanosecond-before \
         toward-zero-differs nearest-differs";
    assert_eq!(of(at(16, 125_000), at(16, 124_999)), expected);
    let expected = "at-20833 0 last-nanosecond nearest-differs";
    assert_eq!(of(at(16, 0), at(16, 20_833)), expected);
    let expected = "at-20834 positive first-nanosecond";
    assert_eq!(of(at(16, 0), at(16, 20_834)), expected);
    let expected = "positive nearest-differs apart-differs";
    assert_eq!(of(at(16, 20_800), at(16, 62_400)), expected);
}

#[test]
fn items_in_other_seconds() {
    let ends = |told: String, way: &str| assert!(told.ends_with(way), "{told}");
    ends(of(at(15, 999_999_999), at(16, 0)), " borrow apart-differs");
    ends(of(at(15, 0), at(16, 0)), " no-borrow");
    ends(of(at(16, 0), at(15, 999_999_999)), " borrow-before");
    ends(of(at(16, 0), at(15, 0)), " no-borrow-before");
    ends(of(at(0, 0), at(0, 7)), " second-0");
    let last = at(LAST_SECOND, 999_999_999);
    let told = ways(&[start(last), frame(last, &[1])]);
    assert!(told.contains(" last-second past-last-second"), "{told}");
}

#[test]
fn items_far_from_the_start() {
    let day = 86_400;
    let has = |told: String, way: &str| assert!(told.split(' ').any(|one| one == way), "{told}");
    has(of(at(0, 0), at(day, 0)), "24h");
    has(of(at(0, 0), at(day, 0)), "wide");
    has(of(at(0, 0), at(day, 0)), "second-0");
    has(of(at(0, 1), at(day, 0)), "24h-less-1");
    has(of(at(day, 0), at(0, 0)), "24h-before");
    has(of(at(day, 0), at(0, 1)), "24h-less-1-before");
    assert_eq!(of(at(0, 0), at(day, 1)), "61 61-after 61-by-1");
    assert_eq!(of(at(day, 1), at(0, 0)), "61 61-before 61-by-1-before");
    let expected = "61 61-after 61-far 61-wraps-seconds";
    assert_eq!(of(at(16, 0), at(16 + (1 << 32), 7)), expected);
    let expected = "61 61-before 61-far-before 61-wraps-nanos";
    assert_eq!(of(at(18_446_744_073, 709_551_616), at(0, 0)), expected);
}

#[test]
fn frames_on_both_sides() {
    let item = |offsets: &[u8]| frame(at(16, 0), offsets);
    let told = ways(&[start(at(16, 40_000)), item(&[0, 4, 9])]);
    assert!(told.ends_with(" turns"), "{told}");
    let told = ways(&[start(at(16, 40_000)), item(&[9, 4, 0])]);
    assert!(!told.contains("turns"), "{told}");
    let told = ways(&[start(at(86_416, 40_000)), item(&[0, 4, 9])]);
    assert!(told.ends_with(" 61-within"), "{told}");
}

#[test]
fn other_starts_before_the_item() {
    let item = || frame(at(16, 0), &[0]);
    let good = |nanos| start(at(15, nanos));
    let told = ways(&[good(7), item()]);
    assert!(!told.contains("latest") && !told.contains("kept"), "{told}");
    let told = ways(&[good(7), good(900_000), item()]);
    assert!(told.ends_with(" latest latest-but-one"), "{told}");
    let told = ways(&[good(7), good(8), item()]);
    assert!(!told.contains("latest"), "{told}");
    let told = ways(&[good(7), start(at(13, 1_500_000_000)), item()]);
    assert!(told.ends_with(" kept kept-nanos"), "{told}");
    let told = ways(&[good(7), field(3, vec![0; 11]), item()]);
    assert!(told.ends_with(" kept kept-length"), "{told}");
    let told = ways(&[good(7), field(3, vec![0; 9]), item()]);
    assert!(told.ends_with(" kept kept-short"), "{told}");
    let told = ways(&[good(7), field(3, vec![0; 1_473]), item()]);
    assert!(told.ends_with(" kept kept-over-1472"), "{told}");
    let told = ways(&[good(7), field(3, vec![0; 9]), good(7), item()]);
    assert!(!told.contains("kept"), "{told}");
}

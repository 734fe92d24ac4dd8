use super::*;
use crate::filter::Range;
use crate::frame::LAST_SECOND;
use crate::pid;
use crate::state;

#[path = "clock_tests.rs"]
mod clock;
#[path = "error_tests.rs"]
mod error;
#[path = "failed_tests.rs"]
mod failed;

const CAN: (u32, u32) = (1, 5);
const LIN: (u32, u32) = (2, 6);
const FLEXRAY: (u32, u32) = (3, 7);
const EIGHT: [u8; 8] = [1, 2, 3, 4, 5, 6, 7, 8];

fn at(seconds: u64, nanos: u32) -> Time {
    Time { seconds, nanos }
}

/// Some nanoseconds after second 16.
fn after(nanos: u32) -> Time {
    at(16, nanos)
}

fn limits(size: u64, room: u64, deadline: u64) -> Limits {
    Limits {
        size,
        room,
        deadline,
    }
}

fn match_all(kind: Kind) -> Filter {
    let to = |upper| Range { lower: 0, upper };
    match kind {
        Kind::Can => Filter::CanRange(to(u32::MAX)),
        Kind::Lin => Filter::LinRange(to(63)),
        Kind::FlexRay => Filter::FlexRay {
            slots: to(2_047),
            cycles: to(63),
            repetition: 64,
        },
    }
}

/// Every source started, with a filter that matches all.
fn running(limits: Limits, networks: &[(u32, u32)]) -> Engine {
    let mut engine = Engine::default();
    engine.setup(limits, networks).unwrap();
    for i in 0..networks.len() {
        let filter = match_all(engine.sources[i].kind);
        engine.start(i as u64).unwrap();
        assert_eq!(engine.add_filter(i as u64, filter), Ok(0));
    }
    engine
}

fn can(engine: &mut Engine, time: Time, key: u32, payload: &[u8]) -> Result<u32, u8> {
    engine.report(0, time, &Report::can(key, payload))
}

fn lin(engine: &mut Engine, errors: u32) {
    let report = Report::lin(0x7d, errors, &[]);
    engine.report(0, after(0), &report).unwrap();
}

fn can_online(engine: &mut Engine, counter: u32) {
    let byte = state::of_can(true, false, false, counter);
    engine.update(0, Kind::Can, byte).unwrap();
}

fn take(engine: &mut Engine) -> Vec<u8> {
    let mut output = [0; 1_024];
    let length = engine.take(&mut output).unwrap();
    output[..length].to_vec()
}

/// The items of the frame being filled.
fn items(engine: &Engine) -> &[u8] {
    &engine.framer.filling()[14..]
}

#[test]
fn p1_the_worked_example() {
    let mut engine = running(limits(64, 1, 1), &[CAN]);
    can(&mut engine, after(0), 0x123, &[1, 2]).unwrap();
    can_online(&mut engine, 0);
    can(&mut engine, after(20_833), 0xc1ab_cdef, &[0xaa]).unwrap();
    engine.tick(after(999_999)).unwrap();
    assert_eq!(engine.take(&mut [0; 64]), Err(13));
    engine.tick(after(1_000_000)).unwrap();
    let expected = [
        0x01, 0x00, 0x00, 0x00, 0x00, 0x00, 0x00, 0x10, 0x00, 0x00, 0x00, 0x00, 0x00, 0x16, //
        0x00, 0x00, 0x61, 0x05, 0x00, 0x00, 0x01, 0x23, 0x02, 0x01, 0x02, //
        0x00, 0x02, 0xe1, 0x05, 0x40, 0xc1, 0xab, 0xcd, 0xef, 0x01, 0xaa,
    ];
    assert_eq!(take(&mut engine), expected);
}

/// The offset of a second report in the same frame, or nothing where it started a new one.
fn offset(first: Time, second: Time) -> Option<u16> {
    let mut engine = running(limits(64, 1, 0), &[CAN]);
    can(&mut engine, first, 1, &[]).unwrap();
    can(&mut engine, second, 2, &[]).unwrap();
    let item = items(&engine).chunks(9).last().unwrap();
    let offset = u16::from_be_bytes([item[0], item[1]]);
    if engine.framer.oldest_waiting().is_some() {
        assert_eq!(offset, 0);
        return None;
    }
    Some(offset)
}

#[test]
fn p2_to_p5_offsets() {
    assert_eq!(offset(after(0), after(9_999)), Some(0));
    assert_eq!(offset(after(0), after(10_000)), Some(1));
    assert_eq!(offset(after(0), after(655_359_999)), Some(65_535));
    assert_eq!(offset(after(0), after(655_360_000)), None);
    assert_eq!(offset(at(9, 999_999_000), at(10, 9_000)), Some(1));
    assert_eq!(offset(after(1), after(0)), None);
    assert_eq!(offset(at(17, 0), after(999_999_999)), None);
}

#[test]
fn p6_what_fits_the_smallest_frame() {
    let mut engine = running(limits(32, 1, 0), &[CAN]);
    assert_eq!(can(&mut engine, after(0), 1, &EIGHT), Ok(0));
    let nine = [EIGHT.as_slice(), &[9]].concat();
    assert_eq!(can(&mut engine, after(0), 0x4000_0001, &nine), Err(8));
}

#[test]
fn p7_both_channels() {
    let mut engine = running(limits(32, 1, 0), &[FLEXRAY]);
    let report = Report::flexray(3, 1_027, 63, &[]);
    engine.report(0, after(0), &report).unwrap();
    assert_eq!(items(&engine)[4..7], [0xcc, 0x03, 0x3f]);
}

#[test]
fn p8_lin_key_and_counters() {
    let mut engine = Engine::default();
    engine.setup(limits(64, 1, 0), &[LIN]).unwrap();
    engine.start(0).unwrap();
    let only_61 = Range {
        lower: 61,
        upper: 61,
    };
    engine.add_filter(0, Filter::LinRange(only_61)).unwrap();
    lin(&mut engine, 0);
    assert_eq!(items(&engine)[..6], [0, 0, 0xe2, 6, 0, 0x7d]);
    let other = Report::lin(0xfe, 0, &[]);
    assert_eq!(engine.report(0, after(0), &other), Err(1));
    for (counter, low) in [(127, 15), (128, 15), (255, 15), (7, 0)] {
        let mut engine = running(limits(64, 1, 0), &[CAN]);
        can_online(&mut engine, counter);
        engine.tick(after(0)).unwrap();
        assert_eq!(items(&engine), [0, 0, 0x81, 5, 0x40 | low]);
    }
}

#[test]
fn p9_the_closing_frame_is_discarded_and_the_next_item_tells() {
    let mut engine = running(limits(32, 1, 0), &[CAN]);
    for second in 1..=3 {
        can(&mut engine, at(second, 0), second as u32, &EIGHT).unwrap();
    }
    assert_eq!(engine.discards(), 1);
    assert_eq!(items(&engine)[2..9], [0xe1, 5, 0x80, 0, 0, 0, 3]);
    assert_eq!(take(&mut engine)[1], 0);
    can(&mut engine, at(4, 0), 4, &EIGHT).unwrap();
    assert_eq!(items(&engine)[2..8], [0x61, 5, 0, 0, 0, 4]);
    assert_eq!(take(&mut engine)[1], 2);
}

#[test]
fn run_ids_and_slots() {
    let mut engine = running(limits(64, 1, 0), &[CAN]);
    assert_eq!(can(&mut engine, after(0), 2_047, &[]), Ok(0));
    assert_eq!(can(&mut engine, after(0), 2_048, &[]), Err(5));
    assert_eq!(can(&mut engine, after(0), 0x4000_0800, &[]), Err(5));
    assert_eq!(can(&mut engine, after(0), 0x8000_0800, &[]), Ok(0));
    assert_eq!(can(&mut engine, after(0), 0xa000_0000, &[]), Err(5));
    let mut engine = running(limits(64, 1, 0), &[FLEXRAY]);
    for (slot, expected) in [(0, Err(5)), (1, Ok(0)), (2_047, Ok(0)), (2_048, Err(5))] {
        let frame = Report::flexray(1, slot, 0, &[]);
        assert_eq!(engine.report(0, after(0), &frame), expected);
        let conflict = Report::conflict(2, slot, 0);
        assert_eq!(engine.report(0, after(0), &conflict), expected);
    }
}

#[test]
fn run_the_sequence_number_wraps() {
    let mut engine = running(limits(32, 1, 0), &[CAN]);
    for i in 0..=257 {
        can(&mut engine, at(i, 0), 1, &EIGHT).unwrap();
        if i > 0 {
            assert_eq!(u64::from(take(&mut engine)[1]), (i - 1) % 256);
        }
    }
}

#[test]
fn run_the_last_second() {
    let mut engine = running(limits(32, 2, 1), &[CAN]);
    let last = at(LAST_SECOND, 999_999_999);
    can(&mut engine, last, 1, &[]).unwrap();
    assert_eq!(can(&mut engine, at(LAST_SECOND + 1, 0), 1, &[]), Err(7));
    assert_eq!(engine.tick(at(LAST_SECOND, 1_000_000_000)), Err(7));
    engine.tick(last).unwrap();
    assert_eq!(engine.take(&mut [0; 32]), Err(13));
    can(&mut engine, at(LAST_SECOND, 0), 1, &[]).unwrap();
    let expected = [0xff, 0xff, 0xff, 0xff, 0xff, 0xff, 0x3b, 0x9a, 0xc9, 0xff];
    assert_eq!(take(&mut engine)[2..12], expected);
}

#[test]
fn run_an_empty_payload() {
    let mut engine = running(limits(64, 1, 0), &[CAN]);
    can(&mut engine, after(0), 0x123, &[]).unwrap();
    assert_eq!(items(&engine), [0, 0, 0x61, 5, 0, 0, 1, 0x23, 0]);
}

#[test]
fn before_setup_there_are_no_sources() {
    let mut engine = Engine::default();
    let report = Report::can(1, &[]);
    assert_eq!(engine.report(0, after(1_000_000_000), &report), Err(7));
    assert_eq!(engine.report(0, after(0), &report), Err(2));
    assert_eq!(engine.update(0, Kind::Can, None), Err(2));
    assert_eq!(engine.start(0), Err(2));
    assert_eq!(engine.stop(0), Err(2));
    assert_eq!(engine.add_filter(0, match_all(Kind::Lin)), Err(2));
    assert_eq!(engine.remove_filter(0, 0), Err(2));
    assert_eq!(engine.switch(limits(64, 1, 0)), Err(14));
    assert_eq!(engine.tick(after(0)), Ok(0));
    engine.offline();
    assert_eq!(engine.take(&mut []), Err(13));
    assert_eq!(engine.failed(), Err(17));
    assert_eq!((engine.discards(), engine.failures()), (0, 0));
    assert_eq!(engine, Engine::default());
}

#[test]
fn what_setup_refuses() {
    let refused = |limits, networks: &[(u32, u32)]| {
        let mut engine = Engine::default();
        assert_eq!(engine.setup(limits, networks), Err(14), "{networks:?}");
        assert_eq!(engine, Engine::default());
    };
    let good = limits(32, 8, 655);
    for (size, room, deadline) in [
        (31, 1, 0),
        (1_025, 1, 0),
        (32, 0, 0),
        (32, 9, 0),
        (32, 1, 656),
    ] {
        refused(limits(size, room, deadline), &[CAN]);
    }
    refused(good, &[]);
    refused(good, &[(0, 1)]);
    refused(good, &[(4, 1)]);
    refused(good, &[(1, 256)]);
    refused(good, &[CAN, LIN, CAN]);
    let nine: Vec<(u32, u32)> = (0..9).map(|id| (1, id)).collect();
    refused(good, &nine);
    let mut engine = Engine::default();
    assert_eq!(engine.setup(good, &nine[..8]), Ok(()));
    assert_eq!(engine.setup(good, &nine[..8]), Err(14));
    engine.offline();
    assert_eq!(engine.setup(good, &[LIN]), Err(14));
}

#[test]
fn the_order_of_a_reports_causes() {
    let mut engine = Engine::default();
    engine.setup(limits(32, 1, 0), &[CAN, LIN]).unwrap();
    let long = [0; 65];
    let (good, bad) = (after(0), after(1_000_000_000));
    let wrong = Report::can(0x2000_0000, &long);
    let short = Report::can(0x4000_0001, &long[..64]);
    assert_eq!(engine.report(2, bad, &wrong), Err(7));
    assert_eq!(engine.report(2, good, &wrong), Err(2));
    assert_eq!(engine.report(1, good, &wrong), Err(4));
    assert_eq!(engine.report(0, good, &wrong), Err(3));
    engine.start(0).unwrap();
    assert_eq!(engine.report(0, good, &wrong), Err(5));
    let long = Report::can(0x4000_0001, &long);
    assert_eq!(engine.report(0, good, &long), Err(6));
    assert_eq!(engine.report(0, good, &short), Err(1));
    engine.add_filter(0, match_all(Kind::Can)).unwrap();
    assert_eq!(engine.report(0, good, &short), Err(8));
}

#[test]
fn wrong_parity_has_the_place_of_answer_5() {
    let mut engine = Engine::default();
    engine.setup(limits(32, 1, 0), &[CAN, LIN]).unwrap();
    let nine = [0; 9];
    let (good, bad) = (after(0), after(1_000_000_000));
    let wrong = Report::lin(0x3d, 0, &nine);
    assert_eq!(engine.report(2, bad, &wrong), Err(7));
    assert_eq!(engine.report(2, good, &wrong), Err(2));
    assert_eq!(engine.report(0, good, &wrong), Err(4));
    assert_eq!(engine.report(1, good, &wrong), Err(3));
    engine.start(1).unwrap();
    assert_eq!(engine.report(1, good, &wrong), Err(5));
    assert_eq!(engine.report(1, good, &Report::lin(0x7d, 0, &nine)), Err(6));
    let (wrong, right) = (Report::lin(0x3d, 0, &[]), Report::lin(0x7d, 0, &[]));
    assert_eq!(engine.report(1, good, &wrong), Err(5));
    assert_eq!(engine.report(1, good, &right), Err(1));
    engine.add_filter(1, match_all(Kind::Lin)).unwrap();
    let before = engine.clone();
    assert_eq!(engine.report(1, good, &wrong), Err(5));
    assert_eq!(engine, before);
    assert_eq!(engine.report(1, good, &right), Ok(0));
}

#[test]
fn of_all_pids_the_right_ones_enter() {
    let mut engine = running(limits(1_024, 1, 0), &[LIN]);
    let mut entered = Vec::new();
    for pid in 0..=255 {
        let report = Report::lin(pid, 0, &[]);
        match engine.report(0, after(0), &report) {
            Ok(_) => entered.push(pid as u8),
            Err(cause) => assert_eq!(cause, 5, "{pid:#x}"),
        }
    }
    let right: Vec<u8> = (0..=255).filter(|&pid| pid::is_right(pid)).collect();
    assert_eq!(entered, right);
}

#[test]
fn a_pid_is_not_cut_to_a_byte() {
    let mut engine = running(limits(64, 1, 0), &[LIN]);
    for pid in [
        0xff,
        0x100,
        0x180,
        0x1c1,
        0x1fe,
        0x1_0080,
        0xffff_ff80,
        u32::MAX,
    ] {
        let report = Report::lin(pid, 0, &[]);
        assert_eq!(engine.report(0, after(0), &report), Err(5), "{pid:#x}");
    }
    for errors in [16, 256, u32::MAX] {
        let report = Report::lin(0x80, errors, &[]);
        assert_eq!(engine.report(0, after(0), &report), Err(5), "{errors}");
    }
}

#[test]
fn the_order_of_the_other_causes() {
    let mut engine = Engine::default();
    engine.setup(limits(32, 1, 0), &[CAN, LIN]).unwrap();
    assert_eq!(engine.update(2, Kind::Can, None), Err(2));
    assert_eq!(engine.update(1, Kind::Can, None), Err(4));
    assert_eq!(engine.update(0, Kind::Can, None), Err(3));
    engine.start(0).unwrap();
    assert_eq!(engine.update(0, Kind::Can, None), Err(5));
    let falling = Filter::CanRange(Range { lower: 1, upper: 0 });
    for place in 0..8 {
        assert_eq!(engine.add_filter(0, match_all(Kind::Can)), Ok(place));
    }
    assert_eq!(engine.add_filter(2, falling), Err(2));
    assert_eq!(engine.add_filter(1, falling), Err(4));
    assert_eq!(engine.add_filter(0, falling), Err(9));
    assert_eq!(engine.add_filter(0, match_all(Kind::Can)), Err(10));
    assert_eq!(engine.remove_filter(2, 8), Err(2));
    assert_eq!(engine.remove_filter(0, 8), Err(11));
    for number in [5, 2, 6] {
        assert_eq!(engine.remove_filter(0, number), Ok(()));
        assert_eq!(engine.remove_filter(0, number), Err(11));
    }
    for place in [2, 5, 6] {
        assert_eq!(engine.add_filter(0, match_all(Kind::Can)), Ok(place));
    }
}

#[test]
fn a_loss_of_an_unknown_state_does_not_count_as_shown() {
    let mut engine = running(limits(32, 1, 0), &[CAN]);
    for second in 1..=3 {
        can(&mut engine, at(second, 0), 1, &EIGHT).unwrap();
    }
    assert_eq!(items(&engine)[4], 0x80);
    let zero = state::of_can(false, false, false, 0);
    engine.update(0, Kind::Can, zero).unwrap();
    engine.tick(at(3, 0)).unwrap();
    assert_eq!(take(&mut engine)[1], 0);
    engine.tick(at(3, 0)).unwrap();
    assert_eq!(items(&engine), [0, 0, 0x81, 5, 0]);
    assert_eq!(engine.discards(), 1);
}

#[test]
fn a_closing_makes_the_state_show_and_the_item_longer() {
    let mut engine = running(limits(32, 1, 0), &[CAN]);
    can_online(&mut engine, 0);
    can(&mut engine, at(1, 0), 1, &EIGHT).unwrap();
    can(&mut engine, at(2, 0), 1, &EIGHT).unwrap();
    assert_eq!(items(&engine).len(), 17);
    can(&mut engine, at(3, 0), 1, &EIGHT).unwrap();
    assert_eq!(items(&engine).len(), 18);
    assert_eq!(items(&engine)[4], 0xc0);
    take(&mut engine);
    can(&mut engine, at(4, 0), 1, &EIGHT).unwrap();
    assert_eq!(items(&engine).len(), 17);
}

#[test]
fn lin_errors_show_each_time_and_clear() {
    let mut engine = running(limits(1_024, 1, 0), &[LIN]);
    for errors in [9, 9, 0, 0, 6] {
        lin(&mut engine, errors);
    }
    // State, id, payload length and payload of each item.
    let expected: [&[u8]; 5] = [
        &[0, 0, 0xe2, 6, 9, 0x7d, 0],
        &[0, 0, 0xe2, 6, 9, 0x7d, 0],
        &[0, 0, 0xe2, 6, 0, 0x7d, 0],
        &[0, 0, 0x62, 6, 0x7d, 0],
        &[0, 0, 0xe2, 6, 6, 0x7d, 0],
    ];
    assert_eq!(items(&engine), expected.concat());
    // The last error is over, which the tick after a silence tells.
    engine.tick(after(0)).unwrap();
    assert_eq!(items(&engine).len(), expected.concat().len());
    engine.tick(after(0)).unwrap();
    assert_eq!(items(&engine)[34..], [0, 0, 0x82, 6, 0]);
    engine.tick(after(0)).unwrap();
    assert_eq!(items(&engine).len(), 39);
}

#[test]
fn a_conflict_always_shows_its_state() {
    let mut engine = running(limits(1_024, 1, 0), &[FLEXRAY]);
    let byte = state::of_flexray(true, 0x20);
    engine.update(0, Kind::FlexRay, byte).unwrap();
    for _ in 0..2 {
        let conflict = Report::conflict(1, 1, 2);
        engine.report(0, after(0), &conflict).unwrap();
    }
    let frame = Report::flexray(2, 1, 2, &[]);
    engine.report(0, after(0), &frame).unwrap();
    let expected: [&[u8]; 3] = [
        &[0, 0, 0xc3, 7, 0x61, 0x48, 1, 2],
        &[0, 0, 0xc3, 7, 0x61, 0x48, 1, 2],
        &[0, 0, 0xe3, 7, 0x60, 0x88, 1, 2, 0],
    ];
    assert_eq!(items(&engine), expected.concat());
}

#[test]
fn starting_forgets_the_state_and_nothing_else() {
    let mut engine = running(limits(64, 1, 0), &[CAN]);
    can_online(&mut engine, 0);
    can(&mut engine, after(0), 1, &[]).unwrap();
    engine.start(0).unwrap();
    can(&mut engine, after(0), 1, &[]).unwrap();
    assert_eq!(items(&engine)[10..12], [0, 0]);
    assert_eq!(items(&engine)[12], 0x61);
    can_online(&mut engine, 0);
    engine.start(0).unwrap();
    can_online(&mut engine, 0);
    // The report before the start still counts as one since the last tick.
    engine.tick(after(0)).unwrap();
    assert_eq!(items(&engine).len(), 19);
    engine.tick(after(0)).unwrap();
    assert_eq!(items(&engine)[19..], [0, 0, 0x81, 5, 0x40]);
}

#[test]
fn a_stopped_source_keeps_its_state_and_is_silent() {
    let mut engine = running(limits(64, 1, 0), &[CAN]);
    can_online(&mut engine, 0);
    engine.stop(0).unwrap();
    engine.tick(after(0)).unwrap();
    assert!(engine.framer.filling().is_empty());
    assert_eq!(can(&mut engine, after(0), 1, &[]), Err(3));
    assert_eq!(engine.update(0, Kind::Can, Some(0)), Err(3));
    assert_eq!(engine.sources[0].state.byte(), 0x40);
}

#[test]
fn a_tick_tells_the_states_in_the_order_of_the_sources() {
    let mut engine = running(limits(64, 1, 0), &[LIN, CAN, FLEXRAY]);
    engine.update(2, Kind::FlexRay, Some(0x70)).unwrap();
    engine.update(0, Kind::Lin, Some(0x40)).unwrap();
    engine.tick(after(0)).unwrap();
    let expected = [0, 0, 0x82, 6, 0x40, 0, 0, 0x83, 7, 0x70];
    assert_eq!(items(&engine), expected);
}

#[test]
fn a_refused_tick_clears_nothing() {
    let mut engine = running(limits(64, 1, 1), &[CAN]);
    can(&mut engine, after(0), 1, &[]).unwrap();
    can_online(&mut engine, 0);
    let before = engine.clone();
    assert_eq!(engine.tick(at(LAST_SECOND + 1, 0)), Err(7));
    assert_eq!(engine, before);
    engine.tick(after(0)).unwrap();
    assert_eq!(items(&engine).len(), 9);
}

#[test]
fn a_deadline_closes_at_its_very_nanosecond_and_not_before_the_header() {
    for deadline in [1, 2, 655] {
        let mut engine = running(limits(64, 1, deadline), &[CAN]);
        can(&mut engine, after(5), 1, &[]).unwrap();
        engine.tick(after(0)).unwrap();
        engine.tick(after(4 + deadline as u32 * 1_000_000)).unwrap();
        assert_eq!(engine.take(&mut [0; 64]), Err(13));
        engine.tick(after(5 + deadline as u32 * 1_000_000)).unwrap();
        assert_eq!(take(&mut engine).len(), 23);
    }
    let mut engine = running(limits(64, 1, 0), &[CAN]);
    can(&mut engine, after(5), 1, &[]).unwrap();
    engine.tick(at(LAST_SECOND, 0)).unwrap();
    assert_eq!(engine.take(&mut [0; 64]), Err(13));
}

#[test]
fn take_copies_to_the_front() {
    let mut engine = running(limits(32, 2, 1), &[CAN]);
    can(&mut engine, after(0), 1, &[]).unwrap();
    engine.tick(at(17, 0)).unwrap();
    let mut output = [0xee; 25];
    assert_eq!(engine.take(&mut output[..22]), Err(12));
    assert_eq!(output, [0xee; 25]);
    assert_eq!(engine.take(&mut output), Ok(23));
    assert_eq!(output[22..], [0, 0xee, 0xee]);
    assert_eq!(engine.take(&mut []), Err(13));
}

#[test]
fn offline_and_switch_begin_again() {
    let begun = |engine: &mut Engine| {
        for second in 1..=4 {
            can(engine, at(second, 0), 1, &EIGHT).unwrap();
        }
        can_online(engine, 0);
    };
    let fresh = |limits| {
        let mut engine = Engine::default();
        engine.setup(limits, &[CAN]).unwrap();
        engine
    };
    let mut engine = running(limits(32, 1, 0), &[CAN]);
    begun(&mut engine);
    let before = engine.clone();
    assert_eq!(engine.switch(limits(32, 1, 656)), Err(14));
    assert_eq!(engine, before);
    engine.offline();
    assert_eq!(engine.framer, Framer::new(limits(32, 1, 0)));
    assert_eq!(engine.sources, fresh(limits(32, 1, 0)).sources);
    let mut engine = before;
    assert_eq!(engine.switch(limits(64, 8, 655)), Ok(()));
    assert_eq!(engine, fresh(limits(64, 8, 655)));
}

#[test]
fn without_a_filter_nothing_passes() {
    let mut engine = Engine::default();
    engine.setup(limits(32, 1, 0), &[CAN]).unwrap();
    engine.start(0).unwrap();
    assert_eq!(can(&mut engine, after(0), 1, &[]), Err(1));
    assert!(!engine.sources[0].passes(Id::Can(1)));
}

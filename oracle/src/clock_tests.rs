//! A clock that steps back: what reports and ticks tell of it.

use super::*;

const ALL: [(u32, u32); 3] = [CAN, LIN, FLEXRAY];
const LAST: Time = Time {
    seconds: LAST_SECOND,
    nanos: 999_999_999,
};
const FOUR_MILLIS: u32 = 4_000_000;

fn every_report() -> [(u64, Report<'static>); 5] {
    [
        (0, Report::can(1, &EIGHT)),
        (1, Report::lin(0x7d, 0, &EIGHT)),
        (2, Report::flexray(1, 5, 6, &EIGHT)),
        (2, Report::conflict(3, 1_027, 63)),
        (2, Report::flexray_error(2, 10)),
    ]
}

/// An engine whose frame being filled has this header time.
fn filling_since(limits: Limits, header: Time) -> Engine {
    let mut engine = running(limits, &ALL);
    assert_eq!(can(&mut engine, header, 1, &[]), Ok(0));
    engine
}

/// Each report, and a tick, tells the same of an engine that was left like this.
fn assert_told(engine: &Engine, now: Time, behind: u32) {
    for (source, report) in every_report() {
        let told = engine.clone().report(source, now, &report);
        assert_eq!(told, Ok(behind), "source {source}, {now:?}");
    }
    assert_eq!(engine.clone().tick(now), Ok(behind), "tick, {now:?}");
}

fn start_all(engine: &mut Engine) {
    for number in 0..engine.sources.len() {
        let filter = match_all(engine.sources[number].kind);
        engine.start(number as u64).unwrap();
        engine.add_filter(number as u64, filter).unwrap();
    }
}

fn all_online(engine: &mut Engine) {
    can_online(engine, 0);
    engine.update(1, Kind::Lin, Some(0x40)).unwrap();
    engine.update(2, Kind::FlexRay, Some(0x60)).unwrap();
}

#[test]
fn every_call_tells_how_far_it_is_behind() {
    for (header, now, behind) in [
        (at(16, 1), at(16, 0), 1),
        (at(16, 0), at(15, 999_999_999), 1),
        (at(0, 1), at(0, 0), 1),
        (LAST, at(LAST_SECOND, 999_999_998), 1),
        (after(500_000_000), after(496_000_000), FOUR_MILLIS),
        (at(16, 3_999_999), at(15, 999_999_999), FOUR_MILLIS),
        (at(16, 7), at(15, 7), 1_000_000_000),
        (at(17, 5), at(15, 6), 1_999_999_999),
        (at(17, 5), at(15, 4), 2_000_000_001),
        (at(16, 0), at(11, 705_032_706), u32::MAX - 1),
        (at(16, 0), at(11, 705_032_705), u32::MAX),
        (at(16, 0), at(11, 705_032_704), u32::MAX),
        (at(16, 0), at(7, 410_065_408), u32::MAX),
        (at(4_294_967_312, 0), at(16, 0), u32::MAX),
        (LAST, at(0, 0), u32::MAX),
        (LAST, at(LAST_SECOND - 110, 0), u32::MAX),
    ] {
        for deadline in [0, 1, 655] {
            let engine = filling_since(limits(64, 1, deadline), header);
            assert_told(&engine, now, behind);
        }
    }
}

#[test]
fn equal_and_later_times_tell_nothing() {
    for header in [at(0, 0), after(5), LAST] {
        let engine = filling_since(limits(64, 1, 1), header);
        for now in [header, LAST] {
            assert_told(&engine, now, 0);
        }
    }
    let engine = filling_since(limits(64, 1, 1), after(999_999_999));
    for now in [at(17, 0), at(17, 655_359_999), at(LAST_SECOND, 0)] {
        assert_told(&engine, now, 0);
    }
}

#[test]
fn the_header_counts_and_not_the_last_item() {
    let mut engine = filling_since(limits(64, 1, 1), after(20_000));
    can(&mut engine, after(900_000), 2, &[]).unwrap();
    assert_told(&engine, after(899_999), 0);
    assert_told(&engine, after(20_000), 0);
    assert_told(&engine, after(19_999), 1);
}

#[test]
fn an_empty_frame_tells_nothing() {
    let mut engine = Engine::default();
    assert_eq!(engine.tick(after(0)), Ok(0));
    assert_eq!(engine.tick(at(0, 0)), Ok(0));
    let engine = running(limits(64, 8, 1), &ALL);
    assert_told(&engine, at(0, 0), 0);
    let mut overdue = filling_since(limits(64, 8, 1), after(0));
    overdue.tick(after(1_000_000)).unwrap();
    assert_told(&overdue, at(15, 0), 0);
    let mut offline = filling_since(limits(64, 8, 1), after(0));
    offline.offline();
    start_all(&mut offline);
    assert_told(&offline, at(15, 0), 0);
    let mut switched = filling_since(limits(64, 8, 1), after(0));
    switched.switch(limits(32, 1, 0)).unwrap();
    start_all(&mut switched);
    assert_told(&switched, at(15, 0), 0);
    all_online(&mut switched);
    assert_eq!(switched.tick(at(15, 0)), Ok(0));
    assert_eq!(switched.framer.filling_since(), Some(at(15, 0)));
}

#[test]
fn a_tick_behind_tells_although_it_leaves_everything() {
    for deadline in [0, 1, 655] {
        let mut engine = filling_since(limits(64, 1, deadline), after(5));
        engine.tick(after(5)).unwrap();
        let before = engine.clone();
        for now in [after(4), at(0, 0), after(4)] {
            let behind = now.nanos_before(after(5));
            assert_eq!(engine.tick(now), Ok(behind));
            assert_eq!(engine, before);
        }
    }
}

#[test]
fn a_tick_measures_before_its_state_items() {
    for deadline in [0, 1] {
        let mut engine = filling_since(limits(64, 2, deadline), after(FOUR_MILLIS));
        engine.tick(after(FOUR_MILLIS)).unwrap();
        let mut one = engine.clone();
        can_online(&mut one, 0);
        assert_eq!(one.tick(after(0)), Ok(FOUR_MILLIS));
        assert_eq!(items(&one), [0, 0, 0x81, 5, 0x40]);
        all_online(&mut engine);
        assert_eq!(engine.tick(after(0)), Ok(FOUR_MILLIS));
        assert_eq!(items(&engine).len(), 15);
        // The old frame waits; the deadline is measured from the new one, which is not over.
        assert_eq!(engine.framer.filling_since(), Some(after(0)));
        assert_eq!(take(&mut engine).len(), 23);
        assert_eq!(engine.tick(after(0)), Ok(0));
        assert_eq!(engine.take(&mut []), Err(13));
    }
}

#[test]
fn a_state_item_that_closes_for_its_size_tells_the_same() {
    let mut engine = running(limits(32, 2, 1), &ALL);
    can(&mut engine, after(5), 1, &EIGHT).unwrap();
    engine.tick(after(5)).unwrap();
    let mut on_time = engine.clone();
    for (engine, now, behind) in [(&mut engine, after(4), 1), (&mut on_time, after(5), 0)] {
        can_online(engine, 0);
        assert_eq!(engine.tick(now), Ok(behind));
        assert_eq!(engine.framer.filling_since(), Some(now));
        assert_eq!(take(engine).len(), 31);
    }
}

#[test]
fn a_report_behind_tells_also_where_its_closing_discards() {
    for (source, report) in every_report() {
        let mut engine = filling_since(limits(64, 1, 0), after(9));
        assert_eq!(engine.report(source, after(7), &report), Ok(2));
        assert_eq!(engine.discards(), 0);
        assert_eq!(engine.report(source, after(4), &report), Ok(3));
        assert_eq!(engine.discards(), 1);
        assert_eq!(items(&engine)[4] & state::LOST, state::LOST);
    }
}

#[test]
fn two_steps_back_are_each_measured_from_their_own_frame() {
    let mut engine = filling_since(limits(64, 8, 1), at(17, 0));
    assert_eq!(
        can(&mut engine, after(FOUR_MILLIS), 1, &[]),
        Ok(996_000_000)
    );
    assert_eq!(can(&mut engine, after(0), 1, &[]), Ok(FOUR_MILLIS));
    assert_eq!(can(&mut engine, after(0), 1, &[]), Ok(0));
    assert_eq!(engine.tick(at(15, 999_999_999)), Ok(1));
    assert_eq!(engine.tick(at(15, 999_999_998)), Ok(2));
    assert_eq!(can(&mut engine, at(15, 999_999_999), 1, &[]), Ok(1));
}

#[test]
fn only_the_step_back_tells_and_not_the_closing() {
    let mut full = running(limits(32, 8, 1), &ALL);
    can(&mut full, after(5), 1, &EIGHT).unwrap();
    for (now, behind) in [(after(5), 0), (after(6), 0), (at(18, 0), 0), (after(4), 1)] {
        let mut engine = full.clone();
        assert_eq!(can(&mut engine, now, 1, &EIGHT), Ok(behind));
        assert_eq!(engine.framer.filling_since(), Some(now));
        assert_eq!(take(&mut engine).len(), 31);
    }
    let fits = filling_since(limits(64, 8, 1), after(5));
    for (now, behind) in [(after(655_360_005), 0), (after(4), 1)] {
        let mut engine = fits.clone();
        assert_eq!(can(&mut engine, now, 1, &EIGHT), Ok(behind));
        assert_eq!(engine.framer.filling_since(), Some(now));
        assert_eq!(take(&mut engine).len(), 23);
    }
}

#[test]
fn a_refusal_is_the_bare_number() {
    let mut engine = filling_since(limits(32, 1, 1), after(5));
    engine.stop(2).unwrap();
    engine.remove_filter(1, 0).unwrap();
    let before = engine.clone();
    let long = [0; 64];
    let cases = [
        (3, Report::can(1, &[]), 2),
        (1, Report::can(1, &[]), 4),
        (2, Report::conflict(1, 1, 0), 3),
        (2, Report::flexray_error(1, 2), 3),
        (0, Report::flexray_error(1, 2), 4),
        (0, Report::can(2_048, &[]), 5),
        (1, Report::lin(0x3d, 0, &[]), 5),
        (0, Report::can(1, &long), 6),
        (1, Report::lin(0x7d, 0, &[]), 1),
        (0, Report::can(0x4000_0001, &long), 8),
    ];
    for now in [after(4), at(0, 0)] {
        for (source, report, cause) in &cases {
            assert_eq!(engine.report(*source, now, report), Err(*cause));
        }
    }
    // As counts of nanoseconds these are behind too.
    for now in [at(15, 1_000_000_000), at(0, u32::MAX)] {
        assert_eq!(can(&mut engine, now, 1, &[]), Err(7));
        assert_eq!(engine.tick(now), Err(7));
    }
    assert_eq!(engine, before);
    assert_eq!(can(&mut engine, after(4), 1, &[]), Ok(1));
}

#[test]
fn calls_between_leave_the_header_time() {
    let mut engine = running(limits(32, 2, 1), &ALL);
    for second in [14, 16] {
        can(&mut engine, at(second, 5), 1, &EIGHT).unwrap();
    }
    assert_eq!(engine.take(&mut [0; 30]), Err(12));
    take(&mut engine);
    assert_eq!(engine.switch(limits(31, 1, 1)), Err(14));
    assert_eq!(engine.setup(limits(32, 2, 1), &ALL), Err(14));
    for number in 0..3 {
        engine.stop(number).unwrap();
        engine.start(number).unwrap();
    }
    assert_told(&engine, after(4), 1);
    assert_told(&engine, at(14, 5), 2_000_000_000);
}

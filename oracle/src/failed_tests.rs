//! A send that failed: when the call is accepted, and which item tells it.

use super::*;
use crate::reader;

const ALL: [(u32, u32); 3] = [CAN, LIN, FLEXRAY];

/// The first frame of an engine was taken; nothing waits and nothing is being filled.
fn frame_out(limits: Limits) -> Engine {
    let mut engine = running(limits, &ALL);
    send(&mut engine, 1);
    engine
}

/// A report, a tick that closes its frame, and the take.
fn send(engine: &mut Engine, second: u64) {
    can(engine, at(second, 0), 1, &[]).unwrap();
    engine.tick(at(second, 655_000_000)).unwrap();
    take(engine);
}

fn assert_refused(engine: &mut Engine) {
    let before = engine.clone();
    assert_eq!(engine.failed(), Err(17));
    assert_eq!(*engine, before);
}

/// Whether the last item of the frame being filled has the bit for lost frames.
fn tells(engine: &Engine) -> bool {
    let mut frame = engine.framer.filling().to_vec();
    let data_length = (frame.len() - 14) as u16;
    frame[12..14].copy_from_slice(&data_length.to_be_bytes());
    let read = reader::read(&frame).unwrap();
    let state = read.items.last().unwrap().item.state;
    state.is_some_and(|state| state & state::LOST != 0)
}

/// The next item tells a loss, and the one after it does not.
fn assert_told_once(engine: &mut Engine) {
    for told in [true, false, false] {
        can(engine, at(100, 0), 1, &[]).unwrap();
        assert_eq!(tells(engine), told);
    }
}

#[test]
fn refused_before_any_take() {
    let mut engine = Engine::default();
    assert_refused(&mut engine);
    let mut engine = running(limits(64, 1, 1), &ALL);
    assert_refused(&mut engine);
    can(&mut engine, at(1, 0), 1, &[]).unwrap();
    assert_refused(&mut engine);
    engine.tick(at(2, 0)).unwrap();
    assert_refused(&mut engine);
    take(&mut engine);
    assert_eq!(engine.failed(), Ok(()));
}

#[test]
fn accepted_once_for_each_frame() {
    let mut engine = frame_out(limits(64, 8, 1));
    assert_eq!(engine.failed(), Ok(()));
    assert_refused(&mut engine);
    can(&mut engine, at(2, 0), 1, &[]).unwrap();
    engine.tick(at(3, 0)).unwrap();
    assert_refused(&mut engine);
    take(&mut engine);
    assert_eq!(engine.failed(), Ok(()));
    assert_refused(&mut engine);
    assert_eq!(engine.failures(), 2);
}

#[test]
fn only_the_frame_last_taken_can_fail() {
    let mut engine = frame_out(limits(64, 8, 1));
    send(&mut engine, 2);
    send(&mut engine, 3);
    assert_eq!(engine.failed(), Ok(()));
    assert_refused(&mut engine);
    assert_eq!(engine.failures(), 1);
}

#[test]
fn offline_and_switch_forget_the_frame_the_loss_and_the_count() {
    let again: [fn(&mut Engine); 2] = [Engine::offline, |engine| {
        engine.switch(limits(64, 1, 1)).unwrap()
    }];
    for begin_again in again {
        let mut engine = frame_out(limits(64, 1, 1));
        begin_again(&mut engine);
        assert_refused(&mut engine);
        assert_eq!(engine.take(&mut [0; 64]), Err(13));
        assert_refused(&mut engine);
        let mut engine = frame_out(limits(64, 1, 1));
        engine.failed().unwrap();
        send(&mut engine, 2);
        engine.failed().unwrap();
        assert_eq!(engine.failures(), 2);
        begin_again(&mut engine);
        assert_eq!(engine.failures(), 0);
        assert_refused(&mut engine);
        engine.start(0).unwrap();
        engine.add_filter(0, match_all(Kind::Can)).unwrap();
        can(&mut engine, at(3, 0), 1, &[]).unwrap();
        assert!(!tells(&engine));
    }
    let mut engine = frame_out(limits(64, 1, 1));
    assert_eq!(engine.switch(limits(31, 1, 1)), Err(14));
    assert_eq!(engine.setup(limits(64, 1, 1), &ALL), Err(14));
    assert_eq!(engine.failed(), Ok(()));
}

#[test]
fn a_refused_take_changes_nothing() {
    let mut engine = frame_out(limits(64, 2, 1));
    assert_eq!(engine.take(&mut [0; 64]), Err(13));
    let mut waits = engine.clone();
    assert_eq!(engine.failed(), Ok(()));
    assert_eq!(engine.take(&mut [0; 64]), Err(13));
    assert_refused(&mut engine);
    can(&mut waits, at(2, 0), 1, &[]).unwrap();
    waits.tick(at(3, 0)).unwrap();
    assert_eq!(waits.take(&mut [0; 22]), Err(12));
    assert_eq!(waits.failed(), Ok(()));
    assert_eq!(waits.take(&mut [0; 22]), Err(12));
    assert_refused(&mut waits);
    assert_eq!(take(&mut waits)[1], 1);
    assert_eq!(waits.failed(), Ok(()));
}

#[test]
fn two_failures_make_one_bit() {
    let mut engine = running(limits(64, 2, 1), &ALL);
    for second in [1, 2] {
        can(&mut engine, at(second, 0), 1, &[]).unwrap();
        engine.tick(at(second, 1_000_000)).unwrap();
    }
    for count in [1, 2] {
        take(&mut engine);
        assert_eq!(engine.failed(), Ok(()));
        assert_eq!(engine.failures(), count);
    }
    assert_told_once(&mut engine);
    assert_eq!(engine.discards(), 0);
}

#[test]
fn a_failure_and_a_discard_make_one_bit() {
    let discard = |engine: &mut Engine| {
        for second in [2, 3] {
            can(engine, at(second, 0), 1, &[]).unwrap();
            engine.tick(at(second, 1_000_000)).unwrap();
        }
        assert_eq!(engine.discards(), 1);
    };
    let out = frame_out(limits(64, 1, 1));
    let mut engine = out.clone();
    discard(&mut engine);
    assert_eq!(engine.failed(), Ok(()));
    assert_told_once(&mut engine);
    // The first report after the failure tells it: the discard has to come without an item.
    let mut engine = out;
    can(&mut engine, at(2, 0), 1, &[]).unwrap();
    engine.tick(at(2, 1_000_000)).unwrap();
    can(&mut engine, at(3, 0), 1, &[]).unwrap();
    assert_eq!(engine.failed(), Ok(()));
    let mut closing = engine.clone();
    engine.tick(at(3, 1_000_000)).unwrap();
    assert_told_once(&mut engine);
    assert_told_once(&mut closing);
    for engine in [engine, closing] {
        assert_eq!((engine.discards(), engine.failures()), (1, 1));
    }
}

#[test]
fn every_sort_of_item_tells_a_failure() {
    let reports = [
        (0, Report::can(1, &EIGHT)),
        (1, Report::lin(0x7d, 0, &EIGHT)),
        (2, Report::flexray(1, 5, 6, &EIGHT)),
        (2, Report::conflict(3, 1_027, 63)),
        (2, Report::flexray_error(2, 10)),
    ];
    for (source, report) in &reports {
        for known in [false, true] {
            let mut engine = frame_out(limits(128, 1, 1));
            if known {
                can_online(&mut engine, 0);
                engine.update(1, Kind::Lin, Some(0x40)).unwrap();
                engine.update(2, Kind::FlexRay, Some(0x60)).unwrap();
            }
            assert_eq!(engine.failed(), Ok(()));
            engine.report(*source, at(5, 0), report).unwrap();
            assert!(tells(&engine));
            engine.report(*source, at(5, 0), report).unwrap();
            assert!(!tells(&engine));
        }
    }
    let mut engine = frame_out(limits(128, 1, 1));
    assert_eq!(engine.failed(), Ok(()));
    engine.tick(at(5, 0)).unwrap();
    assert!(engine.framer.lost());
    engine.update(1, Kind::Lin, Some(0x40)).unwrap();
    engine.update(2, Kind::FlexRay, Some(0x60)).unwrap();
    engine.tick(at(5, 0)).unwrap();
    let expected = [0, 0, 0x82, 6, 0xc0, 0, 0, 0x83, 7, 0x60];
    assert_eq!(items(&engine), expected);
}

#[test]
fn the_bit_makes_the_item_longer_and_may_close_the_frame() {
    // Two items of 9 and 9 + 8 bytes make 40, or 41 where the second tells a loss.
    for (size, closes) in [(42, false), (41, false), (40, true)] {
        let mut engine = frame_out(limits(size, 1, 1));
        can(&mut engine, at(5, 0), 1, &[]).unwrap();
        let mut on_time = engine.clone();
        can(&mut on_time, at(5, 0), 1, &EIGHT).unwrap();
        assert_eq!(on_time.framer.waiting(), 0);
        assert_eq!(engine.failed(), Ok(()));
        can(&mut engine, at(5, 0), 1, &EIGHT).unwrap();
        assert!(tells(&engine));
        assert_eq!(engine.framer.waiting() == 1, closes);
    }
}

#[test]
fn other_calls_leave_the_loss_and_the_frame_that_is_out() {
    let between = |engine: &mut Engine| {
        engine.stop(0).unwrap();
        assert_eq!(can(engine, at(5, 0), 1, &[]), Err(3));
        engine.start(0).unwrap();
        assert_eq!(can(engine, at(5, 0), 2_048, &[]), Err(5));
        assert_eq!(engine.tick(at(LAST_SECOND + 1, 0)), Err(7));
        engine.tick(at(5, 0)).unwrap();
        assert_eq!(engine.remove_filter(0, 1), Err(11));
        assert_eq!(engine.discards(), 0);
    };
    let mut engine = frame_out(limits(64, 1, 1));
    between(&mut engine);
    assert_eq!(engine.failures(), 0);
    assert_eq!(engine.failed(), Ok(()));
    between(&mut engine);
    assert_eq!(engine.failures(), 1);
    assert_refused(&mut engine);
    assert_told_once(&mut engine);
}

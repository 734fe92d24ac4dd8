//! Errors without a frame: which are accepted, what their items hold, and what is left of their bits.

use super::*;

const ALL: [(u32, u32); 3] = [CAN, LIN, FLEXRAY];

/// One FlexRay source, started, without a filter.
fn without_filter(limits: Limits) -> Engine {
    let mut engine = Engine::default();
    engine.setup(limits, &[FLEXRAY]).unwrap();
    engine.start(0).unwrap();
    engine
}

fn error(engine: &mut Engine, time: Time, channels: u32, bits: u32) -> Result<u32, u8> {
    engine.report(0, time, &Report::flexray_error(channels, bits))
}

fn online(engine: &mut Engine, bits: u32) {
    let byte = state::of_flexray(true, bits);
    engine.update(0, Kind::FlexRay, byte).unwrap();
}

#[test]
fn p13_errors_without_a_frame() {
    let mut engine = without_filter(limits(128, 1, 0));
    assert_eq!(error(&mut engine, after(0), 3, 10), Ok(0));
    let with_bit_1 = state::of_flexray(true, 2);
    assert_eq!(engine.update(0, Kind::FlexRay, with_bit_1), Err(5));
    online(&mut engine, 0x30);
    for _ in 0..2 {
        assert_eq!(error(&mut engine, after(0), 1, 0), Ok(0));
    }
    for (channels, bits) in [(0, 10), (4, 10), (3, 1), (3, 16)] {
        assert_eq!(error(&mut engine, after(0), channels, bits), Err(5));
    }
    let conflict = Report::conflict(2, 5, 1);
    assert_eq!(engine.report(0, after(0), &conflict), Err(1));
    engine.add_filter(0, match_all(Kind::FlexRay)).unwrap();
    assert_eq!(engine.report(0, after(0), &conflict), Ok(0));
    assert_eq!(error(&mut engine, after(0), 2, 14), Ok(0));
    engine.tick(after(10_000)).unwrap();
    engine.tick(after(20_000)).unwrap();
    let expected: [&[u8]; 6] = [
        &[0, 0, 0xc3, 7, 0x0a, 0xc0, 0, 0],
        &[0, 0, 0xc3, 7, 0x70, 0x40, 0, 0],
        &[0, 0, 0xc3, 7, 0x70, 0x40, 0, 0],
        &[0, 0, 0xc3, 7, 0x71, 0x88, 5, 1],
        &[0, 0, 0xc3, 7, 0x7e, 0x80, 0, 0],
        &[0, 2, 0x83, 7, 0x70],
    ];
    assert_eq!(items(&engine), expected.concat());
}

#[test]
fn the_bytes_of_an_error() {
    let mut engine = without_filter(limits(64, 1, 1));
    assert_eq!(error(&mut engine, after(0), 3, 10), Ok(0));
    online(&mut engine, 0x30);
    assert_eq!(error(&mut engine, after(20_833), 1, 4), Ok(0));
    engine.stop(0).unwrap();
    engine.tick(after(1_000_000)).unwrap();
    let expected = [
        0x01, 0x00, 0x00, 0x00, 0x00, 0x00, 0x00, 0x10, 0x00, 0x00, 0x00, 0x00, 0x00, 0x10, //
        0x00, 0x00, 0xc3, 0x07, 0x0a, 0xc0, 0x00, 0x00, //
        0x00, 0x02, 0xc3, 0x07, 0x74, 0x40, 0x00, 0x00,
    ];
    assert_eq!(take(&mut engine), expected);
}

#[test]
fn channels_and_bits_in_range() {
    let mut right = Vec::new();
    for bits in 0..=300 {
        let mut engine = without_filter(limits(64, 1, 0));
        let before = engine.clone();
        match error(&mut engine, after(0), 2, bits) {
            Ok(_) => {
                let expected = [0, 0, 0xc3, 7, bits as u8, 0x80, 0, 0];
                assert_eq!(items(&engine), expected);
                right.push(bits);
            }
            Err(cause) => {
                assert_eq!((cause, &engine), (5, &before), "{bits}");
            }
        }
    }
    assert_eq!(right, [0, 2, 4, 6, 8, 10, 12, 14]);
    let mut engine = without_filter(limits(64, 1, 0));
    for bits in [0x8000_0000, 0x8000_000a, u32::MAX - 1, u32::MAX] {
        assert_eq!(error(&mut engine, after(0), 1, bits), Err(5), "{bits:#x}");
    }
    for channels in [0, 4, 5, 7, 255, 256, 257, 0x1_0003, 0x8000_0001, u32::MAX] {
        assert_eq!(error(&mut engine, after(0), channels, 0), Err(5));
    }
    assert_eq!(engine, without_filter(limits(64, 1, 0)));
    for (channels, byte) in [(1, 0x40), (2, 0x80), (3, 0xc0)] {
        let mut engine = without_filter(limits(64, 1, 0));
        assert_eq!(error(&mut engine, after(0), channels, 0), Ok(0));
        assert_eq!(items(&engine), [0, 0, 0xc3, 7, 0, byte, 0, 0]);
    }
}

#[test]
fn the_order_of_its_causes() {
    let mut engine = Engine::default();
    engine.setup(limits(32, 1, 0), &ALL).unwrap();
    let (good, bad) = (after(0), after(1_000_000_000));
    let wrong = [
        Report::flexray_error(0, 0),
        Report::flexray_error(1, 1),
        Report::flexray_error(4, 16),
    ];
    for report in &wrong {
        assert_eq!(engine.report(3, bad, report), Err(7));
        assert_eq!(engine.report(3, good, report), Err(2));
        assert_eq!(engine.report(0, good, report), Err(4));
        assert_eq!(engine.report(2, good, report), Err(3));
    }
    engine.start(1).unwrap();
    assert_eq!(engine.report(1, good, &wrong[0]), Err(4));
    let right = Report::flexray_error(1, 0);
    assert_eq!(engine.report(3, bad, &right), Err(7));
    assert_eq!(engine.report(u64::MAX, good, &right), Err(2));
    assert_eq!(engine.report(1, good, &right), Err(4));
    assert_eq!(engine.report(2, good, &right), Err(3));
    engine.start(2).unwrap();
    for report in &wrong {
        assert_eq!(engine.report(2, bad, report), Err(7));
        assert_eq!(engine.report(2, good, report), Err(5));
    }
    assert_eq!(engine.report(2, good, &right), Ok(0));
}

#[test]
fn no_filter_is_asked() {
    let filter = |low, high| Filter::FlexRay {
        slots: Range {
            lower: low,
            upper: high,
        },
        cycles: Range {
            lower: 0,
            upper: 63,
        },
        repetition: 64,
    };
    for filters in [
        vec![],
        vec![filter(0, 0)],
        vec![filter(1, 2_047)],
        vec![filter(7, 7), filter(9, 9)],
        vec![filter(0, 2_047); 8],
    ] {
        let mut engine = without_filter(limits(32, 1, 0));
        for filter in filters {
            engine.add_filter(0, filter).unwrap();
        }
        assert_eq!(error(&mut engine, after(0), 1, 2), Ok(0));
        assert_eq!(items(&engine), [0, 0, 0xc3, 7, 2, 0x40, 0, 0]);
    }
}

#[test]
fn it_is_shown_each_time_and_its_bits_are_over() {
    let mut engine = without_filter(limits(1_024, 1, 0));
    for bits in [10, 10, 4, 0, 0] {
        error(&mut engine, after(0), 1, bits).unwrap();
    }
    let shown: Vec<u8> = items(&engine).chunks(8).map(|item| item[4]).collect();
    assert_eq!(shown, [10, 10, 4, 0, 0]);
    assert!(engine.sources[0].state.is_known());
    assert!(!engine.sources[0].state.is_news());
    error(&mut engine, after(0), 1, 14).unwrap();
    assert_eq!(engine.sources[0].state.byte(), 0);
    assert_eq!(engine.sources[0].state.shown(), Some(14));
    // The error is a report since the last tick; after a silence the tick tells that it is over.
    engine.tick(after(0)).unwrap();
    assert_eq!(items(&engine).len(), 48);
    engine.tick(after(0)).unwrap();
    assert_eq!(items(&engine)[48..], [0, 0, 0x83, 7, 0]);
    engine.tick(after(0)).unwrap();
    assert_eq!(items(&engine).len(), 53);
}

#[test]
fn between_conflicts_frames_and_updates() {
    let mut engine = running(limits(1_024, 1, 0), &[FLEXRAY]);
    online(&mut engine, 0x20);
    let conflict = Report::conflict(1, 1, 2);
    let frame = Report::flexray(2, 1, 2, &[]);
    engine.report(0, after(0), &conflict).unwrap();
    error(&mut engine, after(0), 3, 12).unwrap();
    engine.report(0, after(0), &conflict).unwrap();
    engine.report(0, after(0), &frame).unwrap();
    error(&mut engine, after(0), 2, 2).unwrap();
    online(&mut engine, 0x10);
    engine.report(0, after(0), &frame).unwrap();
    engine.report(0, after(0), &frame).unwrap();
    let expected: [&[u8]; 7] = [
        &[0, 0, 0xc3, 7, 0x61, 0x48, 1, 2],
        &[0, 0, 0xc3, 7, 0x6c, 0xc0, 0, 0],
        &[0, 0, 0xc3, 7, 0x61, 0x48, 1, 2],
        &[0, 0, 0xe3, 7, 0x60, 0x88, 1, 2, 0],
        &[0, 0, 0xc3, 7, 0x62, 0x80, 0, 0],
        &[0, 0, 0xe3, 7, 0x50, 0x88, 1, 2, 0],
        &[0, 0, 0x63, 7, 0x88, 1, 2, 0],
    ];
    assert_eq!(items(&engine), expected.concat());
}

#[test]
fn starting_forgets_what_it_made_known() {
    let mut engine = without_filter(limits(64, 1, 0));
    error(&mut engine, after(0), 1, 10).unwrap();
    engine.stop(0).unwrap();
    assert_eq!(error(&mut engine, after(0), 1, 10), Err(3));
    engine.start(0).unwrap();
    assert!(!engine.sources[0].state.is_known());
    for _ in 0..2 {
        engine.tick(after(0)).unwrap();
    }
    assert_eq!(items(&engine).len(), 8);
}

#[test]
fn an_update_may_not_give_its_bits() {
    let mut engine = without_filter(limits(64, 1, 0));
    for bits in 0..64 {
        let expected = if bits % 16 == 0 { Ok(()) } else { Err(5) };
        let byte = state::of_flexray(true, bits);
        assert_eq!(engine.update(0, Kind::FlexRay, byte), expected, "{bits}");
    }
    assert_eq!(engine.sources[0].state.byte(), 0x70);
}

#[test]
fn it_takes_eight_bytes_of_a_frame() {
    for (size, fit) in [(32, 2), (37, 2), (38, 3), (39, 3), (45, 3), (46, 4)] {
        let mut engine = without_filter(limits(size, 1, 0));
        for _ in 0..fit {
            error(&mut engine, after(0), 3, 8).unwrap();
            assert_eq!(engine.framer.waiting(), 0);
        }
        error(&mut engine, after(0), 3, 8).unwrap();
        assert_eq!(take(&mut engine).len(), 14 + 8 * fit);
        assert_eq!(items(&engine), [0, 0, 0xc3, 7, 8, 0xc0, 0, 0]);
    }
}

#[test]
fn it_tells_a_loss_and_is_no_longer_for_it() {
    // With room for one, the third item closes the second frame of the smallest size.
    let mut engine = without_filter(limits(32, 1, 0));
    for _ in 0..5 {
        error(&mut engine, after(0), 1, 6).unwrap();
    }
    assert_eq!(engine.discards(), 1);
    assert_eq!(items(&engine), [0, 0, 0xc3, 7, 0x86, 0x40, 0, 0]);
    error(&mut engine, after(0), 1, 0).unwrap();
    assert_eq!(items(&engine)[8..], [0, 0, 0xc3, 7, 0, 0x40, 0, 0]);
    // The loss is not among what was last shown.
    assert_eq!(engine.sources[0].state.shown(), Some(0));
    take(&mut engine);
    assert_eq!(engine.failed(), Ok(()));
    error(&mut engine, after(0), 2, 0).unwrap();
    assert_eq!(items(&engine), [0, 0, 0xc3, 7, 0x80, 0x80, 0, 0]);
}

#[test]
fn it_is_a_report_of_its_own_source_alone() {
    let mut engine = running(limits(128, 1, 0), &[FLEXRAY, (3, 8)]);
    engine.update(1, Kind::FlexRay, Some(0x40)).unwrap();
    error(&mut engine, after(0), 1, 2).unwrap();
    engine.tick(after(0)).unwrap();
    assert_eq!(items(&engine)[8..], [0, 0, 0x83, 8, 0x40]);
    engine.tick(after(0)).unwrap();
    assert_eq!(items(&engine)[13..], [0, 0, 0x83, 7, 0]);
}

#[test]
fn a_refused_one_is_no_report() {
    let mut engine = without_filter(limits(64, 1, 0));
    online(&mut engine, 0);
    let before = engine.clone();
    for (channels, bits) in [(0, 10), (3, 1), (3, 16)] {
        assert_eq!(error(&mut engine, at(15, 0), channels, bits), Err(5));
    }
    assert_eq!(engine, before);
    engine.tick(after(0)).unwrap();
    assert_eq!(items(&engine), [0, 0, 0x83, 7, 0x40]);
}

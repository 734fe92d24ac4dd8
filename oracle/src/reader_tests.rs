use super::*;

/// The frame of the worked example: two CAN items, the second with a state byte.
const EXAMPLE: [u8; 36] = [
    0x01, 0x00, 0x00, 0x00, 0x00, 0x00, 0x00, 0x10, 0x00, 0x00, 0x00, 0x00, 0x00, 0x16, //
    0x00, 0x00, 0x61, 0x05, 0x00, 0x00, 0x01, 0x23, 0x02, 0x01, 0x02, //
    0x00, 0x02, 0xE1, 0x05, 0x40, 0xC1, 0xAB, 0xCD, 0xEF, 0x01, 0xAA,
];

/// A frame around the given item bytes, with a right header.
fn framed(items: &[u8]) -> Vec<u8> {
    let mut frame = EXAMPLE[..12].to_vec();
    frame.extend_from_slice(&(items.len() as u16).to_be_bytes());
    frame.extend_from_slice(items);
    frame
}

fn refusal(items: &[u8]) -> u8 {
    read(&framed(items)).err().unwrap_or(0)
}

#[test]
fn the_example_reads_back_item_by_item() {
    let header = read(&EXAMPLE).unwrap().header;
    let sixteen = Time {
        seconds: 16,
        nanos: 0,
    };
    assert_eq!(
        header,
        Header {
            sequence: 0,
            time: sixteen,
            data_length: 22
        }
    );
    let first = Item {
        time: sixteen,
        kind: Kind::Can,
        network: 5,
        state: None,
        id: Some(Id::Can(0x123)),
        payload: Some(&[1, 2]),
    };
    let second = Item {
        time: Time {
            seconds: 16,
            nanos: 20_000,
        },
        state: Some(0x40),
        id: Some(Id::Can(0xC1AB_CDEF)),
        payload: Some(&[0xAA]),
        ..first
    };
    let item = |start, next, item| Ok(Step::Item(Placed { start, next, item }));
    assert_eq!(step(&EXAMPLE, 14), item(14, 25, first));
    assert_eq!(step(&EXAMPLE, 25), item(25, 36, second));
    assert_eq!(step(&EXAMPLE, 36), Ok(Step::End));
    for place in [0, 13, 15, 24, 26, 35, 37, u64::MAX, (1 << 32) + 14] {
        assert_eq!(step(&EXAMPLE, place), Err(30), "{place}");
        assert_eq!(payload(&EXAMPLE, place), Err(30), "{place}");
    }
}

#[test]
fn a_payload_is_a_part_of_the_frame() {
    let part = payload(&EXAMPLE, 14).unwrap();
    assert_eq!(part, [1, 2]);
    assert!(std::ptr::eq(part, &EXAMPLE[23..25]));
    assert_eq!(payload(&EXAMPLE, 36), Ok([].as_slice()));
}

#[test]
fn a_frame_without_items_is_accepted() {
    let frame = framed(&[]);
    assert!(read(&frame).unwrap().items.is_empty());
    assert_eq!(step(&frame, 14), Ok(Step::End));
}

#[test]
fn header_causes_in_order() {
    let mut frame = EXAMPLE.to_vec();
    frame[13] = 0;
    assert_eq!(read(&frame), Err(22));
    frame[8..12].copy_from_slice(&1_000_000_000u32.to_be_bytes());
    assert_eq!(read(&frame), Err(28));
    frame[0] = 2;
    assert_eq!(read(&frame), Err(21));
    assert_eq!(read(&frame[..13]), Err(20));
    assert_eq!(step(&frame[..13], 99), Err(20));
    assert_eq!(read(&[]), Err(20));
}

#[test]
fn the_last_nanosecond_passes() {
    let mut frame = framed(&[]);
    frame[8..12].copy_from_slice(&999_999_999u32.to_be_bytes());
    assert_eq!(read(&frame).unwrap().header.time.nanos, 999_999_999);
}

#[test]
fn a_longer_frame_than_data_length_can_say() {
    let mut frame = vec![0; 14 + 65_536];
    frame[0] = 1;
    assert_eq!(read(&frame), Err(22));
}

#[test]
fn an_item_cut_at_any_byte_misses_bytes() {
    let whole = &EXAMPLE[25..];
    for end in 1..whole.len() {
        assert_eq!(refusal(&whole[..end]), 23, "{end}");
    }
    assert_eq!(refusal(whole), 0);
}

#[test]
fn within_the_flag_byte_the_network_type_goes_first() {
    assert_eq!(refusal(&[0, 0, 0x00]), 24);
    assert_eq!(refusal(&[0, 0, 0x04]), 24);
    assert_eq!(refusal(&[0, 0, 0xff]), 24);
    for flags in [0x01, 0x21, 0x41, 0xA1] {
        assert_eq!(refusal(&[0, 0, flags]), 26, "{flags:#x}");
    }
    assert_eq!(refusal(&[0, 0, 0x81]), 23);
}

#[test]
fn lin_state_bits() {
    for state in 0..=255u8 {
        let wrong = state & 0x30 != 0;
        let expected = if wrong { 25 } else { 0 };
        assert_eq!(refusal(&[0, 0, 0x82, 7, state]), expected, "{state:#x}");
        let cut = if wrong { 25 } else { 23 };
        assert_eq!(refusal(&[0, 0, 0xC2, 7, state]), cut, "{state:#x}");
    }
}

#[test]
fn other_state_bits_pass() {
    for state in [0x00, 0x30, 0x3f, 0xff] {
        assert_eq!(refusal(&[0, 0, 0x81, 7, state]), 0);
        assert_eq!(refusal(&[0, 0, 0x83, 7, state]), 0);
    }
}

#[test]
fn can_ids() {
    let with = |key: u32| refusal(&[&[0, 0, 0x61, 7], &key.to_be_bytes()[..], &[0]].concat());
    assert_eq!(with(2_047), 0);
    assert_eq!(with(2_048), 29);
    assert_eq!(with(CAN_RESERVED | 2_048), 25);
    assert_eq!(with(0x4000_0800), 29);
    assert_eq!(with(0x9fff_ffff), 0);
    assert_eq!(with(0xdfff_ffff), 0);
    assert_eq!(with(0xffff_ffff), 25);
}

#[test]
fn lin_ids() {
    for pid in 0..=255 {
        let expected = if pid::is_right(pid) { 0 } else { 29 };
        assert_eq!(refusal(&[0, 0, 0x62, 7, pid, 0]), expected, "{pid:#x}");
        assert_eq!(
            refusal(&[0, 0, 0xE2, 7, 0x40, pid, 0]),
            expected,
            "{pid:#x}"
        );
        assert_eq!(refusal(&[0, 0, 0xC2, 7, 0x40, pid]), expected, "{pid:#x}");
    }
}

#[test]
fn wrong_parity_has_the_place_of_the_id() {
    // The reserved bits of the state go before it, and so does its own byte where it is missing.
    assert_eq!(refusal(&[0, 0, 0xE2, 7, 0x10, 0x3d, 0]), 25);
    assert_eq!(refusal(&[0, 0, 0xC2, 7, 0x20, 0x3d]), 25);
    assert_eq!(refusal(&[0, 0, 0xE2, 7, 0x40]), 23);
    // The payload's length comes after it, whether it is missing or too large.
    assert_eq!(refusal(&[0, 0, 0x62, 7, 0x3d]), 29);
    assert_eq!(refusal(&[0, 0, 0x62, 7, 0x7d]), 23);
    assert_eq!(refusal(&[0, 0, 0x62, 7, 0x3d, 9]), 29);
    assert_eq!(refusal(&[0, 0, 0x62, 7, 0x7d, 9]), 27);
    assert_eq!(refusal(&[0, 0, 0x64, 7, 0x3d, 0]), 24);
    assert_eq!(refusal(&[0, 0, 0xA2, 7, 0x3d, 0]), 26);
}

#[test]
fn a_wrong_pid_in_a_later_item() {
    let (right, wrong) = ([0, 0, 0x62, 7, 0x7d, 0], [0, 0, 0x62, 7, 0x3d, 0]);
    assert_eq!(refusal(&[right, wrong].concat()), 29);
    assert_eq!(refusal(&[wrong, right].concat()), 29);
    assert_eq!(refusal(&[wrong, [0, 0, 0x62, 7, 0x7d, 9]].concat()), 29);
    assert_eq!(refusal(&[[0, 0, 0x62, 7, 0x7d, 9], wrong].concat()), 27);
    let frame = framed(&[right, wrong].concat());
    assert_eq!(step(&frame, 14), Err(29));
    assert_eq!(step(&frame, 15), Err(29));
    assert_eq!(refused_item(&frame), Some(20));
    assert_eq!(refused_item(&framed(&wrong)), Some(14));
    assert_eq!(refused_item(&framed(&right)), None);
    assert_eq!(refused_item(&frame[..13]), None);
}

#[test]
fn flexray_ids() {
    let with = |id: [u8; 3]| refusal(&[&[0, 0, 0x63, 7], &id[..], &[0]].concat());
    assert_eq!(with([0xcc, 0x03, 0x3f]), 0);
    assert_eq!(with([0x48, 0x01, 0x00]), 0);
    assert_eq!(with([0x08, 0x01, 0x00]), 29);
    assert_eq!(with([0x88, 0x00, 0x00]), 29);
    assert_eq!(with([0x8f, 0xff, 0x40]), 29);
    assert_eq!(with([0x80, 0x01, 0x00]), 25);
    assert_eq!(with([0x98, 0x01, 0x00]), 25);
    assert_eq!(with([0xa8, 0x01, 0x00]), 25);
    // A reserved bit before the ranges, although no channel, slot 0 and cycle 64 hold too.
    assert_eq!(with([0x00, 0x00, 0x40]), 25);
    // The whole id is one field: its missing bytes go before its reserved bits.
    assert_eq!(refusal(&[0, 0, 0x63, 7, 0x00, 0x00]), 23);
}

/// The refusals of an id with each set of flags that has one: id and payload, all, state and id.
fn flexray_refusals(id: [u8; 3]) -> [u8; 3] {
    let heads: [(&[u8], &[u8]); 3] = [
        (&[0, 0, 0x63, 7], &[0]),
        (&[0, 0, 0xe3, 7, 0x4a], &[0]),
        (&[0, 0, 0xc3, 7, 0x4a], &[]),
    ];
    heads.map(|(head, tail)| refusal(&[head, &id, tail].concat()))
}

#[test]
fn an_error_without_a_frame_stands_with_state_and_id_alone() {
    for channels in [0x40, 0x80, 0xc0] {
        assert_eq!(flexray_refusals([channels, 0, 0]), [25, 25, 0]);
        for reserved in [0x10, 0x20, 0x30] {
            assert_eq!(flexray_refusals([channels | reserved, 0, 0]), [25; 3]);
            assert_eq!(flexray_refusals([channels | reserved | 7, 1, 64]), [25; 3]);
            assert_eq!(flexray_refusals([channels | reserved | 8, 1, 0]), [25; 3]);
        }
        for bit in 0..8 {
            assert_eq!(flexray_refusals([channels, 1 << bit, 0]), [25, 25, 29]);
            assert_eq!(flexray_refusals([channels, 0, 1 << bit]), [25, 25, 29]);
        }
        for high in 1..8 {
            assert_eq!(flexray_refusals([channels | high, 0, 0]), [25, 25, 29]);
            assert_eq!(flexray_refusals([channels | high, 3, 63]), [25, 25, 29]);
        }
        // With bit 3 the slot and the cycle are a frame's, with each set of flags.
        assert_eq!(flexray_refusals([channels | 8, 0, 0]), [29; 3]);
        assert_eq!(flexray_refusals([channels | 8, 1, 0]), [0; 3]);
        assert_eq!(flexray_refusals([channels | 8, 1, 64]), [29; 3]);
    }
    assert_eq!(flexray_refusals([0, 0, 0]), [25, 25, 29]);
    assert_eq!(flexray_refusals([0x10, 0, 0]), [25; 3]);
}

#[test]
fn an_error_that_is_cut_misses_bytes_first() {
    for first in [0xc0, 0xd0, 0x00, 0xc1] {
        for head in [&[0, 0, 0xc3, 7, 0][..], &[0, 0, 0x63, 7]] {
            assert_eq!(refusal(head), 23);
            assert_eq!(refusal(&[head, &[first]].concat()), 23);
            assert_eq!(refusal(&[head, &[first, 1]].concat()), 23);
        }
    }
    // The payload's length is another field: the id is judged before it is missed.
    assert_eq!(refusal(&[0, 0, 0x63, 7, 0xc0, 0, 0]), 25);
    assert_eq!(refusal(&[0, 0, 0xe3, 7, 0, 0xc0, 0, 0]), 25);
    assert_eq!(refusal(&[0, 0, 0x63, 7, 0xc0, 0, 0, 255]), 25);
}

#[test]
fn an_error_before_and_behind_other_items() {
    let error = [0, 1, 0xc3, 7, 0x8e, 0x80, 0, 0];
    let state = [0, 0, 0x83, 7, 0x40];
    let frame = framed(&[&error[..], &state, &error].concat());
    let items = read(&frame).unwrap().items;
    let ids: Vec<Option<Id>> = items.iter().map(|placed| placed.item.id).collect();
    let id = Some(Id::FlexRayError { channels: 2 });
    assert_eq!(ids, [id, None, id]);
    let starts: Vec<usize> = items.iter().map(|placed| placed.start).collect();
    assert_eq!(starts, [14, 22, 27]);
    assert_eq!(items[2].item.state, Some(0x8e));
    assert_eq!(items[2].item.payload, None);
    assert_eq!(payload(&frame, 27), Ok([].as_slice()));
    let wrong = [0, 1, 0xc3, 7, 0x8e, 0x80, 0, 1];
    assert_eq!(refusal(&[&error[..], &wrong].concat()), 29);
    assert_eq!(refusal(&[&wrong[..], &error].concat()), 29);
    assert_eq!(refused_item(&framed(&[error, wrong].concat())), Some(22));
}

#[test]
fn payload_lengths() {
    let with = |head: &[u8], length: usize| {
        refusal(&[head, &[length as u8], &vec![0; length][..]].concat())
    };
    let kinds: [(&[u8], usize); 4] = [
        (&[0, 0, 0x61, 7, 0, 0, 0, 1], 8),
        (&[0, 0, 0x61, 7, 0x40, 0, 0, 1], 64),
        (&[0, 0, 0x62, 7, 0xbf], 8),
        (&[0, 0, 0x63, 7, 0x48, 1, 0], 254),
    ];
    for (head, longest) in kinds {
        assert_eq!(with(head, 0), 0);
        assert_eq!(with(head, longest), 0);
        assert_eq!(with(head, longest + 1), 27);
        // The length is judged before the payload is missed.
        assert_eq!(refusal(&[head, &[longest as u8 + 1]].concat()), 27);
        assert_eq!(refusal(&[head, &[longest as u8]].concat()), 23);
    }
}

#[test]
fn an_earlier_item_is_judged_first() {
    let first = [0, 0, 0x62, 7, 0xbf, 9];
    let second = [0, 0, 0x00];
    assert_eq!(refusal(&[&first[..], &second[..]].concat()), 27);
    assert_eq!(refusal(&[&second[..], &first[..]].concat()), 24);
}

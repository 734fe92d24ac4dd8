//! Lays a header and items out as bytes, from what the reader yields and from nothing else.

use crate::cause::OUTPUT_TOO_SHORT;
use crate::frame::{Frame, Header, Id, Item, Time, SLOT_VALID};
use crate::reader;

/// The answer number; the output changes only where it is 0.
pub fn rewrite(frame: &[u8], output: &mut [u8]) -> u8 {
    let bytes = match reader::read(frame) {
        Ok(yielded) => lay_out(&yielded),
        Err(refusal) => return refusal,
    };
    match output.get_mut(..bytes.len()) {
        Some(front) => {
            front.copy_from_slice(&bytes);
            0
        }
        None => OUTPUT_TOO_SHORT,
    }
}

pub fn lay_out(frame: &Frame) -> Vec<u8> {
    let mut out = Vec::new();
    put_header(&mut out, &frame.header);
    for placed in &frame.items {
        put_item(&mut out, frame.header.time, &placed.item);
    }
    out
}

pub fn put_header(out: &mut Vec<u8>, header: &Header) {
    out.push(1);
    out.push(header.sequence);
    out.extend_from_slice(&header.time.seconds.to_be_bytes()[2..]);
    out.extend_from_slice(&header.time.nanos.to_be_bytes());
    out.extend_from_slice(&header.data_length.to_be_bytes());
}

pub fn put_item(out: &mut Vec<u8>, header_time: Time, item: &Item) {
    let offset = item.time.ticks_since(header_time) as u16;
    out.extend_from_slice(&offset.to_be_bytes());
    let flag = |present: bool, bit: u8| u8::from(present) << bit;
    out.push(
        flag(item.state.is_some(), 7)
            | flag(item.id.is_some(), 6)
            | flag(item.payload.is_some(), 5)
            | item.kind as u8,
    );
    out.push(item.network);
    out.extend(item.state);
    if let Some(id) = item.id {
        put_id(out, id);
    }
    if let Some(payload) = item.payload {
        out.push(payload.len() as u8);
        out.extend_from_slice(payload);
    }
}

fn put_id(out: &mut Vec<u8>, id: Id) {
    match id {
        Id::Can(key) => out.extend_from_slice(&key.to_be_bytes()),
        Id::Lin(pid) => out.push(pid),
        Id::FlexRay {
            channels,
            slot,
            cycle,
        } => {
            out.push(channels << 6 | SLOT_VALID | (slot >> 8) as u8);
            out.push(slot as u8);
            out.push(cycle);
        }
        Id::FlexRayError { channels } => out.extend_from_slice(&[channels << 6, 0, 0]),
    }
}

#[cfg(test)]
mod tests {
    use super::*;

    const BOTH_CHANNELS: [u8; 21] = [
        1, 9, 0, 0, 0, 0, 0, 1, 0, 0, 0, 2, 0, 7, 0xff, 0xff, 0xc3, 4, 0xcc, 3, 0x3f,
    ];

    #[test]
    fn a_flexray_id_of_both_channels() {
        let mut out = Vec::new();
        put_id(
            &mut out,
            Id::FlexRay {
                channels: 3,
                slot: 1_027,
                cycle: 63,
            },
        );
        assert_eq!(out, [0xcc, 0x03, 0x3f]);
    }

    #[test]
    fn an_error_has_its_channels_alone() {
        for (channels, byte) in [(1, 0x40), (2, 0x80), (3, 0xc0)] {
            let mut out = Vec::new();
            put_id(&mut out, Id::FlexRayError { channels });
            assert_eq!(out, [byte, 0, 0]);
        }
        let frame = [
            1, 9, 0, 0, 0, 0, 0, 1, 0, 0, 0, 2, 0, 8, 0xff, 0xff, 0xc3, 4, 0x8a, 0x80, 0, 0,
        ];
        let mut output = [0xee; 23];
        assert_eq!(rewrite(&frame, &mut output), 0);
        assert_eq!(output[..22], frame);
        assert_eq!(output[22], 0xee);
        assert_eq!(rewrite(&frame, &mut [0; 21]), 12);
    }

    #[test]
    fn a_refusal_goes_before_a_short_output() {
        let mut output = [0xee; 3];
        // State+id is announced and the state byte is missing.
        assert_eq!(rewrite(&BOTH_CHANNELS, &mut output), 23);
        assert_eq!(rewrite(&[], &mut []), 20);
        assert_eq!(output, [0xee; 3]);
    }

    #[test]
    fn later_output_bytes_stay() {
        let mut frame = BOTH_CHANNELS.to_vec();
        frame.insert(18, 0x80);
        frame[13] += 1;
        let mut output = [0xee; 24];
        assert_eq!(rewrite(&frame, &mut output), 0);
        assert_eq!(output[..22], frame);
        assert_eq!(output[22..], [0xee; 2]);
        let mut short = [0xee; 21];
        assert_eq!(rewrite(&frame, &mut short), 12);
        assert_eq!(short, [0xee; 21]);
    }
}

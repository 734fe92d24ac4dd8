//! A recording: fields one after another, each a tag, a length and a body. Reading here has the whole
//! file before it; `pieces.rs` does the same with a piece at a time.

use crate::frame::{Frame, Time};
use crate::reader;

pub const FRAME: u8 = 1;
pub const NOTE: u8 = 2;
pub const START: u8 = 3;

/// Tag and length, before a field's body.
pub const HEAD: usize = 3;
/// Of a frame or a note.
pub const LONGEST_BODY: usize = 1_472;
/// Seconds 6, nanoseconds 4, as in a frame's header.
pub const START_LENGTH: usize = 10;

pub const CUT_SHORT: u8 = 40;
pub const TOO_LONG: u8 = 41;
pub const NO_START: u8 = 42;

/// A complete field.
#[derive(Clone, Copy, Debug, PartialEq)]
pub struct Field<'a> {
    pub tag: u8,
    pub body: &'a [u8],
}

/// What a complete field is found to be. A refusal is its answer number.
#[derive(Debug, PartialEq)]
pub enum Found<'a> {
    Frame(Frame<'a>),
    Note(&'a [u8]),
    Start(Time),
    Refused { tag: u8, answer: u8 },
    Skipped { tag: u8, length: usize },
}

/// The complete fields, and the bytes behind them.
pub fn fields(recording: &[u8]) -> (Vec<Field<'_>>, &[u8]) {
    let mut fields = Vec::new();
    let mut rest = recording;
    while let Some((field, behind)) = first_field(rest) {
        fields.push(field);
        rest = behind;
    }
    (fields, rest)
}

fn first_field(bytes: &[u8]) -> Option<(Field<'_>, &[u8])> {
    let (&[tag, high, low], behind) = bytes.split_first_chunk::<HEAD>()?;
    let length = usize::from(high) * 256 + usize::from(low);
    let (body, behind) = behind.split_at_checked(length)?;
    Some((Field { tag, body }, behind))
}

/// What the end of a recording answers.
pub fn end_answer(rest: &[u8]) -> u8 {
    if rest.is_empty() {
        0
    } else {
        CUT_SHORT
    }
}

/// Each field is judged by itself: nothing before it matters.
pub fn judge(field: Field<'_>) -> Found<'_> {
    let Field { tag, body } = field;
    let judged = match tag {
        FRAME => judge_frame(body).map(Found::Frame),
        NOTE => judge_note(body).map(Found::Note),
        START => judge_start(body).map(Found::Start),
        _ => {
            let length = body.len();
            return Found::Skipped { tag, length };
        }
    };
    judged.unwrap_or_else(|answer| Found::Refused { tag, answer })
}

fn judge_frame(body: &[u8]) -> Result<Frame<'_>, u8> {
    if body.len() > LONGEST_BODY {
        return Err(TOO_LONG);
    }
    reader::read(body)
}

fn judge_note(body: &[u8]) -> Result<&[u8], u8> {
    if body.len() > LONGEST_BODY {
        return Err(TOO_LONG);
    }
    Ok(body)
}

fn judge_start(body: &[u8]) -> Result<Time, u8> {
    let body = body.try_into().map_err(|_| NO_START)?;
    let time = start_time(body);
    if time.is_in_range() {
        Ok(time)
    } else {
        Err(NO_START)
    }
}

/// Whatever the nanoseconds are.
pub fn start_time(body: &[u8; START_LENGTH]) -> Time {
    let number = |bytes: &[u8]| bytes.iter().fold(0u64, |n, &b| n << 8 | u64::from(b));
    Time {
        seconds: number(&body[..6]),
        nanos: number(&body[6..]) as u32,
    }
}

/// Puts a frame behind the recording, or nothing of it. The answer number, as of the next two.
pub fn write_frame(out: &mut Vec<u8>, frame: &[u8]) -> u8 {
    match judge_frame(frame) {
        Ok(_) => put(out, FRAME, frame),
        Err(answer) => answer,
    }
}

pub fn write_note(out: &mut Vec<u8>, text: &[u8]) -> u8 {
    match judge_note(text) {
        Ok(_) => put(out, NOTE, text),
        Err(answer) => answer,
    }
}

pub fn write_start(out: &mut Vec<u8>, start: Time) -> u8 {
    if !start.is_in_range() {
        return NO_START;
    }
    let seconds = start.seconds.to_be_bytes();
    let body = [&seconds[2..], &start.nanos.to_be_bytes()].concat();
    put(out, START, &body)
}

fn put(out: &mut Vec<u8>, tag: u8, body: &[u8]) -> u8 {
    out.push(tag);
    out.extend_from_slice(&(body.len() as u16).to_be_bytes());
    out.extend_from_slice(body);
    0
}

#[cfg(test)]
#[path = "recording_tests.rs"]
mod tests;

//! Reads a recording that comes in pieces, and keeps no more of it than the body under way: of a body
//! that is skipped or too long it keeps the count alone.

use crate::listing::Listing;
use crate::recording::{judge, Field, Found};
use crate::recording::{CUT_SHORT, FRAME, LONGEST_BODY, NOTE, NO_START, START, TOO_LONG};

/// Where in a field the next byte belongs.
#[derive(Default)]
enum Place {
    #[default]
    Tag,
    LengthHigh {
        tag: u8,
    },
    LengthLow {
        tag: u8,
        high: u8,
    },
    /// At least one byte of the body is still to come.
    Body {
        tag: u8,
        length: usize,
        left: usize,
    },
}

#[derive(Default)]
pub struct PieceReader {
    place: Place,
    kept: Vec<u8>,
    listing: Listing,
}

impl PieceReader {
    pub fn read(&mut self, piece: &[u8]) {
        for &byte in piece {
            self.byte(byte);
        }
    }

    pub fn end(self) -> Vec<u8> {
        let answer = match self.place {
            Place::Tag => 0,
            _ => CUT_SHORT,
        };
        self.listing.end(answer)
    }

    fn byte(&mut self, byte: u8) {
        match self.place {
            Place::Tag => self.place = Place::LengthHigh { tag: byte },
            Place::LengthHigh { tag } => self.place = Place::LengthLow { tag, high: byte },
            Place::LengthLow { tag, high } => {
                let length = usize::from(u16::from_be_bytes([high, byte]));
                self.go_on(tag, length, length);
            }
            Place::Body { tag, length, left } => {
                if is_kept(tag, length) {
                    self.kept.push(byte);
                }
                self.go_on(tag, length, left - 1);
            }
        }
    }

    fn go_on(&mut self, tag: u8, length: usize, left: usize) {
        if left > 0 {
            self.place = Place::Body { tag, length, left };
            return;
        }
        let found = found(tag, length, &self.kept);
        self.listing.add(&found);
        self.kept.clear();
        self.place = Place::Tag;
    }
}

fn is_kept(tag: u8, length: usize) -> bool {
    matches!(tag, FRAME | NOTE | START) && length <= LONGEST_BODY
}

/// A body that was not kept is judged by its length.
fn found(tag: u8, length: usize, kept: &[u8]) -> Found<'_> {
    if is_kept(tag, length) {
        return judge(Field { tag, body: kept });
    }
    match tag {
        FRAME | NOTE => refused(tag, TOO_LONG),
        START => refused(tag, NO_START),
        _ => Found::Skipped { tag, length },
    }
}

fn refused<'a>(tag: u8, answer: u8) -> Found<'a> {
    Found::Refused { tag, answer }
}

/// The listing of a recording that is handed over in pieces of these sizes, over and over.
pub fn list(recording: &[u8], sizes: &[usize]) -> Vec<u8> {
    let mut reader = PieceReader::default();
    for piece in cut(recording, sizes) {
        reader.read(piece);
    }
    reader.end()
}

/// Pieces of these sizes, over and over. One of them has to be over 0, or the end never comes.
pub fn cut<'a>(recording: &'a [u8], sizes: &[usize]) -> Vec<&'a [u8]> {
    let mut pieces = Vec::new();
    let mut rest = recording;
    for &size in sizes.iter().cycle() {
        if rest.is_empty() {
            break;
        }
        let (piece, behind) = rest.split_at(size.min(rest.len()));
        pieces.push(piece);
        rest = behind;
    }
    pieces
}

/// Sizes as `3,0,1472`; not all of them 0.
pub fn sizes(word: &str) -> Option<Vec<usize>> {
    let sizes: Option<Vec<usize>> = word.split(',').map(|size| size.parse().ok()).collect();
    sizes.filter(|sizes| sizes.iter().any(|&size| size > 0))
}

#[cfg(test)]
#[path = "pieces_tests.rs"]
mod tests;

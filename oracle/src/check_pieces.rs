//! Checks and mends a recording that comes in pieces, and holds no more of it than one field: an
//! unknown one too, since it is not in the copy before its last byte is there.

use crate::check::{verdict, Report};
use crate::pieces;
use crate::recording::{Field, HEAD};

/// The field under way, from its tag on.
#[derive(Default)]
struct Holder {
    held: Vec<u8>,
}

impl Holder {
    /// Hands over the bytes of each field that the piece completes.
    fn read(&mut self, piece: &[u8], mut complete: impl FnMut(&[u8])) {
        let mut left = piece;
        while !left.is_empty() {
            let (now, later) = left.split_at(self.missing().min(left.len()));
            self.held.extend_from_slice(now);
            left = later;
            if self.missing() == 0 {
                complete(&self.held);
                self.held.clear();
            }
        }
    }

    /// Bytes of the head and, once that is there, of the body. Not 0 but where the field is complete.
    fn missing(&self) -> usize {
        let whole = match self.held[..] {
            [_, high, low, ..] => HEAD + usize::from(u16::from_be_bytes([high, low])),
            _ => HEAD,
        };
        whole - self.held.len()
    }
}

fn field(bytes: &[u8]) -> Field<'_> {
    Field {
        tag: bytes[0],
        body: &bytes[HEAD..],
    }
}

/// Of pieces of these sizes, over and over, as `pieces::list`.
pub fn check(recording: &[u8], sizes: &[usize]) -> Vec<u8> {
    let mut holder = Holder::default();
    let mut report = Report::default();
    for piece in pieces::cut(recording, sizes) {
        holder.read(piece, |bytes| report.add(field(bytes)));
    }
    report.end(holder.held.len())
}

pub fn mend(recording: &[u8], sizes: &[usize]) -> Vec<u8> {
    let mut holder = Holder::default();
    let mut copy = Vec::new();
    for piece in pieces::cut(recording, sizes) {
        holder.read(piece, |bytes| {
            if verdict(field(bytes)).is_kept() {
                copy.extend_from_slice(bytes);
            }
        });
    }
    copy
}

#[cfg(test)]
#[path = "check_pieces_tests.rs"]
mod tests;

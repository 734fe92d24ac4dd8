//! What `check` says of a recording, and the copy that `mend` makes of it, both from the whole file.
//! `check_pieces.rs` does the same with a piece at a time.

use crate::recording::{fields, judge, Field, Found, CUT_SHORT, HEAD};

/// What a complete field is judged to be; a bad one has its answer number.
#[derive(Clone, Copy, Debug, PartialEq)]
pub enum Verdict {
    Good,
    Bad(u8),
    Unknown,
}

impl Verdict {
    /// In the copy. Nobody can say of an unknown tag that it is wrong.
    pub fn is_kept(self) -> bool {
        matches!(self, Verdict::Good | Verdict::Unknown)
    }
}

pub fn verdict(field: Field) -> Verdict {
    match judge(field) {
        Found::Frame(_) | Found::Note(_) | Found::Start(_) => Verdict::Good,
        Found::Refused { answer, .. } => Verdict::Bad(answer),
        Found::Skipped { .. } => Verdict::Unknown,
    }
}

pub fn check(recording: &[u8]) -> Vec<u8> {
    let (fields, rest) = fields(recording);
    let mut report = Report::default();
    for field in fields {
        report.add(field);
    }
    report.end(rest.len())
}

/// Bytes of the file and not fields written anew, so that the copy can have no byte of its own.
pub fn mend(recording: &[u8]) -> Vec<u8> {
    let mut copy = Vec::new();
    let mut at = 0;
    for field in fields(recording).0 {
        let end = at + HEAD + field.body.len();
        if verdict(field).is_kept() {
            copy.extend_from_slice(&recording[at..end]);
        }
        at = end;
    }
    copy
}

/// What `check` writes, while it is being written.
#[derive(Default)]
pub struct Report {
    text: String,
    good: u32,
    bad: u32,
    unknown: u32,
}

impl Report {
    pub fn add(&mut self, field: Field) {
        let (tag, length) = (field.tag, field.body.len());
        let verdict = verdict(field);
        let line = match verdict {
            Verdict::Good => format!("good {tag} {length}\n"),
            Verdict::Bad(answer) => format!("bad {tag} {answer} {length}\n"),
            Verdict::Unknown => format!("unknown {tag} {length}\n"),
        };
        self.text.push_str(&line);
        let count = match verdict {
            Verdict::Good => &mut self.good,
            Verdict::Bad(_) => &mut self.bad,
            Verdict::Unknown => &mut self.unknown,
        };
        *count = count.saturating_add(1);
    }

    /// With how many bytes are left behind the last complete field.
    pub fn end(mut self, left: usize) -> Vec<u8> {
        if left > 0 {
            self.text.push_str(&format!("rest {CUT_SHORT} {left}\n"));
        }
        let (good, bad, unknown) = (self.good, self.bad, self.unknown);
        self.text
            .push_str(&format!("fields {good} {bad} {unknown}\n"));
        self.text.into_bytes()
    }
}

#[cfg(test)]
#[path = "check_tests.rs"]
mod tests;

#[cfg(test)]
#[path = "mend_tests.rs"]
mod laws;

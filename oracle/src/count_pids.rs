//! Which PIDs a script drives through reports and through the reader, and what becomes of them.

use crate::cause;
use crate::engine::Engine;
use crate::frame::{Id, Kind};
use crate::pid;
use crate::reader::{self, OUT_OF_RANGE};
use crate::source::Source;
use crate::text::{self, Line};
use std::collections::{BTreeMap, BTreeSet};

/// A way is a sort of filter that a report meets, or how a frame brings its item to the reader.
#[derive(Default)]
pub struct Pids {
    right: BTreeMap<String, BTreeSet<u8>>,
    wrong: BTreeMap<String, BTreeSet<u8>>,
    /// Lines refused for nothing but parity.
    refused: BTreeMap<&'static str, usize>,
}

impl Pids {
    /// Looks at a line that is a call, and at the engine as the call left it.
    pub fn look(&mut self, line: &[u8], answer: u32, engine: &Engine) {
        let Line::Words(words) = text::words(line) else {
            return;
        };
        match words[..] {
            [b"lin", source, _, _, pid, errors, _] => {
                let source = text::number(source).unwrap_or(u64::MAX);
                let source = engine.sources().get(source as usize);
                let pid = text::number(pid).and_then(|pid| u8::try_from(pid).ok());
                let errors_fit = text::number(errors).is_some_and(|errors| errors < 16);
                if let (Some(source), Some(pid), true) = (source, pid, errors_fit) {
                    self.look_at_report(source, pid, answer);
                }
            }
            [call @ b"read", frame] | [call @ (b"step" | b"payload" | b"rewrite"), _, frame] => {
                let call = String::from_utf8_lossy(call);
                self.look_at_frame(&call, frame, answer);
            }
            _ => {}
        }
    }

    /// With no error out of range, answer 5 can have no other cause than the PID's parity.
    fn look_at_report(&mut self, source: &Source, pid: u8, answer: u32) {
        let way = way_of(source, pid).to_string();
        if answer == 0 || answer == u32::from(cause::NO_MATCH) {
            self.right.entry(way).or_default().insert(pid);
        } else if answer == u32::from(cause::OUT_OF_RANGE) {
            self.wrong.entry(way).or_default().insert(pid);
            *self.refused.entry("report").or_default() += 1;
        }
    }

    fn look_at_frame(&mut self, call: &str, frame: &[u8], answer: u32) {
        let Some(frame) = text::bytes(frame) else {
            return;
        };
        if let Ok(read) = reader::read(&frame) {
            for placed in &read.items {
                if let Some(Id::Lin(pid)) = placed.item.id {
                    let flags = frame[placed.start + 2];
                    see(&mut self.right, call, placed.start, flags, pid);
                }
            }
        } else if answer == u32::from(OUT_OF_RANGE) {
            if let Some((start, flags, pid)) = refused_pid(&frame) {
                see(&mut self.wrong, call, start, flags, pid);
                *self.refused.entry("reader").or_default() += 1;
            }
        }
    }

    /// `parity WHERE N` for lines refused, then `pids WAY-right N` and `pids WAY-wrong N` for
    /// different PIDs.
    pub fn report(&self) -> String {
        let mut out = String::new();
        for (place, count) in &self.refused {
            out.push_str(&format!("parity {place} {count}\n"));
        }
        for (parity, ways) in [("right", &self.right), ("wrong", &self.wrong)] {
            for (way, pids) in ways {
                out.push_str(&format!("pids {way}-{parity} {}\n", pids.len()));
            }
        }
        out
    }
}

/// What the filters of the source would do: let every id pass, this one and not all, or not this one.
fn way_of(source: &Source, pid: u8) -> &'static str {
    if (0..pid::IDS).all(|id| source.passes(Id::Lin(pid::of_id(id)))) {
        "all"
    } else if source.passes(Id::Lin(pid)) {
        "matched"
    } else {
        "unmatched"
    }
}

/// An item counts by the call, by its flags and by whether it is the first of its frame.
fn see(seen: &mut BTreeMap<String, BTreeSet<u8>>, call: &str, start: usize, flags: u8, pid: u8) {
    let flags = format!("{:02x}", flags & 0xe0);
    let place = if start == 14 { "first" } else { "later" };
    for way in [call, &flags, place] {
        seen.entry(way.to_string()).or_default().insert(pid);
    }
}

/// The place, the flags and the PID of the item that gets a frame refused with 29, if it is LIN's.
fn refused_pid(frame: &[u8]) -> Option<(usize, u8, u8)> {
    let start = reader::refused_item(frame)?;
    let flags = frame[start + 2];
    let state = usize::from(flags >> 7);
    let is_lin = flags & 0x1f == Kind::Lin as u8;
    is_lin.then(|| (start, flags, frame[start + 4 + state]))
}

#[cfg(test)]
mod tests {
    use super::*;
    use crate::play::Player;

    fn counts(script: &str) -> Vec<String> {
        let (mut player, mut pids) = (Player::default(), Pids::default());
        for (i, line) in text::lines(script.as_bytes()).enumerate() {
            let answer = player.line(i + 1, line).unwrap();
            let number = answer.split(' ').next().unwrap().parse().unwrap();
            pids.look(line, number, player.engine());
        }
        pids.report().lines().map(str::to_string).collect()
    }

    const SETUP: &str =
        "setup 32 1 1 2 0 2 1\nstart 0\nstart 1\nlin-mask 0 0 0\nlin-range 1 61 61\n";

    #[test]
    fn pids_of_reports() {
        let reports = [
            "lin 0 1 0 0x7d 0 -",
            "lin 0 1 0 0x80 0 -",
            "lin 0 1 0 0x80 15 -",
            "lin 0 1 0 0x3d 0 -",
            "lin 1 1 0 0x7d 0 -",
            "lin 1 1 0 0xfe 0 -",
            "lin 1 1 0 0x3d 0 -",
            "lin 1 1 0 0x7e 0 -",
        ];
        let expected = [
            "parity report 3",
            "pids all-right 2",
            "pids matched-right 1",
            "pids unmatched-right 1",
            "pids all-wrong 1",
            "pids matched-wrong 1",
            "pids unmatched-wrong 1",
        ];
        assert_eq!(counts(&(SETUP.to_string() + &reports.join("\n"))), expected);
    }

    #[test]
    fn other_causes_count_for_no_pid() {
        let reports = [
            "lin 0 1 0 256 0 -",
            "lin 0 1 0 0x3d 16 -",
            "lin 0 1 0 0x7d 16 -",
            "lin 2 1 0 0x3d 0 -",
            "lin 18446744073709551615 1 0 0x3d 0 -",
            "lin 0 1 1000000000 0x3d 0 -",
            "lin 0 1 0 0x7d 0 000000000000000000",
        ];
        let none: [&str; 0] = [];
        assert_eq!(counts(&(SETUP.to_string() + &reports.join("\n"))), none);
    }

    #[test]
    fn pids_of_frames() {
        let header = "01000000000000100000000000";
        let ask =
            |call: &str, length: &str, items: &str| format!("{call} {header}{length}{items}\n");
        let script = [
            ask("read", "0c", "000062067d00000062068000"),
            ask("step 99", "06", "000062067d00"),
            ask("step 14", "0c", "000062067d00000062063d00"),
            ask("payload 14", "07", "0000e206403d00"),
            ask("rewrite 0", "06", "0000c206407d"),
            ask("read", "07", "0000e206103d00"),
            ask("read", "09", "000061060000080000"),
            ask("read", "05", "000062067d"),
        ];
        let expected = [
            "parity reader 2",
            "pids 60-right 2",
            "pids c0-right 1",
            "pids first-right 1",
            "pids later-right 1",
            "pids read-right 2",
            "pids rewrite-right 1",
            "pids step-right 1",
            "pids 60-wrong 1",
            "pids e0-wrong 1",
            "pids first-wrong 1",
            "pids later-wrong 1",
            "pids payload-wrong 1",
            "pids step-wrong 1",
        ];
        assert_eq!(counts(&script.concat()), expected);
    }
}

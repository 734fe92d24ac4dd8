//! The script while it is being written. Each line is played too, so that the next ones can be
//! chosen by what the engine holds then.

use crate::engine::Engine;
use crate::play::Player;
use crate::random::Random;
use crate::text;

#[derive(Default)]
pub struct Sheet {
    out: Vec<u8>,
    lines: usize,
    player: Player,
}

impl Sheet {
    pub fn lines(&self) -> usize {
        self.lines
    }

    pub fn engine(&self) -> &Engine {
        self.player.engine()
    }

    pub fn into_bytes(self) -> Vec<u8> {
        self.out
    }

    /// The answer to the line, empty where it has none.
    pub fn line(&mut self, line: &str) -> String {
        self.out.extend_from_slice(line.as_bytes());
        self.out.push(b'\n');
        self.lines += 1;
        let answer = self.player.line(self.lines, line.as_bytes());
        answer.unwrap_or_default()
    }

    pub fn text(&mut self, text: &str) {
        for line in text.lines() {
            self.line(line);
        }
    }

    pub fn note(&mut self, note: &str) {
        self.line(&format!("# {note}"));
    }

    pub fn read(&mut self, random: &mut Random, frame: &[u8]) {
        self.line(&format!("read {}", hex(random, frame)));
    }

    pub fn step(&mut self, random: &mut Random, place: u64, frame: &[u8]) {
        self.placed("step", random, place, frame);
    }

    pub fn payload(&mut self, random: &mut Random, place: u64, frame: &[u8]) {
        self.placed("payload", random, place, frame);
    }

    pub fn rewrite(&mut self, random: &mut Random, size: usize, frame: &[u8]) {
        self.placed("rewrite", random, size as u64, frame);
    }

    fn placed(&mut self, call: &str, random: &mut Random, number: u64, frame: &[u8]) {
        let number = spelled(random, number);
        self.line(&format!("{call} {number} {}", hex(random, frame)));
    }

    /// One of the reader's four calls.
    pub fn any_call(&mut self, random: &mut Random, frame: &[u8]) {
        match random.below(4) {
            0 => self.read(random, frame),
            1 => self.step(random, 14, frame),
            2 => self.payload(random, 14, frame),
            _ => {
                let size = random.pick(&[0, frame.len() / 2, frame.len(), frame.len() + 1]);
                self.rewrite(random, size, frame);
            }
        }
    }
}

/// A number in one of the ways in which a script may write it.
pub fn spelled(random: &mut Random, number: u64) -> String {
    let zeros = random.pick(&[1, 3, 25]);
    match random.below(16) {
        0..=9 => number.to_string(),
        10 => format!("{number:0zeros$}"),
        11 | 12 => format!("0x{number:x}"),
        13 | 14 => format!("0x{number:X}"),
        _ => format!("0x{number:0zeros$x}"),
    }
}

pub fn hex(random: &mut Random, bytes: &[u8]) -> String {
    let lower = text::hex(bytes);
    match random.below(4) {
        0 => lower.to_uppercase(),
        1 => mixed_case(random, &lower),
        _ => lower,
    }
}

fn mixed_case(random: &mut Random, word: &str) -> String {
    let change = |c: char| {
        if random.one_in(2) {
            c.to_ascii_uppercase()
        } else {
            c
        }
    };
    word.chars().map(change).collect()
}

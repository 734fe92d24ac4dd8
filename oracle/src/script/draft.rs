//! A call of the engine before it is written: its words, and for each the values at which a program
//! could go wrong.

use super::sheet::{hex, spelled};
use crate::random::Random;

pub const WIDE: u64 = u64::MAX;
pub const NARROW: u64 = u32::MAX as u64;

#[derive(Clone)]
pub enum Word {
    Number {
        value: u64,
        /// The largest number that still makes a call.
        widest: u64,
        edges: Vec<u64>,
    },
    /// The edges are lengths.
    Bytes { bytes: Vec<u8>, edges: Vec<usize> },
}

impl Word {
    /// A number that is out of range outside two bounds.
    pub fn within(value: u64, low: u64, high: u64, widest: u64) -> Word {
        let mut edges = vec![low.wrapping_sub(1), low, high, high.saturating_add(1), 0];
        // Cut to fewer bits these would be in range again; taken as signed they would be negative.
        let cut = [8, 16, 32, 48].map(|bits| value.saturating_add(1 << bits));
        edges.extend(cut.into_iter().filter(|&number| number > high));
        edges.extend([1 << 31, 1 << 63, widest].into_iter().filter(|&n| n > high));
        Word::at_edges(value, widest, &edges)
    }

    pub fn at_edges(value: u64, widest: u64, edges: &[u64]) -> Word {
        let mut edges: Vec<u64> = edges.iter().copied().filter(|&e| e <= widest).collect();
        edges.sort_unstable();
        edges.dedup();
        Word::Number {
            value,
            widest,
            edges,
        }
    }

    pub fn flag(value: bool) -> Word {
        Word::at_edges(u64::from(value), 1, &[0, 1])
    }

    pub fn bytes(bytes: Vec<u8>, edges: &[usize]) -> Word {
        let edges = edges.to_vec();
        Word::Bytes { bytes, edges }
    }

    fn edges(&self) -> usize {
        match self {
            Word::Number { edges, .. } => edges.len(),
            Word::Bytes { edges, .. } => edges.len(),
        }
    }

    fn go_to_edge(&mut self, random: &mut Random, edge: usize) {
        match self {
            Word::Number { value, edges, .. } => *value = edges[edge],
            Word::Bytes { bytes, edges } => *bytes = random.bytes(edges[edge]),
        }
    }

    fn text(&self, random: &mut Random) -> String {
        match self {
            Word::Number { value, .. } => spelled(random, *value),
            Word::Bytes { bytes, .. } => hex(random, bytes),
        }
    }

    /// A word that can't stand here: a number over its width, or an odd number of digits.
    fn too_wide(&self, random: &mut Random) -> String {
        match self {
            Word::Number { widest, .. } if random.one_in(2) => format!("0x{:x}", over(*widest)),
            Word::Number { widest, .. } => over(*widest).to_string(),
            Word::Bytes { .. } => random.pick(&["0", "abc", "0102030"]).to_string(),
        }
    }
}

fn over(widest: u64) -> u128 {
    u128::from(widest) + 1
}

#[derive(Clone)]
pub struct Draft {
    name: &'static str,
    words: Vec<Word>,
}

impl Draft {
    pub fn new(name: &'static str, words: Vec<Word>) -> Draft {
        Draft { name, words }
    }

    fn texts(&self, random: &mut Random) -> Vec<String> {
        let words = self.words.iter().map(|word| word.text(random));
        std::iter::once(self.name.to_string())
            .chain(words)
            .collect()
    }

    pub fn line(&self, random: &mut Random) -> String {
        self.texts(random).join(" ")
    }

    /// The draft with each word at each of its edges, one after another.
    pub fn at_every_edge(&self, random: &mut Random) -> Vec<Draft> {
        let mut drafts = Vec::new();
        for (place, word) in self.words.iter().enumerate() {
            for edge in 0..word.edges() {
                let mut draft = self.clone();
                draft.words[place].go_to_edge(random, edge);
                drafts.push(draft);
            }
        }
        drafts
    }

    /// The draft with each two words at some edge.
    pub fn at_two_edges(&self, random: &mut Random) -> Vec<Draft> {
        let mut drafts = Vec::new();
        for second in 0..self.words.len() {
            for first in 0..second {
                let mut draft = self.clone();
                draft.disturb_word(random, first);
                draft.disturb_word(random, second);
                drafts.push(draft);
            }
        }
        drafts
    }

    /// Some words, fewer rather than more, go to an edge; the first, which most often names a
    /// source, and the last, which may be a payload, more than the others.
    pub fn disturb(&mut self, random: &mut Random) {
        if self.words.is_empty() {
            return;
        }
        let last = self.words.len() - 1;
        for _ in 0..random.pick(&[1, 1, 1, 1, 2, 2, 3, 6]) {
            let any = random.below(self.words.len());
            let place = random.pick(&[any, any, 0, last, last]);
            self.disturb_word(random, place);
        }
    }

    fn disturb_word(&mut self, random: &mut Random, place: usize) {
        let edge = random.below(self.words[place].edges());
        self.words[place].go_to_edge(random, edge);
    }

    /// Lines that are no call: each word too wide, one missing, one too many.
    pub fn every_bad_line(&self, random: &mut Random) -> Vec<String> {
        let good = self.texts(random);
        let mut lines = vec![good.join(" ") + " 0", good[..good.len() - 1].join(" ")];
        for (i, word) in self.words.iter().enumerate() {
            let mut texts = good.clone();
            texts[i + 1] = word.too_wide(random);
            lines.push(texts.join(" "));
        }
        lines
    }

    /// A line that is almost this call.
    pub fn bad_line(&self, random: &mut Random) -> String {
        let mut texts = self.texts(random);
        let place = random.below(texts.len());
        match random.below(5) {
            0 if place > 0 => {
                texts.remove(place);
            }
            1 => texts.insert(place, random.pick(&["", "0", "-", "00"]).to_string()),
            2 if place > 0 => texts[place] = self.words[place - 1].too_wide(random),
            3 => texts[place].push(random.pick(&['g', 'x', '\t', '-', '.'])),
            _ => {
                let bad = random.pick(&["", "0x", "x", "-1", "+1", "0X1", "1.", "--", "é"]);
                texts[place] = bad.to_string();
            }
        }
        texts.join(" ")
    }
}

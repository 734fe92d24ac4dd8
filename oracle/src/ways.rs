//! How often each way was met in which a recording can come, and the word for a field's tag in it.

use crate::recording::{FRAME, NOTE, START};
use std::collections::BTreeMap;

#[derive(Default)]
pub struct Ways {
    counts: BTreeMap<String, usize>,
}

impl Ways {
    pub fn add(&mut self, way: impl Into<String>) {
        *self.counts.entry(way.into()).or_default() += 1;
    }

    pub fn add_if(&mut self, holds: bool, way: &str) {
        if holds {
            self.add(way);
        }
    }

    /// `WAY N` for each, with this before it.
    pub fn report(&self, before: &str) -> Vec<u8> {
        let line = |(way, count): (&String, &usize)| format!("{before}{way} {count}\n");
        self.counts.iter().map(line).collect::<String>().into()
    }
}

pub fn sort(tag: u8) -> &'static str {
    match tag {
        FRAME => "frame",
        NOTE => "note",
        START => "start",
        _ => "unknown",
    }
}

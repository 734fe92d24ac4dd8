//! How often a script says that a send failed, in which way it is refused or accepted, and what
//! becomes of the loss.

use crate::calls;
use crate::engine::Engine;
use crate::text::{self, Line};
use std::collections::{BTreeMap, BTreeSet};

/// What became of the frame last taken.
#[derive(Clone, Copy, Default, PartialEq)]
enum Last {
    /// There is none that this engine would remember.
    #[default]
    None,
    Out,
    Failed,
    /// It was out when this call made the engine forget it.
    Offline,
    Switch,
    New,
}

#[derive(Default)]
pub struct Sends {
    counts: BTreeMap<String, usize>,
    last: Last,
    /// A take was refused since then.
    refused_take: bool,
    /// How many takes were accepted since the last failure, and what was called since the last take.
    takes: usize,
    deeds: BTreeSet<String>,
    /// How many failures no item has told, and the frame that was being filled at the last of them.
    pending: usize,
    filling: Vec<u8>,
    /// A discard that no item has told.
    discarded: bool,
    /// The call that put the failure count back to 0.
    zeroed_by: String,
}

/// A call of the engine that was answered, with the engine before it and after it.
struct Call<'a> {
    name: &'a str,
    words: &'a [&'a [u8]],
    answer: &'a str,
    before: &'a Engine,
    after: &'a Engine,
}

impl Sends {
    /// Looks at a line that was answered, and at the engine before and after it.
    pub fn look(&mut self, line: &[u8], answer: &str, before: &Engine, after: &Engine) {
        let Line::Words(words) = text::words(line) else {
            return;
        };
        let name = std::str::from_utf8(words[0]).unwrap_or_default();
        match name {
            _ if answer.starts_with('?') => {
                self.count("bad", ["failed", "failures"].contains(&name))
            }
            "read" | "step" | "payload" | "rewrite" => {}
            _ => self.look_at_call(&Call {
                name,
                words: &words[1..],
                answer,
                before,
                after,
            }),
        }
    }

    fn look_at_call(&mut self, call: &Call) {
        let number = call.answer.split(' ').next().unwrap_or_default();
        let deed = if number == "0" { call.name } else { number };
        self.look_at_loss(call, deed);
        match (call.name, number) {
            ("failed", "0") => return self.look_at_accepted(call.before),
            ("failed", _) => self.look_at_refused(call.before),
            ("failures", _) => self.look_at_count(call.before),
            ("take", "0") => return self.look_at_take(),
            ("take", _) => self.refused_take = true,
            ("offline", _) => self.begin_again(Last::Offline, call),
            ("switch", "0") => self.begin_again(Last::Switch, call),
            ("new", _) => self.begin_again(Last::New, call),
            _ => {}
        }
        self.deeds.insert(deed.to_string());
    }

    fn look_at_accepted(&mut self, before: &Engine) {
        let framer = before.framer();
        self.count("empty", framer.filling().is_empty());
        self.count("filling", !framer.filling().is_empty());
        let room = framer.limits().room;
        self.count("queue-full", framer.waiting() as u64 == room);
        self.count("discard-pending", self.discarded);
        self.count("failure-pending", self.pending > 0);
        self.count("after-take", self.takes > 1);
        for deed in std::mem::take(&mut self.deeds) {
            self.count(&format!("after-{deed}"), true);
        }
        self.pending += 1;
        self.filling = framer.filling().to_vec();
        self.last = Last::Failed;
        self.refused_take = false;
    }

    fn look_at_refused(&mut self, before: &Engine) {
        let way = match self.last {
            Last::Failed => "twice",
            Last::Offline => "offline",
            Last::Switch => "switch",
            _ if before.sources().is_empty() => "before-setup",
            _ => "no-take",
        };
        self.count(&format!("17-{way}"), true);
        self.count(&format!("17-{way}-take"), self.refused_take);
        self.count("17-new", self.last == Last::New);
        let several = self.last == Last::Failed && self.takes > 1;
        self.count("17-twice-of-several", several);
    }

    fn look_at_count(&mut self, before: &Engine) {
        let (failures, discards) = (before.failures(), before.discards());
        let zeroed = failures == 0 && !self.zeroed_by.is_empty();
        self.count(&format!("count-0-{}", self.zeroed_by), zeroed);
        self.count("count-over-0", failures > 0);
        self.count("count-over-255", failures > 255);
        let apart = failures > 0 && discards > 0 && failures != discards;
        self.count("count-apart", apart);
    }

    fn look_at_take(&mut self) {
        let failed = self.last == Last::Failed;
        self.takes = if failed { 1 } else { self.takes + 1 };
        self.last = Last::Out;
        self.refused_take = false;
        self.deeds.clear();
    }

    fn begin_again(&mut self, by: Last, call: &Call) {
        self.count(&format!("dropped-{}", call.name), self.pending > 0);
        if call.before.failures() > 0 {
            self.zeroed_by = call.name.to_string();
        } else if by == Last::New {
            self.zeroed_by.clear();
        }
        self.last = match self.last {
            Last::Out => by,
            Last::Failed => Last::None,
            other => other,
        };
        (self.pending, self.takes) = (0, 0);
        (self.discarded, self.refused_take) = (false, false);
    }

    /// What the call makes of a failure that no item has told.
    fn look_at_loss(&mut self, call: &Call, deed: &str) {
        let makes_an_item = call.makes_an_item();
        let discards = call.before.discards() < call.after.discards();
        let both = self.pending > 0 && discards;
        self.count("then-discard-report", both && call.name != "tick");
        self.count("then-discard-tick", both && !makes_an_item);
        if self.pending > 0 && makes_an_item {
            self.look_at_told(call);
            self.pending = 0;
        } else if call.after.framer().lost() {
            self.count(&format!("kept-{deed}"), self.pending > 0);
        }
        self.discarded = call.after.framer().lost() && (self.discarded || discards);
    }

    fn look_at_told(&mut self, call: &Call) {
        let (before, after) = (call.before.framer(), call.after.framer());
        let by = if call.name == "tick" {
            "state"
        } else {
            call.name
        };
        self.count(&format!("told-{by}"), true);
        let unknown = call.source_is_unknown();
        self.count("told-unknown", unknown);
        self.count("told-known", !unknown);
        let between = !self.filling.is_empty() && after.filling().starts_with(&self.filling);
        self.count("told-between", between);
        let opens = !before.filling().is_empty() && !between;
        self.count("told-opening", opens);
        self.count("told-behind", call.answer.contains("back"));
        self.count("told-several", self.pending > 1);
        self.look_at_length(call);
    }

    /// What the byte for the state, where it is there for the loss alone, makes of the frame.
    fn look_at_length(&mut self, call: &Call) {
        let (before, after) = (call.before.framer(), call.after.framer());
        let mut without = call.before.without_loss();
        calls::call(&mut without, call.name.as_bytes(), call.words);
        let start = before.filling();
        let stays = |engine: &Engine| engine.framer().filling().starts_with(start);
        if start.is_empty() || !stays(&without) {
            return;
        }
        let grown = without.framer().filling().len() < after.filling().len();
        let full = after.filling().len() as u64 == after.limits().size;
        let closes = !stays(call.after);
        self.count("grown-fits", !closes && grown && full);
        self.count("grown-closes", closes);
        let discards = before.discards() < after.discards();
        self.count("grown-discards", closes && discards);
    }

    fn count(&mut self, what: &str, holds: bool) {
        if holds {
            *self.counts.entry(what.to_string()).or_default() += 1;
        }
    }

    /// `failed WHAT N`.
    pub fn report(&self) -> String {
        let counts = self.counts.iter();
        counts
            .map(|(what, count)| format!("failed {what} {count}\n"))
            .collect()
    }
}

impl Call<'_> {
    fn makes_an_item(&self) -> bool {
        let accepted = self.answer.starts_with('0');
        let mut sources = self.before.sources().iter();
        match self.name {
            "can" | "lin" | "flexray" | "conflict" | "flexray-error" => accepted,
            "tick" => accepted && sources.any(|source| source.owes_state()),
            _ => false,
        }
    }

    /// Also behind the report, which makes it known for some kinds.
    fn source_is_unknown(&self) -> bool {
        let number = self.words.first().and_then(|word| text::number(word));
        let number = number.filter(|_| self.name != "tick");
        let source = number.and_then(|number| self.after.sources().get(number as usize));
        source.is_some_and(|source| !source.state.is_known())
    }
}

#[cfg(test)]
#[path = "count_failed_tests.rs"]
mod tests;

//! Which ways recordings come that a checker or a mender could get wrong: verdicts, neighbours, rests,
//! and files as a whole. The counts of several recordings are added up by `tools/check-recordings`.

use crate::check::{mend, verdict, Verdict};
use crate::hits::{hits, hits_lengths};
use crate::reader;
use crate::recording::{fields, Field, FRAME, HEAD, LONGEST_BODY, NOTE, START, START_LENGTH};
use crate::ways::{sort, Ways};

/// `check-NAME N` for each way that occurred in a recording.
pub fn report(recording: &[u8]) -> Vec<u8> {
    report_all([recording])
}

/// The same for all that `hits` makes of the complete fields, one behind the other as one recording.
pub fn report_hits(recording: &[u8]) -> Vec<u8> {
    let rest = fields(recording).1.len();
    let complete = &recording[..recording.len() - rest];
    report(&hits(complete).concat())
}

/// The same for each that `hits_lengths` makes, by itself.
pub fn report_hits_lengths(recording: &[u8]) -> Vec<u8> {
    let made = hits_lengths(recording);
    report_all(made.iter().map(Vec::as_slice))
}

/// The same for every part of the recording that starts where it does.
pub fn report_cuts(recording: &[u8]) -> Vec<u8> {
    report_all((0..=recording.len()).map(|end| &recording[..end]))
}

fn report_all<'a>(recordings: impl IntoIterator<Item = &'a [u8]>) -> Vec<u8> {
    let mut ways = Ways::default();
    for recording in recordings {
        ways.look_to_mend(recording);
    }
    ways.report("check-")
}

#[derive(Clone, Copy)]
struct Judged<'a> {
    field: Field<'a>,
    verdict: Verdict,
}

impl Judged<'_> {
    fn length(self) -> usize {
        self.field.body.len()
    }

    fn is_bad(self) -> bool {
        matches!(self.verdict, Verdict::Bad(_))
    }

    fn word(self) -> &'static str {
        match self.verdict {
            Verdict::Good => "good",
            Verdict::Bad(_) => "bad",
            Verdict::Unknown => "unknown",
        }
    }
}

impl Ways {
    fn look_to_mend(&mut self, recording: &[u8]) {
        let (fields, rest) = fields(recording);
        let judge = |&field: &Field<'_>| verdict(field);
        let verdicts: Vec<Verdict> = fields.iter().map(judge).collect();
        let pairs = fields.iter().zip(&verdicts);
        let judged: Vec<Judged> = pairs
            .map(|(&field, &verdict)| Judged { field, verdict })
            .collect();
        for &one in &judged {
            self.look_at_judged(one);
        }
        for pair in judged.windows(2) {
            self.look_at_pair(pair[0], pair[1]);
        }
        for three in judged.windows(3) {
            self.look_at_three(three);
        }
        self.look_at_rest(rest, judged.last().copied());
        self.look_at_file(recording, &judged, rest);
    }

    fn look_at_judged(&mut self, judged: Judged) {
        let (tag, length) = (judged.field.tag, judged.length());
        self.add("fields");
        match judged.verdict {
            Verdict::Good => self.look_at_good(tag, length),
            Verdict::Bad(answer) => {
                self.add(format!("bad-{tag}-{answer}"));
                self.look_at_bad(judged.field);
            }
            Verdict::Unknown => self.look_at_unknown(length),
        }
    }

    fn look_at_good(&mut self, tag: u8, length: usize) {
        self.add(format!("good-{tag}"));
        self.add_if(length == LONGEST_BODY, &format!("good-{tag}-of-1472"));
        self.add_if(length == 0, "good-of-0");
    }

    /// Where two causes hold, or another tag's would.
    fn look_at_bad(&mut self, field: Field) {
        let (length, long) = (field.body.len(), field.body.len() > LONGEST_BODY);
        self.add_if(length == 0, "bad-of-0");
        self.add_if(length == 65_535, "bad-of-65535");
        match field.tag {
            FRAME if long => {
                let wrong = reader::read(field.body).is_err();
                self.add_if(wrong, "bad-1-41-wrong-too");
                self.add_if(!wrong, "bad-1-41-right-else");
            }
            NOTE => self.add_if(length == LONGEST_BODY + 1, "bad-2-of-1473"),
            START if length == START_LENGTH => self.add("bad-3-nanos"),
            START => self.add(if long {
                "bad-3-over-1472"
            } else {
                "bad-3-length"
            }),
            _ => {}
        }
    }

    fn look_at_unknown(&mut self, length: usize) {
        self.add("unknown");
        self.add_if(length > LONGEST_BODY, "unknown-over-1472");
        for edge in [0, 1_472, 1_473, 65_535] {
            self.add_if(length == edge, &format!("unknown-of-{edge}"));
        }
    }

    /// What a field leaves behind would show in the next one, most of all where that is judged by the
    /// same bytes, or is a byte shorter than what is too long.
    fn look_at_pair(&mut self, first: Judged, then: Judged) {
        self.add(format!("{}-after-{}", then.word(), first.word()));
        if !first.is_bad() || then.verdict != Verdict::Good {
            return;
        }
        let tag = then.field.tag;
        self.add(format!("good-{tag}-after-bad"));
        let same = first.field.tag == tag;
        self.add_if(same, &format!("good-{tag}-after-bad-{tag}"));
        self.add_if(
            same && then.length() < first.length(),
            "good-after-bad-longer",
        );
        self.add_if(
            same && then.length() > first.length(),
            "good-after-bad-shorter",
        );
        self.add_if(
            same && then.length() == first.length(),
            "good-after-bad-same-length",
        );
        let edge = first.length() == LONGEST_BODY + 1;
        self.add_if(
            edge && then.length() == LONGEST_BODY,
            "good-of-1472-after-1473",
        );
    }

    fn look_at_three(&mut self, three: &[Judged]) {
        let words = [three[0].word(), three[1].word(), three[2].word()];
        if words[0] == words[2] && words[0] != words[1] {
            self.add(format!("{}-between-{}", words[1], words[0]));
        }
        self.add_if(words == ["bad"; 3], "bad-three");
    }

    fn look_at_rest(&mut self, rest: &[u8], last: Option<Judged>) {
        let Some(&tag) = rest.first() else {
            return self.add("no-rest");
        };
        self.add("rest");
        self.add(format!("rest-{}", sort(tag)));
        for size in [1, 2, 3, 65_537] {
            self.add_if(rest.len() == size, &format!("rest-of-{size}"));
        }
        self.add_if(rest.len() > HEAD + LONGEST_BODY, "rest-over-1472");
        let before = last.map_or("nothing", Judged::word);
        self.add(format!("rest-after-{before}"));
        if let [_, high, low, ref body @ ..] = *rest {
            let length = usize::from(u16::from_be_bytes([high, low]));
            self.look_at_unfinished(tag, body, length);
        }
    }

    /// How near it is to a field that would be kept, and whether there are fields in it.
    fn look_at_unfinished(&mut self, tag: u8, body: &[u8], length: usize) {
        let misses_one = body.len() + 1 == length;
        self.add_if(misses_one, &format!("rest-but-a-byte-{}", sort(tag)));
        let holds_field = !fields(body).0.is_empty();
        self.add_if(holds_field, "rest-holds-fields");
        let right = verdict(Field { tag, body }).is_kept();
        self.add_if(right, &format!("rest-right-{}", sort(tag)));
    }

    fn look_at_file(&mut self, recording: &[u8], judged: &[Judged], rest: &[u8]) {
        self.add("files");
        self.add_if(recording.is_empty(), "file-empty");
        let has = |word: &str| judged.iter().any(|one| one.word() == word);
        let is_clean = !has("bad") && rest.is_empty();
        self.add_if(is_clean, "file-clean");
        self.add_if(is_clean && !recording.is_empty(), "file-clean-with-fields");
        self.add_if(!judged.is_empty() && !has("good"), "file-nothing-good");
        let empty_copy = !recording.is_empty() && mend(recording).is_empty();
        self.add_if(empty_copy, "file-empty-copy");
        self.add_if(empty_copy && has("bad"), "file-all-bad");
        if let (Some(first), Some(last)) = (judged.first(), judged.last()) {
            self.add(format!("file-first-{}", first.word()));
            let end = if rest.is_empty() { "" } else { "-before-rest" };
            self.add(format!("file-last-{}{end}", last.word()));
        }
    }
}

#[cfg(test)]
#[path = "count_check_tests.rs"]
mod tests;

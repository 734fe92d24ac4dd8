//! What holds of every recording, tried on made ones: damaged, with damaged lengths, and with each
//! byte damaged in turn.

use super::*;
use crate::damaged::{self, spots};
use crate::hits::{hits, hits_lengths};
use crate::{check_pieces, damaged_lengths, listing, recording_maker};
use std::sync::OnceLock;

/// Some long ones, and small ones in all the ways in which a byte can be bad. They are made once.
fn made() -> &'static [Vec<u8>] {
    static MADE: OnceLock<Vec<Vec<u8>>> = OnceLock::new();
    MADE.get_or_init(make_all)
}

fn make_all() -> Vec<Vec<u8>> {
    let mut made = Vec::new();
    for seed in 0..6 {
        made.push(recording_maker::make(seed, 40));
        made.push(damaged::make(seed, 40));
    }
    for seed in 0..20 {
        made.push(damaged_lengths::make(seed, (seed % 9) as usize));
    }
    made.extend(hits(&recording_maker::make_sound(1, 6)));
    made.extend(hits(&recording_maker::make_small(2, 4)));
    made.extend(hits_lengths(&recording_maker::make_small(3, 8)));
    made
}

fn lines(recording: &[u8]) -> Vec<String> {
    let text = String::from_utf8(check(recording)).unwrap();
    text.lines().map(str::to_string).collect()
}

fn is_of(line: &str, words: &[&str]) -> bool {
    words.contains(&line.split(' ').next().unwrap())
}

#[test]
fn a_copy_is_mended_to_itself() {
    for recording in made() {
        let copy = mend(recording);
        assert!(mend(&copy) == copy);
    }
}

/// All other lines stay, and the counts of their fields.
#[test]
fn the_check_of_a_copy_is_that_of_the_file_without_its_bad_lines() {
    for recording in made() {
        let (before, after) = (lines(recording), lines(&mend(recording)));
        let kept = |line: &&String| is_of(line, &["good", "unknown"]);
        let wanted: Vec<&String> = before.iter().filter(kept).collect();
        let (last, fields) = after.split_last().unwrap();
        assert_eq!(fields.iter().collect::<Vec<_>>(), wanted);
        let of = |word| wanted.iter().filter(|line| is_of(line, &[word])).count();
        assert_eq!(*last, format!("fields {} 0 {}", of("good"), of("unknown")));
    }
}

#[test]
fn what_has_nothing_bad_and_no_rest_is_its_own_copy() {
    for seed in 0..8 {
        let sound = recording_maker::make_sound(seed, 20);
        assert!(!lines(&sound).iter().any(|l| is_of(l, &["bad", "rest"])));
        assert!(mend(&sound) == sound);
    }
    let mut clean = 0;
    for recording in made() {
        let is_clean = !lines(recording).iter().any(|l| is_of(l, &["bad", "rest"]));
        assert_eq!(mend(recording) == *recording, is_clean);
        clean += usize::from(is_clean);
    }
    assert!(clean > 50, "{clean}");
}

#[test]
fn a_copy_is_listed_without_a_refusal() {
    for recording in made() {
        let copy = mend(recording);
        let listed = String::from_utf8(listing::list(&copy)).unwrap();
        assert!(!listed.lines().any(|line| line.starts_with("refused")));
        let unknown = lines(recording)
            .iter()
            .filter(|line| is_of(line, &["unknown"]))
            .count();
        let last = listed.lines().last().unwrap();
        assert_eq!(last, format!("end 0 {unknown}"));
    }
}

/// The lines of `list` and of `check` are of the same fields.
#[test]
fn check_and_list_agree_on_every_field() {
    for recording in made() {
        let mut expected = Vec::new();
        let listed = String::from_utf8(listing::list(recording)).unwrap();
        for line in listed.lines().filter(|line| !line.starts_with(' ')) {
            let words: Vec<&str> = line.split(' ').collect();
            expected.push(match words[..] {
                ["refused", tag, answer] => format!("bad {tag} {answer}"),
                ["skipped", tag, length] => format!("unknown {tag} {length}"),
                ["end", "0", _] => continue,
                ["end", answer, _] => format!("rest {answer}"),
                _ => "good".to_string(),
            });
        }
        let mut checked = lines(recording);
        checked.pop();
        assert_eq!(checked.len(), expected.len());
        for (line, start) in checked.iter().zip(&expected) {
            assert!(line.starts_with(start.as_str()), "{line}: {start}");
        }
    }
}

#[test]
fn pieces_are_checked_and_mended_as_the_whole() {
    for (i, recording) in made().iter().enumerate() {
        let sizes = [1 + i % 7, i % 3, 1_470 + i % 9];
        assert!(check_pieces::check(recording, &sizes) == check(recording));
        assert!(check_pieces::mend(recording, &sizes) == mend(recording));
    }
}

/// As if there were no other field in the file.
#[test]
fn a_field_is_judged_alone() {
    for recording in made().iter().take(32) {
        let all = lines(recording);
        for (spot, line) in spots(recording).into_iter().zip(&all) {
            let alone = lines(&recording[spot.tag..spot.end]);
            assert_eq!(alone[0], *line);
            assert_eq!(alone.len(), 2);
        }
    }
}

#[test]
fn where_lengths_are_left_alone_a_field_that_was_not_hit_keeps_its_line() {
    let (mut spared, mut hit) = (0, 0);
    for seed in 0..20 {
        let (before, after) = (recording_maker::make(seed, 40), damaged::make(seed, 40));
        let (old, new) = (lines(&before), lines(&after));
        assert_eq!(old.len(), new.len());
        for (i, spot) in spots(&before).into_iter().enumerate() {
            let bytes = spot.tag..spot.end;
            if before[bytes.clone()] == after[bytes] {
                spared += 1;
                assert_eq!(old[i], new[i]);
            } else {
                hit += 1;
            }
        }
    }
    assert!(spared > 200 && hit > 200, "{spared} {hit}");
}

/// Of one hit field at most the copy has nothing; the others are all in it.
#[test]
fn what_was_not_hit_is_in_the_copy() {
    for seed in 0..3 {
        let sound = recording_maker::make_sound(seed, 12);
        let spots = spots(&sound);
        for damaged in hits(&sound) {
            let at = (0..sound.len()).find(|&at| damaged[at] != sound[at]);
            let hit = spots.iter().find(|spot| Some(spot.end) > at).unwrap();
            let without = [&sound[..hit.tag], &sound[hit.end..]].concat();
            let copy = mend(&damaged);
            assert!(copy == damaged || copy == without);
        }
    }
}

//! Makes call scripts from a seed. The first part walks through every sort of line once, in order;
//! the rest mixes them until the script is as long as asked for.

mod bad;
mod calls;
mod clock;
pub mod damage;
mod draft;
mod edges;
mod episode;
mod error_frames;
mod error_reports;
mod failed;
mod failed_items;
mod garble;
mod long;
mod near;
mod opening;
mod order;
mod pid_frames;
mod pid_reports;
pub mod raw;
mod scene;
pub mod sheet;
mod sweep;
pub mod valid;

use crate::random::Random;
use sheet::Sheet;

/// A short script still is no walk alone.
const LEAST_MIX: usize = 3_000;

/// The worked example, written by hand.
const HEAD: &str = include_str!("head.txt");

pub fn make(seed: u64, lines: usize) -> Vec<u8> {
    let mut random = Random::new(seed);
    let mut sheet = Sheet::default();
    sheet.text(HEAD);
    opening::fixed_episodes(&mut sheet);
    episode::before_setup(&mut sheet);
    sheet.note(&format!("Made from seed {seed}."));
    edges::every_edge(&mut sheet, &mut random);
    pid_reports::every_report(&mut sheet, &mut random);
    clock::every_step_back(&mut sheet);
    failed::every_failure(&mut sheet);
    failed_items::every_item(&mut sheet);
    error_reports::every_error(&mut sheet);
    valid::every_form(&mut sheet, &mut random);
    sweep::every_value(&mut sheet, &mut random);
    pid_frames::every_frame(&mut sheet, &mut random);
    error_frames::every_frame(&mut sheet, &mut random);
    damage::every_damage(&mut sheet, &mut random);
    order::two_causes(&mut sheet, &mut random);
    bad::every_bad_line(&mut sheet, &mut random);
    long::long_lines(&mut sheet, &mut random);
    sheet.note("A mix of all of these.");
    let lines = lines.max(sheet.lines() + LEAST_MIX);
    while sheet.lines() < lines {
        mixed(&mut sheet, &mut random);
    }
    sheet.into_bytes()
}

/// The mix alone, for whoever puts lines of his own between.
pub fn mix(random: &mut Random, lines: usize) -> Vec<u8> {
    let mut sheet = Sheet::default();
    while sheet.lines() < lines {
        mixed(&mut sheet, random);
    }
    sheet.into_bytes()
}

fn mixed(sheet: &mut Sheet, random: &mut Random) {
    if random.one_in(4) {
        episode::any_episode(sheet, random);
        return;
    }
    match random.below(12) {
        0..=2 => valid::any_frame(sheet, random),
        3 => damage::cut(sheet, random),
        4 => damage::scattered(sheet, random),
        5 => damage::random_bytes(sheet, random),
        6..=7 => damage::any_damage(sheet, random),
        8..=9 => order::any_two(sheet, random),
        _ => bad::any_line(sheet, random),
    }
}

#[cfg(test)]
mod tests {
    use super::*;
    use crate::{count, play, text};

    #[test]
    fn the_same_seed_makes_the_same_script() {
        assert_eq!(make(7, 3_000), make(7, 3_000));
        assert_ne!(make(7, 3_000), make(8, 3_000));
    }

    #[test]
    fn a_script_is_as_long_as_asked_for() {
        assert!(text::lines(&make(3, 9_000)).count() >= 9_000);
    }

    #[test]
    fn the_head_answers_without_a_refusal_but_the_wrong_place() {
        let answers = String::from_utf8(play::answers(HEAD.as_bytes())).unwrap();
        let refused: Vec<&str> = answers
            .lines()
            .filter(|a| !a.starts_with("0 ") && *a != "0")
            .collect();
        assert_eq!(refused.len(), 2);
        assert!(refused[0].starts_with("30 "));
        assert!(refused[1].starts_with("12 "));
    }

    #[test]
    fn every_refusal_occurs_whatever_the_seed() {
        for seed in 0..5 {
            let counts = String::from_utf8(count::report(&make(seed, 0))).unwrap();
            for refusal in 20..=29 {
                let wanted = format!("read {refusal} ");
                assert!(counts.contains(&wanted), "{refusal} with seed {seed}");
            }
            assert!(counts.contains("step 30 ") && counts.contains("rewrite 12 "));
            for cause in (1..=14).chain([17]) {
                let wanted = format!(" {cause} ");
                assert!(counts.contains(&wanted), "{cause} with seed {seed}");
            }
            assert!(!counts.contains("taken unreadable"));
        }
    }

    #[test]
    fn every_first_byte_of_an_id_comes_whatever_the_seed() {
        for seed in 0..2 {
            let counts = String::from_utf8(count::report(&make(seed, 0))).unwrap();
            for wanted in [
                "bytes-60 256",
                "bytes-e0 256",
                "bytes-c0 256",
                "updates-right 4",
                "updates-wrong 60",
            ] {
                let line = format!("\nerror {wanted}\n");
                assert!(counts.contains(&line), "{wanted} with seed {seed}");
            }
        }
    }

    #[test]
    fn every_pid_comes_every_way_whatever_the_seed() {
        let ways = [
            "all",
            "matched",
            "unmatched",
            "read",
            "step",
            "60",
            "e0",
            "c0",
            "first",
            "later",
        ];
        for seed in 0..5 {
            let counts = String::from_utf8(count::report(&make(seed, 0))).unwrap();
            for way in ways {
                for wanted in [format!("{way}-right 64"), format!("{way}-wrong 192")] {
                    let line = format!("\npids {wanted}\n");
                    assert!(counts.contains(&line), "{wanted} with seed {seed}");
                }
            }
        }
    }
}

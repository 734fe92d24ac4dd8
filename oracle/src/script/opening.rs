//! Fixed episodes: the worked examples of the rules, and what needs many frames in a row.

use super::sheet::Sheet;

const OPENING: &str = include_str!("opening.txt");

/// The smallest frame, full after one report of 8 bytes.
const FULL_AT_ONCE: &str = "new\nsetup 32 1 0 1 5\nstart 0\ncan-mask 0 0 0\n";

pub fn fixed_episodes(sheet: &mut Sheet) {
    sheet.text(OPENING);
    sequence_numbers(sheet);
    discards_in_a_row(sheet);
}

fn full_report(sheet: &mut Sheet, second: usize) {
    sheet.line(&format!("can 0 {second} 0 0x123 0102030405060708"));
}

/// Each frame is called failed, so that every item tells a loss.
fn sequence_numbers(sheet: &mut Sheet) {
    sheet.note("Sequence number 255, then 0, and 258 sends that failed.");
    sheet.text(FULL_AT_ONCE);
    full_report(sheet, 0);
    for second in 1..=258 {
        full_report(sheet, second);
        sheet.line("take 32");
        sheet.line("failed");
        if second > 253 {
            sheet.line("failures");
        }
    }
}

/// 256 discards leave no gap in the sequence numbers.
fn discards_in_a_row(sheet: &mut Sheet) {
    sheet.note("256 discards in a row.");
    sheet.text(FULL_AT_ONCE);
    for second in 0..=257 {
        full_report(sheet, second);
    }
    for second in 258..=260 {
        sheet.line("discards");
        sheet.line("take 32");
        full_report(sheet, second);
    }
}

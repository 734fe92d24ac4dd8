//! Lines that are no call, lines that answer nothing, and lines that only look odd.

use super::sheet::{hex, Sheet};
use super::valid;
use crate::random::Random;

/// `F` stands for the digits of a right frame.
const BAD: [&str; 79] = [
    // no such call
    "reads F",
    "READ F",
    "Read F",
    "rea F",
    "F",
    "-",
    "0",
    "0x",
    "?",
    "end",
    "read,F",
    "step:14",
    "read-F",
    "news",
    "New",
    "é",
    // a word missing or too many
    "read",
    "step",
    "step 14",
    "step F",
    "payload",
    "payload 14",
    "payload F",
    "rewrite",
    "rewrite 36",
    "rewrite F",
    "new 0",
    "new -",
    "new new",
    "read F F",
    "read 14 F",
    "step 14 F -",
    "payload 14 F 0",
    "rewrite 99 F F",
    "failed 0",
    "failed -",
    "failed F",
    "failures 0",
    "failures -",
    "flexray-error",
    "flexray-error 0 16 0 3",
    "flexray-error 0 16 0 3 10 0",
    "flexray-error 0 16 0 3 1 10",
    "flexray-error 0 16 0 3 10 -",
    "flexray-errors 0 16 0 3 10",
    "flexray_error 0 16 0 3 10",
    "flexray error 0 16 0 3 10",
    // spaces where none belong, and separators that are none
    " read F",
    "  new",
    "read  F",
    "step  14 F",
    "step 14  F",
    "read\tF",
    "\tnew",
    "new\r",
    "read F\r",
    // numbers
    "step -1 F",
    "step +14 F",
    "step 0x F",
    "step 0X0e F",
    "step 1e1 F",
    "step 14. F",
    "step 0b11 F",
    "step 0xg F",
    "step - F",
    "payload 18446744073709551616 F",
    "payload 0x10000000000000000 F",
    "step 99999999999999999999999999 F",
    "rewrite 70001 F",
    "rewrite 0x11171 F",
    "rewrite 18446744073709551616 F",
    "rewrite ３６ F",
    // bytes
    "read F0",
    "read 0xF",
    "read --",
    "read -F",
    "read Fg0",
    "step 14 F:",
    "rewrite 40 0",
];

const SKIPPED: [&str; 8] = ["", " ", "     ", "#", "# new", "   # read", "##", "#F"];

const ODD_BUT_RIGHT: [&str; 12] = [
    "new",
    "new ",
    "new    ",
    "new#",
    "new # new",
    "read F  ",
    "read F#",
    "read F # F",
    "step 0000000000000000000000000014 F",
    "step 0x000000000000000000000000e F#14",
    "read -",
    "rewrite 0 -",
];

fn write(sheet: &mut Sheet, random: &mut Random, pattern: &str) {
    let items = valid::any_items(random, 1);
    let frame = valid::frame(random, items).bytes();
    let digits = hex(random, &frame);
    sheet.line(&pattern.replace('F', &digits));
}

pub fn every_bad_line(sheet: &mut Sheet, random: &mut Random) {
    sheet.note("Lines that are no call, that answer nothing, and that are right but look odd.");
    for pattern in BAD.iter().chain(&SKIPPED).chain(&ODD_BUT_RIGHT) {
        write(sheet, random, pattern);
    }
}

pub fn any_line(sheet: &mut Sheet, random: &mut Random) {
    match random.below(8) {
        0..=4 => {
            let pattern = random.pick(&BAD);
            write(sheet, random, pattern);
        }
        5 => {
            let pattern = random.pick(&SKIPPED);
            write(sheet, random, pattern);
        }
        _ => {
            let pattern = random.pick(&ODD_BUT_RIGHT);
            write(sheet, random, pattern);
        }
    }
}

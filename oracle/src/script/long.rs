//! Long frames and long lines, a few of each: they are most of a script's size.

use super::raw::{RawFrame, FLEXRAY, ID, KINDS, LIN, PAYLOAD, STATE};
use super::sheet::Sheet;
use super::valid;
use crate::random::Random;
use crate::text::LONGEST_LINE;

pub fn long_lines(sheet: &mut Sheet, random: &mut Random) {
    sheet.note("Frames of some thousand bytes.");
    for least in [1_000, 2_000, 3_500, 4_700] {
        some_thousand(sheet, random, least);
    }
    sheet.note("The longest frames: DataLength 65,535.");
    longest_of_payloads(sheet, random);
    longest_of_states(sheet, random);
    sheet.note("Lines of just as many characters as a line may have, and of one more.");
    longest_lines(sheet, random);
    sheet.note("Setups of many sources.");
    many_sources(sheet);
}

fn some_thousand(sheet: &mut Sheet, random: &mut Random, least: u64) {
    let mut frame = valid::frame(random, Vec::new());
    while frame.places().last().is_none_or(|&end| end < least) {
        frame.items.push(valid::any_item(random));
    }
    let places = frame.places();
    let end = places[places.len() - 1];
    let bytes = frame.bytes();
    let middle = random.pick(&places[..places.len() - 1]);
    sheet.read(random, &bytes);
    sheet.step(random, middle, &bytes);
    sheet.step(random, places[places.len() - 2], &bytes);
    sheet.payload(random, middle, &bytes);
    sheet.payload(random, end - 1, &bytes);
    sheet.rewrite(random, end as usize, &bytes);
    frame.items.push(valid::item(random, LIN, STATE));
    let last = frame.items.len() - 1;
    frame.items[last].state[0] |= 0x10;
    sheet.step(random, 14, &frame.bytes());
}

/// 250 items of 262 bytes and 7 of 5 bytes are 65,535 bytes.
fn longest_of_payloads(sheet: &mut Sheet, random: &mut Random) {
    let mut frame = valid::frame(random, Vec::new());
    for _ in 0..250 {
        let mut item = valid::item(random, FLEXRAY, ID | PAYLOAD);
        item.set_payload(random.bytes(254));
        frame.items.push(item);
    }
    push_states(&mut frame, random, 7);
    let bytes = frame.bytes();
    sheet.rewrite(random, bytes.len(), &bytes);
    sheet.payload(random, 14 + 249 * 262, &bytes);
}

/// 13,107 items of 5 bytes are 65,535 bytes.
fn longest_of_states(sheet: &mut Sheet, random: &mut Random) {
    let mut frame = valid::frame(random, Vec::new());
    push_states(&mut frame, random, 13_107);
    let mut bytes = frame.bytes();
    let last = bytes.len() - 5;
    sheet.step(random, last as u64, &bytes);
    bytes[last + 2] = 0x84;
    sheet.read(random, &bytes);
}

fn push_states(frame: &mut RawFrame, random: &mut Random, count: usize) {
    for _ in 0..count {
        let kind = random.pick(&KINDS);
        frame.items.push(valid::item(random, kind, STATE));
    }
}

fn longest_lines(sheet: &mut Sheet, random: &mut Random) {
    let filled = |line: &str, with: &str, length: usize| {
        line.to_string() + &with.repeat(length - line.len())
    };
    let start = valid::frame(random, Vec::new()).bytes_around(&random.bytes(3));
    let start = format!("step 14 {}", crate::text::hex(&start));
    sheet.line(&filled(&start, "a", LONGEST_LINE));
    sheet.line(&filled("new", " ", LONGEST_LINE + 1));
    sheet.line(&filled("new #", "#", LONGEST_LINE));
    sheet.line(&filled("# new", ".", LONGEST_LINE + 1));
}

/// However many sources a setup names, it is a call; half a source makes it none.
fn many_sources(sheet: &mut Sheet) {
    let start = "setup 64 1 1";
    let most = (LONGEST_LINE - start.len()) / " 1 5".len();
    for count in [9, 10, 16, 100, 257, most] {
        sheet.line("new");
        sheet.line(&(start.to_string() + &" 1 5".repeat(count)));
        if count <= 100 {
            sheet.line(&(start.to_string() + &" 1 5".repeat(count) + " 1"));
        }
    }
}

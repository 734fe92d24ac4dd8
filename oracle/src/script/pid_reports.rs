//! Every PID in reports, numbers over a byte, and a wrong PID beside every other cause of a report.

use super::calls;
use super::garble::{garbled, PARITY_BITS};
use super::scene::Scene;
use super::sheet::{hex, spelled, Sheet};
use crate::frame::{Time, LAST_SECOND};
use crate::pid;
use crate::random::Random;

/// The sources of the stage, by what they do with a LIN report.
const TAKES_ALL: u64 = 0;
const TAKES_A_BLOCK: u64 = 1;
const TAKES_THE_OTHERS: u64 = 2;
const STOPPED: u64 = 3;
const WITHOUT_FILTER: u64 = 4;
const OF_CAN: u64 = 5;
const NOT_THERE: u64 = 6;

pub fn every_report(sheet: &mut Sheet, random: &mut Random) {
    sheet.note("Every PID in reports: every id passes, this one and not all, not this one.");
    let mut scene = Scene::new(sheet, random);
    stage(&mut scene);
    // Each script has them in another order.
    let turn = scene.random.byte();
    for i in 0..=255 {
        to_every_filter(&mut scene, i ^ turn);
    }
    let note = "Both ends of a byte, and numbers whose lowest byte is a right PID.";
    scene.sheet.note(note);
    over_a_byte(&mut scene);
    let note = "Wrong parity beside every other cause of a report.";
    scene.sheet.note(note);
    for bits in [PARITY_BITS, PARITY_BITS].concat() {
        let right = any_right(scene.random);
        beside_every_cause(&mut scene, right, right ^ bits);
    }
}

fn any_right(random: &mut Random) -> u8 {
    pid::of_id(random.byte() % pid::IDS)
}

/// One source takes a block of ids by a mask, another takes the rest by ranges: each PID then meets
/// a filter that matches and is not for all, and one that doesn't match.
fn stage(scene: &mut Scene) {
    let size = scene.random.pick(&[1, 2, 4, 8, 16, 32]);
    let first = size * scene.random.below(64 / size);
    let (mask, behind) = (64 - size, first + size);
    let sheet = &mut *scene.sheet;
    sheet.text("new\nsetup 256 4 655 2 0 2 1 2 2 2 3 2 4 1 5");
    for source in (0..NOT_THERE).filter(|&source| source != STOPPED) {
        sheet.line(&format!("start {source}"));
    }
    sheet.line(&format!("lin-mask {TAKES_ALL} 0 0"));
    sheet.line(&format!("lin-mask {STOPPED} 0 0"));
    sheet.line(&format!("lin-mask {TAKES_A_BLOCK} {mask} {first}"));
    if first > 0 {
        sheet.line(&format!("lin-range {TAKES_THE_OTHERS} 0 {}", first - 1));
    }
    if behind < 64 {
        sheet.line(&format!("lin-range {TAKES_THE_OTHERS} {behind} 63"));
    }
}

/// The words of a `lin` line.
#[derive(Clone, Copy)]
struct LinReport {
    source: u64,
    time: Time,
    pid: u32,
    errors: u32,
    /// Of the payload.
    length: usize,
}

impl LinReport {
    /// A report that only its PID can make wrong.
    fn new(scene: &mut Scene, pid: u32) -> LinReport {
        let any = u32::from(scene.random.byte()) % 16;
        LinReport {
            source: TAKES_ALL,
            time: scene.next_time(),
            pid,
            errors: scene.random.pick(&[0, 0, 0, 0, 15, any]),
            length: scene.random.below(9),
        }
    }

    fn to(self, source: u64) -> LinReport {
        LinReport { source, ..self }
    }

    fn say(self, scene: &mut Scene) {
        let payload = scene.random.bytes(self.length);
        let payload = hex(scene.random, &payload);
        let pid = spelled(scene.random, self.pid.into());
        let Time { seconds, nanos } = self.time;
        let (source, errors) = (self.source, self.errors);
        let line = format!("lin {source} {seconds} {nanos} {pid} {errors} {payload}");
        scene.sheet.line(&line);
    }
}

fn to_every_filter(scene: &mut Scene, pid: u8) {
    for source in [TAKES_ALL, TAKES_A_BLOCK, TAKES_THE_OTHERS] {
        LinReport::new(scene, pid.into()).to(source).say(scene);
    }
    if scene.engine().framer().oldest_waiting().is_some() {
        let draft = calls::take(scene);
        scene.say(&draft);
    }
}

fn over_a_byte(scene: &mut Scene) {
    let mut pids = vec![0xfe, 0xff, 0x100, 0x180, 0x1c1, 0x1fe, 0x1ff];
    pids.extend([0x8000_0000, 0xffff_ff80, 0xffff_fffe, u32::MAX]);
    for bit in 8..32 {
        pids.push(1 << bit | u32::from(any_right(scene.random)));
    }
    for pid in pids {
        LinReport::new(scene, pid).say(scene);
    }
}

/// Each cause with wrong PIDs and with the right one: the answers differ where the cause comes after
/// answer 5 in the order, and in the last report, which has no other cause.
fn beside_every_cause(scene: &mut Scene, right: u8, wrong: u8) {
    let time = Time {
        seconds: LAST_SECOND + 1,
        nanos: 0,
    };
    for pid in [wrong, garbled(scene.random, right), right] {
        let good = LinReport::new(scene, pid.into());
        for report in [
            LinReport { time, ..good },
            good.to(NOT_THERE),
            good.to(OF_CAN),
            good.to(STOPPED),
            LinReport { errors: 16, ..good },
            LinReport { length: 9, ..good },
            good.to(WITHOUT_FILTER),
            good,
        ] {
            report.say(scene);
        }
    }
}

//! Engine episodes: a setup, then calls that suit a mood, chosen by what the engine holds.

use super::calls;
use super::draft::Draft;
use super::scene::Scene;
use super::sheet::Sheet;
use crate::count::taken_frame;
use crate::frame::Kind;
use crate::random::Random;
use crate::reader;
use crate::source::PLACES;

type Step = fn(&mut Scene);
/// Steps with how often each is taken.
type Mood = &'static [(usize, Step)];

const EVERYDAY: Mood = &[
    (40, report),
    (8, update),
    (8, tick),
    (9, take),
    (1, discards),
    (3, failed),
    (2, add_filter),
    (1, remove_filter),
    (1, start),
    (1, stop),
    (2, begin_again),
    (105, disturbed),
    (2, bad_line),
];

/// More frames close than are taken.
const OVERRUN: Mood = &[
    (60, report),
    (8, update),
    (8, tick),
    (3, take),
    (1, drain),
    (3, discards),
    (3, failed),
    (1, begin_again),
    (80, disturbed),
];

const STATES: Mood = &[
    (16, report),
    (24, update),
    (24, tick),
    (3, start),
    (2, stop),
    (9, take),
    (3, failed),
    (1, begin_again),
    (90, disturbed),
];

const FILTERS: Mood = &[
    (30, report),
    (14, add_filter),
    (8, remove_filter),
    (6, churn),
    (3, tick),
    (6, take),
    (1, begin_again),
    (80, disturbed),
];

const CARELESS: Mood = &[
    (14, report),
    (4, update),
    (3, tick),
    (4, take),
    (2, failed),
    (150, disturbed),
    (4, bad_line),
    (1, setup_again),
    (1, begin_again),
];

const MOODS: [Mood; 7] = [
    EVERYDAY, EVERYDAY, OVERRUN, OVERRUN, STATES, FILTERS, CARELESS,
];

const BEFORE_SETUP: [&str; 28] = [
    "start 0",
    "stop 0",
    "can 0 16 0 0x123 0102",
    "can 0 16 1000000000 0x123 0102",
    "lin 0 16 0 0x7D 0 -",
    "lin 0 16 0 0x3D 0 -",
    "flexray 0 16 0 1 1 0 -",
    "conflict 0 16 0 3 1027 63",
    "flexray-error 0 16 0 3 10",
    "flexray-error 0 16 0 0 1",
    "flexray-error 0 281474976710656 0 3 10",
    "can-state 0 1 0 0 0",
    "can-state 0 1 1 1 256",
    "lin-state 0 1",
    "flexray-state 0 1 1",
    "tick 16 0",
    "tick 281474976710656 0",
    "can-mask 0 0 0",
    "can-range 0 1 0",
    "lin-range 0 0 64",
    "flexray-filter 0 0 0 0 0 0",
    "remove 0 0",
    "take 4",
    "failed",
    "discards",
    "failures",
    "offline",
    "switch 64 1 1",
];

pub fn before_setup(sheet: &mut Sheet) {
    sheet.note("Calls before setup.");
    sheet.line("new");
    for line in BEFORE_SETUP {
        sheet.line(line);
    }
}

pub fn any_episode(sheet: &mut Sheet, random: &mut Random) {
    let mood = random.pick(&MOODS);
    let steps = 50 + random.below(250);
    let mut scene = Scene::new(sheet, random);
    begin(&mut scene);
    for _ in 0..steps {
        let step = chosen(scene.random, mood);
        step(&mut scene);
    }
    drain(&mut scene);
    discards(&mut scene);
    failures(&mut scene);
}

fn chosen(random: &mut Random, mood: Mood) -> Step {
    let all = mood.iter().map(|(often, _)| often).sum();
    let mut left = random.below(all);
    for &(often, step) in mood {
        if left < often {
            return step;
        }
        left -= often;
    }
    report
}

fn begin(scene: &mut Scene) {
    scene.sheet.line("new");
    while scene.random.one_in(6) {
        let line = scene.random.pick(&BEFORE_SETUP);
        scene.sheet.line(line);
    }
    if scene.random.one_in(3) {
        scene.sheet.line("failed");
    }
    while scene.random.one_in(4) && scene.engine().sources().is_empty() {
        let mut draft = any_setup(scene);
        draft.disturb(scene.random);
        scene.say(&draft);
    }
    if scene.engine().sources().is_empty() {
        let draft = any_setup(scene);
        scene.say(&draft);
    }
    start_most(scene);
}

fn start_most(scene: &mut Scene) {
    for number in 0..scene.engine().sources().len() {
        if !scene.random.one_in(8) {
            scene.say(&calls::start(scene, number));
        }
        if scene.random.one_in(2) {
            scene.say(&calls::filter_for_all(scene, number));
        }
        for _ in 0..scene.random.pick(&[0, 0, 1, 2, 3]) {
            let draft = calls::filter(scene, number);
            scene.say(&draft);
        }
    }
}

fn any_setup(scene: &mut Scene) -> Draft {
    let count = scene.random.pick(&[1, 1, 2, 3, 3, 4, 8]);
    let mut networks: Vec<(u64, u64)> = Vec::new();
    while networks.len() < count {
        let any = u64::from(scene.random.byte());
        let network = (1 + any % 3, scene.random.pick(&[0, 5, 255, any]));
        if !networks.contains(&network) {
            networks.push(network);
        }
    }
    let (size, room, deadline) = any_limits(scene.random);
    calls::setup(size, room, deadline, &networks)
}

fn any_limits(random: &mut Random) -> (u64, u64, u64) {
    let (small, medium) = ((32, 80), (64, 140));
    let sizes = [(32, 32), small, small, small, medium, medium];
    let size = if random.one_in(30) {
        (900, 1_024)
    } else {
        random.pick(&sizes)
    };
    let mut between = |(low, high): (u64, u64)| low + random.next() % (high - low + 1);
    let (size, room, deadline) = (between(size), between((1, 8)), between((1, 655)));
    let room = random.pick(&[1, 1, 1, 2, 2, 3, 8, room]);
    let deadline = random.pick(&[0, 0, 1, 1, 2, 655, deadline]);
    (size, room, deadline)
}

/// Most often the source is first brought so far that it can take the report.
fn report(scene: &mut Scene) {
    let number = scene.any_source();
    if !scene.source(number).started && !scene.random.one_in(4) {
        scene.say(&calls::start(scene, number));
    }
    // An error without a frame asks for no filter.
    let may_do_without = scene.source(number).kind == Kind::FlexRay && scene.random.one_in(3);
    if scene.source(number).filters == [None; PLACES] && !may_do_without {
        let draft = match scene.random.below(4) {
            0 => calls::filter(scene, number),
            _ => calls::filter_for_all(scene, number),
        };
        scene.say(&draft);
    }
    let draft = any_report(scene, number);
    scene.say(&draft);
}

fn any_report(scene: &mut Scene, number: usize) -> Draft {
    let kind = scene.source(number).kind;
    match kind {
        Kind::Lin if scene.random.one_in(20) => calls::garbled_frame(scene, number),
        Kind::FlexRay => match scene.random.below(10) {
            0..=2 => calls::conflict(scene, number),
            3..=5 => calls::flexray_error(scene, number),
            _ => calls::frame(scene, number),
        },
        _ => calls::frame(scene, number),
    }
}

fn update(scene: &mut Scene) {
    let number = scene.any_source();
    let draft = calls::state(scene, number);
    scene.say(&draft);
    if scene.random.one_in(8) {
        scene.say(&draft);
    }
}

fn tick(scene: &mut Scene) {
    let draft = calls::tick(scene);
    scene.say(&draft);
}

fn take(scene: &mut Scene) {
    let draft = calls::take(scene);
    let answer = scene.say(&draft);
    if let Some(frame) = taken_frame(&answer) {
        read_back(scene, &frame);
        if scene.random.one_in(6) {
            scene.sheet.line("failed");
        }
    }
}

/// Some of the taken frames go to the reader, some of them damaged.
fn read_back(scene: &mut Scene, frame: &[u8]) {
    let (sheet, random) = (&mut *scene.sheet, &mut *scene.random);
    if random.one_in(24) {
        let mut damaged = frame.to_vec();
        let at = random.below(frame.len());
        damaged[at] ^= 1 << random.below(8);
        sheet.any_call(random, &damaged);
    }
    if frame.len() > 100 || !random.one_in(12) {
        return;
    }
    let Ok(read) = reader::read(frame) else {
        return;
    };
    sheet.read(random, frame);
    for item in &read.items {
        sheet.step(random, item.start as u64, frame);
    }
    let place = random.pick(&[14, read.items[0].next as u64, frame.len() as u64]);
    sheet.payload(random, place, frame);
    sheet.rewrite(random, frame.len(), frame);
}

fn drain(scene: &mut Scene) {
    while let Some(frame) = scene.engine().framer().oldest_waiting() {
        let line = format!("take {}", frame.len());
        scene.sheet.line(&line);
    }
}

fn discards(scene: &mut Scene) {
    scene.sheet.line("discards");
}

/// Says so whether or not a frame is out, and often of a second frame before an item tells the loss.
fn failed(scene: &mut Scene) {
    if scene.random.one_in(6) {
        failures(scene);
    }
    scene.sheet.line("failed");
    if scene.engine().framer().lost() && scene.random.one_in(2) {
        take(scene);
        scene.sheet.line("failed");
    }
    if scene.random.one_in(3) {
        failures(scene);
    }
}

fn failures(scene: &mut Scene) {
    scene.sheet.line("failures");
}

fn add_filter(scene: &mut Scene) {
    let number = scene.any_source();
    let draft = calls::filter(scene, number);
    scene.say(&draft);
}

fn remove_filter(scene: &mut Scene) {
    let number = scene.any_source();
    let draft = calls::remove(scene, number);
    scene.say(&draft);
}

/// Filters are added until none fits, and one time more.
pub fn fill_places(scene: &mut Scene, number: usize) {
    let free = |scene: &Scene| scene.source(number).filters.iter().any(Option::is_none);
    while free(scene) {
        let draft = calls::filter(scene, number);
        scene.say(&draft);
    }
    let draft = calls::filter(scene, number);
    scene.say(&draft);
}

/// Places are filled, some made free in any order, and filled again.
fn churn(scene: &mut Scene) {
    let number = scene.any_source();
    fill_places(scene, number);
    for _ in 0..1 + scene.random.below(5) {
        let draft = calls::remove(scene, number);
        scene.say(&draft);
    }
    fill_places(scene, number);
}

fn start(scene: &mut Scene) {
    let number = scene.any_source();
    scene.say(&calls::start(scene, number));
}

fn stop(scene: &mut Scene) {
    let number = scene.any_source();
    scene.say(&calls::stop(scene, number));
}

/// Offline or a switch, often behind a failure, then a look at what is left.
fn begin_again(scene: &mut Scene) {
    if scene.random.one_in(2) {
        take(scene);
        failed(scene);
    }
    if scene.random.one_in(2) {
        scene.sheet.line("offline");
    } else {
        let (size, room, deadline) = any_limits(scene.random);
        scene.say(&calls::switch(size, room, deadline));
    }
    if scene.random.one_in(2) {
        failed(scene);
    }
    if scene.random.one_in(2) {
        take(scene);
        discards(scene);
        failures(scene);
    }
    if !scene.random.one_in(4) {
        start_most(scene);
    }
}

fn setup_again(scene: &mut Scene) {
    let draft = any_setup(scene);
    scene.say(&draft);
}

fn any_draft(scene: &mut Scene) -> Draft {
    let number = scene.any_source();
    match scene.random.below(33) {
        0..=11 => any_report(scene, number),
        12..=15 => calls::state(scene, number),
        16..=20 => calls::filter(scene, number),
        21 | 22 => calls::remove(scene, number),
        23 => calls::start(scene, number),
        24 => calls::stop(scene, number),
        25..=27 => calls::tick(scene),
        28..=30 => calls::take(scene),
        31 => calls::failed(),
        _ => calls::switch(64, 2, 1),
    }
}

/// A call with some of its words at an edge. The clock stays, so that a refusal does not end the
/// frame being filled by the time that goes by.
fn disturbed(scene: &mut Scene) {
    let now = scene.now;
    let mut draft = any_draft(scene);
    draft.disturb(scene.random);
    scene.say(&draft);
    scene.now = now;
}

fn bad_line(scene: &mut Scene) {
    let now = scene.now;
    let draft = any_draft(scene);
    let line = draft.bad_line(scene.random);
    scene.sheet.line(&line);
    scene.now = now;
}

/// Reports and ticks until a frame waits.
pub fn let_a_frame_wait(scene: &mut Scene) {
    while scene.engine().framer().oldest_waiting().is_none() {
        let draft = calls::frame(scene, 0);
        scene.say(&draft);
        tick(scene);
    }
}

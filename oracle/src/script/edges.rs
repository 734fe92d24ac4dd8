//! Every argument of every engine call at its edges, alone and two at a time, and too wide.

use super::calls;
use super::draft::Draft;
use super::episode;
use super::scene::Scene;
use super::sheet::Sheet;
use crate::random::Random;

type Maker = fn(&mut Scene) -> Draft;

/// In the scene of a sweep, sources 0, 1 and 2 are of CAN, LIN and FlexRay and take everything.
const MAKERS: [Maker; 19] = [
    |scene| calls::frame(scene, 0),
    |scene| calls::frame(scene, 1),
    |scene| calls::frame(scene, 2),
    |scene| calls::conflict(scene, 2),
    |scene| calls::flexray_error(scene, 2),
    |scene| calls::state(scene, 0),
    |scene| calls::state(scene, 1),
    |scene| calls::state(scene, 2),
    |scene| calls::can_mask(scene, 0),
    |scene| calls::can_range(scene, 0),
    |scene| calls::lin_mask(scene, 1),
    |scene| calls::lin_range(scene, 1),
    |scene| calls::flexray_filter(scene, 2),
    |scene| calls::remove(scene, 0),
    |scene| calls::start(scene, 1),
    |scene| calls::stop(scene, 2),
    calls::tick,
    |_| calls::switch(64, 2, 1),
    |_| calls::setup(64, 2, 1, &[(1, 5)]),
];

pub fn every_edge(sheet: &mut Sheet, random: &mut Random) {
    sheet.note("Every argument of the engine's calls at its edges.");
    for maker in MAKERS {
        sweep(sheet, random, maker);
    }
    setups(sheet, random);
    sizes_of_take(sheet, random);
}

fn sweep(sheet: &mut Sheet, random: &mut Random, maker: Maker) {
    let mut scene = Scene::new(sheet, random);
    stage(&mut scene);
    let draft = maker(&mut scene);
    scene.say(&draft);
    for draft in draft.at_every_edge(scene.random) {
        scene.say(&draft);
    }
    for draft in draft.at_two_edges(scene.random) {
        scene.say(&draft);
    }
    for line in draft.every_bad_line(scene.random) {
        scene.sheet.line(&line);
    }
}

/// Eight sources: three that take everything, and others of each kind of which some are not
/// started, some are without a filter and some have no place for another.
fn stage(scene: &mut Scene) {
    scene.sheet.line("new");
    let kinds = [1, 2, 3, 1, 2, 3, 2, 1];
    let networks: Vec<(u64, u64)> = kinds.into_iter().zip(0..).collect();
    let size = 32 + scene.random.below(40) as u64;
    scene.say(&calls::setup(size, 2, 1, &networks));
    for number in 0..8 {
        if number < 3 || scene.random.one_in(2) {
            scene.say(&calls::start(scene, number));
        }
        if number < 3 {
            scene.say(&calls::filter_for_all(scene, number));
        } else if scene.random.one_in(2) {
            episode::fill_places(scene, number);
        }
    }
}

/// Setups on an engine that is not set up: all edges of a short one, some of longer ones.
fn setups(sheet: &mut Sheet, random: &mut Random) {
    sheet.note("Setups, each before any other.");
    let mut scene = Scene::new(sheet, random);
    for draft in calls::setup(64, 1, 1, &[(1, 5)]).at_every_edge(scene.random) {
        afresh(&mut scene, &draft);
    }
    let nine: Vec<(u64, u64)> = (0..9).map(|i| (1 + i % 3, 255 - i)).collect();
    let twice = [&nine[..7], &nine[2..3]].concat();
    let same_id = [(1, 5), (2, 5), (3, 5)];
    for networks in [&[], &same_id[..], &nine[..8], &nine, &twice] {
        let draft = calls::setup(64, 1, 1, networks);
        afresh(&mut scene, &draft);
        for _ in 0..12 {
            let mut draft = draft.clone();
            draft.disturb(scene.random);
            afresh(&mut scene, &draft);
        }
    }
}

fn afresh(scene: &mut Scene, draft: &Draft) {
    scene.sheet.line("new");
    scene.say(draft);
}

fn sizes_of_take(sheet: &mut Sheet, random: &mut Random) {
    sheet.note("Outputs of each length around that of the frame.");
    let mut scene = Scene::new(sheet, random);
    stage(&mut scene);
    for more in [-9, -2, -1, 0, 1, 2, 9, 1_000] {
        episode::let_a_frame_wait(&mut scene);
        let frame = scene.engine().framer().oldest_waiting();
        let length = frame.map_or(0, <[u8]>::len) as i64;
        scene.sheet.line(&format!("take {}", length + more));
    }
    for size in ["2048", "2049", "0", "0x801", "18446744073709551615"] {
        episode::let_a_frame_wait(&mut scene);
        scene.sheet.line(&format!("take {size}"));
    }
}

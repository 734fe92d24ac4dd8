use super::*;

#[test]
fn the_same_seed_makes_the_same_bytes() {
    for seed in 0..20 {
        assert_eq!(make(seed, 20), make(seed, 20));
    }
}

/// Also where there is next to nothing to hit.
#[test]
fn any_recording_can_be_damaged() {
    for way in WAYS {
        for recording in [vec![], vec![1], vec![2, 0], vec![9, 0, 0], vec![2, 0, 1, 7]] {
            for seed in 0..50 {
                let mut damaged = recording.clone();
                way(&mut Random::new(seed), &mut damaged);
            }
        }
    }
}

#[test]
fn each_way_does_what_it_is_named_for() {
    let sound = crate::recording_maker::make_sound(5, 12);
    for seed in 0..60 {
        let hit = |way: fn(&mut Random, &mut Vec<u8>)| {
            let mut recording = sound.clone();
            way(&mut Random::new(seed), &mut recording);
            recording
        };
        let rest = |recording: &[u8]| fields(recording).1.to_vec();
        let one = hit(one_length);
        let differ = (0..sound.len()).filter(|&at| one[at] != sound[at]);
        assert!((1..=2).contains(&differ.count()));
        assert!(!rest(&hit(past_the_end)).is_empty());
        assert!(!rest(&hit(early_past_the_end)).is_empty());
        let cut = hit(cut_off);
        assert_eq!(cut, sound[..cut.len()]);
        let grown = hit(grown);
        assert_eq!(grown[..sound.len()], sound);
        assert!((1..=3).contains(&rest(&hit(head_alone)).len()));
        assert!(rest(&hit(all_but_a_byte)).len() > 2);
        assert_eq!(rest(&hit(longest_but_a_byte)).len(), 65_537);
    }
}

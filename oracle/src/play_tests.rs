use super::*;

const EXAMPLE: &str = "010000000000001000000000001600006105000001230201020002E10540C1ABCDEF01AA";

fn play(script: &str) -> Vec<String> {
    let out = String::from_utf8(answers(script.as_bytes())).unwrap();
    out.lines().map(str::to_string).collect()
}

fn one(call: &str) -> String {
    let answers = play(&format!("{call} {EXAMPLE}"));
    assert_eq!(answers.len(), 1);
    answers[0].clone()
}

#[test]
fn the_example_answers() {
    assert_eq!(play("new"), ["0"]);
    assert_eq!(one("read"), "0 0 16 0 22");
    assert_eq!(one("step 14"), "0 25 16 0 1 5 - 291 2");
    assert_eq!(one("step 0x19"), "0 36 16 20000 1 5 64 3249262063 1");
    assert_eq!(one("step 36"), "0 end");
    assert_eq!(one("step 15"), "30 - - - - - - - -");
    assert_eq!(one("payload 14"), "0 0102");
    assert_eq!(one("payload 25"), "0 aa");
    assert_eq!(one("payload 36"), "0 -");
    assert_eq!(one("payload 37"), "30 -");
}

#[test]
fn a_rewrite_shows_the_whole_output() {
    let same = EXAMPLE.to_lowercase();
    assert_eq!(one("rewrite 36"), format!("0 {same}"));
    assert_eq!(one("rewrite 38"), format!("0 {same}eeee"));
    assert_eq!(one("rewrite 35"), format!("12 {}", "ee".repeat(35)));
    assert_eq!(one("rewrite 0"), "12 -");
    assert_eq!(play("rewrite 2 00"), ["20 eeee"]);
    assert_eq!(play("rewrite 70000 -")[0].len(), 3 + 140_000);
    assert_eq!(play("rewrite 70001 -"), ["? 1"]);
}

#[test]
fn other_kinds_of_items() {
    // State alone of a LIN network, then state+id of a FlexRay one.
    let frame = "01070000000000003b9ac9ff000d" // nanosecond 999,999,999
        .to_string()
        + "ffff8209cf"
        + "0001c30340c9073f";
    let ask = |call: &str| play(&format!("{call} {frame}"));
    assert_eq!(ask("read"), ["0 7 0 999999999 13"]);
    assert_eq!(ask("step 14"), ["0 19 1 655349999 2 9 207 - -"]);
    assert_eq!(ask("step 19"), ["0 27 1 9999 3 3 64 3/263/63 -"]);
    assert_eq!(ask("payload 19"), ["0 -"]);
    assert_eq!(ask("rewrite 27"), [format!("0 {frame}")]);
}

#[test]
fn refusals_show_no_values() {
    assert_eq!(play("read -"), ["20 0 0 0 0"]);
    assert_eq!(play("step 14 -"), ["20 - - - - - - - -"]);
    assert_eq!(play("payload 14 -"), ["20 -"]);
}

#[test]
fn bad_lines_tell_their_number() {
    let bad = "hello\nread\nread 0\nread  00\n read 00\nread 00 00\nstep -1 00\nnew new\n";
    let wide = "step 18446744073709551616 00\nread 00\r\n";
    let script = format!("\n# note\n{bad}{wide}read 00 # good\n");
    let expected = [
        "? 3", "? 4", "? 5", "? 6", "? 7", "? 8", "? 9", "? 10", "? 11", "? 12",
    ];
    let answers = play(&script);
    assert_eq!(answers[..10], expected);
    assert_eq!(answers[10..], ["20 0 0 0 0"]);
}

const P1: &str = "setup 64 1 1 1 5
start 0
can-range 0 0 4294967295
can 0 16 0 0x123 0102
can-state 0 1 0 0 0
can 0 16 20833 0xC1ABCDEF AA
tick 16 999999
tick 16 1000000
";

#[test]
fn the_worked_example_of_the_engine() {
    let answers = play(&(P1.to_string() + "take 40\ntake 1\ntake 0\ndiscards\n"));
    assert_eq!(answers[..8], ["0", "0", "0 0", "0", "0", "0", "0", "0"]);
    let frame = EXAMPLE.to_lowercase();
    assert_eq!(answers[8], format!("0 36 {frame}eeeeeeee"));
    assert_eq!(answers[9..], ["13 0 ee", "13 0 -", "0 0"]);
}

#[test]
fn failed_answers_its_number_alone_and_failures_the_count() {
    let calls = "failed\ntake 36\nfailures\nfailed\nfailures\nfailed\nfailures\ndiscards\n";
    let answers = play(&(P1.to_string() + calls));
    assert_eq!(answers[8], "17");
    let expected = ["0 0", "0", "0 1", "17", "0 1", "0 0"];
    assert_eq!(answers[10..], expected);
    let afresh = P1.to_string() + "take 36\nfailed\nnew\nfailures\nfailed\n";
    assert_eq!(play(&afresh)[9..], ["0", "0", "0 0", "17"]);
}

#[test]
fn failed_and_failures_have_no_other_word() {
    let bad = "failed 0\nfailed -\nfailures 0\nfailures -\nfail\nFailed\nfailure\n failed\n";
    let taken = P1.to_string() + "take 36\n" + bad + "failures\nfailed # good\nfailures  \n";
    let answers = play(&taken);
    for (number, answer) in (10..).zip(&answers[9..17]) {
        assert_eq!(*answer, format!("? {number}"));
    }
    assert_eq!(answers[17..], ["0 0", "0", "0 1"]);
}

#[test]
fn a_refused_take_shows_the_untouched_output() {
    let answers = play(&(P1.to_string() + "take 3\ntake 2048\ntake 2049\n"));
    assert_eq!(answers[8], "12 0 eeeeee");
    assert_eq!(answers[9].len(), "0 36 ".len() + 4_096);
    assert_eq!(answers[10], "? 11");
}

#[test]
fn a_new_engine_is_before_setup() {
    assert_eq!(play("new\nstart 0\n"), ["0", "2"]);
    let again = P1.to_string() + "setup 64 1 1 1 5\nnew\nsetup 64 1 1 1 5\n";
    assert_eq!(play(&again)[8..], ["14", "0", "0"]);
}

#[test]
fn the_filter_calls_answer_with_a_place() {
    let script = "setup 64 1 1 1 0 2 0 3 0
can-mask 0 4294967295 4294967295
can-range 0 1 0
lin-mask 1 63 63
lin-mask 1 64 0
lin-range 1 0 63
flexray-filter 2 0 2047 0 63 64
flexray-filter 1 0 2047 0 63 64
remove 1 1
remove 1 1
remove 3 0";
    let expected = [
        "0", "0 0", "9 0", "0 0", "9 0", "0 1", "0 0", "4 0", "0", "11", "2",
    ];
    assert_eq!(play(script), expected);
}

#[test]
fn every_number_has_its_width() {
    let wide = "18446744073709551615";
    let narrow = "4294967295";
    let calls = [
        format!("setup {wide} {wide} {wide} {narrow} {narrow}"),
        format!("switch {wide} {wide} {wide}"),
        format!("start {wide}"),
        format!("can {wide} {wide} {narrow} {narrow} 00"),
        format!("lin {wide} {wide} {narrow} {narrow} {narrow} 00"),
        format!("flexray {wide} {wide} {narrow} {narrow} {narrow} {narrow} 00"),
        format!("conflict {wide} {wide} {narrow} {narrow} {narrow} {narrow}"),
        format!("flexray-error {wide} {wide} {narrow} {narrow} {narrow}"),
        format!("can-state {wide} 1 1 1 {narrow}"),
        format!("lin-state {wide} 1"),
        format!("flexray-state {wide} 1 {narrow}"),
        format!("tick {wide} {narrow}"),
        format!("can-mask {wide} {narrow} {narrow}"),
        format!("lin-range {wide} {narrow} {narrow}"),
        format!("flexray-filter {wide} {narrow} {narrow} {narrow} {narrow} {narrow}"),
        format!("remove {wide} {wide}"),
    ];
    for call in calls {
        assert!(!play(&call)[0].starts_with('?'), "{call}");
        let words: Vec<&str> = call.split(' ').collect();
        for i in 1..words.len() {
            let mut wider = words.clone();
            let over = (words[i].parse::<u128>().unwrap_or(0xf) + 1).to_string();
            wider[i] = if words[i] == "00" { "000" } else { &over };
            assert_eq!(play(&wider.join(" ")), ["? 1"], "{wider:?}");
        }
        assert_eq!(play(&(call.clone() + " 0")), ["? 1"]);
        assert_eq!(play(&words[..words.len() - 1].join(" ")), ["? 1"]);
    }
}

#[test]
fn setup_takes_any_number_of_pairs() {
    let pairs = |count| "setup 64 1 1".to_string() + &" 1 5".repeat(count);
    for count in [0, 2, 9, 1_000, 40_000] {
        assert_eq!(play(&pairs(count)), ["14"]);
        assert_eq!(play(&(pairs(count) + " 1")), ["? 1"]);
    }
    assert_eq!(play(&pairs(1)), ["0"]);
    assert_eq!(play("setup 64 1"), ["? 1"]);
}

#[test]
fn a_clock_behind_is_told_beside_the_answer() {
    let script = "setup 64 8 1 1 5 2 6 3 7
start 0
start 1
start 2
can-mask 0 0 0
lin-mask 1 0 0
flexray-filter 2 0 2047 0 63 1
can 0 16 5 1 -
tick 16 4
tick 16 5
tick 16 1000000000
can 0 16 4 1 -
lin 1 16 0 0x7D 0 -
lin 1 15 0 0x3D 0 -
flexray 2 12 0 1 5 6 -
conflict 2 11 999999999 1 5 6
flexray 2 11 999999999 1 5 6 -
flexray-error 2 11 999999997 1 8
flexray-error 2 11 999999996 1 9
tick 0 0
tick 12 1000000
can 0 0 0 1 -";
    let expected = [
        "0",
        "0 back 1",
        "0",
        "7",
        "0 back 1",
        "0 back 4",
        "5",
        "0 back 4000000000",
        "0 back 1",
        "0",
        "0 back 2",
        "5",
        "0 back 4294967295",
        "0",
        "0",
    ];
    assert_eq!(play(script)[7..], expected);
}

#[test]
fn an_error_without_a_frame_has_no_slot_and_no_cycle() {
    let script = "setup 64 1 1 3 7
start 0
flexray-error 0 16 0 3 10
flexray-error 0 16 20833 0x1 0
flexray-error 0 16 20833 3 10 0
flexray-error 0 16 20833 3
tick 16 1000000
take 30";
    let frame =
        "0100000000000010000000000010".to_string() + "0000c3070ac00000" + "0002c30700400000";
    let taken = format!("0 30 {frame}");
    let expected = ["0", "0", "0", "0", "? 5", "? 6", "0", &taken];
    assert_eq!(play(script), expected);
    let ask = |call: &str| play(&format!("{call} {frame}"));
    assert_eq!(ask("read"), ["0 0 16 0 16"]);
    assert_eq!(ask("step 14"), ["0 22 16 0 3 7 10 3/-/- -"]);
    assert_eq!(ask("step 22"), ["0 30 16 20000 3 7 0 1/-/- -"]);
    assert_eq!(ask("step 30"), ["0 end"]);
    assert_eq!(ask("payload 14"), ["0 -"]);
    assert_eq!(ask("rewrite 30"), [format!("0 {frame}")]);
    let channel_b = frame.replace("c00000", "800000");
    assert_eq!(
        play(&format!("step 14 {channel_b}")),
        ["0 22 16 0 3 7 10 2/-/- -"]
    );
}

//! The program as it is started: output, errors, exit codes.

mod common;

use std::fs;

use common::{folder, own_file, second, text};

#[test]
fn run_answers_a_call_file() {
    let output = second(&["run"], &[6, 0, 0, 0, 0, 0, 0, 0, 0, 0, 0, 0]);
    assert!(output.status.success());
    assert_eq!(text(&output.stdout), "1 6 0 0 0\nend 0 0 0 0 0 62 0\n");
}

#[test]
fn make_and_run_go_together() {
    let made = second(&["make", "garbage", "5", "200"], &[]);
    assert!(made.status.success());
    let answered = second(&["run"], &made.stdout);
    assert_eq!(text(&answered.stdout).lines().count(), 201);
}

#[test]
fn bad_words_end_with_2_and_say_why() {
    let none: [&[&str]; 20] = [
        &[],
        &["encode"],
        &["encode", "no-such-file"],
        &["decode", "no-such-file"],
        &["words", "no-such-file"],
        &["picture", "--svg"],
        &["picture", "a", "--png"],
        &["walk"],
        &["run", "now"],
        &["rides"],
        &["make", "rush", "1"],
        &["probe", "now"],
        &["probe", "--cut", "x"],
        &["damage", "1"],
        &["damage", "x", "5"],
        &["damage", "1", "0"],
        &["damage", "1", "5", "--good"],
        &["make", "slow", "1", "5"],
        &["make", "rush", "x", "5"],
        &["make", "rush", "1", "0"],
    ];
    for words in none {
        let output = second(words, &[]);
        assert_eq!(output.status.code(), Some(2), "{words:?}");
        assert!(output.stdout.is_empty());
        assert!(text(&output.stderr).starts_with("second: "));
    }
    assert_eq!(
        second(&["rides", "no-such-file"], &[]).status.code(),
        Some(2)
    );
}

#[test]
fn a_difference_ends_with_1_and_tells_file_and_line() {
    let path = own_file(
        "wrong.txt",
        "ride a\nstart anew 8\ntidy -> 14\nafter same\n",
    );
    let output = second(&["rides", &path.to_string_lossy()], &[]);
    assert_eq!(output.status.code(), Some(1));
    let told = text(&output.stderr);
    assert!(
        told.contains("wrong.txt:3: wanted answer 14 price 0, got answer 0"),
        "{told}"
    );
}

#[test]
fn rides_that_hold_are_counted() {
    let path = own_file("right.txt", "ride a\nstart anew 8\ntidy -> 0\nafter same\n");
    let output = second(&["rides", &path.to_string_lossy()], &[]);
    assert!(output.status.success());
    assert_eq!(text(&output.stdout), "holds: a\n1 rides hold\n");
}

fn example(name: &str) -> String {
    folder("examples").join(name).to_string_lossy().into_owned()
}

#[test]
fn encode_and_decode_go_together() {
    let made = second(&["make", "garbage", "5", "200"], &[]).stdout;
    let calls = own_file("there.calls", &made);
    let told = second(&["decode", &calls.to_string_lossy()], &[]);
    assert!(told.status.success());
    let back = own_file("back.txt", &told.stdout);
    let encoded = second(&["encode", &back.to_string_lossy()], &[]);
    assert!(encoded.status.success());
    assert_eq!(encoded.stdout, made);
}

#[test]
fn bad_text_is_told_line_by_line_up_to_20() {
    let path = own_file(
        "bad.txt",
        "tidy\n\nput 10 at\n".to_string() + &"dance\n".repeat(25),
    );
    let path = path.to_string_lossy();
    for command in ["encode", "words", "picture"] {
        let output = second(&[command, &path], &[]);
        assert_eq!(output.status.code(), Some(2), "{command}");
        assert!(output.stdout.is_empty());
        let told = text(&output.stderr);
        assert!(
            told.contains(&format!("\n{path}:3: `put 10 at`: price missing\n")),
            "{told}"
        );
        assert!(
            told.contains(&format!("\n{path}:22: `dance`: no call is named `dance`\n")),
            "{told}"
        );
        assert!(told.ends_with("and 6 more\n"), "{told}");
        assert_eq!(told.lines().count(), 22);
    }
}

#[test]
fn a_binary_file_is_no_text() {
    let path = own_file("binary.txt", [0xFF, 0xFE]);
    let output = second(&["encode", &path.to_string_lossy()], &[]);
    assert_eq!(output.status.code(), Some(2));
    assert!(text(&output.stderr).contains("not text"));
}

#[test]
fn words_take_the_lines_of_another_program() {
    let ride = example("example.txt");
    let own = second(&["words", &ride], &[]);
    assert!(own.status.success());
    assert!(text(&own.stdout).contains("found at 250 cents"));
    let printed = fs::read_to_string(example("example.out")).expect("its output");
    let dearer = own_file("dearer.out", printed.replace(" 250\n", " 251\n"));
    let other = second(&["words", &ride, &dearer.to_string_lossy()], &[]);
    assert!(text(&other.stdout).contains("found at 251 cents"));
    let broken = own_file("broken.out", printed.replace("3 1 1", "3 1 2"));
    let output = second(&["words", &ride, &broken.to_string_lossy()], &[]);
    assert_eq!(output.status.code(), Some(2));
    assert!(text(&output.stderr)
        .contains("broken.out:3: `3 1 2 0 0`: this is not the line of record 3, `look 10 by 1`"));
}

#[test]
fn pictures_are_text_or_svg() {
    let ride = example("morning.txt");
    let told = second(&["picture", &ride], &[]);
    assert!(text(&told.stdout).starts_with("Tree after 100 records: 17 fares"));
    let drawn = second(&["picture", &ride, "--svg"], &[]);
    assert!(text(&drawn.stdout).starts_with("<svg "));
    assert_eq!(
        drawn.stdout,
        second(&["picture", "--svg", &ride], &[]).stdout
    );
}

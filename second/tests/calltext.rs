//! Call files written as text.

mod common;

use std::fs;

use second::callfile::{Fields, RECORD_BYTES};
use second::calltext::{bytes, decode, parse};
use second::make::{make, KINDS};
use second::random::Random;

fn encode(text: &str) -> Vec<u8> {
    let lines = parse(text).unwrap_or_else(|troubles| panic!("{troubles:?}"));
    bytes(&lines)
}

fn comes_back(file: &[u8]) {
    let text = decode(file);
    assert_eq!(encode(&text), file, "{text}");
    assert_eq!(decode(&encode(&text)), text);
    assert_eq!(text.lines().count(), file.len().div_ceil(RECORD_BYTES));
}

#[test]
fn random_bytes_of_any_length_come_back() {
    let mut random = Random::new(1);
    for length in 0..400 {
        let file: Vec<u8> = (0..length).map(|_| random.number() as u8).collect();
        comes_back(&file);
    }
}

/// Records that are almost calls: one field or another is off.
#[test]
fn records_near_calls_come_back() {
    let mut random = Random::new(2);
    for _ in 0..20_000 {
        let mut field = |last| match random.percent(50) {
            true => random.between(0, last),
            false => 0,
        };
        let fields = Fields {
            code: field(8) as u8,
            task: field(9) as u8,
            count: field(2) as u16,
            number: field(3),
            price: field(3),
        };
        comes_back(&fields.record());
    }
}

#[test]
fn made_files_and_vectors_come_back() {
    for (_, kind) in KINDS {
        comes_back(&make(kind, 3, 500));
    }
    for path in common::files_in("vectors", "calls") {
        comes_back(&fs::read(path).expect("a call file"));
    }
}

#[test]
fn every_form_has_its_bytes() {
    let text = "# all forms\r
put 10 at 250 by 0   # ten\r
look 10 by 1\r

  look 10 at 7 by 1
take 999999 by 255
step 0 65535
abandon 7
tidy#done
raw 9 8 517 6 4294967295
short 4 0 1";
    let wanted: [&[u8]; 9] = [
        &[2, 0, 0, 0, 10, 0, 0, 0, 250, 0, 0, 0],
        &[1, 1, 0, 0, 10, 0, 0, 0, 0, 0, 0, 0],
        &[1, 1, 0, 0, 10, 0, 0, 0, 7, 0, 0, 0],
        &[3, 255, 0, 0, 0x3F, 0x42, 0x0F, 0, 0, 0, 0, 0],
        &[4, 0, 255, 255, 0, 0, 0, 0, 0, 0, 0, 0],
        &[5, 7, 0, 0, 0, 0, 0, 0, 0, 0, 0, 0],
        &[6, 0, 0, 0, 0, 0, 0, 0, 0, 0, 0, 0],
        &[9, 8, 5, 2, 6, 0, 0, 0, 255, 255, 255, 255],
        &[4, 0, 1],
    ];
    assert_eq!(encode(text), wanted.concat());
    let plain =
        "put 10 at 250 by 0\nlook 10 by 1\nlook 10 at 7 by 1\ntake 999999 by 255\nstep 0 65535\n\
                 abandon 7\ntidy\nraw 9 8 517 6 4294967295\nshort 4 0 1\n";
    assert_eq!(decode(&wanted.concat()), plain);
}

#[test]
fn comments_are_kept_beside_their_lines() {
    let lines = parse("# one\ntidy # two\n\ntidy\n").expect("lines");
    let comments: Vec<Option<&str>> = lines.iter().map(|line| line.comment.as_deref()).collect();
    assert_eq!(comments, [Some("# one"), Some("# two"), None, None]);
    let records: Vec<bool> = lines.iter().map(|line| line.record.is_some()).collect();
    assert_eq!(records, [false, true, false, true]);
}

#[test]
fn nothing_says_nothing() {
    for text in ["", "\n\n", "# only a comment"] {
        assert_eq!(encode(text), [], "{text}");
    }
    assert_eq!(decode(&[]), "");
}

const BAD: [(&str, &str); 17] = [
    ("put", "fare number missing"),
    ("put 10", "`at` missing"),
    ("put 10 at", "price missing"),
    ("put 10 at 250", "`by` missing"),
    ("put 10 at 250 by", "task missing"),
    ("put 10 by 0", "`at` belongs where `by` stands"),
    (
        "put x at 250 by 0",
        "fare number `x` is not a number from 0 to 4294967295",
    ),
    (
        "look 10 at 1 by 256",
        "task `256` is not a number from 0 to 255",
    ),
    (
        "take -1 by 0",
        "fare number `-1` is not a number from 0 to 4294967295",
    ),
    ("step +1 4", "task `+1` is not a number from 0 to 255"),
    ("step 0", "count missing"),
    ("step 0 0", "count `0` is not a number from 1 to 65535"),
    ("abandon 0 1", "nothing belongs where `1` stands"),
    (
        "raw 1 2 65536 4 5",
        "count `65536` is not a number from 0 to 65535",
    ),
    ("short", "a short record has 1 to 11 bytes, not 0"),
    (
        "short 1 2 3 4 5 6 7 8 9 10 11 12",
        "a short record has 1 to 11 bytes, not 12",
    ),
    ("Tidy", "no call is named `Tidy`"),
];

/// All of them in one file, each told with its line.
#[test]
fn bad_lines_are_told_together() {
    let text: String = BAD
        .iter()
        .map(|(line, _)| format!("tidy\n{line} # {line}\n"))
        .collect();
    let troubles = parse(&text).expect_err("troubles");
    assert_eq!(troubles.len(), BAD.len());
    for (index, (trouble, (line, message))) in troubles.iter().zip(BAD).enumerate() {
        assert_eq!(trouble.line, 2 * index + 2);
        assert_eq!(trouble.message, format!("`{line}`: {message}"));
    }
}

#[test]
fn a_short_record_is_the_last_one() {
    let troubles = parse("short 1\n# behind it\ntidy\nput\n").expect_err("troubles");
    let told: Vec<(usize, &str)> = troubles
        .iter()
        .map(|one| (one.line, one.message.as_str()))
        .collect();
    assert_eq!(
        told,
        [
            (3, "`tidy`: nothing comes after a short record"),
            (4, "`put`: fare number missing")
        ]
    );
}

#[test]
fn long_lines_are_cut_where_they_are_told() {
    let troubles = parse(&"ä".repeat(500)).expect_err("trouble");
    assert!(troubles[0]
        .message
        .starts_with(&format!("`{}..`", "ä".repeat(60))));
}

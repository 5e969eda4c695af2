//! Rides beside their answers, in words.

mod common;

use std::fs;

use second::callfile::run;
use second::calltext::{bytes, decode, parse, tell, Line};
use second::make::{make, Kind};
use second::words::words;

fn lines(text: &str) -> Vec<Line> {
    parse(text).unwrap_or_else(|troubles| panic!("{troubles:?}"))
}

/// A ride with the second program's own answers.
fn told(text: &str) -> String {
    let lines = lines(text);
    words(&lines, &run(&bytes(&lines))).unwrap_or_else(|trouble| panic!("{trouble:?}"))
}

#[test]
fn a_ride_in_words() {
    let text = "# Ten.\nput 10 at 250 by 0 # begin\nstep 0 3\n\nstep 0 1     # end\nlook 10 by 8\n";
    let wanted = "# Ten.
1  put 10 at 250 by 0  accepted         # begin
2  step 0 3            the operation goes on

3  step 0 1            put in, settled  # end
4  look 10 by 8        refused: task number above 7

At the end:
  height              0  links from the root record to the farthest fare
  level records       0  records of the same rank as their parent
  c                   0  put-ins still settling or never settled
  m                   1  put-ins committed
  fares               1  held
  free slots         59  of 64
  allowed rank        0  the highest that the root record may have
";
    assert_eq!(told(text), wanted);
}

#[test]
fn a_ride_without_records_has_figures() {
    assert!(told("").starts_with("At the end:\n  height              0  links"));
    assert!(told("# nothing\n").starts_with("# nothing\n\nAt the end:\n"));
}

/// The answers of document 01, each for a step.
const ANSWERS: [(u32, u32, &str); 18] = [
    (0, 0, "the operation goes on"),
    (1, 0, "found at 0 cents"),
    (1, 1, "found at 1 cent"),
    (1, 99_999, "found at 99999 cents"),
    (2, 0, "not held"),
    (3, 0, "put in, settled"),
    (4, 0, "held already"),
    (5, 0, "taken out"),
    (6, 0, "put in, unsettled"),
    (10, 0, "refused: task number above 7"),
    (11, 0, "refused: fare number or price out of range"),
    (12, 0, "refused: task busy"),
    (13, 0, "refused: task idle"),
    (14, 0, "refused: some task busy"),
    (15, 0, "refused: no room"),
    (16, 0, "refused: 1,000,000 put-ins already committed"),
    (17, 0, "refused: damaged"),
    (19, 0, "refused: bad call record"),
];

#[test]
fn every_answer_has_words() {
    let ride = lines("step 0 1\n");
    for (answer, price, wanted) in ANSWERS {
        let printed = format!("1 4 0 {answer} {price}\nend 1 2 3 4 5 6 7\n");
        let told = words(&ride, &printed).unwrap_or_else(|trouble| panic!("{trouble:?}"));
        assert_eq!(
            told.lines().next(),
            Some(format!("1  step 0 1  {wanted}").as_str())
        );
    }
}

/// Printed lines, the line that is wrong, and what is said of it.
const UNFIT: [(&str, usize, &str); 11] = [
    ("", 1, "this line is missing"),
    ("1 1 1 0 0\n2 0 0 19 0\n", 3, "this line is missing"),
    ("1 1 1 0 0\nend\n", 2, "place `end` is not a number"),
    (
        "1 1 1 0 0\n2 1 1 19 0\n",
        2,
        "not the line of record 2, `short 1 1`",
    ),
    ("2 1 1 0 0\n", 1, "not the line of record 1, `look 10 by 1`"),
    ("1 1 1 0\n", 1, "price missing"),
    ("1 1 1 0 0 0\n", 1, "nothing belongs where `0` stands"),
    ("1 1 1 7 0\n", 1, "no answer 7 with price 0 is known"),
    ("1 1 1 2 5\n", 1, "no answer 2 with price 5 is known"),
    ("1 1 1 0 0\n2 0 0 19 0\nend 1 2 3\n", 3, "m missing"),
    (
        "1 1 1 0 0\n2 0 0 19 0\nend 0 0 0 0 0 62 0\n\n",
        4,
        "nothing comes after the last line",
    ),
];

#[test]
fn lines_that_do_not_fit_are_told() {
    let ride = lines("look 10 by 1\nshort 1 1\n");
    for (printed, line, message) in UNFIT {
        let trouble = words(&ride, printed).expect_err("trouble");
        assert_eq!(trouble.line, line, "{printed}");
        assert!(
            trouble.message.contains(message),
            "{printed}: {}",
            trouble.message
        );
    }
}

/// Long rides stay aligned: every answer begins in the same column.
#[test]
fn long_rides_are_aligned() {
    let file = make(Kind::Garbage, 4, 3000);
    let told = told(&decode(&file));
    let calls: Vec<String> = file.chunks(12).map(tell).collect();
    let fits = |call: &String| call.len() <= 40;
    let widest = calls
        .iter()
        .filter(|call| fits(call))
        .map(String::len)
        .max();
    let column = 4 + 2 + widest.expect("a call") + 2;
    for (index, (row, call)) in told.lines().zip(&calls).enumerate() {
        assert!(
            row.starts_with(&format!("{:>4}  {call}  ", index + 1)),
            "{row}"
        );
        if fits(call) {
            assert_eq!(&row[column - 2..column], "  ", "{row}");
            assert_ne!(&row[column..column + 1], " ", "{row}");
        }
    }
}

#[test]
fn every_vector_has_words() {
    for path in common::files_in("vectors", "calls") {
        let ride = lines(&decode(&fs::read(&path).expect("a call file")));
        let printed = fs::read_to_string(path.with_extension("out")).expect("its output");
        let told = words(&ride, &printed).unwrap_or_else(|trouble| panic!("{trouble:?}"));
        assert_eq!(told.lines().count(), ride.len() + 9, "{}", path.display());
    }
}

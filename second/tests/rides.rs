//! The rides written as text, and how they print.

use std::fs;
use std::path::Path;

use second::ride::{antt, parse, run, After, Ridden, Ride};

fn ride_file(name: &str) -> Vec<(Ride, Ridden)> {
    let path = Path::new(env!("CARGO_MANIFEST_DIR"))
        .join("rides")
        .join(name);
    let text = fs::read_to_string(path).expect("a ride file");
    let rides = parse::parse(&text).unwrap_or_else(|t| panic!("{name}:{}: {}", t.line, t.message));
    let ridden =
        run::run_all(&rides).unwrap_or_else(|t| panic!("{name}:{}: {}", t.line, t.message));
    rides.into_iter().zip(ridden).collect()
}

#[test]
fn document_rides_hold() {
    assert_eq!(ride_file("document.txt").len(), 12);
}

#[test]
fn own_rides_hold() {
    assert!(ride_file("own.txt").len() > 500);
}

#[test]
fn titles_are_numbered_in_order() {
    for name in ["document.txt", "own.txt"] {
        for (place, (ride, _)) in ride_file(name).iter().enumerate() {
            let number = format!("{}: ", place + 1);
            assert!(ride.title.starts_with(&number), "{name}: {}", ride.title);
        }
    }
}

/// Every settling row, in both mirror forms, grown from a reset.
#[test]
fn own_rides_make_every_settling_commit() {
    let mut made: Vec<u32> = Vec::new();
    for (ride, ridden) in ride_file("own.txt") {
        let damaged = ride
            .lines
            .iter()
            .any(|at| matches!(at.what, second::ride::Line::Damage(_)));
        if !damaged {
            made.extend(&ridden.settled);
        }
    }
    for code in [10, 11, 20, 21, 30, 31, 40, 41, 50, 51] {
        assert!(made.contains(&code), "{code}");
    }
}

#[test]
fn antt_is_one_list_of_narrow_lines() {
    let all = [ride_file("document.txt"), ride_file("own.txt")].concat();
    let text = antt::print(&all);
    assert!(text.lines().all(|line| line.chars().count() <= 150));
    assert_eq!(text.matches("record {\n      start").count(), all.len());
    assert_eq!(
        text.matches("∷ record {\n      start").count(),
        all.len() - 1
    );
    assert!(text.ends_with("    }\n    ∷ []\n"));
    let left = all
        .iter()
        .filter(|(ride, _)| ride.after.what == After::Left)
        .count();
    assert_eq!(text.matches("left (record {").count(), left);
}

#[test]
fn antt_of_the_first_ride() {
    let text = antt::print(&ride_file("document.txt")[..1]);
    let wanted = "    -- 1: put in 10, empty table
    record {
      start = anew 32;
      lines =
          call (begin 0 PutIn 10 250) 0 0
          ∷ call (step 0 4) 3 0
          ∷ [];
      after =
          left (record {
            used = 5;
            root = 10 ∷ 0 ∷ [];
            settled = [];
            busy = [];
            fares = 0 ∷ 10 ∷ 250 ∷ [];
            figures = 0 ∷ 0 ∷ 0 ∷ 0 ∷ 1 ∷ 1 ∷ 27 ∷ 0 ∷ [];
            table =
                rec 1 4294967295 0 255 2 0
                ∷ rec 2 4294967295 0 255 0 0
                ∷ rec 1 4294967295 0 255 3 4
                ∷ rec 1 10 250 0 0 0
                ∷ rec 1 4294967295 0 255 0 0
                ∷ [];
          });
    }
    ∷ []
";
    assert_eq!(text, wanted);
}

fn trouble(text: &str) -> (usize, String) {
    let outcome = parse::parse(text).and_then(|rides| run::run_all(&rides));
    let trouble = outcome.expect_err("trouble");
    (trouble.line, trouble.message)
}

#[test]
fn differences_are_told_with_their_line() {
    let start = "ride a\nstart anew 8\nput 10 at 250 by 0 -> 0\n";
    let wrong_answer = format!("{start}step 0 4 -> 4\nafter left\n");
    assert_eq!(
        trouble(&wrong_answer),
        (4, "wanted answer 4 price 0, got answer 3 price 0".into())
    );
    let too_many = format!("{start}step 0 5 -> 3\nafter left\n");
    assert_eq!(
        trouble(&too_many),
        (4, "wanted 5 steps, got answer 3 at step 4".into())
    );
    let too_few = format!("{start}step 0 3 -> 3\nafter left\n");
    assert_eq!(
        trouble(&too_few),
        (4, "wanted answer 3 price 0, got answer 0 price 0".into())
    );
    let not_same = format!("{start}step 0 1 -> 0\nafter same\n");
    assert_eq!(
        trouble(&not_same),
        (5, "wanted the same, got a change".into())
    );
    let want = format!("{start}after left\nwant busy 1\n");
    assert_eq!(trouble(&want), (5, "wanted [1], got [0]".into()));
}

#[test]
fn bad_ride_files_are_refused() {
    for (text, line) in [
        ("", 1),
        ("tidy -> 0\n", 1),
        ("ride a\nstart then\ntidy -> 0\nafter left\n", 3),
        ("ride a\nstart anew 7\n", 2),
        ("ride a\nstart anew 8\nafter left\n", 1),
        ("ride a\nstart anew 8\ntidy -> 0\n", 1),
        ("ride a\nstart anew 8\ntidy 0\nafter left\n", 3),
        ("ride a\nstart anew 8\nstep 0 0 -> 0\nafter left\n", 3),
        ("ride a\nstart anew 8\ndance -> 0\nafter left\n", 3),
        ("ride a\nstart anew 8\ntidy -> 0 0 0\nafter left\n", 3),
        (
            "ride a\nstart anew 8\ndamage slot 8 rank 1\ntidy -> 0\nafter left\n",
            3,
        ),
        (
            "ride a\nstart anew 8\ndamage slot 1 colour 1\ntidy -> 0\nafter left\n",
            3,
        ),
        (
            "ride a\nstart anew 8\nlook 1 by 0 -> 0\nstep 0 2 -> 0\nafter same\n",
            5,
        ),
    ] {
        assert_eq!(trouble(text).0, line, "{text}");
    }
}

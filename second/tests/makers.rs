//! Random call files: always the same, reaching what they are for, and the
//! program keeps its promises on them.

use std::collections::BTreeSet;

use second::callfile::{Program, RECORD_BYTES};
use second::count::{count, Count};
use second::make::{make, Kind, KINDS};
use second::reach::figures;
use second::table::get;

const ROWS: [u32; 10] = [10, 11, 20, 21, 30, 31, 40, 41, 50, 51];

fn counts(kind: Kind, seeds: std::ops::Range<u64>) -> Vec<Count> {
    seeds.map(|seed| count(&make(kind, seed, 2000))).collect()
}

fn answers(all: &[Count]) -> BTreeSet<u32> {
    all.iter()
        .flat_map(|one| one.answers.keys().copied())
        .collect()
}

fn rows(all: &[Count]) -> BTreeSet<u32> {
    all.iter()
        .flat_map(|one| one.settled.keys().copied())
        .collect()
}

#[test]
fn one_seed_one_file() {
    for (name, kind) in KINDS {
        let file = make(kind, 7, 300);
        assert_eq!(file, make(kind, 7, 300), "{name}");
        assert_ne!(file, make(kind, 8, 300), "{name}");
        assert_eq!(file.len().div_ceil(RECORD_BYTES), 300, "{name}");
    }
}

/// FNV-1a, so that a file that differs on some machine is seen.
fn print_of(file: &[u8]) -> u64 {
    file.iter().fold(0xcbf2_9ce4_8422_2325, |hash, &byte| {
        (hash ^ u64::from(byte)).wrapping_mul(0x0100_0000_01b3)
    })
}

#[test]
fn the_files_are_those_of_every_machine() {
    let prints: Vec<u64> = KINDS
        .iter()
        .map(|&(_, kind)| print_of(&make(kind, 7, 300)))
        .collect();
    assert_eq!(prints, PRINTS);
}

const PRINTS: [u64; 7] = [
    14926927583634441928,
    4720596831453892661,
    8531688186311762861,
    9367504882750451918,
    14409644626740861978,
    3073233223188187170,
    3477059779114461254,
];

#[test]
fn mixed_files_reach_every_answer_and_row() {
    let all = counts(Kind::Mixed, 0..6);
    for answer in [0, 1, 2, 3, 4, 5, 6, 10, 11, 12, 13, 14, 15, 19] {
        assert!(answers(&all).contains(&answer), "{answer}");
    }
    for row in ROWS {
        assert!(rows(&all).contains(&row), "{row}");
    }
}

#[test]
fn each_kind_reaches_what_it_is_for() {
    for (kind, answer) in [
        (Kind::Rush, 4),
        (Kind::Burst, 3),
        (Kind::Abandon, 6),
        (Kind::Fill, 15),
        (Kind::Sorted, 3),
        (Kind::Garbage, 19),
    ] {
        for one in counts(kind, 0..3) {
            assert!(one.answers[&answer] > 20, "{kind:?}: {one:?}");
            assert!(one.restarts > 5, "{kind:?}: {one:?}");
        }
    }
    for kind in [Kind::Burst, Kind::Abandon, Kind::Fill] {
        assert!(
            rows(&counts(kind, 0..6)).is_superset(&ROWS.into()),
            "{kind:?}"
        );
    }
}

/// From a reset no call gives 17, a level record has its put-in among c, and
/// root rank and height keep to the allowed rank.
#[test]
fn grown_tables_keep_their_bounds() {
    for (name, kind) in KINDS {
        for seed in 100..104 {
            let mut program = Program::new();
            for bytes in make(kind, seed, 1500).chunks(RECORD_BYTES) {
                let answer = program.answer(bytes).number();
                assert!(![16, 17, 18].contains(&answer), "{name} {seed}");
                check_bounds(&program);
            }
        }
    }
}

fn check_bounds(program: &Program) {
    let (answer, figures) = figures(&program.table, &program.state);
    assert_eq!(answer.number(), 0);
    assert!(figures.level_records <= figures.c);
    assert!(figures.height <= figures.allowed_rank + figures.c);
    if figures.fares > 0 {
        let child = get(&program.table, 0).expect("the entry").links.left;
        let root = get(&program.table, child).expect("its child").links.left;
        let rank = get(&program.table, root).expect("the root record").rank;
        assert!(rank <= figures.allowed_rank);
    }
}

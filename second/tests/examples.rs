//! The rides of the folder examples.

mod common;

use std::fs;
use std::path::Path;

use second::callfile::run;
use second::calltext::{bytes, parse};
use second::count::count;

fn calls(path: &Path) -> Vec<u8> {
    let text = fs::read_to_string(path).expect("an example");
    bytes(&parse(&text).unwrap_or_else(|troubles| panic!("{}: {troubles:?}", path.display())))
}

#[test]
fn examples_come_out_byte_for_byte() {
    let files = common::files_in("examples", "txt");
    let names: Vec<&str> = files
        .iter()
        .filter_map(|path| path.file_stem()?.to_str())
        .collect();
    assert_eq!(names, ["example", "full", "morning", "rides"]);
    assert_eq!(common::files_in("examples", "out").len(), files.len());
    for path in files {
        let wanted = fs::read_to_string(path.with_extension("out")).expect("its output");
        assert!(run(&calls(&path)) == wanted, "{}", path.display());
    }
}

#[test]
fn the_example_of_document_01_is_the_printed_one() {
    let wanted = "1 2 0 0 0\n2 4 0 3 0\n3 1 1 0 0\n4 4 1 1 250\n5 6 0 0 0\nend 0 0 0 1 1 60 0\n";
    assert_eq!(
        run(&calls(&common::folder("examples").join("example.txt"))),
        wanted
    );
}

/// Each one reaches what it is to show.
#[test]
fn examples_reach_what_they_show() {
    let reached = |name: &str| count(&calls(&common::folder("examples").join(name)));
    let answers = |name: &str| reached(name).answers.into_keys().collect::<Vec<u32>>();
    assert_eq!(
        answers("morning.txt"),
        [0, 1, 2, 3, 4, 5, 6, 10, 11, 12, 13, 14]
    );
    assert_eq!(answers("full.txt"), [0, 1, 3, 5, 6, 15]);
    // Rides 3, 4, 6 and 7: promotes, rotate case 1, double rotation, rotate case 2.
    let settled: Vec<u32> = reached("rides.txt").settled.into_keys().collect();
    assert_eq!(settled, [10, 20, 21, 31, 41, 50]);
}

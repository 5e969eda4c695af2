//! Every call file of the repository's vectors, byte for byte.

mod common;

use std::fs;

use second::callfile::run;

#[test]
fn vectors_come_out_byte_for_byte() {
    let files = common::files_in("vectors", "calls");
    assert!(files.len() >= 22, "only {} vectors", files.len());
    for path in files {
        let calls = fs::read(&path).expect("a call file");
        let wanted = fs::read_to_string(path.with_extension("out")).expect("its output");
        assert!(run(&calls) == wanted, "{}", path.display());
    }
}

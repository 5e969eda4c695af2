//! Call records, printed lines.

use second::callfile::{decode, encode, run, Call};
use second::task::Operation;

#[test]
fn the_example_of_document_01() {
    let calls = [
        Call::Begin {
            operation: Operation::PutIn,
            task: 0,
            number: 10,
            price: 250,
        },
        Call::Step { task: 0, count: 4 },
        Call::Begin {
            operation: Operation::LookUp,
            task: 1,
            number: 10,
            price: 0,
        },
        Call::Step { task: 1, count: 9 },
        Call::Tidy,
    ];
    let file: Vec<u8> = calls.into_iter().flat_map(encode).collect();
    let wanted = "1 2 0 0 0\n2 4 0 3 0\n3 1 1 0 0\n4 4 1 1 250\n5 6 0 0 0\nend 0 0 0 1 1 60 0\n";
    assert_eq!(run(&file), wanted);
}

#[test]
fn low_byte_first() {
    let record = [2, 7, 0, 0, 0x3F, 0x42, 0x0F, 0x00, 0x9F, 0x86, 0x01, 0x00];
    let call = Call::Begin {
        operation: Operation::PutIn,
        task: 7,
        number: 999_999,
        price: 99_999,
    };
    assert_eq!(decode(&record), Some(call));
    assert_eq!(encode(call), record);
    let steps = [4, 255, 0xFE, 0xFF, 0, 0, 0, 0, 0, 0, 0, 0];
    assert_eq!(
        decode(&steps),
        Some(Call::Step {
            task: 255,
            count: 65_534
        })
    );
}

#[test]
fn every_unused_field_is_zero() {
    // The places that may be other than zero, by operation.
    for (code, used) in [(4, 1..4), (5, 1..2), (6, 0..0)] {
        let mut proper = [0; 12];
        proper[0] = code;
        proper[2] = u8::from(code == 4);
        assert!(decode(&proper).is_some(), "{code}");
        for place in (1..12).filter(|place| !used.contains(place)) {
            let mut record = proper;
            record[place] = 1;
            assert_eq!(decode(&record), None, "{code} with byte {place}");
        }
    }
}

#[test]
fn a_begin_has_no_count_but_may_have_a_price() {
    for code in 1..=3 {
        for place in [2, 3] {
            let mut record = [0; 12];
            record[0] = code;
            record[place] = 1;
            assert_eq!(decode(&record), None);
        }
        let mut priced = [0; 12];
        priced[0] = code;
        priced[8] = 1;
        assert!(decode(&priced).is_some());
    }
}

#[test]
fn other_operations_and_short_records_are_bad() {
    for code in (0..=255).filter(|code| !(1..=6).contains(code)) {
        let mut record = [0; 12];
        record[0] = code;
        assert_eq!(decode(&record), None);
    }
    assert_eq!(
        decode(&[4, 0, 0, 0, 0, 0, 0, 0, 0, 0, 0, 0]),
        None,
        "a count of 0"
    );
    for length in 0..12 {
        assert_eq!(
            decode(&[6, 0, 0, 0, 0, 0, 0, 0, 0, 0, 0, 0][..length]),
            None
        );
    }
}

#[test]
fn bad_records_print_their_bytes_and_a_short_one_zeros() {
    let mut file = vec![200, 201, 0, 0, 0, 0, 0, 0, 0, 0, 0, 0];
    file.extend([6; 11]);
    assert_eq!(
        run(&file),
        "1 200 201 19 0\n2 0 0 19 0\nend 0 0 0 0 0 62 0\n"
    );
    assert_eq!(run(&[]), "end 0 0 0 0 0 62 0\n");
}

/// Operation 4 makes at least one step, and stops at the first answer but 0.
#[test]
fn steps_stop_at_an_end_or_a_refusal() {
    let file: Vec<u8> = [
        Call::Step { task: 0, count: 9 },
        Call::Step { task: 8, count: 9 },
        Call::Begin {
            operation: Operation::LookUp,
            task: 0,
            number: 10,
            price: 0,
        },
        Call::Step {
            task: 0,
            count: 65_535,
        },
        Call::Step { task: 0, count: 1 },
    ]
    .into_iter()
    .flat_map(encode)
    .collect();
    let wanted = "1 4 0 13 0\n2 4 8 10 0\n3 1 0 0 0\n4 4 0 2 0\n5 4 0 13 0\nend 0 0 0 0 0 62 0\n";
    assert_eq!(run(&file), wanted);
}

//! `probe` and `damage`: docs/PROBE.md.

mod common;

use std::collections::BTreeSet;

use common::{second, text};
use second::answer::GROUNDS;
use second::damage::damage;
use second::probe::{bytes, cut, read_probe, run, Call, Count, Next, Probe};
use second::task::{Operation, State};

/// The head of a probe, a state of zeros and a table.
fn probe(head: [u32; 6], table: &[u32]) -> Vec<u32> {
    let mut numbers = head.to_vec();
    numbers.push(table.len() as u32);
    numbers.extend([0; 122]);
    numbers.extend(table);
    numbers
}

fn printed(input: &[u8]) -> (String, Count) {
    let mut out = Vec::new();
    let count = run(&mut &input[..], &mut out).expect("a run");
    (text(&out), count)
}

fn answered(numbers: &[u32]) -> String {
    printed(&bytes(numbers)).0
}

fn zeros(word: &str, count: usize) -> String {
    format!("{word}{}\n", " 0".repeat(count))
}

/// The table that reset makes of eight slots.
fn reset_table() -> Vec<u32> {
    let mut table = vec![1, u32::MAX, 0, 255, 1, 0, 1, u32::MAX, 0, 255];
    table.resize(48, 0);
    table
}

fn reset_line() -> String {
    let start = "table 1 4294967295 0 255 1 0 1 4294967295 0 255";
    format!("{start}{}\n", " 0".repeat(38))
}

#[test]
fn an_input_of_no_bytes_prints_nothing() {
    assert_eq!(printed(&[]).0, "");
    assert!(second(&["probe"], &[]).stdout.is_empty());
}

#[test]
fn a_reset_written_out() {
    let hurt = [9; 48];
    let wanted = "answer 0 0\n".to_string() + &zeros("state", 122) + &reset_line();
    assert_eq!(answered(&probe([0; 6], &hurt)), wanted);
    let same = "answer 18 0\n".to_string() + &zeros("state", 122) + "table\n";
    assert_eq!(answered(&probe([0; 6], &[])), same);
}

#[test]
fn a_begin_and_a_step_written_out() {
    let begin = probe([1, 2, 7, 999_999, 5, 0], &reset_table());
    let task = " 1 999999 5 2 0 0 0 0 0 0 0 0 0 0 0";
    let busy = format!("state{}{task} 0 0\n", " 0".repeat(105));
    let wanted = "answer 0 0\n".to_string() + &busy + &reset_line();
    assert_eq!(answered(&begin), wanted);
    let mut step = probe([2, 0, 7, 0, 0, 0], &reset_table());
    step[7 + 105..7 + 109].copy_from_slice(&[1, 999_999, 5, 2]);
    let task = " 3 999999 5 0 4294967295 0 1 0 0 0 0 0 0 0 0";
    let busy = format!("state{}{task} 0 0\n", " 0".repeat(105));
    let wanted = "answer 0 0\n".to_string() + &busy + &reset_line();
    assert_eq!(answered(&step), wanted);
}

/// A look up of fare 3 arrives at its leaf: the price is printed.
#[test]
fn a_price_written_out() {
    let mut table = reset_table();
    table[6..12].copy_from_slice(&[1, 3, 77, 0, 0, 0]);
    let mut step = probe([2, 0, 0, 0, 0, 0], &table);
    step[7..11].copy_from_slice(&[1, 3, 0, 1]);
    assert!(answered(&step).starts_with(&("answer 1 77\n".to_string() + &zeros("state", 122))));
}

#[test]
fn figures_and_lists_written_out() {
    let mut table = reset_table();
    table[6..12].copy_from_slice(&[1, 3, 77, 0, 0, 0]);
    let told = answered(&probe([5, 0, 0, 0, 0, 0], &table));
    assert!(told.starts_with("answer 0 0\nfigures 0 0 0 0 1 6 0\nstate 0"));
    let told = answered(&probe([5, 0, 0, 0, 0, 0], &[0; 48]));
    assert!(told.starts_with("answer 17 0\nfigures 0 0 0 0 0 0 0\nstate 0"));
    for (room, line) in [
        (0, "answer 15 0\nroom\n"),
        (1, "answer 15 0\nroom 7\n"),
        (2, "answer 0 0\nroom 3 77\n"),
        (4, "answer 0 0\nroom 3 77 7 7\n"),
    ] {
        let told = answered(&probe([6, 0, 0, 0, 0, room], &table));
        assert!(told.starts_with(line), "{told}");
    }
    let told = answered(&probe([6, 0, 0, 0, 0, 8_192], &table));
    assert_eq!(told.lines().nth(1).map(str::len), Some(4 + 5 + 8_190 * 2));
}

/// Each ground of 40 by itself, and beside it what is still a probe.
#[test]
fn what_is_no_probe_gets_40() {
    let table = [0; 48];
    let no_probe = |head: [u32; 6]| answered(&probe(head, &table)) == "answer 40 0\n";
    for call in 0..7 {
        for place in 1..6 {
            let mut head = [call, 0, 0, 0, 0, 0];
            head[1] = u32::from(call == 1);
            head[place] = if place == 1 { 3 } else { 1 };
            let used = match place {
                1 | 3 | 4 => call == 1,
                2 => (1..=3).contains(&call),
                _ => call == 6,
            };
            assert_eq!(no_probe(head), !used, "{head:?}");
        }
    }
    for call in [7, 8, 256, u32::MAX] {
        assert!(no_probe([call, 0, 0, 0, 0, 0]));
    }
    for operation in [0, 4, 257, u32::MAX] {
        assert!(no_probe([1, operation, 0, 0, 0, 0]));
    }
    assert!(no_probe([6, 0, 0, 0, 0, 8_193]));
    assert!(!no_probe([6, 0, 0, 0, 0, 8_192]));
    assert!(!no_probe([2, 0, u32::MAX, 0, 0, 0]));
    let long = |length| answered(&probe([0; 6], &vec![0; length]));
    assert!(long(24_600).starts_with("answer 18 0\n"));
    assert_eq!(long(24_601), "answer 40 0\n");
    let mut state = probe([0; 6], &table);
    state[7] = 6;
    assert_eq!(answered(&state), "answer 40 0\n");
}

#[test]
fn an_end_in_the_middle_gets_40() {
    let whole = bytes(&probe([0; 6], &[0; 48]));
    let good = printed(&whole).0;
    let twice = [&whole[..], &whole[..]].concat();
    assert_eq!(printed(&twice).0, good.repeat(2));
    for end in 1..whole.len() {
        assert_eq!(printed(&whole[..end]).0, "answer 40 0\n", "{end}");
    }
    let end = whole.len() + 1;
    assert_eq!(printed(&twice[..end]).0, good.clone() + "answer 40 0\n");
    // Nothing is read behind what is no probe.
    let mut bad = whole.clone();
    bad[0] = 9;
    let input = [&whole[..], &bad[..], &whole[..]].concat();
    assert_eq!(printed(&input).0, good + "answer 40 0\n");
}

fn probes(seed: u64, count: usize) -> Vec<Probe> {
    damage(seed, count, false)
        .map(|one| match read_probe(&mut &one[..]) {
            Ok(Next::Probe(probe)) => {
                assert_eq!(bytes(&probe.numbers()), one);
                *probe
            }
            other => panic!("{other:?}"),
        })
        .collect()
}

/// Every call, answer and ground and every settling commit, each often.
#[test]
fn damage_reaches_everything() {
    let mut count = Count::default();
    for mut probe in probes(1, 20_000) {
        let outcome = probe.make();
        count.add(probe.call, &outcome);
    }
    assert_eq!(count.calls.len(), 7);
    let answers: Vec<u32> = count.answers.keys().copied().collect();
    let wanted: Vec<u32> = (0..=6).chain(10..=18).collect();
    assert_eq!(answers, wanted);
    assert_eq!(count.grounds.len(), GROUNDS.len(), "{:?}", count.grounds);
    assert_eq!(count.settled.len(), 10, "{:?}", count.settled);
    let least = |all: Vec<&u32>| all.into_iter().min().copied().unwrap_or(0);
    assert!(least(count.answers.values().collect()) >= 50);
    assert!(least(count.grounds.values().collect()) >= 15);
    assert!(least(count.settled.values().collect()) >= 15);
}

/// What each answer of document 01 leaves, on damaged tables too.
#[test]
fn refusals_leave_what_they_must() {
    for before in probes(2, 5_000) {
        let mut after = before.clone();
        let outcome = after.make();
        let number = outcome.answer.number();
        let stepped = matches!(before.call, Call::Step { .. });
        match number {
            15 | 16 if stepped => assert_eq!(after.table, before.table),
            10..=18 => assert_eq!(after, before, "answer {number}"),
            6 => assert_eq!(after.state.u, before.state.u + 1),
            _ => {}
        }
        assert_eq!(after.table.len(), before.table.len());
    }
}

#[test]
fn damage_is_the_same_for_the_same_seed() {
    let made = second(&["damage", "9", "30"], &[]);
    assert!(made.status.success());
    let own: Vec<u8> = damage(9, 30, false).flatten().collect();
    assert_eq!(made.stdout, own);
    assert_ne!(damage(10, 30, false).flatten().collect::<Vec<u8>>(), own);
    let more: Vec<u8> = damage(9, 60, false).flatten().collect();
    assert!(more.starts_with(&own));
    let lengths: BTreeSet<usize> = probes(3, 3_000).iter().map(|p| p.table.len()).collect();
    for length in [47, 48, 49, 42, 384, 24_576] {
        assert!(lengths.contains(&length), "{length}");
    }
}

#[test]
fn the_last_of_bad_ones_is_no_probe() {
    for seed in 0..400 {
        let input: Vec<u8> = damage(seed, 3, true).flatten().collect();
        let (told, count) = printed(&input);
        assert!(told.ends_with("\nanswer 40 0\n"), "{seed}");
        assert_eq!((count.probes, count.answers[&40]), (3, 1), "{seed}");
    }
}

#[test]
fn cuts_put_together_are_the_whole() {
    let input: Vec<u8> = damage(5, 20, true).flatten().collect();
    let one = |place| cut(&input, place).expect("a cut");
    let parts: Vec<u8> = (1..=20)
        .flat_map(|place| one(place).expect("a part"))
        .collect();
    assert_eq!(parts, input);
    assert_eq!((one(0), one(21)), (None, None));
    let third = second(&["probe", "--cut", "3"], &input);
    assert_eq!(Some(third.stdout), one(3));
    assert_eq!(
        second(&["probe", "--cut", "21"], &input).status.code(),
        Some(2)
    );
}

#[test]
fn counts_go_to_standard_error() {
    let input: Vec<u8> = damage(5, 200, true).flatten().collect();
    let bare = second(&["probe"], &input);
    let counted = second(&["probe", "--count"], &input);
    assert_eq!(bare.stdout, counted.stdout);
    assert!(bare.stderr.is_empty());
    let told = text(&counted.stderr);
    assert!(told.starts_with("probes 200\ncall 0 "), "{told}");
    assert!(told.contains("\nanswer 40 1\n") && told.contains("\nground not-well-formed "));
}

/// A call is its numbers and its numbers are the call.
#[test]
fn calls_go_round() {
    let operation = Operation::TakeOut;
    let begin = Call::Begin {
        operation,
        task: 9,
        number: u32::MAX,
        price: 1,
    };
    assert_eq!(begin.numbers(), [1, 3, 9, u32::MAX, 1, 0]);
    let step = Call::Step { task: u32::MAX };
    for call in [begin, step, Call::Reset, Call::Tidy, Call::Figures] {
        assert_eq!(Call::of(call.numbers()), Some(call));
    }
    let state = State::new();
    let table = vec![1, 2, 3];
    let call = Call::List { room: 4 };
    let numbers = Probe { call, state, table }.numbers();
    assert_eq!(numbers, probe([6, 0, 0, 0, 0, 4], &[1, 2, 3]));
}

/// The probes of the gate, and what must be printed for them.
#[test]
fn the_probes_of_the_gate() {
    let read = |name| std::fs::read(common::folder("crates/probe").join(name)).expect(name);
    let (told, count) = printed(&read("stdin"));
    assert_eq!(told.as_bytes(), read("stdout"));
    assert_eq!((count.probes, count.calls.len()), (41, 7));
    assert!(told.ends_with("\nanswer 40 0\n"));
}

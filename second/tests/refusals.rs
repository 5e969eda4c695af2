//! Refusals of the calls, their order, and the lengths of tables.

use second::answer::Answer;
use second::calls::{abandon, begin, reset};
use second::reach::{figures, list, tidy, Figures};
use second::step::step;
use second::task::{Operation, State, Task};

fn anew(numbers: usize) -> (Vec<u32>, State) {
    let mut table = vec![0; numbers];
    let mut state = State::new();
    reset(&mut table, &mut state);
    (table, state)
}

/// The answers of all calls but reset, by number.
fn all_calls(table: &mut [u32], state: &mut State) -> Vec<u32> {
    vec![
        begin(table, state, 0, Operation::LookUp, 1, 0).number(),
        step(table, state, 0).number(),
        abandon(table, state, 1).number(),
        tidy(table, state).number(),
        figures(table, state).0.number(),
        list(table, state, &mut []).number(),
    ]
}

#[test]
fn lengths_that_are_no_table() {
    for numbers in [0, 1, 6, 42, 47, 49, 6 * 4096 - 1, 6 * 4096 + 1, 6 * 4097] {
        let mut table = vec![5; numbers];
        let mut state = State::new();
        state.m = 3;
        assert_eq!(reset(&mut table, &mut state), Answer::BadLength);
        assert_eq!(all_calls(&mut table, &mut state), [18; 6], "{numbers}");
        assert_eq!(table, vec![5; numbers]);
        assert_eq!(state.m, 3);
        assert_eq!(figures(&table, &state).1, Figures::default());
    }
}

#[test]
fn lengths_that_are_one() {
    for slots in [8, 9, 64, 4095, 4096] {
        let (mut table, mut state) = anew(6 * slots);
        assert_eq!(
            all_calls(&mut table, &mut state),
            [0, 2, 13, 0, 0, 0],
            "{slots}"
        );
        assert_eq!(figures(&table, &state).1.free_slots as usize, slots - 2);
    }
}

#[test]
fn reset_makes_anything_new() {
    let mut table = vec![77; 48];
    let mut state = State::new();
    state.m = u32::MAX;
    state.u = u32::MAX;
    assert_eq!(reset(&mut table, &mut state), Answer::Accepted);
    assert_eq!((table, state), anew(48));
}

/// Each row adds one ground more in front; the answer is the first of them.
#[test]
fn refusals_of_begin_in_order() {
    let (table, mut state) = anew(48);
    let put = Operation::PutIn;
    state.m = 1_000_001;
    assert_eq!(begin(&table, &mut state, 0, put, 1, 1).number(), 17);
    state.m = 0;
    assert_eq!(begin(&table, &mut state, 0, put, 1, 1), Answer::Accepted);
    state.m = 1_000_001;
    let before = state.clone();
    assert_eq!(begin(&table, &mut state, 0, put, 1, 1), Answer::TaskBusy);
    assert_eq!(
        begin(&table, &mut state, 0, put, 1, 100_000),
        Answer::OutOfRange
    );
    assert_eq!(
        begin(&table, &mut state, 8, put, 1, 100_000),
        Answer::TaskAboveSeven
    );
    assert_eq!(
        begin(&table[..47], &mut state, 8, put, 1, 100_000),
        Answer::BadLength
    );
    assert_eq!(state, before);
}

#[test]
fn refusals_of_step_and_abandon_in_order() {
    let (mut table, mut state) = anew(48);
    state.m = 1_000_001;
    let before = state.clone();
    assert_eq!(step(&mut table, &mut state, 0), Answer::TaskIdle);
    assert_eq!(abandon(&table, &mut state, 0), Answer::TaskIdle);
    assert_eq!(step(&mut table, &mut state, 8), Answer::TaskAboveSeven);
    assert_eq!(abandon(&table, &mut state, 8), Answer::TaskAboveSeven);
    assert_eq!(step(&mut table[..47], &mut state, 8), Answer::BadLength);
    assert_eq!(abandon(&table[..47], &mut state, 8), Answer::BadLength);
    assert_eq!(state, before);
}

#[test]
fn a_look_up_and_a_take_out_bring_no_price() {
    let (table, mut state) = anew(48);
    for operation in [Operation::LookUp, Operation::TakeOut] {
        assert_eq!(
            begin(&table, &mut state, 0, operation, 1, 1),
            Answer::OutOfRange
        );
        assert_eq!(
            begin(&table, &mut state, 0, operation, 1, 0),
            Answer::Accepted
        );
        state.tasks[0] = Task::Idle;
    }
}

#[test]
fn tidy_with_a_busy_task() {
    let (mut table, mut state) = anew(48);
    begin(&table, &mut state, 7, Operation::LookUp, 1, 0);
    state.u = 9;
    let before = table.clone();
    assert_eq!(tidy(&mut table, &state), Answer::SomeTaskBusy);
    state.tasks[7] = Task::Idle;
    assert_eq!(tidy(&mut table, &state).number(), 17);
    assert_eq!(table, before);
}

//! Calls on tables and states of any content.

use second::answer::Answer;
use second::calls::{abandon, begin, reset};
use second::random::Random;
use second::reach::{figures, list, tidy, Figures};
use second::step::step;
use second::table::Links;
use second::task::{
    Busy, Goal, Operation, Path, Phase, PutPhase, SettlePhase, State, TakePhase, Task, NO_GRAND,
};

/// A table of 12 slots with the fares 10 and 20, and its state.
fn grown() -> (Vec<u32>, State) {
    let mut table = vec![0; 72];
    let mut state = State::new();
    reset(&mut table, &mut state);
    for number in [10, 20] {
        begin(
            &table,
            &mut state,
            0,
            Operation::PutIn,
            number,
            100 + number,
        );
        while step(&mut table, &mut state, 0) == Answer::Accepted {}
    }
    (table, state)
}

fn refused(table: &[u32], state: &State) -> bool {
    let outcome = figures(table, state);
    let mut lent = vec![7; 100];
    let listed = list(table, state, &mut lent);
    let damaged = outcome.0.number() == 17;
    assert_eq!(listed.number() == 17, damaged);
    if damaged {
        assert_eq!(outcome.1, Figures::default(), "refused figures are zeros");
        assert_eq!(lent, vec![7; 100], "a refused list writes nothing");
    }
    damaged
}

#[test]
fn figures_of_a_whole_table() {
    let (table, state) = grown();
    let (answer, figures) = figures(&table, &state);
    assert_eq!(answer, Answer::Accepted);
    assert_eq!(figures.numbers(), [1, 0, 0, 2, 2, 4, 1]);
}

#[test]
fn every_reachable_record_is_looked_at() {
    let (table, state) = grown();
    for slot in 0..12 {
        let mut hurt = table.clone();
        hurt[slot * 6] = 3;
        let reachable = [0, 2, 4, 5, 6, 7].contains(&slot);
        assert_eq!(refused(&hurt, &state), reachable, "slot {slot}");
    }
}

#[test]
fn a_record_reached_twice_or_in_a_ring() {
    let (table, state) = grown();
    let mut twice = table.clone();
    twice[2 * 6 + 5] = 7;
    assert!(refused(&twice, &state));
    let mut ring = table.clone();
    ring[5 * 6 + 4] = 2;
    assert!(refused(&ring, &state));
}

#[test]
fn later_places_of_a_list_stay() {
    let (table, state) = grown();
    let mut lent = [9; 6];
    assert_eq!(list(&table, &state, &mut lent), Answer::Accepted);
    assert_eq!(lent, [10, 110, 20, 120, 9, 9]);
    let mut odd = [9; 5];
    assert_eq!(list(&table, &state, &mut odd), Answer::Accepted);
    assert_eq!(odd, [10, 110, 20, 120, 9]);
    let mut short = [9; 3];
    assert_eq!(list(&table, &state, &mut short), Answer::NoRoom);
    assert_eq!(short, [9; 3]);
}

fn some_slot(random: &mut Random) -> u32 {
    match random.below(12) {
        0 => u32::MAX,
        1 => 12,
        _ => random.below(12),
    }
}

fn some_links(random: &mut Random) -> Links {
    Links {
        left: some_slot(random),
        right: some_slot(random),
    }
}

fn some_notes<const N: usize>(random: &mut Random) -> [Links; N] {
    std::array::from_fn(|_| some_links(random))
}

fn some_goal(random: &mut Random) -> Goal {
    match random.below(4) {
        0 => Goal::Serve(Operation::LookUp),
        1 => Goal::Serve(Operation::PutIn),
        2 => Goal::Serve(Operation::TakeOut),
        _ => Goal::Settle,
    }
}

fn some_phase(random: &mut Random) -> Phase {
    let grand = if random.percent(10) {
        NO_GRAND
    } else {
        some_slot(random)
    };
    let path = Path {
        grand,
        parent: some_slot(random),
        here: some_slot(random),
    };
    match random.below(15) {
        0 => Phase::Start(some_goal(random)),
        1 => Phase::Walk(some_goal(random), path),
        2 => Phase::PuttingIn(path, PutPhase::Parent),
        3 => Phase::PuttingIn(path, PutPhase::Leaf(some_notes(random))),
        4 => Phase::PuttingIn(path, PutPhase::Commit(some_notes(random))),
        5 => Phase::TakingOut(path, TakePhase::Grand),
        6 => Phase::TakingOut(path, TakePhase::Parent(some_notes(random))),
        7 => Phase::TakingOut(path, TakePhase::Left(some_notes(random))),
        8 => Phase::TakingOut(path, TakePhase::Right(some_notes(random))),
        9 => Phase::TakingOut(path, TakePhase::Commit(some_notes(random))),
        10 => Phase::Settling(path, SettlePhase::Grand),
        11 => Phase::Settling(path, SettlePhase::Parent(some_notes(random))),
        12 => Phase::Settling(path, SettlePhase::Choose(some_notes(random))),
        13 => Phase::Settling(path, SettlePhase::Rotate(some_notes(random))),
        _ => Phase::Settling(path, SettlePhase::Double(some_notes(random))),
    }
}

fn some_cell(random: &mut Random, field: usize) -> u32 {
    let odd = [0, 1, 2, 3, 28, 29, 255, 256, 1_000_000, u32::MAX];
    match (field, random.percent(20)) {
        (_, true) => random.pick(&odd).unwrap_or(0),
        (0, _) => 1 + u32::from(random.percent(15)),
        (1, _) => random.below(40),
        (2, _) => {
            if random.percent(70) {
                0
            } else {
                random.below(120_000)
            }
        }
        (3, _) => random.below(4),
        _ => random.below(12),
    }
}

/// Nothing panics, and each answer leaves what it promises.
#[test]
fn steps_on_random_tables_keep_their_promises() {
    let mut random = Random::new(2016);
    let mut answers = std::collections::BTreeMap::new();
    let (whole, _) = grown();
    for _ in 0..300_000 {
        let mut table = whole.clone();
        for _ in 0..random.below(12) {
            let cell = random.below(72) as usize;
            table[cell] = some_cell(&mut random, cell % 6);
        }
        let mut state = State::new();
        state.m = if random.percent(2) { 1_000_000 } else { 5 };
        state.u = random.below(6);
        let number = if random.percent(3) {
            1_000_000
        } else {
            random.below(40)
        };
        let phase = some_phase(&mut random);
        state.tasks[3] = Task::Busy(Busy {
            number,
            price: 5,
            phase,
        });
        let answer = keeps_its_promise(&mut table, &mut state, 3);
        *answers.entry(answer).or_insert(0) += 1;
    }
    for answer in [0, 1, 2, 3, 4, 17] {
        assert!(answers.contains_key(&answer), "{answers:?}");
    }
}

fn keeps_its_promise(table: &mut [u32], state: &mut State, task: u32) -> u32 {
    let (table_before, state_before) = (table.to_vec(), state.clone());
    let answer = step(table, state, task).number();
    let mut idle = state_before.clone();
    idle.tasks[task as usize] = Task::Idle;
    let same_table = *table == table_before;
    match answer {
        13 | 17 => assert!(same_table && *state == state_before),
        1 | 2 | 4 | 15 | 16 => assert!(same_table && *state == idle),
        5 => assert!(!same_table && *state == idle),
        6 => assert!(same_table && state.u == idle.u + 1),
        0 | 3 => assert!(state.check_counts().is_ok()),
        other => panic!("answer {other}"),
    }
    answer
}

/// Eight tasks at work on 24 slots, then one or two numbers hurt.
#[test]
fn steps_on_hurt_grown_tables_keep_their_promises() {
    let mut random = Random::new(1962);
    let mut answers = std::collections::BTreeMap::new();
    for _ in 0..3_000 {
        let mut table = vec![0; 24 * 6];
        let mut state = State::new();
        reset(&mut table, &mut state);
        for _ in 0..random.between(20, 120) {
            let task = random.below(8);
            let operation = if random.percent(80) {
                Operation::PutIn
            } else {
                Operation::TakeOut
            };
            begin(&table, &mut state, task, operation, random.below(12), 0);
            for _ in 0..random.between(1, 6) {
                assert_ne!(step(&mut table, &mut state, task).number(), 17);
            }
        }
        for _ in 0..8 {
            let (mut table, mut state) = (table.clone(), state.clone());
            for _ in 0..random.between(1, 2) {
                let cell = random.below(24 * 6) as usize;
                table[cell] = some_cell(&mut random, cell % 6);
            }
            for task in 0..8 {
                let answer = keeps_its_promise(&mut table, &mut state, task);
                *answers.entry(answer).or_insert(0) += 1;
            }
            tidy(&mut table, &state);
            abandon(&table, &mut state, 0);
        }
    }
    for answer in [0, 2, 3, 4, 5, 6, 13, 15, 17] {
        assert!(answers.contains_key(&answer), "{answers:?}");
    }
}

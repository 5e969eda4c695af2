//! The fares that the table lists are those of a plain map, after every step
//! of every random call file.

use std::collections::BTreeMap;

use second::answer::Answer;
use second::callfile::{decode, Call, Program, RECORD_BYTES};
use second::make::{make, KINDS};
use second::random::Random;
use second::reach::{figures, list};
use second::task::{Operation, Task};

fn listed(program: &Program) -> Vec<u32> {
    let (_, figures) = figures(&program.table, &program.state);
    let mut lent = vec![0; 2 * figures.fares as usize];
    assert_eq!(
        list(&program.table, &program.state, &mut lent),
        Answer::Accepted
    );
    lent
}

/// One step. A put-in that commits and a take-out change the map too; a step
/// of no other kind may change what is listed.
fn step(program: &mut Program, fares: &mut BTreeMap<u32, u32>, task: u8) -> Answer {
    let before = program.state.clone();
    let answer = program.call(Call::Step { task, count: 1 });
    if let Some(Task::Busy(busy)) = before.tasks.get(task as usize) {
        if program.state.m > before.m {
            assert_eq!(fares.insert(busy.number, busy.price), None);
        }
        if answer == Answer::TakenOut {
            assert!(fares.remove(&busy.number).is_some());
        }
    }
    let wanted: Vec<u32> = fares.iter().flat_map(|(&n, &p)| [n, p]).collect();
    assert_eq!(listed(program), wanted);
    answer
}

#[test]
fn the_list_is_a_plain_map() {
    for (_, kind) in KINDS {
        for seed in 200..203 {
            let mut program = Program::new();
            let mut fares = BTreeMap::new();
            for bytes in make(kind, seed, 1200).chunks(RECORD_BYTES) {
                match decode(bytes) {
                    Some(Call::Step { task, count }) => {
                        let mut left = count;
                        while left > 0 && step(&mut program, &mut fares, task) == Answer::Accepted {
                            left -= 1;
                        }
                    }
                    Some(call) => {
                        program.call(call);
                    }
                    None => {}
                }
            }
            assert!(!fares.is_empty() || program.state.m > 0);
        }
    }
}

/// A random operation with its number and price, and the answer of a plain
/// map, which is changed as the table will be.
fn ask(random: &mut Random, fares: &mut BTreeMap<u32, u32>) -> (Operation, u32, u32, Answer) {
    let number = random.below(24);
    let price = random.below(100);
    let (operation, price, wanted) = match random.below(3) {
        0 => match fares.get(&number) {
            Some(&price) => (Operation::LookUp, 0, Answer::Found { price }),
            None => (Operation::LookUp, 0, Answer::NotHeld),
        },
        1 if fares.len() < 12 => match fares.contains_key(&number) {
            true => (Operation::PutIn, price, Answer::HeldAlready),
            false => {
                fares.insert(number, price);
                (Operation::PutIn, price, Answer::PutIn)
            }
        },
        _ => match fares.remove(&number) {
            Some(_) => (Operation::TakeOut, 0, Answer::TakenOut),
            None => (Operation::TakeOut, 0, Answer::NotHeld),
        },
    };
    (operation, number, price, wanted)
}

/// A task that works alone: every answer is that of a plain map.
#[test]
fn alone_every_answer_is_that_of_a_plain_map() {
    let mut random = Random::new(64);
    let mut program = Program::new();
    let mut fares: BTreeMap<u32, u32> = BTreeMap::new();
    let task = 0;
    for _ in 0..4000 {
        let (operation, number, price, wanted) = ask(&mut random, &mut fares);
        program.call(Call::Begin {
            operation,
            task,
            number,
            price,
        });
        assert_eq!(program.call(Call::Step { task, count: 999 }), wanted);
        assert_eq!(program.call(Call::Tidy), Answer::Accepted);
    }
}

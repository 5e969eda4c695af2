//! What is no probe, each kind of it in turn.

use super::hurt::used_numbers;
use super::{probe, TOP};
use crate::probe::{bytes, HEAD_NUMBERS, MOST_LENGTH, MOST_ROOM};
use crate::random::Random;
use crate::statecode::TASK_NUMBERS;
use crate::task::TASKS;

pub(super) const KINDS: u64 = 8;

/// The bytes of a random probe, spoilt in the way that the turn says.
pub(super) fn bytes_of_bad(random: Random, turn: u64) -> Vec<u8> {
    let mut own = random.clone();
    own.number();
    let mut numbers = probe(random).numbers();
    match turn % KINDS {
        0 => numbers[0] = pick(&mut own, &[7, 8, 255, 256, TOP]),
        1 => bad_operation(&mut own, &mut numbers),
        2 => unused_number(&mut own, &mut numbers),
        3 => {
            numbers[..6].copy_from_slice(&[6, 0, 0, 0, 0, 0]);
            numbers[5] = pick(&mut own, &[MOST_ROOM + 1, 65_536, TOP]);
        }
        4 => numbers[6] = pick(&mut own, &[MOST_LENGTH + 1, 65_536, TOP]),
        5 => bad_phase(&mut own, &mut numbers),
        6 => unused_place(&mut own, &mut numbers),
        _ => return cut_short(&mut own, &bytes(&numbers)),
    }
    bytes(&numbers)
}

fn pick(random: &mut Random, from: &[u32]) -> u32 {
    random.pick(from).unwrap_or(TOP)
}

fn bad_operation(random: &mut Random, numbers: &mut [u32]) {
    numbers[1] = match numbers[0] {
        1 => pick(random, &[0, 4, 5, 257, TOP]),
        _ => pick(random, &[1, 2, 3, 4, TOP]),
    };
}

/// Task, number, price or room where the call does not use it.
fn unused_number(random: &mut Random, numbers: &mut [u32]) {
    let unused: &[u32] = match numbers[0] {
        1 => &[5],
        2 | 3 => &[3, 4, 5],
        6 => &[2, 3, 4],
        _ => &[2, 3, 4, 5],
    };
    let place = pick(random, unused) as usize;
    numbers[place] = pick(random, &[1, 7, 256, TOP]);
}

fn own_task<'a>(random: &mut Random, numbers: &'a mut [u32]) -> &'a mut [u32] {
    let task = random.below(TASKS as u32) as usize;
    &mut numbers[HEAD_NUMBERS + task * TASK_NUMBERS..][..TASK_NUMBERS]
}

/// No such phase, no such goal, or too many readings.
fn bad_phase(random: &mut Random, numbers: &mut [u32]) {
    let (phase, detail) = match random.below(4) {
        0 => (pick(random, &[6, 7, 256, TOP]), 0),
        1 => (pick(random, &[1, 2]), pick(random, &[0, 5, 257, TOP])),
        2 => (3, pick(random, &[3, 4, 5, TOP])),
        _ => (pick(random, &[4, 5]), pick(random, &[5, 6, 256, TOP])),
    };
    let own = own_task(random, numbers);
    own.fill(0);
    own[0] = phase;
    own[3] = detail;
}

/// A number in a place that the phase does not use.
fn unused_place(random: &mut Random, numbers: &mut [u32]) {
    let last = TASK_NUMBERS as u32 - 1;
    let own = own_task(random, numbers);
    if used_numbers(own) > last {
        own.fill(0);
    }
    let place = match used_numbers(own) {
        0 => random.between(1, last),
        used => random.between(used, last),
    };
    own[place as usize] = pick(random, &[1, 7, TOP]);
}

/// An end in the middle: in the head, the state or the table.
fn cut_short(random: &mut Random, whole: &[u8]) -> Vec<u8> {
    let state_at = 4 * HEAD_NUMBERS as u32;
    let table_at = state_at + 4 * 122;
    let all = whole.len() as u32;
    let end = match random.below(4) {
        0 => random.between(1, state_at),
        1 => random.between(state_at, table_at - 1),
        2 => random.between(1, all - 1),
        _ => all - pick(random, &[1, 2, 3, 4]),
    };
    whole[..end as usize].to_vec()
}

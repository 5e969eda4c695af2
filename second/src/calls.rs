//! Reset, begin and abandon. (Step has its own file; tidy, figures and list
//! are in `reach`.)

use crate::answer::{Answer, Damaged};
use crate::step::task_index;
use crate::table::{
    set, slot_count, Links, Record, ENTRY, IN_TREE, LAST_NUMBER, LAST_PRICE, NO_LINK,
    SENTINEL_NUMBER, SENTINEL_RANK,
};
use crate::task::{Busy, Goal, Operation, Phase, State, Task};

const FIRST_LEAF: u32 = 1;

fn sentinel(left: u32) -> Record {
    Record {
        state: IN_TREE,
        number: SENTINEL_NUMBER,
        price: 0,
        rank: SENTINEL_RANK,
        links: Links {
            left,
            right: NO_LINK,
        },
    }
}

/// The one call that never gives 17.
pub fn reset(table: &mut [u32], state: &mut State) -> Answer {
    if slot_count(table).is_none() {
        return Answer::BadLength;
    }
    table.fill(0);
    set(table, ENTRY, sentinel(FIRST_LEAF));
    set(table, FIRST_LEAF, sentinel(NO_LINK));
    *state = State::new();
    Answer::Accepted
}

pub fn begin(
    table: &[u32],
    state: &mut State,
    task: u32,
    operation: Operation,
    number: u32,
    price: u32,
) -> Answer {
    if slot_count(table).is_none() {
        return Answer::BadLength;
    }
    let Some(index) = task_index(task) else {
        return Answer::TaskAboveSeven;
    };
    if number > LAST_NUMBER || !price_fits(operation, price) {
        return Answer::OutOfRange;
    }
    if state.tasks[index] != Task::Idle {
        return Answer::TaskBusy;
    }
    if let Err(Damaged(ground)) = state.check_counts() {
        return Answer::Damaged(ground);
    }
    state.tasks[index] = Task::Busy(Busy {
        number,
        price,
        phase: Phase::Start(Goal::Serve(operation)),
    });
    Answer::Accepted
}

/// Only a put-in brings a price.
fn price_fits(operation: Operation, price: u32) -> bool {
    match operation {
        Operation::PutIn => price <= LAST_PRICE,
        Operation::LookUp | Operation::TakeOut => price == 0,
    }
}

pub fn abandon(table: &[u32], state: &mut State, task: u32) -> Answer {
    if slot_count(table).is_none() {
        return Answer::BadLength;
    }
    let Some(index) = task_index(task) else {
        return Answer::TaskAboveSeven;
    };
    let left = state.tasks[index];
    if left == Task::Idle {
        return Answer::TaskIdle;
    }
    if let Err(Damaged(ground)) = state.check_counts() {
        return Answer::Damaged(ground);
    }
    state.tasks[index] = Task::Idle;
    if left.settles() {
        // u plus the settling tasks is at most m, so this does not wrap.
        state.u += 1;
        Answer::PutInUnsettled
    } else {
        Answer::Accepted
    }
}

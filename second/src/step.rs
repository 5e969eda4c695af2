//! One step of one task: a link of the walk, a reading, or a commit.

use crate::answer::{sound, Answer, Damaged, Ground};
use crate::commit::{commit_put_in, commit_take_out};
use crate::settle::{settling, Settled};
use crate::table::{self, read, read_linked, Links, Record, Side, ENTRY, TAKEN_OFF};
use crate::task::{
    Busy, Goal, Operation, Path, Phase, PutPhase, State, TakePhase, Task, NO_GRAND, TASKS,
};

/// How a step leaves its task.
#[derive(Clone, Copy, Debug, PartialEq, Eq)]
pub enum Next {
    /// The answer is 0.
    GoOn(Phase),
    /// The task is idle.
    End(Answer),
}

pub fn step(table: &mut [u32], state: &mut State, task: u32) -> Answer {
    step_told(table, state, task).0
}

/// A step that also tells which settling commit it made, if it made one.
pub fn step_told(table: &mut [u32], state: &mut State, task: u32) -> (Answer, Option<Settled>) {
    if table::slot_count(table).is_none() {
        return (Answer::BadLength, None);
    }
    let Some(index) = task_index(task) else {
        return (Answer::TaskAboveSeven, None);
    };
    let Task::Busy(busy) = state.tasks[index] else {
        return (Answer::TaskIdle, None);
    };
    match advance(table, state, &busy) {
        Err(Damaged(ground)) => (Answer::Damaged(ground), None),
        Ok((Next::End(answer), told)) => {
            state.tasks[index] = Task::Idle;
            (answer, told)
        }
        Ok((Next::GoOn(phase), told)) => {
            state.tasks[index] = Task::Busy(Busy { phase, ..busy });
            (Answer::Accepted, told)
        }
    }
}

pub fn task_index(task: u32) -> Option<usize> {
    let index = task as usize;
    (index < TASKS).then_some(index)
}

/// The step itself. Nothing has changed where it gives `Damaged`.
fn advance(
    table: &mut [u32],
    state: &mut State,
    busy: &Busy,
) -> Result<(Next, Option<Settled>), Damaged> {
    state.check_counts()?;
    sound(busy.number <= table::LAST_NUMBER, Ground::TaskNumber)?;
    sound(busy.price <= table::LAST_PRICE, Ground::TaskPrice)?;
    let next = match busy.phase {
        Phase::Start(goal) => first_link(table, busy, goal)?,
        Phase::Walk(goal, path) => next_link(table, busy, goal, path)?,
        Phase::PuttingIn(path, phase) => putting_in(table, state, busy, path, phase)?,
        Phase::TakingOut(path, phase) => taking_out(table, busy, path, phase)?,
        Phase::Settling(path, phase) => return settling(table, state, path, phase),
    };
    Ok((next, None))
}

fn first_link(table: &[u32], busy: &Busy, goal: Goal) -> Result<Next, Damaged> {
    let entry = read(table, ENTRY)?;
    let path = Path {
        grand: NO_GRAND,
        parent: ENTRY,
        here: entry.links.left,
    };
    arrive(table, busy, goal, path, &entry)
}

fn next_link(table: &[u32], busy: &Busy, goal: Goal, path: Path) -> Result<Next, Damaged> {
    let left = read_linked(table, path.here)?;
    let side = if busy.number < left.number {
        Side::Left
    } else {
        Side::Right
    };
    let onward = Path {
        grand: path.parent,
        parent: path.here,
        here: left.links.on(side),
    };
    arrive(table, busy, goal, onward, &left)
}

/// A walk looks at no state: taken-off records are gone through like others.
fn arrive(
    table: &[u32],
    busy: &Busy,
    goal: Goal,
    path: Path,
    parent: &Record,
) -> Result<Next, Damaged> {
    let here = read_linked(table, path.here)?;
    Ok(match goal {
        Goal::Settle => {
            sound(here.rank <= parent.rank, Ground::ArrivalOutranks)?;
            arrive_settling(path, &here, parent)
        }
        Goal::Serve(_) if !here.is_leaf() => Next::GoOn(Phase::Walk(goal, path)),
        Goal::Serve(operation) => arrive_at_leaf(operation, busy.number, path, &here),
    })
}

fn arrive_settling(path: Path, here: &Record, parent: &Record) -> Next {
    if here.is_leaf() {
        Next::End(Answer::PutIn)
    } else if here.is_level_below(parent) {
        Next::GoOn(Phase::Settling(path, crate::task::SettlePhase::Grand))
    } else {
        Next::GoOn(Phase::Walk(Goal::Settle, path))
    }
}

fn arrive_at_leaf(operation: Operation, number: u32, path: Path, leaf: &Record) -> Next {
    let held = leaf.number == number;
    match (operation, held) {
        (Operation::LookUp, true) => Next::End(Answer::Found { price: leaf.price }),
        (Operation::PutIn, true) => Next::End(Answer::HeldAlready),
        (Operation::LookUp | Operation::TakeOut, false) => Next::End(Answer::NotHeld),
        (Operation::PutIn, false) => Next::GoOn(Phase::PuttingIn(path, PutPhase::Parent)),
        (Operation::TakeOut, true) => Next::GoOn(Phase::TakingOut(path, TakePhase::Grand)),
    }
}

/// A reading (LLX) of a record already found well formed: the links noted,
/// or nothing if it failed. `next` is the remembered record that follows.
pub fn noted(record: &Record, next: Option<u32>) -> Option<Links> {
    let leads = next.is_none_or(|slot| record.links.lead_to(slot));
    (record.state != TAKEN_OFF && leads).then_some(record.links)
}

/// After a reading: the next phase, or the walk anew if the reading failed.
pub fn after_reading(
    goal: Goal,
    links: Option<Links>,
    onward: impl FnOnce(Links) -> Phase,
) -> Next {
    Next::GoOn(links.map_or(Phase::Start(goal), onward))
}

fn putting_in(
    table: &mut [u32],
    state: &mut State,
    busy: &Busy,
    path: Path,
    phase: PutPhase,
) -> Result<Next, Damaged> {
    let goal = Goal::Serve(Operation::PutIn);
    let go = |phase| Phase::PuttingIn(path, phase);
    Ok(match phase {
        PutPhase::Parent => {
            let links = noted(&read(table, path.parent)?, Some(path.here));
            after_reading(goal, links, |p| go(PutPhase::Leaf([p])))
        }
        PutPhase::Leaf([p]) => {
            let links = noted(&read_linked(table, path.here)?, None);
            after_reading(goal, links, |l| go(PutPhase::Commit([p, l])))
        }
        PutPhase::Commit(notes) => commit_put_in(table, state, busy, path, notes)?,
    })
}

fn taking_out(
    table: &mut [u32],
    busy: &Busy,
    path: Path,
    phase: TakePhase,
) -> Result<Next, Damaged> {
    let goal = Goal::Serve(Operation::TakeOut);
    let go = |phase| Phase::TakingOut(path, phase);
    Ok(match phase {
        TakePhase::Grand => {
            // "No grandparent" is no slot of any table, so this gives 17.
            let links = noted(&read(table, path.grand)?, Some(path.parent));
            after_reading(goal, links, |g| go(TakePhase::Parent([g])))
        }
        TakePhase::Parent([g]) => {
            let links = noted(&read(table, path.parent)?, Some(path.here));
            after_reading(goal, links, |p| go(TakePhase::Left([g, p])))
        }
        TakePhase::Left([g, p]) => {
            let links = noted(&read_linked(table, p.left)?, None);
            after_reading(goal, links, |l| go(TakePhase::Right([g, p, l])))
        }
        TakePhase::Right([g, p, l]) => {
            let links = noted(&read_linked(table, p.right)?, None);
            after_reading(goal, links, |r| go(TakePhase::Commit([g, p, l, r])))
        }
        TakePhase::Commit(notes) => commit_take_out(table, busy, path, notes)?,
    })
}

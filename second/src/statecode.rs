//! A state as a row of 122 numbers, as docs/PROBE.md lays it out: eight tasks
//! of 15 numbers each, then m, then u. Each state is one row; a row that
//! breaks the rules is no state.

use crate::table::Links;
use crate::task::{
    Busy, Goal, Operation, Path, Phase, PutPhase, SettlePhase, State, TakePhase, Task, TASKS,
};

pub const TASK_NUMBERS: usize = 15;
pub const STATE_NUMBERS: usize = TASKS * TASK_NUMBERS + 2;

/// Where the path and the notes of a task begin.
const PATH_AT: usize = 4;
const NOTES_AT: usize = 7;

pub fn encode(state: &State) -> Vec<u32> {
    let mut row = Vec::with_capacity(STATE_NUMBERS);
    for task in &state.tasks {
        row.extend(encode_task(task));
    }
    row.extend([state.m, state.u]);
    row
}

fn encode_task(task: &Task) -> [u32; TASK_NUMBERS] {
    let mut row = [0; TASK_NUMBERS];
    let Task::Busy(busy) = task else {
        return row;
    };
    let (kind, detail, notes) = phase_numbers(&busy.phase);
    row[..PATH_AT].copy_from_slice(&[kind, busy.number, busy.price, detail]);
    if let Some(path) = busy.phase.path() {
        row[PATH_AT..NOTES_AT].copy_from_slice(&[path.grand, path.parent, path.here]);
    }
    for (place, links) in row[NOTES_AT..].chunks_exact_mut(2).zip(notes) {
        place.copy_from_slice(&[links.left, links.right]);
    }
    row
}

/// The phase's number, its goal or count of readings, and its notes.
fn phase_numbers(phase: &Phase) -> (u32, u32, &[Links]) {
    let (kind, notes) = match phase {
        Phase::Start(goal) => return (1, goal_number(*goal), &[]),
        Phase::Walk(goal, _) => return (2, goal_number(*goal), &[]),
        Phase::PuttingIn(_, phase) => (3, put_notes(phase)),
        Phase::TakingOut(_, phase) => (4, take_notes(phase)),
        Phase::Settling(_, phase) => (5, settle_notes(phase)),
    };
    (kind, notes.len() as u32, notes)
}

fn goal_number(goal: Goal) -> u32 {
    match goal {
        Goal::Serve(Operation::LookUp) => 1,
        Goal::Serve(Operation::PutIn) => 2,
        Goal::Serve(Operation::TakeOut) => 3,
        Goal::Settle => 4,
    }
}

fn put_notes(phase: &PutPhase) -> &[Links] {
    match phase {
        PutPhase::Parent => &[],
        PutPhase::Leaf(notes) => notes,
        PutPhase::Commit(notes) => notes,
    }
}

fn take_notes(phase: &TakePhase) -> &[Links] {
    match phase {
        TakePhase::Grand => &[],
        TakePhase::Parent(notes) => notes,
        TakePhase::Left(notes) => notes,
        TakePhase::Right(notes) => notes,
        TakePhase::Commit(notes) => notes,
    }
}

fn settle_notes(phase: &SettlePhase) -> &[Links] {
    match phase {
        SettlePhase::Grand => &[],
        SettlePhase::Parent(notes) => notes,
        SettlePhase::Choose(notes) => notes,
        SettlePhase::Rotate(notes) => notes,
        SettlePhase::Double(notes) => notes,
    }
}

/// Nothing for a row that is no state.
pub fn decode(row: &[u32]) -> Option<State> {
    if row.len() != STATE_NUMBERS {
        return None;
    }
    let mut state = State::new();
    for (task, numbers) in state.tasks.iter_mut().zip(row.chunks(TASK_NUMBERS)) {
        *task = decode_task(numbers)?;
    }
    state.m = row[STATE_NUMBERS - 2];
    state.u = row[STATE_NUMBERS - 1];
    Some(state)
}

fn decode_task(row: &[u32]) -> Option<Task> {
    let detail = row[3];
    let path = Path {
        grand: row[PATH_AT],
        parent: row[PATH_AT + 1],
        here: row[PATH_AT + 2],
    };
    let (phase, used) = match row[0] {
        0 => return zeros(row).then_some(Task::Idle),
        1 => (Phase::Start(goal(detail)?), PATH_AT),
        2 => (Phase::Walk(goal(detail)?, path), NOTES_AT),
        kind => {
            let notes = notes(row, detail)?;
            (reading(kind, path, &notes)?, NOTES_AT + 2 * notes.len())
        }
    };
    let (number, price) = (row[1], row[2]);
    let busy = Busy {
        number,
        price,
        phase,
    };
    zeros(&row[used..]).then_some(Task::Busy(busy))
}

fn zeros(row: &[u32]) -> bool {
    row.iter().all(|&number| number == 0)
}

pub fn goal(number: u32) -> Option<Goal> {
    Some(match number {
        1 => Goal::Serve(Operation::LookUp),
        2 => Goal::Serve(Operation::PutIn),
        3 => Goal::Serve(Operation::TakeOut),
        4 => Goal::Settle,
        _ => return None,
    })
}

fn notes(row: &[u32], readings: u32) -> Option<Vec<Links>> {
    if readings > 4 {
        return None;
    }
    let pairs = row[NOTES_AT..].chunks_exact(2).take(readings as usize);
    Some(
        pairs
            .map(|pair| Links {
                left: pair[0],
                right: pair[1],
            })
            .collect(),
    )
}

/// The phase of a task in its readings, by how many notes it has.
pub fn reading(kind: u32, path: Path, notes: &[Links]) -> Option<Phase> {
    Some(match (kind, notes) {
        (3, &[]) => Phase::PuttingIn(path, PutPhase::Parent),
        (3, &[p]) => Phase::PuttingIn(path, PutPhase::Leaf([p])),
        (3, &[p, l]) => Phase::PuttingIn(path, PutPhase::Commit([p, l])),
        (4, &[]) => Phase::TakingOut(path, TakePhase::Grand),
        (4, &[g]) => Phase::TakingOut(path, TakePhase::Parent([g])),
        (4, &[g, p]) => Phase::TakingOut(path, TakePhase::Left([g, p])),
        (4, &[g, p, l]) => Phase::TakingOut(path, TakePhase::Right([g, p, l])),
        (4, &[g, p, l, r]) => Phase::TakingOut(path, TakePhase::Commit([g, p, l, r])),
        (5, &[]) => Phase::Settling(path, SettlePhase::Grand),
        (5, &[pz]) => Phase::Settling(path, SettlePhase::Parent([pz])),
        (5, &[pz, z]) => Phase::Settling(path, SettlePhase::Choose([pz, z])),
        (5, &[pz, z, x]) => Phase::Settling(path, SettlePhase::Rotate([pz, z, x])),
        (5, &[pz, z, x, y]) => Phase::Settling(path, SettlePhase::Double([pz, z, x, y])),
        _ => return None,
    })
}

#[cfg(test)]
mod tests {
    use super::*;
    use crate::task::NO_GRAND;

    const PATH: Path = Path {
        grand: NO_GRAND,
        parent: 0,
        here: 9,
    };

    fn links(left: u32) -> Links {
        Links {
            left,
            right: left + 1,
        }
    }

    /// Every phase that there is, with its row from the fourth number on.
    fn phases() -> Vec<(Phase, u32, u32)> {
        let mut all = Vec::new();
        for number in 1..=4 {
            let goal = goal(number).expect("a goal");
            all.push((Phase::Start(goal), 1, number));
            all.push((Phase::Walk(goal, PATH), 2, number));
        }
        for (kind, most) in [(3, 2), (4, 4), (5, 4)] {
            for readings in 0..=most {
                let notes: Vec<Links> = (0..readings).map(|i| links(21 + 2 * i)).collect();
                let phase = reading(kind, PATH, &notes).expect("a phase");
                all.push((phase, kind, readings));
            }
        }
        all
    }

    fn busy(phase: Phase) -> Task {
        Task::Busy(Busy {
            number: 4_000_000,
            price: 100_001,
            phase,
        })
    }

    #[test]
    fn every_phase_goes_round() {
        let phases = phases();
        assert_eq!(phases.len(), 8 + 3 + 5 + 5);
        for (place, (phase, kind, detail)) in phases.into_iter().enumerate() {
            let mut state = State::new();
            state.m = 3;
            state.u = u32::MAX;
            state.tasks[place % TASKS] = busy(phase);
            let row = encode(&state);
            assert_eq!(row.len(), STATE_NUMBERS);
            let mut wanted = vec![kind, 4_000_000, 100_001, detail];
            wanted.extend(if kind == 1 { [0; 3] } else { [NO_GRAND, 0, 9] });
            let noted = if kind < 3 { 0 } else { 2 * detail };
            wanted.extend((0..8).map(|i| if i < noted { 21 + i } else { 0 }));
            assert_eq!(row[place % TASKS * TASK_NUMBERS..][..TASK_NUMBERS], wanted);
            assert_eq!(row[120..], [3, u32::MAX]);
            assert_eq!(decode(&row), Some(state));
        }
    }

    #[test]
    fn a_new_state_is_zeros() {
        assert_eq!(encode(&State::new()), [0; STATE_NUMBERS]);
        assert_eq!(decode(&[0; STATE_NUMBERS]), Some(State::new()));
        assert_eq!(decode(&[0; STATE_NUMBERS - 1]), None);
        assert_eq!(decode(&[0; STATE_NUMBERS + 1]), None);
    }

    fn row_of(task: &[u32]) -> Vec<u32> {
        let mut row = vec![0; STATE_NUMBERS];
        row[105..105 + task.len()].copy_from_slice(task);
        row
    }

    #[test]
    fn phases_goals_and_readings_are_as_named() {
        for kind in [6, 7, u32::MAX] {
            assert_eq!(decode(&row_of(&[kind])), None, "phase {kind}");
        }
        for (kind, least, most) in [(1, 1, 4), (2, 1, 4), (3, 0, 2), (4, 0, 4), (5, 0, 4)] {
            for detail in [0, 1, 2, 3, 4, 5, 6, u32::MAX] {
                let fits = (least..=most).contains(&detail);
                let row = row_of(&[kind, 1, 1, detail]);
                assert_eq!(decode(&row).is_some(), fits, "{kind} {detail}");
            }
        }
    }

    /// Each place in turn: where the phase uses it any number will do, else
    /// only 0.
    #[test]
    fn unused_places_are_zero() {
        let mut rows: Vec<(Vec<u32>, usize)> = vec![(row_of(&[0]), 0)];
        for (phase, kind, detail) in phases() {
            let mut state = State::new();
            state.tasks[7] = busy(phase);
            let used = match kind {
                1 => 4,
                2 => 7,
                _ => 7 + 2 * detail as usize,
            };
            rows.push((encode(&state), used));
        }
        for (row, used) in rows {
            for place in (0..TASK_NUMBERS).filter(|place| ![0, 3].contains(place)) {
                let mut changed = row.clone();
                changed[105 + place] = 77;
                assert_eq!(decode(&changed).is_some(), place < used, "{row:?} {place}");
            }
            let mut idle = row.clone();
            idle[105] = 0;
            assert_eq!(decode(&idle).is_some(), used == 0);
        }
        assert_eq!(decode(&row_of(&[0, 0, 0, 1])), None);
    }
}

//! The state that goes with the table: eight tasks, m and u.
//!
//! A busy task's phase says what its next step does, and holds just what
//! that step needs. States without a meaning cannot be written down.

use crate::answer::{sound, Damaged, Ground};
use crate::table::Links;

pub const TASKS: usize = 8;
pub const LAST_PUT_IN: u32 = 1_000_000;

/// In `Path::grand`: the record hangs on the entry, so it has no grandparent.
pub const NO_GRAND: u32 = u32::MAX;

#[derive(Clone, Copy, Debug, PartialEq, Eq)]
pub enum Operation {
    LookUp,
    PutIn,
    TakeOut,
}

/// What a walk is made for.
#[derive(Clone, Copy, Debug, PartialEq, Eq)]
pub enum Goal {
    Serve(Operation),
    Settle,
}

/// The last three records of a walk.
#[derive(Clone, Copy, Debug, PartialEq, Eq)]
pub struct Path {
    pub grand: u32,
    pub parent: u32,
    pub here: u32,
}

/// Next: read the parent, read the leaf, or commit.
#[derive(Clone, Copy, Debug, PartialEq, Eq)]
pub enum PutPhase {
    Parent,
    Leaf([Links; 1]),
    Commit([Links; 2]),
}

/// Next: read the grandparent, the parent, its left child, its right child,
/// or commit.
#[derive(Clone, Copy, Debug, PartialEq, Eq)]
pub enum TakePhase {
    Grand,
    Parent([Links; 1]),
    Left([Links; 2]),
    Right([Links; 3]),
    Commit([Links; 4]),
}

/// Next: read pz, read z, then choose with pz and z noted, with x noted
/// too, and with y noted too.
#[derive(Clone, Copy, Debug, PartialEq, Eq)]
pub enum SettlePhase {
    Grand,
    Parent([Links; 1]),
    Choose([Links; 2]),
    Rotate([Links; 3]),
    Double([Links; 4]),
}

#[derive(Clone, Copy, Debug, PartialEq, Eq)]
pub enum Phase {
    /// Next: read the entry's left link.
    Start(Goal),
    /// Next: read the link of `here` on the sought side.
    Walk(Goal, Path),
    PuttingIn(Path, PutPhase),
    TakingOut(Path, TakePhase),
    Settling(Path, SettlePhase),
}

impl Phase {
    pub fn goal(&self) -> Goal {
        match *self {
            Phase::Start(goal) | Phase::Walk(goal, _) => goal,
            Phase::PuttingIn(..) => Goal::Serve(Operation::PutIn),
            Phase::TakingOut(..) => Goal::Serve(Operation::TakeOut),
            Phase::Settling(..) => Goal::Settle,
        }
    }

    /// The records remembered, once the walk has begun.
    pub fn path(&self) -> Option<Path> {
        match *self {
            Phase::Start(_) => None,
            Phase::Walk(_, path)
            | Phase::PuttingIn(path, _)
            | Phase::TakingOut(path, _)
            | Phase::Settling(path, _) => Some(path),
        }
    }

    pub fn settles(&self) -> bool {
        self.goal() == Goal::Settle
    }
}

#[derive(Clone, Copy, Debug, PartialEq, Eq)]
pub struct Busy {
    pub number: u32,
    pub price: u32,
    pub phase: Phase,
}

#[derive(Clone, Copy, Debug, PartialEq, Eq)]
pub enum Task {
    Idle,
    Busy(Busy),
}

impl Task {
    pub fn settles(&self) -> bool {
        matches!(self, Task::Busy(busy) if busy.phase.settles())
    }
}

#[derive(Clone, Debug, PartialEq, Eq)]
pub struct State {
    pub tasks: [Task; TASKS],
    /// Put-ins committed since the reset.
    pub m: u32,
    /// Put-ins that ended unsettled or were abandoned while settling.
    pub u: u32,
}

impl State {
    pub fn new() -> State {
        State {
            tasks: [Task::Idle; TASKS],
            m: 0,
            u: 0,
        }
    }

    /// c: wide enough for any u.
    pub fn unsettled(&self) -> u64 {
        let settling = self.tasks.iter().filter(|task| task.settles()).count();
        u64::from(self.u) + settling as u64
    }

    /// The grounds of 17 that every call but reset looks at.
    pub fn check_counts(&self) -> Result<(), Damaged> {
        sound(self.m <= LAST_PUT_IN, Ground::TooManyPutIns)?;
        let fits = self.unsettled() <= u64::from(self.m);
        sound(fits, Ground::TooManyUnsettled)
    }

    pub fn busy_tasks(&self) -> Vec<u32> {
        (0..TASKS as u32)
            .filter(|&i| self.tasks[i as usize] != Task::Idle)
            .collect()
    }
}

impl Default for State {
    fn default() -> Self {
        State::new()
    }
}

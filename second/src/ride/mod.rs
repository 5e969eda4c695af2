//! Rides written as text: calls with the answers that they must give, and
//! damage done between them.

pub mod antt;
pub mod facts;
pub mod parse;
pub mod run;
pub mod show;

use crate::table::WIDTH;
use crate::task::{Operation, State, Task};

#[derive(Clone, Copy, Debug, PartialEq, Eq)]
pub enum Start {
    /// A reset of a table of so many slots.
    Anew(u32),
    /// From the end of the ride before.
    Onward,
    /// From where the ride before started.
    Beside,
}

#[derive(Clone, Copy, Debug, PartialEq, Eq)]
pub enum Act {
    Begin {
        task: u32,
        operation: Operation,
        number: u32,
        price: u32,
    },
    Step {
        task: u32,
        count: u32,
    },
    Abandon {
        task: u32,
    },
    Tidy,
    Figures,
    List {
        room: u32,
    },
}

#[derive(Clone, Copy, Debug, PartialEq, Eq)]
pub enum Damage {
    Field { slot: u32, field: usize, value: u32 },
    M(u32),
    U(u32),
    Length(u32),
    Task { task: usize, left: Task },
}

#[derive(Clone, Copy, Debug, PartialEq, Eq)]
pub enum Line {
    Call { act: Act, answer: u32, price: u32 },
    Damage(Damage),
}

#[derive(Clone, Copy, Debug, PartialEq, Eq)]
pub enum After {
    /// Table and state are as they were before the last call.
    Same,
    /// The outcome is told in full.
    Left,
}

#[derive(Clone, Debug, PartialEq, Eq)]
pub struct Want {
    pub fact: facts::Fact,
    pub numbers: Vec<u32>,
}

/// Something with the line of the file on which it stands.
#[derive(Clone, Debug, PartialEq, Eq)]
pub struct At<T> {
    pub line: usize,
    pub what: T,
}

#[derive(Clone, Debug, PartialEq, Eq)]
pub struct Ride {
    pub title: String,
    pub start: Start,
    pub lines: Vec<At<Line>>,
    pub after: At<After>,
    pub wants: Vec<At<Want>>,
}

/// A table and the state that goes with it.
#[derive(Clone, Debug, PartialEq, Eq)]
pub struct World {
    pub table: Vec<u32>,
    pub state: State,
}

impl World {
    pub fn anew(slots: u32) -> World {
        let mut world = World {
            table: vec![0; slots as usize * WIDTH],
            state: State::new(),
        };
        crate::calls::reset(&mut world.table, &mut world.state);
        world
    }
}

/// A ride that was run.
#[derive(Clone, Debug)]
pub struct Ridden {
    pub start: World,
    pub end: World,
    /// The settling commits made, as 10 times the row plus the side.
    pub settled: Vec<u32>,
}

/// What stopped a file: a word that cannot be read, or a difference.
#[derive(Clone, Debug, PartialEq, Eq)]
pub struct Trouble {
    pub line: usize,
    pub message: String,
}

impl Trouble {
    pub fn new(line: usize, message: impl Into<String>) -> Trouble {
        let message = message.into();
        Trouble { line, message }
    }
}

//! The call file and the program that answers it on 64 slots.

use std::fmt::Write;

use crate::answer::Answer;
use crate::calls::{abandon, begin, reset};
use crate::reach::{figures, tidy};
use crate::settle::Settled;
use crate::step::step_told;
use crate::table::WIDTH;
use crate::task::{Goal, Operation, Phase, State, Task};

pub const RECORD_BYTES: usize = 12;
pub const PROGRAM_SLOTS: usize = 64;

#[derive(Clone, Copy, Debug, PartialEq, Eq)]
pub enum Call {
    Begin {
        operation: Operation,
        task: u8,
        number: u32,
        price: u32,
    },
    Step {
        task: u8,
        count: u16,
    },
    Abandon {
        task: u8,
    },
    Tidy,
}

/// The five fields of a whole record, whatever they hold.
#[derive(Clone, Copy, Debug, Default, PartialEq, Eq)]
pub struct Fields {
    pub code: u8,
    pub task: u8,
    pub count: u16,
    pub number: u32,
    pub price: u32,
}

impl Fields {
    /// Nothing for a record of a wrong length.
    pub fn of(record: &[u8]) -> Option<Fields> {
        let record: [u8; RECORD_BYTES] = record.try_into().ok()?;
        let [code, task, c0, c1, n0, n1, n2, n3, p0, p1, p2, p3] = record;
        Some(Fields {
            code,
            task,
            count: u16::from_le_bytes([c0, c1]),
            number: u32::from_le_bytes([n0, n1, n2, n3]),
            price: u32::from_le_bytes([p0, p1, p2, p3]),
        })
    }

    pub fn record(self) -> [u8; RECORD_BYTES] {
        let mut record = [0; RECORD_BYTES];
        record[0] = self.code;
        record[1] = self.task;
        record[2..4].copy_from_slice(&self.count.to_le_bytes());
        record[4..8].copy_from_slice(&self.number.to_le_bytes());
        record[8..].copy_from_slice(&self.price.to_le_bytes());
        record
    }
}

/// The call of a record, or nothing for a bad one (answer 19).
pub fn decode(record: &[u8]) -> Option<Call> {
    let fields = Fields::of(record)?;
    let Fields { task, count, .. } = fields;
    let no_fare = fields.number == 0 && fields.price == 0;
    let begin = |operation| Call::Begin {
        operation,
        task,
        number: fields.number,
        price: fields.price,
    };
    match fields.code {
        1 if count == 0 => Some(begin(Operation::LookUp)),
        2 if count == 0 => Some(begin(Operation::PutIn)),
        3 if count == 0 => Some(begin(Operation::TakeOut)),
        4 if count != 0 && no_fare => Some(Call::Step { task, count }),
        5 if count == 0 && no_fare => Some(Call::Abandon { task }),
        6 if count == 0 && no_fare && task == 0 => Some(Call::Tidy),
        _ => None,
    }
}

pub fn encode(call: Call) -> [u8; RECORD_BYTES] {
    let (code, task, count, number, price) = match call {
        Call::Begin {
            operation,
            task,
            number,
            price,
        } => (begin_code(operation), task, 0, number, price),
        Call::Step { task, count } => (4, task, count, 0, 0),
        Call::Abandon { task } => (5, task, 0, 0, 0),
        Call::Tidy => (6, 0, 0, 0, 0),
    };
    let fields = Fields {
        code,
        task,
        count,
        number,
        price,
    };
    fields.record()
}

fn begin_code(operation: Operation) -> u8 {
    match operation {
        Operation::LookUp => 1,
        Operation::PutIn => 2,
        Operation::TakeOut => 3,
    }
}

/// The program's table and state, and what its steps have told.
#[derive(Clone, Debug)]
pub struct Program {
    pub table: [u32; WIDTH * PROGRAM_SLOTS],
    pub state: State,
    /// The settling commits made so far.
    pub settled: Vec<Settled>,
    /// Readings and commits so far after which the walk started again.
    pub restarts: u32,
}

impl Program {
    pub fn new() -> Program {
        let mut program = Program {
            table: [0; WIDTH * PROGRAM_SLOTS],
            state: State::new(),
            settled: Vec::new(),
            restarts: 0,
        };
        reset(&mut program.table, &mut program.state);
        program
    }

    /// The program after a call file.
    pub fn after(file: &[u8]) -> Program {
        let mut program = Program::new();
        for record in file.chunks(RECORD_BYTES) {
            program.answer(record);
        }
        program
    }

    pub fn answer(&mut self, bytes: &[u8]) -> Answer {
        match decode(bytes) {
            Some(call) => self.call(call),
            None => Answer::BadCallRecord,
        }
    }

    pub fn call(&mut self, call: Call) -> Answer {
        let (table, state) = (&mut self.table, &mut self.state);
        match call {
            Call::Begin {
                operation,
                task,
                number,
                price,
            } => begin(table, state, task.into(), operation, number, price),
            Call::Step { task, count } => self.steps(task.into(), count),
            Call::Abandon { task } => abandon(table, state, task.into()),
            Call::Tidy => tidy(table, state),
        }
    }

    /// At least one step; on while a step answers 0 and the count is not spent.
    fn steps(&mut self, task: u32, count: u16) -> Answer {
        let mut last = Answer::Accepted;
        for _ in 0..count {
            let before = self.goal_pursued(task);
            let (answer, told) = step_told(&mut self.table, &mut self.state, task);
            if told.is_none() && before.is_some() && self.goal_begun(task) == before {
                self.restarts += 1;
            }
            self.settled.extend(told);
            last = answer;
            if answer != Answer::Accepted {
                break;
            }
        }
        last
    }

    fn phase(&self, task: u32) -> Option<Phase> {
        match self.state.tasks.get(task as usize)? {
            Task::Busy(busy) => Some(busy.phase),
            Task::Idle => None,
        }
    }

    /// What a task in its readings or about to commit works for.
    fn goal_pursued(&self, task: u32) -> Option<Goal> {
        match self.phase(task)? {
            Phase::Start(_) | Phase::Walk(..) => None,
            phase => Some(phase.goal()),
        }
    }

    /// What a task about to walk from the entry works for.
    fn goal_begun(&self, task: u32) -> Option<Goal> {
        match self.phase(task)? {
            Phase::Start(goal) => Some(goal),
            _ => None,
        }
    }
}

impl Default for Program {
    fn default() -> Self {
        Program::new()
    }
}

/// The whole output for a call file.
pub fn run(file: &[u8]) -> String {
    let mut program = Program::new();
    let mut out = String::new();
    for (index, bytes) in file.chunks(RECORD_BYTES).enumerate() {
        let answer = program.answer(bytes);
        let Fields { code, task, .. } = Fields::of(bytes).unwrap_or_default();
        let (number, price) = (answer.number(), answer.price());
        // Writing to a string cannot fail.
        let _ = writeln!(out, "{} {code} {task} {number} {price}", index + 1);
    }
    let (_, figures) = figures(&program.table, &program.state);
    out.push_str("end");
    for number in figures.numbers() {
        let _ = write!(out, " {number}");
    }
    out.push('\n');
    out
}

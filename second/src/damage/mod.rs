//! Random probes, most of them damaged. The same seed gives the same probes
//! on every machine, and each probe has random numbers of its own.
//!
//! A table is grown by calls (`grow`), a task is put where it is about to
//! walk, read or commit (`stand`), then some things are changed (`hurt`).
//! `bad` makes what is no probe.

mod bad;
mod grow;
mod hurt;
mod stand;

use crate::probe::{bytes, Call, Probe};
use crate::random::Random;
use crate::table::{slot_count, whole_slots, LAST_NUMBER, LAST_PRICE};
use crate::task::{Operation, State, Task, LAST_PUT_IN, TASKS};

const TOP: u32 = u32::MAX;

/// The bytes of so many probes, one after another; with `bad` the last one is
/// no probe.
pub fn damage(seed: u64, count: usize, bad: bool) -> impl Iterator<Item = Vec<u8>> {
    let mut random = Random::new(seed);
    (1..=count).map(move |place| {
        let own = Random::new(random.number());
        if bad && place == count {
            bad::bytes_of_bad(own, seed)
        } else {
            bytes(&probe(own).numbers())
        }
    })
}

/// One random probe.
pub fn probe(random: Random) -> Probe {
    let mut maker = Maker {
        random,
        table: Vec::new(),
        state: State::new(),
        task: 0,
        near: Vec::new(),
    };
    maker.grow();
    let steps = maker.random.percent(64);
    if steps {
        maker.stand();
    } else {
        maker.stand_by();
    }
    maker.count_up();
    maker.hurt();
    let call = if steps {
        maker.step_call()
    } else {
        maker.other_call()
    };
    Probe {
        call,
        state: maker.state,
        table: maker.table,
    }
}

struct Maker {
    random: Random,
    table: Vec<u32>,
    state: State,
    /// The task whose step is likely to be made.
    task: usize,
    /// The slots that this step looks at.
    near: Vec<u32>,
}

impl Maker {
    fn slots(&self) -> u32 {
        whole_slots(&self.table).max(1)
    }

    /// One of these numbers, which are not none.
    fn one(&mut self, of: &[u32]) -> u32 {
        self.random.pick(of).unwrap_or(0)
    }

    fn small_number(&mut self) -> u32 {
        match self.random.below(12) {
            0 => 0,
            1 => LAST_NUMBER,
            2 => LAST_NUMBER - 1,
            _ => self.random.below(24),
        }
    }

    /// A fare number in range or not.
    fn any_number(&mut self) -> u32 {
        match self.random.below(3) {
            0 => self.small_number(),
            1 => self.one(&[0, 1, LAST_NUMBER, LAST_NUMBER + 1, TOP - 1, TOP]),
            _ => self.random.below(LAST_NUMBER + 2),
        }
    }

    fn any_price(&mut self) -> u32 {
        match self.random.below(2) {
            0 => self.one(&[0, 0, 1, LAST_PRICE, LAST_PRICE + 1, TOP]),
            _ => self.random.below(LAST_PRICE + 2),
        }
    }

    fn any_operation(&mut self) -> Operation {
        match self.random.below(3) {
            0 => Operation::LookUp,
            1 => Operation::PutIn,
            _ => Operation::TakeOut,
        }
    }

    /// 0 to 9, or a large one.
    fn any_task(&mut self) -> u32 {
        match self.random.below(10) {
            0 => self.one(&[7, 8, 9, 255, 256, 0x8000_0000, TOP]),
            _ => self.random.below(TASKS as u32),
        }
    }

    /// A state for the tasks as they stand: m and u that fit, many of them at
    /// the edge.
    fn count_up(&mut self) {
        let settling = self.state.tasks.iter().filter(|t| t.settles()).count() as u32;
        self.state.u = self.one(&[0, 0, 1, 2]);
        self.state.m = self.state.u + settling + self.one(&[0, 0, 1, 2, 5]);
        match self.random.below(12) {
            0 => self.state.m = LAST_PUT_IN,
            1 => self.state.m = LAST_PUT_IN - 1,
            2 => {
                self.state.m = self.one(&[LAST_PUT_IN, 832_040, 28_657, 8 + settling]);
                self.state.u = self.state.m - settling;
            }
            3 => self.state.m += self.random.below(LAST_PUT_IN - 100),
            4 => self.state.m += self.random.below(60),
            _ => {}
        }
    }

    fn step_call(&mut self) -> Call {
        let task = match self.random.below(20) {
            0 => self.any_task(),
            _ => self.task as u32,
        };
        Call::Step { task }
    }

    fn other_call(&mut self) -> Call {
        match self.random.below(20) {
            0 => Call::Reset,
            1..=5 => self.begin_call(),
            6..=8 => Call::Abandon {
                task: self.any_task(),
            },
            9..=12 => Call::Tidy,
            13..=15 => Call::Figures,
            _ => Call::List {
                room: self.any_room(),
            },
        }
    }

    fn begin_call(&mut self) -> Call {
        let operation = self.any_operation();
        let bare = operation != Operation::PutIn && self.random.percent(80);
        Call::Begin {
            operation,
            task: self.any_task(),
            number: self.any_number(),
            price: if bare { 0 } else { self.any_price() },
        }
    }

    fn any_room(&mut self) -> u32 {
        match self.random.below(4) {
            0 => self.random.below(8),
            1 => self.one(&[0, 1, 2, 3, 63, 64]),
            _ => self.random.below(65),
        }
    }

    /// For a call that is no step: tasks idle more often than not, and all
    /// that the entry reaches is of interest.
    fn stand_by(&mut self) {
        if self.random.percent(55) {
            self.state.tasks = [Task::Idle; TASKS];
        }
        if slot_count(&self.table).is_some() {
            self.near = self.reached_slots();
        }
    }
}

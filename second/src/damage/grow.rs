//! A table grown from a reset by random calls, its tasks stopped anywhere.

use super::Maker;
use crate::answer::Answer;
use crate::calls::{abandon, begin, reset};
use crate::reach::{reached, tidy};
use crate::step::step;
use crate::table::{LAST_PRICE, WIDTH};
use crate::task::{Operation, Task, TASKS};

impl Maker {
    pub(super) fn grow(&mut self) {
        let slots = match self.random.below(25) {
            0 => 64,
            1..=3 => 8,
            _ => self.random.between(8, 24),
        };
        self.table = vec![0; slots as usize * WIDTH];
        reset(&mut self.table, &mut self.state);
        let rounds = self.random.below(1 + 3 * slots);
        for round in 0..rounds {
            self.round();
            if round % 16 == 15 && self.random.percent(50) {
                self.clear();
            }
        }
        if self.random.percent(20) {
            self.clear();
        }
    }

    fn round(&mut self) {
        let index = self.random.below(TASKS as u32);
        if self.state.tasks[index as usize] == Task::Idle {
            self.begin_one(index);
        } else if self.random.percent(4) {
            abandon(&self.table, &mut self.state, index);
        } else {
            let most = self.random.between(1, 14);
            self.steps(index, most);
        }
    }

    fn begin_one(&mut self, task: u32) {
        let operation = match self.random.below(10) {
            0 => Operation::LookUp,
            1..=2 => Operation::TakeOut,
            _ => Operation::PutIn,
        };
        let price = match operation {
            Operation::PutIn => self.random.below(LAST_PRICE + 1),
            _ => 0,
        };
        let number = self.small_number();
        begin(&self.table, &mut self.state, task, operation, number, price);
    }

    fn steps(&mut self, task: u32, most: u32) {
        for _ in 0..most {
            if step(&mut self.table, &mut self.state, task) != Answer::Accepted {
                break;
            }
        }
    }

    /// All tasks to their ends, then a tidy.
    fn clear(&mut self) {
        for task in 0..TASKS as u32 {
            self.steps(task, 300);
        }
        tidy(&mut self.table, &self.state);
    }

    /// What the entry reaches; nothing in a table that is hurt.
    pub(super) fn reached_slots(&self) -> Vec<u32> {
        let all = reached(&self.table).unwrap_or_default();
        all.iter().map(|one| one.slot).collect()
    }
}

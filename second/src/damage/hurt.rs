//! Changes to a table and a state that still leave a probe.

use super::{Maker, TOP};
use crate::statecode::{self, TASK_NUMBERS};
use crate::table::{FREE, LAST_NUMBER, LAST_PRICE, SENTINEL_NUMBER, SENTINEL_RANK, WIDTH};
use crate::task::{LAST_PUT_IN, NO_GRAND, TASKS};

impl Maker {
    /// Nothing, one thing or some.
    pub(super) fn hurt(&mut self) {
        let most = match self.random.below(10) {
            0..=3 => 0,
            4..=7 => 1,
            8 => 2,
            _ => 5,
        };
        for _ in 0..most {
            match self.random.below(40) {
                0..=22 => self.hurt_record(),
                23..=33 => self.hurt_task(),
                34..=35 => self.any_phase(),
                36..=38 => self.hurt_counts(),
                _ => self.hurt_length(),
            }
        }
        match self.random.below(700) {
            0 => self.lengthen(),
            // The entry in state 0: not well formed, and never room either.
            1..=14 if !self.table.is_empty() => self.table[0] = FREE,
            _ => {}
        }
    }

    /// A slot of interest, or any in or near the table.
    fn any_slot(&mut self) -> u32 {
        let slots = self.slots();
        match self.random.below(16) {
            0..=2 => self.one(&[0, 1, slots - 1, slots, slots + 1, TOP - 1, TOP]),
            3..=4 => self.random.below(slots),
            5 => NO_GRAND,
            _ => {
                let near = self.near.clone();
                self.one(&near)
            }
        }
    }

    fn hurt_record(&mut self) {
        let slots = self.slots();
        let slot = match self.any_slot() {
            slot if slot < slots => slot,
            _ => self.random.below(slots),
        };
        let at = slot as usize * WIDTH;
        if at + WIDTH > self.table.len() {
            return;
        }
        if self.random.percent(6) {
            // Both sentinel marks, so that the record may stay well formed.
            self.table[at + 1..at + 4].copy_from_slice(&[SENTINEL_NUMBER, 0, SENTINEL_RANK]);
            return;
        }
        let field = self.one(&[0, 1, 2, 3, 3, 3, 4, 4, 5, 5]) as usize;
        let old = self.table[at + field];
        self.table[at + field] = match field {
            0 => self.one(&[0, 1, 2, 2, 2, 3, TOP]),
            1 => self.hurt_number(),
            2 => self.one(&[0, 1, LAST_PRICE, LAST_PRICE + 1, TOP]),
            3 => self.hurt_rank(old),
            _ => {
                let pair = [self.table[at + 4], self.table[at + 5]];
                self.hurt_link(slot, pair)
            }
        };
    }

    fn hurt_number(&mut self) -> u32 {
        match self.random.below(3) {
            0 => self.one(&[LAST_NUMBER, LAST_NUMBER + 1, TOP - 1, TOP]),
            _ => self.small_number(),
        }
    }

    fn hurt_rank(&mut self, old: u32) -> u32 {
        match self.random.below(5) {
            0 => self.one(&[0, 1, 2, 27, 28, 29, 254, 255, 256, TOP]),
            1 => self.random.between(1, 28),
            2 => old.saturating_add(2),
            3 => old.saturating_add(1),
            _ => old.saturating_sub(1),
        }
    }

    /// Into rings, to what another leads to, to itself, to 0, to the slot
    /// count and beyond it.
    fn hurt_link(&mut self, slot: u32, pair: [u32; 2]) -> u32 {
        match self.random.below(8) {
            0 => slot,
            1 => self.one(&pair),
            2 => 0,
            _ => self.any_slot(),
        }
    }

    /// One number of the task of interest, or its number, price and notes of
    /// any other one.
    fn hurt_task(&mut self) {
        let task = match self.random.below(10) {
            0 => self.random.below(TASKS as u32) as usize,
            _ => self.task,
        };
        let mut row = statecode::encode(&self.state);
        let own = &mut row[task * TASK_NUMBERS..][..TASK_NUMBERS];
        let used = used_numbers(own);
        if used == 0 {
            return;
        }
        let place = match self.random.below(8) {
            0 => 1,
            1 => 2,
            _ => self.random.between(1, used - 1),
        };
        own[place as usize] = match place {
            1 => self.any_number(),
            2 => self.any_price(),
            // The goal or the count of readings stays.
            3 => own[3],
            _ => self.any_slot(),
        };
        self.take_row(&row);
    }

    /// The row of a state; another one changes nothing.
    fn take_row(&mut self, row: &[u32]) {
        if let Some(state) = statecode::decode(row) {
            self.state = state;
        }
    }

    /// A task in any phase with any remembered slots and notes.
    fn any_phase(&mut self) {
        let task = match self.random.below(3) {
            0 => self.random.below(TASKS as u32) as usize,
            _ => self.task,
        };
        let mut own = [0; TASK_NUMBERS];
        own[0] = self.random.below(6);
        own[3] = match own[0] {
            0 => 0,
            1 | 2 => self.random.between(1, 4),
            3 => self.random.below(3),
            _ => self.random.below(5),
        };
        let used = used_numbers(&own);
        for place in (1..used as usize).filter(|&place| place != 3) {
            own[place] = match place {
                1 => self.any_number(),
                2 => self.any_price(),
                _ => self.any_slot(),
            };
        }
        let mut row = statecode::encode(&self.state);
        row[task * TASK_NUMBERS..][..TASK_NUMBERS].copy_from_slice(&own);
        self.take_row(&row);
    }

    /// m and u at the edges and beyond them.
    fn hurt_counts(&mut self) {
        let settling = self.state.tasks.iter().filter(|t| t.settles()).count() as u32;
        let edges = [
            0,
            settling,
            LAST_PUT_IN - 1,
            LAST_PUT_IN,
            LAST_PUT_IN + 1,
            TOP,
        ];
        if self.random.percent(70) {
            self.state.m = self.one(&edges);
        }
        let m = self.state.m;
        let rest = m.saturating_sub(settling);
        let beyond = [m, rest, rest.saturating_add(1), m.saturating_add(1), TOP];
        self.state.u = match self.random.below(4) {
            0 => 0,
            1 => self.one(&edges),
            2 => TOP - settling.saturating_sub(1),
            _ => self.one(&beyond),
        };
    }

    /// A short table, or one that ends inside a slot.
    fn hurt_length(&mut self) {
        let now = self.table.len() as u32;
        let edges = [0, 5, 6, 42, 43, 47, 48, 48, 49, 53, 54, now + 1, now + 6];
        let length = match self.random.below(4) {
            0 => now.saturating_sub(1),
            _ => self.one(&edges),
        };
        let more = self.one(&[0, 0, 1, 2]);
        self.table.resize(length as usize, more);
    }

    /// A table of the largest length, or more.
    fn lengthen(&mut self) {
        let length = self.one(&[24_570, 24_576, 24_576, 24_577, 24_582, 24_600]);
        let more = self.one(&[0, 0, 1, 2]);
        self.table.resize(length as usize, more);
    }
}

/// How many numbers the phase of a task uses.
pub(super) fn used_numbers(own: &[u32]) -> u32 {
    match own[0] {
        0 => 0,
        1 => 4,
        2 => 7,
        _ => 7 + 2 * own[3],
    }
}

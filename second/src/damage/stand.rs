//! A task put where its next step walks, reads, chooses or commits, among
//! records that fit it.

use super::Maker;
use crate::statecode::{goal, reading};
use crate::table::{
    get, set, Links, Record, Side, ENTRY, IN_TREE, LAST_PRICE, LAST_RANK, SENTINEL_NUMBER,
    SENTINEL_RANK, WIDTH,
};
use crate::task::{Busy, Path, Phase, Task, NO_GRAND, TASKS};

const PUTTING_IN: u32 = 3;
const TAKING_OUT: u32 = 4;
const SETTLING: u32 = 5;

impl Maker {
    pub(super) fn stand(&mut self) {
        self.task = self.random.below(TASKS as u32) as usize;
        match self.random.below(20) {
            0..=2 if !self.state.busy_tasks().is_empty() => self.stand_as_grown(),
            0..=3 => self.stand_walking(),
            4..=6 => self.stand_arriving(),
            7..=9 => self.stand_putting_in(),
            10..=12 => self.stand_taking_out(),
            _ => self.stand_settling(),
        }
        if self.random.percent(50) {
            self.leave_room();
        }
    }

    /// A task that the growing has left busy, if there is one.
    fn stand_as_grown(&mut self) {
        let busy = self.state.busy_tasks();
        if let Some(task) = self.random.pick(&busy) {
            self.task = task as usize;
        }
        let reached = self.reached_slots();
        let path = match self.state.tasks[self.task] {
            Task::Busy(busy) => busy.phase.path(),
            Task::Idle => None,
        };
        self.near = path.map_or(reached, |p| vec![p.grand, p.parent, p.here]);
    }

    /// A walk that has come to any record that the entry reaches.
    fn stand_walking(&mut self) {
        let reached = self.reached_slots();
        let here = self.one(&reached).max(1);
        let parent = self.one(&reached);
        let grand = match self.random.below(3) {
            0 => NO_GRAND,
            _ => self.one(&reached),
        };
        let code = self.one(&[1, 2, 3, 4, 4]);
        let path = Path {
            grand,
            parent,
            here,
        };
        let links = get(&self.table, here).map_or(Links::NONE, |record| record.links);
        self.near = vec![here, here, parent, links.left, links.right];
        let number = self.small_number();
        if let Some(goal) = goal(code) {
            let begins = self.random.percent(25);
            let phase = if begins {
                self.near = vec![ENTRY, 1];
                Phase::Start(goal)
            } else {
                Phase::Walk(goal, path)
            };
            self.busy(number, phase);
        }
    }

    /// A walk at an inner record above two that were made for it.
    fn stand_arriving(&mut self) {
        let four = self.different(4);
        let parent = self.above(four[0]);
        let (here, left, right) = (four[1], four[2], four[3]);
        let number = self.small_number();
        let rank = self.one(&[1, 1, 2, 3, 28, SENTINEL_RANK]);
        let own = self.small_number();
        self.write_above(parent, here, SENTINEL_RANK);
        self.write(here, own, rank, Links { left, right });
        for slot in [left, right] {
            let below = self.one(&[0, 0, 0, 1, rank, rank.saturating_add(1)]);
            let below = if below > LAST_RANK { 28 } else { below };
            self.write_below(slot, below);
            if self.random.percent(60) {
                self.table[slot as usize * WIDTH + 1] = number;
            }
        }
        let path = Path {
            grand: ENTRY,
            parent,
            here,
        };
        self.near = vec![here, left, right];
        let code = self.random.between(1, 4);
        if let Some(goal) = goal(code) {
            self.busy(number, Phase::Walk(goal, path));
        }
    }

    fn busy(&mut self, number: u32, phase: Phase) {
        let price = match self.random.below(4) {
            0 => 0,
            _ => self.random.below(LAST_PRICE + 1),
        };
        self.state.tasks[self.task] = Task::Busy(Busy {
            number,
            price,
            phase,
        });
    }

    /// So many different slots, none of them the entry.
    fn different(&mut self, count: usize) -> Vec<u32> {
        let mut all: Vec<u32> = (1..self.slots()).collect();
        let mut taken = Vec::new();
        while taken.len() < count && !all.is_empty() {
            let at = self.random.below(all.len() as u32) as usize;
            taken.push(all.swap_remove(at));
        }
        taken.resize(count, 1);
        taken
    }

    /// This number in one case of ten, otherwise any.
    fn at_times(&mut self, number: u32) -> u32 {
        if self.random.percent(10) {
            number
        } else {
            self.small_number()
        }
    }

    fn side(&mut self) -> Side {
        if self.random.percent(50) {
            Side::Left
        } else {
            Side::Right
        }
    }

    /// A record of this rank: a leaf of rank 0, or an inner one. 255 makes
    /// it a sentinel.
    fn write(&mut self, slot: u32, number: u32, rank: u32, links: Links) {
        let sentinel = rank == SENTINEL_RANK;
        let price = match links {
            Links::NONE if !sentinel => self.random.below(LAST_PRICE + 1),
            _ => 0,
        };
        let record = Record {
            state: IN_TREE,
            number: if sentinel { SENTINEL_NUMBER } else { number },
            price,
            rank,
            links,
        };
        set(&mut self.table, slot, record);
    }

    /// The record above: the entry, or an inner one that leads to `child`.
    fn write_above(&mut self, slot: u32, child: u32, rank: u32) {
        if slot == ENTRY {
            let links = Links::sided(Side::Left, child, 0);
            self.write(ENTRY, SENTINEL_NUMBER, SENTINEL_RANK, links);
            return;
        }
        let side = self.side();
        let mut other = self.random.between(1, self.slots() - 1);
        if other == child {
            other = if child == 1 { 2 } else { 1 };
        }
        let number = self.small_number();
        self.write(slot, number, rank, Links::sided(side, child, other));
    }

    /// Any well formed record of this rank.
    fn write_below(&mut self, slot: u32, rank: u32) {
        let links = match rank {
            0 => Links::NONE,
            _ => {
                let two = self.different(2);
                Links::sided(Side::Left, two[0], two[1])
            }
        };
        let number = self.small_number();
        self.write(slot, number, rank, links);
    }

    fn above(&mut self, slot: u32) -> u32 {
        if self.random.percent(15) {
            ENTRY
        } else {
            slot
        }
    }

    /// The links that these records have now, for so many readings.
    fn notes(&mut self, slots: &[u32], readings: &[u32]) -> Vec<Links> {
        let count = self.one(readings) as usize;
        let read = slots.iter().take(count);
        read.map(|&slot| get(&self.table, slot).map_or(Links::NONE, |r| r.links))
            .collect()
    }

    fn stand_putting_in(&mut self) {
        let three = self.different(3);
        let parent = self.above(three[1]);
        let path = Path {
            grand: three[0],
            parent,
            here: three[2],
        };
        let number = self.small_number();
        let leaf = self.at_times(number);
        let rank = self.one(&[1, 1, 1, 2, 28, SENTINEL_RANK]);
        self.write_above(parent, path.here, rank);
        let mark = self.one(&[0, 0, 0, SENTINEL_RANK]);
        self.write(path.here, leaf, mark, Links::NONE);
        let notes = self.notes(&[parent, path.here], &[0, 1, 2, 2, 2]);
        self.near = vec![parent, path.here];
        if let Some(phase) = reading(PUTTING_IN, path, &notes) {
            self.busy(number, phase);
        }
    }

    fn stand_taking_out(&mut self) {
        let four = self.different(4);
        let grand = self.above(four[0]);
        let (parent, here, sibling) = (four[1], four[2], four[3]);
        let side = self.side();
        let number = self.small_number();
        let (above, rank) = (self.one(&[2, 28, SENTINEL_RANK]), self.one(&[1, 2, 28]));
        self.write_above(grand, parent, above);
        let links = Links::sided(side, here, sibling);
        self.write(parent, number, rank, links);
        let rank = self.one(&[0, 0, 1, 2, 28, SENTINEL_RANK]);
        self.write_below(sibling, rank);
        self.write(here, number, 0, Links::NONE);
        let sought = if self.random.percent(90) {
            number
        } else {
            self.small_number()
        };
        let path = Path {
            grand,
            parent,
            here,
        };
        let read = [grand, parent, links.left, links.right];
        let notes = self.notes(&read, &[0, 1, 2, 3, 4, 4, 4, 4]);
        self.near = read.to_vec();
        if let Some(phase) = reading(TAKING_OUT, path, &notes) {
            self.busy(sought, phase);
        }
    }

    /// z minus s, x minus y and x minus w: those of a row, or any.
    fn differences(&mut self) -> [u32; 3] {
        let wide = self.random.between(2, 4);
        match self.random.below(10) {
            0 => [0, 1, 1],
            1 => [1, 1, 1],
            2 => [wide, 2, self.random.below(4)],
            3..=4 => [wide, 1, 1],
            5..=7 => [wide, 1, self.random.between(2, 4)],
            _ => [
                self.random.below(4),
                self.random.below(4),
                self.random.below(4),
            ],
        }
    }

    /// pz, z, x, s, y and w with ranks for every row, and for none.
    fn stand_settling(&mut self) {
        let six = self.different(6);
        let pz = self.above(six[0]);
        let (z, x, s, y, w) = (six[1], six[2], six[3], six[4], six[5]);
        let side = self.side();
        let rank = self.one(&[1, 2, 2, 3, 3, 4, 5, 27, 28]);
        let differences = self.differences();
        let above = self.one(&[28, SENTINEL_RANK]);
        self.write_above(pz, z, above);
        let number = self.small_number();
        self.write(z, number, rank, Links::sided(side, x, s));
        let number = self.small_number();
        self.write(x, number, rank, Links::sided(side, w, y));
        for (slot, less) in [s, y, w].into_iter().zip(differences) {
            let own = match self.random.below(25) {
                0 => (rank + 1).min(LAST_RANK),
                _ => rank.saturating_sub(less),
            };
            self.write_below(slot, own);
        }
        let read = [pz, z, x, y];
        let notes = self.notes(&read, &[0, 1, 2, 2, 3, 3, 3, 4, 4, 4]);
        self.near = vec![pz, z, x, s, y, w];
        let path = Path {
            grand: pz,
            parent: z,
            here: x,
        };
        if let Some(phase) = reading(SETTLING, path, &notes) {
            self.busy(number, phase);
        }
    }

    /// Few free slots, or some where there were none; those of interest stay.
    fn leave_room(&mut self) {
        let free = self.random.below(6) as usize;
        let all = self.different(self.slots() as usize - 1);
        let mut rest = all.into_iter().filter(|slot| !self.near.contains(slot));
        for slot in rest.by_ref().take(free) {
            set(&mut self.table, slot, Record::ZERO);
        }
        for slot in rest {
            let state = &mut self.table[slot as usize * WIDTH];
            if *state == 0 {
                *state = 2;
            }
        }
    }
}

//! The shared fare table of station ticket machines, over the proved archive `libtiebeamer.a`.
//!
//! A [`FareTable`] owns table and state, so only its calls change them. What the archive refuses of numbers that are no state,
//! of an operation or of a count cannot be handed in here: the types rule it out. Every meaning is that of `tiebeamer.h`.
use std::num::NonZeroU16;

/// Tasks are 0 to 7.
pub const TASKS: u32 = 8;
/// A table has 8 to 4,096 slots.
pub const SLOTS_LEAST: usize = 8;
/// A table has 8 to 4,096 slots.
pub const SLOTS_MOST: usize = 4096;
/// A slot has six numbers.
pub const SLOT_NUMBERS: usize = 6;
/// A state has 122 numbers.
pub const STATE_NUMBERS: usize = 122;

mod archive {
    extern "C" {
        pub fn tiebeamer_reset(
            table: *mut u32,
            table_count: usize,
            state: *mut u32,
            state_count: usize,
        ) -> u32;
        pub fn tiebeamer_begin(
            table: *const u32,
            table_count: usize,
            state: *mut u32,
            state_count: usize,
            task: u32,
            operation: u32,
            number: u32,
            price: u32,
        ) -> u32;
        pub fn tiebeamer_step(
            table: *mut u32,
            table_count: usize,
            state: *mut u32,
            state_count: usize,
            task: u32,
            price: *mut u32,
        ) -> u32;
        pub fn tiebeamer_run(
            table: *mut u32,
            table_count: usize,
            state: *mut u32,
            state_count: usize,
            task: u32,
            count: u32,
            price: *mut u32,
        ) -> u32;
        pub fn tiebeamer_abandon(
            table: *const u32,
            table_count: usize,
            state: *mut u32,
            state_count: usize,
            task: u32,
        ) -> u32;
        pub fn tiebeamer_tidy(
            table: *mut u32,
            table_count: usize,
            state: *mut u32,
            state_count: usize,
        ) -> u32;
        pub fn tiebeamer_figures(
            table: *const u32,
            table_count: usize,
            state: *const u32,
            state_count: usize,
            figures: *mut [u32; 7],
        ) -> u32;
        pub fn tiebeamer_list(
            table: *const u32,
            table_count: usize,
            state: *const u32,
            state_count: usize,
            room: *mut u32,
            room_count: usize,
        ) -> u32;
    }
}

/// What a task is asked to do.
#[derive(Clone, Copy, Debug, PartialEq, Eq)]
pub enum Operation {
    LookUp,
    /// The price in whole cents.
    PutIn(u32),
    TakeOut,
}

/// Answers and refusals, with document 01's numbers.
#[derive(Clone, Copy, Debug, PartialEq, Eq)]
pub enum Answer {
    /// 0: accepted, or the operation goes on.
    Accepted,
    /// 1: found, with its price.
    Found(u32),
    /// 2: not held.
    NotHeld,
    /// 3: put in, settled.
    PutSettled,
    /// 4: held already.
    HeldAlready,
    /// 5: taken out.
    TakenOut,
    /// 6: put in, unsettled.
    PutUnsettled,
    /// 10: task number above 7.
    TaskNumber,
    /// 11: fare number or price out of range.
    OutOfRange,
    /// 12: begin: task busy.
    TaskBusy,
    /// 13: step, run, abandon: task idle.
    TaskIdle,
    /// 14: tidy: some task busy.
    SomeBusy,
    /// 15: no room in the table.
    NoRoom,
    /// 16: 1,000,000 put-ins already committed.
    Limit,
    /// 17: damaged.
    Damaged,
    /// 18: the table has not 8 to 4,096 slots.
    Length,
}

impl Answer {
    /// Document 01's number.
    pub fn number(self) -> u32 {
        match self {
            Answer::Accepted => 0,
            Answer::Found(_) => 1,
            Answer::NotHeld => 2,
            Answer::PutSettled => 3,
            Answer::HeldAlready => 4,
            Answer::TakenOut => 5,
            Answer::PutUnsettled => 6,
            Answer::TaskNumber => 10,
            Answer::OutOfRange => 11,
            Answer::TaskBusy => 12,
            Answer::TaskIdle => 13,
            Answer::SomeBusy => 14,
            Answer::NoRoom => 15,
            Answer::Limit => 16,
            Answer::Damaged => 17,
            Answer::Length => 18,
        }
    }

    /// Whether the call was refused.
    pub fn is_refusal(self) -> bool {
        10 <= self.number()
    }

    fn of(number: u32, price: u32) -> Answer {
        match number {
            0 => Answer::Accepted,
            1 => Answer::Found(price),
            2 => Answer::NotHeld,
            3 => Answer::PutSettled,
            4 => Answer::HeldAlready,
            5 => Answer::TakenOut,
            6 => Answer::PutUnsettled,
            10 => Answer::TaskNumber,
            11 => Answer::OutOfRange,
            12 => Answer::TaskBusy,
            13 => Answer::TaskIdle,
            14 => Answer::SomeBusy,
            15 => Answer::NoRoom,
            16 => Answer::Limit,
            17 => Answer::Damaged,
            18 => Answer::Length,
            // 50 and 51 cannot come for what is handed in here, and 19 is a call file's alone
            other => unreachable!("the archive answered {other}"),
        }
    }
}

/// What figures hands back.
#[derive(Clone, Copy, Debug, PartialEq, Eq)]
pub struct Figures {
    pub height: u32,
    pub level: u32,
    pub c: u32,
    pub m: u32,
    pub fares: u32,
    pub free: u32,
    pub allowed_rank: u32,
}

/// A fare of the list.
#[derive(Clone, Copy, Debug, PartialEq, Eq)]
pub struct Fare {
    pub number: u32,
    pub price: u32,
}

/// A table with its state.
#[derive(Clone)]
pub struct FareTable {
    table: Vec<u32>,
    state: [u32; STATE_NUMBERS],
}

impl FareTable {
    /// An empty table of so many slots, or the refusal 18.
    pub fn new(slots: usize) -> Result<FareTable, Answer> {
        if !(SLOTS_LEAST..=SLOTS_MOST).contains(&slots) {
            return Err(Answer::Length);
        }
        let mut fares = FareTable {
            table: vec![0; SLOT_NUMBERS * slots],
            state: [0; STATE_NUMBERS],
        };
        match fares.reset() {
            Answer::Accepted => Ok(fares),
            refusal => Err(refusal),
        }
    }

    /// Table and state start anew.
    pub fn reset(&mut self) -> Answer {
        // SAFETY: both slices are this value's own, apart from each other, and lent with their lengths; so in every call below.
        let number = unsafe {
            archive::tiebeamer_reset(
                self.table.as_mut_ptr(),
                self.table.len(),
                self.state.as_mut_ptr(),
                self.state.len(),
            )
        };
        Answer::of(number, 0)
    }

    /// A task begins an operation on a fare.
    pub fn begin(&mut self, task: u32, operation: Operation, fare: u32) -> Answer {
        let (operation, price) = match operation {
            Operation::LookUp => (1, 0),
            Operation::PutIn(price) => (2, price),
            Operation::TakeOut => (3, 0),
        };
        let number = unsafe {
            archive::tiebeamer_begin(
                self.table.as_ptr(),
                self.table.len(),
                self.state.as_mut_ptr(),
                self.state.len(),
                task,
                operation,
                fare,
                price,
            )
        };
        Answer::of(number, 0)
    }

    /// One step of a task.
    pub fn step(&mut self, task: u32) -> Answer {
        let mut price = 0;
        let number = unsafe {
            archive::tiebeamer_step(
                self.table.as_mut_ptr(),
                self.table.len(),
                self.state.as_mut_ptr(),
                self.state.len(),
                task,
                &mut price,
            )
        };
        Answer::of(number, price)
    }

    /// Up to so many steps of a task, as long as they answer 0.
    pub fn run(&mut self, task: u32, count: NonZeroU16) -> Answer {
        let mut price = 0;
        let number = unsafe {
            archive::tiebeamer_run(
                self.table.as_mut_ptr(),
                self.table.len(),
                self.state.as_mut_ptr(),
                self.state.len(),
                task,
                u32::from(count.get()),
                &mut price,
            )
        };
        Answer::of(number, price)
    }

    /// A task gives its operation up.
    pub fn abandon(&mut self, task: u32) -> Answer {
        let number = unsafe {
            archive::tiebeamer_abandon(
                self.table.as_ptr(),
                self.table.len(),
                self.state.as_mut_ptr(),
                self.state.len(),
                task,
            )
        };
        Answer::of(number, 0)
    }

    /// Slots that the tree does not use any more become free.
    pub fn tidy(&mut self) -> Answer {
        let number = unsafe {
            archive::tiebeamer_tidy(
                self.table.as_mut_ptr(),
                self.table.len(),
                self.state.as_mut_ptr(),
                self.state.len(),
            )
        };
        Answer::of(number, 0)
    }

    /// The figures, or the refusal.
    pub fn figures(&self) -> Result<Figures, Answer> {
        let mut places = [0; 7];
        let number = unsafe {
            archive::tiebeamer_figures(
                self.table.as_ptr(),
                self.table.len(),
                self.state.as_ptr(),
                self.state.len(),
                &mut places,
            )
        };
        let [height, level, c, m, fares, free, allowed_rank] = places;
        match Answer::of(number, 0) {
            Answer::Accepted => Ok(Figures {
                height,
                level,
                c,
                m,
                fares,
                free,
                allowed_rank,
            }),
            refusal => Err(refusal),
        }
    }

    /// Every fare, from the leftmost leaf to the rightmost, or the refusal.
    pub fn list(&self) -> Result<Vec<Fare>, Answer> {
        let fares = self.figures()?.fares as usize;
        let mut room = vec![0; 2 * fares];
        let number = unsafe {
            archive::tiebeamer_list(
                self.table.as_ptr(),
                self.table.len(),
                self.state.as_ptr(),
                self.state.len(),
                room.as_mut_ptr(),
                room.len(),
            )
        };
        match Answer::of(number, 0) {
            Answer::Accepted => Ok(room
                .chunks_exact(2)
                .map(|fare| Fare {
                    number: fare[0],
                    price: fare[1],
                })
                .collect()),
            refusal => Err(refusal),
        }
    }
}

#[cfg(test)]
mod tests {
    use super::{Answer, FareTable, Operation};
    use std::num::NonZeroU16;

    #[test]
    fn every_number_is_an_answer_and_back() {
        for number in (0..=6).chain(10..=18) {
            assert_eq!(Answer::of(number, 0).number(), number);
            assert_eq!(Answer::of(number, 0).is_refusal(), 10 <= number);
        }
    }

    #[test]
    fn a_table_has_8_to_4096_slots() {
        assert_eq!(FareTable::new(7).err(), Some(Answer::Length));
        assert!(FareTable::new(8).is_ok());
        assert!(FareTable::new(4096).is_ok());
        assert_eq!(FareTable::new(4097).err(), Some(Answer::Length));
    }

    #[test]
    fn a_fare_comes_and_goes() -> Result<(), Answer> {
        let mut fares = FareTable::new(64)?;
        assert_eq!(fares.begin(0, Operation::PutIn(250), 10), Answer::Accepted);
        assert_eq!(fares.run(0, NonZeroU16::MAX), Answer::PutSettled);
        assert_eq!(fares.begin(1, Operation::LookUp, 10), Answer::Accepted);
        assert_eq!(fares.run(1, NonZeroU16::MAX), Answer::Found(250));
        assert_eq!(fares.figures()?.fares, 1);
        assert_eq!(fares.begin(2, Operation::TakeOut, 10), Answer::Accepted);
        assert_eq!(fares.run(2, NonZeroU16::MAX), Answer::TakenOut);
        assert_eq!(fares.list()?, []);
        assert_eq!(fares.step(8), Answer::TaskNumber);
        Ok(())
    }
}

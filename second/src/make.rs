//! Random call files. Each call is answered while the file is made, so that
//! the next one can be chosen to reach something of interest. The same kind,
//! seed and length give the same file on every machine.

use crate::answer::Answer;
use crate::callfile::{encode, Call, Program, RECORD_BYTES};
use crate::random::Random;
use crate::reach::{figures, list};
use crate::table::{free_slots, LAST_NUMBER, LAST_PRICE};
use crate::task::{Operation, Task, TASKS};

#[derive(Clone, Copy, Debug, PartialEq, Eq)]
pub enum Kind {
    /// Eight tasks on few numbers.
    Rush,
    /// Bursts of put-ins, all committed before any settles.
    Burst,
    /// Abandons, most of them while settling.
    Abandon,
    /// Filling up, with tidies between.
    Fill,
    /// Sorted numbers, up and down.
    Sorted,
    /// Bad and short records mixed in.
    Garbage,
    /// All of these by turns.
    Mixed,
}

pub const KINDS: [(&str, Kind); 7] = [
    ("rush", Kind::Rush),
    ("burst", Kind::Burst),
    ("abandon", Kind::Abandon),
    ("fill", Kind::Fill),
    ("sorted", Kind::Sorted),
    ("garbage", Kind::Garbage),
    ("mixed", Kind::Mixed),
];

impl Kind {
    pub fn named(word: &str) -> Option<Kind> {
        KINDS
            .iter()
            .find(|(name, _)| *name == word)
            .map(|(_, kind)| *kind)
    }
}

/// A call file of so many records, a short last one counted.
pub fn make(kind: Kind, seed: u64, records: usize) -> Vec<u8> {
    let mut maker = Maker {
        random: Random::new(seed),
        program: Program::new(),
        bytes: Vec::new(),
        left: records,
    };
    while maker.left > 0 {
        maker.scene(kind);
    }
    if kind == Kind::Garbage || (kind == Kind::Mixed && maker.random.percent(50)) {
        maker.shorten();
    }
    maker.bytes
}

struct Maker {
    random: Random,
    program: Program,
    bytes: Vec<u8>,
    /// Records still to be made.
    left: usize,
}

impl Maker {
    // --- single calls

    fn raw(&mut self, record: [u8; RECORD_BYTES]) -> Answer {
        if self.left == 0 {
            return Answer::Accepted;
        }
        self.left -= 1;
        self.bytes.extend(record);
        self.program.answer(&record)
    }

    fn call(&mut self, call: Call) -> Answer {
        if self.random.percent(2) {
            self.noise();
        }
        self.raw(encode(call))
    }

    fn begin(&mut self, task: u8, operation: Operation, number: u32) -> Answer {
        let price = match operation {
            Operation::PutIn => self.random.below(LAST_PRICE + 1),
            _ => 0,
        };
        self.call(Call::Begin {
            operation,
            task,
            number,
            price,
        })
    }

    fn step(&mut self, task: u8, count: u16) -> Answer {
        self.call(Call::Step { task, count })
    }

    /// A call that is refused, or is out of turn.
    fn noise(&mut self) {
        let task = self.random.below(TASKS as u32) as u8;
        let above = self.random.between(8, 255) as u8;
        let begin = |operation, task, number, price| Call::Begin {
            operation,
            task,
            number,
            price,
        };
        let call = match self.random.below(10) {
            0 => Call::Tidy,
            1 => Call::Abandon { task: above },
            2 => Call::Step {
                task: above,
                count: 1,
            },
            3 => begin(Operation::PutIn, above, 5, 5),
            4 => begin(Operation::PutIn, task, LAST_NUMBER + 1, 5),
            5 => begin(Operation::PutIn, task, 5, LAST_PRICE + 1),
            6 => begin(Operation::LookUp, task, 5, 1),
            7 => begin(Operation::LookUp, task, 5, 0),
            8 => begin(Operation::TakeOut, task, 5, 1),
            _ => Call::Step { task, count: 1 },
        };
        self.raw(encode(call));
    }

    // --- what the maker sees of the program

    fn tasks(&self, fits: impl Fn(&Task) -> bool) -> Vec<u8> {
        let all = self.program.state.tasks.iter().enumerate();
        all.filter(|(_, task)| fits(task))
            .map(|(index, _)| index as u8)
            .collect()
    }

    fn idle(&self) -> Vec<u8> {
        self.tasks(|task| *task == Task::Idle)
    }

    fn busy(&self) -> Vec<u8> {
        self.tasks(|task| *task != Task::Idle)
    }

    fn settling(&self) -> Vec<u8> {
        self.tasks(Task::settles)
    }

    fn free(&self) -> usize {
        free_slots(&self.program.table).count()
    }

    fn held(&self) -> Vec<u32> {
        let Program { table, state, .. } = &self.program;
        let fares = figures(table, state).1.fares as usize;
        let mut lent = vec![0; 2 * fares];
        list(table, state, &mut lent);
        lent.chunks(2).map(|fare| fare[0]).collect()
    }

    // --- several calls

    /// Every busy task to its end.
    fn drain(&mut self) {
        while let (Some(task), true) = (self.busy().pop(), self.left > 0) {
            self.step(task, 500);
        }
    }

    /// Fares out until so many are left, then tidy.
    fn make_room(&mut self, fares: usize) {
        self.drain();
        self.call(Call::Tidy);
        while self.held().len() > fares && self.left > 0 {
            let held = self.held();
            if let Some(number) = self.random.pick(&held) {
                self.begin(0, Operation::TakeOut, number);
                self.step(0, 500);
            }
            self.drain();
            if self.free() < 4 {
                self.call(Call::Tidy);
            }
        }
        self.drain();
        self.call(Call::Tidy);
    }

    /// Small steps of random tasks, so that they cross each other's way.
    fn jostle(&mut self, rounds: u32, most: u32) {
        for _ in 0..rounds {
            let busy = self.busy();
            let Some(task) = self.random.pick(&busy) else {
                return;
            };
            let count = self.random.between(1, most) as u16;
            self.step(task, count);
        }
    }

    fn scene(&mut self, kind: Kind) {
        match kind {
            Kind::Rush => self.rush(),
            Kind::Burst => self.burst(),
            Kind::Abandon => self.abandon(),
            Kind::Fill => self.fill(),
            Kind::Sorted => self.sorted(),
            Kind::Garbage => self.garbage(),
            Kind::Mixed => {
                let (_, kind) = KINDS[self.random.below(6) as usize];
                self.scene(kind);
            }
        }
    }

    /// Eight tasks on a handful of numbers, few steps at a time.
    fn rush(&mut self) {
        let first = self.random.below(900);
        let numbers = self.random.between(3, 8);
        self.make_room(6);
        for _ in 0..250 {
            if self.free() < 4 && self.random.percent(25) {
                return;
            }
            let idle = self.idle();
            match self.random.pick(&idle) {
                Some(task) if self.random.percent(40) => {
                    let number = first + self.random.below(numbers);
                    let operation = match self.random.below(10) {
                        0 => Operation::LookUp,
                        1..=4 => Operation::TakeOut,
                        _ => Operation::PutIn,
                    };
                    self.begin(task, operation, number);
                }
                _ => self.jostle(1, 4),
            }
        }
    }

    /// Put-ins of numbers close together, each up to its commit.
    fn commit_some(&mut self, most: u32) {
        let near = self.random.below(900);
        let wide = self.random.between(10, 99);
        for task in self.idle().into_iter().take(most as usize) {
            let number = near + self.random.below(wide);
            self.begin(task, Operation::PutIn, number);
            if self.random.percent(20) {
                self.jostle(2, 3);
            }
            if let Some(count) = self.steps_to_commit(task) {
                self.step(task, count);
            }
        }
    }

    /// How many steps bring a task to where it begins to settle or ends.
    fn steps_to_commit(&self, task: u8) -> Option<u16> {
        let mut ahead = self.program.clone();
        let walks = |program: &Program| {
            let task = &program.state.tasks[task as usize];
            *task != Task::Idle && !task.settles()
        };
        let mut count = 0;
        while walks(&ahead) && count < 200 {
            ahead.call(Call::Step { task, count: 1 });
            count += 1;
        }
        (count > 0).then_some(count)
    }

    /// Eight put-ins committed, then all of them settle by turns.
    fn burst(&mut self) {
        let kept = self.random.between(2, 9) as usize;
        self.make_room(kept);
        let tasks = self.random.between(3, 8);
        self.commit_some(tasks);
        let most = if self.random.percent(50) { 3 } else { 12 };
        for _ in 0..20 {
            self.jostle(3, most);
            if self.random.percent(30) {
                self.disturb();
            }
        }
    }

    /// An idle task begins to take out or look up a fare that is held.
    fn disturb(&mut self) {
        let (idle, held) = (self.idle(), self.held());
        if let (Some(task), Some(number)) = (self.random.pick(&idle), self.random.pick(&held)) {
            let operation = if self.random.percent(75) {
                Operation::TakeOut
            } else {
                Operation::LookUp
            };
            self.begin(task, operation, number);
        }
    }

    /// The same, but many of them are abandoned, and the next ones meet
    /// what they left.
    fn abandon(&mut self) {
        let kept = self.random.between(2, 8) as usize;
        self.make_room(kept);
        for _ in 0..3 {
            let tasks = self.random.between(2, 6);
            self.commit_some(tasks);
            for _ in 0..10 {
                self.jostle(3, 5);
                if self.random.percent(10) {
                    self.disturb();
                }
                let gone = if self.random.percent(80) {
                    self.settling()
                } else {
                    self.busy()
                };
                if let (Some(task), true) = (self.random.pick(&gone), self.random.percent(40)) {
                    self.call(Call::Abandon { task });
                }
            }
        }
    }

    /// Put-ins until there is no room, take-outs without room, then a tidy.
    fn fill(&mut self) {
        let numbers = if self.random.percent(50) { 60 } else { 1000 };
        let tasks = self.random.between(1, 5) as usize;
        for _ in 0..60 {
            let number = self.random.below(numbers);
            let idle = self.idle();
            let most_busy = self.busy().len() >= tasks;
            match self.random.pick(&idle) {
                Some(task) if !most_busy => {
                    self.begin(task, Operation::PutIn, number);
                }
                _ => self.jostle(1, 30),
            }
            if self.free() == 0 && self.random.percent(20) {
                break;
            }
        }
        let held = self.held();
        if let Some(number) = self.random.pick(&held) {
            self.begin(0, Operation::TakeOut, number);
            self.step(0, 40);
        }
        if self.free() < 8 && self.held().len() > 22 {
            let fares = self.random.between(4, 20) as usize;
            self.make_room(fares);
        } else {
            self.drain();
            self.call(Call::Tidy);
        }
    }

    /// Numbers in order, up or down, by one task or by two in turns.
    fn sorted(&mut self) {
        let kept = self.random.between(0, 12) as usize;
        self.make_room(kept);
        let gap = self.random.between(1, 30);
        let up = self.random.percent(50);
        let two = self.random.percent(40);
        for place in 0..16 {
            let place = if up { place } else { 15 - place };
            let task = if two { (place % 2) as u8 } else { 0 };
            self.begin(task, Operation::PutIn, 100 + gap * place);
            let count = if two { self.random.between(3, 40) } else { 500 };
            self.step(task, count as u16);
            if self.free() < 9 {
                self.drain();
                self.call(Call::Tidy);
            }
        }
        self.look_around(100, gap);
    }

    /// Look ups of numbers that are held and of some that are not.
    fn look_around(&mut self, first: u32, gap: u32) {
        for _ in 0..6 {
            let number = first + self.random.below(16 * gap);
            let held = self.held();
            let number = match self.random.pick(&held) {
                Some(one) if self.random.percent(60) => one,
                _ => number,
            };
            self.begin(7, Operation::LookUp, number);
            self.step(7, 60);
        }
    }

    /// Bad records between the calls of a rush.
    fn garbage(&mut self) {
        self.make_room(8);
        for _ in 0..60 {
            if self.random.percent(45) {
                let record = self.bad_record();
                self.raw(record);
                continue;
            }
            let task = self.random.below(TASKS as u32) as u8;
            if self.busy().contains(&task) {
                let count = self.random.between(1, 6) as u16;
                self.step(task, count);
            } else {
                let number = self.random.below(50);
                let operation = match self.random.below(4) {
                    0 => Operation::LookUp,
                    1 => Operation::TakeOut,
                    _ => Operation::PutIn,
                };
                self.begin(task, operation, number);
            }
        }
    }

    /// Random bytes, or a proper record with something in the wrong place.
    fn bad_record(&mut self) -> [u8; RECORD_BYTES] {
        let mut record = [0; RECORD_BYTES];
        if self.random.percent(25) {
            record.fill_with(|| self.random.number() as u8);
            return record;
        }
        let code = self.random.between(0, 8) as u8;
        record[0] = code;
        record[1] = if code == 6 {
            0
        } else {
            self.random.below(9) as u8
        };
        record[2] = u8::from(code == 4);
        if code <= 3 {
            record[4] = self.random.below(50) as u8;
        }
        let place = self.random.between(1, 11) as usize;
        record[place] = match self.random.below(3) {
            0 => 0,
            1 => 1,
            _ => self.random.number() as u8,
        };
        record
    }

    /// The last record becomes a short one.
    fn shorten(&mut self) {
        let cut = self.random.between(1, RECORD_BYTES as u32 - 1) as usize;
        let kept = self.bytes.len().saturating_sub(cut);
        self.bytes.truncate(kept);
    }
}

//! The controller of `examples/controller.c` once more: eight tasks share one fare table and are moved on a step each, round and
//! round. Both print the same.
use std::num::NonZeroU16;
use tiebeamer::Operation::{LookUp, PutIn, TakeOut};
use tiebeamer::{Answer, FareTable, Operation};

const SLOTS: usize = 64;

type Job = (Operation, u32);

/// Task 0 is the tariff loader, 1 the panel, 2 the coin unit, 3 the printer; 4 to 7 are a second group of the same four.
#[rustfmt::skip]
const USERS: [(&str, [Job; 4]); 8] = [
    ("loader", [(PutIn(250), 4711), (PutIn(180), 1200), (TakeOut, 4711), (PutIn(275), 4711)]),
    ("panel", [(LookUp, 4711), (LookUp, 1200), (LookUp, 4711), (LookUp, 4711)]),
    ("coin unit", [(LookUp, 1200), (LookUp, 4711), (LookUp, 9000), (LookUp, 4711)]),
    ("printer", [(LookUp, 9000), (LookUp, 4711), (LookUp, 1200), (LookUp, 5555)]),
    ("loader 2", [(PutIn(999), 9000), (PutIn(40), 5555), (PutIn(180), 1200), (TakeOut, 9000)]),
    ("panel 2", [(LookUp, 9000), (LookUp, 5555), (LookUp, 1200), (LookUp, 9000)]),
    ("coin unit 2", [(LookUp, 5555), (LookUp, 9000), (LookUp, 4711), (LookUp, 1200)]),
    ("printer 2", [(LookUp, 1200), (LookUp, 1000000), (LookUp, 5555), (LookUp, 4711)]),
];

fn operation_name(operation: Operation) -> &'static str {
    match operation {
        LookUp => "look up",
        PutIn(_) => "put in",
        TakeOut => "take out",
    }
}

fn answer_name(answer: Answer) -> &'static str {
    match answer {
        Answer::Accepted => "accepted",
        Answer::Found(_) => "found",
        Answer::NotHeld => "not held",
        Answer::PutSettled => "put in, settled",
        Answer::HeldAlready => "held already",
        Answer::TakenOut => "taken out",
        Answer::PutUnsettled => "put in, unsettled",
        Answer::TaskNumber => "task number above 7",
        Answer::OutOfRange => "out of range",
        Answer::TaskBusy => "task busy",
        Answer::TaskIdle => "task idle",
        Answer::SomeBusy => "some task busy",
        Answer::NoRoom => "no room",
        Answer::Limit => "put-in limit",
        Answer::Damaged => "damaged",
        Answer::Length => "table length",
    }
}

struct Controller {
    fares: FareTable,
    steps: u64,
}

impl Controller {
    /// A step of a busy task; what it ended with is printed. Whether it is busy still.
    fn moved_on(&mut self, task: usize, (operation, number): Job) -> bool {
        let answer = self.fares.step(task as u32);
        self.steps += 1;
        if answer == Answer::Accepted {
            return true;
        }
        print!(
            "{}: {} {number}: {}",
            USERS[task].0,
            operation_name(operation),
            answer_name(answer)
        );
        if let Answer::Found(price) = answer {
            print!(" at {price}");
        }
        println!();
        false
    }

    /// The next job of an idle task is begun. Whether it is busy now.
    fn begun(&mut self, task: usize, (operation, number): Job) -> bool {
        let answer = self.fares.begin(task as u32, operation, number);
        if answer == Answer::Accepted {
            return true;
        }
        println!(
            "{}: {} {number}: refused, {}",
            USERS[task].0,
            operation_name(operation),
            answer_name(answer)
        );
        false
    }

    /// All jobs of all tasks, a step at a time.
    fn serve(&mut self) {
        let mut next = [0; 8];
        let mut busy = [false; 8];
        let mut left = true;
        while left {
            left = false;
            for task in 0..8 {
                let jobs = USERS[task].1;
                if busy[task] {
                    busy[task] = self.moved_on(task, jobs[next[task] - 1]);
                } else if next[task] < jobs.len() {
                    next[task] += 1;
                    busy[task] = self.begun(task, jobs[next[task] - 1]);
                }
                left |= busy[task] || next[task] < jobs.len();
            }
        }
    }

    fn show_table(&self) -> Result<(), Answer> {
        let f = self.fares.figures()?;
        println!("figures: accepted");
        println!(
            "height {}, level {}, c {}, m {}, fares {}, free {}, allowed rank {}",
            f.height, f.level, f.c, f.m, f.fares, f.free, f.allowed_rank
        );
        let list = self.fares.list()?;
        println!("list: accepted");
        for fare in list {
            println!("fare {} at {}", fare.number, fare.price);
        }
        Ok(())
    }

    /// A put-in by a run, another one given up.
    fn show_run(&mut self) {
        show("begin", self.fares.begin(0, PutIn(120), 77));
        show("run", self.fares.run(0, NonZeroU16::MAX));
        show("begin", self.fares.begin(1, LookUp, 77));
        show("run", self.fares.run(1, NonZeroU16::MAX));
        show("begin", self.fares.begin(2, TakeOut, 77));
        show("tidy", self.fares.tidy());
        show("abandon", self.fares.abandon(2));
        show("tidy", self.fares.tidy());
    }
}

fn show(what: &str, answer: Answer) {
    print!("{what}: {}", answer_name(answer));
    if let Answer::Found(price) = answer {
        print!(" at {price}");
    }
    println!();
}

fn main() -> Result<(), Answer> {
    let mut controller = Controller {
        fares: FareTable::new(SLOTS)?,
        steps: 0,
    };
    show("reset", controller.fares.reset());
    controller.serve();
    println!("{} steps", controller.steps);
    controller.show_table()?;
    controller.show_run();
    controller.show_table()
}

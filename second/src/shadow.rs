//! The calls that another program made, made once more by these rules: what
//! it was asked and what it left comes in as numbers, and every number that
//! it left is compared. `interface/measure/compare.c` writes such numbers.
//!
//! First slots, table numbers and state numbers, the last two with spare
//! ones. Then for each call nine numbers, its answer, the price, the
//! figures, the room, the state and the table; for each poke nine numbers
//! alone.

use std::io::{self, Read};

use crate::answer::Answer;
use crate::probe::{read_numbers, Call, Count, Outcome, Probe};
use crate::statecode::{decode, encode, STATE_NUMBERS};

const HEAD: usize = 9;
const FIGURES: usize = 7;
const RUN: u32 = 7;
const POKE_TABLE: u32 = 8;
const POKE_STATE: u32 = 9;

/// The interface's own refusals.
const NO_STATE: u32 = 50;
const NO_CALL: u32 = 51;

/// What the lent places hold before a call.
const LENT: u32 = 7;

/// Table and state as numbers, spare ones behind them, and what the last
/// call left in the lent places.
struct Shadow {
    table: Vec<u32>,
    state: Vec<u32>,
    answer: u32,
    price: u32,
    figures: [u32; FIGURES],
    room: Vec<u32>,
    told: Told,
}

/// What came: every call, every answer, and how many numbers were compared.
#[derive(Clone, Debug, Default, PartialEq, Eq)]
pub struct Told {
    pub count: Count,
    pub numbers: u64,
    pub refused: [u32; 2],
}

/// The nine numbers of a call.
#[derive(Clone, Copy, Debug)]
struct Asked {
    kind: u32,
    operation: u32,
    task: u32,
    number: u32,
    price: u32,
    count: u32,
    room: u32,
    table_count: u32,
    state_count: u32,
}

impl Asked {
    fn of(row: &[u32]) -> Option<Asked> {
        let &[kind, operation, task, number, price, count, room, table_count, state_count] = row
        else {
            return None;
        };
        Some(Asked {
            kind,
            operation,
            task,
            number,
            price,
            count,
            room,
            table_count,
            state_count,
        })
    }

    /// Nothing for an operation or a count that no call has.
    fn call(&self) -> Option<Call> {
        if self.kind == RUN {
            let task = self.task;
            return (1..=65_535)
                .contains(&self.count)
                .then_some(Call::Step { task });
        }
        let (operation, task) = (self.operation, self.task);
        Call::of([
            self.kind,
            operation,
            task,
            self.number,
            self.price,
            self.room,
        ])
    }
}

impl Shadow {
    fn new(length: usize, state: usize) -> Shadow {
        Shadow {
            table: vec![0; length],
            state: vec![0; state],
            answer: 0,
            price: LENT,
            figures: [LENT; FIGURES],
            room: Vec::new(),
            told: Told::default(),
        }
    }

    fn lend(&mut self, asked: &Asked) {
        self.price = LENT;
        self.figures = [LENT; FIGURES];
        self.room = vec![LENT; asked.room as usize];
    }

    /// The call by these rules, or one of the interface's own refusals.
    fn make(&mut self, asked: &Asked) {
        let state = match asked.state_count as usize {
            STATE_NUMBERS => decode(&self.state[..STATE_NUMBERS]),
            _ => None,
        };
        let Some(state) = state else {
            self.answer = NO_STATE;
            self.told.refused[0] += 1;
            return;
        };
        let Some(call) = asked.call() else {
            self.answer = NO_CALL;
            self.told.refused[1] += 1;
            return;
        };
        let table = self.table[..asked.table_count as usize].to_vec();
        let mut probe = Probe { call, state, table };
        let steps = if asked.kind == RUN { asked.count } else { 1 };
        let outcome = self.steps(&mut probe, steps);
        self.leave(asked, &probe, outcome);
    }

    /// Steps as long as they answer 0; every other call is made once.
    fn steps(&mut self, probe: &mut Probe, most: u32) -> Outcome {
        let mut outcome = probe.make();
        for _ in 1..most {
            if outcome.answer != Answer::Accepted {
                break;
            }
            self.told.count.add(probe.call, &outcome);
            outcome = probe.make();
        }
        self.told.count.add(probe.call, &outcome);
        outcome
    }

    fn leave(&mut self, asked: &Asked, probe: &Probe, outcome: Outcome) {
        self.table[..asked.table_count as usize].copy_from_slice(&probe.table);
        self.state[..STATE_NUMBERS].copy_from_slice(&encode(&probe.state));
        self.answer = outcome.answer.number();
        if let Call::Step { .. } = probe.call {
            self.price = outcome.answer.price();
        }
        if let (Some(figures), Answer::Accepted) = (outcome.figures, outcome.answer) {
            self.figures = figures.numbers();
        }
        if let Some(room) = outcome.room {
            self.room = room;
        }
    }

    /// All numbers that the other program left, in its order.
    fn numbers(&self) -> Vec<u32> {
        let mut all = vec![self.answer, self.price];
        all.extend(self.figures);
        all.extend(&self.room);
        all.extend(&self.state);
        all.extend(&self.table);
        all
    }

    /// What the number at this place of all is called.
    fn name(&self, place: usize) -> String {
        let ends = [
            ("answer", 1),
            ("price", 1),
            ("figure", FIGURES),
            ("room", self.room.len()),
            ("state", self.state.len()),
            ("table", self.table.len()),
        ];
        let mut from = 0;
        for (name, count) in ends {
            if place < from + count {
                return format!("{name} {}", place - from);
            }
            from += count;
        }
        "nothing".to_string()
    }

    fn poke(&mut self, asked: &Asked) -> Option<()> {
        let all = match asked.kind {
            POKE_TABLE => &mut self.table,
            _ => &mut self.state,
        };
        *all.get_mut(asked.number as usize)? = asked.price;
        Some(())
    }
}

/// A difference, or an input that is no row of calls.
fn stop(message: String) -> io::Error {
    io::Error::new(io::ErrorKind::InvalidData, message)
}

fn exactly(input: &mut impl Read, count: usize) -> io::Result<Vec<u32>> {
    let mut row = Vec::new();
    read_numbers(input, count, &mut row)?;
    if row.len() < count {
        return Err(stop("the input ends in the middle of a call".to_string()));
    }
    Ok(row)
}

/// Makes and compares all calls of the input; the first difference ends it.
pub fn run(input: &mut impl Read) -> io::Result<Told> {
    let head = exactly(input, 3)?;
    let mut shadow = Shadow::new(head[1] as usize, head[2] as usize);
    for place in 1.. {
        let mut row = Vec::new();
        if read_numbers(input, HEAD, &mut row)? == 0 {
            break;
        }
        let asked = Asked::of(&row).ok_or_else(|| stop("no call".to_string()))?;
        if asked.kind == POKE_TABLE || asked.kind == POKE_STATE {
            let none = || stop(format!("event {place}: no such place"));
            shadow.poke(&asked).ok_or_else(none)?;
            continue;
        }
        shadow.lend(&asked);
        shadow.make(&asked);
        compare(&mut shadow, input, place, &asked)?;
    }
    Ok(shadow.told)
}

fn compare(
    shadow: &mut Shadow,
    input: &mut impl Read,
    place: u64,
    asked: &Asked,
) -> io::Result<()> {
    let own = shadow.numbers();
    let other = exactly(input, own.len())?;
    shadow.told.numbers += own.len() as u64;
    let Some(at) = (0..own.len()).find(|&at| own[at] != other[at]) else {
        return Ok(());
    };
    let (name, here, there) = (shadow.name(at), own[at], other[at]);
    Err(stop(format!(
        "event {place}, {asked:?}: {name} is {there}, by these rules {here}"
    )))
}

impl Told {
    /// A line for each: what, and how often.
    pub fn told(&self) -> String {
        let own = [(NO_STATE, self.refused[0]), (NO_CALL, self.refused[1])];
        let own: Vec<String> = own
            .iter()
            .map(|(a, n)| format!("answer {a} {n}\n"))
            .collect();
        format!(
            "{}{}numbers {}\n",
            self.count.told(),
            own.concat(),
            self.numbers
        )
    }
}

#[cfg(test)]
mod tests {
    use super::*;
    use crate::probe::bytes;

    const SLOTS: usize = 8;

    /// A reset of eight slots as another program would tell it, two spare
    /// numbers behind table and state.
    fn told_reset() -> Vec<u32> {
        let (length, state) = (6 * SLOTS + 2, STATE_NUMBERS + 2);
        let mut all = vec![SLOTS as u32, length as u32, state as u32];
        all.extend([0, 0, 0, 0, 0, 0, 0, 6 * SLOTS as u32, STATE_NUMBERS as u32]);
        all.extend([0, LENT]);
        all.extend([LENT; FIGURES]);
        all.extend(vec![0; state]);
        let mut table = vec![0; length];
        table[..12].copy_from_slice(&[1, u32::MAX, 0, 255, 1, 0, 1, u32::MAX, 0, 255, 0, 0]);
        all.extend(table);
        all
    }

    fn shadowed(numbers: &[u32]) -> io::Result<Told> {
        run(&mut &bytes(numbers)[..])
    }

    #[test]
    fn the_same_numbers_pass() {
        let told = shadowed(&told_reset()).expect("no difference");
        assert_eq!((told.count.probes, told.refused), (1, [0, 0]));
        assert_eq!(told.numbers as usize, 9 + STATE_NUMBERS + 2 + 6 * SLOTS + 2);
    }

    #[test]
    fn any_other_number_is_seen() {
        let numbers = told_reset();
        for place in 12..numbers.len() {
            let mut other = numbers.clone();
            other[place] ^= 1;
            assert!(shadowed(&other).is_err(), "place {place}");
        }
    }

    #[test]
    fn a_difference_is_named() {
        let mut numbers = told_reset();
        let last = numbers.len() - 3;
        numbers[last] = 9;
        let error = shadowed(&numbers).expect_err("a difference");
        let told = error.to_string();
        assert!(told.ends_with("table 47 is 9, by these rules 0"), "{told}");
    }
}

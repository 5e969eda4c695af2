//! One call on any table and any state: the probe of docs/PROBE.md.

use std::collections::BTreeMap;
use std::io::{self, ErrorKind, Read, Write};

use crate::answer::{Answer, GROUNDS};
use crate::calls::{abandon, begin, reset};
use crate::reach::{figures, list, tidy, Figures};
use crate::settle::Settled;
use crate::statecode::{self, STATE_NUMBERS};
use crate::step::step_told;
use crate::task::{Operation, State};

pub const HEAD_NUMBERS: usize = 7;
pub const MOST_ROOM: u32 = 8_192;
pub const MOST_LENGTH: u32 = 24_600;

/// What the room lent holds before a list.
const LENT: u32 = 7;

/// The answer to what is no probe.
const NO_PROBE: u32 = 40;

#[derive(Clone, Copy, Debug, PartialEq, Eq)]
pub enum Call {
    Reset,
    Begin {
        operation: Operation,
        task: u32,
        number: u32,
        price: u32,
    },
    Step {
        task: u32,
    },
    Abandon {
        task: u32,
    },
    Tidy,
    Figures,
    List {
        room: u32,
    },
}

impl Call {
    /// The first six numbers of a probe.
    pub fn numbers(self) -> [u32; HEAD_NUMBERS - 1] {
        match self {
            Call::Reset => [0; 6],
            Call::Begin {
                operation,
                task,
                number,
                price,
            } => [1, operation_number(operation), task, number, price, 0],
            Call::Step { task } => [2, 0, task, 0, 0, 0],
            Call::Abandon { task } => [3, 0, task, 0, 0, 0],
            Call::Tidy => [4, 0, 0, 0, 0, 0],
            Call::Figures => [5, 0, 0, 0, 0, 0],
            Call::List { room } => [6, 0, 0, 0, 0, room],
        }
    }

    /// Nothing for numbers that are no call.
    pub fn of(numbers: [u32; HEAD_NUMBERS - 1]) -> Option<Call> {
        let call = match numbers {
            [0, ..] => Call::Reset,
            [1, code, task, number, price, _] => Call::Begin {
                operation: operation(code)?,
                task,
                number,
                price,
            },
            [2, _, task, ..] => Call::Step { task },
            [3, _, task, ..] => Call::Abandon { task },
            [4, ..] => Call::Tidy,
            [5, ..] => Call::Figures,
            [6, .., room] if room <= MOST_ROOM => Call::List { room },
            _ => return None,
        };
        // A number that is not used is 0, so nothing was passed over.
        (call.numbers() == numbers).then_some(call)
    }
}

fn operation_number(operation: Operation) -> u32 {
    match operation {
        Operation::LookUp => 1,
        Operation::PutIn => 2,
        Operation::TakeOut => 3,
    }
}

fn operation(number: u32) -> Option<Operation> {
    match number {
        1 => Some(Operation::LookUp),
        2 => Some(Operation::PutIn),
        3 => Some(Operation::TakeOut),
        _ => None,
    }
}

#[derive(Clone, Debug, PartialEq, Eq)]
pub struct Probe {
    pub call: Call,
    pub state: State,
    pub table: Vec<u32>,
}

/// What a call gave beside the table and state that it left.
#[derive(Clone, Debug, PartialEq, Eq)]
pub struct Outcome {
    pub answer: Answer,
    pub figures: Option<Figures>,
    pub room: Option<Vec<u32>>,
    pub settled: Option<Settled>,
}

impl Probe {
    pub fn numbers(&self) -> Vec<u32> {
        let mut all = self.call.numbers().to_vec();
        all.push(self.table.len() as u32);
        all.extend(statecode::encode(&self.state));
        all.extend(&self.table);
        all
    }

    /// Makes the call on this table and state.
    pub fn make(&mut self) -> Outcome {
        let (table, state) = (&mut self.table[..], &mut self.state);
        let mut outcome = Outcome {
            answer: Answer::Accepted,
            figures: None,
            room: None,
            settled: None,
        };
        outcome.answer = match self.call {
            Call::Reset => reset(table, state),
            Call::Begin {
                operation,
                task,
                number,
                price,
            } => begin(table, state, task, operation, number, price),
            Call::Step { task } => {
                let (answer, settled) = step_told(table, state, task);
                outcome.settled = settled;
                answer
            }
            Call::Abandon { task } => abandon(table, state, task),
            Call::Tidy => tidy(table, state),
            Call::Figures => {
                let (answer, given) = figures(table, state);
                outcome.figures = Some(given);
                answer
            }
            Call::List { room } => {
                let lent = outcome.room.insert(vec![LENT; room as usize]);
                list(table, state, lent)
            }
        };
        outcome
    }
}

pub fn bytes(numbers: &[u32]) -> Vec<u8> {
    numbers.iter().flat_map(|n| n.to_le_bytes()).collect()
}

/// What stands next in an input.
#[derive(Clone, Debug, PartialEq, Eq)]
pub enum Next {
    Probe(Box<Probe>),
    NoProbe,
    End,
}

/// Reads one probe, and no more of the input than it must.
pub fn read_probe(input: &mut impl Read) -> io::Result<Next> {
    let mut head = Vec::new();
    let bytes_read = read_numbers(input, HEAD_NUMBERS, &mut head)?;
    if bytes_read == 0 {
        return Ok(Next::End);
    }
    Ok(match read_rest(input, &head)? {
        Some(probe) => Next::Probe(Box::new(probe)),
        None => Next::NoProbe,
    })
}

fn read_rest(input: &mut impl Read, head: &[u32]) -> io::Result<Option<Probe>> {
    let &[call, operation, task, number, price, room, length] = head else {
        return Ok(None);
    };
    let Some(call) = Call::of([call, operation, task, number, price, room]) else {
        return Ok(None);
    };
    if length > MOST_LENGTH {
        return Ok(None);
    }
    let (mut row, mut table) = (Vec::new(), Vec::new());
    read_numbers(input, STATE_NUMBERS, &mut row)?;
    let Some(state) = statecode::decode(&row) else {
        return Ok(None);
    };
    read_numbers(input, length as usize, &mut table)?;
    let whole = table.len() == length as usize;
    Ok(whole.then_some(Probe { call, state, table }))
}

/// Adds up to `count` numbers, fewer where the input ends. Gives back how
/// many bytes there were.
pub fn read_numbers(input: &mut impl Read, count: usize, to: &mut Vec<u32>) -> io::Result<usize> {
    let mut buffer = vec![0; 4 * count];
    let mut have = 0;
    while have < buffer.len() {
        match input.read(&mut buffer[have..]) {
            Ok(0) => break,
            Ok(more) => have += more,
            Err(error) if error.kind() == ErrorKind::Interrupted => {}
            Err(error) => return Err(error),
        }
    }
    let numbers = buffer[..have].chunks_exact(4);
    to.extend(numbers.map(|b| u32::from_le_bytes([b[0], b[1], b[2], b[3]])));
    Ok(have)
}

/// The lines of one probe.
pub fn print(probe: &Probe, outcome: &Outcome, out: &mut impl Write) -> io::Result<()> {
    let answer = outcome.answer;
    line(out, "answer", &[answer.number(), answer.price()])?;
    if let Some(figures) = outcome.figures {
        line(out, "figures", &figures.numbers())?;
    }
    if let Some(room) = &outcome.room {
        line(out, "room", room)?;
    }
    line(out, "state", &statecode::encode(&probe.state))?;
    line(out, "table", &probe.table)
}

fn line(out: &mut impl Write, word: &str, numbers: &[u32]) -> io::Result<()> {
    out.write_all(word.as_bytes())?;
    for &number in numbers {
        write!(out, " {number}")?;
    }
    out.write_all(b"\n")
}

/// How often each answer, each ground of 17 and each settling commit came.
#[derive(Clone, Debug, Default, PartialEq, Eq)]
pub struct Count {
    pub probes: u32,
    pub calls: BTreeMap<u32, u32>,
    pub answers: BTreeMap<u32, u32>,
    pub grounds: BTreeMap<&'static str, u32>,
    pub settled: BTreeMap<u32, u32>,
}

impl Count {
    pub fn add(&mut self, call: Call, outcome: &Outcome) {
        self.probes += 1;
        *self.calls.entry(call.numbers()[0]).or_default() += 1;
        *self.answers.entry(outcome.answer.number()).or_default() += 1;
        if let Answer::Damaged(ground) = outcome.answer {
            let named = GROUNDS.iter().find(|(_, one)| *one == ground);
            let name = named.map_or("?", |(name, _)| *name);
            *self.grounds.entry(name).or_default() += 1;
        }
        if let Some(settled) = outcome.settled {
            *self.settled.entry(settled.code()).or_default() += 1;
        }
    }

    fn add_no_probe(&mut self) {
        self.probes += 1;
        *self.answers.entry(NO_PROBE).or_default() += 1;
    }

    /// A line for each: what, and how often.
    pub fn told(&self) -> String {
        let mut lines = vec![format!("probes {}", self.probes)];
        let told = |name: &str, what: &dyn ToString, times: &u32| {
            format!("{name} {} {times}", what.to_string())
        };
        lines.extend(self.calls.iter().map(|(c, n)| told("call", c, n)));
        lines.extend(self.answers.iter().map(|(a, n)| told("answer", a, n)));
        lines.extend(self.grounds.iter().map(|(g, n)| told("ground", g, n)));
        lines.extend(self.settled.iter().map(|(s, n)| told("settled", s, n)));
        lines.join("\n") + "\n"
    }
}

/// Answers a row of probes.
pub fn run(input: &mut impl Read, out: &mut impl Write) -> io::Result<Count> {
    let mut count = Count::default();
    loop {
        match read_probe(input)? {
            Next::End => return Ok(count),
            Next::NoProbe => {
                line(out, "answer", &[NO_PROBE, 0])?;
                count.add_no_probe();
                return Ok(count);
            }
            Next::Probe(mut probe) => {
                let outcome = probe.make();
                print(&probe, &outcome, out)?;
                count.add(probe.call, &outcome);
            }
        }
    }
}

/// The bytes of one probe of an input, by its place from 1. What is no probe
/// goes to the end of the input. Nothing where there is no such place.
pub fn cut(mut input: &[u8], place: usize) -> io::Result<Option<Vec<u8>>> {
    for now in 1.. {
        let before = input;
        match read_probe(&mut input)? {
            Next::End => return Ok(None),
            Next::NoProbe => return Ok((now == place).then(|| before.to_vec())),
            Next::Probe(_) if now == place => {
                return Ok(Some(before[..before.len() - input.len()].to_vec()));
            }
            Next::Probe(_) => {}
        }
    }
    Ok(None)
}

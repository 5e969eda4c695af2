//! Call files written as text: a call on each line, `#` before a comment.
//!
//! Every binary file has a text that gives it back byte for byte.

use crate::callfile::{decode as call_of, encode as record_of, Call, Fields, RECORD_BYTES};
use crate::line::{Parsed, Words};
use crate::ride::Trouble;
use crate::task::Operation;

const LAST_TASK: u32 = u8::MAX as u32;
const LAST_COUNT: u32 = u16::MAX as u32;
/// A longer line is cut where an error names it.
const MOST_NAMED: usize = 60;

/// A line of text: the record that it says, and its comment.
#[derive(Clone, Debug, Default, PartialEq, Eq)]
pub struct Line {
    pub record: Option<Vec<u8>>,
    /// With its `#`.
    pub comment: Option<String>,
}

/// All lines, or all that is wrong with them.
pub fn parse(text: &str) -> Result<Vec<Line>, Vec<Trouble>> {
    let mut lines = Vec::new();
    let mut troubles = Vec::new();
    let mut ended = false;
    for (index, raw) in text.lines().enumerate() {
        let (told, comment) = split(raw);
        let mut line = Line {
            record: None,
            comment: comment.map(str::to_string),
        };
        if !told.is_empty() {
            match record(told, ended) {
                Ok(record) => {
                    ended = record.len() < RECORD_BYTES;
                    line.record = Some(record);
                }
                Err(message) => {
                    let message = format!("`{}`: {message}", named(told));
                    troubles.push(Trouble::new(index + 1, message));
                }
            }
        }
        lines.push(line);
    }
    if troubles.is_empty() {
        Ok(lines)
    } else {
        Err(troubles)
    }
}

/// The binary form of lines.
pub fn bytes(lines: &[Line]) -> Vec<u8> {
    let records = lines.iter().filter_map(|line| line.record.as_deref());
    records.flatten().copied().collect()
}

/// The text of a binary file, a line for each record.
pub fn decode(file: &[u8]) -> String {
    let told = file.chunks(RECORD_BYTES).map(|record| tell(record) + "\n");
    told.collect()
}

/// One record as text.
pub fn tell(record: &[u8]) -> String {
    match call_of(record) {
        Some(Call::Begin {
            operation,
            task,
            number,
            price,
        }) => {
            let word = begin_word(operation);
            if price == 0 && operation != Operation::PutIn {
                format!("{word} {number} by {task}")
            } else {
                format!("{word} {number} at {price} by {task}")
            }
        }
        Some(Call::Step { task, count }) => format!("step {task} {count}"),
        Some(Call::Abandon { task }) => format!("abandon {task}"),
        Some(Call::Tidy) => "tidy".into(),
        None => tell_bad(record),
    }
}

fn begin_word(operation: Operation) -> &'static str {
    match operation {
        Operation::LookUp => "look",
        Operation::PutIn => "put",
        Operation::TakeOut => "take",
    }
}

/// A record that is no call: field by field, or byte by byte if it is short.
fn tell_bad(record: &[u8]) -> String {
    match Fields::of(record) {
        Some(Fields {
            code,
            task,
            count,
            number,
            price,
        }) => format!("raw {code} {task} {count} {number} {price}"),
        None => record
            .iter()
            .fold("short".into(), |told, byte| format!("{told} {byte}")),
    }
}

/// What stands before the comment, and the comment.
fn split(raw: &str) -> (&str, Option<&str>) {
    match raw.find('#') {
        Some(at) => (raw[..at].trim(), Some(raw[at..].trim_end())),
        None => (raw.trim(), None),
    }
}

fn named(told: &str) -> String {
    if told.chars().count() <= MOST_NAMED {
        told.into()
    } else {
        told.chars().take(MOST_NAMED).chain("..".chars()).collect()
    }
}

/// The bytes that a line says. `ended` is true behind a short record.
fn record(told: &str, ended: bool) -> Parsed<Vec<u8>> {
    let mut words = Words::new(told);
    let record = match words.word("call")? {
        "look" => begin(Operation::LookUp, &mut words)?,
        "put" => begin(Operation::PutIn, &mut words)?,
        "take" => begin(Operation::TakeOut, &mut words)?,
        "step" => {
            let task = task(&mut words)?;
            let count = words.between("count", 1..=LAST_COUNT)? as u16;
            call(Call::Step { task, count })
        }
        "abandon" => call(Call::Abandon {
            task: task(&mut words)?,
        }),
        "tidy" => call(Call::Tidy),
        "raw" => raw(&mut words)?,
        "short" => short(&mut words)?,
        word => return Err(format!("no call is named `{word}`")),
    };
    words.end()?;
    if ended {
        return Err("nothing comes after a short record".into());
    }
    Ok(record)
}

fn call(call: Call) -> Vec<u8> {
    record_of(call).to_vec()
}

fn task(words: &mut Words) -> Parsed<u8> {
    Ok(words.between("task", 0..=LAST_TASK)? as u8)
}

/// A put-in names its price, even 0. The others need none.
fn begin(operation: Operation, words: &mut Words) -> Parsed<Vec<u8>> {
    let number = words.number("fare number")?;
    let price = if operation == Operation::PutIn {
        words.expect("at")?;
        words.number("price")?
    } else if words.take("at") {
        words.number("price")?
    } else {
        0
    };
    words.expect("by")?;
    let task = task(words)?;
    Ok(call(Call::Begin {
        operation,
        task,
        number,
        price,
    }))
}

fn raw(words: &mut Words) -> Parsed<Vec<u8>> {
    let fields = Fields {
        code: words.between("operation", 0..=u8::MAX.into())? as u8,
        task: task(words)?,
        count: words.between("count", 0..=LAST_COUNT)? as u16,
        number: words.number("fare number")?,
        price: words.number("price")?,
    };
    Ok(fields.record().to_vec())
}

fn short(words: &mut Words) -> Parsed<Vec<u8>> {
    let mut bytes = Vec::new();
    while !words.is_spent() {
        bytes.push(words.between("byte", 0..=u8::MAX.into())? as u8);
    }
    match bytes.len() {
        1..RECORD_BYTES => Ok(bytes),
        count => Err(format!("a short record has 1 to 11 bytes, not {count}")),
    }
}

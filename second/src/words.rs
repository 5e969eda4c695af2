//! A ride beside its answers, in words.

use std::fmt::Write;

use crate::callfile::Fields;
use crate::calltext::{tell, Line};
use crate::line::{Parsed, Words};
use crate::reach::Figures;
use crate::ride::Trouble;

/// A wider call does not push the other answers aside.
const WIDEST_CALL: usize = 40;
const STEP_CODE: u32 = 4;

/// The answers whose words are always the same. A refusal says so.
const ANSWERS: [(u32, &str); 15] = [
    (2, "not held"),
    (3, "put in, settled"),
    (4, "held already"),
    (5, "taken out"),
    (6, "put in, unsettled"),
    (10, "refused: task number above 7"),
    (11, "refused: fare number or price out of range"),
    (12, "refused: task busy"),
    (13, "refused: task idle"),
    (14, "refused: some task busy"),
    (15, "refused: no room"),
    (16, "refused: 1,000,000 put-ins already committed"),
    (17, "refused: damaged"),
    (18, "refused: table of a wrong length"),
    (19, "refused: bad call record"),
];

pub fn cents(price: u32) -> String {
    match price {
        1 => "1 cent".into(),
        _ => format!("{price} cents"),
    }
}

/// Every line of a ride with the answer that `printed` has for it, then the
/// figures. `printed` is what a program printed for the ride's records.
pub fn words(lines: &[Line], printed: &str) -> Result<String, Trouble> {
    let records: Vec<&[u8]> = lines
        .iter()
        .filter_map(|line| line.record.as_deref())
        .collect();
    let (answers, figures) = read_printed(&records, printed)?;
    let mut rows = Rows::new(lines, &answers);
    let mut out: String = lines.iter().map(|line| rows.next_line(line)).collect();
    if !out.is_empty() {
        out.push('\n');
    }
    out.push_str(&figures_told(&figures));
    Ok(out)
}

// --- what a program printed

/// The answer of each record in words, and the figures.
fn read_printed(records: &[&[u8]], printed: &str) -> Result<(Vec<String>, Figures), Trouble> {
    let mut lines = printed.lines().enumerate();
    let mut next = || {
        let missing = || Trouble::new(printed.lines().count() + 1, "this line is missing");
        lines.next().ok_or_else(missing)
    };
    let told = |index: usize, line: &str, message: String| {
        Trouble::new(index + 1, format!("`{line}`: {message}"))
    };
    let mut answers = Vec::new();
    for record in records {
        let (index, line) = next()?;
        let answer = answer_of(record, index + 1, line);
        answers.push(answer.map_err(|message| told(index, line, message))?);
    }
    let (index, line) = next()?;
    let figures = figures_of(line).map_err(|message| told(index, line, message))?;
    match lines.next() {
        None => Ok((answers, figures)),
        Some((index, _)) => Err(Trouble::new(index + 1, "nothing comes after the last line")),
    }
}

fn answer_of(record: &[u8], place: usize, line: &str) -> Parsed<String> {
    let Fields { code, task, .. } = Fields::of(record).unwrap_or_default();
    let mut words = Words::new(line);
    let named = [
        words.number("place")? as usize,
        words.number("operation")? as usize,
        words.number("task")? as usize,
    ];
    if named != [place, code.into(), task.into()] {
        let record = tell(record);
        return Err(format!(
            "this is not the line of record {place}, `{record}`"
        ));
    }
    let (answer, price) = (words.number("answer")?, words.number("price")?);
    words.end()?;
    answer_told(code.into(), answer, price)
        .ok_or_else(|| format!("no answer {answer} with price {price} is known"))
}

fn answer_told(code: u32, answer: u32, price: u32) -> Option<String> {
    match (answer, price) {
        (0, 0) if code == STEP_CODE => Some("the operation goes on".into()),
        (0, 0) => Some("accepted".into()),
        (1, _) => Some(format!("found at {}", cents(price))),
        (_, 0) => {
            let known = ANSWERS.iter().find(|(number, _)| *number == answer);
            known.map(|(_, told)| told.to_string())
        }
        _ => None,
    }
}

fn figures_of(line: &str) -> Parsed<Figures> {
    let mut words = Words::new(line);
    words.expect("end")?;
    let figures = Figures {
        height: words.number("height")?,
        level_records: words.number("level records")?,
        c: words.number("c")?,
        m: words.number("m")?,
        fares: words.number("fares")?,
        free_slots: words.number("free slots")?,
        allowed_rank: words.number("allowed rank")?,
    };
    words.end()?;
    Ok(figures)
}

// --- rows

/// The rows of the records, handed out in order.
struct Rows<'a> {
    answers: &'a [String],
    /// How many were handed out.
    place: usize,
    place_width: usize,
    call_width: usize,
    answer_width: usize,
}

impl<'a> Rows<'a> {
    fn new(lines: &[Line], answers: &'a [String]) -> Rows<'a> {
        let said = lines.iter().filter_map(|line| line.record.as_ref());
        let calls = said.map(|record| tell(record).len());
        // Only beside a comment does the width of an answer matter.
        let said = lines.iter().filter(|line| line.record.is_some());
        let beside = said.zip(answers).filter(|(line, _)| line.comment.is_some());
        Rows {
            answers,
            place: 0,
            place_width: answers.len().to_string().len(),
            call_width: calls
                .filter(|&width| width <= WIDEST_CALL)
                .max()
                .unwrap_or(0),
            answer_width: beside.map(|(_, answer)| answer.len()).max().unwrap_or(0),
        }
    }

    /// A line without a record stays as it is.
    fn next_line(&mut self, line: &Line) -> String {
        let comment = line.comment.as_deref().unwrap_or("");
        let row = match &line.record {
            None => comment.to_string(),
            Some(record) => {
                let answer = &self.answers[self.place];
                self.place += 1;
                format!(
                    "{:>place$}  {:<call$}  {:<answers$}  {comment}",
                    self.place,
                    tell(record),
                    answer,
                    place = self.place_width,
                    call = self.call_width,
                    answers = self.answer_width,
                )
            }
        };
        row.trim_end().to_string() + "\n"
    }
}

// --- figures

fn figures_told(figures: &Figures) -> String {
    let rows = [
        ("height", "links from the root record to the farthest fare"),
        ("level records", "records of the same rank as their parent"),
        ("c", "put-ins still settling or never settled"),
        ("m", "put-ins committed"),
        ("fares", "held"),
        ("free slots", "of 64"),
        ("allowed rank", "the highest that the root record may have"),
    ];
    let mut out = "At the end:\n".to_string();
    for ((name, meaning), number) in rows.iter().zip(figures.numbers()) {
        // Writing to a string cannot fail.
        let _ = writeln!(out, "  {name:<13} {number:>7}  {meaning}");
    }
    out
}

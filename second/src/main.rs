//! The second program: see `USAGE`.

use std::fs;
use std::io::{self, BufReader, BufWriter, Read, Write};
use std::process::ExitCode;

use second::answer::Damaged;
use second::callfile;
use second::calltext;
use second::count;
use second::damage::damage;
use second::make::{make, Kind};
use second::picture::{svg, text, Scene};
use second::probe;
use second::ride::{antt, parse, run, show, Ridden, Ride, Trouble};
use second::shadow;
use second::words;

const USAGE: &str = "usage:
  second run < FILE.calls         answer a call file on 64 slots
  second count < FILE.calls       count its answers, settling commits and restarts
  second make KIND SEED RECORDS   write a random call file; KIND is rush, burst,
                                  abandon, fill, sorted, garbage or mixed
  second probe [--count] < INPUT  make single calls on any table and state, see
                                  docs/PROBE.md; --count tells on standard error how
                                  often each answer and each ground of 17 came
  second probe --cut PLACE        write the one probe of INPUT at this place, from 1
  second damage SEED COUNT [--bad]
                                  write random damaged probes; --bad: the last one is
                                  none
  second shadow < CALLS           make the calls of another program once more, and
                                  compare every number that it left
  second encode FILE.txt          write the call file that a text says
  second decode FILE.calls        write a call file as text
  second words FILE.txt [OUTPUT]  show a ride beside its answers in words; OUTPUT has
                                  the lines of another program that answered it
  second picture FILE.txt [--svg] show the tree after a ride
  second rides FILE..             run text rides and compare
  second antt FILE..              print text rides in the prover's notation
  second show FILE..              print table and tasks at the end of each ride
";

const MOST_RECORDS: usize = 10_000_000;
const MOST_TROUBLES: usize = 20;

/// Why the program stops: bad use or bad input (2), or a difference (1).
struct Stop {
    code: u8,
    message: String,
}

fn bad_input(message: impl Into<String>) -> Stop {
    let message = message.into();
    Stop { code: 2, message }
}

fn main() -> ExitCode {
    let words: Vec<String> = std::env::args().skip(1).collect();
    match act(&words) {
        Ok(()) => ExitCode::SUCCESS,
        Err(stop) => {
            eprintln!("second: {}", stop.message.trim_end());
            ExitCode::from(stop.code)
        }
    }
}

fn act(words: &[String]) -> Result<(), Stop> {
    let words: Vec<&str> = words.iter().map(String::as_str).collect();
    match words[..] {
        ["run"] => say(callfile::run(&standard_input()?).as_bytes()),
        ["count"] => say(count::count(&standard_input()?).told().as_bytes()),
        ["make", kind, seed, records] => make_calls(kind, seed, records),
        ["probe"] => run_probes(false),
        ["probe", "--count"] => run_probes(true),
        ["probe", "--cut", place] => cut_probe(place),
        ["shadow"] => shadow_calls(),
        ["damage", seed, count] => make_probes(seed, count, false),
        ["damage", seed, count, "--bad"] => make_probes(seed, count, true),
        ["encode", file] => say(&calltext::bytes(&text_lines(file)?)),
        ["decode", file] => say(calltext::decode(&file_bytes(file)?).as_bytes()),
        ["words", file] => show_words(file, None),
        ["words", file, output] => show_words(file, Some(output)),
        ["picture", file] => show_picture(file, text::print),
        ["picture", file, "--svg"] | ["picture", "--svg", file] => show_picture(file, svg::print),
        ["rides", ref files @ ..] if !files.is_empty() => compare_rides(files),
        ["antt", ref files @ ..] if !files.is_empty() => print_antt(files),
        ["show", ref files @ ..] if !files.is_empty() => show_rides(files),
        _ => Err(bad_input(format!("not understood\n{USAGE}"))),
    }
}

fn say(text: &[u8]) -> Result<(), Stop> {
    let mut out = io::stdout().lock();
    said(out.write_all(text).and_then(|()| out.flush()))
}

/// A reader that has seen enough is no fault.
fn said(written: io::Result<()>) -> Result<(), Stop> {
    match written {
        Err(error) if error.kind() != io::ErrorKind::BrokenPipe => {
            Err(bad_input(format!("cannot read or write: {error}")))
        }
        _ => Ok(()),
    }
}

fn standard_input() -> Result<Vec<u8>, Stop> {
    let mut file = Vec::new();
    io::stdin()
        .read_to_end(&mut file)
        .map_err(|error| bad_input(format!("cannot read standard input: {error}")))?;
    Ok(file)
}

fn make_calls(kind: &str, seed: &str, records: &str) -> Result<(), Stop> {
    let kind = Kind::named(kind).ok_or_else(|| bad_input(format!("no kind `{kind}`")))?;
    let seed = seed_of(seed)?;
    match records.parse() {
        Ok(records @ 1..=MOST_RECORDS) => say(&make(kind, seed, records)),
        _ => Err(bad_input(format!(
            "`{records}` is not a number of records (1 to {MOST_RECORDS})"
        ))),
    }
}

fn seed_of(word: &str) -> Result<u64, Stop> {
    word.parse()
        .map_err(|_| bad_input(format!("`{word}` is not a seed (0 to 2^64 - 1)")))
}

/// Probe by probe, as they are read.
fn run_probes(count: bool) -> Result<(), Stop> {
    let mut input = BufReader::with_capacity(1 << 16, io::stdin().lock());
    let mut out = BufWriter::with_capacity(1 << 16, io::stdout().lock());
    let run = probe::run(&mut input, &mut out);
    match (run, count) {
        (Ok(told), true) => eprint!("{}", told.told()),
        (Ok(_), false) => {}
        (Err(error), _) => return said(Err(error)),
    }
    said(out.flush())
}

/// The first difference is told, and ends it.
fn shadow_calls() -> Result<(), Stop> {
    let mut input = BufReader::with_capacity(1 << 20, io::stdin().lock());
    match shadow::run(&mut input) {
        Ok(told) => say(told.told().as_bytes()),
        Err(error) => Err(Stop {
            code: 1,
            message: error.to_string(),
        }),
    }
}

fn cut_probe(place: &str) -> Result<(), Stop> {
    let none = || bad_input(format!("there is no probe at place `{place}`"));
    let wanted = place.parse().map_err(|_| none())?;
    let found = probe::cut(&standard_input()?, wanted);
    say(&found.ok().flatten().ok_or_else(none)?)
}

fn make_probes(seed: &str, count: &str, bad: bool) -> Result<(), Stop> {
    let seed = seed_of(seed)?;
    let Ok(count @ 1..=MOST_RECORDS) = count.parse() else {
        return Err(bad_input(format!(
            "`{count}` is not a number of probes (1 to {MOST_RECORDS})"
        )));
    };
    let mut out = BufWriter::with_capacity(1 << 16, io::stdout().lock());
    let mut probes = damage(seed, count, bad);
    said(probes.try_for_each(|one| out.write_all(&one)))?;
    said(out.flush())
}

fn file_bytes(file: &str) -> Result<Vec<u8>, Stop> {
    fs::read(file).map_err(|error| bad_input(format!("{file}: {error}")))
}

fn file_text(file: &str) -> Result<String, Stop> {
    String::from_utf8(file_bytes(file)?)
        .map_err(|_| bad_input(format!("{file}: this is not text in UTF-8")))
}

fn in_file(file: &str, trouble: &Trouble) -> String {
    format!("{file}:{}: {}", trouble.line, trouble.message)
}

/// The lines of a call file written as text, or all that is wrong with them.
fn text_lines(file: &str) -> Result<Vec<calltext::Line>, Stop> {
    calltext::parse(&file_text(file)?).map_err(|troubles| {
        let mut told = vec![format!("{file} is not understood")];
        let first = troubles.iter().take(MOST_TROUBLES);
        told.extend(first.map(|trouble| in_file(file, trouble)));
        if troubles.len() > MOST_TROUBLES {
            told.push(format!("and {} more", troubles.len() - MOST_TROUBLES));
        }
        bad_input(told.join("\n"))
    })
}

/// Without an output the answers are this program's own.
fn show_words(file: &str, output: Option<&str>) -> Result<(), Stop> {
    let lines = text_lines(file)?;
    let printed = match output {
        Some(output) => file_text(output)?,
        None => callfile::run(&calltext::bytes(&lines)),
    };
    let told = words::words(&lines, &printed)
        .map_err(|trouble| bad_input(in_file(output.unwrap_or("own answers"), &trouble)))?;
    say(told.as_bytes())
}

fn show_picture(file: &str, print: fn(&Scene) -> String) -> Result<(), Stop> {
    let scene = Scene::after(&calltext::bytes(&text_lines(file)?))
        .map_err(|Damaged(_)| bad_input(format!("{file}: the table is damaged")))?;
    say(print(&scene).as_bytes())
}

/// The rides of one file, each with its outcome.
fn ride_file(file: &str) -> Result<Vec<(Ride, Ridden)>, Stop> {
    let text = file_text(file)?;
    let told = |code| {
        move |trouble: Trouble| Stop {
            code,
            message: in_file(file, &trouble),
        }
    };
    let rides = parse::parse(&text).map_err(told(2))?;
    let ridden = run::run_all(&rides).map_err(told(1))?;
    Ok(rides.into_iter().zip(ridden).collect())
}

fn compare_rides(files: &[&str]) -> Result<(), Stop> {
    let mut count = 0;
    for file in files {
        for (ride, _) in ride_file(file)? {
            count += 1;
            say(format!("holds: {}\n", ride.title).as_bytes())?;
        }
    }
    say(format!("{count} rides hold\n").as_bytes())
}

fn print_antt(files: &[&str]) -> Result<(), Stop> {
    let mut all = Vec::new();
    for file in files {
        all.extend(ride_file(file)?);
    }
    say(antt::print(&all).as_bytes())
}

fn show_rides(files: &[&str]) -> Result<(), Stop> {
    for file in files {
        for (ride, ridden) in ride_file(file)? {
            say(show::print(&ride, &ridden).as_bytes())?;
        }
    }
    Ok(())
}

//! The scripts ride, fresh-rides and long-rides, in a small repository of
//! their own with a kit that proves nothing.

mod common;

use std::fs;
use std::os::unix::fs::{symlink, PermissionsExt};
use std::path::{Path, PathBuf};
use std::process::{Command, Output};
use std::sync::{Mutex, MutexGuard};
use std::time::{Duration, SystemTime};

use common::{folder, text};
use second::callfile::run;
use second::damage::damage;
use second::make::{make, Kind};
use second::probe::{read_probe, Next};

/// A program just written cannot be started while another test, about to
/// start its own, still holds it open. So the tests go one after another.
static TURN: Mutex<()> = Mutex::new(());

struct Yard {
    top: PathBuf,
    _turn: MutexGuard<'static, ()>,
}

/// Notes its words and the crate, and leaves a program that is the second one.
const RT: &str = r#"#!/bin/sh
name=$(basename "$PWD")
echo "$* $name" >>../../rt.log
[ ! -e ../../refuse ] || exit 1
mkdir -p out
word=$name
[ "$word" != fare ] || word=run
printf '#!/bin/sh\nexec "$SECOND" %s\n' "$word" >"out/$name"
chmod +x "out/$name"
"#;

const SAME: &str = "#!/bin/sh\nexec \"$SECOND\" run\n";

/// The gate takes no list of crates but the repository's own, so none is left behind.
impl Drop for Yard {
    fn drop(&mut self) {
        let _ = fs::remove_dir_all(&self.top);
    }
}

impl Yard {
    fn new(name: &str) -> Yard {
        let turn = TURN.lock().unwrap_or_else(|error| error.into_inner());
        let top = std::env::temp_dir().join(format!("tiebeamer-{}-{name}", std::process::id()));
        let _ = fs::remove_dir_all(&top);
        for part in ["second", "crates/fare/src", "crates/probe"] {
            fs::create_dir_all(top.join(part)).expect("a folder of our own");
        }
        for part in ["ride", "fresh-rides", "second/fare.sh", "second/long-rides"] {
            fs::copy(folder(part), top.join(part)).expect("a script");
        }
        let yard = Yard { top, _turn: turn };
        yard.program("kit/bin/rt", RT);
        fs::write(yard.top.join("crates.txt"), "fare:\n").expect("a list");
        fs::write(yard.top.join("crates/fare/src/source.txt"), "").expect("a source");
        yard
    }

    fn program(&self, name: &str, content: &str) -> PathBuf {
        let path = self.top.join(name);
        fs::create_dir_all(path.parent().expect("a folder")).expect("a folder of our own");
        fs::write(&path, content).expect("a program");
        fs::set_permissions(&path, fs::Permissions::from_mode(0o755)).expect("a program");
        path
    }

    /// A script of this repository, with the kit on the path.
    fn command(&self, script: &str, words: &[&str]) -> Command {
        let path = std::env::var("PATH").expect("a path");
        let kit = self.top.join("kit/bin");
        let mut command = Command::new(self.top.join(script));
        command
            .args(words)
            .env("SECOND", env!("CARGO_BIN_EXE_second"))
            .env("PATH", format!("{}:{path}", kit.display()))
            .env_remove("FARE")
            .env_remove("PROBE");
        command
    }

    fn run(&self, script: &str, words: &[&str]) -> Output {
        self.command(script, words)
            .output()
            .expect("a script that starts")
    }

    /// The same with another program in the place of the proved one.
    fn run_with(&self, fare: &str, script: &str, words: &[&str]) -> Output {
        let fare = self.program("other/fare", fare);
        let mut command = self.command(script, words);
        command
            .env("FARE", fare)
            .output()
            .expect("a script that starts")
    }

    /// `fresh-rides --damage` with a shell command in the place of the proved program.
    fn damage_with(&self, probe: &str, words: &[&str]) -> Output {
        let probe = self.program("other/probe", &format!("#!/bin/sh\n{probe}\n"));
        let mut command = self.command("fresh-rides", &[&["--damage"], words].concat());
        command
            .env("PROBE", probe)
            .output()
            .expect("a script that starts")
    }

    /// How often rt was asked for the program.
    fn builds(&self) -> usize {
        let log = fs::read_to_string(self.top.join("rt.log")).unwrap_or_default();
        assert!(log.lines().all(|line| line == "run fare"), "{log}");
        log.lines().count()
    }
}

fn example() -> String {
    let path = folder("examples").join("example.txt");
    path.to_string_lossy().into_owned()
}

fn assert_ends(output: &Output, status: i32, told: &str) {
    let all = text(&output.stdout) + &text(&output.stderr);
    assert_eq!(output.status.code(), Some(status), "{all}");
    assert!(all.contains(told), "{all}");
}

#[test]
fn fresh_rides_that_are_alike() {
    let yard = Yard::new("alike");
    let output = yard.run_with(SAME, "fresh-rides", &["14", "60", "3"]);
    assert_ends(
        &output,
        0,
        "call files: 14, records in each: 60, first seed: 3\n10 of 14 files alike\n14 of 14 files alike\n",
    );
    assert!(!yard.top.join("target").exists());
    let output = yard.run("fresh-rides", &["1", "20"]);
    assert_ends(&output, 0, "1 of 1 files alike\n");
    assert_eq!(yard.builds(), 1);
}

/// Only bad records are answered otherwise: the sixth file, of kind garbage, is the first to have some.
#[test]
fn fresh_rides_that_differ() {
    let yard = Yard::new("differ");
    let fare = "#!/bin/sh\n\"$SECOND\" run | sed 's/ 19 0$/ 18 0/'\n";
    let output = yard.run_with(fare, "fresh-rides", &["14", "60", "3"]);
    let calls = make(Kind::Garbage, 8, 60);
    let printed = run(&calls);
    let line = printed
        .lines()
        .find(|line| line.ends_with(" 19 0"))
        .expect("a bad record");
    let place: usize = line
        .split(' ')
        .next()
        .expect("a place")
        .parse()
        .expect("a place");
    let record = second::calltext::tell(&calls[12 * (place - 1)..12 * place]);
    let told = format!(
        "difference in file 6 of 14: kind garbage, seed 8, 60 records\n  record {place}: {record}\n  \
         second: {line}\n  fare:   {}\n  kept:   target/fresh-rides/garbage-8-60.calls\n",
        line.replace(" 19 0", " 18 0")
    );
    assert_ends(&output, 1, &told);
    let kept = yard.top.join("target/fresh-rides/garbage-8-60.calls");
    assert_eq!(fs::read(kept).expect("the call file"), calls);
}

#[test]
fn fresh_rides_tell_other_faults() {
    let yard = Yard::new("faults");
    for (after, told) in [
        ("| head -n 3", "  record 4: "),
        ("| head -n 3", "  fare:   no such line\n"),
        (
            "| sed 's/^end /end 1/'",
            "  line 31, behind the records\n  second: end ",
        ),
        ("; echo more", "  second: no such line\n  fare:   more\n"),
        ("; exit 3", "  fare ended with status 3\n  kept:"),
    ] {
        let fare = format!("#!/bin/sh\n\"$SECOND\" run {after}\n");
        let output = yard.run_with(&fare, "fresh-rides", &["7", "30", "1"]);
        assert_ends(&output, 1, told);
    }
    for words in [&["x"][..], &["1", "-2"], &["1", "2", "3", "4"]] {
        assert_ends(
            &yard.run_with(SAME, "fresh-rides", words),
            2,
            "./fresh-rides [FILES",
        );
    }
}

const SAME_PROBE: &str = "\"$SECOND\" probe";

#[test]
fn damage_that_is_alike() {
    let yard = Yard::new("damage-alike");
    let output = yard.damage_with(SAME_PROBE, &["1200", "4"]);
    let told = "damaged probes: 1200, in blocks of 1000, first seed: 4\n1200 of 1200 probes alike\nanswer 0: ";
    assert_ends(&output, 0, told);
    assert_ends(&output, 0, "\nanswer 40: 2\n");
    assert!(!yard.top.join("target").exists());
    // Without PROBE the program is built by rt.
    assert_ends(&yard.run("fresh-rides", &["--damage", "20"]), 0, "20 of 20");
    let log = fs::read_to_string(yard.top.join("rt.log")).expect("a log");
    assert_eq!(log, "run probe\n");
}

#[test]
fn damage_that_differs() {
    let yard = Yard::new("damage-differs");
    let alter = format!("{SAME_PROBE} | sed '0,/^answer 15 0$/{{s/^answer 15 0$/answer 16 0/}}'");
    let output = yard.damage_with(&alter, &["1200", "4"]);
    let block: Vec<Vec<u8>> = damage(4, 1000, true).collect();
    let no_room = |one: &&Vec<u8>| match read_probe(&mut &one[..]) {
        Ok(Next::Probe(mut probe)) => probe.make().answer.number() == 15,
        _ => false,
    };
    let place = 1 + block.iter().take_while(|one| !no_room(one)).count();
    let name = "target/fresh-rides/damage-4-1000";
    assert_ends(
        &output,
        1,
        &format!(
            "difference in the block of seed 4, 1000 probes\n  probe {place} of the block, line "
        ),
    );
    let lines = "  second: answer 15 0\n  probe:  answer 16 0\n  number 1 of the line: second 15, probe 16\n";
    assert_ends(&output, 1, lines);
    let kept = format!("  this probe: {name}-{place}.probe\n  the block:  {name}.probes\n");
    assert_ends(&output, 1, &kept);
    let read = |name: String| fs::read(yard.top.join(name)).expect("a file kept");
    assert_eq!(read(format!("{name}.probes")), block.concat());
    assert_eq!(read(format!("{name}-{place}.probe")), block[place - 1]);
}

#[test]
fn damage_tells_other_faults() {
    let yard = Yard::new("damage-faults");
    for (after, told) in [
        (
            "| head -n 3",
            "  probe 2 of the block, line 4 of the output\n",
        ),
        ("| head -n 3", "  probe:  no such line\n"),
        ("; echo more", "  second: no such line\n  probe:  more\n"),
        ("; exit 3", "  probe ended with status 3\n  the block:"),
    ] {
        let output = yard.damage_with(&format!("{SAME_PROBE} {after}"), &["10", "1"]);
        assert_ends(&output, 1, told);
    }
    for words in [&["x"][..], &["1", "-2"], &["1", "2", "3"]] {
        assert_ends(
            &yard.damage_with(SAME_PROBE, words),
            2,
            "./fresh-rides [FILES",
        );
    }
    fs::write(yard.top.join("refuse"), "").expect("a file");
    let told = "probe, the proved program, cannot be built: 'rt run' in crates/probe failed.\n";
    assert_ends(&yard.run("fresh-rides", &["--damage", "9"]), 1, told);
}

#[test]
fn a_ride_shows_the_answers_of_fare() {
    let yard = Yard::new("answers");
    let output = yard.run("ride", &[&example()]);
    assert_ends(&output, 0, "4  step 1 9            found at 250 cents\n");
    let dearer = "#!/bin/sh\n\"$SECOND\" run | sed 's/ 250$/ 251/'\n";
    let output = yard.run_with(dearer, "ride", &[&example()]);
    assert_ends(&output, 0, "4  step 1 9            found at 251 cents\n");
    let output = yard.run_with("#!/bin/sh\n", "ride", &[&example()]);
    assert_ends(
        &output,
        1,
        "ride: what fare printed does not fit the ride.\n",
    );
    let output = yard.run_with("#!/bin/sh\nexit 4\n", "ride", &[&example()]);
    assert_ends(&output, 1, "ride: fare ended with status 4.\n");
}

/// rt is asked only where the program is missing or older than a source.
#[test]
fn fare_is_built_when_it_must_be() {
    let yard = Yard::new("builds");
    let program = yard.top.join("crates/fare/out/fare");
    let ride = |builds| {
        assert_ends(&yard.run("ride", &[&example()]), 0, "found at 250 cents");
        assert_eq!(yard.builds(), builds);
    };
    ride(1);
    ride(1);
    let source = fs::File::create(yard.top.join("crates/fare/src/source.txt")).expect("a source");
    let later = SystemTime::now() + Duration::from_secs(60);
    source.set_modified(later).expect("a time");
    ride(2);
    source
        .set_modified(later - Duration::from_secs(120))
        .expect("a time");
    ride(2);
    // What rt keeps is no source.
    let kept = fs::File::create(yard.top.join("crates/fare/out/kept")).expect("a file kept");
    kept.set_modified(later).expect("a time");
    ride(2);
    fs::remove_file(&program).expect("the program");
    ride(3);
}

#[test]
fn without_fare_a_ride_says_why() {
    let yard = Yard::new("without");
    fs::write(yard.top.join("refuse"), "").expect("a file");
    let told = "ride: fare, the proved program, cannot be built: 'rt run' in crates/fare failed.\n";
    assert_ends(&yard.run("ride", &[&example()]), 1, told);
    // A path on which there is no rt.
    let tools = yard.top.join("tools");
    fs::create_dir(&tools).expect("a folder");
    for tool in ["bash", "dirname", "mktemp", "rm"] {
        let found = Command::new("sh")
            .args(["-c", "command -v \"$0\"", tool])
            .output();
        let found = text(&found.expect("sh").stdout);
        symlink(Path::new(found.trim()), tools.join(tool)).expect("a link");
    }
    let mut command = yard.command("ride", &[&example()]);
    let output = command
        .env("PATH", &tools)
        .output()
        .expect("a script that starts");
    assert_ends(&output, 1, "its command rt is not on the path.\n");
    let mut command = yard.command("ride", &[&example()]);
    let output = command.env("FARE", "/no/such/program").output();
    assert_ends(&output.expect("a script"), 1, "ride: FARE names no program");
}

#[test]
fn pictures_need_no_fare() {
    let yard = Yard::new("pictures");
    assert_ends(
        &yard.run("ride", &["--picture", &example()]),
        0,
        "├─ 10 at 250 cents",
    );
    assert_ends(&yard.run("ride", &["--svg", &example()]), 0, "<svg ");
    assert_eq!(yard.builds(), 0);
}

#[test]
fn bad_words_and_bad_text_end_with_2() {
    let yard = Yard::new("bad");
    for words in [&[][..], &["--svg"], &["--png", "a"], &["a", "b"]] {
        assert_ends(&yard.run("ride", words), 2, "./ride FILE.txt");
    }
    let path = yard.top.join("bad.txt");
    fs::write(&path, "put 10 at\n").expect("a file");
    let path = path.to_string_lossy();
    assert_ends(
        &yard.run("ride", &[&path]),
        2,
        "bad.txt:1: `put 10 at`: price missing",
    );
    assert_eq!(yard.builds(), 0);
}

#[test]
fn long_rides_are_eight_pairs() {
    let yard = Yard::new("long");
    let to = yard.top.join("to");
    let output = yard.run("second/long-rides", &[&to.to_string_lossy(), "90"]);
    assert_ends(&output, 0, "");
    assert_eq!(fs::read_dir(&to).expect("the folder").count(), 16);
    let calls = fs::read(to.join("mixed-2.calls")).expect("a call file");
    assert_eq!(calls, make(Kind::Mixed, 5008, 90));
    let printed = fs::read_to_string(to.join("mixed-2.out")).expect("its output");
    assert_eq!(printed, run(&calls));
    assert_ends(&yard.run("second/long-rides", &[]), 1, "name a folder");
}

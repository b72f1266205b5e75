//! Hands the same inputs to the library, by flat and by typed calls, and to the reference,
//! and compares the answers: `compare [SEED] [COUNT] [LISTS] [CAPTURES] [SENDERS]`, with
//! COUNT random boot inputs and as many random modes, LISTS random lists of session items
//! and as many random sessions, CAPTURES random captures, for which the program
//! target/bin/replay, or the one that the environment's REPLAY names, is run, and SENDERS
//! random senders, as many of their beginnings and runs, and some whole loads.

mod boot;
mod c_numbers;
mod capture;
mod differences;
mod foreign;
mod forms;
mod generators;
mod harness;
mod random;
mod replay;
mod replay_captures;
mod replay_program;
mod sender;
mod sender_generators;
mod sender_harness;
mod sender_images;
mod sender_loads;
mod session;
mod session_exchanges;
mod typed;
mod vectors;

use foreign::Calls;
use random::Random;
use replay_program::Program;
use std::env;
use std::fmt;
use std::process::ExitCode;
use std::thread;

const SEED: u64 = 0x5A55_AAFE_EDFA_CE01;
const COUNT: u64 = 40_000;
const LISTS: u64 = 60_000;
const CAPTURES: u64 = 24_000;
const SENDERS: u64 = 120_000;

fn main() -> ExitCode {
    let [seed, count, lists, captures, senders] = match arguments() {
        Ok(arguments) => arguments,
        Err(message) => {
            let usage = "compare [SEED] [COUNT] [LISTS] [CAPTURES] [SENDERS]";
            eprintln!("compare: {message}\nusage: {usage}");
            return ExitCode::from(2);
        }
    };
    let program = match Program::find() {
        Ok(program) => program,
        Err(message) => {
            eprintln!("compare: {message}");
            return ExitCode::from(2);
        }
    };
    println!("compare: seed {seed:#x}, program {:?}", program.name);
    if let Err(difference) = c_numbers::same_enums().and_then(|()| typed::same_header()) {
        println!("compare: difference\n{difference}");
        return ExitCode::FAILURE;
    }

    let parts = thread::scope(|scope| {
        let boot = scope.spawn(|| tallied(|tally| boot::run(Random::new(seed), count, tally)));
        let session =
            scope.spawn(|| tallied(|tally| session::run(Random::new(!seed), lists, tally)));
        let random = Random::new(seed.swap_bytes());
        let replay =
            scope.spawn(|| tallied(|tally| replay::run(random, captures, &program, tally)));
        let random = Random::new(!seed.swap_bytes());
        let sender = scope.spawn(|| tallied(|tally| sender::run(random, senders, tally)));
        [boot, session, replay, sender]
            .map(|part| part.join().expect("a comparison that did not panic"))
    });
    let mut tally = Tally::default();
    for (part, compared) in parts {
        tally.add(part);
        if let Err(difference) = compared {
            let number = tally.inputs + 1;
            println!("compare: difference at seed {seed:#x}, input number {number}\n{difference}");
            return ExitCode::FAILURE;
        }
    }

    print!("{tally}");
    let missing = tally.missing();
    for thing in &missing {
        println!("compare: never occurred: {thing}");
    }
    if !missing.is_empty() {
        return ExitCode::FAILURE;
    }
    let [flat, typed] = tally.calls.made();
    println!("compare: {flat} flat calls, {typed} typed calls");
    println!("compare: {} inputs compared, 0 differences", tally.inputs);
    ExitCode::SUCCESS
}

/// A part of the comparison with a tally of its own, so that the parts can run side by side.
fn tallied(run: impl FnOnce(&mut Tally) -> Result<(), String>) -> (Tally, Result<(), String>) {
    let mut tally = Tally::default();
    let compared = run(&mut tally);
    (tally, compared)
}

fn arguments() -> Result<[u64; 5], String> {
    let arguments: Vec<_> = env::args_os().skip(1).collect();
    if arguments.len() > 5 {
        return Err(format!("{} arguments, at most 5 expected", arguments.len()));
    }
    let number = |index: usize, name: &str, default: u64| match arguments.get(index) {
        None => Ok(default),
        Some(argument) => argument.to_str().and_then(parse).ok_or(format!(
            "{name} is {argument:?}, a decimal or 0x hexadecimal number of 64 bits expected"
        )),
    };
    Ok([
        number(0, "SEED", SEED)?,
        number(1, "COUNT", COUNT)?,
        number(2, "LISTS", LISTS)?,
        number(3, "CAPTURES", CAPTURES)?,
        number(4, "SENDERS", SENDERS)?,
    ])
}

fn parse(text: &str) -> Option<u64> {
    match text.strip_prefix("0x") {
        Some(digits) => u64::from_str_radix(digits, 16).ok(),
        None => text.parse().ok(),
    }
}

/// How many inputs were compared, and how often each thing occurred among them.
#[derive(Default)]
pub struct Tally {
    pub inputs: u64,
    pub calls: Calls,
    lines: Vec<Line>,
}

struct Line {
    thing: &'static str,
    among: Among,
    values: Vec<Value>,
}

/// Where each value of a line has to occur.
#[derive(Clone, Copy, PartialEq)]
pub enum Among {
    Random,
    All,
}

struct Value {
    name: &'static str,
    random: u64,
    all: u64,
}

impl Tally {
    pub fn expect(&mut self, thing: &'static str, among: Among, names: &[&'static str]) {
        let value = |&name| Value {
            name,
            random: 0,
            all: 0,
        };
        self.lines.push(Line {
            thing,
            among,
            values: names.iter().map(value).collect(),
        });
    }

    /// Counts a value that is expected.
    pub fn count(&mut self, thing: &str, name: &str, random: bool) {
        let value = (self.lines.iter_mut())
            .filter(|line| line.thing == thing)
            .flat_map(|line| &mut line.values)
            .find(|value| value.name == name)
            .unwrap_or_else(|| panic!("not in the tally: {thing} {name}"));
        value.all += 1;
        value.random += u64::from(random);
    }

    fn add(&mut self, part: Tally) {
        self.inputs += part.inputs;
        self.calls.add(&part.calls);
        self.lines.extend(part.lines);
    }

    fn missing(&self) -> Vec<String> {
        let mut missing = self.calls.missing();
        for line in &self.lines {
            for value in &line.values {
                match line.among {
                    Among::Random if value.random == 0 => {
                        missing.push(format!("{} {}, at random", line.thing, value.name));
                    }
                    Among::All if value.all == 0 => {
                        missing.push(format!("{} {}", line.thing, value.name));
                    }
                    _ => {}
                }
            }
        }
        missing
    }
}

/// A line for each thing: each value with how often it occurred.
impl fmt::Display for Tally {
    fn fmt(&self, f: &mut fmt::Formatter) -> fmt::Result {
        writeln!(f, "tally, random inputs/all inputs")?;
        for line in &self.lines {
            write!(f, "{:<12}", line.thing)?;
            for (index, value) in line.values.iter().enumerate() {
                let comma = if index == 0 { "" } else { "," };
                write!(f, "{comma} {}: ", value.name)?;
                if line.among == Among::Random {
                    write!(f, "{}/", value.random)?;
                }
                write!(f, "{}", value.all)?;
            }
            writeln!(f)?;
        }
        write!(f, "{}", self.calls)
    }
}

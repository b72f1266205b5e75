//! Captures: what the program prints for each, against the reference's text and what the
//! papers print, and each read by the library's reader.

use crate::capture::{starts, Reader};
use crate::differences::hex;
use crate::generators::{clean, faulty, frame, Maker, PUBLIC};
use crate::harness::{stage_name, SRAM, STAGES};
use crate::random::Random;
use crate::replay_captures::{random_capture, WINDOW};
use crate::replay_program::{Feeding, Program};
use crate::vectors;
use crate::{Among, Tally};
use reference::boot::Entered;
use reference::capture::{read, Read, CAN, CLEAN, FAULTY};
use reference::replay::replay;
use reference::session::Session;
use std::thread;

/// How many programs run at a time, and how many captures are made at a time.
const THREADS: usize = 2;
const BATCH: u64 = 512;

/// How many lines of each text a report has at most.
const SHOWN: usize = 40;

const ANSWERS: [&str; 8] = ["0", "1", "2", "3", "4", "5", "10", "12"];
const LAST_LINES: [&str; 9] = [
    "waiting",
    "password",
    "header",
    "data",
    "stopped 2",
    "stopped 3",
    "stopped 4",
    "stopped 12",
    "jump",
];
const CAUSES: [&str; 8] = [
    "cut",
    "L below 2",
    "version",
    "kind",
    "L of CAN",
    "L of a byte",
    "L of a reset",
    "identifier",
];

/// Compares the fixed captures, then `count` random ones. An error is the report of the
/// first difference.
pub fn run(
    mut random: Random,
    count: u64,
    program: &Program,
    tally: &mut Tally,
) -> Result<(), String> {
    for (thing, values) in [
        ("handed in", &["whole", "in pieces", "over a window"][..]),
        ("answer", &ANSWERS),
        ("last line", &LAST_LINES),
        ("faulty read", &STAGES),
        ("10 for", &CAUSES),
    ] {
        tally.expect(thing, Among::Random, values);
    }
    let mut run = Run {
        program,
        reader: Reader::new(Random::new(random.number()), tally),
        tally,
    };
    run.reader.forms(run.tally)?;
    run.compare(&vectors::cases())?;

    run.reader.at_random = true;
    let mut maker = Maker::new(random);
    let mut done = 0;
    while done < count {
        let batch = done..count.min(done + BATCH);
        done = batch.end;
        let cases: Vec<_> = batch.map(|index| random_case(index, &mut maker)).collect();
        run.compare(&cases)?;
    }
    run.reader.count_calls(run.tally);
    Ok(())
}

fn random_case(index: u64, maker: &mut Maker) -> Case {
    let capture = random_capture(maker);
    let feeding = match maker.random.below(6) {
        0 => Feeding::Pieces {
            most: maker.random.pick(&[1, 2, 5, 14, 40, 1_000]),
            seed: maker.random.number(),
        },
        _ => Feeding::Whole,
    };
    Case {
        name: format!("random capture {index}"),
        capture,
        feeding,
        printed: None,
    }
}

/// A capture to be compared.
pub struct Case {
    pub name: String,
    pub capture: Vec<u8>,
    pub feeding: Feeding,
    /// The text, if the papers give it.
    pub printed: Option<String>,
}

struct Run<'a> {
    program: &'a Program,
    reader: Reader,
    tally: &'a mut Tally,
}

impl Run<'_> {
    /// Each thread compares the texts of one part of the cases. What came of it is looked
    /// at in the order of the cases.
    fn compare(&mut self, cases: &[Case]) -> Result<(), String> {
        let program = self.program;
        let part = |cases: &[Case]| Vec::from_iter(cases.iter().map(|case| case.text(program)));
        let texts: Vec<_> = thread::scope(|scope| {
            let threads: Vec<_> = cases
                .chunks(cases.len().div_ceil(THREADS))
                .map(|cases| scope.spawn(move || part(cases)))
                .collect();
            let texts = threads.into_iter().map(|thread| thread.join().unwrap());
            texts.flatten().collect()
        });
        for (case, text) in cases.iter().zip(texts) {
            self.count(case, &text?);
            self.reader
                .records(&case.capture, self.tally)
                .map_err(|difference| format!("{}\n{difference}", case.name))?;
        }
        Ok(())
    }

    /// Counts a capture and the lines that both print.
    fn count(&mut self, case: &Case, text: &str) {
        let at_random = self.reader.at_random;
        let mut count = |thing, value| self.tally.count(thing, value, at_random);
        match case.feeding {
            Feeding::Whole => count("handed in", "whole"),
            Feeding::Pieces { .. } => count("handed in", "in pieces"),
        }
        if case.capture.len() > WINDOW {
            count("handed in", "over a window");
        }
        for line in text.lines() {
            match line.strip_prefix("end ") {
                Some(end) if end.starts_with("jump ") => count("last line", "jump"),
                Some(end) => count("last line", end),
                None => {
                    let number = line.split(' ').nth(1).unwrap_or_default();
                    count("answer", number);
                    if number == "10" {
                        count("10 for", cause(&case.capture));
                    }
                }
            }
        }
        for stage in faulty_in(&case.capture) {
            count("faulty read", stage);
        }
        self.tally.inputs += 1;
    }
}

/// The stages in which a capture's faulty bytes come.
fn faulty_in(capture: &[u8]) -> Vec<&'static str> {
    let fresh = || Session::fresh(Entered::Asked, PUBLIC);
    let (mut session, mut sram) = (fresh(), vec![0; SRAM]);
    let (mut stages, mut at) = (Vec::new(), 0);
    while let Read::Record { kind, body, next } = read(capture, at) {
        let item = match (kind, body) {
            (CAN, [high, low, data @ ..]) => frame(u16::from_be_bytes([*high, *low]).into(), data),
            (CLEAN, [value]) => clean(*value),
            (FAULTY, [value]) => {
                stages.push(stage_name(&session));
                faulty(*value)
            }
            _ => {
                (session, at) = (fresh(), next);
                continue;
            }
        };
        session.item(&mut sram, &item);
        at = next;
    }
    stages
}

/// What is wrong with a capture's bad record.
fn cause(capture: &[u8]) -> &'static str {
    let bad = starts(capture).last().map_or(0, |&at| at);
    let [high, low, rest @ ..] = &capture[bad..] else {
        return "cut";
    };
    match rest.get(..u16::from_be_bytes([*high, *low]).into()) {
        None => "cut",
        Some([] | [_]) => "L below 2",
        Some([1, 1, _, _, data @ ..]) if data.len() <= 8 => "identifier",
        Some([1, 1, ..]) => "L of CAN",
        Some([1, 2 | 3, ..]) => "L of a byte",
        Some([1, 4, ..]) => "L of a reset",
        Some([1, ..]) => "kind",
        Some(_) => "version",
    }
}

impl Case {
    /// The text that both print. An error is the report of a difference.
    fn text(&self, program: &Program) -> Result<String, String> {
        let due = String::from_utf8_lossy(&replay(&self.capture)).into_owned();
        if let Some(printed) = &self.printed {
            self.same([("printed", printed), ("reference", &due)])?;
        }
        let ours = program
            .text(&self.capture, self.feeding)
            .map_err(|failure| self.report(&failure))?;
        self.same([("ours", &ours), ("reference", &due)])?;
        Ok(due)
    }

    /// Compares two texts, each with its name. A report has them from the first line that
    /// differs.
    fn same(&self, texts: [(&str, &str); 2]) -> Result<(), String> {
        let [one, other] = texts.map(|(_, text)| text);
        if one == other {
            return Ok(());
        }
        let pairs = lines(one).zip(lines(other));
        let same = pairs.take_while(|(one, other)| one == other).count();
        let starts = starts(&self.capture);
        let place = starts.get(same).unwrap_or(&self.capture.len()).to_string();
        let mut text = format!("{same} lines are the same; the next is for place {place}\n");
        for (name, whole) in texts {
            text += &format!("{name}:\n");
            for line in lines(whole).skip(same).take(SHOWN) {
                text += &format!("  {line:?}\n");
            }
        }
        Err(self.report(&text))
    }

    fn report(&self, difference: &str) -> String {
        let Case {
            name,
            capture,
            feeding,
            ..
        } = self;
        let (bytes, hex) = (capture.len(), hex(capture));
        format!("{name}, {bytes} bytes, {feeding}:{hex}\n{difference}")
    }
}

fn lines(text: &str) -> impl Iterator<Item = &str> {
    text.split_inclusive('\n')
}

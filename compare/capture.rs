//! The reader of captures against the reference's reader.

use crate::c_numbers::name_of;
use crate::differences::{hex, lent_lines, line};
use crate::foreign::{self, Library, RECORD};
use crate::forms::{AROUND, CUT, FRONT, MORE};
use crate::random::Random;
use crate::replay_captures::{can, head};
use crate::{Among, Tally};
use reference::capture::{read, Read};
use std::array;

/// The largest length handed in.
const FIELDS_MAX: usize = RECORD + MORE;

/// How many bytes of a capture a report has at most.
const SHOWN: usize = 1 << 20;

const KINDS: [&str; 5] = ["end", "CAN", "clean", "faulty", "reset"];

pub struct Reader {
    random: Random,
    library: Library,
    /// Whether the captures are now random ones, for the tally.
    pub at_random: bool,
}

impl Reader {
    pub fn new(mut random: Random, tally: &mut Tally) -> Self {
        let things = [&KINDS[..], &["9", "10"]].concat();
        tally.expect("read", Among::Random, &things);
        Reader {
            library: Library::new(Random::new(random.number())),
            random,
            at_random: false,
        }
    }

    /// Every record of a capture, its end, places beyond, also such as are within it in 32
    /// bits, and some that may be no start of a record.
    pub fn records(&mut self, capture: &[u8], tally: &mut Tally) -> Result<(), String> {
        let end = capture.len();
        let mut places = vec![end, end + 1, end + 2 + self.random.below(20)];
        places.extend([usize::MAX, usize::MAX - 1 - self.random.below(20)]);
        places.extend([CUT, CUT + self.random.below(end + 1)]);
        places.extend((0..8).map(|_| self.random.below(end + 1)));
        places.extend(starts(capture));
        for at in places {
            for length in [RECORD, RECORD - 1, RECORD + 1] {
                self.call(capture, at, length, tally)?;
            }
        }
        Ok(())
    }

    /// Every version and kind with every L to 20 and some beyond, and those about the right
    /// ones cut; every identifier with every count to 9; every length of the fields; and a
    /// capture whose length 32 bits do not hold.
    pub fn forms(&mut self, tally: &mut Tally) -> Result<(), String> {
        for length in (0..=20).chain([0x0100, 0x0103, 0x0200, 0x0300, 0x0400, 0x0C00, 0xFFFF]) {
            let mut capture = vec![0; 2 + usize::from(length) + 4];
            let whole = 2 + usize::from(length);
            for (version, kind) in (0..=255).flat_map(|v| (0..=255).map(move |k| (v, k))) {
                capture[..4].copy_from_slice(&head(length, version, kind));
                self.call(&capture, 0, RECORD, tally)?;
            }
            for kind in 0..=5 {
                capture[..4].copy_from_slice(&head(length, 1, kind));
                for cut in (0..=whole.min(20)).chain([whole - 1, whole, whole + 1]) {
                    self.call(&capture[..cut], 0, RECORD, tally)?;
                }
            }
        }
        for identifier in 0..=0xFFFF {
            for count in 0..=9 {
                self.call(&can(identifier, &[0xA5; 9][..count]), 0, RECORD, tally)?;
            }
        }
        for (capture, at) in [
            (&[][..], 0),
            (&[], 1),
            (&can(0x011, &[1; 8]), 0),
            (&[0; 5], 0),
        ] {
            for length in 0..=FIELDS_MAX {
                self.call(capture, at, length, tally)?;
            }
        }
        let zeros = foreign::zeros(CUT + 8);
        for at in [0, 4, 8, 9, CUT, CUT + 4, CUT + 8, CUT + 9] {
            for _ in 0..8 {
                self.call(zeros, at, RECORD, tally)?;
            }
        }
        Ok(())
    }

    /// Counts the calls of the library, when all are made.
    pub fn count_calls(&self, tally: &mut Tally) {
        tally.calls.add(&self.library.calls);
    }

    /// One call with fields of this length. What it must leave alone keeps random numbers.
    fn call(
        &mut self,
        capture: &[u8],
        at: usize,
        length: usize,
        tally: &mut Tally,
    ) -> Result<(), String> {
        let before: [usize; RECORD + AROUND] = array::from_fn(|_| self.random.number() as usize);
        let (mut fields, mut expected) = (before, before);
        let number = (self.library).read(capture, at, &mut fields[FRONT..][..length]);
        let due = due(capture, at, &mut expected[FRONT..][..length]);
        if (number, fields) != (due, expected) {
            let mut text = format!(
                "{}, at {at}, fields_len {length}, capture, {} bytes:{}\n",
                self.library.way,
                capture.len(),
                hex(&capture[..capture.len().min(SHOWN)])
            );
            text += &format!("  {:<16} {:<24} reference\n", "", "ours");
            text += &line("returned", &number.to_string(), &due.to_string());
            text += &lent_lines(&fields, &expected, RECORD, record_name);
            return Err(text);
        }
        tally.inputs += 1;
        let thing = match number {
            0 => KINDS[fields[FRONT]],
            9 => "9",
            _ => "10",
        };
        tally.count("read", thing, self.at_random);
        Ok(())
    }
}

fn record_name(index: usize) -> String {
    name_of(index, &["kind", "next", "body start", "body count"])
}

/// The reference's answer as the call gives it.
fn due(capture: &[u8], at: usize, fields: &mut [usize]) -> u8 {
    let answer = match read(capture, at) {
        Read::Bad => return 10,
        Read::End => [0, at, at, 0],
        Read::Record { kind, body, next } => {
            let start = body.as_ptr() as usize - capture.as_ptr() as usize;
            [kind.into(), next, start, body.len()]
        }
    };
    if fields.len() != RECORD {
        return 9;
    }
    fields.copy_from_slice(&answer);
    0
}

/// The places of the records, to the first bad one, which is one of them, or to the end.
pub fn starts(capture: &[u8]) -> Vec<usize> {
    let mut starts = vec![0];
    let mut at = 0;
    while let Read::Record { next, .. } = read(capture, at) {
        starts.push(next);
        at = next;
    }
    starts
}

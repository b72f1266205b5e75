//! The serial session: systematic inputs, random lists of items and random sessions.

use crate::c_numbers::{
    COUNT, ENTERED, HELD, NEXT, OWED, PORT, REFUSAL, STAGE, START, TABLE, VLE, WIDE,
};
use crate::foreign;
use crate::forms::{both, SessionForm, ANSWER, CUT, SESSION};
use crate::generators::{clean, faulty, frame, header, load, Maker, END, PUBLIC};
use crate::harness::{Harness, Lengths, Parts, BASE, RIGHT, ROWS_MAX, SRAM, SRAM_MAX};
use crate::random::Random;
use crate::session_exchanges;
use crate::Tally;
use reference::session::{Item, Port};

/// Compares the systematic inputs, then `count` random lists and as many random
/// sessions, then large loads. An error is the report of the first difference.
pub fn run(mut random: Random, count: u64, tally: &mut Tally) -> Result<(), String> {
    let mut run = Run {
        harness: Harness::new(Random::new(random.number()), tally),
        maker: Maker::new(random),
    };
    run.fresh_sessions()?;
    for exchange in session_exchanges::trials() {
        exchange.run(&mut run.harness)?;
    }
    run.frames()?;
    run.bytes()?;
    run.lengths()?;
    run.soundness()?;
    run.list_forms()?;
    run.long()?;
    run.rows()?;

    run.harness.at_random = true;
    let mut lists = 0;
    while lists < count {
        lists += run.random_lists()?;
    }
    for _ in 0..count {
        run.random_session()?;
    }
    run.harness.at_random = false;

    for exchange in session_exchanges::document_002() {
        exchange.run(&mut run.harness)?;
    }
    run.large_loads()?;
    run.harness.count_calls();
    Ok(())
}

/// A sound session of each stage and port, data stages also with few bytes owed. All were
/// entered directly.
fn samples() -> Vec<SessionForm> {
    let sample = |stage, port, count, [start, vle, next, owed, refusal]: [u32; 5]| {
        let (mut bytes, held) = ([0; SESSION.bytes], count as usize);
        bytes[..HELD].copy_from_slice(&PUBLIC);
        bytes[HELD..][..held].copy_from_slice(&PUBLIC[..held]);
        SessionForm {
            bytes,
            numbers: [stage, port, count, start, vle, next, owed, refusal, 2],
        }
    };
    let mut samples = vec![
        sample(0, 0, 0, [0; 5]),
        sample(1, 1, 1, [0; 5]),
        sample(1, 1, 7, [0; 5]),
        sample(2, 0, 0, [0; 5]),
        sample(2, 1, 0, [0; 5]),
        sample(2, 1, 7, [0; 5]),
        sample(4, 0, 0, [0, 0, 0, 0, 2]),
        sample(4, 0, 0, [0, 0, 0, 0, 3]),
        sample(4, 0, 0, [0, 0, 0, 0, 4]),
        sample(4, 0, 0, [0, 0, 0, 0, 12]),
        sample(4, 0, 0, [0, 1, 0, 0, 12]),
        sample(5, 0, 0, [BASE + 8, 1, 0, 0, 0]),
    ];
    for port in [0, 1] {
        for (next, owed) in [(BASE + 8, 20), (BASE + 13, 3), (END - 1, 1), (END - 8, 8)] {
            samples.push(sample(3, port, 0, [BASE + 8, 1, next, owed, 0]));
        }
    }
    samples
}

/// Numbers that say no way in which serial boot was entered.
const NO_ENTRIES: [u32; 8] = [0, 1, 5, 6, 0x102, 0x103, 0x104, !0];

struct Run<'a> {
    harness: Harness<'a>,
    maker: Maker,
}

impl Run<'_> {
    fn call(&mut self, session: &SessionForm, item: &Item, lengths: Lengths) -> Result<(), String> {
        self.harness.fill();
        self.harness.set(session);
        self.harness.call(item, lengths).map(|_| ())
    }

    /// Every mode of 8 bits and wider ones, with password and output lengths about the right
    /// ones.
    fn fresh_sessions(&mut self) -> Result<(), String> {
        for mode in (0..=255).chain(WIDE) {
            for password_len in 0..=9 {
                self.harness.fill();
                let password = self.maker.bytes(password_len);
                for length in SESSION.many() {
                    self.harness.fresh(mode, &password, length)?;
                }
            }
        }
        for _ in 0..1_000 {
            self.harness.fill();
            let (mode, selected) = (self.maker.mode(), self.maker.selected());
            self.harness.fresh(mode, &selected, SESSION)?;
        }
        Ok(())
    }

    /// In each stage every identifier, and every count about those that are taken or
    /// would be if they were cut to 8 or 16 bits.
    fn frames(&mut self) -> Result<(), String> {
        let counts = || (0..=17).chain(255..=265).chain(65_536..=65_544);
        let beyond = [0x800, 0x811, 0x812, 0x813, 0x1_0011, 0x8000_0013, !0];
        for session in samples() {
            for identifier in (0..0x800).chain(beyond) {
                let count = self.maker.random.pick(&[1, 3, 8, 8]);
                let data = self.maker.bytes(count);
                self.call(&session, &frame(identifier, &data), RIGHT)?;
            }
            for identifier in [0x011, 0x012, 0x013] {
                for count in counts() {
                    let data = self.maker.bytes(count);
                    self.call(&session, &frame(identifier, &data), RIGHT)?;
                }
                self.call(&session, &frame(identifier, &PUBLIC), RIGHT)?;
                let header = header(END - 3, 4);
                self.call(&session, &frame(identifier, &header), RIGHT)?;
            }
        }
        Ok(())
    }

    /// In each stage every byte, clean and faulty.
    fn bytes(&mut self) -> Result<(), String> {
        for session in samples() {
            for byte in 0..=255 {
                self.call(&session, &clean(byte), RIGHT)?;
                self.call(&session, &faulty(byte), RIGHT)?;
            }
        }
        Ok(())
    }

    /// In each stage the lengths of SRAM and of both lists of session and answer, each right
    /// and wrong, with items and lists that would be answered and that would not: 7, 8, 6, 9 in
    /// order.
    fn lengths(&mut self) -> Result<(), String> {
        let items = [
            frame(0x011, &PUBLIC),
            frame(0x012, &header(BASE, 1)),
            frame(0x013, &[0xA5]),
            frame(0x800, &[]),
            frame(0x013, &[0; 9]),
            clean(0xFE),
            faulty(0xFE),
        ];
        for sample in samples() {
            for sram in [0, 1, SRAM - 1, SRAM, SRAM + 1, SRAM_MAX] {
                for session in SESSION.many() {
                    self.harness.fill();
                    let answers = match session {
                        SESSION => ANSWER.many(),
                        _ => ANSWER.few().to_vec(),
                    };
                    for answer in answers {
                        let lengths = Lengths {
                            session,
                            sram,
                            answer,
                        };
                        for item in &items {
                            self.harness.set(&sample);
                            self.harness.call(item, lengths)?;
                        }
                    }
                    let lengths = Lengths {
                        session,
                        sram,
                        answer: both(0, 0),
                    };
                    let mut parts = Parts::of(&items, &mut self.maker.random);
                    self.harness.refused_list(&parts, lengths)?;
                    parts.bytes.push(0);
                    self.harness.refused_list(&parts, lengths)?;
                }
            }
        }
        Ok(())
    }

    /// Each number of a session at its edges: the stages with every count and port, each
    /// other number in every stage, and the load; and other bytes, any of which a session may
    /// have.
    fn soundness(&mut self) -> Result<(), String> {
        let counts = || (0..=9).chain([0xFF, 0x100, 0x101]);
        for sample in samples() {
            for count in counts() {
                for port in 0..=2 {
                    for stage in 0..=6 {
                        let mut session = sample;
                        session.numbers[STAGE] = stage;
                        session.numbers[PORT] = port;
                        session.numbers[COUNT] = count;
                        self.both_ports(&session)?;
                    }
                }
            }
            for at in [STAGE, PORT, COUNT, START, VLE, NEXT, OWED, REFUSAL, ENTERED] {
                let numbers = [0, 1, 2, 3, 4, 5, 6, 12, 0x102, BASE, END, !0];
                // The last ones are the same in 8 and in 16 bits.
                let cut = [0x100, 0x1_0000, 1 << 31].map(|bit| sample.numbers[at] ^ bit);
                for number in numbers.into_iter().chain(cut) {
                    let mut session = sample;
                    session.numbers[at] = number;
                    self.both_ports(&session)?;
                }
            }
            for at in 0..SESSION.bytes {
                for byte in [0, 1, 0x7F, 0xFF, !sample.bytes[at]] {
                    let mut session = sample;
                    session.bytes[at] = byte;
                    self.both_ports(&session)?;
                }
            }
        }
        let load = samples().pop().unwrap();
        let addresses = [
            0,
            BASE - 4,
            BASE - 1,
            BASE,
            BASE + 1,
            BASE + 4,
            BASE + 7,
            END - 4,
            END - 1,
            END,
            !3,
            !0,
        ];
        for start in addresses {
            for next in addresses {
                let to_end = END.wrapping_sub(next);
                for owed in [0, 1, to_end, to_end.wrapping_add(1), !next, 1 << 31, !0] {
                    let mut session = load;
                    session.numbers[START] = start;
                    session.numbers[NEXT] = next;
                    session.numbers[OWED] = owed;
                    self.both_ports(&session)?;
                }
            }
        }
        Ok(())
    }

    fn both_ports(&mut self, session: &SessionForm) -> Result<(), String> {
        self.call(session, &frame(0x013, &[0xA5]), RIGHT)?;
        self.call(session, &clean(0xA5), RIGHT)
    }

    /// Lists whose parts do not fit: each kind, count and length about the right ones.
    fn list_forms(&mut self) -> Result<(), String> {
        let items = [
            clean(0xFE),
            frame(0x011, &PUBLIC),
            faulty(0x01),
            frame(0x013, &[]),
            frame(0x800, &[0; 9]),
            clean(0xED),
        ];
        for session in samples() {
            self.harness.fill();
            self.harness.set(&session);
            self.harness.run(&[])?;
            self.harness.run(&items)?;
            let right = Parts::of(&items, &mut self.maker.random);
            let mut refused = Vec::new();
            for at in 0..items.len() {
                for kind in 0..=255 {
                    let mut parts = right.clone();
                    parts.kinds[at] = kind;
                    refused.push(parts);
                }
                // With the bytes that are there, and with the bytes that it asks for.
                for count in (0..=10).chain([0x100, 0x101, 0x108, !0]) {
                    let mut parts = right.clone();
                    parts.counts[at] = count;
                    refused.push(parts.clone());
                    let sum: u64 = parts.counts.iter().map(|&count| u64::from(count)).sum();
                    parts.bytes.resize((sum as usize).min(1_000), 0xA5);
                    refused.push(parts);
                }
            }
            // The echoes alone, the answers alone, and both, also as of another number of items.
            for echoes in 0..=right.answers.bytes + ANSWER.bytes + 1 {
                let mut parts = right.clone();
                parts.answers.bytes = echoes;
                refused.push(parts);
            }
            for answers in 0..=right.answers.numbers + ANSWER.numbers + 1 {
                let mut parts = right.clone();
                parts.answers.numbers = answers;
                refused.push(parts);
            }
            for count in 0..=2 * items.len() {
                for more in [0, 1] {
                    let mut parts = right.clone();
                    parts.answers = both(ANSWER.bytes * count + more, ANSWER.numbers * count);
                    refused.push(parts.clone());
                    parts.answers.numbers += more;
                    refused.push(parts);
                }
            }
            for length in 0..=2 * items.len() {
                for which in 1..8 {
                    let mut parts = right.clone();
                    if which & 1 != 0 {
                        parts.kinds.resize(length, 1);
                    }
                    if which & 2 != 0 {
                        parts.identifiers.resize(length, 0x011);
                    }
                    if which & 4 != 0 {
                        parts.counts.resize(length, 0);
                    }
                    refused.push(parts);
                }
            }
            for length in 0..=2 * right.bytes.len() {
                let mut parts = right.clone();
                parts.bytes.resize(length, 0xA5);
                refused.push(parts);
            }
            for parts in &refused {
                self.harness.refused_list(parts, RIGHT)?;
            }
        }
        Ok(())
    }

    /// Lengths that 32 bits would cut to right ones, often enough for flat and typed calls.
    fn long(&mut self) -> Result<(), String> {
        let zeros = foreign::zeros(CUT + SRAM);
        for session in samples() {
            self.harness.fill();
            self.harness.set(&session);
            for _ in 0..8 {
                self.harness.long(zeros)?;
            }
        }
        Ok(())
    }

    /// The rows in each stage, sound and with 8 bytes held, which is sound in none, by every
    /// way in and with numbers that are none, with VLE 0, 1 and 2.
    fn rows(&mut self) -> Result<(), String> {
        for sample in samples() {
            for count in [sample.numbers[COUNT], 8] {
                for entered in [2, 3, 4].into_iter().chain(NO_ENTRIES) {
                    for vle in 0..=2 {
                        let mut session = sample;
                        session.numbers[COUNT] = count;
                        session.numbers[ENTERED] = entered;
                        session.numbers[VLE] = vle;
                        self.rows_of(&session)?;
                    }
                }
            }
        }
        Ok(())
    }

    /// Outputs of every length up to ROWS_MAX, and lengths of the session about the right one.
    fn rows_of(&mut self, session: &SessionForm) -> Result<(), String> {
        self.harness.fill();
        self.harness.set(session);
        for rows_len in 0..=ROWS_MAX {
            self.harness.rows(SESSION, rows_len)?;
        }
        for length in SESSION.many() {
            for rows_len in [0, TABLE] {
                self.harness.rows(length, rows_len)?;
            }
        }
        Ok(())
    }

    /// Lists with resets between them, which SRAM outlasts. Answers how many.
    fn random_lists(&mut self) -> Result<u64, String> {
        self.harness.fill();
        let count = self.maker.random.pick(&[1, 1, 2, 3]);
        for _ in 0..count {
            let (mode, selected) = (self.maker.mode(), self.maker.selected());
            let items = self.maker.list(selected);
            self.harness.run_fresh(mode, selected, &items)?;
            if self.maker.random.chance(4) {
                self.refused(&items)?;
            }
        }
        Ok(count)
    }

    /// A random session, and now and then the same with a number that is no way in. These
    /// numbers are not drawn by the maker, so that what it makes does not hang on them.
    fn random_session(&mut self) -> Result<(), String> {
        let entered = self.harness.random.pick(&[2, 3, 4]);
        let mut session = self.maker.session(entered);
        self.session(&session)?;
        if self.harness.random.chance(8) {
            session.numbers[ENTERED] = self.harness.random.pick(&NO_ENTRIES);
            self.both_ports(&session)?;
            let parts = Parts::of(&[clean(0xA5)], &mut self.harness.random);
            self.harness.refused_list(&parts, RIGHT)?;
        }
        Ok(())
    }

    /// A session. If it is sound, items are run on it.
    fn session(&mut self, session: &SessionForm) -> Result<(), String> {
        self.harness.fill();
        self.harness.set(session);
        self.harness.rows_at_hand()?;
        let Some(head) = self.harness.head() else {
            let items = [self.maker.item(), self.maker.item()];
            for item in &items {
                self.harness.call(item, RIGHT)?;
            }
            return self.refused(&items);
        };
        let items = self.maker.items(head);
        if self.maker.random.chance(2) {
            self.refused(&items)?;
        }
        self.harness.run(&items)
    }

    /// A call and a list that are refused, in the session at hand.
    fn refused(&mut self, items: &[Item]) -> Result<(), String> {
        let lengths = self.maker.lengths();
        if lengths != RIGHT {
            let item = self.maker.item();
            self.harness.call(&item, lengths)?;
        }
        let mut parts = Parts::of(items, &mut self.maker.random);
        for _ in 0..self.maker.random.pick(&[0, 1, 1, 1, 2]) {
            self.maker.bend_parts(&mut parts);
        }
        let lengths = match self.maker.random.below(3) {
            0 => self.maker.lengths(),
            _ => RIGHT,
        };
        self.harness.refused_list(&parts, lengths).map(|_| ())
    }

    /// Loads of all of SRAM, to its end, and over it by one, by both ports.
    fn large_loads(&mut self) -> Result<(), String> {
        for (start, length) in [
            (BASE, 65_536),
            (BASE + 3, 65_536),
            (BASE + 4, 65_532),
            (END - 4_096, 4_096),
            (END - 4_093, 4_096),
            (END - 4_096, 4_095),
            (BASE, 65_537),
            (BASE + 4, 65_533),
            (END - 4_096, 4_097),
        ] {
            for port in [Port::Can, Port::Serial] {
                for vle in [0, 1 << 31] {
                    let header = header(start, vle | length);
                    self.large_load(port, header, length as usize)?;
                }
            }
        }
        Ok(())
    }

    fn large_load(&mut self, port: Port, header: [u8; 8], length: usize) -> Result<(), String> {
        let data = self.maker.bytes(length);
        let bytes = self.maker.random.pick(&[5, 7, 8]);
        let mut items = load(port, &PUBLIC, &header, &data, bytes);
        items.extend([frame(0x013, &[0xA5]), clean(0xA5)]);
        self.harness.fill();
        let mode = self.maker.mode();
        self.harness.run_fresh(mode, PUBLIC, &items).map(|_| ())
    }
}

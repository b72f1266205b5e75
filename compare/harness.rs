//! The calls of a serial session, handed to the library and to the reference side by
//! side. After every call everything that it could have written is compared, and the MMU
//! rows of the session that it left.

use crate::c_numbers::{
    answer_form, entered_of, moves, only, port_number, table, table_name, Head, ANSWER_NAMES,
    ENTERED, HELD, JUMP, JUMP_VLE, NUMBER, ROWS, SESSION_NAMES, STAGE, START, TABLE, VLE,
};
use crate::differences::{hex, lent_lines, line, list_line, room_lines};
use crate::foreign::Library;
use crate::forms::{
    both, AnswerForm, AnswerRoom, Both, Length, SessionForm, SessionRoom, ANSWER, AROUND, CUT,
    FRONT, MORE, SESSION, WRONG,
};
use crate::random::Random;
use crate::{Among, Tally};
use reference::mmu::{self, session_rows};
use reference::session::{load, picked, plain, stream, Answer, Item, Port, Session, Stage};
use std::array;
use std::fmt;
use std::iter;
use std::slice;

pub const SRAM: usize = 65_536;
pub const BASE: u32 = 0x4000_0000;

/// The largest lengths handed in.
pub const SRAM_MAX: usize = SRAM + MORE;
pub const ROWS_MAX: usize = TABLE + 24;

/// The numbers of an item: the form of a byte is never refused, and no frame is faulty.
const CAN_NUMBERS: [&str; 10] = ["0", "1", "2", "3", "4", "5", "6", "7", "8", "9"];
const SERIAL_NUMBERS: [&str; 10] = ["0", "1", "2", "3", "4", "5", "7", "8", "9", "12"];
/// The ports' lines of the tally.
const PORTS: [&str; 2] = ["CAN", "serial"];
pub const STAGES: [&str; 8] = [
    "waiting",
    "password",
    "header CAN",
    "header serial",
    "data CAN",
    "data serial",
    "stopped",
    "jumped",
];
/// Why a session gets 8, beside the lengths.
const NO_SESSION: &str = "no session";
const NOT_SOUND: &str = "not sound";
/// How serial boot was entered, in the order of boot_assist_mode from 2 on.
const ENTRIES: [&str; 3] = ["directly", "from internal", "from external"];
/// Where rows are answered: the stages in their order, with VLE 0 and 1 if they have it.
const ROWS_IN: [[&str; 2]; 6] = [
    ["waiting"; 2],
    ["password"; 2],
    ["header"; 2],
    ["data VLE 0", "data VLE 1"],
    ["stopped VLE 0", "stopped VLE 1"],
    ["jumped VLE 0", "jumped VLE 1"],
];
const JUMPS: [[&str; 2]; 2] = [["CAN VLE 0", "CAN VLE 1"], ["serial VLE 0", "serial VLE 1"]];

/// What a caller keeps from call to call, and what is around it.
#[derive(Clone, PartialEq)]
struct Kept {
    session: SessionRoom,
    sram: Vec<u8>,
}

impl Kept {
    fn new() -> Self {
        Kept {
            session: SessionRoom::ZERO,
            sram: vec![0; SRAM + AROUND],
        }
    }
}

/// The lengths that one call hands in.
#[derive(Clone, Copy, PartialEq)]
pub struct Lengths {
    pub session: Length,
    pub sram: usize,
    pub answer: Length,
}

pub const RIGHT: Lengths = Lengths {
    session: SESSION,
    sram: SRAM,
    answer: ANSWER,
};

impl fmt::Display for Lengths {
    fn fmt(&self, f: &mut fmt::Formatter) -> fmt::Result {
        let Lengths {
            session,
            sram,
            answer,
        } = self;
        write!(f, "lengths: session {session}, SRAM {sram}, ")?;
        writeln!(f, "answer {answer}")
    }
}

/// What a list's call is handed beside the session and SRAM.
#[derive(Clone)]
pub struct Parts {
    pub kinds: Vec<u8>,
    pub identifiers: Vec<u32>,
    pub counts: Vec<u32>,
    pub bytes: Vec<u8>,
    /// The lengths of the answers: of the echoes and of the numbers.
    pub answers: Length,
}

impl Parts {
    /// The identifier of a serial byte is not looked at, so it is random.
    pub fn of(items: &[Item], random: &mut Random) -> Self {
        let mut parts = Parts {
            kinds: Vec::new(),
            identifiers: Vec::new(),
            counts: Vec::new(),
            bytes: Vec::new(),
            answers: answers_of(items.len()),
        };
        for item in items {
            let (kind, bytes) = kind_and_bytes(item);
            parts.kinds.push(kind);
            parts.identifiers.push(match item {
                Item::Frame { identifier, .. } => *identifier,
                Item::Byte { .. } => random.number() as u32,
            });
            parts.counts.push(bytes.len() as u32);
            parts.bytes.extend_from_slice(bytes);
        }
        parts
    }

    pub fn fit(&self) -> bool {
        let count = self.kinds.len();
        let shape = |(&kind, &count)| match kind {
            1 => true,
            2 | 3 => count == 1,
            _ => false,
        };
        let sum: u64 = self.counts.iter().map(|&count| u64::from(count)).sum();
        self.identifiers.len() == count
            && self.counts.len() == count
            && self.answers == answers_of(count)
            && self.kinds.iter().zip(&self.counts).all(shape)
            && sum == self.bytes.len() as u64
    }
}

impl fmt::Display for Parts {
    fn fmt(&self, f: &mut fmt::Formatter) -> fmt::Result {
        let Parts {
            kinds,
            identifiers,
            counts,
            bytes,
            answers,
        } = self;
        writeln!(f, "echoes and answers: {answers}")?;
        writeln!(f, "kinds, {}: {kinds:?}", kinds.len())?;
        writeln!(f, "identifiers, {}: {identifiers:X?}", identifiers.len())?;
        writeln!(f, "counts, {}: {counts:?}", counts.len())?;
        writeln!(f, "bytes, {}:{}", bytes.len(), hex(bytes))
    }
}

/// The lengths of the answers of so many items.
fn answers_of(count: usize) -> Length {
    both(ANSWER.bytes * count, ANSWER.numbers * count)
}

/// The answers of a list, and what is around them.
#[derive(Clone)]
struct Answers {
    echoes: Vec<u8>,
    numbers: Vec<u32>,
}

impl Answers {
    fn random(length: Length, random: &mut Random) -> Self {
        Answers {
            echoes: (0..length.bytes + AROUND).map(|_| random.byte()).collect(),
            numbers: (0..length.numbers + AROUND)
                .map(|_| random.number() as u32)
                .collect(),
        }
    }

    fn put(&mut self, answers: &[AnswerForm]) {
        let echoes = self.echoes[FRONT..].chunks_mut(ANSWER.bytes);
        let numbers = self.numbers[FRONT..].chunks_mut(ANSWER.numbers);
        for ((echo, numbers), answer) in echoes.zip(numbers).zip(answers) {
            echo.copy_from_slice(&answer.bytes);
            numbers.copy_from_slice(&answer.numbers);
        }
    }

    fn all(&self) -> Both<'_> {
        (&self.echoes, &self.numbers)
    }
}

/// What happened since SRAM was filled.
enum Step {
    Session(SessionForm),
    Item(Item),
}

/// One side of a comparison.
struct Side<'a> {
    number: u8,
    answer: Both<'a>,
    kept: &'a Kept,
}

impl PartialEq for Side<'_> {
    fn eq(&self, other: &Self) -> bool {
        self.number == other.number && self.answer == other.answer && *self.kept == *other.kept
    }
}

pub struct Harness<'a> {
    pub random: Random,
    pub library: Library,
    tally: &'a mut Tally,
    /// Whether the inputs are now random ones, for the tally.
    pub at_random: bool,
    /// What the library leaves, and what it should leave.
    ours: Kept,
    expected: Kept,
    /// What the library leaves of the stream alone, and of a list in one call.
    alone: Kept,
    listed: Kept,
    /// SRAM before a list.
    first: Vec<u8>,
    seed: u64,
    trail: Vec<Step>,
}

impl<'a> Harness<'a> {
    pub fn new(mut random: Random, tally: &'a mut Tally) -> Self {
        let mut rows_in = ROWS_IN.concat();
        rows_in.dedup();
        let causes = [&WRONG[..], &[NO_SESSION, NOT_SOUND]].concat();
        for (thing, among, values) in [
            ("session", Among::All, &["0", "9"][..]),
            ("CAN", Among::Random, &CAN_NUMBERS),
            ("serial", Among::Random, &SERIAL_NUMBERS),
            ("stage", Among::Random, &STAGES),
            ("faulty in", Among::Random, &STAGES),
            ("jump", Among::Random, JUMPS.as_flattened()),
            ("8 for", Among::Random, &causes),
            ("9 for", Among::Random, &WRONG),
            ("list", Among::Random, &["0", "6", "7", "8"]),
            ("opening", Among::Random, &["CAN", "serial", "none"]),
            ("session rows", Among::Random, &["0", "8", "9", "11"]),
            ("rows in", Among::Random, &rows_in),
            ("rows' 8 for", Among::Random, &causes),
            ("entered", Among::Random, &ENTRIES),
        ] {
            tally.expect(thing, among, values);
        }
        Harness {
            library: Library::new(Random::new(random.number())),
            random,
            tally,
            at_random: false,
            ours: Kept::new(),
            expected: Kept::new(),
            alone: Kept::new(),
            listed: Kept::new(),
            first: vec![0; SRAM + AROUND],
            seed: 0,
            trail: Vec::new(),
        }
    }

    /// Fills SRAM anew, from a seed that a report names.
    pub fn fill(&mut self) {
        self.seed = self.random.number();
        self.trail.clear();
        let mut random = Random::new(self.seed);
        for bytes in self.ours.sram.chunks_mut(8) {
            bytes.copy_from_slice(&random.number().to_le_bytes()[..bytes.len()]);
        }
        for kept in [&mut self.expected, &mut self.alone, &mut self.listed] {
            kept.sram.copy_from_slice(&self.ours.sram);
        }
    }

    /// Goes on with this session, and random bytes and numbers behind it.
    pub fn set(&mut self, session: &SessionForm) {
        self.ours.session = SessionRoom::random(&mut self.random);
        self.ours.session.put(session);
        self.expected.session = self.ours.session;
        self.trail.push(Step::Session(*session));
    }

    /// The session at hand, which both have.
    pub fn session(&self) -> SessionForm {
        self.ours.session.form()
    }

    /// SRAM at hand, which both have.
    pub fn sram(&self) -> &[u8] {
        &self.ours.sram[FRONT..][..SRAM]
    }

    /// The reference's session at hand, if it is sound.
    pub fn head(&self) -> Option<Head> {
        Head::of(self.session().all()).filter(|head| head.session.sound())
    }

    /// Goes on with a fresh session, if it is not refused.
    pub fn fresh(&mut self, mode: u32, password: &[u8], length: Length) -> Result<(), String> {
        self.ours.session = SessionRoom::random(&mut self.random);
        self.expected.session = self.ours.session;
        let number = (self.library).fresh(mode, password, &mut self.ours.session, length);
        let due = match (<[u8; 8]>::try_from(password), entered_of(mode)) {
            (Ok(selected), Some(entered)) if length == SESSION => {
                let session = Head::fresh(entered, selected).form();
                self.expected.session.put(&session);
                0
            }
            _ => 9,
        };
        let (way, none) = (self.library.way, (&[][..], &[][..]));
        self.compare("reference", (number, none), (due, none), || {
            let (bytes, hex) = (password.len(), hex(password));
            format!("{way}, mode {mode:#x}, password, {bytes}:{hex}, session {length}\n")
        })?;
        self.count("session", &number.to_string());
        if number == 0 {
            self.trail.push(Step::Session(self.session()));
            self.rows_at_hand()?;
        }
        Ok(())
    }

    /// One item, with the lengths as told.
    pub fn call(&mut self, item: &Item, lengths: Lengths) -> Result<AnswerForm, String> {
        let before = self.ours.session;
        let mut answer = AnswerRoom::random(&mut self.random);
        let mut expected = answer;
        let mark = self.mark(item);
        let ours = &mut self.ours;
        let number = hand_in(&mut self.library, ours, item, mark, lengths, &mut answer);
        let due = self.due(item, lengths);
        let form = answer_form(&due);
        if answered(due.number) {
            expected.put(&form);
        }
        let way = self.library.way;
        self.compare(
            "reference",
            (number, answer.all()),
            (due.number, expected.all()),
            || {
                let session = session_line(before.lent(lengths.session));
                format!("{way}, {}, {mark}\n{session}{lengths}", shown(item))
            },
        )?;
        self.count_call(item, &before, lengths, &due);
        if answered(due.number) || due.number == 6 {
            self.trail.push(Step::Item(item.clone()));
        }
        let rows_len = self.rows_len();
        self.rows(lengths.session, rows_len)?;
        Ok(form)
    }

    /// The reference's answer, after what the C interface alone refuses. Moves what is
    /// expected.
    fn due(&mut self, item: &Item, lengths: Lengths) -> Answer {
        let refused = |number| Answer {
            number,
            echo: None,
            jump: None,
        };
        let Kept { session, sram } = &mut self.expected;
        let sram = &mut sram[FRONT..][..lengths.sram];
        let Some(mut head) = Head::of(session.lent(lengths.session)) else {
            return refused(if sram.len() == SRAM { 8 } else { 7 });
        };
        if lengths.answer != ANSWER {
            return match head.item(&mut sram.to_vec(), item).number {
                number if !answered(number) => refused(number),
                _ => refused(9),
            };
        }
        let answer = head.item(sram, item);
        session.put(&head.form());
        answer
    }

    /// A faulty byte is marked by any number but 0.
    fn mark(&mut self, item: &Item) -> u8 {
        match item {
            Item::Byte { faulty: true, .. } => self.random.pick(&[1, 2, 0x80, 0xFE, 0xFF]),
            _ => 0,
        }
    }

    /// Items from the session at hand, one by one and then in one call from the same
    /// start.
    pub fn run(&mut self, items: &[Item]) -> Result<(), String> {
        self.listed.session = self.ours.session;
        let mut answers = Vec::with_capacity(items.len());
        for item in items {
            answers.push(self.call(item, RIGHT)?);
        }
        self.in_one_call(items, &answers)
    }

    /// Demand 3, beside the comparison of every item: a list of items from a fresh
    /// session, with the stream alone beside it.
    pub fn run_fresh(
        &mut self,
        mode: u32,
        selected: [u8; 8],
        items: &[Item],
    ) -> Result<Vec<AnswerForm>, String> {
        self.fresh(mode, &selected, SESSION)?;
        self.alone.session = self.ours.session;
        self.listed.session = self.ours.session;
        self.first.copy_from_slice(&self.ours.sram);

        let mut stream = stream(items).into_iter().peekable();
        let mut answers = Vec::with_capacity(items.len());
        for (index, item) in items.iter().enumerate() {
            let answer = self.call(item, RIGHT)?;
            let alone = if stream.next_if_eq(&index).is_some() {
                self.call_alone(item)
            } else {
                only(if refused_for_form(item) { 6 } else { 1 })
            };
            // The stream's session and SRAM do not move with another item.
            if answer != alone || self.ours != self.alone {
                let [ours, other] = [answer, alone].map(|answer| {
                    let mut room = AnswerRoom::ZERO;
                    room.put(&answer);
                    room
                });
                let side = |answer, kept| Side {
                    number: 0,
                    answer,
                    kept,
                };
                let ours = side(ours.all(), &self.ours);
                let other = side(other.all(), &self.alone);
                let sides = side_by_side("stream", &ours, &other);
                return Err(self.report(&format!("demand 3, {}\n{sides}", shown(item))));
            }
            answers.push(answer);
        }

        let load = load(&selected, &plain(items));
        let jumps = (answers.iter().map(|answer| answer.numbers))
            .filter(|numbers| numbers[NUMBER] == 5)
            .map(|numbers| (numbers[JUMP], numbers[JUMP_VLE]));
        let due = (load.iter()).map(|load| (load.start, u32::from(load.vle)));
        if !jumps.clone().eq(due.clone()) {
            let [jumps, due] = [Vec::from_iter(jumps), Vec::from_iter(due)];
            let jumps = format!("demand 3, jumps {jumps:X?}, by the plain list {due:X?}\n");
            return Err(self.report(&jumps));
        }
        if let Some(load) = load {
            let from = (load.start - BASE) as usize;
            self.first[FRONT + from..][..load.bytes.len()].copy_from_slice(&load.bytes);
            if self.first != self.ours.sram {
                let sram = sram_lines(&self.ours.sram, &self.first);
                return Err(self.report(&format!("demand 3, SRAM by the plain list\n{sram}")));
            }
        }
        let opening = picked(items).map_or("none", |port| PORTS[port_number(port)]);
        self.count("opening", opening);
        self.in_one_call(items, &answers)?;
        Ok(answers)
    }

    /// The library's answer to an item of the stream alone.
    fn call_alone(&mut self, item: &Item) -> AnswerForm {
        self.tally.inputs += 1;
        let mut answer = AnswerRoom::ZERO;
        let mark = self.mark(item);
        let alone = &mut self.alone;
        let number = hand_in(&mut self.library, alone, item, mark, RIGHT, &mut answer);
        if answered(number) {
            answer.form()
        } else {
            only(number)
        }
    }

    /// The list again, from where it started, against what the calls for each item left.
    fn in_one_call(&mut self, items: &[Item], due: &[AnswerForm]) -> Result<(), String> {
        let parts = Parts::of(items, &mut self.random);
        let mut answers = Answers::random(parts.answers, &mut self.random);
        let mut expected = answers.clone();
        expected.put(due);
        let listed = &mut self.listed;
        let number = hand_in_list(&mut self.library, listed, &parts, RIGHT, &mut answers);
        let ours = Side {
            number,
            answer: answers.all(),
            kept: &self.listed,
        };
        let by_items = Side {
            number: 0,
            answer: expected.all(),
            kept: &self.ours,
        };
        if ours != by_items {
            let sides = side_by_side("item by item", &ours, &by_items);
            let way = self.library.way;
            return Err(self.report(&format!("in one call, {way}\n{parts}{sides}")));
        }
        self.tally.inputs += 1;
        self.count("list", "0");
        let rows_len = self.rows_len();
        self.compare_rows(self.listed.session, SESSION, rows_len)
    }

    /// A list that is refused. Answers whether it is: one that would be answered is not
    /// handed in.
    pub fn refused_list(&mut self, parts: &Parts, lengths: Lengths) -> Result<bool, String> {
        let number = if lengths.sram != SRAM {
            7
        } else if !Head::of(self.ours.session.lent(lengths.session))
            .is_some_and(|head| head.session.sound())
        {
            8
        } else if !parts.fit() {
            6
        } else {
            return Ok(false);
        };
        let before = self.ours.session;
        let expected = Answers::random(parts.answers, &mut self.random);
        let mut answers = expected.clone();
        let ours = &mut self.ours;
        let ours = hand_in_list(&mut self.library, ours, parts, lengths, &mut answers);
        let way = self.library.way;
        self.compare(
            "due",
            (ours, answers.all()),
            (number, expected.all()),
            || {
                let session = session_line(before.lent(lengths.session));
                format!("{way}\n{parts}{session}{lengths}")
            },
        )?;
        self.count("list", &number.to_string());
        let rows_len = self.rows_len();
        self.rows(lengths.session, rows_len)?;
        Ok(true)
    }

    /// In the session at hand, which is sound: a frame's data, a list's bytes and the SRAM of
    /// each call, of lengths that would be right in 32 bits. All of it is 00 and cannot be
    /// written.
    pub fn long(&mut self, zeros: &mut [u8]) -> Result<(), String> {
        let data = &zeros[..CUT + 8];
        self.too_long("data", 6, |library, session, sram, answer| {
            library.frame(session, sram, 0x013, data, (answer, ANSWER))
        })?;
        self.too_long("bytes", 6, |library, session, sram, answer| {
            let (echo, numbers) = answer.lent_mut(ANSWER);
            library.list(session, sram, &[1], &[0x013], &[8], data, echo, numbers)
        })?;
        let sram = &mut zeros[..CUT + SRAM];
        self.too_long("SRAM", 7, |library, session, _, answer| {
            library.frame(session, sram, 0x011, &[0xA5; 8], (answer, ANSWER))
        })?;
        self.too_long("SRAM", 7, |library, session, _, answer| {
            library.byte(session, sram, 0xA5, 0, (answer, ANSWER))
        })?;
        self.too_long("SRAM", 7, |library, session, _, _| {
            library.list(session, sram, &[], &[], &[], &[], &mut [], &mut [])
        })
    }

    /// A call that gets this number and writes nothing.
    fn too_long<Call>(&mut self, name: &str, due: u8, call: Call) -> Result<(), String>
    where
        Call: FnOnce(&mut Library, (&mut SessionRoom, Length), &mut [u8], &mut AnswerRoom) -> u8,
    {
        let before = AnswerRoom::random(&mut self.random);
        let mut answer = before;
        let Kept { session, sram } = &mut self.ours;
        let number = call(
            &mut self.library,
            (session, SESSION),
            &mut sram[FRONT..][..SRAM],
            &mut answer,
        );
        let way = self.library.way;
        self.compare("due", (number, answer.all()), (due, before.all()), || {
            format!("{way}, too long: {name}\n")
        })
    }

    /// The length of an output for rows, mostly the right one.
    fn rows_len(&mut self) -> usize {
        match self.random.below(12) {
            0 => self.random.below(ROWS_MAX + 1),
            1 => self.random.pick(&[TABLE - 1, TABLE + 1]),
            _ => TABLE,
        }
    }

    /// The rows of the session at hand.
    pub fn rows_at_hand(&mut self) -> Result<(), String> {
        let rows_len = self.rows_len();
        self.rows(SESSION, rows_len)
    }

    /// The rows of the session at hand, with the lengths as told.
    pub fn rows(&mut self, length: Length, rows_len: usize) -> Result<(), String> {
        self.compare_rows(self.ours.session, length, rows_len)
    }

    /// The rows of a session, which must be left as it is.
    fn compare_rows(
        &mut self,
        session: SessionRoom,
        length: Length,
        rows_len: usize,
    ) -> Result<(), String> {
        let mut rows: [u32; ROWS_MAX + AROUND] = array::from_fn(|_| self.random.number() as u32);
        let (mut expected, mut after) = (rows, session);
        let number =
            (self.library).session_rows(&mut after, length, &mut rows[FRONT..][..rows_len]);
        let due = match due_rows(session.lent(length)) {
            Err(number) => number,
            Ok(_) if rows_len != TABLE => 9,
            Ok(rows) => {
                expected[FRONT..][..TABLE].copy_from_slice(&table(rows));
                0
            }
        };
        if (number, rows, after) != (due, expected, session) {
            let mut text = format!("{}, rows_len {rows_len}\n", self.library.way);
            text += &session_line(session.lent(length));
            text += &format!("  {:<16} {:<24} reference\n", "", "ours");
            text += &line("returned", &number.to_string(), &due.to_string());
            text += &lent_lines(&rows, &expected, TABLE, table_name);
            text += &session_lines(&after, &session, both(0, 0));
            return Err(self.report(&text));
        }
        self.tally.inputs += 1;
        self.count("session rows", &number.to_string());
        if number == 8 {
            self.count("rows' 8 for", cause(session.lent(length)));
        } else {
            self.count("entered", ENTRIES[session.number(ENTERED) as usize - 2]);
        }
        if number == 0 {
            let [stage, vle] = [STAGE, VLE].map(|at| session.number(at) as usize);
            self.count("rows in", ROWS_IN[stage][vle]);
        }
        Ok(())
    }

    /// Compares what a call returned and wrote with what it should have.
    fn compare(
        &mut self,
        other: &str,
        ours: (u8, Both),
        expected: (u8, Both),
        input: impl Fn() -> String,
    ) -> Result<(), String> {
        let side = |(number, answer), kept| Side {
            number,
            answer,
            kept,
        };
        let (ours, expected) = (side(ours, &self.ours), side(expected, &self.expected));
        if ours != expected {
            let answers = side_by_side(other, &ours, &expected);
            return Err(self.report(&format!("{}{answers}", input())));
        }
        self.tally.inputs += 1;
        Ok(())
    }

    /// A report of a difference, with all that led to it.
    fn report(&self, difference: &str) -> String {
        let mut text = format!(
            "SRAM of {SRAM} bytes filled from seed {:#x}; since then:\n",
            self.seed
        );
        let mut number = 0;
        for step in &self.trail {
            match step {
                Step::Session(session) => {
                    text += &session_line(session.all());
                    number = 0;
                }
                Step::Item(item) => {
                    number += 1;
                    text += &format!("{number:>5} {}\n", shown(item));
                }
            }
        }
        text + difference
    }

    fn count(&mut self, thing: &str, value: &str) {
        self.tally.count(thing, value, self.at_random);
    }

    /// Counts the calls of the library, when all are made.
    pub fn count_calls(&mut self) {
        self.tally.calls.add(&self.library.calls);
    }

    /// Counts an answer that both gave to an item.
    fn count_call(&mut self, item: &Item, before: &SessionRoom, lengths: Lengths, answer: &Answer) {
        let before = before.lent(lengths.session);
        let port = match item {
            Item::Frame { .. } => port_number(Port::Can),
            Item::Byte { .. } => port_number(Port::Serial),
        };
        self.count(PORTS[port], &answer.number.to_string());
        match answer.number {
            7 => {}
            8 => self.count("8 for", cause(before)),
            _ => {
                let stage = stage_name(&Head::of(before).unwrap().session);
                self.count("stage", stage);
                if matches!(item, Item::Byte { faulty: true, .. }) {
                    self.count("faulty in", stage);
                }
            }
        }
        if answer.number == 9 {
            self.count("9 for", lengths.answer.wrong(ANSWER).unwrap());
        }
        if let Some((_, vle)) = answer.jump {
            self.count("jump", JUMPS[port][usize::from(vle)]);
        }
    }
}

/// The kind of boot_assist_kind, as in a capture, and the data or the byte.
pub fn kind_and_bytes(item: &Item) -> (u8, &[u8]) {
    match item {
        Item::Frame { data, .. } => (1, data),
        Item::Byte { value, faulty } => (if *faulty { 3 } else { 2 }, slice::from_ref(value)),
    }
}

/// One of STAGES.
pub fn stage_name(session: &Session) -> &'static str {
    let by = |port, [can, serial]: [usize; 2]| match port {
        Port::Can => STAGES[can],
        Port::Serial => STAGES[serial],
    };
    match session.stage {
        Stage::Waiting => STAGES[0],
        Stage::Password { .. } => STAGES[1],
        Stage::Header { port } => by(port, [2, 3]),
        Stage::Data { port, .. } => by(port, [4, 5]),
        Stage::Stopped { .. } => STAGES[6],
        Stage::Jumped { .. } => STAGES[7],
    }
}

/// Whether a call with this number writes an answer.
fn answered(number: u8) -> bool {
    number == 1 || moves(number)
}

/// 01, number 6.
pub fn refused_for_form(item: &Item) -> bool {
    match item {
        Item::Frame { identifier, data } => *identifier > 2_047 || data.len() > 8,
        Item::Byte { .. } => false,
    }
}

/// Why this session gets 8.
fn cause(session: Both) -> &'static str {
    if let Some(wrong) = Length::of(session).wrong(SESSION) {
        wrong
    } else if Head::of(session).is_none() {
        NO_SESSION
    } else {
        NOT_SOUND
    }
}

/// The reference's rows of this session. That there is one is asked by the C interface
/// alone.
fn due_rows(session: Both) -> Result<[mmu::Row; ROWS], u8> {
    let head = Head::of(session).ok_or(8)?;
    session_rows(&head.session)
}

fn hand_in(
    library: &mut Library,
    kept: &mut Kept,
    item: &Item,
    mark: u8,
    lengths: Lengths,
    answer: &mut AnswerRoom,
) -> u8 {
    let session = (&mut kept.session, lengths.session);
    let sram = &mut kept.sram[FRONT..][..lengths.sram];
    let answer = (answer, lengths.answer);
    match item {
        Item::Frame { identifier, data } => library.frame(session, sram, *identifier, data, answer),
        Item::Byte { value, .. } => library.byte(session, sram, *value, mark, answer),
    }
}

fn hand_in_list(
    library: &mut Library,
    kept: &mut Kept,
    parts: &Parts,
    lengths: Lengths,
    answers: &mut Answers,
) -> u8 {
    library.list(
        (&mut kept.session, lengths.session),
        &mut kept.sram[FRONT..][..lengths.sram],
        &parts.kinds,
        &parts.identifiers,
        &parts.counts,
        &parts.bytes,
        &mut answers.echoes[FRONT..][..parts.answers.bytes],
        &mut answers.numbers[FRONT..][..parts.answers.numbers],
    )
}

fn shown(item: &Item) -> String {
    match item {
        Item::Frame { identifier, data } => {
            format!("frame {identifier:#05x}, {}:{}", data.len(), hex(data))
        }
        Item::Byte { value, faulty } => {
            let kind = if *faulty { "faulty" } else { "clean" };
            format!("{kind} byte {value:02X}")
        }
    }
}

/// The password and the held bytes; the stage with port and count, what the stage has, how
/// serial boot was entered.
fn session_line(session: Both) -> String {
    list_line("session", session, [&[HELD], &[START, ENTERED]])
}

fn session_lines(ours: &SessionRoom, expected: &SessionRoom, shown: Length) -> String {
    room_lines(ours.all(), expected.all(), shown, SESSION_NAMES)
}

/// Both sides, with a star where they differ; of what is around the lists, of a list's
/// answers and of SRAM only what differs. What a call must leave alone has its content
/// before the call.
fn side_by_side(other: &str, ours: &Side, expected: &Side) -> String {
    let mut text = format!("  {:<16} {:<24} {other}\n", "", "ours");
    let number = |side: &Side| side.number.to_string();
    text += &line("returned", &number(ours), &number(expected));
    let [left, right] = [ours, expected].map(|side| side.answer);
    let of_one_item = left.1.len() == ANSWER.numbers + AROUND;
    if of_one_item {
        text += &room_lines(left, right, ANSWER, ANSWER_NAMES);
    }
    text += &session_lines(&ours.kept.session, &expected.kept.session, SESSION);
    if !of_one_item && !left.1.is_empty() {
        text += &item_lines(["echoes", other], left.0, right.0, ANSWER.bytes);
        text += &item_lines(["answers", other], left.1, right.1, ANSWER.numbers);
    }
    text + &sram_lines(&ours.kept.sram, &expected.kept.sram)
}

/// The items whose echoes or numbers differ, of which each has `count`. Before the first is
/// what is in front of them.
fn item_lines<T: fmt::Debug + PartialEq>(
    [name, other]: [&str; 2],
    ours: &[T],
    expected: &[T],
    count: usize,
) -> String {
    let items = |list| {
        let (front, lent): (&[T], &[T]) = <[T]>::split_at(list, FRONT);
        iter::once(front).chain(lent.chunks(count))
    };
    let differ: Vec<_> = (0..)
        .zip(items(ours).zip(items(expected)))
        .filter(|(_, (ours, expected))| ours != expected)
        .collect();
    let mut text = format!("  {name} that differ: {}\n", differ.len());
    for (number, (ours, expected)) in differ.iter().take(8) {
        text += &format!("* {number}, ours: {ours:X?}\n");
        text += &format!("* {number}, {other}: {expected:X?}\n");
    }
    text
}

fn sram_lines(ours: &[u8], expected: &[u8]) -> String {
    let differ: Vec<usize> = (0..ours.len())
        .filter(|&index| ours[index] != expected[index])
        .collect();
    let mut text = format!("  SRAM bytes that differ: {}\n", differ.len());
    for &index in differ.iter().take(16) {
        let [left, right] = [ours, expected].map(|sram| format!("{:02X}", sram[index]));
        let address = BASE as usize + index - FRONT;
        text += &line(&format!("{address:#x}"), &left, &right);
    }
    text
}

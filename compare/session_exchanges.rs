//! Exchanges that the papers print, with their numbers written out: document 01, "Trial
//! exchanges", "Slips we have seen" and the capture's items; document 02, E2; document 002,
//! Tables 7 to 14.

use crate::c_numbers::{
    Names, ANSWER_NAMES, COUNT, ECHO_IDENTIFIER, ECHO_LENGTH, HELD, JUMP, JUMP_VLE, NUMBER,
    SESSION_NAMES,
};
use crate::differences::form_lines;
use crate::forms::{AnswerForm, Both, Length, SessionForm, ANSWER, SESSION};
use crate::generators::{clean, faulty, frame, header, PUBLIC};
use crate::harness::Harness;
use crate::random::Random;
use reference::session::Item;

/// An item and the answer that is printed.
pub type Turn = (Item, AnswerForm);

/// Items from a fresh session, with what is printed of them.
pub struct Exchange {
    pub name: &'static str,
    selected: [u8; 8],
    pub turns: Vec<Turn>,
    /// The session after them.
    pub after: SessionForm,
    /// What SRAM has after them, from its first byte on.
    pub loaded: Vec<u8>,
}

const SERIAL_DIRECTLY: u32 = 2;
const CAN: u32 = 0;
const SERIAL: u32 = 1;

/// The answer to a taken item; the identifier is 0 for serial.
fn echoed(number: u32, identifier: u32, data: &[u8]) -> AnswerForm {
    let mut answer = AnswerForm::ZERO;
    answer.bytes[..data.len()].copy_from_slice(data);
    answer.numbers[NUMBER] = number;
    answer.numbers[ECHO_IDENTIFIER] = identifier;
    answer.numbers[ECHO_LENGTH] = data.len() as u32;
    answer
}

const IGNORED: AnswerForm = AnswerForm {
    bytes: [0; 8],
    numbers: [1, 0, 0, 0, 0],
};
const FAULTY: AnswerForm = AnswerForm {
    bytes: [0; 8],
    numbers: [12, 0, 0, 0, 0],
};

/// `data` by one CAN frame or by clean serial bytes; the last item gets `number`.
fn sent(port: u32, identifier: u32, data: &[u8], number: u32) -> Vec<Turn> {
    if port == CAN {
        let answer = echoed(number, identifier - 0x010, data);
        return vec![(frame(identifier, data), answer)];
    }
    let last = data.len() - 1;
    let turn = |(index, &byte)| {
        let number = if index == last { number } else { 0 };
        (clean(byte), echoed(number, 0, &[byte]))
    };
    data.iter().enumerate().map(turn).collect()
}

/// A session that holds no password or header bytes.
fn session(
    selected: [u8; 8],
    stage: u32,
    port: u32,
    [start, vle, next, owed, refusal]: [u32; 5],
) -> SessionForm {
    let [a, b, c, d, e, f, g, h] = selected;
    #[rustfmt::skip]
    let session = SessionForm {
        bytes: [a, b, c, d, e, f, g, h, 0, 0, 0, 0, 0, 0, 0, 0],
        numbers: [stage, port, 0, start, vle, next, owed, refusal, SERIAL_DIRECTLY],
    };
    session
}

/// An exchange of which nothing is printed about SRAM.
fn exchange(name: &'static str, selected: [u8; 8], turns: &[Turn], after: SessionForm) -> Exchange {
    Exchange {
        name,
        selected,
        turns: turns.to_vec(),
        after,
        loaded: Vec::new(),
    }
}

impl Exchange {
    pub fn items(&self) -> Vec<Item> {
        self.turns.iter().map(|(item, _)| item.clone()).collect()
    }

    /// Runs the exchange, and compares with what is printed.
    pub fn run(&self, harness: &mut Harness) -> Result<(), String> {
        let (name, items) = (self.name, self.items());
        harness.fill();
        let answers = harness
            .run_fresh(SERIAL_DIRECTLY, self.selected, &items)
            .map_err(|difference| format!("{name}\n{difference}"))?;
        for (index, (answer, (_, printed))) in answers.iter().zip(&self.turns).enumerate() {
            if answer != printed {
                let lines = lines(answer.all(), printed.all(), ANSWER, ANSWER_NAMES);
                return Err(format!(
                    "{name}, item {} of\n{items:X?}\n{lines}",
                    index + 1
                ));
            }
        }
        let session = harness.session();
        if session != self.after {
            let lines = lines(session.all(), self.after.all(), SESSION, SESSION_NAMES);
            return Err(format!("{name}, the session after\n{items:X?}\n{lines}"));
        }
        if !harness.sram().starts_with(&self.loaded) {
            return Err(format!("{name}: SRAM does not have the program\n"));
        }
        Ok(())
    }
}

fn lines(ours: Both, printed: Both, shown: Length, names: Names) -> String {
    let title = format!("  {:<16} {:<24} printed\n", "", "ours");
    title + &form_lines(ours, printed, shown, names)
}

/// 01, the cases P1 to P9, "Run:", the slips, and the items of the capture.
pub fn trials() -> Vec<Exchange> {
    let mut trials = Vec::new();
    #[rustfmt::skip]
    let headers: [(&str, [u8; 8], u32, [u32; 3]); 11] = [
        // Start, VLE and length of those that are accepted.
        ("P1", [0x40, 0x00, 0x00, 0x00, 0x80, 0x00, 0x14, 0x00], 0, [0x4000_0000, 1, 5_120]),
        ("P2", [0x40, 0x00, 0x00, 0x00, 0x00, 0x01, 0x00, 0x00], 0, [0x4000_0000, 0, 65_536]),
        ("P3", [0x40, 0x00, 0x00, 0x00, 0x00, 0x01, 0x00, 0x01], 4, [0; 3]),
        ("P4", [0x40, 0x00, 0xFF, 0xFC, 0x00, 0x00, 0x00, 0x04], 0, [0x4000_FFFC, 0, 4]),
        ("P5", [0x40, 0x00, 0xFF, 0xFC, 0x00, 0x00, 0x00, 0x05], 4, [0; 3]),
        ("P6", [0x40, 0x00, 0x00, 0x03, 0x00, 0x00, 0x00, 0x01], 0, [0x4000_0000, 0, 1]),
        ("P7", [0x3F, 0xFF, 0xFF, 0xFF, 0x00, 0x00, 0x00, 0x01], 4, [0; 3]),
        ("P8", [0x00, 0x00, 0x00, 0x00, 0x00, 0x00, 0x00, 0x00], 3, [0; 3]),
        // Dropping the low address bits after the range test.
        ("slip", [0x40, 0x00, 0x00, 0x01, 0x00, 0x01, 0x00, 0x00], 0, [0x4000_0000, 0, 65_536]),
        ("slip", [0x40, 0x00, 0xFF, 0xFF, 0x80, 0x00, 0x00, 0x04], 0, [0x4000_FFFC, 1, 4]),
        ("slip", [0x40, 0x00, 0xFF, 0xFF, 0x80, 0x00, 0x00, 0x05], 4, [0; 3]),
    ];
    for port in [CAN, SERIAL] {
        let password = sent(port, 0x011, &PUBLIC, 0);
        for (name, header, number, [start, vle, length]) in headers {
            let turns = [&password[..], &sent(port, 0x012, &header, number)].concat();
            let after = match number {
                0 => session(PUBLIC, 3, port, [start, vle, start, length, 0]),
                _ => session(PUBLIC, 4, 0, [0, 0, 0, 0, number]),
            };
            trials.push(exchange(name, PUBLIC, &turns, after));
        }
        for (name, password) in [
            ("P9", *b"\xFE\xED\x00\x00\xCA\xFE\xBE\xEF"),
            // Passing as the flash holds the same.
            ("slip", *b"\xFF\xFF\xFA\xCE\xCA\xFE\xBE\xEF"),
            ("slip", *b"\xFE\xED\xFF\xFF\xCA\xFE\xBE\xEF"),
            ("slip", *b"\xFE\xED\xFA\xCE\xFF\xFF\xBE\xEF"),
            ("slip", *b"\xFE\xED\xFA\xCE\xCA\xFE\xFF\xFF"),
        ] {
            let turns = sent(port, 0x011, &password, 2);
            let after = session(password, 4, 0, [0, 0, 0, 0, 2]);
            trials.push(exchange(name, password, &turns, after));
        }
    }

    // Run: owed 3 and a 0x013 of 4 bytes, of which no part is stored either.
    let turns = [
        sent(CAN, 0x011, &PUBLIC, 0),
        sent(CAN, 0x012, &header(0x4000_0000, 8), 0),
        sent(CAN, 0x013, &[1, 2, 3, 4, 5], 0),
        vec![(frame(0x013, &[6, 7, 8, 9]), IGNORED)],
    ]
    .concat();
    let after = session(PUBLIC, 3, CAN, [0x4000_0000, 0, 0x4000_0005, 3, 0]);
    trials.push(exchange("owed 3, 4 bytes", PUBLIC, &turns, after));

    // Run: a second 0x011.
    let second = vec![(frame(0x011, &PUBLIC), IGNORED)];
    let turns = [
        sent(CAN, 0x011, &PUBLIC, 0),
        second.clone(),
        sent(CAN, 0x012, &header(0x4000_0000, 8), 0),
        second,
    ]
    .concat();
    let after = session(PUBLIC, 2, CAN, [0; 5]);
    trials.push(exchange("a second 0x011", PUBLIC, &turns[..2], after));
    let after = session(PUBLIC, 3, CAN, [0x4000_0000, 0, 0x4000_0000, 8, 0]);
    trials.push(exchange("a second 0x011", PUBLIC, &turns, after));

    // A faulty byte does not open the serial port.
    let turns = [
        vec![(faulty(0xFE), IGNORED)],
        sent(CAN, 0x011, &PUBLIC, 0),
        vec![(clean(0xFE), IGNORED)],
    ]
    .concat();
    let after = session(PUBLIC, 0, 0, [0; 5]);
    trials.push(exchange("faulty first", PUBLIC, &turns[..1], after));
    let after = session(PUBLIC, 2, CAN, [0; 5]);
    trials.push(exchange("faulty first", PUBLIC, &turns, after));

    trials.extend(faulty_bytes());

    // The items of the capture.
    let turns = [
        sent(SERIAL, 0, &[0xFE], 0),
        vec![(frame(0x012, &[0xAA, 0xBB]), IGNORED)],
    ]
    .concat();
    let mut after = session(PUBLIC, 1, SERIAL, [0; 5]);
    after.numbers[COUNT] = 1;
    after.bytes[HELD] = 0xFE;
    trials.push(exchange("the capture", PUBLIC, &turns, after));
    trials
}

/// 02, E2: a load of 2 bytes, with VLE and without, in which a faulty byte comes behind each
/// number of its items, and another one last. By CAN it is ignored wherever it comes; by
/// serial before the opening and behind the jump.
fn faulty_bytes() -> Vec<Exchange> {
    let mut exchanges = Vec::new();
    for (port, vle) in [(CAN, 0), (CAN, 1), (SERIAL, 0), (SERIAL, 1)] {
        let mut turns = [
            sent(port, 0x011, &PUBLIC, 0),
            sent(port, 0x012, &header(0x4000_0004, vle << 31 | 2), 0),
            sent(port, 0x013, &[7, 8], 5),
        ]
        .concat();
        let (_, last) = turns.last_mut().unwrap();
        last.numbers[JUMP] = 0x4000_0004;
        last.numbers[JUMP_VLE] = vle;
        let jumped = session(PUBLIC, 5, 0, [0x4000_0004, vle, 0, 0, 0]);
        for count in 0..=turns.len() {
            let (before, behind) = turns.split_at(count);
            let stops = port == SERIAL && (1..turns.len()).contains(&count);
            let (answers, after) = if stops {
                let kept = if count < 16 { 0 } else { vle };
                let ignored = behind.iter().map(|(item, _)| (item.clone(), IGNORED));
                let stopped = session(PUBLIC, 4, 0, [0, kept, 0, 0, 12]);
                (
                    [vec![(faulty(0xFE), FAULTY)], ignored.collect()].concat(),
                    stopped,
                )
            } else {
                ([&[(faulty(0xFE), IGNORED)], behind].concat(), jumped)
            };
            let turns = [before, &answers, &[(faulty(0xFE), IGNORED)]].concat();
            exchanges.push(exchange("a faulty byte", PUBLIC, &turns, after));
        }
    }
    exchanges
}

/// 002: CAN without VLE (Tables 7 to 12) and with it (Table 14), and serial (Table 13).
/// The echo is the data as received: Table 8 misprints one byte of it.
pub fn document_002() -> Vec<Exchange> {
    let mut random = Random::new(0x1400);
    let program: Vec<u8> = (0..0x1400).map(|_| random.byte()).collect();
    let exchange = |(name, port, size, vle)| {
        let header = [0x40, 0x00, 0x00, 0x00, size, 0x00, 0x14, 0x00];
        let mut turns = [sent(port, 0x011, &PUBLIC, 0), sent(port, 0x012, &header, 0)].concat();
        for data in program.chunks(8) {
            turns.extend(sent(port, 0x013, data, 0));
        }
        let (_, last) = turns.last_mut().unwrap();
        last.numbers[NUMBER] = 5;
        last.numbers[JUMP] = 0x4000_0000;
        last.numbers[JUMP_VLE] = vle;
        Exchange {
            name,
            selected: PUBLIC,
            turns,
            after: session(PUBLIC, 5, 0, [0x4000_0000, vle, 0, 0, 0]),
            loaded: program.clone(),
        }
    };
    let exchanges = [
        ("002, Tables 7 to 12", CAN, 0x00, 0),
        ("002, Table 14", CAN, 0x80, 1),
        ("002, Table 13", SERIAL, 0x80, 1),
    ];
    exchanges.into_iter().map(exchange).collect()
}

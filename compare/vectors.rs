//! Fixed captures: those that the papers give, and others about each rule.

use crate::c_numbers::{echo, NUMBER, REFUSAL, STAGE, START};
use crate::generators::{clean, faulty, frame, header, load, PUBLIC};
use crate::harness::{BASE, SRAM};
use crate::replay::Case;
use crate::replay_captures::{can, capture_of, head, record, reset, WINDOW};
use crate::replay_program::Feeding;
use crate::session_exchanges::{self, Exchange};
use reference::session::{Item, Port};

/// 01, "The truck's capture file": the capture.
const EXAMPLE: [u8; 13] = *b"\x00\x03\x01\x02\xFE\x00\x06\x01\x01\x00\x12\xAA\xBB";

/// The short ones first, so that the first difference is likely in one of them.
pub fn cases() -> Vec<Case> {
    let mut cases = Vec::new();
    printed(&mut cases, "empty", &[], "end waiting\n");
    let text = "1 0 FE\n2 1 -\nend password\n";
    printed(&mut cases, "example", &EXAMPLE, text);
    printed_exchanges(&mut cases, &session_exchanges::trials());
    heads(&mut cases);
    resets(&mut cases);
    cuts(&mut cases);
    windows(&mut cases);
    printed_exchanges(&mut cases, &session_exchanges::document_002());
    loads(&mut cases);
    cases
}

fn case(name: impl Into<String>, capture: Vec<u8>) -> Case {
    Case {
        name: name.into(),
        capture,
        feeding: Feeding::Whole,
        printed: None,
    }
}

/// A capture with the text that the papers give, handed in whole and byte by byte.
fn printed(cases: &mut Vec<Case>, name: &str, capture: &[u8], text: &str) {
    for feeding in [Feeding::Whole, Feeding::Pieces { most: 1, seed: 0 }] {
        cases.push(Case {
            feeding,
            printed: Some(text.into()),
            ..case(name, capture.to_vec())
        });
    }
}

/// The program has the public password. What is printed of exchanges with another holds
/// for it too: they send a password that is not legal, and nothing behind it.
fn printed_exchanges(cases: &mut Vec<Case>, exchanges: &[Exchange]) {
    for exchange in exchanges {
        let capture = capture_of(&exchange.items());
        printed(cases, exchange.name, &capture, &text(exchange));
    }
}

/// The text of an exchange, by what is printed of it.
fn text(exchange: &Exchange) -> String {
    let mut text = String::new();
    for (count, (_, answer)) in (1..).zip(&exchange.turns) {
        let echo = match echo(answer) {
            [] => "-".into(),
            echo => String::from_iter(echo.iter().map(|byte| format!("{byte:02X}"))),
        };
        text += &format!("{count} {} {echo}\n", answer.numbers[NUMBER]);
    }
    let after = &exchange.after.numbers;
    let end = match after[STAGE] {
        0 => "waiting".into(),
        1 => "password".into(),
        2 => "header".into(),
        3 => "data".into(),
        4 => format!("stopped {}", after[REFUSAL]),
        _ => format!("jump {:08X}", after[START]),
    };
    text + &format!("end {end}\n")
}

/// All of SRAM over both ports, and record numbers of six digits.
fn loads(cases: &mut Vec<Case>) {
    let data: Vec<u8> = (0..SRAM).map(|index| (index % 251) as u8).collect();
    let header = header(BASE, SRAM as u32);
    for (name, port, bytes) in [
        ("all of SRAM, CAN by 8", Port::Can, 8),
        ("all of SRAM, CAN by 7", Port::Can, 7),
        ("all of SRAM, serial", Port::Serial, 1),
    ] {
        let mut items = load(port, &PUBLIC, &header, &data, bytes);
        items.extend([frame(0x013, &[1]), clean(1)]);
        cases.push(case(name, capture_of(&items)));
    }
    cases.push(case("many resets", reset().repeat(100_001)));
}

/// Sessions over each port: one that jumps, and one that stops for each cause. All are
/// handed more items than they take.
fn sessions() -> Vec<(String, Vec<Item>)> {
    let mut wrong = PUBLIC;
    wrong[7] ^= 1;
    let data = b"\x00\x01\x0A\xA0\xFF\x7F123456";
    let mut sessions = Vec::new();
    for port in [Port::Can, Port::Serial] {
        for (name, password, header) in [
            ("jumps", PUBLIC, header(BASE + 8, 1 << 31 | 12)),
            ("stops for 2", wrong, header(BASE + 8, 12)),
            ("stops for 3", PUBLIC, header(BASE + 8, 0)),
            ("stops for 4", PUBLIC, header(BASE + 8, SRAM as u32)),
        ] {
            let mut items = load(port, &password, &header, data, 5);
            items.extend([frame(0x013, &[0xA5]), clean(0xA5)]);
            sessions.push((format!("{port:?}, {name}"), items));
        }
    }
    sessions
}

/// A reset after each number of items of each session, and then a load over each port.
fn resets(cases: &mut Vec<Case>) {
    for (name, items) in sessions() {
        for count in 0..=items.len() {
            for port in [Port::Can, Port::Serial] {
                let after = load(port, &PUBLIC, &header(BASE, 3), &[7, 8, 9], 2);
                let before = capture_of(&items[..count]);
                let capture = [before, reset(), capture_of(&after)].concat();
                cases.push(case(format!("{name}, reset after {count} items"), capture));
            }
        }
    }
}

/// A capture with all these sessions, cut at every byte.
fn cuts(cases: &mut Vec<Case>) {
    let mut capture = capture_of(&[faulty(0xFE), frame(0x012, &PUBLIC), frame(0x7FF, &[])]);
    for (_, items) in sessions() {
        capture.extend(capture_of(&items));
        capture.extend(reset());
    }
    for cut in 0..=capture.len() {
        cases.push(case("cut", capture[..cut].to_vec()));
    }
}

/// Good and bad records behind 01's capture, and with it behind them: kinds with every L
/// about the right ones, every version, and identifiers.
fn heads(cases: &mut Vec<Case>) {
    let mut put = |name: String, record: &[u8]| {
        cases.push(case(name, [&EXAMPLE, record, &EXAMPLE].concat()));
    };
    for kind in [0, 1, 2, 3, 4, 5, 6, 0x12, 0x7F, 0x81, 0xFF] {
        for length in (0..=16).chain([0x0102, 0x0103, 0x0104, 0x0300, 0x0C00, 0xFFFF]) {
            // An identifier that is good, and data.
            let mut record = head(length, 1, kind);
            record.extend([0x00, 0x12]);
            record.resize(2 + usize::from(length), 0xA5);
            put(format!("kind {kind}, L {length}"), &record);
        }
    }
    for version in 0..=255 {
        let kind = 1 + version % 4;
        let body = match kind {
            1 => &b"\x00\x13\xA5"[..],
            4 => &[],
            _ => &[0xED],
        };
        put(format!("version {version}"), &record(version, kind, body));
    }
    let beyond = [2_048, 0x811, 0xFFF, 0x1011, 0x8012, 0xF813, 65_535];
    for identifier in [0, 2_047].into_iter().chain(beyond) {
        for count in [0, 1, 7, 8, 9] {
            let record = can(identifier, &[0xA5; 9][..count]);
            put(format!("identifier {identifier}, {count} bytes"), &record);
        }
    }
}

/// Records at each place about the end of what the program holds at a time: whole, cut
/// at every byte, and bad.
fn windows(cases: &mut Vec<Case>) {
    let password = can(0x011, &PUBLIC);
    for at in WINDOW - 16..=WINDOW + 1 {
        // Records of 5 bytes and of 4.
        let fives = at % 4;
        let faulty = capture_of(&[faulty(0xFE)]).repeat(fives);
        let before = [faulty, reset().repeat((at - 5 * fives) / 4)].concat();
        for cut in 0..=password.len() {
            let capture = [&before, &password[..cut]].concat();
            cases.push(case(format!("{cut} bytes at {at}"), capture));
        }
        for next in [&password, &can(0x800, &PUBLIC), &record(2, 4, &[])] {
            let capture = [&before[..], next, &password, &reset()].concat();
            cases.push(case(format!("records at {at}"), capture));
        }
    }
}

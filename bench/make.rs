//! Makes a capture to be timed: `make PORTS BYTES`, with PORTS `serial`, `CAN` or `mixed`.
//! Sessions follow one another, with a reset behind each, until there are BYTES bytes, and go
//! to standard output. The same arguments give the same capture.

use std::env;
use std::io::{self, Write};
use std::process::ExitCode;

const PUBLIC: [u8; 8] = *b"\xFE\xED\xFA\xCE\xCA\xFE\xBE\xEF";
const BASE: u32 = 0x4000_0000;
const SRAM: u32 = 65_536;

fn main() -> ExitCode {
    let arguments: Vec<_> = env::args().skip(1).collect();
    let [ports, bytes] = &arguments[..] else {
        return usage();
    };
    let (Ok(bytes), "serial" | "CAN" | "mixed") = (bytes.parse(), ports.as_str()) else {
        return usage();
    };
    let mut capture = Capture {
        bytes: Vec::new(),
        mixed: ports == "mixed",
        state: 1,
    };
    while capture.bytes.len() < bytes {
        if capture.mixed {
            capture.mixed_session();
        } else {
            capture.load(ports == "CAN", SRAM);
        }
        capture.record(4, &[]);
    }
    if let Err(error) = io::stdout().write_all(&capture.bytes) {
        eprintln!("make: {error}");
        return ExitCode::FAILURE;
    }
    ExitCode::SUCCESS
}

fn usage() -> ExitCode {
    eprintln!("usage: make serial|CAN|mixed BYTES");
    ExitCode::from(2)
}

struct Capture {
    bytes: Vec<u8>,
    /// Whether items that are ignored come in between.
    mixed: bool,
    state: u64,
}

impl Capture {
    /// A random number below `n` (xorshift).
    fn below(&mut self, n: u32) -> u32 {
        self.state ^= self.state << 13;
        self.state ^= self.state >> 7;
        self.state ^= self.state << 17;
        (((self.state >> 32) * u64::from(n)) >> 32) as u32
    }

    fn record(&mut self, kind: u8, body: &[u8]) {
        let length = 2 + body.len() as u16;
        self.bytes.extend(length.to_be_bytes());
        self.bytes.extend([1, kind]);
        self.bytes.extend(body);
    }

    fn frame(&mut self, identifier: u16, data: &[u8]) {
        self.record(1, &[&identifier.to_be_bytes(), data].concat());
    }

    /// Data by one CAN frame or by clean serial bytes.
    fn send(&mut self, can: bool, identifier: u16, data: &[u8]) {
        if can {
            self.frame(identifier, data);
            self.other_item(can);
        } else {
            for &byte in data {
                self.record(2, &[byte]);
                self.other_item(can);
            }
        }
    }

    /// Now and then an item that is ignored: one of the other port, which a faulty byte is to CAN.
    fn other_item(&mut self, can: bool) {
        if !self.mixed {
            return;
        }
        match self.below(16) {
            0 if can => self.record(3, &[0xA5]),
            1 if can => self.record(2, &[0xA5]),
            0 | 1 => self.frame(0x013, &[0xA5; 5]),
            _ => {}
        }
    }

    /// Password, header and data of a load of 1 to `most` bytes.
    fn load(&mut self, can: bool, most: u32) {
        let length = 1 + self.below(most);
        let start = BASE + self.below(SRAM - length + 1) / 4 * 4;
        let header = u64::from(start) << 32 | u64::from(length);
        self.send(can, 0x011, &PUBLIC);
        self.send(can, 0x012, &header.to_be_bytes());
        let data: Vec<u8> = (0..length).map(|_| self.below(256) as u8).collect();
        for data in data.chunks(8) {
            self.send(can, 0x013, data);
        }
    }

    /// A short load over either port; one in eight comes after a wrong password.
    fn mixed_session(&mut self) {
        let can = self.below(2) == 0;
        if self.below(8) == 0 {
            self.send(can, 0x011, &[7; 8]);
        }
        self.load(can, 600);
    }
}

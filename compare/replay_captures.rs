//! Captures: the records of items and of resets, and random captures, shaped like the
//! protocol and then damaged.

use crate::generators::{Maker, PUBLIC};
use crate::harness::{kind_and_bytes, refused_for_form};
use reference::session::Item;

/// How much of a capture the program under test holds at a time.
pub const WINDOW: usize = 8_192;

/// The beginning of a record, with any L.
pub fn head(length: u16, version: u8, kind: u8) -> Vec<u8> {
    [&length.to_be_bytes()[..], &[version, kind]].concat()
}

/// A record with the L that its body asks for, good or not.
pub fn record(version: u8, kind: u8, body: &[u8]) -> Vec<u8> {
    [&head(2 + body.len() as u16, version, kind), body].concat()
}

/// The record of a CAN frame, good or not.
pub fn can(identifier: u16, data: &[u8]) -> Vec<u8> {
    record(1, 1, &[&identifier.to_be_bytes(), data].concat())
}

pub fn reset() -> Vec<u8> {
    record(1, 4, &[])
}

/// The record of an item; of an identifier its low 16 bits.
fn record_of(item: &Item) -> Vec<u8> {
    let (kind, bytes) = kind_and_bytes(item);
    match item {
        Item::Frame { identifier, .. } => can(*identifier as u16, bytes),
        Item::Byte { .. } => record(1, kind, bytes),
    }
}

pub fn capture_of(items: &[Item]) -> Vec<u8> {
    items.iter().flat_map(record_of).collect()
}

/// A random capture. One in three is damaged.
pub fn random_capture(maker: &mut Maker) -> Vec<u8> {
    let mut records = random_records(maker);
    match maker.random.below(6) {
        0 if !records.is_empty() => {
            let at = maker.random.below(records.len());
            bend_record(maker, &mut records[at]);
            records.concat()
        }
        1 => {
            let mut capture = records.concat();
            for _ in 0..maker.random.pick(&[1, 1, 1, 2]) {
                bend_bytes(maker, &mut capture);
            }
            capture
        }
        _ => records.concat(),
    }
}

/// Lists of items with resets between them and now and then within one. One capture in
/// 200 is longer than a window.
fn random_records(maker: &mut Maker) -> Vec<Vec<u8>> {
    let lists = maker.random.pick(&[1, 1, 1, 2, 2, 3, 4]);
    let length = match maker.random.below(200) {
        0 => WINDOW + 1 + maker.random.below(3 * WINDOW),
        _ => 0,
    };
    // Items that are refused for their form end the reading, so they are mostly left out.
    let refused = maker.random.chance(8);
    let mut records = Vec::new();
    for list in 1.. {
        let items = if length > 0 && maker.random.chance(4) {
            maker.list_of(PUBLIC, 4_000, 3_000)
        } else {
            maker.list(PUBLIC)
        };
        let items = items
            .iter()
            .filter(|item| refused || !refused_for_form(item));
        records.extend(items.map(record_of));
        if list >= lists && records.iter().map(Vec::len).sum::<usize>() >= length {
            break;
        }
        records.push(reset());
    }
    if maker.random.chance(6) {
        let at = maker.random.below(records.len() + 1);
        records.insert(at, reset());
    }
    records
}

/// One thing about a record made another: L, version or kind alone, the identifier, or
/// the body with the L that it then asks for.
fn bend_record(maker: &mut Maker, bent: &mut Vec<u8>) {
    let kind = bent[3];
    match maker.random.below(8) {
        0 => bent[0] = maker.random.pick(&[0x01, 0x03, 0x80, 0xFF]),
        1 => bent[1] = maker.random.below(20) as u8,
        2 => bent[2] = maker.random.pick(&[0x00, 0x02, 0x03, 0x10, 0x81, 0xFF]),
        3 => bent[3] = maker.random.pick(&[0, 1, 2, 3, 4, 5, 6, 0x81, 0xFF]),
        4 if kind == 1 => bent[4] |= maker.random.pick(&[0x08, 0x10, 0x80, 0xF8]),
        4 | 5 => {
            let count = maker.random.below(14);
            let body = maker.bytes(count);
            *bent = record(1, kind, &body);
        }
        6 => {
            bent.push(maker.random.byte());
            *bent = record(1, kind, &bent[4..]);
        }
        _ => {
            bent.pop();
            *bent = record(1, kind, bent.get(4..).unwrap_or_default());
        }
    }
}

/// A byte made another, the capture cut, bytes taken out or put in, or random bytes to
/// its end.
fn bend_bytes(maker: &mut Maker, capture: &mut Vec<u8>) {
    let at = maker.random.below(capture.len() + 1);
    let count = 1 + maker.random.below(14);
    match (maker.random.below(6), capture.get_mut(at)) {
        (0, Some(byte)) => *byte = maker.random.byte(),
        (1, Some(byte)) => *byte ^= 1 << maker.random.below(8),
        (0..=2, _) => capture.truncate(at),
        (3, _) => drop(capture.drain(at..capture.len().min(at + count))),
        (4, _) => drop(capture.splice(at..at, maker.bytes(count))),
        _ => {
            // Mostly such as stand in the beginning of a record.
            for byte in &mut capture[at..] {
                let any = maker.random.byte();
                *byte = maker.random.pick(&[0, 0, 1, 1, 2, 3, 3, 4, 6, 12, any]);
            }
        }
    }
}

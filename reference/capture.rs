//! The capture reader: document 01, "The truck's capture file".

use crate::session::Lent;

/// What the reader answers.
#[derive(Clone, Copy, PartialEq, Eq, Debug)]
pub enum Read<'a> {
    /// The record is bad or cut, or the starting place is past the end.
    Bad,
    /// The starting place is the end of the capture.
    End,
    Record {
        /// `CAN`, `CLEAN`, `FAULTY` or `RESET`.
        kind: u8,
        /// A part of the capture: all that follows the kind byte in the record.
        body: &'a [u8],
        /// Where the next record starts.
        next: usize,
    },
}

/// The kinds: a CAN frame, a clean and a faulty serial byte, a reset.
pub const CAN: u8 = 1;
pub const CLEAN: u8 = 2;
pub const FAULTY: u8 = 3;
pub const RESET: u8 = 4;

const VERSION: u8 = 1;

/// The longest good record: two bytes of length and a CAN frame's L of 12. Any record
/// can be judged by this many bytes.
pub(crate) const LONGEST: usize = 2 + 12;

impl Read<'_> {
    /// 01, "What the head says back".
    pub fn number(&self) -> u8 {
        match self {
            Read::Bad => 10,
            Read::End | Read::Record { .. } => 0,
        }
    }
}

/// Reads the record that starts at `start`, which may be any number.
pub fn read(capture: &[u8], start: usize) -> Read<'_> {
    match capture.get(start..) {
        None => Read::Bad,
        Some([]) => Read::End,
        Some(rest) => match record(rest) {
            None => Read::Bad,
            Some((kind, body)) => Read::Record {
                kind,
                body,
                next: start + 4 + body.len(),
            },
        },
    }
}

/// The kind and the body of the record at the beginning of `rest`, if it is whole and
/// keeps the rules.
fn record(rest: &[u8]) -> Option<(u8, &[u8])> {
    let (length, rest) = rest.split_first_chunk()?;
    let length = usize::from(u16::from_be_bytes(*length));
    let [VERSION, kind, body @ ..] = rest.get(..length)? else {
        return None;
    };
    let allowed = match item(*kind, body) {
        Some(Lent::Frame { identifier, data }) => identifier <= 2_047 && data.len() <= 8,
        Some(Lent::Byte { .. }) => true,
        None => *kind == RESET && body.is_empty(),
    };
    allowed.then_some((*kind, body))
}

/// The item of a record. A reset has none.
pub(crate) fn item(kind: u8, body: &[u8]) -> Option<Lent<'_>> {
    match (kind, body) {
        (CAN, [high, low, data @ ..]) => Some(Lent::Frame {
            identifier: u16::from_be_bytes([*high, *low]).into(),
            data,
        }),
        (CLEAN | FAULTY, [value]) => Some(Lent::Byte {
            value,
            faulty: kind == FAULTY,
        }),
        _ => None,
    }
}

#[cfg(test)]
pub(crate) mod tests {
    use super::*;
    use crate::session::tests::Xorshift;

    /// 01's example: FE as a clean byte, then a frame 0x012 with AA BB.
    pub(crate) const EXAMPLE: [u8; 13] = *b"\x00\x03\x01\x02\xFE\x00\x06\x01\x01\x00\x12\xAA\xBB";

    /// A record with L as the bytes after it ask, good or not.
    pub(crate) fn bytes(version: u8, kind: u8, body: &[u8]) -> Vec<u8> {
        let length = 2 + body.len() as u16;
        [&length.to_be_bytes()[..], &[version, kind], body].concat()
    }

    pub(crate) fn can(identifier: u16, data: &[u8]) -> Vec<u8> {
        bytes(1, 1, &[&identifier.to_be_bytes()[..], data].concat())
    }

    pub(crate) fn clean(value: u8) -> Vec<u8> {
        bytes(1, 2, &[value])
    }

    pub(crate) fn faulty(value: u8) -> Vec<u8> {
        bytes(1, 3, &[value])
    }

    pub(crate) fn reset() -> Vec<u8> {
        bytes(1, 4, &[])
    }

    /// A good record of each form.
    fn good() -> Vec<Vec<u8>> {
        let mut records = vec![clean(0), clean(0xFF), faulty(0), faulty(0xFF), reset()];
        for count in 0..=8 {
            for identifier in [0x000, 0x011, 0x0FF, 0x100, 0x7FF] {
                records.push(can(identifier, &[0xA0, 1, 2, 3, 4, 5, 6, 7][..count]));
            }
        }
        records
    }

    /// Bad records, each breaking one rule. They are whole but for the first two.
    pub(crate) fn bad() -> Vec<Vec<u8>> {
        let mut records = vec![
            // L is big-endian.
            vec![0x03, 0x00, 0x01, 0x02, 0xFE],
            vec![0xFF, 0xFF, 0x01, 0x01, 0x00, 0x11],
            // No version or no kind.
            vec![0x00, 0x00],
            vec![0x00, 0x01, 0x01],
            // Version.
            bytes(0, 2, &[0xFE]),
            bytes(2, 2, &[0xFE]),
            bytes(0xFF, 4, &[]),
            // Kind.
            bytes(1, 0, &[]),
            bytes(1, 0, &[0xFE]),
            bytes(1, 5, &[]),
            bytes(1, 5, &[0xFE]),
            bytes(1, 0xFF, &[0x00, 0x11]),
            // L.
            bytes(1, 1, &[]),
            bytes(1, 1, &[0x00]),
            bytes(1, 2, &[]),
            bytes(1, 2, &[1, 2]),
            bytes(1, 3, &[]),
            bytes(1, 3, &[1, 2]),
            bytes(1, 4, &[0]),
            can(0x011, &[1; 9]),
            can(0x013, &[1; 300]),
        ];
        for identifier in [0x800, 0x811, 0x1011, 0x8000, 0x1100, 0xFFFF] {
            records.push(can(identifier, &[]));
            records.push(can(identifier, &[1; 8]));
        }
        records
    }

    fn record(kind: u8, body: &[u8], next: usize) -> Read<'_> {
        Read::Record { kind, body, next }
    }

    #[test]
    fn example_of_document_01() {
        assert_eq!(read(&EXAMPLE, 0), record(2, &[0xFE], 5));
        assert_eq!(read(&EXAMPLE, 5), record(1, &[0x00, 0x12, 0xAA, 0xBB], 13));
        assert_eq!(read(&EXAMPLE, 13), Read::End);
        assert_eq!(read(&EXAMPLE, 14), Read::Bad);
    }

    #[test]
    fn numbers_0_and_10() {
        assert_eq!(read(&EXAMPLE, 0).number(), 0);
        assert_eq!(read(&EXAMPLE, 13).number(), 0);
        assert_eq!(read(&EXAMPLE, 1).number(), 10);
        assert_eq!(read(&EXAMPLE, 14).number(), 10);
    }

    #[test]
    fn starting_place_at_and_past_the_end() {
        let long = EXAMPLE.repeat(10_000);
        for capture in [&[][..], &[0], &EXAMPLE, &long] {
            let end = capture.len();
            assert_eq!(read(capture, end), Read::End);
            for start in [end + 1, end + 2, end + 14, 1 << 20, usize::MAX / 2] {
                assert_eq!(read(capture, start), Read::Bad);
            }
            for back in 0..20 {
                assert_eq!(read(capture, usize::MAX - back), Read::Bad);
            }
        }
    }

    #[test]
    fn good_records_anywhere_in_a_capture() {
        for good in good() {
            for before in 0..20 {
                for after in [0, 1, 2, 20] {
                    let capture = [&vec![0xEE; before], &good[..], &vec![0; after]].concat();
                    let next = before + good.len();
                    assert_eq!(read(&capture, before), record(good[3], &good[4..], next));
                }
            }
        }
    }

    #[test]
    fn body_is_a_part_of_the_capture() {
        let capture = good().concat();
        let (mut start, mut records) = (0, 0);
        while let Read::Record { body, next, .. } = read(&capture, start) {
            assert!(std::ptr::eq(body, &capture[start + 4..next]));
            (start, records) = (next, records + 1);
        }
        assert_eq!(read(&capture, start), Read::End);
        assert_eq!((start, records), (capture.len(), good().len()));
    }

    #[test]
    fn cut_records() {
        for record in good() {
            for cut in 1..record.len() {
                assert_eq!(read(&record[..cut], 0), Read::Bad);
                let capture = [&EXAMPLE, &record[..cut]].concat();
                assert_eq!(read(&capture, EXAMPLE.len()), Read::Bad);
            }
        }
    }

    #[test]
    fn bad_records() {
        for bad in bad() {
            assert_eq!(read(&bad, 0), Read::Bad, "{bad:02X?}");
            let capture = [&EXAMPLE, &bad[..], &[0; 70_000]].concat();
            assert_eq!(read(&capture, EXAMPLE.len()), Read::Bad, "{bad:02X?}");
        }
    }

    /// Every version, kind and L up to 20, and some L beyond.
    #[test]
    fn every_head_of_a_record() {
        let mut capture = vec![0; 70_000];
        for length in (0..=20).chain([0x0100, 0x0103, 0x0200, 0x0300, 0x0C00, 0xFFFF]) {
            capture[..2].copy_from_slice(&u16::to_be_bytes(length));
            for (version, kind) in (0..=255).flat_map(|v| (0..=255).map(move |k| (v, k))) {
                capture[2..4].copy_from_slice(&[version, kind]);
                let allowed = match (version, kind) {
                    (1, 1) => (4..=12).contains(&length),
                    (1, 2 | 3) => length == 3,
                    (1, 4) => length == 2,
                    _ => false,
                };
                let end = 2 + usize::from(length);
                let expected = if allowed {
                    record(kind, &capture[4..end], end)
                } else {
                    Read::Bad
                };
                assert_eq!(read(&capture, 0), expected);
            }
        }
    }

    #[test]
    fn every_identifier() {
        for identifier in 0..=0xFFFF {
            for count in 0..=8 {
                let capture = can(identifier, &[0xFF; 8][..count]);
                let good = matches!(read(&capture, 0), Read::Record { .. });
                assert_eq!(good, identifier <= 2_047);
            }
        }
    }

    /// What follows the first 14 bytes from the starting place changes nothing.
    #[test]
    fn longest_record_decides() {
        let mut rng = Xorshift(0xCAB);
        for _ in 0..200_000 {
            let mut capture = rng.bytes(40);
            capture[0] = 0;
            capture[1] = rng.below(16) as u8;
            capture[2] = rng.pick(&[1, 1, 1, 0]);
            capture[3] = rng.below(6) as u8;
            capture[4] &= 0x0F;
            assert_eq!(read(&capture, 0), read(&capture[..LONGEST], 0));
        }
    }
}

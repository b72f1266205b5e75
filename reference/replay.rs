//! The program of document 01, "The truck's capture file": replays a capture, with
//! zeroed SRAM and the public password, and prints a line for each record and one last
//! line.

use std::io::{self, ErrorKind, Read, Write};

use crate::boot::{Entered, PUBLIC_PASSWORD};
use crate::capture;
use crate::session::{Session, Stage, SRAM_SIZE};

/// The text for a whole capture.
pub fn replay(capture: &[u8]) -> Vec<u8> {
    let mut replay = Replay::new();
    replay.part(capture, true);
    replay.text
}

/// The text for a capture of any length, of which one part is held at a time.
pub fn stream(input: &mut impl Read, output: &mut impl Write) -> io::Result<()> {
    let mut replay = Replay::new();
    let mut part = vec![0; PART];
    let mut held = 0;
    loop {
        let count = match input.read(&mut part[held..]) {
            Ok(count) => count,
            Err(error) if error.kind() == ErrorKind::Interrupted => continue,
            Err(error) => return Err(error),
        };
        held += count;
        let used = replay.part(&part[..held], count == 0);
        output.write_all(&replay.text)?;
        replay.text.clear();
        let Some(used) = used else {
            return output.flush();
        };
        part.copy_within(used..held, 0);
        held -= used;
    }
}

/// The bytes held at a time: new ones, and the beginning of a record from before.
const PART: usize = 65_536;

struct Replay {
    session: Session,
    sram: Vec<u8>,
    /// Records read so far, over all resets.
    count: u64,
    /// Lines not handed on yet.
    text: Vec<u8>,
}

/// The session of a serial boot that was asked for. The text is the same for one that
/// was entered otherwise.
fn fresh() -> Session {
    Session::fresh(Entered::Asked, PUBLIC_PASSWORD)
}

impl Replay {
    fn new() -> Replay {
        Replay {
            session: fresh(),
            sram: vec![0; SRAM_SIZE as usize],
            count: 0,
            text: Vec::new(),
        }
    }

    /// Prints the lines of the records in the next part of the capture. Answers the
    /// bytes they took if the next part is wanted. None if the reading has ended: then
    /// the last line is printed too. Bytes at the end of the part that may be the
    /// beginning of a record are left for the next part, if there is one.
    fn part(&mut self, part: &[u8], last: bool) -> Option<usize> {
        let mut start = 0;
        loop {
            match capture::read(part, start) {
                capture::Read::Record { kind, body, next } => {
                    self.record(kind, body);
                    start = next;
                }
                _ if !last && part.len() - start < capture::LONGEST => return Some(start),
                capture::Read::End => break,
                bad => {
                    self.line(bad.number(), &[]);
                    break;
                }
            }
        }
        self.last_line();
        None
    }

    fn record(&mut self, kind: u8, body: &[u8]) {
        if let Some(item) = capture::item(kind, body) {
            let reply = self.session.lent(&mut self.sram, item);
            self.line(reply.number, reply.echo.map_or(&[], |(_, data)| data));
        } else {
            // A reset is a new boot choice; SRAM keeps its bytes.
            self.session = fresh();
            self.line(0, &[]);
        }
    }

    /// The line of the next record. A missing echo has length 0.
    fn line(&mut self, number: u8, echo: &[u8]) {
        self.count += 1;
        let mut line = Line::new();
        line.push(b'\n');
        if echo.is_empty() {
            line.push(b'-');
        } else {
            line.hex(echo);
        }
        line.push(b' ');
        line.decimal(number.into());
        line.push(b' ');
        line.decimal(self.count);
        self.text.extend_from_slice(line.text());
    }

    fn last_line(&mut self) {
        let end = match self.session.stage {
            Stage::Waiting => "waiting".to_string(),
            Stage::Password { .. } => "password".to_string(),
            Stage::Header { .. } => "header".to_string(),
            Stage::Data { .. } => "data".to_string(),
            Stage::Stopped { number, .. } => format!("stopped {number}"),
            Stage::Jumped { start, .. } => format!("jump {start:08X}"),
        };
        self.text
            .extend_from_slice(format!("end {end}\n").as_bytes());
    }
}

/// A record's line, written from its end to its beginning, as a number's last digit is
/// found first.
struct Line {
    bytes: [u8; Line::LONGEST],
    first: usize,
}

impl Line {
    /// A count of 20 digits, a number of 2, the hex of 8 bytes, two spaces, a line feed.
    const LONGEST: usize = 20 + 2 + 16 + 3;

    fn new() -> Line {
        Line {
            bytes: [0; Line::LONGEST],
            first: Line::LONGEST,
        }
    }

    fn push(&mut self, byte: u8) {
        self.first -= 1;
        self.bytes[self.first] = byte;
    }

    fn decimal(&mut self, mut value: u64) {
        loop {
            self.push(b'0' + (value % 10) as u8);
            value /= 10;
            if value == 0 {
                break;
            }
        }
    }

    /// Capital hex, two digits for each byte.
    fn hex(&mut self, bytes: &[u8]) {
        const DIGITS: &[u8; 16] = b"0123456789ABCDEF";
        for byte in bytes.iter().rev() {
            self.push(DIGITS[usize::from(byte & 0xF)]);
            self.push(DIGITS[usize::from(byte >> 4)]);
        }
    }

    fn text(&self) -> &[u8] {
        &self.bytes[self.first..]
    }
}

#[cfg(test)]
mod tests {
    use super::*;
    use crate::capture::tests::{bad, bytes, can, clean, faulty, reset, EXAMPLE};
    use crate::session::tests::{header, Xorshift, PUBLIC};
    use crate::session::{Answer, Item};

    const BASE: u32 = 0x4000_0000;

    fn text(capture: &[u8]) -> String {
        String::from_utf8(replay(capture)).unwrap()
    }

    /// The text for records.
    fn lines(records: &[Vec<u8>]) -> String {
        text(&records.concat())
    }

    fn password() -> Vec<u8> {
        can(0x011, &PUBLIC)
    }

    /// The records that carry bytes over serial.
    fn serial(bytes: &[u8]) -> Vec<u8> {
        bytes.iter().copied().flat_map(clean).collect()
    }

    // 01, "The truck's capture file".

    #[test]
    fn example_of_document_01() {
        assert_eq!(text(&EXAMPLE), "1 0 FE\n2 1 -\nend password\n");
    }

    #[test]
    fn empty_capture() {
        assert_eq!(text(&[]), "end waiting\n");
    }

    #[test]
    fn each_last_line() {
        let all = |size| header(BASE, size);
        let word = header(0x4000_FFFE, 4);
        #[rustfmt::skip]
        let rows = [
            (vec![faulty(0xFE)], "1 1 -\nend waiting\n"),
            (vec![clean(0xFE)], "1 0 FE\nend password\n"),
            (vec![password()], "1 0 FEEDFACECAFEBEEF\nend header\n"),
            (vec![password(), can(0x012, &all(65_536))],
                "1 0 FEEDFACECAFEBEEF\n2 0 4000000000010000\nend data\n"),
            (vec![can(0x011, &[0xA; 8])], "1 2 0A0A0A0A0A0A0A0A\nend stopped 2\n"),
            (vec![password(), can(0x012, &all(0))],
                "1 0 FEEDFACECAFEBEEF\n2 3 4000000000000000\nend stopped 3\n"),
            (vec![password(), can(0x012, &all(65_537))],
                "1 0 FEEDFACECAFEBEEF\n2 4 4000000000010001\nend stopped 4\n"),
            (vec![clean(0xFE), faulty(0xED)], "1 0 FE\n2 12 -\nend stopped 12\n"),
            // The start address has lost its two lowest bits, the echo has them.
            (vec![password(), can(0x012, &word), can(0x013, &[0, 1, 0xAB, 0xFF])],
                "1 0 FEEDFACECAFEBEEF\n2 0 4000FFFE00000004\n3 5 0001ABFF\nend jump 4000FFFC\n"),
        ];
        for (records, expected) in rows {
            assert_eq!(lines(&records), expected);
        }
    }

    #[test]
    fn serial_stages() {
        let capture = serial(&[&PUBLIC[..], &header(BASE, 2), &[7, 8]].concat());
        for (count, end) in [
            (0, "end waiting\n"),
            (1, "end password\n"),
            (7, "end password\n"),
            (8, "end header\n"),
            (15, "end header\n"),
            (16, "end data\n"),
            (17, "end data\n"),
            (18, "end jump 40000000\n"),
        ] {
            let text = text(&capture[..5 * count]);
            assert_eq!(text.lines().count(), count + 1);
            assert!(text.ends_with(end), "{text}");
        }
    }

    #[test]
    fn stopped_and_jumped_sessions_ignore_everything_but_a_reset() {
        let open = [password(), can(0x012, &header(BASE, 1)), can(0x013, &[9])];
        let after = [&open[..], &[clean(1), faulty(2)], &open].concat();
        let jumped = lines(&after);
        assert!(jumped.ends_with("3 5 09\n4 1 -\n5 1 -\n6 1 -\n7 1 -\n8 1 -\nend jump 40000000\n"));
        let stopped = lines(&[&[can(0x011, &[7; 8])], &open[..]].concat());
        assert_eq!(
            stopped,
            "1 2 0707070707070707\n2 1 -\n3 1 -\n4 1 -\nend stopped 2\n"
        );
        for before in [&after[..], &[can(0x011, &[7; 8])]] {
            let text = lines(&[before, &[reset()]].concat());
            assert!(text.ends_with(" 0 -\nend waiting\n"));
        }
    }

    /// 02, E2: kind 3 before the opening, on CAN, after the opening and in a session that
    /// has stopped or jumped.
    #[test]
    fn faulty_bytes_in_captures() {
        let (header, data) = (can(0x012, &header(BASE, 1)), can(0x013, &[9]));
        #[rustfmt::skip]
        let rows = [
            (vec![faulty(1), password(), faulty(2), header, faulty(3), data, faulty(4)],
                "1 1 -\n2 0 FEEDFACECAFEBEEF\n3 1 -\n4 0 4000000000000001\n5 1 -\n6 5 09\n7 1 -\n\
                 end jump 40000000\n"),
            (vec![faulty(1), clean(2), faulty(3), faulty(4), clean(5), password()],
                "1 1 -\n2 0 02\n3 12 -\n4 1 -\n5 1 -\n6 1 -\nend stopped 12\n"),
            (vec![clean(2), faulty(3), reset(), faulty(4), password()],
                "1 0 02\n2 12 -\n3 0 -\n4 1 -\n5 0 FEEDFACECAFEBEEF\nend header\n"),
            (vec![can(0x011, &[7; 8]), faulty(1)], "1 2 0707070707070707\n2 1 -\nend stopped 2\n"),
            (vec![clean(2), faulty(3), vec![0]], "1 0 02\n2 12 -\n3 10 -\nend stopped 12\n"),
        ];
        for (records, expected) in rows {
            assert_eq!(lines(&records), expected);
            streams(&records.concat());
        }
    }

    /// One at every place of a load of two bytes, and one at its end.
    #[test]
    fn faulty_bytes_in_a_serial_load() {
        let load = [&PUBLIC[..], &header(BASE, 2), &[7, 8]].concat();
        for place in 0..=18 {
            let stops = (1..18).contains(&place);
            let mut answers: Vec<String> =
                load.iter().map(|byte| format!("0 {byte:02X}")).collect();
            answers[17] = "5 08".to_string();
            if stops {
                answers[place..].fill("1 -".to_string());
            }
            answers.insert(place, if stops { "12 -" } else { "1 -" }.to_string());
            answers.push("1 -".to_string());
            let mut expected = String::new();
            for (count, answer) in (1..).zip(answers) {
                expected += &format!("{count} {answer}\n");
            }
            expected += if stops {
                "end stopped 12\n"
            } else {
                "end jump 40000000\n"
            };
            let (before, after) = load.split_at(place);
            let records = [serial(before), faulty(8), serial(after), faulty(8)];
            assert_eq!(lines(&records), expected);
        }
    }

    #[test]
    fn reset_gives_a_fresh_session_and_goes_on_counting() {
        let records = [
            clean(0xFE),
            reset(),
            reset(),
            password(),
            reset(),
            clean(0xED),
        ];
        let expected = "1 0 FE\n2 0 -\n3 0 -\n4 0 FEEDFACECAFEBEEF\n5 0 -\n6 0 ED\nend password\n";
        assert_eq!(lines(&records), expected);
    }

    #[test]
    fn reset_keeps_sram() {
        let load = |start, value| {
            let data = can(0x013, &[value; 4]);
            [password(), can(0x012, &header(start, 4)), data].concat()
        };
        let capture = [
            load(BASE + 8, 0xA5),
            reset(),
            load(BASE + 10, 0x5A),
            reset(),
        ];
        let mut replay = Replay::new();
        assert_eq!(
            (replay.sram.len(), replay.sram.iter().max()),
            (65_536, Some(&0))
        );
        replay.part(&capture[..2].concat(), true);
        assert_eq!(
            replay.sram[..14],
            [0, 0, 0, 0, 0, 0, 0, 0, 0xA5, 0xA5, 0xA5, 0xA5, 0, 0]
        );
        replay.part(&capture[2..].concat(), true);
        assert_eq!(replay.sram[8..12], [0x5A; 4]);
        assert!(replay.sram[12..].iter().all(|&byte| byte == 0));
        assert_eq!(replay.session, fresh());
    }

    #[test]
    fn bad_record_ends_the_reading() {
        let before = [clean(0xFE), can(0x012, &[0xAA, 0xBB])].concat();
        for bad in bad() {
            assert_eq!(text(&bad), "1 10 -\nend waiting\n");
            // The session stays as it was, and what follows is not read.
            let capture = [&before[..], &bad, &before, &reset()].concat();
            assert_eq!(text(&capture), "1 0 FE\n2 1 -\n3 10 -\nend password\n");
        }
    }

    #[test]
    fn cut_capture() {
        let capture = [&EXAMPLE[..], &reset()].concat();
        for cut in 0..=capture.len() {
            let expected = match cut {
                0 => "end waiting\n",
                1..=4 => "1 10 -\nend waiting\n",
                5 => "1 0 FE\nend password\n",
                6..=12 => "1 0 FE\n2 10 -\nend password\n",
                13 => "1 0 FE\n2 1 -\nend password\n",
                14..=16 => "1 0 FE\n2 1 -\n3 10 -\nend password\n",
                _ => "1 0 FE\n2 1 -\n3 0 -\nend waiting\n",
            };
            assert_eq!(text(&capture[..cut]), expected);
        }
    }

    #[test]
    fn longest_line() {
        let mut replay = Replay::new();
        replay.count = u64::MAX - 1;
        replay.line(10, &[0xF0; 8]);
        assert_eq!(replay.text, b"18446744073709551615 10 F0F0F0F0F0F0F0F0\n");
        assert_eq!(replay.text.len(), Line::LONGEST);
    }

    // 01, "Trial exchanges", run.

    #[test]
    fn run_frame_above_what_is_owed() {
        let records = [
            password(),
            can(0x012, &header(BASE, 5)),
            can(0x013, &[1, 2]),
            can(0x013, &[3, 4, 5, 6]),
            can(0x013, &[7, 8, 9]),
        ];
        let begun = "1 0 FEEDFACECAFEBEEF\n2 0 4000000000000005\n3 0 0102\n4 1 -\n";
        assert_eq!(lines(&records[..4]), format!("{begun}end data\n"));
        let jumped = format!("{begun}5 5 070809\nend jump 40000000\n");
        assert_eq!(lines(&records), jumped);
    }

    #[test]
    fn run_second_password_frame() {
        let expected = "1 0 FEEDFACECAFEBEEF\n2 1 -\nend header\n";
        assert_eq!(lines(&[password(), password()]), expected);
        let wrong = can(0x011, &[7; 8]);
        assert_eq!(lines(&[password(), wrong]), expected);
        let records = [password(), can(0x012, &header(BASE, 8)), password()];
        let expected = "1 0 FEEDFACECAFEBEEF\n2 0 4000000000000008\n3 1 -\nend data\n";
        assert_eq!(lines(&records), expected);
    }

    // Document 002, Tables 13 and 14, to 0x4000_0000 with VLE. The echo is the data as
    // received; 002's misprints are named in the tests of session.rs.

    const SIZE: usize = 5_120;
    const HEADER: [u8; 8] = [0x40, 0x00, 0x00, 0x00, 0x80, 0x00, 0x14, 0x00];

    /// Replays 002's exchange in the records given, each with its line's echo.
    fn exchange(records: &[(Vec<u8>, String)], program: &[u8]) {
        let capture: Vec<u8> = records
            .iter()
            .flat_map(|(record, _)| record.clone())
            .collect();
        let mut expected = String::new();
        for (count, (_, echo)) in (1..).zip(records) {
            let number = if count == records.len() { 5 } else { 0 };
            expected += &format!("{count} {number} {echo}\n");
        }
        expected += "end jump 40000000\n";
        assert_eq!(text(&capture), expected);
        streams(&capture);

        let mut replay = Replay::new();
        replay.part(&capture, true);
        assert_eq!(replay.sram[..SIZE], *program);
        assert!(replay.sram[SIZE..].iter().all(|&byte| byte == 0));
        let (start, vle) = (BASE, true);
        assert_eq!(replay.session.stage, Stage::Jumped { start, vle });
    }

    fn in_hex(bytes: &[u8]) -> String {
        bytes.iter().map(|byte| format!("{byte:02X}")).collect()
    }

    #[test]
    fn document_002_can_exchange() {
        let program = Xorshift(0xB00).bytes(SIZE as u64);
        let mut records = vec![
            (can(0x011, &PUBLIC), "FEEDFACECAFEBEEF".to_string()),
            (can(0x012, &HEADER), "4000000080001400".to_string()),
        ];
        records.extend(
            program
                .chunks(8)
                .map(|data| (can(0x013, data), in_hex(data))),
        );
        assert_eq!(records.len(), 642);
        exchange(&records, &program);
    }

    #[test]
    fn document_002_esci_exchange() {
        let program = Xorshift(0xE5C1).bytes(SIZE as u64);
        let bytes = [&PUBLIC[..], &HEADER, &program].concat();
        let record = |&byte: &u8| (clean(byte), format!("{byte:02X}"));
        let records: Vec<_> = bytes.iter().map(record).collect();
        exchange(&records, &program);
    }

    // The same text from a stream.

    /// Gives at most `most` bytes at a time, and an interruption before each reading
    /// whose number is a multiple of `interrupted`.
    struct Slow<'a> {
        rest: &'a [u8],
        most: usize,
        interrupted: usize,
        readings: usize,
    }

    impl Read for Slow<'_> {
        fn read(&mut self, into: &mut [u8]) -> io::Result<usize> {
            self.readings += 1;
            if self.readings % self.interrupted == 0 {
                return Err(ErrorKind::Interrupted.into());
            }
            let most = self.most.min(into.len());
            self.rest.read(&mut into[..most])
        }
    }

    /// The stream's text must be that of the whole capture, however it comes.
    fn streams(capture: &[u8]) {
        let expected = replay(capture);
        for most in [1, 2, 3, 7, 13, 14, 15, 1_000, usize::MAX] {
            for interrupted in [2, 3, usize::MAX] {
                let mut input = Slow {
                    rest: capture,
                    most,
                    interrupted,
                    readings: 0,
                };
                let mut output = Vec::new();
                stream(&mut input, &mut output).unwrap();
                assert!(output == expected, "{most} {interrupted}");
            }
        }
    }

    #[test]
    fn stream_of_short_captures() {
        for cut in 0..=EXAMPLE.len() {
            streams(&EXAMPLE[..cut]);
        }
        let after = [password(), reset(), clean(1)].concat();
        for bad in bad() {
            for cut in 0..=bad.len().min(16) {
                streams(&[&EXAMPLE, &bad[..cut]].concat());
            }
            streams(&[&EXAMPLE, &bad[..], &after].concat());
        }
    }

    /// Longer than what is held at a time, with every place of a record at its end.
    #[test]
    fn stream_of_long_captures() {
        for shift in 0..14 {
            let frames = can(0x013, &[0x5A; 8]).repeat(15_000);
            let data = [password(), can(0x012, &header(BASE, 65_536)), frames].concat();
            let capture = [reset().repeat(shift), faulty(1).repeat(shift), data].concat();
            assert!(capture.len() > 3 * PART);
            let expected = replay(&capture);
            let mut output = Vec::new();
            stream(&mut &capture[..], &mut output).unwrap();
            assert!(output == expected);
            assert!(output.ends_with(b" 1 -\nend jump 40000000\n"));
        }
    }

    #[test]
    fn stream_stops_at_a_bad_record_without_reading_on() {
        let bad = [0; 14];
        let mut input = (&bad[..]).chain(Fails);
        let mut output = Vec::new();
        stream(&mut input, &mut output).unwrap();
        assert_eq!(output, b"1 10 -\nend waiting\n");
    }

    /// Any other error of the reader or the writer is handed back.
    #[test]
    fn stream_hands_errors_back() {
        let mut output = Vec::new();
        let error = stream(&mut (&EXAMPLE[..]).chain(Fails), &mut output).unwrap_err();
        assert_eq!(error.kind(), ErrorKind::BrokenPipe);
        // The lines so far, and no last line.
        assert_eq!(output, b"1 0 FE\n2 1 -\n");
        let error = stream(&mut &EXAMPLE[..], &mut Fails).unwrap_err();
        assert_eq!(error.kind(), ErrorKind::BrokenPipe);
    }

    struct Fails;

    impl Read for Fails {
        fn read(&mut self, _: &mut [u8]) -> io::Result<usize> {
            Err(ErrorKind::BrokenPipe.into())
        }
    }

    impl Write for Fails {
        fn write(&mut self, _: &[u8]) -> io::Result<usize> {
            Err(ErrorKind::BrokenPipe.into())
        }

        fn flush(&mut self) -> io::Result<()> {
            Ok(())
        }
    }

    // Any capture, against the calls of session.rs.

    /// A record, and the item it stands for; no item for a reset.
    fn any_record(rng: &mut Xorshift) -> (Vec<u8>, Option<Item>) {
        let frame = |identifier: u16, data: &[u8]| {
            let (identifier, data, record) =
                (identifier.into(), data.to_vec(), can(identifier, data));
            (record, Some(Item::Frame { identifier, data }))
        };
        match rng.below(40) {
            0 => (reset(), None),
            1..=3 => frame(0x011, &PUBLIC),
            4..=6 => {
                let start = BASE + rng.below(65_536) as u32;
                let length = rng.pick(&[0, 1, 3, 4, 5, 8, 20, 40, 65_536]);
                frame(0x012, &header(start, length))
            }
            7 | 8 => {
                let (value, faulty) = (rng.next() as u8, rng.one_in(20));
                let kind = if faulty { 3 } else { 2 };
                (bytes(1, kind, &[value]), Some(Item::Byte { value, faulty }))
            }
            _ => {
                let count = rng.below(9);
                let other = rng.below(2_048) as u16;
                let identifier = rng.pick(&[0x011, 0x012, 0x013, 0x013, 0x013, other]);
                frame(identifier, &rng.bytes(count))
            }
        }
    }

    #[test]
    fn any_capture_prints_the_answers_of_the_session() {
        let mut rng = Xorshift(0xCA97);
        let mut seen = [0; 13];
        for _ in 0..300 {
            let mut capture = Vec::new();
            let mut expected = String::new();
            let (mut session, mut sram) = (fresh(), vec![0; 65_536]);
            for count in 1..=rng.below(400) {
                let (record, item) = any_record(&mut rng);
                capture.extend(record);
                let Some(item) = item else {
                    session = fresh();
                    expected += &format!("{count} 0 -\n");
                    continue;
                };
                let Answer { number, echo, .. } = session.item(&mut sram, &item);
                let echo = echo.map_or("-".to_string(), |echo| in_hex(&echo.data));
                expected += &format!("{count} {number} {echo}\n");
                seen[usize::from(number)] += 1;
            }
            let text = text(&capture);
            let (last, lines) = (text.lines().last().unwrap(), text.lines().count());
            assert_eq!(text, format!("{expected}{last}\n"));
            assert_eq!(lines, expected.lines().count() + 1);
            let mut replay = Replay::new();
            replay.part(&capture, true);
            assert_eq!(replay.session, session);
            assert_eq!(replay.sram, sram);
            streams(&capture[..capture.len().min(1_500)]);
        }
        for number in [0, 1, 2, 3, 4, 5, 12] {
            assert!(seen[number] > 20, "{seen:?}");
        }
    }
}

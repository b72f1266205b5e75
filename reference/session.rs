//! The serial session: document 01, "A serial session" and "What the head says back";
//! document 02, E2; source document 003, section 21.5.5.4; source document 002, sections
//! 4 and 5.
//!
//! The synchronization byte and message of 002, 4.1.3 and 5.4 belong to baud rate
//! detection, which is left out: a clean byte 0x00 opens serial like any other, and a
//! frame 0x000 is ignored.

use crate::boot::Entered;
pub use crate::merging::{load, picked, plain, stream, Load};

/// The interface a session listens to.
#[derive(Clone, Copy, PartialEq, Eq, Debug)]
pub enum Port {
    Can,
    Serial,
}

/// What one call hands in.
#[derive(Clone, PartialEq, Eq, Debug)]
pub enum Item {
    Frame { identifier: u32, data: Vec<u8> },
    Byte { value: u8, faulty: bool },
}

#[derive(Clone, PartialEq, Eq, Debug)]
pub enum Stage {
    Waiting,
    Password {
        port: Port,
    },
    Header {
        port: Port,
    },
    Data {
        port: Port,
        /// The header's start address.
        start: u32,
        vle: bool,
        /// The address of the next byte.
        next: u32,
        /// Announced bytes that have not come yet.
        owed: u32,
    },
    Stopped {
        /// 2, 3, 4 or 12.
        number: u8,
        /// The VLE bit of the header that was accepted before the stop, clear where none
        /// was.
        vle: bool,
    },
    Jumped {
        start: u32,
        vle: bool,
    },
}

#[derive(Clone, PartialEq, Eq, Debug)]
pub struct Session {
    /// How the boot choice entered serial boot. No item changes it.
    pub entered: Entered,
    /// The password the boot choice selected.
    pub selected: [u8; 8],
    pub stage: Stage,
    /// Password or header bytes received so far.
    pub held: Vec<u8>,
}

#[derive(Clone, PartialEq, Eq, Debug)]
pub struct Echo {
    /// The identifier of a CAN echo; none for serial.
    pub identifier: Option<u32>,
    pub data: Vec<u8>,
}

#[derive(Clone, PartialEq, Eq, Debug)]
pub struct Answer {
    pub number: u8,
    pub echo: Option<Echo>,
    /// Jump address and VLE, with number 5.
    pub jump: Option<(u32, bool)>,
}

// 01, "What the head says back".
const TAKEN: u8 = 0;
const IGNORED: u8 = 1;
const PASSWORD_NOT_PASSED: u8 = 2;
const LENGTH_ZERO: u8 = 3;
const NOT_IN_SRAM: u8 = 4;
const LAST_BYTE_STORED: u8 = 5;
const FRAME_FORM: u8 = 6;
const SRAM_LENGTH: u8 = 7;
pub(crate) const NOT_SOUND: u8 = 8;
/// 02, E2.
const FAULTY_BYTE: u8 = 12;

/// 01, "A serial session": SRAM is 65,536 bytes at 0x4000_0000.
const SRAM_BASE: u32 = 0x4000_0000;
pub(crate) const SRAM_SIZE: u32 = 65_536;

/// Whether `count` bytes from `start` lie wholly in SRAM.
fn in_sram(start: u32, count: u32) -> bool {
    let end = u64::from(start) + u64::from(count);
    start >= SRAM_BASE && end <= u64::from(SRAM_BASE) + u64::from(SRAM_SIZE)
}

/// 003, 21.5.5.4, step 1 and 01: a legal password has no half word 0x0000 or 0xFFFF,
/// and only a legal one passes, whatever was selected.
pub(crate) fn passes(password: &[u8; 8], selected: &[u8; 8]) -> bool {
    let legal = password
        .chunks(2)
        .all(|half| half != [0x00, 0x00] && half != [0xFF, 0xFF]);
    legal && password == selected
}

/// 003, Figure 21-7.
pub(crate) struct Header {
    pub(crate) start: u32,
    pub(crate) vle: bool,
    pub(crate) length: u32,
}

impl Header {
    /// 003, 21.5.5.4, step 2 and 01: the start address loses its two lowest bits here,
    /// before anything is asked of it.
    pub(crate) fn read(bytes: &[u8; 8]) -> Header {
        let [s0, s1, s2, s3, l0, l1, l2, l3] = *bytes;
        let size = u32::from_be_bytes([l0, l1, l2, l3]);
        Header {
            start: u32::from_be_bytes([s0, s1, s2, s3]) & !0b11,
            vle: size >> 31 == 1,
            length: size & 0x7FFF_FFFF,
        }
    }

    /// The number that is due, 3 or 4, if the header does not fit.
    pub(crate) fn refusal(&self) -> Option<u8> {
        if self.length == 0 {
            Some(LENGTH_ZERO)
        } else if !in_sram(self.start, self.length) {
            Some(NOT_IN_SRAM)
        } else {
            None
        }
    }
}

/// An item whose bytes are lent. The rules are stated over this one, so that a caller
/// who holds the bytes elsewhere need not copy them.
#[derive(Clone, Copy)]
pub(crate) enum Lent<'a> {
    Frame { identifier: u32, data: &'a [u8] },
    Byte { value: &'a u8, faulty: bool },
}

/// An answer whose echo is the bytes lent with the item.
pub(crate) struct Reply<'a> {
    pub(crate) number: u8,
    /// The identifier of a CAN echo, none for serial, and the data.
    pub(crate) echo: Option<(Option<u32>, &'a [u8])>,
    jump: Option<(u32, bool)>,
}

impl Item {
    fn lent(&self) -> Lent<'_> {
        match *self {
            Item::Frame {
                identifier,
                ref data,
            } => Lent::Frame { identifier, data },
            Item::Byte { ref value, faulty } => Lent::Byte { value, faulty },
        }
    }

    pub(crate) fn port(&self) -> Port {
        self.lent().port()
    }

    pub(crate) fn refused(&self) -> bool {
        self.lent().refused()
    }

    pub(crate) fn opens(&self) -> bool {
        self.lent().opens()
    }
}

impl<'a> Lent<'a> {
    fn port(self) -> Port {
        match self {
            Lent::Frame { .. } => Port::Can,
            Lent::Byte { .. } => Port::Serial,
        }
    }

    /// 01, number 6. A serial byte is never refused for its form.
    fn refused(self) -> bool {
        match self {
            Lent::Frame { identifier, data } => identifier > 2_047 || data.len() > 8,
            Lent::Byte { .. } => false,
        }
    }

    /// 01, "The words of demand 3": an opening.
    fn opens(self) -> bool {
        match self {
            Lent::Frame { identifier, data } => identifier == 0x011 && data.len() == 8,
            Lent::Byte { faulty, .. } => !faulty,
        }
    }

    fn bytes(self) -> &'a [u8] {
        match self {
            Lent::Frame { data, .. } => data,
            Lent::Byte { value, .. } => std::slice::from_ref(value),
        }
    }
}

impl Reply<'_> {
    fn only(number: u8) -> Self {
        Reply {
            number,
            echo: None,
            jump: None,
        }
    }
}

impl Session {
    /// The session a serial boot choice gives.
    pub fn fresh(entered: Entered, selected: [u8; 8]) -> Session {
        Session {
            entered,
            selected,
            stage: Stage::Waiting,
            held: Vec::new(),
        }
    }

    /// 01, "A session is sound if its counts fit its stage". The sentence asks nothing
    /// of a stopped session's number or VLE bit, of a jumped session's start, of the
    /// selected password or of how serial boot was entered, so any value of these is
    /// sound.
    pub fn sound(&self) -> bool {
        let held = self.held.len();
        match self.stage {
            Stage::Password { port: Port::Can } => false,
            Stage::Password { port: Port::Serial } => (1..=7).contains(&held),
            Stage::Header { port: Port::Serial } => held <= 7,
            Stage::Header { port: Port::Can } => held == 0,
            Stage::Waiting | Stage::Stopped { .. } | Stage::Jumped { .. } => held == 0,
            Stage::Data {
                start, next, owed, ..
            } => {
                held == 0
                    && owed >= 1
                    && in_sram(next, owed)
                    && start % 4 == 0
                    && in_sram(start, 1)
                    && start <= next
            }
        }
    }

    /// Whether a header with VLE 1 was accepted. A session has accepted a header if it
    /// waits for data or has jumped. Of the stops only that by a faulty byte may come
    /// after it: with any other number no header was accepted, whatever the bit beside it.
    pub(crate) fn accepted_vle(&self) -> bool {
        match self.stage {
            Stage::Data { vle, .. }
            | Stage::Jumped { vle, .. }
            | Stage::Stopped {
                number: FAULTY_BYTE,
                vle,
            } => vle,
            Stage::Waiting
            | Stage::Password { .. }
            | Stage::Header { .. }
            | Stage::Stopped { .. } => false,
        }
    }

    /// One call.
    pub fn item(&mut self, sram: &mut [u8], item: &Item) -> Answer {
        let Reply { number, echo, jump } = self.lent(sram, item.lent());
        let echo = echo.map(|(identifier, data)| Echo {
            identifier,
            data: data.to_vec(),
        });
        Answer { number, echo, jump }
    }

    /// One call with lent bytes: 7, then 8, then 6, then the session's rules.
    pub(crate) fn lent<'a>(&mut self, sram: &mut [u8], item: Lent<'a>) -> Reply<'a> {
        if sram.len() != SRAM_SIZE as usize {
            return Reply::only(SRAM_LENGTH);
        }
        if !self.sound() {
            return Reply::only(NOT_SOUND);
        }
        if item.refused() {
            return Reply::only(FRAME_FORM);
        }
        if self.on_serial() && matches!(item, Lent::Byte { faulty: true, .. }) {
            return Reply::only(self.stop(FAULTY_BYTE));
        }
        if !self.takes(item) {
            return Reply::only(IGNORED);
        }

        let bytes = item.bytes();
        let (number, echo) = match self.stage {
            Stage::Waiting | Stage::Password { .. } => (self.password(item.port(), bytes), 0x001),
            Stage::Header { port } => (self.header(port, bytes), 0x002),
            Stage::Data {
                port,
                start,
                vle,
                next,
                owed,
            } => {
                // The session is sound and no more than what is owed was taken: the
                // bytes lie in SRAM and there are at most 8.
                let offset = (next - SRAM_BASE) as usize;
                sram[offset..offset + bytes.len()].copy_from_slice(bytes);
                let count = bytes.len() as u32;
                if count < owed {
                    self.stage = Stage::Data {
                        port,
                        start,
                        vle,
                        next: next + count,
                        owed: owed - count,
                    };
                    (TAKEN, 0x003)
                } else {
                    self.stage = Stage::Jumped { start, vle };
                    (LAST_BYTE_STORED, 0x003)
                }
            }
            Stage::Stopped { .. } | Stage::Jumped { .. } => return Reply::only(IGNORED),
        };
        Reply {
            number,
            echo: Some(((item.port() == Port::Can).then_some(echo), bytes)),
            jump: match self.stage {
                Stage::Jumped { start, vle } => Some((start, vle)),
                _ => None,
            },
        }
    }

    /// Whether serial has opened the session and its load still goes on. Only then does
    /// a faulty byte end it (02, E2).
    fn on_serial(&self) -> bool {
        matches!(
            self.stage,
            Stage::Password { port: Port::Serial }
                | Stage::Header { port: Port::Serial }
                | Stage::Data {
                    port: Port::Serial,
                    ..
                }
        )
    }

    /// 01, "A serial session": whether an item is taken or ignored. A frame refused for
    /// its form and a faulty byte that ends the load are answered before.
    fn takes(&self, item: Lent) -> bool {
        match (&self.stage, item) {
            (Stage::Waiting, _) => item.opens(),
            (Stage::Header { port: Port::Can }, Lent::Frame { identifier, data }) => {
                identifier == 0x012 && data.len() == 8
            }
            (
                Stage::Data {
                    port: Port::Can,
                    owed,
                    ..
                },
                Lent::Frame { identifier, data },
            ) => {
                identifier == 0x013
                    && (1..=8).contains(&data.len())
                    && data.len() as u64 <= u64::from(*owed)
            }
            // A CAN session, and a stopped or jumped one, ignores every byte.
            (_, Lent::Byte { faulty, .. }) => self.on_serial() && !faulty,
            // A serial session, and a stopped or jumped one, ignores every frame.
            (_, Lent::Frame { .. }) => false,
        }
    }

    /// Password bytes: all 8 from CAN, one from serial.
    fn password(&mut self, port: Port, bytes: &[u8]) -> u8 {
        self.held.extend_from_slice(bytes);
        let Ok(password) = <[u8; 8]>::try_from(self.held.as_slice()) else {
            self.stage = Stage::Password { port };
            return TAKEN;
        };
        self.held.clear();
        if !passes(&password, &self.selected) {
            return self.stop(PASSWORD_NOT_PASSED);
        }
        self.stage = Stage::Header { port };
        TAKEN
    }

    /// Header bytes: all 8 from CAN, one from serial.
    fn header(&mut self, port: Port, bytes: &[u8]) -> u8 {
        self.held.extend_from_slice(bytes);
        let Ok(header) = <[u8; 8]>::try_from(self.held.as_slice()) else {
            return TAKEN;
        };
        self.held.clear();
        let header = Header::read(&header);
        if let Some(number) = header.refusal() {
            return self.stop(number);
        }
        self.stage = Stage::Data {
            port,
            start: header.start,
            vle: header.vle,
            next: header.start,
            owed: header.length,
        };
        TAKEN
    }

    fn stop(&mut self, number: u8) -> u8 {
        let vle = self.accepted_vle();
        self.held.clear();
        self.stage = Stage::Stopped { number, vle };
        number
    }
}

#[cfg(test)]
pub(crate) mod tests {
    use super::*;

    pub(crate) const PUBLIC: [u8; 8] = *b"\xFE\xED\xFA\xCE\xCA\xFE\xBE\xEF";
    const BASE: u32 = 0x4000_0000;
    const SIZE: usize = 65_536;
    pub(crate) const ENTRIES: [Entered; 3] =
        [Entered::Asked, Entered::FromInternal, Entered::FromExternal];
    /// 002, Table 14: start 0x4000_0000, VLE, 0x1400 bytes.
    const HEADER: [u8; 8] = [0x40, 0, 0, 0, 0x80, 0, 0x14, 0];

    pub(crate) struct Xorshift(pub(crate) u64);

    impl Xorshift {
        pub(crate) fn next(&mut self) -> u64 {
            self.0 ^= self.0 << 13;
            self.0 ^= self.0 >> 7;
            self.0 ^= self.0 << 17;
            self.0
        }

        pub(crate) fn below(&mut self, bound: u64) -> u64 {
            (self.next() >> 16) % bound
        }

        pub(crate) fn one_in(&mut self, count: u64) -> bool {
            self.below(count) == 0
        }

        pub(crate) fn pick<T: Copy>(&mut self, of: &[T]) -> T {
            of[self.below(of.len() as u64) as usize]
        }

        pub(crate) fn bytes(&mut self, count: u64) -> Vec<u8> {
            (0..count).map(|_| self.next() as u8).collect()
        }
    }

    pub(crate) fn frame(identifier: u32, data: &[u8]) -> Item {
        let data = data.to_vec();
        Item::Frame { identifier, data }
    }

    pub(crate) fn clean(value: u8) -> Item {
        let faulty = false;
        Item::Byte { value, faulty }
    }

    pub(crate) fn faulty(value: u8) -> Item {
        let faulty = true;
        Item::Byte { value, faulty }
    }

    /// The items that carry `data` on a port: one frame, or clean bytes.
    fn items(port: Port, identifier: u32, data: &[u8]) -> Vec<Item> {
        match port {
            Port::Can => vec![frame(identifier, data)],
            Port::Serial => data.iter().copied().map(clean).collect(),
        }
    }

    pub(crate) fn header(start: u32, size: u32) -> [u8; 8] {
        let [a, b, c, d] = start.to_be_bytes();
        let [e, f, g, h] = size.to_be_bytes();
        [a, b, c, d, e, f, g, h]
    }

    pub(crate) fn memory() -> Vec<u8> {
        (0..SIZE).map(|i| (i * 37 + i / 256) as u8).collect()
    }

    /// A fresh session of a serial boot that was asked for.
    fn fresh(selected: [u8; 8]) -> Session {
        Session::fresh(Entered::Asked, selected)
    }

    fn at(stage: Stage, held: usize) -> Session {
        let held = PUBLIC.repeat(2)[..held].to_vec();
        Session {
            stage,
            held,
            ..fresh(PUBLIC)
        }
    }

    /// Stopped before a header was accepted.
    pub(crate) fn stopped(number: u8) -> Stage {
        let vle = false;
        Stage::Stopped { number, vle }
    }

    fn data(port: Port, start: u32, next: u32, owed: u32) -> Stage {
        let vle = true;
        Stage::Data {
            port,
            start,
            vle,
            next,
            owed,
        }
    }

    fn only(number: u8) -> Answer {
        Answer {
            number,
            echo: None,
            jump: None,
        }
    }

    fn echoed(number: u8, identifier: Option<u32>, data: &[u8]) -> Answer {
        let data = data.to_vec();
        Answer {
            number,
            echo: Some(Echo { identifier, data }),
            jump: None,
        }
    }

    /// Hands in one item that must get `number` alone and change nothing.
    fn unmoved(session: &Session, sram: &[u8], item: &Item, number: u8) {
        let (mut after, mut memory) = (session.clone(), sram.to_vec());
        assert_eq!(
            after.item(&mut memory, item),
            only(number),
            "{session:?} {item:?}"
        );
        assert_eq!(after, *session);
        assert_eq!(memory, sram);
    }

    /// Hands in a whole password or header. All items must be echoed and leave SRAM as
    /// it was, and all but the last must get 0. Answers the last number.
    fn hand_in(session: &mut Session, port: Port, identifier: u32, data: &[u8; 8]) -> u8 {
        let mut sram = memory();
        let mut last = 0;
        for item in items(port, identifier, data) {
            assert_eq!(last, 0);
            let answer = session.item(&mut sram, &item);
            last = answer.number;
            let echo = (port == Port::Can).then_some(identifier - 0x010);
            assert_eq!(answer, echoed(last, echo, item.lent().bytes()));
        }
        assert_eq!(sram, memory());
        assert!(session.sound() && session.held.is_empty());
        last
    }

    /// The number a password gets, and the session it leaves.
    fn password_gets(port: Port, selected: [u8; 8], password: [u8; 8]) -> (u8, Session) {
        let mut session = fresh(selected);
        let number = hand_in(&mut session, port, 0x011, &password);
        (number, session)
    }

    /// The number a header gets, on both ports, after the public password; also start,
    /// VLE and length if it is accepted.
    fn header_gets(bytes: [u8; 8]) -> (u8, Option<(u32, bool, u32)>) {
        let [can, serial] = [Port::Can, Port::Serial].map(|port| {
            let (_, mut session) = password_gets(port, PUBLIC, PUBLIC);
            let number = hand_in(&mut session, port, 0x012, &bytes);
            match session.stage {
                Stage::Data {
                    port: of,
                    start,
                    vle,
                    next,
                    owed,
                } => {
                    assert_eq!((of, next, number), (port, start, 0));
                    (number, Some((start, vle, owed)))
                }
                stage => {
                    assert_eq!(stage, stopped(number));
                    (number, None)
                }
            }
        });
        assert_eq!(can, serial);
        can
    }

    fn accepted(start: u32, vle: bool, owed: u32) -> (u8, Option<(u32, bool, u32)>) {
        (0, Some((start, vle, owed)))
    }

    // 01, "Trial exchanges".

    #[test]
    fn p1_header_of_document_002() {
        let bytes = [0x40, 0x00, 0x00, 0x00, 0x80, 0x00, 0x14, 0x00];
        assert_eq!(header_gets(bytes), accepted(BASE, true, 5_120));
    }

    #[test]
    fn p2_p3_all_of_sram_and_one_byte_more() {
        assert_eq!(
            header_gets(header(BASE, 65_536)),
            accepted(BASE, false, 65_536)
        );
        assert_eq!(header_gets(header(BASE, 65_537)), (4, None));
    }

    #[test]
    fn p4_p5_last_word_of_sram() {
        assert_eq!(
            header_gets(header(0x4000_FFFC, 4)),
            accepted(0x4000_FFFC, false, 4)
        );
        assert_eq!(header_gets(header(0x4000_FFFC, 5)), (4, None));
    }

    #[test]
    fn p6_low_bits_of_the_start_are_dropped() {
        for low in 0..4 {
            assert_eq!(header_gets(header(BASE + low, 1)), accepted(BASE, false, 1));
        }
    }

    #[test]
    fn p7_start_before_sram() {
        assert_eq!(header_gets(header(0x3FFF_FFFF, 1)), (4, None));
    }

    #[test]
    fn p8_length_0() {
        assert_eq!(header_gets(header(0, 0)), (3, None));
    }

    #[test]
    fn p9_illegal_password_in_both_places() {
        for port in [Port::Can, Port::Serial] {
            let password = *b"\xFE\xED\x00\x00\xCA\xFE\xBE\xEF";
            let (number, session) = password_gets(port, password, password);
            assert_eq!(number, 2);
            assert_eq!(session.stage, stopped(2));
        }
    }

    #[test]
    fn run_frame_above_what_is_owed() {
        let stage = data(Port::Can, BASE, BASE + 5, 3);
        let frame = frame(0x013, &[1, 2, 3, 4]);
        unmoved(&at(stage, 0), &memory(), &frame, 1);
    }

    #[test]
    fn run_second_password_frame() {
        let (_, mut session) = password_gets(Port::Can, PUBLIC, PUBLIC);
        assert_eq!(session.stage, Stage::Header { port: Port::Can });
        unmoved(&session, &memory(), &frame(0x011, &PUBLIC), 1);
        hand_in(&mut session, Port::Can, 0x012, &HEADER);
        assert_eq!(session.stage, data(Port::Can, BASE, BASE, 5_120));
        unmoved(&session, &memory(), &frame(0x011, &PUBLIC), 1);
    }

    /// The session of 01's capture: FE, then a frame 0x012 with AA BB.
    #[test]
    fn run_the_capture_of_document_01() {
        let (mut session, mut sram) = (fresh(PUBLIC), vec![0; SIZE]);
        let answer = session.item(&mut sram, &clean(0xFE));
        assert_eq!(answer, echoed(0, None, &[0xFE]));
        let answer = session.item(&mut sram, &frame(0x012, &[0xAA, 0xBB]));
        assert_eq!(answer, only(1));
        assert_eq!(session.stage, Stage::Password { port: Port::Serial });
        assert_eq!(session.held, [0xFE]);
    }

    // Document 002's exchange, 0x1400 bytes to 0x4000_0000. Its misprints: the echoed
    // password has FA for FE as byte 5 in Table 8 (Table 14 prints it rightly); the
    // header of Table 9 lacks one byte, which its echo in Table 10 has; Table 13's
    // remark ends the password with FF, its value with EF. The echo is the data as
    // received.

    #[test]
    fn document_002_can_exchange() {
        // Table 14 has the VLE bit set, Tables 9 and 10 have it clear.
        for (size, vle) in [(0x8000_1400, true), (0x0000_1400, false)] {
            let program = Xorshift(0xB00).bytes(0x1400);
            let mut exchange = vec![
                (0x011, PUBLIC.to_vec(), 0x001),
                (0x012, header(0x4000_0000, size).to_vec(), 0x002),
            ];
            exchange.extend(program.chunks(8).map(|data| (0x013, data.to_vec(), 0x003)));
            let (mut session, mut sram) = (fresh(PUBLIC), memory());
            let last = exchange.len() - 1;
            for (i, (identifier, data, echo)) in exchange.into_iter().enumerate() {
                let answer = session.item(&mut sram, &frame(identifier, &data));
                let number = if i == last { 5 } else { 0 };
                let jump = (i == last).then_some((0x4000_0000, vle));
                assert_eq!(
                    answer,
                    Answer {
                        jump,
                        ..echoed(number, Some(echo), &data)
                    }
                );
            }
            let start = BASE;
            assert_eq!(session.stage, Stage::Jumped { start, vle });
            assert_eq!(sram[..0x1400], program);
            assert_eq!(sram[0x1400..], memory()[0x1400..]);
        }
    }

    #[test]
    fn document_002_esci_exchange() {
        // Table 13.
        let program = Xorshift(0xE5C1).bytes(0x1400);
        let bytes = [&PUBLIC[..], &HEADER, &program].concat();
        let (mut session, mut sram) = (fresh(PUBLIC), memory());
        for (count, &byte) in (1..).zip(&bytes) {
            let mut expected = echoed(0, None, &[byte]);
            if count == bytes.len() {
                expected.number = 5;
                expected.jump = Some((0x4000_0000, true));
            }
            assert_eq!(session.item(&mut sram, &clean(byte)), expected);
            // Each byte is stored as it comes.
            let stored = count.saturating_sub(16);
            assert_eq!(sram[..stored], program[..stored]);
            assert_eq!(sram[stored..], memory()[stored..]);
        }
        let (start, vle) = (BASE, true);
        assert_eq!(session.stage, Stage::Jumped { start, vle });
    }

    /// 002, 4.1.3 and 5.4: baud rate detection is no part of the session.
    #[test]
    fn document_002_synchronization() {
        let mut session = fresh(PUBLIC);
        unmoved(&session, &memory(), &frame(0x000, &[]), 1);
        assert_eq!(
            session.item(&mut memory(), &clean(0)),
            echoed(0, None, &[0])
        );
        assert_eq!(session.stage, Stage::Password { port: Port::Serial });
    }

    // 01, "Slips we have seen".

    #[test]
    fn slip_half_word_ffff_passes_as_flash_holds_it() {
        for half in 0..4 {
            for value in [0x00, 0xFF] {
                let mut password = PUBLIC;
                password[2 * half..2 * half + 2].fill(value);
                for port in [Port::Can, Port::Serial] {
                    assert_eq!(password_gets(port, password, password).0, 2);
                    assert_eq!(password_gets(port, PUBLIC, password).0, 2);
                    assert_eq!(password_gets(port, password, PUBLIC).0, 2);
                }
            }
        }
        // 00 00 or FF FF across two half words, and a half word of which one byte is 00
        // or FF, are legal.
        for password in [
            *b"\x12\x00\x00\x34\x56\xFF\xFF\x78",
            *b"\x00\xFF\xFF\x00\x00\x01\xFF\xFE",
        ] {
            for port in [Port::Can, Port::Serial] {
                let (number, session) = password_gets(port, password, password);
                assert_eq!(number, 0);
                assert_eq!(session.stage, Stage::Header { port });
            }
        }
    }

    #[test]
    fn slip_low_bits_dropped_after_the_range_test() {
        // Wholly in SRAM only once the low bits are dropped.
        assert_eq!(
            header_gets(header(0x4000_0001, 65_536)),
            accepted(BASE, false, 65_536)
        );
        assert_eq!(
            header_gets(header(0x4000_FFFF, 0x8000_0004)),
            accepted(0x4000_FFFC, true, 4)
        );
        assert_eq!(header_gets(header(0x4000_FFFF, 5)), (4, None));
        assert_eq!(header_gets(header(0x4001_0001, 1)), (4, None));
    }

    #[test]
    fn slip_faulty_byte_opens_serial() {
        let mut session = fresh(PUBLIC);
        unmoved(&session, &memory(), &faulty(0xFE), 1);
        let answer = session.item(&mut memory(), &frame(0x011, &PUBLIC));
        assert_eq!(answer, echoed(0, Some(0x001), &PUBLIC));
        assert_eq!(session.stage, Stage::Header { port: Port::Can });
    }

    #[test]
    fn slip_part_of_an_overlong_last_frame_is_stored() {
        for owed in 1..8 {
            for count in 1..=8 {
                let bytes = &[0xA5, 0x5A, 1, 2, 3, 4, 5, 6][..count as usize];
                let next = BASE + 65_536 - owed;
                let mut session = at(data(Port::Can, BASE, next, owed), 0);
                if count > owed {
                    unmoved(&session, &memory(), &frame(0x013, bytes), 1);
                    continue;
                }
                let mut sram = memory();
                let answer = session.item(&mut sram, &frame(0x013, bytes));
                let number = if count == owed { 5 } else { 0 };
                assert_eq!(answer.number, number);
                let from = SIZE - owed as usize;
                assert_eq!(sram[..from], memory()[..from]);
                assert_eq!(sram[from..from + bytes.len()], *bytes);
                assert_eq!(sram[from + bytes.len()..], memory()[from + bytes.len()..]);
            }
        }
    }

    // The rules item by item.

    /// One sound session of each stage and port.
    fn stages() -> Vec<Session> {
        let (start, number, vle) = (BASE, 12, true);
        vec![
            at(Stage::Waiting, 0),
            at(Stage::Password { port: Port::Serial }, 4),
            at(Stage::Header { port: Port::Serial }, 4),
            at(data(Port::Serial, BASE, BASE + 5, 20), 0),
            at(Stage::Header { port: Port::Can }, 0),
            at(data(Port::Can, BASE, BASE + 5, 20), 0),
            at(stopped(2), 0),
            at(stopped(3), 0),
            at(stopped(4), 0),
            at(stopped(12), 0),
            at(Stage::Stopped { number, vle }, 0),
            at(Stage::Jumped { start, vle }, 0),
        ]
    }

    fn one_of_each() -> [Item; 5] {
        let (password, header) = (frame(0x011, &PUBLIC), frame(0x012, &HEADER));
        [password, header, frame(0x013, &[1]), clean(1), faulty(1)]
    }

    /// Whether a session takes any items of the port.
    fn hears(session: &Session, port: Port) -> bool {
        match session.stage {
            Stage::Waiting => true,
            Stage::Password { port: of }
            | Stage::Header { port: of }
            | Stage::Data { port: of, .. } => of == port,
            _ => false,
        }
    }

    #[test]
    fn one_identifier_is_taken_in_each_stage_of_can() {
        let before = memory();
        for session in stages() {
            let mut sram = before.clone();
            for (identifier, count) in (0..2_048).flat_map(|i| (0..=8).map(move |n| (i, n))) {
                let mut after = session.clone();
                let data = &PUBLIC[..count];
                let answer = after.item(&mut sram, &frame(identifier, data));
                let echo = match (&session.stage, identifier, count) {
                    _ if !hears(&session, Port::Can) => None,
                    (Stage::Waiting, 0x011, 8) => Some(0x001),
                    (Stage::Header { .. }, 0x012, 8) => Some(0x002),
                    (Stage::Data { .. }, 0x013, 1..) => Some(0x003),
                    _ => None,
                };
                if echo.is_none() {
                    assert_eq!(answer, only(1));
                    assert_eq!(after, session);
                    continue;
                }
                assert_eq!(answer, echoed(answer.number, echo, data));
                assert_ne!(after, session);
                if echo == Some(0x003) {
                    assert_eq!(sram[5..5 + count], *data);
                    sram[5..5 + count].copy_from_slice(&before[5..5 + count]);
                }
            }
            assert_eq!(sram, before);
        }
    }

    #[test]
    fn clean_bytes_are_taken() {
        let before = memory();
        for session in stages() {
            for value in 0..=255 {
                if !hears(&session, Port::Serial) {
                    unmoved(&session, &before, &clean(value), 1);
                    continue;
                }
                let (mut after, mut sram) = (session.clone(), before.clone());
                let answer = after.item(&mut sram, &clean(value));
                assert_eq!(answer, echoed(0, None, &[value]));
                if matches!(session.stage, Stage::Data { .. }) {
                    assert_eq!(after, at(data(Port::Serial, BASE, BASE + 6, 19), 0));
                    assert_eq!(sram[5], value);
                    sram[5] = before[5];
                } else {
                    assert_eq!(after.held, [&session.held[..], &[value]].concat());
                }
                assert_eq!(sram, before);
            }
        }
    }

    /// 02, E2. The last column: nothing where the byte is ignored, and otherwise the VLE
    /// bit that the stop by 12 keeps.
    #[test]
    fn a_faulty_byte_in_every_stage() {
        let (can, serial) = (Port::Can, Port::Serial);
        let (start, number, vle) = (BASE, 12, true);
        let owed = |port, vle, owed| Stage::Data {
            port,
            start,
            vle,
            next: BASE + 65_536 - owed,
            owed,
        };
        #[rustfmt::skip]
        let rows = [
            (Stage::Waiting,                   0, None),
            (Stage::Password { port: serial }, 1, Some(false)),
            (Stage::Password { port: serial }, 7, Some(false)),
            (Stage::Header { port: serial },   0, Some(false)),
            (Stage::Header { port: serial },   7, Some(false)),
            (owed(serial, false, 65_536),      0, Some(false)),
            (owed(serial, true, 65_536),       0, Some(true)),
            (owed(serial, false, 1),           0, Some(false)),
            (owed(serial, true, 1),            0, Some(true)),
            (Stage::Header { port: can },      0, None),
            (owed(can, true, 65_536),          0, None),
            (owed(can, true, 1),               0, None),
            (stopped(2),                       0, None),
            (stopped(3),                       0, None),
            (stopped(4),                       0, None),
            (stopped(12),                      0, None),
            (Stage::Stopped { number, vle },   0, None),
            (Stage::Jumped { start, vle },     0, None),
        ];
        let before = memory();
        for (stage, held, stops) in rows {
            let session = Session {
                entered: Entered::FromInternal,
                selected: [7; 8],
                ..at(stage, held)
            };
            for value in 0..=255 {
                let item = faulty(value);
                let Some(vle) = stops else {
                    unmoved(&session, &before, &item, 1);
                    continue;
                };
                let (mut after, mut sram) = (session.clone(), before.clone());
                assert_eq!(after.item(&mut sram, &item), only(12), "{session:?}");
                let expected = Session {
                    stage: Stage::Stopped { number, vle },
                    held: Vec::new(),
                    ..session.clone()
                };
                assert_eq!(after, expected);
                assert_eq!(sram, before);
                // From then on a second one is ignored like all else.
                unmoved(&after, &before, &item, 1);
                for item in one_of_each() {
                    unmoved(&after, &before, &item, 1);
                }
            }
        }
    }

    #[test]
    fn the_8th_password_byte_decides() {
        for wrong in 0..8 {
            let mut password = PUBLIC;
            password[wrong] ^= 0x10;
            let (mut session, mut sram) = (fresh(PUBLIC), memory());
            for i in 0..7 {
                let answer = session.item(&mut sram, &clean(password[i]));
                assert_eq!(answer, echoed(0, None, &password[i..=i]));
                assert_eq!(session.stage, Stage::Password { port: Port::Serial });
                assert_eq!(session.held, password[..=i]);
            }
            let answer = session.item(&mut sram, &clean(password[7]));
            assert_eq!(answer, echoed(2, None, &password[7..]));
            assert_eq!(session, at(stopped(2), 0));

            let mut session = fresh(PUBLIC);
            let answer = session.item(&mut sram, &frame(0x011, &password));
            assert_eq!(answer, echoed(2, Some(0x001), &password));
            assert_eq!(session, at(stopped(2), 0));
            assert_eq!(sram, memory());
        }
    }

    #[test]
    fn lengths_and_starts_far_off() {
        for start in [0, 3, BASE - 4, BASE + 65_536, 1 << 31, 3 << 30, !3, !0] {
            for length in [1, 4, 65_536, 0x4000_0000, 0x4000_0004, 0x7FFF_FFFF] {
                for vle in [0, 0x8000_0000] {
                    assert_eq!(header_gets(header(start, vle | length)), (4, None));
                }
            }
            for vle in [0, 0x8000_0000] {
                assert_eq!(header_gets(header(start, vle)), (3, None));
            }
        }
        for length in [65_537, 0x7FFF_FFFF] {
            assert_eq!(header_gets(header(BASE, 0x8000_0000 | length)), (4, None));
        }
        assert_eq!(header_gets(header(BASE, 0)), (3, None));
        assert_eq!(header_gets(header(BASE, 0x8000_0000)), (3, None));
    }

    #[test]
    fn all_of_sram_by_both_ports() {
        let program = Xorshift(0x10000).bytes(65_536);
        for port in [Port::Can, Port::Serial] {
            let (_, mut session) = password_gets(port, PUBLIC, PUBLIC);
            hand_in(&mut session, port, 0x012, &header(BASE + 1, 0x8001_0000));
            let mut sram = memory();
            let mut numbers = Vec::new();
            for data in program.chunks(8) {
                for item in items(port, 0x013, data) {
                    numbers.push(session.item(&mut sram, &item).number);
                }
            }
            assert_eq!(sram, program);
            assert_eq!(numbers.pop(), Some(5));
            assert!(numbers.into_iter().all(|number| number == 0));
            let (start, vle) = (BASE, true);
            assert_eq!(session.stage, Stage::Jumped { start, vle });
        }
    }

    // 01, "What the head says back".

    #[test]
    fn numbers_0_to_5_in_one_row_each() {
        let can = Port::Can;
        let header = || Stage::Header { port: can };
        let data = |next, owed| data(can, BASE, next, owed);
        let (start, vle) = (BASE, true);
        #[rustfmt::skip]
        let rows = [
            (Stage::Waiting,    0x011, &PUBLIC[..], 0, header()),
            (Stage::Waiting,    0x011, &[7; 8],     2, stopped(2)),
            (header(),          0x012, &HEADER,     0, data(BASE, 5_120)),
            (header(),          0x012, &[0; 8],     3, stopped(3)),
            (header(),          0x012, &[7; 8],     4, stopped(4)),
            (data(BASE + 8, 4), 0x013, &[7; 3],     0, data(BASE + 11, 1)),
            (data(BASE + 8, 3), 0x013, &[7; 3],     5, Stage::Jumped { start, vle }),
        ];
        for (stage, identifier, bytes, number, then) in rows {
            let mut session = at(stage, 0);
            let answer = session.item(&mut memory(), &frame(identifier, bytes));
            let expected = Answer {
                jump: (number == 5).then_some((BASE, true)),
                ..echoed(number, Some(identifier - 0x010), bytes)
            };
            assert_eq!(answer, expected);
            assert_eq!(session, at(then, 0));
        }
        unmoved(&at(Stage::Waiting, 0), &memory(), &frame(0x012, &HEADER), 1);
    }

    #[test]
    fn number_6_for_the_form_of_a_frame() {
        let refused = [
            frame(2_048, &[]),
            frame(2_048, &PUBLIC),
            frame(0x811, &PUBLIC),
            frame(0x8000_0011, &PUBLIC),
            frame(0x1_0013, &[1]),
            frame(u32::MAX, &[0; 300]),
            frame(0x011, &[1; 9]),
            frame(0x012, &[1; 9]),
            frame(0x013, &[1; 9]),
            frame(0x013, &vec![1; 65_536]),
        ];
        for session in stages() {
            for item in &refused {
                unmoved(&session, &memory(), item, 6);
            }
            unmoved(&session, &memory(), &frame(2_047, &[1; 8]), 1);
        }
    }

    #[test]
    fn number_7_for_the_length_of_sram() {
        let sram = vec![0; 131_072];
        for length in [0, 1, 7, 65_535, 65_537, 131_072] {
            for session in stages() {
                for item in one_of_each() {
                    unmoved(&session, &sram[..length], &item, 7);
                }
            }
        }
    }

    #[test]
    fn number_8_for_a_session_that_is_not_sound() {
        for session in not_sound() {
            for item in one_of_each() {
                unmoved(&session, &memory(), &item, 8);
            }
        }
    }

    #[test]
    fn order_7_8_6_then_the_rules() {
        let (good, bad) = (at(Stage::Waiting, 0), at(Stage::Waiting, 1));
        let (short, right) = (vec![0; 65_535], memory());
        let (taken, refused) = (frame(0x011, &PUBLIC), frame(0x800, &PUBLIC));
        unmoved(&bad, &short, &refused, 7);
        unmoved(&bad, &short, &taken, 7);
        unmoved(&good, &short, &refused, 7);
        unmoved(&good, &short, &taken, 7);
        unmoved(&bad, &right, &refused, 8);
        unmoved(&bad, &right, &taken, 8);
        unmoved(&good, &right, &refused, 6);
        // Where a faulty byte would end the load.
        let [good, bad] = [7, 8].map(|held| at(Stage::Password { port: Port::Serial }, held));
        unmoved(&bad, &short, &faulty(1), 7);
        unmoved(&good, &short, &faulty(1), 7);
        unmoved(&bad, &right, &faulty(1), 8);
        unmoved(&good, &right, &refused, 6);
        // Where the rules would ignore the item.
        let (start, vle) = (0, false);
        unmoved(&at(Stage::Jumped { start, vle }, 0), &right, &refused, 6);
    }

    // 01, "A session is sound if its counts fit its stage".

    pub(crate) fn sound() -> Vec<Session> {
        let end = BASE + 65_536;
        let mut sessions = vec![
            at(Stage::Waiting, 0),
            at(Stage::Header { port: Port::Can }, 0),
        ];
        for held in 1..=7 {
            sessions.push(at(Stage::Password { port: Port::Serial }, held));
        }
        for held in 0..=7 {
            sessions.push(at(Stage::Header { port: Port::Serial }, held));
        }
        for port in [Port::Can, Port::Serial] {
            for (start, next, owed) in [
                (BASE, BASE, 1),
                (BASE, BASE, 65_536),
                (BASE, BASE + 1, 65_535),
                (BASE, end - 1, 1),
                (end - 4, end - 4, 4),
                (end - 4, end - 1, 1),
                (BASE + 4, BASE + 4, 1),
            ] {
                for vle in [false, true] {
                    let stage = Stage::Data {
                        port,
                        start,
                        vle,
                        next,
                        owed,
                    };
                    sessions.push(at(stage, 0));
                }
            }
        }
        // Nothing is asked of these fields.
        for number in 0..=255 {
            for vle in [false, true] {
                sessions.push(at(Stage::Stopped { number, vle }, 0));
            }
        }
        for start in [0, 1, BASE, BASE + 3, end, u32::MAX] {
            for vle in [false, true] {
                sessions.push(at(Stage::Jumped { start, vle }, 0));
            }
        }
        let asked = sessions.clone();
        for (entered, selected) in [
            (Entered::FromInternal, PUBLIC),
            (Entered::FromExternal, [0; 8]),
        ] {
            sessions.extend(asked.iter().cloned().map(|session| Session {
                entered,
                selected,
                ..session
            }));
        }
        sessions
    }

    pub(crate) fn not_sound() -> Vec<Session> {
        let end = BASE + 65_536;
        let (start, number, vle) = (BASE, 12, true);
        let mut sessions = Vec::new();
        // The password stage is serial's alone.
        for held in 0..=9 {
            sessions.push(at(Stage::Password { port: Port::Can }, held));
        }
        // Serial holds 1 to 7 password or 0 to 7 header bytes.
        for held in [0, 8, 9, 16] {
            sessions.push(at(Stage::Password { port: Port::Serial }, held));
        }
        for held in [8, 9, 16] {
            sessions.push(at(Stage::Header { port: Port::Serial }, held));
        }
        // CAN and every other stage hold none.
        for held in [1, 7, 8, 16] {
            for stage in [
                Stage::Waiting,
                Stage::Header { port: Port::Can },
                data(Port::Can, BASE, BASE, 1),
                data(Port::Serial, BASE, BASE, 1),
                stopped(2),
                Stage::Stopped { number, vle },
                Stage::Jumped { start, vle },
            ] {
                sessions.push(at(stage, held));
            }
        }
        for port in [Port::Can, Port::Serial] {
            for (start, next, owed) in [
                // At least one byte owed.
                (BASE, BASE, 0),
                (BASE, end, 0),
                // The bytes owed lie in SRAM from the next address.
                (BASE, BASE, 65_537),
                (BASE, BASE + 1, 65_536),
                (BASE, end - 1, 2),
                (BASE, end, 1),
                (BASE, BASE, u32::MAX),
                (BASE, u32::MAX, 1),
                (BASE, u32::MAX, u32::MAX),
                (BASE, BASE, 0xC000_0001),
                (BASE, BASE - 1, 1),
                (BASE - 4, BASE - 1, 2),
                (0, 0, 1),
                // The start is a multiple of 4,
                (BASE + 1, BASE + 8, 1),
                (BASE + 2, BASE + 8, 1),
                (BASE + 3, BASE + 8, 1),
                // in SRAM,
                (BASE - 4, BASE, 1),
                (0, BASE, 1),
                // not beyond the next address.
                (BASE + 4, BASE, 1),
                (BASE + 4, BASE + 3, 1),
                (end - 4, end - 5, 1),
                (end, end - 1, 1),
                (!3, BASE, 1),
            ] {
                sessions.push(at(data(port, start, next, owed), 0));
            }
        }
        sessions
    }

    #[test]
    fn each_clause_of_soundness_both_ways() {
        for session in sound() {
            assert!(session.sound(), "{session:?}");
        }
        for session in not_sound() {
            assert!(!session.sound(), "{session:?}");
        }
    }

    // Any session, any SRAM and any item.

    /// About half of these sessions are sound.
    pub(crate) fn any_session(rng: &mut Xorshift) -> Session {
        let port = rng.pick(&[Port::Can, Port::Serial]);
        let vle = rng.one_in(2);
        let near = rng.pick(&[BASE, BASE + 8, BASE + 65_528, BASE + 65_536, 0]);
        let start = near.wrapping_add(rng.pick(&[0, 0, 0, 0, 1, 3, 4, !3]));
        let next = start.wrapping_add(rng.pick(&[0, 0, 1, 4, !0]));
        let owed = rng.pick(&[0, 1, 1, 2, 3, 4, 8, 65_528, 65_536, 1 << 31, !0]);
        let any = rng.below(256) as u8;
        let number = rng.pick(&[2, 3, 4, 12, 12, any]);
        let stage = match rng.below(12) {
            0 => Stage::Waiting,
            1 => Stage::Stopped { number, vle },
            2 => Stage::Jumped { start, vle },
            3 | 4 => Stage::Password { port },
            5 | 6 => Stage::Header { port },
            _ => Stage::Data {
                port,
                start,
                vle,
                next,
                owed,
            },
        };
        let held = match stage {
            Stage::Password { .. } => rng.below(10),
            Stage::Header { .. } => rng.pick(&[0, 0, 0, 1, 6, 7, 8, 9]),
            _ if rng.one_in(8) => rng.below(10),
            _ => 0,
        };
        Session {
            entered: rng.pick(&ENTRIES),
            selected: PUBLIC,
            stage,
            held: rng.bytes(held),
        }
    }

    pub(crate) fn any_item(rng: &mut Xorshift) -> Item {
        match rng.below(8) {
            0 => frame(0x011, &PUBLIC),
            1 => clean(rng.below(256) as u8),
            2 => faulty(rng.below(256) as u8),
            _ => {
                let count = rng.pick(&[0, 1, 2, 3, 4, 5, 6, 7, 8, 8, 8, 9, 20]);
                #[rustfmt::skip]
                let identifiers = [
                    0x000, 0x001, 0x010, 0x011, 0x012, 0x012, 0x013, 0x013, 0x013,
                    0x014, 0x7FF, 0x800, 0x811, 0x8000_0013, u32::MAX,
                ];
                let mut data = rng.bytes(count);
                if rng.one_in(4) {
                    data.fill(0);
                }
                frame(rng.pick(&identifiers), &data)
            }
        }
    }

    #[test]
    fn every_call_is_answered_and_only_0_to_5_and_12_move_anything() {
        let mut rng = Xorshift(0x5E55_1011);
        let mut seen = [0; 13];
        let before = memory();
        for _ in 0..40_000 {
            let session = any_session(&mut rng);
            let item = any_item(&mut rng);
            let mut sram = before.clone();
            if rng.one_in(16) {
                sram.resize(rng.pick(&[0, 1, 65_535, 65_537]), 0);
            }
            let (mut after, mut then) = (session.clone(), sram.clone());
            let answer = after.item(&mut then, &item);
            seen[usize::from(answer.number)] += 1;

            assert_eq!(answer.number == 7, sram.len() != SIZE);
            assert_eq!(answer.number == 8, sram.len() == SIZE && !session.sound());
            let fault = matches!(item, Item::Byte { faulty: true, .. });
            let opened = session.stage != Stage::Waiting && hears(&session, Port::Serial);
            let due = sram.len() == SIZE && session.sound() && opened && fault;
            assert_eq!(answer.number == 12, due);
            if session.sound() {
                assert!(after.sound());
            }
            assert_eq!(after.selected, session.selected);
            assert_eq!(after.entered, session.entered);
            assert_eq!(answer.jump.is_some(), answer.number == 5);
            if matches!(answer.number, 1 | 6 | 7 | 8) {
                assert_eq!(answer, only(answer.number));
                assert_eq!(after, session);
            } else if answer.number == 12 {
                assert_eq!(answer, only(12));
                let vle = matches!(session.stage, Stage::Data { vle: true, .. });
                assert_eq!(after.stage, Stage::Stopped { number: 12, vle });
            } else {
                assert_ne!(after, session);
                let echo = answer.echo.as_ref().unwrap();
                assert_eq!(echo.data, item.lent().bytes());
                assert_eq!(echo.identifier.is_some(), item.port() == Port::Can);
            }
            match session.stage {
                Stage::Data { next, .. } if matches!(answer.number, 0 | 5) => {
                    let from = (next - BASE) as usize;
                    sram[from..from + item.lent().bytes().len()]
                        .copy_from_slice(item.lent().bytes());
                }
                _ => {}
            }
            assert_eq!(then, sram);
        }
        for number in (0..=8).chain([12]) {
            assert!(seen[number] > 0, "{seen:?}");
        }
    }
}

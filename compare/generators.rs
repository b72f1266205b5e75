//! Random inputs of a serial session, shaped like the protocol and bent: passwords,
//! headers, items, lists of items, and the bytes and numbers of sessions.

use crate::c_numbers::{
    moves, Head, COUNT, ENTERED, FAULTY, HELD, NEXT, OWED, PORT, REFUSAL, REFUSALS, STAGE, START,
    VLE,
};
use crate::forms::{both, Length, SessionForm, ANSWER, MORE, SESSION};
use crate::harness::{Lengths, Parts, BASE, RIGHT, SRAM, SRAM_MAX};
use crate::random::Random;
use reference::boot::Entered;
use reference::session::{Item, Port, Session, Stage};
use std::array;

pub const PUBLIC: [u8; 8] = *b"\xFE\xED\xFA\xCE\xCA\xFE\xBE\xEF";
pub const END: u32 = BASE + SRAM as u32;

/// Half words that are legal, each next to one that is not.
const LEGAL: [u16; 8] = [
    0x0001, 0x0100, 0x8000, 0x00FF, 0xFF00, 0xFFFE, 0xFEFF, 0x7FFF,
];

#[rustfmt::skip]
const STARTS: [u32; 24] = [
    0, 3, 4, BASE - SRAM as u32, BASE - 8, BASE - 4, BASE - 1, BASE, BASE + 1, BASE + 3,
    BASE + 4, BASE + 0x8000, END - 8, END - 5, END - 4, END - 3, END - 1, END, END + 3,
    0x7FFF_FFFF, 0x8000_0000, 0xC000_0000, 0xFFFF_FFFC, 0xFFFF_FFFF,
];

#[rustfmt::skip]
const LENGTHS: [u32; 20] = [
    0, 1, 2, 3, 4, 5, 7, 8, 9, 0xFF, 0x100, 65_532, 65_533, 65_535, 65_536, 65_537, 65_540,
    0x4000_0000, 0x4001_0000, 0x7FFF_FFFF,
];

#[rustfmt::skip]
const IDENTIFIERS: [u32; 24] = [
    0x000, 0x001, 0x002, 0x003, 0x010, 0x011, 0x012, 0x013, 0x014, 0x091, 0x111, 0x211,
    0x412, 0x413, 0x7FE, 0x7FF, 0x800, 0x811, 0x812, 0x813, 0x1_0011, 0x8000_0013,
    0xFFFF_0012, 0xFFFF_FFFF,
];

/// Numbers that are put where another belongs.
#[rustfmt::skip]
const NUMBERS: [u32; 25] = [
    0, 1, 2, 3, 4, 5, 6, 7, 8, 9, 12, 0xFF, 0x100, 0x101, 0x102, 0x103, SRAM as u32, BASE - 1,
    BASE, BASE + 1, BASE + 4, END - 1, END, 0x8000_0000, 0xFFFF_FFFF,
];

pub fn frame(identifier: u32, data: &[u8]) -> Item {
    let data = data.to_vec();
    Item::Frame { identifier, data }
}

pub fn clean(value: u8) -> Item {
    let faulty = false;
    Item::Byte { value, faulty }
}

pub fn faulty(value: u8) -> Item {
    let faulty = true;
    Item::Byte { value, faulty }
}

/// The 8 bytes of a header.
pub fn header(start: u32, size: u32) -> [u8; 8] {
    (u64::from(start) << 32 | u64::from(size)).to_be_bytes()
}

/// The items of a load; a data frame has `bytes` bytes.
pub fn load(
    port: Port,
    password: &[u8; 8],
    header: &[u8; 8],
    data: &[u8],
    bytes: usize,
) -> Vec<Item> {
    match port {
        Port::Can => {
            let data = data.chunks(bytes).map(|data| frame(0x013, data));
            let before = [frame(0x011, password), frame(0x012, header)];
            before.into_iter().chain(data).collect()
        }
        Port::Serial => {
            let bytes = [password, &header[..], data].concat();
            bytes.into_iter().map(clean).collect()
        }
    }
}

/// What is meant to be sent.
struct Plan {
    /// The port to open.
    port: Port,
    password: [u8; 8],
    header: [u8; 8],
    /// How many bytes a data frame has.
    bytes: usize,
}

pub struct Maker {
    pub random: Random,
    /// SRAM for what has to be tried to make the next item.
    scratch: Vec<u8>,
}

impl Maker {
    pub fn new(random: Random) -> Self {
        Maker {
            random,
            scratch: vec![0; SRAM],
        }
    }

    pub fn bytes(&mut self, count: usize) -> Vec<u8> {
        (0..count).map(|_| self.random.byte()).collect()
    }

    pub fn octets(&mut self) -> [u8; 8] {
        array::from_fn(|_| self.random.byte())
    }

    /// The mode of a serial choice.
    pub fn mode(&mut self) -> u32 {
        self.random.pick(&[2, 3, 4])
    }

    /// A password that the boot choice selected; not always a legal one.
    pub fn selected(&mut self) -> [u8; 8] {
        match self.random.below(12) {
            0..=4 => PUBLIC,
            5..=8 => self.octets(),
            9 | 10 => {
                let half_words: [_; 4] = array::from_fn(|_| self.random.pick(&LEGAL).to_be_bytes());
                *half_words.as_flattened().first_chunk().unwrap()
            }
            _ => {
                let password = self.octets();
                self.illegal(password)
            }
        }
    }

    /// One half word, or two, made 0000 or FFFF.
    pub fn illegal(&mut self, mut password: [u8; 8]) -> [u8; 8] {
        for _ in 0..self.random.pick(&[1, 1, 1, 2]) {
            let at = 2 * self.random.below(4);
            password[at..at + 2].fill(self.random.pick(&[0x00, 0xFF]));
        }
        password
    }

    /// A password that is sent, mostly the right one.
    fn password(&mut self, selected: [u8; 8]) -> [u8; 8] {
        let mut password = selected;
        match self.random.below(24) {
            0 => password[self.random.below(8)] ^= 1 << self.random.below(8),
            1 => password[self.random.below(8)] = self.random.byte(),
            2 => password.swap(self.random.below(8), self.random.below(8)),
            3 => password = PUBLIC,
            4 => password = self.illegal(password),
            5 => password = self.octets(),
            _ => {}
        }
        password
    }

    /// A header, mostly of a load of at most `most` bytes that fits.
    fn header(&mut self, most: usize) -> [u8; 8] {
        let length = 1 + self.random.below(most) as u32;
        let (start, length) = match self.random.below(24) {
            0..=2 => (self.random.pick(&STARTS), self.random.pick(&LENGTHS)),
            3 => (self.random.pick(&STARTS), length),
            4 => (BASE + self.random.below(SRAM) as u32, 0),
            // About SRAM's end: the low bits that are dropped decide.
            5..=10 => {
                let below_end = (length + 3) & !3;
                let by = self.random.pick(&[0, 0, 0, 1, 2, 3, 4]);
                let length = self.random.pick(&[length, below_end, below_end + 1]);
                (END - below_end + by, length)
            }
            // Long loads; not all bytes will come.
            11 => {
                let length = self.random.pick(&[65_532, 65_535, 65_536, 65_537]);
                (BASE + self.random.below(8) as u32, length)
            }
            12..=14 => (BASE + self.random.below(8) as u32, length),
            _ => (BASE + self.random.below(SRAM - 2 * most) as u32, length),
        };
        header(start, length | u32::from(self.random.chance(2)) << 31)
    }

    fn plan(&mut self, selected: [u8; 8], most: usize) -> Plan {
        Plan {
            port: self.random.pick(&[Port::Can, Port::Serial]),
            password: self.password(selected),
            header: self.header(most),
            bytes: self.random.pick(&[1, 2, 3, 4, 5, 6, 7, 8, 8, 8, 8]),
        }
    }

    /// The plan's next item, by the stage that it has reached. Data frames are now and then too long.
    fn next_item(&mut self, plan: &Plan, session: &Session) -> Item {
        let held = session.held.len();
        match session.stage {
            Stage::Waiting => match plan.port {
                Port::Can => frame(0x011, &plan.password),
                Port::Serial => clean(plan.password[0]),
            },
            Stage::Password { .. } => clean(plan.password[held]),
            Stage::Header { port: Port::Can } => frame(0x012, &plan.header),
            Stage::Header { port: Port::Serial } => clean(plan.header[held]),
            Stage::Data {
                port: Port::Can,
                owed,
                ..
            } => {
                let owed = owed as usize;
                let count = match self.random.below(12) {
                    0 => 1 + self.random.below(8),
                    1 => owed.min(8) + 1,
                    2 => owed.min(7) + 1,
                    _ => plan.bytes.min(owed),
                };
                let data = self.bytes(count);
                frame(0x013, &data)
            }
            Stage::Data {
                port: Port::Serial, ..
            } => clean(self.random.byte()),
            // Nothing is taken any more: the beginning again, or more data.
            Stage::Stopped { .. } | Stage::Jumped { .. } => match self.random.below(4) {
                0 => frame(0x011, &plan.password),
                1 => frame(0x012, &plan.header),
                2 => frame(0x013, &plan.password[..plan.bytes]),
                _ => clean(plan.password[0]),
            },
        }
    }

    /// An item that does not go by the plan.
    fn other_item(&mut self, plan: &Plan, session: &Session) -> Item {
        match self.random.below(12) {
            0 => clean(self.random.byte()),
            1 => faulty(self.random.byte()),
            2 => frame(0x011, &plan.password),
            3 => frame(0x012, &plan.header),
            4 | 5 => {
                let count = self.random.below(9);
                let data = self.bytes(count);
                frame(0x013, &data)
            }
            6 => frame(self.random.number() as u32 & 0x7FF, &plan.password),
            7..=9 => {
                let next = self.next_item(plan, session);
                self.bent_item(next)
            }
            _ => {
                let identifier = self.random.pick(&IDENTIFIERS);
                let count = match self.random.below(4) {
                    0 => self
                        .random
                        .pick(&[9, 10, 12, 16, 17, 24, 255, 256, 257, 264]),
                    1 => 8,
                    _ => self.random.below(9),
                };
                let data = self.bytes(count);
                frame(identifier, &data)
            }
        }
    }

    /// An item with one thing wrong.
    fn bent_item(&mut self, item: Item) -> Item {
        let (mut identifier, mut data) = match item {
            Item::Byte { value, .. } => return faulty(value),
            Item::Frame { identifier, data } => (identifier, data),
        };
        match self.random.below(6) {
            0 => identifier ^= 1 << self.random.below(32),
            1 => identifier ^= 0x010,
            2 => identifier |= 0x800 << self.random.below(21),
            3 => data.push(self.random.byte()),
            4 => drop(data.pop()),
            _ => data.extend_from_slice(&[0; 256]),
        }
        Item::Frame { identifier, data }
    }

    /// A list of items for a fresh session with this password: 1 to 40, seldom some
    /// hundreds.
    pub fn list(&mut self, selected: [u8; 8]) -> Vec<Item> {
        let (most, limit) = match self.random.below(32) {
            0 => (250, 60 + self.random.below(300)),
            1..=6 => (16, 1 + self.random.below(20)),
            _ => (16, 30 + self.random.below(11)),
        };
        self.list_of(selected, most, limit)
    }

    /// A list of at most `limit` items, meant mostly as a load of at most `most` bytes.
    pub fn list_of(&mut self, selected: [u8; 8], most: usize, limit: usize) -> Vec<Item> {
        let plan = self.plan(selected, most);
        // How often another item comes, and whether only where it moves nothing.
        let seldom = self.random.pick(&[1_000, 1_000, 12, 12, 6, 6, 3, 3, 2, 1]);
        let tame = !self.random.chance(4);
        // Another load at the same time, on the other port.
        let mut rival = None;
        if self.random.chance(3) {
            let mut other = self.plan(selected, most);
            other.port = match plan.port {
                Port::Can => Port::Serial,
                Port::Serial => Port::Can,
            };
            rival = Some((other, Head::fresh(Entered::Asked, selected)));
        }

        let mut head = Head::fresh(Entered::Asked, selected);
        let mut items = Vec::new();
        while items.len() < limit {
            let item = match &mut rival {
                Some((plan, head)) if self.random.chance(3) => {
                    let item = self.next_item(plan, &head.session);
                    head.item(&mut self.scratch, &item);
                    item
                }
                _ if self.random.chance(seldom) => {
                    let item = self.other_item(&plan, &head.session);
                    let answer = head.clone().item(&mut self.scratch, &item);
                    if tame && moves(answer.number) {
                        continue;
                    }
                    item
                }
                _ => self.next_item(&plan, &head.session),
            };
            head.item(&mut self.scratch, &item);
            items.push(item);
            let over = matches!(
                head.session.stage,
                Stage::Stopped { .. } | Stage::Jumped { .. }
            );
            if over && self.random.chance(8) {
                break;
            }
        }
        items
    }

    /// Some items for a sound session, mostly such as it waits for.
    pub fn items(&mut self, mut head: Head) -> Vec<Item> {
        let plan = self.plan(head.session.selected, 16);
        let count = 1 + self.random.below(12);
        let mut items = Vec::new();
        while items.len() < count {
            let item = if self.random.chance(3) {
                self.other_item(&plan, &head.session)
            } else {
                self.next_item(&plan, &head.session)
            };
            head.item(&mut self.scratch, &item);
            items.push(item);
        }
        items
    }

    /// Any one item.
    pub fn item(&mut self) -> Item {
        let plan = self.plan(PUBLIC, 16);
        let session = Session::fresh(Entered::Asked, PUBLIC);
        if self.random.chance(2) {
            self.next_item(&plan, &session)
        } else {
            self.other_item(&plan, &session)
        }
    }

    /// A session that was entered so: sound, or bent about the edges of soundness, or of any
    /// numbers.
    pub fn session(&mut self, entered: u32) -> SessionForm {
        let mut session = SessionForm::ZERO;
        session.bytes[..HELD].copy_from_slice(&self.selected());
        // Places that hold no byte keep any.
        if self.random.chance(2) {
            session.bytes[HELD..].copy_from_slice(&self.octets());
        }
        let numbers = &mut session.numbers;
        numbers[ENTERED] = entered;
        if self.random.chance(32) {
            for number in &mut numbers[..ENTERED] {
                *number = self.random.pick(&NUMBERS);
            }
            return session;
        }
        let vle = u32::from(self.random.chance(2));
        let port = u32::from(self.random.chance(2));
        let stage = self.random.pick(&[0, 1, 2, 3, 3, 4, 5]);
        numbers[STAGE] = stage;
        match stage {
            1 => {
                numbers[PORT] = 1;
                numbers[COUNT] = 1 + self.random.below(7) as u32;
            }
            2 => {
                numbers[PORT] = port;
                numbers[COUNT] = port * self.random.below(8) as u32;
            }
            3 => {
                let next = match self.random.below(4) {
                    0 => END - 1 - self.random.below(12) as u32,
                    1 => BASE + self.random.below(12) as u32,
                    _ => BASE + self.random.below(SRAM) as u32,
                };
                let to_end = END - next;
                let start = match self.random.below(3) {
                    0 => BASE,
                    1 => next & !3,
                    _ => (BASE + self.random.below((next - BASE) as usize + 1) as u32) & !3,
                };
                numbers[PORT] = port;
                numbers[START] = start;
                numbers[VLE] = vle;
                numbers[NEXT] = next;
                numbers[OWED] = match self.random.below(3) {
                    0 => to_end,
                    1 => 1 + self.random.below(to_end as usize) as u32,
                    _ => to_end.min(1 + self.random.below(12) as u32),
                };
            }
            4 => {
                let refusal = self.random.pick(&REFUSALS);
                numbers[VLE] = u32::from(refusal == FAULTY) & vle;
                numbers[REFUSAL] = refusal.into();
            }
            5 => {
                numbers[START] = match self.random.below(3) {
                    0 => self.random.number() as u32,
                    1 => self.random.pick(&STARTS),
                    _ => (BASE + self.random.below(SRAM) as u32) & !3,
                };
                numbers[VLE] = vle;
            }
            _ => {}
        }
        for _ in 0..self.random.pick(&[0, 0, 0, 1, 1, 2]) {
            self.bend(&mut session);
        }
        session
    }

    /// A byte or a number of a session made another, but not how it was entered.
    fn bend(&mut self, SessionForm { bytes, numbers }: &mut SessionForm) {
        let random = &mut self.random;
        let next = numbers[NEXT];
        let over = END.wrapping_sub(next).wrapping_add(1);
        let any = random.below(ENTERED);
        #[rustfmt::skip]
        let (at, number) = match random.below(16) {
            0 => (any, random.number() as u32),
            1 | 2 => (any, random.pick(&NUMBERS)),
            // The same in 8 bits.
            3 => (any, numbers[any] | 0x100 << random.below(24)),
            4 => {
                bytes[random.below(SESSION.bytes)] = random.byte();
                return;
            }
            5 => (STAGE, random.pick(&[1, 2, 3, 4, 5, 6, 7, 0x100, 0x103])),
            6 => (PORT, random.pick(&[0, 1, 2, 0x100, 0x101])),
            7 | 8 => (COUNT, random.pick(&[0, 1, 7, 8, 9, 0xFF, 0x100, 0x101])),
            9 => (VLE, random.pick(&[0, 1, 2, 0x100, 0x101])),
            10 => (REFUSAL, random.below(14) as u32),
            // With the last two, next and owed add up to 2^32 or just below it.
            11 => (OWED, random.pick(&[0, over, over, !next, next.wrapping_neg()])),
            12 => (NEXT, random.pick(&[BASE - 1, END - 1, END, END + 1, next.wrapping_add(1)])),
            13 => (START, (next & !3).wrapping_add(random.pick(&[1, 2, 3, 4, 8]))),
            14 => (START, random.pick(&[BASE + 1, BASE + 2, BASE - 4, END, 0])),
            _ => (random.pick(&[PORT, START, VLE, NEXT, OWED, REFUSAL]), 1),
        };
        numbers[at] = number;
    }

    /// Lengths of which some are wrong.
    pub fn lengths(&mut self) -> Lengths {
        let mut lengths = RIGHT;
        if self.random.chance(3) {
            lengths.session = self.wrong(SESSION);
        }
        if self.random.chance(3) {
            lengths.sram = match self.random.below(4) {
                0 => 0,
                1 => SRAM - 1,
                2 => SRAM + 1,
                _ => self.random.below(SRAM_MAX + 1),
            };
        }
        if self.random.chance(2) {
            lengths.answer = self.wrong(ANSWER);
        }
        lengths
    }

    /// The lengths of two lists: mostly one of them is wrong, or both.
    pub fn wrong(&mut self, right: Length) -> Length {
        let Length { bytes, numbers } = right;
        match self.random.below(3) {
            0 => both(self.other_length(bytes), numbers),
            1 => both(bytes, self.other_length(numbers)),
            _ => both(self.other_length(bytes), self.other_length(numbers)),
        }
    }

    fn other_length(&mut self, right: usize) -> usize {
        match self.random.below(4) {
            0 => right - 1,
            1 => right + 1,
            2 => 0,
            _ => self.random.below(right + MORE + 1),
        }
    }

    /// Something of a list made another.
    pub fn bend_parts(&mut self, parts: &mut Parts) {
        let byte = self.random.byte();
        let at = self.random.below(parts.kinds.len().max(1));
        match self.random.below(16) {
            0 => parts.kinds.push(1 + byte % 3),
            1 => drop(parts.kinds.pop()),
            2 => parts.identifiers.push(0x011),
            3 => drop(parts.identifiers.pop()),
            4 => parts.counts.push(self.random.pick(&[0, 1])),
            5 => drop(parts.counts.pop()),
            6 => parts.bytes.push(byte),
            7 => drop(parts.bytes.pop()),
            8 => self.bend_answers(&mut parts.answers, usize::saturating_add),
            9 => self.bend_answers(&mut parts.answers, usize::saturating_sub),
            10..=12 => {
                if let Some(kind) = parts.kinds.get_mut(at) {
                    *kind = self
                        .random
                        .pick(&[0, 1, 2, 3, 4, 5, 0x80, 0x81, 0x82, 0xFF]);
                }
            }
            // A count is one more or less, with or without a byte for it.
            13 | 14 => {
                if let Some(count) = parts.counts.get_mut(at) {
                    let more = *count == 0 || byte & 1 == 0;
                    *count = if more { *count + 1 } else { *count - 1 };
                    match byte & 2 {
                        0 if more => parts.bytes.push(byte),
                        0 => drop(parts.bytes.pop()),
                        _ => {}
                    }
                }
            }
            // Counts whose sum is right in 32 bits.
            _ => {
                for count in parts.counts.iter_mut().take(2) {
                    *count = count.wrapping_add(0x8000_0000);
                }
            }
        }
    }
    /// The echoes or the answers of a list made longer or shorter, or both.
    fn bend_answers(&mut self, answers: &mut Length, by: fn(usize, usize) -> usize) {
        let which = self.random.below(3);
        let whole = self.random.chance(2);
        if which != 0 {
            answers.bytes = by(answers.bytes, if whole { ANSWER.bytes } else { 1 });
        }
        if which != 1 {
            answers.numbers = by(answers.numbers, if whole { ANSWER.numbers } else { 1 });
        }
    }
}

//! The reference's modes, MMU rows, sessions, answers, senders and items to send in the
//! header's numbers.

use crate::foreign::RECORD;
use crate::forms::{
    AnswerForm, Both, ItemForm, Lists, SenderForm, SessionForm, ANSWER, CHOICE, ITEM, SENDER,
    SESSION,
};
use reference::boot::{Entered, Mode};
use reference::mmu;
use reference::sender::{Sender, Sending, Verdict};
use reference::session::{Answer, Item, Port, Session, Stage};
use std::slice;

/// How many MMU rows there are, and how many numbers they have.
pub const ROWS: usize = 5;
pub const TABLE: usize = 8 * ROWS;

/// The numbers that stop a session, the last one for a faulty byte.
pub const REFUSALS: [u8; 4] = [2, 3, 4, FAULTY];
pub const FAULTY: u8 = 12;

// Where the bytes of a session stand: first the 8 of the password selected.
pub const HELD: usize = 8;

// Where the numbers of a session stand.
pub const STAGE: usize = 0;
pub const PORT: usize = 1;
pub const COUNT: usize = 2;
pub const START: usize = 3;
pub const VLE: usize = 4;
pub const NEXT: usize = 5;
pub const OWED: usize = 6;
pub const REFUSAL: usize = 7;
pub const ENTERED: usize = 8;

// Where the numbers of an answer stand. Its bytes are the echo.
pub const NUMBER: usize = 0;
pub const ECHO_IDENTIFIER: usize = 1;
pub const ECHO_LENGTH: usize = 2;
pub const JUMP: usize = 3;
pub const JUMP_VLE: usize = 4;

// Where the numbers of a sender stand. Its bytes are the password.
pub const SENDER_GOING: usize = 0;
pub const SENDER_PORT: usize = 1;
pub const SENDER_START: usize = 2;
pub const SENDER_VLE: usize = 3;
pub const SENDER_IMAGE_LENGTH: usize = 4;
pub const SENDER_PLACE: usize = 5;
pub const SENDER_OUT: usize = 6;

// Where the numbers of an item to send stand.
pub const ITEM_PORT: usize = 0;
pub const ITEM_IDENTIFIER: usize = 1;
pub const ITEM_COUNT: usize = 2;

/// In the order of boot_assist_port and of boot_assist_verdict.
pub const PORTS: [Port; 2] = [Port::Can, Port::Serial];
pub const VERDICTS: [Verdict; 3] = [Verdict::GoesOn, Verdict::Done, Verdict::Abandoned];

/// In the order of boot_assist_mode.
pub const MODES: [Mode; 5] = [
    Mode::Internal,
    Mode::External,
    Mode::Serial(Entered::Asked),
    Mode::Serial(Entered::FromInternal),
    Mode::Serial(Entered::FromExternal),
];

/// Numbers above 255 that are no mode and no port, though some are in 8 or in 16 bits.
#[rustfmt::skip]
pub const WIDE: [u32; 14] = [
    0x100, 0x101, 0x102, 0x103, 0x104, 0x105, 0x1_0000, 0x1_0001, 0x1_0002, 0x100_0003, 1 << 31,
    (1 << 31) + 1, !0 - 1, !0,
];

pub fn mode_number(mode: Mode) -> usize {
    MODES.iter().position(|&other| other == mode).unwrap()
}

pub fn port_number(port: Port) -> usize {
    PORTS.iter().position(|&other| other == port).unwrap()
}

pub fn verdict_number(verdict: Verdict) -> usize {
    VERDICTS.iter().position(|&other| other == verdict).unwrap()
}

/// The mode and the port of a number, if it is one's.
pub fn mode_of(number: u32) -> Option<Mode> {
    MODES.get(number as usize).copied()
}

pub fn port_of(number: u32) -> Option<Port> {
    PORTS.get(number as usize).copied()
}

/// How serial boot was entered, by the number of its mode.
pub fn entered_of(number: u32) -> Option<Entered> {
    match mode_of(number) {
        Some(Mode::Serial(entered)) => Some(entered),
        _ => None,
    }
}

/// A session of the reference with the header's 8 places for held bytes. While a
/// password or header fills up, the places behind keep what they had; an item that is
/// taken and leaves no byte held leaves all of them 0, and so does one that stops the
/// session. Of data the header does not say this: places that are not 0 there are in no
/// session but one that a caller made up.
#[derive(Clone)]
pub struct Head {
    pub session: Session,
    places: [u8; 8],
}

impl Head {
    pub fn fresh(entered: Entered, selected: [u8; 8]) -> Self {
        Head {
            session: Session::fresh(entered, selected),
            places: [0; 8],
        }
    }

    /// The session that has these bytes and numbers, sound or not. There is none if a list
    /// is of another length, a number is out of its range, or one that the stage does not
    /// have is not 0.
    pub fn of((bytes, numbers): Both) -> Option<Self> {
        let form = SessionForm {
            bytes: bytes.try_into().ok()?,
            numbers: numbers.try_into().ok()?,
        };
        let port = port_of(numbers[PORT])?;
        let (start, vle) = (numbers[START], numbers[VLE] == 1);
        let stage = match numbers[STAGE] {
            0 => Stage::Waiting,
            1 => Stage::Password { port },
            2 => Stage::Header { port },
            3 => Stage::Data {
                port,
                start,
                vle,
                next: numbers[NEXT],
                owed: numbers[OWED],
            },
            4 => {
                let number = REFUSALS
                    .into_iter()
                    .find(|&number| numbers[REFUSAL] == u32::from(number))?;
                let vle = number == FAULTY && vle;
                Stage::Stopped { number, vle }
            }
            5 => Stage::Jumped { start, vle },
            _ => return None,
        };
        let (selected, places) = (octets(bytes), octets(&bytes[HELD..]));
        let held = places.get(..numbers[COUNT] as usize)?.to_vec();
        let head = Head {
            session: Session {
                entered: entered_of(numbers[ENTERED])?,
                selected,
                stage,
                held,
            },
            places,
        };
        (head.form() == form).then_some(head)
    }

    /// In the order of the members of boot_assist_session.
    pub fn form(&self) -> SessionForm {
        let port_number = |port| port_number(port) as u32;
        let mut form = SessionForm::ZERO;
        form.bytes[..HELD].copy_from_slice(&self.session.selected);
        form.bytes[HELD..].copy_from_slice(&self.places);
        let numbers = &mut form.numbers;
        numbers[COUNT] = self.session.held.len() as u32;
        numbers[ENTERED] = mode_number(Mode::Serial(self.session.entered)) as u32;
        numbers[STAGE] = match self.session.stage {
            Stage::Waiting => 0,
            Stage::Password { port } => {
                numbers[PORT] = port_number(port);
                1
            }
            Stage::Header { port } => {
                numbers[PORT] = port_number(port);
                2
            }
            Stage::Data {
                port,
                start,
                vle,
                next,
                owed,
            } => {
                numbers[PORT] = port_number(port);
                numbers[START] = start;
                numbers[VLE] = vle.into();
                numbers[NEXT] = next;
                numbers[OWED] = owed;
                3
            }
            Stage::Stopped { number, vle } => {
                numbers[VLE] = vle.into();
                numbers[REFUSAL] = number.into();
                4
            }
            Stage::Jumped { start, vle } => {
                numbers[START] = start;
                numbers[VLE] = vle.into();
                5
            }
        };
        form
    }

    pub fn item(&mut self, sram: &mut [u8], item: &Item) -> Answer {
        let answer = self.session.item(sram, item);
        if moves(answer.number) {
            match &self.session.held[..] {
                [] => self.places = [0; 8],
                held => self.places[..held.len()].copy_from_slice(held),
            }
        }
        answer
    }
}

/// Whether the answer with this number moves the session.
pub fn moves(number: u8) -> bool {
    matches!(number, 0 | 2..=5 | FAULTY)
}

/// In the order of the members of boot_assist_answer. Bytes behind the echo are 0.
pub fn answer_form(answer: &Answer) -> AnswerForm {
    let mut form = only(answer.number);
    if let Some(echo) = &answer.echo {
        form.bytes[..echo.data.len()].copy_from_slice(&echo.data);
        form.numbers[ECHO_IDENTIFIER] = echo.identifier.unwrap_or(0);
        form.numbers[ECHO_LENGTH] = echo.data.len() as u32;
    }
    if let Some((start, vle)) = answer.jump {
        form.numbers[JUMP] = start;
        form.numbers[JUMP_VLE] = vle.into();
    }
    form
}

/// The number alone.
pub fn only(number: u8) -> AnswerForm {
    let mut form = AnswerForm::ZERO;
    form.numbers[NUMBER] = number.into();
    form
}

/// The bytes that an answer echoes.
pub fn echo(answer: &AnswerForm) -> &[u8] {
    beginning(&answer.bytes, answer.numbers[ECHO_LENGTH])
}

/// Entries 0 to 4, each in the order of the members of boot_assist_row.
pub fn table(rows: [mmu::Row; ROWS]) -> [u32; TABLE] {
    let mut numbers = [0; TABLE];
    for (numbers, row) in numbers.chunks_mut(8).zip(rows) {
        numbers.copy_from_slice(&[
            row.logical,
            row.physical,
            row.size,
            row.cache_inhibited.into(),
            row.guarded.into(),
            row.big_endian.into(),
            row.global_pid.into(),
            row.vle.into(),
        ]);
    }
    numbers
}

/// The sender that this form is read as.
pub fn sender_of(form: &SenderForm) -> Sender {
    let numbers = &form.numbers;
    let load = Sending {
        port: match numbers[SENDER_PORT] {
            0 => Port::Can,
            _ => Port::Serial,
        },
        start: numbers[SENDER_START],
        vle: numbers[SENDER_VLE] != 0,
        password: form.bytes,
        length: numbers[SENDER_IMAGE_LENGTH] as usize,
        place: numbers[SENDER_PLACE] as usize,
        out: numbers[SENDER_OUT] != 0,
    };
    Sender {
        load: (numbers[SENDER_GOING] != 0).then_some(load),
    }
}

/// In the order of the members of boot_assist_sender. With no load going all are 0.
pub fn sender_form(sender: &Sender) -> SenderForm {
    let Some(load) = &sender.load else {
        return SenderForm::ZERO;
    };
    let mut numbers = SenderForm::ZERO.numbers;
    numbers[SENDER_GOING] = 1;
    numbers[SENDER_PORT] = port_number(load.port) as u32;
    numbers[SENDER_START] = load.start;
    numbers[SENDER_VLE] = load.vle.into();
    numbers[SENDER_IMAGE_LENGTH] = load.length as u32;
    numbers[SENDER_PLACE] = load.place as u32;
    numbers[SENDER_OUT] = load.out.into();
    Lists {
        bytes: load.password,
        numbers,
    }
}

/// In the order of the members of boot_assist_item. Bytes behind the count are 0.
pub fn item_form(item: &Item) -> ItemForm {
    let mut form = ItemForm::ZERO;
    let (port, identifier, bytes) = match item {
        Item::Frame { identifier, data } => (0, *identifier, &data[..]),
        Item::Byte { value, .. } => (1, 0, slice::from_ref(value)),
    };
    form.bytes[..bytes.len()].copy_from_slice(bytes);
    form.numbers[ITEM_PORT] = port;
    form.numbers[ITEM_IDENTIFIER] = identifier;
    form.numbers[ITEM_COUNT] = bytes.len() as u32;
    form
}

/// The bytes of an item to send.
pub fn item_bytes(item: &ItemForm) -> &[u8] {
    beginning(&item.bytes, item.numbers[ITEM_COUNT])
}

/// The item that a sender's item says; a serial byte is a clean one.
pub fn item_of(item: &ItemForm) -> Item {
    match item.numbers[ITEM_PORT] {
        0 => Item::Frame {
            identifier: item.numbers[ITEM_IDENTIFIER],
            data: item_bytes(item).to_vec(),
        },
        _ => Item::Byte {
            value: item.bytes[0],
            faulty: false,
        },
    }
}

/// The first bytes, so many as there are if the count is larger.
fn beginning(bytes: &[u8], count: u32) -> &[u8] {
    &bytes[..bytes.len().min(count as usize)]
}

fn octets(bytes: &[u8]) -> [u8; 8] {
    *bytes.first_chunk().unwrap()
}

const HEADER: &str = include_str!("../include/boot_assist.h");

/// The numbers that the header names, in its order.
#[rustfmt::skip]
const ENUMS: [(&str, usize); 54] = [
    ("BOOT_ASSIST_ECHO_PASSWORD", 0x001),
    ("BOOT_ASSIST_ECHO_HEADER", 0x002),
    ("BOOT_ASSIST_ECHO_DATA", 0x003),
    ("BOOT_ASSIST_FRAME_PASSWORD", 0x011),
    ("BOOT_ASSIST_FRAME_HEADER", 0x012),
    ("BOOT_ASSIST_FRAME_DATA", 0x013),
    ("BOOT_ASSIST_ANSWERED", 0),
    ("BOOT_ASSIST_TAKEN", 0),
    ("BOOT_ASSIST_IGNORED", 1),
    ("BOOT_ASSIST_WRONG_PASSWORD", 2),
    ("BOOT_ASSIST_LENGTH_ZERO", 3),
    ("BOOT_ASSIST_NOT_IN_SRAM", 4),
    ("BOOT_ASSIST_JUMPS", 5),
    ("BOOT_ASSIST_BAD_FORM", 6),
    ("BOOT_ASSIST_WRONG_SRAM_SIZE", 7),
    ("BOOT_ASSIST_NOT_SOUND", 8),
    ("BOOT_ASSIST_NOT_ALLOWED", 9),
    ("BOOT_ASSIST_BAD_RECORD", 10),
    ("BOOT_ASSIST_EXTERNAL_ROWS", 11),
    ("BOOT_ASSIST_FAULTY_BYTE", 12),
    ("BOOT_ASSIST_MODE_INTERNAL", 0),
    ("BOOT_ASSIST_MODE_EXTERNAL", 1),
    ("BOOT_ASSIST_MODE_SERIAL_DIRECTLY", 2),
    ("BOOT_ASSIST_MODE_SERIAL_FROM_INTERNAL", 3),
    ("BOOT_ASSIST_MODE_SERIAL_FROM_EXTERNAL", 4),
    ("BOOT_ASSIST_STAGE_WAITING", 0),
    ("BOOT_ASSIST_STAGE_PASSWORD", 1),
    ("BOOT_ASSIST_STAGE_HEADER", 2),
    ("BOOT_ASSIST_STAGE_DATA", 3),
    ("BOOT_ASSIST_STAGE_STOPPED", 4),
    ("BOOT_ASSIST_STAGE_JUMPED", 5),
    ("BOOT_ASSIST_PORT_CAN", 0),
    ("BOOT_ASSIST_PORT_SERIAL", 1),
    ("BOOT_ASSIST_KIND_END", 0),
    ("BOOT_ASSIST_KIND_FRAME", 1),
    ("BOOT_ASSIST_KIND_CLEAN", 2),
    ("BOOT_ASSIST_KIND_FAULTY", 3),
    ("BOOT_ASSIST_KIND_RESET", 4),
    ("BOOT_ASSIST_VERDICT_GOES_ON", 0),
    ("BOOT_ASSIST_VERDICT_DONE", 1),
    ("BOOT_ASSIST_VERDICT_ABANDONED", 2),
    ("BOOT_ASSIST_AT_NUMBER", NUMBER),
    ("BOOT_ASSIST_AT_ECHO_IDENTIFIER", ECHO_IDENTIFIER),
    ("BOOT_ASSIST_AT_ECHO_LENGTH", ECHO_LENGTH),
    ("BOOT_ASSIST_AT_JUMP", JUMP),
    ("BOOT_ASSIST_AT_VLE", JUMP_VLE),
    ("BOOT_ASSIST_ANSWER_NUMBERS", ANSWER.numbers),
    ("BOOT_ASSIST_CHOICE_NUMBERS", CHOICE.numbers),
    ("BOOT_ASSIST_ROW_NUMBERS", TABLE / ROWS),
    ("BOOT_ASSIST_SESSION_BYTES", SESSION.bytes),
    ("BOOT_ASSIST_SESSION_NUMBERS", SESSION.numbers),
    ("BOOT_ASSIST_SENDER_NUMBERS", SENDER.numbers),
    ("BOOT_ASSIST_ITEM_NUMBERS", ITEM.numbers),
    ("BOOT_ASSIST_RECORD_NUMBERS", RECORD),
];

/// Compares these with the header's text: no other name, and no other number.
pub fn same_enums() -> Result<(), String> {
    let number = |text: &str| match text.strip_prefix("0x") {
        Some(digits) => usize::from_str_radix(digits, 16).ok(),
        None => text.parse().ok(),
    };
    let words: Vec<_> = HEADER.split_whitespace().collect();
    let mut theirs = Vec::new();
    for three in words.windows(3) {
        if let &[name, "=", text] = three {
            if name.starts_with("BOOT_ASSIST_") {
                theirs.push((name, number(text.trim_end_matches(','))));
            }
        }
    }
    let ours = ENUMS.map(|(name, number)| (name, Some(number)));
    if theirs != ours {
        let same = theirs.iter().zip(&ours).take_while(|(a, b)| a == b).count();
        return Err(format!(
            "include/boot_assist.h, name {}: {:?}, and the comparison {:?}\n",
            same + 1,
            theirs.get(same),
            ours.get(same)
        ));
    }
    Ok(())
}

/// What the bytes and the numbers of a form are called, by their index.
pub type Names = [fn(usize) -> String; 2];

pub const SESSION_NAMES: Names = [
    |index| match index {
        0..HELD => format!("selected {index}"),
        _ => byte_of("held", index, HELD),
    },
    |index| {
        #[rustfmt::skip]
        let names = [
            "stage", "port", "count", "start", "VLE", "next", "owed", "refusal", "entered",
        ];
        name_of(index, &names)
    },
];

pub const ANSWER_NAMES: Names = [
    |index| byte_of("echo", index, 0),
    |index| {
        let names = [
            "number",
            "echo identifier",
            "echo length",
            "jump",
            "jump VLE",
        ];
        name_of(index, &names)
    },
];

pub const CHOICE_NAMES: Names = [
    |index| byte_of("password", index, 0),
    |index| {
        #[rustfmt::skip]
        let names = ["mode", "place", "looked", "jump", "watchdog", "bus16", "flash", "nexus"];
        name_of(index, &names)
    },
];

pub const SENDER_NAMES: Names = [
    |index| byte_of("password", index, 0),
    |index| {
        let names = [
            "going",
            "port",
            "start",
            "VLE",
            "image length",
            "place",
            "out",
        ];
        name_of(index, &names)
    },
];

pub const ITEM_NAMES: Names = [
    |index| byte_of("item byte", index, 0),
    |index| name_of(index, &["item port", "item identifier", "item count"]),
];

pub fn table_name(index: usize) -> String {
    #[rustfmt::skip]
    let names = [
        "logical", "physical", "size", "inhibited", "guarded", "big endian", "global PID", "VLE",
    ];
    match index {
        0..TABLE => format!("row {} {}", index / 8, names[index % 8]),
        _ => format!("beyond, {index}"),
    }
}

pub fn name_of(index: usize, names: &[&str]) -> String {
    match names.get(index) {
        Some(&name) => name.into(),
        None => format!("beyond, {index}"),
    }
}

/// One of 8 bytes from `first` on.
fn byte_of(name: &str, index: usize, first: usize) -> String {
    match index - first {
        at @ 0..8 => format!("{name} {at}"),
        _ => format!("byte beyond, {index}"),
    }
}

//! The calls of a sender, the truck's side of a load, handed to the library and to the
//! reference side by side. After every call everything that it could have written is
//! compared, and what it may only read with what it was.

use crate::c_numbers::{
    echo, item_bytes, item_form, port_of, sender_form, sender_of, verdict_number, ECHO_IDENTIFIER,
    ITEM_IDENTIFIER, ITEM_NAMES, ITEM_PORT, SENDER_GOING, SENDER_NAMES, SENDER_PLACE, SENDER_PORT,
};
use crate::differences::{hex, line, list_line, number_lines, room_lines};
use crate::foreign::{Library, Verdict, VERDICT};
use crate::forms::{
    both, AnswerForm, Both, ItemForm, ItemRoom, Length, SenderForm, SenderRoom, ITEM, SENDER, WRONG,
};
use crate::random::Random;
use crate::sender_images::{Image, Images};
use crate::{Among, Tally};
use reference::sender::{Heard, Sender};
use reference::session::Port;
use std::fmt;

const VERDICTS: [&str; 3] = ["goes on", "done", "abandoned"];
/// What 9 is for at the beginning, and 8 after it, beside the lengths of the sender; and what
/// 1 is for.
const NINES: [&str; 2] = ["port", "password"];
const EIGHTS: [&str; 3] = ["3 or 4", "image", "place"];
const ONES: [&str; 2] = ["no load", "none out"];
/// The items of both ports: of the password, the header and the image.
const ITEMS: [[&str; 3]; 2] = [
    ["CAN password", "CAN header", "CAN data"],
    ["serial password", "serial header", "serial data"],
];
/// How what is told comes about.
pub const TOLD: [&str; 8] = [
    "right",
    "again",
    "late",
    "none",
    "byte",
    "identifier",
    "length",
    "port",
];

/// What the call is handed that begins a load.
#[derive(Clone)]
pub struct Begin {
    pub port: u32,
    pub start: u32,
    pub vle: u8,
    pub password: Vec<u8>,
    pub image: Image,
    pub sender: Length,
}

impl fmt::Display for Begin {
    fn fmt(&self, f: &mut fmt::Formatter) -> fmt::Result {
        let Begin {
            port, start, vle, ..
        } = self;
        let (length, password) = (self.password.len(), hex(&self.password));
        write!(f, "port {port:#x}, start {start:#010x}, ")?;
        writeln!(f, "VLE {vle}, password, {length}:{password}")
    }
}

/// What the call is handed that tells an echo.
#[derive(Clone)]
pub struct Told {
    pub port: u32,
    pub identifier: u32,
    pub bytes: Vec<u8>,
}

impl Told {
    /// The echo of an item. By serial the identifier is not looked at, and is not 0.
    pub fn echo_of(item: &ItemForm) -> Self {
        Told {
            port: item.numbers[ITEM_PORT],
            identifier: item.numbers[ITEM_IDENTIFIER].wrapping_sub(0x010),
            bytes: item_bytes(item).to_vec(),
        }
    }

    /// What a head has answered, on the port where it was sent the item. Nothing comes
    /// where it does not echo.
    pub fn answered(port: u32, answer: &AnswerForm) -> Self {
        Told {
            port,
            identifier: answer.numbers[ECHO_IDENTIFIER],
            bytes: echo(answer).to_vec(),
        }
    }

    /// As the reference hears it; not at a port that is none.
    pub fn heard(&self) -> Option<Heard<'_>> {
        let bytes = &self.bytes;
        let identifier = self.identifier;
        match port_of(self.port)? {
            Port::Can => Some(Heard::Can { identifier, bytes }),
            Port::Serial => Some(Heard::Serial { bytes }),
        }
    }
}

impl fmt::Display for Told {
    fn fmt(&self, f: &mut fmt::Formatter) -> fmt::Result {
        let (length, bytes) = (self.bytes.len(), hex(&self.bytes));
        let Told {
            port, identifier, ..
        } = self;
        write!(f, "port {port:#x}, ")?;
        writeln!(f, "identifier {identifier:#05x}, {length}:{bytes}")
    }
}

/// What a call returned, and all that it could write.
#[derive(Clone, PartialEq)]
struct Left {
    number: u8,
    sender: SenderRoom,
    item: ItemRoom,
    verdict: Verdict,
}

pub struct Senders<'a> {
    pub random: Random,
    pub library: Library,
    pub images: Images,
    tally: &'a mut Tally,
    /// Whether the inputs are now random ones, for the tally.
    pub at_random: bool,
    /// The sender at hand, which both have.
    sender: SenderRoom,
}

impl<'a> Senders<'a> {
    pub fn new(mut random: Random, tally: &'a mut Tally) -> Self {
        let [nines, eights] = [&NINES[..], &EIGHTS].map(|causes| [&WRONG, causes].concat());
        for (thing, values) in [
            ("begin", &["0", "3", "4", "9"][..]),
            ("begin 9 for", &nines),
            ("ask", &["0", "1", "8", "9"]),
            ("ask 9 for", &WRONG),
            ("item", ITEMS.as_flattened()),
            ("tell", &["0", "1", "8", "9"]),
            ("told", &TOLD),
            ("tell 1 for", &ONES),
            ("verdict", &VERDICTS),
            ("sender 8 for", &eights),
        ] {
            tally.expect(thing, Among::Random, values);
        }
        Senders {
            images: Images::new(random.number()),
            library: Library::new(Random::new(random.number())),
            random,
            tally,
            at_random: false,
            sender: SenderRoom::ZERO,
        }
    }

    /// Goes on with any sender.
    pub fn clear(&mut self) {
        self.sender = SenderRoom::random(&mut self.random);
    }

    /// Goes on with this sender, and random bytes and numbers behind it.
    pub fn set(&mut self, sender: &SenderForm) {
        self.clear();
        self.sender.put(sender);
    }

    /// A number of the sender at hand.
    pub fn number(&self, at: usize) -> u32 {
        self.sender.number(at)
    }

    pub fn going(&self) -> bool {
        self.number(SENDER_GOING) != 0
    }

    pub fn begin(&mut self, begin: &Begin) -> Result<u8, String> {
        let (mut ours, mut due) = self.sides();
        let mut password = begin.password.clone();
        ours.number = self.library.begin(
            begin.port,
            begin.start,
            begin.vle,
            &mut password,
            self.images.lent(begin.image),
            (&mut ours.sender, begin.sender),
        );
        due.number = due_begin(begin, &mut due.sender);
        let lent = [&password[..], &begin.password];
        let number = due.number;
        self.compare([ours, due], lent, begin.image, begin.sender, || {
            begin.to_string()
        })?;
        self.count("begin", &number.to_string());
        if number == 9 {
            let [port, password] = NINES;
            let cause = match (begin.sender.wrong(SENDER), port_of(begin.port)) {
                (Some(wrong), _) => wrong,
                (None, None) => port,
                (None, Some(_)) => password,
            };
            self.count("begin 9 for", cause);
        }
        Ok(number)
    }

    /// Answers the item, if there is one.
    pub fn ask(&mut self, image: Image) -> Result<Option<ItemForm>, String> {
        self.ask_with(image, SENDER, ITEM)
    }

    /// Asks with the lengths as told.
    pub fn ask_with(
        &mut self,
        image: Image,
        sender_len: Length,
        item_len: Length,
    ) -> Result<Option<ItemForm>, String> {
        let before = self.sender;
        let (mut ours, mut due) = self.sides();
        ours.number = self.library.ask(
            (&mut ours.sender, sender_len),
            self.images.lent(image),
            (&mut ours.item, item_len),
        );
        due.number = due_ask(
            (&mut due.sender, sender_len),
            self.images.bytes(image),
            (&mut due.item, item_len),
        );
        let (number, item) = (due.number, due.item.form());
        self.compare([ours, due], [&[]; 2], image, sender_len, || {
            format!("item: {item_len}\n")
        })?;
        self.count("ask", &number.to_string());
        self.count_eight(number, &before, sender_len, image);
        if number == 9 {
            self.count("ask 9 for", item_len.wrong(ITEM).unwrap());
        }
        if number != 0 {
            return Ok(None);
        }
        let of_password_header_image = (before.number(SENDER_PLACE) / 8).min(2) as usize;
        let port = item.numbers[ITEM_PORT] as usize;
        self.count("item", ITEMS[port][of_password_header_image]);
        Ok(Some(item))
    }

    /// Answers the verdict, if there is one.
    pub fn tell(&mut self, image: Image, told: &Told) -> Result<Option<u8>, String> {
        self.tell_with(image, SENDER, told)
    }

    /// Tells with the lengths as told.
    pub fn tell_with(
        &mut self,
        image: Image,
        sender_len: Length,
        told: &Told,
    ) -> Result<Option<u8>, String> {
        let before = self.sender;
        let (mut ours, mut due) = self.sides();
        let mut bytes = told.bytes.clone();
        ours.number = self.library.tell(
            (&mut ours.sender, sender_len),
            self.images.lent(image),
            told.port,
            told.identifier,
            &mut bytes,
            &mut ours.verdict,
        );
        due.number = due_tell(
            (&mut due.sender, sender_len),
            self.images.bytes(image),
            told,
            &mut due.verdict[VERDICT],
        );
        let (number, verdict) = (due.number, due.verdict[VERDICT]);
        self.compare(
            [ours, due],
            [&bytes, &told.bytes],
            image,
            sender_len,
            || told.to_string(),
        )?;
        self.count("tell", &number.to_string());
        self.count_eight(number, &before, sender_len, image);
        match number {
            0 => {
                self.count("verdict", VERDICTS[usize::from(verdict)]);
                return Ok(Some(verdict));
            }
            1 => {
                let going = before.number(SENDER_GOING).min(1);
                self.count("tell 1 for", ONES[going as usize]);
            }
            _ => {}
        }
        Ok(None)
    }

    /// What both sides have before a call: the sender at hand, and random outputs.
    fn sides(&mut self) -> (Left, Left) {
        let left = Left {
            number: 0,
            sender: self.sender,
            item: ItemRoom::random(&mut self.random),
            verdict: self.random.number().to_le_bytes(),
        };
        (left.clone(), left)
    }

    /// Compares what a call returned and wrote with what it should have, and what it was
    /// lent to read, afterwards and before it.
    fn compare(
        &mut self,
        [ours, due]: [Left; 2],
        lent: [&[u8]; 2],
        image: Image,
        sender_len: Length,
        input: impl Fn() -> String,
    ) -> Result<(), String> {
        let wrote = [lent[0] != lent[1], self.images.changed(image)];
        if ours == due && wrote == [false; 2] {
            self.sender = due.sender;
            self.tally.inputs += 1;
            return Ok(());
        }
        let mut text = format!("{}, {}", self.library.way, input());
        text += &sender_line(self.sender.lent(sender_len));
        text += &self.images.shown(image);
        text += &format!("  {:<16} {:<24} reference\n", "", "ours");
        let [left, right] = [&ours, &due].map(|side| side.number.to_string());
        text += &line("returned", &left, &right);
        let [left, right] = [&ours, &due].map(|side| side.sender.all());
        text += &room_lines(left, right, SENDER, SENDER_NAMES);
        let [left, right] = [&ours, &due].map(|side| side.item.all());
        text += &room_lines(left, right, both(0, 0), ITEM_NAMES);
        text += &number_lines(&ours.verdict, &due.verdict, 0, verdict_name);
        for (name, wrote) in ["password or echo", "image"].iter().zip(wrote) {
            if wrote {
                text += &line(name, "written", "only read");
            }
        }
        Err(text)
    }

    /// Counts calls of the library that are compared elsewhere.
    pub fn compared(&mut self, calls: u64) {
        self.tally.inputs += calls;
    }

    pub fn expect(&mut self, thing: &'static str, values: &[&'static str]) {
        self.tally.expect(thing, Among::Random, values);
    }

    pub fn count(&mut self, thing: &str, value: &str) {
        self.tally.count(thing, value, self.at_random);
    }

    /// Counts the calls of the library, when all are made.
    pub fn count_calls(&mut self) {
        self.tally.calls.add(&self.library.calls);
    }

    fn count_eight(&mut self, number: u8, sender: &SenderRoom, length: Length, image: Image) {
        if number == 8 {
            let cause = length.wrong(SENDER);
            let cause = cause.unwrap_or_else(|| not_sound(&sender.form(), image));
            self.count("sender 8 for", cause);
        }
    }
}

/// Why the load of this sender is not sound.
fn not_sound(sender: &SenderForm, image: Image) -> &'static str {
    let [refused, other_image, place] = EIGHTS;
    let load = sender_of(sender).load.expect("a load that is going");
    let (number, _) = Sender::begin(load.port, load.start, load.vle, load.password, load.length);
    if number != 0 {
        refused
    } else if image.length != load.length {
        other_image
    } else {
        place
    }
}

/// The reference's answer, after what the C interface alone refuses.
fn due_begin(begin: &Begin, sender: &mut SenderRoom) -> u8 {
    if begin.sender != SENDER {
        return 9;
    }
    let password = <[u8; 8]>::try_from(&begin.password[..]);
    let (number, after) = match (port_of(begin.port), password) {
        (Some(port), Ok(password)) => {
            let vle = begin.vle != 0;
            Sender::begin(port, begin.start, vle, password, begin.image.length)
        }
        _ => (9, Sender { load: None }),
    };
    sender.put(&sender_form(&after));
    number
}

/// The C interface alone refuses other lengths of the sender, before all, and of the item,
/// after all.
fn due_ask(
    (sender, sender_len): (&mut SenderRoom, Length),
    image: &[u8],
    (item, item_len): (&mut ItemRoom, Length),
) -> u8 {
    if sender_len != SENDER {
        return 8;
    }
    let mut theirs = sender_of(&sender.form());
    let (number, answer) = theirs.ask(image);
    if let Some(answer) = answer {
        if item_len != ITEM {
            return 9;
        }
        item.put(&item_form(&answer));
        sender.put(&sender_form(&theirs));
    }
    number
}

/// The C interface alone refuses other lengths of the sender, before all, and what is no
/// port, after all.
fn due_tell(
    (sender, sender_len): (&mut SenderRoom, Length),
    image: &[u8],
    told: &Told,
    verdict: &mut u8,
) -> u8 {
    if sender_len != SENDER {
        return 8;
    }
    let mut theirs = sender_of(&sender.form());
    let Some(heard) = told.heard() else {
        let any = Heard::Serial { bytes: &[] };
        return match theirs.tell(image, &any).0 {
            0 => 9,
            number => number,
        };
    };
    let (number, answer) = theirs.tell(image, &heard);
    if let Some(answer) = answer {
        *verdict = verdict_number(answer) as u8;
        sender.put(&sender_form(&theirs));
    }
    number
}

fn verdict_name(index: usize) -> String {
    match index {
        VERDICT => "verdict".into(),
        _ => format!("byte at {index}"),
    }
}

/// The password; whether a load is going, the port with start, VLE and length, the place and
/// whether it is out.
fn sender_line(sender: Both) -> String {
    list_line("sender", sender, [&[], &[SENDER_PORT, SENDER_PLACE]])
}

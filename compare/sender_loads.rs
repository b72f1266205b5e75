//! Whole loads: each of the two senders against each of the two heads, over a clean line;
//! and document 002's exchange from the library's sender.

use crate::c_numbers::{
    answer_form, entered_of, item_form, item_of, sender_form, verdict_number, Head, ANSWER_NAMES,
    ENTERED, HELD, ITEM_NAMES, ITEM_PORT, NUMBER, PORTS, REFUSAL, SENDER_NAMES, SESSION_NAMES,
    STAGE, START, VLE,
};
use crate::differences::{form_lines, hex, line};
use crate::foreign::{Library, VERDICT};
use crate::forms::{
    both as lengths, AnswerForm, AnswerRoom, ItemForm, ItemRoom, SenderForm, SenderRoom,
    SessionForm, SessionRoom, ANSWER, ITEM, SENDER, SESSION,
};
use crate::harness::{BASE, SRAM};
use crate::random::Random;
use crate::sender_harness::{Begin, Senders, Told};
use crate::sender_images::Image;
use crate::session_exchanges::Exchange;
use reference::sender::Sender;
use reference::session::Item;
use std::fmt;

pub const LOADS: [[&str; 2]; 2] = [["CAN VLE 0", "CAN VLE 1"], ["serial VLE 0", "serial VLE 1"]];
const DONE: u8 = 1;
const ABANDONED: u8 = 2;

/// What one item makes of a pair: of asking, of the head and of telling.
#[derive(PartialEq)]
struct Turn {
    asked: u8,
    item: ItemForm,
    sender_asked: SenderForm,
    answer: AnswerForm,
    session: SessionForm,
    told: u8,
    verdict: u8,
    sender_told: SenderForm,
}

impl Turn {
    /// What differs from another turn.
    fn lines(&self, other: &Turn) -> String {
        let number = |name, [one, other]: [u8; 2]| match one == other {
            true => String::new(),
            false => line(name, &one.to_string(), &other.to_string()),
        };
        let none = lengths(0, 0);
        let sender = |name, one: &SenderForm, other: &SenderForm| {
            let lines = form_lines(one.all(), other.all(), none, SENDER_NAMES);
            if lines.is_empty() {
                lines
            } else {
                format!("{name}\n{lines}")
            }
        };
        [
            number("asked", [self.asked, other.asked]),
            form_lines(self.item.all(), other.item.all(), none, ITEM_NAMES),
            sender("asked", &self.sender_asked, &other.sender_asked),
            form_lines(self.answer.all(), other.answer.all(), none, ANSWER_NAMES),
            form_lines(self.session.all(), other.session.all(), none, SESSION_NAMES),
            number("told", [self.told, other.told]),
            number("verdict", [self.verdict, other.verdict]),
            sender("told", &self.sender_told, &other.sender_told),
        ]
        .concat()
    }
}

/// A load that begins, and the fresh head that it is sent to.
pub struct Load {
    pub port: u32,
    pub start: u32,
    pub vle: u8,
    pub password: [u8; 8],
    pub image: Image,
    /// The head's mode and the password that it has selected.
    pub mode: u32,
    pub selected: [u8; 8],
    /// Whether the head takes the password.
    pub passes: bool,
}

impl fmt::Display for Load {
    fn fmt(&self, f: &mut fmt::Formatter) -> fmt::Result {
        let port = ["CAN", "serial"][self.port as usize];
        let selected = hex(&self.selected);
        let (start, vle, mode) = (self.start, self.vle, self.mode);
        write!(f, "a load by {port}, start {start:#010x}, VLE {vle}, ")?;
        writeln!(f, "password:{}", hex(&self.password))?;
        writeln!(f, "the head's mode {mode}, its password:{selected}")
    }
}

/// The library's sender and head, and the reference's.
enum Truck {
    Ours(SenderRoom),
    Theirs(Sender),
}

enum Facing {
    Ours(SessionRoom),
    Theirs(Head),
}

impl Truck {
    fn ours(load: &Load, library: &mut Library, image: &mut [u8]) -> (u8, Self) {
        let (mut sender, mut password) = (SenderRoom::ONES, load.password);
        let number = library.begin(
            load.port,
            load.start,
            load.vle,
            &mut password,
            image,
            (&mut sender, SENDER),
        );
        (number, Truck::Ours(sender))
    }

    fn theirs(load: &Load) -> (u8, Self) {
        let (port, vle) = (PORTS[load.port as usize], load.vle != 0);
        let (number, sender) =
            Sender::begin(port, load.start, vle, load.password, load.image.length);
        (number, Truck::Theirs(sender))
    }

    fn form(&self) -> SenderForm {
        match self {
            Truck::Ours(sender) => sender.form(),
            Truck::Theirs(sender) => sender_form(sender),
        }
    }

    fn ask(&mut self, library: &mut Library, image: &mut [u8]) -> (u8, ItemForm) {
        match self {
            Truck::Ours(sender) => {
                let mut item = ItemRoom::ZERO;
                let number = library.ask((sender, SENDER), image, (&mut item, ITEM));
                (number, item.form())
            }
            Truck::Theirs(sender) => {
                let (number, item) = sender.ask(image);
                (number, item.map_or(ItemForm::ZERO, |item| item_form(&item)))
            }
        }
    }

    /// Answers the number and the verdict, which is abandoned where there is none.
    fn tell(&mut self, library: &mut Library, image: &mut [u8], told: &Told) -> (u8, u8) {
        match self {
            Truck::Ours(sender) => {
                let (mut bytes, mut verdict) = (told.bytes.clone(), [ABANDONED; 8]);
                let number = library.tell(
                    (sender, SENDER),
                    image,
                    told.port,
                    told.identifier,
                    &mut bytes,
                    &mut verdict,
                );
                (number, verdict[VERDICT])
            }
            Truck::Theirs(sender) => {
                let (number, verdict) = sender.tell(image, &told.heard().unwrap());
                let verdict = verdict.map(|verdict| verdict_number(verdict) as u8);
                (number, verdict.unwrap_or(ABANDONED))
            }
        }
    }
}

impl Facing {
    fn ours(load: &Load, library: &mut Library) -> Self {
        Facing::Ours(our_head(library, load.mode, &load.selected))
    }

    fn theirs(load: &Load) -> Self {
        let entered = entered_of(load.mode).unwrap();
        Facing::Theirs(Head::fresh(entered, load.selected))
    }

    fn form(&self) -> SessionForm {
        match self {
            Facing::Ours(session) => session.form(),
            Facing::Theirs(head) => head.form(),
        }
    }

    fn item(&mut self, library: &mut Library, sram: &mut [u8], item: &Item) -> AnswerForm {
        match self {
            Facing::Ours(session) => our_answer(library, session, sram, item),
            Facing::Theirs(head) => answer_form(&head.item(sram, item)),
        }
    }
}

/// A fresh session of the library's.
fn our_head(library: &mut Library, mode: u32, selected: &[u8; 8]) -> SessionRoom {
    let mut session = SessionRoom::ONES;
    library.fresh(mode, selected, &mut session, SESSION);
    session
}

fn our_answer(
    library: &mut Library,
    session: &mut SessionRoom,
    sram: &mut [u8],
    item: &Item,
) -> AnswerForm {
    let mut answer = AnswerRoom::ZERO;
    let (session, lent) = ((session, SESSION), (&mut answer, ANSWER));
    let number = match item {
        Item::Frame { identifier, data } => library.frame(session, sram, *identifier, data, lent),
        Item::Byte { value, faulty } => {
            library.byte(session, sram, *value, u8::from(*faulty), lent)
        }
    };
    let mut answer: AnswerForm = answer.form();
    answer.numbers[NUMBER] = number.into();
    answer
}

struct Pair {
    name: &'static str,
    truck: Truck,
    head: Facing,
    sram: Vec<u8>,
}

impl Pair {
    /// One item is asked for, sent, and its echo told.
    fn turn(&mut self, library: &mut Library, image: &mut [u8]) -> Turn {
        let (asked, item) = self.truck.ask(library, image);
        let sender_asked = self.truck.form();
        let answer = self.head.item(library, &mut self.sram, &item_of(&item));
        let told = Told::answered(item.numbers[ITEM_PORT].min(1), &answer);
        let (told, verdict) = self.truck.tell(library, image, &told);
        Turn {
            asked,
            item,
            sender_asked,
            answer,
            session: self.head.form(),
            told,
            verdict,
            sender_told: self.truck.form(),
        }
    }
}

impl Load {
    /// How many items are sent, the verdict on the last, and the head's session after it.
    fn end(&self) -> (usize, u8, SessionForm) {
        let mut session = SessionForm::ZERO;
        session.bytes[..HELD].copy_from_slice(&self.selected);
        let numbers = &mut session.numbers;
        numbers[ENTERED] = self.mode;
        let serial = self.port == 1;
        if !self.passes {
            // The password is echoed, the first item of the header is not.
            numbers[STAGE] = 4;
            numbers[REFUSAL] = 2;
            return (if serial { 9 } else { 2 }, ABANDONED, session);
        }
        numbers[STAGE] = 5;
        numbers[START] = self.start & !3;
        numbers[VLE] = u32::from(self.vle != 0);
        let length = self.image.length;
        let items = if serial {
            16 + length
        } else {
            2 + length.div_ceil(8)
        };
        (items, DONE, session)
    }

    /// Runs the four pairs item by item, and compares what each item makes of them and
    /// what they have in the end.
    pub fn run(&self, both: &mut Senders) -> Result<(), String> {
        let seed = both.random.number();
        let mut random = Random::new(seed);
        let before: Vec<u8> = (0..SRAM / 8)
            .flat_map(|_| random.number().to_le_bytes())
            .collect();
        let (library, image) = (&mut both.library, both.images.lent(self.image));
        let compared = self.pairs(library, image, &before).and_then(|mut pairs| {
            let items = self.turns(&mut pairs, library, image)?;
            self.ended(&pairs, image, before)?;
            Ok(items)
        });
        let report = |text: &str| {
            let image = both.images.shown(self.image);
            format!("{self}{image}SRAM filled from seed {seed:#x}\n{text}")
        };
        let items = match compared {
            Ok(_) if both.images.changed(self.image) => Err(report("the image was written\n")),
            compared => compared.map_err(|text| report(&text)),
        }?;
        // Two pairs have our sender, and two our head; each begins.
        both.compared(2 * (2 + 3 * items));
        both.count(
            "load",
            match (self.passes, self.password == self.selected) {
                (true, _) => LOADS[self.port as usize][usize::from(self.vle != 0)],
                (false, true) => "illegal",
                (false, false) => "wrong",
            },
        );
        Ok(())
    }

    /// Each sender with each head, all fresh. The others are compared with the first.
    fn pairs(
        &self,
        library: &mut Library,
        image: &mut [u8],
        sram: &[u8],
    ) -> Result<[Pair; 4], String> {
        let trucks = [
            Truck::theirs(self),
            Truck::theirs(self),
            Truck::ours(self, library, image),
            Truck::ours(self, library, image),
        ];
        let numbers = trucks.each_ref().map(|(number, _)| *number);
        if numbers != [0; 4] {
            return Err(format!("begun with {numbers:?}, theirs first; 0 is due\n"));
        }
        let pair = |name, (_, truck), head| Pair {
            name,
            truck,
            head,
            sram: sram.to_vec(),
        };
        let [a, b, c, d] = trucks;
        Ok([
            pair("theirs to theirs", a, Facing::theirs(self)),
            pair("theirs to ours", b, Facing::ours(self, library)),
            pair("ours to theirs", c, Facing::theirs(self)),
            pair("ours to ours", d, Facing::ours(self, library)),
        ])
    }

    /// Turns until the load does not go on. Answers how many.
    fn turns(
        &self,
        pairs: &mut [Pair; 4],
        library: &mut Library,
        image: &mut [u8],
    ) -> Result<u64, String> {
        let (items, verdict, _) = self.end();
        for item in 1..=items {
            let turns = pairs.each_mut().map(|pair| pair.turn(library, image));
            for (pair, turn) in pairs.iter().zip(&turns) {
                if *turn != turns[0] {
                    let title = title(pair.name, pairs[0].name);
                    let lines = turn.lines(&turns[0]);
                    return Err(format!("item {item}\n{title}{lines}"));
                }
            }
            let due = [0, 0, if item == items { verdict } else { 0 }];
            let numbers = [turns[0].asked, turns[0].told, turns[0].verdict];
            if numbers != due {
                return Err(format!(
                    "item {item} of {items}: asked, told, verdict {numbers:?}, {due:?} is due\n"
                ));
            }
        }
        Ok(items as u64)
    }

    /// The heads' sessions and SRAM, and the senders, which have no load going any more.
    fn ended(&self, pairs: &[Pair; 4], image: &[u8], mut sram: Vec<u8>) -> Result<(), String> {
        let (_, verdict, session) = self.end();
        if verdict == DONE {
            let from = ((self.start & !3) - BASE) as usize;
            sram[from..][..image.len()].copy_from_slice(image);
        }
        for pair in pairs {
            let name = pair.name;
            let ours = pair.head.form();
            if ours != session {
                let lines = form_lines(ours.all(), session.all(), SESSION, SESSION_NAMES);
                let title = title(name, "due");
                return Err(format!("the head's session in the end\n{title}{lines}"));
            }
            if let Some(at) = (0..SRAM).find(|&at| pair.sram[at] != sram[at]) {
                let [left, right] = [&pair.sram, &sram].map(|sram| sram[at]);
                return Err(format!(
                    "{name}, SRAM from {at:#x} on: {left:02X}, {right:02X} is due\n"
                ));
            }
            if pair.truck.form() != SenderForm::ZERO {
                return Err(format!("{name}: a load is going\n"));
            }
        }
        Ok(())
    }
}

fn title(one: &str, other: &str) -> String {
    format!("  {:<16} {one:<24} {other}\n", "")
}

/// 002's exchange: both senders are asked and told side by side, the library's head
/// answers, and each item and each echo is compared with what is printed.
pub fn exchange(exchange: &Exchange, both: &mut Senders) -> Result<(), String> {
    let name = exchange.name;
    let compared = compare_exchange(exchange, both);
    compared.map_err(|difference| format!("{name}, from a sender\n{difference}"))
}

fn compare_exchange(exchange: &Exchange, both: &mut Senders) -> Result<(), String> {
    let image = both.images.of(&exchange.loaded);
    let begin = begin_of(exchange, image);
    let items = [642, 5_136][begin.port as usize];
    if exchange.turns.len() != items {
        return Err(format!("{items} items are due\n"));
    }
    both.clear();
    both.begin(&begin)?;
    let selected = begin.password[..].try_into().unwrap();
    let (mut session, mut sram) = (our_head(&mut both.library, 2, &selected), vec![0; SRAM]);
    both.compared(1);
    for (index, (item, printed)) in exchange.turns.iter().enumerate() {
        let asked = both.ask(image)?.unwrap_or(ItemForm::ZERO);
        let sent = item_of(&asked);
        let answer = our_answer(&mut both.library, &mut session, &mut sram, &sent);
        let told = Told::answered(begin.port, &answer);
        let verdict = both.tell(image, &told)?;
        both.compared(1);

        let due = if index + 1 == items { DONE } else { 0 };
        let right = asked == item_form(item) && answer == *printed && verdict == Some(due);
        if !right {
            let mut text = format!("item {} of {items}, verdict {verdict:?}\n", index + 1);
            text += &title("ours", "printed");
            text += &form_lines(asked.all(), item_form(item).all(), ITEM, ITEM_NAMES);
            return Err(text + &form_lines(answer.all(), printed.all(), ANSWER, ANSWER_NAMES));
        }
    }
    let session: SessionForm = session.form();
    if session != exchange.after || !sram.starts_with(&exchange.loaded) || both.going() {
        let lines = form_lines(session.all(), exchange.after.all(), SESSION, SESSION_NAMES);
        let title = title("ours", "printed");
        return Err(format!("the head's session in the end\n{title}{lines}"));
    }
    Ok(())
}

/// The beginning that sends the password and the header of an exchange.
fn begin_of(exchange: &Exchange, image: Image) -> Begin {
    let (port, first): (u32, Vec<u8>) = match &exchange.turns[..2] {
        [(Item::Frame { data, .. }, _), (Item::Frame { data: header, .. }, _)] => {
            (0, [&data[..], header].concat())
        }
        _ => {
            let items = exchange.items();
            let bytes = items.iter().map(|item| match item {
                Item::Byte { value, .. } => *value,
                Item::Frame { .. } => 0,
            });
            (1, bytes.take(16).collect())
        }
    };
    Begin {
        port,
        start: u32::from_be_bytes(first[8..12].try_into().unwrap()),
        vle: first[12] >> 7,
        password: first[..8].to_vec(),
        image,
        sender: SENDER,
    }
}

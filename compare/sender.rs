//! The truck's side of a load: fixed inputs, random beginnings, runs and senders, and
//! whole loads.

use crate::c_numbers::{SENDER_GOING, SENDER_OUT, SENDER_START, WIDE};
use crate::foreign::{self, VERDICT};
use crate::forms::{ItemForm, SenderForm, SenderRoom, ITEM, SENDER};
use crate::generators::{Maker, PUBLIC};
use crate::harness::{BASE, SRAM};
use crate::random::Random;
use crate::sender_generators::{LENGTHS, STARTS};
use crate::sender_harness::{Begin, Senders, Told};
use crate::sender_images::Image;
use crate::sender_loads::{self, Load, LOADS};
use crate::session_exchanges::document_002;
use crate::Tally;

/// How many random beginnings, runs and senders there are to a whole load.
const TO_A_LOAD: u64 = 12;

/// Compares the fixed inputs, then `count` random beginnings, runs and senders and some
/// whole loads, then large ones. An error is the report of the first difference.
pub fn run(mut random: Random, count: u64, tally: &mut Tally) -> Result<(), String> {
    let mut both = Senders::new(Random::new(random.number()), tally);
    let loads = [LOADS.as_flattened(), &["wrong", "illegal"]].concat();
    both.expect("load", &loads);
    let mut run = Run {
        both,
        maker: Maker::new(random),
    };
    for exchange in document_002() {
        sender_loads::exchange(&exchange, &mut run.both)?;
    }
    run.beginnings()?;
    run.ports_and_vles()?;
    run.refusals()?;
    run.places()?;
    run.echoes()?;
    run.long_echoes()?;

    run.both.at_random = true;
    for index in 0..count {
        run.random_begin()?;
        run.random_run()?;
        run.random_sender()?;
        if index % TO_A_LOAD == 0 {
            run.random_load()?;
        }
    }
    run.both.at_random = false;
    run.large_loads()?;
    run.both.count_calls();
    Ok(())
}

/// A load that is going: 002's password and start, with VLE.
fn sample(port: u32, length: usize, place: u32, out: u32) -> SenderForm {
    SenderForm {
        bytes: PUBLIC,
        numbers: [1, port, BASE, 1, length as u32, place, out],
    }
}

/// A run of a load: the image, the item asked for last, and the one before it.
struct Going {
    image: Image,
    item: ItemForm,
    before: ItemForm,
}

struct Run<'a> {
    both: Senders<'a>,
    maker: Maker,
}

impl Run<'_> {
    /// Starts and lengths at their edges, with right and wrong ports and lengths of
    /// password and sender: 9, 3, 4 in order.
    fn beginnings(&mut self) -> Result<(), String> {
        for start in STARTS {
            for length in LENGTHS {
                for port in [0, 1, 2, 0x100, 0x101] {
                    for password_len in [7, 8, 9] {
                        for sender in SENDER.few() {
                            let begin = Begin {
                                port,
                                start,
                                vle: self.maker.random.byte(),
                                password: self.maker.bytes(password_len),
                                image: self.maker.image_of(length),
                                sender,
                            };
                            self.both.clear();
                            self.both.begin(&begin)?;
                        }
                    }
                }
            }
        }
        Ok(())
    }

    /// Every port of 8 bits and wider ones, and every number for VLE; lengths of the sender.
    fn ports_and_vles(&mut self) -> Result<(), String> {
        let mut begin = self.maker.good_begin(40);
        for port in (0..=255).chain(WIDE) {
            for vle in 0..=255 {
                begin.port = port;
                begin.vle = vle;
                self.both.clear();
                self.both.begin(&begin)?;
            }
        }
        for port in [0, 1, 2] {
            for sender in SENDER.many() {
                begin.port = port;
                begin.sender = sender;
                self.both.clear();
                self.both.begin(&begin)?;
            }
        }
        Ok(())
    }

    /// What asking and telling refuse, each alone and together, so that the order shows.
    fn refusals(&mut self) -> Result<(), String> {
        let image = self.maker.image_of(9);
        let longer = self.maker.image_of(10);
        for going in [0, 1, 2, 1 << 31] {
            for out in [0, 1, 2, 1 << 31] {
                for port in [0, 1, 2, 1 << 31] {
                    for place in [0, 8, 9, 16, 25, !7] {
                        for start in [BASE, BASE - 1] {
                            let mut sender = sample(port, 9, place, out);
                            sender.numbers[SENDER_GOING] = going;
                            sender.numbers[SENDER_START] = start;
                            self.refusals_of(&sender, image)?;
                            self.refusals_of(&sender, longer)?;
                        }
                    }
                }
            }
        }
        Ok(())
    }

    fn refusals_of(&mut self, sender: &SenderForm, image: Image) -> Result<(), String> {
        for sender_len in SENDER.many() {
            let items = match sender_len {
                SENDER => ITEM.many(),
                _ => ITEM.few().to_vec(),
            };
            for item_len in items {
                self.both.set(sender);
                self.both.ask_with(image, sender_len, item_len)?;
            }
            for port in [0, 1, 2, 255, 256, 257, !0] {
                let told = Told {
                    port,
                    identifier: 0x001,
                    bytes: PUBLIC[..if port == 0 { 8 } else { 1 }].to_vec(),
                };
                self.both.set(sender);
                self.both.tell_with(image, sender_len, &told)?;
            }
        }
        Ok(())
    }

    /// Every place about those at which items of short images begin, and far ones: what
    /// is asked for there, its echo, and none.
    fn places(&mut self) -> Result<(), String> {
        let far = [1 << 16, 1 << 31, !24, !23, !15, !7, !0];
        for length in [1, 2, 7, 8, 9, 15, 16, 17, 20] {
            let image = self.maker.image_of(length);
            for place in (0..50).chain(far) {
                for port in [0, 1, 7] {
                    for out in [0, 1, 2] {
                        let sender = sample(port, length, place, out);
                        self.both.set(&sender);
                        let item = self.both.ask(image)?.unwrap_or(ItemForm::ZERO);
                        self.both.tell(image, &Told::echo_of(&item))?;
                        self.both.set(&sender);
                        self.both.tell(image, &Told::echo_of(&item))?;
                        self.both.set(&sender);
                        self.both.tell(image, &Told::echo_of(&ItemForm::ZERO))?;
                    }
                }
            }
        }
        Ok(())
    }

    /// All that must not pass for an item's echo, at items of each part, the last one of
    /// which has 8 bytes, 5, or 1, which serial might echo.
    fn echoes(&mut self) -> Result<(), String> {
        for length in [8, 13, 17] {
            let image = self.maker.image_of(length);
            for (port, place) in [
                (0, 0),
                (0, 8),
                (0, 16),
                (0, 15 + length as u32 & !7),
                (1, 0),
                (1, 7),
                (1, 8),
                (1, 15),
                (1, 16),
                (1, 15 + length as u32),
            ] {
                let sender = sample(port, length, place, 1);
                self.both.set(&sender);
                let item = self.both.ask(image)?.unwrap_or(ItemForm::ZERO);
                for told in others(&Told::echo_of(&item)) {
                    self.both.set(&sender);
                    self.both.tell(image, &told)?;
                }
            }
        }
        Ok(())
    }

    /// Echoes that would be the item's if their length had 32 bits. By the header any other
    /// echo abandons the load. Each is told often enough for a flat and a typed call.
    fn long_echoes(&mut self) -> Result<(), String> {
        let zeros = foreign::zeros((1 << 32) + 8);
        for (port, count) in [(0, 8), (1, 1)] {
            for _ in 0..8 {
                let echo = &mut zeros[..(1 << 32) + count];
                let (mut image, mut verdict) = ([0; 9], [0xFF; 8]);
                let mut form = sample(port, image.len(), 0, 1);
                form.bytes.fill(0);
                let mut sender = SenderRoom::ZERO;
                sender.put(&form);
                let library = &mut self.both.library;
                let lent = (&mut sender, SENDER);
                let number = library.tell(lent, &mut image, port, 0x001, echo, &mut verdict);
                if (number, verdict[VERDICT]) != (0, 2) || sender != SenderRoom::ZERO {
                    let (way, length) = (library.way, echo.len());
                    let (bytes, numbers) = sender.all();
                    return Err(format!(
                        "{way}, port {port}, {length} bytes 00 for {count}\n\
                         returned {number}, verdict {}, sender {bytes:X?} {numbers:X?}\n",
                        verdict[VERDICT]
                    ));
                }
                self.both.compared(1);
            }
        }
        Ok(())
    }

    fn random_begin(&mut self) -> Result<(), String> {
        let begin = self.maker.begin();
        self.both.clear();
        self.both.begin(&begin).map(|_| ())
    }

    /// Asks and tells, from a load that is begun on.
    fn random_run(&mut self) -> Result<(), String> {
        let begin = self.maker.good_begin(24);
        self.both.clear();
        self.both.begin(&begin)?;
        let mut going = Going {
            image: begin.image,
            item: ItemForm::ZERO,
            before: ItemForm::ZERO,
        };
        // How often something else comes than what goes on.
        let seldom = (self.maker.random).pick(&[1_000, 1_000, 64, 24, 12, 6, 3, 2, 1]);
        for _ in 0..20 + self.maker.random.below(100) {
            if self.maker.random.chance(seldom) {
                self.other_step(&mut going)?;
            } else {
                self.step(&mut going)?;
            }
            if !self.both.going() && self.maker.random.chance(4) {
                break;
            }
        }
        Ok(())
    }

    /// What goes on with the load: the next item, or its echo.
    fn step(&mut self, going: &mut Going) -> Result<(), String> {
        if self.both.number(SENDER_OUT) == 0 {
            return self.ask(going);
        }
        self.tell(going, &Told::echo_of(&going.item), "right")
    }

    fn ask(&mut self, going: &mut Going) -> Result<(), String> {
        let again = self.both.number(SENDER_OUT) != 0;
        if let Some(item) = self.both.ask(going.image)? {
            if !again {
                going.before = going.item;
            }
            going.item = item;
        }
        Ok(())
    }

    fn tell(&mut self, going: &Going, told: &Told, how: &str) -> Result<(), String> {
        self.both.count("told", how);
        self.both.tell(going.image, told).map(|_| ())
    }

    /// Something else: an item asked for again, another echo or none, a new beginning,
    /// another image, or lengths and ports that are none.
    fn other_step(&mut self, going: &mut Going) -> Result<(), String> {
        let echo = Told::echo_of(&going.item);
        let out = self.both.number(SENDER_OUT) != 0;
        match self.maker.random.below(14) {
            0 | 1 => self.ask(going),
            2 => self.tell(going, &echo, if out { "right" } else { "again" }),
            3 => {
                let late = Told::echo_of(&going.before);
                self.tell(going, &late, "late")
            }
            4 => {
                let bytes = Vec::new();
                self.tell(going, &Told { bytes, ..echo }, "none")
            }
            5..=9 => {
                let (told, how) = self.maker.bent_told(echo);
                self.tell(going, &told, how)
            }
            10 => self.begin_again(going),
            11 => self.swapped(going, &echo),
            12 => {
                let sender_len = self.maker.length(SENDER, 2);
                let item_len = self.maker.length(ITEM, 2);
                let asked = self.both.ask_with(going.image, sender_len, item_len);
                asked.map(|item| going.item = item.unwrap_or(going.item))
            }
            _ => {
                let port = self.maker.no_port();
                let sender_len = self.maker.length(SENDER, 4);
                let told = Told { port, ..echo };
                let told = self.both.tell_with(going.image, sender_len, &told);
                told.map(|_| ())
            }
        }
    }

    /// A beginning in the middle, which may be refused.
    fn begin_again(&mut self, going: &mut Going) -> Result<(), String> {
        let begin = match self.maker.random.chance(2) {
            true => self.maker.begin(),
            false => self.maker.good_begin(24),
        };
        if self.both.begin(&begin)? == 0 {
            going.image = begin.image;
        }
        Ok(())
    }

    /// Another image, mostly of another length, for one call; seldom for good.
    fn swapped(&mut self, going: &mut Going, echo: &Told) -> Result<(), String> {
        let image = self.maker.other_image(going.image.length);
        if self.maker.random.chance(2) {
            self.both.ask(image)?;
        } else {
            self.both.tell(image, echo)?;
        }
        if self.maker.random.chance(8) {
            going.image = image;
        }
        Ok(())
    }

    /// A random sender: asked, told from the same one, and on from there.
    fn random_sender(&mut self) -> Result<(), String> {
        let (sender, image) = self.maker.sender();
        let sender_len = self.maker.length(SENDER, 24);
        let item_len = self.maker.length(ITEM, 24);
        self.both.set(&sender);
        let item = self.both.ask_with(image, sender_len, item_len)?;
        let echo = Told::echo_of(&item.unwrap_or(ItemForm::ZERO));
        let (mut told, how) = match self.maker.random.chance(3) {
            true => self.maker.bent_told(echo.clone()),
            false => (echo.clone(), "right"),
        };
        if self.maker.random.chance(24) {
            told.port = self.maker.no_port();
        }
        self.both.set(&sender);
        self.both.count("told", how);
        let sender_len = self.maker.length(SENDER, 24);
        self.both.tell_with(image, sender_len, &told)?;

        self.both.set(&sender);
        let mut going = Going {
            image,
            item: ItemForm::ZERO,
            before: ItemForm::ZERO,
        };
        for _ in 0..self.maker.random.below(6) {
            self.step(&mut going)?;
        }
        Ok(())
    }

    /// A whole load, mostly of a short image.
    fn random_load(&mut self) -> Result<(), String> {
        let length = match self.maker.random.below(64) {
            0 => 1 + self.maker.random.below(8_000),
            1..=5 => 1 + self.maker.random.below(300),
            _ => 1 + self.maker.random.below(40),
        };
        let port = self.maker.random.pick(&[0, 1]);
        self.load(port, length)
    }

    fn large_loads(&mut self) -> Result<(), String> {
        self.load(0, SRAM)?;
        self.load(1, SRAM)
    }

    /// A whole load. By the random ones one head in a few does not take the password.
    fn load(&mut self, port: u32, length: usize) -> Result<(), String> {
        let mut selected = self.legal();
        let mut password = selected;
        let passes = !self.both.at_random || !self.maker.random.chance(8);
        if !passes && self.maker.random.chance(2) {
            selected = self.maker.illegal(selected);
            password = selected;
        } else if !passes {
            password[self.maker.random.below(8)] ^= 1 << self.maker.random.below(8);
        }
        let load = Load {
            port,
            start: self.maker.fitting(length),
            vle: self.maker.random.pick(&[0, 0, 1, 0xFF]),
            password,
            image: self.maker.image_of(length),
            mode: self.maker.mode(),
            selected,
            passes,
        };
        load.run(&mut self.both)
    }

    /// A legal password.
    fn legal(&mut self) -> [u8; 8] {
        loop {
            let password = self.maker.octets();
            let mut half_words = password.chunks(2);
            if half_words.all(|half| half != [0x00, 0x00] && half != [0xFF, 0xFF]) {
                return password;
            }
        }
    }
}

/// Other echoes than this one: every port and identifier, and some beyond, each bit
/// changed, and other lengths, also such as are the same in 8 and 16 bits.
fn others(echo: &Told) -> Vec<Told> {
    let mut others = Vec::new();
    for identifier in (0..0x800).chain([0x801, 0x802, 0x803, 0x1_0003, 0x8000_0001, !0]) {
        for port in [0, 1] {
            let bytes = echo.bytes.clone();
            others.push(Told {
                port,
                identifier,
                bytes,
            });
        }
    }
    for port in (0..=255).chain(WIDE) {
        others.push(Told {
            port,
            ..echo.clone()
        });
    }
    for bit in 0..8 * echo.bytes.len() {
        let mut told = echo.clone();
        told.bytes[bit / 8] ^= 1 << (bit % 8);
        others.push(told);
    }
    for length in (0..=20).chain(255..=265).chain(65_536..=65_544) {
        let mut told = echo.clone();
        told.bytes.resize(length, 0);
        others.push(told);
    }
    let mut twice = echo.clone();
    twice.bytes.extend_from_within(..);
    others.push(twice);
    others
}

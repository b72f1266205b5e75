//! The truck's side of a load: document 02, E1; source document 002, sections 5 and 7.
//!
//! The synchronization byte and message of 002 belong to baud rate detection, which is
//! left out: the first item of a load is the password or its first byte.

use crate::session::{Header, Item, Port, NOT_SOUND};

/// A load that is going.
#[derive(Clone, Debug, PartialEq, Eq)]
pub struct Sending {
    pub port: Port,
    /// The start address as given.
    pub start: u32,
    pub vle: bool,
    pub password: [u8; 8],
    /// The length of the image the load was begun with.
    pub length: usize,
    /// Where the item that is out or next begins, counted in bytes over password, header
    /// and image in this order.
    pub place: usize,
    /// Whether an item was asked for since the last echo.
    pub out: bool,
}

/// The sender: a load that is going, or none.
#[derive(Clone, Debug, PartialEq, Eq)]
pub struct Sender {
    pub load: Option<Sending>,
}

/// What the truck heard after an item. No echo at all is one without bytes.
#[derive(Clone, Copy, Debug, PartialEq, Eq)]
pub enum Heard<'a> {
    Can { identifier: u32, bytes: &'a [u8] },
    Serial { bytes: &'a [u8] },
}

/// What an echo makes of the load.
#[derive(Clone, Copy, Debug, PartialEq, Eq)]
pub enum Verdict {
    GoesOn,
    Done,
    Abandoned,
}

/// 01, number 0, "another call answered".
const ANSWERED: u8 = 0;
/// 02, E1: asking with no load going, or an echo with no item out.
const NOTHING_GOING: u8 = 1;

/// The image follows the 8 bytes of the password and the 8 of the header.
const IMAGE: usize = 16;

impl Sending {
    /// The number 3 or 4, if 01 has the head answer the load's header with it. A length
    /// that 32 bits do not hold is far beyond SRAM, and so is the one put in its place.
    fn refusal(&self) -> Option<u8> {
        let header = Header {
            start: self.start & !0b11,
            vle: self.vle,
            length: u32::try_from(self.length).unwrap_or(u32::MAX),
        };
        header.refusal()
    }

    /// 02, E1, the sentence on number 8. The end is looked at only once the length is
    /// known to be that of a load in SRAM.
    fn sound(&self, image: &[u8]) -> bool {
        let begins = match self.port {
            Port::Can => self.place % 8 == 0,
            Port::Serial => true,
        };
        let fits = self.refusal().is_none() && image.len() == self.length;
        fits && begins && self.place < IMAGE + self.length
    }

    /// 003, Figure 21-7. The length of a load that is sound has 17 bits at most, so the
    /// VLE bit stays clear of it.
    fn header(&self) -> [u8; 8] {
        let [a, b, c, d] = self.start.to_be_bytes();
        let size = (u32::from(self.vle) << 31) | self.length as u32;
        let [e, f, g, h] = size.to_be_bytes();
        [a, b, c, d, e, f, g, h]
    }

    /// The bytes of the item at the place: one by serial, 8 or the rest by CAN. By CAN
    /// items begin at multiples of 8, so none runs from one part into the next.
    fn bytes(&self, image: &[u8]) -> Vec<u8> {
        let count = match self.port {
            Port::Can => 8,
            Port::Serial => 1,
        };
        let header = self.header();
        let all = self.password.iter().chain(&header).chain(image);
        all.skip(self.place).take(count).copied().collect()
    }

    /// 002, Table 5: what the frame at the place is sent under, and what it is echoed
    /// under.
    fn identifiers(&self) -> (u32, u32) {
        match self.place {
            0..=7 => (0x011, 0x001),
            8..=15 => (0x012, 0x002),
            _ => (0x013, 0x003),
        }
    }

    /// The item at the place of a load that is sound.
    fn item(&self, image: &[u8]) -> Item {
        let data = self.bytes(image);
        match self.port {
            Port::Can => Item::Frame {
                identifier: self.identifiers().0,
                data,
            },
            Port::Serial => Item::Byte {
                value: data[0],
                faulty: false,
            },
        }
    }

    /// Whether what was heard is the echo that 01 fixes for the item of these bytes.
    fn echoed(&self, bytes: &[u8], heard: &Heard) -> bool {
        match (self.port, *heard) {
            (
                Port::Can,
                Heard::Can {
                    identifier,
                    bytes: echo,
                },
            ) => identifier == self.identifiers().1 && echo == bytes,
            (Port::Serial, Heard::Serial { bytes: echo }) => echo == bytes,
            // The other port's.
            (Port::Can, Heard::Serial { .. }) | (Port::Serial, Heard::Can { .. }) => false,
        }
    }
}

impl Sender {
    /// Begins a load: 0, or 3 or 4 with none going.
    pub fn begin(
        port: Port,
        start: u32,
        vle: bool,
        password: [u8; 8],
        image_length: usize,
    ) -> (u8, Sender) {
        let load = Sending {
            port,
            start,
            vle,
            password,
            length: image_length,
            place: 0,
            out: false,
        };
        match load.refusal() {
            Some(number) => (number, Sender { load: None }),
            None => (ANSWERED, Sender { load: Some(load) }),
        }
    }

    /// Asks for the item to send: 0 with it, or 1 or 8.
    pub fn ask(&mut self, image: &[u8]) -> (u8, Option<Item>) {
        let Some(load) = &mut self.load else {
            return (NOTHING_GOING, None);
        };
        if !load.sound(image) {
            return (NOT_SOUND, None);
        }
        load.out = true;
        (ANSWERED, Some(load.item(image)))
    }

    /// Tells what was heard: 0 with what becomes of the load, or 1 or 8.
    pub fn tell(&mut self, image: &[u8], heard: &Heard) -> (u8, Option<Verdict>) {
        let Some(load) = &mut self.load else {
            return (NOTHING_GOING, None);
        };
        if !load.sound(image) {
            return (NOT_SOUND, None);
        }
        if !load.out {
            return (NOTHING_GOING, None);
        }

        let bytes = load.bytes(image);
        let verdict = if !load.echoed(&bytes, heard) {
            Verdict::Abandoned
        } else if load.place + bytes.len() == IMAGE + load.length {
            Verdict::Done
        } else {
            Verdict::GoesOn
        };
        if verdict == Verdict::GoesOn {
            load.place += bytes.len();
            load.out = false;
        } else {
            self.load = None;
        }
        (ANSWERED, Some(verdict))
    }
}

#[cfg(test)]
mod tests {
    use super::*;
    use crate::boot::Entered;
    use crate::session::tests::{clean, frame, header, memory, stopped, Xorshift, PUBLIC};
    use crate::session::{load, plain, Echo, Load, Session, Stage};

    const BASE: u32 = 0x4000_0000;
    const PORTS: [Port; 2] = [Port::Can, Port::Serial];
    /// 002, Tables 13 and 14: start 0x4000_0000, VLE, 0x1400 bytes.
    const HEADER: [u8; 8] = [0x40, 0, 0, 0, 0x80, 0, 0x14, 0];
    const NONE_GOING: Sender = Sender { load: None };

    /// A load of 002's start, VLE bit and password that has just been begun.
    fn sending(port: Port, length: usize) -> Sending {
        Sending {
            port,
            start: BASE,
            vle: true,
            password: PUBLIC,
            length,
            place: 0,
            out: false,
        }
    }

    fn going(load: Sending) -> Sender {
        Sender { load: Some(load) }
    }

    /// The items of a load and their echoes, written out as a list.
    fn listed(port: Port, password: [u8; 8], header: [u8; 8], image: &[u8]) -> Vec<(Item, Echo)> {
        let both = |sent, identifier, data: &[u8]| {
            let data = data.to_vec();
            (sent, Echo { identifier, data })
        };
        match port {
            Port::Can => {
                let mut list = vec![
                    both(frame(0x011, &password), Some(0x001), &password),
                    both(frame(0x012, &header), Some(0x002), &header),
                ];
                let data = image.chunks(8);
                list.extend(data.map(|data| both(frame(0x013, data), Some(0x003), data)));
                list
            }
            Port::Serial => [&password[..], &header, image]
                .concat()
                .into_iter()
                .map(|byte| both(clean(byte), None, &[byte]))
                .collect(),
        }
    }

    /// What a truck on the port hears of the head's echo, if there was one.
    fn heard(port: Port, echo: Option<&Echo>) -> Heard<'_> {
        let bytes = echo.map_or(&[][..], |echo| &echo.data);
        match port {
            Port::Can => Heard::Can {
                identifier: echo.and_then(|echo| echo.identifier).unwrap_or(0),
                bytes,
            },
            Port::Serial => Heard::Serial { bytes },
        }
    }

    fn head(selected: [u8; 8]) -> Session {
        Session::fresh(Entered::Asked, selected)
    }

    /// Runs a load against a head over a clean line until it no longer goes on. Answers
    /// the last verdict and the items sent.
    fn run(
        mut sender: Sender,
        image: &[u8],
        head: &mut Session,
        sram: &mut [u8],
    ) -> (Verdict, Vec<Item>) {
        let port = sender.load.as_ref().unwrap().port;
        let mut items = Vec::new();
        loop {
            let (number, item) = sender.ask(image);
            assert_eq!(number, 0);
            let item = item.unwrap();
            let answer = head.item(sram, &item);
            items.push(item);
            let (number, verdict) = sender.tell(image, &heard(port, answer.echo.as_ref()));
            assert_eq!(number, 0);
            let verdict = verdict.unwrap();
            assert_eq!(verdict != Verdict::GoesOn, sender == NONE_GOING);
            if verdict != Verdict::GoesOn {
                return (verdict, items);
            }
        }
    }

    /// Both calls must get `number` alone and change nothing, whatever is told.
    fn unmoved(sender: &Sender, image: &[u8], number: u8) {
        let mut after = sender.clone();
        assert_eq!(after.ask(image), (number, None), "{sender:?}");
        assert_eq!(after, *sender);
        untold(sender, image, number);
    }

    /// Telling must get `number` alone and change nothing, whatever is told.
    fn untold(sender: &Sender, image: &[u8], number: u8) {
        let (first, none) = (&PUBLIC[..1], &[][..]);
        for (identifier, bytes) in [(0x001, &PUBLIC[..]), (0x003, first), (!0, none)] {
            for heard in [Heard::Can { identifier, bytes }, Heard::Serial { bytes }] {
                let mut after = sender.clone();
                assert_eq!(after.tell(image, &heard), (number, None), "{sender:?}");
                assert_eq!(after, *sender);
            }
        }
    }

    // 002, section 7: the exchange, against this program's own head.

    #[test]
    fn document_002_exchange_by_both_ports() {
        for port in PORTS {
            let image = Xorshift(0xE1).bytes(5_120);
            let (number, mut sender) = Sender::begin(port, BASE, true, PUBLIC, image.len());
            assert_eq!(number, 0);
            assert_eq!(sender, going(sending(port, 5_120)));
            let (mut head, mut sram) = (head(PUBLIC), memory());
            let list = listed(port, PUBLIC, HEADER, &image);
            let last = list.len() - 1;
            for (i, (item, echo)) in list.into_iter().enumerate() {
                assert_eq!(sender.ask(&image), (0, Some(item.clone())));
                let answer = head.item(&mut sram, &item);
                assert_eq!(answer.number, if i == last { 5 } else { 0 });
                assert_eq!(answer.echo, Some(echo));
                let told = sender.tell(&image, &heard(port, answer.echo.as_ref()));
                let verdict = [Verdict::GoesOn, Verdict::Done][usize::from(i == last)];
                assert_eq!(told, (0, Some(verdict)));
            }
            assert_eq!(sender, NONE_GOING);
            let (start, vle) = (BASE, true);
            assert_eq!(head.stage, Stage::Jumped { start, vle });
            assert_eq!(sram[..5_120], image);
            assert_eq!(sram[5_120..], memory()[5_120..]);
        }
    }

    #[test]
    fn place_and_out_after_each_call() {
        let image = Xorshift(0x91ACE).bytes(21);
        for (port, places) in [
            (Port::Can, vec![0, 8, 16, 24, 32]),
            (Port::Serial, Vec::from_iter(0..37)),
        ] {
            let list = listed(port, PUBLIC, header(BASE, 0x8000_0015), &image);
            assert_eq!(list.len(), places.len());
            let (_, mut sender) = Sender::begin(port, BASE, true, PUBLIC, 21);
            for (place, (item, echo)) in places.into_iter().zip(list) {
                let mut load = sending(port, 21);
                load.place = place;
                assert_eq!(sender, going(load.clone()));
                untold(&sender, &image, 1);
                load.out = true;
                // Asking again gives the same.
                for _ in 0..3 {
                    assert_eq!(sender.ask(&image), (0, Some(item.clone())));
                    assert_eq!(sender, going(load.clone()));
                }
                let (number, _) = sender.tell(&image, &heard(port, Some(&echo)));
                assert_eq!(number, 0);
            }
            assert_eq!(sender, NONE_GOING);
        }
    }

    // 02, E1: with a clean line, a fresh head and the right legal password.

    /// Every item is echoed, and after the last one the head has jumped with the image in SRAM.
    fn delivered(port: Port, start: u32, vle: bool, password: [u8; 8], image: &[u8]) {
        let (number, sender) = Sender::begin(port, start, vle, password, image.len());
        assert_eq!(number, 0);
        let (mut head, mut sram) = (head(password), memory());
        let (verdict, items) = run(sender, image, &mut head, &mut sram);
        assert_eq!(verdict, Verdict::Done);

        // The start is sent as given, and its low bits are dropped by the head.
        let size = (u32::from(vle) << 31) | image.len() as u32;
        let list = listed(port, password, header(start, size), image);
        assert!(items.iter().eq(list.iter().map(|(item, _)| item)));
        let (given, start) = (plain(&items), start & !0b11);
        let bytes = image.to_vec();
        assert_eq!(load(&password, &given), Some(Load { start, vle, bytes }));

        assert_eq!(head.stage, Stage::Jumped { start, vle });
        let mut expected = memory();
        let from = (start - BASE) as usize;
        expected[from..from + image.len()].copy_from_slice(image);
        assert!(sram == expected);
    }

    #[test]
    fn loads_of_all_kinds_are_delivered() {
        let image = Xorshift(0xDE11).bytes(65_536);
        let password = *b"\x00\x01\xFF\x00\x00\xFF\xFF\xFE";
        for port in PORTS {
            for length in (1..=33).chain([0xFF, 0x100, 0x101, 0xFFFF, 0x1_0000]) {
                delivered(port, BASE, length % 2 == 0, PUBLIC, &image[..length]);
            }
            for low in 0..4 {
                delivered(port, BASE + 0xFFFC + low, true, password, &image[..4]);
                delivered(port, BASE + 0x100 + low, false, password, &image[..77]);
                delivered(port, BASE + low, true, password, &image);
            }
        }
    }

    /// The head echoes the whole password and then echoes nothing.
    #[test]
    fn a_wrong_or_illegal_password_is_sent_and_ends_abandoned() {
        let illegal = *b"\xFE\xED\x00\x00\xCA\xFE\xBE\xEF";
        for (password, selected) in [(*b"password", PUBLIC), (illegal, illegal)] {
            for (port, count) in [(Port::Can, 2), (Port::Serial, 9)] {
                let (number, sender) = Sender::begin(port, BASE, true, password, 5_120);
                assert_eq!(number, 0);
                let (mut head, mut sram) = (head(selected), memory());
                let (verdict, items) = run(sender, &[7; 5_120], &mut head, &mut sram);
                assert_eq!(verdict, Verdict::Abandoned);
                let list = listed(port, password, HEADER, &[7; 5_120]);
                assert!(items.iter().eq(list[..count].iter().map(|(item, _)| item)));
                assert_eq!(head.stage, stopped(2));
                assert_eq!(sram, memory());
            }
        }
    }

    /// 02, E2: the head echoes no faulty byte, so the load it ends is abandoned here too.
    /// The first byte leaves the head waiting.
    #[test]
    fn a_byte_that_the_line_makes_faulty_ends_abandoned() {
        let image = Xorshift(0xFA17).bytes(5);
        let list = listed(Port::Serial, PUBLIC, header(BASE, 0x8000_0005), &image);
        for place in 0..list.len() {
            let (_, mut sender) = Sender::begin(Port::Serial, BASE, true, PUBLIC, 5);
            let (mut head, mut sram) = (head(PUBLIC), memory());
            for (_, echo) in &list[..place] {
                let (_, item) = sender.ask(&image);
                assert_eq!(
                    head.item(&mut sram, &item.unwrap()).echo.as_ref(),
                    Some(echo)
                );
                let told = sender.tell(&image, &heard(Port::Serial, Some(echo)));
                assert_eq!(told, (0, Some(Verdict::GoesOn)));
            }
            let (_, Some(Item::Byte { value, .. })) = sender.ask(&image) else {
                panic!("{sender:?}");
            };
            let faulty = true;
            let answer = head.item(&mut sram, &Item::Byte { value, faulty });
            assert_eq!(answer.number, if place == 0 { 1 } else { 12 });
            let told = sender.tell(&image, &heard(Port::Serial, answer.echo.as_ref()));
            assert_eq!(told, (0, Some(Verdict::Abandoned)));
            assert_eq!(sender, NONE_GOING);

            let (number, vle) = (12, place >= 16);
            let expected = match place {
                0 => Stage::Waiting,
                _ => Stage::Stopped { number, vle },
            };
            assert_eq!(head.stage, expected);
            let stored = place.saturating_sub(16);
            assert_eq!(sram[..stored], image[..stored]);
            assert_eq!(sram[stored..], memory()[stored..]);
        }
    }

    // 02, E1: a load that 01 would answer with 3 or 4.

    #[test]
    fn beginnings_at_the_edges() {
        #[rustfmt::skip]
        let rows = [
            (BASE,        0,          3),
            (BASE,        1,          0),
            (BASE,        65_536,     0),
            (BASE,        65_537,     4),
            (0x4000_FFFC, 4,          0),
            (0x4000_FFFC, 5,          4),
            (0x4000_0003, 1,          0),
            (0x4000_0003, 65_536,     0),
            (0x4000_0003, 65_537,     4),
            (0x4000_0004, 65_536,     4),
            (0x4000_FFFF, 4,          0),
            (0x4000_FFFF, 5,          4),
            (0x4001_0000, 0,          3),
            (0x4001_0000, 1,          4),
            (0x3FFF_FFFF, 0,          3),
            (0x3FFF_FFFF, 1,          4),
            (0x3FFF_FFFF, 4,          4),
            (0,           0,          3),
            (0,           1,          4),
            (u32::MAX,    0,          3),
            (u32::MAX,    1,          4),
            (u32::MAX,    usize::MAX, 4),
        ];
        for (start, length, number) in rows {
            begins(start, length, number);
        }
        // Lengths of which 31 or 32 bits would hold too little.
        for over in [1 << 31, 1 << 32, 3 << 31, 1 << 63, usize::MAX - 65_535] {
            for length in [over, over + 1, over + 4, over + 5_120, over + 65_535] {
                begins(BASE, length, 4);
                begins(0x4000_FFFC, length, 4);
            }
        }
        begins(BASE, (1 << 31) - 1, 4);
        begins(BASE, (1 << 32) - 1, 4);
    }

    fn begins(start: u32, length: usize, number: u8) {
        for (port, vle) in PORTS
            .into_iter()
            .flat_map(|port| [(port, false), (port, true)])
        {
            for password in [PUBLIC, [0; 8], [0xFF; 8]] {
                let load = Sending {
                    start,
                    vle,
                    password,
                    ..sending(port, length)
                };
                let expected = if number == 0 { going(load) } else { NONE_GOING };
                let answer = Sender::begin(port, start, vle, password, length);
                assert_eq!(answer, (number, expected), "{start:X} {length:X}");
            }
        }
    }

    // 02, E1: number 1.

    #[test]
    fn number_1_with_no_load_or_no_item_out() {
        for image in [&[][..], &[1], &[0; 5_120], &[0; 65_537]] {
            unmoved(&NONE_GOING, image, 1);
        }
        let (_, refused) = Sender::begin(Port::Can, BASE, true, PUBLIC, 65_537);
        unmoved(&refused, &[0; 65_537], 1);
        for (port, place) in PORTS
            .into_iter()
            .flat_map(|port| [0, 8, 16, 24].map(|i| (port, i)))
        {
            let load = sending(port, 9);
            untold(&going(Sending { place, ..load }), &[0; 9], 1);
        }
    }

    /// An echo tells of one item only: heard a second time it finds none out.
    #[test]
    fn an_echo_heard_twice() {
        for port in PORTS {
            let (_, mut sender) = Sender::begin(port, BASE, true, [7; 8], 8);
            let list = listed(port, [7; 8], header(BASE, 0x8000_0008), &[7; 8]);
            let echo = heard(port, Some(&list[0].1));
            sender.ask(&[7; 8]);
            assert_eq!(sender.tell(&[7; 8], &echo), (0, Some(Verdict::GoesOn)));
            let before = sender.clone();
            assert_eq!(sender.tell(&[7; 8], &echo), (1, None));
            assert_eq!(sender, before);
        }
    }

    // 02, E1: number 8.

    #[test]
    fn number_8_for_a_load_that_is_refusable() {
        let image = vec![0; 65_537];
        for (start, length) in [
            (BASE, 0),
            (BASE, 65_537),
            (0x4000_FFFC, 5),
            (0x4001_0000, 1),
            (0x3FFF_FFFF, 1),
            (0, 5_120),
            (u32::MAX, 1),
        ] {
            for place in [0, 8, 15, 16, 24, usize::MAX - 7, usize::MAX] {
                not_sound(start, length, place, &image[..length]);
            }
        }
    }

    #[test]
    fn number_8_for_a_place_where_no_item_begins() {
        for length in [1, 7, 8, 9, 20] {
            let image = vec![0; length];
            for port in PORTS {
                for place in (0..64).chain([1 << 31, 1 << 32, usize::MAX - 7, usize::MAX]) {
                    let load = sending(port, length);
                    let mut sender = going(Sending { place, ..load });
                    if places(port, length).contains(&place) {
                        assert_eq!(sender.ask(&image).0, 0);
                    } else {
                        unmoved(&sender, &image, 8);
                    }
                }
            }
        }
    }

    #[test]
    fn number_8_for_an_image_of_another_length() {
        let image = vec![0; 65_537];
        for length in [1, 8, 5_120, 65_536, 65_537, 1 << 31, 1 << 32, usize::MAX] {
            for other in [0, 1, 7, 8, 9, 5_119, 5_121, 65_535, 65_536, 65_537] {
                if other != length {
                    not_sound(BASE, length, 0, &image[..other]);
                    not_sound(BASE, length, 16, &image[..other]);
                }
            }
        }
    }

    /// 8 comes first, so also with no item out; and the other fields change nothing.
    fn not_sound(start: u32, length: usize, place: usize, image: &[u8]) {
        for (port, out) in PORTS
            .into_iter()
            .flat_map(|port| [(port, false), (port, true)])
        {
            for (vle, password) in [(true, PUBLIC), (false, [0; 8])] {
                let load = Sending {
                    port,
                    start,
                    vle,
                    password,
                    length,
                    place,
                    out,
                };
                unmoved(&going(load), image, 8);
            }
        }
    }

    // 02, E1: any other echo abandons the load.

    /// Bytes that are not those echoed: too few, too many, none, one bit wrong.
    fn others(data: &[u8]) -> Vec<Vec<u8>> {
        let mut others = vec![
            Vec::new(),
            data[1..].to_vec(),
            data[..data.len() - 1].to_vec(),
            [data, &[0]].concat(),
            [data, data].concat(),
        ];
        for bit in 0..8 * data.len() {
            let mut other = data.to_vec();
            other[bit / 8] ^= 1 << (bit % 8);
            others.push(other);
        }
        others
    }

    fn abandons(sender: &Sender, image: &[u8], heard: Heard) {
        let mut after = sender.clone();
        let told = after.tell(image, &heard);
        assert_eq!(told, (0, Some(Verdict::Abandoned)), "{sender:?} {heard:?}");
        assert_eq!(after, NONE_GOING);
    }

    /// Tells a load with an item out all that must not pass for its echo.
    fn all_others_abandon(sender: &Sender, image: &[u8], echo: &Echo) {
        let data = &echo.data;
        let mut identifiers = Vec::from_iter(0..2_048);
        identifiers.extend([0x801, 0x802, 0x803, 0x8000_0001, 0x1_0003, u32::MAX]);
        for identifier in identifiers {
            if echo.identifier != Some(identifier) {
                let bytes = data;
                abandons(sender, image, Heard::Can { identifier, bytes });
            }
        }
        for bytes in &others(data) {
            for identifier in [0x000, 0x001, 0x002, 0x003, 0x011, 0x012, 0x013] {
                abandons(sender, image, Heard::Can { identifier, bytes });
            }
            if echo.identifier.is_none() {
                abandons(sender, image, Heard::Serial { bytes });
            }
        }
        if echo.identifier.is_some() {
            for bytes in [data, &data[..1], &data[data.len() - 1..], &[]] {
                abandons(sender, image, Heard::Serial { bytes });
            }
        }
    }

    #[test]
    fn any_other_echo_abandons_the_load() {
        // The last frame holds 8 bytes, 5 bytes, and 1 byte, which serial might echo.
        for length in [8, 13, 17] {
            let image = Xorshift(0xBAD).bytes(length);
            for port in PORTS {
                let (_, mut sender) = Sender::begin(port, BASE, true, PUBLIC, image.len());
                let header = header(BASE, 0x8000_0000 | length as u32);
                for (item, echo) in listed(port, PUBLIC, header, &image) {
                    assert_eq!(sender.ask(&image), (0, Some(item)));
                    all_others_abandon(&sender, &image, &echo);
                    sender.tell(&image, &heard(port, Some(&echo)));
                }
                assert_eq!(sender, NONE_GOING);
            }
        }
    }

    #[test]
    fn abandoned_until_a_new_load_is_begun() {
        for port in PORTS {
            let (_, mut sender) = Sender::begin(port, BASE, true, PUBLIC, 9);
            sender.ask(&[1; 9]);
            let told = sender.tell(&[1; 9], &heard(port, None));
            assert_eq!(told, (0, Some(Verdict::Abandoned)));
            unmoved(&sender, &[1; 9], 1);
            delivered(port, BASE, true, PUBLIC, &[1; 9]);
        }
    }

    // Any load, any image and anything heard.

    /// Where items begin.
    fn places(port: Port, length: usize) -> Vec<usize> {
        match port {
            Port::Can => [0, 8]
                .into_iter()
                .chain((16..16 + length).step_by(8))
                .collect(),
            Port::Serial => (0..16 + length).collect(),
        }
    }

    /// About half of these loads are sound with an image of `length` bytes.
    fn any_load(rng: &mut Xorshift, length: usize) -> Sending {
        let (port, odd) = (rng.pick(&PORTS), rng.below(12));
        let places = places(port, length);
        let (last, any) = (places[places.len() - 1], rng.pick(&places));
        let far = rng.below(48) as usize;
        Sending {
            port,
            start: match odd {
                0 | 1 => rng.pick(&[BASE - 1, BASE + 0xFFF8, BASE + 0x1_0000, 0, !0]),
                _ => rng.pick(&[BASE, BASE + 3, BASE + 0x1234, BASE + 0xFFD7]),
            },
            vle: rng.one_in(2),
            password: rng.pick(&[PUBLIC, [0; 8], [0x5A; 8]]),
            length: match odd {
                2 | 3 => rng.pick(&[length - 1, length + 1, 0, 1 << 31, usize::MAX]),
                _ => length,
            },
            place: match odd {
                4 | 5 => rng.pick(&[far, length + 16, usize::MAX - far]),
                _ => rng.pick(&[any, any, last]),
            },
            out: !rng.one_in(4),
        }
    }

    /// The item at the place of a load and its echo, taken from the list, or none if 8
    /// is due.
    fn due(load: &Sending, image: &[u8]) -> Option<(Item, Echo)> {
        let (start, length) = (u64::from(load.start & !0b11), load.length as u64);
        let bounds = 0x4000_0000..=0x4001_0000;
        let lies = (1..=65_536).contains(&length)
            && bounds.contains(&start)
            && bounds.contains(&(start + length));
        if !lies || image.len() != load.length {
            return None;
        }
        let places = places(load.port, load.length);
        let index = places.iter().position(|&place| place == load.place)?;
        let size = (u32::from(load.vle) << 31) | length as u32;
        let list = listed(load.port, load.password, header(load.start, size), image);
        Some(list[index].clone())
    }

    fn any_heard<'a>(rng: &mut Xorshift, port: Port, echo: &'a Echo) -> Heard<'a> {
        if rng.one_in(2) {
            return heard(port, Some(echo));
        }
        let identifier = rng.pick(&[0x000, 0x001, 0x002, 0x003, 0x013, 0x801]);
        let bytes = &echo.data[rng.below(2) as usize..];
        match rng.pick(&PORTS) {
            Port::Can => Heard::Can { identifier, bytes },
            Port::Serial => Heard::Serial { bytes },
        }
    }

    #[test]
    fn every_call_is_answered_as_the_list_says() {
        let mut rng = Xorshift(0x5E2D_E201);
        let mut seen = [0; 5];
        for _ in 0..40_000 {
            let length = 1 + rng.below(40);
            let image = rng.bytes(length);
            let load = any_load(&mut rng, image.len());
            let Some((item, echo)) = due(&load, &image) else {
                unmoved(&going(load), &image, 8);
                seen[0] += 1;
                continue;
            };

            let (mut sender, mut asked) = (going(load.clone()), load.clone());
            assert_eq!(sender.ask(&image), (0, Some(item)));
            asked.out = true;
            assert_eq!(sender, going(asked));
            if !load.out {
                untold(&going(load), &image, 1);
                seen[1] += 1;
                continue;
            }
            let told = any_heard(&mut rng, load.port, &echo);
            seen[told_as_listed(load, &image, &echo, told)] += 1;
        }
        assert!(seen.iter().all(|&count| count > 1_000), "{seen:?}");
    }

    /// Tells a load with an item out; answers 2, 3 or 4 for goes on, done or abandoned.
    fn told_as_listed(load: Sending, image: &[u8], echo: &Echo, told: Heard) -> usize {
        let mut sender = going(load.clone());
        let answer = sender.tell(image, &told);
        if told != heard(load.port, Some(echo)) {
            assert_eq!(answer, (0, Some(Verdict::Abandoned)));
            assert_eq!(sender, NONE_GOING);
            return 4;
        }
        let list = places(load.port, load.length);
        let Some(&place) = list.iter().find(|&&place| place > load.place) else {
            assert_eq!(answer, (0, Some(Verdict::Done)));
            assert_eq!(sender, NONE_GOING);
            return 3;
        };
        assert_eq!(answer, (0, Some(Verdict::GoesOn)));
        let out = false;
        assert_eq!(sender, going(Sending { place, out, ..load }));
        2
    }
}

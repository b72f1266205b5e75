//! Demand 3 read off the list of items, without running a session: document 01, "The
//! words of demand 3" and "Read as a plain list"; document 02, E2.

use crate::session::{passes, Header, Item, Port};

/// What a completed download leaves in SRAM and jumps to.
#[derive(Clone, PartialEq, Eq, Debug)]
pub struct Load {
    pub start: u32,
    pub vle: bool,
    pub bytes: Vec<u8>,
}

/// The port of the first opening.
pub fn picked(items: &[Item]) -> Option<Port> {
    items.iter().find(|item| item.opens()).map(Item::port)
}

/// The indices of the items of the stream: those of the picked port, also the ones
/// before the opening, but not those refused for their form.
pub fn stream(items: &[Item]) -> Vec<usize> {
    let port = picked(items);
    let belongs = |item: &Item| Some(item.port()) == port && !item.refused();
    (0..items.len()).filter(|&i| belongs(&items[i])).collect()
}

/// The stream read as a plain list. It may be shorter than a download, and that of
/// serial may be longer. That of serial begins with the first clean byte and runs up to
/// the next faulty one (02, E2); faulty bytes before it change nothing.
pub fn plain(items: &[Item]) -> Vec<u8> {
    let stream = stream(items).into_iter().map(|i| &items[i]);
    match picked(items) {
        Some(Port::Serial) => stream
            .skip_while(|item| !item.opens())
            .map_while(clean_byte)
            .collect(),
        Some(Port::Can) => joined(stream.filter_map(frame)),
        None => Vec::new(),
    }
}

fn clean_byte(item: &Item) -> Option<u8> {
    match *item {
        Item::Byte {
            value,
            faulty: false,
        } => Some(value),
        _ => None,
    }
}

fn frame(item: &Item) -> Option<(u32, &[u8])> {
    match item {
        Item::Frame { identifier, data } => Some((*identifier, data)),
        Item::Byte { .. } => None,
    }
}

/// The bytes of the opening frame, of the header frame and of the data frames that fit.
/// The header need not fit: its 31 bits of length are the announced count in any case.
fn joined<'a>(mut frames: impl Iterator<Item = (u32, &'a [u8])>) -> Vec<u8> {
    let mut of_8 = |wanted: u32| {
        frames.find_map(|(identifier, data)| {
            let data = <&[u8; 8]>::try_from(data).ok()?;
            (identifier == wanted).then_some(data)
        })
    };
    let Some(password) = of_8(0x011) else {
        return Vec::new();
    };
    let Some(header) = of_8(0x012) else {
        return password.to_vec();
    };
    let mut bytes = [*password, *header].concat();
    let mut owed = u64::from(Header::read(header).length);
    for (identifier, data) in frames {
        // A frame of 0 bytes adds nothing, taken or not.
        let count = data.len() as u64;
        if identifier == 0x013 && count <= owed {
            bytes.extend_from_slice(data);
            owed -= count;
        }
    }
    bytes
}

/// The header of a plain list and the bytes after it, if the list begins with the
/// selected legal password and a header that fits.
fn accepted<'a>(selected: &[u8; 8], plain: &'a [u8]) -> Option<(Header, &'a [u8])> {
    let (password, rest) = plain.split_first_chunk()?;
    let (header, data) = rest.split_first_chunk()?;
    let header = Header::read(header);
    (passes(password, selected) && header.refusal().is_none()).then_some((header, data))
}

/// The download at the beginning of a plain list: the selected legal password, a header
/// that fits and all announced bytes.
pub fn load(selected: &[u8; 8], plain: &[u8]) -> Option<Load> {
    let (header, data) = accepted(selected, plain)?;
    Some(Load {
        start: header.start,
        vle: header.vle,
        bytes: data.get(..header.length as usize)?.to_vec(),
    })
}

#[cfg(test)]
mod tests {
    use super::*;
    use crate::boot::Entered;
    use crate::mmu::session_rows;
    use crate::session::tests::{any_item, clean, faulty, frame, header, memory, Xorshift, PUBLIC};
    use crate::session::{Answer, Session};

    const BASE: u32 = 0x4000_0000;

    /// Frames of a download of `data` to `start`, VLE, in frames of `count` bytes.
    fn can(start: u32, data: &[u8], count: usize) -> Vec<Item> {
        let size = 0x8000_0000 | data.len() as u32;
        let mut items = vec![frame(0x011, &PUBLIC), frame(0x012, &header(start, size))];
        items.extend(data.chunks(count).map(|data| frame(0x013, data)));
        items
    }

    fn serial(start: u32, data: &[u8]) -> Vec<Item> {
        let size = 0x8000_0000 | data.len() as u32;
        let bytes = [&PUBLIC[..], &header(start, size), data].concat();
        bytes.into_iter().map(clean).collect()
    }

    fn select(items: &[Item], indices: &[usize]) -> Vec<Item> {
        indices.iter().map(|&i| items[i].clone()).collect()
    }

    /// The index of the faulty byte that ends the plain list of serial.
    fn ending(items: &[Item]) -> Option<usize> {
        let first = items.iter().position(Item::opens)?;
        let serial = items[first].port() == Port::Serial;
        let fault = |i: usize| matches!(items[i], Item::Byte { faulty: true, .. });
        (first..items.len()).find(|&i| serial && fault(i))
    }

    /// The number that stops or completes the load of a plain list, 12 if nothing else
    /// does before its end and a faulty byte is there.
    fn outcome(selected: &[u8; 8], plain: &[u8], faulty_end: bool) -> Option<u8> {
        let unfinished = faulty_end.then_some(12);
        let Some((password, rest)) = plain.split_first_chunk() else {
            return unfinished;
        };
        if !passes(password, selected) {
            return Some(2);
        }
        let Some((header, data)) = rest.split_first_chunk() else {
            return unfinished;
        };
        let header = Header::read(header);
        let all = data.len() >= header.length as usize;
        header.refusal().or(all.then_some(5)).or(unfinished)
    }

    /// Demand 3 for one list of calls. Answers the number that stopped or completed the
    /// load, if one did: 5 if the head jumped.
    fn demand_3(selected: [u8; 8], before: &[u8], items: &[Item]) -> Option<u8> {
        let stream = stream(items);
        let alone = select(items, &stream);
        let plain = plain(items);
        let load = load(&selected, &plain);

        // The stream is its own stream, so its plain list is that of the whole list.
        assert_eq!(picked(&alone), picked(items));
        assert_eq!(super::stream(&alone).len(), alone.len());
        assert_eq!(super::plain(&alone), plain);
        if picked(items).is_none() {
            assert!(stream.is_empty() && plain.is_empty());
        }

        // The stream alone, on its own session and SRAM, keeps pace with the whole list.
        let mut session = Session::fresh(Entered::Asked, selected);
        let mut sram = before.to_vec();
        let (mut session_alone, mut sram_alone) = (session.clone(), sram.clone());
        let (mut jumps, mut ends) = (Vec::new(), Vec::new());
        for (i, item) in items.iter().enumerate() {
            let answer = session.item(&mut sram, item);
            let expected = if stream.contains(&i) {
                session_alone.item(&mut sram_alone, item)
            } else {
                let number = if item.refused() { 6 } else { 1 };
                let (echo, jump) = (None, None);
                Answer { number, echo, jump }
            };
            assert_eq!(answer, expected, "item {i} of {items:?}");
            assert_eq!(session, session_alone, "item {i} of {items:?}");
            assert!(sram == sram_alone, "item {i} of {items:?}");
            assert!(session.sound());
            assert_eq!(answer.number == 5, answer.jump.is_some());
            jumps.extend(answer.jump);
            if !matches!(answer.number, 0 | 1 | 6) {
                ends.push(answer.number);
            }
            // 02, E2: the faulty byte stops the session without an echo.
            if answer.number == 12 {
                assert_eq!((Some(i), answer.echo), (ending(items), None), "{items:?}");
            }
        }

        // The load ends once at most.
        let end = outcome(&selected, &plain, ending(items).is_some());
        assert_eq!(ends, Vec::from_iter(end), "{items:?}");
        assert_eq!(load.is_some(), end == Some(5), "{items:?}");

        let jump = load.as_ref().map(|load| (load.start, load.vle));
        assert_eq!(jumps, Vec::from_iter(jump), "{items:?}");

        // SRAM after the list, jumped or not: the data bytes that came.
        let mut expected = before.to_vec();
        if let Some((header, data)) = accepted(&selected, &plain) {
            let data = &data[..data.len().min(header.length as usize)];
            let from = (header.start - BASE) as usize;
            expected[from..from + data.len()].copy_from_slice(data);
        }
        assert!(sram == expected, "{items:?}");

        // The rows after the list have the VLE of the header that was accepted.
        let vle = accepted(&selected, &plain).is_some_and(|(header, _)| header.vle);
        let rows = session_rows(&session).unwrap();
        assert_eq!(rows.map(|row| row.vle), [false, vle, vle, vle, false]);
        if let Some(load) = &load {
            let from = (load.start - BASE) as usize;
            let to = from + load.bytes.len();
            assert_eq!(sram[from..to], load.bytes);
            assert!(sram[..from] == before[..from] && sram[to..] == before[to..]);
        }
        end
    }

    #[test]
    fn first_opening_picks_the_port() {
        let password = frame(0x011, &PUBLIC);
        assert_eq!(picked(&[]), None);
        assert_eq!(picked(&[password.clone(), clean(1)]), Some(Port::Can));
        assert_eq!(picked(&[clean(1), password.clone()]), Some(Port::Serial));
        // A wrong password opens too.
        assert_eq!(picked(&[frame(0x011, &[0; 8]), clean(1)]), Some(Port::Can));
        let no_openings = [
            faulty(0xFE),
            frame(0x011, &PUBLIC[..7]),
            frame(0x011, &[1; 9]),
            frame(0x012, &PUBLIC),
            frame(0x013, &PUBLIC),
            frame(0x811, &PUBLIC),
        ];
        assert_eq!(picked(&no_openings), None);
        assert_eq!(stream(&no_openings), []);
        assert_eq!(plain(&no_openings), []);
        assert_eq!(demand_3(PUBLIC, &memory(), &no_openings), None);
        for (opening, port) in [(password, Port::Can), (clean(1), Port::Serial)] {
            let items = [&no_openings[..], &[opening]].concat();
            assert_eq!(picked(&items), Some(port));
        }
    }

    #[test]
    fn stream_leaves_out_the_other_port_and_refused_frames() {
        let common = [
            faulty(1),
            frame(0x012, &[1; 8]),
            frame(0x800, &[]),
            frame(0x013, &[1; 9]),
        ];
        let with = |opening: Item| [&common[..], &[opening], &common, &[clean(2)]].concat();
        // Items of the port from before the opening belong to the stream.
        assert_eq!(stream(&with(frame(0x011, &[1; 8]))), [1, 4, 6]);
        assert_eq!(stream(&with(clean(1))), [0, 4, 5, 9]);
    }

    #[test]
    fn plain_list_of_serial() {
        let items = [
            faulty(1),
            clean(2),
            frame(0x011, &[3; 8]),
            clean(4),
            faulty(5),
            clean(6),
        ];
        assert_eq!(plain(&items), [2, 4]);
        // Also what is beyond the announced count.
        let items = [serial(BASE, &[6, 7]), vec![clean(8)]].concat();
        assert_eq!(plain(&items)[16..], [6, 7, 8]);
    }

    /// 02, E2: one or two faulty bytes at every place of a list.
    #[test]
    fn plain_list_of_serial_ends_at_a_faulty_byte() {
        let load = serial(BASE, &[6, 7]);
        let whole = plain(&load);
        assert_eq!(whole.len(), 18);
        let list = [&load[..], &[clean(8), clean(9)]].concat();
        for place in 0..=list.len() {
            for faults in [vec![faulty(3)], vec![faulty(3), faulty(3)]] {
                let items = [&list[..place], &faults, &list[place..]].concat();
                let mut expected = [&whole[..], &[8, 9]].concat();
                // Those before the first clean byte end nothing.
                if place > 0 {
                    expected.truncate(place);
                }
                assert_eq!(plain(&items), expected);
                let number = if (1..18).contains(&place) { 12 } else { 5 };
                assert_eq!(demand_3(PUBLIC, &memory(), &items), Some(number));
            }
        }
        // A load that was refused is not stopped again.
        let wrong = vec![clean(1); 8];
        let items = [&wrong[..], &[faulty(3)], &list].concat();
        assert_eq!(plain(&items), [1; 8]);
        assert_eq!(demand_3(PUBLIC, &memory(), &items), Some(2));
        // CAN hears none of them.
        let frames = can(BASE, &[6, 7], 1);
        let with_faults = frames.iter().flat_map(|frame| [faulty(3), frame.clone()]);
        let items: Vec<Item> = with_faults.collect();
        assert_eq!(plain(&items), whole);
        assert_eq!(demand_3(PUBLIC, &memory(), &items), Some(5));
    }

    #[test]
    fn plain_list_of_can() {
        let header = header(BASE, 5);
        let items = [
            frame(0x013, &[1]),
            frame(0x012, &[1; 8]),
            frame(0x011, &[1; 7]),
            frame(0x011, &PUBLIC), // taken
            frame(0x011, &[2; 8]),
            frame(0x013, &[2]),
            frame(0x012, &[2; 7]),
            frame(0x012, &header), // taken
            frame(0x012, &[3; 8]),
            frame(0x011, &[3; 8]),
            frame(0x013, &[4, 5]), // taken
            frame(0x013, &[]),
            frame(0x014, &[1]),
            frame(0x013, &[1, 2, 3, 4]), // above what is owed
            clean(1),
            frame(0x013, &[6]), // taken
            frame(0x013, &[1, 2, 3]),
            frame(0x013, &[7, 8]), // taken
            frame(0x013, &[9]),
        ];
        let expected = [&PUBLIC[..], &header, &[4, 5, 6, 7, 8]].concat();
        assert_eq!(plain(&items), expected);
        assert_eq!(plain(&items[..7]), PUBLIC);
        assert_eq!(plain(&items[..10]), expected[..16]);
        assert_eq!(demand_3(PUBLIC, &memory(), &items), Some(5));
        for count in 0..items.len() - 1 {
            let end = demand_3(PUBLIC, &memory(), &items[..count]);
            assert_eq!(end, (count > 17).then_some(5));
        }
    }

    #[test]
    fn load_wants_password_header_and_all_bytes() {
        let list = |start, size, data: &[u8]| [&PUBLIC[..], &header(start, size), data].concat();
        let some = |start, vle, bytes: &[u8]| {
            let bytes = bytes.to_vec();
            Some(Load { start, vle, bytes })
        };
        let whole = list(BASE + 3, 0x8000_0003, &[1, 2, 3]);
        assert_eq!(load(&PUBLIC, &whole), some(BASE, true, &[1, 2, 3]));
        for count in 0..whole.len() {
            assert_eq!(load(&PUBLIC, &whole[..count]), None);
        }
        let longer = list(BASE, 3, &[1, 2, 3, 4]);
        assert_eq!(load(&PUBLIC, &longer), some(BASE, false, &[1, 2, 3]));
        for i in 0..8 {
            let mut password = PUBLIC;
            password[i] ^= 1;
            assert_eq!(load(&password, &whole), None);
        }
        // An illegal password in both places.
        let mut illegal = whole.clone();
        illegal[2..4].fill(0xFF);
        let selected = *illegal.first_chunk().unwrap();
        assert_eq!(load(&selected, &illegal), None);
        // Headers that are due 3 or 4.
        for (start, size) in [
            (BASE, 0),
            (BASE, 0x8000_0000),
            (BASE - 1, 1),
            (BASE + 65_536, 1),
            (BASE + 65_532, 5),
            (0, 1),
            (!0, 1),
        ] {
            assert_eq!(load(&PUBLIC, &list(start, size, &[0; 16])), None);
        }
        let data = vec![7; 65_537];
        assert!(load(&PUBLIC, &list(BASE + 1, 65_536, &data)).is_some());
        assert!(load(&PUBLIC, &list(BASE, 65_537, &data)).is_none());
        assert!(load(&PUBLIC, &list(BASE, 0x7FFF_FFFF, &data)).is_none());
        assert!(load(&PUBLIC, &list(!3, 0x7FFF_FFFF, &data)).is_none());
    }

    #[test]
    fn demand_3_on_downloads_side_by_side() {
        let before = memory();
        let data: Vec<u8> = (1..=20).collect();
        let (can, serial) = (can(BASE + 0x102, &data, 8), serial(BASE + 0x200, &data));
        for list in [
            [&can[..], &serial].concat(),
            [&serial[..], &can].concat(),
            [&can[..1], &serial, &can[1..]].concat(),
            [&serial[..1], &can, &serial[1..]].concat(),
            [&serial[..16], &can, &serial[16..]].concat(),
            [&can[..4], &serial, &can[2..]].concat(),
        ] {
            assert_eq!(demand_3(PUBLIC, &before, &list), Some(5));
        }
        // One byte short.
        let list = [&serial[..35], &can].concat();
        assert_eq!(demand_3(PUBLIC, &before, &list), None);
        // A frame that comes twice is taken twice: 8, 8 and 4 bytes, the last 8 do not fit.
        let list = [&can[..3], &can[2..]].concat();
        assert_eq!(
            plain(&list)[16..],
            [&data[..8], &data[..8], &data[16..]].concat()
        );
        assert_eq!(demand_3(PUBLIC, &before, &list), Some(5));
    }

    #[test]
    fn demand_3_on_a_download_of_all_of_sram() {
        let data = Xorshift(0xA11).bytes(65_536);
        let mut items = can(BASE, &data, 8);
        items.insert(1, clean(1));
        items.insert(5_000, frame(0x013, &[1; 9]));
        items.push(frame(0x013, &[1]));
        assert_eq!(demand_3(PUBLIC, &memory(), &items), Some(5));
    }

    /// All lists of up to 5 of these items.
    #[test]
    fn demand_3_on_short_lists() {
        let alphabet = [
            frame(0x011, &PUBLIC),
            frame(0x011, &[1; 8]),
            frame(0x012, &header(BASE + 65_534, 0x8000_0002)),
            frame(0x012, &header(BASE, 0)),
            frame(0x013, &[0xA1]),
            frame(0x013, &[0xA2, 0xA3]),
            frame(0x813, &[0xA4]),
            clean(0xFE),
            faulty(0xFE),
        ];
        let before = memory();
        let mut seen = [0; 13];
        for length in 0..=5 {
            for list in 0..alphabet.len().pow(length) {
                let digits = (0..length).map(|i| list / alphabet.len().pow(i) % alphabet.len());
                let items: Vec<Item> = digits.map(|i| alphabet[i].clone()).collect();
                let end = demand_3(PUBLIC, &before, &items);
                seen[usize::from(end.unwrap_or(0))] += 1;
            }
        }
        assert!(seen[5] > 40 && seen[12] > 40, "{seen:?}");
    }

    /// A download, mostly a right one, in items of one port.
    fn download(rng: &mut Xorshift, selected: [u8; 8]) -> Vec<Item> {
        let mut password = selected;
        if rng.one_in(12) {
            password[rng.below(8) as usize] ^= 1 << rng.below(8);
        }
        let length = match rng.below(16) {
            0 => rng.pick(&[0, 65_535, 65_536, 65_537, 0x7FFF_FFFF]),
            _ => 1 + rng.below(40) as u32,
        };
        let start = match rng.below(16) {
            0 => rng.pick(&[0, BASE - 1, BASE + 65_536, 0x7FFF_FFFF, !3, !0]),
            1..=3 => BASE + 65_536 - length.min(65_536),
            4..=6 => BASE + rng.below(4) as u32,
            _ => BASE + rng.below(65_000) as u32,
        };
        let header = header(start, length | (rng.below(2) as u32) << 31);
        // All bytes, some bytes too few or some too many.
        let all = u64::from(length.min(50));
        let count = match rng.below(8) {
            0 => rng.below(all + 1),
            1 => all + rng.below(8),
            _ => all,
        };
        let mut data = &rng.bytes(count)[..];
        if rng.one_in(2) {
            let bytes = [&password[..], &header, data].concat();
            return bytes.into_iter().map(clean).collect();
        }
        let mut items = vec![frame(0x011, &password), frame(0x012, &header)];
        while !data.is_empty() {
            let count = (1 + rng.below(8) as usize).min(data.len());
            let (these, rest) = data.split_at(count);
            items.push(frame(0x013, these));
            data = rest;
        }
        items
    }

    /// Such a download with other items in between.
    fn list(rng: &mut Xorshift, selected: [u8; 8]) -> Vec<Item> {
        let download = download(rng, selected);
        let port = picked(&download);
        let (wild, seldom) = (rng.one_in(6), 2 + rng.below(10));
        let mut items = Vec::new();
        for item in download {
            while rng.one_in(seldom) {
                let other = any_item(rng);
                // What would open the other port too early, or would be data to this
                // one, or a fault to it, comes in wild lists only.
                let opened = picked(&items).is_some();
                let harmless = match other {
                    _ if other.refused() => true,
                    Item::Byte { .. } if opened => port == Some(Port::Can),
                    Item::Byte { faulty, .. } => faulty,
                    Item::Frame { .. } if port == Some(Port::Serial) => opened || !other.opens(),
                    Item::Frame { identifier, .. } => opened && identifier == 0x011,
                };
                if wild || harmless {
                    items.push(other);
                }
            }
            if !(wild && rng.one_in(40)) {
                items.push(item);
            }
        }
        items
    }

    #[test]
    fn demand_3_on_random_lists() {
        let mut rng = Xorshift(0x0BAD_CAFE);
        let before = rng.bytes(65_536);
        let mut seen = [[0; 13]; 2];
        for _ in 0..4_000 {
            let selected = match rng.below(4) {
                0 => *b"\x00\x01\xFF\xFE\x10\x00\x00\x0F",
                1 if rng.one_in(4) => *b"\xFE\xED\xFF\xFF\xCA\xFE\xBE\xEF",
                _ => PUBLIC,
            };
            let items = list(&mut rng, selected);
            let end = demand_3(selected, &before, &items);
            let can = usize::from(picked(&items) == Some(Port::Can));
            seen[can][usize::from(end.unwrap_or(0))] += 1;
        }
        let [serial, can] = seen;
        assert!(serial[5] > 500 && can[5] > 500, "{seen:?}");
        assert!(serial[12] > 50 && can[12] == 0, "{seen:?}");
        for number in [0, 2, 3, 4] {
            assert!(serial[number] > 10 && can[number] > 10, "{seen:?}");
        }
    }

    /// 02, E2: downloads by both ports with many faulty bytes, in half of the lists only
    /// ahead of the download and behind it.
    #[test]
    fn demand_3_on_faulty_lists() {
        let mut rng = Xorshift(0xFA_0175);
        let before = rng.bytes(65_536);
        let (mut seen, mut stopped) = ([0; 13], [0; 3]);
        for _ in 0..4_000 {
            let download = download(&mut rng, PUBLIC);
            let (inside, seldom) = (rng.one_in(2), 2 + rng.below(40));
            let mut items = Vec::new();
            for (i, item) in download.iter().enumerate() {
                while (i == 0 || inside) && rng.one_in(seldom) {
                    items.push(faulty(rng.next() as u8));
                }
                items.push(item.clone());
            }
            items.extend((0..rng.below(3)).map(|i| faulty(i as u8)));
            let end = demand_3(PUBLIC, &before, &items);
            seen[usize::from(end.unwrap_or(0))] += 1;
            if end == Some(12) {
                // Within the password, the header or the data.
                stopped[(plain(&items).len() / 8).min(2)] += 1;
            }
        }
        for number in [0, 2, 3, 4, 5, 12] {
            assert!(seen[number] > 10, "{seen:?}");
        }
        assert!(stopped.iter().all(|&count| count > 100), "{stopped:?}");
    }

    /// Lists with no download in mind.
    #[test]
    fn demand_3_on_any_items() {
        let mut rng = Xorshift(0xF1A7);
        let before = rng.bytes(65_536);
        let (mut without_opening, mut faults) = (0, 0);
        for _ in 0..2_000 {
            let count = rng.below(40);
            let items: Vec<Item> = (0..count).map(|_| any_item(&mut rng)).collect();
            faults += usize::from(demand_3(PUBLIC, &before, &items) == Some(12));
            without_opening += usize::from(picked(&items).is_none());
        }
        assert!(without_opening > 20 && faults > 100);
    }
}

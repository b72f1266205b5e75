//! The MMU rows of internal and serial boot: document 01, "MMU rows"; source document
//! 000, Table 16-2 and section 16.3.2.3.1; source document 003, section 21.5.5.4.

use crate::boot::{Entered, Mode};
use crate::session::{Session, NOT_SOUND};

/// One TLB entry.
#[derive(Debug, Clone, Copy, PartialEq, Eq)]
pub struct Row {
    pub logical: u32,
    pub physical: u32,
    /// In bytes.
    pub size: u32,
    pub cache_inhibited: bool,
    pub guarded: bool,
    pub big_endian: bool,
    pub global_pid: bool,
    pub vle: bool,
}

/// 01, "What the head says back", number 11.
const EXTERNAL_ROWS_ASKED: u8 = 11;

/// 000, Table 16-2, entries 0 to 4. Bridge A is "not guarded" as printed there; the
/// footnote's "for future compatibility, configure as guarded" is advice, no setting.
#[rustfmt::skip]
const TABLE_16_2: [Row; 5] = {
    const KBYTE: u32 = 1 << 10;
    const MBYTE: u32 = 1 << 20;
    const INHIBITED: bool = true;
    const ENABLED: bool = false;
    const GUARDED: bool = true;
    const NOT_GUARDED: bool = false;
    [
        entry(0xFFF0_0000, 0xFFF0_0000,       MBYTE, INHIBITED, GUARDED),     // bridge B, BAM
        entry(0x0000_0000, 0x0000_0000,  16 * MBYTE, ENABLED,   NOT_GUARDED), // internal flash
        entry(0x2000_0000, 0x0000_0000,  16 * MBYTE, ENABLED,   NOT_GUARDED), // EBI
        entry(0x4000_0000, 0x4000_0000, 256 * KBYTE, INHIBITED, NOT_GUARDED), // internal SRAM
        entry(0xC3F0_0000, 0xC3F0_0000,       MBYTE, INHIBITED, NOT_GUARDED), // bridge A
    ]
};

/// Table 16-2 prints "Big Endian, Global PID" in every entry, and knows no VLE.
const fn entry(
    logical: u32,
    physical: u32,
    size: u32,
    cache_inhibited: bool,
    guarded: bool,
) -> Row {
    Row {
        logical,
        physical,
        size,
        cache_inhibited,
        guarded,
        big_endian: true,
        global_pid: true,
        vle: false,
    }
}

/// The rows of a boot choice, or number 11 where they are those of an external boot.
/// A choice has accepted no header.
pub fn choice_rows(mode: Mode) -> Result<[Row; 5], u8> {
    rows(mode, false)
}

/// The rows of a session: number 8 where it is not sound, then 11 where they are those
/// of an external boot.
pub fn session_rows(session: &Session) -> Result<[Row; 5], u8> {
    if !session.sound() {
        return Err(NOT_SOUND);
    }
    rows(Mode::Serial(session.entered), session.accepted_vle())
}

/// `vle` tells whether a header with VLE 1 was accepted.
fn rows(mode: Mode, vle: bool) -> Result<[Row; 5], u8> {
    // 000, 16.3.2.3.1: serial boot has the internal set-up if it was entered directly
    // or from internal boot, and the external one if it was entered from there.
    match mode {
        Mode::Internal | Mode::Serial(Entered::Asked | Entered::FromInternal) => {}
        Mode::External | Mode::Serial(Entered::FromExternal) => return Err(EXTERNAL_ROWS_ASKED),
    }
    // 003, 21.5.5.4, step 2 and 01: the header's VLE bit goes to entries 1 to 3, and
    // is clear where no header was accepted.
    let mut rows = TABLE_16_2;
    for row in &mut rows[1..=3] {
        row.vle = vle;
    }
    Ok(rows)
}

#[cfg(test)]
mod tests {
    use super::*;
    use crate::boot::choose;
    use crate::session::tests::{
        any_item, any_session, clean, faulty, frame, header, memory, not_sound, sound, stopped,
        Xorshift, ENTRIES, PUBLIC,
    };
    use crate::session::{Item, Port, Stage};

    const WITH_INTERNAL_ROWS: [Mode; 3] = [
        Mode::Internal,
        Mode::Serial(Entered::Asked),
        Mode::Serial(Entered::FromInternal),
    ];
    const BASE: u32 = 0x4000_0000;

    /// Entries 0 to 4 as (logical, physical, size), in 01's table.
    const REGIONS: [(u32, u32, u32); 5] = [
        (0xFFF0_0000, 0xFFF0_0000, 1_048_576),
        (0x0000_0000, 0x0000_0000, 16_777_216),
        (0x2000_0000, 0x0000_0000, 16_777_216),
        (0x4000_0000, 0x4000_0000, 262_144),
        (0xC3F0_0000, 0xC3F0_0000, 1_048_576),
    ];

    fn regions(rows: [Row; 5]) -> [(u32, u32, u32); 5] {
        rows.map(|row| (row.logical, row.physical, row.size))
    }

    const CLEAR: [bool; 5] = [false; 5];
    const SET: [bool; 5] = [false, true, true, true, false];

    /// The VLE of the rows of a session that is answered.
    fn vle(session: &Session) -> [bool; 5] {
        session_rows(session).unwrap().map(|row| row.vle)
    }

    /// The items of a load of two bytes.
    fn load(port: Port, password: &[u8; 8], header: &[u8; 8]) -> Vec<Item> {
        let data = [0xA5, 0x5A];
        match port {
            Port::Can => vec![
                frame(0x011, password),
                frame(0x012, header),
                frame(0x013, &data[..1]),
                frame(0x013, &data[1..]),
            ],
            Port::Serial => [password, &header[..], &data]
                .concat()
                .into_iter()
                .map(clean)
                .collect(),
        }
    }

    /// Runs `check` on the rows of every boot choice and of every sound session that
    /// are answered.
    fn for_all(check: impl Fn([Row; 5])) {
        for mode in WITH_INTERNAL_ROWS {
            check(choice_rows(mode).unwrap());
        }
        for session in sound() {
            if session.entered != Entered::FromExternal {
                check(session_rows(&session).unwrap());
            }
        }
    }

    #[test]
    fn addresses_and_sizes() {
        for_all(|rows| assert_eq!(regions(rows), REGIONS));
    }

    #[test]
    fn attributes() {
        for_all(|rows| {
            let cache_inhibited = rows.map(|row| row.cache_inhibited);
            assert_eq!(cache_inhibited, [true, false, false, true, true]);
            let guarded = rows.map(|row| row.guarded);
            assert_eq!(guarded, [true, false, false, false, false]);
            assert_eq!(rows.map(|row| row.big_endian), [true; 5]);
            assert_eq!(rows.map(|row| row.global_pid), [true; 5]);
        });
    }

    #[test]
    fn vle_is_clear_in_the_rows_of_a_choice() {
        for mode in WITH_INTERNAL_ROWS {
            assert_eq!(choice_rows(mode).unwrap().map(|row| row.vle), CLEAR);
        }
    }

    #[test]
    fn vle_is_set_on_entries_1_to_3_where_a_header_with_vle_1_was_accepted() {
        let mut seen = [0; 7];
        for session in sound() {
            if session.entered == Entered::FromExternal {
                continue;
            }
            let (stage, expected) = match session.stage {
                Stage::Waiting => (0, CLEAR),
                Stage::Password { .. } => (1, CLEAR),
                Stage::Header { .. } => (2, CLEAR),
                Stage::Data { vle: true, .. } => (3, SET),
                Stage::Data { vle: false, .. } => (3, CLEAR),
                // Only a faulty byte stops a session that has accepted a header.
                Stage::Stopped {
                    number: 12,
                    vle: true,
                } => (4, SET),
                Stage::Stopped { .. } => (5, CLEAR),
                Stage::Jumped { vle: true, .. } => (6, SET),
                Stage::Jumped { vle: false, .. } => (6, CLEAR),
            };
            assert_eq!(vle(&session), expected, "{session:?}");
            seen[stage] += 1;
        }
        assert!(seen.iter().all(|&count| count > 0), "{seen:?}");
    }

    /// Item by item: the header counts from the item that completes it on, to the end.
    #[test]
    fn vle_follows_the_header_of_a_load() {
        for (port, header_in, items) in [(Port::Can, 2, 4), (Port::Serial, 16, 18)] {
            for (size, accepted) in [(2, CLEAR), (0x8000_0002, SET)] {
                for entered in [Entered::Asked, Entered::FromInternal] {
                    let mut session = Session::fresh(entered, PUBLIC);
                    let mut sram = memory();
                    assert_eq!(vle(&session), CLEAR);
                    let load = load(port, &PUBLIC, &header(BASE, size));
                    assert_eq!(load.len(), items);
                    for (count, item) in (1..).zip(&load) {
                        session.item(&mut sram, item);
                        let expected = if count < header_in { CLEAR } else { accepted };
                        assert_eq!(vle(&session), expected, "{count} of {port:?}");
                    }
                    assert!(matches!(session.stage, Stage::Jumped { .. }));
                    // A jumped session ignores another header.
                    for item in [frame(0x012, &header(BASE, size ^ 1 << 31)), clean(0x80)] {
                        assert_eq!(session.item(&mut sram, &item).number, 1);
                        assert_eq!(vle(&session), accepted);
                    }
                }
            }
        }
    }

    /// 02, E2: the rows keep the VLE of a header accepted before the faulty byte, and
    /// what is left of the load does not change them. A faulty byte before the opening,
    /// or in a load by CAN, ends nothing.
    #[test]
    fn vle_is_kept_where_a_faulty_byte_ends_the_load() {
        for (port, header_in) in [(Port::Can, 2), (Port::Serial, 16)] {
            for (size, accepted) in [(2, CLEAR), (0x8000_0002, SET)] {
                let load = load(port, &PUBLIC, &header(BASE, size));
                for place in 0..load.len() {
                    let mut session = Session::fresh(Entered::Asked, PUBLIC);
                    let mut sram = memory();
                    for item in &load[..place] {
                        session.item(&mut sram, item);
                    }
                    let answer = session.item(&mut sram, &faulty(0x80));
                    let ends = port == Port::Serial && place > 0;
                    assert_eq!(answer.number, if ends { 12 } else { 1 });
                    let expected = if place < header_in { CLEAR } else { accepted };
                    assert_eq!(vle(&session), expected, "{place} of {port:?}");
                    for item in &load[place..] {
                        session.item(&mut sram, item);
                    }
                    let expected = if ends { expected } else { accepted };
                    assert_eq!(vle(&session), expected, "{place} of {port:?}");
                }
            }
        }
    }

    /// Neither a header that is refused nor one behind a wrong password was accepted.
    #[test]
    fn vle_is_clear_where_the_header_was_refused() {
        let mut wrong = PUBLIC;
        wrong[7] ^= 1;
        for (password, header, number) in [
            (PUBLIC, header(BASE, 0x8000_0000), 3),
            (PUBLIC, header(0, 0x8000_0000), 3),
            (PUBLIC, header(BASE, 0x8001_0001), 4),
            (PUBLIC, header(BASE - 4, 0x8000_0001), 4),
            (PUBLIC, header(!0, !0), 4),
            (wrong, header(BASE, 0x8000_0002), 2),
        ] {
            for port in [Port::Can, Port::Serial] {
                let mut session = Session::fresh(Entered::Asked, PUBLIC);
                for item in load(port, &password, &header) {
                    session.item(&mut memory(), &item);
                    assert_eq!(vle(&session), CLEAR);
                }
                assert_eq!(session.stage, stopped(number));
            }
        }
    }

    #[test]
    fn external_rows_are_refused() {
        for mode in [Mode::External, Mode::Serial(Entered::FromExternal)] {
            assert_eq!(choice_rows(mode), Err(11));
        }
        let mut count = 0;
        for session in sound() {
            if session.entered == Entered::FromExternal {
                assert_eq!(session_rows(&session), Err(11), "{session:?}");
                count += 1;
            }
        }
        assert!(count > 0);
    }

    /// 8 comes before 11.
    #[test]
    fn a_session_that_is_not_sound_has_no_rows() {
        for session in not_sound() {
            for entered in ENTRIES {
                let session = Session {
                    entered,
                    ..session.clone()
                };
                assert_eq!(session_rows(&session), Err(8), "{session:?}");
            }
        }
    }

    /// A serial choice and the session it gives have the same rows.
    #[test]
    fn a_choice_hands_its_rows_on_to_its_session() {
        let shadow = b"\x01\x02\x03\x04\x05\x06\x07\x08\x55\xAA\x55\xAA";
        for (bootcfg, expected) in [
            (0, Entered::FromInternal),
            (1, Entered::Asked),
            (2, Entered::FromExternal),
            (3, Entered::FromExternal),
        ] {
            let choice = choose(bootcfg, &[], shadow, &[0; 8]).unwrap();
            let Mode::Serial(entered) = choice.mode else {
                panic!("{choice:?}");
            };
            assert_eq!(entered, expected);
            let session = Session::fresh(entered, choice.password);
            assert_eq!(session_rows(&session), choice_rows(choice.mode));
            assert_eq!(session_rows(&session).is_err(), bootcfg >= 2);
        }
    }

    /// Rows are asked of any session, between any items.
    #[test]
    fn rows_of_any_session() {
        let mut rng = Xorshift(0x0003_0255);
        let mut seen = [0; 12];
        let mut faults = 0;
        for _ in 0..20_000 {
            let mut session = any_session(&mut rng);
            for _ in 0..3 {
                let expected = match session.entered {
                    _ if !session.sound() => Err(8),
                    Entered::FromExternal => Err(11),
                    _ => Ok(REGIONS),
                };
                let regions = session_rows(&session).map(regions);
                assert_eq!(regions, expected, "{session:?}");
                seen[usize::from(expected.err().unwrap_or(0))] += 1;
                let before = session_rows(&session);
                let answer = session.item(&mut memory(), &any_item(&mut rng));
                // Only a header that is accepted changes the rows.
                if answer.number != 0 {
                    assert_eq!(session_rows(&session), before, "{session:?}");
                }
                faults += usize::from(answer.number == 12 && before.is_ok());
            }
        }
        assert!([0, 8, 11].iter().all(|&number| seen[number] > 0));
        assert!(faults > 0);
    }

    #[test]
    fn a_row_in_full() {
        let sram = Row {
            logical: 0x4000_0000,
            physical: 0x4000_0000,
            size: 0x4_0000,
            cache_inhibited: true,
            guarded: false,
            big_endian: true,
            global_pid: true,
            vle: true,
        };
        let session = Session {
            stage: Stage::Jumped {
                start: BASE,
                vle: true,
            },
            ..Session::fresh(Entered::Asked, PUBLIC)
        };
        assert_eq!(session_rows(&session).unwrap()[3], sram);
    }
}

//! The boot choice: document 01, "Choosing how to boot", and source document 000,
//! sections 16.3.2 to 16.3.2.3.1.

/// The boot mode the choice ends in.
#[derive(Debug, Clone, Copy, PartialEq, Eq)]
pub enum Mode {
    Internal,
    External,
    Serial(Entered),
}

/// How serial boot was entered; 000, 16.3.2.3.1 makes the MMU set-up depend on it.
#[derive(Debug, Clone, Copy, PartialEq, Eq)]
pub enum Entered {
    /// Directly, by the BOOTCFG signals.
    Asked,
    /// No valid half word in the internal flash.
    FromInternal,
    /// No valid half word in the external memory.
    FromExternal,
}

/// What a boot choice answers under number 0.
#[derive(Debug, Clone, PartialEq, Eq)]
pub struct Choice {
    pub mode: Mode,
    /// Address of the boot block; 0 for external and serial.
    pub place: u32,
    /// Number of places looked at.
    pub looked: u32,
    /// The reset vector; 0 for serial.
    pub jump: u32,
    pub watchdog: bool,
    pub bus16: bool,
    pub flash_on: bool,
    pub nexus_on: bool,
    /// The password that serial boot compares with.
    pub password: [u8; 8],
}

/// 01, "What the head says back", number 9.
const SIZE_NOT_ALLOWED: u8 = 9;

/// 01, "Choosing how to boot": the flash is at most this many bytes.
const FLASH_MAX: usize = 2_097_152;

/// 000, 16.3.2 and 01: the fixed public password, 0xFEED_FACE_CAFE_BEEF.
pub(crate) const PUBLIC_PASSWORD: [u8; 8] = [0xFE, 0xED, 0xFA, 0xCE, 0xCA, 0xFE, 0xBE, 0xEF];

/// 000, Table 16-4: the low address space blocks, in the order of the search.
const LAS_BLOCKS: [u32; 6] = [0x0, 0x4000, 0x1_0000, 0x1_C000, 0x2_0000, 0x3_0000];

/// 01: the second byte of a valid reset configuration half word (RCHW).
const BOOT_ID: u8 = 0x5A;

/// 01: RCHW[WTE], watchdog enable, in the first byte of the half word.
const WTE: u8 = 0x04;

/// 01: RCHW[PS0], 16-bit external bus, in the first byte of the half word.
const PS0: u8 = 0x02;

/// A cell of Table 16-3's two control columns.
#[derive(Clone, Copy)]
enum Control {
    Is55AA,
    Not55AA,
    DontCare,
}

impl Control {
    fn admits(self, value: u16) -> bool {
        match self {
            Control::Is55AA => value == 0x55AA,
            Control::Not55AA => value != 0x55AA,
            Control::DontCare => true,
        }
    }
}

#[derive(Clone, Copy)]
enum Flow {
    Internal,
    Serial,
    External,
}

#[derive(Clone, Copy)]
enum Password {
    Flash,
    Public,
}

/// BOOTCFG, censorship control, serial boot control, flow, internal flash on,
/// Nexus on, serial password.
type BootMode = (u8, Control, Control, Flow, bool, bool, Password);

/// 000, Table 16-3, line by line. 01's table says the same, with 2 and 3 in one line.
#[rustfmt::skip]
const BOOT_MODES: [BootMode; 8] = {
    use Control::{DontCare, Is55AA, Not55AA};
    use Flow::{External, Internal, Serial};
    use Password::{Flash, Public};
    const ON: bool = true;
    const OFF: bool = false;
    [
        (0b00, Not55AA,  DontCare, Internal, ON,  OFF, Flash),
        (0b00, Is55AA,   DontCare, Internal, ON,  ON,  Public),
        (0b01, DontCare, Is55AA,   Serial,   ON,  OFF, Flash),
        (0b01, DontCare, Not55AA,  Serial,   OFF, ON,  Public),
        (0b10, Not55AA,  DontCare, External, OFF, ON,  Public),
        (0b10, Is55AA,   DontCare, External, ON,  ON,  Public),
        (0b11, Not55AA,  DontCare, External, OFF, ON,  Public),
        (0b11, Is55AA,   DontCare, External, ON,  ON,  Public),
    ]
};

/// The start of a boot block: half word, two unused bytes, reset vector
/// (000, 16.3.2.1.1 and Figure 16-4). The default stands for "none found": 01 has
/// the jump address and both flags 0 in a serial choice.
#[derive(Default)]
struct BootBlock {
    watchdog: bool,
    bus16: bool,
    vector: u32,
}

impl BootBlock {
    /// 01: a place is good if its 8 bytes lie in the memory handed in and its second
    /// byte is the boot identifier. The half word's other bits change nothing.
    fn read(memory: &[u8], place: u32) -> Option<Self> {
        let start = place as usize;
        match *memory.get(start..start + 8)? {
            [flags, BOOT_ID, _, _, v0, v1, v2, v3] => Some(BootBlock {
                watchdog: flags & WTE != 0,
                bus16: flags & PS0 != 0,
                vector: u32::from_be_bytes([v0, v1, v2, v3]),
            }),
            _ => None,
        }
    }
}

/// 01: look at the places in turn, up to the first good one. Answers the number of
/// places looked at, and the good place with its boot block.
fn search(memory: &[u8], places: &[u32]) -> (u32, Option<(u32, BootBlock)>) {
    let mut looked = 0;
    for &place in places {
        looked += 1;
        if let Some(block) = BootBlock::read(memory, place) {
            return (looked, Some((place, block)));
        }
    }
    (looked, None)
}

/// Chooses how to boot, or answers number 9 if BOOTCFG or a length is not allowed.
///
/// `shadow` is the flash password (8 bytes), censorship control (2) and serial boot
/// control (2); `external_head` the first 8 bytes of external memory.
pub fn choose(
    bootcfg: u8,
    flash: &[u8],
    shadow: &[u8],
    external_head: &[u8],
) -> Result<Choice, u8> {
    // 01, number 9: every input must have its size, whether the mode reads it or not.
    let shadow: [u8; 12] = shadow.try_into().map_err(|_| SIZE_NOT_ALLOWED)?;
    if flash.len() > FLASH_MAX || external_head.len() != 8 {
        return Err(SIZE_NOT_ALLOWED);
    }

    // 000, 16.3.2: shadow row addresses 0x00FF_FDD8, 0x00FF_FDE0 and 0x00FF_FDE2.
    let [flash_password @ .., c0, c1, s0, s1] = shadow;
    let censorship = u16::from_be_bytes([c0, c1]);
    let serial_boot = u16::from_be_bytes([s0, s1]);

    // 000, Table 16-3. A BOOTCFG above 3 is in none of its lines.
    let (_, _, _, flow, flash_on, nexus_on, password) = BOOT_MODES
        .into_iter()
        .find(|&(cfg, c, s, ..)| cfg == bootcfg && c.admits(censorship) && s.admits(serial_boot))
        .ok_or(SIZE_NOT_ALLOWED)?;

    // 000, 16.3.2.1 (internal), 16.3.2.2.5 (external) and 16.3.2.3.1 (serial): where
    // a half word is looked for, and what follows if there is a valid one or none.
    let (memory, places, valid, none): (&[u8], &[u32], Mode, Entered) = match flow {
        Flow::Internal => (flash, &LAS_BLOCKS, Mode::Internal, Entered::FromInternal),
        Flow::External => (external_head, &[0], Mode::External, Entered::FromExternal),
        Flow::Serial => (&[], &[], Mode::Serial(Entered::Asked), Entered::Asked),
    };
    let (looked, found) = search(memory, places);
    let (mode, place, block) = match found {
        Some((place, block)) => (valid, place, block),
        None => (Mode::Serial(none), 0, BootBlock::default()),
    };

    // 01: a fallback to serial keeps its line's flash, Nexus and password.
    Ok(Choice {
        mode,
        place,
        looked,
        jump: block.vector,
        watchdog: block.watchdog,
        bus16: block.bus16,
        flash_on,
        nexus_on,
        password: match password {
            Password::Flash => flash_password,
            Password::Public => PUBLIC_PASSWORD,
        },
    })
}

#[cfg(test)]
mod tests {
    use super::*;

    const PLACES: [usize; 6] = [0, 0x4000, 0x10000, 0x1C000, 0x20000, 0x30000];
    const FLASH_PASSWORD: [u8; 8] = [1, 2, 3, 4, 5, 6, 7, 8];
    const PUBLIC: [u8; 8] = *b"\xFE\xED\xFA\xCE\xCA\xFE\xBE\xEF";
    const GOOD: [u8; 8] = [0x00, 0x5A, 0xFF, 0xFF, 0x12, 0x34, 0x56, 0x78];
    const BAD: [u8; 8] = [0xFF; 8];
    const CONTROLS: [u16; 8] = [
        0x55AA, 0x0000, 0xFFFF, 0xAA55, 0x55AB, 0x54AA, 0x55FF, 0x00AA,
    ];

    fn shadow(censorship: u16, serial: u16) -> Vec<u8> {
        let mut bytes = FLASH_PASSWORD.to_vec();
        bytes.extend(censorship.to_be_bytes());
        bytes.extend(serial.to_be_bytes());
        bytes
    }

    /// An erased flash of `len` bytes with `head` written at each place, cut at the end.
    fn flash(len: usize, places: &[usize], head: [u8; 8]) -> Vec<u8> {
        let mut bytes = vec![0xFF; len];
        for &place in places {
            for (cell, byte) in bytes.iter_mut().skip(place).zip(head) {
                *cell = byte;
            }
        }
        bytes
    }

    fn internal(flash: &[u8]) -> Choice {
        choose(0, flash, &shadow(0x55AA, 0x55AA), &BAD).unwrap()
    }

    fn external(head: &[u8]) -> Choice {
        choose(2, &[], &shadow(0x55AA, 0x55AA), head).unwrap()
    }

    /// A serial choice of a device with public password and all on.
    fn serial(entered: Entered, looked: u32) -> Choice {
        Choice {
            mode: Mode::Serial(entered),
            place: 0,
            looked,
            jump: 0,
            watchdog: false,
            bus16: false,
            flash_on: true,
            nexus_on: true,
            password: PUBLIC,
        }
    }

    #[test]
    fn every_line_of_the_boot_table() {
        for censorship in CONTROLS {
            for serial in CONTROLS {
                let shadow = shadow(censorship, serial);
                for bootcfg in 0..=3 {
                    let (flash_on, nexus_on, password) = match (bootcfg, censorship, serial) {
                        (0, 0x55AA, _) => (true, true, PUBLIC),
                        (0, _, _) => (true, false, FLASH_PASSWORD),
                        (1, _, 0x55AA) => (true, false, FLASH_PASSWORD),
                        (1, _, _) => (false, true, PUBLIC),
                        (_, 0x55AA, _) => (true, true, PUBLIC),
                        (_, _, _) => (false, true, PUBLIC),
                    };
                    let (booted, fallen) = match bootcfg {
                        0 => (Mode::Internal, Mode::Serial(Entered::FromInternal)),
                        1 => (Mode::Serial(Entered::Asked), Mode::Serial(Entered::Asked)),
                        _ => (Mode::External, Mode::Serial(Entered::FromExternal)),
                    };
                    // The fallback to serial keeps its line.
                    for (head, mode) in [(GOOD, booted), (BAD, fallen)] {
                        let choice = choose(bootcfg, &head, &shadow, &head).unwrap();
                        assert_eq!(choice.mode, mode);
                        assert_eq!(choice.flash_on, flash_on);
                        assert_eq!(choice.nexus_on, nexus_on);
                        assert_eq!(choice.password, password);
                    }
                }
            }
        }
    }

    #[test]
    fn an_illegal_flash_password_is_handed_on_as_it_is() {
        let choice = choose(1, &[], b"\0\0\xFF\xFF\0\0\xFF\xFF\x55\xAA\x55\xAA", &BAD).unwrap();
        assert_eq!(choice.password, *b"\0\0\xFF\xFF\0\0\xFF\xFF");
    }

    #[test]
    fn p10_boot_identifier_only_at_1c000() {
        let choice = internal(&flash(FLASH_MAX, &[0x1C000], GOOD));
        let expected = Choice {
            mode: Mode::Internal,
            place: 0x1C000,
            looked: 4,
            jump: 0x1234_5678,
            ..serial(Entered::FromInternal, 0)
        };
        assert_eq!(choice, expected);
    }

    #[test]
    fn p11_no_boot_identifier() {
        for len in [0, 1, 7, 8, 0x30008, FLASH_MAX] {
            assert_eq!(
                internal(&flash(len, &[], GOOD)),
                serial(Entered::FromInternal, 6)
            );
        }
    }

    #[test]
    fn p12_boot_identifier_as_first_byte() {
        let head = [0x5A, 0x00, 0x5A, 0x5A, 0x5A, 0x5A, 0x5A, 0x5A];
        let flash = flash(FLASH_MAX, &PLACES, head);
        assert_eq!(internal(&flash), serial(Entered::FromInternal, 6));
        assert_eq!(external(&head), serial(Entered::FromExternal, 1));
    }

    #[test]
    fn boot_identifier_is_one_value() {
        for id in 0..=255 {
            let head = [0, id, 0, 0, 0, 0, 0, 0];
            assert_eq!(internal(&head).mode == Mode::Internal, id == 0x5A);
            assert_eq!(external(&head).mode == Mode::External, id == 0x5A);
        }
    }

    #[test]
    fn a_place_needs_all_its_8_bytes() {
        for (place, looked) in PLACES.into_iter().zip(1..) {
            let short = internal(&flash(place + 7, &[place], GOOD));
            assert_eq!(short, serial(Entered::FromInternal, 6));

            let enough = internal(&flash(place + 8, &[place], GOOD));
            assert_eq!(enough.mode, Mode::Internal);
            assert_eq!(enough.place, place as u32);
            assert_eq!(enough.looked, looked);
            assert_eq!(enough.jump, 0x1234_5678);
        }
    }

    #[test]
    fn first_of_several_good_places() {
        for set in 1u32..64 {
            let good: Vec<usize> = (0..6)
                .filter(|i| set >> i & 1 == 1)
                .map(|i| PLACES[i])
                .collect();
            let choice = internal(&flash(0x30008, &good, GOOD));
            assert_eq!(choice.mode, Mode::Internal);
            assert_eq!(choice.place, good[0] as u32);
            assert_eq!(choice.looked, set.trailing_zeros() + 1);
        }
    }

    #[test]
    fn only_the_six_places_count() {
        let elsewhere = [
            0x8, 0x3FF8, 0x8000, 0xC000, 0x18000, 0x28000, 0x38000, 0x40000,
        ];
        let choice = internal(&flash(FLASH_MAX, &elsewhere, GOOD));
        assert_eq!(choice, serial(Entered::FromInternal, 6));
    }

    #[test]
    fn jump_address_is_that_of_the_good_place() {
        let mut memory = flash(0x30008, &[0x10000], GOOD);
        memory[0x20000..0x20008].copy_from_slice(&[0, 0x5A, 0, 0, 9, 9, 9, 9]);
        assert_eq!(internal(&memory).jump, 0x1234_5678);
        memory[0x10001] = 0x5B;
        assert_eq!(internal(&memory).jump, 0x0909_0909);
    }

    #[test]
    fn flag_bits() {
        for flags in 0..=255 {
            let head = [flags, 0x5A, 0, 0, 0x80, 0, 0, 1];
            let expected = Choice {
                mode: Mode::Internal,
                looked: 1,
                jump: 0x8000_0001,
                watchdog: flags & 0x04 == 0x04,
                bus16: flags & 0x02 == 0x02,
                ..serial(Entered::Asked, 0)
            };
            assert_eq!(internal(&head), expected);
            assert_eq!(
                external(&head),
                Choice {
                    mode: Mode::External,
                    ..expected
                }
            );
        }
    }

    #[test]
    fn external_looks_only_at_the_external_head() {
        let shadow = shadow(0x55AA, 0);
        let full = flash(FLASH_MAX, &PLACES, [0x06, 0x5A, 0, 0, 1, 2, 3, 4]);
        for bootcfg in [2, 3] {
            for flash in [&[][..], &full] {
                let expected = Choice {
                    mode: Mode::External,
                    jump: 0x1234_5678,
                    ..serial(Entered::FromExternal, 1)
                };
                assert_eq!(choose(bootcfg, flash, &shadow, &GOOD), Ok(expected));
                let fallen = serial(Entered::FromExternal, 1);
                assert_eq!(choose(bootcfg, flash, &shadow, &BAD), Ok(fallen));
            }
        }
    }

    #[test]
    fn internal_does_not_look_at_the_external_head() {
        let choice = choose(0, &[], &shadow(0x55AA, 0), &GOOD);
        assert_eq!(choice, Ok(serial(Entered::FromInternal, 6)));
    }

    #[test]
    fn serial_looks_nowhere() {
        let full = flash(FLASH_MAX, &PLACES, [0x06, 0x5A, 0, 0, 1, 2, 3, 4]);
        let choice = choose(1, &full, &shadow(0x55AA, 0), &GOOD);
        let expected = Choice {
            flash_on: false,
            ..serial(Entered::Asked, 0)
        };
        assert_eq!(choice, Ok(expected));
    }

    #[test]
    fn bootcfg_above_3_is_refused() {
        for bootcfg in 4..=255 {
            assert_eq!(
                choose(bootcfg, &GOOD, &shadow(0x55AA, 0x55AA), &GOOD),
                Err(9)
            );
        }
    }

    #[test]
    fn sizes_not_allowed_are_refused_in_every_mode() {
        let shadow = shadow(0x55AA, 0x55AA);
        let longer = [&shadow[..], &[0]].concat();
        let too_large = vec![0; 2_097_153];
        for bootcfg in 0..=3 {
            assert_eq!(choose(bootcfg, &too_large, &shadow, &GOOD), Err(9));
            for wrong in [&[][..], &shadow[..11], &longer] {
                assert_eq!(choose(bootcfg, &GOOD, wrong, &GOOD), Err(9));
            }
            for wrong in [&[][..], &GOOD[..7], &[0; 9]] {
                assert_eq!(choose(bootcfg, &GOOD, &shadow, wrong), Err(9));
            }
        }
    }

    #[test]
    fn the_largest_and_smallest_flash_are_allowed_in_every_mode() {
        let largest = vec![0; 2_097_152];
        for bootcfg in 0..=3 {
            for flash in [&[][..], &largest] {
                assert!(choose(bootcfg, flash, &shadow(0, 0), &GOOD).is_ok());
            }
        }
    }
}

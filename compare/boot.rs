//! The boot choice and its MMU rows: the inputs, and the comparison of the answers.

use crate::c_numbers::{mode_number, mode_of, table, table_name, CHOICE_NAMES, ROWS, TABLE, WIDE};
use crate::differences::{hex, lent_lines, line, room_lines};
use crate::foreign::{self, Library};
use crate::forms::{both, ChoiceForm, ChoiceRoom, Length, CHOICE, CUT, FRONT, MORE};
use crate::random::Random;
use crate::{Among, Tally};
use reference::boot::{choose, Choice, Mode};
use reference::mmu::{choice_rows, Row};
use std::array;
use std::fmt;

/// Where the internal flash is looked at, in the order of the search.
const PLACES: [usize; 6] = [0, 0x4000, 0x1_0000, 0x1_C000, 0x2_0000, 0x3_0000];
/// Sets of good places: bit 0 is the first place.
const NONE: u8 = 0;
const ALL: u8 = 0x3F;

pub const FLASH_MAX: usize = 2_097_152;
pub const SHADOW: usize = 12;
pub const HEAD: usize = 8;
/// The largest length handed in for rows, and how long their buffer is. It is filled at
/// random: with other numbers here a seed gives other random inputs.
const ROWS_MAX: usize = 130;
const ROWS_BUFFER: usize = 144;

const BOOT_ID: u8 = 0x5A;
const CONTROLS: [u16; 5] = [0x55AA, 0xAA55, 0x0000, 0xFFFF, 0x55AB];

/// In the order of boot_assist_mode.
const MODE_NAMES: [&str; 5] = [
    "internal",
    "external",
    "serial directly",
    "serial from internal",
    "serial from external",
];

/// Compares the systematic inputs, then `count` random ones. An error is the report
/// of the first difference.
pub fn run(mut random: Random, count: u64, tally: &mut Tally) -> Result<(), String> {
    for (thing, values) in [
        ("choice", &["0", "9"][..]),
        ("mode", &MODE_NAMES),
        ("rank", &["1", "2", "3", "4", "5", "6"]),
        ("looked", &["0", "1", "2", "3", "4", "5", "6"]),
        ("watchdog", &["0", "1"]),
        ("bus16", &["0", "1"]),
        ("flash", &["0", "1"]),
        ("nexus", &["0", "1"]),
        ("password", &["public", "flash"]),
    ] {
        tally.expect(thing, Among::Random, values);
    }
    tally.expect("choice rows", Among::Random, &["0", "9", "11"]);

    let mut boot = Boot {
        library: Library::new(Random::new(random.number())),
        random,
        tally,
        flash: vec![BOOT_ID; FLASH_MAX + 1],
        zeros: foreign::zeros(CUT + FLASH_MAX),
        at_random: false,
    };
    for bootcfg in 0..=3 {
        boot.flash_lengths(bootcfg)?;
        boot.good_places(bootcfg)?;
        boot.half_words(bootcfg)?;
        boot.controls(bootcfg)?;
        boot.shadow_and_head_lengths(bootcfg)?;
    }
    boot.bootcfgs()?;
    boot.output_lengths()?;
    boot.rows()?;
    boot.at_random = true;
    for _ in 0..count {
        boot.random_input()?;
        boot.random_rows()?;
    }
    boot.tally.calls.add(&boot.library.calls);
    Ok(())
}

/// An input of the boot choice.
struct Input {
    bootcfg: u32,
    flash_len: usize,
    /// The bytes at each place; the flash may end before or in them.
    places: [[u8; 8]; 6],
    shadow: Vec<u8>,
    head: Vec<u8>,
    /// The lengths of the choice: of the password and of the fields.
    choice: Length,
}

impl fmt::Display for Input {
    fn fmt(&self, f: &mut fmt::Formatter) -> fmt::Result {
        writeln!(f, "BOOTCFG {}", self.bootcfg)?;
        writeln!(f, "flash of {} bytes, at its places:", self.flash_len)?;
        for (place, bytes) in PLACES.into_iter().zip(&self.places) {
            let inside = self.flash_len.saturating_sub(place).min(8);
            let cut = " -".repeat(8 - inside);
            writeln!(f, "  {place:#07x}{}{cut}", hex(&bytes[..inside]))?;
        }
        writeln!(f, "shadow, {}:{}", self.shadow.len(), hex(&self.shadow))?;
        writeln!(f, "head, {}:{}", self.head.len(), hex(&self.head))?;
        writeln!(f, "choice: {}", self.choice)
    }
}

/// The title of both answers side by side, and what each returned.
fn title(ours: u8, reference: u8) -> String {
    let title = format!("  {:<16} {:<24} reference\n", "", "ours");
    title + &line("number", &ours.to_string(), &reference.to_string())
}

struct Boot<'a> {
    random: Random,
    library: Library,
    tally: &'a mut Tally,
    /// One byte longer than the largest flash; a shorter one is its beginning. Other places
    /// than the six look good, so that a look there is seen.
    flash: Vec<u8>,
    /// A longer one.
    zeros: &'static [u8],
    /// Whether the inputs are now random ones, for the tally.
    at_random: bool,
}

impl Boot<'_> {
    /// The 8 bytes at a place or of the external head.
    fn block(&mut self, good: bool) -> [u8; 8] {
        let mut block = array::from_fn(|_| self.random.byte());
        if good {
            block[1] = BOOT_ID;
        } else if block[1] == BOOT_ID || self.random.chance(4) {
            block[1] = BOOT_ID ^ 1 << self.random.below(8);
        }
        block
    }

    fn shadow(&mut self, censorship: u16, serial: u16) -> Vec<u8> {
        let mut shadow: Vec<u8> = (0..8).map(|_| self.random.byte()).collect();
        shadow.extend(censorship.to_be_bytes());
        shadow.extend(serial.to_be_bytes());
        shadow
    }

    /// A control half word, often 55AA or near it.
    fn control(&mut self) -> u16 {
        match self.random.below(4) {
            0 => self.random.pick(&CONTROLS),
            1 => 0x55AA ^ 1 << self.random.below(16),
            2 => self.random.number() as u16,
            _ => 0x55AA,
        }
    }

    /// An input with every length right and the largest flash. Whether its places and
    /// its head are good is told; the rest is random.
    fn input(&mut self, bootcfg: u32, good: u8, good_head: bool) -> Input {
        let (censorship, serial) = (self.control(), self.control());
        Input {
            bootcfg,
            flash_len: FLASH_MAX,
            places: array::from_fn(|rank| self.block(good >> rank & 1 == 1)),
            shadow: self.shadow(censorship, serial),
            head: self.block(good_head).to_vec(),
            choice: CHOICE,
        }
    }

    /// Flash ends about each place's end, empty flash, the largest, and some too large, of
    /// which 32 bits would cut the last ones to small ones.
    fn flash_lengths(&mut self, bootcfg: u32) -> Result<(), String> {
        for (rank, place) in PLACES.into_iter().enumerate() {
            for flash_len in place..=place + 16 {
                for good in [1 << rank, ALL] {
                    let input = self.input(bootcfg, good, true);
                    self.compare(&Input { flash_len, ..input })?;
                }
            }
        }
        for flash_len in [0, FLASH_MAX, FLASH_MAX + 1, CUT, CUT + 8, CUT + FLASH_MAX] {
            for good in [NONE, ALL] {
                for good_head in [false, true] {
                    let input = self.input(bootcfg, good, good_head);
                    self.compare(&Input { flash_len, ..input })?;
                }
            }
        }
        Ok(())
    }

    /// Every set of good places, with the external head good and bad.
    fn good_places(&mut self, bootcfg: u32) -> Result<(), String> {
        for good in NONE..=ALL {
            for good_head in [false, true] {
                let input = self.input(bootcfg, good, good_head);
                self.compare(&input)?;
            }
        }
        Ok(())
    }

    /// Every first and every second byte of the half word, and the boot identifier in
    /// the first or third byte, at each place and in the external head.
    fn half_words(&mut self, bootcfg: u32) -> Result<(), String> {
        for rank in 0..PLACES.len() {
            for at in [0, 1] {
                for byte in 0..=255 {
                    let mut input = self.input(bootcfg, 1 << rank, true);
                    input.places[rank][at] = byte;
                    input.head[at] = byte;
                    self.compare(&input)?;
                }
            }
            for at in [0, 2] {
                for good in [NONE, ALL ^ 1 << rank] {
                    let mut input = self.input(bootcfg, good, false);
                    input.places[rank][at] = BOOT_ID;
                    input.head[at] = BOOT_ID;
                    self.compare(&input)?;
                }
            }
        }
        Ok(())
    }

    /// Both control half words, with something to boot and with nothing.
    fn controls(&mut self, bootcfg: u32) -> Result<(), String> {
        let controls = |random: &mut Random| {
            let other = random.number() as u16;
            CONTROLS.into_iter().chain([other])
        };
        for censorship in controls(&mut self.random) {
            for serial in controls(&mut self.random) {
                for (good, good_head) in [(NONE, false), (ALL, true)] {
                    let shadow = self.shadow(censorship, serial);
                    let input = self.input(bootcfg, good, good_head);
                    self.compare(&Input { shadow, ..input })?;
                }
            }
        }
        Ok(())
    }

    fn shadow_and_head_lengths(&mut self, bootcfg: u32) -> Result<(), String> {
        for shadow_len in 0..=16 {
            for head_len in 0..=16 {
                let mut input = self.input(bootcfg, ALL, true);
                input.shadow.resize(shadow_len, self.random.byte());
                input.head.resize(head_len, self.random.byte());
                self.compare(&input)?;
            }
        }
        Ok(())
    }

    fn bootcfgs(&mut self) -> Result<(), String> {
        let wide = [256, 257, 258, 259, 65_536, u32::MAX];
        for bootcfg in (0..=255).chain(wide) {
            for (good, good_head) in [(NONE, false), (ALL, true)] {
                let input = self.input(bootcfg, good, good_head);
                self.compare(&input)?;
            }
        }
        Ok(())
    }

    /// Every pair of output lengths but the right one, with inputs that would be
    /// answered and with inputs that would not.
    fn output_lengths(&mut self) -> Result<(), String> {
        for bootcfg in 0..=4 {
            for (flash_len, shadow_len, head_len) in [
                (FLASH_MAX, SHADOW, HEAD),
                (FLASH_MAX + 1, SHADOW, HEAD),
                (FLASH_MAX, SHADOW - 1, HEAD),
                (FLASH_MAX, SHADOW, HEAD + 1),
            ] {
                for numbers in 0..=CHOICE.numbers + MORE {
                    for bytes in 0..=CHOICE.bytes + MORE {
                        if both(bytes, numbers) == CHOICE {
                            continue;
                        }
                        let good = self.random.pick(&[NONE, ALL]);
                        let good_head = self.random.chance(2);
                        let mut input = self.input(bootcfg, good, good_head);
                        input.flash_len = flash_len;
                        input.shadow.resize(shadow_len, 0);
                        input.head.resize(head_len, 0);
                        input.choice = both(bytes, numbers);
                        self.compare(&input)?;
                    }
                }
            }
        }
        Ok(())
    }

    /// A random input: shaped as the systematic ones, and at times bent.
    fn random_input(&mut self) -> Result<(), String> {
        for _ in 0..2 {
            let spot = self.random.below(FLASH_MAX - 8);
            let block = self.block(true);
            self.flash[spot..spot + 8].copy_from_slice(&block);
        }

        let bootcfg = if self.random.chance(32) {
            u32::from(self.random.byte()) << self.random.pick(&[0, 0, 8, 24])
        } else {
            self.random.pick(&[0, 0, 0, 1, 2, 3])
        };
        // Half of the time every place is good from some rank on, else each or not.
        let good = if self.random.chance(2) {
            ALL << self.random.below(7) & ALL
        } else {
            self.random.byte() & ALL
        };
        let good_head = self.random.chance(2);
        let mut input = self.input(bootcfg, good, good_head);
        for block in &mut input.places {
            if self.random.chance(8) {
                block[self.random.pick(&[0, 2, 3])] = BOOT_ID;
            }
        }
        if self.random.chance(8) {
            input.head[self.random.pick(&[0, 2, 3])] = BOOT_ID;
        }
        input.flash_len = match self.random.below(16) {
            0..=9 => self.random.pick(&PLACES) + self.random.below(17),
            10..=12 => self.random.below(FLASH_MAX + 2),
            13 => self.random.pick(&[0, FLASH_MAX + 1]),
            _ => FLASH_MAX,
        };
        if self.random.chance(32) {
            let len = self.random.below(17);
            input.shadow.resize(len, self.random.byte());
        }
        if self.random.chance(32) {
            let len = self.random.below(17);
            input.head.resize(len, self.random.byte());
        }
        if self.random.chance(32) {
            input.choice.numbers = self.random.below(CHOICE.numbers + MORE + 1);
        }
        if self.random.chance(32) {
            input.choice.bytes = self.random.below(CHOICE.bytes + MORE + 1);
        }
        self.compare(&input)
    }

    fn compare(&mut self, input: &Input) -> Result<(), String> {
        for (place, block) in PLACES.into_iter().zip(&input.places) {
            self.flash[place..place + 8].copy_from_slice(block);
        }
        let flash = match self.flash.get(..input.flash_len) {
            Some(flash) => flash,
            None => &self.zeros[..input.flash_len],
        };
        let before = ChoiceRoom::random(&mut self.random);

        let mut ours = before;
        let number = self.library.choose(
            input.bootcfg,
            flash,
            &input.shadow,
            &input.head,
            &mut ours,
            input.choice,
        );

        let expected = expected_choice(input, flash);
        let (mut due, mut reference) = (0, before);
        match &expected {
            Ok(choice) => reference.put(&form(choice)),
            Err(number) => due = *number,
        }

        if (number, ours) != (due, reference) {
            let lists = room_lines(ours.all(), reference.all(), CHOICE, CHOICE_NAMES);
            let (way, title) = (self.library.way, title(number, due));
            return Err(format!("{way}\n{input}{title}{lists}"));
        }
        self.count(input, &expected);
        Ok(())
    }

    /// Counts an answer that both gave.
    fn count(&mut self, input: &Input, answer: &Result<Choice, u8>) {
        self.tally.inputs += 1;
        let mut count = |thing, value: &str| self.tally.count(thing, value, self.at_random);
        let choice = match answer {
            Ok(choice) => choice,
            Err(number) => return count("choice", &number.to_string()),
        };
        let flag = |on| if on { "1" } else { "0" };
        count("choice", "0");
        count("mode", MODE_NAMES[mode_number(choice.mode)]);
        count("looked", &choice.looked.to_string());
        count("flash", flag(choice.flash_on));
        count("nexus", flag(choice.nexus_on));
        let of_flash = choice.password == input.shadow[..CHOICE.bytes];
        count("password", if of_flash { "flash" } else { "public" });
        // In a serial choice these two are always 0.
        if !matches!(choice.mode, Mode::Serial(_)) {
            count("watchdog", flag(choice.watchdog));
            count("bus16", flag(choice.bus16));
        }
        if choice.mode == Mode::Internal {
            let before = PLACES
                .iter()
                .filter(|&&place| place < choice.place as usize);
            count("rank", &(before.count() + 1).to_string());
        }
    }

    /// Every mode of 8 bits and wider ones, with every length up to ROWS_MAX.
    fn rows(&mut self) -> Result<(), String> {
        for mode in (0..=255).chain(WIDE) {
            for rows_len in 0..=ROWS_MAX {
                self.compare_rows(mode, rows_len)?;
            }
        }
        Ok(())
    }

    /// The rows of a random mode, mostly one that there is and with the right length.
    fn random_rows(&mut self) -> Result<(), String> {
        let mode = match self.random.below(16) {
            0 => self.random.number() as u32,
            1 => self.random.byte().into(),
            2 => self.random.pick(&WIDE),
            _ => self.random.below(5) as u32,
        };
        let rows_len = match self.random.below(8) {
            0 => self.random.below(ROWS_MAX + 1),
            1 => self.random.pick(&[0, TABLE - 1, TABLE + 1]),
            _ => TABLE,
        };
        self.compare_rows(mode, rows_len)
    }

    fn compare_rows(&mut self, mode: u32, rows_len: usize) -> Result<(), String> {
        let before: [u32; ROWS_BUFFER] = array::from_fn(|_| self.random.number() as u32);

        let mut ours = before;
        let number = (self.library).choice_rows(mode, &mut ours[FRONT..][..rows_len]);

        let (mut due, mut reference) = (0, before);
        match expected_rows(mode, rows_len) {
            Ok(rows) => reference[FRONT..][..TABLE].copy_from_slice(&table(rows)),
            Err(number) => due = number,
        }

        if (number, ours) != (due, reference) {
            let numbers = lent_lines(&ours, &reference, TABLE, table_name);
            let (way, title) = (self.library.way, title(number, due));
            return Err(format!(
                "{way}, mode {mode:#x}, rows_len {rows_len}\n{title}{numbers}"
            ));
        }
        self.tally.inputs += 1;
        let number = number.to_string();
        self.tally.count("choice rows", &number, self.at_random);
        Ok(())
    }
}

/// The reference's answer, after what the C interface alone refuses.
fn expected_choice(input: &Input, flash: &[u8]) -> Result<Choice, u8> {
    if input.choice != CHOICE {
        return Err(9);
    }
    // The second program takes 8 bits of BOOTCFG; a number that they do not hold is as wrong as 255.
    let bootcfg = u8::try_from(input.bootcfg).unwrap_or(255);
    choose(bootcfg, flash, &input.shadow, &input.head)
}

/// As `expected_choice`, for the rows. External rows are refused whatever the length.
fn expected_rows(mode: u32, rows_len: usize) -> Result<[Row; ROWS], u8> {
    let rows = choice_rows(mode_of(mode).ok_or(9)?)?;
    if rows_len != TABLE {
        return Err(9);
    }
    Ok(rows)
}

/// In the order of the members of boot_assist_choice.
fn form(choice: &Choice) -> ChoiceForm {
    ChoiceForm {
        bytes: choice.password,
        numbers: [
            mode_number(choice.mode) as u32,
            choice.place,
            choice.looked,
            choice.jump,
            choice.watchdog.into(),
            choice.bus16.into(),
            choice.flash_on.into(),
            choice.nexus_on.into(),
        ],
    }
}

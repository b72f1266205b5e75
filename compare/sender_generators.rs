//! Random inputs of a sender: beginnings, echoes, and senders.

use crate::c_numbers::{
    SENDER_GOING, SENDER_IMAGE_LENGTH, SENDER_OUT, SENDER_PLACE, SENDER_PORT, SENDER_START,
    SENDER_VLE,
};
use crate::forms::{Length, SenderForm, SENDER};
use crate::generators::{Maker, END};
use crate::harness::{BASE, SRAM};
use crate::sender_harness::{Begin, Told};
use crate::sender_images::{Image, MOST, PLACES};
use std::array;

#[rustfmt::skip]
pub const STARTS: [u32; 22] = [
    0, 3, BASE - 4, BASE - 3, BASE - 2, BASE - 1, BASE, BASE + 1, BASE + 2, BASE + 3, BASE + 4,
    END - 4, END - 3, END - 2, END - 1, END, END + 3, BASE | 1 << 31, !3, !2, !1, !0,
];

/// The last ones are too long for 32 bits, which would cut them to lengths that fit.
#[rustfmt::skip]
pub const LENGTHS: [usize; 19] = [
    0, 1, 4, 5, 7, 8, 9, 65_532, 65_535, 65_536, 65_537, 1 << 31, (1 << 31) + 8, (1 << 32) - 1,
    1 << 32, (1 << 32) + 1, (1 << 32) + 8, (1 << 32) + 9, (1 << 32) + 65_536,
];

/// Numbers that are no port, and other numbers for flags.
#[rustfmt::skip]
const NO_PORTS: [u32; 14] = [
    2, 3, 0x10, 0x80, 0x81, 0xFF, 0x100, 0x101, 0x102, 0x1_0000, 0x1_0001, 1 << 31,
    (1 << 31) + 1, !0,
];
const FLAGS: [u32; 8] = [0, 1, 2, 3, 0x100, 0x1_0000, 1 << 31, !0];

/// Numbers that are put where another belongs.
#[rustfmt::skip]
const NUMBERS: [u32; 24] = [
    0, 1, 2, 7, 8, 9, 15, 16, 17, 24, 0xFF, 0x100, 0x101, SRAM as u32, SRAM as u32 + 1,
    SRAM as u32 + 16, BASE - 1, BASE, BASE + 3, END - 1, END, 1 << 31, !7, !0,
];

impl Maker {
    pub fn image_of(&mut self, length: usize) -> Image {
        let at = self.random.below(PLACES);
        Image { at, length }
    }

    /// An image, mostly a short one.
    fn any_image(&mut self) -> Image {
        let length = match self.random.below(24) {
            0..=3 => self.random.pick(&LENGTHS),
            4 => 1 + self.random.below(5_000),
            5 => 1 + self.random.below(SRAM),
            _ => 1 + self.random.below(40),
        };
        self.image_of(length)
    }

    /// An image of another length than this, or seldom of the same.
    pub fn other_image(&mut self, length: usize) -> Image {
        let length = match self.random.below(8) {
            0 => length + 1,
            1 => length.saturating_sub(1),
            2 => length + 8,
            3 => (1 << 32) + length,
            4 => 0,
            5 => length,
            6 => self.random.pick(&LENGTHS),
            _ => self.random.below(64),
        };
        self.image_of(length.min(MOST))
    }

    /// A start address with which an image of this length fits, with any low bits.
    pub fn fitting(&mut self, length: usize) -> u32 {
        let last = (SRAM - length) as u32 & !3;
        let low = self.random.below(4) as u32;
        BASE + match self.random.below(3) {
            0 => low,
            1 => last + low,
            _ => self.random.below(last as usize + 4) as u32,
        }
    }

    /// A start address, often about those that fit.
    fn start(&mut self, length: usize) -> u32 {
        let fits = length <= SRAM;
        match self.random.below(12) {
            0..=2 => self.random.pick(&STARTS),
            3 => self.random.number() as u32,
            // One word too far.
            4 if fits => END - (length as u32 & !3) + self.random.below(4) as u32,
            _ if fits => self.fitting(length),
            _ => BASE + self.random.below(SRAM) as u32,
        }
    }

    fn vle(&mut self) -> u8 {
        match self.random.below(4) {
            0 => self.random.byte(),
            1 => 1,
            _ => 0,
        }
    }

    /// Any beginning.
    pub fn begin(&mut self) -> Begin {
        let image = self.any_image();
        let password_len = match self.random.below(12) {
            0 => self.random.pick(&[0, 1, 7, 9, 16]),
            1 => self.random.below(20),
            _ => 8,
        };
        Begin {
            port: match self.random.below(12) {
                0 => self.random.pick(&NO_PORTS),
                1 => self.random.byte().into(),
                _ => self.random.pick(&[0, 1]),
            },
            start: self.start(image.length),
            vle: self.vle(),
            password: self.bytes(password_len),
            image,
            sender: self.length(SENDER, 12),
        }
    }

    /// A beginning that is not refused, with an image of at most `most` bytes.
    pub fn good_begin(&mut self, most: usize) -> Begin {
        let length = 1 + self.random.below(most);
        Begin {
            port: self.random.pick(&[0, 1]),
            start: self.fitting(length),
            vle: self.vle(),
            password: self.bytes(8),
            image: self.image_of(length),
            sender: SENDER,
        }
    }

    /// Lengths that are wrong about once in `seldom` times.
    pub fn length(&mut self, right: Length, seldom: usize) -> Length {
        match self.random.chance(seldom) {
            true => self.wrong(right),
            false => right,
        }
    }

    pub fn no_port(&mut self) -> u32 {
        self.random.pick(&NO_PORTS)
    }

    /// An echo with one thing changed, and which.
    pub fn bent_told(&mut self, mut told: Told) -> (Told, &'static str) {
        let at = self.random.below(told.bytes.len().max(1));
        let change = match self.random.below(4) {
            0 => {
                if let Some(byte) = told.bytes.get_mut(at) {
                    *byte ^= 1 << self.random.below(8);
                }
                "byte"
            }
            1 => {
                told.identifier = match self.random.below(4) {
                    0 => told.identifier ^ 1 << self.random.below(32),
                    1 => told.identifier.wrapping_add(0x010),
                    2 => self.random.pick(&[0x000, 0x001, 0x002, 0x003, 0x004]),
                    _ => self.random.number() as u32,
                };
                "identifier"
            }
            2 => {
                self.bend_length(&mut told.bytes);
                "length"
            }
            _ => {
                told.port ^= 1;
                "port"
            }
        };
        (told, change)
    }

    fn bend_length(&mut self, bytes: &mut Vec<u8>) {
        match self.random.below(6) {
            0 => drop(bytes.pop()),
            1 => drop(bytes.drain(..1.min(bytes.len()))),
            2 => bytes.push(0),
            3 => bytes.extend_from_within(..),
            // The same length in 8 bits, and in 16.
            4 => bytes.resize(bytes.len() + 256, 0),
            _ if self.random.chance(16) => bytes.resize(bytes.len() + 65_536, 0),
            _ => bytes.truncate(1),
        }
    }

    /// A sender and the image that it is handed with: a sound load, or bent about the edges of
    /// soundness, or of any numbers.
    pub fn sender(&mut self) -> (SenderForm, Image) {
        let bytes = self.octets();
        if self.random.chance(16) {
            let numbers = array::from_fn(|_| match self.random.below(3) {
                0 => self.random.number() as u32,
                _ => self.random.pick(&NUMBERS),
            });
            let length = numbers[SENDER_IMAGE_LENGTH] as usize;
            return (SenderForm { bytes, numbers }, self.image_of(length));
        }
        let length = match self.random.below(16) {
            0 => self.random.pick(&[1, 7, 8, 9, 65_535, 65_536]),
            1 => 1 + self.random.below(SRAM),
            _ => 1 + self.random.below(40),
        };
        let mut numbers = SenderForm::ZERO.numbers;
        numbers[SENDER_GOING] = 1;
        let port = self.random.below(2) as u32;
        numbers[SENDER_PORT] = port;
        numbers[SENDER_START] = self.fitting(length);
        numbers[SENDER_VLE] = self.random.below(2) as u32;
        numbers[SENDER_IMAGE_LENGTH] = length as u32;
        numbers[SENDER_PLACE] = self.place(port, length);
        numbers[SENDER_OUT] = u32::from(!self.random.chance(4));
        let mut image = self.image_of(length);
        for _ in 0..self.random.pick(&[0, 0, 1, 1, 1, 2, 3]) {
            self.bend_sender(&mut numbers, &mut image);
        }
        (SenderForm { bytes, numbers }, image)
    }

    /// A place at which an item begins: any, or the first or last of a part.
    fn place(&mut self, port: u32, length: usize) -> u32 {
        let last = 15 + length;
        let place = match self.random.below(4) {
            0 => last,
            1 => self.random.below(last + 1),
            2 => self.random.below(24.min(last + 1)),
            _ => self.random.pick(&[0, 7, 8, 15, 16]),
        };
        match port {
            0 => place as u32 & !7,
            _ => place as u32,
        }
    }

    /// One number of a sender made another, or the image.
    fn bend_sender(&mut self, numbers: &mut [u32; SENDER.numbers], image: &mut Image) {
        let random = &mut self.random;
        let length = numbers[SENDER_IMAGE_LENGTH];
        let end = length.wrapping_add(16);
        let near = [end, end.wrapping_sub(1), end.wrapping_add(1), end & !7];
        let any = random.below(SENDER.numbers);
        let place = numbers[SENDER_PLACE];
        #[rustfmt::skip]
        let (at, number) = match random.below(16) {
            0 => (any, random.number() as u32),
            1 => (any, random.pick(&NUMBERS)),
            2 => (SENDER_GOING, random.pick(&FLAGS)),
            3 => (SENDER_VLE, random.pick(&FLAGS)),
            4 => (SENDER_OUT, random.pick(&FLAGS)),
            5 => (SENDER_PORT, random.pick(&FLAGS)),
            // The same in 8 bits.
            6 => (any, numbers[any] | 0x100 << random.below(24)),
            7 | 8 => (SENDER_START, random.pick(&STARTS)),
            9 => (SENDER_PLACE, random.pick(&near)),
            10 => (SENDER_PLACE, random.pick(&NUMBERS)),
            11 => (SENDER_PLACE, place.wrapping_add(random.pick(&[1, 4, 7, 8, 1 << 31, !0]))),
            12 => (SENDER_IMAGE_LENGTH, random.pick(&LENGTHS) as u32),
            13 => (SENDER_IMAGE_LENGTH, length ^ random.pick(&[1, 8, 1 << 16, 1 << 31])),
            _ => {
                *image = self.other_image(length as usize);
                return;
            }
        };
        numbers[at] = number;
        // The image that it says, or the one that it had.
        if at == SENDER_IMAGE_LENGTH && self.random.chance(2) {
            *image = self.image_of(number as usize);
        }
    }
}

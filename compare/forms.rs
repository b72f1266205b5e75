//! The flat forms in which a session, an answer, a boot choice, a sender and an item to
//! send cross the C interface: a list of bytes and a list of numbers.

use crate::random::Random;
use std::array;
use std::fmt;

/// Both lists of a form.
#[derive(Clone, Copy, PartialEq)]
pub struct Lists<const BYTES: usize, const NUMBERS: usize> {
    pub bytes: [u8; BYTES],
    pub numbers: [u32; NUMBERS],
}

/// Both lists of a form as they are lent: FRONT elements come before each, and more behind
/// it, which must be left alone.
#[derive(Clone, Copy, PartialEq)]
pub struct Room<const BYTES: usize, const NUMBERS: usize> {
    pub bytes: [u8; BYTES],
    pub numbers: [u32; NUMBERS],
}

/// Both lists, so much of them as counts.
pub type Both<'a> = (&'a [u8], &'a [u32]);
pub type BothMut<'a> = (&'a mut [u8], &'a mut [u32]);

/// How long both lists are that a call is lent.
#[derive(Clone, Copy, PartialEq)]
pub struct Length {
    pub bytes: usize,
    pub numbers: usize,
}

/// The right ones.
pub const SESSION: Length = both(16, 9);
pub const ANSWER: Length = both(8, 5);
pub const CHOICE: Length = both(8, 8);
pub const SENDER: Length = both(8, 7);
pub const ITEM: Length = both(8, 3);

/// How many elements a buffer has in front of what is lent and how many more than the right
/// length behind it, of which MORE may be lent too.
pub const FRONT: usize = 8;
pub const BEHIND: usize = 16;
pub const MORE: usize = 8;
pub const AROUND: usize = FRONT + BEHIND;

pub type SessionForm = Lists<{ SESSION.bytes }, { SESSION.numbers }>;
pub type AnswerForm = Lists<{ ANSWER.bytes }, { ANSWER.numbers }>;
pub type ChoiceForm = Lists<{ CHOICE.bytes }, { CHOICE.numbers }>;
pub type SenderForm = Lists<{ SENDER.bytes }, { SENDER.numbers }>;
pub type ItemForm = Lists<{ ITEM.bytes }, { ITEM.numbers }>;

pub type SessionRoom = Room<{ SESSION.bytes + AROUND }, { SESSION.numbers + AROUND }>;
pub type AnswerRoom = Room<{ ANSWER.bytes + AROUND }, { ANSWER.numbers + AROUND }>;
pub type ChoiceRoom = Room<{ CHOICE.bytes + AROUND }, { CHOICE.numbers + AROUND }>;
pub type SenderRoom = Room<{ SENDER.bytes + AROUND }, { SENDER.numbers + AROUND }>;
pub type ItemRoom = Room<{ ITEM.bytes + AROUND }, { ITEM.numbers + AROUND }>;

/// What 32 bits cut off a length or a place.
pub const CUT: usize = 1 << 32;

/// Which of the two lists is of another length than the right one.
pub const WRONG: [&str; 3] = ["bytes' length", "numbers' length", "both lengths"];

pub const fn both(bytes: usize, numbers: usize) -> Length {
    Length { bytes, numbers }
}

impl<const BYTES: usize, const NUMBERS: usize> Lists<BYTES, NUMBERS> {
    pub const ZERO: Self = Lists {
        bytes: [0; BYTES],
        numbers: [0; NUMBERS],
    };

    pub fn all(&self) -> Both<'_> {
        (&self.bytes, &self.numbers)
    }
}

impl<const BYTES: usize, const NUMBERS: usize> Room<BYTES, NUMBERS> {
    pub const ZERO: Self = Room {
        bytes: [0; BYTES],
        numbers: [0; NUMBERS],
    };
    /// Every bit of it is 1.
    pub const ONES: Self = Room {
        bytes: [!0; BYTES],
        numbers: [!0; NUMBERS],
    };

    pub fn random(random: &mut Random) -> Self {
        let mut bytes = [0; BYTES];
        for eight in bytes.chunks_mut(8) {
            eight.copy_from_slice(&random.number().to_le_bytes()[..eight.len()]);
        }
        Room {
            bytes,
            numbers: array::from_fn(|_| random.number() as u32),
        }
    }

    /// The form that is here.
    pub fn form<const B: usize, const N: usize>(&self) -> Lists<B, N> {
        Lists {
            bytes: *self.bytes[FRONT..].first_chunk().unwrap(),
            numbers: *self.numbers[FRONT..].first_chunk().unwrap(),
        }
    }

    pub fn put<const B: usize, const N: usize>(&mut self, form: &Lists<B, N>) {
        self.bytes[FRONT..][..B].copy_from_slice(&form.bytes);
        self.numbers[FRONT..][..N].copy_from_slice(&form.numbers);
    }

    pub fn number(&self, at: usize) -> u32 {
        self.numbers[FRONT + at]
    }

    /// With all that is around the form.
    pub fn all(&self) -> Both<'_> {
        (&self.bytes, &self.numbers)
    }

    pub fn lent(&self, length: Length) -> Both<'_> {
        (
            &self.bytes[FRONT..][..length.bytes],
            &self.numbers[FRONT..][..length.numbers],
        )
    }

    pub fn lent_mut(&mut self, length: Length) -> BothMut<'_> {
        (
            &mut self.bytes[FRONT..][..length.bytes],
            &mut self.numbers[FRONT..][..length.numbers],
        )
    }
}

impl fmt::Display for Length {
    fn fmt(&self, f: &mut fmt::Formatter) -> fmt::Result {
        write!(f, "{} bytes and {} numbers", self.bytes, self.numbers)
    }
}

impl Length {
    pub fn of((bytes, numbers): Both) -> Self {
        both(bytes.len(), numbers.len())
    }

    /// One of WRONG, if this is not the right one.
    pub fn wrong(self, right: Length) -> Option<&'static str> {
        let [bytes, numbers, both] = WRONG;
        match (self.bytes == right.bytes, self.numbers == right.numbers) {
            (true, true) => None,
            (false, true) => Some(bytes),
            (true, false) => Some(numbers),
            (false, false) => Some(both),
        }
    }

    /// The right one, each list alone of another length, and both.
    pub fn few(self) -> [Length; 4] {
        let Length { bytes, numbers } = self;
        [
            self,
            both(bytes + 1, numbers),
            both(bytes, numbers - 1),
            both(bytes - 1, numbers + 1),
        ]
    }

    /// As above, with more lengths; the last one has each list's length at the other.
    pub fn many(self) -> Vec<Length> {
        let Length { bytes, numbers } = self;
        let others = |right: usize| [0, right - 1, right + 1, right + MORE];
        let mut many = vec![self];
        many.extend(others(bytes).map(|bytes| both(bytes, numbers)));
        many.extend(others(numbers).map(|numbers| both(bytes, numbers)));
        many.extend([
            both(0, 0),
            both(bytes - 1, numbers - 1),
            both(bytes + 1, numbers + 1),
            both(bytes + 1, numbers - 1),
            both(numbers, bytes),
        ]);
        many
    }
}

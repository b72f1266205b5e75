//! The images that senders are handed.

use crate::differences::hex;
use crate::foreign;
use crate::random::Random;

/// The longest image of random bytes, one more than SRAM has, and at how many places of
/// them one may begin. Longer ones, up to MOST, are zeros.
const LONGEST: usize = 65_537;
pub const PLACES: usize = 1_024;
pub const MOST: usize = (1 << 32) + LONGEST;

/// How many bytes of an image a report has at most.
const SHOWN: usize = 64;

/// Where an image lies among the bytes.
#[derive(Clone, Copy, PartialEq)]
pub struct Image {
    pub at: usize,
    pub length: usize,
}

pub struct Images {
    seed: u64,
    bytes: Vec<u8>,
    /// The same bytes, which are not lent.
    kept: Vec<u8>,
    zeros: &'static mut [u8],
}

impl Images {
    /// Bytes from a seed that a report names.
    pub fn new(seed: u64) -> Self {
        let mut random = Random::new(seed);
        let bytes: Vec<u8> = (0..PLACES + LONGEST).map(|_| random.byte()).collect();
        Images {
            seed,
            kept: bytes.clone(),
            bytes,
            zeros: foreign::zeros(MOST),
        }
    }

    /// An image of these bytes, beside those from the seed.
    pub fn of(&mut self, bytes: &[u8]) -> Image {
        let at = self.bytes.len();
        self.bytes.extend_from_slice(bytes);
        self.kept.extend_from_slice(bytes);
        Image {
            at,
            length: bytes.len(),
        }
    }

    /// To be only read.
    pub fn lent(&mut self, image: Image) -> &mut [u8] {
        if image.length > LONGEST {
            return &mut self.zeros[..image.length];
        }
        &mut self.bytes[image.at..][..image.length]
    }

    pub fn bytes(&self, image: Image) -> &[u8] {
        if image.length > LONGEST {
            return &self.zeros[..image.length];
        }
        &self.kept[image.at..][..image.length]
    }

    /// Whether an image was written to. Zeros cannot be.
    pub fn changed(&self, image: Image) -> bool {
        let Image { at, length } = image;
        length <= LONGEST && self.bytes[at..][..length] != self.kept[at..][..length]
    }

    pub fn shown(&self, image: Image) -> String {
        let Image { at, length } = image;
        if length > LONGEST {
            return format!("image, {length}: all 00\n");
        }
        let bytes = hex(&self.bytes(image)[..length.min(SHOWN)]);
        let dots = if length > SHOWN { " .." } else { "" };
        let from = match at < PLACES {
            true => format!(", at {at} of the bytes from seed {:#x}", self.seed),
            false => String::new(),
        };
        format!("image, {length}{from}:{bytes}{dots}\n")
    }
}

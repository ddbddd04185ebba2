//! Digests made field by field.
use crate::random::Random;
use saltcurtain::Variant;

/// The bytes of a digest in the order of its text: checksum, length code, ratios, body. In the text the two digits of each of the
/// first three stand the low one first.
#[derive(Clone, Copy)]
pub struct Fields {
    /// The variant.
    pub variant: Variant,
    /// The first 15, 35 or 67 are used.
    pub bytes: [u8; 67],
}

impl Fields {
    /// Any bytes.
    pub fn random(variant: Variant, random: &mut Random) -> Self {
        let mut bytes = [0; 67];
        bytes.fill_with(|| random.next() as u8);
        Self { variant, bytes }
    }

    /// The text.
    pub fn text(&self) -> Vec<u8> {
        let size = (self.variant.text_len() - 2) / 2;
        let digits = self.bytes[..size].iter().enumerate().flat_map(|(place, byte)| match place {
            0..3 => [byte & 15, byte >> 4],
            _ => [byte >> 4, byte & 15],
        });
        b"T1".iter().copied().chain(digits.map(|digit| b"0123456789ABCDEF"[usize::from(digit)])).collect()
    }

    /// Sets the code of two bits at a place of the body.
    pub fn set_code(&mut self, place: usize, code: u8) {
        let byte = &mut self.bytes[3 + place / 4];
        let from = 2 * (place % 4);
        *byte = *byte & !(3 << from) | code << from;
    }
}

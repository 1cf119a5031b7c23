//! Bytes as lower-case hexadecimal digits, big-endian, and back.

const NO_DIGIT: u8 = 0xff;

/// The value of each digit character; upper case is no digit.
static VALUES: [u8; 256] = {
    let mut values = [NO_DIGIT; 256];
    let mut value = 0;
    while value < 16 {
        values[b"0123456789abcdef"[value] as usize] = value as u8;
        value += 1;
    }
    values
};

/// The two digit characters of each byte.
static DIGITS: [[u8; 2]; 256] = {
    let mut digits = [[0; 2]; 256];
    let mut byte = 0;
    while byte < 256 {
        digits[byte] = [
            b"0123456789abcdef"[byte >> 4],
            b"0123456789abcdef"[byte & 15],
        ];
        byte += 1;
    }
    digits
};

/// Takes fields off the front of a text; whether all of it was digits is asked
/// once, at the end. Inlined, so that widths are constants at each use.
pub struct Digits<'a> {
    left: &'a [u8],
    seen: u8,
}

impl<'a> Digits<'a> {
    #[inline(always)]
    pub fn of(text: &'a [u8]) -> Digits<'a> {
        Digits {
            left: text,
            seen: 0,
        }
    }

    /// Nothing is left, and all that was taken were digits.
    #[inline(always)]
    pub fn are_all(&self) -> bool {
        self.left.is_empty() && self.seen != NO_DIGIT
    }

    #[inline(always)]
    fn field<const WIDTH: usize>(&mut self) -> Option<u64> {
        let (digits, left) = self.left.split_first_chunk::<WIDTH>()?;
        self.left = left;
        let mut value = 0;
        for &digit in digits {
            let digit = VALUES[usize::from(digit)];
            self.seen |= digit;
            value = value << 4 | u64::from(digit);
        }
        Some(value)
    }

    #[inline(always)]
    pub fn byte(&mut self) -> Option<u8> {
        self.field::<2>().map(|value| value as u8)
    }

    #[inline(always)]
    pub fn index(&mut self) -> Option<u16> {
        self.field::<4>().map(|value| value as u16)
    }

    #[inline(always)]
    pub fn term(&mut self) -> Option<u32> {
        self.field::<8>().map(|value| value as u32)
    }

    #[inline(always)]
    pub fn order(&mut self) -> Option<[u8; 8]> {
        self.field::<16>().map(u64::to_be_bytes)
    }
}

/// Writes the bytes' digits; the text has room for them.
#[inline(always)]
pub fn encode<const N: usize>(bytes: [u8; N], text: &mut [u8]) {
    for (pair, byte) in text[..2 * N].chunks_exact_mut(2).zip(bytes) {
        pair.copy_from_slice(&DIGITS[usize::from(byte)]);
    }
}

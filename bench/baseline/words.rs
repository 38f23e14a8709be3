//! The words of a text, line by line.

/// How many line feeds stand behind the text, so that sixteen bytes can be read from each of its places.
pub const PADDING: usize = 16;

/// A word of at most 15 bytes, the first in the lowest bits; the bits behind its end are zero.
#[derive(Clone, Copy, PartialEq, Eq)]
pub struct Word(pub u128);

impl Word {
    /// No word: the line, or the text, is at its end.
    pub const NONE: Word = Word(0);

    /// What stands there is no word of any line: it is too long, or has a byte that none can have.
    pub const BAD: Word = Word(u128::MAX);

    /// The word of these bytes.
    pub const fn of(text: &str) -> Word {
        let bytes = text.as_bytes();
        let (mut bits, mut at) = (0u128, bytes.len());
        while at > 0 {
            at -= 1;
            bits = bits << 8 | bytes[at] as u128;
        }
        Word(bits)
    }

    /// Whether it has the form of a name.
    pub fn is_name(self) -> bool {
        let bytes = self.0.to_le_bytes();
        let len = 16 - self.0.leading_zeros() as usize / 8;
        let is_inner = |byte: &u8| matches!(byte, b'a'..=b'z' | b'0'..=b'9' | b'_');
        bytes[0].is_ascii_lowercase() && bytes[..len].iter().all(is_inner)
    }

    /// Its number, where it has the form of one: `0`, or 1 to 10 digits of which the first isn't `0`.
    #[inline]
    pub fn number(self) -> Option<u64> {
        let (low, high) = (self.0 as u64, (self.0 >> 64) as u64);
        let is_led_by_zero = low as u8 == b'0' && low >> 8 != 0;
        if low == 0 || high > 0xffff || is_led_by_zero {
            return None;
        }
        let value = digits(low, 64 - (low.leading_zeros() & 56))?;
        if high == 0 {
            return Some(value);
        }
        let more = digits(high, if high > 0xff { 16 } else { 8 })?;
        Some(value * if high > 0xff { 100 } else { 10 } + more)
    }
}

/// The value of the decimal digits in so many bits, 8 to 64, the first in the lowest ones; `None` where one of these bytes is no digit.
#[inline]
fn digits(bits: u64, width: u32) -> Option<u64> {
    // The digits go to the end, and zeros stand before them. Each byte is the value of its digit, then, or above nine.
    let values = (bits << (64 - width)) ^ (0x3030_3030_3030_3030 << (64 - width));
    let above_nine = values.wrapping_add(0x7676_7676_7676_7676) | values;
    if above_nine & 0x8080_8080_8080_8080 != 0 {
        return None;
    }
    let pairs = values.wrapping_mul(10).wrapping_add(values >> 8);
    let first = (pairs & 0x00ff_0000_00ff).wrapping_mul(100 + (1_000_000 << 32));
    let second = (pairs >> 16 & 0x00ff_0000_00ff).wrapping_mul(1 + (10_000 << 32));
    Some(first.wrapping_add(second) >> 32)
}

/// The same byte eight times.
const fn all(byte: u8) -> u64 {
    u64::from_le_bytes([byte; 8])
}

/// The highest bit of each byte that is below `limit`, which is at most 128. Above the lowest such byte there may be more bits.
#[inline]
fn below(bytes: u64, limit: u8) -> u64 {
    bytes.wrapping_sub(all(limit)) & !bytes & all(0x80)
}

/// A text's words. `begin` goes to the next line that has some, `word` gives them one by one, and `end` says that there are no more.
pub struct Words<'t> {
    /// The text, with its padding.
    text: &'t [u8],
    /// Where the padding begins.
    end: usize,
    at: usize,
    line: usize,
}

impl<'t> Words<'t> {
    /// The words of a text, behind which its padding stands.
    pub fn new(text: &'t [u8]) -> Words<'t> {
        Words { text, end: text.len() - PADDING, at: 0, line: 1 }
    }

    /// The number of the current line, from 1.
    pub fn line(&self) -> usize {
        self.line
    }

    /// Two times eight bytes.
    #[inline]
    fn sixteen(&self, at: usize) -> (u64, u64) {
        let bytes = match self.text[at..].first_chunk::<16>() {
            Some(bytes) => u128::from_le_bytes(*bytes),
            None => u128::from_le_bytes([b'\n'; 16]),
        };
        (bytes as u64, (bytes >> 64) as u64)
    }

    /// Goes to the first word of the next line that has one, and gives it.
    #[inline]
    pub fn begin(&mut self) -> Word {
        while self.at < self.end {
            let word = self.word();
            if word != Word::NONE {
                return word;
            }
            self.skip_line();
        }
        Word::NONE
    }

    /// The next word of the line.
    #[inline]
    pub fn word(&mut self) -> Word {
        let mut at = self.at;
        loop {
            // One blank is what mostly stands there.
            at += usize::from(self.text[at] == b' ');
            let (low, high) = self.sixteen(at);
            // Blanks, the ends of lines and `#` are below `$`; what words are made of isn't.
            let ends = below(low, b'$');
            self.at = at;
            if ends == 0 {
                return self.long_word(low, high);
            }
            let first = ends & ends.wrapping_neg();
            let word = low & (first >> 7).wrapping_sub(1);
            if word != 0 {
                self.at = at + ends.trailing_zeros() as usize / 8;
                return Word(u128::from(word));
            }
            if !matches!(low as u8, b' ' | b'\t') {
                return no_word(low);
            }
            at += 1;
        }
    }

    /// The word that begins with these eight bytes, and ends among the next ones.
    #[inline]
    fn long_word(&mut self, low: u64, high: u64) -> Word {
        let ends = below(high, b'$');
        if ends == 0 {
            return Word::BAD;
        }
        let first = ends & ends.wrapping_neg();
        let word = high & (first >> 7).wrapping_sub(1);
        self.at += 8 + ends.trailing_zeros() as usize / 8;
        Word(u128::from(word) << 64 | u128::from(low))
    }

    /// Goes to the next line. Says whether this one has no further word.
    #[inline]
    pub fn end(&mut self) -> bool {
        let is_end = self.word() == Word::NONE;
        if is_end {
            self.skip_line();
        }
        is_end
    }

    /// Goes behind the next line feed, or that of the padding.
    #[inline]
    fn skip_line(&mut self) {
        self.line += 1;
        let mut at = self.at;
        loop {
            let (low, high) = self.sixteen(at);
            let (first, second) = (below(low ^ all(b'\n'), 1), below(high ^ all(b'\n'), 1));
            if first != 0 {
                self.at = at + first.trailing_zeros() as usize / 8 + 1;
                return;
            }
            if second != 0 {
                self.at = at + second.trailing_zeros() as usize / 8 + 9;
                return;
            }
            at += 16;
        }
    }
}

/// What stands where no word begins: the end of a line, or a byte that no word can have.
#[inline]
fn no_word(bytes: u64) -> Word {
    match [bytes as u8, (bytes >> 8) as u8] {
        [b'\n' | b'#', _] | [b'\r', b'\n'] => Word::NONE,
        _ => Word::BAD,
    }
}

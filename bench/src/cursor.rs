//! Reading a text of a fixed form from its front.
//!
//! Every form here can be read without going back, so the byte at which
//! reading stops is the first after which no text of the form can follow. A
//! text that only stops short breaks at its length.

/// The byte at which a text breaks its form.
#[derive(Clone, Copy, Debug, PartialEq, Eq)]
pub struct Broken(pub usize);

pub struct Cursor<'a> {
    bytes: &'a [u8],
    at: usize,
}

impl<'a> Cursor<'a> {
    pub fn new(bytes: &'a [u8]) -> Self {
        Cursor { bytes, at: 0 }
    }

    pub fn peek(&self) -> Option<u8> {
        self.bytes.get(self.at).copied()
    }

    pub fn rest(&self) -> &'a [u8] {
        &self.bytes[self.at..]
    }

    pub fn broken<T>(&self) -> Result<T, Broken> {
        Err(Broken(self.at))
    }

    /// Takes the byte where it stands next, and tells whether it did.
    pub fn skip(&mut self, byte: u8) -> bool {
        let met = self.peek() == Some(byte);
        self.at += usize::from(met);
        met
    }

    pub fn byte(&mut self, byte: u8) -> Result<(), Broken> {
        if self.skip(byte) {
            Ok(())
        } else {
            self.broken()
        }
    }

    pub fn key(&mut self, key: &[u8]) -> Result<(), Broken> {
        key.iter().try_for_each(|&byte| self.byte(byte))
    }

    pub fn digit(&mut self) -> Result<u8, Broken> {
        match self.peek() {
            Some(byte @ b'0'..=b'9') => {
                self.at += 1;
                Ok(byte - b'0')
            }
            _ => self.broken(),
        }
    }

    /// A number of at most so many digits, without a leading zero.
    pub fn number(&mut self, digits: usize) -> Result<u64, Broken> {
        let mut number = u64::from(self.digit()?);
        let mut taken = 1;
        while number > 0 && taken < digits {
            let Ok(digit) = self.digit() else { break };
            number = number * 10 + u64::from(digit);
            taken += 1;
        }
        Ok(number)
    }

    /// A number of one or two digits.
    pub fn short(&mut self) -> Result<u8, Broken> {
        self.number(2).map(|number| number as u8)
    }

    pub fn is_at_end(&self) -> bool {
        self.at == self.bytes.len()
    }

    pub fn end(&self) -> Result<(), Broken> {
        if self.is_at_end() {
            Ok(())
        } else {
            self.broken()
        }
    }
}

/// The lines of an input: the last may lack its line feed.
pub fn lines(input: &[u8]) -> impl Iterator<Item = &[u8]> {
    let body = input.strip_suffix(b"\n").unwrap_or(input);
    let count = if input.is_empty() { 0 } else { usize::MAX };
    body.split(|&byte| byte == b'\n').take(count)
}

#[cfg(test)]
mod tests {
    use super::*;

    #[test]
    fn a_zero_is_a_number_of_its_own() {
        let mut cursor = Cursor::new(b"07");
        assert_eq!(cursor.short(), Ok(0));
        assert_eq!(cursor.end(), Err(Broken(1)));
    }

    #[test]
    fn two_digits_are_the_most() {
        let mut cursor = Cursor::new(b"100");
        assert_eq!(cursor.short(), Ok(10));
        assert_eq!(cursor.end(), Err(Broken(2)));
    }

    #[test]
    fn lines_with_and_without_a_last_line_feed() {
        let count = |input: &[u8]| lines(input).count();
        assert_eq!(count(b""), 0);
        assert_eq!(count(b"\n"), 1);
        assert_eq!(count(b"a"), 1);
        assert_eq!(count(b"a\n\n"), 2);
        assert_eq!(count(b"a\nb"), 2);
    }
}

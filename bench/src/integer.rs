//! A line that is a whole number of 64 bits.

use crate::cursor::{Broken, Cursor};

/// That the number fits 64 bits is part of the form, so a digit that takes it
/// past its limit is where the line breaks.
pub fn read_integer(line: &[u8]) -> Result<i64, Broken> {
    let mut cursor = Cursor::new(line);
    let is_negative = cursor.skip(b'-');
    if is_negative && cursor.peek() == Some(b'0') {
        return cursor.broken();
    }
    let mut integer = signed(cursor.digit()?, is_negative);
    while integer != 0 && !cursor.is_at_end() {
        let grown = cursor.peek().filter(u8::is_ascii_digit).and_then(|byte| {
            integer
                .checked_mul(10)?
                .checked_add(signed(byte - b'0', is_negative))
        });
        let Some(grown) = grown else {
            return cursor.broken();
        };
        cursor.digit()?;
        integer = grown;
    }
    cursor.end()?;
    Ok(integer)
}

fn signed(digit: u8, is_negative: bool) -> i64 {
    if is_negative {
        -i64::from(digit)
    } else {
        i64::from(digit)
    }
}

#[cfg(test)]
mod tests {
    use super::*;

    #[test]
    fn the_numbers_of_the_formats() {
        let cases = [
            ("0", Ok(0)),
            ("-12", Ok(-12)),
            ("9223372036854775807", Ok(i64::MAX)),
            ("-9223372036854775808", Ok(i64::MIN)),
            ("9223372036854775808", Err(Broken(18))),
            ("-9223372036854775809", Err(Broken(19))),
            ("10000000000000000000", Err(Broken(19))),
            ("+1", Err(Broken(0))),
            ("007", Err(Broken(1))),
            ("-0", Err(Broken(1))),
            (" 1", Err(Broken(0))),
            ("", Err(Broken(0))),
            ("-", Err(Broken(1))),
            ("1.5", Err(Broken(1))),
        ];
        for (line, answer) in cases {
            assert_eq!(read_integer(line.as_bytes()), answer, "{line}");
        }
    }
}

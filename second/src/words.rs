//! The words of a script line, and numbers in them.

/// Why a line can't be read.
#[derive(Clone, PartialEq, Eq, Debug)]
pub struct Unreadable(pub String);

pub fn unreadable<T>(reason: impl Into<String>) -> Result<T, Unreadable> {
    Err(Unreadable(reason.into()))
}

/// The words of a line: what stands between spaces. A tab is part of a word.
pub fn split(line: &str) -> Vec<&str> {
    let line = line.strip_suffix('\r').unwrap_or(line);
    line.split(' ').filter(|word| !word.is_empty()).collect()
}

/// A number written in digits of the radix and nothing else, no larger than `most`.
fn number(word: &str, radix: u32, most: u32) -> Result<u32, Unreadable> {
    let mut value: u64 = 0;
    for letter in word.chars() {
        let Some(digit) = letter.to_digit(radix) else {
            return unreadable(format!("{word} is no number"));
        };
        value = value * u64::from(radix) + u64::from(digit);
        if value > u64::from(most) {
            return unreadable(format!("{word} is too large"));
        }
    }
    Ok(value as u32)
}

pub fn hex_word(word: &str) -> Result<u16, Unreadable> {
    Ok(number(word, 16, 0xFFFF)? as u16)
}

pub fn hex_byte(word: &str) -> Result<u8, Unreadable> {
    Ok(number(word, 16, 0xFF)? as u8)
}

pub fn address(word: &str) -> Result<u32, Unreadable> {
    number(word, 16, 0xF_FFFF)
}

pub fn decimal(word: &str) -> Result<u32, Unreadable> {
    number(word, 10, u32::MAX)
}

#[cfg(test)]
mod tests {
    use super::*;

    #[test]
    fn spaces_divide_and_tabs_do_not() {
        assert_eq!(split("  a  b\tc \r"), ["a", "b\tc"]);
        assert_eq!(split("\r"), [""; 0]);
    }

    #[test]
    fn ranges_and_digits() {
        assert_eq!(hex_word("fFfF"), Ok(0xFFFF));
        assert_eq!(hex_word("000000012"), Ok(0x12));
        assert!(hex_word("10000").is_err() && hex_byte("100").is_err());
        assert!(address("100000").is_err() && address("FFFFF").is_ok());
        assert_eq!(decimal("4294967295"), Ok(u32::MAX));
        for bad in ["4294967296", "-1", "+1", "0x1", "1.", "A", "99999999999999999999999"] {
            assert!(decimal(bad).is_err(), "{bad}");
        }
        assert!(hex_word("+1").is_err() && hex_word("X1").is_err() && hex_word("g").is_err());
    }
}

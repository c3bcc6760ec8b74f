//! Hexadecimal text: two digits for each byte, upper or lower case, and white space or commas between bytes or none. `0x` may stand before
//! them, as in C, and `#` starts a comment that goes to the end of the line.

use std::fmt;

/// A character of the text, its line and where in the line it stands, both counted from 1.
#[derive(Clone, Copy, Debug, PartialEq, Eq)]
pub struct Found {
    character: char,
    line: usize,
    column: usize,
}

#[derive(Debug, PartialEq, Eq)]
pub enum Malformed {
    NoDigit(Found),
    /// The second digit of its byte is missing.
    Alone(Found),
    /// The `x` of a `0x` that no digit follows.
    NoByte(Found),
}

/// The bytes, or the first character that can't stand where it does.
pub fn bytes(text: &str) -> Result<Vec<u8>, Malformed> {
    let mut bytes = Vec::new();
    for (line, characters) in text.lines().enumerate() {
        let found = |(column, character)| Found { character, line: line + 1, column: column + 1 };
        let read: Vec<Found> = characters.chars().take_while(|&character| character != '#').enumerate().map(found).collect();
        for word in read.split(|found| found.character == ',' || found.character.is_whitespace()) {
            take(word, &mut bytes)?;
        }
    }
    Ok(bytes)
}

/// The bytes of a word, behind those before it.
fn take(word: &[Found], bytes: &mut Vec<u8>) -> Result<(), Malformed> {
    let digits = match word {
        [Found { character: '0', .. }, x @ Found { character: 'x' | 'X', .. }] => return Err(Malformed::NoByte(*x)),
        [Found { character: '0', .. }, Found { character: 'x' | 'X', .. }, digits @ ..] => digits,
        _ => word,
    };
    for pair in digits.chunks(2) {
        let first = digit(pair[0])?;
        let second = pair.get(1).ok_or(Malformed::Alone(pair[0]))?;
        bytes.push(16 * first + digit(*second)?);
    }
    Ok(())
}

fn digit(found: Found) -> Result<u8, Malformed> {
    found.character.to_digit(16).map(|digit| digit as u8).ok_or(Malformed::NoDigit(found))
}

/// Two digits for each byte, with a space between bytes.
pub fn text(bytes: &[u8]) -> String {
    bytes.iter().map(|byte| format!("{byte:02X}")).collect::<Vec<_>>().join(" ")
}

impl fmt::Display for Malformed {
    fn fmt(&self, f: &mut fmt::Formatter) -> fmt::Result {
        let (Malformed::NoDigit(found) | Malformed::Alone(found) | Malformed::NoByte(found)) = self;
        write!(f, "the program's text, line {}, character {}: '{}' ", found.line, found.column, found.character.escape_debug())?;
        match self {
            Malformed::NoDigit(_) => write!(f, "is no hexadecimal digit"),
            Malformed::Alone(_) => write!(f, "stands alone, and a byte is two digits"),
            Malformed::NoByte(_) => write!(f, "has no byte behind it"),
        }
    }
}

#[cfg(test)]
mod tests {
    use super::*;

    #[test]
    fn spaces_and_case_do_not_matter() {
        for text in ["0390dB", "03 90 DB", " 03\t90\r\ndb \n\n", "0390\ndB"] {
            assert_eq!(bytes(text), Ok(vec![0x03, 0x90, 0xDB]), "{text:?}");
        }
        for text in ["", " ", "\n\n", ",", "# 03", "#"] {
            assert_eq!(bytes(text), Ok(vec![]));
        }
        assert_eq!(text(&[0x03, 0x90, 0xDB]), "03 90 DB");
    }

    #[test]
    fn bytes_from_c_and_comments() {
        for text in ["0x03, 0x90, 0xDB", "0x03,0X90,0xdb,\n", "03,90 ,DB", "0x0390 DB", "0x03,\n    0x90,\t0xDB"] {
            assert_eq!(bytes(text), Ok(vec![0x03, 0x90, 0xDB]), "{text:?}");
        }
        for text in ["# retune, 0x11 é\n03 90#DB\nDB", "03 # 1\r\n#\n90 ## 2\n  # 3\nDB #", "0390DB#0"] {
            assert_eq!(bytes(text), Ok(vec![0x03, 0x90, 0xDB]), "{text:?}");
        }
    }

    #[test]
    fn the_first_wrong_character_is_told() {
        let wrong = [
            ("03 x02", "line 1, character 4: 'x' is no hexadecimal digit"),
            ("030x02", "line 1, character 4: 'x' is no hexadecimal digit"),
            ("0x0x02", "line 1, character 4: 'x' is no hexadecimal digit"),
            ("0x 02", "line 1, character 2: 'x' has no byte behind it"),
            ("03 0X#02", "line 1, character 5: 'X' has no byte behind it"),
            ("0x03, 0x2, 0x01", "line 1, character 9: '2' stands alone, and a byte is two digits"),
            ("03\n 02;01", "line 2, character 4: ';' is no hexadecimal digit"),
            ("0,3", "line 1, character 1: '0' stands alone, and a byte is two digits"),
            ("0#3", "line 1, character 1: '0' stands alone, and a byte is two digits"),
            ("# 1\n0x03, /* finish */", "line 2, character 7: '/' is no hexadecimal digit"),
            ("0x03 // finish", "line 1, character 6: '/' is no hexadecimal digit"),
            ("03 é2", "line 1, character 4: 'é' is no hexadecimal digit"),
            ("03 2 01", "line 1, character 4: '2' stands alone, and a byte is two digits"),
            ("03020", "line 1, character 5: '0' stands alone, and a byte is two digits"),
            ("0\n3", "line 1, character 1: '0' stands alone, and a byte is two digits"),
            ("03\u{7}", "line 1, character 3: '\\u{7}' is no hexadecimal digit"),
        ];
        for (text, words) in wrong {
            assert_eq!(bytes(text).unwrap_err().to_string(), format!("the program's text, {words}"));
        }
    }
}

//! Quoted text: control bytes, the quote and the backslash are escaped, all else stands for itself.

/// `text` between quotes, with the escapes of the format.
pub fn quote(text: &str) -> String {
    let mut quoted = String::with_capacity(text.len() + 2);
    quoted.push('"');
    for letter in text.chars() {
        match letter {
            '\n' => quoted.push_str("\\n"),
            '"' => quoted.push_str("\\\""),
            '\\' => quoted.push_str("\\\\"),
            '\0'..='\x1f' | '\x7f' => quoted.push_str(&format!("\\x{:02x}", letter as u32)),
            _ => quoted.push(letter),
        }
    }
    quoted.push('"');
    quoted
}

/// The text that `quoted` stands for, or why it is none.
pub fn unquote(quoted: &str) -> Result<String, String> {
    let inner = quoted.strip_prefix('"').and_then(|rest| rest.strip_suffix('"')).ok_or("text is not between quotes")?;
    let mut bytes = inner.bytes();
    let mut text = Vec::with_capacity(inner.len());
    while let Some(byte) = bytes.next() {
        text.push(match byte {
            b'\\' => escaped(&mut bytes)?,
            b'"' | 0..=0x1f | 0x7f => return Err(format!("byte {byte:02x} of a text has to be escaped")),
            _ => byte,
        });
    }
    String::from_utf8(text).map_err(|_| "text is not UTF-8, which no Rust text can be".into())
}

fn escaped(bytes: &mut std::str::Bytes<'_>) -> Result<u8, String> {
    match bytes.next() {
        Some(b'n') => Ok(b'\n'),
        Some(byte @ (b'"' | b'\\')) => Ok(byte),
        Some(b'x') => Ok(hex_digit(bytes.next())? * 16 + hex_digit(bytes.next())?),
        _ => Err("unknown escape in a text".into()),
    }
}

fn hex_digit(byte: Option<u8>) -> Result<u8, String> {
    match byte {
        Some(byte @ b'0'..=b'9') => Ok(byte - b'0'),
        Some(byte @ b'a'..=b'f') => Ok(byte - b'a' + 10),
        _ => Err("an escape \\x needs two digits from 0 to 9 or a to f".into()),
    }
}

#[cfg(test)]
mod tests {
    use super::*;

    #[test]
    fn every_text_comes_back() {
        let text: String = (0..0x180u32).filter_map(char::from_u32).collect();
        assert_eq!(unquote(&quote(&text)), Ok(text));
    }

    #[test]
    fn escapes_that_are_not_in_the_format_are_refused() {
        for quoted in ["\"\\t\"", "\"\\xA0\"", "\"\\x1\"", "\"\"\"", "\"\\\"", "a", "\"\\xff\"", "\"\n\""] {
            assert!(unquote(quoted).is_err(), "{quoted}");
        }
    }
}

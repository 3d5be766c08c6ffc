//! Hexadecimal, as the listings write and read bytes.

/// Two lower-case digits for each byte.
pub fn encode(bytes: &[u8]) -> String {
    const DIGITS: &[u8; 16] = b"0123456789abcdef";
    let mut text = String::with_capacity(2 * bytes.len());
    for byte in bytes {
        text.push(char::from(DIGITS[usize::from(byte >> 4)]));
        text.push(char::from(DIGITS[usize::from(byte & 15)]));
    }
    text
}

/// Bytes as a word of a listing: `-` stands for none.
pub fn field(bytes: &[u8]) -> String {
    if bytes.is_empty() {
        "-".to_string()
    } else {
        encode(bytes)
    }
}

/// The bytes of such a word; digits may be of either case.
pub fn decode_field(word: &[u8]) -> Option<Vec<u8>> {
    if word == b"-" {
        return Some(Vec::new());
    }
    let pairs = word.chunks_exact(2);
    if word.is_empty() || !pairs.remainder().is_empty() {
        return None;
    }
    pairs
        .map(|pair| Some(digit(pair[0])? << 4 | digit(pair[1])?))
        .collect()
}

fn digit(character: u8) -> Option<u8> {
    let value = char::from(character).to_digit(16)?;
    Some(value as u8)
}

#[cfg(test)]
mod tests {
    use super::{decode_field, encode, field};

    #[test]
    fn digits_are_lower_case_and_padded() {
        assert_eq!(encode(&[]), "");
        assert_eq!(encode(&[0x00, 0x0f, 0xa0, 0xff]), "000fa0ff");
    }

    #[test]
    fn fields() {
        assert_eq!(field(&[]), "-");
        assert_eq!(field(&[0xab]), "ab");
        assert_eq!(decode_field(b"-"), Some(vec![]));
        assert_eq!(decode_field(b"00aBFf"), Some(vec![0x00, 0xab, 0xff]));
        for word in ["", "0", "abc", "0g", "--", "-0", "0x", "\u{663}"] {
            assert_eq!(decode_field(word.as_bytes()), None, "{word}");
        }
    }
}

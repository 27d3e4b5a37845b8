//! Bytes that come as base64.

/// The six bits of a letter.
fn bits(letter: u8) -> Option<u32> {
    let bits = match letter {
        b'A'..=b'Z' => letter - b'A',
        b'a'..=b'z' => letter - b'a' + 26,
        b'0'..=b'9' => letter - b'0' + 52,
        b'+' => 62,
        b'/' => 63,
        _ => return None,
    };
    Some(u32::from(bits))
}

/// The bytes, or nothing if the text is no base64. The text has whole groups of four letters.
pub fn decoded(text: &str) -> Option<Vec<u8>> {
    let letters = text.strip_suffix("==").or(text.strip_suffix('='));
    let letters = letters.unwrap_or(text).as_bytes();
    if !text.as_bytes().chunks_exact(4).remainder().is_empty() {
        return None;
    }
    let mut bytes = Vec::with_capacity(text.len() / 4 * 3);
    for group in letters.chunks(4) {
        let mut number = 0;
        for &letter in group {
            number = number << 6 | bits(letter)?;
        }
        let whole = (number << (6 * (4 - group.len()))).to_be_bytes();
        bytes.extend_from_slice(&whole[1..group.len()]);
    }
    Some(bytes)
}

#[cfg(test)]
mod tests {
    use super::decoded;

    #[test]
    fn every_length_of_the_last_group_is_decoded() {
        for (text, bytes) in [
            ("", &b""[..]),
            ("TQ==", b"M"),
            ("TWE=", b"Ma"),
            ("TWFu", b"Man"),
            ("/+8A", &[0xff, 0xef, 0]),
            ("TWFuTQ==", b"ManM"),
        ] {
            assert_eq!(decoded(text).as_deref(), Some(bytes), "{text}");
        }
    }

    #[test]
    fn what_is_no_base64_is_refused() {
        for text in ["T", "TQ", "TQ=", "T===", "TW-u", "TW=u", "TWF\n"] {
            assert_eq!(decoded(text), None, "{text}");
        }
    }
}

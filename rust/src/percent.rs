//! The encoding of names and values in search strings and queries, which is that of addresses.

/// The bytes that a name or a value stands for, each with how it is written; none where a `%` has no two hex digits behind it.
#[must_use]
pub fn decoded(raw: &[u8]) -> Option<Vec<(&[u8], u8)>> {
    let mut rest = raw;
    let mut bytes = Vec::new();
    while let Some(&first) = rest.first() {
        let (written, behind) = rest.split_at_checked(if first == b'%' { 3 } else { 1 })?;
        let byte = match written {
            b"+" => b' ',
            [b'%', digits @ ..] if digits.iter().all(u8::is_ascii_hexdigit) => {
                u8::from_str_radix(str::from_utf8(digits).ok()?, 16).ok()?
            }
            [b'%', ..] => return None,
            _ => first,
        };
        bytes.push((written, byte));
        rest = behind;
    }
    Some(bytes)
}

/// The bytes alone.
#[must_use]
pub fn bytes(raw: &[u8]) -> Option<Vec<u8>> {
    Some(decoded(raw)?.into_iter().map(|(_, byte)| byte).collect())
}

/// Some bytes as a name or a value: those that may stand in an address as they are, and all others encoded.
#[must_use]
pub fn encoded(bytes: &[u8]) -> String {
    let encode = |&byte: &u8| match byte {
        b'a'..=b'z' | b'A'..=b'Z' | b'0'..=b'9' | b'-' | b'.' | b'_' | b'~' | b',' | b':' | b'/' => {
            char::from(byte).into()
        }
        _ => format!("%{byte:02X}"),
    };
    bytes.iter().map(encode).collect()
}

#[cfg(test)]
mod tests {
    use super::*;

    /// What is encoded is decoded to the same, whatever it is.
    #[test]
    fn back_and_forth() {
        let all: Vec<u8> = (0..=255).collect();
        assert_eq!(bytes(encoded(&all).as_bytes()), Some(all));
        assert_eq!(encoded(b"a b|c\\,d"), "a%20b%7Cc%5C,d");
        assert_eq!(bytes(b"a+b%2b%2B"), Some(b"a b++".to_vec()));
        for bad in [&b"%"[..], b"%4", b"a%+1", b"%g0"] {
            assert_eq!(bytes(bad), None);
        }
    }
}

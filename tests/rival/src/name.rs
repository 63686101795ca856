//! Names of parameters.

pub fn is_name_byte(byte: u8) -> bool {
    byte == b'_' || byte == b'-' || byte.is_ascii_alphanumeric()
}

pub fn is_name(text: &[u8]) -> bool {
    !matches!(text, b"and" | b"or" | b"not")
        && text.first().is_some_and(|first| *first == b'_' || first.is_ascii_alphabetic())
        && text.iter().all(|&byte| is_name_byte(byte))
}

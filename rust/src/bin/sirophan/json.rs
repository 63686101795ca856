//! Just enough of JSON to write answers and messages.

/// A string.
pub fn string(text: &str) -> String {
    let escaped: String = text.chars().map(escape).collect();
    format!("\"{escaped}\"")
}

/// A character between the quotes.
fn escape(c: char) -> String {
    match c {
        '"' | '\\' => format!("\\{c}"),
        '\n' => "\\n".into(),
        '\0'..='\u{1F}' | '\u{7F}' => format!("\\u{:04x}", u32::from(c)),
        _ => c.into(),
    }
}

/// An object of names and values, which are JSON already.
pub fn object(pairs: &[(&str, String)]) -> String {
    let pairs: Vec<String> = pairs.iter().map(|(name, value)| format!("{}:{value}", string(name))).collect();
    format!("{{{}}}", pairs.join(","))
}

/// An array of values, which are JSON already.
pub fn array(values: &[String]) -> String {
    format!("[{}]", values.join(","))
}

/// A text of a card: a string where it is UTF-8, else an object with its bytes in hexadecimal.
pub fn bytes(text: &[u8]) -> String {
    if let Ok(text) = str::from_utf8(text) {
        return string(text);
    }
    let digits: Vec<String> = text.iter().map(|byte| format!("{byte:02x}")).collect();
    object(&[("hex", string(&digits.concat()))])
}

#[cfg(test)]
mod tests {
    use super::*;

    /// Quotes, backslashes, control characters and bytes that are no UTF-8.
    #[test]
    fn values() {
        assert_eq!(string("a\"\\\n\t\u{7F}ä"), r#""a\"\\\n\u0009\u007fä""#);
        assert_eq!(object(&[("a", "1".into()), ("b", array(&[string("x")]))]), r#"{"a":1,"b":["x"]}"#);
        assert_eq!(bytes(b"\xE4!"), r#"{"hex":"e421"}"#);
    }
}

//! The systems of tokens, as people spell them.

/// The names that stand for a system in filters, and what they stand for.
const SHORT: [(&str, &str); 4] = [
    ("loinc", "http://loinc.org"),
    ("snomed", "http://snomed.info/sct"),
    ("rxnorm", "http://www.nlm.nih.gov/research/umls/rxnorm"),
    ("ucum", "http://unitsofmeasure.org"),
];

/// The fewest letters and digits by which two systems are taken for one.
const TELLING: usize = 3;

/// A token's system, without its bar, and its code.
pub fn split(token: &[u8]) -> (&[u8], &[u8]) {
    match token.iter().position(|&byte| byte == b'|') {
        Some(bar) => (&token[..bar], &token[bar + 1..]),
        None => (b"", token),
    }
}

/// The system that a filter's name for one stands for.
pub fn meant(system: &[u8]) -> &[u8] {
    let short = SHORT.iter().find(|(name, _)| name.as_bytes().eq_ignore_ascii_case(system));
    short.map_or(system, |(_, whole)| whole.as_bytes())
}

/// Whether two spellings may be of one system: the letters and digits of one are among those of the other.
pub fn are_alike(one: &[u8], other: &[u8]) -> bool {
    let signs = |system: &[u8]| {
        let small = system.to_ascii_lowercase();
        let bare = small.strip_prefix(b"http").map_or(&small[..], |rest| rest.strip_prefix(b"s").unwrap_or(rest));
        bare.iter().copied().filter(u8::is_ascii_alphanumeric).collect::<Vec<u8>>()
    };
    let (one, other) = (signs(one), signs(other));
    let (short, long) = if one.len() < other.len() { (one, other) } else { (other, one) };
    short.len() >= TELLING && long.windows(short.len()).any(|part| part == short)
}

/// Whether one address is the end of the other: `Patient/17` of `http://server/Patient/17`, or the other way round.
pub fn is_end_of(one: &[u8], other: &[u8]) -> bool {
    let ends = |long: &[u8], short: &[u8]| {
        long.len() > short.len()
            && long.ends_with(short)
            && long[long.len() - short.len() - 1] == b'/'
            && !short.is_empty()
    };
    ends(one, other) || ends(other, one)
}

#[cfg(test)]
mod tests {
    use super::*;
    use crate::block::{self, Item};
    use crate::sheet::{Parameter, Sheet};

    /// Spellings of one system, and other systems.
    #[test]
    fn spellings_of_systems() {
        for (one, other) in [
            ("icd-9", "http://hl7.org/fhir/sid/icd-9"),
            ("ICD9", "http://hl7.org/fhir/sid/icd-9"),
            ("http://loinc.org/", "https://loinc.org"),
            ("loinc", "LOINC"),
        ] {
            assert!(are_alike(one.as_bytes(), other.as_bytes()), "{one} {other}");
        }
        for (one, other) in [("icd-9", "http://hl7.org/fhir/sid/icd-10"), ("", "loinc"), ("x", "http://x.org")] {
            assert!(!are_alike(one.as_bytes(), other.as_bytes()), "{one} {other}");
        }
        assert_eq!(meant(b"LOINC"), b"http://loinc.org");
        assert!(is_end_of(b"http://server/patient/17", b"patient/17"));
        assert!(!is_end_of(b"patient/117", b"17"));
    }

    /// The library takes each short name for the system that it is said here to stand for.
    #[test]
    fn short_names_are_those_of_the_library() {
        let sheet = Sheet::write(vec![Parameter { kind: 4, bundle: 0, name: b"x".to_vec() }]).unwrap();
        for (name, whole) in SHORT {
            let text = format!("{whole}|1");
            let card = block::write_card(1, &[Item { byte: 0, mark: 0, text: text.as_bytes() }]).unwrap();
            assert_eq!(sirophan::matches(&sheet.block, format!("x eq {name}|1").as_bytes(), &card), Ok(true), "{name}");
        }
    }
}

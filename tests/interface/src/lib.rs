//! The exported functions and structs as three texts declare them: the C header, the Rust declarations and the Rattle source. Each
//! declaration is brought to one form, an ordered list of names with what each is, so that two in another order differ.

/// What a text declares: the members of each function and struct, in its order. A function's last member is what it answers.
pub type Declared = Vec<(String, Vec<String>)>;

/// The structs of the interface by their names in the header, in Rust and in the source.
pub const STRUCTS: [[&str; 3]; 3] = [
    ["sirophan_answer", "Answer", "Answer"],
    ["sirophan_counts", "Reported", "Counts"],
    ["sirophan_tally", "Tally", "Tally"],
];

/// The types of numbers by their names in the header.
const NUMBERS: [[&str; 2]; 3] = [["uint8_t", "u8"], ["uint32_t", "u32"], ["size_t", "usize"]];

/// One name for a type, whichever text it stands in: a number's in Rust, a struct's in the header.
fn plain_type(name: &str) -> String {
    let number = NUMBERS.iter().find(|number| number[0] == name).map(|number| number[1]);
    let known = STRUCTS.iter().find(|names| names.contains(&name)).map(|names| names[0]);
    number.or(known).unwrap_or(name).to_string()
}

/// A member as `name: read u8`, `name: write u32` or `name: usize`.
fn member(name: &str, mode: &str, of: &str) -> String {
    format!("{}: {mode}{}", name.trim(), plain_type(of.trim()))
}

/// The text without comments, block and line.
fn without_comments(text: &str) -> String {
    let mut rest = text;
    let mut kept = String::new();
    while let Some(start) = rest.find("/*") {
        kept.push_str(&rest[..start]);
        rest = rest[start..].find("*/").map_or("", |end| &rest[start + end + 2..]);
    }
    kept.push_str(rest);
    kept.lines().map(|line| line.split("//").next().unwrap_or_default()).collect::<Vec<_>>().join("\n")
}

/// What stands between the first `open` and the next `close`, and what follows.
fn between(text: &str, open: char, close: char) -> Option<(&str, &str)> {
    let inner = &text[text.find(open)? + 1..];
    let end = inner.find(close)?;
    Some((&inner[..end], &inner[end + 1..]))
}

/// A parameter or a field of the header: `const uint8_t *sheet`, `size_t from`.
fn header_member(text: &str) -> Option<String> {
    let (words, name) = text.trim().rsplit_once([' ', '*'])?;
    let of = words.trim_end_matches([' ', '*']).trim_start_matches("const ");
    let mode = match (text.contains('*'), text.contains("const ")) {
        (true, true) => "read ",
        (true, false) => "write ",
        (false, _) => "",
    };
    Some(member(name, mode, of))
}

/// The functions and structs of the header.
pub fn header(text: &str) -> Declared {
    let text = without_comments(text);
    let mut declared = Declared::new();
    for (at, _) in text.match_indices("typedef struct ") {
        if let Some((fields, rest)) = between(&text[at..], '{', '}') {
            let name = rest.split(';').next().unwrap_or_default().trim();
            declared.push((name.to_string(), fields.split(';').filter_map(header_member).collect()));
        }
    }
    for statement in text.split([';', '}', '{']).filter(|statement| statement.contains('(')) {
        let head = statement.split('(').next().unwrap_or_default();
        let Some((answer, name)) = head.trim().rsplit_once(' ') else { continue };
        let Some((parameters, _)) = between(statement, '(', ')') else { continue };
        if name.starts_with("sirophan_") {
            let answer = answer.rsplit(['\n', ' ']).next().unwrap_or_default();
            let mut members: Vec<String> = parameters.split(',').filter_map(header_member).collect();
            members.push(plain_type(answer));
            declared.push((name.to_string(), members));
        }
    }
    declared
}

/// A parameter or a field of Rust or of the source; a slice of the source is a pointer and a length.
fn member_of(text: &str) -> Vec<String> {
    let Some((name, of)) = text.trim().split_once(": ") else { return Vec::new() };
    let name = name.trim().trim_start_matches("pub ");
    let slice = |mode, of: &str| vec![member(name, mode, of.trim_end_matches(']')), format!("{name}_len: usize")];
    if let Some(of) = of.strip_prefix("&mut [") {
        slice("write ", of)
    } else if let Some(of) = of.strip_prefix("&[") {
        slice("read ", of)
    } else if let Some(of) = of.strip_prefix("*mut ") {
        vec![member(name, "write ", of)]
    } else if let Some(of) = of.strip_prefix("*const ") {
        vec![member(name, "read ", of)]
    } else {
        vec![member(name, "", of)]
    }
}

/// The functions and structs of Rust declarations or of the source: the structs by their header's names.
pub fn source(text: &str, column: usize) -> Declared {
    let text = without_comments(text);
    let mut declared = Declared::new();
    for names in STRUCTS {
        let head = format!("pub struct {} {{", names[column]);
        if let Some(at) = text.find(&head) {
            let fields = between(&text[at..], '{', '}').map_or("", |(fields, _)| fields);
            declared.push((names[0].to_string(), fields.split(',').flat_map(member_of).collect()));
        }
    }
    for (at, head) in text.match_indices("fn sirophan_") {
        let name = text[at + 3..].split('(').next().unwrap_or_default();
        let Some((parameters, rest)) = between(&text[at + head.len()..], '(', ')') else { continue };
        let answer = rest.trim_start().trim_start_matches("-> ").split([' ', ';', '\n']).next().unwrap_or_default();
        let mut members: Vec<String> = parameters.split(',').flat_map(member_of).collect();
        members.push(plain_type(answer));
        declared.push((name.to_string(), members));
    }
    declared
}

/// What one text declares otherwise than another, or not at all: a line for each.
pub fn differences(one: &Declared, other: &Declared) -> Vec<String> {
    let lacks = |from: &Declared, name: &str| !from.iter().any(|(there, _)| there == name);
    let mut lines: Vec<String> = other
        .iter()
        .filter(|(name, _)| lacks(one, name))
        .map(|(name, _)| format!("{name} is declared by one text alone"))
        .collect();
    for (name, members) in one {
        match other.iter().find(|(there, _)| there == name) {
            None => lines.push(format!("{name} is declared by one text alone")),
            Some((_, there)) if there != members => {
                lines.push(format!("{name}: [{}] and [{}]", members.join(", "), there.join(", ")))
            }
            Some(_) => {}
        }
    }
    lines
}

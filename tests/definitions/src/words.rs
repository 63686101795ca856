//! The words of a definition's text: which of them are names that refer to something, and which the text binds itself.

use std::collections::BTreeSet;

/// A word or a mark, with where it stands.
#[derive(Debug, Clone)]
pub struct Word {
    pub text: String,
    pub line: usize,
    /// Whether it is the first of its line.
    first: bool,
}

/// The line without its comment, which begins with two dashes behind a blank.
pub fn without_comment(line: &str) -> &str {
    let mut place = 0;
    let mut blank = true;
    while let Some(c) = line[place..].chars().next() {
        if blank && line[place..].starts_with("--") {
            return &line[..place];
        }
        blank = c.is_whitespace();
        place = if c == '"' { line.len() - behind_string(&line[place + 1..]).len() } else { place + c.len_utf8() };
    }
    line
}

/// The words of lines without comments; what stands in quotes is left out.
pub fn words<'a>(lines: impl IntoIterator<Item = &'a (usize, String)>) -> Vec<Word> {
    let mut found: Vec<Word> = Vec::new();
    for (number, line) in lines {
        let mut first = true;
        let mut push = |text: &str| {
            if !text.is_empty() {
                found.push(Word { text: text.into(), line: *number, first });
                first = false;
            }
        };
        let mut rest = line.as_str();
        while let Some(place) = rest.find(ends_word) {
            push(&rest[..place]);
            let mark = rest[place..].chars().next().unwrap_or(' ');
            rest = &rest[place + mark.len_utf8()..];
            match mark {
                '"' => rest = behind_string(rest),
                mark if mark.is_whitespace() => {}
                mark => push(mark.encode_utf8(&mut [0; 4])),
            }
        }
        push(rest);
    }
    found
}

fn ends_word(c: char) -> bool {
    c.is_whitespace() || "(){};,λ\"".contains(c)
}

/// What stands behind a string whose first quote is read.
fn behind_string(text: &str) -> &str {
    let mut escaped = false;
    for (place, c) in text.char_indices() {
        match c {
            _ if escaped => escaped = false,
            '\\' => escaped = true,
            '"' => return &text[place + 1..],
            _ => {}
        }
    }
    ""
}

/// The names in a text, as they are written, each once with its first line, and whether the text binds it itself.
pub fn names(signature: &[(usize, String)], equations: &[(usize, String)]) -> Vec<(Word, bool)> {
    let mut found = words(signature);
    let mut bound = bound_in_types(&found);
    let right = words(equations);
    bound.extend(bound_in_types(&right));
    bound.extend(bound_by_patterns(&right));
    found.extend(right);
    let mut seen = BTreeSet::new();
    let named = found.iter().enumerate().filter(|(place, word)| is_name(&word.text) && !is_label(&found, *place));
    let named = named.map(|(_, word)| Word { text: word.text.trim_end_matches('.').into(), ..word.clone() });
    let each = named.filter(|word| seen.insert(word.text.clone()));
    each.map(|word| (word.clone(), bound.contains(value(&word.text)))).collect()
}

/// A name without those of fields behind it: `t` of `t.path`.
pub fn value(name: &str) -> &str {
    name.split_once('.').map_or(name, |(value, _)| value)
}

/// Whether a word is a name, and no mark, number or field's name behind a value in brackets.
fn is_name(word: &str) -> bool {
    !word.starts_with(|c: char| c.is_ascii_digit() || c == '.' || (c != '"' && ends_word(c)))
}

/// Whether a word is the name of a field or an argument that is given a value, as in `record { at = p }`.
fn is_label(words: &[Word], place: usize) -> bool {
    let next = words.get(place + 1).is_some_and(|word| word.text == "=");
    let before = place.checked_sub(1).map(|before| words[before].text.as_str());
    next && matches!(before, Some("{" | ";"))
}

/// Names before a colon, such as `(x y : ℕ)`, behind a λ, and behind `let`.
fn bound_in_types(words: &[Word]) -> BTreeSet<String> {
    let mut bound = BTreeSet::new();
    for (place, word) in words.iter().enumerate() {
        match word.text.as_str() {
            ":" => bound.extend(before_colon(&words[..place])),
            "λ" => bound.extend(behind_lambda(&words[place + 1..])),
            "let" => bound.extend(words.get(place + 1).map(|word| word.text.clone())),
            _ => {}
        }
    }
    bound
}

fn before_colon(words: &[Word]) -> Vec<String> {
    let mut names = Vec::new();
    for word in words.iter().rev() {
        if !is_name(&word.text) || matches!(word.text.as_str(), "pub" | "let" | "data" | "record") {
            break;
        }
        names.push(word.text.clone());
        if word.first {
            break;
        }
    }
    names
}

fn behind_lambda(words: &[Word]) -> Vec<String> {
    let mut names = Vec::new();
    for word in words {
        if !is_name(&word.text) {
            break;
        }
        names.push(word.text.trim_end_matches('.').into());
        if word.text.ends_with('.') {
            break;
        }
    }
    names
}

/// Names on the left of an equation: variables, and also what stands in patterns.
fn bound_by_patterns(words: &[Word]) -> BTreeSet<String> {
    let mut bound = BTreeSet::new();
    let mut left: Vec<&Word> = Vec::new();
    let mut depth = 0;
    for word in words {
        if word.first {
            left.clear();
        }
        match word.text.as_str() {
            "(" | "{" => depth += 1,
            ")" | "}" => depth -= 1,
            "=" if depth == 0 => bound.extend(left.drain(..).map(|word| word.text.clone())),
            _ => left.push(word),
        }
    }
    bound
}

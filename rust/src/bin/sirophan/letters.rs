//! Differences between texts that the library counts and a reader hardly sees: it takes large and small letters alike from A to
//! Z and À to Þ, and compares all else byte by byte.

/// Letters that are also written as two signs, a letter and a mark behind it: the mark, the letters with it, and without it.
const MARKED: [(char, &str, &str); 25] = [
    ('\u{300}', "ÀÈÌÒÙàèìòùǛǜǸǹЀЍѐѝḔḕṐṑẀẁẦầẰằỀềỒồỜờỪừỲỳ", "AEIOUaeiouÜüNnЕИеиĒēŌōWwÂâĂăÊêÔôƠơƯưYy"),
    (
        '\u{301}',
        "ÁÉÍÓÚÝáéíóúýĆćĹĺŃńŔŕŚśŹźǗǘǴǵǺǻǼǽǾǿΆΈΉΊΌΎΏΐάέήίΰόύώϓЃЌѓќḈḉḖḗḮḯḰḱḾḿṌṍṒṓṔṕṸṹẂẃẤấẮắẾếỐốỚớỨứ",
        "AEIOUYaeiouyCcLlNnRrSsZzÜüGgÅåÆæØøΑΕΗΙΟΥΩϊαεηιϋουωϒГКгкÇçĒēÏïKkMmÕõŌōPpŨũWwÂâĂăÊêÔôƠơƯư",
    ),
    ('\u{302}', "ÂÊÎÔÛâêîôûĈĉĜĝĤĥĴĵŜŝŴŵŶŷẐẑẬậỆệỘộ", "AEIOUaeiouCcGgHhJjSsWwYyZzẠạẸẹỌọ"),
    ('\u{303}', "ÃÑÕãñõĨĩŨũṼṽẪẫẴẵẼẽỄễỖỗỠỡỮữỸỹ", "ANOanoIiUuVvÂâĂăEeÊêÔôƠơƯưYy"),
    ('\u{304}', "ĀāĒēĪīŌōŪūǕǖǞǟǠǡǢǣǬǭȪȫȬȭȰȱȲȳӢӣӮӯḠḡḸḹṜṝ", "AaEeIiOoUuÜüÄäȦȧÆæǪǫÖöÕõȮȯYyИиУуGgḶḷṚṛ"),
    ('\u{306}', "ĂăĔĕĞğĬĭŎŏŬŭЎЙйўӁӂӐӑӖӗḜḝẶặ", "AaEeGgIiOoUuУИиуЖжАаЕеȨȩẠạ"),
    ('\u{307}', "ĊċĖėĠġİŻżȦȧȮȯḂḃḊḋḞḟḢḣṀṁṄṅṖṗṘṙṠṡṤṥṦṧṨṩṪṫẆẇẊẋẎẏẛ", "CcEeGgIZzAaOoBbDdFfHhMmNnPpRrSsŚśŠšṢṣTtWwXxYyſ"),
    (
        '\u{308}',
        "ÄËÏÖÜäëïöüÿŸΪΫϊϋϔЁЇёїӒӓӚӛӜӝӞӟӤӥӦӧӪӫӬӭӰӱӴӵӸӹḦḧṎṏṺṻẄẅẌẍẗ",
        "AEIOUaeiouyYΙΥιυϒЕІеіАаӘәЖжЗзИиОоӨөЭэУуЧчЫыHhÕõŪūWwXxt",
    ),
    ('\u{309}', "ẢảẨẩẲẳẺẻỂểỈỉỎỏỔổỞởỦủỬửỶỷ", "AaÂâĂăEeÊêIiOoÔôƠơUuƯưYy"),
    ('\u{30A}', "ÅåŮůẘẙ", "AaUuwy"),
    ('\u{30B}', "ŐőŰűӲӳ", "OoUuУу"),
    ('\u{30C}', "ČčĎďĚěĽľŇňŘřŠšŤťŽžǍǎǏǐǑǒǓǔǙǚǦǧǨǩǮǯǰȞȟ", "CcDdEeLlNnRrSsTtZzAaIiOoUuÜüGgKkƷʒjHh"),
    ('\u{30F}', "ȀȁȄȅȈȉȌȍȐȑȔȕѶѷ", "AaEeIiOoRrUuѴѵ"),
    ('\u{311}', "ȂȃȆȇȊȋȎȏȒȓȖȗ", "AaEeIiOoRrUu"),
    ('\u{31B}', "ƠơƯư", "OoUu"),
    ('\u{323}', "ḄḅḌḍḤḥḲḳḶḷṂṃṆṇṚṛṢṣṬṭṾṿẈẉẒẓẠạẸẹỊịỌọỢợỤụỰựỴỵ", "BbDdHhKkLlMmNnRrSsTtVvWwZzAaEeIiOoƠơUuƯưYy"),
    ('\u{324}', "Ṳṳ", "Uu"),
    ('\u{325}', "Ḁḁ", "Aa"),
    ('\u{326}', "ȘșȚț", "SsTt"),
    ('\u{327}', "ÇçĢģĶķĻļŅņŖŗŞşŢţȨȩḐḑḨḩ", "CcGgKkLlNnRrSsTtEeDdHh"),
    ('\u{328}', "ĄąĘęĮįŲųǪǫ", "AaEeIiUuOo"),
    ('\u{32D}', "ḒḓḘḙḼḽṊṋṰṱṶṷ", "DdEeLlNnTtUu"),
    ('\u{32E}', "Ḫḫ", "Hh"),
    ('\u{330}', "ḚḛḬḭṴṵ", "EeIiUu"),
    ('\u{331}', "ḆḇḎḏḴḵḺḻṈṉṞṟṮṯẔẕẖ", "BbDdKkLlNnRrTtZzh"),
];

/// Letters that people also write as others, without what makes them special.
const PLAIN: [(char, &str); 16] = [
    ('\u{DF}', "ss"),
    ('\u{E6}', "ae"),
    ('\u{C6}', "AE"),
    ('\u{153}', "oe"),
    ('\u{152}', "OE"),
    ('\u{F8}', "o"),
    ('\u{D8}', "O"),
    ('\u{142}', "l"),
    ('\u{141}', "L"),
    ('\u{111}', "d"),
    ('\u{110}', "D"),
    ('\u{F0}', "d"),
    ('\u{D0}', "D"),
    ('\u{FE}', "th"),
    ('\u{DE}', "Th"),
    ('\u{131}', "i"),
];

/// A way in which texts may differ: what it is called, and how texts become alike in it.
struct Difference {
    name: &'static str,
    alike: fn(&str) -> String,
}

/// The one that every reader sees.
pub const POINTS: &str = "points and the like";

/// The ways, in the order in which texts are made alike. A further one is another row.
const DIFFERENCES: [Difference; 8] = [
    Difference { name: "signs that do not show", alike: |text| text.chars().filter(|c| !is_invisible(*c)).collect() },
    Difference { name: "spaces", alike: |text| text.split_whitespace().collect::<Vec<&str>>().join(" ") },
    Difference { name: "kinds of hyphens", alike: |text| text.chars().map(hyphen).collect() },
    Difference { name: "kinds of quotes", alike: |text| text.chars().map(quote).collect() },
    Difference {
        name: "how letters with accents are put together",
        alike: |text| text.chars().flat_map(taken_apart).collect(),
    },
    Difference {
        name: "large and small letters beyond À to Þ",
        alike: |text| text.to_uppercase().chars().flat_map(char::to_lowercase).collect(),
    },
    Difference { name: "accents", alike: |text| text.chars().flat_map(without_accent).collect() },
    Difference { name: POINTS, alike: |text| text.chars().filter(|c| !c.is_ascii_punctuation()).collect() },
];

/// How many differences are made alike first: in accents, and in points and the like, texts differ for a reader too.
const HARDLY_SEEN: usize = DIFFERENCES.len() - 2;

fn is_invisible(c: char) -> bool {
    matches!(c, '\u{AD}' | '\u{200B}'..='\u{200F}' | '\u{202A}'..='\u{202E}' | '\u{2060}'..='\u{2069}' | '\u{FEFF}')
}

fn hyphen(c: char) -> char {
    match c {
        '\u{2010}'..='\u{2015}' | '\u{2212}' | '\u{FE58}' | '\u{FE63}' | '\u{FF0D}' => '-',
        _ => c,
    }
}

fn quote(c: char) -> char {
    match c {
        '\u{2018}' | '\u{2019}' | '\u{201B}' | '\u{2BC}' | '\u{B4}' | '`' => '\'',
        '\u{201C}'..='\u{201F}' | '\u{AB}' | '\u{BB}' => '"',
        _ => c,
    }
}

/// A letter and its marks, one by one.
fn taken_apart(c: char) -> Vec<char> {
    let found = MARKED.iter().filter(|_| !c.is_ascii()).find_map(|(mark, with, without)| {
        let place = with.chars().position(|letter| letter == c)?;
        without.chars().nth(place).map(|letter| (letter, *mark))
    });
    found.map_or(vec![c], |(letter, mark)| [taken_apart(letter), vec![mark]].concat())
}

/// A letter without its accents; of a mark by itself nothing.
fn without_accent(c: char) -> Vec<char> {
    let plain = PLAIN.iter().find(|(letter, _)| *letter == c).map(|(_, plain)| plain.chars().collect());
    let bare = |c: char| taken_apart(c).into_iter().filter(|c| !('\u{300}'..='\u{36F}').contains(c)).collect();
    plain.unwrap_or_else(|| bare(c))
}

/// A letter in small, where the library takes large and small alike.
fn small(c: char) -> char {
    match c {
        'A'..='Z' | '\u{C0}'..='\u{D6}' | '\u{D8}'..='\u{DE}' => c.to_lowercase().next().unwrap_or(c),
        _ => c,
    }
}

/// A text made alike in the first so many ways, but for one.
fn alike(text: &str, ways: usize, but_for: usize) -> String {
    let ways = DIFFERENCES.iter().enumerate().take(ways).filter(|(way, _)| *way != but_for);
    ways.fold(text.chars().map(small).collect(), |text: String, (_, difference)| (difference.alike)(&text))
}

/// A text made alike in all ways. Most texts are ASCII, and for them that is little.
fn bare(text: &str) -> String {
    if !text.is_ascii() {
        return alike(text, DIFFERENCES.len(), usize::MAX);
    }
    let mut bare = String::with_capacity(text.len());
    for (number, word) in text.split_whitespace().enumerate() {
        if number > 0 {
            bare.push(' ');
        }
        bare.extend(word.chars().filter(|c| !c.is_ascii_punctuation()).map(|c| c.to_ascii_lowercase()));
    }
    bare
}

/// A text that is asked for, to be compared with values that may differ from it in little.
pub struct Near {
    asked: String,
    bare: String,
}

impl Near {
    /// A text that has anything to compare.
    pub fn new(asked: &[u8]) -> Option<Near> {
        let asked = str::from_utf8(asked).ok()?.to_string();
        let bare = bare(&asked);
        (!bare.is_empty()).then_some(Near { asked, bare })
    }

    /// The ways in which a value differs that would stand in a relation to what is asked if it did not differ in them; none
    /// where it would not, or where there is no such way.
    pub fn differences(&self, value: &[u8], stands: impl Fn(&str, &str) -> bool) -> Option<Vec<&'static str>> {
        let value = str::from_utf8(value).ok()?;
        if !stands(&self.bare, &bare(value)) {
            return None;
        }
        let would = |ways, but_for| {
            let asked = alike(&self.asked, ways, but_for);
            !asked.is_empty() && stands(&asked, &alike(value, ways, but_for))
        };
        let ways = (HARDLY_SEEN..=DIFFERENCES.len()).find(|&ways| would(ways, usize::MAX))?;
        let needed: Vec<&str> = (0..ways).filter(|&way| !would(ways, way)).map(|way| DIFFERENCES[way].name).collect();
        (!needed.is_empty()).then_some(needed)
    }
}

#[cfg(test)]
mod tests {
    use super::*;

    fn of(asked: &str, value: &str) -> Vec<&'static str> {
        let near = Near::new(asked.as_bytes());
        near.and_then(|near| near.differences(value.as_bytes(), |asked, value| value.contains(asked)))
            .unwrap_or_default()
    }

    /// What texts differ in, and texts that differ in more.
    #[test]
    fn differences_of_texts() {
        assert_eq!(of("DVOŘÁK", "Antonín Dvořák"), ["large and small letters beyond À to Þ"]);
        assert_eq!(of("Stro\u{308}m", "Ström"), ["how letters with accents are put together"]);
        assert_eq!(of("Smith, John", "Smith,\u{A0}John"), ["spaces"]);
        assert_eq!(of("Smith, John", "Smith,  John"), ["spaces"]);
        assert_eq!(of("1234\u{2013}5", "1234-5"), ["kinds of hyphens"]);
        assert_eq!(of("O'Neill", "O\u{2019}Neill"), ["kinds of quotes"]);
        assert_eq!(of("Strom", "Ström"), ["accents"]);
        assert_eq!(of("LODZ", "Łódź"), ["large and small letters beyond À to Þ", "accents"]);
        assert_eq!(of("STRASSE", "Straße"), ["large and small letters beyond À to Þ"]);
        assert_eq!(of("nguyen", "Nguyễn"), ["accents"]);
        assert_eq!(of("co\u{AD}operation", "cooperation"), ["signs that do not show"]);
        assert_eq!(of("2910", "291.0"), ["points and the like"]);
        assert_eq!(of("Smith John", "Smith, John"), ["points and the like"]);
        assert!(of("Smith", "Jones").is_empty());
        assert!(of(".", "x").is_empty());
        assert!(of("Schmidt", "Smith").is_empty());
    }

    /// What is quick is the same as what is not.
    #[test]
    fn bare_texts() {
        for text in ["", " a ", "a - b", "A.B,c", "x\t y", "291.0", "O'Neill  (Jr.)"] {
            assert_eq!(bare(text), alike(text, DIFFERENCES.len(), usize::MAX), "{text}");
        }
    }

    /// The letters of the table stand beside as many others, and none comes to be itself.
    #[test]
    fn letters_with_marks() {
        for (mark, with, without) in MARKED {
            assert_eq!(with.chars().count(), without.chars().count(), "{mark:?}");
            for letter in with.chars() {
                let parts = taken_apart(letter);
                assert!(parts.len() > 1 && parts.iter().all(|part| taken_apart(*part).len() == 1), "{letter}");
            }
        }
    }
}

//! `sirophan sign` and `sirophan recheck`: pages, and what is told of them later.

use crate::folder::{Folder, PROGRAM, REPOSITORY, Said, sum};
use std::fs;
use std::path::Path;
use std::process::Command;

/// The day of the pages here.
const DAY: &str = "2026-11-17";
const FILES: [&str; 3] = ["sheet.bin", "filter.txt", "cards.bin"];

impl Folder {
    /// Signs the folder's archive into a file.
    fn sign(&self, out: &str, more: &[&str]) -> Said {
        self.run(&[&["sign", "--date", DAY, "--out", out], more].concat())
    }

    fn recheck(&self, page: &str) -> Said {
        self.run(&["recheck", page, "sheet.bin", "cards.bin"])
    }

    fn text(&self, name: &str) -> String {
        String::from_utf8(self.read(name)).unwrap()
    }
}

/// The pages of examples/ward, byte for byte; docs/ has them as examples.
#[test]
fn the_pages_of_the_ward() {
    let folder = Folder::ward("sign-ward");
    for (form, name) in [(&[][..], "ward.html"), (&["--text"], "ward.txt")] {
        folder.sign(name, &[form, &FILES].concat()).says(0, &format!("2 of 3 cards, in {name}\n"), "");
        let kept = Path::new(REPOSITORY).join("docs").join(name);
        if std::env::var_os("SIROPHAN_PAGES_ANEW").is_some() {
            fs::write(&kept, folder.read(name)).unwrap();
        }
        assert_eq!(folder.text(name), fs::read_to_string(&kept).unwrap(), "docs/{name} is not the page any more");
        // The same on standard output, and through pipes but for the seal.
        let said = folder.run(&[&["sign", "--date", DAY], form, &FILES].concat());
        said.says(0, &folder.text(name), "");
        folder.recheck(name).says(0, "same archive, same question, same answer\n", "");
        let page = folder.read(name);
        folder.run_with(&["recheck", "-", "sheet.bin", "cards.bin"], &page).says(
            0,
            "same archive, same question, same answer\n",
            "",
        );
    }
    assert_eq!(folder.files(), ["archive.txt", "cards.bin", "filter.txt", "sheet.bin", "ward.html", "ward.txt"]);
}

/// The date is left out of the fingerprint, which the system's own programs can make too; nothing else differs with the date.
#[test]
fn date_and_fingerprint() {
    let folder = Folder::ward("sign-date");
    for (form, lines) in
        [("--text", "^Date:\\|^Fingerprint:"), ("--date=2026-11-17", "^<tr id=\"\\(date\\|fingerprint\\)\">")]
    {
        let page = |day: &str| folder.run(&["sign", form, "--date", day, FILES[0], FILES[1], FILES[2]]).output;
        let (one, other) = (page("2026-11-17"), page("1999-12-31"));
        let differ: Vec<(&str, &str)> = one.lines().zip(other.lines()).filter(|(one, other)| one != other).collect();
        assert_eq!((differ.len(), one.lines().count()), (1, other.lines().count()), "{differ:?}");
        folder.write("page", &one);
        let script = format!("grep -v '{lines}' page | sha256sum | cut -d' ' -f1");
        let hash = Command::new("sh").args(["-c", &script]).current_dir(&folder.path).output().unwrap().stdout;
        assert!(one.contains(String::from_utf8(hash).unwrap().trim()), "{one}");
    }
    let mut command = Command::new(PROGRAM);
    command.args(["sign", "--text", FILES[0], FILES[1], FILES[2]]).current_dir(&folder.path);
    let page = command.env("SOURCE_DATE_EPOCH", "1000000000").output().unwrap().stdout;
    assert!(String::from_utf8(page).unwrap().contains("\nDate:                   2001-09-09\n"));
    folder
        .run(&["sign", "--date", "17.11.2026", FILES[0], FILES[1], FILES[2]])
        .fails(1, "sirophan: 17.11.2026 is no day: one is written 2026-11-17.\n");
    let mut command = Command::new(PROGRAM);
    command.args(["sign", FILES[0], FILES[1], FILES[2]]).current_dir(&folder.path).env("SOURCE_DATE_EPOCH", "soon");
    let said = command.output().unwrap();
    let told = "sirophan: SOURCE_DATE_EPOCH is soon, and no number of seconds since 1970.\n";
    assert_eq!((said.status.code(), String::from_utf8(said.stderr).unwrap().as_str()), (Some(1), told));
}

/// A birth date that was entered as a token: the page has the warning that `pick` has, and says why no card is on the list.
#[test]
fn the_page_of_a_doubt() {
    let cards: String = (1..=30).map(|n| format!("record: {n}\nbirthdate 1974-{:02}\n", n % 12 + 1)).collect();
    let folder = Folder::packed("sign-doubt", "token birthdate\n", &cards, "birthdate eq 1974\n");
    let doubt = "birthdate is a token, and 30 of 30 values look like dates.";
    let help =
        "If it holds dates, the sheet gives it the wrong kind, and a filter asks something else than it seems to.";
    let picked = folder.run(&["pick", FILES[0], FILES[1], FILES[2]]);
    picked.says(0, "0 of 30\n", &format!("warning: {doubt}\n  {help}\n"));
    let signed = folder.sign("page.html", &FILES);
    signed.says(0, "0 of 30 cards, in page.html\n", &format!("warning: {doubt}\n  {help}\n"));
    let page = folder.text("page.html");
    for part in [
        "<p class=\"outcome\">0 of 30 cards match.</p>\n<p>No card is on the list.</p>\n",
        &format!("<div class=\"message\">\n<p><strong>Warning:</strong> {doubt}</p>\n<p>{help}</p>\n</div>\n"),
    ] {
        assert!(page.contains(part), "{part} in {page}");
    }
    folder.recheck("page.html").says(0, "same archive, same question, same answer\n", "");
    folder.sign("page.txt", &["--text", FILES[0], FILES[1], FILES[2]]);
    let page = folder.text("page.txt");
    let wrapped = "\nwarning: birthdate is a token, and 30 of 30 values look like dates.\n\
                   \x20 If it holds dates, the sheet gives it the wrong kind, and a filter asks\n\
                   \x20   something else than it seems to.\n";
    assert!(page.contains(wrapped), "{page}");
    folder.recheck("page.txt").says(0, "same archive, same question, same answer\n", "");
    let json = folder.run(&["sign", "--json", "--date", DAY, "--out", "page.html", FILES[0], FILES[1], FILES[2]]);
    assert!(
        json.output.starts_with("{\"page\":\"page.html\",\"fingerprint\":\"") && json.errors.is_empty(),
        "{json:?}"
    );
    assert!(
        json.output
            .contains("\"matching\":0,\"cards\":30,\"warnings\":[{\"level\":\"warning\",\"code\":\"looks_like\"")
    );
    folder
        .run(&["sign", "--json", FILES[0], FILES[1], FILES[2]])
        .fails(1, "{\"level\":\"error\",\"message\":\"sirophan: With --json the page needs a file: --out FILE.\"}\n");
}

/// A refusal has a page, which says that there is no answer and why, and has no list.
#[test]
fn pages_of_refusals() {
    let folder = Folder::ward("sign-refused");
    let why = "title pr true or code gt 5\n                 ^^^^^^^^^\n\
               the filter: refused 16 at 17: The operator has no meaning for a parameter of this kind.\n\
               \x20 code is a token, which has the operators eq, ne and pr.\n\
               \x20 gt is for numbers, dates and periods. If that is what code holds, the sheet gives it the wrong kind.\n";
    let question = ["-e", "title pr true or code gt 5", FILES[0], FILES[2]];
    folder.sign("page.html", &question).fails(2, why);
    let page = folder.text("page.html");
    for part in ["<h1>There is no answer</h1>", "<p>the filter: refused 16 at 17: The operator has no meaning"] {
        assert!(page.contains(part), "{page}");
    }
    assert!(!page.contains("class=\"list") && !page.contains("of 3 cards"), "{page}");
    let told = "page.html is the page of a refusal: it has no answer that could be the same.\n";
    folder.recheck("page.html").fails(2, told);
    let said = folder.run(&["sign", "--text", "--date", DAY, "-e", "a\u{202E}b", FILES[0], FILES[2]]);
    assert_eq!(said.status, 2);
    assert!(said.output.contains("As it was sent:         a\u{27E8}U+202E\u{27E9}b\n"), "{}", said.output);
    assert!(said.output.contains("\nThere is no answer.\n") && !said.output.contains("\u{202E}"), "{}", said.output);
    // Cards at fault, and a seal that does not hold.
    folder.change("cards.bin", |cards| cards[512 + 100] ^= 1);
    let said = folder.sign("page.html", &FILES);
    assert!(said.status == 4 && said.errors.starts_with("cards.bin: refused 21 at 1: "), "{said:?}");
    assert!(folder.text("page.html").contains("<p>cards.bin: refused 21 at 1: The card&#39;s check sum is wrong.</p>"));
    folder.change("cards.bin", |cards| {
        cards[512 + 100] ^= 1;
        cards[1] = 8;
        sum(cards, 0);
    });
    let said = folder.sign("page.html", &FILES);
    let told = "cards.bin has 3 cards as archive.txt says, and not the same: something was changed.";
    assert!(said.status == 4 && said.errors.starts_with(told), "{said:?}");
    assert!(folder.text("page.html").contains(told) && !folder.text("page.html").contains("class=\"list"));
    // A page that cannot be written is told, and so is why there is no answer.
    let said = folder.sign("none/page.html", &question);
    assert!(said.status == 3 && said.errors.starts_with(why), "{said:?}");
    assert!(
        said.errors.ends_with("sirophan: none/page.html cannot be written: No such file or directory\n"),
        "{said:?}"
    );
    // What cannot be read has no page.
    let said = folder.run(&["sign", "--out", "none.html", "sheet.bin", "filter.txt", "none.bin"]);
    assert_eq!((said.status, folder.path.join("none.html").exists()), (3, false));
}

/// Whatever stands on cards and in the question is shown as what it is, and changes nothing else on the page.
#[test]
fn hostile_texts() {
    let cards = "record: 7\nname \"<script>alert(1)</script>\\xE2\\x80\\xAE & \\\"x\\\"\"\nname \"Str\\xF6m\"\n\
                 record: 8\nname \"</table><tr id=\\x22date\\x22>\"\n";
    let folder = Folder::packed("sign-hostile", "string name\n", cards, "name pr true\n");
    let question = "name co \"</pre><script>\u{2066}\" or name pr true";
    folder.sign("page.html", &["--columns", "name", "-e", question, FILES[0], FILES[2]]);
    let page = folder.text("page.html");
    assert!(!page.contains("<script") && !page.contains(['\u{202E}', '\u{2066}']), "{page}");
    for part in [
        "<td>7</td><td><bdi>&lt;script&gt;alert(1)&lt;/script&gt;<b>U+202E</b> &amp; &quot;x&quot;</bdi><bdi>Str<b>0xF6</b>m</bdi></td>",
        "<tr id=\"sent\"><th>As it was sent</th><td>name co &quot;&lt;/pre&gt;&lt;script&gt;<b>U+2066</b>&quot; or name pr true</td></tr>\n",
    ] {
        assert!(page.contains(part), "{part} in {page}");
    }
    folder.recheck("page.html").says(0, "same archive, same question, same answer\n", "");
    folder.sign("page.txt", &["--text", "--columns=name", "-e", question, FILES[0], FILES[2]]);
    let row = "\n        1 | 7 | <script>alert(1)</script>\u{27E8}U+202E\u{27E9} & \"x\"; Str\u{27E8}0xF6\u{27E9}m\n";
    assert!(folder.text("page.txt").contains(row), "{}", folder.text("page.txt"));
    folder.recheck("page.txt").says(0, "same archive, same question, same answer\n", "");
    let sign = |columns: &str| folder.sign("page.html", &["--columns", columns, FILES[0], FILES[1], FILES[2]]);
    sign("nam").fails(1, "sirophan: nam is no field of the sheet. Is it name?\n");
    sign("name,zzz").fails(1, "sirophan: zzz is no field of the sheet. There are name.\n");
}

/// What is not on the list and might be: dates that are too imprecise, cards without a field that match in all else.
#[test]
fn what_might_be_on_the_list() {
    let cards = "record: 1\nbirthdate 1974-06\nward A\nrecord: 2\nbirthdate 1974\nward A\nrecord: 3\nward A\n\
                 record: 4\nward B\nrecord: 5\nbirthdate 1974\nward B\nrecord: 6\nbirthdate 1974-06-01\n";
    let folder =
        Folder::packed("sign-might", "date birthdate\ntoken ward\n", cards, "birthdate eq 1974-06 and ward eq A\n");
    let page = |filter: &str| {
        let said = folder.run(&["sign", "--text", "-e", filter, FILES[0], FILES[2]]);
        let part = said.output.split("might be\n").nth(1).unwrap().split("\n\n").next().unwrap().to_string();
        part.lines().skip(2).map(str::trim).collect::<Vec<&str>>().join(" ")
    };
    let overlaps = "with a date that overlaps 1974-06, and is too imprecise or too long for `birthdate eq 1974-06`";
    assert_eq!(
        page("birthdate eq 1974-06 and ward eq A"),
        format!("1  {overlaps} 1  without birthdate, that match in all else 1  without ward, that match in all else")
    );
    // Under `not` they are on the list.
    assert_eq!(
        page("not (birthdate eq 1974-06) and ward eq A"),
        format!("0  {overlaps} 0  without birthdate, that match in all else 0  without ward, that match in all else")
    );
    assert_eq!(page("ward pr true"), "");
}

/// Tampered archives, pages and lists.
#[test]
fn what_was_changed_is_told() {
    let folder = Folder::ward("recheck");
    folder.sign("page.html", &FILES);
    folder.sign("page.txt", &["--text", FILES[0], FILES[1], FILES[2]]);
    for (name, old, new) in [("page.html", "<td>300</td>", "<td>301</td>"), ("page.txt", "300\n", "301\n")] {
        let page = folder.text(name);
        folder.write("changed", page.replacen(old, new, 1));
        folder.recheck("changed").fails(
            2,
            "changed: same archive, same question, another answer, and a page that was changed.\n\
             the list is another: 1 came and 1 went.\n  Came: 300.\n  Went: 301.\n\
             the page was changed since it was made: it has another fingerprint.\n",
        );
        // A changed question is asked.
        folder.write("changed", page.replace("1974-06", "1975-06"));
        let said = folder.recheck("changed");
        assert!(said.status == 2 && said.errors.contains("\n  Came: 19.\n"), "{said:?}");
        // A sentence that was changed, and the fingerprint with it.
        let changed = page.replace("Nothing is doubted", "All was looked at");
        folder.write("changed", &changed);
        let starts = if name == "page.txt" {
            ["Date:", "Fingerprint:"]
        } else {
            ["<tr id=\"date\">", "<tr id=\"fingerprint\">"]
        };
        let kept: String = changed
            .lines()
            .filter(|line| !starts.iter().any(|start| line.starts_with(start)))
            .map(|line| format!("{line}\n"))
            .collect();
        folder.write("kept", kept);
        let script = "sha256sum kept | cut -d' ' -f1";
        let hash = Command::new("sh").args(["-c", script]).current_dir(&folder.path).output().unwrap().stdout;
        let hash = String::from_utf8(hash).unwrap();
        let old = page.lines().find(|line| line.starts_with(starts[1])).unwrap();
        let old_hash = old.split(|c: char| !c.is_ascii_hexdigit()).find(|part| part.len() == 64).unwrap();
        folder.write("changed", changed.replace(old_hash, hash.trim()));
        let number = 1 + page.lines().position(|line| line.contains("Nothing is doubted")).unwrap();
        folder.recheck("changed").says(
            0,
            "same archive, same question, same answer\n",
            &format!(
                "warning: line {number} of the page is not what `sirophan sign` writes now.\n\
                 \x20 Beside archive, question and answer something else was changed, in the page or in the program.\n"
            ),
        );
        // Of another version it holds, and the version is told.
        folder.write("changed", page.replace("sirophan 0.1.0 (unreleased)", "sirophan 0.0.9 (abc, by a prover)"));
        assert!(
            folder
                .recheck("changed")
                .errors
                .contains("note: The page was made by sirophan 0.0.9 (abc, by a prover), and this is")
        );
    }
    for name in ["filter.txt", "cards.bin"] {
        folder.recheck(name).fails(
            2,
            &format!(
                "{name} is no page that `sirophan sign` has made.\n\
                 \x20 It is read as it was written: not printed, and not saved anew by a browser or an editor.\n"
            ),
        );
    }
}

/// A page holds wherever its archive lies, however it is sealed, and whether or not its cards came through a pipe.
#[test]
fn pages_of_pipes_and_copies() {
    let folder = Folder::ward("sign-pipe");
    let cards = folder.read("cards.bin");
    let asked = ["sign", "--date", DAY, "-e", "title eq Ward and code eq x", "sheet.bin"];
    let piped = folder.run_with(&[&asked[..], &["-"]].concat(), &cards);
    assert!(piped.status == 0 && piped.output.contains("<p>The cards came through a pipe"), "{piped:?}");
    folder.write("piped.html", piped.output);
    folder.run(&[&asked[..], &["cards.bin", "--out", "page.html"]].concat());
    folder.unsealed();
    fs::rename(folder.path.join("cards.bin"), folder.path.join("copy.bin")).unwrap();
    for name in ["piped.html", "page.html"] {
        folder.run(&["recheck", name, "sheet.bin", "copy.bin"]).says(
            0,
            "same archive, same question, same answer\n",
            "",
        );
    }
    let json = "{\"same\":true,\"matching\":0,\"cards\":3,\"version\":\"sirophan 0.1.0 (unreleased)\",\
                \"page_version\":\"sirophan 0.1.0 (unreleased)\",\"warnings\":[]}\n";
    folder.run(&["recheck", "--json", "page.html", "sheet.bin", "copy.bin"]).says(0, json, "");
    let over = folder.run(&["sign", "--out", "./copy.bin", "-e", "title eq x", "sheet.bin", "copy.bin"]);
    over.fails(1, "sirophan: copy.bin is what is asked, and the page would take its place.\n");
    assert!(folder.read("copy.bin") == cards);
}

/// An archive that has grown, another sheet, and a card that was changed.
#[test]
fn archives_of_next_year() {
    let folder = Folder::ward("recheck-archive");
    folder.sign("page.html", &FILES);
    let sealed = folder.read("cards.bin");
    folder.change("cards.bin", |cards| {
        let again = cards[..512].to_vec();
        cards.extend(again);
    });
    let said = folder.recheck("page.html");
    assert!(
        said.status == 4 && said.errors.starts_with("cards.bin has 4 cards, 1 card more than archive.txt says."),
        "{said:?}"
    );
    folder.run(&["seal", "."]);
    let said = folder.recheck("page.html");
    let head = "page.html: another archive, same question, another answer.\n\
                the archive has 4 cards, 1 card more than the page says.\n\
                another cards file: its SHA-256 is ";
    assert!(said.status == 2 && said.errors.starts_with(head), "{}", said.errors);
    assert!(said.errors.ends_with("\nthe list is another: 1 came and 0 went.\n  Came: 7.\n"), "{}", said.errors);
    // A changed card that gives the same list is another archive.
    folder.write("cards.bin", &sealed).change("cards.bin", |cards| {
        let title = cards.windows(4).position(|bytes| bytes == b"book").unwrap();
        cards[title] = b'B';
        sum(cards, 0);
    });
    folder.run(&["seal", "."]);
    let said = folder.recheck("page.html");
    assert!(
        said.status == 2
            && said.errors.starts_with("page.html: another archive, same question, same answer.\nanother cards file: ")
    );
    // A sheet by which the question has no meaning.
    folder.write("sheet.txt", "string title\ndate birth\ntoken code\nnumber pages\nreference subject\n");
    folder.write("cards.txt", "record: 1\nbirth 1974\n");
    folder.run(&["pack", ".", "."]);
    let said = folder.recheck("page.html");
    let head = "page.html: another archive, the question is refused, no answer.\nanother sheet: its SHA-256 is ";
    assert!(said.status == 2 && said.errors.starts_with(head), "{}", said.errors);
    assert!(said.errors.contains("the filter: refused 14 at 0: "), "{}", said.errors);
}

/// A page of 100,000 record numbers, and what it looks like in both forms.
#[test]
fn a_long_list() {
    let cards: String = (0..100_000).map(|record| format!("record: {}\n", record * 7)).collect();
    let folder = Folder::packed("sign-long", "string title\n", &cards, "title pr false\n");
    for (form, name) in [("--text", "page.txt"), ("--date=2026-11-17", "page.html")] {
        folder.sign(name, &[form, FILES[0], FILES[1], FILES[2]]).says(
            0,
            &format!("100,000 of 100,000 cards, in {name}\n"),
            "",
        );
        folder.recheck(name).says(0, "same archive, same question, same answer\n", "");
        let page = folder.text(name);
        folder.write("changed", page.replacen("699993", "699994", 1));
        let said = folder.recheck("changed");
        assert!(said.status == 2 && said.errors.contains("  Came: 699993.\n  Went: 699994.\n"), "{}", said.errors);
    }
    assert!(folder.text("page.html").contains("<tr><th>99,993</th><td>699944</td><td>699951</td>"));
    assert!(folder.text("page.txt").contains("\n   99,997 | 699972     699979     699986     699993\n"));
}

//! `sirophan query`, and what `--fhir` makes of its answers and refusals.

use crate::folder::{Folder, Said};

const UNKNOWN: &str =
    "The name is not on the sheet, or cannot stand here: members are named with their bundle's brackets.";

fn query(folder: &Folder, options: &[&str], text: &str) -> Said {
    let paths = ["query", "-e", text, "sheet.bin", "cards.bin"];
    folder.run(&[&paths, options].concat())
}

/// Filters and pairs are all to be met, however they are encoded and wherever they stand.
#[test]
fn query_lists_and_counts() {
    let folder = Folder::ward("query");
    for (text, answer) in [
        ("_filter=title%20co%20ward", "7\n19\n2 of 3\n"),
        ("_filter=title+co+ward&pages=lt100", "7\n1 of 3\n"),
        ("pages=lt100&%5ffilter=title%20co%20ward", "7\n1 of 3\n"),
        ("_filter=title+co+ward&_filter=pages+gt+100", "19\n1 of 3\n"),
        ("title=ward&pages=gt100", "19\n1 of 3\n"),
        ("_filter=title%20co%20ward&_summary=count", "2 of 3\n"),
        ("_total=accurate&title=ward", "7\n19\n2 of 3\n"),
    ] {
        query(&folder, &[], text).says(0, answer, "");
    }
    folder.write("query.txt", "_filter=title+co+ward&pages=lt100\n");
    folder.run(&["query", "sheet.bin", "query.txt", "cards.bin"]).says(0, "7\n1 of 3\n", "");
    let json = "{\"records\":[7],\"matching\":1,\"cards\":3,\"warnings\":[]}\n";
    query(&folder, &["--json"], "title=ward&pages=lt100&_format=json").says(0, json, "");
    let count = "{\"matching\":2,\"cards\":3,\"warnings\":[]}\n";
    query(&folder, &["--json"], "title=ward&_summary=count").says(0, count, "");
}

/// The first fault in the query is told, with its part, and what to do stands below.
#[test]
fn query_tells_the_first_fault() {
    let folder = Folder::ward("query-faults");
    query(&folder, &[], "title=ward&_filter=code+lt+1974&_count=10").fails(
        2,
        "code lt 1974\n^^^^^^^^^^^^\n-e, _filter: refused 16 at 0: The operator has no meaning for a parameter of this kind.\n\
         \x20 code is a token, which has the operators eq, ne and pr.\n\
         \x20 lt is for numbers, dates and periods. If that is what code holds, the sheet gives it the wrong kind.\n",
    );
    query(&folder, &[], "_filter=code+eq+x&title=ward&_count=10").fails(
        2,
        &format!(
            "title=ward&_count=10\n           ^^^^^^^^^\n-e, the pairs: refused 14 at 11: {UNKNOWN}\n\
             \x20 _count says how many are listed at a time, and asks nothing of a card. All cards that match are listed: leave it out.\n"
        ),
    );
    query(&folder, &[], "_filter=code+eq+x&_filter=code").fails(
        2,
        "code\n    ^\n-e, _filter 2: refused 11 at 4: The text is no filter by the grammar: no filter goes on like this.\n\
         \x20 Here could stand an operator. Words have a space before them.\n\
         \x20 code is a token, which has the operators eq, ne and pr.\n",
    );
    query(&folder, &[], "_format=xml&title=ward").fails(
        2,
        &format!(
            "_format=xml&title=ward\n^^^^^^^^^^^\n-e, the pairs: refused 14 at 0: {UNKNOWN}\n\
             \x20 _format says in which form an answer comes, and asks nothing of a card. All cards that match are listed: leave it out.\n\
             \x20 A query takes `_format=json`, and no other _format.\n"
        ),
    );
    query(&folder, &[], "_summary=count").fails(
        2,
        "-e, the pairs: refused 10 at 0: The filter or search string is empty or longer than 1,024 bytes.\n  It has 0 bytes.\n",
    );
    let json = query(&folder, &["--json"], "title=ward&tilte=x");
    json.fails(
        2,
        &format!(
            "{{\"level\":\"error\",\"message\":\"-e, the pairs: refused 14 at 11: {UNKNOWN}\",\"help\":[\"tilte is not on the sheet. \
             Is it title?\"],\"refused\":14,\"place\":11,\"part\":\"the pairs\",\"parameter\":\"tilte\"}}\n"
        ),
    );
    query(&folder, &["--json", "--fhir"], "title=ward").fails(
        1,
        "{\"level\":\"error\",\"message\":\"sirophan: --json and --fhir are two forms of an answer. Give one of them.\"}\n",
    );
}

/// A name that is on the sheet is the sheet's.
#[test]
fn query_leaves_names_to_the_sheet() {
    let cards = "record: 1\n_filter x\n_count 5\nrecord: 2\n_filter title\n_count 10\n";
    let folder = Folder::packed("query-names", "token _filter\nnumber _count\n", cards, "_filter pr true");
    query(&folder, &[], "_filter=x").says(0, "1\n1 of 2\n", "");
    query(&folder, &[], "_count=10").says(0, "2\n1 of 2\n", "");
}

/// A searchset, with the warnings beside the cards.
#[test]
fn query_answers_as_fhir() {
    let folder = Folder::ward("query-fhir");
    let head = |total: u32, url: &str| {
        format!(
            "{{\"resourceType\":\"Bundle\",\"type\":\"searchset\",\"total\":{total},\"link\":[{{\"relation\":\"self\",\"url\":\"?{url}\"}}]"
        )
    };
    let card = |record: u32| {
        format!(
            "{{\"resource\":{{\"resourceType\":\"Basic\",\"identifier\":[{{\"value\":\"{record}\"}}],\
             \"code\":{{\"text\":\"catalogue card\"}}}},\"search\":{{\"mode\":\"match\"}}}}"
        )
    };
    let plain = "_filter=title%20co%20ward&pages=lt1000";
    let listed = format!("{},\"entry\":[\n{},\n{}]}}\n", head(2, plain), card(7), card(19));
    query(&folder, &["--fhir"], "pages=lt1000&_filter=(title++co+%22ward%22)").says(0, &listed, "");
    let asked = listed.replace("1000", "1000&_format=json");
    query(&folder, &[], "pages=lt1000&_format=json&_filter=title+co+ward").says(0, &asked, "");
    let count = format!("{}}}\n", head(2, "title=ward&_summary=count"));
    query(&folder, &["--fhir"], "title=ward&_summary=count").says(0, &count, "");
    let none = query(&folder, &["--fhir"], "title=x");
    let outcome = format!(
        "{},\"entry\":[\n{{\"resource\":{{\"resourceType\":\"OperationOutcome\",\"issue\":[{{\"severity\":\"information\",\"code\":\"informational\",\
         \"details\":{{\"text\":\"no card meets `title=x`: 3 of 3 cards have title, such as \\\"Ward book 4\\\".\"}}}}]}},\"search\":{{\"mode\":\"outcome\"}}}}]}}\n",
        head(0, "title=x")
    );
    none.says(0, &outcome, "");
}

/// An outcome by whose fault it is, and the status of the command's one table.
#[test]
fn query_refuses_as_fhir() {
    let folder = Folder::ward("query-outcome");
    let codes = [
        ("_filter=code+lt+5", "not-supported", Some("_filter")),
        ("title=ward&_count=10", "not-supported", Some("_count")),
        ("_filter=nowhere+eq+5", "not-found", Some("_filter")),
        ("title=ward&nowhere=5", "not-found", Some("nowhere")),
        ("title=ward&pages=many", "invalid", Some("pages")),
        ("_filter=title", "invalid", Some("_filter")),
        ("", "invalid", None),
    ];
    for (text, code, parameter) in codes {
        let said = query(&folder, &["--fhir"], text);
        assert_eq!((said.status, said.output.as_str()), (2, ""), "{text}");
        let start = format!(
            "{{\"resourceType\":\"OperationOutcome\",\"issue\":[{{\"severity\":\"error\",\"code\":\"{code}\",\"details\":{{\"text\":\"-e, "
        );
        assert!(said.errors.starts_with(&start), "{text}: {}", said.errors);
        let end = parameter.map_or("}]}\n".into(), |name| format!("\"location\":[\"http.{name}\"]}}]}}\n"));
        assert!(said.errors.ends_with(&end), "{text}: {}", said.errors);
    }
    let outcome = |code: &str, rest: &str| {
        format!(
            "{{\"resourceType\":\"OperationOutcome\",\"issue\":[{{\"severity\":\"error\",\"code\":\"{code}\",{rest}}}]}}\n"
        )
    };
    folder.run(&["query", "--fhir", "-e", "title=x", "none.bin", "cards.bin"]).fails(
        3,
        &outcome(
            "processing",
            "\"details\":{\"text\":\"sirophan: none.bin cannot be opened: No such file or directory\"}",
        ),
    );
    folder.run(&["query", "--fhir", "sheet.bin"]).fails(
        1,
        &outcome(
            "invalid",
            "\"details\":{\"text\":\"sirophan: 1 path given. Usage: sirophan query [--fhir] SHEET QUERY CARDS\"}",
        ),
    );
    folder.change("cards.bin", |cards| cards[600] ^= 1);
    let damaged = query(&folder, &[], "title=ward&_format=json");
    assert_eq!((damaged.status, damaged.output.as_str()), (4, ""));
    let start = "{\"resourceType\":\"OperationOutcome\",\"issue\":[{\"severity\":\"error\",\"code\":\"processing\",\"details\":{\"text\":\"cards.bin: refused 21 at 1: ";
    assert!(damaged.errors.starts_with(start), "{}", damaged.errors);
    folder.change("cards.bin", |cards| cards.truncate(1024));
    let fewer = query(&folder, &["--fhir"], "title=ward");
    assert_eq!(
        (fewer.status, fewer.errors.contains("1 card fewer than archive.txt says")),
        (4, true),
        "{}",
        fewer.errors
    );
}

//! `sirophan report`.

use crate::folder::Folder;

/// All cards count in the table, whatever the filter says of them; a bundle has no values.
#[test]
fn report_counts_cards_and_values() {
    let sheet = "string title\ndate birthdate\nbundle related\ntoken related.type\n";
    let cards = "record: 1\nbirthdate 1974-06\nbirthdate 1975\nrelated#1.type x\nrelated#2.type y\nrecord: 2\nbirthdate 1980\n\
                 title Ward book 4\nrecord: 3\n";
    let folder = Folder::packed("report", sheet, cards, "birthdate ge 1975");
    folder.run(&["report", "sheet.bin", "filter.txt", "cards.bin"]).says(
        0,
        "3 cards: yes 2, no 1\n\
         \x20 field         kind    cards  values\n\
         \x20 title         string  1      1\n\
         \x20 birthdate     date    2      3\n\
         \x20 related       bundle  0      0\n\
         \x20 related.type  token   1      2\n",
        "",
    );
    folder.run(&["report", "--json", "sheet.bin", "filter.txt", "cards.bin"]).says(
        0,
        "{\"yes\":2,\"no\":1,\"fields\":[{\"field\":\"title\",\"kind\":\"string\",\"cards\":1,\"values\":1},\
         {\"field\":\"birthdate\",\"kind\":\"date\",\"cards\":2,\"values\":3},\
         {\"field\":\"related\",\"kind\":\"bundle\",\"cards\":0,\"values\":0},\
         {\"field\":\"related.type\",\"kind\":\"token\",\"cards\":1,\"values\":2}],\"warnings\":[]}\n",
        "",
    );
    folder.unsealed().write("cards.bin", "");
    let empty = folder.run(&["report", "sheet.bin", "filter.txt", "cards.bin"]);
    assert!(empty.output.starts_with("0 cards: yes 0, no 0\n"), "{}", empty.output);
}

/// Runs are added up, and the index of a refused card counts over the file.
#[test]
fn report_over_several_runs() {
    let cards: String = (0..300).map(|record| format!("record: {record}\nn {}\n", record % 3)).collect();
    let folder = Folder::packed("report-runs", "number n\n", &cards, "n eq 1");
    folder.run(&["report", "sheet.bin", "filter.txt", "cards.bin"]).says(
        0,
        "300 cards: yes 100, no 200\n\x20 field  kind    cards  values\n\x20 n      number  300    300\n",
        "",
    );
    folder.change("cards.bin", |cards| cards[200 * 512] = 0);
    let refused = folder.run(&["report", "sheet.bin", "filter.txt", "cards.bin"]);
    assert_eq!((refused.status, refused.output.as_str()), (4, ""));
    assert!(refused.errors.starts_with("cards.bin: refused 21 at 200: "), "{}", refused.errors);
}

//! `sirophan explain`.

use crate::folder::Folder;

/// The tests that decide are underlined, with what each says; a test behind square brackets with them.
#[test]
fn explain_underlines_the_tests_that_decide() {
    let sheet = "string title\nnumber pages\nbundle related\ntoken related.type\nreference related.target\n";
    let cards = "record: 1\ntitle Ward book 4\npages 12\nrecord: 7\ntitle Ward\nrelated#1.type x\nrelated#1.target a/1\n\
                 record: 7\npages 300\n";
    let filter = "title eq x or pages gt 5 and not (related[type eq x].target pr true)";
    let folder = Folder::packed("explain", sheet, cards, filter);
    folder.run(&["explain", "--record", "1", "sheet.bin", "filter.txt", "cards.bin"]).says(
        0,
        "card 0, record 1: yes\n\
         title eq x or pages gt 5 and not (related[type eq x].target pr true)\n\
         \x20             ^^^^^^^^^^          ^^^^^^^^^^^^^^^^^^^^^^^^^^^^^^^^^\n\
         \x20             yes                 no\n\
         \x20 pages gt 5                          yes: 12\n\
         \x20 related[type eq x].target pr true   no: no related.target on this card\n",
        "warning: `and` and `or` are read from left to right, with equal rank. The filter asks:\n\
         \x20 (title eq x or pages gt 5) and not (related[type eq x].target pr true)\n",
    );
    // two cards with the number
    let both = folder.run(&["explain", "--record=7", "--json", "sheet.bin", "filter.txt", "cards.bin"]);
    both.says(
        0,
        "{\"card\":1,\"record\":7,\"matches\":false,\"tests\":[{\"place\":0,\"test\":\"title eq x\",\"mark\":\"no\",\
         \"values\":[\"Ward\"]},{\"place\":14,\"test\":\"pages gt 5\",\"mark\":\"no\",\"values\":[]},\
         {\"place\":34,\"test\":\"related[type eq x].target pr true\",\"mark\":\"spared\"}],\"warnings\":[]}\n\
         {\"card\":2,\"record\":7,\"matches\":true,\"tests\":[{\"place\":0,\"test\":\"title eq x\",\"mark\":\"spared\"},\
         {\"place\":14,\"test\":\"pages gt 5\",\"mark\":\"yes\",\"values\":[\"300\"]},\
         {\"place\":34,\"test\":\"related[type eq x].target pr true\",\"mark\":\"no\",\"values\":[]}],\
         \"warnings\":[{\"level\":\"warning\",\"code\":\"joins\",\"message\":\"`and` and `or` \
         are read from left to right, with equal rank. The filter asks:\",\"help\":[\"(title eq x or pages gt 5) and not \
         (related[type eq x].target pr true)\"]},{\"level\":\"warning\",\"code\":\"record_repeated\",\"message\":\"cards.bin: a \
         record number is borne by several cards: 7 (2 cards).\",\"help\":[\"A list names them by the number alone, once for each \
         card that matches.\"],\"figures\":{\"records\":1,\"cards\":2}}]}\n",
        "",
    );
}

/// Without a number, without such a card, and where the card is refused there is no answer.
#[test]
fn explain_refuses() {
    let folder = Folder::packed("explain-refuses", "number n\n", "record: 1\nn 1\nrecord: 2\nn 2\n", "n eq 1");
    folder.run(&["explain", "sheet.bin", "filter.txt", "cards.bin"]).fails(
        1,
        "sirophan: explain needs --record and the number of the card's record, or --all for every card of the list.\n",
    );
    folder
        .run(&["explain", "--record", "3", "sheet.bin", "filter.txt", "cards.bin"])
        .fails(2, "cards.bin: no card has the record number 3.\n");
    folder.change("cards.bin", |cards| cards[512 + 100] = 1);
    let refused = folder.run(&["explain", "--record", "2", "sheet.bin", "filter.txt", "cards.bin"]);
    assert_eq!((refused.status, refused.output.as_str()), (4, ""));
    assert!(refused.errors.starts_with("cards.bin: refused 21 at 1: "), "{}", refused.errors);
    assert_eq!(folder.run(&["explain", "--record", "1", "sheet.bin", "filter.txt", "cards.bin"]).status, 0);
    folder.change("cards.bin", |cards| cards.truncate(600));
    let refused = folder.run(&["explain", "--record", "1", "sheet.bin", "filter.txt", "cards.bin"]);
    assert_eq!((refused.status, refused.output.as_str()), (4, ""));
    assert!(refused.errors.starts_with("cards.bin: refused 20 at 0: "), "{}", refused.errors);
}

/// Every card of the list, with the values that each test went by; and search strings, by the verdict on each part.
#[test]
fn explain_with_values() {
    let sheet = "date discharge\nstring title\ntoken code\n";
    let cards = "record: 1\ndischarge 1973-10\ndischarge 1980\ntitle Ward\nrecord: 2\ntitle Ward\nrecord: 3\ndischarge 1974\n\
                 title \"\"\n";
    let folder = Folder::packed("explain-values", sheet, cards, "discharge lt 1975 and title pr true\n");
    let files = ["sheet.bin", "filter.txt", "cards.bin"];
    folder.run(&["explain", "--all", files[0], files[1], files[2]]).says(
        0,
        "2 cards on the list\n\
         card 0, record 1: yes\n\
         discharge lt 1975 and title pr true\n\
         ^^^^^^^^^^^^^^^^^     ^^^^^^^^^^^^^\n\
         yes                   yes\n\
         \x20 discharge lt 1975   yes: 1973-10\n\
         \x20 title pr true       yes: Ward\n\
         card 2, record 3: yes\n\
         discharge lt 1975 and title pr true\n\
         ^^^^^^^^^^^^^^^^^     ^^^^^^^^^^^^^\n\
         yes                   yes\n\
         \x20 discharge lt 1975   yes: 1974\n\
         \x20 title pr true       yes: \"\"\n",
        "",
    );
    folder.run(&["explain", "--record", "2", files[0], files[1], files[2]]).says(
        0,
        "card 1, record 2: no\n\
         discharge lt 1975 and title pr true\n\
         ^^^^^^^^^^^^^^^^^\n\
         no\n\
         \x20 discharge lt 1975   no: no discharge on this card\n",
        "",
    );
    let search = "discharge=lt1975,1980&title=ward";
    folder.run(&["explain", "--search", "--record", "1", "-e", search, files[0], files[2]]).says(
        0,
        "card 0, record 1: yes\n\
         verdicts on each by itself:\n\
         \x20 discharge=lt1975,1980   yes\n\
         \x20   discharge=lt1975      yes: 1973-10\n\
         \x20   discharge=1980        yes: 1980\n\
         \x20 title=ward              yes: Ward\n",
        "",
    );
    folder.run(&["explain", "--search", "--record", "2", "--json", "-e", search, files[0], files[2]]).says(
        0,
        "{\"card\":1,\"record\":2,\"matches\":false,\"verdicts\":[{\"pair\":\"discharge=lt1975,1980\",\"says\":false,\
         \"alternatives\":[{\"alternative\":\"discharge=lt1975\",\"says\":false,\"values\":[]},\
         {\"alternative\":\"discharge=1980\",\"says\":false,\"values\":[]}]},{\"pair\":\"title=ward\",\"says\":true,\
         \"alternatives\":[{\"alternative\":\"title=ward\",\"says\":true,\"values\":[\"Ward\"]}]}],\"warnings\":[]}\n",
        "",
    );
    folder.run(&["check", "--search", "-e", search, files[0]]).says(
        0,
        "3 alternatives\n\
         \x20 discharge  date    lt  1975\n\
         \x20 discharge  date    eq  1980\n\
         \x20 title      string  sw  ward\n",
        "",
    );
    folder.run(&["explain", "--all", "-e", "title eq x", files[0], files[2]]).says(0, "0 cards on the list\n", "");
    folder.run(&["explain", "--all", "--record", "1", files[0], files[1], files[2]]).fails(
        1,
        "sirophan: explain needs --record and the number of the card's record, or --all for every card of the list.\n",
    );
}

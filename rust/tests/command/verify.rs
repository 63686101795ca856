//! `sirophan verify`.

use crate::folder::{Folder, sum};

#[test]
fn verify_goes_through_all_cards() {
    let sheet = "number pages\nstring title\n";
    let cards: String = (0..3000).map(|record| format!("record: {record}\npages 12\n")).collect();
    let folder = Folder::described("verify", sheet, &cards, "pages eq 12\n");
    let found = |what, seal| {
        format!("the {what}: 3,000 cards, a sheet with 2 parameters, a filter with 1 test{seal}: all go together\n")
    };
    folder.run(&["verify", "."]).says(0, &found("description", ""), "");
    folder.run(&["pack", ".", "packed"]);
    folder.run(&["verify", "packed"]).says(0, &found("blocks", ", a seal"), "");
    folder.run(&["pack", ".", "."]);
    folder.run(&["verify", "."]).says(0, &(found("description", "") + &found("blocks", ", a seal")), "");
    let help = "  One of them has changed since it was packed. `sirophan pack` makes the blocks anew.\n";
    for (changed, message) in [
        (
            cards.replace("record: 2000\n", "record: 2000\ntitle x\n"),
            "card 2000 is not record 2000 as ./cards.txt describes it.",
        ),
        (cards.replace("record: 2000\n", "record: 7\n"), "card 2000 is not record 7 as ./cards.txt describes it."),
    ] {
        folder.write("cards.txt", changed);
        folder.run(&["verify", "."]).fails(4, &format!("./cards.bin: {message}\n{help}"));
    }
    folder.write("cards.txt", format!("{cards}record: 1\n"));
    let message = "./cards.bin has 3,000 cards only, and ./cards.txt describes more.";
    folder.run(&["verify", "."]).fails(4, &format!("{message}\n{help}"));
    folder.write("cards.txt", "record: 0\npages 12\n");
    let message = "./cards.bin has more cards than the 1 that ./cards.txt describes.";
    folder.run(&["verify", "."]).fails(4, &format!("{message}\n{help}"));
    folder.write("cards.txt", &cards).write("sheet.txt", "string pages\nstring title\n");
    let message = "./sheet.bin is not the sheet that ./sheet.txt describes.";
    folder.run(&["verify", "."]).fails(4, &format!("{message}\n{help}"));
    folder.write("sheet.txt", sheet);
    folder.change("packed/cards.bin", |cards| {
        for card in [2, 3, 2500] {
            cards[card * 512 + 8] = b'x';
            sum(cards, card * 512);
        }
        cards[200 * 512 + 6] = 1;
        cards[300 * 512 + 6] = 2;
        sum(cards, 300 * 512);
        cards.push(0);
    });
    let number = "x2 cannot be read as a number: 1 to 8 digits, then perhaps a point and 1 to 9 digits.";
    folder.run(&["verify", "packed"]).fails(
        4,
        &format!(
            "packed/cards.bin: card 2, record 2: pages: {number}\n\
             packed/cards.bin: card 3, record 3: pages: {number}\n\
             packed/cards.bin: card 200, record 200: The card's check sum is wrong. It was changed or damaged since it was \
             written: pack it again from its description.\n\
             packed/cards.bin: card 300, record 300: place 2?: the sheet has no parameter at this place, but 2.\n\
             packed/cards.bin: card 2500, record 2500: pages: {number}\n\
             packed/cards.bin: behind its last whole card it has 1 byte. A card has 512.\n"
        ),
    );
    folder.write("filter.txt", "pages gt x\n");
    folder.run(&["verify", "."]).fails(
        2,
        "pages gt x\n\
         ^^^^^^^^^^\n\
         ./filter.txt: refused 17 at 0: The value cannot be read as the parameter's kind, or for pr as true or false.\n\
         \x20 pages is a number, and x cannot be read as one: 1 to 8 digits, then perhaps a point and 1 to 9 digits.\n",
    );
}

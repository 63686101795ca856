//! `sirophan show`.

use crate::folder::{Folder, sum};

#[test]
fn show_marks_what_is_wrong() {
    let sheet = "number pages\nbundle related\ntoken related.type\n";
    let folder = Folder::packed("show", sheet, "record: 5\npages 12\nrelated#3.type x\nrecord: 6\n", "pages pr true");
    folder.change("cards.bin", |cards| {
        let pages = cards.windows(2).position(|bytes| bytes == b"12").unwrap();
        cards[pages] = b'x';
        sum(cards, 0);
        cards[600] = 1;
        cards.extend([0; 600]);
    });
    let first = "card 0, record 5, 2 entries\n\
                 \x20 name            kind    text\n\
                 \x20 pages           number  x2\n\
                 \x20 related#3.type  token   x\n\
                 \x20 ! pages: x2 cannot be read as a number: 1 to 8 digits, then perhaps a point and 1 to 9 digits.\n";
    let second = "card 1, record 6, 0 entries\n\
                  \x20 name  kind  text\n\
                  \x20 ! The card's check sum is wrong. It was changed or damaged since it was written: pack it again from its \
                  description.\n";
    let rest = "block 2 is neither a sheet nor a card\nblock 3 has only 88 bytes\n";
    folder.run(&["show", "cards.bin"]).says(0, &format!("{first}{second}{rest}"), "");
    folder.run(&["show", "--record", "6", "cards.bin"]).says(0, second, "");
    folder.run(&["show", "--record=6", "cards.bin"]).says(0, second, "");
    folder.run(&["show", "--record", "7", "cards.bin"]).fails(2, "no card has the record number 7.\n");
    folder.run(&["show", "--json", "--record", "5", "cards.bin"]).says(
        0,
        "{\"card\":0,\"record\":5,\"entries\":[{\"name\":\"pages\",\"kind\":\"number\",\"text\":\"x2\"},\
         {\"name\":\"related#3.type\",\"kind\":\"token\",\"text\":\"x\"}],\"faults\":[\"pages: x2 cannot be read as a number: \
         1 to 8 digits, then perhaps a point and 1 to 9 digits.\"]}\n",
        "",
    );
    folder.change("sheet.bin", |sheet| {
        sheet[2] = 9;
        sum(sheet, 0);
    });
    folder.run(&["show", "sheet.bin"]).says(
        0,
        "sheet with 3 parameters\n\
         \x20 place  kind     name\n\
         \x20 0      kind 9?  pages\n\
         \x20 1      bundle   related\n\
         \x20 2      token    related.type\n\
         \x20 ! refused 3 at 0: The sheet breaks its layout, or the rules for its names or its bundles.\n\
         \x20 ! pages has kind 9, which no kind has.\n",
        "",
    );
}

/// Without a sheet, and of any bytes, something is shown.
#[test]
fn show_takes_any_bytes() {
    let folder = Folder::new("show-bytes");
    for first in [0x50, 0x51, 0x43, 0x44, 0] {
        for seed in 0..40_u32 {
            let byte = |at: u32| (at.wrapping_mul(2_654_435_761).wrapping_add(seed * 40_503) >> 13).to_le_bytes()[0];
            let noise: Vec<u8> = [first].into_iter().chain((1..512 + seed).map(byte)).collect();
            folder.write("noise.bin", noise);
            let said = folder.run(&["show", "noise.bin"]);
            assert_eq!((said.status, said.errors.as_str()), (0, ""));
            assert!(!said.output.is_empty());
        }
    }
}

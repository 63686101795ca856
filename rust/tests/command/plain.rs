//! `sirophan plain`.

use crate::folder::Folder;

#[test]
fn plain_spells_a_filter() {
    let folder = Folder::new("plain");
    let plain = |filter: &[u8]| folder.run_with(&["plain", "-"], filter);
    plain(b"  (title  co \"book\") and ((pages gt 12 or pages lt 3))\n").says(
        0,
        "title co book and (pages gt 12 or pages lt 3)\n",
        "",
    );
    plain(b"a eq \"\\/ \\t\"").says(0, "a eq \"/ \\t\"\n", "");
    folder.write("filter.txt", "not ( a eq b )\n").run(&["plain", "filter.txt"]).says(0, "not(a eq b)\n", "");
    let json = folder.run_with(&["plain", "--json", "-"], b"a  eq \"b c\"");
    json.says(0, "{\"filter\":\"a eq \\\"b c\\\"\",\"length\":10,\"changed\":true}\n", "");
    folder.run_with(&["plain", "--json", "-"], b"a eq b").says(
        0,
        "{\"filter\":\"a eq b\",\"length\":6,\"changed\":false}\n",
        "",
    );
}

#[test]
fn plain_refuses_what_is_no_filter() {
    let folder = Folder::new("plain-refused");
    let plain = |filter: &[u8]| folder.run_with(&["plain", "-"], filter);
    plain(b"").fails(
        2,
        "standard input: refused 10 at 0: The filter or search string is empty or longer than 1,024 bytes.\n  It has 0 bytes.\n",
    );
    plain(b"a eq").fails(
        2,
        "a eq\n    ^\nstandard input: refused 11 at 4: The text is no filter by the grammar: no filter goes on like this.\n\
         \x20 Here could stand a value. Words have a space before them.\n",
    );
    folder.run(&["plain", "a", "b"]).fails(1, "sirophan: 2 paths given. Usage: sirophan plain FILTER\n");
}

/// Two filters that differ in bytes that are no UTF-8 have two spellings in JSON too.
#[test]
fn plain_tells_bytes_apart() {
    let folder = Folder::new("plain-bytes");
    let plain = |filter: &[u8]| folder.run_with(&["plain", "--json", "-"], filter).output;
    assert_eq!(
        plain(b"a eq \"\xF6\""),
        "{\"filter\":{\"hex\":\"6120657120 22f622\"},\"length\":8,\"changed\":false}\n".replace(' ', "")
    );
    assert_ne!(plain(b"a eq \"\xF6\""), plain(b"a eq \"\xE4\""));
}

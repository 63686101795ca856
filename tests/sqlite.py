"""Asks the extension for SQLite what the second implementation has answered, and what only a database can be asked. The argument is the folder
with the extension and the generated questions. The last line is 'N passed, M failed'.
"""

import re
import sqlite3
import sys
from pathlib import Path

from sirophan import Sheet, sentence

FOLDER = Path(sys.argv[1])
passed = 0
failed = 0


def expect(what: str, answered: object, expected: object) -> None:
    global passed, failed
    if answered == expected:
        passed += 1
    else:
        failed += 1
        print(f"failed: {what}: {answered!r} where {expected!r} was expected")


def opened(encoding: str = "UTF-8") -> sqlite3.Connection:
    db = sqlite3.connect(":memory:")
    db.execute(f"PRAGMA encoding = '{encoding}'")
    db.enable_load_extension(True)
    db.load_extension(str(FOLDER / "sirophan"))
    return db


db = opened()


def asked(sql: str, *given: object, of: sqlite3.Connection = db) -> object:
    """The first column of the rows: the value of one row, a list of several; or the error."""
    try:
        rows = [row[0] for row in of.execute(sql, given)]
    except sqlite3.Error as error:
        return str(error)
    return rows[0] if len(rows) == 1 else rows


def told(name: str, answer: object) -> str:
    """An answer as the generated files have it; a refusal has the function's name before it, and its sentence behind it."""
    if isinstance(answer, bytes):
        return answer.hex()
    found = re.fullmatch(r"(\w+): (refused (\d+) at \d+): (.+)", str(answer))
    if not found:
        return str(answer)
    own = found[1] == name and found[4].startswith(sentence(int(found[3])))
    return found[2] if own else str(answer)


def lines(name: str) -> list:
    return [line.split("\t") for line in (FOLDER / name).read_text().splitlines()]


def cases() -> None:
    asks = ["check(:s, :f)", "match(:s, :f, :c)", "plain(:f)", "explain(:s, :f, :c)", "record(:c)", "check_search(:s, :t)", "search(:s, :t, :c)"]
    for number, line in enumerate(lines("cases")):
        sheet, filter, string, card = map(bytes.fromhex, line[:4])
        for ask, expected in zip(asks, line[4:]):
            name = "sirophan_" + ask.split("(")[0]
            try:
                answer = db.execute(f"SELECT sirophan_{ask}", {"s": sheet, "f": filter, "t": string, "c": card}).fetchone()[0]
            except sqlite3.Error as error:
                answer = error
            expect(f"case {number}, {name}", told(name, answer), expected)


def archives() -> None:
    db.execute("CREATE TABLE archive(card BLOB)")
    listing = "SELECT group_concat(record, ' ') FROM sirophan_select(?, ?, 'archive', 'card')"
    rows = "SELECT group_concat(sirophan_record(card), ' ') FROM archive WHERE sirophan_match(?, ?, card)"
    for number, (sheet, filter, cards, expected) in enumerate(lines("archives")):
        sheet, filter, cards = map(bytes.fromhex, (sheet, filter, cards))
        db.execute("DELETE FROM archive")
        db.executemany("INSERT INTO archive VALUES (?)", ([cards[at : at + 512]] for at in range(0, len(cards), 512)))
        answer = told("sirophan_select", asked(listing, sheet, filter))
        expect(f"archive {number}, sirophan_select", answer.replace("None", ""), expected)
        if cards:
            expect(f"archive {number}, WHERE", told("sirophan_match", asked(rows, sheet, filter)).replace("None", ""), expected)


SHEET = Sheet([("title", "string"), ("code", "token")])
OTHER = Sheet([("code", "token"), ("title", "string")])
CARDS = [SHEET.card(7, {"title": "Ward book 4"}), SHEET.card(19, {"title": "Str\u00f6m"}), SHEET.card(300, {"code": "x"})]
NO_MEANING = "refused 16 at 0: The operator has no meaning for a parameter of this kind."


def arguments() -> None:
    """NULL, other types and other sizes are told apart, and none of them is a no."""
    match = "SELECT sirophan_match(?, ?, ?)"
    sheet, card = SHEET.block, CARDS[0]
    expect("a yes", asked(match, sheet, "title co book", card), 1)
    expect("a no", asked(match, sheet, "title co x", card), 0)
    expect("a filter as a blob", asked(match, sheet, b"title co book", card), 1)
    for given, why in [
        ((sheet, "title co book", None), "the card is NULL"),
        ((sheet, None, card), "the filter is NULL"),
        ((None, "title co book", card), "the sheet is NULL"),
        ((sheet, "title co book", "text"), "the card is a text, and is to be a blob"),
        ((sheet, "title co book", 7), "the card is a number, and is to be a blob"),
        ((sheet, 7.5, card), "the filter is a number, and is to be a text or a blob"),
        ((sheet, "title co book", b""), "refused 20 at 0: " + sentence(20)),
        ((sheet, "title co book", card + b"x"), "refused 20 at 0: " + sentence(20)),
        ((sheet, "", card), "refused 10 at 0: " + sentence(10)),
        ((sheet, "title co " + "x" * 1016, card), "refused 10 at 0: " + sentence(10)),
        ((sheet[:511], "title co book", card), "refused 1 at 0: " + sentence(1)),
        ((sheet, "title co book", card[:-1] + b"\xff"), f"refused 21 at 0: {sentence(21)} The card has the record number 7."),
        ((sheet, "code lt 5", card), NO_MEANING),
    ]:
        expect(why, asked(match, *given), "sirophan_match: " + why)
    expect("a text stays a text", asked("SELECT sirophan_plain(?)", " title  co \u00e4"), "sirophan_plain: refused 11 at 11: " + sentence(11))
    expect("a text stays a text", asked("SELECT typeof(sirophan_plain(?))", " title  co x"), "text")
    expect("a blob stays a blob", asked("SELECT sirophan_plain(?)", b" title  co x"), b"title co x")
    expect("three arguments", asked("SELECT sirophan_match(?, ?)", sheet, "x"), "wrong number of arguments to function sirophan_match()")


def statements() -> None:
    """What is prepared for a statement is not taken for another sheet's or another filter's."""
    db.execute("CREATE TABLE cards(id INTEGER PRIMARY KEY, sheet BLOB, filter TEXT, card BLOB)")
    rows = [(SHEET.block, "title co book"), (OTHER.block, "title co ward"), (SHEET.block, "title co x"), (SHEET.block, "title co ward")]
    db.executemany("INSERT INTO cards(sheet, filter, card) VALUES (?, ?, ?)", [(*row, CARDS[0]) for row in rows])
    expect("a filter in each row", asked("SELECT id FROM cards WHERE sirophan_match(?, filter, card)", SHEET.block), [1, 2, 4])
    expect("a sheet in each row", asked("SELECT sirophan_match(sheet, 'title co book', card) FROM cards"), [1, 0, 1, 1])
    expect("both", asked("SELECT sirophan_match(sheet, filter, card) FROM cards"), [1, 0, 0, 1])
    expect("a sheet from a table", asked("SELECT count(*) FROM cards WHERE sirophan_match((SELECT sheet FROM cards), 'title co ward', card)"), 4)
    expect("no row is looked at", asked("SELECT count(*) FROM cards WHERE id > 9 AND sirophan_match(?, 'code lt 5', card)", SHEET.block), 0)


def listings() -> None:
    """The table that lists: whole lists, refusals without rows, and names as they are."""
    db.execute('CREATE TABLE "a ""b"" table"("the ""card""" BLOB NOT NULL)')
    select = "SELECT {} FROM sirophan_select(?, ?, ?, ?)"
    here = ('a "b" table', 'the "card"')
    expect("no rows", asked(select.format("count(*)"), SHEET.block, "title pr true", *here), 0)
    expect("a refusal without rows", asked(select.format("count(*)"), SHEET.block, "code lt 5", *here), "sirophan_select: " + NO_MEANING)
    string = asked("SELECT count(*) FROM sirophan_select_search(?, ?, ?, ?)", SHEET.block, "ward=A", *here)
    expect("the same by a search string", string, "sirophan_select_search: refused 14 at 0: " + sentence(14))
    db.executemany('INSERT INTO "a ""b"" table" VALUES (?)', [[card] for card in CARDS])
    expect("record numbers", asked(select.format("record"), SHEET.block, "title pr true", *here), [7, 19])
    expect("rows", asked(select.format("row"), SHEET.block, "title pr true", *here), [1, 2])
    expect("by a search string", asked("SELECT record FROM sirophan_select_search(?, ?, ?, ?)", SHEET.block, "title=str%C3%B6m", *here), 19)
    join = 'SELECT group_concat(length(t."the ""card""")) FROM sirophan_select(?, ?, ?, ?) s JOIN "a ""b"" table" t ON t.rowid = s.row'
    expect("joined", asked(join, SHEET.block, "title pr true", *here), "512,512")
    expect("arguments as columns", asked(select.format("question"), SHEET.block, "title co book", *here), "title co book")
    for given, why in [
        (("no table", "card"), "no such table: no table"),
        (("cards", "no column"), "no such column: cards.no column"),
        (("cards", None), "the column's name is NULL"),
        ((7, "card"), "the table's name is a number, and is to be a text or a blob"),
    ]:
        expect(why, asked(select.format("*"), SHEET.block, "title co book", *given), "sirophan_select: " + why)
    few = "sirophan_select takes four arguments: a sheet, a filter, the name of a table and that of its column of cards"
    expect("two arguments", asked("SELECT * FROM sirophan_select(?, ?)", SHEET.block, "title co book"), few)
    expect("no sheet", asked(select.format("*"), None, "title co book", *here), "sirophan_select: the sheet is NULL")
    db.execute("CREATE TABLE unnumbered(name TEXT PRIMARY KEY, card BLOB) WITHOUT ROWID")
    db.execute("CREATE VIEW viewed AS SELECT card FROM unnumbered")
    db.executemany("INSERT INTO unnumbered VALUES (?, ?)", zip("abc", CARDS))
    for name in ("unnumbered", "viewed"):
        expect(name, asked(select.format("record || ' ' || (row IS NULL)"), SHEET.block, "title co ward", name, "card"), "7 1")
    faulty(select)


def faulty(select: str) -> None:
    """A fault in the last row leaves no list."""
    for card, why in [
        (None, "a card is NULL, in the row 4"),
        ("text", "a card is a text, and is to be a blob, in the row 4"),
        (CARDS[0][:500], "refused 20 at 0: " + sentence(20)),
        (CARDS[0][:-1] + b"\xff", f"refused 21 at 0: {sentence(21)} The card has the record number 7."),
    ]:
        db.execute("CREATE TABLE faulty(card)")
        db.executemany("INSERT INTO faulty VALUES (?)", [[given] for given in (*CARDS, card)])
        rows = []
        try:
            rows.extend(db.execute(select.format("record"), (SHEET.block, "title pr true", "faulty", "card")))
        except sqlite3.Error as error:
            rows.append(str(error))
        expect(why, rows, ["sirophan_select: " + why])
        db.execute("DROP TABLE faulty")


def encodings() -> None:
    """A text is asked as UTF-8, however the database keeps it."""
    wide = opened("UTF-16le")
    expect("UTF-16", asked("SELECT sirophan_match(?, ?, ?)", SHEET.block, 'title eq "STR\u00d6M"', CARDS[1], of=wide), 1)
    expect("a plain spelling", asked("SELECT sirophan_plain(?)", 'title  eq "\u00d6"', of=wide), 'title eq "\u00d6"')
    wide.close()


cases()
archives()
arguments()
statements()
listings()
encodings()
db.close()
print(f"{passed} passed, {failed} failed")
sys.exit(failed > 0)

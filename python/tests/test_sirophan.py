"""Tests of the package as it is installed, with the standard library alone."""

import doctest
import random
import tempfile
import unittest
from pathlib import Path

import sirophan
from sirophan import Archive, Mark, Reason, Refused, Sheet

SHEET = Sheet(
    [
        ("title", "string"),
        ("birthdate", "date"),
        ("code", "token"),
        ("pages", "number"),
        ("related", "bundle"),
        ("related.type", "token"),
        ("related.target", "reference"),
    ]
)
CARDS = [
    SHEET.card(7, {"title": "Ward book 4", "birthdate": ["1974-06", "1980"], "code": "http://loinc.org|1234-5", "pages": "12.0"}),
    SHEET.card(19, {"title": "Ward book 5", "birthdate": "1975-01-31", "pages": "250"}),
    SHEET.card(300, [("title", "Ström"), ("related#1.type", "sequel-to"), ("related#2.target", b"Observation/5")]),
]
RUN = b"".join(CARDS)


def drawn_filter(draw, levels, bundle=False):
    """Some filter, with up to three items."""
    items = [drawn_item(draw, levels, bundle) for _ in range(draw.randint(1, 3))]
    joined = items[0]
    for item in items[1:]:
        joined += draw.choice([" and ", " or ", "  or  "]) + item
    return draw.choice(["", " "]) + joined + draw.choice(["", " "])


def drawn_item(draw, levels, bundle):
    if levels and draw.random() < 0.4:
        return draw.choice(["(", "not(", "not  ("]) + drawn_filter(draw, levels - 1, bundle) + ")"
    value = draw.choice(["not", "(", "and", '"]"', '"a\\"b) or"', '""', '"\\\\"', '"not ("', "x[y"])
    if bundle:
        return "type eq " + draw.choice(["x", "or", "(", '"]"'])
    if levels and draw.random() < 0.3:
        return f"related[{drawn_filter(draw, levels - 1, True)}].target pr true"
    return f"title {draw.choice(['eq', 'co', 'ne'])}  {value}"


def explain_into_nothing(filter):
    answer = sirophan._library.sirophan_explain(SHEET.block, 512, filter, len(filter), CARDS[0], 512, None, 0)
    raise Refused(answer.refusal, answer.value)


class Operations(unittest.TestCase):
    def refused(self, number, place, call, *arguments):
        with self.assertRaises(Refused) as caught:
            call(*arguments)
        self.assertEqual((caught.exception.number, caught.exception.place), (number, place))
        return caught.exception

    def test_answers(self):
        self.assertEqual(sirophan.check(SHEET.block, "title pr true or pages gt 20"), 2)
        self.assertIs(sirophan.matches(SHEET.block, b"title co BOOK", CARDS[0]), True)
        self.assertIs(sirophan.matches(SHEET.block, 'title eq "STRÖM"', CARDS[2]), True)
        self.assertEqual(sirophan.select(SHEET.block, "title co book", RUN), [7, 19])
        self.assertEqual(sirophan.select(SHEET.block, "title co book", b""), [])
        self.assertEqual(sirophan.select(SHEET.block, "related[type eq sequel-to].type pr true", memoryview(RUN)), [300])
        self.assertEqual(sirophan.search(SHEET.block, "birthdate=ge1974&title=ward", RUN), [7, 19])
        self.assertEqual(sirophan.check_search(SHEET.block, "birthdate=1974,1980"), 2)
        self.assertIs(sirophan.matches_search(SHEET.block, "title=str%C3%B6m", CARDS[2]), True)
        self.assertEqual(sirophan.plain("  (title co \"book\")  and pages gt 12"), b"title co book and pages gt 12")

    def test_report(self):
        report = sirophan.report(SHEET.block, "pages gt 100", RUN)
        self.assertEqual((report.yes, report.no), (1, 2))
        self.assertEqual(len(report.tallies), 7)
        self.assertEqual(report.tallies[1], (2, 3))

    def test_explanations(self):
        filter = 'title co "a \\"b) or" or related[type eq "]" and not (type eq x)].type pr true or not ( pages gt 100 )'
        explanation = sirophan.explain(SHEET.block, filter, CARDS[0])
        self.assertTrue(explanation.matches)
        tests = [(test.test.decode(), test.mark) for test in explanation.tests]
        self.assertEqual(
            tests,
            [
                ('title co "a \\"b) or"', Mark.SPARED),
                ('related[type eq "]" and not (type eq x)].type pr true', Mark.SPARED),
                ("pages gt 100", Mark.NO),
            ],
        )
        for place, test, _ in explanation.tests:
            self.assertEqual(filter.encode()[place : place + len(test)], test)

    def test_tests_are_where_the_library_has_them(self):
        draw = random.Random(38)
        drawn = [drawn_filter(draw, 2) for _ in range(2000)]
        for filter in drawn:
            if filter.count("title") + filter.count("type") + filter.count("related") > 32:
                continue
            tests = sirophan.explain(SHEET.block, filter, CARDS[0]).tests
            # with no cells there is a refusal that tells how many tests there are
            self.refused(33, len(tests), explain_into_nothing, filter.encode())
            for _, test, _ in tests:
                sirophan.check(SHEET.block, test)

    def test_refusals(self):
        refusal = self.refused(16, 17, sirophan.check, SHEET.block, "title pr true or code gt 5")
        self.assertIs(refusal.reason, Reason.NO_MEANING)
        self.assertEqual(str(refusal), "refused 16 at 17: The operator has no meaning for a parameter of this kind.")
        self.assertEqual(refusal.render(), f"title pr true or code gt 5\n{' ' * 17}^\n{refusal}")
        self.refused(1, 0, sirophan.check, b"", "title pr true")
        self.refused(10, 0, sirophan.check, SHEET.block, "")
        self.refused(20, 0, sirophan.matches, SHEET.block, "title pr true", RUN)
        self.refused(21, 1, sirophan.select, SHEET.block, "title pr true", CARDS[0] + CARDS[1][:-1] + b"\1")
        self.refused(50, 0, sirophan.search, SHEET.block, "title", b"")
        self.refused(11, 8, sirophan.plain, "pages eq")
        self.assertIsNone(Refused(19, 0).reason)

    def test_reasons_are_the_library_s(self):
        unknown = sirophan.sentence(2**32 - 1)
        known = [number for number in range(1, 1000) if sirophan.sentence(number) != unknown]
        self.assertEqual(known, sorted(Reason))

    def test_long_texts_are_cut_around_the_place(self):
        filter = "title eq " + "x" * 100 + " or code gt 5 or " + " or ".join(["pages eq 1"] * 9)
        shown = self.refused(16, 113, sirophan.check, SHEET.block, filter).render().split("\n")
        self.assertEqual(shown[0][shown[1].index("^") :][:9], "code gt 5")
        self.assertTrue(shown[0].startswith("...") and shown[0].endswith("..."))


class Blocks(unittest.TestCase):
    def test_blocks_of_the_rules(self):
        sheet = Sheet([("title", "string"), ("birthdate", "date")])
        card = sheet.card(300, {"title": "Ward book 4", "birthdate": "1974-06"})
        self.assertEqual(card[508:], (22231).to_bytes(4, "little"))
        self.assertEqual(sirophan.record(card), 300)
        self.assertEqual(sirophan.seal(card[:508] + b"\0\0\0\0"), card)

    def test_what_is_built_is_read(self):
        self.assertEqual(Sheet.read(SHEET.block).parameters, SHEET.parameters)
        self.assertEqual(SHEET.entries(CARDS[0])[1:3], [("birthdate", b"1974-06"), ("birthdate", b"1980")])
        self.assertEqual(SHEET.entries(CARDS[2])[1:], [("related#1.type", b"sequel-to"), ("related#2.target", b"Observation/5")])
        with self.assertRaises(ValueError):
            Sheet.read(CARDS[0])
        with self.assertRaises(Refused):
            SHEET.entries(b"")

    def test_what_has_no_room(self):
        with self.assertRaises(ValueError):
            SHEET.card(1, {"title": "x" * 256})
        with self.assertRaises(ValueError):
            SHEET.card(1, {"title": ["x" * 250] * 3})
        with self.assertRaises(OverflowError):
            SHEET.card(2**32, {})
        with self.assertRaises(KeyError):
            SHEET.card(1, {"ward": "4"})
        with self.assertRaises(ValueError):
            Sheet([("title", "text")])
        with self.assertRaises(Refused):
            sirophan.seal(b"")

    def test_any_bytes_can_be_taken_apart(self):
        for first in (0x43, 0x44):
            for filling in (0, 1, 37, 255):
                SHEET.entries(bytes([first]) + bytes([filling]) * 511)


WARDS = Sheet([("title", "string"), ("ward", "token"), ("pages", "number")])


class Queries(unittest.TestCase):
    # two cards have each record number
    CARDS = b"".join(WARDS.card(n // 2, {"ward": "ABC"[n % 3], "pages": str(n // 3)}) for n in range(120))

    def selected(self, text):
        return sirophan.Query(WARDS.block, text).select(self.CARDS)

    def refused(self, text):
        with self.assertRaises(Refused, msg=text) as caught:
            sirophan.Query(WARDS.block, text).check()
        return caught.exception.part, caught.exception.number, caught.exception.place

    def test_all_are_met(self):
        self.assertEqual(self.selected("ward=A"), [n // 2 for n in range(120) if n % 3 == 0])
        self.assertEqual(self.selected("_filter=pages+gt+30&ward=A"), [n // 2 for n in range(120) if n % 3 == 0 and n // 3 > 30])
        self.assertEqual(self.selected("%5Ffilter=pages+gt+30&_filter=pages+lt+32&_summary=count"), [46, 47, 47])
        query = sirophan.Query(WARDS.block, "_format=json&ward=A&_filter=pages%20eq%200&_total=accurate")
        self.assertEqual((query.is_for_count, query.is_for_json, query.check()), (False, True, 2))
        self.assertEqual([query.matches(self.CARDS[at : at + 512]) for at in (0, 512, 1536)], [True, False, False])

    def test_the_first_fault(self):
        for text, expected in [
            ("_filter=ward+gt+5&_count=1", ("_filter", 16, 0)),
            ("_count=1&_filter=ward+gt+5", ("the pairs", 14, 0)),
            ("ward=A&_filter=ward+gt+5&_count=1", ("_filter", 16, 0)),
            ("ward=A&_filter=ward+eq+5&_count=1", ("the pairs", 14, 7)),
            ("_filter=ward+eq+5&_filter=ward+eq+5+and+ward+gt+5", ("_filter 2", 16, 14)),
            ("_filter=%zz&_filter=x", ("the pairs", 50, 0)),
            ("_filter=ward+eq+5&", ("the pairs", 10, 0)),
            ("_summary=count", ("the pairs", 10, 0)),
            ("_summary=text", ("the pairs", 14, 0)),
            ("", ("the pairs", 10, 0)),
        ]:
            self.assertEqual(self.refused(text), expected, text)

    def test_names_of_the_sheet(self):
        sheet = Sheet([("_filter", "token"), ("_summary", "token")])
        query = sirophan.Query(sheet.block, "_filter=x&_summary=count")
        self.assertEqual((query.check(), query.is_for_count, [part.name for part in query.parts]), (2, False, ["the pairs"]))
        with self.assertRaises(Refused) as caught:
            sirophan.Query(b"", "_filter=x").check()
        self.assertEqual((caught.exception.part, caught.exception.number), (None, 1))

    def test_nothing_is_dropped(self):
        """Each item of a drawn query asked by itself, and the answers put together."""
        draw = random.Random(41)
        filters = ["pages gt 5", "pages lt 30", "ward eq A or ward eq B", "not (ward eq C)", "ward gt 5", "pages"]
        pairs = ["ward=A,B", "pages=lt30", "pages=ge3", "title=x", "_count=1", "ward", "_summary=count", "_total=accurate"]
        listed = 0
        for _ in range(300):
            items = draw.sample(filters, draw.randint(0, 3)) + draw.sample(pairs, draw.randint(1, 3))
            draw.shuffle(items)
            text = "&".join(item if item in pairs else "_filter=" + item.replace(" ", draw.choice(["+", "%20"])) for item in items)
            alone = [self.alone(item, item in pairs) for item in items if item not in ("_summary=count", "_total=accurate")]
            try:
                answer = self.selected(text)
                listed += len(answer) > 0
            except Refused:
                answer = None
            whole = None if None in alone or not alone else [n // 2 for n in range(120) if all(n in found for found in alone)]
            self.assertEqual(answer, whole, text)
        self.assertGreater(listed, 20)

    def alone(self, item, is_pair):
        """The cards that an item finds by itself, or none where it is refused."""
        asked = sirophan.matches_search if is_pair else sirophan.matches
        try:
            return {n for n in range(120) if asked(WARDS.block, item, self.CARDS[n * 512 : (n + 1) * 512])}
        except Refused:
            return None


class Archives(unittest.TestCase):
    def setUp(self):
        folder = tempfile.TemporaryDirectory()
        self.addCleanup(folder.cleanup)
        self.folder = Path(folder.name)
        (self.folder / "sheet.bin").write_bytes(SHEET.block)

    def write(self, cards):
        (self.folder / "cards.bin").write_bytes(b"".join(cards))

    def test_files_of_several_runs(self):
        for count in (0, 1, 127, 128, 129, 300):
            # five cards have each record number, and every third matches
            self.write(SHEET.card(index // 5, {"pages": "7" if index % 3 else "100"}) for index in range(count))
            archive = Archive(self.folder)
            expected = [(index, index // 5) for index in range(0, count, 3)]
            self.assertEqual(list(archive.select("pages gt 50")), expected)
            self.assertEqual(list(archive.search("pages=gt50")), expected)
            self.assertEqual(list(archive.query("_filter=pages+gt+50&pages=gt60")), expected)
            self.assertEqual(list(Archive(str(self.folder / "cards.bin")).select("pages gt 50")), expected)
            self.assertEqual(archive.cards_read, count)

    def test_faults(self):
        self.write([SHEET.card(1, {"pages": "7"})] * 200 + [CARDS[0][:-1] + b"\1"])
        archive = Archive(self.folder / "cards.bin", SHEET.block)
        with self.assertRaises(Refused) as caught:
            list(archive.select("pages pr true"))
        self.assertEqual((caught.exception.number, caught.exception.place), (21, 200))
        with self.assertRaises(Refused):
            archive.select("ward eq 4")  # before any card is read
        self.assertEqual(archive.parameters().parameters, SHEET.parameters)
        with self.assertRaises(FileNotFoundError):
            Archive(self.folder / "none")


def load_tests(loader, tests, pattern):
    tests.addTests(doctest.DocTestSuite(sirophan))
    tests.addTests(doctest.DocTestSuite(sirophan._query))
    return tests


if __name__ == "__main__":
    unittest.main()

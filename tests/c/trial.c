/*
 * Uses the C interface on the trial archive and checks the answers.
 * The last line is 'N passed, M failed'; the status is 0 exactly when M is 0.
 */
#include <stdio.h>
#include <string.h>

#include "sirophan.h"

enum { BLOCK = 512, SUMMED = 508, CARDS = 3, UNTOUCHED = 999 };

static int passed, failed;

/* A block that is being written. */
typedef struct block {
    uint8_t bytes[BLOCK];
    size_t end;
} block;

static void put_entry(block *b, uint8_t head, const char *text) {
    size_t length = strlen(text);
    b->bytes[b->end] = head;
    b->bytes[b->end + 1] = (uint8_t)length;
    memcpy(b->bytes + b->end + 2, text, length);
    b->end += 2 + length;
}

static void store_sum(block *b) {
    uint32_t sum = 0;
    for (uint32_t place = 0; place < SUMMED; place++) sum += b->bytes[place] * (place + 1);
    for (int i = 0; i < 4; i++) b->bytes[SUMMED + i] = (uint8_t)(sum >> (8 * i));
}

static block trial_sheet(void) {
    block b = {.bytes = {0x50, 5}, .end = 2};
    put_entry(&b, 1, "title");
    put_entry(&b, 3, "birthdate");
    put_entry(&b, 4, "code");
    put_entry(&b, 2, "pages");
    put_entry(&b, 5, "subject");
    store_sum(&b);
    return b;
}

/* A card of the trial archive: the values are in the sheet's order, and one that is NULL is left out. */
static block card(uint32_t record, const char *const texts[5], const char *second_date) {
    block b = {.bytes = {0x43, (uint8_t)record, (uint8_t)(record >> 8)}, .end = 6};
    for (uint8_t place = 0; place < 5; place++) {
        if (texts[place] == NULL) continue;
        put_entry(&b, place, texts[place]);
        b.bytes[5]++;
    }
    if (second_date != NULL) {
        put_entry(&b, 1, second_date);
        b.bytes[5]++;
    }
    store_sum(&b);
    return b;
}

static void expect(const char *what, sirophan_answer answer, uint32_t refusal, size_t value) {
    if (answer.refusal == refusal && answer.value == value) {
        passed++;
        return;
    }
    failed++;
    printf("%s: refusal %lu, value %zu; expected %lu, %zu\n", what, (unsigned long)answer.refusal, answer.value,
           (unsigned long)refusal, value);
}

static void expect_cells(const char *what, const uint32_t *list, const uint32_t *wanted, size_t cells) {
    if (memcmp(list, wanted, cells * sizeof *list) == 0) {
        passed++;
        return;
    }
    failed++;
    printf("%s: cells", what);
    for (size_t i = 0; i < cells; i++) printf(" %lu", (unsigned long)list[i]);
    printf("\n");
}

static void expect_bytes(const char *what, const uint8_t *buffer, const char *wanted, size_t length) {
    if (memcmp(buffer, wanted, length) == 0) {
        passed++;
        return;
    }
    failed++;
    printf("%s: %.*s\n", what, (int)length, (const char *)buffer);
}

static void expect_counts(const char *what, sirophan_counts counts, uint32_t refusal, size_t place, size_t yes, size_t no) {
    if (counts.refusal == refusal && counts.place == place && counts.yes == yes && counts.no == no) {
        passed++;
        return;
    }
    failed++;
    printf("%s: refusal %lu at %zu, yes %zu, no %zu\n", what, (unsigned long)counts.refusal, counts.place, counts.yes,
           counts.no);
}

static void expect_rows(const char *what, const sirophan_tally *rows, const sirophan_tally *wanted, size_t count) {
    if (memcmp(rows, wanted, count * sizeof *rows) == 0) {
        passed++;
        return;
    }
    failed++;
    printf("%s: rows", what);
    for (size_t i = 0; i < count; i++) printf(" %lu/%lu", (unsigned long)rows[i].cards, (unsigned long)rows[i].values);
    printf("\n");
}

/* A filter, and what match answers to it for card 7. */
typedef struct row {
    const char *filter;
    uint32_t refusal;
    size_t value;
} row;

static const row trial_table[] = {
    {"title co \"BOOK\"", 0, 1},
    {"birthdate le 1974-06", 0, 1},
    {"birthdate lt 1974-06", 0, 0},
    {"birthdate eb 1974-07", 0, 1},
    {"birthdate eq 1974", 0, 1},
    {"birthdate ne 1980", 0, 1},
    {"not (birthdate eq 1980)", 0, 0},
    {"pages eq 12", 0, 1},
    {"pages ge 12", 0, 1},
    {"pages co 12.04", 0, 1},
    {"pages co 12.05", 0, 0},
    {"code eq LOINC|1234-5", 0, 1},
    {"title pr true or pages gt 20 and pages gt 30", 0, 0},
    {"code gt 5", SIROPHAN_NO_MEANING, 0},
    {"pages gt twelve", SIROPHAN_UNREADABLE, 0},
    {"ward eq 4", SIROPHAN_UNKNOWN_NAME, 0},
    {"title ap x", SIROPHAN_UNSUPPORTED, 0},
    {"title eq", SIROPHAN_NO_FILTER, 8},
    {"title eq \"a\"b", SIROPHAN_NO_FILTER, 12},
    {"title pr true or code gt 5", SIROPHAN_NO_MEANING, 17},
};

int main(void) {
    block sheet = trial_sheet();
    block archive[CARDS] = {
        card(7, (const char *const[5]){"Ward book 4", "1974-06", "http://loinc.org|1234-5", "12.0", "Patient/17"},
             "1980"),
        card(19, (const char *const[5]){"Ward book 5", "1975-01-31", "1234-5", "250", NULL}, NULL),
        card(300, (const char *const[5]){"ward BOOK 40", "1974-06-30T23:00:00Z", NULL, "12", "Patient/17"}, NULL),
    };
    uint8_t cards[CARDS * BLOCK];
    for (size_t i = 0; i < CARDS; i++) memcpy(cards + i * BLOCK, archive[i].bytes, BLOCK);

#define SHEET sheet.bytes, BLOCK
#define FILTER(text) (const uint8_t *)(text), strlen(text)

    for (size_t i = 0; i < sizeof trial_table / sizeof *trial_table; i++) {
        row r = trial_table[i];
        expect(r.filter, sirophan_match(SHEET, FILTER(r.filter), cards, BLOCK), r.refusal, r.value);
        expect(r.filter, sirophan_match_by_text(SHEET, FILTER(r.filter), cards, BLOCK), r.refusal, r.value);
    }
    expect("three tests", sirophan_check(SHEET, FILTER("title pr true or (pages gt 20 and pages gt 30)")), 0, 3);
    expect("empty filter", sirophan_check(SHEET, FILTER("")), SIROPHAN_FILTER_SIZE, 0);
    expect("short sheet", sirophan_check(sheet.bytes, BLOCK - 1, FILTER("title pr true")), SIROPHAN_SHEET_SIZE, 0);
    expect("a card as sheet", sirophan_check(cards, BLOCK, FILTER("title pr true")), SIROPHAN_SHEET_LAYOUT, 0);
    expect("short card", sirophan_match(SHEET, FILTER("title pr true"), cards, BLOCK - 1), SIROPHAN_CARD_SIZE, 0);

    const char *filter = "title sw \"ward book 4\"";
    uint32_t list[4] = {UNTOUCHED, UNTOUCHED, UNTOUCHED, UNTOUCHED};
    expect("list too short", sirophan_select(SHEET, FILTER(filter), cards, sizeof cards, list, 1),
           SIROPHAN_SHORT_LIST, 2);
    expect_cells("list too short", list, (const uint32_t[4]){UNTOUCHED, UNTOUCHED, UNTOUCHED, UNTOUCHED}, 4);
    expect("two of three", sirophan_select(SHEET, FILTER(filter), cards, sizeof cards, list, 3), 0, 2);
    expect_cells("two of three", list, (const uint32_t[4]){7, 300, UNTOUCHED, UNTOUCHED}, 4);
    expect("no cards", sirophan_select(SHEET, FILTER(filter), cards, 0, list, 0), 0, 0);

    /* Both engines do the same, and a number that is neither's stands for rows. */
    const uint32_t engines[3] = {SIROPHAN_ENGINE_ROWS, SIROPHAN_ENGINE_TEXT, UINT32_MAX};
    for (size_t i = 0; i < 3; i++) {
        uint32_t cells[3] = {UNTOUCHED, UNTOUCHED, UNTOUCHED};
        expect("engine: list too short", sirophan_select_by(engines[i], SHEET, FILTER(filter), cards, sizeof cards, cells, 1),
               SIROPHAN_SHORT_LIST, 2);
        expect("engine: senseless", sirophan_select_by(engines[i], SHEET, FILTER("pages gt 1 or code gt 5"), cards, 0, cells, 0),
               SIROPHAN_NO_MEANING, 14);
        expect_cells("engine: list too short", cells, (const uint32_t[3]){UNTOUCHED, UNTOUCHED, UNTOUCHED}, 3);
        expect("engine: two of three", sirophan_select_by(engines[i], SHEET, FILTER(filter), cards, sizeof cards, cells, 3), 0, 2);
        expect_cells("engine: two of three", cells, (const uint32_t[3]){7, 300, UNTOUCHED}, 3);
    }

    uint8_t buffer[12];
    memset(buffer, '.', sizeof buffer);
    expect("spelled", sirophan_spell(FILTER("( title  eq \"a\" )"), buffer, sizeof buffer, 1), 0, 10);
    expect_bytes("spelled", buffer, ".title eq a.", sizeof buffer);
    expect("buffer too short", sirophan_spell(FILTER("pages eq 1"), buffer, sizeof buffer, 3), SIROPHAN_SHORT_BUFFER, 10);
    expect("past the buffer", sirophan_spell(FILTER("pages eq 1"), buffer, sizeof buffer, 13), SIROPHAN_SHORT_BUFFER, 10);
    expect("no filter to spell", sirophan_spell(FILTER("pages eq"), buffer, sizeof buffer, 0), SIROPHAN_NO_FILTER, 8);
    expect_bytes("not spelled", buffer, ".title eq a.", sizeof buffer);

#define OLD {UNTOUCHED, UNTOUCHED}
    sirophan_tally rows[7] = {OLD, OLD, OLD, OLD, OLD, OLD, OLD};
    expect_counts("rows too few", sirophan_report(SHEET, FILTER(filter), cards, sizeof cards, rows, 4),
                  SIROPHAN_SHORT_ROWS, 5, 0, 0);
    expect_rows("rows too few", rows, (const sirophan_tally[7]){OLD, OLD, OLD, OLD, OLD, OLD, OLD}, 7);
    expect_counts("a report", sirophan_report(SHEET, FILTER(filter), cards, sizeof cards, rows, 6), 0, 0, 2, 1);
    expect_rows("a report", rows, (const sirophan_tally[7]){{3, 3}, {3, 4}, {2, 2}, {3, 3}, {2, 2}, OLD, OLD}, 7);
    expect_counts("a report on no cards", sirophan_report(SHEET, FILTER(filter), cards, 0, rows, 5), 0, 0, 0, 0);
    expect_rows("a report on no cards", rows, (const sirophan_tally[7]){{0, 0}, {0, 0}, {0, 0}, {0, 0}, {0, 0}, OLD, OLD},
                7);

    expect("search: check", sirophan_check_search(SHEET, FILTER("birthdate=ge1974,1980&title=ward")), 0, 3);
    expect("search: match", sirophan_match_search(SHEET, FILTER("birthdate=ge1974&title=ward"), cards, BLOCK), 0, 1);
    expect("search: no pair", sirophan_check_search(SHEET, FILTER("title=a&")), SIROPHAN_NO_PAIR, 8);
    expect("search: first alternative", sirophan_check_search(SHEET, FILTER("pages=abc,sa5")), SIROPHAN_UNREADABLE, 0);
    expect("search: list too short", sirophan_select_search(SHEET, FILTER("title="), cards, sizeof cards, list, 0),
           SIROPHAN_SHORT_LIST, 3);

    /* The filter is read once, and its rows are judged on each card. */
    const char *joined = "title co book and not (pages gt 100) or subject re Patient/17";
    uint32_t prepared[8] = {UNTOUCHED, UNTOUCHED, UNTOUCHED, UNTOUCHED, UNTOUCHED, UNTOUCHED, UNTOUCHED, UNTOUCHED};
    expect("rows too long", sirophan_prepare(SHEET, FILTER(joined), prepared, 5), SIROPHAN_SHORT_CELLS, 6);
    expect("rows of a senseless filter", sirophan_prepare(SHEET, FILTER("code gt 5"), prepared, 0), SIROPHAN_NO_MEANING, 0);
    expect_cells("rows too long", prepared, (const uint32_t[2]){UNTOUCHED, UNTOUCHED}, 2);
    expect("six rows", sirophan_prepare(SHEET, FILTER(joined), prepared, 8), 0, 6);
    /* a test; and over two rows; a test; not; or over one row; a test */
    expect_cells("six rows", prepared + 1, (const uint32_t[1]){8 * 2 + 3}, 1);
    expect_cells("six rows", prepared + 3, (const uint32_t[2]){2, 8 * 1 + 4}, 2);
    expect_cells("six rows", prepared + 6, (const uint32_t[2]){UNTOUCHED, UNTOUCHED}, 2);
    expect("row of a test", (sirophan_answer){0, prepared[0]}, 0, 8 * (0 + 32 * (2 + 32 * 9)));
    expect("card 7 judged", sirophan_judge(SHEET, FILTER(joined), prepared, 6, cards, BLOCK), 0, 1);
    expect("card 19 judged", sirophan_judge(SHEET, FILTER(joined), prepared, 6, cards + BLOCK, BLOCK), 0, 0);
    expect("card 300 judged", sirophan_judge(SHEET, FILTER(joined), prepared, 6, cards + 2 * BLOCK, BLOCK), 0, 1);
    expect("a part of the rows", sirophan_judge(SHEET, FILTER(joined), prepared, 4, cards + BLOCK, BLOCK), 0, 0);
    expect("rows that do not join", sirophan_judge(SHEET, FILTER(joined), prepared, 5, cards, BLOCK), SIROPHAN_BAD_ROWS, 0);
    expect("no rows", sirophan_judge(SHEET, FILTER(joined), prepared, 0, cards, BLOCK), SIROPHAN_BAD_ROWS, 0);
    expect("rows of another filter", sirophan_judge(SHEET, FILTER("title eq a"), prepared, 6, cards, BLOCK),
           SIROPHAN_BAD_ROWS, 0);
    expect("rows and no filter", sirophan_judge(SHEET, FILTER(""), prepared, 6, cards, BLOCK), SIROPHAN_FILTER_SIZE, 0);
    expect("rows and a short card", sirophan_judge(SHEET, FILTER(joined), prepared, 6, cards, 7), SIROPHAN_CARD_SIZE, 0);

    /* The tests that decide, with their own verdicts. */
    uint8_t marks[4] = {9, 9, 9, 9};
    expect("too few cells", sirophan_explain(SHEET, FILTER(joined), cards, BLOCK, marks, 2), SIROPHAN_SHORT_MARKS, 3);
    expect_bytes("too few cells", marks, "\11\11\11\11", 4);
    expect("card 7 explained", sirophan_explain(SHEET, FILTER(joined), cards, BLOCK, marks, 4), 0, 1);
    expect_bytes("card 7 explained", marks, "\1\2\0\11", 4);
    expect("card 19 explained", sirophan_explain(SHEET, FILTER(joined), cards + BLOCK, BLOCK, marks, 3), 0, 0);
    expect_bytes("card 19 explained", marks, "\0\1\2\11", 4);
    expect("a short card explained", sirophan_explain(SHEET, FILTER(joined), cards, 7, marks, 0), SIROPHAN_CARD_SIZE, 0);

    cards[2 * BLOCK] ^= 1;
    expect_counts("a report with the third card damaged",
                  sirophan_report(SHEET, FILTER(filter), cards, sizeof cards, rows, 0), SIROPHAN_CARD_SUM, 2, 0, 0);
    expect("third card damaged", sirophan_select(SHEET, FILTER(filter), cards, sizeof cards, list, 4),
           SIROPHAN_CARD_SUM, 2);
    expect_cells("third card damaged", list, (const uint32_t[4]){7, 300, UNTOUCHED, UNTOUCHED}, 4);

    sheet.bytes[2] = 4;
    expect("sheet damaged", sirophan_match(SHEET, FILTER(filter), cards, BLOCK), SIROPHAN_SHEET_SUM, 0);
    /* The title is now a token, for which sw has no meaning: a refusal, not a quiet no. */
    store_sum(&sheet);
    expect("title as a token", sirophan_match(SHEET, FILTER(filter), cards, BLOCK), SIROPHAN_NO_MEANING, 0);

    /* The date of birth is now a period, which no date by itself is on a card; in a filter it is asked by a date. */
    sheet.bytes[9] = 6;
    store_sum(&sheet);
    expect("a date as a period", sirophan_match(SHEET, FILTER("birthdate eq 1974"), cards, BLOCK),
           SIROPHAN_CARD_MISFIT, 0);
    expect("a period asked", sirophan_check(SHEET, FILTER("birthdate eq 1974/")), SIROPHAN_UNREADABLE, 0);
    block stay = card(9, (const char *const[5]){"1234-5", "1974/", NULL, NULL, NULL}, NULL);
    expect("an open period", sirophan_match(SHEET, FILTER("birthdate gt 1999"), stay.bytes, BLOCK), 0, 1);
    expect("never eq", sirophan_match(SHEET, FILTER("birthdate eq 1974"), stay.bytes, BLOCK), 0, 0);

    printf("%d passed, %d failed\n", passed, failed);
    return failed == 0 ? 0 : 1;
}

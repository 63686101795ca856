/*
 * What a caller has to know beside the answers: the version, the sentences, blocks that a program makes, pointers that are
 * NULL, and how much stack a call takes. It is compiled as C and as C++.
 * The last line is 'N passed, M failed'; the status is 0 exactly when M is 0.
 */
#ifndef _XOPEN_SOURCE
#define _XOPEN_SOURCE 700 /* for pthread_attr_setstack */
#endif
#include <pthread.h>
#include <stdio.h>
#include <stdlib.h>
#include <string.h>

#include "sirophan.h"

enum { SUMMED = 508, STACK = 1 << 18, PAINT = 0xA5, MOST_REASONS = 60 };

/* What a cell of rows says in its lowest three bits, beside the number of rows that it goes over: docs/RULES.md, "Rows". */
enum { BRACKETS = 1, AND = 3 };

static int passed, failed;

static void expect(const char *what, int holds) {
    if (holds) {
        passed++;
        return;
    }
    failed++;
    printf("failed: %s\n", what);
}

static int is(sirophan_answer answer, uint32_t refusal, size_t value) {
    return answer.refusal == refusal && answer.value == value;
}

static int same(sirophan_answer one, sirophan_answer other) {
    return is(one, other.refusal, other.value);
}

/* An archive with a parameter of each kind, and a run of as many cards as a run may have. */
static uint8_t sheet[SIROPHAN_BLOCK];
static uint8_t cards[SIROPHAN_RUN * SIROPHAN_BLOCK];

/* A block that is being written: its bytes, and where it goes on. */
typedef struct draft {
    uint8_t *bytes;
    size_t end;
} draft;

static void put(draft *d, int byte) {
    d->bytes[d->end++] = (uint8_t)byte;
}

static void put_item(draft *d, int first, int mark, const char *text) {
    put(d, first);
    put(d, mark);
    put(d, (int)strlen(text));
    while (*text != '\0') put(d, *text++);
}

static void make_sheet(void) {
    static const char *const names[] = {"s", "n", "d", "t", "r", "p", "b", "m"};
    static const int kinds[] = {SIROPHAN_STRING,    SIROPHAN_NUMBER, SIROPHAN_DATE,   SIROPHAN_TOKEN,
                                SIROPHAN_REFERENCE, SIROPHAN_PERIOD, SIROPHAN_BUNDLE, SIROPHAN_TOKEN};
    draft d = {sheet, 0};
    put(&d, SIROPHAN_BUNDLE_SHEET);
    put(&d, 8);
    for (int i = 0; i < 8; i++) put_item(&d, kinds[i], i == 7 ? 7 : 0, names[i]);
    sirophan_seal(sheet, sizeof sheet);
}

static void make_card(uint8_t *card, int record) {
    static const char *const texts[] = {"Ward book 4", "12.0", "1974-06", "http://loinc.org|1234-5", "Patient/17", "1974/1975-06"};
    draft d = {card, 0};
    put(&d, SIROPHAN_BUNDLE_CARD);
    put(&d, record);
    put(&d, 0);
    put(&d, 0);
    put(&d, 1);
    put(&d, 8);
    for (int i = 0; i < 6; i++) put_item(&d, i, 0, texts[i]);
    put_item(&d, 7, 1, "x");
    put_item(&d, 7, 2, "y");
    sirophan_seal(card, SIROPHAN_BLOCK);
}

#define ARCHIVE sheet, sizeof sheet
#define TEXT(text) (const uint8_t *)(text), strlen(text)

static void versions_and_reasons(void) {
    expect("the library's version is the header's", strcmp(sirophan_version(), SIROPHAN_VERSION) == 0);
    const char *unknown = sirophan_reason(UINT32_MAX);
    int known = 0;
    for (uint32_t number = 0; number < MOST_REASONS; number++) {
        const char *sentence = sirophan_reason(number);
        known += strcmp(sentence, unknown) != 0;
        expect("a sentence ends with a full stop", sentence[strlen(sentence) - 1] == '.');
    }
    expect("24 refusals and none", known == 25);
    expect("16", strcmp(sirophan_reason(SIROPHAN_NO_MEANING), "The operator has no meaning for a parameter of this kind.") == 0);
}

static void blocks(void) {
    uint8_t block[SIROPHAN_BLOCK], before[SIROPHAN_BLOCK];
    for (size_t i = 0; i < sizeof block; i++) block[i] = (uint8_t)(i * i + 7);
    memcpy(before, block, sizeof block);
    uint32_t sum = 0;
    for (uint32_t i = 0; i < SUMMED; i++) sum += block[i] * (i + 1);

    expect("a short block is not sealed", is(sirophan_seal(block, sizeof block - 1), SIROPHAN_CARD_SIZE, 0));
    expect("and stays as it is", memcmp(block, before, sizeof block) == 0);
    expect("the check sum", is(sirophan_seal(block, sizeof block), 0, sum));
    expect("the rest stays", memcmp(block, before, SUMMED) == 0);
    uint32_t written = block[SUMMED] + 256u * block[SUMMED + 1] + 65536u * block[SUMMED + 2] + 16777216u * block[SUMMED + 3];
    expect("low byte first", written == sum);
    expect("sealed again", is(sirophan_seal(block, sizeof block), 0, sum));

    expect("a record number", is(sirophan_record(cards + 5 * SIROPHAN_BLOCK, SIROPHAN_BLOCK), 0, 16777221));
    expect("no card", is(sirophan_record(cards, SIROPHAN_BLOCK + 1), SIROPHAN_CARD_SIZE, 0));
    uint8_t largest[SIROPHAN_BLOCK];
    memset(largest, 0xFF, sizeof largest);
    expect("the largest", is(sirophan_record(largest, sizeof largest), 0, UINT32_MAX));

    uint32_t list[SIROPHAN_RUN];
    expect("the archive is sound", is(sirophan_select(ARCHIVE, TEXT("b[m eq y].m pr true"), cards, sizeof cards, list, SIROPHAN_RUN), 0, 128));
    expect("its last record", list[127] == 16777216 + 127);
}

/* An argument: a pointer and a length. What is written is lent as numbers of 32 bits, so that every function may write there. */
typedef struct argument {
    uint32_t *start;
    size_t length;
} argument;

/* A function over its arguments, and how many it has. */
typedef struct operation {
    const char *name;
    sirophan_answer (*call)(const argument *);
    int count;
} operation;

#define IN(i) (const uint8_t *)a[i].start, a[i].length
#define OUT(i, type) (type *)a[i].start, a[i].length
#define OPERATION(name, ...) \
    static sirophan_answer call_##name(const argument *a) { return sirophan_##name(__VA_ARGS__); }

OPERATION(check, IN(0), IN(1))
OPERATION(match, IN(0), IN(1), IN(2))
OPERATION(match_by_text, IN(0), IN(1), IN(2))
OPERATION(select, IN(0), IN(1), IN(2), OUT(3, uint32_t))
OPERATION(select_by, SIROPHAN_ENGINE_TEXT, IN(0), IN(1), IN(2), OUT(3, uint32_t))
OPERATION(check_search, IN(0), IN(1))
OPERATION(match_search, IN(0), IN(1), IN(2))
OPERATION(select_search, IN(0), IN(1), IN(2), OUT(3, uint32_t))
OPERATION(explain, IN(0), IN(1), IN(2), OUT(3, uint8_t))
OPERATION(prepare, IN(0), IN(1), OUT(2, uint32_t))
OPERATION(judge, IN(0), IN(1), OUT(2, const uint32_t), IN(3))
OPERATION(spell, IN(0), OUT(1, uint8_t), 0)
OPERATION(record, IN(0))
OPERATION(seal, OUT(0, uint8_t))

static sirophan_answer call_report(const argument *a) {
    sirophan_counts counts = sirophan_report(IN(0), IN(1), IN(2), OUT(3, sirophan_tally));
    sirophan_answer answer = {counts.refusal, counts.refusal != 0 ? counts.place : counts.yes};
    return answer;
}

static const operation operations[] = {
    {"check", call_check, 2},
    {"match", call_match, 3},
    {"match_by_text", call_match_by_text, 3},
    {"select", call_select, 4},
    {"select_by", call_select_by, 4},
    {"check_search", call_check_search, 2},
    {"match_search", call_match_search, 3},
    {"select_search", call_select_search, 4},
    {"explain", call_explain, 4},
    {"prepare", call_prepare, 3},
    {"judge", call_judge, 4},
    {"spell", call_spell, 2},
    {"record", call_record, 1},
    {"seal", call_seal, 1},
    {"report", call_report, 4},
};

/* Each function is asked with NULL in the place of each argument, and answers what it does for any other pointer of length 0. */
static void nulls(void) {
    static uint32_t some[4 * SIROPHAN_BLOCK], copies[2][SIROPHAN_BLOCK / 4], filter[8], string[8], rows[SIROPHAN_CELLS];
    memcpy(copies[0], sheet, SIROPHAN_BLOCK);
    memcpy(copies[1], cards, SIROPHAN_BLOCK);
    memcpy(filter, "s pr true", 9);
    memcpy(string, "s=w", 3);
    sirophan_answer prepared = sirophan_prepare(ARCHIVE, TEXT("s pr true"), rows, SIROPHAN_CELLS);
    const argument a_sheet = {copies[0], SIROPHAN_BLOCK}, a_card = {copies[1], SIROPHAN_BLOCK}, a_filter = {filter, 9};
    const argument a_string = {string, 3}, room = {some, SIROPHAN_BLOCK}, a_row = {rows, prepared.value};
    for (size_t i = 0; i < sizeof operations / sizeof *operations; i++) {
        operation o = operations[i];
        int is_search = strstr(o.name, "search") != NULL, is_judge = strcmp(o.name, "judge") == 0;
        argument given[4] = {a_sheet, is_search ? a_string : a_filter, is_judge ? a_row : a_card, is_judge ? a_card : room};
        if (strcmp(o.name, "prepare") == 0) given[2] = room;
        if (strcmp(o.name, "spell") == 0) given[0] = a_filter, given[1] = room;
        if (o.count == 1) given[0] = a_card;
        expect(o.name, o.call(given).refusal == 0);
        for (int missing = 0; missing < o.count; missing++) {
            argument kept = given[missing];
            given[missing].length = 0;
            sirophan_answer answer = o.call(given);
            given[missing].start = NULL;
            expect(o.name, same(o.call(given), answer));
            given[missing] = kept;
        }
    }
    expect("no cards and no list", is(sirophan_select(ARCHIVE, TEXT("s pr true"), NULL, 0, NULL, 0), 0, 0));
    expect("no list", is(sirophan_select(ARCHIVE, TEXT("s pr true"), cards, sizeof cards, NULL, 0), SIROPHAN_SHORT_LIST, 128));
    expect("nothing at all", is(sirophan_select(NULL, 0, NULL, 0, NULL, 0, NULL, 0), SIROPHAN_SHEET_SIZE, 0));
}

/* Texts that lead far down: brackets, tests and alternatives to the limits, and texts that are none near their end. */
static char deep[SIROPHAN_TEXT + 1], wide[SIROPHAN_TEXT + 1], broken[SIROPHAN_TEXT + 1], string[SIROPHAN_TEXT + 1];
static char long_value[SIROPHAN_TEXT + 1];
static const char *const texts[] = {deep, wide, broken, long_value};

static void append(char *text, int times, const char *part) {
    for (int i = 0; i < times; i++) strcat(text, part);
}

static void make_texts(void) {
    append(deep, 1, "((((((not (b[m eq x or m eq z].m eq y");
    append(deep, 29, " or d sa 1974-06-30T23:00:00Z");
    append(deep, 1, ")))))))");
    append(wide, 1, "d eq 1974");
    append(wide, 10, " and b[m eq x].m eq y or t eq loinc|1234-5");
    append(wide, 1, " and not (n co 12.04)");
    append(broken, 1, "p po 1974 or ((((((((s eq \"a");
    append(string, 1, "d=ge1974,sa1970-02-28");
    append(string, 15, "&s=W%61rd%20book%204&t=loinc|1234-5");
    append(long_value, 1, "s co \"");
    append(long_value, 150, "\\\"\\\\\xC3\x96");
    append(long_value, 1, "\"");
}

/* Rows that no filter has, to lead as far down: connectives or brackets in each other to the end of the rows, */
static void judge_nested_rows(const char *filter, uint32_t sort) {
    static uint32_t rows[SIROPHAN_CELLS];
    sirophan_answer prepared = sirophan_prepare(ARCHIVE, TEXT(filter), rows, SIROPHAN_CELLS);
    uint32_t test = rows[prepared.value - 1];
    for (size_t length = 2; length <= SIROPHAN_CELLS; length++) {
        for (size_t i = 0; i < length; i++) {
            int is_test = i % 2 == (sort == BRACKETS);
            rows[i] = is_test || i + 1 == length ? test : 8 * (uint32_t)(length - i - 1 - (sort == BRACKETS)) + sort;
        }
        sirophan_judge(ARCHIVE, TEXT(filter), rows, length, cards, SIROPHAN_BLOCK);
    }
}

/* and one cell again and again, with a filter's own among them. */
static void judge_hostile_rows(uint32_t *cells) {
    static uint32_t rows[SIROPHAN_CELLS];
    judge_nested_rows("s co a", AND);
    judge_nested_rows("p po 1974", AND);
    judge_nested_rows("b[m eq x].m eq y", BRACKETS);
    judge_nested_rows("b[m eq x].m eq y", AND);
    sirophan_answer prepared = sirophan_prepare(ARCHIVE, TEXT(deep), cells, SIROPHAN_CELLS);
    for (uint32_t n = 0; n < 512 + prepared.value; n++) {
        uint32_t cell = n < 512 ? n : cells[n - 512];
        for (size_t i = 0; i < SIROPHAN_CELLS; i++) rows[i] = i + 1 < SIROPHAN_CELLS ? cell : cells[0];
        for (size_t length = SIROPHAN_CELLS; length > 0; length /= 2) {
            sirophan_judge(ARCHIVE, TEXT(deep), rows + SIROPHAN_CELLS - length, length, cards, SIROPHAN_BLOCK);
            sirophan_judge(ARCHIVE, TEXT(deep), rows, length, cards, SIROPHAN_BLOCK);
        }
    }
}

static void *nothing(void *unused) {
    return unused;
}

static void *all_calls(void *unused) {
    static uint32_t cells[SIROPHAN_CELLS];
    static uint8_t marks[SIROPHAN_TESTS], buffer[SIROPHAN_TEXT];
    static sirophan_tally rows[SIROPHAN_PARAMETERS];
    for (size_t i = 0; i < sizeof texts / sizeof *texts; i++) {
        sirophan_check(ARCHIVE, TEXT(texts[i]));
        sirophan_match(ARCHIVE, TEXT(texts[i]), cards, SIROPHAN_BLOCK);
        sirophan_match_by_text(ARCHIVE, TEXT(texts[i]), cards, SIROPHAN_BLOCK);
        sirophan_select(ARCHIVE, TEXT(texts[i]), cards, sizeof cards, cells, SIROPHAN_RUN);
        sirophan_select_by(SIROPHAN_ENGINE_TEXT, ARCHIVE, TEXT(texts[i]), cards, sizeof cards, cells, SIROPHAN_RUN);
        sirophan_report(ARCHIVE, TEXT(texts[i]), cards, sizeof cards, rows, SIROPHAN_PARAMETERS);
        sirophan_spell(TEXT(texts[i]), buffer, sizeof buffer, 0);
        sirophan_explain(ARCHIVE, TEXT(texts[i]), cards, SIROPHAN_BLOCK, marks, SIROPHAN_TESTS);
        sirophan_answer prepared = sirophan_prepare(ARCHIVE, TEXT(texts[i]), cells, SIROPHAN_CELLS);
        sirophan_judge(ARCHIVE, TEXT(texts[i]), cells, prepared.refusal ? 0 : prepared.value, cards, SIROPHAN_BLOCK);
    }
    judge_hostile_rows(cells);
    sirophan_check_search(ARCHIVE, TEXT(string));
    sirophan_match_search(ARCHIVE, TEXT(string), cards, SIROPHAN_BLOCK);
    sirophan_select_search(ARCHIVE, TEXT(string), cards, sizeof cards, cells, SIROPHAN_RUN);
    return unused;
}

/* How many bytes of a painted stack a thread has written over. */
static size_t stack_of(void *(*run)(void *)) {
    uint8_t *stack = (uint8_t *)aligned_alloc(4096, STACK);
    pthread_attr_t attributes;
    pthread_t thread;
    memset(stack, PAINT, STACK);
    pthread_attr_init(&attributes);
    pthread_attr_setstack(&attributes, stack, STACK);
    expect("a thread starts", pthread_create(&thread, &attributes, run, NULL) == 0);
    pthread_join(thread, NULL);
    pthread_attr_destroy(&attributes);
    size_t untouched = 0;
    while (untouched < STACK && stack[untouched] == PAINT) untouched++;
    free(stack);
    return STACK - untouched;
}

static void stack(void) {
    make_texts();
    expect("the deep text is a filter", is(sirophan_check(ARCHIVE, TEXT(deep)), 0, SIROPHAN_TESTS));
    expect("the wide text is a filter", is(sirophan_check(ARCHIVE, TEXT(wide)), 0, SIROPHAN_TESTS));
    expect("the broken text is none", sirophan_check(ARCHIVE, TEXT(broken)).refusal == SIROPHAN_NO_FILTER);
    expect("the long value is a filter's", sirophan_check(ARCHIVE, TEXT(long_value)).refusal == 0);
    expect("the string is a search string", is(sirophan_check_search(ARCHIVE, TEXT(string)), 0, 32));
    stack_of(nothing); /* what the first thread takes once */
    size_t none = stack_of(nothing), taken = stack_of(all_calls);
    size_t calls = taken - none;
    printf("stack: %lu bytes at most, of %d\n", (unsigned long)calls, SIROPHAN_STACK);
    expect("calls take stack", taken > none + 4096);
    expect("no call takes more stack than the header says", calls <= SIROPHAN_STACK);
}

int main(void) {
    make_sheet();
    for (int i = 0; i < SIROPHAN_RUN; i++) make_card(cards + i * SIROPHAN_BLOCK, i);
    versions_and_reasons();
    blocks();
    nulls();
    stack();
    printf("%d passed, %d failed\n", passed, failed);
    return failed == 0 ? 0 : 1;
}

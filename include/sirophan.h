/*
 * Sirophan: which catalogue cards of an archive match a FHIR R4 _filter or a search string.
 *
 * A sheet says which parameters the cards have and of which kind each is; a card holds a record number and search values.
 * Both are blocks of 512 bytes, in two forms that the first byte tells apart, and every sheet may be used with every card.
 * A filter is a text of 1 to 1,024 bytes. docs/RULES.md has the blocks byte by byte and says what filters mean.
 *
 * None of them is trusted: each function checks all that it is given, and for every input it ends with an answer or
 * with a numbered refusal. That is proved, with what the answers are, of all functions but sirophan_version and
 * sirophan_reason, which are a table in plain C.
 *
 * A pointer comes with the number of elements that it points to. Where that number is 0 it may be anything, NULL
 * included. What is written (the list, the rows, the cells, the buffer, the block) must not overlap the other arguments.
 *
 * Threads: the functions keep nothing and may be called from any thread at the same time, also with the same sheet,
 * filter and cards. Memory: they allocate none, and SIROPHAN_STACK bytes of stack are enough for any call.
 *
 * Compile with `pkg-config --cflags --libs sirophan`; for the static library with --static there, and -static. x86-64 Linux.
 */
#ifndef SIROPHAN_H
#define SIROPHAN_H

#include <stddef.h>
#include <stdint.h>

#ifdef __cplusplus
extern "C" {
#endif

#define SIROPHAN_VERSION "0.1.0"

/* The version of the library that is linked: SIROPHAN_VERSION where it is the header's own. */
const char *sirophan_version(void);

/* Sizes and limits. */
enum {
    SIROPHAN_BLOCK = 512,      /* the bytes of a sheet, and of a card */
    SIROPHAN_RUN = 128,        /* the most cards of a run: so many cells are always enough for sirophan_select */
    SIROPHAN_TEXT = 1024,      /* the most bytes of a filter or a search string */
    SIROPHAN_CELLS = 1024,     /* so many cells are always enough for sirophan_prepare */
    SIROPHAN_TESTS = 32,       /* the most tests of a filter: so many cells are always enough for sirophan_explain */
    SIROPHAN_PARAMETERS = 32,  /* the most parameters of a sheet: so many rows are always enough for sirophan_report */
    SIROPHAN_ENTRIES = 64,     /* the most entries of a card */
    SIROPHAN_ENTRY = 255,      /* the most bytes of an entry's text */
    SIROPHAN_STACK = 65536     /* bytes of stack that are enough for any call; measured by the tests, and not proved */
};

/* The first byte of a block. */
enum {
    SIROPHAN_SHEET = 0x50,        /* a sheet without bundles */
    SIROPHAN_BUNDLE_SHEET = 0x51, /* a sheet whose parameters may be bundles and their members */
    SIROPHAN_CARD = 0x43,         /* a card whose entries have no occurrences */
    SIROPHAN_BUNDLE_CARD = 0x44   /* a card whose entries have occurrences */
};

/* The kinds of parameters, as a sheet has them. */
enum {
    SIROPHAN_STRING = 1,
    SIROPHAN_NUMBER = 2,
    SIROPHAN_DATE = 3,
    SIROPHAN_TOKEN = 4,
    SIROPHAN_REFERENCE = 5,
    SIROPHAN_PERIOD = 6,
    SIROPHAN_BUNDLE = 7
};

/*
 * The numbers of refusal, in the order in which they are tried: the first that holds is given. But of tests the
 * first at fault in the filter decides, and of cards the first at fault in the run; for that test, or that card, it is
 * again the first that holds.
 */
enum {
    SIROPHAN_SHEET_SIZE = 1,    /* the sheet is not 512 bytes */
    SIROPHAN_SHEET_SUM = 2,     /* the sheet's check sum is wrong */
    SIROPHAN_SHEET_LAYOUT = 3,  /* the sheet breaks its layout, or the rules for its names or its bundles */
    SIROPHAN_FILTER_SIZE = 10,  /* the filter is empty or over 1,024 bytes */
    SIROPHAN_NO_FILTER = 11,    /* the text is no filter by the grammar; place: the length of the longest beginning of the
                                   text that also begins some filter within both limits, as for 12 and 13 */
    SIROPHAN_TOO_DEEP = 12,     /* it is none, and brackets more than 8 deep would let that beginning be longer */
    SIROPHAN_TOO_MANY = 13,     /* it is none, and more than 32 tests would */
    SIROPHAN_NO_PAIR = 50,      /* search strings: a part between ampersands has a bad % or no "="; place: its first byte */
    SIROPHAN_MANY_ALTERNATIVES = 51, /* search strings: more than 32 alternatives */
    SIROPHAN_UNKNOWN_NAME = 14, /* a name is not on the sheet, or stands where it cannot, such as a member's without its
                                   bundle; place: the test's first byte, as for 15 to 18 */
    SIROPHAN_BARE_BUNDLE = 18,  /* a bundle's name without a condition in square brackets */
    SIROPHAN_UNSUPPORTED = 15,  /* the operator is ap, ss, sb, in or ni */
    SIROPHAN_NO_MEANING = 16,   /* another operator without a meaning for the parameter's kind */
    SIROPHAN_UNREADABLE = 17,   /* the value cannot be read */
    SIROPHAN_BAD_ROWS = 40,     /* judge: the rows are not good for this sheet and this filter's text */
    SIROPHAN_CARD_SIZE = 20,    /* the card, or the block to be sealed, is not 512 bytes; the run is no whole number of
                                   cards, or over 128 */
    SIROPHAN_CARD_SUM = 21,     /* a card's check sum is wrong; place: the card's index, as for 22 and 23 */
    SIROPHAN_CARD_LAYOUT = 22,  /* a card breaks its layout */
    SIROPHAN_CARD_MISFIT = 23,  /* a card does not fit the sheet; a text under a bundle is among the reasons */
    SIROPHAN_SHORT_LIST = 30,   /* the list is shorter than the matches; place: their number */
    SIROPHAN_SHORT_ROWS = 31,   /* the rows are fewer than the parameters; place: the number needed */
    SIROPHAN_SHORT_BUFFER = 32, /* the plain spelling would run past the buffer's end; place: its length */
    SIROPHAN_SHORT_MARKS = 33,  /* the cells are fewer than the filter's tests; place: their number */
    SIROPHAN_SHORT_CELLS = 34   /* the list is shorter than the filter's rows; place: the cells that they need */
};

/* The refusal of a number in a sentence; never NULL, also where no refusal has the number. */
const char *sirophan_reason(uint32_t number);

/* An answer. */
typedef struct sirophan_answer {
    uint32_t refusal; /* the number of the refusal, or 0 if there is none */
    size_t value;     /* the count, or 1 for yes and 0 for no; of a refusal its place, 0 where none is named above */
} sirophan_answer;

/* Answers the record number of a card, whatever else is in it, and refuses only what is not 512 bytes, with 20. */
sirophan_answer sirophan_record(const uint8_t *card, size_t card_len);

/*
 * For programs that make blocks: writes the check sum into the last four bytes, and answers it. What is not 512 bytes is
 * refused with 20 and stays as it is. The sum makes no sheet or card of other bytes.
 */
sirophan_answer sirophan_seal(uint8_t *block, size_t block_len);

/* Answers how many tests the filter has. If it does, every test has a meaning on every card that fits the sheet. */
sirophan_answer sirophan_check(const uint8_t *sheet, size_t sheet_len,
                               const uint8_t *filter, size_t filter_len);

/* Answers whether the card matches the filter: 1 for yes, 0 for no. */
sirophan_answer sirophan_match(const uint8_t *sheet, size_t sheet_len,
                               const uint8_t *filter, size_t filter_len,
                               const uint8_t *card, size_t card_len);

/*
 * Writes the record numbers of the matching cards into the list, in card order from its first cell on, and answers
 * how many they are. cards_len is in bytes, list_len in cells. Later cells stay, and a refusal writes nothing.
 */
sirophan_answer sirophan_select(const uint8_t *sheet, size_t sheet_len,
                                const uint8_t *filter, size_t filter_len,
                                const uint8_t *cards, size_t cards_len,
                                uint32_t *list, size_t list_len);

/*
 * The engines: which way a filter is judged. On every input both give the same answer, with the same number and place of
 * a refusal and the same list. sirophan_match and sirophan_select go by rows.
 */
enum {
    SIROPHAN_ENGINE_ROWS = 0, /* by the filter's rows, which are made once for a run */
    SIROPHAN_ENGINE_TEXT = 1  /* by the filter's text, which is read again for each card: slower, to hold against the rows */
};

/* Answers what sirophan_match does, by the filter's text. */
sirophan_answer sirophan_match_by_text(const uint8_t *sheet, size_t sheet_len,
                                       const uint8_t *filter, size_t filter_len,
                                       const uint8_t *card, size_t card_len);

/* Does what sirophan_select does, by either engine: any number but SIROPHAN_ENGINE_TEXT stands for rows. */
sirophan_answer sirophan_select_by(uint32_t engine,
                                   const uint8_t *sheet, size_t sheet_len,
                                   const uint8_t *filter, size_t filter_len,
                                   const uint8_t *cards, size_t cards_len,
                                   uint32_t *list, size_t list_len);

/*
 * Reads a sheet and a filter once, for many cards: writes the filter's rows into the list, from its first cell on, and
 * answers how many cells they fill, never more than 1,024. list_len is in cells. Later cells stay, and a refusal writes
 * nothing.
 */
sirophan_answer sirophan_prepare(const uint8_t *sheet, size_t sheet_len,
                                 const uint8_t *filter, size_t filter_len,
                                 uint32_t *list, size_t list_len);

/*
 * Answers whether the card matches what the rows state: 1 for yes, 0 for no. rows_len is the number of cells that
 * sirophan_prepare has filled. With the same sheet and filter the answer is that of sirophan_match. Rows are tested like
 * any other input, and may come from a file.
 */
sirophan_answer sirophan_judge(const uint8_t *sheet, size_t sheet_len,
                               const uint8_t *filter, size_t filter_len,
                               const uint32_t *rows, size_t rows_len,
                               const uint8_t *card, size_t card_len);

/*
 * Answers whether the card matches the filter, 1 for yes and 0 for no, and why: writes a cell for each test, in the order of
 * the filter from the first cell on. With the verdicts of the tests that decide alone the answer stands, no matter what the
 * others say, and none of them can be spared; of several such sets it is the one got by going from the last test to the
 * first and sparing each that can be spared. A test with a condition in square brackets is one. cells_len is in cells, and
 * 32 are always enough. Later cells stay, and a refusal writes nothing.
 */
enum {
    SIROPHAN_SPARED = 0,     /* the answer stands whatever the test says */
    SIROPHAN_DECIDES_YES = 1, /* the test decides by its yes, */
    SIROPHAN_DECIDES_NO = 2   /* or by its no */
};

sirophan_answer sirophan_explain(const uint8_t *sheet, size_t sheet_len,
                                 const uint8_t *filter, size_t filter_len,
                                 const uint8_t *card, size_t card_len,
                                 uint8_t *cells, size_t cells_len);

/*
 * Check, match and select by a search string such as birthdate=ge1974&code=http://loinc.org|9: pairs joined by "&", all to be met; commas
 * in a value give alternatives. Check answers how many alternatives there are. Refusals after the sheet's: 10, 50, 51; then
 * for the first alternative at fault 14 (bundles and members too), 16 or 17, with the first byte of its pair as the place;
 * then the cards', and 30.
 */
sirophan_answer sirophan_check_search(const uint8_t *sheet, size_t sheet_len,
                                      const uint8_t *text, size_t text_len);

sirophan_answer sirophan_match_search(const uint8_t *sheet, size_t sheet_len,
                                      const uint8_t *text, size_t text_len,
                                      const uint8_t *card, size_t card_len);

sirophan_answer sirophan_select_search(const uint8_t *sheet, size_t sheet_len,
                                       const uint8_t *text, size_t text_len,
                                       const uint8_t *cards, size_t cards_len,
                                       uint32_t *list, size_t list_len);

/*
 * Writes the filter's plain spelling into the buffer, from the byte at the index from on, and answers its length. All
 * other bytes stay, and a refusal writes nothing. The plain spelling has one space where one is needed and none
 * elsewhere, no bracket that can be spared, and each value as a bare word where it can be one; two filters get the same
 * bytes exactly when they ask the same tests, joined, negated and grouped the same. It is never longer than the filter,
 * so a buffer with filter_len bytes from that index on has room. No sheet is needed: a name may be on none.
 */
sirophan_answer sirophan_spell(const uint8_t *filter, size_t filter_len,
                               uint8_t *buffer, size_t buffer_len, size_t from);

/* A row of a report, for one parameter. */
typedef struct sirophan_tally {
    uint32_t cards;  /* the cards of the run that have it */
    uint32_t values; /* the values under it, repeats counted; a bundle has none */
} sirophan_tally;

/* What a report answers. */
typedef struct sirophan_counts {
    uint32_t refusal; /* the number of the refusal, or 0 if there is none */
    size_t place;     /* its place */
    size_t yes;       /* the cards of the run that match, */
    size_t no;        /* and those that do not; both are 0 with a refusal */
} sirophan_counts;

/*
 * Counts the cards of a run that match the filter and those that do not, and writes a row for each parameter of the
 * sheet, in its order from the first row on: all cards of the run count there, matching or not. cards_len is in bytes,
 * rows_len in rows, and byte 1 of the sheet says how many are needed. What stood in these rows is gone, later rows
 * stay, and a refusal writes nothing.
 */
sirophan_counts sirophan_report(const uint8_t *sheet, size_t sheet_len,
                                const uint8_t *filter, size_t filter_len,
                                const uint8_t *cards, size_t cards_len,
                                sirophan_tally *rows, size_t rows_len);

#ifdef __cplusplus
}
#endif

#endif

/*
 * The part of the library that is plain C: its version, and the refusals in sentences. All that answers and refuses is
 * proved, and stands in crates/; tools/library puts the two together.
 */
#include "sirophan.h"

const char *sirophan_version(void) {
    return SIROPHAN_VERSION;
}

/* A number of refusal and its sentence: the table of README.md, in its words. */
typedef struct reason {
    uint32_t number;
    const char *sentence;
} reason;

static const reason reasons[] = {
    {SIROPHAN_SHEET_SIZE, "The sheet is not 512 bytes long."},
    {SIROPHAN_SHEET_SUM, "The sheet's check sum is wrong."},
    {SIROPHAN_SHEET_LAYOUT, "The sheet breaks its layout, or the rules for its names or its bundles."},
    {SIROPHAN_FILTER_SIZE, "The filter or search string is empty or longer than 1,024 bytes."},
    {SIROPHAN_NO_FILTER, "The text is no filter by the grammar: no filter goes on like this."},
    {SIROPHAN_TOO_DEEP, "The text is no filter: here it would need brackets more than 8 deep."},
    {SIROPHAN_TOO_MANY, "The text is no filter: here it would need more than 32 tests."},
    {SIROPHAN_NO_PAIR, "A part of the search string is no pair: it has no \"=\", or a % without two hex digits behind it."},
    {SIROPHAN_MANY_ALTERNATIVES, "The search string has more than 32 alternatives."},
    {SIROPHAN_UNKNOWN_NAME,
     "The name is not on the sheet, or cannot stand here: members are named with their bundle's brackets."},
    {SIROPHAN_BARE_BUNDLE, "A bundle's name needs a condition in square brackets, and a member behind it."},
    {SIROPHAN_UNSUPPORTED, "The operators ap, ss, sb, in and ni have no meaning for any kind."},
    {SIROPHAN_NO_MEANING, "The operator has no meaning for a parameter of this kind."},
    {SIROPHAN_UNREADABLE, "The value cannot be read as the parameter's kind, or for pr as true or false."},
    {SIROPHAN_BAD_ROWS, "The rows are not good for this sheet and this filter."},
    {SIROPHAN_CARD_SIZE, "The card is not 512 bytes long, or the run is no whole number of cards or over 128."},
    {SIROPHAN_CARD_SUM, "The card's check sum is wrong."},
    {SIROPHAN_CARD_LAYOUT, "The card breaks its layout."},
    {SIROPHAN_CARD_MISFIT,
     "The card does not fit the sheet: a text is under a bundle or no parameter, or cannot be read."},
    {SIROPHAN_SHORT_LIST, "The list is shorter than the number of matching cards."},
    {SIROPHAN_SHORT_ROWS, "The rows are fewer than the sheet's parameters."},
    {SIROPHAN_SHORT_BUFFER, "The plain spelling would run past the buffer's end."},
    {SIROPHAN_SHORT_MARKS, "The list has fewer cells than the filter has tests."},
    {SIROPHAN_SHORT_CELLS, "The list is shorter than the filter's rows."},
};

const char *sirophan_reason(uint32_t number) {
    if (number == 0) return "There is no refusal.";
    for (size_t i = 0; i < sizeof reasons / sizeof *reasons; i++) {
        if (reasons[i].number == number) return reasons[i].sentence;
    }
    return "This number is not known to this version.";
}

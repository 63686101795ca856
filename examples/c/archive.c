/*
 * archive SHEET FILTER CARDS: the record numbers of the matching cards of a file of any size, and how many of how many match.
 * The list is held back until the last card has passed. The status is 0 where there is an answer, 2 where there is a refusal,
 * and 3 where a file cannot be read. It is C, and C++ as well:
 *
 *     cc archive.c $(pkg-config --cflags --libs sirophan) -o archive
 */
#include <stdio.h>
#include <stdlib.h>

#include "sirophan.h"

enum { ANSWERED = 0, REFUSED = 2, UNREADABLE = 3 };

static int unreadable(const char *path) {
    perror(path);
    return UNREADABLE;
}

/* Reads up to `size` bytes of a file, and answers how many there are, or more than `size` where there are more. */
static size_t read_file(const char *path, uint8_t *bytes, size_t size) {
    FILE *file = fopen(path, "rb");
    if (file == NULL) exit(unreadable(path));
    size_t length = fread(bytes, 1, size, file);
    if (length == size && fgetc(file) != EOF) length++;
    if (ferror(file)) exit(unreadable(path));
    fclose(file);
    return length;
}

/* Tells a refusal; the index of a card at fault counts over the whole file. */
static int refused(sirophan_answer answer, size_t cards_before) {
    int of_card = answer.refusal >= SIROPHAN_CARD_SUM && answer.refusal <= SIROPHAN_CARD_MISFIT;
    size_t place = answer.value + (of_card ? cards_before : 0);
    printf("refused %lu at %lu\n", (unsigned long)answer.refusal, (unsigned long)place);
    fprintf(stderr, "%s\n", sirophan_reason(answer.refusal));
    return REFUSED;
}

int main(int count, char **arguments) {
    if (count != 4) {
        fprintf(stderr, "usage: archive SHEET FILTER CARDS\n");
        return 1;
    }
    static uint8_t sheet[SIROPHAN_BLOCK + 1], filter[SIROPHAN_TEXT + 2], run[SIROPHAN_RUN * SIROPHAN_BLOCK];
    size_t sheet_len = read_file(arguments[1], sheet, SIROPHAN_BLOCK);
    size_t filter_len = read_file(arguments[2], filter, SIROPHAN_TEXT + 1);
    if (filter_len > 0 && filter[filter_len - 1] == '\n') filter_len--;

    FILE *cards = fopen(arguments[3], "rb");
    if (cards == NULL) return unreadable(arguments[3]);
    uint32_t *found = NULL; /* the record numbers so far, with room for those of another run */
    size_t matches = 0, read = 0, length;
    do {
        found = (uint32_t *)realloc(found, (matches + SIROPHAN_RUN) * sizeof *found);
        if (found == NULL) return unreadable("memory");
        length = fread(run, 1, sizeof run, cards);
        if (ferror(cards)) return unreadable(arguments[3]);
        sirophan_answer answer =
            sirophan_select(sheet, sheet_len, filter, filter_len, run, length, found + matches, SIROPHAN_RUN);
        if (answer.refusal != 0) return refused(answer, read);
        matches += answer.value;
        read += length / SIROPHAN_BLOCK;
    } while (length == sizeof run);

    for (size_t i = 0; i < matches; i++) printf("%lu\n", (unsigned long)found[i]);
    printf("%lu of %lu\n", (unsigned long)matches, (unsigned long)read);
    free(found);
    fclose(cards);
    return fflush(stdout) == 0 ? ANSWERED : unreadable("standard output");
}

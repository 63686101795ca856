/*
 * Sirophan for SQLite: functions over blobs, and two tables that list the cards of a table. All that answers and refuses is the proved
 * library; this file hands it what SQL gives, and its refusals back as SQL errors. docs/DATABASES.md says how it is used.
 */
#include <sqlite3ext.h>
SQLITE_EXTENSION_INIT1
#include <string.h>

#include "sirophan.h"

/* ---- arguments */

typedef struct bytes {
    const uint8_t *at;
    size_t length;
} bytes;

/* What an argument may be besides a blob. */
enum sort { BLOB_ONLY, TEXT_TOO };

/* Why a value of a type cannot be taken, or NULL. NULL is no blob: a row that is left out for want of a card would not be missed. */
static const char *unusable(int type, enum sort sort) {
    switch (type) {
    case SQLITE_BLOB: return NULL;
    case SQLITE_TEXT: return sort == TEXT_TOO ? NULL : "is a text, and is to be a blob";
    case SQLITE_NULL: return "is NULL";
    default: return sort == TEXT_TOO ? "is a number, and is to be a text or a blob" : "is a number, and is to be a blob";
    }
}

/* The bytes of a value that can be taken; those of a text as UTF-8. */
static bytes taken(sqlite3_value *value) {
    const void *at = sqlite3_value_type(value) == SQLITE_TEXT ? (const void *)sqlite3_value_text(value) : sqlite3_value_blob(value);
    bytes found = {at, (size_t)sqlite3_value_bytes(value)};
    return found;
}

/* What the arguments of a function are called, and what they may be. */
typedef struct argument {
    const char *name;
    enum sort sort;
} argument;

static const argument SHEET = {"sheet", BLOB_ONLY};
static const argument FILTER = {"filter", TEXT_TOO};
static const argument STRING = {"search string", TEXT_TOO};
static const argument CARD = {"card", BLOB_ONLY};

/* A function of SQL: its name and its arguments. */
typedef struct function {
    const char *name;
    int count;
    const argument *arguments[3];
    void (*call)(sqlite3_context *, int, sqlite3_value **);
} function;

static const char *name_of(sqlite3_context *context) {
    return ((const function *)sqlite3_user_data(context))->name;
}

/* Ends a call with an error whose text was made by sqlite3_mprintf. */
static void fail(sqlite3_context *context, char *text) {
    if (text == NULL) {
        sqlite3_result_error_nomem(context);
        return;
    }
    sqlite3_result_error(context, text, -1);
    sqlite3_free(text);
}

/* Takes the bytes of all arguments; where one cannot be taken, the call ends with an error, and the answer is 0. */
static int take(sqlite3_context *context, sqlite3_value **values, bytes *found) {
    const function *function = sqlite3_user_data(context);
    for (int i = 0; i < function->count; i++) {
        const char *why = unusable(sqlite3_value_type(values[i]), function->arguments[i]->sort);
        if (why != NULL) {
            fail(context, sqlite3_mprintf("%s: the %s %s", function->name, function->arguments[i]->name, why));
            return 0;
        }
        found[i] = taken(values[i]);
    }
    return 1;
}

/* ---- refusals */

/* A refusal as the text of an SQL error; one of a card with its record number, by which the row is found. */
static char *refusal(const char *name, sirophan_answer answer, bytes card) {
    char *text = sqlite3_mprintf("%s: refused %u at %llu: %s", name, answer.refusal, (unsigned long long)answer.value,
                                 sirophan_reason(answer.refusal));
    int is_of_card = answer.refusal >= SIROPHAN_CARD_SUM && answer.refusal <= SIROPHAN_CARD_MISFIT;
    if (text == NULL || !is_of_card) return text;
    char *more = sqlite3_mprintf("%s The card has the record number %llu.", text,
                                 (unsigned long long)sirophan_record(card.at, card.length).value);
    sqlite3_free(text);
    return more;
}

static void refuse(sqlite3_context *context, sirophan_answer answer, bytes card) {
    fail(context, refusal(name_of(context), answer, card));
}

/* Ends a call with the number that the library answers, or with its refusal. */
static void answer_number(sqlite3_context *context, sirophan_answer answer, bytes card) {
    if (answer.refusal != 0) {
        refuse(context, answer, card);
    } else {
        sqlite3_result_int64(context, (sqlite3_int64)answer.value);
    }
}

static const bytes NO_CARD = {NULL, 0};

/* ---- filters that are read once */

/* A sheet and a filter with its rows. What the library prepares has these sizes at most. */
typedef struct prepared {
    size_t filter_len;
    size_t rows_len;
    uint8_t sheet[SIROPHAN_BLOCK];
    uint8_t filter[SIROPHAN_TEXT];
    uint32_t rows[SIROPHAN_CELLS];
} prepared;

static sirophan_answer prepare(prepared *made, bytes sheet, bytes filter) {
    sirophan_answer answer =
        sirophan_prepare(sheet.at, sheet.length, filter.at, filter.length, made->rows, SIROPHAN_CELLS);
    if (answer.refusal != 0) return answer;
    memcpy(made->sheet, sheet.at, sheet.length);
    memcpy(made->filter, filter.at, filter.length);
    made->filter_len = filter.length;
    made->rows_len = answer.value;
    return answer;
}

/* Whether it was prepared of these: of two constants SQLite keeps it for the statement, but one of them may be a column. */
static int is_of(const prepared *made, bytes sheet, bytes filter) {
    return sheet.length == sizeof made->sheet && filter.length == made->filter_len &&
           memcmp(made->sheet, sheet.at, sheet.length) == 0 && memcmp(made->filter, filter.at, filter.length) == 0;
}

static sirophan_answer judge(const prepared *made, bytes card) {
    return sirophan_judge(made->sheet, sizeof made->sheet, made->filter, made->filter_len, made->rows, made->rows_len,
                          card.at, card.length);
}

/* ---- functions */

/* The argument whose auxiliary data are the filter's rows. */
enum { KEPT_WITH = 1 };

static void match(sqlite3_context *context, int count, sqlite3_value **values) {
    (void)count;
    bytes given[3];
    if (!take(context, values, given)) return;
    prepared *kept = sqlite3_get_auxdata(context, KEPT_WITH);
    if (kept != NULL && is_of(kept, given[0], given[1])) {
        answer_number(context, judge(kept, given[2]), given[2]);
        return;
    }
    prepared *made = sqlite3_malloc(sizeof *made);
    if (made == NULL) {
        sqlite3_result_error_nomem(context);
        return;
    }
    sirophan_answer answer = prepare(made, given[0], given[1]);
    int is_good = answer.refusal == 0;
    answer_number(context, is_good ? judge(made, given[2]) : answer, given[2]);
    /* SQLite may free it at once, so that it is kept last */
    if (is_good) {
        sqlite3_set_auxdata(context, KEPT_WITH, made, sqlite3_free);
    } else {
        sqlite3_free(made);
    }
}

static void check(sqlite3_context *context, int count, sqlite3_value **values) {
    (void)count;
    bytes given[2];
    if (!take(context, values, given)) return;
    answer_number(context, sirophan_check(given[0].at, given[0].length, given[1].at, given[1].length), NO_CARD);
}

static void check_search(sqlite3_context *context, int count, sqlite3_value **values) {
    (void)count;
    bytes given[2];
    if (!take(context, values, given)) return;
    answer_number(context, sirophan_check_search(given[0].at, given[0].length, given[1].at, given[1].length), NO_CARD);
}

static void search(sqlite3_context *context, int count, sqlite3_value **values) {
    (void)count;
    bytes given[3];
    if (!take(context, values, given)) return;
    answer_number(context,
                  sirophan_match_search(given[0].at, given[0].length, given[1].at, given[1].length, given[2].at, given[2].length),
                  given[2]);
}

static void record(sqlite3_context *context, int count, sqlite3_value **values) {
    (void)count;
    bytes given[1];
    if (!take(context, values, given)) return;
    answer_number(context, sirophan_record(given[0].at, given[0].length), given[0]);
}

/* The plain spelling, as a text or a blob as the filter was given. */
static void plain(sqlite3_context *context, int count, sqlite3_value **values) {
    (void)count;
    bytes given[1];
    if (!take(context, values, given)) return;
    uint8_t buffer[SIROPHAN_TEXT];
    sirophan_answer answer = sirophan_spell(given[0].at, given[0].length, buffer, sizeof buffer, 0);
    if (answer.refusal != 0) {
        refuse(context, answer, NO_CARD);
    } else if (sqlite3_value_type(values[0]) == SQLITE_TEXT) {
        sqlite3_result_text(context, (const char *)buffer, (int)answer.value, SQLITE_TRANSIENT);
    } else {
        sqlite3_result_blob(context, buffer, (int)answer.value, SQLITE_TRANSIENT);
    }
}

/* The answer, and what each test does for it, as JSON. */
static void explain(sqlite3_context *context, int count, sqlite3_value **values) {
    (void)count;
    bytes given[3];
    if (!take(context, values, given)) return;
    static const char *const marks[] = {"\"spared\"", "\"yes\"", "\"no\""};
    /* no test is marked so: it stands behind the last */
    enum { END = 255 };
    uint8_t cells[SIROPHAN_TESTS + 1];
    memset(cells, END, sizeof cells);
    sirophan_answer answer = sirophan_explain(given[0].at, given[0].length, given[1].at, given[1].length, given[2].at,
                                              given[2].length, cells, SIROPHAN_TESTS);
    if (answer.refusal != 0) {
        refuse(context, answer, given[2]);
        return;
    }
    sqlite3_str *text = sqlite3_str_new(sqlite3_context_db_handle(context));
    sqlite3_str_appendf(text, "{\"matches\":%s,\"tests\":[", answer.value ? "true" : "false");
    for (int i = 0; cells[i] != END; i++) {
        sqlite3_str_appendf(text, "%s%s", i > 0 ? "," : "", marks[cells[i]]);
    }
    sqlite3_str_appendall(text, "]}");
    char *made = sqlite3_str_finish(text);
    if (made == NULL) {
        sqlite3_result_error_nomem(context);
    } else {
        sqlite3_result_text(context, made, -1, sqlite3_free);
    }
}

/* The functions. A later one is another row. */
static const function functions[] = {
    {"sirophan_match", 3, {&SHEET, &FILTER, &CARD}, match},
    {"sirophan_check", 2, {&SHEET, &FILTER, NULL}, check},
    {"sirophan_search", 3, {&SHEET, &STRING, &CARD}, search},
    {"sirophan_check_search", 2, {&SHEET, &STRING, NULL}, check_search},
    {"sirophan_explain", 3, {&SHEET, &FILTER, &CARD}, explain},
    {"sirophan_plain", 1, {&FILTER, NULL, NULL}, plain},
    {"sirophan_record", 1, {&CARD, NULL, NULL}, record},
};

/* ---- the cards of a table that match, as a table: sirophan_select(sheet, filter, 'table', 'column') */

/* How a table asks: by a filter or by a search string. */
typedef struct listing {
    const char *name;
    const argument *text;
} listing;

static const listing listings[] = {{"sirophan_select", &FILTER}, {"sirophan_select_search", &STRING}};

/* The columns: two that are read, and four that are the arguments. */
enum { RECORD, ROW, FIRST_ARGUMENT, ARGUMENTS = 4 };

static const char COLUMNS[] = "CREATE TABLE listed(record INTEGER, row INTEGER, sheet HIDDEN, question HIDDEN, "
                              "cards HIDDEN, card HIDDEN)";

typedef struct table {
    sqlite3_vtab base;
    sqlite3 *db;
    const listing *listing;
} table;

/* A card that matches: its record number, and the row that it stands in where the rows have numbers. */
typedef struct found {
    sqlite3_int64 record;
    sqlite3_int64 row;
    int has_row;
} found;

/* A list that is made whole before its first row is read: a card that is refused refuses it all. */
typedef struct cursor {
    sqlite3_vtab_cursor base;
    sqlite3_value *arguments[ARGUMENTS];
    prepared prepared;
    found *list;
    size_t count;
    size_t room;
    size_t next;
} cursor;

static int table_connect(sqlite3 *db, void *data, int count, const char *const *words, sqlite3_vtab **made, char **error) {
    (void)count, (void)words, (void)error;
    int status = sqlite3_declare_vtab(db, COLUMNS);
    if (status != SQLITE_OK) return status;
    table *table = sqlite3_malloc(sizeof *table);
    if (table == NULL) return SQLITE_NOMEM;
    memset(table, 0, sizeof *table);
    table->db = db;
    table->listing = data;
    *made = &table->base;
    return SQLITE_OK;
}

static int table_disconnect(sqlite3_vtab *base) {
    sqlite3_free(base);
    return SQLITE_OK;
}

/* Ends what was asked of a table with an error. */
static int failed(sqlite3_vtab *base, char *text) {
    if (text == NULL) return SQLITE_NOMEM;
    sqlite3_free(base->zErrMsg);
    base->zErrMsg = text;
    return SQLITE_ERROR;
}

/* All four arguments have to be known before the list is made. */
static int table_best_index(sqlite3_vtab *base, sqlite3_index_info *info) {
    int has[ARGUMENTS] = {0};
    for (int i = 0; i < info->nConstraint; i++) {
        int argument = info->aConstraint[i].iColumn - FIRST_ARGUMENT;
        if (argument < 0 || info->aConstraint[i].op != SQLITE_INDEX_CONSTRAINT_EQ || has[argument]) continue;
        if (!info->aConstraint[i].usable) return SQLITE_CONSTRAINT;
        has[argument] = 1;
        info->aConstraintUsage[i].argvIndex = argument + 1;
        info->aConstraintUsage[i].omit = 1;
    }
    for (int i = 0; i < ARGUMENTS; i++) {
        const listing *listing = ((table *)base)->listing;
        if (!has[i]) {
            return failed(base, sqlite3_mprintf("%s takes four arguments: a sheet, a %s, the name of a table and that of its column of cards",
                                                listing->name, listing->text->name));
        }
    }
    info->estimatedCost = 1e6;
    return SQLITE_OK;
}

static int cursor_open(sqlite3_vtab *base, sqlite3_vtab_cursor **made) {
    (void)base;
    cursor *cursor = sqlite3_malloc(sizeof *cursor);
    if (cursor == NULL) return SQLITE_NOMEM;
    memset(cursor, 0, sizeof *cursor);
    *made = &cursor->base;
    return SQLITE_OK;
}

static void forget(cursor *cursor) {
    for (int i = 0; i < ARGUMENTS; i++) {
        sqlite3_value_free(cursor->arguments[i]);
        cursor->arguments[i] = NULL;
    }
    sqlite3_free(cursor->list);
    cursor->list = NULL;
    cursor->count = cursor->room = cursor->next = 0;
}

static int cursor_close(sqlite3_vtab_cursor *base) {
    forget((cursor *)base);
    sqlite3_free(base);
    return SQLITE_OK;
}

/* Keeps the arguments, and tells one that cannot be taken. */
static int keep_arguments(cursor *cursor, sqlite3_value **values) {
    const listing *listing = ((table *)cursor->base.pVtab)->listing;
    const char *const names[ARGUMENTS] = {SHEET.name, listing->text->name, "table's name", "column's name"};
    for (int i = 0; i < ARGUMENTS; i++) {
        const char *why = unusable(sqlite3_value_type(values[i]), i == 0 ? BLOB_ONLY : TEXT_TOO);
        if (why != NULL) return failed(cursor->base.pVtab, sqlite3_mprintf("%s: the %s %s", listing->name, names[i], why));
        cursor->arguments[i] = sqlite3_value_dup(values[i]);
        if (cursor->arguments[i] == NULL) return SQLITE_NOMEM;
    }
    return SQLITE_OK;
}

/* Asks the library whether the question has a meaning; a filter is read once for all cards. */
static sirophan_answer read_question(cursor *cursor) {
    bytes sheet = taken(cursor->arguments[0]), text = taken(cursor->arguments[1]);
    if (((table *)cursor->base.pVtab)->listing->text == &STRING) {
        return sirophan_check_search(sheet.at, sheet.length, text.at, text.length);
    }
    return prepare(&cursor->prepared, sheet, text);
}

static sirophan_answer ask(cursor *cursor, bytes card) {
    if (((table *)cursor->base.pVtab)->listing->text != &STRING) return judge(&cursor->prepared, card);
    bytes sheet = taken(cursor->arguments[0]), text = taken(cursor->arguments[1]);
    return sirophan_match_search(sheet.at, sheet.length, text.at, text.length, card.at, card.length);
}

/* The statement that reads the cards. A name in front of a column keeps SQLite from taking a column that is not there for a text. */
static int read_table(cursor *cursor, sqlite3_stmt **statement) {
    table *table = (struct table *)cursor->base.pVtab;
    static const char *const forms[] = {"SELECT cards.\"%w\", cards.rowid FROM \"%w\" AS cards",
                                        "SELECT cards.\"%w\", NULL FROM \"%w\" AS cards"};
    int status = SQLITE_ERROR;
    for (int i = 0; i < 2 && status == SQLITE_ERROR; i++) {
        /* a view, or a table WITHOUT ROWID, has the second form alone */
        char *text = sqlite3_mprintf(forms[i], sqlite3_value_text(cursor->arguments[3]), sqlite3_value_text(cursor->arguments[2]));
        if (text == NULL) return SQLITE_NOMEM;
        status = sqlite3_prepare_v2(table->db, text, -1, statement, NULL);
        sqlite3_free(text);
    }
    if (status != SQLITE_OK) failed(&table->base, sqlite3_mprintf("%s: %s", table->listing->name, sqlite3_errmsg(table->db)));
    return status;
}

static int add(cursor *cursor, sqlite3_int64 record, sqlite3_stmt *statement) {
    if (cursor->count == cursor->room) {
        size_t room = cursor->room > 0 ? 2 * cursor->room : 256;
        found *list = sqlite3_realloc64(cursor->list, room * sizeof *list);
        if (list == NULL) return SQLITE_NOMEM;
        cursor->list = list;
        cursor->room = room;
    }
    found here = {record, sqlite3_column_int64(statement, 1), sqlite3_column_type(statement, 1) != SQLITE_NULL};
    cursor->list[cursor->count++] = here;
    return SQLITE_OK;
}

/* Asks the card of a row, and puts it on the list where it matches. */
static int ask_row(cursor *cursor, sqlite3_stmt *statement) {
    table *table = (struct table *)cursor->base.pVtab;
    const char *why = unusable(sqlite3_column_type(statement, 0), BLOB_ONLY);
    if (why != NULL) {
        const unsigned char *row = sqlite3_column_text(statement, 1);
        return failed(&table->base, sqlite3_mprintf("%s: a card %s, in the row %s", table->listing->name, why,
                                                    row != NULL ? (const char *)row : "without a number"));
    }
    bytes card = {sqlite3_column_blob(statement, 0), (size_t)sqlite3_column_bytes(statement, 0)};
    sirophan_answer answer = ask(cursor, card);
    if (answer.refusal != 0) return failed(&table->base, refusal(table->listing->name, answer, card));
    if (answer.value == 0) return SQLITE_OK;
    return add(cursor, (sqlite3_int64)sirophan_record(card.at, card.length).value, statement);
}

/* Makes the whole list. A question without a meaning is refused before the table is looked at, whether it has rows or not. */
static int cursor_filter(sqlite3_vtab_cursor *base, int number, const char *words, int count, sqlite3_value **values) {
    (void)number, (void)words, (void)count;
    cursor *cursor = (struct cursor *)base;
    forget(cursor);
    int status = keep_arguments(cursor, values);
    if (status != SQLITE_OK) return status;
    sirophan_answer answer = read_question(cursor);
    if (answer.refusal != 0) return failed(base->pVtab, refusal(((table *)base->pVtab)->listing->name, answer, NO_CARD));
    sqlite3_stmt *statement = NULL;
    status = read_table(cursor, &statement);
    while (status == SQLITE_OK && (status = sqlite3_step(statement)) == SQLITE_ROW) {
        status = ask_row(cursor, statement);
    }
    int finished = sqlite3_finalize(statement);
    return status == SQLITE_DONE ? finished : status;
}

static int cursor_next(sqlite3_vtab_cursor *base) {
    ((cursor *)base)->next++;
    return SQLITE_OK;
}

static int cursor_eof(sqlite3_vtab_cursor *base) {
    return ((cursor *)base)->next >= ((cursor *)base)->count;
}

static int cursor_column(sqlite3_vtab_cursor *base, sqlite3_context *context, int column) {
    const cursor *cursor = (struct cursor *)base;
    const found *here = &cursor->list[cursor->next];
    if (column >= FIRST_ARGUMENT) {
        sqlite3_result_value(context, cursor->arguments[column - FIRST_ARGUMENT]);
    } else if (column == RECORD) {
        sqlite3_result_int64(context, here->record);
    } else if (here->has_row) {
        sqlite3_result_int64(context, here->row);
    }
    return SQLITE_OK;
}

static int cursor_rowid(sqlite3_vtab_cursor *base, sqlite3_int64 *number) {
    *number = (sqlite3_int64)((cursor *)base)->next;
    return SQLITE_OK;
}

static const sqlite3_module module = {
    .iVersion = 0,
    .xConnect = table_connect,
    .xBestIndex = table_best_index,
    .xDisconnect = table_disconnect,
    .xOpen = cursor_open,
    .xClose = cursor_close,
    .xFilter = cursor_filter,
    .xNext = cursor_next,
    .xEof = cursor_eof,
    .xColumn = cursor_column,
    .xRowid = cursor_rowid,
};

/* SQLite calls it when the extension is loaded. */
__attribute__((visibility("default"))) int sqlite3_sirophan_init(sqlite3 *db, char **error, const sqlite3_api_routines *api) {
    (void)error;
    SQLITE_EXTENSION_INIT2(api);
    int status = SQLITE_OK;
    const int flags = SQLITE_UTF8 | SQLITE_DETERMINISTIC | SQLITE_INNOCUOUS;
    for (size_t i = 0; i < sizeof functions / sizeof *functions && status == SQLITE_OK; i++) {
        const function *row = &functions[i];
        status = sqlite3_create_function_v2(db, row->name, row->count, flags, (void *)row, row->call, NULL, NULL, NULL);
    }
    for (size_t i = 0; i < sizeof listings / sizeof *listings && status == SQLITE_OK; i++) {
        status = sqlite3_create_module_v2(db, listings[i].name, &module, (void *)&listings[i], NULL);
    }
    return status;
}

/*
 * Sirophan for PostgreSQL: functions over bytea. All that answers and refuses is the proved library; this file hands it what SQL gives, and its
 * refusals back as errors. sirophan--0.1.0.sql names the functions, and docs/DATABASES.md says how they are used.
 */
#include "postgres.h"

#include "access/htup_details.h"
#include "catalog/pg_proc.h"
#include "catalog/pg_type_d.h"
#include "fmgr.h"
#include "mb/pg_wchar.h"
#include "nodes/makefuncs.h"
#include "nodes/supportnodes.h"
#include "optimizer/optimizer.h"
#include "utils/builtins.h"
#include "utils/lsyscache.h"
#include "utils/syscache.h"
#if PG_VERSION_NUM >= 160000
#include "varatt.h"
#endif

#include "sirophan.h"

PG_MODULE_MAGIC;

/* ---- arguments */

typedef struct bytes {
    const uint8_t *at;
    size_t length;
} bytes;

static bytes taken(Datum datum) {
    struct varlena *value = PG_DETOAST_DATUM_PACKED(datum);
    bytes found = {(const uint8_t *)VARDATA_ANY(value), VARSIZE_ANY_EXHDR(value)};
    return found;
}

#define ARGUMENT(number) taken(PG_GETARG_DATUM(number))

static const bytes NOTHING = {NULL, 0};

/* ---- refusals */

/* The SQLSTATE of a refusal: SR and its number, SR016. */
static int state_of(uint32_t number) {
    return MAKE_SQLSTATE('S', 'R', '0' + (char)(number / 100 % 10), '0' + (char)(number / 10 % 10), '0' + (char)(number % 10));
}

static bool is_of_card(uint32_t number) {
    return number >= SIROPHAN_CARD_SUM && number <= SIROPHAN_CARD_MISFIT;
}

/* More about a refusal: the card's record number, by which its row is found, or the text, where it can be shown. */
static int detail(sirophan_answer answer, bytes text, bytes card) {
    char *shown;
    if (is_of_card(answer.refusal)) {
        return errdetail("The card has the record number %zu.", sirophan_record(card.at, card.length).value);
    }
    if (answer.refusal == SIROPHAN_CARD_SIZE) return errdetail("The card has %zu bytes.", card.length);
    if (answer.refusal <= SIROPHAN_FILTER_SIZE || memchr(text.at, 0, text.length) != NULL ||
        !pg_verifymbstr((const char *)text.at, (int)text.length, true)) {
        return 0;
    }
    shown = pnstrdup((const char *)text.at, text.length);
    return errdetail("The place counts the bytes of: %s", shown);
}

static int hint(uint32_t number) {
    if (number <= SIROPHAN_SHEET_LAYOUT) return errhint("`sirophan show` says what is wrong with a sheet.");
    if (number == SIROPHAN_CARD_SIZE || is_of_card(number)) {
        return errhint("There is no answer until the card is put right. `sirophan show` says what is wrong with a card.");
    }
    return errhint("`sirophan check` says what could stand there in its place.");
}

/* Ends a statement with a refusal. */
static void refuse(sirophan_answer answer, bytes text, bytes card) {
    ereport(ERROR, (errcode(state_of(answer.refusal)),
                    errmsg("refused %u at %zu: %s", answer.refusal, answer.value, sirophan_reason(answer.refusal)),
                    detail(answer, text, card), hint(answer.refusal)));
}

/* The value that the library answers. */
static size_t value_of(sirophan_answer answer, bytes text, bytes card) {
    if (answer.refusal != 0) refuse(answer, text, card);
    return answer.value;
}

/* ---- filters that are read once */

/* A sheet and a filter with its rows. What the library prepares has these sizes at most. */
typedef struct prepared {
    size_t filter_len;
    size_t rows_len;
    uint8_t sheet[SIROPHAN_BLOCK];
    uint8_t filter[SIROPHAN_TEXT];
    uint32_t rows[SIROPHAN_CELLS];
} prepared;

static bool is_of(const prepared *made, bytes sheet, bytes filter) {
    return sheet.length == sizeof made->sheet && filter.length == made->filter_len &&
           memcmp(made->sheet, sheet.at, sheet.length) == 0 && memcmp(made->filter, filter.at, filter.length) == 0;
}

/* What was prepared for this call of the statement; prepared anew where the sheet or the filter is another than in the row before. */
static const prepared *kept(FmgrInfo *call, bytes sheet, bytes filter) {
    prepared *made = call->fn_extra;
    if (made != NULL && is_of(made, sheet, filter)) return made;
    if (made == NULL) made = MemoryContextAlloc(call->fn_mcxt, sizeof *made);
    call->fn_extra = NULL;
    made->rows_len = value_of(sirophan_prepare(sheet.at, sheet.length, filter.at, filter.length, made->rows, SIROPHAN_CELLS), filter, NOTHING);
    memcpy(made->sheet, sheet.at, sheet.length);
    memcpy(made->filter, filter.at, filter.length);
    made->filter_len = filter.length;
    call->fn_extra = made;
    return made;
}

/* ---- functions */

PG_FUNCTION_INFO_V1(sql_match);
Datum sql_match(PG_FUNCTION_ARGS) {
    bytes sheet = ARGUMENT(0), filter = ARGUMENT(1), card = ARGUMENT(2);
    const prepared *made = kept(fcinfo->flinfo, sheet, filter);
    sirophan_answer answer = sirophan_judge(made->sheet, sizeof made->sheet, made->filter, made->filter_len, made->rows,
                                            made->rows_len, card.at, card.length);
    PG_RETURN_BOOL(value_of(answer, filter, card) == 1);
}

PG_FUNCTION_INFO_V1(sql_search);
Datum sql_search(PG_FUNCTION_ARGS) {
    bytes sheet = ARGUMENT(0), text = ARGUMENT(1), card = ARGUMENT(2);
    sirophan_answer answer = sirophan_match_search(sheet.at, sheet.length, text.at, text.length, card.at, card.length);
    PG_RETURN_BOOL(value_of(answer, text, card) == 1);
}

PG_FUNCTION_INFO_V1(sql_check);
Datum sql_check(PG_FUNCTION_ARGS) {
    bytes sheet = ARGUMENT(0), filter = ARGUMENT(1);
    PG_RETURN_INT32((int32)value_of(sirophan_check(sheet.at, sheet.length, filter.at, filter.length), filter, NOTHING));
}

PG_FUNCTION_INFO_V1(sql_check_search);
Datum sql_check_search(PG_FUNCTION_ARGS) {
    bytes sheet = ARGUMENT(0), text = ARGUMENT(1);
    PG_RETURN_INT32((int32)value_of(sirophan_check_search(sheet.at, sheet.length, text.at, text.length), text, NOTHING));
}

PG_FUNCTION_INFO_V1(sql_meaning);
Datum sql_meaning(PG_FUNCTION_ARGS) {
    sql_check(fcinfo);
    PG_RETURN_BOOL(true);
}

PG_FUNCTION_INFO_V1(sql_meaning_search);
Datum sql_meaning_search(PG_FUNCTION_ARGS) {
    sql_check_search(fcinfo);
    PG_RETURN_BOOL(true);
}

PG_FUNCTION_INFO_V1(sql_record);
Datum sql_record(PG_FUNCTION_ARGS) {
    bytes card = ARGUMENT(0);
    PG_RETURN_INT64((int64)value_of(sirophan_record(card.at, card.length), NOTHING, card));
}

PG_FUNCTION_INFO_V1(sql_plain);
Datum sql_plain(PG_FUNCTION_ARGS) {
    bytes filter = ARGUMENT(0);
    uint8_t buffer[SIROPHAN_TEXT];
    size_t length = value_of(sirophan_spell(filter.at, filter.length, buffer, sizeof buffer, 0), filter, NOTHING);
    bytea *spelled = palloc(VARHDRSZ + length);
    SET_VARSIZE(spelled, VARHDRSZ + length);
    memcpy(VARDATA(spelled), buffer, length);
    PG_RETURN_BYTEA_P(spelled);
}

/* The answer, and what each test does for it, as JSON. */
PG_FUNCTION_INFO_V1(sql_explain);
Datum sql_explain(PG_FUNCTION_ARGS) {
    static const char *const marks[] = {"\"spared\"", "\"yes\"", "\"no\""};
    /* no test is marked so: it stands behind the last */
    enum { END = 255 };
    bytes sheet = ARGUMENT(0), filter = ARGUMENT(1), card = ARGUMENT(2);
    uint8_t cells[SIROPHAN_TESTS + 1];
    sirophan_answer answer;
    StringInfoData told;
    memset(cells, END, sizeof cells);
    answer = sirophan_explain(sheet.at, sheet.length, filter.at, filter.length, card.at, card.length, cells, SIROPHAN_TESTS);
    initStringInfo(&told);
    appendStringInfo(&told, "{\"matches\":%s,\"tests\":[", value_of(answer, filter, card) == 1 ? "true" : "false");
    for (int i = 0; cells[i] != END; i++) {
        appendStringInfo(&told, "%s%s", i > 0 ? "," : "", marks[cells[i]]);
    }
    appendStringInfoString(&told, "]}");
    PG_RETURN_TEXT_P(cstring_to_text_with_len(told.data, told.len));
}

/* ---- questions without a meaning, where no row is looked at */

/* The functions that a call is turned into, and the check of a question that is known. */
typedef struct twins {
    const char *meaning;
    const char *each;
    sirophan_answer (*check)(const uint8_t *, size_t, const uint8_t *, size_t);
} twins;

static const twins by_filter = {"sirophan_meaning", "sirophan_match_each", sirophan_check};
static const twins by_search = {"sirophan_meaning_search", "sirophan_search_each", sirophan_check_search};

/* A call of the function of a name that stands beside another, with the first arguments. */
static Expr *call_beside(const FuncExpr *other, const char *name, int count) {
    Oid types[3] = {BYTEAOID, BYTEAOID, BYTEAOID};
    oidvector *signature = buildoidvector(types, count);
    Oid function = GetSysCacheOid3(PROCNAMEARGSNSP, Anum_pg_proc_oid, CStringGetDatum(name), PointerGetDatum(signature),
                                   ObjectIdGetDatum(get_func_namespace(other->funcid)));
    List *arguments = list_copy_head(copyObject(other->args), count);
    if (!OidIsValid(function)) elog(ERROR, "the function %s of the extension sirophan is gone", name);
    return (Expr *)makeFuncExpr(function, BOOLOID, arguments, InvalidOid, InvalidOid, COERCE_EXPLICIT_CALL);
}

/* Whether an argument is known while a query is planned. NULL is not asked: of a strict function the planner makes NULL before. */
static bool is_known(Node *argument) {
    return IsA(argument, Const) && !((Const *)argument)->constisnull;
}

/* Whether it is the same for all rows of a query, and known when that begins to run. */
static bool is_known_before_rows(Node *argument) {
    return !contain_vars_of_level(argument, 0) && !contain_volatile_functions(argument);
}

/*
 * Refuses a question that is known; turns a call whose question is known when the query begins into the check of it and the twin's call. The
 * check has no column in it: as a part of a WHERE the planner asks it once, before the first row. The twin has no support, or it would be
 * turned into more whenever the planner simplifies again.
 */
static Node *simplified(const FuncExpr *call, const twins *twins) {
    Node *sheet = linitial(call->args), *text = lsecond(call->args);
    if (is_known(sheet) && is_known(text)) {
        bytes asked = taken(((Const *)text)->constvalue), on = taken(((Const *)sheet)->constvalue);
        value_of(twins->check(on.at, on.length, asked.at, asked.length), asked, NOTHING);
        return NULL;
    }
    if (!is_known_before_rows(sheet) || !is_known_before_rows(text)) return NULL;
    return (Node *)make_andclause(list_make2(call_beside(call, twins->meaning, 2), call_beside(call, twins->each, 3)));
}

static Datum support(FunctionCallInfo fcinfo, const twins *twins) {
    Node *request = (Node *)PG_GETARG_POINTER(0);
    if (!IsA(request, SupportRequestSimplify)) PG_RETURN_POINTER(NULL);
    PG_RETURN_POINTER(simplified(((SupportRequestSimplify *)request)->fcall, twins));
}

PG_FUNCTION_INFO_V1(sql_support);
Datum sql_support(PG_FUNCTION_ARGS) {
    return support(fcinfo, &by_filter);
}

PG_FUNCTION_INFO_V1(sql_support_search);
Datum sql_support_search(PG_FUNCTION_ARGS) {
    return support(fcinfo, &by_search);
}

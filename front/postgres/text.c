/* The text forms and the binary form of a set.
 *
 * Two text forms are read, and the setting fixedbitset.output says which one is written. `auto` has runs up to SHORT_TEXT
 * characters, and beyond it the shorter form:
 *
 *     set    = runs | hex
 *     runs   = "{" [ item { "," item } ] "}" "/" length
 *     item   = position [ "-" position ]
 *     hex    = "x:" { digit digit } "/" length
 *
 * Numbers are decimal. In `runs` spaces may stand between any two parts. Items may come in any order and may overlap; in
 * "a-b" both ends are meant, and a is not past b. It is written ascending, by runs as long as they go. In `hex` nothing else
 * may stand. Two digits are eight positions, least first, as in the binary form: there are as many as the length needs, and
 * no position past it is set.
 */
#include "fixedbitset.h"

#include <ctype.h>

#include "lib/stringinfo.h"
#include "libpq/pqformat.h"
#include "mb/pg_wchar.h"
#include "parser/scansup.h"
#include "utils/builtins.h"
#include "utils/guc.h"

enum { OUTPUT_AUTO, OUTPUT_RUNS, OUTPUT_HEX };

static const struct config_enum_entry output_forms[] = {
    {"auto", OUTPUT_AUTO, false}, {"runs", OUTPUT_RUNS, false}, {"hex", OUTPUT_HEX, false}, {NULL, 0, false}};
static int output_form = OUTPUT_AUTO;

/* A text in runs up to this is not compared with the one in digits. */
#define SHORT_TEXT 100

static const char *show_longest(void) {
    return psprintf("%lld", (long long)longest);
}

void _PG_init(void);

/* Called by the server once it has loaded the module. Any user may set both. The greatest length is a limit for values, and none
 * for who writes queries, which can take as much memory without a set: the owner of a database sets it, who may be no superuser. */
void _PG_init(void) {
    DefineCustomEnumVariable("fixedbitset.output", "How a bitset is written as text.", NULL, &output_form, OUTPUT_AUTO,
                             output_forms, PGC_USERSET, 0, NULL, NULL, NULL);
    DefineCustomRealVariable("fixedbitset.longest", "The greatest length in bits that a text, a value, a cast or an argument may say.",
                             "Stored sets may be longer.", &longest, MAX_LENGTH, 0, MAX_LENGTH, PGC_USERSET, 0, NULL, NULL,
                             show_longest);
    MarkGUCPrefixReserved("fixedbitset");
}

/* The text, where it is read, and whether spaces may stand between its parts. */
typedef struct Parser {
    const char *text;
    const char *at;
    bool with_spaces;
} Parser;

/* Refuses the text, and says at which character. A number is that of a position in quotes. */
static void __attribute__((noreturn)) fail(const Parser *parser, int code, const char *what) {
    int before = pg_mbstrlen_with_len(parser->text, parser->at - parser->text);
    bool is_number = *parser->text && parser->text[strspn(parser->text, "-0123456789")] == '\0';
    ereport(ERROR, (errcode(code), errmsg("invalid input syntax for type bitset: \"%s\"", parser->text),
                    errdetail("%s at character %d.", what, before + 1),
                    is_number ? errhint("A position has no quotes, or a cast: s @> 7, s @> '7'::bigint.") : 0));
}

/* Refuses the text for its form, unless it is as it should be. */
static void expect(const Parser *parser, bool is_right, const char *what) {
    if (!is_right)
        fail(parser, ERRCODE_INVALID_TEXT_REPRESENTATION, what);
}

static void skip_spaces(Parser *parser) {
    while (parser->with_spaces && scanner_isspace(*parser->at))
        parser->at++;
}

/* Whether the wanted character comes next, behind spaces; then it is taken. */
static bool take(Parser *parser, char wanted) {
    skip_spaces(parser);
    return *parser->at == wanted && parser->at++ != NULL;
}

/* A number that is neither past `greatest` nor, at the end of a run, before its start. (One that no `uint64` holds is read as
 * the greatest of these, which is past any length.) */
static size_t take_number(Parser *parser, size_t least, size_t greatest, const char *past) {
    char *end;
    uint64 value = strtoull(parser->at, &end, 10);
    expect(parser, strspn(parser->at, "0123456789") > 0, "A number is expected");
    if (value > greatest)
        fail(parser, ERRCODE_NUMERIC_VALUE_OUT_OF_RANGE, past);
    expect(parser, value >= least, "A run ends before it starts");
    parser->at = end;
    return value;
}

/* A position from `least` on. The set has one, so its length is not 0. */
static size_t take_position(Parser *parser, const bits *set, size_t least) {
    skip_spaces(parser);
    return take_number(parser, least, set->length - 1, "A position is not below the length");
}

/* A position or a run of them, which are inserted. */
static void take_item(Parser *parser, bits *set) {
    size_t first = take_position(parser, set, 0);
    size_t last = take(parser, '-') ? take_position(parser, set, first) : first;
    sure(bits_insert_range(set, first, last + 1));
}

/* The length, which is the last part of both forms. */
static size_t take_length(Parser *parser) {
    size_t length;
    skip_spaces(parser);
    length = take_number(parser, 0, MAX_LENGTH, "The length is past the greatest, " CppAsString2(MAX_LENGTH) ",");
    skip_spaces(parser);
    expect(parser, *parser->at == '\0', "The end is expected");
    return checked_length(length);
}

/* The form in runs. Its length is read first, so that each item is checked and inserted as it is read. */
static bits take_runs(Parser *parser) {
    const char *slash = strrchr(parser->text, '/');
    bits set;
    parser->at = slash ? slash + 1 : parser->text + strlen(parser->text);
    expect(parser, slash != NULL, "\"/\" and the length are expected");
    set = new_set(take_length(parser));

    parser->at = parser->text;
    expect(parser, take(parser, '{'), "\"{\" is expected");
    if (!take(parser, '}')) {
        expect(parser, set.length > 0, "\"}\" is expected");
        do {
            CHECK_FOR_INTERRUPTS();
            take_item(parser, &set);
        } while (take(parser, ','));
        expect(parser, take(parser, '}'), "\",\" or \"}\" is expected");
    }
    expect(parser, take(parser, '/') && parser->at == slash + 1, "\"/\" and the length are expected");
    return set;
}

/* How many hexadecimal digits a text begins with. */
static size_t count_digits(const char *text) {
    size_t count = 0;
    while (isxdigit((unsigned char)text[count])) {
        CHECK_FOR_INTERRUPTS();
        count++;
    }
    return count;
}

/* The form in hexadecimal digits. */
static bits take_hex(Parser *parser) {
    const char *digits = parser->text + strlen("x:");
    size_t count = count_digits(digits), length, wanted;
    bits set;
    parser->at = digits + count;
    expect(parser, *parser->at == '/', "A hexadecimal digit or \"/\" is expected");
    parser->at++;
    length = take_length(parser);
    wanted = 2 * OCTETS(length);
    parser->at = digits + Min(count, wanted);
    expect(parser, count >= wanted, "More digits are expected");
    expect(parser, count <= wanted, "The length has no room for the digit");
    set = new_set(length);
    for (size_t at = 0; at < count; at += PART) {
        CHECK_FOR_INTERRUPTS();
        hex_decode(digits + at, Min(count - at, PART), (char *)set.words + at / 2);
    }
    if (!IS_SET(&set)) {
        /* There are no more digits than the length needs, so the last byte has the position. */
        parser->at -= 2;
        fail(parser, ERRCODE_NUMERIC_VALUE_OUT_OF_RANGE, "A position is not below the length");
    }
    return set;
}

FUNCTION(bitset_in) {
    char *text = PG_GETARG_CSTRING(0);
    Parser parser = {text, text, strncmp(text, "x:", strlen("x:")) != 0};
    bits set = parser.with_spaces ? take_runs(&parser) : take_hex(&parser);
    return stored_set(&set);
}

static void append_number(StringInfo text, size_t number) {
    char digits[MAXINT8LEN + 1];
    appendBinaryStringInfo(text, digits, pg_ulltoa_n(number, digits));
}

/* Writes the form in runs, unless it is longer than the greatest size. */
static bool append_runs(StringInfo text, const bits *set, int greatest) {
    appendStringInfoChar(text, '{');
    BITS_FOR_EACH_RUN(start, end, set) {
        CHECK_FOR_INTERRUPTS();
        if (text->len >= greatest)
            return false;
        if (text->len > 1)
            appendStringInfoChar(text, ',');
        append_number(text, start);
        if (end - start > 1) {
            appendStringInfoChar(text, '-');
            append_number(text, end - 1);
        }
    }
    appendStringInfoChar(text, '}');
    return text->len <= greatest;
}

/* Writes the form in hexadecimal digits, with room for all that stands behind. */
static void append_hex(StringInfo text, const bits *set) {
    size_t count = OCTETS(set->length);
    enlargeStringInfo(text, 2 * count + sizeof("x:/" CppAsString2(MAX_LENGTH)));
    appendStringInfoString(text, "x:");
    for (size_t at = 0; at < count; at += PART) {
        CHECK_FOR_INTERRUPTS();
        text->len += hex_encode((char *)set->words + at, Min(count - at, PART), text->data + text->len);
    }
}

/* Writes the form that is set, or the shorter one. */
static void append_form(StringInfo text, const bits *set) {
    int digits = strlen("x:") + 2 * OCTETS(set->length);
    int greatest = output_form == OUTPUT_AUTO ? Max(digits, SHORT_TEXT) : PG_INT32_MAX;
    if (output_form != OUTPUT_HEX && append_runs(text, set, greatest))
        return;
    resetStringInfo(text);
    append_hex(text, set);
}

FUNCTION(bitset_out) {
    READ(set, 0);
    StringInfoData text;
    initStringInfo(&text);
    append_form(&text, set);
    appendStringInfoChar(&text, '/');
    append_number(&text, set->length);
    PG_RETURN_CSTRING(text.data);
}

/* The binary form: the length as an integer of eight bytes, and eight positions a byte, least first. */
FUNCTION(bitset_send) {
    READ(set, 0);
    StringInfoData message;
    pq_begintypsend(&message);
    pq_sendint64(&message, set->length);
    pq_sendbytes(&message, (char *)set->words, OCTETS(set->length));
    PG_RETURN_BYTEA_P(pq_endtypsend(&message));
}

FUNCTION(bitset_recv) {
    StringInfo message = (StringInfo)PG_GETARG_POINTER(0);
    int64 length = pq_getmsgint64(message);
    int count = message->len - message->cursor;
    bits set;
    if (length < 0 || length > MAX_LENGTH || OCTETS(length) != (size_t)count)
        REFUSE(INVALID_BINARY_REPRESENTATION, "external bitset of length %lld has %d bytes", (long long)length, count);
    set = new_set(checked_length(length));
    pq_copymsgbytes(message, (char *)set.words, count);
    if (!IS_SET(&set))
        REFUSE(INVALID_BINARY_REPRESENTATION, "external bitset of length %lld has a position past its length",
               (long long)length);
    return stored_set(&set);
}

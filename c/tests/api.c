/*
 * Calls the functions of torkettle.h for each type, prints what they return and write, and compares that with what
 * torkettle.h says. Each text has an allocation of exactly its size, so that valgrind sees every byte that is read
 * outside of it.
 *
 * This file is C99 and C++. With -DUNSET, it leaves variables unset that a call may set: .ci/c then only compiles it,
 * with all warnings.
 */
#include "torkettle.h"

#include <limits.h>
#include <stdio.h>
#include <stdlib.h>
#include <string.h>

/* What a variable has before a call, which sets it only if there is a number. */
#ifdef UNSET
#define BEFORE
#define RESET(variable) ((void)0)
#define IS_SET(variable) 0
#else
#define BEFORE = 99
#define RESET(variable) (variable = 99)
#define IS_SET(variable) (variable != 99)
#endif

enum { LINES = 256, SIZE = 512 };

/* Makes a call, with flags or a separator, and prints what it returned and wrote. */
typedef void print(char *out, const char *text, size_t length, int option);

typedef struct functions {
    const char *name, *greatest;
    size_t bits;
    int is_signed;
    print *whole, *prefix, *canonical, *json, *pos, *prefix_pos, *column, *fields;
    torkettle_error (*error)(const char *text, size_t length, unsigned flags);
} functions;

static unsigned long checks, failures;

static void require(int is_right, const functions *of, const char *what, const char *text, int option)
{
    checks++;
    if (!is_right && failures++ < 20)
        fprintf(stderr, "%s of %s: \"%s\", flags or separator %d\n", what, of->name, text, option);
}

/* Defines what prints a call, which returns 0 if it writes a number of so many bytes. */
#define DEFINE_PRINT(name, function, type, call, bytes)                                                                \
    static void function##_##name(char *out, const char *text, size_t length, int option)                              \
    {                                                                                                                  \
        const unsigned flags = (unsigned)option;                                                                       \
        type value BEFORE;                                                                                             \
        size_t count BEFORE;                                                                                           \
        const int status = (int)(call);                                                                                \
        (void)flags;                                                                                                   \
        if (status == 0)                                                                                               \
            put_##name(out, value);                                                                                    \
        else                                                                                                           \
            sprintf(out, "%c ", IS_SET(value) || IS_SET(count) ? '!' : ".ESOI"[status]);                               \
        sprintf(out + strlen(out), "%d", status == 0 ? (int)(bytes) : 0);                                              \
        (void)count;                                                                                                   \
    }

#define DEFINE_PRINTS(name, other, type, greatest)                                                                     \
    static void put_##name(char *out, type value)                                                                      \
    {                                                                                                                  \
        char digits[64] = "", *at = digits + sizeof digits - 1;                                                        \
        const int is_negative = value < 1 && value != 0;                                                               \
        for (; value != 0 || *at == 0; value = (type)(value / 10))                                                     \
            *--at = (char)('0' + (is_negative ? -1 : 1) * (int)(value % 10));                                          \
        sprintf(out + strlen(out), "%s%s ", is_negative ? "-" : "", at);                                               \
    }                                                                                                                  \
    DEFINE_PRINT(name, whole, type, torkettle_parse_##name(text, length, flags, &value), length)                       \
    DEFINE_PRINT(name, prefix, type, torkettle_parse_prefix_##name(text, length, flags, &value, &count), count)        \
    DEFINE_PRINT(name, canonical, type, !torkettle_canonical_##name(text, length, &value), length)                     \
    DEFINE_PRINT(name, json, type, !torkettle_json_integer_##name(text, length, &value, &count), count)

/* Prints a status and two numbers, and the bytes of a bad field. */
static void put(char *out, int status, size_t index, size_t offset, const char *text, size_t length)
{
    sprintf(out + strlen(out), "%c%d@%d:%.*s ", ".ESOI"[status], (int)index, (int)offset, (int)length,
            length > 0 ? text : "");
}

/* Defines what prints the items of a column, and of fields, too. */
#define DEFINE_ALL(name, other, type, greatest)                                                                        \
    DEFINE_PRINTS(name, other, type, greatest)                                                                         \
    DEFINE_PRINT(name, pos, type, torkettle_parse_pos_##name(text, length, flags, &value), length)                     \
    DEFINE_PRINT(name, prefix_pos, type, torkettle_parse_prefix_pos_##name(text, length, flags, &value, &count),       \
                 count)                                                                                                \
                                                                                                                       \
    static void column_##name(char *out, const char *text, size_t length, int separator)                               \
    {                                                                                                                  \
        torkettle_column_##name column;                                                                                \
        type value BEFORE;                                                                                             \
        memset(&column, 0x5A, sizeof column);                                                                          \
        torkettle_column_##name##_init(&column, text, length, (char)separator);                                        \
        for (; torkettle_column_##name##_next(&column, &value); RESET(value))                                          \
            put_##name(out, value);                                                                                    \
        if (IS_SET(value) || torkettle_column_##name##_read(&column, NULL, 0) > 0)                                     \
            strcat(out, "written ");                                                                                   \
        put(out, (int)column.status, column.index, column.offset, "", 0);                                              \
    }                                                                                                                  \
                                                                                                                       \
    static void fields_##name(char *out, const char *text, size_t length, int separator)                               \
    {                                                                                                                  \
        torkettle_fields_##name fields;                                                                                \
        type value BEFORE;                                                                                             \
        memset(&fields, 0x5A, sizeof fields);                                                                          \
        if (separator == LINES)                                                                                        \
            torkettle_fields_##name##_init_lines(&fields, text, length);                                               \
        else                                                                                                           \
            torkettle_fields_##name##_init(&fields, text, length, (char)separator);                                    \
        while (torkettle_fields_##name##_next(&fields, &value)) {                                                      \
            if (fields.status == TORKETTLE_OK) {                                                                       \
                put_##name(out, value);                                                                                \
                RESET(value);                                                                                          \
            } else {                                                                                                   \
                put(out, (int)fields.status, fields.index, fields.offset, fields.text, fields.length);                 \
            }                                                                                                          \
        }                                                                                                              \
        if (IS_SET(value) || torkettle_fields_##name##_read(&fields, NULL, 0) > 0)                                     \
            strcat(out, "written ");                                                                                   \
        put(out, (int)fields.status, fields.next_index, fields.next_offset, "", 0);                                    \
    }

/* The functions of a name, with those that it lacks of another. */
#define FUNCTIONS(name, other, type, greatest)                                                                         \
    {#name, greatest, 8 * sizeof(type), (type)-1 < 1, whole_##name, prefix_##name, canonical_##name, json_##name,      \
     pos_##other, prefix_pos_##other, column_##other, fields_##other, torkettle_parse_prefix_error_##other},

#if ULONG_MAX == UINT64_MAX
#define LONGS(some) some(l, i64, long, "9223372036854775807") some(ul, u64, unsigned long, "18446744073709551615")
#else
#define LONGS(some) some(l, i32, long, "2147483647") some(ul, u32, unsigned long, "4294967295")
#endif
#if defined __SIZEOF_INT128__ && !defined TORKETTLE_NO_INT128
#define LARGE(all)                                                                                                     \
    all(i128, i128, torkettle_i128, "170141183460469231731687303715884105727")                                         \
    all(u128, u128, torkettle_u128, "340282366920938463463374607431768211455")
#else
#define LARGE(all)
#endif
#define TYPES(all, some)                                                                                               \
    all(i8, i8, int8_t, "127") all(u8, u8, uint8_t, "255")                                                             \
    all(i16, i16, int16_t, "32767") all(u16, u16, uint16_t, "65535")                                                   \
    all(i32, i32, int32_t, "2147483647") all(u32, u32, uint32_t, "4294967295")                                         \
    all(i64, i64, int64_t, "9223372036854775807") all(u64, u64, uint64_t, "18446744073709551615") LARGE(all)           \
    some(ll, i64, long long, "9223372036854775807")                                                                    \
    some(ull, u64, unsigned long long, "18446744073709551615") LONGS(some)

TYPES(DEFINE_ALL, DEFINE_PRINTS)

static const functions all[] = {TYPES(FUNCTIONS, FUNCTIONS)};

/* Makes a call with a copy of a text, and compares what is printed. */
static void check(const functions *of, print *call, const char *what, const char *text, size_t length, int option,
                  const char *expected)
{
    char out[SIZE] = "";
    char *const copy = text == NULL ? NULL : (char *)calloc(length, 1);
    if (length > 0)
        memcpy(copy, text, length);
    call(out, copy, length, option);
    require(strcmp(out, expected) == 0, of, what, text == NULL ? "" : text, option);
    free(copy);
}

/* All calls that read a number at the start of a text, or all of it: so many bytes, or the letter of a status. */
static void check_parse(const functions *of, int flags, const char *text, const char *number, size_t bytes)
{
    char found[SIZE];
    const size_t length = strlen(text), count = number[0] < 'A' ? bytes : 0;
    const int has_sign = text[0] == '+' || text[0] == '-';
    const char *const whole = number[0] < 'A' && count != length ? "I 0" : found;
    sprintf(found, "%s %d", number, (int)count);
    check(of, of->whole, "parse", text, length, flags, whole);
    check(of, of->prefix, "parse_prefix", text, length, flags, found);
    check(of, of->pos, "parse_pos", text, length, flags, has_sign ? "E 0" : whole);
    check(of, of->prefix_pos, "parse_prefix_pos", text, length, flags, has_sign ? "E 0" : found);
}

/* The greatest number of a type behind a sign, with so much added to its last digit. */
static void beyond(char *out, const char *sign, const functions *of, int more)
{
    sprintf(out, "%s%s", sign, of->greatest);
    out[strlen(out) - 1] = (char)(out[strlen(out) - 1] + more);
}

static void check_parses(const functions *of, int flags)
{
    const char *const empty[] = {"", " 1", "-", "+", "+-7", "--7", "x", "/", ":"};
    const char *const zeros = "00000000000000000000000000000000000000007";
    char bound[SIZE];
    size_t at;
    for (at = 0; at < sizeof empty / sizeof *empty; at++)
        check_parse(of, flags, empty[at], "E", 0);
    check(of, of->whole, "parse", NULL, 0, flags, "E 0");
    check_parse(of, flags, "42", "42", 2);
    check_parse(of, flags, "007", "7", 3);
    check_parse(of, flags, "120-7", "120", 3);
    check_parse(of, flags, "42x12345678901234567890", "42", 2);
    check_parse(of, flags, "+042,", flags & (int)TORKETTLE_SKIP_PLUS ? "42" : "E", 4);
    check_parse(of, flags, "-0", of->is_signed ? "0" : "E", 2);
    check_parse(of, flags, "-42;", of->is_signed ? "-42" : "E", 3);
    check_parse(of, flags, of->greatest, of->greatest, strlen(of->greatest));
    beyond(bound, "", of, 1);
    check_parse(of, flags, bound, "O", 0);
    beyond(bound, "-", of, 1);
    check_parse(of, flags, bound, of->is_signed ? bound : "E", strlen(bound));
    beyond(bound, "-", of, 2);
    check_parse(of, flags, bound, of->is_signed ? "O" : "E", 0);
    /* So many digits are too many, except for zeros that are skipped, and for types of at most 32 bits. */
    if (flags & (int)TORKETTLE_SKIP_ZEROES)
        check_parse(of, flags, zeros, "7", strlen(zeros));
    else if (of->bits >= 64)
        check_parse(of, flags, zeros, "S", 0);
}

static void check_formats(const functions *of)
{
    char above[SIZE];
    beyond(above, "", of, 1);
    check(of, of->canonical, "canonical", "120", 3, 0, "120 3");
    check(of, of->canonical, "canonical", "007", 3, 0, "E 0");
    check(of, of->canonical, "canonical", above, strlen(above), 0, "E 0");
    check(of, of->json, "json_integer", "12, 7]", 6, 0, "12 2");
    check(of, of->json, "json_integer", "-0", 2, 0, "0 2");
    check(of, of->json, "json_integer", "1.5", 3, 0, "E 0");
    check(of, of->json, "json_integer", above, strlen(above), 0, "E 0");
}

/* What is read of a column, and of the same as fields: numbers, errors as status, index and offset, and the end. */
static void check_lists(const functions *of, const char *text, size_t length, int separator, const char *column,
                        const char *fields)
{
    check(of, of->fields, "fields", text, length, separator, fields);
    if (separator != LINES)
        check(of, of->column, "a column", text, length, separator, column);
}

static void check_columns(const functions *of)
{
    char above[SIZE], text[2 * SIZE], fields[2 * SIZE];
    int byte;
    for (byte = -128; byte < 128; byte++) {
        const char three[] = {'1', (char)byte, '2', (char)byte, '3', 0};
        const int is_refused = ('0' <= byte && byte <= '9') || byte == '+' || byte == '-';
        check_lists(of, three, 5, byte, is_refused ? "I-1@-1: " : "1 2 3 .0@0: ",
                    is_refused ? "I-1@-1: .0@0: " : "1 2 3 .3@5: ");
    }
    check_lists(of, NULL, 0, ',', ".0@0: ", ".0@0: ");
    check_lists(of, "1;02;+3;", 8, ';', "1 2 3 .0@0: ", "1 2 3 .3@8: ");
    check_lists(of, "1,,2", 4, ',', "1 E1@2: ", "1 E1@2: 2 .3@4: ");
    check_lists(of, "1,2,+3x,4", 9, ',', "1 2 I2@6: ", "1 2 I2@4:+3x 4 .4@9: ");
    check_lists(of, "1\r\n2\n3\r4\n+5\r\n\r\n6\r", 17, LINES, "", "1 2 I2@5:3\r4 5 E4@13: I5@15:6\r .6@17: ");
    beyond(above, "", of, 1);
    sprintf(text, "1\t%s\t7\t", above);
    sprintf(fields, "1 O1@2:%s 7 .3@%d: ", above, (int)strlen(text));
    check_lists(of, text, strlen(text), '\t', "1 O1@2: ", fields);
}

/* Every size of a buffer: what fits is written, with a NUL behind it, and no byte more. */
static void check_buffers(const functions *of)
{
    const char *const message = "atoi_simd overflow, input: [32, 35, 36]";
    const torkettle_error error = torkettle_parse_error_u8("256", 3, 0);
    size_t size;
    for (size = 0; size <= 64; size++) {
        char buffer[65], expected[65];
        memset(buffer, '#', sizeof buffer);
        memset(expected, '#', sizeof expected);
        snprintf(expected, size, "%s", message);
        require(torkettle_error_text(size > 0 ? buffer : NULL, size, &error, "256", 3) == strlen(message) &&
                    memcmp(buffer, expected, sizeof buffer) == 0,
                of, "error_text", "256", (int)size);
    }
}

/* No message is longer than the constant says, and none reads outside of the text. Other statuses have none. */
static void check_messages(const functions *of)
{
    char *const text = (char *)memset(malloc(60), '#', 60);
    char most[TORKETTLE_ERROR_TEXT_SIZE];
    torkettle_error error = of->error("7,", 2, 0);
    int status;
    require(error.status == 0 && error.bits == 0 && error.offset == 0 && error.count == 0, of, "no error", "7,", 0);
    memset(&error, 0xFF, sizeof error);
    error.bits = 128;
    for (status = 0; status < 6; status++) {
        size_t length;
        error.status = (torkettle_status)status;
        error.offset = 0;
        length = torkettle_error_text(most, sizeof most, &error, text, 60);
        require(length == strlen(most) && (length == 0) == (status == 0 || status == 5), of, "a message", most, status);
        error.offset = 61;
        require(torkettle_error_text(most, sizeof most, &error, text, 60) <= length, of, "a message", most, status);
    }
    free(text);
}

int main(void)
{
    const functions *of;
    int flags;
    for (of = all; of < all + sizeof all / sizeof *all; of++) {
        for (flags = 0; flags < 4; flags++)
            check_parses(of, flags);
        check_formats(of);
        check_columns(of);
        check_messages(of);
    }
    check_buffers(all);
    require(strcmp(torkettle_version(), TORKETTLE_VERSION) == 0, all, "version", torkettle_version(), 0);
    printf("%lu checks, %lu failed\n", checks, failures);
    return failures > 0;
}

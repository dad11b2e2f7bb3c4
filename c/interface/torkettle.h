/*
 * Torkettle: decimal integers from text, for C99 and C++11.
 *
 * SPDX-License-Identifier: MIT
 *
 *     int64_t value;
 *     if (torkettle_parse_i64(text, length, TORKETTLE_SKIP_ZEROES, &value) == TORKETTLE_OK) ...
 *
 * A text consists of the `length` bytes at `text`. It needs no terminator, and no other byte is read. If `length` is 0,
 * the text is empty, and `text` may be NULL.
 *
 * To use it, compile torkettle.c with your program, or link with a library of it. What is inline reads a number of one
 * digit and, at the start of a longer text, most numbers itself, without a call.
 *
 * No function allocates memory or keeps state. You may call each of them from any thread and from a signal handler.
 * The time that a call takes is at most proportional to `length`.
 *
 * A name with `i64` exists for each of these types. For another type, such as `size_t`, parse into a `uint64_t` and
 * assign it.
 *
 *     i8   int8_t      u8   uint8_t
 *     i16  int16_t     u16  uint16_t
 *     i32  int32_t     u32  uint32_t
 *     i64  int64_t     u64  uint64_t
 *     i128 __int128    u128 unsigned __int128     torkettle_i128 and torkettle_u128, if the compiler has them
 *
 * The functions torkettle_parse_i64, torkettle_parse_prefix_i64, torkettle_canonical_i64 and torkettle_json_integer_i64
 * also exist for these types. To get an error of theirs, call torkettle_parse_error_i64 for the type of the same size.
 *
 *     l    long        ul   unsigned long
 *     ll   long long   ull  unsigned long long
 */
#ifndef TORKETTLE_H
#define TORKETTLE_H

/* In a system header, compilers do not look for what to warn of. They do in torkettle.c. */
#if defined __GNUC__ && !defined TORKETTLE_SOURCE_ && __INCLUDE_LEVEL__ > 0
#pragma GCC system_header
#endif

#include <stddef.h>
#include <stdint.h>

#if !defined __cplusplus && defined __STRICT_ANSI__ && (!defined __STDC_VERSION__ || __STDC_VERSION__ < 199901L)
#error "torkettle.h needs C99 or later"
#elif defined __cplusplus && __cplusplus < 201103L && !defined _MSC_VER
#error "torkettle.h needs C++11 or later"
#elif SIZE_MAX < UINT64_MAX
#error "torkettle.h needs a 64-bit target"
#else

#include <limits.h>
#ifdef _MSC_VER
#include <intrin.h>
#endif

#ifdef __cplusplus
#define TORKETTLE_NOEXCEPT noexcept
#define TORKETTLE_BYTES_(text) reinterpret_cast<const uint8_t *>(text)
extern "C" {
#else
#include <stdbool.h>
#define TORKETTLE_NOEXCEPT
#define TORKETTLE_BYTES_(text) ((const uint8_t *)(text))
#endif

/* The version of this header. torkettle_version returns the version of the library. */
#define TORKETTLE_VERSION "0.1.0"

/* Ends a declaration, and declares a function. With gcc and clang, a symbol of the library has the version of its
   interface, so that a process may load two versions. */
#if defined __APPLE__
#define TK_SYMBOL(name) __asm__("_torkettle_0_1_" #name)
#elif defined __GNUC__ || defined __clang__
#define TK_SYMBOL(name) __asm__("torkettle_0_1_" #name)
#else
#define TK_SYMBOL(name)
#endif
#define TORKETTLE_SYMBOL_(name) TORKETTLE_NOEXCEPT TK_SYMBOL(name)

/*
 * The values of the argument `flags`: 0, one of these, or both with `|`. Other bits have no effect.
 *
 * TORKETTLE_SKIP_ZEROES  Leading zeros do not count towards the limit of digits (see TORKETTLE_SIZE).
 * TORKETTLE_SKIP_PLUS    A `+` before the digits is allowed.
 */
#define TORKETTLE_SKIP_ZEROES 1u
#define TORKETTLE_SKIP_PLUS 2u

/* The result of a call: TORKETTLE_OK, or the first error of this list that applies. */
typedef enum torkettle_status {
    /* The number was written to `*value`. With any other status, nothing was written. */
    TORKETTLE_OK = 0,
    /* There is no digit at the start of the text or, if it has a sign, after the sign. */
    TORKETTLE_EMPTY = 1,
    /* The number has more than 20 digits for u64, 19 for i64 or 39 for 128 bits. With TORKETTLE_SKIP_ZEROES, it is out
       of range. Without, leading zeros count as digits, and prefix calls for at most 32 bits allow only 16. */
    TORKETTLE_SIZE = 2,
    /* The number is out of range for the type: below, if it begins with `-`, and otherwise above. */
    TORKETTLE_OVERFLOW = 3,
    /* Another byte follows the number, in a call that must read the whole text. */
    TORKETTLE_INVALID = 4
} torkettle_status;

/* With -fshort-enums, a status would be one byte, and the library writes an unsigned. */
#ifdef __cplusplus
static_assert(sizeof(torkettle_status) == sizeof(unsigned), "torkettle.h does not work with -fshort-enums");
#else
typedef char torkettle_h_does_not_work_with_fshort_enums[sizeof(torkettle_status) == sizeof(unsigned) ? 1 : -1];
#endif

/* An error. Fields that its status does not use are 0. */
typedef struct torkettle_error {
    torkettle_status status;
    /* For TORKETTLE_INVALID, the number of bits of the value below: 128 for i128 and u128, otherwise 64. */
    unsigned bits;
    /* For TORKETTLE_INVALID, the offset of the first digit, in bytes. For TORKETTLE_SIZE and TORKETTLE_OVERFLOW, the
       same, or the offset of a later digit if leading zeros are skipped. For TORKETTLE_EMPTY, 0, also
       after a sign. */
    size_t offset;
    /* For TORKETTLE_INVALID, the number of digits. The byte after them is at `offset + count`. For TORKETTLE_SIZE, the
       number of skipped zeros plus that of the other digits, of which at most 17, 24 or 40 count. */
    size_t count;
    /* For TORKETTLE_INVALID, the number that the digits spell, without a sign. */
    uint64_t value_low;
    uint64_t value_high;
} torkettle_error;

/*
 * torkettle_status torkettle_parse_i64(const char *text, size_t length, unsigned flags, int64_t *value);
 *
 * Parses a whole text: digits, with an optional `-` before them if the type is signed. Writes the number to `*value`
 * and returns TORKETTLE_OK, or writes nothing and returns another status.
 *
 * torkettle_status torkettle_parse_prefix_i64(const char *text, size_t length, unsigned flags, int64_t *value,
 *                                             size_t *count);
 *
 * Parses the number at the start of a text, up to the first byte that is not a digit. Writes the number to `*value`,
 * writes its length in bytes, including the sign and leading zeros, to `*count`, and returns TORKETTLE_OK. Otherwise,
 * writes nothing and returns another status, which is never TORKETTLE_INVALID. If `*count` is `length`, the text may be
 * cut inside of a number.
 *
 * torkettle_error torkettle_parse_error_i64(const char *text, size_t length, unsigned flags);
 * torkettle_error torkettle_parse_prefix_error_i64(const char *text, size_t length, unsigned flags);
 *
 * Parse a text again and return the error of torkettle_parse_i64 or torkettle_parse_prefix_i64. If there is none, its
 * status is TORKETTLE_OK.
 *
 * torkettle_status torkettle_parse_pos_i64(const char *text, size_t length, unsigned flags, int64_t *value);
 * torkettle_status torkettle_parse_prefix_pos_i64(const char *text, size_t length, unsigned flags, int64_t *value,
 *                                                 size_t *count);
 *
 * Do the same as torkettle_parse_i64 and torkettle_parse_prefix_i64 for digits without a sign, also for a signed type.
 * TORKETTLE_SKIP_PLUS has no effect.
 *
 * bool torkettle_canonical_i64(const char *text, size_t length, int64_t *value);
 *
 * Parses a whole text that is a number as printf prints it: without leading zeros, `+` and `-0`. Writes the number to
 * `*value` and returns true, or writes nothing and returns false.
 *
 * bool torkettle_json_integer_i64(const char *text, size_t length, int64_t *value, size_t *count);
 *
 * Reads the number at the start of a text, as JSON writes integers: an optional `-`, then `0`, or digits of which the
 * first is not `0`. Writes the number to `*value` and its length in bytes to `*count`, and returns true. If there is
 * no such number, if it is out of range, or if a digit, `.`, `e` or `E` follows it, writes nothing and returns false.
 * `-0` is in range for every type.
 *
 * Columns: numbers with one byte between them, such as a comma. Each number may have leading zeros, and a `+` or, if
 * the type is signed, a `-`. The separator after the last number is optional.
 *
 *     torkettle_column_i64 column;
 *     int64_t value;
 *     torkettle_column_i64_init(&column, text, length, ',');
 *     while (torkettle_column_i64_next(&column, &value))
 *         sum += value;
 *     if (column.status != TORKETTLE_OK)
 *         fprintf(stderr, "no number in field %zu, at byte %zu\n", column.index, column.offset);
 *
 * void torkettle_column_i64_init(torkettle_column_i64 *column, const char *text, size_t length, char separator);
 *
 * Starts to read a column. Do not change the text while you read it. You need not free the struct, and a copy of it
 * continues at the same field. If the separator is a digit, `+` or `-`, the column has no number, its status is
 * TORKETTLE_INVALID, and its index and its offset are SIZE_MAX.
 *
 * bool torkettle_column_i64_next(torkettle_column_i64 *column, int64_t *value);
 *
 * Reads the next field. Writes its number to `*value` and returns true. At a bad field, at the end of the text and
 * after that, writes nothing and returns false.
 *
 * size_t torkettle_column_i64_read(torkettle_column_i64 *column, int64_t *values, size_t count);
 *
 * Reads several fields, which for more than about 15 is faster if at least 99 % have equally many digits: 4 to 16.
 * Writes at most `count` numbers to `values` and returns how many it has written. It writes fewer than `count` only if
 * it reaches a bad field or the end of the text. If `count` is 0, it reads nothing, and `values` may be NULL. It is
 * fastest if `count` is 128 or more.
 *
 * struct torkettle_column_i64 {
 *     torkettle_status status;  TORKETTLE_OK or, after a bad field, its error. TORKETTLE_INVALID means that a byte that
 *                               is not the separator follows the number.
 *     size_t index;             The index of the bad field, from 0.
 *     size_t offset;            For TORKETTLE_INVALID, the offset of the byte after the number, otherwise the offset of
 *                               the field. To learn more of the field, call torkettle_parse_prefix_error_i64 with both
 *                               flags for the text from there on.
 *     ...                       The others are only for the library.
 * };
 *
 * Fields: like a column, but you can continue after a bad field. A field is bad if it is not a number, for example if
 * it is empty. If the text ends with a separator, no field follows it.
 *
 *     torkettle_fields_i64 fields;
 *     int64_t value;
 *     torkettle_fields_i64_init_lines(&fields, text, length);
 *     while (torkettle_fields_i64_next(&fields, &value))
 *         if (fields.status == TORKETTLE_OK)
 *             sum += value;
 *         else
 *             fprintf(stderr, "no number in line %zu, at byte %zu\n", fields.index + 1, fields.offset);
 *
 * void torkettle_fields_i64_init(torkettle_fields_i64 *fields, const char *text, size_t length, char separator);
 *
 * Starts to read fields. Do not change the text while you read it. You need not free the struct, and a copy of it
 * continues at the same field. If the separator is a digit, `+` or `-`, the first call that reads a field finds one bad
 * field: its status is TORKETTLE_INVALID, its index and its offset are SIZE_MAX, its text is NULL, and its length is 0.
 *
 * void torkettle_fields_i64_init_lines(torkettle_fields_i64 *fields, const char *text, size_t length);
 *
 * Starts to read lines, which are then the fields. A line ends with "\n" or "\r\n", which is not part of it.
 *
 * void torkettle_fields_i64_starting_at(torkettle_fields_i64 *fields, size_t index, size_t offset);
 *
 * Sets the index and the offset of the next field, from which later fields are counted. To read a long text in pieces
 * that end with a separator, start each at the next_index and the next_offset of the piece before it. Sums above
 * SIZE_MAX wrap.
 *
 * bool torkettle_fields_i64_next(torkettle_fields_i64 *fields, int64_t *value);
 *
 * Reads the next field. If there is one, returns true, and either writes its number to `*value` and sets the status to
 * TORKETTLE_OK, or writes nothing and sets the status to the error of a bad field. At the end, and after that, writes
 * nothing, sets the status to TORKETTLE_OK, and returns false.
 *
 * size_t torkettle_fields_i64_read(torkettle_fields_i64 *fields, int64_t *values, size_t count);
 *
 * Reads several fields, which for more than about 15 is faster if at least 99 % have equally many digits: 4 to 16.
 * Writes at most `count` numbers to `values` and returns how many it has written. It stops at a bad field and sets the
 * status. Otherwise, the status is TORKETTLE_OK. The next call continues after the bad field, so a loop must not end
 * because a call wrote fewer than `count` numbers. If `count` is 0, `values` may be NULL.
 *
 *     while ((count = torkettle_fields_i64_read(&fields, values, 256)) > 0 || fields.status != TORKETTLE_OK) ...
 *
 * struct torkettle_fields_i64 {
 *     torkettle_status status;  If the last call stopped at a bad field, what torkettle_parse_i64 with both flags
 *                               returns for this field. Otherwise TORKETTLE_OK.
 *     size_t index;             The index of the bad field, from 0. If the status is TORKETTLE_OK, ignore this and the
 *                               next three.
 *     size_t offset;            The offset of its first byte.
 *     const char *text;         Its bytes, in your text, without the separator.
 *     size_t length;            Its length.
 *     size_t next_index;        The index of the next field or, at the end, the number of fields.
 *     size_t next_offset;       The offset of the next field or, at the end, of the end of the text.
 *     ...                       The others are only for the library.
 * };
 *
 * What is described neither above nor below is internal and may change in a minor version: all names that begin with
 * tk_, and functions such as those whose names begin with torkettle_whole_, torkettle_prefix_ and torkettle_next_. They
 * return a number and its length in two registers. If there is no number, the length is 0, and the first two return the
 * status in place of the number. The length that torkettle_next_ returns is 1 for a number, and 2 for a bad field.
 *
 * For other languages, torkettle_0_1_parse_i64 and torkettle_0_1_parse_prefix_i64 are functions of the shared library.
 */

/* ---- Written by hand, in c/interface/prelude.h, up to the next such line. */

/* @proved */
/* ---- The interface, written by hand. */

TK_INLINE tk_bytes tk_text(const char *text, size_t length) TORKETTLE_NOEXCEPT
{
    return tk_bytes_of(TORKETTLE_BYTES_(text), length);
}

/* The status of a call that found no number. It is never TORKETTLE_OK, but a compiler cannot know that, and would warn
   that the value of such a call may not be set. */
static inline torkettle_status torkettle_refusal(torkettle_status status) TORKETTLE_NOEXCEPT
{
#if defined __GNUC__ || defined __clang__
    if (status == TORKETTLE_OK)
        __builtin_unreachable();
    return status;
#else
    return status == TORKETTLE_OK ? TORKETTLE_EMPTY : status;
#endif
}

/* How many bytes of a text are fields: none if the separator is a digit, `+` or `-`, and so no field is found. */
static inline size_t torkettle_rest_length(size_t length, char separator) TORKETTLE_NOEXCEPT
{
    return tk_is_separator(TK_CAST(uint8_t, separator)) ? length : 0;
}

#if defined __SIZEOF_INT128__ && !defined TORKETTLE_NO_INT128
typedef tk_i128 torkettle_i128;
typedef tk_u128 torkettle_u128;
#define TORKETTLE_LARGE_TYPES_(of) of(i128, torkettle_i128) of(u128, torkettle_u128)
#else
#define TORKETTLE_LARGE_TYPES_(of)
#endif
/* For a macro that takes the name of a type and the type. */
#define TORKETTLE_TYPES_(of)                                                                                           \
    of(i8, int8_t) of(u8, uint8_t) of(i16, int16_t) of(u16, uint16_t) of(i32, int32_t) of(u32, uint32_t)               \
        of(i64, int64_t) of(u64, uint64_t) TORKETTLE_LARGE_TYPES_(of)

/* @print types.h, NAME: i8, TYPE: int8_t, WORD: i64 */
/* @print types.h, NAME: u8, TYPE: uint8_t, WORD: u64 */
/* @print types.h, NAME: i16, TYPE: int16_t, WORD: i64 */
/* @print types.h, NAME: u16, TYPE: uint16_t, WORD: u64 */
/* @print types.h, NAME: i32, TYPE: int32_t, WORD: i64 */
/* @print types.h, NAME: u32, TYPE: uint32_t, WORD: u64 */
/* @print types.h, NAME: i64, TYPE: int64_t, WORD: i64 */
/* @print types.h, NAME: u64, TYPE: uint64_t, WORD: u64 */
#if defined __SIZEOF_INT128__ && !defined TORKETTLE_NO_INT128
/* @print types.h, NAME: i128, TYPE: torkettle_i128, WORD: i64 */
/* @print types.h, NAME: u128, TYPE: torkettle_u128, WORD: u64 */
#endif

#if ULONG_MAX == UINT64_MAX
/* @print parses.h, NAME: l, TYPE: long, SAME: i64 */
/* @print parses.h, NAME: ul, TYPE: unsigned long, SAME: u64 */
#else
/* @print parses.h, NAME: l, TYPE: long, SAME: i32 */
/* @print parses.h, NAME: ul, TYPE: unsigned long, SAME: u32 */
#endif
/* @print parses.h, NAME: ll, TYPE: long long, SAME: i64 */
/* @print parses.h, NAME: ull, TYPE: unsigned long long, SAME: u64 */

/* The size of a buffer into which every message of torkettle_error_text fits. */
#define TORKETTLE_ERROR_TEXT_SIZE 333

/*
 * Writes the message of an error to a buffer as snprintf does: at most `size - 1` bytes and a NUL, and nothing if
 * `size` is 0. Returns the length of the whole message, without the NUL. Pass the `text` and the `length` of the call
 * that returned the error. For TORKETTLE_OK, the message is empty. A message is ASCII, and shows bytes of the text in
 * hexadecimal:
 *
 *     atoi_simd overflow, input: [32, 35, 36]
 */
size_t torkettle_error_text(char *buffer, size_t size, const torkettle_error *error, const char *text, size_t length)
    TORKETTLE_SYMBOL_(error_text);

/* Returns the version of the library, as TORKETTLE_VERSION has it. */
const char *torkettle_version(void) TORKETTLE_SYMBOL_(version);

/* torkettle.c goes on with these. */
#ifndef TORKETTLE_SOURCE_
/* @forget */
#undef TK_SYMBOL
#undef TORKETTLE_BYTES_
#undef TORKETTLE_SYMBOL_
#undef TORKETTLE_NOEXCEPT
#endif

#ifdef __cplusplus
}
#endif

#endif
#endif

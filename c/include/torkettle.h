/* Made by .ci/translate from the proved sources and c/interface. Do not edit. */
/*
 * Torkettle: decimal integers from text, for C99 and C++11.
 *
 * SPDX-License-Identifier: MIT
 *
 *     int64_t value;
 *     if (torkettle_parse_i64(text, length, TORKETTLE_SKIP_ZEROES, &value) == TORKETTLE_OK) ...
 *
 * A text consists of the `length` bytes at `text`. It needs no terminator, and no other byte is read. If `length` is 0,
 * the text is empty, and `text` may be NULL.
 *
 * To use it, compile torkettle.c with your program, or link with a library of it. What is inline reads a number of one
 * digit and, at the start of a longer text, most numbers itself, without a call.
 *
 * No function allocates memory or keeps state. You may call each of them from any thread and from a signal handler.
 * The time that a call takes is at most proportional to `length`.
 *
 * A name with `i64` exists for each of these types. For another type, such as `size_t`, parse into a `uint64_t` and
 * assign it.
 *
 *     i8   int8_t      u8   uint8_t
 *     i16  int16_t     u16  uint16_t
 *     i32  int32_t     u32  uint32_t
 *     i64  int64_t     u64  uint64_t
 *     i128 __int128    u128 unsigned __int128     torkettle_i128 and torkettle_u128, if the compiler has them
 *
 * The functions torkettle_parse_i64, torkettle_parse_prefix_i64, torkettle_canonical_i64 and torkettle_json_integer_i64
 * also exist for these types. To get an error of theirs, call torkettle_parse_error_i64 for the type of the same size.
 *
 *     l    long        ul   unsigned long
 *     ll   long long   ull  unsigned long long
 */
#ifndef TORKETTLE_H
#define TORKETTLE_H

/* In a system header, compilers do not look for what to warn of. They do in torkettle.c. */
#if defined __GNUC__ && !defined TORKETTLE_SOURCE_ && __INCLUDE_LEVEL__ > 0
#pragma GCC system_header
#endif

#include <stddef.h>
#include <stdint.h>

#if !defined __cplusplus && defined __STRICT_ANSI__ && (!defined __STDC_VERSION__ || __STDC_VERSION__ < 199901L)
#error "torkettle.h needs C99 or later"
#elif defined __cplusplus && __cplusplus < 201103L && !defined _MSC_VER
#error "torkettle.h needs C++11 or later"
#elif SIZE_MAX < UINT64_MAX
#error "torkettle.h needs a 64-bit target"
#else

#include <limits.h>
#ifdef _MSC_VER
#include <intrin.h>
#endif

#ifdef __cplusplus
#define TORKETTLE_NOEXCEPT noexcept
#define TORKETTLE_BYTES_(text) reinterpret_cast<const uint8_t *>(text)
extern "C" {
#else
#include <stdbool.h>
#define TORKETTLE_NOEXCEPT
#define TORKETTLE_BYTES_(text) ((const uint8_t *)(text))
#endif

/* The version of this header. torkettle_version returns the version of the library. */
#define TORKETTLE_VERSION "0.1.0"

/* Ends a declaration, and declares a function. With gcc and clang, a symbol of the library has the version of its
   interface, so that a process may load two versions. */
#if defined __APPLE__
#define TK_SYMBOL(name) __asm__("_torkettle_0_1_" #name)
#elif defined __GNUC__ || defined __clang__
#define TK_SYMBOL(name) __asm__("torkettle_0_1_" #name)
#else
#define TK_SYMBOL(name)
#endif
#define TORKETTLE_SYMBOL_(name) TORKETTLE_NOEXCEPT TK_SYMBOL(name)

/*
 * The values of the argument `flags`: 0, one of these, or both with `|`. Other bits have no effect.
 *
 * TORKETTLE_SKIP_ZEROES  Leading zeros do not count towards the limit of digits (see TORKETTLE_SIZE).
 * TORKETTLE_SKIP_PLUS    A `+` before the digits is allowed.
 */
#define TORKETTLE_SKIP_ZEROES 1u
#define TORKETTLE_SKIP_PLUS 2u

/* The result of a call: TORKETTLE_OK, or the first error of this list that applies. */
typedef enum torkettle_status {
    /* The number was written to `*value`. With any other status, nothing was written. */
    TORKETTLE_OK = 0,
    /* There is no digit at the start of the text or, if it has a sign, after the sign. */
    TORKETTLE_EMPTY = 1,
    /* The number has more than 20 digits for u64, 19 for i64 or 39 for 128 bits. With TORKETTLE_SKIP_ZEROES, it is out
       of range. Without, leading zeros count as digits, and prefix calls for at most 32 bits allow only 16. */
    TORKETTLE_SIZE = 2,
    /* The number is out of range for the type: below, if it begins with `-`, and otherwise above. */
    TORKETTLE_OVERFLOW = 3,
    /* Another byte follows the number, in a call that must read the whole text. */
    TORKETTLE_INVALID = 4
} torkettle_status;

/* With -fshort-enums, a status would be one byte, and the library writes an unsigned. */
#ifdef __cplusplus
static_assert(sizeof(torkettle_status) == sizeof(unsigned), "torkettle.h does not work with -fshort-enums");
#else
typedef char torkettle_h_does_not_work_with_fshort_enums[sizeof(torkettle_status) == sizeof(unsigned) ? 1 : -1];
#endif

/* An error. Fields that its status does not use are 0. */
typedef struct torkettle_error {
    torkettle_status status;
    /* For TORKETTLE_INVALID, the number of bits of the value below: 128 for i128 and u128, otherwise 64. */
    unsigned bits;
    /* For TORKETTLE_INVALID, the offset of the first digit, in bytes. For TORKETTLE_SIZE and TORKETTLE_OVERFLOW, the
       same, or the offset of a later digit if leading zeros are skipped. For TORKETTLE_EMPTY, 0, also
       after a sign. */
    size_t offset;
    /* For TORKETTLE_INVALID, the number of digits. The byte after them is at `offset + count`. For TORKETTLE_SIZE, the
       number of skipped zeros plus that of the other digits, of which at most 17, 24 or 40 count. */
    size_t count;
    /* For TORKETTLE_INVALID, the number that the digits spell, without a sign. */
    uint64_t value_low;
    uint64_t value_high;
} torkettle_error;

/*
 * torkettle_status torkettle_parse_i64(const char *text, size_t length, unsigned flags, int64_t *value);
 *
 * Parses a whole text: digits, with an optional `-` before them if the type is signed. Writes the number to `*value`
 * and returns TORKETTLE_OK, or writes nothing and returns another status.
 *
 * torkettle_status torkettle_parse_prefix_i64(const char *text, size_t length, unsigned flags, int64_t *value,
 *                                             size_t *count);
 *
 * Parses the number at the start of a text, up to the first byte that is not a digit. Writes the number to `*value`,
 * writes its length in bytes, including the sign and leading zeros, to `*count`, and returns TORKETTLE_OK. Otherwise,
 * writes nothing and returns another status, which is never TORKETTLE_INVALID. If `*count` is `length`, the text may be
 * cut inside of a number.
 *
 * torkettle_error torkettle_parse_error_i64(const char *text, size_t length, unsigned flags);
 * torkettle_error torkettle_parse_prefix_error_i64(const char *text, size_t length, unsigned flags);
 *
 * Parse a text again and return the error of torkettle_parse_i64 or torkettle_parse_prefix_i64. If there is none, its
 * status is TORKETTLE_OK.
 *
 * torkettle_status torkettle_parse_pos_i64(const char *text, size_t length, unsigned flags, int64_t *value);
 * torkettle_status torkettle_parse_prefix_pos_i64(const char *text, size_t length, unsigned flags, int64_t *value,
 *                                                 size_t *count);
 *
 * Do the same as torkettle_parse_i64 and torkettle_parse_prefix_i64 for digits without a sign, also for a signed type.
 * TORKETTLE_SKIP_PLUS has no effect.
 *
 * bool torkettle_canonical_i64(const char *text, size_t length, int64_t *value);
 *
 * Parses a whole text that is a number as printf prints it: without leading zeros, `+` and `-0`. Writes the number to
 * `*value` and returns true, or writes nothing and returns false.
 *
 * bool torkettle_json_integer_i64(const char *text, size_t length, int64_t *value, size_t *count);
 *
 * Reads the number at the start of a text, as JSON writes integers: an optional `-`, then `0`, or digits of which the
 * first is not `0`. Writes the number to `*value` and its length in bytes to `*count`, and returns true. If there is
 * no such number, if it is out of range, or if a digit, `.`, `e` or `E` follows it, writes nothing and returns false.
 * `-0` is in range for every type.
 *
 * Columns: numbers with one byte between them, such as a comma. Each number may have leading zeros, and a `+` or, if
 * the type is signed, a `-`. The separator after the last number is optional.
 *
 *     torkettle_column_i64 column;
 *     int64_t value;
 *     torkettle_column_i64_init(&column, text, length, ',');
 *     while (torkettle_column_i64_next(&column, &value))
 *         sum += value;
 *     if (column.status != TORKETTLE_OK)
 *         fprintf(stderr, "no number in field %zu, at byte %zu\n", column.index, column.offset);
 *
 * void torkettle_column_i64_init(torkettle_column_i64 *column, const char *text, size_t length, char separator);
 *
 * Starts to read a column. Do not change the text while you read it. You need not free the struct, and a copy of it
 * continues at the same field. If the separator is a digit, `+` or `-`, the column has no number, its status is
 * TORKETTLE_INVALID, and its index and its offset are SIZE_MAX.
 *
 * bool torkettle_column_i64_next(torkettle_column_i64 *column, int64_t *value);
 *
 * Reads the next field. Writes its number to `*value` and returns true. At a bad field, at the end of the text and
 * after that, writes nothing and returns false.
 *
 * size_t torkettle_column_i64_read(torkettle_column_i64 *column, int64_t *values, size_t count);
 *
 * Reads several fields, which for more than about 15 is faster if at least 99 % have equally many digits: 4 to 16.
 * Writes at most `count` numbers to `values` and returns how many it has written. It writes fewer than `count` only if
 * it reaches a bad field or the end of the text. If `count` is 0, it reads nothing, and `values` may be NULL. It is
 * fastest if `count` is 128 or more.
 *
 * struct torkettle_column_i64 {
 *     torkettle_status status;  TORKETTLE_OK or, after a bad field, its error. TORKETTLE_INVALID means that a byte that
 *                               is not the separator follows the number.
 *     size_t index;             The index of the bad field, from 0.
 *     size_t offset;            For TORKETTLE_INVALID, the offset of the byte after the number, otherwise the offset of
 *                               the field. To learn more of the field, call torkettle_parse_prefix_error_i64 with both
 *                               flags for the text from there on.
 *     ...                       The others are only for the library.
 * };
 *
 * Fields: like a column, but you can continue after a bad field. A field is bad if it is not a number, for example if
 * it is empty. If the text ends with a separator, no field follows it.
 *
 *     torkettle_fields_i64 fields;
 *     int64_t value;
 *     torkettle_fields_i64_init_lines(&fields, text, length);
 *     while (torkettle_fields_i64_next(&fields, &value))
 *         if (fields.status == TORKETTLE_OK)
 *             sum += value;
 *         else
 *             fprintf(stderr, "no number in line %zu, at byte %zu\n", fields.index + 1, fields.offset);
 *
 * void torkettle_fields_i64_init(torkettle_fields_i64 *fields, const char *text, size_t length, char separator);
 *
 * Starts to read fields. Do not change the text while you read it. You need not free the struct, and a copy of it
 * continues at the same field. If the separator is a digit, `+` or `-`, the first call that reads a field finds one bad
 * field: its status is TORKETTLE_INVALID, its index and its offset are SIZE_MAX, its text is NULL, and its length is 0.
 *
 * void torkettle_fields_i64_init_lines(torkettle_fields_i64 *fields, const char *text, size_t length);
 *
 * Starts to read lines, which are then the fields. A line ends with "\n" or "\r\n", which is not part of it.
 *
 * void torkettle_fields_i64_starting_at(torkettle_fields_i64 *fields, size_t index, size_t offset);
 *
 * Sets the index and the offset of the next field, from which later fields are counted. To read a long text in pieces
 * that end with a separator, start each at the next_index and the next_offset of the piece before it. Sums above
 * SIZE_MAX wrap.
 *
 * bool torkettle_fields_i64_next(torkettle_fields_i64 *fields, int64_t *value);
 *
 * Reads the next field. If there is one, returns true, and either writes its number to `*value` and sets the status to
 * TORKETTLE_OK, or writes nothing and sets the status to the error of a bad field. At the end, and after that, writes
 * nothing, sets the status to TORKETTLE_OK, and returns false.
 *
 * size_t torkettle_fields_i64_read(torkettle_fields_i64 *fields, int64_t *values, size_t count);
 *
 * Reads several fields, which for more than about 15 is faster if at least 99 % have equally many digits: 4 to 16.
 * Writes at most `count` numbers to `values` and returns how many it has written. It stops at a bad field and sets the
 * status. Otherwise, the status is TORKETTLE_OK. The next call continues after the bad field, so a loop must not end
 * because a call wrote fewer than `count` numbers. If `count` is 0, `values` may be NULL.
 *
 *     while ((count = torkettle_fields_i64_read(&fields, values, 256)) > 0 || fields.status != TORKETTLE_OK) ...
 *
 * struct torkettle_fields_i64 {
 *     torkettle_status status;  If the last call stopped at a bad field, what torkettle_parse_i64 with both flags
 *                               returns for this field. Otherwise TORKETTLE_OK.
 *     size_t index;             The index of the bad field, from 0. If the status is TORKETTLE_OK, ignore this and the
 *                               next three.
 *     size_t offset;            The offset of its first byte.
 *     const char *text;         Its bytes, in your text, without the separator.
 *     size_t length;            Its length.
 *     size_t next_index;        The index of the next field or, at the end, the number of fields.
 *     size_t next_offset;       The offset of the next field or, at the end, of the end of the text.
 *     ...                       The others are only for the library.
 * };
 *
 * What is described neither above nor below is internal and may change in a minor version: all names that begin with
 * tk_, and functions such as those whose names begin with torkettle_whole_, torkettle_prefix_ and torkettle_next_. They
 * return a number and its length in two registers. If there is no number, the length is 0, and the first two return the
 * status in place of the number. The length that torkettle_next_ returns is 1 for a number, and 2 for a bad field.
 *
 * For other languages, torkettle_0_1_parse_i64 and torkettle_0_1_parse_prefix_i64 are functions of the shared library.
 */

/* ---- Written by hand, in c/interface/prelude.h, up to the next such line. */

/* A cast, and a value of a struct, in C and in C++. */
#ifdef __cplusplus
#define TK_CAST(type, value) static_cast<type>(value)
#define TK_MAKE(type, ...) (type{__VA_ARGS__})
#define TK_NUMBER(at) reinterpret_cast<uintptr_t>(at)
#else
#define TK_CAST(type, value) ((type)(value))
#define TK_MAKE(type, ...) ((type){__VA_ARGS__})
#define TK_NUMBER(at) ((uintptr_t)(at))
#endif
#define TK_TEXT(text) tk_bytes_of(TORKETTLE_BYTES_(text), sizeof(text) - 1)

/* What a compiler has to do with a function, as the attributes of the source say it. */
#if defined __GNUC__ || defined __clang__
#if defined __OPTIMIZE__ && !defined __OPTIMIZE_SIZE__
#define TK_INLINE static inline __attribute__((__always_inline__, __unused__))
#else
#define TK_INLINE static inline __attribute__((__unused__))
#endif
#define TK_FAR __attribute__((__noinline__))
#define TK_NOINLINE static __attribute__((__noinline__, __unused__))
#define TK_COLD static __attribute__((__noinline__, __cold__, __unused__))
#elif defined _MSC_VER
#define TK_INLINE static __forceinline
#define TK_FAR __declspec(noinline)
#define TK_NOINLINE static __declspec(noinline)
#define TK_COLD static __declspec(noinline)
#else
#define TK_INLINE static inline
#define TK_FAR
#define TK_NOINLINE static inline
#define TK_COLD static inline
#endif
/* gcc 12 compiles torkettle.c in less time if it chooses what to inline of these. */
#if defined TORKETTLE_SOURCE_ && defined __GNUC__ && !defined __clang__
#define TK_HINTED static inline __attribute__((__unused__))
#else
#define TK_HINTED TK_INLINE
#endif

/* What a compiler of C++20 can call in a constant expression. To include the header takes less time without TK_ALL. */
#if defined __GNUC__ && defined __cplusplus && __cplusplus >= 202002L
#define TK_ALL
#define TK_CONSTEXPR constexpr TK_INLINE
#else
#define TK_CONSTEXPR TK_INLINE
#endif

/* A condition that is proved to hold. A test may define this as `assert`. */
#ifndef TORKETTLE_CHECK
#define TORKETTLE_CHECK(condition) ((void)0)
#endif

/* 1 or 0. As gcc 12 would set only a byte of a register, the processor would wait for what was last in it. */
TK_INLINE uint64_t tk_bit(bool is_set)
{
    uint64_t one = 1;
#if defined __GNUC__ && !defined __clang__
    __asm__("" : "+r"(one));
#endif
    return is_set ? one : 0;
}

/* An index of so many elements. */
TK_CONSTEXPR size_t tk_index(size_t index, size_t len)
{
    TORKETTLE_CHECK(index < len);
    (void)len;
    return index;
}

TK_CONSTEXPR bool tk_u8_is_digit(uint8_t byte) { return '0' <= byte && byte <= '9'; }
TK_CONSTEXPR uint64_t tk_u64_wrapping_add(uint64_t a, uint64_t b) { return a + b; }
TK_CONSTEXPR uint64_t tk_u64_wrapping_sub(uint64_t a, uint64_t b) { return a - b; }
TK_CONSTEXPR uint64_t tk_u64_wrapping_mul(uint64_t a, uint64_t b) { return a * b; }
TK_CONSTEXPR uint64_t tk_i64_unsigned_abs(int64_t a) { return a < 0 ? 0 - TK_CAST(uint64_t, a) : TK_CAST(uint64_t, a); }

#ifdef TK_ALL
/* One of two lengths or places. gcc 12 would make a branch of it, and no processor can guess which one is next. */
TK_INLINE size_t tk_either(bool is_first, size_t first, size_t second)
{
#if defined __GNUC__ && !defined __clang__
    return second + ((first - second) & (TK_CAST(size_t, 0) - is_first));
#else
    return is_first ? first : second;
#endif
}

TK_INLINE const uint8_t *tk_either_at(bool is_first, const uint8_t *first, const uint8_t *second)
{
#if defined __GNUC__ && !defined __clang__
    return TORKETTLE_BYTES_(tk_either(is_first, TK_NUMBER(first), TK_NUMBER(second)));
#else
    return is_first ? first : second;
#endif
}

#define TK_EITHER(is_first, a, b)                                                                                      \
    tk_bytes_of(tk_either_at(is_first, (a).at, (b).at), tk_either(is_first, (a).len, (b).len))

/* Parts of a slice. */
#define TK_PARTS(slice)                                                                                                \
    TK_CONSTEXPR slice slice##_from(slice s, size_t low)                                                               \
    {                                                                                                                  \
        TORKETTLE_CHECK(low <= s.len);                                                                                 \
        return slice##_of(s.at + low, s.len - low);                                                                    \
    }                                                                                                                  \
    TK_CONSTEXPR slice slice##_to(slice s, size_t high)                                                                \
    {                                                                                                                  \
        TORKETTLE_CHECK(high <= s.len);                                                                                \
        return slice##_of(s.at, high);                                                                                 \
    }                                                                                                                  \
    TK_CONSTEXPR slice slice##_between(slice s, size_t low, size_t high)                                               \
    {                                                                                                                  \
        TORKETTLE_CHECK(low <= high && high <= s.len);                                                                 \
        return slice##_of(s.at + low, high - low);                                                                     \
    }

TK_CONSTEXPR uint32_t tk_u32_wrapping_add(uint32_t a, uint32_t b) { return a + b; }
TK_CONSTEXPR uint32_t tk_u32_wrapping_sub(uint32_t a, uint32_t b) { return a - b; }
TK_CONSTEXPR uint32_t tk_u32_wrapping_mul(uint32_t a, uint32_t b) { return a * b; }
TK_CONSTEXPR uint32_t tk_u32_min(uint32_t a, uint32_t b) { return b < a ? b : a; }
TK_CONSTEXPR size_t tk_size_min(size_t a, size_t b) { return b < a ? b : a; }
TK_CONSTEXPR size_t tk_size_max(size_t a, size_t b) { return a < b ? b : a; }
TK_CONSTEXPR size_t tk_size_saturating_add(size_t a, size_t b) { return a + b < a ? TK_CAST(size_t, -1) : a + b; }
TK_CONSTEXPR size_t tk_size_saturating_sub(size_t a, size_t b) { return a < b ? 0 : a - b; }
TK_CONSTEXPR uint32_t tk_i32_unsigned_abs(int32_t a) { return TK_CAST(uint32_t, tk_i64_unsigned_abs(a)); }
TK_CONSTEXPR uint16_t tk_i16_unsigned_abs(int16_t a) { return TK_CAST(uint16_t, tk_i64_unsigned_abs(a)); }
TK_CONSTEXPR uint8_t tk_i8_unsigned_abs(int8_t a) { return TK_CAST(uint8_t, tk_i64_unsigned_abs(a)); }
#else
#define TK_PARTS(slice)
#endif

/* How many low bits of a word are zero. */
TK_INLINE uint32_t tk_u64_trailing_zeros(uint64_t word)
{
#if defined __GNUC__ || defined __clang__
    return word == 0 ? 64 : TK_CAST(uint32_t, __builtin_ctzll(word));
#elif defined _MSC_VER && (defined _M_X64 || defined _M_ARM64)
    unsigned long place;
    return _BitScanForward64(&place, word) ? TK_CAST(uint32_t, place) : 64;
#else
    uint32_t count = 0;
    while (count < 64 && (word >> count & 1) == 0) {
        count++;
    }
    return count;
#endif
}

/* Words of bytes, the first one lowest, on every processor. Compilers make one load of it. */
TK_INLINE uint16_t tk_u16_load(const uint8_t *bytes) { return TK_CAST(uint16_t, bytes[0] | bytes[1] << 8); }

TK_INLINE uint32_t tk_u32_load(const uint8_t *bytes)
{
#if defined __GNUC__ && __BYTE_ORDER__ == __ORDER_LITTLE_ENDIAN__
    uint32_t word;
    __builtin_memcpy(&word, bytes, sizeof word);
    return word;
#else
    return TK_CAST(uint32_t, tk_u16_load(bytes)) | TK_CAST(uint32_t, tk_u16_load(bytes + 2)) << 16;
#endif
}

TK_INLINE uint64_t tk_u64_load(const uint8_t *bytes)
{
#if defined __GNUC__ && __BYTE_ORDER__ == __ORDER_LITTLE_ENDIAN__
    uint64_t word;
    __builtin_memcpy(&word, bytes, sizeof word);
    return word;
#else
    return TK_CAST(uint64_t, tk_u32_load(bytes)) | TK_CAST(uint64_t, tk_u32_load(bytes + 4)) << 32;
#endif
}

/* Numbers of 128 bits. Compilers without them compute with two words, and signed ones are in two's complement. */
#if defined __SIZEOF_INT128__ && !defined TORKETTLE_NO_INT128
__extension__ typedef __int128 tk_i128;
__extension__ typedef unsigned __int128 tk_u128;

TK_CONSTEXPR tk_u128 tk_u128_make(uint64_t high, uint64_t low) { return TK_CAST(tk_u128, high) << 64 | low; }
TK_CONSTEXPR tk_u128 tk_u128_of(uint64_t value) { return value; }
TK_CONSTEXPR uint64_t tk_u128_low(tk_u128 value) { return TK_CAST(uint64_t, value); }
TK_CONSTEXPR bool tk_u128_less(tk_u128 a, tk_u128 b) { return a < b; }
TK_CONSTEXPR tk_u128 tk_u128_wrapping_add(tk_u128 a, tk_u128 b) { return a + b; }
TK_CONSTEXPR tk_u128 tk_u128_wrapping_sub(tk_u128 a, tk_u128 b) { return a - b; }
TK_CONSTEXPR tk_i128 tk_u128_as_i128(tk_u128 value) { return TK_CAST(tk_i128, value); }
TK_CONSTEXPR tk_u128 tk_i128_as_u128(tk_i128 value) { return TK_CAST(tk_u128, value); }
#ifdef TK_ALL
TK_CONSTEXPR tk_u128 tk_u128_wrapping_mul(tk_u128 a, tk_u128 b) { return a * b; }
TK_CONSTEXPR bool tk_u128_product_fits(tk_u128 a, tk_u128 b) { return b == 0 || a <= ~TK_CAST(tk_u128, 0) / b; }
TK_CONSTEXPR tk_u128 tk_u128_shift_left(tk_u128 a, uint64_t count) { return a << count; }
TK_CONSTEXPR tk_u128 tk_u128_shift_right(tk_u128 a, uint64_t count) { return a >> count; }
#endif
#else
typedef struct tk_u128 {
    uint64_t low;
    uint64_t high;
} tk_u128;
typedef tk_u128 tk_i128;

TK_CONSTEXPR tk_u128 tk_u128_make(uint64_t high, uint64_t low) { return TK_MAKE(tk_u128, low, high); }
TK_CONSTEXPR tk_u128 tk_u128_of(uint64_t value) { return TK_MAKE(tk_u128, value, 0); }
TK_CONSTEXPR uint64_t tk_u128_low(tk_u128 value) { return value.low; }
TK_CONSTEXPR bool tk_u128_less(tk_u128 a, tk_u128 b) { return a.high < b.high || (a.high == b.high && a.low < b.low); }

TK_CONSTEXPR tk_u128 tk_u128_wrapping_add(tk_u128 a, tk_u128 b)
{
    uint64_t low = a.low + b.low;
    return TK_MAKE(tk_u128, low, a.high + b.high + (low < a.low));
}

TK_CONSTEXPR tk_u128 tk_u128_wrapping_sub(tk_u128 a, tk_u128 b)
{
    return TK_MAKE(tk_u128, a.low - b.low, a.high - b.high - (a.low < b.low));
}

/* The product of two words, by halves. */
TK_CONSTEXPR tk_u128 tk_u128_of_words(uint64_t a, uint64_t b)
{
    uint64_t a_low = a & 0xFFFFFFFF, a_high = a >> 32, b_low = b & 0xFFFFFFFF, b_high = b >> 32;
    uint64_t low = a_low * b_low;
    uint64_t middle = a_high * b_low + (low >> 32);
    uint64_t other = a_low * b_high + (middle & 0xFFFFFFFF);
    return TK_MAKE(tk_u128, other << 32 | (low & 0xFFFFFFFF), a_high * b_high + (middle >> 32) + (other >> 32));
}

TK_CONSTEXPR tk_u128 tk_u128_wrapping_mul(tk_u128 a, tk_u128 b)
{
    tk_u128 product = tk_u128_of_words(a.low, b.low);
    return TK_MAKE(tk_u128, product.low, product.high + a.high * b.low + a.low * b.high);
}

TK_CONSTEXPR bool tk_u128_product_fits(tk_u128 a, tk_u128 b)
{
    tk_u128 cross = tk_u128_wrapping_add(tk_u128_of_words(a.high, b.low), tk_u128_of_words(a.low, b.high));
    tk_u128 low = tk_u128_of_words(a.low, b.low);
    return (a.high == 0 || b.high == 0) && cross.high == 0 && low.high + cross.low >= low.high;
}

TK_CONSTEXPR tk_u128 tk_u128_shift_left(tk_u128 a, uint64_t count)
{
    if (count >= 64) {
        return TK_MAKE(tk_u128, 0, a.low << (count - 64));
    }
    return count == 0 ? a : TK_MAKE(tk_u128, a.low << count, a.high << count | a.low >> (64 - count));
}

TK_CONSTEXPR tk_u128 tk_u128_shift_right(tk_u128 a, uint64_t count)
{
    if (count >= 64) {
        return TK_MAKE(tk_u128, a.high >> (count - 64), 0);
    }
    return count == 0 ? a : TK_MAKE(tk_u128, a.low >> count | a.high << (64 - count), a.high >> count);
}

TK_CONSTEXPR tk_i128 tk_u128_as_i128(tk_u128 value) { return value; }
TK_CONSTEXPR tk_u128 tk_i128_as_u128(tk_i128 value) { return value; }
#endif

TK_CONSTEXPR tk_i128 tk_i128_of(uint64_t value) { return tk_u128_as_i128(tk_u128_of(value)); }
TK_CONSTEXPR uint64_t tk_i128_low(tk_i128 value) { return tk_u128_low(tk_i128_as_u128(value)); }

TK_CONSTEXPR tk_i128 tk_i128_negate(tk_i128 a)
{
    return tk_u128_as_i128(tk_u128_wrapping_sub(tk_u128_of(0), tk_i128_as_u128(a)));
}

TK_CONSTEXPR tk_u128 tk_u128_add(tk_u128 a, tk_u128 b)
{
    TORKETTLE_CHECK(!tk_u128_less(tk_u128_wrapping_add(a, b), a));
    return tk_u128_wrapping_add(a, b);
}

#ifdef TK_ALL
TK_CONSTEXPR bool tk_u128_sum_fits(tk_u128 a, tk_u128 b) { return !tk_u128_less(tk_u128_wrapping_add(a, b), a); }
TK_INLINE uint32_t tk_u32_trailing_zeros(uint32_t word) { return tk_u64_trailing_zeros(word | UINT64_C(1) << 32); }

TK_CONSTEXPR tk_u128 tk_u128_mul(tk_u128 a, tk_u128 b)
{
    TORKETTLE_CHECK(tk_u128_product_fits(a, b));
    return tk_u128_wrapping_mul(a, b);
}

TK_CONSTEXPR uint64_t tk_u128_high(tk_u128 value) { return tk_u128_low(tk_u128_shift_right(value, 64)); }

TK_CONSTEXPR bool tk_u128_equal(tk_u128 a, tk_u128 b)
{
    return tk_u128_low(a) == tk_u128_low(b) && tk_u128_high(a) == tk_u128_high(b);
}

#define TK_BY_WORDS(function, symbol)                                                                                  \
    TK_CONSTEXPR tk_u128 function(tk_u128 a, tk_u128 b)                                                                \
    {                                                                                                                  \
        return tk_u128_make(tk_u128_high(a) symbol tk_u128_high(b), tk_u128_low(a) symbol tk_u128_low(b));             \
    }
TK_BY_WORDS(tk_u128_and, &)
TK_BY_WORDS(tk_u128_or, |)
TK_BY_WORDS(tk_u128_xor, ^)

TK_CONSTEXPR tk_i128 tk_i128_make(uint64_t high, uint64_t low) { return tk_u128_as_i128(tk_u128_make(high, low)); }

TK_CONSTEXPR bool tk_i128_less(tk_i128 a, tk_i128 b)
{
    tk_u128 sign = tk_u128_make(UINT64_C(0x8000000000000000), 0);
    return tk_u128_less(tk_u128_xor(tk_i128_as_u128(a), sign), tk_u128_xor(tk_i128_as_u128(b), sign));
}

TK_CONSTEXPR tk_u128 tk_i128_unsigned_abs(tk_i128 a)
{
    return tk_i128_as_u128(tk_i128_less(a, tk_i128_of(0)) ? tk_i128_negate(a) : a);
}
#endif

/* ---- Made by .ci/translate from the proved sources, up to the next such line. */

typedef struct tk_bytes {
    const uint8_t *at;
    size_t len;
} tk_bytes;

TK_CONSTEXPR tk_bytes tk_bytes_of(const uint8_t *at, size_t len)
{
    return TK_MAKE(tk_bytes, at, len);
}

TK_PARTS(tk_bytes)

typedef struct tk_pair_i64_size {
    int64_t first;
    size_t second;
} tk_pair_i64_size;

TK_CONSTEXPR tk_pair_i64_size tk_new_pair_i64_size(int64_t first, size_t second)
{
    return TK_MAKE(tk_pair_i64_size, first, second);
}

typedef struct tk_pair_u64_size {
    uint64_t first;
    size_t second;
} tk_pair_u64_size;

TK_CONSTEXPR tk_pair_u64_size tk_new_pair_u64_size(uint64_t first, size_t second)
{
    return TK_MAKE(tk_pair_u64_size, first, second);
}

typedef struct tk_option_u8 {
    bool is_some;
    uint8_t value;
} tk_option_u8;

TK_CONSTEXPR tk_option_u8 tk_some_u8(uint8_t value)
{
    return TK_MAKE(tk_option_u8, true, value);
}

TK_CONSTEXPR tk_option_u8 tk_none_u8(void)
{
    return TK_MAKE(tk_option_u8, false, 0);
}

typedef struct tk_option_i64 {
    bool is_some;
    int64_t value;
} tk_option_i64;

TK_CONSTEXPR tk_option_i64 tk_some_i64(int64_t value)
{
    return TK_MAKE(tk_option_i64, true, value);
}

TK_CONSTEXPR tk_option_i64 tk_none_i64(void)
{
    return TK_MAKE(tk_option_i64, false, 0);
}

typedef struct tk_option_u64 {
    bool is_some;
    uint64_t value;
} tk_option_u64;

TK_CONSTEXPR tk_option_u64 tk_some_u64(uint64_t value)
{
    return TK_MAKE(tk_option_u64, true, value);
}

TK_CONSTEXPR tk_option_u64 tk_none_u64(void)
{
    return TK_MAKE(tk_option_u64, false, 0);
}

typedef struct tk_option_pair_u64_size {
    bool is_some;
    tk_pair_u64_size value;
} tk_option_pair_u64_size;

TK_CONSTEXPR tk_option_pair_u64_size tk_some_pair_u64_size(tk_pair_u64_size value)
{
    return TK_MAKE(tk_option_pair_u64_size, true, value);
}

TK_CONSTEXPR tk_option_pair_u64_size tk_none_pair_u64_size(void)
{
    return TK_MAKE(tk_option_pair_u64_size, false, tk_new_pair_u64_size(0, 0));
}

typedef struct tk_pair_bool_u128 {
    bool first;
    tk_u128 second;
} tk_pair_bool_u128;

TK_CONSTEXPR tk_pair_bool_u128 tk_new_pair_bool_u128(bool first, tk_u128 second)
{
    return TK_MAKE(tk_pair_bool_u128, first, second);
}

typedef struct tk_option_pair_i64_size {
    bool is_some;
    tk_pair_i64_size value;
} tk_option_pair_i64_size;

TK_CONSTEXPR tk_option_pair_i64_size tk_some_pair_i64_size(tk_pair_i64_size value)
{
    return TK_MAKE(tk_option_pair_i64_size, true, value);
}

TK_CONSTEXPR tk_option_pair_i64_size tk_none_pair_i64_size(void)
{
    return TK_MAKE(tk_option_pair_i64_size, false, tk_new_pair_i64_size(0, 0));
}

/* Indexed by how many digits there are: `sum_of`'s first factor, shifted by eight bytes less the digits. */
static const uint64_t tk_factors[8] = {
    0,
    UINT64_C(2561) << 56,
    UINT64_C(2561) << 48,
    UINT64_C(2561) << 40,
    UINT64_C(2561) << 32,
    UINT64_C(2561) << 24,
    UINT64_C(2561) << 16,
    UINT64_C(2561) << 8,
};

#define TK_ZEROS UINT64_C(0x3030303030303030)

#define TK_MOST_IN_WORD 1000000000

TK_FAR tk_pair_i64_size tk_long_signed_prefix_i64(bool minus, uint64_t digits,
                                                  tk_bytes s) TK_SYMBOL(tk_long_signed_prefix_i64);

TK_FAR tk_pair_u64_size tk_long_prefix_u64(bool minus, uint64_t high, tk_bytes s) TK_SYMBOL(tk_long_prefix_u64);

/* Returns the number of a slice of one digit, for each type. */
/* atoi_fast/src/quick.rt:15 */
TK_INLINE tk_option_u8 tk_one_digit(tk_bytes s)
{
    if (s.len == 1 && '0' <= s.at[0] && s.at[0] <= '9') {
        uint8_t digit = s.at[0];
        return tk_some_u8(TK_CAST(uint8_t, digit - '0'));
    }
    return tk_none_u8();
}

/* `sum_of` after its first product. A small product joins the two sums of four digits. */
/* atoi_fast/src/digits.rt:123 */
TK_HINTED uint64_t tk_sum_of_product(uint64_t product)
{
    uint64_t tens = (product >> 8) & UINT64_C(0x00FF00FF00FF00FF);
    uint64_t hundreds = tk_u64_wrapping_mul(tens, 0x640001);
    return ((hundreds >> 16) & 0xFFFF) * 10000 + (hundreds >> 48);
}

/* `process_8` for bytes below 16. */
/* atoi_fast/src/digits.rt:113 */
TK_HINTED uint64_t tk_sum_of(uint64_t digits)
{
    return tk_sum_of_product(tk_u64_wrapping_mul(digits, 0xA01));
}

/* atoi_fast/src/in_range.rt:38 */
TK_INLINE bool tk_is_in_range(tk_u128 greatest, uint64_t most, bool minus, uint64_t magnitude)
{
    return !tk_u128_less(greatest, tk_u128_of(most)) || magnitude <= tk_u128_low(greatest) + tk_bit(minus);
}

/* atoi_core/src/number.rt:87 */
TK_CONSTEXPR tk_i128 tk_with_sign_64(bool minus, uint64_t magnitude)
{
    tk_i128 number = tk_i128_of(magnitude);
    if (minus) {
        return tk_i128_negate(number);
    }
    return number;
}

/* Returns the word of the first 8 bytes. */
/* atoi_fast/src/loads.rt:111 */
TK_HINTED uint64_t tk_load_full(tk_bytes s)
{
    if (s.len >= 8) {
        const uint8_t *first = s.at;
        return tk_u64_load(first);
    }
    return 0;
}

/* atoi_core/src/number.rt:335 */
TK_CONSTEXPR int64_t tk_from_parts_i64(bool minus, tk_u128 magnitude)
{
    return TK_CAST(int64_t, tk_i128_low(tk_with_sign_64(minus, tk_u128_low(magnitude))));
}

/*
 * Returns the number of this sign and magnitude, if both types have it. The magnitude is at most `most`, a constant: a
 * type that has all numbers up to it needs no other test.
 */
/* atoi_fast/src/in_range.rt:20 */
TK_INLINE tk_option_i64 tk_number_in_range_i64(tk_u128 greatest, uint64_t most, bool minus, uint64_t magnitude)
{
    if (tk_is_in_range(greatest, most, minus, magnitude)
        && tk_is_in_range(tk_u128_of(UINT64_C(9223372036854775807)), most, minus, magnitude)) {
        return tk_some_i64(tk_from_parts_i64(minus, tk_u128_of(magnitude)));
    }
    return tk_none_i64();
}

/* atoi_core/src/number.rt:307 */
TK_CONSTEXPR uint64_t tk_from_parts_u64(bool minus, tk_u128 magnitude)
{
    (void)minus;
    return tk_u128_low(magnitude);
}

/* atoi_fast/src/in_range.rt:20 */
TK_INLINE tk_option_u64 tk_number_in_range_u64(tk_u128 greatest, uint64_t most, bool minus, uint64_t magnitude)
{
    if (tk_is_in_range(greatest, most, minus, magnitude)
        && tk_is_in_range(tk_u128_of(UINT64_C(18446744073709551615)), most, minus, magnitude)) {
        return tk_some_u64(tk_from_parts_u64(minus, tk_u128_of(magnitude)));
    }
    return tk_none_u64();
}

/* atoi_fast/src/short_prefix.rt:112 */
TK_HINTED uint8_t tk_lowest_byte(uint64_t word)
{
    return TK_CAST(uint8_t, word & 0xFF);
}

/* Returns the number of the lowest `len` bytes of `digits`, which are digits minus 48. */
/* atoi_fast/src/digits.rt:145 */
TK_HINTED uint64_t tk_value_by_product(uint64_t digits, uint32_t len)
{
    return tk_sum_of_product(tk_u64_wrapping_mul(digits, tk_factors[tk_index(TK_CAST(size_t, len), 8)]));
}

/* atoi_fast/src/quick.rt:167 */
TK_HINTED tk_option_u64 tk_digit_of(uint8_t byte)
{
    if ('0' <= byte && byte <= '9') {
        return tk_some_u64(TK_CAST(uint64_t, TK_CAST(uint8_t, byte - '0')));
    }
    return tk_none_u64();
}

/* One to three digits before a separator: their value and length. */
/* atoi_fast/src/quick.rt:145 */
TK_INLINE tk_option_pair_u64_size tk_few_digits(tk_bytes s, uint8_t separator)
{
    if (s.len >= 2 && s.at[1] == separator) {
        uint8_t first = s.at[0];
        tk_option_u64 found = tk_digit_of(first);
        if (!found.is_some) {
            return tk_none_pair_u64_size();
        }
        return tk_some_pair_u64_size(tk_new_pair_u64_size(found.value, 1));
    }
    if (s.len >= 3 && s.at[2] == separator) {
        uint8_t first = s.at[0];
        uint8_t second = s.at[1];
        tk_option_u64 found = tk_digit_of(first);
        if (!found.is_some) {
            return tk_none_pair_u64_size();
        }
        uint64_t tens = found.value;
        tk_option_u64 found_2 = tk_digit_of(second);
        if (!found_2.is_some) {
            return tk_none_pair_u64_size();
        }
        return tk_some_pair_u64_size(tk_new_pair_u64_size(10 * tens + found_2.value, 2));
    }
    if (s.len >= 4 && s.at[3] == separator) {
        uint8_t first = s.at[0];
        uint8_t second = s.at[1];
        uint8_t third = s.at[2];
        tk_option_u64 found = tk_digit_of(first);
        if (!found.is_some) {
            return tk_none_pair_u64_size();
        }
        uint64_t hundreds = found.value;
        tk_option_u64 found_2 = tk_digit_of(second);
        if (!found_2.is_some) {
            return tk_none_pair_u64_size();
        }
        uint64_t tens = found_2.value;
        tk_option_u64 found_3 = tk_digit_of(third);
        if (!found_3.is_some) {
            return tk_none_pair_u64_size();
        }
        return tk_some_pair_u64_size(tk_new_pair_u64_size(100 * hundreds + 10 * tens + found_3.value, 3));
    }
    return tk_none_pair_u64_size();
}

/* atoi_fast/src/short_prefix.rt:119 */
TK_INLINE tk_pair_i64_size tk_long_by_digits_i64(bool minus, uint64_t digits, tk_bytes s)
{
    return tk_long_signed_prefix_i64(minus, digits, s);
}

/* atoi_core/src/number.rt:331 */
TK_HINTED tk_pair_bool_u128 tk_parts_i64(int64_t self)
{
    return tk_new_pair_bool_u128(self < 0, tk_u128_of(tk_i64_unsigned_abs(self)));
}

/* The same number, if `T` has it and allows its digits. */
/* atoi_fast/src/short_prefix.rt:260 */
TK_INLINE tk_option_pair_i64_size tk_narrowed_i64(uint32_t bits, tk_u128 greatest, int64_t number, size_t len)
{
    if (bits < 64) {
        tk_pair_bool_u128 found = tk_parts_i64(number);
        bool minus = found.first;
        tk_u128 magnitude = found.second;
        if (tk_u128_less(tk_u128_add(greatest, tk_u128_of(minus)), magnitude) || len > 16) {
            return tk_none_pair_i64_size();
        }
    }
    return tk_some_pair_i64_size(tk_new_pair_i64_size(number, len));
}

/* `prefix_of_words` for the header of C, without numbers of one digit. Long ones take a call. */
/* atoi_fast/src/short_prefix.rt:82 */
TK_INLINE tk_option_pair_i64_size tk_prefix_by_calls_i64(uint32_t bits, tk_u128 greatest, tk_bytes s)
{
    uint64_t word = tk_load_full(s);
    uint64_t lowered = tk_u64_wrapping_sub(word, TK_ZEROS);
    uint64_t marks = (tk_u64_wrapping_add(word, UINT64_C(0x4646464646464646)) | lowered) & UINT64_C(0x8080808080808000);
    if ((marks & 0x8000) != 0) {
        return tk_none_pair_i64_size();
    }
    bool minus = true & (tk_lowest_byte(word) == '-');
    uint64_t digits = tk_u64_wrapping_add(lowered, 3 * tk_bit(minus));
    if (tk_lowest_byte(digits) > 9) {
        return tk_none_pair_i64_size();
    }
    if (marks == 0) {
        tk_pair_i64_size found = tk_long_by_digits_i64(minus, digits, s);
        int64_t number = found.first;
        size_t len = found.second;
        if (len == 0) {
            return tk_none_pair_i64_size();
        }
        return tk_narrowed_i64(bits, greatest, number, len);
    }
    uint32_t len = tk_u64_trailing_zeros(marks) / 8;
    tk_option_i64 found = tk_number_in_range_i64(greatest, TK_MOST_IN_WORD, minus, tk_value_by_product(digits, len));
    if (!found.is_some) {
        return tk_none_pair_i64_size();
    }
    int64_t number = found.value;
    return tk_some_pair_i64_size(tk_new_pair_i64_size(number, TK_CAST(size_t, len)));
}

/* atoi_fast/src/quick.rt:126 */
TK_INLINE tk_option_pair_i64_size tk_long_field_i64(uint32_t bits, tk_u128 greatest, tk_bytes s, uint8_t separator)
{
    if (s.len < 16) {
        return tk_none_pair_i64_size();
    }
    tk_option_pair_i64_size found = tk_prefix_by_calls_i64(bits, greatest, s);
    if (!found.is_some) {
        return tk_none_pair_i64_size();
    }
    int64_t number = found.value.first;
    size_t len = found.value.second;
    if (len < s.len && s.at[tk_index(len, s.len)] == separator) {
        return tk_some_pair_i64_size(tk_new_pair_i64_size(number, len));
    }
    return tk_none_pair_i64_size();
}

/* `quick_prefix` for a number before this separator, also of three digits. */
/* atoi_fast/src/quick.rt:109 */
TK_INLINE tk_option_pair_i64_size tk_quick_field_i64(uint32_t bits, tk_u128 greatest, tk_bytes s, uint8_t separator)
{
    tk_option_pair_u64_size found = tk_few_digits(s, separator);
    if (found.is_some) {
        uint64_t magnitude = found.value.first;
        size_t len = found.value.second;
        tk_option_i64 found_2 = tk_number_in_range_i64(greatest, 999, false, magnitude);
        if (!found_2.is_some) {
            return tk_none_pair_i64_size();
        }
        int64_t number = found_2.value;
        return tk_some_pair_i64_size(tk_new_pair_i64_size(number, len));
    }
    return tk_long_field_i64(bits, greatest, s, separator);
}

/* atoi_fast/src/quick.rt:109 */
TK_INLINE tk_option_pair_i64_size tk_quick_field_i8_i64(tk_bytes s, uint8_t separator)
{
    return tk_quick_field_i64(8, tk_u128_of(127), s, separator);
}

/* atoi_fast/src/short_prefix.rt:119 */
TK_INLINE tk_pair_u64_size tk_long_by_digits_u64(bool minus, uint64_t digits, tk_bytes s)
{
    return tk_long_prefix_u64(minus, tk_sum_of(digits), s);
}

/* atoi_core/src/number.rt:303 */
TK_HINTED tk_pair_bool_u128 tk_parts_u64(uint64_t self)
{
    return tk_new_pair_bool_u128(false, tk_u128_of(self));
}

/* atoi_fast/src/short_prefix.rt:260 */
TK_INLINE tk_option_pair_u64_size tk_narrowed_u64(uint32_t bits, tk_u128 greatest, uint64_t number, size_t len)
{
    if (bits < 64) {
        tk_pair_bool_u128 found = tk_parts_u64(number);
        bool minus = found.first;
        tk_u128 magnitude = found.second;
        if (tk_u128_less(tk_u128_add(greatest, tk_u128_of(minus)), magnitude) || len > 16) {
            return tk_none_pair_u64_size();
        }
    }
    return tk_some_pair_u64_size(tk_new_pair_u64_size(number, len));
}

/* atoi_fast/src/short_prefix.rt:82 */
TK_INLINE tk_option_pair_u64_size tk_prefix_by_calls_u64(uint32_t bits, tk_u128 greatest, tk_bytes s)
{
    uint64_t word = tk_load_full(s);
    uint64_t lowered = tk_u64_wrapping_sub(word, TK_ZEROS);
    uint64_t marks = (tk_u64_wrapping_add(word, UINT64_C(0x4646464646464646)) | lowered) & UINT64_C(0x8080808080808000);
    if ((marks & 0x8000) != 0) {
        return tk_none_pair_u64_size();
    }
    bool minus = false & (tk_lowest_byte(word) == '-');
    uint64_t digits = tk_u64_wrapping_add(lowered, 3 * tk_bit(minus));
    if (tk_lowest_byte(digits) > 9) {
        return tk_none_pair_u64_size();
    }
    if (marks == 0) {
        tk_pair_u64_size found = tk_long_by_digits_u64(minus, digits, s);
        uint64_t number = found.first;
        size_t len = found.second;
        if (len == 0) {
            return tk_none_pair_u64_size();
        }
        return tk_narrowed_u64(bits, greatest, number, len);
    }
    uint32_t len = tk_u64_trailing_zeros(marks) / 8;
    tk_option_u64 found = tk_number_in_range_u64(greatest, TK_MOST_IN_WORD, minus, tk_value_by_product(digits, len));
    if (!found.is_some) {
        return tk_none_pair_u64_size();
    }
    uint64_t number = found.value;
    return tk_some_pair_u64_size(tk_new_pair_u64_size(number, TK_CAST(size_t, len)));
}

/* atoi_fast/src/quick.rt:126 */
TK_INLINE tk_option_pair_u64_size tk_long_field_u64(uint32_t bits, tk_u128 greatest, tk_bytes s, uint8_t separator)
{
    if (s.len < 16) {
        return tk_none_pair_u64_size();
    }
    tk_option_pair_u64_size found = tk_prefix_by_calls_u64(bits, greatest, s);
    if (!found.is_some) {
        return tk_none_pair_u64_size();
    }
    uint64_t number = found.value.first;
    size_t len = found.value.second;
    if (len < s.len && s.at[tk_index(len, s.len)] == separator) {
        return tk_some_pair_u64_size(tk_new_pair_u64_size(number, len));
    }
    return tk_none_pair_u64_size();
}

/* atoi_fast/src/quick.rt:109 */
TK_INLINE tk_option_pair_u64_size tk_quick_field_u64(uint32_t bits, tk_u128 greatest, tk_bytes s, uint8_t separator)
{
    tk_option_pair_u64_size found = tk_few_digits(s, separator);
    if (found.is_some) {
        uint64_t magnitude = found.value.first;
        size_t len = found.value.second;
        tk_option_u64 found_2 = tk_number_in_range_u64(greatest, 999, false, magnitude);
        if (!found_2.is_some) {
            return tk_none_pair_u64_size();
        }
        uint64_t number = found_2.value;
        return tk_some_pair_u64_size(tk_new_pair_u64_size(number, len));
    }
    return tk_long_field_u64(bits, greatest, s, separator);
}

/* atoi_fast/src/quick.rt:109 */
TK_INLINE tk_option_pair_u64_size tk_quick_field_u8_u64(tk_bytes s, uint8_t separator)
{
    return tk_quick_field_u64(8, tk_u128_of(255), s, separator);
}

/* atoi_fast/src/quick.rt:109 */
TK_INLINE tk_option_pair_i64_size tk_quick_field_i16_i64(tk_bytes s, uint8_t separator)
{
    return tk_quick_field_i64(16, tk_u128_of(32767), s, separator);
}

/* atoi_fast/src/quick.rt:109 */
TK_INLINE tk_option_pair_u64_size tk_quick_field_u16_u64(tk_bytes s, uint8_t separator)
{
    return tk_quick_field_u64(16, tk_u128_of(65535), s, separator);
}

/* atoi_fast/src/quick.rt:109 */
TK_INLINE tk_option_pair_i64_size tk_quick_field_i32_i64(tk_bytes s, uint8_t separator)
{
    return tk_quick_field_i64(32, tk_u128_of(2147483647), s, separator);
}

/* atoi_fast/src/quick.rt:109 */
TK_INLINE tk_option_pair_u64_size tk_quick_field_u32_u64(tk_bytes s, uint8_t separator)
{
    return tk_quick_field_u64(32, tk_u128_of(UINT64_C(4294967295)), s, separator);
}

/* atoi_fast/src/quick.rt:109 */
TK_INLINE tk_option_pair_i64_size tk_quick_field_i64_i64(tk_bytes s, uint8_t separator)
{
    return tk_quick_field_i64(64, tk_u128_of(UINT64_C(9223372036854775807)), s, separator);
}

/* atoi_fast/src/quick.rt:109 */
TK_INLINE tk_option_pair_u64_size tk_quick_field_u64_u64(tk_bytes s, uint8_t separator)
{
    return tk_quick_field_u64(64, tk_u128_of(UINT64_C(18446744073709551615)), s, separator);
}

/* atoi_fast/src/quick.rt:109 */
TK_INLINE tk_option_pair_i64_size tk_quick_field_i128_i64(tk_bytes s, uint8_t separator)
{
    return tk_quick_field_i64(128, tk_u128_make(UINT64_C(9223372036854775807), UINT64_C(18446744073709551615)), s,
                              separator);
}

/* atoi_fast/src/quick.rt:109 */
TK_INLINE tk_option_pair_u64_size tk_quick_field_u128_u64(tk_bytes s, uint8_t separator)
{
    return tk_quick_field_u64(128, tk_u128_make(UINT64_C(18446744073709551615), UINT64_C(18446744073709551615)), s,
                              separator);
}

/* The second and the third byte are digits. */
/* atoi_fast/src/quick.rt:88 */
TK_INLINE tk_option_pair_i64_size tk_three_or_more_i64(uint32_t bits, tk_u128 greatest, tk_bytes s)
{
    if (s.len >= 4 && !tk_u8_is_digit(s.at[3]) && tk_u8_is_digit(s.at[0])) {
        uint8_t first = s.at[0];
        uint8_t second = s.at[1];
        uint8_t third = s.at[2];
        uint64_t tens = 10 * TK_CAST(uint64_t, TK_CAST(uint8_t, first - '0')) + TK_CAST(uint64_t,
                                                                                        TK_CAST(uint8_t, second - '0'));
        uint64_t number = 10 * tens + TK_CAST(uint64_t, TK_CAST(uint8_t, third - '0'));
        tk_option_i64 found = tk_number_in_range_i64(greatest, 999, false, number);
        if (!found.is_some) {
            return tk_none_pair_i64_size();
        }
        int64_t number_2 = found.value;
        return tk_some_pair_i64_size(tk_new_pair_i64_size(number_2, 3));
    }
    return tk_prefix_by_calls_i64(bits, greatest, s);
}

/* A number of one digit or two. */
/* atoi_fast/src/quick.rt:69 */
TK_INLINE tk_option_pair_i64_size tk_two_or_less_i64(tk_bytes s)
{
    if (s.len >= 2 && '0' <= s.at[0] && s.at[0] <= '9' && !tk_u8_is_digit(s.at[1])) {
        uint8_t first = s.at[0];
        return tk_some_pair_i64_size(tk_new_pair_i64_size(tk_from_parts_i64(false,
                                                                            tk_u128_of(TK_CAST(uint8_t, first - '0'))),
                                                                                1));
    }
    if (s.len >= 3 && '0' <= s.at[0] && s.at[0] <= '9' && '0' <= s.at[1] && s.at[1] <= '9'
        && !tk_u8_is_digit(s.at[2])) {
        uint8_t first = s.at[0];
        uint8_t second = s.at[1];
        uint64_t number = 10 * TK_CAST(uint64_t, TK_CAST(uint8_t, first - '0')) + TK_CAST(uint64_t,
                                                                                          TK_CAST(uint8_t,
                                                                                                  second - '0'));
        return tk_some_pair_i64_size(tk_new_pair_i64_size(tk_from_parts_i64(false, tk_u128_of(number)), 2));
    }
    if (s.len == 1 && '0' <= s.at[0] && s.at[0] <= '9') {
        uint8_t first = s.at[0];
        return tk_some_pair_i64_size(tk_new_pair_i64_size(tk_from_parts_i64(false,
                                                                            tk_u128_of(TK_CAST(uint8_t, first - '0'))),
                                                                                1));
    }
    return tk_none_pair_i64_size();
}

/*
 * Returns the number at the start of a slice and its length, if that is one digit or two, or, in a slice of at least
 * 16 bytes, fewer than 16 bytes. Others may be `None`, too. `W` is `i64` or `u64`.
 */
/* atoi_fast/src/quick.rt:51 */
TK_INLINE tk_option_pair_i64_size tk_quick_prefix_i64(uint32_t bits, tk_u128 greatest, tk_bytes s)
{
    if (s.len >= 16) {
        if (s.len >= 3 && '0' <= s.at[1] && s.at[1] <= '9' && '0' <= s.at[2] && s.at[2] <= '9') {
            return tk_three_or_more_i64(bits, greatest, s);
        }
    }
    return tk_two_or_less_i64(s);
}

/* atoi_fast/src/quick.rt:51 */
TK_INLINE tk_option_pair_i64_size tk_quick_prefix_i8_i64(tk_bytes s)
{
    return tk_quick_prefix_i64(8, tk_u128_of(127), s);
}

/* atoi_fast/src/short_prefix.rt:290 */
TK_INLINE tk_option_pair_u64_size tk_prefix_in_word_u64(tk_u128 greatest, uint64_t word, uint32_t len, tk_bytes s)
{
    (void)s;
    uint64_t magnitude = tk_value_by_product(tk_u64_wrapping_sub(word, TK_ZEROS), len);
    tk_option_u64 found = tk_number_in_range_u64(greatest, TK_MOST_IN_WORD, false, magnitude);
    if (!found.is_some) {
        return tk_none_pair_u64_size();
    }
    uint64_t number = found.value;
    return tk_some_pair_u64_size(tk_new_pair_u64_size(number, TK_CAST(size_t, len)));
}

/* `prefix_by_calls` for an unsigned type, with a branch on few digits. */
/* atoi_fast/src/short_prefix.rt:222 */
TK_INLINE tk_option_pair_u64_size tk_prefix_by_length_u64(uint32_t bits, tk_u128 greatest, tk_bytes s)
{
    uint64_t word = tk_load_full(s);
    uint64_t digits = tk_u64_wrapping_sub(word, TK_ZEROS);
    uint64_t marks = (tk_u64_wrapping_add(word, UINT64_C(0x4646464646464646)) | digits) & UINT64_C(0x8080808080808080);
    if ((marks & 0xFF) != 0) {
        return tk_none_pair_u64_size();
    }
    uint64_t first = TK_CAST(uint64_t, tk_lowest_byte(digits));
    if ((marks & 0xFFFF) != 0) {
        return tk_some_pair_u64_size(tk_new_pair_u64_size(tk_from_parts_u64(false, tk_u128_of(first)), 1));
    }
    uint64_t two = 10 * first + TK_CAST(uint64_t, tk_lowest_byte(digits >> 8));
    if ((marks & 0xFFFFFF) != 0) {
        return tk_some_pair_u64_size(tk_new_pair_u64_size(tk_from_parts_u64(false, tk_u128_of(two)), 2));
    }
    if ((marks & UINT64_C(0xFFFFFFFF)) != 0) {
        uint64_t three = 10 * two + TK_CAST(uint64_t, tk_lowest_byte(digits >> 16));
        tk_option_u64 found = tk_number_in_range_u64(greatest, TK_MOST_IN_WORD, false, three);
        if (!found.is_some) {
            return tk_none_pair_u64_size();
        }
        uint64_t number = found.value;
        return tk_some_pair_u64_size(tk_new_pair_u64_size(number, 3));
    }
    if (marks == 0) {
        tk_pair_u64_size found = tk_long_prefix_u64(false, tk_sum_of(digits), s);
        uint64_t number = found.first;
        size_t len = found.second;
        if (len == 0) {
            return tk_none_pair_u64_size();
        }
        return tk_narrowed_u64(bits, greatest, number, len);
    }
    return tk_prefix_in_word_u64(greatest, word, tk_u64_trailing_zeros(marks) / 8, s);
}

/* atoi_fast/src/quick.rt:69 */
TK_INLINE tk_option_pair_u64_size tk_two_or_less_u64(tk_bytes s)
{
    if (s.len >= 2 && '0' <= s.at[0] && s.at[0] <= '9' && !tk_u8_is_digit(s.at[1])) {
        uint8_t first = s.at[0];
        return tk_some_pair_u64_size(tk_new_pair_u64_size(tk_from_parts_u64(false,
                                                                            tk_u128_of(TK_CAST(uint8_t, first - '0'))),
                                                                                1));
    }
    if (s.len >= 3 && '0' <= s.at[0] && s.at[0] <= '9' && '0' <= s.at[1] && s.at[1] <= '9'
        && !tk_u8_is_digit(s.at[2])) {
        uint8_t first = s.at[0];
        uint8_t second = s.at[1];
        uint64_t number = 10 * TK_CAST(uint64_t, TK_CAST(uint8_t, first - '0')) + TK_CAST(uint64_t,
                                                                                          TK_CAST(uint8_t,
                                                                                                  second - '0'));
        return tk_some_pair_u64_size(tk_new_pair_u64_size(tk_from_parts_u64(false, tk_u128_of(number)), 2));
    }
    if (s.len == 1 && '0' <= s.at[0] && s.at[0] <= '9') {
        uint8_t first = s.at[0];
        return tk_some_pair_u64_size(tk_new_pair_u64_size(tk_from_parts_u64(false,
                                                                            tk_u128_of(TK_CAST(uint8_t, first - '0'))),
                                                                                1));
    }
    return tk_none_pair_u64_size();
}

/* atoi_fast/src/quick.rt:51 */
TK_INLINE tk_option_pair_u64_size tk_quick_prefix_u64(uint32_t bits, tk_u128 greatest, tk_bytes s)
{
    if (s.len >= 16) {
        return tk_prefix_by_length_u64(bits, greatest, s);
    }
    return tk_two_or_less_u64(s);
}

/* atoi_fast/src/quick.rt:51 */
TK_INLINE tk_option_pair_u64_size tk_quick_prefix_u8_u64(tk_bytes s)
{
    return tk_quick_prefix_u64(8, tk_u128_of(255), s);
}

/* atoi_fast/src/quick.rt:51 */
TK_INLINE tk_option_pair_i64_size tk_quick_prefix_i16_i64(tk_bytes s)
{
    return tk_quick_prefix_i64(16, tk_u128_of(32767), s);
}

/* atoi_fast/src/quick.rt:51 */
TK_INLINE tk_option_pair_u64_size tk_quick_prefix_u16_u64(tk_bytes s)
{
    return tk_quick_prefix_u64(16, tk_u128_of(65535), s);
}

/* atoi_fast/src/quick.rt:51 */
TK_INLINE tk_option_pair_i64_size tk_quick_prefix_i32_i64(tk_bytes s)
{
    return tk_quick_prefix_i64(32, tk_u128_of(2147483647), s);
}

/* atoi_fast/src/quick.rt:51 */
TK_INLINE tk_option_pair_u64_size tk_quick_prefix_u32_u64(tk_bytes s)
{
    return tk_quick_prefix_u64(32, tk_u128_of(UINT64_C(4294967295)), s);
}

/* atoi_fast/src/quick.rt:51 */
TK_INLINE tk_option_pair_i64_size tk_quick_prefix_i64_i64(tk_bytes s)
{
    return tk_quick_prefix_i64(64, tk_u128_of(UINT64_C(9223372036854775807)), s);
}

/* atoi_fast/src/quick.rt:51 */
TK_INLINE tk_option_pair_u64_size tk_quick_prefix_u64_u64(tk_bytes s)
{
    return tk_quick_prefix_u64(64, tk_u128_of(UINT64_C(18446744073709551615)), s);
}

/* atoi_fast/src/quick.rt:51 */
TK_INLINE tk_option_pair_i64_size tk_quick_prefix_i128_i64(tk_bytes s)
{
    return tk_quick_prefix_i64(128, tk_u128_make(UINT64_C(9223372036854775807), UINT64_C(18446744073709551615)), s);
}

/* atoi_fast/src/quick.rt:51 */
TK_INLINE tk_option_pair_u64_size tk_quick_prefix_u128_u64(tk_bytes s)
{
    return tk_quick_prefix_u64(128, tk_u128_make(UINT64_C(18446744073709551615), UINT64_C(18446744073709551615)), s);
}

/* Returns whether `byte` may separate fields: any byte except a digit, `+` or `-`. */
/* atoi_column/src/column.rt:27 */
TK_HINTED bool tk_is_separator(uint8_t byte)
{
    return !(('0' <= byte && byte <= '9') || byte == '+' || byte == '-');
}

#ifdef TK_ALL
typedef struct tk_pair_bool_bytes {
    bool first;
    tk_bytes second;
} tk_pair_bool_bytes;

TK_CONSTEXPR tk_pair_bool_bytes tk_new_pair_bool_bytes(bool first, tk_bytes second)
{
    return TK_MAKE(tk_pair_bool_bytes, first, second);
}

typedef struct tk_option_u128 {
    bool is_some;
    tk_u128 value;
} tk_option_u128;

TK_CONSTEXPR tk_option_u128 tk_some_u128(tk_u128 value)
{
    return TK_MAKE(tk_option_u128, true, value);
}

TK_CONSTEXPR tk_option_u128 tk_none_u128(void)
{
    return TK_MAKE(tk_option_u128, false, tk_u128_of(0));
}

typedef struct tk_pair_u128_size {
    tk_u128 first;
    size_t second;
} tk_pair_u128_size;

TK_CONSTEXPR tk_pair_u128_size tk_new_pair_u128_size(tk_u128 first, size_t second)
{
    return TK_MAKE(tk_pair_u128_size, first, second);
}

typedef struct tk_option_pair_u128_size {
    bool is_some;
    tk_pair_u128_size value;
} tk_option_pair_u128_size;

TK_CONSTEXPR tk_option_pair_u128_size tk_some_pair_u128_size(tk_pair_u128_size value)
{
    return TK_MAKE(tk_option_pair_u128_size, true, value);
}

TK_CONSTEXPR tk_option_pair_u128_size tk_none_pair_u128_size(void)
{
    return TK_MAKE(tk_option_pair_u128_size, false, tk_new_pair_u128_size(tk_u128_of(0), 0));
}

typedef struct tk_pair_i8_size {
    int8_t first;
    size_t second;
} tk_pair_i8_size;

TK_CONSTEXPR tk_pair_i8_size tk_new_pair_i8_size(int8_t first, size_t second)
{
    return TK_MAKE(tk_pair_i8_size, first, second);
}

typedef struct tk_option_pair_i8_size {
    bool is_some;
    tk_pair_i8_size value;
} tk_option_pair_i8_size;

TK_CONSTEXPR tk_option_pair_i8_size tk_some_pair_i8_size(tk_pair_i8_size value)
{
    return TK_MAKE(tk_option_pair_i8_size, true, value);
}

TK_CONSTEXPR tk_option_pair_i8_size tk_none_pair_i8_size(void)
{
    return TK_MAKE(tk_option_pair_i8_size, false, tk_new_pair_i8_size(0, 0));
}

typedef struct tk_pair_u8_size {
    uint8_t first;
    size_t second;
} tk_pair_u8_size;

TK_CONSTEXPR tk_pair_u8_size tk_new_pair_u8_size(uint8_t first, size_t second)
{
    return TK_MAKE(tk_pair_u8_size, first, second);
}

typedef struct tk_option_pair_u8_size {
    bool is_some;
    tk_pair_u8_size value;
} tk_option_pair_u8_size;

TK_CONSTEXPR tk_option_pair_u8_size tk_some_pair_u8_size(tk_pair_u8_size value)
{
    return TK_MAKE(tk_option_pair_u8_size, true, value);
}

TK_CONSTEXPR tk_option_pair_u8_size tk_none_pair_u8_size(void)
{
    return TK_MAKE(tk_option_pair_u8_size, false, tk_new_pair_u8_size(0, 0));
}

typedef struct tk_pair_i16_size {
    int16_t first;
    size_t second;
} tk_pair_i16_size;

TK_CONSTEXPR tk_pair_i16_size tk_new_pair_i16_size(int16_t first, size_t second)
{
    return TK_MAKE(tk_pair_i16_size, first, second);
}

typedef struct tk_option_pair_i16_size {
    bool is_some;
    tk_pair_i16_size value;
} tk_option_pair_i16_size;

TK_CONSTEXPR tk_option_pair_i16_size tk_some_pair_i16_size(tk_pair_i16_size value)
{
    return TK_MAKE(tk_option_pair_i16_size, true, value);
}

TK_CONSTEXPR tk_option_pair_i16_size tk_none_pair_i16_size(void)
{
    return TK_MAKE(tk_option_pair_i16_size, false, tk_new_pair_i16_size(0, 0));
}

typedef struct tk_pair_u16_size {
    uint16_t first;
    size_t second;
} tk_pair_u16_size;

TK_CONSTEXPR tk_pair_u16_size tk_new_pair_u16_size(uint16_t first, size_t second)
{
    return TK_MAKE(tk_pair_u16_size, first, second);
}

typedef struct tk_option_pair_u16_size {
    bool is_some;
    tk_pair_u16_size value;
} tk_option_pair_u16_size;

TK_CONSTEXPR tk_option_pair_u16_size tk_some_pair_u16_size(tk_pair_u16_size value)
{
    return TK_MAKE(tk_option_pair_u16_size, true, value);
}

TK_CONSTEXPR tk_option_pair_u16_size tk_none_pair_u16_size(void)
{
    return TK_MAKE(tk_option_pair_u16_size, false, tk_new_pair_u16_size(0, 0));
}

typedef struct tk_pair_i32_size {
    int32_t first;
    size_t second;
} tk_pair_i32_size;

TK_CONSTEXPR tk_pair_i32_size tk_new_pair_i32_size(int32_t first, size_t second)
{
    return TK_MAKE(tk_pair_i32_size, first, second);
}

typedef struct tk_option_pair_i32_size {
    bool is_some;
    tk_pair_i32_size value;
} tk_option_pair_i32_size;

TK_CONSTEXPR tk_option_pair_i32_size tk_some_pair_i32_size(tk_pair_i32_size value)
{
    return TK_MAKE(tk_option_pair_i32_size, true, value);
}

TK_CONSTEXPR tk_option_pair_i32_size tk_none_pair_i32_size(void)
{
    return TK_MAKE(tk_option_pair_i32_size, false, tk_new_pair_i32_size(0, 0));
}

typedef struct tk_pair_u32_size {
    uint32_t first;
    size_t second;
} tk_pair_u32_size;

TK_CONSTEXPR tk_pair_u32_size tk_new_pair_u32_size(uint32_t first, size_t second)
{
    return TK_MAKE(tk_pair_u32_size, first, second);
}

typedef struct tk_option_pair_u32_size {
    bool is_some;
    tk_pair_u32_size value;
} tk_option_pair_u32_size;

TK_CONSTEXPR tk_option_pair_u32_size tk_some_pair_u32_size(tk_pair_u32_size value)
{
    return TK_MAKE(tk_option_pair_u32_size, true, value);
}

TK_CONSTEXPR tk_option_pair_u32_size tk_none_pair_u32_size(void)
{
    return TK_MAKE(tk_option_pair_u32_size, false, tk_new_pair_u32_size(0, 0));
}

typedef struct tk_pair_i128_size {
    tk_i128 first;
    size_t second;
} tk_pair_i128_size;

TK_CONSTEXPR tk_pair_i128_size tk_new_pair_i128_size(tk_i128 first, size_t second)
{
    return TK_MAKE(tk_pair_i128_size, first, second);
}

typedef struct tk_option_pair_i128_size {
    bool is_some;
    tk_pair_i128_size value;
} tk_option_pair_i128_size;

TK_CONSTEXPR tk_option_pair_i128_size tk_some_pair_i128_size(tk_pair_i128_size value)
{
    return TK_MAKE(tk_option_pair_i128_size, true, value);
}

TK_CONSTEXPR tk_option_pair_i128_size tk_none_pair_i128_size(void)
{
    return TK_MAKE(tk_option_pair_i128_size, false, tk_new_pair_i128_size(tk_i128_of(0), 0));
}

typedef struct tk_option_i8 {
    bool is_some;
    int8_t value;
} tk_option_i8;

TK_CONSTEXPR tk_option_i8 tk_some_i8(int8_t value)
{
    return TK_MAKE(tk_option_i8, true, value);
}

TK_CONSTEXPR tk_option_i8 tk_none_i8(void)
{
    return TK_MAKE(tk_option_i8, false, 0);
}

typedef struct tk_option_i16 {
    bool is_some;
    int16_t value;
} tk_option_i16;

TK_CONSTEXPR tk_option_i16 tk_some_i16(int16_t value)
{
    return TK_MAKE(tk_option_i16, true, value);
}

TK_CONSTEXPR tk_option_i16 tk_none_i16(void)
{
    return TK_MAKE(tk_option_i16, false, 0);
}

typedef struct tk_option_u16 {
    bool is_some;
    uint16_t value;
} tk_option_u16;

TK_CONSTEXPR tk_option_u16 tk_some_u16(uint16_t value)
{
    return TK_MAKE(tk_option_u16, true, value);
}

TK_CONSTEXPR tk_option_u16 tk_none_u16(void)
{
    return TK_MAKE(tk_option_u16, false, 0);
}

typedef struct tk_option_i32 {
    bool is_some;
    int32_t value;
} tk_option_i32;

TK_CONSTEXPR tk_option_i32 tk_some_i32(int32_t value)
{
    return TK_MAKE(tk_option_i32, true, value);
}

TK_CONSTEXPR tk_option_i32 tk_none_i32(void)
{
    return TK_MAKE(tk_option_i32, false, 0);
}

typedef struct tk_option_u32 {
    bool is_some;
    uint32_t value;
} tk_option_u32;

TK_CONSTEXPR tk_option_u32 tk_some_u32(uint32_t value)
{
    return TK_MAKE(tk_option_u32, true, value);
}

TK_CONSTEXPR tk_option_u32 tk_none_u32(void)
{
    return TK_MAKE(tk_option_u32, false, 0);
}

typedef struct tk_option_i128 {
    bool is_some;
    tk_i128 value;
} tk_option_i128;

TK_CONSTEXPR tk_option_i128 tk_some_i128(tk_i128 value)
{
    return TK_MAKE(tk_option_i128, true, value);
}

TK_CONSTEXPR tk_option_i128 tk_none_i128(void)
{
    return TK_MAKE(tk_option_i128, false, tk_i128_of(0));
}

/* atoi_core/src/number.rt:143 */
TK_CONSTEXPR int8_t tk_from_parts_i8(bool minus, tk_u128 magnitude)
{
    return TK_CAST(int8_t, tk_i128_low(tk_with_sign_64(minus, tk_u128_low(magnitude))));
}

/* atoi_core/src/number.rt:115 */
TK_CONSTEXPR uint8_t tk_from_parts_u8(bool minus, tk_u128 magnitude)
{
    (void)minus;
    return TK_CAST(uint8_t, tk_u128_low(magnitude));
}

/* atoi_core/src/number.rt:207 */
TK_CONSTEXPR int16_t tk_from_parts_i16(bool minus, tk_u128 magnitude)
{
    return TK_CAST(int16_t, tk_i128_low(tk_with_sign_64(minus, tk_u128_low(magnitude))));
}

/* atoi_core/src/number.rt:179 */
TK_CONSTEXPR uint16_t tk_from_parts_u16(bool minus, tk_u128 magnitude)
{
    (void)minus;
    return TK_CAST(uint16_t, tk_u128_low(magnitude));
}

/* atoi_core/src/number.rt:271 */
TK_CONSTEXPR int32_t tk_from_parts_i32(bool minus, tk_u128 magnitude)
{
    return TK_CAST(int32_t, tk_i128_low(tk_with_sign_64(minus, tk_u128_low(magnitude))));
}

/* atoi_core/src/number.rt:243 */
TK_CONSTEXPR uint32_t tk_from_parts_u32(bool minus, tk_u128 magnitude)
{
    (void)minus;
    return TK_CAST(uint32_t, tk_u128_low(magnitude));
}

/* atoi_core/src/number.rt:399 */
TK_CONSTEXPR tk_i128 tk_from_parts_i128(bool minus, tk_u128 magnitude)
{
    if (!minus) {
        return tk_u128_as_i128(magnitude);
    }
    if (tk_u128_equal(magnitude, tk_u128_make(UINT64_C(9223372036854775808), 0))) {
        return tk_i128_make(UINT64_C(9223372036854775808), 0);
    }
    return tk_i128_negate(tk_u128_as_i128(magnitude));
}

/* atoi_core/src/number.rt:371 */
TK_CONSTEXPR tk_u128 tk_from_parts_u128(bool minus, tk_u128 magnitude)
{
    (void)minus;
    return magnitude;
}

/*
 * Consumes a `+` if `skip_plus`, or a `-` if `signed`. Returns whether it was a `-`, and the body
 * after it.
 */
/* atoi_core/src/calls.rt:59 */
TK_CONSTEXPR tk_pair_bool_bytes tk_take_sign(bool signed_, bool skip_plus, tk_bytes s)
{
    if (s.len >= 1 && s.at[0] == '+' && skip_plus) {
        tk_bytes body = tk_bytes_from(s, 1);
        return tk_new_pair_bool_bytes(false, body);
    }
    if (s.len >= 1 && s.at[0] == '-' && signed_) {
        tk_bytes body = tk_bytes_from(s, 1);
        return tk_new_pair_bool_bytes(true, body);
    }
    return tk_new_pair_bool_bytes(false, s);
}

/* Returns the magnitude of `T::MIN` if `minus` is set, otherwise `T::MAX`. */
/* atoi_core/src/number.rt:71 */
TK_CONSTEXPR tk_u128 tk_greatest_magnitude(tk_u128 greatest, bool minus)
{
    return tk_u128_add(greatest, tk_u128_of(minus));
}

/* Returns the value of the digits of `number` and one more digit, unless that is above `bound`. */
/* atoi_fast/src/by_digits.rt:63 */
TK_CONSTEXPR tk_option_u128 tk_append_digit(tk_u128 bound, tk_u128 number, uint8_t digit)
{
    if (!tk_u128_product_fits(number, tk_u128_of(10))) {
        return tk_none_u128();
    }
    tk_u128 left = tk_u128_mul(number, tk_u128_of(10));
    tk_u128 right = tk_u128_of(digit);
    if (!tk_u128_sum_fits(left, right)) {
        return tk_none_u128();
    }
    tk_u128 number_2 = tk_u128_add(left, right);
    if (tk_u128_less(bound, number_2)) {
        return tk_none_u128();
    }
    return tk_some_u128(number_2);
}

/*
 * Returns the value of the digits at the start of `s`, and how many there are, unless there is no digit or the
 * value is above `bound`.
 */
/* atoi_fast/src/by_digits.rt:46 */
TK_CONSTEXPR tk_option_pair_u128_size tk_magnitude_by_digits(tk_u128 bound, tk_bytes s)
{
    tk_u128 number = tk_u128_of(0);
    size_t len = 0;
    while (len < s.len && tk_u8_is_digit(s.at[tk_index(len, s.len)])) {
        tk_option_u128 found = tk_append_digit(bound, number, TK_CAST(uint8_t, s.at[tk_index(len, s.len)] - '0'));
        if (!found.is_some) {
            return tk_none_pair_u128_size();
        }
        number = found.value;
        len++;
    }
    if (len == 0) {
        return tk_none_pair_u128_size();
    }
    return tk_some_pair_u128_size(tk_new_pair_u128_size(number, len));
}

/*
 * Returns the number at the start of `s` and its length, which a prefix parse returns that skips zeros and takes no
 * plus, or `None` for each of its errors.
 */
/* atoi_fast/src/by_digits.rt:13 */
TK_CONSTEXPR tk_option_pair_i8_size tk_prefix_by_digits_i8(tk_bytes s)
{
    tk_pair_bool_bytes found = tk_take_sign(true, false, s);
    bool minus = found.first;
    tk_bytes body = found.second;
    tk_option_pair_u128_size found_2 = tk_magnitude_by_digits(tk_greatest_magnitude(tk_u128_of(127), minus), body);
    if (!found_2.is_some) {
        return tk_none_pair_i8_size();
    }
    tk_u128 magnitude = found_2.value.first;
    size_t len = found_2.value.second;
    return tk_some_pair_i8_size(tk_new_pair_i8_size(tk_from_parts_i8(minus, magnitude), len + (s.len - body.len)));
}

/* atoi_fast/src/by_digits.rt:13 */
TK_CONSTEXPR tk_option_pair_u8_size tk_prefix_by_digits_u8(tk_bytes s)
{
    tk_pair_bool_bytes found = tk_take_sign(false, false, s);
    bool minus = found.first;
    tk_bytes body = found.second;
    tk_option_pair_u128_size found_2 = tk_magnitude_by_digits(tk_greatest_magnitude(tk_u128_of(255), minus), body);
    if (!found_2.is_some) {
        return tk_none_pair_u8_size();
    }
    tk_u128 magnitude = found_2.value.first;
    size_t len = found_2.value.second;
    return tk_some_pair_u8_size(tk_new_pair_u8_size(tk_from_parts_u8(minus, magnitude), len + (s.len - body.len)));
}

/* atoi_fast/src/by_digits.rt:13 */
TK_CONSTEXPR tk_option_pair_i16_size tk_prefix_by_digits_i16(tk_bytes s)
{
    tk_pair_bool_bytes found = tk_take_sign(true, false, s);
    bool minus = found.first;
    tk_bytes body = found.second;
    tk_option_pair_u128_size found_2 = tk_magnitude_by_digits(tk_greatest_magnitude(tk_u128_of(32767), minus), body);
    if (!found_2.is_some) {
        return tk_none_pair_i16_size();
    }
    tk_u128 magnitude = found_2.value.first;
    size_t len = found_2.value.second;
    return tk_some_pair_i16_size(tk_new_pair_i16_size(tk_from_parts_i16(minus, magnitude), len + (s.len - body.len)));
}

/* atoi_fast/src/by_digits.rt:13 */
TK_CONSTEXPR tk_option_pair_u16_size tk_prefix_by_digits_u16(tk_bytes s)
{
    tk_pair_bool_bytes found = tk_take_sign(false, false, s);
    bool minus = found.first;
    tk_bytes body = found.second;
    tk_option_pair_u128_size found_2 = tk_magnitude_by_digits(tk_greatest_magnitude(tk_u128_of(65535), minus), body);
    if (!found_2.is_some) {
        return tk_none_pair_u16_size();
    }
    tk_u128 magnitude = found_2.value.first;
    size_t len = found_2.value.second;
    return tk_some_pair_u16_size(tk_new_pair_u16_size(tk_from_parts_u16(minus, magnitude), len + (s.len - body.len)));
}

/* atoi_fast/src/by_digits.rt:13 */
TK_CONSTEXPR tk_option_pair_i32_size tk_prefix_by_digits_i32(tk_bytes s)
{
    tk_pair_bool_bytes found = tk_take_sign(true, false, s);
    bool minus = found.first;
    tk_bytes body = found.second;
    tk_option_pair_u128_size found_2 = tk_magnitude_by_digits(tk_greatest_magnitude(tk_u128_of(2147483647), minus),
                                                              body);
    if (!found_2.is_some) {
        return tk_none_pair_i32_size();
    }
    tk_u128 magnitude = found_2.value.first;
    size_t len = found_2.value.second;
    return tk_some_pair_i32_size(tk_new_pair_i32_size(tk_from_parts_i32(minus, magnitude), len + (s.len - body.len)));
}

/* atoi_fast/src/by_digits.rt:13 */
TK_CONSTEXPR tk_option_pair_u32_size tk_prefix_by_digits_u32(tk_bytes s)
{
    tk_pair_bool_bytes found = tk_take_sign(false, false, s);
    bool minus = found.first;
    tk_bytes body = found.second;
    tk_option_pair_u128_size found_2 = tk_magnitude_by_digits(tk_greatest_magnitude(tk_u128_of(UINT64_C(4294967295)),
                                                                                    minus), body);
    if (!found_2.is_some) {
        return tk_none_pair_u32_size();
    }
    tk_u128 magnitude = found_2.value.first;
    size_t len = found_2.value.second;
    return tk_some_pair_u32_size(tk_new_pair_u32_size(tk_from_parts_u32(minus, magnitude), len + (s.len - body.len)));
}

/* atoi_fast/src/by_digits.rt:13 */
TK_CONSTEXPR tk_option_pair_i64_size tk_prefix_by_digits_i64(tk_bytes s)
{
    tk_pair_bool_bytes found = tk_take_sign(true, false, s);
    bool minus = found.first;
    tk_bytes body = found.second;
    tk_option_pair_u128_size found_2 = tk_magnitude_by_digits(
        tk_greatest_magnitude(tk_u128_of(UINT64_C(9223372036854775807)), minus), body);
    if (!found_2.is_some) {
        return tk_none_pair_i64_size();
    }
    tk_u128 magnitude = found_2.value.first;
    size_t len = found_2.value.second;
    return tk_some_pair_i64_size(tk_new_pair_i64_size(tk_from_parts_i64(minus, magnitude), len + (s.len - body.len)));
}

/* atoi_fast/src/by_digits.rt:13 */
TK_CONSTEXPR tk_option_pair_u64_size tk_prefix_by_digits_u64(tk_bytes s)
{
    tk_pair_bool_bytes found = tk_take_sign(false, false, s);
    bool minus = found.first;
    tk_bytes body = found.second;
    tk_option_pair_u128_size found_2 = tk_magnitude_by_digits(
        tk_greatest_magnitude(tk_u128_of(UINT64_C(18446744073709551615)), minus), body);
    if (!found_2.is_some) {
        return tk_none_pair_u64_size();
    }
    tk_u128 magnitude = found_2.value.first;
    size_t len = found_2.value.second;
    return tk_some_pair_u64_size(tk_new_pair_u64_size(tk_from_parts_u64(minus, magnitude), len + (s.len - body.len)));
}

/* atoi_fast/src/by_digits.rt:13 */
TK_CONSTEXPR tk_option_pair_i128_size tk_prefix_by_digits_i128(tk_bytes s)
{
    tk_pair_bool_bytes found = tk_take_sign(true, false, s);
    bool minus = found.first;
    tk_bytes body = found.second;
    tk_option_pair_u128_size found_2 = tk_magnitude_by_digits(
        tk_greatest_magnitude(tk_u128_make(UINT64_C(9223372036854775807), UINT64_C(18446744073709551615)), minus),
            body);
    if (!found_2.is_some) {
        return tk_none_pair_i128_size();
    }
    tk_u128 magnitude = found_2.value.first;
    size_t len = found_2.value.second;
    return tk_some_pair_i128_size(tk_new_pair_i128_size(tk_from_parts_i128(minus, magnitude),
                                                        len + (s.len - body.len)));
}

/* atoi_fast/src/by_digits.rt:13 */
TK_CONSTEXPR tk_option_pair_u128_size tk_prefix_by_digits_u128(tk_bytes s)
{
    tk_pair_bool_bytes found = tk_take_sign(false, false, s);
    bool minus = found.first;
    tk_bytes body = found.second;
    tk_option_pair_u128_size found_2 = tk_magnitude_by_digits(
        tk_greatest_magnitude(tk_u128_make(UINT64_C(18446744073709551615), UINT64_C(18446744073709551615)), minus),
            body);
    if (!found_2.is_some) {
        return tk_none_pair_u128_size();
    }
    tk_u128 magnitude = found_2.value.first;
    size_t len = found_2.value.second;
    return tk_some_pair_u128_size(tk_new_pair_u128_size(tk_from_parts_u128(minus, magnitude),
                                                        len + (s.len - body.len)));
}

/* Says whether so many digits are too many for a wide type, unless zeros are skipped. */
/* atoi_fast/src/by_digits.rt:72 */
TK_CONSTEXPR bool tk_is_above_limit(uint32_t bits, bool is_signed, size_t len)
{
    size_t limit = bits == 64 && is_signed ? 19 : bits == 64 && !is_signed ? 20 : 39;
    return bits > 32 && len > limit;
}

/* Returns the number that a whole parse of `s` returns, or `None` for each of its errors. */
/* atoi_fast/src/by_digits.rt:28 */
TK_CONSTEXPR tk_option_i8 tk_whole_by_digits_i8(bool skip, bool skip_plus, tk_bytes s)
{
    tk_pair_bool_bytes found = tk_take_sign(true, skip_plus, s);
    bool minus = found.first;
    tk_bytes body = found.second;
    tk_option_pair_u128_size found_2 = tk_magnitude_by_digits(tk_greatest_magnitude(tk_u128_of(127), minus), body);
    if (!found_2.is_some) {
        return tk_none_i8();
    }
    tk_u128 magnitude = found_2.value.first;
    size_t len = found_2.value.second;
    if (len != body.len) {
        return tk_none_i8();
    }
    if (!skip && tk_is_above_limit(8, true, len)) {
        return tk_none_i8();
    }
    return tk_some_i8(tk_from_parts_i8(minus, magnitude));
}

/* atoi_fast/src/by_digits.rt:28 */
TK_CONSTEXPR tk_option_u8 tk_whole_by_digits_u8(bool skip, bool skip_plus, tk_bytes s)
{
    tk_pair_bool_bytes found = tk_take_sign(false, skip_plus, s);
    bool minus = found.first;
    tk_bytes body = found.second;
    tk_option_pair_u128_size found_2 = tk_magnitude_by_digits(tk_greatest_magnitude(tk_u128_of(255), minus), body);
    if (!found_2.is_some) {
        return tk_none_u8();
    }
    tk_u128 magnitude = found_2.value.first;
    size_t len = found_2.value.second;
    if (len != body.len) {
        return tk_none_u8();
    }
    if (!skip && tk_is_above_limit(8, false, len)) {
        return tk_none_u8();
    }
    return tk_some_u8(tk_from_parts_u8(minus, magnitude));
}

/* atoi_fast/src/by_digits.rt:28 */
TK_CONSTEXPR tk_option_i16 tk_whole_by_digits_i16(bool skip, bool skip_plus, tk_bytes s)
{
    tk_pair_bool_bytes found = tk_take_sign(true, skip_plus, s);
    bool minus = found.first;
    tk_bytes body = found.second;
    tk_option_pair_u128_size found_2 = tk_magnitude_by_digits(tk_greatest_magnitude(tk_u128_of(32767), minus), body);
    if (!found_2.is_some) {
        return tk_none_i16();
    }
    tk_u128 magnitude = found_2.value.first;
    size_t len = found_2.value.second;
    if (len != body.len) {
        return tk_none_i16();
    }
    if (!skip && tk_is_above_limit(16, true, len)) {
        return tk_none_i16();
    }
    return tk_some_i16(tk_from_parts_i16(minus, magnitude));
}

/* atoi_fast/src/by_digits.rt:28 */
TK_CONSTEXPR tk_option_u16 tk_whole_by_digits_u16(bool skip, bool skip_plus, tk_bytes s)
{
    tk_pair_bool_bytes found = tk_take_sign(false, skip_plus, s);
    bool minus = found.first;
    tk_bytes body = found.second;
    tk_option_pair_u128_size found_2 = tk_magnitude_by_digits(tk_greatest_magnitude(tk_u128_of(65535), minus), body);
    if (!found_2.is_some) {
        return tk_none_u16();
    }
    tk_u128 magnitude = found_2.value.first;
    size_t len = found_2.value.second;
    if (len != body.len) {
        return tk_none_u16();
    }
    if (!skip && tk_is_above_limit(16, false, len)) {
        return tk_none_u16();
    }
    return tk_some_u16(tk_from_parts_u16(minus, magnitude));
}

/* atoi_fast/src/by_digits.rt:28 */
TK_CONSTEXPR tk_option_i32 tk_whole_by_digits_i32(bool skip, bool skip_plus, tk_bytes s)
{
    tk_pair_bool_bytes found = tk_take_sign(true, skip_plus, s);
    bool minus = found.first;
    tk_bytes body = found.second;
    tk_option_pair_u128_size found_2 = tk_magnitude_by_digits(tk_greatest_magnitude(tk_u128_of(2147483647), minus),
                                                              body);
    if (!found_2.is_some) {
        return tk_none_i32();
    }
    tk_u128 magnitude = found_2.value.first;
    size_t len = found_2.value.second;
    if (len != body.len) {
        return tk_none_i32();
    }
    if (!skip && tk_is_above_limit(32, true, len)) {
        return tk_none_i32();
    }
    return tk_some_i32(tk_from_parts_i32(minus, magnitude));
}

/* atoi_fast/src/by_digits.rt:28 */
TK_CONSTEXPR tk_option_u32 tk_whole_by_digits_u32(bool skip, bool skip_plus, tk_bytes s)
{
    tk_pair_bool_bytes found = tk_take_sign(false, skip_plus, s);
    bool minus = found.first;
    tk_bytes body = found.second;
    tk_option_pair_u128_size found_2 = tk_magnitude_by_digits(tk_greatest_magnitude(tk_u128_of(UINT64_C(4294967295)),
                                                                                    minus), body);
    if (!found_2.is_some) {
        return tk_none_u32();
    }
    tk_u128 magnitude = found_2.value.first;
    size_t len = found_2.value.second;
    if (len != body.len) {
        return tk_none_u32();
    }
    if (!skip && tk_is_above_limit(32, false, len)) {
        return tk_none_u32();
    }
    return tk_some_u32(tk_from_parts_u32(minus, magnitude));
}

/* atoi_fast/src/by_digits.rt:28 */
TK_CONSTEXPR tk_option_i64 tk_whole_by_digits_i64(bool skip, bool skip_plus, tk_bytes s)
{
    tk_pair_bool_bytes found = tk_take_sign(true, skip_plus, s);
    bool minus = found.first;
    tk_bytes body = found.second;
    tk_option_pair_u128_size found_2 = tk_magnitude_by_digits(
        tk_greatest_magnitude(tk_u128_of(UINT64_C(9223372036854775807)), minus), body);
    if (!found_2.is_some) {
        return tk_none_i64();
    }
    tk_u128 magnitude = found_2.value.first;
    size_t len = found_2.value.second;
    if (len != body.len) {
        return tk_none_i64();
    }
    if (!skip && tk_is_above_limit(64, true, len)) {
        return tk_none_i64();
    }
    return tk_some_i64(tk_from_parts_i64(minus, magnitude));
}

/* atoi_fast/src/by_digits.rt:28 */
TK_CONSTEXPR tk_option_u64 tk_whole_by_digits_u64(bool skip, bool skip_plus, tk_bytes s)
{
    tk_pair_bool_bytes found = tk_take_sign(false, skip_plus, s);
    bool minus = found.first;
    tk_bytes body = found.second;
    tk_option_pair_u128_size found_2 = tk_magnitude_by_digits(
        tk_greatest_magnitude(tk_u128_of(UINT64_C(18446744073709551615)), minus), body);
    if (!found_2.is_some) {
        return tk_none_u64();
    }
    tk_u128 magnitude = found_2.value.first;
    size_t len = found_2.value.second;
    if (len != body.len) {
        return tk_none_u64();
    }
    if (!skip && tk_is_above_limit(64, false, len)) {
        return tk_none_u64();
    }
    return tk_some_u64(tk_from_parts_u64(minus, magnitude));
}

/* atoi_fast/src/by_digits.rt:28 */
TK_CONSTEXPR tk_option_i128 tk_whole_by_digits_i128(bool skip, bool skip_plus, tk_bytes s)
{
    tk_pair_bool_bytes found = tk_take_sign(true, skip_plus, s);
    bool minus = found.first;
    tk_bytes body = found.second;
    tk_option_pair_u128_size found_2 = tk_magnitude_by_digits(
        tk_greatest_magnitude(tk_u128_make(UINT64_C(9223372036854775807), UINT64_C(18446744073709551615)), minus),
            body);
    if (!found_2.is_some) {
        return tk_none_i128();
    }
    tk_u128 magnitude = found_2.value.first;
    size_t len = found_2.value.second;
    if (len != body.len) {
        return tk_none_i128();
    }
    if (!skip && tk_is_above_limit(128, true, len)) {
        return tk_none_i128();
    }
    return tk_some_i128(tk_from_parts_i128(minus, magnitude));
}

/* atoi_fast/src/by_digits.rt:28 */
TK_CONSTEXPR tk_option_u128 tk_whole_by_digits_u128(bool skip, bool skip_plus, tk_bytes s)
{
    tk_pair_bool_bytes found = tk_take_sign(false, skip_plus, s);
    bool minus = found.first;
    tk_bytes body = found.second;
    tk_option_pair_u128_size found_2 = tk_magnitude_by_digits(
        tk_greatest_magnitude(tk_u128_make(UINT64_C(18446744073709551615), UINT64_C(18446744073709551615)), minus),
            body);
    if (!found_2.is_some) {
        return tk_none_u128();
    }
    tk_u128 magnitude = found_2.value.first;
    size_t len = found_2.value.second;
    if (len != body.len) {
        return tk_none_u128();
    }
    if (!skip && tk_is_above_limit(128, false, len)) {
        return tk_none_u128();
    }
    return tk_some_u128(tk_from_parts_u128(minus, magnitude));
}
#endif
/* ---- The interface, written by hand. */

TK_INLINE tk_bytes tk_text(const char *text, size_t length) TORKETTLE_NOEXCEPT
{
    return tk_bytes_of(TORKETTLE_BYTES_(text), length);
}

/* The status of a call that found no number. It is never TORKETTLE_OK, but a compiler cannot know that, and would warn
   that the value of such a call may not be set. */
static inline torkettle_status torkettle_refusal(torkettle_status status) TORKETTLE_NOEXCEPT
{
#if defined __GNUC__ || defined __clang__
    if (status == TORKETTLE_OK)
        __builtin_unreachable();
    return status;
#else
    return status == TORKETTLE_OK ? TORKETTLE_EMPTY : status;
#endif
}

/* How many bytes of a text are fields: none if the separator is a digit, `+` or `-`, and so no field is found. */
static inline size_t torkettle_rest_length(size_t length, char separator) TORKETTLE_NOEXCEPT
{
    return tk_is_separator(TK_CAST(uint8_t, separator)) ? length : 0;
}

#if defined __SIZEOF_INT128__ && !defined TORKETTLE_NO_INT128
typedef tk_i128 torkettle_i128;
typedef tk_u128 torkettle_u128;
#define TORKETTLE_LARGE_TYPES_(of) of(i128, torkettle_i128) of(u128, torkettle_u128)
#else
#define TORKETTLE_LARGE_TYPES_(of)
#endif
/* For a macro that takes the name of a type and the type. */
#define TORKETTLE_TYPES_(of)                                                                                           \
    of(i8, int8_t) of(u8, uint8_t) of(i16, int16_t) of(u16, uint16_t) of(i32, int32_t) of(u32, uint32_t)               \
        of(i64, int64_t) of(u64, uint64_t) TORKETTLE_LARGE_TYPES_(of)

typedef struct torkettle_found_i8 {
    int8_t value;
    size_t length;
} torkettle_found_i8;

typedef struct torkettle_fields_i8 {
    torkettle_status status;
    size_t index, offset;
    const char *text;
    size_t length, next_index, next_offset;
    const char *rest;
    size_t rest_length;
    char separator, is_lines;
} torkettle_fields_i8;

typedef struct torkettle_column_i8 {
    torkettle_status status;
    size_t index, offset;
    torkettle_fields_i8 fields;
} torkettle_column_i8;

torkettle_found_i8 torkettle_whole_i8(const char *text, size_t length, unsigned flags)
    TORKETTLE_SYMBOL_(whole_i8);
torkettle_found_i8 torkettle_prefix_i8(const char *text, size_t length, unsigned flags)
    TORKETTLE_SYMBOL_(prefix_i8);
torkettle_found_i8 torkettle_whole_canonical_i8(const char *text, size_t length)
    TORKETTLE_SYMBOL_(whole_canonical_i8);
torkettle_found_i8 torkettle_prefix_json_i8(const char *text, size_t length) TORKETTLE_SYMBOL_(prefix_json_i8);
torkettle_found_i8 torkettle_next_i8(torkettle_fields_i8 *fields) TORKETTLE_SYMBOL_(next_i8);
torkettle_column_i8 torkettle_ended_i8(const torkettle_fields_i8 *fields) TORKETTLE_SYMBOL_(ended_i8);
torkettle_status torkettle_parse_pos_i8(const char *text, size_t length, unsigned flags, int8_t *value)
    TORKETTLE_SYMBOL_(parse_pos_i8);
torkettle_status torkettle_parse_prefix_pos_i8(const char *text, size_t length, unsigned flags, int8_t *value,
                                               size_t *count) TORKETTLE_SYMBOL_(parse_prefix_pos_i8);
torkettle_error torkettle_parse_error_i8(const char *text, size_t length, unsigned flags)
    TORKETTLE_SYMBOL_(parse_error_i8);
torkettle_error torkettle_parse_prefix_error_i8(const char *text, size_t length, unsigned flags)
    TORKETTLE_SYMBOL_(parse_prefix_error_i8);
size_t torkettle_column_i8_read(torkettle_column_i8 *column, int8_t *values, size_t count)
    TORKETTLE_SYMBOL_(column_i8_read);
size_t torkettle_fields_i8_read(torkettle_fields_i8 *fields, int8_t *values, size_t count)
    TORKETTLE_SYMBOL_(fields_i8_read);

TK_INLINE torkettle_found_i8 torkettle_of_whole_i8(const char *text, size_t length, unsigned flags)
{
    tk_option_u8 digit = tk_one_digit(tk_text(text, length));
    torkettle_found_i8 found = {TK_CAST(int8_t, digit.value), 1};
    if (digit.is_some)
        return found;
    return torkettle_whole_i8(text, length, flags);
}

TK_INLINE torkettle_found_i8 torkettle_of_prefix_i8(const char *text, size_t length, unsigned flags)
{
    tk_option_pair_i64_size number = tk_quick_prefix_i8_i64(tk_text(text, length));
    torkettle_found_i8 found = {TK_CAST(int8_t, number.value.first), number.value.second};
    return number.is_some ? found : torkettle_prefix_i8(text, length, flags);
}

/* Reads the next field, by a call unless `tk_quick_field` finds a number. The call gets a copy, so that compilers can
   keep the fields of a loop in registers. */
TK_INLINE torkettle_found_i8 torkettle_next_of_i8(torkettle_fields_i8 *fields)
{
    tk_bytes rest = tk_text(fields->rest, fields->rest_length);
    tk_option_pair_i64_size number = tk_quick_field_i8_i64(rest, TK_CAST(uint8_t, fields->separator));
    torkettle_found_i8 found = {TK_CAST(int8_t, number.value.first), 1};
    size_t count = number.value.second + 1;
    if (!number.is_some) {
        torkettle_fields_i8 copy = *fields;
        found = torkettle_next_i8(&copy);
        *fields = copy;
        return found;
    }
    fields->status = TORKETTLE_OK;
    fields->next_index += 1;
    fields->next_offset += count;
    fields->rest += count;
    fields->rest_length -= count;
    return found;
}

static inline torkettle_status torkettle_parse_i8(const char *text, size_t length, unsigned flags,
                                                  int8_t *value) TORKETTLE_NOEXCEPT
{
    torkettle_found_i8 found = torkettle_of_whole_i8(text, length, flags);
    if (found.length == 0)
        return torkettle_refusal(TK_CAST(torkettle_status, found.value));
    *value = found.value;
    return TORKETTLE_OK;
}

TK_INLINE torkettle_status torkettle_parse_prefix_i8(const char *text, size_t length, unsigned flags, int8_t *value,
                                                     size_t *count) TORKETTLE_NOEXCEPT
{
    torkettle_found_i8 found = torkettle_of_prefix_i8(text, length, flags);
    if (found.length == 0)
        return torkettle_refusal(TK_CAST(torkettle_status, found.value));
    *value = found.value;
    *count = found.length;
    return TORKETTLE_OK;
}

static inline bool torkettle_canonical_i8(const char *text, size_t length, int8_t *value) TORKETTLE_NOEXCEPT
{
    torkettle_found_i8 found = torkettle_whole_canonical_i8(text, length);
    if (found.length == 0)
        return false;
    *value = found.value;
    return true;
}

static inline bool torkettle_json_integer_i8(const char *text, size_t length, int8_t *value,
                                             size_t *count) TORKETTLE_NOEXCEPT
{
    torkettle_found_i8 found = torkettle_prefix_json_i8(text, length);
    if (found.length == 0)
        return false;
    *value = found.value;
    *count = found.length;
    return true;
}

static inline void torkettle_fields_i8_init(torkettle_fields_i8 *fields, const char *text, size_t length,
                                            char separator) TORKETTLE_NOEXCEPT
{
    torkettle_fields_i8 start = {TORKETTLE_OK, 0, 0, NULL, 0, 0, 0, text, 0, separator, 0};
    start.rest_length = torkettle_rest_length(length, separator);
    *fields = start;
}

static inline void torkettle_fields_i8_init_lines(torkettle_fields_i8 *fields, const char *text,
                                                  size_t length) TORKETTLE_NOEXCEPT
{
    torkettle_fields_i8_init(fields, text, length, '\n');
    fields->is_lines = 1;
}

static inline void torkettle_fields_i8_starting_at(torkettle_fields_i8 *fields, size_t index,
                                                   size_t offset) TORKETTLE_NOEXCEPT
{
    fields->next_index = index;
    fields->next_offset = offset;
}

static inline bool torkettle_fields_i8_next(torkettle_fields_i8 *fields, int8_t *value) TORKETTLE_NOEXCEPT
{
    torkettle_found_i8 found = torkettle_next_of_i8(fields);
    /* The caller also tests the status, so compilers do not warn that the value is not set. */
    if (fields->status == TORKETTLE_OK && found.length != 0)
        *value = found.value;
    return found.length != 0;
}

static inline void torkettle_column_i8_init(torkettle_column_i8 *column, const char *text, size_t length,
                                            char separator) TORKETTLE_NOEXCEPT
{
    bool is_separator = tk_is_separator(TK_CAST(uint8_t, separator));
    torkettle_fields_i8_init(&column->fields, text, length, separator);
    column->status = is_separator ? TORKETTLE_OK : TORKETTLE_INVALID;
    column->index = column->offset = is_separator ? 0 : SIZE_MAX;
}

static inline bool torkettle_column_i8_next(torkettle_column_i8 *column, int8_t *value) TORKETTLE_NOEXCEPT
{
    torkettle_found_i8 found = torkettle_next_of_i8(&column->fields);
    if (found.length == 2) {
        torkettle_fields_i8 bad = column->fields;
        *column = torkettle_ended_i8(&bad);
    }
    if (found.length != 1)
        return false;
    *value = found.value;
    return true;
}
typedef struct torkettle_found_u8 {
    uint8_t value;
    size_t length;
} torkettle_found_u8;

typedef struct torkettle_fields_u8 {
    torkettle_status status;
    size_t index, offset;
    const char *text;
    size_t length, next_index, next_offset;
    const char *rest;
    size_t rest_length;
    char separator, is_lines;
} torkettle_fields_u8;

typedef struct torkettle_column_u8 {
    torkettle_status status;
    size_t index, offset;
    torkettle_fields_u8 fields;
} torkettle_column_u8;

torkettle_found_u8 torkettle_whole_u8(const char *text, size_t length, unsigned flags)
    TORKETTLE_SYMBOL_(whole_u8);
torkettle_found_u8 torkettle_prefix_u8(const char *text, size_t length, unsigned flags)
    TORKETTLE_SYMBOL_(prefix_u8);
torkettle_found_u8 torkettle_whole_canonical_u8(const char *text, size_t length)
    TORKETTLE_SYMBOL_(whole_canonical_u8);
torkettle_found_u8 torkettle_prefix_json_u8(const char *text, size_t length) TORKETTLE_SYMBOL_(prefix_json_u8);
torkettle_found_u8 torkettle_next_u8(torkettle_fields_u8 *fields) TORKETTLE_SYMBOL_(next_u8);
torkettle_column_u8 torkettle_ended_u8(const torkettle_fields_u8 *fields) TORKETTLE_SYMBOL_(ended_u8);
torkettle_status torkettle_parse_pos_u8(const char *text, size_t length, unsigned flags, uint8_t *value)
    TORKETTLE_SYMBOL_(parse_pos_u8);
torkettle_status torkettle_parse_prefix_pos_u8(const char *text, size_t length, unsigned flags, uint8_t *value,
                                               size_t *count) TORKETTLE_SYMBOL_(parse_prefix_pos_u8);
torkettle_error torkettle_parse_error_u8(const char *text, size_t length, unsigned flags)
    TORKETTLE_SYMBOL_(parse_error_u8);
torkettle_error torkettle_parse_prefix_error_u8(const char *text, size_t length, unsigned flags)
    TORKETTLE_SYMBOL_(parse_prefix_error_u8);
size_t torkettle_column_u8_read(torkettle_column_u8 *column, uint8_t *values, size_t count)
    TORKETTLE_SYMBOL_(column_u8_read);
size_t torkettle_fields_u8_read(torkettle_fields_u8 *fields, uint8_t *values, size_t count)
    TORKETTLE_SYMBOL_(fields_u8_read);

TK_INLINE torkettle_found_u8 torkettle_of_whole_u8(const char *text, size_t length, unsigned flags)
{
    tk_option_u8 digit = tk_one_digit(tk_text(text, length));
    torkettle_found_u8 found = {TK_CAST(uint8_t, digit.value), 1};
    if (digit.is_some)
        return found;
    return torkettle_whole_u8(text, length, flags);
}

TK_INLINE torkettle_found_u8 torkettle_of_prefix_u8(const char *text, size_t length, unsigned flags)
{
    tk_option_pair_u64_size number = tk_quick_prefix_u8_u64(tk_text(text, length));
    torkettle_found_u8 found = {TK_CAST(uint8_t, number.value.first), number.value.second};
    return number.is_some ? found : torkettle_prefix_u8(text, length, flags);
}

/* Reads the next field, by a call unless `tk_quick_field` finds a number. The call gets a copy, so that compilers can
   keep the fields of a loop in registers. */
TK_INLINE torkettle_found_u8 torkettle_next_of_u8(torkettle_fields_u8 *fields)
{
    tk_bytes rest = tk_text(fields->rest, fields->rest_length);
    tk_option_pair_u64_size number = tk_quick_field_u8_u64(rest, TK_CAST(uint8_t, fields->separator));
    torkettle_found_u8 found = {TK_CAST(uint8_t, number.value.first), 1};
    size_t count = number.value.second + 1;
    if (!number.is_some) {
        torkettle_fields_u8 copy = *fields;
        found = torkettle_next_u8(&copy);
        *fields = copy;
        return found;
    }
    fields->status = TORKETTLE_OK;
    fields->next_index += 1;
    fields->next_offset += count;
    fields->rest += count;
    fields->rest_length -= count;
    return found;
}

static inline torkettle_status torkettle_parse_u8(const char *text, size_t length, unsigned flags,
                                                  uint8_t *value) TORKETTLE_NOEXCEPT
{
    torkettle_found_u8 found = torkettle_of_whole_u8(text, length, flags);
    if (found.length == 0)
        return torkettle_refusal(TK_CAST(torkettle_status, found.value));
    *value = found.value;
    return TORKETTLE_OK;
}

TK_INLINE torkettle_status torkettle_parse_prefix_u8(const char *text, size_t length, unsigned flags, uint8_t *value,
                                                     size_t *count) TORKETTLE_NOEXCEPT
{
    torkettle_found_u8 found = torkettle_of_prefix_u8(text, length, flags);
    if (found.length == 0)
        return torkettle_refusal(TK_CAST(torkettle_status, found.value));
    *value = found.value;
    *count = found.length;
    return TORKETTLE_OK;
}

static inline bool torkettle_canonical_u8(const char *text, size_t length, uint8_t *value) TORKETTLE_NOEXCEPT
{
    torkettle_found_u8 found = torkettle_whole_canonical_u8(text, length);
    if (found.length == 0)
        return false;
    *value = found.value;
    return true;
}

static inline bool torkettle_json_integer_u8(const char *text, size_t length, uint8_t *value,
                                             size_t *count) TORKETTLE_NOEXCEPT
{
    torkettle_found_u8 found = torkettle_prefix_json_u8(text, length);
    if (found.length == 0)
        return false;
    *value = found.value;
    *count = found.length;
    return true;
}

static inline void torkettle_fields_u8_init(torkettle_fields_u8 *fields, const char *text, size_t length,
                                            char separator) TORKETTLE_NOEXCEPT
{
    torkettle_fields_u8 start = {TORKETTLE_OK, 0, 0, NULL, 0, 0, 0, text, 0, separator, 0};
    start.rest_length = torkettle_rest_length(length, separator);
    *fields = start;
}

static inline void torkettle_fields_u8_init_lines(torkettle_fields_u8 *fields, const char *text,
                                                  size_t length) TORKETTLE_NOEXCEPT
{
    torkettle_fields_u8_init(fields, text, length, '\n');
    fields->is_lines = 1;
}

static inline void torkettle_fields_u8_starting_at(torkettle_fields_u8 *fields, size_t index,
                                                   size_t offset) TORKETTLE_NOEXCEPT
{
    fields->next_index = index;
    fields->next_offset = offset;
}

static inline bool torkettle_fields_u8_next(torkettle_fields_u8 *fields, uint8_t *value) TORKETTLE_NOEXCEPT
{
    torkettle_found_u8 found = torkettle_next_of_u8(fields);
    /* The caller also tests the status, so compilers do not warn that the value is not set. */
    if (fields->status == TORKETTLE_OK && found.length != 0)
        *value = found.value;
    return found.length != 0;
}

static inline void torkettle_column_u8_init(torkettle_column_u8 *column, const char *text, size_t length,
                                            char separator) TORKETTLE_NOEXCEPT
{
    bool is_separator = tk_is_separator(TK_CAST(uint8_t, separator));
    torkettle_fields_u8_init(&column->fields, text, length, separator);
    column->status = is_separator ? TORKETTLE_OK : TORKETTLE_INVALID;
    column->index = column->offset = is_separator ? 0 : SIZE_MAX;
}

static inline bool torkettle_column_u8_next(torkettle_column_u8 *column, uint8_t *value) TORKETTLE_NOEXCEPT
{
    torkettle_found_u8 found = torkettle_next_of_u8(&column->fields);
    if (found.length == 2) {
        torkettle_fields_u8 bad = column->fields;
        *column = torkettle_ended_u8(&bad);
    }
    if (found.length != 1)
        return false;
    *value = found.value;
    return true;
}
typedef struct torkettle_found_i16 {
    int16_t value;
    size_t length;
} torkettle_found_i16;

typedef struct torkettle_fields_i16 {
    torkettle_status status;
    size_t index, offset;
    const char *text;
    size_t length, next_index, next_offset;
    const char *rest;
    size_t rest_length;
    char separator, is_lines;
} torkettle_fields_i16;

typedef struct torkettle_column_i16 {
    torkettle_status status;
    size_t index, offset;
    torkettle_fields_i16 fields;
} torkettle_column_i16;

torkettle_found_i16 torkettle_whole_i16(const char *text, size_t length, unsigned flags)
    TORKETTLE_SYMBOL_(whole_i16);
torkettle_found_i16 torkettle_prefix_i16(const char *text, size_t length, unsigned flags)
    TORKETTLE_SYMBOL_(prefix_i16);
torkettle_found_i16 torkettle_whole_canonical_i16(const char *text, size_t length)
    TORKETTLE_SYMBOL_(whole_canonical_i16);
torkettle_found_i16 torkettle_prefix_json_i16(const char *text, size_t length) TORKETTLE_SYMBOL_(prefix_json_i16);
torkettle_found_i16 torkettle_next_i16(torkettle_fields_i16 *fields) TORKETTLE_SYMBOL_(next_i16);
torkettle_column_i16 torkettle_ended_i16(const torkettle_fields_i16 *fields) TORKETTLE_SYMBOL_(ended_i16);
torkettle_status torkettle_parse_pos_i16(const char *text, size_t length, unsigned flags, int16_t *value)
    TORKETTLE_SYMBOL_(parse_pos_i16);
torkettle_status torkettle_parse_prefix_pos_i16(const char *text, size_t length, unsigned flags, int16_t *value,
                                                size_t *count) TORKETTLE_SYMBOL_(parse_prefix_pos_i16);
torkettle_error torkettle_parse_error_i16(const char *text, size_t length, unsigned flags)
    TORKETTLE_SYMBOL_(parse_error_i16);
torkettle_error torkettle_parse_prefix_error_i16(const char *text, size_t length, unsigned flags)
    TORKETTLE_SYMBOL_(parse_prefix_error_i16);
size_t torkettle_column_i16_read(torkettle_column_i16 *column, int16_t *values, size_t count)
    TORKETTLE_SYMBOL_(column_i16_read);
size_t torkettle_fields_i16_read(torkettle_fields_i16 *fields, int16_t *values, size_t count)
    TORKETTLE_SYMBOL_(fields_i16_read);

TK_INLINE torkettle_found_i16 torkettle_of_whole_i16(const char *text, size_t length, unsigned flags)
{
    tk_option_u8 digit = tk_one_digit(tk_text(text, length));
    torkettle_found_i16 found = {TK_CAST(int16_t, digit.value), 1};
    if (digit.is_some)
        return found;
    return torkettle_whole_i16(text, length, flags);
}

TK_INLINE torkettle_found_i16 torkettle_of_prefix_i16(const char *text, size_t length, unsigned flags)
{
    tk_option_pair_i64_size number = tk_quick_prefix_i16_i64(tk_text(text, length));
    torkettle_found_i16 found = {TK_CAST(int16_t, number.value.first), number.value.second};
    return number.is_some ? found : torkettle_prefix_i16(text, length, flags);
}

/* Reads the next field, by a call unless `tk_quick_field` finds a number. The call gets a copy, so that compilers can
   keep the fields of a loop in registers. */
TK_INLINE torkettle_found_i16 torkettle_next_of_i16(torkettle_fields_i16 *fields)
{
    tk_bytes rest = tk_text(fields->rest, fields->rest_length);
    tk_option_pair_i64_size number = tk_quick_field_i16_i64(rest, TK_CAST(uint8_t, fields->separator));
    torkettle_found_i16 found = {TK_CAST(int16_t, number.value.first), 1};
    size_t count = number.value.second + 1;
    if (!number.is_some) {
        torkettle_fields_i16 copy = *fields;
        found = torkettle_next_i16(&copy);
        *fields = copy;
        return found;
    }
    fields->status = TORKETTLE_OK;
    fields->next_index += 1;
    fields->next_offset += count;
    fields->rest += count;
    fields->rest_length -= count;
    return found;
}

static inline torkettle_status torkettle_parse_i16(const char *text, size_t length, unsigned flags,
                                                   int16_t *value) TORKETTLE_NOEXCEPT
{
    torkettle_found_i16 found = torkettle_of_whole_i16(text, length, flags);
    if (found.length == 0)
        return torkettle_refusal(TK_CAST(torkettle_status, found.value));
    *value = found.value;
    return TORKETTLE_OK;
}

TK_INLINE torkettle_status torkettle_parse_prefix_i16(const char *text, size_t length, unsigned flags, int16_t *value,
                                                      size_t *count) TORKETTLE_NOEXCEPT
{
    torkettle_found_i16 found = torkettle_of_prefix_i16(text, length, flags);
    if (found.length == 0)
        return torkettle_refusal(TK_CAST(torkettle_status, found.value));
    *value = found.value;
    *count = found.length;
    return TORKETTLE_OK;
}

static inline bool torkettle_canonical_i16(const char *text, size_t length, int16_t *value) TORKETTLE_NOEXCEPT
{
    torkettle_found_i16 found = torkettle_whole_canonical_i16(text, length);
    if (found.length == 0)
        return false;
    *value = found.value;
    return true;
}

static inline bool torkettle_json_integer_i16(const char *text, size_t length, int16_t *value,
                                              size_t *count) TORKETTLE_NOEXCEPT
{
    torkettle_found_i16 found = torkettle_prefix_json_i16(text, length);
    if (found.length == 0)
        return false;
    *value = found.value;
    *count = found.length;
    return true;
}

static inline void torkettle_fields_i16_init(torkettle_fields_i16 *fields, const char *text, size_t length,
                                             char separator) TORKETTLE_NOEXCEPT
{
    torkettle_fields_i16 start = {TORKETTLE_OK, 0, 0, NULL, 0, 0, 0, text, 0, separator, 0};
    start.rest_length = torkettle_rest_length(length, separator);
    *fields = start;
}

static inline void torkettle_fields_i16_init_lines(torkettle_fields_i16 *fields, const char *text,
                                                   size_t length) TORKETTLE_NOEXCEPT
{
    torkettle_fields_i16_init(fields, text, length, '\n');
    fields->is_lines = 1;
}

static inline void torkettle_fields_i16_starting_at(torkettle_fields_i16 *fields, size_t index,
                                                    size_t offset) TORKETTLE_NOEXCEPT
{
    fields->next_index = index;
    fields->next_offset = offset;
}

static inline bool torkettle_fields_i16_next(torkettle_fields_i16 *fields, int16_t *value) TORKETTLE_NOEXCEPT
{
    torkettle_found_i16 found = torkettle_next_of_i16(fields);
    /* The caller also tests the status, so compilers do not warn that the value is not set. */
    if (fields->status == TORKETTLE_OK && found.length != 0)
        *value = found.value;
    return found.length != 0;
}

static inline void torkettle_column_i16_init(torkettle_column_i16 *column, const char *text, size_t length,
                                             char separator) TORKETTLE_NOEXCEPT
{
    bool is_separator = tk_is_separator(TK_CAST(uint8_t, separator));
    torkettle_fields_i16_init(&column->fields, text, length, separator);
    column->status = is_separator ? TORKETTLE_OK : TORKETTLE_INVALID;
    column->index = column->offset = is_separator ? 0 : SIZE_MAX;
}

static inline bool torkettle_column_i16_next(torkettle_column_i16 *column, int16_t *value) TORKETTLE_NOEXCEPT
{
    torkettle_found_i16 found = torkettle_next_of_i16(&column->fields);
    if (found.length == 2) {
        torkettle_fields_i16 bad = column->fields;
        *column = torkettle_ended_i16(&bad);
    }
    if (found.length != 1)
        return false;
    *value = found.value;
    return true;
}
typedef struct torkettle_found_u16 {
    uint16_t value;
    size_t length;
} torkettle_found_u16;

typedef struct torkettle_fields_u16 {
    torkettle_status status;
    size_t index, offset;
    const char *text;
    size_t length, next_index, next_offset;
    const char *rest;
    size_t rest_length;
    char separator, is_lines;
} torkettle_fields_u16;

typedef struct torkettle_column_u16 {
    torkettle_status status;
    size_t index, offset;
    torkettle_fields_u16 fields;
} torkettle_column_u16;

torkettle_found_u16 torkettle_whole_u16(const char *text, size_t length, unsigned flags)
    TORKETTLE_SYMBOL_(whole_u16);
torkettle_found_u16 torkettle_prefix_u16(const char *text, size_t length, unsigned flags)
    TORKETTLE_SYMBOL_(prefix_u16);
torkettle_found_u16 torkettle_whole_canonical_u16(const char *text, size_t length)
    TORKETTLE_SYMBOL_(whole_canonical_u16);
torkettle_found_u16 torkettle_prefix_json_u16(const char *text, size_t length) TORKETTLE_SYMBOL_(prefix_json_u16);
torkettle_found_u16 torkettle_next_u16(torkettle_fields_u16 *fields) TORKETTLE_SYMBOL_(next_u16);
torkettle_column_u16 torkettle_ended_u16(const torkettle_fields_u16 *fields) TORKETTLE_SYMBOL_(ended_u16);
torkettle_status torkettle_parse_pos_u16(const char *text, size_t length, unsigned flags, uint16_t *value)
    TORKETTLE_SYMBOL_(parse_pos_u16);
torkettle_status torkettle_parse_prefix_pos_u16(const char *text, size_t length, unsigned flags, uint16_t *value,
                                                size_t *count) TORKETTLE_SYMBOL_(parse_prefix_pos_u16);
torkettle_error torkettle_parse_error_u16(const char *text, size_t length, unsigned flags)
    TORKETTLE_SYMBOL_(parse_error_u16);
torkettle_error torkettle_parse_prefix_error_u16(const char *text, size_t length, unsigned flags)
    TORKETTLE_SYMBOL_(parse_prefix_error_u16);
size_t torkettle_column_u16_read(torkettle_column_u16 *column, uint16_t *values, size_t count)
    TORKETTLE_SYMBOL_(column_u16_read);
size_t torkettle_fields_u16_read(torkettle_fields_u16 *fields, uint16_t *values, size_t count)
    TORKETTLE_SYMBOL_(fields_u16_read);

TK_INLINE torkettle_found_u16 torkettle_of_whole_u16(const char *text, size_t length, unsigned flags)
{
    tk_option_u8 digit = tk_one_digit(tk_text(text, length));
    torkettle_found_u16 found = {TK_CAST(uint16_t, digit.value), 1};
    if (digit.is_some)
        return found;
    return torkettle_whole_u16(text, length, flags);
}

TK_INLINE torkettle_found_u16 torkettle_of_prefix_u16(const char *text, size_t length, unsigned flags)
{
    tk_option_pair_u64_size number = tk_quick_prefix_u16_u64(tk_text(text, length));
    torkettle_found_u16 found = {TK_CAST(uint16_t, number.value.first), number.value.second};
    return number.is_some ? found : torkettle_prefix_u16(text, length, flags);
}

/* Reads the next field, by a call unless `tk_quick_field` finds a number. The call gets a copy, so that compilers can
   keep the fields of a loop in registers. */
TK_INLINE torkettle_found_u16 torkettle_next_of_u16(torkettle_fields_u16 *fields)
{
    tk_bytes rest = tk_text(fields->rest, fields->rest_length);
    tk_option_pair_u64_size number = tk_quick_field_u16_u64(rest, TK_CAST(uint8_t, fields->separator));
    torkettle_found_u16 found = {TK_CAST(uint16_t, number.value.first), 1};
    size_t count = number.value.second + 1;
    if (!number.is_some) {
        torkettle_fields_u16 copy = *fields;
        found = torkettle_next_u16(&copy);
        *fields = copy;
        return found;
    }
    fields->status = TORKETTLE_OK;
    fields->next_index += 1;
    fields->next_offset += count;
    fields->rest += count;
    fields->rest_length -= count;
    return found;
}

static inline torkettle_status torkettle_parse_u16(const char *text, size_t length, unsigned flags,
                                                   uint16_t *value) TORKETTLE_NOEXCEPT
{
    torkettle_found_u16 found = torkettle_of_whole_u16(text, length, flags);
    if (found.length == 0)
        return torkettle_refusal(TK_CAST(torkettle_status, found.value));
    *value = found.value;
    return TORKETTLE_OK;
}

TK_INLINE torkettle_status torkettle_parse_prefix_u16(const char *text, size_t length, unsigned flags, uint16_t *value,
                                                      size_t *count) TORKETTLE_NOEXCEPT
{
    torkettle_found_u16 found = torkettle_of_prefix_u16(text, length, flags);
    if (found.length == 0)
        return torkettle_refusal(TK_CAST(torkettle_status, found.value));
    *value = found.value;
    *count = found.length;
    return TORKETTLE_OK;
}

static inline bool torkettle_canonical_u16(const char *text, size_t length, uint16_t *value) TORKETTLE_NOEXCEPT
{
    torkettle_found_u16 found = torkettle_whole_canonical_u16(text, length);
    if (found.length == 0)
        return false;
    *value = found.value;
    return true;
}

static inline bool torkettle_json_integer_u16(const char *text, size_t length, uint16_t *value,
                                              size_t *count) TORKETTLE_NOEXCEPT
{
    torkettle_found_u16 found = torkettle_prefix_json_u16(text, length);
    if (found.length == 0)
        return false;
    *value = found.value;
    *count = found.length;
    return true;
}

static inline void torkettle_fields_u16_init(torkettle_fields_u16 *fields, const char *text, size_t length,
                                             char separator) TORKETTLE_NOEXCEPT
{
    torkettle_fields_u16 start = {TORKETTLE_OK, 0, 0, NULL, 0, 0, 0, text, 0, separator, 0};
    start.rest_length = torkettle_rest_length(length, separator);
    *fields = start;
}

static inline void torkettle_fields_u16_init_lines(torkettle_fields_u16 *fields, const char *text,
                                                   size_t length) TORKETTLE_NOEXCEPT
{
    torkettle_fields_u16_init(fields, text, length, '\n');
    fields->is_lines = 1;
}

static inline void torkettle_fields_u16_starting_at(torkettle_fields_u16 *fields, size_t index,
                                                    size_t offset) TORKETTLE_NOEXCEPT
{
    fields->next_index = index;
    fields->next_offset = offset;
}

static inline bool torkettle_fields_u16_next(torkettle_fields_u16 *fields, uint16_t *value) TORKETTLE_NOEXCEPT
{
    torkettle_found_u16 found = torkettle_next_of_u16(fields);
    /* The caller also tests the status, so compilers do not warn that the value is not set. */
    if (fields->status == TORKETTLE_OK && found.length != 0)
        *value = found.value;
    return found.length != 0;
}

static inline void torkettle_column_u16_init(torkettle_column_u16 *column, const char *text, size_t length,
                                             char separator) TORKETTLE_NOEXCEPT
{
    bool is_separator = tk_is_separator(TK_CAST(uint8_t, separator));
    torkettle_fields_u16_init(&column->fields, text, length, separator);
    column->status = is_separator ? TORKETTLE_OK : TORKETTLE_INVALID;
    column->index = column->offset = is_separator ? 0 : SIZE_MAX;
}

static inline bool torkettle_column_u16_next(torkettle_column_u16 *column, uint16_t *value) TORKETTLE_NOEXCEPT
{
    torkettle_found_u16 found = torkettle_next_of_u16(&column->fields);
    if (found.length == 2) {
        torkettle_fields_u16 bad = column->fields;
        *column = torkettle_ended_u16(&bad);
    }
    if (found.length != 1)
        return false;
    *value = found.value;
    return true;
}
typedef struct torkettle_found_i32 {
    int32_t value;
    size_t length;
} torkettle_found_i32;

typedef struct torkettle_fields_i32 {
    torkettle_status status;
    size_t index, offset;
    const char *text;
    size_t length, next_index, next_offset;
    const char *rest;
    size_t rest_length;
    char separator, is_lines;
} torkettle_fields_i32;

typedef struct torkettle_column_i32 {
    torkettle_status status;
    size_t index, offset;
    torkettle_fields_i32 fields;
} torkettle_column_i32;

torkettle_found_i32 torkettle_whole_i32(const char *text, size_t length, unsigned flags)
    TORKETTLE_SYMBOL_(whole_i32);
torkettle_found_i32 torkettle_prefix_i32(const char *text, size_t length, unsigned flags)
    TORKETTLE_SYMBOL_(prefix_i32);
torkettle_found_i32 torkettle_whole_canonical_i32(const char *text, size_t length)
    TORKETTLE_SYMBOL_(whole_canonical_i32);
torkettle_found_i32 torkettle_prefix_json_i32(const char *text, size_t length) TORKETTLE_SYMBOL_(prefix_json_i32);
torkettle_found_i32 torkettle_next_i32(torkettle_fields_i32 *fields) TORKETTLE_SYMBOL_(next_i32);
torkettle_column_i32 torkettle_ended_i32(const torkettle_fields_i32 *fields) TORKETTLE_SYMBOL_(ended_i32);
torkettle_status torkettle_parse_pos_i32(const char *text, size_t length, unsigned flags, int32_t *value)
    TORKETTLE_SYMBOL_(parse_pos_i32);
torkettle_status torkettle_parse_prefix_pos_i32(const char *text, size_t length, unsigned flags, int32_t *value,
                                                size_t *count) TORKETTLE_SYMBOL_(parse_prefix_pos_i32);
torkettle_error torkettle_parse_error_i32(const char *text, size_t length, unsigned flags)
    TORKETTLE_SYMBOL_(parse_error_i32);
torkettle_error torkettle_parse_prefix_error_i32(const char *text, size_t length, unsigned flags)
    TORKETTLE_SYMBOL_(parse_prefix_error_i32);
size_t torkettle_column_i32_read(torkettle_column_i32 *column, int32_t *values, size_t count)
    TORKETTLE_SYMBOL_(column_i32_read);
size_t torkettle_fields_i32_read(torkettle_fields_i32 *fields, int32_t *values, size_t count)
    TORKETTLE_SYMBOL_(fields_i32_read);

TK_INLINE torkettle_found_i32 torkettle_of_whole_i32(const char *text, size_t length, unsigned flags)
{
    tk_option_u8 digit = tk_one_digit(tk_text(text, length));
    torkettle_found_i32 found = {TK_CAST(int32_t, digit.value), 1};
    if (digit.is_some)
        return found;
    return torkettle_whole_i32(text, length, flags);
}

TK_INLINE torkettle_found_i32 torkettle_of_prefix_i32(const char *text, size_t length, unsigned flags)
{
    tk_option_pair_i64_size number = tk_quick_prefix_i32_i64(tk_text(text, length));
    torkettle_found_i32 found = {TK_CAST(int32_t, number.value.first), number.value.second};
    return number.is_some ? found : torkettle_prefix_i32(text, length, flags);
}

/* Reads the next field, by a call unless `tk_quick_field` finds a number. The call gets a copy, so that compilers can
   keep the fields of a loop in registers. */
TK_INLINE torkettle_found_i32 torkettle_next_of_i32(torkettle_fields_i32 *fields)
{
    tk_bytes rest = tk_text(fields->rest, fields->rest_length);
    tk_option_pair_i64_size number = tk_quick_field_i32_i64(rest, TK_CAST(uint8_t, fields->separator));
    torkettle_found_i32 found = {TK_CAST(int32_t, number.value.first), 1};
    size_t count = number.value.second + 1;
    if (!number.is_some) {
        torkettle_fields_i32 copy = *fields;
        found = torkettle_next_i32(&copy);
        *fields = copy;
        return found;
    }
    fields->status = TORKETTLE_OK;
    fields->next_index += 1;
    fields->next_offset += count;
    fields->rest += count;
    fields->rest_length -= count;
    return found;
}

static inline torkettle_status torkettle_parse_i32(const char *text, size_t length, unsigned flags,
                                                   int32_t *value) TORKETTLE_NOEXCEPT
{
    torkettle_found_i32 found = torkettle_of_whole_i32(text, length, flags);
    if (found.length == 0)
        return torkettle_refusal(TK_CAST(torkettle_status, found.value));
    *value = found.value;
    return TORKETTLE_OK;
}

TK_INLINE torkettle_status torkettle_parse_prefix_i32(const char *text, size_t length, unsigned flags, int32_t *value,
                                                      size_t *count) TORKETTLE_NOEXCEPT
{
    torkettle_found_i32 found = torkettle_of_prefix_i32(text, length, flags);
    if (found.length == 0)
        return torkettle_refusal(TK_CAST(torkettle_status, found.value));
    *value = found.value;
    *count = found.length;
    return TORKETTLE_OK;
}

static inline bool torkettle_canonical_i32(const char *text, size_t length, int32_t *value) TORKETTLE_NOEXCEPT
{
    torkettle_found_i32 found = torkettle_whole_canonical_i32(text, length);
    if (found.length == 0)
        return false;
    *value = found.value;
    return true;
}

static inline bool torkettle_json_integer_i32(const char *text, size_t length, int32_t *value,
                                              size_t *count) TORKETTLE_NOEXCEPT
{
    torkettle_found_i32 found = torkettle_prefix_json_i32(text, length);
    if (found.length == 0)
        return false;
    *value = found.value;
    *count = found.length;
    return true;
}

static inline void torkettle_fields_i32_init(torkettle_fields_i32 *fields, const char *text, size_t length,
                                             char separator) TORKETTLE_NOEXCEPT
{
    torkettle_fields_i32 start = {TORKETTLE_OK, 0, 0, NULL, 0, 0, 0, text, 0, separator, 0};
    start.rest_length = torkettle_rest_length(length, separator);
    *fields = start;
}

static inline void torkettle_fields_i32_init_lines(torkettle_fields_i32 *fields, const char *text,
                                                   size_t length) TORKETTLE_NOEXCEPT
{
    torkettle_fields_i32_init(fields, text, length, '\n');
    fields->is_lines = 1;
}

static inline void torkettle_fields_i32_starting_at(torkettle_fields_i32 *fields, size_t index,
                                                    size_t offset) TORKETTLE_NOEXCEPT
{
    fields->next_index = index;
    fields->next_offset = offset;
}

static inline bool torkettle_fields_i32_next(torkettle_fields_i32 *fields, int32_t *value) TORKETTLE_NOEXCEPT
{
    torkettle_found_i32 found = torkettle_next_of_i32(fields);
    /* The caller also tests the status, so compilers do not warn that the value is not set. */
    if (fields->status == TORKETTLE_OK && found.length != 0)
        *value = found.value;
    return found.length != 0;
}

static inline void torkettle_column_i32_init(torkettle_column_i32 *column, const char *text, size_t length,
                                             char separator) TORKETTLE_NOEXCEPT
{
    bool is_separator = tk_is_separator(TK_CAST(uint8_t, separator));
    torkettle_fields_i32_init(&column->fields, text, length, separator);
    column->status = is_separator ? TORKETTLE_OK : TORKETTLE_INVALID;
    column->index = column->offset = is_separator ? 0 : SIZE_MAX;
}

static inline bool torkettle_column_i32_next(torkettle_column_i32 *column, int32_t *value) TORKETTLE_NOEXCEPT
{
    torkettle_found_i32 found = torkettle_next_of_i32(&column->fields);
    if (found.length == 2) {
        torkettle_fields_i32 bad = column->fields;
        *column = torkettle_ended_i32(&bad);
    }
    if (found.length != 1)
        return false;
    *value = found.value;
    return true;
}
typedef struct torkettle_found_u32 {
    uint32_t value;
    size_t length;
} torkettle_found_u32;

typedef struct torkettle_fields_u32 {
    torkettle_status status;
    size_t index, offset;
    const char *text;
    size_t length, next_index, next_offset;
    const char *rest;
    size_t rest_length;
    char separator, is_lines;
} torkettle_fields_u32;

typedef struct torkettle_column_u32 {
    torkettle_status status;
    size_t index, offset;
    torkettle_fields_u32 fields;
} torkettle_column_u32;

torkettle_found_u32 torkettle_whole_u32(const char *text, size_t length, unsigned flags)
    TORKETTLE_SYMBOL_(whole_u32);
torkettle_found_u32 torkettle_prefix_u32(const char *text, size_t length, unsigned flags)
    TORKETTLE_SYMBOL_(prefix_u32);
torkettle_found_u32 torkettle_whole_canonical_u32(const char *text, size_t length)
    TORKETTLE_SYMBOL_(whole_canonical_u32);
torkettle_found_u32 torkettle_prefix_json_u32(const char *text, size_t length) TORKETTLE_SYMBOL_(prefix_json_u32);
torkettle_found_u32 torkettle_next_u32(torkettle_fields_u32 *fields) TORKETTLE_SYMBOL_(next_u32);
torkettle_column_u32 torkettle_ended_u32(const torkettle_fields_u32 *fields) TORKETTLE_SYMBOL_(ended_u32);
torkettle_status torkettle_parse_pos_u32(const char *text, size_t length, unsigned flags, uint32_t *value)
    TORKETTLE_SYMBOL_(parse_pos_u32);
torkettle_status torkettle_parse_prefix_pos_u32(const char *text, size_t length, unsigned flags, uint32_t *value,
                                                size_t *count) TORKETTLE_SYMBOL_(parse_prefix_pos_u32);
torkettle_error torkettle_parse_error_u32(const char *text, size_t length, unsigned flags)
    TORKETTLE_SYMBOL_(parse_error_u32);
torkettle_error torkettle_parse_prefix_error_u32(const char *text, size_t length, unsigned flags)
    TORKETTLE_SYMBOL_(parse_prefix_error_u32);
size_t torkettle_column_u32_read(torkettle_column_u32 *column, uint32_t *values, size_t count)
    TORKETTLE_SYMBOL_(column_u32_read);
size_t torkettle_fields_u32_read(torkettle_fields_u32 *fields, uint32_t *values, size_t count)
    TORKETTLE_SYMBOL_(fields_u32_read);

TK_INLINE torkettle_found_u32 torkettle_of_whole_u32(const char *text, size_t length, unsigned flags)
{
    tk_option_u8 digit = tk_one_digit(tk_text(text, length));
    torkettle_found_u32 found = {TK_CAST(uint32_t, digit.value), 1};
    if (digit.is_some)
        return found;
    return torkettle_whole_u32(text, length, flags);
}

TK_INLINE torkettle_found_u32 torkettle_of_prefix_u32(const char *text, size_t length, unsigned flags)
{
    tk_option_pair_u64_size number = tk_quick_prefix_u32_u64(tk_text(text, length));
    torkettle_found_u32 found = {TK_CAST(uint32_t, number.value.first), number.value.second};
    return number.is_some ? found : torkettle_prefix_u32(text, length, flags);
}

/* Reads the next field, by a call unless `tk_quick_field` finds a number. The call gets a copy, so that compilers can
   keep the fields of a loop in registers. */
TK_INLINE torkettle_found_u32 torkettle_next_of_u32(torkettle_fields_u32 *fields)
{
    tk_bytes rest = tk_text(fields->rest, fields->rest_length);
    tk_option_pair_u64_size number = tk_quick_field_u32_u64(rest, TK_CAST(uint8_t, fields->separator));
    torkettle_found_u32 found = {TK_CAST(uint32_t, number.value.first), 1};
    size_t count = number.value.second + 1;
    if (!number.is_some) {
        torkettle_fields_u32 copy = *fields;
        found = torkettle_next_u32(&copy);
        *fields = copy;
        return found;
    }
    fields->status = TORKETTLE_OK;
    fields->next_index += 1;
    fields->next_offset += count;
    fields->rest += count;
    fields->rest_length -= count;
    return found;
}

static inline torkettle_status torkettle_parse_u32(const char *text, size_t length, unsigned flags,
                                                   uint32_t *value) TORKETTLE_NOEXCEPT
{
    torkettle_found_u32 found = torkettle_of_whole_u32(text, length, flags);
    if (found.length == 0)
        return torkettle_refusal(TK_CAST(torkettle_status, found.value));
    *value = found.value;
    return TORKETTLE_OK;
}

TK_INLINE torkettle_status torkettle_parse_prefix_u32(const char *text, size_t length, unsigned flags, uint32_t *value,
                                                      size_t *count) TORKETTLE_NOEXCEPT
{
    torkettle_found_u32 found = torkettle_of_prefix_u32(text, length, flags);
    if (found.length == 0)
        return torkettle_refusal(TK_CAST(torkettle_status, found.value));
    *value = found.value;
    *count = found.length;
    return TORKETTLE_OK;
}

static inline bool torkettle_canonical_u32(const char *text, size_t length, uint32_t *value) TORKETTLE_NOEXCEPT
{
    torkettle_found_u32 found = torkettle_whole_canonical_u32(text, length);
    if (found.length == 0)
        return false;
    *value = found.value;
    return true;
}

static inline bool torkettle_json_integer_u32(const char *text, size_t length, uint32_t *value,
                                              size_t *count) TORKETTLE_NOEXCEPT
{
    torkettle_found_u32 found = torkettle_prefix_json_u32(text, length);
    if (found.length == 0)
        return false;
    *value = found.value;
    *count = found.length;
    return true;
}

static inline void torkettle_fields_u32_init(torkettle_fields_u32 *fields, const char *text, size_t length,
                                             char separator) TORKETTLE_NOEXCEPT
{
    torkettle_fields_u32 start = {TORKETTLE_OK, 0, 0, NULL, 0, 0, 0, text, 0, separator, 0};
    start.rest_length = torkettle_rest_length(length, separator);
    *fields = start;
}

static inline void torkettle_fields_u32_init_lines(torkettle_fields_u32 *fields, const char *text,
                                                   size_t length) TORKETTLE_NOEXCEPT
{
    torkettle_fields_u32_init(fields, text, length, '\n');
    fields->is_lines = 1;
}

static inline void torkettle_fields_u32_starting_at(torkettle_fields_u32 *fields, size_t index,
                                                    size_t offset) TORKETTLE_NOEXCEPT
{
    fields->next_index = index;
    fields->next_offset = offset;
}

static inline bool torkettle_fields_u32_next(torkettle_fields_u32 *fields, uint32_t *value) TORKETTLE_NOEXCEPT
{
    torkettle_found_u32 found = torkettle_next_of_u32(fields);
    /* The caller also tests the status, so compilers do not warn that the value is not set. */
    if (fields->status == TORKETTLE_OK && found.length != 0)
        *value = found.value;
    return found.length != 0;
}

static inline void torkettle_column_u32_init(torkettle_column_u32 *column, const char *text, size_t length,
                                             char separator) TORKETTLE_NOEXCEPT
{
    bool is_separator = tk_is_separator(TK_CAST(uint8_t, separator));
    torkettle_fields_u32_init(&column->fields, text, length, separator);
    column->status = is_separator ? TORKETTLE_OK : TORKETTLE_INVALID;
    column->index = column->offset = is_separator ? 0 : SIZE_MAX;
}

static inline bool torkettle_column_u32_next(torkettle_column_u32 *column, uint32_t *value) TORKETTLE_NOEXCEPT
{
    torkettle_found_u32 found = torkettle_next_of_u32(&column->fields);
    if (found.length == 2) {
        torkettle_fields_u32 bad = column->fields;
        *column = torkettle_ended_u32(&bad);
    }
    if (found.length != 1)
        return false;
    *value = found.value;
    return true;
}
typedef struct torkettle_found_i64 {
    int64_t value;
    size_t length;
} torkettle_found_i64;

typedef struct torkettle_fields_i64 {
    torkettle_status status;
    size_t index, offset;
    const char *text;
    size_t length, next_index, next_offset;
    const char *rest;
    size_t rest_length;
    char separator, is_lines;
} torkettle_fields_i64;

typedef struct torkettle_column_i64 {
    torkettle_status status;
    size_t index, offset;
    torkettle_fields_i64 fields;
} torkettle_column_i64;

torkettle_found_i64 torkettle_whole_i64(const char *text, size_t length, unsigned flags)
    TORKETTLE_SYMBOL_(whole_i64);
torkettle_found_i64 torkettle_prefix_i64(const char *text, size_t length, unsigned flags)
    TORKETTLE_SYMBOL_(prefix_i64);
torkettle_found_i64 torkettle_whole_canonical_i64(const char *text, size_t length)
    TORKETTLE_SYMBOL_(whole_canonical_i64);
torkettle_found_i64 torkettle_prefix_json_i64(const char *text, size_t length) TORKETTLE_SYMBOL_(prefix_json_i64);
torkettle_found_i64 torkettle_next_i64(torkettle_fields_i64 *fields) TORKETTLE_SYMBOL_(next_i64);
torkettle_column_i64 torkettle_ended_i64(const torkettle_fields_i64 *fields) TORKETTLE_SYMBOL_(ended_i64);
torkettle_status torkettle_parse_pos_i64(const char *text, size_t length, unsigned flags, int64_t *value)
    TORKETTLE_SYMBOL_(parse_pos_i64);
torkettle_status torkettle_parse_prefix_pos_i64(const char *text, size_t length, unsigned flags, int64_t *value,
                                                size_t *count) TORKETTLE_SYMBOL_(parse_prefix_pos_i64);
torkettle_error torkettle_parse_error_i64(const char *text, size_t length, unsigned flags)
    TORKETTLE_SYMBOL_(parse_error_i64);
torkettle_error torkettle_parse_prefix_error_i64(const char *text, size_t length, unsigned flags)
    TORKETTLE_SYMBOL_(parse_prefix_error_i64);
size_t torkettle_column_i64_read(torkettle_column_i64 *column, int64_t *values, size_t count)
    TORKETTLE_SYMBOL_(column_i64_read);
size_t torkettle_fields_i64_read(torkettle_fields_i64 *fields, int64_t *values, size_t count)
    TORKETTLE_SYMBOL_(fields_i64_read);

TK_INLINE torkettle_found_i64 torkettle_of_whole_i64(const char *text, size_t length, unsigned flags)
{
    tk_option_u8 digit = tk_one_digit(tk_text(text, length));
    torkettle_found_i64 found = {TK_CAST(int64_t, digit.value), 1};
    if (digit.is_some)
        return found;
    return torkettle_whole_i64(text, length, flags);
}

TK_INLINE torkettle_found_i64 torkettle_of_prefix_i64(const char *text, size_t length, unsigned flags)
{
    tk_option_pair_i64_size number = tk_quick_prefix_i64_i64(tk_text(text, length));
    torkettle_found_i64 found = {TK_CAST(int64_t, number.value.first), number.value.second};
    return number.is_some ? found : torkettle_prefix_i64(text, length, flags);
}

/* Reads the next field, by a call unless `tk_quick_field` finds a number. The call gets a copy, so that compilers can
   keep the fields of a loop in registers. */
TK_INLINE torkettle_found_i64 torkettle_next_of_i64(torkettle_fields_i64 *fields)
{
    tk_bytes rest = tk_text(fields->rest, fields->rest_length);
    tk_option_pair_i64_size number = tk_quick_field_i64_i64(rest, TK_CAST(uint8_t, fields->separator));
    torkettle_found_i64 found = {TK_CAST(int64_t, number.value.first), 1};
    size_t count = number.value.second + 1;
    if (!number.is_some) {
        torkettle_fields_i64 copy = *fields;
        found = torkettle_next_i64(&copy);
        *fields = copy;
        return found;
    }
    fields->status = TORKETTLE_OK;
    fields->next_index += 1;
    fields->next_offset += count;
    fields->rest += count;
    fields->rest_length -= count;
    return found;
}

static inline torkettle_status torkettle_parse_i64(const char *text, size_t length, unsigned flags,
                                                   int64_t *value) TORKETTLE_NOEXCEPT
{
    torkettle_found_i64 found = torkettle_of_whole_i64(text, length, flags);
    if (found.length == 0)
        return torkettle_refusal(TK_CAST(torkettle_status, found.value));
    *value = found.value;
    return TORKETTLE_OK;
}

TK_INLINE torkettle_status torkettle_parse_prefix_i64(const char *text, size_t length, unsigned flags, int64_t *value,
                                                      size_t *count) TORKETTLE_NOEXCEPT
{
    torkettle_found_i64 found = torkettle_of_prefix_i64(text, length, flags);
    if (found.length == 0)
        return torkettle_refusal(TK_CAST(torkettle_status, found.value));
    *value = found.value;
    *count = found.length;
    return TORKETTLE_OK;
}

static inline bool torkettle_canonical_i64(const char *text, size_t length, int64_t *value) TORKETTLE_NOEXCEPT
{
    torkettle_found_i64 found = torkettle_whole_canonical_i64(text, length);
    if (found.length == 0)
        return false;
    *value = found.value;
    return true;
}

static inline bool torkettle_json_integer_i64(const char *text, size_t length, int64_t *value,
                                              size_t *count) TORKETTLE_NOEXCEPT
{
    torkettle_found_i64 found = torkettle_prefix_json_i64(text, length);
    if (found.length == 0)
        return false;
    *value = found.value;
    *count = found.length;
    return true;
}

static inline void torkettle_fields_i64_init(torkettle_fields_i64 *fields, const char *text, size_t length,
                                             char separator) TORKETTLE_NOEXCEPT
{
    torkettle_fields_i64 start = {TORKETTLE_OK, 0, 0, NULL, 0, 0, 0, text, 0, separator, 0};
    start.rest_length = torkettle_rest_length(length, separator);
    *fields = start;
}

static inline void torkettle_fields_i64_init_lines(torkettle_fields_i64 *fields, const char *text,
                                                   size_t length) TORKETTLE_NOEXCEPT
{
    torkettle_fields_i64_init(fields, text, length, '\n');
    fields->is_lines = 1;
}

static inline void torkettle_fields_i64_starting_at(torkettle_fields_i64 *fields, size_t index,
                                                    size_t offset) TORKETTLE_NOEXCEPT
{
    fields->next_index = index;
    fields->next_offset = offset;
}

static inline bool torkettle_fields_i64_next(torkettle_fields_i64 *fields, int64_t *value) TORKETTLE_NOEXCEPT
{
    torkettle_found_i64 found = torkettle_next_of_i64(fields);
    /* The caller also tests the status, so compilers do not warn that the value is not set. */
    if (fields->status == TORKETTLE_OK && found.length != 0)
        *value = found.value;
    return found.length != 0;
}

static inline void torkettle_column_i64_init(torkettle_column_i64 *column, const char *text, size_t length,
                                             char separator) TORKETTLE_NOEXCEPT
{
    bool is_separator = tk_is_separator(TK_CAST(uint8_t, separator));
    torkettle_fields_i64_init(&column->fields, text, length, separator);
    column->status = is_separator ? TORKETTLE_OK : TORKETTLE_INVALID;
    column->index = column->offset = is_separator ? 0 : SIZE_MAX;
}

static inline bool torkettle_column_i64_next(torkettle_column_i64 *column, int64_t *value) TORKETTLE_NOEXCEPT
{
    torkettle_found_i64 found = torkettle_next_of_i64(&column->fields);
    if (found.length == 2) {
        torkettle_fields_i64 bad = column->fields;
        *column = torkettle_ended_i64(&bad);
    }
    if (found.length != 1)
        return false;
    *value = found.value;
    return true;
}
typedef struct torkettle_found_u64 {
    uint64_t value;
    size_t length;
} torkettle_found_u64;

typedef struct torkettle_fields_u64 {
    torkettle_status status;
    size_t index, offset;
    const char *text;
    size_t length, next_index, next_offset;
    const char *rest;
    size_t rest_length;
    char separator, is_lines;
} torkettle_fields_u64;

typedef struct torkettle_column_u64 {
    torkettle_status status;
    size_t index, offset;
    torkettle_fields_u64 fields;
} torkettle_column_u64;

torkettle_found_u64 torkettle_whole_u64(const char *text, size_t length, unsigned flags)
    TORKETTLE_SYMBOL_(whole_u64);
torkettle_found_u64 torkettle_prefix_u64(const char *text, size_t length, unsigned flags)
    TORKETTLE_SYMBOL_(prefix_u64);
torkettle_found_u64 torkettle_whole_canonical_u64(const char *text, size_t length)
    TORKETTLE_SYMBOL_(whole_canonical_u64);
torkettle_found_u64 torkettle_prefix_json_u64(const char *text, size_t length) TORKETTLE_SYMBOL_(prefix_json_u64);
torkettle_found_u64 torkettle_next_u64(torkettle_fields_u64 *fields) TORKETTLE_SYMBOL_(next_u64);
torkettle_column_u64 torkettle_ended_u64(const torkettle_fields_u64 *fields) TORKETTLE_SYMBOL_(ended_u64);
torkettle_status torkettle_parse_pos_u64(const char *text, size_t length, unsigned flags, uint64_t *value)
    TORKETTLE_SYMBOL_(parse_pos_u64);
torkettle_status torkettle_parse_prefix_pos_u64(const char *text, size_t length, unsigned flags, uint64_t *value,
                                                size_t *count) TORKETTLE_SYMBOL_(parse_prefix_pos_u64);
torkettle_error torkettle_parse_error_u64(const char *text, size_t length, unsigned flags)
    TORKETTLE_SYMBOL_(parse_error_u64);
torkettle_error torkettle_parse_prefix_error_u64(const char *text, size_t length, unsigned flags)
    TORKETTLE_SYMBOL_(parse_prefix_error_u64);
size_t torkettle_column_u64_read(torkettle_column_u64 *column, uint64_t *values, size_t count)
    TORKETTLE_SYMBOL_(column_u64_read);
size_t torkettle_fields_u64_read(torkettle_fields_u64 *fields, uint64_t *values, size_t count)
    TORKETTLE_SYMBOL_(fields_u64_read);

TK_INLINE torkettle_found_u64 torkettle_of_whole_u64(const char *text, size_t length, unsigned flags)
{
    tk_option_u8 digit = tk_one_digit(tk_text(text, length));
    torkettle_found_u64 found = {TK_CAST(uint64_t, digit.value), 1};
    if (digit.is_some)
        return found;
    return torkettle_whole_u64(text, length, flags);
}

TK_INLINE torkettle_found_u64 torkettle_of_prefix_u64(const char *text, size_t length, unsigned flags)
{
    tk_option_pair_u64_size number = tk_quick_prefix_u64_u64(tk_text(text, length));
    torkettle_found_u64 found = {TK_CAST(uint64_t, number.value.first), number.value.second};
    return number.is_some ? found : torkettle_prefix_u64(text, length, flags);
}

/* Reads the next field, by a call unless `tk_quick_field` finds a number. The call gets a copy, so that compilers can
   keep the fields of a loop in registers. */
TK_INLINE torkettle_found_u64 torkettle_next_of_u64(torkettle_fields_u64 *fields)
{
    tk_bytes rest = tk_text(fields->rest, fields->rest_length);
    tk_option_pair_u64_size number = tk_quick_field_u64_u64(rest, TK_CAST(uint8_t, fields->separator));
    torkettle_found_u64 found = {TK_CAST(uint64_t, number.value.first), 1};
    size_t count = number.value.second + 1;
    if (!number.is_some) {
        torkettle_fields_u64 copy = *fields;
        found = torkettle_next_u64(&copy);
        *fields = copy;
        return found;
    }
    fields->status = TORKETTLE_OK;
    fields->next_index += 1;
    fields->next_offset += count;
    fields->rest += count;
    fields->rest_length -= count;
    return found;
}

static inline torkettle_status torkettle_parse_u64(const char *text, size_t length, unsigned flags,
                                                   uint64_t *value) TORKETTLE_NOEXCEPT
{
    torkettle_found_u64 found = torkettle_of_whole_u64(text, length, flags);
    if (found.length == 0)
        return torkettle_refusal(TK_CAST(torkettle_status, found.value));
    *value = found.value;
    return TORKETTLE_OK;
}

TK_INLINE torkettle_status torkettle_parse_prefix_u64(const char *text, size_t length, unsigned flags, uint64_t *value,
                                                      size_t *count) TORKETTLE_NOEXCEPT
{
    torkettle_found_u64 found = torkettle_of_prefix_u64(text, length, flags);
    if (found.length == 0)
        return torkettle_refusal(TK_CAST(torkettle_status, found.value));
    *value = found.value;
    *count = found.length;
    return TORKETTLE_OK;
}

static inline bool torkettle_canonical_u64(const char *text, size_t length, uint64_t *value) TORKETTLE_NOEXCEPT
{
    torkettle_found_u64 found = torkettle_whole_canonical_u64(text, length);
    if (found.length == 0)
        return false;
    *value = found.value;
    return true;
}

static inline bool torkettle_json_integer_u64(const char *text, size_t length, uint64_t *value,
                                              size_t *count) TORKETTLE_NOEXCEPT
{
    torkettle_found_u64 found = torkettle_prefix_json_u64(text, length);
    if (found.length == 0)
        return false;
    *value = found.value;
    *count = found.length;
    return true;
}

static inline void torkettle_fields_u64_init(torkettle_fields_u64 *fields, const char *text, size_t length,
                                             char separator) TORKETTLE_NOEXCEPT
{
    torkettle_fields_u64 start = {TORKETTLE_OK, 0, 0, NULL, 0, 0, 0, text, 0, separator, 0};
    start.rest_length = torkettle_rest_length(length, separator);
    *fields = start;
}

static inline void torkettle_fields_u64_init_lines(torkettle_fields_u64 *fields, const char *text,
                                                   size_t length) TORKETTLE_NOEXCEPT
{
    torkettle_fields_u64_init(fields, text, length, '\n');
    fields->is_lines = 1;
}

static inline void torkettle_fields_u64_starting_at(torkettle_fields_u64 *fields, size_t index,
                                                    size_t offset) TORKETTLE_NOEXCEPT
{
    fields->next_index = index;
    fields->next_offset = offset;
}

static inline bool torkettle_fields_u64_next(torkettle_fields_u64 *fields, uint64_t *value) TORKETTLE_NOEXCEPT
{
    torkettle_found_u64 found = torkettle_next_of_u64(fields);
    /* The caller also tests the status, so compilers do not warn that the value is not set. */
    if (fields->status == TORKETTLE_OK && found.length != 0)
        *value = found.value;
    return found.length != 0;
}

static inline void torkettle_column_u64_init(torkettle_column_u64 *column, const char *text, size_t length,
                                             char separator) TORKETTLE_NOEXCEPT
{
    bool is_separator = tk_is_separator(TK_CAST(uint8_t, separator));
    torkettle_fields_u64_init(&column->fields, text, length, separator);
    column->status = is_separator ? TORKETTLE_OK : TORKETTLE_INVALID;
    column->index = column->offset = is_separator ? 0 : SIZE_MAX;
}

static inline bool torkettle_column_u64_next(torkettle_column_u64 *column, uint64_t *value) TORKETTLE_NOEXCEPT
{
    torkettle_found_u64 found = torkettle_next_of_u64(&column->fields);
    if (found.length == 2) {
        torkettle_fields_u64 bad = column->fields;
        *column = torkettle_ended_u64(&bad);
    }
    if (found.length != 1)
        return false;
    *value = found.value;
    return true;
}
#if defined __SIZEOF_INT128__ && !defined TORKETTLE_NO_INT128
typedef struct torkettle_found_i128 {
    torkettle_i128 value;
    size_t length;
} torkettle_found_i128;

typedef struct torkettle_fields_i128 {
    torkettle_status status;
    size_t index, offset;
    const char *text;
    size_t length, next_index, next_offset;
    const char *rest;
    size_t rest_length;
    char separator, is_lines;
} torkettle_fields_i128;

typedef struct torkettle_column_i128 {
    torkettle_status status;
    size_t index, offset;
    torkettle_fields_i128 fields;
} torkettle_column_i128;

torkettle_found_i128 torkettle_whole_i128(const char *text, size_t length, unsigned flags)
    TORKETTLE_SYMBOL_(whole_i128);
torkettle_found_i128 torkettle_prefix_i128(const char *text, size_t length, unsigned flags)
    TORKETTLE_SYMBOL_(prefix_i128);
torkettle_found_i128 torkettle_whole_canonical_i128(const char *text, size_t length)
    TORKETTLE_SYMBOL_(whole_canonical_i128);
torkettle_found_i128 torkettle_prefix_json_i128(const char *text, size_t length) TORKETTLE_SYMBOL_(prefix_json_i128);
torkettle_found_i128 torkettle_next_i128(torkettle_fields_i128 *fields) TORKETTLE_SYMBOL_(next_i128);
torkettle_column_i128 torkettle_ended_i128(const torkettle_fields_i128 *fields) TORKETTLE_SYMBOL_(ended_i128);
torkettle_status torkettle_parse_pos_i128(const char *text, size_t length, unsigned flags, torkettle_i128 *value)
    TORKETTLE_SYMBOL_(parse_pos_i128);
torkettle_status torkettle_parse_prefix_pos_i128(const char *text, size_t length, unsigned flags, torkettle_i128 *value,
                                                 size_t *count) TORKETTLE_SYMBOL_(parse_prefix_pos_i128);
torkettle_error torkettle_parse_error_i128(const char *text, size_t length, unsigned flags)
    TORKETTLE_SYMBOL_(parse_error_i128);
torkettle_error torkettle_parse_prefix_error_i128(const char *text, size_t length, unsigned flags)
    TORKETTLE_SYMBOL_(parse_prefix_error_i128);
size_t torkettle_column_i128_read(torkettle_column_i128 *column, torkettle_i128 *values, size_t count)
    TORKETTLE_SYMBOL_(column_i128_read);
size_t torkettle_fields_i128_read(torkettle_fields_i128 *fields, torkettle_i128 *values, size_t count)
    TORKETTLE_SYMBOL_(fields_i128_read);

TK_INLINE torkettle_found_i128 torkettle_of_whole_i128(const char *text, size_t length, unsigned flags)
{
    tk_option_u8 digit = tk_one_digit(tk_text(text, length));
    torkettle_found_i128 found = {TK_CAST(torkettle_i128, digit.value), 1};
    if (digit.is_some)
        return found;
    return torkettle_whole_i128(text, length, flags);
}

TK_INLINE torkettle_found_i128 torkettle_of_prefix_i128(const char *text, size_t length, unsigned flags)
{
    tk_option_pair_i64_size number = tk_quick_prefix_i128_i64(tk_text(text, length));
    torkettle_found_i128 found = {TK_CAST(torkettle_i128, number.value.first), number.value.second};
    return number.is_some ? found : torkettle_prefix_i128(text, length, flags);
}

/* Reads the next field, by a call unless `tk_quick_field` finds a number. The call gets a copy, so that compilers can
   keep the fields of a loop in registers. */
TK_INLINE torkettle_found_i128 torkettle_next_of_i128(torkettle_fields_i128 *fields)
{
    tk_bytes rest = tk_text(fields->rest, fields->rest_length);
    tk_option_pair_i64_size number = tk_quick_field_i128_i64(rest, TK_CAST(uint8_t, fields->separator));
    torkettle_found_i128 found = {TK_CAST(torkettle_i128, number.value.first), 1};
    size_t count = number.value.second + 1;
    if (!number.is_some) {
        torkettle_fields_i128 copy = *fields;
        found = torkettle_next_i128(&copy);
        *fields = copy;
        return found;
    }
    fields->status = TORKETTLE_OK;
    fields->next_index += 1;
    fields->next_offset += count;
    fields->rest += count;
    fields->rest_length -= count;
    return found;
}

static inline torkettle_status torkettle_parse_i128(const char *text, size_t length, unsigned flags,
                                                    torkettle_i128 *value) TORKETTLE_NOEXCEPT
{
    torkettle_found_i128 found = torkettle_of_whole_i128(text, length, flags);
    if (found.length == 0)
        return torkettle_refusal(TK_CAST(torkettle_status, found.value));
    *value = found.value;
    return TORKETTLE_OK;
}

TK_INLINE torkettle_status torkettle_parse_prefix_i128(const char *text, size_t length, unsigned flags,
                                                       torkettle_i128 *value, size_t *count) TORKETTLE_NOEXCEPT
{
    torkettle_found_i128 found = torkettle_of_prefix_i128(text, length, flags);
    if (found.length == 0)
        return torkettle_refusal(TK_CAST(torkettle_status, found.value));
    *value = found.value;
    *count = found.length;
    return TORKETTLE_OK;
}

static inline bool torkettle_canonical_i128(const char *text, size_t length, torkettle_i128 *value) TORKETTLE_NOEXCEPT
{
    torkettle_found_i128 found = torkettle_whole_canonical_i128(text, length);
    if (found.length == 0)
        return false;
    *value = found.value;
    return true;
}

static inline bool torkettle_json_integer_i128(const char *text, size_t length, torkettle_i128 *value,
                                               size_t *count) TORKETTLE_NOEXCEPT
{
    torkettle_found_i128 found = torkettle_prefix_json_i128(text, length);
    if (found.length == 0)
        return false;
    *value = found.value;
    *count = found.length;
    return true;
}

static inline void torkettle_fields_i128_init(torkettle_fields_i128 *fields, const char *text, size_t length,
                                              char separator) TORKETTLE_NOEXCEPT
{
    torkettle_fields_i128 start = {TORKETTLE_OK, 0, 0, NULL, 0, 0, 0, text, 0, separator, 0};
    start.rest_length = torkettle_rest_length(length, separator);
    *fields = start;
}

static inline void torkettle_fields_i128_init_lines(torkettle_fields_i128 *fields, const char *text,
                                                    size_t length) TORKETTLE_NOEXCEPT
{
    torkettle_fields_i128_init(fields, text, length, '\n');
    fields->is_lines = 1;
}

static inline void torkettle_fields_i128_starting_at(torkettle_fields_i128 *fields, size_t index,
                                                     size_t offset) TORKETTLE_NOEXCEPT
{
    fields->next_index = index;
    fields->next_offset = offset;
}

static inline bool torkettle_fields_i128_next(torkettle_fields_i128 *fields, torkettle_i128 *value) TORKETTLE_NOEXCEPT
{
    torkettle_found_i128 found = torkettle_next_of_i128(fields);
    /* The caller also tests the status, so compilers do not warn that the value is not set. */
    if (fields->status == TORKETTLE_OK && found.length != 0)
        *value = found.value;
    return found.length != 0;
}

static inline void torkettle_column_i128_init(torkettle_column_i128 *column, const char *text, size_t length,
                                              char separator) TORKETTLE_NOEXCEPT
{
    bool is_separator = tk_is_separator(TK_CAST(uint8_t, separator));
    torkettle_fields_i128_init(&column->fields, text, length, separator);
    column->status = is_separator ? TORKETTLE_OK : TORKETTLE_INVALID;
    column->index = column->offset = is_separator ? 0 : SIZE_MAX;
}

static inline bool torkettle_column_i128_next(torkettle_column_i128 *column, torkettle_i128 *value) TORKETTLE_NOEXCEPT
{
    torkettle_found_i128 found = torkettle_next_of_i128(&column->fields);
    if (found.length == 2) {
        torkettle_fields_i128 bad = column->fields;
        *column = torkettle_ended_i128(&bad);
    }
    if (found.length != 1)
        return false;
    *value = found.value;
    return true;
}
typedef struct torkettle_found_u128 {
    torkettle_u128 value;
    size_t length;
} torkettle_found_u128;

typedef struct torkettle_fields_u128 {
    torkettle_status status;
    size_t index, offset;
    const char *text;
    size_t length, next_index, next_offset;
    const char *rest;
    size_t rest_length;
    char separator, is_lines;
} torkettle_fields_u128;

typedef struct torkettle_column_u128 {
    torkettle_status status;
    size_t index, offset;
    torkettle_fields_u128 fields;
} torkettle_column_u128;

torkettle_found_u128 torkettle_whole_u128(const char *text, size_t length, unsigned flags)
    TORKETTLE_SYMBOL_(whole_u128);
torkettle_found_u128 torkettle_prefix_u128(const char *text, size_t length, unsigned flags)
    TORKETTLE_SYMBOL_(prefix_u128);
torkettle_found_u128 torkettle_whole_canonical_u128(const char *text, size_t length)
    TORKETTLE_SYMBOL_(whole_canonical_u128);
torkettle_found_u128 torkettle_prefix_json_u128(const char *text, size_t length) TORKETTLE_SYMBOL_(prefix_json_u128);
torkettle_found_u128 torkettle_next_u128(torkettle_fields_u128 *fields) TORKETTLE_SYMBOL_(next_u128);
torkettle_column_u128 torkettle_ended_u128(const torkettle_fields_u128 *fields) TORKETTLE_SYMBOL_(ended_u128);
torkettle_status torkettle_parse_pos_u128(const char *text, size_t length, unsigned flags, torkettle_u128 *value)
    TORKETTLE_SYMBOL_(parse_pos_u128);
torkettle_status torkettle_parse_prefix_pos_u128(const char *text, size_t length, unsigned flags, torkettle_u128 *value,
                                                 size_t *count) TORKETTLE_SYMBOL_(parse_prefix_pos_u128);
torkettle_error torkettle_parse_error_u128(const char *text, size_t length, unsigned flags)
    TORKETTLE_SYMBOL_(parse_error_u128);
torkettle_error torkettle_parse_prefix_error_u128(const char *text, size_t length, unsigned flags)
    TORKETTLE_SYMBOL_(parse_prefix_error_u128);
size_t torkettle_column_u128_read(torkettle_column_u128 *column, torkettle_u128 *values, size_t count)
    TORKETTLE_SYMBOL_(column_u128_read);
size_t torkettle_fields_u128_read(torkettle_fields_u128 *fields, torkettle_u128 *values, size_t count)
    TORKETTLE_SYMBOL_(fields_u128_read);

TK_INLINE torkettle_found_u128 torkettle_of_whole_u128(const char *text, size_t length, unsigned flags)
{
    tk_option_u8 digit = tk_one_digit(tk_text(text, length));
    torkettle_found_u128 found = {TK_CAST(torkettle_u128, digit.value), 1};
    if (digit.is_some)
        return found;
    return torkettle_whole_u128(text, length, flags);
}

TK_INLINE torkettle_found_u128 torkettle_of_prefix_u128(const char *text, size_t length, unsigned flags)
{
    tk_option_pair_u64_size number = tk_quick_prefix_u128_u64(tk_text(text, length));
    torkettle_found_u128 found = {TK_CAST(torkettle_u128, number.value.first), number.value.second};
    return number.is_some ? found : torkettle_prefix_u128(text, length, flags);
}

/* Reads the next field, by a call unless `tk_quick_field` finds a number. The call gets a copy, so that compilers can
   keep the fields of a loop in registers. */
TK_INLINE torkettle_found_u128 torkettle_next_of_u128(torkettle_fields_u128 *fields)
{
    tk_bytes rest = tk_text(fields->rest, fields->rest_length);
    tk_option_pair_u64_size number = tk_quick_field_u128_u64(rest, TK_CAST(uint8_t, fields->separator));
    torkettle_found_u128 found = {TK_CAST(torkettle_u128, number.value.first), 1};
    size_t count = number.value.second + 1;
    if (!number.is_some) {
        torkettle_fields_u128 copy = *fields;
        found = torkettle_next_u128(&copy);
        *fields = copy;
        return found;
    }
    fields->status = TORKETTLE_OK;
    fields->next_index += 1;
    fields->next_offset += count;
    fields->rest += count;
    fields->rest_length -= count;
    return found;
}

static inline torkettle_status torkettle_parse_u128(const char *text, size_t length, unsigned flags,
                                                    torkettle_u128 *value) TORKETTLE_NOEXCEPT
{
    torkettle_found_u128 found = torkettle_of_whole_u128(text, length, flags);
    if (found.length == 0)
        return torkettle_refusal(TK_CAST(torkettle_status, found.value));
    *value = found.value;
    return TORKETTLE_OK;
}

TK_INLINE torkettle_status torkettle_parse_prefix_u128(const char *text, size_t length, unsigned flags,
                                                       torkettle_u128 *value, size_t *count) TORKETTLE_NOEXCEPT
{
    torkettle_found_u128 found = torkettle_of_prefix_u128(text, length, flags);
    if (found.length == 0)
        return torkettle_refusal(TK_CAST(torkettle_status, found.value));
    *value = found.value;
    *count = found.length;
    return TORKETTLE_OK;
}

static inline bool torkettle_canonical_u128(const char *text, size_t length, torkettle_u128 *value) TORKETTLE_NOEXCEPT
{
    torkettle_found_u128 found = torkettle_whole_canonical_u128(text, length);
    if (found.length == 0)
        return false;
    *value = found.value;
    return true;
}

static inline bool torkettle_json_integer_u128(const char *text, size_t length, torkettle_u128 *value,
                                               size_t *count) TORKETTLE_NOEXCEPT
{
    torkettle_found_u128 found = torkettle_prefix_json_u128(text, length);
    if (found.length == 0)
        return false;
    *value = found.value;
    *count = found.length;
    return true;
}

static inline void torkettle_fields_u128_init(torkettle_fields_u128 *fields, const char *text, size_t length,
                                              char separator) TORKETTLE_NOEXCEPT
{
    torkettle_fields_u128 start = {TORKETTLE_OK, 0, 0, NULL, 0, 0, 0, text, 0, separator, 0};
    start.rest_length = torkettle_rest_length(length, separator);
    *fields = start;
}

static inline void torkettle_fields_u128_init_lines(torkettle_fields_u128 *fields, const char *text,
                                                    size_t length) TORKETTLE_NOEXCEPT
{
    torkettle_fields_u128_init(fields, text, length, '\n');
    fields->is_lines = 1;
}

static inline void torkettle_fields_u128_starting_at(torkettle_fields_u128 *fields, size_t index,
                                                     size_t offset) TORKETTLE_NOEXCEPT
{
    fields->next_index = index;
    fields->next_offset = offset;
}

static inline bool torkettle_fields_u128_next(torkettle_fields_u128 *fields, torkettle_u128 *value) TORKETTLE_NOEXCEPT
{
    torkettle_found_u128 found = torkettle_next_of_u128(fields);
    /* The caller also tests the status, so compilers do not warn that the value is not set. */
    if (fields->status == TORKETTLE_OK && found.length != 0)
        *value = found.value;
    return found.length != 0;
}

static inline void torkettle_column_u128_init(torkettle_column_u128 *column, const char *text, size_t length,
                                              char separator) TORKETTLE_NOEXCEPT
{
    bool is_separator = tk_is_separator(TK_CAST(uint8_t, separator));
    torkettle_fields_u128_init(&column->fields, text, length, separator);
    column->status = is_separator ? TORKETTLE_OK : TORKETTLE_INVALID;
    column->index = column->offset = is_separator ? 0 : SIZE_MAX;
}

static inline bool torkettle_column_u128_next(torkettle_column_u128 *column, torkettle_u128 *value) TORKETTLE_NOEXCEPT
{
    torkettle_found_u128 found = torkettle_next_of_u128(&column->fields);
    if (found.length == 2) {
        torkettle_fields_u128 bad = column->fields;
        *column = torkettle_ended_u128(&bad);
    }
    if (found.length != 1)
        return false;
    *value = found.value;
    return true;
}
#endif

#if ULONG_MAX == UINT64_MAX
static inline torkettle_status torkettle_parse_l(const char *text, size_t length, unsigned flags,
                                                 long *value) TORKETTLE_NOEXCEPT
{
    torkettle_found_i64 found = torkettle_of_whole_i64(text, length, flags);
    if (found.length == 0)
        return torkettle_refusal(TK_CAST(torkettle_status, found.value));
    *value = found.value;
    return TORKETTLE_OK;
}

TK_INLINE torkettle_status torkettle_parse_prefix_l(const char *text, size_t length, unsigned flags, long *value,
                                                    size_t *count) TORKETTLE_NOEXCEPT
{
    torkettle_found_i64 found = torkettle_of_prefix_i64(text, length, flags);
    if (found.length == 0)
        return torkettle_refusal(TK_CAST(torkettle_status, found.value));
    *value = found.value;
    *count = found.length;
    return TORKETTLE_OK;
}

static inline bool torkettle_canonical_l(const char *text, size_t length, long *value) TORKETTLE_NOEXCEPT
{
    torkettle_found_i64 found = torkettle_whole_canonical_i64(text, length);
    if (found.length == 0)
        return false;
    *value = found.value;
    return true;
}

static inline bool torkettle_json_integer_l(const char *text, size_t length, long *value,
                                            size_t *count) TORKETTLE_NOEXCEPT
{
    torkettle_found_i64 found = torkettle_prefix_json_i64(text, length);
    if (found.length == 0)
        return false;
    *value = found.value;
    *count = found.length;
    return true;
}
static inline torkettle_status torkettle_parse_ul(const char *text, size_t length, unsigned flags,
                                                  unsigned long *value) TORKETTLE_NOEXCEPT
{
    torkettle_found_u64 found = torkettle_of_whole_u64(text, length, flags);
    if (found.length == 0)
        return torkettle_refusal(TK_CAST(torkettle_status, found.value));
    *value = found.value;
    return TORKETTLE_OK;
}

TK_INLINE torkettle_status torkettle_parse_prefix_ul(const char *text, size_t length, unsigned flags,
                                                     unsigned long *value, size_t *count) TORKETTLE_NOEXCEPT
{
    torkettle_found_u64 found = torkettle_of_prefix_u64(text, length, flags);
    if (found.length == 0)
        return torkettle_refusal(TK_CAST(torkettle_status, found.value));
    *value = found.value;
    *count = found.length;
    return TORKETTLE_OK;
}

static inline bool torkettle_canonical_ul(const char *text, size_t length, unsigned long *value) TORKETTLE_NOEXCEPT
{
    torkettle_found_u64 found = torkettle_whole_canonical_u64(text, length);
    if (found.length == 0)
        return false;
    *value = found.value;
    return true;
}

static inline bool torkettle_json_integer_ul(const char *text, size_t length, unsigned long *value,
                                             size_t *count) TORKETTLE_NOEXCEPT
{
    torkettle_found_u64 found = torkettle_prefix_json_u64(text, length);
    if (found.length == 0)
        return false;
    *value = found.value;
    *count = found.length;
    return true;
}
#else
static inline torkettle_status torkettle_parse_l(const char *text, size_t length, unsigned flags,
                                                 long *value) TORKETTLE_NOEXCEPT
{
    torkettle_found_i32 found = torkettle_of_whole_i32(text, length, flags);
    if (found.length == 0)
        return torkettle_refusal(TK_CAST(torkettle_status, found.value));
    *value = found.value;
    return TORKETTLE_OK;
}

TK_INLINE torkettle_status torkettle_parse_prefix_l(const char *text, size_t length, unsigned flags, long *value,
                                                    size_t *count) TORKETTLE_NOEXCEPT
{
    torkettle_found_i32 found = torkettle_of_prefix_i32(text, length, flags);
    if (found.length == 0)
        return torkettle_refusal(TK_CAST(torkettle_status, found.value));
    *value = found.value;
    *count = found.length;
    return TORKETTLE_OK;
}

static inline bool torkettle_canonical_l(const char *text, size_t length, long *value) TORKETTLE_NOEXCEPT
{
    torkettle_found_i32 found = torkettle_whole_canonical_i32(text, length);
    if (found.length == 0)
        return false;
    *value = found.value;
    return true;
}

static inline bool torkettle_json_integer_l(const char *text, size_t length, long *value,
                                            size_t *count) TORKETTLE_NOEXCEPT
{
    torkettle_found_i32 found = torkettle_prefix_json_i32(text, length);
    if (found.length == 0)
        return false;
    *value = found.value;
    *count = found.length;
    return true;
}
static inline torkettle_status torkettle_parse_ul(const char *text, size_t length, unsigned flags,
                                                  unsigned long *value) TORKETTLE_NOEXCEPT
{
    torkettle_found_u32 found = torkettle_of_whole_u32(text, length, flags);
    if (found.length == 0)
        return torkettle_refusal(TK_CAST(torkettle_status, found.value));
    *value = found.value;
    return TORKETTLE_OK;
}

TK_INLINE torkettle_status torkettle_parse_prefix_ul(const char *text, size_t length, unsigned flags,
                                                     unsigned long *value, size_t *count) TORKETTLE_NOEXCEPT
{
    torkettle_found_u32 found = torkettle_of_prefix_u32(text, length, flags);
    if (found.length == 0)
        return torkettle_refusal(TK_CAST(torkettle_status, found.value));
    *value = found.value;
    *count = found.length;
    return TORKETTLE_OK;
}

static inline bool torkettle_canonical_ul(const char *text, size_t length, unsigned long *value) TORKETTLE_NOEXCEPT
{
    torkettle_found_u32 found = torkettle_whole_canonical_u32(text, length);
    if (found.length == 0)
        return false;
    *value = found.value;
    return true;
}

static inline bool torkettle_json_integer_ul(const char *text, size_t length, unsigned long *value,
                                             size_t *count) TORKETTLE_NOEXCEPT
{
    torkettle_found_u32 found = torkettle_prefix_json_u32(text, length);
    if (found.length == 0)
        return false;
    *value = found.value;
    *count = found.length;
    return true;
}
#endif
static inline torkettle_status torkettle_parse_ll(const char *text, size_t length, unsigned flags,
                                                  long long *value) TORKETTLE_NOEXCEPT
{
    torkettle_found_i64 found = torkettle_of_whole_i64(text, length, flags);
    if (found.length == 0)
        return torkettle_refusal(TK_CAST(torkettle_status, found.value));
    *value = found.value;
    return TORKETTLE_OK;
}

TK_INLINE torkettle_status torkettle_parse_prefix_ll(const char *text, size_t length, unsigned flags, long long *value,
                                                     size_t *count) TORKETTLE_NOEXCEPT
{
    torkettle_found_i64 found = torkettle_of_prefix_i64(text, length, flags);
    if (found.length == 0)
        return torkettle_refusal(TK_CAST(torkettle_status, found.value));
    *value = found.value;
    *count = found.length;
    return TORKETTLE_OK;
}

static inline bool torkettle_canonical_ll(const char *text, size_t length, long long *value) TORKETTLE_NOEXCEPT
{
    torkettle_found_i64 found = torkettle_whole_canonical_i64(text, length);
    if (found.length == 0)
        return false;
    *value = found.value;
    return true;
}

static inline bool torkettle_json_integer_ll(const char *text, size_t length, long long *value,
                                             size_t *count) TORKETTLE_NOEXCEPT
{
    torkettle_found_i64 found = torkettle_prefix_json_i64(text, length);
    if (found.length == 0)
        return false;
    *value = found.value;
    *count = found.length;
    return true;
}
static inline torkettle_status torkettle_parse_ull(const char *text, size_t length, unsigned flags,
                                                   unsigned long long *value) TORKETTLE_NOEXCEPT
{
    torkettle_found_u64 found = torkettle_of_whole_u64(text, length, flags);
    if (found.length == 0)
        return torkettle_refusal(TK_CAST(torkettle_status, found.value));
    *value = found.value;
    return TORKETTLE_OK;
}

TK_INLINE torkettle_status torkettle_parse_prefix_ull(const char *text, size_t length, unsigned flags,
                                                      unsigned long long *value, size_t *count) TORKETTLE_NOEXCEPT
{
    torkettle_found_u64 found = torkettle_of_prefix_u64(text, length, flags);
    if (found.length == 0)
        return torkettle_refusal(TK_CAST(torkettle_status, found.value));
    *value = found.value;
    *count = found.length;
    return TORKETTLE_OK;
}

static inline bool torkettle_canonical_ull(const char *text, size_t length,
                                           unsigned long long *value) TORKETTLE_NOEXCEPT
{
    torkettle_found_u64 found = torkettle_whole_canonical_u64(text, length);
    if (found.length == 0)
        return false;
    *value = found.value;
    return true;
}

static inline bool torkettle_json_integer_ull(const char *text, size_t length, unsigned long long *value,
                                              size_t *count) TORKETTLE_NOEXCEPT
{
    torkettle_found_u64 found = torkettle_prefix_json_u64(text, length);
    if (found.length == 0)
        return false;
    *value = found.value;
    *count = found.length;
    return true;
}

/* The size of a buffer into which every message of torkettle_error_text fits. */
#define TORKETTLE_ERROR_TEXT_SIZE 333

/*
 * Writes the message of an error to a buffer as snprintf does: at most `size - 1` bytes and a NUL, and nothing if
 * `size` is 0. Returns the length of the whole message, without the NUL. Pass the `text` and the `length` of the call
 * that returned the error. For TORKETTLE_OK, the message is empty. A message is ASCII, and shows bytes of the text in
 * hexadecimal:
 *
 *     atoi_simd overflow, input: [32, 35, 36]
 */
size_t torkettle_error_text(char *buffer, size_t size, const torkettle_error *error, const char *text, size_t length)
    TORKETTLE_SYMBOL_(error_text);

/* Returns the version of the library, as TORKETTLE_VERSION has it. */
const char *torkettle_version(void) TORKETTLE_SYMBOL_(version);

/* torkettle.c goes on with these. */
#ifndef TORKETTLE_SOURCE_
#undef TK_ALL
#undef TK_BY_WORDS
#undef TK_CAST
#undef TK_COLD
#undef TK_CONSTEXPR
#undef TK_EITHER
#undef TK_FAR
#undef TK_HINTED
#undef TK_INLINE
#undef TK_MAKE
#undef TK_MOST_IN_WORD
#undef TK_NOINLINE
#undef TK_NUMBER
#undef TK_PARTS
#undef TK_TEXT
#undef TK_ZEROS
#undef TK_SYMBOL
#undef TORKETTLE_BYTES_
#undef TORKETTLE_SYMBOL_
#undef TORKETTLE_NOEXCEPT
#endif

#ifdef __cplusplus
}
#endif

#endif
#endif

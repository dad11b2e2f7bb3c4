/* Torkettle for C99 and C++11: what torkettle.h declares. Compile this file with your program. */
/* SPDX-License-Identifier: MIT */
#define TORKETTLE_SOURCE_
#define TK_ALL

/* Programs may ask compilers to warn of variables that are declared late, and of casts that change no type. */
#if defined __GNUC__ && !defined __cplusplus
#pragma GCC diagnostic ignored "-Wdeclaration-after-statement"
#elif defined __GNUC__ && !defined __clang__
#pragma GCC diagnostic ignored "-Wuseless-cast"
#endif
#include "torkettle.h"

/* ---- Made by .ci/translate from the proved sources, up to the next such line. */

/* @proved */
/* ---- The interface, written by hand. */

static torkettle_status tk_status_of(tk_error error)
{
    switch (error.tag) {
    case TK_ERROR_EMPTY:
        return TORKETTLE_EMPTY;
    case TK_ERROR_SIZE:
        return TORKETTLE_SIZE;
    case TK_ERROR_OVERFLOW:
        return TORKETTLE_OVERFLOW;
    case TK_ERROR_INVALID64:
    case TK_ERROR_INVALID128:
        break;
    }
    return TORKETTLE_INVALID;
}

/* An error has the rest of the text, which reaches to its end. */
TK_NOINLINE torkettle_error tk_explained(tk_error error, tk_bytes text)
{
    torkettle_error made = TK_MAKE(torkettle_error, tk_status_of(error), 0, 0, error.size, 0, 0);
    if (error.tag != TK_ERROR_EMPTY)
        made.offset = text.len - error.bytes.len;
    if (error.tag == TK_ERROR_INVALID64) {
        made.bits = 64;
        made.value_low = error.u64;
    }
    if (error.tag == TK_ERROR_INVALID128) {
        made.bits = 128;
        made.value_low = tk_u128_low(error.u128);
        made.value_high = tk_u128_high(error.u128);
    }
    return made;
}

/* The error that `tk_explained` made this of. */
static tk_error tk_error_again(const torkettle_error *error, tk_bytes text)
{
    size_t offset = error->offset < text.len ? error->offset : text.len;
    tk_bytes rest = offset > 0 ? tk_bytes_of(text.at + offset, text.len - offset) : text;
    if (error->status == TORKETTLE_EMPTY)
        return tk_error_empty();
    if (error->status == TORKETTLE_SIZE)
        return tk_error_size(error->count, rest);
    if (error->status == TORKETTLE_OVERFLOW)
        return tk_error_overflow(rest);
    if (error->bits == 128)
        return tk_error_invalid128(tk_u128_make(error->value_high, error->value_low), error->count, rest);
    return tk_error_invalid64(error->value_low, error->count, rest);
}

size_t torkettle_error_text(char *buffer, size_t size, const torkettle_error *error, const char *text,
                            size_t length) TORKETTLE_NOEXCEPT
{
    uint8_t message[400];
    size_t written = 0, at;
    if (TORKETTLE_EMPTY <= error->status && error->status <= TORKETTLE_INVALID)
        written = tk_error_text(tk_error_again(error, tk_text(text, length)), message);
    for (at = 0; at + 1 < size && at < written; at++)
        buffer[at] = TK_CAST(char, message[at]);
    if (size > 0)
        buffer[at] = 0;
    return written;
}

const char *torkettle_version(void) TORKETTLE_NOEXCEPT { return TORKETTLE_VERSION; }

/* The flags of a call. */
#define TK_ZEROES ((flags & TORKETTLE_SKIP_ZEROES) != 0)
#define TK_PLUS ((flags & TORKETTLE_SKIP_PLUS) != 0)

/* @print types.c, NAME: i8, TYPE: int8_t */
/* @print types.c, NAME: u8, TYPE: uint8_t */
/* @print types.c, NAME: i16, TYPE: int16_t */
/* @print types.c, NAME: u16, TYPE: uint16_t */
/* @print types.c, NAME: i32, TYPE: int32_t */
/* @print types.c, NAME: u32, TYPE: uint32_t */
/* @print types.c, NAME: i64, TYPE: int64_t */
/* @print types.c, NAME: u64, TYPE: uint64_t */
#if defined __SIZEOF_INT128__ && !defined TORKETTLE_NO_INT128
/* @print types.c, NAME: i128, TYPE: torkettle_i128 */
/* @print types.c, NAME: u128, TYPE: torkettle_u128 */
#endif

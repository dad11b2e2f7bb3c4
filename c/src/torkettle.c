/* Made by .ci/translate from the proved sources and c/interface. Do not edit. */
/* Torkettle for C99 and C++11: what torkettle.h declares. Compile this file with your program. */
/* SPDX-License-Identifier: MIT */
#define TORKETTLE_SOURCE_
#define TK_ALL

/* Programs may ask compilers to warn of variables that are declared late, and of casts that change no type. */
#if defined __GNUC__ && !defined __cplusplus
#pragma GCC diagnostic ignored "-Wdeclaration-after-statement"
#elif defined __GNUC__ && !defined __clang__
#pragma GCC diagnostic ignored "-Wuseless-cast"
#endif
#include "torkettle.h"

/* ---- Made by .ci/translate from the proved sources, up to the next such line. */

/* What is read of the first 8 or 16 bytes of a slice, or of all its bytes if there are fewer. */
typedef struct tk_window {
    uint32_t len;
    uint32_t zeroes;
    uint64_t number;
} tk_window;

TK_CONSTEXPR tk_window tk_new_window(uint32_t len, uint32_t zeroes, uint64_t number)
{
    return TK_MAKE(tk_window, len, zeroes, number);
}

typedef struct tk_pair_size_window {
    size_t first;
    tk_window second;
} tk_pair_size_window;

TK_CONSTEXPR tk_pair_size_window tk_new_pair_size_window(size_t first, tk_window second)
{
    return TK_MAKE(tk_pair_size_window, first, second);
}

/* Why a slice was refused: the first variant here that applies. */
typedef enum tk_error_tag {
    TK_ERROR_EMPTY,
    TK_ERROR_SIZE,
    TK_ERROR_OVERFLOW,
    TK_ERROR_INVALID64,
    TK_ERROR_INVALID128
} tk_error_tag;

typedef struct tk_error {
    tk_error_tag tag;
    size_t size;
    tk_bytes bytes;
    uint64_t u64;
    tk_u128 u128;
} tk_error;

TK_CONSTEXPR tk_error tk_error_empty(void)
{
    return TK_MAKE(tk_error, TK_ERROR_EMPTY, 0, tk_bytes_of(NULL, 0), 0, tk_u128_of(0));
}

TK_CONSTEXPR tk_error tk_error_size(size_t size, tk_bytes bytes)
{
    return TK_MAKE(tk_error, TK_ERROR_SIZE, size, bytes, 0, tk_u128_of(0));
}

TK_CONSTEXPR tk_error tk_error_overflow(tk_bytes bytes)
{
    return TK_MAKE(tk_error, TK_ERROR_OVERFLOW, 0, bytes, 0, tk_u128_of(0));
}

TK_CONSTEXPR tk_error tk_error_invalid64(uint64_t u64, size_t size, tk_bytes bytes)
{
    return TK_MAKE(tk_error, TK_ERROR_INVALID64, size, bytes, u64, tk_u128_of(0));
}

TK_CONSTEXPR tk_error tk_error_invalid128(tk_u128 u128, size_t size, tk_bytes bytes)
{
    return TK_MAKE(tk_error, TK_ERROR_INVALID128, size, bytes, 0, u128);
}

typedef struct tk_result_u64 {
    bool is_ok;
    uint64_t value;
    tk_error error;
} tk_result_u64;

TK_CONSTEXPR tk_result_u64 tk_ok_u64(uint64_t value)
{
    return TK_MAKE(tk_result_u64, true, value, tk_error_empty());
}

TK_CONSTEXPR tk_result_u64 tk_err_u64(tk_error error)
{
    return TK_MAKE(tk_result_u64, false, 0, error);
}

typedef struct tk_result_pair_u64_size {
    bool is_ok;
    tk_pair_u64_size value;
    tk_error error;
} tk_result_pair_u64_size;

TK_CONSTEXPR tk_result_pair_u64_size tk_ok_pair_u64_size(tk_pair_u64_size value)
{
    return TK_MAKE(tk_result_pair_u64_size, true, value, tk_error_empty());
}

TK_CONSTEXPR tk_result_pair_u64_size tk_err_pair_u64_size(tk_error error)
{
    return TK_MAKE(tk_result_pair_u64_size, false, tk_new_pair_u64_size(0, 0), error);
}

typedef struct tk_result_pair_u128_size {
    bool is_ok;
    tk_pair_u128_size value;
    tk_error error;
} tk_result_pair_u128_size;

TK_CONSTEXPR tk_result_pair_u128_size tk_ok_pair_u128_size(tk_pair_u128_size value)
{
    return TK_MAKE(tk_result_pair_u128_size, true, value, tk_error_empty());
}

TK_CONSTEXPR tk_result_pair_u128_size tk_err_pair_u128_size(tk_error error)
{
    return TK_MAKE(tk_result_pair_u128_size, false, tk_new_pair_u128_size(tk_u128_of(0), 0), error);
}

typedef struct tk_result_u128 {
    bool is_ok;
    tk_u128 value;
    tk_error error;
} tk_result_u128;

TK_CONSTEXPR tk_result_u128 tk_ok_u128(tk_u128 value)
{
    return TK_MAKE(tk_result_u128, true, value, tk_error_empty());
}

TK_CONSTEXPR tk_result_u128 tk_err_u128(tk_error error)
{
    return TK_MAKE(tk_result_u128, false, tk_u128_of(0), error);
}

typedef struct tk_result_i8 {
    bool is_ok;
    int8_t value;
    tk_error error;
} tk_result_i8;

TK_CONSTEXPR tk_result_i8 tk_ok_i8(int8_t value)
{
    return TK_MAKE(tk_result_i8, true, value, tk_error_empty());
}

TK_CONSTEXPR tk_result_i8 tk_err_i8(tk_error error)
{
    return TK_MAKE(tk_result_i8, false, 0, error);
}

typedef struct tk_result_u8 {
    bool is_ok;
    uint8_t value;
    tk_error error;
} tk_result_u8;

TK_CONSTEXPR tk_result_u8 tk_ok_u8(uint8_t value)
{
    return TK_MAKE(tk_result_u8, true, value, tk_error_empty());
}

TK_CONSTEXPR tk_result_u8 tk_err_u8(tk_error error)
{
    return TK_MAKE(tk_result_u8, false, 0, error);
}

typedef struct tk_result_i16 {
    bool is_ok;
    int16_t value;
    tk_error error;
} tk_result_i16;

TK_CONSTEXPR tk_result_i16 tk_ok_i16(int16_t value)
{
    return TK_MAKE(tk_result_i16, true, value, tk_error_empty());
}

TK_CONSTEXPR tk_result_i16 tk_err_i16(tk_error error)
{
    return TK_MAKE(tk_result_i16, false, 0, error);
}

typedef struct tk_result_u16 {
    bool is_ok;
    uint16_t value;
    tk_error error;
} tk_result_u16;

TK_CONSTEXPR tk_result_u16 tk_ok_u16(uint16_t value)
{
    return TK_MAKE(tk_result_u16, true, value, tk_error_empty());
}

TK_CONSTEXPR tk_result_u16 tk_err_u16(tk_error error)
{
    return TK_MAKE(tk_result_u16, false, 0, error);
}

typedef struct tk_result_i32 {
    bool is_ok;
    int32_t value;
    tk_error error;
} tk_result_i32;

TK_CONSTEXPR tk_result_i32 tk_ok_i32(int32_t value)
{
    return TK_MAKE(tk_result_i32, true, value, tk_error_empty());
}

TK_CONSTEXPR tk_result_i32 tk_err_i32(tk_error error)
{
    return TK_MAKE(tk_result_i32, false, 0, error);
}

typedef struct tk_result_u32 {
    bool is_ok;
    uint32_t value;
    tk_error error;
} tk_result_u32;

TK_CONSTEXPR tk_result_u32 tk_ok_u32(uint32_t value)
{
    return TK_MAKE(tk_result_u32, true, value, tk_error_empty());
}

TK_CONSTEXPR tk_result_u32 tk_err_u32(tk_error error)
{
    return TK_MAKE(tk_result_u32, false, 0, error);
}

typedef struct tk_result_i64 {
    bool is_ok;
    int64_t value;
    tk_error error;
} tk_result_i64;

TK_CONSTEXPR tk_result_i64 tk_ok_i64(int64_t value)
{
    return TK_MAKE(tk_result_i64, true, value, tk_error_empty());
}

TK_CONSTEXPR tk_result_i64 tk_err_i64(tk_error error)
{
    return TK_MAKE(tk_result_i64, false, 0, error);
}

typedef struct tk_result_i128 {
    bool is_ok;
    tk_i128 value;
    tk_error error;
} tk_result_i128;

TK_CONSTEXPR tk_result_i128 tk_ok_i128(tk_i128 value)
{
    return TK_MAKE(tk_result_i128, true, value, tk_error_empty());
}

TK_CONSTEXPR tk_result_i128 tk_err_i128(tk_error error)
{
    return TK_MAKE(tk_result_i128, false, tk_i128_of(0), error);
}

typedef struct tk_result_pair_i8_size {
    bool is_ok;
    tk_pair_i8_size value;
    tk_error error;
} tk_result_pair_i8_size;

TK_CONSTEXPR tk_result_pair_i8_size tk_ok_pair_i8_size(tk_pair_i8_size value)
{
    return TK_MAKE(tk_result_pair_i8_size, true, value, tk_error_empty());
}

TK_CONSTEXPR tk_result_pair_i8_size tk_err_pair_i8_size(tk_error error)
{
    return TK_MAKE(tk_result_pair_i8_size, false, tk_new_pair_i8_size(0, 0), error);
}

typedef struct tk_result_pair_u8_size {
    bool is_ok;
    tk_pair_u8_size value;
    tk_error error;
} tk_result_pair_u8_size;

TK_CONSTEXPR tk_result_pair_u8_size tk_ok_pair_u8_size(tk_pair_u8_size value)
{
    return TK_MAKE(tk_result_pair_u8_size, true, value, tk_error_empty());
}

TK_CONSTEXPR tk_result_pair_u8_size tk_err_pair_u8_size(tk_error error)
{
    return TK_MAKE(tk_result_pair_u8_size, false, tk_new_pair_u8_size(0, 0), error);
}

typedef struct tk_result_pair_i16_size {
    bool is_ok;
    tk_pair_i16_size value;
    tk_error error;
} tk_result_pair_i16_size;

TK_CONSTEXPR tk_result_pair_i16_size tk_ok_pair_i16_size(tk_pair_i16_size value)
{
    return TK_MAKE(tk_result_pair_i16_size, true, value, tk_error_empty());
}

TK_CONSTEXPR tk_result_pair_i16_size tk_err_pair_i16_size(tk_error error)
{
    return TK_MAKE(tk_result_pair_i16_size, false, tk_new_pair_i16_size(0, 0), error);
}

typedef struct tk_result_pair_u16_size {
    bool is_ok;
    tk_pair_u16_size value;
    tk_error error;
} tk_result_pair_u16_size;

TK_CONSTEXPR tk_result_pair_u16_size tk_ok_pair_u16_size(tk_pair_u16_size value)
{
    return TK_MAKE(tk_result_pair_u16_size, true, value, tk_error_empty());
}

TK_CONSTEXPR tk_result_pair_u16_size tk_err_pair_u16_size(tk_error error)
{
    return TK_MAKE(tk_result_pair_u16_size, false, tk_new_pair_u16_size(0, 0), error);
}

typedef struct tk_result_pair_i32_size {
    bool is_ok;
    tk_pair_i32_size value;
    tk_error error;
} tk_result_pair_i32_size;

TK_CONSTEXPR tk_result_pair_i32_size tk_ok_pair_i32_size(tk_pair_i32_size value)
{
    return TK_MAKE(tk_result_pair_i32_size, true, value, tk_error_empty());
}

TK_CONSTEXPR tk_result_pair_i32_size tk_err_pair_i32_size(tk_error error)
{
    return TK_MAKE(tk_result_pair_i32_size, false, tk_new_pair_i32_size(0, 0), error);
}

typedef struct tk_result_pair_u32_size {
    bool is_ok;
    tk_pair_u32_size value;
    tk_error error;
} tk_result_pair_u32_size;

TK_CONSTEXPR tk_result_pair_u32_size tk_ok_pair_u32_size(tk_pair_u32_size value)
{
    return TK_MAKE(tk_result_pair_u32_size, true, value, tk_error_empty());
}

TK_CONSTEXPR tk_result_pair_u32_size tk_err_pair_u32_size(tk_error error)
{
    return TK_MAKE(tk_result_pair_u32_size, false, tk_new_pair_u32_size(0, 0), error);
}

typedef struct tk_result_pair_i64_size {
    bool is_ok;
    tk_pair_i64_size value;
    tk_error error;
} tk_result_pair_i64_size;

TK_CONSTEXPR tk_result_pair_i64_size tk_ok_pair_i64_size(tk_pair_i64_size value)
{
    return TK_MAKE(tk_result_pair_i64_size, true, value, tk_error_empty());
}

TK_CONSTEXPR tk_result_pair_i64_size tk_err_pair_i64_size(tk_error error)
{
    return TK_MAKE(tk_result_pair_i64_size, false, tk_new_pair_i64_size(0, 0), error);
}

typedef struct tk_result_pair_i128_size {
    bool is_ok;
    tk_pair_i128_size value;
    tk_error error;
} tk_result_pair_i128_size;

TK_CONSTEXPR tk_result_pair_i128_size tk_ok_pair_i128_size(tk_pair_i128_size value)
{
    return TK_MAKE(tk_result_pair_i128_size, true, value, tk_error_empty());
}

TK_CONSTEXPR tk_result_pair_i128_size tk_err_pair_i128_size(tk_error error)
{
    return TK_MAKE(tk_result_pair_i128_size, false, tk_new_pair_i128_size(tk_i128_of(0), 0), error);
}

typedef struct tk_room_u8 {
    uint8_t *at;
    size_t len;
} tk_room_u8;

TK_CONSTEXPR tk_room_u8 tk_room_u8_of(uint8_t *at, size_t len)
{
    return TK_MAKE(tk_room_u8, at, len);
}

TK_PARTS(tk_room_u8)

typedef struct tk_pair_u128_u8 {
    tk_u128 first;
    uint8_t second;
} tk_pair_u128_u8;

TK_CONSTEXPR tk_pair_u128_u8 tk_new_pair_u128_u8(tk_u128 first, uint8_t second)
{
    return TK_MAKE(tk_pair_u128_u8, first, second);
}

typedef struct tk_option_bytes {
    bool is_some;
    tk_bytes value;
} tk_option_bytes;

TK_CONSTEXPR tk_option_bytes tk_some_bytes(tk_bytes value)
{
    return TK_MAKE(tk_option_bytes, true, value);
}

TK_CONSTEXPR tk_option_bytes tk_none_bytes(void)
{
    return TK_MAKE(tk_option_bytes, false, tk_bytes_of(NULL, 0));
}

typedef struct tk_pair_i8_bytes {
    int8_t first;
    tk_bytes second;
} tk_pair_i8_bytes;

TK_CONSTEXPR tk_pair_i8_bytes tk_new_pair_i8_bytes(int8_t first, tk_bytes second)
{
    return TK_MAKE(tk_pair_i8_bytes, first, second);
}

typedef struct tk_option_pair_i8_bytes {
    bool is_some;
    tk_pair_i8_bytes value;
} tk_option_pair_i8_bytes;

TK_CONSTEXPR tk_option_pair_i8_bytes tk_some_pair_i8_bytes(tk_pair_i8_bytes value)
{
    return TK_MAKE(tk_option_pair_i8_bytes, true, value);
}

TK_CONSTEXPR tk_option_pair_i8_bytes tk_none_pair_i8_bytes(void)
{
    return TK_MAKE(tk_option_pair_i8_bytes, false, tk_new_pair_i8_bytes(0, tk_bytes_of(NULL, 0)));
}

typedef struct tk_pair_u8_bytes {
    uint8_t first;
    tk_bytes second;
} tk_pair_u8_bytes;

TK_CONSTEXPR tk_pair_u8_bytes tk_new_pair_u8_bytes(uint8_t first, tk_bytes second)
{
    return TK_MAKE(tk_pair_u8_bytes, first, second);
}

typedef struct tk_option_pair_u8_bytes {
    bool is_some;
    tk_pair_u8_bytes value;
} tk_option_pair_u8_bytes;

TK_CONSTEXPR tk_option_pair_u8_bytes tk_some_pair_u8_bytes(tk_pair_u8_bytes value)
{
    return TK_MAKE(tk_option_pair_u8_bytes, true, value);
}

TK_CONSTEXPR tk_option_pair_u8_bytes tk_none_pair_u8_bytes(void)
{
    return TK_MAKE(tk_option_pair_u8_bytes, false, tk_new_pair_u8_bytes(0, tk_bytes_of(NULL, 0)));
}

typedef struct tk_pair_i16_bytes {
    int16_t first;
    tk_bytes second;
} tk_pair_i16_bytes;

TK_CONSTEXPR tk_pair_i16_bytes tk_new_pair_i16_bytes(int16_t first, tk_bytes second)
{
    return TK_MAKE(tk_pair_i16_bytes, first, second);
}

typedef struct tk_option_pair_i16_bytes {
    bool is_some;
    tk_pair_i16_bytes value;
} tk_option_pair_i16_bytes;

TK_CONSTEXPR tk_option_pair_i16_bytes tk_some_pair_i16_bytes(tk_pair_i16_bytes value)
{
    return TK_MAKE(tk_option_pair_i16_bytes, true, value);
}

TK_CONSTEXPR tk_option_pair_i16_bytes tk_none_pair_i16_bytes(void)
{
    return TK_MAKE(tk_option_pair_i16_bytes, false, tk_new_pair_i16_bytes(0, tk_bytes_of(NULL, 0)));
}

typedef struct tk_pair_u16_bytes {
    uint16_t first;
    tk_bytes second;
} tk_pair_u16_bytes;

TK_CONSTEXPR tk_pair_u16_bytes tk_new_pair_u16_bytes(uint16_t first, tk_bytes second)
{
    return TK_MAKE(tk_pair_u16_bytes, first, second);
}

typedef struct tk_option_pair_u16_bytes {
    bool is_some;
    tk_pair_u16_bytes value;
} tk_option_pair_u16_bytes;

TK_CONSTEXPR tk_option_pair_u16_bytes tk_some_pair_u16_bytes(tk_pair_u16_bytes value)
{
    return TK_MAKE(tk_option_pair_u16_bytes, true, value);
}

TK_CONSTEXPR tk_option_pair_u16_bytes tk_none_pair_u16_bytes(void)
{
    return TK_MAKE(tk_option_pair_u16_bytes, false, tk_new_pair_u16_bytes(0, tk_bytes_of(NULL, 0)));
}

typedef struct tk_pair_i32_bytes {
    int32_t first;
    tk_bytes second;
} tk_pair_i32_bytes;

TK_CONSTEXPR tk_pair_i32_bytes tk_new_pair_i32_bytes(int32_t first, tk_bytes second)
{
    return TK_MAKE(tk_pair_i32_bytes, first, second);
}

typedef struct tk_option_pair_i32_bytes {
    bool is_some;
    tk_pair_i32_bytes value;
} tk_option_pair_i32_bytes;

TK_CONSTEXPR tk_option_pair_i32_bytes tk_some_pair_i32_bytes(tk_pair_i32_bytes value)
{
    return TK_MAKE(tk_option_pair_i32_bytes, true, value);
}

TK_CONSTEXPR tk_option_pair_i32_bytes tk_none_pair_i32_bytes(void)
{
    return TK_MAKE(tk_option_pair_i32_bytes, false, tk_new_pair_i32_bytes(0, tk_bytes_of(NULL, 0)));
}

typedef struct tk_pair_u32_bytes {
    uint32_t first;
    tk_bytes second;
} tk_pair_u32_bytes;

TK_CONSTEXPR tk_pair_u32_bytes tk_new_pair_u32_bytes(uint32_t first, tk_bytes second)
{
    return TK_MAKE(tk_pair_u32_bytes, first, second);
}

typedef struct tk_option_pair_u32_bytes {
    bool is_some;
    tk_pair_u32_bytes value;
} tk_option_pair_u32_bytes;

TK_CONSTEXPR tk_option_pair_u32_bytes tk_some_pair_u32_bytes(tk_pair_u32_bytes value)
{
    return TK_MAKE(tk_option_pair_u32_bytes, true, value);
}

TK_CONSTEXPR tk_option_pair_u32_bytes tk_none_pair_u32_bytes(void)
{
    return TK_MAKE(tk_option_pair_u32_bytes, false, tk_new_pair_u32_bytes(0, tk_bytes_of(NULL, 0)));
}

typedef struct tk_pair_i64_bytes {
    int64_t first;
    tk_bytes second;
} tk_pair_i64_bytes;

TK_CONSTEXPR tk_pair_i64_bytes tk_new_pair_i64_bytes(int64_t first, tk_bytes second)
{
    return TK_MAKE(tk_pair_i64_bytes, first, second);
}

typedef struct tk_option_pair_i64_bytes {
    bool is_some;
    tk_pair_i64_bytes value;
} tk_option_pair_i64_bytes;

TK_CONSTEXPR tk_option_pair_i64_bytes tk_some_pair_i64_bytes(tk_pair_i64_bytes value)
{
    return TK_MAKE(tk_option_pair_i64_bytes, true, value);
}

TK_CONSTEXPR tk_option_pair_i64_bytes tk_none_pair_i64_bytes(void)
{
    return TK_MAKE(tk_option_pair_i64_bytes, false, tk_new_pair_i64_bytes(0, tk_bytes_of(NULL, 0)));
}

typedef struct tk_pair_u64_bytes {
    uint64_t first;
    tk_bytes second;
} tk_pair_u64_bytes;

TK_CONSTEXPR tk_pair_u64_bytes tk_new_pair_u64_bytes(uint64_t first, tk_bytes second)
{
    return TK_MAKE(tk_pair_u64_bytes, first, second);
}

typedef struct tk_option_pair_u64_bytes {
    bool is_some;
    tk_pair_u64_bytes value;
} tk_option_pair_u64_bytes;

TK_CONSTEXPR tk_option_pair_u64_bytes tk_some_pair_u64_bytes(tk_pair_u64_bytes value)
{
    return TK_MAKE(tk_option_pair_u64_bytes, true, value);
}

TK_CONSTEXPR tk_option_pair_u64_bytes tk_none_pair_u64_bytes(void)
{
    return TK_MAKE(tk_option_pair_u64_bytes, false, tk_new_pair_u64_bytes(0, tk_bytes_of(NULL, 0)));
}

typedef struct tk_pair_i128_bytes {
    tk_i128 first;
    tk_bytes second;
} tk_pair_i128_bytes;

TK_CONSTEXPR tk_pair_i128_bytes tk_new_pair_i128_bytes(tk_i128 first, tk_bytes second)
{
    return TK_MAKE(tk_pair_i128_bytes, first, second);
}

typedef struct tk_option_pair_i128_bytes {
    bool is_some;
    tk_pair_i128_bytes value;
} tk_option_pair_i128_bytes;

TK_CONSTEXPR tk_option_pair_i128_bytes tk_some_pair_i128_bytes(tk_pair_i128_bytes value)
{
    return TK_MAKE(tk_option_pair_i128_bytes, true, value);
}

TK_CONSTEXPR tk_option_pair_i128_bytes tk_none_pair_i128_bytes(void)
{
    return TK_MAKE(tk_option_pair_i128_bytes, false, tk_new_pair_i128_bytes(tk_i128_of(0), tk_bytes_of(NULL, 0)));
}

typedef struct tk_pair_u128_bytes {
    tk_u128 first;
    tk_bytes second;
} tk_pair_u128_bytes;

TK_CONSTEXPR tk_pair_u128_bytes tk_new_pair_u128_bytes(tk_u128 first, tk_bytes second)
{
    return TK_MAKE(tk_pair_u128_bytes, first, second);
}

typedef struct tk_option_pair_u128_bytes {
    bool is_some;
    tk_pair_u128_bytes value;
} tk_option_pair_u128_bytes;

TK_CONSTEXPR tk_option_pair_u128_bytes tk_some_pair_u128_bytes(tk_pair_u128_bytes value)
{
    return TK_MAKE(tk_option_pair_u128_bytes, true, value);
}

TK_CONSTEXPR tk_option_pair_u128_bytes tk_none_pair_u128_bytes(void)
{
    return TK_MAKE(tk_option_pair_u128_bytes, false, tk_new_pair_u128_bytes(tk_u128_of(0), tk_bytes_of(NULL, 0)));
}

/*
 * The numbers of a byte slice, with a separator between them. The item of a field that
 * `parse::<T, true, true>` refuses is an [error](FieldError), and the next field follows.
 */
typedef struct tk_fields {
    tk_bytes rest;
    uint8_t separator;
    bool is_lines;
    size_t index;
    size_t end;
} tk_fields;

TK_CONSTEXPR tk_fields tk_new_fields(tk_bytes rest, uint8_t separator, bool is_lines, size_t index, size_t end)
{
    return TK_MAKE(tk_fields, rest, separator, is_lines, index, end);
}

typedef struct tk_pair_size_size {
    size_t first;
    size_t second;
} tk_pair_size_size;

TK_CONSTEXPR tk_pair_size_size tk_new_pair_size_size(size_t first, size_t second)
{
    return TK_MAKE(tk_pair_size_size, first, second);
}

/* What is guessed of the next fields. Others are read, too. */
typedef struct tk_guess {
    size_t width;
    bool has_return;
    bool mostly_one_digit;
    bool have_minus;
} tk_guess;

TK_CONSTEXPR tk_guess tk_new_guess(size_t width, bool has_return, bool mostly_one_digit, bool have_minus)
{
    return TK_MAKE(tk_guess, width, has_return, mostly_one_digit, have_minus);
}

typedef struct tk_pair_bytes_bytes {
    tk_bytes first;
    tk_bytes second;
} tk_pair_bytes_bytes;

TK_CONSTEXPR tk_pair_bytes_bytes tk_new_pair_bytes_bytes(tk_bytes first, tk_bytes second)
{
    return TK_MAKE(tk_pair_bytes_bytes, first, second);
}

/* A field that is not a number of the type, and why. */
typedef struct tk_field_error {
    size_t index;
    size_t place;
    tk_bytes text;
    tk_error cause;
} tk_field_error;

TK_CONSTEXPR tk_field_error tk_new_field_error(size_t index, size_t place, tk_bytes text, tk_error cause)
{
    return TK_MAKE(tk_field_error, index, place, text, cause);
}

typedef struct tk_result_i8_field_error {
    bool is_ok;
    int8_t value;
    tk_field_error error;
} tk_result_i8_field_error;

TK_CONSTEXPR tk_result_i8_field_error tk_ok_i8_field_error(int8_t value)
{
    return TK_MAKE(tk_result_i8_field_error, true, value,
                   tk_new_field_error(0, 0, tk_bytes_of(NULL, 0), tk_error_empty()));
}

TK_CONSTEXPR tk_result_i8_field_error tk_err_i8_field_error(tk_field_error error)
{
    return TK_MAKE(tk_result_i8_field_error, false, 0, error);
}

typedef struct tk_pair_result_i8_field_error_bytes {
    tk_result_i8_field_error first;
    tk_bytes second;
} tk_pair_result_i8_field_error_bytes;

TK_CONSTEXPR tk_pair_result_i8_field_error_bytes tk_new_pair_result_i8_field_error_bytes(tk_result_i8_field_error first,
                                                                                         tk_bytes second)
{
    return TK_MAKE(tk_pair_result_i8_field_error_bytes, first, second);
}

typedef struct tk_option_result_i8_field_error {
    bool is_some;
    tk_result_i8_field_error value;
} tk_option_result_i8_field_error;

TK_CONSTEXPR tk_option_result_i8_field_error tk_some_result_i8_field_error(tk_result_i8_field_error value)
{
    return TK_MAKE(tk_option_result_i8_field_error, true, value);
}

TK_CONSTEXPR tk_option_result_i8_field_error tk_none_result_i8_field_error(void)
{
    return TK_MAKE(tk_option_result_i8_field_error, false, tk_ok_i8_field_error(0));
}

typedef struct tk_result_u8_field_error {
    bool is_ok;
    uint8_t value;
    tk_field_error error;
} tk_result_u8_field_error;

TK_CONSTEXPR tk_result_u8_field_error tk_ok_u8_field_error(uint8_t value)
{
    return TK_MAKE(tk_result_u8_field_error, true, value,
                   tk_new_field_error(0, 0, tk_bytes_of(NULL, 0), tk_error_empty()));
}

TK_CONSTEXPR tk_result_u8_field_error tk_err_u8_field_error(tk_field_error error)
{
    return TK_MAKE(tk_result_u8_field_error, false, 0, error);
}

typedef struct tk_pair_result_u8_field_error_bytes {
    tk_result_u8_field_error first;
    tk_bytes second;
} tk_pair_result_u8_field_error_bytes;

TK_CONSTEXPR tk_pair_result_u8_field_error_bytes tk_new_pair_result_u8_field_error_bytes(tk_result_u8_field_error first,
                                                                                         tk_bytes second)
{
    return TK_MAKE(tk_pair_result_u8_field_error_bytes, first, second);
}

typedef struct tk_option_result_u8_field_error {
    bool is_some;
    tk_result_u8_field_error value;
} tk_option_result_u8_field_error;

TK_CONSTEXPR tk_option_result_u8_field_error tk_some_result_u8_field_error(tk_result_u8_field_error value)
{
    return TK_MAKE(tk_option_result_u8_field_error, true, value);
}

TK_CONSTEXPR tk_option_result_u8_field_error tk_none_result_u8_field_error(void)
{
    return TK_MAKE(tk_option_result_u8_field_error, false, tk_ok_u8_field_error(0));
}

typedef struct tk_result_i16_field_error {
    bool is_ok;
    int16_t value;
    tk_field_error error;
} tk_result_i16_field_error;

TK_CONSTEXPR tk_result_i16_field_error tk_ok_i16_field_error(int16_t value)
{
    return TK_MAKE(tk_result_i16_field_error, true, value,
                   tk_new_field_error(0, 0, tk_bytes_of(NULL, 0), tk_error_empty()));
}

TK_CONSTEXPR tk_result_i16_field_error tk_err_i16_field_error(tk_field_error error)
{
    return TK_MAKE(tk_result_i16_field_error, false, 0, error);
}

typedef struct tk_pair_result_i16_field_error_bytes {
    tk_result_i16_field_error first;
    tk_bytes second;
} tk_pair_result_i16_field_error_bytes;

TK_CONSTEXPR tk_pair_result_i16_field_error_bytes tk_new_pair_result_i16_field_error_bytes(
        tk_result_i16_field_error first, tk_bytes second)
{
    return TK_MAKE(tk_pair_result_i16_field_error_bytes, first, second);
}

typedef struct tk_option_result_i16_field_error {
    bool is_some;
    tk_result_i16_field_error value;
} tk_option_result_i16_field_error;

TK_CONSTEXPR tk_option_result_i16_field_error tk_some_result_i16_field_error(tk_result_i16_field_error value)
{
    return TK_MAKE(tk_option_result_i16_field_error, true, value);
}

TK_CONSTEXPR tk_option_result_i16_field_error tk_none_result_i16_field_error(void)
{
    return TK_MAKE(tk_option_result_i16_field_error, false, tk_ok_i16_field_error(0));
}

typedef struct tk_result_u16_field_error {
    bool is_ok;
    uint16_t value;
    tk_field_error error;
} tk_result_u16_field_error;

TK_CONSTEXPR tk_result_u16_field_error tk_ok_u16_field_error(uint16_t value)
{
    return TK_MAKE(tk_result_u16_field_error, true, value,
                   tk_new_field_error(0, 0, tk_bytes_of(NULL, 0), tk_error_empty()));
}

TK_CONSTEXPR tk_result_u16_field_error tk_err_u16_field_error(tk_field_error error)
{
    return TK_MAKE(tk_result_u16_field_error, false, 0, error);
}

typedef struct tk_pair_result_u16_field_error_bytes {
    tk_result_u16_field_error first;
    tk_bytes second;
} tk_pair_result_u16_field_error_bytes;

TK_CONSTEXPR tk_pair_result_u16_field_error_bytes tk_new_pair_result_u16_field_error_bytes(
        tk_result_u16_field_error first, tk_bytes second)
{
    return TK_MAKE(tk_pair_result_u16_field_error_bytes, first, second);
}

typedef struct tk_option_result_u16_field_error {
    bool is_some;
    tk_result_u16_field_error value;
} tk_option_result_u16_field_error;

TK_CONSTEXPR tk_option_result_u16_field_error tk_some_result_u16_field_error(tk_result_u16_field_error value)
{
    return TK_MAKE(tk_option_result_u16_field_error, true, value);
}

TK_CONSTEXPR tk_option_result_u16_field_error tk_none_result_u16_field_error(void)
{
    return TK_MAKE(tk_option_result_u16_field_error, false, tk_ok_u16_field_error(0));
}

typedef struct tk_result_i32_field_error {
    bool is_ok;
    int32_t value;
    tk_field_error error;
} tk_result_i32_field_error;

TK_CONSTEXPR tk_result_i32_field_error tk_ok_i32_field_error(int32_t value)
{
    return TK_MAKE(tk_result_i32_field_error, true, value,
                   tk_new_field_error(0, 0, tk_bytes_of(NULL, 0), tk_error_empty()));
}

TK_CONSTEXPR tk_result_i32_field_error tk_err_i32_field_error(tk_field_error error)
{
    return TK_MAKE(tk_result_i32_field_error, false, 0, error);
}

typedef struct tk_pair_result_i32_field_error_bytes {
    tk_result_i32_field_error first;
    tk_bytes second;
} tk_pair_result_i32_field_error_bytes;

TK_CONSTEXPR tk_pair_result_i32_field_error_bytes tk_new_pair_result_i32_field_error_bytes(
        tk_result_i32_field_error first, tk_bytes second)
{
    return TK_MAKE(tk_pair_result_i32_field_error_bytes, first, second);
}

typedef struct tk_option_result_i32_field_error {
    bool is_some;
    tk_result_i32_field_error value;
} tk_option_result_i32_field_error;

TK_CONSTEXPR tk_option_result_i32_field_error tk_some_result_i32_field_error(tk_result_i32_field_error value)
{
    return TK_MAKE(tk_option_result_i32_field_error, true, value);
}

TK_CONSTEXPR tk_option_result_i32_field_error tk_none_result_i32_field_error(void)
{
    return TK_MAKE(tk_option_result_i32_field_error, false, tk_ok_i32_field_error(0));
}

typedef struct tk_result_u32_field_error {
    bool is_ok;
    uint32_t value;
    tk_field_error error;
} tk_result_u32_field_error;

TK_CONSTEXPR tk_result_u32_field_error tk_ok_u32_field_error(uint32_t value)
{
    return TK_MAKE(tk_result_u32_field_error, true, value,
                   tk_new_field_error(0, 0, tk_bytes_of(NULL, 0), tk_error_empty()));
}

TK_CONSTEXPR tk_result_u32_field_error tk_err_u32_field_error(tk_field_error error)
{
    return TK_MAKE(tk_result_u32_field_error, false, 0, error);
}

typedef struct tk_pair_result_u32_field_error_bytes {
    tk_result_u32_field_error first;
    tk_bytes second;
} tk_pair_result_u32_field_error_bytes;

TK_CONSTEXPR tk_pair_result_u32_field_error_bytes tk_new_pair_result_u32_field_error_bytes(
        tk_result_u32_field_error first, tk_bytes second)
{
    return TK_MAKE(tk_pair_result_u32_field_error_bytes, first, second);
}

typedef struct tk_option_result_u32_field_error {
    bool is_some;
    tk_result_u32_field_error value;
} tk_option_result_u32_field_error;

TK_CONSTEXPR tk_option_result_u32_field_error tk_some_result_u32_field_error(tk_result_u32_field_error value)
{
    return TK_MAKE(tk_option_result_u32_field_error, true, value);
}

TK_CONSTEXPR tk_option_result_u32_field_error tk_none_result_u32_field_error(void)
{
    return TK_MAKE(tk_option_result_u32_field_error, false, tk_ok_u32_field_error(0));
}

typedef struct tk_result_i64_field_error {
    bool is_ok;
    int64_t value;
    tk_field_error error;
} tk_result_i64_field_error;

TK_CONSTEXPR tk_result_i64_field_error tk_ok_i64_field_error(int64_t value)
{
    return TK_MAKE(tk_result_i64_field_error, true, value,
                   tk_new_field_error(0, 0, tk_bytes_of(NULL, 0), tk_error_empty()));
}

TK_CONSTEXPR tk_result_i64_field_error tk_err_i64_field_error(tk_field_error error)
{
    return TK_MAKE(tk_result_i64_field_error, false, 0, error);
}

typedef struct tk_pair_result_i64_field_error_bytes {
    tk_result_i64_field_error first;
    tk_bytes second;
} tk_pair_result_i64_field_error_bytes;

TK_CONSTEXPR tk_pair_result_i64_field_error_bytes tk_new_pair_result_i64_field_error_bytes(
        tk_result_i64_field_error first, tk_bytes second)
{
    return TK_MAKE(tk_pair_result_i64_field_error_bytes, first, second);
}

typedef struct tk_option_result_i64_field_error {
    bool is_some;
    tk_result_i64_field_error value;
} tk_option_result_i64_field_error;

TK_CONSTEXPR tk_option_result_i64_field_error tk_some_result_i64_field_error(tk_result_i64_field_error value)
{
    return TK_MAKE(tk_option_result_i64_field_error, true, value);
}

TK_CONSTEXPR tk_option_result_i64_field_error tk_none_result_i64_field_error(void)
{
    return TK_MAKE(tk_option_result_i64_field_error, false, tk_ok_i64_field_error(0));
}

typedef struct tk_result_u64_field_error {
    bool is_ok;
    uint64_t value;
    tk_field_error error;
} tk_result_u64_field_error;

TK_CONSTEXPR tk_result_u64_field_error tk_ok_u64_field_error(uint64_t value)
{
    return TK_MAKE(tk_result_u64_field_error, true, value,
                   tk_new_field_error(0, 0, tk_bytes_of(NULL, 0), tk_error_empty()));
}

TK_CONSTEXPR tk_result_u64_field_error tk_err_u64_field_error(tk_field_error error)
{
    return TK_MAKE(tk_result_u64_field_error, false, 0, error);
}

typedef struct tk_pair_result_u64_field_error_bytes {
    tk_result_u64_field_error first;
    tk_bytes second;
} tk_pair_result_u64_field_error_bytes;

TK_CONSTEXPR tk_pair_result_u64_field_error_bytes tk_new_pair_result_u64_field_error_bytes(
        tk_result_u64_field_error first, tk_bytes second)
{
    return TK_MAKE(tk_pair_result_u64_field_error_bytes, first, second);
}

typedef struct tk_option_result_u64_field_error {
    bool is_some;
    tk_result_u64_field_error value;
} tk_option_result_u64_field_error;

TK_CONSTEXPR tk_option_result_u64_field_error tk_some_result_u64_field_error(tk_result_u64_field_error value)
{
    return TK_MAKE(tk_option_result_u64_field_error, true, value);
}

TK_CONSTEXPR tk_option_result_u64_field_error tk_none_result_u64_field_error(void)
{
    return TK_MAKE(tk_option_result_u64_field_error, false, tk_ok_u64_field_error(0));
}

typedef struct tk_result_i128_field_error {
    bool is_ok;
    tk_i128 value;
    tk_field_error error;
} tk_result_i128_field_error;

TK_CONSTEXPR tk_result_i128_field_error tk_ok_i128_field_error(tk_i128 value)
{
    return TK_MAKE(tk_result_i128_field_error, true, value,
                   tk_new_field_error(0, 0, tk_bytes_of(NULL, 0), tk_error_empty()));
}

TK_CONSTEXPR tk_result_i128_field_error tk_err_i128_field_error(tk_field_error error)
{
    return TK_MAKE(tk_result_i128_field_error, false, tk_i128_of(0), error);
}

typedef struct tk_pair_result_i128_field_error_bytes {
    tk_result_i128_field_error first;
    tk_bytes second;
} tk_pair_result_i128_field_error_bytes;

TK_CONSTEXPR tk_pair_result_i128_field_error_bytes tk_new_pair_result_i128_field_error_bytes(
        tk_result_i128_field_error first, tk_bytes second)
{
    return TK_MAKE(tk_pair_result_i128_field_error_bytes, first, second);
}

typedef struct tk_option_result_i128_field_error {
    bool is_some;
    tk_result_i128_field_error value;
} tk_option_result_i128_field_error;

TK_CONSTEXPR tk_option_result_i128_field_error tk_some_result_i128_field_error(tk_result_i128_field_error value)
{
    return TK_MAKE(tk_option_result_i128_field_error, true, value);
}

TK_CONSTEXPR tk_option_result_i128_field_error tk_none_result_i128_field_error(void)
{
    return TK_MAKE(tk_option_result_i128_field_error, false, tk_ok_i128_field_error(tk_i128_of(0)));
}

typedef struct tk_result_u128_field_error {
    bool is_ok;
    tk_u128 value;
    tk_field_error error;
} tk_result_u128_field_error;

TK_CONSTEXPR tk_result_u128_field_error tk_ok_u128_field_error(tk_u128 value)
{
    return TK_MAKE(tk_result_u128_field_error, true, value,
                   tk_new_field_error(0, 0, tk_bytes_of(NULL, 0), tk_error_empty()));
}

TK_CONSTEXPR tk_result_u128_field_error tk_err_u128_field_error(tk_field_error error)
{
    return TK_MAKE(tk_result_u128_field_error, false, tk_u128_of(0), error);
}

typedef struct tk_pair_result_u128_field_error_bytes {
    tk_result_u128_field_error first;
    tk_bytes second;
} tk_pair_result_u128_field_error_bytes;

TK_CONSTEXPR tk_pair_result_u128_field_error_bytes tk_new_pair_result_u128_field_error_bytes(
        tk_result_u128_field_error first, tk_bytes second)
{
    return TK_MAKE(tk_pair_result_u128_field_error_bytes, first, second);
}

typedef struct tk_option_result_u128_field_error {
    bool is_some;
    tk_result_u128_field_error value;
} tk_option_result_u128_field_error;

TK_CONSTEXPR tk_option_result_u128_field_error tk_some_result_u128_field_error(tk_result_u128_field_error value)
{
    return TK_MAKE(tk_option_result_u128_field_error, true, value);
}

TK_CONSTEXPR tk_option_result_u128_field_error tk_none_result_u128_field_error(void)
{
    return TK_MAKE(tk_option_result_u128_field_error, false, tk_ok_u128_field_error(tk_u128_of(0)));
}

typedef struct tk_room_i8 {
    int8_t *at;
    size_t len;
} tk_room_i8;

TK_CONSTEXPR tk_room_i8 tk_room_i8_of(int8_t *at, size_t len)
{
    return TK_MAKE(tk_room_i8, at, len);
}

TK_PARTS(tk_room_i8)

typedef struct tk_slice_i8 {
    const int8_t *at;
    size_t len;
} tk_slice_i8;

TK_CONSTEXPR tk_slice_i8 tk_slice_i8_of(const int8_t *at, size_t len)
{
    return TK_MAKE(tk_slice_i8, at, len);
}

TK_PARTS(tk_slice_i8)

typedef struct tk_room_i16 {
    int16_t *at;
    size_t len;
} tk_room_i16;

TK_CONSTEXPR tk_room_i16 tk_room_i16_of(int16_t *at, size_t len)
{
    return TK_MAKE(tk_room_i16, at, len);
}

TK_PARTS(tk_room_i16)

typedef struct tk_slice_i16 {
    const int16_t *at;
    size_t len;
} tk_slice_i16;

TK_CONSTEXPR tk_slice_i16 tk_slice_i16_of(const int16_t *at, size_t len)
{
    return TK_MAKE(tk_slice_i16, at, len);
}

TK_PARTS(tk_slice_i16)

typedef struct tk_room_u16 {
    uint16_t *at;
    size_t len;
} tk_room_u16;

TK_CONSTEXPR tk_room_u16 tk_room_u16_of(uint16_t *at, size_t len)
{
    return TK_MAKE(tk_room_u16, at, len);
}

TK_PARTS(tk_room_u16)

typedef struct tk_slice_u16 {
    const uint16_t *at;
    size_t len;
} tk_slice_u16;

TK_CONSTEXPR tk_slice_u16 tk_slice_u16_of(const uint16_t *at, size_t len)
{
    return TK_MAKE(tk_slice_u16, at, len);
}

TK_PARTS(tk_slice_u16)

typedef struct tk_room_i32 {
    int32_t *at;
    size_t len;
} tk_room_i32;

TK_CONSTEXPR tk_room_i32 tk_room_i32_of(int32_t *at, size_t len)
{
    return TK_MAKE(tk_room_i32, at, len);
}

TK_PARTS(tk_room_i32)

typedef struct tk_slice_i32 {
    const int32_t *at;
    size_t len;
} tk_slice_i32;

TK_CONSTEXPR tk_slice_i32 tk_slice_i32_of(const int32_t *at, size_t len)
{
    return TK_MAKE(tk_slice_i32, at, len);
}

TK_PARTS(tk_slice_i32)

typedef struct tk_room_u32 {
    uint32_t *at;
    size_t len;
} tk_room_u32;

TK_CONSTEXPR tk_room_u32 tk_room_u32_of(uint32_t *at, size_t len)
{
    return TK_MAKE(tk_room_u32, at, len);
}

TK_PARTS(tk_room_u32)

typedef struct tk_slice_u32 {
    const uint32_t *at;
    size_t len;
} tk_slice_u32;

TK_CONSTEXPR tk_slice_u32 tk_slice_u32_of(const uint32_t *at, size_t len)
{
    return TK_MAKE(tk_slice_u32, at, len);
}

TK_PARTS(tk_slice_u32)

typedef struct tk_room_i64 {
    int64_t *at;
    size_t len;
} tk_room_i64;

TK_CONSTEXPR tk_room_i64 tk_room_i64_of(int64_t *at, size_t len)
{
    return TK_MAKE(tk_room_i64, at, len);
}

TK_PARTS(tk_room_i64)

typedef struct tk_slice_i64 {
    const int64_t *at;
    size_t len;
} tk_slice_i64;

TK_CONSTEXPR tk_slice_i64 tk_slice_i64_of(const int64_t *at, size_t len)
{
    return TK_MAKE(tk_slice_i64, at, len);
}

TK_PARTS(tk_slice_i64)

typedef struct tk_room_u64 {
    uint64_t *at;
    size_t len;
} tk_room_u64;

TK_CONSTEXPR tk_room_u64 tk_room_u64_of(uint64_t *at, size_t len)
{
    return TK_MAKE(tk_room_u64, at, len);
}

TK_PARTS(tk_room_u64)

typedef struct tk_slice_u64 {
    const uint64_t *at;
    size_t len;
} tk_slice_u64;

TK_CONSTEXPR tk_slice_u64 tk_slice_u64_of(const uint64_t *at, size_t len)
{
    return TK_MAKE(tk_slice_u64, at, len);
}

TK_PARTS(tk_slice_u64)

typedef struct tk_room_i128 {
    tk_i128 *at;
    size_t len;
} tk_room_i128;

TK_CONSTEXPR tk_room_i128 tk_room_i128_of(tk_i128 *at, size_t len)
{
    return TK_MAKE(tk_room_i128, at, len);
}

TK_PARTS(tk_room_i128)

typedef struct tk_slice_i128 {
    const tk_i128 *at;
    size_t len;
} tk_slice_i128;

TK_CONSTEXPR tk_slice_i128 tk_slice_i128_of(const tk_i128 *at, size_t len)
{
    return TK_MAKE(tk_slice_i128, at, len);
}

TK_PARTS(tk_slice_i128)

typedef struct tk_room_u128 {
    tk_u128 *at;
    size_t len;
} tk_room_u128;

TK_CONSTEXPR tk_room_u128 tk_room_u128_of(tk_u128 *at, size_t len)
{
    return TK_MAKE(tk_room_u128, at, len);
}

TK_PARTS(tk_room_u128)

typedef struct tk_slice_u128 {
    const tk_u128 *at;
    size_t len;
} tk_slice_u128;

TK_CONSTEXPR tk_slice_u128 tk_slice_u128_of(const tk_u128 *at, size_t len)
{
    return TK_MAKE(tk_slice_u128, at, len);
}

TK_PARTS(tk_slice_u128)

/*
 * What is read of a slice of fewer than four bytes, and a factor for each length, in one table, to which
 * one register points.
 */
static const uint8_t tk_short[9][8] = {
    {0, 48, 48, 48, 48, 48, 0, 0},
    {0, 0, 0, 0, 0, 0, 0, 1},
    {0, 0, 0, 0, 0, 0, 1, 0},
    {0, 0, 0, 0, 0, 1, 0, 0},
    {0, 0, 0, 0, 1, 0, 0, 0},
    {0, 0, 0, 1, 0, 0, 0, 0},
    {0, 0, 1, 0, 0, 0, 0, 0},
    {0, 1, 0, 0, 0, 0, 0, 0},
    {1, 0, 0, 0, 0, 0, 0, 0},
};

#define TK_FOUR_ZEROS 0x30303030

/* Indexed by the exponent. */
static const uint64_t tk_powers[17] = {
    1,
    10,
    100,
    1000,
    10000,
    100000,
    1000000,
    10000000,
    100000000,
    1000000000,
    UINT64_C(10000000000),
    UINT64_C(100000000000),
    UINT64_C(1000000000000),
    UINT64_C(10000000000000),
    UINT64_C(100000000000000),
    UINT64_C(1000000000000000),
    UINT64_C(10000000000000000),
};

#define TK_MOST_IN_TWO_WORDS UINT64_C(1000000000000000000)

#define TK_MOST_IN_THREE_WORDS UINT64_C(9999999999999999999)

#define TK_SHOWN_BYTES 48

/* What is guessed of the first field. */
static const tk_guess tk_no_guess = {0, false, true, false};

static const tk_guess tk_with_minus = {0, false, false, true};

static const tk_guess tk_long = {0, false, false, false};

#define TK_SHORT_TEXT 64

#define TK_PART 4

#define TK_LONG_PART 1024

/* atoi_fast/src/loads.rt:88 */
TK_INLINE uint32_t tk_load_last_four(tk_bytes s)
{
    if (s.len >= 4) {
        const uint8_t *last = s.at + (s.len - 4);
        return tk_u32_load(last);
    }
    return 0;
}

/* `load_from` for four bytes, of which the first is there. */
/* atoi_fast/src/loads.rt:72 */
TK_INLINE uint32_t tk_load_four_from(tk_bytes s, size_t at)
{
    if (s.len < at + 4) {
        return tk_load_last_four(s) >> (8 * (at + 4 - s.len));
    }
    tk_bytes all = tk_bytes_from(s, at);
    if (all.len >= 4) {
        const uint8_t *first = all.at;
        return tk_u32_load(first);
    }
    return 0;
}

/* atoi_fast/src/loads.rt:99 */
TK_INLINE uint32_t tk_load_last_two(tk_bytes s)
{
    if (s.len >= 2) {
        const uint8_t *last = s.at + (s.len - 2);
        return TK_CAST(uint32_t, tk_u16_load(last));
    }
    return 0;
}

/* Returns the factor that moves the lowest of `len` bytes to where `load_flipped` has the first byte. */
/* atoi_fast/src/loads.rt:41 */
TK_INLINE uint64_t tk_factor_of(size_t len)
{
    return tk_u64_load(tk_short[tk_index(len, 9)]);
}

/* Returns the word of `s` filled with zeros at the front, xor `ZEROS`, without a branch on the length. */
/* atoi_fast/src/loads.rt:25 */
TK_INLINE uint64_t tk_load_flipped(tk_bytes s)
{
    tk_bytes short_ = tk_bytes_of(tk_short[tk_index(0, 9)], 8);
    tk_bytes fours = TK_EITHER(s.len < 4, short_, s);
    uint32_t front = (TK_CAST(uint32_t, s.at[tk_index(0, s.len)]) | tk_load_four_from(fours, 0)) ^ TK_FOUR_ZEROS;
    uint32_t back = (tk_load_last_four(fours) | (tk_load_last_two(s) << 16)) ^ TK_FOUR_ZEROS;
    /* A product takes less time than a shift. */
    uint64_t shifted = tk_u64_wrapping_mul(TK_CAST(uint64_t, front), tk_factor_of(s.len));
    return shifted | (TK_CAST(uint64_t, back) << 32);
}

/* `leading_digits` for a word xor `ZEROS`. Here, a byte is no digit if adding 118 sets its top bit. */
/* atoi_fast/src/digits.rt:35 */
TK_INLINE uint32_t tk_leading_digits_flipped(uint64_t flipped)
{
    uint64_t marks = (tk_u64_wrapping_add(flipped,
                                          UINT64_C(0x7676767676767676)) | flipped) & UINT64_C(0x8080808080808080);
    if (marks == 0) {
        return 8;
    }
    return tk_u64_trailing_zeros(marks) / 8;
}

/* atoi_fast/src/in_range.rt:20 */
TK_INLINE tk_option_i8 tk_number_in_range_i8(tk_u128 greatest, uint64_t most, bool minus, uint64_t magnitude)
{
    if (tk_is_in_range(greatest, most, minus, magnitude) && tk_is_in_range(tk_u128_of(127), most, minus, magnitude)) {
        return tk_some_i8(tk_from_parts_i8(minus, tk_u128_of(magnitude)));
    }
    return tk_none_i8();
}

/* Returns the number of a slice of 2 to 8 bytes, if all are digits after at most a minus. */
/* atoi_fast/src/short_slice.rt:38 */
TK_HINTED tk_option_i8 tk_short_slice_i8(tk_bytes s)
{
    bool minus = true & (s.at[tk_index(0, s.len)] == '-');
    /* A `-` that is flipped once more is the digit 0, without a branch. */
    uint64_t flipped = tk_load_flipped(s) ^ tk_u64_wrapping_mul(tk_factor_of(s.len), 0x1D * tk_bit(minus));
    if (tk_leading_digits_flipped(flipped) != 8) {
        return tk_none_i8();
    }
    return tk_number_in_range_i8(tk_u128_of(127), TK_MOST_IN_WORD, minus, tk_sum_of(flipped));
}

/* atoi_fast/src/loads.rt:122 */
TK_INLINE uint64_t tk_load_last(tk_bytes s)
{
    if (s.len >= 8) {
        const uint8_t *last = s.at + (s.len - 8);
        return tk_u64_load(last);
    }
    return 0;
}

/* Returns how many digits the word begins with. */
/* atoi_fast/src/digits.rt:19 */
TK_INLINE uint32_t tk_leading_digits(uint64_t word)
{
    uint64_t above = tk_u64_wrapping_add(word, UINT64_C(0x4646464646464646));
    uint64_t below = tk_u64_wrapping_sub(word, TK_ZEROS);
    uint64_t marks = (above | below) & UINT64_C(0x8080808080808080);
    if (marks == 0) {
        return 8;
    }
    return tk_u64_trailing_zeros(marks) / 8;
}

/* The number that the first `len` bytes of the word spell. They are digits, at least one. */
/* atoi_fast/src/digits.rt:81 */
TK_INLINE uint64_t tk_value_of(uint64_t word, uint32_t len)
{
    return tk_sum_of(tk_u64_wrapping_sub(word, TK_ZEROS) << (64 - 8 * len));
}

/* Returns ten to the power of `digits`, which is at most 16. */
/* atoi_core/src/powers.rt:26 */
TK_HINTED uint64_t tk_power_of_ten(uint32_t digits)
{
    return tk_powers[tk_index(TK_CAST(size_t, digits), 17)];
}

/*
 * Returns the number of a slice of 9 to 15 bytes, if all are digits after at most a minus. The last eight overlap
 * the first eight.
 */
/* atoi_fast/src/short_slice.rt:71 */
TK_HINTED tk_option_i8 tk_slice_of_two_words_i8(tk_bytes s)
{
    uint64_t word = tk_load_full(s);
    bool minus = true & (s.at[tk_index(0, s.len)] == '-');
    /* A `-` plus 3 is a `0`. */
    uint64_t first = tk_u64_wrapping_add(word, 3 * tk_bit(minus));
    uint64_t last = tk_load_last(s);
    if (tk_leading_digits(first) != 8 || tk_leading_digits(last) != 8) {
        return tk_none_i8();
    }
    uint64_t high = tk_value_of(first, TK_CAST(uint32_t, s.len) - 8);
    uint64_t magnitude = high * tk_power_of_ten(8) + tk_value_of(last, 8);
    return tk_number_in_range_i8(tk_u128_of(127), TK_MOST_IN_TWO_WORDS, minus, magnitude);
}

/* Returns the number of a slice of 2 to 15 bytes, if all are digits after at most a minus. */
/* atoi_fast/src/quick.rt:26 */
TK_HINTED tk_option_i8 tk_quick_slice_i8(tk_bytes s)
{
    if (2 <= s.len && s.len <= 8) {
        return tk_short_slice_i8(s);
    }
    if (9 <= s.len && s.len <= 15) {
        return tk_slice_of_two_words_i8(s);
    }
    return tk_none_i8();
}

/* atoi_fast/src/in_range.rt:20 */
TK_INLINE tk_option_u8 tk_number_in_range_u8(tk_u128 greatest, uint64_t most, bool minus, uint64_t magnitude)
{
    if (tk_is_in_range(greatest, most, minus, magnitude) && tk_is_in_range(tk_u128_of(255), most, minus, magnitude)) {
        return tk_some_u8(tk_from_parts_u8(minus, tk_u128_of(magnitude)));
    }
    return tk_none_u8();
}

/* atoi_fast/src/short_slice.rt:38 */
TK_HINTED tk_option_u8 tk_short_slice_u8(tk_bytes s)
{
    bool minus = false & (s.at[tk_index(0, s.len)] == '-');
    /* A `-` that is flipped once more is the digit 0, without a branch. */
    uint64_t flipped = tk_load_flipped(s) ^ tk_u64_wrapping_mul(tk_factor_of(s.len), 0x1D * tk_bit(minus));
    if (tk_leading_digits_flipped(flipped) != 8) {
        return tk_none_u8();
    }
    return tk_number_in_range_u8(tk_u128_of(255), TK_MOST_IN_WORD, minus, tk_sum_of(flipped));
}

/* atoi_fast/src/short_slice.rt:71 */
TK_HINTED tk_option_u8 tk_slice_of_two_words_u8(tk_bytes s)
{
    uint64_t word = tk_load_full(s);
    bool minus = false & (s.at[tk_index(0, s.len)] == '-');
    /* A `-` plus 3 is a `0`. */
    uint64_t first = tk_u64_wrapping_add(word, 3 * tk_bit(minus));
    uint64_t last = tk_load_last(s);
    if (tk_leading_digits(first) != 8 || tk_leading_digits(last) != 8) {
        return tk_none_u8();
    }
    uint64_t high = tk_value_of(first, TK_CAST(uint32_t, s.len) - 8);
    uint64_t magnitude = high * tk_power_of_ten(8) + tk_value_of(last, 8);
    return tk_number_in_range_u8(tk_u128_of(255), TK_MOST_IN_TWO_WORDS, minus, magnitude);
}

/* atoi_fast/src/quick.rt:26 */
TK_HINTED tk_option_u8 tk_quick_slice_u8(tk_bytes s)
{
    if (2 <= s.len && s.len <= 8) {
        return tk_short_slice_u8(s);
    }
    if (9 <= s.len && s.len <= 15) {
        return tk_slice_of_two_words_u8(s);
    }
    return tk_none_u8();
}

/* atoi_fast/src/in_range.rt:20 */
TK_INLINE tk_option_i16 tk_number_in_range_i16(tk_u128 greatest, uint64_t most, bool minus, uint64_t magnitude)
{
    if (tk_is_in_range(greatest, most, minus, magnitude) && tk_is_in_range(tk_u128_of(32767), most, minus, magnitude)) {
        return tk_some_i16(tk_from_parts_i16(minus, tk_u128_of(magnitude)));
    }
    return tk_none_i16();
}

/* atoi_fast/src/short_slice.rt:38 */
TK_HINTED tk_option_i16 tk_short_slice_i16(tk_bytes s)
{
    bool minus = true & (s.at[tk_index(0, s.len)] == '-');
    /* A `-` that is flipped once more is the digit 0, without a branch. */
    uint64_t flipped = tk_load_flipped(s) ^ tk_u64_wrapping_mul(tk_factor_of(s.len), 0x1D * tk_bit(minus));
    if (tk_leading_digits_flipped(flipped) != 8) {
        return tk_none_i16();
    }
    return tk_number_in_range_i16(tk_u128_of(32767), TK_MOST_IN_WORD, minus, tk_sum_of(flipped));
}

/* atoi_fast/src/short_slice.rt:71 */
TK_HINTED tk_option_i16 tk_slice_of_two_words_i16(tk_bytes s)
{
    uint64_t word = tk_load_full(s);
    bool minus = true & (s.at[tk_index(0, s.len)] == '-');
    /* A `-` plus 3 is a `0`. */
    uint64_t first = tk_u64_wrapping_add(word, 3 * tk_bit(minus));
    uint64_t last = tk_load_last(s);
    if (tk_leading_digits(first) != 8 || tk_leading_digits(last) != 8) {
        return tk_none_i16();
    }
    uint64_t high = tk_value_of(first, TK_CAST(uint32_t, s.len) - 8);
    uint64_t magnitude = high * tk_power_of_ten(8) + tk_value_of(last, 8);
    return tk_number_in_range_i16(tk_u128_of(32767), TK_MOST_IN_TWO_WORDS, minus, magnitude);
}

/* atoi_fast/src/quick.rt:26 */
TK_HINTED tk_option_i16 tk_quick_slice_i16(tk_bytes s)
{
    if (2 <= s.len && s.len <= 8) {
        return tk_short_slice_i16(s);
    }
    if (9 <= s.len && s.len <= 15) {
        return tk_slice_of_two_words_i16(s);
    }
    return tk_none_i16();
}

/* atoi_fast/src/in_range.rt:20 */
TK_INLINE tk_option_u16 tk_number_in_range_u16(tk_u128 greatest, uint64_t most, bool minus, uint64_t magnitude)
{
    if (tk_is_in_range(greatest, most, minus, magnitude) && tk_is_in_range(tk_u128_of(65535), most, minus, magnitude)) {
        return tk_some_u16(tk_from_parts_u16(minus, tk_u128_of(magnitude)));
    }
    return tk_none_u16();
}

/* atoi_fast/src/short_slice.rt:38 */
TK_HINTED tk_option_u16 tk_short_slice_u16(tk_bytes s)
{
    bool minus = false & (s.at[tk_index(0, s.len)] == '-');
    /* A `-` that is flipped once more is the digit 0, without a branch. */
    uint64_t flipped = tk_load_flipped(s) ^ tk_u64_wrapping_mul(tk_factor_of(s.len), 0x1D * tk_bit(minus));
    if (tk_leading_digits_flipped(flipped) != 8) {
        return tk_none_u16();
    }
    return tk_number_in_range_u16(tk_u128_of(65535), TK_MOST_IN_WORD, minus, tk_sum_of(flipped));
}

/* atoi_fast/src/short_slice.rt:71 */
TK_HINTED tk_option_u16 tk_slice_of_two_words_u16(tk_bytes s)
{
    uint64_t word = tk_load_full(s);
    bool minus = false & (s.at[tk_index(0, s.len)] == '-');
    /* A `-` plus 3 is a `0`. */
    uint64_t first = tk_u64_wrapping_add(word, 3 * tk_bit(minus));
    uint64_t last = tk_load_last(s);
    if (tk_leading_digits(first) != 8 || tk_leading_digits(last) != 8) {
        return tk_none_u16();
    }
    uint64_t high = tk_value_of(first, TK_CAST(uint32_t, s.len) - 8);
    uint64_t magnitude = high * tk_power_of_ten(8) + tk_value_of(last, 8);
    return tk_number_in_range_u16(tk_u128_of(65535), TK_MOST_IN_TWO_WORDS, minus, magnitude);
}

/* atoi_fast/src/quick.rt:26 */
TK_HINTED tk_option_u16 tk_quick_slice_u16(tk_bytes s)
{
    if (2 <= s.len && s.len <= 8) {
        return tk_short_slice_u16(s);
    }
    if (9 <= s.len && s.len <= 15) {
        return tk_slice_of_two_words_u16(s);
    }
    return tk_none_u16();
}

/* atoi_fast/src/in_range.rt:20 */
TK_INLINE tk_option_i32 tk_number_in_range_i32(tk_u128 greatest, uint64_t most, bool minus, uint64_t magnitude)
{
    if (tk_is_in_range(greatest, most, minus, magnitude)
        && tk_is_in_range(tk_u128_of(2147483647), most, minus, magnitude)) {
        return tk_some_i32(tk_from_parts_i32(minus, tk_u128_of(magnitude)));
    }
    return tk_none_i32();
}

/* atoi_fast/src/short_slice.rt:38 */
TK_INLINE tk_option_i32 tk_short_slice_i32(tk_bytes s)
{
    bool minus = true & (s.at[tk_index(0, s.len)] == '-');
    /* A `-` that is flipped once more is the digit 0, without a branch. */
    uint64_t flipped = tk_load_flipped(s) ^ tk_u64_wrapping_mul(tk_factor_of(s.len), 0x1D * tk_bit(minus));
    if (tk_leading_digits_flipped(flipped) != 8) {
        return tk_none_i32();
    }
    return tk_number_in_range_i32(tk_u128_of(2147483647), TK_MOST_IN_WORD, minus, tk_sum_of(flipped));
}

/* atoi_fast/src/short_slice.rt:71 */
TK_INLINE tk_option_i32 tk_slice_of_two_words_i32(tk_bytes s)
{
    uint64_t word = tk_load_full(s);
    bool minus = true & (s.at[tk_index(0, s.len)] == '-');
    /* A `-` plus 3 is a `0`. */
    uint64_t first = tk_u64_wrapping_add(word, 3 * tk_bit(minus));
    uint64_t last = tk_load_last(s);
    if (tk_leading_digits(first) != 8 || tk_leading_digits(last) != 8) {
        return tk_none_i32();
    }
    uint64_t high = tk_value_of(first, TK_CAST(uint32_t, s.len) - 8);
    uint64_t magnitude = high * tk_power_of_ten(8) + tk_value_of(last, 8);
    return tk_number_in_range_i32(tk_u128_of(2147483647), TK_MOST_IN_TWO_WORDS, minus, magnitude);
}

/* atoi_fast/src/quick.rt:26 */
TK_INLINE tk_option_i32 tk_quick_slice_i32(tk_bytes s)
{
    if (2 <= s.len && s.len <= 8) {
        return tk_short_slice_i32(s);
    }
    if (9 <= s.len && s.len <= 15) {
        return tk_slice_of_two_words_i32(s);
    }
    return tk_none_i32();
}

/* atoi_fast/src/in_range.rt:20 */
TK_INLINE tk_option_u32 tk_number_in_range_u32(tk_u128 greatest, uint64_t most, bool minus, uint64_t magnitude)
{
    if (tk_is_in_range(greatest, most, minus, magnitude)
        && tk_is_in_range(tk_u128_of(UINT64_C(4294967295)), most, minus, magnitude)) {
        return tk_some_u32(tk_from_parts_u32(minus, tk_u128_of(magnitude)));
    }
    return tk_none_u32();
}

/* atoi_fast/src/short_slice.rt:38 */
TK_INLINE tk_option_u32 tk_short_slice_u32(tk_bytes s)
{
    bool minus = false & (s.at[tk_index(0, s.len)] == '-');
    /* A `-` that is flipped once more is the digit 0, without a branch. */
    uint64_t flipped = tk_load_flipped(s) ^ tk_u64_wrapping_mul(tk_factor_of(s.len), 0x1D * tk_bit(minus));
    if (tk_leading_digits_flipped(flipped) != 8) {
        return tk_none_u32();
    }
    return tk_number_in_range_u32(tk_u128_of(UINT64_C(4294967295)), TK_MOST_IN_WORD, minus, tk_sum_of(flipped));
}

/* atoi_fast/src/short_slice.rt:71 */
TK_INLINE tk_option_u32 tk_slice_of_two_words_u32(tk_bytes s)
{
    uint64_t word = tk_load_full(s);
    bool minus = false & (s.at[tk_index(0, s.len)] == '-');
    /* A `-` plus 3 is a `0`. */
    uint64_t first = tk_u64_wrapping_add(word, 3 * tk_bit(minus));
    uint64_t last = tk_load_last(s);
    if (tk_leading_digits(first) != 8 || tk_leading_digits(last) != 8) {
        return tk_none_u32();
    }
    uint64_t high = tk_value_of(first, TK_CAST(uint32_t, s.len) - 8);
    uint64_t magnitude = high * tk_power_of_ten(8) + tk_value_of(last, 8);
    return tk_number_in_range_u32(tk_u128_of(UINT64_C(4294967295)), TK_MOST_IN_TWO_WORDS, minus, magnitude);
}

/* atoi_fast/src/quick.rt:26 */
TK_INLINE tk_option_u32 tk_quick_slice_u32(tk_bytes s)
{
    if (2 <= s.len && s.len <= 8) {
        return tk_short_slice_u32(s);
    }
    if (9 <= s.len && s.len <= 15) {
        return tk_slice_of_two_words_u32(s);
    }
    return tk_none_u32();
}

/* atoi_fast/src/short_slice.rt:38 */
TK_INLINE tk_option_i64 tk_short_slice_i64(tk_bytes s)
{
    bool minus = true & (s.at[tk_index(0, s.len)] == '-');
    /* A `-` that is flipped once more is the digit 0, without a branch. */
    uint64_t flipped = tk_load_flipped(s) ^ tk_u64_wrapping_mul(tk_factor_of(s.len), 0x1D * tk_bit(minus));
    if (tk_leading_digits_flipped(flipped) != 8) {
        return tk_none_i64();
    }
    return tk_number_in_range_i64(tk_u128_of(UINT64_C(9223372036854775807)), TK_MOST_IN_WORD, minus,
                                  tk_sum_of(flipped));
}

/* atoi_fast/src/short_slice.rt:71 */
TK_INLINE tk_option_i64 tk_slice_of_two_words_i64(tk_bytes s)
{
    uint64_t word = tk_load_full(s);
    bool minus = true & (s.at[tk_index(0, s.len)] == '-');
    /* A `-` plus 3 is a `0`. */
    uint64_t first = tk_u64_wrapping_add(word, 3 * tk_bit(minus));
    uint64_t last = tk_load_last(s);
    if (tk_leading_digits(first) != 8 || tk_leading_digits(last) != 8) {
        return tk_none_i64();
    }
    uint64_t high = tk_value_of(first, TK_CAST(uint32_t, s.len) - 8);
    uint64_t magnitude = high * tk_power_of_ten(8) + tk_value_of(last, 8);
    return tk_number_in_range_i64(tk_u128_of(UINT64_C(9223372036854775807)), TK_MOST_IN_TWO_WORDS, minus, magnitude);
}

/* atoi_fast/src/quick.rt:26 */
TK_INLINE tk_option_i64 tk_quick_slice_i64(tk_bytes s)
{
    if (2 <= s.len && s.len <= 8) {
        return tk_short_slice_i64(s);
    }
    if (9 <= s.len && s.len <= 15) {
        return tk_slice_of_two_words_i64(s);
    }
    return tk_none_i64();
}

/* atoi_fast/src/short_slice.rt:38 */
TK_INLINE tk_option_u64 tk_short_slice_u64(tk_bytes s)
{
    bool minus = false & (s.at[tk_index(0, s.len)] == '-');
    /* A `-` that is flipped once more is the digit 0, without a branch. */
    uint64_t flipped = tk_load_flipped(s) ^ tk_u64_wrapping_mul(tk_factor_of(s.len), 0x1D * tk_bit(minus));
    if (tk_leading_digits_flipped(flipped) != 8) {
        return tk_none_u64();
    }
    return tk_number_in_range_u64(tk_u128_of(UINT64_C(18446744073709551615)), TK_MOST_IN_WORD, minus,
                                  tk_sum_of(flipped));
}

/* atoi_fast/src/short_slice.rt:71 */
TK_INLINE tk_option_u64 tk_slice_of_two_words_u64(tk_bytes s)
{
    uint64_t word = tk_load_full(s);
    bool minus = false & (s.at[tk_index(0, s.len)] == '-');
    /* A `-` plus 3 is a `0`. */
    uint64_t first = tk_u64_wrapping_add(word, 3 * tk_bit(minus));
    uint64_t last = tk_load_last(s);
    if (tk_leading_digits(first) != 8 || tk_leading_digits(last) != 8) {
        return tk_none_u64();
    }
    uint64_t high = tk_value_of(first, TK_CAST(uint32_t, s.len) - 8);
    uint64_t magnitude = high * tk_power_of_ten(8) + tk_value_of(last, 8);
    return tk_number_in_range_u64(tk_u128_of(UINT64_C(18446744073709551615)), TK_MOST_IN_TWO_WORDS, minus, magnitude);
}

/* atoi_fast/src/quick.rt:26 */
TK_INLINE tk_option_u64 tk_quick_slice_u64(tk_bytes s)
{
    if (2 <= s.len && s.len <= 8) {
        return tk_short_slice_u64(s);
    }
    if (9 <= s.len && s.len <= 15) {
        return tk_slice_of_two_words_u64(s);
    }
    return tk_none_u64();
}

/* atoi_fast/src/in_range.rt:20 */
TK_INLINE tk_option_i128 tk_number_in_range_i128(tk_u128 greatest, uint64_t most, bool minus, uint64_t magnitude)
{
    if (tk_is_in_range(greatest, most, minus, magnitude)
        && tk_is_in_range(tk_u128_make(UINT64_C(9223372036854775807), UINT64_C(18446744073709551615)), most, minus,
                          magnitude)) {
        return tk_some_i128(tk_from_parts_i128(minus, tk_u128_of(magnitude)));
    }
    return tk_none_i128();
}

/* atoi_fast/src/short_slice.rt:38 */
TK_HINTED tk_option_i128 tk_short_slice_i128(tk_bytes s)
{
    bool minus = true & (s.at[tk_index(0, s.len)] == '-');
    /* A `-` that is flipped once more is the digit 0, without a branch. */
    uint64_t flipped = tk_load_flipped(s) ^ tk_u64_wrapping_mul(tk_factor_of(s.len), 0x1D * tk_bit(minus));
    if (tk_leading_digits_flipped(flipped) != 8) {
        return tk_none_i128();
    }
    return tk_number_in_range_i128(tk_u128_make(UINT64_C(9223372036854775807), UINT64_C(18446744073709551615)),
                                   TK_MOST_IN_WORD, minus, tk_sum_of(flipped));
}

/* atoi_fast/src/short_slice.rt:71 */
TK_HINTED tk_option_i128 tk_slice_of_two_words_i128(tk_bytes s)
{
    uint64_t word = tk_load_full(s);
    bool minus = true & (s.at[tk_index(0, s.len)] == '-');
    /* A `-` plus 3 is a `0`. */
    uint64_t first = tk_u64_wrapping_add(word, 3 * tk_bit(minus));
    uint64_t last = tk_load_last(s);
    if (tk_leading_digits(first) != 8 || tk_leading_digits(last) != 8) {
        return tk_none_i128();
    }
    uint64_t high = tk_value_of(first, TK_CAST(uint32_t, s.len) - 8);
    uint64_t magnitude = high * tk_power_of_ten(8) + tk_value_of(last, 8);
    return tk_number_in_range_i128(tk_u128_make(UINT64_C(9223372036854775807), UINT64_C(18446744073709551615)),
                                   TK_MOST_IN_TWO_WORDS, minus, magnitude);
}

/* atoi_fast/src/quick.rt:26 */
TK_HINTED tk_option_i128 tk_quick_slice_i128(tk_bytes s)
{
    if (2 <= s.len && s.len <= 8) {
        return tk_short_slice_i128(s);
    }
    if (9 <= s.len && s.len <= 15) {
        return tk_slice_of_two_words_i128(s);
    }
    return tk_none_i128();
}

/* atoi_fast/src/in_range.rt:20 */
TK_INLINE tk_option_u128 tk_number_in_range_u128(tk_u128 greatest, uint64_t most, bool minus, uint64_t magnitude)
{
    if (tk_is_in_range(greatest, most, minus, magnitude)
        && tk_is_in_range(tk_u128_make(UINT64_C(18446744073709551615), UINT64_C(18446744073709551615)), most, minus,
                          magnitude)) {
        return tk_some_u128(tk_from_parts_u128(minus, tk_u128_of(magnitude)));
    }
    return tk_none_u128();
}

/* atoi_fast/src/short_slice.rt:38 */
TK_HINTED tk_option_u128 tk_short_slice_u128(tk_bytes s)
{
    bool minus = false & (s.at[tk_index(0, s.len)] == '-');
    /* A `-` that is flipped once more is the digit 0, without a branch. */
    uint64_t flipped = tk_load_flipped(s) ^ tk_u64_wrapping_mul(tk_factor_of(s.len), 0x1D * tk_bit(minus));
    if (tk_leading_digits_flipped(flipped) != 8) {
        return tk_none_u128();
    }
    return tk_number_in_range_u128(tk_u128_make(UINT64_C(18446744073709551615), UINT64_C(18446744073709551615)),
                                   TK_MOST_IN_WORD, minus, tk_sum_of(flipped));
}

/* atoi_fast/src/short_slice.rt:71 */
TK_HINTED tk_option_u128 tk_slice_of_two_words_u128(tk_bytes s)
{
    uint64_t word = tk_load_full(s);
    bool minus = false & (s.at[tk_index(0, s.len)] == '-');
    /* A `-` plus 3 is a `0`. */
    uint64_t first = tk_u64_wrapping_add(word, 3 * tk_bit(minus));
    uint64_t last = tk_load_last(s);
    if (tk_leading_digits(first) != 8 || tk_leading_digits(last) != 8) {
        return tk_none_u128();
    }
    uint64_t high = tk_value_of(first, TK_CAST(uint32_t, s.len) - 8);
    uint64_t magnitude = high * tk_power_of_ten(8) + tk_value_of(last, 8);
    return tk_number_in_range_u128(tk_u128_make(UINT64_C(18446744073709551615), UINT64_C(18446744073709551615)),
                                   TK_MOST_IN_TWO_WORDS, minus, magnitude);
}

/* atoi_fast/src/quick.rt:26 */
TK_HINTED tk_option_u128 tk_quick_slice_u128(tk_bytes s)
{
    if (2 <= s.len && s.len <= 8) {
        return tk_short_slice_u128(s);
    }
    if (9 <= s.len && s.len <= 15) {
        return tk_slice_of_two_words_u128(s);
    }
    return tk_none_u128();
}

/* Returns the number of a slice of at least 16 bytes, if the type has 64 bits and no limit refuses so many digits. */
/* atoi_fast/src/quick.rt:38 */
TK_HINTED tk_option_i8 tk_long_slice_i8(tk_bytes s)
{
    (void)s;
    return tk_none_i8();
}

/* atoi_fast/src/quick.rt:38 */
TK_HINTED tk_option_u8 tk_long_slice_u8(tk_bytes s)
{
    (void)s;
    return tk_none_u8();
}

/* atoi_fast/src/quick.rt:38 */
TK_HINTED tk_option_i16 tk_long_slice_i16(tk_bytes s)
{
    (void)s;
    return tk_none_i16();
}

/* atoi_fast/src/quick.rt:38 */
TK_HINTED tk_option_u16 tk_long_slice_u16(tk_bytes s)
{
    (void)s;
    return tk_none_u16();
}

/* atoi_fast/src/quick.rt:38 */
TK_INLINE tk_option_i32 tk_long_slice_i32(tk_bytes s)
{
    (void)s;
    return tk_none_i32();
}

/* atoi_fast/src/quick.rt:38 */
TK_INLINE tk_option_u32 tk_long_slice_u32(tk_bytes s)
{
    (void)s;
    return tk_none_u32();
}

/*
 * Returns the word of the first 8 bytes from `at` on. If fewer follow, shifts the last 8 bytes of `s`
 * down.
 */
/* atoi_fast/src/loads.rt:53 */
TK_INLINE uint64_t tk_load_from(tk_bytes s, size_t at)
{
    if (s.len == at) {
        return 0;
    }
    if (s.len >= 8 && s.len < at + 8) {
        const uint8_t *last = s.at + (s.len - 8);
        return tk_u64_load(last) >> (8 * (at + 8 - s.len));
    }
    if (s.len >= 8) {
        return tk_load_full(tk_bytes_from(s, at));
    }
    return 0;
}

/* `value_by_product` for at most four bytes. */
/* atoi_fast/src/digits.rt:155 */
TK_INLINE uint64_t tk_four_by_product(uint64_t digits, uint32_t len)
{
    uint64_t product = tk_u64_wrapping_mul(digits, tk_factors[tk_index(TK_CAST(size_t, len), 8)]);
    uint64_t tens = (product >> 8) & UINT64_C(0x00FF00FF00FF00FF);
    return tk_u64_wrapping_mul(tens, 0x640001) >> 48;
}

/* `prefix_of_two_words` for 16 to 20 bytes, of which the second eight are `second`. */
/* atoi_fast/src/short_prefix.rt:191 */
TK_INLINE tk_option_pair_i64_size tk_prefix_of_three_words_i64(bool minus, uint64_t high, uint64_t second, tk_bytes s)
{
    uint64_t high_2 = high * tk_power_of_ten(8) + tk_sum_of(tk_u64_wrapping_sub(second, TK_ZEROS));
    uint64_t third = tk_load_from(s, 16);
    uint32_t more = tk_leading_digits(third);
    /* At most 19 digits, which no limit refuses. */
    if (more > 3 + TK_CAST(uint32_t, minus)) {
        return tk_none_pair_i64_size();
    }
    uint64_t low = tk_four_by_product(tk_u64_wrapping_sub(third, TK_ZEROS), more);
    uint64_t magnitude = high_2 * tk_power_of_ten(more) + low;
    tk_option_i64 found = tk_number_in_range_i64(tk_u128_of(UINT64_C(9223372036854775807)), TK_MOST_IN_THREE_WORDS,
                                                 minus, magnitude);
    if (!found.is_some) {
        return tk_none_pair_i64_size();
    }
    int64_t number = found.value;
    return tk_some_pair_i64_size(tk_new_pair_i64_size(number, 16 + TK_CAST(size_t, more)));
}

/* The number of 8 to 15 bytes, of which the first eight spell `high`, with a zero for a minus. */
/* atoi_fast/src/short_prefix.rt:165 */
TK_INLINE tk_option_pair_i64_size tk_prefix_of_two_words_i64(bool minus, uint64_t high, tk_bytes s)
{
    uint64_t next = tk_load_full(tk_bytes_from(s, 8));
    uint32_t more = tk_leading_digits(next);
    if (more == 8) {
        tk_option_pair_i64_size found = tk_prefix_of_three_words_i64(minus, high, next, s);
        if (!found.is_some) {
            return tk_none_pair_i64_size();
        }
        tk_pair_i64_size found_2 = found.value;
        return tk_some_pair_i64_size(found_2);
    }
    uint64_t low = tk_value_by_product(tk_u64_wrapping_sub(next, TK_ZEROS), more);
    uint64_t magnitude = high * tk_power_of_ten(more) + low;
    tk_option_i64 found = tk_number_in_range_i64(tk_u128_of(UINT64_C(9223372036854775807)), TK_MOST_IN_TWO_WORDS, minus,
                                                 magnitude);
    if (!found.is_some) {
        return tk_none_pair_i64_size();
    }
    int64_t number = found.value;
    return tk_some_pair_i64_size(tk_new_pair_i64_size(number, 8 + TK_CAST(size_t, more)));
}

/* Like `short_prefix` for a signed type. `u64` has up to 19 digits, too. */
/* atoi_fast/src/short_prefix.rt:46 */
TK_INLINE tk_option_pair_i64_size tk_prefix_of_words_i64(tk_bytes s)
{
    uint64_t word = tk_load_full(s);
    /* A `-` borrows from the next byte, so that a `0` there looks like no digit. */
    uint64_t above = tk_u64_wrapping_add(word, UINT64_C(0x4646464646464646));
    uint64_t below = tk_u64_wrapping_sub(word, TK_ZEROS);
    uint64_t marks = (above | below) & UINT64_C(0x8080808080808000);
    if ((marks & 0x8000) != 0) {
        /* The next load waits for nothing. */
        uint8_t digit = tk_lowest_byte(below);
        if (digit > 9) {
            return tk_none_pair_i64_size();
        }
        return tk_some_pair_i64_size(tk_new_pair_i64_size(tk_from_parts_i64(false, tk_u128_of(digit)), 1));
    }
    bool minus = true & (tk_lowest_byte(word) == '-');
    /* The digit of a `-` is 0, and takes the borrow back. */
    uint64_t digits = tk_u64_wrapping_add(below, 3 * tk_bit(minus));
    if (tk_lowest_byte(digits) > 9) {
        return tk_none_pair_i64_size();
    }
    if (marks == 0) {
        /* With `return` of the call, clang 19 returns all lengths in memory. */
        tk_option_pair_i64_size found = tk_prefix_of_two_words_i64(minus, tk_sum_of(digits), s);
        if (!found.is_some) {
            return tk_none_pair_i64_size();
        }
        tk_pair_i64_size found_2 = found.value;
        return tk_some_pair_i64_size(found_2);
    }
    uint32_t len = tk_u64_trailing_zeros(marks) / 8;
    tk_option_i64 found = tk_number_in_range_i64(tk_u128_of(UINT64_C(9223372036854775807)), TK_MOST_IN_WORD, minus,
                                                 tk_value_by_product(digits, len));
    if (!found.is_some) {
        return tk_none_pair_i64_size();
    }
    int64_t number = found.value;
    return tk_some_pair_i64_size(tk_new_pair_i64_size(number, TK_CAST(size_t, len)));
}

/* atoi_fast/src/quick.rt:38 */
TK_INLINE tk_option_i64 tk_long_slice_i64(tk_bytes s)
{
    if (s.len < 16) {
        return tk_none_i64();
    }
    tk_option_pair_i64_size found = tk_prefix_of_words_i64(s);
    if (!found.is_some) {
        return tk_none_i64();
    }
    int64_t number = found.value.first;
    size_t len = found.value.second;
    if (len == s.len) {
        return tk_some_i64(number);
    }
    return tk_none_i64();
}

/* atoi_fast/src/short_prefix.rt:191 */
TK_INLINE tk_option_pair_u64_size tk_prefix_of_three_words_u64(bool minus, uint64_t high, uint64_t second, tk_bytes s)
{
    uint64_t high_2 = high * tk_power_of_ten(8) + tk_sum_of(tk_u64_wrapping_sub(second, TK_ZEROS));
    uint64_t third = tk_load_from(s, 16);
    uint32_t more = tk_leading_digits(third);
    /* At most 19 digits, which no limit refuses. */
    if (more > 3 + TK_CAST(uint32_t, minus)) {
        return tk_none_pair_u64_size();
    }
    uint64_t low = tk_four_by_product(tk_u64_wrapping_sub(third, TK_ZEROS), more);
    uint64_t magnitude = high_2 * tk_power_of_ten(more) + low;
    tk_option_u64 found = tk_number_in_range_u64(tk_u128_of(UINT64_C(18446744073709551615)), TK_MOST_IN_THREE_WORDS,
                                                 minus, magnitude);
    if (!found.is_some) {
        return tk_none_pair_u64_size();
    }
    uint64_t number = found.value;
    return tk_some_pair_u64_size(tk_new_pair_u64_size(number, 16 + TK_CAST(size_t, more)));
}

/* atoi_fast/src/short_prefix.rt:165 */
TK_INLINE tk_option_pair_u64_size tk_prefix_of_two_words_u64(bool minus, uint64_t high, tk_bytes s)
{
    uint64_t next = tk_load_full(tk_bytes_from(s, 8));
    uint32_t more = tk_leading_digits(next);
    if (more == 8) {
        tk_option_pair_u64_size found = tk_prefix_of_three_words_u64(minus, high, next, s);
        if (!found.is_some) {
            return tk_none_pair_u64_size();
        }
        tk_pair_u64_size found_2 = found.value;
        return tk_some_pair_u64_size(found_2);
    }
    uint64_t low = tk_value_by_product(tk_u64_wrapping_sub(next, TK_ZEROS), more);
    uint64_t magnitude = high * tk_power_of_ten(more) + low;
    tk_option_u64 found = tk_number_in_range_u64(tk_u128_of(UINT64_C(18446744073709551615)), TK_MOST_IN_TWO_WORDS,
                                                 minus, magnitude);
    if (!found.is_some) {
        return tk_none_pair_u64_size();
    }
    uint64_t number = found.value;
    return tk_some_pair_u64_size(tk_new_pair_u64_size(number, 8 + TK_CAST(size_t, more)));
}

/* atoi_fast/src/short_prefix.rt:46 */
TK_INLINE tk_option_pair_u64_size tk_prefix_of_words_u64(tk_bytes s)
{
    uint64_t word = tk_load_full(s);
    /* A `-` borrows from the next byte, so that a `0` there looks like no digit. */
    uint64_t above = tk_u64_wrapping_add(word, UINT64_C(0x4646464646464646));
    uint64_t below = tk_u64_wrapping_sub(word, TK_ZEROS);
    uint64_t marks = (above | below) & UINT64_C(0x8080808080808000);
    if ((marks & 0x8000) != 0) {
        /* The next load waits for nothing. */
        uint8_t digit = tk_lowest_byte(below);
        if (digit > 9) {
            return tk_none_pair_u64_size();
        }
        return tk_some_pair_u64_size(tk_new_pair_u64_size(tk_from_parts_u64(false, tk_u128_of(digit)), 1));
    }
    bool minus = false & (tk_lowest_byte(word) == '-');
    /* The digit of a `-` is 0, and takes the borrow back. */
    uint64_t digits = tk_u64_wrapping_add(below, 3 * tk_bit(minus));
    if (tk_lowest_byte(digits) > 9) {
        return tk_none_pair_u64_size();
    }
    if (marks == 0) {
        /* With `return` of the call, clang 19 returns all lengths in memory. */
        tk_option_pair_u64_size found = tk_prefix_of_two_words_u64(minus, tk_sum_of(digits), s);
        if (!found.is_some) {
            return tk_none_pair_u64_size();
        }
        tk_pair_u64_size found_2 = found.value;
        return tk_some_pair_u64_size(found_2);
    }
    uint32_t len = tk_u64_trailing_zeros(marks) / 8;
    tk_option_u64 found = tk_number_in_range_u64(tk_u128_of(UINT64_C(18446744073709551615)), TK_MOST_IN_WORD, minus,
                                                 tk_value_by_product(digits, len));
    if (!found.is_some) {
        return tk_none_pair_u64_size();
    }
    uint64_t number = found.value;
    return tk_some_pair_u64_size(tk_new_pair_u64_size(number, TK_CAST(size_t, len)));
}

/* atoi_fast/src/quick.rt:38 */
TK_INLINE tk_option_u64 tk_long_slice_u64(tk_bytes s)
{
    if (s.len < 16) {
        return tk_none_u64();
    }
    tk_option_pair_u64_size found = tk_prefix_of_words_u64(s);
    if (!found.is_some) {
        return tk_none_u64();
    }
    uint64_t number = found.value.first;
    size_t len = found.value.second;
    if (len == s.len) {
        return tk_some_u64(number);
    }
    return tk_none_u64();
}

/* atoi_fast/src/quick.rt:38 */
TK_HINTED tk_option_i128 tk_long_slice_i128(tk_bytes s)
{
    (void)s;
    return tk_none_i128();
}

/* atoi_fast/src/quick.rt:38 */
TK_HINTED tk_option_u128 tk_long_slice_u128(tk_bytes s)
{
    (void)s;
    return tk_none_u128();
}

/* The length is 0 for `None`. */
/* atoi_fast/src/short_prefix.rt:149 */
TK_NOINLINE tk_pair_i64_size tk_long_prefix_i64(bool minus, uint64_t high, tk_bytes s)
{
    tk_option_pair_i64_size found = tk_prefix_of_two_words_i64(minus, high, s);
    if (found.is_some) {
        tk_pair_i64_size found_2 = found.value;
        return found_2;
    }
    return tk_new_pair_i64_size(tk_from_parts_i64(false, tk_u128_of(0)), 0);
}

/* C calls this for smaller callers. */
/* atoi_fast/src/short_prefix.rt:136 */
TK_FAR tk_pair_i64_size tk_long_signed_prefix_i64(bool minus, uint64_t digits, tk_bytes s)
{
    return tk_long_prefix_i64(minus, tk_sum_of(digits), s);
}

/* atoi_fast/src/short_prefix.rt:149 */
TK_FAR tk_pair_u64_size tk_long_prefix_u64(bool minus, uint64_t high, tk_bytes s)
{
    tk_option_pair_u64_size found = tk_prefix_of_two_words_u64(minus, high, s);
    if (found.is_some) {
        tk_pair_u64_size found_2 = found.value;
        return found_2;
    }
    return tk_new_pair_u64_size(tk_from_parts_u64(false, tk_u128_of(0)), 0);
}

/* Returns the number of one digit. */
/* atoi_fast/src/short_slice.rt:13 */
TK_HINTED int8_t tk_loaded_digit_i8(tk_bytes s)
{
    return tk_from_parts_i8(false, tk_u128_of(TK_CAST(uint8_t, s.at[tk_index(0, s.len)] - '0')));
}

/* `quick_slice` for 2 to 15 bytes, which counts its load. */
/* atoi_fast/src/short_slice.rt:54 */
TK_NOINLINE tk_option_i8 tk_loaded_slice_i8(tk_bytes s)
{
    if (s.len <= 8) {
        return tk_short_slice_i8(s);
    }
    return tk_slice_of_two_words_i8(s);
}

/* A window that is not full, and so reports no zeros. */
/* atoi_core/src/engine/window.rt:26 */
TK_HINTED tk_window tk_window_not_full(uint32_t len, uint64_t number)
{
    return tk_new_window(len, 0, number);
}

/* `value_of` for zero to seven digits: it shifts twice, as no shift is by 64 bits. */
/* atoi_fast/src/digits.rt:93 */
TK_INLINE uint64_t tk_value_below_8(uint64_t word, uint32_t len)
{
    return tk_sum_of((tk_u64_wrapping_sub(word, TK_ZEROS) << (56 - 8 * len)) << 8);
}

/* `len_zeroes`, from the difference that `leading_digits` and `value_of` compute, too. */
/* atoi_fast/src/digits.rt:49 */
TK_INLINE uint32_t tk_zeroes_of(uint64_t word)
{
    return tk_u64_trailing_zeros(tk_u64_wrapping_sub(word, TK_ZEROS)) / 8;
}

/* atoi_fast/src/digits.rt:57 */
TK_INLINE uint32_t tk_zeroes_of_two(uint64_t first, uint64_t next)
{
    uint32_t zeroes = tk_zeroes_of(first);
    if (zeroes == 8) {
        return 8 + tk_zeroes_of(next);
    }
    return zeroes;
}

/* atoi_fast/src/swar.rt:208 */
TK_INLINE tk_window tk_long_window(tk_bytes s)
{
    uint64_t first = tk_load_full(s);
    uint32_t len = tk_leading_digits(first);
    /* Callers test this, too, and rustc 1.95 makes one test of both. */
    if (len == 0) {
        return tk_window_not_full(0, 0);
    }
    if (len != 8) {
        return tk_window_not_full(len, tk_value_below_8(first, len));
    }
    uint64_t next = tk_load_full(tk_bytes_from(s, 8));
    uint32_t more = tk_leading_digits(next);
    if (more != 8) {
        uint64_t high = tk_value_of(first, 8) * tk_power_of_ten(more);
        return tk_window_not_full(8 + more, high + tk_value_below_8(next, more));
    }
    return tk_new_window(16, tk_zeroes_of_two(first, next),
                         tk_value_of(first, 8) * tk_power_of_ten(8) + tk_value_of(next, 8));
}

/* Returns the window of 16 bytes, and of 8, of a slice of at most one. */
/* atoi_fast/src/one_byte.rt:10 */
TK_INLINE tk_window tk_window_of_one(tk_bytes s)
{
    if (s.len >= 1 && '0' <= s.at[0] && s.at[0] <= '9') {
        uint8_t digit = s.at[0];
        return tk_window_not_full(1, TK_CAST(uint64_t, TK_CAST(uint8_t, digit - '0')));
    }
    return tk_window_not_full(0, 0);
}

/* Returns the number that the `len` leading digits of the word spell, 0 if `len` is 0. */
/* atoi_fast/src/digits.rt:70 */
TK_INLINE uint64_t tk_value_in_word(uint64_t word, uint32_t len)
{
    if (len == 0) {
        return 0;
    }
    return tk_value_of(word, len);
}

/*
 * The window of at most 8 bytes. Fills a slice to eight bytes with zeros before it. Only the lengths 0
 * and 1, which is the most frequent, have a branch.
 */
/* atoi_fast/src/swar.rt:238 */
TK_INLINE tk_window tk_window_up_to_8(tk_bytes s)
{
    if (s.len <= 1) {
        return tk_window_of_one(s);
    }
    uint64_t flipped = tk_load_flipped(s);
    uint32_t digits = tk_leading_digits_flipped(flipped);
    if (digits == 8) {
        return tk_new_window(TK_CAST(uint32_t, s.len), 0, tk_sum_of(flipped));
    }
    return tk_new_window(digits - (8 - TK_CAST(uint32_t, s.len)), 0, tk_value_in_word(flipped ^ TK_ZEROS, digits));
}

/* The window of 9 to 15 bytes. The last eight overlap the first eight. */
/* atoi_fast/src/swar.rt:265 */
TK_INLINE tk_window tk_window_9_to_15(tk_bytes s)
{
    uint64_t first = tk_load_full(s);
    uint32_t len = tk_leading_digits(first);
    if (len != 8) {
        return tk_window_not_full(len, tk_value_below_8(first, len));
    }
    uint64_t last = tk_load_last(s);
    uint32_t more = tk_leading_digits(last);
    uint32_t size = TK_CAST(uint32_t, s.len);
    uint64_t high = tk_value_of(first, size - 8);
    if (more == 8) {
        return tk_window_not_full(size, high * tk_power_of_ten(8) + tk_value_of(last, 8));
    }
    return tk_window_not_full(size - 8 + more, high * tk_power_of_ten(more) + tk_value_of(last, more));
}

/* atoi_fast/src/swar.rt:29 */
TK_NOINLINE tk_window tk_swar_window(tk_bytes s)
{
    /* Long slices first: rustc 1.95 then puts no jump before them. */
    if (s.len >= 16) {
        return tk_long_window(s);
    }
    if (s.len <= 8) {
        return tk_window_up_to_8(s);
    }
    return tk_window_9_to_15(s);
}

/*
 * Skips zeros window by window, from a first window that reported `zeroes`. Returns the first
 * window that reports no zeros, and its offset.
 */
/* atoi_core/src/after_zeros.rt:14 */
TK_HINTED tk_pair_size_window tk_window_after_zeros_swar(uint32_t zeroes, tk_bytes s)
{
    size_t at = TK_CAST(size_t, zeroes);
    for (;;) {
        tk_window window = tk_swar_window(tk_bytes_from(s, at));
        if (window.zeroes == 0) {
            return tk_new_pair_size_window(at, window);
        }
        at += TK_CAST(size_t, window.zeroes);
    }
}

/* atoi_core/src/narrow.rt:115 */
TK_HINTED tk_result_u64 tk_narrow_within_bound(uint64_t bound, size_t len, uint64_t number, tk_bytes s)
{
    if (len == 0) {
        return tk_err_u64(tk_error_empty());
    }
    if (number > bound) {
        return tk_err_u64(tk_error_overflow(s));
    }
    return tk_ok_u64(number);
}

/*
 * The answer for all of `s`, of which `len` digits spell `number`, and `is_whole` says that these are all
 * bytes. The errors are `Empty`, `Overflow` and `Invalid64`.
 */
/* atoi_core/src/narrow.rt:98 */
TK_HINTED tk_result_u64 tk_narrow_answer(uint64_t bound, size_t len, bool is_whole, uint64_t number, tk_bytes s)
{
    if (!is_whole) {
        tk_result_u64 found = tk_narrow_within_bound(bound, len, number, s);
        if (!found.is_ok) {
            return tk_err_u64(found.error);
        }
        uint64_t number_2 = found.value;
        return tk_err_u64(tk_error_invalid64(number_2, len, s));
    }
    return tk_narrow_within_bound(bound, len, number, s);
}

/* `narrow_whole_windows`, after a first window that reported zeros. */
/* atoi_core/src/narrow.rt:78 */
TK_NOINLINE tk_result_u64 tk_narrow_whole_after_zeros(uint64_t bound, uint32_t zeroes, tk_bytes s)
{
    tk_pair_size_window found = tk_window_after_zeros_swar(zeroes, s);
    size_t at = found.first;
    tk_window last = found.second;
    size_t len = at + TK_CAST(size_t, last.len);
    return tk_narrow_answer(bound, len, len == s.len, last.number, s);
}

/*
 * Parses all of `s` as digits, and returns their value, at most `bound`. The errors are `Empty`,
 * `Overflow` and `Invalid64`.
 */
/* atoi_core/src/narrow.rt:58 */
TK_NOINLINE tk_result_u64 tk_narrow_whole_windows(uint64_t bound, tk_bytes s)
{
    tk_window window = tk_swar_window(s);
    if (window.zeroes > 0) {
        return tk_narrow_whole_after_zeros(bound, window.zeroes, s);
    }
    size_t len = TK_CAST(size_t, window.len);
    return tk_narrow_answer(bound, len, len == s.len, window.number, s);
}

/* Returns how many digits `T::MAX` has. */
/* atoi_core/src/number.rt:80 */
TK_HINTED uint32_t tk_limit_64(bool is_signed)
{
    if (is_signed) {
        return 19;
    }
    return 20;
}

/* atoi_fast/src/swar.rt:122 */
TK_NOINLINE tk_window tk_swar_without_parsers_window(tk_bytes s)
{
    return tk_swar_window(s);
}

/* atoi_core/src/after_zeros.rt:14 */
TK_HINTED tk_pair_size_window tk_window_after_zeros_swar_without_parsers(uint32_t zeroes, tk_bytes s)
{
    size_t at = TK_CAST(size_t, zeroes);
    for (;;) {
        tk_window window = tk_swar_without_parsers_window(tk_bytes_from(s, at));
        if (window.zeroes == 0) {
            return tk_new_pair_size_window(at, window);
        }
        at += TK_CAST(size_t, window.zeroes);
    }
}

/* atoi_fast/src/swar.rt:42 */
TK_INLINE tk_window tk_swar_window_8(tk_bytes s)
{
    if (s.len < 8) {
        return tk_window_up_to_8(s);
    }
    uint64_t word = tk_load_full(s);
    uint32_t len = tk_leading_digits(word);
    if (len != 8) {
        return tk_window_not_full(len, tk_value_below_8(word, len));
    }
    return tk_new_window(len, tk_zeroes_of(word), tk_value_of(word, len));
}

/*
 * Returns the number of a row of digits that spells `high`, followed by at most 16 more `digits`
 * that spell `low`.
 */
/* atoi_core/src/powers.rt:37 */
TK_HINTED tk_u128 tk_append_digits(uint64_t high, uint32_t digits, uint64_t low)
{
    return tk_u128_add(tk_u128_mul(tk_u128_of(high), tk_u128_of(tk_power_of_ten(digits))), tk_u128_of(low));
}

/*
 * Returns the answer of `prefix_64` for `s`, which starts with `skipped` zeros and then
 * `significant` digits that spell `number`. The errors are `Empty`, `Size` and `Overflow`.
 */
/* atoi_core/src/wide_answer.rt:25 */
TK_HINTED tk_result_pair_u64_size tk_answer_64(uint64_t bound, uint32_t limit, size_t skipped, uint32_t significant,
                                               tk_u128 number, tk_bytes s)
{
    size_t len = skipped + TK_CAST(size_t, significant);
    tk_bytes body = tk_bytes_from(s, skipped);
    if (len == 0) {
        return tk_err_pair_u64_size(tk_error_empty());
    }
    if (significant > limit) {
        return tk_err_pair_u64_size(tk_error_size(skipped + TK_CAST(size_t, tk_u32_min(significant, 24)), body));
    }
    if (tk_u128_less(tk_u128_of(bound), number)) {
        return tk_err_pair_u64_size(tk_error_overflow(body));
    }
    return tk_ok_pair_u64_size(tk_new_pair_u64_size(tk_u128_low(number), len));
}

/* `prefix_64` with `skip`, after a first window that reported zeros. */
/* atoi_fast/src/swar.rt:135 */
TK_NOINLINE tk_result_pair_u64_size tk_prefix_64_after_zeros(uint64_t bound, uint32_t limit, uint32_t zeroes,
                                                             tk_bytes s)
{
    tk_pair_size_window found = tk_window_after_zeros_swar_without_parsers(zeroes, s);
    size_t at = found.first;
    tk_window first = found.second;
    if (first.len < 16) {
        return tk_ok_pair_u64_size(tk_new_pair_u64_size(first.number, at + TK_CAST(size_t, first.len)));
    }
    tk_window second = tk_swar_window_8(tk_bytes_from(s, at + 16));
    tk_u128 number = tk_append_digits(first.number, second.len, second.number);
    return tk_answer_64(bound, limit, at, 16 + second.len, number, s);
}

/* Returns `number`, which has `len` digits, with `len`. The error is `Empty` if `len` is 0. */
/* atoi_core/src/wide_answer.rt:12 */
TK_HINTED tk_result_pair_u64_size tk_found_or_empty_u64(uint64_t number, size_t len)
{
    if (len == 0) {
        return tk_err_pair_u64_size(tk_error_empty());
    }
    return tk_ok_pair_u64_size(tk_new_pair_u64_size(number, len));
}

/* `leading_digits` for a word of four bytes. */
/* atoi_fast/src/digits.rt:168 */
TK_INLINE uint32_t tk_leading_digits_of_four(uint32_t word)
{
    uint32_t above = tk_u32_wrapping_add(word, 0x46464646);
    uint32_t below = tk_u32_wrapping_sub(word, TK_FOUR_ZEROS);
    uint32_t marks = (above | below) & 0x80808080u;
    if (marks == 0) {
        return 4;
    }
    return tk_u32_trailing_zeros(marks) / 8;
}

/* `sum_of` for four bytes. */
/* atoi_fast/src/digits.rt:104 */
TK_INLINE uint32_t tk_sum_of_four(uint32_t digits)
{
    uint32_t tens = (tk_u32_wrapping_mul(digits, 0xA01) >> 8) & 0x00FF00FF;
    return tk_u32_wrapping_mul(tens, 0x640001) >> 16;
}

/* Returns the number that a word of four digits spells after its first `skipped` bytes. */
/* atoi_fast/src/digits.rt:202 */
TK_INLINE uint32_t tk_value_after(uint32_t word, size_t skipped)
{
    size_t bits = 8 * skipped;
    return tk_sum_of_four((tk_u32_wrapping_sub(word, TK_FOUR_ZEROS) >> bits) << bits);
}

/* Returns the number that the bytes after the first 16 spell, if the last four are digits. */
/* atoi_fast/src/after_16.rt:71 */
TK_INLINE tk_option_u32 tk_last_four(tk_bytes s)
{
    uint32_t word = tk_load_last_four(s);
    if (tk_leading_digits_of_four(word) < 4) {
        return tk_none_u32();
    }
    /* Some of these four may be among the first 16. */
    return tk_some_u32(tk_value_after(word, 20 - s.len));
}

/* atoi_fast/src/after_16.rt:87 */
TK_INLINE tk_result_pair_u64_size tk_after_16_within_bound(tk_u128 bound, size_t len, tk_u128 number, tk_bytes s)
{
    if (tk_u128_less(bound, number)) {
        return tk_err_pair_u64_size(tk_error_overflow(s));
    }
    return tk_ok_pair_u64_size(tk_new_pair_u64_size(tk_u128_low(number), len));
}

/* atoi_fast/src/digits.rt:183 */
TK_INLINE bool tk_starts_with_digit_of_four(uint32_t word)
{
    return tk_u8_is_digit(TK_CAST(uint8_t, word & 0xFF));
}

/* `value_of` for a word of four bytes. */
/* atoi_fast/src/digits.rt:191 */
TK_INLINE uint32_t tk_value_up_to_4(uint32_t word, uint32_t len)
{
    return tk_sum_of_four(tk_u32_wrapping_sub(word, TK_FOUR_ZEROS) << (32 - 8 * len));
}

/* atoi_fast/src/after_16.rt:137 */
TK_INLINE bool tk_starts_with_digit(tk_bytes s)
{
    return s.len >= 1 && '0' <= s.at[0] && s.at[0] <= '9';
}

/* `answer_after_16`, from the four bytes after 16. */
/* atoi_fast/src/after_16.rt:106 */
TK_INLINE tk_result_pair_u64_size tk_answer_by_word(tk_u128 bound, uint32_t limit, uint64_t high, tk_bytes s)
{
    uint32_t word = tk_load_four_from(s, 16);
    if (!tk_starts_with_digit_of_four(word)) {
        return tk_ok_pair_u64_size(tk_new_pair_u64_size(high, 16));
    }
    uint32_t more = tk_leading_digits_of_four(word);
    if (more == 4) {
        tk_u128 number = tk_append_digits(high, 4, TK_CAST(uint64_t, tk_value_up_to_4(word, 4)));
        if (limit < 20 || tk_starts_with_digit(tk_bytes_from(s, 20))) {
            uint32_t more_2 = tk_leading_digits(tk_load_from(s, 16));
            return tk_err_pair_u64_size(tk_error_size(16 + TK_CAST(size_t, more_2), s));
        }
        return tk_after_16_within_bound(bound, 20, number, s);
    }
    /* At most 19 digits fit in 64 bits. */
    uint64_t number = high * tk_power_of_ten(more) + TK_CAST(uint64_t, tk_value_up_to_4(word, more));
    return tk_answer_64(tk_u128_low(bound), limit, 0, 16 + more, tk_u128_of(number), s);
}

/* `answer_after_16` for a slice of at most `limit` bytes, which are mostly digits. */
/* atoi_fast/src/after_16.rt:45 */
TK_INLINE tk_result_pair_u64_size tk_answer_near_end(tk_u128 bound, uint32_t limit, uint64_t high, tk_bytes s)
{
    if (s.len == 16) {
        return tk_ok_pair_u64_size(tk_new_pair_u64_size(high, 16));
    }
    tk_option_u32 found = tk_last_four(s);
    if (found.is_some) {
        uint32_t low = found.value;
        tk_u128 number = tk_append_digits(high, TK_CAST(uint32_t, s.len) - 16, TK_CAST(uint64_t, low));
        return tk_after_16_within_bound(bound, s.len, number, s);
    }
    return tk_answer_by_word(bound, limit, high, s);
}

/*
 * Returns the answer of `prefix_64` that skips no zeros, after 16 digits, which spell `high`. The
 * errors are `Size` and `Overflow`.
 */
/* atoi_fast/src/after_16.rt:19 */
TK_INLINE tk_result_pair_u64_size tk_answer_after_16(uint64_t bound, uint32_t limit, uint64_t high, tk_bytes s)
{
    /* Used once, so that rustc 1.95 chooses the bound by the sign only here. */
    tk_u128 bound_2 = tk_u128_of(bound);
    if (s.len <= TK_CAST(size_t, limit)) {
        return tk_answer_near_end(bound_2, limit, high, s);
    }
    return tk_answer_by_word(bound_2, limit, high, s);
}

/* Enters a loop only if there are zeros to skip. */
/* atoi_fast/src/swar.rt:61 */
TK_NOINLINE tk_result_pair_u64_size tk_swar_prefix_64(uint64_t bound, uint32_t limit, bool skip, tk_bytes s)
{
    if (s.len >= 16) {
        tk_window first = tk_swar_window(s);
        if (skip && first.zeroes > 0) {
            return tk_prefix_64_after_zeros(bound, limit, first.zeroes, s);
        }
        if (first.len < 16) {
            return tk_found_or_empty_u64(first.number, TK_CAST(size_t, first.len));
        }
        return tk_answer_after_16(bound, limit, first.number, s);
    }
    tk_window only = tk_swar_window(s);
    return tk_found_or_empty_u64(only.number, TK_CAST(size_t, only.len));
}

/*
 * Like `Engine::prefix_64`, but parses all of `s`. The errors are `Empty`, `Size`, `Overflow` and
 * `Invalid64`.
 */
/* atoi_core/src/wide.rt:15 */
TK_NOINLINE tk_result_u64 tk_whole_64(uint64_t bound, uint32_t limit, bool skip, tk_bytes s)
{
    tk_result_pair_u64_size found = tk_swar_prefix_64(bound, limit, skip, s);
    if (!found.is_ok) {
        return tk_err_u64(found.error);
    }
    uint64_t number = found.value.first;
    size_t len = found.value.second;
    if (len == s.len) {
        return tk_ok_u64(number);
    }
    return tk_err_u64(tk_error_invalid64(number, len, s));
}

/* atoi_core/src/wide_answer.rt:12 */
TK_HINTED tk_result_pair_u128_size tk_found_or_empty_u128(tk_u128 number, size_t len)
{
    if (len == 0) {
        return tk_err_pair_u128_size(tk_error_empty());
    }
    return tk_ok_pair_u128_size(tk_new_pair_u128_size(number, len));
}

/* atoi_core/src/wide_answer.rt:83 */
TK_HINTED tk_option_u128 tk_wide_answer_within_bound(tk_u128 bound, tk_u128 high, tk_u128 power, uint64_t low)
{
    if (!tk_u128_product_fits(high, power)) {
        return tk_none_u128();
    }
    tk_u128 left = tk_u128_mul(high, power);
    tk_u128 right = tk_u128_of(low);
    if (!tk_u128_sum_fits(left, right)) {
        return tk_none_u128();
    }
    tk_u128 number = tk_u128_add(left, right);
    if (tk_u128_less(bound, number)) {
        return tk_none_u128();
    }
    return tk_some_u128(number);
}

/*
 * Returns the answer of `prefix_128` for `s`, which starts with `skipped` zeros, then 32 digits
 * that spell `high`, and then `more` digits that spell `low`. The errors are `Size` and
 * `Overflow`.
 */
/* atoi_core/src/wide_answer.rt:53 */
TK_HINTED tk_result_pair_u128_size tk_answer_128(tk_u128 bound, size_t skipped, tk_u128 high, uint32_t more,
                                                 uint64_t low, tk_bytes s)
{
    size_t len = skipped + 32 + TK_CAST(size_t, more);
    if (more == 8) {
        return tk_err_pair_u128_size(tk_error_size(len, tk_bytes_from(s, skipped)));
    }
    tk_u128 power = tk_u128_of(tk_power_of_ten(more));
    if (more < 7) {
        /* Fewer than 39 digits are never above a bound of 39. */
        return tk_ok_pair_u128_size(tk_new_pair_u128_size(tk_u128_add(tk_u128_mul(high, power), tk_u128_of(low)), len));
    }
    tk_option_u128 found = tk_wide_answer_within_bound(bound, high, power, low);
    if (found.is_some) {
        tk_u128 number = found.value;
        return tk_ok_pair_u128_size(tk_new_pair_u128_size(number, len));
    }
    return tk_err_pair_u128_size(tk_error_overflow(tk_bytes_from(s, skipped)));
}

/* The answer of `prefix_128` after `skipped` zeros and 32 digits, which spell `high`. */
/* atoi_fast/src/swar.rt:187 */
TK_NOINLINE tk_result_pair_u128_size tk_answer_after_32(tk_u128 bound, size_t skipped, tk_u128 high, tk_bytes s)
{
    tk_window third = tk_swar_window_8(tk_bytes_from(s, skipped + 32));
    return tk_answer_128(bound, skipped, high, third.len, third.number, s);
}

/* atoi_fast/src/swar.rt:160 */
TK_NOINLINE tk_result_pair_u128_size tk_prefix_128_after_zeros(tk_u128 bound, uint32_t zeroes, tk_bytes s)
{
    tk_pair_size_window found = tk_window_after_zeros_swar_without_parsers(zeroes, s);
    size_t at = found.first;
    tk_window first = found.second;
    if (first.len < 16) {
        return tk_ok_pair_u128_size(tk_new_pair_u128_size(tk_u128_of(first.number), at + TK_CAST(size_t, first.len)));
    }
    tk_window second = tk_swar_window(tk_bytes_from(s, at + 16));
    tk_u128 number = tk_append_digits(first.number, second.len, second.number);
    if (second.len < 16) {
        return tk_ok_pair_u128_size(tk_new_pair_u128_size(number, at + 16 + TK_CAST(size_t, second.len)));
    }
    return tk_answer_after_32(bound, at, number, s);
}

/* atoi_fast/src/swar.rt:83 */
TK_NOINLINE tk_result_pair_u128_size tk_swar_prefix_128(tk_u128 bound, bool skip, tk_bytes s)
{
    if (s.len < 16) {
        tk_window only = tk_swar_window(s);
        return tk_found_or_empty_u128(tk_u128_of(only.number), TK_CAST(size_t, only.len));
    }
    tk_window first = tk_swar_window(s);
    if (first.len < 16) {
        return tk_found_or_empty_u128(tk_u128_of(first.number), TK_CAST(size_t, first.len));
    }
    if (skip && first.zeroes > 0) {
        return tk_prefix_128_after_zeros(bound, first.zeroes, s);
    }
    if (s.len == 16) {
        return tk_ok_pair_u128_size(tk_new_pair_u128_size(tk_u128_of(first.number), 16));
    }
    tk_window second = tk_swar_window(tk_bytes_from(s, 16));
    if (second.len < 16) {
        tk_u128 number = tk_append_digits(first.number, second.len, second.number);
        return tk_ok_pair_u128_size(tk_new_pair_u128_size(number, 16 + TK_CAST(size_t, second.len)));
    }
    tk_u128 high = tk_append_digits(first.number, 16, second.number);
    return tk_answer_after_32(bound, 0, high, s);
}

/*
 * Like `Engine::prefix_128`, but parses all of `s`. The errors are `Empty`, `Size`, `Overflow` and
 * `Invalid128`.
 */
/* atoi_core/src/wide.rt:38 */
TK_NOINLINE tk_result_u128 tk_whole_128(tk_u128 bound, bool skip, tk_bytes s)
{
    tk_result_pair_u128_size found = tk_swar_prefix_128(bound, skip, s);
    if (!found.is_ok) {
        return tk_err_u128(found.error);
    }
    tk_u128 number = found.value.first;
    size_t len = found.value.second;
    if (len == s.len) {
        return tk_ok_u128(number);
    }
    return tk_err_u128(tk_error_invalid128(number, len, s));
}

/*
 * Returns the magnitude that `whole_pos` returns, or with `minus` that `whole_neg` negates, by the parser
 * for the type's size. The errors are the same.
 */
/* atoi_core/src/calls.rt:154 */
TK_HINTED tk_result_u128 tk_whole_by_size(uint32_t bits, bool is_signed, tk_u128 greatest, bool minus, bool skip,
                                          tk_bytes s)
{
    tk_u128 bound = tk_greatest_magnitude(greatest, minus);
    if (bits <= 32) {
        tk_result_u64 found = tk_narrow_whole_windows(tk_u128_low(bound), s);
        if (!found.is_ok) {
            return tk_err_u128(found.error);
        }
        uint64_t number = found.value;
        return tk_ok_u128(tk_u128_of(number));
    }
    if (bits == 64) {
        tk_result_u64 found = tk_whole_64(tk_u128_low(bound), tk_limit_64(is_signed), skip, s);
        if (!found.is_ok) {
            return tk_err_u128(found.error);
        }
        uint64_t number = found.value;
        return tk_ok_u128(tk_u128_of(number));
    }
    return tk_whole_128(bound, skip, s);
}

/*
 * Like `whole_neg` if `minus` is set, otherwise like `whole_pos`: a type that may be unsigned has no
 * `whole_neg`.
 */
/* atoi_core/src/calls.rt:136 */
TK_HINTED tk_result_i8 tk_whole_with_sign_i8(bool minus, bool skip, tk_bytes s)
{
    tk_result_u128 found = tk_whole_by_size(8, true, tk_u128_of(127), minus, skip, s);
    if (!found.is_ok) {
        return tk_err_i8(found.error);
    }
    tk_u128 magnitude = found.value;
    return tk_ok_i8(tk_from_parts_i8(minus, magnitude));
}

/*
 * Parses all of `s` as at most one sign and digits. Returns the errors of `whole_pos` for the
 * body, or of `whole_neg` after a `-`.
 */
/* atoi_core/src/calls.rt:21 */
TK_HINTED tk_result_i8 tk_atoi_core_parse_text_i8(bool skip, bool skip_plus, tk_bytes s)
{
    tk_pair_bool_bytes found = tk_take_sign(true, skip_plus, s);
    bool minus = found.first;
    tk_bytes body = found.second;
    return tk_whole_with_sign_i8(minus, skip, body);
}

/* `atoi_core::parse_text`, with at most one load more. */
/* atoi_fast/src/called.rt:17 */
TK_HINTED tk_result_i8 tk_called_parse_text_i8(bool skip, bool skip_plus, tk_bytes s)
{
    if (s.len == 1 && '0' <= s.at[0] && s.at[0] <= '9') {
        return tk_ok_i8(tk_loaded_digit_i8(s));
    }
    if (2 <= s.len && s.len <= 15) {
        tk_option_i8 found = tk_loaded_slice_i8(s);
        if (found.is_some) {
            int8_t number = found.value;
            return tk_ok_i8(number);
        }
    }
    return tk_atoi_core_parse_text_i8(skip, skip_plus, s);
}

/* atoi_simd/src/parse_trait.rt:61 */
TK_HINTED tk_result_i8 tk_atoi_simd_parse_i8(tk_bytes s, bool skip, bool skip_plus)
{
    return tk_called_parse_text_i8(skip, skip_plus, s);
}

/* atoi_fast/src/short_slice.rt:13 */
TK_HINTED uint8_t tk_loaded_digit_u8(tk_bytes s)
{
    return tk_from_parts_u8(false, tk_u128_of(TK_CAST(uint8_t, s.at[tk_index(0, s.len)] - '0')));
}

/* atoi_fast/src/short_slice.rt:54 */
TK_NOINLINE tk_option_u8 tk_loaded_slice_u8(tk_bytes s)
{
    if (s.len <= 8) {
        return tk_short_slice_u8(s);
    }
    return tk_slice_of_two_words_u8(s);
}

/* atoi_core/src/calls.rt:136 */
TK_HINTED tk_result_u8 tk_whole_with_sign_u8(bool minus, bool skip, tk_bytes s)
{
    tk_result_u128 found = tk_whole_by_size(8, false, tk_u128_of(255), minus, skip, s);
    if (!found.is_ok) {
        return tk_err_u8(found.error);
    }
    tk_u128 magnitude = found.value;
    return tk_ok_u8(tk_from_parts_u8(minus, magnitude));
}

/* atoi_core/src/calls.rt:21 */
TK_HINTED tk_result_u8 tk_atoi_core_parse_text_u8(bool skip, bool skip_plus, tk_bytes s)
{
    tk_pair_bool_bytes found = tk_take_sign(false, skip_plus, s);
    bool minus = found.first;
    tk_bytes body = found.second;
    return tk_whole_with_sign_u8(minus, skip, body);
}

/* atoi_fast/src/called.rt:17 */
TK_HINTED tk_result_u8 tk_called_parse_text_u8(bool skip, bool skip_plus, tk_bytes s)
{
    if (s.len == 1 && '0' <= s.at[0] && s.at[0] <= '9') {
        return tk_ok_u8(tk_loaded_digit_u8(s));
    }
    if (2 <= s.len && s.len <= 15) {
        tk_option_u8 found = tk_loaded_slice_u8(s);
        if (found.is_some) {
            uint8_t number = found.value;
            return tk_ok_u8(number);
        }
    }
    return tk_atoi_core_parse_text_u8(skip, skip_plus, s);
}

/* atoi_simd/src/parse_trait.rt:49 */
TK_HINTED tk_result_u8 tk_atoi_simd_parse_u8(tk_bytes s, bool skip, bool skip_plus)
{
    return tk_called_parse_text_u8(skip, skip_plus, s);
}

/* atoi_fast/src/short_slice.rt:13 */
TK_HINTED int16_t tk_loaded_digit_i16(tk_bytes s)
{
    return tk_from_parts_i16(false, tk_u128_of(TK_CAST(uint8_t, s.at[tk_index(0, s.len)] - '0')));
}

/* atoi_fast/src/short_slice.rt:54 */
TK_NOINLINE tk_option_i16 tk_loaded_slice_i16(tk_bytes s)
{
    if (s.len <= 8) {
        return tk_short_slice_i16(s);
    }
    return tk_slice_of_two_words_i16(s);
}

/* atoi_core/src/calls.rt:136 */
TK_HINTED tk_result_i16 tk_whole_with_sign_i16(bool minus, bool skip, tk_bytes s)
{
    tk_result_u128 found = tk_whole_by_size(16, true, tk_u128_of(32767), minus, skip, s);
    if (!found.is_ok) {
        return tk_err_i16(found.error);
    }
    tk_u128 magnitude = found.value;
    return tk_ok_i16(tk_from_parts_i16(minus, magnitude));
}

/* atoi_core/src/calls.rt:21 */
TK_HINTED tk_result_i16 tk_atoi_core_parse_text_i16(bool skip, bool skip_plus, tk_bytes s)
{
    tk_pair_bool_bytes found = tk_take_sign(true, skip_plus, s);
    bool minus = found.first;
    tk_bytes body = found.second;
    return tk_whole_with_sign_i16(minus, skip, body);
}

/* atoi_fast/src/called.rt:17 */
TK_HINTED tk_result_i16 tk_called_parse_text_i16(bool skip, bool skip_plus, tk_bytes s)
{
    if (s.len == 1 && '0' <= s.at[0] && s.at[0] <= '9') {
        return tk_ok_i16(tk_loaded_digit_i16(s));
    }
    if (2 <= s.len && s.len <= 15) {
        tk_option_i16 found = tk_loaded_slice_i16(s);
        if (found.is_some) {
            int16_t number = found.value;
            return tk_ok_i16(number);
        }
    }
    return tk_atoi_core_parse_text_i16(skip, skip_plus, s);
}

/* atoi_simd/src/parse_trait.rt:85 */
TK_HINTED tk_result_i16 tk_atoi_simd_parse_i16(tk_bytes s, bool skip, bool skip_plus)
{
    return tk_called_parse_text_i16(skip, skip_plus, s);
}

/* atoi_fast/src/short_slice.rt:13 */
TK_HINTED uint16_t tk_loaded_digit_u16(tk_bytes s)
{
    return tk_from_parts_u16(false, tk_u128_of(TK_CAST(uint8_t, s.at[tk_index(0, s.len)] - '0')));
}

/* atoi_fast/src/short_slice.rt:54 */
TK_NOINLINE tk_option_u16 tk_loaded_slice_u16(tk_bytes s)
{
    if (s.len <= 8) {
        return tk_short_slice_u16(s);
    }
    return tk_slice_of_two_words_u16(s);
}

/* atoi_core/src/calls.rt:136 */
TK_HINTED tk_result_u16 tk_whole_with_sign_u16(bool minus, bool skip, tk_bytes s)
{
    tk_result_u128 found = tk_whole_by_size(16, false, tk_u128_of(65535), minus, skip, s);
    if (!found.is_ok) {
        return tk_err_u16(found.error);
    }
    tk_u128 magnitude = found.value;
    return tk_ok_u16(tk_from_parts_u16(minus, magnitude));
}

/* atoi_core/src/calls.rt:21 */
TK_HINTED tk_result_u16 tk_atoi_core_parse_text_u16(bool skip, bool skip_plus, tk_bytes s)
{
    tk_pair_bool_bytes found = tk_take_sign(false, skip_plus, s);
    bool minus = found.first;
    tk_bytes body = found.second;
    return tk_whole_with_sign_u16(minus, skip, body);
}

/* atoi_fast/src/called.rt:17 */
TK_HINTED tk_result_u16 tk_called_parse_text_u16(bool skip, bool skip_plus, tk_bytes s)
{
    if (s.len == 1 && '0' <= s.at[0] && s.at[0] <= '9') {
        return tk_ok_u16(tk_loaded_digit_u16(s));
    }
    if (2 <= s.len && s.len <= 15) {
        tk_option_u16 found = tk_loaded_slice_u16(s);
        if (found.is_some) {
            uint16_t number = found.value;
            return tk_ok_u16(number);
        }
    }
    return tk_atoi_core_parse_text_u16(skip, skip_plus, s);
}

/* atoi_simd/src/parse_trait.rt:73 */
TK_HINTED tk_result_u16 tk_atoi_simd_parse_u16(tk_bytes s, bool skip, bool skip_plus)
{
    return tk_called_parse_text_u16(skip, skip_plus, s);
}

/* atoi_fast/src/short_slice.rt:13 */
TK_INLINE int32_t tk_loaded_digit_i32(tk_bytes s)
{
    return tk_from_parts_i32(false, tk_u128_of(TK_CAST(uint8_t, s.at[tk_index(0, s.len)] - '0')));
}

/* atoi_fast/src/short_slice.rt:54 */
TK_NOINLINE tk_option_i32 tk_loaded_slice_i32(tk_bytes s)
{
    if (s.len <= 8) {
        return tk_short_slice_i32(s);
    }
    return tk_slice_of_two_words_i32(s);
}

/* atoi_core/src/calls.rt:136 */
TK_HINTED tk_result_i32 tk_whole_with_sign_i32(bool minus, bool skip, tk_bytes s)
{
    tk_result_u128 found = tk_whole_by_size(32, true, tk_u128_of(2147483647), minus, skip, s);
    if (!found.is_ok) {
        return tk_err_i32(found.error);
    }
    tk_u128 magnitude = found.value;
    return tk_ok_i32(tk_from_parts_i32(minus, magnitude));
}

/* atoi_core/src/calls.rt:21 */
TK_HINTED tk_result_i32 tk_atoi_core_parse_text_i32(bool skip, bool skip_plus, tk_bytes s)
{
    tk_pair_bool_bytes found = tk_take_sign(true, skip_plus, s);
    bool minus = found.first;
    tk_bytes body = found.second;
    return tk_whole_with_sign_i32(minus, skip, body);
}

/* atoi_fast/src/called.rt:17 */
TK_INLINE tk_result_i32 tk_called_parse_text_i32(bool skip, bool skip_plus, tk_bytes s)
{
    if (s.len == 1 && '0' <= s.at[0] && s.at[0] <= '9') {
        return tk_ok_i32(tk_loaded_digit_i32(s));
    }
    if (2 <= s.len && s.len <= 15) {
        tk_option_i32 found = tk_loaded_slice_i32(s);
        if (found.is_some) {
            int32_t number = found.value;
            return tk_ok_i32(number);
        }
    }
    return tk_atoi_core_parse_text_i32(skip, skip_plus, s);
}

/* atoi_simd/src/parse_trait.rt:109 */
TK_HINTED tk_result_i32 tk_atoi_simd_parse_i32(tk_bytes s, bool skip, bool skip_plus)
{
    return tk_called_parse_text_i32(skip, skip_plus, s);
}

/* atoi_fast/src/short_slice.rt:13 */
TK_INLINE uint32_t tk_loaded_digit_u32(tk_bytes s)
{
    return tk_from_parts_u32(false, tk_u128_of(TK_CAST(uint8_t, s.at[tk_index(0, s.len)] - '0')));
}

/* atoi_fast/src/short_slice.rt:54 */
TK_NOINLINE tk_option_u32 tk_loaded_slice_u32(tk_bytes s)
{
    if (s.len <= 8) {
        return tk_short_slice_u32(s);
    }
    return tk_slice_of_two_words_u32(s);
}

/* atoi_core/src/calls.rt:136 */
TK_HINTED tk_result_u32 tk_whole_with_sign_u32(bool minus, bool skip, tk_bytes s)
{
    tk_result_u128 found = tk_whole_by_size(32, false, tk_u128_of(UINT64_C(4294967295)), minus, skip, s);
    if (!found.is_ok) {
        return tk_err_u32(found.error);
    }
    tk_u128 magnitude = found.value;
    return tk_ok_u32(tk_from_parts_u32(minus, magnitude));
}

/* atoi_core/src/calls.rt:21 */
TK_HINTED tk_result_u32 tk_atoi_core_parse_text_u32(bool skip, bool skip_plus, tk_bytes s)
{
    tk_pair_bool_bytes found = tk_take_sign(false, skip_plus, s);
    bool minus = found.first;
    tk_bytes body = found.second;
    return tk_whole_with_sign_u32(minus, skip, body);
}

/* atoi_fast/src/called.rt:17 */
TK_INLINE tk_result_u32 tk_called_parse_text_u32(bool skip, bool skip_plus, tk_bytes s)
{
    if (s.len == 1 && '0' <= s.at[0] && s.at[0] <= '9') {
        return tk_ok_u32(tk_loaded_digit_u32(s));
    }
    if (2 <= s.len && s.len <= 15) {
        tk_option_u32 found = tk_loaded_slice_u32(s);
        if (found.is_some) {
            uint32_t number = found.value;
            return tk_ok_u32(number);
        }
    }
    return tk_atoi_core_parse_text_u32(skip, skip_plus, s);
}

/* atoi_simd/src/parse_trait.rt:97 */
TK_HINTED tk_result_u32 tk_atoi_simd_parse_u32(tk_bytes s, bool skip, bool skip_plus)
{
    return tk_called_parse_text_u32(skip, skip_plus, s);
}

/* atoi_fast/src/short_slice.rt:13 */
TK_INLINE int64_t tk_loaded_digit_i64(tk_bytes s)
{
    return tk_from_parts_i64(false, tk_u128_of(TK_CAST(uint8_t, s.at[tk_index(0, s.len)] - '0')));
}

/* atoi_fast/src/short_slice.rt:54 */
TK_NOINLINE tk_option_i64 tk_loaded_slice_i64(tk_bytes s)
{
    if (s.len <= 8) {
        return tk_short_slice_i64(s);
    }
    return tk_slice_of_two_words_i64(s);
}

/* atoi_core/src/calls.rt:136 */
TK_HINTED tk_result_i64 tk_whole_with_sign_i64(bool minus, bool skip, tk_bytes s)
{
    tk_result_u128 found = tk_whole_by_size(64, true, tk_u128_of(UINT64_C(9223372036854775807)), minus, skip, s);
    if (!found.is_ok) {
        return tk_err_i64(found.error);
    }
    tk_u128 magnitude = found.value;
    return tk_ok_i64(tk_from_parts_i64(minus, magnitude));
}

/* atoi_core/src/calls.rt:21 */
TK_HINTED tk_result_i64 tk_atoi_core_parse_text_i64(bool skip, bool skip_plus, tk_bytes s)
{
    tk_pair_bool_bytes found = tk_take_sign(true, skip_plus, s);
    bool minus = found.first;
    tk_bytes body = found.second;
    return tk_whole_with_sign_i64(minus, skip, body);
}

/* atoi_fast/src/called.rt:17 */
TK_INLINE tk_result_i64 tk_called_parse_text_i64(bool skip, bool skip_plus, tk_bytes s)
{
    if (s.len == 1 && '0' <= s.at[0] && s.at[0] <= '9') {
        return tk_ok_i64(tk_loaded_digit_i64(s));
    }
    if (2 <= s.len && s.len <= 15) {
        tk_option_i64 found = tk_loaded_slice_i64(s);
        if (found.is_some) {
            int64_t number = found.value;
            return tk_ok_i64(number);
        }
    }
    return tk_atoi_core_parse_text_i64(skip, skip_plus, s);
}

/* atoi_simd/src/parse_trait.rt:157 */
TK_HINTED tk_result_i64 tk_atoi_simd_parse_i64(tk_bytes s, bool skip, bool skip_plus)
{
    return tk_called_parse_text_i64(skip, skip_plus, s);
}

/* atoi_fast/src/short_slice.rt:13 */
TK_INLINE uint64_t tk_loaded_digit_u64(tk_bytes s)
{
    return tk_from_parts_u64(false, tk_u128_of(TK_CAST(uint8_t, s.at[tk_index(0, s.len)] - '0')));
}

/* atoi_fast/src/short_slice.rt:54 */
TK_NOINLINE tk_option_u64 tk_loaded_slice_u64(tk_bytes s)
{
    if (s.len <= 8) {
        return tk_short_slice_u64(s);
    }
    return tk_slice_of_two_words_u64(s);
}

/* atoi_core/src/calls.rt:136 */
TK_HINTED tk_result_u64 tk_whole_with_sign_u64(bool minus, bool skip, tk_bytes s)
{
    tk_result_u128 found = tk_whole_by_size(64, false, tk_u128_of(UINT64_C(18446744073709551615)), minus, skip, s);
    if (!found.is_ok) {
        return tk_err_u64(found.error);
    }
    tk_u128 magnitude = found.value;
    return tk_ok_u64(tk_from_parts_u64(minus, magnitude));
}

/* atoi_core/src/calls.rt:21 */
TK_HINTED tk_result_u64 tk_atoi_core_parse_text_u64(bool skip, bool skip_plus, tk_bytes s)
{
    tk_pair_bool_bytes found = tk_take_sign(false, skip_plus, s);
    bool minus = found.first;
    tk_bytes body = found.second;
    return tk_whole_with_sign_u64(minus, skip, body);
}

/* atoi_fast/src/called.rt:17 */
TK_INLINE tk_result_u64 tk_called_parse_text_u64(bool skip, bool skip_plus, tk_bytes s)
{
    if (s.len == 1 && '0' <= s.at[0] && s.at[0] <= '9') {
        return tk_ok_u64(tk_loaded_digit_u64(s));
    }
    if (2 <= s.len && s.len <= 15) {
        tk_option_u64 found = tk_loaded_slice_u64(s);
        if (found.is_some) {
            uint64_t number = found.value;
            return tk_ok_u64(number);
        }
    }
    return tk_atoi_core_parse_text_u64(skip, skip_plus, s);
}

/* atoi_simd/src/parse_trait.rt:145 */
TK_HINTED tk_result_u64 tk_atoi_simd_parse_u64(tk_bytes s, bool skip, bool skip_plus)
{
    return tk_called_parse_text_u64(skip, skip_plus, s);
}

/* atoi_fast/src/short_slice.rt:13 */
TK_HINTED tk_i128 tk_loaded_digit_i128(tk_bytes s)
{
    return tk_from_parts_i128(false, tk_u128_of(TK_CAST(uint8_t, s.at[tk_index(0, s.len)] - '0')));
}

/* atoi_fast/src/short_slice.rt:54 */
TK_NOINLINE tk_option_i128 tk_loaded_slice_i128(tk_bytes s)
{
    if (s.len <= 8) {
        return tk_short_slice_i128(s);
    }
    return tk_slice_of_two_words_i128(s);
}

/* atoi_core/src/calls.rt:136 */
TK_HINTED tk_result_i128 tk_whole_with_sign_i128(bool minus, bool skip, tk_bytes s)
{
    tk_result_u128 found = tk_whole_by_size(128, true,
                                            tk_u128_make(UINT64_C(9223372036854775807), UINT64_C(18446744073709551615)),
                                                minus, skip, s);
    if (!found.is_ok) {
        return tk_err_i128(found.error);
    }
    tk_u128 magnitude = found.value;
    return tk_ok_i128(tk_from_parts_i128(minus, magnitude));
}

/* atoi_core/src/calls.rt:21 */
TK_HINTED tk_result_i128 tk_atoi_core_parse_text_i128(bool skip, bool skip_plus, tk_bytes s)
{
    tk_pair_bool_bytes found = tk_take_sign(true, skip_plus, s);
    bool minus = found.first;
    tk_bytes body = found.second;
    return tk_whole_with_sign_i128(minus, skip, body);
}

/* atoi_fast/src/called.rt:17 */
TK_HINTED tk_result_i128 tk_called_parse_text_i128(bool skip, bool skip_plus, tk_bytes s)
{
    if (s.len == 1 && '0' <= s.at[0] && s.at[0] <= '9') {
        return tk_ok_i128(tk_loaded_digit_i128(s));
    }
    if (2 <= s.len && s.len <= 15) {
        tk_option_i128 found = tk_loaded_slice_i128(s);
        if (found.is_some) {
            tk_i128 number = found.value;
            return tk_ok_i128(number);
        }
    }
    return tk_atoi_core_parse_text_i128(skip, skip_plus, s);
}

/* atoi_simd/src/parse_trait.rt:181 */
TK_HINTED tk_result_i128 tk_atoi_simd_parse_i128(tk_bytes s, bool skip, bool skip_plus)
{
    return tk_called_parse_text_i128(skip, skip_plus, s);
}

/* atoi_fast/src/short_slice.rt:13 */
TK_HINTED tk_u128 tk_loaded_digit_u128(tk_bytes s)
{
    return tk_from_parts_u128(false, tk_u128_of(TK_CAST(uint8_t, s.at[tk_index(0, s.len)] - '0')));
}

/* atoi_fast/src/short_slice.rt:54 */
TK_NOINLINE tk_option_u128 tk_loaded_slice_u128(tk_bytes s)
{
    if (s.len <= 8) {
        return tk_short_slice_u128(s);
    }
    return tk_slice_of_two_words_u128(s);
}

/* atoi_core/src/calls.rt:136 */
TK_HINTED tk_result_u128 tk_whole_with_sign_u128(bool minus, bool skip, tk_bytes s)
{
    tk_result_u128 found = tk_whole_by_size(128, false,
                                            tk_u128_make(UINT64_C(18446744073709551615),
                                                         UINT64_C(18446744073709551615)), minus, skip, s);
    if (!found.is_ok) {
        return tk_err_u128(found.error);
    }
    tk_u128 magnitude = found.value;
    return tk_ok_u128(tk_from_parts_u128(minus, magnitude));
}

/* atoi_core/src/calls.rt:21 */
TK_HINTED tk_result_u128 tk_atoi_core_parse_text_u128(bool skip, bool skip_plus, tk_bytes s)
{
    tk_pair_bool_bytes found = tk_take_sign(false, skip_plus, s);
    bool minus = found.first;
    tk_bytes body = found.second;
    return tk_whole_with_sign_u128(minus, skip, body);
}

/* atoi_fast/src/called.rt:17 */
TK_HINTED tk_result_u128 tk_called_parse_text_u128(bool skip, bool skip_plus, tk_bytes s)
{
    if (s.len == 1 && '0' <= s.at[0] && s.at[0] <= '9') {
        return tk_ok_u128(tk_loaded_digit_u128(s));
    }
    if (2 <= s.len && s.len <= 15) {
        tk_option_u128 found = tk_loaded_slice_u128(s);
        if (found.is_some) {
            tk_u128 number = found.value;
            return tk_ok_u128(number);
        }
    }
    return tk_atoi_core_parse_text_u128(skip, skip_plus, s);
}

/* atoi_simd/src/parse_trait.rt:169 */
TK_HINTED tk_result_u128 tk_atoi_simd_parse_u128(tk_bytes s, bool skip, bool skip_plus)
{
    return tk_called_parse_text_u128(skip, skip_plus, s);
}

/* atoi_fast/src/short_prefix.rt:165 */
TK_HINTED tk_option_pair_i8_size tk_prefix_of_two_words_i8(bool minus, uint64_t high, tk_bytes s)
{
    uint64_t next = tk_load_full(tk_bytes_from(s, 8));
    uint32_t more = tk_leading_digits(next);
    if (more == 8) {
        return tk_none_pair_i8_size();
    }
    uint64_t low = tk_value_by_product(tk_u64_wrapping_sub(next, TK_ZEROS), more);
    uint64_t magnitude = high * tk_power_of_ten(more) + low;
    tk_option_i8 found = tk_number_in_range_i8(tk_u128_of(127), TK_MOST_IN_TWO_WORDS, minus, magnitude);
    if (!found.is_some) {
        return tk_none_pair_i8_size();
    }
    int8_t number = found.value;
    return tk_some_pair_i8_size(tk_new_pair_i8_size(number, 8 + TK_CAST(size_t, more)));
}

/* atoi_fast/src/short_prefix.rt:46 */
TK_HINTED tk_option_pair_i8_size tk_prefix_of_words_i8(tk_bytes s)
{
    uint64_t word = tk_load_full(s);
    /* A `-` borrows from the next byte, so that a `0` there looks like no digit. */
    uint64_t above = tk_u64_wrapping_add(word, UINT64_C(0x4646464646464646));
    uint64_t below = tk_u64_wrapping_sub(word, TK_ZEROS);
    uint64_t marks = (above | below) & UINT64_C(0x8080808080808000);
    if ((marks & 0x8000) != 0) {
        /* The next load waits for nothing. */
        uint8_t digit = tk_lowest_byte(below);
        if (digit > 9) {
            return tk_none_pair_i8_size();
        }
        return tk_some_pair_i8_size(tk_new_pair_i8_size(tk_from_parts_i8(false, tk_u128_of(digit)), 1));
    }
    bool minus = true & (tk_lowest_byte(word) == '-');
    /* The digit of a `-` is 0, and takes the borrow back. */
    uint64_t digits = tk_u64_wrapping_add(below, 3 * tk_bit(minus));
    if (tk_lowest_byte(digits) > 9) {
        return tk_none_pair_i8_size();
    }
    if (marks == 0) {
        /* With `return` of the call, clang 19 returns all lengths in memory. */
        tk_option_pair_i8_size found = tk_prefix_of_two_words_i8(minus, tk_sum_of(digits), s);
        if (!found.is_some) {
            return tk_none_pair_i8_size();
        }
        tk_pair_i8_size found_2 = found.value;
        return tk_some_pair_i8_size(found_2);
    }
    uint32_t len = tk_u64_trailing_zeros(marks) / 8;
    tk_option_i8 found = tk_number_in_range_i8(tk_u128_of(127), TK_MOST_IN_WORD, minus,
                                               tk_value_by_product(digits, len));
    if (!found.is_some) {
        return tk_none_pair_i8_size();
    }
    int8_t number = found.value;
    return tk_some_pair_i8_size(tk_new_pair_i8_size(number, TK_CAST(size_t, len)));
}

/*
 * Returns the number at the start of `s` and its length, if that is below 8, or for signed types below 16.
 * For `i64`, also a number of up to 19 digits. Others may be `None`, too.
 */
/* atoi_fast/src/short_prefix.rt:18 */
TK_HINTED tk_option_pair_i8_size tk_short_prefix_i8(tk_bytes s)
{
    return tk_prefix_of_words_i8(s);
}

/* atoi_core/src/narrow.rt:147 */
TK_HINTED tk_result_pair_u64_size tk_answer_at(uint64_t bound, size_t at, tk_window window, tk_bytes s)
{
    if (window.number > bound) {
        return tk_err_pair_u64_size(tk_error_overflow(tk_bytes_from(s, at)));
    }
    return tk_ok_pair_u64_size(tk_new_pair_u64_size(window.number, at + TK_CAST(size_t, window.len)));
}

/* `narrow_prefix` with `skip`, after a first window that reported zeros. */
/* atoi_core/src/narrow.rt:130 */
TK_NOINLINE tk_result_pair_u64_size tk_narrow_prefix_after_zeros(uint64_t bound, uint32_t zeroes, tk_bytes s)
{
    tk_pair_size_window found = tk_window_after_zeros_swar(zeroes, s);
    size_t at = found.first;
    tk_window window = found.second;
    return tk_answer_at(bound, at, window, s);
}

/* Whether a digit follows the first 16, unless zeros are skipped. */
/* atoi_core/src/narrow.rt:47 */
TK_HINTED bool tk_is_too_long(bool skip, tk_bytes s)
{
    return !skip && tk_swar_window_8(tk_bytes_from(s, 16)).len > 0;
}

/*
 * Parses the digits at the start of `s`, and returns their value, at most `bound`, and their number.
 * The errors are `Empty`, `Size(17, s)` for more than 16 digits without `skip`, and `Overflow`, whose
 * slice `AtoiSimdError` describes.
 */
/* atoi_core/src/narrow.rt:20 */
TK_NOINLINE tk_result_pair_u64_size tk_narrow_prefix(uint64_t bound, bool skip, tk_bytes s)
{
    tk_window window = tk_swar_window(s);
    if (window.len == 0) {
        return tk_err_pair_u64_size(tk_error_empty());
    }
    if (skip && window.zeroes > 0) {
        return tk_narrow_prefix_after_zeros(bound, window.zeroes, s);
    }
    if (window.len == 16 && tk_is_too_long(skip, s)) {
        return tk_err_pair_u64_size(tk_error_size(17, s));
    }
    return tk_answer_at(bound, 0, window, s);
}

/* Returns the magnitude and how many digits there are, by the parser for the type's size. */
/* atoi_core/src/calls.rt:200 */
TK_HINTED tk_result_pair_u128_size tk_prefix_by_size(uint32_t bits, bool is_signed, tk_u128 greatest, bool minus,
                                                     bool skip, tk_bytes s)
{
    tk_u128 bound = tk_greatest_magnitude(greatest, minus);
    if (bits <= 32) {
        tk_result_pair_u64_size found = tk_narrow_prefix(tk_u128_low(bound), skip, s);
        if (!found.is_ok) {
            return tk_err_pair_u128_size(found.error);
        }
        uint64_t number = found.value.first;
        size_t len = found.value.second;
        return tk_ok_pair_u128_size(tk_new_pair_u128_size(tk_u128_of(number), len));
    }
    if (bits == 64) {
        tk_result_pair_u64_size found = tk_swar_prefix_64(tk_u128_low(bound), tk_limit_64(is_signed), skip, s);
        if (!found.is_ok) {
            return tk_err_pair_u128_size(found.error);
        }
        uint64_t number = found.value.first;
        size_t len = found.value.second;
        return tk_ok_pair_u128_size(tk_new_pair_u128_size(tk_u128_of(number), len));
    }
    return tk_swar_prefix_128(bound, skip, s);
}

/* Like `prefix_neg` if `minus` is set, otherwise like `prefix_pos`, for a type that may be unsigned. */
/* atoi_core/src/calls.rt:180 */
TK_HINTED tk_result_pair_i8_size tk_prefix_with_sign_i8(bool minus, bool skip, tk_bytes s)
{
    tk_result_pair_u128_size found = tk_prefix_by_size(8, true, tk_u128_of(127), minus, skip, s);
    if (!found.is_ok) {
        return tk_err_pair_i8_size(found.error);
    }
    tk_u128 magnitude = found.value.first;
    size_t len = found.value.second;
    return tk_ok_pair_i8_size(tk_new_pair_i8_size(tk_from_parts_i8(minus, magnitude), len));
}

/*
 * Parses the number at the start of `s`, and returns it with its length, the sign included. Returns the
 * errors of `prefix_pos` for the body, or of `prefix_neg` after a `-`.
 */
/* atoi_core/src/calls.rt:38 */
TK_HINTED tk_result_pair_i8_size tk_atoi_core_parse_prefix_text_i8(bool skip, bool skip_plus, tk_bytes s)
{
    tk_pair_bool_bytes found = tk_take_sign(true, skip_plus, s);
    bool minus = found.first;
    tk_bytes body = found.second;
    tk_result_pair_i8_size found_2 = tk_prefix_with_sign_i8(minus, skip, body);
    if (!found_2.is_ok) {
        return tk_err_pair_i8_size(found_2.error);
    }
    int8_t number = found_2.value.first;
    size_t len = found_2.value.second;
    return tk_ok_pair_i8_size(tk_new_pair_i8_size(number, len + (s.len - body.len)));
}

/* `atoi_core::parse_prefix_text`, with at most one load more. */
/* atoi_fast/src/called.rt:42 */
TK_HINTED tk_result_pair_i8_size tk_called_parse_prefix_text_i8(bool skip, bool skip_plus, tk_bytes s)
{
    if (s.len >= 16) {
        tk_option_pair_i8_size found = tk_short_prefix_i8(s);
        if (found.is_some) {
            tk_pair_i8_size found_2 = found.value;
            return tk_ok_pair_i8_size(found_2);
        }
    } else {
        if (s.len >= 2) {
            /* Many texts are a number alone. */
            tk_option_i8 found = tk_loaded_slice_i8(s);
            if (found.is_some) {
                int8_t number = found.value;
                return tk_ok_pair_i8_size(tk_new_pair_i8_size(number, s.len));
            }
        }
    }
    return tk_atoi_core_parse_prefix_text_i8(skip, skip_plus, s);
}

/* atoi_simd/src/parse_trait.rt:66 */
TK_NOINLINE tk_result_pair_i8_size tk_atoi_simd_parse_prefix_i8(tk_bytes s, bool skip, bool skip_plus)
{
    return tk_called_parse_prefix_text_i8(skip, skip_plus, s);
}

/* atoi_fast/src/short_prefix.rt:290 */
TK_INLINE tk_option_pair_u8_size tk_prefix_in_word_u8(tk_u128 greatest, uint64_t word, uint32_t len, tk_bytes s)
{
    (void)s;
    uint64_t magnitude = tk_value_by_product(tk_u64_wrapping_sub(word, TK_ZEROS), len);
    tk_option_u8 found = tk_number_in_range_u8(greatest, TK_MOST_IN_WORD, false, magnitude);
    if (!found.is_some) {
        return tk_none_pair_u8_size();
    }
    uint8_t number = found.value;
    return tk_some_pair_u8_size(tk_new_pair_u8_size(number, TK_CAST(size_t, len)));
}

/* atoi_fast/src/short_prefix.rt:276 */
TK_HINTED tk_option_pair_u8_size tk_unsigned_prefix_u8(tk_bytes s)
{
    uint64_t word = tk_load_full(s);
    uint32_t len = tk_leading_digits(word);
    if (len == 0 || len == 8) {
        return tk_none_pair_u8_size();
    }
    return tk_prefix_in_word_u8(tk_u128_of(255), word, len, s);
}

/* atoi_fast/src/short_prefix.rt:18 */
TK_HINTED tk_option_pair_u8_size tk_short_prefix_u8(tk_bytes s)
{
    return tk_unsigned_prefix_u8(s);
}

/* atoi_core/src/calls.rt:180 */
TK_HINTED tk_result_pair_u8_size tk_prefix_with_sign_u8(bool minus, bool skip, tk_bytes s)
{
    tk_result_pair_u128_size found = tk_prefix_by_size(8, false, tk_u128_of(255), minus, skip, s);
    if (!found.is_ok) {
        return tk_err_pair_u8_size(found.error);
    }
    tk_u128 magnitude = found.value.first;
    size_t len = found.value.second;
    return tk_ok_pair_u8_size(tk_new_pair_u8_size(tk_from_parts_u8(minus, magnitude), len));
}

/* atoi_core/src/calls.rt:38 */
TK_HINTED tk_result_pair_u8_size tk_atoi_core_parse_prefix_text_u8(bool skip, bool skip_plus, tk_bytes s)
{
    tk_pair_bool_bytes found = tk_take_sign(false, skip_plus, s);
    bool minus = found.first;
    tk_bytes body = found.second;
    tk_result_pair_u8_size found_2 = tk_prefix_with_sign_u8(minus, skip, body);
    if (!found_2.is_ok) {
        return tk_err_pair_u8_size(found_2.error);
    }
    uint8_t number = found_2.value.first;
    size_t len = found_2.value.second;
    return tk_ok_pair_u8_size(tk_new_pair_u8_size(number, len + (s.len - body.len)));
}

/* atoi_fast/src/called.rt:42 */
TK_HINTED tk_result_pair_u8_size tk_called_parse_prefix_text_u8(bool skip, bool skip_plus, tk_bytes s)
{
    if (s.len >= 16) {
        tk_option_pair_u8_size found = tk_short_prefix_u8(s);
        if (found.is_some) {
            tk_pair_u8_size found_2 = found.value;
            return tk_ok_pair_u8_size(found_2);
        }
    } else {
        if (s.len >= 2) {
            /* Many texts are a number alone. */
            tk_option_u8 found = tk_loaded_slice_u8(s);
            if (found.is_some) {
                uint8_t number = found.value;
                return tk_ok_pair_u8_size(tk_new_pair_u8_size(number, s.len));
            }
        }
    }
    return tk_atoi_core_parse_prefix_text_u8(skip, skip_plus, s);
}

/* atoi_simd/src/parse_trait.rt:54 */
TK_NOINLINE tk_result_pair_u8_size tk_atoi_simd_parse_prefix_u8(tk_bytes s, bool skip, bool skip_plus)
{
    return tk_called_parse_prefix_text_u8(skip, skip_plus, s);
}

/* atoi_fast/src/short_prefix.rt:165 */
TK_HINTED tk_option_pair_i16_size tk_prefix_of_two_words_i16(bool minus, uint64_t high, tk_bytes s)
{
    uint64_t next = tk_load_full(tk_bytes_from(s, 8));
    uint32_t more = tk_leading_digits(next);
    if (more == 8) {
        return tk_none_pair_i16_size();
    }
    uint64_t low = tk_value_by_product(tk_u64_wrapping_sub(next, TK_ZEROS), more);
    uint64_t magnitude = high * tk_power_of_ten(more) + low;
    tk_option_i16 found = tk_number_in_range_i16(tk_u128_of(32767), TK_MOST_IN_TWO_WORDS, minus, magnitude);
    if (!found.is_some) {
        return tk_none_pair_i16_size();
    }
    int16_t number = found.value;
    return tk_some_pair_i16_size(tk_new_pair_i16_size(number, 8 + TK_CAST(size_t, more)));
}

/* atoi_fast/src/short_prefix.rt:46 */
TK_HINTED tk_option_pair_i16_size tk_prefix_of_words_i16(tk_bytes s)
{
    uint64_t word = tk_load_full(s);
    /* A `-` borrows from the next byte, so that a `0` there looks like no digit. */
    uint64_t above = tk_u64_wrapping_add(word, UINT64_C(0x4646464646464646));
    uint64_t below = tk_u64_wrapping_sub(word, TK_ZEROS);
    uint64_t marks = (above | below) & UINT64_C(0x8080808080808000);
    if ((marks & 0x8000) != 0) {
        /* The next load waits for nothing. */
        uint8_t digit = tk_lowest_byte(below);
        if (digit > 9) {
            return tk_none_pair_i16_size();
        }
        return tk_some_pair_i16_size(tk_new_pair_i16_size(tk_from_parts_i16(false, tk_u128_of(digit)), 1));
    }
    bool minus = true & (tk_lowest_byte(word) == '-');
    /* The digit of a `-` is 0, and takes the borrow back. */
    uint64_t digits = tk_u64_wrapping_add(below, 3 * tk_bit(minus));
    if (tk_lowest_byte(digits) > 9) {
        return tk_none_pair_i16_size();
    }
    if (marks == 0) {
        /* With `return` of the call, clang 19 returns all lengths in memory. */
        tk_option_pair_i16_size found = tk_prefix_of_two_words_i16(minus, tk_sum_of(digits), s);
        if (!found.is_some) {
            return tk_none_pair_i16_size();
        }
        tk_pair_i16_size found_2 = found.value;
        return tk_some_pair_i16_size(found_2);
    }
    uint32_t len = tk_u64_trailing_zeros(marks) / 8;
    tk_option_i16 found = tk_number_in_range_i16(tk_u128_of(32767), TK_MOST_IN_WORD, minus,
                                                 tk_value_by_product(digits, len));
    if (!found.is_some) {
        return tk_none_pair_i16_size();
    }
    int16_t number = found.value;
    return tk_some_pair_i16_size(tk_new_pair_i16_size(number, TK_CAST(size_t, len)));
}

/* atoi_fast/src/short_prefix.rt:18 */
TK_HINTED tk_option_pair_i16_size tk_short_prefix_i16(tk_bytes s)
{
    return tk_prefix_of_words_i16(s);
}

/* atoi_core/src/calls.rt:180 */
TK_HINTED tk_result_pair_i16_size tk_prefix_with_sign_i16(bool minus, bool skip, tk_bytes s)
{
    tk_result_pair_u128_size found = tk_prefix_by_size(16, true, tk_u128_of(32767), minus, skip, s);
    if (!found.is_ok) {
        return tk_err_pair_i16_size(found.error);
    }
    tk_u128 magnitude = found.value.first;
    size_t len = found.value.second;
    return tk_ok_pair_i16_size(tk_new_pair_i16_size(tk_from_parts_i16(minus, magnitude), len));
}

/* atoi_core/src/calls.rt:38 */
TK_HINTED tk_result_pair_i16_size tk_atoi_core_parse_prefix_text_i16(bool skip, bool skip_plus, tk_bytes s)
{
    tk_pair_bool_bytes found = tk_take_sign(true, skip_plus, s);
    bool minus = found.first;
    tk_bytes body = found.second;
    tk_result_pair_i16_size found_2 = tk_prefix_with_sign_i16(minus, skip, body);
    if (!found_2.is_ok) {
        return tk_err_pair_i16_size(found_2.error);
    }
    int16_t number = found_2.value.first;
    size_t len = found_2.value.second;
    return tk_ok_pair_i16_size(tk_new_pair_i16_size(number, len + (s.len - body.len)));
}

/* atoi_fast/src/called.rt:42 */
TK_HINTED tk_result_pair_i16_size tk_called_parse_prefix_text_i16(bool skip, bool skip_plus, tk_bytes s)
{
    if (s.len >= 16) {
        tk_option_pair_i16_size found = tk_short_prefix_i16(s);
        if (found.is_some) {
            tk_pair_i16_size found_2 = found.value;
            return tk_ok_pair_i16_size(found_2);
        }
    } else {
        if (s.len >= 2) {
            /* Many texts are a number alone. */
            tk_option_i16 found = tk_loaded_slice_i16(s);
            if (found.is_some) {
                int16_t number = found.value;
                return tk_ok_pair_i16_size(tk_new_pair_i16_size(number, s.len));
            }
        }
    }
    return tk_atoi_core_parse_prefix_text_i16(skip, skip_plus, s);
}

/* atoi_simd/src/parse_trait.rt:90 */
TK_NOINLINE tk_result_pair_i16_size tk_atoi_simd_parse_prefix_i16(tk_bytes s, bool skip, bool skip_plus)
{
    return tk_called_parse_prefix_text_i16(skip, skip_plus, s);
}

/* atoi_fast/src/short_prefix.rt:290 */
TK_INLINE tk_option_pair_u16_size tk_prefix_in_word_u16(tk_u128 greatest, uint64_t word, uint32_t len, tk_bytes s)
{
    (void)s;
    uint64_t magnitude = tk_value_by_product(tk_u64_wrapping_sub(word, TK_ZEROS), len);
    tk_option_u16 found = tk_number_in_range_u16(greatest, TK_MOST_IN_WORD, false, magnitude);
    if (!found.is_some) {
        return tk_none_pair_u16_size();
    }
    uint16_t number = found.value;
    return tk_some_pair_u16_size(tk_new_pair_u16_size(number, TK_CAST(size_t, len)));
}

/* atoi_fast/src/short_prefix.rt:276 */
TK_HINTED tk_option_pair_u16_size tk_unsigned_prefix_u16(tk_bytes s)
{
    uint64_t word = tk_load_full(s);
    uint32_t len = tk_leading_digits(word);
    if (len == 0 || len == 8) {
        return tk_none_pair_u16_size();
    }
    return tk_prefix_in_word_u16(tk_u128_of(65535), word, len, s);
}

/* atoi_fast/src/short_prefix.rt:18 */
TK_HINTED tk_option_pair_u16_size tk_short_prefix_u16(tk_bytes s)
{
    return tk_unsigned_prefix_u16(s);
}

/* atoi_core/src/calls.rt:180 */
TK_HINTED tk_result_pair_u16_size tk_prefix_with_sign_u16(bool minus, bool skip, tk_bytes s)
{
    tk_result_pair_u128_size found = tk_prefix_by_size(16, false, tk_u128_of(65535), minus, skip, s);
    if (!found.is_ok) {
        return tk_err_pair_u16_size(found.error);
    }
    tk_u128 magnitude = found.value.first;
    size_t len = found.value.second;
    return tk_ok_pair_u16_size(tk_new_pair_u16_size(tk_from_parts_u16(minus, magnitude), len));
}

/* atoi_core/src/calls.rt:38 */
TK_HINTED tk_result_pair_u16_size tk_atoi_core_parse_prefix_text_u16(bool skip, bool skip_plus, tk_bytes s)
{
    tk_pair_bool_bytes found = tk_take_sign(false, skip_plus, s);
    bool minus = found.first;
    tk_bytes body = found.second;
    tk_result_pair_u16_size found_2 = tk_prefix_with_sign_u16(minus, skip, body);
    if (!found_2.is_ok) {
        return tk_err_pair_u16_size(found_2.error);
    }
    uint16_t number = found_2.value.first;
    size_t len = found_2.value.second;
    return tk_ok_pair_u16_size(tk_new_pair_u16_size(number, len + (s.len - body.len)));
}

/* atoi_fast/src/called.rt:42 */
TK_HINTED tk_result_pair_u16_size tk_called_parse_prefix_text_u16(bool skip, bool skip_plus, tk_bytes s)
{
    if (s.len >= 16) {
        tk_option_pair_u16_size found = tk_short_prefix_u16(s);
        if (found.is_some) {
            tk_pair_u16_size found_2 = found.value;
            return tk_ok_pair_u16_size(found_2);
        }
    } else {
        if (s.len >= 2) {
            /* Many texts are a number alone. */
            tk_option_u16 found = tk_loaded_slice_u16(s);
            if (found.is_some) {
                uint16_t number = found.value;
                return tk_ok_pair_u16_size(tk_new_pair_u16_size(number, s.len));
            }
        }
    }
    return tk_atoi_core_parse_prefix_text_u16(skip, skip_plus, s);
}

/* atoi_simd/src/parse_trait.rt:78 */
TK_NOINLINE tk_result_pair_u16_size tk_atoi_simd_parse_prefix_u16(tk_bytes s, bool skip, bool skip_plus)
{
    return tk_called_parse_prefix_text_u16(skip, skip_plus, s);
}

/* atoi_fast/src/short_prefix.rt:165 */
TK_INLINE tk_option_pair_i32_size tk_prefix_of_two_words_i32(bool minus, uint64_t high, tk_bytes s)
{
    uint64_t next = tk_load_full(tk_bytes_from(s, 8));
    uint32_t more = tk_leading_digits(next);
    if (more == 8) {
        return tk_none_pair_i32_size();
    }
    uint64_t low = tk_value_by_product(tk_u64_wrapping_sub(next, TK_ZEROS), more);
    uint64_t magnitude = high * tk_power_of_ten(more) + low;
    tk_option_i32 found = tk_number_in_range_i32(tk_u128_of(2147483647), TK_MOST_IN_TWO_WORDS, minus, magnitude);
    if (!found.is_some) {
        return tk_none_pair_i32_size();
    }
    int32_t number = found.value;
    return tk_some_pair_i32_size(tk_new_pair_i32_size(number, 8 + TK_CAST(size_t, more)));
}

/* atoi_fast/src/short_prefix.rt:46 */
TK_INLINE tk_option_pair_i32_size tk_prefix_of_words_i32(tk_bytes s)
{
    uint64_t word = tk_load_full(s);
    /* A `-` borrows from the next byte, so that a `0` there looks like no digit. */
    uint64_t above = tk_u64_wrapping_add(word, UINT64_C(0x4646464646464646));
    uint64_t below = tk_u64_wrapping_sub(word, TK_ZEROS);
    uint64_t marks = (above | below) & UINT64_C(0x8080808080808000);
    if ((marks & 0x8000) != 0) {
        /* The next load waits for nothing. */
        uint8_t digit = tk_lowest_byte(below);
        if (digit > 9) {
            return tk_none_pair_i32_size();
        }
        return tk_some_pair_i32_size(tk_new_pair_i32_size(tk_from_parts_i32(false, tk_u128_of(digit)), 1));
    }
    bool minus = true & (tk_lowest_byte(word) == '-');
    /* The digit of a `-` is 0, and takes the borrow back. */
    uint64_t digits = tk_u64_wrapping_add(below, 3 * tk_bit(minus));
    if (tk_lowest_byte(digits) > 9) {
        return tk_none_pair_i32_size();
    }
    if (marks == 0) {
        /* With `return` of the call, clang 19 returns all lengths in memory. */
        tk_option_pair_i32_size found = tk_prefix_of_two_words_i32(minus, tk_sum_of(digits), s);
        if (!found.is_some) {
            return tk_none_pair_i32_size();
        }
        tk_pair_i32_size found_2 = found.value;
        return tk_some_pair_i32_size(found_2);
    }
    uint32_t len = tk_u64_trailing_zeros(marks) / 8;
    tk_option_i32 found = tk_number_in_range_i32(tk_u128_of(2147483647), TK_MOST_IN_WORD, minus,
                                                 tk_value_by_product(digits, len));
    if (!found.is_some) {
        return tk_none_pair_i32_size();
    }
    int32_t number = found.value;
    return tk_some_pair_i32_size(tk_new_pair_i32_size(number, TK_CAST(size_t, len)));
}

/* atoi_fast/src/short_prefix.rt:18 */
TK_INLINE tk_option_pair_i32_size tk_short_prefix_i32(tk_bytes s)
{
    return tk_prefix_of_words_i32(s);
}

/* atoi_core/src/calls.rt:180 */
TK_HINTED tk_result_pair_i32_size tk_prefix_with_sign_i32(bool minus, bool skip, tk_bytes s)
{
    tk_result_pair_u128_size found = tk_prefix_by_size(32, true, tk_u128_of(2147483647), minus, skip, s);
    if (!found.is_ok) {
        return tk_err_pair_i32_size(found.error);
    }
    tk_u128 magnitude = found.value.first;
    size_t len = found.value.second;
    return tk_ok_pair_i32_size(tk_new_pair_i32_size(tk_from_parts_i32(minus, magnitude), len));
}

/* atoi_core/src/calls.rt:38 */
TK_HINTED tk_result_pair_i32_size tk_atoi_core_parse_prefix_text_i32(bool skip, bool skip_plus, tk_bytes s)
{
    tk_pair_bool_bytes found = tk_take_sign(true, skip_plus, s);
    bool minus = found.first;
    tk_bytes body = found.second;
    tk_result_pair_i32_size found_2 = tk_prefix_with_sign_i32(minus, skip, body);
    if (!found_2.is_ok) {
        return tk_err_pair_i32_size(found_2.error);
    }
    int32_t number = found_2.value.first;
    size_t len = found_2.value.second;
    return tk_ok_pair_i32_size(tk_new_pair_i32_size(number, len + (s.len - body.len)));
}

/* atoi_fast/src/called.rt:42 */
TK_INLINE tk_result_pair_i32_size tk_called_parse_prefix_text_i32(bool skip, bool skip_plus, tk_bytes s)
{
    if (s.len >= 16) {
        tk_option_pair_i32_size found = tk_short_prefix_i32(s);
        if (found.is_some) {
            tk_pair_i32_size found_2 = found.value;
            return tk_ok_pair_i32_size(found_2);
        }
    } else {
        if (s.len >= 2) {
            /* Many texts are a number alone. */
            tk_option_i32 found = tk_loaded_slice_i32(s);
            if (found.is_some) {
                int32_t number = found.value;
                return tk_ok_pair_i32_size(tk_new_pair_i32_size(number, s.len));
            }
        }
    }
    return tk_atoi_core_parse_prefix_text_i32(skip, skip_plus, s);
}

/* atoi_simd/src/parse_trait.rt:114 */
TK_NOINLINE tk_result_pair_i32_size tk_atoi_simd_parse_prefix_i32(tk_bytes s, bool skip, bool skip_plus)
{
    return tk_called_parse_prefix_text_i32(skip, skip_plus, s);
}

/* atoi_fast/src/short_prefix.rt:290 */
TK_INLINE tk_option_pair_u32_size tk_prefix_in_word_u32(tk_u128 greatest, uint64_t word, uint32_t len, tk_bytes s)
{
    (void)s;
    uint64_t magnitude = tk_value_by_product(tk_u64_wrapping_sub(word, TK_ZEROS), len);
    tk_option_u32 found = tk_number_in_range_u32(greatest, TK_MOST_IN_WORD, false, magnitude);
    if (!found.is_some) {
        return tk_none_pair_u32_size();
    }
    uint32_t number = found.value;
    return tk_some_pair_u32_size(tk_new_pair_u32_size(number, TK_CAST(size_t, len)));
}

/* atoi_fast/src/short_prefix.rt:276 */
TK_INLINE tk_option_pair_u32_size tk_unsigned_prefix_u32(tk_bytes s)
{
    uint64_t word = tk_load_full(s);
    uint32_t len = tk_leading_digits(word);
    if (len == 0 || len == 8) {
        return tk_none_pair_u32_size();
    }
    return tk_prefix_in_word_u32(tk_u128_of(UINT64_C(4294967295)), word, len, s);
}

/* atoi_fast/src/short_prefix.rt:18 */
TK_INLINE tk_option_pair_u32_size tk_short_prefix_u32(tk_bytes s)
{
    return tk_unsigned_prefix_u32(s);
}

/* atoi_core/src/calls.rt:180 */
TK_HINTED tk_result_pair_u32_size tk_prefix_with_sign_u32(bool minus, bool skip, tk_bytes s)
{
    tk_result_pair_u128_size found = tk_prefix_by_size(32, false, tk_u128_of(UINT64_C(4294967295)), minus, skip, s);
    if (!found.is_ok) {
        return tk_err_pair_u32_size(found.error);
    }
    tk_u128 magnitude = found.value.first;
    size_t len = found.value.second;
    return tk_ok_pair_u32_size(tk_new_pair_u32_size(tk_from_parts_u32(minus, magnitude), len));
}

/* atoi_core/src/calls.rt:38 */
TK_HINTED tk_result_pair_u32_size tk_atoi_core_parse_prefix_text_u32(bool skip, bool skip_plus, tk_bytes s)
{
    tk_pair_bool_bytes found = tk_take_sign(false, skip_plus, s);
    bool minus = found.first;
    tk_bytes body = found.second;
    tk_result_pair_u32_size found_2 = tk_prefix_with_sign_u32(minus, skip, body);
    if (!found_2.is_ok) {
        return tk_err_pair_u32_size(found_2.error);
    }
    uint32_t number = found_2.value.first;
    size_t len = found_2.value.second;
    return tk_ok_pair_u32_size(tk_new_pair_u32_size(number, len + (s.len - body.len)));
}

/* atoi_fast/src/called.rt:42 */
TK_INLINE tk_result_pair_u32_size tk_called_parse_prefix_text_u32(bool skip, bool skip_plus, tk_bytes s)
{
    if (s.len >= 16) {
        tk_option_pair_u32_size found = tk_short_prefix_u32(s);
        if (found.is_some) {
            tk_pair_u32_size found_2 = found.value;
            return tk_ok_pair_u32_size(found_2);
        }
    } else {
        if (s.len >= 2) {
            /* Many texts are a number alone. */
            tk_option_u32 found = tk_loaded_slice_u32(s);
            if (found.is_some) {
                uint32_t number = found.value;
                return tk_ok_pair_u32_size(tk_new_pair_u32_size(number, s.len));
            }
        }
    }
    return tk_atoi_core_parse_prefix_text_u32(skip, skip_plus, s);
}

/* atoi_simd/src/parse_trait.rt:102 */
TK_NOINLINE tk_result_pair_u32_size tk_atoi_simd_parse_prefix_u32(tk_bytes s, bool skip, bool skip_plus)
{
    return tk_called_parse_prefix_text_u32(skip, skip_plus, s);
}

/* atoi_fast/src/short_prefix.rt:18 */
TK_INLINE tk_option_pair_i64_size tk_short_prefix_i64(tk_bytes s)
{
    return tk_prefix_of_words_i64(s);
}

/* atoi_core/src/calls.rt:180 */
TK_HINTED tk_result_pair_i64_size tk_prefix_with_sign_i64(bool minus, bool skip, tk_bytes s)
{
    tk_result_pair_u128_size found = tk_prefix_by_size(64, true, tk_u128_of(UINT64_C(9223372036854775807)), minus, skip,
                                                       s);
    if (!found.is_ok) {
        return tk_err_pair_i64_size(found.error);
    }
    tk_u128 magnitude = found.value.first;
    size_t len = found.value.second;
    return tk_ok_pair_i64_size(tk_new_pair_i64_size(tk_from_parts_i64(minus, magnitude), len));
}

/* atoi_core/src/calls.rt:38 */
TK_HINTED tk_result_pair_i64_size tk_atoi_core_parse_prefix_text_i64(bool skip, bool skip_plus, tk_bytes s)
{
    tk_pair_bool_bytes found = tk_take_sign(true, skip_plus, s);
    bool minus = found.first;
    tk_bytes body = found.second;
    tk_result_pair_i64_size found_2 = tk_prefix_with_sign_i64(minus, skip, body);
    if (!found_2.is_ok) {
        return tk_err_pair_i64_size(found_2.error);
    }
    int64_t number = found_2.value.first;
    size_t len = found_2.value.second;
    return tk_ok_pair_i64_size(tk_new_pair_i64_size(number, len + (s.len - body.len)));
}

/* atoi_fast/src/called.rt:42 */
TK_INLINE tk_result_pair_i64_size tk_called_parse_prefix_text_i64(bool skip, bool skip_plus, tk_bytes s)
{
    if (s.len >= 16) {
        tk_option_pair_i64_size found = tk_short_prefix_i64(s);
        if (found.is_some) {
            tk_pair_i64_size found_2 = found.value;
            return tk_ok_pair_i64_size(found_2);
        }
    } else {
        if (s.len >= 2) {
            /* Many texts are a number alone. */
            tk_option_i64 found = tk_loaded_slice_i64(s);
            if (found.is_some) {
                int64_t number = found.value;
                return tk_ok_pair_i64_size(tk_new_pair_i64_size(number, s.len));
            }
        }
    }
    return tk_atoi_core_parse_prefix_text_i64(skip, skip_plus, s);
}

/* atoi_simd/src/parse_trait.rt:162 */
TK_NOINLINE tk_result_pair_i64_size tk_atoi_simd_parse_prefix_i64(tk_bytes s, bool skip, bool skip_plus)
{
    return tk_called_parse_prefix_text_i64(skip, skip_plus, s);
}

/* atoi_fast/src/short_prefix.rt:276 */
TK_INLINE tk_option_pair_u64_size tk_unsigned_prefix_u64(tk_bytes s)
{
    uint64_t word = tk_load_full(s);
    uint32_t len = tk_leading_digits(word);
    if (len == 0 || len == 8) {
        return tk_none_pair_u64_size();
    }
    return tk_prefix_in_word_u64(tk_u128_of(UINT64_C(18446744073709551615)), word, len, s);
}

/* atoi_fast/src/short_prefix.rt:18 */
TK_INLINE tk_option_pair_u64_size tk_short_prefix_u64(tk_bytes s)
{
    return tk_unsigned_prefix_u64(s);
}

/* atoi_core/src/calls.rt:180 */
TK_HINTED tk_result_pair_u64_size tk_prefix_with_sign_u64(bool minus, bool skip, tk_bytes s)
{
    tk_result_pair_u128_size found = tk_prefix_by_size(64, false, tk_u128_of(UINT64_C(18446744073709551615)), minus,
                                                       skip, s);
    if (!found.is_ok) {
        return tk_err_pair_u64_size(found.error);
    }
    tk_u128 magnitude = found.value.first;
    size_t len = found.value.second;
    return tk_ok_pair_u64_size(tk_new_pair_u64_size(tk_from_parts_u64(minus, magnitude), len));
}

/* atoi_core/src/calls.rt:38 */
TK_HINTED tk_result_pair_u64_size tk_atoi_core_parse_prefix_text_u64(bool skip, bool skip_plus, tk_bytes s)
{
    tk_pair_bool_bytes found = tk_take_sign(false, skip_plus, s);
    bool minus = found.first;
    tk_bytes body = found.second;
    tk_result_pair_u64_size found_2 = tk_prefix_with_sign_u64(minus, skip, body);
    if (!found_2.is_ok) {
        return tk_err_pair_u64_size(found_2.error);
    }
    uint64_t number = found_2.value.first;
    size_t len = found_2.value.second;
    return tk_ok_pair_u64_size(tk_new_pair_u64_size(number, len + (s.len - body.len)));
}

/* atoi_fast/src/called.rt:42 */
TK_INLINE tk_result_pair_u64_size tk_called_parse_prefix_text_u64(bool skip, bool skip_plus, tk_bytes s)
{
    if (s.len >= 16) {
        tk_option_pair_u64_size found = tk_short_prefix_u64(s);
        if (found.is_some) {
            tk_pair_u64_size found_2 = found.value;
            return tk_ok_pair_u64_size(found_2);
        }
    } else {
        if (s.len >= 2) {
            /* Many texts are a number alone. */
            tk_option_u64 found = tk_loaded_slice_u64(s);
            if (found.is_some) {
                uint64_t number = found.value;
                return tk_ok_pair_u64_size(tk_new_pair_u64_size(number, s.len));
            }
        }
    }
    return tk_atoi_core_parse_prefix_text_u64(skip, skip_plus, s);
}

/* atoi_simd/src/parse_trait.rt:150 */
TK_NOINLINE tk_result_pair_u64_size tk_atoi_simd_parse_prefix_u64(tk_bytes s, bool skip, bool skip_plus)
{
    return tk_called_parse_prefix_text_u64(skip, skip_plus, s);
}

/* atoi_fast/src/short_prefix.rt:165 */
TK_HINTED tk_option_pair_i128_size tk_prefix_of_two_words_i128(bool minus, uint64_t high, tk_bytes s)
{
    uint64_t next = tk_load_full(tk_bytes_from(s, 8));
    uint32_t more = tk_leading_digits(next);
    if (more == 8) {
        return tk_none_pair_i128_size();
    }
    uint64_t low = tk_value_by_product(tk_u64_wrapping_sub(next, TK_ZEROS), more);
    uint64_t magnitude = high * tk_power_of_ten(more) + low;
    tk_option_i128 found = tk_number_in_range_i128(tk_u128_make(UINT64_C(9223372036854775807),
                                                                UINT64_C(18446744073709551615)), TK_MOST_IN_TWO_WORDS,
                                                                    minus, magnitude);
    if (!found.is_some) {
        return tk_none_pair_i128_size();
    }
    tk_i128 number = found.value;
    return tk_some_pair_i128_size(tk_new_pair_i128_size(number, 8 + TK_CAST(size_t, more)));
}

/* atoi_fast/src/short_prefix.rt:46 */
TK_HINTED tk_option_pair_i128_size tk_prefix_of_words_i128(tk_bytes s)
{
    uint64_t word = tk_load_full(s);
    /* A `-` borrows from the next byte, so that a `0` there looks like no digit. */
    uint64_t above = tk_u64_wrapping_add(word, UINT64_C(0x4646464646464646));
    uint64_t below = tk_u64_wrapping_sub(word, TK_ZEROS);
    uint64_t marks = (above | below) & UINT64_C(0x8080808080808000);
    if ((marks & 0x8000) != 0) {
        /* The next load waits for nothing. */
        uint8_t digit = tk_lowest_byte(below);
        if (digit > 9) {
            return tk_none_pair_i128_size();
        }
        return tk_some_pair_i128_size(tk_new_pair_i128_size(tk_from_parts_i128(false, tk_u128_of(digit)), 1));
    }
    bool minus = true & (tk_lowest_byte(word) == '-');
    /* The digit of a `-` is 0, and takes the borrow back. */
    uint64_t digits = tk_u64_wrapping_add(below, 3 * tk_bit(minus));
    if (tk_lowest_byte(digits) > 9) {
        return tk_none_pair_i128_size();
    }
    if (marks == 0) {
        /* With `return` of the call, clang 19 returns all lengths in memory. */
        tk_option_pair_i128_size found = tk_prefix_of_two_words_i128(minus, tk_sum_of(digits), s);
        if (!found.is_some) {
            return tk_none_pair_i128_size();
        }
        tk_pair_i128_size found_2 = found.value;
        return tk_some_pair_i128_size(found_2);
    }
    uint32_t len = tk_u64_trailing_zeros(marks) / 8;
    tk_option_i128 found = tk_number_in_range_i128(tk_u128_make(UINT64_C(9223372036854775807),
                                                                UINT64_C(18446744073709551615)), TK_MOST_IN_WORD, minus,
                                                                    tk_value_by_product(digits, len));
    if (!found.is_some) {
        return tk_none_pair_i128_size();
    }
    tk_i128 number = found.value;
    return tk_some_pair_i128_size(tk_new_pair_i128_size(number, TK_CAST(size_t, len)));
}

/* atoi_fast/src/short_prefix.rt:18 */
TK_HINTED tk_option_pair_i128_size tk_short_prefix_i128(tk_bytes s)
{
    return tk_prefix_of_words_i128(s);
}

/* atoi_core/src/calls.rt:180 */
TK_HINTED tk_result_pair_i128_size tk_prefix_with_sign_i128(bool minus, bool skip, tk_bytes s)
{
    tk_result_pair_u128_size found = tk_prefix_by_size(128, true,
                                                       tk_u128_make(UINT64_C(9223372036854775807),
                                                                    UINT64_C(18446744073709551615)), minus, skip, s);
    if (!found.is_ok) {
        return tk_err_pair_i128_size(found.error);
    }
    tk_u128 magnitude = found.value.first;
    size_t len = found.value.second;
    return tk_ok_pair_i128_size(tk_new_pair_i128_size(tk_from_parts_i128(minus, magnitude), len));
}

/* atoi_core/src/calls.rt:38 */
TK_HINTED tk_result_pair_i128_size tk_atoi_core_parse_prefix_text_i128(bool skip, bool skip_plus, tk_bytes s)
{
    tk_pair_bool_bytes found = tk_take_sign(true, skip_plus, s);
    bool minus = found.first;
    tk_bytes body = found.second;
    tk_result_pair_i128_size found_2 = tk_prefix_with_sign_i128(minus, skip, body);
    if (!found_2.is_ok) {
        return tk_err_pair_i128_size(found_2.error);
    }
    tk_i128 number = found_2.value.first;
    size_t len = found_2.value.second;
    return tk_ok_pair_i128_size(tk_new_pair_i128_size(number, len + (s.len - body.len)));
}

/* atoi_fast/src/called.rt:42 */
TK_HINTED tk_result_pair_i128_size tk_called_parse_prefix_text_i128(bool skip, bool skip_plus, tk_bytes s)
{
    if (s.len >= 16) {
        tk_option_pair_i128_size found = tk_short_prefix_i128(s);
        if (found.is_some) {
            tk_pair_i128_size found_2 = found.value;
            return tk_ok_pair_i128_size(found_2);
        }
    } else {
        if (s.len >= 2) {
            /* Many texts are a number alone. */
            tk_option_i128 found = tk_loaded_slice_i128(s);
            if (found.is_some) {
                tk_i128 number = found.value;
                return tk_ok_pair_i128_size(tk_new_pair_i128_size(number, s.len));
            }
        }
    }
    return tk_atoi_core_parse_prefix_text_i128(skip, skip_plus, s);
}

/* atoi_simd/src/parse_trait.rt:186 */
TK_NOINLINE tk_result_pair_i128_size tk_atoi_simd_parse_prefix_i128(tk_bytes s, bool skip, bool skip_plus)
{
    return tk_called_parse_prefix_text_i128(skip, skip_plus, s);
}

/* atoi_fast/src/short_prefix.rt:290 */
TK_INLINE tk_option_pair_u128_size tk_prefix_in_word_u128(tk_u128 greatest, uint64_t word, uint32_t len, tk_bytes s)
{
    (void)s;
    uint64_t magnitude = tk_value_by_product(tk_u64_wrapping_sub(word, TK_ZEROS), len);
    tk_option_u128 found = tk_number_in_range_u128(greatest, TK_MOST_IN_WORD, false, magnitude);
    if (!found.is_some) {
        return tk_none_pair_u128_size();
    }
    tk_u128 number = found.value;
    return tk_some_pair_u128_size(tk_new_pair_u128_size(number, TK_CAST(size_t, len)));
}

/* atoi_fast/src/short_prefix.rt:276 */
TK_HINTED tk_option_pair_u128_size tk_unsigned_prefix_u128(tk_bytes s)
{
    uint64_t word = tk_load_full(s);
    uint32_t len = tk_leading_digits(word);
    if (len == 0 || len == 8) {
        return tk_none_pair_u128_size();
    }
    return tk_prefix_in_word_u128(tk_u128_make(UINT64_C(18446744073709551615), UINT64_C(18446744073709551615)), word,
                                  len, s);
}

/* atoi_fast/src/short_prefix.rt:18 */
TK_HINTED tk_option_pair_u128_size tk_short_prefix_u128(tk_bytes s)
{
    return tk_unsigned_prefix_u128(s);
}

/* atoi_core/src/calls.rt:180 */
TK_HINTED tk_result_pair_u128_size tk_prefix_with_sign_u128(bool minus, bool skip, tk_bytes s)
{
    tk_result_pair_u128_size found = tk_prefix_by_size(128, false,
                                                       tk_u128_make(UINT64_C(18446744073709551615),
                                                                    UINT64_C(18446744073709551615)), minus, skip, s);
    if (!found.is_ok) {
        return tk_err_pair_u128_size(found.error);
    }
    tk_u128 magnitude = found.value.first;
    size_t len = found.value.second;
    return tk_ok_pair_u128_size(tk_new_pair_u128_size(tk_from_parts_u128(minus, magnitude), len));
}

/* atoi_core/src/calls.rt:38 */
TK_HINTED tk_result_pair_u128_size tk_atoi_core_parse_prefix_text_u128(bool skip, bool skip_plus, tk_bytes s)
{
    tk_pair_bool_bytes found = tk_take_sign(false, skip_plus, s);
    bool minus = found.first;
    tk_bytes body = found.second;
    tk_result_pair_u128_size found_2 = tk_prefix_with_sign_u128(minus, skip, body);
    if (!found_2.is_ok) {
        return tk_err_pair_u128_size(found_2.error);
    }
    tk_u128 number = found_2.value.first;
    size_t len = found_2.value.second;
    return tk_ok_pair_u128_size(tk_new_pair_u128_size(number, len + (s.len - body.len)));
}

/* atoi_fast/src/called.rt:42 */
TK_HINTED tk_result_pair_u128_size tk_called_parse_prefix_text_u128(bool skip, bool skip_plus, tk_bytes s)
{
    if (s.len >= 16) {
        tk_option_pair_u128_size found = tk_short_prefix_u128(s);
        if (found.is_some) {
            tk_pair_u128_size found_2 = found.value;
            return tk_ok_pair_u128_size(found_2);
        }
    } else {
        if (s.len >= 2) {
            /* Many texts are a number alone. */
            tk_option_u128 found = tk_loaded_slice_u128(s);
            if (found.is_some) {
                tk_u128 number = found.value;
                return tk_ok_pair_u128_size(tk_new_pair_u128_size(number, s.len));
            }
        }
    }
    return tk_atoi_core_parse_prefix_text_u128(skip, skip_plus, s);
}

/* atoi_simd/src/parse_trait.rt:174 */
TK_NOINLINE tk_result_pair_u128_size tk_atoi_simd_parse_prefix_u128(tk_bytes s, bool skip, bool skip_plus)
{
    return tk_called_parse_prefix_text_u128(skip, skip_plus, s);
}

/*
 * Parses all of `s`, digits without a sign, as a `T` that is not negative. With `skip`, leading
 * zeros do not count towards a limit of digits. The errors are of every kind, and `s` is the body.
 */
/* atoi_core/src/calls.rt:75 */
TK_HINTED tk_result_i8 tk_atoi_core_whole_pos_i8(bool skip, tk_bytes s)
{
    return tk_whole_with_sign_i8(false, skip, s);
}

/* `atoi_core::whole_pos`, with at most one load more. */
/* atoi_fast/src/called.rt:71 */
TK_HINTED tk_result_i8 tk_called_whole_pos_i8(bool skip, tk_bytes s)
{
    if (s.len >= 2 && '0' <= s.at[0] && s.at[0] <= '9' && s.len < 16) {
        tk_option_i8 found = tk_loaded_slice_i8(s);
        if (found.is_some) {
            int8_t number = found.value;
            return tk_ok_i8(number);
        }
    }
    return tk_atoi_core_whole_pos_i8(skip, s);
}

/* atoi_simd/src/parse_pos_trait.rt:37 */
TK_HINTED tk_result_i8 tk_atoi_simd_parse_pos_i8(tk_bytes s, bool skip)
{
    return tk_called_whole_pos_i8(skip, s);
}

/* atoi_core/src/calls.rt:75 */
TK_HINTED tk_result_u8 tk_atoi_core_whole_pos_u8(bool skip, tk_bytes s)
{
    return tk_whole_with_sign_u8(false, skip, s);
}

/* atoi_fast/src/called.rt:71 */
TK_HINTED tk_result_u8 tk_called_whole_pos_u8(bool skip, tk_bytes s)
{
    if (s.len >= 2 && '0' <= s.at[0] && s.at[0] <= '9' && s.len < 16) {
        tk_option_u8 found = tk_loaded_slice_u8(s);
        if (found.is_some) {
            uint8_t number = found.value;
            return tk_ok_u8(number);
        }
    }
    return tk_atoi_core_whole_pos_u8(skip, s);
}

/* atoi_simd/src/parse_pos_trait.rt:25 */
TK_HINTED tk_result_u8 tk_atoi_simd_parse_pos_u8(tk_bytes s, bool skip)
{
    return tk_called_whole_pos_u8(skip, s);
}

/* atoi_core/src/calls.rt:75 */
TK_HINTED tk_result_i16 tk_atoi_core_whole_pos_i16(bool skip, tk_bytes s)
{
    return tk_whole_with_sign_i16(false, skip, s);
}

/* atoi_fast/src/called.rt:71 */
TK_HINTED tk_result_i16 tk_called_whole_pos_i16(bool skip, tk_bytes s)
{
    if (s.len >= 2 && '0' <= s.at[0] && s.at[0] <= '9' && s.len < 16) {
        tk_option_i16 found = tk_loaded_slice_i16(s);
        if (found.is_some) {
            int16_t number = found.value;
            return tk_ok_i16(number);
        }
    }
    return tk_atoi_core_whole_pos_i16(skip, s);
}

/* atoi_simd/src/parse_pos_trait.rt:61 */
TK_HINTED tk_result_i16 tk_atoi_simd_parse_pos_i16(tk_bytes s, bool skip)
{
    return tk_called_whole_pos_i16(skip, s);
}

/* atoi_core/src/calls.rt:75 */
TK_HINTED tk_result_u16 tk_atoi_core_whole_pos_u16(bool skip, tk_bytes s)
{
    return tk_whole_with_sign_u16(false, skip, s);
}

/* atoi_fast/src/called.rt:71 */
TK_HINTED tk_result_u16 tk_called_whole_pos_u16(bool skip, tk_bytes s)
{
    if (s.len >= 2 && '0' <= s.at[0] && s.at[0] <= '9' && s.len < 16) {
        tk_option_u16 found = tk_loaded_slice_u16(s);
        if (found.is_some) {
            uint16_t number = found.value;
            return tk_ok_u16(number);
        }
    }
    return tk_atoi_core_whole_pos_u16(skip, s);
}

/* atoi_simd/src/parse_pos_trait.rt:49 */
TK_HINTED tk_result_u16 tk_atoi_simd_parse_pos_u16(tk_bytes s, bool skip)
{
    return tk_called_whole_pos_u16(skip, s);
}

/* atoi_core/src/calls.rt:75 */
TK_HINTED tk_result_i32 tk_atoi_core_whole_pos_i32(bool skip, tk_bytes s)
{
    return tk_whole_with_sign_i32(false, skip, s);
}

/* atoi_fast/src/called.rt:71 */
TK_INLINE tk_result_i32 tk_called_whole_pos_i32(bool skip, tk_bytes s)
{
    if (s.len >= 2 && '0' <= s.at[0] && s.at[0] <= '9' && s.len < 16) {
        tk_option_i32 found = tk_loaded_slice_i32(s);
        if (found.is_some) {
            int32_t number = found.value;
            return tk_ok_i32(number);
        }
    }
    return tk_atoi_core_whole_pos_i32(skip, s);
}

/* atoi_simd/src/parse_pos_trait.rt:85 */
TK_HINTED tk_result_i32 tk_atoi_simd_parse_pos_i32(tk_bytes s, bool skip)
{
    return tk_called_whole_pos_i32(skip, s);
}

/* atoi_core/src/calls.rt:75 */
TK_HINTED tk_result_u32 tk_atoi_core_whole_pos_u32(bool skip, tk_bytes s)
{
    return tk_whole_with_sign_u32(false, skip, s);
}

/* atoi_fast/src/called.rt:71 */
TK_INLINE tk_result_u32 tk_called_whole_pos_u32(bool skip, tk_bytes s)
{
    if (s.len >= 2 && '0' <= s.at[0] && s.at[0] <= '9' && s.len < 16) {
        tk_option_u32 found = tk_loaded_slice_u32(s);
        if (found.is_some) {
            uint32_t number = found.value;
            return tk_ok_u32(number);
        }
    }
    return tk_atoi_core_whole_pos_u32(skip, s);
}

/* atoi_simd/src/parse_pos_trait.rt:73 */
TK_HINTED tk_result_u32 tk_atoi_simd_parse_pos_u32(tk_bytes s, bool skip)
{
    return tk_called_whole_pos_u32(skip, s);
}

/* atoi_core/src/calls.rt:75 */
TK_HINTED tk_result_i64 tk_atoi_core_whole_pos_i64(bool skip, tk_bytes s)
{
    return tk_whole_with_sign_i64(false, skip, s);
}

/* atoi_fast/src/called.rt:71 */
TK_INLINE tk_result_i64 tk_called_whole_pos_i64(bool skip, tk_bytes s)
{
    if (s.len >= 2 && '0' <= s.at[0] && s.at[0] <= '9' && s.len < 16) {
        tk_option_i64 found = tk_loaded_slice_i64(s);
        if (found.is_some) {
            int64_t number = found.value;
            return tk_ok_i64(number);
        }
    }
    return tk_atoi_core_whole_pos_i64(skip, s);
}

/* atoi_simd/src/parse_pos_trait.rt:133 */
TK_HINTED tk_result_i64 tk_atoi_simd_parse_pos_i64(tk_bytes s, bool skip)
{
    return tk_called_whole_pos_i64(skip, s);
}

/* atoi_core/src/calls.rt:75 */
TK_HINTED tk_result_u64 tk_atoi_core_whole_pos_u64(bool skip, tk_bytes s)
{
    return tk_whole_with_sign_u64(false, skip, s);
}

/* atoi_fast/src/called.rt:71 */
TK_INLINE tk_result_u64 tk_called_whole_pos_u64(bool skip, tk_bytes s)
{
    if (s.len >= 2 && '0' <= s.at[0] && s.at[0] <= '9' && s.len < 16) {
        tk_option_u64 found = tk_loaded_slice_u64(s);
        if (found.is_some) {
            uint64_t number = found.value;
            return tk_ok_u64(number);
        }
    }
    return tk_atoi_core_whole_pos_u64(skip, s);
}

/* atoi_simd/src/parse_pos_trait.rt:121 */
TK_HINTED tk_result_u64 tk_atoi_simd_parse_pos_u64(tk_bytes s, bool skip)
{
    return tk_called_whole_pos_u64(skip, s);
}

/* atoi_core/src/calls.rt:75 */
TK_HINTED tk_result_i128 tk_atoi_core_whole_pos_i128(bool skip, tk_bytes s)
{
    return tk_whole_with_sign_i128(false, skip, s);
}

/* atoi_fast/src/called.rt:71 */
TK_HINTED tk_result_i128 tk_called_whole_pos_i128(bool skip, tk_bytes s)
{
    if (s.len >= 2 && '0' <= s.at[0] && s.at[0] <= '9' && s.len < 16) {
        tk_option_i128 found = tk_loaded_slice_i128(s);
        if (found.is_some) {
            tk_i128 number = found.value;
            return tk_ok_i128(number);
        }
    }
    return tk_atoi_core_whole_pos_i128(skip, s);
}

/* atoi_simd/src/parse_pos_trait.rt:157 */
TK_HINTED tk_result_i128 tk_atoi_simd_parse_pos_i128(tk_bytes s, bool skip)
{
    return tk_called_whole_pos_i128(skip, s);
}

/* atoi_core/src/calls.rt:75 */
TK_HINTED tk_result_u128 tk_atoi_core_whole_pos_u128(bool skip, tk_bytes s)
{
    return tk_whole_with_sign_u128(false, skip, s);
}

/* atoi_fast/src/called.rt:71 */
TK_HINTED tk_result_u128 tk_called_whole_pos_u128(bool skip, tk_bytes s)
{
    if (s.len >= 2 && '0' <= s.at[0] && s.at[0] <= '9' && s.len < 16) {
        tk_option_u128 found = tk_loaded_slice_u128(s);
        if (found.is_some) {
            tk_u128 number = found.value;
            return tk_ok_u128(number);
        }
    }
    return tk_atoi_core_whole_pos_u128(skip, s);
}

/* atoi_simd/src/parse_pos_trait.rt:145 */
TK_HINTED tk_result_u128 tk_atoi_simd_parse_pos_u128(tk_bytes s, bool skip)
{
    return tk_called_whole_pos_u128(skip, s);
}

/* atoi_fast/src/short_prefix.rt:290 */
TK_INLINE tk_option_pair_i8_size tk_prefix_in_word_i8(tk_u128 greatest, uint64_t word, uint32_t len, tk_bytes s)
{
    (void)s;
    uint64_t magnitude = tk_value_by_product(tk_u64_wrapping_sub(word, TK_ZEROS), len);
    tk_option_i8 found = tk_number_in_range_i8(greatest, TK_MOST_IN_WORD, false, magnitude);
    if (!found.is_some) {
        return tk_none_pair_i8_size();
    }
    int8_t number = found.value;
    return tk_some_pair_i8_size(tk_new_pair_i8_size(number, TK_CAST(size_t, len)));
}

/* atoi_fast/src/short_prefix.rt:276 */
TK_HINTED tk_option_pair_i8_size tk_unsigned_prefix_i8(tk_bytes s)
{
    uint64_t word = tk_load_full(s);
    uint32_t len = tk_leading_digits(word);
    if (len == 0 || len == 8) {
        return tk_none_pair_i8_size();
    }
    return tk_prefix_in_word_i8(tk_u128_of(127), word, len, s);
}

/* `unsigned_prefix`, which counts its load. */
/* atoi_fast/src/short_prefix.rt:34 */
TK_HINTED tk_option_pair_i8_size tk_loaded_prefix_i8(tk_bytes s)
{
    return tk_unsigned_prefix_i8(s);
}

/*
 * Like `whole_pos`, but parses the digits at the start of `s`. Also returns how many there are.
 * The errors are `Empty`, `Size` and `Overflow`.
 */
/* atoi_core/src/calls.rt:102 */
TK_HINTED tk_result_pair_i8_size tk_atoi_core_prefix_pos_i8(bool skip, tk_bytes s)
{
    return tk_prefix_with_sign_i8(false, skip, s);
}

/* `atoi_core::prefix_pos`, with at most one load more. */
/* atoi_fast/src/called.rt:94 */
TK_NOINLINE tk_result_pair_i8_size tk_called_prefix_pos_i8(bool skip, tk_bytes s)
{
    if (s.len >= 1 && '0' <= s.at[0] && s.at[0] <= '9' && s.len >= 16) {
        tk_option_pair_i8_size found = tk_loaded_prefix_i8(s);
        if (found.is_some) {
            tk_pair_i8_size found_2 = found.value;
            return tk_ok_pair_i8_size(found_2);
        }
    }
    return tk_atoi_core_prefix_pos_i8(skip, s);
}

/* atoi_simd/src/parse_pos_trait.rt:42 */
TK_HINTED tk_result_pair_i8_size tk_atoi_simd_parse_prefix_pos_i8(tk_bytes s, bool skip)
{
    return tk_called_prefix_pos_i8(skip, s);
}

/* atoi_fast/src/short_prefix.rt:34 */
TK_HINTED tk_option_pair_u8_size tk_loaded_prefix_u8(tk_bytes s)
{
    return tk_unsigned_prefix_u8(s);
}

/* atoi_core/src/calls.rt:102 */
TK_HINTED tk_result_pair_u8_size tk_atoi_core_prefix_pos_u8(bool skip, tk_bytes s)
{
    return tk_prefix_with_sign_u8(false, skip, s);
}

/* atoi_fast/src/called.rt:94 */
TK_NOINLINE tk_result_pair_u8_size tk_called_prefix_pos_u8(bool skip, tk_bytes s)
{
    if (s.len >= 1 && '0' <= s.at[0] && s.at[0] <= '9' && s.len >= 16) {
        tk_option_pair_u8_size found = tk_loaded_prefix_u8(s);
        if (found.is_some) {
            tk_pair_u8_size found_2 = found.value;
            return tk_ok_pair_u8_size(found_2);
        }
    }
    return tk_atoi_core_prefix_pos_u8(skip, s);
}

/* atoi_simd/src/parse_pos_trait.rt:30 */
TK_HINTED tk_result_pair_u8_size tk_atoi_simd_parse_prefix_pos_u8(tk_bytes s, bool skip)
{
    return tk_called_prefix_pos_u8(skip, s);
}

/* atoi_fast/src/short_prefix.rt:290 */
TK_INLINE tk_option_pair_i16_size tk_prefix_in_word_i16(tk_u128 greatest, uint64_t word, uint32_t len, tk_bytes s)
{
    (void)s;
    uint64_t magnitude = tk_value_by_product(tk_u64_wrapping_sub(word, TK_ZEROS), len);
    tk_option_i16 found = tk_number_in_range_i16(greatest, TK_MOST_IN_WORD, false, magnitude);
    if (!found.is_some) {
        return tk_none_pair_i16_size();
    }
    int16_t number = found.value;
    return tk_some_pair_i16_size(tk_new_pair_i16_size(number, TK_CAST(size_t, len)));
}

/* atoi_fast/src/short_prefix.rt:276 */
TK_HINTED tk_option_pair_i16_size tk_unsigned_prefix_i16(tk_bytes s)
{
    uint64_t word = tk_load_full(s);
    uint32_t len = tk_leading_digits(word);
    if (len == 0 || len == 8) {
        return tk_none_pair_i16_size();
    }
    return tk_prefix_in_word_i16(tk_u128_of(32767), word, len, s);
}

/* atoi_fast/src/short_prefix.rt:34 */
TK_HINTED tk_option_pair_i16_size tk_loaded_prefix_i16(tk_bytes s)
{
    return tk_unsigned_prefix_i16(s);
}

/* atoi_core/src/calls.rt:102 */
TK_HINTED tk_result_pair_i16_size tk_atoi_core_prefix_pos_i16(bool skip, tk_bytes s)
{
    return tk_prefix_with_sign_i16(false, skip, s);
}

/* atoi_fast/src/called.rt:94 */
TK_NOINLINE tk_result_pair_i16_size tk_called_prefix_pos_i16(bool skip, tk_bytes s)
{
    if (s.len >= 1 && '0' <= s.at[0] && s.at[0] <= '9' && s.len >= 16) {
        tk_option_pair_i16_size found = tk_loaded_prefix_i16(s);
        if (found.is_some) {
            tk_pair_i16_size found_2 = found.value;
            return tk_ok_pair_i16_size(found_2);
        }
    }
    return tk_atoi_core_prefix_pos_i16(skip, s);
}

/* atoi_simd/src/parse_pos_trait.rt:66 */
TK_HINTED tk_result_pair_i16_size tk_atoi_simd_parse_prefix_pos_i16(tk_bytes s, bool skip)
{
    return tk_called_prefix_pos_i16(skip, s);
}

/* atoi_fast/src/short_prefix.rt:34 */
TK_HINTED tk_option_pair_u16_size tk_loaded_prefix_u16(tk_bytes s)
{
    return tk_unsigned_prefix_u16(s);
}

/* atoi_core/src/calls.rt:102 */
TK_HINTED tk_result_pair_u16_size tk_atoi_core_prefix_pos_u16(bool skip, tk_bytes s)
{
    return tk_prefix_with_sign_u16(false, skip, s);
}

/* atoi_fast/src/called.rt:94 */
TK_NOINLINE tk_result_pair_u16_size tk_called_prefix_pos_u16(bool skip, tk_bytes s)
{
    if (s.len >= 1 && '0' <= s.at[0] && s.at[0] <= '9' && s.len >= 16) {
        tk_option_pair_u16_size found = tk_loaded_prefix_u16(s);
        if (found.is_some) {
            tk_pair_u16_size found_2 = found.value;
            return tk_ok_pair_u16_size(found_2);
        }
    }
    return tk_atoi_core_prefix_pos_u16(skip, s);
}

/* atoi_simd/src/parse_pos_trait.rt:54 */
TK_HINTED tk_result_pair_u16_size tk_atoi_simd_parse_prefix_pos_u16(tk_bytes s, bool skip)
{
    return tk_called_prefix_pos_u16(skip, s);
}

/* atoi_fast/src/short_prefix.rt:290 */
TK_INLINE tk_option_pair_i32_size tk_prefix_in_word_i32(tk_u128 greatest, uint64_t word, uint32_t len, tk_bytes s)
{
    (void)s;
    uint64_t magnitude = tk_value_by_product(tk_u64_wrapping_sub(word, TK_ZEROS), len);
    tk_option_i32 found = tk_number_in_range_i32(greatest, TK_MOST_IN_WORD, false, magnitude);
    if (!found.is_some) {
        return tk_none_pair_i32_size();
    }
    int32_t number = found.value;
    return tk_some_pair_i32_size(tk_new_pair_i32_size(number, TK_CAST(size_t, len)));
}

/* atoi_fast/src/short_prefix.rt:276 */
TK_INLINE tk_option_pair_i32_size tk_unsigned_prefix_i32(tk_bytes s)
{
    uint64_t word = tk_load_full(s);
    uint32_t len = tk_leading_digits(word);
    if (len == 0 || len == 8) {
        return tk_none_pair_i32_size();
    }
    return tk_prefix_in_word_i32(tk_u128_of(2147483647), word, len, s);
}

/* atoi_fast/src/short_prefix.rt:34 */
TK_INLINE tk_option_pair_i32_size tk_loaded_prefix_i32(tk_bytes s)
{
    return tk_unsigned_prefix_i32(s);
}

/* atoi_core/src/calls.rt:102 */
TK_HINTED tk_result_pair_i32_size tk_atoi_core_prefix_pos_i32(bool skip, tk_bytes s)
{
    return tk_prefix_with_sign_i32(false, skip, s);
}

/* atoi_fast/src/called.rt:94 */
TK_INLINE tk_result_pair_i32_size tk_called_prefix_pos_i32(bool skip, tk_bytes s)
{
    if (s.len >= 1 && '0' <= s.at[0] && s.at[0] <= '9' && s.len >= 16) {
        tk_option_pair_i32_size found = tk_loaded_prefix_i32(s);
        if (found.is_some) {
            tk_pair_i32_size found_2 = found.value;
            return tk_ok_pair_i32_size(found_2);
        }
    }
    return tk_atoi_core_prefix_pos_i32(skip, s);
}

/* atoi_simd/src/parse_pos_trait.rt:90 */
TK_HINTED tk_result_pair_i32_size tk_atoi_simd_parse_prefix_pos_i32(tk_bytes s, bool skip)
{
    return tk_called_prefix_pos_i32(skip, s);
}

/* atoi_fast/src/short_prefix.rt:34 */
TK_INLINE tk_option_pair_u32_size tk_loaded_prefix_u32(tk_bytes s)
{
    return tk_unsigned_prefix_u32(s);
}

/* atoi_core/src/calls.rt:102 */
TK_HINTED tk_result_pair_u32_size tk_atoi_core_prefix_pos_u32(bool skip, tk_bytes s)
{
    return tk_prefix_with_sign_u32(false, skip, s);
}

/* atoi_fast/src/called.rt:94 */
TK_INLINE tk_result_pair_u32_size tk_called_prefix_pos_u32(bool skip, tk_bytes s)
{
    if (s.len >= 1 && '0' <= s.at[0] && s.at[0] <= '9' && s.len >= 16) {
        tk_option_pair_u32_size found = tk_loaded_prefix_u32(s);
        if (found.is_some) {
            tk_pair_u32_size found_2 = found.value;
            return tk_ok_pair_u32_size(found_2);
        }
    }
    return tk_atoi_core_prefix_pos_u32(skip, s);
}

/* atoi_simd/src/parse_pos_trait.rt:78 */
TK_HINTED tk_result_pair_u32_size tk_atoi_simd_parse_prefix_pos_u32(tk_bytes s, bool skip)
{
    return tk_called_prefix_pos_u32(skip, s);
}

/* atoi_fast/src/short_prefix.rt:290 */
TK_INLINE tk_option_pair_i64_size tk_prefix_in_word_i64(tk_u128 greatest, uint64_t word, uint32_t len, tk_bytes s)
{
    (void)s;
    uint64_t magnitude = tk_value_by_product(tk_u64_wrapping_sub(word, TK_ZEROS), len);
    tk_option_i64 found = tk_number_in_range_i64(greatest, TK_MOST_IN_WORD, false, magnitude);
    if (!found.is_some) {
        return tk_none_pair_i64_size();
    }
    int64_t number = found.value;
    return tk_some_pair_i64_size(tk_new_pair_i64_size(number, TK_CAST(size_t, len)));
}

/* atoi_fast/src/short_prefix.rt:276 */
TK_INLINE tk_option_pair_i64_size tk_unsigned_prefix_i64(tk_bytes s)
{
    uint64_t word = tk_load_full(s);
    uint32_t len = tk_leading_digits(word);
    if (len == 0 || len == 8) {
        return tk_none_pair_i64_size();
    }
    return tk_prefix_in_word_i64(tk_u128_of(UINT64_C(9223372036854775807)), word, len, s);
}

/* atoi_fast/src/short_prefix.rt:34 */
TK_INLINE tk_option_pair_i64_size tk_loaded_prefix_i64(tk_bytes s)
{
    return tk_unsigned_prefix_i64(s);
}

/* atoi_core/src/calls.rt:102 */
TK_HINTED tk_result_pair_i64_size tk_atoi_core_prefix_pos_i64(bool skip, tk_bytes s)
{
    return tk_prefix_with_sign_i64(false, skip, s);
}

/* atoi_fast/src/called.rt:94 */
TK_INLINE tk_result_pair_i64_size tk_called_prefix_pos_i64(bool skip, tk_bytes s)
{
    if (s.len >= 1 && '0' <= s.at[0] && s.at[0] <= '9' && s.len >= 16) {
        tk_option_pair_i64_size found = tk_loaded_prefix_i64(s);
        if (found.is_some) {
            tk_pair_i64_size found_2 = found.value;
            return tk_ok_pair_i64_size(found_2);
        }
    }
    return tk_atoi_core_prefix_pos_i64(skip, s);
}

/* atoi_simd/src/parse_pos_trait.rt:138 */
TK_HINTED tk_result_pair_i64_size tk_atoi_simd_parse_prefix_pos_i64(tk_bytes s, bool skip)
{
    return tk_called_prefix_pos_i64(skip, s);
}

/* atoi_fast/src/short_prefix.rt:34 */
TK_INLINE tk_option_pair_u64_size tk_loaded_prefix_u64(tk_bytes s)
{
    return tk_unsigned_prefix_u64(s);
}

/* atoi_core/src/calls.rt:102 */
TK_HINTED tk_result_pair_u64_size tk_atoi_core_prefix_pos_u64(bool skip, tk_bytes s)
{
    return tk_prefix_with_sign_u64(false, skip, s);
}

/* atoi_fast/src/called.rt:94 */
TK_INLINE tk_result_pair_u64_size tk_called_prefix_pos_u64(bool skip, tk_bytes s)
{
    if (s.len >= 1 && '0' <= s.at[0] && s.at[0] <= '9' && s.len >= 16) {
        tk_option_pair_u64_size found = tk_loaded_prefix_u64(s);
        if (found.is_some) {
            tk_pair_u64_size found_2 = found.value;
            return tk_ok_pair_u64_size(found_2);
        }
    }
    return tk_atoi_core_prefix_pos_u64(skip, s);
}

/* atoi_simd/src/parse_pos_trait.rt:126 */
TK_HINTED tk_result_pair_u64_size tk_atoi_simd_parse_prefix_pos_u64(tk_bytes s, bool skip)
{
    return tk_called_prefix_pos_u64(skip, s);
}

/* atoi_fast/src/short_prefix.rt:290 */
TK_INLINE tk_option_pair_i128_size tk_prefix_in_word_i128(tk_u128 greatest, uint64_t word, uint32_t len, tk_bytes s)
{
    (void)s;
    uint64_t magnitude = tk_value_by_product(tk_u64_wrapping_sub(word, TK_ZEROS), len);
    tk_option_i128 found = tk_number_in_range_i128(greatest, TK_MOST_IN_WORD, false, magnitude);
    if (!found.is_some) {
        return tk_none_pair_i128_size();
    }
    tk_i128 number = found.value;
    return tk_some_pair_i128_size(tk_new_pair_i128_size(number, TK_CAST(size_t, len)));
}

/* atoi_fast/src/short_prefix.rt:276 */
TK_HINTED tk_option_pair_i128_size tk_unsigned_prefix_i128(tk_bytes s)
{
    uint64_t word = tk_load_full(s);
    uint32_t len = tk_leading_digits(word);
    if (len == 0 || len == 8) {
        return tk_none_pair_i128_size();
    }
    return tk_prefix_in_word_i128(tk_u128_make(UINT64_C(9223372036854775807), UINT64_C(18446744073709551615)), word,
                                  len, s);
}

/* atoi_fast/src/short_prefix.rt:34 */
TK_HINTED tk_option_pair_i128_size tk_loaded_prefix_i128(tk_bytes s)
{
    return tk_unsigned_prefix_i128(s);
}

/* atoi_core/src/calls.rt:102 */
TK_HINTED tk_result_pair_i128_size tk_atoi_core_prefix_pos_i128(bool skip, tk_bytes s)
{
    return tk_prefix_with_sign_i128(false, skip, s);
}

/* atoi_fast/src/called.rt:94 */
TK_NOINLINE tk_result_pair_i128_size tk_called_prefix_pos_i128(bool skip, tk_bytes s)
{
    if (s.len >= 1 && '0' <= s.at[0] && s.at[0] <= '9' && s.len >= 16) {
        tk_option_pair_i128_size found = tk_loaded_prefix_i128(s);
        if (found.is_some) {
            tk_pair_i128_size found_2 = found.value;
            return tk_ok_pair_i128_size(found_2);
        }
    }
    return tk_atoi_core_prefix_pos_i128(skip, s);
}

/* atoi_simd/src/parse_pos_trait.rt:162 */
TK_HINTED tk_result_pair_i128_size tk_atoi_simd_parse_prefix_pos_i128(tk_bytes s, bool skip)
{
    return tk_called_prefix_pos_i128(skip, s);
}

/* atoi_fast/src/short_prefix.rt:34 */
TK_HINTED tk_option_pair_u128_size tk_loaded_prefix_u128(tk_bytes s)
{
    return tk_unsigned_prefix_u128(s);
}

/* atoi_core/src/calls.rt:102 */
TK_HINTED tk_result_pair_u128_size tk_atoi_core_prefix_pos_u128(bool skip, tk_bytes s)
{
    return tk_prefix_with_sign_u128(false, skip, s);
}

/* atoi_fast/src/called.rt:94 */
TK_NOINLINE tk_result_pair_u128_size tk_called_prefix_pos_u128(bool skip, tk_bytes s)
{
    if (s.len >= 1 && '0' <= s.at[0] && s.at[0] <= '9' && s.len >= 16) {
        tk_option_pair_u128_size found = tk_loaded_prefix_u128(s);
        if (found.is_some) {
            tk_pair_u128_size found_2 = found.value;
            return tk_ok_pair_u128_size(found_2);
        }
    }
    return tk_atoi_core_prefix_pos_u128(skip, s);
}

/* atoi_simd/src/parse_pos_trait.rt:150 */
TK_HINTED tk_result_pair_u128_size tk_atoi_simd_parse_prefix_pos_u128(tk_bytes s, bool skip)
{
    return tk_called_prefix_pos_u128(skip, s);
}

/*
 * Writes `bytes` into `out` from offset `at` on. Each `put_` function returns the offset after what it
 * writes.
 */
/* atoi_core/src/text.rt:115 */
TK_HINTED size_t tk_put_bytes(tk_bytes bytes, tk_room_u8 out, size_t at)
{
    size_t end = at + bytes.len;
    tk_room_u8 to = tk_room_u8_between(out, at, end);
    size_t at_2 = 0;
    while (at_2 < bytes.len) {
        to.at[tk_index(at_2, to.len)] = bytes.at[tk_index(at_2, bytes.len)];
        at_2++;
    }
    return end;
}

/*
 * A long division in base 2^32. On most processors, a 128-bit division calls a function that a library
 * without std cannot link.
 */
/* atoi_core/src/text.rt:145 */
TK_HINTED tk_pair_u128_u8 tk_divide_by_ten(tk_u128 value)
{
    uint64_t high = tk_u128_low(tk_u128_shift_right(value, 64));
    uint64_t low = tk_u128_low(tk_u128_and(value, tk_u128_of(UINT64_C(18446744073709551615))));
    uint64_t middle = ((high % 10) << 32) + (low >> 32);
    uint64_t last = ((middle % 10) << 32) + (low & UINT64_C(0xFFFFFFFF));
    uint64_t below = ((middle / 10) << 32) + last / 10;
    tk_u128 quotient = tk_u128_or(tk_u128_shift_left(tk_u128_of(high / 10), 64), tk_u128_of(below));
    return tk_new_pair_u128_u8(quotient, TK_CAST(uint8_t, last % 10));
}

/* atoi_core/src/text.rt:126 */
TK_NOINLINE size_t tk_put_decimal(tk_u128 value, tk_room_u8 out, size_t at)
{
    tk_pair_u128_u8 found = tk_divide_by_ten(value);
    tk_u128 tens = found.first;
    uint8_t ones = found.second;
    size_t end = tk_u128_equal(tens, tk_u128_of(0)) ? at : tk_put_decimal(tens, out, at);
    const uint8_t bytes[1] = {TK_CAST(uint8_t, '0' + ones)};
    return tk_put_bytes(tk_bytes_of(bytes, 1), out, end);
}

/* atoi_core/src/text.rt:72 */
TK_HINTED tk_bytes tk_shown_front(tk_bytes input)
{
    return tk_bytes_to(input, tk_size_min(TK_SHOWN_BYTES, input.len));
}

/* atoi_core/src/text.rt:171 */
TK_HINTED uint8_t tk_hex_digit(uint8_t digit)
{
    if (digit < 10) {
        return TK_CAST(uint8_t, '0' + digit);
    }
    return TK_CAST(uint8_t, 'A' + TK_CAST(uint8_t, digit - 10));
}

/* atoi_core/src/text.rt:158 */
TK_HINTED size_t tk_put_hex(uint8_t byte, tk_room_u8 out, size_t at)
{
    uint8_t last = tk_hex_digit(TK_CAST(uint8_t, byte % 16));
    if (byte < 16) {
        const uint8_t bytes[1] = {last};
        return tk_put_bytes(tk_bytes_of(bytes, 1), out, at);
    }
    const uint8_t bytes[1] = {tk_hex_digit(TK_CAST(uint8_t, byte / 16))};
    size_t end = tk_put_bytes(tk_bytes_of(bytes, 1), out, at);
    const uint8_t bytes_2[1] = {last};
    return tk_put_bytes(tk_bytes_of(bytes_2, 1), out, end);
}

/* atoi_core/src/text.rt:183 */
TK_HINTED size_t tk_put_hex_list(tk_bytes bytes, tk_room_u8 out, size_t at)
{
    if (bytes.len < 1) {
        return at;
    }
    uint8_t first = bytes.at[0];
    tk_bytes rest = tk_bytes_from(bytes, 1);
    size_t end = tk_put_hex(first, out, at);
    size_t at_2 = 0;
    while (at_2 < rest.len) {
        uint8_t byte = rest.at[at_2];
        at_2++;
        end = tk_put_bytes(TK_TEXT(", "), out, end);
        end = tk_put_hex(byte, out, end);
    }
    return end;
}

/* atoi_core/src/text.rt:80 */
TK_HINTED size_t tk_put_input(tk_bytes input, tk_room_u8 out, size_t at)
{
    size_t end = tk_put_bytes(TK_TEXT("["), out, at);
    size_t end_2 = tk_put_hex_list(tk_shown_front(input), out, end);
    return tk_put_bytes(TK_TEXT("]"), out, end_2);
}

/* atoi_core/src/text.rt:91 */
TK_HINTED size_t tk_put_invalid(tk_u128 number, size_t index, uint8_t *out)
{
    size_t end = tk_put_bytes(TK_TEXT("atoi_simd invalid at index: "), tk_room_u8_of(out, 400), 0);
    size_t end_2 = tk_put_decimal(tk_u128_of(index), tk_room_u8_of(out, 400), end);
    size_t end_3 = tk_put_bytes(TK_TEXT(" it must contain only digits, starting with: "), tk_room_u8_of(out, 400),
                                end_2);
    return tk_put_decimal(number, tk_room_u8_of(out, 400), end_3);
}

/*
 * Writes what `Display` prints to the start of `out`, and returns its length. It shows at most
 * 48 bytes of the slice, in hexadecimal (see the [guide](crate::guide#embedded-systems)).
 */
/* atoi_core/src/text.rt:25 */
TK_HINTED size_t tk_error_text(tk_error self, uint8_t *out)
{
    if (self.tag == TK_ERROR_EMPTY) {
        return tk_put_bytes(TK_TEXT("atoi_simd string is empty"), tk_room_u8_of(out, 400), 0);
    }
    if (self.tag == TK_ERROR_SIZE) {
        size_t length = self.size;
        tk_bytes input = self.bytes;
        size_t end = tk_put_bytes(TK_TEXT("atoi_simd wrong size: "), tk_room_u8_of(out, 400), 0);
        size_t end_2 = tk_put_decimal(tk_u128_of(length), tk_room_u8_of(out, 400), end);
        size_t end_3 = tk_put_bytes(TK_TEXT(" input: "), tk_room_u8_of(out, 400), end_2);
        return tk_put_input(input, tk_room_u8_of(out, 400), end_3);
    }
    if (self.tag == TK_ERROR_OVERFLOW) {
        tk_bytes input = self.bytes;
        size_t end = tk_put_bytes(TK_TEXT("atoi_simd overflow, input: "), tk_room_u8_of(out, 400), 0);
        return tk_put_input(input, tk_room_u8_of(out, 400), end);
    }
    if (self.tag == TK_ERROR_INVALID64) {
        uint64_t number = self.u64;
        size_t index = self.size;
        tk_bytes input = self.bytes;
        size_t end = tk_put_invalid(tk_u128_of(number), index, out);
        size_t end_2 = tk_put_bytes(TK_TEXT("  input: "), tk_room_u8_of(out, 400), end);
        return tk_put_input(input, tk_room_u8_of(out, 400), end_2);
    }
    tk_u128 number = self.u128;
    size_t index = self.size;
    tk_bytes input = self.bytes;
    size_t end = tk_put_invalid(number, index, out);
    size_t end_2 = tk_put_bytes(TK_TEXT(" input: "), tk_room_u8_of(out, 400), end);
    return tk_put_input(input, tk_room_u8_of(out, 400), end_2);
}

/*
 * Parses all of `s`: an optional sign, which is a `-` if `T` is signed or a `+` with `SKIP_PLUS`, then
 * one or more digits. With `SKIP_ZEROES`, leading zeros do not count towards the limit of digits.
 */
/* atoi_simd/src/functions.rt:31 */
TK_HINTED tk_result_i8 tk_parse_i8(bool skip_zeroes, bool skip_plus, tk_bytes s)
{
    return tk_atoi_simd_parse_i8(s, skip_zeroes, skip_plus);
}

/* Says whether a zero or a minus could be left out of `bytes`. */
/* atoi_formats/src/canonical_numbers.rt:126 */
TK_HINTED bool tk_has_needless_byte(tk_bytes bytes)
{
    return (bytes.len >= 2 && bytes.at[0] == '0') || (bytes.len >= 2 && bytes.at[0] == '-' && bytes.at[1] == '0');
}

/*
 * Parses all of `text` as a number that is written as `{}` prints it: without a plus, a needless
 * leading zero or a minus before zero.
 */
/* atoi_formats/src/canonical_numbers.rt:33 */
TK_HINTED tk_option_i8 tk_canonical_i8(tk_bytes text)
{
    tk_result_i8 found = tk_parse_i8(true, false, text);
    if (!found.is_ok) {
        return tk_none_i8();
    }
    int8_t number = found.value;
    if (tk_has_needless_byte(text)) {
        return tk_none_i8();
    }
    return tk_some_i8(number);
}

/* atoi_simd/src/functions.rt:31 */
TK_HINTED tk_result_u8 tk_parse_u8(bool skip_zeroes, bool skip_plus, tk_bytes s)
{
    return tk_atoi_simd_parse_u8(s, skip_zeroes, skip_plus);
}

/* atoi_formats/src/canonical_numbers.rt:33 */
TK_HINTED tk_option_u8 tk_canonical_u8(tk_bytes text)
{
    tk_result_u8 found = tk_parse_u8(true, false, text);
    if (!found.is_ok) {
        return tk_none_u8();
    }
    uint8_t number = found.value;
    if (tk_has_needless_byte(text)) {
        return tk_none_u8();
    }
    return tk_some_u8(number);
}

/* atoi_simd/src/functions.rt:31 */
TK_HINTED tk_result_i16 tk_parse_i16(bool skip_zeroes, bool skip_plus, tk_bytes s)
{
    return tk_atoi_simd_parse_i16(s, skip_zeroes, skip_plus);
}

/* atoi_formats/src/canonical_numbers.rt:33 */
TK_HINTED tk_option_i16 tk_canonical_i16(tk_bytes text)
{
    tk_result_i16 found = tk_parse_i16(true, false, text);
    if (!found.is_ok) {
        return tk_none_i16();
    }
    int16_t number = found.value;
    if (tk_has_needless_byte(text)) {
        return tk_none_i16();
    }
    return tk_some_i16(number);
}

/* atoi_simd/src/functions.rt:31 */
TK_HINTED tk_result_u16 tk_parse_u16(bool skip_zeroes, bool skip_plus, tk_bytes s)
{
    return tk_atoi_simd_parse_u16(s, skip_zeroes, skip_plus);
}

/* atoi_formats/src/canonical_numbers.rt:33 */
TK_HINTED tk_option_u16 tk_canonical_u16(tk_bytes text)
{
    tk_result_u16 found = tk_parse_u16(true, false, text);
    if (!found.is_ok) {
        return tk_none_u16();
    }
    uint16_t number = found.value;
    if (tk_has_needless_byte(text)) {
        return tk_none_u16();
    }
    return tk_some_u16(number);
}

/* atoi_simd/src/functions.rt:31 */
TK_HINTED tk_result_i32 tk_parse_i32(bool skip_zeroes, bool skip_plus, tk_bytes s)
{
    return tk_atoi_simd_parse_i32(s, skip_zeroes, skip_plus);
}

/* atoi_formats/src/canonical_numbers.rt:33 */
TK_HINTED tk_option_i32 tk_canonical_i32(tk_bytes text)
{
    tk_result_i32 found = tk_parse_i32(true, false, text);
    if (!found.is_ok) {
        return tk_none_i32();
    }
    int32_t number = found.value;
    if (tk_has_needless_byte(text)) {
        return tk_none_i32();
    }
    return tk_some_i32(number);
}

/* atoi_simd/src/functions.rt:31 */
TK_HINTED tk_result_u32 tk_parse_u32(bool skip_zeroes, bool skip_plus, tk_bytes s)
{
    return tk_atoi_simd_parse_u32(s, skip_zeroes, skip_plus);
}

/* atoi_formats/src/canonical_numbers.rt:33 */
TK_HINTED tk_option_u32 tk_canonical_u32(tk_bytes text)
{
    tk_result_u32 found = tk_parse_u32(true, false, text);
    if (!found.is_ok) {
        return tk_none_u32();
    }
    uint32_t number = found.value;
    if (tk_has_needless_byte(text)) {
        return tk_none_u32();
    }
    return tk_some_u32(number);
}

/* atoi_simd/src/functions.rt:31 */
TK_HINTED tk_result_i64 tk_parse_i64(bool skip_zeroes, bool skip_plus, tk_bytes s)
{
    return tk_atoi_simd_parse_i64(s, skip_zeroes, skip_plus);
}

/* atoi_formats/src/canonical_numbers.rt:33 */
TK_HINTED tk_option_i64 tk_canonical_i64(tk_bytes text)
{
    tk_result_i64 found = tk_parse_i64(true, false, text);
    if (!found.is_ok) {
        return tk_none_i64();
    }
    int64_t number = found.value;
    if (tk_has_needless_byte(text)) {
        return tk_none_i64();
    }
    return tk_some_i64(number);
}

/* atoi_simd/src/functions.rt:31 */
TK_HINTED tk_result_u64 tk_parse_u64(bool skip_zeroes, bool skip_plus, tk_bytes s)
{
    return tk_atoi_simd_parse_u64(s, skip_zeroes, skip_plus);
}

/* atoi_formats/src/canonical_numbers.rt:33 */
TK_HINTED tk_option_u64 tk_canonical_u64(tk_bytes text)
{
    tk_result_u64 found = tk_parse_u64(true, false, text);
    if (!found.is_ok) {
        return tk_none_u64();
    }
    uint64_t number = found.value;
    if (tk_has_needless_byte(text)) {
        return tk_none_u64();
    }
    return tk_some_u64(number);
}

/* atoi_simd/src/functions.rt:31 */
TK_HINTED tk_result_i128 tk_parse_i128(bool skip_zeroes, bool skip_plus, tk_bytes s)
{
    return tk_atoi_simd_parse_i128(s, skip_zeroes, skip_plus);
}

/* atoi_formats/src/canonical_numbers.rt:33 */
TK_HINTED tk_option_i128 tk_canonical_i128(tk_bytes text)
{
    tk_result_i128 found = tk_parse_i128(true, false, text);
    if (!found.is_ok) {
        return tk_none_i128();
    }
    tk_i128 number = found.value;
    if (tk_has_needless_byte(text)) {
        return tk_none_i128();
    }
    return tk_some_i128(number);
}

/* atoi_simd/src/functions.rt:31 */
TK_HINTED tk_result_u128 tk_parse_u128(bool skip_zeroes, bool skip_plus, tk_bytes s)
{
    return tk_atoi_simd_parse_u128(s, skip_zeroes, skip_plus);
}

/* atoi_formats/src/canonical_numbers.rt:33 */
TK_HINTED tk_option_u128 tk_canonical_u128(tk_bytes text)
{
    tk_result_u128 found = tk_parse_u128(true, false, text);
    if (!found.is_ok) {
        return tk_none_u128();
    }
    tk_u128 number = found.value;
    if (tk_has_needless_byte(text)) {
        return tk_none_u128();
    }
    return tk_some_u128(number);
}

/* Returns what follows `byte` if `text` begins with it, and otherwise `None`. */
/* atoi_formats/src/expected_byte.rt:18 */
TK_HINTED tk_option_bytes tk_strip_byte(tk_bytes text, uint8_t byte)
{
    if (text.len >= 1 && text.at[0] == byte) {
        tk_bytes rest = tk_bytes_from(text, 1);
        return tk_some_bytes(rest);
    }
    return tk_none_bytes();
}

/* Returns what follows a `0` or `-0` at the start of `text`. */
/* atoi_formats/src/json_integers.rt:73 */
TK_HINTED tk_option_bytes tk_after_zero(tk_bytes text)
{
    tk_pair_bool_bytes found = tk_take_sign(true, false, text);
    tk_bytes body = found.second;
    return tk_strip_byte(body, '0');
}

/* Returns `value` as a number of the type. */
/* atoi_core/src/number.rt:30 */
TK_HINTED int8_t tk_from_pos_i8(tk_u128 value)
{
    return tk_from_parts_i8(false, value);
}

/*
 * Like [`parse`], but parses the number at the start of `s`, whatever follows its digits. Returns the
 * number and its length in bytes, a sign and leading zeros included.
 */
/* atoi_simd/src/functions.rt:117 */
TK_HINTED tk_result_pair_i8_size tk_parse_prefix_i8(bool skip_zeroes, bool skip_plus, tk_bytes s)
{
    return tk_atoi_simd_parse_prefix_i8(s, skip_zeroes, skip_plus);
}

/* Returns the number that `text` begins with, and what follows it, which may go on with the number. */
/* atoi_formats/src/json_integers.rt:52 */
TK_HINTED tk_option_pair_i8_bytes tk_number_and_rest_i8(tk_bytes text)
{
    tk_option_bytes found = tk_after_zero(text);
    if (found.is_some) {
        tk_bytes rest = found.value;
        return tk_some_pair_i8_bytes(tk_new_pair_i8_bytes(tk_from_pos_i8(tk_u128_of(0)), rest));
    }
    tk_result_pair_i8_size found_2 = tk_parse_prefix_i8(true, false, text);
    if (!found_2.is_ok) {
        return tk_none_pair_i8_bytes();
    }
    int8_t number = found_2.value.first;
    size_t count = found_2.value.second;
    tk_bytes rest = tk_bytes_from(text, count);
    return tk_some_pair_i8_bytes(tk_new_pair_i8_bytes(number, rest));
}

/* Says whether `rest` begins with a digit, a fraction or an exponent. */
/* atoi_formats/src/json_integers.rt:84 */
TK_HINTED bool tk_goes_on(tk_bytes rest)
{
    return rest.len >= 1
        && (('0' <= rest.at[0] && rest.at[0] <= '9') || rest.at[0] == '.' || rest.at[0] == 'e' || rest.at[0] == 'E');
}

/*
 * Reads the number that `text` begins with, as JSON writes integers: an optional minus, then `0`, or
 * digits of which the first is not `0`. Returns the number, and what follows it.
 */
/* atoi_formats/src/json_integers.rt:33 */
TK_HINTED tk_option_pair_i8_bytes tk_json_integer_i8(tk_bytes text)
{
    tk_option_pair_i8_bytes found = tk_number_and_rest_i8(text);
    if (!found.is_some) {
        return tk_none_pair_i8_bytes();
    }
    int8_t number = found.value.first;
    tk_bytes rest = found.value.second;
    if (tk_goes_on(rest)) {
        return tk_none_pair_i8_bytes();
    }
    return tk_some_pair_i8_bytes(tk_new_pair_i8_bytes(number, rest));
}

/* atoi_core/src/number.rt:30 */
TK_HINTED uint8_t tk_from_pos_u8(tk_u128 value)
{
    return tk_from_parts_u8(false, value);
}

/* atoi_simd/src/functions.rt:117 */
TK_HINTED tk_result_pair_u8_size tk_parse_prefix_u8(bool skip_zeroes, bool skip_plus, tk_bytes s)
{
    return tk_atoi_simd_parse_prefix_u8(s, skip_zeroes, skip_plus);
}

/* atoi_formats/src/json_integers.rt:52 */
TK_HINTED tk_option_pair_u8_bytes tk_number_and_rest_u8(tk_bytes text)
{
    tk_option_bytes found = tk_after_zero(text);
    if (found.is_some) {
        tk_bytes rest = found.value;
        return tk_some_pair_u8_bytes(tk_new_pair_u8_bytes(tk_from_pos_u8(tk_u128_of(0)), rest));
    }
    tk_result_pair_u8_size found_2 = tk_parse_prefix_u8(true, false, text);
    if (!found_2.is_ok) {
        return tk_none_pair_u8_bytes();
    }
    uint8_t number = found_2.value.first;
    size_t count = found_2.value.second;
    tk_bytes rest = tk_bytes_from(text, count);
    return tk_some_pair_u8_bytes(tk_new_pair_u8_bytes(number, rest));
}

/* atoi_formats/src/json_integers.rt:33 */
TK_HINTED tk_option_pair_u8_bytes tk_json_integer_u8(tk_bytes text)
{
    tk_option_pair_u8_bytes found = tk_number_and_rest_u8(text);
    if (!found.is_some) {
        return tk_none_pair_u8_bytes();
    }
    uint8_t number = found.value.first;
    tk_bytes rest = found.value.second;
    if (tk_goes_on(rest)) {
        return tk_none_pair_u8_bytes();
    }
    return tk_some_pair_u8_bytes(tk_new_pair_u8_bytes(number, rest));
}

/* atoi_core/src/number.rt:30 */
TK_HINTED int16_t tk_from_pos_i16(tk_u128 value)
{
    return tk_from_parts_i16(false, value);
}

/* atoi_simd/src/functions.rt:117 */
TK_HINTED tk_result_pair_i16_size tk_parse_prefix_i16(bool skip_zeroes, bool skip_plus, tk_bytes s)
{
    return tk_atoi_simd_parse_prefix_i16(s, skip_zeroes, skip_plus);
}

/* atoi_formats/src/json_integers.rt:52 */
TK_HINTED tk_option_pair_i16_bytes tk_number_and_rest_i16(tk_bytes text)
{
    tk_option_bytes found = tk_after_zero(text);
    if (found.is_some) {
        tk_bytes rest = found.value;
        return tk_some_pair_i16_bytes(tk_new_pair_i16_bytes(tk_from_pos_i16(tk_u128_of(0)), rest));
    }
    tk_result_pair_i16_size found_2 = tk_parse_prefix_i16(true, false, text);
    if (!found_2.is_ok) {
        return tk_none_pair_i16_bytes();
    }
    int16_t number = found_2.value.first;
    size_t count = found_2.value.second;
    tk_bytes rest = tk_bytes_from(text, count);
    return tk_some_pair_i16_bytes(tk_new_pair_i16_bytes(number, rest));
}

/* atoi_formats/src/json_integers.rt:33 */
TK_HINTED tk_option_pair_i16_bytes tk_json_integer_i16(tk_bytes text)
{
    tk_option_pair_i16_bytes found = tk_number_and_rest_i16(text);
    if (!found.is_some) {
        return tk_none_pair_i16_bytes();
    }
    int16_t number = found.value.first;
    tk_bytes rest = found.value.second;
    if (tk_goes_on(rest)) {
        return tk_none_pair_i16_bytes();
    }
    return tk_some_pair_i16_bytes(tk_new_pair_i16_bytes(number, rest));
}

/* atoi_core/src/number.rt:30 */
TK_HINTED uint16_t tk_from_pos_u16(tk_u128 value)
{
    return tk_from_parts_u16(false, value);
}

/* atoi_simd/src/functions.rt:117 */
TK_HINTED tk_result_pair_u16_size tk_parse_prefix_u16(bool skip_zeroes, bool skip_plus, tk_bytes s)
{
    return tk_atoi_simd_parse_prefix_u16(s, skip_zeroes, skip_plus);
}

/* atoi_formats/src/json_integers.rt:52 */
TK_HINTED tk_option_pair_u16_bytes tk_number_and_rest_u16(tk_bytes text)
{
    tk_option_bytes found = tk_after_zero(text);
    if (found.is_some) {
        tk_bytes rest = found.value;
        return tk_some_pair_u16_bytes(tk_new_pair_u16_bytes(tk_from_pos_u16(tk_u128_of(0)), rest));
    }
    tk_result_pair_u16_size found_2 = tk_parse_prefix_u16(true, false, text);
    if (!found_2.is_ok) {
        return tk_none_pair_u16_bytes();
    }
    uint16_t number = found_2.value.first;
    size_t count = found_2.value.second;
    tk_bytes rest = tk_bytes_from(text, count);
    return tk_some_pair_u16_bytes(tk_new_pair_u16_bytes(number, rest));
}

/* atoi_formats/src/json_integers.rt:33 */
TK_HINTED tk_option_pair_u16_bytes tk_json_integer_u16(tk_bytes text)
{
    tk_option_pair_u16_bytes found = tk_number_and_rest_u16(text);
    if (!found.is_some) {
        return tk_none_pair_u16_bytes();
    }
    uint16_t number = found.value.first;
    tk_bytes rest = found.value.second;
    if (tk_goes_on(rest)) {
        return tk_none_pair_u16_bytes();
    }
    return tk_some_pair_u16_bytes(tk_new_pair_u16_bytes(number, rest));
}

/* atoi_core/src/number.rt:30 */
TK_HINTED int32_t tk_from_pos_i32(tk_u128 value)
{
    return tk_from_parts_i32(false, value);
}

/* atoi_simd/src/functions.rt:117 */
TK_HINTED tk_result_pair_i32_size tk_parse_prefix_i32(bool skip_zeroes, bool skip_plus, tk_bytes s)
{
    return tk_atoi_simd_parse_prefix_i32(s, skip_zeroes, skip_plus);
}

/* atoi_formats/src/json_integers.rt:52 */
TK_HINTED tk_option_pair_i32_bytes tk_number_and_rest_i32(tk_bytes text)
{
    tk_option_bytes found = tk_after_zero(text);
    if (found.is_some) {
        tk_bytes rest = found.value;
        return tk_some_pair_i32_bytes(tk_new_pair_i32_bytes(tk_from_pos_i32(tk_u128_of(0)), rest));
    }
    tk_result_pair_i32_size found_2 = tk_parse_prefix_i32(true, false, text);
    if (!found_2.is_ok) {
        return tk_none_pair_i32_bytes();
    }
    int32_t number = found_2.value.first;
    size_t count = found_2.value.second;
    tk_bytes rest = tk_bytes_from(text, count);
    return tk_some_pair_i32_bytes(tk_new_pair_i32_bytes(number, rest));
}

/* atoi_formats/src/json_integers.rt:33 */
TK_HINTED tk_option_pair_i32_bytes tk_json_integer_i32(tk_bytes text)
{
    tk_option_pair_i32_bytes found = tk_number_and_rest_i32(text);
    if (!found.is_some) {
        return tk_none_pair_i32_bytes();
    }
    int32_t number = found.value.first;
    tk_bytes rest = found.value.second;
    if (tk_goes_on(rest)) {
        return tk_none_pair_i32_bytes();
    }
    return tk_some_pair_i32_bytes(tk_new_pair_i32_bytes(number, rest));
}

/* atoi_core/src/number.rt:30 */
TK_HINTED uint32_t tk_from_pos_u32(tk_u128 value)
{
    return tk_from_parts_u32(false, value);
}

/* atoi_simd/src/functions.rt:117 */
TK_HINTED tk_result_pair_u32_size tk_parse_prefix_u32(bool skip_zeroes, bool skip_plus, tk_bytes s)
{
    return tk_atoi_simd_parse_prefix_u32(s, skip_zeroes, skip_plus);
}

/* atoi_formats/src/json_integers.rt:52 */
TK_HINTED tk_option_pair_u32_bytes tk_number_and_rest_u32(tk_bytes text)
{
    tk_option_bytes found = tk_after_zero(text);
    if (found.is_some) {
        tk_bytes rest = found.value;
        return tk_some_pair_u32_bytes(tk_new_pair_u32_bytes(tk_from_pos_u32(tk_u128_of(0)), rest));
    }
    tk_result_pair_u32_size found_2 = tk_parse_prefix_u32(true, false, text);
    if (!found_2.is_ok) {
        return tk_none_pair_u32_bytes();
    }
    uint32_t number = found_2.value.first;
    size_t count = found_2.value.second;
    tk_bytes rest = tk_bytes_from(text, count);
    return tk_some_pair_u32_bytes(tk_new_pair_u32_bytes(number, rest));
}

/* atoi_formats/src/json_integers.rt:33 */
TK_HINTED tk_option_pair_u32_bytes tk_json_integer_u32(tk_bytes text)
{
    tk_option_pair_u32_bytes found = tk_number_and_rest_u32(text);
    if (!found.is_some) {
        return tk_none_pair_u32_bytes();
    }
    uint32_t number = found.value.first;
    tk_bytes rest = found.value.second;
    if (tk_goes_on(rest)) {
        return tk_none_pair_u32_bytes();
    }
    return tk_some_pair_u32_bytes(tk_new_pair_u32_bytes(number, rest));
}

/* atoi_core/src/number.rt:30 */
TK_HINTED int64_t tk_from_pos_i64(tk_u128 value)
{
    return tk_from_parts_i64(false, value);
}

/* atoi_simd/src/functions.rt:117 */
TK_HINTED tk_result_pair_i64_size tk_parse_prefix_i64(bool skip_zeroes, bool skip_plus, tk_bytes s)
{
    return tk_atoi_simd_parse_prefix_i64(s, skip_zeroes, skip_plus);
}

/* atoi_formats/src/json_integers.rt:52 */
TK_HINTED tk_option_pair_i64_bytes tk_number_and_rest_i64(tk_bytes text)
{
    tk_option_bytes found = tk_after_zero(text);
    if (found.is_some) {
        tk_bytes rest = found.value;
        return tk_some_pair_i64_bytes(tk_new_pair_i64_bytes(tk_from_pos_i64(tk_u128_of(0)), rest));
    }
    tk_result_pair_i64_size found_2 = tk_parse_prefix_i64(true, false, text);
    if (!found_2.is_ok) {
        return tk_none_pair_i64_bytes();
    }
    int64_t number = found_2.value.first;
    size_t count = found_2.value.second;
    tk_bytes rest = tk_bytes_from(text, count);
    return tk_some_pair_i64_bytes(tk_new_pair_i64_bytes(number, rest));
}

/* atoi_formats/src/json_integers.rt:33 */
TK_HINTED tk_option_pair_i64_bytes tk_json_integer_i64(tk_bytes text)
{
    tk_option_pair_i64_bytes found = tk_number_and_rest_i64(text);
    if (!found.is_some) {
        return tk_none_pair_i64_bytes();
    }
    int64_t number = found.value.first;
    tk_bytes rest = found.value.second;
    if (tk_goes_on(rest)) {
        return tk_none_pair_i64_bytes();
    }
    return tk_some_pair_i64_bytes(tk_new_pair_i64_bytes(number, rest));
}

/* atoi_core/src/number.rt:30 */
TK_HINTED uint64_t tk_from_pos_u64(tk_u128 value)
{
    return tk_from_parts_u64(false, value);
}

/* atoi_simd/src/functions.rt:117 */
TK_HINTED tk_result_pair_u64_size tk_parse_prefix_u64(bool skip_zeroes, bool skip_plus, tk_bytes s)
{
    return tk_atoi_simd_parse_prefix_u64(s, skip_zeroes, skip_plus);
}

/* atoi_formats/src/json_integers.rt:52 */
TK_HINTED tk_option_pair_u64_bytes tk_number_and_rest_u64(tk_bytes text)
{
    tk_option_bytes found = tk_after_zero(text);
    if (found.is_some) {
        tk_bytes rest = found.value;
        return tk_some_pair_u64_bytes(tk_new_pair_u64_bytes(tk_from_pos_u64(tk_u128_of(0)), rest));
    }
    tk_result_pair_u64_size found_2 = tk_parse_prefix_u64(true, false, text);
    if (!found_2.is_ok) {
        return tk_none_pair_u64_bytes();
    }
    uint64_t number = found_2.value.first;
    size_t count = found_2.value.second;
    tk_bytes rest = tk_bytes_from(text, count);
    return tk_some_pair_u64_bytes(tk_new_pair_u64_bytes(number, rest));
}

/* atoi_formats/src/json_integers.rt:33 */
TK_HINTED tk_option_pair_u64_bytes tk_json_integer_u64(tk_bytes text)
{
    tk_option_pair_u64_bytes found = tk_number_and_rest_u64(text);
    if (!found.is_some) {
        return tk_none_pair_u64_bytes();
    }
    uint64_t number = found.value.first;
    tk_bytes rest = found.value.second;
    if (tk_goes_on(rest)) {
        return tk_none_pair_u64_bytes();
    }
    return tk_some_pair_u64_bytes(tk_new_pair_u64_bytes(number, rest));
}

/* atoi_core/src/number.rt:30 */
TK_HINTED tk_i128 tk_from_pos_i128(tk_u128 value)
{
    return tk_from_parts_i128(false, value);
}

/* atoi_simd/src/functions.rt:117 */
TK_HINTED tk_result_pair_i128_size tk_parse_prefix_i128(bool skip_zeroes, bool skip_plus, tk_bytes s)
{
    return tk_atoi_simd_parse_prefix_i128(s, skip_zeroes, skip_plus);
}

/* atoi_formats/src/json_integers.rt:52 */
TK_HINTED tk_option_pair_i128_bytes tk_number_and_rest_i128(tk_bytes text)
{
    tk_option_bytes found = tk_after_zero(text);
    if (found.is_some) {
        tk_bytes rest = found.value;
        return tk_some_pair_i128_bytes(tk_new_pair_i128_bytes(tk_from_pos_i128(tk_u128_of(0)), rest));
    }
    tk_result_pair_i128_size found_2 = tk_parse_prefix_i128(true, false, text);
    if (!found_2.is_ok) {
        return tk_none_pair_i128_bytes();
    }
    tk_i128 number = found_2.value.first;
    size_t count = found_2.value.second;
    tk_bytes rest = tk_bytes_from(text, count);
    return tk_some_pair_i128_bytes(tk_new_pair_i128_bytes(number, rest));
}

/* atoi_formats/src/json_integers.rt:33 */
TK_HINTED tk_option_pair_i128_bytes tk_json_integer_i128(tk_bytes text)
{
    tk_option_pair_i128_bytes found = tk_number_and_rest_i128(text);
    if (!found.is_some) {
        return tk_none_pair_i128_bytes();
    }
    tk_i128 number = found.value.first;
    tk_bytes rest = found.value.second;
    if (tk_goes_on(rest)) {
        return tk_none_pair_i128_bytes();
    }
    return tk_some_pair_i128_bytes(tk_new_pair_i128_bytes(number, rest));
}

/* atoi_core/src/number.rt:30 */
TK_HINTED tk_u128 tk_from_pos_u128(tk_u128 value)
{
    return tk_from_parts_u128(false, value);
}

/* atoi_simd/src/functions.rt:117 */
TK_HINTED tk_result_pair_u128_size tk_parse_prefix_u128(bool skip_zeroes, bool skip_plus, tk_bytes s)
{
    return tk_atoi_simd_parse_prefix_u128(s, skip_zeroes, skip_plus);
}

/* atoi_formats/src/json_integers.rt:52 */
TK_HINTED tk_option_pair_u128_bytes tk_number_and_rest_u128(tk_bytes text)
{
    tk_option_bytes found = tk_after_zero(text);
    if (found.is_some) {
        tk_bytes rest = found.value;
        return tk_some_pair_u128_bytes(tk_new_pair_u128_bytes(tk_from_pos_u128(tk_u128_of(0)), rest));
    }
    tk_result_pair_u128_size found_2 = tk_parse_prefix_u128(true, false, text);
    if (!found_2.is_ok) {
        return tk_none_pair_u128_bytes();
    }
    tk_u128 number = found_2.value.first;
    size_t count = found_2.value.second;
    tk_bytes rest = tk_bytes_from(text, count);
    return tk_some_pair_u128_bytes(tk_new_pair_u128_bytes(number, rest));
}

/* atoi_formats/src/json_integers.rt:33 */
TK_HINTED tk_option_pair_u128_bytes tk_json_integer_u128(tk_bytes text)
{
    tk_option_pair_u128_bytes found = tk_number_and_rest_u128(text);
    if (!found.is_some) {
        return tk_none_pair_u128_bytes();
    }
    tk_u128 number = found.value.first;
    tk_bytes rest = found.value.second;
    if (tk_goes_on(rest)) {
        return tk_none_pair_u128_bytes();
    }
    return tk_some_pair_u128_bytes(tk_new_pair_u128_bytes(number, rest));
}

/* The fields of `input`, with a separator between them. One more may follow the last field. */
/* atoi_column/src/fields.rt:86 */
TK_INLINE tk_fields tk_fields_new(tk_bytes input, uint8_t separator)
{
    return tk_new_fields(input, separator, false, 0, input.len);
}

/*
 * The lines of `input`, as `str::lines` splits them: a line ends with `\n` or `\r\n`, which are
 * no part of it.
 */
/* atoi_column/src/fields.rt:117 */
TK_INLINE tk_fields tk_fields_lines(tk_bytes input)
{
    return tk_new_fields(input, '\n', true, 0, input.len);
}

/*
 * Returns the index of the next field, and the offset at which it begins. At the end, these are
 * the number of all fields, and the offset at which the input ends. To look for an item, call
 * `Iterator::position` by this name (see the [guide](crate::guide#read-files)).
 */
/* atoi_column/src/fields.rt:177 */
TK_INLINE tk_pair_size_size tk_fields_position(tk_fields self)
{
    return tk_new_pair_size_size(self.index, self.end - self.rest.len);
}

/* Returns the number of a first field of one byte, and what follows its separator. */
/* atoi_column/src/fields.rt:277 */
TK_HINTED tk_option_pair_i8_bytes tk_one_digit_field_i8(tk_bytes rest, uint8_t separator)
{
    if (rest.len >= 2 && rest.at[1] == separator && tk_u8_is_digit(rest.at[0])) {
        tk_bytes following = tk_bytes_from(rest, 2);
        tk_result_i8 found = tk_parse_i8(true, false, tk_bytes_to(rest, 1));
        if (!found.is_ok) {
            return tk_none_pair_i8_bytes();
        }
        int8_t value = found.value;
        return tk_some_pair_i8_bytes(tk_new_pair_i8_bytes(value, following));
    }
    return tk_none_pair_i8_bytes();
}

/* Like [`parse_prefix`], but accepts no sign. */
/* atoi_simd/src/functions.rt:147 */
TK_HINTED tk_result_pair_i8_size tk_parse_prefix_pos_i8(bool skip_zeroes, tk_bytes s)
{
    return tk_atoi_simd_parse_prefix_pos_i8(s, skip_zeroes);
}

/* `parse_prefix` without a plus. Unless some numbers `have_minus`, a first digit says that there is no sign. */
/* atoi_column/src/fields.rt:261 */
TK_HINTED tk_result_pair_i8_size tk_first_number_i8(tk_bytes rest, bool have_minus)
{
    if (rest.len >= 1 && '0' <= rest.at[0] && rest.at[0] <= '9' && !have_minus) {
        return tk_parse_prefix_pos_i8(true, rest);
    }
    return tk_parse_prefix_i8(true, false, rest);
}

/* Returns what follows a field that ends before `tail`, or `None` if no field does. */
/* atoi_column/src/fields.rt:295 */
TK_INLINE tk_option_bytes tk_after_field(tk_bytes tail, uint8_t separator, bool is_lines)
{
    if (tail.len == 0) {
        return tk_some_bytes(tail);
    }
    if (tail.len >= 1 && tail.at[0] == separator) {
        tk_bytes following = tk_bytes_from(tail, 1);
        return tk_some_bytes(following);
    }
    if (tail.len >= 2 && tail.at[0] == '\r' && is_lines && tail.at[1] == separator) {
        tk_bytes following = tk_bytes_from(tail, 2);
        return tk_some_bytes(following);
    }
    return tk_none_bytes();
}

/*
 * Returns the value of the first field of `rest`, and what follows its separator, if the field is a
 * number without a plus.
 */
/* atoi_column/src/fields.rt:234 */
TK_HINTED tk_option_pair_i8_bytes tk_accepted_field_i8(tk_bytes rest, uint8_t separator, bool is_lines, tk_guess guess)
{
    if (guess.mostly_one_digit) {
        tk_option_pair_i8_bytes found = tk_one_digit_field_i8(rest, separator);
        if (found.is_some) {
            int8_t value = found.value.first;
            tk_bytes following = found.value.second;
            return tk_some_pair_i8_bytes(tk_new_pair_i8_bytes(value, following));
        }
    }
    tk_result_pair_i8_size found = tk_first_number_i8(rest, guess.have_minus);
    if (!found.is_ok) {
        return tk_none_pair_i8_bytes();
    }
    int8_t value = found.value.first;
    size_t count = found.value.second;
    tk_option_bytes found_2 = tk_after_field(tk_bytes_from(rest, count), separator, is_lines);
    if (!found_2.is_some) {
        return tk_none_pair_i8_bytes();
    }
    tk_bytes following = found_2.value;
    return tk_some_pair_i8_bytes(tk_new_pair_i8_bytes(value, following));
}

/* atoi_column/src/fields.rt:350 */
TK_INLINE size_t tk_field_len(tk_bytes rest, uint8_t separator)
{
    size_t count = 0;
    size_t at = 0;
    while (at < rest.len) {
        uint8_t byte = rest.at[at];
        at++;
        if (byte == separator) {
            break;
        }
        count++;
    }
    return count;
}

/* Returns the text of a field that a separator ends. */
/* atoi_column/src/fields.rt:357 */
TK_INLINE tk_bytes tk_text_of(tk_bytes field, bool is_lines)
{
    if (field.len >= 1 && field.at[field.len - 1] == '\r' && is_lines) {
        tk_bytes text = tk_bytes_to(field, field.len - 1);
        return text;
    }
    return field;
}

/* atoi_column/src/fields.rt:339 */
TK_INLINE tk_pair_bytes_bytes tk_first_field(tk_bytes rest, uint8_t separator, bool is_lines)
{
    size_t at = tk_field_len(rest, separator);
    tk_bytes field = tk_bytes_to(rest, at);
    tk_bytes tail = tk_bytes_from(rest, at);
    if (tail.len < 1) {
        return tk_new_pair_bytes_bytes(field, tail);
    }
    tk_bytes following = tk_bytes_from(tail, 1);
    return tk_new_pair_bytes_bytes(tk_text_of(field, is_lines), following);
}

/*
 * Returns the item of the first field of `rest`, which may begin with a plus, and what follows its
 * separator.
 */
/* atoi_column/src/fields.rt:311 */
TK_COLD tk_pair_result_i8_field_error_bytes tk_read_field_i8(tk_bytes rest, uint8_t separator, bool is_lines,
                                                             size_t index, size_t place)
{
    tk_pair_bytes_bytes found = tk_first_field(rest, separator, is_lines);
    tk_bytes text = found.first;
    tk_bytes following = found.second;
    tk_result_i8 found_2 = tk_parse_i8(true, true, text);
    if (found_2.is_ok) {
        int8_t value = found_2.value;
        return tk_new_pair_result_i8_field_error_bytes(tk_ok_i8_field_error(value), following);
    }
    tk_error cause = found_2.error;
    tk_field_error error = tk_new_field_error(index, place, text, cause);
    return tk_new_pair_result_i8_field_error_bytes(tk_err_i8_field_error(error), following);
}

/* atoi_column/src/fields.rt:192 */
TK_HINTED tk_option_result_i8_field_error tk_fields_next_i8(tk_fields *self)
{
    tk_bytes rest = self->rest;
    size_t index = self->index;
    if (rest.len == 0) {
        return tk_none_result_i8_field_error();
    }
    self->index = index + 1;
    tk_option_pair_i8_bytes found = tk_accepted_field_i8(rest, self->separator, self->is_lines, tk_no_guess);
    if (found.is_some) {
        int8_t value = found.value.first;
        tk_bytes following = found.value.second;
        self->rest = following;
        return tk_some_result_i8_field_error(tk_ok_i8_field_error(value));
    }
    size_t place = self->end - rest.len;
    tk_pair_result_i8_field_error_bytes found_2 = tk_read_field_i8(rest, self->separator, self->is_lines, index, place);
    tk_result_i8_field_error item = found_2.first;
    tk_bytes following = found_2.second;
    self->rest = following;
    return tk_some_result_i8_field_error(item);
}

/* atoi_column/src/fields.rt:277 */
TK_HINTED tk_option_pair_u8_bytes tk_one_digit_field_u8(tk_bytes rest, uint8_t separator)
{
    if (rest.len >= 2 && rest.at[1] == separator && tk_u8_is_digit(rest.at[0])) {
        tk_bytes following = tk_bytes_from(rest, 2);
        tk_result_u8 found = tk_parse_u8(true, false, tk_bytes_to(rest, 1));
        if (!found.is_ok) {
            return tk_none_pair_u8_bytes();
        }
        uint8_t value = found.value;
        return tk_some_pair_u8_bytes(tk_new_pair_u8_bytes(value, following));
    }
    return tk_none_pair_u8_bytes();
}

/* atoi_simd/src/functions.rt:147 */
TK_HINTED tk_result_pair_u8_size tk_parse_prefix_pos_u8(bool skip_zeroes, tk_bytes s)
{
    return tk_atoi_simd_parse_prefix_pos_u8(s, skip_zeroes);
}

/* atoi_column/src/fields.rt:261 */
TK_HINTED tk_result_pair_u8_size tk_first_number_u8(tk_bytes rest, bool have_minus)
{
    (void)have_minus;
    return tk_parse_prefix_pos_u8(true, rest);
}

/* atoi_column/src/fields.rt:234 */
TK_HINTED tk_option_pair_u8_bytes tk_accepted_field_u8(tk_bytes rest, uint8_t separator, bool is_lines, tk_guess guess)
{
    if (guess.mostly_one_digit) {
        tk_option_pair_u8_bytes found = tk_one_digit_field_u8(rest, separator);
        if (found.is_some) {
            uint8_t value = found.value.first;
            tk_bytes following = found.value.second;
            return tk_some_pair_u8_bytes(tk_new_pair_u8_bytes(value, following));
        }
    }
    tk_result_pair_u8_size found = tk_first_number_u8(rest, guess.have_minus);
    if (!found.is_ok) {
        return tk_none_pair_u8_bytes();
    }
    uint8_t value = found.value.first;
    size_t count = found.value.second;
    tk_option_bytes found_2 = tk_after_field(tk_bytes_from(rest, count), separator, is_lines);
    if (!found_2.is_some) {
        return tk_none_pair_u8_bytes();
    }
    tk_bytes following = found_2.value;
    return tk_some_pair_u8_bytes(tk_new_pair_u8_bytes(value, following));
}

/* atoi_column/src/fields.rt:311 */
TK_COLD tk_pair_result_u8_field_error_bytes tk_read_field_u8(tk_bytes rest, uint8_t separator, bool is_lines,
                                                             size_t index, size_t place)
{
    tk_pair_bytes_bytes found = tk_first_field(rest, separator, is_lines);
    tk_bytes text = found.first;
    tk_bytes following = found.second;
    tk_result_u8 found_2 = tk_parse_u8(true, true, text);
    if (found_2.is_ok) {
        uint8_t value = found_2.value;
        return tk_new_pair_result_u8_field_error_bytes(tk_ok_u8_field_error(value), following);
    }
    tk_error cause = found_2.error;
    tk_field_error error = tk_new_field_error(index, place, text, cause);
    return tk_new_pair_result_u8_field_error_bytes(tk_err_u8_field_error(error), following);
}

/* atoi_column/src/fields.rt:192 */
TK_HINTED tk_option_result_u8_field_error tk_fields_next_u8(tk_fields *self)
{
    tk_bytes rest = self->rest;
    size_t index = self->index;
    if (rest.len == 0) {
        return tk_none_result_u8_field_error();
    }
    self->index = index + 1;
    tk_option_pair_u8_bytes found = tk_accepted_field_u8(rest, self->separator, self->is_lines, tk_no_guess);
    if (found.is_some) {
        uint8_t value = found.value.first;
        tk_bytes following = found.value.second;
        self->rest = following;
        return tk_some_result_u8_field_error(tk_ok_u8_field_error(value));
    }
    size_t place = self->end - rest.len;
    tk_pair_result_u8_field_error_bytes found_2 = tk_read_field_u8(rest, self->separator, self->is_lines, index, place);
    tk_result_u8_field_error item = found_2.first;
    tk_bytes following = found_2.second;
    self->rest = following;
    return tk_some_result_u8_field_error(item);
}

/* atoi_column/src/fields.rt:277 */
TK_HINTED tk_option_pair_i16_bytes tk_one_digit_field_i16(tk_bytes rest, uint8_t separator)
{
    if (rest.len >= 2 && rest.at[1] == separator && tk_u8_is_digit(rest.at[0])) {
        tk_bytes following = tk_bytes_from(rest, 2);
        tk_result_i16 found = tk_parse_i16(true, false, tk_bytes_to(rest, 1));
        if (!found.is_ok) {
            return tk_none_pair_i16_bytes();
        }
        int16_t value = found.value;
        return tk_some_pair_i16_bytes(tk_new_pair_i16_bytes(value, following));
    }
    return tk_none_pair_i16_bytes();
}

/* atoi_simd/src/functions.rt:147 */
TK_HINTED tk_result_pair_i16_size tk_parse_prefix_pos_i16(bool skip_zeroes, tk_bytes s)
{
    return tk_atoi_simd_parse_prefix_pos_i16(s, skip_zeroes);
}

/* atoi_column/src/fields.rt:261 */
TK_HINTED tk_result_pair_i16_size tk_first_number_i16(tk_bytes rest, bool have_minus)
{
    if (rest.len >= 1 && '0' <= rest.at[0] && rest.at[0] <= '9' && !have_minus) {
        return tk_parse_prefix_pos_i16(true, rest);
    }
    return tk_parse_prefix_i16(true, false, rest);
}

/* atoi_column/src/fields.rt:234 */
TK_HINTED tk_option_pair_i16_bytes tk_accepted_field_i16(tk_bytes rest, uint8_t separator, bool is_lines,
                                                         tk_guess guess)
{
    if (guess.mostly_one_digit) {
        tk_option_pair_i16_bytes found = tk_one_digit_field_i16(rest, separator);
        if (found.is_some) {
            int16_t value = found.value.first;
            tk_bytes following = found.value.second;
            return tk_some_pair_i16_bytes(tk_new_pair_i16_bytes(value, following));
        }
    }
    tk_result_pair_i16_size found = tk_first_number_i16(rest, guess.have_minus);
    if (!found.is_ok) {
        return tk_none_pair_i16_bytes();
    }
    int16_t value = found.value.first;
    size_t count = found.value.second;
    tk_option_bytes found_2 = tk_after_field(tk_bytes_from(rest, count), separator, is_lines);
    if (!found_2.is_some) {
        return tk_none_pair_i16_bytes();
    }
    tk_bytes following = found_2.value;
    return tk_some_pair_i16_bytes(tk_new_pair_i16_bytes(value, following));
}

/* atoi_column/src/fields.rt:311 */
TK_COLD tk_pair_result_i16_field_error_bytes tk_read_field_i16(tk_bytes rest, uint8_t separator, bool is_lines,
                                                               size_t index, size_t place)
{
    tk_pair_bytes_bytes found = tk_first_field(rest, separator, is_lines);
    tk_bytes text = found.first;
    tk_bytes following = found.second;
    tk_result_i16 found_2 = tk_parse_i16(true, true, text);
    if (found_2.is_ok) {
        int16_t value = found_2.value;
        return tk_new_pair_result_i16_field_error_bytes(tk_ok_i16_field_error(value), following);
    }
    tk_error cause = found_2.error;
    tk_field_error error = tk_new_field_error(index, place, text, cause);
    return tk_new_pair_result_i16_field_error_bytes(tk_err_i16_field_error(error), following);
}

/* atoi_column/src/fields.rt:192 */
TK_HINTED tk_option_result_i16_field_error tk_fields_next_i16(tk_fields *self)
{
    tk_bytes rest = self->rest;
    size_t index = self->index;
    if (rest.len == 0) {
        return tk_none_result_i16_field_error();
    }
    self->index = index + 1;
    tk_option_pair_i16_bytes found = tk_accepted_field_i16(rest, self->separator, self->is_lines, tk_no_guess);
    if (found.is_some) {
        int16_t value = found.value.first;
        tk_bytes following = found.value.second;
        self->rest = following;
        return tk_some_result_i16_field_error(tk_ok_i16_field_error(value));
    }
    size_t place = self->end - rest.len;
    tk_pair_result_i16_field_error_bytes found_2 = tk_read_field_i16(rest, self->separator, self->is_lines, index,
                                                                     place);
    tk_result_i16_field_error item = found_2.first;
    tk_bytes following = found_2.second;
    self->rest = following;
    return tk_some_result_i16_field_error(item);
}

/* atoi_column/src/fields.rt:277 */
TK_HINTED tk_option_pair_u16_bytes tk_one_digit_field_u16(tk_bytes rest, uint8_t separator)
{
    if (rest.len >= 2 && rest.at[1] == separator && tk_u8_is_digit(rest.at[0])) {
        tk_bytes following = tk_bytes_from(rest, 2);
        tk_result_u16 found = tk_parse_u16(true, false, tk_bytes_to(rest, 1));
        if (!found.is_ok) {
            return tk_none_pair_u16_bytes();
        }
        uint16_t value = found.value;
        return tk_some_pair_u16_bytes(tk_new_pair_u16_bytes(value, following));
    }
    return tk_none_pair_u16_bytes();
}

/* atoi_simd/src/functions.rt:147 */
TK_HINTED tk_result_pair_u16_size tk_parse_prefix_pos_u16(bool skip_zeroes, tk_bytes s)
{
    return tk_atoi_simd_parse_prefix_pos_u16(s, skip_zeroes);
}

/* atoi_column/src/fields.rt:261 */
TK_HINTED tk_result_pair_u16_size tk_first_number_u16(tk_bytes rest, bool have_minus)
{
    (void)have_minus;
    return tk_parse_prefix_pos_u16(true, rest);
}

/* atoi_column/src/fields.rt:234 */
TK_HINTED tk_option_pair_u16_bytes tk_accepted_field_u16(tk_bytes rest, uint8_t separator, bool is_lines,
                                                         tk_guess guess)
{
    if (guess.mostly_one_digit) {
        tk_option_pair_u16_bytes found = tk_one_digit_field_u16(rest, separator);
        if (found.is_some) {
            uint16_t value = found.value.first;
            tk_bytes following = found.value.second;
            return tk_some_pair_u16_bytes(tk_new_pair_u16_bytes(value, following));
        }
    }
    tk_result_pair_u16_size found = tk_first_number_u16(rest, guess.have_minus);
    if (!found.is_ok) {
        return tk_none_pair_u16_bytes();
    }
    uint16_t value = found.value.first;
    size_t count = found.value.second;
    tk_option_bytes found_2 = tk_after_field(tk_bytes_from(rest, count), separator, is_lines);
    if (!found_2.is_some) {
        return tk_none_pair_u16_bytes();
    }
    tk_bytes following = found_2.value;
    return tk_some_pair_u16_bytes(tk_new_pair_u16_bytes(value, following));
}

/* atoi_column/src/fields.rt:311 */
TK_COLD tk_pair_result_u16_field_error_bytes tk_read_field_u16(tk_bytes rest, uint8_t separator, bool is_lines,
                                                               size_t index, size_t place)
{
    tk_pair_bytes_bytes found = tk_first_field(rest, separator, is_lines);
    tk_bytes text = found.first;
    tk_bytes following = found.second;
    tk_result_u16 found_2 = tk_parse_u16(true, true, text);
    if (found_2.is_ok) {
        uint16_t value = found_2.value;
        return tk_new_pair_result_u16_field_error_bytes(tk_ok_u16_field_error(value), following);
    }
    tk_error cause = found_2.error;
    tk_field_error error = tk_new_field_error(index, place, text, cause);
    return tk_new_pair_result_u16_field_error_bytes(tk_err_u16_field_error(error), following);
}

/* atoi_column/src/fields.rt:192 */
TK_HINTED tk_option_result_u16_field_error tk_fields_next_u16(tk_fields *self)
{
    tk_bytes rest = self->rest;
    size_t index = self->index;
    if (rest.len == 0) {
        return tk_none_result_u16_field_error();
    }
    self->index = index + 1;
    tk_option_pair_u16_bytes found = tk_accepted_field_u16(rest, self->separator, self->is_lines, tk_no_guess);
    if (found.is_some) {
        uint16_t value = found.value.first;
        tk_bytes following = found.value.second;
        self->rest = following;
        return tk_some_result_u16_field_error(tk_ok_u16_field_error(value));
    }
    size_t place = self->end - rest.len;
    tk_pair_result_u16_field_error_bytes found_2 = tk_read_field_u16(rest, self->separator, self->is_lines, index,
                                                                     place);
    tk_result_u16_field_error item = found_2.first;
    tk_bytes following = found_2.second;
    self->rest = following;
    return tk_some_result_u16_field_error(item);
}

/* atoi_column/src/fields.rt:277 */
TK_INLINE tk_option_pair_i32_bytes tk_one_digit_field_i32(tk_bytes rest, uint8_t separator)
{
    if (rest.len >= 2 && rest.at[1] == separator && tk_u8_is_digit(rest.at[0])) {
        tk_bytes following = tk_bytes_from(rest, 2);
        tk_result_i32 found = tk_parse_i32(true, false, tk_bytes_to(rest, 1));
        if (!found.is_ok) {
            return tk_none_pair_i32_bytes();
        }
        int32_t value = found.value;
        return tk_some_pair_i32_bytes(tk_new_pair_i32_bytes(value, following));
    }
    return tk_none_pair_i32_bytes();
}

/* atoi_simd/src/functions.rt:147 */
TK_HINTED tk_result_pair_i32_size tk_parse_prefix_pos_i32(bool skip_zeroes, tk_bytes s)
{
    return tk_atoi_simd_parse_prefix_pos_i32(s, skip_zeroes);
}

/* atoi_column/src/fields.rt:261 */
TK_INLINE tk_result_pair_i32_size tk_first_number_i32(tk_bytes rest, bool have_minus)
{
    if (rest.len >= 1 && '0' <= rest.at[0] && rest.at[0] <= '9' && !have_minus) {
        return tk_parse_prefix_pos_i32(true, rest);
    }
    return tk_parse_prefix_i32(true, false, rest);
}

/* atoi_column/src/fields.rt:234 */
TK_INLINE tk_option_pair_i32_bytes tk_accepted_field_i32(tk_bytes rest, uint8_t separator, bool is_lines,
                                                         tk_guess guess)
{
    if (guess.mostly_one_digit) {
        tk_option_pair_i32_bytes found = tk_one_digit_field_i32(rest, separator);
        if (found.is_some) {
            int32_t value = found.value.first;
            tk_bytes following = found.value.second;
            return tk_some_pair_i32_bytes(tk_new_pair_i32_bytes(value, following));
        }
    }
    tk_result_pair_i32_size found = tk_first_number_i32(rest, guess.have_minus);
    if (!found.is_ok) {
        return tk_none_pair_i32_bytes();
    }
    int32_t value = found.value.first;
    size_t count = found.value.second;
    tk_option_bytes found_2 = tk_after_field(tk_bytes_from(rest, count), separator, is_lines);
    if (!found_2.is_some) {
        return tk_none_pair_i32_bytes();
    }
    tk_bytes following = found_2.value;
    return tk_some_pair_i32_bytes(tk_new_pair_i32_bytes(value, following));
}

/* atoi_column/src/fields.rt:311 */
TK_COLD tk_pair_result_i32_field_error_bytes tk_read_field_i32(tk_bytes rest, uint8_t separator, bool is_lines,
                                                               size_t index, size_t place)
{
    tk_pair_bytes_bytes found = tk_first_field(rest, separator, is_lines);
    tk_bytes text = found.first;
    tk_bytes following = found.second;
    tk_result_i32 found_2 = tk_parse_i32(true, true, text);
    if (found_2.is_ok) {
        int32_t value = found_2.value;
        return tk_new_pair_result_i32_field_error_bytes(tk_ok_i32_field_error(value), following);
    }
    tk_error cause = found_2.error;
    tk_field_error error = tk_new_field_error(index, place, text, cause);
    return tk_new_pair_result_i32_field_error_bytes(tk_err_i32_field_error(error), following);
}

/* atoi_column/src/fields.rt:192 */
TK_INLINE tk_option_result_i32_field_error tk_fields_next_i32(tk_fields *self)
{
    tk_bytes rest = self->rest;
    size_t index = self->index;
    if (rest.len == 0) {
        return tk_none_result_i32_field_error();
    }
    self->index = index + 1;
    tk_option_pair_i32_bytes found = tk_accepted_field_i32(rest, self->separator, self->is_lines, tk_no_guess);
    if (found.is_some) {
        int32_t value = found.value.first;
        tk_bytes following = found.value.second;
        self->rest = following;
        return tk_some_result_i32_field_error(tk_ok_i32_field_error(value));
    }
    size_t place = self->end - rest.len;
    tk_pair_result_i32_field_error_bytes found_2 = tk_read_field_i32(rest, self->separator, self->is_lines, index,
                                                                     place);
    tk_result_i32_field_error item = found_2.first;
    tk_bytes following = found_2.second;
    self->rest = following;
    return tk_some_result_i32_field_error(item);
}

/* atoi_column/src/fields.rt:277 */
TK_INLINE tk_option_pair_u32_bytes tk_one_digit_field_u32(tk_bytes rest, uint8_t separator)
{
    if (rest.len >= 2 && rest.at[1] == separator && tk_u8_is_digit(rest.at[0])) {
        tk_bytes following = tk_bytes_from(rest, 2);
        tk_result_u32 found = tk_parse_u32(true, false, tk_bytes_to(rest, 1));
        if (!found.is_ok) {
            return tk_none_pair_u32_bytes();
        }
        uint32_t value = found.value;
        return tk_some_pair_u32_bytes(tk_new_pair_u32_bytes(value, following));
    }
    return tk_none_pair_u32_bytes();
}

/* atoi_simd/src/functions.rt:147 */
TK_HINTED tk_result_pair_u32_size tk_parse_prefix_pos_u32(bool skip_zeroes, tk_bytes s)
{
    return tk_atoi_simd_parse_prefix_pos_u32(s, skip_zeroes);
}

/* atoi_column/src/fields.rt:261 */
TK_INLINE tk_result_pair_u32_size tk_first_number_u32(tk_bytes rest, bool have_minus)
{
    (void)have_minus;
    return tk_parse_prefix_pos_u32(true, rest);
}

/* atoi_column/src/fields.rt:234 */
TK_INLINE tk_option_pair_u32_bytes tk_accepted_field_u32(tk_bytes rest, uint8_t separator, bool is_lines,
                                                         tk_guess guess)
{
    if (guess.mostly_one_digit) {
        tk_option_pair_u32_bytes found = tk_one_digit_field_u32(rest, separator);
        if (found.is_some) {
            uint32_t value = found.value.first;
            tk_bytes following = found.value.second;
            return tk_some_pair_u32_bytes(tk_new_pair_u32_bytes(value, following));
        }
    }
    tk_result_pair_u32_size found = tk_first_number_u32(rest, guess.have_minus);
    if (!found.is_ok) {
        return tk_none_pair_u32_bytes();
    }
    uint32_t value = found.value.first;
    size_t count = found.value.second;
    tk_option_bytes found_2 = tk_after_field(tk_bytes_from(rest, count), separator, is_lines);
    if (!found_2.is_some) {
        return tk_none_pair_u32_bytes();
    }
    tk_bytes following = found_2.value;
    return tk_some_pair_u32_bytes(tk_new_pair_u32_bytes(value, following));
}

/* atoi_column/src/fields.rt:311 */
TK_COLD tk_pair_result_u32_field_error_bytes tk_read_field_u32(tk_bytes rest, uint8_t separator, bool is_lines,
                                                               size_t index, size_t place)
{
    tk_pair_bytes_bytes found = tk_first_field(rest, separator, is_lines);
    tk_bytes text = found.first;
    tk_bytes following = found.second;
    tk_result_u32 found_2 = tk_parse_u32(true, true, text);
    if (found_2.is_ok) {
        uint32_t value = found_2.value;
        return tk_new_pair_result_u32_field_error_bytes(tk_ok_u32_field_error(value), following);
    }
    tk_error cause = found_2.error;
    tk_field_error error = tk_new_field_error(index, place, text, cause);
    return tk_new_pair_result_u32_field_error_bytes(tk_err_u32_field_error(error), following);
}

/* atoi_column/src/fields.rt:192 */
TK_INLINE tk_option_result_u32_field_error tk_fields_next_u32(tk_fields *self)
{
    tk_bytes rest = self->rest;
    size_t index = self->index;
    if (rest.len == 0) {
        return tk_none_result_u32_field_error();
    }
    self->index = index + 1;
    tk_option_pair_u32_bytes found = tk_accepted_field_u32(rest, self->separator, self->is_lines, tk_no_guess);
    if (found.is_some) {
        uint32_t value = found.value.first;
        tk_bytes following = found.value.second;
        self->rest = following;
        return tk_some_result_u32_field_error(tk_ok_u32_field_error(value));
    }
    size_t place = self->end - rest.len;
    tk_pair_result_u32_field_error_bytes found_2 = tk_read_field_u32(rest, self->separator, self->is_lines, index,
                                                                     place);
    tk_result_u32_field_error item = found_2.first;
    tk_bytes following = found_2.second;
    self->rest = following;
    return tk_some_result_u32_field_error(item);
}

/* atoi_column/src/fields.rt:277 */
TK_INLINE tk_option_pair_i64_bytes tk_one_digit_field_i64(tk_bytes rest, uint8_t separator)
{
    if (rest.len >= 2 && rest.at[1] == separator && tk_u8_is_digit(rest.at[0])) {
        tk_bytes following = tk_bytes_from(rest, 2);
        tk_result_i64 found = tk_parse_i64(true, false, tk_bytes_to(rest, 1));
        if (!found.is_ok) {
            return tk_none_pair_i64_bytes();
        }
        int64_t value = found.value;
        return tk_some_pair_i64_bytes(tk_new_pair_i64_bytes(value, following));
    }
    return tk_none_pair_i64_bytes();
}

/* atoi_simd/src/functions.rt:147 */
TK_HINTED tk_result_pair_i64_size tk_parse_prefix_pos_i64(bool skip_zeroes, tk_bytes s)
{
    return tk_atoi_simd_parse_prefix_pos_i64(s, skip_zeroes);
}

/* atoi_column/src/fields.rt:261 */
TK_INLINE tk_result_pair_i64_size tk_first_number_i64(tk_bytes rest, bool have_minus)
{
    if (rest.len >= 1 && '0' <= rest.at[0] && rest.at[0] <= '9' && !have_minus) {
        return tk_parse_prefix_pos_i64(true, rest);
    }
    return tk_parse_prefix_i64(true, false, rest);
}

/* atoi_column/src/fields.rt:234 */
TK_INLINE tk_option_pair_i64_bytes tk_accepted_field_i64(tk_bytes rest, uint8_t separator, bool is_lines,
                                                         tk_guess guess)
{
    if (guess.mostly_one_digit) {
        tk_option_pair_i64_bytes found = tk_one_digit_field_i64(rest, separator);
        if (found.is_some) {
            int64_t value = found.value.first;
            tk_bytes following = found.value.second;
            return tk_some_pair_i64_bytes(tk_new_pair_i64_bytes(value, following));
        }
    }
    tk_result_pair_i64_size found = tk_first_number_i64(rest, guess.have_minus);
    if (!found.is_ok) {
        return tk_none_pair_i64_bytes();
    }
    int64_t value = found.value.first;
    size_t count = found.value.second;
    tk_option_bytes found_2 = tk_after_field(tk_bytes_from(rest, count), separator, is_lines);
    if (!found_2.is_some) {
        return tk_none_pair_i64_bytes();
    }
    tk_bytes following = found_2.value;
    return tk_some_pair_i64_bytes(tk_new_pair_i64_bytes(value, following));
}

/* atoi_column/src/fields.rt:311 */
TK_COLD tk_pair_result_i64_field_error_bytes tk_read_field_i64(tk_bytes rest, uint8_t separator, bool is_lines,
                                                               size_t index, size_t place)
{
    tk_pair_bytes_bytes found = tk_first_field(rest, separator, is_lines);
    tk_bytes text = found.first;
    tk_bytes following = found.second;
    tk_result_i64 found_2 = tk_parse_i64(true, true, text);
    if (found_2.is_ok) {
        int64_t value = found_2.value;
        return tk_new_pair_result_i64_field_error_bytes(tk_ok_i64_field_error(value), following);
    }
    tk_error cause = found_2.error;
    tk_field_error error = tk_new_field_error(index, place, text, cause);
    return tk_new_pair_result_i64_field_error_bytes(tk_err_i64_field_error(error), following);
}

/* atoi_column/src/fields.rt:192 */
TK_INLINE tk_option_result_i64_field_error tk_fields_next_i64(tk_fields *self)
{
    tk_bytes rest = self->rest;
    size_t index = self->index;
    if (rest.len == 0) {
        return tk_none_result_i64_field_error();
    }
    self->index = index + 1;
    tk_option_pair_i64_bytes found = tk_accepted_field_i64(rest, self->separator, self->is_lines, tk_no_guess);
    if (found.is_some) {
        int64_t value = found.value.first;
        tk_bytes following = found.value.second;
        self->rest = following;
        return tk_some_result_i64_field_error(tk_ok_i64_field_error(value));
    }
    size_t place = self->end - rest.len;
    tk_pair_result_i64_field_error_bytes found_2 = tk_read_field_i64(rest, self->separator, self->is_lines, index,
                                                                     place);
    tk_result_i64_field_error item = found_2.first;
    tk_bytes following = found_2.second;
    self->rest = following;
    return tk_some_result_i64_field_error(item);
}

/* atoi_column/src/fields.rt:277 */
TK_INLINE tk_option_pair_u64_bytes tk_one_digit_field_u64(tk_bytes rest, uint8_t separator)
{
    if (rest.len >= 2 && rest.at[1] == separator && tk_u8_is_digit(rest.at[0])) {
        tk_bytes following = tk_bytes_from(rest, 2);
        tk_result_u64 found = tk_parse_u64(true, false, tk_bytes_to(rest, 1));
        if (!found.is_ok) {
            return tk_none_pair_u64_bytes();
        }
        uint64_t value = found.value;
        return tk_some_pair_u64_bytes(tk_new_pair_u64_bytes(value, following));
    }
    return tk_none_pair_u64_bytes();
}

/* atoi_simd/src/functions.rt:147 */
TK_HINTED tk_result_pair_u64_size tk_parse_prefix_pos_u64(bool skip_zeroes, tk_bytes s)
{
    return tk_atoi_simd_parse_prefix_pos_u64(s, skip_zeroes);
}

/* atoi_column/src/fields.rt:261 */
TK_INLINE tk_result_pair_u64_size tk_first_number_u64(tk_bytes rest, bool have_minus)
{
    (void)have_minus;
    return tk_parse_prefix_pos_u64(true, rest);
}

/* atoi_column/src/fields.rt:234 */
TK_INLINE tk_option_pair_u64_bytes tk_accepted_field_u64(tk_bytes rest, uint8_t separator, bool is_lines,
                                                         tk_guess guess)
{
    if (guess.mostly_one_digit) {
        tk_option_pair_u64_bytes found = tk_one_digit_field_u64(rest, separator);
        if (found.is_some) {
            uint64_t value = found.value.first;
            tk_bytes following = found.value.second;
            return tk_some_pair_u64_bytes(tk_new_pair_u64_bytes(value, following));
        }
    }
    tk_result_pair_u64_size found = tk_first_number_u64(rest, guess.have_minus);
    if (!found.is_ok) {
        return tk_none_pair_u64_bytes();
    }
    uint64_t value = found.value.first;
    size_t count = found.value.second;
    tk_option_bytes found_2 = tk_after_field(tk_bytes_from(rest, count), separator, is_lines);
    if (!found_2.is_some) {
        return tk_none_pair_u64_bytes();
    }
    tk_bytes following = found_2.value;
    return tk_some_pair_u64_bytes(tk_new_pair_u64_bytes(value, following));
}

/* atoi_column/src/fields.rt:311 */
TK_COLD tk_pair_result_u64_field_error_bytes tk_read_field_u64(tk_bytes rest, uint8_t separator, bool is_lines,
                                                               size_t index, size_t place)
{
    tk_pair_bytes_bytes found = tk_first_field(rest, separator, is_lines);
    tk_bytes text = found.first;
    tk_bytes following = found.second;
    tk_result_u64 found_2 = tk_parse_u64(true, true, text);
    if (found_2.is_ok) {
        uint64_t value = found_2.value;
        return tk_new_pair_result_u64_field_error_bytes(tk_ok_u64_field_error(value), following);
    }
    tk_error cause = found_2.error;
    tk_field_error error = tk_new_field_error(index, place, text, cause);
    return tk_new_pair_result_u64_field_error_bytes(tk_err_u64_field_error(error), following);
}

/* atoi_column/src/fields.rt:192 */
TK_INLINE tk_option_result_u64_field_error tk_fields_next_u64(tk_fields *self)
{
    tk_bytes rest = self->rest;
    size_t index = self->index;
    if (rest.len == 0) {
        return tk_none_result_u64_field_error();
    }
    self->index = index + 1;
    tk_option_pair_u64_bytes found = tk_accepted_field_u64(rest, self->separator, self->is_lines, tk_no_guess);
    if (found.is_some) {
        uint64_t value = found.value.first;
        tk_bytes following = found.value.second;
        self->rest = following;
        return tk_some_result_u64_field_error(tk_ok_u64_field_error(value));
    }
    size_t place = self->end - rest.len;
    tk_pair_result_u64_field_error_bytes found_2 = tk_read_field_u64(rest, self->separator, self->is_lines, index,
                                                                     place);
    tk_result_u64_field_error item = found_2.first;
    tk_bytes following = found_2.second;
    self->rest = following;
    return tk_some_result_u64_field_error(item);
}

/* atoi_column/src/fields.rt:277 */
TK_HINTED tk_option_pair_i128_bytes tk_one_digit_field_i128(tk_bytes rest, uint8_t separator)
{
    if (rest.len >= 2 && rest.at[1] == separator && tk_u8_is_digit(rest.at[0])) {
        tk_bytes following = tk_bytes_from(rest, 2);
        tk_result_i128 found = tk_parse_i128(true, false, tk_bytes_to(rest, 1));
        if (!found.is_ok) {
            return tk_none_pair_i128_bytes();
        }
        tk_i128 value = found.value;
        return tk_some_pair_i128_bytes(tk_new_pair_i128_bytes(value, following));
    }
    return tk_none_pair_i128_bytes();
}

/* atoi_simd/src/functions.rt:147 */
TK_HINTED tk_result_pair_i128_size tk_parse_prefix_pos_i128(bool skip_zeroes, tk_bytes s)
{
    return tk_atoi_simd_parse_prefix_pos_i128(s, skip_zeroes);
}

/* atoi_column/src/fields.rt:261 */
TK_HINTED tk_result_pair_i128_size tk_first_number_i128(tk_bytes rest, bool have_minus)
{
    if (rest.len >= 1 && '0' <= rest.at[0] && rest.at[0] <= '9' && !have_minus) {
        return tk_parse_prefix_pos_i128(true, rest);
    }
    return tk_parse_prefix_i128(true, false, rest);
}

/* atoi_column/src/fields.rt:234 */
TK_HINTED tk_option_pair_i128_bytes tk_accepted_field_i128(tk_bytes rest, uint8_t separator, bool is_lines,
                                                           tk_guess guess)
{
    if (guess.mostly_one_digit) {
        tk_option_pair_i128_bytes found = tk_one_digit_field_i128(rest, separator);
        if (found.is_some) {
            tk_i128 value = found.value.first;
            tk_bytes following = found.value.second;
            return tk_some_pair_i128_bytes(tk_new_pair_i128_bytes(value, following));
        }
    }
    tk_result_pair_i128_size found = tk_first_number_i128(rest, guess.have_minus);
    if (!found.is_ok) {
        return tk_none_pair_i128_bytes();
    }
    tk_i128 value = found.value.first;
    size_t count = found.value.second;
    tk_option_bytes found_2 = tk_after_field(tk_bytes_from(rest, count), separator, is_lines);
    if (!found_2.is_some) {
        return tk_none_pair_i128_bytes();
    }
    tk_bytes following = found_2.value;
    return tk_some_pair_i128_bytes(tk_new_pair_i128_bytes(value, following));
}

/* atoi_column/src/fields.rt:311 */
TK_COLD tk_pair_result_i128_field_error_bytes tk_read_field_i128(tk_bytes rest, uint8_t separator, bool is_lines,
                                                                 size_t index, size_t place)
{
    tk_pair_bytes_bytes found = tk_first_field(rest, separator, is_lines);
    tk_bytes text = found.first;
    tk_bytes following = found.second;
    tk_result_i128 found_2 = tk_parse_i128(true, true, text);
    if (found_2.is_ok) {
        tk_i128 value = found_2.value;
        return tk_new_pair_result_i128_field_error_bytes(tk_ok_i128_field_error(value), following);
    }
    tk_error cause = found_2.error;
    tk_field_error error = tk_new_field_error(index, place, text, cause);
    return tk_new_pair_result_i128_field_error_bytes(tk_err_i128_field_error(error), following);
}

/* atoi_column/src/fields.rt:192 */
TK_HINTED tk_option_result_i128_field_error tk_fields_next_i128(tk_fields *self)
{
    tk_bytes rest = self->rest;
    size_t index = self->index;
    if (rest.len == 0) {
        return tk_none_result_i128_field_error();
    }
    self->index = index + 1;
    tk_option_pair_i128_bytes found = tk_accepted_field_i128(rest, self->separator, self->is_lines, tk_no_guess);
    if (found.is_some) {
        tk_i128 value = found.value.first;
        tk_bytes following = found.value.second;
        self->rest = following;
        return tk_some_result_i128_field_error(tk_ok_i128_field_error(value));
    }
    size_t place = self->end - rest.len;
    tk_pair_result_i128_field_error_bytes found_2 = tk_read_field_i128(rest, self->separator, self->is_lines, index,
                                                                       place);
    tk_result_i128_field_error item = found_2.first;
    tk_bytes following = found_2.second;
    self->rest = following;
    return tk_some_result_i128_field_error(item);
}

/* atoi_column/src/fields.rt:277 */
TK_HINTED tk_option_pair_u128_bytes tk_one_digit_field_u128(tk_bytes rest, uint8_t separator)
{
    if (rest.len >= 2 && rest.at[1] == separator && tk_u8_is_digit(rest.at[0])) {
        tk_bytes following = tk_bytes_from(rest, 2);
        tk_result_u128 found = tk_parse_u128(true, false, tk_bytes_to(rest, 1));
        if (!found.is_ok) {
            return tk_none_pair_u128_bytes();
        }
        tk_u128 value = found.value;
        return tk_some_pair_u128_bytes(tk_new_pair_u128_bytes(value, following));
    }
    return tk_none_pair_u128_bytes();
}

/* atoi_simd/src/functions.rt:147 */
TK_HINTED tk_result_pair_u128_size tk_parse_prefix_pos_u128(bool skip_zeroes, tk_bytes s)
{
    return tk_atoi_simd_parse_prefix_pos_u128(s, skip_zeroes);
}

/* atoi_column/src/fields.rt:261 */
TK_HINTED tk_result_pair_u128_size tk_first_number_u128(tk_bytes rest, bool have_minus)
{
    (void)have_minus;
    return tk_parse_prefix_pos_u128(true, rest);
}

/* atoi_column/src/fields.rt:234 */
TK_HINTED tk_option_pair_u128_bytes tk_accepted_field_u128(tk_bytes rest, uint8_t separator, bool is_lines,
                                                           tk_guess guess)
{
    if (guess.mostly_one_digit) {
        tk_option_pair_u128_bytes found = tk_one_digit_field_u128(rest, separator);
        if (found.is_some) {
            tk_u128 value = found.value.first;
            tk_bytes following = found.value.second;
            return tk_some_pair_u128_bytes(tk_new_pair_u128_bytes(value, following));
        }
    }
    tk_result_pair_u128_size found = tk_first_number_u128(rest, guess.have_minus);
    if (!found.is_ok) {
        return tk_none_pair_u128_bytes();
    }
    tk_u128 value = found.value.first;
    size_t count = found.value.second;
    tk_option_bytes found_2 = tk_after_field(tk_bytes_from(rest, count), separator, is_lines);
    if (!found_2.is_some) {
        return tk_none_pair_u128_bytes();
    }
    tk_bytes following = found_2.value;
    return tk_some_pair_u128_bytes(tk_new_pair_u128_bytes(value, following));
}

/* atoi_column/src/fields.rt:311 */
TK_COLD tk_pair_result_u128_field_error_bytes tk_read_field_u128(tk_bytes rest, uint8_t separator, bool is_lines,
                                                                 size_t index, size_t place)
{
    tk_pair_bytes_bytes found = tk_first_field(rest, separator, is_lines);
    tk_bytes text = found.first;
    tk_bytes following = found.second;
    tk_result_u128 found_2 = tk_parse_u128(true, true, text);
    if (found_2.is_ok) {
        tk_u128 value = found_2.value;
        return tk_new_pair_result_u128_field_error_bytes(tk_ok_u128_field_error(value), following);
    }
    tk_error cause = found_2.error;
    tk_field_error error = tk_new_field_error(index, place, text, cause);
    return tk_new_pair_result_u128_field_error_bytes(tk_err_u128_field_error(error), following);
}

/* atoi_column/src/fields.rt:192 */
TK_HINTED tk_option_result_u128_field_error tk_fields_next_u128(tk_fields *self)
{
    tk_bytes rest = self->rest;
    size_t index = self->index;
    if (rest.len == 0) {
        return tk_none_result_u128_field_error();
    }
    self->index = index + 1;
    tk_option_pair_u128_bytes found = tk_accepted_field_u128(rest, self->separator, self->is_lines, tk_no_guess);
    if (found.is_some) {
        tk_u128 value = found.value.first;
        tk_bytes following = found.value.second;
        self->rest = following;
        return tk_some_result_u128_field_error(tk_ok_u128_field_error(value));
    }
    size_t place = self->end - rest.len;
    tk_pair_result_u128_field_error_bytes found_2 = tk_read_field_u128(rest, self->separator, self->is_lines, index,
                                                                       place);
    tk_result_u128_field_error item = found_2.first;
    tk_bytes following = found_2.second;
    self->rest = following;
    return tk_some_result_u128_field_error(item);
}

/* Returns the word of the bytes that end a field, and how many they are. */
/* atoi_column/src/guesses.rt:70 */
TK_INLINE tk_pair_u64_size tk_end_of(uint8_t separator, bool is_lines, bool has_return)
{
    if (has_return && is_lines && separator != '\r') {
        return tk_new_pair_u64_size(256 * TK_CAST(uint64_t, separator) + TK_CAST(uint64_t, '\r'), 2);
    }
    return tk_new_pair_u64_size(TK_CAST(uint64_t, separator), 1);
}

/* Whether a word has room for the digits and what ends the field. */
/* atoi_column/src/guesses.rt:62 */
TK_INLINE bool tk_fits_word(tk_guess guess)
{
    return guess.width < 8 - TK_CAST(size_t, guess.has_return);
}

/* Returns how many bytes of a minus a field begins with. */
/* atoi_column/src/guesses.rt:156 */
TK_INLINE size_t tk_sign_len(bool is_signed, tk_bytes rest)
{
    if (rest.len >= 1 && rest.at[0] == '-' && is_signed) {
        return 1;
    }
    return 0;
}

/* The word of the first eight bytes. */
/* atoi_column/src/words.rt:71 */
TK_INLINE tk_option_u64 tk_first_word(tk_bytes s)
{
    if (s.len < 8) {
        return tk_none_u64();
    }
    return tk_some_u64(tk_u64_load(s.at));
}

/*
 * The number that eight digits spell, each a byte below 16, if `digits` is shifted left by `shift`. The
 * product shifts it, too.
 */
/* atoi_column/src/words.rt:81 */
TK_INLINE uint64_t tk_sum_of_shifted(uint64_t digits, uint32_t shift)
{
    uint64_t tens = (tk_u64_wrapping_mul(digits, UINT64_C(2561) << shift) >> 8) & UINT64_C(0x00FF00FF00FF00FF);
    uint64_t hundreds = tk_u64_wrapping_mul(tens, 0x640001);
    return ((hundreds >> 16) & 0xFFFF) * 10000 + (hundreds >> 48);
}

/*
 * `number_of_width` for at most eight bytes, if the first `end_len` bytes of `end_word` follow the
 * number.
 */
/* atoi_column/src/words.rt:34 */
TK_INLINE tk_option_u64 tk_number_before(tk_bytes s, size_t width, uint64_t end_word, size_t end_len)
{
    tk_option_u64 found = tk_first_word(s);
    if (!found.is_some) {
        return tk_none_u64();
    }
    uint64_t word = found.value;
    uint32_t shift = 64 - 8 * TK_CAST(uint32_t, width);
    /* In two steps, since no shift is by 64 bits. */
    uint64_t end = (end_word << (56 - shift)) << 8;
    uint64_t end_mask = (((UINT64_C(1) << (8 * TK_CAST(uint32_t, end_len))) - 1) << (56 - shift)) << 8;
    uint64_t digits = tk_u64_wrapping_sub(tk_u64_wrapping_sub(word, end), TK_ZEROS >> shift);
    uint64_t above = tk_u64_wrapping_add(digits, UINT64_C(8536140394893047414) >> shift) | digits;
    if ((above & ((UINT64_C(9259542123273814144) >> shift) | end_mask)) != 0) {
        return tk_none_u64();
    }
    return tk_some_u64(tk_sum_of_shifted(digits, shift));
}

/* Returns the value of this sign and magnitude, if it fits the type. */
/* atoi_column/src/guesses.rt:132 */
TK_HINTED tk_option_i8 tk_signed_i8(bool minus, uint64_t magnitude)
{
    /* A type that has all numbers of 64 bits needs no test. */
    if (tk_u128_less(tk_u128_of(127), tk_u128_of(UINT64_C(18446744073709551615)))
        && magnitude > tk_u128_low(tk_u128_of(127)) + tk_bit(minus)) {
        return tk_none_i8();
    }
    return tk_some_i8(tk_from_parts_i8(minus, tk_u128_of(magnitude)));
}

/* `number_of_digits`, if the first `end_len` bytes of `end_word` follow the number. */
/* atoi_column/src/guesses.rt:87 */
TK_HINTED tk_option_pair_i8_size tk_number_with_end_i8(tk_bytes rest, size_t width, uint64_t end_word, size_t end_len)
{
    if (width == 0 || rest.len <= 8) {
        return tk_none_pair_i8_size();
    }
    size_t sign = tk_sign_len(true, rest);
    tk_option_u64 found = tk_number_before(tk_bytes_from(rest, sign), width, end_word, end_len);
    if (!found.is_some) {
        return tk_none_pair_i8_size();
    }
    tk_option_i8 found_2 = tk_signed_i8(sign == 1, found.value);
    if (!found_2.is_some) {
        return tk_none_pair_i8_size();
    }
    int8_t value = found_2.value;
    return tk_some_pair_i8_size(tk_new_pair_i8_size(value, sign + width));
}

/* `number_of_digits` for any width. */
/* atoi_column/src/guesses.rt:145 */
TK_HINTED tk_option_pair_i8_size tk_number_of_any_width_i8(tk_bytes rest, size_t width)
{
    size_t at = tk_size_saturating_add(width, tk_sign_len(true, rest));
    if (at > rest.len) {
        return tk_none_pair_i8_size();
    }
    tk_bytes text = tk_bytes_to(rest, at);
    tk_result_i8 found = tk_parse_i8(false, false, text);
    if (!found.is_ok) {
        return tk_none_pair_i8_size();
    }
    return tk_some_pair_i8_size(tk_new_pair_i8_size(found.value, text.len));
}

/*
 * Returns the number that the first `width` bytes of `s` spell, or `None` if one is no digit or `s` has
 * fewer than eight bytes.
 */
/* atoi_column/src/words.rt:15 */
TK_INLINE tk_option_u64 tk_number_of_width(tk_bytes s, size_t width)
{
    if (width <= 8) {
        return tk_number_before(s, width, 0, 0);
    }
    size_t front = width - 8;
    tk_option_u64 found = tk_number_before(s, front, 0, 0);
    if (!found.is_some) {
        return tk_none_u64();
    }
    uint64_t high = found.value;
    tk_option_u64 found_2 = tk_number_before(tk_bytes_from(s, front), 8, 0, 0);
    if (!found_2.is_some) {
        return tk_none_u64();
    }
    uint64_t low = found_2.value;
    return tk_some_u64(high * 100000000 + low);
}

/*
 * Returns the number that `rest` begins with, and its length, if it has `width` digits, perhaps after a
 * minus.
 */
/* atoi_column/src/guesses.rt:114 */
TK_HINTED tk_option_pair_i8_size tk_number_of_digits_i8(tk_bytes rest, size_t width)
{
    if (width == 0 || width > 16) {
        return tk_number_of_any_width_i8(rest, width);
    }
    if (rest.len <= tk_size_max(width, 8)) {
        return tk_none_pair_i8_size();
    }
    size_t sign = tk_sign_len(true, rest);
    tk_option_u64 found = tk_number_of_width(tk_bytes_from(rest, sign), width);
    if (!found.is_some) {
        return tk_none_pair_i8_size();
    }
    tk_option_i8 found_2 = tk_signed_i8(sign == 1, found.value);
    if (!found_2.is_some) {
        return tk_none_pair_i8_size();
    }
    int8_t value = found_2.value;
    return tk_some_pair_i8_size(tk_new_pair_i8_size(value, sign + width));
}

/* Whether `s` has two bytes or more, and begins with the `count` bytes of the word `bytes`. */
/* atoi_column/src/words.rt:58 */
TK_INLINE bool tk_starts_with(tk_bytes s, uint64_t bytes, size_t count)
{
    if (s.len >= 2) {
        const uint8_t *two = s.at;
        return (TK_CAST(uint64_t, tk_u16_load(two)) & ((UINT64_C(1) << (8 * count)) - 1)) == bytes;
    }
    return false;
}

/* `accepted_field`, if the field looks as guessed. */
/* atoi_column/src/fields/read.rt:231 */
TK_HINTED tk_option_pair_i8_bytes tk_guessed_field_i8(tk_bytes rest, uint8_t separator, bool is_lines, tk_guess guess)
{
    tk_pair_u64_size found = tk_end_of(separator, is_lines, guess.has_return);
    uint64_t end_word = found.first;
    size_t end_len = found.second;
    if (tk_fits_word(guess)) {
        tk_option_pair_i8_size found_2 = tk_number_with_end_i8(rest, guess.width, end_word, end_len);
        if (!found_2.is_some) {
            return tk_none_pair_i8_bytes();
        }
        int8_t value = found_2.value.first;
        size_t count = found_2.value.second;
        return tk_some_pair_i8_bytes(tk_new_pair_i8_bytes(value, tk_bytes_from(rest, count + end_len)));
    }
    tk_option_pair_i8_size found_2 = tk_number_of_digits_i8(rest, guess.width);
    if (!found_2.is_some) {
        return tk_none_pair_i8_bytes();
    }
    int8_t value = found_2.value.first;
    size_t count = found_2.value.second;
    if (!tk_starts_with(tk_bytes_from(rest, count), end_word, end_len)) {
        return tk_none_pair_i8_bytes();
    }
    return tk_some_pair_i8_bytes(tk_new_pair_i8_bytes(value, tk_bytes_from(rest, count + end_len)));
}

/* `next_number`, if the field looks as guessed. */
/* atoi_column/src/fields/read.rt:179 */
TK_HINTED tk_option_i8 tk_fields_guessed_number_i8(tk_fields *self, tk_guess guess)
{
    tk_bytes rest = self->rest;
    size_t index = self->index;
    tk_option_pair_i8_bytes found = tk_guessed_field_i8(rest, self->separator, self->is_lines, guess);
    if (!found.is_some) {
        return tk_none_i8();
    }
    int8_t value = found.value.first;
    tk_bytes following = found.value.second;
    self->index = index + 1;
    self->rest = following;
    return tk_some_i8(value);
}

/* Returns the number of the next field, if it is one. Otherwise, nothing changes. */
/* atoi_column/src/fields/read.rt:194 */
TK_HINTED tk_option_i8 tk_fields_next_number_i8(tk_fields *self, tk_guess guess)
{
    tk_bytes rest = self->rest;
    size_t index = self->index;
    if (rest.len == 0) {
        return tk_none_i8();
    }
    tk_option_pair_i8_bytes found = tk_accepted_field_i8(rest, self->separator, self->is_lines, guess);
    if (found.is_some) {
        int8_t value = found.value.first;
        tk_bytes following = found.value.second;
        self->index = index + 1;
        self->rest = following;
        return tk_some_i8(value);
    }
    size_t place = self->end - rest.len;
    tk_pair_result_i8_field_error_bytes found_2 = tk_read_field_i8(rest, self->separator, self->is_lines, index, place);
    tk_result_i8_field_error item = found_2.first;
    tk_bytes following = found_2.second;
    if (!item.is_ok) {
        return tk_none_i8();
    }
    int8_t value = item.value;
    self->index = index + 1;
    self->rest = following;
    return tk_some_i8(value);
}

/* Reads at most `most` numbers to `values[from..]`. With `GUESSES`, they look as guessed. */
/* atoi_column/src/fields/read.rt:140 */
TK_NOINLINE size_t tk_fields_read_part_i8(bool guesses, tk_fields *self, tk_room_i8 values, size_t from, size_t most,
                                          tk_guess guess)
{
    /* The smaller one of both, so that rustc 1.95 tests no index below it. */
    size_t end = tk_size_min(values.len, from + most);
    /* While numbers are written to memory, these fields stay in registers. */
    tk_fields fields = tk_new_fields(self->rest, self->separator, self->is_lines, self->index, self->end);
    size_t at = from;
    while (at < end) {
        tk_option_i8 next = guesses ? tk_fields_guessed_number_i8(&fields, guess)
            : tk_fields_next_number_i8(&fields, guess);
        if (next.is_some) {
            int8_t value = next.value;
            values.at[tk_index(at, values.len)] = value;
            at++;
        } else {
            break;
        }
    }
    *self = fields;
    return at - from;
}

/* `read_part` for numbers of any width. */
/* atoi_column/src/fields/read.rt:96 */
TK_HINTED size_t tk_fields_read_plain_i8(tk_fields *self, tk_room_i8 values, size_t from, size_t most, tk_guess guess)
{
    /* Each case has a loop of its own, since `read_part` is inlined. */
    if (guess.mostly_one_digit) {
        return tk_fields_read_part_i8(false, self, values, from, most, tk_no_guess);
    }
    if (guess.have_minus) {
        return tk_fields_read_part_i8(false, self, values, from, most, tk_with_minus);
    }
    return tk_fields_read_part_i8(false, self, values, from, most, tk_long);
}

/* atoi_core/src/number.rt:139 */
TK_HINTED tk_pair_bool_u128 tk_parts_i8(int8_t self)
{
    return tk_new_pair_bool_u128(self < 0, tk_u128_of(tk_i8_unsigned_abs(self)));
}

/*
 * Guesses that the fields of `rest` look like those before, which have these numbers and `used` bytes.
 * If a field has less than 2.75 bytes on average, most have one digit.
 */
/* atoi_column/src/guesses.rt:36 */
TK_NOINLINE tk_guess tk_guess_after_i8(tk_slice_i8 numbers, size_t used, tk_bytes rest, bool is_lines)
{
    size_t count = tk_size_max(numbers.len, 1);
    size_t count_2 = 0;
    size_t at = 0;
    while (at < numbers.len) {
        int8_t number = numbers.at[at];
        at++;
        if (tk_parts_i8(number).first) {
            count_2++;
        }
    }
    size_t minuses = count_2;
    size_t digits_and_ends = tk_size_saturating_sub(used, minuses);
    size_t each = digits_and_ends / count;
    size_t at_2 = tk_size_saturating_add(tk_sign_len(true, rest), tk_size_saturating_sub(each, 2));
    bool has_return = is_lines && at_2 <= rest.len && tk_bytes_from(rest, at_2).len >= 1
        && tk_bytes_from(rest, at_2).at[0] == '\r';
    size_t found = digits_and_ends % count;
    size_t width = found == 0 ? tk_size_saturating_sub(each, 1 + TK_CAST(size_t, has_return)) : 0;
    return tk_new_guess(width, has_return, used / 11 < count / 4, minuses > count / 8);
}

/*
 * If fields are guessed to have equally many digits, reads numbers of so many to `values[from..]`: no
 * read waits for the end of the number before.
 */
/* atoi_column/src/fields/read.rt:116 */
TK_NOINLINE size_t tk_fields_read_guessed_i8(tk_fields *self, tk_room_i8 values, size_t from, tk_guess guess)
{
    size_t room = values.len - from;
    tk_guess plain = tk_new_guess(guess.width, false, guess.mostly_one_digit, guess.have_minus);
    /* Each case has a loop of its own, since `read_part` is inlined. */
    if (guess.width <= 1) {
        return 0;
    }
    if (tk_fits_word(guess)) {
        return tk_fields_read_part_i8(true, self, values, from, room, guess);
    }
    if (2 <= guess.width && guess.width <= 16 && guess.has_return) {
        return tk_fields_read_part_i8(true, self, values, from, room, guess);
    }
    if (2 <= guess.width && guess.width <= 8) {
        return tk_fields_read_part_i8(true, self, values, from, room, plain);
    }
    if (9 <= guess.width && guess.width <= 16) {
        return tk_fields_read_part_i8(true, self, values, from, room, plain);
    }
    return tk_fields_read_part_i8(true, self, values, from, room, guess);
}

/*
 * Writes the numbers of the next fields to the front of `values`, and returns how many there are. If
 * that is fewer than `values` has room for, it stopped at the end or before a field that is refused,
 * whose error `next` then returns. The other values stay as they are.
 */
/* atoi_column/src/fields/read.rt:55 */
TK_HINTED size_t tk_fields_read_i8(tk_fields *self, tk_room_i8 values)
{
    size_t read = 0;
    size_t part = self->rest.len < TK_SHORT_TEXT ? TK_SHORT_TEXT : TK_PART;
    tk_guess guess = tk_no_guess;
    while (read < values.len) {
        size_t most = tk_size_min(part, values.len - read);
        size_t before = self->rest.len;
        size_t found = tk_fields_read_plain_i8(self, values, read, most, guess);
        size_t from = read;
        read += found;
        if (found < most || read == values.len) {
            break;
        }
        size_t used = tk_size_saturating_sub(before, self->rest.len);
        tk_room_i8 all = tk_room_i8_between(values, from, read);
        guess = tk_guess_after_i8(tk_slice_i8_of(all.at, all.len), used, self->rest, self->is_lines);
        size_t run = tk_fields_read_guessed_i8(self, values, read, guess);
        read += run;
        part = run < TK_PART ? tk_size_min(16 * part, TK_LONG_PART) : TK_PART;
    }
    return read;
}

/* atoi_column/src/guesses.rt:132 */
TK_HINTED tk_option_u8 tk_signed_u8(bool minus, uint64_t magnitude)
{
    /* A type that has all numbers of 64 bits needs no test. */
    if (tk_u128_less(tk_u128_of(255), tk_u128_of(UINT64_C(18446744073709551615)))
        && magnitude > tk_u128_low(tk_u128_of(255)) + tk_bit(minus)) {
        return tk_none_u8();
    }
    return tk_some_u8(tk_from_parts_u8(minus, tk_u128_of(magnitude)));
}

/* atoi_column/src/guesses.rt:87 */
TK_HINTED tk_option_pair_u8_size tk_number_with_end_u8(tk_bytes rest, size_t width, uint64_t end_word, size_t end_len)
{
    if (width == 0 || rest.len <= 8) {
        return tk_none_pair_u8_size();
    }
    size_t sign = tk_sign_len(false, rest);
    tk_option_u64 found = tk_number_before(tk_bytes_from(rest, sign), width, end_word, end_len);
    if (!found.is_some) {
        return tk_none_pair_u8_size();
    }
    tk_option_u8 found_2 = tk_signed_u8(sign == 1, found.value);
    if (!found_2.is_some) {
        return tk_none_pair_u8_size();
    }
    uint8_t value = found_2.value;
    return tk_some_pair_u8_size(tk_new_pair_u8_size(value, sign + width));
}

/* atoi_column/src/guesses.rt:145 */
TK_HINTED tk_option_pair_u8_size tk_number_of_any_width_u8(tk_bytes rest, size_t width)
{
    size_t at = tk_size_saturating_add(width, tk_sign_len(false, rest));
    if (at > rest.len) {
        return tk_none_pair_u8_size();
    }
    tk_bytes text = tk_bytes_to(rest, at);
    tk_result_u8 found = tk_parse_u8(false, false, text);
    if (!found.is_ok) {
        return tk_none_pair_u8_size();
    }
    return tk_some_pair_u8_size(tk_new_pair_u8_size(found.value, text.len));
}

/* atoi_column/src/guesses.rt:114 */
TK_HINTED tk_option_pair_u8_size tk_number_of_digits_u8(tk_bytes rest, size_t width)
{
    if (width == 0 || width > 16) {
        return tk_number_of_any_width_u8(rest, width);
    }
    if (rest.len <= tk_size_max(width, 8)) {
        return tk_none_pair_u8_size();
    }
    size_t sign = tk_sign_len(false, rest);
    tk_option_u64 found = tk_number_of_width(tk_bytes_from(rest, sign), width);
    if (!found.is_some) {
        return tk_none_pair_u8_size();
    }
    tk_option_u8 found_2 = tk_signed_u8(sign == 1, found.value);
    if (!found_2.is_some) {
        return tk_none_pair_u8_size();
    }
    uint8_t value = found_2.value;
    return tk_some_pair_u8_size(tk_new_pair_u8_size(value, sign + width));
}

/* atoi_column/src/fields/read.rt:231 */
TK_HINTED tk_option_pair_u8_bytes tk_guessed_field_u8(tk_bytes rest, uint8_t separator, bool is_lines, tk_guess guess)
{
    tk_pair_u64_size found = tk_end_of(separator, is_lines, guess.has_return);
    uint64_t end_word = found.first;
    size_t end_len = found.second;
    if (tk_fits_word(guess)) {
        tk_option_pair_u8_size found_2 = tk_number_with_end_u8(rest, guess.width, end_word, end_len);
        if (!found_2.is_some) {
            return tk_none_pair_u8_bytes();
        }
        uint8_t value = found_2.value.first;
        size_t count = found_2.value.second;
        return tk_some_pair_u8_bytes(tk_new_pair_u8_bytes(value, tk_bytes_from(rest, count + end_len)));
    }
    tk_option_pair_u8_size found_2 = tk_number_of_digits_u8(rest, guess.width);
    if (!found_2.is_some) {
        return tk_none_pair_u8_bytes();
    }
    uint8_t value = found_2.value.first;
    size_t count = found_2.value.second;
    if (!tk_starts_with(tk_bytes_from(rest, count), end_word, end_len)) {
        return tk_none_pair_u8_bytes();
    }
    return tk_some_pair_u8_bytes(tk_new_pair_u8_bytes(value, tk_bytes_from(rest, count + end_len)));
}

/* atoi_column/src/fields/read.rt:179 */
TK_HINTED tk_option_u8 tk_fields_guessed_number_u8(tk_fields *self, tk_guess guess)
{
    tk_bytes rest = self->rest;
    size_t index = self->index;
    tk_option_pair_u8_bytes found = tk_guessed_field_u8(rest, self->separator, self->is_lines, guess);
    if (!found.is_some) {
        return tk_none_u8();
    }
    uint8_t value = found.value.first;
    tk_bytes following = found.value.second;
    self->index = index + 1;
    self->rest = following;
    return tk_some_u8(value);
}

/* atoi_column/src/fields/read.rt:194 */
TK_HINTED tk_option_u8 tk_fields_next_number_u8(tk_fields *self, tk_guess guess)
{
    tk_bytes rest = self->rest;
    size_t index = self->index;
    if (rest.len == 0) {
        return tk_none_u8();
    }
    tk_option_pair_u8_bytes found = tk_accepted_field_u8(rest, self->separator, self->is_lines, guess);
    if (found.is_some) {
        uint8_t value = found.value.first;
        tk_bytes following = found.value.second;
        self->index = index + 1;
        self->rest = following;
        return tk_some_u8(value);
    }
    size_t place = self->end - rest.len;
    tk_pair_result_u8_field_error_bytes found_2 = tk_read_field_u8(rest, self->separator, self->is_lines, index, place);
    tk_result_u8_field_error item = found_2.first;
    tk_bytes following = found_2.second;
    if (!item.is_ok) {
        return tk_none_u8();
    }
    uint8_t value = item.value;
    self->index = index + 1;
    self->rest = following;
    return tk_some_u8(value);
}

/* atoi_column/src/fields/read.rt:140 */
TK_NOINLINE size_t tk_fields_read_part_u8(bool guesses, tk_fields *self, tk_room_u8 values, size_t from, size_t most,
                                          tk_guess guess)
{
    /* The smaller one of both, so that rustc 1.95 tests no index below it. */
    size_t end = tk_size_min(values.len, from + most);
    /* While numbers are written to memory, these fields stay in registers. */
    tk_fields fields = tk_new_fields(self->rest, self->separator, self->is_lines, self->index, self->end);
    size_t at = from;
    while (at < end) {
        tk_option_u8 next = guesses ? tk_fields_guessed_number_u8(&fields, guess)
            : tk_fields_next_number_u8(&fields, guess);
        if (next.is_some) {
            uint8_t value = next.value;
            values.at[tk_index(at, values.len)] = value;
            at++;
        } else {
            break;
        }
    }
    *self = fields;
    return at - from;
}

/* atoi_column/src/fields/read.rt:96 */
TK_HINTED size_t tk_fields_read_plain_u8(tk_fields *self, tk_room_u8 values, size_t from, size_t most, tk_guess guess)
{
    /* Each case has a loop of its own, since `read_part` is inlined. */
    if (guess.mostly_one_digit) {
        return tk_fields_read_part_u8(false, self, values, from, most, tk_no_guess);
    }
    return tk_fields_read_part_u8(false, self, values, from, most, tk_long);
}

/* atoi_core/src/number.rt:111 */
TK_HINTED tk_pair_bool_u128 tk_parts_u8(uint8_t self)
{
    return tk_new_pair_bool_u128(false, tk_u128_of(self));
}

/* atoi_column/src/guesses.rt:36 */
TK_NOINLINE tk_guess tk_guess_after_u8(tk_bytes numbers, size_t used, tk_bytes rest, bool is_lines)
{
    size_t count = tk_size_max(numbers.len, 1);
    size_t count_2 = 0;
    size_t at = 0;
    while (at < numbers.len) {
        uint8_t number = numbers.at[at];
        at++;
        if (tk_parts_u8(number).first) {
            count_2++;
        }
    }
    size_t minuses = count_2;
    size_t digits_and_ends = tk_size_saturating_sub(used, minuses);
    size_t each = digits_and_ends / count;
    size_t at_2 = tk_size_saturating_add(tk_sign_len(false, rest), tk_size_saturating_sub(each, 2));
    bool has_return = is_lines && at_2 <= rest.len && tk_bytes_from(rest, at_2).len >= 1
        && tk_bytes_from(rest, at_2).at[0] == '\r';
    size_t found = digits_and_ends % count;
    size_t width = found == 0 ? tk_size_saturating_sub(each, 1 + TK_CAST(size_t, has_return)) : 0;
    return tk_new_guess(width, has_return, used / 11 < count / 4, minuses > count / 8);
}

/* atoi_column/src/fields/read.rt:116 */
TK_NOINLINE size_t tk_fields_read_guessed_u8(tk_fields *self, tk_room_u8 values, size_t from, tk_guess guess)
{
    size_t room = values.len - from;
    tk_guess plain = tk_new_guess(guess.width, false, guess.mostly_one_digit, guess.have_minus);
    /* Each case has a loop of its own, since `read_part` is inlined. */
    if (guess.width <= 1) {
        return 0;
    }
    if (tk_fits_word(guess)) {
        return tk_fields_read_part_u8(true, self, values, from, room, guess);
    }
    if (2 <= guess.width && guess.width <= 16 && guess.has_return) {
        return tk_fields_read_part_u8(true, self, values, from, room, guess);
    }
    if (2 <= guess.width && guess.width <= 8) {
        return tk_fields_read_part_u8(true, self, values, from, room, plain);
    }
    if (9 <= guess.width && guess.width <= 16) {
        return tk_fields_read_part_u8(true, self, values, from, room, plain);
    }
    return tk_fields_read_part_u8(true, self, values, from, room, guess);
}

/* atoi_column/src/fields/read.rt:55 */
TK_HINTED size_t tk_fields_read_u8(tk_fields *self, tk_room_u8 values)
{
    size_t read = 0;
    size_t part = self->rest.len < TK_SHORT_TEXT ? TK_SHORT_TEXT : TK_PART;
    tk_guess guess = tk_no_guess;
    while (read < values.len) {
        size_t most = tk_size_min(part, values.len - read);
        size_t before = self->rest.len;
        size_t found = tk_fields_read_plain_u8(self, values, read, most, guess);
        size_t from = read;
        read += found;
        if (found < most || read == values.len) {
            break;
        }
        size_t used = tk_size_saturating_sub(before, self->rest.len);
        tk_room_u8 all = tk_room_u8_between(values, from, read);
        guess = tk_guess_after_u8(tk_bytes_of(all.at, all.len), used, self->rest, self->is_lines);
        size_t run = tk_fields_read_guessed_u8(self, values, read, guess);
        read += run;
        part = run < TK_PART ? tk_size_min(16 * part, TK_LONG_PART) : TK_PART;
    }
    return read;
}

/* atoi_column/src/guesses.rt:132 */
TK_HINTED tk_option_i16 tk_signed_i16(bool minus, uint64_t magnitude)
{
    /* A type that has all numbers of 64 bits needs no test. */
    if (tk_u128_less(tk_u128_of(32767), tk_u128_of(UINT64_C(18446744073709551615)))
        && magnitude > tk_u128_low(tk_u128_of(32767)) + tk_bit(minus)) {
        return tk_none_i16();
    }
    return tk_some_i16(tk_from_parts_i16(minus, tk_u128_of(magnitude)));
}

/* atoi_column/src/guesses.rt:87 */
TK_HINTED tk_option_pair_i16_size tk_number_with_end_i16(tk_bytes rest, size_t width, uint64_t end_word, size_t end_len)
{
    if (width == 0 || rest.len <= 8) {
        return tk_none_pair_i16_size();
    }
    size_t sign = tk_sign_len(true, rest);
    tk_option_u64 found = tk_number_before(tk_bytes_from(rest, sign), width, end_word, end_len);
    if (!found.is_some) {
        return tk_none_pair_i16_size();
    }
    tk_option_i16 found_2 = tk_signed_i16(sign == 1, found.value);
    if (!found_2.is_some) {
        return tk_none_pair_i16_size();
    }
    int16_t value = found_2.value;
    return tk_some_pair_i16_size(tk_new_pair_i16_size(value, sign + width));
}

/* atoi_column/src/guesses.rt:145 */
TK_HINTED tk_option_pair_i16_size tk_number_of_any_width_i16(tk_bytes rest, size_t width)
{
    size_t at = tk_size_saturating_add(width, tk_sign_len(true, rest));
    if (at > rest.len) {
        return tk_none_pair_i16_size();
    }
    tk_bytes text = tk_bytes_to(rest, at);
    tk_result_i16 found = tk_parse_i16(false, false, text);
    if (!found.is_ok) {
        return tk_none_pair_i16_size();
    }
    return tk_some_pair_i16_size(tk_new_pair_i16_size(found.value, text.len));
}

/* atoi_column/src/guesses.rt:114 */
TK_HINTED tk_option_pair_i16_size tk_number_of_digits_i16(tk_bytes rest, size_t width)
{
    if (width == 0 || width > 16) {
        return tk_number_of_any_width_i16(rest, width);
    }
    if (rest.len <= tk_size_max(width, 8)) {
        return tk_none_pair_i16_size();
    }
    size_t sign = tk_sign_len(true, rest);
    tk_option_u64 found = tk_number_of_width(tk_bytes_from(rest, sign), width);
    if (!found.is_some) {
        return tk_none_pair_i16_size();
    }
    tk_option_i16 found_2 = tk_signed_i16(sign == 1, found.value);
    if (!found_2.is_some) {
        return tk_none_pair_i16_size();
    }
    int16_t value = found_2.value;
    return tk_some_pair_i16_size(tk_new_pair_i16_size(value, sign + width));
}

/* atoi_column/src/fields/read.rt:231 */
TK_HINTED tk_option_pair_i16_bytes tk_guessed_field_i16(tk_bytes rest, uint8_t separator, bool is_lines, tk_guess guess)
{
    tk_pair_u64_size found = tk_end_of(separator, is_lines, guess.has_return);
    uint64_t end_word = found.first;
    size_t end_len = found.second;
    if (tk_fits_word(guess)) {
        tk_option_pair_i16_size found_2 = tk_number_with_end_i16(rest, guess.width, end_word, end_len);
        if (!found_2.is_some) {
            return tk_none_pair_i16_bytes();
        }
        int16_t value = found_2.value.first;
        size_t count = found_2.value.second;
        return tk_some_pair_i16_bytes(tk_new_pair_i16_bytes(value, tk_bytes_from(rest, count + end_len)));
    }
    tk_option_pair_i16_size found_2 = tk_number_of_digits_i16(rest, guess.width);
    if (!found_2.is_some) {
        return tk_none_pair_i16_bytes();
    }
    int16_t value = found_2.value.first;
    size_t count = found_2.value.second;
    if (!tk_starts_with(tk_bytes_from(rest, count), end_word, end_len)) {
        return tk_none_pair_i16_bytes();
    }
    return tk_some_pair_i16_bytes(tk_new_pair_i16_bytes(value, tk_bytes_from(rest, count + end_len)));
}

/* atoi_column/src/fields/read.rt:179 */
TK_HINTED tk_option_i16 tk_fields_guessed_number_i16(tk_fields *self, tk_guess guess)
{
    tk_bytes rest = self->rest;
    size_t index = self->index;
    tk_option_pair_i16_bytes found = tk_guessed_field_i16(rest, self->separator, self->is_lines, guess);
    if (!found.is_some) {
        return tk_none_i16();
    }
    int16_t value = found.value.first;
    tk_bytes following = found.value.second;
    self->index = index + 1;
    self->rest = following;
    return tk_some_i16(value);
}

/* atoi_column/src/fields/read.rt:194 */
TK_HINTED tk_option_i16 tk_fields_next_number_i16(tk_fields *self, tk_guess guess)
{
    tk_bytes rest = self->rest;
    size_t index = self->index;
    if (rest.len == 0) {
        return tk_none_i16();
    }
    tk_option_pair_i16_bytes found = tk_accepted_field_i16(rest, self->separator, self->is_lines, guess);
    if (found.is_some) {
        int16_t value = found.value.first;
        tk_bytes following = found.value.second;
        self->index = index + 1;
        self->rest = following;
        return tk_some_i16(value);
    }
    size_t place = self->end - rest.len;
    tk_pair_result_i16_field_error_bytes found_2 = tk_read_field_i16(rest, self->separator, self->is_lines, index,
                                                                     place);
    tk_result_i16_field_error item = found_2.first;
    tk_bytes following = found_2.second;
    if (!item.is_ok) {
        return tk_none_i16();
    }
    int16_t value = item.value;
    self->index = index + 1;
    self->rest = following;
    return tk_some_i16(value);
}

/* atoi_column/src/fields/read.rt:140 */
TK_NOINLINE size_t tk_fields_read_part_i16(bool guesses, tk_fields *self, tk_room_i16 values, size_t from, size_t most,
                                           tk_guess guess)
{
    /* The smaller one of both, so that rustc 1.95 tests no index below it. */
    size_t end = tk_size_min(values.len, from + most);
    /* While numbers are written to memory, these fields stay in registers. */
    tk_fields fields = tk_new_fields(self->rest, self->separator, self->is_lines, self->index, self->end);
    size_t at = from;
    while (at < end) {
        tk_option_i16 next = guesses ? tk_fields_guessed_number_i16(&fields, guess)
            : tk_fields_next_number_i16(&fields, guess);
        if (next.is_some) {
            int16_t value = next.value;
            values.at[tk_index(at, values.len)] = value;
            at++;
        } else {
            break;
        }
    }
    *self = fields;
    return at - from;
}

/* atoi_column/src/fields/read.rt:96 */
TK_HINTED size_t tk_fields_read_plain_i16(tk_fields *self, tk_room_i16 values, size_t from, size_t most, tk_guess guess)
{
    /* Each case has a loop of its own, since `read_part` is inlined. */
    if (guess.mostly_one_digit) {
        return tk_fields_read_part_i16(false, self, values, from, most, tk_no_guess);
    }
    if (guess.have_minus) {
        return tk_fields_read_part_i16(false, self, values, from, most, tk_with_minus);
    }
    return tk_fields_read_part_i16(false, self, values, from, most, tk_long);
}

/* atoi_core/src/number.rt:203 */
TK_HINTED tk_pair_bool_u128 tk_parts_i16(int16_t self)
{
    return tk_new_pair_bool_u128(self < 0, tk_u128_of(tk_i16_unsigned_abs(self)));
}

/* atoi_column/src/guesses.rt:36 */
TK_NOINLINE tk_guess tk_guess_after_i16(tk_slice_i16 numbers, size_t used, tk_bytes rest, bool is_lines)
{
    size_t count = tk_size_max(numbers.len, 1);
    size_t count_2 = 0;
    size_t at = 0;
    while (at < numbers.len) {
        int16_t number = numbers.at[at];
        at++;
        if (tk_parts_i16(number).first) {
            count_2++;
        }
    }
    size_t minuses = count_2;
    size_t digits_and_ends = tk_size_saturating_sub(used, minuses);
    size_t each = digits_and_ends / count;
    size_t at_2 = tk_size_saturating_add(tk_sign_len(true, rest), tk_size_saturating_sub(each, 2));
    bool has_return = is_lines && at_2 <= rest.len && tk_bytes_from(rest, at_2).len >= 1
        && tk_bytes_from(rest, at_2).at[0] == '\r';
    size_t found = digits_and_ends % count;
    size_t width = found == 0 ? tk_size_saturating_sub(each, 1 + TK_CAST(size_t, has_return)) : 0;
    return tk_new_guess(width, has_return, used / 11 < count / 4, minuses > count / 8);
}

/* atoi_column/src/fields/read.rt:116 */
TK_NOINLINE size_t tk_fields_read_guessed_i16(tk_fields *self, tk_room_i16 values, size_t from, tk_guess guess)
{
    size_t room = values.len - from;
    tk_guess plain = tk_new_guess(guess.width, false, guess.mostly_one_digit, guess.have_minus);
    /* Each case has a loop of its own, since `read_part` is inlined. */
    if (guess.width <= 1) {
        return 0;
    }
    if (tk_fits_word(guess)) {
        return tk_fields_read_part_i16(true, self, values, from, room, guess);
    }
    if (2 <= guess.width && guess.width <= 16 && guess.has_return) {
        return tk_fields_read_part_i16(true, self, values, from, room, guess);
    }
    if (2 <= guess.width && guess.width <= 8) {
        return tk_fields_read_part_i16(true, self, values, from, room, plain);
    }
    if (9 <= guess.width && guess.width <= 16) {
        return tk_fields_read_part_i16(true, self, values, from, room, plain);
    }
    return tk_fields_read_part_i16(true, self, values, from, room, guess);
}

/* atoi_column/src/fields/read.rt:55 */
TK_HINTED size_t tk_fields_read_i16(tk_fields *self, tk_room_i16 values)
{
    size_t read = 0;
    size_t part = self->rest.len < TK_SHORT_TEXT ? TK_SHORT_TEXT : TK_PART;
    tk_guess guess = tk_no_guess;
    while (read < values.len) {
        size_t most = tk_size_min(part, values.len - read);
        size_t before = self->rest.len;
        size_t found = tk_fields_read_plain_i16(self, values, read, most, guess);
        size_t from = read;
        read += found;
        if (found < most || read == values.len) {
            break;
        }
        size_t used = tk_size_saturating_sub(before, self->rest.len);
        tk_room_i16 all = tk_room_i16_between(values, from, read);
        guess = tk_guess_after_i16(tk_slice_i16_of(all.at, all.len), used, self->rest, self->is_lines);
        size_t run = tk_fields_read_guessed_i16(self, values, read, guess);
        read += run;
        part = run < TK_PART ? tk_size_min(16 * part, TK_LONG_PART) : TK_PART;
    }
    return read;
}

/* atoi_column/src/guesses.rt:132 */
TK_HINTED tk_option_u16 tk_signed_u16(bool minus, uint64_t magnitude)
{
    /* A type that has all numbers of 64 bits needs no test. */
    if (tk_u128_less(tk_u128_of(65535), tk_u128_of(UINT64_C(18446744073709551615)))
        && magnitude > tk_u128_low(tk_u128_of(65535)) + tk_bit(minus)) {
        return tk_none_u16();
    }
    return tk_some_u16(tk_from_parts_u16(minus, tk_u128_of(magnitude)));
}

/* atoi_column/src/guesses.rt:87 */
TK_HINTED tk_option_pair_u16_size tk_number_with_end_u16(tk_bytes rest, size_t width, uint64_t end_word, size_t end_len)
{
    if (width == 0 || rest.len <= 8) {
        return tk_none_pair_u16_size();
    }
    size_t sign = tk_sign_len(false, rest);
    tk_option_u64 found = tk_number_before(tk_bytes_from(rest, sign), width, end_word, end_len);
    if (!found.is_some) {
        return tk_none_pair_u16_size();
    }
    tk_option_u16 found_2 = tk_signed_u16(sign == 1, found.value);
    if (!found_2.is_some) {
        return tk_none_pair_u16_size();
    }
    uint16_t value = found_2.value;
    return tk_some_pair_u16_size(tk_new_pair_u16_size(value, sign + width));
}

/* atoi_column/src/guesses.rt:145 */
TK_HINTED tk_option_pair_u16_size tk_number_of_any_width_u16(tk_bytes rest, size_t width)
{
    size_t at = tk_size_saturating_add(width, tk_sign_len(false, rest));
    if (at > rest.len) {
        return tk_none_pair_u16_size();
    }
    tk_bytes text = tk_bytes_to(rest, at);
    tk_result_u16 found = tk_parse_u16(false, false, text);
    if (!found.is_ok) {
        return tk_none_pair_u16_size();
    }
    return tk_some_pair_u16_size(tk_new_pair_u16_size(found.value, text.len));
}

/* atoi_column/src/guesses.rt:114 */
TK_HINTED tk_option_pair_u16_size tk_number_of_digits_u16(tk_bytes rest, size_t width)
{
    if (width == 0 || width > 16) {
        return tk_number_of_any_width_u16(rest, width);
    }
    if (rest.len <= tk_size_max(width, 8)) {
        return tk_none_pair_u16_size();
    }
    size_t sign = tk_sign_len(false, rest);
    tk_option_u64 found = tk_number_of_width(tk_bytes_from(rest, sign), width);
    if (!found.is_some) {
        return tk_none_pair_u16_size();
    }
    tk_option_u16 found_2 = tk_signed_u16(sign == 1, found.value);
    if (!found_2.is_some) {
        return tk_none_pair_u16_size();
    }
    uint16_t value = found_2.value;
    return tk_some_pair_u16_size(tk_new_pair_u16_size(value, sign + width));
}

/* atoi_column/src/fields/read.rt:231 */
TK_HINTED tk_option_pair_u16_bytes tk_guessed_field_u16(tk_bytes rest, uint8_t separator, bool is_lines, tk_guess guess)
{
    tk_pair_u64_size found = tk_end_of(separator, is_lines, guess.has_return);
    uint64_t end_word = found.first;
    size_t end_len = found.second;
    if (tk_fits_word(guess)) {
        tk_option_pair_u16_size found_2 = tk_number_with_end_u16(rest, guess.width, end_word, end_len);
        if (!found_2.is_some) {
            return tk_none_pair_u16_bytes();
        }
        uint16_t value = found_2.value.first;
        size_t count = found_2.value.second;
        return tk_some_pair_u16_bytes(tk_new_pair_u16_bytes(value, tk_bytes_from(rest, count + end_len)));
    }
    tk_option_pair_u16_size found_2 = tk_number_of_digits_u16(rest, guess.width);
    if (!found_2.is_some) {
        return tk_none_pair_u16_bytes();
    }
    uint16_t value = found_2.value.first;
    size_t count = found_2.value.second;
    if (!tk_starts_with(tk_bytes_from(rest, count), end_word, end_len)) {
        return tk_none_pair_u16_bytes();
    }
    return tk_some_pair_u16_bytes(tk_new_pair_u16_bytes(value, tk_bytes_from(rest, count + end_len)));
}

/* atoi_column/src/fields/read.rt:179 */
TK_HINTED tk_option_u16 tk_fields_guessed_number_u16(tk_fields *self, tk_guess guess)
{
    tk_bytes rest = self->rest;
    size_t index = self->index;
    tk_option_pair_u16_bytes found = tk_guessed_field_u16(rest, self->separator, self->is_lines, guess);
    if (!found.is_some) {
        return tk_none_u16();
    }
    uint16_t value = found.value.first;
    tk_bytes following = found.value.second;
    self->index = index + 1;
    self->rest = following;
    return tk_some_u16(value);
}

/* atoi_column/src/fields/read.rt:194 */
TK_HINTED tk_option_u16 tk_fields_next_number_u16(tk_fields *self, tk_guess guess)
{
    tk_bytes rest = self->rest;
    size_t index = self->index;
    if (rest.len == 0) {
        return tk_none_u16();
    }
    tk_option_pair_u16_bytes found = tk_accepted_field_u16(rest, self->separator, self->is_lines, guess);
    if (found.is_some) {
        uint16_t value = found.value.first;
        tk_bytes following = found.value.second;
        self->index = index + 1;
        self->rest = following;
        return tk_some_u16(value);
    }
    size_t place = self->end - rest.len;
    tk_pair_result_u16_field_error_bytes found_2 = tk_read_field_u16(rest, self->separator, self->is_lines, index,
                                                                     place);
    tk_result_u16_field_error item = found_2.first;
    tk_bytes following = found_2.second;
    if (!item.is_ok) {
        return tk_none_u16();
    }
    uint16_t value = item.value;
    self->index = index + 1;
    self->rest = following;
    return tk_some_u16(value);
}

/* atoi_column/src/fields/read.rt:140 */
TK_NOINLINE size_t tk_fields_read_part_u16(bool guesses, tk_fields *self, tk_room_u16 values, size_t from, size_t most,
                                           tk_guess guess)
{
    /* The smaller one of both, so that rustc 1.95 tests no index below it. */
    size_t end = tk_size_min(values.len, from + most);
    /* While numbers are written to memory, these fields stay in registers. */
    tk_fields fields = tk_new_fields(self->rest, self->separator, self->is_lines, self->index, self->end);
    size_t at = from;
    while (at < end) {
        tk_option_u16 next = guesses ? tk_fields_guessed_number_u16(&fields, guess)
            : tk_fields_next_number_u16(&fields, guess);
        if (next.is_some) {
            uint16_t value = next.value;
            values.at[tk_index(at, values.len)] = value;
            at++;
        } else {
            break;
        }
    }
    *self = fields;
    return at - from;
}

/* atoi_column/src/fields/read.rt:96 */
TK_HINTED size_t tk_fields_read_plain_u16(tk_fields *self, tk_room_u16 values, size_t from, size_t most, tk_guess guess)
{
    /* Each case has a loop of its own, since `read_part` is inlined. */
    if (guess.mostly_one_digit) {
        return tk_fields_read_part_u16(false, self, values, from, most, tk_no_guess);
    }
    return tk_fields_read_part_u16(false, self, values, from, most, tk_long);
}

/* atoi_core/src/number.rt:175 */
TK_HINTED tk_pair_bool_u128 tk_parts_u16(uint16_t self)
{
    return tk_new_pair_bool_u128(false, tk_u128_of(self));
}

/* atoi_column/src/guesses.rt:36 */
TK_NOINLINE tk_guess tk_guess_after_u16(tk_slice_u16 numbers, size_t used, tk_bytes rest, bool is_lines)
{
    size_t count = tk_size_max(numbers.len, 1);
    size_t count_2 = 0;
    size_t at = 0;
    while (at < numbers.len) {
        uint16_t number = numbers.at[at];
        at++;
        if (tk_parts_u16(number).first) {
            count_2++;
        }
    }
    size_t minuses = count_2;
    size_t digits_and_ends = tk_size_saturating_sub(used, minuses);
    size_t each = digits_and_ends / count;
    size_t at_2 = tk_size_saturating_add(tk_sign_len(false, rest), tk_size_saturating_sub(each, 2));
    bool has_return = is_lines && at_2 <= rest.len && tk_bytes_from(rest, at_2).len >= 1
        && tk_bytes_from(rest, at_2).at[0] == '\r';
    size_t found = digits_and_ends % count;
    size_t width = found == 0 ? tk_size_saturating_sub(each, 1 + TK_CAST(size_t, has_return)) : 0;
    return tk_new_guess(width, has_return, used / 11 < count / 4, minuses > count / 8);
}

/* atoi_column/src/fields/read.rt:116 */
TK_NOINLINE size_t tk_fields_read_guessed_u16(tk_fields *self, tk_room_u16 values, size_t from, tk_guess guess)
{
    size_t room = values.len - from;
    tk_guess plain = tk_new_guess(guess.width, false, guess.mostly_one_digit, guess.have_minus);
    /* Each case has a loop of its own, since `read_part` is inlined. */
    if (guess.width <= 1) {
        return 0;
    }
    if (tk_fits_word(guess)) {
        return tk_fields_read_part_u16(true, self, values, from, room, guess);
    }
    if (2 <= guess.width && guess.width <= 16 && guess.has_return) {
        return tk_fields_read_part_u16(true, self, values, from, room, guess);
    }
    if (2 <= guess.width && guess.width <= 8) {
        return tk_fields_read_part_u16(true, self, values, from, room, plain);
    }
    if (9 <= guess.width && guess.width <= 16) {
        return tk_fields_read_part_u16(true, self, values, from, room, plain);
    }
    return tk_fields_read_part_u16(true, self, values, from, room, guess);
}

/* atoi_column/src/fields/read.rt:55 */
TK_HINTED size_t tk_fields_read_u16(tk_fields *self, tk_room_u16 values)
{
    size_t read = 0;
    size_t part = self->rest.len < TK_SHORT_TEXT ? TK_SHORT_TEXT : TK_PART;
    tk_guess guess = tk_no_guess;
    while (read < values.len) {
        size_t most = tk_size_min(part, values.len - read);
        size_t before = self->rest.len;
        size_t found = tk_fields_read_plain_u16(self, values, read, most, guess);
        size_t from = read;
        read += found;
        if (found < most || read == values.len) {
            break;
        }
        size_t used = tk_size_saturating_sub(before, self->rest.len);
        tk_room_u16 all = tk_room_u16_between(values, from, read);
        guess = tk_guess_after_u16(tk_slice_u16_of(all.at, all.len), used, self->rest, self->is_lines);
        size_t run = tk_fields_read_guessed_u16(self, values, read, guess);
        read += run;
        part = run < TK_PART ? tk_size_min(16 * part, TK_LONG_PART) : TK_PART;
    }
    return read;
}

/* atoi_column/src/guesses.rt:132 */
TK_INLINE tk_option_i32 tk_signed_i32(bool minus, uint64_t magnitude)
{
    /* A type that has all numbers of 64 bits needs no test. */
    if (tk_u128_less(tk_u128_of(2147483647), tk_u128_of(UINT64_C(18446744073709551615)))
        && magnitude > tk_u128_low(tk_u128_of(2147483647)) + tk_bit(minus)) {
        return tk_none_i32();
    }
    return tk_some_i32(tk_from_parts_i32(minus, tk_u128_of(magnitude)));
}

/* atoi_column/src/guesses.rt:87 */
TK_INLINE tk_option_pair_i32_size tk_number_with_end_i32(tk_bytes rest, size_t width, uint64_t end_word, size_t end_len)
{
    if (width == 0 || rest.len <= 8) {
        return tk_none_pair_i32_size();
    }
    size_t sign = tk_sign_len(true, rest);
    tk_option_u64 found = tk_number_before(tk_bytes_from(rest, sign), width, end_word, end_len);
    if (!found.is_some) {
        return tk_none_pair_i32_size();
    }
    tk_option_i32 found_2 = tk_signed_i32(sign == 1, found.value);
    if (!found_2.is_some) {
        return tk_none_pair_i32_size();
    }
    int32_t value = found_2.value;
    return tk_some_pair_i32_size(tk_new_pair_i32_size(value, sign + width));
}

/* atoi_column/src/guesses.rt:145 */
TK_INLINE tk_option_pair_i32_size tk_number_of_any_width_i32(tk_bytes rest, size_t width)
{
    size_t at = tk_size_saturating_add(width, tk_sign_len(true, rest));
    if (at > rest.len) {
        return tk_none_pair_i32_size();
    }
    tk_bytes text = tk_bytes_to(rest, at);
    tk_result_i32 found = tk_parse_i32(false, false, text);
    if (!found.is_ok) {
        return tk_none_pair_i32_size();
    }
    return tk_some_pair_i32_size(tk_new_pair_i32_size(found.value, text.len));
}

/* atoi_column/src/guesses.rt:114 */
TK_INLINE tk_option_pair_i32_size tk_number_of_digits_i32(tk_bytes rest, size_t width)
{
    if (width == 0 || width > 16) {
        return tk_number_of_any_width_i32(rest, width);
    }
    if (rest.len <= tk_size_max(width, 8)) {
        return tk_none_pair_i32_size();
    }
    size_t sign = tk_sign_len(true, rest);
    tk_option_u64 found = tk_number_of_width(tk_bytes_from(rest, sign), width);
    if (!found.is_some) {
        return tk_none_pair_i32_size();
    }
    tk_option_i32 found_2 = tk_signed_i32(sign == 1, found.value);
    if (!found_2.is_some) {
        return tk_none_pair_i32_size();
    }
    int32_t value = found_2.value;
    return tk_some_pair_i32_size(tk_new_pair_i32_size(value, sign + width));
}

/* atoi_column/src/fields/read.rt:231 */
TK_INLINE tk_option_pair_i32_bytes tk_guessed_field_i32(tk_bytes rest, uint8_t separator, bool is_lines, tk_guess guess)
{
    tk_pair_u64_size found = tk_end_of(separator, is_lines, guess.has_return);
    uint64_t end_word = found.first;
    size_t end_len = found.second;
    if (tk_fits_word(guess)) {
        tk_option_pair_i32_size found_2 = tk_number_with_end_i32(rest, guess.width, end_word, end_len);
        if (!found_2.is_some) {
            return tk_none_pair_i32_bytes();
        }
        int32_t value = found_2.value.first;
        size_t count = found_2.value.second;
        return tk_some_pair_i32_bytes(tk_new_pair_i32_bytes(value, tk_bytes_from(rest, count + end_len)));
    }
    tk_option_pair_i32_size found_2 = tk_number_of_digits_i32(rest, guess.width);
    if (!found_2.is_some) {
        return tk_none_pair_i32_bytes();
    }
    int32_t value = found_2.value.first;
    size_t count = found_2.value.second;
    if (!tk_starts_with(tk_bytes_from(rest, count), end_word, end_len)) {
        return tk_none_pair_i32_bytes();
    }
    return tk_some_pair_i32_bytes(tk_new_pair_i32_bytes(value, tk_bytes_from(rest, count + end_len)));
}

/* atoi_column/src/fields/read.rt:179 */
TK_INLINE tk_option_i32 tk_fields_guessed_number_i32(tk_fields *self, tk_guess guess)
{
    tk_bytes rest = self->rest;
    size_t index = self->index;
    tk_option_pair_i32_bytes found = tk_guessed_field_i32(rest, self->separator, self->is_lines, guess);
    if (!found.is_some) {
        return tk_none_i32();
    }
    int32_t value = found.value.first;
    tk_bytes following = found.value.second;
    self->index = index + 1;
    self->rest = following;
    return tk_some_i32(value);
}

/* atoi_column/src/fields/read.rt:194 */
TK_INLINE tk_option_i32 tk_fields_next_number_i32(tk_fields *self, tk_guess guess)
{
    tk_bytes rest = self->rest;
    size_t index = self->index;
    if (rest.len == 0) {
        return tk_none_i32();
    }
    tk_option_pair_i32_bytes found = tk_accepted_field_i32(rest, self->separator, self->is_lines, guess);
    if (found.is_some) {
        int32_t value = found.value.first;
        tk_bytes following = found.value.second;
        self->index = index + 1;
        self->rest = following;
        return tk_some_i32(value);
    }
    size_t place = self->end - rest.len;
    tk_pair_result_i32_field_error_bytes found_2 = tk_read_field_i32(rest, self->separator, self->is_lines, index,
                                                                     place);
    tk_result_i32_field_error item = found_2.first;
    tk_bytes following = found_2.second;
    if (!item.is_ok) {
        return tk_none_i32();
    }
    int32_t value = item.value;
    self->index = index + 1;
    self->rest = following;
    return tk_some_i32(value);
}

/* atoi_column/src/fields/read.rt:140 */
TK_INLINE size_t tk_fields_read_part_i32(bool guesses, tk_fields *self, tk_room_i32 values, size_t from, size_t most,
                                         tk_guess guess)
{
    /* The smaller one of both, so that rustc 1.95 tests no index below it. */
    size_t end = tk_size_min(values.len, from + most);
    /* While numbers are written to memory, these fields stay in registers. */
    tk_fields fields = tk_new_fields(self->rest, self->separator, self->is_lines, self->index, self->end);
    size_t at = from;
    while (at < end) {
        tk_option_i32 next = guesses ? tk_fields_guessed_number_i32(&fields, guess)
            : tk_fields_next_number_i32(&fields, guess);
        if (next.is_some) {
            int32_t value = next.value;
            values.at[tk_index(at, values.len)] = value;
            at++;
        } else {
            break;
        }
    }
    *self = fields;
    return at - from;
}

/* atoi_column/src/fields/read.rt:96 */
TK_INLINE size_t tk_fields_read_plain_i32(tk_fields *self, tk_room_i32 values, size_t from, size_t most, tk_guess guess)
{
    /* Each case has a loop of its own, since `read_part` is inlined. */
    if (guess.mostly_one_digit) {
        return tk_fields_read_part_i32(false, self, values, from, most, tk_no_guess);
    }
    if (guess.have_minus) {
        return tk_fields_read_part_i32(false, self, values, from, most, tk_with_minus);
    }
    return tk_fields_read_part_i32(false, self, values, from, most, tk_long);
}

/* atoi_core/src/number.rt:267 */
TK_HINTED tk_pair_bool_u128 tk_parts_i32(int32_t self)
{
    return tk_new_pair_bool_u128(self < 0, tk_u128_of(tk_i32_unsigned_abs(self)));
}

/* atoi_column/src/guesses.rt:36 */
TK_NOINLINE tk_guess tk_guess_after_i32(tk_slice_i32 numbers, size_t used, tk_bytes rest, bool is_lines)
{
    size_t count = tk_size_max(numbers.len, 1);
    size_t count_2 = 0;
    size_t at = 0;
    while (at < numbers.len) {
        int32_t number = numbers.at[at];
        at++;
        if (tk_parts_i32(number).first) {
            count_2++;
        }
    }
    size_t minuses = count_2;
    size_t digits_and_ends = tk_size_saturating_sub(used, minuses);
    size_t each = digits_and_ends / count;
    size_t at_2 = tk_size_saturating_add(tk_sign_len(true, rest), tk_size_saturating_sub(each, 2));
    bool has_return = is_lines && at_2 <= rest.len && tk_bytes_from(rest, at_2).len >= 1
        && tk_bytes_from(rest, at_2).at[0] == '\r';
    size_t found = digits_and_ends % count;
    size_t width = found == 0 ? tk_size_saturating_sub(each, 1 + TK_CAST(size_t, has_return)) : 0;
    return tk_new_guess(width, has_return, used / 11 < count / 4, minuses > count / 8);
}

/* atoi_column/src/fields/read.rt:116 */
TK_NOINLINE size_t tk_fields_read_guessed_i32(tk_fields *self, tk_room_i32 values, size_t from, tk_guess guess)
{
    size_t room = values.len - from;
    tk_guess plain = tk_new_guess(guess.width, false, guess.mostly_one_digit, guess.have_minus);
    /* Each case has a loop of its own, since `read_part` is inlined. */
    if (guess.width <= 1) {
        return 0;
    }
    if (tk_fits_word(guess)) {
        return tk_fields_read_part_i32(true, self, values, from, room, guess);
    }
    if (2 <= guess.width && guess.width <= 16 && guess.has_return) {
        return tk_fields_read_part_i32(true, self, values, from, room, guess);
    }
    if (2 <= guess.width && guess.width <= 8) {
        return tk_fields_read_part_i32(true, self, values, from, room, plain);
    }
    if (9 <= guess.width && guess.width <= 16) {
        return tk_fields_read_part_i32(true, self, values, from, room, plain);
    }
    return tk_fields_read_part_i32(true, self, values, from, room, guess);
}

/* atoi_column/src/fields/read.rt:55 */
TK_INLINE size_t tk_fields_read_i32(tk_fields *self, tk_room_i32 values)
{
    size_t read = 0;
    size_t part = self->rest.len < TK_SHORT_TEXT ? TK_SHORT_TEXT : TK_PART;
    tk_guess guess = tk_no_guess;
    while (read < values.len) {
        size_t most = tk_size_min(part, values.len - read);
        size_t before = self->rest.len;
        size_t found = tk_fields_read_plain_i32(self, values, read, most, guess);
        size_t from = read;
        read += found;
        if (found < most || read == values.len) {
            break;
        }
        size_t used = tk_size_saturating_sub(before, self->rest.len);
        tk_room_i32 all = tk_room_i32_between(values, from, read);
        guess = tk_guess_after_i32(tk_slice_i32_of(all.at, all.len), used, self->rest, self->is_lines);
        size_t run = tk_fields_read_guessed_i32(self, values, read, guess);
        read += run;
        part = run < TK_PART ? tk_size_min(16 * part, TK_LONG_PART) : TK_PART;
    }
    return read;
}

/* atoi_column/src/guesses.rt:132 */
TK_INLINE tk_option_u32 tk_signed_u32(bool minus, uint64_t magnitude)
{
    /* A type that has all numbers of 64 bits needs no test. */
    if (tk_u128_less(tk_u128_of(UINT64_C(4294967295)), tk_u128_of(UINT64_C(18446744073709551615)))
        && magnitude > tk_u128_low(tk_u128_of(UINT64_C(4294967295))) + tk_bit(minus)) {
        return tk_none_u32();
    }
    return tk_some_u32(tk_from_parts_u32(minus, tk_u128_of(magnitude)));
}

/* atoi_column/src/guesses.rt:87 */
TK_INLINE tk_option_pair_u32_size tk_number_with_end_u32(tk_bytes rest, size_t width, uint64_t end_word, size_t end_len)
{
    if (width == 0 || rest.len <= 8) {
        return tk_none_pair_u32_size();
    }
    size_t sign = tk_sign_len(false, rest);
    tk_option_u64 found = tk_number_before(tk_bytes_from(rest, sign), width, end_word, end_len);
    if (!found.is_some) {
        return tk_none_pair_u32_size();
    }
    tk_option_u32 found_2 = tk_signed_u32(sign == 1, found.value);
    if (!found_2.is_some) {
        return tk_none_pair_u32_size();
    }
    uint32_t value = found_2.value;
    return tk_some_pair_u32_size(tk_new_pair_u32_size(value, sign + width));
}

/* atoi_column/src/guesses.rt:145 */
TK_INLINE tk_option_pair_u32_size tk_number_of_any_width_u32(tk_bytes rest, size_t width)
{
    size_t at = tk_size_saturating_add(width, tk_sign_len(false, rest));
    if (at > rest.len) {
        return tk_none_pair_u32_size();
    }
    tk_bytes text = tk_bytes_to(rest, at);
    tk_result_u32 found = tk_parse_u32(false, false, text);
    if (!found.is_ok) {
        return tk_none_pair_u32_size();
    }
    return tk_some_pair_u32_size(tk_new_pair_u32_size(found.value, text.len));
}

/* atoi_column/src/guesses.rt:114 */
TK_INLINE tk_option_pair_u32_size tk_number_of_digits_u32(tk_bytes rest, size_t width)
{
    if (width == 0 || width > 16) {
        return tk_number_of_any_width_u32(rest, width);
    }
    if (rest.len <= tk_size_max(width, 8)) {
        return tk_none_pair_u32_size();
    }
    size_t sign = tk_sign_len(false, rest);
    tk_option_u64 found = tk_number_of_width(tk_bytes_from(rest, sign), width);
    if (!found.is_some) {
        return tk_none_pair_u32_size();
    }
    tk_option_u32 found_2 = tk_signed_u32(sign == 1, found.value);
    if (!found_2.is_some) {
        return tk_none_pair_u32_size();
    }
    uint32_t value = found_2.value;
    return tk_some_pair_u32_size(tk_new_pair_u32_size(value, sign + width));
}

/* atoi_column/src/fields/read.rt:231 */
TK_INLINE tk_option_pair_u32_bytes tk_guessed_field_u32(tk_bytes rest, uint8_t separator, bool is_lines, tk_guess guess)
{
    tk_pair_u64_size found = tk_end_of(separator, is_lines, guess.has_return);
    uint64_t end_word = found.first;
    size_t end_len = found.second;
    if (tk_fits_word(guess)) {
        tk_option_pair_u32_size found_2 = tk_number_with_end_u32(rest, guess.width, end_word, end_len);
        if (!found_2.is_some) {
            return tk_none_pair_u32_bytes();
        }
        uint32_t value = found_2.value.first;
        size_t count = found_2.value.second;
        return tk_some_pair_u32_bytes(tk_new_pair_u32_bytes(value, tk_bytes_from(rest, count + end_len)));
    }
    tk_option_pair_u32_size found_2 = tk_number_of_digits_u32(rest, guess.width);
    if (!found_2.is_some) {
        return tk_none_pair_u32_bytes();
    }
    uint32_t value = found_2.value.first;
    size_t count = found_2.value.second;
    if (!tk_starts_with(tk_bytes_from(rest, count), end_word, end_len)) {
        return tk_none_pair_u32_bytes();
    }
    return tk_some_pair_u32_bytes(tk_new_pair_u32_bytes(value, tk_bytes_from(rest, count + end_len)));
}

/* atoi_column/src/fields/read.rt:179 */
TK_INLINE tk_option_u32 tk_fields_guessed_number_u32(tk_fields *self, tk_guess guess)
{
    tk_bytes rest = self->rest;
    size_t index = self->index;
    tk_option_pair_u32_bytes found = tk_guessed_field_u32(rest, self->separator, self->is_lines, guess);
    if (!found.is_some) {
        return tk_none_u32();
    }
    uint32_t value = found.value.first;
    tk_bytes following = found.value.second;
    self->index = index + 1;
    self->rest = following;
    return tk_some_u32(value);
}

/* atoi_column/src/fields/read.rt:194 */
TK_INLINE tk_option_u32 tk_fields_next_number_u32(tk_fields *self, tk_guess guess)
{
    tk_bytes rest = self->rest;
    size_t index = self->index;
    if (rest.len == 0) {
        return tk_none_u32();
    }
    tk_option_pair_u32_bytes found = tk_accepted_field_u32(rest, self->separator, self->is_lines, guess);
    if (found.is_some) {
        uint32_t value = found.value.first;
        tk_bytes following = found.value.second;
        self->index = index + 1;
        self->rest = following;
        return tk_some_u32(value);
    }
    size_t place = self->end - rest.len;
    tk_pair_result_u32_field_error_bytes found_2 = tk_read_field_u32(rest, self->separator, self->is_lines, index,
                                                                     place);
    tk_result_u32_field_error item = found_2.first;
    tk_bytes following = found_2.second;
    if (!item.is_ok) {
        return tk_none_u32();
    }
    uint32_t value = item.value;
    self->index = index + 1;
    self->rest = following;
    return tk_some_u32(value);
}

/* atoi_column/src/fields/read.rt:140 */
TK_INLINE size_t tk_fields_read_part_u32(bool guesses, tk_fields *self, tk_room_u32 values, size_t from, size_t most,
                                         tk_guess guess)
{
    /* The smaller one of both, so that rustc 1.95 tests no index below it. */
    size_t end = tk_size_min(values.len, from + most);
    /* While numbers are written to memory, these fields stay in registers. */
    tk_fields fields = tk_new_fields(self->rest, self->separator, self->is_lines, self->index, self->end);
    size_t at = from;
    while (at < end) {
        tk_option_u32 next = guesses ? tk_fields_guessed_number_u32(&fields, guess)
            : tk_fields_next_number_u32(&fields, guess);
        if (next.is_some) {
            uint32_t value = next.value;
            values.at[tk_index(at, values.len)] = value;
            at++;
        } else {
            break;
        }
    }
    *self = fields;
    return at - from;
}

/* atoi_column/src/fields/read.rt:96 */
TK_INLINE size_t tk_fields_read_plain_u32(tk_fields *self, tk_room_u32 values, size_t from, size_t most, tk_guess guess)
{
    /* Each case has a loop of its own, since `read_part` is inlined. */
    if (guess.mostly_one_digit) {
        return tk_fields_read_part_u32(false, self, values, from, most, tk_no_guess);
    }
    return tk_fields_read_part_u32(false, self, values, from, most, tk_long);
}

/* atoi_core/src/number.rt:239 */
TK_HINTED tk_pair_bool_u128 tk_parts_u32(uint32_t self)
{
    return tk_new_pair_bool_u128(false, tk_u128_of(self));
}

/* atoi_column/src/guesses.rt:36 */
TK_NOINLINE tk_guess tk_guess_after_u32(tk_slice_u32 numbers, size_t used, tk_bytes rest, bool is_lines)
{
    size_t count = tk_size_max(numbers.len, 1);
    size_t count_2 = 0;
    size_t at = 0;
    while (at < numbers.len) {
        uint32_t number = numbers.at[at];
        at++;
        if (tk_parts_u32(number).first) {
            count_2++;
        }
    }
    size_t minuses = count_2;
    size_t digits_and_ends = tk_size_saturating_sub(used, minuses);
    size_t each = digits_and_ends / count;
    size_t at_2 = tk_size_saturating_add(tk_sign_len(false, rest), tk_size_saturating_sub(each, 2));
    bool has_return = is_lines && at_2 <= rest.len && tk_bytes_from(rest, at_2).len >= 1
        && tk_bytes_from(rest, at_2).at[0] == '\r';
    size_t found = digits_and_ends % count;
    size_t width = found == 0 ? tk_size_saturating_sub(each, 1 + TK_CAST(size_t, has_return)) : 0;
    return tk_new_guess(width, has_return, used / 11 < count / 4, minuses > count / 8);
}

/* atoi_column/src/fields/read.rt:116 */
TK_NOINLINE size_t tk_fields_read_guessed_u32(tk_fields *self, tk_room_u32 values, size_t from, tk_guess guess)
{
    size_t room = values.len - from;
    tk_guess plain = tk_new_guess(guess.width, false, guess.mostly_one_digit, guess.have_minus);
    /* Each case has a loop of its own, since `read_part` is inlined. */
    if (guess.width <= 1) {
        return 0;
    }
    if (tk_fits_word(guess)) {
        return tk_fields_read_part_u32(true, self, values, from, room, guess);
    }
    if (2 <= guess.width && guess.width <= 16 && guess.has_return) {
        return tk_fields_read_part_u32(true, self, values, from, room, guess);
    }
    if (2 <= guess.width && guess.width <= 8) {
        return tk_fields_read_part_u32(true, self, values, from, room, plain);
    }
    if (9 <= guess.width && guess.width <= 16) {
        return tk_fields_read_part_u32(true, self, values, from, room, plain);
    }
    return tk_fields_read_part_u32(true, self, values, from, room, guess);
}

/* atoi_column/src/fields/read.rt:55 */
TK_INLINE size_t tk_fields_read_u32(tk_fields *self, tk_room_u32 values)
{
    size_t read = 0;
    size_t part = self->rest.len < TK_SHORT_TEXT ? TK_SHORT_TEXT : TK_PART;
    tk_guess guess = tk_no_guess;
    while (read < values.len) {
        size_t most = tk_size_min(part, values.len - read);
        size_t before = self->rest.len;
        size_t found = tk_fields_read_plain_u32(self, values, read, most, guess);
        size_t from = read;
        read += found;
        if (found < most || read == values.len) {
            break;
        }
        size_t used = tk_size_saturating_sub(before, self->rest.len);
        tk_room_u32 all = tk_room_u32_between(values, from, read);
        guess = tk_guess_after_u32(tk_slice_u32_of(all.at, all.len), used, self->rest, self->is_lines);
        size_t run = tk_fields_read_guessed_u32(self, values, read, guess);
        read += run;
        part = run < TK_PART ? tk_size_min(16 * part, TK_LONG_PART) : TK_PART;
    }
    return read;
}

/* atoi_column/src/guesses.rt:132 */
TK_INLINE tk_option_i64 tk_signed_i64(bool minus, uint64_t magnitude)
{
    /* A type that has all numbers of 64 bits needs no test. */
    if (tk_u128_less(tk_u128_of(UINT64_C(9223372036854775807)), tk_u128_of(UINT64_C(18446744073709551615)))
        && magnitude > tk_u128_low(tk_u128_of(UINT64_C(9223372036854775807))) + tk_bit(minus)) {
        return tk_none_i64();
    }
    return tk_some_i64(tk_from_parts_i64(minus, tk_u128_of(magnitude)));
}

/* atoi_column/src/guesses.rt:87 */
TK_INLINE tk_option_pair_i64_size tk_number_with_end_i64(tk_bytes rest, size_t width, uint64_t end_word, size_t end_len)
{
    if (width == 0 || rest.len <= 8) {
        return tk_none_pair_i64_size();
    }
    size_t sign = tk_sign_len(true, rest);
    tk_option_u64 found = tk_number_before(tk_bytes_from(rest, sign), width, end_word, end_len);
    if (!found.is_some) {
        return tk_none_pair_i64_size();
    }
    tk_option_i64 found_2 = tk_signed_i64(sign == 1, found.value);
    if (!found_2.is_some) {
        return tk_none_pair_i64_size();
    }
    int64_t value = found_2.value;
    return tk_some_pair_i64_size(tk_new_pair_i64_size(value, sign + width));
}

/* atoi_column/src/guesses.rt:145 */
TK_INLINE tk_option_pair_i64_size tk_number_of_any_width_i64(tk_bytes rest, size_t width)
{
    size_t at = tk_size_saturating_add(width, tk_sign_len(true, rest));
    if (at > rest.len) {
        return tk_none_pair_i64_size();
    }
    tk_bytes text = tk_bytes_to(rest, at);
    tk_result_i64 found = tk_parse_i64(false, false, text);
    if (!found.is_ok) {
        return tk_none_pair_i64_size();
    }
    return tk_some_pair_i64_size(tk_new_pair_i64_size(found.value, text.len));
}

/* atoi_column/src/guesses.rt:114 */
TK_INLINE tk_option_pair_i64_size tk_number_of_digits_i64(tk_bytes rest, size_t width)
{
    if (width == 0 || width > 16) {
        return tk_number_of_any_width_i64(rest, width);
    }
    if (rest.len <= tk_size_max(width, 8)) {
        return tk_none_pair_i64_size();
    }
    size_t sign = tk_sign_len(true, rest);
    tk_option_u64 found = tk_number_of_width(tk_bytes_from(rest, sign), width);
    if (!found.is_some) {
        return tk_none_pair_i64_size();
    }
    tk_option_i64 found_2 = tk_signed_i64(sign == 1, found.value);
    if (!found_2.is_some) {
        return tk_none_pair_i64_size();
    }
    int64_t value = found_2.value;
    return tk_some_pair_i64_size(tk_new_pair_i64_size(value, sign + width));
}

/* atoi_column/src/fields/read.rt:231 */
TK_INLINE tk_option_pair_i64_bytes tk_guessed_field_i64(tk_bytes rest, uint8_t separator, bool is_lines, tk_guess guess)
{
    tk_pair_u64_size found = tk_end_of(separator, is_lines, guess.has_return);
    uint64_t end_word = found.first;
    size_t end_len = found.second;
    if (tk_fits_word(guess)) {
        tk_option_pair_i64_size found_2 = tk_number_with_end_i64(rest, guess.width, end_word, end_len);
        if (!found_2.is_some) {
            return tk_none_pair_i64_bytes();
        }
        int64_t value = found_2.value.first;
        size_t count = found_2.value.second;
        return tk_some_pair_i64_bytes(tk_new_pair_i64_bytes(value, tk_bytes_from(rest, count + end_len)));
    }
    tk_option_pair_i64_size found_2 = tk_number_of_digits_i64(rest, guess.width);
    if (!found_2.is_some) {
        return tk_none_pair_i64_bytes();
    }
    int64_t value = found_2.value.first;
    size_t count = found_2.value.second;
    if (!tk_starts_with(tk_bytes_from(rest, count), end_word, end_len)) {
        return tk_none_pair_i64_bytes();
    }
    return tk_some_pair_i64_bytes(tk_new_pair_i64_bytes(value, tk_bytes_from(rest, count + end_len)));
}

/* atoi_column/src/fields/read.rt:179 */
TK_INLINE tk_option_i64 tk_fields_guessed_number_i64(tk_fields *self, tk_guess guess)
{
    tk_bytes rest = self->rest;
    size_t index = self->index;
    tk_option_pair_i64_bytes found = tk_guessed_field_i64(rest, self->separator, self->is_lines, guess);
    if (!found.is_some) {
        return tk_none_i64();
    }
    int64_t value = found.value.first;
    tk_bytes following = found.value.second;
    self->index = index + 1;
    self->rest = following;
    return tk_some_i64(value);
}

/* atoi_column/src/fields/read.rt:194 */
TK_INLINE tk_option_i64 tk_fields_next_number_i64(tk_fields *self, tk_guess guess)
{
    tk_bytes rest = self->rest;
    size_t index = self->index;
    if (rest.len == 0) {
        return tk_none_i64();
    }
    tk_option_pair_i64_bytes found = tk_accepted_field_i64(rest, self->separator, self->is_lines, guess);
    if (found.is_some) {
        int64_t value = found.value.first;
        tk_bytes following = found.value.second;
        self->index = index + 1;
        self->rest = following;
        return tk_some_i64(value);
    }
    size_t place = self->end - rest.len;
    tk_pair_result_i64_field_error_bytes found_2 = tk_read_field_i64(rest, self->separator, self->is_lines, index,
                                                                     place);
    tk_result_i64_field_error item = found_2.first;
    tk_bytes following = found_2.second;
    if (!item.is_ok) {
        return tk_none_i64();
    }
    int64_t value = item.value;
    self->index = index + 1;
    self->rest = following;
    return tk_some_i64(value);
}

/* atoi_column/src/fields/read.rt:140 */
TK_INLINE size_t tk_fields_read_part_i64(bool guesses, tk_fields *self, tk_room_i64 values, size_t from, size_t most,
                                         tk_guess guess)
{
    /* The smaller one of both, so that rustc 1.95 tests no index below it. */
    size_t end = tk_size_min(values.len, from + most);
    /* While numbers are written to memory, these fields stay in registers. */
    tk_fields fields = tk_new_fields(self->rest, self->separator, self->is_lines, self->index, self->end);
    size_t at = from;
    while (at < end) {
        tk_option_i64 next = guesses ? tk_fields_guessed_number_i64(&fields, guess)
            : tk_fields_next_number_i64(&fields, guess);
        if (next.is_some) {
            int64_t value = next.value;
            values.at[tk_index(at, values.len)] = value;
            at++;
        } else {
            break;
        }
    }
    *self = fields;
    return at - from;
}

/* atoi_column/src/fields/read.rt:96 */
TK_INLINE size_t tk_fields_read_plain_i64(tk_fields *self, tk_room_i64 values, size_t from, size_t most, tk_guess guess)
{
    /* Each case has a loop of its own, since `read_part` is inlined. */
    if (guess.mostly_one_digit) {
        return tk_fields_read_part_i64(false, self, values, from, most, tk_no_guess);
    }
    if (guess.have_minus) {
        return tk_fields_read_part_i64(false, self, values, from, most, tk_with_minus);
    }
    return tk_fields_read_part_i64(false, self, values, from, most, tk_long);
}

/* atoi_column/src/guesses.rt:36 */
TK_NOINLINE tk_guess tk_guess_after_i64(tk_slice_i64 numbers, size_t used, tk_bytes rest, bool is_lines)
{
    size_t count = tk_size_max(numbers.len, 1);
    size_t count_2 = 0;
    size_t at = 0;
    while (at < numbers.len) {
        int64_t number = numbers.at[at];
        at++;
        if (tk_parts_i64(number).first) {
            count_2++;
        }
    }
    size_t minuses = count_2;
    size_t digits_and_ends = tk_size_saturating_sub(used, minuses);
    size_t each = digits_and_ends / count;
    size_t at_2 = tk_size_saturating_add(tk_sign_len(true, rest), tk_size_saturating_sub(each, 2));
    bool has_return = is_lines && at_2 <= rest.len && tk_bytes_from(rest, at_2).len >= 1
        && tk_bytes_from(rest, at_2).at[0] == '\r';
    size_t found = digits_and_ends % count;
    size_t width = found == 0 ? tk_size_saturating_sub(each, 1 + TK_CAST(size_t, has_return)) : 0;
    return tk_new_guess(width, has_return, used / 11 < count / 4, minuses > count / 8);
}

/* atoi_column/src/fields/read.rt:116 */
TK_NOINLINE size_t tk_fields_read_guessed_i64(tk_fields *self, tk_room_i64 values, size_t from, tk_guess guess)
{
    size_t room = values.len - from;
    tk_guess plain = tk_new_guess(guess.width, false, guess.mostly_one_digit, guess.have_minus);
    /* Each case has a loop of its own, since `read_part` is inlined. */
    if (guess.width <= 1) {
        return 0;
    }
    if (tk_fits_word(guess)) {
        return tk_fields_read_part_i64(true, self, values, from, room, guess);
    }
    if (2 <= guess.width && guess.width <= 16 && guess.has_return) {
        return tk_fields_read_part_i64(true, self, values, from, room, guess);
    }
    if (2 <= guess.width && guess.width <= 8) {
        return tk_fields_read_part_i64(true, self, values, from, room, plain);
    }
    if (9 <= guess.width && guess.width <= 16) {
        return tk_fields_read_part_i64(true, self, values, from, room, plain);
    }
    return tk_fields_read_part_i64(true, self, values, from, room, guess);
}

/* atoi_column/src/fields/read.rt:55 */
TK_INLINE size_t tk_fields_read_i64(tk_fields *self, tk_room_i64 values)
{
    size_t read = 0;
    size_t part = self->rest.len < TK_SHORT_TEXT ? TK_SHORT_TEXT : TK_PART;
    tk_guess guess = tk_no_guess;
    while (read < values.len) {
        size_t most = tk_size_min(part, values.len - read);
        size_t before = self->rest.len;
        size_t found = tk_fields_read_plain_i64(self, values, read, most, guess);
        size_t from = read;
        read += found;
        if (found < most || read == values.len) {
            break;
        }
        size_t used = tk_size_saturating_sub(before, self->rest.len);
        tk_room_i64 all = tk_room_i64_between(values, from, read);
        guess = tk_guess_after_i64(tk_slice_i64_of(all.at, all.len), used, self->rest, self->is_lines);
        size_t run = tk_fields_read_guessed_i64(self, values, read, guess);
        read += run;
        part = run < TK_PART ? tk_size_min(16 * part, TK_LONG_PART) : TK_PART;
    }
    return read;
}

/* atoi_column/src/guesses.rt:132 */
TK_INLINE tk_option_u64 tk_signed_u64(bool minus, uint64_t magnitude)
{
    /* A type that has all numbers of 64 bits needs no test. */
    if (tk_u128_less(tk_u128_of(UINT64_C(18446744073709551615)), tk_u128_of(UINT64_C(18446744073709551615)))
        && magnitude > tk_u128_low(tk_u128_of(UINT64_C(18446744073709551615))) + tk_bit(minus)) {
        return tk_none_u64();
    }
    return tk_some_u64(tk_from_parts_u64(minus, tk_u128_of(magnitude)));
}

/* atoi_column/src/guesses.rt:87 */
TK_INLINE tk_option_pair_u64_size tk_number_with_end_u64(tk_bytes rest, size_t width, uint64_t end_word, size_t end_len)
{
    if (width == 0 || rest.len <= 8) {
        return tk_none_pair_u64_size();
    }
    size_t sign = tk_sign_len(false, rest);
    tk_option_u64 found = tk_number_before(tk_bytes_from(rest, sign), width, end_word, end_len);
    if (!found.is_some) {
        return tk_none_pair_u64_size();
    }
    tk_option_u64 found_2 = tk_signed_u64(sign == 1, found.value);
    if (!found_2.is_some) {
        return tk_none_pair_u64_size();
    }
    uint64_t value = found_2.value;
    return tk_some_pair_u64_size(tk_new_pair_u64_size(value, sign + width));
}

/* atoi_column/src/guesses.rt:145 */
TK_INLINE tk_option_pair_u64_size tk_number_of_any_width_u64(tk_bytes rest, size_t width)
{
    size_t at = tk_size_saturating_add(width, tk_sign_len(false, rest));
    if (at > rest.len) {
        return tk_none_pair_u64_size();
    }
    tk_bytes text = tk_bytes_to(rest, at);
    tk_result_u64 found = tk_parse_u64(false, false, text);
    if (!found.is_ok) {
        return tk_none_pair_u64_size();
    }
    return tk_some_pair_u64_size(tk_new_pair_u64_size(found.value, text.len));
}

/* atoi_column/src/guesses.rt:114 */
TK_INLINE tk_option_pair_u64_size tk_number_of_digits_u64(tk_bytes rest, size_t width)
{
    if (width == 0 || width > 16) {
        return tk_number_of_any_width_u64(rest, width);
    }
    if (rest.len <= tk_size_max(width, 8)) {
        return tk_none_pair_u64_size();
    }
    size_t sign = tk_sign_len(false, rest);
    tk_option_u64 found = tk_number_of_width(tk_bytes_from(rest, sign), width);
    if (!found.is_some) {
        return tk_none_pair_u64_size();
    }
    tk_option_u64 found_2 = tk_signed_u64(sign == 1, found.value);
    if (!found_2.is_some) {
        return tk_none_pair_u64_size();
    }
    uint64_t value = found_2.value;
    return tk_some_pair_u64_size(tk_new_pair_u64_size(value, sign + width));
}

/* atoi_column/src/fields/read.rt:231 */
TK_INLINE tk_option_pair_u64_bytes tk_guessed_field_u64(tk_bytes rest, uint8_t separator, bool is_lines, tk_guess guess)
{
    tk_pair_u64_size found = tk_end_of(separator, is_lines, guess.has_return);
    uint64_t end_word = found.first;
    size_t end_len = found.second;
    if (tk_fits_word(guess)) {
        tk_option_pair_u64_size found_2 = tk_number_with_end_u64(rest, guess.width, end_word, end_len);
        if (!found_2.is_some) {
            return tk_none_pair_u64_bytes();
        }
        uint64_t value = found_2.value.first;
        size_t count = found_2.value.second;
        return tk_some_pair_u64_bytes(tk_new_pair_u64_bytes(value, tk_bytes_from(rest, count + end_len)));
    }
    tk_option_pair_u64_size found_2 = tk_number_of_digits_u64(rest, guess.width);
    if (!found_2.is_some) {
        return tk_none_pair_u64_bytes();
    }
    uint64_t value = found_2.value.first;
    size_t count = found_2.value.second;
    if (!tk_starts_with(tk_bytes_from(rest, count), end_word, end_len)) {
        return tk_none_pair_u64_bytes();
    }
    return tk_some_pair_u64_bytes(tk_new_pair_u64_bytes(value, tk_bytes_from(rest, count + end_len)));
}

/* atoi_column/src/fields/read.rt:179 */
TK_INLINE tk_option_u64 tk_fields_guessed_number_u64(tk_fields *self, tk_guess guess)
{
    tk_bytes rest = self->rest;
    size_t index = self->index;
    tk_option_pair_u64_bytes found = tk_guessed_field_u64(rest, self->separator, self->is_lines, guess);
    if (!found.is_some) {
        return tk_none_u64();
    }
    uint64_t value = found.value.first;
    tk_bytes following = found.value.second;
    self->index = index + 1;
    self->rest = following;
    return tk_some_u64(value);
}

/* atoi_column/src/fields/read.rt:194 */
TK_INLINE tk_option_u64 tk_fields_next_number_u64(tk_fields *self, tk_guess guess)
{
    tk_bytes rest = self->rest;
    size_t index = self->index;
    if (rest.len == 0) {
        return tk_none_u64();
    }
    tk_option_pair_u64_bytes found = tk_accepted_field_u64(rest, self->separator, self->is_lines, guess);
    if (found.is_some) {
        uint64_t value = found.value.first;
        tk_bytes following = found.value.second;
        self->index = index + 1;
        self->rest = following;
        return tk_some_u64(value);
    }
    size_t place = self->end - rest.len;
    tk_pair_result_u64_field_error_bytes found_2 = tk_read_field_u64(rest, self->separator, self->is_lines, index,
                                                                     place);
    tk_result_u64_field_error item = found_2.first;
    tk_bytes following = found_2.second;
    if (!item.is_ok) {
        return tk_none_u64();
    }
    uint64_t value = item.value;
    self->index = index + 1;
    self->rest = following;
    return tk_some_u64(value);
}

/* atoi_column/src/fields/read.rt:140 */
TK_INLINE size_t tk_fields_read_part_u64(bool guesses, tk_fields *self, tk_room_u64 values, size_t from, size_t most,
                                         tk_guess guess)
{
    /* The smaller one of both, so that rustc 1.95 tests no index below it. */
    size_t end = tk_size_min(values.len, from + most);
    /* While numbers are written to memory, these fields stay in registers. */
    tk_fields fields = tk_new_fields(self->rest, self->separator, self->is_lines, self->index, self->end);
    size_t at = from;
    while (at < end) {
        tk_option_u64 next = guesses ? tk_fields_guessed_number_u64(&fields, guess)
            : tk_fields_next_number_u64(&fields, guess);
        if (next.is_some) {
            uint64_t value = next.value;
            values.at[tk_index(at, values.len)] = value;
            at++;
        } else {
            break;
        }
    }
    *self = fields;
    return at - from;
}

/* atoi_column/src/fields/read.rt:96 */
TK_INLINE size_t tk_fields_read_plain_u64(tk_fields *self, tk_room_u64 values, size_t from, size_t most, tk_guess guess)
{
    /* Each case has a loop of its own, since `read_part` is inlined. */
    if (guess.mostly_one_digit) {
        return tk_fields_read_part_u64(false, self, values, from, most, tk_no_guess);
    }
    return tk_fields_read_part_u64(false, self, values, from, most, tk_long);
}

/* atoi_column/src/guesses.rt:36 */
TK_NOINLINE tk_guess tk_guess_after_u64(tk_slice_u64 numbers, size_t used, tk_bytes rest, bool is_lines)
{
    size_t count = tk_size_max(numbers.len, 1);
    size_t count_2 = 0;
    size_t at = 0;
    while (at < numbers.len) {
        uint64_t number = numbers.at[at];
        at++;
        if (tk_parts_u64(number).first) {
            count_2++;
        }
    }
    size_t minuses = count_2;
    size_t digits_and_ends = tk_size_saturating_sub(used, minuses);
    size_t each = digits_and_ends / count;
    size_t at_2 = tk_size_saturating_add(tk_sign_len(false, rest), tk_size_saturating_sub(each, 2));
    bool has_return = is_lines && at_2 <= rest.len && tk_bytes_from(rest, at_2).len >= 1
        && tk_bytes_from(rest, at_2).at[0] == '\r';
    size_t found = digits_and_ends % count;
    size_t width = found == 0 ? tk_size_saturating_sub(each, 1 + TK_CAST(size_t, has_return)) : 0;
    return tk_new_guess(width, has_return, used / 11 < count / 4, minuses > count / 8);
}

/* atoi_column/src/fields/read.rt:116 */
TK_NOINLINE size_t tk_fields_read_guessed_u64(tk_fields *self, tk_room_u64 values, size_t from, tk_guess guess)
{
    size_t room = values.len - from;
    tk_guess plain = tk_new_guess(guess.width, false, guess.mostly_one_digit, guess.have_minus);
    /* Each case has a loop of its own, since `read_part` is inlined. */
    if (guess.width <= 1) {
        return 0;
    }
    if (tk_fits_word(guess)) {
        return tk_fields_read_part_u64(true, self, values, from, room, guess);
    }
    if (2 <= guess.width && guess.width <= 16 && guess.has_return) {
        return tk_fields_read_part_u64(true, self, values, from, room, guess);
    }
    if (2 <= guess.width && guess.width <= 8) {
        return tk_fields_read_part_u64(true, self, values, from, room, plain);
    }
    if (9 <= guess.width && guess.width <= 16) {
        return tk_fields_read_part_u64(true, self, values, from, room, plain);
    }
    return tk_fields_read_part_u64(true, self, values, from, room, guess);
}

/* atoi_column/src/fields/read.rt:55 */
TK_INLINE size_t tk_fields_read_u64(tk_fields *self, tk_room_u64 values)
{
    size_t read = 0;
    size_t part = self->rest.len < TK_SHORT_TEXT ? TK_SHORT_TEXT : TK_PART;
    tk_guess guess = tk_no_guess;
    while (read < values.len) {
        size_t most = tk_size_min(part, values.len - read);
        size_t before = self->rest.len;
        size_t found = tk_fields_read_plain_u64(self, values, read, most, guess);
        size_t from = read;
        read += found;
        if (found < most || read == values.len) {
            break;
        }
        size_t used = tk_size_saturating_sub(before, self->rest.len);
        tk_room_u64 all = tk_room_u64_between(values, from, read);
        guess = tk_guess_after_u64(tk_slice_u64_of(all.at, all.len), used, self->rest, self->is_lines);
        size_t run = tk_fields_read_guessed_u64(self, values, read, guess);
        read += run;
        part = run < TK_PART ? tk_size_min(16 * part, TK_LONG_PART) : TK_PART;
    }
    return read;
}

/* atoi_column/src/guesses.rt:132 */
TK_HINTED tk_option_i128 tk_signed_i128(bool minus, uint64_t magnitude)
{
    /* A type that has all numbers of 64 bits needs no test. */
    if (tk_u128_less(tk_u128_make(UINT64_C(9223372036854775807), UINT64_C(18446744073709551615)),
                     tk_u128_of(UINT64_C(18446744073709551615)))
                         && magnitude > tk_u128_low(tk_u128_make(UINT64_C(9223372036854775807),
                                                                 UINT64_C(18446744073709551615))) + tk_bit(minus)) {
        return tk_none_i128();
    }
    return tk_some_i128(tk_from_parts_i128(minus, tk_u128_of(magnitude)));
}

/* atoi_column/src/guesses.rt:87 */
TK_HINTED tk_option_pair_i128_size tk_number_with_end_i128(tk_bytes rest, size_t width, uint64_t end_word,
                                                           size_t end_len)
{
    if (width == 0 || rest.len <= 8) {
        return tk_none_pair_i128_size();
    }
    size_t sign = tk_sign_len(true, rest);
    tk_option_u64 found = tk_number_before(tk_bytes_from(rest, sign), width, end_word, end_len);
    if (!found.is_some) {
        return tk_none_pair_i128_size();
    }
    tk_option_i128 found_2 = tk_signed_i128(sign == 1, found.value);
    if (!found_2.is_some) {
        return tk_none_pair_i128_size();
    }
    tk_i128 value = found_2.value;
    return tk_some_pair_i128_size(tk_new_pair_i128_size(value, sign + width));
}

/* atoi_column/src/guesses.rt:145 */
TK_HINTED tk_option_pair_i128_size tk_number_of_any_width_i128(tk_bytes rest, size_t width)
{
    size_t at = tk_size_saturating_add(width, tk_sign_len(true, rest));
    if (at > rest.len) {
        return tk_none_pair_i128_size();
    }
    tk_bytes text = tk_bytes_to(rest, at);
    tk_result_i128 found = tk_parse_i128(false, false, text);
    if (!found.is_ok) {
        return tk_none_pair_i128_size();
    }
    return tk_some_pair_i128_size(tk_new_pair_i128_size(found.value, text.len));
}

/* atoi_column/src/guesses.rt:114 */
TK_HINTED tk_option_pair_i128_size tk_number_of_digits_i128(tk_bytes rest, size_t width)
{
    if (width == 0 || width > 16) {
        return tk_number_of_any_width_i128(rest, width);
    }
    if (rest.len <= tk_size_max(width, 8)) {
        return tk_none_pair_i128_size();
    }
    size_t sign = tk_sign_len(true, rest);
    tk_option_u64 found = tk_number_of_width(tk_bytes_from(rest, sign), width);
    if (!found.is_some) {
        return tk_none_pair_i128_size();
    }
    tk_option_i128 found_2 = tk_signed_i128(sign == 1, found.value);
    if (!found_2.is_some) {
        return tk_none_pair_i128_size();
    }
    tk_i128 value = found_2.value;
    return tk_some_pair_i128_size(tk_new_pair_i128_size(value, sign + width));
}

/* atoi_column/src/fields/read.rt:231 */
TK_HINTED tk_option_pair_i128_bytes tk_guessed_field_i128(tk_bytes rest, uint8_t separator, bool is_lines,
                                                          tk_guess guess)
{
    tk_pair_u64_size found = tk_end_of(separator, is_lines, guess.has_return);
    uint64_t end_word = found.first;
    size_t end_len = found.second;
    if (tk_fits_word(guess)) {
        tk_option_pair_i128_size found_2 = tk_number_with_end_i128(rest, guess.width, end_word, end_len);
        if (!found_2.is_some) {
            return tk_none_pair_i128_bytes();
        }
        tk_i128 value = found_2.value.first;
        size_t count = found_2.value.second;
        return tk_some_pair_i128_bytes(tk_new_pair_i128_bytes(value, tk_bytes_from(rest, count + end_len)));
    }
    tk_option_pair_i128_size found_2 = tk_number_of_digits_i128(rest, guess.width);
    if (!found_2.is_some) {
        return tk_none_pair_i128_bytes();
    }
    tk_i128 value = found_2.value.first;
    size_t count = found_2.value.second;
    if (!tk_starts_with(tk_bytes_from(rest, count), end_word, end_len)) {
        return tk_none_pair_i128_bytes();
    }
    return tk_some_pair_i128_bytes(tk_new_pair_i128_bytes(value, tk_bytes_from(rest, count + end_len)));
}

/* atoi_column/src/fields/read.rt:179 */
TK_HINTED tk_option_i128 tk_fields_guessed_number_i128(tk_fields *self, tk_guess guess)
{
    tk_bytes rest = self->rest;
    size_t index = self->index;
    tk_option_pair_i128_bytes found = tk_guessed_field_i128(rest, self->separator, self->is_lines, guess);
    if (!found.is_some) {
        return tk_none_i128();
    }
    tk_i128 value = found.value.first;
    tk_bytes following = found.value.second;
    self->index = index + 1;
    self->rest = following;
    return tk_some_i128(value);
}

/* atoi_column/src/fields/read.rt:194 */
TK_HINTED tk_option_i128 tk_fields_next_number_i128(tk_fields *self, tk_guess guess)
{
    tk_bytes rest = self->rest;
    size_t index = self->index;
    if (rest.len == 0) {
        return tk_none_i128();
    }
    tk_option_pair_i128_bytes found = tk_accepted_field_i128(rest, self->separator, self->is_lines, guess);
    if (found.is_some) {
        tk_i128 value = found.value.first;
        tk_bytes following = found.value.second;
        self->index = index + 1;
        self->rest = following;
        return tk_some_i128(value);
    }
    size_t place = self->end - rest.len;
    tk_pair_result_i128_field_error_bytes found_2 = tk_read_field_i128(rest, self->separator, self->is_lines, index,
                                                                       place);
    tk_result_i128_field_error item = found_2.first;
    tk_bytes following = found_2.second;
    if (!item.is_ok) {
        return tk_none_i128();
    }
    tk_i128 value = item.value;
    self->index = index + 1;
    self->rest = following;
    return tk_some_i128(value);
}

/* atoi_column/src/fields/read.rt:140 */
TK_NOINLINE size_t tk_fields_read_part_i128(bool guesses, tk_fields *self, tk_room_i128 values, size_t from,
                                            size_t most, tk_guess guess)
{
    /* The smaller one of both, so that rustc 1.95 tests no index below it. */
    size_t end = tk_size_min(values.len, from + most);
    /* While numbers are written to memory, these fields stay in registers. */
    tk_fields fields = tk_new_fields(self->rest, self->separator, self->is_lines, self->index, self->end);
    size_t at = from;
    while (at < end) {
        tk_option_i128 next = guesses ? tk_fields_guessed_number_i128(&fields, guess)
            : tk_fields_next_number_i128(&fields, guess);
        if (next.is_some) {
            tk_i128 value = next.value;
            values.at[tk_index(at, values.len)] = value;
            at++;
        } else {
            break;
        }
    }
    *self = fields;
    return at - from;
}

/* atoi_column/src/fields/read.rt:96 */
TK_HINTED size_t tk_fields_read_plain_i128(tk_fields *self, tk_room_i128 values, size_t from, size_t most,
                                           tk_guess guess)
{
    /* Each case has a loop of its own, since `read_part` is inlined. */
    if (guess.mostly_one_digit) {
        return tk_fields_read_part_i128(false, self, values, from, most, tk_no_guess);
    }
    if (guess.have_minus) {
        return tk_fields_read_part_i128(false, self, values, from, most, tk_with_minus);
    }
    return tk_fields_read_part_i128(false, self, values, from, most, tk_long);
}

/* atoi_core/src/number.rt:395 */
TK_HINTED tk_pair_bool_u128 tk_parts_i128(tk_i128 self)
{
    return tk_new_pair_bool_u128(tk_i128_less(self, tk_i128_of(0)), tk_i128_unsigned_abs(self));
}

/* atoi_column/src/guesses.rt:36 */
TK_NOINLINE tk_guess tk_guess_after_i128(tk_slice_i128 numbers, size_t used, tk_bytes rest, bool is_lines)
{
    size_t count = tk_size_max(numbers.len, 1);
    size_t count_2 = 0;
    size_t at = 0;
    while (at < numbers.len) {
        tk_i128 number = numbers.at[at];
        at++;
        if (tk_parts_i128(number).first) {
            count_2++;
        }
    }
    size_t minuses = count_2;
    size_t digits_and_ends = tk_size_saturating_sub(used, minuses);
    size_t each = digits_and_ends / count;
    size_t at_2 = tk_size_saturating_add(tk_sign_len(true, rest), tk_size_saturating_sub(each, 2));
    bool has_return = is_lines && at_2 <= rest.len && tk_bytes_from(rest, at_2).len >= 1
        && tk_bytes_from(rest, at_2).at[0] == '\r';
    size_t found = digits_and_ends % count;
    size_t width = found == 0 ? tk_size_saturating_sub(each, 1 + TK_CAST(size_t, has_return)) : 0;
    return tk_new_guess(width, has_return, used / 11 < count / 4, minuses > count / 8);
}

/* atoi_column/src/fields/read.rt:116 */
TK_NOINLINE size_t tk_fields_read_guessed_i128(tk_fields *self, tk_room_i128 values, size_t from, tk_guess guess)
{
    size_t room = values.len - from;
    tk_guess plain = tk_new_guess(guess.width, false, guess.mostly_one_digit, guess.have_minus);
    /* Each case has a loop of its own, since `read_part` is inlined. */
    if (guess.width <= 1) {
        return 0;
    }
    if (tk_fits_word(guess)) {
        return tk_fields_read_part_i128(true, self, values, from, room, guess);
    }
    if (2 <= guess.width && guess.width <= 16 && guess.has_return) {
        return tk_fields_read_part_i128(true, self, values, from, room, guess);
    }
    if (2 <= guess.width && guess.width <= 8) {
        return tk_fields_read_part_i128(true, self, values, from, room, plain);
    }
    if (9 <= guess.width && guess.width <= 16) {
        return tk_fields_read_part_i128(true, self, values, from, room, plain);
    }
    return tk_fields_read_part_i128(true, self, values, from, room, guess);
}

/* atoi_column/src/fields/read.rt:55 */
TK_HINTED size_t tk_fields_read_i128(tk_fields *self, tk_room_i128 values)
{
    size_t read = 0;
    size_t part = self->rest.len < TK_SHORT_TEXT ? TK_SHORT_TEXT : TK_PART;
    tk_guess guess = tk_no_guess;
    while (read < values.len) {
        size_t most = tk_size_min(part, values.len - read);
        size_t before = self->rest.len;
        size_t found = tk_fields_read_plain_i128(self, values, read, most, guess);
        size_t from = read;
        read += found;
        if (found < most || read == values.len) {
            break;
        }
        size_t used = tk_size_saturating_sub(before, self->rest.len);
        tk_room_i128 all = tk_room_i128_between(values, from, read);
        guess = tk_guess_after_i128(tk_slice_i128_of(all.at, all.len), used, self->rest, self->is_lines);
        size_t run = tk_fields_read_guessed_i128(self, values, read, guess);
        read += run;
        part = run < TK_PART ? tk_size_min(16 * part, TK_LONG_PART) : TK_PART;
    }
    return read;
}

/* atoi_column/src/guesses.rt:132 */
TK_HINTED tk_option_u128 tk_signed_u128(bool minus, uint64_t magnitude)
{
    /* A type that has all numbers of 64 bits needs no test. */
    if (tk_u128_less(tk_u128_make(UINT64_C(18446744073709551615), UINT64_C(18446744073709551615)),
                     tk_u128_of(UINT64_C(18446744073709551615)))
                         && magnitude > tk_u128_low(tk_u128_make(UINT64_C(18446744073709551615),
                                                                 UINT64_C(18446744073709551615))) + tk_bit(minus)) {
        return tk_none_u128();
    }
    return tk_some_u128(tk_from_parts_u128(minus, tk_u128_of(magnitude)));
}

/* atoi_column/src/guesses.rt:87 */
TK_HINTED tk_option_pair_u128_size tk_number_with_end_u128(tk_bytes rest, size_t width, uint64_t end_word,
                                                           size_t end_len)
{
    if (width == 0 || rest.len <= 8) {
        return tk_none_pair_u128_size();
    }
    size_t sign = tk_sign_len(false, rest);
    tk_option_u64 found = tk_number_before(tk_bytes_from(rest, sign), width, end_word, end_len);
    if (!found.is_some) {
        return tk_none_pair_u128_size();
    }
    tk_option_u128 found_2 = tk_signed_u128(sign == 1, found.value);
    if (!found_2.is_some) {
        return tk_none_pair_u128_size();
    }
    tk_u128 value = found_2.value;
    return tk_some_pair_u128_size(tk_new_pair_u128_size(value, sign + width));
}

/* atoi_column/src/guesses.rt:145 */
TK_HINTED tk_option_pair_u128_size tk_number_of_any_width_u128(tk_bytes rest, size_t width)
{
    size_t at = tk_size_saturating_add(width, tk_sign_len(false, rest));
    if (at > rest.len) {
        return tk_none_pair_u128_size();
    }
    tk_bytes text = tk_bytes_to(rest, at);
    tk_result_u128 found = tk_parse_u128(false, false, text);
    if (!found.is_ok) {
        return tk_none_pair_u128_size();
    }
    return tk_some_pair_u128_size(tk_new_pair_u128_size(found.value, text.len));
}

/* atoi_column/src/guesses.rt:114 */
TK_HINTED tk_option_pair_u128_size tk_number_of_digits_u128(tk_bytes rest, size_t width)
{
    if (width == 0 || width > 16) {
        return tk_number_of_any_width_u128(rest, width);
    }
    if (rest.len <= tk_size_max(width, 8)) {
        return tk_none_pair_u128_size();
    }
    size_t sign = tk_sign_len(false, rest);
    tk_option_u64 found = tk_number_of_width(tk_bytes_from(rest, sign), width);
    if (!found.is_some) {
        return tk_none_pair_u128_size();
    }
    tk_option_u128 found_2 = tk_signed_u128(sign == 1, found.value);
    if (!found_2.is_some) {
        return tk_none_pair_u128_size();
    }
    tk_u128 value = found_2.value;
    return tk_some_pair_u128_size(tk_new_pair_u128_size(value, sign + width));
}

/* atoi_column/src/fields/read.rt:231 */
TK_HINTED tk_option_pair_u128_bytes tk_guessed_field_u128(tk_bytes rest, uint8_t separator, bool is_lines,
                                                          tk_guess guess)
{
    tk_pair_u64_size found = tk_end_of(separator, is_lines, guess.has_return);
    uint64_t end_word = found.first;
    size_t end_len = found.second;
    if (tk_fits_word(guess)) {
        tk_option_pair_u128_size found_2 = tk_number_with_end_u128(rest, guess.width, end_word, end_len);
        if (!found_2.is_some) {
            return tk_none_pair_u128_bytes();
        }
        tk_u128 value = found_2.value.first;
        size_t count = found_2.value.second;
        return tk_some_pair_u128_bytes(tk_new_pair_u128_bytes(value, tk_bytes_from(rest, count + end_len)));
    }
    tk_option_pair_u128_size found_2 = tk_number_of_digits_u128(rest, guess.width);
    if (!found_2.is_some) {
        return tk_none_pair_u128_bytes();
    }
    tk_u128 value = found_2.value.first;
    size_t count = found_2.value.second;
    if (!tk_starts_with(tk_bytes_from(rest, count), end_word, end_len)) {
        return tk_none_pair_u128_bytes();
    }
    return tk_some_pair_u128_bytes(tk_new_pair_u128_bytes(value, tk_bytes_from(rest, count + end_len)));
}

/* atoi_column/src/fields/read.rt:179 */
TK_HINTED tk_option_u128 tk_fields_guessed_number_u128(tk_fields *self, tk_guess guess)
{
    tk_bytes rest = self->rest;
    size_t index = self->index;
    tk_option_pair_u128_bytes found = tk_guessed_field_u128(rest, self->separator, self->is_lines, guess);
    if (!found.is_some) {
        return tk_none_u128();
    }
    tk_u128 value = found.value.first;
    tk_bytes following = found.value.second;
    self->index = index + 1;
    self->rest = following;
    return tk_some_u128(value);
}

/* atoi_column/src/fields/read.rt:194 */
TK_HINTED tk_option_u128 tk_fields_next_number_u128(tk_fields *self, tk_guess guess)
{
    tk_bytes rest = self->rest;
    size_t index = self->index;
    if (rest.len == 0) {
        return tk_none_u128();
    }
    tk_option_pair_u128_bytes found = tk_accepted_field_u128(rest, self->separator, self->is_lines, guess);
    if (found.is_some) {
        tk_u128 value = found.value.first;
        tk_bytes following = found.value.second;
        self->index = index + 1;
        self->rest = following;
        return tk_some_u128(value);
    }
    size_t place = self->end - rest.len;
    tk_pair_result_u128_field_error_bytes found_2 = tk_read_field_u128(rest, self->separator, self->is_lines, index,
                                                                       place);
    tk_result_u128_field_error item = found_2.first;
    tk_bytes following = found_2.second;
    if (!item.is_ok) {
        return tk_none_u128();
    }
    tk_u128 value = item.value;
    self->index = index + 1;
    self->rest = following;
    return tk_some_u128(value);
}

/* atoi_column/src/fields/read.rt:140 */
TK_NOINLINE size_t tk_fields_read_part_u128(bool guesses, tk_fields *self, tk_room_u128 values, size_t from,
                                            size_t most, tk_guess guess)
{
    /* The smaller one of both, so that rustc 1.95 tests no index below it. */
    size_t end = tk_size_min(values.len, from + most);
    /* While numbers are written to memory, these fields stay in registers. */
    tk_fields fields = tk_new_fields(self->rest, self->separator, self->is_lines, self->index, self->end);
    size_t at = from;
    while (at < end) {
        tk_option_u128 next = guesses ? tk_fields_guessed_number_u128(&fields, guess)
            : tk_fields_next_number_u128(&fields, guess);
        if (next.is_some) {
            tk_u128 value = next.value;
            values.at[tk_index(at, values.len)] = value;
            at++;
        } else {
            break;
        }
    }
    *self = fields;
    return at - from;
}

/* atoi_column/src/fields/read.rt:96 */
TK_HINTED size_t tk_fields_read_plain_u128(tk_fields *self, tk_room_u128 values, size_t from, size_t most,
                                           tk_guess guess)
{
    /* Each case has a loop of its own, since `read_part` is inlined. */
    if (guess.mostly_one_digit) {
        return tk_fields_read_part_u128(false, self, values, from, most, tk_no_guess);
    }
    return tk_fields_read_part_u128(false, self, values, from, most, tk_long);
}

/* atoi_core/src/number.rt:367 */
TK_HINTED tk_pair_bool_u128 tk_parts_u128(tk_u128 self)
{
    return tk_new_pair_bool_u128(false, self);
}

/* atoi_column/src/guesses.rt:36 */
TK_NOINLINE tk_guess tk_guess_after_u128(tk_slice_u128 numbers, size_t used, tk_bytes rest, bool is_lines)
{
    size_t count = tk_size_max(numbers.len, 1);
    size_t count_2 = 0;
    size_t at = 0;
    while (at < numbers.len) {
        tk_u128 number = numbers.at[at];
        at++;
        if (tk_parts_u128(number).first) {
            count_2++;
        }
    }
    size_t minuses = count_2;
    size_t digits_and_ends = tk_size_saturating_sub(used, minuses);
    size_t each = digits_and_ends / count;
    size_t at_2 = tk_size_saturating_add(tk_sign_len(false, rest), tk_size_saturating_sub(each, 2));
    bool has_return = is_lines && at_2 <= rest.len && tk_bytes_from(rest, at_2).len >= 1
        && tk_bytes_from(rest, at_2).at[0] == '\r';
    size_t found = digits_and_ends % count;
    size_t width = found == 0 ? tk_size_saturating_sub(each, 1 + TK_CAST(size_t, has_return)) : 0;
    return tk_new_guess(width, has_return, used / 11 < count / 4, minuses > count / 8);
}

/* atoi_column/src/fields/read.rt:116 */
TK_NOINLINE size_t tk_fields_read_guessed_u128(tk_fields *self, tk_room_u128 values, size_t from, tk_guess guess)
{
    size_t room = values.len - from;
    tk_guess plain = tk_new_guess(guess.width, false, guess.mostly_one_digit, guess.have_minus);
    /* Each case has a loop of its own, since `read_part` is inlined. */
    if (guess.width <= 1) {
        return 0;
    }
    if (tk_fits_word(guess)) {
        return tk_fields_read_part_u128(true, self, values, from, room, guess);
    }
    if (2 <= guess.width && guess.width <= 16 && guess.has_return) {
        return tk_fields_read_part_u128(true, self, values, from, room, guess);
    }
    if (2 <= guess.width && guess.width <= 8) {
        return tk_fields_read_part_u128(true, self, values, from, room, plain);
    }
    if (9 <= guess.width && guess.width <= 16) {
        return tk_fields_read_part_u128(true, self, values, from, room, plain);
    }
    return tk_fields_read_part_u128(true, self, values, from, room, guess);
}

/* atoi_column/src/fields/read.rt:55 */
TK_HINTED size_t tk_fields_read_u128(tk_fields *self, tk_room_u128 values)
{
    size_t read = 0;
    size_t part = self->rest.len < TK_SHORT_TEXT ? TK_SHORT_TEXT : TK_PART;
    tk_guess guess = tk_no_guess;
    while (read < values.len) {
        size_t most = tk_size_min(part, values.len - read);
        size_t before = self->rest.len;
        size_t found = tk_fields_read_plain_u128(self, values, read, most, guess);
        size_t from = read;
        read += found;
        if (found < most || read == values.len) {
            break;
        }
        size_t used = tk_size_saturating_sub(before, self->rest.len);
        tk_room_u128 all = tk_room_u128_between(values, from, read);
        guess = tk_guess_after_u128(tk_slice_u128_of(all.at, all.len), used, self->rest, self->is_lines);
        size_t run = tk_fields_read_guessed_u128(self, values, read, guess);
        read += run;
        part = run < TK_PART ? tk_size_min(16 * part, TK_LONG_PART) : TK_PART;
    }
    return read;
}
/* ---- The interface, written by hand. */

static torkettle_status tk_status_of(tk_error error)
{
    switch (error.tag) {
    case TK_ERROR_EMPTY:
        return TORKETTLE_EMPTY;
    case TK_ERROR_SIZE:
        return TORKETTLE_SIZE;
    case TK_ERROR_OVERFLOW:
        return TORKETTLE_OVERFLOW;
    case TK_ERROR_INVALID64:
    case TK_ERROR_INVALID128:
        break;
    }
    return TORKETTLE_INVALID;
}

/* An error has the rest of the text, which reaches to its end. */
TK_NOINLINE torkettle_error tk_explained(tk_error error, tk_bytes text)
{
    torkettle_error made = TK_MAKE(torkettle_error, tk_status_of(error), 0, 0, error.size, 0, 0);
    if (error.tag != TK_ERROR_EMPTY)
        made.offset = text.len - error.bytes.len;
    if (error.tag == TK_ERROR_INVALID64) {
        made.bits = 64;
        made.value_low = error.u64;
    }
    if (error.tag == TK_ERROR_INVALID128) {
        made.bits = 128;
        made.value_low = tk_u128_low(error.u128);
        made.value_high = tk_u128_high(error.u128);
    }
    return made;
}

/* The error that `tk_explained` made this of. */
static tk_error tk_error_again(const torkettle_error *error, tk_bytes text)
{
    size_t offset = error->offset < text.len ? error->offset : text.len;
    tk_bytes rest = offset > 0 ? tk_bytes_of(text.at + offset, text.len - offset) : text;
    if (error->status == TORKETTLE_EMPTY)
        return tk_error_empty();
    if (error->status == TORKETTLE_SIZE)
        return tk_error_size(error->count, rest);
    if (error->status == TORKETTLE_OVERFLOW)
        return tk_error_overflow(rest);
    if (error->bits == 128)
        return tk_error_invalid128(tk_u128_make(error->value_high, error->value_low), error->count, rest);
    return tk_error_invalid64(error->value_low, error->count, rest);
}

size_t torkettle_error_text(char *buffer, size_t size, const torkettle_error *error, const char *text,
                            size_t length) TORKETTLE_NOEXCEPT
{
    uint8_t message[400];
    size_t written = 0, at;
    if (TORKETTLE_EMPTY <= error->status && error->status <= TORKETTLE_INVALID)
        written = tk_error_text(tk_error_again(error, tk_text(text, length)), message);
    for (at = 0; at + 1 < size && at < written; at++)
        buffer[at] = TK_CAST(char, message[at]);
    if (size > 0)
        buffer[at] = 0;
    return written;
}

const char *torkettle_version(void) TORKETTLE_NOEXCEPT { return TORKETTLE_VERSION; }

/* The flags of a call. */
#define TK_ZEROES ((flags & TORKETTLE_SKIP_ZEROES) != 0)
#define TK_PLUS ((flags & TORKETTLE_SKIP_PLUS) != 0)

/* A slice that `quick_slice` does not read, in a function of its own: this one needs room for an error. */
TK_NOINLINE torkettle_found_i8 tk_rest_of_whole_i8(const char *text, size_t length, unsigned flags)
{
    tk_bytes bytes = tk_text(text, length);
    tk_option_i8 long_ = tk_long_slice_i8(bytes);
    if (long_.is_some)
        return TK_MAKE(torkettle_found_i8, long_.value, length);
    tk_result_i8 found = tk_atoi_simd_parse_i8(bytes, TK_ZEROES, TK_PLUS);
    if (!found.is_ok)
        return TK_MAKE(torkettle_found_i8, TK_CAST(int8_t, tk_status_of(found.error)), 0);
    return TK_MAKE(torkettle_found_i8, found.value, length);
}

TK_FAR torkettle_found_i8 torkettle_whole_i8(const char *text, size_t length, unsigned flags) TORKETTLE_NOEXCEPT
{
    tk_option_i8 quick = tk_quick_slice_i8(tk_text(text, length));
    if (quick.is_some)
        return TK_MAKE(torkettle_found_i8, quick.value, length);
    return tk_rest_of_whole_i8(text, length, flags);
}

torkettle_found_i8 torkettle_prefix_i8(const char *text, size_t length, unsigned flags) TORKETTLE_NOEXCEPT
{
    tk_result_pair_i8_size found = tk_atoi_simd_parse_prefix_i8(tk_text(text, length), TK_ZEROES, TK_PLUS);
    if (!found.is_ok)
        return TK_MAKE(torkettle_found_i8, TK_CAST(int8_t, tk_status_of(found.error)), 0);
    return TK_MAKE(torkettle_found_i8, found.value.first, found.value.second);
}

torkettle_found_i8 torkettle_whole_canonical_i8(const char *text, size_t length) TORKETTLE_NOEXCEPT
{
    tk_option_i8 found = tk_canonical_i8(tk_text(text, length));
    return TK_MAKE(torkettle_found_i8, found.value, found.is_some ? length : 0);
}

torkettle_found_i8 torkettle_prefix_json_i8(const char *text, size_t length) TORKETTLE_NOEXCEPT
{
    tk_option_pair_i8_bytes found = tk_json_integer_i8(tk_text(text, length));
    size_t count = found.is_some ? length - found.value.second.len : 0;
    return TK_MAKE(torkettle_found_i8, found.value.first, count);
}

torkettle_status torkettle_parse_pos_i8(const char *text, size_t length, unsigned flags,
                                        int8_t *value) TORKETTLE_NOEXCEPT
{
    tk_result_i8 found = tk_atoi_simd_parse_pos_i8(tk_text(text, length), TK_ZEROES);
    if (!found.is_ok)
        return tk_status_of(found.error);
    *value = found.value;
    return TORKETTLE_OK;
}

torkettle_status torkettle_parse_prefix_pos_i8(const char *text, size_t length, unsigned flags, int8_t *value,
                                               size_t *count) TORKETTLE_NOEXCEPT
{
    tk_result_pair_i8_size found = tk_atoi_simd_parse_prefix_pos_i8(tk_text(text, length), TK_ZEROES);
    if (!found.is_ok)
        return tk_status_of(found.error);
    *value = found.value.first;
    *count = found.value.second;
    return TORKETTLE_OK;
}

/* For programs that do not read the header. */
torkettle_status torkettle_called_parse_i8(const char *text, size_t length, unsigned flags, int8_t *value)
    TORKETTLE_SYMBOL_(parse_i8);
torkettle_status torkettle_called_parse_prefix_i8(const char *text, size_t length, unsigned flags, int8_t *value,
                                                  size_t *count) TORKETTLE_SYMBOL_(parse_prefix_i8);
torkettle_status torkettle_called_parse_i8(const char *text, size_t length, unsigned flags,
                                           int8_t *value) TORKETTLE_NOEXCEPT
{
    return torkettle_parse_i8(text, length, flags, value);
}

torkettle_status torkettle_called_parse_prefix_i8(const char *text, size_t length, unsigned flags, int8_t *value,
                                                  size_t *count) TORKETTLE_NOEXCEPT
{
    torkettle_found_i8 found = torkettle_prefix_i8(text, length, flags);
    if (found.length == 0)
        return TK_CAST(torkettle_status, found.value);
    *value = found.value;
    *count = found.length;
    return TORKETTLE_OK;
}

torkettle_error torkettle_parse_error_i8(const char *text, size_t length, unsigned flags) TORKETTLE_NOEXCEPT
{
    tk_bytes bytes = tk_text(text, length);
    tk_result_i8 found = tk_atoi_simd_parse_i8(bytes, TK_ZEROES, TK_PLUS);
    return found.is_ok ? TK_MAKE(torkettle_error, TORKETTLE_OK, 0, 0, 0, 0, 0) : tk_explained(found.error, bytes);
}

torkettle_error torkettle_parse_prefix_error_i8(const char *text, size_t length, unsigned flags) TORKETTLE_NOEXCEPT
{
    tk_bytes bytes = tk_text(text, length);
    tk_result_pair_i8_size found = tk_atoi_simd_parse_prefix_i8(bytes, TK_ZEROES, TK_PLUS);
    return found.is_ok ? TK_MAKE(torkettle_error, TORKETTLE_OK, 0, 0, 0, 0, 0) : tk_explained(found.error, bytes);
}

TK_INLINE tk_fields tk_left_i8(const torkettle_fields_i8 *fields)
{
    tk_bytes rest = tk_text(fields->rest, fields->rest_length);
    return fields->is_lines ? tk_fields_lines(rest) : tk_fields_new(rest, TK_CAST(uint8_t, fields->separator));
}

TK_INLINE void tk_go_on_i8(torkettle_fields_i8 *fields, tk_fields left)
{
    tk_pair_size_size position = tk_fields_position(left);
    fields->next_index += position.first;
    fields->next_offset += position.second;
    fields->rest += position.second;
    fields->rest_length -= position.second;
}

TK_COLD void tk_refuse_field_i8(torkettle_fields_i8 *fields, tk_field_error bad)
{
    fields->status = tk_status_of(bad.cause);
    fields->index = fields->next_index + bad.index;
    fields->offset = fields->next_offset + bad.place;
    fields->text = fields->rest + bad.place;
    fields->length = bad.text.len;
}

/* Tells of the separator as of one bad field, after which the fields end. */
TK_COLD void tk_refuse_separator_i8(torkettle_fields_i8 *fields)
{
    fields->status = TORKETTLE_INVALID;
    fields->index = fields->offset = SIZE_MAX;
    fields->text = NULL;
    fields->length = fields->rest_length = 0;
    fields->separator = ',';
}

torkettle_found_i8 torkettle_next_i8(torkettle_fields_i8 *fields) TORKETTLE_NOEXCEPT
{
    torkettle_found_i8 end = {0, 0}, bad = {0, 2};
    if (!fields->is_lines && !tk_is_separator(TK_CAST(uint8_t, fields->separator))) {
        tk_refuse_separator_i8(fields);
        return bad;
    }
    fields->status = TORKETTLE_OK;
    if (fields->rest_length == 0)
        return end;
    tk_fields left = tk_left_i8(fields);
    tk_option_result_i8_field_error item = tk_fields_next_i8(&left);
    if (!item.value.is_ok) {
        tk_refuse_field_i8(fields, item.value.error);
        tk_go_on_i8(fields, left);
        return bad;
    }
    tk_go_on_i8(fields, left);
    return TK_MAKE(torkettle_found_i8, item.value.value, 1);
}

size_t torkettle_fields_i8_read(torkettle_fields_i8 *fields, int8_t *values, size_t count) TORKETTLE_NOEXCEPT
{
    size_t read = 0;
    fields->status = TORKETTLE_OK;
    if (fields->rest_length > 0 && count > 0) {
        tk_fields left = tk_left_i8(fields);
        read = tk_fields_read_i8(&left, tk_room_i8_of(values, count));
        tk_go_on_i8(fields, left);
    }
    if (read < count)
        torkettle_next_i8(fields);
    return read;
}

/* What a column is after a bad field. */
torkettle_column_i8 torkettle_ended_i8(const torkettle_fields_i8 *fields) TORKETTLE_NOEXCEPT
{
    unsigned flags = TORKETTLE_SKIP_ZEROES | TORKETTLE_SKIP_PLUS;
    torkettle_error error = torkettle_parse_error_i8(fields->text, fields->length, flags);
    torkettle_column_i8 column = {fields->status, fields->index, fields->offset, *fields};
    if (fields->status == TORKETTLE_INVALID)
        column.offset += error.offset + error.count;
    column.fields.rest_length = 0;
    return column;
}

size_t torkettle_column_i8_read(torkettle_column_i8 *column, int8_t *values, size_t count) TORKETTLE_NOEXCEPT
{
    size_t read = torkettle_fields_i8_read(&column->fields, values, count);
    if (column->fields.status != TORKETTLE_OK)
        *column = torkettle_ended_i8(&column->fields);
    return read;
}
/* A slice that `quick_slice` does not read, in a function of its own: this one needs room for an error. */
TK_NOINLINE torkettle_found_u8 tk_rest_of_whole_u8(const char *text, size_t length, unsigned flags)
{
    tk_bytes bytes = tk_text(text, length);
    tk_option_u8 long_ = tk_long_slice_u8(bytes);
    if (long_.is_some)
        return TK_MAKE(torkettle_found_u8, long_.value, length);
    tk_result_u8 found = tk_atoi_simd_parse_u8(bytes, TK_ZEROES, TK_PLUS);
    if (!found.is_ok)
        return TK_MAKE(torkettle_found_u8, TK_CAST(uint8_t, tk_status_of(found.error)), 0);
    return TK_MAKE(torkettle_found_u8, found.value, length);
}

TK_FAR torkettle_found_u8 torkettle_whole_u8(const char *text, size_t length, unsigned flags) TORKETTLE_NOEXCEPT
{
    tk_option_u8 quick = tk_quick_slice_u8(tk_text(text, length));
    if (quick.is_some)
        return TK_MAKE(torkettle_found_u8, quick.value, length);
    return tk_rest_of_whole_u8(text, length, flags);
}

torkettle_found_u8 torkettle_prefix_u8(const char *text, size_t length, unsigned flags) TORKETTLE_NOEXCEPT
{
    tk_result_pair_u8_size found = tk_atoi_simd_parse_prefix_u8(tk_text(text, length), TK_ZEROES, TK_PLUS);
    if (!found.is_ok)
        return TK_MAKE(torkettle_found_u8, TK_CAST(uint8_t, tk_status_of(found.error)), 0);
    return TK_MAKE(torkettle_found_u8, found.value.first, found.value.second);
}

torkettle_found_u8 torkettle_whole_canonical_u8(const char *text, size_t length) TORKETTLE_NOEXCEPT
{
    tk_option_u8 found = tk_canonical_u8(tk_text(text, length));
    return TK_MAKE(torkettle_found_u8, found.value, found.is_some ? length : 0);
}

torkettle_found_u8 torkettle_prefix_json_u8(const char *text, size_t length) TORKETTLE_NOEXCEPT
{
    tk_option_pair_u8_bytes found = tk_json_integer_u8(tk_text(text, length));
    size_t count = found.is_some ? length - found.value.second.len : 0;
    return TK_MAKE(torkettle_found_u8, found.value.first, count);
}

torkettle_status torkettle_parse_pos_u8(const char *text, size_t length, unsigned flags,
                                        uint8_t *value) TORKETTLE_NOEXCEPT
{
    tk_result_u8 found = tk_atoi_simd_parse_pos_u8(tk_text(text, length), TK_ZEROES);
    if (!found.is_ok)
        return tk_status_of(found.error);
    *value = found.value;
    return TORKETTLE_OK;
}

torkettle_status torkettle_parse_prefix_pos_u8(const char *text, size_t length, unsigned flags, uint8_t *value,
                                               size_t *count) TORKETTLE_NOEXCEPT
{
    tk_result_pair_u8_size found = tk_atoi_simd_parse_prefix_pos_u8(tk_text(text, length), TK_ZEROES);
    if (!found.is_ok)
        return tk_status_of(found.error);
    *value = found.value.first;
    *count = found.value.second;
    return TORKETTLE_OK;
}

/* For programs that do not read the header. */
torkettle_status torkettle_called_parse_u8(const char *text, size_t length, unsigned flags, uint8_t *value)
    TORKETTLE_SYMBOL_(parse_u8);
torkettle_status torkettle_called_parse_prefix_u8(const char *text, size_t length, unsigned flags, uint8_t *value,
                                                  size_t *count) TORKETTLE_SYMBOL_(parse_prefix_u8);
torkettle_status torkettle_called_parse_u8(const char *text, size_t length, unsigned flags,
                                           uint8_t *value) TORKETTLE_NOEXCEPT
{
    return torkettle_parse_u8(text, length, flags, value);
}

torkettle_status torkettle_called_parse_prefix_u8(const char *text, size_t length, unsigned flags, uint8_t *value,
                                                  size_t *count) TORKETTLE_NOEXCEPT
{
    torkettle_found_u8 found = torkettle_prefix_u8(text, length, flags);
    if (found.length == 0)
        return TK_CAST(torkettle_status, found.value);
    *value = found.value;
    *count = found.length;
    return TORKETTLE_OK;
}

torkettle_error torkettle_parse_error_u8(const char *text, size_t length, unsigned flags) TORKETTLE_NOEXCEPT
{
    tk_bytes bytes = tk_text(text, length);
    tk_result_u8 found = tk_atoi_simd_parse_u8(bytes, TK_ZEROES, TK_PLUS);
    return found.is_ok ? TK_MAKE(torkettle_error, TORKETTLE_OK, 0, 0, 0, 0, 0) : tk_explained(found.error, bytes);
}

torkettle_error torkettle_parse_prefix_error_u8(const char *text, size_t length, unsigned flags) TORKETTLE_NOEXCEPT
{
    tk_bytes bytes = tk_text(text, length);
    tk_result_pair_u8_size found = tk_atoi_simd_parse_prefix_u8(bytes, TK_ZEROES, TK_PLUS);
    return found.is_ok ? TK_MAKE(torkettle_error, TORKETTLE_OK, 0, 0, 0, 0, 0) : tk_explained(found.error, bytes);
}

TK_INLINE tk_fields tk_left_u8(const torkettle_fields_u8 *fields)
{
    tk_bytes rest = tk_text(fields->rest, fields->rest_length);
    return fields->is_lines ? tk_fields_lines(rest) : tk_fields_new(rest, TK_CAST(uint8_t, fields->separator));
}

TK_INLINE void tk_go_on_u8(torkettle_fields_u8 *fields, tk_fields left)
{
    tk_pair_size_size position = tk_fields_position(left);
    fields->next_index += position.first;
    fields->next_offset += position.second;
    fields->rest += position.second;
    fields->rest_length -= position.second;
}

TK_COLD void tk_refuse_field_u8(torkettle_fields_u8 *fields, tk_field_error bad)
{
    fields->status = tk_status_of(bad.cause);
    fields->index = fields->next_index + bad.index;
    fields->offset = fields->next_offset + bad.place;
    fields->text = fields->rest + bad.place;
    fields->length = bad.text.len;
}

/* Tells of the separator as of one bad field, after which the fields end. */
TK_COLD void tk_refuse_separator_u8(torkettle_fields_u8 *fields)
{
    fields->status = TORKETTLE_INVALID;
    fields->index = fields->offset = SIZE_MAX;
    fields->text = NULL;
    fields->length = fields->rest_length = 0;
    fields->separator = ',';
}

torkettle_found_u8 torkettle_next_u8(torkettle_fields_u8 *fields) TORKETTLE_NOEXCEPT
{
    torkettle_found_u8 end = {0, 0}, bad = {0, 2};
    if (!fields->is_lines && !tk_is_separator(TK_CAST(uint8_t, fields->separator))) {
        tk_refuse_separator_u8(fields);
        return bad;
    }
    fields->status = TORKETTLE_OK;
    if (fields->rest_length == 0)
        return end;
    tk_fields left = tk_left_u8(fields);
    tk_option_result_u8_field_error item = tk_fields_next_u8(&left);
    if (!item.value.is_ok) {
        tk_refuse_field_u8(fields, item.value.error);
        tk_go_on_u8(fields, left);
        return bad;
    }
    tk_go_on_u8(fields, left);
    return TK_MAKE(torkettle_found_u8, item.value.value, 1);
}

size_t torkettle_fields_u8_read(torkettle_fields_u8 *fields, uint8_t *values, size_t count) TORKETTLE_NOEXCEPT
{
    size_t read = 0;
    fields->status = TORKETTLE_OK;
    if (fields->rest_length > 0 && count > 0) {
        tk_fields left = tk_left_u8(fields);
        read = tk_fields_read_u8(&left, tk_room_u8_of(values, count));
        tk_go_on_u8(fields, left);
    }
    if (read < count)
        torkettle_next_u8(fields);
    return read;
}

/* What a column is after a bad field. */
torkettle_column_u8 torkettle_ended_u8(const torkettle_fields_u8 *fields) TORKETTLE_NOEXCEPT
{
    unsigned flags = TORKETTLE_SKIP_ZEROES | TORKETTLE_SKIP_PLUS;
    torkettle_error error = torkettle_parse_error_u8(fields->text, fields->length, flags);
    torkettle_column_u8 column = {fields->status, fields->index, fields->offset, *fields};
    if (fields->status == TORKETTLE_INVALID)
        column.offset += error.offset + error.count;
    column.fields.rest_length = 0;
    return column;
}

size_t torkettle_column_u8_read(torkettle_column_u8 *column, uint8_t *values, size_t count) TORKETTLE_NOEXCEPT
{
    size_t read = torkettle_fields_u8_read(&column->fields, values, count);
    if (column->fields.status != TORKETTLE_OK)
        *column = torkettle_ended_u8(&column->fields);
    return read;
}
/* A slice that `quick_slice` does not read, in a function of its own: this one needs room for an error. */
TK_NOINLINE torkettle_found_i16 tk_rest_of_whole_i16(const char *text, size_t length, unsigned flags)
{
    tk_bytes bytes = tk_text(text, length);
    tk_option_i16 long_ = tk_long_slice_i16(bytes);
    if (long_.is_some)
        return TK_MAKE(torkettle_found_i16, long_.value, length);
    tk_result_i16 found = tk_atoi_simd_parse_i16(bytes, TK_ZEROES, TK_PLUS);
    if (!found.is_ok)
        return TK_MAKE(torkettle_found_i16, TK_CAST(int16_t, tk_status_of(found.error)), 0);
    return TK_MAKE(torkettle_found_i16, found.value, length);
}

TK_FAR torkettle_found_i16 torkettle_whole_i16(const char *text, size_t length, unsigned flags) TORKETTLE_NOEXCEPT
{
    tk_option_i16 quick = tk_quick_slice_i16(tk_text(text, length));
    if (quick.is_some)
        return TK_MAKE(torkettle_found_i16, quick.value, length);
    return tk_rest_of_whole_i16(text, length, flags);
}

torkettle_found_i16 torkettle_prefix_i16(const char *text, size_t length, unsigned flags) TORKETTLE_NOEXCEPT
{
    tk_result_pair_i16_size found = tk_atoi_simd_parse_prefix_i16(tk_text(text, length), TK_ZEROES, TK_PLUS);
    if (!found.is_ok)
        return TK_MAKE(torkettle_found_i16, TK_CAST(int16_t, tk_status_of(found.error)), 0);
    return TK_MAKE(torkettle_found_i16, found.value.first, found.value.second);
}

torkettle_found_i16 torkettle_whole_canonical_i16(const char *text, size_t length) TORKETTLE_NOEXCEPT
{
    tk_option_i16 found = tk_canonical_i16(tk_text(text, length));
    return TK_MAKE(torkettle_found_i16, found.value, found.is_some ? length : 0);
}

torkettle_found_i16 torkettle_prefix_json_i16(const char *text, size_t length) TORKETTLE_NOEXCEPT
{
    tk_option_pair_i16_bytes found = tk_json_integer_i16(tk_text(text, length));
    size_t count = found.is_some ? length - found.value.second.len : 0;
    return TK_MAKE(torkettle_found_i16, found.value.first, count);
}

torkettle_status torkettle_parse_pos_i16(const char *text, size_t length, unsigned flags,
                                         int16_t *value) TORKETTLE_NOEXCEPT
{
    tk_result_i16 found = tk_atoi_simd_parse_pos_i16(tk_text(text, length), TK_ZEROES);
    if (!found.is_ok)
        return tk_status_of(found.error);
    *value = found.value;
    return TORKETTLE_OK;
}

torkettle_status torkettle_parse_prefix_pos_i16(const char *text, size_t length, unsigned flags, int16_t *value,
                                                size_t *count) TORKETTLE_NOEXCEPT
{
    tk_result_pair_i16_size found = tk_atoi_simd_parse_prefix_pos_i16(tk_text(text, length), TK_ZEROES);
    if (!found.is_ok)
        return tk_status_of(found.error);
    *value = found.value.first;
    *count = found.value.second;
    return TORKETTLE_OK;
}

/* For programs that do not read the header. */
torkettle_status torkettle_called_parse_i16(const char *text, size_t length, unsigned flags, int16_t *value)
    TORKETTLE_SYMBOL_(parse_i16);
torkettle_status torkettle_called_parse_prefix_i16(const char *text, size_t length, unsigned flags, int16_t *value,
                                                   size_t *count) TORKETTLE_SYMBOL_(parse_prefix_i16);
torkettle_status torkettle_called_parse_i16(const char *text, size_t length, unsigned flags,
                                            int16_t *value) TORKETTLE_NOEXCEPT
{
    return torkettle_parse_i16(text, length, flags, value);
}

torkettle_status torkettle_called_parse_prefix_i16(const char *text, size_t length, unsigned flags, int16_t *value,
                                                   size_t *count) TORKETTLE_NOEXCEPT
{
    torkettle_found_i16 found = torkettle_prefix_i16(text, length, flags);
    if (found.length == 0)
        return TK_CAST(torkettle_status, found.value);
    *value = found.value;
    *count = found.length;
    return TORKETTLE_OK;
}

torkettle_error torkettle_parse_error_i16(const char *text, size_t length, unsigned flags) TORKETTLE_NOEXCEPT
{
    tk_bytes bytes = tk_text(text, length);
    tk_result_i16 found = tk_atoi_simd_parse_i16(bytes, TK_ZEROES, TK_PLUS);
    return found.is_ok ? TK_MAKE(torkettle_error, TORKETTLE_OK, 0, 0, 0, 0, 0) : tk_explained(found.error, bytes);
}

torkettle_error torkettle_parse_prefix_error_i16(const char *text, size_t length, unsigned flags) TORKETTLE_NOEXCEPT
{
    tk_bytes bytes = tk_text(text, length);
    tk_result_pair_i16_size found = tk_atoi_simd_parse_prefix_i16(bytes, TK_ZEROES, TK_PLUS);
    return found.is_ok ? TK_MAKE(torkettle_error, TORKETTLE_OK, 0, 0, 0, 0, 0) : tk_explained(found.error, bytes);
}

TK_INLINE tk_fields tk_left_i16(const torkettle_fields_i16 *fields)
{
    tk_bytes rest = tk_text(fields->rest, fields->rest_length);
    return fields->is_lines ? tk_fields_lines(rest) : tk_fields_new(rest, TK_CAST(uint8_t, fields->separator));
}

TK_INLINE void tk_go_on_i16(torkettle_fields_i16 *fields, tk_fields left)
{
    tk_pair_size_size position = tk_fields_position(left);
    fields->next_index += position.first;
    fields->next_offset += position.second;
    fields->rest += position.second;
    fields->rest_length -= position.second;
}

TK_COLD void tk_refuse_field_i16(torkettle_fields_i16 *fields, tk_field_error bad)
{
    fields->status = tk_status_of(bad.cause);
    fields->index = fields->next_index + bad.index;
    fields->offset = fields->next_offset + bad.place;
    fields->text = fields->rest + bad.place;
    fields->length = bad.text.len;
}

/* Tells of the separator as of one bad field, after which the fields end. */
TK_COLD void tk_refuse_separator_i16(torkettle_fields_i16 *fields)
{
    fields->status = TORKETTLE_INVALID;
    fields->index = fields->offset = SIZE_MAX;
    fields->text = NULL;
    fields->length = fields->rest_length = 0;
    fields->separator = ',';
}

torkettle_found_i16 torkettle_next_i16(torkettle_fields_i16 *fields) TORKETTLE_NOEXCEPT
{
    torkettle_found_i16 end = {0, 0}, bad = {0, 2};
    if (!fields->is_lines && !tk_is_separator(TK_CAST(uint8_t, fields->separator))) {
        tk_refuse_separator_i16(fields);
        return bad;
    }
    fields->status = TORKETTLE_OK;
    if (fields->rest_length == 0)
        return end;
    tk_fields left = tk_left_i16(fields);
    tk_option_result_i16_field_error item = tk_fields_next_i16(&left);
    if (!item.value.is_ok) {
        tk_refuse_field_i16(fields, item.value.error);
        tk_go_on_i16(fields, left);
        return bad;
    }
    tk_go_on_i16(fields, left);
    return TK_MAKE(torkettle_found_i16, item.value.value, 1);
}

size_t torkettle_fields_i16_read(torkettle_fields_i16 *fields, int16_t *values, size_t count) TORKETTLE_NOEXCEPT
{
    size_t read = 0;
    fields->status = TORKETTLE_OK;
    if (fields->rest_length > 0 && count > 0) {
        tk_fields left = tk_left_i16(fields);
        read = tk_fields_read_i16(&left, tk_room_i16_of(values, count));
        tk_go_on_i16(fields, left);
    }
    if (read < count)
        torkettle_next_i16(fields);
    return read;
}

/* What a column is after a bad field. */
torkettle_column_i16 torkettle_ended_i16(const torkettle_fields_i16 *fields) TORKETTLE_NOEXCEPT
{
    unsigned flags = TORKETTLE_SKIP_ZEROES | TORKETTLE_SKIP_PLUS;
    torkettle_error error = torkettle_parse_error_i16(fields->text, fields->length, flags);
    torkettle_column_i16 column = {fields->status, fields->index, fields->offset, *fields};
    if (fields->status == TORKETTLE_INVALID)
        column.offset += error.offset + error.count;
    column.fields.rest_length = 0;
    return column;
}

size_t torkettle_column_i16_read(torkettle_column_i16 *column, int16_t *values, size_t count) TORKETTLE_NOEXCEPT
{
    size_t read = torkettle_fields_i16_read(&column->fields, values, count);
    if (column->fields.status != TORKETTLE_OK)
        *column = torkettle_ended_i16(&column->fields);
    return read;
}
/* A slice that `quick_slice` does not read, in a function of its own: this one needs room for an error. */
TK_NOINLINE torkettle_found_u16 tk_rest_of_whole_u16(const char *text, size_t length, unsigned flags)
{
    tk_bytes bytes = tk_text(text, length);
    tk_option_u16 long_ = tk_long_slice_u16(bytes);
    if (long_.is_some)
        return TK_MAKE(torkettle_found_u16, long_.value, length);
    tk_result_u16 found = tk_atoi_simd_parse_u16(bytes, TK_ZEROES, TK_PLUS);
    if (!found.is_ok)
        return TK_MAKE(torkettle_found_u16, TK_CAST(uint16_t, tk_status_of(found.error)), 0);
    return TK_MAKE(torkettle_found_u16, found.value, length);
}

TK_FAR torkettle_found_u16 torkettle_whole_u16(const char *text, size_t length, unsigned flags) TORKETTLE_NOEXCEPT
{
    tk_option_u16 quick = tk_quick_slice_u16(tk_text(text, length));
    if (quick.is_some)
        return TK_MAKE(torkettle_found_u16, quick.value, length);
    return tk_rest_of_whole_u16(text, length, flags);
}

torkettle_found_u16 torkettle_prefix_u16(const char *text, size_t length, unsigned flags) TORKETTLE_NOEXCEPT
{
    tk_result_pair_u16_size found = tk_atoi_simd_parse_prefix_u16(tk_text(text, length), TK_ZEROES, TK_PLUS);
    if (!found.is_ok)
        return TK_MAKE(torkettle_found_u16, TK_CAST(uint16_t, tk_status_of(found.error)), 0);
    return TK_MAKE(torkettle_found_u16, found.value.first, found.value.second);
}

torkettle_found_u16 torkettle_whole_canonical_u16(const char *text, size_t length) TORKETTLE_NOEXCEPT
{
    tk_option_u16 found = tk_canonical_u16(tk_text(text, length));
    return TK_MAKE(torkettle_found_u16, found.value, found.is_some ? length : 0);
}

torkettle_found_u16 torkettle_prefix_json_u16(const char *text, size_t length) TORKETTLE_NOEXCEPT
{
    tk_option_pair_u16_bytes found = tk_json_integer_u16(tk_text(text, length));
    size_t count = found.is_some ? length - found.value.second.len : 0;
    return TK_MAKE(torkettle_found_u16, found.value.first, count);
}

torkettle_status torkettle_parse_pos_u16(const char *text, size_t length, unsigned flags,
                                         uint16_t *value) TORKETTLE_NOEXCEPT
{
    tk_result_u16 found = tk_atoi_simd_parse_pos_u16(tk_text(text, length), TK_ZEROES);
    if (!found.is_ok)
        return tk_status_of(found.error);
    *value = found.value;
    return TORKETTLE_OK;
}

torkettle_status torkettle_parse_prefix_pos_u16(const char *text, size_t length, unsigned flags, uint16_t *value,
                                                size_t *count) TORKETTLE_NOEXCEPT
{
    tk_result_pair_u16_size found = tk_atoi_simd_parse_prefix_pos_u16(tk_text(text, length), TK_ZEROES);
    if (!found.is_ok)
        return tk_status_of(found.error);
    *value = found.value.first;
    *count = found.value.second;
    return TORKETTLE_OK;
}

/* For programs that do not read the header. */
torkettle_status torkettle_called_parse_u16(const char *text, size_t length, unsigned flags, uint16_t *value)
    TORKETTLE_SYMBOL_(parse_u16);
torkettle_status torkettle_called_parse_prefix_u16(const char *text, size_t length, unsigned flags, uint16_t *value,
                                                   size_t *count) TORKETTLE_SYMBOL_(parse_prefix_u16);
torkettle_status torkettle_called_parse_u16(const char *text, size_t length, unsigned flags,
                                            uint16_t *value) TORKETTLE_NOEXCEPT
{
    return torkettle_parse_u16(text, length, flags, value);
}

torkettle_status torkettle_called_parse_prefix_u16(const char *text, size_t length, unsigned flags, uint16_t *value,
                                                   size_t *count) TORKETTLE_NOEXCEPT
{
    torkettle_found_u16 found = torkettle_prefix_u16(text, length, flags);
    if (found.length == 0)
        return TK_CAST(torkettle_status, found.value);
    *value = found.value;
    *count = found.length;
    return TORKETTLE_OK;
}

torkettle_error torkettle_parse_error_u16(const char *text, size_t length, unsigned flags) TORKETTLE_NOEXCEPT
{
    tk_bytes bytes = tk_text(text, length);
    tk_result_u16 found = tk_atoi_simd_parse_u16(bytes, TK_ZEROES, TK_PLUS);
    return found.is_ok ? TK_MAKE(torkettle_error, TORKETTLE_OK, 0, 0, 0, 0, 0) : tk_explained(found.error, bytes);
}

torkettle_error torkettle_parse_prefix_error_u16(const char *text, size_t length, unsigned flags) TORKETTLE_NOEXCEPT
{
    tk_bytes bytes = tk_text(text, length);
    tk_result_pair_u16_size found = tk_atoi_simd_parse_prefix_u16(bytes, TK_ZEROES, TK_PLUS);
    return found.is_ok ? TK_MAKE(torkettle_error, TORKETTLE_OK, 0, 0, 0, 0, 0) : tk_explained(found.error, bytes);
}

TK_INLINE tk_fields tk_left_u16(const torkettle_fields_u16 *fields)
{
    tk_bytes rest = tk_text(fields->rest, fields->rest_length);
    return fields->is_lines ? tk_fields_lines(rest) : tk_fields_new(rest, TK_CAST(uint8_t, fields->separator));
}

TK_INLINE void tk_go_on_u16(torkettle_fields_u16 *fields, tk_fields left)
{
    tk_pair_size_size position = tk_fields_position(left);
    fields->next_index += position.first;
    fields->next_offset += position.second;
    fields->rest += position.second;
    fields->rest_length -= position.second;
}

TK_COLD void tk_refuse_field_u16(torkettle_fields_u16 *fields, tk_field_error bad)
{
    fields->status = tk_status_of(bad.cause);
    fields->index = fields->next_index + bad.index;
    fields->offset = fields->next_offset + bad.place;
    fields->text = fields->rest + bad.place;
    fields->length = bad.text.len;
}

/* Tells of the separator as of one bad field, after which the fields end. */
TK_COLD void tk_refuse_separator_u16(torkettle_fields_u16 *fields)
{
    fields->status = TORKETTLE_INVALID;
    fields->index = fields->offset = SIZE_MAX;
    fields->text = NULL;
    fields->length = fields->rest_length = 0;
    fields->separator = ',';
}

torkettle_found_u16 torkettle_next_u16(torkettle_fields_u16 *fields) TORKETTLE_NOEXCEPT
{
    torkettle_found_u16 end = {0, 0}, bad = {0, 2};
    if (!fields->is_lines && !tk_is_separator(TK_CAST(uint8_t, fields->separator))) {
        tk_refuse_separator_u16(fields);
        return bad;
    }
    fields->status = TORKETTLE_OK;
    if (fields->rest_length == 0)
        return end;
    tk_fields left = tk_left_u16(fields);
    tk_option_result_u16_field_error item = tk_fields_next_u16(&left);
    if (!item.value.is_ok) {
        tk_refuse_field_u16(fields, item.value.error);
        tk_go_on_u16(fields, left);
        return bad;
    }
    tk_go_on_u16(fields, left);
    return TK_MAKE(torkettle_found_u16, item.value.value, 1);
}

size_t torkettle_fields_u16_read(torkettle_fields_u16 *fields, uint16_t *values, size_t count) TORKETTLE_NOEXCEPT
{
    size_t read = 0;
    fields->status = TORKETTLE_OK;
    if (fields->rest_length > 0 && count > 0) {
        tk_fields left = tk_left_u16(fields);
        read = tk_fields_read_u16(&left, tk_room_u16_of(values, count));
        tk_go_on_u16(fields, left);
    }
    if (read < count)
        torkettle_next_u16(fields);
    return read;
}

/* What a column is after a bad field. */
torkettle_column_u16 torkettle_ended_u16(const torkettle_fields_u16 *fields) TORKETTLE_NOEXCEPT
{
    unsigned flags = TORKETTLE_SKIP_ZEROES | TORKETTLE_SKIP_PLUS;
    torkettle_error error = torkettle_parse_error_u16(fields->text, fields->length, flags);
    torkettle_column_u16 column = {fields->status, fields->index, fields->offset, *fields};
    if (fields->status == TORKETTLE_INVALID)
        column.offset += error.offset + error.count;
    column.fields.rest_length = 0;
    return column;
}

size_t torkettle_column_u16_read(torkettle_column_u16 *column, uint16_t *values, size_t count) TORKETTLE_NOEXCEPT
{
    size_t read = torkettle_fields_u16_read(&column->fields, values, count);
    if (column->fields.status != TORKETTLE_OK)
        *column = torkettle_ended_u16(&column->fields);
    return read;
}
/* A slice that `quick_slice` does not read, in a function of its own: this one needs room for an error. */
TK_NOINLINE torkettle_found_i32 tk_rest_of_whole_i32(const char *text, size_t length, unsigned flags)
{
    tk_bytes bytes = tk_text(text, length);
    tk_option_i32 long_ = tk_long_slice_i32(bytes);
    if (long_.is_some)
        return TK_MAKE(torkettle_found_i32, long_.value, length);
    tk_result_i32 found = tk_atoi_simd_parse_i32(bytes, TK_ZEROES, TK_PLUS);
    if (!found.is_ok)
        return TK_MAKE(torkettle_found_i32, TK_CAST(int32_t, tk_status_of(found.error)), 0);
    return TK_MAKE(torkettle_found_i32, found.value, length);
}

TK_FAR torkettle_found_i32 torkettle_whole_i32(const char *text, size_t length, unsigned flags) TORKETTLE_NOEXCEPT
{
    tk_option_i32 quick = tk_quick_slice_i32(tk_text(text, length));
    if (quick.is_some)
        return TK_MAKE(torkettle_found_i32, quick.value, length);
    return tk_rest_of_whole_i32(text, length, flags);
}

torkettle_found_i32 torkettle_prefix_i32(const char *text, size_t length, unsigned flags) TORKETTLE_NOEXCEPT
{
    tk_result_pair_i32_size found = tk_atoi_simd_parse_prefix_i32(tk_text(text, length), TK_ZEROES, TK_PLUS);
    if (!found.is_ok)
        return TK_MAKE(torkettle_found_i32, TK_CAST(int32_t, tk_status_of(found.error)), 0);
    return TK_MAKE(torkettle_found_i32, found.value.first, found.value.second);
}

torkettle_found_i32 torkettle_whole_canonical_i32(const char *text, size_t length) TORKETTLE_NOEXCEPT
{
    tk_option_i32 found = tk_canonical_i32(tk_text(text, length));
    return TK_MAKE(torkettle_found_i32, found.value, found.is_some ? length : 0);
}

torkettle_found_i32 torkettle_prefix_json_i32(const char *text, size_t length) TORKETTLE_NOEXCEPT
{
    tk_option_pair_i32_bytes found = tk_json_integer_i32(tk_text(text, length));
    size_t count = found.is_some ? length - found.value.second.len : 0;
    return TK_MAKE(torkettle_found_i32, found.value.first, count);
}

torkettle_status torkettle_parse_pos_i32(const char *text, size_t length, unsigned flags,
                                         int32_t *value) TORKETTLE_NOEXCEPT
{
    tk_result_i32 found = tk_atoi_simd_parse_pos_i32(tk_text(text, length), TK_ZEROES);
    if (!found.is_ok)
        return tk_status_of(found.error);
    *value = found.value;
    return TORKETTLE_OK;
}

torkettle_status torkettle_parse_prefix_pos_i32(const char *text, size_t length, unsigned flags, int32_t *value,
                                                size_t *count) TORKETTLE_NOEXCEPT
{
    tk_result_pair_i32_size found = tk_atoi_simd_parse_prefix_pos_i32(tk_text(text, length), TK_ZEROES);
    if (!found.is_ok)
        return tk_status_of(found.error);
    *value = found.value.first;
    *count = found.value.second;
    return TORKETTLE_OK;
}

/* For programs that do not read the header. */
torkettle_status torkettle_called_parse_i32(const char *text, size_t length, unsigned flags, int32_t *value)
    TORKETTLE_SYMBOL_(parse_i32);
torkettle_status torkettle_called_parse_prefix_i32(const char *text, size_t length, unsigned flags, int32_t *value,
                                                   size_t *count) TORKETTLE_SYMBOL_(parse_prefix_i32);
torkettle_status torkettle_called_parse_i32(const char *text, size_t length, unsigned flags,
                                            int32_t *value) TORKETTLE_NOEXCEPT
{
    return torkettle_parse_i32(text, length, flags, value);
}

torkettle_status torkettle_called_parse_prefix_i32(const char *text, size_t length, unsigned flags, int32_t *value,
                                                   size_t *count) TORKETTLE_NOEXCEPT
{
    torkettle_found_i32 found = torkettle_prefix_i32(text, length, flags);
    if (found.length == 0)
        return TK_CAST(torkettle_status, found.value);
    *value = found.value;
    *count = found.length;
    return TORKETTLE_OK;
}

torkettle_error torkettle_parse_error_i32(const char *text, size_t length, unsigned flags) TORKETTLE_NOEXCEPT
{
    tk_bytes bytes = tk_text(text, length);
    tk_result_i32 found = tk_atoi_simd_parse_i32(bytes, TK_ZEROES, TK_PLUS);
    return found.is_ok ? TK_MAKE(torkettle_error, TORKETTLE_OK, 0, 0, 0, 0, 0) : tk_explained(found.error, bytes);
}

torkettle_error torkettle_parse_prefix_error_i32(const char *text, size_t length, unsigned flags) TORKETTLE_NOEXCEPT
{
    tk_bytes bytes = tk_text(text, length);
    tk_result_pair_i32_size found = tk_atoi_simd_parse_prefix_i32(bytes, TK_ZEROES, TK_PLUS);
    return found.is_ok ? TK_MAKE(torkettle_error, TORKETTLE_OK, 0, 0, 0, 0, 0) : tk_explained(found.error, bytes);
}

TK_INLINE tk_fields tk_left_i32(const torkettle_fields_i32 *fields)
{
    tk_bytes rest = tk_text(fields->rest, fields->rest_length);
    return fields->is_lines ? tk_fields_lines(rest) : tk_fields_new(rest, TK_CAST(uint8_t, fields->separator));
}

TK_INLINE void tk_go_on_i32(torkettle_fields_i32 *fields, tk_fields left)
{
    tk_pair_size_size position = tk_fields_position(left);
    fields->next_index += position.first;
    fields->next_offset += position.second;
    fields->rest += position.second;
    fields->rest_length -= position.second;
}

TK_COLD void tk_refuse_field_i32(torkettle_fields_i32 *fields, tk_field_error bad)
{
    fields->status = tk_status_of(bad.cause);
    fields->index = fields->next_index + bad.index;
    fields->offset = fields->next_offset + bad.place;
    fields->text = fields->rest + bad.place;
    fields->length = bad.text.len;
}

/* Tells of the separator as of one bad field, after which the fields end. */
TK_COLD void tk_refuse_separator_i32(torkettle_fields_i32 *fields)
{
    fields->status = TORKETTLE_INVALID;
    fields->index = fields->offset = SIZE_MAX;
    fields->text = NULL;
    fields->length = fields->rest_length = 0;
    fields->separator = ',';
}

torkettle_found_i32 torkettle_next_i32(torkettle_fields_i32 *fields) TORKETTLE_NOEXCEPT
{
    torkettle_found_i32 end = {0, 0}, bad = {0, 2};
    if (!fields->is_lines && !tk_is_separator(TK_CAST(uint8_t, fields->separator))) {
        tk_refuse_separator_i32(fields);
        return bad;
    }
    fields->status = TORKETTLE_OK;
    if (fields->rest_length == 0)
        return end;
    tk_fields left = tk_left_i32(fields);
    tk_option_result_i32_field_error item = tk_fields_next_i32(&left);
    if (!item.value.is_ok) {
        tk_refuse_field_i32(fields, item.value.error);
        tk_go_on_i32(fields, left);
        return bad;
    }
    tk_go_on_i32(fields, left);
    return TK_MAKE(torkettle_found_i32, item.value.value, 1);
}

size_t torkettle_fields_i32_read(torkettle_fields_i32 *fields, int32_t *values, size_t count) TORKETTLE_NOEXCEPT
{
    size_t read = 0;
    fields->status = TORKETTLE_OK;
    if (fields->rest_length > 0 && count > 0) {
        tk_fields left = tk_left_i32(fields);
        read = tk_fields_read_i32(&left, tk_room_i32_of(values, count));
        tk_go_on_i32(fields, left);
    }
    if (read < count)
        torkettle_next_i32(fields);
    return read;
}

/* What a column is after a bad field. */
torkettle_column_i32 torkettle_ended_i32(const torkettle_fields_i32 *fields) TORKETTLE_NOEXCEPT
{
    unsigned flags = TORKETTLE_SKIP_ZEROES | TORKETTLE_SKIP_PLUS;
    torkettle_error error = torkettle_parse_error_i32(fields->text, fields->length, flags);
    torkettle_column_i32 column = {fields->status, fields->index, fields->offset, *fields};
    if (fields->status == TORKETTLE_INVALID)
        column.offset += error.offset + error.count;
    column.fields.rest_length = 0;
    return column;
}

size_t torkettle_column_i32_read(torkettle_column_i32 *column, int32_t *values, size_t count) TORKETTLE_NOEXCEPT
{
    size_t read = torkettle_fields_i32_read(&column->fields, values, count);
    if (column->fields.status != TORKETTLE_OK)
        *column = torkettle_ended_i32(&column->fields);
    return read;
}
/* A slice that `quick_slice` does not read, in a function of its own: this one needs room for an error. */
TK_NOINLINE torkettle_found_u32 tk_rest_of_whole_u32(const char *text, size_t length, unsigned flags)
{
    tk_bytes bytes = tk_text(text, length);
    tk_option_u32 long_ = tk_long_slice_u32(bytes);
    if (long_.is_some)
        return TK_MAKE(torkettle_found_u32, long_.value, length);
    tk_result_u32 found = tk_atoi_simd_parse_u32(bytes, TK_ZEROES, TK_PLUS);
    if (!found.is_ok)
        return TK_MAKE(torkettle_found_u32, TK_CAST(uint32_t, tk_status_of(found.error)), 0);
    return TK_MAKE(torkettle_found_u32, found.value, length);
}

TK_FAR torkettle_found_u32 torkettle_whole_u32(const char *text, size_t length, unsigned flags) TORKETTLE_NOEXCEPT
{
    tk_option_u32 quick = tk_quick_slice_u32(tk_text(text, length));
    if (quick.is_some)
        return TK_MAKE(torkettle_found_u32, quick.value, length);
    return tk_rest_of_whole_u32(text, length, flags);
}

torkettle_found_u32 torkettle_prefix_u32(const char *text, size_t length, unsigned flags) TORKETTLE_NOEXCEPT
{
    tk_result_pair_u32_size found = tk_atoi_simd_parse_prefix_u32(tk_text(text, length), TK_ZEROES, TK_PLUS);
    if (!found.is_ok)
        return TK_MAKE(torkettle_found_u32, TK_CAST(uint32_t, tk_status_of(found.error)), 0);
    return TK_MAKE(torkettle_found_u32, found.value.first, found.value.second);
}

torkettle_found_u32 torkettle_whole_canonical_u32(const char *text, size_t length) TORKETTLE_NOEXCEPT
{
    tk_option_u32 found = tk_canonical_u32(tk_text(text, length));
    return TK_MAKE(torkettle_found_u32, found.value, found.is_some ? length : 0);
}

torkettle_found_u32 torkettle_prefix_json_u32(const char *text, size_t length) TORKETTLE_NOEXCEPT
{
    tk_option_pair_u32_bytes found = tk_json_integer_u32(tk_text(text, length));
    size_t count = found.is_some ? length - found.value.second.len : 0;
    return TK_MAKE(torkettle_found_u32, found.value.first, count);
}

torkettle_status torkettle_parse_pos_u32(const char *text, size_t length, unsigned flags,
                                         uint32_t *value) TORKETTLE_NOEXCEPT
{
    tk_result_u32 found = tk_atoi_simd_parse_pos_u32(tk_text(text, length), TK_ZEROES);
    if (!found.is_ok)
        return tk_status_of(found.error);
    *value = found.value;
    return TORKETTLE_OK;
}

torkettle_status torkettle_parse_prefix_pos_u32(const char *text, size_t length, unsigned flags, uint32_t *value,
                                                size_t *count) TORKETTLE_NOEXCEPT
{
    tk_result_pair_u32_size found = tk_atoi_simd_parse_prefix_pos_u32(tk_text(text, length), TK_ZEROES);
    if (!found.is_ok)
        return tk_status_of(found.error);
    *value = found.value.first;
    *count = found.value.second;
    return TORKETTLE_OK;
}

/* For programs that do not read the header. */
torkettle_status torkettle_called_parse_u32(const char *text, size_t length, unsigned flags, uint32_t *value)
    TORKETTLE_SYMBOL_(parse_u32);
torkettle_status torkettle_called_parse_prefix_u32(const char *text, size_t length, unsigned flags, uint32_t *value,
                                                   size_t *count) TORKETTLE_SYMBOL_(parse_prefix_u32);
torkettle_status torkettle_called_parse_u32(const char *text, size_t length, unsigned flags,
                                            uint32_t *value) TORKETTLE_NOEXCEPT
{
    return torkettle_parse_u32(text, length, flags, value);
}

torkettle_status torkettle_called_parse_prefix_u32(const char *text, size_t length, unsigned flags, uint32_t *value,
                                                   size_t *count) TORKETTLE_NOEXCEPT
{
    torkettle_found_u32 found = torkettle_prefix_u32(text, length, flags);
    if (found.length == 0)
        return TK_CAST(torkettle_status, found.value);
    *value = found.value;
    *count = found.length;
    return TORKETTLE_OK;
}

torkettle_error torkettle_parse_error_u32(const char *text, size_t length, unsigned flags) TORKETTLE_NOEXCEPT
{
    tk_bytes bytes = tk_text(text, length);
    tk_result_u32 found = tk_atoi_simd_parse_u32(bytes, TK_ZEROES, TK_PLUS);
    return found.is_ok ? TK_MAKE(torkettle_error, TORKETTLE_OK, 0, 0, 0, 0, 0) : tk_explained(found.error, bytes);
}

torkettle_error torkettle_parse_prefix_error_u32(const char *text, size_t length, unsigned flags) TORKETTLE_NOEXCEPT
{
    tk_bytes bytes = tk_text(text, length);
    tk_result_pair_u32_size found = tk_atoi_simd_parse_prefix_u32(bytes, TK_ZEROES, TK_PLUS);
    return found.is_ok ? TK_MAKE(torkettle_error, TORKETTLE_OK, 0, 0, 0, 0, 0) : tk_explained(found.error, bytes);
}

TK_INLINE tk_fields tk_left_u32(const torkettle_fields_u32 *fields)
{
    tk_bytes rest = tk_text(fields->rest, fields->rest_length);
    return fields->is_lines ? tk_fields_lines(rest) : tk_fields_new(rest, TK_CAST(uint8_t, fields->separator));
}

TK_INLINE void tk_go_on_u32(torkettle_fields_u32 *fields, tk_fields left)
{
    tk_pair_size_size position = tk_fields_position(left);
    fields->next_index += position.first;
    fields->next_offset += position.second;
    fields->rest += position.second;
    fields->rest_length -= position.second;
}

TK_COLD void tk_refuse_field_u32(torkettle_fields_u32 *fields, tk_field_error bad)
{
    fields->status = tk_status_of(bad.cause);
    fields->index = fields->next_index + bad.index;
    fields->offset = fields->next_offset + bad.place;
    fields->text = fields->rest + bad.place;
    fields->length = bad.text.len;
}

/* Tells of the separator as of one bad field, after which the fields end. */
TK_COLD void tk_refuse_separator_u32(torkettle_fields_u32 *fields)
{
    fields->status = TORKETTLE_INVALID;
    fields->index = fields->offset = SIZE_MAX;
    fields->text = NULL;
    fields->length = fields->rest_length = 0;
    fields->separator = ',';
}

torkettle_found_u32 torkettle_next_u32(torkettle_fields_u32 *fields) TORKETTLE_NOEXCEPT
{
    torkettle_found_u32 end = {0, 0}, bad = {0, 2};
    if (!fields->is_lines && !tk_is_separator(TK_CAST(uint8_t, fields->separator))) {
        tk_refuse_separator_u32(fields);
        return bad;
    }
    fields->status = TORKETTLE_OK;
    if (fields->rest_length == 0)
        return end;
    tk_fields left = tk_left_u32(fields);
    tk_option_result_u32_field_error item = tk_fields_next_u32(&left);
    if (!item.value.is_ok) {
        tk_refuse_field_u32(fields, item.value.error);
        tk_go_on_u32(fields, left);
        return bad;
    }
    tk_go_on_u32(fields, left);
    return TK_MAKE(torkettle_found_u32, item.value.value, 1);
}

size_t torkettle_fields_u32_read(torkettle_fields_u32 *fields, uint32_t *values, size_t count) TORKETTLE_NOEXCEPT
{
    size_t read = 0;
    fields->status = TORKETTLE_OK;
    if (fields->rest_length > 0 && count > 0) {
        tk_fields left = tk_left_u32(fields);
        read = tk_fields_read_u32(&left, tk_room_u32_of(values, count));
        tk_go_on_u32(fields, left);
    }
    if (read < count)
        torkettle_next_u32(fields);
    return read;
}

/* What a column is after a bad field. */
torkettle_column_u32 torkettle_ended_u32(const torkettle_fields_u32 *fields) TORKETTLE_NOEXCEPT
{
    unsigned flags = TORKETTLE_SKIP_ZEROES | TORKETTLE_SKIP_PLUS;
    torkettle_error error = torkettle_parse_error_u32(fields->text, fields->length, flags);
    torkettle_column_u32 column = {fields->status, fields->index, fields->offset, *fields};
    if (fields->status == TORKETTLE_INVALID)
        column.offset += error.offset + error.count;
    column.fields.rest_length = 0;
    return column;
}

size_t torkettle_column_u32_read(torkettle_column_u32 *column, uint32_t *values, size_t count) TORKETTLE_NOEXCEPT
{
    size_t read = torkettle_fields_u32_read(&column->fields, values, count);
    if (column->fields.status != TORKETTLE_OK)
        *column = torkettle_ended_u32(&column->fields);
    return read;
}
/* A slice that `quick_slice` does not read, in a function of its own: this one needs room for an error. */
TK_NOINLINE torkettle_found_i64 tk_rest_of_whole_i64(const char *text, size_t length, unsigned flags)
{
    tk_bytes bytes = tk_text(text, length);
    tk_option_i64 long_ = tk_long_slice_i64(bytes);
    if (long_.is_some)
        return TK_MAKE(torkettle_found_i64, long_.value, length);
    tk_result_i64 found = tk_atoi_simd_parse_i64(bytes, TK_ZEROES, TK_PLUS);
    if (!found.is_ok)
        return TK_MAKE(torkettle_found_i64, TK_CAST(int64_t, tk_status_of(found.error)), 0);
    return TK_MAKE(torkettle_found_i64, found.value, length);
}

TK_FAR torkettle_found_i64 torkettle_whole_i64(const char *text, size_t length, unsigned flags) TORKETTLE_NOEXCEPT
{
    tk_option_i64 quick = tk_quick_slice_i64(tk_text(text, length));
    if (quick.is_some)
        return TK_MAKE(torkettle_found_i64, quick.value, length);
    return tk_rest_of_whole_i64(text, length, flags);
}

torkettle_found_i64 torkettle_prefix_i64(const char *text, size_t length, unsigned flags) TORKETTLE_NOEXCEPT
{
    tk_result_pair_i64_size found = tk_atoi_simd_parse_prefix_i64(tk_text(text, length), TK_ZEROES, TK_PLUS);
    if (!found.is_ok)
        return TK_MAKE(torkettle_found_i64, TK_CAST(int64_t, tk_status_of(found.error)), 0);
    return TK_MAKE(torkettle_found_i64, found.value.first, found.value.second);
}

torkettle_found_i64 torkettle_whole_canonical_i64(const char *text, size_t length) TORKETTLE_NOEXCEPT
{
    tk_option_i64 found = tk_canonical_i64(tk_text(text, length));
    return TK_MAKE(torkettle_found_i64, found.value, found.is_some ? length : 0);
}

torkettle_found_i64 torkettle_prefix_json_i64(const char *text, size_t length) TORKETTLE_NOEXCEPT
{
    tk_option_pair_i64_bytes found = tk_json_integer_i64(tk_text(text, length));
    size_t count = found.is_some ? length - found.value.second.len : 0;
    return TK_MAKE(torkettle_found_i64, found.value.first, count);
}

torkettle_status torkettle_parse_pos_i64(const char *text, size_t length, unsigned flags,
                                         int64_t *value) TORKETTLE_NOEXCEPT
{
    tk_result_i64 found = tk_atoi_simd_parse_pos_i64(tk_text(text, length), TK_ZEROES);
    if (!found.is_ok)
        return tk_status_of(found.error);
    *value = found.value;
    return TORKETTLE_OK;
}

torkettle_status torkettle_parse_prefix_pos_i64(const char *text, size_t length, unsigned flags, int64_t *value,
                                                size_t *count) TORKETTLE_NOEXCEPT
{
    tk_result_pair_i64_size found = tk_atoi_simd_parse_prefix_pos_i64(tk_text(text, length), TK_ZEROES);
    if (!found.is_ok)
        return tk_status_of(found.error);
    *value = found.value.first;
    *count = found.value.second;
    return TORKETTLE_OK;
}

/* For programs that do not read the header. */
torkettle_status torkettle_called_parse_i64(const char *text, size_t length, unsigned flags, int64_t *value)
    TORKETTLE_SYMBOL_(parse_i64);
torkettle_status torkettle_called_parse_prefix_i64(const char *text, size_t length, unsigned flags, int64_t *value,
                                                   size_t *count) TORKETTLE_SYMBOL_(parse_prefix_i64);
torkettle_status torkettle_called_parse_i64(const char *text, size_t length, unsigned flags,
                                            int64_t *value) TORKETTLE_NOEXCEPT
{
    return torkettle_parse_i64(text, length, flags, value);
}

torkettle_status torkettle_called_parse_prefix_i64(const char *text, size_t length, unsigned flags, int64_t *value,
                                                   size_t *count) TORKETTLE_NOEXCEPT
{
    torkettle_found_i64 found = torkettle_prefix_i64(text, length, flags);
    if (found.length == 0)
        return TK_CAST(torkettle_status, found.value);
    *value = found.value;
    *count = found.length;
    return TORKETTLE_OK;
}

torkettle_error torkettle_parse_error_i64(const char *text, size_t length, unsigned flags) TORKETTLE_NOEXCEPT
{
    tk_bytes bytes = tk_text(text, length);
    tk_result_i64 found = tk_atoi_simd_parse_i64(bytes, TK_ZEROES, TK_PLUS);
    return found.is_ok ? TK_MAKE(torkettle_error, TORKETTLE_OK, 0, 0, 0, 0, 0) : tk_explained(found.error, bytes);
}

torkettle_error torkettle_parse_prefix_error_i64(const char *text, size_t length, unsigned flags) TORKETTLE_NOEXCEPT
{
    tk_bytes bytes = tk_text(text, length);
    tk_result_pair_i64_size found = tk_atoi_simd_parse_prefix_i64(bytes, TK_ZEROES, TK_PLUS);
    return found.is_ok ? TK_MAKE(torkettle_error, TORKETTLE_OK, 0, 0, 0, 0, 0) : tk_explained(found.error, bytes);
}

TK_INLINE tk_fields tk_left_i64(const torkettle_fields_i64 *fields)
{
    tk_bytes rest = tk_text(fields->rest, fields->rest_length);
    return fields->is_lines ? tk_fields_lines(rest) : tk_fields_new(rest, TK_CAST(uint8_t, fields->separator));
}

TK_INLINE void tk_go_on_i64(torkettle_fields_i64 *fields, tk_fields left)
{
    tk_pair_size_size position = tk_fields_position(left);
    fields->next_index += position.first;
    fields->next_offset += position.second;
    fields->rest += position.second;
    fields->rest_length -= position.second;
}

TK_COLD void tk_refuse_field_i64(torkettle_fields_i64 *fields, tk_field_error bad)
{
    fields->status = tk_status_of(bad.cause);
    fields->index = fields->next_index + bad.index;
    fields->offset = fields->next_offset + bad.place;
    fields->text = fields->rest + bad.place;
    fields->length = bad.text.len;
}

/* Tells of the separator as of one bad field, after which the fields end. */
TK_COLD void tk_refuse_separator_i64(torkettle_fields_i64 *fields)
{
    fields->status = TORKETTLE_INVALID;
    fields->index = fields->offset = SIZE_MAX;
    fields->text = NULL;
    fields->length = fields->rest_length = 0;
    fields->separator = ',';
}

torkettle_found_i64 torkettle_next_i64(torkettle_fields_i64 *fields) TORKETTLE_NOEXCEPT
{
    torkettle_found_i64 end = {0, 0}, bad = {0, 2};
    if (!fields->is_lines && !tk_is_separator(TK_CAST(uint8_t, fields->separator))) {
        tk_refuse_separator_i64(fields);
        return bad;
    }
    fields->status = TORKETTLE_OK;
    if (fields->rest_length == 0)
        return end;
    tk_fields left = tk_left_i64(fields);
    tk_option_result_i64_field_error item = tk_fields_next_i64(&left);
    if (!item.value.is_ok) {
        tk_refuse_field_i64(fields, item.value.error);
        tk_go_on_i64(fields, left);
        return bad;
    }
    tk_go_on_i64(fields, left);
    return TK_MAKE(torkettle_found_i64, item.value.value, 1);
}

size_t torkettle_fields_i64_read(torkettle_fields_i64 *fields, int64_t *values, size_t count) TORKETTLE_NOEXCEPT
{
    size_t read = 0;
    fields->status = TORKETTLE_OK;
    if (fields->rest_length > 0 && count > 0) {
        tk_fields left = tk_left_i64(fields);
        read = tk_fields_read_i64(&left, tk_room_i64_of(values, count));
        tk_go_on_i64(fields, left);
    }
    if (read < count)
        torkettle_next_i64(fields);
    return read;
}

/* What a column is after a bad field. */
torkettle_column_i64 torkettle_ended_i64(const torkettle_fields_i64 *fields) TORKETTLE_NOEXCEPT
{
    unsigned flags = TORKETTLE_SKIP_ZEROES | TORKETTLE_SKIP_PLUS;
    torkettle_error error = torkettle_parse_error_i64(fields->text, fields->length, flags);
    torkettle_column_i64 column = {fields->status, fields->index, fields->offset, *fields};
    if (fields->status == TORKETTLE_INVALID)
        column.offset += error.offset + error.count;
    column.fields.rest_length = 0;
    return column;
}

size_t torkettle_column_i64_read(torkettle_column_i64 *column, int64_t *values, size_t count) TORKETTLE_NOEXCEPT
{
    size_t read = torkettle_fields_i64_read(&column->fields, values, count);
    if (column->fields.status != TORKETTLE_OK)
        *column = torkettle_ended_i64(&column->fields);
    return read;
}
/* A slice that `quick_slice` does not read, in a function of its own: this one needs room for an error. */
TK_NOINLINE torkettle_found_u64 tk_rest_of_whole_u64(const char *text, size_t length, unsigned flags)
{
    tk_bytes bytes = tk_text(text, length);
    tk_option_u64 long_ = tk_long_slice_u64(bytes);
    if (long_.is_some)
        return TK_MAKE(torkettle_found_u64, long_.value, length);
    tk_result_u64 found = tk_atoi_simd_parse_u64(bytes, TK_ZEROES, TK_PLUS);
    if (!found.is_ok)
        return TK_MAKE(torkettle_found_u64, TK_CAST(uint64_t, tk_status_of(found.error)), 0);
    return TK_MAKE(torkettle_found_u64, found.value, length);
}

TK_FAR torkettle_found_u64 torkettle_whole_u64(const char *text, size_t length, unsigned flags) TORKETTLE_NOEXCEPT
{
    tk_option_u64 quick = tk_quick_slice_u64(tk_text(text, length));
    if (quick.is_some)
        return TK_MAKE(torkettle_found_u64, quick.value, length);
    return tk_rest_of_whole_u64(text, length, flags);
}

torkettle_found_u64 torkettle_prefix_u64(const char *text, size_t length, unsigned flags) TORKETTLE_NOEXCEPT
{
    tk_result_pair_u64_size found = tk_atoi_simd_parse_prefix_u64(tk_text(text, length), TK_ZEROES, TK_PLUS);
    if (!found.is_ok)
        return TK_MAKE(torkettle_found_u64, TK_CAST(uint64_t, tk_status_of(found.error)), 0);
    return TK_MAKE(torkettle_found_u64, found.value.first, found.value.second);
}

torkettle_found_u64 torkettle_whole_canonical_u64(const char *text, size_t length) TORKETTLE_NOEXCEPT
{
    tk_option_u64 found = tk_canonical_u64(tk_text(text, length));
    return TK_MAKE(torkettle_found_u64, found.value, found.is_some ? length : 0);
}

torkettle_found_u64 torkettle_prefix_json_u64(const char *text, size_t length) TORKETTLE_NOEXCEPT
{
    tk_option_pair_u64_bytes found = tk_json_integer_u64(tk_text(text, length));
    size_t count = found.is_some ? length - found.value.second.len : 0;
    return TK_MAKE(torkettle_found_u64, found.value.first, count);
}

torkettle_status torkettle_parse_pos_u64(const char *text, size_t length, unsigned flags,
                                         uint64_t *value) TORKETTLE_NOEXCEPT
{
    tk_result_u64 found = tk_atoi_simd_parse_pos_u64(tk_text(text, length), TK_ZEROES);
    if (!found.is_ok)
        return tk_status_of(found.error);
    *value = found.value;
    return TORKETTLE_OK;
}

torkettle_status torkettle_parse_prefix_pos_u64(const char *text, size_t length, unsigned flags, uint64_t *value,
                                                size_t *count) TORKETTLE_NOEXCEPT
{
    tk_result_pair_u64_size found = tk_atoi_simd_parse_prefix_pos_u64(tk_text(text, length), TK_ZEROES);
    if (!found.is_ok)
        return tk_status_of(found.error);
    *value = found.value.first;
    *count = found.value.second;
    return TORKETTLE_OK;
}

/* For programs that do not read the header. */
torkettle_status torkettle_called_parse_u64(const char *text, size_t length, unsigned flags, uint64_t *value)
    TORKETTLE_SYMBOL_(parse_u64);
torkettle_status torkettle_called_parse_prefix_u64(const char *text, size_t length, unsigned flags, uint64_t *value,
                                                   size_t *count) TORKETTLE_SYMBOL_(parse_prefix_u64);
torkettle_status torkettle_called_parse_u64(const char *text, size_t length, unsigned flags,
                                            uint64_t *value) TORKETTLE_NOEXCEPT
{
    return torkettle_parse_u64(text, length, flags, value);
}

torkettle_status torkettle_called_parse_prefix_u64(const char *text, size_t length, unsigned flags, uint64_t *value,
                                                   size_t *count) TORKETTLE_NOEXCEPT
{
    torkettle_found_u64 found = torkettle_prefix_u64(text, length, flags);
    if (found.length == 0)
        return TK_CAST(torkettle_status, found.value);
    *value = found.value;
    *count = found.length;
    return TORKETTLE_OK;
}

torkettle_error torkettle_parse_error_u64(const char *text, size_t length, unsigned flags) TORKETTLE_NOEXCEPT
{
    tk_bytes bytes = tk_text(text, length);
    tk_result_u64 found = tk_atoi_simd_parse_u64(bytes, TK_ZEROES, TK_PLUS);
    return found.is_ok ? TK_MAKE(torkettle_error, TORKETTLE_OK, 0, 0, 0, 0, 0) : tk_explained(found.error, bytes);
}

torkettle_error torkettle_parse_prefix_error_u64(const char *text, size_t length, unsigned flags) TORKETTLE_NOEXCEPT
{
    tk_bytes bytes = tk_text(text, length);
    tk_result_pair_u64_size found = tk_atoi_simd_parse_prefix_u64(bytes, TK_ZEROES, TK_PLUS);
    return found.is_ok ? TK_MAKE(torkettle_error, TORKETTLE_OK, 0, 0, 0, 0, 0) : tk_explained(found.error, bytes);
}

TK_INLINE tk_fields tk_left_u64(const torkettle_fields_u64 *fields)
{
    tk_bytes rest = tk_text(fields->rest, fields->rest_length);
    return fields->is_lines ? tk_fields_lines(rest) : tk_fields_new(rest, TK_CAST(uint8_t, fields->separator));
}

TK_INLINE void tk_go_on_u64(torkettle_fields_u64 *fields, tk_fields left)
{
    tk_pair_size_size position = tk_fields_position(left);
    fields->next_index += position.first;
    fields->next_offset += position.second;
    fields->rest += position.second;
    fields->rest_length -= position.second;
}

TK_COLD void tk_refuse_field_u64(torkettle_fields_u64 *fields, tk_field_error bad)
{
    fields->status = tk_status_of(bad.cause);
    fields->index = fields->next_index + bad.index;
    fields->offset = fields->next_offset + bad.place;
    fields->text = fields->rest + bad.place;
    fields->length = bad.text.len;
}

/* Tells of the separator as of one bad field, after which the fields end. */
TK_COLD void tk_refuse_separator_u64(torkettle_fields_u64 *fields)
{
    fields->status = TORKETTLE_INVALID;
    fields->index = fields->offset = SIZE_MAX;
    fields->text = NULL;
    fields->length = fields->rest_length = 0;
    fields->separator = ',';
}

torkettle_found_u64 torkettle_next_u64(torkettle_fields_u64 *fields) TORKETTLE_NOEXCEPT
{
    torkettle_found_u64 end = {0, 0}, bad = {0, 2};
    if (!fields->is_lines && !tk_is_separator(TK_CAST(uint8_t, fields->separator))) {
        tk_refuse_separator_u64(fields);
        return bad;
    }
    fields->status = TORKETTLE_OK;
    if (fields->rest_length == 0)
        return end;
    tk_fields left = tk_left_u64(fields);
    tk_option_result_u64_field_error item = tk_fields_next_u64(&left);
    if (!item.value.is_ok) {
        tk_refuse_field_u64(fields, item.value.error);
        tk_go_on_u64(fields, left);
        return bad;
    }
    tk_go_on_u64(fields, left);
    return TK_MAKE(torkettle_found_u64, item.value.value, 1);
}

size_t torkettle_fields_u64_read(torkettle_fields_u64 *fields, uint64_t *values, size_t count) TORKETTLE_NOEXCEPT
{
    size_t read = 0;
    fields->status = TORKETTLE_OK;
    if (fields->rest_length > 0 && count > 0) {
        tk_fields left = tk_left_u64(fields);
        read = tk_fields_read_u64(&left, tk_room_u64_of(values, count));
        tk_go_on_u64(fields, left);
    }
    if (read < count)
        torkettle_next_u64(fields);
    return read;
}

/* What a column is after a bad field. */
torkettle_column_u64 torkettle_ended_u64(const torkettle_fields_u64 *fields) TORKETTLE_NOEXCEPT
{
    unsigned flags = TORKETTLE_SKIP_ZEROES | TORKETTLE_SKIP_PLUS;
    torkettle_error error = torkettle_parse_error_u64(fields->text, fields->length, flags);
    torkettle_column_u64 column = {fields->status, fields->index, fields->offset, *fields};
    if (fields->status == TORKETTLE_INVALID)
        column.offset += error.offset + error.count;
    column.fields.rest_length = 0;
    return column;
}

size_t torkettle_column_u64_read(torkettle_column_u64 *column, uint64_t *values, size_t count) TORKETTLE_NOEXCEPT
{
    size_t read = torkettle_fields_u64_read(&column->fields, values, count);
    if (column->fields.status != TORKETTLE_OK)
        *column = torkettle_ended_u64(&column->fields);
    return read;
}
#if defined __SIZEOF_INT128__ && !defined TORKETTLE_NO_INT128
/* A slice that `quick_slice` does not read, in a function of its own: this one needs room for an error. */
TK_NOINLINE torkettle_found_i128 tk_rest_of_whole_i128(const char *text, size_t length, unsigned flags)
{
    tk_bytes bytes = tk_text(text, length);
    tk_option_i128 long_ = tk_long_slice_i128(bytes);
    if (long_.is_some)
        return TK_MAKE(torkettle_found_i128, long_.value, length);
    tk_result_i128 found = tk_atoi_simd_parse_i128(bytes, TK_ZEROES, TK_PLUS);
    if (!found.is_ok)
        return TK_MAKE(torkettle_found_i128, TK_CAST(torkettle_i128, tk_status_of(found.error)), 0);
    return TK_MAKE(torkettle_found_i128, found.value, length);
}

TK_FAR torkettle_found_i128 torkettle_whole_i128(const char *text, size_t length, unsigned flags) TORKETTLE_NOEXCEPT
{
    tk_option_i128 quick = tk_quick_slice_i128(tk_text(text, length));
    if (quick.is_some)
        return TK_MAKE(torkettle_found_i128, quick.value, length);
    return tk_rest_of_whole_i128(text, length, flags);
}

torkettle_found_i128 torkettle_prefix_i128(const char *text, size_t length, unsigned flags) TORKETTLE_NOEXCEPT
{
    tk_result_pair_i128_size found = tk_atoi_simd_parse_prefix_i128(tk_text(text, length), TK_ZEROES, TK_PLUS);
    if (!found.is_ok)
        return TK_MAKE(torkettle_found_i128, TK_CAST(torkettle_i128, tk_status_of(found.error)), 0);
    return TK_MAKE(torkettle_found_i128, found.value.first, found.value.second);
}

torkettle_found_i128 torkettle_whole_canonical_i128(const char *text, size_t length) TORKETTLE_NOEXCEPT
{
    tk_option_i128 found = tk_canonical_i128(tk_text(text, length));
    return TK_MAKE(torkettle_found_i128, found.value, found.is_some ? length : 0);
}

torkettle_found_i128 torkettle_prefix_json_i128(const char *text, size_t length) TORKETTLE_NOEXCEPT
{
    tk_option_pair_i128_bytes found = tk_json_integer_i128(tk_text(text, length));
    size_t count = found.is_some ? length - found.value.second.len : 0;
    return TK_MAKE(torkettle_found_i128, found.value.first, count);
}

torkettle_status torkettle_parse_pos_i128(const char *text, size_t length, unsigned flags,
                                          torkettle_i128 *value) TORKETTLE_NOEXCEPT
{
    tk_result_i128 found = tk_atoi_simd_parse_pos_i128(tk_text(text, length), TK_ZEROES);
    if (!found.is_ok)
        return tk_status_of(found.error);
    *value = found.value;
    return TORKETTLE_OK;
}

torkettle_status torkettle_parse_prefix_pos_i128(const char *text, size_t length, unsigned flags, torkettle_i128 *value,
                                                 size_t *count) TORKETTLE_NOEXCEPT
{
    tk_result_pair_i128_size found = tk_atoi_simd_parse_prefix_pos_i128(tk_text(text, length), TK_ZEROES);
    if (!found.is_ok)
        return tk_status_of(found.error);
    *value = found.value.first;
    *count = found.value.second;
    return TORKETTLE_OK;
}

/* For programs that do not read the header. */
torkettle_status torkettle_called_parse_i128(const char *text, size_t length, unsigned flags, torkettle_i128 *value)
    TORKETTLE_SYMBOL_(parse_i128);
torkettle_status torkettle_called_parse_prefix_i128(const char *text, size_t length, unsigned flags,
                                                    torkettle_i128 *value,
                                                        size_t *count) TORKETTLE_SYMBOL_(parse_prefix_i128);
torkettle_status torkettle_called_parse_i128(const char *text, size_t length, unsigned flags,
                                             torkettle_i128 *value) TORKETTLE_NOEXCEPT
{
    return torkettle_parse_i128(text, length, flags, value);
}

torkettle_status torkettle_called_parse_prefix_i128(const char *text, size_t length, unsigned flags,
                                                    torkettle_i128 *value, size_t *count) TORKETTLE_NOEXCEPT
{
    torkettle_found_i128 found = torkettle_prefix_i128(text, length, flags);
    if (found.length == 0)
        return TK_CAST(torkettle_status, found.value);
    *value = found.value;
    *count = found.length;
    return TORKETTLE_OK;
}

torkettle_error torkettle_parse_error_i128(const char *text, size_t length, unsigned flags) TORKETTLE_NOEXCEPT
{
    tk_bytes bytes = tk_text(text, length);
    tk_result_i128 found = tk_atoi_simd_parse_i128(bytes, TK_ZEROES, TK_PLUS);
    return found.is_ok ? TK_MAKE(torkettle_error, TORKETTLE_OK, 0, 0, 0, 0, 0) : tk_explained(found.error, bytes);
}

torkettle_error torkettle_parse_prefix_error_i128(const char *text, size_t length, unsigned flags) TORKETTLE_NOEXCEPT
{
    tk_bytes bytes = tk_text(text, length);
    tk_result_pair_i128_size found = tk_atoi_simd_parse_prefix_i128(bytes, TK_ZEROES, TK_PLUS);
    return found.is_ok ? TK_MAKE(torkettle_error, TORKETTLE_OK, 0, 0, 0, 0, 0) : tk_explained(found.error, bytes);
}

TK_INLINE tk_fields tk_left_i128(const torkettle_fields_i128 *fields)
{
    tk_bytes rest = tk_text(fields->rest, fields->rest_length);
    return fields->is_lines ? tk_fields_lines(rest) : tk_fields_new(rest, TK_CAST(uint8_t, fields->separator));
}

TK_INLINE void tk_go_on_i128(torkettle_fields_i128 *fields, tk_fields left)
{
    tk_pair_size_size position = tk_fields_position(left);
    fields->next_index += position.first;
    fields->next_offset += position.second;
    fields->rest += position.second;
    fields->rest_length -= position.second;
}

TK_COLD void tk_refuse_field_i128(torkettle_fields_i128 *fields, tk_field_error bad)
{
    fields->status = tk_status_of(bad.cause);
    fields->index = fields->next_index + bad.index;
    fields->offset = fields->next_offset + bad.place;
    fields->text = fields->rest + bad.place;
    fields->length = bad.text.len;
}

/* Tells of the separator as of one bad field, after which the fields end. */
TK_COLD void tk_refuse_separator_i128(torkettle_fields_i128 *fields)
{
    fields->status = TORKETTLE_INVALID;
    fields->index = fields->offset = SIZE_MAX;
    fields->text = NULL;
    fields->length = fields->rest_length = 0;
    fields->separator = ',';
}

torkettle_found_i128 torkettle_next_i128(torkettle_fields_i128 *fields) TORKETTLE_NOEXCEPT
{
    torkettle_found_i128 end = {0, 0}, bad = {0, 2};
    if (!fields->is_lines && !tk_is_separator(TK_CAST(uint8_t, fields->separator))) {
        tk_refuse_separator_i128(fields);
        return bad;
    }
    fields->status = TORKETTLE_OK;
    if (fields->rest_length == 0)
        return end;
    tk_fields left = tk_left_i128(fields);
    tk_option_result_i128_field_error item = tk_fields_next_i128(&left);
    if (!item.value.is_ok) {
        tk_refuse_field_i128(fields, item.value.error);
        tk_go_on_i128(fields, left);
        return bad;
    }
    tk_go_on_i128(fields, left);
    return TK_MAKE(torkettle_found_i128, item.value.value, 1);
}

size_t torkettle_fields_i128_read(torkettle_fields_i128 *fields, torkettle_i128 *values,
                                  size_t count) TORKETTLE_NOEXCEPT
{
    size_t read = 0;
    fields->status = TORKETTLE_OK;
    if (fields->rest_length > 0 && count > 0) {
        tk_fields left = tk_left_i128(fields);
        read = tk_fields_read_i128(&left, tk_room_i128_of(values, count));
        tk_go_on_i128(fields, left);
    }
    if (read < count)
        torkettle_next_i128(fields);
    return read;
}

/* What a column is after a bad field. */
torkettle_column_i128 torkettle_ended_i128(const torkettle_fields_i128 *fields) TORKETTLE_NOEXCEPT
{
    unsigned flags = TORKETTLE_SKIP_ZEROES | TORKETTLE_SKIP_PLUS;
    torkettle_error error = torkettle_parse_error_i128(fields->text, fields->length, flags);
    torkettle_column_i128 column = {fields->status, fields->index, fields->offset, *fields};
    if (fields->status == TORKETTLE_INVALID)
        column.offset += error.offset + error.count;
    column.fields.rest_length = 0;
    return column;
}

size_t torkettle_column_i128_read(torkettle_column_i128 *column, torkettle_i128 *values,
                                  size_t count) TORKETTLE_NOEXCEPT
{
    size_t read = torkettle_fields_i128_read(&column->fields, values, count);
    if (column->fields.status != TORKETTLE_OK)
        *column = torkettle_ended_i128(&column->fields);
    return read;
}
/* A slice that `quick_slice` does not read, in a function of its own: this one needs room for an error. */
TK_NOINLINE torkettle_found_u128 tk_rest_of_whole_u128(const char *text, size_t length, unsigned flags)
{
    tk_bytes bytes = tk_text(text, length);
    tk_option_u128 long_ = tk_long_slice_u128(bytes);
    if (long_.is_some)
        return TK_MAKE(torkettle_found_u128, long_.value, length);
    tk_result_u128 found = tk_atoi_simd_parse_u128(bytes, TK_ZEROES, TK_PLUS);
    if (!found.is_ok)
        return TK_MAKE(torkettle_found_u128, TK_CAST(torkettle_u128, tk_status_of(found.error)), 0);
    return TK_MAKE(torkettle_found_u128, found.value, length);
}

TK_FAR torkettle_found_u128 torkettle_whole_u128(const char *text, size_t length, unsigned flags) TORKETTLE_NOEXCEPT
{
    tk_option_u128 quick = tk_quick_slice_u128(tk_text(text, length));
    if (quick.is_some)
        return TK_MAKE(torkettle_found_u128, quick.value, length);
    return tk_rest_of_whole_u128(text, length, flags);
}

torkettle_found_u128 torkettle_prefix_u128(const char *text, size_t length, unsigned flags) TORKETTLE_NOEXCEPT
{
    tk_result_pair_u128_size found = tk_atoi_simd_parse_prefix_u128(tk_text(text, length), TK_ZEROES, TK_PLUS);
    if (!found.is_ok)
        return TK_MAKE(torkettle_found_u128, TK_CAST(torkettle_u128, tk_status_of(found.error)), 0);
    return TK_MAKE(torkettle_found_u128, found.value.first, found.value.second);
}

torkettle_found_u128 torkettle_whole_canonical_u128(const char *text, size_t length) TORKETTLE_NOEXCEPT
{
    tk_option_u128 found = tk_canonical_u128(tk_text(text, length));
    return TK_MAKE(torkettle_found_u128, found.value, found.is_some ? length : 0);
}

torkettle_found_u128 torkettle_prefix_json_u128(const char *text, size_t length) TORKETTLE_NOEXCEPT
{
    tk_option_pair_u128_bytes found = tk_json_integer_u128(tk_text(text, length));
    size_t count = found.is_some ? length - found.value.second.len : 0;
    return TK_MAKE(torkettle_found_u128, found.value.first, count);
}

torkettle_status torkettle_parse_pos_u128(const char *text, size_t length, unsigned flags,
                                          torkettle_u128 *value) TORKETTLE_NOEXCEPT
{
    tk_result_u128 found = tk_atoi_simd_parse_pos_u128(tk_text(text, length), TK_ZEROES);
    if (!found.is_ok)
        return tk_status_of(found.error);
    *value = found.value;
    return TORKETTLE_OK;
}

torkettle_status torkettle_parse_prefix_pos_u128(const char *text, size_t length, unsigned flags, torkettle_u128 *value,
                                                 size_t *count) TORKETTLE_NOEXCEPT
{
    tk_result_pair_u128_size found = tk_atoi_simd_parse_prefix_pos_u128(tk_text(text, length), TK_ZEROES);
    if (!found.is_ok)
        return tk_status_of(found.error);
    *value = found.value.first;
    *count = found.value.second;
    return TORKETTLE_OK;
}

/* For programs that do not read the header. */
torkettle_status torkettle_called_parse_u128(const char *text, size_t length, unsigned flags, torkettle_u128 *value)
    TORKETTLE_SYMBOL_(parse_u128);
torkettle_status torkettle_called_parse_prefix_u128(const char *text, size_t length, unsigned flags,
                                                    torkettle_u128 *value,
                                                        size_t *count) TORKETTLE_SYMBOL_(parse_prefix_u128);
torkettle_status torkettle_called_parse_u128(const char *text, size_t length, unsigned flags,
                                             torkettle_u128 *value) TORKETTLE_NOEXCEPT
{
    return torkettle_parse_u128(text, length, flags, value);
}

torkettle_status torkettle_called_parse_prefix_u128(const char *text, size_t length, unsigned flags,
                                                    torkettle_u128 *value, size_t *count) TORKETTLE_NOEXCEPT
{
    torkettle_found_u128 found = torkettle_prefix_u128(text, length, flags);
    if (found.length == 0)
        return TK_CAST(torkettle_status, found.value);
    *value = found.value;
    *count = found.length;
    return TORKETTLE_OK;
}

torkettle_error torkettle_parse_error_u128(const char *text, size_t length, unsigned flags) TORKETTLE_NOEXCEPT
{
    tk_bytes bytes = tk_text(text, length);
    tk_result_u128 found = tk_atoi_simd_parse_u128(bytes, TK_ZEROES, TK_PLUS);
    return found.is_ok ? TK_MAKE(torkettle_error, TORKETTLE_OK, 0, 0, 0, 0, 0) : tk_explained(found.error, bytes);
}

torkettle_error torkettle_parse_prefix_error_u128(const char *text, size_t length, unsigned flags) TORKETTLE_NOEXCEPT
{
    tk_bytes bytes = tk_text(text, length);
    tk_result_pair_u128_size found = tk_atoi_simd_parse_prefix_u128(bytes, TK_ZEROES, TK_PLUS);
    return found.is_ok ? TK_MAKE(torkettle_error, TORKETTLE_OK, 0, 0, 0, 0, 0) : tk_explained(found.error, bytes);
}

TK_INLINE tk_fields tk_left_u128(const torkettle_fields_u128 *fields)
{
    tk_bytes rest = tk_text(fields->rest, fields->rest_length);
    return fields->is_lines ? tk_fields_lines(rest) : tk_fields_new(rest, TK_CAST(uint8_t, fields->separator));
}

TK_INLINE void tk_go_on_u128(torkettle_fields_u128 *fields, tk_fields left)
{
    tk_pair_size_size position = tk_fields_position(left);
    fields->next_index += position.first;
    fields->next_offset += position.second;
    fields->rest += position.second;
    fields->rest_length -= position.second;
}

TK_COLD void tk_refuse_field_u128(torkettle_fields_u128 *fields, tk_field_error bad)
{
    fields->status = tk_status_of(bad.cause);
    fields->index = fields->next_index + bad.index;
    fields->offset = fields->next_offset + bad.place;
    fields->text = fields->rest + bad.place;
    fields->length = bad.text.len;
}

/* Tells of the separator as of one bad field, after which the fields end. */
TK_COLD void tk_refuse_separator_u128(torkettle_fields_u128 *fields)
{
    fields->status = TORKETTLE_INVALID;
    fields->index = fields->offset = SIZE_MAX;
    fields->text = NULL;
    fields->length = fields->rest_length = 0;
    fields->separator = ',';
}

torkettle_found_u128 torkettle_next_u128(torkettle_fields_u128 *fields) TORKETTLE_NOEXCEPT
{
    torkettle_found_u128 end = {0, 0}, bad = {0, 2};
    if (!fields->is_lines && !tk_is_separator(TK_CAST(uint8_t, fields->separator))) {
        tk_refuse_separator_u128(fields);
        return bad;
    }
    fields->status = TORKETTLE_OK;
    if (fields->rest_length == 0)
        return end;
    tk_fields left = tk_left_u128(fields);
    tk_option_result_u128_field_error item = tk_fields_next_u128(&left);
    if (!item.value.is_ok) {
        tk_refuse_field_u128(fields, item.value.error);
        tk_go_on_u128(fields, left);
        return bad;
    }
    tk_go_on_u128(fields, left);
    return TK_MAKE(torkettle_found_u128, item.value.value, 1);
}

size_t torkettle_fields_u128_read(torkettle_fields_u128 *fields, torkettle_u128 *values,
                                  size_t count) TORKETTLE_NOEXCEPT
{
    size_t read = 0;
    fields->status = TORKETTLE_OK;
    if (fields->rest_length > 0 && count > 0) {
        tk_fields left = tk_left_u128(fields);
        read = tk_fields_read_u128(&left, tk_room_u128_of(values, count));
        tk_go_on_u128(fields, left);
    }
    if (read < count)
        torkettle_next_u128(fields);
    return read;
}

/* What a column is after a bad field. */
torkettle_column_u128 torkettle_ended_u128(const torkettle_fields_u128 *fields) TORKETTLE_NOEXCEPT
{
    unsigned flags = TORKETTLE_SKIP_ZEROES | TORKETTLE_SKIP_PLUS;
    torkettle_error error = torkettle_parse_error_u128(fields->text, fields->length, flags);
    torkettle_column_u128 column = {fields->status, fields->index, fields->offset, *fields};
    if (fields->status == TORKETTLE_INVALID)
        column.offset += error.offset + error.count;
    column.fields.rest_length = 0;
    return column;
}

size_t torkettle_column_u128_read(torkettle_column_u128 *column, torkettle_u128 *values,
                                  size_t count) TORKETTLE_NOEXCEPT
{
    size_t read = torkettle_fields_u128_read(&column->fields, values, count);
    if (column->fields.status != TORKETTLE_OK)
        *column = torkettle_ended_u128(&column->fields);
    return read;
}
#endif

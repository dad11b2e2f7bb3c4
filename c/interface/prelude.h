/* A cast, and a value of a struct, in C and in C++. */
#ifdef __cplusplus
#define TK_CAST(type, value) static_cast<type>(value)
#define TK_MAKE(type, ...) (type{__VA_ARGS__})
#define TK_NUMBER(at) reinterpret_cast<uintptr_t>(at)
#else
#define TK_CAST(type, value) ((type)(value))
#define TK_MAKE(type, ...) ((type){__VA_ARGS__})
#define TK_NUMBER(at) ((uintptr_t)(at))
#endif
#define TK_TEXT(text) tk_bytes_of(TORKETTLE_BYTES_(text), sizeof(text) - 1)

/* What a compiler has to do with a function, as the attributes of the source say it. */
#if defined __GNUC__ || defined __clang__
#if defined __OPTIMIZE__ && !defined __OPTIMIZE_SIZE__
#define TK_INLINE static inline __attribute__((__always_inline__, __unused__))
#else
#define TK_INLINE static inline __attribute__((__unused__))
#endif
#define TK_FAR __attribute__((__noinline__))
#define TK_NOINLINE static __attribute__((__noinline__, __unused__))
#define TK_COLD static __attribute__((__noinline__, __cold__, __unused__))
#elif defined _MSC_VER
#define TK_INLINE static __forceinline
#define TK_FAR __declspec(noinline)
#define TK_NOINLINE static __declspec(noinline)
#define TK_COLD static __declspec(noinline)
#else
#define TK_INLINE static inline
#define TK_FAR
#define TK_NOINLINE static inline
#define TK_COLD static inline
#endif
/* gcc 12 compiles torkettle.c in less time if it chooses what to inline of these. */
#if defined TORKETTLE_SOURCE_ && defined __GNUC__ && !defined __clang__
#define TK_HINTED static inline __attribute__((__unused__))
#else
#define TK_HINTED TK_INLINE
#endif

/* What a compiler of C++20 can call in a constant expression. To include the header takes less time without TK_ALL. */
#if defined __GNUC__ && defined __cplusplus && __cplusplus >= 202002L
#define TK_ALL
#define TK_CONSTEXPR constexpr TK_INLINE
#else
#define TK_CONSTEXPR TK_INLINE
#endif

/* A condition that is proved to hold. A test may define this as `assert`. */
#ifndef TORKETTLE_CHECK
#define TORKETTLE_CHECK(condition) ((void)0)
#endif

/* 1 or 0. As gcc 12 would set only a byte of a register, the processor would wait for what was last in it. */
TK_INLINE uint64_t tk_bit(bool is_set)
{
    uint64_t one = 1;
#if defined __GNUC__ && !defined __clang__
    __asm__("" : "+r"(one));
#endif
    return is_set ? one : 0;
}

/* An index of so many elements. */
TK_CONSTEXPR size_t tk_index(size_t index, size_t len)
{
    TORKETTLE_CHECK(index < len);
    (void)len;
    return index;
}

TK_CONSTEXPR bool tk_u8_is_digit(uint8_t byte) { return '0' <= byte && byte <= '9'; }
TK_CONSTEXPR uint64_t tk_u64_wrapping_add(uint64_t a, uint64_t b) { return a + b; }
TK_CONSTEXPR uint64_t tk_u64_wrapping_sub(uint64_t a, uint64_t b) { return a - b; }
TK_CONSTEXPR uint64_t tk_u64_wrapping_mul(uint64_t a, uint64_t b) { return a * b; }
TK_CONSTEXPR uint64_t tk_i64_unsigned_abs(int64_t a) { return a < 0 ? 0 - TK_CAST(uint64_t, a) : TK_CAST(uint64_t, a); }

#ifdef TK_ALL
/* One of two lengths or places. gcc 12 would make a branch of it, and no processor can guess which one is next. */
TK_INLINE size_t tk_either(bool is_first, size_t first, size_t second)
{
#if defined __GNUC__ && !defined __clang__
    return second + ((first - second) & (TK_CAST(size_t, 0) - is_first));
#else
    return is_first ? first : second;
#endif
}

TK_INLINE const uint8_t *tk_either_at(bool is_first, const uint8_t *first, const uint8_t *second)
{
#if defined __GNUC__ && !defined __clang__
    return TORKETTLE_BYTES_(tk_either(is_first, TK_NUMBER(first), TK_NUMBER(second)));
#else
    return is_first ? first : second;
#endif
}

#define TK_EITHER(is_first, a, b)                                                                                      \
    tk_bytes_of(tk_either_at(is_first, (a).at, (b).at), tk_either(is_first, (a).len, (b).len))

/* Parts of a slice. */
#define TK_PARTS(slice)                                                                                                \
    TK_CONSTEXPR slice slice##_from(slice s, size_t low)                                                               \
    {                                                                                                                  \
        TORKETTLE_CHECK(low <= s.len);                                                                                 \
        return slice##_of(s.at + low, s.len - low);                                                                    \
    }                                                                                                                  \
    TK_CONSTEXPR slice slice##_to(slice s, size_t high)                                                                \
    {                                                                                                                  \
        TORKETTLE_CHECK(high <= s.len);                                                                                \
        return slice##_of(s.at, high);                                                                                 \
    }                                                                                                                  \
    TK_CONSTEXPR slice slice##_between(slice s, size_t low, size_t high)                                               \
    {                                                                                                                  \
        TORKETTLE_CHECK(low <= high && high <= s.len);                                                                 \
        return slice##_of(s.at + low, high - low);                                                                     \
    }

TK_CONSTEXPR uint32_t tk_u32_wrapping_add(uint32_t a, uint32_t b) { return a + b; }
TK_CONSTEXPR uint32_t tk_u32_wrapping_sub(uint32_t a, uint32_t b) { return a - b; }
TK_CONSTEXPR uint32_t tk_u32_wrapping_mul(uint32_t a, uint32_t b) { return a * b; }
TK_CONSTEXPR uint32_t tk_u32_min(uint32_t a, uint32_t b) { return b < a ? b : a; }
TK_CONSTEXPR size_t tk_size_min(size_t a, size_t b) { return b < a ? b : a; }
TK_CONSTEXPR size_t tk_size_max(size_t a, size_t b) { return a < b ? b : a; }
TK_CONSTEXPR size_t tk_size_saturating_add(size_t a, size_t b) { return a + b < a ? TK_CAST(size_t, -1) : a + b; }
TK_CONSTEXPR size_t tk_size_saturating_sub(size_t a, size_t b) { return a < b ? 0 : a - b; }
TK_CONSTEXPR uint32_t tk_i32_unsigned_abs(int32_t a) { return TK_CAST(uint32_t, tk_i64_unsigned_abs(a)); }
TK_CONSTEXPR uint16_t tk_i16_unsigned_abs(int16_t a) { return TK_CAST(uint16_t, tk_i64_unsigned_abs(a)); }
TK_CONSTEXPR uint8_t tk_i8_unsigned_abs(int8_t a) { return TK_CAST(uint8_t, tk_i64_unsigned_abs(a)); }
#else
#define TK_PARTS(slice)
#endif

/* How many low bits of a word are zero. */
TK_INLINE uint32_t tk_u64_trailing_zeros(uint64_t word)
{
#if defined __GNUC__ || defined __clang__
    return word == 0 ? 64 : TK_CAST(uint32_t, __builtin_ctzll(word));
#elif defined _MSC_VER && (defined _M_X64 || defined _M_ARM64)
    unsigned long place;
    return _BitScanForward64(&place, word) ? TK_CAST(uint32_t, place) : 64;
#else
    uint32_t count = 0;
    while (count < 64 && (word >> count & 1) == 0) {
        count++;
    }
    return count;
#endif
}

/* Words of bytes, the first one lowest, on every processor. Compilers make one load of it. */
TK_INLINE uint16_t tk_u16_load(const uint8_t *bytes) { return TK_CAST(uint16_t, bytes[0] | bytes[1] << 8); }

TK_INLINE uint32_t tk_u32_load(const uint8_t *bytes)
{
#if defined __GNUC__ && __BYTE_ORDER__ == __ORDER_LITTLE_ENDIAN__
    uint32_t word;
    __builtin_memcpy(&word, bytes, sizeof word);
    return word;
#else
    return TK_CAST(uint32_t, tk_u16_load(bytes)) | TK_CAST(uint32_t, tk_u16_load(bytes + 2)) << 16;
#endif
}

TK_INLINE uint64_t tk_u64_load(const uint8_t *bytes)
{
#if defined __GNUC__ && __BYTE_ORDER__ == __ORDER_LITTLE_ENDIAN__
    uint64_t word;
    __builtin_memcpy(&word, bytes, sizeof word);
    return word;
#else
    return TK_CAST(uint64_t, tk_u32_load(bytes)) | TK_CAST(uint64_t, tk_u32_load(bytes + 4)) << 32;
#endif
}

/* Numbers of 128 bits. Compilers without them compute with two words, and signed ones are in two's complement. */
#if defined __SIZEOF_INT128__ && !defined TORKETTLE_NO_INT128
__extension__ typedef __int128 tk_i128;
__extension__ typedef unsigned __int128 tk_u128;

TK_CONSTEXPR tk_u128 tk_u128_make(uint64_t high, uint64_t low) { return TK_CAST(tk_u128, high) << 64 | low; }
TK_CONSTEXPR tk_u128 tk_u128_of(uint64_t value) { return value; }
TK_CONSTEXPR uint64_t tk_u128_low(tk_u128 value) { return TK_CAST(uint64_t, value); }
TK_CONSTEXPR bool tk_u128_less(tk_u128 a, tk_u128 b) { return a < b; }
TK_CONSTEXPR tk_u128 tk_u128_wrapping_add(tk_u128 a, tk_u128 b) { return a + b; }
TK_CONSTEXPR tk_u128 tk_u128_wrapping_sub(tk_u128 a, tk_u128 b) { return a - b; }
TK_CONSTEXPR tk_i128 tk_u128_as_i128(tk_u128 value) { return TK_CAST(tk_i128, value); }
TK_CONSTEXPR tk_u128 tk_i128_as_u128(tk_i128 value) { return TK_CAST(tk_u128, value); }
#ifdef TK_ALL
TK_CONSTEXPR tk_u128 tk_u128_wrapping_mul(tk_u128 a, tk_u128 b) { return a * b; }
TK_CONSTEXPR bool tk_u128_product_fits(tk_u128 a, tk_u128 b) { return b == 0 || a <= ~TK_CAST(tk_u128, 0) / b; }
TK_CONSTEXPR tk_u128 tk_u128_shift_left(tk_u128 a, uint64_t count) { return a << count; }
TK_CONSTEXPR tk_u128 tk_u128_shift_right(tk_u128 a, uint64_t count) { return a >> count; }
#endif
#else
typedef struct tk_u128 {
    uint64_t low;
    uint64_t high;
} tk_u128;
typedef tk_u128 tk_i128;

TK_CONSTEXPR tk_u128 tk_u128_make(uint64_t high, uint64_t low) { return TK_MAKE(tk_u128, low, high); }
TK_CONSTEXPR tk_u128 tk_u128_of(uint64_t value) { return TK_MAKE(tk_u128, value, 0); }
TK_CONSTEXPR uint64_t tk_u128_low(tk_u128 value) { return value.low; }
TK_CONSTEXPR bool tk_u128_less(tk_u128 a, tk_u128 b) { return a.high < b.high || (a.high == b.high && a.low < b.low); }

TK_CONSTEXPR tk_u128 tk_u128_wrapping_add(tk_u128 a, tk_u128 b)
{
    uint64_t low = a.low + b.low;
    return TK_MAKE(tk_u128, low, a.high + b.high + (low < a.low));
}

TK_CONSTEXPR tk_u128 tk_u128_wrapping_sub(tk_u128 a, tk_u128 b)
{
    return TK_MAKE(tk_u128, a.low - b.low, a.high - b.high - (a.low < b.low));
}

/* The product of two words, by halves. */
TK_CONSTEXPR tk_u128 tk_u128_of_words(uint64_t a, uint64_t b)
{
    uint64_t a_low = a & 0xFFFFFFFF, a_high = a >> 32, b_low = b & 0xFFFFFFFF, b_high = b >> 32;
    uint64_t low = a_low * b_low;
    uint64_t middle = a_high * b_low + (low >> 32);
    uint64_t other = a_low * b_high + (middle & 0xFFFFFFFF);
    return TK_MAKE(tk_u128, other << 32 | (low & 0xFFFFFFFF), a_high * b_high + (middle >> 32) + (other >> 32));
}

TK_CONSTEXPR tk_u128 tk_u128_wrapping_mul(tk_u128 a, tk_u128 b)
{
    tk_u128 product = tk_u128_of_words(a.low, b.low);
    return TK_MAKE(tk_u128, product.low, product.high + a.high * b.low + a.low * b.high);
}

TK_CONSTEXPR bool tk_u128_product_fits(tk_u128 a, tk_u128 b)
{
    tk_u128 cross = tk_u128_wrapping_add(tk_u128_of_words(a.high, b.low), tk_u128_of_words(a.low, b.high));
    tk_u128 low = tk_u128_of_words(a.low, b.low);
    return (a.high == 0 || b.high == 0) && cross.high == 0 && low.high + cross.low >= low.high;
}

TK_CONSTEXPR tk_u128 tk_u128_shift_left(tk_u128 a, uint64_t count)
{
    if (count >= 64) {
        return TK_MAKE(tk_u128, 0, a.low << (count - 64));
    }
    return count == 0 ? a : TK_MAKE(tk_u128, a.low << count, a.high << count | a.low >> (64 - count));
}

TK_CONSTEXPR tk_u128 tk_u128_shift_right(tk_u128 a, uint64_t count)
{
    if (count >= 64) {
        return TK_MAKE(tk_u128, a.high >> (count - 64), 0);
    }
    return count == 0 ? a : TK_MAKE(tk_u128, a.low >> count | a.high << (64 - count), a.high >> count);
}

TK_CONSTEXPR tk_i128 tk_u128_as_i128(tk_u128 value) { return value; }
TK_CONSTEXPR tk_u128 tk_i128_as_u128(tk_i128 value) { return value; }
#endif

TK_CONSTEXPR tk_i128 tk_i128_of(uint64_t value) { return tk_u128_as_i128(tk_u128_of(value)); }
TK_CONSTEXPR uint64_t tk_i128_low(tk_i128 value) { return tk_u128_low(tk_i128_as_u128(value)); }

TK_CONSTEXPR tk_i128 tk_i128_negate(tk_i128 a)
{
    return tk_u128_as_i128(tk_u128_wrapping_sub(tk_u128_of(0), tk_i128_as_u128(a)));
}

TK_CONSTEXPR tk_u128 tk_u128_add(tk_u128 a, tk_u128 b)
{
    TORKETTLE_CHECK(!tk_u128_less(tk_u128_wrapping_add(a, b), a));
    return tk_u128_wrapping_add(a, b);
}

#ifdef TK_ALL
TK_CONSTEXPR bool tk_u128_sum_fits(tk_u128 a, tk_u128 b) { return !tk_u128_less(tk_u128_wrapping_add(a, b), a); }
TK_INLINE uint32_t tk_u32_trailing_zeros(uint32_t word) { return tk_u64_trailing_zeros(word | UINT64_C(1) << 32); }

TK_CONSTEXPR tk_u128 tk_u128_mul(tk_u128 a, tk_u128 b)
{
    TORKETTLE_CHECK(tk_u128_product_fits(a, b));
    return tk_u128_wrapping_mul(a, b);
}

TK_CONSTEXPR uint64_t tk_u128_high(tk_u128 value) { return tk_u128_low(tk_u128_shift_right(value, 64)); }

TK_CONSTEXPR bool tk_u128_equal(tk_u128 a, tk_u128 b)
{
    return tk_u128_low(a) == tk_u128_low(b) && tk_u128_high(a) == tk_u128_high(b);
}

#define TK_BY_WORDS(function, symbol)                                                                                  \
    TK_CONSTEXPR tk_u128 function(tk_u128 a, tk_u128 b)                                                                \
    {                                                                                                                  \
        return tk_u128_make(tk_u128_high(a) symbol tk_u128_high(b), tk_u128_low(a) symbol tk_u128_low(b));             \
    }
TK_BY_WORDS(tk_u128_and, &)
TK_BY_WORDS(tk_u128_or, |)
TK_BY_WORDS(tk_u128_xor, ^)

TK_CONSTEXPR tk_i128 tk_i128_make(uint64_t high, uint64_t low) { return tk_u128_as_i128(tk_u128_make(high, low)); }

TK_CONSTEXPR bool tk_i128_less(tk_i128 a, tk_i128 b)
{
    tk_u128 sign = tk_u128_make(UINT64_C(0x8000000000000000), 0);
    return tk_u128_less(tk_u128_xor(tk_i128_as_u128(a), sign), tk_u128_xor(tk_i128_as_u128(b), sign));
}

TK_CONSTEXPR tk_u128 tk_i128_unsigned_abs(tk_i128 a)
{
    return tk_i128_as_u128(tk_i128_less(a, tk_i128_of(0)) ? tk_i128_negate(a) : a);
}
#endif

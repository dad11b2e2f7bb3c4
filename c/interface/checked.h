/* Operators that assert what is proved of their operands. */
#define TK_OPERATOR(name, type, second, check, value)                                                                  \
    TK_CONSTEXPR type name(type a, second b)                                                                           \
    {                                                                                                                  \
        TORKETTLE_CHECK(check);                                                                                        \
        return TK_CAST(type, value);                                                                                   \
    }

#define TK_OPERATORS(own, type)                                                                                        \
    TK_OPERATOR(tk_##own##_add, type, type, TK_CAST(type, a + b) >= a, a + b)                                          \
    TK_OPERATOR(tk_##own##_sub, type, type, a >= b, a - b)                                                             \
    TK_OPERATOR(tk_##own##_mul, type, type, b == 0 || a <= TK_CAST(type, -1) / b, a * b)                               \
    TK_OPERATOR(tk_##own##_div, type, type, b != 0, a / b)                                                             \
    TK_OPERATOR(tk_##own##_rem, type, type, b != 0, a % b)                                                             \
    TK_OPERATOR(tk_##own##_and, type, type, true, a & b)                                                               \
    TK_OPERATOR(tk_##own##_or, type, type, true, a | b)                                                                \
    TK_OPERATOR(tk_##own##_xor, type, type, true, a ^ b)                                                               \
    TK_OPERATOR(tk_##own##_shift_left, type, uint64_t, b < sizeof(type) * 8, a << b)                                   \
    TK_OPERATOR(tk_##own##_shift_right, type, uint64_t, b < sizeof(type) * 8, a >> b)

TK_OPERATORS(u8, uint8_t)
TK_OPERATORS(u16, uint16_t)
TK_OPERATORS(u32, uint32_t)
TK_OPERATORS(u64, uint64_t)
TK_OPERATORS(size, size_t)

// One text under test, and the row of numbers that its calls give, which the Rust of the package has to give too.
#pragma once

#include "../texts.hpp"
#include "torkettle.h"

#include <algorithm>
#include <array>
#include <initializer_list>
#include <vector>

enum Question { PARSES, FIELDS, LINES, COLUMN };

// Writes the row of the Rust package for a type by its number, and returns how many numbers it has.
extern "C" size_t oracle(unsigned type, Question question, unsigned option, const char *text, size_t length,
                         uint64_t *out, size_t size);

// A status and, if it is TORKETTLE_OK, the length of a number and the number in two's complement.
using Answer = std::array<uint64_t, 4>;

struct Test {
    const char *type;
    unsigned number;
    std::string_view text;
    // The flags of a parse, or the separator of a column.
    unsigned option;
    std::vector<uint64_t> row = {};

    void require(bool is_right, const char *what) const { ::require(is_right, what, text, type, option); }

    // What a call returned and wrote where there was 99: nothing unless it returned TORKETTLE_OK.
    template <class T> Answer answer(torkettle_status status, T value, size_t count) const
    {
        if (status == TORKETTLE_OK)
            return {0, count, static_cast<uint64_t>(value), static_cast<uint64_t>(value >> 31 >> 31 >> 2)};
        require(value == 99 && count == 99, "what a failure writes");
        return {status};
    }

    template <class Numbers = std::initializer_list<uint64_t>> void push(const Numbers &numbers)
    {
        row.insert(row.end(), std::begin(numbers), std::end(numbers));
    }

    // Compares the row with that of Rust, if it is here.
    void compare(Question question, const char *what) const
    {
#ifndef NO_RUST
        static std::vector<uint64_t> other(1 << 20);
        const size_t count = oracle(number, question, option, text.data(), text.size(), other.data(), other.size());
        require(row.size() == count && std::equal(row.begin(), row.end(), other.begin()), what);
#else
        (void)question, (void)what;
#endif
    }
};

// A function that may have to be inlined, of which a pointer could not be.
#define CALL(as, function) static constexpr auto as = [](auto... arguments) { return function(arguments...); };

// The functions of torkettle.h for a type.
#define CALLS(name, number)                                                                                            \
    struct calls_##name {                                                                                              \
        using type = number;                                                                                           \
        using fields = torkettle_fields_##name;                                                                        \
        using column = torkettle_column_##name;                                                                        \
        CALL(parse, torkettle_parse_##name)                                                                            \
        CALL(called_parse, torkettle_called_parse_##name)                                                              \
        CALL(parse_prefix, torkettle_parse_prefix_##name)                                                              \
        CALL(called_prefix, torkettle_called_parse_prefix_##name)                                                      \
        CALL(whole, torkettle_whole_##name)                                                                            \
        CALL(prefix, torkettle_prefix_##name)                                                                          \
        CALL(pos, torkettle_parse_pos_##name)                                                                          \
        CALL(prefix_pos, torkettle_parse_prefix_pos_##name)                                                            \
        CALL(parse_error, torkettle_parse_error_##name)                                                                \
        CALL(prefix_error, torkettle_parse_prefix_error_##name)                                                        \
        CALL(canonical, torkettle_canonical_##name)                                                                    \
        CALL(json, torkettle_json_integer_##name)                                                                      \
        CALL(fields_init, torkettle_fields_##name##_init)                                                              \
        CALL(fields_lines, torkettle_fields_##name##_init_lines)                                                       \
        CALL(starting_at, torkettle_fields_##name##_starting_at)                                                       \
        CALL(fields_next, torkettle_fields_##name##_next)                                                              \
        CALL(fields_read, torkettle_fields_##name##_read)                                                              \
        CALL(column_init, torkettle_column_##name##_init)                                                              \
        CALL(column_next, torkettle_column_##name##_next)                                                              \
        CALL(column_read, torkettle_column_##name##_read)                                                              \
    };

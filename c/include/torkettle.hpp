// SPDX-License-Identifier: MIT
//
// Torkettle for C++17: `torkettle::from_chars`, with the results of `std::from_chars`, integers of JSON, and ranges
// over the numbers of a text. Nothing here throws or allocates, unless `std::from_chars` does.
//
// Compile torkettle.c with your program, or link with a library of it.
#ifndef TORKETTLE_HPP
#define TORKETTLE_HPP

#if __cplusplus < 201703L && !(defined _MSVC_LANG && _MSVC_LANG >= 201703L)
#error "torkettle.hpp needs C++17 or later, and torkettle.h C++11 or later"
#else

#include "torkettle.h"

#include <charconv>
#include <cstddef>
#include <cstdint>
#include <iterator>
#include <optional>
#include <string>
#include <string_view>
#include <system_error>
#include <type_traits>
#include <utility>

// Whether `from_chars` and `parse` may be part of a constant expression, and what they return in one.
#if defined __GNUC__ && __cplusplus >= 202002L && defined __cpp_constexpr_dynamic_alloc
#define TORKETTLE_CONSTEXPR_ constexpr
#define TORKETTLE_IF_CONSTANT_(found) if (__builtin_is_constant_evaluated()) return found;
#define TORKETTLE_CONSTANTS_(name)                                                                                     \
    static constexpr found constant_whole(tk_bytes text, unsigned flags) noexcept                                      \
    {                                                                                                                  \
        const auto number = tk_whole_by_digits_##name((flags & TORKETTLE_SKIP_ZEROES) != 0,                            \
                                                      (flags & TORKETTLE_SKIP_PLUS) != 0, text);                       \
        return {number.value, number.is_some ? text.len : 0};                                                          \
    }                                                                                                                  \
    static constexpr found constant_prefix(tk_bytes text) noexcept                                                     \
    {                                                                                                                  \
        const auto number = tk_prefix_by_digits_##name(text);                                                          \
        return {number.value.first, number.is_some ? number.value.second : 0};                                         \
    }
#else
#define TORKETTLE_CONSTEXPR_
#define TORKETTLE_IF_CONSTANT_(found)
#define TORKETTLE_CONSTANTS_(name)
#endif

namespace torkettle {

namespace detail {

// The bytes of a text in a constant expression, where its pointer cannot be cast.
class copied {
public:
    TORKETTLE_CONSTEXPR_ copied(const char *text, std::size_t length) : bytes(new std::uint8_t[length]), size(length)
    {
        for (std::size_t at = 0; at < length; ++at)
            bytes[at] = static_cast<std::uint8_t>(text[at]);
    }
    copied(const copied &) = delete;
    copied &operator=(const copied &) = delete;
    TORKETTLE_CONSTEXPR_ ~copied() { delete[] bytes; }
    TORKETTLE_CONSTEXPR_ operator tk_bytes() const noexcept { return tk_bytes_of(bytes, size); }

private:
    std::uint8_t *bytes;
    std::size_t size;
};

// The functions of torkettle.h for the integers with this size and sign. `whole` and `prefix` begin with a sign where
// the type has one, skip zeros and take no plus.
template <std::size_t size, bool is_signed> struct functions;

template <class T> constexpr bool is_signed = T(-1) < T(0);

template <class T> using functions_of = functions<sizeof(T), is_signed<T>>;

#define TORKETTLE_FUNCTIONS_(name, type)                                                                               \
    template <> struct functions<sizeof(type), is_signed<type>> {                                                      \
        using found = torkettle_found_##name;                                                                          \
        TORKETTLE_CONSTANTS_(name)                                                                                     \
        [[gnu::always_inline]] static TORKETTLE_CONSTEXPR_ found whole(const char *text, std::size_t length,           \
                                                                       unsigned flags) noexcept                        \
        {                                                                                                              \
            TORKETTLE_IF_CONSTANT_(constant_whole(copied(text, length), flags))                                        \
            return torkettle_of_whole_##name(text, length, flags);                                                     \
        }                                                                                                              \
        [[gnu::always_inline]] static TORKETTLE_CONSTEXPR_ found prefix(const char *text, std::size_t length) noexcept \
        {                                                                                                              \
            TORKETTLE_IF_CONSTANT_(constant_prefix(copied(text, length)))                                              \
            return torkettle_of_prefix_##name(text, length, TORKETTLE_SKIP_ZEROES);                                    \
        }                                                                                                              \
        static constexpr auto canonical = torkettle_whole_canonical_##name;                                            \
        static constexpr auto json = torkettle_prefix_json_##name;                                                     \
        using fields = torkettle_fields_##name;                                                                        \
        [[gnu::always_inline]] static auto next(fields &state) noexcept                                                \
        {                                                                                                              \
            return torkettle_next_of_##name(&state);                                                                   \
        }                                                                                                              \
        /* The values may be of `long long` where `int64_t` is `long`, so no access to them moves across the call. */  \
        static std::size_t read(fields &state, void *values, std::size_t count) noexcept                               \
        {                                                                                                              \
            asm volatile("" : : "r"(values) : "memory");                                                               \
            const std::size_t written = torkettle_fields_##name##_read(&state, static_cast<type *>(values), count);    \
            asm volatile("" : : "r"(values) : "memory");                                                               \
            return written;                                                                                            \
        }                                                                                                              \
    };

TORKETTLE_TYPES_(TORKETTLE_FUNCTIONS_)
#undef TORKETTLE_FUNCTIONS_

// Whether T is one of these types.
template <class T, class... Types> constexpr bool is_one = (std::is_same_v<T, Types> || ...);

// The integer types of `std::from_chars`, and those of 128 bits.
template <class T>
constexpr bool is_integer = is_one<std::remove_volatile_t<T>,
#if defined __SIZEOF_INT128__ && !defined TORKETTLE_NO_INT128
                                   torkettle_i128, torkettle_u128,
#endif
                                   char, signed char, unsigned char, short, unsigned short, int, unsigned, long,
                                   unsigned long, long long, unsigned long long>;

// Why there is no number at the start of a text: no digit, or a value that the type does not hold.
[[gnu::cold, gnu::noinline]] TORKETTLE_CONSTEXPR_ inline std::from_chars_result
refused(const char *first, const char *last, bool is_signed) noexcept
{
    const auto is_digit = [last](const char *at) { return at != last && '0' <= *at && *at <= '9'; };
    const char *end = first != last && *first == '-' && is_signed ? first + 1 : first;
    if (!is_digit(end))
        return {first, std::errc::invalid_argument};
    while (is_digit(end))
        ++end;
    return {end, std::errc::result_out_of_range};
}

} // namespace detail

using from_chars_result = std::from_chars_result;

// Does what `std::from_chars(first, last, value)` does, for the same types, in base 10.
//
// Reads the number at the start of a text: digits, after an optional `-` if the type is signed. Sets `value` and
// returns the end of the number. Without a digit, returns `first` and `std::errc::invalid_argument`. If the number is
// out of range, returns the end of its digits and `std::errc::result_out_of_range`. An error leaves `value` as it is.
// From C++20 on, gcc and clang accept a call in a constant expression.
template <class T, std::enable_if_t<detail::is_integer<T>, int> = 0>
[[gnu::always_inline]] TORKETTLE_CONSTEXPR_ inline from_chars_result from_chars(const char *first, const char *last,
                                                                                T &value) noexcept
{
    const auto found = detail::functions_of<T>::prefix(first, static_cast<std::size_t>(last - first));
    if (found.length == 0)
        return detail::refused(first, last, detail::is_signed<T>);
    value = static_cast<T>(found.value);
    return {first + found.length, std::errc()};
}

// The same in each base from 2 to 36. For a base other than 10, this calls `std::from_chars`.
template <class T, std::enable_if_t<detail::is_integer<T>, int> = 0>
TORKETTLE_CONSTEXPR_ inline auto from_chars(const char *first, const char *last, T &value, int base) noexcept
    -> decltype(std::from_chars(first, last, value, base))
{
    return base == 10 ? torkettle::from_chars(first, last, value) : std::from_chars(first, last, value, base);
}

// For another type that `std::from_chars` takes, such as `double`, calls it. There may be a `std::chars_format`.
template <class T, class... Format, std::enable_if_t<!detail::is_integer<T>, int> = 0>
inline auto from_chars(const char *first, const char *last, T &value, Format... format) noexcept
    -> decltype(std::from_chars(first, last, value, format...))
{
    return std::from_chars(first, last, value, format...);
}

// Returns the number, if the whole text is one that `from_chars` reads. With other flags (see torkettle.h), leading
// zeros count as digits, or a `+` may come before them.
template <class T, std::enable_if_t<detail::is_integer<T>, int> = 0>
TORKETTLE_CONSTEXPR_ inline std::optional<T> parse(std::string_view text,
                                                   unsigned flags = TORKETTLE_SKIP_ZEROES) noexcept
{
    const auto found = detail::functions_of<T>::whole(text.data(), text.size(), flags);
    if (found.length == 0)
        return std::nullopt;
    return static_cast<T>(found.value);
}

// Returns the number, if the whole text is what `std::to_chars` writes for one: no leading zeros, no `-0`.
template <class T, std::enable_if_t<detail::is_integer<T>, int> = 0>
inline std::optional<T> canonical(std::string_view text) noexcept
{
    const auto found = detail::functions_of<T>::canonical(text.data(), text.size());
    if (found.length == 0)
        return std::nullopt;
    return static_cast<T>(found.value);
}

// Reads the number at the start of a text, as JSON writes integers: an optional `-`, then `0`, or digits of which the
// first is not `0`. Returns the number and what follows it, or nothing if there is no such number, if it is out of
// range, or if a digit, `.`, `e` or `E` follows it. `-0` is in range for every type.
template <class T, std::enable_if_t<detail::is_integer<T>, int> = 0>
inline std::optional<std::pair<T, std::string_view>> json_integer(std::string_view text) noexcept
{
    const auto found = detail::functions_of<T>::json(text.data(), text.size());
    if (found.length == 0)
        return std::nullopt;
    text.remove_prefix(found.length);
    return std::pair(static_cast<T>(found.value), text);
}

// A field of a text: a number, or an error.
template <class T> struct item {
    // The number, which may have leading zeros, and a `+` or, if the type is signed, a `-`.
    std::optional<T> value{};
    // `std::errc()` for a number. `std::errc::result_out_of_range` if the field begins with a number that is out of
    // range. `std::errc::invalid_argument` for any other field.
    std::errc error = std::errc();
    // The bytes of a field that is not a number, without the separator. Empty for a number.
    std::string_view text{};
    // The index of the field, from 0, and the offset at which it begins.
    std::size_t index = 0;
    std::size_t offset = 0;
};

namespace detail {

template <class Allocator> using string = std::basic_string<char, std::char_traits<char>, Allocator>;

// The items of a text, read once: a loop goes on where the last one ended. If `ends`, the first error is the last item.
template <class T, bool ends> class range {
    static_assert(is_integer<T>, "T is an integer type that std::from_chars takes");

public:
    // An input iterator. It reads on in the range that it was made by, and is equal to `end()` when nothing is left.
    // What a loop calls is inlined, so that its item stays in registers.
    class iterator {
    public:
        using iterator_category = std::input_iterator_tag;
        using value_type = item<T>;
        using difference_type = std::ptrdiff_t;
        using pointer = const item<T> *;
        using reference = const item<T> &;

        iterator() noexcept = default;
        [[gnu::always_inline]] explicit iterator(range &all) noexcept : items(&all) { ++*this; }
        reference operator*() const noexcept { return current; }
        pointer operator->() const noexcept { return &current; }
        [[gnu::always_inline]] iterator &operator++() noexcept
        {
            has_item = items->next(current);
            return *this;
        }
        iterator operator++(int) noexcept
        {
            const iterator before = *this;
            ++*this;
            return before;
        }
        friend bool operator==(const iterator &a, const iterator &b) noexcept { return a.has_item == b.has_item; }
        friend bool operator!=(const iterator &a, const iterator &b) noexcept { return a.has_item != b.has_item; }

    private:
        range *items = nullptr;
        bool has_item = false;
        item<T> current{};
    };

    // The fields of a text, which must stay as it is, with a separator between them. One more may follow the last. If
    // the separator is a digit, `+` or `-`, there is one item, an error with the index and the offset SIZE_MAX.
    range(std::string_view text, char separator) noexcept : range(text, separator, 0) {}

    // A string that nothing else keeps is freed before the range is read.
    template <class Allocator> range(const string<Allocator> &&text, char separator) = delete;

    // The lines of a text. A line ends with "\n" or "\r\n", which is not part of it.
    static range of_lines(std::string_view text) noexcept { return range(text, '\n', 1); }

    [[gnu::always_inline]] iterator begin() noexcept { return iterator(*this); }
    iterator end() const noexcept { return iterator(); }

    // Reads the next field into `field`. At the end, returns false, and leaves `field` as it is.
    [[gnu::always_inline]] bool next(item<T> &field) noexcept
    {
        const std::size_t index = state.next_index;
        const std::size_t offset = state.next_offset;
        const auto found = functions::next(state);
        if (found.length == 1) {
            field = {static_cast<T>(found.value), std::errc(), std::string_view(), index, offset};
            return true;
        }
        if (found.length == 0)
            return false;
        if (ends)
            state.rest_length = 0;
        field = error(state);
        return true;
    }

    // Reads at most `count` numbers into `values` and returns how many it has read. It reads fewer than `count` only if
    // it reaches the end or an error, which `error_item` then returns. Of fields and lines, the next call continues
    // after the error, so a loop must not end because a call has read fewer. A column has no more items then. This is
    // faster than `next` for more than about 15 fields if at least 99 % have equally many digits, from 4 to 16.
    std::size_t read(T *values, std::size_t count) noexcept
    {
        const std::size_t numbers = functions::read(state, values, count);
        if (ends && state.status != TORKETTLE_OK)
            state.rest_length = 0;
        return numbers;
    }

    // Returns the error at which the last call of `read` or `next` stopped, if any.
    std::optional<item<T>> error_item() const noexcept
    {
        if (state.status == TORKETTLE_OK)
            return std::nullopt;
        return error(state);
    }

    // Returns the same fields, but the next one has this index and this offset. To read a long text in pieces that end
    // with a separator, start each at the `next_index` and the `next_offset` of the piece before it.
    range starting_at(std::size_t index, std::size_t offset) const noexcept
    {
        range other = *this;
        other.state.next_index = index;
        other.state.next_offset = offset;
        return other;
    }

    // The index of the next field or, at the end, the number of fields.
    std::size_t next_index() const noexcept { return state.next_index; }

    // The offset of the next field or, at the end, of the end of the text.
    std::size_t next_offset() const noexcept { return state.next_offset; }

private:
    using functions = functions_of<T>;
    using fields = typename functions::fields;

    range(std::string_view text, char separator, char is_lines) noexcept
        : state{TORKETTLE_OK, 0, 0, nullptr, 0, 0, 0, text.data(), 0, separator, is_lines}
    {
        state.rest_length = torkettle_rest_length(text.size(), separator);
    }

    [[gnu::noinline, gnu::cold]] static item<T> error(fields stopped) noexcept
    {
        const bool is_large = stopped.status == TORKETTLE_SIZE || stopped.status == TORKETTLE_OVERFLOW;
        const auto code = is_large ? std::errc::result_out_of_range : std::errc::invalid_argument;
        return {std::nullopt, code, std::string_view(stopped.text, stopped.length), stopped.index, stopped.offset};
    }

    // What is left to read.
    fields state;
};

} // namespace detail

// The fields of a text, for a `for` loop and for algorithms: `torkettle::fields<int>(text, ',')`. An error does not end
// them.
template <class T> using fields = detail::range<T, false>;

// The same, but the first error is the last item.
template <class T> using column = detail::range<T, true>;

// The lines of a text, as fields.
template <class T> inline fields<T> lines(std::string_view text) noexcept { return fields<T>::of_lines(text); }
template <class T, class Allocator> fields<T> lines(const detail::string<Allocator> &&text) = delete;

} // namespace torkettle

#undef TORKETTLE_CONSTEXPR_
#undef TORKETTLE_CONSTANTS_
#undef TORKETTLE_IF_CONSTANT_

#endif
#endif

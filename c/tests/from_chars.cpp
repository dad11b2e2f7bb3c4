// Compares torkettle::from_chars, parse and canonical with std::from_chars and std::to_chars for each integer type, and
// what from_chars leaves to that. Tests what has to compile with torkettle.hpp, and what must not.
//
//     from_chars [TEXTS]
#include "texts.hpp"
#include "torkettle.hpp"

#include <array>
#include <charconv>
#include <cstdint>
#include <memory_resource>
#include <string>
#include <string_view>
#include <tuple>
#include <type_traits>
#include <utility>
#if __cplusplus >= 202002L
#include <ranges>
#endif

namespace {

unsigned long long calls, accepted, out_of_range;

template <class... T> struct Types {};
using Integers = Types<char, signed char, unsigned char, short, unsigned short, int, unsigned, long, unsigned long,
                       long long, unsigned long long>;
#if defined __SIZEOF_INT128__ && !defined TORKETTLE_NO_INT128
using LargeIntegers = Types<torkettle_i128, torkettle_u128>;
#else
using LargeIntegers = Types<>;
#endif

// Whether from_chars does what std::from_chars does, with a base, a format or nothing more.
template <class T, class... More> bool is_same_call(std::string_view text, More... more)
{
    const char *const first = text.data(), *const last = first + text.size();
    T ours = 77, theirs = 77;
    const torkettle::from_chars_result left = torkettle::from_chars(first, last, ours, more...);
    const std::from_chars_result right = std::from_chars(first, last, theirs, more...);
    const bool are_same = ours == theirs || (ours != ours && theirs != theirs);
    return left.ptr == right.ptr && left.ec == right.ec && are_same;
}

template <class T> void compare(std::string_view text)
{
    char printed[64];
    T value = 77;
    const std::from_chars_result read = std::from_chars(text.data(), text.data() + text.size(), value);
    const bool is_whole = read.ec == std::errc() && read.ptr == text.data() + text.size();
    const std::to_chars_result written = std::to_chars(printed, printed + sizeof printed, value);
    const bool is_canonical = text == std::string_view(printed, static_cast<std::size_t>(written.ptr - printed));
    calls++;
    accepted += read.ec == std::errc();
    out_of_range += read.ec == std::errc::result_out_of_range;
    const auto is_found = [value](const std::optional<T> &found, bool is_here) {
        return found.has_value() == is_here && found.value_or(value) == value;
    };
    require(is_same_call<T>(text) && is_same_call<T>(text, 10) && is_same_call<T>(text, int(2 + calls / 16 % 35)) &&
                is_found(torkettle::parse<T>(text), is_whole) &&
                is_found(torkettle::canonical<T>(text), is_whole && is_canonical),
            __PRETTY_FUNCTION__, text);
}

template <class... T> void compare_types(std::string_view text, Types<T...>) { (compare<T>(text), ...); }

void compare_all(const std::string &all)
{
    const std::string_view text = placed(all);
    compare_types(text, Integers());
    // In strict C++, the library of gcc has no from_chars for 128 bits.
#ifdef __GLIBCXX_TYPE_INT_N_0
    compare_types(text, LargeIntegers());
#endif
}

// Every text of at most two bytes, and every one of at most seven of four bytes, of which `0` is a digit by its place.
// The latter also before others, where from_chars reads words.
void compare_short_texts()
{
    compare_all("");
    for (unsigned number = 0; number < 256 + 65536; number++) {
        const char bytes[] = {static_cast<char>(number), static_cast<char>((number >> 8) - 1)};
        compare_all(std::string(bytes, number < 256 ? 1 : 2));
    }
    for (unsigned number = 0; number < 4 * 4 * 4 * 4 * 4 * 4 * 4; number++) {
        std::string text;
        for (unsigned rest = number; text.size() < 7; rest /= 4)
            text += rest % 4 == 0 ? static_cast<char>('1' + text.size()) : "0-x\xff"[rest % 4];
        compare_all(text.substr(number % 8));
        compare_all(text + ",77777777777777777");
        compare_all(std::string("192837465019283746").substr(number % 19) + text);
    }
}

// Every text of so many digits, with a minus or none before them, and after them in turn each byte that is no digit.
template <class T> void compare_all_digits(std::size_t count, bool has_minus, T bound)
{
    std::string text = std::string(has_minus, '-') + std::string(count, '0') + ",77777777777777777";
    char *const start = text.data(), *const after = start + has_minus + count;
    for (T number = 0; number < bound; number++) {
        T found = 1;
        *after = static_cast<char>(number % 246 + '9' + 1);
        const bool is_whole = torkettle::from_chars(start, start + text.size(), found).ptr == after;
        require(is_whole && found == (has_minus ? 0 - number : number), "a number", text);
        for (char *digit = after; digit != start + has_minus && (*--digit)++ == '9';)
            *digit = '0';
    }
}

// Calls of from_chars, of which it can be asked whether they compile.
constexpr auto ours = [](auto &value, auto... more)
    -> decltype(torkettle::from_chars(nullptr, nullptr, value, more...)) { return {}; };
constexpr auto theirs = [](auto &value, auto... more)
    -> decltype(std::from_chars(nullptr, nullptr, value, more...)) { return {}; };
template <class T, class... More> constexpr bool is_taken = std::is_invocable_v<decltype(ours), T &, More...>;
template <class T, class... More>
constexpr bool takes_what_std_takes = is_taken<T, More...> == std::is_invocable_v<decltype(theirs), T &, More...>;
template <class... T> constexpr bool takes_types_of_std(Types<T...>)
{
    return ((takes_what_std_takes<T> && takes_what_std_takes<T, int> && takes_what_std_takes<T, std::chars_format> &&
             takes_what_std_takes<T, int, int>)&&...);
}

static_assert(is_taken<char> && is_taken<std::size_t, int> && is_taken<std::ptrdiff_t>);
static_assert(!is_taken<bool> && !is_taken<wchar_t, int> && !is_taken<char *>);
static_assert(takes_types_of_std(Integers()));
static_assert(takes_types_of_std(Types<bool, wchar_t, char16_t, char32_t, std::byte, char *, float, double, long double,
                                       const int, volatile bool, volatile wchar_t, volatile char16_t, volatile char,
                                       volatile int>()));
#ifdef __cpp_char8_t
static_assert(takes_types_of_std(Types<char8_t, volatile char8_t>()));
#endif

template <class T> bool is_same_floating(std::string_view text)
{
    if constexpr (is_taken<T>)
        return is_same_call<T>(text) && is_same_call<T>(text, std::chars_format::fixed) &&
               is_same_call<T>(text, std::chars_format::hex) && is_same_call<T>(text, std::chars_format::scientific);
    return true;
}

// Letters are digits of larger bases, and functions for other types call std::from_chars.
void compare_others()
{
    for (const char *const text : {"", "-", "0", "7f,", "-7G", "ZZ", "0x10", "101012", "+11", "ffffffffffffffffff"})
        for (int base = 2; base <= 36; base++)
            require(is_same_call<int>(text, base) && is_same_call<unsigned long>(text, base), "another base", text);
    for (const char *const text : {"", "-", "1.5", "-1.5e3x", "1e", "0x1p4", "1.8p-1", "inf", "nan", "1e99999", ".5"})
        require(is_same_floating<float>(text) && is_same_floating<double>(text) && is_same_floating<long double>(text),
                "floating point", text);
}

// A function of std::from_chars has a base, which its callers may leave out, but not those of a pointer to it.
void call_by_pointer()
{
    std::from_chars_result (*const of_int)(const char *, const char *, int &, int) = torkettle::from_chars;
    std::from_chars_result (*const of_long)(const char *, const char *, long &, int) = &torkettle::from_chars;
    int value = 0;
    long long_value = 0;
    const std::string_view text = "12";
    require(of_int(text.data(), text.data() + 2, value, 10).ptr == text.data() + 2 && value == 12 &&
                of_long(text.data(), text.data() + 2, long_value, 8).ptr == text.data() + 2 && long_value == 10,
            "a pointer to from_chars", text);
}

// A separator that may be a part of a number has one item, an error.
void read_refused_separators()
{
    for (const char separator : std::string_view("0123456789+-")) {
        std::size_t items = 0;
        const char text[] = {'1', separator, '2', separator};
        for (const auto &item : torkettle::fields<int>({text, sizeof text}, separator))
            items += !item.value && item.error == std::errc::invalid_argument && item.index == SIZE_MAX ? 1 : 10;
        require(items == 1, "a separator", {text, sizeof text});
    }
}

// The types that are not those of torkettle.h, an algorithm, and a view, whose iterator reads one item more.
void read_ranges()
{
    long long longs[] = {0, 0};
    char chars[] = {0, 0};
    require(torkettle::fields<long long>("-5,6", ',').read(longs, 2) == 2 && longs[0] == -5 && longs[1] == 6, "read",
            "-5,6");
    require(torkettle::column<char>("5,6", ',').read(chars, 2) == 2 && chars[0] == 5 && chars[1] == 6, "read", "5,6");
    torkettle::fields<int> fields("0,1,x,3,4", ',');
    auto at = fields.begin();
    while (at != fields.end() && at->value)
        at++;
    require(at->index == 2 && (*at++).index == 2 && at->index == 3, "an iterator after an error", "0,1,x,3,4");
#if __cplusplus >= 202002L && (!defined(__clang__) || __clang_major__ > 15)
    torkettle::fields<int> some("0,1,2,3,4", ',');
    int sum = 0;
    for (const auto &item : some | std::views::take(2))
        sum += *item.value;
    require(sum == 1 && some.next_index() == 3 && *some.begin()->value == 3, "a view", "0,1,2,3,4");
    static_assert(std::ranges::input_range<torkettle::fields<int>>);
#endif
}

#if __cplusplus >= 202002L && defined __cpp_constexpr_dynamic_alloc
// What is read of a text: in a constant expression, the same as at run time.
template <class T> constexpr auto reading(std::string_view text)
{
    T value = 77;
    const auto [end, error] = torkettle::from_chars(text.data(), text.data() + text.size(), value);
    return std::tuple(value, end - text.data(), error, torkettle::parse<T>(text, 0), torkettle::parse<T>(text, 1),
                      torkettle::parse<T>(text, 2), torkettle::parse<T>(text, 3));
}

constexpr std::string_view constant_texts[] = {
    "", "-", "+", "x", "--1", "+-5", "-0", "+5", "5 ", "12,34", "-7 ", "127", "128", "-128", "-129", "255", "256",
    "-32769", "65536", "-2147483648", "4294967295", "9223372036854775808", "-9223372036854775809",
    "18446744073709551615", "170141183460469231731687303715884105728", "-170141183460469231731687303715884105729",
    "340282366920938463463374607431768211455", "340282366920938463463374607431768211456", "00000000000000000007",
    "+000000000000000000007", "0000000000000000000000000000000000000042x"};

template <class T>
constexpr auto constants = std::apply([](auto... text) { return std::array{reading<T>(text)...}; },
                                      std::to_array(constant_texts));

template <class... T> void compare_constants(Types<T...>)
{
    for (std::size_t at = 0; at < std::size(constant_texts); at++)
        require(((constants<T>[at] == reading<T>(constant_texts[at])) && ...), "a constant", constant_texts[at]);
}
#endif

using Iterator = torkettle::fields<int>::iterator;
static_assert(std::is_same_v<std::iterator_traits<Iterator>::iterator_category, std::input_iterator_tag>);
static_assert(std::is_same_v<std::iterator_traits<Iterator>::value_type, torkettle::item<int>>);
static_assert(std::is_nothrow_copy_constructible_v<Iterator> && std::is_nothrow_copy_assignable_v<Iterator>);

// A string that ends before the range is refused, and one that stays is not.
constexpr auto lines = [](auto &&text) -> decltype(torkettle::lines<int>(std::forward<decltype(text)>(text))) {
    return torkettle::lines<int>(std::forward<decltype(text)>(text));
};
template <class String>
constexpr int ranges = std::is_constructible_v<torkettle::fields<int>, String, char> +
                       std::is_constructible_v<torkettle::column<int>, String, char> +
                       std::is_invocable_v<decltype(lines), String>;
static_assert(ranges<std::string &> == 3 && ranges<const std::string &> == 3 && ranges<std::pmr::string &> == 3);
static_assert(ranges<std::string_view> == 3 && ranges<const char *> == 3 && ranges<const char (&)[3]> == 3);
static_assert(ranges<std::string> == 0 && ranges<const std::string> == 0 && ranges<std::pmr::string> == 0);

} // namespace

int main(int count, char **arguments)
{
    const unsigned long texts = count > 1 ? std::strtoul(arguments[1], nullptr, 10) : 2000000;
    Random random;
    compare_short_texts();
    for (std::uint32_t digits = 1, bound = 10; digits <= (texts > 1000000 ? 8 : 4); digits++, bound *= 10) {
        compare_all_digits<std::uint32_t>(digits, false, bound);
        compare_all_digits<std::int64_t>(digits, false, bound);
        compare_all_digits<std::int64_t>(digits, true, bound);
    }
    compare_others();
    call_by_pointer();
    read_refused_separators();
    read_ranges();
#if __cplusplus >= 202002L && defined __cpp_constexpr_dynamic_alloc
    compare_constants(Integers());
    compare_constants(LargeIntegers());
#endif
    calls = accepted = out_of_range = 0; // Few texts above are numbers: only the others are counted.
    for (unsigned long number = 0; number < texts; number++)
        compare_all(random_text(random) + (number % 2 == 0 ? "" : ",0123456789012345"));
    std::printf("%lu texts, %llu calls: %llu numbers, %llu out of range\n", texts, calls, accepted, out_of_range);
    return accepted < calls / 10 || out_of_range < calls / 100;
}

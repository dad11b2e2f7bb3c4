// Compares what programs call, in torkettle.h, torkettle.c and torkettle.hpp, with the Rust of the package, for random
// texts, each of one type, and so many columns of each type: compare TEXTS COLUMNS SEED. To build it:
//
//     cargo build --release --manifest-path c/tests/proved/Cargo.toml
//     c++ -std=gnu++17 -O1 -Ic/include -Ic/src c/tests/proved/compare.cpp
//         c/tests/proved/target/release/libtorkettle_oracle.a
//
// With -DNO_RUST, it compares only calls with each other. With -DCHECKED, what is proved is asserted: bounds and, in
// the files of `.ci/translate --c`, that nothing overflows.
#include <stdexcept>
#include <tuple>
#ifdef CHECKED
#define TORKETTLE_CHECK(condition) ((condition) ? void() : throw std::logic_error(__PRETTY_FUNCTION__))
#endif
#include "torkettle.c"

#include "columns.hpp"

namespace {

// An error, and its message in a buffer that has room for the longest one, and no more.
void push_error(Test &test, const torkettle_error &error, uint64_t status)
{
    std::vector<char> message(TORKETTLE_ERROR_TEXT_SIZE, '#');
    const size_t length =
        torkettle_error_text(message.data(), message.size(), &error, test.text.data(), test.text.size());
    uint64_t sum = 0;
    test.require(error.status == status && length < message.size() && message[length] == 0, "a message");
    for (size_t at = 0; at < length; at++)
        sum = sum * 31 + static_cast<unsigned char>(message[at]);
    test.push({error.bits, error.offset, error.count, error.value_low, error.value_high, length, sum});
}

template <class C> void parses(Test &test)
{
    using T = typename C::type;
    const char *const text = test.text.data();
    const size_t length = test.text.size();
    const unsigned flags = test.option;
    const auto whole = [&](auto call) {
        T value = 99;
        const torkettle_status status = call(text, length, flags, &value);
        return test.answer(status, value, status == TORKETTLE_OK ? length : 99);
    };
    const auto prefix = [&](auto call) {
        T value = 99;
        size_t count = 99;
        const torkettle_status status = call(text, length, flags, &value, &count);
        return test.answer(status, value, count);
    };
    // Whether a function that has no status says the same: a length of 0, or no number.
    const auto is_found = [&](const Answer &answer, auto found) {
        return found.length == 0 ? answer[0] != 0 : answer == test.answer(TORKETTLE_OK, found.value, found.length);
    };
    const auto is_same = [&](const Answer &answer, const std::optional<T> &found) {
        return found ? answer == test.answer(TORKETTLE_OK, *found, answer[1]) : answer[0] != 0;
    };
    const auto status_of = [](bool is_number) { return is_number ? TORKETTLE_OK : TORKETTLE_EMPTY; };
    const Answer all = whole(C::parse), start = prefix(C::parse_prefix);
    const Answer canonical =
        whole([&](auto, auto, auto, T *value) { return status_of(C::canonical(text, length, value)); });
    const Answer json = prefix(
        [&](auto, auto, auto, T *value, size_t *count) { return status_of(C::json(text, length, value, count)); });
    test.require(all == whole(C::called_parse) && is_found(all, C::whole(text, length, flags)), "a parse");
    test.require(start == prefix(C::called_prefix) && is_found(start, C::prefix(text, length, flags)), "a prefix");
    // What these return in a constant expression. There, only a parse of a whole text has flags.
    using Constant = torkettle::detail::functions_of<T>;
    const torkettle::detail::copied bytes(text, length);
    const bool is_constant = flags != TORKETTLE_SKIP_ZEROES || is_found(start, Constant::constant_prefix(bytes));
    test.require(is_constant && is_found(all, Constant::constant_whole(bytes, flags)), "a constant");
    const auto number = torkettle::json_integer<T>(test.text);
    test.require(is_same(all, torkettle::parse<T>(test.text, flags)), "parse of C++");
    test.require(is_same(canonical, torkettle::canonical<T>(test.text)), "canonical of C++");
    test.require(is_same(json, number ? std::optional<T>(number->first) : std::nullopt), "json_integer of C++");
    const bool is_rest =
        !number || (number->second.data() == text + json[1] && number->second.end() == test.text.end());
    test.require(is_rest, "the rest after json_integer");
    test.push(all);
    push_error(test, C::parse_error(text, length, flags), all[0]);
    test.push(start);
    push_error(test, C::prefix_error(text, length, flags), start[0]);
    for (const Answer &answer : {whole(C::pos), prefix(C::prefix_pos), canonical, json})
        test.push(answer);
    test.compare(PARSES, "the row of a parse");
}

TORKETTLE_TYPES_(CALLS)

const struct {
    const char *name;
    unsigned digits;
    void (*parses)(Test &);
    void (*columns)(Test &, Random &, bool);
} types[] = {
#define TYPE(name, type)                                                                                               \
    {#name, sizeof(type) * 19 / 8, parses<calls_##name>,                                                               \
     [](Test &test, Random &random, bool lines) { Columns<calls_##name>{test, random, lines}.run(); }},
    TORKETTLE_TYPES_(TYPE)};

void test_column(Random &random, unsigned type)
{
    const char separators[] = ",;\n\r \t\0\xFF/:x\xB0";
    const bool lines = random.below(3) == 0;
    const char separator = lines ? '\n' : random.of(separators);
    const size_t bytes = random.below(random.below(2) == 0 ? 40 : 4000);
    const bool has_returns = lines && random.below(2) == 0;
    const std::string text = random_column(random, separator, has_returns, bytes, types[type].digits);
    Test test = {types[type].name, type, placed(text), static_cast<unsigned char>(separator)};
    types[type].columns(test, random, lines);
}

#ifdef TK_OPERATORS
const tk_u128 most = tk_u128_make(UINT64_MAX, UINT64_MAX);

// What these functions assert holds for the last operand of a call, and fails for another one.
#define ASSERTS(holds, fails, name, ...) {#name, [] { name(__VA_ARGS__, holds); }, [] { name(__VA_ARGS__, fails); }}
const std::tuple<const char *, void (*)(), void (*)()> asserting[] = {
    ASSERTS(1, 2, tk_u8_add, 254), ASSERTS(2, 3, tk_u16_sub, 2), ASSERTS(65535, 65536, tk_u32_mul, 65537),
    ASSERTS(1, 0, tk_u64_div, 1), ASSERTS(1, 0, tk_size_rem, 1), ASSERTS(31, 32, tk_u32_shift_left, 1),
    ASSERTS(63, 64, tk_u64_shift_right, 1), ASSERTS(3, 2, tk_index, 2), ASSERTS(2, 3, tk_bytes_from, TK_TEXT("12")),
    ASSERTS(2, 3, tk_bytes_to, TK_TEXT("12")), ASSERTS(2, 3, tk_bytes_between, TK_TEXT("12"), 0),
    ASSERTS(2, 1, tk_bytes_between, TK_TEXT("12"), 2), ASSERTS(tk_u128_of(0), tk_u128_of(1), tk_u128_add, most),
    ASSERTS(tk_u128_of(1), tk_u128_of(2), tk_u128_mul, most)};

void test_assertions()
{
    for (const auto &[name, holds, fails] : asserting) {
        holds();
        try {
            fails();
            require(false, name, "");
        } catch (const std::logic_error &) {
        }
    }
}
#endif

} // namespace

int main(int, char **arguments)
{
#ifdef TK_OPERATORS
    test_assertions();
#endif
    const uint64_t texts = std::strtoull(arguments[1], nullptr, 10), columns = std::strtoull(arguments[2], nullptr, 10);
    Random random(std::strtoull(arguments[3], nullptr, 10));
    for (uint64_t number = 0; number < texts; number++) {
        const unsigned type = random.below(static_cast<unsigned>(std::size(types)));
        Test test = {types[type].name, type, placed(random_text(random), number & 1), random.below(4)};
        types[type].parses(test);
    }
    for (uint64_t number = 0; number < columns; number++)
        for (unsigned type = 0; type < std::size(types); type++)
            test_column(random, type);
    std::printf("%s texts, and %s columns of each type: 0 differ\n", arguments[1], arguments[2]);
}

// Random texts for the tests: numbers near the bounds of each type, what is almost a number, and columns of both.
#pragma once

#include <cstddef>
#include <cstdio>
#include <cstdlib>
#include <cstring>
#include <random>
#include <string>
#include <string_view>
#if __has_include(<sys/mman.h>)
#include <sys/mman.h>
#endif

// Ends the program with a message unless this is so.
inline void require(bool is_right, const char *what, std::string_view text, const char *of = "text", unsigned option = 0)
{
    if (is_right)
        return;
    std::printf("%s of %s differs, flags or separator %u: ", what, of, option);
    for (const char byte : text)
        std::printf(byte > 32 && byte < 127 ? "%c" : "\\x%02x", static_cast<unsigned char>(byte));
    std::printf("\n");
    std::exit(1);
}

// The same numbers in each run.
class Random : public std::mt19937_64 {
public:
    using std::mt19937_64::mt19937_64;

    unsigned below(unsigned bound) { return static_cast<unsigned>(((*this)() >> 32) * bound >> 32); }
    char digit() { return static_cast<char>('0' + below(10)); }

    template <class T, std::size_t count> T of(const T (&values)[count]) { return values[below(count)]; }
};

// The last number in range and the first out of range, for each width and sign, and where words end.
const char *const bounds[] = {
    "127", "128", "255", "32767", "32768", "65535", "2147483647", "2147483648", "4294967295", "99999999",
    "9999999999999999", "9223372036854775807", "9223372036854775808", "18446744073709551615",
    "170141183460469231731687303715884105727", "170141183460469231731687303715884105728",
    "340282366920938463463374607431768211455", "999999999999999999999999999999999999999"};

inline std::string random_digits(Random &random)
{
    std::string digits;
    if (random.below(3) == 0) {
        digits = random.of(bounds);
        // Most neighbors of these numbers differ in the last digit alone.
        if (random.below(2) == 0)
            digits[digits.size() - 1 - random.below(3) % digits.size()] = random.digit();
        return digits;
    }
    const unsigned most[] = {3, 5, 9, 20, 45};
    for (unsigned count = random.below(random.of(most) + 1); count > 0; count--)
        digits += random.digit();
    return digits;
}

// A byte that is no digit, or looks like one to code that reads words.
inline char odd_byte(Random &random)
{
    const char odd[] = "\0\x10/:+-,. eE\n\r\x46\x76\x7F\x80\xB0\xB9\xC6\xD0\xFA\xFB\xFC\xFD\xFE\xFF";
    return random.below(2) == 0 ? odd[random.below(sizeof odd - 1)] : static_cast<char>(random.below(256));
}

// Any of: a sign, zeros, digits, and what is behind them.
inline std::string random_text(Random &random)
{
    const char *const signs[] = {"", "", "", "", "-", "-", "-", "+", "--", "-+", " ", "\t"};
    const char *const junk[] = {"", "", "", "", "x", ",", "-", "+", ".5", " 7", "e", "E3", "\n", ",0123456789012345"};
    std::string text = random.of(signs);
    if (random.below(4) == 0)
        text.append(random.below(random.below(4) == 0 ? 70 : 9), '0');
    text += random_digits(random) + random.of(junk);
    if (random.below(8) == 0)
        text += odd_byte(random);
    if (random.below(8) == 0 && !text.empty())
        text[random.below(static_cast<unsigned>(text.size()))] = odd_byte(random);
    return text;
}

// A column of about so many bytes, in which most fields have at most `most` digits, and often equally many.
inline std::string random_column(Random &random, char separator, bool has_returns, std::size_t bytes, unsigned most)
{
    const unsigned rates[] = {2, 20, 60, 1000000};
    const unsigned rate = random.of(rates), width = 1 + random.below(random.below(3) == 0 ? 2 : most);
    const bool is_even = random.below(2) == 0, has_minus = random.below(3) == 0;
    std::string text;
    while (text.size() < bytes) {
        unsigned digits = is_even ? width : 1 + random.below(width);
        if (random.below(rate) == 0) {
            text += random_text(random);
            digits = random.below(2) == 0 ? 0 : digits;
        } else if (random.below(4) == 0)
            text += has_minus ? "-" : random.below(20) == 0 ? "+0" : "";
        for (; digits > 0; digits--)
            text += random.digit();
        text += has_returns && random.below(50) != 0 ? "\r" : "";
        text += separator;
    }
    if (!text.empty() && random.below(2) == 0)
        text.pop_back();
    return text;
}

// Copies a text to where the memory ends, or begins, that may be read, if the system has such a place.
inline std::string_view placed(const std::string &text, bool at_end = true)
{
    constexpr std::size_t size = 1 << 18;
#ifdef PROT_NONE
    static char *const memory = [] {
        void *const all = mmap(nullptr, 3 * size, PROT_NONE, MAP_PRIVATE | MAP_ANONYMOUS, -1, 0);
        char *const middle = static_cast<char *>(all) + size;
        return all != MAP_FAILED && mprotect(middle, size, PROT_READ | PROT_WRITE) == 0 ? middle : nullptr;
    }();
#else
    static char memory[size];
#endif
    char *const to = memory + (at_end ? size - text.size() : 0);
    if (!text.empty())
        std::memcpy(to, text.data(), text.size());
    return {to, text.size()};
}

// Compares what c/README.md has in place of functions of libc and of std::stoi with these, for texts of few characters
// and random ones, many near the bounds: the number, the end (not of atoi and sscanf) and, of strtol and others, errno.
#define main run_samples
#include "samples.c"
#undef main

#include <limits>
#include <stdexcept>
#include <string>
#include <type_traits>
#include <utility>

#include "texts.hpp"

const char spaces[] = " \t\n\v\f\r";

// What `number_at` of the samples is for another type.
template <class T, auto parse> static T number_of(const char *text, char **end)
{
    const char *start = text + std::strspn(text, spaces);
    const unsigned flags = TORKETTLE_SKIP_ZEROES | TORKETTLE_SKIP_PLUS;
    std::size_t count = 0;
    T value = 0;
    const torkettle_status status = parse(start, std::strspn(start, "+-0123456789"), flags, &value, &count);
    if (status == TORKETTLE_EMPTY)
        start = text;
    if (status == TORKETTLE_SIZE || status == TORKETTLE_OVERFLOW) {
        errno = ERANGE;
        value = *start == '-' ? std::numeric_limits<T>::min() : std::numeric_limits<T>::max();
        count = 1 + std::strspn(start + 1, "0123456789");
    }
    *end = const_cast<char *>(start) + count;
    return value;
}

static void check_int(const std::string &text)
{
    char *end;
    errno = 0;
    const int value = number_of<std::int32_t, torkettle_parse_prefix_i32>(text.c_str(), &end);
    const bool is_large = errno == ERANGE, is_empty = end == text.c_str();
    if (!is_large) {
        int scanned = 0;
        require(std::atoi(text.c_str()) == value, "atoi", text);
        require((std::sscanf(text.c_str(), "%d", &scanned) == 1) == !is_empty && scanned == value, "sscanf", text);
    }
    try {
        std::size_t count = 0;
        require(std::stoi(text, &count) == value && text.c_str() + count == end, "stoi", text);
    } catch (const std::out_of_range &) {
        require(is_large, "a large number of stoi", text);
    } catch (const std::invalid_argument &) {
        require(is_empty, "no number of stoi", text);
    }
}

// Functions of unsigned types refuse the minus that strtoul takes.
template <class T>
static void check_strto(const std::string &text, T (*theirs)(const char *, char **, int),
                        T (*ours)(const char *, char **))
{
    char *end, *their_end;
    errno = 0;
    const T value = ours(text.c_str(), &end);
    const int error = std::exchange(errno, 0);
    if (!std::is_signed_v<T> && text[std::strspn(text.c_str(), spaces)] == '-')
        return require(end == text.c_str(), "a minus of strtoul", text);
    require(theirs(text.c_str(), &their_end, 10) == value && their_end == end && errno == error, "strto", text);
}

static void check_text(const std::string &text)
{
    check_int(text);
    check_strto<long>(text, std::strtol, number_at);
    check_strto<long long>(text, std::strtoll, number_of<long long, torkettle_parse_prefix_ll>);
    check_strto<unsigned long>(text, std::strtoul, number_of<unsigned long, torkettle_parse_prefix_ul>);
    check_strto<unsigned long long>(text, std::strtoull, number_of<unsigned long long, torkettle_parse_prefix_ull>);
}

int main()
{
    const std::string characters = "09-+ \t\n\v\f\rx,";
    for (std::size_t number = 0; number < 100000; number++) {
        std::string text;
        for (std::size_t rest = number; rest > 0; rest /= characters.size())
            text += characters[rest % characters.size()];
        check_text(text);
    }
    Random random(1);
    for (unsigned number = 0; number < 300000; number++)
        check_text(random_text(random).c_str());
}

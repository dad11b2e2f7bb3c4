// The loops that are timed in C++, by the C library and by `std::from_chars`. `bench` writes the exports after them.
#include <charconv>
#include <cstddef>
#include <cstdint>
#include <optional>
#include <string_view>
#include <type_traits>
#include "torkettle.hpp"

#define INLINED [[gnu::always_inline]] inline
#define EXPORT(NAME, ...) \
    extern "C" uint64_t NAME(const Texts *texts, size_t) { return __VA_ARGS__(*texts); }

static const uint64_t ERROR = 0x8000000000000001;

struct Place {
    uint32_t start;
    uint32_t length;
};

struct Texts {
    const char *text;
    size_t length;
    const Place *places;
    size_t count;
};

struct Standard {
    template <typename T> INLINED static auto read(const char *start, const char *end, T &value) {
        return std::from_chars(start, end, value);
    }
    template <typename T> INLINED static std::optional<T> whole(std::string_view text) {
        T value;
        auto [stop, error] = read(text.data(), text.data() + text.size(), value);
        if (error != std::errc() || stop != text.data() + text.size()) return std::nullopt;
        return value;
    }
};

struct Ours {
    template <typename T> INLINED static auto read(const char *start, const char *end, T &value) {
        return torkettle::from_chars(start, end, value);
    }
    template <typename T> INLINED static std::optional<T> whole(std::string_view text) {
        return torkettle::parse<T>(text);
    }
};

template <typename T> INLINED uint64_t low_bits(T value) {
    return static_cast<uint64_t>(static_cast<std::make_unsigned_t<T>>(value));
}

template <typename By, typename T> INLINED uint64_t slices(const Texts &texts) {
    uint64_t sum = 0;
    for (const Place *place = texts.places, *last = place + texts.count; place != last; ++place) {
        const std::optional<T> value = By::template whole<T>({texts.text + place->start, place->length});
        if (!value) return ERROR;
        sum += low_bits(*value);
    }
    return sum;
}

// The numbers at the starts of slices, and their lengths.
template <typename By, typename T> INLINED uint64_t starts(const Texts &texts) {
    uint64_t sum = 0;
    for (const Place *place = texts.places, *last = place + texts.count; place != last; ++place) {
        T value;
        const char *start = texts.text + place->start;
        auto [stop, error] = By::read(start, start + place->length, value);
        if (error != std::errc()) return ERROR;
        sum += low_bits(value) + static_cast<uint64_t>(stop - start);
    }
    return sum;
}

template <typename By, typename T> INLINED uint64_t column(const Texts &texts) {
    const char *start = texts.text, *end = start + texts.length;
    uint64_t sum = 0;
    for (;; ++start) {
        T value;
        auto [stop, error] = By::read(start, end, value);
        if (error != std::errc()) return ERROR;
        sum += low_bits(value);
        if (stop == end) return sum;
        if (*stop != ',') return ERROR;
        start = stop;
    }
}

template <typename, typename T> INLINED uint64_t fields(const Texts &texts) {
    uint64_t sum = 0;
    for (const auto &item : torkettle::fields<T>(std::string_view(texts.text, texts.length), ',')) {
        if (!item.value) return ERROR;
        sum += low_bits(*item.value);
    }
    return sum;
}

// The functions of C for a column.
template <typename T> struct Column;
#define COLUMN(NAME, T)                                                                            \
    template <> struct Column<T> : torkettle_column_##NAME {                                       \
        INLINED explicit Column(const Texts &texts) {                                              \
            torkettle_column_##NAME##_init(this, texts.text, texts.length, ',');                   \
        }                                                                                          \
        INLINED bool next(T *value) { return torkettle_column_##NAME##_next(this, value); }        \
        INLINED size_t read(T *to, size_t count) { return torkettle_column_##NAME##_read(this, to, count); } \
    };
COLUMN(u32, uint32_t)
COLUMN(i32, int32_t)
COLUMN(u64, uint64_t)
COLUMN(i64, int64_t)

template <typename, typename T> INLINED uint64_t next(const Texts &texts) {
    Column<T> column(texts);
    T value;
    uint64_t sum = 0;
    while (column.next(&value)) sum += low_bits(value);
    return column.status == TORKETTLE_OK ? sum : ERROR;
}

template <typename, typename T> INLINED uint64_t read(const Texts &texts) {
    Column<T> column(texts);
    T values[128];
    uint64_t sum = 0;
    size_t count;
    do {
        count = column.read(values, 128);
        for (size_t at = 0; at < count; at++) sum += low_bits(values[at]);
    } while (count == 128);
    return column.status == TORKETTLE_OK ? sum : ERROR;
}

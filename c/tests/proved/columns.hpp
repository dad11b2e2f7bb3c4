// Reads a column in every way that there is in C and C++: each has to give what `_next` gives, and that Rust.
#pragma once

#include "test.hpp"
#include "torkettle.hpp"

// The items of a text as fields: what one call of `_next` says, and where the field begins.
template <class T> struct Expected {
    torkettle_status status;
    T value;
    size_t offset;
    std::string_view text;
};

template <class C> struct Columns {
    using T = typename C::type;

    Test &test;
    Random &random;
    bool lines;
    std::vector<Expected<T>> expected = {};

    void run()
    {
        fields_by_next();
        for (const size_t count : {0u, 1u, 2u, 7u, 64u, 100000u})
            by_read(start(), count, C::fields_read);
        ranges();
        if (lines)
            return;
        column(1, [](auto *list, T *values, size_t) -> size_t { return C::column_next(list, values); });
        for (const size_t count : {1u, 3u, 100000u})
            column(count, C::column_read);
        column_range();
    }

    typename C::fields start() const
    {
        typename C::fields fields;
        if (lines)
            C::fields_lines(&fields, test.text.data(), test.text.size());
        else
            C::fields_init(&fields, test.text.data(), test.text.size(), static_cast<char>(test.option));
        return fields;
    }

    // Reads all fields, counted from another start, and compares them with those of Rust.
    void fields_by_next()
    {
        typename C::fields fields = start();
        C::starting_at(&fields, 7, 1000);
        T value = 99;
        for (size_t index = fields.next_index, offset = fields.next_offset; C::fields_next(&fields, &value);
             index = fields.next_index, offset = fields.next_offset, value = 99) {
            const bool is_good = fields.status == TORKETTLE_OK;
            const std::string_view text = is_good ? std::string_view() : std::string_view(fields.text, fields.length);
            test.require(is_good || (value == 99 && fields.index == index && fields.offset == offset), "a bad field");
            test.push({static_cast<uint64_t>(fields.status), index, offset});
            if (is_good)
                test.push(test.answer(TORKETTLE_OK, value, 0));
            else
                test.push({static_cast<uint64_t>(text.data() - test.text.data()), text.size()});
            expected.push_back({fields.status, value, offset - 1000, text});
        }
        test.require(value == 99 && fields.status == TORKETTLE_OK, "the end of fields");
        test.push({fields.next_index, fields.next_offset});
        test.compare(lines ? LINES : FIELDS, "fields");
    }

    // Whether what a call wrote at `values`, which had `count` elements of 99, are the numbers from `index` on.
    void require_numbers(size_t index, const std::vector<T> &values, size_t read) const
    {
        for (size_t at = 0; at < read; at++)
            test.require(is_number(index + at) && expected[index + at].value == values[at], "a number of _read");
        for (size_t at = read; at < values.size(); at++)
            test.require(values[at] == 99, "what _read writes");
    }

    bool is_number(size_t index) const { return index < expected.size() && expected[index].status == TORKETTLE_OK; }

    size_t offset_of(size_t index) const { return index < expected.size() ? expected[index].offset : test.text.size(); }

    size_t first_bad() const
    {
        size_t index = 0;
        while (is_number(index))
            index++;
        return index;
    }

    // Reads fields, or a column up to a bad field, by calls for so many numbers each.
    template <class List, class Read> void by_read(List &&list, size_t count, Read read) const
    {
        constexpr bool is_column = std::is_same_v<List, typename C::column &>;
        size_t index = 0, numbers;
        do {
            // An element behind those that may be written, and none where nothing may be.
            std::vector<T> values(count > 0 ? std::min(count, expected.size() + 1) + 1 : 0, 99);
            numbers = read(&list, values.data(), count);
            require_numbers(index, values, numbers);
            index += numbers;
            const bool is_end = list.status == TORKETTLE_OK ? index == expected.size() : index < expected.size();
            test.require(numbers == count ? list.status == TORKETTLE_OK : numbers < count && is_end,
                         "the end of _read");
            if constexpr (!is_column) {
                if (list.status != TORKETTLE_OK) {
                    const Expected<T> &bad = expected[index++];
                    test.require(list.status == bad.status && list.index == index - 1 && list.offset == bad.offset &&
                                     list.text == bad.text.data() && list.length == bad.text.size(),
                                 "the error of _read");
                }
                test.require(list.next_index == index && list.next_offset == offset_of(index), "a position");
            }
        } while (numbers > 0 || (list.status != TORKETTLE_OK && !is_column));
        test.require(count == 0 || index == (is_column ? first_bad() : expected.size()), "the number of fields");
    }

    void require_item(const torkettle::item<T> &item, size_t index) const
    {
        test.require(index < expected.size(), "an item after the last");
        const Expected<T> &field = expected[index];
        const bool is_large = field.status == TORKETTLE_SIZE || field.status == TORKETTLE_OVERFLOW;
        const bool is_good = field.status == TORKETTLE_OK;
        const std::errc error = is_large ? std::errc::result_out_of_range : std::errc::invalid_argument;
        test.require(item.index == index && item.offset == field.offset && item.text == field.text &&
                         item.value == (is_good ? std::optional<T>(field.value) : std::nullopt) &&
                         item.error == (is_good ? std::errc() : error),
                     "an item");
    }

    // One range is read by calls of every kind in turn, two iterators and a copy among them.
    void ranges() const
    {
        using Fields = torkettle::fields<T>;
        Fields range = lines ? torkettle::lines<T>(test.text) : Fields(test.text, static_cast<char>(test.option));
        typename Fields::iterator iterators[2];
        torkettle::item<T> item;
        size_t index = 0;
        for (bool has_error = false; index < expected.size();) {
            const size_t before = index;
            const unsigned way = random.below(5);
            if (way < 3) {
                auto &iterator = iterators[random.below(2)];
                if (way == 2 && iterator == range.end())
                    continue;
                if (way == 0)
                    test.require(range.next(item), "next");
                else
                    item = way == 1 ? *(iterator = range.begin()) : *++iterator;
                require_item(item, index++);
            } else if (way == 3) {
                std::vector<T> values(random.below(20), 99);
                const size_t read = range.read(values.data(), values.size());
                require_numbers(index, values, read);
                index += read;
                has_error = read < values.size() && index < expected.size();
                index += has_error;
            } else {
                Fields copy = range.starting_at(index + 3, 5);
                test.require(copy.next(item), "next of a copy");
                item.index -= 3;
                item.offset += offset_of(index) - 5;
                require_item(item, index);
            }
            has_error = index > before ? !is_number(index - 1) : has_error;
            test.require(range.next_index() == index && range.next_offset() == offset_of(index), "a range's position");
            test.require(range.error_item().has_value() == has_error, "whether there is an error_item");
            if (has_error)
                require_item(*range.error_item(), index - 1);
        }
        test.require(range.begin() == range.end() && !range.next(item) && range.next_index() == index, "a range's end");
    }

    template <class Read> void column(size_t count, Read read)
    {
        typename C::column column;
        C::column_init(&column, test.text.data(), test.text.size(), static_cast<char>(test.option));
        by_read(column, count, read);
        test.row.clear();
        for (size_t index = 0; is_number(index); index++)
            test.push(test.answer(TORKETTLE_OK, expected[index].value, 0));
        if (column.status != TORKETTLE_OK)
            test.push({static_cast<uint64_t>(column.status), column.index, column.offset});
        test.compare(COLUMN, "a column");
    }

    void column_range() const
    {
        torkettle::column<T> items(test.text, static_cast<char>(test.option)), numbers = items;
        size_t index = 0;
        for (const auto &item : items)
            require_item(item, index++);
        test.require(index == std::min(first_bad() + 1, expected.size()), "the number of items of a column");
        std::vector<T> values(expected.size() + 1, 99);
        require_numbers(0, values, numbers.read(values.data(), values.size()));
        test.require(numbers.error_item().has_value() == (first_bad() < expected.size()), "the error of a column");
        test.require(numbers.read(values.data(), 1) == 0 && !numbers.error_item(), "the end of a column");
    }
};

// The samples of c/README.md for C++ that are no whole programs. .ci/texts compares them with the page, and .ci/c
// runs this program.
#include <torkettle.hpp>

#include <cstdint>
#include <iostream>
#include <iterator>
#include <numeric>
#include <string_view>

static std::uint64_t sum_of_lines(std::string_view text)
{
    std::uint64_t sum = 0;
    for (const auto &item : torkettle::lines<std::uint32_t>(text)) {
        if (item.value)
            sum += *item.value;
        else
            std::cout << "no number in line " << item.index + 1 << ", at byte " << item.offset << '\n';
    }
    return sum;
}

static std::uint64_t sum_of_fields(std::string_view text)
{
    std::uint64_t sum = 0;
    torkettle::fields<std::uint32_t> fields(text, ',');
    std::uint32_t values[256];
    std::size_t count;
    do {
        count = fields.read(values, std::size(values));
        sum += std::accumulate(values, values + count, std::uint64_t(0));
        if (const auto error = fields.error_item())
            std::cout << "no number in field " << error->index << ", at byte " << error->offset << '\n';
    } while (count > 0 || fields.error_item());
    return sum;
}

int main()
{
    const std::uint64_t lines = sum_of_lines("80\r\n44x\n443"), fields = sum_of_fields("80,44x,8080");
    std::cout << "sums " << lines << ' ' << fields << '\n';
}

/*
 * The samples of c/README.md that are no whole programs. .ci/texts compares them with the page, .ci/c runs this
 * program, and libc.cpp compares number_at with strtol.
 */
#include <torkettle.h>

#include <errno.h>
#include <limits.h>
#include <stdio.h>
#include <string.h>

/* Not for libc.cpp, as C++ has these as functions of C. */
#ifndef __cplusplus
torkettle_status torkettle_parse_u64(const char *text, size_t length, unsigned flags, uint64_t *value);
torkettle_status torkettle_parse_prefix_u64(const char *text, size_t length, unsigned flags, uint64_t *value,
                                            size_t *count);
#endif

static int is_error_of_a_parse(void)
{
    char message[TORKETTLE_ERROR_TEXT_SIZE];
    torkettle_error error = torkettle_parse_error_u32("12x", 3, 0);
    size_t bad_byte = error.offset + error.count; /* only for TORKETTLE_INVALID */
    torkettle_error_text(message, sizeof message, &error, "12x", 3);
    return error.status == TORKETTLE_INVALID && error.offset == 0 && error.count == 2 && bad_byte == 2 &&
           strcmp(message, "atoi_simd invalid at index: 2 it must contain only digits, starting with: 12  input: "
                           "[31, 32, 78]") == 0;
}

static long number_at(const char *text, char **end)
{
    const char *start = text + strspn(text, " \t\n\v\f\r");
    unsigned flags = TORKETTLE_SKIP_ZEROES | TORKETTLE_SKIP_PLUS;
    size_t length = strspn(start, "+-0123456789"), count = 0;
    long value = 0;
    torkettle_status status = torkettle_parse_prefix_l(start, length, flags, &value, &count);

    if (status == TORKETTLE_EMPTY)
        start = text;
    if (status == TORKETTLE_SIZE || status == TORKETTLE_OVERFLOW) {
        errno = ERANGE;
        value = *start == '-' ? LONG_MIN : LONG_MAX;
        count = *start == '-' || *start == '+';
        count += strspn(start + count, "0123456789");
    }
    if (end != NULL)
        *end = (char *)start + count;
    return value;
}

static uint64_t sum_of_column(const char *text, size_t length)
{
    torkettle_column_u32 column;
    uint32_t value;
    uint64_t sum = 0;
    torkettle_column_u32_init(&column, text, length, ',');
    while (torkettle_column_u32_next(&column, &value))
        sum += value;
    if (column.status != TORKETTLE_OK)
        printf("no number in field %zu, at byte %zu\n", column.index, column.offset);
    return sum;
}

static uint64_t sum_by_read(const char *text, size_t length)
{
    uint64_t sum = 0;
    torkettle_column_u32 column;
    uint32_t values[256];
    size_t count;
    torkettle_column_u32_init(&column, text, length, ',');
    do {
        count = torkettle_column_u32_read(&column, values, 256);
        for (size_t at = 0; at < count; at++)
            sum += values[at];
    } while (count == 256);
    if (column.status != TORKETTLE_OK)
        printf("no number in field %zu, at byte %zu\n", column.index, column.offset);
    return sum;
}

/* Reads the lines twice, in two ways. */
static uint64_t sum_of_lines(const char *text, size_t length)
{
    uint64_t sum = 0;
    uint32_t values[256];
    size_t count;
    torkettle_fields_u32 lines;
    uint32_t value;
    torkettle_fields_u32_init_lines(&lines, text, length);
    while (torkettle_fields_u32_next(&lines, &value)) {
        if (lines.status == TORKETTLE_OK)
            sum += value;
        else
            printf("no number in line %zu, at byte %zu\n", lines.index + 1, lines.offset);
    }
    torkettle_fields_u32_init_lines(&lines, text, length);
    while ((count = torkettle_fields_u32_read(&lines, values, 256)) > 0 || lines.status != TORKETTLE_OK) {
        for (size_t at = 0; at < count; at++)
            sum += values[at];
        if (lines.status != TORKETTLE_OK)
            printf("no number in line %zu, at byte %zu\n", lines.index + 1, lines.offset);
    }
    return sum;
}

int main(void)
{
    const char *text = "80,44x,8080";
    uint64_t value = 0;
    size_t count = 0;
    char *end = NULL;

    if (!is_error_of_a_parse() || torkettle_parse_u64("8080", 4, 0, &value) != TORKETTLE_OK || value != 8080)
        return 1;
    if (torkettle_parse_prefix_u64("80/tcp", 6, 0, &value, &count) != TORKETTLE_OK || value != 80 || count != 2)
        return 1;
    if (number_at(" -80/tcp", &end) != -80 || strcmp(end, "/tcp") != 0 || number_at("+", &end) != 0 || *end != '+')
        return 1;
    if (number_at("-9223372036854775809;", &end) != LONG_MIN || strcmp(end, ";") != 0 || errno != ERANGE ||
        number_at("7x", NULL) != 7)
        return 1;
    printf("sum %u\n", (unsigned)sum_of_column(text, strlen(text)));
    printf("sum %u\n", (unsigned)sum_by_read("1,2,3,x", 7));
    printf("sum %u\n", (unsigned)sum_of_lines("80\r\n44x\n443", 11));
    return 0;
}

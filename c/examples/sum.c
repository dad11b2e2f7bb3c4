/*
 * Adds up the numbers of its standard input, one on each line, and prints the lines that are not a number. It reads
 * pieces that end with a line feed, so an input of any length needs little memory.
 *
 *     $ cc -O2 sum.c $(pkg-config --cflags --libs torkettle) -o sum
 *     $ ./sum < sum.stdin
 *     17 numbers
 *     sum 4831941775
 *     $ printf '200\n40x\n' | ./sum
 *     line 2 is skipped: "40x"
 *     1 numbers
 *     sum 200
 *
 * sum.stdout has what the second command prints.
 */
#include <torkettle.h>

#include <stdio.h>
#include <string.h>

#define LONGEST_LINE ((size_t)1 << 20)

/* What was read so far. */
struct total {
    size_t lines;
    uint64_t numbers;
    int64_t sum;
    bool is_out_of_range;
};

static void add(struct total *total, int64_t number)
{
    const int64_t sum = total->sum;
    total->numbers++;
    if (number < 0 ? sum < INT64_MIN - number : sum > INT64_MAX - number)
        total->is_out_of_range = true;
    else
        total->sum += number;
}

/* Prints printable ASCII, and the other bytes as escapes. */
static void print_escaped(const char *text, size_t length)
{
    static const char special[] = "\t\r\n'\"\\", letters[] = "trn'\"\\";
    for (const char *at = text; at < text + length; at++) {
        const char *const found = memchr(special, *at, sizeof special - 1);
        if (found != NULL)
            printf("\\%c", letters[found - special]);
        else
            printf(' ' <= *at && *at <= '~' ? "%c" : "\\x%02x", (unsigned char)*at);
    }
}

/* Adds up whole lines. */
static void add_lines(struct total *total, const char *text, size_t length)
{
    torkettle_fields_i64 lines;
    int64_t numbers[256];
    size_t count;
    torkettle_fields_i64_init_lines(&lines, text, length);
    torkettle_fields_i64_starting_at(&lines, total->lines, 0);
    while ((count = torkettle_fields_i64_read(&lines, numbers, 256)) > 0 || lines.status != TORKETTLE_OK) {
        for (size_t at = 0; at < count; at++)
            add(total, numbers[at]);
        if (lines.status != TORKETTLE_OK) {
            printf("line %zu is skipped: \"", lines.index + 1);
            print_escaped(lines.text, lines.length);
            printf("\"\n");
        }
    }
    total->lines = lines.next_index;
}

/* Says whether a text begins with a line that is too long, not counting its end, which is \n or \r\n. */
static bool begins_with_too_long_a_line(const char *text, size_t length, bool has_ended)
{
    const char *const end = memchr(text, '\n', length);
    size_t line = end != NULL ? (size_t)(end - text) : length;
    if ((end != NULL || !has_ended) && line > 0 && text[line - 1] == '\r')
        line--;
    return line > LONGEST_LINE;
}

/* Skips a line that is too long, up to its line feed. `last` is the last byte that was read. */
static void skip_line(struct total *total, int last, FILE *input)
{
    while (last != EOF && last != '\n')
        last = getc(input);
    total->lines++;
    printf("line %zu is skipped: more than %zu bytes\n", total->lines, LONGEST_LINE);
}

/* Adds up the lines of a file. The last one may have no line feed. */
static void add_file(struct total *total, FILE *input)
{
    static char text[LONGEST_LINE + 2];
    size_t length = 0, count, lines;
    do {
        count = fread(text + length, 1, sizeof text - length, input);
        length += count;
        if (begins_with_too_long_a_line(text, length, count == 0)) {
            skip_line(total, (unsigned char)text[length - 1], input);
            length = 0;
        }
        lines = length;
        while (count > 0 && lines > 0 && text[lines - 1] != '\n')
            lines--;
        add_lines(total, text, lines);
        length -= lines;
        memmove(text, text + lines, length);
    } while (count > 0);
}

int main(void)
{
    struct total total = {0, 0, 0, false};
    add_file(&total, stdin);
    if (ferror(stdin)) {
        fprintf(stderr, "cannot read the input\n");
        return 1;
    }
    printf("%llu numbers\n", (unsigned long long)total.numbers);
    if (total.is_out_of_range)
        printf("sum out of range\n");
    else
        printf("sum %lld\n", (long long)total.sum);
    if (ferror(stdout) || fflush(stdout) != 0) {
        fprintf(stderr, "cannot write the output\n");
        return 1;
    }
    return 0;
}

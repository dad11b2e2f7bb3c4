typedef struct torkettle_found_NAME {
    TYPE value;
    size_t length;
} torkettle_found_NAME;

typedef struct torkettle_fields_NAME {
    torkettle_status status;
    size_t index, offset;
    const char *text;
    size_t length, next_index, next_offset;
    const char *rest;
    size_t rest_length;
    char separator, is_lines;
} torkettle_fields_NAME;

typedef struct torkettle_column_NAME {
    torkettle_status status;
    size_t index, offset;
    torkettle_fields_NAME fields;
} torkettle_column_NAME;

torkettle_found_NAME torkettle_whole_NAME(const char *text, size_t length, unsigned flags)
    TORKETTLE_SYMBOL_(whole_NAME);
torkettle_found_NAME torkettle_prefix_NAME(const char *text, size_t length, unsigned flags)
    TORKETTLE_SYMBOL_(prefix_NAME);
torkettle_found_NAME torkettle_whole_canonical_NAME(const char *text, size_t length)
    TORKETTLE_SYMBOL_(whole_canonical_NAME);
torkettle_found_NAME torkettle_prefix_json_NAME(const char *text, size_t length) TORKETTLE_SYMBOL_(prefix_json_NAME);
torkettle_found_NAME torkettle_next_NAME(torkettle_fields_NAME *fields) TORKETTLE_SYMBOL_(next_NAME);
torkettle_column_NAME torkettle_ended_NAME(const torkettle_fields_NAME *fields) TORKETTLE_SYMBOL_(ended_NAME);
torkettle_status torkettle_parse_pos_NAME(const char *text, size_t length, unsigned flags, TYPE *value)
    TORKETTLE_SYMBOL_(parse_pos_NAME);
torkettle_status torkettle_parse_prefix_pos_NAME(const char *text, size_t length, unsigned flags, TYPE *value,
                                                 size_t *count) TORKETTLE_SYMBOL_(parse_prefix_pos_NAME);
torkettle_error torkettle_parse_error_NAME(const char *text, size_t length, unsigned flags)
    TORKETTLE_SYMBOL_(parse_error_NAME);
torkettle_error torkettle_parse_prefix_error_NAME(const char *text, size_t length, unsigned flags)
    TORKETTLE_SYMBOL_(parse_prefix_error_NAME);
size_t torkettle_column_NAME_read(torkettle_column_NAME *column, TYPE *values, size_t count)
    TORKETTLE_SYMBOL_(column_NAME_read);
size_t torkettle_fields_NAME_read(torkettle_fields_NAME *fields, TYPE *values, size_t count)
    TORKETTLE_SYMBOL_(fields_NAME_read);

TK_INLINE torkettle_found_NAME torkettle_of_whole_NAME(const char *text, size_t length, unsigned flags)
{
    tk_option_u8 digit = tk_one_digit(tk_text(text, length));
    torkettle_found_NAME found = {TK_CAST(TYPE, digit.value), 1};
    if (digit.is_some)
        return found;
    return torkettle_whole_NAME(text, length, flags);
}

TK_INLINE torkettle_found_NAME torkettle_of_prefix_NAME(const char *text, size_t length, unsigned flags)
{
    tk_option_pair_WORD_size number = tk_quick_prefix_NAME_WORD(tk_text(text, length));
    torkettle_found_NAME found = {TK_CAST(TYPE, number.value.first), number.value.second};
    return number.is_some ? found : torkettle_prefix_NAME(text, length, flags);
}

/* Reads the next field, by a call unless `tk_quick_field` finds a number. The call gets a copy, so that compilers can
   keep the fields of a loop in registers. */
TK_INLINE torkettle_found_NAME torkettle_next_of_NAME(torkettle_fields_NAME *fields)
{
    tk_bytes rest = tk_text(fields->rest, fields->rest_length);
    tk_option_pair_WORD_size number = tk_quick_field_NAME_WORD(rest, TK_CAST(uint8_t, fields->separator));
    torkettle_found_NAME found = {TK_CAST(TYPE, number.value.first), 1};
    size_t count = number.value.second + 1;
    if (!number.is_some) {
        torkettle_fields_NAME copy = *fields;
        found = torkettle_next_NAME(&copy);
        *fields = copy;
        return found;
    }
    fields->status = TORKETTLE_OK;
    fields->next_index += 1;
    fields->next_offset += count;
    fields->rest += count;
    fields->rest_length -= count;
    return found;
}

/* @print parses.h, SAME: NAME */

static inline void torkettle_fields_NAME_init(torkettle_fields_NAME *fields, const char *text, size_t length,
                                              char separator) TORKETTLE_NOEXCEPT
{
    torkettle_fields_NAME start = {TORKETTLE_OK, 0, 0, NULL, 0, 0, 0, text, 0, separator, 0};
    start.rest_length = torkettle_rest_length(length, separator);
    *fields = start;
}

static inline void torkettle_fields_NAME_init_lines(torkettle_fields_NAME *fields, const char *text,
                                                    size_t length) TORKETTLE_NOEXCEPT
{
    torkettle_fields_NAME_init(fields, text, length, '\n');
    fields->is_lines = 1;
}

static inline void torkettle_fields_NAME_starting_at(torkettle_fields_NAME *fields, size_t index,
                                                     size_t offset) TORKETTLE_NOEXCEPT
{
    fields->next_index = index;
    fields->next_offset = offset;
}

static inline bool torkettle_fields_NAME_next(torkettle_fields_NAME *fields, TYPE *value) TORKETTLE_NOEXCEPT
{
    torkettle_found_NAME found = torkettle_next_of_NAME(fields);
    /* The caller also tests the status, so compilers do not warn that the value is not set. */
    if (fields->status == TORKETTLE_OK && found.length != 0)
        *value = found.value;
    return found.length != 0;
}

static inline void torkettle_column_NAME_init(torkettle_column_NAME *column, const char *text, size_t length,
                                              char separator) TORKETTLE_NOEXCEPT
{
    bool is_separator = tk_is_separator(TK_CAST(uint8_t, separator));
    torkettle_fields_NAME_init(&column->fields, text, length, separator);
    column->status = is_separator ? TORKETTLE_OK : TORKETTLE_INVALID;
    column->index = column->offset = is_separator ? 0 : SIZE_MAX;
}

static inline bool torkettle_column_NAME_next(torkettle_column_NAME *column, TYPE *value) TORKETTLE_NOEXCEPT
{
    torkettle_found_NAME found = torkettle_next_of_NAME(&column->fields);
    if (found.length == 2) {
        torkettle_fields_NAME bad = column->fields;
        *column = torkettle_ended_NAME(&bad);
    }
    if (found.length != 1)
        return false;
    *value = found.value;
    return true;
}

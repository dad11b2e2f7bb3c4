/* A slice that `quick_slice` does not read, in a function of its own: this one needs room for an error. */
TK_NOINLINE torkettle_found_NAME tk_rest_of_whole_NAME(const char *text, size_t length, unsigned flags)
{
    tk_bytes bytes = tk_text(text, length);
    tk_option_NAME long_ = tk_long_slice_NAME(bytes);
    if (long_.is_some)
        return TK_MAKE(torkettle_found_NAME, long_.value, length);
    tk_result_NAME found = tk_atoi_simd_parse_NAME(bytes, TK_ZEROES, TK_PLUS);
    if (!found.is_ok)
        return TK_MAKE(torkettle_found_NAME, TK_CAST(TYPE, tk_status_of(found.error)), 0);
    return TK_MAKE(torkettle_found_NAME, found.value, length);
}

TK_FAR torkettle_found_NAME torkettle_whole_NAME(const char *text, size_t length, unsigned flags) TORKETTLE_NOEXCEPT
{
    tk_option_NAME quick = tk_quick_slice_NAME(tk_text(text, length));
    if (quick.is_some)
        return TK_MAKE(torkettle_found_NAME, quick.value, length);
    return tk_rest_of_whole_NAME(text, length, flags);
}

torkettle_found_NAME torkettle_prefix_NAME(const char *text, size_t length, unsigned flags) TORKETTLE_NOEXCEPT
{
    tk_result_pair_NAME_size found = tk_atoi_simd_parse_prefix_NAME(tk_text(text, length), TK_ZEROES, TK_PLUS);
    if (!found.is_ok)
        return TK_MAKE(torkettle_found_NAME, TK_CAST(TYPE, tk_status_of(found.error)), 0);
    return TK_MAKE(torkettle_found_NAME, found.value.first, found.value.second);
}

torkettle_found_NAME torkettle_whole_canonical_NAME(const char *text, size_t length) TORKETTLE_NOEXCEPT
{
    tk_option_NAME found = tk_canonical_NAME(tk_text(text, length));
    return TK_MAKE(torkettle_found_NAME, found.value, found.is_some ? length : 0);
}

torkettle_found_NAME torkettle_prefix_json_NAME(const char *text, size_t length) TORKETTLE_NOEXCEPT
{
    tk_option_pair_NAME_bytes found = tk_json_integer_NAME(tk_text(text, length));
    size_t count = found.is_some ? length - found.value.second.len : 0;
    return TK_MAKE(torkettle_found_NAME, found.value.first, count);
}

torkettle_status torkettle_parse_pos_NAME(const char *text, size_t length, unsigned flags,
                                          TYPE *value) TORKETTLE_NOEXCEPT
{
    tk_result_NAME found = tk_atoi_simd_parse_pos_NAME(tk_text(text, length), TK_ZEROES);
    if (!found.is_ok)
        return tk_status_of(found.error);
    *value = found.value;
    return TORKETTLE_OK;
}

torkettle_status torkettle_parse_prefix_pos_NAME(const char *text, size_t length, unsigned flags, TYPE *value,
                                                 size_t *count) TORKETTLE_NOEXCEPT
{
    tk_result_pair_NAME_size found = tk_atoi_simd_parse_prefix_pos_NAME(tk_text(text, length), TK_ZEROES);
    if (!found.is_ok)
        return tk_status_of(found.error);
    *value = found.value.first;
    *count = found.value.second;
    return TORKETTLE_OK;
}

/* For programs that do not read the header. */
torkettle_status torkettle_called_parse_NAME(const char *text, size_t length, unsigned flags, TYPE *value)
    TORKETTLE_SYMBOL_(parse_NAME);
torkettle_status torkettle_called_parse_prefix_NAME(const char *text, size_t length, unsigned flags, TYPE *value,
                                                    size_t *count) TORKETTLE_SYMBOL_(parse_prefix_NAME);
torkettle_status torkettle_called_parse_NAME(const char *text, size_t length, unsigned flags,
                                             TYPE *value) TORKETTLE_NOEXCEPT
{
    return torkettle_parse_NAME(text, length, flags, value);
}

torkettle_status torkettle_called_parse_prefix_NAME(const char *text, size_t length, unsigned flags, TYPE *value,
                                                    size_t *count) TORKETTLE_NOEXCEPT
{
    torkettle_found_NAME found = torkettle_prefix_NAME(text, length, flags);
    if (found.length == 0)
        return TK_CAST(torkettle_status, found.value);
    *value = found.value;
    *count = found.length;
    return TORKETTLE_OK;
}

torkettle_error torkettle_parse_error_NAME(const char *text, size_t length, unsigned flags) TORKETTLE_NOEXCEPT
{
    tk_bytes bytes = tk_text(text, length);
    tk_result_NAME found = tk_atoi_simd_parse_NAME(bytes, TK_ZEROES, TK_PLUS);
    return found.is_ok ? TK_MAKE(torkettle_error, TORKETTLE_OK, 0, 0, 0, 0, 0) : tk_explained(found.error, bytes);
}

torkettle_error torkettle_parse_prefix_error_NAME(const char *text, size_t length, unsigned flags) TORKETTLE_NOEXCEPT
{
    tk_bytes bytes = tk_text(text, length);
    tk_result_pair_NAME_size found = tk_atoi_simd_parse_prefix_NAME(bytes, TK_ZEROES, TK_PLUS);
    return found.is_ok ? TK_MAKE(torkettle_error, TORKETTLE_OK, 0, 0, 0, 0, 0) : tk_explained(found.error, bytes);
}

TK_INLINE tk_fields tk_left_NAME(const torkettle_fields_NAME *fields)
{
    tk_bytes rest = tk_text(fields->rest, fields->rest_length);
    return fields->is_lines ? tk_fields_lines(rest) : tk_fields_new(rest, TK_CAST(uint8_t, fields->separator));
}

TK_INLINE void tk_go_on_NAME(torkettle_fields_NAME *fields, tk_fields left)
{
    tk_pair_size_size position = tk_fields_position(left);
    fields->next_index += position.first;
    fields->next_offset += position.second;
    fields->rest += position.second;
    fields->rest_length -= position.second;
}

TK_COLD void tk_refuse_field_NAME(torkettle_fields_NAME *fields, tk_field_error bad)
{
    fields->status = tk_status_of(bad.cause);
    fields->index = fields->next_index + bad.index;
    fields->offset = fields->next_offset + bad.place;
    fields->text = fields->rest + bad.place;
    fields->length = bad.text.len;
}

/* Tells of the separator as of one bad field, after which the fields end. */
TK_COLD void tk_refuse_separator_NAME(torkettle_fields_NAME *fields)
{
    fields->status = TORKETTLE_INVALID;
    fields->index = fields->offset = SIZE_MAX;
    fields->text = NULL;
    fields->length = fields->rest_length = 0;
    fields->separator = ',';
}

torkettle_found_NAME torkettle_next_NAME(torkettle_fields_NAME *fields) TORKETTLE_NOEXCEPT
{
    torkettle_found_NAME end = {0, 0}, bad = {0, 2};
    if (!fields->is_lines && !tk_is_separator(TK_CAST(uint8_t, fields->separator))) {
        tk_refuse_separator_NAME(fields);
        return bad;
    }
    fields->status = TORKETTLE_OK;
    if (fields->rest_length == 0)
        return end;
    tk_fields left = tk_left_NAME(fields);
    tk_option_result_NAME_field_error item = tk_fields_next_NAME(&left);
    if (!item.value.is_ok) {
        tk_refuse_field_NAME(fields, item.value.error);
        tk_go_on_NAME(fields, left);
        return bad;
    }
    tk_go_on_NAME(fields, left);
    return TK_MAKE(torkettle_found_NAME, item.value.value, 1);
}

size_t torkettle_fields_NAME_read(torkettle_fields_NAME *fields, TYPE *values, size_t count) TORKETTLE_NOEXCEPT
{
    size_t read = 0;
    fields->status = TORKETTLE_OK;
    if (fields->rest_length > 0 && count > 0) {
        tk_fields left = tk_left_NAME(fields);
        read = tk_fields_read_NAME(&left, tk_room_NAME_of(values, count));
        tk_go_on_NAME(fields, left);
    }
    if (read < count)
        torkettle_next_NAME(fields);
    return read;
}

/* What a column is after a bad field. */
torkettle_column_NAME torkettle_ended_NAME(const torkettle_fields_NAME *fields) TORKETTLE_NOEXCEPT
{
    unsigned flags = TORKETTLE_SKIP_ZEROES | TORKETTLE_SKIP_PLUS;
    torkettle_error error = torkettle_parse_error_NAME(fields->text, fields->length, flags);
    torkettle_column_NAME column = {fields->status, fields->index, fields->offset, *fields};
    if (fields->status == TORKETTLE_INVALID)
        column.offset += error.offset + error.count;
    column.fields.rest_length = 0;
    return column;
}

size_t torkettle_column_NAME_read(torkettle_column_NAME *column, TYPE *values, size_t count) TORKETTLE_NOEXCEPT
{
    size_t read = torkettle_fields_NAME_read(&column->fields, values, count);
    if (column->fields.status != TORKETTLE_OK)
        *column = torkettle_ended_NAME(&column->fields);
    return read;
}

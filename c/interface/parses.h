static inline torkettle_status torkettle_parse_NAME(const char *text, size_t length, unsigned flags,
                                                    TYPE *value) TORKETTLE_NOEXCEPT
{
    torkettle_found_SAME found = torkettle_of_whole_SAME(text, length, flags);
    if (found.length == 0)
        return torkettle_refusal(TK_CAST(torkettle_status, found.value));
    *value = found.value;
    return TORKETTLE_OK;
}

TK_INLINE torkettle_status torkettle_parse_prefix_NAME(const char *text, size_t length, unsigned flags, TYPE *value,
                                                       size_t *count) TORKETTLE_NOEXCEPT
{
    torkettle_found_SAME found = torkettle_of_prefix_SAME(text, length, flags);
    if (found.length == 0)
        return torkettle_refusal(TK_CAST(torkettle_status, found.value));
    *value = found.value;
    *count = found.length;
    return TORKETTLE_OK;
}

static inline bool torkettle_canonical_NAME(const char *text, size_t length, TYPE *value) TORKETTLE_NOEXCEPT
{
    torkettle_found_SAME found = torkettle_whole_canonical_SAME(text, length);
    if (found.length == 0)
        return false;
    *value = found.value;
    return true;
}

static inline bool torkettle_json_integer_NAME(const char *text, size_t length, TYPE *value,
                                               size_t *count) TORKETTLE_NOEXCEPT
{
    torkettle_found_SAME found = torkettle_prefix_json_SAME(text, length);
    if (found.length == 0)
        return false;
    *value = found.value;
    *count = found.length;
    return true;
}

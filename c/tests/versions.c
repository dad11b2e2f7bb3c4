/*
 * Two versions of the library in one process. .ci/c compiles this file as the function `first` and as `second`, each
 * with the header and the library of a version, and as the program that calls both.
 */
#ifdef FUNCTION
#include <torkettle.h>

/* Returns the version of the library that it calls. */
const char *FUNCTION(void)
{
    int64_t value = 0;
    return torkettle_parse_i64("-2345", 5, 0, &value) == TORKETTLE_OK && value == -2345 ? torkettle_version() : "none";
}
#else
#include <stdio.h>

const char *first(void);
const char *second(void);

int main(void)
{
    printf("%s %s\n", first(), second());
    return 0;
}
#endif

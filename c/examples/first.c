#include <stdio.h>
#include <torkettle.h>
int main(void)
{
    int64_t value = 0;
    if (torkettle_parse_i64("-2345", 5, 0, &value) == TORKETTLE_OK)
        printf("%lld\n", (long long)value);
}

/* All that the archive may ask of its surroundings (include/lamipeonga.h): linked against this alone it must lack nothing. */
#include <stddef.h>

void *memset(void *to, int byte, size_t bytes);

void *memset(void *to, int byte, size_t bytes)
{
    volatile unsigned char *at = to;

    while (bytes-- != 0)
        *at++ = (unsigned char)byte;
    return to;
}

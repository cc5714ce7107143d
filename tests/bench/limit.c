/* Plain C loops over the same bytes, as the limit of what a call can reach. */

#include <stddef.h>
#include <string.h>

/* Adds the 15 bytes that the checksum of every 16-byte header covers. */
size_t limit_headers(const unsigned char *image, size_t length)
{
    size_t sum = 0;
    size_t at, i;
    for (at = 0; at < length; at += 16) {
        sum += image[at];
        for (i = 2; i < 16; i++)
            sum += image[at + i];
    }
    return sum;
}

/* Counts the bytes 0x00 with memchr. */
size_t limit_ends(const unsigned char *bytes, size_t length)
{
    const unsigned char *at = bytes;
    const unsigned char *end = bytes + length;
    size_t count = 0;
    while (at < end) {
        at = memchr(at, 0, (size_t)(end - at));
        if (at == NULL)
            break;
        count++;
        at++;
    }
    return count;
}

/* Copies the bytes with memcpy. */
void limit_copy(unsigned char *to, const unsigned char *from, size_t length)
{
    memcpy(to, from, length);
}

/* Replaces the first old bytes of the area by the pair, moves the other used bytes and clears the rest. */
void limit_edit(unsigned char *area, size_t length, size_t used, size_t old,
                const unsigned char *pair, size_t new)
{
    size_t end = new + (used - old);
    memmove(area + new, area + old, used - old);
    memcpy(area, pair, new);
    memset(area + end, 0, length - end);
}

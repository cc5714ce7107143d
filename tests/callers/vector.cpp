// Lends vectors to the library: an empty one may have a null data(), and no pointer may be null.
#include <cstdio>
#include <vector>

#include "nvram.h"

typedef std::vector<uint8_t> bytes;

// The address of the first byte, or of a byte that is not looked at where there is none.
static uint8_t *start(bytes &lent)
{
    static uint8_t none;
    return lent.empty() ? &none : &lent[0];
}

int main()
{
    static const uint8_t card[] = "\x70\xFD\x00\x02" "common\0\0\0\0\0\0" "a=1\0\0\0\0\0\0\0\0\0\0\0\0";
    bytes image(card, card + sizeof card);
    bytes name(1, 'a'), empty;
    size_t offset, length;

    uint32_t set = nvram_set(start(image), image.size(), start(name), name.size(), start(empty), 0, &offset);
    uint32_t read = nvram_read(start(image), image.size(), start(name), name.size(), start(empty), 0, &offset, &length);
    std::printf("set to nothing: %s; read into nothing: %s, %lu bytes\n", nvram_error_text(set),
                nvram_error_text(read), (unsigned long)length);
    uint32_t check = nvram_check(start(empty), 0, &offset, &length);
    std::printf("check of nothing: %s\n", nvram_error_text(check));
    return 0;
}

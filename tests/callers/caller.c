/* Sets the variable `tally` of a card in memory, reads it back and counts the variables. */
#include <stdio.h>

#include "nvram.h"

/* One byte more than the longest image, so that a longer card is refused and not cut. */
static uint8_t image[NVRAM_IMAGE_MAX + 1];

static int refused(const char *call, uint32_t code, size_t offset)
{
    fprintf(stderr, "%s: %s (error %lu at offset %lu)\n", call, nvram_error_text(code),
            (unsigned long)code, (unsigned long)offset);
    return 1;
}

int main(int argc, char **argv)
{
    const uint8_t name[] = {'t', 'a', 'l', 'l', 'y'};
    const uint8_t value[] = {'1', '0', '4', '1'};
    uint8_t buffer[16];
    size_t image_len, offset, length, variables;
    uint32_t code;
    FILE *card;

    if (argc != 2) {
        fprintf(stderr, "usage: caller CARD\n");
        return 2;
    }
    card = fopen(argv[1], "rb");
    image_len = card == NULL ? 0 : fread(image, 1, sizeof image, card);
    if (card == NULL || ferror(card)) {
        perror(argv[1]);
        return 1;
    }
    fclose(card);

    code = nvram_set(image, image_len, name, sizeof name, value, sizeof value, &offset);
    if (code != NVRAM_DONE)
        return refused("set", code, offset);
    code = nvram_read(image, image_len, name, sizeof name, buffer, sizeof buffer, &offset, &length);
    if (code != NVRAM_DONE)
        return refused("read", code, offset);
    code = nvram_count(image, image_len, &offset, &variables);
    if (code != NVRAM_DONE)
        return refused("count", code, offset);
    printf("tally=%.*s, %lu variables\n", (int)length, (const char *)buffer, (unsigned long)variables);
    return 0;
}

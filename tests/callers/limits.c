/* Holds each limit of nvram.h to the library: done at the limit, refused one past it; where a partition's name ends; the
 * offset that a second `common` is refused at; the index that a wrong name is refused at; and the texts of its codes. */
#include <stdio.h>
#include <string.h>

#include "nvram.h"

static uint8_t image[NVRAM_IMAGE_MAX + NVRAM_BLOCK];
static uint8_t text[NVRAM_LISTING_MAX];
static const uint8_t value[] = {'1'};
static size_t offset, number, blocks;
static int failures;

/* Tells of an answer that is not the wanted one. */
static void want(const char *limit, uint32_t got, uint32_t wanted)
{
    if (got != wanted) {
        printf("%s: %lu, wanted %lu\n", limit, (unsigned long)got, (unsigned long)wanted);
        failures++;
    }
}

/* Fills the image with free partitions of one block, whose names and listing are the longest. */
static void free_blocks(void)
{
    static const uint8_t header[NVRAM_BLOCK + 1] = "\x7F\x1A\x00\x01wwwwwwwwwwww";
    size_t at;
    for (at = 0; at < sizeof image; at += NVRAM_BLOCK)
        memcpy(image + at, header, NVRAM_BLOCK);
}

/* An image's length, and a partition's name. */
static void partitions(void)
{
    const uint8_t *name = (const uint8_t *)"wwwwwwwwwwwww";
    free_blocks();
    want("NVRAM_IMAGE_MAX", nvram_check(image, NVRAM_IMAGE_MAX, &offset, &number), NVRAM_DONE);
    want("NVRAM_IMAGE_MAX", (uint32_t)number, NVRAM_IMAGE_MAX / NVRAM_BLOCK);
    want("NVRAM_IMAGE_MAX + NVRAM_BLOCK", nvram_check(image, NVRAM_IMAGE_MAX + NVRAM_BLOCK, &offset, &number),
         NVRAM_IMAGE_LENGTH);
    want("NVRAM_BLOCK", nvram_check(image, NVRAM_BLOCK, &offset, &number), NVRAM_DONE);
    want("NVRAM_BLOCK - 1", nvram_check(image, NVRAM_BLOCK - 1, &offset, &number), NVRAM_IMAGE_LENGTH);
    want("NVRAM_PARTITION_NAME_MAX",
         nvram_find(image, NVRAM_BLOCK, 0x7F, name, NVRAM_PARTITION_NAME_MAX, &offset, &number, &blocks), NVRAM_DONE);
    want("NVRAM_PARTITION_NAME_MAX + 1",
         nvram_find(image, NVRAM_BLOCK, 0x7F, name, NVRAM_PARTITION_NAME_MAX + 1, &offset, &number, &blocks),
         NVRAM_NO_PARTITION);
    name = (const uint8_t *)"wwwwwwwwwwww";
    want("NVRAM_PARTITION_NAME_MAX and an ending 0x00",
         nvram_find(image, NVRAM_BLOCK, 0x7F, name, NVRAM_PARTITION_NAME_MAX + 1, &offset, &number, &blocks),
         NVRAM_NO_PARTITION);
}

/* A listed image's length, and the room for its text. */
static void listing(void)
{
    size_t longest;
    free_blocks();
    want("NVRAM_LISTING_MAX", nvram_listing(image, NVRAM_LISTED_IMAGE_MAX, text, NVRAM_LISTING_MAX, &longest),
         NVRAM_DONE);
    want("NVRAM_LISTED_IMAGE_MAX", memcmp(text, "at blocks", 9) == 0, 1);
    want("the listing's length", nvram_listing(image, NVRAM_LISTED_IMAGE_MAX, text, longest, &number), NVRAM_DONE);
    want("the listing's length - 1", nvram_listing(image, NVRAM_LISTED_IMAGE_MAX, text, longest - 1, &number),
         NVRAM_SHORT_BUFFER);
    nvram_listing(image, NVRAM_LISTED_IMAGE_MAX + 1, text, NVRAM_LISTING_MAX, &number);
    want("NVRAM_LISTED_IMAGE_MAX + 1", number == 9 && memcmp(text, "too long\n", 9) == 0, 1);
}

/* Fills the image with a partition of six blocks for the variables, and answers its length. */
static size_t common_blocks(void)
{
    static const uint8_t header[NVRAM_BLOCK + 1] = "\x70\x02\x00\x06" "common\0\0\0\0\0";
    memset(image, 0, sizeof image);
    memcpy(image, header, NVRAM_BLOCK);
    return 6 * NVRAM_BLOCK;
}

/* The partition at the second block is found by this name, or none is. */
static void found(const char *label, const char *name, size_t name_len, uint32_t code)
{
    const size_t length = 7 * NVRAM_BLOCK;
    number = blocks = NVRAM_IMAGE_MAX;
    want(label, nvram_find(image, length, 0x70, (const uint8_t *)name, name_len, &offset, &number, &blocks), code);
    want(label, (uint32_t)number, code == NVRAM_DONE ? NVRAM_BLOCK : 0);
    want(label, (uint32_t)blocks, code == NVRAM_DONE ? 6 : 0);
}

/* A partition's name ends at its 0x00, a stored one with a leftover byte after it too, and so does a caller's. */
static void partition_names(void)
{
    static const uint8_t header[NVRAM_BLOCK + 1] = "\x70\x7A\x00\x06" "common\0\0x\0\0";
    const size_t length = 7 * NVRAM_BLOCK;
    free_blocks();
    memset(image + NVRAM_BLOCK, 0, 6 * NVRAM_BLOCK);
    memcpy(image + NVRAM_BLOCK, header, NVRAM_BLOCK);
    found("a leftover byte", "common", 6, NVRAM_DONE);
    found("a string with its end", "common", 7, NVRAM_DONE);
    found("a leftover byte in the caller's name", "common\0y", 8, NVRAM_DONE);
    found("twelve bytes", "common\0yyyyy", NVRAM_PARTITION_NAME_MAX, NVRAM_DONE);
    found("thirteen bytes", "common\0yyyyyy", NVRAM_PARTITION_NAME_MAX + 1, NVRAM_NO_PARTITION);
    found("a beginning", "comm", 4, NVRAM_NO_PARTITION);
    found("a beginning with its end", "comm\0on", 7, NVRAM_NO_PARTITION);
    found("a longer name", "commons", 7, NVRAM_NO_PARTITION);
    want("a count", nvram_count(image, length, &offset, &number), NVRAM_DONE);
    want("no variables", (uint32_t)number, 0);
    want("a set", nvram_set(image, length, value, 1, value, 1, &offset), NVRAM_DONE);
    want("a count after it", nvram_count(image, length, &offset, &number), NVRAM_DONE);
    want("one variable", (uint32_t)number, 1);
    want("the header after it", memcmp(image + NVRAM_BLOCK, header, NVRAM_BLOCK) == 0, 1);
}

/* Fills the image with one free block and this many partitions of two blocks for the variables, the second one with a
 * leftover byte in its name, and answers its length. */
static size_t commons(size_t count)
{
    static const uint8_t plain[NVRAM_BLOCK + 1] = "\x70\xFD\x00\x02" "common\0\0\0\0\0";
    static const uint8_t leftover[NVRAM_BLOCK + 1] = "\x70\x76\x00\x02" "common\0x\0\0\0";
    size_t i;
    free_blocks();
    for (i = 0; i < count; i++) {
        uint8_t *at = image + (1 + 2 * i) * NVRAM_BLOCK;
        memset(at, 0, 2 * NVRAM_BLOCK);
        memcpy(at, i == 1 ? leftover : plain, NVRAM_BLOCK);
        memcpy(at + NVRAM_BLOCK, "1=a", 3);
    }
    return (1 + 2 * count) * NVRAM_BLOCK;
}

/* Each call on variables answers this code at this offset, and a refused one keeps the image and the buffer. */
static void on_variables(const char *label, size_t length, uint32_t wanted, size_t at)
{
    static uint8_t before[7 * NVRAM_BLOCK];
    uint32_t codes[5];
    size_t offsets[5], i;
    memcpy(before, image, sizeof before);
    text[0] = 'x';
    number = blocks = NVRAM_IMAGE_MAX;
    codes[0] = nvram_count(image, length, &offsets[0], &number);
    codes[1] = nvram_read(image, length, value, 1, text, 1, &offsets[1], &blocks);
    codes[2] = nvram_normalize(image, length, &offsets[2]);
    codes[3] = nvram_set(image, length, value, 1, value, 1, &offsets[3]);
    codes[4] = nvram_remove(image, length, value, 1, &offsets[4]);
    for (i = 0; i < sizeof codes / sizeof *codes; i++) {
        want(label, codes[i], wanted);
        want(label, (uint32_t)offsets[i], (uint32_t)at);
    }
    want(label, (uint32_t)number, wanted == NVRAM_DONE);
    want(label, (uint32_t)blocks, wanted == NVRAM_DONE);
    want(label, text[0], wanted == NVRAM_DONE ? 'a' : 'x');
    want(label, memcmp(before, image, sizeof before) == 0, wanted != NVRAM_DONE);
}

/* A second partition for the variables is refused at its header, a third one changes nothing, and the other calls take
 * them; a wrong name and a later header's fault come before it, the first area's fault after it. */
static void second_partition(void)
{
    const uint8_t *name = (const uint8_t *)"common";
    const size_t second = 3 * NVRAM_BLOCK, third = 5 * NVRAM_BLOCK, length = 7 * NVRAM_BLOCK;
    on_variables("one common", commons(1), NVRAM_DONE, 0);
    on_variables("two common", commons(2), NVRAM_REPEATED_PARTITION, second);
    on_variables("three common", commons(3), NVRAM_REPEATED_PARTITION, second);
    want("a check", nvram_check(image, length, &offset, &number), NVRAM_DONE);
    want("four partitions", (uint32_t)number, 4);
    want("a find", nvram_find(image, length, 0x70, name, 6, &offset, &number, &blocks), NVRAM_DONE);
    want("the first header", (uint32_t)number, NVRAM_BLOCK);
    image[2 * NVRAM_BLOCK] = 'A';
    on_variables("a stored name", length, NVRAM_REPEATED_PARTITION, second);
    want("a wrong name", nvram_read(image, length, (const uint8_t *)"aB", 2, text, 1, &offset, &number), NVRAM_BAD_NAME);
    want("its index", (uint32_t)offset, 1);
    image[third + 1] ^= 1;
    on_variables("a later checksum", length, NVRAM_CHECKSUM, third);
    want("the text of NVRAM_REPEATED_PARTITION", strcmp(nvram_error_text(NVRAM_REPEATED_PARTITION),
         "a second partition has signature 0x70 and the name common") == 0, 1);
}

/* A variable's name. */
static void variables(void)
{
    const size_t length = common_blocks();
    uint8_t name[NVRAM_VARIABLE_NAME_MAX + 1];
    memset(name, 'n', sizeof name);
    want("NVRAM_VARIABLE_NAME_MAX", nvram_set(image, length, name, NVRAM_VARIABLE_NAME_MAX, value, 1, &offset),
         NVRAM_DONE);
    want("NVRAM_VARIABLE_NAME_MAX + 1", nvram_set(image, length, name, NVRAM_VARIABLE_NAME_MAX + 1, value, 1, &offset),
         NVRAM_BAD_NAME);
}

/* A name is refused at this index by each call that takes one, whatever the image. */
static void refused_at(const char *label, const uint8_t *name, size_t name_len, size_t index)
{
    const size_t lengths[] = {common_blocks(), NVRAM_BLOCK - 1};
    size_t i;
    for (i = 0; i < sizeof lengths / sizeof *lengths; i++) {
        offset = number = NVRAM_IMAGE_MAX;
        want(label, nvram_read(image, lengths[i], name, name_len, text, 1, &offset, &number), NVRAM_BAD_NAME);
        want(label, (uint32_t)offset, (uint32_t)index);
        want(label, (uint32_t)number, 0);
        offset = NVRAM_IMAGE_MAX;
        want(label, nvram_set(image, lengths[i], name, name_len, value, 1, &offset), NVRAM_BAD_NAME);
        want(label, (uint32_t)offset, (uint32_t)index);
        offset = NVRAM_IMAGE_MAX;
        want(label, nvram_remove(image, lengths[i], name, name_len, &offset), NVRAM_BAD_NAME);
        want(label, (uint32_t)offset, (uint32_t)index);
    }
}

/* The index of a name's first wrong byte: of no byte, of each byte of the longest name, and of the byte past it. */
static void wrong_bytes(void)
{
    uint8_t name[NVRAM_VARIABLE_NAME_MAX + 2];
    size_t at;
    memset(name, 'n', sizeof name);
    refused_at("an empty name", name, 0, 0);
    refused_at("a name of 32 bytes", name, NVRAM_VARIABLE_NAME_MAX + 1, NVRAM_VARIABLE_NAME_MAX);
    name[NVRAM_VARIABLE_NAME_MAX + 1] = 'N';
    refused_at("a name of 33 bytes", name, NVRAM_VARIABLE_NAME_MAX + 2, NVRAM_VARIABLE_NAME_MAX);
    refused_at("an equals sign alone", (const uint8_t *)"=", 1, 0);
    refused_at("an equals sign inside", (const uint8_t *)"a=b", 3, 1);
    refused_at("two wrong bytes", (const uint8_t *)"boot Device", 11, 4);
    for (at = NVRAM_VARIABLE_NAME_MAX; at-- > 0;) {
        name[at] = 'N';
        refused_at("a wrong byte in a name of 31 bytes", name, NVRAM_VARIABLE_NAME_MAX, at);
        refused_at("a wrong byte in a name of 33 bytes", name, NVRAM_VARIABLE_NAME_MAX + 2, at);
    }
}

/* Each code of the table has a text, and no other number has one. */
static void codes(void)
{
    char label[32];
    uint32_t code;
    for (code = 0; code < 256; code++) {
        sprintf(label, "the text of %lu", (unsigned long)code);
        want(label, strcmp(nvram_error_text(code), "unknown code") != 0,
             code <= NVRAM_CHECKSUM || (code >= NVRAM_NO_PARTITION && code <= NVRAM_SHORT_BUFFER) ||
                 code == NVRAM_REPEATED_PARTITION);
    }
    want("the text of no code", strcmp(nvram_error_text(0xFFFFFFFF), "unknown code") == 0, 1);
}

/* The version's text is its three numbers. */
static void version(void)
{
    char made[32];
    sprintf(made, "%d.%d.%d", NVRAM_VERSION_MAJOR, NVRAM_VERSION_MINOR, NVRAM_VERSION_PATCH);
    want("NVRAM_VERSION", strcmp(made, NVRAM_VERSION) == 0, 1);
}

int main(void)
{
    partitions();
    listing();
    partition_names();
    second_partition();
    variables();
    wrong_bytes();
    codes();
    version();
    return failures != 0;
}

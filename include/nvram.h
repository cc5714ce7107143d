/*
 * NVRAM images laid out by the LoPAR rules: partitions, and the variables of
 * the partition with signature 0x70 and name "common".
 *
 * Each function returns its error code, 0 where the call is done.
 *
 * - The caller lends every buffer; nothing is kept, allocated or freed.
 * - No pointer is null, also where its length is 0, and no two arguments
 *   overlap.
 * - Outputs are always stored. The offset is 0 where the table below names
 *   none; it counts from the image's first byte, and with NVRAM_BAD_NAME from
 *   the first byte of the caller's name. Every other output is 0 with every
 *   code from 1 up.
 * - A call that answers a code from 1 up has changed no byte of the image or
 *   of the buffer.
 * - No call keeps a state; calls on different images may run at once, and so
 *   may calls on one image that only read it.
 */
#ifndef NVRAM_H
#define NVRAM_H

#include <stddef.h>
#include <stdint.h>

#ifdef __cplusplus
extern "C" {
#endif

/* The version of this header and of the library. */
#define NVRAM_VERSION_MAJOR 0
#define NVRAM_VERSION_MINOR 4
#define NVRAM_VERSION_PATCH 0
#define NVRAM_VERSION "0.4.0"

/* Limits, in bytes. */
#define NVRAM_BLOCK 16                /* a block, and a header */
#define NVRAM_IMAGE_MAX 1048576       /* the longest image */
#define NVRAM_PARTITION_NAME_MAX 12   /* the longest partition name */
#define NVRAM_VARIABLE_NAME_MAX 31    /* the longest variable name */
#define NVRAM_LISTED_IMAGE_MAX 65536  /* the longest image that is listed */
#define NVRAM_LISTING_MAX 131072      /* room for the listing of every image */

/* Error codes, and the offset that each answers; nvram_error_text says them in
 * words. They are tested in the order 11, 1, the headers from byte 0 with 2 to
 * 4 at each, 20, 6, the area from its first byte with 7 to 10, then 12, 13, 14.
 * With NVRAM_BAD_NAME the byte is the first one that is not allowed; the index
 * is 0 for an empty name, and NVRAM_VARIABLE_NAME_MAX for a name that is too
 * long and good so far. NVRAM_REPEATED_PARTITION is for the calls on variables
 * alone; a third such partition changes nothing. */
enum nvram_code {
    NVRAM_DONE = 0,                /* 0 */
    NVRAM_IMAGE_LENGTH = 1,        /* 0 */
    NVRAM_ZERO_LENGTH = 2,         /* header's offset */
    NVRAM_PAST_END = 3,            /* header's offset */
    NVRAM_CHECKSUM = 4,            /* header's offset */
    /* 5 was for a checksum that agrees and is zero, which no header of a
     * non-zero length has; the number is not used again. */
    NVRAM_NO_PARTITION = 6,        /* 0 */
    NVRAM_AREA_END = 7,            /* offset just past the area */
    NVRAM_STORED_NAME = 8,         /* offset of the byte */
    NVRAM_ESCAPE = 9,              /* offset of that second byte */
    NVRAM_REPEATED = 10,           /* offset of the later pair */
    NVRAM_BAD_NAME = 11,           /* index of the byte in the name */
    NVRAM_NO_VARIABLE = 12,        /* 0 */
    NVRAM_NO_ROOM = 13,            /* 0 */
    NVRAM_SHORT_BUFFER = 14,       /* 0 */
    /* 15 to 19 are answered by no call on an image. */
    NVRAM_REPEATED_PARTITION = 20  /* offset of the second one's header */
};

/* A code in words, a constant string; "unknown code" for any other number. */
static inline const char *nvram_error_text(uint32_t code)
{
    switch (code) {
    case NVRAM_DONE:
        return "done";
    case NVRAM_IMAGE_LENGTH:
        return "the image's length is not a multiple of 16 from 16 to 1048576";
    case NVRAM_ZERO_LENGTH:
        return "a partition's length field is zero";
    case NVRAM_PAST_END:
        return "a partition runs past the image's end";
    case NVRAM_CHECKSUM:
        return "a header's stored and computed checksum differ";
    case NVRAM_NO_PARTITION:
        return "the partition is not found";
    case NVRAM_AREA_END:
        return "the area ends inside a pair, or where a pair or the end should begin";
    case NVRAM_STORED_NAME:
        return "a stored name breaks the name rule";
    case NVRAM_ESCAPE:
        return "a stored 0xFF is followed by 0x00 or 0x80";
    case NVRAM_REPEATED:
        return "a name stands a second time";
    case NVRAM_BAD_NAME:
        return "the caller's variable name breaks the name rule";
    case NVRAM_NO_VARIABLE:
        return "the variable is not found";
    case NVRAM_NO_ROOM:
        return "the pairs and the ending 0x00 after the edit exceed the area";
    case NVRAM_SHORT_BUFFER:
        return "the buffer is shorter than the value or the text";
    case NVRAM_REPEATED_PARTITION:
        return "a second partition has signature 0x70 and the name common";
    default:
        return "unknown code";
    }
}

/* Checks an image: the number of partitions that cover it. Codes 0 to 4. */
uint32_t nvram_check(const uint8_t *image, size_t image_len,
                     size_t *offset, size_t *partitions);

/* The partition of an index from 0, in image order: the offset of its header,
 * its length in blocks of 16 bytes, header included, and its signature. Its
 * data area is the bytes from header + NVRAM_BLOCK up to
 * header + NVRAM_BLOCK * blocks.
 * Codes 0 to 4 and 6. */
uint32_t nvram_partition(const uint8_t *image, size_t image_len, size_t index,
                         size_t *offset, size_t *header, size_t *blocks,
                         uint8_t *signature);

/* The first partition of a signature and a name, which is padded with 0x00 to
 * NVRAM_PARTITION_NAME_MAX bytes; a longer one matches none. Two names are the
 * same where they agree up to and with the first 0x00 of either, or in all
 * bytes where neither has one. Codes 0 to 4 and 6. */
uint32_t nvram_find(const uint8_t *image, size_t image_len, uint8_t signature,
                    const uint8_t *name, size_t name_len,
                    size_t *offset, size_t *header, size_t *blocks);

/* The calls on variables, from nvram_count to nvram_normalize, refuse an image
 * with a second partition of signature 0x70 and name "common"; the calls above
 * and nvram_listing take it. */

/* The number of variables. Codes 0 to 4, 6 to 10 and 20. */
uint32_t nvram_count(const uint8_t *image, size_t image_len,
                     size_t *offset, size_t *variables);

/* Reads a variable: its value goes to the start of the buffer, and the bytes
 * after it are kept. Codes 0 to 4, 6 to 12, 14 and 20. */
uint32_t nvram_read(const uint8_t *image, size_t image_len,
                    const uint8_t *name, size_t name_len,
                    uint8_t *buffer, size_t buffer_len,
                    size_t *offset, size_t *length);

/* Sets a variable: its pair is replaced where it stands, or added after the
 * last. A name has 1 to NVRAM_VARIABLE_NAME_MAX bytes of 0x21 to 0x7E without
 * A to Z and without / \ : [ ] @ =; a value has any bytes, or none. Codes 0 to
 * 4, 6 to 11, 13 and 20. */
uint32_t nvram_set(uint8_t *image, size_t image_len,
                   const uint8_t *name, size_t name_len,
                   const uint8_t *value, size_t value_len, size_t *offset);

/* Removes a variable; the pairs after it close up. Codes 0 to 4, 6 to 12 and
 * 20. */
uint32_t nvram_remove(uint8_t *image, size_t image_len,
                      const uint8_t *name, size_t name_len, size_t *offset);

/* Stores every value in its canonical form, the shortest, and zeroes what
 * follows the pairs. Codes 0 to 4, 6 to 10 and 20. */
uint32_t nvram_normalize(uint8_t *image, size_t image_len, size_t *offset);

/* Writes a listing of the partitions to the start of the text buffer; a line
 * "refused N at P", or "too long" above NVRAM_LISTED_IMAGE_MAX bytes, where
 * there is none. Codes 0 and 14. */
uint32_t nvram_listing(const uint8_t *image, size_t image_len,
                       uint8_t *text, size_t text_len, size_t *length);

#ifdef __cplusplus
}
#endif

#endif

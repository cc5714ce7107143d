/* Measures the deepest stack of each call by running it on a painted stack. */

#define _POSIX_C_SOURCE 200809L

#include <pthread.h>
#include <stdint.h>
#include <stdio.h>
#include <stdlib.h>
#include <string.h>

#include "nvram.h"

#define BLOCK NVRAM_BLOCK
#define LONGEST NVRAM_IMAGE_MAX
#define STACK (4096 * 1024)
#define PAGE 65536
#define GAP 16384

/* The image that every call starts from, the copy it works on, and the buffer it may fill. */
static uint8_t first_image[LONGEST];
static uint8_t image[LONGEST];
static uint8_t buffer[LONGEST];
static size_t image_len;
static size_t variables;

/* The answers of the call under test. */
static size_t offset, number, blocks;
static uint8_t signature;
static volatile uint32_t code;

/* Writes one header with its checksum. */
static void put_header(uint8_t *at, uint8_t sign, size_t count, const char *name)
{
    unsigned sum = 0;
    size_t i;
    memset(at, 0, BLOCK);
    at[0] = sign;
    at[2] = (uint8_t)(count >> 8);
    at[3] = (uint8_t)count;
    memcpy(at + 4, name, strlen(name));
    for (i = 0; i < BLOCK; i++)
        sum += at[i];
    at[1] = (uint8_t)((sum - 1) % 255 + 1);
}

/* Writes the three bytes of the name with this number. */
static void put_name(uint8_t *at, size_t index)
{
    static const char letters[] =
        "!\"#$%&'()*+,-.0123456789;<>?^_`abcdefghijklmnopqrstuvwxyz{|}~";
    size_t base = sizeof letters - 1;
    at[0] = (uint8_t)letters[index / base / base % base];
    at[1] = (uint8_t)letters[index / base % base];
    at[2] = (uint8_t)letters[index % base];
}

/* Makes an image with variables of six bytes each. */
static void make_image(size_t total, size_t count)
{
    uint8_t *at = first_image + BLOCK;
    size_t i;
    memset(first_image, 0, sizeof first_image);
    put_header(first_image, 0x70, total - 1, "common");
    put_header(first_image + (total - 1) * BLOCK, 0x7F, 1, "wwwwwwwwwwww");
    for (i = 0; i < count; i++) {
        put_name(at, i);
        at[3] = '=';
        at[4] = '1';
        at += 6;
    }
    image_len = total * BLOCK;
    variables = count;
}

static void call_nothing(void) { code = 0; }
static void call_check(void) { code = nvram_check(image, image_len, &offset, &number); }
static void call_count(void) { code = nvram_count(image, image_len, &offset, &number); }
static void call_normalize(void) { code = nvram_normalize(image, image_len, &offset); }

static void call_partition(void)
{
    code = nvram_partition(image, image_len, 1, &offset, &number, &blocks, &signature);
}

static void call_find(void)
{
    code = nvram_find(image, image_len, 0x7F, (const uint8_t *)"wwwwwwwwwwww", 12, &offset,
                      &number, &blocks);
}

static void call_read(void)
{
    uint8_t name[3];
    put_name(name, variables - 1);
    code = nvram_read(image, image_len, name, 3, buffer, sizeof buffer, &offset, &number);
}

static void call_set(void)
{
    static const uint8_t value[] = {'a', 0, 0, 0, 0xFF, 0xFF, 'b', 'c', 0};
    uint8_t name[3];
    put_name(name, 0);
    code = nvram_set(image, image_len, name, 3, value, sizeof value, &offset);
}

static void call_remove(void)
{
    uint8_t name[3];
    put_name(name, 0);
    code = nvram_remove(image, image_len, name, 3, &offset);
}

static void call_listing(void)
{
    code = nvram_listing(image, image_len, buffer, sizeof buffer, &number);
}

/* A call and its name in the table. */
struct job {
    const char *name;
    void (*call)(void);
};

static const struct job jobs[] = {
    {"check", call_check},   {"partition", call_partition}, {"find", call_find},
    {"count", call_count},   {"read", call_read},           {"set", call_set},
    {"remove", call_remove}, {"normalize", call_normalize}, {"listing", call_listing},
};

#define JOBS (sizeof jobs / sizeof jobs[0])

/* Makes the call below a gap, which is deeper than the thread's own start and end reach. */
static void *run(void *argument)
{
    const struct job *job = argument;
    volatile uint8_t gap[GAP];
    gap[0] = 0;
    job->call();
    gap[GAP - 1] = gap[0];
    return NULL;
}

/* Ends the program with a text. */
static void fail(const char *text)
{
    fprintf(stderr, "stack: %s\n", text);
    exit(1);
}

/* The bytes of a painted stack that a thread with this call touches. */
static size_t touched(uint8_t *stack, const struct job *job, uint8_t paint)
{
    pthread_attr_t attributes;
    pthread_t thread;
    size_t at = 0;
    memcpy(image, first_image, sizeof image);
    memset(stack, paint, STACK);
    if (pthread_attr_init(&attributes) != 0 ||
        pthread_attr_setstack(&attributes, stack, STACK) != 0 ||
        pthread_create(&thread, &attributes, run, (void *)job) != 0)
        fail("no thread could be started");
    pthread_join(thread, NULL);
    pthread_attr_destroy(&attributes);
    if (code != 0)
        fail("a call answered with an error code");
    while (at < STACK && stack[at] == paint)
        at++;
    if (at == 0)
        fail("a call needs more stack than it was given");
    return STACK - at;
}

/* The greater count of two paints, since a call may write the paint's own byte. */
static size_t deepest(uint8_t *stack, const struct job *job)
{
    size_t one = touched(stack, job, 0xA5);
    size_t other = touched(stack, job, 0x5A);
    return one > other ? one : other;
}

int main(void)
{
    static const struct job nothing = {"nothing", call_nothing};
    /* The blocks of each image, and its variables. */
    static const size_t sizes[3][2] = {{66, 150}, {4096, 10000}, {65536, 150000}};
    size_t depth[3][JOBS];
    size_t size, i;
    void *stack;
    if (posix_memalign(&stack, PAGE, STACK) != 0)
        fail("no memory");
    for (size = 0; size < 3; size++) {
        size_t empty;
        make_image(sizes[size][0], sizes[size][1]);
        empty = deepest(stack, &nothing);
        for (i = 0; i < JOBS; i++)
            depth[size][i] = deepest(stack, &jobs[i]) - empty;
    }
    printf("Bytes of stack that each call touches at its deepest, measured on a painted stack, "
           "less those of a thread that makes no call.\n\n");
    printf("| Call | 1 KiB, 150 variables | 64 KiB, 10,000 variables | 1 MiB, 150,000 variables |\n"
           "|---|--:|--:|--:|\n");
    for (i = 0; i < JOBS; i++)
        printf("| %s | %zu | %zu | %zu |\n", jobs[i].name, depth[0][i], depth[1][i], depth[2][i]);
    free(stack);
    return 0;
}

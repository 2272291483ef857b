/*
 * Every function of the header, every number that it can answer, and the caller's memory around
 * each call: the module and the buffers stand between bytes that no call may touch. Here stand the
 * caller's memory and main; the parts stand in boundary_calls.c, boundary_data.c, boundary_hours.c
 * and boundary_checked.c.
 */
#include "boundary.h"
#include "layout.h"

#include <stdio.h>
#include <string.h>

static unsigned checks, failures;

void check_at(const char *file, int line, const char *what, bool holds)
{
    checks++;
    if (!holds) {
        fprintf(stderr, "%s:%d: %s\n", file, line, what);
        failures++;
    }
}

/* ---- the caller's memory ---- */

#define WORDS 3 /* words before and after the module; odd, so that it is aligned to 4 and no more */

static _Alignas(16) uint32_t arena[WORDS + PD3120_MODULE_SIZE / 4 + WORDS];
pd3120_module *const box = (pd3120_module *)(arena + WORDS);
uint8_t memory[AROUND + ROOM + AROUND];
uint8_t *const lent = memory + AROUND;

/* Whether memory has canaries but for the first `length` bytes that are lent. */
bool intact_past(size_t length)
{
    for (size_t i = 0; i < sizeof memory; i++)
        if ((i < AROUND || i >= AROUND + length) && memory[i] != CANARY)
            return false;
    return true;
}

bool arena_intact(void)
{
    const uint8_t *bytes = (const uint8_t *)arena;
    for (size_t i = 0; i < WORDS * 4; i++)
        if (bytes[i] != CANARY || bytes[sizeof arena - 1 - i] != CANARY)
            return false;
    return true;
}

/* A read of `length` lent bytes; it may change those that it answers, and no others. */
uint32_t wire_read(uint16_t swno, size_t length)
{
    memset(memory, CANARY, sizeof memory);
    uint32_t code = pd3120_read(box, swno, lent, length);
    CHECK(intact_past(pd3120_length(code)));
    CHECK(arena_intact());
    return code;
}

bool reads(uint16_t swno, const uint8_t *expected, size_t length)
{
    uint32_t code = wire_read(swno, ROOM);
    return pd3120_number(code) == PD3120_DONE && pd3120_length(code) == length && memcmp(lent, expected, length) == 0;
}

/* The number of a write, whose bytes stay as they are. */
uint32_t wire_write(uint16_t swno, const uint8_t *bytes, size_t length)
{
    memset(memory, CANARY, sizeof memory);
    memcpy(lent, bytes, length);
    uint32_t code = pd3120_write(box, swno, lent, length);
    CHECK(intact_past(length) && memcmp(lent, bytes, length) == 0);
    CHECK(arena_intact());
    CHECK(pd3120_length(code) == 0);
    return pd3120_number(code);
}

/*
 * Whether two boxes store the same image and read alike in every register, but for WDTimer, which
 * every wire call presets. Works on copies.
 */
bool alike(const pd3120_module *one, const pd3120_module *other)
{
    pd3120_module a = *one, b = *other;
    uint8_t bytes_a[PD3120_IMAGE_SIZE] = {0}, bytes_b[PD3120_IMAGE_SIZE] = {0};

    if (pd3120_store(&a, bytes_a, sizeof bytes_a) != pd3120_store(&b, bytes_b, sizeof bytes_b))
        return false;
    if (memcmp(bytes_a, bytes_b, sizeof bytes_a) != 0)
        return false;
    for (uint16_t swno = 0; swno <= 0x13F; swno++) {
        if (pd3120_read(&a, swno, bytes_a, PD3120_TABLE_SIZE) != pd3120_read(&b, swno, bytes_b, PD3120_TABLE_SIZE))
            return false;
        if (memcmp(bytes_a, bytes_b, PD3120_TABLE_SIZE) != 0)
            return false;
    }
    return true;
}

/* Whether a byte of a module lies between its fields, where nothing is known. */
static bool padding(size_t at)
{
    const size_t service = at - offsetof(struct module, service), channels = at - offsetof(struct module, channels);

    if (at < offsetof(struct module, service))
        return at > offsetof(struct shared, write_enable) && at < offsetof(struct shared, save_ticks);
    if (at < offsetof(struct module, channels))
        return service >= offsetof(struct service, his) + sizeof(struct service_bits);
    if (at >= offsetof(struct module, data_channel))
        return false;
    const size_t byte = channels % sizeof(struct channel);
    if (byte < offsetof(struct channel, counter))
        return byte >= offsetof(struct channel, errors) + sizeof(struct errors);
    return byte == offsetof(struct channel, timetable) + 1;
}

/* Whether two boxes have the same bytes in every field. */
bool identical(const pd3120_module *one, const pd3120_module *other)
{
    const uint8_t *a = (const uint8_t *)one, *b = (const uint8_t *)other;

    for (size_t at = 0; at < PD3120_MODULE_SIZE; at++)
        if (!padding(at) && a[at] != b[at])
            return false;
    return true;
}

/* ---- setup images ---- */

void put32(uint8_t *at, uint32_t value)
{
    for (int i = 0; i < 4; i++)
        at[i] = (uint8_t)(value >> (24 - 8 * i));
}

/* Ends an image of a length with its sum. */
void put_sum(uint8_t *bytes, size_t length)
{
    unsigned sum = 0;
    for (size_t i = 0; i < length - 2; i++)
        sum += bytes[i];
    bytes[length - 2] = (uint8_t)(sum >> 8);
    bytes[length - 1] = (uint8_t)sum;
}

/*
 * An image whose channels differ in all but ChConfig: watchdog off, every channel an output. RealA,
 * RealB and the forty Reals of the tables are 1 and the next forty-one Reals after it.
 */
static void make_image(uint8_t *bytes)
{
    uint8_t *at = bytes;
    *at++ = 1;
    memcpy(at, "\x11\x10\x12\x13", 4); /* ModuleConfig */
    put32(at + 4, 0xA00);              /* WDPreset, 10 s */
    at += 8;
    *at++ = 16;
    for (unsigned channel = 1; channel <= 16; channel++, at += 44) {
        memcpy(at, "\x00\x10\x00\x00", 4);                     /* ChConfig */
        put32(at + 4, 0x100 * channel);                        /* FBPreset */
        put32(at + 8, 0x1000 * channel);                       /* OutPreset */
        put32(at + 12, 0x3D000000 + channel);                  /* MinCurrent */
        put32(at + 16, 0x3F000000 + channel);                  /* MaxCurrent */
        for (unsigned i = 20; i < 36; i++)
            at[i] = (uint8_t)(channel * 16 + i);               /* 8 user, 4 maintenance and 4 user bytes */
        put32(at + 36, channel % 2 != 0 ? channel : -channel); /* Counter */
        put32(at + 40, 0xF0000000 + channel);                  /* operating count */
    }
    *at++ = 1;
    for (unsigned real = 0; real < 42; real++, at += 4)
        put32(at, 0x3F800000 + real);
    *at = 1;
    put_sum(bytes, PD3120_IMAGE_SIZE);
}

/* The same without the section of the data channel. */
static void make_older(uint8_t *bytes)
{
    memcpy(bytes, image, PD3120_OLDER_IMAGE_SIZE);
    bytes[PD3120_OLDER_IMAGE_SIZE - 3] = 1;
    put_sum(bytes, PD3120_OLDER_IMAGE_SIZE);
}

uint8_t image[PD3120_IMAGE_SIZE];
uint8_t older[PD3120_OLDER_IMAGE_SIZE];

uint32_t power_up(const uint8_t *bytes, size_t length)
{
    memset(memory, CANARY, sizeof memory);
    memcpy(lent, bytes, length);
    uint32_t code = pd3120_power_up(box, lent, length);
    CHECK(intact_past(length) && memcmp(lent, bytes, length) == 0);
    CHECK(arena_intact());
    return code;
}

int main(void)
{
    memset(arena, CANARY, sizeof arena);
    memset(box, 0, sizeof *box);
    CHECK((uintptr_t)box % 16 == 12);
    make_image(image);
    make_older(older);

    answers();
    images();
    wire_calls();
    written_times();
    samples();
    older_images();
    table_bytes();
    data_registers();
    lookups();
    minutes_and_windows();
    refused_hours();
    opening_hours();
    closed_control();
    unset_hours();
    checked_hours();
    exact_blocks();
    checked_calls();

    if (failures != 0) {
        fprintf(stderr, "boundary: %u of %u checks failed\n", failures, checks);
        return 1;
    }
    printf("boundary: %u checks passed\n", checks);
    return 0;
}

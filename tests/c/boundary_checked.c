/*
 * Blocks of the exact size, and the calls that check their pointers.
 */
#include "boundary.h"

#include <math.h>
#include <stdlib.h>
#include <string.h>

/* Blocks of the exact size, where valgrind sees a byte too many. */
void exact_blocks(void)
{
    pd3120_module *module = calloc(1, PD3120_MODULE_SIZE);
    uint8_t *setup = malloc(PD3120_IMAGE_SIZE), *stored = calloc(1, PD3120_IMAGE_SIZE);
    if (module == NULL || setup == NULL || stored == NULL)
        exit(2);
    memcpy(setup, image, PD3120_IMAGE_SIZE);
    CHECK(pd3120_power_up(module, setup, PD3120_IMAGE_SIZE) == PD3120_DONE);
    CHECK(alike(module, module));
    for (uint16_t swno = 0; swno <= 0x140; swno++)
        for (size_t length = 0; length <= PD3120_TABLE_SIZE + 1; length++) {
            uint8_t *buffer = calloc(1, length + (length == 0));
            if (buffer == NULL)
                exit(2);
            uint32_t code = pd3120_checked_read(module, swno, length == 0 ? NULL : buffer, length);
            CHECK(pd3120_number(code) <= PD3120_BUFFER_TOO_SHORT && pd3120_length(code) <= length);
            code = pd3120_checked_write(module, swno, length == 0 ? NULL : buffer, length);
            CHECK(pd3120_number(code) <= PD3120_NOT_ALLOWED);
            free(buffer);
        }
    CHECK(pd3120_sample(module, 16, true, 1.0f) == PD3120_DONE);
    pd3120_tick(module);
    CHECK(!pd3120_output(module, 16));
    CHECK(pd3120_look_up_number(pd3120_look_up(module, 2, 1.0f)) == PD3120_DONE);
    CHECK(pd3120_set_minute(module, 1) == PD3120_DONE);
    for (size_t count = 0; count <= PD3120_WINDOWS + 1; count++) {
        uint32_t *windows = calloc(count + (count == 0), sizeof *windows);
        if (windows == NULL)
            exit(2);
        uint32_t number = count <= PD3120_WINDOWS ? PD3120_DONE : PD3120_TOO_MANY_WINDOWS;
        CHECK(pd3120_checked_set_windows(module, 16, windows, count) == number);
        free(windows);
        pd3120_tick(module);
    }
    CHECK(pd3120_number(pd3120_store(module, stored, PD3120_IMAGE_SIZE)) == PD3120_DONE);
    CHECK(pd3120_power_up(module, stored, PD3120_IMAGE_SIZE) == PD3120_DONE);
    uint8_t *short_setup = malloc(PD3120_OLDER_IMAGE_SIZE);
    if (short_setup == NULL)
        exit(2);
    memcpy(short_setup, older, PD3120_OLDER_IMAGE_SIZE);
    CHECK(pd3120_power_up(module, short_setup, PD3120_OLDER_IMAGE_SIZE) == PD3120_DONE);
    free(short_setup);
    free(stored);
    free(setup);
    free(module);
}

void checked_calls(void)
{
    static const uint8_t history[12] = {0x80};
    uint8_t bytes[PD3120_IMAGE_SIZE] = {0};
    bool on = true;
    float level = -1.0f;

    /* As the plain calls, where the pointers are good. */
    pd3120_module twin = {{0}};
    CHECK(pd3120_checked_power_up(box, image, sizeof image) == pd3120_power_up(&twin, image, sizeof image));
    CHECK(alike(box, &twin));
    CHECK(pd3120_checked_store(box, bytes, sizeof bytes) == (uint32_t)PD3120_IMAGE_SIZE << 8);
    CHECK(memcmp(bytes, image, sizeof image) == 0);
    CHECK(pd3120_checked_write(box, 0x10, history, 1) == pd3120_write(&twin, 0x10, history, 1));
    CHECK(pd3120_checked_read(box, 0x10, bytes, 1) == (1u << 8 | 1u << 25) && bytes[0] == 0x80);
    CHECK(pd3120_checked_sample(box, 1, true, 1.5f) == pd3120_sample(&twin, 1, true, 1.5f));
    CHECK(pd3120_checked_sample(box, 17, true, 1.5f) == PD3120_NO_CHANNEL);
    CHECK(pd3120_checked_sample(box, 1, false, NAN) == PD3120_NOT_FINITE);
    CHECK(alike(box, &twin));
    CHECK(pd3120_checked_tick(box) == PD3120_DONE);
    CHECK(!alike(box, &twin));
    pd3120_tick(&twin);
    CHECK(alike(box, &twin));
    CHECK(pd3120_checked_output(box, 2, &on) == PD3120_DONE && !on);
    CHECK(pd3120_checked_output(box, 1, &on) == PD3120_DONE && on);
    CHECK(pd3120_checked_look_up(box, 2, 1.0f, &level) == PD3120_DONE);
    CHECK(level == pd3120_look_up_real(pd3120_look_up(&twin, 2, 1.0f)) && level > 1.0f);
    CHECK(pd3120_checked_look_up(box, 0, 1.0f, &level) == PD3120_NO_TABLE && level == 0.0f);
    level = -1.0f;
    CHECK(pd3120_checked_look_up(box, 2, NAN, &level) == PD3120_NOT_ALLOWED && level == 0.0f);
    level = -1.0f;

    /* No module, and modules that are not aligned. */
    pd3120_module before = *box;
    for (uintptr_t off = 0; off < PD3120_MODULE_ALIGN; off++) {
        pd3120_module *bad = off == 0 ? NULL : (pd3120_module *)((uintptr_t)box + off);
        CHECK(pd3120_checked_power_up(bad, image, sizeof image) == PD3120_BAD_MODULE);
        CHECK(pd3120_checked_store(bad, bytes, sizeof bytes) == PD3120_BAD_MODULE);
        CHECK(pd3120_checked_read(bad, 0x10, bytes, 1) == PD3120_BAD_MODULE);
        CHECK(pd3120_checked_write(bad, 0x10, bytes, 1) == PD3120_BAD_MODULE);
        CHECK(pd3120_checked_sample(bad, 1, false, 3.0f) == PD3120_BAD_MODULE);
        CHECK(pd3120_checked_tick(bad) == PD3120_BAD_MODULE);
        CHECK(pd3120_checked_output(bad, 2, &on) == PD3120_BAD_MODULE && on);
        CHECK(pd3120_checked_look_up(bad, 2, 1.0f, &level) == PD3120_BAD_MODULE && level == -1.0f);
        CHECK(pd3120_checked_read(bad, 0x10, NULL, 1) == PD3120_BAD_MODULE);
    }

    /* A length without a buffer, and buffers that overlap the module by a byte or lie inside it. */
    uint8_t *start = (uint8_t *)box, *end = start + PD3120_MODULE_SIZE;
    struct {
        uint8_t *buffer;
        size_t length;
    } bad[] = {{NULL, 1}, {NULL, PD3120_IMAGE_SIZE}, {start - 3, 4}, {start, 1}, {start + 99, 4}, {end - 1, 4},
               {start - 1, PD3120_MODULE_SIZE + 2}};
    for (size_t i = 0; i < sizeof bad / sizeof bad[0]; i++) {
        CHECK(pd3120_checked_power_up(box, bad[i].buffer, bad[i].length) == PD3120_BAD_BUFFER);
        CHECK(pd3120_checked_store(box, bad[i].buffer, bad[i].length) == PD3120_BAD_BUFFER);
        CHECK(pd3120_checked_read(box, 0x42, bad[i].buffer, bad[i].length) == PD3120_BAD_BUFFER);
        CHECK(pd3120_checked_write(box, 0x42, bad[i].buffer, bad[i].length) == PD3120_BAD_BUFFER);
    }
    CHECK(pd3120_checked_output(box, 1, NULL) == PD3120_BAD_BUFFER);
    CHECK(pd3120_checked_look_up(box, 2, 1.0f, NULL) == PD3120_BAD_BUFFER);
    CHECK(pd3120_checked_look_up(box, 2, 1.0f, (float *)start) == PD3120_BAD_BUFFER);
    CHECK(pd3120_number(PD3120_BAD_BUFFER) == PD3120_BAD_BUFFER && pd3120_length(PD3120_BAD_BUFFER) == 0);
    CHECK(alike(box, &before) && arena_intact());

    /* Buffers that touch the module are no overlap. */
    CHECK(pd3120_number(pd3120_checked_read(box, 0x42, start - 4, 4)) == PD3120_DONE);
    CHECK(pd3120_number(pd3120_checked_read(box, 0x42, end, 4)) == PD3120_DONE);
    CHECK(memcmp(start - 4, image + 10 + 3 * 44 + 36, 4) == 0 && memcmp(end, start - 4, 4) == 0);
    memset(start - 4, CANARY, 4);
    memset(end, CANARY, 4);
    CHECK(alike(box, &before) && arena_intact());

    /* No buffer, and no length: the box answers. */
    CHECK(pd3120_number(pd3120_checked_read(box, 0x42, NULL, 0)) == PD3120_BUFFER_TOO_SHORT);
    CHECK(pd3120_number(pd3120_checked_read(box, 0x140, NULL, 0)) == PD3120_BEYOND);
    CHECK(pd3120_number(pd3120_checked_write(box, 0x42, NULL, 0)) == PD3120_WRONG_LENGTH);
    CHECK(pd3120_checked_store(box, NULL, 0) == PD3120_NO_ROOM);
    CHECK(alike(box, &before));
    CHECK(pd3120_checked_power_up(box, NULL, 0) == PD3120_IMAGE_LENGTH);
    CHECK(reads(0x0F, history, 12));
}

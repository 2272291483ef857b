/*
 * The calls that trust their pointers: answers and reasons, setup images, wire calls, samples and
 * ticks.
 */
#include "boundary.h"

#include <math.h>
#include <string.h>

void answers(void)
{
    const uint32_t code = 7u | 886u << 8 | 1u << 24;
    CHECK(pd3120_number(code) == 7);
    CHECK(pd3120_length(code) == 886);
    CHECK(pd3120_data_error(code) && !pd3120_general_error(code));
    CHECK(!pd3120_data_error(1u << 25) && pd3120_general_error(1u << 25));
    CHECK(pd3120_number(0xFF00) == 0 && pd3120_length(0x03FFFFFF) == 0xFFFF);

    /* A lookup's code, and a Real that is no number. */
    const uint64_t looked_up = (uint64_t)15 << 32 | 0x3FC00000u;
    CHECK(pd3120_look_up_number(looked_up) == 15);
    CHECK(pd3120_look_up_real(looked_up) == 1.5f);
    CHECK(pd3120_look_up_number(0x7FC00000u) == 0 && isnan(pd3120_look_up_real(0x7FC00000u)));

    static const uint8_t numbers[] = {0,  1,  2,  3,  4,  5,  6,  7,   8,   9, 10,
                                      11, 12, 13, 14, 15, 18, 19, 254, 255, 16};
    for (size_t i = 0; i < sizeof numbers; i++)
        for (size_t j = 0; j < i; j++)
            CHECK(strcmp(pd3120_reason(numbers[i]), pd3120_reason(numbers[j])) != 0);
    CHECK(pd3120_reason(code) == pd3120_reason(7));
}

void images(void)
{
    pd3120_module zero = {{0}}, refused = {{0}};
    static const uint8_t history[12] = {0x80};

    /* A refused image gives the box of all-zero settings, with His bit 7; zero memory has no such bit. */
    CHECK(power_up(image, 0) == PD3120_IMAGE_LENGTH);
    CHECK(!alike(box, &zero));
    refused = *box;
    CHECK(reads(0x0F, history, 12));
    CHECK(alike(box, &zero));

    CHECK(power_up(image, PD3120_IMAGE_SIZE) == PD3120_DONE);
    CHECK(!alike(box, &refused));
    CHECK(power_up(image, PD3120_IMAGE_SIZE - 1) == PD3120_IMAGE_LENGTH);
    CHECK(alike(box, &refused));
    uint8_t wrong[PD3120_IMAGE_SIZE + 1] = {0};
    memcpy(wrong, image, sizeof image);
    CHECK(power_up(wrong, PD3120_IMAGE_SIZE + 1) == PD3120_IMAGE_LENGTH);
    wrong[9] = 15;
    put_sum(wrong, PD3120_IMAGE_SIZE);
    CHECK(power_up(wrong, PD3120_IMAGE_SIZE) == PD3120_IMAGE_COUNTS);
    CHECK(alike(box, &refused));
    wrong[9] = 16;
    CHECK(power_up(wrong, PD3120_IMAGE_SIZE) == PD3120_IMAGE_SUM);
    CHECK(alike(box, &refused));
    wrong[2] = 1; /* Functions of ModuleConfig */
    put_sum(wrong, PD3120_IMAGE_SIZE);
    CHECK(power_up(wrong, PD3120_IMAGE_SIZE) == PD3120_IMAGE_VALUES);
    CHECK(alike(box, &refused));

    /* Stored again, the bytes are the same. */
    CHECK(power_up(image, PD3120_IMAGE_SIZE) == PD3120_DONE);
    pd3120_module before = *box;
    memset(memory, CANARY, sizeof memory);
    CHECK(pd3120_store(box, lent, PD3120_IMAGE_SIZE - 1) == PD3120_NO_ROOM);
    CHECK(intact_past(0));
    uint32_t code = pd3120_store(box, lent, ROOM);
    CHECK(pd3120_number(code) == PD3120_DONE && pd3120_length(code) == PD3120_IMAGE_SIZE);
    CHECK(!pd3120_data_error(code) && !pd3120_general_error(code));
    CHECK(intact_past(PD3120_IMAGE_SIZE) && memcmp(lent, image, sizeof image) == 0);
    memset(memory, CANARY, sizeof memory);
    CHECK(pd3120_store(box, lent, PD3120_IMAGE_SIZE) == code);
    CHECK(intact_past(PD3120_IMAGE_SIZE) && memcmp(lent, image, sizeof image) == 0);
    CHECK(arena_intact() && alike(box, &before));
}

void wire_calls(void)
{
    static const uint8_t zeros[12] = {0}, yes[1] = {1}, two[1] = {2}, on[1] = {0x80};
    static const uint8_t settings[4] = {0x01, 0x10, 2, 0}, input[4] = {0};
    static const uint8_t counter[4] = {0xFE, 0xDC, 0xBA, 0x98};

    CHECK(power_up(image, PD3120_IMAGE_SIZE) == PD3120_DONE);
    pd3120_module before = *box;

    /* Every refusal of a wire call; the box is as before. */
    CHECK(pd3120_number(wire_read(0x140, ROOM)) == PD3120_BEYOND);
    CHECK(pd3120_number(wire_read(0xFFFF, ROOM)) == PD3120_BEYOND);
    CHECK(wire_write(0x140, zeros, 4) == PD3120_BEYOND);
    CHECK(pd3120_number(wire_read(0x01, ROOM)) == PD3120_UNLISTED);
    CHECK(pd3120_number(wire_read(0x120, ROOM)) == PD3120_UNLISTED);
    CHECK(wire_write(0x120, zeros, 4) == PD3120_UNLISTED);
    CHECK(pd3120_number(wire_read(0x13F, ROOM)) == PD3120_UNLISTED);
    CHECK(wire_write(0x4E, zeros, 4) == PD3120_UNLISTED);
    CHECK(wire_write(0x00, zeros, 2) == PD3120_NOT_WRITABLE);
    CHECK(wire_write(0x42, counter, 3) == PD3120_WRONG_LENGTH);
    CHECK(wire_write(0x42, zeros, 5) == PD3120_WRONG_LENGTH);
    CHECK(pd3120_number(wire_read(0x42, 3)) == PD3120_BUFFER_TOO_SHORT);
    CHECK(wire_write(0x49, settings, 4) == PD3120_NOT_ENABLED);
    CHECK(wire_write(0x0D, two, 1) == PD3120_NOT_ALLOWED);
    CHECK(alike(box, &before));

    /* A refusal starts the watchdog again: 10 s, less one tick, and 10 s once more. */
    static const uint8_t ticked[4] = {0x41, 0x1F, 0x80, 0}, full[4] = {0x41, 0x20, 0, 0};
    pd3120_tick(box);
    CHECK(reads(0x08, ticked, 4));
    pd3120_tick(box);
    CHECK(pd3120_number(wire_read(0x140, ROOM)) == PD3120_BEYOND);
    CHECK(reads(0x08, full, 4));

    /* What is written is read, into a buffer of the exact length and into a longer one. */
    CHECK(wire_write(0x42, counter, 4) == PD3120_DONE);
    CHECK(pd3120_length(wire_read(0x42, 4)) == 4 && memcmp(lent, counter, 4) == 0);
    CHECK(reads(0x42, counter, 4));
    CHECK(wire_write(0x0D, yes, 1) == PD3120_DONE);
    CHECK(reads(0x0D, yes, 1));
    CHECK(wire_write(0x49, settings, 4) == PD3120_DONE);
    CHECK(reads(0x49, settings, 4));
    CHECK(reads(0x4C, image + 10 + 3 * 44 + 20, 8));
    CHECK(reads(0x00, (const uint8_t[]){0x01, 0x3F}, 2));

    /* GeneralError: His bit 7 of the power-up, until CommonError is written with zeros. */
    uint32_t code = wire_read(0x42, 4);
    CHECK(!pd3120_data_error(code) && pd3120_general_error(code));
    CHECK(wire_write(0x0F, zeros, 12) == PD3120_DONE);
    code = wire_read(0x42, 4);
    CHECK(!pd3120_data_error(code) && !pd3120_general_error(code));
    /* DataError: PrgError, as an input has no OutFlag. A refusal shows both as well. */
    CHECK(wire_write(0x59, input, 4) == PD3120_DONE);
    CHECK(pd3120_write(box, 0x50, on, 1) == (PD3120_DONE | 1u << 24 | 1u << 25));
    code = wire_read(0x42, 4);
    CHECK(pd3120_data_error(code) && pd3120_general_error(code));
    code = wire_read(0x140, 4);
    CHECK(code == (PD3120_BEYOND | 1u << 24 | 1u << 25));
}

/* A time written is read as that of the nearest count, of 1/256 s or 1/8 s; at a tie, of the even one. */
void written_times(void)
{
    static const struct {
        uint16_t swno;
        float written, read;
    } times[] = {
        {0x48, 0.3f, 77 / 256.0f},          {0x47, 0.1f, 26 / 256.0f},        {0x41, 1.5f / 256, 2 / 256.0f},
        {0x41, -1.5f / 256, -2 / 256.0f},   {0x46, 2.5f / 256, 2 / 256.0f},   {0x46, -0.5f / 256, 0.0f},
        {0x13A, 3.5f / 256, 4 / 256.0f},    {0x13B, 0.7f, 179 / 256.0f},      {0x44, 0.3f, 2 / 8.0f},
        {0x44, 1.5f / 8, 2 / 8.0f},         {0x44, 2.5f / 8, 2 / 8.0f},       {0x41, -8388608.0f, -8388608.0f},
        {0x48, 8388607.5f, 8388607.5f},
    };
    static const uint8_t yes[1] = {1};
    uint8_t bytes[4];

    CHECK(power_up(image, PD3120_IMAGE_SIZE) == PD3120_DONE);
    CHECK(wire_write(0x0D, yes, 1) == PD3120_DONE);
    for (size_t i = 0; i < sizeof times / sizeof times[0]; i++) {
        pd3120_put_real(bytes, times[i].written);
        CHECK(wire_write(times[i].swno, bytes, 4) == PD3120_DONE);
        pd3120_put_real(bytes, times[i].read);
        CHECK(reads(times[i].swno, bytes, 4));
        /* And what is read can be written back. */
        CHECK(wire_write(times[i].swno, bytes, 4) == PD3120_DONE);
        CHECK(reads(times[i].swno, bytes, 4));
    }
    /* Less than half a count below 0 would become 0, but the range comes first. */
    pd3120_put_real(bytes, -1 / 1024.0f);
    CHECK(wire_write(0x48, bytes, 4) == PD3120_NOT_ALLOWED);
    CHECK(wire_write(0x44, bytes, 4) == PD3120_NOT_ALLOWED);
    CHECK(wire_write(0x41, bytes, 4) == PD3120_DONE);
}

/* The currents of samples, on channel 16 of a box just powered up. */
static void sampled_currents(void)
{
    static const uint8_t on[1] = {0x80};

    /* A current arrives with all its bits. */
    static const struct {
        float amperes;
        uint32_t bits;
    } measured[] = {{1.5f, 0x3FC00000}, {-0.0f, 0x80000000}, {0x1p-149f, 1}, {0.1f, 0x3DCCCCCD}, {-0x1.fffffep127f, 0xFF7FFFFF}};
    for (size_t i = 0; i < sizeof measured / sizeof measured[0]; i++) {
        uint8_t bytes[4];
        put32(bytes, measured[i].bits);
        CHECK(pd3120_sample(box, 16, false, measured[i].amperes) == PD3120_DONE);
        CHECK(reads(0x103, bytes, 4));
    }

    /* Output follows OutFlag; 2 A does not trip, more does. */
    CHECK(!pd3120_output(box, 16));
    CHECK(wire_write(0x100, on, 1) == PD3120_DONE);
    for (uint8_t channel = 0; channel < 255; channel++)
        CHECK(pd3120_output(box, channel) == (channel == 16));
    CHECK(pd3120_sample(box, 16, false, 2.0f) == PD3120_DONE);
    CHECK(pd3120_output(box, 16));

    /* One sample trips and counts its rise. Counter of channel 16 is -16 in the image. */
    CHECK(reads(0x102, (const uint8_t[]){0xFF, 0xFF, 0xFF, 0xF0}, 4));
    CHECK(pd3120_sample(box, 16, true, 2.5f) == PD3120_DONE);
    CHECK(!pd3120_output(box, 16));
    CHECK(reads(0x102, (const uint8_t[]){0xFF, 0xFF, 0xFF, 0xF1}, 4));
    CHECK(reads(0x103, (const uint8_t[]){0x40, 0x20, 0, 0}, 4));
}

void samples(void)
{
    static const uint8_t one[4] = {0, 0, 0, 1}, three[4] = {0, 0, 0, 3};

    CHECK(power_up(image, PD3120_IMAGE_SIZE) == PD3120_DONE);
    pd3120_module before = *box;
    static const uint8_t outside[] = {0, 17, 128, 255};
    for (size_t i = 0; i < sizeof outside; i++) {
        CHECK(pd3120_sample(box, outside[i], true, 1.0f) == PD3120_NO_CHANNEL);
        CHECK(pd3120_sample(box, outside[i], true, NAN) == PD3120_NO_CHANNEL);
        CHECK(!pd3120_output(box, outside[i]));
    }
    CHECK(pd3120_sample(box, 1, true, NAN) == PD3120_NOT_FINITE);
    CHECK(pd3120_sample(box, 1, true, INFINITY) == PD3120_NOT_FINITE);
    CHECK(pd3120_sample(box, 16, true, -INFINITY) == PD3120_NOT_FINITE);
    CHECK(alike(box, &before));

    /* A level is any true or false of C. Counter of channel 1 is 1 in the image. */
    int truth = 256;
    CHECK(reads(0x12, one, 4));
    CHECK(pd3120_sample(box, 1, true, 0.0f) == PD3120_DONE);
    CHECK(reads(0x10, (const uint8_t[]){0x40}, 1));
    CHECK(pd3120_sample(box, 1, true, 0.0f) == PD3120_DONE);
    CHECK(pd3120_sample(box, 1, false, 0.0f) == PD3120_DONE);
    CHECK(reads(0x10, (const uint8_t[]){0x00}, 1));
    CHECK(pd3120_sample(box, 1, truth, 0.0f) == PD3120_DONE);
    CHECK(reads(0x10, (const uint8_t[]){0x40}, 1));
    CHECK(reads(0x12, three, 4));

    sampled_currents();

    /* Each tick adds 8 to FreeRunTimer. */
    for (int tick = 0; tick < 3; tick++)
        pd3120_tick(box);
    CHECK(reads(0x07, (const uint8_t[]){0, 0, 0, 24}, 4));
    CHECK(arena_intact());
}

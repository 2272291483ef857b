/*
 * The calls on a box whose stack is measured, and the boxes that they are made on.
 */
#include "stack.h"

#include <float.h>
#include <math.h>
#include <string.h>

/* ---- boxes ---- */

static uint32_t put(uint16_t swno, const uint8_t *bytes, size_t length)
{
    return pd3120_number(pd3120_write(&box, swno, bytes, length));
}

/* A table that rises in each pair, and one that falls. */
static void set_up_tables(void)
{
    pd3120_pair rising[PD3120_PAIRS], falling[PD3120_PAIRS];
    uint8_t bytes[PD3120_TABLE_SIZE];

    for (int i = 0; i < PD3120_PAIRS; i++) {
        rising[i] = (pd3120_pair){(float)i / 3, (float)i * (float)i};
        falling[i] = (pd3120_pair){-(float)i, (float)i};
    }
    pd3120_put_table(bytes, rising);
    check(put(0x13C, bytes, sizeof bytes) == PD3120_DONE, "LookUp1 is not written");
    pd3120_put_table(bytes, falling);
    check(put(0x13D, bytes, sizeof bytes) == PD3120_DONE, "LookUp2 is not written");
}

/*
 * Every channel with a function, two references and Enablebits of its own, some with errors; and both
 * tables.
 */
void set_up(uint8_t functions)
{
    static const uint8_t yes[1] = {1}, watchdog_off[4] = {0, 0x10, 0, 0}, flags[1] = {0x88};
    static const uint8_t tenth[4] = {0x3D, 0xCC, 0xCC, 0xCD};

    pd3120_power_up(&box, yes, sizeof yes);
    check(put(0x0D, yes, 1) == PD3120_DONE, "WriteEnable is not written");
    check(put(0x09, watchdog_off, 4) == PD3120_DONE, "ModuleConfig is not written");
    set_up_tables();
    for (uint8_t channel = 1; channel <= 16; channel++) {
        const uint16_t swno = (uint16_t)(channel * 0x10);
        const uint8_t config[4] = {(uint8_t)(channel * 0x1D), functions, channel % 16 + 1, (channel + 1) % 16 + 1};
        check(put(swno + 9, config, 4) == PD3120_DONE, "ChConfig is not written");
        put(swno + 7, tenth, 4);
        put(swno + 8, tenth, 4);
        put(swno + 0xA, tenth, 4);
        put(swno, flags, 1);
        pd3120_sample(&box, channel, channel % 2 == 0, (float)channel / 7);
    }
}

/* ---- what is measured, from the box as it is ---- */

#define LAST_SWNO 0x15F
#define LONGEST (PD3120_TABLE_SIZE + 1) /* bytes; one more than the longest register */

/* Flags, Reals and settings, allowed and not; a register takes as many bytes of one as it has. */
static const uint8_t values[][PD3120_TABLE_SIZE] = {
    {0x00},
    {0x01},
    {0x02},
    {0x80},
    {0xC8},
    {0x3D, 0xCC, 0xCC, 0xCD},
    {0x3F, 0x80},
    {0xBF, 0x80},
    {0x46, 0x12, 0x34, 0x56},
    {0x4A, 0xFF, 0xFF, 0xFF},
    {0x7F, 0x7F, 0xFF, 0xFF},
    {0x00, 0x00, 0x00, 0x01},
    {0x7F, 0x80},
    {0xFF, 0x80},
    {0x7F, 0xC0},
    {0x00, 0x10, 2, 3},
    {0x01, 0x20, 16, 0},
    {0x24, 0x30, 0, 1},
    {0x40, 0x50},
    {0x00, 0x40},
    {0x00, 0x10, 17},
    {0xFF, 0xFF, 0xFF, 0xFF, 0xFF, 0xFF, 0xFF, 0xFF, 0xFF, 0xFF, 0xFF, 0xFF},
    {[76] = 0x7F, [77] = 0x80}, /* Y10 of a table */
};

static void wire_calls(void)
{
    const pd3120_module before = box;

    for (uint16_t swno = 0; swno <= LAST_SWNO; swno++) {
        size_t size = pd3120_length(pd3120_read(&box, swno, buffer, LONGEST));
        for (size_t length = 0; length <= LONGEST; length++) {
            box = before;
            measure((struct call){.kind = READ, .swno = swno, .length = length});
            box = before;
            memset(buffer, 0, LONGEST);
            measure((struct call){.kind = WRITE, .swno = swno, .length = length});
        }
        for (size_t i = 0; i < sizeof values / sizeof values[0]; i++) {
            box = before;
            memcpy(buffer, values[i], sizeof values[i]);
            measure((struct call){.kind = WRITE, .swno = swno, .length = size});
        }
        box = before;
    }
}

static void samples_and_outputs(void)
{
    static const float amperes[] = {0.0f,    -0.0f,    FLT_MIN / 2, 0.2f,     1.0f, 2.0f, 2.5f,
                                    FLT_MAX, -FLT_MAX, NAN,         INFINITY, -INFINITY};
    const pd3120_module before = box;

    for (unsigned channel = 0; channel <= UINT8_MAX; channel++) {
        const uint8_t number = (uint8_t)channel;
        for (size_t i = 0; i < 2 * (sizeof amperes / sizeof amperes[0]); i++) {
            box = before;
            measure((struct call){.kind = SAMPLE, .channel = number, .level = i % 2 != 0, .amperes = amperes[i / 2]});
        }
        box = before;
        measure((struct call){.kind = OUTPUT, .channel = number});
    }
}

static void lookups(void)
{
    static const float xs[] = {0.0f, -0.0f, FLT_MIN / 2, 0.2f,    1.0f,     1.5f, 2.9f,     3.0f,
                               3.5f, -4.5f, -20.0f,      FLT_MAX, -FLT_MAX, NAN,  INFINITY, -INFINITY};

    for (unsigned table = 0; table <= UINT8_MAX; table++)
        for (size_t i = 0; i < sizeof xs / sizeof xs[0]; i++)
            measure((struct call){.kind = LOOK_UP, .table = (uint8_t)table, .x = xs[i]});
}

/* The last tick of ten hours, which saves. The count of the ticks before it is written into the box. */
static void saving_tick(void)
{
    struct module seen;

    memcpy(&seen, &box, sizeof seen);
    seen.shared.save_ticks = 1151999;
    seen.channels[0].kept.counter = ~seen.channels[0].counter;
    seen.data_channel.reals.a = 1.0f;
    seen.data_channel.kept.a = 2.0f;
    memcpy(&box, &seen, sizeof seen);
    measure((struct call){.kind = TICK});
    memcpy(&seen, &box, sizeof seen);
    check(seen.channels[0].kept.counter == seen.channels[0].counter, "the saving tick does not save Counter");
    check(seen.data_channel.kept.a == 1.0f, "the saving tick does not save RealA");
}

/* Windows for every channel number, and minutes; done, and refused by each number. */
static void minutes_and_windows(void)
{
    static const uint32_t windows[PD3120_WINDOWS + 2] = {0, 10079u << 16, 1, 360u << 16 | 1200, 10079};
    static const uint32_t late[PD3120_WINDOWS] = {[PD3120_WINDOWS - 1] = 10080};
    static const uint16_t minutes[] = {0, 1, 10078, 10079, 10080, 65535};
    const pd3120_module before = box;

    for (size_t i = 0; i < sizeof minutes / sizeof minutes[0]; i++)
        measure((struct call){.kind = MINUTE, .minute = minutes[i]});
    for (unsigned channel = 0; channel <= UINT8_MAX; channel++)
        for (size_t count = 0; count <= PD3120_WINDOWS + 2; count++) {
            measure((struct call){.kind = WINDOWS, .channel = (uint8_t)channel, .windows = windows, .length = count});
            if (count <= PD3120_WINDOWS)
                measure((struct call){.kind = WINDOWS, .channel = (uint8_t)channel, .windows = late, .length = count});
        }
    box = before;
}

/* Ticks with as many windows on every channel, open from the minute 0 on and then closed. */
static void ticks_with_windows(size_t count)
{
    const pd3120_module before = box;
    uint32_t windows[PD3120_WINDOWS] = {0};

    windows[count - 1] = pd3120_window(10079, 1);
    for (uint8_t channel = 1; channel <= 16; channel++)
        check(pd3120_set_windows(&box, channel, windows, count) == PD3120_DONE, "windows are not set");
    check(pd3120_set_minute(&box, 0) == PD3120_DONE, "the minute is not set");
    for (int tick = 0; tick < 1910; tick++)
        pd3120_tick(&box);
    for (int tick = 0; tick < 20; tick++)
        measure((struct call){.kind = TICK});
    check(!pd3120_output(&box, 1), "channel 1 is not closed");
    box = before;
}

static void ticks(void)
{
    const pd3120_module before = box;

    for (int tick = 0; tick < 64; tick++)
        measure((struct call){.kind = TICK});
    saving_tick();
    box = before;
    for (size_t count = 1; count <= PD3120_WINDOWS; count++)
        ticks_with_windows(count);
}

/* A power-up from the bytes of the buffer, which must get this number. */
static void power_up(size_t length, uint32_t number)
{
    const pd3120_module before = box;

    measure((struct call){.kind = POWER_UP, .length = length});
    check(answer == number, "a power-up does not get its number");
    box = before;
}

/* Makes the sum of the buffer's image of a length right. */
static void put_sum(size_t length)
{
    unsigned sum = 0;
    for (size_t i = 0; i < length - 2; i++)
        sum += buffer[i];
    buffer[length - 2] = (uint8_t)(sum >> 8);
    buffer[length - 1] = (uint8_t)sum;
}

/* The buffer's image of a length, and images that differ from it. */
static void image_and_others(size_t length)
{
    const size_t counts[] = {0, 9, PD3120_OLDER_IMAGE_SIZE - 3, length - 3};

    power_up(length, PD3120_DONE);
    for (size_t i = 0; i < sizeof counts / sizeof counts[0]; i++) {
        buffer[counts[i]] ^= 0x20;
        put_sum(length);
        power_up(length, PD3120_IMAGE_COUNTS);
        buffer[counts[i]] ^= 0x20;
    }
    power_up(length, PD3120_IMAGE_SUM);
    /* Each byte changed in turn, with the sum made right: a count, a setting, or a value that is taken as it is. */
    for (size_t i = 0; i < length - 2; i++) {
        buffer[i] ^= 0xE0;
        put_sum(length);
        measure((struct call){.kind = POWER_UP, .length = length});
        buffer[i] ^= 0xE0;
    }
    const uint8_t functions = buffer[2]; /* of ModuleConfig */
    buffer[2] = 0x40;
    put_sum(length);
    power_up(length, PD3120_IMAGE_VALUES);
    buffer[2] = functions;
    put_sum(length);
}

static void images(void)
{
    for (size_t length = 0; length <= sizeof buffer; length++)
        measure((struct call){.kind = STORE, .length = length});
    for (size_t length = 0; length <= sizeof buffer; length++)
        if (length != PD3120_IMAGE_SIZE && length != PD3120_OLDER_IMAGE_SIZE)
            power_up(length, PD3120_IMAGE_LENGTH);
    image_and_others(PD3120_IMAGE_SIZE);
    /* The same settings without the data channel: the count before it is now the sum's. */
    put_sum(PD3120_OLDER_IMAGE_SIZE);
    image_and_others(PD3120_OLDER_IMAGE_SIZE);
}

void every_call(void)
{
    static const uint8_t no[1] = {0};
    const pd3120_module before = box;

    wire_calls();
    samples_and_outputs();
    lookups();
    minutes_and_windows();
    ticks();
    images();
    box = before;
    put(0x0D, no, 1); /* WriteEnable FALSE */
    wire_calls();
    box = before;
}

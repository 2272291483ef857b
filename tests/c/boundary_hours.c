/*
 * Opening hours: the minute of the week, windows, what they refuse, and what a tick makes of them.
 */
#include "boundary.h"

#include <string.h>

#define MINUTE 1920 /* ticks */
#define LAST 10079  /* the week's last minute */
#define MANY 20     /* windows in a call, at most */

static const uint8_t yes[1] = {1}, on[1] = {0x80};

/* The number of a call that gives windows, whose numbers stay as they are. */
static uint32_t give(uint8_t channel, const uint32_t *windows, size_t count)
{
    uint32_t room[1 + MANY + 1], before[1 + MANY + 1];

    memset(room, CANARY, sizeof room);
    memcpy(room + 1, windows, count * sizeof *windows);
    memcpy(before, room, sizeof room);
    uint32_t code = pd3120_set_windows(box, channel, room + 1, count);
    CHECK(memcmp(room, before, sizeof room) == 0);
    CHECK(arena_intact());
    return code;
}

static uint32_t give_one(uint8_t channel, uint16_t start, uint16_t end)
{
    const uint32_t window = pd3120_window(start, end);
    return give(channel, &window, 1);
}

static void ticks(int count)
{
    for (int tick = 0; tick < count; tick++)
        pd3120_tick(box);
    CHECK(arena_intact());
}

/* Sets the minute, switches channels 1 to 3 on, and gives the ticks for which channel 2 stays on, up to a most. */
static int open_from(uint16_t minute, int most)
{
    int open = 0;

    CHECK(pd3120_set_minute(box, minute) == PD3120_DONE);
    for (uint16_t swno = 0x10; swno <= 0x30; swno += 0x10)
        CHECK(wire_write(swno, on, 1) == PD3120_DONE);
    while (open < most) {
        pd3120_tick(box);
        if (!pd3120_output(box, 2))
            break;
        open++;
    }
    CHECK(pd3120_output(box, 1) && pd3120_output(box, 3));
    CHECK(arena_intact());
    return open;
}

void minutes_and_windows(void)
{
    CHECK(pd3120_minute(0, 0, 0) == 0 && pd3120_minute(0, 6, 30) == 390);
    CHECK(pd3120_minute(1, 0, 0) == 1440 && pd3120_minute(6, 23, 59) == LAST);
    CHECK(pd3120_minute(6, 24, 0) == PD3120_WEEK && pd3120_minute(7, 0, 0) == PD3120_WEEK);
    CHECK(pd3120_minute(45, 12, 16) == PD3120_WEEK && pd3120_minute(0, UINT32_MAX, 0) == PD3120_WEEK);
    CHECK(pd3120_minute(UINT32_MAX, UINT32_MAX, UINT32_MAX) == PD3120_WEEK);
    CHECK(pd3120_window(0, 0) == 0 && pd3120_window(1, 2) == 65538);
    CHECK(pd3120_window(LAST, 0) == 10079u * 65536 && pd3120_window(0, 65535) == 65535);
    CHECK(pd3120_window(65535, 65535) == UINT32_MAX);
}

/* Each number in its order. A refused call leaves every field of the module. */
void refused_hours(void)
{
    static const uint8_t outside[] = {0, 17, 128, 255};
    static const uint16_t beyond[] = {PD3120_WEEK, 32768, 65535};
    uint32_t good[MANY], late[MANY];

    for (uint16_t i = 0; i < MANY; i++) {
        good[i] = pd3120_window(i, LAST - i);
        late[i] = pd3120_window(PD3120_WEEK, i);
    }
    CHECK(power_up(image, PD3120_IMAGE_SIZE) == PD3120_DONE);
    CHECK(pd3120_set_minute(box, 30) == PD3120_DONE);
    CHECK(give_one(2, 20, 40) == PD3120_DONE);
    ticks(3);
    pd3120_module before = *box;
    for (size_t i = 0; i < sizeof beyond / sizeof beyond[0]; i++) {
        CHECK(pd3120_set_minute(box, beyond[i]) == PD3120_NOT_MINUTE);
        CHECK(give_one(2, beyond[i], 0) == PD3120_NOT_MINUTE);
        CHECK(give_one(2, 0, beyond[i]) == PD3120_NOT_MINUTE);
    }
    for (size_t i = 0; i < sizeof outside; i++) {
        CHECK(give(outside[i], good, 1) == PD3120_NO_CHANNEL);
        CHECK(give(outside[i], good, 0) == PD3120_NO_CHANNEL);
        CHECK(give(outside[i], late, 1) == PD3120_NO_CHANNEL);
        CHECK(give(outside[i], late, MANY) == PD3120_NO_CHANNEL);
    }
    for (size_t count = PD3120_WINDOWS + 1; count <= MANY; count++) {
        CHECK(give(2, good, count) == PD3120_TOO_MANY_WINDOWS);
        CHECK(give(16, late, count) == PD3120_TOO_MANY_WINDOWS);
    }
    for (size_t count = 1; count <= PD3120_WINDOWS; count++) {
        const uint32_t was = good[count - 1];
        CHECK(give(1, late, count) == PD3120_NOT_MINUTE);
        good[count - 1] = pd3120_window(0, PD3120_WEEK);
        CHECK(give(2, good, count) == PD3120_NOT_MINUTE);
        good[count - 1] = was;
    }
    CHECK(identical(box, &before));

    /* What is taken, and shows in no register and in no image. */
    CHECK(give(16, good, PD3120_WINDOWS) == PD3120_DONE);
    CHECK(give(1, good, 1) == PD3120_DONE && give(1, good, 0) == PD3120_DONE);
    CHECK(pd3120_set_minute(box, LAST) == PD3120_DONE && pd3120_set_minute(box, 0) == PD3120_DONE);
    CHECK(alike(box, &before) && !identical(box, &before));
}

/* The valve of channel 2; every channel of the image is an output. */
void opening_hours(void)
{
    uint32_t eight[PD3120_WINDOWS];

    /* The start is in a window, the end is not; the 1920th tick has the next minute. */
    CHECK(power_up(image, PD3120_IMAGE_SIZE) == PD3120_DONE);
    CHECK(give_one(2, 360, 363) == PD3120_DONE);
    CHECK(open_from(359, 1) == 0);
    CHECK(open_from(360, 4 * MINUTE) == 3 * MINUTE - 1);
    CHECK(open_from(362, 4 * MINUTE) == MINUTE - 1);
    CHECK(open_from(363, 1) == 0);

    /* Over the week's end, and equal ends. */
    CHECK(give_one(2, LAST, 1) == PD3120_DONE);
    CHECK(open_from(LAST - 1, 1) == 0);
    CHECK(open_from(LAST, 4 * MINUTE) == 2 * MINUTE - 1);
    CHECK(open_from(0, 4 * MINUTE) == MINUTE - 1);
    CHECK(open_from(1, 1) == 0);
    CHECK(give_one(2, 5, 5) == PD3120_DONE);
    CHECK(open_from(4, 1) == 0 && open_from(5, 1) == 0 && open_from(6, 1) == 0);

    /* Any of eight; then one in their place; then none. */
    for (uint16_t i = 0; i < PD3120_WINDOWS; i++)
        eight[i] = pd3120_window(7 - i, 8 - i);
    CHECK(give(2, eight, PD3120_WINDOWS) == PD3120_DONE);
    CHECK(open_from(0, 9 * MINUTE) == 8 * MINUTE - 1);
    CHECK(give(2, eight, 1) == PD3120_DONE);
    CHECK(open_from(6, 1) == 0 && open_from(7, 2 * MINUTE) == MINUTE - 1);
    CHECK(give(2, eight, 0) == PD3120_DONE);
    CHECK(open_from(6, 3 * MINUTE) == 3 * MINUTE);

    /* Opening turns nothing on, and a write holds until the next tick. */
    CHECK(give_one(2, 100, 101) == PD3120_DONE);
    CHECK(open_from(99, 1) == 0);
    CHECK(wire_write(0x20, on, 1) == PD3120_DONE && pd3120_output(box, 2));
    ticks(1);
    CHECK(!pd3120_output(box, 2));
    ticks(MINUTE - 2);
    CHECK(!pd3120_output(box, 2));
    CHECK(wire_write(0x20, on, 1) == PD3120_DONE);
    ticks(MINUTE - 1);
    CHECK(pd3120_output(box, 2));
    ticks(1);
    CHECK(!pd3120_output(box, 2));

    /* A setting starts the minute anew, a refused one does not. */
    CHECK(open_from(100, MINUTE - 1) == MINUTE - 1);
    CHECK(pd3120_set_minute(box, 100) == PD3120_DONE);
    ticks(MINUTE - 1);
    CHECK(pd3120_output(box, 2) && pd3120_set_minute(box, PD3120_WEEK) == PD3120_NOT_MINUTE);
    CHECK(wire_write(0x10, on, 1) == PD3120_DONE);
    ticks(1);
    CHECK(!pd3120_output(box, 2));
    /* They are no wire calls: WDTimer goes on, and is 10 s less a tick. */
    static const uint8_t ticked[4] = {0x41, 0x1F, 0x80, 0};
    CHECK(pd3120_set_minute(box, 0) == PD3120_DONE && give_one(2, 0, 1) == PD3120_DONE);
    CHECK(reads(0x08, ticked, 4));
}

/* Control is cleared as OutFlag is: of a one-shot, which does not start then. Its input is simulated. */
void closed_control(void)
{
    static const uint8_t one_shot[4] = {0x01, 0x20, 0, 0}, both[1] = {0x88}, neither[1] = {0};

    CHECK(power_up(image, PD3120_IMAGE_SIZE) == PD3120_DONE);
    CHECK(wire_write(0x0D, yes, 1) == PD3120_DONE && wire_write(0x29, one_shot, 4) == PD3120_DONE);
    CHECK(give_one(2, 100, 101) == PD3120_DONE && pd3120_set_minute(box, 101) == PD3120_DONE);
    CHECK(wire_write(0x20, both, 1) == PD3120_DONE && reads(0x20, both, 1));
    ticks(1);
    CHECK(reads(0x20, neither, 1));
    CHECK(pd3120_set_minute(box, 100) == PD3120_DONE);
    CHECK(wire_write(0x20, both, 1) == PD3120_DONE);
    ticks(1);
    CHECK(reads(0x20, both, 1));
}

/* Whether channel 2, switched on, is closed at the next tick. */
static bool closes(void)
{
    CHECK(wire_write(0x20, on, 1) == PD3120_DONE && pd3120_output(box, 2));
    ticks(1);
    return !pd3120_output(box, 2);
}

/* The minute and the windows are each of no effect alone, and gone after power-up and reset. */
void unset_hours(void)
{
    static const uint8_t reset[1] = {0xFF}, watchdog_off[4] = {0, 0x10, 0, 0}, output[4] = {0, 0x10, 0, 0};

    CHECK(power_up(image, PD3120_IMAGE_SIZE) == PD3120_DONE);
    CHECK(give_one(2, 5, 5) == PD3120_DONE && !closes());
    CHECK(pd3120_set_minute(box, 5) == PD3120_DONE && closes());
    CHECK(power_up(image, PD3120_IMAGE_SIZE) == PD3120_DONE);
    CHECK(pd3120_set_minute(box, 5) == PD3120_DONE && !closes());
    CHECK(give_one(2, 5, 5) == PD3120_DONE && closes());
    CHECK(power_up(image, PD3120_IMAGE_SIZE) == PD3120_DONE);
    CHECK(give_one(2, 5, 5) == PD3120_DONE && !closes());
    CHECK(pd3120_set_minute(box, 5) == PD3120_DONE && closes());
    CHECK(wire_write(0x03, reset, 1) == PD3120_DONE && !closes());
    CHECK(pd3120_set_minute(box, 5) == PD3120_DONE && !closes());
    CHECK(give_one(2, 5, 5) == PD3120_DONE && closes());
    CHECK(wire_write(0x03, reset, 1) == PD3120_DONE);
    CHECK(give_one(2, 5, 5) == PD3120_DONE && !closes());

    /* A refused power-up leaves the minute unset; in zero memory it is 0. */
    for (int zero = 0; zero < 2; zero++) {
        CHECK(power_up(image, 0) == PD3120_IMAGE_LENGTH);
        if (zero)
            memset(box, 0, sizeof *box);
        CHECK(wire_write(0x0D, yes, 1) == PD3120_DONE);
        CHECK(wire_write(0x09, watchdog_off, 4) == PD3120_DONE);
        CHECK(wire_write(0x29, output, 4) == PD3120_DONE);
        CHECK(!closes());
        CHECK(give_one(2, 5, 5) == PD3120_DONE && closes() == (zero != 0));
        CHECK(give_one(2, 0, 1) == PD3120_DONE && !closes());
    }
}

void checked_hours(void)
{
    static const uint32_t windows[2] = {5u << 16 | 5, 6u << 16 | PD3120_WEEK};
    uint32_t *start = (uint32_t *)box, *end = start + PD3120_MODULE_SIZE / 4;

    /* As the plain calls, where the pointers are good; no windows, and no count. */
    CHECK(power_up(image, PD3120_IMAGE_SIZE) == PD3120_DONE);
    CHECK(pd3120_checked_set_minute(box, 5) == PD3120_DONE);
    CHECK(pd3120_checked_set_minute(box, PD3120_WEEK) == PD3120_NOT_MINUTE);
    CHECK(pd3120_checked_set_windows(box, 2, windows, 1) == PD3120_DONE && closes());
    CHECK(pd3120_checked_set_windows(box, 2, windows, 2) == PD3120_NOT_MINUTE);
    CHECK(pd3120_checked_set_windows(box, 17, NULL, 0) == PD3120_NO_CHANNEL);
    CHECK(pd3120_checked_set_windows(box, 2, NULL, 0) == PD3120_DONE && !closes());

    /* Windows that touch the module are no overlap. */
    end[0] = start[-1] = windows[0];
    CHECK(pd3120_checked_set_windows(box, 2, start - 1, 1) == PD3120_DONE);
    CHECK(pd3120_checked_set_windows(box, 2, end, 1) == PD3120_DONE);
    memset(start - 1, CANARY, 4);
    memset(end, CANARY, 4);
    CHECK(closes());

    /* No module, modules and windows that are not aligned, no windows, and windows that overlap the module. */
    pd3120_module before = *box;
    for (uintptr_t off = 0; off < PD3120_MODULE_ALIGN; off++) {
        pd3120_module *bad = off == 0 ? NULL : (pd3120_module *)((uintptr_t)box + off);
        const uint32_t *bad_windows = off == 0 ? NULL : (const uint32_t *)((uintptr_t)windows + off);
        CHECK(pd3120_checked_set_minute(bad, 1) == PD3120_BAD_MODULE);
        CHECK(pd3120_checked_set_windows(bad, 2, windows, 1) == PD3120_BAD_MODULE);
        CHECK(pd3120_checked_set_windows(bad, 2, bad_windows, 1) == PD3120_BAD_MODULE);
        CHECK(pd3120_checked_set_windows(box, 2, bad_windows, 1) == PD3120_BAD_BUFFER);
        CHECK(pd3120_checked_set_windows(box, 17, bad_windows, MANY) == PD3120_BAD_BUFFER);
    }
    CHECK(pd3120_checked_set_windows(box, 2, start, 1) == PD3120_BAD_BUFFER);
    CHECK(pd3120_checked_set_windows(box, 2, end - 1, 1) == PD3120_BAD_BUFFER);
    CHECK(pd3120_checked_set_windows(box, 2, start - 1, 2) == PD3120_BAD_BUFFER);
    CHECK(pd3120_checked_set_windows(box, 2, start - 2, PD3120_MODULE_SIZE / 4 + 4) == PD3120_BAD_BUFFER);

    /* Counts whose bytes are too many, or are few again modulo the size of memory. */
    CHECK(pd3120_checked_set_windows(box, 2, windows, SIZE_MAX) == PD3120_BAD_BUFFER);
    CHECK(pd3120_checked_set_windows(box, 2, windows, SIZE_MAX / 4 + 1) == PD3120_BAD_BUFFER);
    CHECK(pd3120_checked_set_windows(box, 2, windows, SIZE_MAX / 4 + 2) == PD3120_BAD_BUFFER);
    CHECK(identical(box, &before) && arena_intact());
}

/*
 * The module's layout. The sizes and offsets of layout.h's structs must be the header's, and the
 * library must put its values where they say.
 */
#include "layout.h"

#include <stdio.h>
#include <string.h>

_Static_assert(sizeof(bool) == 1, "a bool has one byte");
_Static_assert(sizeof(float) == 4, "a float has 32 bits");

#define AT(type, field, offset) _Static_assert(offsetof(struct type, field) == (offset), #type "." #field)
AT(channel, config, 0);
AT(channel, out_timer, 4);
AT(channel, fb_timer, 8);
AT(channel, out_preset, 12);
AT(channel, errors, 16);
AT(channel, counter, 20);
AT(channel, operating, 24);
AT(channel, fb_preset, 28);
AT(channel, currents, 32);
AT(channel, flags, 44);
AT(channel, user, 49);
AT(channel, reals, 53);
AT(channel, maintenance, 61);
AT(channel, quarters, 65);
AT(channel, timetable, 66);
AT(channel, kept, 100);
_Static_assert(sizeof(struct channel) == 112, "channel");
AT(timetable, count, 0);
AT(timetable, windows, 2);
_Static_assert(sizeof(struct timetable) == 34, "timetable");
AT(shared, free_run_timer, 0);
AT(shared, module_config, 4);
AT(shared, wd_preset, 8);
AT(shared, write_enable, 12);
AT(shared, save_ticks, 16);
AT(shared, clock, 20);
_Static_assert(sizeof(struct shared) == 24, "shared");
AT(service, wd_timer, 0);
AT(service, act, 4);
AT(service, his, 7);
_Static_assert(sizeof(struct service) == 12, "service");
AT(data_channel, reals, 0);
AT(data_channel, kept, 8);
AT(data_channel, timers, 16);
AT(data_channel, table1, 24);
AT(data_channel, table2, 104);
_Static_assert(sizeof(struct data_channel) == 184, "data_channel");
AT(module, shared, 0);
AT(module, service, 24);
AT(module, channels, 36);
AT(module, data_channel, 1828);
_Static_assert(sizeof(struct module) == PD3120_MODULE_SIZE, "module");
_Static_assert(_Alignof(struct module) == PD3120_MODULE_ALIGN, "module");
_Static_assert(sizeof(pd3120_module) == PD3120_MODULE_SIZE, "pd3120_module");
_Static_assert(_Alignof(pd3120_module) == PD3120_MODULE_ALIGN, "pd3120_module");

static int failures;

static void check(bool holds, const char *what)
{
    if (!holds) {
        fprintf(stderr, "layout: %s: not where the structs say\n", what);
        failures++;
    }
}

static pd3120_module box;
static struct module seen;

/* Copies the box into the structs. */
static void look(void)
{
    memcpy(&seen, &box, sizeof seen);
}

static void put(uint16_t swno, const uint8_t *bytes, size_t length)
{
    check(pd3120_number(pd3120_write(&box, swno, bytes, length)) == PD3120_DONE, "a write");
    look();
}

/* Reals: a time of 1 s is count 256 or operating count 8. */
static const uint8_t half[4] = {0x3F, 0x00, 0, 0};
static const uint8_t one[4] = {0x3F, 0x80, 0, 0};
static const uint8_t two[4] = {0x40, 0x00, 0, 0};
static const uint8_t eight_bytes[8] = {1, 2, 3, 4, 5, 6, 7, 8};
static const uint8_t yes[1] = {1};
static const uint8_t out_flag[1] = {0x80};
static const uint8_t control[1] = {0x08};

static void shared_and_service(void)
{
    static const uint8_t watchdog_off[4] = {5, 0x10, 6, 7}, reset[1] = {0xFF};

    pd3120_power_up(&box, yes, sizeof yes);
    look();
    check(seen.service.his.internal_reset, "service His bit 7");
    check(seen.shared.clock.minute >= PD3120_WEEK, "the minute, unset");
    check(!seen.service.his.external_reset && !seen.service.his.wd_run_out, "service His bits 6 and 3");
    put(0x03, reset, 1);
    check(!seen.service.his.internal_reset && seen.service.his.external_reset, "service His after a reset");
    for (int tick = 0; tick < 3; tick++)
        pd3120_tick(&box);
    look();
    check(seen.shared.free_run_timer == 24, "FreeRunTimer");
    check(seen.shared.save_ticks == 3, "the ticks since the last save");
    check(seen.service.act.wd_run_out && seen.service.his.wd_run_out, "service bit 3");
    put(0x0D, yes, 1);
    check(seen.shared.write_enable, "WriteEnable");
    check(!seen.service.act.wd_run_out && seen.service.his.wd_run_out, "service bit 3 after a wire call");
    put(0x09, watchdog_off, 4);
    check(memcmp(&seen.shared.module_config, watchdog_off, 4) == 0, "ModuleConfig");
    put(0x0A, one, 4);
    pd3120_tick(&box);
    look();
    check(seen.shared.wd_preset == 256, "WDPreset");
    check(seen.service.wd_timer == 248, "WDTimer");
}

/* WriteEnable is TRUE, so registers 2, 4 and 5 are kept. */
static void last_channel(void)
{
    static const uint8_t settings[4] = {0x01, 0x10, 3, 4}, in_flag[1] = {0x40};
    const struct channel *last = &seen.channels[15];

    put(0x109, settings, 4);
    check(memcmp(&last->config, settings, 4) == 0, "ChConfig");
    put(0x101, one, 4);
    check(last->out_timer == 256, "OutTimer");
    put(0x106, two, 4);
    check(last->fb_timer == 512, "FBTimer");
    put(0x108, half, 4);
    check(last->out_preset == 128, "OutPreset");
    put(0x107, two, 4);
    check(last->fb_preset == 512, "FBPreset");
    put(0x103, two, 4);
    check(last->currents.out == 2.0f, "OutCurrent");
    put(0x10A, half, 4);
    check(last->currents.min == 0.5f, "MinCurrent");
    put(0x10B, one, 4);
    check(last->currents.max == 1.0f, "MaxCurrent");
    put(0x102, eight_bytes, 4);
    check(last->counter == 0x01020304 && last->kept.counter == 0x01020304, "Counter");
    put(0x104, two, 4);
    check(last->operating == 16 && last->kept.operating == 16, "OperatingTime");
    put(0x100, in_flag, 1);
    pd3120_tick(&box);
    look();
    check(last->operating == 16 && last->quarters == 1, "a quarter of an eighth");
    put(0x105, eight_bytes + 1, 4);
    check(memcmp(last->user, eight_bytes + 1, 4) == 0, "the 4 user bytes");
    check(memcmp(last->kept.user, eight_bytes + 1, 4) == 0, "the 4 user bytes, kept");
    put(0x10C, eight_bytes, 8);
    check(memcmp(last->reals, eight_bytes, 8) == 0, "the 8 user bytes");
    put(0x10D, eight_bytes + 2, 4);
    check(memcmp(last->maintenance, eight_bytes + 2, 4) == 0, "the maintenance bytes");
}

/* Whether a table has these ten pairs. The bits are compared, since 0 equals -0. */
static bool has(const struct level_table *table, const pd3120_pair *pairs)
{
    for (int i = 0; i < PD3120_PAIRS; i++)
        if (memcmp(&table->pairs[i].x, &pairs[i].x, sizeof(float)) != 0
            || memcmp(&table->pairs[i].y, &pairs[i].y, sizeof(float)) != 0)
            return false;
    return true;
}

/* WriteEnable is TRUE, so RealA and RealB are kept; then it is FALSE, and they are not. */
static void data_channel(void)
{
    static const uint8_t no[1] = {0};
    const struct data_channel *data = &seen.data_channel;
    pd3120_pair first[PD3120_PAIRS], second[PD3120_PAIRS];
    uint8_t bytes[PD3120_TABLE_SIZE];

    for (int i = 0; i < PD3120_PAIRS; i++) {
        first[i] = (pd3120_pair){(float)i, -(float)i};
        second[i] = (pd3120_pair){(float)i + 0.5f, (float)i * 100};
    }
    put(0x130, half, 4);
    put(0x131, one, 4);
    check(data->reals.a == 0.5f && data->kept.a == 0.5f, "RealA");
    check(data->reals.b == 1.0f && data->kept.b == 1.0f, "RealB");
    put(0x13A, one, 4);
    put(0x13B, two, 4);
    check(data->timers.a == 256 && data->timers.b == 512, "TimerA and TimerB");
    pd3120_put_table(bytes, first);
    put(0x13C, bytes, sizeof bytes);
    pd3120_put_table(bytes, second);
    put(0x13D, bytes, sizeof bytes);
    check(has(&data->table1, first), "LookUp1");
    check(has(&data->table2, second), "LookUp2");
    put(0x0D, no, 1);
    put(0x130, one, 4);
    put(0x131, two, 4);
    check(data->reals.a == 1.0f && data->kept.a == 0.5f, "RealA, not kept");
    check(data->reals.b == 2.0f && data->kept.b == 1.0f, "RealB, not kept");
    put(0x0D, yes, 1);
}

static void flags(void)
{
    static const uint8_t one_shot[4] = {0, 0x20, 0, 0};
    const struct channel *second = &seen.channels[1];

    put(0x29, one_shot, 4);
    put(0x28, two, 4);
    put(0x20, control, 1);
    check(second->flags.control && !second->flags.internal_state, "Control");
    pd3120_tick(&box);
    look();
    check(second->flags.internal_state, "InternalState");
}

/* Every error of channel 1, one after another; what was seen once stays in His. */
static void errors(void)
{
    static const uint8_t output[4] = {0x20, 0x10, 3, 0};
    const struct channel *first = &seen.channels[0];

    /* An input has no OutFlag. */
    pd3120_sample(&box, 1, true, 0.0f);
    put(0x10, out_flag, 1);
    check(first->flags.in_flag && !first->flags.out_flag, "InFlag");
    check(first->errors.act == PRG_ERROR && first->errors.his == PRG_ERROR, "PrgError");
    put(0x19, output, 4);
    put(0x1A, half, 4);
    put(0x10, out_flag, 1);
    check(first->flags.out_flag && first->flags.fb_status, "OutFlag and FBStatus");
    check(first->errors.act == 0 && first->errors.his == PRG_ERROR, "PrgError, cleared in Act");
    /* On, with no current, and no level here and on channel 3. */
    pd3120_sample(&box, 1, false, 0.0f);
    pd3120_tick(&box);
    look();
    check(first->errors.act == (UNDERLOAD | INTERNAL_DISCONNECTION | FEEDBACK_ERROR), "UnderLoad and two more");
    check(first->errors.his == (first->errors.act | PRG_ERROR), "UnderLoad and two more, in His");
    pd3120_sample(&box, 1, false, 2.5f);
    look();
    check(!first->flags.out_flag, "OutFlag after a trip");
    check((first->errors.act & first->errors.his & OVERLOAD) != 0, "OverLoad");
    /* Off, with a current and a level. */
    pd3120_sample(&box, 1, true, 2.5f);
    pd3120_tick(&box);
    look();
    check((first->errors.act & EXTERNAL_SHORTCIR_ERROR) != 0, "ExternalShortcirError");
    check((first->errors.act & INTERNAL_SHORTCIR_ERROR) != 0, "InternalShortCirError");
    check((first->errors.act & (UNDERLOAD | INTERNAL_DISCONNECTION)) == 0, "errors that are over");
    check(first->errors.his == 0x7F, "all seven errors");
}

/* The minute, and the windows of channel 16, all eight and then one. */
static void opening_hours(void)
{
    const struct timetable *last = &seen.channels[15].timetable;
    uint32_t windows[PD3120_WINDOWS];

    for (uint16_t i = 0; i < PD3120_WINDOWS; i++)
        windows[i] = pd3120_window(i * 1000, 10079 - i);
    check(pd3120_set_minute(&box, 10079) == PD3120_DONE, "the minute is not set");
    check(pd3120_set_windows(&box, 16, windows, PD3120_WINDOWS) == PD3120_DONE, "windows are not set");
    pd3120_tick(&box);
    look();
    check(seen.shared.clock.minute == 10079 && seen.shared.clock.ticks == 1, "the minute and its ticks");
    check(seen.channels[14].timetable.count == 0 && last->count == PD3120_WINDOWS, "the count of windows");
    for (int i = 0; i < PD3120_WINDOWS; i++)
        check(last->windows[i].start == i * 1000 && last->windows[i].end == 10079 - i, "a window");
    check(pd3120_set_windows(&box, 16, windows + 7, 1) == PD3120_DONE, "a window is not set");
    look();
    check(last->count == 1 && last->windows[0].start == 7000 && last->windows[0].end == 10072, "one window");
}

int main(void)
{
    printf("layout: a module has %zu bytes and is aligned to %zu\n", sizeof(pd3120_module), _Alignof(pd3120_module));
    shared_and_service();
    last_channel();
    data_channel();
    flags();
    errors();
    opening_hours();
    if (failures != 0)
        return 1;
    printf("layout: all values are where the structs say\n");
    return 0;
}

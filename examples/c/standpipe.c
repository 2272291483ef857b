/* Closes a standpipe by its timetable: its valve on channel 2 is open from 06:00 to 20:00 on five days of the week. */
#include "pd3120_registers.h"

#include <stdio.h>

#define VALVE 2 /* channel */
#define DAYS 5
#define TICKS 1920 /* of a minute */

static pd3120_module box; /* static memory is zero, as a box must be at first */

/* Whether a call was done; where not, says why. */
static bool done(const char *what, uint32_t answer)
{
    if (pd3120_number(answer) == PD3120_DONE)
        return true;
    fprintf(stderr, "%s: refused by %u. %s\n", what, (unsigned)pd3120_number(answer), pd3120_reason(answer));
    return false;
}

/* No watchdog, and an output for the valve. Both registers are protected. */
static bool set_up(void)
{
    static const uint8_t yes[1] = {1}, no[1] = {0};
    static const uint8_t unwatched[PD3120_SIZE_MODULE_CONFIG] = {0, PD3120_WATCHDOG_OFF, 0, 0};
    static const uint8_t valve[PD3120_SIZE_CH_CONFIG] = {0, PD3120_FUNCTIONS_OUTPUT, 0, 0};
    uint16_t ch_config = pd3120_swno(VALVE, PD3120_REG_CH_CONFIG);

    return done("WriteEnable", pd3120_checked_write(&box, PD3120_SWNO_WRITE_ENABLE, yes, sizeof yes))
        && done("ModuleConfig", pd3120_checked_write(&box, PD3120_SWNO_MODULE_CONFIG, unwatched, sizeof unwatched))
        && done("ChConfig", pd3120_checked_write(&box, ch_config, valve, sizeof valve))
        && done("WriteEnable", pd3120_checked_write(&box, PD3120_SWNO_WRITE_ENABLE, no, sizeof no));
}

static bool set_timetable(void)
{
    uint32_t windows[DAYS];

    for (unsigned day = 0; day < DAYS; day++)
        windows[day] = pd3120_window(pd3120_minute(day, 6, 0), pd3120_minute(day, 20, 0));
    return done("Windows", pd3120_checked_set_windows(&box, VALVE, windows, DAYS));
}

static void ticks(int count)
{
    for (int tick = 0; tick < count; tick++)
        pd3120_checked_tick(&box);
}

static void show(const char *when)
{
    bool on = false;
    pd3120_checked_output(&box, VALVE, &on);
    printf("%s: the valve is %s\n", when, on ? "on" : "off");
}

int main(void)
{
    static const uint8_t out_flag[PD3120_SIZE_FLAG_REG] = {PD3120_FLAG_OUT_FLAG};
    uint16_t flag_reg = pd3120_swno(VALVE, PD3120_REG_FLAG_REG);

    /* No setup image: the box of all-zero settings. */
    pd3120_checked_power_up(&box, NULL, 0);
    if (!set_up() || !set_timetable())
        return 1;

    /* On the first day, a minute before the end. OutFlag turns the valve on. */
    if (!done("Minute", pd3120_checked_set_minute(&box, pd3120_minute(0, 19, 59))))
        return 1;
    if (!done("FlagReg", pd3120_checked_write(&box, flag_reg, out_flag, sizeof out_flag)))
        return 1;
    show("19:59");
    ticks(TICKS - 1);
    show("The last tick of 19:59");
    ticks(1);
    show("20:00");
    return 0;
}

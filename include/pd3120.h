/*
 * The PD 3120 channel box, from C and C++. Link with libpd3120_c.a.
 *
 * C99 or C++11 is needed, or a newer one. The archive is for x86-64 Linux. It needs memcpy and memset,
 * and nothing else of the C library or of the program.
 *
 * A box is a pd3120_module in the caller's memory; the library holds nothing else. SWNo is channel
 * times $10 + register. Numbers of several bytes have the high byte first.
 *
 * Two names for each call:
 *   pd3120_read          the proved function itself. It trusts its pointers.
 *   pd3120_checked_read  tests the pointers, refuses bad ones by a number of its own, then calls it.
 * The plain name is the archive's symbol, so that a program calls what the linker and the debugger
 * show; no macro stands between. Where nothing is known of the pointers, use the checked call.
 *
 * What a caller owes every call; a checked call tests itself what is marked so:
 * - the module is not null, and is aligned to PD3120_MODULE_ALIGN (checked);
 * - its memory has PD3120_MODULE_SIZE bytes, all zero or as a call left them. Nothing else writes
 *   into it; it may be copied by assignment. Static memory is zero, and a local one is set by
 *   `pd3120_module box = {{0}};`. Zero memory is a valid box, though not the one that a refused
 *   power-up gives: that one has His bit 7 of the service channel set, and its minute of the week is
 *   unset, where zero memory has the minute 0;
 * - a buffer has as many bytes as its length says, all initialised; windows are a buffer of as many
 *   numbers as their count says, aligned as a uint32_t (checked);
 * - a buffer is not null (checked; there it may be null where its length is 0);
 * - a buffer and the module have no byte in common (checked);
 * - no other thread uses the module or the buffer during the call;
 * - the stack has room for PD3120_STACK bytes; for a read, a write, a sample, a lookup, a tick, the
 *   minute or windows, PD3120_CALL_STACK are enough.
 */
#ifndef PD3120_H
#define PD3120_H

#include <stddef.h>
#include <stdint.h>
#include <string.h>
#ifndef __cplusplus
#include <stdbool.h>
#endif

#ifdef __cplusplus
extern "C" {
#endif

#define PD3120_VERSION "0.7.0" /* of header and archive; the 7 is the last change of document 02 in them */

#define PD3120_MODULE_SIZE 2012     /* bytes */
#define PD3120_MODULE_ALIGN 4       /* bytes */
#define PD3120_IMAGE_SIZE 886       /* bytes of a setup image, as it is stored */
#define PD3120_OLDER_IMAGE_SIZE 717 /* bytes of one without the data channel; it still powers up */
#define PD3120_PAIRS 10             /* of a level table */
#define PD3120_TABLE_SIZE 80        /* bytes of a level table: of LookUp1 ($13C), of LookUp2 ($13D) */
#define PD3120_WINDOWS 8            /* the most windows of a channel */
#define PD3120_WEEK 10080           /* minutes of a week, numbered from 0 */

/*
 * Bytes of stack that no call goes beyond, counted from its return address down; the caller's own
 * frame is not among them. They are of the archive that `./pd3120 lib` builds for x86-64, and
 * tests/c/stack.c holds every kind of call to them. What an interrupt puts on the same stack comes
 * on top, and so does a dynamic linker that looks for memcpy or memset at their first call.
 */
#define PD3120_STACK 5120
#define PD3120_CALL_STACK 1024 /* of a read, a write, a sample, a lookup, a tick, the minute or windows */

/* A box. Only the library looks inside. */
typedef struct pd3120_module {
    uint32_t state[PD3120_MODULE_SIZE / 4];
} pd3120_module;

/*
 * The number of an answer: 0, or the question that was answered no. The questions are those of
 * document 01, "Questions in order", and of document 02.
 */
enum pd3120_numbers {
    PD3120_DONE = 0,
    /* wire calls */
    PD3120_BEYOND = 1,           /* SWNo at most $13F? */
    PD3120_UNLISTED = 2,         /* Register listed? */
    PD3120_NOT_WRITABLE = 3,     /* On a write, writable? */
    PD3120_WRONG_LENGTH = 4,     /* On a write, exact length? */
    PD3120_BUFFER_TOO_SHORT = 5, /* On a read, buffer long enough? */
    PD3120_NOT_ENABLED = 6,      /* On a write of a protected register, WriteEnable TRUE? */
    PD3120_NOT_ALLOWED = 7,      /* On a write, value allowed? On a lookup, X finite? */
    /* samples: 8, then 9 */
    PD3120_NO_CHANNEL = 8, /* Channel 1 to 16? */
    PD3120_NOT_FINITE = 9, /* Current finite? */
    /* power-up */
    PD3120_IMAGE_LENGTH = 10, /* 886 bytes, or 717? */
    PD3120_IMAGE_COUNTS = 11, /* Counts right? */
    PD3120_IMAGE_SUM = 12,    /* Sum right? */
    PD3120_IMAGE_VALUES = 13, /* Values allowed? */
    /* storing */
    PD3120_NO_ROOM = 14, /* Buffer at least 886? */
    /* lookups: this one first, then 7 */
    PD3120_NO_TABLE = 15, /* Table 1 or 2? */
    /* opening hours: the minute 18; windows 8, then 19, then 18 */
    PD3120_NOT_MINUTE = 18,       /* Minute, start or end at most 10079? */
    PD3120_TOO_MANY_WINDOWS = 19, /* At most eight windows? */
    /* checked calls only, before the box is asked anything */
    PD3120_BAD_MODULE = 254, /* Module not null, and aligned? */
    PD3120_BAD_BUFFER = 255  /* Buffer not null, windows aligned, and apart from the module? */
};

/*
 * An answer is one code: bits 0 to 7 the number, bits 8 to 23 the length, bit 24 DataError, bit 25
 * GeneralError. The length and the two bits are 0 where a call does not answer them.
 */
static inline uint32_t pd3120_number(uint32_t code)
{
    return code & 0xFFu;
}

static inline size_t pd3120_length(uint32_t code)
{
    return (code >> 8) & 0xFFFFu;
}

/* Act of the service channel is not 0. */
static inline bool pd3120_data_error(uint32_t code)
{
    return ((code >> 24) & 1u) != 0;
}

/* His of the service channel is not 0. */
static inline bool pd3120_general_error(uint32_t code)
{
    return ((code >> 25) & 1u) != 0;
}

/* The number of an answer as a sentence. Never null. */
static inline const char *pd3120_reason(uint32_t code)
{
    switch (pd3120_number(code)) {
    case PD3120_DONE: return "The call is done.";
    case PD3120_BEYOND: return "The SWNo is above $13F.";
    case PD3120_UNLISTED: return "The SWNo has no register.";
    case PD3120_NOT_WRITABLE: return "The register is read only.";
    case PD3120_WRONG_LENGTH: return "The register has another length.";
    case PD3120_BUFFER_TOO_SHORT: return "The buffer is shorter than the register.";
    case PD3120_NOT_ENABLED: return "The register is protected and WriteEnable is FALSE.";
    case PD3120_NOT_ALLOWED: return "The register does not allow the value, or X is not finite.";
    case PD3120_NO_CHANNEL: return "The channel is not from 1 to 16.";
    case PD3120_NOT_FINITE: return "The current is not finite.";
    case PD3120_IMAGE_LENGTH: return "The setup image has neither 717 nor 886 bytes.";
    case PD3120_IMAGE_COUNTS: return "A count byte of the setup image is wrong.";
    case PD3120_IMAGE_SUM: return "The sum of the setup image is wrong.";
    case PD3120_IMAGE_VALUES: return "The setup image has a value that is not allowed.";
    case PD3120_NO_ROOM: return "The buffer is shorter than 886 bytes.";
    case PD3120_NO_TABLE: return "The table is not 1 or 2.";
    case PD3120_NOT_MINUTE: return "A minute of the week is above 10079.";
    case PD3120_TOO_MANY_WINDOWS: return "There are more than eight windows.";
    case PD3120_BAD_MODULE: return "The module is null or not aligned.";
    case PD3120_BAD_BUFFER: return "The buffer is null, not aligned, or overlaps the module.";
    default: return "The number is none of the library's.";
    }
}

/* The Real of 32 bits. */
static inline float pd3120_real(uint32_t bits)
{
    float real;
    memcpy(&real, &bits, sizeof real);
    return real;
}

/*
 * A lookup answers a code of its own: bits 0 to 31 the Real, bits 32 to 39 the number, which is one
 * for pd3120_reason.
 */
static inline uint32_t pd3120_look_up_number(uint64_t code)
{
    return (uint32_t)(code >> 32) & 0xFFu;
}

static inline float pd3120_look_up_real(uint64_t code)
{
    return pd3120_real((uint32_t)(code & 0xFFFFFFFFu));
}

/* ---- Reals and level tables as a register's bytes ---- */

static inline void pd3120_put_real(uint8_t bytes[4], float real)
{
    uint32_t bits;
    memcpy(&bits, &real, sizeof bits);
    for (int i = 0; i < 4; i++)
        bytes[i] = (uint8_t)(bits >> (24 - 8 * i));
}

static inline float pd3120_get_real(const uint8_t bytes[4])
{
    uint32_t bits = 0;
    for (int i = 0; i < 4; i++)
        bits = bits << 8 | bytes[i];
    return pd3120_real(bits);
}

/* A pair of a level table. X should rise from pair to pair; nothing tests it. */
typedef struct pd3120_pair {
    float x, y;
} pd3120_pair;

/* Ten pairs as the bytes of LookUp1 or LookUp2: X1 Y1 X2 Y2 ... X10 Y10. */
static inline void pd3120_put_table(uint8_t bytes[PD3120_TABLE_SIZE], const pd3120_pair pairs[PD3120_PAIRS])
{
    for (int i = 0; i < PD3120_PAIRS; i++) {
        pd3120_put_real(bytes + 8 * i, pairs[i].x);
        pd3120_put_real(bytes + 8 * i + 4, pairs[i].y);
    }
}

static inline void pd3120_get_table(pd3120_pair pairs[PD3120_PAIRS], const uint8_t bytes[PD3120_TABLE_SIZE])
{
    for (int i = 0; i < PD3120_PAIRS; i++) {
        pairs[i].x = pd3120_get_real(bytes + 8 * i);
        pairs[i].y = pd3120_get_real(bytes + 8 * i + 4);
    }
}

/* ---- Opening hours ---- */

/*
 * The minute of the week of a time of day; day 0 is the week's first, as the installer takes it. From
 * PD3120_WEEK on it is PD3120_WEEK, which is refused by 18: a window up to the week's end ends at 0.
 */
static inline uint16_t pd3120_minute(unsigned day, unsigned hour, unsigned minute)
{
    uint64_t of_week = (uint64_t)day * 1440 + (uint64_t)hour * 60 + minute;
    return (uint16_t)(of_week < PD3120_WEEK ? of_week : PD3120_WEEK);
}

/*
 * A window as pd3120_set_windows takes it, from two minutes of the week. The start is in it, the end is
 * not. One whose end is before its start runs over the week's end; one with equal ends never opens.
 */
static inline uint32_t pd3120_window(uint16_t start, uint16_t end)
{
    return (uint32_t)start << 16 | end;
}

/* ---- The proved functions ---- */

/*
 * Powers the box up from a setup image of 886 bytes, or from an older one of 717, which leaves the
 * data channel's values 0.
 * Answers number 0, or 10 to 13.
 * Changes the whole module: to the box of the image, or of all-zero settings where it is refused.
 */
uint32_t pd3120_power_up(pd3120_module *module, const uint8_t *image, size_t length);

/*
 * Stores the kept values as a setup image.
 * Answers number 0 and length 886, or number 14.
 * Changes the first 886 bytes of the buffer, nothing where it is refused.
 */
uint32_t pd3120_store(const pd3120_module *module, uint8_t *buffer, size_t length);

/*
 * Wire read of a register.
 * Answers number 0 and the register's length, or number 1, 2 or 5; and the two error bits.
 * Changes as many bytes of the buffer as the length answered. In the box, the watchdog starts again
 * (service Act bit 3 cleared, WDTimer := WDPreset), and reading CommonError or a digital channel's
 * ChError acknowledges it. Where it is refused, only the watchdog changes.
 */
uint32_t pd3120_read(pd3120_module *module, uint16_t swno, uint8_t *buffer, size_t length);

/*
 * Wire write of a register.
 * Answers number 0, or 1 to 4, 6 or 7; and the two error bits.
 * Changes what the register's rules say, and starts the watchdog again as a read does. Where it is
 * refused, only the watchdog changes. A time that a register takes, in seconds, becomes the nearest
 * count of its unit, at a tie the even one. Read before the next tick, it is the time of that count.
 */
uint32_t pd3120_write(pd3120_module *module, uint16_t swno, const uint8_t *bytes, size_t length);

/*
 * A channel's terminal is sampled: its level, then its load current. A change of the level from off
 * to on adds 1 to Counter, but a simulated input does not take the level. A current above 2 A trips.
 * Answers number 0, 8 or 9.
 * Changes that channel. Where it is refused, it does neither of the two and changes nothing.
 */
uint32_t pd3120_sample(pd3120_module *module, uint8_t channel, bool level, float amperes);

/*
 * The Y of a level table, 1 for LookUp1 or 2 for LookUp2, for an X: Y1 at or below X1, Y10 above X10,
 * between two entries on the line from one to the other. A NaN has the bits $7FC00000.
 * Answers number 0, 15 or 7, and the Real, 0 where it is refused; in 64 bits, which
 * pd3120_look_up_number and pd3120_look_up_real take apart.
 * Changes nothing. It is no wire call: the watchdog goes on.
 */
uint64_t pd3120_look_up(const pd3120_module *module, uint8_t table, float x);

/*
 * Sets the minute of the week, 0 to 10079. Each 1920th tick from then moves it as the tick begins, from
 * 10079 to 0. Power-up and reset leave it unset, and no channel is closed then.
 * Answers number 0 or 18.
 * Changes the minute, and starts the 1920 ticks anew; nothing where it is refused. It is no wire call:
 * the watchdog goes on.
 */
uint32_t pd3120_set_minute(pd3120_module *module, uint16_t minute);

/*
 * Gives a channel its windows, whole: up to PD3120_WINDOWS numbers, as pd3120_window makes them. While
 * the minute is set, a channel with windows has OutFlag and Control cleared at each tick outside all
 * of them; opening turns nothing on. Count 0 takes the windows away, and so do power-up and reset.
 * Answers number 0, 8, 19 or 18, asked in this order.
 * Changes the channel's windows; nothing where it is refused. It is no wire call: the watchdog goes on.
 */
uint32_t pd3120_set_windows(pd3120_module *module, uint8_t channel, const uint32_t *windows, size_t count);

/* 1/32 s passes. The channels are taken from 16 to 1, which nothing shows afterwards. Changes the module. */
void pd3120_tick(pd3120_module *module);

/* Whether a channel drives its terminal; false outside 1 to 16. Changes nothing. */
bool pd3120_output(const pd3120_module *module, uint8_t channel);

/*
 * ---- The checked calls ----
 *
 * Each answers PD3120_BAD_MODULE or PD3120_BAD_BUFFER and does nothing, or else is the call above.
 */

/* 0, or why the pointers are refused. */
static inline uint32_t pd3120_check(const void *module, const void *buffer, size_t length)
{
    uintptr_t box = (uintptr_t)module;
    uintptr_t first = (uintptr_t)buffer;

    if (module == NULL || box % PD3120_MODULE_ALIGN != 0)
        return PD3120_BAD_MODULE;
    if (length == 0)
        return PD3120_DONE;
    /* The differences are unsigned: the negative one is a very large number. */
    if (buffer == NULL || first - box < PD3120_MODULE_SIZE || box - first < length)
        return PD3120_BAD_BUFFER;
    return PD3120_DONE;
}

/* The buffer, or a byte that is never used in the place of no buffer. */
static inline uint8_t *pd3120_lent(uint8_t *buffer)
{
    static uint8_t none;
    return buffer == NULL ? &none : buffer;
}

static inline const uint8_t *pd3120_given(const uint8_t *bytes)
{
    static const uint8_t none = 0;
    return bytes == NULL ? &none : bytes;
}

static inline uint32_t pd3120_checked_power_up(pd3120_module *module, const uint8_t *image, size_t length)
{
    uint32_t refusal = pd3120_check(module, image, length);
    return refusal != PD3120_DONE ? refusal : pd3120_power_up(module, pd3120_given(image), length);
}

static inline uint32_t pd3120_checked_store(const pd3120_module *module, uint8_t *buffer, size_t length)
{
    uint32_t refusal = pd3120_check(module, buffer, length);
    return refusal != PD3120_DONE ? refusal : pd3120_store(module, pd3120_lent(buffer), length);
}

static inline uint32_t pd3120_checked_read(pd3120_module *module, uint16_t swno, uint8_t *buffer, size_t length)
{
    uint32_t refusal = pd3120_check(module, buffer, length);
    return refusal != PD3120_DONE ? refusal : pd3120_read(module, swno, pd3120_lent(buffer), length);
}

static inline uint32_t pd3120_checked_write(pd3120_module *module, uint16_t swno, const uint8_t *bytes, size_t length)
{
    uint32_t refusal = pd3120_check(module, bytes, length);
    return refusal != PD3120_DONE ? refusal : pd3120_write(module, swno, pd3120_given(bytes), length);
}

static inline uint32_t pd3120_checked_sample(pd3120_module *module, uint8_t channel, bool level, float amperes)
{
    uint32_t refusal = pd3120_check(module, NULL, 0);
    return refusal != PD3120_DONE ? refusal : pd3120_sample(module, channel, level, amperes);
}

static inline uint32_t pd3120_checked_set_minute(pd3120_module *module, uint16_t minute)
{
    uint32_t refusal = pd3120_check(module, NULL, 0);
    return refusal != PD3120_DONE ? refusal : pd3120_set_minute(module, minute);
}

/* 0, or why the pointers are refused. More numbers than a size_t can count the bytes of are in no memory. */
static inline uint32_t pd3120_check_windows(const void *module, const uint32_t *windows, size_t count)
{
    uint32_t refusal = pd3120_check(module, NULL, 0);
    if (refusal != PD3120_DONE)
        return refusal;
    if ((uintptr_t)windows % sizeof *windows != 0 || count > SIZE_MAX / sizeof *windows)
        return PD3120_BAD_BUFFER;
    return pd3120_check(module, windows, count * sizeof *windows);
}

static inline uint32_t pd3120_checked_set_windows(pd3120_module *module, uint8_t channel, const uint32_t *windows,
                                                  size_t count)
{
    static const uint32_t none = 0; /* never used, in the place of no windows */
    uint32_t refusal = pd3120_check_windows(module, windows, count);
    if (refusal != PD3120_DONE)
        return refusal;
    return pd3120_set_windows(module, channel, windows == NULL ? &none : windows, count);
}

/* Answers number 0 where the tick has run. */
static inline uint32_t pd3120_checked_tick(pd3120_module *module)
{
    uint32_t refusal = pd3120_check(module, NULL, 0);
    if (refusal == PD3120_DONE)
        pd3120_tick(module);
    return refusal;
}

/* Answers the lookup's number. *level is then its Real, 0 where the lookup was refused. */
static inline uint32_t pd3120_checked_look_up(const pd3120_module *module, uint8_t table, float x, float *level)
{
    uint32_t refusal = pd3120_check(module, level, sizeof *level);
    if (refusal != PD3120_DONE)
        return refusal;
    uint64_t code = pd3120_look_up(module, table, x);
    *level = pd3120_look_up_real(code);
    return pd3120_look_up_number(code);
}

/* Answers number 0 where *on is now the channel's Output. */
static inline uint32_t pd3120_checked_output(const pd3120_module *module, uint8_t channel, bool *on)
{
    uint32_t refusal = pd3120_check(module, on, sizeof *on);
    if (refusal == PD3120_DONE)
        *on = pd3120_output(module, channel);
    return refusal;
}

#ifdef __cplusplus
}
#endif

#endif

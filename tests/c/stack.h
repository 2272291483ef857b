/*
 * What the parts of the stack's test share: a call, its measure, and the caller's memory.
 */
#ifndef STACK_H
#define STACK_H

#include "layout.h"
#include "pd3120_charge.h"

void check(bool holds, const char *what);

/* ---- calls ---- */

enum kind {
    POWER_UP,
    STORE,
    READ,
    WRITE,
    SAMPLE,
    LOOK_UP,
    MINUTE,
    WINDOWS,
    TICK,
    OUTPUT,
    CHARGE,
    KINDS,
    NOTHING,
    KNOWN
};

struct call {
    enum kind kind;
    uint16_t swno;
    uint8_t channel;
    bool level;
    float amperes;
    uint8_t table;
    float x;
    uint16_t minute;
    const uint32_t *windows;
    size_t length; /* of the buffer, or of the windows */
    int32_t later; /* the earlier reading is 0 */
    uint32_t litres_per_pulse;
    pd3120_tariff tariff;
};

extern pd3120_module box;
extern uint8_t buffer[PD3120_IMAGE_SIZE + 1];
extern volatile uint64_t answer;

/* Makes the call on a stack that is watched. */
void measure(struct call made);

/* ---- the parts: stack_calls.c, then stack_charge.c ---- */

void set_up(uint8_t functions);
void every_call(void);
void charges(void);

#endif

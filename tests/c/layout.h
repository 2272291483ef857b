/*
 * The module's structs: those of crates/model/src/lib.rt and crates/counts/src/lib.rt, in C. layout.c
 * holds them to the library.
 */
#ifndef LAYOUT_H
#define LAYOUT_H

#include "pd3120.h"

struct config {
    uint8_t enablebit, functions, ref_a, ref_b;
};

struct flags {
    bool out_flag, in_flag, control, fb_status, internal_state;
};

struct currents {
    float out, min, max;
};

/* Bits of a channel's Act and His. */
enum error_bits {
    OVERLOAD = 0x40,
    UNDERLOAD = 0x20,
    EXTERNAL_SHORTCIR_ERROR = 0x10,
    INTERNAL_SHORTCIR_ERROR = 0x08,
    INTERNAL_DISCONNECTION = 0x04,
    FEEDBACK_ERROR = 0x02,
    PRG_ERROR = 0x01
};

struct errors {
    uint8_t act, his; /* ErrorBits */
};

struct kept {
    uint8_t user[4];
    int32_t counter;
    uint32_t operating; /* OperatingCount */
};

struct window {
    uint16_t start, end;
};

struct timetable {
    uint8_t count;
    struct window windows[8];
};

struct channel {
    struct config config;
    int32_t out_timer, fb_timer, out_preset; /* TimerCount */
    struct errors errors;
    int32_t counter;
    uint32_t operating; /* OperatingCount */
    int32_t fb_preset; /* TimerCount */
    struct currents currents;
    struct flags flags;
    uint8_t user[4], reals[8], maintenance[4];
    uint8_t quarters;
    struct timetable timetable;
    struct kept kept;
};

struct clock {
    uint16_t minute, ticks;
};

struct shared {
    int32_t free_run_timer; /* TimerCount */
    struct config module_config;
    int32_t wd_preset; /* TimerCount */
    bool write_enable;
    uint32_t save_ticks;
    struct clock clock;
};

struct service_bits {
    bool internal_reset, external_reset, wd_run_out;
};

struct service {
    int32_t wd_timer; /* TimerCount */
    struct service_bits act, his;
};

struct data_reals {
    float a, b;
};

struct data_timers {
    int32_t a, b; /* TimerCount */
};

struct pair {
    float x, y;
};

struct level_table {
    struct pair pairs[10];
};

struct data_channel {
    struct data_reals reals, kept;
    struct data_timers timers;
    struct level_table table1, table2;
};

struct module {
    struct shared shared;
    struct service service;
    struct channel channels[16];
    struct data_channel data_channel;
};

#endif

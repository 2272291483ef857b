/*
 * The setup image of a box as delivered, from C and C++ (C99 or C++11 is needed, as for pd3120.h): the
 * watchdog is on with a WDPreset of 10 s, MaxCurrent is 1 A on each digital channel, and all else is 0.
 *
 *     pd3120_power_up(&box, pd3120_factory_image, sizeof pd3120_factory_image);
 *
 * Include this header only where the image is used: each such source file has the 886 bytes as its own.
 */
#ifndef PD3120_FACTORY_H
#define PD3120_FACTORY_H

#include "pd3120.h"

/* The parts of the image, in its order. They are for this header alone, which ends with taking them back. */
#define PD3120_PART_ZERO 0, 0, 0, 0
#define PD3120_PART_ZEROS PD3120_PART_ZERO, PD3120_PART_ZERO, PD3120_PART_ZERO, PD3120_PART_ZERO

/* ModuleConfig, whose Functions 0 turns the watchdog on; WDPreset, 10 s in 1/256 s. */
#define PD3120_PART_MODULE PD3120_PART_ZERO, 0, 0, 0x0A, 0

/*
 * ChConfig, FBPreset, OutPreset, MinCurrent; MaxCurrent, the Real 1; 8 user, 4 maintenance and 4 user
 * bytes; Counter, operating count.
 */
#define PD3120_PART_CHANNEL                                                                                            \
    PD3120_PART_ZEROS, 0x3F, 0x80, 0, 0, PD3120_PART_ZEROS, PD3120_PART_ZERO, PD3120_PART_ZERO
#define PD3120_PART_CHANNELS PD3120_PART_CHANNEL, PD3120_PART_CHANNEL, PD3120_PART_CHANNEL, PD3120_PART_CHANNEL

/* LookUp1 or LookUp2. */
#define PD3120_PART_TABLE                                                                                              \
    PD3120_PART_ZEROS, PD3120_PART_ZEROS, PD3120_PART_ZEROS, PD3120_PART_ZEROS, PD3120_PART_ZEROS

/* Of all bytes but its own: the four counts, WDPreset and the channels' MaxCurrent. */
#define PD3120_PART_SUM (1 + 16 + 1 + 1 + 0x0A + 16 * (0x3F + 0x80))

static const uint8_t pd3120_factory_image[PD3120_IMAGE_SIZE] = {
    1, PD3120_PART_MODULE,
    16, PD3120_PART_CHANNELS, PD3120_PART_CHANNELS, PD3120_PART_CHANNELS, PD3120_PART_CHANNELS,
    1, PD3120_PART_ZERO, PD3120_PART_ZERO, PD3120_PART_TABLE, PD3120_PART_TABLE, /* RealA, RealB, the tables */
    1, PD3120_PART_SUM >> 8, PD3120_PART_SUM & 0xFF
};

#undef PD3120_PART_ZERO
#undef PD3120_PART_ZEROS
#undef PD3120_PART_MODULE
#undef PD3120_PART_CHANNEL
#undef PD3120_PART_CHANNELS
#undef PD3120_PART_TABLE
#undef PD3120_PART_SUM

#endif

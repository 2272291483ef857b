/*
 * The charge for the water between two readings of a Counter, from C and C++. Link with
 * libcharge_c.a. It stands above the box and needs no box and no pd3120.h; a program that has both
 * includes the two headers in either order.
 *
 * C99 or C++11 is needed, or a newer one. The archive is for x86-64 Linux. It needs nothing of the C
 * library or of the program; in this header, pd3120_get_counter uses memcpy.
 *
 * Two names for the call:
 *   pd3120_charge          the proved function itself. It trusts its pointers.
 *   pd3120_checked_charge  takes limits and prices as a tariff, tests the pointers, refuses bad ones
 *                          by a number of its own, then calls it.
 * Where nothing is known of the pointers, use the checked call.
 *
 * What a caller owes either call; the checked one tests itself what is marked so:
 * - limits and prices have three and four numbers, all initialised, also where there are fewer blocks;
 * - limits, prices and cents are not null, and are aligned as their types ask (checked);
 * - cents has no byte in common with limits or prices (checked, for the whole tariff);
 * - no other thread writes limits or prices, or uses cents, during the call;
 * - the stack has room for PD3120_CHARGE_STACK bytes.
 */
#ifndef PD3120_CHARGE_H
#define PD3120_CHARGE_H

#include <stddef.h>
#include <stdint.h>
#include <string.h>

#ifdef __cplusplus
extern "C" {
#endif

#define PD3120_MOST_BLOCKS 4               /* of a tariff */
#define PD3120_MOST_LITRES_PER_PULSE 10000 /* and at least 1 */
#define PD3120_HIGHEST_PRICE 100000        /* hundredths of a cent per litre */
#define PD3120_CHARGE_ALIGN 8              /* bytes; of a tariff, and of the cents */

/*
 * Bytes of stack that a charge does not go beyond, the argument that its caller puts there included;
 * the rest of the caller's frame is not among them. They are of the archive that `./pd3120 lib` builds
 * for x86-64, and tests/c/stack.c holds a charge to them. What an interrupt puts on the same stack
 * comes on top.
 */
#define PD3120_CHARGE_STACK 128

/*
 * The blocks of a charge, which the litres fill in order. A limit is a total from the first litre,
 * and the litre of that number is still in its block. Each is above the one before; the first may be
 * 0. The last block has none. What stands past the blocks is not looked at.
 */
typedef struct pd3120_tariff {
    uint32_t blocks;    /* how many there are, 1 to 4 */
    uint64_t limits[3]; /* of all blocks but the last, in litres */
    uint32_t prices[4]; /* of each block, in hundredths of a cent per litre */
} pd3120_tariff;

/* The number of an answer: 0, or the question of document 02, Change 4, that was answered no. */
enum pd3120_charge_numbers {
    PD3120_CHARGED = 0,
    PD3120_BAD_LITRES_PER_PULSE = 16, /* Litres per pulse from 1 to 10000? This is asked first. */
    PD3120_BAD_BLOCKS = 17,           /* One to four blocks, limits rising, no price above 100000? */
    /* the checked call only, before anything else is asked */
    PD3120_BAD_TARIFF = 252, /* Tariff not null, and aligned? */
    PD3120_BAD_CENTS = 253   /* Cents not null, aligned, and apart from the tariff? */
};

/* The number of a charge as a sentence. Never null. */
static inline const char *pd3120_charge_reason(uint32_t number)
{
    switch (number) {
    case PD3120_CHARGED: return "The charge is done.";
    case PD3120_BAD_LITRES_PER_PULSE: return "The litres per pulse are not from 1 to 10000.";
    case PD3120_BAD_BLOCKS: return "There are not 1 to 4 blocks, a limit does not rise, or a price is above 100000.";
    case PD3120_BAD_TARIFF: return "The tariff is null or not aligned.";
    case PD3120_BAD_CENTS: return "The cents are null, not aligned, or overlap the tariff.";
    default: return "The number is none of a charge's.";
    }
}

/* The Counter of the four bytes that a wire read gives: 32 bits with a sign, the high byte first. */
static inline int32_t pd3120_get_counter(const uint8_t bytes[4])
{
    uint32_t bits = 0;
    int32_t counter;
    for (int i = 0; i < 4; i++)
        bits = bits << 8 | bytes[i];
    memcpy(&counter, &bits, sizeof counter); /* an int32_t has two's complement */
    return counter;
}

/* ---- The proved function ---- */

/*
 * The charge for the pulses from the earlier Counter to the later one: the later minus the earlier,
 * modulo 4294967296. The sum is rounded to a cent once, half upward.
 * Answers number 0, 16 or 17.
 * Changes *cents: to the charge, or to 0 where it is refused.
 */
uint32_t pd3120_charge(int32_t earlier, int32_t later, uint32_t litres_per_pulse, uint32_t blocks,
                       const uint64_t limits[3], const uint32_t prices[4], uint64_t *cents);

/*
 * ---- The checked call ----
 *
 * It answers PD3120_BAD_TARIFF or PD3120_BAD_CENTS and changes nothing, or else is the call above.
 */

/* 0, or why the pointers are refused. */
static inline uint32_t pd3120_check_charge(const void *tariff, const void *cents)
{
    uintptr_t tariff_at = (uintptr_t)tariff;
    uintptr_t cents_at = (uintptr_t)cents;

    if (tariff == NULL || tariff_at % PD3120_CHARGE_ALIGN != 0)
        return PD3120_BAD_TARIFF;
    if (cents == NULL || cents_at % PD3120_CHARGE_ALIGN != 0)
        return PD3120_BAD_CENTS;
    /* Aligned cents below the tariff end before it; the difference is then a very large number. */
    if (cents_at - tariff_at < sizeof(pd3120_tariff))
        return PD3120_BAD_CENTS;
    return PD3120_CHARGED;
}

static inline uint32_t pd3120_checked_charge(int32_t earlier, int32_t later, uint32_t litres_per_pulse,
                                             const pd3120_tariff *tariff, uint64_t *cents)
{
    uint32_t refusal = pd3120_check_charge(tariff, cents);
    if (refusal != PD3120_CHARGED)
        return refusal;
    return pd3120_charge(earlier, later, litres_per_pulse, tariff->blocks, tariff->limits, tariff->prices, cents);
}

#ifdef __cplusplus
}
#endif

#endif

/*
 * A Counter's bytes, reasons, two readings of a box, and the call that checks its pointers.
 */
#include "charge.h"
#include "pd3120.h"

#include <string.h>

_Static_assert(_Alignof(pd3120_tariff) == PD3120_CHARGE_ALIGN, "pd3120_tariff");
_Static_assert(_Alignof(uint64_t) == PD3120_CHARGE_ALIGN, "cents");

void counters(void)
{
    CHECK(pd3120_get_counter((const uint8_t[]){0, 0, 0, 0}) == 0);
    CHECK(pd3120_get_counter((const uint8_t[]){0x7F, 0xFF, 0xFF, 0xFF}) == INT32_MAX);
    CHECK(pd3120_get_counter((const uint8_t[]){0x80, 0, 0, 0}) == INT32_MIN);
    CHECK(pd3120_get_counter((const uint8_t[]){0xFF, 0xFF, 0xFF, 0xFF}) == -1);
    CHECK(pd3120_get_counter((const uint8_t[]){0x12, 0x34, 0x56, 0x78}) == 0x12345678);
}

void reasons(void)
{
    static const uint32_t numbers[] = {0, 16, 17, 252, 253, 1};
    static const uint32_t others[] = {15, 18, 251, 254, 255, 256, 272, UINT32_MAX};

    for (size_t i = 0; i < sizeof numbers / sizeof numbers[0]; i++)
        for (size_t j = 0; j < i; j++)
            CHECK(strcmp(pd3120_charge_reason(numbers[i]), pd3120_charge_reason(numbers[j])) != 0);
    for (size_t i = 0; i < sizeof others / sizeof others[0]; i++)
        CHECK(pd3120_charge_reason(others[i]) == pd3120_charge_reason(1));
}

/* Counter of channel 4 over the wire. */
static int32_t reading(pd3120_module *box)
{
    uint8_t bytes[4] = {0};
    CHECK(pd3120_number(pd3120_read(box, 0x42, bytes, sizeof bytes)) == PD3120_DONE);
    return pd3120_get_counter(bytes);
}

/* Three pulses, in which the Counter of a box passes the end. */
void readings(void)
{
    static const uint8_t counter[4] = {0x7F, 0xFF, 0xFF, 0xFE};
    static const pd3120_tariff tariff = {2, {10}, {100, 200}};
    pd3120_module box = {{0}};
    uint64_t cents = CANARY;

    CHECK(pd3120_number(pd3120_write(&box, 0x42, counter, sizeof counter)) == PD3120_DONE);
    const int32_t earlier = reading(&box);
    for (int sample = 0; sample < 6; sample++)
        CHECK(pd3120_sample(&box, 4, sample % 2 == 0, 0.0f) == PD3120_DONE);
    const int32_t later = reading(&box);
    CHECK(earlier == 2147483646 && later == -2147483647);
    CHECK(pd3120_checked_charge(earlier, later, 10, &tariff, &cents) == PD3120_CHARGED && cents == 50);
}

/* ---- the checked call ---- */

static struct {
    uint64_t before;
    pd3120_tariff tariff;
    uint64_t after;
} memory;

static const pd3120_tariff good = {3, {1000, 2000, 0}, {150, 200, 325, 0}};

static uint32_t checked(const pd3120_tariff *tariff, uint64_t *cents)
{
    return pd3120_checked_charge(100, 350, 10, tariff, cents);
}

/* Whether the tariff and the words around it are as they were. */
static bool as_before(void)
{
    const pd3120_tariff *now = &memory.tariff;
    return memory.before == CANARY && memory.after == CANARY && now->blocks == good.blocks &&
           memcmp(now->limits, good.limits, sizeof good.limits) == 0 &&
           memcmp(now->prices, good.prices, sizeof good.prices) == 0;
}

/* As the plain call, where the pointers are good. */
static void good_pointers(void)
{
    uint64_t cents = CANARY;

    CHECK(checked(&memory.tariff, &cents) == PD3120_CHARGED && cents == 5125);
    CHECK(pd3120_checked_charge(100, 350, 0, &memory.tariff, &cents) == PD3120_BAD_LITRES_PER_PULSE && cents == 0);
    cents = CANARY;
    memory.tariff.blocks = 0;
    CHECK(checked(&memory.tariff, &cents) == PD3120_BAD_BLOCKS && cents == 0);
    memory.tariff.blocks = good.blocks;
    CHECK(as_before());

    /* Cents that touch the tariff are no overlap. */
    CHECK(checked(&memory.tariff, &memory.before) == PD3120_CHARGED && memory.before == 5125);
    memory.before = CANARY;
    CHECK(checked(&memory.tariff, &memory.after) == PD3120_CHARGED && memory.after == 5125);
    memory.after = CANARY;
    CHECK(as_before());
}

/* No tariff or no cents, and some that are not aligned. The tariff is asked first, and before 16. */
static void bad_pointers(void)
{
    uint64_t cents[2] = {CANARY, CANARY};

    for (uintptr_t off = 0; off < PD3120_CHARGE_ALIGN; off++) {
        const pd3120_tariff *tariff = off == 0 ? NULL : (const pd3120_tariff *)((uintptr_t)&memory.tariff + off);
        uint64_t *sum = off == 0 ? NULL : (uint64_t *)((uintptr_t)cents + off);
        CHECK(checked(tariff, cents) == PD3120_BAD_TARIFF);
        CHECK(checked(tariff, sum) == PD3120_BAD_TARIFF);
        CHECK(checked(&memory.tariff, sum) == PD3120_BAD_CENTS);
        CHECK(pd3120_checked_charge(100, 350, 0, tariff, cents) == PD3120_BAD_TARIFF);
        CHECK(pd3120_checked_charge(100, 350, 0, &memory.tariff, sum) == PD3120_BAD_CENTS);
    }
    CHECK(cents[0] == CANARY && cents[1] == CANARY);
}

void checked_charges(void)
{
    memory.before = memory.after = CANARY;
    memory.tariff = good;
    good_pointers();
    bad_pointers();
    /* Cents within the tariff. */
    for (uintptr_t off = 0; off < sizeof memory.tariff; off++)
        CHECK(checked(&memory.tariff, (uint64_t *)((uintptr_t)&memory.tariff + off)) == PD3120_BAD_CENTS);
    CHECK(as_before());
}

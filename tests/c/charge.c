/*
 * The charge: worked values, limits beside the litres, both refusals, and the caller's memory around
 * each call: limits, prices and cents stand between words that no call may touch. Here stand the
 * caller's memory, the proved function and main; the rest of the header stands in charge_checked.c.
 */
#include "charge.h"

#include <stdio.h>
#include <stdlib.h>
#include <string.h>

static unsigned checks, failures;

void check_at(const char *file, int line, const char *what, bool holds)
{
    checks++;
    if (!holds) {
        fprintf(stderr, "%s:%d: %s\n", file, line, what);
        failures++;
    }
}

/* ---- the caller's memory ---- */

static struct {
    uint64_t before;
    uint64_t limits[3];
    uint64_t between;
    uint32_t prices[4];
    uint64_t next;
    uint64_t cents;
    uint64_t after;
} memory;

/* The number of a charge, which may change the cents and nothing else. */
static uint32_t charge(int32_t earlier, int32_t later, uint32_t litres_per_pulse, const pd3120_tariff *tariff)
{
    memory.before = memory.between = memory.next = memory.cents = memory.after = CANARY;
    memcpy(memory.limits, tariff->limits, sizeof memory.limits);
    memcpy(memory.prices, tariff->prices, sizeof memory.prices);
    uint32_t number =
        pd3120_charge(earlier, later, litres_per_pulse, tariff->blocks, memory.limits, memory.prices, &memory.cents);
    CHECK(memory.before == CANARY && memory.between == CANARY && memory.next == CANARY && memory.after == CANARY);
    CHECK(memcmp(memory.limits, tariff->limits, sizeof memory.limits) == 0);
    CHECK(memcmp(memory.prices, tariff->prices, sizeof memory.prices) == 0);
    return number;
}

static bool costs(int32_t earlier, int32_t later, uint32_t litres_per_pulse, pd3120_tariff tariff, uint64_t cents)
{
    return charge(earlier, later, litres_per_pulse, &tariff) == PD3120_CHARGED && memory.cents == cents;
}

static bool refused(uint32_t litres_per_pulse, pd3120_tariff tariff, uint32_t number)
{
    return charge(0, 1, litres_per_pulse, &tariff) == number && memory.cents == 0;
}

/* ---- what is charged ---- */

static void worked(void)
{
    static const struct {
        int32_t earlier, later;
        uint32_t litres_per_pulse;
        pd3120_tariff tariff;
        uint64_t cents;
    } list[] = {
        {100, 350, 10, {3, {1000, 2000}, {150, 200, 325}}, 5125},
        {0, 10, 1, {2, {10}, {100, 200}}, 10},
        {0, 11, 1, {2, {10}, {100, 200}}, 12},
        {0, 12, 7, {4, {20, 50, 80}, {135, 99, 1, 51}}, 59},
        {0, 13, 7, {4, {20, 50, 80}, {135, 99, 1, 51}}, 63},
        {0, 3, 10, {3, {10, 20}, {300, 0, 100}}, 40},
        /* an empty block, and limits that no litre reaches */
        {0, 7, 1, {3, {0, 3}, {100000, 100, 200}}, 11},
        {0, 2, 10000, {3, {4294967296, UINT64_MAX}, {7, 100000, 0}}, 1400},
        {0, 3, 1, {3, {2, 4294967296}, {100, 200, 0}}, 4},
        /* half a cent goes up, once for the whole sum */
        {0, 1, 1, {1, {0}, {50}}, 1},
        {0, 1, 1, {1, {0}, {49}}, 0},
        {0, 3, 1, {3, {1, 2}, {50, 50, 50}}, 2},
        /* no pulse, and readings that pass the end */
        {7, 7, 10000, {1, {0}, {100000}}, 0},
        {INT32_MAX, INT32_MIN, 1, {1, {0}, {100}}, 1},
        {-1, 0, 1, {1, {0}, {100}}, 1},
        {2147483646, -2147483647, 100, {1, {0}, {49}}, 147},
        {5, 4, 1, {1, {0}, {1}}, 42949673},
        /* the highest charge */
        {1, 0, 10000, {1, {0}, {100000}}, 42949672950000000},
    };

    for (size_t i = 0; i < sizeof list / sizeof list[0]; i++)
        CHECK(costs(list[i].earlier, list[i].later, list[i].litres_per_pulse, list[i].tariff, list[i].cents));
}

/* The hundredths of a few litres, each by the block that it lies in. */
static uint64_t one_by_one(uint64_t litres, const pd3120_tariff *tariff)
{
    uint64_t sum = 0;
    for (uint64_t litre = 1; litre <= litres; litre++) {
        uint32_t block = 0;
        while (block + 1 < tariff->blocks && litre > tariff->limits[block])
            block++;
        sum += tariff->prices[block];
    }
    return sum;
}

static bool rising(const pd3120_tariff *tariff)
{
    for (uint32_t i = 1; i + 1 < tariff->blocks; i++)
        if (tariff->limits[i] <= tariff->limits[i - 1])
            return false;
    return true;
}

#define FEW 5

/* All small limits, at the litres and beside them, rising and not; prices that fall and rise. */
static void limits(void)
{
    for (unsigned drawn = 0; drawn < PD3120_MOST_BLOCKS * FEW * FEW * FEW; drawn++) {
        const pd3120_tariff tariff = {drawn / (FEW * FEW * FEW) + 1,
                                      {drawn % FEW, drawn / FEW % FEW, drawn / (FEW * FEW) % FEW},
                                      {117, 50, 0, 231}};
        for (int32_t litres = 0; litres <= FEW; litres++)
            if (rising(&tariff))
                CHECK(costs(0, litres, 1, tariff, (one_by_one((uint64_t)litres, &tariff) + 50) / 100));
            else
                CHECK(refused(1, tariff, PD3120_BAD_BLOCKS));
    }
}

/* What stands past the blocks is not looked at. */
static void past_the_blocks(void)
{
    const pd3120_tariff bad = {0, {9, 0, 0}, {100001, 100001, UINT32_MAX, 100001}};

    for (uint32_t blocks = 1; blocks <= PD3120_MOST_BLOCKS; blocks++) {
        pd3120_tariff tariff = bad;
        tariff.blocks = blocks;
        for (uint32_t i = 0; i < blocks; i++)
            tariff.prices[i] = 100;
        for (uint32_t i = 0; i + 1 < blocks; i++)
            tariff.limits[i] = 10 + i;
        CHECK(costs(0, 12, 1, tariff, 12));
    }
}

static void refusals(void)
{
    static const uint32_t litres[] = {0, PD3120_MOST_LITRES_PER_PULSE + 1, 65537, UINT32_MAX};
    static const uint32_t blocks[] = {0, PD3120_MOST_BLOCKS + 1, 257, UINT32_MAX};
    const pd3120_tariff good = {2, {10}, {100, 200}}, none = {0, {0}, {0}};

    /* 16 is asked before 17. */
    for (size_t i = 0; i < sizeof litres / sizeof litres[0]; i++) {
        CHECK(refused(litres[i], good, PD3120_BAD_LITRES_PER_PULSE));
        CHECK(refused(litres[i], none, PD3120_BAD_LITRES_PER_PULSE));
    }
    for (size_t i = 0; i < sizeof blocks / sizeof blocks[0]; i++)
        CHECK(refused(1, (pd3120_tariff){blocks[i], {1, 2, 3}, {1, 1, 1, 1}}, PD3120_BAD_BLOCKS));
    CHECK(refused(1, (pd3120_tariff){3, {10, 10}, {1, 1, 1}}, PD3120_BAD_BLOCKS));
    CHECK(refused(1, (pd3120_tariff){3, {10, 9}, {1, 1, 1}}, PD3120_BAD_BLOCKS));
    CHECK(refused(1, (pd3120_tariff){4, {10, 20, 20}, {1, 1, 1, 1}}, PD3120_BAD_BLOCKS));
    CHECK(refused(1, (pd3120_tariff){3, {4294967297, 2}, {1, 1, 1}}, PD3120_BAD_BLOCKS));

    /* A price too high, in a block that no litre reaches too. */
    for (uint32_t i = 0; i < PD3120_MOST_BLOCKS; i++) {
        pd3120_tariff tariff = {4, {10, 20, 30}, {1, 1, 1, 1}};
        tariff.prices[i] = PD3120_HIGHEST_PRICE + 1;
        CHECK(refused(1, tariff, PD3120_BAD_BLOCKS));
        tariff.prices[i] = UINT32_MAX;
        CHECK(refused(PD3120_MOST_LITRES_PER_PULSE, tariff, PD3120_BAD_BLOCKS));
        tariff.prices[i] = PD3120_HIGHEST_PRICE;
        CHECK(costs(0, 0, 1, tariff, 0));
    }
}

/* Blocks of the exact size, where valgrind sees a byte too many. */
static void exact_blocks(void)
{
    uint64_t *limits = calloc(3, sizeof *limits), *cents = calloc(1, sizeof *cents);
    uint32_t *prices = calloc(4, sizeof *prices);
    if (limits == NULL || prices == NULL || cents == NULL)
        exit(2);
    for (uint32_t blocks = 0; blocks <= PD3120_MOST_BLOCKS + 1; blocks++) {
        uint32_t number = pd3120_charge(0, 100, 1, blocks, limits, prices, cents);
        CHECK(number == (blocks == 1 || blocks == 2 ? PD3120_CHARGED : PD3120_BAD_BLOCKS) && *cents == 0);
    }
    free(prices);
    free(cents);
    free(limits);
}

int main(void)
{
    worked();
    limits();
    past_the_blocks();
    refusals();
    exact_blocks();
    counters();
    reasons();
    readings();
    checked_charges();

    if (failures != 0) {
        fprintf(stderr, "charge: %u of %u checks failed\n", failures, checks);
        return 1;
    }
    printf("charge: %u checks passed\n", checks);
    return 0;
}

/*
 * The charges whose stack is measured.
 */
#include "stack.h"

#include <string.h>

static const int32_t readings[] = {0, 1, 1000, INT32_MAX, INT32_MIN, -1};
static const uint32_t litres_per_pulse[] = {0, 1, 10, PD3120_MOST_LITRES_PER_PULSE, PD3120_MOST_LITRES_PER_PULSE + 1};

/* Rising limits about the litres, far ones, and limits that do not rise. */
static const uint64_t limits[][3] = {
    {0, 1, 2}, {10, 1000, 10000}, {4294967295, 4294967296, UINT64_MAX}, {5, 5, 6}, {5, 6, 6}, {7, 6, 5},
};

static const uint32_t prices[][4] = {
    {0, 0, 0, 0},
    {150, 200, 325, 50},
    {PD3120_HIGHEST_PRICE, PD3120_HIGHEST_PRICE, PD3120_HIGHEST_PRICE, PD3120_HIGHEST_PRICE},
    {PD3120_HIGHEST_PRICE + 1, 0, 0, 0},
    {0, 0, 0, UINT32_MAX},
};

#define COUNT(array) (sizeof array / sizeof array[0])

static uint32_t numbers; /* that were answered, each as a bit */

/* With every reading, and with litres per pulse that are in range and not. */
static void charges_by(pd3120_tariff tariff)
{
    for (size_t i = 0; i < COUNT(readings); i++)
        for (size_t j = 0; j < COUNT(litres_per_pulse); j++) {
            measure((struct call){
                .kind = CHARGE, .later = readings[i], .litres_per_pulse = litres_per_pulse[j], .tariff = tariff});
            check(answer <= PD3120_BAD_BLOCKS, "a charge gets another number");
            numbers |= 1u << answer;
        }
}

void charges(void)
{
    pd3120_tariff tariff;

    for (tariff.blocks = 0; tariff.blocks <= PD3120_MOST_BLOCKS + 1; tariff.blocks++)
        for (size_t i = 0; i < COUNT(limits); i++)
            for (size_t j = 0; j < COUNT(prices); j++) {
                memcpy(tariff.limits, limits[i], sizeof tariff.limits);
                memcpy(tariff.prices, prices[j], sizeof tariff.prices);
                charges_by(tariff);
            }
    check(numbers == (1u << PD3120_CHARGED | 1u << PD3120_BAD_LITRES_PER_PULSE | 1u << PD3120_BAD_BLOCKS),
          "the charges do not get every number");
}

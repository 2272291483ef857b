/*
 * A program that charges and has no box: its header and its archive, without those of the box. It is
 * C and C++.
 */
#include "pd3120_charge.h"

int main(void)
{
    const pd3120_tariff tariff = {1, {0}, {50}};
    uint64_t cents = 0;

    return pd3120_checked_charge(0, 1, 1, &tariff, &cents) != PD3120_CHARGED || cents != 1;
}

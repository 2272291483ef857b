/* Charges the water between two readings of the meter on channel 4, ten litres a pulse. */
#include "pd3120_charge.h"
#include "pd3120_registers.h"

#include <inttypes.h>
#include <stdio.h>

#define METER 4 /* channel */
#define LITRES_PER_PULSE 10

/* 1.50 cents a litre up to 1000 litres, 2.00 up to 2000, and 3.25 above. */
static const pd3120_tariff tariff = {3, {1000, 2000}, {150, 200, 325}};

static pd3120_module box; /* static memory is zero, as a box must be at first */

static void pulses(int count)
{
    for (int pulse = 0; pulse < count; pulse++) {
        pd3120_checked_sample(&box, METER, true, 0.0f);
        pd3120_checked_sample(&box, METER, false, 0.0f);
    }
}

/* Whether Counter of the meter was read; where not, says why. */
static bool read_counter(int32_t *counter)
{
    uint8_t bytes[PD3120_SIZE_COUNTER] = {0};
    uint32_t answer = pd3120_checked_read(&box, pd3120_swno(METER, PD3120_REG_COUNTER), bytes, sizeof bytes);
    if (pd3120_number(answer) != PD3120_DONE) {
        fprintf(stderr, "Read of Counter: %s\n", pd3120_reason(answer));
        return false;
    }
    *counter = pd3120_get_counter(bytes);
    printf("Counter of channel %d: %" PRId32 "\n", METER, *counter);
    return true;
}

int main(void)
{
    int32_t earlier, later;
    uint64_t cents;

    /* No setup image: the box of all-zero settings. */
    pd3120_checked_power_up(&box, NULL, 0);
    pulses(100);
    if (!read_counter(&earlier))
        return 1;
    pulses(250);
    if (!read_counter(&later))
        return 1;

    uint32_t number = pd3120_checked_charge(earlier, later, LITRES_PER_PULSE, &tariff, &cents);
    if (number != PD3120_CHARGED) {
        fprintf(stderr, "Charge: refused by %u. %s\n", (unsigned)number, pd3120_charge_reason(number));
        return 1;
    }
    printf("The water costs %" PRIu64 ".%02u\n", cents / 100, (unsigned)(cents % 100));
    return 0;
}

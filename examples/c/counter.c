/* Counts three pulses of a water meter on channel 4. */
#include "pd3120_registers.h"

#include <stdio.h>

#define METER 4 /* channel */

int main(void)
{
    static pd3120_module box; /* static memory is zero, as a box must be at first */
    uint8_t bytes[PD3120_SIZE_COUNTER] = {0};

    /* No setup image: refused by number 10, which gives the box of all-zero settings. */
    uint32_t answer = pd3120_checked_power_up(&box, NULL, 0);
    printf("Power-up: %u. %s\n", (unsigned)pd3120_number(answer), pd3120_reason(answer));

    for (int pulse = 0; pulse < 3; pulse++) {
        pd3120_checked_sample(&box, METER, true, 0.0f);
        pd3120_checked_tick(&box);
        pd3120_checked_sample(&box, METER, false, 0.0f);
        pd3120_checked_tick(&box);
    }

    /* Counter of channel 4 is SWNo $42. It has 32 bits with a sign, the high byte first. */
    answer = pd3120_checked_read(&box, pd3120_swno(METER, PD3120_REG_COUNTER), bytes, sizeof bytes);
    if (pd3120_number(answer) != PD3120_DONE) {
        fprintf(stderr, "Read of Counter: %s\n", pd3120_reason(answer));
        return 1;
    }
    printf("Counter of channel %d: %ld\n", METER, (long)pd3120_get_i32(bytes));
    return 0;
}

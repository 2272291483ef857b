/* Turns the position of a tank float into litres, and shows them to the handheld. */
#include "pd3120_registers.h"

#include <math.h>
#include <stdio.h>

/* Volts of the float, and litres in the tank, which lies on its side. 80 litres stay under the float. */
static const pd3120_pair tank[PD3120_PAIRS] = {
    {0.5f, 80},   {1.0f, 610},  {1.5f, 1650}, {2.0f, 2920}, {2.5f, 4290},
    {3.0f, 5710}, {3.5f, 7080}, {4.0f, 8350}, {4.5f, 9390}, {5.0f, 10000},
};

static pd3120_module box; /* static memory is zero, as a box must be at first */

/* Whether a write was done; where not, says why. */
static bool put(uint16_t swno, const uint8_t *bytes, size_t length)
{
    uint32_t answer = pd3120_checked_write(&box, swno, bytes, length);
    if (pd3120_number(answer) == PD3120_DONE)
        return true;
    fprintf(stderr, "Write of $%X: %s\n", (unsigned)swno, pd3120_reason(answer));
    return false;
}

/* LookUp1 is protected: WriteEnable is TRUE while it is written. */
static bool set_up(void)
{
    static const uint8_t yes[1] = {1}, no[1] = {0};
    uint8_t table[PD3120_SIZE_LOOK_UP1];

    pd3120_put_table(table, tank);
    return put(PD3120_SWNO_WRITE_ENABLE, yes, sizeof yes) && put(PD3120_SWNO_LOOK_UP1, table, sizeof table)
        && put(PD3120_SWNO_WRITE_ENABLE, no, sizeof no);
}

int main(void)
{
    static const float volts[] = {0.25f, 2.0f, 2.25f, 5.5f, INFINITY};
    uint8_t bytes[PD3120_SIZE_REAL_A] = {0};
    float litres = 0;

    /* No setup image: the box of all-zero settings. */
    pd3120_checked_power_up(&box, NULL, 0);
    if (!set_up())
        return 1;

    for (size_t i = 0; i < sizeof volts / sizeof volts[0]; i++) {
        uint32_t number = pd3120_checked_look_up(&box, 1, volts[i], &litres);
        if (number == PD3120_DONE)
            printf("%.2f V: %.1f litres\n", volts[i], litres);
        else
            printf("%.2f V: refused by %u. %s\n", volts[i], (unsigned)number, pd3120_reason(number));
    }

    /* RealA is there for what a program works out. */
    if (pd3120_checked_look_up(&box, 1, 2.25f, &litres) != PD3120_DONE)
        return 1;
    pd3120_put_real(bytes, litres);
    if (!put(PD3120_SWNO_REAL_A, bytes, sizeof bytes))
        return 1;
    pd3120_checked_read(&box, PD3120_SWNO_REAL_A, bytes, sizeof bytes);
    printf("The handheld reads %.1f litres\n", pd3120_get_real(bytes));
    return 0;
}

/*
 * The factory image: it is the one that the script of examples/ powers up from, which is given as the
 * argument, it is stored as the same bytes, and its registers read as pd3120_factory.h says.
 * bindings/rust/tests/factory.rs asks the same of the image in Rust, so that the two are equal. It is
 * C99 and C++.
 */
#include "pd3120_factory.h"

#include <stdio.h>
#include <string.h>

static pd3120_module box;
static unsigned failures;

static void check(bool holds, const char *what)
{
    if (!holds) {
        fprintf(stderr, "factory: %s\n", what);
        failures++;
    }
}

/* The bytes of hexadecimal digits, as far as they go and there is room; how many they are. */
static size_t bytes_of(const char *digits, uint8_t *bytes, size_t room)
{
    size_t length = 0;
    unsigned byte;

    while (length < room && sscanf(digits + 2 * length, "%2x", &byte) == 1)
        bytes[length++] = (uint8_t)byte;
    return length;
}

static bool stores_factory_image(void)
{
    uint8_t stored[PD3120_IMAGE_SIZE] = {0};

    return pd3120_number(pd3120_store(&box, stored, sizeof stored)) == PD3120_DONE &&
           memcmp(stored, pd3120_factory_image, sizeof stored) == 0;
}

/* What a register has to read as; the bytes are zero before. */
static void expect(uint16_t swno, uint8_t *bytes)
{
    const unsigned channel = swno >> 4, number = swno & 0xFu;

    if (swno == 0x00)
        memcpy(bytes, "\x01\x3F", 2); /* the highest SWNo */
    if (swno == 0x08 || swno == 0x0A)
        pd3120_put_real(bytes, 10.0f); /* WDTimer, WDPreset */
    if (swno == 0x0F)
        bytes[0] = 0x80; /* CommonError: His has power-up */
    if (channel >= 1 && channel <= 16 && number == 0xB)
        pd3120_put_real(bytes, 1.0f); /* MaxCurrent */
}

static void registers(void)
{
    unsigned listed = 0;

    for (uint16_t swno = 0; swno <= 0x13F; swno++) {
        uint8_t bytes[PD3120_TABLE_SIZE] = {0}, expected[PD3120_TABLE_SIZE] = {0};
        const uint32_t number = pd3120_number(pd3120_read(&box, swno, bytes, sizeof bytes));

        expect(swno, expected);
        check(number == PD3120_DONE || number == PD3120_UNLISTED, "a read is refused");
        check(memcmp(bytes, expected, sizeof bytes) == 0, "a register reads as another value");
        listed += number == PD3120_DONE;
    }
    check(listed == 8 + 16 * 15 + 4 + 6, "there are other registers");
}

int main(int argc, char **argv)
{
    uint8_t example[PD3120_IMAGE_SIZE] = {0};
    const size_t length = bytes_of(argc == 2 ? argv[1] : "", example, sizeof example);

    check(pd3120_power_up(&box, example, length) == PD3120_DONE, "the example's image is refused");
    check(stores_factory_image(), "the example has another image");
    check(pd3120_power_up(&box, pd3120_factory_image, sizeof pd3120_factory_image) == PD3120_DONE, "it is refused");
    check(stores_factory_image(), "it is not stored as the same bytes");
    registers();
    if (failures == 0)
        puts("factory: the image is that of the example, and is stored and read as it should");
    return failures != 0;
}

/*
 * The data channel: setup images with and without it, the bytes of a table, its registers, lookups.
 */
#include "boundary.h"

#include <float.h>
#include <math.h>
#include <string.h>

#define DATA_COUNT 714 /* place of the count before the data channel's section */
#define DATA 715       /* place of RealA, RealB and the two tables: 42 Reals */
#define REALS 42

static const uint8_t zeros[PD3120_TABLE_SIZE], yes[1] = {1}, no[1] = {0};

/* Bytes of Reals. */
static const uint8_t half[4] = {0x3F, 0x00, 0, 0}, one[4] = {0x3F, 0x80, 0, 0};
static const uint8_t not_finite[][4] = {{0x7F, 0x80, 0, 0}, {0xFF, 0x80, 0, 0}, {0x7F, 0xC0, 0, 0}, {0x7F, 0x80, 0, 1}};
#define NOT_FINITE (sizeof not_finite / sizeof not_finite[0])

/* Stores the box; the image is lent[0 .. PD3120_IMAGE_SIZE]. */
static void store(void)
{
    memset(memory, CANARY, sizeof memory);
    uint32_t code = pd3120_store(box, lent, ROOM);
    CHECK(pd3120_number(code) == PD3120_DONE && pd3120_length(code) == PD3120_IMAGE_SIZE);
    CHECK(intact_past(PD3120_IMAGE_SIZE) && arena_intact());
}

/* ---- images of both lengths ---- */

void older_images(void)
{
    uint8_t wrong[PD3120_IMAGE_SIZE];

    /* The data channel is zero; the rest is that of the long image. */
    CHECK(power_up(older, sizeof older) == PD3120_DONE);
    CHECK(reads(0x42, image + 10 + 3 * 44 + 36, 4));
    CHECK(reads(0x130, zeros, 4) && reads(0x131, zeros, 4));
    CHECK(reads(0x13C, zeros, PD3120_TABLE_SIZE) && reads(0x13D, zeros, PD3120_TABLE_SIZE));
    /* It is stored as a long one, which has zeros there. */
    store();
    CHECK(memcmp(lent, image, DATA) == 0);
    for (int real = 0; real < REALS; real++)
        CHECK(memcmp(lent + DATA + 4 * real, zeros, 4) == 0);
    CHECK(lent[PD3120_IMAGE_SIZE - 3] == 1);
    memcpy(wrong, lent, sizeof wrong);
    put_sum(wrong, sizeof wrong);
    CHECK(memcmp(lent, wrong, sizeof wrong) == 0);

    /* Its questions. */
    memcpy(wrong, older, sizeof older);
    CHECK(power_up(wrong, PD3120_OLDER_IMAGE_SIZE - 1) == PD3120_IMAGE_LENGTH);
    CHECK(power_up(wrong, PD3120_OLDER_IMAGE_SIZE + 1) == PD3120_IMAGE_LENGTH);
    wrong[DATA_COUNT] = 2;
    put_sum(wrong, PD3120_OLDER_IMAGE_SIZE);
    CHECK(power_up(wrong, PD3120_OLDER_IMAGE_SIZE) == PD3120_IMAGE_COUNTS);
    wrong[DATA_COUNT] = 1;
    CHECK(power_up(wrong, PD3120_OLDER_IMAGE_SIZE) == PD3120_IMAGE_SUM);
    wrong[2] = 1; /* Functions of ModuleConfig */
    put_sum(wrong, PD3120_OLDER_IMAGE_SIZE);
    CHECK(power_up(wrong, PD3120_OLDER_IMAGE_SIZE) == PD3120_IMAGE_VALUES);

    /* The long image's two counts at its end, and each of its Reals that must be finite. */
    static const size_t counts[] = {DATA_COUNT, PD3120_IMAGE_SIZE - 3};
    for (size_t i = 0; i < sizeof counts / sizeof counts[0]; i++) {
        memcpy(wrong, image, sizeof wrong);
        wrong[counts[i]] = 0;
        put_sum(wrong, sizeof wrong);
        CHECK(power_up(wrong, sizeof wrong) == PD3120_IMAGE_COUNTS);
    }
    for (size_t real = 0; real < REALS; real++) {
        memcpy(wrong, image, sizeof wrong);
        memcpy(wrong + DATA + 4 * real, not_finite[real % NOT_FINITE], 4);
        put_sum(wrong, sizeof wrong);
        CHECK(power_up(wrong, sizeof wrong) == PD3120_IMAGE_VALUES);
    }
}

/* ---- the bytes of a table ---- */

/* A tank float: X volts at Y litres. */
static const pd3120_pair tank[PD3120_PAIRS] = {{0.5f, 80}, {1, 610},     {1.5f, 1650}, {2, 2920},    {2.5f, 4290},
                                               {3, 5710},  {3.5f, 7080}, {4, 8350},    {4.5f, 9390}, {5, 10000}};

void table_bytes(void)
{
    static const uint8_t first[8] = {0x3F, 0x00, 0, 0, 0x42, 0xA0, 0, 0};   /* 0.5, 80 */
    static const uint8_t last[8] = {0x40, 0xA0, 0, 0, 0x46, 0x1C, 0x40, 0}; /* 5, 10000 */
    static const uint8_t minus_zero[4] = {0x80, 0, 0, 0}, least[4] = {0, 0, 0, 1};
    uint8_t bytes[PD3120_TABLE_SIZE], again[PD3120_TABLE_SIZE];
    pd3120_pair pairs[PD3120_PAIRS];

    pd3120_put_table(bytes, tank);
    CHECK(memcmp(bytes, first, 8) == 0 && memcmp(bytes + 72, last, 8) == 0);
    pd3120_get_table(pairs, bytes);
    for (int i = 0; i < PD3120_PAIRS; i++)
        CHECK(pairs[i].x == tank[i].x && pairs[i].y == tank[i].y);

    /* Every pattern of bits goes through both, of a Real that is none too. */
    for (int i = 0; i < PD3120_TABLE_SIZE; i++)
        bytes[i] = (uint8_t)(i * 37 + 5);
    memcpy(bytes, minus_zero, 4);
    memcpy(bytes + 4, least, 4);
    memcpy(bytes + 8, not_finite, 16);
    pd3120_get_table(pairs, bytes);
    pd3120_put_table(again, pairs);
    CHECK(memcmp(bytes, again, sizeof bytes) == 0);
    CHECK(pd3120_get_real(one) == 1.0f && pd3120_get_real(least) == 0x1p-149f);
    CHECK(signbit(pd3120_get_real(minus_zero)) && isinf(pd3120_get_real(not_finite[0])));
    pd3120_put_real(again, -0.0f);
    CHECK(memcmp(again, minus_zero, 4) == 0);
}

/* ---- registers ---- */

void data_registers(void)
{
    static const uint8_t minus_one[4] = {0xBF, 0x80, 0, 0}, ticked[4] = {0x3F, 0x78, 0, 0}; /* 1 s less a tick */
    static const uint8_t reset[1] = {0xFF};
    static const uint16_t reals[4] = {0x130, 0x131, 0x13A, 0x13B};
    uint8_t table[PD3120_TABLE_SIZE], wrong[PD3120_TABLE_SIZE];

    /* As the image has them. */
    CHECK(power_up(image, PD3120_IMAGE_SIZE) == PD3120_DONE);
    CHECK(reads(0x130, image + DATA, 4) && reads(0x131, image + DATA + 4, 4));
    CHECK(reads(0x13A, zeros, 4) && reads(0x13B, zeros, 4));
    CHECK(reads(0x13C, image + DATA + 8, PD3120_TABLE_SIZE));
    CHECK(reads(0x13D, image + DATA + 88, PD3120_TABLE_SIZE));
    pd3120_module before = *box;

    /* What is refused: numbers that have no register, lengths, Reals, and a table without WriteEnable. */
    for (uint16_t swno = 0x120; swno <= 0x13F; swno++)
        if (swno != 0x130 && swno != 0x131 && (swno < 0x13A || swno > 0x13D)) {
            CHECK(pd3120_number(wire_read(swno, ROOM)) == PD3120_UNLISTED);
            CHECK(wire_write(swno, zeros, 4) == PD3120_UNLISTED);
        }
    pd3120_put_table(table, tank);
    CHECK(pd3120_number(wire_read(0x130, 3)) == PD3120_BUFFER_TOO_SHORT);
    CHECK(pd3120_number(wire_read(0x13C, PD3120_TABLE_SIZE - 1)) == PD3120_BUFFER_TOO_SHORT);
    CHECK(wire_write(0x131, zeros, 5) == PD3120_WRONG_LENGTH);
    CHECK(wire_write(0x13C, table, PD3120_TABLE_SIZE - 8) == PD3120_WRONG_LENGTH);
    CHECK(wire_write(0x13C, table, PD3120_TABLE_SIZE) == PD3120_NOT_ENABLED);
    for (size_t i = 0; i < 4; i++)
        for (size_t j = 0; j < NOT_FINITE; j++)
            CHECK(wire_write(reals[i], not_finite[j], 4) == PD3120_NOT_ALLOWED);
    CHECK(alike(box, &before));
    CHECK(wire_write(0x0D, yes, 1) == PD3120_DONE);
    before = *box;
    for (size_t real = 0; real < 20; real++) {
        memcpy(wrong, table, sizeof wrong);
        memcpy(wrong + 4 * real, not_finite[real % NOT_FINITE], 4);
        CHECK(wire_write(0x13C, wrong, sizeof wrong) == PD3120_NOT_ALLOWED);
        CHECK(wire_write(0x13D, wrong, sizeof wrong) == PD3120_NOT_ALLOWED);
    }
    CHECK(alike(box, &before));

    /* What is taken is read, into a buffer of the exact length and into a longer one; a table is kept at once. */
    CHECK(wire_write(0x13C, table, PD3120_TABLE_SIZE) == PD3120_DONE);
    CHECK(pd3120_length(wire_read(0x13C, PD3120_TABLE_SIZE)) == PD3120_TABLE_SIZE);
    CHECK(memcmp(lent, table, sizeof table) == 0);
    CHECK(reads(0x13C, table, PD3120_TABLE_SIZE));
    CHECK(reads(0x13D, image + DATA + 88, PD3120_TABLE_SIZE));
    store();
    CHECK(memcmp(lent + DATA + 8, table, sizeof table) == 0);

    /* RealA and RealB are kept while WriteEnable is TRUE, and a reset gives what was kept. */
    CHECK(wire_write(0x130, half, 4) == PD3120_DONE && wire_write(0x131, minus_one, 4) == PD3120_DONE);
    CHECK(wire_write(0x0D, no, 1) == PD3120_DONE);
    CHECK(wire_write(0x130, one, 4) == PD3120_DONE && wire_write(0x131, one, 4) == PD3120_DONE);
    CHECK(reads(0x130, one, 4) && reads(0x131, one, 4));
    store();
    CHECK(memcmp(lent + DATA, half, 4) == 0 && memcmp(lent + DATA + 4, minus_one, 4) == 0);
    CHECK(wire_write(0x13A, one, 4) == PD3120_DONE && wire_write(0x13B, half, 4) == PD3120_DONE);
    CHECK(reads(0x13A, one, 4) && reads(0x13B, half, 4));
    pd3120_tick(box);
    CHECK(reads(0x13A, ticked, 4));
    CHECK(wire_write(0x03, reset, 1) == PD3120_DONE);
    CHECK(reads(0x130, half, 4) && reads(0x131, minus_one, 4));
    CHECK(reads(0x13A, zeros, 4) && reads(0x13B, zeros, 4));
    CHECK(reads(0x13C, table, PD3120_TABLE_SIZE));
}

/* ---- lookups ---- */

/* Writes a table, for which WriteEnable is TRUE. */
static void put_table(uint16_t swno, const pd3120_pair *pairs)
{
    uint8_t bytes[PD3120_TABLE_SIZE];
    pd3120_put_table(bytes, pairs);
    CHECK(wire_write(swno, bytes, sizeof bytes) == PD3120_DONE);
}

/* The bits of a lookup that must be done. */
static uint32_t looked_up(uint8_t table, float x)
{
    uint64_t code = pd3120_look_up(box, table, x);
    CHECK(code >> 32 == PD3120_DONE);
    CHECK(arena_intact());
    return (uint32_t)code;
}

static bool gives(uint8_t table, float x, float y)
{
    uint32_t bits;
    memcpy(&bits, &y, sizeof bits);
    return looked_up(table, x) == bits;
}

static void refused_lookups(void)
{
    static const uint8_t outside[] = {0, 3, 4, 128, 254, 255};
    const float bad[] = {NAN, INFINITY, -INFINITY};
    pd3120_module before = *box;

    /* 15 is asked before 7. The Real is 0, all its bits. */
    for (size_t i = 0; i < sizeof outside; i++) {
        CHECK(pd3120_look_up(box, outside[i], 2.25f) == (uint64_t)PD3120_NO_TABLE << 32);
        CHECK(pd3120_look_up(box, outside[i], NAN) == (uint64_t)PD3120_NO_TABLE << 32);
    }
    for (uint8_t table = 1; table <= 2; table++)
        for (size_t i = 0; i < sizeof bad / sizeof bad[0]; i++)
            CHECK(pd3120_look_up(box, table, bad[i]) == (uint64_t)PD3120_NOT_ALLOWED << 32);
    CHECK(alike(box, &before) && arena_intact());
}

/* What the arithmetic of Reals brings, in table 2. */
static void odd_lookups(void)
{
    pd3120_pair pairs[PD3120_PAIRS] = {{0, 0},
                                       {3, 2},
                                       {4, -0.0f},
                                       {5, 0x1p-148f},
                                       {6, 0},
                                       {7, FLT_MAX},
                                       {8, -FLT_MAX},
                                       {9, 0},
                                       {10, 1e30f},
                                       {11, 1}};

    put_table(0x13D, pairs);
    /* Rounded as it goes: 2 times 2 is divided by 3. */
    CHECK(looked_up(2, 1) == 0x3F2AAAAB && looked_up(2, 2) == 0x3FAAAAAB);
    /* -0 equals 0 as an X, and is answered as a Y. */
    CHECK(looked_up(2, -0.0f) == 0 && looked_up(2, 4) == 0x80000000);
    /* The smallest Reals are not taken for 0. */
    CHECK(looked_up(2, 5) == 2 && looked_up(2, 5.5f) == 1);
    /* A difference that overflows goes on as infinity. */
    CHECK(looked_up(2, 7) == 0x7F7FFFFF && looked_up(2, 7.5f) == 0xFF800000 && looked_up(2, 8) == 0xFF7FFFFF);
    /* An entry is answered as it is. The line's sum would be 0 here: 1e30 + (1 - 1e30). */
    CHECK(gives(2, 11, 1));

    /* Infinity by infinity is the one NaN. */
    pairs[0] = (pd3120_pair){-FLT_MAX, -FLT_MAX};
    for (int i = 1; i < PD3120_PAIRS; i++)
        pairs[i] = (pd3120_pair){FLT_MAX, FLT_MAX};
    put_table(0x13D, pairs);
    CHECK(looked_up(2, 0) == 0x7FC00000);
    CHECK(looked_up(2, FLT_MAX) == 0x7F7FFFFF && looked_up(2, -FLT_MAX) == 0xFF7FFFFF);

    /* X that does not rise: the first entry that X is not above. */
    const pd3120_pair jumping[PD3120_PAIRS] = {{1, 10}, {5, 50}, {3, 33}, {2, 20}, {9, 90},
                                               {4, 40}, {6, 66}, {7, 77}, {8, 88}, {6, 0}};
    put_table(0x13D, jumping);
    CHECK(gives(2, 3, 30) && gives(2, 6, 60) && gives(2, 7, 0));
}

void lookups(void)
{
    static const uint8_t full[4] = {0x41, 0x20, 0, 0}, ticked[4] = {0x41, 0x1F, 0x80, 0}; /* 10 s, and less a tick */

    CHECK(power_up(older, PD3120_OLDER_IMAGE_SIZE) == PD3120_DONE);
    CHECK(gives(1, 0, 0) && gives(1, 3, 0) && gives(2, -3, 0));
    CHECK(wire_write(0x0D, yes, 1) == PD3120_DONE);
    put_table(0x13C, tank);
    CHECK(gives(2, 3, 0));
    refused_lookups();
    pd3120_module before = *box;

    /* At every entry, below the first, above the last, and between: 2920 + 1370 * 0.25 / 0.5. */
    for (int i = 0; i < PD3120_PAIRS; i++)
        CHECK(gives(1, tank[i].x, tank[i].y));
    CHECK(gives(1, 0.25f, 80) && gives(1, -0.0f, 80) && gives(1, -FLT_MAX, 80));
    CHECK(gives(1, nextafterf(5, 6), 10000) && gives(1, FLT_MAX, 10000));
    CHECK(gives(1, 2.25f, 3605) && gives(1, 0.75f, 345));
    CHECK(alike(box, &before));

    odd_lookups();

    /* No wire call: the watchdog is not started again. */
    CHECK(reads(0x08, full, 4));
    pd3120_tick(box);
    CHECK(gives(1, 2.25f, 3605));
    CHECK(reads(0x08, ticked, 4));
}

/*
 * The names of include/pd3120_registers.h against the library: each register's size by a read, the SWNos of
 * channels, numbers as bytes, and bits of each kind after the calls that set them. It is C and C++.
 */
#include "pd3120_registers.h"

#include <stdio.h>

#define COUNT(array) (sizeof(array) / sizeof(array)[0])
#define CHECK(condition) check_at(__LINE__, #condition, condition)

static pd3120_module box;
static unsigned checks, failures;

static void check_at(int line, const char *what, bool holds)
{
    checks++;
    if (!holds) {
        fprintf(stderr, "registers.c:%d: %s\n", line, what);
        failures++;
    }
}

static uint8_t bytes[PD3120_TABLE_SIZE]; /* what was read last, and zeros; it has room for any register */

static bool reads(uint16_t swno, size_t size)
{
    memset(bytes, 0, sizeof bytes);
    uint32_t answer = pd3120_read(&box, swno, bytes, sizeof bytes);
    return pd3120_number(answer) == PD3120_DONE && pd3120_length(answer) == size;
}

static uint32_t writes(uint16_t swno, const uint8_t *given, size_t size)
{
    return pd3120_number(pd3120_write(&box, swno, given, size));
}

static bool writes_byte(uint16_t swno, uint8_t byte)
{
    return writes(swno, &byte, 1) == PD3120_DONE;
}

/* The box of all-zero settings, with WriteEnable TRUE and without a watchdog. */
static void power_up(void)
{
    static const uint8_t config[PD3120_SIZE_MODULE_CONFIG] = {0, PD3120_WATCHDOG_OFF, 0, 0};

    pd3120_checked_power_up(&box, NULL, 0);
    CHECK(writes_byte(PD3120_SWNO_WRITE_ENABLE, 1));
    CHECK(writes(PD3120_SWNO_MODULE_CONFIG, config, sizeof config) == PD3120_DONE);
}

typedef struct named {
    uint16_t number; /* a SWNo, or a register of a digital channel */
    size_t size;
} named;

static const named whole[] = {
    {PD3120_SWNO_NUMBER_OF_SWNO, PD3120_SIZE_NUMBER_OF_SWNO},
    {PD3120_SWNO_RESET, PD3120_SIZE_RESET},
    {PD3120_SWNO_FREE_RUN_TIMER, PD3120_SIZE_FREE_RUN_TIMER},
    {PD3120_SWNO_WD_TIMER, PD3120_SIZE_WD_TIMER},
    {PD3120_SWNO_MODULE_CONFIG, PD3120_SIZE_MODULE_CONFIG},
    {PD3120_SWNO_WD_PRESET, PD3120_SIZE_WD_PRESET},
    {PD3120_SWNO_WRITE_ENABLE, PD3120_SIZE_WRITE_ENABLE},
    {PD3120_SWNO_COMMON_ERROR, PD3120_SIZE_COMMON_ERROR},
    {PD3120_SWNO_OUT_FLAGS, PD3120_SIZE_OUT_FLAGS},
    {PD3120_SWNO_IN_FLAGS, PD3120_SIZE_IN_FLAGS},
    {PD3120_SWNO_IO_CH_ERROR, PD3120_SIZE_IO_CH_ERROR},
    {PD3120_SWNO_COMMON_CH_ERROR, PD3120_SIZE_COMMON_CH_ERROR},
    {PD3120_SWNO_REAL_A, PD3120_SIZE_REAL_A},
    {PD3120_SWNO_REAL_B, PD3120_SIZE_REAL_B},
    {PD3120_SWNO_TIMER_A, PD3120_SIZE_TIMER_A},
    {PD3120_SWNO_TIMER_B, PD3120_SIZE_TIMER_B},
    {PD3120_SWNO_LOOK_UP1, PD3120_SIZE_LOOK_UP1},
    {PD3120_SWNO_LOOK_UP2, PD3120_SIZE_LOOK_UP2},
};

static const named of_channel[] = {
    {PD3120_REG_FLAG_REG, PD3120_SIZE_FLAG_REG},
    {PD3120_REG_OUT_TIMER, PD3120_SIZE_OUT_TIMER},
    {PD3120_REG_COUNTER, PD3120_SIZE_COUNTER},
    {PD3120_REG_OUT_CURRENT, PD3120_SIZE_OUT_CURRENT},
    {PD3120_REG_OPERATING_TIME, PD3120_SIZE_OPERATING_TIME},
    {PD3120_REG_USER_BYTE_ARRAY, PD3120_SIZE_USER_BYTE_ARRAY},
    {PD3120_REG_FB_TIMER, PD3120_SIZE_FB_TIMER},
    {PD3120_REG_FB_PRESET, PD3120_SIZE_FB_PRESET},
    {PD3120_REG_OUT_PRESET, PD3120_SIZE_OUT_PRESET},
    {PD3120_REG_CH_CONFIG, PD3120_SIZE_CH_CONFIG},
    {PD3120_REG_MIN_CURRENT, PD3120_SIZE_MIN_CURRENT},
    {PD3120_REG_MAX_CURRENT, PD3120_SIZE_MAX_CURRENT},
    {PD3120_REG_USER_REAL_ARRAY, PD3120_SIZE_USER_REAL_ARRAY},
    {PD3120_REG_MAINTENANCE, PD3120_SIZE_MAINTENANCE},
    {PD3120_REG_CH_ERROR, PD3120_SIZE_CH_ERROR},
};

static void sizes(void)
{
    power_up();
    for (size_t i = 0; i < COUNT(whole); i++)
        CHECK(reads(whole[i].number, whole[i].size));
    for (unsigned channel = 1; channel <= PD3120_CHANNELS; channel++)
        for (size_t i = 0; i < COUNT(of_channel); i++)
            CHECK(reads(pd3120_swno(channel, of_channel[i].number), of_channel[i].size));
    CHECK(PD3120_SIZE_LOOK_UP1 == PD3120_TABLE_SIZE && PD3120_SIZE_LOOK_UP2 == PD3120_TABLE_SIZE);
    CHECK(reads(PD3120_SWNO_NUMBER_OF_SWNO, 2) && pd3120_get_u16(bytes) == PD3120_HIGHEST_SWNO);
}

/* No channel but 1 to 16, and no register above $F, gives a SWNo that a call takes. */
static void swnos(void)
{
    CHECK(pd3120_swno(1, 0x0) == 0x10 && pd3120_swno(4, 0x2) == 0x42 && pd3120_swno(16, 0xF) == 0x10F);
    for (unsigned channel = 0; channel <= 300; channel++)
        for (unsigned reg = 0; reg <= 20; reg++) {
            bool there = channel >= 1 && channel <= 16 && reg <= 15;
            CHECK(pd3120_swno(channel, reg) == (there ? channel * 16 + reg : 0xFFFF));
        }
    CHECK(pd3120_swno(UINT32_MAX, 0) == PD3120_SWNO_NONE && pd3120_swno(1, UINT32_MAX) == PD3120_SWNO_NONE);
    CHECK(pd3120_number(pd3120_read(&box, PD3120_SWNO_NONE, bytes, sizeof bytes)) == PD3120_BEYOND);
    CHECK(writes(PD3120_SWNO_NONE, bytes, 1) == PD3120_BEYOND);
}

static void channel_bits(void)
{
    CHECK(pd3120_channel_bit(0) == 0 && pd3120_channel_bit(17) == 0 && pd3120_channel_bit(UINT32_MAX) == 0);
    CHECK(pd3120_channel_bit(1) == 0x0001 && pd3120_channel_bit(16) == 0x8000);
    CHECK(pd3120_com_bit(0) == 0 && pd3120_com_bit(18) == 0 && pd3120_com_bit(UINT32_MAX) == 0);
    CHECK(pd3120_com_bit(1) == 0x00002 && pd3120_com_bit(16) == 0x10000 && pd3120_com_bit(17) == 0x20000);
}

/* Each from its bytes, and back. */
static void numbers(void)
{
    static const uint8_t given[4] = {0x81, 0x23, 0xC5, 0xE7};
    uint8_t put[4] = {0};

    CHECK(pd3120_get_u16(given) == 0x8123 && pd3120_get_u16(given + 2) == 0xC5E7);
    CHECK(pd3120_get_u32(given) == 0x8123C5E7u);
    CHECK(pd3120_get_i32(given) == -2128362009);
    CHECK(pd3120_get_com(given) == 0xC52381u);
    pd3120_put_u16(put, 0x8123);
    CHECK(put[0] == 0x81 && put[1] == 0x23 && put[2] == 0);
    pd3120_put_u32(put, 0x8123C5E7u);
    CHECK(memcmp(put, given, 4) == 0);
    memset(put, 0, sizeof put);
    pd3120_put_i32(put, -2128362009);
    CHECK(memcmp(put, given, 4) == 0);
    pd3120_put_i32(put, INT32_MIN);
    CHECK(put[0] == 0x80 && put[1] == 0 && put[2] == 0 && put[3] == 0);
    CHECK(pd3120_get_i32(put) == INT32_MIN);
}

/* A Counter over the wire, which wraps into negative numbers. */
static void counter(void)
{
    uint8_t highest[PD3120_SIZE_COUNTER];
    uint16_t swno = pd3120_swno(16, PD3120_REG_COUNTER);

    power_up();
    pd3120_put_i32(highest, INT32_MAX);
    CHECK(writes(swno, highest, sizeof highest) == PD3120_DONE);
    CHECK(pd3120_sample(&box, 16, true, 0.0f) == PD3120_DONE);
    CHECK(reads(swno, PD3120_SIZE_COUNTER) && pd3120_get_i32(bytes) == INT32_MIN);
}

/* An output that is on, in the bits that show it. */
static void flags(unsigned channel)
{
    static const uint8_t config[PD3120_SIZE_CH_CONFIG] = {0, PD3120_FUNCTIONS_OUTPUT, 0, 0};
    uint16_t flag_reg = pd3120_swno(channel, PD3120_REG_FLAG_REG);

    power_up();
    CHECK(writes(pd3120_swno(channel, PD3120_REG_CH_CONFIG), config, sizeof config) == PD3120_DONE);
    CHECK(writes_byte(flag_reg, PD3120_FLAG_OUT_FLAG) && pd3120_output(&box, (uint8_t)channel));
    CHECK(reads(flag_reg, 1) && bytes[0] == PD3120_FLAG_OUT_FLAG);
    CHECK(reads(PD3120_SWNO_OUT_FLAGS, 2) && pd3120_get_u16(bytes) == pd3120_channel_bit(channel));
}

/* Whether His, and Act where it is `act` too, tell of a channel in the words of all channels. */
static void told(unsigned channel, bool act)
{
    uint16_t bit = pd3120_channel_bit(channel);
    uint32_t com_bits = pd3120_com_bit(channel) | pd3120_com_bit(PD3120_CHANNELS + 1);

    CHECK(reads(PD3120_SWNO_IO_CH_ERROR, 4));
    CHECK(pd3120_get_u16(bytes + PD3120_OFFSET_IO_CH_ERROR_HIS) == bit);
    CHECK(pd3120_get_u16(bytes + PD3120_OFFSET_IO_CH_ERROR_ACT) == (act ? bit : 0));
    CHECK(reads(PD3120_SWNO_COMMON_ERROR, 12));
    CHECK(pd3120_get_com(bytes + PD3120_OFFSET_COMMON_ERROR_COM_HIS) == com_bits);
    CHECK(pd3120_get_com(bytes + PD3120_OFFSET_COMMON_ERROR_COM_ACT) == (act ? com_bits : 0));
    CHECK((bytes[PD3120_OFFSET_COMMON_ERROR_HIS] & PD3120_COMMON_ERROR_ANY_CHANNEL) != 0);
    CHECK(bytes[PD3120_OFFSET_COMMON_ERROR_ACT] == (act ? PD3120_COMMON_ERROR_ANY_CHANNEL : 0));
    CHECK(reads(PD3120_SWNO_COMMON_CH_ERROR, 4));
    CHECK(bytes[PD3120_OFFSET_COMMON_CH_ERROR_HIS] == PD3120_COMMON_CH_ERROR_ANY);
    CHECK(bytes[PD3120_OFFSET_COMMON_CH_ERROR_ACT] == (act ? PD3120_COMMON_CH_ERROR_ANY : 0));
}

/* An overload; then FlagReg is written, and it is over. */
static void errors(unsigned channel)
{
    uint16_t flag_reg = pd3120_swno(channel, PD3120_REG_FLAG_REG);

    power_up();
    CHECK(reads(PD3120_SWNO_COMMON_ERROR, 12));
    CHECK(bytes[PD3120_OFFSET_COMMON_ERROR_HIS] == PD3120_COMMON_ERROR_INTERNAL_RESET);
    CHECK(pd3120_sample(&box, (uint8_t)channel, true, 2.5f) == PD3120_DONE);
    CHECK(reads(flag_reg, 1) && bytes[0] == (PD3120_FLAG_IN_FLAG | PD3120_FLAG_ERROR));
    told(channel, true);
    CHECK(writes_byte(flag_reg, 0));
    told(channel, false);
    CHECK(reads(pd3120_swno(channel, PD3120_REG_CH_ERROR), 4));
    CHECK(bytes[PD3120_OFFSET_CH_ERROR_HIS] == PD3120_CH_ERROR_OVERLOAD);
    CHECK(bytes[PD3120_OFFSET_CH_ERROR_ACT] == 0);
}

int main(void)
{
    sizes();
    swnos();
    channel_bits();
    numbers();
    counter();
    for (unsigned channel = 1; channel <= PD3120_CHANNELS; channel++) {
        flags(channel);
        errors(channel);
    }
    if (failures != 0) {
        fprintf(stderr, "registers: %u of %u checks failed\n", failures, checks);
        return 1;
    }
    printf("registers: %u checks passed\n", checks);
    return 0;
}

/*
 * The registers of the PD 3120 channel box by name, from C and C++. docs/REGISTERS.md tells what each is.
 *
 * Made by tools/registers from docs/registers.tsv. Edit that file, or the text in tools/registers.d, and run it.
 *
 *   PD3120_SWNO_...    a SWNo, for pd3120_read and pd3120_write: of the service, the common and the data channel
 *   PD3120_REG_...     a register of a digital channel; pd3120_swno makes a SWNo of it
 *   PD3120_SIZE_...    the bytes of a register
 *   PD3120_OFFSET_...  where in the bytes of its register a field begins
 * The others are bits of a byte, as masks, and values of one.
 *
 *   uint8_t bytes[PD3120_SIZE_COUNTER] = {0};
 *   uint32_t answer = pd3120_read(&box, pd3120_swno(4, PD3120_REG_COUNTER), bytes, sizeof bytes);
 *   if (pd3120_number(answer) == PD3120_DONE)
 *       printf("%ld\n", (long)pd3120_get_i32(bytes));
 */
#ifndef PD3120_REGISTERS_H
#define PD3120_REGISTERS_H

#include "pd3120.h"

#ifdef __cplusplus
extern "C" {
#endif

#define PD3120_CHANNELS 16      /* digital channels, numbered from 1 */
#define PD3120_SWNO_NONE 0xFFFF /* no SWNo: every wire call refuses it by 1 */

/* ---- Registers: R read only, W writable, P protected ---- */

/* The service channel, the common channel and the data channel. */
#define PD3120_SWNO_NUMBER_OF_SWNO             0x000 /* NumberOfSWNo: R, 2 bytes, unsigned 16 bits */
#define PD3120_SWNO_RESET                      0x003 /* Reset: W, 1 byte */
#define PD3120_SWNO_FREE_RUN_TIMER             0x007 /* FreeRunTimer: R, 4 bytes, signed 32 bits, 1/256 s */
#define PD3120_SWNO_WD_TIMER                   0x008 /* WDTimer: W, 4 bytes, Real, s */
#define PD3120_SWNO_MODULE_CONFIG              0x009 /* ModuleConfig: P, 4 bytes, config */
#define PD3120_SWNO_WD_PRESET                  0x00A /* WDPreset: P, 4 bytes, Real, s */
#define PD3120_SWNO_WRITE_ENABLE               0x00D /* WriteEnable: W, 1 byte, Boolean */
#define PD3120_SWNO_COMMON_ERROR               0x00F /* CommonError: W, 12 bytes, errors */
#define PD3120_SWNO_OUT_FLAGS                  0x110 /* OutFlags: W, 2 bytes, bits */
#define PD3120_SWNO_IN_FLAGS                   0x111 /* InFlags: W, 2 bytes, bits */
#define PD3120_SWNO_IO_CH_ERROR                0x112 /* IOChError: R, 4 bytes, errors */
#define PD3120_SWNO_COMMON_CH_ERROR            0x11F /* ChError: R, 4 bytes, errors */
#define PD3120_SWNO_REAL_A                     0x130 /* RealA: W, 4 bytes, Real */
#define PD3120_SWNO_REAL_B                     0x131 /* RealB: W, 4 bytes, Real */
#define PD3120_SWNO_TIMER_A                    0x13A /* TimerA: W, 4 bytes, Real, s */
#define PD3120_SWNO_TIMER_B                    0x13B /* TimerB: W, 4 bytes, Real, s */
#define PD3120_SWNO_LOOK_UP1                   0x13C /* LookUp1: P, 80 bytes, pairs of Reals */
#define PD3120_SWNO_LOOK_UP2                   0x13D /* LookUp2: P, 80 bytes, pairs of Reals */

/* Of each digital channel. */
#define PD3120_REG_FLAG_REG                    0x0   /* FlagReg: W, 1 byte, bits */
#define PD3120_REG_OUT_TIMER                   0x1   /* OutTimer: W, 4 bytes, Real, s */
#define PD3120_REG_COUNTER                     0x2   /* Counter: W, 4 bytes, signed 32 bits, pulses */
#define PD3120_REG_OUT_CURRENT                 0x3   /* OutCurrent: W, 4 bytes, Real, A */
#define PD3120_REG_OPERATING_TIME              0x4   /* OperatingTime: W, 4 bytes, Real, s */
#define PD3120_REG_USER_BYTE_ARRAY             0x5   /* UserByteArray: W, 4 bytes */
#define PD3120_REG_FB_TIMER                    0x6   /* FBTimer: W, 4 bytes, Real, s */
#define PD3120_REG_FB_PRESET                   0x7   /* FBPreset: P, 4 bytes, Real, s */
#define PD3120_REG_OUT_PRESET                  0x8   /* OutPreset: P, 4 bytes, Real, s */
#define PD3120_REG_CH_CONFIG                   0x9   /* ChConfig: P, 4 bytes, config */
#define PD3120_REG_MIN_CURRENT                 0xA   /* MinCurrent: P, 4 bytes, Real, A */
#define PD3120_REG_MAX_CURRENT                 0xB   /* MaxCurrent: P, 4 bytes, Real, A */
#define PD3120_REG_USER_REAL_ARRAY             0xC   /* UserRealArray: P, 8 bytes */
#define PD3120_REG_MAINTENANCE                 0xD   /* Maintenance: P, 4 bytes */
#define PD3120_REG_CH_ERROR                    0xF   /* ChError: R, 4 bytes, errors */

/* ---- Sizes, in bytes ---- */

#define PD3120_SIZE_NUMBER_OF_SWNO             2
#define PD3120_SIZE_RESET                      1
#define PD3120_SIZE_FREE_RUN_TIMER             4
#define PD3120_SIZE_WD_TIMER                   4
#define PD3120_SIZE_MODULE_CONFIG              4
#define PD3120_SIZE_WD_PRESET                  4
#define PD3120_SIZE_WRITE_ENABLE               1
#define PD3120_SIZE_COMMON_ERROR               12
#define PD3120_SIZE_FLAG_REG                   1
#define PD3120_SIZE_OUT_TIMER                  4
#define PD3120_SIZE_COUNTER                    4
#define PD3120_SIZE_OUT_CURRENT                4
#define PD3120_SIZE_OPERATING_TIME             4
#define PD3120_SIZE_USER_BYTE_ARRAY            4
#define PD3120_SIZE_FB_TIMER                   4
#define PD3120_SIZE_FB_PRESET                  4
#define PD3120_SIZE_OUT_PRESET                 4
#define PD3120_SIZE_CH_CONFIG                  4
#define PD3120_SIZE_MIN_CURRENT                4
#define PD3120_SIZE_MAX_CURRENT                4
#define PD3120_SIZE_USER_REAL_ARRAY            8
#define PD3120_SIZE_MAINTENANCE                4
#define PD3120_SIZE_CH_ERROR                   4
#define PD3120_SIZE_OUT_FLAGS                  2
#define PD3120_SIZE_IN_FLAGS                   2
#define PD3120_SIZE_IO_CH_ERROR                4
#define PD3120_SIZE_COMMON_CH_ERROR            4
#define PD3120_SIZE_REAL_A                     4
#define PD3120_SIZE_REAL_B                     4
#define PD3120_SIZE_TIMER_A                    4
#define PD3120_SIZE_TIMER_B                    4
#define PD3120_SIZE_LOOK_UP1                   80
#define PD3120_SIZE_LOOK_UP2                   80

/* ---- Fields ---- */

#define PD3120_OFFSET_MODULE_CONFIG_ENABLEBIT  0     /* Not used */
#define PD3120_OFFSET_MODULE_CONFIG_FUNCTIONS  1     /* Whether the watchdog is on */
#define PD3120_OFFSET_MODULE_CONFIG_REF_A      2     /* Not used */
#define PD3120_OFFSET_MODULE_CONFIG_REF_B      3     /* Not used */
#define PD3120_OFFSET_COMMON_ERROR_HIS         0     /* Errors of the box until they are acknowledged */
#define PD3120_OFFSET_COMMON_ERROR_ACT         2     /* Errors of the box that are there now */
#define PD3120_OFFSET_COMMON_ERROR_COM_HIS     4     /* Channels whose His is not 0 */
#define PD3120_OFFSET_COMMON_ERROR_COM_ACT     8     /* Channels whose Act is not 0, in the same way */
#define PD3120_OFFSET_CH_CONFIG_ENABLEBIT      0     /* Options */
#define PD3120_OFFSET_CH_CONFIG_FUNCTIONS      1     /* What drives the output */
#define PD3120_OFFSET_CH_CONFIG_REF_A          2     /* Channel whose InFlag is to equal OutFlag */
#define PD3120_OFFSET_CH_CONFIG_REF_B          3     /* Channel whose InFlag is to differ from OutFlag */
#define PD3120_OFFSET_MAINTENANCE_DATE         0     /* Day of the last service */
#define PD3120_OFFSET_MAINTENANCE_MONTH        1     /* Month of the last service */
#define PD3120_OFFSET_MAINTENANCE_YEAR         2     /* Year of the last service */
#define PD3120_OFFSET_MAINTENANCE_TYPE         3     /* Type of the last service */
#define PD3120_OFFSET_CH_ERROR_HIS             0     /* Errors until they are acknowledged */
#define PD3120_OFFSET_CH_ERROR_ACT             2     /* Errors that are there now */
#define PD3120_OFFSET_IO_CH_ERROR_HIS          0     /* Channels whose His is not 0, bit k-1 for channel k */
#define PD3120_OFFSET_IO_CH_ERROR_ACT          2     /* Channels whose Act is not 0, bit k-1 for channel k */
#define PD3120_OFFSET_COMMON_CH_ERROR_HIS      0     /* Of His of all channels */
#define PD3120_OFFSET_COMMON_CH_ERROR_ACT      2     /* Of Act of all channels */

/* ---- Bits ---- */

/* FlagReg. */
#define PD3120_FLAG_OUT_FLAG                   0x80  /* The output is to be on */
#define PD3120_FLAG_IN_FLAG                    0x40  /* Level of the terminal */
#define PD3120_FLAG_IN_A                       0x20  /* InFlag of the channel Ref_A, 0 without one */
#define PD3120_FLAG_IN_B                       0x10  /* InFlag of the channel Ref_B, 0 without one */
#define PD3120_FLAG_CONTROL                    0x08  /* The function of the channel drives OutFlag */
#define PD3120_FLAG_FB_STATUS                  0x04  /* The feedback is wrong */
#define PD3120_FLAG_ERROR                      0x02  /* Act of ChError is not 0 */

/* ChError of a digital channel, in His and in Act. */
#define PD3120_CH_ERROR_OVERLOAD               0x40  /* The current tripped the output */
#define PD3120_CH_ERROR_UNDERLOAD              0x20  /* The load current is below MinCurrent */
#define PD3120_CH_ERROR_EXTERNAL_SHORT_CIR     0x10  /* InFlag TRUE, OutFlag FALSE, Functions not 0 */
#define PD3120_CH_ERROR_INTERNAL_SHORT_CIR     0x08  /* OutFlag FALSE, and a current above 0.1 A */
#define PD3120_CH_ERROR_INTERNAL_DISCONNECTION 0x04  /* OutFlag TRUE, InFlag FALSE, no OverLoad in Act */
#define PD3120_CH_ERROR_FEEDBACK               0x02  /* FBStatus TRUE, and FBTimer below 0 */
#define PD3120_CH_ERROR_PRG                    0x01  /* A write set a flag that Functions does not allow */

/* CommonError, in His and in Act. */
#define PD3120_COMMON_ERROR_INTERNAL_RESET     0x80  /* The box powered up */
#define PD3120_COMMON_ERROR_EXTERNAL_RESET     0x40  /* Reset was written */
#define PD3120_COMMON_ERROR_WD_RUN_OUT         0x08  /* The watchdog ran out */
#define PD3120_COMMON_ERROR_ANY_CHANNEL        0x01  /* ComHis, for Act ComAct, is not 0 */

/* ChError of the common channel, in His and in Act. */
#define PD3120_COMMON_CH_ERROR_ANY             0x01  /* The word of IOChError is not 0 */

/* Enablebit of ChConfig. */
#define PD3120_ENABLE_NO_OVERLOAD              0x40  /* A trip does not set OverLoad */
#define PD3120_ENABLE_UNDERLOAD                0x20  /* UnderLoad is looked for */
#define PD3120_ENABLE_SIMULATED_FEEDBACK       0x04  /* InAFlag and InBFlag follow OutFlag */
#define PD3120_ENABLE_SIMULATED_INPUT          0x01  /* InFlag is written, and samples do not set it */

/* ---- Values ---- */

/* NumberOfSWNo. */
#define PD3120_HIGHEST_SWNO                    0x13F /* SWNos above it are refused by 1 */

/* Reset. */
#define PD3120_RESET_START                     0xFF  /* Starts the box again */

/* Functions of ModuleConfig. */
#define PD3120_WATCHDOG_ON                     0x00  /* Running out clears every OutFlag and Control */
#define PD3120_WATCHDOG_OFF                    0x10  /* Running out does nothing */

/* Functions of ChConfig. */
#define PD3120_FUNCTIONS_INPUT                 0x00  /* No output, such as for a water meter */
#define PD3120_FUNCTIONS_OUTPUT                0x10  /* By OutFlag alone */
#define PD3120_FUNCTIONS_ONE_SHOT              0x20  /* On for OutPreset when Control rises */
#define PD3120_FUNCTIONS_DUTY_CYCLE            0x30  /* On and off for OutPreset each, while Control is TRUE */
#define PD3120_FUNCTIONS_TIMER                 0x50  /* On while Control is TRUE and OutTimer above 0 */

/* ---- Numbers of a channel ---- */

/*
 * The SWNo of a register of a digital channel, 1 to 16. For another channel, or a register above $F, it is
 * PD3120_SWNO_NONE, so that no other register is reached by mistake.
 */
static inline uint16_t pd3120_swno(unsigned channel, unsigned reg)
{
    if (channel < 1 || channel > PD3120_CHANNELS || reg > 0xF)
        return PD3120_SWNO_NONE;
    return (uint16_t)(channel << 4 | reg);
}

/* The bit of a digital channel in OutFlags, InFlags and both words of IOChError; 0 outside 1 to 16. */
static inline uint16_t pd3120_channel_bit(unsigned channel)
{
    return channel < 1 || channel > PD3120_CHANNELS ? (uint16_t)0 : (uint16_t)(1u << (channel - 1));
}

/* The bit of a channel in ComHis and ComAct, of the common channel (17) too; 0 outside 1 to 17. */
static inline uint32_t pd3120_com_bit(unsigned channel)
{
    return channel < 1 || channel > PD3120_CHANNELS + 1 ? 0 : UINT32_C(1) << channel;
}

/* ---- Bytes of a register, the high byte first; pd3120.h has those of Reals and level tables ---- */

static inline uint16_t pd3120_get_u16(const uint8_t bytes[2])
{
    return (uint16_t)(bytes[0] << 8 | bytes[1]);
}

static inline void pd3120_put_u16(uint8_t bytes[2], uint16_t number)
{
    bytes[0] = (uint8_t)(number >> 8);
    bytes[1] = (uint8_t)(number & 0xFF);
}

static inline uint32_t pd3120_get_u32(const uint8_t bytes[4])
{
    return (uint32_t)pd3120_get_u16(bytes) << 16 | pd3120_get_u16(bytes + 2);
}

static inline void pd3120_put_u32(uint8_t bytes[4], uint32_t number)
{
    pd3120_put_u16(bytes, (uint16_t)(number >> 16));
    pd3120_put_u16(bytes + 2, (uint16_t)(number & 0xFFFF));
}

static inline int32_t pd3120_get_i32(const uint8_t bytes[4])
{
    uint32_t bits = pd3120_get_u32(bytes);
    int32_t number;
    memcpy(&number, &bits, sizeof number); /* an int32_t has two's complement */
    return number;
}

static inline void pd3120_put_i32(uint8_t bytes[4], int32_t number)
{
    pd3120_put_u32(bytes, (uint32_t)number);
}

/* ComHis or ComAct of CommonError, which alone have the low byte first. pd3120_com_bit has a channel's bit. */
static inline uint32_t pd3120_get_com(const uint8_t bytes[3])
{
    return bytes[0] | (uint32_t)bytes[1] << 8 | (uint32_t)bytes[2] << 16;
}

#ifdef __cplusplus
}
#endif

#endif

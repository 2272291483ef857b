//! The registers by name. `docs/REGISTERS.md` tells what each is.
//!
//! Made by `tools/registers` from `docs/registers.tsv`. Edit that file, or the text
//! in `tools/registers.d`, and run it.
//!
//! `SWNO_` begins a SWNo, for [`read`](crate::Pd3120::read) and
//! [`write`](crate::Pd3120::write): of the service, the common and the data channel.
//! `REG_` begins a register of a digital channel, of which [`swno`] makes a SWNo.
//! `SIZE_` begins the bytes of a register, `OFFSET_` where in them a field begins.
//! The others are bits of a byte, as masks, and values of one. R is read only, W
//! writable, P protected. Numbers have the high byte first, as `from_be_bytes` and
//! `to_be_bytes` have them; [`com`] is for the two that have not.
//!
//! ```
//! use pd3120::registers::*;
//! use pd3120::Pd3120;
//!
//! let mut module = Pd3120::default();
//! module.sample(4, true, 0.0)?;
//! let mut counter = [0; SIZE_COUNTER];
//! module.read(swno(4, REG_COUNTER), &mut counter)?;
//! assert_eq!(i32::from_be_bytes(counter), 1);
//!
//! // OutFlag of channel 4, which is an input: PrgError.
//! module.write(swno(4, REG_FLAG_REG), &[FLAG_OUT_FLAG])?;
//! let mut errors = [0; SIZE_CH_ERROR];
//! module.read(swno(4, REG_CH_ERROR), &mut errors)?;
//! assert_eq!(errors[OFFSET_CH_ERROR_ACT], CH_ERROR_PRG);
//! # Ok::<(), pd3120::Error>(())
//! ```

/// Digital channels, numbered from 1.
pub const CHANNELS: u8 = 16;
/// No SWNo: every wire call refuses it by 1.
pub const SWNO_NONE: u16 = 0xFFFF;

// The service channel, the common channel and the data channel.
/// NumberOfSWNo: R, 2 bytes, unsigned 16 bits.
pub const SWNO_NUMBER_OF_SWNO: u16 = 0x000;
/// Reset: W, 1 byte.
pub const SWNO_RESET: u16 = 0x003;
/// FreeRunTimer: R, 4 bytes, signed 32 bits, 1/256 s.
pub const SWNO_FREE_RUN_TIMER: u16 = 0x007;
/// WDTimer: W, 4 bytes, Real, s.
pub const SWNO_WD_TIMER: u16 = 0x008;
/// ModuleConfig: P, 4 bytes, config.
pub const SWNO_MODULE_CONFIG: u16 = 0x009;
/// WDPreset: P, 4 bytes, Real, s.
pub const SWNO_WD_PRESET: u16 = 0x00A;
/// WriteEnable: W, 1 byte, Boolean.
pub const SWNO_WRITE_ENABLE: u16 = 0x00D;
/// CommonError: W, 12 bytes, errors.
pub const SWNO_COMMON_ERROR: u16 = 0x00F;
/// OutFlags: W, 2 bytes, bits.
pub const SWNO_OUT_FLAGS: u16 = 0x110;
/// InFlags: W, 2 bytes, bits.
pub const SWNO_IN_FLAGS: u16 = 0x111;
/// IOChError: R, 4 bytes, errors.
pub const SWNO_IO_CH_ERROR: u16 = 0x112;
/// ChError: R, 4 bytes, errors.
pub const SWNO_COMMON_CH_ERROR: u16 = 0x11F;
/// RealA: W, 4 bytes, Real.
pub const SWNO_REAL_A: u16 = 0x130;
/// RealB: W, 4 bytes, Real.
pub const SWNO_REAL_B: u16 = 0x131;
/// TimerA: W, 4 bytes, Real, s.
pub const SWNO_TIMER_A: u16 = 0x13A;
/// TimerB: W, 4 bytes, Real, s.
pub const SWNO_TIMER_B: u16 = 0x13B;
/// LookUp1: P, 80 bytes, pairs of Reals.
pub const SWNO_LOOK_UP1: u16 = 0x13C;
/// LookUp2: P, 80 bytes, pairs of Reals.
pub const SWNO_LOOK_UP2: u16 = 0x13D;

// Of each digital channel.
/// FlagReg: W, 1 byte, bits.
pub const REG_FLAG_REG: u8 = 0x0;
/// OutTimer: W, 4 bytes, Real, s.
pub const REG_OUT_TIMER: u8 = 0x1;
/// Counter: W, 4 bytes, signed 32 bits, pulses.
pub const REG_COUNTER: u8 = 0x2;
/// OutCurrent: W, 4 bytes, Real, A.
pub const REG_OUT_CURRENT: u8 = 0x3;
/// OperatingTime: W, 4 bytes, Real, s.
pub const REG_OPERATING_TIME: u8 = 0x4;
/// UserByteArray: W, 4 bytes.
pub const REG_USER_BYTE_ARRAY: u8 = 0x5;
/// FBTimer: W, 4 bytes, Real, s.
pub const REG_FB_TIMER: u8 = 0x6;
/// FBPreset: P, 4 bytes, Real, s.
pub const REG_FB_PRESET: u8 = 0x7;
/// OutPreset: P, 4 bytes, Real, s.
pub const REG_OUT_PRESET: u8 = 0x8;
/// ChConfig: P, 4 bytes, config.
pub const REG_CH_CONFIG: u8 = 0x9;
/// MinCurrent: P, 4 bytes, Real, A.
pub const REG_MIN_CURRENT: u8 = 0xA;
/// MaxCurrent: P, 4 bytes, Real, A.
pub const REG_MAX_CURRENT: u8 = 0xB;
/// UserRealArray: P, 8 bytes.
pub const REG_USER_REAL_ARRAY: u8 = 0xC;
/// Maintenance: P, 4 bytes.
pub const REG_MAINTENANCE: u8 = 0xD;
/// ChError: R, 4 bytes, errors.
pub const REG_CH_ERROR: u8 = 0xF;

// Sizes.
/// Bytes of NumberOfSWNo.
pub const SIZE_NUMBER_OF_SWNO: usize = 2;
/// Bytes of Reset.
pub const SIZE_RESET: usize = 1;
/// Bytes of FreeRunTimer.
pub const SIZE_FREE_RUN_TIMER: usize = 4;
/// Bytes of WDTimer.
pub const SIZE_WD_TIMER: usize = 4;
/// Bytes of ModuleConfig.
pub const SIZE_MODULE_CONFIG: usize = 4;
/// Bytes of WDPreset.
pub const SIZE_WD_PRESET: usize = 4;
/// Bytes of WriteEnable.
pub const SIZE_WRITE_ENABLE: usize = 1;
/// Bytes of CommonError.
pub const SIZE_COMMON_ERROR: usize = 12;
/// Bytes of FlagReg.
pub const SIZE_FLAG_REG: usize = 1;
/// Bytes of OutTimer.
pub const SIZE_OUT_TIMER: usize = 4;
/// Bytes of Counter.
pub const SIZE_COUNTER: usize = 4;
/// Bytes of OutCurrent.
pub const SIZE_OUT_CURRENT: usize = 4;
/// Bytes of OperatingTime.
pub const SIZE_OPERATING_TIME: usize = 4;
/// Bytes of UserByteArray.
pub const SIZE_USER_BYTE_ARRAY: usize = 4;
/// Bytes of FBTimer.
pub const SIZE_FB_TIMER: usize = 4;
/// Bytes of FBPreset.
pub const SIZE_FB_PRESET: usize = 4;
/// Bytes of OutPreset.
pub const SIZE_OUT_PRESET: usize = 4;
/// Bytes of ChConfig.
pub const SIZE_CH_CONFIG: usize = 4;
/// Bytes of MinCurrent.
pub const SIZE_MIN_CURRENT: usize = 4;
/// Bytes of MaxCurrent.
pub const SIZE_MAX_CURRENT: usize = 4;
/// Bytes of UserRealArray.
pub const SIZE_USER_REAL_ARRAY: usize = 8;
/// Bytes of Maintenance.
pub const SIZE_MAINTENANCE: usize = 4;
/// Bytes of ChError.
pub const SIZE_CH_ERROR: usize = 4;
/// Bytes of OutFlags.
pub const SIZE_OUT_FLAGS: usize = 2;
/// Bytes of InFlags.
pub const SIZE_IN_FLAGS: usize = 2;
/// Bytes of IOChError.
pub const SIZE_IO_CH_ERROR: usize = 4;
/// Bytes of ChError.
pub const SIZE_COMMON_CH_ERROR: usize = 4;
/// Bytes of RealA.
pub const SIZE_REAL_A: usize = 4;
/// Bytes of RealB.
pub const SIZE_REAL_B: usize = 4;
/// Bytes of TimerA.
pub const SIZE_TIMER_A: usize = 4;
/// Bytes of TimerB.
pub const SIZE_TIMER_B: usize = 4;
/// Bytes of LookUp1.
pub const SIZE_LOOK_UP1: usize = 80;
/// Bytes of LookUp2.
pub const SIZE_LOOK_UP2: usize = 80;

// Fields.
/// Enablebit. Not used, 1 byte.
pub const OFFSET_MODULE_CONFIG_ENABLEBIT: usize = 0;
/// Functions. Whether the watchdog is on, 1 byte.
pub const OFFSET_MODULE_CONFIG_FUNCTIONS: usize = 1;
/// Ref_A. Not used, 1 byte.
pub const OFFSET_MODULE_CONFIG_REF_A: usize = 2;
/// Ref_B. Not used, 1 byte.
pub const OFFSET_MODULE_CONFIG_REF_B: usize = 3;
/// His. Errors of the box until they are acknowledged, 1 byte.
pub const OFFSET_COMMON_ERROR_HIS: usize = 0;
/// Act. Errors of the box that are there now, 1 byte.
pub const OFFSET_COMMON_ERROR_ACT: usize = 2;
/// ComHis. Channels whose His is not 0, 3 bytes.
pub const OFFSET_COMMON_ERROR_COM_HIS: usize = 4;
/// ComAct. Channels whose Act is not 0, in the same way, 3 bytes.
pub const OFFSET_COMMON_ERROR_COM_ACT: usize = 8;
/// Enablebit. Options, 1 byte.
pub const OFFSET_CH_CONFIG_ENABLEBIT: usize = 0;
/// Functions. What drives the output, 1 byte.
pub const OFFSET_CH_CONFIG_FUNCTIONS: usize = 1;
/// Ref_A. Channel whose InFlag is to equal OutFlag, 1 byte.
pub const OFFSET_CH_CONFIG_REF_A: usize = 2;
/// Ref_B. Channel whose InFlag is to differ from OutFlag, 1 byte.
pub const OFFSET_CH_CONFIG_REF_B: usize = 3;
/// Date. Day of the last service, 1 byte.
pub const OFFSET_MAINTENANCE_DATE: usize = 0;
/// Month. Month of the last service, 1 byte.
pub const OFFSET_MAINTENANCE_MONTH: usize = 1;
/// Year. Year of the last service, 1 byte.
pub const OFFSET_MAINTENANCE_YEAR: usize = 2;
/// Type. Type of the last service, 1 byte.
pub const OFFSET_MAINTENANCE_TYPE: usize = 3;
/// His. Errors until they are acknowledged, 1 byte.
pub const OFFSET_CH_ERROR_HIS: usize = 0;
/// Act. Errors that are there now, 1 byte.
pub const OFFSET_CH_ERROR_ACT: usize = 2;
/// His. Channels whose His is not 0, bit k-1 for channel k, 2 bytes.
pub const OFFSET_IO_CH_ERROR_HIS: usize = 0;
/// Act. Channels whose Act is not 0, bit k-1 for channel k, 2 bytes.
pub const OFFSET_IO_CH_ERROR_ACT: usize = 2;
/// His. Of His of all channels, 1 byte.
pub const OFFSET_COMMON_CH_ERROR_HIS: usize = 0;
/// Act. Of Act of all channels, 1 byte.
pub const OFFSET_COMMON_CH_ERROR_ACT: usize = 2;

// Bits of FlagReg.
/// OutFlag. The output is to be on.
pub const FLAG_OUT_FLAG: u8 = 0x80;
/// InFlag. Level of the terminal.
pub const FLAG_IN_FLAG: u8 = 0x40;
/// InAFlag. InFlag of the channel Ref_A, 0 without one.
pub const FLAG_IN_A: u8 = 0x20;
/// InBFlag. InFlag of the channel Ref_B, 0 without one.
pub const FLAG_IN_B: u8 = 0x10;
/// Control. The function of the channel drives OutFlag.
pub const FLAG_CONTROL: u8 = 0x08;
/// FBStatus. The feedback is wrong.
pub const FLAG_FB_STATUS: u8 = 0x04;
/// Error. Act of ChError is not 0.
pub const FLAG_ERROR: u8 = 0x02;

// Bits of ChError of a digital channel, in His and in Act.
/// OverLoad. The current tripped the output.
pub const CH_ERROR_OVERLOAD: u8 = 0x40;
/// UnderLoad. The load current is below MinCurrent.
pub const CH_ERROR_UNDERLOAD: u8 = 0x20;
/// ExternalShortCirError. InFlag TRUE, OutFlag FALSE, Functions not 0.
pub const CH_ERROR_EXTERNAL_SHORT_CIR: u8 = 0x10;
/// InternalShortCirError. OutFlag FALSE, and a current above 0.1 A.
pub const CH_ERROR_INTERNAL_SHORT_CIR: u8 = 0x08;
/// InternalDisconnection. OutFlag TRUE, InFlag FALSE, no OverLoad in Act.
pub const CH_ERROR_INTERNAL_DISCONNECTION: u8 = 0x04;
/// FeedBackError. FBStatus TRUE, and FBTimer below 0.
pub const CH_ERROR_FEEDBACK: u8 = 0x02;
/// PrgError. A write set a flag that Functions does not allow.
pub const CH_ERROR_PRG: u8 = 0x01;

// Bits of CommonError, in His and in Act.
/// InternalReset. The box powered up.
pub const COMMON_ERROR_INTERNAL_RESET: u8 = 0x80;
/// ExternalReset. Reset was written.
pub const COMMON_ERROR_EXTERNAL_RESET: u8 = 0x40;
/// PnetWDRunOut. The watchdog ran out.
pub const COMMON_ERROR_WD_RUN_OUT: u8 = 0x08;
/// AnyChannelError. ComHis, for Act ComAct, is not 0.
pub const COMMON_ERROR_ANY_CHANNEL: u8 = 0x01;

// Bits of ChError of the common channel, in His and in Act.
/// AnyError. The word of IOChError is not 0.
pub const COMMON_CH_ERROR_ANY: u8 = 0x01;

// Bits of Enablebit of ChConfig.
/// No overload alarm. A trip does not set OverLoad.
pub const ENABLE_NO_OVERLOAD: u8 = 0x40;
/// Underload alarm. UnderLoad is looked for.
pub const ENABLE_UNDERLOAD: u8 = 0x20;
/// Feedback simulation. InAFlag and InBFlag follow OutFlag.
pub const ENABLE_SIMULATED_FEEDBACK: u8 = 0x04;
/// Input simulation. InFlag is written, and samples do not set it.
pub const ENABLE_SIMULATED_INPUT: u8 = 0x01;

// Values of NumberOfSWNo, and of Reset.
/// Highest SWNo. SWNos above it are refused by 1.
pub const HIGHEST_SWNO: u16 = 0x13F;
/// Reset. Starts the box again.
pub const RESET_START: u8 = 0xFF;

// Values of Functions of ModuleConfig.
/// Watchdog on. Running out clears every OutFlag and Control.
pub const WATCHDOG_ON: u8 = 0x00;
/// Watchdog off. Running out does nothing.
pub const WATCHDOG_OFF: u8 = 0x10;

// Values of Functions of ChConfig.
/// Input only. No output, such as for a water meter.
pub const FUNCTIONS_INPUT: u8 = 0x00;
/// Output. By OutFlag alone.
pub const FUNCTIONS_OUTPUT: u8 = 0x10;
/// One-shot. On for OutPreset when Control rises.
pub const FUNCTIONS_ONE_SHOT: u8 = 0x20;
/// Duty cycle. On and off for OutPreset each, while Control is TRUE.
pub const FUNCTIONS_DUTY_CYCLE: u8 = 0x30;
/// Timer. On while Control is TRUE and OutTimer above 0.
pub const FUNCTIONS_TIMER: u8 = 0x50;

/// The SWNo of a register of a digital channel, 1 to 16. For another channel, or a
/// register above $F, it is [`SWNO_NONE`], so that no other register is reached by
/// mistake.
///
/// ```
/// use pd3120::registers::{swno, REG_COUNTER, SWNO_NONE};
///
/// assert_eq!(swno(4, REG_COUNTER), 0x42);
/// assert_eq!(swno(16, REG_COUNTER), 0x102);
/// assert_eq!(swno(17, REG_COUNTER), SWNO_NONE);
/// ```
#[inline]
pub const fn swno(channel: u8, register: u8) -> u16 {
    if channel < 1 || channel > CHANNELS || register > 0xF {
        return SWNO_NONE;
    }
    (channel as u16) << 4 | register as u16
}

/// The bit of a digital channel in OutFlags, InFlags and both words of IOChError;
/// 0 outside 1 to 16.
#[inline]
pub const fn channel_bit(channel: u8) -> u16 {
    if channel < 1 || channel > CHANNELS {
        return 0;
    }
    1 << (channel - 1)
}

/// The bit of a channel in ComHis and ComAct, of the common channel (17) too; 0
/// outside 1 to 17.
#[inline]
pub const fn com_bit(channel: u8) -> u32 {
    if channel < 1 || channel > CHANNELS + 1 {
        return 0;
    }
    1 << channel
}

/// ComHis or ComAct of CommonError, which alone have the low byte first.
///
/// ```
/// use pd3120::registers::*;
/// use pd3120::Pd3120;
///
/// // An overload on channel 9.
/// let mut module = Pd3120::default();
/// module.sample(9, false, 2.5)?;
/// let mut errors = [0; SIZE_COMMON_ERROR];
/// module.read(SWNO_COMMON_ERROR, &mut errors)?;
/// let at = OFFSET_COMMON_ERROR_COM_ACT;
/// let channels = com([errors[at], errors[at + 1], errors[at + 2]]);
/// assert_eq!(channels, com_bit(9) | com_bit(17));
/// # Ok::<(), pd3120::Error>(())
/// ```
#[inline]
pub const fn com(bytes: [u8; 3]) -> u32 {
    u32::from_le_bytes([bytes[0], bytes[1], bytes[2], 0])
}

//! The memory of a module is as large as the library's, and aligned as it asks.

// The copy below is there for its layout; most of its fields are never read.
#![allow(dead_code)]

use super::Module;
use core::mem::{align_of, size_of};

/// A copy of the structs of `crates/model/src/lib.rt`.
#[repr(C)]
struct Config {
    enablebit: u8,
    functions: u8,
    ref_a: u8,
    ref_b: u8,
}

#[repr(C)]
struct Flags {
    out_flag: bool,
    in_flag: bool,
    control: bool,
    fb_status: bool,
    internal_state: bool,
}

#[repr(C)]
struct Currents {
    out: f32,
    min: f32,
    max: f32,
}

#[repr(C)]
struct Errors {
    act: u8,
    his: u8,
}

#[repr(C)]
struct Kept {
    user: [u8; 4],
    counter: i32,
    operating: u32,
}

#[repr(C)]
struct Window {
    start: u16,
    end: u16,
}

#[repr(C)]
struct Timetable {
    count: u8,
    windows: [Window; 8],
}

#[repr(C)]
struct Channel {
    config: Config,
    out_timer: i32,
    fb_timer: i32,
    out_preset: i32,
    errors: Errors,
    counter: i32,
    operating: u32,
    fb_preset: i32,
    currents: Currents,
    flags: Flags,
    user: [u8; 4],
    reals: [u8; 8],
    maintenance: [u8; 4],
    quarters: u8,
    timetable: Timetable,
    kept: Kept,
}

#[repr(C)]
struct Clock {
    minute: u16,
    ticks: u16,
}

#[repr(C)]
struct Shared {
    free_run_timer: i32,
    module_config: Config,
    wd_preset: i32,
    write_enable: bool,
    save_ticks: u32,
    clock: Clock,
}

#[repr(C)]
struct ServiceBits {
    internal_reset: bool,
    external_reset: bool,
    wd_run_out: bool,
}

#[repr(C)]
struct Service {
    wd_timer: i32,
    act: ServiceBits,
    his: ServiceBits,
}

#[repr(C)]
struct DataReals {
    a: f32,
    b: f32,
}

#[repr(C)]
struct DataTimers {
    a: i32,
    b: i32,
}

#[repr(C)]
struct Pair {
    x: f32,
    y: f32,
}

#[repr(C)]
struct LevelTable {
    pairs: [Pair; 10],
}

#[repr(C)]
struct DataChannel {
    reals: DataReals,
    kept: DataReals,
    timers: DataTimers,
    table1: LevelTable,
    table2: LevelTable,
}

#[repr(C)]
struct Copied {
    shared: Shared,
    service: Service,
    channels: [Channel; 16],
    data_channel: DataChannel,
}

fn look(module: &Module) -> &Copied {
    // SAFETY: the first test shows that size and alignment are the same; the
    // library leaves a valid module, whose fields are those of the copy.
    unsafe { &*(module as *const Module).cast::<Copied>() }
}

#[test]
fn a_module_has_2012_bytes_aligned_to_4() {
    assert_eq!(size_of::<Module>(), 2012);
    assert_eq!(size_of::<Copied>(), size_of::<Module>());
    assert_eq!(align_of::<Copied>(), align_of::<Module>());
}

/// The first and the last field of the module lie where the copy has them.
#[test]
fn the_library_uses_the_memory_from_its_first_field_to_its_last() {
    let (mut module, _) = Module::powered_up(&[]);
    module.tick();
    assert_eq!(look(&module).shared.free_run_timer, 8);
    module.write(0x0D, &[1]);
    assert!(look(&module).shared.write_enable);
    module.write(0x105, &[1, 2, 3, 4]);
    module.sample(16, true, 0.0625);
    let last = &look(&module).channels[15];
    assert_eq!((last.counter, last.kept.user), (1, [1, 2, 3, 4]));
    assert_eq!(last.currents.out, 0.0625);
    module.tick();
    assert_eq!(look(&module).channels[15].quarters, 1);
    module.write(0x100, &[0x80]);
    let Errors { act, his } = look(&module).channels[15].errors;
    assert_eq!((act, his), (1, 1), "PrgError: an input has no OutFlag");
    module.write(0x130, &1.5_f32.to_be_bytes());
    module.write(0x13B, &1.0_f32.to_be_bytes());
    let mut table = [0; 80];
    table[76..].copy_from_slice(&7.0_f32.to_be_bytes());
    module.write(0x13D, &table);
    let data = &look(&module).data_channel;
    assert_eq!((data.reals.a, data.kept.a, data.timers.b), (1.5, 1.5, 256));
    assert_eq!((data.table1.pairs[9].y, data.table2.pairs[9].y), (0.0, 7.0));
}

/// Unset is a minute above 10079.
#[test]
fn the_minute_and_the_windows_lie_where_the_copy_has_them() {
    let (mut module, _) = Module::powered_up(&[]);
    assert!(look(&module).shared.clock.minute > 10_079);
    module.set_minute(10_079);
    module.tick();
    let Clock { minute, ticks } = look(&module).shared.clock;
    assert_eq!((minute, ticks), (10_079, 1));
    let windows = [0x0102_0304, 1, 2, 3, 4, 5, 6, 0x2710_0708];
    assert_eq!(module.set_windows(16, &windows), 0);
    let [.., before, last] = &look(&module).channels;
    assert_eq!((before.timetable.count, last.timetable.count), (0, 8));
    let [first, .., eighth] = &last.timetable.windows;
    assert_eq!((first.start, first.end), (0x0102, 0x0304));
    assert_eq!((eighth.start, eighth.end), (10_000, 0x0708));
    assert_eq!(last.kept.user, [0; 4]);
}

#[test]
fn no_call_writes_outside_the_module() {
    #[repr(C)]
    struct Guarded {
        before: [u32; 64],
        module: Module,
        after: [u32; 64],
    }
    let mut guarded = Guarded {
        before: [0xA5A5_A5A5; 64],
        module: Module::powered_up(&[]).0,
        after: [0xA5A5_A5A5; 64],
    };
    let mut image = [0; 886];
    guarded.module.store(&mut image);
    guarded.module.power_up(&image);
    for swno in 0..0x150 {
        guarded.module.read(swno, &mut [0; 80]);
        guarded.module.write(swno, &[0; 4]);
    }
    guarded.module.write(0x0D, &[1]);
    guarded.module.write(0x13C, &[0; 80]);
    guarded.module.write(0x13D, &[0; 80]);
    for channel in 0..18 {
        guarded.module.sample(channel, true, 3.0);
        guarded.module.set_minute(u16::from(channel));
        guarded.module.set_windows(channel, &[1; 8]);
        guarded.module.set_windows(channel, &[1; 9]);
        guarded.module.tick();
        guarded.module.output(channel);
        guarded.module.look_up(channel, 1.0);
    }
    assert_eq!(guarded.before, [0xA5A5_A5A5; 64]);
    assert_eq!(guarded.after, [0xA5A5_A5A5; 64]);
}

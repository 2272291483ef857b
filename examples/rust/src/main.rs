//! A new box, three pulses of a water meter on channel 4, and its Counter over
//! the wire; then a standpipe's valve on channel 2, which its timetable closes.

use pd3120::registers::*;
use pd3120::{hours, Error, Pd3120, Window};

/// The channel of the water meter.
const METER: u8 = 4;

/// The channel of the valve.
const VALVE: u8 = 2;

/// The ticks of a minute.
const MINUTE: usize = 1920;

/// Open from 06:00 to 20:00 on the week's first day, of which it is 19:59.
fn close_standpipe(module: &mut Pd3120) -> Result<(), Error> {
    let ch_config = swno(VALVE, REG_CH_CONFIG);
    module.write(SWNO_WRITE_ENABLE, &[1])?;
    module.write(SWNO_MODULE_CONFIG, &[0, WATCHDOG_OFF, 0, 0])?;
    module.write(ch_config, &[0, FUNCTIONS_OUTPUT, 0, 0])?;
    let day = Window {
        start: hours::minute(0, 6, 0),
        end: hours::minute(0, 20, 0),
    };
    module.set_windows(VALVE, &[day])?;
    module.set_minute(hours::minute(0, 19, 59))?;
    module.write(swno(VALVE, REG_FLAG_REG), &[FLAG_OUT_FLAG])?;
    println!("19:59, valve on: {}", module.output(VALVE));
    for _ in 0..MINUTE {
        module.tick();
    }
    println!("20:00, valve on: {}", module.output(VALVE));
    Ok(())
}

fn main() -> Result<(), Error> {
    let mut module = Pd3120::power_up(&[]).unwrap_or_else(|refused| {
        println!("power-up {refused}");
        Pd3120::default()
    });
    for _ in 0..3 {
        module.sample(METER, true, 0.0)?;
        module.sample(METER, false, 0.0)?;
    }
    let mut counter = [0; SIZE_COUNTER];
    module.read(swno(METER, REG_COUNTER), &mut counter)?;
    let pulses = i32::from_be_bytes(counter);
    println!("Counter of channel {METER}: {pulses}");
    close_standpipe(&mut module)
}

//! A program without std, as firmware is, over the Rust wrapper. It has a panic
//! handler of its own, and std has one too, so that it can't be built where the
//! wrapper or anything beneath it brings std in. Of the C library it has the
//! start, `abort`, and the few functions on memory that `core` and the archives
//! ask for. It ends with status 0 where all is as it should be.

#![no_std]
#![no_main]

use core::fmt::{self, Write};
use core::panic::PanicInfo;
use pd3120::{charge, Error, Pd3120, Tariff, FACTORY_IMAGE};

#[link(name = "c")]
extern "C" {
    fn abort() -> !;
}

#[panic_handler]
fn panic(_: &PanicInfo) -> ! {
    // SAFETY: it asks nothing of its caller.
    unsafe { abort() }
}

/// The installed `core` is built to unwind and names this. Nothing unwinds here.
#[no_mangle]
extern "C" fn rust_eh_personality() {}

/// A line of text in memory of a fixed size, as a display at the well head has it.
struct Line {
    bytes: [u8; 80],
    length: usize,
}

impl Write for Line {
    fn write_str(&mut self, text: &str) -> fmt::Result {
        let end = self.length + text.len();
        let place = self.bytes.get_mut(self.length..end).ok_or(fmt::Error)?;
        place.copy_from_slice(text.as_bytes());
        self.length = end;
        Ok(())
    }
}

fn shows(error: Error, text: &str) -> bool {
    let mut line = Line {
        bytes: [0; 80],
        length: 0,
    };
    write!(line, "{error}").is_ok() && line.bytes[..line.length] == *text.as_bytes()
}

const PROTECTED: &str = "SWNo $49: refused by 6: the register is protected, and WriteEnable is off";

/// A pulse of the meter on channel 4, its Counter, a refused write, a charge.
fn run() -> Result<bool, Error> {
    let mut module = Pd3120::power_up(&FACTORY_IMAGE)?;
    module.sample(4, true, 0.0)?;
    module.tick();
    let mut counter = [0; 4];
    module.read(0x42, &mut counter)?;
    let later = i32::from_be_bytes(counter);
    let charged = charge(0, later, 10, &Tariff::new(&[], 150));
    let refused = module.write(0x49, &[0; 4]).err();
    let shown = refused.is_some_and(|error| shows(error, PROTECTED));
    Ok(later == 1 && charged == Ok(15) && shown)
}

#[no_mangle]
pub extern "C" fn main() -> i32 {
    i32::from(run() != Ok(true))
}

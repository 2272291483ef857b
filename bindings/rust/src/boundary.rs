//! The C boundary: the exported functions of `crates/pd3120_c`, each made safe,
//! and in `charge` the one of `crates/charge_c`. Every `unsafe` of this package
//! stands here.
//!
//! What the blocks below rest on, besides what each says of itself:
//!
//! - The declarations are those of `crates/pd3120_c/src/lib.rt` and of
//!   `crates/charge_c/src/lib.rt`. A reference goes over as a pointer, a slice
//!   as a pointer and its length, a number, a Real and a bool as themselves.
//! - The functions are proved to ask nothing of a caller beyond valid
//!   references, to return, to hold no reference past their return, and to
//!   keep nothing anywhere else.
//! - A Rust slice's pointer is valid for its length and never null, also where
//!   the slice is empty.

pub mod charge;

use core::mem::MaybeUninit;

/// A module has 2012 bytes, in words of the alignment that it asks for.
const WORDS: usize = 503;

/// The memory of a module. It begins as zeros, which are a value of every field
/// of a module, and after that only the library writes it, so that it always
/// holds a valid module. What the library leaves in the padding between fields
/// is not known, so no word is ever looked at here.
#[derive(Clone)]
#[repr(C)]
pub struct Module([MaybeUninit<u32>; WORDS]);

extern "C" {
    fn pd3120_power_up(m: *mut Module, image: *const u8, length: usize) -> u32;
    fn pd3120_store(m: *const Module, buffer: *mut u8, length: usize) -> u32;
    fn pd3120_read(m: *mut Module, swno: u16, buffer: *mut u8, length: usize) -> u32;
    fn pd3120_write(m: *mut Module, swno: u16, bytes: *const u8, length: usize) -> u32;
    fn pd3120_sample(m: *mut Module, channel: u8, level: bool, amperes: f32) -> u32;
    fn pd3120_set_minute(m: *mut Module, of_week: u16) -> u32;
    fn pd3120_set_windows(m: *mut Module, channel: u8, windows: *const u32, count: usize) -> u32;
    fn pd3120_look_up(m: *const Module, table: u8, x: f32) -> u64;
    fn pd3120_tick(m: *mut Module);
    fn pd3120_output(m: *const Module, channel: u8) -> bool;
}

impl Module {
    /// The module that an image powers up to, and the code of the answer.
    #[inline]
    pub fn powered_up(image: &[u8]) -> (Module, u32) {
        let mut module = Module([MaybeUninit::new(0); WORDS]);
        let code = module.power_up(image);
        (module, code)
    }

    #[inline]
    pub fn power_up(&mut self, image: &[u8]) -> u32 {
        // SAFETY: `self` is a valid module that nobody else can reach during the
        // call; the image is a slice that is only read.
        unsafe { pd3120_power_up(self, image.as_ptr(), image.len()) }
    }

    #[inline]
    pub fn store(&self, buffer: &mut [u8]) -> u32 {
        // SAFETY: `self` is a valid module that is only read; nobody else can
        // reach the buffer during the call, and it cannot lie within `self`.
        unsafe { pd3120_store(self, buffer.as_mut_ptr(), buffer.len()) }
    }

    #[inline]
    pub fn read(&mut self, swno: u16, buffer: &mut [u8]) -> u32 {
        // SAFETY: `self` is a valid module, and nobody else can reach it or the
        // buffer during the call; the two cannot overlap.
        unsafe { pd3120_read(self, swno, buffer.as_mut_ptr(), buffer.len()) }
    }

    #[inline]
    pub fn write(&mut self, swno: u16, bytes: &[u8]) -> u32 {
        // SAFETY: `self` is a valid module that nobody else can reach during the
        // call; the bytes are a slice that is only read.
        unsafe { pd3120_write(self, swno, bytes.as_ptr(), bytes.len()) }
    }

    #[inline]
    pub fn sample(&mut self, channel: u8, level: bool, amperes: f32) -> u32 {
        // SAFETY: `self` is a valid module that nobody else can reach during the
        // call; any channel number and any Real are values that the function takes.
        unsafe { pd3120_sample(self, channel, level, amperes) }
    }

    #[inline]
    pub fn set_minute(&mut self, minute: u16) -> u32 {
        // SAFETY: `self` is a valid module that nobody else can reach during the
        // call; any number is a value that the function takes.
        unsafe { pd3120_set_minute(self, minute) }
    }

    /// Each window is its start times 65536 plus its end.
    #[inline]
    pub fn set_windows(&mut self, channel: u8, windows: &[u32]) -> u32 {
        // SAFETY: `self` is a valid module that nobody else can reach during the
        // call; the windows are a slice that is only read, of any numbers.
        unsafe { pd3120_set_windows(self, channel, windows.as_ptr(), windows.len()) }
    }

    #[inline]
    pub fn look_up(&self, table: u8, x: f32) -> u64 {
        // SAFETY: `self` is a valid module that is only read; any table number
        // and any Real are values that the function takes.
        unsafe { pd3120_look_up(self, table, x) }
    }

    #[inline]
    pub fn tick(&mut self) {
        // SAFETY: `self` is a valid module that nobody else can reach during the
        // call.
        unsafe { pd3120_tick(self) }
    }

    #[inline]
    pub fn output(&self, channel: u8) -> bool {
        // SAFETY: `self` is a valid module that is only read; any channel number
        // is a value that the function takes, and it answers 0 or 1.
        unsafe { pd3120_output(self, channel) }
    }
}

#[cfg(test)]
mod layout;

//! The exported function of `crates/charge_c`, made safe.

use crate::Tariff;

extern "C" {
    fn pd3120_charge(
        earlier: i32,
        later: i32,
        litres_per_pulse: u32,
        blocks: u32,
        limits: *const [u64; 3],
        prices: *const [u32; 4],
        cents: *mut u64,
    ) -> u32;
}

/// The number of the answer, and the cents.
#[inline]
pub fn charge(earlier: i32, later: i32, litres_per_pulse: u32, tariff: &Tariff) -> (u32, u64) {
    let mut cents = 0;
    // SAFETY: limits and prices are only read; `cents` is this function's own,
    // so that nobody else can reach it and it cannot lie within the tariff. Any
    // numbers are values that the function takes.
    let number = unsafe {
        pd3120_charge(
            earlier,
            later,
            litres_per_pulse,
            tariff.blocks,
            &tariff.limits,
            &tariff.prices,
            &mut cents,
        )
    };
    (number, cents)
}

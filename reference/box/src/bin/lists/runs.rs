//! Change 2: pump runs in the lists, and what shows c's left-over quarters.

use reference_box::generator::actions as act;
use reference_box::generator::script::Script;
use reference_box::player::Call;

/// How many calls show the quarters.
pub const SHOWING: usize = 11;
/// Which of them are the first and the last read of OperatingTime.
pub const FIRST_READ: usize = 2;
pub const LAST_READ: usize = 10;

fn operating_time(channel: u8) -> u16 {
    u16::from(channel) * 0x10 + 4
}

/// Runs of c and of others side by side, a few ticks each; c's OperatingTime
/// is read between them, and theirs is written.
pub fn pump_runs(script: &mut Script, channel: u8, others: &[u8]) {
    for _ in 0..script.random.within(3, 10) {
        script.focus = match script.random.below(2) {
            0 => vec![channel],
            _ => others.to_vec(),
        };
        act::set_any_in_flag(script);
        if script.random.chance(1, 5) {
            act::write_operating_time(script);
        }
        let ticks = script.random.within(1, 3);
        script.tick(ticks);
        if script.random.chance(1, 3) {
            script.read_register(operating_time(channel));
        }
    }
}

/// No register shows left-over quarters, but further ticks do: InFlag of c is
/// made TRUE, be it wired or simulated, and OperatingTime is read before four
/// ticks and after each. Of a count below 16777216 each step shows.
pub fn show_quarters(script: &mut Script, channel: u8) -> Vec<Call> {
    script.sample(channel, true, 0);
    script.write(u16::from(channel) * 0x10, &[0x40]);
    script.read_register(operating_time(channel));
    for _ in 0..4 {
        script.tick(1);
        script.read_register(operating_time(channel));
    }
    script.take_calls()
}

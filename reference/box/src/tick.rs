//! "A tick (1/32 s)", step by step.

use crate::calls::ChannelBox;
use crate::channel::{error, Channel, Function};
use crate::errors::RUN_OUT;
use crate::reals;

/// Counts of a tick: 8 of 1/256 s.
const STEP: i32 = 8;
/// A look at the feedback comes where FreeRunTimer is a multiple of this.
const LOOK: i32 = 32;
/// "the box counts from 0 to 1151999".
pub const LAST_OF_SAVE: u32 = 1_151_999;

impl ChannelBox {
    /// One tick. Change 7: "Registers, flags and errors after the tick must come
    /// out equal to before." No tick changes an InFlag, and a channel sees
    /// nothing else of another one, so that any order gives the same box.
    pub fn tick(&mut self) {
        // Change 6: the minute is advanced "as each 1920th tick [...] begins".
        self.clock.begin_tick();
        let minute = self.clock.now();
        let run_out = self.count_service();
        let look = self.free_run_timer % LOOK == 0;
        let in_flags = self.in_flags();
        // Change 1: "TimerA and TimerB as OutTimer".
        self.data.count_timers(STEP);
        // Change 7: "Do the channel work from 16 to 1."
        for channel in self.channels.iter_mut().rev() {
            let cleared = run_out || channel.is_closed(minute);
            channel.tick(cleared, look, in_flags);
        }
        if self.count_to_save() {
            self.save();
        }
    }

    /// "1. FreeRunTimer gains 8, wrapping. WDTimer loses 8, stopping at 0. If
    /// it is 0 and the watchdog on, service bit 3 is set and every OutFlag
    /// and Control cleared." Answers whether they are to be cleared.
    fn count_service(&mut self) -> bool {
        self.free_run_timer = self.free_run_timer.wrapping_add(STEP);
        self.wd_timer = self.wd_timer.saturating_sub(STEP).max(0);
        let run_out = self.wd_timer == 0 && self.module_config.watchdog_is_on();
        if run_out {
            self.set_service_error(RUN_OUT);
        }
        run_out
    }

    /// "7. Every 1152000th tick since power-up or reset (ten hours; the box
    /// counts from 0 to 1151999, a higher count acts as 1151999) Counter and
    /// the operating count are kept." Answers whether this tick keeps them.
    fn count_to_save(&mut self) -> bool {
        if self.save_count < LAST_OF_SAVE {
            self.save_count += 1;
            return false;
        }
        self.save_count = 0;
        true
    }

    /// "Counter and the operating count are kept." Change 1: so is RealA.
    /// Change 7: "Do the channel work from 16 to 1", that of the save too.
    fn save(&mut self) {
        for channel in self.channels.iter_mut().rev() {
            channel.keep_counts();
        }
        self.data.keep_real_a();
    }
}

impl Channel {
    /// OutFlag and Control are cleared by the watchdog, in step 1, or, Change 6,
    /// outside all windows, "after the watchdog and before the special
    /// function". Either way the change rule of step 3 compares with the tick's
    /// start, and InternalState is left to the special function.
    fn tick(&mut self, cleared: bool, look: bool, in_flags: u16) {
        let start = self.out_flag;
        if cleared {
            self.out_flag = false;
            self.control = false;
        }
        self.count_timers();
        self.run_special_function();
        self.change_rule(start);
        self.trip_on_load();
        if look {
            self.look(in_flags);
        }
        self.count_operating();
        self.judge();
    }

    /// "2. OutTimer counts down by 8 and wraps. FBTimer counts down by 8 and
    /// stops at −2147483648."
    fn count_timers(&mut self) {
        self.out_timer = self.out_timer.wrapping_sub(STEP);
        self.fb_timer = self.fb_timer.saturating_sub(STEP);
    }

    /// "3. The special function runs once by the manual's precise
    /// description, then the change rule once against the tick's start."
    fn run_special_function(&mut self) {
        match self.kept.config.function() {
            Function::Input | Function::Output => {}
            Function::OneShot => self.run_one_shot(),
            Function::DutyCycle => self.run_duty_cycle(),
            Function::Timer => self.run_timer(),
        }
    }

    /// Manual: "If NOT InternalState and FlagReg[Control] then (* Positive
    /// edge*) OutTimer:=OutPreset"; the rest is the timer output's.
    fn run_one_shot(&mut self) {
        if self.has_positive_edge() {
            self.out_timer = self.kept.out_preset;
        }
        self.run_timer();
    }

    /// Manual: "If InternalState and NOT FlagReg[Control] then (* Negative
    /// edge*) FlagReg[OutFlag]:=False; InternalState:=FlagReg[Control]; If
    /// FlagReg[Control] then If OutTimer > 0 then FlagReg[OutFlag]:=true ELSE
    /// FlagReg[OutFlag]:=false".
    fn run_timer(&mut self) {
        self.switch_off_at_negative_edge();
        self.internal_state = self.control;
        if self.control {
            self.out_flag = self.out_timer > 0;
        }
    }

    /// Manual: "(* Positive edge*) Begin OutTimer:=OutPreset;
    /// FlagReg[OutFlag]:=True End; [...] If FlagReg[Control]=True and
    /// OutTimer <= 0 then Begin FlagReg[OutFlag]:=NOT FlagReg[OutFlag];
    /// OutTimer:=OutPreset; End".
    fn run_duty_cycle(&mut self) {
        if self.has_positive_edge() {
            self.out_timer = self.kept.out_preset;
            self.out_flag = true;
        }
        self.switch_off_at_negative_edge();
        self.internal_state = self.control;
        if self.control && self.out_timer <= 0 {
            self.out_flag = !self.out_flag;
            self.out_timer = self.kept.out_preset;
        }
    }

    fn has_positive_edge(&self) -> bool {
        !self.internal_state && self.control
    }

    fn switch_off_at_negative_edge(&mut self) {
        if self.internal_state && !self.control {
            self.out_flag = false;
        }
    }

    /// "4. Trip as above if OutCurrent > 2, or OutFlag, FBTimer < 0 and
    /// OutCurrent > MaxCurrent; change rule."
    fn trip_on_load(&mut self) {
        let above_max = self.out_flag
            && self.fb_timer < 0
            && reals::greater(self.out_current, self.kept.max_current);
        if self.is_above_two() || above_max {
            self.trip();
        }
    }

    /// "5. If FreeRunTimer is a multiple of 32: FBStatus := Ref_A set and
    /// InA ≠ OutFlag, or Ref_B set and InB = OutFlag". Change 2: the operating
    /// count "is moved in step 5 of every tick", not at looks.
    fn look(&mut self, in_flags: u16) {
        let config = self.kept.config;
        let wrong_a = config.index_a().is_some() && self.in_a(in_flags) != self.out_flag;
        let wrong_b = config.index_b().is_some() && self.in_b(in_flags) == self.out_flag;
        self.fb_status = wrong_a || wrong_b;
    }

    /// "6. Act bits: [...] Bit 6 overload and 0 PrgError stay. Setting any
    /// Act bit, here or elsewhere, sets its His bit." His bits are only ever
    /// joined here: "the manual's fragment does [clear His], its general
    /// rule doesn't, and the latter holds."
    fn judge(&mut self) {
        let found = self.found_errors();
        self.act &= error::OVERLOAD | error::PRG_ERROR;
        self.set_error(found);
    }

    /// The bits 5 to 1 that hold now. "Bits 4 to 2 are 0 if input is
    /// simulated."
    fn found_errors(&self) -> u8 {
        let wired = !self.kept.config.simulates_input();
        let bits = [
            (error::UNDERLOAD, self.is_underloaded()),
            (
                error::EXTERNAL_SHORT_CIRCUIT,
                wired && self.is_short_circuited_outside(),
            ),
            (
                error::INTERNAL_SHORT_CIRCUIT,
                wired && self.is_short_circuited_inside(),
            ),
            (error::DISCONNECTION, wired && self.is_disconnected()),
            (error::FEEDBACK, self.fb_timer < 0 && self.fb_status),
        ];
        bits.iter()
            .filter(|(_, on)| *on)
            .fold(0, |byte, (bit, _)| byte | bit)
    }

    /// Manual: "If (OutCurrent < MinCurrent) and (FlagReg.[OutFlag]=true) and
    /// (FBTimer < 0) and ChConfig.EnableBit[5] then
    /// ChError.Act[UnderLoad]:= true".
    fn is_underloaded(&self) -> bool {
        reals::less(self.out_current, self.kept.min_current)
            && self.out_flag
            && self.fb_timer < 0
            && self.kept.config.enables_underload()
    }

    /// "4 InFlag, not OutFlag, Functions not 0".
    fn is_short_circuited_outside(&self) -> bool {
        self.in_flag && !self.out_flag && !self.is_input()
    }

    /// "3 not OutFlag, OutCurrent > $3DCCCCCD as a Real".
    fn is_short_circuited_inside(&self) -> bool {
        !self.out_flag && reals::greater(self.out_current, reals::ONE_TENTH)
    }

    /// "2 OutFlag, not InFlag, no overload Act".
    fn is_disconnected(&self) -> bool {
        self.out_flag && !self.in_flag && self.act & error::OVERLOAD == 0
    }
}

#[cfg(test)]
mod tests;
#[cfg(test)]
pub(crate) mod wrong;

//! Acknowledgement, and channels brought to rest.

use crate::generator::script::Script;
use crate::generator::values;

pub fn acknowledge_all(script: &mut Script) {
    script.write(0x0F, &[0; 12]);
}

/// Brings the channels called so far to rest and acknowledges, so that errors
/// can be seen to come again. Mostly input and feedback are simulated from
/// then on.
pub fn calm(script: &mut Script) {
    let simulate = script.random.chance(3, 4);
    for channel in script.touched() {
        let swno = u16::from(channel) * 0x10;
        if simulate {
            let random = &mut script.random;
            let mut config = values::config(random, channel, &script.focus, script.flavour);
            config[0] |= 0b101;
            script.write_with_enable(swno + 9, &config);
        }
        script.write(swno, &[0]);
        script.sample(channel, false, 0);
    }
    let ticks = script.random.within(4, 8);
    script.tick(ticks);
    acknowledge_all(script);
}

//! ChConfig and ModuleConfig: their fields and what these mean.

use crate::CHANNELS;

/// "Functions: 0 input, $10 output, $20 one-shot, $30 duty cycle, $50 timer."
#[derive(Clone, Copy, Debug, PartialEq, Eq)]
pub enum Function {
    Input,
    Output,
    OneShot,
    DutyCycle,
    Timer,
}

/// ChConfig and ModuleConfig, as the four bytes stand.
#[derive(Clone, Copy, Debug, Default, PartialEq, Eq)]
pub struct Config {
    pub enable: u8,
    pub functions: u8,
    pub ref_a: u8,
    pub ref_b: u8,
}

impl Config {
    /// From four bytes in the order of the record.
    pub fn from_bytes(bytes: [u8; 4]) -> Config {
        let [enable, functions, ref_a, ref_b] = bytes;
        Config {
            enable,
            functions,
            ref_a,
            ref_b,
        }
    }

    pub fn to_bytes(self) -> [u8; 4] {
        [self.enable, self.functions, self.ref_a, self.ref_b]
    }

    /// The fields a ChConfig may be written with; any Enablebit is allowed.
    pub fn is_allowed_for_channel(self) -> bool {
        let listed = matches!(self.functions, 0 | 0x10 | 0x20 | 0x30 | 0x50);
        let highest = CHANNELS as u8;
        listed && self.ref_a <= highest && self.ref_b <= highest
    }

    /// "Functions (0 watchdog on, $10 off), Ref_A, Ref_B; unused bytes kept."
    pub fn is_allowed_for_module(self) -> bool {
        matches!(self.functions, 0 | 0x10)
    }

    pub fn watchdog_is_on(self) -> bool {
        self.functions != 0x10
    }

    /// "A box value with other settings acts as Functions 0".
    pub fn function(self) -> Function {
        match self.functions {
            0x10 => Function::Output,
            0x20 => Function::OneShot,
            0x30 => Function::DutyCycle,
            0x50 => Function::Timer,
            _ => Function::Input,
        }
    }

    /// "Enablebit 0 simulates input".
    pub fn simulates_input(self) -> bool {
        self.enable & 1 << 0 != 0
    }

    /// "2 feedback".
    pub fn simulates_feedback(self) -> bool {
        self.enable & 1 << 2 != 0
    }

    /// "5 enables underload".
    pub fn enables_underload(self) -> bool {
        self.enable & 1 << 5 != 0
    }

    /// "6 silences overload".
    pub fn silences_overload(self) -> bool {
        self.enable & 1 << 6 != 0
    }

    /// The index of the channel that Ref_A names.
    pub fn index_a(self) -> Option<usize> {
        index_of(self.ref_a)
    }

    /// The index of the channel that Ref_B names.
    pub fn index_b(self) -> Option<usize> {
        index_of(self.ref_b)
    }

    pub fn names_a_reference(self) -> bool {
        self.index_a().is_some() || self.index_b().is_some()
    }
}

/// "A reference is no channel, or a channel from 1 to 16." Any other acts as
/// "reference 0".
fn index_of(reference: u8) -> Option<usize> {
    let channel = usize::from(reference);
    (1..=CHANNELS).contains(&channel).then(|| channel - 1)
}

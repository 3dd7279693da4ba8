//! What a call answered.

use std::borrow::Cow;
use std::fmt;

/// A set of document 01's numbers. 0 stands for a call that was met.
#[derive(Clone, Copy, PartialEq, Eq, Hash, PartialOrd, Ord)]
pub struct Numbers(u32);

impl Numbers {
    pub const NONE: Numbers = Numbers(0);
    pub const MET: Numbers = Numbers(1);

    pub const fn one(number: u32) -> Numbers {
        Numbers(1 << number)
    }

    pub const fn or(self, number: u32) -> Numbers {
        Numbers(self.0 | 1 << number)
    }

    pub const fn contains(self, number: u32) -> bool {
        number < 32 && self.0 >> number & 1 == 1
    }

    pub fn iter(self) -> impl Iterator<Item = u32> {
        (0..32).filter(move |&number| self.contains(number))
    }
}

impl fmt::Display for Numbers {
    /// The numbers with a bar between them, as in `11|13`.
    fn fmt(&self, f: &mut fmt::Formatter) -> fmt::Result {
        for (i, number) in self.iter().enumerate() {
            write!(f, "{}{number}", if i == 0 { "" } else { "|" })?;
        }
        Ok(())
    }
}

impl fmt::Debug for Numbers {
    fn fmt(&self, f: &mut fmt::Formatter) -> fmt::Result {
        write!(f, "{{{self}}}")
    }
}

/// What the Rust did with a call.
#[derive(Clone, Debug, PartialEq, Eq)]
pub struct Outcome {
    pub met: bool,
    /// The Rust's own text or enum name if it refused, or its panic message.
    pub what: Cow<'static, str>,
    /// The numbers that this answer may stand for: just 0 if met, none after a panic.
    pub numbers: Numbers,
    /// What a met call answered, 0 if nothing.
    pub value: u64,
    pub panicked: bool,
}

impl Outcome {
    pub fn met(value: u64) -> Outcome {
        Outcome {
            met: true,
            what: Cow::Borrowed(""),
            numbers: Numbers::MET,
            value,
            panicked: false,
        }
    }

    pub fn refused(what: &'static str, numbers: Numbers) -> Outcome {
        Outcome { met: false, what: Cow::Borrowed(what), numbers, value: 0, panicked: false }
    }

    pub fn panicked(message: String) -> Outcome {
        Outcome {
            met: false,
            what: Cow::Owned(message),
            numbers: Numbers::NONE,
            value: 0,
            panicked: true,
        }
    }

    /// Whether another implementation's number and value agree with this answer.
    pub fn agrees(&self, number: u32, value: u64) -> bool {
        self.numbers.contains(number) && self.value == value
    }

    /// The line that the key program prints for this answer.
    pub fn key_line(&self, kind: u8) -> String {
        if self.panicked {
            return format!("{kind} panic {:016x}", self.value);
        }
        format!("{kind} {} {:016x}", self.numbers, self.value)
    }
}

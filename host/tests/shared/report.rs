//! Counts and prints checks.

#![allow(dead_code)] // no program uses all of it

use crate::guard;
use std::fmt::Debug;
use std::process;

/// A check by its name.
pub type Check = (&'static str, fn() -> Result<(), String>);

/// The number of cases compared, or what differs.
pub type Checked = Result<u64, String>;

#[derive(Default)]
pub struct Report {
    passed: usize,
    failed: usize,
}

impl Report {
    pub fn check(&mut self, name: &str, result: Result<(), String>) {
        guard::at(format!("after `{name}`"));
        match result {
            Ok(()) => {
                self.passed += 1;
                println!("ok {name}");
            }
            Err(why) => {
                self.failed += 1;
                println!("FAILED {name}: {why}");
            }
        }
    }

    /// Reports a check with the number of its cases.
    pub fn tell(&mut self, name: &str, checked: Checked) {
        let name = match &checked {
            Ok(cases) => format!("{name} ({cases} cases)"),
            Err(_) => name.to_string(),
        };
        self.check(&name, checked.map(drop));
    }

    pub fn finish(self) -> ! {
        println!("{} passed, {} failed", self.passed, self.failed);
        process::exit(i32::from(self.failed > 0));
    }
}

/// That two values are equal.
pub fn equal<T: PartialEq + Debug>(got: T, wanted: T) -> Result<(), String> {
    match got == wanted {
        true => Ok(()),
        false => Err(format!("got {got:x?}, wanted {wanted:x?}")),
    }
}

/// That two values are equal, else where they differ.
pub fn equal_at<T: PartialEq + Debug>(at: impl Debug, got: T, wanted: T) -> Result<(), String> {
    equal(got, wanted).map_err(|why| format!("at {at:x?}: {why}"))
}

/// That something holds, else what was expected.
pub fn holds(condition: bool, expected: &str) -> Result<(), String> {
    condition.then_some(()).ok_or_else(|| format!("expected {expected}"))
}

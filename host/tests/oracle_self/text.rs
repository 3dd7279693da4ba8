//! The oracle runs the original text but for the table's rows.

#[allow(dead_code)]
#[path = "../../oracle/substitutions.rs"]
mod substitutions;

use crate::report::{equal, holds, Report};

macro_rules! module {
    ($name:literal) => {
        (
            $name,
            include_str!(concat!("../../../docs/src/src--mm--src--", $name, ".rs.txt")),
            include_str!(concat!("../../../target/host/oracle/src/", $name, ".rs")),
        )
    };
}

/// Each module's name, its original and the text that was compiled.
const MODULES: [(&str, &str, &str); 7] = [
    module!("allocator"),
    module!("frame"),
    module!("paging"),
    module!("vmalloc"),
    module!("mmap"),
    module!("page_fault"),
    module!("page_handler"),
];

pub fn check(report: &mut Report) {
    for (name, original, compiled) in MODULES {
        report.check(&format!("text of {name}"), is_original(name, original, compiled));
    }
    for row in &substitutions::TABLE {
        let name = format!("a changed line is noticed: {} `{}`", row.module, row.text);
        report.check(&name, changed_line(row));
    }
    report
        .check("no line of the originals is left that a user program may not run", nothing_left());
}

/// The compiled text is the original with its rows, and below it only the accessors.
fn is_original(name: &str, original: &str, compiled: &str) -> Result<(), String> {
    let prepared = substitutions::apply(name, original)?;
    let below =
        compiled.strip_prefix(&prepared).ok_or("the compiled text is not the prepared one")?;
    holds(below.starts_with(substitutions::BELOW), "the accessors")?;
    equal(substitutions::undo(name, &prepared).as_str(), original)
}

fn changed_line(row: &substitutions::Substitution) -> Result<(), String> {
    let found = MODULES.iter().find(|(name, ..)| *name == row.module);
    let (name, original, _) = found.ok_or("no such module")?;
    let without = original.replacen(row.text, "", 1);
    let twice = original.replacen(row.text, &row.text.repeat(2), 1);
    holds(substitutions::apply(name, &without).is_err(), "a refusal of one hit too few")?;
    holds(substitutions::apply(name, &twice).is_err(), "a refusal of one hit too many")
}

fn nothing_left() -> Result<(), String> {
    let left = MODULES.iter().find(|(.., compiled)| compiled.contains("asm!"));
    holds(left.is_none(), "no assembly")
}

//! Writes the oracle's modules: each original text with its substitutions, and below it
//! an accessor module, which as a child may read and set what the original keeps private,
//! and a stand-in for what an older compiler's numbers lack.
//!
//! Usage: prepare ORIGINALS ACCESSORS OUTPUT (three folders)

mod substitutions;

use std::path::Path;
use std::{env, fs, process};

fn main() {
    let folders: Vec<String> = env::args().skip(1).collect();
    let (originals, accessors, output) = match folders.as_slice() {
        [originals, accessors, output] => (originals, accessors, output),
        _ => fail("usage: prepare ORIGINALS ACCESSORS OUTPUT"),
    };
    if let Err(why) = fs::create_dir_all(output) {
        fail(&format!("{output}: {why}"));
    }
    for module in substitutions::MODULES {
        let original = read(&Path::new(originals).join(substitutions::file_name(module)));
        let accessor = read(&Path::new(accessors).join(format!("{module}.rs")));
        let prepared = match substitutions::apply(module, &original) {
            Ok(text) => format!("{text}{}{accessor}}}\n", substitutions::BELOW),
            Err(why) => fail(&why),
        };
        write_if_changed(&Path::new(output).join(format!("{module}.rs")), &prepared);
    }
}

fn read(path: &Path) -> String {
    fs::read_to_string(path).unwrap_or_else(|why| fail(&format!("{}: {why}", path.display())))
}

/// Leaves an equal file alone, so that its time stamp tells when the text last changed.
fn write_if_changed(path: &Path, text: &str) {
    if matches!(fs::read_to_string(path), Ok(old) if old == text) {
        return;
    }
    if let Err(why) = fs::write(path, text) {
        fail(&format!("{}: {why}", path.display()));
    }
}

fn fail(why: &str) -> ! {
    eprintln!("prepare: {why}");
    process::exit(1);
}

//! The only places where the oracle's text departs from the original.
//!
//! Each row is an exact text, what stands in for it, and how often the text must occur.
//! A file whose lines changed upstream no longer fits its rows, and the build stops.

/// The modules of the original, by file name without its ending.
pub const MODULES: [&str; 7] =
    ["allocator", "frame", "paging", "vmalloc", "mmap", "page_fault", "page_handler"];

pub struct Substitution {
    pub module: &'static str,
    pub text: &'static str,
    pub replacement: &'static str,
    pub hits: usize,
    pub reason: &'static str,
}

pub const TABLE: [Substitution; 8] = [
    Substitution {
        module: "paging",
        text: r#"core::arch::asm!("invlpg [{}]", in(reg) addr, options(nostack));"#,
        replacement: "crate::stand_in::invlpg(addr);",
        hits: 1,
        reason: "a user program may not flush the TLB",
    },
    Substitution {
        module: "paging",
        text: r#"core::arch::asm!("mov {}, cr3", out(reg) cr3, options(nomem, nostack));"#,
        replacement: "cr3 = crate::stand_in::cr3();",
        hits: 2,
        reason: "a user program may not read CR3: the root is lent",
    },
    Substitution {
        module: "paging",
        text: r#"core::arch::asm!("mov cr3, {}", in(reg) cr3, options(nostack));"#,
        replacement: "crate::stand_in::set_cr3(cr3);",
        hits: 1,
        reason: "a user program may not write CR3",
    },
    Substitution {
        module: "page_fault",
        text: "let src_ptr = src_virt as *const u8;",
        replacement: "let src_ptr = crate::stand_in::copy_source(&mapper, src_virt);",
        hits: 1,
        reason: "the page is read where translate now puts it",
    },
    Substitution {
        module: "page_fault",
        text: "let dst_ptr = TEMP_MAP_ADDR as *mut u8;",
        replacement: "let dst_ptr = dst_phys as *mut u8;",
        hits: 1,
        reason: "the temporary page stands for the new frame",
    },
    Substitution {
        module: "page_handler",
        text: "ptr::write_bytes(virt_addr as *mut u8, 0, 4096);",
        replacement: "ptr::write_bytes(phys_frame.start_address() as *mut u8, 0, 4096);",
        hits: 1,
        reason: "the new page stands for the frame just taken",
    },
    Substitution {
        module: "page_handler",
        text: r#"core::arch::asm!("mov {}, cr3", out(reg) cr3, options(nomem, nostack));"#,
        replacement: "cr3 = crate::stand_in::cr3();",
        hits: 1,
        reason: "a user program may not read CR3: the root is lent",
    },
    Substitution {
        module: "page_handler",
        text: r#"core::arch::asm!("invlpg [{}]", in(reg) virt_addr, options(nostack, preserves_flags));"#,
        replacement: "crate::stand_in::invlpg(virt_addr);",
        hits: 1,
        reason: "a user program may not flush the TLB",
    },
];

/// What stands between an original text and its accessors.
pub const BELOW: &str =
    "\n#[allow(unused_imports)]\nuse crate::stand_in::Multiple as _;\npub mod access {\n";

/// The original's file name in docs/src.
pub fn file_name(module: &str) -> String {
    format!("src--mm--src--{module}.rs.txt")
}

/// The original text of one module with its rows applied, or which row does not fit.
pub fn apply(module: &str, original: &str) -> Result<String, String> {
    let mut text = original.to_string();
    for row in TABLE.iter().filter(|row| row.module == module) {
        let hits = original.matches(row.text).count();
        if hits != row.hits {
            return Err(format!(
                "{module}: expected {} of `{}` ({}), found {hits}",
                row.hits, row.text, row.reason
            ));
        }
        if original.contains(row.replacement) {
            return Err(format!("{module}: `{}` stands in the original", row.replacement));
        }
        text = text.replace(row.text, row.replacement);
    }
    Ok(text)
}

/// The original text again, from a prepared one.
#[allow(dead_code)] // for the self test
pub fn undo(module: &str, prepared: &str) -> String {
    let rows = TABLE.iter().filter(|row| row.module == module);
    rows.fold(prepared.to_string(), |text, row| text.replace(row.replacement, row.text))
}

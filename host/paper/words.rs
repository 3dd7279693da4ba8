//! Words for numbers.

/// So many of something, as in `1 frame` and `2 frames`.
pub fn counted(count: u64, what: &str) -> String {
    format!("{count} {what}{}", if count == 1 { "" } else { "s" })
}

//! Call tapes: one kind byte, then the fields of that kind, little-endian.
//!
//! Kinds 1 to 6 are document 01's, which the key program knows; a tape with kinds up to 21 is called wide. Where
//! document 01 is silent, a flags byte may hold any bits (0 writable, 1 user, the others without meaning) and a
//! truth byte is 0 or 1.

use crate::{Call, Shape};

/// The kinds of document 01's tape, which the key program knows, and those of a wide tape.
pub const KINDS: u8 = 6;
pub const WIDE_KINDS: u8 = 21;

/// A tape as read.
#[derive(Clone, Debug, PartialEq, Eq)]
pub struct Tape {
    pub calls: Vec<Call>,
    /// The offset of the kind byte at which reading had to end, if it did not reach the end.
    pub broken: Option<usize>,
}

/// Reads a tape of kinds 1 to `kinds`.
///
/// ```
/// use calls::{tape, Call};
///
/// let tape = tape::parse(&[2, 0, 0, 0, 0, 0, 0, 0, 0, 7], tape::KINDS);
/// assert_eq!((tape.calls, tape.broken), (vec![Call::Vfree { addr: 0 }], Some(9)));
/// ```
pub fn parse(bytes: &[u8], kinds: u8) -> Tape {
    let mut calls = Vec::new();
    let mut at = 0;
    while at < bytes.len() {
        match parse_call(&bytes[at..], kinds) {
            Some((call, length)) => {
                calls.push(call);
                at += length;
            }
            None => return Tape { calls, broken: Some(at) },
        }
    }
    Tape { calls, broken: None }
}

/// The call at the front and its length in bytes.
fn parse_call(bytes: &[u8], kinds: u8) -> Option<(Call, usize)> {
    let kind = *bytes.first()?;
    if kind > kinds {
        return None;
    }
    let mut at = 1;
    let mut fields = Vec::new();
    for &(_, width) in Shape::of(kind)?.fields {
        let mut word = [0; 8];
        word[..width].copy_from_slice(bytes.get(at..at + width)?);
        fields.push(u64::from_le_bytes(word));
        at += width;
    }
    Some((Call::from_fields(kind, &fields)?, at))
}

/// The bytes of a tape.
///
/// ```
/// use calls::{tape, Call};
///
/// let bytes = tape::serialise(&[Call::Vmalloc { size: 1 }]);
/// assert_eq!(bytes, [1, 1, 0, 0, 0, 0, 0, 0, 0]);
/// ```
pub fn serialise(calls: &[Call]) -> Vec<u8> {
    let mut bytes = Vec::new();
    for call in calls {
        bytes.push(call.kind());
        for (&(_, width), value) in call.shape().fields.iter().zip(call.fields()) {
            bytes.extend_from_slice(&value.to_le_bytes()[..width]);
        }
    }
    bytes
}

/// Bytes as pairs of lower-case hexadecimal digits.
///
/// ```
/// assert_eq!(calls::tape::hex(&[1, 255]), "01ff");
/// ```
pub fn hex(bytes: &[u8]) -> String {
    bytes.iter().map(|byte| format!("{byte:02x}")).collect()
}

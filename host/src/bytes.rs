//! The fields of 32 bytes, little-endian: of an answer and of a question's record.

use crate::{Date, Instant};
use std::fmt;

/// How many bytes an answer has, and a question's record.
pub const LEN: usize = 32;

pub type Bytes = [u8; LEN];

pub fn field<const N: usize>(bytes: &Bytes, at: usize) -> [u8; N] {
    std::array::from_fn(|i| bytes[at + i])
}

pub fn count(bytes: &Bytes, at: usize) -> u32 {
    u32::from_le_bytes(field(bytes, at))
}

pub fn date(bytes: &Bytes, at: usize) -> Date {
    Date::from_bytes(field(bytes, at))
}

/// Seconds in eight bytes, nanoseconds in the four behind them.
pub fn instant(bytes: &Bytes, at: usize) -> Instant {
    Instant::new(i64::from_le_bytes(field(bytes, at)), count(bytes, at + 8))
}

#[must_use]
pub fn with(mut bytes: Bytes, at: usize, field: &[u8]) -> Bytes {
    bytes[at..at + field.len()].copy_from_slice(field);
    bytes
}

#[must_use]
pub fn with_instant(bytes: Bytes, at: usize, Instant { seconds, nanos }: Instant) -> Bytes {
    with(with(bytes, at, &seconds.to_le_bytes()), at + 8, &nanos.to_le_bytes())
}

/// 64 hexadecimal digits.
pub fn hex(bytes: &Bytes, f: &mut fmt::Formatter<'_>) -> fmt::Result {
    bytes.iter().try_for_each(|byte| write!(f, "{byte:02x}"))
}

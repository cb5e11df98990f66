use crate::{Answer, Date, Instant};

/// The fields of an answer one by one, all 32 bytes in their order. Two answers are the same if their
/// fields are; to compare them so spares the time that the bytes would take on their way through
/// memory.
#[derive(Clone, Copy, Default, PartialEq, Eq)]
pub struct Fields {
    pub number: u8,
    pub kind: u8,
    /// Bytes 2 and 3, which nothing fills.
    pub second: [u8; 2],
    pub count: u32,
    pub instant: Instant,
    pub date: Date,
    /// Bytes 24 to 27: a span's last date, or the days that a count tested.
    pub word24: [u8; 4],
    /// Bytes 28 to 31: a verdict's margin.
    pub word28: [u8; 4],
}

impl Fields {
    pub fn of(answer: &Answer) -> Fields {
        let [number, kind, second @ ..]: [u8; 4] = answer.field(0);
        Fields {
            number,
            kind,
            second,
            count: answer.count(),
            instant: answer.instant(),
            date: answer.date(),
            word24: answer.field(24),
            word28: answer.field(28),
        }
    }
}

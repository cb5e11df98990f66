//! Random arguments from a fixed seed.

use mako_fristen_host::{tagesbeginn_utc, Clock, Date, Instant, Sparte};

/// xorshift64* (Vigna, 2016).
pub struct Random(pub u64);

impl Random {
    pub fn number(&mut self) -> u64 {
        self.0 ^= self.0 >> 12;
        self.0 ^= self.0 << 25;
        self.0 ^= self.0 >> 27;
        self.0.wrapping_mul(0x2545_f491_4f6c_dd1d)
    }

    pub fn below(&mut self, bound: u64) -> u64 {
        (self.number() >> 11) % bound
    }

    pub fn byte(&mut self) -> u8 {
        self.number().to_le_bytes()[7]
    }

    pub fn bytes<const N: usize>(&mut self) -> [u8; N] {
        std::array::from_fn(|_| self.byte())
    }

    /// Mostly a date, sometimes the 29th to 31st of a month that may lack it, or any numbers.
    pub fn date(&mut self) -> Date {
        let year = 1996 + self.below(904) as u16;
        let month = 1 + self.below(12) as u8;
        match self.below(16) {
            0 => Date::from_bytes(self.bytes()),
            1 => Date::new(year - 1, month, 29 + self.below(4) as u8),
            _ => Date::new(year, month, 1 + self.below(28) as u8),
        }
    }

    /// Mostly a day within three years, as an anchor is.
    pub fn date_near(&mut self, date: Date) -> Date {
        match self.below(4) {
            0 => self.date(),
            _ => Date { year: date.year.saturating_add(self.below(3) as u16), ..self.date() },
        }
    }

    /// Mostly few, as a Frist has; sometimes up to the Werktage of the calendar, or any number.
    pub fn count(&mut self) -> u32 {
        match self.below(32) {
            0 => self.number() as u32,
            1 => self.below(222_100) as u32,
            _ => self.below(45) as u32,
        }
    }

    /// Mostly one that is known, sometimes the first that is not, or any.
    pub fn code(&mut self, known: u8) -> u8 {
        match self.below(32) {
            0 => self.byte(),
            1 => known,
            _ => self.below(u64::from(known.max(1))) as u8,
        }
    }

    /// Mostly the beginning of `date` in some Sparte, or some second of the calendar.
    pub fn instant(&mut self, date: Date) -> Instant {
        const SECONDS: u64 = Instant::LAST.seconds.abs_diff(Instant::FIRST.seconds);
        let sparte = Sparte::ALL[self.below(2) as usize];
        let some = Instant::FIRST.seconds + self.below(SECONDS) as i64;
        match self.below(16) {
            0 => Instant::new(self.number() as i64, self.number() as u32),
            1 => Instant::new(Instant::LAST.seconds + self.below(3) as i64, 999_999_999),
            2 => Instant::new(Instant::FIRST.seconds - self.below(3) as i64, 0),
            3..6 => Instant::new(some, self.below(1_100_000_000) as u32),
            _ => tagesbeginn_utc(date, sparte).unwrap_or_default(),
        }
    }

    pub fn clock(&mut self) -> Clock {
        let [hour, minute, second, nanos] = self.bytes();
        match self.below(8) {
            0 => Clock::new(hour, minute, second, self.number() as u32),
            _ => Clock::new(hour % 24, minute % 60, second % 60, u32::from(nanos)),
        }
    }
}
